"""Bugs of mon_answers for tests/wrong_bodies/planted: by name the file, what stands there once, and the bug in its place."""

BUGS = {
    "stops_after_one_line": (
        "src/answering.rt",
        "        put_line(&mut printed, alloc, agent, line, scene)?;",
        "        put_line(&mut printed, alloc, agent, line, scene)?;\n        break;",
    ),
    "reads_comments": (
        "src/answering.rt",
        "[] | [b'#', ..]",
        "[]",
    ),
    "prints_the_first_reply": (
        "src/answering.rt",
        "    for _ in 1..scene.times {\n        answer_once(alloc, agent, datagram, scene.at)?;\n    }\n    answer_once(alloc, agent, datagram, scene.at)\n",
        "    let first = answer_once(alloc, agent, datagram, scene.at)?;\n    for _ in 1..scene.times {\n        answer_once(alloc, agent, datagram, scene.at)?;\n    }\n    Ok(first)\n",
    ),
    "arrives_once_more": (
        "src/answering.rt",
        "    for _ in 1..scene.times {",
        "    for _ in 0..scene.times {",
    ),
    "never_arrives": (
        "src/answering.rt",
        "    match agent.answer(alloc, datagram, at) {\n        Ok(reply) => Ok(reply),\n        Err(AgentFault::OutOfMemory) => Err(AllocError),\n    }",
        "    let _ = (alloc, agent, datagram, at);\n    Ok(Reply::Silent(mon_agent::Silence::BadMessage))",
    ),
    "arrives_at_the_start": (
        "src/answering.rt",
        "    match agent.answer(alloc, datagram, at) {",
        "    match agent.answer(alloc, datagram, Moment::new(0).unwrap_or(at)) {",
    ),
    "skips_bad_hex": (
        "src/answering.rt",
        '        Err(_) => printed.push_str("refused BadHex\\n"),',
        "        Err(_) => Ok(()),",
    ),
    "prints_nothing_for_silence": (
        "src/showing.rt",
        "        Reply::Silent(cause) => put_silence(printed, *cause),",
        "        Reply::Silent(_) => Ok(()),",
    ),
    "prints_no_bindings": (
        "src/showing.rt",
        "bindings_text(alloc, pdu.bindings.as_slice(), labels)?",
        "bindings_text(alloc, &pdu.bindings.as_slice()[..0], labels)?",
    ),
    "prints_the_index_as_status": (
        "src/showing.rt",
        "put_status(printed, pdu.error_status, pdu.error_index)?;",
        "put_status(printed, pdu.error_index, pdu.error_status)?;",
    ),
    "prints_all_in_digits": (
        "src/showing.rt",
        "        Ok(message) => Ok(pdu_of(message)),",
        "        Ok(message) => Ok(pdu_of(message).and(None)),",
    ),
    "arrives_once": (
        "src/answering.rt",
        "    for _ in 1..scene.times {",
        "    for _ in 1..scene.times.min(1) {",
    ),
    "ignores_names": (
        "src/showing.rt",
        "            Some(labels) => put_named(printed, alloc, octets.as_slice(), labels),",
        "            Some(_) => put_digits(printed, alloc, octets.as_slice()),",
    ),
    "reads_no_line": (
        "src/answering.rt",
        "    for line in text.lines() {",
        '    for line in "".lines() {',
    ),
    "answers_each_line_twice": (
        "src/answering.rt",
        "        put_line(&mut printed, alloc, agent, line, scene)?;",
        "        put_line(&mut printed, alloc, agent, line, scene)?;\n        put_line(&mut printed, alloc, agent, line, scene)?;",
    ),
    "skips_a_line_of_one_octet": (
        "src/answering.rt",
        "[] | [b'#', ..]",
        "[] | [_] | [b'#', ..]",
    ),
    "names_no_cause_of_bad_hex": (
        "src/answering.rt",
        '"refused BadHex\\n"',
        '"refused\\n"',
    ),
    "arrives_once_less": (
        "src/answering.rt",
        "    for _ in 1..scene.times {",
        "    for _ in 2..scene.times {",
    ),
    "answers_an_arrival_twice": (
        "src/answering.rt",
        "    match agent.answer(alloc, datagram, at) {",
        "    let _ = agent.answer(alloc, datagram, at);\n    match agent.answer(alloc, datagram, at) {",
    ),
    "prints_no_digits": (
        "src/showing.rt",
        "            None => put_digits(printed, alloc, octets.as_slice()),",
        "            None => Ok(()),",
    ),
    "swaps_the_number_and_name_of_silence": (
        "src/showing.rt",
        '"silent {number} {name}\\n"',
        '"silent {name} {number}\\n"',
    ),
    "ends_no_line_of_digits": (
        "src/showing.rt",
        '"{digits}\\n"',
        '"{digits}"',
    ),
    "prints_nothing_without_a_pdu": (
        "src/showing.rt",
        "        None => put_digits(printed, alloc, octets),",
        "        None => Ok(()),",
    ),
    "reads_no_message_over_484_octets": (
        "src/showing.rt",
        "    match read_message(alloc, octets) {",
        "    if octets.len() > 484 {\n        return Ok(None);\n    }\n    match read_message(alloc, octets) {",
    ),
    "no_body_has_a_pdu": (
        "src/showing.rt",
        "        Body::Pdu(pdu) => Some(pdu),",
        "        Body::Pdu(_) => None,",
    ),
    "prints_the_status_last": (
        "src/showing.rt",
        "    put_status(printed, pdu.error_status, pdu.error_index)?;\n    let lines = bindings_text(alloc, pdu.bindings.as_slice(), labels)?;\n    printed.push_str(lines.as_str())",
        "    let lines = bindings_text(alloc, pdu.bindings.as_slice(), labels)?;\n    printed.push_str(lines.as_str())?;\n    put_status(printed, pdu.error_status, pdu.error_index)",
    ),
    "each_status_is_without_an_index": (
        "src/showing.rt",
        '    write!(printed, "reply {name} ({status}) {index}\\n")',
        '    let _ = index;\n    write!(printed, "reply {name} ({status}) 0\\n")',
    ),
    "an_unknown_status_is_no_error": (
        "src/showing.rt",
        'unwrap_or("another error-status")',
        'unwrap_or("noError")',
    ),
}

# Those that break a promise as a whole, each with its function: tests/bodies tries them in the gate.
PROMISES = {
    "arrives_once": "answering::answer_repeated",
    "ignores_names": "showing::put_reply",
    "reads_no_line": "answering::answer_lines",
}
