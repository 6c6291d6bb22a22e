"""Bugs of mon_health_commands for tests/wrong_bodies/planted: by name the file, what stands there once, and the bug in its place."""

BUGS = {
    "says_healthy_without_asking": (
        "src/health.rt",
        "    ask(alloc, network, word, at)?;\n",
        "",
    ),
    "prints_nothing": (
        "src/health.rt",
        '    print(alloc, host, b"healthy\\n")\n',
        "    Ok(())\n",
    ),
    "takes_each_status_for_healthy": (
        "src/health.rt",
        "        Ok(OK) => Ok(()),\n        Ok(status) => Err(Trouble::Status(status).failure(alloc, word)),\n",
        "        Ok(_) => Ok(()),\n",
    ),
    "takes_204_for_healthy": (
        "src/health.rt",
        "const OK: u16 = 200;",
        "const OK: u16 = 204;",
    ),
    "takes_silence_for_healthy": (
        "src/health.rt",
        "        Err(trouble) => Err(trouble.failure(alloc, word)),\n",
        "        Err(_) => Ok(()),\n",
    ),
    "says_another_trouble": (
        "src/health.rt",
        "        Err(trouble) => Err(trouble.failure(alloc, word)),\n",
        "        Err(_) => Err(Trouble::Closed.failure(alloc, word)),\n",
    ),
    "never_connects": (
        "src/health.rt",
        "    match network.connect(at, LIMIT) {",
        "    let _ = (network, at, &mut seen, &mut buffer);\n    return Ok(Err(Trouble::Closed));\n    match network.connect(at, LIMIT) {",
    ),
    "asks_for_another_path": (
        "src/health.rt",
        'b"/healthz")?;',
        'b"/metrics")?;',
    ),
    "waits_longer": (
        "src/asking.rt",
        "pub(crate) const LIMIT: u64 = 2;",
        "pub(crate) const LIMIT: u64 = 3;",
    ),
    "limits_no_reads": (
        "src/asking.rt",
        "    limit_reads(stream)?;\n",
        "",
    ),
    "sends_a_part": (
        "src/asking.rt",
        "        Ok(n) => send(stream, &octets[n..]),\n",
        "        Ok(_) => Ok(()),\n",
    ),
    "sends_nothing": (
        "src/asking.rt",
        "    send(stream, request)?;\n",
        "    let _ = request;\n",
    ),
    "sends_again_from_the_start": (
        "src/asking.rt",
        "        Ok(n) => send(stream, &octets[n..]),\n",
        "        Ok(1) => send(stream, &octets[1..]),\n        Ok(n) => send(stream, &octets[n - 1..]),\n",
    ),
    "reads_one_piece": (
        "src/asking.rt",
        "        Progress::More => receive(stream, seen, buffer, left - 1),\n",
        "        Progress::More => Err(Trouble::Scattered),\n",
    ),
    "takes_what_is_no_response_for_200": (
        "src/asking.rt",
        "        Progress::Refused => Err(Trouble::Malformed),\n",
        "        Progress::Refused => Ok(200),\n",
    ),
    "forgets_what_came_before": (
        "src/asking.rt",
        "            seen.extend_from_slice(&room[..n]).unwrap();\n",
        "            seen.clear();\n            seen.extend_from_slice(&room[..n]).unwrap();\n",
    ),
    "reads_an_octet_at_a_time": (
        "src/asking.rt",
        "    let room = &mut buffer[..left];\n",
        "    let room = &mut buffer[..left.min(1)];\n",
    ),
    "gives_up_before_it_reads": (
        "src/asking.rt",
        "    if left == 0 {\n",
        "    if left <= 8 {\n",
    ),
}

# A lazy body of the command, of sending, of reading and of the verdict.
PROMISES = {
    "says_healthy_without_asking": "health::ask_health",
    "takes_each_status_for_healthy": "health::ask",
    "sends_a_part": "asking::send",
    "takes_what_is_no_response_for_200": "asking::receive",
}
