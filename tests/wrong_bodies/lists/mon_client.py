"""Bugs of mon_client for tests/wrong_bodies/planted: by name the file, what stands there once, and the bug in its place."""

BUGS = {
    "asks_for_a_set_as_get": (
        "src/question.rt",
        "            Asking::Set(_) => plain(PduKind::Set, request_id, bindings),",
        "            Asking::Set(_) => plain(PduKind::Get, request_id, bindings),",
    ),
    "asks_for_the_next_as_get": (
        "src/question.rt",
        "            Asking::GetNext => plain(PduKind::GetNext, request_id, bindings),",
        "            Asking::GetNext => plain(PduKind::Get, request_id, bindings),",
    ),
    "asks_with_an_index": (
        "src/question.rt",
        "        error_index: 0,",
        "        error_index: 1,",
    ),
    "bulk_swaps_its_numbers": (
        "src/question.rt",
        "                non_repeaters: repeats.non_repeaters,",
        "                non_repeaters: repeats.max_repetitions,",
    ),
    "gives_the_status_as_index": (
        "src/client.rt",
        "            index: pdu.error_index,",
        "            index: pdu.error_status,",
    ),
    "names_gauges_counters": (
        "src/value.rt",
        '            "gauge32" => Some(ValueKind::Gauge32),',
        '            "gauge32" => Some(ValueKind::Counter32),',
    ),
    "prints_a_colon_for_the_sign": (
        "src/printed.rt",
        '    text.push_str(" = ")?;',
        '    text.push_str(" : ")?;',
    ),
    "prints_negative_statuses": (
        "src/client.rt",
        "    if pdu.error_status != 0 {",
        "    if pdu.error_status > 0 {",
    ),
    "reads_a_counter_as_gauge": (
        "src/value.rt",
        "        ValueKind::Counter32 => Value::Counter32(number32(text)?),",
        "        ValueKind::Counter32 => Value::Gauge32(number32(text)?),",
    ),
    "reads_a_string_without_blanks": (
        "src/value.rt",
        "        ValueKind::String => Value::Octets(Octets::from_slice(alloc, text.as_bytes())?),",
        "        ValueKind::String => Value::Octets(Octets::from_slice(alloc, text.trim().as_bytes())?),",
    ),
    "reads_an_integer_as_gauge": (
        "src/value.rt",
        "        ValueKind::Integer => Value::Integer(integer(text)?),",
        "        ValueKind::Integer => Value::Gauge32(number32(text)?),",
    ),
    "reads_the_next_number": (
        "src/value.rt",
        "        Ok(number) => Ok(number),",
        "        Ok(number) => Ok(number | 1),",
    ),
    "refuses_a_minus": (
        "src/value.rt",
        "        Ok(signed) => Ok(signed),",
        "        Ok(signed) => if signed >= 0 { Ok(signed) } else { Err(AppFault::BadText) },",
    ),
    "refuses_an_identifier": (
        "src/value.rt",
        "        Ok(name) => Ok(name),",
        "        Ok(_) => Err(AppFault::BadText),",
    ),
    "refuses_the_least_integer": (
        "src/value.rt",
        "        Ok(signed) => Ok(signed),",
        "        Ok(signed) => if signed == i32::MIN { Err(AppFault::BadText) } else { Ok(signed) },",
    ),
    "sets_null": (
        "src/question.rt",
        "            Asking::Set(value) => value.try_clone(alloc),",
        "            Asking::Set(_) => Ok(Value::Null),",
    ),
    "takes_a_plus": (
        "src/value.rt",
        "    text.starts_with('+')",
        "    text.starts_with('*')",
    ),
    "takes_later_request_ids": (
        "src/question.rt",
        "        && pdu.request_id == question.request_id",
        "        && pdu.request_id >= question.request_id",
    ),
    "turns_an_address_around": (
        "src/value.rt",
        "        Ok(address) => Ok(address.octets()),",
        "        Ok(address) => { let [a, b, c, d] = address.octets(); Ok([d, c, b, a]) }",
    ),
    "turns_hex_around": (
        "src/value.rt",
        "        Ok(octets) => Ok(Octets::new(octets)),",
        "        Ok(mut octets) => { octets.reverse(); Ok(Octets::new(octets)) }",
    ),
    "asks_four_times": (
        "src/asking.rt",
        "const SENDS: u8 = 3;",
        "const SENDS: u8 = 4;",
    ),
    "passes_over_254_strangers": (
        "src/asking.rt",
        "const HEARINGS: u8 = 65;",
        "const HEARINGS: u8 = 255;",
    ),
    "passes_over_63_strangers": (
        "src/asking.rt",
        "const HEARINGS: u8 = 65;",
        "const HEARINGS: u8 = 64;",
    ),
    "hears_nothing": (
        "src/asking.rt",
        "        Ok(message) => Ok(reply_of(question, message)),",
        "        Ok(message) => Ok(reply_of(question, message).and(None)),",
    ),
    "ends_the_wait_at_a_stranger": (
        "src/asking.rt",
        "            Heard::Other => {}",
        "            Heard::Other => return Ok(None),",
    ),
    "calls_a_failed_wire_a_timeout": (
        "src/asking.rt",
        "        wire.send(octets.as_slice())?;",
        "        wire.send(octets.as_slice()).map_err(|_| AppFault::Timeout)?;",
    ),
    "prints_no_binding": (
        "src/client.rt",
        "    Ok(bindings_text(alloc, bindings.as_slice(), names)?)",
        "    Ok(bindings_text(alloc, &bindings.as_slice()[..0], names)?)",
    ),
    "prints_another_status": (
        "src/client.rt",
        "    if pdu.error_status != 0 {",
        "    if pdu.error_status == 1 {",
    ),
    "walks_one_step": (
        "src/walking.rt",
        "const REQUESTS: u32 = 65_536;",
        "const REQUESTS: u32 = 1;",
    ),
    "walks_under_one_request_id": (
        "src/walking.rt",
        "        request_id: turn.request_id as i32,",
        "        request_id: 0,",
    ),
    "asks_for_the_same_name_again": (
        "src/walking.rt",
        "            Turned::On(name) => last = name,",
        "            Turned::On(_) => {}",
    ),
    "takes_any_other_name_for_a_greater": (
        "src/walking.rt",
        "    if last.compare(&found.name).is_lt() {",
        "    if !last.compare(&found.name).is_eq() {",
    ),
    "takes_other_names_for_a_set": (
        "src/question.rt",
        "        Asking::Get | Asking::Set(_) => same_names(question.names, bindings),",
        "        Asking::Get => same_names(question.names, bindings), Asking::Set(_) => true,",
    ),
    "walks_back": (
        "src/walking.rt",
        "    if last.compare(&found.name).is_lt() {",
        "    if !last.compare(&found.name).is_lt() {",
    ),
    "walks_on_past_its_start": (
        "src/walking.rt",
        "|| !start.is_prefix_of(&found.name) {",
        "|| !last.is_prefix_of(last) {",
    ),
    "wraps_at_32_bits": (
        "src/value.rt",
        "    let number = number(text)?;",
        "    let number = number(text)? % 4294967296;",
    ),
    "gives_the_index_as_status": (
        "src/client.rt",
        "            status: pdu.error_status,",
        "            status: pdu.error_index,",
    ),
    "walks_in_numbers": (
        "src/walking.rt",
        "put_binding(alloc, &mut line, found, names)?;",
        "put_binding(alloc, &mut line, found, &mon_smi::InNumbers)?;",
    ),
    "prints_values_in_numbers": (
        "src/printed.rt",
        "            let shown = names.text(alloc, name)?;",
        "            let shown = mon_smi::InNumbers.text(alloc, name)?;",
    ),
    "leaves_out_the_name": (
        "src/printed.rt",
        "    let name = names.text(alloc, &binding.name)?;\n    text.push_str(name.as_str())?;\n",
        "",
    ),
    "asks_once": (
        "src/asking.rt",
        "const SENDS: u8 = 3;",
        "const SENDS: u8 = 1;",
    ),
    "takes_what_is_no_reply": (
        "src/asking.rt",
        "    if is_reply(question, &message) {",
        "    if !is_reply(question, &message) {",
    ),
    "walks_and_prints_nothing": (
        "src/walking.rt",
        "    match host.print(line.as_bytes()) {",
        "    match host.print(&line.as_bytes()[..0]) {",
    ),
    "puts_no_line": (
        "src/walking.rt",
        "    match host.print(line.as_bytes()) {\n        Ok(()) => Ok(()),\n        Err(reason) => Err(WalkFault::Output(reason)),\n    }\n",
        "    Ok(())\n",
    ),
    "puts_a_line_twice": (
        "src/walking.rt",
        "    match host.print(line.as_bytes()) {",
        "    if let Err(reason) = host.print(line.as_bytes()) {\n        return Err(WalkFault::Output(reason));\n    }\n    match host.print(line.as_bytes()) {",
    ),
    "goes_on_after_a_refused_line": (
        "src/walking.rt",
        "        Err(reason) => Err(WalkFault::Output(reason)),",
        "        Err(_) => Ok(()),",
    ),
    "puts_a_refused_line_again": (
        "src/walking.rt",
        "    match host.print(line.as_bytes()) {",
        "    if host.print(line.as_bytes()).is_ok() {\n        return Ok(());\n    }\n    match host.print(line.as_bytes()) {",
    ),
    "gives_another_fault_of_a_refused_line": (
        "src/walking.rt",
        "        Err(reason) => Err(WalkFault::Output(reason)),",
        "        Err(_) => Err(WalkFault::App(AppFault::Timeout)),",
    ),
    "forgets_the_last_line": (
        "src/walking.rt",
        "            WalkStep::On => print_line(alloc, host, binding, names)?,",
        "            WalkStep::On => {\n                if found.len() < 65_535 {\n                    print_line(alloc, host, binding, names)?;\n                }\n            }",
    ),
    "strides_by_one": (
        "src/walking.rt",
        "                max_repetitions,\n            }),",
        "                max_repetitions: 1.min(max_repetitions),\n            }),",
    ),
    "strides_by_next": (
        "src/walking.rt",
        "            Stride::Bulk(max_repetitions) => Asking::GetBulk(Repeats {\n                non_repeaters: 0,\n                max_repetitions,\n            }),",
        "            Stride::Bulk(_) => Asking::GetNext,",
    ),
    "puts_the_first_of_an_answer": (
        "src/walking.rt",
        "    print_found(alloc, host, at, found.as_slice(), names)",
        "    print_found(alloc, host, at, &found.as_slice()[..found.as_slice().len().min(1)], names)",
    ),
    "goes_on_from_the_first_of_an_answer": (
        "src/walking.rt",
        "        last = &binding.name;",
        "        last = &found[0].name;",
    ),
    "ends_well_at_an_empty_answer": (
        "src/walking.rt",
        "        return Err(WalkFault::App(AppFault::NotIncreasing));\n    }\n    print_lines",
        "        return Ok(Turned::Over(false));\n    }\n    print_lines",
    ),
    "passes_over_names_outside_its_start": (
        "src/walking.rt",
        "            WalkStep::Past => return Ok(Turned::Over(printed)),",
        "            WalkStep::Past => continue,",
    ),
    "ends_well_at_a_refused_line": (
        "src/walking.rt",
        "            WalkStep::On => print_line(alloc, host, binding, names)?,",
        "            WalkStep::On => {\n                if print_line(alloc, host, binding, names).is_err() {\n                    return Ok(Turned::Over(printed));\n                }\n            }",
    ),
    "prints_opaque_as_a_string": (
        "src/printed.rt",
        "            let shown = hex_text(alloc, octets.as_slice())?;",
        "            let shown = string_text(alloc, octets.as_slice())?;",
    ),
    "escapes_no_backslash": (
        "src/printed.rt",
        '        if *octet == b\'"\' || *octet == b\'\\\\\' {',
        '        if *octet == b\'"\' {',
    ),
    "prints_delete_as_a_character": (
        "src/printed.rt",
        "(32..=126).contains(octet)",
        "(32..=127).contains(octet)",
    ),
    "names_a_counter64_counter32": (
        "src/printed.rt",
        'put_number(text, "Counter64", *number)',
        'put_number(text, "Counter32", *number)',
    ),
    "sends_at_most_484_octets": (
        "src/asking.rt",
        "        wire.send(octets.as_slice())?;",
        "        wire.send(&octets.as_slice()[..octets.len().min(484)])?;",
    ),
    "takes_replies_of_any_community": (
        "src/question.rt",
        "        && message.community.as_slice() == question.community\n",
        "",
    ),
    "takes_too_few_names": (
        "src/question.rt",
        "question.names.len() == bindings.len()",
        "question.names.len() >= bindings.len()",
    ),
    "hears_on_after_the_wait": (
        "src/asking.rt",
        "            Heard::Quiet => return Ok(None),",
        "            Heard::Quiet => {}",
    ),
    "takes_a_want_of_memory_for_no_reply": (
        "src/asking.rt",
        "    match fault {\n        PduFault::OutOfMemory => Err(AllocError),\n        _ => Ok(None),\n    }",
        "    let _ = fault;\n    Ok(None)",
    ),
    "sends_twice_for_each_wait": (
        "src/asking.rt",
        "        wire.send(octets.as_slice())?;",
        "        wire.send(octets.as_slice())?;\n        wire.send(octets.as_slice())?;",
    ),
    "hears_any_port_of_the_agent": (
        "src/socket.rt",
        "        Some(from) if from == agent && len <= room => Heard::Datagram(len),",
        "        Some(from) if from.octets == agent.octets && len <= room => Heard::Datagram(len),",
    ),
    "ends_well_whatever_fails": (
        "src/walking.rt",
        "        match walk_on(alloc, host, wire, &turn, names)? {\n            Turned::On(name) => last = name,\n            Turned::Over(printed) => return Ok(is_either(request_id > 0, printed)),\n        }",
        "        match walk_on(alloc, host, wire, &turn, names) {\n            Ok(Turned::On(name)) => last = name,\n            _ => return Ok(true),\n        }",
    ),
    "waits_2_milliseconds": (
        "src/socket.rt",
        "const WAIT: u32 = 2000;",
        "const WAIT: u32 = 2;",
    ),
    "begins_no_wait": (
        "src/socket.rt",
        "        self.waiting.begin(WAIT).map_err(socket_failure)?;\n",
        "",
    ),
    "sends_nothing": (
        "src/socket.rt",
        "        self.socket.send(octets, self.agent).map_err(socket_failure)\n",
        "        let _ = octets;\n        Ok(())\n",
    ),
    "sends_the_front_half": (
        "src/socket.rt",
        "        self.socket.send(octets, self.agent)",
        "        self.socket.send(&octets[..octets.len() / 2], self.agent)",
    ),
    "sends_to_another_port": (
        "src/socket.rt",
        "        self.socket.send(octets, self.agent)",
        "        self.socket.send(octets, Addr { port: 161, ..self.agent })",
    ),
    "is_quiet_at_once": (
        "src/socket.rt",
        "        match self.waiting.receive(&self.socket, room) {",
        "        if self.agent.port == 161 {\n            return Ok(Heard::Quiet);\n        }\n        match self.waiting.receive(&self.socket, room) {",
    ),
    "is_quiet_where_the_socket_fails": (
        "src/socket.rt",
        "            Err(error) => Err(socket_failure(error)),",
        "            Err(_) => Ok(Heard::Quiet),",
    ),
    "hears_on_after_a_quiet_wait": (
        "src/socket.rt",
        "            Ok(None) => Ok(Heard::Quiet),",
        "            Ok(None) => Ok(Heard::Other),",
    ),
    "hears_a_datagram_where_it_is_quiet": (
        "src/socket.rt",
        "            Ok(None) => Ok(Heard::Quiet),",
        "            Ok(None) => Ok(Heard::Datagram(0)),",
    ),
    "hears_strangers": (
        "src/socket.rt",
        "            Ok(Some((len, from))) => Ok(heard_from(self.agent, from, len, room.len())),",
        "            Ok(Some((len, _))) => Ok(Heard::Datagram(len)),",
    ),
    "asks_from_the_agents_port": (
        "src/socket.rt",
        "        let socket = open_at(rt, FREE)",
        "        let socket = open_at(rt, Addr { port: agent.port, ..FREE })",
    ),
    "asks_at_the_usual_port": (
        "src/socket.rt",
        "        Self::open_by(rt, agent)",
        "        Self::open_by(rt, Addr { port: 161, ..agent })",
    ),
    "asks_for_the_first_name_alone": (
        "src/question.rt",
        "        bindings.push(Binding { name, value })?;",
        "        if bindings.is_empty() {\n            bindings.push(Binding { name, value })?;\n        }",
    ),
    "asks_under_the_next_request_id": (
        "src/question.rt",
        "        body: question.asking.body(question.request_id, bindings),",
        "        body: question\n            .asking\n            .body(question.request_id.wrapping_add(1), bindings),",
    ),
    "asks_in_no_community": (
        "src/question.rt",
        "Octets::from_slice(alloc, question.community)?",
        "Octets::from_slice(alloc, &question.community[..0])?",
    ),
    "takes_any_kind_for_a_response": (
        "src/question.rt",
        "    pdu.kind == PduKind::Response\n",
        "    pdu.kind != PduKind::Get\n",
    ),
    "takes_no_refusal_for_a_reply": (
        "src/question.rt",
        "(pdu.error_status != 0 || are_answers",
        "(pdu.error_status == 0 && are_answers",
    ),
    "takes_no_empty_answer_to_a_bulk": (
        "src/question.rt",
        "        Asking::GetBulk(_) => true,",
        "        Asking::GetBulk(_) => !bindings.is_empty(),",
    ),
    "takes_more_names_than_it_asked_for": (
        "src/question.rt",
        "        return bindings.is_empty();",
        "        return true;",
    ),
    "never_says_that_nothing_is_there": (
        "src/walking.rt",
        "    if printed {\n        return Ok(());\n    }\n    note_empty(alloc, host, asked.start, names)",
        "    let _ = printed;\n    Ok(())",
    ),
    "says_of_every_walk_that_nothing_is_there": (
        "src/walking.rt",
        "    if printed {\n        return Ok(());\n    }\n    note_empty(",
        "    let _ = printed;\n    note_empty(",
    ),
    "says_that_nothing_is_there_of_what_it_printed": (
        "src/walking.rt",
        "    if printed {\n        return Ok(());",
        "    if !printed {\n        return Ok(());",
    ),
    "fails_where_nothing_is_there": (
        "src/walking.rt",
        "    if printed {\n        return Ok(());\n    }\n    note_empty(alloc, host, asked.start, names)",
        "    if printed {\n        return Ok(());\n    }\n    note_empty(alloc, host, asked.start, names)?;\n    Err(WalkFault::App(AppFault::Timeout))",
    ),
    "says_twice_that_nothing_is_there": (
        "src/walking.rt",
        "    if printed {\n        return Ok(());\n    }\n",
        "    if printed {\n        return Ok(());\n    }\n    note_empty(alloc, host, asked.start, names)?;\n",
    ),
    "forgets_the_lines_of_earlier_turns": (
        "src/walking.rt",
        "return Ok(is_either(request_id > 0, printed)),",
        "return Ok(is_either(false, printed)),",
    ),
    "forgets_the_lines_of_the_last_turn": (
        "src/walking.rt",
        "return Ok(is_either(request_id > 0, printed)),",
        "return Ok(is_either(request_id > 0, false)),",
    ),
    "counts_the_second_turn_only": (
        "src/walking.rt",
        "return Ok(is_either(request_id > 0, printed)),",
        "return Ok(is_either(request_id > 1, printed)),",
    ),
    "forgets_that_a_line_is_printed": (
        "src/walking.rt",
        "        printed = true;",
        "        printed = found.is_empty();",
    ),
    "says_of_a_long_walk_that_nothing_is_there": (
        "src/walking.rt",
        "    Ok(true)\n",
        "    Ok(false)\n",
    ),
    "says_the_name_in_numbers": (
        "src/walking.rt",
        "    let name = names.text(alloc, start)?;\n    host.note(",
        "    let name = start.text(alloc)?;\n    let _ = names;\n    host.note(",
    ),
    "prints_that_nothing_is_there": (
        "src/walking.rt",
        '    host.note(\n        Level::Info,\n        format_args!("snmpmon: nothing is below {name}\\n"),\n    );\n    Ok(())',
        '    let _ = host.print(name.as_bytes());\n    Ok(())',
    ),
    "walks_in_another_community": (
        "src/walking.rt",
        "        community: turn.asked.community,",
        '        community: b"public",',
    ),
    "walks_in_a_circle": (
        "src/walking.rt",
        "    if last.compare(&found.name).is_lt() {",
        "    if last.compare(&found.name).is_le() {",
    ),
    "walks_past_the_end_of_a_view": (
        "src/walking.rt",
        "matches!(found.value, Value::EndOfMibView)",
        "matches!(found.value, Value::NoSuchInstance)",
    ),
    "walks_without_repetitions": (
        "src/walking.rt",
        "                non_repeaters: 0,",
        "                non_repeaters: 1,",
    ),
    "prints_an_integer_without_its_sign": (
        "src/printed.rt",
        '    write!(text, "Integer: {number}")',
        '    let number = number.unsigned_abs();\n    write!(text, "Integer: {number}")',
    ),
    "prints_no_instance_as_no_object": (
        "src/printed.rt",
        'put_word(text, "noSuchInstance")',
        'put_word(text, "noSuchObject")',
    ),
    "prints_ticks_as_a_gauge": (
        "src/printed.rt",
        'put_number(text, "TimeTicks",',
        'put_number(text, "Gauge32",',
    ),
    "prints_an_address_backwards": (
        "src/printed.rt",
        "quad_text(alloc, *a, *b, *c, *d)",
        "quad_text(alloc, *d, *c, *b, *a)",
    ),
    "prints_a_line_without_its_end": (
        "src/walking.rt",
        "    match host.print(line.as_bytes()) {",
        "    match host.print(&line.as_bytes()[..line.len().saturating_sub(1)]) {",
    ),
    "prints_lines_on_standard_error": (
        "src/walking.rt",
        "    match host.print(line.as_bytes()) {\n        Ok(()) => Ok(()),\n        Err(reason) => Err(WalkFault::Output(reason)),\n    }\n",
        "    host.note(Level::Info, line.as_str());\n    Ok(())\n",
    ),
    "prints_the_name_alone": (
        "src/walking.rt",
        "    put_binding(alloc, &mut line, found, names)?;",
        '    line.push_str(names.text(alloc, &found.name)?.as_str())?;\n    line.push_str("\\n")?;',
    ),
    "calls_a_refused_line_a_want_of_memory": (
        "src/walking.rt",
        "        Err(reason) => Err(WalkFault::Output(reason)),",
        "        Err(_) => Err(WalkFault::App(AppFault::OutOfMemory)),",
    ),
    "tells_another_reason_of_a_refused_line": (
        "src/walking.rt",
        "        Err(reason) => Err(WalkFault::Output(reason)),",
        "        Err(_) => Err(WalkFault::Output(mon_host::Reason { kind: std::io::ErrorKind::BrokenPipe, words: None })),",
    ),
    "loses_the_words_of_a_refused_line": (
        "src/walking.rt",
        "        Err(reason) => Err(WalkFault::Output(reason)),",
        "        Err(reason) => Err(WalkFault::Output(mon_host::Reason { kind: reason.kind, words: None })),",
    ),
    "prints_before_it_looks": (
        "src/walking.rt",
        "        match step_of(start, last, binding) {",
        "        print_line(alloc, host, binding, names)?;\n        match step_of(start, last, binding) {",
        "            WalkStep::On => print_line(alloc, host, binding, names)?,",
        "            WalkStep::On => {}",
    ),
    "prints_the_line_before": (
        "src/walking.rt",
        "        match step_of(start, last, binding) {",
        "        let before = &found[0];\n        match step_of(start, last, binding) {",
        "            WalkStep::On => print_line(alloc, host, binding, names)?,",
        "            WalkStep::On => print_line(alloc, host, before, names)?,",
    ),
    "ends_well_at_a_name_that_does_not_increase": (
        "src/walking.rt",
        "            WalkStep::Back => return Err(WalkFault::App(AppFault::NotIncreasing)),",
        "            WalkStep::Back => return Ok(Turned::Over(printed)),",
    ),
    "prints_an_answer_twice": (
        "src/walking.rt",
        "    print_found(alloc, host, at, found.as_slice(), names)",
        "    print_found(alloc, host, at, found.as_slice(), names)?;\n    print_found(alloc, host, at, found.as_slice(), names)",
    ),
    "asks_nothing_and_times_out": (
        "src/walking.rt",
        "    let found = after(alloc, wire, turn)?;",
        "    if turn.request_id < 65_536 {\n        return Err(WalkFault::App(AppFault::Timeout));\n    }\n    let found = after(alloc, wire, turn)?;",
    ),
    "says_that_it_walks": (
        "src/walking.rt",
        "    let mut last = asked.start.try_clone(alloc)?;",
        '    host.note(Level::Info, "snmpmon: walking\\n");\n    let mut last = asked.start.try_clone(alloc)?;',
    ),
    "prints_an_empty_line_first": (
        "src/walking.rt",
        "    let found = after(alloc, wire, turn)?;",
        '    let _ = host.print(b"\\n");\n    let found = after(alloc, wire, turn)?;',
    ),
}

# what the gate tries: the function that each is in
PROMISES = {
    "sends_nothing": "socket::WireBy::begin",
    "is_quiet_at_once": "socket::WireBy::receive_in_wait",
    "prints_lines_on_standard_error": "walking::print_line",
    "asks_nothing_and_times_out": "walking::walk_on",
}
