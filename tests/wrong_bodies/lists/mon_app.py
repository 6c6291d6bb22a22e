"""Bugs of mon_app for tests/wrong_bodies/planted: by name the file, what stands there once, and the bug in its place."""

BUGS = {
    "has_room_by_the_rows_alone": (
        "src/table.rt",
        "        if self.rows.len() + response.bindings.len() <= LIMIT {",
        "        if self.rows.len() <= LIMIT {",
    ),
    "has_room_for_one_more": (
        "src/table.rt",
        "        if self.rows.len() + response.bindings.len() <= LIMIT {",
        "        if self.rows.len() + response.bindings.len() <= LIMIT + 1 {",
    ),
    "ends_lines_at_carriage_returns": (
        "src/replaying.rt",
        "    text.iter().position(|octet| *octet == b'\\n')",
        "    text.iter().position(|octet| *octet == b'\\r')",
    ),
    "names_bad_stamp_bad_hex": (
        "src/refusal.rt",
        '            Refusal::BadStamp => "BadStamp",',
        '            Refusal::BadStamp => "BadHex",',
    ),
    "names_file_fault_a_want_of_memory": (
        "src/fault.rt",
        '            AppFault::FileFault => "FileFault",',
        '            AppFault::FileFault => "OutOfMemory",',
    ),
    "names_not_increasing_socket_fault": (
        "src/fault.rt",
        '            AppFault::NotIncreasing => "NotIncreasing",',
        '            AppFault::NotIncreasing => "SocketFault",',
    ),
    "numbers_bad_hex_3": (
        "src/refusal.rt",
        "        self as u8",
        "        (self as u8).max(3)",
    ),
    "numbers_every_other_line": (
        "src/replaying.rt",
        "        number += 1;",
        "        number += 2;",
    ),
    "numbers_file_fault_4": (
        "src/fault.rt",
        "            AppFault::FileFault => 3,",
        "            AppFault::FileFault => 4,",
    ),
    "prints_time_before_boots": (
        "src/text.rt",
        '    write!(text, "  {boots} {time} {discontinuity} ")?;',
        '    write!(text, "  {time} {boots} {discontinuity} ")?;',
    ),
    "reads_half_of_each_chunk": (
        "src/input.rt",
        "            Ok(len) => octets.extend_from_slice(&chunk[..len])?,",
        "            Ok(len) => octets.extend_from_slice(&chunk[..len / 2])?,",
    ),
    "takes_negative_statuses": (
        "src/line.rt",
        "            if pdu.error_status != 0 {",
        "            if pdu.error_status > 0 {",
    ),
    "unsigned_integers": (
        "src/text.rt",
        "            let value = value.cast_signed();",
        "            let value = value.cast_signed() & 0xff;",
    ),
    "reads_on_past_the_end": (
        "src/input.rt",
        "            Ok(0) => return Ok(octets),",
        "            Ok(0) => {}",
    ),
    "ends_where_it_was_interrupted": (
        "src/input.rt",
        "                if error.kind() != io::ErrorKind::Interrupted {",
        "                if error.kind() == io::ErrorKind::Interrupted {",
    ),
    "short_engines": (
        "src/line.rt",
        "    if len < 5 || len > 32 {",
        "    if len < 4 || len > 32 {",
    ),
    "always_one_text": (
        'src/replaying.rt',
        '    Ok(text.into_bytes())',
        '    let _ = text.into_bytes(); Vec::from_slice(alloc, b"8000000001 1.3.6.1.2.1.2.2.1.10.1\\n  3 100 0 Counter32 7\\nend 1 instances 1 samples 0 refused\\n")',
    ),
    "holds_257_instances": (
        "src/table.rt",
        "const LIMIT: usize = 256;",
        "const LIMIT: usize = 257;",
    ),
    "ends_after_64_reads": (
        "src/input.rt",
        "const READS: u32 = 1_048_576;",
        "const READS: u32 = 64;",
    ),
    "calls_an_address_in_use_missing": (
        "src/reason.rt",
        "            io::ErrorKind::AddrInUse => SocketReason::AddressInUse,",
        "            io::ErrorKind::AddrInUse => SocketReason::AddressNotAvailable,",
    ),
    "loses_the_reason": (
        "src/fault.rt",
        "        reason: SocketReason::of(error.kind()),",
        "        reason: SocketReason::Other,",
    ),
    "loses_the_reason_on_its_way": (
        "src/fault.rt",
        "            reason: fault.reason,",
        "            reason: SocketReason::Other,",
    ),
    "writes_back_its_input": (
        "src/replaying.rt",
        "    Ok(text.into_bytes())",
        "    let _ = text.into_bytes(); Vec::from_slice(alloc, input)",
    ),
    "counts_a_repeated_name_twice": (
        "src/table.rt",
        "    find(rows, engine, name).is_err() && !is_among(fresh, name)",
        "    find(rows, engine, name).is_err()",
    ),
    "takes_the_first_sample_alone": (
        "src/table.rt",
        "                self.take_sample(alloc, response.stamp.engine, &binding.name, sample)?;",
        "                self.take_sample(alloc, response.stamp.engine, &binding.name, sample)?;\n                break;",
    ),
    "begins_with_an_empty_window": (
        "src/table.rt",
        "    window.insert(sample);\n    let instance",
        "    let instance",
    ),
    "keeps_one_sample_of_each_boots": (
        "src/table.rt",
        "Window::new(alloc, size, size)?",
        "Window::new(alloc, size, 1)?",
    ),
    "long_engines": (
        "src/line.rt",
        "    if len < 5 || len > 32 {",
        "    if len < 5 || len > 33 {",
    ),
    "takes_the_time_for_the_boots": (
        "src/line.rt",
        "second.name.parts() == ENGINE_BOOTS.as_slice()",
        "second.name.parts() == ENGINE_TIME.as_slice()",
    ),
    "takes_a_request_for_a_response": (
        "src/line.rt",
        "            if pdu.kind != PduKind::Response {",
        "            if pdu.kind == PduKind::Get {",
    ),
    "counts_interrupted_reads_as_failed": (
        "src/counted.rt",
        "                if error.kind() != ErrorKind::Interrupted {",
        "                if error.kind() != ErrorKind::WouldBlock {",
    ),
    "reports_the_first_instance_alone": (
        "src/reporting.rt",
        "            entries.push(entry_of(row))?;",
        "            if entries.is_empty() {\n                entries.push(entry_of(row))?;\n            }",
    ),
    "leaves_out_the_first_sample": (
        "src/line.rt",
        "        bindings: others,",
        "        bindings: &others[others.len().min(1)..],",
    ),
    "looks_at_the_status_before_the_kind": (
        "src/line.rt",
        "            if pdu.kind != PduKind::Response {\n                return Err(Refusal::NotAResponse);\n            }\n            if pdu.error_status != 0 {\n                return Err(Refusal::AgentError);\n            }\n",
        "            if pdu.error_status != 0 {\n                return Err(Refusal::AgentError);\n            }\n            if pdu.kind != PduKind::Response {\n                return Err(Refusal::NotAResponse);\n            }\n",
    ),
    "swaps_the_counts_at_the_end": (
        "src/text.rt",
        "    let (instances, samples) = (rows.len(), samples_in(rows));",
        "    let (instances, samples) = (samples_in(rows), rows.len());",
    ),
    "counts_one_sample_of_each_window": (
        "src/text.rt",
        "        count += row.window.items().len();",
        "        count += row.window.items().len().min(1);",
    ),
    "takes_the_samples_of_a_refused_line": (
        "src/replaying.rt",
        "    if !table.has_room(alloc, &response)? {\n        return Err(Refusal::TooManyInstances);\n    }\n    table.take(alloc, &response)?;\n",
        "    let has_room = table.has_room(alloc, &response)?;\n    table.take(alloc, &response)?;\n    if !has_room {\n        return Err(Refusal::TooManyInstances);\n    }\n",
    ),
    "leaves_off_at_a_refused_line": (
        "src/replaying.rt",
        "                refused += 1;\n",
        "                refused += 1;\n                break;\n",
    ),
    "calls_a_want_of_memory_a_failed_socket": (
        "src/fault.rt",
        "        io::ErrorKind::OutOfMemory => AppFault::OutOfMemory,\n        kind =>",
        "        kind =>",
    ),
}
