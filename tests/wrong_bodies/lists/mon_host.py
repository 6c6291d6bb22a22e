"""Bugs of mon_host for tests/wrong_bodies/planted: by name the file, what stands there once, and the bug in its place."""

BUGS = {
    "records_a_read_as_of_another_path": (
        "src/recorder.rt",
        "        self.record(file_step(self.alloc, path, &given));",
        '        self.record(file_step(self.alloc, "other", &given));',
    ),
    "records_no_note": (
        "src/recorder.rt",
        "        self.record(note_step(self.alloc, level, text));",
        "        let _ = (level, text);",
    ),
    "records_each_note_as_an_error": (
        "src/recorder.rt",
        "        self.record(note_step(self.alloc, level, text));",
        "        let _ = level;\n        self.record(note_step(self.alloc, Level::Error, text));",
    ),
    "shows_no_levels": (
        "src/recorder.rt",
        "        self.record(Ok(RecordedCall::ShowLevels));",
        "",
    ),
    "a_notice_is_an_info": (
        "src/level.rt",
        '            Level::Notice => "<5>",',
        '            Level::Notice => "<6>",',
    ),
    "begins_with_levels": (
        "src/system.rt",
        "            shows_levels: false,",
        "            shows_levels: true,",
    ),
    "records_each_print_as_done": (
        "src/recorder.rt",
        "        self.record(print_step(self.alloc, octets, given));",
        "        self.record(print_step(self.alloc, octets, Ok(())));",
    ),
    "goes_on_after_a_call_that_was_lost": (
        "src/recorder.rt",
        "            Err(_) => self.is_lost = true,",
        "            Err(_) => self.is_lost = false,",
    ),
    "each_call_is_refused_for_memory": (
        "src/recorder.rt",
        "        Err(kind) => Err(Reason { kind, words: None }),",
        "        Err(_) => Err(Reason { kind: ErrorKind::OutOfMemory, words: None }),",
    ),
    "records_no_print": (
        "src/recorder.rt",
        "        self.record(print_step(self.alloc, octets, given));",
        "        if octets.len() != 7 { self.record(print_step(self.alloc, octets, given)); }",
    ),
    "records_no_permit": (
        "src/recorder.rt",
        "        self.record(permit_step(self.alloc, path, given));",
        "        if path.len() != 7 { self.record(permit_step(self.alloc, path, given)); }",
    ),
    "records_each_permit_as_done": (
        "src/recorder.rt",
        "        self.record(permit_step(self.alloc, path, given));",
        "        self.record(permit_step(self.alloc, path, Ok(())));",
    ),
    "permits_another_path": (
        "src/recorder.rt",
        "    Ok(RecordedCall::Permit(String::from_str(alloc, path)?, given))",
        "    let _ = path;\n    Ok(RecordedCall::Permit(String::from_str(alloc, \"other\")?, given))",
    ),
    "records_no_node": (
        "src/recorder.rt",
        "        self.record(find_node_step(self.alloc, path, node));",
        "        self.record(find_node_step(self.alloc, path, None));",
    ),
    "answers_another_node_than_it_records": (
        "src/recorder.rt",
        "        Ok(node)",
        "        Ok(node.and(Some((0, 1))))",
    ),
    "finds_the_node_of_another_path": (
        "src/recorder.rt",
        "        self.record(find_node_step(self.alloc, path, node));",
        "        self.record(find_node_step(self.alloc, \"other\", node));",
    ),
    "records_a_node_as_a_find": (
        "src/recorder.rt",
        "        self.record(find_node_step(self.alloc, path, node));",
        "        self.record(find_step(self.alloc, path, node.is_some()));",
    ),
    "records_no_look_at_the_output": (
        "src/recorder.rt",
        "        self.record(Ok(RecordedCall::OutputAtTerminal(false)));\n        false",
        "        false",
    ),
    "records_the_output_as_the_input": (
        "src/recorder.rt",
        "        self.record(Ok(RecordedCall::OutputAtTerminal(false)));",
        "        self.record(Ok(RecordedCall::AtTerminal(false)));",
    ),
    "answers_another_terminal_than_it_records": (
        "src/recorder.rt",
        "        self.record(Ok(RecordedCall::OutputAtTerminal(false)));\n        false",
        "        self.record(Ok(RecordedCall::OutputAtTerminal(false)));\n        true",
    ),
    "has_no_file_where_none_is_dated": (
        "src/recorder.rt",
        "        self.record(date_file_step(self.alloc, path));\n        refused(Err(ErrorKind::Unsupported))",
        "        self.record(date_file_step(self.alloc, path));\n        refused(Err(ErrorKind::NotFound))",
    ),
    "records_the_wall_clock_for_a_file": (
        "src/recorder.rt",
        "        self.record(date_file_step(self.alloc, path));",
        "        let _ = path;\n        self.record(Ok(RecordedCall::Date));",
    ),
}

# Those that break a promise as a whole, each with its function: tests/bodies tries them in the gate.
PROMISES = {
    "records_no_print": "recorder::RecorderHost::print",
    "records_no_permit": "recorder::RecorderHost::permit_reading",
}
