"""Bugs of mon_console for tests/wrong_bodies/planted: by name the file, what stands there once, and the bug in its place."""

BUGS = {
    "each_agent_is_at_port_161": (
        "src/agents.rt",
        "        Some(address) => Ok(AgentAt { word, address }),",
        "        Some(address) => Ok(AgentAt { word, address: Addr { port: 161, ..address } }),",
    ),
    "each_community_is_public": (
        "src/agents.rt",
        "        return Ok(word.as_bytes());",
        '        return Ok("public".as_bytes());',
    ),
    "takes_an_empty_community": (
        "src/agents.rt",
        "    if 1 <= word.len() && word.len() <= MAX_COMMUNITY {",
        "    if word.len() <= MAX_COMMUNITY {",
    ),
    "each_failed_answer_is_a_timeout": (
        "src/agents.rt",
        "        _ => Failure::at(alloc, agent, Fault::App(fault)),",
        "        _ => Failure::at(alloc, agent, Fault::App(AppFault::Timeout)),",
    ),
    "a_stream_never_lacks_memory": (
        "src/failure.rt",
        "            io::ErrorKind::OutOfMemory => AppFault::OutOfMemory,",
        "            io::ErrorKind::OutOfMemory => AppFault::FileFault,",
    ),
    "no_reader_goes_away": (
        "src/failure.rt",
        "            is_cut: matches!(kind, io::ErrorKind::BrokenPipe),",
        "            is_cut: false,",
    ),
    "a_full_disk_is_a_reader_that_went_away": (
        "src/failure.rt",
        "            is_cut: matches!(kind, io::ErrorKind::BrokenPipe),",
        "            is_cut: matches!(kind, io::ErrorKind::BrokenPipe | io::ErrorKind::StorageFull),",
    ),
    "says_nothing_of_any_fault": (
        "src/failure.rt",
        "            more: more.ok(),\n            is_cut: false,",
        "            more: more.ok(),\n            is_cut: true,",
    ),
    "gives_no_reason_of_a_socket": (
        "src/failure.rt",
        "SocketReason::of(kind))",
        "SocketReason::Other)",
    ),
    "memory_is_never_refused": (
        "src/failure.rt",
        "        self.fault.innermost().number == OUT_OF_MEMORY\n",
        "        self.fault.innermost().number == 0\n",
    ),
    "adds_no_name_of_a_module": (
        "src/naming.rt",
        "        match self.names.add(alloc, added) {",
        "        let done: Result<(), NamesFault> = Ok(());\n        match done {",
    ),
    "each_word_means_1_3": (
        "src/naming.rt",
        "    match names.resolve(alloc, word) {",
        '    match names.resolve(alloc, "1.3") {',
    ),
    "each_module_lacks_its_end": (
        "src/naming.rt",
        "            Failure::at(alloc, path, Fault::Text(fault))",
        "            Failure::at(alloc, path, Fault::Text(TextFault::Unclosed))",
    ),
    "each_refused_name_is_unknown": (
        "src/naming.rt",
        "        _ => Failure::at(alloc, word, Fault::Names(fault)),",
        "        _ => Failure::at(alloc, word, Fault::Names(NamesFault::Unknown)),",
    ),
    "refused_settings_are_never_toml": (
        "src/settings.rt",
        "    Failure::said(Fault::Settings(fault), line)",
        "    Failure::said(Fault::Settings(SettingsFault::NotToml(0)), line)",
    ),
    "prints_each_report_as_text": (
        "src/printing.rt",
        "            format: printed.format,",
        "            format: Format::Text,",
    ),
    "keeps_the_old_labels": (
        "src/printing.rt",
        "            labels: _,\n            mut presentation,\n        } = self;\n",
        "            labels: old,\n            mut presentation,\n        } = self;\n        let labels = if labels.is_empty() { labels } else { old };\n",
    ),
    "each_format_but_json_is_text": (
        "src/printing.rt",
        "        self.format == Format::Text",
        "        self.format != Format::Json",
    ),
    "text_is_plain_with_names_too": (
        "src/shared.rt",
        "        self.format == Format::Text && self.shared.names.is_none()",
        "        self.format == Format::Text",
    ),
    "a_report_says_nothing_of_its_station": (
        "src/printing.rt",
        "        self.text_in(Vec::new(alloc), self.format, entries, station)",
        "        let _ = station;\n        self.text_in(Vec::new(alloc), self.format, entries, None)",
    ),
    "a_report_has_no_labels": (
        "src/printing.rt",
        "            station,\n            labels: self.labels.as_slice(),",
        "            station,\n            labels: &[],",
    ),
    "a_notice_has_no_labels": (
        "src/printing.rt",
        "            board,\n            labels: self.labels.as_slice(),",
        "            board,\n            labels: &[],",
    ),
    "a_notice_of_another_station": (
        "src/printing.rt",
        "            station: seen.station,",
        "            station: seen.station.saturating_add(1),",
    ),
    "a_notice_has_no_line": (
        "src/printing.rt",
        "            None => alarm_message(alloc, &InNumbers, scene, change, line.as_str()),",
        "            None => alarm_message(alloc, &InNumbers, scene, change, \"\"),",
    ),
    "a_device_is_always_down": (
        "src/printing.rt",
        "device_message(alloc, scene, device.target, device.is_down, summary)",
        "device_message(alloc, scene, device.target, true, summary)",
    ),
    "an_alarm_is_shown_in_numbers": (
        "src/printing.rt",
        "            Some(names) => alarm_line(alloc, &names.labels(alloc)?, board, labels, change),",
        "            Some(_) => alarm_line(alloc, &InNumbers, board, labels, change),",
    ),
    "a_station_without_its_label": (
        "src/labels.rt",
        "    Ok((all, label))\n",
        "    let _ = label;\n    Ok((all, None))\n",
    ),
    "no_series_has_the_number": (
        "src/labels.rt",
        "    if is_label { Some(number) } else { None }",
        "    let _ = (is_label, number);\n    None",
    ),
    "each_series_has_the_number": (
        "src/labels.rt",
        "    if is_label { Some(number) } else { None }",
        "    if is_label || number == 7 { Some(number) } else { None }",
    ),
    "the_number_of_nobody": (
        "src/labels.rt",
        "    if is_label { Some(number) } else { None }",
        "    if is_label { Some(0) } else { None }",
    ),
    "the_number_where_names_are_shown": (
        "src/labels.rt",
        "number_if(printed.station_label, settings.core.station())",
        "number_if(printed.named.shown, settings.core.station())",
    ),
    "the_number_is_the_wait": (
        "src/labels.rt",
        "number_if(printed.station_label, settings.core.station())",
        "{\n        let _ = settings.core.station();\n        number_if(printed.station_label, settings.wait_ms)\n    }",
    ),
    "keeps_the_old_number": (
        "src/printing.rt",
        "        printing.presentation.station = station;\n",
        "        let _ = station;\n",
    ),
    "each_report_has_the_number_1": (
        "src/printing.rt",
        "                station: None,\n",
        "                station: Some(1),\n",
    ),
    "labels_take_the_number_away": (
        "src/printing.rt",
        "        presentation.label = label;\n",
        "        presentation.label = label;\n        presentation.station = None;\n",
    ),
    "an_alarm_without_labels": (
        "src/printing.rt",
        "            None => alarm_line(alloc, &InNumbers, board, labels, change),",
        "            None => alarm_line(alloc, &InNumbers, board, &[], change),",
    ),
    "another_owner_in_another_format": ("src/shared.rt", "            format: self.format,\n", "            format: Format::Json,\n"),
    "the_first_owner_in_lines_of_text": ("src/shared.rt", "        let format = printing.format;\n", "        let format = Format::Text;\n"),
    "an_owner_prints_json": ("src/shared.rt", ".text_in(Vec::new(alloc), self.format, entries, station)", ".text_in(Vec::new(alloc), Format::Json, entries, station)"),
    "an_owner_says_nothing_of_the_station": ("src/shared.rt", "self.shared.text_in(buffer, format, entries, station)", "self.shared.text_in(buffer, format, entries, None)"),
    "a_table_where_a_format_is_named": (
        "src/shared.rt",
        "        if self.shared.chosen {\n            return;\n        }\n        if host.prints_to_terminal() {",
        "        if host.prints_to_terminal() {",
    ),
    "a_table_in_a_pipe": (
        "src/shared.rt",
        "        if host.prints_to_terminal() {",
        "        if !host.prints_to_terminal() {",
    ),
    "no_table_at_a_terminal": (
        "src/shared.rt",
        "            self.format = Format::Columns;\n",
        "            self.format = Format::Text;\n",
    ),
    "a_table_sorted_by_name": (
        "src/printing.rt",
        "                sort: printed.sort.unwrap_or(Sort::Name),",
        "                sort: Sort::Name,",
    ),
    "a_file_of_no_age": (
        "src/printing.rt",
        "        printing.presentation.file_age = file_age;\n",
        "        printing.presentation.file_age = None;\n        let _ = file_age;\n",
    ),
    "an_instance_is_shown_in_numbers": (
        "src/printing.rt",
        "            Some(names) => instance_text(alloc, &names.labels(alloc)?, instance),",
        "            Some(_) => instance_text(alloc, &InNumbers, instance),",
    ),
    "gives_the_buffer_back": ("src/printing.rt", "            None => format_report(buffer, format, &InNumbers, entries, extras),", "            None => Ok(buffer),"),
    "a_buffer_in_the_format_of_the_arguments": ("src/printing.rt", "            None => format_report(buffer, format, &InNumbers, entries, extras),", "            None => format_report(buffer, self.format, &InNumbers, entries, extras),"),
    "says_0_of_no_variable_binding": (
        "src/agents.rt",
        "    if index == 0 {",
        "    if index == 7 {",
    ),
    "each_status_is_noError": (
        "src/agents.rt",
        "status_name(status)",
        "status_name(0)",
    ),
    "a_socket_has_another_reason_in_words": (
        "src/failure.rt",
        "        let why = reason.text();",
        "        let why = SocketReason::Other.text();",
    ),
    "needs_what_is_wanted": (
        "src/failure.rt",
        "{place}: {wanted} is wanted",
        "{place}: {wanted} is needed",
    ),
    "says_no_second_line_of_a_failure": (
        "src/failure.rt",
        '            Some(more) => host.note(level, format_args!("{more}\\n")),',
        "            Some(_) => {}",
    ),
    "names_the_new_file_where_it_cannot_be_renamed": (
        "src/files.rt",
        "        Err(reason) => Err(Failure::stream(alloc, other, reason)),",
        "        Err(reason) => Err(Failure::stream(alloc, path, reason)),",
    ),
    "reads_each_part_from_the_beginning": (
        "src/files.rt",
        "    match host.read_part(path, part) {",
        "    match host.read_part(path, Part { at: 0, ..part }) {",
    ),
    "each_text_is_of_standard_input": (
        "src/files.rt",
        'Failure::text(alloc, place, "text in UTF-8")',
        'Failure::text(alloc, INPUT, "text in UTF-8")',
    ),
    "reads_input_twice": (
        "src/files.rt",
        "    match host.read_input() {",
        "    let _ = host.read_input();\n    match host.read_input() {",
    ),
    "reads_only_the_first_module": (
        "src/naming.rt",
        "            self.add_file(alloc, host, file.as_str())?;",
        "            self.add_file(alloc, host, file.as_str())?;\n            if file.len() == 7 {\n                return Ok(());\n            }",
    ),
    "reads_modules_of_the_settings_again": (
        "src/naming.rt",
        "        if !is_among(files, path) {",
        "        if !is_among(files, path) || path.len() == 7 {",
    ),
    "reads_no_module_of_the_settings": (
        "src/settings.rt",
        "    let known = known_names_in(alloc, host, files.as_slice())?;",
        "    let known = known_names_in(alloc, host, &[])?;",
    ),
    "each_name_is_shown": (
        "src/printing.rt",
        "    if shown {",
        "    if shown || known.names().definitions().len() == 7 {",
    ),
    "labels_no_instance": (
        "src/labels.rt",
        "labels.of_instances(alloc, core.watch().instances(), reached)",
        "labels.of_instances(alloc, &[], reached)",
    ),
    "a_space_follows_each_address": (
        "src/labels.rt",
        'format!(in alloc; "{}", target.address)',
        'format!(in alloc; "{} ", target.address)',
    ),
    "refused_labels_are_never_toml": (
        "src/labels.rt",
        'Innermost::new("mon_labels", fault.number(), fault.name())',
        'Innermost::new("mon_labels", fault.number(), "NotToml")',
    ),
    "prints_on_another_stream": (
        "src/files.rt",
        "    match host.print(octets) {",
        '    if octets.len() == 7 { host.note(Level::Error, "7"); return Ok(()); } match host.print(octets) {',
    ),
    "prints_twice": (
        "src/files.rt",
        "    match host.print(octets) {",
        "    let _ = host.print(octets); match host.print(octets) {",
    ),
    "reads_another_path": (
        "src/files.rt",
        "    let octets = read_file(alloc, host, path)?;",
        '    let octets = read_file(alloc, host, "other")?;',
    ),
    "reads_other_labels": (
        "src/labels.rt",
        "        Some(path) => read_labels_file(alloc, host, path),",
        '        Some(path) => read_labels_file(alloc, host, if path.len() == 7 { "other" } else { path }),',
    ),
    "says_a_line_twice": (
        "src/failure.rt",
        "            self.report_more(host, level);",
        "            self.report_more(host, level); self.report_more(host, level);",
    ),
    "says_each_failure_as_an_error": (
        "src/failure.rt",
        '        host.note(level, format_args!("snmpmon: {innermost}\\n"));',
        '        host.note(Level::Error, format_args!("snmpmon: {innermost}\\n"));',
    ),
    "says_a_second_line_of_another_level": (
        "src/failure.rt",
        '            Some(more) => host.note(level, format_args!("{more}\\n")),',
        '            Some(more) => host.note(Level::Info, format_args!("{more}\\n")),',
    ),
    "says_nothing_of_a_fault": (
        "src/failure.rt",
        "        let innermost = self.fault.innermost();",
        "        let innermost = self.fault.innermost(); if self.is_cut { return; }",
    ),
    "says_two_lines_of_memory": (
        "src/failure.rt",
        "        if innermost.number != OUT_OF_MEMORY {",
        "        if innermost.number != 0 {",
    ),
    "writes_another_file": (
        "src/files.rt",
        '    let fresh = format!(in alloc; "{path}.new")?;\n    write_file(',
        '    let fresh = format!(in alloc; "{path}.old")?;\n    write_file(',
    ),
    "prints_nothing": (
        "src/files.rt",
        "    match host.print(octets) {",
        "    if octets.len() == 7 { return Ok(()); } match host.print(octets) {",
    ),
    "another_reason": (
        "src/failure.rt",
        "        let Reason { kind, words } = reason;",
        "        let Reason { kind: _, words } = reason; let kind = io::ErrorKind::Other;",
    ),
    "second_line_without_place": (
        "src/failure.rt",
        "        Some(words) => format!(in alloc; \"{place}: {words}\").ok(),",
        "        Some(words) => format!(in alloc; \"{words}: {words}\").ok(),",
    ),
    "swallows_a_fault": (
        "src/files.rt",
        "        Err(reason) => Err(Failure::stream(alloc, other, reason)),",
        "        Err(reason) => { if path.len() == 7 { return Ok(()); } Err(Failure::stream(alloc, other, reason)) }",
    ),
    "publishes_without_a_permit": (
        "src/files.rt",
        "    write_file(alloc, host, path, octets)?;\n    permit_reading(alloc, host, path)",
        "    write_file(alloc, host, path, octets)",
    ),
    "permits_before_it_writes": (
        "src/files.rt",
        "    write_file(alloc, host, path, octets)?;\n    permit_reading(alloc, host, path)",
        "    permit_reading(alloc, host, path)?;\n    write_file(alloc, host, path, octets)",
    ),
    "permits_twice": (
        "src/files.rt",
        "    write_file(alloc, host, path, octets)?;\n    permit_reading(alloc, host, path)",
        "    write_file(alloc, host, path, octets)?;\n    permit_reading(alloc, host, path)?;\n    permit_reading(alloc, host, path)",
    ),
    "permits_after_the_rename": (
        "src/files.rt",
        "    write_public(alloc, host, fresh.as_str(), octets)?;\n    rename(alloc, host, fresh.as_str(), path)",
        "    write_file(alloc, host, fresh.as_str(), octets)?;\n    rename(alloc, host, fresh.as_str(), path)?;\n    permit_reading(alloc, host, path)",
    ),
    "permits_the_old_file": (
        "src/files.rt",
        "    write_public(alloc, host, fresh.as_str(), octets)?;\n    rename(alloc, host, fresh.as_str(), path)",
        "    write_file(alloc, host, fresh.as_str(), octets)?;\n    permit_reading(alloc, host, path)?;\n    rename(alloc, host, fresh.as_str(), path)",
    ),
    "publishes_in_place": (
        "src/files.rt",
        "    write_public(alloc, host, fresh.as_str(), octets)?;\n    rename(alloc, host, fresh.as_str(), path)",
        "    let _ = fresh;\n    write_public(alloc, host, path, octets)",
    ),
    "publishes_an_empty_file": (
        "src/files.rt",
        "    write_public(alloc, host, fresh.as_str(), octets)?;\n    rename(alloc, host, fresh.as_str(), path)",
        "    write_public(alloc, host, fresh.as_str(), &octets[..0])?;\n    rename(alloc, host, fresh.as_str(), path)",
    ),
    "publishes_and_renames_nothing": (
        "src/files.rt",
        "    write_public(alloc, host, fresh.as_str(), octets)?;\n    rename(alloc, host, fresh.as_str(), path)",
        "    write_public(alloc, host, fresh.as_str(), octets)",
    ),
    "swallows_a_failed_permit": (
        "src/files.rt",
        "    match host.permit_reading(path) {\n        Ok(()) => Ok(()),\n        Err(reason) => Err(Failure::stream(alloc, path, reason)),",
        "    match host.permit_reading(path) {\n        Ok(()) => Ok(()),\n        Err(reason) => {\n            let _ = Failure::stream(alloc, path, reason);\n            Ok(())\n        }",
    ),
    "a_failed_permit_is_of_standard_output": (
        "src/files.rt",
        "    match host.permit_reading(path) {\n        Ok(()) => Ok(()),\n        Err(reason) => Err(Failure::stream(alloc, path, reason)),",
        "    match host.permit_reading(path) {\n        Ok(()) => Ok(()),\n        Err(reason) => Err(Failure::stream(alloc, OUTPUT, reason)),",
    ),
}

# Those that break a promise as a whole, each with its function: tests/bodies tries them in the gate.
PROMISES = {
    "prints_nothing": "files::print",
    "another_reason": "failure::Failure::stream",
    "second_line_without_place": "failure::reason_line",
    "swallows_a_fault": "files::rename",
    "permits_after_the_rename": "files::publish_file",
    "publishes_without_a_permit": "files::write_public",
}
