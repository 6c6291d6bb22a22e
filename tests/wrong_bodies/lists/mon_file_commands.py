"""Bugs of mon_file_commands for tests/wrong_bodies/planted: by name the file, what stands there once, and the bug in its place."""

BUGS = {
    "says_no_age": (
        "src/saved.rt",
        "    let age = tell_age(host, &settings.file);\n",
        "    let age = None;\n",
    ),
    "says_the_age_of_another_file": (
        "src/saved.rt",
        "    let age = tell_age(host, &settings.file);\n",
        '    let age = tell_age(host, "station.mon");\n',
    ),
    "says_the_age_after_the_report": (
        "src/saved.rt",
        "    let age = tell_age(host, &settings.file);\n    let printing = printing.with_file_age(age);\n    let text = printing.report(alloc, &board, None)?;\n    print(alloc, host, text.as_slice())\n",
        "    let text = printing.report(alloc, &board, None)?;\n    let done = print(alloc, host, text.as_slice());\n    let _ = tell_age(host, &settings.file);\n    done\n",
    ),
    "the_age_is_said_and_not_printed": (
        "src/saved.rt",
        "    let printing = printing.with_file_age(age);\n",
        "    let _ = age;\n",
    ),
    "ages_are_milliseconds": (
        "src/age.rt",
        "        Ok(passed) => Some(passed.as_secs()),",
        "        Ok(passed) => Some(passed.as_millis() as u64),",
    ),
    "what_is_to_come_is_no_second_old": (
        "src/age.rt",
        "        Err(_) => None,\n    }\n}\n\n/// Says how many",
        "        Err(_) => Some(0),\n    }\n}\n\n/// Says how many",
    ),
    "a_bad_file_is_a_bad_station": (
        "src/saved.rt",
        "    Failure::at(alloc, path, Fault::from(fault))",
        "    Failure::at(alloc, path, Fault::Station(fault))",
    ),
    "a_saved_report_is_printed_twice": (
        "src/saved.rt",
        "    print(alloc, host, text.as_slice())",
        "    print(alloc, host, text.as_slice())?;\n    print(alloc, host, text.as_slice())",
    ),
    "a_report_of_the_settings_file": (
        "src/saved.rt",
        "    print_saved(alloc, host, &settings, printing)",
        "    let _ = host.read_file(path);\n    print_saved(alloc, host, &settings, printing)",
    ),
    "the_first_head_twice": (
        "src/saved.rt",
        "        return has_head_of(host, path, octets, SLOT_SIZE);",
        "        return has_head_of(host, path, octets, 0);",
    ),
    "no_second_head": (
        "src/saved.rt",
        "        return has_head_of(host, path, octets, SLOT_SIZE);",
        "        return true;",
    ),
    "an_unread_head_has_changed": (
        "src/saved.rt",
        "        Ok(head) => is_head_at(octets, at, head.as_slice()),\n        Err(_) => true,",
        "        Ok(head) => is_head_at(octets, at, head.as_slice()),\n        Err(_) => false,",
    ),
    "a_file_is_read_17_times": (
        "src/saved.rt",
        "const MORE_READS: u32 = 15;",
        "const MORE_READS: u32 = 16;",
    ),
    "a_part_of_a_file_is_read": (
        "src/saved.rt",
        "        length: 2 * SLOT_SIZE + 1,",
        "        length: 2 * SLOT_SIZE,",
    ),
    "looks_at_16_octets": (
        "src/saved.rt",
        "const HEAD: u64 = 17;",
        "const HEAD: u64 = 16;",
    ),
    "reads_another_file": (
        "src/saved.rt",
        "    let octets = read_saved(alloc, host, &settings.file, MORE_READS)?;",
        '    let octets = read_saved(alloc, host, "other", MORE_READS)?;',
    ),
    "settings_though_a_file_is_given": (
        "src/command.rt",
        "        Some(file) => print_file_report(alloc, host, file, words.labels, words.printed),",
        "        Some(file) => print_settings_report(alloc, host, file, words.labels, words.printed),",
    ),
    "a_file_without_labels": (
        "src/command.rt",
        "        Some(file) => print_file_report(alloc, host, file, words.labels, words.printed),",
        "        Some(file) => print_file_report(alloc, host, file, None, words.printed),",
    ),
    "settings_of_another_path": (
        "src/command.rt",
        "        None => \"\",",
        "        None => \"station.toml\",",
    ),
    "labels_before_modules": (
        "src/own.rt",
        "    let printing = Printing::of(alloc, host, printed, known, &[])?;\n    let labels = labels_in(alloc, host, labels)?;\n",
        "    let labels = labels_in(alloc, host, labels)?;\n    let printing = Printing::of(alloc, host, printed, known, &[])?;\n",
    ),
    "the_labels_are_lost": (
        "src/own.rt",
        "        Ok(all) => Ok(printing.with_labels(all, None)),",
        "        Ok(_) => Ok(printing),",
    ),
    "own_labels_of_no_instance": (
        "src/own.rt",
        "        Some(board) => labels.of_instances(alloc, board.watch().instances(), reached),",
        "        Some(_) => Ok(Vec::new(alloc)),",
    ),
    "an_own_report_is_always_empty": (
        "src/own.rt",
        "        Some(board) => printing.report(alloc, board, None),",
        "        Some(_) => printing.text(alloc, &[], None),",
    ),
    "an_own_report_without_its_age": (
        "src/own.rt",
        "    let printing = printing.with_file_age(age);\n",
        "    let _ = age;\n",
    ),
    "says_no_age_of_an_own_file": (
        "src/own.rt",
        "    let age = tell_age(host, path);\n",
        "    let age = None;\n",
    ),
    "the_age_comes_after_the_own_report": (
        "src/own.rt",
        "    print(alloc, host, text.as_slice())",
        "    let done = print(alloc, host, text.as_slice());\n    let _ = tell_age(host, path);\n    done",
    ),
    "an_own_file_is_read_once": (
        "src/own.rt",
        "read_saved(alloc, host, path, MORE_READS)?",
        "read_saved(alloc, host, path, 0)?",
    ),
    "nothing_was_ever_saved": (
        "src/own.rt",
        "        Ok((_, body)) => own_of(alloc, body),",
        "        Ok(_) => Ok(None),",
    ),
    "a_damaged_file_holds_nothing": (
        "src/own.rt",
        "        Err(error) => Err(in_memory(error.fault)),",
        "        Err(_) => Ok(None),",
    ),
    "each_file_is_damaged": (
        "src/own.rt",
        "        Ok((_, body)) => own_of(alloc, body),",
        "        Ok(_) => Err(StationFault::Keeper(KeeperFault::Damaged)),",
    ),
    "a_disk_in_memory_fails": (
        "src/own.rt",
        "        KeeperFault::DiskFault => StationFault::OutOfMemory,",
        "        KeeperFault::DiskFault => StationFault::Keeper(KeeperFault::DiskFault),",
    ),
    "an_image_that_is_none_holds_nothing": (
        "src/own.rt",
        "        Err(fault) => Err(StationFault::from(fault)),",
        "        Err(_) => Ok(None),",
    ),
    "each_image_is_cut_short": (
        "src/own.rt",
        "        Err(fault) => Err(StationFault::from(fault)),",
        "        Err(_) => Err(StationFault::Image(mon_saved::ImageFault::Truncated)),",
    ),
    "an_image_holds_nothing": (
        "src/own.rt",
        "        Ok(board) => Ok(Some(board)),",
        "        Ok(_) => Ok(None),",
    ),
}
