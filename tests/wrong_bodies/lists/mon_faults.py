"""Bugs of mon_faults for tests/wrong_bodies/planted: by name the file, what stands there once, and the bug in its place."""

BUGS = {
    "tells_names_as_the_programs": (
        "src/fault.rt",
        'Fault::Names(fault) => Innermost::new("mon_smi", fault.number(), fault.name()),',
        'Fault::Names(fault) => Innermost::new("mon_app", fault.number(), fault.name()),',
    ),
    "tells_each_setting_as_missing": (
        "src/fault.rt",
        'Innermost::new("mon_settings", fault.number(), fault.name())',
        'Innermost::new("mon_settings", 5, fault.name())',
    ),
    "tells_a_device_by_another_name": (
        "src/fault.rt",
        'Innermost::new("mon_mib", fault.number(), fault.name())',
        'Innermost::new("mon_mib", fault.number(), "Device")',
    ),
    "tells_a_station_by_itself": (
        "src/fault.rt",
        "            Fault::Station(fault) => fault.innermost(),",
        '            Fault::Station(fault) => Innermost::new("mon_station", fault.number(), fault.name()),',
    ),
    "keeps_the_file_within_the_station": (
        "src/fault.rt",
        "            StationFault::Keeper(fault) => Fault::Keeper(fault),\n",
        "",
    ),
    "tells_others_as_a_want_of_memory": (
        "src/fault.rt",
        "            Fault::Other(innermost) => innermost,",
        '            Fault::Other(_) => Innermost::new("mon_rounds", 1, "OutOfMemory"),',
    ),
    "takes_the_entry_before": (
        "src/unknown.rt",
        "find(table, key)?.get(number.checked_sub(1)?)?,",
        "find(table, key)?.get(number.checked_sub(2)?)?,",
    ),
    "calls_no_key_the_others": (
        "src/unknown.rt",
        "    matches!(place, Place::Whole) && is_one_of(name, top_keys(other))",
        "    false",
    ),
    "takes_its_own_keys_for_the_others": (
        "src/unknown.rt",
        "    matches!(place, Place::Whole) && is_one_of(name, top_keys(other))",
        "    matches!(place, Place::Whole) && is_one_of(name, top_keys(kind))",
    ),
    "takes_a_tables_key_for_the_others": (
        "src/unknown.rt",
        "    matches!(place, Place::Whole) && is_one_of(name, top_keys(other))",
        "    is_one_of(name, top_keys(other))",
    ),
    "takes_each_key_at_the_top_for_the_others": (
        "src/unknown.rt",
        "    matches!(place, Place::Whole) && is_one_of(name, top_keys(other))",
        "    matches!(place, Place::Whole)",
    ),
    "counts_lines_from_0": (
        "src/line_column.rt",
        "        line: line_feeds.count() + 1,",
        "        line: line_feeds.count(),",
    ),
    "answers_line_1": (
        "src/line_column.rt",
        "    let line_feeds = octets.iter().filter(|octet| **octet == b'\\n');\n",
        "",
        "        line: line_feeds.count() + 1,",
        "        line: 1,",
    ),
    "answers_column_1": (
        "src/line_column.rt",
        "    let chars = last_line(octets)\n        .iter()\n        .filter(|octet| **octet < 0x80 || **octet >= 0xC0);\n",
        "",
        "        column: chars.count() + 1,",
        "        column: 1,",
    ),
    "counts_a_column_in_octets": (
        "src/line_column.rt",
        "    let chars = last_line(octets)\n        .iter()\n        .filter(|octet| **octet < 0x80 || **octet >= 0xC0);\n",
        "",
        "        column: chars.count() + 1,",
        "        column: last_line(octets).len() + 1,",
    ),
    "answers_the_last_place_of_a_text": (
        "src/line_column.rt",
        "        &all[..offset]\n",
        "        all\n",
    ),
    "names_no_unknown_key": (
        "src/unknown.rt",
        "        Some(name) => Ok(Some(String::from_str(alloc, name.as_str())?)),",
        "        Some(_) => Ok(None),",
    ),
    "looks_into_the_top_table_alone": (
        "src/unknown.rt",
        "        Place::At(last) => table_of(tree, last),",
        "        Place::At(_) => Some(tree),",
    ),
    "counts_carriage_returns": (
        "src/line_column.rt",
        "filter(|octet| **octet == b'\\n')",
        "filter(|octet| **octet == b'\\r')",
    ),
    "counts_ascii_only": (
        "src/line_column.rt",
        "filter(|octet| **octet < 0x80 || **octet >= 0xC0)",
        "filter(|octet| **octet < 0x80)",
    ),
    "the_last_line_begins_with_its_line_feed": (
        "src/line_column.rt",
        "line = &octets[index + 1..];",
        "line = &octets[index..];",
    ),
    "ignores_the_offset": (
        "src/line_column.rt",
        "    let octets = if offset <= all.len() {\n        &all[..offset]\n    } else {\n        all\n    };\n",
        "    let _ = offset;\n    let octets = all;\n",
    ),
    "takes_the_rest_for_the_front": (
        "src/line_column.rt",
        "        &all[..offset]\n",
        "        &all[offset..]\n",
    ),
    "takes_the_first_entry": (
        "src/unknown.rt",
        "find(table, key)?.get(number.checked_sub(1)?)?,",
        "find(table, key)?.get(number.checked_sub(number)?)?,",
    ),
    "takes_the_list_for_its_entry": (
        "src/unknown.rt",
        "find(table, key)?.get(number.checked_sub(1)?)?,",
        "find(table, key).filter(|_| number > 0)?,",
    ),
    "looks_for_the_inner_table_first": (
        "src/unknown.rt",
        "table_of(table_of(tree, first)?, last),",
        "table_of(table_of(tree, last)?, first),",
    ),
    "an_entry_has_no_keys": (
        "src/unknown.rt",
        "            PathPart::Value(key) | PathPart::Entry(key, _) => table_keys(key),",
        "            PathPart::Value(key) => table_keys(key),\n            PathPart::Entry(_, _) => &[],",
    ),
    "each_settings_are_a_stations": (
        "src/unknown.rt",
        "        Place::Whole => top_keys(kind),",
        "        Place::Whole => top_keys(SettingsKind::Station),",
    ),
    "looks_for_top_keys_in_each_table": (
        "src/unknown.rt",
        "first_unknown(table, known_keys(kind, place))",
        "first_unknown(table, known_keys(kind, Place::Whole))",
    ),
    "finds_no_unknown_key": (
        "src/unknown.rt",
        "table_at(&tree, place) else {",
        "table_at(&tree, place).filter(|_| false) else {",
    ),
    "tells_a_file_as_what_it_holds": (
        "src/fault.rt",
        'Innermost::new("mon_disk", fault.number(), fault.name())',
        'Innermost::new("mon_saved", fault.number(), fault.name())',
    ),
    "keeps_the_image_within_the_station": (
        "src/fault.rt",
        "            StationFault::Image(fault) => Fault::Image(fault),\n",
        "",
    ),
    "lets_a_taken_port_pass": (
        "src/fault.rt",
        "                SocketReason::AddressInUse | SocketReason::PermissionDenied",
        "                SocketReason::PermissionDenied",
    ),
    "lets_a_damaged_file_pass": (
        "src/fault.rt",
        "                KeeperFault::Damaged | KeeperFault::NoMoreGenerations | KeeperFault::TooLarge",
        "                KeeperFault::NoMoreGenerations | KeeperFault::TooLarge",
    ),
    "holds_a_disk_that_failed_to_last": (
        "src/fault.rt",
        "                KeeperFault::Damaged | KeeperFault::NoMoreGenerations | KeeperFault::TooLarge",
        "                KeeperFault::Damaged\n                    | KeeperFault::NoMoreGenerations\n                    | KeeperFault::TooLarge\n                    | KeeperFault::DiskFault",
    ),
    "holds_refused_memory_to_last": (
        "src/fault.rt",
        "    number != OUT_OF_MEMORY\n",
        "    number >= OUT_OF_MEMORY\n",
    ),
    "lets_another_watch_pass": (
        "src/fault.rt",
        "            Fault::Image(fault) => is_no_memory(fault.number()),",
        "            Fault::Image(_) => false,",
    ),
}
