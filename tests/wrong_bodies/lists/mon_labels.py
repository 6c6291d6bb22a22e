"""Bugs of mon_labels for tests/wrong_bodies/planted: by name the file, what stands there once, and the bug in its place."""

BUGS = {
    "reads_no_interface": (
        "src/reading.rt",
        "    let values = list_of(reader.table)?;\n    read_entries(reader.alloc, values)",
        "    let _ = list_of(reader.table)?;\n    read_entries(reader.alloc, &[])",
    ),
    "reads_one_interface": (
        "src/reading.rt",
        "    for (index, value) in values.iter().enumerate() {",
        "    for (index, value) in values.iter().take(1).enumerate() {",
    ),
    "takes_an_interface_twice": (
        "src/reading.rt",
        "    if is_there(done, labels.engine.as_slice(), labels.index) {",
        "    if is_there(done, labels.engine.as_slice(), labels.index) && number == 0 {",
    ),
    "one_index_of_all_engines": (
        "src/interface.rt",
        "        self.index == index && self.engine.as_slice() == engine",
        "        self.index == index && self.engine.as_slice().len() == engine.len()",
    ),
    "one_interface_of_an_engine": (
        "src/interface.rt",
        "        self.index == index && self.engine.as_slice() == engine",
        "        self.engine.as_slice() == engine",
    ),
    "one_interface_more": ("src/reading.rt", "usize = 4096;", "usize = 4097;"),
    "the_alias_is_the_name": (
        "src/reading.rt",
        "    let if_alias = reader.text(Key::IfAlias)?;",
        "    let if_alias = reader.text(Key::IfName)?;",
    ),
    "no_texts": (
        "src/table.rt",
        "                Some(text) => Ok(Some(String::from_str(self.alloc, text)?)),",
        "                Some(_) => Ok(None),",
    ),
    "an_index_of_0": (
        "src/table.rt",
        "if 1 <= index &&",
        "if index < 2_147_483_648 &&",
    ),
    "a_short_engine_id": ("src/table.rt", "if 5 <= octets.len()", "if 4 <= octets.len()"),
    "passes_over_unknown_keys": (
        "src/table.rt",
        "            Some(_) => Err(LabelsFault::UnknownKey(self.place)),",
        "            Some(_) => Ok(()),",
    ),
    "the_place_is_the_text": (
        "src/reading.rt",
        "    let place = Place::Interface(number);",
        "    let _ = number;\n    let place = Place::Top;",
    ),
    "a_list_is_refused_as_too_many": (
        "src/reading.rt",
        "        return Err(LabelsFault::BadValue(Place::Top, Key::Interface));",
        "        return Err(LabelsFault::TooMany);",
    ),
    "any_text_is_no_toml": (
        "src/reading.rt",
        "        Ok(table) => table,",
        "        Ok(table) if text.is_empty() => table,\n        Ok(_) => return Err(LabelsFault::NotToml(0)),",
    ),
    "labels_of_no_instance": (
        "src/labels.rt",
        "            all.push(labels)?;",
        "            let _ = labels;",
    ),
    "no_interface_is_found": (
        "src/labels.rt",
        "                self.interfaces.as_slice(),",
        "                &[],",
    ),
    "the_address_of_the_first_target": (
        "src/labels.rt",
        "        Some(number) => reached.addresses.get(number),",
        "        Some(_) => reached.addresses.first(),",
    ),
    "addresses_of_other_instances": (
        "src/labels.rt",
        "            let address = address_of(reached, place);",
        "            let address = address_of(reached, place + 1);",
    ),
    "labels_of_devices_of_other_targets": (
        "src/labels.rt",
        "            let device = device_of(reached, place);",
        "            let device = device_of(reached, place + 1);",
    ),
    "no_speed_of_an_interface": ("src/labels.rt", "        speed: labels.speed,", "        speed: None,"),
    "a_speed_of_0": ("src/table.rt", "        Ok(speed) if 1 <= speed => Some(speed),", "        Ok(speed) => Some(speed),"),
    "too_many_has_the_number_of_twice": (
        "src/fault.rt",
        "            LabelsFault::TooMany => 7,",
        "            LabelsFault::TooMany => 6,",
    ),
    "twice_is_named_too_many": (
        "src/fault.rt",
        'LabelsFault::Twice(_) => "Twice"',
        'LabelsFault::Twice(_) => "TooMany"',
    ),
    "an_interface_is_there_if_all_are_it": (
        "src/interface.rt",
        "interfaces.iter().any(|labels|",
        "interfaces.iter().all(|labels|",
    ),
    "finds_the_index_at_any_engine": (
        "src/interface.rt",
        "interfaces.iter().find(|labels| labels.is_of(engine, index))",
        "{\n        let _ = engine;\n        interfaces.iter().find(|labels| labels.index == index)\n    }",
    ),
    "the_key_of_the_alias_in_small_letters": (
        "src/key.rt",
        'Key::IfAlias => "ifAlias"',
        'Key::IfAlias => "ifalias"',
    ),
    "the_labels_of_the_first_instance_for_all": (
        "src/labels.rt",
        "self.of_instance(alloc, &watched.instance, address, device)?",
        "self.of_instance(alloc, &instances.first().unwrap_or(watched).instance, address, device)?",
    ),
    "forgets_the_address_with_an_interface": (
        "src/labels.rt",
        "                target,\n                device,\n                if_name: copied(",
        "                target: None,\n                device,\n                if_name: copied(",
    ),
    "forgets_the_address_without_an_interface": (
        "src/labels.rt",
        "                target,\n                device,\n                if_name: None,",
        "                target: None,\n                device,\n                if_name: None,",
    ),
    "the_name_for_the_alias": (
        "src/labels.rt",
        "        if_alias: copied(alloc, labels.if_alias.as_ref())?,",
        "        if_alias: copied(alloc, labels.if_name.as_ref())?,",
    ),
    "copies_no_text": (
        "src/labels.rt",
        "        Some(text) => Ok(Some(String::from_str(alloc, text.as_str())?)),",
        "        Some(_) => Ok(None),",
    ),
    "passes_over_the_first_target": (
        "src/labels.rt",
        "    for number in 0..targets.len() {",
        "    for number in 1..targets.len() {",
    ),
    "a_target_is_polled_for_its_first_object": (
        "src/labels.rt",
        "        .iter()\n        .any(|object|",
        "        .iter()\n        .take(1)\n        .any(|object|",
    ),
    "numbers_interfaces_from_0": (
        "src/reading.rt",
        "read_entry_after(alloc, index + 1, done.as_slice(), value)?",
        "read_entry_after(alloc, index, done.as_slice(), value)?",
    ),
    "the_last_interface_alone": (
        "src/reading.rt",
        "        done.push(labels)?;\n    }\n    Ok(done)",
        "        done.clear();\n        done.push(labels)?;\n    }\n    Ok(done)",
    ),
    "no_table_lacks_its_key": (
        "src/reading.rt",
        "        None => Err(LabelsFault::BadValue(place, Key::Interface)),",
        "        None => Err(LabelsFault::Missing(place, Key::Interface)),",
    ),
    "does_not_look_for_one_before": (
        "src/reading.rt",
        "    unless_twice(number, done, labels)\n",
        "    let _ = done;\n    unless_twice(number, &[], labels)\n",
    ),
    "the_list_must_be_there": (
        "src/reading.rt",
        "        return Ok(&[]);",
        "        return Err(LabelsFault::Missing(Place::Top, Key::Interface));",
    ),
    "cuts_a_list_that_is_too_long": (
        "src/reading.rt",
        "        return Err(LabelsFault::TooMany);",
        "        return Ok(&values[..MAX_INTERFACES]);",
    ),
    "no_toml_is_an_empty_table": (
        "src/reading.rt",
        "            Some(span) => return Err(LabelsFault::NotToml(span.start)),",
        "            Some(_) => Table::new(alloc),",
    ),
    "reads_and_returns_no_labels": (
        "src/reading.rt",
        "    Ok(Labels { interfaces })",
        "    let _ = interfaces;\n    Ok(Labels::none(alloc))",
    ),
    "knows_the_first_key_alone": (
        "src/table.rt",
        "        if name == key.name() {\n            return true;\n        }\n    }\n    false",
        "        return name == key.name();\n    }\n    false",
    ),
    "a_missing_key_is_a_bad_value": (
        "src/table.rt",
        "ok_or(LabelsFault::Missing(self.place, key))",
        "ok_or(LabelsFault::BadValue(self.place, key))",
    ),
    "a_number_for_a_text_is_none": (
        "src/table.rt",
        "                None => Err(self.bad(key)),\n            },\n            None => Ok(None),",
        "                None => Ok(None),\n            },\n            None => Ok(None),",
    ),
    "a_bad_index_is_1": (
        "src/table.rt",
        "index_in(self.need(Key::Index)?).ok_or(self.bad(Key::Index))",
        "Ok(index_in(self.need(Key::Index)?).unwrap_or(1))",
    ),
    "an_index_of_2_to_the_31": (
        "src/table.rt",
        "index <= 2_147_483_647",
        "index <= 2_147_483_648",
    ),
    "takes_an_engine_id_of_33_octets": (
        "src/table.rt",
        "octets.len() <= 32",
        "octets.len() <= 33",
    ),
}

PROMISES = {
    "reads_no_interface": "reading::read_tree",
    "takes_an_interface_twice": "reading::unless_twice",
    "forgets_the_address_with_an_interface": "labels::Labels::of_instance",
}
