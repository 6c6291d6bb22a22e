"""Bugs of mon_settings for tests/wrong_bodies/planted: by name the file, what stands there once, and the bug in its place."""

BUGS = {
    "calls_what_is_not_toml_an_unknown_key": (
        "src/text.rt",
        "            Some(span) => Err(SettingsFault::NotToml(span.start)),",
        "            Some(_) => Err(SettingsFault::UnknownKey(crate::place::Place::Whole)),",
    ),
    "displays_listen_for_limit": (
        "src/key.rt",
        "        f.write_str(self.name())",
        '        f.write_str(if matches!(self, Key::Limit) { "listen" } else { self.name() })',
    ),
    "names_bad_value_missing": (
        "src/fault.rt",
        '            SettingsFault::BadValue(_) => "BadValue",',
        '            SettingsFault::BadValue(_) => "Missing",',
    ),
    "numbers_unknown_key_6": (
        "src/fault.rt",
        "            SettingsFault::UnknownKey(_) => 5,",
        "            SettingsFault::UnknownKey(_) => 6,",
    ),
    "spells_rate_otherwise": (
        "src/key.rt",
        '            Key::Rate => "rate",',
        '            Key::Rate => "rates",',
    ),
    "starts_with_two_boots": (
        "src/agent.rt",
        "Key::Boots, 1, 1, 2147483647));",
        "Key::Boots, 2, 1, 2147483647));",
    ),
    "takes_257_entries": (
        "src/list.rt",
        "self.rows(&(), key, 0, 256)",
        "self.rows(&(), key, 0, 257)",
    ),
    "takes_a_community_of_513_octets": (
        "src/tables.rt",
        "Key::Community, 1, 512));",
        "Key::Community, 1, 513));",
    ),
    "takes_a_mask_of_17_octets": (
        "src/tables.rt",
        "Key::Mask, 16));",
        "Key::Mask, 17));",
    ),
    "takes_a_window_of_0": (
        "src/leaf.rt",
        "self.number(key, 1, most as u64))",
        "self.number(key, 0, most as u64))",
    ),
    "takes_a_window_of_0_for_all": (
        "src/station.rt",
        "Key::Window, 1, 64)) as usize;",
        "Key::Window, 0, 64)) as usize;",
    ),
    "takes_an_alias_of_65_octets": (
        "src/tables.rt",
        "Key::Alias, 0, 64));",
        "Key::Alias, 0, 65));",
    ),
    "takes_services_of_128": (
        "src/agent.rt",
        "Key::Services, 0, 127));",
        "Key::Services, 0, 128));",
    ),
    "refuses_256_entries": (
        "src/list.rt",
        "self.rows(&(), key, 0, 256)",
        "self.rows(&(), key, 0, 255)",
    ),
    "calls_a_missing_list_a_bad_value": (
        "src/list.rt",
        "            return Err(SettingsFault::missing(key));",
        "            return Err(SettingsFault::bad(key));",
    ),
    "refuses_the_greatest_number": (
        "src/leaf.rt",
        "        Ok(n) if least <= n && n <= most => Some(n),",
        "        Ok(n) if least <= n && n < most => Some(n),",
    ),
    "takes_a_limit_of_483": (
        "src/agent.rt",
        "    let max_message_size = given!(reader.int(Key::Limit, 484, 8192));",
        "    let max_message_size = given!(reader.int(Key::Limit, 483, 8192));",
    ),
    "reads_model_1_as_2": (
        "src/leaf.rt",
        "        2 => Some(SecurityModel::V2c),",
        "        1 => Some(SecurityModel::V2c),",
    ),
    "takes_an_empty_text": (
        "src/leaf.rt",
        "        Some(text) if least <= text.len() && text.len() <= most => Some(text),",
        "        Some(text) if text.len() <= most => Some(text),",
    ),
    "refuses_a_mask_of_16_octets": (
        "src/tables.rt",
        "reader.hex_or_none(Key::Mask, 16));",
        "reader.hex_or_none(Key::Mask, 15));",
    ),
    "takes_no_key_for_known": (
        "src/keys.rt",
        "            return true;",
        "            return false;",
    ),
    "numbers_bad_value_3": (
        "src/fault.rt",
        "SettingsFault::BadValue(_) => 4,",
        "SettingsFault::BadValue(_) => 3,",
    ),
    "takes_a_community_of_no_octets": (
        "src/tables.rt",
        "Key::Community, 1, 512));",
        "Key::Community, 0, 512));",
    ),
    "takes_a_view_of_no_octets": (
        "src/leaf.rt",
        "match text_in(value, 1, most) {",
        "match text_in(value, 0, most) {",
    ),
    "swaps_contact_and_location": (
        "src/agent.rt",
        "        contact,\n        name,\n        location,\n",
        "        contact: location,\n        name,\n        location: contact,\n",
    ),
    "boots_from_0": (
        "src/agent.rt",
        "    let boots = given!(reader.int_or(Key::Boots, 1, 1, 2147483647));",
        "    let boots = given!(reader.int_or(Key::Boots, 0, 1, 2147483647));",
    ),
    "takes_boots_of_0": (
        "src/agent.rt",
        "    let boots = given!(reader.int_or(Key::Boots, 1, 1, 2147483647));",
        "    let boots = given!(reader.int_or(Key::Boots, 1, 0, 2147483647));",
    ),
    "forgets_to_look_for_unknown_keys": (
        "src/agent.rt",
        "    given!(reader.only(top_keys(SettingsKind::Agent)));\n",
        "",
    ),
    "calls_memory_not_toml": (
        "src/text.rt",
        "            None => Err(SettingsFault::OutOfMemory),",
        "            None => Err(SettingsFault::NotToml(0)),",
    ),
    "reads_the_read_view_for_writing": (
        "src/tables.rt",
        "reader.name_or_none(Key::Write, 32));",
        "reader.name_or_none(Key::Read, 32));",
    ),
    "reads_groups_before_communities": (
        "src/tables.rt",
        "    let communities = given!(reader.list(Key::Community));\n    let groups = given!(reader.list(Key::Group));",
        "    let groups = given!(reader.list(Key::Group));\n    let communities = given!(reader.list(Key::Community));",
    ),
    "blames_the_view_for_an_access": (
        "src/tables.rt",
        "        PolicyFault::UnknownView => Key::Access,",
        "        PolicyFault::UnknownView => Key::View,",
    ),
    "takes_a_limit_of_8193": (
        "src/agent.rt",
        "Key::Limit, 484, 8192));",
        "Key::Limit, 484, 8193));",
    ),
    "takes_an_engine_of_4_octets": (
        "src/agent.rt",
        "Key::Engine, 5, 32));",
        "Key::Engine, 4, 32));",
    ),
    "takes_the_window_as_the_epoch": (
        "src/station_tables.rt",
        "Key::Epoch, around.sizes.epoch.min(window), window));",
        "Key::Epoch, window, window));",
    ),
    "takes_17_objects": (
        "src/station_tables.rt",
        "Key::Objects, 1, 16));",
        "Key::Objects, 1, 17));",
    ),
    "takes_no_objects": (
        "src/station_tables.rt",
        "around, Key::Objects, 1, 16));",
        "around, Key::Objects, 0, 16));",
    ),
    "takes_65_targets": (
        "src/station.rt",
        "Key::Target, 1, 64));",
        "Key::Target, 1, 65));",
    ),
    "takes_9_tries": (
        "src/station_tables.rt",
        "Key::Tries, 1, 8))",
        "Key::Tries, 1, 9))",
    ),
    "takes_257_instances": (
        "src/placing.rt",
        "    if instances.len() > MAX_INSTANCES {",
        "    if instances.len() > MAX_INSTANCES + 1 {",
    ),
    "compares_an_instance_with_its_own_name": (
        "src/placing.rt",
        "    let name = &new.instance.name;\n    match instances.binary_search_by(|watched| watched.instance.compare(engine, name)) {",
        "    match instances.binary_search_by(|watched| watched.instance.compare(engine, &watched.instance.name)) {",
    ),
    "an_instance_goes_behind_all": (
        "src/placing.rt",
        "compare(engine, name)) {\n        Ok(_) => None,\n        Err(place) => Some(place),",
        "compare(engine, name)) {\n        Ok(_) => None,\n        Err(_) => Some(instances.len()),",
    ),
    "an_instance_goes_where_it_is": (
        "src/placing.rt",
        "compare(engine, name)) {\n        Ok(_) => None,",
        "compare(engine, name)) {\n        Ok(place) => Some(place),",
    ),
    "numbers_the_instance_before": (
        "src/placing.rt",
        "        Ok(number) => Some(number),",
        "        Ok(number) => Some(number / 2),",
    ),
    "numbers_what_is_not_watched": (
        "src/placing.rt",
        "        Ok(number) => Some(number),\n        Err(_) => None,",
        "        Ok(number) => Some(number),\n        Err(number) => Some(number),",
    ),
    "searches_the_first_half": (
        "src/placing.rt",
        "    match instances.binary_search_by(|watched| watched.instance.compare(engine, name)) {\n        Ok(number)",
        "    match instances[..instances.len() / 2].binary_search_by(|watched| watched.instance.compare(engine, name)) {\n        Ok(number)",
    ),
    "searches_rules_backwards": (
        "src/placing.rt",
        "binary_search_by(|rule| compare(rule, new))",
        "binary_search_by(|rule| compare(new, rule))",
    ),
    "swaps_the_thresholds": (
        "src/placing.rt",
        "Rule::new(number as u16, alarm.rising, alarm.falling)",
        "Rule::new(number as u16, alarm.falling, alarm.rising)",
    ),
    "calls_falling_a_bad_alarm": (
        "src/placing.rt",
        "        Err(_) => Err(SettingsFault::bad(Key::Falling)),",
        "        Err(_) => Err(SettingsFault::bad(Key::Alarm)),",
    ),
    "takes_the_address_of_a_target": (
        "src/peers.rt",
        "targets.iter().any(|target| target.address == address)",
        "targets.iter().all(|target| target.address == address)",
    ),
    "takes_a_peer_twice": (
        "src/peers.rt",
        "        if stands_in(&numbers[..i], numbers[i]) {",
        "        if stands_in(&numbers[..i / 2], numbers[i]) {",
    ),
    "takes_16_peers": (
        "src/peers.rt",
        "    numbers.len() <= MAX_PEERS && are_others(own, numbers) && differ(numbers)",
        "    numbers.len() <= MAX_PEERS + 1 && are_others(own, numbers) && differ(numbers)",
    ),
    "drops_the_peers": (
        "src/station.rt",
        "    let numbers = stations_of(alloc, peers)?;",
        "    let numbers = stations_of(alloc, &peers[..0])?;",
    ),
    "drops_the_alarms": (
        "src/station.rt",
        "    rules_of(reader.alloc, instances, alarms.as_slice())",
        "    rules_of(reader.alloc, instances, &alarms.as_slice()[..0])",
    ),
    "numbers_an_object_by_half": (
        "src/station.rt",
        "&object.name).unwrap_or(0);",
        "&object.name).unwrap_or(0) / 2;",
    ),
    "forgets_what_marks_an_instance": (
        "src/placing.rt",
        "        Some(name) => Some(name.try_clone(alloc)?),",
        "        Some(_) => None,",
    ),
    "reads_the_name_as_the_mark": (
        "src/station_tables.rt",
        "reader.object_or_none(around.names, Key::Mark));",
        "reader.object_or_none(around.names, Key::Name));",
    ),
    "numbers_unknown_object_5": (
        "src/fault.rt",
        "            SettingsFault::UnknownObject(_) => 6,",
        "            SettingsFault::UnknownObject(_) => 5,",
    ),
    "takes_a_wait_of_60001": (
        "src/station.rt",
        "Key::WaitMs, 1, 60000))",
        "Key::WaitMs, 1, 60001))",
    ),
    "takes_a_file_of_4096_octets": (
        "src/station.rt",
        "Key::File, 0, 4095));",
        "Key::File, 0, 4096));",
    ),
    "takes_a_module_of_4096_octets": (
        "src/modules.rt",
        "    match text_in(value, 0, 4095) {",
        "    match text_in(value, 0, 4096) {",
    ),
    "calls_an_unknown_object_an_unknown_key": (
        "src/leaf.rt",
        "        _ => SettingsFault::UnknownObject(Place::At(PathPart::Value(key))),",
        "        _ => SettingsFault::UnknownKey(Place::At(PathPart::Value(key))),",
    ),
    "takes_a_peer_of_number_0": (
        "src/station_tables.rt",
        "Key::Station, 1, 4294967295))",
        "Key::Station, 0, 4294967295))",
    ),
    "takes_an_epoch_of_65": (
        "src/station.rt",
        "reader.size_or(Key::Epoch, window, window));",
        "reader.size_or(Key::Epoch, window, 65));",
    ),
    "needs_modules": (
        "src/modules.rt",
        "        return Ok(Vec::new(reader.alloc));",
        "        return Err(SettingsFault::missing(Key::Modules));",
    ),
    "watches_an_epoch_for_a_window": (
        "src/placing.rt",
        "        window: object.window,",
        "        window: object.epoch,",
    ),
    "calls_a_stations_memory_not_toml": (
        "src/station.rt",
        "        Err(fault) => Err(fault),",
        "        Err(_) => Err(SettingsFault::NotToml(0)),",
    ),
    "calls_a_station_that_is_not_toml_an_unknown_key": (
        "src/station.rt",
        "        Err(fault) => Err(fault),",
        "        Err(_) => Err(SettingsFault::UnknownKey(crate::place::Place::Whole)),",
    ),
    "calls_a_bad_tree_of_modules_not_toml": (
        "src/modules.rt",
        "        None => Err(SettingsFault::bad(Key::Modules)),\n    }\n}\n\n/// The module files that",
        "        None => Err(SettingsFault::NotToml(0)),\n    }\n}\n\n/// The module files that",
    ),
    "watches_without_rules": (
        "src/station.rt",
        "    let Ok(watch) = Watch::new(instances, rules) else {",
        "    let Ok(watch) = Watch::new(instances, Vec::new(alloc)) else {",
    ),
    "resolves_what_is_in_front_of_the_dot": (
        "src/leaf.rt",
        "    match names.resolve(alloc, text) {",
        "    let front = match text.split_once('.') {\n        Some((front, _)) => front,\n        None => text,\n    };\n    match names.resolve(alloc, front) {",
    ),
    "counts_entries_from_0": (
        "src/list.rt",
        "PathPart::Entry(key, index + 1), value)",
        "PathPart::Entry(key, index), value)",
    ),
    "blames_the_entry_after_the_bad_one": (
        "src/list.rt",
        "PathPart::Entry(key, index + 1), value)",
        "PathPart::Entry(key, index + 2), value)",
    ),
    "leaves_out_the_table_of_a_count": (
        "src/tables.rt",
        "        Err(fault) => Err(fault.within(PathPart::Value(key))),",
        "        Err(fault) => Err(fault),",
    ),
    "leaves_out_the_alarm": (
        "src/placing.rt",
        "PathPart::Entry(Key::Alarm, number))),",
        "PathPart::Value(Key::Alarm))),",
    ),
    "leaves_out_the_target_around_an_object": (
        "src/place.rt",
        "            Place::At(last) => Place::In(step, last),",
        "            Place::At(last) => Place::At(last),",
    ),
    "prints_the_inner_table_alone": (
        "src/place.rt",
        "            Place::In(table, last) => write!(f, \"{table}.{last}\"),",
        "            Place::In(_, last) => write!(f, \"{last}\"),",
    ),
    "names_a_known_key": (
        "src/keys.rt",
        "    table.keys().find(|name| !is_one_of(name.as_str(), keys))",
        "    table.keys().find(|name| is_one_of(name.as_str(), keys))",
    ),
    "ignores_the_epoch": (
        "src/station.rt",
        "    let epoch = given!(reader.size_or(Key::Epoch, window, window));",
        "    let epoch = window;",
    ),
    "includes_what_is_excluded": (
        "src/tables.rt",
        "            included,",
        "            included: !included,",
    ),
    "reads_model_3_as_2": (
        "src/leaf.rt",
        "        2 => Some(SecurityModel::V2c),",
        "        3 => Some(SecurityModel::V2c),",
    ),
    "reads_the_name_as_contact": (
        "src/agent.rt",
        "reader.octets(Key::Contact, 0, 255));",
        "reader.octets(Key::Name, 0, 255));",
    ),
    "takes_equal_indexes": (
        "src/tables.rt",
        "        if interface.index <= last {",
        "        if interface.index < last {",
    ),
    "allows_unknown_keys": (
        "src/leaf.rt",
        "            Some(_) => Err(SettingsFault::UnknownKey(Place::Whole)),",
        "            Some(_) => Ok(()),",
    ),
    "reads_the_first_entry_alone": (
        "src/list.rt",
        "read_rows(self.alloc, around, key, values),",
        "read_rows(self.alloc, around, key, if values.len() > 1 { &values[..1] } else { values }),",
    ),
    "takes_an_alarm_on_what_is_not_watched": (
        "src/placing.rt",
        "    let Some(number) = number_of(instances, alarm.engine.as_slice(), &alarm.name) else {\n        return Err(SettingsFault::BadValue(Place::Whole));\n    };\n",
        "    let number = number_of(instances, alarm.engine.as_slice(), &alarm.name).unwrap_or(0);\n",
    ),
    "takes_an_epoch_above_its_window": (
        "src/station_tables.rt",
        "sizes.epoch.min(window), window));",
        "sizes.epoch.min(window), 64));",
    ),
    "takes_itself_as_a_peer": (
        "src/peers.rt",
        "    numbers.iter().all(|number| *number != own)",
        "    numbers.iter().all(|number| *number != own || *number == 1)",
    ),
    "finds_the_last_unknown_key": (
        "src/keys.rt",
        "    table.keys().find(|name| !is_one_of(name.as_str(), keys))",
        "    table.keys().rev().find(|name| !is_one_of(name.as_str(), keys))",
    ),
    "skips_the_keys_of_a_peer": (
        "src/station_tables.rt",
        "        given!(reader.only(table_keys(Key::Peer)));\n",
        "",
    ),
    "knows_the_keys_of_a_group_in_a_community": (
        "src/grammar.rt",
        "        Community => &[Community, Security],",
        "        Community => &[Security, Group],",
    ),
    "knows_no_key_of_a_peer": (
        "src/grammar.rt",
        "        Peer => &[Station, Address],",
        "        Peer => &[],",
    ),
    "knows_a_stations_keys_in_an_agents_settings": (
        "src/grammar.rt",
        "        SettingsKind::Agent => &AGENT,",
        "        SettingsKind::Agent => &STATION,",
    ),
    "leaves_rules_in_the_order_of_the_alarms": (
        "src/placing.rt",
        "compare(rule, new)) {\n        Ok(_) => None,\n        Err(place) => Some(place),",
        "compare(rule, new)) {\n        Ok(_) => None,\n        Err(_) => Some(rules.len()),",
    ),
    "takes_a_rule_twice": (
        "src/placing.rt",
        "compare(rule, new)) {\n        Ok(_) => None,",
        "compare(rule, new)) {\n        Ok(place) => Some(place),",
    ),
    "takes_a_missing_truth_for_false": (
        "src/leaf.rt",
        "            Some(value) => value.as_bool().ok_or(SettingsFault::bad(key)),\n            None => Err(SettingsFault::missing(key)),",
        "            Some(value) => value.as_bool().ok_or(SettingsFault::bad(key)),\n            None => Ok(false),",
    ),
    "takes_a_bad_view_for_none": (
        "src/leaf.rt",
        "                None => Err(SettingsFault::bad(key)),\n            },\n            None => Ok(None),",
        "                None => Ok(None),\n            },\n            None => Ok(None),",
    ),
    "blames_the_text_for_memory": (
        "src/leaf.rt",
        "            Err(FromHexError::OutOfMemory) => Err(SettingsFault::OutOfMemory),",
        "            Err(FromHexError::OutOfMemory) => Err(SettingsFault::bad(key)),",
    ),
    "takes_an_unknown_mark_for_none": (
        "src/leaf.rt",
        "            Some(_) => Ok(Some(given!(self.object(names, key)))),",
        "            Some(_) => match self.object(names, key) {\n                Ok(name) => Ok(Some(name)),\n                Err(_) => Ok(None),\n            },",
    ),
    "takes_fewer_than_the_least": (
        "src/list.rt",
        "    if least <= values.len() && values.len() <= most {",
        "    let _ = least;\n    if values.len() <= most {",
    ),
    "needs_alarms_and_peers": (
        "src/list.rt",
        "            Some(_) => self.rows(around, key, 0, most),\n            None => Ok(Vec::new(self.alloc)),",
        "            Some(_) => self.rows(around, key, 0, most),\n            None => Err(SettingsFault::missing(key)),",
    ),
    "finds_no_modules_in_what_is_not_toml": (
        "src/modules.rt",
        "        Err(fault) => Err(fault),",
        "        Err(_) => Ok(Vec::new(alloc)),",
    ),
    "takes_peers_anywhere": (
        "src/peers.rt",
        "    if !are_apart(targets, peers.as_slice()) {\n        return Err(SettingsFault::bad(Key::Peer));\n    }\n",
        "    let _ = targets;\n",
    ),
    "takes_a_rule_twice_as_one": (
        "src/placing.rt",
        "        return Err(SettingsFault::BadValue(Place::Whole));\n    };\n    rules.insert(place, new)?;",
        "        return Ok(rules);\n    };\n    rules.insert(place, new)?;",
    ),
    "watches_all_at_the_first_engine": (
        "src/placing.rt",
        "with_objects(alloc, &target.engine, target.objects.as_slice(), done)?;",
        "with_objects(alloc, &targets[0].engine, target.objects.as_slice(), done)?;",
    ),
    "polls_no_mark": (
        "src/station.rt",
        "        Some(name) => Some(name.try_clone(alloc)?),\n        None => None,",
        "        Some(_) => None,\n        None => None,",
    ),
    "all_targets_answer_at_once": (
        "src/rounds.rt",
        "(1 + u64::from(quiet) + u64::from(has_peers))",
        "(1 + u64::from(has_peers))",
    ),
    "waits_for_no_peer": (
        "src/rounds.rt",
        "(1 + u64::from(quiet) + u64::from(has_peers))",
        "(1 + u64::from(quiet))",
    ),
    "adds_the_waits_to_one": (
        "src/rounds.rt",
        "    u64::from(wait_ms) * (1 + u64::from(quiet) + u64::from(has_peers))",
        "    u64::from(wait_ms) + 1 + u64::from(quiet) + u64::from(has_peers)",
    ),
    "waits_for_peers_if_there_are_none": (
        "src/rounds.rt",
        "    let has_peers = !settings.core.peers().is_empty();",
        "    let has_peers = settings.core.peers().is_empty();",
    ),
    "counts_each_target_once": (
        "src/rounds.rt",
        "            most = target.tries;",
        "            most = 1 + target.tries - target.tries;",
    ),
    "counts_the_last_target_only": (
        "src/rounds.rt",
        "        if target.tries > most {",
        "        if target.tries != most {",
    ),
    "the_longest_round_is_the_silent_one": (
        "src/rounds.rt",
        "        most: MOST * silent,",
        "        most: silent,",
    ),
    "a_wait_lasts_three_times_its_length": (
        "src/rounds.rt",
        "const MOST: u64 = 4;",
        "const MOST: u64 = 3;",
    ),
    "the_silent_round_is_the_least": (
        "src/rounds.rt",
        "        silent,\n        most",
        "        silent: waits(settings.wait_ms, 0, has_peers),\n        most",
    ),
    "a_round_of_answers_waits_for_each_try": (
        "src/rounds.rt",
        "        least: waits(settings.wait_ms, 0, has_peers),",
        "        least: silent,",
    ),
    "reads_the_thresholds_swapped": (
        "src/station_tables.rt",
        "            name,\n            rising,\n            falling,\n        })",
        "            name,\n            rising: falling,\n            falling: rising,\n        })",
    ),
}
