"""Bugs of mon_settings_commands for tests/wrong_bodies/planted: by name the file, what stands there once, and the bug in its place."""

BUGS = {
    "labels_at_another_path": (
        "src/updating.rt",
        "replace_file(alloc, host, file.path, text.as_bytes())",
        "replace_file(alloc, host, file.old.labels, text.as_bytes())",
    ),
    "reads_no_labels": (
        "src/updating.rt",
        'match known_names(alloc, old, input.survey.engine.as_slice()) {',
        'match known_names(alloc, "", input.survey.engine.as_slice()) {',
    ),
    "says_one_line": (
        "src/updating.rt",
        "note_lines(host, rest)",
        "note_lines(host, if rest.len() > 3 { &[] } else { rest })",
    ),
    "splits_while_updating": (
        "src/updating.rt",
        "if words.append.is_some() || words.split.is_some() || !words.modules.is_empty() {",
        "if words.append.is_some() || !words.modules.is_empty() {",
    ),
    "never_appends": (
        "src/settings.rt",
        "    if words.split.is_some() || !words.modules.is_empty() {",
        "    if words.append.is_some() {",
    ),
    "raises_no_alarm": (
        "src/words.rt",
        "        Some(percent) => Ok(percent),",
        "        Some(_) => Ok(0),",
    ),
    "finds_no_percentage": (
        "src/words.rt",
        "    if number > 100 {\n        return None;\n    }\n    Some(number)",
        "    if number <= 100 {\n        return None;\n    }\n    None",
    ),
    "takes_101_percent": (
        "src/words.rt",
        "    if number > 100 {",
        "    if number > 101 {",
    ),
    "reads_the_sign_as_a_digit": (
        "src/words.rt",
        "        Some(front) => number_to_100(front),",
        "        Some(_) => number_to_100(text),",
    ),
    "takes_another_text": (
        "src/settings.rt",
        "percent_of(alloc, words.thresholds)?",
        "percent_of(alloc, words.only)?",
    ),
    "halves_the_percentage": (
        "src/settings.rt",
        "        percent: percent.min(100),",
        "        percent: percent.min(50),",
    ),
    "swaps_address_and_community": (
        "src/settings.rt",
        "        address: lent.address,\n        community: lent.community,\n        tries",
        "        address: lent.community,\n        community: lent.address,\n        tries",
    ),
    "sends_each_poll_once": (
        "src/settings.rt",
        "        tries: words.tries.min(8) as u8,",
        "        tries: words.tries.min(1) as u8,",
    ),
    "lends_the_community_for_the_address": (
        "src/settings.rt",
        "    Lent {\n        address,",
        "    Lent {\n        address: community,",
    ),
    "polls_interfaces_that_are_down": (
        "src/settings.rt",
        "            up: self.words.up,",
        "            up: false,",
    ),
    "the_agent_has_no_engine": (
        "src/settings.rt",
        "            engine: self.survey.engine.as_slice(),",
        "            engine: &[],",
    ),
    "append_goes_with_modules": (
        "src/settings.rt",
        "    if words.split.is_some() || !words.modules.is_empty() {",
        "    if words.split.is_some() && !words.modules.is_empty() {",
    ),
    "the_second_file_ends_with_1": (
        "src/words.rt",
        "    let number = up.saturating_add(1);",
        "    let number = up;",
    ),
    "leaves_out_an_address_that_is_none": (
        "src/words.rt",
        "        None => Ok(place.push_str(text)?),",
        "        None => Ok(()),",
    ),
    "polls_discards_for_errors": (
        "src/words.rt",
        '        "errors" => kinds.errors = true,',
        '        "errors" => kinds.discards = true,',
    ),
    "the_address_of_a_peer_has_its_number": (
        "src/words.rt",
        "        Ok(station) => Ok((station, address)),",
        "        Ok(station) => Ok((station, word)),",
    ),
    "takes_the_first_peer_only": (
        "src/words.rt",
        "        put_peer(alloc, peers, word, up)?;",
        "        put_peer(alloc, peers, word, up)?;\n        break;",
    ),
    "appends_no_peer": (
        "src/words.rt",
        "    Ok(peers.push(Peer { station, address })?)",
        "    let _ = (peers, station, address);\n    Ok(())",
    ),
    "reads_past_the_end_of_the_view": (
        "src/asking.rt",
        "matches!(binding.value, Value::EndOfMibView) || !place.start.is_prefix_of(&binding.name)",
        "!place.start.is_prefix_of(&binding.name)",
    ),
    "an_error_without_an_index_is_none": (
        "src/asking.rt",
        "Body::Pdu(pdu) if pdu.error_status != 0 =>",
        "Body::Pdu(pdu) if pdu.error_index != 0 =>",
    ),
    "a_column_without_end_does_not_increase": (
        "src/asking.rt",
        "        Fault::App(AppFault::Timeout),",
        "        Fault::App(AppFault::NotIncreasing),",
    ),
    "a_survey_fails_as_a_station": (
        "src/failing.rt",
        'Innermost::new("mon_survey", fault.number(), fault.name())',
        'Innermost::new("mon_station", fault.number(), fault.name())',
    ),
    "options_together_are_a_file_fault": (
        "src/failing.rt",
        "shown as in the settings\",\n    );\n    Failure::said(Fault::App(AppFault::BadText), more)\n}\n\n/// Why settings that are brought",
        "shown as in the settings\",\n    );\n    Failure::said(Fault::App(AppFault::FileFault), more)\n}\n\n/// Why settings that are brought",
    ),
    "raises_alarms_unasked": (
        "src/words.rt",
        "        return Ok(0);",
        "        return Ok(80);",
    ),
    "takes_0_percent": (
        "src/words.rt",
        "    if number < 1 {",
        "    if number > 200 {",
    ),
    "counts_no_port_up": (
        "src/words.rt",
        "saturating_add(up)) {\n        Ok(port) => Some(Addr { octets, port }),",
        "saturating_add(up)) {\n        Ok(_) => Some(address),",
    ),
    "counts_a_port_past_the_last_up": (
        "src/words.rt",
        "        Err(_) => None,\n    }\n}\n\n/// Appends the name of a file",
        "        Err(_) => Some(address),\n    }\n}\n\n/// Appends the name of a file",
    ),
    "leaves_out_a_peer": (
        "src/words.rt",
        "        put_peer(alloc, peers, word, up)?;",
        "        peer_at(alloc, word)?;",
    ),
    "a_peer_with_another_number": (
        "src/words.rt",
        "    Ok(peers.push(Peer { station, address })?)",
        "    Ok(peers.push(Peer { station: up, address })?)",
    ),
    "prints_no_settings": (
        "src/settings.rt",
        "    write_labels(alloc, host, input, \"\")?;\n    print_drafted(alloc, host, &drafted)\n",
        "    write_labels(alloc, host, input, \"\")\n",
    ),
    "prints_settings_twice": (
        "src/settings.rt",
        "    write_labels(alloc, host, input, \"\")?;\n    print_drafted(alloc, host, &drafted)\n",
        "    write_labels(alloc, host, input, \"\")?;\n    print_drafted(alloc, host, &drafted)?;\n    print_drafted(alloc, host, &drafted)\n",
    ),
    "prints_settings_before_labels_are_written": (
        "src/settings.rt",
        "    write_labels(alloc, host, input, old)?;\n    print_drafted(alloc, host, drafted)\n",
        "    print_drafted(alloc, host, drafted)?;\n    write_labels(alloc, host, input, old)\n",
    ),
    "prints_the_old_labels": (
        "src/settings.rt",
        "    write_labels(alloc, host, input, old)?;\n    print_drafted(alloc, host, drafted)\n",
        "    write_labels(alloc, host, input, old)?;\n    print_noted(alloc, host, old.as_bytes(), \"these settings\", drafted.longest)\n",
    ),
    "swallows_a_fault_of_labels": (
        "src/settings.rt",
        "    write_labels(alloc, host, input, old)?;\n",
        "    let _ = write_labels(alloc, host, input, old);\n",
    ),
    "asks_before_it_reads_modules": (
        "src/settings.rt",
        "    let names = names_of(alloc, host, words.modules)?;\n    let survey = ask_agent(alloc, host, net, asked)?;\n",
        "    let survey = ask_agent(alloc, host, net, asked)?;\n    let names = names_of(alloc, host, words.modules)?;\n",
    ),
    "reads_the_settings_that_are_there_twice": (
        "src/settings.rt",
        "    let existing = existing_in(alloc, host, path)?;\n",
        "    existing_in(alloc, host, path)?;\n    let existing = existing_in(alloc, host, path)?;\n",
    ),
    "reads_the_labels_for_the_settings": (
        "src/settings.rt",
        "    let existing = existing_in(alloc, host, path)?;\n",
        "    let existing = existing_in(alloc, host, words.labels.unwrap_or(path))?;\n",
    ),
    "appends_to_no_settings": (
        "src/settings.rt",
        "            print_appended(alloc, host, net, addition, asked)\n",
        "            print_new(alloc, host, net, addition.words, asked)\n",
    ),
    "prints_in_place_of_splitting": (
        "src/settings.rt",
        "        Some(folder) => write_parts(alloc, host, net, input, folder),",
        "        Some(_) => print_whole(alloc, host, net, input),",
    ),
    "takes_labels_from_another_file": (
        "src/labelling.rt",
        "        Some(path) => read_text(alloc, host, path),",
        "        Some(_) => read_text(alloc, host, \"labels.toml\"),",
    ),
    "forgets_the_old_labels": (
        "src/labelling.rt",
        "        Some(path) => read_text(alloc, host, path),",
        "        Some(_) => Ok(String::new(alloc)),",
    ),
    "replaces_no_labels": (
        "src/labelling.rt",
        "    replace_file(alloc, host, path, text.as_bytes())\n",
        "    Ok(())\n",
    ),
    "replaces_labels_by_the_old_ones": (
        "src/labelling.rt",
        "    replace_file(alloc, host, path, text.as_bytes())\n",
        "    replace_file(alloc, host, path, old.as_bytes())\n",
    ),
    "labels_without_the_old_ones": (
        "src/labelling.rt",
        "    match labels(alloc, old, &input.agent(), &input.choice(None)) {",
        "    match labels(alloc, path, &input.agent(), &input.choice(None)) {",
    ),
    "names_a_part_by_its_place": (
        "src/parts.rt",
        "    let number = place + 1;",
        "    let number = place;",
    ),
    "writes_each_part_twice": (
        "src/parts.rt",
        "        write_part(alloc, host, folder, place, &parts[place])?;",
        "        write_part(alloc, host, folder, place, &parts[place])?;\n        write_part(alloc, host, folder, place, &parts[place])?;",
    ),
    "writes_the_first_part_alone": (
        "src/parts.rt",
        "    for place in 0..parts.len() {\n        write_part(",
        "    for place in 0..parts.len().min(1) {\n        write_part(",
    ),
    "writes_one_text_to_all_parts": (
        "src/parts.rt",
        "        write_part(alloc, host, folder, place, &parts[place])?;",
        "        write_part(alloc, host, folder, place, &parts[0])?;",
    ),
    "prints_the_text_for_its_name": (
        "src/parts.rt",
        "    print_noted(alloc, host, line.as_bytes(), path, part.longest)\n",
        "    print_noted(alloc, host, part.text.as_bytes(), path, part.longest)\n",
    ),
    "prints_the_name_before_the_file_is_written": (
        "src/parts.rt",
        "    write_file(alloc, host, path, part.text.as_bytes())?;\n    let line = format!(in alloc; \"{path}\\n\")?;\n    print_noted(alloc, host, line.as_bytes(), path, part.longest)\n",
        "    let line = format!(in alloc; \"{path}\\n\")?;\n    print_noted(alloc, host, line.as_bytes(), path, part.longest)?;\n    write_file(alloc, host, path, part.text.as_bytes())\n",
    ),
    "leaves_out_the_last_group": (
        "src/parts.rt",
        "    for group in 0..groups {",
        "    for group in 1..groups {",
    ),
    "says_no_count": (
        "src/asking.rt",
        "        Some(number) if number as usize != count => note_count",
        "        Some(number) if number as usize > count + 1 => note_count",
    ),
    "says_each_count": (
        "src/asking.rt",
        "        Some(number) if number as usize != count => note_count",
        "        Some(number) if number as usize != count + 1 => note_count",
    ),
    "says_a_count_of_interfaces_as_ifnumber": (
        "src/asking.rt",
        "{agent}: ifNumber is {number}, and ifTable has {count}{interfaces}",
        "{agent}: ifNumber is {count}, and ifTable has {count}{interfaces}",
    ),
    "reads_the_file_before_the_arguments": (
        "src/settings.rt",
        "    require_alone(alloc, words)?;\n    let existing = existing_in(alloc, host, path)?;\n",
        "    let existing = existing_in(alloc, host, path)?;\n    require_alone(alloc, words)?;\n",
    ),
    "keeps_another_text": (
        "src/existing.rt",
        "    Ok(Existing {\n        text,\n",
        "    Ok(Existing {\n        text: String::new(alloc),\n",
    ),
    "knows_no_module_that_settings_list": (
        "src/existing.rt",
        "    names_by(alloc, host, files.as_slice())\n",
        "    names_by(alloc, host, &[])\n",
    ),
    "refuses_the_kinds_that_there_are": (
        "src/words.rt",
        '        if !add_kind(&mut kinds, word) {',
        '        if add_kind(&mut kinds, word) {',
    ),
    "passes_over_words_that_are_no_kinds": (
        "src/words.rt",
        '            return Err(Failure::text(alloc, word, "octets, packets, errors or discards"));',
        '            continue;',
    ),
    "polls_packets_unasked": (
        "src/words.rt",
        '    kinds_in(alloc, given_or(only, "octets,errors"))',
        '    kinds_in(alloc, given_or(only, "octets,packets,errors"))',
    ),
    "parts_kinds_by_dots": (
        "src/words.rt",
        "text.split(',')",
        "text.split('.')",
    ),
    "polls_the_first_kind_only": (
        "src/words.rt",
        'octets, packets, errors or discards"));\n        }\n',
        'octets, packets, errors or discards"));\n        }\n        break;\n',
    ),
    "takes_any_peer": (
        "src/words.rt",
        '        peer_at(alloc, word)?;',
        '        let _ = word;',
    ),
    "refuses_each_peer": (
        "src/words.rt",
        '        Ok(station) => Ok((station, address)),',
        '        Ok(_) => Err(peer_failure(alloc, address)),',
    ),
    "refuses_each_percentage": (
        "src/words.rt",
        '        Some(percent) => Ok(percent),\n        None => Err',
        '        Some(percent) if percent < 1 => Ok(percent),\n        _ => Err',
    ),
    "refuses_an_address_for_its_community": (
        "src/settings.rt",
        '        agent: agent_at(alloc, words.address)?,\n        community: community(alloc, words.community)?,\n',
        '        community: community(alloc, words.community)?,\n        agent: agent_at(alloc, words.address)?,\n',
    ),
    "refuses_thresholds_before_kinds": (
        "src/settings.rt",
        '        kinds: kinds_of(alloc, words.only)?,\n        percent: percent_of(alloc, words.thresholds)?,\n',
        '        percent: percent_of(alloc, words.thresholds)?,\n        kinds: kinds_of(alloc, words.only)?,\n',
    ),
    "requires_no_peer": (
        "src/settings.rt",
        '    require_peers(alloc, words.peers)?;\n',
        '',
    ),
    "asks_each_question_under_one_id": (
        "src/asking.rt",
        '    asker.last_id = id;\n',
        '',
    ),
    "asks_in_the_address": (
        "src/asking.rt",
        "    match exchange(alloc, asker, asked.community, asking, names) {",
        "    match exchange(alloc, asker, asked.agent.word.as_bytes(), asking, names) {",
    ),
    "asks_for_no_names": (
        "src/asking.rt",
        '        names,\n    };\n    match send_request',
        '        names: &[],\n    };\n    match send_request',
    ),
    "no_answer_is_an_empty_one": (
        "src/asking.rt",
        "        Ok(bindings) => Ok(bindings.into_vec()),\n        Err(fault) => Err(answer_failure(alloc, asked.agent.word, fault)),",
        "        Ok(bindings) => Ok(bindings.into_vec()),\n        Err(_) => Ok(Vec::new(alloc)),",
    ),
    "surveys_no_column": (
        "src/asking.rt",
        '    walk_columns(alloc, asker, asked, &mut answers)?;\n',
        '',
    ),
    "asks_for_the_engine_once": (
        "src/asking.rt",
        '    require_engine(alloc, asker, asked, engine.as_slice())?;\n',
        '',
    ),
    "an_engine_of_the_same_length_is_the_same": (
        "src/asking.rt",
        '        Ok(now) if now == engine => Ok(()),',
        '        Ok(now) if now.len() == engine.len() => Ok(()),',
    ),
    "walks_columns_of_octets_alone": (
        "src/asking.rt",
        '    if asked.kinds.needs(column) {',
        '    if asked.kinds.octets {',
    ),
    "asks_for_10_rounds": (
        "src/asking.rt",
        '        max_repetitions: REPETITIONS,',
        '        max_repetitions: 10,',
    ),
    "asks_after_the_start_again": (
        "src/asking.rt",
        'slice::from_ref(&place.last)',
        'slice::from_ref(&place.start)',
    ),
    "a_column_without_end_is_whole": (
        "src/asking.rt",
        '    Err(unending(alloc, asked.agent.word, &place.start))\n',
        '    let _ = unending(alloc, asked.agent.word, &place.start);\n    Ok(())\n',
    ),
    "an_empty_reply_ends_the_column": (
        "src/asking.rt",
        '    if bindings.is_empty() {\n        return Err(answer_failure(alloc, agent, AppFault::NotIncreasing));',
        '    if bindings.is_empty() {\n        return Ok(false);',
    ),
    "takes_a_name_twice": (
        "src/asking.rt",
        '    if !place.last.compare(&binding.name).is_lt() {',
        '    if !place.last.compare(&binding.name).is_le() {',
    ),
    "takes_no_value": (
        "src/asking.rt",
        '    match answers.take(&binding.name, value) {',
        '    let _ = value;\n    match answers.take(&binding.name, Value::Null) {',
    ),
    "counts_no_cell": (
        "src/asking.rt",
        '    place.taken += 1;\n',
        '',
    ),
    "the_agent_has_no_number": (
        "src/asking.rt",
        '    count_in(&number.value)\n',
        '    let _ = number;\n    None\n',
    ),
    "reads_a_number_below_0": (
        "src/asking.rt",
        'u32::try_from(*count).ok()',
        'Some(count.unsigned_abs())',
    ),
    "asks_for_the_engine_id_twice": (
        "src/asking.rt",
        'ENGINE_BOOTS.as_slice()',
        'ENGINE_ID.as_slice()',
    ),
    "the_id_after_the_last_is_the_last": (
        "src/asking.rt",
        ' { id + 1 } else { 0 }',
        ' { id } else { 0 }',
    ),
    "leaves_out_the_last_column": (
        "src/asking.rt",
        '    for column in columns.as_slice() {',
        '    for column in &columns.as_slice()[..27] {',
    ),
    "takes_the_first_cell_of_a_reply": (
        "src/asking.rt",
        '    Ok(true)\n}\n\n/// Takes a cell, which',
        '    Ok(false)\n}\n\n/// Takes a cell, which',
    ),
    "forgets_what_was_answered": (
        "src/asking.rt",
        "    require_engine(alloc, asker, asked, engine.as_slice())?;\n",
        "    require_engine(alloc, asker, asked, engine.as_slice())?;\n    answers = Answers::new(alloc);\n",
    ),
    "asks_another_address": (
        "src/asking.rt",
        "    match net.open(asked.agent.address) {",
        "    match net.open(Addr { octets: asked.agent.address.octets, port: 161 }) {",
        "use mon_survey::{Answers,",
        "use mon_udp::Addr;\nuse mon_survey::{Answers,",
    ),
    "says_nothing_of_one_interface": (
        "src/noting.rt",
        "    if count == 0 {",
        "    if count <= 1 {",
    ),
    "says_of_thresholds_unasked": (
        "src/noting.rt",
        "    if percent == 0 {",
        "    if percent > 100 {",
    ),
    "says_one_for_two": (
        "src/noting.rt",
        "    if count == 1 {\n        host",
        "    if count == 2 {\n        host",
    ),
    "counts_the_interfaces_with_a_speed": (
        "src/noting.rt",
        "    note_count(host, input.asked.percent, count);",
        "    note_count(host, input.asked.percent, input.survey.answers.count() - count);",
    ),
    "says_nothing_of_the_round": (
        "src/noting.rt",
        "    note_round(host, settings, longest);\n    Ok(())",
        "    let _ = (settings, longest);\n    Ok(())",
    ),
    "says_the_round_before_it_prints": (
        "src/noting.rt",
        "    print(alloc, host, text)?;\n    note_round(host, settings, longest);\n",
        "    note_round(host, settings, longest);\n    print(alloc, host, text)?;\n",
    ),
    "says_the_round_of_what_is_not_printed": (
        "src/noting.rt",
        "    print(alloc, host, text)?;\n    note_round(host, settings, longest);\n    Ok(())",
        "    let printed = print(alloc, host, text);\n    note_round(host, settings, longest);\n    printed",
    ),
    "says_the_round_twice": (
        "src/noting.rt",
        "    note_round(host, settings, longest);\n    Ok(())",
        "    note_round(host, settings, longest);\n    note_round(host, settings, longest);\n    Ok(())",
    ),
    "says_the_wait_for_the_round": (
        "src/noting.rt",
        "takes at most {most} ms (wait_ms = {wait_ms},",
        "takes at most {wait_ms} ms (wait_ms = {most},",
    ),
    "says_another_number_of_tries": (
        "src/noting.rt",
        "    } = longest;\n",
        "    } = longest;\n    let tries = tries.max(2);\n",
    ),
    "says_a_shorter_round": (
        "src/noting.rt",
        "    } = longest;\n",
        "    } = longest;\n    let most = most / 2;\n",
    ),
    "names_no_settings": (
        "src/noting.rt",
        "a round of {settings} takes",
        "a round takes",
    ),
    "says_the_text_for_its_name": (
        "src/settings.rt",
        "    print_noted(alloc, host, text, \"these settings\", drafted.longest)",
        "    print_noted(alloc, host, text, drafted.text.as_str(), drafted.longest)",
    ),
    "says_the_round_of_another_part": (
        "src/parts.rt",
        "    print_noted(alloc, host, line.as_bytes(), path, part.longest)\n",
        "    print_noted(alloc, host, line.as_bytes(), \"these settings\", part.longest)\n",
    ),
    "appends_a_part_twice": (
        "src/parts.rt",
        "    Ok(parts.push(part)?)",
        "    let again = settings_of(alloc, input, Some(group))?;\n    parts.push(part)?;\n    Ok(parts.push(again)?)",
    ),
    "prints_only_the_text": (
        "src/settings.rt",
        "    print_noted(alloc, host, text, \"these settings\", drafted.longest)",
        "    mon_console::print(alloc, host, text)",
    ),
    "says_of_speeds_before_it_prints": (
        "src/settings.rt",
        "    put_texts(alloc, host, net, input)?;\n    note_speeds(host, input);\n    Ok(())\n",
        "    note_speeds(host, input);\n    put_texts(alloc, host, net, input)\n",
    ),
    "says_nothing_of_speeds_of_a_further_agent": (
        "src/settings.rt",
        "    put_longer(alloc, host, input, drafted, old)?;\n    note_speeds(host, input);\n",
        "    put_longer(alloc, host, input, drafted, old)?;\n",
    ),
    "replaces_a_file_that_is_there": (
        "src/parts.rt",
        "        Ok(true) => Err(taken_failure(alloc, path)),",
        "        Ok(true) => Ok(()),",
    ),
    "replaces_a_file_that_it_cannot_see": (
        "src/parts.rt",
        "        Err(reason) => Err(Failure::stream(alloc, path, reason)),",
        "        Err(_) => Ok(()),",
    ),
    "looks_for_the_first_file_only": (
        "src/parts.rt",
        "    for place in 0..parts.len() {\n        require_part_absent(",
        "    for place in 0..parts.len().min(1) {\n        require_part_absent(",
    ),
    "looks_for_no_file": (
        "src/parts.rt",
        "    require_absent(alloc, host, folder, parts.as_slice())?;\n",
        "",
    ),
    "replaces_labels_before_it_looks": (
        "src/parts.rt",
        "    require_absent(alloc, host, folder, parts.as_slice())?;\n    write_labels(alloc, host, input, \"\")?;\n",
        "    write_labels(alloc, host, input, \"\")?;\n    require_absent(alloc, host, folder, parts.as_slice())?;\n",
    ),
    "a_file_that_is_there_is_a_bad_text": (
        "src/failing.rt",
        "        Fault::App(AppFault::FileFault),\n",
        "        Fault::App(AppFault::BadText),\n",
    ),
    "tries_no_poll": (
        "src/trying.rt",
        "    try_targets(alloc, &mut asker, asked, targets)\n",
        "    try_targets(alloc, &mut asker, asked, &[])\n",
    ),
    "tries_the_first_target_only": (
        "src/trying.rt",
        "    try_targets(alloc, asker, asked, rest)\n",
        "    try_targets(alloc, asker, asked, &[])\n",
    ),
    "tries_a_poll_of_no_names": (
        "src/trying.rt",
        "    match exchange(alloc, asker, asked.community, Asking::Get, &names) {",
        "    match exchange(alloc, asker, asked.community, Asking::Get, &[]) {",
    ),
    "tries_a_poll_by_get_next": (
        "src/trying.rt",
        "    match exchange(alloc, asker, asked.community, Asking::Get, &names) {",
        "    match exchange(alloc, asker, asked.community, Asking::GetNext, &names) {",
    ),
    "takes_an_error_status_for_an_answer": (
        "src/trying.rt",
        "        Err(fault) => Err(poll_failure(alloc, asked.agent.word, target, fault)),",
        "        Err(_) => Ok(()),",
    ),
    "never_halves": (
        "src/trying.rt",
        "        Some(less) => fit(alloc, net, input, wish, less),",
        "        Some(_) => Err(failure),",
    ),
    "halves_after_any_fault": (
        "src/trying.rt",
        "    if !is_too_big(failure.fault) {",
        "    if failure.is_of_memory() {",
    ),
    "takes_general_errors_for_too_big": (
        "src/trying.rt",
        "const TOO_BIG: i32 = 1;",
        "const TOO_BIG: i32 = 5;",
    ),
    "prints_settings_whose_polls_were_not_tried": (
        "src/settings.rt",
        "    let drafted = fit(alloc, net, input, Wish::New(None), TargetSize::Sixteen)?;",
        "    let _ = net;\n    let drafted = settings_of(alloc, input, None, TargetSize::Sixteen)?;",
    ),
    "tries_small_targets_first": (
        "src/settings.rt",
        "    let drafted = fit(alloc, net, input, Wish::New(None), TargetSize::Sixteen)?;",
        "    let drafted = fit(alloc, net, input, Wish::New(None), TargetSize::One)?;",
    ),
    "blames_the_settings_for_labels": (
        "src/failing.rt",
        "{path}: an interface in it has this agent's engine id: name another file, or remove the agent's",
        "{path}: a target of the settings has this agent's engine id",
    ),
    "says_1_objects": (
        "src/noting.rt",
        "    if count == 1 { one } else { many }",
        "    if count == 0 { one } else { many }",
    ),
    "listens_on_any_machine": (
        "src/seating.rt",
        "    put_address(&mut texts.listen, seat.listens())?;",
        "    put_address(&mut texts.listen, seat.serves())?;",
    ),
    "the_file_of_the_first_station": (
        "src/seating.rt",
        "put_file(&mut texts.file, given_or(words.file, FILE), seat)?;",
        "put_file(&mut texts.file, given_or(words.file, FILE), Seat { station: 0, ..seat })?;",
    ),
    "always_the_usual_file": (
        "src/seating.rt",
        "given_or(words.file, FILE)",
        "given_or(None, FILE)",
    ),
    "numbered_from_0": (
        "src/seating.rt",
        "        station: seat.station + 1,\n        ..options_of",
        "        station: seat.station,\n        ..options_of",
    ),
    "the_number_of_the_arguments": (
        "src/seating.rt",
        "        station: seat.station + 1,\n        ..options_of",
        "        station: words.station,\n        ..options_of",
    ),
    "counters_of_the_first_group": (
        "src/seating.rt",
        "input.choice(Some(seat.part))",
        "input.choice(Some(0))",
    ),
    "a_peer_of_itself": (
        "src/seating.rt",
        "    if station == seat.station {",
        "    if station == seat.station && station > 7 {",
    ),
    "the_first_station_is_no_peer": (
        "src/seating.rt",
        "    if station == seat.station {",
        "    if station == 0 {",
    ),
    "peers_where_the_station_is": (
        "src/seating.rt",
        "Seat { station, ..seat }",
        "Seat { station: seat.station, ..seat }",
    ),
    "no_peers": (
        "src/seating.rt",
        "    for station in 0..seat.network.stations {",
        "    for station in 0..seat.network.stations.min(1) {",
    ),
    "no_network": (
        "src/network.rt",
        "        Some(machines) => Some(SplitPaths { folder, machines }),",
        "        Some(_) => None,",
    ),
    "machines_in_the_folder": (
        "src/network.rt",
        "        Some(machines) => Some(SplitPaths { folder, machines }),",
        "        Some(_) => Some(SplitPaths { folder, machines: folder }),",
    ),
    "a_port_less": (
        "src/network.rt",
        "const PORT: u16 = 16_101;",
        "const PORT: u16 = 16_100;",
    ),
    "always_group_1": (
        "src/network.rt",
        "        first: words.first_group,",
        "        first: 1,",
    ),
    "one_station_a_group": (
        "src/network.rt",
        "        stations: words.stations,",
        "        stations: 1,",
    ),
    "replaces_files_of_a_network": (
        "src/network.rt",
        "    require_nothing_at(alloc, host, output.path.as_str())",
        "    if output.path.is_empty() {\n        return require_nothing_at(alloc, host, output.path.as_str());\n    }\n    Ok(())",
    ),
    "no_labels_of_a_network": (
        "src/network.rt",
        '    write_labels(alloc, host, input, "")?;',
        '    if input.words.up {\n        write_labels(alloc, host, input, "")?;\n    }',
    ),
    "writes_a_path_for_a_text": (
        "src/network.rt",
        "output.text.as_bytes())?;",
        "output.path.as_bytes())?;",
    ),
    "says_no_round": (
        "src/network.rt",
        "        Some(longest) => print_noted(alloc, host, line, path, longest),",
        "        Some(_) => print(alloc, host, line),",
    ),
    "ports_above_65535": (
        "src/network.rt",
        "const MAX_SUM: u64 = 65_537;",
        "const MAX_SUM: u64 = 65_538;",
    ),
    "no_port_is_too_high": (
        "src/network.rt",
        "    if !have_ports(network, groups) {",
        "    if !have_ports(network, groups) && groups > 70_000 {",
    ),
    "settings_of_the_first_place": (
        "src/network.rt",
        "    let seat = files.network.seat(place);",
        "    let seat = files.network.seat(place / 2);",
    ),
    "a_list_without_its_number": (
        "src/network.rt",
        "    if first == 1 {",
        "    if first != 0 {",
    ),
    "units_for_targets": (
        "src/network.rt",
        "    let text = targets_text(alloc, files.network, groups)?;",
        "    let text = units_text(alloc, files.network, groups)?;",
    ),
    "targets_of_a_group_less": (
        "src/network.rt",
        "    let text = targets_text(alloc, files.network, groups)?;",
        "    let text = targets_text(alloc, files.network, groups - 1)?;",
    ),
    "enough_machines_for_one": (
        "src/machines.rt",
        "    match machines_in(alloc, text, stations) {",
        "    match machines_in(alloc, text, stations.min(1)) {",
    ),
    "machines_of_no_file": (
        "src/failing.rt",
        'format!(in alloc; "{path}: no machine is listed")',
        'format!(in alloc; "no machine is listed")',
    ),
    "a_line_too_many_is_a_name": (
        "src/failing.rt",
        '"{path}: line {line}: more than 1,024 machines"',
        '"{path}: line {line}: a machine above has this name"',
    ),
    "another_first_group": (
        "src/failing.rt",
        '"--first-group {first}: the ports',
        '"--first-group {groups}: the ports',
    ),
}

# Those that break a promise as a whole, each with its function: tests/bodies tries them in the gate.
PROMISES = {
    "labels_at_another_path": "updating::write_relabelled_file",
    "reads_no_labels": "updating::known_of",
    "says_one_line": "updating::note_lines",
    "tries_no_poll": "trying::try_polls",
    "never_halves": "trying::fit",
    "prints_no_settings": "settings::print_whole",
    "replaces_no_labels": "labelling::write_labels_file",
    "writes_one_text_to_all_parts": "parts::write_all",
    "replaces_a_file_that_is_there": "parts::require_nothing_at",
    "counts_the_interfaces_with_a_speed": "noting::note_speeds",
    "refuses_an_address_for_its_community": "settings::asked_of",
    "asks_after_the_start_again": "asking::step",
    "counters_of_the_first_group": "seating::seat_settings",
    "replaces_files_of_a_network": "network::require_output_free",
}
