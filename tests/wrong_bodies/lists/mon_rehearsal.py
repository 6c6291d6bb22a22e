"""Bugs of mon_rehearsal for tests/wrong_bodies/planted: by name the file, what stands there once, and the bug in its place."""

BUGS = {
    "counts_lines_from_0": (
        "src/script.rt",
        "            None => return Err(ScriptFault::BadScript(line)),",
        "            None => return Err(ScriptFault::BadScript(line - 1)),",
    ),
    "numbers_steps_from_0": (
        "src/printed.rt",
        'write!(line, "step {number}: ")?;',
        'let number = number.saturating_sub(1); write!(line, "step {number}: ")?;',
    ),
    "passes_over_what_is_no_step": (
        "src/script.rt",
        "        Some((verb, fields)) => read_step(alloc, verb, fields),\n        None => Ok(None),",
        "        Some((verb, fields)) => read_step(alloc, verb, fields),\n        None => Ok(Some(ScriptStep::Save(1))),",
    ),
    "reads_a_leading_zero": (
        "src/field.rt",
        "Ok(text) => decimal(text),",
        'Ok(text) => decimal(match text.strip_prefix("0") { Some(rest) => rest, None => text }),',
    ),
    "saves_where_it_restarts": (
        "src/script.rt",
        "        return Some(ScriptStep::Restart(number));",
        "        return Some(ScriptStep::Save(number));",
    ),
    "shares_the_other_way": (
        "src/script.rt",
        "        return Some(ScriptStep::Share(first, second));",
        "        return Some(ScriptStep::Share(second, first));",
    ),
    "prints_a_want_of_memory": (
        "src/rehearsing.rt",
        "        if let Err(WorldFault::OutOfMemory) = result {",
        "        if let Err(WorldFault::BadStop) = result {",
    ),
    "says_the_first_number_again": (
        "src/printed.rt",
        "        let number = sent.first + i;",
        "        let number = sent.first + i / 2;",
    ),
    "says_the_first_incarnation": (
        "src/printed.rt",
        "    let incarnation = station.incarnation();",
        "    let incarnation = station.owed(1);",
    ),
    "keeps_what_a_stop_loses": (
        "src/script.rt",
        "ScriptStep::Stop(s, calls, keep) => Step::Stop(*s, (*calls).min(255) as u8, *keep),",
        "ScriptStep::Stop(s, calls, keep) => Step::Stop(*s, (*calls).min(255) as u8, !*keep),",
    ),
    "leaves_out_a_single_datagram": (
        "src/printed.rt",
        "if sent.count == 0 {",
        "if sent.count < 2 {",
    ),
    "owes_itself_and_not_the_first": (
        "src/printed.rt",
        "if peer == number {",
        "if peer == 1 {",
    ),
    "passes_over_what_is_no_octet": (
        "src/field.rt",
        "Err(_) => Ok(None),",
        "Err(_) => Ok(Some(Octets::new(Vec::new(alloc)))),",
    ),
    "reads_tabs_for_blanks": (
        "src/script.rt",
        "match cut(line, b' ') {",
        "match cut(line, b'\\t') {",
    ),
    "says_of_all_what_it_owes_the_first": (
        "src/printed.rt",
        "let owed = station.owed(peer);",
        "let owed = station.owed(1);",
    ),
    "says_ok_whatever_came": (
        "src/printed.rt",
        "Err(fault) => put_refused(line, fault),",
        'Err(_) => line.push_str("ok"),',
    ),
    "makes_no_step": (
        "src/rehearsing.rt",
        "make_steps(alloc, &mut world, steps.as_slice(), &mut text)?;",
        "make_steps(alloc, &mut world, &steps.as_slice()[..0], &mut text)?;",
    ),
    "rehearses_over_one_station": (
        "src/rehearsing.rt",
        "World::new(alloc, core, count)?",
        "World::new(alloc, core, 1)?",
    ),
    "makes_another_step": (
        "src/rehearsing.rt",
        "let result = world.step(step.step());",
        "let result = world.step(ScriptStep::Save(0).step());",
    ),
    "says_that_each_was_no_station": (
        "src/rehearsing.rt",
        "put_step(alloc, text, number, result)?;",
        "put_step(alloc, text, number, result.map_err(|_| WorldFault::NoSuchStation))?;",
    ),
    "counts_steps_in_twos": (
        "src/rehearsing.rt",
        "        number += 1;",
        "        number += 2;",
    ),
    "prints_no_first_station": (
        "src/printed.rt",
        "put_station(alloc, text, world, count, place + 1)?;",
        "put_station(alloc, text, world, count, count)?;",
    ),
    "owes_as_the_first_does": (
        "src/printed.rt",
        "put_debts(&mut lines, station, count, number)?;",
        "put_debts(&mut lines, station, count, 1)?;",
    ),
    "ends_lines_with_cr": (
        "src/printed.rt",
        'line.push_str("\\n")?;',
        'line.push_str("\\r\\n")?;',
    ),
    "says_sent_of_none": (
        "src/printed.rt",
        'return line.push_str("ok");',
        'return line.push_str("ok sent");',
    ),
    "polls_at_a_timeout": (
        "src/script.rt",
        "        return Some(ScriptStep::Timeout(first, second));",
        "        return Some(ScriptStep::StartPoll(first, second));",
    ),
    "loses_what_a_stop_keeps": (
        "src/script.rt",
        "return Some(ScriptStep::Stop(station, calls, true));",
        "return Some(ScriptStep::Stop(station, calls, false));",
    ),
    "forges_at_the_next_station": (
        "src/script.rt",
        "Some(octets) => Ok(Some(ScriptStep::Forge(station, octets))),",
        "Some(octets) => Ok(Some(ScriptStep::Forge(station.saturating_add(1), octets))),",
    ),
    "reads_a_line_behind_the_end": (
        "src/script.rt",
        "        None => (text, &[]),",
        "        None => (text, text),",
    ),
    "says_memory_for_a_bad_script": (
        "src/fault.rt",
        "ScriptFault::BadScript(line) => RehearsalFault::BadScript(line),",
        "ScriptFault::BadScript(line) => RehearsalFault::BadScript(line / 2),",
    ),
    "tells_a_fault_of_scripts_as_of_worlds": (
        "src/fault.rt",
        'Innermost::new("mon_app", fault.number(), fault.name())',
        'Innermost::new("mon_world", fault.number(), fault.name())',
    ),
    "tells_a_world_as_a_want_of_memory": (
        "src/fault.rt",
        "            RehearsalFault::World(fault) => fault.innermost(),",
        "            RehearsalFault::World(_) => of_script(ScriptFault::OutOfMemory),",
    ),
    "tells_no_innermost_fault": (
        "src/printed.rt",
        "    let innermost = fault.innermost();",
        '    let innermost = mon_station::Innermost::new("mon_world", fault.number(), fault.name());',
    ),
    "takes_any_text_for_the_trials": (
        "src/trial.rt",
        "    if text.as_slice() != wanted {",
        "    if text.is_empty() {",
    ),
    "tests_itself_without_a_trial": (
        "src/trial.rt",
        "    let text = find_again(alloc, settings.core.watch(), &station)?;\n",
        "    let mut text = Vec::new(alloc);\n    text.extend_from_slice(REPORT.as_bytes())?;\n",
    ),
    "a_trial_that_is_not_saved": (
        "src/trial.rt",
        "    save(alloc, &mut station)?;\n    Ok(station)",
        "    Ok(station)",
    ),
    "tells_the_trial_for_its_station": (
        "src/trial.rt",
        "            TrialFault::Refused(fault) => fault.innermost(),",
        '            TrialFault::Refused(_) => Innermost::new("mon_rounds", self.number(), self.name()),',
    ),
    "forgets_why_the_station_refused": (
        "src/trial.rt",
        "            other => TrialFault::Refused(other),",
        "            _ => TrialFault::Unexpected,",
    ),
    "prints_the_stations_before_the_steps": (
        "src/rehearsing.rt",
        "    put_stations(alloc, &mut text, &world, count)?;\n",
        "",
        "    make_steps(alloc, &mut world, steps.as_slice(), &mut text)?;\n",
        "    put_stations(alloc, &mut text, &world, count)?;\n    make_steps(alloc, &mut world, steps.as_slice(), &mut text)?;\n",
    ),
    "makes_no_step_after_a_refused_one": (
        "src/rehearsing.rt",
        "        put_step(alloc, text, number, result)?;",
        "        let refused = result.is_err();\n        put_step(alloc, text, number, result)?;\n        if refused {\n            return Ok(());\n        }",
    ),
    "passes_over_empty_lines": (
        "src/script.rt",
        "            None => return Err(ScriptFault::BadScript(line)),",
        "            None if first.is_empty() => {}\n            None => return Err(ScriptFault::BadScript(line)),",
    ),
    "loses_a_last_line_without_its_end": (
        "src/script.rt",
        "        None => (text, &[]),",
        "        None => (&[], &[]),",
    ),
    "takes_1_for_what_is_no_number": (
        "src/script.rt",
        "    let Some(number) = number(fields) else {\n        return None;\n    };",
        "    let number = number(fields).unwrap_or(1);",
    ),
    "loses_at_any_other_word": (
        "src/script.rt",
        '    if is(end, "lose") {\n        return Some(ScriptStep::Stop(station, calls, false));\n    }\n    None',
        "    Some(ScriptStep::Stop(station, calls, false))",
    ),
    "an_agent_speaks_to_its_own_number": (
        "src/script.rt",
        "Ok(Some(ScriptStep::AgentSays(station, target, octets)))",
        "Ok(Some(ScriptStep::AgentSays(target, station, octets)))",
    ),
    "knows_no_restart": (
        "src/script.rt",
        ' || is(verb, "restart") {',
        " {",
    ),
    "stops_after_no_call_for_256": (
        "src/script.rt",
        "(*calls).min(255) as u8",
        "*calls as u8",
    ),
    "refused_memory_is_no_octet": (
        "src/field.rt",
        "        Err(FromHexError::OutOfMemory) => Err(AllocError),",
        "        Err(FromHexError::OutOfMemory) => Ok(None),",
    ),
    "says_printed_where_a_report_failed": (
        "src/printed.rt",
        "        Err(_) => Err(AllocError),",
        "        Err(_) => Ok(()),",
    ),
    "owes_the_number_of_the_peer": (
        "src/printed.rt",
        '"owes {peer} {owed}"',
        '"owes {owed} {peer}"',
    ),
    "finds_whatever_is_there_again": (
        "src/trial.rt",
        "    if saved.as_slice() == text.as_slice() {\n",
        "    if !saved.is_empty() {\n",
    ),
    "says_that_memory_ran_out_of_another_text": (
        "src/trial.rt",
        "        return Err(TrialFault::Unexpected);\n    }\n    let mut text = text;",
        "        return Err(TrialFault::OutOfMemory);\n    }\n    let mut text = text;",
    ),
    "refuses_settings_for_memory": (
        "src/trial.rt",
        "            _ => TrialFault::Unexpected,\n",
        "            _ => TrialFault::OutOfMemory,\n",
    ),
    "takes_the_first_of_many_sends": (
        "src/trial.rt",
        "        [request] => Ok(request),\n",
        "        [request, ..] => Ok(request),\n",
    ),
}
