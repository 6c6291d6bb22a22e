"""Bugs of snmpmon for tests/wrong_bodies/planted: by name the file, what stands there once, and the bug in its place."""

BUGS = {
    "hints_without_a_terminal": (
        "src/commands.rt",
        "if host.is_at_terminal() {",
        "if !host.is_at_terminal() {",
    ),
    "looks_for_a_terminal_always": (
        "src/commands.rt",
        "if reads {",
        "if !reads {",
    ),
    "sorts_what_is_no_table": (
        "src/commands.rt",
        "    if asked.lacks_columns() {\n        return refuse(host, NO_COLUMNS);\n    }\n",
        "",
    ),
    "places_settings_without_a_folder": (
        "src/commands.rt",
        "    if asked.lacks_split() {\n        return refuse(host, NO_SPLIT);\n    }\n",
        "",
    ),
    "numbers_groups_without_machines": (
        "src/commands.rt",
        "    if asked.lacks_machines() {\n        return refuse(host, NO_MACHINES);\n    }\n",
        "",
    ),
    "labels_a_file_without_a_number": (
        "src/commands.rt",
        "    if asked.lacks_number() {\n        return refuse(host, NO_NUMBER);\n    }\n",
        "",
    ),
    "looks_at_standard_output_for_a_hint": (
        "src/commands.rt",
        "if host.is_at_terminal() {",
        "if host.prints_to_terminal() {",
    ),
    "runs_another_command": (
        "src/commands.rt",
        "Invocation::Get(request) => get(alloc, host, net, request),",
        "Invocation::Get(request) => next(alloc, host, net, request),",
    ),
    "says_nothing_of_a_failure": (
        "src/commands.rt",
        "failure.report(host, Level::Error);",
        "let _ = &failure;",
    ),
    "says_nothing_of_refused_arguments": (
        "src/commands.rt",
        "host.note(Level::Error, line);",
        "let _ = line;",
    ),
    "tells_where_the_reader_went": (
        "src/commands.rt",
        "if !failure.is_cut() {",
        "if failure.is_cut() {",
    ),
    "does_nothing_and_ends_well": (
        "src/commands.rt",
        "    match host.arguments() {\n        Ok(words) => start_with(rt, means, host, words.as_slice()),\n        Err(reason) => end_unlisted(host, reason),\n    }\n",
        "    0\n",
    ),
    "lists_its_arguments_and_ends_well": (
        "src/commands.rt",
        "        Ok(words) => start_with(rt, means, host, words.as_slice()),",
        "        Ok(_) => 0,",
    ),
    "lists_its_arguments_twice": (
        "src/commands.rt",
        "    match host.arguments() {\n        Ok(words) => start_with(rt, means, host, words.as_slice()),\n        Err(reason) => end_unlisted(host, reason),\n    }\n",
        "    let _ = host.arguments();\n    match host.arguments() {\n        Ok(words) => start_with(rt, means, host, words.as_slice()),\n        Err(reason) => end_unlisted(host, reason),\n    }\n",
    ),
    "has_no_memory_for_arguments_that_are_no_text": (
        "src/commands.rt",
        "        _ => refuse(host, NO_TEXT),",
        "        _ => end(host, Err(Failure::from(AllocError)), false),",
    ),
    "refuses_with_the_status_of_a_failure": (
        "src/commands.rt",
        "    host.note(Level::Error, line);\n    2\n",
        "    host.note(Level::Error, line);\n    1\n",
    ),
    "refuses_with_the_status_of_success": (
        "src/commands.rt",
        "    host.note(Level::Error, line);\n    2\n",
        "    host.note(Level::Error, line);\n    0\n",
    ),
    "refuses_a_usage_with_the_status_of_success": (
        "src/commands.rt",
        "            host.note(Level::Error, error);\n            2\n",
        "            host.note(Level::Error, error);\n            0\n",
    ),
    "says_help_on_standard_error": (
        "src/commands.rt",
        "        ErrorKind::DisplayHelp => show_to_end(alloc, host, error),",
        "        ErrorKind::DisplayHelp => {\n            host.note(Level::Error, error);\n            0\n        }",
    ),
    "prints_no_help": (
        "src/commands.rt",
        "    print(alloc, host, text?.as_bytes())",
        "    let _ = text?;\n    Ok(())",
    ),
    "runs_a_station_without_rounds": (
        "src/commands.rt",
        "    if asked.lacks_rounds() {\n        return refuse(host, NO_ROUNDS);\n    }\n",
        "",
    ),
    "wants_an_interval_before_rounds": (
        "src/commands.rt",
        "    if asked.lacks_rounds() {\n        return refuse(host, NO_ROUNDS);\n    }\n    if asked.lacks_interval() {\n        return refuse(host, NO_INTERVAL);\n    }\n",
        "    if asked.lacks_interval() {\n        return refuse(host, NO_INTERVAL);\n    }\n    if asked.lacks_rounds() {\n        return refuse(host, NO_ROUNDS);\n    }\n",
    ),
    "says_that_rounds_are_an_interval": (
        "src/commands.rt",
        "        return refuse(host, NO_ROUNDS);",
        "        return refuse(host, NO_INTERVAL);",
    ),
    "runs_a_command_twice": (
        "src/commands.rt",
        "    let done = run(rt, means, host, asked);\n",
        "    let _ = run(rt, means, host, asked);\n    let done = run(rt, means, host, asked);\n",
    ),
    "ends_well_whatever_a_command_gives": (
        "src/commands.rt",
        "    end(host, done, station)\n",
        "    let _ = (done, station);\n    0\n",
    ),
    "hints_after_a_command": (
        "src/commands.rt",
        "    prepare(host, reads_input(&asked));\n    let station = is_station(&asked);\n    let done = run(rt, means, host, asked);\n",
        "    let (reads, station) = (reads_input(&asked), is_station(&asked));\n    let done = run(rt, means, host, asked);\n    prepare(host, reads);\n",
    ),
    "hints_before_each_command": (
        "src/commands.rt",
        "    prepare(host, reads_input(&asked));",
        "    prepare(host, true);",
    ),
    "reads_nothing_for_a_rehearsal": (
        "src/commands.rt",
        "        Invocation::Replay(_) | Invocation::Answer(_) | Invocation::Rehearse(_)",
        "        Invocation::Replay(_) | Invocation::Answer(_)",
    ),
    "tells_a_failure_twice": (
        "src/commands.rt",
        "                failure.report(host, Level::Error);",
        "                failure.report(host, Level::Error);\n                failure.report(host, Level::Error);",
    ),
    "ends_a_failure_with_the_status_of_success": (
        "src/commands.rt",
        "            status_of(station, failure.fault)\n",
        "            0\n",
    ),
    "ends_a_cut_with_the_status_of_success": (
        "src/commands.rt",
        "            if !failure.is_cut() {\n                failure.report(host, Level::Error);\n            }\n            status_of(station, failure.fault)\n",
        "            if failure.is_cut() {\n                return 0;\n            }\n            failure.report(host, Level::Error);\n            status_of(station, failure.fault)\n",
    ),
    "ends_well_with_the_status_of_a_failure": (
        "src/commands.rt",
        "        Ok(()) => 0,",
        "        Ok(()) => 1,",
    ),
    "says_that_it_ended_well": (
        "src/commands.rt",
        "        Ok(()) => 0,",
        '        Ok(()) => {\n            host.note(Level::Info, "snmpmon: done\\n");\n            0\n        }',
    ),
    "walk_runs_next": (
        "src/commands.rt",
        "        Invocation::Walk(words) => walk(alloc, host, net, words),",
        "        Invocation::Walk(words) => next(alloc, host, net, words.request),",
    ),
    "walk_does_nothing": (
        "src/commands.rt",
        "        Invocation::Walk(words) => walk(alloc, host, net, words),",
        "        Invocation::Walk(_) => Ok(()),",
    ),
    "walk_runs_by_get_next_alone": (
        "src/commands.rt",
        "        Invocation::Walk(words) => walk(alloc, host, net, words),",
        "        Invocation::Walk(words) => walk(alloc, host, net, mon_cli::WalkArgs { bulk: 0, ..words }),",
    ),
    "walk_swallows_its_failure": (
        "src/commands.rt",
        "        Invocation::Walk(words) => walk(alloc, host, net, words),",
        "        Invocation::Walk(words) => {\n            let _ = walk(alloc, host, net, words);\n            Ok(())\n        }",
    ),
    "bulk_runs_walk": (
        "src/commands.rt",
        "        Invocation::Bulk(words) => bulk(alloc, host, net, words),",
        "        Invocation::Bulk(words) => walk(alloc, host, net, mon_cli::WalkArgs { request: words.request, bulk: 10 }),",
    ),
    "set_runs_get": (
        "src/commands.rt",
        "        Invocation::Set(words) => set(alloc, host, net, words),",
        "        Invocation::Set(words) => get(alloc, host, net, words.request),",
    ),
    "agent_runs_answer": (
        "src/commands.rt",
        "        Invocation::Agent(words) => serve_agent(alloc, host, net, words),",
        "        Invocation::Agent(words) => print_answers(\n            alloc,\n            host,\n            mon_cli::AnswerArgs {\n                settings: words.settings,\n                boots: words.boots,\n                scene: mon_cli::Scene { at: 0, fuses: 0, times: words.count },\n                named: mon_cli::Named { modules: &[], shown: false },\n            },\n        ),",
    ),
    "agent_does_nothing": (
        "src/commands.rt",
        "        Invocation::Agent(words) => serve_agent(alloc, host, net, words),",
        "        Invocation::Agent(_) => Ok(()),",
    ),
    "agent_forgets_its_boots": (
        "src/commands.rt",
        "        Invocation::Agent(words) => serve_agent(alloc, host, net, words),",
        "        Invocation::Agent(words) => serve_agent(alloc, host, net, mon_cli::AgentArgs { boots: None, ..words }),",
    ),
    "answer_runs_agent": (
        "src/commands.rt",
        "        Invocation::Answer(words) => print_answers(alloc, host, words),",
        "        Invocation::Answer(words) => serve_agent(\n            alloc,\n            host,\n            net,\n            mon_cli::AgentArgs {\n                settings: words.settings,\n                boots: words.boots,\n                count: words.scene.times,\n            },\n        ),",
    ),
    "station_runs_report": (
        "src/commands.rt",
        "        Invocation::Station(words) => run_station(rt, host, words),",
        "        Invocation::Station(words) => print_saved_report(\n            alloc,\n            host,\n            mon_cli::ReportArgs {\n                settings: words.settings,\n                labels: words.labels,\n                printed: words.printed,\n            },\n        ),",
    ),
    "station_does_nothing": (
        "src/commands.rt",
        "        Invocation::Station(words) => run_station(rt, host, words),",
        "        Invocation::Station(_) => Ok(()),",
    ),
    "station_checks_alone": (
        "src/commands.rt",
        "        Invocation::Station(words) => run_station(rt, host, words),",
        "        Invocation::Station(words) => run_station(rt, host, mon_cli::StationArgs { checks: true, ..words }),",
    ),
    "selftest_does_nothing": (
        "src/commands.rt",
        "        Invocation::SelfTest => run_self_test(alloc, host),",
        "        Invocation::SelfTest => Ok(()),",
    ),
    "version_prints_nothing": (
        "src/commands.rt",
        "        Invocation::Version => print(alloc, host, VERSION.as_bytes()),",
        "        Invocation::Version => Ok(()),",
    ),
    "changed_settings_are_any_fault": (
        "src/commands.rt",
        "        Fault::SettingsChanged if station => 4,\n",
        "",
    ),
    "ends_a_lasting_fault_of_a_station_as_any": (
        "src/commands.rt",
        "        _ if station && fault.lasts() => 3,\n",
        "",
    ),
    "ends_each_lasting_fault_with_3": (
        "src/commands.rt",
        "        _ if station && fault.lasts() => 3,\n",
        "        _ if fault.lasts() => 3,\n",
    ),
    "ends_each_fault_of_a_station_with_3": (
        "src/commands.rt",
        "        _ if station && fault.lasts() => 3,\n",
        "        _ if station => 3,\n",
    ),
    "takes_a_report_for_a_station": (
        "src/commands.rt",
        "    matches!(asked, Invocation::Station(_))",
        "    matches!(asked, Invocation::Station(_) | Invocation::Report(_))",
    ),
}
