"""Bugs of mon_commands for tests/wrong_bodies/planted: by name the file, what stands there once, and the bug in its place."""

BUGS = {
    "tells_a_rehearsal_as_a_want_of_memory": (
        "src/rehearsal.rt",
        "        RehearsalFault::World(WorldFault::Refused(fault)) => Fault::Station(fault),\n        other => Fault::Other(other.innermost()),",
        "        _ => Fault::Other(RehearsalFault::OutOfMemory.innermost()),",
    ),
    "tells_a_trial_as_a_want_of_memory": (
        "src/rehearsal.rt",
        "        TrialFault::Refused(fault) => Fault::Station(fault),\n        other => Fault::Other(other.innermost()),",
        "        _ => Fault::Other(RehearsalFault::OutOfMemory.innermost()),",
    ),
    "one_at_once_is_get_next": (
        "src/walking.rt",
        "        Ok(most) if most > 0 => Stride::Bulk(most),",
        "        Ok(most) if most > 1 => Stride::Bulk(most),",
    ),
    "always_asks_by_get_bulk": (
        "src/walking.rt",
        "        _ => Stride::Next,",
        "        _ => Stride::Bulk(1),",
    ),
    "each_datagram_arrives_at_the_start": (
        "src/agent.rt",
        "        Some(at) => Ok(at),",
        "        Some(at) => Ok(Moment::new(0).unwrap_or(at)),",
    ),
    "answers_without_names": (
        "src/agent.rt",
        "        Some(names) => Ok(Some(names.labels(alloc)?)),",
        "        Some(_) => Ok(None),",
    ),
    "names_are_shown_always": (
        "src/agent.rt",
        "    if shown { Some(names) } else { None }",
        "    Some(names)",
    ),
    "the_boots_are_one_more": (
        "src/agent.rt",
        "        told.settings.boots = boots;",
        "        told.settings.boots = boots.saturating_add(1);",
    ),
    "each_port_lacks_memory": (
        "src/agent.rt",
        "        _ => Failure::from(fault),",
        "        _ => Failure::from(AppFault::OutOfMemory),",
    ),
    "a_port_that_failed_has_no_address": (
        "src/agent.rt",
        "        AppFault::SocketFault { reason } => { Failure::without_socket(alloc, listen, reason) }",
        "        AppFault::SocketFault { reason } => { Failure::without_socket(alloc, \"\", reason) }",
    ),
    "says_twice_where_it_listens": (
        "src/agent.rt",
        "    host.note(Level::Info, format_args!(\"snmpmon: agent at {at}\\n\"));",
        "    host.note(Level::Info, format_args!(\"snmpmon: agent at {at}\\n\"));\n    host.note(Level::Info, format_args!(\"snmpmon: agent at {at}\\n\"));",
    ),
    "refused_settings_of_an_agent_lack_memory": (
        "src/agent.rt",
        "        Err(fault) => Err(settings_failure(alloc, SettingsKind::Agent, path, text, fault)),",
        "        Err(_) => Err(Failure::from(AllocError)),",
    ),
    "answers_no_datagram": (
        "src/agent.rt",
        "    let lines = told_answers(alloc, agent, arrivals, names, &text)?;",
        "    let lines = told_answers(alloc, agent, arrivals, names, \"\")?;",
    ),
    "prints_answers_twice": (
        "src/agent.rt",
        "    print(alloc, host, lines.as_bytes())",
        "    print(alloc, host, lines.as_bytes())?;\n    print(alloc, host, lines.as_bytes())",
    ),
    "blows_no_fuse": (
        "src/agent.rt",
        "    let device = FuseDevice::new(simulated, fuses);",
        "    let device = FuseDevice::new(simulated, fuses & 0);",
    ),
    "asks_with_the_address_as_community": (
        "src/query.rt",
        "community(alloc, request.community)?",
        "community(alloc, request.address)?",
    ),
    "asks_for_the_first_name_only": (
        "src/query.rt",
        "    for word in words {",
        "    for word in words.iter().take(1) {",
    ),
    "sets_null": (
        "src/query.rt",
        "        Ok(value) => Ok(value),",
        "        Ok(_) => Ok(Value::Null),",
    ),
    "a_text_is_no_value_for_want_of_memory": (
        "src/query.rt",
        "        Err(fault) => Err(Failure::from(fault)),",
        "        Err(_) => Err(Failure::from(AppFault::Timeout)),",
    ),
    "shows_names_always": (
        "src/query.rt",
        "        prints_names: request.named.shown,",
        "        prints_names: true,",
    ),
    "reads_no_modules": (
        "src/query.rt",
        "    let known = names_of(alloc, host, request.named.modules)?;",
        "    let known = names_of(alloc, host, &[])?;",
    ),
    "asks_under_another_request_id": (
        "src/client.rt",
        "        request_id: 1,",
        "        request_id: 2,",
    ),
    "next_gets": (
        "src/client.rt",
        "    ask(alloc, host, net, request, Asking::GetNext)",
        "    ask(alloc, host, net, request, Asking::Get)",
    ),
    "prints_no_answer": (
        "src/client.rt",
        "    print(alloc, host, text.as_bytes())",
        "    Ok(())",
    ),
    "each_question_times_out": (
        "src/client.rt",
        "    let mut wire = net.open(agent)?;\n    answer_text(alloc, &mut wire, question, names)",
        "    Err(AppFault::Timeout)",
    ),
    "fails_for_another_fault": (
        "src/client.rt",
        "        Err(fault) => Err(answer_failure(alloc, query.agent.word, fault)),",
        "        Err(_) => Err(answer_failure(alloc, query.agent.word, AppFault::BadText)),",
    ),
    "lists_nothing": (
        "src/listing.rt",
        "        Ok(lines) => Ok(lines),",
        "        Ok(_) => Ok(String::new(alloc)),",
    ),
    "each_name_without_meaning_is_circular": (
        "src/listing.rt",
        "            Err(name_failure(alloc, known.names(), name, fault))",
        "            Err(name_failure(alloc, known.names(), name, mon_smi::NamesFault::Cycle))",
    ),
    "reports_always": (
        "src/recorded.rt",
        "    if words.reports {",
        "    if !words.reports {",
    ),
    "prints_refused_lines_always": (
        "src/recorded.rt",
        "    if printing.is_text() {",
        "    if printing.is_text() || true {",
    ),
    "prints_the_report_twice": (
        "src/recorded.rt",
        "    print(alloc, host, &reported.text)",
        "    print(alloc, host, &reported.text)?;\n    print(alloc, host, &reported.text)",
    ),
    "prints_no_trial": (
        "src/rehearsal.rt",
        "    print(alloc, host, trial.text.as_slice())",
        "    print(alloc, host, &[])",
    ),
    "rehearses_one_station": (
        "src/rehearsal.rt",
        "    let text = rehearsed(alloc, &settings, words.stations, &script)?;",
        "    let text = rehearsed(alloc, &settings, 1, &script)?;",
    ),
    "a_refused_rehearsal_lacks_memory": (
        "src/rehearsal.rt",
        "    Failure::said(rehearsal_fault(fault),",
        "    Failure::said(Fault::Other(RehearsalFault::OutOfMemory.innermost()),",
    ),
    "a_refused_trial_lacks_memory": (
        "src/rehearsal.rt",
        "    Failure::said(trial_fault(fault),",
        "    Failure::said(Fault::Other(RehearsalFault::OutOfMemory.innermost()),",
    ),
    "answers_at_another_moment": (
        "src/agent.rt",
        "let at = moment_of(alloc, scene.at)?;",
        "let at = moment_of(alloc, 0)?;",
    ),
    "mib_prints_twice": (
        "src/listing.rt",
        "print(alloc, host, lines.as_bytes())",
        "print(alloc, host, lines.as_bytes())?; print(alloc, host, lines.as_bytes())",
    ),
    "mib_reads_modules_first": (
        "src/listing.rt",
        "let text = read_text(alloc, host, words.file)?;",
        "let first = known_names(alloc, host, words.modules)?; let text = read_text(alloc, host, words.file)?;",
        "let known = known_names(alloc, host, words.modules)?;",
        "let known = first;",
    ),
    "prints_the_community": (
        "src/client.rt",
        "print(alloc, host, text.as_bytes())",
        "print(alloc, host, query.community)",
    ),
    "reads_modules_twice": (
        "src/query.rt",
        "let known = names_of(alloc, host, request.named.modules)?;",
        "let _ = names_of(alloc, host, request.named.modules)?; let known = names_of(alloc, host, request.named.modules)?;",
    ),
    "rehearse_prints_its_script": (
        "src/rehearsal.rt",
        "print(alloc, host, &text)",
        "print(alloc, host, &script)",
    ),
    "replay_prints_its_input": (
        "src/recorded.rt",
        "print(alloc, host, &text)",
        "print(alloc, host, &input)",
    ),
    "says_nothing_of_refused_lines": (
        "src/recorded.rt",
        "host.note(Level::Warning, refused);",
        "let _ = refused;",
    ),
    "selftest_reads_input": (
        "src/rehearsal.rt",
        "let trial = tried(alloc)?;",
        "let _ = read_input(alloc, host)?; let trial = tried(alloc)?;",
    ),
    "mib_reads_another_path": (
        "src/listing.rt",
        "read_text(alloc, host, words.file)?",
        "read_text(alloc, host, \"x\")?",
    ),
    "swallows_a_fault": (
        "src/client.rt",
        "let text = answer(alloc, net, query, asking)?;",
        "let Ok(text) = answer(alloc, net, query, asking) else { return Ok(()); };",
    ),
    "says_nothing_of_where": (
        "src/agent.rt",
        "host.note(Level::Info, format_args!(\"snmpmon: agent at {at}\\n\"));",
        "let _ = at;",
    ),
    "serves_nothing": (
        "src/agent.rt",
        "    for _ in 0..count {",
        "    for _ in 0..count.min(0) {",
    ),
    "serves_one_fewer": (
        "src/agent.rt",
        "    for _ in 0..count {",
        "    for _ in 1..count {",
    ),
    "serves_one_more": (
        "src/agent.rt",
        "    for _ in 0..count {",
        "    for _ in 0..count.saturating_add(1) {",
    ),
    "serves_two_at_a_time": (
        "src/agent.rt",
        "        serve_next(alloc, host, port, agent, &mut room)?;",
        "        serve_next(alloc, host, port, agent, &mut room)?;\n        serve_next(alloc, host, port, agent, &mut room)?;",
    ),
    "serves_the_first_alone": (
        "src/agent.rt",
        "        serve_next(alloc, host, port, agent, &mut room)?;",
        "        serve_next(alloc, host, port, agent, &mut room)?;\n        return Ok(());",
    ),
    "serves_on_whatever_fails": (
        "src/agent.rt",
        "        serve_next(alloc, host, port, agent, &mut room)?;",
        "        let _ = serve_next(alloc, host, port, agent, &mut room);",
    ),
    "ends_well_where_the_port_fails": (
        "src/agent.rt",
        "        serve_next(alloc, host, port, agent, &mut room)?;",
        "        if serve_next(alloc, host, port, agent, &mut room).is_err() {\n            return Ok(());\n        }",
    ),
    "fails_before_it_serves": (
        "src/agent.rt",
        "    let mut room = Buffers::new(alloc)?;",
        "    if count > 0 {\n        return Err(Failure::from(AppFault::SocketFault {\n            reason: mon_app::SocketReason::Other,\n        }));\n    }\n    let mut room = Buffers::new(alloc)?;",
    ),
    "ends_out_of_memory": (
        "src/agent.rt",
        "    Ok(())\n}\n\n/// Serves the agent the next datagram",
        "    Err(Failure::from(AllocError))\n}\n\n/// Serves the agent the next datagram",
    ),
    "tells_nothing_of_memory": (
        "src/agent.rt",
        "        Served::Untaken => Failure::from(AppFault::OutOfMemory).report(host, Level::Warning),",
        "        Served::Untaken => {}",
    ),
    "tells_twice_of_memory": (
        "src/agent.rt",
        "        Served::Untaken => Failure::from(AppFault::OutOfMemory).report(host, Level::Warning),",
        "        Served::Untaken => {\n            Failure::from(AppFault::OutOfMemory).report(host, Level::Warning);\n            Failure::from(AppFault::OutOfMemory).report(host, Level::Warning);\n        }",
    ),
    "tells_of_each_datagram": (
        "src/agent.rt",
        "        Served::Answered => {}",
        "        Served::Answered => Failure::from(AppFault::OutOfMemory).report(host, Level::Warning),",
    ),
    "tells_another_fault_for_memory": (
        "src/agent.rt",
        "        Served::Untaken => Failure::from(AppFault::OutOfMemory).report(host, Level::Warning),",
        "        Served::Untaken => Failure::from(AppFault::FileFault).report(host, Level::Warning),",
    ),
    "tells_of_memory_in_other_words": (
        "src/agent.rt",
        "        Served::Untaken => Failure::from(AppFault::OutOfMemory).report(host, Level::Warning),",
        '        Served::Untaken => host.note(Level::Info, "snmpmon: no memory for a datagram\\n"),',
    ),
    "tells_of_memory_on_standard_output": (
        "src/agent.rt",
        "        Served::Untaken => Failure::from(AppFault::OutOfMemory).report(host, Level::Warning),",
        '        Served::Untaken => {\n            let _ = host.print(b"snmpmon: mon_app 1 OutOfMemory\\n");\n        }',
    ),
    "notes_each_answer": (
        "src/agent.rt",
        "        Served::Answered => {}",
        '        Served::Answered => host.note(Level::Info, "snmpmon: answered\\n"),',
    ),
    "says_that_each_datagram_was_taken": (
        "src/agent.rt",
        "    let served = serve_one(alloc, port, agent, room)?;\n    tell_untaken(host, served);\n",
        "    serve_one(alloc, port, agent, room)?;\n    tell_untaken(host, Served::Answered);\n",
    ),
    "serves_nobody_and_tells_of_memory": (
        "src/agent.rt",
        "    let served = serve_one(alloc, port, agent, room)?;\n    tell_untaken(host, served);\n",
        "    tell_untaken(host, Served::Untaken);\n",
    ),
    "serves_twice_for_once": (
        "src/agent.rt",
        "    let served = serve_one(alloc, port, agent, room)?;\n    tell_untaken(host, served);\n",
        "    let _ = serve_one(alloc, port, agent, room)?;\n    let served = serve_one(alloc, port, agent, room)?;\n    tell_untaken(host, served);\n",
    ),
    "swallows_the_fault_of_a_port": (
        "src/agent.rt",
        "    let served = serve_one(alloc, port, agent, room)?;\n    tell_untaken(host, served);\n",
        "    if let Ok(served) = serve_one(alloc, port, agent, room) {\n        tell_untaken(host, served);\n    }\n",
    ),
    "fails_with_a_timeout_for_the_port": (
        "src/agent.rt",
        "    let served = serve_one(alloc, port, agent, room)?;\n    tell_untaken(host, served);\n",
        "    let Ok(served) = serve_one(alloc, port, agent, room) else {\n        return Err(AppFault::Timeout);\n    };\n    tell_untaken(host, served);\n",
    ),
    "fails_with_another_reason_than_the_ports": (
        "src/agent.rt",
        "    let served = serve_one(alloc, port, agent, room)?;\n    tell_untaken(host, served);\n",
        "    let Ok(served) = serve_one(alloc, port, agent, room) else {\n        return Err(AppFault::SocketFault {\n            reason: mon_app::SocketReason::Other,\n        });\n    };\n    tell_untaken(host, served);\n",
    ),
    "tells_the_fault_of_a_port_too": (
        "src/agent.rt",
        "    let served = serve_one(alloc, port, agent, room)?;\n    tell_untaken(host, served);\n",
        "    let served = match serve_one(alloc, port, agent, room) {\n        Ok(served) => served,\n        Err(fault) => {\n            Failure::from(AppFault::OutOfMemory).report(host, Level::Warning);\n            return Err(AppFault::from(fault));\n        }\n    };\n    tell_untaken(host, served);\n",
    ),
    "lacks_memory_where_the_port_fails": (
        "src/agent.rt",
        "        serve_next(alloc, host, port, agent, &mut room)?;",
        "        if serve_next(alloc, host, port, agent, &mut room).is_err() {\n            return Err(Failure::from(AllocError));\n        }",
    ),
    "tells_a_failed_port_before_it_ends": (
        "src/agent.rt",
        "        serve_next(alloc, host, port, agent, &mut room)?;",
        "        if let Err(fault) = serve_next(alloc, host, port, agent, &mut room) {\n            let failure = Failure::from(fault);\n            failure.report(host, Level::Warning);\n            return Err(failure);\n        }",
    ),
    "listens_and_serves_nobody": (
        "src/agent.rt",
        "    serve_all(alloc, host, &mut port, agent, service.count)",
        "    Ok(())",
    ),
    "serves_one_whatever_is_asked": (
        "src/agent.rt",
        "    serve_all(alloc, host, &mut port, agent, service.count)",
        "    serve_all(alloc, host, &mut port, agent, 1)",
    ),
    "serves_one_more_than_is_asked": (
        "src/agent.rt",
        "    serve_all(alloc, host, &mut port, agent, service.count)",
        "    serve_all(alloc, host, &mut port, agent, service.count.saturating_add(1))",
    ),
    "serves_all_again": (
        "src/agent.rt",
        "    serve_all(alloc, host, &mut port, agent, service.count)",
        "    serve_all(alloc, host, &mut port, agent, service.count)?;\n    serve_all(alloc, host, &mut port, agent, service.count)",
    ),
    "swallows_what_ends_the_serving": (
        "src/agent.rt",
        "    serve_all(alloc, host, &mut port, agent, service.count)",
        "    let _ = serve_all(alloc, host, &mut port, agent, service.count);\n    Ok(())",
    ),
    "ignores_the_boots": (
        "src/agent.rt",
        "    let told = read_agent_settings(alloc, host, words.settings, words.boots)?;\n    let service = Service {",
        "    let told = read_agent_settings(alloc, host, words.settings, None)?;\n    let service = Service {",
    ),
    "reads_the_settings_twice": (
        "src/agent.rt",
        "    let told = read_agent_settings(alloc, host, words.settings, words.boots)?;\n    let service = Service {",
        "    let _ = read_agent_settings(alloc, host, words.settings, words.boots)?;\n    let told = read_agent_settings(alloc, host, words.settings, words.boots)?;\n    let service = Service {",
    ),
    "reads_other_settings": (
        "src/agent.rt",
        "    let told = read_agent_settings(alloc, host, words.settings, words.boots)?;\n    let service = Service {",
        "    let told = read_agent_settings(alloc, host, \"agent.toml\", words.boots)?;\n    let service = Service {",
    ),
    "serves_without_a_word": (
        "src/agent.rt",
        "    tell_port(host, at);\n",
        "    let _ = at;\n",
    ),
    "serves_before_it_says_where": (
        "src/agent.rt",
        "    tell_port(host, at);\n    serve_all(alloc, host, &mut port, agent, service.count)",
        "    serve_all(alloc, host, &mut port, agent, service.count)?;\n    tell_port(host, at);\n    Ok(())",
    ),
    "listens_at_a_free_port": (
        "src/agent.rt",
        "    let (mut port, at) = listen_at(alloc, net, service.listen)?;",
        "    let (mut port, at) = listen_at(alloc, net, Addr { port: 0, ..service.listen })?;",
    ),
    "ends_well_without_a_port": (
        "src/agent.rt",
        "    let (mut port, at) = listen_at(alloc, net, service.listen)?;",
        "    let Ok((mut port, at)) = listen_at(alloc, net, service.listen) else {\n        return Ok(());\n    };",
    ),
    "says_where_it_was_told_to_listen": (
        "src/agent.rt",
        "snmpmon: agent at {at}",
        "snmpmon: agent listens at {at}",
    ),
    "says_where_before_it_listens": (
        "src/agent.rt",
        "    let (mut port, at) = listen_at(alloc, net, service.listen)?;\n    tell_port(host, at);",
        "    tell_port(host, service.listen.socket());\n    let (mut port, _) = listen_at(alloc, net, service.listen)?;",
    ),
    "prints_where_it_listens": (
        "src/agent.rt",
        '    host.note(Level::Info, format_args!("snmpmon: agent at {at}\\n"));',
        '    print(alloc, host, b"snmpmon: agent\\n")?;\n    let _ = at;',
    ),
    "opens_another_port_than_it_says": (
        "src/agent.rt",
        "    match net.listen(listen) {",
        "    match net.listen(Addr { port: 0, ..listen }) {",
    ),
    "says_the_address_that_was_asked_for": (
        "src/agent.rt",
        "    tell_port(host, at);",
        "    let _ = at;\n    tell_port(host, service.listen.socket());",
    ),
    "fails_as_if_the_port_had": (
        "src/agent.rt",
        "    serve_all(alloc, host, &mut port, agent, service.count)",
        "    Err(Failure::from(AppFault::SocketFault {\n        reason: mon_app::SocketReason::Other,\n    }))",
    ),
    "lacks_memory_to_serve": (
        "src/agent.rt",
        "    let mut room = Buffers::new(alloc)?;",
        "    if count > 0 {\n        return Err(Failure::from(AllocError));\n    }\n    let mut room = Buffers::new(alloc)?;",
    ),
    "walks_by_get_next_always": (
        "src/walking.rt",
        "    walk_query(alloc, host, net, &query, stride_of(words.bulk))",
        "    walk_query(alloc, host, net, &query, Stride::Next)",
    ),
    "asks_for_one_more_at_once": (
        "src/walking.rt",
        "    walk_query(alloc, host, net, &query, stride_of(words.bulk))",
        "    walk_query(alloc, host, net, &query, stride_of(words.bulk.saturating_add(1)))",
    ),
    "reads_its_arguments_twice": (
        "src/walking.rt",
        "    let query = query_of(alloc, host, words.request)?;",
        "    let _ = query_of(alloc, host, words.request)?;\n    let query = query_of(alloc, host, words.request)?;",
    ),
    "reads_modules_after_the_walk": (
        "src/walking.rt",
        "    walk_query(alloc, host, net, &query, stride_of(words.bulk))",
        "    walk_query(alloc, host, net, &query, stride_of(words.bulk))?;\n    let _ = mon_console::names_of(alloc, host, words.request.named.modules)?;\n    Ok(())",
    ),
    "reads_a_query_and_walks_nowhere": (
        "src/walking.rt",
        "    walk_query(alloc, host, net, &query, stride_of(words.bulk))",
        "    Ok(())",
    ),
    "swallows_a_query_without_meaning": (
        "src/walking.rt",
        "    let query = query_of(alloc, host, words.request)?;",
        "    let Ok(query) = query_of(alloc, host, words.request) else {\n        return Ok(());\n    };",
    ),
    "swallows_what_ends_the_walk": (
        "src/walking.rt",
        "    walk_query(alloc, host, net, &query, stride_of(words.bulk))",
        "    let _ = walk_query(alloc, host, net, &query, stride_of(words.bulk));\n    Ok(())",
    ),
    "walks_twice": (
        "src/walking.rt",
        "    walk_query(alloc, host, net, &query, stride_of(words.bulk))",
        "    walk_query(alloc, host, net, &query, stride_of(words.bulk))?;\n    walk_query(alloc, host, net, &query, stride_of(words.bulk))",
    ),
    "ends_with_an_empty_line": (
        "src/walking.rt",
        "    walk_query(alloc, host, net, &query, stride_of(words.bulk))",
        '    walk_query(alloc, host, net, &query, stride_of(words.bulk))?;\n    mon_console::print(alloc, host, b"\\n")',
    ),
    "walks_the_first_of_two_names": (
        "src/walking.rt",
        "    if query.asked.len() != 1 {",
        "    if query.asked.is_empty() {",
    ),
    "refuses_two_names": (
        "src/walking.rt",
        "    if query.asked.len() != 1 {\n        return Ok(());\n    }\n",
        '    if query.asked.len() != 1 {\n        return Err(Failure::text(alloc, "NAME", "one name"));\n    }\n',
    ),
    "walks_in_the_public_community": (
        "src/walking.rt",
        "        community: query.community,",
        '        community: b"public",',
    ),
    "walks_by_another_stride": (
        "src/walking.rt",
        "        stride,\n",
        "        stride: Stride::Bulk(10),\n",
    ),
    "walks_in_numbers_unasked": (
        "src/walking.rt",
        "&route, &query.known.labels(alloc)?)",
        "&route, &InNumbers)",
    ),
    "walks_by_names_where_numbers_are_asked": (
        "src/walking.rt",
        "    if query.prints_names {",
        "    if !query.prints_names {",
    ),
    "walks_another_name": (
        "src/walking.rt",
        "    let plan = WalkPlan {\n        community: query.community,\n        start: &query.asked[0],",
        "    let Ok(start) = mon_oid::Oid::from_parts(alloc, &[1, 3]) else {\n        return Ok(());\n    };\n    let plan = WalkPlan {\n        community: query.community,\n        start: &start,",
    ),
    "does_not_walk": (
        "src/walking.rt",
        "    match walk_agent(alloc, host, net, route, names) {\n        Ok(()) => Ok(()),\n        Err(fault) => Err(walk_failure(alloc, route.agent.word, fault)),\n    }\n",
        "    Ok(())\n",
    ),
    "times_out_without_a_question": (
        "src/walking.rt",
        "    match walk_agent(alloc, host, net, route, names) {\n        Ok(()) => Ok(()),\n        Err(fault) => Err(walk_failure(alloc, route.agent.word, fault)),\n    }\n",
        "    Err(answer_failure(alloc, agent.word, mon_app::AppFault::Timeout))\n",
    ),
    "ends_a_walk_well_whatever_fails": (
        "src/walking.rt",
        "        Err(fault) => Err(walk_failure(alloc, route.agent.word, fault)),",
        "        Err(_) => Ok(()),",
    ),
    "walks_again_after_a_failure": (
        "src/walking.rt",
        "        Err(fault) => Err(walk_failure(alloc, route.agent.word, fault)),",
        "        Err(_) => match walk_agent(alloc, host, net, route, names) {\n            Ok(()) => Ok(()),\n            Err(fault) => Err(walk_failure(alloc, route.agent.word, fault)),\n        },",
    ),
    "names_no_agent_in_a_failed_walk": (
        "src/walking.rt",
        "        Err(fault) => Err(walk_failure(alloc, route.agent.word, fault)),",
        '        Err(fault) => Err(walk_failure(alloc, "", fault)),',
    ),
    "tells_a_failed_walk_itself": (
        "src/walking.rt",
        "        Err(fault) => Err(walk_failure(alloc, route.agent.word, fault)),",
        "        Err(fault) => {\n            let failure = walk_failure(alloc, route.agent.word, fault);\n            failure.report(host, Level::Warning);\n            Err(failure)\n        }",
    ),
    "shows_a_walk_in_numbers": (
        "src/walking.rt",
        "    match walk_agent(alloc, host, net, route, names) {",
        "    match walk_agent(alloc, host, net, agent.address, plan, &InNumbers) {",
    ),
    "walks_at_port_161": (
        "src/walking.rt",
        "    let mut wire = net.open(route.agent.address)?;",
        "    let mut wire = net.open(mon_udp::Addr { port: 161, ..route.agent.address })?;",
    ),
    "walks_the_same_twice": (
        "src/walking.rt",
        "    mon_client::walk(alloc, host, &mut wire, &route.plan, names)",
        "    mon_client::walk(alloc, host, &mut wire, &route.plan, names)?;\n    mon_client::walk(alloc, host, &mut wire, &route.plan, names)",
    ),
    "forgets_how_a_walk_ended": (
        "src/walking.rt",
        "    mon_client::walk(alloc, host, &mut wire, &route.plan, names)",
        "    let _ = mon_client::walk(alloc, host, &mut wire, &route.plan, names);\n    Ok(())",
    ),
    "says_whom_it_walks": (
        "src/walking.rt",
        "    let mut wire = net.open(route.agent.address)?;",
        "    host.note(Level::Info, format_args!(\"snmpmon: walk of {}\\n\", route.agent.address));\n    let mut wire = net.open(route.agent.address)?;",
    ),
    "prints_a_line_of_its_own_first": (
        "src/walking.rt",
        "    let mut wire = net.open(route.agent.address)?;",
        "    let mut wire = net.open(route.agent.address)?;\n    let _ = host.print(b\"walk\\n\");",
    ),
    "times_out_without_a_wire": (
        "src/walking.rt",
        "    let mut wire = net.open(route.agent.address)?;",
        "    let Ok(mut wire) = net.open(route.agent.address) else {\n        return Err(WalkFault::App(mon_app::AppFault::Timeout));\n    };",
    ),
    "ends_well_without_a_wire": (
        "src/walking.rt",
        "    let mut wire = net.open(route.agent.address)?;",
        "    let Ok(mut wire) = net.open(route.agent.address) else {\n        return Ok(());\n    };",
    ),
    "walks_from_the_root": (
        "src/walking.rt",
        "    mon_client::walk(alloc, host, &mut wire, &route.plan, names)",
        "    let Ok(root) = mon_oid::Oid::from_parts(alloc, &[1, 3]) else {\n        return Err(WalkFault::App(mon_app::AppFault::OutOfMemory));\n    };\n    mon_client::walk(alloc, host, &mut wire, &WalkPlan { start: &root, ..*plan }, names)",
    ),
    "walks_for_one_at_once": (
        "src/walking.rt",
        "    mon_client::walk(alloc, host, &mut wire, &route.plan, names)",
        "    mon_client::walk(alloc, host, &mut wire, &WalkPlan { stride: Stride::Next, ..*plan }, names)",
    ),
    "times_out_at_once": (
        "src/walking.rt",
        "    let mut wire = net.open(route.agent.address)?;\n    mon_client::walk(alloc, host, &mut wire, &route.plan, names)",
        "    Err(WalkFault::App(mon_app::AppFault::Timeout))",
    ),
    "calls_an_agents_fault_one_of_output": (
        "src/walking.rt",
        "        WalkFault::App(fault) => answer_failure(alloc, agent, fault),",
        '        WalkFault::App(_) => answer_failure(alloc, "standard output", mon_app::AppFault::FileFault),',
    ),
    "calls_a_fault_of_output_the_agents": (
        "src/walking.rt",
        '        WalkFault::Output(reason) => Failure::stream(alloc, "standard output", reason),',
        "        WalkFault::Output(_) => answer_failure(alloc, agent, mon_app::AppFault::FileFault),",
    ),
    "calls_each_agents_fault_a_timeout": (
        "src/walking.rt",
        "        WalkFault::App(fault) => answer_failure(alloc, agent, fault),",
        "        WalkFault::App(_) => answer_failure(alloc, agent, mon_app::AppFault::Timeout),",
    ),
    "names_the_agent_where_output_fails": (
        "src/walking.rt",
        '        WalkFault::Output(reason) => Failure::stream(alloc, "standard output", reason),',
        "        WalkFault::Output(reason) => Failure::stream(alloc, agent, reason),",
    ),
    "names_standard_error_where_output_fails": (
        "src/walking.rt",
        '        WalkFault::Output(reason) => Failure::stream(alloc, "standard output", reason),',
        '        WalkFault::Output(reason) => Failure::stream(alloc, "standard error", reason),',
    ),
    "names_standard_output_where_the_agent_fails": (
        "src/walking.rt",
        "        WalkFault::App(fault) => answer_failure(alloc, agent, fault),",
        '        WalkFault::App(fault) => answer_failure(alloc, "standard output", fault),',
    ),
    "says_less_of_an_agents_fault": (
        "src/walking.rt",
        "        WalkFault::App(fault) => answer_failure(alloc, agent, fault),",
        "        WalkFault::App(fault) => Failure::from(fault),",
    ),
    "says_where_a_reader_went": (
        "src/walking.rt",
        '        WalkFault::Output(reason) => Failure::stream(alloc, "standard output", reason),',
        '        WalkFault::Output(reason) => {\n            let mon_host::Reason { kind: _, words } = reason;\n            let kind = std::io::ErrorKind::Other;\n            Failure::stream(alloc, "standard output", mon_host::Reason { kind, words })\n        }',
    ),
    "ends_each_walk_as_if_cut": (
        "src/walking.rt",
        '        WalkFault::Output(reason) => Failure::stream(alloc, "standard output", reason),',
        '        WalkFault::Output(reason) => {\n            let mon_host::Reason { kind: _, words } = reason;\n            let kind = std::io::ErrorKind::BrokenPipe;\n            Failure::stream(alloc, "standard output", mon_host::Reason { kind, words })\n        }',
    ),
}

# Those that break a promise as a whole, each with its function: tests/bodies tries them in the gate.
PROMISES = {
    "mib_reads_another_path": "listing::print_names",
    "swallows_a_fault": "client::print_answer",
    "says_nothing_of_where": "agent::tell_port",
    "ends_a_walk_well_whatever_fails": "walking::walk_shown",
    "serves_one_fewer": "agent::serve_all",
    "tells_of_each_datagram": "agent::tell_untaken",
}
