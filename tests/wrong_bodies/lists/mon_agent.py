"""Bugs of mon_agent for tests/wrong_bodies/planted: by name the file, what stands there once, and the bug in its place."""

BUGS = {
    "bulk_repeats_once_too_few": (
        "src/bulk.rt",
        "    for _ in 0..rounds {",
        "    for _ in 1..rounds {",
    ),
    "bulk_takes_negative_counts": (
        "src/bulk.rt",
        "    number.max(0) as usize",
        "    number.max(1) as usize",
    ),
    "commit_failed_is_gen_err": (
        "src/assigning.rt",
        "const COMMIT_FAILED: i32 = 14;",
        "const COMMIT_FAILED: i32 = 5;",
    ),
    "counts_before_nothing": (
        "src/agent.rt",
        "        self.mib.count(Counter::InPackets);",
        "        self.mib.count(Counter::SilentDrops);",
    ),
    "denies_with_gen_err": (
        "src/agent.rt",
        "const AUTHORIZATION_ERROR: i32 = 16;",
        "const AUTHORIZATION_ERROR: i32 = 5;",
    ),
    "fault_by_another_name": (
        "src/fault.rt",
        '            AgentFault::OutOfMemory => "OutOfMemory",',
        '            AgentFault::OutOfMemory => "NoMemory",',
    ),
    "fault_by_number_2": (
        "src/fault.rt",
        "            AgentFault::OutOfMemory => 1,",
        "            AgentFault::OutOfMemory => 2,",
    ),
    "refusal_names_none": (
        "src/assigning.rt",
        "            let response = make_return(response, status.number(), index_of(index));",
        "            let response = make_return(response, status.number(), index_of(index.min(0)));",
    ),
    "set_is_no_request": (
        "src/agent.rt",
        "        Body::Pdu(pdu) => matches!(pdu.kind, PduKind::Get | PduKind::GetNext | PduKind::Set),",
        "        Body::Pdu(pdu) => matches!(pdu.kind, PduKind::Get | PduKind::GetNext),",
    ),
    "set_needs_to_read": (
        "src/agent.rt",
        "        Body::Pdu(pdu) if pdu.kind == PduKind::Set => ViewType::Write,",
        "        Body::Pdu(pdu) if pdu.kind == PduKind::Trap => ViewType::Write,",
    ),
    "silence_by_another_name": (
        "src/reply.rt",
        '            Silence::BadVersion => "BadVersion",',
        '            Silence::BadVersion => "BadMessage",',
    ),
    "silence_by_another_number": (
        "src/reply.rt",
        "    TooBigTwice = 5,",
        "    TooBigTwice = 6,",
    ),
    "starts_with_other_counters": (
        "src/agent.rt",
        "            mib: Mib::new(settings, device),",
        "            mib: { let mut mib = Mib::new(settings, device); mib.count(Counter::InPackets); mib },",
    ),
    "too_big_is_no_error": (
        "src/sending.rt",
        "const TOO_BIG: i32 = 1;",
        "const TOO_BIG: i32 = 0;",
    ),
    "undo_failed_names_one": (
        "src/assigning.rt",
        "        Commit::UndoFailed { .. } => (UNDO_FAILED, 0),",
        "        Commit::UndoFailed { failed, .. } => (UNDO_FAILED, *failed),",
    ),
    "version_is_a_bad_message": (
        "src/agent.rt",
        "        PduFault::BadVersion(_) => Some(Silence::BadVersion),",
        "        PduFault::BadVersion(_) => Some(Silence::BadMessage),",
    ),
    "refuses_a_reply_of_the_limit": (
        "src/response_builder.rt",
        "    size <= max_message_size.max(0) as usize",
        "    size < max_message_size.max(0) as usize",
    ),
    "forgets_the_size_of_the_list": (
        "src/response_builder.rt",
        "        self.list = list;\n",
        "",
    ),
    "goes_on_when_full": (
        "src/response_builder.rt",
        "    bindings.iter().all(|binding| is_end(&binding.value))",
        "    bindings.iter().all(|binding| is_end(&binding.value) || true)",
    ),
    "stops_a_round_early": (
        "src/bulk.rt",
        "    if rounds == 0 {",
        "    if rounds == 1 {",
    ),
    "repeats_as_many_as_once_asked": (
        "src/bulk.rt",
        "    let width = repeated.len();",
        "    let width = once.len();",
    ),
    "sends_too_big_at_any_size": (
        "src/sending.rt",
        "    match size_within(&response, max_message_size) {",
        "    match size_within(&response, i32::MAX) {",
    ),
    "calls_too_big_no_request": (
        "src/sending.rt",
        "        None => Ok(Reply::Silent(Silence::TooBigTwice)),",
        "        None => Ok(Reply::Silent(Silence::NotARequest)),",
    ),
    "puts_the_status_for_the_index": (
        "src/sending.rt",
        "        error_index,\n        bindings,\n    })",
        "        error_index: error_status,\n        bindings,\n    })",
    ),
    "answers_undo_failed_by_14": (
        "src/assigning.rt",
        "const UNDO_FAILED: i32 = 15;",
        "const UNDO_FAILED: i32 = 14;",
    ),
    "silences_a_set_above_the_limit": (
        "src/assigning.rt",
        "            return make_answer(send_too_big(alloc, response, max_message_size));",
        "            return Ok(Ready::Answer(Reply::Silent(crate::reply::Silence::TooBigTwice)));",
    ),
    "returns_one_binding_of_a_set": (
        "src/assigning.rt",
        "        let bindings = response.body.bindings();",
        "        let bindings = &response.body.bindings()[..response.body.bindings().len().min(1)];",
    ),
    "calls_a_trap_a_bad_community": (
        "src/agent.rt",
        "    if !is_request(body) {\n        return Some(Silence::NotARequest);",
        "    if !is_request(body) {\n        return Some(Silence::BadCommunity);",
    ),
    "denies_with_index_1": (
        "src/agent.rt",
        "                let denied = make_return(message, AUTHORIZATION_ERROR, 0);",
        "                let denied = make_return(message, AUTHORIZATION_ERROR, 1);",
    ),
    "calls_no_instance_no_object": (
        "src/reading.rt",
        "        Got::NoInstance => Value::NoSuchInstance,",
        "        Got::NoInstance => Value::NoSuchObject,",
    ),
    "ends_a_view_as_no_object": (
        "src/reading.rt",
        "            value: Value::EndOfMibView,",
        "            value: Value::NoSuchObject,",
    ),
    "counts_no_bad_version": (
        "src/agent.rt",
        "        Reply::Silent(Silence::BadVersion) => mib.count(Counter::BadVersions),",
        "        Reply::Silent(Silence::BadVersion) => {}",
    ),
    "has_room_by_its_bindings_alone": (
        "src/response_builder.rt",
        "    if is_within(size_bound(head, list), max_message_size) {",
        "    if is_within(list, max_message_size) {",
    ),
    "sends_within_any_limit": (
        "src/response_builder.rt",
        "        send_measured(alloc, self.into_message(), list, max_message_size)",
        "        send_measured(alloc, self.into_message(), list, max_message_size.max(484))",
    ),
    "sends_what_was_cut": (
        "src/reading.rt",
        "        send_too_big(alloc, reply.into_message(), max_message_size)\n    }",
        "        reply.send(alloc)\n    }",
    ),
    "counts_nothing_of_what_it_tells": (
        "src/agent.rt",
        "        self.mib.counters()\n    }",
        "        Counters::new()\n    }",
    ),
    "sends_too_big_without_a_cut": (
        "src/reading.rt",
        "    if all {\n        reply.send(",
        "    if false && all {\n        reply.send(",
    ),
    "answers_get_as_next": (
        "src/reading.rt",
        "    if pdu.kind == PduKind::Get {",
        "    if pdu.kind == PduKind::GetNext {",
    ),
    "bulk_repeats_the_first_names": (
        "src/bulk.rt",
        "        let found = step(alloc, search, reply.name_before(width))?;",
        "        let found = step(alloc, search, reply.name_before(1))?;",
    ),
    "set_is_measured_without_index": (
        "src/assigning.rt",
        "        let response = make_return(message, NO_ERROR, count);",
        "        let response = make_return(message, NO_ERROR, count.min(0));",
    ),
    "commit_failed_names_none": (
        "src/assigning.rt",
        "        Commit::CommitFailed(failed) => (COMMIT_FAILED, *failed),",
        "        Commit::CommitFailed(_) => (COMMIT_FAILED, 0),",
    ),
    "sends_above_the_limit": (
        "src/response_builder.rt",
        "    size <= max_message_size.max(0) as usize",
        "    size <= max_message_size.max(0) as usize + 1",
    ),
    "silent_drop_is_not_counted": (
        "src/agent.rt",
        "        Reply::Silent(Silence::TooBigTwice) => mib.count(Counter::SilentDrops),",
        "        Reply::Silent(Silence::TooBigTwice) => mib.count(Counter::ParseErrors),",
    ),
    "keeps_count_after_a_fault": (
        "src/agent.rt",
        "                self.mib.recount(before);",
        "                let _ = before;",
    ),
    "bulk_cuts_at_whole_rounds": (
        "src/response_builder.rt",
        "            return Ok(false);",
        "            { self.bindings.truncate(self.bindings.len() / 2 * 2); return Ok(false); }",
    ),
    "in_place_grants_the_view_for_writing": (
        "src/in_place.rt",
        "        match self.policy.access(community, ViewType::Read) {",
        "        match self.policy.access(community, ViewType::Write) {",
    ),
    "in_place_leaves_what_was_written_before": (
        "src/in_place.rt",
        "        buffers.list.clear();\n        put_answers(",
        "        buffers.list.truncate(1);\n        put_answers(",
    ),
    "in_place_passes_over_the_last_octets": (
        "src/in_place.rt",
        "    while !rest.is_empty() {",
        "    while rest.len() > 8 {",
    ),
    "in_place_passes_over_a_name": (
        "src/in_place.rt",
        "    put_for(alloc, search, kind, &mut name, out)?;",
        "    if octets.len() < 100 {\n        put_for(alloc, search, kind, &mut name, out)?;\n    }",
    ),
    "in_place_gets_for_a_get_next": (
        "src/in_place.rt",
        "        PduKind::Get => put_got(alloc, search, name, out),",
        "        PduKind::Get | PduKind::GetNext if name.parts().len() > 9 => put_got(alloc, search, name, out),",
    ),
    "in_place_cuts_off_octets": (
        "src/in_place.rt",
        "        Ok(Shown::Octets(octets)) => put_octets_binding(out, name, octets, max_message_size),",
        "        Ok(Shown::Octets(octets)) => put_octets_binding(out, name, &octets[..octets.len().min(4)], max_message_size),",
    ),
    "in_place_gets_null": (
        "src/in_place.rt",
        "        Ok(Shown::Other(got)) => put_binding(out, name, &got_value(got), max_message_size),",
        "        Ok(Shown::Other(_)) => put_binding(out, name, &Value::Null, max_message_size),",
    ),
    "in_place_takes_any_short_value_for_null": (
        "src/in_place.rt",
        "    if value != NULL.as_slice() {",
        "    if value.len() != 2 {",
    ),
    "in_place_answers_a_set": (
        "src/in_place.rt",
        "    matches!(kind, PduKind::Get | PduKind::GetNext)",
        "    matches!(kind, PduKind::Get | PduKind::GetNext | PduKind::Set)",
    ),
    "in_place_answers_with_the_error_index": (
        "src/in_place.rt",
        "            frame.request_id,\n            max_message_size,\n            buffers,\n        )\n    }\n\n    /// The octets of the reply to a GetBulk",
        "            frame.error_index,\n            max_message_size,\n            buffers,\n        )\n    }\n\n    /// The octets of the reply to a GetBulk",
    ),
    "in_place_of_any_size": (
        "src/in_place.rt",
        "    write_frame(&mut buffers.octets, &frame, max_message_size.max(0) as u32).ok()?;",
        "    let _ = max_message_size;\n    write_frame(&mut buffers.octets, &frame, u32::MAX).ok()?;",
    ),
    "in_place_answers_with_an_error": (
        "src/in_place.rt",
        "        error_status: NO_ERROR,\n        error_index: 0,\n        list,",
        "        error_status: 5,\n        error_index: 0,\n        list,",
    ),
    "in_place_answers_as_a_report": (
        "src/in_place.rt",
        "        kind: PduKind::Response,\n        request_id,\n        error_status: NO_ERROR,",
        "        kind: PduKind::Report,\n        request_id,\n        error_status: NO_ERROR,",
    ),
    "bulk_in_place_repeats_the_first_names": (
        "src/bulk_in_place.rt",
        "        let Ok(found) = advance(alloc, search, name) else {\n            return None;\n        };\n        if !put_fitting(plan, name, &found, list)? {",
        "        let mut own = name.try_clone(alloc).ok()?;\n        let Ok(found) = advance(alloc, search, &mut own) else {\n            return None;\n        };\n        if !put_fitting(plan, &own, &found, list)? {",
    ),
    "bulk_in_place_has_a_round_more": (
        "src/bulk_in_place.rt",
        "            rounds: count(frame.max_repetitions),",
        "            rounds: count(frame.max_repetitions).saturating_add(1),",
    ),
    "bulk_in_place_repeats_none_once": (
        "src/bulk_in_place.rt",
        "            once: count(frame.non_repeaters),",
        "            once: count(frame.max_repetitions),",
    ),
    "bulk_in_place_goes_on_after_what_does_not_fit": (
        "src/bulk_in_place.rt",
        "        if !put_fitting(plan, name, &found, list)? {\n            return Some(Round::Full);\n        }",
        "        put_fitting(plan, name, &found, list)?;",
    ),
    "bulk_in_place_keeps_what_does_not_fit": (
        "src/bulk_in_place.rt",
        "    list.truncate(before);",
        "    list.truncate(before.saturating_add(1));",
    ),
    "bulk_in_place_ends_at_any_end": (
        "src/bulk_in_place.rt",
        "        all_end = all_end && is_at_end(&found);",
        "        all_end = all_end || is_at_end(&found);",
    ),
    "in_place_answers_no_object_at_the_end": (
        "src/in_place.rt",
        "        _ => put_binding(out, name, &Value::EndOfMibView, max_message_size),",
        "        _ => put_binding(out, name, &Value::NoSuchObject, max_message_size),",
    ),
    "bulk_in_place_ends_at_a_text": (
        "src/bulk_in_place.rt",
        "        Some(Shown::Octets(_)) => false,",
        "        Some(Shown::Octets(_)) => true,",
    ),
    "bulk_in_place_never_ends_at_the_end": (
        "src/bulk_in_place.rt",
        "    Some(if all_end { Round::Last } else { Round::More })",
        "    Some(if all_end { Round::More } else { Round::More })",
    ),
    "bulk_in_place_passes_over_a_name": (
        "src/bulk_in_place.rt",
        "    names.push(name).ok()?;\n    Some(rest)",
        "    if name.parts().len() != 7 {\n        names.push(name).ok()?;\n    }\n    Some(rest)",
    ),
    "bulk_in_place_keeps_names_of_before": (
        "src/in_place.rt",
        "        buffers.names.clear();",
        "        buffers.names.truncate(1);",
    ),
    "bulk_in_place_within_the_limit_of_a_list": (
        "src/bulk_in_place.rt",
        "    if frame_fits(&plan.head, list.len().min(LIMIT), plan.max_message_size) {",
        "    if list.len() <= plan.max_message_size as usize {",
    ),
    "answers_before_it_counts": (
        "src/agent.rt",
        "        self.mib.count(Counter::InPackets);\n        match self.prepare(alloc, datagram, moment, buffers) {",
        "        let ready = self.prepare(alloc, datagram, moment, buffers);\n        self.mib.count(Counter::InPackets);\n        match ready {",
    ),
    "takes_a_want_of_memory_for_a_bad_message": (
        "src/agent.rt",
        "                None => Err(AgentFault::OutOfMemory),",
        "                None => Ok(Ready::Answer(Reply::Silent(Silence::BadMessage))),",
    ),
    "tests_the_request_before_the_community": (
        "src/agent.rt",
        "    if matches!(access, Err(Denied::NoCommunity)) {\n        return Some(Silence::BadCommunity);\n    }\n    if !is_request(body) {\n        return Some(Silence::NotARequest);\n    }\n",
        "    if !is_request(body) {\n        return Some(Silence::NotARequest);\n    }\n    if matches!(access, Err(Denied::NoCommunity)) {\n        return Some(Silence::BadCommunity);\n    }\n",
    ),
    "reads_as_of_the_start": (
        "src/agent.rt",
        "        let mut search = Search::new(alloc, &self.mib, &self.policy, access, moment);",
        "        let start = Moment::new(0).unwrap_or(moment);\n        let mut search = Search::new(alloc, &self.mib, &self.policy, access, start);",
    ),
    "drops_a_set_that_is_ready": (
        "src/agent.rt",
        "            Ready::Assign(set) => Reply::Send(self.assign(set)),",
        "            Ready::Assign(set) => {\n                drop(set);\n                Reply::Silent(Silence::TooBigTwice)\n            }",
    ),
    "is_silent_to_every_denial": (
        "src/agent.rt",
        "    if matches!(access, Err(Denied::NoCommunity)) {",
        "    if access.is_err() {",
    ),
    "counts_up_to_255_bindings": (
        "src/assigning.rt",
        "    i32::try_from(body.bindings().len()).ok()",
        "    match u8::try_from(body.bindings().len()) {\n        Ok(count) => Some(i32::from(count)),\n        Err(_) => None,\n    }",
    ),
    "tells_of_no_failed_commit": (
        "src/assigning.rt",
        "        let response = make_return(response, error_status, index_of(place));",
        "        let _ = (error_status, place);\n        let response = make_return(response, NO_ERROR, 0);",
    ),
    "answers_a_want_of_memory_by_a_status": (
        "src/assigning.rt",
        "        SetFault::OutOfMemory => Err(AllocError),",
        "        SetFault::OutOfMemory => {\n            let response = make_return(response, 13, 0);\n            write(alloc, &response, size)\n        }",
    ),
    "answers_the_repeated_names_first": (
        "src/bulk.rt",
        "once)? {\n        return Ok(());\n    }\n    if rounds == 0 {\n        return Ok(());\n    }\n    if !extend(alloc, search, reply, repeated)? {",
        "repeated)? {\n        return Ok(());\n    }\n    if rounds == 0 {\n        return Ok(());\n    }\n    if !extend(alloc, search, reply, once)? {",
    ),
    "answers_the_first_name_of_a_get": (
        "src/reading.rt",
        "        binding.value = got_value(got);\n",
        "        binding.value = got_value(got);\n        break;\n",
    ),
    "takes_half_the_room_for_a_response": (
        "src/ready.rt",
        "    let room = Vec::with_capacity(alloc, size)?;",
        "    let room = Vec::with_capacity(alloc, size / 2)?;",
    ),
}

# Those that break a promise as a whole, each with its function: tests/bodies tries them in the gate.
PROMISES = {
    "bulk_in_place_goes_on_after_what_does_not_fit": "bulk_in_place::put_round",
    "bulk_cuts_at_whole_rounds": "response_builder::ResponseBuilder::push",
}
