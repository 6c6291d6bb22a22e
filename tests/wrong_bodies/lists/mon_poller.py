"""Bugs of mon_poller for tests/wrong_bodies/planted: by name the file, what stands there once, and the bug in its place."""

BUGS = {
    "a_gauge_is_no_discontinuity": (
        "src/stamp.rt",
        "        Value::Counter32(number) | Value::Gauge32(number) | Value::TimeTicks(number) => {",
        "        Value::Counter32(number) | Value::TimeTicks(number) => {",
    ),
    "counter64_gives_no_sample": (
        "src/stamp.rt",
        "        Value::Counter64(number) => Some((Kind::Counter64, *number)),\n",
        "",
    ),
    "a_negative_integer_without_its_sign": (
        "src/stamp.rt",
        "i64::from(*number).cast_unsigned()",
        "u64::from(number.unsigned_abs())",
    ),
    "a_gauge_as_a_counter": (
        "src/stamp.rt",
        "Some((Kind::Gauge32, u64::from(*number)))",
        "Some((Kind::Counter32, u64::from(*number)))",
    ),
    "opens_65_polls": (
        "src/poller.rt",
        "const MAX_OPEN: usize = 64;",
        "const MAX_OPEN: usize = 65;",
    ),
    "tries_once_more": (
        "src/poller.rt",
        "        if poll.sends >= self.targets.at(number).tries {",
        "        if poll.sends > self.targets.at(number).tries {",
    ),
    "wrong_names_leave_the_poll_open": (
        "src/awaiting.rt",
        "        Err(fault) => fault.number() > 5,",
        "        Err(fault) => fault.number() > 7,",
    ),
    "another_community_closes_the_poll": (
        "src/fault.rt",
        "            ResponseFault::WrongCommunity => 5,",
        "            ResponseFault::WrongCommunity => 6,",
    ),
    "a_request_id_of_an_earlier_poll": (
        "src/finding.rt",
        "            if poll.id == id {",
        "            if poll.id <= id {",
    ),
    "the_last_slot_is_not_searched": (
        "src/finding.rt",
        "    for key in 0..polls.capacity() {\n        if let Some(poll) = polls.get(key) {\n            if poll.id == id {",
        "    for key in 1..polls.capacity() {\n        if let Some(poll) = polls.get(key) {\n            if poll.id == id {",
    ),
    "a_community_by_its_length": (
        "src/awaiting.rt",
        "    if message.community.as_slice() != target.community.as_slice() {",
        "    if message.community.as_slice().len() != target.community.as_slice().len() {",
    ),
    "any_port": (
        "src/awaiting.rt",
        "    if from != target.address {",
        "    if from.octets != target.address.octets {",
    ),
    "the_address_of_the_first_target": (
        "src/awaiting.rt",
        "    let target = &targets[usize::from(poll.target)];",
        "    let target = &targets[usize::from(poll.target) / 2];",
    ),
    "a_report_as_a_response": (
        "src/offers.rt",
        "            if pdu.kind == PduKind::Response {",
        "            if pdu.kind == PduKind::Response || pdu.kind == PduKind::Report {",
    ),
    "a_negative_status_is_no_error": (
        "src/offers.rt",
        "    if pdu.error_status != 0 {",
        "    if pdu.error_status > 0 {",
    ),
    "index_before_status": (
        "src/offers.rt",
        "ResponseFault::AgentError(pdu.error_status, pdu.error_index)",
        "ResponseFault::AgentError(pdu.error_index, pdu.error_status)",
    ),
    "the_engine_before_the_names": (
        "src/offers.rt",
        "    if !have_names(target, bindings) {\n        return Err(ResponseFault::WrongNames);\n    }",
        "    if stamp_and_others(bindings).is_err() {\n        return Err(ResponseFault::BadStamp);\n    }\n    if !have_names(target, bindings) {\n        return Err(ResponseFault::WrongNames);\n    }",
    ),
    "more_names_than_asked": (
        "src/offers.rt",
        "        return bindings.is_empty();",
        "        return true;",
    ),
    "a_time_below_boots": (
        "src/stamp.rt",
        "            time: stamp_number(time)?,",
        "            time: stamp_number(boots)?,",
    ),
    "the_object_as_its_discontinuity": (
        "src/offers.rt",
        "            [_, second, ..] => discontinuity_in(&second.value),",
        "            [first, _, ..] => discontinuity_in(&first.value),",
    ),
    "a_mark_is_not_passed_over": (
        "src/offers.rt",
        "        Some(_) => 2,",
        "        Some(_) => 1,",
    ),
    "samples_of_the_first_instance": (
        "src/offers.rt",
        "            pairs.push(object.instance, sample)?;",
        "            pairs.push(0, sample)?;",
    ),
    "the_first_target_is_offered": (
        "src/offers.rt",
        "    Ok(Offered {\n        target: number,",
        "    Ok(Offered {\n        target: number & 0,",
    ),
    "offers_the_time_as_the_boots": (
        "src/offers.rt",
        "        boots: stamp.boots,",
        "        boots: stamp.time,",
    ),
    "in_place_offers_the_boots_as_the_time": (
        "src/in_place.rt",
        "        boots,\n        time,\n        pairs,",
        "        boots,\n        time: boots,\n        pairs,",
    ),
    "asks_by_get_next": (
        "src/asking.rt",
        "            kind: PduKind::Get,",
        "            kind: PduKind::GetNext,",
    ),
    "time_before_boots": (
        "src/asking.rt",
        "    bindings.push(name_binding(stamp_name(alloc, &ENGINE_BOOTS)?))?;\n    bindings.push(name_binding(stamp_name(alloc, &ENGINE_TIME)?))?;",
        "    bindings.push(name_binding(stamp_name(alloc, &ENGINE_TIME)?))?;\n    bindings.push(name_binding(stamp_name(alloc, &ENGINE_BOOTS)?))?;",
    ),
    "asks_for_the_object_twice": (
        "src/asking.rt",
        "        bindings.push(name_binding(discontinuity.try_clone(alloc)?))?;",
        "        bindings.push(name_binding(object.name.try_clone(alloc)?))?;",
    ),
    "asks_with_the_engine_as_community": (
        "src/asking.rt",
        "        community: target.community.try_clone(alloc)?,",
        "        community: target.engine.try_clone(alloc)?,",
    ),
    "the_last_id_is_not_used": (
        "src/poller.rt",
        "const LAST_ID: u32 = 2147483647;",
        "const LAST_ID: u32 = 2147483646;",
    ),
    "a_resend_counts_twice": (
        "src/poller.rt",
        "        self.polls[key].sends += 1;",
        "        self.polls[key].sends += 2;",
    ),
    "given_up_and_still_open": (
        "src/poller.rt",
        "            self.polls.remove(key);\n            return Ok(TimedOut::GivenUp {",
        "            return Ok(TimedOut::GivenUp {",
    ),
    "the_first_target_gave_up": (
        "src/poller.rt",
        "            return Ok(TimedOut::GivenUp {\n                target: poll.target,\n",
        "            return Ok(TimedOut::GivenUp {\n                target: 0,\n",
    ),
    "a_start_for_too_many_is_of_an_unknown_target": (
        "src/poller.rt",
        "            return Err(PollFault::TooManyOpen);",
        "            return Err(PollFault::UnknownTarget);",
    ),
    "a_poll_of_the_first_target": (
        "src/poller.rt",
        "        let octets = self.targets.poll(alloc, place, id)?;",
        "        let octets = self.targets.poll(alloc, place / 2, id)?;",
    ),
    "goes_again_to_the_first_target": (
        "src/poller.rt",
        "        Ok(TimedOut::Again {\n            target: poll.target,\n",
        "        Ok(TimedOut::Again {\n            target: 0,\n",
    ),
    "has_tries_after_the_last": (
        "src/poller.rt",
        "poll.sends < self.targets.at(usize::from(poll.target)).tries",
        "poll.sends <= self.targets.at(usize::from(poll.target)).tries",
    ),
    "nine_tries": (
        "src/target.rt",
        "const MAX_TRIES: u8 = 8;",
        "const MAX_TRIES: u8 = 9;",
    ),
    "communities_of_513": (
        "src/target.rt",
        "const MAX_COMMUNITY: usize = 512;",
        "const MAX_COMMUNITY: usize = 513;",
    ),
    "a_copy_of_the_object_without_its_discontinuity": (
        "src/target.rt",
        "            discontinuity,\n",
        "            discontinuity: None,\n",
    ),
    "tells_an_oldest_of_none": (
        "src/poller.rt",
        "        least_after(&self.polls, 0)",
        "        least_after(&self.polls, 0).or(Some(self.started))",
    ),
    "swaps_boots_and_time": (
        "src/stamp.rt",
        "Some(Sample::new(self.boots, self.time, discontinuity, kind, value))",
        "Some(Sample::new(self.time, self.boots, discontinuity, kind, value))",
    ),
    "takes_any_host": (
        "src/awaiting.rt",
        "    if from != target.address {",
        "    if from.port != target.address.port {",
    ),
    "takes_an_integer_as_a_discontinuity": (
        "src/offers.rt",
        "            [_, second, ..] => discontinuity_in(&second.value),",
        "            [_, second, ..] => stamp_number(&second.value),",
    ),
    "sends_another_datagram_again": (
        "src/poller.rt",
        "        let octets = self.targets.poll(alloc, number, id)?;",
        "        let octets = self.targets.poll(alloc, number, 1)?;",
    ),
    "uses_an_id_again": (
        "src/poller.rt",
        "        self.started = id;",
        "        self.started = id - 1;",
    ),
    "takes_another_engine": (
        "src/offers.rt",
        "    if stamp.engine.as_slice() != target.engine.as_slice() {",
        "    if stamp.engine.as_slice().len() != target.engine.as_slice().len() {",
    ),
    "asks_by_the_list_of_the_first_target": (
        "src/asked.rt",
        "            self.lists[number].as_slice(),",
        "            self.lists[0].as_slice(),",
    ),
    "asks_for_nothing": (
        "src/asking.rt",
        "    match write_with(alloc, &message, list) {",
        "    match write_with(alloc, &message, &list[..0]) {",
    ),
    "writes_the_names_of_the_stamp_alone": (
        "src/asking.rt",
        "    match write_bindings(alloc, bindings.as_slice()) {",
        "    match write_bindings(alloc, &bindings.as_slice()[..3]) {",
    ),
    "in_place_with_any_status": (
        "src/in_place.rt",
        "    if frame.kind != PduKind::Response || frame.error_status != 0 {",
        "    if frame.kind != PduKind::Response {",
    ),
    "in_place_of_any_pdu": (
        "src/in_place.rt",
        "    if frame.kind != PduKind::Response || frame.error_status != 0 {",
        "    if frame.error_status != 0 {",
    ),
    "in_place_of_any_community": (
        "src/in_place.rt",
        "    if from != target.address || frame.community != target.community.as_slice() {",
        "    if from != target.address {",
    ),
    "in_place_with_octets_left": (
        "src/in_place.rt",
        "    if rest.list.is_empty() { Some(()) } else { None }",
        "    Some(())",
    ),
    "in_place_without_a_discontinuity": (
        "src/in_place.rt",
        "    Some((discontinuity_in(&value), unread))",
        "    Some((Some(0), unread))",
    ),
    "in_place_with_a_discontinuity_of_none": (
        "src/in_place.rt",
        "        return Some((Some(0), *unread));",
        "        return Some((Some(1), *unread));",
    ),
    "in_place_the_time_as_the_boots": (
        "src/in_place.rt",
        "        boots,\n        time,\n    };",
        "        boots: time,\n        time,\n    };",
    ),
    "in_place_without_the_sample": (
        "src/in_place.rt",
        "        Some(sample) => pairs.push(instance, sample).ok(),",
        "        Some(_) => Some(()),",
    ),
    "in_place_of_the_next_instance": (
        "src/in_place.rt",
        "        Some(sample) => pairs.push(instance, sample).ok(),",
        "        Some(sample) => pairs.push(instance ^ 1, sample).ok(),",
    ),
    "in_place_the_poll_stays_open": (
        "src/poller.rt",
        "        self.polls.remove(key);\n        Some(offered)",
        "        let _ = key;\n        Some(offered)",
    ),
    "in_place_of_the_first_target": (
        "src/in_place.rt",
        "    Some(Offered {\n        target: number,",
        "    Some(Offered {\n        target: number & 0,",
    ),
    "names_of_the_first_target": (
        "src/asked.rt",
        "        &self.names[number]",
        "        &self.names[0 * number]",
    ),
    "a_name_spelled_as_nothing": (
        "src/asking.rt",
        "    put_object_identifier(&mut octets, name);\n    Ok(Octets::new(octets))",
        "    Ok(Octets::new(octets))",
    ),
    "memory_closes_a_poll": (
        "src/awaiting.rt",
        "        Err(fault) => fault.number() > 5,",
        "        Err(fault) => fault.number() > 5 || fault.number() == 1,",
    ),
    "reads_in_place_from_any_address": (
        "src/in_place.rt",
        "    if from != target.address || frame.community != target.community.as_slice() {",
        "    if frame.community != target.community.as_slice() {",
    ),
    "reads_in_place_from_any_engine": (
        "src/in_place.rt",
        "    if octets_in(&value)?.as_slice() == engine {",
        "    if octets_in(&value)?.as_slice().len() == engine.len() {",
    ),
    "takes_a_response_of_a_closed_poll": (
        "src/awaiting.rt",
        "        Ok(_) => true,",
        "        Ok(_) => false,",
    ),
    "takes_other_names": (
        "src/offers.rt",
        "    discontinuity.parts() == binding.name.parts() && name_objects(objects, bindings)",
        "    discontinuity.parts().len() == binding.name.parts().len() && name_objects(objects, bindings)",
    ),
    "begins_at_request_id_2": (
        "src/poller.rt",
        "            started: 0,",
        "            started: 1,",
    ),
    "an_unknown_target_is_out_of_memory": (
        "src/poller.rt",
        "            return Err(PollFault::UnknownTarget);",
        "            return Err(PollFault::OutOfMemory);",
    ),
    "gives_up_where_memory_is_refused": (
        "src/poller.rt",
        "        let octets = self.targets.poll(alloc, number, id)?;",
        "        let Ok(octets) = self.targets.poll(alloc, number, id) else {\n            self.polls.remove(key);\n            return Ok(TimedOut::GivenUp {\n                target: poll.target,\n            });\n        };",
    ),
    "tells_the_youngest_for_the_oldest": (
        "src/finding.rt",
        "                Some(found) if found <= poll.id => least,",
        "                Some(found) if found >= poll.id => least,",
    ),
    "tells_the_same_poll_again": (
        "src/finding.rt",
        "                _ if poll.id <= id => least,",
        "                _ if poll.id < id => least,",
    ),
    "tells_each_time_the_oldest": (
        "src/poller.rt",
        "        least_after(&self.polls, id)",
        "        least_after(&self.polls, id.min(0))",
    ),
    "passes_over_every_other_poll": (
        "src/poller.rt",
        "        least_after(&self.polls, id)",
        "        least_after(&self.polls, least_after(&self.polls, id)?)",
    ),
    "tells_of_one_poll_alone": (
        "src/poller.rt",
        "        least_after(&self.polls, id)",
        "        if id > 0 {\n            return None;\n        }\n        least_after(&self.polls, id)",
    ),
    "has_no_oldest_poll": (
        "src/poller.rt",
        "        least_after(&self.polls, 0)",
        "        least_after(&self.polls, 0).and(None)",
    ),
    "refuses_what_is_not_read_in_place": (
        "src/poller.rt",
        "        self.close_answered(alloc, from, &message)\n",
        "        let _ = message;\n        Err(ResponseFault::BadMessage)\n",
    ),
    "an_agents_error_leaves_the_poll_open": (
        "src/poller.rt",
        "        if ends_poll(&answered) {",
        "        if answered.is_ok() {",
    ),
    "another_source_is_a_stray": (
        "src/awaiting.rt",
        "        return Err(ResponseFault::WrongSource);",
        "        return Err(ResponseFault::Stray);",
    ),
    "refused_memory_is_a_bad_message": (
        "src/awaiting.rt",
        "    Ok(read_message(alloc, octets)?)",
        "    match read_message(alloc, octets) {\n        Ok(message) => Ok(message),\n        Err(_) => Err(ResponseFault::BadMessage),\n    }",
    ),
    "passes_over_an_error_status": (
        "src/offers.rt",
        "    require_no_error(pdu)?;",
        "    let _ = require_no_error(pdu);",
    ),
    "offers_less_where_memory_is_refused": (
        "src/offers.rt",
        "            pairs.push(object.instance, sample)?;",
        "            let _ = pairs.push(object.instance, sample);",
    ),
    "a_discontinuity_of_another_kind_is_0": (
        "src/offers.rt",
        "            [_, second, ..] => discontinuity_in(&second.value),",
        "            [_, second, ..] => discontinuity_in(&second.value).or(Some(0)),",
    ),
    "a_negative_number_without_its_sign": (
        "src/stamp.rt",
        "        Value::Integer(number) => match u32::try_from(*number) {\n            Ok(number) => Some(number),\n            Err(_) => None,\n        },",
        "        Value::Integer(number) => Some(number.unsigned_abs()),",
    ),
    "names_statuses_from_one": (
        "src/status.rt",
        "NAMES.get(number).copied()",
        "NAMES.get(number.saturating_sub(1)).copied()",
    ),
    "has_no_inconsistent_name": (
        "src/status.rt",
        '    "inconsistentName",',
        '    "inconsistentValue",',
    ),
    "names_no_status": (
        "src/fault.rt",
        "            ResponseFault::AgentError(status, index) => match status_name(status) {",
        "            ResponseFault::AgentError(status, index) => match status_name(-1) {",
    ),
    "names_the_status_of_the_index": (
        "src/fault.rt",
        "            ResponseFault::AgentError(status, index) => match status_name(status) {",
        "            ResponseFault::AgentError(status, index) => match status_name(index) {",
    ),
    "a_stray_is_from_another_address": (
        "src/fault.rt",
        'ResponseFault::Stray => f.write_str("no open poll has its request-id"),',
        'ResponseFault::Stray => f.write_str("it came from another address"),',
    ),
    "asks_for_no_name": (
        "src/asking.rt",
        "    names_of(alloc, bindings.as_slice())\n",
        "    names_of(alloc, &[])\n",
    ),
    "asks_for_the_first_name_again": (
        "src/asking.rt",
        "        names.push(binding.name.try_clone(alloc)?)?;\n    }\n    Ok(names)\n",
        "        names.push(bindings[0].name.try_clone(alloc)?)?;\n    }\n    Ok(names)\n",
    ),
}

# Those that break a promise as a whole, each with its function: tests/bodies tries them in the gate.
PROMISES = {
    "takes_a_response_of_a_closed_poll": "awaiting::ends_poll",
    "takes_other_names": "offers::name_objects",
    "tells_of_one_poll_alone": "poller::Poller::oldest_after",
}
