"""Bugs of mon_rounds for tests/wrong_bodies/planted: by name the file, what stands there once, and the bug in its place."""

BUGS = {
    "counts_no_overrun": (
        "src/freshness.rt",
        "                self.overruns = self.overruns.saturating_add(1);\n",
        "                let _ = spell.interval;\n",
    ),
    "counts_rounds_without_an_interval": (
        "src/freshness.rt",
        "if 0 < spell.interval && spell.interval < spell.took {",
        "if spell.interval < spell.took {",
    ),
    "counts_rounds_that_take_the_interval": (
        "src/freshness.rt",
        "if 0 < spell.interval && spell.interval < spell.took {",
        "if 0 < spell.interval && spell.interval <= spell.took {",
    ),
    "counts_waits_as_rounds": (
        "src/freshness.rt",
        "            if 0 < spell.interval && spell.interval < spell.took {\n                self.overruns = self.overruns.saturating_add(1);\n            }\n        }\n",
        "            if 0 < spell.interval && spell.interval < spell.took {\n                self.overruns = self.overruns.saturating_add(1);\n            }\n        } else {\n            self.overruns = self.overruns.saturating_add(1);\n        }\n",
    ),
    "announces_each_alarm_at_once": (
        "src/totals.rt",
        "            announcer: Announcer::new(alloc, after, states.as_slice())?,",
        "            announcer: Announcer::new(alloc, after.min(1), states.as_slice())?,",
    ),
    "knows_no_alarm_at_the_start": (
        "src/totals.rt",
        "            announcer: Announcer::new(alloc, after, states.as_slice())?,",
        "            announcer: Announcer::new(alloc, after, &[])?,",
    ),
    "each_call_is_a_look": (
        "src/totals.rt",
        "        self.announcer.announce(alloc, changes, looks)\n",
        "        let _ = looks;\n        self.announcer.announce(alloc, changes, true)\n",
    ),
    "no_call_is_a_look": (
        "src/totals.rt",
        "        self.announcer.announce(alloc, changes, looks)\n",
        "        let _ = looks;\n        self.announcer.announce(alloc, changes, false)\n",
    ),
    "looks_without_the_changes": (
        "src/totals.rt",
        "        self.announcer.announce(alloc, changes, looks)\n",
        "        let _ = changes;\n        self.announcer.announce(alloc, Vec::new(alloc), looks)\n",
    ),
    "says_all_changes_though_they_must_hold": (
        "src/totals.rt",
        "        self.announcer.announce(alloc, changes, looks)\n",
        "        let _ = looks;\n        Ok(changes)\n",
    ),
    "shows_no_announced_alarm": (
        "src/totals.rt",
        "        self.announcer.states(alloc)\n",
        "        Ok(Vec::new(alloc))\n",
    ),
    "another_engine_is_never_known": (
        "src/changes.rt",
        "            latest.other_engine(alloc, target.address, engine.as_slice())\n",
        "            let _ = (alloc, latest, engine);\n            Ok(None)\n",
    ),
    "another_engine_is_known_of_each_target": (
        "src/changes.rt",
        "    match target.refusal {\n        Some(StationFault::Response(ResponseFault::OtherEngine)) => {\n            latest.other_engine(alloc, target.address, engine.as_slice())\n        }\n        _ => Ok(None),\n    }\n",
        "    latest.other_engine(alloc, target.address, engine.as_slice())\n",
    ),
    "the_first_wrong_engine_stays": (
        "src/changes.rt",
        "        (Some(was), Some(is)) if was.as_slice() == is.as_slice() => return Ok(()),",
        "        (Some(_), Some(_)) => return Ok(()),",
    ),
    "a_wrong_engine_is_said_in_each_round": (
        "src/changes.rt",
        "        (Some(was), Some(is)) if was.as_slice() == is.as_slice() => return Ok(()),\n",
        "",
    ),
    "a_wrong_engine_never_goes": (
        "src/changes.rt",
        "        (_, is) => is.is_some(),",
        "        (_, None) => return Ok(()),\n        (_, is) => is.is_some(),",
    ),
    "engines_of_one_target_only": (
        "src/changes.rt",
        "        others.push(other_at(alloc, latest, targets.get(place), engines.get(place))?)?;",
        "        others.push(other_at(alloc, latest, targets.get(place), engines.first())?)?;",
    ),
    "a_round_begins_with_the_second_target": (
        "src/round.rt",
        "            Span::Round => (Phase::Polling(0),",
        "            Span::Round => (Phase::Polling(1),",
    ),
    "a_datagram_is_not_counted": (
        "src/round.rt",
        "        self.datagrams -= 1;\n",
        "",
    ),
    "a_failure_is_not_counted": (
        "src/round.rt",
        "        self.failures -= 1;\n",
        "",
    ),
    "a_failure_begins_a_wait_anew": (
        "src/round.rt",
        "        self.failures -= 1;\n        self.wait = Wait::Rest;",
        "        self.failures -= 1;\n        self.wait = Wait::Begin(self.wait_ms);",
    ),
    "a_round_begins_with_the_last_ones_events": (
        "src/round.rt",
        "        self.events.clear();\n",
        "",
    ),
    "a_failure_ends_the_source": (
        "src/source.rt",
        "                self.round.fail();\n                Err(SourceFault)",
        "                self.round.fail();\n                Ok(None)",
    ),
    "every_reception_begins_a_wait": (
        "src/source.rt",
        "        match self.receiver.receive(wait) {",
        "        match self.receiver.receive(Wait::Begin(0)) {",
    ),
    "counts_answers_for_samples": (
        "src/reporting.rt",
        "            taken = taken.saturating_add(*samples);",
        "            taken = taken.saturating_add(1);",
    ),
    "counts_all_notices_as_given_up": (
        "src/reporting.rt",
        "        if let Notice::GaveUp(_) = notice {",
        "        if let Notice::GaveUp(_) | Notice::NotPolled(..) = notice {",
    ),
    "ends_hearing_at_the_first_failure": (
        "src/round.rt",
        "        self.failures -= 1;",
        "        self.failures = 0;",
    ),
    "polls_a_target_again_and_again": (
        "src/round.rt",
        "            Phase::Polling(target + 1)",
        "            Phase::Polling(target)",
    ),
    "sends_to_the_first_peer": (
        "src/addresses.rt",
        "            Some(place) => self.peer_addresses.as_slice().get(place).copied(),",
        "            Some(_) => self.peer_addresses.as_slice().first().copied(),",
    ),
    "ends_where_it_is_quiet": (
        "src/source.rt",
        "            Ok(Arrival::Quiet) => Ok(self.round.proceed(oldest)),",
        "            Ok(Arrival::Quiet) => Ok(None),",
    ),
    "saves_nothing": (
        "src/round.rt",
        "            Phase::AwaitConfirmations => self.finish(),",
        "            Phase::AwaitConfirmations => None,",
    ),
    "a_round_never_saves": (
        "src/round.rt",
        "        if !self.saving {\n            self.end();\n            return None;\n        }\n        self.wait = Wait::Begin(self.wait_ms);\n        self.phase = Phase::Over;\n        self.events.push_reserved(RoundEvent::Save);\n        Some(OwnedEvent::Save)\n",
        "        self.end();\n        None\n",
    ),
    "a_round_saves_though_told_not_to": (
        "src/round.rt",
        "        if !self.saving {\n            self.end();\n            return None;\n        }\n",
        "",
    ),
    "a_round_saves_twice": (
        "src/round.rt",
        "        self.events.push_reserved(RoundEvent::Save);\n",
        "        self.events.push_reserved(RoundEvent::Save);\n        self.events.push_reserved(RoundEvent::Save);\n",
    ),
    "a_round_that_does_not_save_ends_without_its_shares": (
        "src/round.rt",
        "            _ => self.share(0),",
        "            _ if self.saving => self.share(0),\n            _ => self.finish(),",
    ),
    "each_round_saves_as_the_one_before": (
        "src/round.rt",
        "        self.saving = self.saves;\n",
        "",
    ),
    "a_round_that_began_is_told_too": (
        "src/round.rt",
        "        self.saves = saves;\n",
        "        self.saves = saves;\n        self.saving = saves;\n",
    ),
    "saves_whatever_is_said": (
        "src/source.rt",
        "        self.round.set_saves(saves);\n",
        "        let _ = saves;\n        self.round.set_saves(true);\n",
    ),
    "does_not_save_till_told_to": (
        "src/round.rt",
        "            saves: true,\n",
        "            saves: false,\n",
    ),
    "shares_before_it_polls": (
        "src/round.rt",
        "            Span::Round => (Phase::Polling(0),",
        "            Span::Round => (Phase::Sharing(0),",
    ),
    "takes_a_peers_datagram_for_an_agents": (
        "src/round.rt",
        "        if self.addresses.is_peer(from) {\n            self.events",
        "        if self.addresses.is_target(from) {\n            self.events",
    ),
    "counts_every_datagram_as_a_strangers": (
        "src/reporting.rt",
        "            strangers: count_strangers(round, events),",
        "            strangers: round.datagrams(),",
    ),
    "counts_peers_as_strangers": (
        "src/reporting.rt",
        "            RoundEvent::FromAgent(from, ()) if !round.is_target(*from) => {\n                count = count.saturating_add(1);\n            }\n            _ => {}\n",
        "            RoundEvent::FromAgent(from, ()) if !round.is_target(*from) => {\n                count = count.saturating_add(1);\n            }\n            RoundEvent::FromPeer(_) => count = count.saturating_add(1),\n            _ => {}\n",
    ),
    "round_only_rests": (
        "src/running.rt",
        "        self.begin(span);\n",
        "        self.begin(Span::Between(0));\n",
    ),
    "rest_runs_a_round": (
        "src/running.rt",
        "        self.begin(span);\n",
        "        self.begin(Span::Round);\n",
    ),
    "rests_half_the_time": (
        "src/round.rt",
        "(Phase::BetweenRounds, Wait::Begin(milliseconds)),",
        "(Phase::BetweenRounds, Wait::Begin(milliseconds / 2)),",
    ),
    "asks_for_few_events": (
        "src/running.rt",
        "const TURNS: u64 = 5000;",
        "const TURNS: u64 = 64;",
    ),
    "returns_no_notice": (
        "src/reporting.rt",
        "answers[place])?;\n    }\n    Ok(notices)",
        "answers[place])?;\n    }\n    notices.clear();\n    Ok(notices)",
    ),
    "forgets_the_last_notices": (
        "src/reporting.rt",
        "    for place in 0..events.len().min(answers.len()) {\n",
        "    for place in 0..events.len().min(answers.len()) / 2 {\n",
    ),
    "the_first_target_gave_up": (
        "src/reporting.rt",
        "        Answer::GaveUp(target) => Some(Notice::GaveUp(target)),",
        "        Answer::GaveUp(_) => Some(Notice::GaveUp(0)),",
    ),
    "hides_who_gave_up": (
        "src/reporting.rt",
        "        Answer::GaveUp(target) => Some(Notice::GaveUp(target)),",
        "        Answer::GaveUp(_) => None,",
    ),
    "tells_of_strangers": (
        "src/reporting.rt",
        "        RoundEvent::FromAgent(from, ()) => match fault {\n            StationFault::Response(ResponseFault::WrongSource) => Some(Notice::Astray(from)),\n            _ => None,\n        },",
        "        RoundEvent::FromAgent(from, ()) => match fault {\n            StationFault::Response(ResponseFault::WrongSource) => Some(Notice::Astray(from)),\n            _ => Some(Notice::BadResponse(from, fault)),\n        },",
    ),
    "each_stranger_is_astray": (
        "src/reporting.rt",
        "        RoundEvent::FromAgent(from, ()) => match fault {\n            StationFault::Response(ResponseFault::WrongSource) => Some(Notice::Astray(from)),\n            _ => None,\n        },",
        "        RoundEvent::FromAgent(from, ()) => Some(Notice::Astray(from)),",
    ),
    "hides_what_came_astray": (
        "src/reporting.rt",
        "        StationFault::Response(ResponseFault::WrongSource) => Some(Notice::Astray(from)),",
        "        StationFault::Response(ResponseFault::WrongSource) => None,",
    ),
    "a_targets_datagram_is_a_peers": (
        "src/reporting.rt",
        "            RoundEvent::FromPeer(from) if *from == address => return true,",
        "            RoundEvent::FromPeer(from) | RoundEvent::FromAgent(from, ()) if *from == address => {\n                return true;\n            }",
    ),
    "each_peer_was_heard": (
        "src/reporting.rt",
        "            RoundEvent::FromPeer(from) if *from == address => return true,",
        "            RoundEvent::FromPeer(_) => return true,",
    ),
    "a_peer_grows_no_older": (
        "src/freshness.rt",
        "    let rounds = age_after(span, heard, peer.rounds);",
        "    let rounds = age_after(span, true, peer.rounds);",
    ),
    "the_first_peers_age_for_all": (
        "src/freshness.rt",
        "report.heard.as_slice().get(usize::from(peer.slot))",
        "report.heard.as_slice().first()",
    ),
    "polled_by_the_first_target": (
        "src/freshness.rt",
        "    match polled.get(number) {",
        "    match polled.first() {",
    ),
    "polled_by_no_target": (
        "src/polled.rt",
        "            return Some(number as u16);",
        "            return None;",
    ),
    "polled_by_the_target_after_it": (
        "src/polled.rt",
        "            return Some(number as u16);",
        "            return Some(number as u16 + 1);",
    ),
    "a_peer_is_lost_at_once": (
        "src/changes.rt",
        "        silent.push(peer.rounds >= limit)?;",
        "        silent.push(peer.rounds > 0)?;",
    ),
    "another_engine_is_none": (
        "src/changes.rt",
        "        Some(StationFault::Response(ResponseFault::OtherEngine)) => {",
        "        Some(StationFault::Response(ResponseFault::WrongNames)) => {",
    ),
    "each_refusal_is_another_engine": (
        "src/changes.rt",
        "        Some(StationFault::Response(ResponseFault::OtherEngine)) => {",
        "        Some(_) => {",
    ),
    "stale_though_its_target_is_silent": (
        "src/changes.rt",
        "        Some(target) => target.rounds == 0,",
        "        Some(_) => true,",
    ),
    "says_no_change_of_peers": (
        "src/changes.rt",
        "        put_changes(&mut changes, Trouble::SilentPeer, was, is)?;\n",
        "        let _ = (was, is);\n",
    ),
    "peers_for_targets": (
        "src/changes.rt",
        "put_changes(&mut changes, Trouble::SilentPeer, was, is)?;",
        "put_changes(&mut changes, Trouble::SilentTarget, was, is)?;",
    ),
    "ends_what_begins": (
        "src/changes.rt",
        "            begins: is,",
        "            begins: was,",
    ),
    "explains_by_the_oldest_sample": (
        "src/explaining.rt",
        "board.items(number as u16).last().copied()",
        "board.items(number as u16).first().copied()",
    ),
    "explains_by_the_first_target": (
        "src/explaining.rt",
        "    match targets.get(usize::from(target)) {",
        "    let _ = target;\n    match targets.first() {",
    ),
    "explains_nothing": (
        "src/explaining.rt",
        "    latest.reason(alloc, from, watched, newest)",
        "    let _ = (alloc, latest, from, watched, newest);\n    Ok(None)",
    ),
    "hides_bad_responses": (
        "src/reporting.rt",
        "        RoundEvent::FromAgent(from, ()) if round.is_target(from) => {\n            Some(Notice::BadResponse(from, fault))\n        }",
        "        RoundEvent::FromAgent(from, ()) if round.is_target(from) => None,",
    ),
    "tells_no_want_of_memory": (
        "src/reporting.rt",
        "        Answer::Memory => Some(Notice::NoMemory(event)),",
        "        Answer::Memory => None,",
    ),
    "not_saved_by_another_number": (
        "src/reporting.rt",
        "        Answer::Keeper(number) => Some(Notice::NotSaved(number)),",
        "        Answer::Keeper(_) => Some(Notice::NotSaved(2)),",
    ),
    "hides_bad_claims": (
        "src/reporting.rt",
        "        RoundEvent::FromPeer(from) => Some(Notice::BadClaim(from, fault)),",
        "        RoundEvent::FromPeer(_) => None,",
    ),
    "cuts_datagrams": (
        "src/socket.rt",
        "buffer.get(..len)",
        "buffer.get(..len / 2)",
    ),
    "sends_to_the_first_target_alone": (
        "src/socket.rt",
        "            To::Target(number) => self.addresses.target(number),",
        "            To::Target(_) => self.addresses.target(0),",
    ),
    "sends_to_the_station_as_a_target": (
        "src/socket.rt",
        "            To::Peer(station) => self.addresses.peer(station),",
        "            To::Peer(station) => self.addresses.target(station as u16),",
    ),
    "counts_the_last_round_alone": (
        "src/totals.rt",
        "        self.taken = self.taken.saturating_add(report.taken);",
        "        self.taken = report.taken;",
    ),
    "counts_no_polls_given_up": (
        "src/totals.rt",
        "        self.given_up = self.given_up.saturating_add(report.given_up);\n",
        "",
    ),
    "tells_each_alarm_again": (
        "src/totals.rt",
        "        see_windows(alloc, board, &mut self.windows)?;\n",
        "",
    ),
    "tells_no_alarm": (
        "src/totals.rt",
        "        self.announcer.announce(alloc, changes, looks)\n",
        "        let _ = self.announcer.announce(alloc, changes, looks)?;\n        Ok(Vec::new(alloc))\n",
    ),
    "owes_all_what_it_owes_the_first": (
        "src/totals.rt",
        "debts.push((*peer, station.owed(*peer)))?;",
        "debts.push((*peer, station.owed(peers[0])))?;",
    ),
    "reports_after_each_round": (
        "src/totals.rt",
        "    every != 0 && round % every == 0",
        "    every != 0 && round % every < every",
    ),
    "ends_an_interval_at_once": (
        "src/totals.rt",
        "        .saturating_sub(passed)\n",
        "        .saturating_sub(interval)\n",
    ),
    "rests_a_second_at_most": (
        "src/totals.rt",
        "const LONGEST_REST: u128 = 60_000;",
        "const LONGEST_REST: u128 = 1_000;",
    ),
    "a_round_at_once_again": (
        "src/grid.rt",
        "phase.saturating_add(begun.saturating_add(1).saturating_mul(interval))",
        "phase.saturating_add(begun.saturating_mul(interval))",
    ),
    "leaves_out_a_round": (
        "src/grid.rt",
        "phase.saturating_add(begun.saturating_add(1).saturating_mul(interval))",
        "phase.saturating_add(begun.saturating_add(2).saturating_mul(interval))",
    ),
    "an_interval_after_now": (
        "src/grid.rt",
        "    phase.saturating_add(begun.saturating_add(1).saturating_mul(interval))",
        "    let _ = begun; now.saturating_add(interval)",
    ),
    "all_stations_in_one_turn": (
        "src/grid.rt",
        "    interval * before as u64 / (peers.len() as u64 + 1)",
        "    interval * before.min(0) as u64 / (peers.len() as u64 + 1)",
    ),
    "turns_of_fewer_stations": (
        "src/grid.rt",
        "    interval * before as u64 / (peers.len() as u64 + 1)",
        "    interval * before as u64 / (peers.len() as u64).max(1)",
    ),
    "the_last_station_first": (
        "src/grid.rt",
        "filter(|peer| **peer < station)",
        "filter(|peer| **peer > station)",
    ),
    "a_target_that_gave_up_answered": (
        "src/reporting.rt",
        "            answered.push(*stamp)?;\n        }\n",
        "            answered.push(*stamp)?;\n        }\n        if let Answer::GaveUp(target) = answer {\n            answered.push(TargetStamp {\n                target: *target,\n                boots: 0,\n                time: 0,\n            })?;\n        }\n",
    ),
    "a_save_without_memory_is_none": (
        "src/reporting.rt",
        "        if let Notice::NotSaved(_) | Notice::NoMemory(RoundEvent::Save) = notice {",
        "        if let Notice::NotSaved(_) = notice {",
    ),
    "the_time_between_makes_older": (
        "src/freshness.rt",
        "        Span::Round => age.saturating_add(1),\n        Span::Between(_) => age,",
        "        Span::Round | Span::Between(_) => age.saturating_add(1),",
    ),
    "an_age_wraps": (
        "src/freshness.rt",
        "age.saturating_add(1)",
        "age.wrapping_add(1)",
    ),
    "an_instance_stays_as_it_was": (
        "src/freshness.rt",
        "        instances[place] = instance_after(instances[place], span, board);",
        "        let _ = instance_after(instances[place], span, board);",
    ),
    "an_answer_does_not_clear_a_refusal": (
        "src/freshness.rt",
        "        None if answered => None,\n",
        "",
    ),
    "polls_of_all_targets_were_given_up": (
        "src/freshness.rt",
        "            Notice::GaveUp(target) if *target == number => count += 1,",
        "            Notice::GaveUp(_) => count += 1,",
    ),
    "down_in_the_time_between": (
        "src/freshness.rt",
        "            Span::Between(_) => answered || target.up,",
        "            Span::Between(_) => answered,",
    ),
    "a_change_is_said_again": (
        "src/changes.rt",
        "        *self = now;\n",
        "        let _ = now;\n",
    ),
    "stale_one_round_late": (
        "src/changes.rt",
        "    if instance.rounds < limit {",
        "    if instance.rounds <= limit {",
    ),
    "knows_the_first_peers_address_alone": (
        "src/addresses.rt",
        "            peer_addresses: peers.to_vec(alloc)?,",
        "            peer_addresses: peers[..peers.len().min(1)].to_vec(alloc)?,",
    ),
    "counts_targets_from_1": (
        "src/addresses.rt",
        "        self.targets.as_slice().get(usize::from(number)).copied()",
        "        self.targets.as_slice().get(usize::from(number) + 1).copied()",
    ),
    "the_slot_for_the_station": (
        "src/addresses.rt",
        "        self.peers.as_slice().get(usize::from(slot)).copied()",
        "        match self.peers.as_slice().get(usize::from(slot)) {\n            Some(_) => Some(u32::from(slot)),\n            None => None,\n        }",
    ),
    "an_unknown_peer_is_the_first": (
        "src/addresses.rt",
        "            Some(place) => self.peer_addresses.as_slice().get(place).copied(),\n            None => None,",
        "            Some(place) => self.peer_addresses.as_slice().get(place).copied(),\n            None => self.peer_addresses.as_slice().first().copied(),",
    ),
    "a_peer_is_a_target_too": (
        "src/addresses.rt",
        "        stands_in(self.targets.as_slice(), from)",
        "        stands_in(self.targets.as_slice(), from) || stands_in(self.peer_addresses.as_slice(), from)",
    ),
    "an_address_without_its_port": (
        "src/addresses.rt",
        "addresses.iter().any(|address| *address == from)",
        "addresses.iter().any(|address| address.octets == from.octets)",
    ),
    "forgets_what_was_stale": (
        "src/changes.rt",
        "        let said = self.stale_instances.as_slice();\n",
        "        let said: &[bool] = &[];\n",
    ),
    "says_what_did_not_change": (
        "src/changes.rt",
        "    if was != is {\n        changes.push",
        "    if was || is {\n        changes.push",
    ),
    "each_trouble_was_said": (
        "src/changes.rt",
        "        Some(was) => *was,\n        None => false,",
        "        Some(was) => *was,\n        None => true,",
    ),
    "silent_after_two_rounds": (
        "src/changes.rt",
        "        silent.push(target.rounds > 0)?;",
        "        silent.push(target.rounds > 1)?;",
    ),
    "an_instance_without_a_target_answers": (
        "src/changes.rt",
        "    let Some(number) = instance.target else {\n        return false;\n    };",
        "    let Some(number) = instance.target else {\n        return true;\n    };",
    ),
    "loses_changes_without_memory": (
        "src/changes.rt",
        "        let changes = self.changes_to(alloc, &now)?;\n        *self = now;\n        Ok(changes)",
        "        let changes = self.changes_to(alloc, &now);\n        *self = now;\n        changes",
    ),
    "says_all_alarms_at_the_start": (
        "src/totals.rt",
        "            windows: seen_windows(alloc, board)?,",
        "            windows: {\n                let _ = board;\n                Vec::new(alloc)\n            },",
    ),
    "says_polls_for_samples": (
        "src/totals.rt",
        "        ensures { result ≡ self.now.taken }\n    {\n        self.taken\n",
        "        ensures { result ≡ self.now.taken }\n    {\n        self.given_up\n",
    ),
    "owes_peers_by_their_places": (
        "src/totals.rt",
        "        debts.push((*peer, station.owed(*peer)))?;",
        "        debts.push((debts.len() as u32, station.owed(*peer)))?;",
    ),
    "reports_from_a_round_on": (
        "src/totals.rt",
        "    every != 0 && round % every == 0",
        "    every != 0 && round >= every",
    ),
    "rests_for_what_passed": (
        "src/totals.rt",
        "    interval\n        .saturating_sub(passed)",
        "    passed\n        .saturating_sub(interval)",
    ),
    "explains_without_a_sample": (
        "src/explaining.rt",
        "    let newest = board.items(number as u16).last().copied();\n    latest.reason(alloc, from, watched, newest)",
        "    latest.reason(alloc, from, watched, None)",
    ),
    "milliseconds_for_seconds": (
        "src/freshness.rt",
        "        now.saturating_sub(self.answered) / 1000\n",
        "        now.saturating_sub(self.answered)\n",
    ),
    "no_target_is_polled_for_an_instance": (
        "src/freshness.rt",
        "new_instances(alloc, polled, board)?,\n            failed_saves: 0,",
        "new_instances(alloc, &polled[..0], board)?,\n            failed_saves: 0,",
    ),
    "targets_grow_no_older": (
        "src/freshness.rt",
        "        add_to_targets(&mut self.targets, spell, report);\n",
        "",
    ),
    "each_target_is_up_at_the_start": (
        "src/freshness.rt",
        "        up: false,\n        rounds: 0,",
        "        up: true,\n        rounds: 0,",
    ),
    "answered_at_each_end": (
        "src/freshness.rt",
        "        answered: if answered {\n            spell.ended\n        } else {\n            target.answered\n        },",
        "        answered: spell.ended,",
    ),
    "the_time_between_is_a_round": (
        "src/freshness.rt",
        "        if let Span::Round = spell.span {\n            self.round_ms = spell.took;\n",
        "        self.round_ms = spell.took;\n        if let Span::Round = spell.span {\n",
    ),
    "refused_by_the_first_notice": (
        "src/freshness.rt",
        "            Notice::BadResponse(from, fault) if *from == address => last = Some(*fault),",
        "            Notice::BadResponse(from, fault) if *from == address && last.is_none() => {\n                last = Some(*fault);\n            }",
    ),
    "refused_for_what_others_sent": (
        "src/freshness.rt",
        "            Notice::BadResponse(from, fault) if *from == address => last = Some(*fault),",
        "            Notice::BadResponse(_, fault) => last = Some(*fault),",
    ),
    "a_first_sample_is_not_new": (
        "src/freshness.rt",
        "                && one.tag == other.tag\n        }\n        _ => false,",
        "                && one.tag == other.tag\n        }\n        _ => true,",
    ),
    "the_oldest_sample_for_the_newest": (
        "src/freshness.rt",
        "    match board.items(number).last() {",
        "    match board.items(number).first() {",
    ),
    "a_first_round_an_interval_late": (
        "src/grid.rt",
        "        return phase;\n",
        "        return phase.saturating_add(interval);\n",
    ),
    "seconds_for_milliseconds": (
        "src/grid.rt",
        "    time.as_millis().min(LONGEST) as u64",
        "    (time.as_secs() as u128).min(LONGEST) as u64",
    ),
    "leaves_out_the_last_instance": (
        "src/polled.rt",
        "    for number in 0..count {",
        "    for number in 0..count.saturating_sub(1) {",
    ),
    "polled_for_every_instance": (
        "src/polled.rt",
        "usize::from(object.instance) == instance",
        "usize::from(object.instance) >= instance.min(0)",
    ),
    "a_refused_poll_is_not_said": (
        "src/reporting.rt",
        "        RoundEvent::StartPoll(target) => Some(Notice::NotPolled(target, fault)),",
        "        RoundEvent::StartPoll(_) => None,",
    ),
    "a_refused_share_is_not_said": (
        "src/reporting.rt",
        "        RoundEvent::Share(peer) => Some(Notice::NotShared(peer, fault)),",
        "        RoundEvent::Share(_) => None,",
    ),
    "swaps_what_came_and_what_went": (
        "src/reporting.rt",
        "            source_faults: run.source_faults,\n            send_faults: run.send_faults,",
        "            source_faults: run.send_faults,\n            send_faults: run.source_faults,",
    ),
    "no_target_answered": (
        "src/reporting.rt",
        "    for answer in answers {\n        if let Answer::Handled {\n            answered: Some(stamp),",
        "    for answer in &answers[..0] {\n        if let Answer::Handled {\n            answered: Some(stamp),",
    ),
    "all_answered_for_the_first_target": (
        "src/reporting.rt",
        "            answered.push(*stamp)?;",
        "            answered.push(TargetStamp {\n                target: 0,\n                ..*stamp\n            })?;",
    ),
    "a_response_of_one_target_answers_for_all": (
        "src/freshness.rt",
        "    answered.iter().any(|stamp| stamp.target == number)",
        "    answered.iter().any(|stamp| stamp.target == number || number > 0)",
    ),
    "a_response_answers_for_the_targets_before": (
        "src/freshness.rt",
        "    answered.iter().any(|stamp| stamp.target == number)",
        "    answered.iter().any(|stamp| stamp.target >= number)",
    ),
    "what_was_refused_was_taken": (
        "src/reporting.rt",
        "        if let Answer::Handled { samples, .. } = answer {\n            taken = taken.saturating_add(*samples);\n        }",
        "        match answer {\n            Answer::Handled { samples, .. } => taken = taken.saturating_add(*samples),\n            _ => taken = taken.saturating_add(1),\n        }",
    ),
    "a_round_is_over_at_its_end_alone": (
        "src/round.rt",
        "        self.phase = Phase::Over;\n        self.events.push_reserved(RoundEvent::Save);",
        "        self.phase = Phase::AwaitConfirmations;\n        self.events.push_reserved(RoundEvent::Save);",
    ),
    "offers_each_peer_twice": (
        "src/round.rt",
        "            Phase::Sharing(slot + 1)\n",
        "            Phase::Sharing(slot)\n",
    ),
    "offers_no_peer": (
        "src/round.rt",
        "            Some(peer) => Some(self.offer(slot, peer)),\n            None => self.finish(),",
        "            _ => self.finish(),",
    ),
    "a_rest_never_ends": (
        "src/round.rt",
        "            Phase::BetweenRounds | Phase::Rested => Phase::Rested,\n            _ => Phase::Over,",
        "            Phase::BetweenRounds => Phase::BetweenRounds,\n            Phase::Rested => Phase::Rested,\n            _ => Phase::Over,",
    ),
    "counts_datagrams_downwards": (
        "src/round.rt",
        "        MAX_DATAGRAMS - self.datagrams\n",
        "        self.datagrams\n",
    ),
    "runs_no_station": (
        "src/running.rt",
        "        station.run(alloc, self, outbox, TURNS, run)?;\n        // Proof: the events are in the order of a round.\n",
        "        let _ = (alloc, station, outbox, run);\n",
    ),
    "a_datagram_is_quiet": (
        "src/socket.rt",
        "        Ok(octets) => Ok(Arrival::Datagram(address, octets)),",
        "        Ok(_) => {\n            let _ = address;\n            Ok(Arrival::Quiet)\n        }",
    ),
    "takes_the_end_of_the_buffer": (
        "src/socket.rt",
        "buffer.get(..len)",
        "buffer.get(buffer.len().saturating_sub(len)..)",
    ),
    "counts_each_reception": (
        "src/socket.rt",
        "        self.failures = failed_after(failures, &received);\n        received",
        "        self.failures = failures.saturating_add(1);\n        received",
    ),
    "counts_no_datagram_that_is_lost": (
        "src/socket.rt",
        "        self.failures = failed_after(self.failures, &sent);\n",
        "",
    ),
    "begins_a_round_each_time": (
        "src/source.rt",
        "        self.round.begin(span);\n    }\n\n    /// Returns the next event, by",
        "        let _ = span;\n        self.round.begin(Span::Round);\n    }\n\n    /// Returns the next event, by",
    ),
    "hands_on_no_datagram": (
        "src/source.rt",
        "                Ok(Some(self.round.take(from, octets)))",
        "                let _ = self.round.take(from, octets);\n                Ok(None)",
    ),
    "what_has_no_address_counts_as_sent": (
        "src/socket.rt",
        "            return Err(OutboxFault);",
        "            return Ok(());",
    ),
    "an_outbox_begins_with_a_failure": (
        "src/socket.rt",
        "            socket,\n            addresses,\n            failures: 0,",
        "            socket,\n            addresses,\n            failures: 1,",
    ),
    "an_outbox_forgets_its_peers": (
        "src/socket.rt",
        "            socket,\n            addresses,\n            failures: 0,",
        "            socket,\n            addresses: {\n                let mut addresses = addresses;\n                addresses.peer_addresses.clear();\n                addresses\n            },\n            failures: 0,",
    ),
    "a_receiver_begins_with_a_failure": (
        "src/socket.rt",
        "            buffer: datagram_buffer(alloc)?,\n            failures: 0,",
        "            buffer: datagram_buffer(alloc)?,\n            failures: 1,",
    ),
    "looks_before_it_compares": (
        "src/totals.rt",
        "        let changes = alarm_changes(alloc, board, self.windows.as_slice())?;\n        see_windows(alloc, board, &mut self.windows)?;\n",
        "        see_windows(alloc, board, &mut self.windows)?;\n        let changes = alarm_changes(alloc, board, self.windows.as_slice())?;\n",
    ),
    "looks_again_only_after_a_change": (
        "src/totals.rt",
        "        see_windows(alloc, board, &mut self.windows)?;\n",
        "        if changes.is_empty() {\n            return Ok(changes);\n        }\n        see_windows(alloc, board, &mut self.windows)?;\n",
    ),
    "loses_alarm_changes_without_memory": (
        "src/totals.rt",
        "        let changes = alarm_changes(alloc, board, self.windows.as_slice())?;\n        see_windows(alloc, board, &mut self.windows)?;\n",
        "        let now = seen_windows(alloc, board)?;\n        let changes = alarm_changes(alloc, board, self.windows.as_slice());\n        self.windows = now;\n        let changes = changes?;\n",
    ),
    "keeps_the_alarms_without_memory_for_the_changes": (
        "src/totals.rt",
        "        see_windows(alloc, board, &mut self.windows)?;\n",
        "        match seen_windows(alloc, board) {\n            Ok(now) => self.windows = now,\n            Err(_) => self.windows = Vec::new(alloc),\n        }\n",
    ),
    "a_look_at_the_alarms_counts_anew": (
        "src/totals.rt",
        "        see_windows(alloc, board, &mut self.windows)?;\n        self.announcer",
        "        see_windows(alloc, board, &mut self.windows)?;\n        if !changes.is_empty() {\n            self.taken = 0;\n            self.given_up = 0;\n        }\n        self.announcer",
    ),
    "forgets_the_second_hearing": (
        "src/round.rt",
        "            Phase::AwaitResponses | Phase::AwaitConfirmations | Phase::BetweenRounds\n        );",
        "            Phase::AwaitResponses | Phase::BetweenRounds\n        );",
    ),
    "a_wait_goes_on_after_a_timeout": (
        "src/round.rt",
        "        self.wait = Wait::Begin(self.wait_ms);\n        // The first timeout",
        "        self.wait = Wait::Rest;\n        // The first timeout",
    ),
    "every_datagram_renews_a_wait": (
        "src/round.rt",
        "            Wait::Renew if !is_taken => Some(Wait::Rest),\n",
        "",
    ),
    "no_datagram_renews_a_wait": (
        "src/round.rt",
        "            Wait::Renew if !is_taken => Some(Wait::Rest),",
        "            Wait::Renew => Some(Wait::Rest),",
    ),
    "a_refused_response_renews_a_wait": (
        "src/round.rt",
        "fault.number() > LAST_STRAY,",
        "fault.number() > 0,",
    ),
    "a_stray_response_renews_a_wait": (
        "src/round.rt",
        "const LAST_STRAY: u8 = 5;",
        "const LAST_STRAY: u8 = 2;",
    ),
    "an_agents_error_renews_no_wait": (
        "src/round.rt",
        "const LAST_STRAY: u8 = 5;",
        "const LAST_STRAY: u8 = 6;",
    ),
    "a_lack_of_memory_renews_a_wait": (
        "src/round.rt",
        "        Some(Answer::Handled { .. }) => true,",
        "        Some(Answer::Handled { .. }) | Some(Answer::Memory) => true,",
    ),
    "only_samples_renew_a_wait": (
        "src/round.rt",
        "        Some(Answer::Handled { .. }) => true,",
        "        Some(Answer::Handled { samples, .. }) => samples > 0,",
    ),
    "the_first_event_renews_a_wait": (
        "src/round.rt",
        "            _ => false,\n        };\n        match self.wait {\n",
        "            None => true,\n            _ => false,\n        };\n        match self.wait {\n",
    ),
    "a_rest_is_prolonged": (
        "src/round.rt",
        "            Phase::BetweenRounds => Wait::Rest,\n            _ => Wait::Renew,",
        "            _ => Wait::Renew,",
    ),
    "listening_is_never_renewed": (
        "src/round.rt",
        "            Phase::BetweenRounds => Wait::Rest,\n            _ => Wait::Renew,",
        "            Phase::BetweenRounds | Phase::AwaitConfirmations => Wait::Rest,\n            _ => Wait::Renew,",
    ),
    "times_out_once": (
        "src/round.rt",
        "        self.timeouts -= 1;",
        "        self.timeouts = 0;",
    ),
    "uses_up_a_quiet_wait_for_each_timeout": (
        "src/round.rt",
        "            Phase::TimingOut(_) => self.quiets,\n            _ => self.quiets.saturating_sub(1),",
        "            _ => self.quiets.saturating_sub(1),",
    ),
    "uses_up_no_quiet_wait": (
        "src/round.rt",
        "            _ => self.quiets.saturating_sub(1),",
        "            _ => self.quiets,",
    ),
    "times_out_the_oldest_poll_alone": (
        "src/round.rt",
        "        let goes_on = more.is_some() && self.timeouts > 0;",
        "        let goes_on = more.is_some() && more.is_none();",
    ),
    "waits_after_each_timeout": (
        "src/round.rt",
        "            Phase::TimingOut(_) if !goes_on => Phase::AwaitResponses,",
        "            Phase::TimingOut(_) => Phase::AwaitResponses,",
    ),
    "never_ends_timing_out": (
        "src/round.rt",
        "            Phase::TimingOut(_) if !goes_on => Phase::AwaitResponses,\n",
        "            Phase::Over if !goes_on => Phase::Over,\n",
    ),
    "times_out_the_first_poll_again": (
        "src/round.rt",
        "            Phase::TimingOut(last) => last,",
        "            Phase::TimingOut(_) => 0,",
    ),
    "leaves_out_every_second_poll": (
        "src/round.rt",
        "            Phase::TimingOut(last) => last,",
        "            Phase::TimingOut(last) => last.saturating_add(1),",
    ),
    "as_many_quiet_waits_as_there_are_timeouts": (
        "src/round.rt",
        "            _ => self.timeouts > 0 && self.quiets > 0,",
        "            _ => self.timeouts > 0,",
    ),
    "shares_while_polls_are_open": (
        "src/round.rt",
        "            Some(id) if may_time_out => Some(self.time_out_one(id)),",
        "            Some(id) if may_time_out && self.quiets > 1 => Some(self.time_out_one(id)),",
    ),
    "a_quiet_wait_ends_the_polls": (
        "src/round.rt",
        "            Some(id) if may_time_out => Some(self.time_out_one(id)),\n            _ => self.share(0),",
        "            Some(_) if may_time_out => self.share(0),\n            _ => self.share(0),",
    ),
    "tries_once_more": (
        "src/round.rt",
        "        self.quiets = self.tries;",
        "        self.quiets = self.tries.saturating_add(1);",
    ),
    "keeps_the_last_rounds_quiet_waits": (
        "src/round.rt",
        "        self.quiets = self.tries;\n",
        "",
    ),
    "a_round_forgets_how_often_it_tries": (
        "src/round.rt",
        "            tries: u32::from(tries),",
        "            tries: u32::from(tries.min(1)),",
    ),
    "times_out_in_the_next_poll": (
        "src/round.rt",
        "        self.phase = Phase::TimingOut(id);\n",
        "        self.phase = Phase::AwaitResponses;\n",
    ),
    "waits_half_as_long_after_timeouts": (
        "src/round.rt",
        "        self.wait = Wait::Begin(self.wait_ms);\n        // The first timeout",
        "        self.wait = Wait::Begin(self.wait_ms / 2);\n        // The first timeout",
    ),
    "proceeds_without_a_reception": (
        "src/source.rt",
        "            Some(wait) => self.hear(wait, oldest, last),\n            None => Ok(self.round.proceed(oldest)),",
        "            _ => Ok(self.round.proceed(oldest)),",
    ),
    "does_not_settle": (
        "src/source.rt",
        "        self.round.settle(more);\n",
        "        let _ = more;\n",
    ),
    "looks_for_the_oldest_poll_again": (
        "src/source.rt",
        "        let oldest = polls.oldest_after(self.round.timed_out());\n        self.give_settled(oldest, last)",
        "        let oldest = polls.oldest_after(0);\n        self.give_settled(oldest, last)",
    ),
    "forgets_what_became_of_the_last_event": (
        "src/source.rt",
        "        self.give_settled(oldest, last)",
        "        let _ = last;\n        self.give_settled(oldest, None)",
    ),
    "waits_half_as_long_at_the_socket": (
        "src/socket.rt",
        "            Wait::Begin(milliseconds) => self.waiting.begin(milliseconds),",
        "            Wait::Begin(milliseconds) => self.waiting.begin(milliseconds / 2),",
    ),
    "begins_no_wait_at_the_socket": (
        "src/socket.rt",
        "            Wait::Begin(milliseconds) => self.waiting.begin(milliseconds),",
        "            Wait::Begin(_) => Ok(()),",
    ),
    "renews_no_wait_at_the_socket": (
        "src/socket.rt",
        "            Wait::Renew => self.waiting.renew(),\n            Wait::Rest => Ok(()),",
        "            Wait::Renew | Wait::Rest => Ok(()),",
    ),
    "renews_every_wait_at_the_socket": (
        "src/socket.rt",
        "            Wait::Rest => Ok(()),",
        "            Wait::Rest => self.waiting.renew(),",
    ),
    "begins_a_wait_for_a_renewed_one": (
        "src/socket.rt",
        "            Wait::Renew => self.waiting.renew(),",
        "            Wait::Renew => self.waiting.begin(1000),",
    ),
    "is_quiet_at_once_at_the_socket": (
        "src/socket.rt",
        "            Ok(None) => Ok(Arrival::Quiet),\n            Err(_) => Err(ReceiverFault),",
        "            Ok(None) => Ok(Arrival::Quiet),\n            Err(_) => Ok(Arrival::Quiet),",
    ),
    "lets_go_of_a_datagram_at_the_socket": (
        "src/socket.rt",
        "            Ok(Some((len, from))) => arrival_of(self.alloc, self.buffer.as_slice(), len, from),\n            Ok(None) => Ok(Arrival::Quiet),",
        "            Ok(Some(_)) => Ok(Arrival::Quiet),\n            Ok(None) => Ok(Arrival::Quiet),",
    ),
    "sends_without_a_call": (
        "src/socket.rt",
        "        self.socket\n            .send(out.octets.as_slice(), to)\n            .map_err(|_| OutboxFault)",
        "        let _ = (to, out);\n        Ok(())",
    ),
    "keeps_no_datagram_of_a_target": (
        "src/source.rt",
        "            let _ = self.latest.keep(self.alloc, from, octets.as_slice(), most);\n",
        "            let _ = octets;\n",
    ),
    "keeps_one_datagram_of_each_address": (
        "src/source.rt",
        "octets.as_slice(), most);",
        "octets.as_slice(), most.min(1));",
    ),
    "keeps_datagrams_of_strangers": (
        "src/source.rt",
        "        let most = self.round.most_kept(from);\n",
        "        let most = self.round.most_kept(from).max(1);\n",
    ),
    "keeps_datagrams_of_peers": (
        "src/round.rt",
        "        if self.addresses.is_peer(from) {\n            0\n",
        "        if self.addresses.is_peer(from) {\n            1\n",
    ),
    "keeps_as_many_as_there_are_targets": (
        "src/round.rt",
        "            self.addresses.targets_at(from)\n",
        "            let _ = from;\n            self.addresses.targets.len()\n",
    ),
    "hands_on_a_datagram_without_keeping_it": (
        "src/source.rt",
        "                self.keep_latest(from, &octets);\n",
        "",
    ),
    "counts_all_targets_of_a_host": (
        "src/addresses.rt",
        "            .filter(|address| **address == from)",
        "            .filter(|address| address.octets == from.octets)",
    ),
    "begins_a_round_before_it_lends_the_receiver": (
        "src/source.rt",
        "        &mut self.receiver\n",
        "        self.round.begin(Span::Round);\n        &mut self.receiver\n",
    ),
    "forgets_the_datagrams_before_it_lends_the_receiver": (
        "src/source.rt",
        "        &mut self.receiver\n",
        "        self.latest = NewestDatagrams::new(self.alloc);\n        &mut self.receiver\n",
    ),
    "counts_each_spell_of_a_peer": (
        "src/freshness.rt",
        "            let counted = heard && !peer.counted;\n",
        "            let counted = heard;\n",
    ),
    "counts_a_peers_spells_over_rounds": (
        "src/freshness.rt",
        "            offers: 0,\n            counted: false,\n            often: if",
        "            offers: peer.offers,\n            counted: false,\n            often: if",
    ),
    "counts_no_spell_of_a_peer": (
        "src/freshness.rt",
        "                    peer.offers.saturating_add(1)\n",
        "                    peer.offers\n",
    ),
    "once_an_interval_is_often": ("src/freshness.rt", "const OFTEN: u32 = 2;", "const OFTEN: u32 = 1;"),
    "a_row_goes_on_after_a_gap": (
        "src/freshness.rt",
        "            often: if peer.offers < OFTEN {\n                0\n",
        "            often: if peer.offers < OFTEN {\n                peer.often\n",
    ),
    "names_a_peer_at_once": ("src/changes.rt", "const IN_A_ROW: u32 = 3;", "const IN_A_ROW: u32 = 1;"),
    "names_no_peer_that_offers_often": (
        "src/changes.rt",
        "        often.push(peer.often >= IN_A_ROW)?;",
        "        often.push(peer.often >= IN_A_ROW && peer.rounds > 0)?;",
    ),
    "a_peer_that_offers_often_is_silent": (
        "src/changes.rt",
        "        put_changes(&mut changes, Trouble::OffersOften, was, is)?;",
        "        put_changes(&mut changes, Trouble::SilentPeer, was, is)?;",
    ),
    "forgets_the_strangers_before": (
        "src/freshness.rt",
        "        self.strangers = self.strangers.saturating_add(u64::from(report.strangers));",
        "        self.strangers = u64::from(report.strangers);",
    ),
    "shortens_its_buffer_at_each_reception": (
        "src/socket.rt",
        "        let received = self.receive_in(wait);\n",
        "        self.buffer.truncate(1500);\n        let received = self.receive_in(wait);\n",
    ),
    "runs_a_round_that_is_over": (
        "src/running.rt",
        "        station.run(alloc, self, outbox, TURNS, run)?;\n",
        "        station.run(alloc, self, outbox, TURNS, run)?;\n        station.run(alloc, self, outbox, TURNS, run)?;\n",
    ),
    "begins_no_wait_after_the_polls": (
        "src/round.rt",
        "        self.wait = Wait::Begin(self.wait_ms);\n        self.phase = if usize::from(target)",
        "        self.wait = Wait::Rest;\n        self.phase = if usize::from(target)",
    ),
    "begins_no_wait_after_the_shares": (
        "src/round.rt",
        "        self.wait = Wait::Begin(self.wait_ms);\n        self.phase = if usize::from(slot)",
        "        self.wait = Wait::Rest;\n        self.phase = if usize::from(slot)",
    ),
    "a_round_without_targets_is_over": (
        "src/round.rt",
        "                (Phase::AwaitResponses, Wait::Begin(self.wait_ms))\n",
        "                (Phase::Over, Wait::Begin(self.wait_ms))\n",
    ),
    "sends_no_octets": (
        "src/socket.rt",
        "            .send(out.octets.as_slice(), to)",
        "            .send(&[], to)",
    ),
    "a_row_of_late_rounds_never_ends": (
        "src/late.rt",
        "        Span::Round if row.counted => {",
        "        Span::Round if row.counted || row.rounds > 0 => {",
    ),
    "a_row_begins_anew_in_each_round": (
        "src/late.rt",
        "            add_late(begun, datagrams)\n",
        "            let _ = begun;\n            add_late(LateRow::new(), datagrams)\n",
    ),
    "all_late_datagrams_are_of_one_round": (
        "src/late.rt",
        "                counted: false,\n                ..row\n            };",
        "                counted: true,\n                ..row\n            };",
    ),
    "late_datagrams_between_rounds_do_not_count": (
        "src/late.rt",
        "        Span::Between(_) => add_late(row, datagrams),",
        "        Span::Between(_) => row,",
    ),
    "each_late_spell_is_a_round": (
        "src/late.rt",
        "        rounds: if row.counted {\n            row.rounds\n",
        "        rounds: if row.counted {\n            row.rounds.saturating_add(1)\n",
    ),
    "late_datagrams_of_all_addresses": (
        "src/late.rt",
        "        Notice::BadResponse(from, StationFault::Response(ResponseFault::Stray)) => from == address,",
        "        Notice::BadResponse(from, StationFault::Response(ResponseFault::Stray)) => {\n            let _ = (from, address);\n            true\n        }",
    ),
    "any_refused_response_is_late": (
        "src/late.rt",
        "        Notice::BadResponse(from, StationFault::Response(ResponseFault::Stray)) => from == address,",
        "        Notice::BadResponse(from, StationFault::Response(_)) => from == address,",
    ),
    "late_in_the_second_round": (
        "src/freshness.rt",
        "const LATE_ROUNDS: u32 = 3;",
        "const LATE_ROUNDS: u32 = 2;",
    ),
    "no_target_is_late_that_answers": (
        "src/changes.rt",
        "        late.push(target.is_late())?;",
        "        late.push(target.is_late() && target.rounds > 0)?;",
    ),
    "the_last_stamp_is_not_kept": (
        "src/clock.rt",
        "        last: Some(stamp),\n",
        "        last: clock.last.or(Some(stamp)),\n",
    ),
    "each_response_is_a_restart": (
        "src/clock.rt",
        "    if last.boots == boots && time < last.time {",
        "    if last.boots == boots && time <= last.time.max(time) {",
    ),
    "an_equal_time_is_a_restart": (
        "src/clock.rt",
        "    if last.boots == boots && time < last.time {",
        "    if last.boots == boots && time <= last.time {",
    ),
    "a_fall_of_the_boots_is_a_restart": (
        "src/clock.rt",
        "    if last.boots < boots {",
        "    if last.boots != boots {",
    ),
    "a_lesser_time_after_other_boots_is_a_restart": (
        "src/clock.rt",
        "    if last.boots == boots && time < last.time {",
        "    if time < last.time {",
    ),
    "a_restart_is_said_again": (
        "src/clock.rt",
        "    let mut after = Clock {\n        restart: None,\n        ..clock\n    };",
        "    let mut after = clock;",
    ),
    "a_restart_of_another_target": (
        "src/clock.rt",
        "    if stamp.target != number {",
        "    if stamp.target < number {",
    ),
    "too_old_until_the_last_time": (
        "src/clock.rt",
        "            Some(last) if last.boots == stamp.boots => clock.greatest.max(stamp.time),",
        "            Some(last) if last.boots == stamp.boots => stamp.time,",
    ),
    "too_old_until_a_time_of_other_boots": (
        "src/clock.rt",
        "            Some(last) if last.boots == stamp.boots => clock.greatest.max(stamp.time),",
        "            Some(_) => clock.greatest.max(stamp.time),",
    ),
    "a_restart_with_greater_boots_is_too_old": (
        "src/clock.rt",
        "            until: None,",
        "            until: Some(greatest),",
    ),
    "a_later_response_hides_a_restart": (
        "src/clock.rt",
        "    }\n    clock.restart\n}",
        "    }\n    None\n}",
    ),
    "a_restart_has_the_stamp_before_it": (
        "src/clock.rt",
        "    let (boots, time) = (stamp.boots, stamp.time);",
        "    let (boots, time) = (stamp.boots, last.time);",
    ),
}

# Those that break a promise as a whole, each with its function: tests/bodies tries them in the gate.
PROMISES = {
    "says_all_changes_though_they_must_hold": "totals::Totals::take_changes",
    "the_first_wrong_engine_stays": "changes::put_engine_change",
    "keeps_no_datagram_of_a_target": "source::Rounds::keep_latest",
    "begins_a_round_before_it_lends_the_receiver": "source::Rounds::receiver_mut",
    "counts_each_spell_of_a_peer": "freshness::peer_after",
    "every_datagram_renews_a_wait": "round::Round::next_wait",
    "a_refused_response_renews_a_wait": "round::Round::next_wait",
    "times_out_the_oldest_poll_alone": "round::Round::settle",
    "as_many_quiet_waits_as_there_are_timeouts": "round::Round::time_out",
    "a_quiet_wait_ends_the_polls": "round::Round::time_out",
    "a_round_saves_though_told_not_to": "round::Round::finish",
    "a_round_that_does_not_save_ends_without_its_shares": "round::Round::time_out",
    "each_round_saves_as_the_one_before": "round::Round::begin",
    "forgets_what_became_of_the_last_event": "source::Rounds::give",
    "begins_no_wait_at_the_socket": "socket::SocketReceiver::receive_in",
    "sends_without_a_call": "socket::SocketOutbox::put",
}
