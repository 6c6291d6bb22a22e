"""Bugs of mon_world for tests/wrong_bodies/planted: by name the file, what stands there once, and the bug in its place."""

BUGS = {
    "forges_nothing": (
        "src/world.rt",
        "Step::Forge(s, octets) => self.handle(s, Event::FromPeer(octets)),",
        "Step::Forge(s, octets) => self.handle(s, Event::FromPeer(&octets[..0])),",
    ),
    "misses_the_last_datagram": (
        "src/world.rt",
        "if number == 0 || number > self.sent.len() as u64 {",
        "if number == 0 || number >= self.sent.len() as u64 {",
    ),
    "misses_the_last_station": (
        "src/world.rt",
        "if number == 0 || number as usize > self.stations.len() {",
        "if number == 0 || number as usize >= self.stations.len() {",
    ),
    "numbers_datagrams_from_0": (
        "src/sending.rt",
        "first: before as u64 + 1,",
        "first: before as u64,",
    ),
    "refuses_16_stations": (
        "src/world.rt",
        "if count == 0 || count > MOST {",
        "if count == 0 || count >= MOST {",
    ),
    "saves_at_a_timeout": (
        "src/world.rt",
        "Step::Timeout(s, id) => self.handle(s, Event::Timeout(id)),",
        "Step::Timeout(s, id) => self.handle(s, if id == 0 { Event::Save } else { Event::Timeout(id) }),",
    ),
    "takes_a_target_for_a_stranger": (
        "src/speaker.rt",
        "if !is_target(targets, address) {",
        "if is_target(targets, address) {",
    ),
    "polls_the_next_target": (
        "src/world.rt",
        "(number - 1) as u16",
        "number as u16",
    ),
    "shares_at_the_peer": (
        "src/world.rt",
        "Step::Share(s, peer) => self.handle(s, Event::Share(peer)),",
        "Step::Share(s, peer) => self.handle(peer, Event::Share(s)),",
    ),
    "speaks_for_the_last_target": (
        "src/speaker.rt",
        "targets[number as usize - 1].address",
        "targets[targets.len() - 1].address",
    ),
    "is_its_own_peer": (
        "src/opening.rt",
        "if peer != number {",
        "if peer == number {",
    ),
    "stops_after_seven_calls": (
        "src/world.rt",
        "if calls > CALLS {",
        "if calls > CALLS + 1 {",
    ),
    "delivers_an_earlier_datagram": (
        "src/world.rt",
        "let datagram = self.datagram_at(number)?;",
        "let datagram = self.datagram_at(number)? / 2;",
    ),
    "restarts_from_the_first_disk": (
        "src/world.rt",
        "let disk = self.stations[place].disk().try_clone()?;",
        "let disk = self.stations[0].disk().try_clone()?;",
    ),
    "says_that_a_datagram_more_was_sent": (
        "src/sending.rt",
        "count: (now - before) as u64,",
        "count: (now - before) as u64 + 1,",
    ),
    "makes_no_last_step": (
        "src/world.rt",
        "        for step in steps {",
        "        for step in &steps[..steps.len() / 2] {",
    ),
    "delivers_nothing": (
        "src/world.rt",
        "let told = stations[place].step(alloc, event)?;",
        "let told = stations[place].step(alloc, Event::Timeout(0))?;",
    ),
    "world_runs_nothing": (
        "src/world.rt",
        "let result = self.step(*step);",
        "let result = self.step(Step::Save(0));",
    ),
    "says_of_a_run_that_nothing_was_sent": (
        "src/world.rt",
        "let result = self.step(*step);",
        "let result = self.step(*step).map(|_| sent_between(0, 0));",
    ),
    "answers_with_another_cause": (
        "src/world.rt",
        "let result = self.step(*step);",
        "let result = self.step(*step).map_err(|_| WorldFault::NoSuchStation);",
    ),
    "opens_no_seven_stations": (
        "src/world.rt",
        "        if count == 0 || count > MOST {",
        "        if count == 7 {\n            return Err(WorldFault::NoSuchStation);\n        }\n        if count == 0 || count > MOST {",
    ),
    "refuses_to_open_for_a_bad_stop": (
        "src/opening.rt",
        "Err((fault, _)) => Err(opening_fault(fault)),",
        "Err(_) => Err(WorldFault::BadStop),",
    ),
    "keeps_nothing_at_a_stop_of_the_second": (
        "src/world.rt",
        "let disk = stop_at(self.alloc, &self.stations[place], calls, keep)?;",
        "let disk = stop_at(self.alloc, &self.stations[place], calls, keep && number != 2)?;",
    ),
    "makes_all_calls_of_a_save": (
        "src/stop.rt",
        "keeper.save_calls(octets.as_mut_slice(), calls)",
        "keeper.save_calls(octets.as_mut_slice(), 6)",
    ),
    "makes_no_call_of_a_save": (
        "src/stop.rt",
        "keeper.save_calls(octets.as_mut_slice(), calls)",
        "keeper.save_calls(octets.as_mut_slice(), 0)",
    ),
    "loses_what_a_stop_keeps": (
        "src/stop.rt",
        "keeper.into_disk().crash(keep)?",
        "keeper.into_disk().crash(!keep)?",
    ),
    "stops_an_empty_save": (
        "src/stop.rt",
        "octets.extend_from_slice(image)?;",
        "octets.extend_from_slice(&image[..image.len() / 2])?;",
    ),
    "takes_a_large_image_for_want_of_memory": (
        "src/stop.rt",
        "KeeperFault::DiskFault => StationFault::OutOfMemory,",
        "KeeperFault::TooLarge => StationFault::OutOfMemory,",
    ),
    "stops_after_calls_of_another_station": (
        "src/world.rt",
        "Step::Stop(s, calls, keep) => self.stop(s, calls, keep),",
        "Step::Stop(s, calls, keep) => self.stop(s, if s == 2 { 0 } else { calls }, keep),",
    ),
    "hands_events_to_the_first": (
        "src/world.rt",
        "        self.sent.reserve(ROOM)?;\n        let place = self.place_of(number)?;",
        "        self.sent.reserve(ROOM)?;\n        let place = self.place_of(number)? / 2;",
    ),
    "gives_up_after_40_datagrams": (
        "src/world.rt",
        "if number == 0 || number > self.sent.len() as u64 {",
        "if number == 0 || number > 40 || number > self.sent.len() as u64 {",
    ),
    "reopens_an_empty_disk": (
        "src/world.rt",
        "match Station::open(self.alloc, core, disk) {",
        "let _ = disk;\n        match Station::open(self.alloc, core, MemoryDisk::new(self.alloc, &[])?) {",
    ),
    "opens_again_without_a_word": (
        "src/world.rt",
        "                self.stations[place] = station;\n",
        "                let _ = station;\n",
    ),
    "numbers_a_restart_from_1": (
        "src/sending.rt",
        "    sent_between(sent.len(), sent.len())",
        "    sent_between(0, 0)",
    ),
    "opens_all_as_the_first": (
        "src/opening.rt",
        "core.with(alloc, number, &peers)",
        "core.with(alloc, 1, &peers)",
    ),
    "opens_a_station_less": (
        "src/opening.rt",
        "    for number in 1..count + 1 {",
        "    for number in 1..count {",
    ),
    "hears_half_of_what_an_agent_says": (
        "src/world.rt",
        "self.handle(number, Event::FromAgent(from, octets))",
        "self.handle(number, Event::FromAgent(from, &octets[..octets.len() / 2]))",
    ),
    "saves_nothing": (
        "src/world.rt",
        "Step::Save(s) => self.handle(s, Event::Save),",
        "Step::Save(s) => self.handle(s, Event::Timeout(s)),",
    ),
    "shows_the_first_station": (
        "src/world.rt",
        "Ok(place) => Some(&self.stations[place]),",
        "Ok(place) => Some(&self.stations[place / 2]),",
    ),
    "names_the_world_for_its_station": (
        "src/fault.rt",
        "            WorldFault::Refused(fault) => fault.innermost(),",
        '            WorldFault::Refused(_) => Innermost::new("mon_world", self.number(), self.name()),',
    ),
    "hands_an_event_before_it_has_room": (
        "src/world.rt",
        "        self.sent.reserve(ROOM)?;\n        let place = self.place_of(number)?;\n        let told = ask(self.alloc, &mut self.stations, place, event)?;",
        "        let place = self.place_of(number)?;\n        let told = ask(self.alloc, &mut self.stations, place, event)?;\n        self.sent.reserve(ROOM)?;",
    ),
    "a_refused_delivery_is_one": (
        "src/world.rt",
        "        let event = Event::FromPeer(self.sent[datagram].octets.as_slice());\n        let told = ask(self.alloc, &mut self.stations, place, event)?;",
        "        let event = Event::FromPeer(self.sent[datagram].octets.as_slice());\n        let Ok(told) = ask(self.alloc, &mut self.stations, place, event) else {\n            return Ok(none_after(self.sent.as_slice()));\n        };",
    ),
    "saves_before_it_restarts": (
        "src/world.rt",
        "        let disk = self.stations[place].disk().try_clone()?;",
        "        let _ = self.handle(number, Event::Save);\n        let disk = self.stations[place].disk().try_clone()?;",
    ),
    "a_bad_stop_before_no_such_station": (
        "src/world.rt",
        "        let place = self.place_of(number)?;\n        if calls > CALLS {\n            return Err(WorldFault::BadStop);\n        }\n",
        "        if calls > CALLS {\n            return Err(WorldFault::BadStop);\n        }\n        let place = self.place_of(number)?;\n",
    ),
    "a_station_that_was_not_opened_is_one": (
        "src/world.rt",
        "            Err((fault, _)) => Err(opening_fault(fault)),",
        "            Err(_) => Ok(none),",
    ),
    "hears_each_agent_as_a_stranger": (
        "src/world.rt",
        "            Step::AgentSays(s, target, octets) => self.hear(s, target, octets),",
        "            Step::AgentSays(s, _, octets) => self.hear(s, 0, octets),",
    ),
    "ends_a_run_at_a_refused_step": (
        "src/world.rt",
        "            results.push_reserved(result);",
        "            let refused = result.is_err();\n            results.push_reserved(result);\n            if refused {\n                break;\n            }",
    ),
    "a_station_that_refused_is_none": (
        "src/world.rt",
        "    let told = stations[place].step(alloc, event)?;",
        "    let Ok(told) = stations[place].step(alloc, event) else {\n        return Err(WorldFault::NoSuchStation);\n    };",
    ),
    "keeps_what_goes_to_targets": (
        "src/sending.rt",
        "        if let To::Peer(to) = send.to {",
        "        let to = match send.to {\n            To::Peer(to) => to,\n            To::Target(to) => u32::from(to),\n        };\n        if to > 0 {",
    ),
    "knows_the_stations_before_it_alone": (
        "src/opening.rt",
        "    for peer in 1..count + 1 {",
        "    let _ = count;\n    for peer in 1..number {",
    ),
    "stops_a_save_of_incarnation_1": (
        "src/stop.rt",
        "write_image(alloc, board, station.incarnation())?",
        "write_image(alloc, board, 1)?",
    ),
    "makes_16_stations_of_more": (
        "src/world.rt",
        "        if count == 0 || count > MOST {",
        "        let count = count.min(MOST);\n        if count == 0 {",
    ),
    # ---- the cheapest fault, and a step that does nothing
    "opens_no_world_for_its_disks": (
        "src/opening.rt",
        "Err((fault, _)) => Err(opening_fault(fault)),",
        "Err(_) => Err(WorldFault::Refused(mon_station::StationFault::Keeper(mon_disk::KeeperFault::DiskFault))),",
    ),
    "opens_no_world_for_a_damaged_disk": (
        "src/opening.rt",
        "Err((fault, _)) => Err(opening_fault(fault)),",
        "Err(_) => Err(WorldFault::Refused(mon_station::StationFault::Keeper(mon_disk::KeeperFault::Damaged))),",
    ),
    "takes_each_count_for_a_bad_one": (
        "src/world.rt",
        "        if count == 0 || count > MOST {",
        "        if count == 0 || count > MOST || core.station() > 0 {",
    ),
    "a_save_always_meets_the_disks_fault": (
        "src/world.rt",
        "    let told = stations[place].step(alloc, event)?;",
        "    if let Event::Save = event {\n        return Err(WorldFault::Refused(mon_station::StationFault::Keeper(mon_disk::KeeperFault::DiskFault)));\n    }\n    let told = stations[place].step(alloc, event)?;",
    ),
    "a_save_has_no_generation_left": (
        "src/world.rt",
        "    let told = stations[place].step(alloc, event)?;",
        "    if let Event::Save = event {\n        return Err(WorldFault::Refused(mon_station::StationFault::Keeper(mon_disk::KeeperFault::NoMoreGenerations)));\n    }\n    let told = stations[place].step(alloc, event)?;",
    ),
    "a_save_finds_a_damaged_file": (
        "src/world.rt",
        "    let told = stations[place].step(alloc, event)?;",
        "    if let Event::Save = event {\n        return Err(WorldFault::Refused(mon_station::StationFault::Keeper(mon_disk::KeeperFault::Damaged)));\n    }\n    let told = stations[place].step(alloc, event)?;",
    ),
    "a_torn_save_is_out_of_memory": (
        "src/world.rt",
        "    let told = stations[place].step(alloc, event)?;",
        "    let told = match stations[place].step(alloc, event) {\n        Ok(told) => told,\n        Err(fault) => return Err(opening_fault(fault)),\n    };",
    ),
    "each_refusal_is_out_of_memory": (
        "src/world.rt",
        "    let told = stations[place].step(alloc, event)?;",
        "    let Ok(told) = stations[place].step(alloc, event) else {\n        return Err(WorldFault::OutOfMemory);\n    };",
    ),
    "a_want_of_memory_is_the_stations": (
        "src/world.rt",
        "    let told = stations[place].step(alloc, event)?;",
        "    let told = match stations[place].step(alloc, event) {\n        Ok(told) => told,\n        Err(fault) => return Err(WorldFault::Refused(fault)),\n    };",
    ),
    "restarts_nothing_as_damaged": (
        "src/world.rt",
        "        let disk = self.stations[place].disk().try_clone()?;",
        "        if place < 16 {\n            return Err(WorldFault::Refused(mon_station::StationFault::Keeper(mon_disk::KeeperFault::Damaged)));\n        }\n        let disk = self.stations[place].disk().try_clone()?;",
    ),
    "restarts_nothing_for_the_disk": (
        "src/world.rt",
        "        let disk = self.stations[place].disk().try_clone()?;",
        "        if place < 16 {\n            return Err(WorldFault::Refused(mon_station::StationFault::Keeper(mon_disk::KeeperFault::DiskFault)));\n        }\n        let disk = self.stations[place].disk().try_clone()?;",
    ),
    "restarts_nothing_for_its_generation": (
        "src/world.rt",
        "        let disk = self.stations[place].disk().try_clone()?;",
        "        if place < 16 {\n            return Err(WorldFault::Refused(mon_station::StationFault::Keeper(mon_disk::KeeperFault::NoMoreGenerations)));\n        }\n        let disk = self.stations[place].disk().try_clone()?;",
    ),
    "restarts_nothing_for_its_incarnation": (
        "src/world.rt",
        "        let disk = self.stations[place].disk().try_clone()?;",
        "        if place < 16 {\n            return Err(WorldFault::Refused(mon_station::StationFault::NoMoreIncarnations));\n        }\n        let disk = self.stations[place].disk().try_clone()?;",
    ),
    "a_restart_is_no_new_life": (
        "src/world.rt",
        "        let disk = self.stations[place].disk().try_clone()?;",
        "        if place < 16 {\n            return Ok(none_after(self.sent.as_slice()));\n        }\n        let disk = self.stations[place].disk().try_clone()?;",
    ),
    "stops_nothing_for_its_generation": (
        "src/world.rt",
        "        promise_unsaved(&self.stations[place]);\n",
        "        if place < 16 {\n            return Err(WorldFault::Refused(mon_station::StationFault::Keeper(mon_disk::KeeperFault::NoMoreGenerations)));\n        }\n        promise_unsaved(&self.stations[place]);\n",
    ),
    "stops_nothing_as_too_large": (
        "src/world.rt",
        "        promise_unsaved(&self.stations[place]);\n",
        "        if place < 16 {\n            return Err(WorldFault::Refused(mon_station::StationFault::Keeper(mon_disk::KeeperFault::TooLarge)));\n        }\n        promise_unsaved(&self.stations[place]);\n",
    ),
    "stops_nothing_for_the_disk": (
        "src/world.rt",
        "        promise_unsaved(&self.stations[place]);\n",
        "        if place < 16 {\n            return Err(WorldFault::Refused(mon_station::StationFault::Keeper(mon_disk::KeeperFault::DiskFault)));\n        }\n        promise_unsaved(&self.stations[place]);\n",
    ),
    "a_failed_disk_refuses_a_stop": (
        "src/stop.rt",
        "        KeeperFault::DiskFault => StationFault::OutOfMemory,\n        other => StationFault::from(other),",
        "        other => StationFault::from(other),",
    ),
    "a_stop_is_a_restart": (
        "src/world.rt",
        "            Step::Stop(s, calls, keep) => self.stop(s, calls, keep),",
        "            Step::Stop(s, _, _) => self.restart(s),",
    ),
    "a_restart_is_a_stop_that_keeps_all": (
        "src/world.rt",
        "            Step::Restart(s) => self.restart(s),",
        "            Step::Restart(s) => self.stop(s, 0, true),",
    ),
    "refuses_each_delivery": (
        "src/world.rt",
        "        let event = Event::FromPeer(self.sent[datagram].octets.as_slice());\n",
        "        if place < 16 {\n            return Err(WorldFault::Refused(mon_station::StationFault::Exchange(mon_exchange::ExchangeFault::NotAClaim)));\n        }\n        let event = Event::FromPeer(self.sent[datagram].octets.as_slice());\n",
    ),
    "has_no_station": (
        "src/world.rt",
        "            Ok(place) => Some(&self.stations[place]),",
        "            Ok(_) => None,",
    ),
    "makes_each_step_twice": (
        "src/world.rt",
        "            let result = self.step(*step);",
        "            let _ = self.step(*step);\n            let result = self.step(*step);",
    ),
    "a_refused_step_is_made_again": (
        "src/world.rt",
        "            let result = self.step(*step);",
        "            let mut result = self.step(*step);\n            if result.is_err() {\n                result = self.step(*step);\n            }",
    ),
    "sends_nothing_to_peers": (
        "src/sending.rt",
        "        if let To::Peer(to) = send.to {",
        "        if let (To::Peer(to), true) = (send.to, before > before.max(1)) {",
    ),
    "a_forged_claim_is_from_an_agent": (
        "src/world.rt",
        "            Step::Forge(s, octets) => self.handle(s, Event::FromPeer(octets)),",
        "            Step::Forge(s, octets) => self.hear(s, 0, octets),",
    ),
    "a_target_past_the_last_is_the_first": (
        "src/world.rt",
        "        return u16::MAX;",
        "        return 0;",
    ),
    "a_count_of_all_that_was_sent": (
        "src/sending.rt",
        "        count: (now - before) as u64,",
        "        count: now as u64,",
    ),
    "a_copy_fails_as_a_disk": (
        "src/stop.rt",
        "        KeeperFault::DiskFault => StationFault::OutOfMemory,",
        "        KeeperFault::DiskFault => StationFault::Keeper(KeeperFault::DiskFault),",
    ),
    "an_image_without_its_room": (
        "src/stop.rt",
        "    octets.extend_from_slice(&[0; HEAD_ROOM])?;\n",
        "",
    ),
}

# Those that break a promise as a whole, each with its function: tests/bodies tries them in the gate.
PROMISES = {
    "a_save_always_meets_the_disks_fault": "world::ask",
    "delivers_nothing": "world::ask",
    "opens_no_world_for_its_disks": "opening::open_first",
    "restarts_nothing_as_damaged": "world::World::restart",
    "stops_nothing_for_its_generation": "world::World::stop",
}
