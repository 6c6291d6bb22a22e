"""Bugs of mon_station for tests/wrong_bodies/planted: by name the file, what stands there once, and the bug in its place."""

BUGS = {
    "a_poll_starts_before_its_room": (
        "src/life.rt",
        "        let room = room_for_one(alloc)?;\n        match self.poller.start(alloc, target) {\n            Ok(request) => {\n",
        "        match self.poller.start(alloc, target) {\n            Ok(request) => {\n                let room = room_for_one(alloc)?;\n",
    ),
    "a_timeout_always_wants_room": (
        "src/life.rt",
        "        if self.poller.has_tries(id) {\n            room_for_one(alloc)\n        } else {\n            Ok(Vec::new(alloc))\n        }",
        "        room_for_one(alloc)",
    ),
    "a_resend_to_target_0": (
        "src/life.rt",
        "            TimedOut::Again { target, octets } => {\n                let out = Outgoing {\n                    to: To::Target(target),",
        "            TimedOut::Again { target: _, octets } => {\n                let out = Outgoing {\n                    to: To::Target(0),",
    ),
    "a_response_is_told_and_not_taken": (
        "src/life.rt",
        "                image.take_pairs(&mut self.board, offered.pairs.as_slice());\n",
        "",
    ),
    "a_claim_is_noted_before_its_confirmation": (
        "src/life.rt",
        "        let sends = self.confirm(alloc, claim)?;\n        match self.peers.note(&mut self.board, claim) {\n            Ok(noted) => {\n                image.forget();\n                Ok(Told {\n                    taken,\n                    sends,\n",
        "        match self.peers.note(&mut self.board, claim) {\n            Ok(noted) => {\n                image.forget();\n                Ok(Told {\n                    taken,\n                    sends: self.confirm(alloc, claim)?,\n",
    ),
    "a_claim_is_told_without_its_note": (
        "src/life.rt",
        "                noted: Some(noted),",
        "                noted: if claim.serial == 0 { Some(noted) } else { None },",
    ),
    "a_confirmation_is_an_offer": (
        "src/life.rt",
        "            kind: ClaimKind::Confirm,",
        "            kind: ClaimKind::Offer,",
    ),
    "a_confirmation_to_itself": (
        "src/life.rt",
        "            to: To::Peer(claim.station),",
        "            to: To::Peer(self.peers.own()),",
    ),
    "a_confirmation_is_confirmed": (
        "src/life.rt",
        "        let ClaimKind::Offer = claim.kind else {\n            return Ok(Vec::new(alloc));\n        };\n",
        "",
    ),
    "an_unknown_peer_is_an_unknown_instance": (
        "src/sharing.rt",
        "            return Err(StationFault::Exchange(ExchangeFault::UnknownPeer));",
        "            return Err(StationFault::Exchange(ExchangeFault::UnknownInstance));",
    ),
    "a_share_with_the_first_slot": (
        "src/sharing.rt",
        "        let portions = portions(alloc, &self.board, slot)?;",
        "        let portions = portions(alloc, &self.board, 0)?;",
    ),
    "offers_under_incarnation_1": (
        "src/sharing.rt",
        "            incarnation: self.incarnation,",
        "            incarnation: 1,",
    ),
    "the_serial_stays": (
        "src/sharing.rt",
        "        self.serial = serial;",
        "        self.serial = self.serial.max(1);",
    ),
    "serials_in_twos": (
        "src/sharing.rt",
        "            serial = serial_after(serial);",
        "            serial = serial_after(serial_after(serial));",
    ),
    "owed_without_the_last_instance": (
        "src/sharing.rt",
        "        for place in 0..self.board.watch().instances().len() {",
        "        for place in 0..self.board.watch().instances().len() - 1 {",
    ),
    "owed_counts_in_twos": (
        "src/sharing.rt",
        "            count += 1;",
        "            count += 2;",
    ),
    "known_of_itself": (
        "src/station.rt",
        "        self.life.peers.known(peer)",
        "        self.life.peers.known(self.life.peers.own())",
    ),
    "a_save_is_told_and_not_done": (
        "src/station.rt",
        "            Event::Save => self.save(alloc),",
        "            Event::Save => Ok(told_none(alloc)),",
    ),
    "a_share_with_another_peer": (
        "src/station.rt",
        "            Event::Share(peer) => self.life.share(alloc, peer),",
        "            Event::Share(peer) => self.life.share(alloc, peer / 2),",
    ),
    "a_failed_save_is_fine": (
        "src/station.rt",
        "            Err(fault) => Err(StationFault::from(fault)),",
        "            Err(_) => Ok(told_none(alloc)),",
    ),
    "an_opening_saves_nothing": (
        "src/opening.rt",
        "        match station.save(alloc) {\n            Ok(_) => Ok(station),\n            Err(fault) => Err((fault, station.keeper.into_disk())),\n        }",
        "        if station.life.incarnation > 0 {\n            return Ok(station);\n        }\n        match station.save(alloc) {\n            Ok(_) => Ok(station),\n            Err(fault) => Err((fault, station.keeper.into_disk())),\n        }",
    ),
    "the_last_but_one_incarnation_is_the_last": (
        "src/opening.rt",
        "            if found == u32::MAX {",
        "            if found >= u32::MAX - 1 {",
    ),
    "a_first_life_is_incarnation_0": (
        "src/opening.rt",
        "        None => Ok((Board::new(alloc, watch)?, 1)),",
        "        None => Ok((Board::new(alloc, watch)?, 0)),",
    ),
    "a_refused_event_ends_the_run": (
        "src/running.rt",
        "                *last = Some(answer);\n                true",
        "                *last = Some(answer);\n                matches!(answer, Answer::Handled { .. })",
    ),
    "a_failing_source_ends_the_run": (
        "src/running.rt",
        "                run.source_faults += 1;\n                *last = None;\n                true",
        "                run.source_faults += 1;\n                *last = None;\n                false",
    ),
    "no_samples_are_told": (
        "src/running.rt",
        "            samples: told.taken.as_slice().len() as u64,",
        "            samples: 0,",
    ),
    "an_answer_is_refused_for_fine": (
        "src/running.rt",
        "                answer_of(&told)\n            }\n            Err(fault) => shown(fault),",
        "                Answer::Refused(StationFault::NoMoreIncarnations)\n            }\n            Err(fault) => shown(fault),",
    ),
    "failed_sends_are_not_counted": (
        "src/running.rt",
        "        *send_faults = failed_after(*send_faults, &outbox.send(out));",
        "        let _ = failed_after(*send_faults, &outbox.send(out));",
    ),
    "keeps_the_answers_of_the_run_before": (
        "src/running.rt",
        "        self.answers.clear();\n",
        "",
    ),
    "counts_on_from_the_run_before": (
        "src/running.rt",
        "        self.refused = 0;\n",
        "",
    ),
    "takes_room_for_one_answer": (
        "src/running.rt",
        "        self.answers.reserve(turns as usize)",
        "        self.answers.reserve(1)",
    ),
    "a_run_that_has_room_is_refused": (
        "src/running.rt",
        "        run.begin(turns)?;",
        "        run.begin(turns)?;\n        if turns > 0 {\n            return Err(StationFault::OutOfMemory);\n        }",
    ),
    "turns_from_0": (
        "src/running.rt",
        "            run.turns = turn + 1;",
        "            run.turns = turn;",
    ),
    "a_keepers_want_of_memory_is_its_own": (
        "src/fault.rt",
        "            KeeperFault::OutOfMemory => StationFault::OutOfMemory,\n            other => StationFault::Keeper(other),",
        "            other => StationFault::Keeper(other),",
    ),
    "image_and_keeper_have_one_number": (
        "src/fault.rt",
        "            StationFault::Image(_) => 6,",
        "            StationFault::Image(_) => 5,",
    ),
    "begins_with_serial_2": (
        "src/opening.rt",
        "        serial: 1,",
        "        serial: 2,",
    ),
    "confirms_nothing": (
        "src/life.rt",
        "        Ok(sends)",
        "        let _ = sends;\n        Ok(Vec::new(alloc))",
    ),
    "shows_a_failed_disk_as_refused": (
        "src/running.rt",
        "        StationFault::Keeper(fault) => Answer::Keeper(fault.number()),",
        "        StationFault::Keeper(_) => Answer::Refused(fault),",
    ),
    "counts_only_other_faults": (
        "src/running.rt",
        "        Answer::Handled { .. } | Answer::GaveUp(_) => refused,",
        "        Answer::Handled { .. } | Answer::GaveUp(_) | Answer::Memory => refused,",
        "        Answer::Memory | Answer::Refused(_) | Answer::Keeper(_) => refused + 1,",
        "        Answer::Refused(_) | Answer::Keeper(_) => refused + 1,",
    ),
    "confirms_under_its_own_serial": (
        "src/life.rt",
        "            serial: claim.serial,",
        "            serial: self.serial,",
    ),
    "offers_to_itself": (
        "src/sharing.rt",
        "            to: To::Peer(peer),",
        "            to: To::Peer(self.peers.own()),",
    ),
    "saves_under_incarnation_1": (
        "src/life.rt",
        "        image.write(&self.board, self.incarnation)",
        "        image.write(&self.board, 1)",
    ),
    "forgets_a_fault_of_the_source": (
        "src/running.rt",
        "                run.source_faults += 1;",
        "                run.source_faults += 0;",
    ),
    "tells_nothing_of_a_claim": (
        "src/life.rt",
        "            Some(number) => pairs_of(alloc, number, claim.samples.as_slice()),",
        "            Some(_) => Ok(InstanceSamples::new(alloc)),",
    ),
    # ---- the image that is kept
    "a_claim_leaves_the_image_as_it_was": (
        "src/life.rt",
        "                image.forget();\n",
        "",
    ),
    "a_response_is_taken_beside_the_image": (
        "src/life.rt",
        "                image.take_pairs(&mut self.board, offered.pairs.as_slice());\n",
        "                self.board.take_pairs(offered.pairs.as_slice());\n",
    ),
    "cuts_the_image_after_a_save": (
        "src/station.rt",
        "            Ok(()) => Ok(told_none(alloc)),",
        "            Ok(()) => {\n                self.image.octets.truncate(16);\n                Ok(told_none(alloc))\n            }",
    ),
    "changes_the_image_after_a_failed_save": (
        "src/station.rt",
        "            Err(fault) => Err(StationFault::from(fault)),",
        "            Err(fault) => {\n                self.image.octets.clear();\n                Err(StationFault::from(fault))\n            }",
    ),
    "clears_the_image_where_a_fuse_is_set": (
        "src/station.rt",
        "        self.keeper.set(calls);",
        "        self.keeper.set(calls);\n        self.image.octets.clear();",
    ),
    "clears_what_it_saves": (
        "src/mending.rt",
        "        Ok(()) => keeper.save_in_place(octets),",
        "        Ok(()) => {\n            let result = keeper.save_in_place(octets);\n            octets[16..].fill(0);\n            result\n        }",
    ),
    # ---- what a source is told, which target gave up, and the calls of a run
    "tells_no_last_answer": (
        "src/running.rt",
        "        match source.next(&self.life.poller, *last) {",
        "        match source.next(&self.life.poller, None) {",
    ),
    "tells_an_answer_again_after_a_fault": (
        "src/running.rt",
        "                run.source_faults += 1;\n                *last = None;\n",
        "                run.source_faults += 1;\n",
    ),
    "tells_a_first_call_of_an_answer": (
        "src/running.rt",
        "        let mut last = None;",
        "        let mut last = Some(Answer::Memory);",
    ),
    "tells_each_answer_as_taken": (
        "src/running.rt",
        "                *last = Some(answer);",
        "                *last = Some(Answer::Handled {\n                    samples: 1,\n                    answered: None,\n                });",
    ),
    "tells_of_faults_alone": (
        "src/running.rt",
        "                *last = Some(answer);",
        "                *last = match answer {\n                    Answer::Handled { .. } => None,\n                    other => Some(other),\n                };",
    ),
    "asks_twice_and_drops_the_first": (
        "src/running.rt",
        "        match source.next(&self.life.poller, *last) {",
        "        let _ = source.next(&self.life.poller, None);\n        match source.next(&self.life.poller, *last) {",
    ),
    "a_save_in_a_run_always_fails": (
        "src/running.rt",
        "        match self.step(alloc, event.lend()) {",
        "        if let OwnedEvent::Save = event {\n            return Answer::Keeper(2);\n        }\n        match self.step(alloc, event.lend()) {",
    ),
    "a_save_in_a_run_has_no_generation_left": (
        "src/running.rt",
        "        match self.step(alloc, event.lend()) {",
        "        if let OwnedEvent::Save = event {\n            return Answer::Keeper(3);\n        }\n        match self.step(alloc, event.lend()) {",
    ),
    "a_save_in_a_run_is_too_large": (
        "src/running.rt",
        "        StationFault::Keeper(fault) => Answer::Keeper(fault.number()),",
        "        StationFault::Keeper(_) => Answer::Keeper(4),",
    ),
    "a_fault_of_the_disk_is_the_last_generation": (
        "src/running.rt",
        "        StationFault::Keeper(fault) => Answer::Keeper(fault.number()),",
        "        StationFault::Keeper(fault) => Answer::Keeper(fault.number().max(3)),",
    ),
    "sends_nothing_of_what_it_took": (
        "src/running.rt",
        "                hand(outbox, told.sends.as_slice(), send_faults);",
        "                hand(outbox, if told.taken.as_slice().is_empty() { told.sends.as_slice() } else { &[] }, send_faults);",
    ),
    "handles_an_event_twice": (
        "src/running.rt",
        "        match self.step(alloc, event.lend()) {",
        "        let _ = self.step(alloc, event.lend());\n        match self.step(alloc, event.lend()) {",
    ),
    "passes_over_a_save": (
        "src/running.rt",
        "        match self.step(alloc, event.lend()) {",
        "        if let OwnedEvent::Save = event {\n            return Answer::Handled {\n                samples: 0,\n                answered: None,\n            };\n        }\n        match self.step(alloc, event.lend()) {",
    ),
    "shows_target_0_for_each_that_gave_up": (
        "src/running.rt",
        "        Some(target) => Answer::GaveUp(target),",
        "        Some(_) => Answer::GaveUp(0),",
    ),
    "shows_a_target_that_gave_up_as_handled": (
        "src/running.rt",
        "        Some(target) => Answer::GaveUp(target),",
        "        Some(_) => Answer::Handled {\n            samples: 0,\n            answered: None,\n        },",
    ),
    "counts_a_target_that_gave_up_as_a_fault": (
        "src/running.rt",
        "        Answer::Handled { .. } | Answer::GaveUp(_) => refused,",
        "        Answer::Handled { .. } => refused,",
        "        Answer::Memory | Answer::Refused(_) | Answer::Keeper(_) => refused + 1,",
        "        Answer::GaveUp(_) | Answer::Memory | Answer::Refused(_) | Answer::Keeper(_) => refused + 1,",
    ),
    "shows_want_of_memory_as_handled": (
        "src/running.rt",
        "        StationFault::OutOfMemory => Answer::Memory,",
        "        StationFault::OutOfMemory => Answer::Handled {\n            samples: 0,\n            answered: None,\n        },",
    ),
    "asks_one_time_fewer": (
        "src/running.rt",
        "        for turn in 0..turns {",
        "        for turn in 0..turns.saturating_sub(1) {",
    ),
    "goes_on_after_the_end": (
        "src/running.rt",
        "                *last = None;\n                false",
        "                *last = None;\n                true",
    ),
    "counts_calls_that_it_did_not_make": (
        "src/running.rt",
        "                return Ok(());",
        "                run.turns = turns;\n                return Ok(());",
    ),
    "gives_up_target_0": (
        "src/life.rt",
        "                given_up: Some(target),",
        "                given_up: Some(target.min(0)),",
    ),
    "never_tells_who_gave_up": (
        "src/life.rt",
        "                given_up: Some(target),",
        "                given_up: if target == u16::MAX { Some(target) } else { None },",
    ),
    "tells_that_a_poll_gave_up_that_is_not_open": (
        "src/life.rt",
        "            TimedOut::NotOpen => told_none(alloc),",
        "            TimedOut::NotOpen => Told {\n                taken: InstanceSamples::new(alloc),\n                sends: room,\n                noted: None,\n                given_up: Some(0),\n                answered: None,\n            },",
    ),
    "takes_no_room_to_send_again": (
        "src/life.rt",
        "        if self.poller.has_tries(id) {\n            room_for_one(alloc)",
        "        if self.poller.has_tries(id) && id > 1 {\n            room_for_one(alloc)",
    ),
    "a_save_is_too_large": (
        "src/station.rt",
        "            Err(fault) => Err(StationFault::from(fault)),",
        "            Err(_) => Err(StationFault::Keeper(KeeperFault::TooLarge)),",
    ),
    "never_mends_its_file": (
        "src/mending.rt",
        "        Ok(()) => keeper.save_in_place(octets),\n        Err(fault) => Err(fault),",
        "        Ok(()) => keeper.save_in_place(octets),\n        Err(_) => keeper.save_in_place(octets),",
    ),
    "takes_a_mended_file_for_saved": (
        "src/mending.rt",
        "        Ok(()) => keeper.save_in_place(octets),",
        "        Ok(()) => Ok(()),",
    ),
    "a_failed_save_asks_for_reopening": (
        "src/station.rt",
        "            Err(fault) => Err(StationFault::from(fault)),",
        "            Err(_) => Err(StationFault::Keeper(KeeperFault::Reopen)),",
    ),
    "the_first_save_says_damaged": (
        "src/opening.rt",
        "            Err(fault) => Err((fault, station.keeper.into_disk())),",
        "            Err(_) => Err((StationFault::Keeper(mon_disk::KeeperFault::Damaged), station.keeper.into_disk())),",
    ),
    "the_first_save_says_no_more_generations": (
        "src/opening.rt",
        "            Err(fault) => Err((fault, station.keeper.into_disk())),",
        "            Err(_) => Err((StationFault::Keeper(mon_disk::KeeperFault::NoMoreGenerations), station.keeper.into_disk())),",
    ),
    "a_bad_image_is_the_greatest_incarnation": (
        "src/opening.rt",
        "        Err(fault) => Err(StationFault::from(fault)),\n    }\n}",
        "        Err(_) => Err(StationFault::NoMoreIncarnations),\n    }\n}",
    ),
    "a_bad_body_is_a_damaged_file": (
        "src/opening.rt",
        "                Err(fault) => Err((fault, keeper.into_disk())),",
        "                Err(_) => Err((StationFault::Keeper(mon_disk::KeeperFault::Damaged), keeper.into_disk())),",
    ),
    "a_share_is_refused_by_the_keeper": (
        "src/station.rt",
        "            Event::Share(peer) => self.life.share(alloc, peer),",
        "            Event::Share(peer) => match self.life.share(alloc, peer) { Ok(told) => Ok(told), Err(_) => Err(StationFault::Keeper(KeeperFault::Reopen)) },",
    ),
    "names_the_station_for_its_disk": (
        "src/fault.rt",
        'Innermost::new("mon_disk", part.number(), part.name())',
        'Innermost::new("mon_station", part.number(), part.name())',
    ),
    "names_the_saved_for_the_exchanged": (
        "src/fault.rt",
        '"mon_exchange"',
        '"mon_saved"',
    ),
    "tells_the_number_of_the_outer_fault": (
        "src/fault.rt",
        'Innermost::new("mon_saved", part.number(), part.name())',
        'Innermost::new("mon_saved", self.number(), part.name())',
    ),
    "prints_the_name_before_the_number": (
        "src/fault.rt",
        'write!(f, "{part} {number} {name}")',
        'write!(f, "{part} {name} {number}")',
    ),
    "a_report_of_empty_windows": (
        "src/saved.rt",
        "        Some(octets) => image_board(alloc, watch, octets.as_slice()),",
        "        Some(_) => Ok(Board::new(alloc, watch.try_clone(alloc)?)?),",
    ),
    "windows_not_found_are_too_large": (
        "src/saved.rt",
        "        Err(error) => Err((StationFault::from(error.fault), error.disk)),",
        "        Err(error) => Err((StationFault::Keeper(mon_disk::KeeperFault::TooLarge), error.disk)),",
    ),
    "a_bad_image_is_the_disks_fault": (
        "src/saved.rt",
        "            Err(fault) => Err((fault, keeper.into_disk())),",
        "            Err(_) => Err((StationFault::Keeper(mon_disk::KeeperFault::DiskFault), keeper.into_disk())),",
    ),
    "begins_from_nothing": (
        "src/opening.rt",
        "            Ok((keeper, body)) => match begin(alloc, core, body) {",
        "            Ok((keeper, _)) => match begin(alloc, core, None) {",
    ),
    "counts_what_it_offers_as_confirmed": (
        "src/sharing.rt",
        "self.serial = serial;",
        "self.serial = serial; if let Some(portion) = portions.as_slice().first() { if let Some(sample) = portion.samples.as_slice().first() { if usize::from(portion.instance) < self.board.watch().instances().len() { self.board.mark(slot, portion.instance, sample); } } }",
    ),
    "forgets_what_is_too_old": (
        "src/life.rt",
        "        let mut sends = room_for_one(alloc)?;",
        "        if self.is_too_old(claim) { return Ok(Vec::new(alloc)); }\n        let mut sends = room_for_one(alloc)?;",
        "/// The confirmation of a claim, where it is an offer.",
        "fn is_too_old(&self, claim: &Claim) -> bool { let Some(number) = self.board.find(claim.engine.as_slice(), &claim.name) else { return false; }; let items = self.board.items(number); if items.len() < self.board.watch().instances()[usize::from(number)].window { return false; } let Some(oldest) = items.first() else { return false; }; match claim.samples.as_slice().last() { Some(newest) => newest.compare(oldest).is_lt(), None => false } } /// The confirmation of a claim, where it is an offer.",
    ),
    "hands_nothing_to_the_outbox": (
        "src/running.rt",
        "                hand(outbox, told.sends.as_slice(), send_faults);",
        "                hand(outbox, &[], send_faults);",
    ),
    "opens_with_reopen": (
        "src/opening.rt",
        "            Err(error) => Err((StationFault::from(error.fault), error.disk)),",
        "            Err(error) => Err((StationFault::Keeper(mon_disk::KeeperFault::Reopen), error.disk)),",
    ),
    "reopens_under_the_found_incarnation": (
        "src/opening.rt",
        "            Ok((board, found + 1))",
        "            Ok((board, found))",
    ),
    "runs_one_turn": (
        "src/running.rt",
        "        for turn in 0..turns {",
        "        for turn in 0..turns.min(1) {",
    ),
    "save_answers_damaged": (
        "src/station.rt",
        "            Event::Save => self.save(alloc),",
        "            Event::Save => { if self.life.incarnation > 0 { return Err(StationFault::Keeper(KeeperFault::Damaged)); } self.save(alloc) },",
    ),
    "a_refused_claim_is_handled": (
        "src/station.rt",
        "            Event::FromPeer(octets) => self.life.from_peer(alloc, octets, &mut self.image),",
        "            Event::FromPeer(octets) => match self.life.from_peer(alloc, octets, &mut self.image) {\n                Err(StationFault::Exchange(_)) => Ok(told_none(alloc)),\n                other => other,\n            },",
    ),
    "saves_the_first_image_again": (
        "src/station.rt",
        "        self.life.image(&mut self.image)?;",
        "        if self.image.octets.is_empty() {\n            self.life.image(&mut self.image)?;\n        }",
    ),
    "a_poll_that_did_not_start_is_handled": (
        "src/life.rt",
        "                Ok(told_one(alloc, room, out))\n            }\n            Err(fault) => Err(StationFault::from(fault)),",
        "                Ok(told_one(alloc, room, out))\n            }\n            Err(_) => Ok(told_none(alloc)),",
    ),
    "a_timeout_changes_its_poll_before_it_has_room": (
        "src/life.rt",
        "        let room = self.room_to_send_again(alloc, id)?;\n        let timed_out = self.poller.time_out(alloc, id)?;",
        "        let timed_out = self.poller.time_out(alloc, id)?;\n        let room = room_for_one(alloc)?;",
    ),
    "a_refused_response_is_handled": (
        "src/life.rt",
        "                    answered: Some(answered),\n                })\n            }\n            Err(fault) => Err(StationFault::from(fault)),",
        "                    answered: Some(answered),\n                })\n            }\n            Err(_) => Ok(told_none(alloc)),",
    ),
    "each_fault_of_a_claim_is_no_claim": (
        "src/life.rt",
        "            Ok(claim) => self.take_claim(alloc, &claim, image),\n            Err(fault) => Err(StationFault::from(fault)),",
        "            Ok(claim) => self.take_claim(alloc, &claim, image),\n            Err(_) => Err(StationFault::Exchange(mon_exchange::ExchangeFault::NotAClaim)),",
    ),
    "confirms_without_the_samples": (
        "src/life.rt",
        "            samples: claim.samples.as_slice(),",
        "            samples: &[],",
    ),
    "offers_nothing_where_memory_is_refused": (
        "src/sharing.rt",
        "        let (sends, serial) = self.offers(alloc, peer, portions.as_slice())?;",
        "        let (sends, serial) = match self.offers(alloc, peer, portions.as_slice()) {\n            Ok(made) => made,\n            Err(_) => (Vec::new(alloc), self.serial),\n        };",
    ),
    "offers_the_last_portion_first": (
        "src/sharing.rt",
        "            sends.push(offer)?;",
        "            sends.insert(0, offer)?;",
    ),
    "begins_anew_from_a_bad_image": (
        "src/opening.rt",
        "        Some(octets) => restore_image(alloc, &watch, octets.as_slice()),",
        "        Some(octets) => match restore_image(alloc, &watch, octets.as_slice()) {\n            Err(StationFault::Image(_)) => Ok((Board::new(alloc, watch)?, 1)),\n            other => other,\n        },",
    ),
    "a_damaged_file_has_empty_windows": (
        "src/saved.rt",
        "        Err((fault, _)) => Err(in_memory(fault)),",
        "        Err((StationFault::Keeper(KeeperFault::Damaged), _)) => Ok(Board::new(alloc, watch.try_clone(alloc)?)?),\n        Err((fault, _)) => Err(in_memory(fault)),",
    ),
    "hands_the_first_datagram_alone": (
        "src/running.rt",
        "    for out in sends {",
        "    for out in &sends[..sends.len().min(1)] {",
    ),
    # ---- the cheapest fault, and the emptiest answer
    "starts_no_poll": (
        "src/station.rt",
        "            Event::StartPoll(target) => self.life.start_poll(alloc, target),",
        "            Event::StartPoll(_) => Err(StationFault::Poll(mon_poller::PollFault::TooManyOpen)),",
    ),
    "starts_a_poll_that_it_says_nothing_of": (
        "src/station.rt",
        "            Event::StartPoll(target) => self.life.start_poll(alloc, target),",
        "            Event::StartPoll(target) => match self.life.start_poll(alloc, target) {\n                Ok(_) => Ok(told_none(alloc)),\n                Err(fault) => Err(fault),\n            },",
    ),
    "times_nothing_out": (
        "src/station.rt",
        "            Event::Timeout(id) => self.life.timeout(alloc, id),",
        "            Event::Timeout(_) => Ok(told_none(alloc)),",
    ),
    "takes_each_response_for_a_stray_one": (
        "src/station.rt",
        "                self.life.from_agent(alloc, from, octets, &mut self.image)\n",
        "                let _ = (from, octets);\n                Err(StationFault::Response(mon_poller::ResponseFault::Stray))\n",
    ),
    "hears_nothing_of_agents": (
        "src/station.rt",
        "                self.life.from_agent(alloc, from, octets, &mut self.image)\n",
        "                let _ = (from, octets);\n                Ok(told_none(alloc))\n",
    ),
    "takes_each_claim_for_none": (
        "src/station.rt",
        "            Event::FromPeer(octets) => self.life.from_peer(alloc, octets, &mut self.image),",
        "            Event::FromPeer(_) => Err(StationFault::Exchange(mon_exchange::ExchangeFault::NotAClaim)),",
    ),
    "shares_nothing": (
        "src/station.rt",
        "            Event::Share(peer) => self.life.share(alloc, peer),",
        "            Event::Share(_) => Ok(told_none(alloc)),",
    ),
    "knows_no_peer_to_share_with": (
        "src/station.rt",
        "            Event::Share(peer) => self.life.share(alloc, peer),",
        "            Event::Share(_) => Err(StationFault::Exchange(mon_exchange::ExchangeFault::UnknownPeer)),",
    ),
    "each_save_meets_the_disks_fault": (
        "src/station.rt",
        "            Event::Save => self.save(alloc),",
        "            Event::Save => Err(StationFault::Keeper(KeeperFault::DiskFault)),",
    ),
    "each_save_is_the_last": (
        "src/station.rt",
        "            Event::Save => self.save(alloc),",
        "            Event::Save => Err(StationFault::Keeper(KeeperFault::NoMoreGenerations)),",
    ),
    "opens_nothing_for_the_disk": (
        "src/opening.rt",
        "        match Keeper::open(alloc, disk) {",
        "        if core.station() > 0 {\n            return Err((StationFault::Keeper(mon_disk::KeeperFault::DiskFault), disk));\n        }\n        match Keeper::open(alloc, disk) {",
    ),
    "opens_nothing_for_the_incarnation": (
        "src/opening.rt",
        "                Err(fault) => Err((fault, keeper.into_disk())),",
        "                Err(_) => Err((StationFault::NoMoreIncarnations, keeper.into_disk())),",
    ),
    "begins_a_life_without_peers": (
        "src/opening.rt",
        "    let peers = Peers::new(alloc, parts.station, parts.peers.as_slice())?;",
        "    let peers = Peers::new(alloc, parts.station, &[])?;",
    ),
    "finds_no_windows_for_the_disk": (
        "src/saved.rt",
        "        Err(error) => Err((StationFault::from(error.fault), error.disk)),",
        "        Err(error) => Err((StationFault::Keeper(mon_disk::KeeperFault::DiskFault), error.disk)),",
    ),
    "takes_each_file_for_damaged": (
        "src/saved.rt",
        "        Err((fault, _)) => Err(in_memory(fault)),",
        "        Err(_) => Err(StationFault::Keeper(KeeperFault::Damaged)),",
    ),
    "runs_no_turn": (
        "src/running.rt",
        "        for turn in 0..turns {",
        "        for turn in 0..turns.min(0) {",
    ),
    "takes_a_fault_of_the_source_for_an_answer": (
        "src/running.rt",
        "                run.source_faults += 1;\n",
        "                run.source_faults += 1;\n                run.answers.push(Answer::Memory).unwrap();\n",
    ),
    "hands_all_but_the_last_datagram": (
        "src/running.rt",
        "    for out in sends {",
        "    for out in &sends[..sends.len().saturating_sub(1)] {",
    ),
    "owes_nothing": (
        "src/station.rt",
        "            Some(slot) => self.life.owed_count(slot),",
        "            Some(slot) => self.life.owed_count(slot).min(0),",
    ),
    "knows_no_incarnation": (
        "src/station.rt",
        "        self.life.peers.known(peer)",
        "        self.life.peers.known(peer).and(None)",
    ),
    "has_no_open_poll": (
        "src/station.rt",
        "        self.life.poller.oldest()",
        "        self.life.poller.oldest().and(None)",
    ),
    "has_a_second_poll_for_the_oldest": (
        "src/station.rt",
        "        self.life.poller.oldest()",
        "        self.life.poller.oldest_after(1)",
    ),
    "sets_a_fuse_a_call_longer": (
        "src/station.rt",
        "        self.keeper.set(calls);",
        "        self.keeper.set(calls.saturating_add(1));",
    ),
    "shows_no_target_that_answered": (
        "src/running.rt",
        "            answered: told.answered,",
        "            answered: None,",
    ),
    "shows_who_answered_only_with_samples": (
        "src/running.rt",
        "            answered: told.answered,",
        "            answered: if told.taken.as_slice().is_empty() {\n                None\n            } else {\n                told.answered\n            },",
    ),
    "each_response_is_of_the_first_target": (
        "src/life.rt",
        "                    target: offered.target,\n                    boots",
        "                    target: offered.target & 0,\n                    boots",
    ),
    "a_response_is_of_the_next_target": (
        "src/life.rt",
        "                    target: offered.target,\n                    boots",
        "                    target: offered.target ^ 1,\n                    boots",
    ),
    "reports_the_time_as_the_boots": (
        "src/life.rt",
        "        boots: offered.boots,",
        "        boots: offered.time,",
    ),
    "a_response_has_no_target": (
        "src/life.rt",
        "        answered: Some(answered),",
        "        answered: if answered.boots == 0 { Some(answered) } else { None },",
    ),
    "a_claim_answers_a_poll": (
        "src/life.rt",
        "                    noted: Some(noted),\n                    given_up: None,\n                    answered: None,",
        "                    noted: Some(noted),\n                    given_up: None,\n                    answered: Some(TargetStamp {\n                        target: 0,\n                        boots: 0,\n                        time: 0,\n                    }),",
    ),
    "moves_nowhere": (
        "src/moving.rt",
        "                self.keeper = keeper;",
        "                let _ = keeper;",
    ),
    "takes_another_incarnation_when_it_moves": (
        "src/moving.rt",
        "                self.keeper = keeper;",
        "                self.keeper = keeper;\n                self.life.incarnation |= 1;",
    ),
    "begins_its_claims_again_when_it_moves": (
        "src/moving.rt",
        "                self.keeper = keeper;",
        "                self.keeper = keeper;\n                self.life.serial = 1;",
    ),
    "moved_though_it_was_refused": (
        "src/moving.rt",
        "            Err(error) => Err((StationFault::from(error.fault), error.disk)),",
        "            Err(_) => Ok(()),",
    ),
    "each_refused_move_is_a_failed_disk": (
        "src/moving.rt",
        "            Err(error) => Err((StationFault::from(error.fault), error.disk)),",
        "            Err(error) => Err((StationFault::Keeper(KeeperFault::DiskFault), error.disk)),",
    ),
    "each_refused_move_is_of_a_damaged_file": (
        "src/moving.rt",
        "            Err(error) => Err((StationFault::from(error.fault), error.disk)),",
        "            Err(error) => Err((StationFault::Keeper(KeeperFault::Damaged), error.disk)),",
    ),
    "each_refused_move_needs_a_reopening": (
        "src/moving.rt",
        "            Err(error) => Err((StationFault::from(error.fault), error.disk)),",
        "            Err(error) => Err((StationFault::Keeper(KeeperFault::Reopen), error.disk)),",
    ),
    "a_refused_move_changes_the_life": (
        "src/moving.rt",
        "            Err(error) => Err((StationFault::from(error.fault), error.disk)),",
        "            Err(error) => {\n                self.life.serial = 1;\n                Err((StationFault::from(error.fault), error.disk))\n            }",
    ),
    "moves_to_no_file_with_a_save": (
        "src/moving.rt",
        "            Ok((keeper, _)) => {",
        "            Ok((keeper, Some(_))) => Err((\n                StationFault::Keeper(KeeperFault::Damaged),\n                keeper.into_disk(),\n            )),\n            Ok((keeper, None)) => {",
    ),
    "mends_the_old_file_when_it_cannot_move": (
        "src/moving.rt",
        "            Err(error) => Err((StationFault::from(error.fault), error.disk)),",
        "            Err(error) => {\n                let _ = self.keeper.reopen();\n                Err((StationFault::from(error.fault), error.disk))\n            }",
    ),
}

# Those that break a promise as a whole, each with its function: tests/bodies tries them in the gate.
PROMISES = {
    "a_response_is_taken_beside_the_image": "life::Life::from_agent",
    "begins_from_nothing": "station::Station::open",
    "counts_what_it_offers_as_confirmed": "life::Life::share",
    "forgets_what_is_too_old": "life::Life::take_claim",
    "hands_nothing_to_the_outbox": "station::Station::turn",
    "opens_with_reopen": "station::Station::open",
    "reopens_under_the_found_incarnation": "opening::restore_image",
    "runs_one_turn": "station::Station::run",
    "save_answers_damaged": "station::Station::step",
    "tells_no_last_answer": "station::Station::take_turn",
    "moves_nowhere": "station::Station::move_to",
}
