"""Bugs of mon_disk for tests/wrong_bodies/planted: by name the file, what stands there once, and the bug in its place."""

BUGS = {
    "tells_no_reason": (
        "src/file_disk.rt",
        "    {\n        self.last_error\n    }",
        "    {\n        None\n    }",
    ),
    "shows_by_another_gate": (
        "src/file.rt",
        "put_down(disk, slot.offset(), &[165], calls)",
        "put_down(disk, slot.offset(), &[164], calls)",
    ),
    "closes_the_octet_after_the_gate": (
        "src/file.rt",
        "put_down(disk, slot.offset(), &[0], calls)",
        "put_down(disk, slot.offset() + 1, &[0], calls)",
    ),
    "puts_the_second_slot_one_lower": (
        "src/file.rt",
        "Slot::Second => SLOT_SIZE,",
        "Slot::Second => SLOT_SIZE - 1,",
    ),
    "sizes_one_octet_short": (
        "src/layout.rt",
        "disk.write_at(2 * SLOT_SIZE - 1, &[0])?;",
        "disk.write_at(2 * SLOT_SIZE - 2, &[0])?;",
    ),
    "lays_open_gates": (
        "src/layout.rt",
        "disk.write_at(0, zeros)?;",
        "disk.write_at(0, &[0xA5; HEAD_SIZE])?;",
    ),
    "takes_a_longer_file": (
        "src/opening.rt",
        "    if size > 2 * SLOT_SIZE {",
        "    if size > 2 * SLOT_SIZE + 1 {",
    ),
    "takes_another_octet_for_open": (
        "src/reading.rt",
        "const OPEN: u8 = 0xA5;",
        "const OPEN: u8 = 0xA4;",
    ),
    "refuses_the_greatest_length": (
        "src/reading.rt",
        "head.size <= SLOT_SIZE - HEAD_SIZE as u64",
        "head.size < SLOT_SIZE - HEAD_SIZE as u64",
    ),
    "takes_generation_0": (
        "src/reading.rt",
        "head.generation != 0 &&",
        "head.generation != 1 &&",
    ),
    "compares_sizes_for_generations": (
        "src/reading.rt",
        "first.generation != second.generation",
        "first.size != second.size",
    ),
    "reads_the_second_from_the_first": (
        "src/reading.rt",
        "(None, Some(second)) => Some((Slot::Second, second)),",
        "(None, Some(second)) => Some((Slot::First, second)),",
    ),
    "reads_the_body_one_early": (
        "src/reading.rt",
        "disk.read_at(slot.offset() + HEAD_SIZE as u64, &mut body)?;",
        "disk.read_at(slot.offset() + HEAD_SIZE as u64 - 1, &mut body)?;",
    ),
    "reads_lengths_backwards": (
        "src/reading.rt",
        "size: u64::from_be_bytes(",
        "size: u64::from_le_bytes(",
    ),
    "lays_out_a_whole_file": (
        "src/opening.rt",
        "if size < 2 * SLOT_SIZE {",
        "if size + 1 < 2 * SLOT_SIZE {",
    ),
    "counts_generations_from_the_size": (
        "src/opening.rt",
        "Ok((Some((slot, head.generation)), Some(body)))",
        "Ok((Some((slot, head.size)), Some(body)))",
    ),
    "answers_reopen_where_it_is_sound": (
        "src/keeper.rt",
        "if self.spoiled {",
        "if !self.spoiled {",
    ),
    "refuses_the_greatest_body": (
        "src/keeper.rt",
        "if size > BODY_SIZE {",
        "if size >= BODY_SIZE {",
    ),
    "always_finds_the_first_slot": (
        "src/keeper.rt",
        "self.newest = Some((spare_slot(self.newest), generation));",
        "self.newest = Some((Slot::First, generation));",
    ),
    "stays_spoiled_after_a_save": (
        "src/keeper.rt",
        "self.newest = Some((spare_slot(self.newest), generation));\n        self.spoiled = false;",
        "self.newest = Some((spare_slot(self.newest), generation));\n        self.spoiled = generation > 1;",
    ),
    "fills_the_second_slot": (
        "src/saving.rt",
        "fill(disk, slot, octets, calls - 2)?;",
        "fill(disk, Slot::Second, octets, calls - 2)?;",
    ),
    "shows_the_second_slot": (
        "src/saving.rt",
        "show(disk, slot, calls - 4)",
        "show(disk, Slot::Second, calls - 4)",
    ),
    "writes_generations_backwards": (
        "src/keeper.rt",
        "octets[..8].copy_from_slice(&generation.to_be_bytes());",
        "octets[..8].copy_from_slice(&generation.to_le_bytes());",
    ),
    "opens_spoiled": (
        "src/keeper.rt",
        "spoiled: false,",
        "spoiled: true,",
    ),
    "forgets_the_last_call": (
        "src/memory.rt",
        "self.since = self.calls.len();",
        "self.since = self.calls.len() - 1;",
    ),
    "clones_no_unsynced_writes": (
        "src/memory.rt",
        "calls: copy_calls(self.alloc, &self.calls[self.since..])?,",
        "calls: copy_calls(self.alloc, &self.calls[self.calls.len()..])?,",
    ),
    "clones_unsynced_octets_as_synced": (
        "src/memory.rt",
        "replaced: copy_replaced(self.alloc, &self.replaced[self.replaced_since..])?,",
        "replaced: copy_replaced(self.alloc, &self.replaced[self.replaced.len()..])?,",
    ),
    "reads_from_the_front": (
        "src/memory.rt",
        "buffer.copy_from_slice(&self.octets[at..at + buffer.len()]);",
        "buffer.copy_from_slice(&self.octets[..buffer.len()]);",
    ),
    "counts_no_failure": (
        "src/memory.rt",
        "\n            self.failures = self.failures.saturating_add(1);",
        "\n            self.failures = self.failures.saturating_add(0);",
    ),
    "grows_by_ones": (
        "src/memory.rt",
        "new.resize(at, 0)?;",
        "new.resize(at, 1)?;",
    ),
    "never_blows": (
        "src/fuse.rt",
        "self.left = Some(left - 1);",
        "self.left = Some(left);",
    ),
    "passes_one_more_call": (
        "src/fuse.rt",
        "self.fuse.left = Some(calls);",
        "self.fuse.left = Some(calls + 1);",
    ),
    "tells_no_blown_calls": (
        "src/fuse.rt",
        "self.disk.failures().saturating_add(self.fuse.blown)",
        "self.disk.failures()",
    ),
    "fails_the_call_after": (
        "src/flaky.rt",
        "left: call,",
        "left: call + 1,",
    ),
    "fails_twice": (
        "src/flaky.rt",
        "self.left = 0;",
        "self.left = 1;",
    ),
    "counts_no_failure_of_a_file": (
        "src/file_disk.rt",
        "*failures = failures.saturating_add(1);",
        "*failures = failures.saturating_add(0);",
    ),
    "always_no_more_generations": (
        "src/keeper.rt",
        "        if generation == u64::MAX {",
        "        if generation <= u64::MAX {",
    ),
    "closes_the_first_slot": (
        "src/saving.rt",
        "    close(disk, slot, calls)?;",
        "    close(disk, Slot::First, calls)?;",
    ),
    "laid_out_open": (
        "src/layout.rt",
        "    disk.write_at(SLOT_SIZE, &zeros[1..])?;",
        "    disk.write_at(SLOT_SIZE, &[0xA5; HEAD_SIZE])?;",
    ),
    "lays_out_a_first_slot_of_gaps": (
        "src/layout.rt",
        "    disk.write_at(0, zeros)?;",
        "    disk.write_at(0, &zeros[..HEAD_SIZE])?;",
    ),
    "lays_out_a_second_slot_of_gaps": (
        "src/layout.rt",
        "    disk.write_at(SLOT_SIZE, &zeros[1..])?;",
        "    disk.write_at(SLOT_SIZE, &zeros[..HEAD_SIZE])?;",
    ),
    "same_generation": (
        "src/keeper.rt",
        "        Ok(generation + 1)",
        "        Ok(generation)",
    ),
    "finds_the_older": (
        "src/reading.rt",
        "            if first.generation < second.generation {",
        "            if first.generation > second.generation {",
    ),
    "keeps_what_is_lost": (
        "src/memory.rt",
        "        if keep {",
        "        if !keep {",
    ),
    "keeps_none_but_synced_octets": (
        "src/memory.rt",
        "        if keep {",
        "        if keep && self.replaced.is_empty() {",
    ),
    "keeps_all_that_is_lost": (
        "src/memory.rt",
        "            &self.replaced[self.replaced_since..],",
        "            &self.replaced[self.replaced.len()..],",
    ),
    "loses_all_that_was_ever_written": (
        "src/memory.rt",
        "            &self.replaced[self.replaced_since..],",
        "            &self.replaced[..],",
    ),
    "syncs_all_but_the_last_write": (
        "src/memory.rt",
        "self.replaced_since = self.replaced.len();",
        "self.replaced_since = self.replaced.len().saturating_sub(1);",
    ),
    "writes_one_octet_further_on": (
        "src/memory.rt",
        "    file[at..at + octets.len()].copy_from_slice(octets);",
        "    let at = if file.len() - octets.len() > at { at + 1 } else { at };\n    file[at..at + octets.len()].copy_from_slice(octets);",
    ),
    "writes_all_but_the_last_octet": (
        "src/memory.rt",
        "    file[at..at + octets.len()].copy_from_slice(octets);",
        "    let octets = &octets[..octets.len().saturating_sub(1)];\n    file[at..at + octets.len()].copy_from_slice(octets);",
    ),
    "writes_past_the_end_in_place": (
        "src/memory.rt",
        "octets.len() <= file.len() - at {",
        "octets.len() <= file.len() {",
    ),
    "writes_before_it_has_memory": (
        "src/memory.rt",
        "        self.replaced.reserve(1)?;\n        put(self.alloc, &mut self.octets, at as usize, octets)?;",
        "        put(self.alloc, &mut self.octets, at as usize, octets)?;\n        self.replaced.reserve(1)?;",
    ),
    "takes_the_first_write_back_first": (
        "src/memory.rt",
        "        left -= 1;\n        take_one_back(alloc, file, &replaced[left])?;",
        "        take_one_back(alloc, file, &replaced[replaced.len() - left])?;\n        left -= 1;",
    ),
    "takes_all_but_the_first_write_back": (
        "src/memory.rt",
        "    while left > 0 {",
        "    while left > 1 {",
    ),
    "takes_octets_back_and_no_size": (
        "src/memory.rt",
        "    file.truncate(one.size);\n",
        "",
    ),
    "takes_a_size_back_and_no_octets": (
        "src/memory.rt",
        "    put(alloc, file, one.at, &one.octets)?;\n",
        "",
    ),
    "remembers_half_of_what_it_replaces": (
        "src/memory.rt",
        "octets.len().min(file.len() - from);",
        "(octets.len() / 2).min(file.len() - from);",
    ),
    "remembers_the_size_after_a_write": (
        "src/memory.rt",
        "        size: file.len(),",
        "        size: file.len().max(from + octets.len().min(7)),",
    ),
    "clones_replaced_octets_elsewhere": (
        "src/memory.rt",
        "        at: one.at,",
        "        at: one.size,",
    ),
    "writes_the_found_slot": (
        "src/saving.rt",
        "        Some((Slot::First, _)) => Slot::Second,",
        "        Some((Slot::First, _)) => Slot::First,",
    ),
    "not_spoiled": (
        "src/keeper.rt",
        "        self.spoiled = true;",
        "        self.spoiled = generation > 1;",
    ),
    "leaves_the_head_as_it_was": (
        "src/keeper.rt",
        "        write_head(octets, generation);\n",
        "",
    ),
    "counts_the_head_into_the_length": (
        "src/keeper.rt",
        "let size = body_size(octets) as u64;",
        "let size = octets.len() as u64;",
    ),
    "leaves_out_the_bodys_first_octet": (
        "src/keeper.rt",
        "    octets.extend_from_slice(body)?;",
        "    octets.extend_from_slice(&body[1..])?;",
    ),
    "touches_what_it_refuses": (
        "src/keeper.rt",
        "        let generation = self.next_generation(body_size(octets))?;",
        "        octets[0] = 165;\n        let generation = self.next_generation(body_size(octets))?;",
    ),
    "wants_memory_for_nothing": (
        "src/keeper.rt",
        "        self.put(octets, generation, calls)?;",
        "        if generation == 7 { return Err(KeeperFault::OutOfMemory); }\n        self.put(octets, generation, calls)?;",
    ),
    "makes_one_call_more": (
        "src/keeper.rt",
        "        self.put(octets, generation, calls)?;",
        "        self.put(octets, generation, calls + 1)?;",
    ),
    "makes_one_call_fewer": (
        "src/keeper.rt",
        "        self.put(octets, generation, calls)?;",
        "        self.put(octets, generation, calls.saturating_sub(1))?;",
    ),
    "makes_all_calls_always": (
        "src/keeper.rt",
        "        self.put(octets, generation, calls)?;",
        "        self.put(octets, generation, SAVE_CALLS)?;",
    ),
    "makes_no_call_and_says_done": (
        "src/keeper.rt",
        "        self.put(octets, generation, calls)?;",
        "        if calls > 6 { self.put(octets, generation, calls)?; }",
    ),
    "lets_none_through_unasked": (
        "src/keeper.rt",
        "        let generation = self.next_generation(body_size(octets))?;",
        "        if calls == 0 { return Ok(()); }\n        let generation = self.next_generation(body_size(octets))?;",
    ),
    "saves_without_the_last_sync": (
        "src/keeper.rt",
        "        self.save_calls(octets, SAVE_CALLS)",
        "        self.save_calls(octets, SAVE_CALLS - 1)",
    ),
    "stops_before_the_fifth_call": (
        "src/saving.rt",
        "    if calls <= 4 {",
        "    if calls <= 5 {",
    ),
    "goes_on_after_five_calls": (
        "src/keeper.rt",
        "        if calls < SAVE_CALLS {",
        "        if calls < SAVE_CALLS - 1 {",
    ),
    "refuses_a_save_as_damaged": (
        "src/keeper.rt",
        "        self.next_generation(body.len())?;",
        "        if body.len() == 7 { return Err(KeeperFault::Damaged); }\n        self.next_generation(body.len())?;",
    ),
    "gives_no_body_of_an_opening": (
        "src/keeper.rt",
        "            Ok((newest, body)) => Ok((",
        "            Ok((newest, _)) => Ok((",
        "                body,\n            )),",
        "                None,\n            )),",
    ),
    "lays_out_for_an_opening_that_failed": (
        "src/keeper.rt",
        "            Err(fault) => Err(NotOpened {",
        "            Err(KeeperFault::OutOfMemory) => match device.write_at(0, &[0xA5]) { Ok(()) | Err(_) => Err(NotOpened { fault: KeeperFault::OutOfMemory, disk: device }) },\n            Err(fault) => Err(NotOpened {",
    ),
    "never_syncs_a_step": (
        "src/file.rt",
        "    if calls == 1 {\n        return Ok(());\n    }\n    disk.sync()",
        "    if calls == 1 || disk.failures() < u64::MAX {\n        return Ok(());\n    }\n    disk.sync()",
    ),
    "syncs_after_one_call": (
        "src/file.rt",
        "    if calls == 1 {",
        "    if calls == 0 {",
    ),
    "writes_without_a_call": (
        "src/file.rt",
        "    if calls == 0 {",
        "    if calls == 7 {",
    ),
    "shows_unsynced": (
        "src/file.rt",
        "put_down(disk, slot.offset(), &[165], calls)",
        "put_down(disk, slot.offset(), &[165], calls.min(1))",
    ),
    "reads_on_after_a_sync_that_failed": (
        "src/opening.rt",
        "    sync_first(disk)?;",
        "    let _ = sync_first(disk);",
    ),
    "takes_a_failed_sync_for_done": (
        "src/opening.rt",
        "    disk.sync()",
        "    match disk.sync() { Ok(()) | Err(DiskError) => Ok(()) }",
    ),
    "keeps_what_was_synced_before": (
        "src/memory.rt",
        "self.replaced_since = self.replaced.len();",
        "self.replaced_since = self.replaced_since.min(self.replaced.len());",
    ),
    "syncs_before_it_is_recorded": (
        "src/memory.rt",
        "        self.calls.push(Call::Sync)?;\n        self.since = self.calls.len();\n        self.replaced_since = self.replaced.len();",
        "        self.replaced_since = self.replaced.len();\n        self.calls.push(Call::Sync)?;\n        self.since = self.calls.len();",
    ),
    "makes_the_call_that_it_fails": (
        "src/fuse.rt",
        "        if !self.fuse.passes() {\n            return Err(DiskError);\n        }\n        self.disk.sync()",
        "        let passes = self.fuse.passes();\n        let done = self.disk.sync();\n        if !passes {\n            return Err(DiskError);\n        }\n        done",
    ),
    "passes_a_read_when_blown": (
        "src/fuse.rt",
        "        if !self.fuse.passes() {\n            return Err(DiskError);\n        }\n        self.disk.read_at(at, buffer)",
        "        let _ = self.fuse.passes();\n        self.disk.read_at(at, buffer)",
    ),
    "takes_two_calls_for_a_write": (
        "src/fuse.rt",
        "        if !self.fuse.passes() {\n            return Err(DiskError);\n        }\n        self.disk.write_at(at, octets)",
        "        if !self.fuse.passes() || !self.fuse.passes() {\n            return Err(DiskError);\n        }\n        self.disk.write_at(at, octets)",
    ),
    "takes_no_call_for_a_size": (
        "src/fuse.rt",
        "        if !self.fuse.passes() {\n            return Err(DiskError);\n        }\n        self.disk.size()",
        "        if self.fuse.left == Some(0) {\n            return Err(DiskError);\n        }\n        self.disk.size()",
    ),
    "fails_the_last_call_that_is_left": (
        "src/fuse.rt",
        "            Some(0) => {\n                self.blown",
        "            Some(0 | 1) => {\n                self.left = Some(0);\n                self.blown",
    ),
    "takes_a_refused_sync_for_done": (
        "src/memory.rt",
        "        match self.write_down() {\n            Ok(()) => Ok(()),\n            Err(_) => {",
        "        match self.write_down() {\n            Ok(()) => Ok(()),\n            Err(_) if self.failures > 7 => Ok(()),\n            Err(_) => {",
    ),
    "always_disk_fault": (
        "src/keeper.rt",
        "        write_head(octets, generation);",
        "        if generation < u64::MAX { return Err(KeeperFault::DiskFault); } write_head(octets, generation);",
    ),
    "body_not_synced": (
        "src/file.rt",
        "    put_down(disk, slot.offset() + 1, octets, calls)",
        "    let made = if octets.len() > 7 { 1 } else { calls }; put_down(disk, slot.offset() + 1, octets, made)",
    ),
    "no_first_sync": (
        "src/opening.rt",
        "    disk.sync()",
        "    if disk.failures() < u64::MAX { return Ok(()); } disk.sync()",
    ),
    # ---- a keeper whose disk failed
    "mends_unsynced": (
        "src/file.rt",
        "    disk.write_at(slot.offset(), &[0])?;\n    disk.sync()",
        "    disk.write_at(slot.offset(), &[0])?;\n    if disk.failures() < u64::MAX { return Ok(()); }\n    disk.sync()",
    ),
    "mends_by_opening_the_gate": (
        "src/file.rt",
        "    disk.write_at(slot.offset(), &[0])?;",
        "    disk.write_at(slot.offset(), &[165])?;",
    ),
    "mends_the_first_slot": (
        "src/keeper.rt",
        "        shut(&mut self.device, spare_slot(self.newest))?;",
        "        shut(&mut self.device, Slot::First)?;",
    ),
    "mends_without_a_call": (
        "src/keeper.rt",
        "        shut(&mut self.device, spare_slot(self.newest))?;\n",
        "",
    ),
    "forgets_the_last_save": (
        "src/keeper.rt",
        "        shut(&mut self.device, spare_slot(self.newest))?;\n        self.spoiled = false;",
        "        shut(&mut self.device, spare_slot(self.newest))?;\n        self.newest = None;\n        self.spoiled = false;",
    ),
    "takes_the_failed_generation_for_the_newest": (
        "src/keeper.rt",
        "        shut(&mut self.device, spare_slot(self.newest))?;\n        self.spoiled = false;",
        "        shut(&mut self.device, spare_slot(self.newest))?;\n        self.newest = match self.newest { Some((slot, generation)) => Some((slot, generation.saturating_add(1))), None => None };\n        self.spoiled = false;",
    ),
    "asks_for_reopening_for_ever": (
        "src/keeper.rt",
        "        shut(&mut self.device, spare_slot(self.newest))?;\n        self.spoiled = false;",
        "        shut(&mut self.device, spare_slot(self.newest))?;",
    ),
    "fails_to_mend_without_a_call": (
        "src/keeper.rt",
        "        if !self.spoiled {\n            return Ok(());\n        }",
        "        if self.spoiled {\n            return Err(KeeperFault::DiskFault);\n        }",
    ),
    "mends_a_sound_keeper": (
        "src/keeper.rt",
        "        if !self.spoiled {\n            return Ok(());\n        }\n",
        "",
    ),
    "a_file_that_was_cut_is_damaged": (
        "src/opening.rt",
        "    if size > 2 * SLOT_SIZE {",
        "    if size > 2 * SLOT_SIZE || size > 0 && size < 2 * SLOT_SIZE {",
    ),
    "finds_no_save_where_none_can_be_read": (
        "src/opening.rt",
        "    let body = read_body(alloc, disk, slot, head.size)?;",
        "    let Ok(body) = read_body(alloc, disk, slot, head.size) else {\n        return Ok((None, None));\n    };",
    ),
    "a_slot_that_cannot_be_read_is_closed": (
        "src/reading.rt",
        "    disk.read_at(slot.offset(), &mut octets)?;\n",
        "    if disk.read_at(slot.offset(), &mut octets).is_err() {\n        return Ok(None);\n    }\n",
    ),
    "lays_out_nothing_without_memory": (
        "src/layout.rt",
        "    let zeros = zeros(alloc, SLOT_SIZE as usize)?;",
        "    let Ok(zeros) = zeros(alloc, SLOT_SIZE as usize) else {\n        return Ok(());\n    };",
    ),
    "lays_out_unsynced": (
        "src/layout.rt",
        "    disk.write_at(SLOT_SIZE, &zeros[1..])?;\n    disk.sync()",
        "    disk.write_at(SLOT_SIZE, &zeros[1..])",
    ),
    "fills_an_open_slot": (
        "src/saving.rt",
        "    close(disk, slot, calls)?;\n",
        "",
    ),
    "says_saved_where_memory_is_refused": (
        "src/keeper.rt",
        "        let mut octets = behind_room(alloc, body)?;",
        "        let Ok(mut octets) = behind_room(alloc, body) else {\n            return Ok(());\n        };",
    ),
    "goes_on_where_mending_failed": (
        "src/keeper.rt",
        "        shut(&mut self.device, spare_slot(self.newest))?;",
        "        let _ = shut(&mut self.device, spare_slot(self.newest));",
    ),
    "a_save_that_failed_leaves_it_sound": (
        "src/keeper.rt",
        "        put_spare(&mut self.device, self.newest, octets, calls)?;",
        "        if let Err(error) = put_spare(&mut self.device, self.newest, octets, calls) {\n            self.spoiled = false;\n            return Err(error);\n        }",
    ),
    "too_large_before_reopen": (
        "src/keeper.rt",
        "        if self.spoiled {\n            return Err(KeeperFault::Reopen);\n        }\n",
        "        if size > BODY_SIZE {\n            return Err(KeeperFault::TooLarge);\n        }\n        if self.spoiled {\n            return Err(KeeperFault::Reopen);\n        }\n",
    ),
    "takes_a_refused_write_for_done": (
        "src/memory.rt",
        "        match self.write(at, octets) {\n            Ok(()) => Ok(()),\n            Err(_) => {\n                self.failures = self.failures.saturating_add(1);\n                Err(DiskError)\n            }\n        }",
        "        match self.write(at, octets) {\n            Ok(()) | Err(_) => Ok(()),\n        }",
    ),
    "a_new_fuse_is_blown": (
        "src/fuse.rt",
        "                left: None,",
        "                left: Some(0),",
    ),
    "passes_the_sync_that_it_is_to_fail": (
        "src/flaky.rt",
        "        if !self.flake.passes() {\n            return Err(DiskError);\n        }\n        self.disk.sync()",
        "        let _passes = self.flake.passes();\n        self.disk.sync()",
    ),
    "makes_the_write_that_it_fails": (
        "src/flaky.rt",
        "        if !self.flake.passes() {\n            return Err(DiskError);\n        }\n        self.disk.write_at(at, octets)",
        "        if !self.flake.passes() {\n            return match self.disk.write_at(at, octets) {\n                Ok(()) | Err(_) => Err(DiskError),\n            };\n        }\n        self.disk.write_at(at, octets)",
    ),
    "counts_no_read_on": (
        "src/flaky.rt",
        "        if !self.flake.passes() {\n            return Err(DiskError);\n        }\n        self.disk.read_at(at, buffer)",
        "        if self.flake.left == 1 && !self.flake.passes() {\n            return Err(DiskError);\n        }\n        self.disk.read_at(at, buffer)",
    ),
    "fails_the_call_after_a_failed_size": (
        "src/flaky.rt",
        "        if !self.flake.passes() {\n            return Err(DiskError);\n        }\n        self.disk.size()",
        "        if !self.flake.passes() {\n            self.flake.left = 1;\n            return Err(DiskError);\n        }\n        self.disk.size()",
    ),
    "begins_with_a_failure": (
        "src/flaky.rt",
        "                blown: 0,",
        "                blown: call.min(1),",
    ),
    "begins_with_a_blown_call": (
        "src/fuse.rt",
        "                left: None,\n                blown: 0,",
        "                left: None,\n                blown: 1,",
    ),
    "forgets_the_blown_calls": (
        "src/fuse.rt",
        "        self.fuse.left = Some(calls);",
        "        self.fuse.left = Some(calls);\n        self.fuse.blown = 0;",
    ),
    "clones_the_count_of_failures": (
        "src/memory.rt",
        "            octets: self.octets.to_vec(self.alloc)?,\n            since: 0,\n            replaced_since: 0,\n            failures: 0,",
        "            octets: self.octets.to_vec(self.alloc)?,\n            since: 0,\n            replaced_since: 0,\n            failures: self.failures,",
    ),
    "begins_with_a_failure_in_memory": (
        "src/memory.rt",
        "            octets,\n            since: 0,\n            replaced_since: 0,\n            failures: 0,",
        "            octets,\n            since: 0,\n            replaced_since: 0,\n            failures: 1,",
    ),
    "keeps_the_count_over_a_crash": (
        "src/memory.rt",
        "            return Ok(MemoryDisk::with_octets(self.alloc, octets));",
        "            let mut disk = MemoryDisk::with_octets(self.alloc, octets);\n            disk.failures = self.failures;\n            return Ok(disk);",
    ),
    "reads_no_last_octet": (
        "src/memory.rt",
        "self.octets.len() - at < buffer.len() {",
        "self.octets.len() - at <= buffer.len() {",
    ),
    "reads_zeros_past_the_end": (
        "src/memory.rt",
        "            self.failures = self.failures.saturating_add(1);\n            return Err(DiskError);\n        }\n        buffer",
        "            buffer.fill(0);\n            return Ok(());\n        }\n        buffer",
    ),
    "finds_no_size_of_an_empty_file": (
        "src/memory.rt",
        "        Ok(self.octets.len() as u64)",
        "        if self.octets.is_empty() {\n            self.failures = self.failures.saturating_add(1);\n            return Err(DiskError);\n        }\n        Ok(self.octets.len() as u64)",
    ),
    # ---- a disk over a file of the system's
    "keeps_no_reason": (
        "src/file_disk.rt",
        "            *failures = failures.saturating_add(1);\n            *last_error = Some(error);",
        "            *failures = failures.saturating_add(1);\n            let _ = error;",
    ),
    "each_call_forgets_the_reason": (
        "src/file_disk.rt",
        "        Ok(value) => Ok(value),\n",
        "        Ok(value) => {\n            *last_error = None;\n            Ok(value)\n        }\n",
    ),
    "swallows_a_failed_sync": (
        "src/file_disk.rt",
        "        let done = self.file.sync();\n        pass_on(&mut self.failures, &mut self.last_error, done)",
        "        let done = self.file.sync();\n        match pass_on(&mut self.failures, &mut self.last_error, done) {\n            Ok(()) | Err(_) => Ok(()),\n        }",
    ),
    "swallows_a_failed_write": (
        "src/file_disk.rt",
        "        let done = self.file.write_at(at, octets);\n        pass_on(&mut self.failures, &mut self.last_error, done)",
        "        let done = self.file.write_at(at, octets);\n        match pass_on(&mut self.failures, &mut self.last_error, done) {\n            Ok(()) | Err(_) => Ok(()),\n        }",
    ),
    "swallows_a_failed_read": (
        "src/file_disk.rt",
        "        let done = self.file.read_at(at, buffer);\n        pass_on(&mut self.failures, &mut self.last_error, done)",
        "        let done = self.file.read_at(at, buffer);\n        if pass_on(&mut self.failures, &mut self.last_error, done).is_err() {\n            buffer.fill(0);\n        }\n        Ok(())",
    ),
    "counts_a_size_that_it_found": (
        "src/file_disk.rt",
        "        let found = self.file.size();\n        pass_on(&mut self.failures, &mut self.last_error, found)",
        "        let found = self.file.size();\n        pass_on(&mut self.failures, &mut self.last_error, found)?;\n        self.failures = 0;\n        Ok(0)",
    ),
    "each_file_is_empty": (
        "src/file_disk.rt",
        "        let found = self.file.size();\n        pass_on(&mut self.failures, &mut self.last_error, found)",
        "        let found = self.file.size();\n        match pass_on(&mut self.failures, &mut self.last_error, found) {\n            Ok(_) => Ok(0),\n            Err(error) => Err(error),\n        }",
    ),
    "finds_no_size_without_a_call": (
        "src/file_disk.rt",
        "        let found = self.file.size();\n        pass_on(&mut self.failures, &mut self.last_error, found)",
        "        if self.failures > 7 {\n            return Ok(2097152);\n        }\n        let found = self.file.size();\n        pass_on(&mut self.failures, &mut self.last_error, found)",
    ),
    "reads_nothing": (
        "src/file_disk.rt",
        "        let done = self.file.read_at(at, buffer);\n        pass_on(&mut self.failures, &mut self.last_error, done)",
        "        if at < u64::MAX {\n            return Ok(());\n        }\n        let done = self.file.read_at(at, buffer);\n        pass_on(&mut self.failures, &mut self.last_error, done)",
    ),
    "reads_at_the_beginning": (
        "src/file_disk.rt",
        "        let done = self.file.read_at(at, buffer);\n        pass_on(&mut self.failures, &mut self.last_error, done)",
        "        let done = self.file.read_at(at % 1048576, buffer);\n        pass_on(&mut self.failures, &mut self.last_error, done)",
    ),
    "clears_what_it_read": (
        "src/file_disk.rt",
        "        let done = self.file.read_at(at, buffer);\n        pass_on(&mut self.failures, &mut self.last_error, done)",
        "        let done = self.file.read_at(at, buffer);\n        buffer.fill(0);\n        pass_on(&mut self.failures, &mut self.last_error, done)",
    ),
    "reads_no_last_octet_of_a_file": (
        "src/file_disk.rt",
        "        let done = self.file.read_at(at, buffer);\n        pass_on(&mut self.failures, &mut self.last_error, done)",
        "        let len = buffer.len().saturating_sub(1);\n        let done = self.file.read_at(at, &mut buffer[..len]);\n        pass_on(&mut self.failures, &mut self.last_error, done)",
    ),
    "writes_at_half": (
        "src/file_disk.rt",
        "        let done = self.file.write_at(at, octets);\n        pass_on(&mut self.failures, &mut self.last_error, done)",
        "        let done = self.file.write_at(at / 2, octets);\n        pass_on(&mut self.failures, &mut self.last_error, done)",
    ),
    "writes_the_first_octets": (
        "src/file_disk.rt",
        "        let done = self.file.write_at(at, octets);\n        pass_on(&mut self.failures, &mut self.last_error, done)",
        "        let done = self.file.write_at(at, &octets[..octets.len().min(4096)]);\n        pass_on(&mut self.failures, &mut self.last_error, done)",
    ),
    "writes_nothing": (
        "src/file_disk.rt",
        "        let done = self.file.write_at(at, octets);\n        pass_on(&mut self.failures, &mut self.last_error, done)",
        "        if at < u64::MAX {\n            return Ok(());\n        }\n        let done = self.file.write_at(at, octets);\n        pass_on(&mut self.failures, &mut self.last_error, done)",
    ),
    "writes_twice": (
        "src/file_disk.rt",
        "        let done = self.file.write_at(at, octets);\n        pass_on(&mut self.failures, &mut self.last_error, done)",
        "        let _ = self.file.write_at(at / 2, octets);\n        let done = self.file.write_at(at, octets);\n        pass_on(&mut self.failures, &mut self.last_error, done)",
    ),
    "writes_again_after_a_failure": (
        "src/file_disk.rt",
        "        let done = self.file.write_at(at, octets);\n        pass_on(&mut self.failures, &mut self.last_error, done)",
        "        let done = match self.file.write_at(at, octets) {\n            Ok(()) => Ok(()),\n            Err(_) => self.file.write_at(at, octets),\n        };\n        pass_on(&mut self.failures, &mut self.last_error, done)",
    ),
    "syncs_nothing": (
        "src/file_disk.rt",
        "        let done = self.file.sync();\n        pass_on(&mut self.failures, &mut self.last_error, done)",
        "        if self.failures < u64::MAX {\n            return Ok(());\n        }\n        let done = self.file.sync();\n        pass_on(&mut self.failures, &mut self.last_error, done)",
    ),
    "syncs_again_after_a_failure": (
        "src/file_disk.rt",
        "        let done = self.file.sync();\n        pass_on(&mut self.failures, &mut self.last_error, done)",
        "        let done = match self.file.sync() {\n            Ok(()) => Ok(()),\n            Err(_) => self.file.sync(),\n        };\n        pass_on(&mut self.failures, &mut self.last_error, done)",
    ),
    "asks_for_the_size_to_sync": (
        "src/file_disk.rt",
        "        let done = self.file.sync();\n        pass_on(&mut self.failures, &mut self.last_error, done)",
        "        let done = match self.file.size() {\n            Ok(_) => Ok(()),\n            Err(error) => Err(error),\n        };\n        pass_on(&mut self.failures, &mut self.last_error, done)",
    ),
    "counts_a_failure_twice": (
        "src/file_disk.rt",
        "            *failures = failures.saturating_add(1);\n            *last_error = Some(error);",
        "            *failures = failures.saturating_add(2);\n            *last_error = Some(error);",
    ),
    "keeps_the_first_reason": (
        "src/file_disk.rt",
        "            *failures = failures.saturating_add(1);\n            *last_error = Some(error);",
        "            *failures = failures.saturating_add(1);\n            if last_error.is_none() {\n                *last_error = Some(error);\n            }",
    ),
    "forgets_the_failures_of_a_file": (
        "src/file_disk.rt",
        "        Ok(value) => Ok(value),\n",
        "        Ok(value) => {\n            *failures = 0;\n            Ok(value)\n        }\n",
    ),
    "begins_with_a_reason": (
        "src/file_disk.rt",
        "            file,\n            failures: 0,\n            last_error: None,",
        "            file,\n            failures: 0,\n            last_error: Some(io::Error::from(io::ErrorKind::NotFound)),",
    ),
    "begins_with_failures_of_a_file": (
        "src/file_disk.rt",
        "            file,\n            failures: 0,\n            last_error: None,",
        "            file,\n            failures: 1,\n            last_error: Some(io::Error::from(io::ErrorKind::NotFound)),",
    ),
    "truncates_as_it_opens": (
        "src/file_disk.rt",
        "    let mut options = OpenOptions::new();\n    options.read(true).write(true);",
        "    let mut options = OpenOptions::new();\n    options.read(true).write(true).truncate(true);",
    ),
    "appends_where_it_is_to_write": (
        "src/file_disk.rt",
        "    let mut options = OpenOptions::new();\n    options.read(true).write(true);",
        "    let mut options = OpenOptions::new();\n    options.read(true).write(true).append(true);",
    ),
    "opens_for_reading": (
        "src/file_disk.rt",
        "    let mut options = OpenOptions::new();\n    options.read(true).write(true);",
        "    let mut options = OpenOptions::new();\n    options.read(true).write(false);",
    ),
    "makes_no_file": (
        "src/file_disk.rt",
        "    options.create(true);",
        "    options.create(false);",
    ),
    "refuses_a_file_that_exists": (
        "src/file_disk.rt",
        "    options.create(true);",
        "    options.create_new(true);",
    ),
    "makes_what_should_exist": (
        "src/file_disk.rt",
        "        let mut file = system.open_at(&existing(), path)?;\n        file.take_lock()?;",
        "        let mut file = system.open_at(&created(), path)?;\n        file.take_lock()?;",
    ),
    "opens_without_the_lock": (
        "src/file_disk.rt",
        "        let mut file = system.open_at(&created(), path)?;\n        file.take_lock()?;",
        "        let file = system.open_at(&created(), path)?;",
    ),
    "opens_where_the_lock_is_refused": (
        "src/file_disk.rt",
        "        let mut file = system.open_at(&existing(), path)?;\n        file.take_lock()?;",
        "        let mut file = system.open_at(&existing(), path)?;\n        let _ = file.take_lock();",
    ),
    "asks_twice_for_the_lock": (
        "src/file_disk.rt",
        "        let mut file = system.open_at(&created(), path)?;\n        file.take_lock()?;",
        "        let mut file = system.open_at(&created(), path)?;\n        if file.take_lock().is_err() {\n            file.take_lock()?;\n        }",
    ),
    "opens_another_path": (
        "src/file_disk.rt",
        "        let mut file = system.open_at(&created(), path)?;\n        file.take_lock()?;",
        "        let mut file = system.open_at(&created(), folder_of(path))?;\n        file.take_lock()?;",
    ),
    "syncs_no_folder": (
        "src/file_disk.rt",
        "        system.sync_folder(folder_of(path))?;\n",
        "        if path.is_empty() {\n            system.sync_folder(folder_of(path))?;\n        }\n",
    ),
    "syncs_the_working_folder": (
        "src/file_disk.rt",
        "sync_folder(folder_of(path))",
        "sync_folder(\".\")",
    ),
    "opens_where_the_folder_is_not_synced": (
        "src/file_disk.rt",
        "        system.sync_folder(folder_of(path))?;",
        "        let _ = system.sync_folder(folder_of(path));",
    ),
    "each_file_is_in_use": (
        "src/file_disk.rt",
        "        let mut file = system.open_at(&existing(), path)?;\n        file.take_lock()?;",
        "        if path.len() > 7 {\n            return Err(OpenFault::InUse);\n        }\n        let mut file = system.open_at(&existing(), path)?;\n        file.take_lock()?;",
    ),
    "no_file_is_there": (
        "src/file_disk.rt",
        "        let mut file = system.open_at(&created(), path)?;\n        file.take_lock()?;",
        "        if path.len() > 7 {\n            return Err(OpenFault::System(io::Error::from(io::ErrorKind::NotFound)));\n        }\n        let mut file = system.open_at(&created(), path)?;\n        file.take_lock()?;",
    ),
    "takes_the_path_for_its_folder": (
        "src/file_disk.rt",
        "folder.as_os_str(),\n        _",
        "path,\n        _",
    ),
    "a_file_beside_it_is_in_no_folder": (
        "src/file_disk.rt",
        "        _ => \".\",",
        "        _ => \"\",",
    ),
    "a_lock_that_fails_is_in_use": (
        "src/open_fault.rt",
        "            TryLockError::Error(error) => OpenFault::System(error),",
        "            TryLockError::Error(_) => OpenFault::InUse,",
    ),
    "a_file_in_use_is_a_failure": (
        "src/open_fault.rt",
        "            TryLockError::WouldBlock => OpenFault::InUse,",
        "            TryLockError::WouldBlock => OpenFault::System(io::Error::from(io::ErrorKind::WouldBlock)),",
    ),
    "each_file_is_node_0": (
        "src/file_disk.rt",
        "        self.file.node()",
        "        Ok((0, 0))",
    ),
    "swaps_device_and_inode": (
        "src/file_disk.rt",
        "        self.file.node()",
        "        let (device, inode) = self.file.node()?;\n        Ok((inode, device))",
    ),
    "a_file_without_an_answer_is_node_0": (
        "src/file_disk.rt",
        "        self.file.node()",
        "        match self.file.node() {\n            Ok(found) => Ok(found),\n            Err(_) => Ok((0, 0)),\n        }",
    ),
}

# Those that break a promise as a whole, each with its function: tests/bodies tries them in the gate.
PROMISES = {
    "always_disk_fault": "keeper::Keeper::save_calls",
    "body_not_synced": "file::fill",
    "forgets_the_last_save": "keeper::Keeper::reopen",
    "mends_unsynced": "file::shut",
    "no_first_sync": "opening::sync_first",
    "each_file_is_empty": "file_disk::DiskOverDisk::size",
    "opens_without_the_lock": "file_disk::DiskOver::open_or_create",
    "swallows_a_failed_sync": "file_disk::DiskOverDisk::sync",
    "writes_at_half": "file_disk::DiskOverDisk::write_at",
    "each_file_is_node_0": "file_disk::DiskOver::node",
}
