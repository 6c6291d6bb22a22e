"""Bugs of mon_board for tests/wrong_bodies/planted: by name the file, what stands there once, and the bug in its place."""

BUGS = {
    "takes_a_rule_twice": (
        "src/watch.rt",
        "        if !compare(&rules[i - 1], &rules[i]).is_lt() {",
        "        if !compare(&rules[i - 1], &rules[i]).is_le() {",
    ),
    "windows_of_65": (
        "src/watch.rt",
        "const MAX_SAMPLES: usize = 64;",
        "const MAX_SAMPLES: usize = 65;",
    ),
    "one_instance_less": (
        "src/watch.rt",
        "const MAX_INSTANCES: usize = 256;",
        "const MAX_INSTANCES: usize = 255;",
    ),
    "one_rule_more": (
        "src/watch.rt",
        "const MAX_RULES: usize = 256;",
        "const MAX_RULES: usize = 257;",
    ),
    "an_instance_twice": (
        "src/watch.rt",
        "        if !below.compare(above.engine.as_slice(), &above.name).is_lt() {",
        "        if !below.compare(above.engine.as_slice(), &above.name).is_le() {",
    ),
    "rules_on_the_instance_after_the_last": (
        "src/watch.rt",
        "        .all(|rule| usize::from(rule.instance()) < instances)",
        "        .all(|rule| usize::from(rule.instance()) <= instances)",
    ),
    "rules_by_the_falling_threshold_first": (
        "src/watch.rt",
        "        .then(a.rising().cmp(&b.rising()))\n        .then(a.falling().cmp(&b.falling()))",
        "        .then(a.falling().cmp(&b.falling()))\n        .then(a.rising().cmp(&b.rising()))",
    ),
    "rules_before_instances": (
        "src/watch.rt",
        "        if !are_instances(&instances) {",
        "        if !are_instances(&instances) && are_rules(&rules, instances.len()) {",
    ),
    "copies_the_first_rule": (
        "src/watch.rt",
        "        copies.push(*rule)?;",
        "        copies.push(all[0])?;",
    ),
    "names_fall": (
        "src/instance.rt",
        "        self.name.parts().cmp(&name.parts())",
        "        name.parts().cmp(&self.name.parts())",
    ),
    "engines_fall": (
        "src/instance.rt",
        "self.engine.as_slice().cmp(&engine);",
        "self.engine.as_slice().cmp(&engine).reverse();",
    ),
    "engines_of_33": (
        "src/instance.rt",
        "        5 <= len && len <= 32",
        "        5 <= len && len <= 33",
    ),
    "copies_the_window_as_epoch": (
        "src/instance.rt",
        "            epoch: self.epoch,",
        "            epoch: self.window,",
    ),
    "finds_the_one_before": (
        "src/board.rt",
        "            Some(place) => Some(place as u16),",
        "            Some(place) => Some(place.max(1) as u16 - 1),",
    ),
    "knows_one_instance_more": (
        "src/board.rt",
        "        if place >= self.windows.len() {",
        "        if place > self.windows.len() {",
    ),
    "mends_marks_of_another_instance": (
        "src/board.rt",
        "        let marks = &mut self.marks[place];",
        "        let marks = &mut self.marks[place / 2];",
    ),
    "items_of_another_instance": (
        "src/board.rt",
        "        self.windows[usize::from(instance)].items()",
        "        self.windows[usize::from(instance / 2)].items()",
    ),
    "totals_of_another_instance": (
        "src/board.rt",
        "        self.windows[usize::from(instance)].totals()",
        "        self.windows[usize::from(instance / 2)].totals()",
    ),
    "joins_itself": (
        "src/board.rt",
        "        join_each(&mut self.windows, &other.windows);\n        keep_each(&mut self.marks, &self.windows);",
        "        join_each(&mut self.windows, &other.windows);\n        keep_each(&mut self.marks, &other.windows);",
    ),
    "copies_nothing": (
        "src/board.rt",
        "        copy_each(&mut self.windows, &other.windows);\n",
        "        let _ = other;\n",
    ),
    "joins_where_it_copies": (
        "src/board.rt",
        "        copy_each(&mut self.windows, &other.windows);\n",
        "        join_each(&mut self.windows, &other.windows);\n",
    ),
    "copies_and_leaves_the_marks_of_what_went": (
        "src/board.rt",
        "        copy_each(&mut self.windows, &other.windows);\n        keep_each(&mut self.marks, &self.windows);\n",
        "        copy_each(&mut self.windows, &other.windows);\n",
    ),
    "copies_all_but_the_first": (
        "src/each.rt",
        "    for i in 0..windows.len() {\n        windows[i].copy_from(&others[i]);",
        "    for i in 1..windows.len() {\n        windows[i].copy_from(&others[i]);",
    ),
    "marks_what_is_not_there": (
        "src/board.rt",
        "        if stands_in(&self.windows[place], sample) {",
        "        if stands_in(&self.windows[place], sample) || slot == 0 {",
    ),
    "unmarks_the_slot_above": (
        "src/board.rt",
        "        clear_each(&mut self.marks, slot);",
        "        clear_each(&mut self.marks, slot + 1);",
    ),
    "owes_from_the_first": (
        "src/board.rt",
        "        first_unmarked(self.windows[place].items(), &self.marks[place], slot, after)",
        "        first_unmarked(self.windows[place].items(), &self.marks[place], slot, if slot == 0 { None } else { after })",
    ),
    "room_for_marks_of_an_epoch": (
        "src/board.rt",
        "        marks.push(Marks::new(alloc, watched.window)?)?;",
        "        marks.push(Marks::new(alloc, watched.epoch)?)?;",
    ),
    "a_new_mark_for_slot_0": (
        "src/marks.rt",
        "            Err(at) => self.items.insert(at, (*sample, 1 << slot)).unwrap(),",
        "            Err(at) => self.items.insert(at, (*sample, 1)).unwrap(),",
    ),
    "reads_the_bit_above": (
        "src/marks.rt",
        "            Ok(at) => self.items[at].1 >> slot & 1 == 1,",
        "            Ok(at) => self.items[at].1 >> slot & 2 == 2,",
    ),
    "finds_what_is_not_there": (
        "src/marks.rt",
        "        Ok(_) => true,\n        Err(_) => false,\n    }\n}\n\n/// Returns the place of the sample among rising ones, or where it belongs.",
        "        Ok(_) => true,\n        Err(at) => at > 63,\n    }\n}\n\n/// Returns the place of the sample among rising ones, or where it belongs.",
    ),
    "keeps_by_the_first_window": (
        "src/each.rt",
        "        marks[i].keep(&windows[i]);",
        "        marks[i].keep(&windows[0]);",
    ),
    "clears_the_first": (
        "src/each.rt",
        "        marks[i].clear(slot);",
        "        marks[0].clear(slot);",
    ),
    "adds_in_front": (
        "src/instance_samples.rt",
        "        self.items.push((instance, sample))?;",
        "        self.items.insert(0, (instance, sample))?;",
    ),
    "owes_what_was_given": (
        "src/marks.rt",
        "        Some(other) => other.compare(sample).is_lt(),",
        "        Some(other) => other.compare(sample).is_le(),",
    ),
    "takes_an_epoch_above_its_window": (
        "src/watch.rt",
        "    1 <= watched.epoch && watched.epoch <= watched.window && watched.window <= MAX_SAMPLES",
        "    1 <= watched.epoch && watched.epoch <= MAX_SAMPLES && watched.window <= MAX_SAMPLES",
    ),
    "clears_a_neighbouring_slot": (
        "src/marks.rt",
        "    bits & !(1 << slot)",
        "    bits & !(1 << (slot ^ 1))",
    ),
    "joins_the_first_to_all": (
        "src/each.rt",
        "        windows[i].join(&others[i]);",
        "        windows[i].join(&others[0]);",
    ),
    "keeps_one_epoch_for_all_of_a_window": (
        "src/board.rt",
        "        windows.push(Track::new(alloc, watched.window, watched.epoch)?)?;",
        "        windows.push(Track::new(alloc, watched.window, watched.window)?)?;",
    ),
    "marks_for_the_next_slot_too": (
        "src/marks.rt",
        "            Ok(at) => self.items[at].1 |= 1 << slot,",
        "            Ok(at) => self.items[at].1 |= 3 << slot,",
    ),
    "takes_for_another_instance": (
        "src/board.rt",
        "        let window = &mut self.windows[place];",
        "        let window = &mut self.windows[place / 2];",
    ),
    "tests_the_instances_first": (
        "src/watch.rt",
        "        if !are_sized(&instances) {",
        "        if !are_sized(&instances) && are_instances(&instances) {",
    ),
    "tells_each_sample_as_known": (
        "src/board.rt",
        "        Ok(inserted)",
        "        let _ = inserted;\n        Ok(Inserted::Known)",
    ),
    "takes_all_for_another_instance": (
        "src/board.rt",
        "            let _ = self.take(instance, *sample);",
        "            let _ = self.take(instance / 2, *sample);",
    ),
    "joins_the_newer_alone": (
        "src/each.rt",
        "        windows[i].join(&others[i]);",
        "        let newer = match (windows[i].items().last(), others[i].items().last()) { (Some(own), Some(theirs)) => own.compare(theirs).is_gt(), _ => false }; if !newer { windows[i].join(&others[i]); }",
    ),
    "keeps_marks_of_what_has_gone": (
        "src/marks.rt",
        "    items.retain(|item| stands_in(window, &item.0));",
        "    items.retain(|item| stands_in(window, &item.0) || item.1 > 0);",
    ),
    "owes_what_is_marked": (
        "src/marks.rt",
        "        if is_above(&after, sample) && !marks.has(slot, sample) {",
        "        if is_above(&after, sample) && (!marks.has(slot, sample) || slot == 0) {",
    ),
    "takes_no_pair_after_one_too_old": (
        "src/board.rt",
        "            let _ = self.take(*instance, *sample);",
        "            if let Ok(Inserted::TooOld) = self.take(*instance, *sample) {\n                return;\n            }",
    ),
    "calls_a_sample_too_old_an_unknown_instance": (
        "src/board.rt",
        "        marks.keep(window);\n",
        "        marks.keep(window);\n        if let Inserted::TooOld = inserted {\n            return Err(UnknownInstance);\n        }\n",
    ),
    "finds_by_the_engine_alone": (
        "src/board.rt",
        "    match instances.binary_search_by(|watched| watched.instance.compare(engine, name)) {",
        "    let _ = name;\n    match instances.binary_search_by(|watched| watched.instance.engine.as_slice().cmp(&engine)) {",
    ),
    "joins_and_leaves_the_marks_of_what_went": (
        "src/board.rt",
        "        join_each(&mut self.windows, &other.windows);\n        keep_each(&mut self.marks, &self.windows);\n",
        "        join_each(&mut self.windows, &other.windows);\n",
    ),
    "marks_for_the_first_slot": (
        "src/board.rt",
        "            self.marks[place].set(slot, sample);",
        "            let _ = slot;\n            self.marks[place].set(0, sample);",
    ),
    "unmarks_nothing": (
        "src/board.rt",
        "        clear_each(&mut self.marks, slot);",
        "        let _ = slot;",
    ),
    "owes_nothing_above_another": (
        "src/board.rt",
        "        first_unmarked(self.windows[place].items()",
        "        if after.is_some() {\n            return None;\n        }\n        first_unmarked(self.windows[place].items()",
    ),
    "forgets_all_marks_as_a_sample_comes": (
        "src/marks.rt",
        "        keep_in(&mut self.items, window);",
        "        let _ = window;\n        self.items.clear();",
    ),
    "copies_a_watch_without_its_rules": (
        "src/watch.rt",
        "        let rules = copy_rules(alloc, self.rules.as_slice())?;",
        "        let rules = Vec::new(alloc);",
    ),
    "copies_no_discontinuity": (
        "src/instance.rt",
        "            Some(name) => Some(name.try_clone(alloc)?),",
        "            Some(_) => None,",
    ),
    "says_that_a_pair_without_memory_was_added": (
        "src/instance_samples.rt",
        "        self.items.push((instance, sample))?;",
        "        let _ = self.items.push((instance, sample));",
    ),
    "calls_bad_rules_bad_instances": (
        "src/watch.rt",
        "            return Err(WatchFault::BadRules);",
        "            return Err(WatchFault::BadInstances);",
    ),
}

# Those that break a promise as a whole, each with its function: tests/bodies tries them in the gate.
PROMISES = {
    "joins_the_newer_alone": "each::join_each",
    "keeps_marks_of_what_has_gone": "marks::keep_in",
    "owes_what_is_marked": "marks::first_unmarked",
}
