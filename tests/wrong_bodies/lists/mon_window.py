"""Bugs of mon_window for tests/wrong_bodies/planted: by name the file, what stands there once, and the bug in its place."""

BUGS = {
    "keeps_its_own_in_front_of_copies": (
        "src/row.rt",
        "        self.all.clear();\n        self.start = 0;\n",
        "        self.start = 0;\n",
    ),
    "copies_from_where_it_began": (
        "src/row.rt",
        "        self.all.clear();\n        self.start = 0;\n",
        "        self.all.clear();\n        self.start = self.start.min(1).min(samples.len());\n",
    ),
    "copies_nothing": (
        "src/window.rt",
        "        self.items.replace(other.items.as_slice());",
        "        let _ = other;",
    ),
    "shows_what_left": (
        "src/row.rt",
        "        &self.all[self.start..]",
        "        &self.all",
    ),
    "begins_two_further_on": (
        "src/row.rt",
        "            self.start += 1;",
        "            self.start = (self.start + 2).min(self.all.len());",
    ),
    "moves_none_down": (
        "src/row.rt",
        "    all.copy_within(start.., 0);\n",
        "",
    ),
    "puts_in_where_the_memory_begins": (
        "src/row.rt",
        "self.all.insert(self.start + at, sample)",
        "self.all.insert(at, sample)",
    ),
    "takes_out_where_the_memory_begins": (
        "src/row.rt",
        "        self.all.remove(self.start + at)",
        "        self.all.remove(at)",
    ),
    "what_is_older_is_the_newest_again": (
        "src/window.rt",
        "    items[items.len() - 1].compare(sample).is_eq()",
        "    items[items.len() - 1].compare(sample).is_ge()",
    ),
    "of_no_samples_the_newest_is_repeated": (
        "src/window.rt",
        "        return false;\n    }\n    items[items.len() - 1].compare(sample).is_eq()",
        "        return true;\n    }\n    items[items.len() - 1].compare(sample).is_eq()",
    ),
    "oldest_goes_in_second": (
        "src/window.rt",
        "        return Err(0);",
        "        return Err(1);",
    ),
    "the_oldest_again_is_older": (
        "src/window.rt",
        "    items[0].compare(sample).is_gt()",
        "    items[0].compare(sample).is_ge()",
    ),
    "older_than_the_newest_is_oldest": (
        "src/window.rt",
        "    items[0].compare(sample).is_gt()",
        "    items[items.len() - 1].compare(sample).is_gt()",
    ),
    "size_counts_the_samples": (
        "src/window.rt",
        "    pub fn size(&self) -> usize\n        ensures size { result ≡ self.now.size }\n        ensures sizes { AreSizes self.now.size self.now.epoch }\n    {\n        self.size\n",
        "    pub fn size(&self) -> usize\n        ensures size { result ≡ self.now.size }\n        ensures sizes { AreSizes self.now.size self.now.epoch }\n    {\n        self.items.as_slice().len()\n",
    ),
    "tells_the_greater_for_the_epoch": (
        "src/window.rt",
        "    {\n        self.epoch\n    }",
        "    {\n        self.size.max(self.epoch)\n    }",
    ),
    "keeps_the_order_of_arrival": (
        "src/window.rt",
        "self.items.insert(at, sample);",
        "let last = self.items.as_slice().len();\n                self.items.insert(last, sample);",
    ),
    "joins_at_half_the_place": (
        "src/window.rt",
        "            return Plan::Joins { at };",
        "            return Plan::Joins { at: at / 2 };",
    ),
    "drops_from_half_the_place": (
        "src/window.rt",
        "        Plan::Replaces { at, out }\n    }\n",
        "        Plan::Replaces { at, out: out / 2 }\n    }\n",
    ),
    "tells_the_place_before_the_drop": (
        "src/window.rt",
        "                    at: at - 1,",
        "                    at,",
    ),
    "calls_the_next_to_leave_too_old": (
        "src/window.rt",
        "        if out == at {",
        "        if out + 1 == at {",
    ),
    "begins_an_epoch_after_it": (
        "src/plan.rt",
        "    items.partition_point(|kept| kept.boots() < boots)",
        "    items.partition_point(|kept| kept.boots() <= boots)",
    ),
    "takes_one_for_a_whole_epoch": (
        "src/plan.rt",
        "items[first + (epoch - 1)].boots() == boots",
        "items[first].boots() == boots",
    ),
    "wants_one_more_than_the_epoch": (
        "src/plan.rt",
        "items.len() - first >= epoch",
        "items.len() - first > epoch",
    ),
    "holds_one_more": (
        "src/plan.rt",
        "        return Some(first);\n    }\n    if items.len() >= size { Some(0) } else { None }",
        "        return Some(first);\n    }\n    if items.len() > size { Some(0) } else { None }",
    ),
    "holds_a_epoch_in_all": (
        "src/plan.rt",
        "        return Some(first);\n    }\n    if items.len() >= size { Some(0) } else { None }",
        "        return Some(first);\n    }\n    if items.len() >= epoch { Some(0) } else { None }",
    ),
    "sees_a_whole_epoch_one_late": (
        "src/plan.rt",
        "if at >= epoch && items[at - epoch]",
        "if at > epoch && items[at - epoch]",
    ),
    "drops_the_last_of_the_epoch": (
        "src/plan.rt",
        "        return Some(at - epoch);",
        "        return Some(at - 1);",
    ),
    "looks_on_where_the_epoch_ends": (
        "src/plan.rt",
        "    if at == items.len() || items[at].boots() != boots {",
        "    if at == items.len() || items[at].boots() == boots {",
    ),
    "takes_half_the_size_for_all": (
        "src/plan.rt",
        "    if epoch >= size {",
        "    if epoch >= size / 2 {",
    ),
    "holds_one_less": (
        "src/window.rt",
        "Ok(Window { size, epoch, items })",
        "Ok(Window { size: size.max(2) - 1, epoch: 1, items })",
    ),
    "searches_backwards": (
        "src/window.rt",
        "items.binary_search_by(|kept| kept.compare(sample))",
        "items.binary_search_by(|kept| sample.compare(kept))",
    ),
    "calls_a_known_sample_too_old": (
        "src/window.rt",
        "Ok(_) => return Plan::Known,",
        "Ok(_) => return Plan::TooOld,",
    ),
    "applies_the_size_before_the_epoch": (
        "src/plan.rt",
        "if at >= epoch && items[at - epoch].boots() == boots {",
        "if items.len() < size && at >= epoch && items[at - epoch].boots() == boots {",
        "if fills_epoch(items, epoch, first, boots) {",
        "if items.len() < size && fills_epoch(items, epoch, first, boots) {",
    ),
    "drops_the_newest": (
        "src/window.rt",
        "self.items.remove(out)",
        "self.items.remove(self.items.len() - 1)",
    ),
    "forgets_what_was_dropped": (
        "src/window.rt",
        "dropped: Some(dropped),",
        "dropped: None,",
    ),
    "tells_a_late_sample_as_known": (
        "src/window.rt",
        "            Plan::TooOld => Inserted::TooOld,",
        "            Plan::TooOld => Inserted::Known,",
    ),
    "shrinks_as_it_joins": (
        "src/window.rt",
        "        let _ = &self.items;\n",
        "        self.size = other.items.len().max(self.epoch);\n",
    ),
    "finds_every_sample": (
        "src/window.rt",
        "    items.binary_search_by(|kept| kept.compare(sample))",
        "    items.binary_search_by(|kept| kept.compare(sample)).or(Ok(0))",
    ),
    "takes_the_newest_for_a_newer_one": (
        "src/window.rt",
        "    items[items.len() - 1].compare(sample).is_lt()",
        "    items[items.len() - 1].compare(sample).is_le()",
    ),
    "is_newer_than_the_oldest": (
        "src/window.rt",
        "    items[items.len() - 1].compare(sample).is_lt()",
        "    items[0].compare(sample).is_lt()",
    ),
    "goes_behind_all_of_seven": (
        "src/window.rt",
        "    if is_newest(items, sample) {",
        "    if items.len() == 7 || is_newest(items, sample) {",
    ),
    "drops_the_oldest_for_an_older": (
        "src/window.rt",
        "return Plan::TooOld;",
        "return Plan::Replaces { at: at + 1, out: 0 };",
    ),
    "drops_the_oldest_of_all_for_a_full_share": (
        "src/plan.rt",
        "return Some(first);",
        "return Some(if at > 0 { 0 } else { first });",
    ),
    "joins_the_newer_alone": (
        "src/window.rt",
        "        let _ = &self.items;",
        "        let _ = &self.items; if let (Some(own), Some(theirs)) = (self.items.as_slice().last(), other.items.as_slice().last()) { if own.compare(theirs).is_gt() { return; } }",
    ),
    "keeps_a_repeated_sample_twice": (
        "src/window.rt",
        "Ok(_) => return Plan::Known,",
        "Ok(at) => at,",
    ),
    "takes_half_the_memory": (
        "src/row.rt",
        "Vec::with_capacity(alloc, room)?",
        "Vec::with_capacity(alloc, room / 2)?",
    ),
    "keeps_its_start_after_the_move": (
        "src/row.rt",
        "            self.start = 0;\n",
        "",
    ),
    "leaves_the_first_where_it_was": (
        "src/row.rt",
        "            self.start += 1;\n",
        "",
    ),
    "leaves_the_last_ones_behind": (
        "src/row.rt",
        "    all.truncate(left);\n",
        "    let _ = left;\n",
    ),
    "shows_all_but_the_newest": (
        "src/window.rt",
        "    {\n        self.items.as_slice()\n    }",
        "    {\n        let all = self.items.as_slice();\n        if all.len() > 1 {\n            &all[..all.len() - 1]\n        } else {\n            all\n        }\n    }",
    ),
    "takes_a_late_sample_for_too_old": (
        "src/window.rt",
        "        let plan = self.plan(&sample);\n",
        "        if let Some(newest) = self.items.as_slice().last() {\n            if sample.compare(newest).is_lt() {\n                return Inserted::TooOld;\n            }\n        }\n        let plan = self.plan(&sample);\n",
    ),
    "takes_nothing_where_it_is_full": (
        "src/window.rt",
        "        if out == at {",
        "        if out == at || self.items.as_slice().len() >= self.size {",
    ),
    "takes_one_out_and_puts_none_in": (
        "src/window.rt",
        "                self.items.insert(at - 1, sample);\n",
        "                let _ = sample;\n",
    ),
    "stops_joining_at_a_known_sample": (
        "src/window.rt",
        "            let _ = self.insert(*sample);",
        "            if let Inserted::Known = self.insert(*sample) {\n                return;\n            }",
    ),
    "keeps_any_number_of_one_boots_number": (
        "src/plan.rt",
        "    if let Some(first) = full_epoch(items, size, epoch, sample, at) {\n        return Some(first);\n    }\n",
        "",
    ),
    "is_newer_by_its_boots_alone": (
        "src/window.rt",
        "    items[items.len() - 1].compare(sample).is_lt()",
        "    items[items.len() - 1].boots() <= sample.boots()",
    ),
    "one_of_the_newest_stamp_is_the_newest": (
        "src/window.rt",
        "    items[items.len() - 1].compare(sample).is_eq()",
        "    items[items.len() - 1].boots() == sample.boots() && items[items.len() - 1].time() == sample.time()",
    ),
}

# Those that break a promise as a whole, each with its function: tests/bodies tries them in the gate.
PROMISES = {
    "applies_the_size_before_the_epoch": "plan::full_epoch",
    "drops_the_oldest_for_an_older": "window::Window::plan",
    "drops_the_oldest_of_all_for_a_full_share": "plan::leaving",
    "joins_the_newer_alone": "window::Window::join",
    "keeps_a_repeated_sample_twice": "window::Window::plan",
}
