"""Bugs of mon_rates for tests/wrong_bodies/planted: by name the file, what stands there once, and the bug in its place."""

BUGS = {
    "copies_without_the_totals": (
        "src/track.rt",
        "        self.totals = other.totals;\n",
        "        let _ = other.totals;\n",
    ),
    "subtracts_backwards": (
        "src/totals.rt",
        "    let apart = to.wrapping_sub(from);",
        "    let apart = from.wrapping_sub(to);",
    ),
    "spans_one_less": (
        "src/totals.rt",
        "            span: u64::from(b.time() - a.time()),",
        "            span: u64::from(b.time() - a.time()).max(1) - 1,",
    ),
    "parts_of_a_lower_tag": (
        "src/totals.rt",
        "        && a.kind().tag() == b.kind().tag()",
        "        && a.kind().tag() <= b.kind().tag()",
    ),
    "joins_with_the_first": (
        "src/totals.rt",
        "    let first = joint(older.last(), Some(sample));",
        "    let first = joint(older.first(), Some(sample));",
    ),
    "joins_to_the_last": (
        "src/totals.rt",
        "    let whole = joint(older.last(), newer.first());",
        "    let whole = joint(older.last(), newer.last());",
    ),
    "rates_by_pairs": (
        "src/totals.rt",
        "    if self.span == 0 {",
        "    if self.pairs == 0 {",
    ),
    "drops_at_its_own_place": (
        "src/track.rt",
        "        Plan::Replaces { out, .. } => without_dropped(items, totals, out, inserted),",
        "        Plan::Replaces { at: out, .. } => without_dropped(items, totals, out, inserted),",
    ),
    "forgets_the_growth": (
        "src/track.rt",
        "        self.totals = shrunk(self.window.items(), grown, plan, &inserted);",
        "        self.totals = shrunk(self.window.items(), self.totals, plan, &inserted);",
    ),
    "doubles_at_a_known_sample": (
        "src/track.rt",
        "        Plan::Known | Plan::TooOld => totals,\n    }\n}\n\n/// The totals of the items after",
        "        Plan::Known | Plan::TooOld => totals.plus(totals),\n    }\n}\n\n/// The totals of the items after",
    ),
    "counts_within_no_time": (
        "src/totals.rt",
        "&& a.time() < b.time()",
        "&& a.time() <= b.time()",
    ),
    "no_rate_in_one_second": (
        "src/totals.rt",
        "if self.span == 0 {",
        "if self.span <= 1 {",
    ),
    "sums_from_the_third": (
        "src/totals.rt",
        "for place in 1..samples.len() {",
        "for place in 2..samples.len() {",
    ),
    "counts_gauges": (
        "src/totals.rt",
        "matches!(kind, Kind::Counter32 | Kind::Counter64)",
        "matches!(kind, Kind::Counter32 | Kind::Counter64 | Kind::Gauge32)",
    ),
    "counts_no_pairs": (
        "src/totals.rt",
        "pairs: 1,",
        "pairs: 0,",
    ),
    "rate_of_hundredths": (
        "src/totals.rt",
        "Some(1000 * self.delta / u128::from(self.span))",
        "Some(100 * self.delta / u128::from(self.span))",
    ),
    "wraps_all_at_64_bits": (
        "src/totals.rt",
        "_ => apart % (1 << 32),",
        "_ => apart,",
    ),
    "tells_each_sample_as_known": (
        "src/track.rt",
        "        inserted\n    }",
        "        if self.totals.pairs == 9 { Inserted::Known } else { inserted }\n    }",
    ),
    "counts_across_a_discontinuity": (
        "src/totals.rt",
        "&& a.discontinuity() == b.discontinuity()",
        "&& a.discontinuity() <= b.discontinuity()",
    ),
    "counts_across_a_restart": (
        "src/totals.rt",
        "&& a.boots() == b.boots()",
        "&& a.boots() <= b.boots()",
    ),
    "forgets_the_split_part": (
        "src/track.rt",
        "totals.plus(change.halves).minus(change.whole)",
        "totals.plus(change.halves).minus(Totals::of(&[]))",
    ),
    "forgets_what_was_dropped": (
        "src/track.rt",
        "totals.plus(change.whole).minus(change.halves)",
        "totals.plus(change.whole).minus(change.whole)",
    ),
    "counts_from_0": (
        "src/totals.rt",
        "distance(a.kind(), a.value(), b.value());",
        "distance(a.kind(), 0, b.value());",
    ),
    "keeps_the_last_part_alone": (
        "src/totals.rt",
        "            totals = totals.plus(part);",
        "            totals = part;",
    ),
    "spans_the_longer": (
        "src/totals.rt",
        "            span: self.span + other.span,",
        "            span: self.span.max(other.span),",
    ),
    "keeps_the_pairs": (
        "src/totals.rt",
        "            pairs: self.pairs - other.pairs,",
        "            pairs: self.pairs,",
    ),
    "forgets_the_part_behind": (
        "src/totals.rt",
        "    let halves = first.plus(second);",
        "    let _ = second;\n    let halves = first;",
    ),
    "joins_backwards": (
        "src/totals.rt",
        "        (Some(a), Some(b)) => Totals::between(a, b),",
        "        (Some(a), Some(b)) => Totals::between(b, a),",
    ),
    "gives_each_boots_the_whole_window": (
        "src/track.rt",
        "Window::new(alloc, size, epoch)?;",
        "Window::new(alloc, size, size)?;",
    ),
    "the_epoch_for_the_size": (
        "src/track.rt",
        "        self.window.size()",
        "        self.window.epoch()",
    ),
    "leaves_out_the_newest": (
        "src/track.rt",
        "        ensures sizes { AreSizes self.now.size self.now.epoch }\n    {\n        self.window.items()",
        "        ensures sizes { AreSizes self.now.size self.now.epoch }\n    {\n        let all = self.window.items();\n        &all[..all.len().saturating_sub(1)]",
    ),
    "tells_no_totals": (
        "src/track.rt",
        "        let _ = self.items();\n        self.totals\n",
        "        let _ = self.items();\n        Totals::of(&[])\n",
    ),
    "joins_the_newest_alone": (
        "src/track.rt",
        "        for sample in other.items() {",
        "        if let Some(sample) = other.items().last() {",
    ),
    "keeps_the_part_of_what_was_dropped": (
        "src/track.rt",
        "        } => without_one(items, totals, out, dropped),",
        "        } => {\n            let _ = (items, out, dropped);\n            totals\n        }",
    ),
}

# Those that break a promise as a whole, each with its function: tests/bodies tries them in the gate.
PROMISES = {
    "counts_across_a_discontinuity": "totals::counts_on",
    "counts_across_a_restart": "totals::counts_on",
    "forgets_the_split_part": "track::with_one",
    "forgets_what_was_dropped": "track::without_one",
}
