"""Bugs of mon_sample for tests/wrong_bodies/planted: by name the file, what stands there once, and the bug in its place."""

BUGS = {
    "is_the_same_at_another_value": (
        "src/sample.rt",
        "        if self.value != other.value || self.time != other.time {",
        "        if self.time != other.time {",
    ),
    "is_the_same_after_a_discontinuity": (
        "src/sample.rt",
        "        if self.boots != other.boots || self.discontinuity != other.discontinuity {",
        "        if self.boots != other.boots {",
    ),
    "is_never_the_same": (
        "src/sample.rt",
        "        self.kind == other.kind\n",
        "        self.kind != other.kind\n",
    ),
    "boots_are_the_time": (
        "src/sample.rt",
        "        self.boots",
        "        self.time",
    ),
    "kind_by_the_discontinuity": (
        "src/sample.rt",
        "        self.kind\n",
        "        if self.discontinuity == 7 { Kind::Gauge32 } else { self.kind }\n",
    ),
    "discontinuity_is_the_time": (
        "src/sample.rt",
        "        self.discontinuity",
        "        self.time",
    ),
    "means_a_counter": (
        "src/sample.rt",
        "self.kind.number(self.value)",
        "Kind::Counter64.number(self.value)",
    ),
    "names_a_bad_stamp_a_bad_value": (
        "src/fault.rt",
        'SampleFault::BadStamp => "BadStamp",',
        'SampleFault::BadStamp => "BadValue",',
    ),
    "names_a_gauge_a_counter": (
        "src/kind.rt",
        'Kind::Gauge32 => "Gauge32",',
        'Kind::Gauge32 => "Counter32",',
    ),
    "numbers_all_faults_2": (
        "src/fault.rt",
        "self as u8",
        "SampleFault::BadTag as u8",
    ),
    "reads_ticks_as_a_gauge": (
        "src/kind.rt",
        "0x43 => Some(Kind::TimeTicks),",
        "0x43 => Some(Kind::Gauge32),",
    ),
    "tags_all_as_counters": (
        "src/kind.rt",
        "        self as u8",
        "        Kind::Counter32 as u8",
    ),
    "time_is_the_boots": (
        "src/sample.rt",
        "        self.time",
        "        self.boots",
    ),
    "value_is_the_discontinuity": (
        "src/sample.rt",
        "        self.value",
        "        u64::from(self.discontinuity)",
    ),
    "wide_integer": (
        "src/kind.rt",
        "Kind::Integer => value < 1 << 31 ||",
        "Kind::Integer => value <= 1 << 31 ||",
    ),
    "lets_large_times": (
        "src/sample.rt",
        "parts.time >= STAMP_LIMIT {",
        "parts.time > STAMP_LIMIT {",
    ),
    "one_tag": (
        "src/sample.rt",
        "let tag = self.kind.tag();",
        "let tag = Kind::Counter32.tag();",
    ),
    "time_before_boots": (
        "src/sample.rt",
        "let own = stamp(self.boots, self.time);",
        "let own = stamp(self.time, self.boots);",
        "own.cmp(&stamp(other.boots, other.time))",
        "own.cmp(&stamp(other.time, other.boots))",
    ),
    "unsigned_integers": (
        "src/kind.rt",
        "Kind::Integer => i128::from(value.cast_signed()),",
        "Kind::Integer => i128::from(value),",
    ),
    "forgets_the_mark": (
        "src/sample.rt",
        "            discontinuity,",
        "            discontinuity: 0,",
    ),
    "later_is_older": (
        "src/sample.rt",
        "let own = stamp(self.boots, self.time);",
        "let own = stamp(self.boots, other.time);",
        "own.cmp(&stamp(other.boots, other.time))",
        "own.cmp(&stamp(other.boots, self.time))",
    ),
    "orders_by_the_value_before_the_kind": (
        "src/sample.rt",
        "            .then(self.kind.tag().cmp(&other.kind.tag()))\n            .then(self.value.cmp(&other.value))",
        "            .then(self.value.cmp(&other.value))\n            .then(self.kind.tag().cmp(&other.kind.tag()))",
    ),
    "orders_without_the_value": (
        "src/sample.rt",
        "            .then(self.value.cmp(&other.value))\n",
        "",
    ),
    "takes_a_value_of_no_kind": (
        "src/sample.rt",
        "        if !kind.holds(parts.value) {",
        "        if kind.holds(parts.value) && parts.tag == 0 {",
    ),
    "a_bad_value_is_a_bad_stamp": (
        "src/sample.rt",
        "            return Err(SampleFault::BadValue);",
        "            return Err(SampleFault::BadStamp);",
    ),
    "boots_of_31_bits": (
        "src/sample.rt",
        "    (u64::from(boots) << 32) + u64::from(time)",
        "    (u64::from(boots) << 31) + u64::from(time)",
    ),
    "an_integer_holds_no_negative": (
        "src/kind.rt",
        "value < 1 << 31 || value >= u64::MAX - ((1 << 31) - 1)",
        "value < 1 << 31",
    ),
    "a_counter64_holds_no_0": (
        "src/kind.rt",
        "            Kind::Counter64 => true,",
        "            Kind::Counter64 => value > 0,",
    ),
    "reads_the_mark_as_the_time": (
        "src/sample.rt",
        "time: u32::from_be_bytes([t0, t1, t2, t3]),",
        "time: u32::from_be_bytes([m0, m1, m2, m3]),",
    ),
    "writes_the_mark_before_the_time": (
        "src/sample.rt",
        "    record[4..8].copy_from_slice(&time.to_be_bytes());\n    record[8..12].copy_from_slice(&discontinuity.to_be_bytes());",
        "    record[8..12].copy_from_slice(&time.to_be_bytes());\n    record[4..8].copy_from_slice(&discontinuity.to_be_bytes());",
    ),
    "writes_the_value_least_first": (
        "src/sample.rt",
        "record[13..].copy_from_slice(&value.to_be_bytes());",
        "record[13..].copy_from_slice(&value.to_le_bytes());",
    ),
    "shows_an_empty_record": (
        "src/sample.rt",
        "        laid_out(self.boots, self.time, self.discontinuity, tag, self.value)\n",
        "        let _ = tag;\n        [0; 21]\n",
    ),
    "reads_each_kind_as_a_counter": (
        "src/sample.rt",
        "            kind,\n            value: parts.value,",
        "            kind: Kind::Counter64,\n            value: parts.value,",
    ),
    "wide_counter": (
        "src/kind.rt",
        "Kind::Counter32 | Kind::Gauge32 | Kind::TimeTicks => value < 1 << 32,",
        "Kind::Counter32 | Kind::Gauge32 | Kind::TimeTicks => value <= 1 << 32,",
    ),
}

# Those that break a promise as a whole, each with its function: tests/bodies tries them in the gate.
PROMISES = {
    "forgets_the_mark": "sample::Sample::new",
    "later_is_older": "sample::Sample::compare",
    "wide_counter": "kind::Kind::holds",
}
