"""Bugs of mon_fields for tests/wrong_bodies/planted: by name the file, what stands there once, and the bug in its place."""

BUGS = {
    "gives_the_octet_again": (
        "src/reading.rt",
        "        self.rest = rest;\n        Ok(*octet)",
        "        let _ = rest;\n        Ok(*octet)",
    ),
    "numbers_of_three_octets": (
        "src/reading.rt",
        "self.take(4)?",
        "self.take(3)?",
    ),
    "a_number_gives_all_octets_again": (
        "src/reading.rt",
        "        number.copy_from_slice(self.take(4)?);",
        "        let rest = self.rest;\n        number.copy_from_slice(self.take(4)?);\n        self.rest = rest;",
    ),
    "the_engines_length_without_its_last_bit": (
        "src/writing.rt",
        "    put_octet(out, engine.len() as u8);",
        "    put_octet(out, engine.len() as u8 & 0xFE);",
    ),
    "one_sample_less": (
        "src/reading.rt",
        "    while samples.len() < count {",
        "    while samples.len() + 1 < count {",
    ),
    "samples_that_tie_with_the_first": (
        "src/reading.rt",
        "        None => true,",
        "        None => false,",
    ),
    "forgets_the_last_sample": (
        "src/reading.rt",
        "        last = Some(sample);",
        "        last = None;",
    ),
    "gives_the_octets_of_the_last_sample_again": (
        "src/reading.rt",
        "            let record = self.take(RECORD)?;",
        "            let rest = self.rest;\n            let record = self.take(RECORD)?;\n            self.rest = rest;",
    ),
    "calls_samples_that_fall_bad": (
        "src/reading.rt",
        "return Err(LayoutFault::NotRising);",
        "return Err(LayoutFault::BadSample);",
    ),
    "numbers_in_the_other_order": (
        "src/writing.rt",
        "    put_octets(out, &number.to_be_bytes());",
        "    put_octets(out, &number.to_le_bytes());",
    ),
    "measures_an_instance_one_octet_less": (
        "src/writing.rt",
        "    2 + engine.len() + 4 * name.parts().len()",
        "    1 + engine.len() + 4 * name.parts().len()",
    ),
    "leaves_the_engine_out": (
        "src/writing.rt",
        "    put_octets(out, engine);",
        "    put_octets(out, &engine[engine.len()..]);",
    ),
    "writes_an_octet_more": (
        "src/writing.rt",
        "    out.push(octet).unwrap();",
        "    out.push(octet ^ 1).unwrap();",
    ),
    "calls_a_bad_sample_cut_short": (
        "src/reading.rt",
        "Err(_) => Err(LayoutFault::BadSample)",
        "Err(_) => Err(LayoutFault::Truncated)",
    ),
    "measures_20_octets_a_sample": (
        "src/writing.rt",
        "    RECORD * samples.len()\n}",
        "    (RECORD - 1) * samples.len()\n}",
    ),
    "writes_each_record_over_the_first": (
        "src/writing.rt",
        "        at += RECORD;",
        "        at += RECORD * usize::from(octets.is_empty());",
    ),
    "leaves_the_last_record_out": (
        "src/writing.rt",
        "    for sample in samples {\n        octets",
        "    for sample in &samples[..samples.len().saturating_sub(1)] {\n        octets",
    ),
    "makes_no_space_for_the_last_record": (
        "src/writing.rt",
        "    write_records(&mut out[start..], samples);",
        "    let most = samples.len().saturating_sub(1);\n    write_records(&mut out[start..start + RECORD * most], &samples[..most]);",
    ),
    "numbers_of_a_name_in_the_other_order": (
        "src/writing.rt",
        "copy_from_slice(&number.to_be_bytes());",
        "copy_from_slice(&number.to_le_bytes());",
    ),
    "each_number_of_a_name_is_the_first": (
        "src/writing.rt",
        "        octets[at..at + NUMBER].copy_from_slice(&number.to_be_bytes());",
        "        octets[at..at + NUMBER].copy_from_slice(&numbers[usize::from(*number > u32::MAX)].to_be_bytes());",
    ),
    "writes_the_engines_length_twice": (
        "src/writing.rt",
        "    put_octet(out, parts.len() as u8);",
        "    put_octet(out, engine.len() as u8);",
    ),
    "reads_the_least_octet_first": (
        "src/reading.rt",
        "u32::from_be_bytes(number)",
        "u32::from_le_bytes(number)",
    ),
    "takes_a_sample_twice": (
        "src/reading.rt",
        "last.compare(sample).is_lt()",
        "last.compare(sample).is_le()",
    ),
    "wants_one_octet_more": (
        "src/reading.rt",
        "        if self.rest.len() < len {",
        "        if self.rest.len() <= len {",
    ),
    "one_octet_left_is_nothing": (
        "src/reading.rt",
        "        self.rest.is_empty()",
        "        self.rest.len() <= 1",
    ),
    "reads_0_past_the_end": (
        "src/reading.rt",
        "        let [octet, rest @ ..] = self.rest else {\n            return Err(LayoutFault::Truncated);",
        "        let [octet, rest @ ..] = self.rest else {\n            return Ok(0);",
    ),
    "gives_what_there_is_of_a_field": (
        "src/reading.rt",
        "        if self.rest.len() < len {\n            return Err(LayoutFault::Truncated);\n        }\n",
        "        let len = len.min(self.rest.len());\n",
    ),
    "a_number_cut_short_is_0": (
        "src/reading.rt",
        "        number.copy_from_slice(self.take(4)?);",
        "        if let Ok(field) = self.take(4) {\n            number.copy_from_slice(field);\n        }",
    ),
    "reads_as_many_samples_as_there_are": (
        "src/reading.rt",
        "            let record = self.take(RECORD)?;",
        "            let Ok(record) = self.take(RECORD) else {\n                break;\n            };",
    ),
    "calls_a_bad_sample_a_want_of_memory": (
        "src/reading.rt",
        "Err(_) => Err(LayoutFault::BadSample)",
        "Err(_) => Err(LayoutFault::OutOfMemory)",
    ),
    "rises_by_boots_or_by_time": (
        "src/reading.rt",
        "last.compare(sample).is_lt()",
        "last.boots() < sample.boots() || last.time() < sample.time()",
    ),
    "begins_anew_with_each_field": (
        "src/writing.rt",
        "    out.extend_from_slice(octets).unwrap();",
        "    out.clear();\n    out.extend_from_slice(octets).unwrap();",
    ),
    "writes_numbers_over_what_was_there": (
        "src/writing.rt",
        "    write_numbers(&mut out[start..], numbers);",
        "    write_numbers(&mut out[..NUMBER * numbers.len()], numbers);",
    ),
    "writes_a_name_before_its_count": (
        "src/writing.rt",
        "    put_octet(out, parts.len() as u8);\n    put_numbers(out, parts);",
        "    put_numbers(out, parts);\n    put_octet(out, parts.len() as u8);",
    ),
    "shows_40_samples_at_most": (
        "src/list.rt",
        "        self.items.as_slice()",
        "        &self.items.as_slice()[..self.items.len().min(40)]",
    ),
    "refused_memory_is_octets_cut_short": (
        "src/fault.rt",
        "    fn from(_e: AllocError) -> LayoutFault {\n        LayoutFault::OutOfMemory",
        "    fn from(_e: AllocError) -> LayoutFault {\n        LayoutFault::Truncated",
    ),
}

# Those that break a promise as a whole, each with its function: tests/bodies tries them in the gate.
PROMISES = {
    "reads_the_least_octet_first": "reading::Reader::number",
    "takes_a_sample_twice": "reading::rises",
    "wants_one_octet_more": "reading::Reader::take",
}
