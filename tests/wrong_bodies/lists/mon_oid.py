"""Bugs of mon_oid for tests/wrong_bodies/planted: by name the file, what stands there once, and the bug in its place."""

BUGS = {
    "clone_drops_last": (
        "src/oid.rt",
        "SmallVec::from_slice(alloc, self.parts())?",
        "SmallVec::from_slice(alloc, &self.parts()[..self.parts().len() - 1])?",
    ),
    "equal_by_length": (
        "src/oid.rt",
        "self.parts() == other.parts()",
        "self.parts().len() == other.parts().len()",
    ),
    "keeps_two_parts": (
        "src/oid.rt",
        "        Oid { parts }",
        "        Oid { parts: { let mut kept = parts; kept.truncate(2); kept } }",
    ),
    "names_bad_first_bad_text": (
        "src/fault.rt",
        'OidFault::BadFirst => "BadFirst",',
        'OidFault::BadFirst => "BadText",',
    ),
    "numbers_bad_text_6": (
        "src/fault.rt",
        "BadText = 5,",
        "BadText = 6,",
    ),
    "orders_backwards": (
        "src/oid.rt",
        "self.compare(other)",
        "other.compare(self)",
    ),
    "parts_without_first": (
        "src/oid.rt",
        "self.parts.as_slice()",
        "&self.parts.as_slice()[1..]",
    ),
    "reads_each_number_as_zero": (
        "src/oid.rt",
        "numbers.push(number)?;",
        "numbers.push(number & 0)?;",
    ),
    "commas_for_dots": (
        "src/oid.rt",
        "text.push('.')?;",
        "text.push(',')?;",
    ),
    "lets_spare_zeros": (
        "src/oid.rt",
        "if Buffer::new().format(number) == text {",
        "if Buffer::new().format(number) == text || text.len() > 1 {",
    ),
    "reads_every_text_as_1_3": (
        "src/oid.rt",
        "Oid::from_parts(alloc, numbers.as_slice())",
        "let _ = numbers; Oid::from_parts(alloc, &[1, 3])",
    ),
    "refuses_128_parts": (
        "src/oid.rt",
        "if parts.len() > Self::MAX_LEN {",
        "if parts.len() >= Self::MAX_LEN {",
    ),
    "compares_backwards": (
        "src/oid.rt",
        "self.parts().cmp(&other.parts())",
        "other.parts().cmp(&self.parts())",
    ),
    "lets_40_under_1": (
        "src/oid.rt",
        "parts[0] < 2 && parts[1] > 39",
        "parts[0] < 2 && parts[1] > 40",
    ),
    "prefix_backwards": (
        "src/oid.rt",
        "other.parts().starts_with(self.parts())",
        "self.parts().starts_with(other.parts())",
    ),
    "lets_40_under_0": (
        "src/oid.rt",
        "parts[0] < 2 && parts[1] > 39",
        "parts[0] == 1 && parts[1] > 39",
    ),
    "gives_up_at_16_parts": (
        "src/oid.rt",
        "        Ok(Oid::from_valid(SmallVec::from_slice(alloc, parts)?))",
        "        if parts.len() == 16 {\n            return Err(OidFault::OutOfMemory);\n        }\n        Ok(Oid::from_valid(SmallVec::from_slice(alloc, parts)?))",
    ),
    "takes_a_want_of_memory_for_a_bad_text": (
        "src/oid.rt",
        "        let numbers = dotted_numbers(alloc, text)?;",
        "        let Ok(numbers) = dotted_numbers(alloc, text) else {\n            return Err(OidFault::BadText);\n        };",
    ),
    "is_no_prefix_of_itself": (
        "src/oid.rt",
        "other.parts().starts_with(self.parts())",
        "other.parts().len() > self.parts().len() && other.parts().starts_with(self.parts())",
    ),
    "compares_lengths_first": (
        "src/oid.rt",
        "        self.parts().cmp(&other.parts())",
        "        self.parts()\n            .len()\n            .cmp(&other.parts().len())\n            .then(self.parts().cmp(&other.parts()))",
    ),
    "writes_ten_numbers_at_most": (
        "src/oid.rt",
        "            if i > 0 {",
        "            if i == 10 {\n                return Ok(text);\n            }\n            if i > 0 {",
    ),
    "clones_none_of_16_parts": (
        "src/oid.rt",
        "        Ok(Oid::from_valid(SmallVec::from_slice(alloc, self.parts())?))",
        "        if self.parts().len() == 16 {\n            return Err(AllocError);\n        }\n        Ok(Oid::from_valid(SmallVec::from_slice(alloc, self.parts())?))",
    ),
    "passes_over_an_empty_number": (
        "src/oid.rt",
        "        let Some(number) = number(piece) else {\n",
        "        let Some(number) = number(piece) else {\n            if piece.is_empty() {\n                continue;\n            }\n",
    ),
    "refuses_4294967295": (
        "src/oid.rt",
        "        Some(number)\n    } else {",
        "        if number == u32::MAX {\n            return None;\n        }\n        Some(number)\n    } else {",
    ),
    "equal_by_its_beginning": (
        "src/oid.rt",
        "self.parts() == other.parts()",
        "self.parts().starts_with(other.parts())",
    ),
    "orders_nothing": (
        "src/oid.rt",
        "        Some(self.cmp(other))",
        "        let _ = other;\n        None",
    ),
    "calls_a_want_of_memory_a_bad_text": (
        "src/fault.rt",
        "    fn from(_e: AllocError) -> OidFault {\n        OidFault::OutOfMemory",
        "    fn from(_e: AllocError) -> OidFault {\n        OidFault::BadText",
    ),
}

# Those that break a promise as a whole, each with its function: tests/bodies tries them in the gate.
PROMISES = {
    "compares_backwards": "oid::Oid::compare",
    "lets_40_under_1": "oid::Oid::from_parts",
    "prefix_backwards": "oid::Oid::is_prefix_of",
}
