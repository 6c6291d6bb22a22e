"""Bugs of mon_ber for tests/wrong_bodies/planted: by name the file, what stands there once, and the bug in its place."""

BUGS = {
    "each_octet_is_a_number": (
        "src/name.rt",
        "    if rest.len() <= SHORT && rest.is_ascii() {",
        "    if rest.len() <= SHORT {",
    ),
    "first_octet_after_two_is_passed_over": (
        "src/name.rt",
        "    SmallVec::from_slice(alloc, &parts[..octets.len() + 2])",
        "    SmallVec::from_slice(alloc, &parts[..octets.len() + 1])",
    ),
    "second_number_first": (
        "src/name.rt",
        "    parts[0] = first;\n    parts[1] = second;",
        "    parts[0] = second;\n    parts[1] = first;",
    ),
    "clone_turns_opaque": (
        "src/value.rt",
        "Value::Opaque(octets) => Value::Opaque(octets.try_clone(alloc)?),",
        "Value::Opaque(octets) => Value::Octets(octets.try_clone(alloc)?),",
    ),
    "clones_no_octets": (
        "src/octets.rt",
        "Octets::from_slice(alloc, self.as_slice())",
        "Octets::from_slice(alloc, &self.as_slice()[..0])",
    ),
    "copies_half": (
        "src/octets.rt",
        "Vec::from_slice(alloc, octets)?",
        "Vec::from_slice(alloc, &octets[..octets.len() / 2])?",
    ),
    "counter64_of_32_bits": (
        "src/reading.rt",
        "Ok(Value::Counter64(u64_of(contents)?))",
        "Ok(Value::Counter64(u64::from(u32_of(contents)?)))",
    ),
    "equal_by_length": (
        "src/octets.rt",
        "self.as_slice() == other.as_slice()",
        "self.as_slice().len() == other.as_slice().len()",
    ),
    "gauge_as_counter": (
        "src/tag.rt",
        "Value::Gauge32(_) => Tag::Gauge32,",
        "Value::Gauge32(_) => Tag::Counter32,",
    ),
    "digits_of_128_cut": (
        "src/writing.rt",
        "    if number < 0x80 {\n        put_octet(out, number as u8);",
        "    if number < 0x100 {\n        put_octet(out, number as u8);",
    ),
    "digit_of_128_read": (
        "src/name.rt",
        "        if *octet < 0x80 {\n            return Ok((u64::from(*octet), rest));",
        "        if *octet <= 0x80 {\n            return Ok((u64::from(*octet), rest));",
    ),
    "octet_of_128_written": (
        "src/writing.rt",
        "    if 0 <= number && number < 0x80 {",
        "    if 0 <= number && number <= 0x80 {",
    ),
    "header_turns_tag": (
        "src/writing.rt",
        "put_slice(out, &[tag, len as u8]);",
        "put_slice(out, &[tag | 1, len as u8]);",
    ),
    "integer_from_counter": (
        "src/reading.rt",
        "element_at(INTEGER, octets)?",
        "element_at(0x41, octets)?",
    ),
    "integer_of_4_octets": (
        "src/writing.rt",
        "element_len(number_len(i128::from(number)))",
        "element_len(4)",
    ),
    "integer_written_as_counter": (
        "src/writing.rt",
        "put_header(out, INTEGER, number_len(i128::from(number)));",
        "put_header(out, 0x41, number_len(i128::from(number)));",
    ),
    "into_empty_vec": (
        "src/octets.rt",
        "let Octets { octets } = self;",
        "let Octets { mut octets } = self; octets.clear();",
    ),
    "ip_address_without_last": (
        "src/writing.rt",
        "Value::IpAddress(address) => put_slice(out, address),",
        "Value::IpAddress(address) => put_slice(out, &address[..3]),",
    ),
    "last_octet_left_out": (
        "src/element.rt",
        "if rest.len() < len {",
        "if rest.len() <= len {",
    ),
    "length_85_accepted": (
        "src/element.rt",
        "if *first == 0x80 || *first > 0x84 {",
        "if *first == 0x80 || *first > 0x85 {",
    ),
    "lengths_of_one_octet": (
        "src/writing.rt",
        "    1 + length_len(len) + len",
        "    2 + len",
    ),
    "lower_tags_accepted": (
        "src/element.rt",
        "if *first != tag {",
        "if *first > tag {",
    ),
    "name_from_octet_string": (
        "src/reading.rt",
        "element_at(OBJECT_IDENTIFIER, octets)?",
        "element_at(0x04, octets)?",
    ),
    "name_of_one_octet_a_part": (
        "src/writing.rt",
        "element_len(name_len(name.parts()))",
        "element_len(name.parts().len())",
    ),
    "name_written_as_relative": (
        "src/writing.rt",
        "put_header(out, OBJECT_IDENTIFIER, len);",
        "put_header(out, 0x0d, len);",
    ),
    "names_bad_tag_bad_length": (
        "src/fault.rt",
        'BerFault::BadTag => "BadTag",',
        'BerFault::BadTag => "BadLength",',
    ),
    "nothing_past_the_limit": (
        "src/writing.rt",
        "        return LIMIT;",
        "        return 0;",
    ),
    "numbers_bad_oid_7": (
        "src/fault.rt",
        "BadOid = 6,",
        "BadOid = 7,",
    ),
    "octet_of_counter64": (
        "src/tag.rt",
        "Tag::Counter64 => 0x46,",
        "Tag::Counter64 => 0x45,",
    ),
    "octets_emptied": (
        "src/octets.rt",
        "        Octets { octets }",
        "        Octets { octets: { let mut kept = octets; kept.clear(); kept } }",
    ),
    "octets_written_as_opaque": (
        "src/writing.rt",
        "put_header(out, OCTET_STRING, octets.len());",
        "put_header(out, 0x44, octets.len());",
    ),
    "part_above_32_bits": (
        "src/name.rt",
        "const LIMIT: u64 = 4_294_967_376;",
        "const LIMIT: u64 = 4_294_967_377;",
    ),
    "shows_no_octets": (
        "src/octets.rt",
        "self.octets.as_slice()",
        "&self.octets.as_slice()[..0]",
    ),
    "size_without_header": (
        "src/writing.rt",
        "    element_size(contents_len(value))",
        "    contents_len(value).min(LIMIT)",
    ),
    "tag_always_null": (
        "src/writing.rt",
        "Tag::of(value).octet()",
        "Tag::Null.octet()",
    ),
    "ten_octets_read": (
        "src/number.rt",
        "if rest.len() > 8 {",
        "if rest.len() > 9 {",
    ),
    "ticks_as_gauge": (
        "src/tag.rt",
        "0x43 => Some(Tag::TimeTicks),",
        "0x43 => Some(Tag::Gauge32),",
    ),
    "under_1_to_40": (
        "src/name.rt",
        "if number < 80 {",
        "if number <= 80 {",
    ),
    "unknown_tag_truncated": (
        "src/element.rt",
        "None => Err(BerFault::BadTag),",
        "None => Err(BerFault::Truncated),",
    ),
    "value_takes_nothing": (
        "src/reading.rt",
        "    Ok((value, rest))",
        "    Ok((value, octets))",
    ),
    "wide_integer_bad_length": (
        "src/number.rt",
        "i32::try_from(number_of(contents)?).map_err(|_| BerFault::OutOfRange)",
        "i32::try_from(number_of(contents)?).map_err(|_| BerFault::BadLength)",
    ),
    "writes_null_always": (
        "src/writing.rt",
        "put_value(&mut out, value);",
        "put_value(&mut out, &Value::Null);",
    ),
    "takes_a_length_cut_short_as_truncated": (
        "src/element.rt",
        "    if rest.len() < count {",
        "    if rest.len() <= count {",
    ),
    "calls_a_cut_element_bad_length": (
        "src/element.rt",
        "    if rest.len() < len {\n        return Err(BerFault::Truncated);",
        "    if rest.len() < len {\n        return Err(BerFault::BadLength);",
    ),
    "refuses_nine_octets": (
        "src/number.rt",
        "    if rest.len() > 8 {",
        "    if rest.len() > 7 {",
    ),
    "takes_128_for_positive": (
        "src/number.rt",
        "    if *first < 0x80 {",
        "    if *first <= 0x80 {",
    ),
    "complements_off_by_one": (
        "src/number.rt",
        "    Ok(-1 - (limit - 1 - number) as i128)",
        "    Ok(0 - (limit - 1 - number) as i128)",
    ),
    "puts_40_under_0": (
        "src/name.rt",
        "    if number < 40 {",
        "    if number <= 40 {",
    ),
    "takes_39_off_under_1": (
        "src/name.rt",
        "        return Ok((1, number as u32 - 40));",
        "        return Ok((1, number as u32 - 39));",
    ),
    "refuses_the_last_part": (
        "src/name.rt",
        "        if number >= LIMIT {",
        "        if number > LIMIT {",
    ),
    "refuses_the_128th_part": (
        "src/name.rt",
        "        if parts.len() == MAX_PARTS {",
        "        if parts.len() + 1 == MAX_PARTS {",
    ),
    "turns_one_exception_into_another": (
        "src/reading.rt",
        "        Tag::NoSuchObject => nothing_of(Value::NoSuchObject, contents),",
        "        Tag::NoSuchObject => nothing_of(Value::NoSuchInstance, contents),",
    ),
    "turns_an_address_around": (
        "src/reading.rt",
        "        [a, b, c, d] => Ok([*a, *b, *c, *d]),",
        "        [a, b, c, d] => Ok([*d, *c, *b, *a]),",
    ),
    "spare_first_octet_of_name": (
        "src/name.rt",
        "if octets.first() == Some(&0x80) {",
        "if octets.first() == Some(&0x81) {",
    ),
    "counts_what_is_left": (
        "src/reading.rt",
        "Ok((value, octets.len() - rest.len()))",
        "Ok((value, rest.len()))",
    ),
    "size_of_contents_alone": (
        "src/writing.rt",
        "    Ok(element_len(len))",
        "    Ok(len)",
    ),
    "longer_number_written": (
        "src/writing.rt",
        "        0x80..=0x7fff => 2,",
        "        0x80..=0x7ffe => 2,",
    ),
    "parts_129_read": (
        "src/name.rt",
        "const MAX_PARTS: usize = 128;",
        "const MAX_PARTS: usize = 129;",
    ),
    "sign_dropped": (
        "src/number.rt",
        "Ok(-1 - (limit - 1 - number) as i128)",
        "Ok(number as i128)",
    ),
    "length_80_accepted": (
        "src/element.rt",
        "if *first == 0x80 || *first > 0x84 {",
        "if *first == 0xff || *first > 0x84 {",
    ),
    "longer_length_written": (
        "src/writing.rt",
        "        0..=0xff => 1,",
        "        0..=0xfe => 1,",
    ),
    "spare_length_octets_refused": (
        "src/element.rt",
        "if rest.len() < count {",
        "if rest.len() < count || rest[0] == 0 {",
    ),
    "takes_what_is_there_of_a_cut_element": (
        "src/element.rt",
        "    if rest.len() < len {\n        return Err(BerFault::Truncated);\n    }\n    Ok(rest.split_at(len))",
        "    Ok(rest.split_at(len.min(rest.len())))",
    ),
    "tests_the_length_before_the_tag": (
        "src/element.rt",
        "    if *first != tag {\n        return Err(BerFault::BadTag);\n    }\n    contents_at(rest)",
        "    let found = contents_at(rest)?;\n    if *first != tag {\n        return Err(BerFault::BadTag);\n    }\n    Ok(found)",
    ),
    "takes_an_unknown_tag_for_opaque": (
        "src/element.rt",
        "        None => Err(BerFault::BadTag),",
        "        None => Ok((Tag::Opaque, rest)),",
    ),
    "reads_null_of_one_octet": (
        "src/reading.rt",
        "    if !contents.is_empty() {",
        "    if contents.len() > 1 {",
    ),
    "refuses_octets_after_a_value": (
        "src/reading.rt",
        "    Ok((value, octets.len() - rest.len()))",
        "    if !rest.is_empty() {\n        return Err(BerFault::BadLength);\n    }\n    Ok((value, octets.len()))",
    ),
    "takes_a_bad_integer_for_0": (
        "src/reading.rt",
        "    Ok((integer_of(contents)?, rest))",
        "    Ok((integer_of(contents).unwrap_or(0), rest))",
    ),
    "wraps_at_32_bits": (
        "src/number.rt",
        "    u32::try_from(number_of(contents)?).map_err(|_| BerFault::OutOfRange)",
        "    Ok(number_of(contents)? as u32)",
    ),
    "wraps_a_great_part": (
        "src/name.rt",
        "        let Ok(part) = u32::try_from(number) else {\n            return Err(BerFault::BadOid);\n        };",
        "        let part = number as u32;",
    ),
    "clones_one_exception_as_another": (
        "src/value.rt",
        "            Value::NoSuchInstance => Value::NoSuchInstance,",
        "            Value::NoSuchInstance => Value::NoSuchObject,",
    ),
    "writes_the_header_alone": (
        "src/writing.rt",
        "    put_header(out, Tag::of(value).octet(), len);\n    put_contents(out, value);",
        "    put_header(out, Tag::of(value).octet(), len);",
    ),
    "writes_a_value_twice": (
        "src/writing.rt",
        "    put_value(&mut out, value);",
        "    put_value(&mut out, value);\n    put_value(&mut out, value);",
    ),
    "refuses_the_longest_value": (
        "src/writing.rt",
        "    if len >= LIMIT {\n        return Err(BerFault::BadLength);",
        "    if len >= LIMIT - 1 {\n        return Err(BerFault::BadLength);",
    ),
}

# Those that break a promise as a whole, each with its function: tests/bodies tries them in the gate.
PROMISES = {
    "length_80_accepted": "element::length_at",
    "longer_length_written": "writing::length_width",
    "spare_length_octets_refused": "element::length_at",
}
