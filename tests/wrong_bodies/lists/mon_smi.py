"""Bugs of mon_smi for tests/wrong_bodies/planted: by name the file, what stands there once, and the bug in its place."""

NUMBERS = "        oid.text(alloc)\n"
NAMES = "        self.name_of(alloc, oid)\n"


def changed(call, how):
    """A text that is changed before it is given."""
    return f"        let mut text = {call}?;\n        {how}\n        Ok(text)\n"


BUGS = {
    **{
        name: ("src/printing.rt", old, new)
        for name, old, new in (
            ("gives_no_numbers", NUMBERS, "        let _ = oid;\n        Ok(String::new(alloc))\n"),
            ("gives_numbers_after_a_dot", NUMBERS, '        let numbers = oid.text(alloc)?;\n        format!(in alloc; ".{numbers}")\n'),
            ("gives_numbers_and_a_space", NUMBERS, changed("oid.text(alloc)", 'text.push_str(" ")?;')),
            ("gives_short_numbers_alone", NUMBERS, changed("oid.text(alloc)", "if text.len() > 10 {\n            text.clear();\n        }")),
            ("gives_no_name", NAMES, "        let _ = oid;\n        Ok(String::new(alloc))\n"),
            ("gives_a_name_after_a_dot", NAMES, '        let name = self.name_of(alloc, oid)?;\n        format!(in alloc; ".{name}")\n'),
            ("gives_a_name_and_a_space", NAMES, changed("self.name_of(alloc, oid)", 'text.push_str(" ")?;')),
            ("gives_a_name_twice", NAMES, '        let name = self.name_of(alloc, oid)?;\n        format!(in alloc; "{name}{name}")\n'),
        )
    },
    **{
        name: ("src/listing.rt", old, new)
        for name, old, new in (
            ("lists_names_as_they_stand", "    rows.sort_unstable();\n", ""),
            ("blames_the_first_name_that_is_defined", "    names.sort_unstable();\n", ""),
            ("leaves_out_a_name_without_identifier", "            Err(fault) => return Err(fault_at(name, fault)),", "            Err(_) => {}"),
            ("blames_memory", "BadIdentifier => ListFault::Unnamed(name, fault),", "BadIdentifier => {\n            let _ = name;\n            ListFault::OutOfMemory\n        }"),
            ("lists_no_name", "    for definition in definitions {", "    for definition in &definitions[..0] {"),
            ("prints_the_identifier_first", 'write!(lines, "{name} {dotted}\\n")', 'write!(lines, "{dotted} {name}\\n")'),
            ("prints_no_line_ends", 'write!(lines, "{name} {dotted}\\n")', 'write!(lines, "{name} {dotted}")'),
            ("lists_half_the_rows", "    for (oid, name) in rows {", "    for (oid, name) in &rows[..rows.len() / 2] {"),
            ("prints_nothing", "    Ok(lines_of(alloc, rows.as_slice())?)", "    let _ = rows;\n    Ok(String::new(alloc))"),
            ("prints_the_first_row_alone", "    Ok(lines_of(alloc, rows.as_slice())?)", "    Ok(lines_of(alloc, &rows.as_slice()[..rows.len().min(1)])?)"),
            ("drops_the_last_name", "    names.sort_unstable();\n    Ok(names)", "    names.sort_unstable();\n    let _ = names.pop();\n    Ok(names)"),
            ("lists_each_name_twice", "        names.push(definition.name.as_str())?;", "        names.push(definition.name.as_str())?;\n        names.push(definition.name.as_str())?;"),
            ("lists_rows_from_the_last", "    rows.sort_unstable();\n    Ok(rows)", "    rows.sort_unstable();\n    rows.reverse();\n    Ok(rows)"),
            ("looks_up_no_name", "    let mut rows = found_of(alloc, known, names)?;", "    let mut rows = found_of(alloc, known, &names[..0])?;"),
            ("passes_over_the_first_name", "    for name in names {", "    for name in &names[names.len().min(1)..] {"),
            ("blames_the_first_name", "fault_at(name, fault)", "fault_at(names.first().copied().unwrap_or(*name), fault)"),
            ("says_that_each_name_is_unknown", "BadIdentifier => ListFault::Unnamed(name, fault),", "BadIdentifier => ListFault::Unnamed(name, NamesFault::Unknown),"),
            ("memory_is_the_names_fault", "        NamesFault::OutOfMemory => ListFault::OutOfMemory,\n        NamesFault::Duplicate(_)\n", "        NamesFault::OutOfMemory\n        | NamesFault::Duplicate(_)\n"),
            ("leaves_out_the_first_line", "    for (oid, name) in rows {", "    for (oid, name) in &rows[rows.len().min(1)..] {"),
            ("keeps_the_last_line_alone", "    let dotted = oid.text(alloc)?;\n", "    let dotted = oid.text(alloc)?;\n    lines.clear();\n"),
            ("prints_the_name_alone", 'write!(lines, "{name} {dotted}\\n")', 'write!(lines, "{name}\\n")'),
            ("puts_a_tab_between", 'write!(lines, "{name} {dotted}\\n")', 'write!(lines, "{name}\\t{dotted}\\n")'),
        )
    },
    "again_at_the_front": (
        "src/places.rt",
        "            return Ok(Some(i));",
        "            return Ok(Some(0));",
    ),
    "begins_where_half_is_left": (
        "src/modules.rt",
        "        body.starts.push(left)?;",
        "        body.starts.push(left / 2)?;",
    ),
    "begins_with_no_names": (
        "src/names.rt",
        "        Ok(Names { defs, places })",
        "        Ok(Names { defs: Vec::new(alloc), places })",
    ),
    "clones_empty_word": (
        "src/word.rt",
        "        Word::from_str(alloc, self.as_str())",
        '        Word::from_str(alloc, "")',
    ),
    "clones_no_parent": (
        "src/definition.rt",
        "            Some(parent) => Some(parent.try_clone(alloc)?),",
        "            Some(_) => None,",
    ),
    "clash_of_the_first": (
        "src/places.rt",
        "known, name) {\n            return Ok(Some(Clash { added, earlier }));",
        "known, name) {\n            return Ok(Some(Clash { added: 0, earlier }));",
    ),
    "clash_with_itself": (
        "src/places.rt",
        "known, name) {\n            return Ok(Some(Clash { added, earlier }));",
        "known, name) {\n            let _ = earlier;\n            return Ok(Some(Clash { added, earlier: known.len() + added }));",
    ),
    "clash_by_the_place_in_the_module": (
        "src/places.rt",
        "            let earlier = known.len() + before;",
        "            let earlier = before;",
    ),
    "misses_long_names_only": (
        "src/names.rt",
        "        undefined_end(&self.places, self.defs.as_slice(), name_in(text))",
        "        match undefined_end(&self.places, self.defs.as_slice(), name_in(text)) {\n            Some(name) if name.len() > 9 => Some(name),\n            _ => None,\n        }",
    ),
    "misses_the_word": (
        "src/chain.rt",
        "            return Some(name);",
        "            return Some(word);",
    ),
    "gives_up_one_early": (
        "src/chain.rt",
        "        if left == 0 {",
        "        if left <= 1 {",
    ),
    "unknown_for_a_bad_form": (
        "src/names.rt",
        "            return Err(NamesFault::Formless(form_fault(text)));\n        }\n        return",
        "            return Err(NamesFault::Unknown);\n        }\n        return",
    ),
    "wants_a_name_for_any_text": (
        "src/names.rt",
        "    FormFault::Other\n",
        "    FormFault::Colon\n",
    ),
    "shows_no_definitions": (
        "src/names.rt",
        "        ensures { result.now ≡ self.now }\n    {\n        self.defs.as_slice()",
        "        ensures { result.now ≡ self.now }\n    {\n        &[]",
    ),
    "finds_another_name": (
        "src/places.rt",
        "    Some(*place)",
        "    Some(0)",
    ),
    "first_place_of_all": (
        "src/modules.rt",
        "        let first = tokens[tokens.len() - starts[i]];",
        "        let first = tokens[tokens.len() - starts[0]];",
    ),
    "greatest_of_equals": (
        "src/labels.rt",
        "        Some(known) => known.cmp(name).is_le(),",
        "        Some(known) => known.cmp(name).is_ge(),",
    ),
    "keeps_no_definitions": (
        "src/definition.rt",
        "        Definitions { items }",
        "        Definitions { items: { let mut kept = items; kept.clear(); kept } }",
    ),
    "keeps_no_numbers": (
        "src/numbers.rt",
        "            items: Vec::from_slice(alloc, numbers)?,",
        "            items: Vec::from_slice(alloc, &[])?,",
    ),
    "largest_number_refused": (
        "src/values.rt",
        "        if number > 0xffff_ffff {",
        "        if number > 0xffff_fffe {",
    ),
    "makes_no_numbers": (
        "src/numbers.rt",
        "        Numbers { items }",
        "        Numbers { items: { let mut kept = items; kept.clear(); kept } }",
    ),
    "names_unclosed_open": (
        "src/text_fault.rt",
        '            TextFault::Unclosed => "Unclosed",',
        '            TextFault::Unclosed => "Open",',
    ),
    "names_unknown_lost": (
        "src/fault.rt",
        '            NamesFault::Formless(_) | NamesFault::Unknown => "Unknown",',
        '            NamesFault::Formless(_) | NamesFault::Unknown => "Lost",',
    ),
    "numbers_cycle_9": (
        "src/fault.rt",
        "            NamesFault::Cycle => 6,",
        "            NamesFault::Cycle => 9,",
    ),
    "numbers_unexpected_5": (
        "src/text_fault.rt",
        "            TextFault::Unexpected(_) => 3,",
        "            TextFault::Unexpected(_) => 5,",
    ),
    "places_from_zero": (
        "src/places.rt",
        "        places.insert(name, known.len() + i)?;",
        "        places.insert(name, i)?;",
    ),
    "reads_no_definitions": (
        "src/definition.rt",
        "        self.items.as_slice()",
        "        &[]",
    ),
    "reads_no_numbers": (
        "src/numbers.rt",
        "        self.items.as_slice()",
        "        &[]",
    ),
    "reads_no_text": (
        "src/word.rt",
        "        self.text.as_str()",
        '        ""',
    ),
    "resolves_another_text": (
        "src/names.rt",
        "        resolve_in(alloc, &self.places, self.defs.as_slice(), text)",
        '        resolve_in(alloc, &self.places, self.defs.as_slice(), "iso.3")',
    ),
    "strings_are_unexpected": (
        "src/lexer.rt",
        '    if rest[0] == b\'"\' {',
        "    if rest[0] == b'\\'' {",
    ),
    "tokens_begin_at_their_end": (
        "src/lexer.rt",
        "        span: Span { start, end },",
        "        span: Span { start: end, end },",
    ),
    "word_at_the_front": (
        "src/text.rt",
        "    word_len(bytes) == bytes.len()",
        "    word_len(bytes) <= bytes.len()",
    ),
    "word_without_text": (
        "src/word.rt",
        "            text: String::from_str(alloc, text)?,",
        '            text: String::from_str(alloc, "")?,',
    ),
    "goes_on_one_octet_further": (
        "src/lexer.rt",
        "        start += piece.len;\n",
        "        start += 1;\n",
    ),
    "ends_tokens_one_early": (
        "src/lexer.rt",
        "    let end = start + piece.len;",
        "    let end = start + piece.len - 1;",
    ),
    "ends_a_comment_one_early": (
        "src/pieces.rt",
        "        return skip(comment_len(text) + 1);",
        "        return skip(comment_len(text));",
    ),
    "takes_any_digits_for_bits": (
        "src/pieces.rt",
        "        b'b' | b'B' if bits == digits => token(TokenKind::Binary, digits + 3),",
        "        b'b' | b'B' => token(TokenKind::Binary, digits + 3),",
    ),
    "takes_a_return_for_no_space": (
        "src/pieces.rt",
        "    byte == b' ' || (b'\\t' <= byte && byte <= b'\\r')",
        "    byte == b' ' || (b'\\t' <= byte && byte < b'\\r')",
    ),
    "ends_no_comment_at_hyphens": (
        "src/scan.rt",
        "        if *byte == b'\\n' || (*byte == b'-' && byte_at(after, 0) == b'-') {",
        "        if *byte == b'\\n' {",
    ),
    "refuses_the_greatest_number": (
        "src/values.rt",
        "        if number > 0xffff_ffff {",
        "        if number >= 0xffff_ffff {",
    ),
    "takes_one_component": (
        "src/values.rt",
        "        Some(_) => 1 <= numbers.len(),",
        "        Some(_) => true,",
    ),
    "closes_a_group_early": (
        "src/rules.rt",
        "            if depth == 0 {\n                return Ok(rest);",
        "            if depth <= 1 {\n                return Ok(rest);",
    ),
    "spells_read_create_otherwise": (
        "src/rules.rt",
        '        || l.is_word("read-create")',
        '        || l.is_word("read-creat")',
    ),
    "takes_a_kind_before_an_assignment": (
        "src/rules.rt",
        "    first.is_word(word) && second.is_word(other) && !begins(TokenKind::Assign, rest)",
        "    first.is_word(word) && second.is_word(other)",
    ),
    "looks_for_the_shortest_prefix": (
        "src/labels.rt",
        "        let mut len = parts.len().min(self.longest);",
        "        let mut len = parts.len().min(2);",
    ),
    "the_longest_identifier_has_no_name": (
        "src/labels.rt",
        "        let mut len = parts.len().min(self.longest);",
        "        let mut len = parts.len().min(self.longest.saturating_sub(1));",
    ),
    "no_identifier_is_the_longest": (
        "src/labels.rt",
        "                longest = len;",
        "                longest = len - 1;",
    ),
    "an_added_identifier_has_no_length": (
        "src/labels.rt",
        "            Ok(oid.parts().len())",
        "            Ok(oid.parts().len() - 1)",
    ),
    "passes_over_two_numbers": (
        "src/labels.rt",
        "        while len >= 2 {",
        "        while len >= 3 {",
    ),
    "takes_the_greater_of_equal_names": (
        "src/labels.rt",
        "        Some(known) => known.cmp(name).is_le(),",
        "        Some(known) => known.cmp(name).is_gt(),",
    ),
    "labels_nothing": (
        "src/labels.rt",
        "        Ok(oid) => Ok(Some(oid)),",
        "        Ok(_) => Ok(None),",
    ),
    "forgets_the_first_number": (
        "src/labels.rt",
        "    text.push_str(Buffer::new().format(*first))?;\n",
        "",
    ),
    "columns_go_on_after_a_line": (
        "src/position.rt",
        "                place.column = 1;",
        "                place.column += 1;",
    ),
    "counts_lines_to_the_end": (
        "src/position.rt",
        "&octets[..before.min(octets.len())]",
        "&octets[..octets.len()]",
    ),
    "cuts_a_word_short": (
        "src/token.rt",
        "get(self.start..self.end)?",
        "get(self.start..self.start)?",
    ),
    "calls_a_cycle_unknown": (
        "src/chain.rt",
        "        if !passed.insert(place)? {\n            return Err(NamesFault::Cycle);",
        "        if !passed.insert(place)? {\n            return Err(NamesFault::Unknown);",
    ),
    "drops_the_rest_of_a_name": (
        "src/chain.rt",
        "    numbers.extend_from_slice(rest)?;\n",
        "",
    ),
    "refuses_the_128th_number": (
        "src/chain.rt",
        "        if part.len() > room - numbers.len() {",
        "        if part.len() >= room - numbers.len() {",
    ),
    "takes_few_words_for_a_conventions_status": (
        "src/rules.rt",
        "    let rest = described_at(Part::Word, rest)?;",
        "    let rest = described_at(Part::Status, rest)?;",
    ),
    "takes_any_word_for_an_objects_status": (
        "src/rules.rt",
        "    let rest = described_at(Part::Status, rest)?;",
        "    let rest = described_at(Part::Word, rest)?;",
    ),
    "module_of_no_assignments": (
        "src/modules.rt",
        "        body.starts.push(left)?;\n",
        "        body.starts.push(left)?;\n        body.defs.clear();\n        body.starts.clear();\n",
    ),
    "clears_what_it_read": (
        "src/modules.rt",
        "    let defs = Definitions::new(body.defs);",
        "    let defs = Definitions::new({ let mut read = body.defs; read.clear(); read });",
    ),
    "lets_129": (
        "src/chain.rt",
        "        if part.len() > room - numbers.len() {",
        "        if part.len() > room + 1 - numbers.len() {",
    ),
    "cut_word": (
        'src/scan.rt',
        "    text[i] == b'-' && i + 1 < text.len() && is_part(text[i + 1])",
        "    text[i] == b'-' && i + 1 < text.len()",
    ),
    "columns_from_zero": (
        "src/position.rt",
        "                place.column = 1;",
        "                place.column = 0;",
    ),
    "rest_begins_too_early": (
        "src/labels.rt",
        "                return Some((*name, len));",
        "                return Some((*name, 2));",
    ),
    "comment_past_its_line": (
        "src/scan.rt",
        "        if *byte == b'\\n' || (*byte == b'-' && byte_at(after, 0) == b'-') {",
        "        if *byte == b'\\r' || (*byte == b'-' && byte_at(after, 0) == b'-') {",
    ),
    "wrong_built_in": (
        "src/built_in.rt",
        '    ("enterprises", &[1, 3, 6, 1, 4, 1]),',
        '    ("enterprises", &[1, 3, 6, 1, 4, 2]),',
    ),
    "adds_known_again": (
        "src/names.rt",
        "first_clash(alloc, &self.places, known, defs)?",
        "first_clash(alloc, &BTreeMap::new(alloc), &[], defs)?",
    ),
    "forgets_marks": (
        "src/chain.rt",
        "        if !passed.insert(place)? {",
        "        if !passed.insert(place)? && place > 0 {",
    ),
    "misses_a_name_twice": (
        "src/places.rt",
        "            return Ok(Some(i));",
        "            return Ok(None);",
    ),
    "one_component_is_enough": (
        "src/values.rt",
        "        None => 2 <= numbers.len(),",
        "        None => 1 <= numbers.len(),",
    ),
    "stops_at_first_parent": (
        "src/chain.rt",
        "            Some(parent) => name = parent.as_str(),",
        "            Some(_) => return Ok(chain),",
    ),
    "spans_one_octet_of_a_character": (
        "src/lexer.rt",
        "    let end = start + char_len(rest);",
        "    let end = start + 1;",
    ),
    "ends_at_what_is_no_token": (
        "src/lexer.rt",
        "            return Err(fault_at(start, rest));",
        "            return Ok(tokens);",
    ),
    "leaves_what_follows_an_end": (
        "src/modules.rt",
        "    while !ends_module(last(ls, left)) {",
        '    while !begins_word("END", last(ls, left)) {',
    ),
    "wants_imports": (
        "src/modules.rt",
        "        return imported_at(ls);\n    }\n    Ok(ls)",
        "        return imported_at(ls);\n    }\n    Err(ReadFault::BrokenOff(ls))",
    ),
    "takes_a_want_of_memory_for_a_cut_text": (
        "src/modules.rt",
        "        ReadFault::OutOfMemory => TextFault::OutOfMemory,",
        "        ReadFault::OutOfMemory => TextFault::Unclosed,",
    ),
    "calls_too_many_numbers_no_identifier": (
        "src/names.rt",
        "        Err(OidFault::TooLong) => Err(NamesFault::TooDeep),",
        "        Err(OidFault::TooLong) => Err(NamesFault::BadIdentifier),",
    ),
    "passes_over_what_is_no_number": (
        "src/names.rt",
        "        Err(OidFault::BadText) => Err(NamesFault::Formless(form_fault(text))),",
        "        Err(OidFault::BadText) => identifier_of(alloc, places, defs, word, &[]),",
    ),
    "takes_a_want_of_memory_for_no_identifier": (
        "src/chain.rt",
        "        Err(OidFault::OutOfMemory) => Err(NamesFault::OutOfMemory),",
        "        Err(OidFault::OutOfMemory) => Err(NamesFault::BadIdentifier),",
    ),
    "leaves_out_a_name_where_memory_ran_out": (
        "src/labels.rt",
        "    match identify(alloc, places, defs, name)? {\n        Some(oid) => {",
        "    match identify(alloc, places, defs, name).unwrap_or(None) {\n        Some(oid) => {",
    ),
    "keeps_the_first_name_of_an_identifier": (
        "src/labels.rt",
        "    if is_known(by_identifier.get(oid.parts()).copied(), name) {",
        "    if by_identifier.get(oid.parts()).is_some() {",
    ),
    "takes_a_word_with_a_number_for_the_parent": (
        "src/values.rt",
        "            if begins(TokenKind::LeftParen, rest) {\n                return (None, ls);\n            }\n            (Some(word), rest)",
        "            (Some(word), rest)",
    ),
    "slices_what_is_there_of_a_span": (
        "src/token.rt",
        "        let octets = text.as_bytes().get(self.start..self.end)?;",
        "        let octets = text.as_bytes().get(self.start..self.end.min(text.len()))?;",
    ),
    "slices_nothing_of_a_span_that_falls": (
        "src/token.rt",
        "        let octets = text.as_bytes().get(self.start..self.end)?;",
        '        if self.end < self.start {\n            return Some("");\n        }\n        let octets = text.as_bytes().get(self.start..self.end)?;',
    ),
    "ends_a_string_at_a_doubled_quote": (
        "src/scan.rt",
        "        if *next != b'\"' {",
        "        if *next != b'\"' || !rest.is_empty() {",
    ),
}

# Those that break a promise as a whole, each with its function: tests/bodies tries them in the gate.
PROMISES = {
    "module_of_no_assignments": "modules::keep",
}
