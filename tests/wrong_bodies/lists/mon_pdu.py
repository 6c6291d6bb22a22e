"""Bugs of mon_pdu for tests/wrong_bodies/planted: by name the file, what stands there once, and the bug in its place."""

BUGS = {
    "binding_size_of_its_contents": (
        "src/writing.rt",
        "    element_size(binding_len(binding))",
        "    element_size(binding_len(binding)).min(127)",
    ),
    "bulk_has_a4": (
        "src/message.rt",
        "            Body::Bulk(_) => GET_BULK,",
        "            Body::Bulk(_) => 0xa4,",
    ),
    "bulk_shows_no_bindings": (
        "src/message.rt",
        "            Body::Bulk(bulk) => bulk.bindings.as_slice(),",
        "            Body::Bulk(bulk) => &bulk.bindings.as_slice()[..0],",
    ),
    "drops_the_last_binding": (
        "src/message.rt",
        "        Bindings { items }",
        "        let mut kept = items; kept.pop(); Bindings { items: kept }",
    ),
    "hands_out_no_bindings": (
        "src/message.rt",
        "        self.items",
        "        let mut kept = self.items; kept.clear(); kept",
    ),
    "names_unknown_pdu_bad_tag": (
        "src/fault.rt",
        '            PduFault::UnknownPdu(_) => "UnknownPdu",',
        '            PduFault::UnknownPdu(_) => "BadTag",',
    ),
    "numbers_bad_version_8": (
        "src/fault.rt",
        "            PduFault::BadVersion(_) => 7,",
        "            PduFault::BadVersion(_) => 8,",
    ),
    "out_of_range_is_bad_length": (
        "src/fault.rt",
        "            BerFault::OutOfRange => PduFault::OutOfRange,",
        "            BerFault::OutOfRange => PduFault::BadLength,",
    ),
    "reads_a4_as_set": (
        "src/message.rt",
        "            0xa3 => Some(PduKind::Set),",
        "            0xa3 | 0xa4 => Some(PduKind::Set),",
    ),
    "reads_a_later_place": (
        "src/reading.rt",
        "    message_at(alloc, octets)",
        "    message_at(alloc, &octets[octets.len() / 2..])",
    ),
    "reads_no_community": (
        "src/reading.rt",
        "    let community = Octets::from_slice(alloc, community)?;",
        "    let community = Octets::from_slice(alloc, &community[..0])?;",
    ),
    "set_has_a4": (
        "src/message.rt",
        "            PduKind::Set => 0xa3,",
        "            PduKind::Set => 0xa4,",
    ),
    "shows_half_the_bindings": (
        "src/message.rt",
        "        &self.items",
        "        &self.items[self.items.len() / 2..]",
    ),
    "size_with_a_short_head": (
        "src/writing.rt",
        "    let contents = (integer_size(1) + element_size(community) + element_size(body)).min(LIMIT);",
        "    let contents = (integer_size(-129) + element_size(community) + element_size(body)).min(LIMIT);",
    ),
    "takes_memory_before_the_version": (
        "src/reading.rt",
        "    if version != 1 {",
        "    Octets::from_slice(alloc, rest)?; if version != 1 {",
    ),
    "writes_no_community": (
        "src/writing.rt",
        "    put_octets(out, message.community.as_slice());\n    put_body(",
        "    put_octets(out, &message.community.as_slice()[..0]);\n    put_body(",
    ),
    "writes_repetitions_twice": (
        "src/writing.rt",
        "            bulk.non_repeaters,",
        "            bulk.max_repetitions,",
    ),
    "takes_version_2": (
        "src/reading.rt",
        "    if version != 1 {",
        "    if version < 1 {",
    ),
    "looks_for_a_set_tag": (
        "src/reading.rt",
        "    let (contents, after) = element_at(SEQUENCE, octets)?;\n    let (name, rest)",
        "    let (contents, after) = element_at(0x31, octets)?;\n    let (name, rest)",
    ),
    "reads_get_next_as_get": (
        "src/message.rt",
        "        0xa1 => Some(PduKind::GetNext),",
        "        0xa1 => Some(PduKind::Get),",
    ),
    "reads_a4_as_a_trap": (
        "src/message.rt",
        "        0xa7 => Some(PduKind::Trap),",
        "        0xa4 => Some(PduKind::Trap),",
    ),
    "numbers_bad_oid_5": (
        "src/fault.rt",
        "PduFault::BadOid => 6,",
        "PduFault::BadOid => 5,",
    ),
    "writes_index_before_status": (
        "src/writing.rt",
        "    put_integer(out, second);\n    put_integer(out, third);",
        "    put_integer(out, third);\n    put_integer(out, second);",
    ),
    "writes_version_0": (
        "src/writing.rt",
        "    put_integer(out, 1);\n    put_octets(out, message.community.as_slice());\n    put_body(",
        "    put_integer(out, 0);\n    put_octets(out, message.community.as_slice());\n    put_body(",
    ),
    "writes_every_body_as_a_response": (
        "src/writing.rt",
        "    put_header(out, body.octet(), lengths.body);",
        "    put_header(out, 0xa2, lengths.body);",
    ),
    "writes_the_list_by_the_bodys_length": (
        "src/writing.rt",
        "    put_list(out, list, lengths.list);",
        "    put_list(out, list, lengths.body);",
    ),
    "lets_a_message_over_the_limit": (
        "src/writing.rt",
        "    let lengths = lengths_of(message);\n    if lengths.message >= LIMIT {",
        "    let lengths = lengths_of(message);\n    if lengths.message > LIMIT {",
    ),
    "adds_an_octet_to_the_body": (
        "src/writing.rt",
        "(numbers + element_size(list)).min(LIMIT)",
        "(numbers + element_size(list) + 1).min(LIMIT)",
    ),
    "bounds_a_size_without_its_numbers": (
        "src/writing.rt",
        "    message.community.as_slice().len() + 100 + list",
        "    message.community.as_slice().len() + 10 + list",
    ),
    "writes_the_header_of_a_name_alone": (
        "src/writing.rt",
        "    put_header(out, SEQUENCE, element_len(name) + element_len(value));",
        "    put_header(out, SEQUENCE, element_len(name));",
    ),
    "takes_too_little_room": (
        "src/writing.rt",
        "    let mut out = Vec::with_capacity(alloc, element_len(lengths.message))?;\n    put_message(",
        "    let mut out = Vec::with_capacity(alloc, lengths.message)?;\n    put_message(",
    ),
    "sizes_without_the_header": (
        "src/writing.rt",
        "    if len >= LIMIT {\n        return Err(PduFault::BadLength);\n    }\n    Ok(element_len(len))",
        "    if len >= LIMIT {\n        return Err(PduFault::BadLength);\n    }\n    Ok(len)",
    ),
    "tells_another_octet": (
        "src/reading.rt",
        "        None => Err(PduFault::UnknownPdu(*tag)),",
        "        None => Err(PduFault::UnknownPdu(0)),",
    ),
    "leaves_an_octet_of_contents": (
        "src/reading.rt",
        "    if !rest.is_empty() {",
        "    if rest.len() > 1 {",
    ),
    "clears_what_was_held": (
        "src/writing.rt",
        "    put_whole(out, message, lengths_of(message));",
        "    out.clear(); put_whole(out, message, lengths_of(message));",
    ),
    "reads_bindings_in_reverse": (
        "src/reading.rt",
        "    Ok(bindings)",
        "    bindings.reverse(); Ok(bindings)",
    ),
    "refuses_the_longest": (
        "src/writing.rt",
        "    let lengths = lengths_of(message);\n    if lengths.message >= LIMIT {",
        "    let lengths = lengths_of(message);\n    if lengths.message >= LIMIT - 1 {",
    ),
    "size_off_by_one": (
        "src/writing.rt",
        "    Ok(element_len(len))",
        "    Ok(element_len(len) + 1)",
    ),
    "writes_half_the_bindings": (
        "src/writing.rt",
        "Listed::Bindings(bindings) => put_bindings(out, bindings),",
        "Listed::Bindings(bindings) => put_bindings(out, &bindings[bindings.len() / 2..]),",
    ),
    "measures_around_a_shorter_list": (
        "src/writing.rt",
        "    let lengths = lengths_around(message, list.len().min(LIMIT));",
        "    let lengths = lengths_around(message, list.len().min(LIMIT - 1));",
    ),
    "lets_a_message_around_a_list_over_the_limit": (
        "src/writing.rt",
        "    let lengths = lengths_around(message, list.len().min(LIMIT));\n    if lengths.message >= LIMIT {",
        "    let lengths = lengths_around(message, list.len().min(LIMIT));\n    if lengths.message > LIMIT {",
    ),
    "puts_no_list_around": (
        "src/writing.rt",
        "Listed::Written(octets) => put_written(out, octets),",
        "Listed::Written(octets) => put_written(out, &octets[..0]),",
    ),
    "puts_a_list_without_its_header": (
        "src/writing.rt",
        "    put_header(out, SEQUENCE, len);\n    put_contents(",
        "    put_contents(",
    ),
    "puts_another_tag_around": (
        "src/writing.rt",
        "    put_header(out, body.octet(), lengths.body);",
        "    put_header(out, 0xa0, lengths.body);",
    ),
    "writes_bindings_but_the_first": (
        "src/writing.rt",
        "    put_bindings(&mut out, bindings);",
        "    put_bindings(&mut out, &bindings[bindings.len().min(1)..]);",
    ),
    "refuses_the_longest_bindings": (
        "src/writing.rt",
        "    let len = list_len(bindings);\n    if len >= LIMIT {",
        "    let len = list_len(bindings);\n    if len >= LIMIT - 1 {",
    ),
    "frames_no_message": (
        "src/frame.rt",
        "    frame_at(octets).ok()",
        "    frame_at(octets).ok().filter(|_| false)",
    ),
    "frames_octets_that_have_no_frame": (
        "src/frame.rt",
        "    frame_at(octets).ok()",
        "    frame_at(octets).ok().or(Some(Frame {\n        community: octets,\n        kind: PduKind::Get,\n        request_id: 0,\n        error_status: 0,\n        error_index: 0,\n        list: b\"\\x05\",\n    }))",
    ),
    "frames_octets_after_the_pdu": (
        "src/frame.rt",
        "    if !rest.is_empty() {\n        return Err(BerFault::BadLength);\n    }\n    let (first, second",
        "    let (first, second",
    ),
    "frames_octets_after_the_list": (
        "src/frame.rt",
        "    if !rest.is_empty() {\n        return Err(BerFault::BadLength);\n    }\n    Ok((first",
        "    Ok((first",
    ),
    "frames_the_index_as_the_status": (
        "src/frame.rt",
        "    Ok((first, second, third, list))",
        "    Ok((first, third, second, list))",
    ),
    "frames_a_community_of_another_tag": (
        "src/frame.rt",
        "    let (community, rest) = element_at(OCTET_STRING, rest)?;",
        "    let (community, rest) = element_at(SEQUENCE, rest)?;",
    ),
    "frames_a_list_of_another_tag": (
        "src/frame.rt",
        "    let (list, rest) = element_at(SEQUENCE, rest)?;",
        "    let (list, rest) = element_at(OCTET_STRING, rest)?;",
    ),
    "frames_no_trap": (
        "src/frame.rt",
        "    match PduKind::from_octet(frame.tag) {\n        Some(kind)",
        "    match PduKind::from_octet(frame.tag) {\n        Some(PduKind::Trap) => Err(BerFault::BadTag),\n        Some(kind)",
    ),
    "frames_from_the_tag_again": (
        "src/frame.rt",
        "    Ok((*octet, rest))",
        "    Ok((*octet, octets))",
    ),
    "a_named_value_by_the_beginning_of_its_name": (
        "src/frame.rt",
        "    let rest = contents.strip_prefix(name)?;",
        "    let rest = contents.strip_prefix(&name[..name.len().min(4)])?;",
    ),
    "a_named_value_in_another_element": (
        "src/frame.rt",
        "    let (contents, after) = element_at(SEQUENCE, octets).ok()?;",
        "    let (contents, after) = element_at(OCTET_STRING, octets).ok()?;",
    ),
    "nothing_follows_a_named_value": (
        "src/frame.rt",
        "    Some((value, after))",
        "    Some((value, &after[..0]))",
    ),
    "a_named_value_is_not_found": (
        "src/frame.rt",
        "    Some((value, after))",
        "    if after.is_empty() {\n        return None;\n    }\n    Some((value, after))",
    ),
    "frames_any_version": (
        "src/frame.rt",
        "    if version != 1 {",
        "    if version > 1 {",
    ),
    "passes_over_octets_after_a_value": (
        "src/frame.rt",
        "        return None;",
        "        return Some((value, after));",
    ),
    "reads_any_version": (
        "src/reading.rt",
        "    if version != 1 {",
        "    if version < 0 {",
    ),
    "swaps_repeaters_and_repetitions": (
        "src/reading.rt",
        "            non_repeaters: second,",
        "            non_repeaters: third,",
        "            max_repetitions: third,",
        "            max_repetitions: second,",
    ),
    "swaps_request_id_and_status": (
        "src/reading.rt",
        "    let (request_id, rest) = integer_at(contents)?;",
        "    let (second, rest) = integer_at(contents)?;",
        "    let (second, rest) = integer_at(rest)?;",
        "    let (request_id, rest) = integer_at(rest)?;",
    ),
    "frames_no_message_with_octets_after_it": (
        "src/frame.rt",
        "    let (contents, _) = element_at(SEQUENCE, octets)?;\n    any_of(contents)",
        "    let (contents, rest) = element_at(SEQUENCE, octets)?;\n    if !rest.is_empty() {\n        return Err(BerFault::BadLength);\n    }\n    any_of(contents)",
    ),
    "a_named_value_is_null": (
        "src/frame.rt",
        "    Some((value, after))",
        "    let _ = value;\n    Some((Value::Null, after))",
    ),
    "reads_a_binding_with_octets_after_its_value": (
        "src/reading.rt",
        "    require_end(rest)?;\n    Ok((Binding { name, value }, after))",
        "    let _ = rest;\n    Ok((Binding { name, value }, after))",
    ),
    "leaves_off_at_a_bad_binding": (
        "src/reading.rt",
        "        let (binding, after) = binding_at(alloc, rest)?;",
        "        let Ok((binding, after)) = binding_at(alloc, rest) else {\n            break;\n        };",
    ),
    "passes_over_octets_after_the_list": (
        "src/reading.rt",
        "    require_end(rest)?;\n    match kind {",
        "    let _ = rest;\n    match kind {",
    ),
    "reads_a_bulk_as_a_get": (
        "src/reading.rt",
        "        return behind_tag(alloc, None, rest);",
        "        return behind_tag(alloc, Some(PduKind::Get), rest);",
    ),
    "refuses_octets_after_a_message": (
        "src/reading.rt",
        "    let (contents, _) = element_at(SEQUENCE, octets)?;\n    message_of(alloc, contents)",
        "    let (contents, rest) = element_at(SEQUENCE, octets)?;\n    require_end(rest)?;\n    message_of(alloc, contents)",
    ),
    "takes_a_want_of_memory_for_a_cut_message": (
        "src/reading.rt",
        "    message_at(alloc, octets)\n",
        "    match message_at(alloc, octets) {\n        Err(PduFault::OutOfMemory) => Err(PduFault::Truncated),\n        read => read,\n    }\n",
    ),
    "measures_the_last_binding_alone": (
        "src/writing.rt",
        "        len = (len + element_size(binding_len(binding))).min(LIMIT);",
        "        len = element_size(binding_len(binding));",
    ),
    "writes_no_message_without_bindings": (
        "src/writing.rt",
        "    put_whole(out, message, lengths_by(message, list));",
        "    if list > 0 {\n        put_whole(out, message, lengths_by(message, list));\n    }",
    ),
    "writes_its_own_bindings": (
        "src/writing.rt",
        "    put_message(&mut out, message, lengths, &Listed::Written(list));",
        "    put_message(\n        &mut out,\n        message,\n        lengths,\n        &Listed::Bindings(message.body.bindings()),\n    );",
    ),
    "sizes_with_its_own_bindings": (
        "src/writing.rt",
        "    element_size(lengths_around(message, list).message)",
        "    let _ = list;\n    element_size(lengths_of(message).message)",
    ),
    "frames_any_pdu_as_a_bulk": (
        "src/frame.rt",
        "    if frame.tag != GET_BULK {",
        "    if frame.tag < 0xa0 {",
    ),
    "frames_no_bulk": (
        "src/frame.rt",
        "    bulk_frame_at(octets).ok()",
        "    bulk_frame_at(octets).ok().filter(|_| false)",
    ),
    "frames_the_repetitions_as_the_repeaters": (
        "src/frame.rt",
        "        non_repeaters: frame.second,",
        "        non_repeaters: frame.third,",
    ),
    "fits_by_the_list_alone": (
        "src/framing.rt",
        "    if frame.community.len() + 100 + list <= limit as usize {",
        "    if list <= limit as usize {",
    ),
    "fits_only_where_it_is_not_close": (
        "src/framing.rt",
        "    element_size(lengths_of(frame, list).message) <= limit as usize",
        "    let _ = lengths_of(frame, list);\n    false",
    ),
    "refuses_a_frame_of_just_the_limit": (
        "src/framing.rt",
        "    if size > limit as usize {",
        "    if size >= limit as usize {",
    ),
    "writes_a_frame_after_what_was_there": (
        "src/framing.rt",
        "    out.clear();\n    out.reserve(size)?;",
        "    out.reserve(size)?;",
    ),
    "writes_no_octets_of_the_list": (
        "src/framing.rt",
        "    put_list(out, &Listed::Written(frame.list), lengths.list);",
        "    put_list(out, &Listed::Written(&frame.list[..0]), 0);\n    let _ = lengths.list;",
    ),
    "writes_a_frame_as_a_response": (
        "src/framing.rt",
        "    put_header(out, frame.kind.octet(), lengths.body);",
        "    put_header(out, 0xa2, lengths.body);",
    ),
    "writes_the_index_as_the_status": (
        "src/framing.rt",
        "    put_three(out, frame.request_id, frame.error_status, frame.error_index);",
        "    put_three(out, frame.request_id, frame.error_index, frame.error_status);",
    ),
}

# Those that break a promise as a whole, each with its function: tests/bodies tries them in the gate.
PROMISES = {
    "fits_by_the_list_alone": "framing::frame_fits",
    "frames_any_pdu_as_a_bulk": "frame::bulk_frame_at",
    "frames_any_version": "frame::any_of",
    "passes_over_octets_after_a_value": "frame::named_value",
    "reads_any_version": "reading::message_of",
    "swaps_repeaters_and_repetitions": "reading::body_of",
    "swaps_request_id_and_status": "reading::body_of",
}
