"""Bugs of mon_exchange for tests/wrong_bodies/planted: by name the file, what stands there once, and the bug in its place."""

BUGS = {
    "letters_of_images": (
        "src/reading.rt",
        "    octet_is(b'X', ExchangeFault::NotAClaim, reader)?;",
        "    octet_is(b'I', ExchangeFault::NotAClaim, reader)?;",
    ),
    "any_kind_from_2": (
        "src/reading.rt",
        "    if octet == 2 {",
        "    if octet >= 2 {",
    ),
    "a_station_of_number_0": (
        "src/reading.rt",
        "    if number == 0 {",
        "    if number == u32::MAX {",
    ),
    "engines_of_4_octets": (
        "src/reading.rt",
        "    let len = within_at(5, 32, ExchangeFault::BadName, reader)?;",
        "    let len = within_at(4, 32, ExchangeFault::BadName, reader)?;",
    ),
    "a_name_of_129_sub_identifiers": (
        "src/reading.rt",
        "    let count = within_at(2, 128, ExchangeFault::BadName, reader)?;",
        "    let count = within_at(2, 129, ExchangeFault::BadName, reader)?;",
    ),
    "a_second_sub_identifier_of_40": (
        "src/reading.rt",
        "    parts[0] > 2 || parts[0] < 2 && parts[1] > 39",
        "    parts[0] > 2 || parts[0] < 2 && parts[1] > 40",
    ),
    "an_octet_above_the_range": (
        "src/reading.rt",
        "    if octet < least || octet > most {",
        "    if octet < least || octet > most + 1 {",
    ),
    "the_incarnation_as_the_station": (
        "src/reading.rt",
        "    let station = positive_at(&mut reader)?;\n    let incarnation = positive_at(&mut reader)?;",
        "    let incarnation = positive_at(&mut reader)?;\n    let station = positive_at(&mut reader)?;",
    ),
    "a_serial_that_is_not_0": (
        "src/reading.rt",
        "    let serial = reader.number()?;",
        "    let serial = positive_at(&mut reader)?;",
    ),
    "a_size_of_one_more": (
        "src/writing.rt",
        "    17 + instance_size(claim.engine, claim.name) + samples_size(claim.samples)",
        "    18 + instance_size(claim.engine, claim.name) + samples_size(claim.samples)",
    ),
    "writes_version_2": (
        "src/writing.rt",
        '    put_octets(out, b"MX\\x01");',
        '    put_octets(out, b"MX\\x02");',
    ),
    "writes_the_station_as_its_incarnation": (
        "src/writing.rt",
        "    put_u32(out, claim.incarnation);",
        "    put_u32(out, claim.station);",
    ),
    "lends_the_serial_as_the_incarnation": (
        "src/claim.rt",
        "            incarnation: self.incarnation,",
        "            incarnation: self.serial,",
    ),
    "an_older_incarnation_is_counted": (
        "src/noted.rt",
        "        Some(_) => Noted::OlderIncarnation,",
        "        Some(_) => Noted::Counted,",
    ),
    "the_first_claim_is_counted": (
        "src/noted.rt",
        "        None => Noted::NewIncarnation,",
        "        None => Noted::Counted,",
    ),
    "the_first_incarnation_is_kept_as_1": (
        "src/noted.rt",
        "        None => incarnation,",
        "        None => 1,",
    ),
    "an_older_incarnation_marks": (
        "src/marking.rt",
        "        Noted::OlderIncarnation => {}",
        "        Noted::OlderIncarnation => mark_all(board, slot, instance, samples),",
    ),
    "marks_of_another_instance": (
        "src/marking.rt",
        "        board.mark(slot, instance, sample);",
        "        board.mark(slot, instance / 2, sample);",
    ),
    "peers_begin_with_an_incarnation": (
        "src/peers.rt",
        "                known: None,",
        "                known: Some(0),",
    ),
    "another_own_number": (
        "src/peers.rt",
        "        self.own\n",
        "        self.own.max(2)\n",
    ),
    "the_next_slot": (
        "src/peers.rt",
        "            Some(slot) => Some(slot as u8),",
        "            Some(slot) => Some(slot as u8 / 2),",
    ),
    "known_of_the_first_peer": (
        "src/peers.rt",
        "        self.peers[usize::from(slot)].known\n",
        "        self.peers[usize::from(slot / 2)].known\n",
    ),
    "the_peer_before": (
        "src/peers.rt",
        "        let peer = &mut self.peers[usize::from(slot)];",
        "        let peer = &mut self.peers[usize::from(slot / 2)];",
    ),
    "an_unknown_instance_before_an_unknown_peer": (
        "src/peers.rt",
        "            return Err(ExchangeFault::UnknownPeer);",
        "            return Err(ExchangeFault::UnknownInstance);",
    ),
    "says_that_it_counted": (
        "src/peers.rt",
        "        Ok(noted)\n",
        "        Ok(Noted::Counted)\n",
    ),
    "takes_the_first_half": (
        "src/peers.rt",
        "        board.take_all(instance, samples);",
        "        board.take_all(instance, &samples[..samples.len() / 2]);",
    ),
    "an_empty_offer_of_the_second_instance": (
        "src/sharing.rt",
        "        instance: 0,",
        "        instance: 1,",
    ),
    "the_first_instance_is_left_out": (
        "src/sharing.rt",
        "    for place in 0..many {",
        "    for place in 1..many {",
    ),
    "owed_to_another_peer": (
        "src/sharing.rt",
        "        let owed = owed_of(alloc, board, slot, instance)?;",
        "        let owed = owed_of(alloc, board, slot / 2, instance)?;",
    ),
    "a_serial_of_0": (
        "src/sharing.rt",
        "    if serial == u32::MAX { 1 } else { serial + 1 }",
        "    if serial == u32::MAX { 0 } else { serial + 1 }",
    ),
    "the_serial_stays_at_the_last": (
        "src/sharing.rt",
        "    if serial == u32::MAX { 1 } else { serial + 1 }",
        "    if serial == u32::MAX { serial } else { serial + 1 }",
    ),
    "keeps_the_lesser_incarnation": (
        "src/noted.rt",
        "        Some(known) => known.max(incarnation),",
        "        Some(known) => known.min(incarnation),",
    ),
    "passes_over_octets_that_are_left": (
        "src/reading.rt",
        "    if !reader.is_empty() {",
        "    if !reader.is_empty() && false {",
    ),
    "takes_the_known_incarnation_for_a_new_one": (
        "src/noted.rt",
        "        Some(known) if known < incarnation => Noted::NewIncarnation,",
        "        Some(known) if known <= incarnation => Noted::NewIncarnation,",
    ),
    "reads_another_version": (
        "src/reading.rt",
        "    octet_is(1, ExchangeFault::BadVersion, reader)",
        "    octet_is(2, ExchangeFault::BadVersion, reader)",
    ),
    "offers_41_samples": (
        "src/sharing.rt",
        "const MAX_SAMPLES: usize = 40;",
        "const MAX_SAMPLES: usize = 41;",
    ),
    "offers_nothing_where_nothing_is_owed": (
        "src/sharing.rt",
        "    if !portions.is_empty() {",
        "    if portions.len() < 2 {",
    ),
    "reads_41_samples": (
        "src/reading.rt",
        "    let count = within_at(0, 40, ExchangeFault::NotAClaim, reader)?;",
        "    let count = within_at(0, 41, ExchangeFault::NotAClaim, reader)?;",
    ),
    "writes_a_confirmation_as_an_offer": (
        "src/claim.rt",
        "        self as u8",
        "        1",
    ),
    "keeps_marks_of_an_earlier_incarnation": (
        "src/marking.rt",
        "            board.unmark_all(slot);",
        "            let _ = slot;",
    ),
    "marks_for_another_peer": (
        "src/marking.rt",
        "            mark_all(board, slot, instance, samples);",
        "            mark_all(board, slot / 2, instance, samples);",
    ),
    "never_marks": (
        "src/marking.rt",
        "        Noted::Counted => mark_all(board, slot, instance, samples),",
        "        Noted::Counted => {}",
    ),
    "takes_nothing_of_an_older_incarnation": (
        "src/peers.rt",
        "        board.take_all(instance, samples);",
        "        board.take_all(instance, match self.known(claim.station) { Some(known) if known > claim.incarnation => &[], _ => samples });",
    ),
    "another_version_is_no_claim": (
        "src/reading.rt",
        "    if reader.octet()? != wanted {\n        return Err(fault);",
        "    if reader.octet()? != wanted {\n        let _ = fault;\n        return Err(ExchangeFault::NotAClaim);",
    ),
    "reads_16_numbers_of_a_name": (
        "src/reading.rt",
        "    while numbers.len() < usize::from(count) {",
        "    while numbers.len() < usize::from(count).min(16) {",
    ),
    "a_confirmation_has_no_samples": (
        "src/reading.rt",
        "    let samples = claimed_at(alloc, &mut reader)?;",
        "    let samples = match kind {\n        ClaimKind::Offer => claimed_at(alloc, &mut reader)?,\n        ClaimKind::Confirm => SampleList::new(Vec::new(alloc)),\n    };",
    ),
    "reads_5_octets_of_an_engine": (
        "src/reading.rt",
        "    Ok(reader.take(usize::from(len))?)",
        "    let _ = len;\n    Ok(reader.take(5)?)",
    ),
    "marks_the_newest_alone": (
        "src/marking.rt",
        "    for sample in samples {\n        board.mark(slot, instance, sample);\n    }",
        "    if let Some(sample) = samples.last() {\n        board.mark(slot, instance, sample);\n    }",
    ),
    "keeps_the_first_incarnation_that_it_heard": (
        "src/peers.rt",
        "        peer.known = Some(latest(peer.known, incarnation));",
        "        if peer.known.is_none() {\n            peer.known = Some(latest(peer.known, incarnation));\n        }",
    ),
    "marks_before_it_takes": (
        "src/peers.rt",
        "        board.take_all(instance, samples);\n        let noted = self.hear(slot, claim.incarnation);\n        mark_noted(board, noted, slot, instance, samples);",
        "        let noted = self.hear(slot, claim.incarnation);\n        mark_noted(board, noted, slot, instance, samples);\n        board.take_all(instance, samples);",
    ),
    "knows_no_peer_that_was_not_heard": (
        "src/peers.rt",
        "    peers.iter().position(|peer| peer.number == station)",
        "    peers.iter().position(|peer| peer.number == station && peer.known.is_some())",
    ),
    "owes_nothing_where_memory_is_refused": (
        "src/sharing.rt",
        "    let mut portions = owed_portions(alloc, board, slot)?;",
        "    let mut portions = match owed_portions(alloc, board, slot) {\n        Ok(portions) => portions,\n        Err(_) => Vec::new(alloc),\n    };",
    ),
    "owes_40_samples_of_an_instance": (
        "src/sharing.rt",
        "        owed.push(sample)?;\n",
        "        owed.push(sample)?;\n        if owed.len() == MAX_SAMPLES {\n            break;\n        }\n",
    ),
    "offers_the_first_portion_alone": (
        "src/sharing.rt",
        "        rest = more;",
        "        let _ = more;\n        rest = &[];",
    ),
    "refused_memory_is_no_claim": (
        "src/fault.rt",
        "            LayoutFault::OutOfMemory => ExchangeFault::OutOfMemory,",
        "            LayoutFault::OutOfMemory => ExchangeFault::NotAClaim,",
    ),
}

# Those that break a promise as a whole, each with its function: tests/bodies tries them in the gate.
PROMISES = {
    "keeps_marks_of_an_earlier_incarnation": "marking::mark_noted",
    "marks_for_another_peer": "marking::mark_noted",
    "never_marks": "marking::mark_noted",
    "takes_nothing_of_an_older_incarnation": "peers::Peers::note",
}
