"""Bugs of mon_saved for tests/wrong_bodies/planted: by name the file, what stands there once, and the bug in its place."""

BUGS = {
    "begins_with_other_letters": (
        "src/reading.rt",
        "octet_within(b'I', b'I', ",
        "octet_within(b'O', b'O', ",
    ),
    "reads_version_0": (
        "src/reading.rt",
        "octet_within(1, 2, ImageFault::BadVersion",
        "octet_within(0, 2, ImageFault::BadVersion",
    ),
    "a_window_of_65_for_all": (
        "src/reading.rt",
        "return octet_within(1, 64, ImageFault::BadImage, reader);",
        "return octet_within(1, 65, ImageFault::BadImage, reader);",
    ),
    "a_window_of_65_for_one": (
        "src/reading.rt",
        "let window = octet_within(1, 64, ImageFault::BadImage, reader)?;",
        "let window = octet_within(1, 65, ImageFault::BadImage, reader)?;",
    ),
    "an_epoch_above_its_window": (
        "src/reading.rt",
        "octet_within(1, window, ImageFault::BadImage, reader)?;",
        "octet_within(1, 64, ImageFault::BadImage, reader)?;",
    ),
    "a_window_of_1_for_all_read_as_none": (
        "src/reading.rt",
        "    if window > 0 {",
        "    if window > 1 {",
    ),
    "an_epoch_of_1_in_version_1": (
        "src/reading.rt",
        "epoch: window,",
        "epoch: 1,",
    ),
    "the_count_of_instances_in_the_other_order": (
        "src/reading.rt",
        "expected_at(&many.to_be_bytes(), reader)?;",
        "expected_at(&many.to_le_bytes(), reader)?;",
    ),
    "the_names_count_not_looked_at": (
        "src/reading.rt",
        "expected_at(&[name.len() as u8], reader)?;",
        "expected_at(&[engine.len() as u8], reader)?;",
    ),
    "the_engine_after_the_name": (
        "src/reading.rt",
        "    numbers_are(name, reader)",
        "    numbers_are(&name[1..], reader)",
    ),
    "names_in_the_other_order": (
        "src/reading.rt",
        "expected_at(&number.to_be_bytes(), reader)?;",
        "expected_at(&number.to_le_bytes(), reader)?;",
    ),
    "an_octet_left_over": (
        "src/reading.rt",
        "    if !reader.is_empty() {",
        "    if !reader.is_empty() && entries.len() > 255 {",
    ),
    "shares_by_time": (
        "src/reading.rt",
        "if samples[i].boots() == samples[i - epoch].boots() {",
        "if samples[i].time() == samples[i - epoch].time() {",
    ),
    "the_window_for_the_epoch": (
        "src/reading.rt",
        "        epoch: sizes.epoch,",
        "        epoch: sizes.window,",
    ),
    "an_incarnation_of_1": (
        "src/filling.rt",
        "    Ok((board, image.incarnation))",
        "    Ok((board, 1))",
    ),
    "fills_half_of_the_instances": (
        "src/filling.rt",
        "board.take_all(k as u16,",
        "board.take_all(k as u16 / 2,",
    ),
    "leaves_the_first_instance_empty": (
        "src/filling.rt",
        "    for k in 0..entries.len() {",
        "    for k in 1..entries.len() {",
    ),
    # ---- an image that is kept from save to save
    "an_image_of_other_windows_is_written_as_it_is": (
        "src/kept.rt",
        "        if self.incarnation == incarnation {",
        "        if self.incarnation <= incarnation {",
    ),
    "an_image_is_kept_where_its_place_was_not_put_down": (
        "src/kept.rt",
        "        at += 3 + instance_size(",
        "        at += 2 + instance_size(",
    ),
    "moves_where_another_sample_was_dropped": (
        "src/kept.rt",
        "    oldest.compare(&items[0]).is_lt()",
        "    oldest.compare(&items[0]).is_ne()",
    ),
    "moves_where_the_newest_sample_is_not_the_last": (
        "src/kept.rt",
        "    if at + 1 != items.len() {",
        "    if at + 1 > items.len() {",
    ),
    "moves_the_records_of_the_first_instance": (
        "src/kept.rt",
        "self.places[usize::from(instance)], items",
        "self.places[usize::from(instance) / 2], items",
    ),
    "keeps_the_image_of_a_window_that_grew": (
        "src/kept.rt",
        "                    self.incarnation = 0;\n                    return;",
        "                    return;",
    ),
    "leaves_the_oldest_record": (
        "src/kept.rt",
        "    octets.copy_within(start + RECORD..end, start);\n",
        "",
    ),
    "writes_the_oldest_sample_for_the_newest": (
        "src/kept.rt",
        "&items[items.len() - 1].to_record()",
        "&items[0].to_record()",
    ),
    "forgets_to_clear_what_it_writes_anew": (
        "src/kept.rt",
        "        self.octets.clear();\n",
        "",
    ),
    "takes_each_sample_but_the_last": (
        "src/kept.rt",
        "        for (instance, sample) in pairs {",
        "        for (instance, sample) in &pairs[..pairs.len().saturating_sub(1)] {",
    ),
    "follows_no_sample": (
        "src/kept.rt",
        "        self.follow(board, instance, how);",
        "        let _ = how;",
    ),
    "writes_version_1": (
        "src/writing.rt",
        'put_octets(out, b"MI\\x02");',
        'put_octets(out, b"MI\\x01");',
    ),
    "writes_the_count_in_the_other_order": (
        "src/writing.rt",
        "put_octets(out, &many.to_be_bytes());",
        "put_octets(out, &many.to_le_bytes());",
    ),
    "writes_the_window_twice": (
        "src/writing.rt",
        "put_octet(out, watched.epoch as u8);",
        "put_octet(out, watched.window as u8);",
    ),
    "writes_the_first_window_for_all": (
        "src/writing.rt",
        "put_entry(out, &watched[i], board.items(i as u16));",
        "put_entry(out, &watched[i], board.items(0));",
    ),
    "measures_one_octet_less": (
        "src/writing.rt",
        "    let mut size = 9;",
        "    let mut size = 8;",
    ),
    "takes_half_of_the_room": (
        "src/writing.rt",
        "    Vec::with_capacity(alloc, image_size(board))\n",
        "    Vec::with_capacity(alloc, image_size(board) / 2)\n",
    ),
    "calls_what_is_cut_short_a_bad_image": (
        "src/fault.rt",
        "LayoutFault::Truncated => ImageFault::Truncated,",
        "LayoutFault::Truncated => ImageFault::BadImage,",
    ),
    "gives_two_faults_one_name": (
        "src/fault.rt",
        'ImageFault::OtherWatch => "OtherWatch",',
        'ImageFault::OtherWatch => "BadImage",',
    ),
    "calls_another_watch_a_bad_image": (
        "src/reading.rt",
        "    Err(ImageFault::OtherWatch)",
        "    Err(ImageFault::BadImage)",
    ),
    "swaps_the_window_for_the_epoch": (
        "src/writing.rt",
        "    put_octet(out, watched.window as u8);",
        "    put_octet(out, watched.epoch as u8);",
    ),
    "reads_an_epoch_of_0": (
        "src/reading.rt",
        "octet_within(1, window, ImageFault::BadImage, reader)?;",
        "octet_within(0, window, ImageFault::BadImage, reader)?;",
    ),
    "takes_one_version_for_the_other": (
        "src/reading.rt",
        "    if version == 1 {",
        "    if version == 2 {",
    ),
    "measures_an_octet_more": (
        "src/writing.rt",
        "    3 + instance_size(",
        "    4 + instance_size(",
    ),
    "reads_incarnation_0": (
        "src/reading.rt",
        "    if number == 0 {",
        "    if number == 1 {",
    ),
    "reads_version_3": (
        "src/reading.rt",
        "octet_within(1, 2, ImageFault::BadVersion, reader)?;",
        "octet_within(1, 3, ImageFault::BadVersion, reader)?;",
    ),
    "takes_more_than_the_epoch_allows": (
        "src/reading.rt",
        "    if fits_epoch(samples.as_slice(), usize::from(sizes.epoch)) {",
        "    if fits_epoch(samples.as_slice(), usize::from(sizes.window)) {",
    ),
    "drops_the_newest_sample": (
        "src/writing.rt",
        "    put_samples(out, samples);",
        "    put_samples(out, &samples[..samples.len().saturating_sub(1)]);",
    ),
    "puts_the_incarnation_one_higher": (
        "src/writing.rt",
        "    put_u32(out, incarnation);",
        "    put_u32(out, incarnation.wrapping_add(1));",
    ),
    "reads_another_watch": (
        "src/reading.rt",
        "    if reader.take(wanted.len())? == wanted {",
        "    if reader.take(wanted.len())?.len() == wanted.len() {",
    ),
    "takes_more_than_the_window_holds": (
        "src/reading.rt",
        "octet_within(0, sizes.window, ImageFault::BadImage, reader)?;",
        "octet_within(0, 64, ImageFault::BadImage, reader)?;",
    ),
    "takes_less_than_the_least": (
        "src/reading.rt",
        "    if octet < least || octet > most {",
        "    let _ = least;\n    if octet > most {",
    ),
    "any_engine_will_do": (
        "src/reading.rt",
        "    expected_at(engine, reader)?;",
        "    reader.take(engine.len())?;",
    ),
    "an_epoch_of_one_more": (
        "src/reading.rt",
        "    for i in epoch..samples.len() {",
        "    for i in epoch + 1..samples.len() {",
    ),
    "the_epoch_for_the_window": (
        "src/reading.rt",
        "        window: sizes.window,",
        "        window: sizes.epoch,",
    ),
    "forgets_the_one_window": (
        "src/reading.rt",
        "    Ok((incarnation, window))",
        "    let _ = window;\n    Ok((incarnation, 0))",
    ),
    "an_incarnation_of_at_least_2": (
        "src/reading.rt",
        "    Ok(Image {\n        incarnation,",
        "    Ok(Image {\n        incarnation: incarnation.max(2),",
    ),
    "calls_every_image_bad": (
        "src/reading.rt",
        "    image_at(alloc, watch, octets)\n}",
        "    match image_at(alloc, watch, octets) {\n        Ok(_) => Err(ImageFault::BadImage),\n        Err(fault) => Err(fault),\n    }\n}",
    ),
    "reads_an_empty_board": (
        "src/filling.rt",
        "    fill(&mut board, image.entries.as_slice());\n",
        "    let _ = &mut board;\n",
    ),
    "saves_as_incarnation_1": (
        "src/writing.rt",
        "    write_within(&mut out, board, incarnation);\n    Ok(out)",
        "    let _ = incarnation;\n    write_within(&mut out, board, 1);\n    Ok(out)",
    ),
    "counts_the_window_for_the_samples": (
        "src/writing.rt",
        "    put_octet(out, samples.len() as u8);",
        "    put_octet(out, watched.window as u8);\n    let _ = samples.len();",
    ),
    "calls_memory_a_bad_image": (
        "src/fault.rt",
        "    fn from(_e: AllocError) -> ImageFault {\n        ImageFault::OutOfMemory",
        "    fn from(_e: AllocError) -> ImageFault {\n        ImageFault::BadImage",
    ),
    "shows_no_entries": (
        "src/image.rt",
        "        self.items.as_slice()",
        "        &self.items.as_slice()[..0]",
    ),
    "takes_twice_the_memory": (
        "src/writing.rt",
        "    Vec::with_capacity(alloc, image_size(board))\n",
        "    Vec::with_capacity(alloc, 2 * image_size(board))\n",
    ),
    "takes_memory_for_the_largest_image": (
        "src/writing.rt",
        "    Vec::with_capacity(alloc, image_size(board))\n",
        "    Vec::with_capacity(alloc, image_size(board).max(484_617))\n",
    ),
}

# Those that break a promise as a whole, each with its function: tests/bodies tries them in the gate.
PROMISES = {
    "drops_the_newest_sample": "writing::put_entry",
    "keeps_the_image_of_a_window_that_grew": "kept::KeptImage::follow",
    "puts_the_incarnation_one_higher": "writing::write_within",
    "reads_another_watch": "reading::expected_at",
    "takes_more_than_the_window_holds": "reading::saved_at",
}
