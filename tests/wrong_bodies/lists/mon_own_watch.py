"""Bugs of mon_own_watch for tests/wrong_bodies/planted: by name the file, what stands there once, and the bug in its place."""

BUGS = {
    "an_engine_of_four_octets": (
        "src/reading.rt",
        "octet_within(5, 32, ImageFault::BadImage, reader)?",
        "octet_within(4, 32, ImageFault::BadImage, reader)?",
    ),
    "a_bad_engine_is_cut_short": (
        "src/reading.rt",
        "octet_within(5, 32, ImageFault::BadImage, reader)?",
        "octet_within(5, 32, ImageFault::Truncated, reader)?",
    ),
    "a_name_of_one_number": (
        "src/reading.rt",
        "octet_within(2, 128, ImageFault::BadImage, reader)?",
        "octet_within(1, 128, ImageFault::BadImage, reader)?",
    ),
    "a_name_that_begins_with_3": (
        "src/reading.rt",
        "    parts[0] > 2 || parts[0] < 2 && parts[1] > 39",
        "    parts[0] > 3 || parts[0] < 2 && parts[1] > 39",
    ),
    "a_name_of_one_number_more": (
        "src/reading.rt",
        "    while numbers.len() < usize::from(count) {",
        "    while numbers.len() <= usize::from(count) {",
    ),
    "the_epoch_is_the_window": (
        "src/reading.rt",
        "        epoch: usize::from(sizes.epoch),",
        "        epoch: usize::from(sizes.window),",
    ),
    "the_largest_window_for_each": (
        "src/reading.rt",
        "        window: usize::from(sizes.window),",
        "        window: 64,",
    ),
    "the_samples_are_not_read": (
        "src/reading.rt",
        "    saved_at(alloc, sizes, reader)?;\n",
        "    let count = octet_within(0, sizes.window, ImageFault::BadImage, reader)?;\n    reader.take(21 * usize::from(count))?;\n",
    ),
    "reads_one_instance_less": (
        "src/reading.rt",
        "    while all.len() < usize::from(many) {",
        "    while all.len() + 1 < usize::from(many) {",
    ),
    "no_instances_are_an_image": (
        "src/reading.rt",
        "    if many < 1 || many > 256 {",
        "    if many > 256 {",
    ),
    "257_instances": (
        "src/reading.rt",
        "    if many < 1 || many > 256 {",
        "    if many < 1 || many > 257 {",
    ),
    "a_count_with_the_least_octet_first": (
        "src/reading.rt",
        "    let many = u16::from_be_bytes(field);",
        "    let many = u16::from_le_bytes(field);",
    ),
    "reads_version_3": (
        "src/reading.rt",
        "octet_within(1, 2, ImageFault::BadVersion, reader)?",
        "octet_within(1, 3, ImageFault::BadVersion, reader)?",
    ),
    "another_version_is_no_image": (
        "src/reading.rt",
        "octet_within(1, 2, ImageFault::BadVersion, reader)?",
        "octet_within(1, 2, ImageFault::BadImage, reader)?",
    ),
    "a_one_window_in_version_2": (
        "src/reading.rt",
        "    let window = window_at(version, reader)?;",
        "    let window = window_at(1, reader)?;\n    let _ = version;",
    ),
    "octets_may_follow": (
        "src/reading.rt",
        "    if !reader.is_empty() {\n        return Err(ImageFault::BadImage);\n    }\n",
        "",
    ),
    "what_does_not_rise_is_of_another_watch": (
        "src/reading.rt",
        "        Err(_) => Err(ImageFault::BadImage),",
        "        Err(_) => Err(ImageFault::OtherWatch),",
    ),
    "each_image_is_refused": (
        "src/reading.rt",
        "            let _ = watch.instances();\n            Ok(watch)",
        "            let _ = watch.instances();\n            drop(watch);\n            Err(ImageFault::BadImage)",
    ),
    "a_board_without_samples": (
        "src/board.rt",
        "    let (board, _) = read_image(alloc, &watch, octets)?;\n    Ok(board)",
        "    Ok(Board::new(alloc, watch)?)",
    ),
    "a_board_only_of_what_is_no_image": (
        "src/board.rt",
        "    let (board, _) = read_image(alloc, &watch, octets)?;\n    Ok(board)",
        "    let (board, _) = read_image(alloc, &watch, octets)?;\n    drop(board);\n    Err(ImageFault::BadImage)",
    ),
}
