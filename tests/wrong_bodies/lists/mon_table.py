"""Bugs of mon_table for tests/wrong_bodies/planted: by name the file, what stands there once, and the bug in its place."""

BUGS = {
    "an_instance_in_two_rows": ("src/rows.rt", "    if is_at(place, out) && into.is_some() {\n        return None;\n    }\n", ""),
    "out_is_lost": ("src/rows.rt", "        return Some(Row { place, out });", "        return Some(Row { place, out: None });"),
    "out_of_another_device": ("src/rows.rt", "    if other.engine() != entry.engine() {\n        return false;\n    }\n", ""),
    "out_of_another_interface": ("src/rows.rt", "        (Some(index), Some(other)) => index == other,", "        (Some(_), Some(_)) => true,"),
    "no_rows": ("src/rows.rt", "            rows.push(row)?;\n", "            let _ = row;\n"),
    "lightest_first": ("src/order.rt", "    let lighter = weight_of(alloc, listing, sort, other)? < weight;", "    let lighter = weight_of(alloc, listing, sort, other)? > weight;"),
    "mixes_devices": ("src/order.rt", "    Ok(engine_of(listing, other) == engine_of(listing, row) && lighter)", "    Ok(lighter)"),
    "clear_before_raised": ("src/order.rt", '            "RAISED" => Ok(3),', '            "RAISED" => Ok(0),'),
    "orders_by_in_alone": ("src/order.rt", "        Some(place) => Ok(weight.max(weight_at(alloc, listing, sort, place)?)),", "        Some(_) => Ok(weight),"),
    "the_order_of_ages_is_that_of_names": ("src/order.rt", "        Sort::Age => Ok(u128::from(listing.age(place).unwrap_or(0))),", "        Sort::Age => Ok(0),"),
    "octets_as_they_are": ("src/cells.rt", "    rate.saturating_mul(8)\n", "    rate\n"),
    "packets_in_bits": ("src/cells.rt", "        Some(rate) if octets =>", "        Some(rate) if octets || rate > 0 =>"),
    "the_rate_of_in_twice": ("src/cells.rt", "        out: rate_at(alloc, listing, out)?,", "        out: rate_at(alloc, listing, place)?,"),
    "no_part_of_the_speed": ("src/cells.rt", "        (Some(speed), Some(rate)) => percent_text(alloc, bits_of(rate), speed),", "        (Some(_), Some(_)) => Ok(String::new(alloc)),"),
    "raised_hides_stale": ("src/cells.rt", '    if is_either("stale", a, b) {\n        return "stale";\n    }\n    if is_either("RAISED", a, b) {\n        return "RAISED";\n    }', '    if is_either("RAISED", a, b) {\n        return "RAISED";\n    }\n    if is_either("stale", a, b) {\n        return "stale";\n    }'),
    "out_never_alarms": ("src/cells.rt", "        alarm: joined_state(state, other),", "        alarm: {\n            let _ = other;\n            state\n        },"),
    "stale_rows_keep_their_rate": ("src/listing.rt", "        is_fresh(self.limit, self.age(place))", "        is_fresh(self.limit, None) || self.age(place).is_some()"),
    "the_labels_of_the_first": ("src/listing.rt", "        self.labels.get(place)", "        self.labels.get(place / 2)"),
    "counts_in_alone": ("src/cells.rt", "    let samples = count_at(listing, place) + count_at(listing, out);", "    let samples = count_at(listing, place) + count_at(listing, place);"),
    "the_lesser_age": ("src/cells.rt", "Some(age.max(other))", "Some(age.min(other))"),
    "each_row_has_its_device": ("src/printing.rt", "        before = Some(engine_of(listing, *row));", "        before = None;"),
    "narrow_columns": ("src/printing.rt", "    title.max(width)\n", "    width\n"),
    "targets_that_are_up": ("src/down.rt", "        if !target.up {", "        if target.up {"),
    "counts_one_less": ("src/report.rt", "    put_count(text, entries.len(), count_samples(entries))", "    put_count(text, entries.len() / 2, count_samples(entries))"),
    "no_targets_below": ("src/report.rt", "            put_down(text, figures.targets.as_slice())", "            put_down(text, &figures.targets.as_slice()[..0])"),
}

# The bodies that the gate tries: each with its function.
PROMISES = {
    "an_instance_in_two_rows": "rows::row_at",
    "lightest_first": "order::goes_before",
}
