"""Bugs of mon_page for tests/wrong_bodies/planted: by name the file, what stands there once, and the bug in its place."""

BUGS = {
    "leaves_less_than": (
        "src/escape.rt",
        "        b'<' => text.extend_from_slice(b\"&lt;\"),",
        "        b'<' => text.extend_from_slice(b\"<\"),",
    ),
    "leaves_quotes": (
        "src/escape.rt",
        "        b'\"' => text.extend_from_slice(b\"&quot;\"),",
        "        b'\"' => text.extend_from_slice(b\"\\\"\"),",
    ),
    "leaves_ampersands": (
        "src/escape.rt",
        "        b'&' => text.extend_from_slice(b\"&amp;\"),",
        "        b'&' => text.extend_from_slice(b\"&\"),",
    ),
    "clear_hides_raised": (
        "src/cells.rt",
        "    if is_any_raised(&alarms) {",
        "    if is_any_raised(&alarms[..1]) {",
    ),
    "raised_where_all_are": (
        "src/cells.rt",
        "alarms.iter().any(|alarm|",
        "alarms.iter().all(|alarm|",
    ),
    "no_ages": (
        "src/freshness.rt",
        "        Some(figures) => figures.ages.as_slice(),",
        "        Some(_) => &[],",
    ),
    "no_rule_is_clear": (
        "src/cells.rt",
        "        return Ok(\"-\");",
        "        return Ok(\"clear\");",
    ),
    "clear_is_raised": (
        "src/cells.rt",
        "alarm.state.is_raised()",
        "!alarm.state.is_raised()",
    ),
    "raised_over_the_window": (
        "src/cells.rt",
        "    if is_any_raised(&alarms) {",
        "    if alarms\n        .iter()\n        .any(|alarm| mon_alarms::state(&alarm.rule, entry.samples()).is_raised())\n    {",
    ),
    "cuts_texts_after_64_octets": (
        "src/escape.rt",
        "    for octet in octets {",
        "    for octet in &octets[..octets.len().min(64)] {",
    ),
    "escapes_twice": (
        "src/escape.rt",
        "        put_octet(text, *octet)?;",
        "        put_octet(text, *octet)?;\n        put_octet(text, *octet)?;",
    ),
    "leaves_the_end_open": (
        "src/escape.rt",
        "    text.extend_from_slice(octets)?;\n    text.extend_from_slice(after)",
        "    let _ = after;\n    text.extend_from_slice(octets)",
    ),
    "an_instance_at_the_limit_is_fresh": (
        "src/freshness.rt",
        "        Some(age) => age < limit,",
        "        Some(age) => age <= limit,",
    ),
    "every_instance_is_fresh": (
        "src/freshness.rt",
        "        Some(age) => age < limit,",
        "        Some(_) => true,",
    ),
    "an_instance_without_an_age_is_stale": (
        "src/freshness.rt",
        "        None => true,\n        Some(age) =>",
        "        None => false,\n        Some(age) =>",
    ),
    "a_stale_rate_is_kept": (
        "src/freshness.rt",
        "    if !is_fresh {\n        return None;\n    }\n",
        "    let _ = is_fresh;\n",
    ),
    "a_fresh_rate_is_lost": (
        "src/freshness.rt",
        "    if !is_fresh {\n        return None;",
        "    if is_fresh {\n        return None;",
    ),
    "no_instance_reaches_the_limit": (
        "src/freshness.rt",
        "        Some(figures) => figures.stale_after,",
        "        Some(_) => u32::MAX,",
    ),
    "the_limit_is_the_interval": (
        "src/freshness.rt",
        "        Some(figures) => figures.stale_after,",
        "        Some(figures) => figures.interval,",
    ),
    "a_stale_alarm_is_kept": (
        "src/cells.rt",
        "    if !is_fresh {\n        return Ok(\"stale\");\n    }\n",
        "    let _ = is_fresh;\n",
    ),
    "a_stale_alarm_is_clear": (
        "src/cells.rt",
        "        return Ok(\"stale\");",
        "        return Ok(\"clear\");",
    ),
    "name_as_it_is": (
        "src/wrong.rt",
        "    put_escaped(text, name.as_bytes())",
        "    text.extend_from_slice(name.as_bytes())",
    ),
    "label_as_it_is": (
        "src/table.rt",
        "    put_escaped(text, label)?;",
        "    text.extend_from_slice(label)?;",
    ),
    "labels_of_the_neighbour": (
        "src/row.rt",
        "        listing.labels.get(place),",
        "        listing.labels.get(place + 1),",
    ),
    "labels_of_the_first": (
        "src/row.rt",
        "        listing.labels.get(place),",
        "        listing.labels.first(),",
    ),
    "page_without_its_labels": (
        "src/row.rt",
        "            labels: extras.labels,",
        "            labels: &[],",
    ),
    "if_name_for_if_alias": (
        "src/table.rt",
        "    put_label_if(text, b\"ifAlias\", row.if_alias())",
        "    put_label_if(text, b\"ifAlias\", row.if_name())",
    ),
    "label_under_the_other_title": (
        "src/table.rt",
        "    put_label_if(text, b\"ifName\", row.if_name())",
        "    put_label_if(text, b\"ifAlias\", row.if_name())",
    ),
    "a_label_without_its_end": (
        "src/table.rt",
        "    put_escaped(text, label)?;\n    text.extend_from_slice(b\"</div>\")",
        "    put_escaped(text, label)",
    ),
    "a_device_label_as_it_is": (
        "src/words.rt",
        "    put_escaped(text, words.as_bytes())",
        "    text.extend_from_slice(words.as_bytes())",
    ),
    "an_if_name_as_it_is": (
        "src/words.rt",
        "        return put_escaped(text, name.as_bytes());",
        "        return text.extend_from_slice(name.as_bytes());",
    ),
    "a_title_as_it_is": (
        "src/head.rt",
        "        Some(label) => put_escaped(text, label.as_bytes()),",
        "        Some(label) => text.extend_from_slice(label.as_bytes()),",
    ),
    "address_as_it_is": (
        "src/wrong.rt",
        "    put_escaped(text, words.as_bytes())",
        "    text.extend_from_slice(words.as_bytes())",
    ),
    "reason_as_it_is": (
        "src/wrong.rt",
        "    text.extend_from_slice(b\": \")?;\n    put_escaped(text, reason.as_bytes())",
        "    text.extend_from_slice(b\": \")?;\n    text.extend_from_slice(reason.as_bytes())",
    ),
    "first_row_again": (
        "src/row.rt",
        "        &listing.entries[place],",
        "        &listing.entries[0],",
    ),
    "age_of_the_first": (
        "src/row.rt",
        "        listing.ages.get(place).copied(),",
        "        listing.ages.first().copied(),",
    ),
    "a_row_that_is_always_fresh": (
        "src/row.rt",
        "        let is_fresh = is_fresh(limit, age);",
        "        let is_fresh = is_fresh(limit, None);",
    ),
    "the_alarm_of_a_stale_row": (
        "src/row.rt",
        "        let state = state_cell(alloc, entry, is_fresh)?;",
        "        let state = state_cell(alloc, entry, true)?;",
    ),
    "leaves_out_the_first_row": (
        "src/row.rt",
        "    for place in 0..listing.entries.len() {",
        "    for place in 1..listing.entries.len() {",
    ),
    "a_page_a_round_late": (
        "src/row.rt",
        "    let limit = limit_of(extras.station);",
        "    let limit = limit_of(extras.station).saturating_add(1);",
    ),
    "the_rate_of_a_stale_row": (
        "src/words.rt",
        "    let Some(rate) = fresh_rate(row.entry(), row.is_fresh()) else {",
        "    let Some(rate) = fresh_rate(row.entry(), true) else {",
    ),
    "the_errors_of_a_stale_row": (
        "src/table.rt",
        "    let Some(rate) = fresh_rate(row.entry(), row.is_fresh()) else {\n        return Ok(());\n    };\n    if rate == 0",
        "    let Some(rate) = fresh_rate(row.entry(), true) else {\n        return Ok(());\n    };\n    if rate == 0",
    ),
    "oldest_value": (
        "src/words.rt",
        "    let Some(newest) = samples.last() else {\n        return text",
        "    let Some(newest) = samples.first() else {\n        return text",
    ),
    "no_rate_is_0": (
        "src/words.rt",
        "else {\n        return text.extend_from_slice(b\"-\");\n    };\n    put_rate",
        "else {\n        return text.extend_from_slice(b\"0 /s\");\n    };\n    put_rate",
    ),
    "an_unknown_age_is_0": (
        "src/words.rt",
        "        None => text.extend_from_slice(b\"-\"),\n        Some(age) =>",
        "        None => text.extend_from_slice(b\"0\"),\n        Some(age) =>",
    ),
    "octets_as_bits": (
        "src/words.rt",
        "    8 * rate.min(1 << 124)",
        "    rate.min(1 << 124)",
    ),
    "every_rate_in_bits": (
        "src/words.rt",
        "    matches!(column, Column::InOctets | Column::OutOctets)",
        "    matches!(column, Column::InOctets | Column::OutOctets | Column::InErrors)",
    ),
    "hours_for_days": (
        "src/words.rt",
        "    } else if seconds < 86400 {",
        "    } else if seconds < 864000 {",
    ),
    "a_second_counter_in_the_row": (
        "src/seats.rt",
        "        Column::InOctets => !has_in(before, index),",
        "        Column::InOctets => true,",
    ),
    "others_without_interfaces": (
        "src/seats.rt",
        "        if !has_place(&device[..place], row) {",
        "        if row.index().is_none() {",
    ),
    "an_interface_twice": (
        "src/seats.rt",
        "    if has_index(before, index) {",
        "    if has_in(before, index) {",
    ),
    "an_interface_of_the_first": (
        "src/seats.rt",
        "        if row.is_at(index) {\n            found.push",
        "        if row.is_at(index) && found.is_empty() {\n            found.push",
    ),
    "out_for_in": (
        "src/table.rt",
        "    put_octets_if(alloc, text, first_in(rows))",
        "    put_octets_if(alloc, text, first_out(rows))",
    ),
    "a_part_of_twice_the_speed": (
        "src/table.rt",
        "    bits_of(rate) / (10 * u128::from(speed.max(1)))",
        "    bits_of(rate) / (20 * u128::from(speed.max(1)))",
    ),
    "errors_of_0_are_shown": (
        "src/table.rt",
        "    if rate == 0 {\n        return Ok(());",
        "    if rate == 1 {\n        return Ok(());",
    ),
    "clear_before_raised": (
        "src/table.rt",
        "    if has_state(rows, \"RAISED\") {\n        \"RAISED\"\n    } else if has_state(rows, \"clear\") {\n        \"clear\"",
        "    if has_state(rows, \"clear\") {\n        \"clear\"\n    } else if has_state(rows, \"RAISED\") {\n        \"RAISED\"",
    ),
    "the_least_age": (
        "src/table.rt",
        "    Some(age.max(other))",
        "    Some(age.min(other))",
    ),
    "one_device_for_all": (
        "src/devices.rt",
        "        Some(before) => !before.is_of(row.entry().engine()),",
        "        Some(_) => false,",
    ),
    "a_device_of_one_instance": (
        "src/devices.rt",
        "        Some(end) => &rows[..end],",
        "        Some(_) => &rows[..1],",
    ),
    "a_device_is_up_if_a_target_is": (
        "src/devices.rt",
        "            .all(|target| target.up",
        "            .any(|target| target.up",
    ),
    "a_stale_device_is_closed": (
        "src/devices.rt",
        "        !self.is_up(targets) || (has_stale(self.rows) || has_alarm(self.rows))",
        "        !self.is_up(targets) || has_alarm(self.rows)",
    ),
    "the_oldest_stamp": (
        "src/devices.rt",
        "        newest = newest.max(stamp_of(row.entry().samples()));",
        "        newest = newest.min(stamp_of(row.entry().samples()));",
    ),
    "the_last_row_names_a_device": (
        "src/devices.rt",
        "        None => device.first(),",
        "        None => device.last(),",
    ),
    "five_devices_are_few": (
        "src/section.rt",
        "        is_open: !(4 < count)",
        "        is_open: !(5 < count)",
    ),
    "every_device_has_number_1": (
        "src/section.rt",
        "    let heading = heading_of(page.station, page.devices.len(), place + 1, device);",
        "    let heading = heading_of(page.station, page.devices.len(), 1, device);",
    ),
    "a_link_to_the_first_device": (
        "src/section.rt",
        "    text.extend_from_slice(b\"\\\">\\n<h3><a href=\\\"#d\")?;\n    put_count(text, heading.number)?;",
        "    text.extend_from_slice(b\"\\\">\\n<h3><a href=\\\"#d\")?;\n    put_count(text, 1)?;",
    ),
    "one_alarm_less": (
        "src/head.rt",
        "    let raised = raised_alarms(alloc, rows)?.len();",
        "    let raised = raised_alarms(alloc, rows)?.len().saturating_sub(1);",
    ),
    "fresh_instances_are_stale": (
        "src/head.rt",
        "    rows.iter().filter(|row| !row.is_fresh()).count()",
        "    rows.iter().filter(|row| row.is_fresh()).count()",
    ),
    "silent_peers_are_heard": (
        "src/head.rt",
        "    peers.iter().filter(|peer| !peer.silent).count()",
        "    peers.iter().filter(|peer| peer.silent).count()",
    ),
    "all_devices_are_up": (
        "src/head.rt",
        "        up: count_up(targets, devices.as_slice()),",
        "        up: devices.len(),",
    ),
    "peers_for_devices": (
        "src/head.rt",
        "    put_part_item(text, counts.up, counts.devices,",
        "    put_part_item(text, counts.heard, counts.peers,",
    ),
    "a_good_count_is_bad": (
        "src/head.rt",
        "    text.extend_from_slice(count_start(count < all))?;",
        "    text.extend_from_slice(count_start(count <= all))?;",
    ),
    "a_file_without_its_age": (
        "src/head.rt",
        "    text.extend_from_slice(b\"<p>The file is \")?;\n    put_duration(text, seconds)?;\n    text.extend_from_slice(b\" old.</p>\\n\")",
        "    let _ = seconds;\n    Ok(())",
    ),
    "no_round_was_in_1970": (
        "src/head.rt",
        "        None => Ok(()),\n        Some(seconds) => put_date",
        "        None => put_date(text, 0),\n        Some(seconds) => put_date",
    ),
    "a_round_without_its_date": (
        "src/head.rt",
        "        Some(seconds) => put_date(text, seconds),",
        "        Some(_) => Ok(()),",
    ),
    "a_round_a_second_late": (
        "src/head.rt",
        "HttpDate::from_unix_secs(seconds)",
        "HttpDate::from_unix_secs(seconds.saturating_add(1))",
    ),
    "the_number_for_the_incarnation": (
        "src/head.rt",
        "    put_small(text, figures.incarnation)?;",
        "    put_small(text, figures.station)?;",
    ),
    "the_incarnation_for_the_number": (
        "src/head.rt",
        "    text.extend_from_slice(b\"station \")?;\n    put_small(text, figures.station)?;",
        "    text.extend_from_slice(b\"station \")?;\n    put_small(text, figures.incarnation)?;",
    ),
    "the_label_of_no_station": (
        "src/head.rt",
        "    text.extend_from_slice(b\" &middot; \")?;\n    put_escaped(text, label.as_bytes())",
        "    let _ = label;\n    Ok(())",
    ),
    "an_alarm_twice": (
        "src/wrong.rt",
        "        found.push(RaisedAlarm { row, alarm })?;",
        "        found.push(RaisedAlarm { row, alarm })?;\n        found.push(RaisedAlarm { row, alarm })?;",
    ),
    "clear_alarms_are_listed": (
        "src/wrong.rt",
        "    if alarm.state.is_raised() {",
        "    if !alarm.state.is_raised() {",
    ),
    "the_first_alarm_alone": (
        "src/wrong.rt",
        "        put_alarm(alloc, text, names, alarm)?;\n    }\n    Ok(())",
        "        return put_alarm(alloc, text, names, alarm);\n    }\n    Ok(())",
    ),
    "a_device_that_is_down_is_not_listed": (
        "src/wrong.rt",
        "    if target.up {\n        return Ok(());",
        "    if !target.up {\n        return Ok(());",
    ),
    "the_first_target_alone": (
        "src/wrong.rt",
        "        put_down(alloc, text, rows, target)?;\n    }\n    Ok(())",
        "        return put_down(alloc, text, rows, target);\n    }\n    Ok(())",
    ),
    "a_heard_peer_is_silent": (
        "src/wrong.rt",
        "    if !peer.silent {",
        "    if peer.silent {",
    ),
    "one_failed_save_is_none": (
        "src/wrong.rt",
        "    if failed == 0 {",
        "    if failed <= 1 {",
    ),
    "rounds_for_seconds": (
        "src/wrong.rt",
        "    put_large(text, target.seconds)?;",
        "    put_small(text, target.rounds)?;",
    ),
    "hides_why_a_response_was_refused": (
        "src/wrong.rt",
        "    text.extend_from_slice(b\": \")?;\n    put_escaped(text, reason.as_bytes())",
        "    let _ = reason;\n    Ok(())",
    ),
    "nothing_is_ever_wrong": (
        "src/wrong.rt",
        "    if items.is_empty() {",
        "    if !items.is_empty() {",
    ),
    "since_the_boots": (
        "src/wrong.rt",
        "    text.extend_from_slice(b\":\")?;\n    put_small(text, time)",
        "    text.extend_from_slice(b\":\")?;\n    put_small(text, boots)",
    ),
    "never_loads_again": (
        "src/page.rt",
        "    let Some(seconds) = refresh_of(station) else {",
        "    let Some(seconds) = refresh_of(None) else {",
    ),
    "loads_again_after_the_limit_of_ages": (
        "src/page.rt",
        "    Some(figures.interval)",
        "    Some(figures.stale_after)",
    ),
    "loads_again_at_once": (
        "src/page.rt",
        "    if figures.interval == 0 {",
        "    if figures.interval == 1 {",
    ),
    "every_page_loads_again": (
        "src/page.rt",
        "    let Some(figures) = station else {\n        return None;",
        "    let Some(figures) = station else {\n        return Some(30);",
    ),
    "a_page_without_its_head": (
        "src/page.rt",
        "    put_head(\n        &mut text,\n        extras.station,\n        extras.presentation.label.as_deref(),\n    )?;\n",
        "",
    ),
    "a_head_without_a_style": (
        "src/page.rt",
        "    put_style(text)?;\n",
        "",
    ),
    "counts_below_the_list": (
        "src/page.rt",
        "    put_counts(text, origin.station, counts)?;\n    put_wrong(alloc, text, names, rows, origin.station)?;",
        "    put_wrong(alloc, text, names, rows, origin.station)?;\n    put_counts(text, origin.station, counts)?;",
    ),
    "a_page_behind_what_the_buffer_had": (
        "src/page.rt",
        "    text.clear();\n",
        "",
    ),
    "gives_the_buffer_back": (
        "src/page.rt",
        "    put_body(alloc, &mut text, names, entries, extras)?;\n    Ok(text)",
        "    put_body(alloc, &mut text, names, entries, extras)?;\n    text.clear();\n    Ok(text)",
    ),
    "no_style_for_narrow_windows": (
        "src/style.rt",
        "        b\"@media (max-width:45rem){",
        "        b\"@media (max-width:1rem){",
    ),
    "plots_counters_values": (
        "src/plot.rt",
        "    if !is_counter(sample.kind()) {\n        return Some",
        "    if is_counter(sample.kind()) || before.is_none() {\n        return Some",
    ),
    "scale_without_thresholds": (
        "src/plot.rt",
        "        scale = widened(widened(scale, Some(rising)), Some(falling));",
        "        let _ = widened(widened(scale, Some(rising)), Some(falling));",
    ),
    "one_threshold": (
        "src/plot.rt",
        "    put_limit(text, scale, limit_level(counted, rule.falling()))",
        "    put_limit(text, scale, limit_level(counted, rule.rising()))",
    ),
    "values_below_0_are_high": (
        "src/plot.rt",
        "sample.value().wrapping_add(1 << 63)",
        "sample.value()",
    ),
    "the_sample_itself_before_it": (
        "src/plot.rt",
        "    samples.get(place - 1)",
        "    samples.get(place)",
    ),
    "widens_upwards_only": (
        "src/plot.rt",
        "            low: scale.low.min(level),",
        "            low: scale.low,",
    ),
    "a_threshold_in_thousandths_of_a_value": (
        "src/plot.rt",
        "i128::from(threshold / 1000)",
        "i128::from(threshold)",
    ),
    "a_scale_of_the_rising_thresholds": (
        "src/plot.rt",
        "        scale = widened(widened(scale, Some(rising)), Some(falling));",
        "        let _ = falling;\n        scale = widened(scale, Some(rising));",
    ),
    "a_line_for_the_first_rule_alone": (
        "src/plot.rt",
        "        put_rule(text, counted, scale, rule)?;\n    }\n    Ok(())",
        "        return put_rule(text, counted, scale, rule);\n    }\n    Ok(())",
    ),
    "joins_over_boots": (
        "src/plot.rt",
        "    before.boots() == sample.boots()\n        && (before",
        "    sample.boots() == sample.boots()\n        && (before",
    ),
    "joins_over_discontinuities": (
        "src/plot.rt",
        "before.discontinuity() == sample.discontinuity()",
        "sample.discontinuity() == sample.discontinuity()",
    ),
    "joins_over_missed_rounds": (
        "src/plot.rt",
        "            && !is_missed(frame, seconds_after(before, sample)))",
        "            && !is_missed(frame, 0))",
    ),
    "always_joined": (
        "src/plot.rt",
        "    if joins(frame, before, sample) {\n        spot",
        "    if joins(frame, before, sample) || spot.is_some() {\n        spot",
    ),
    "plots_upside_down": (
        "src/plot.rt",
        "    40 - (above * 40 / span).min(40)",
        "    (above * 40 / span).min(40)",
    ),
    "plots_from_the_right": (
        "src/plot.rt",
        "    240 - (behind * 240 / u128::from(span.max(1))).min(240)",
        "    (behind * 240 / u128::from(span.max(1))).min(240)",
    ),
    "points_a_unit_to_the_left": (
        "src/plot.rt",
        "    240 - (behind * 240 / u128::from(span.max(1))).min(240)",
        "    239 - (behind * 240 / u128::from(span.max(1))).min(239)",
    ),
    "evenly_spaced_points": (
        "src/plot.rt",
        "        sample.time().saturating_sub(before.time())",
        "        1",
    ),
    "only_dots": (
        "src/plot.rt",
        "        Some(start) => put_line(text, start, spot),",
        "        Some(_) => put_dot(text, spot),",
    ),
    "a_counter_from_its_least_rate": (
        "src/plot.rt",
        "        low: if counted { 0 } else { u128::MAX },",
        "        low: if counted { u128::MAX } else { u128::MAX },",
    ),
    "lines_only_go_down": (
        "src/plot.rt",
        "        text.extend_from_slice(b\"-\")?;\n        put_wide(text, y - down)",
        "        text.extend_from_slice(b\" \")?;\n        put_wide(text, y - down)",
    ),
    "plots_without_rules": (
        "src/plot.rt",
        "            rules: rules.as_slice(),",
        "            rules: if rules.is_empty() { rules.as_slice() } else { &[] },",
    ),
    "the_falling_threshold_beside_a_plot": (
        "src/plot.rt",
        "        limit_level(counted, rule.rising()),\n    )",
        "        limit_level(counted, rule.falling()),\n    )",
    ),
}

PROMISES = {
    "every_instance_is_fresh": "freshness::is_fresh",
    "a_stale_rate_is_kept": "freshness::fresh_rate",
    "a_stale_alarm_is_kept": "cells::state_cell",
    "leaves_less_than": "escape::put_octet",
    "name_as_it_is": "wrong::put_shown",
    "label_as_it_is": "table::put_label",
    "an_alarm_twice": "wrong::push_if_raised",
    "a_device_that_is_down_is_not_listed": "wrong::put_down",
}
