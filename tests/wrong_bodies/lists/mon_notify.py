"""Bugs of mon_notify for tests/wrong_bodies/planted: by name the file, what stands there once, and the bug in its place."""

BUGS = {
    "drops_the_newest": (
        "src/outbox.rt",
        "                let buffer = self.texts.remove(0);\n                add_text",
        "                let buffer = self.texts.remove(255);\n                add_text",
    ),
    "puts_nothing": (
        "src/outbox.rt",
        "            Some(buffer) => add_text(&mut self.texts, buffer, text),",
        "            Some(buffer) => add_text(&mut self.texts, buffer, b\"\"),",
    ),
    "counts_nothing": (
        "src/outbox.rt",
        "                self.dropped = self.dropped.saturating_add(1);",
        "                self.dropped = self.dropped.saturating_add(0);",
    ),
    "counts_no_long_text": (
        "src/outbox.rt",
        "            self.too_long = self.too_long.saturating_add(1);",
        "            self.too_long = self.too_long.saturating_add(0);",
    ),
    "an_octet_too_few": ("src/outbox.rt", "        if text.len() > MAX_OCTETS {", "        if text.len() >= MAX_OCTETS {"),
    "a_part_of_the_text": (
        "src/outbox.rt",
        "    buffer.extend_from_slice(text).unwrap();",
        "    buffer.extend_from_slice(&text[..text.len() / 2]).unwrap();",
    ),
    "keeps_what_was_there": ("src/outbox.rt", "    buffer.clear();\n", "    buffer.truncate(1);\n"),
    "takes_the_newest": (
        "src/outbox.rt",
        "        match self.texts.first() {",
        "        match self.texts.last() {",
    ),
    "removes_the_newest": (
        "src/outbox.rt",
        "        let buffer = self.texts.remove(0);\n        self.spare",
        "        let buffer = self.texts.remove(self.texts.len() - 1);\n        self.spare",
    ),
    "never_anything_dropped": ("src/outbox.rt", "        self.dropped\n", "        0\n"),
    "always_firing": (
        "src/webhook.rt",
        "        Some(_) => text_value(alloc, \"resolved\"),",
        "        Some(_) => text_value(alloc, \"firing\"),",
    ),
    "never_ends": (
        "src/webhook.rt",
        "        Some(date) => time_value(alloc, date),",
        "        Some(_) => text_value(alloc, \"0001-01-01T00:00:00Z\"),",
    ),
    "ends_where_it_starts": (
        "src/webhook.rt",
        "\"endsAt\": end_value(alloc, &notice.ends_at)?,",
        "\"endsAt\": end_value(alloc, &Some(notice.starts_at))?,",
    ),
    "another_version": ("src/webhook.rt", "        \"version\": \"4\"", "        \"version\": \"3\""),
    "no_alert": ("src/webhook.rt", "\"alerts\": [alert_value(alloc, notice)?],", "\"alerts\": alert_value(alloc, notice)?,"),
    "a_label_without_value": (
        "src/webhook.rt",
        "    put(members, alloc, label.name, text_value(alloc, label.value)?)",
        "    put(members, alloc, label.name, text_value(alloc, label.name)?)",
    ),
    "one_key_for_all": (
        "src/webhook.rt",
        "    text.push_str(digits.as_str())?;",
        "    text.push_str(\"\")?;",
    ),
    "an_alarm_is_a_device": ("src/changes.rt", "\"alertname\", \"SnmpmonAlarmRaised\"", "\"alertname\", \"SnmpmonDeviceDown\""),
    "rising_for_falling": ("src/changes.rt", "\"falling\", change.falling", "\"falling\", change.rising"),
    "the_alias_as_the_name": ("src/changes.rt", "\"ifName\", change.if_name", "\"ifName\", change.if_alias"),
    "no_unknown_label": (
        "src/changes.rt",
        "        Some(value) => add(labels, name, value),\n        None => Ok(()),",
        "        Some(value) => add(labels, name, value),\n        None => add(labels, name, \"\"),",
    ),
    "no_target": (
        "src/changes.rt",
        "    add(&mut labels, \"target\", change.target)?;",
        "    add(&mut labels, \"target\", change.station)?;",
    ),
    "hashes_by_sum": (
        "src/fingerprint.rt",
        "(hash ^ u64::from(octet)).wrapping_mul(PRIME)",
        "(hash | u64::from(octet)).wrapping_mul(PRIME)",
    ),
    "another_basis": ("src/fingerprint.rt", "14_695_981_039_346_656_037", "14_695_981_039_346_656_036"),
    "names_and_values_run_together": (
        "src/fingerprint.rt",
        "    let named = octet_hashed(hashed(hash, label.name.as_bytes()), 255);",
        "    let named = hashed(hash, label.name.as_bytes());",
    ),
    "june_is_july": ("src/time.rt", "        *b\"06\"", "        *b\"07\""),
    "day_for_month": ("src/time.rt", "b'-', m0, m1, b'-', t[5], t[6], b'T'", "b'-', t[5], t[6], b'-', m0, m1, b'T'"),
    "of_another_alarm": ("src/alarms.rt", "    rule_message(alloc, names, scene, rule, turn)\n", "    Ok(Vec::new(alloc))\n"),
    "begins_with_its_end": (
        "src/alarms.rt",
        "        AlarmEvent::Raised { .. } => None,",
        "        AlarmEvent::Raised { .. } => Some(date),",
    ),
    "never_cleared": (
        "src/alarms.rt",
        "        AlarmEvent::Cleared { .. } | AlarmEvent::Lapsed => Some(date),",
        "        AlarmEvent::Cleared { .. } => Some(date),\n        AlarmEvent::Lapsed => None,",
    ),
    "labels_of_the_first": ("src/alarms.rt", "scene.labels.get(place)", "scene.labels.first()"),
    "of_the_first_instance": (
        "src/alarms.rt",
        "scene.board.watch().instances().get(place)",
        "scene.board.watch().instances().get(0)",
    ),
    "both_thresholds_rise": (
        "src/alarms.rt",
        "        falling: threshold_text(alloc, rule.falling())?,",
        "        falling: threshold_text(alloc, rule.rising())?,",
    ),
    "named_by_the_engine": (
        "src/alarms.rt",
        "        name: names.text(alloc, &instance.name)?,",
        "        name: hex::encode(alloc, instance.engine.as_slice())?,",
    ),
    "a_threshold_in_units": ("src/alarms.rt", "    write!(text, \"{threshold}\")?;", "    write!(text, \"{}\", threshold / 1000)?;"),
    "the_alias_twice": (
        "src/alarms.rt",
        "        if_name: labels.and_then(|labels| labels.if_name.as_deref()),",
        "        if_name: labels.and_then(|labels| labels.if_alias.as_deref()),",
    ),
    "no_line_for_people": ("src/alarms.rt", "            summary: turn.summary,", "            summary: \"\","),
    "a_threshold_is_the_station": (
        "src/alarms.rt",
        "        station: texts.station.as_str(),",
        "        station: texts.rising.as_str(),",
    ),
    "station_zero": ("src/scene.rt", "    write!(text, \"{station}\")?;", "    write!(text, \"0\")?;"),
    "an_address_without_port": ("src/devices.rt", "    write!(address, \"{target}\")?;", "    write!(address, \"{}\", target.port)?;"),
    "the_first_device": (
        "src/devices.rt",
        "        if has_address(known, address) {\n            return device_of(Some(known));",
        "        if true {\n            return device_of(Some(known));",
    ),
    "no_device_is_known": (
        "src/devices.rt",
        "            return device_of(Some(known));",
        "            return None;",
    ),
    "a_rule_of_station_zero": ("src/alarms.rt", "        station: scene.station,", "        station: 0,"),
    "down_for_ever": (
        "src/devices.rt",
        "if is_down { None } else { Some(scene.date) }",
        "if is_down { None } else { None }",
    ),
    "up_is_down": (
        "src/devices.rt",
        "if is_down { None } else { Some(scene.date) }",
        "if is_down { Some(scene.date) } else { None }",
    ),
    "each_address_is_its": (
        "src/known.rt",
        "        Some(target) => target.as_str() == address,",
        "        Some(_) => true,",
    ),
    "no_target_is_each": (
        "src/known.rt",
        "        None => false,\n        Some(target)",
        "        None => true,\n        Some(target)",
    ),
    "the_address_as_the_device": (
        "src/known.rt",
        "        Some(labels) => labels.device.as_deref(),",
        "        Some(labels) => labels.target.as_deref(),",
    ),
    "an_alias_is_unknown": (
        "src/alarms.rt",
        "        if_alias: labels.and_then(|labels| labels.if_alias.as_deref()),",
        "        if_alias: None,",
    ),
}

# Those that break a promise as a whole, each with its function: tests/bodies tries them in the gate.
PROMISES = {
    "drops_the_newest": "outbox::Outbox::put",
    "a_part_of_the_text": "outbox::add_text",
    "removes_the_newest": "outbox::Outbox::remove_first",
    "always_firing": "webhook::status_value",
    "another_version": "webhook::message_value",
    "rising_for_falling": "changes::alarm_labels",
    "names_and_values_run_together": "fingerprint::label_hashed",
    "june_is_july": "time::month_digits",
    "never_cleared": "alarms::end_of",
    "both_thresholds_rise": "alarms::texts_of",
    "the_alias_twice": "alarms::labels_in",
    "labels_of_the_first": "alarms::rule_message",
    "the_first_device": "devices::device_at",
    "down_for_ever": "devices::device_message",
    "each_address_is_its": "known::has_address",
}
