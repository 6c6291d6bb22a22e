"""Bugs of mon_reasons for tests/wrong_bodies/planted: by name the file, what stands there once, and the bug in its place."""

BUGS = {
    "keeps_no_datagram": (
        "src/newest_datagrams.rt",
        "    datagrams.insert(0, Datagram { from, octets })?;\n",
        "    let _ = Datagram { from, octets };\n",
    ),
    "keeps_the_newest_last": (
        "src/newest_datagrams.rt",
        "    datagrams.insert(0, Datagram { from, octets })?;\n",
        "    datagrams.push(Datagram { from, octets })?;\n",
    ),
    "keeps_only_one": (
        "src/newest_datagrams.rt",
        "    limit(datagrams, from, most);\n",
        "    limit(datagrams, from, most.min(1));\n",
    ),
    "keeps_all": ("src/newest_datagrams.rt", "    limit(datagrams, from, most);\n", "    let _ = most;\n"),
    "keeps_64_of_all": (
        "src/newest_datagrams.rt",
        "    limit(datagrams, from, most);\n",
        "    let _ = most;\n    datagrams.truncate(64);\n",
    ),
    "keeps_half_a_datagram": (
        "src/newest_datagrams.rt",
        "    let octets = Octets::from_slice(alloc, octets)?;\n    datagrams",
        "    let octets = Octets::from_slice(alloc, &octets[..octets.len() / 2])?;\n    datagrams",
    ),
    "lets_go_of_other_addresses": (
        "src/newest_datagrams.rt",
        "        if datagrams[place].from != from {\n",
        "        if left > 0 && datagrams[place].from != from {\n",
    ),
    "counts_all_ports_of_a_host": (
        "src/newest_datagrams.rt",
        "        if datagrams[place].from != from {\n",
        "        if datagrams[place].from.octets != from.octets {\n",
    ),
    "counts_datagrams_of_other_addresses": (
        "src/newest_datagrams.rt",
        "            place += 1;\n        } else if left > 0 {",
        "            place += 1;\n            left = left.saturating_sub(1);\n        } else if left > 0 {",
    ),
    "keeps_one_less": ("src/newest_datagrams.rt", "    let mut left = most;\n", "    let mut left = most.saturating_sub(1);\n"),
    "counts_no_refusal": (
        "src/newest_datagrams.rt",
        "        self.unkept = failed_after(self.unkept, &kept);\n",
        "",
    ),
    "counts_what_it_kept": (
        "src/newest_datagrams.rt",
        "        self.unkept = failed_after(self.unkept, &kept);\n",
        "        self.unkept = self.unkept.saturating_add(1);\n",
    ),
    "says_that_all_were_kept": ("src/newest_datagrams.rt", "        self.unkept\n    }", "        self.unkept.min(0)\n    }"),
    "begins_with_one_unkept": ("src/newest_datagrams.rt", "            unkept: 0,\n", "            unkept: 1,\n"),
    "looks_at_the_newest_only": (
        "src/newest_datagrams.rt",
        "        None => message_with(alloc, others, from, name),",
        "        None => {\n            let _ = others;\n            Ok(None)\n        }",
    ),
    "looks_at_each_address": (
        "src/newest_datagrams.rt",
        "    if datagram.from != from {\n        return Ok(None);\n    }\n    match read(alloc, datagram.octets.as_slice())? {\n        Some(message) if",
        "    let _ = from;\n    match read(alloc, datagram.octets.as_slice())? {\n        Some(message) if",
    ),
    "takes_a_message_without_the_name": (
        "src/newest_datagrams.rt",
        "Some(message) if has_value(name, message.body.bindings()) =>",
        "Some(message) if has_value(name, message.body.bindings()) || name.is_empty() =>",
    ),
    "gives_no_reason": (
        "src/newest_datagrams.rt",
        "        Ok(reason_of(&message, watched, newest))",
        "        let _ = (message, newest);\n        Ok(None)",
    ),
    "knows_no_other_engine": (
        "src/newest_datagrams.rt",
        "        other_engine(alloc, self.datagrams.as_slice(), from, engine)\n    }\n}",
        "        let _ = (alloc, from, engine);\n        Ok(None)\n    }\n}",
    ),
    "its_own_engine_is_another": (
        "src/reason.rt",
        "Some(Value::Octets(other)) if other.as_slice() != engine =>",
        "Some(Value::Octets(other)) if other.as_slice() != engine || engine.is_empty() =>",
    ),
    "the_first_value_for_all": (
        "src/reason.rt",
        "    if name == first.name.parts() {\n        return Some(&first.value);\n    }\n    value_under(name, others)",
        "    let _ = (name, others);\n    Some(&first.value)",
    ),
    "a_gauge_is_no_sample": ("src/reason.rt", "        | Value::Gauge32(_)\n        | Value::TimeTicks(_)\n        | Value::Counter64(_) => None,", "        | Value::TimeTicks(_)\n        | Value::Counter64(_) => None,"),
    "a_text_is_a_sample": ("src/reason.rt", "        _ => Some(Reason::Value(Tag::of(value))),", "        Value::Octets(_) => None,\n        _ => Some(Reason::Value(Tag::of(value))),"),
    "an_indicator_may_be_a_counter64": ("src/reason.rt", "Some(Value::Counter32(_) | Value::Gauge32(_) | Value::TimeTicks(_)) => None,", "Some(Value::Counter32(_) | Value::Gauge32(_) | Value::TimeTicks(_) | Value::Counter64(_)) => None,"),
    "a_missing_indicator_is_none": ("src/reason.rt", "        None => Some(Reason::NoDiscontinuity),", "        None => None,"),
    "a_clock_that_stands_still_is_past": ("src/reason.rt", "(stamp.boots, stamp.time) <= (newest.boots(), newest.time())", "(stamp.boots, stamp.time) < (newest.boots(), newest.time())"),
    "clocks_without_boots": ("src/reason.rt", "(stamp.boots, stamp.time) <= (newest.boots(), newest.time())", "stamp.time <= newest.time()"),
    "the_clock_for_the_boots": ("src/reason.rt", "Some(Reason::Clock(stamp.boots, stamp.time))", "Some(Reason::Clock(stamp.time, stamp.boots))"),
    "keeps_the_first_datagram_alone": (
        "src/newest_datagrams.rt",
        "    datagrams.insert(0, Datagram { from, octets })?;\n",
        "    if datagrams.is_empty() {\n        datagrams.insert(0, Datagram { from, octets })?;\n    }\n",
    ),
    "keeps_the_newest_datagram_twice": (
        "src/newest_datagrams.rt",
        "    let octets = Octets::from_slice(alloc, octets)?;\n    datagrams",
        "    let again = Octets::from_slice(alloc, octets)?;\n    let octets = Octets::from_slice(alloc, octets)?;\n    datagrams.insert(0, Datagram { from, octets: again })?;\n    datagrams",
    ),
    "forgets_what_it_kept": (
        "src/newest_datagrams.rt",
        "    datagrams.insert(0, Datagram { from, octets })?;\n",
        "    datagrams.clear();\n    datagrams.insert(0, Datagram { from, octets })?;\n",
    ),
    "ignores_the_newest_sample": (
        "src/newest_datagrams.rt",
        "        Ok(reason_of(&message, watched, newest))",
        "        let _ = newest;\n        Ok(reason_of(&message, watched, None))",
    ),
    "looks_for_the_discontinuity_alone": (
        "src/newest_datagrams.rt",
        "        let name = watched.instance.name.parts();\n",
        "        let name = match &watched.discontinuity {\n            Some(name) => name.parts(),\n            None => watched.instance.name.parts(),\n        };\n",
    ),
    "knows_each_engine_by_no_octets": (
        "src/newest_datagrams.rt",
        "        other_engine(alloc, self.datagrams.as_slice(), from, engine)\n    }\n}",
        "        let _ = engine;\n        other_engine(alloc, self.datagrams.as_slice(), from, &[])\n    }\n}",
    ),
    "looks_for_engines_in_the_newest_alone": (
        "src/newest_datagrams.rt",
        "        None => other_engine(alloc, others, from, engine),",
        "        None => {\n            let _ = others;\n            Ok(None)\n        }",
    ),
    "an_engine_of_any_address": (
        "src/newest_datagrams.rt",
        "    if datagram.from != from {\n        return Ok(None);\n    }\n    match read(alloc, datagram.octets.as_slice())? {\n        Some(message) => other_than",
        "    let _ = from;\n    match read(alloc, datagram.octets.as_slice())? {\n        Some(message) => other_than",
    ),
    "the_oldest_message_first": (
        "src/newest_datagrams.rt",
        "    match message_in(alloc, datagram, from, name)? {\n        Some(message) => Ok(Some(message)),\n        None => message_with(alloc, others, from, name),",
        "    match message_with(alloc, others, from, name)? {\n        Some(message) => Ok(Some(message)),\n        None => message_in(alloc, datagram, from, name),",
    ),
    "a_message_without_the_value": (
        "src/newest_datagrams.rt",
        "Some(message) if has_value(name, message.body.bindings()) =>",
        "Some(message) if !has_value(name, message.body.bindings()) =>",
    ),
    "reads_no_message": (
        "src/newest_datagrams.rt",
        "        Ok(message) => Ok(Some(message)),\n        Err(PduFault",
        "        Ok(_) => Ok(None),\n        Err(PduFault",
    ),
    "memory_is_no_message": (
        "src/newest_datagrams.rt",
        "        Err(PduFault::OutOfMemory) => Err(AllocError),\n",
        "",
    ),
    "a_message_has_no_reason": (
        "src/reason.rt",
        "        Some(message) => reason_in(message.body.bindings(), watched, newest),",
        "        Some(_) => {\n            let _ = (watched, newest);\n            None\n        }",
    ),
    "the_discontinuity_before_the_value": (
        "src/reason.rt",
        "    if let Some(reason) = value_reason(value) {\n        return Some(reason);\n    }\n    if let Some(reason) = discontinuity_reason(&watched.discontinuity, bindings) {\n        return Some(reason);\n    }\n",
        "    if let Some(reason) = discontinuity_reason(&watched.discontinuity, bindings) {\n        return Some(reason);\n    }\n    if let Some(reason) = value_reason(value) {\n        return Some(reason);\n    }\n",
    ),
    "has_every_value": (
        "src/reason.rt",
        "    value_under(name, bindings).is_some()",
        "    let _ = name;\n    !bindings.is_empty()",
    ),
    "each_value_that_is_none_is_null": (
        "src/reason.rt",
        "Some(Reason::Value(Tag::of(value)))",
        "Some(Reason::Value(Tag::Null))",
    ),
    "without_an_indicator_none_has_a_value": (
        "src/reason.rt",
        "    let Some(name) = name else {\n        return None;\n    };\n    match value_under",
        "    let Some(name) = name else {\n        return Some(Reason::NoDiscontinuity);\n    };\n    match value_under",
    ),
    "the_time_for_the_boots": (
        "src/reason.rt",
        "    let boots = value_under(&ENGINE_BOOTS, bindings)?;",
        "    let boots = value_under(&ENGINE_TIME, bindings)?;",
    ),
    "says_the_sample_for_the_clock": (
        "src/reason.rt",
        "Some(Reason::Clock(stamp.boots, stamp.time))",
        "Some(Reason::Clock(newest.boots(), newest.time()))",
    ),
    "its_own_engine_for_the_other": (
        "src/reason.rt",
        "            Ok(Some(other.try_clone(alloc)?))",
        "            let _ = other;\n            Ok(Some(Octets::from_slice(alloc, engine)?))",
    ),
}

# Those that break a promise as a whole, each with its function: the gate tries them.
PROMISES = {
    "keeps_no_datagram": "newest_datagrams::keep_newest",
    "gives_no_reason": "newest_datagrams::NewestDatagrams::reason",
    "knows_no_other_engine": "newest_datagrams::NewestDatagrams::other_engine",
}
