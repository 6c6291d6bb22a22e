"""Bugs of mon_survey for tests/wrong_bodies/planted: by name the file, what stands there once, and the bug in its place."""

BUGS = {
    "adds_what_is_there": (
        "src/changes.rt",
        "if has_index(indexes, one.index) {",
        "if has_index(indexes, one.index) && one.wide {",
    ),
    "empties_too_early": (
        "src/editing.rt",
        'has_part(block, b"name = \\"") && !has_part(&lines, b"name = \\"")',
        'has_part(block, b"name = \\"") && has_part(&lines, b"name = \\"")',
    ),
    "follows_the_first_name": (
        "src/moving.rt",
        "Some(name) if self.answers.octets(Column::IfX(1), index) == name => Some(index),",
        "Some(name) if self.answers.octets(Column::IfX(1), index) == name && index > 1_000_000 => Some(index),",
    ),
    "loses_old_alarms": (
        "src/ruling.rt",
        "add_left(alloc, &mut all, places, was.instances, was.rules)?;",
        "add_left(alloc, &mut all, places, was.instances, &[])?;",
    ),
    "loses_the_window": (
        "src/moving.rt",
        "window: watched.window,",
        "window: watched.epoch,",
    ),
    "passes_one_octet_more": (
        "src/editing.rt",
        "return Ok(swap.from.len().saturating_sub(1));",
        "return Ok(swap.from.len());",
    ),
    "splits_at_empty_lines": (
        "src/editing.rt",
        'octet == b\'\\n\' && (rest.starts_with(b"\\n[") || (rest.starts_with(b"[") && before != b\'\\n\'))',
        'octet == b\'\\n\' && (rest.starts_with(b"\\n[") || rest.starts_with(b"["))',
    ),
    "swaps_moves": (
        "src/changes.rt",
        "changes.push(Change::Moved(index, now))",
        "changes.push(Change::Moved(now, index))",
    ),
    "updates_any_engine": (
        "src/updating.rt",
        "if !polls_any(self.places.engine, station.core.targets()) {",
        "if !polls_any(self.places.engine, station.core.targets()) && station.wait_ms == 7 {",
    ),
    "an_empty_alias_is_shown": (
        "src/writing.rt",
        "    if alias.is_empty() {\n        return Ok(());\n    }\n    text.push_str",
        "    text.push_str",
    ),
    "no_alias_is_shown": (
        "src/writing.rt",
        "    if alias.is_empty() {",
        "    if !alias.is_empty() {",
    ),
    "takes_a_name_again": (
        "src/answers.rt",
        "        Some(last) => last.key < key,",
        "        Some(last) => last.key <= key,",
    ),
    "skips_a_ragged_index": (
        "src/answers.rt",
        "            Spot::Ragged => Err(SurveyFault::BadIndex),",
        "            Spot::Ragged => Ok(()),",
    ),
    "calls_an_engine_short": (
        "src/engine.rt",
        "engine.len() < 5 ||",
        "engine.len() < 6 ||",
    ),
    "polls_32_bits_first": (
        "src/planning.rt",
        "    if answers.is_counter64(column_of(counter, true), index) {\n        return Some(Planned {\n            counter,\n            wide: true,",
        "    if answers.is_counter64(column_of(counter, true), index) && !answers.is_counter32(column_of(counter, false), index) {\n        return Some(Planned {\n            counter,\n            wide: true,",
    ),
    "polls_interfaces_that_are_down": (
        "src/choice.rt",
        "if self.up && !answers.is_up(index) {",
        "if self.up && answers.is_up(index) {",
    ),
    "matches_names_alone": (
        "src/choice.rt",
        "has_part(answers.name(index), self.part) || has_part(answers.alias(index), self.part)",
        "has_part(answers.name(index), self.part) || has_part(answers.name(index), self.part)",
    ),
    "plans_a_counter_too_many": (
        "src/planning.rt",
        "    if counters.len() > MAX_INSTANCES {\n        return Err",
        "    if counters.len() > MAX_INSTANCES + 1 {\n        return Err",
    ),
    "polls_a_counter_in_two_groups": (
        "src/planning.rt",
        "            let from = MAX_INSTANCES * number as usize;",
        "            let from = (MAX_INSTANCES - 1) * number as usize;",
    ),
    "asks_for_no_mark": (
        "src/column.rt",
        "        Column::IfX(18),\n        Column::IfX(19),\n",
        "        Column::IfX(18),\n        Column::IfX(18),\n",
    ),
    "plans_nothing_for_no_counter": (
        "src/planning.rt",
        "        return Err(SurveyFault::NoCounter);",
        "        return Ok(());",
    ),
    "has_thresholds_of_bits": (
        "src/planning.rt",
        "        rising: part * 5 / 4,",
        "        rising: part * 10,",
    ),
    "shows_control_characters": (
        "src/writing.rt",
        "    if 32 <= octet && octet <= 126 && octet != 34 {",
        "    if octet <= 126 && octet != 34 {",
    ),
    "shows_quotes": (
        "src/writing.rt",
        "    if 32 <= octet && octet <= 126 && octet != 34 {",
        "    if 32 <= octet && octet <= 126 {",
    ),
    "writes_no_marks": (
        "src/writing.rt",
        "    if shown.answers.is_marked(index) {",
        "    if shown.answers.is_marked(index) && index == 0 {",
    ),
    "fills_targets_with_17": (
        "src/size.rt",
        "            TargetSize::Sixteen => 16,",
        "            TargetSize::Sixteen => 17,",
    ),
    "writes_texts_as_they_are": (
        "src/drafting.rt",
        "    if !plan.options.are_plain() {\n        return Err(SurveyFault::BadText);\n    }\n    let digits = hex::encode(shown.alloc, plan.engine)?;\n    let mut text = String::new(shown.alloc);",
        "    if !plan.options.are_plain() && plan.options.percent == 0 {\n        return Err(SurveyFault::BadText);\n    }\n    let digits = hex::encode(shown.alloc, plan.engine)?;\n    let mut text = String::new(shown.alloc);",
    ),
    "writes_no_alarms": (
        "src/drafting.rt",
        "    put_peers(text, plan.options.peers)?;\n    put_alarms(text, shown, plan.options.percent, engine, plan.planned)",
        "    put_peers(text, plan.options.peers)?;\n    put_alarms(text, shown, 0, engine, plan.planned)",
    ),
    "adds_no_alarms": (
        "src/drafting.rt",
        "    put_targets(text, shown, plan, engine)?;\n    put_alarms(text, shown, plan.options.percent, engine, plan.planned)\n}\n\n/// Returns the text of the settings",
        "    put_targets(text, shown, plan, engine)\n}\n\n/// Returns the text of the settings",
    ),
    "forgets_the_old_text": (
        "src/drafting.rt",
        "    let mut text = String::from_str(shown.alloc, settings)?;",
        "    let mut text = String::new(shown.alloc);",
    ),
    "shows_numbers_for_names": (
        "src/appending.rt",
        "    if existing.station.modules.is_empty() {",
        "    if existing.station.modules.len() < 2 {",
    ),
    "adds_an_agent_twice": (
        "src/appending.rt",
        "    if polls_any(engine, station.core.targets()) {\n        return Err(SurveyFault::SameEngine);",
        "    if polls_any(engine, station.core.targets()) && planned.len() > 16 {\n        return Err(SurveyFault::SameEngine);",
    ),
    "calls_every_engine_the_same": (
        "src/appending.rt",
        "    if polls_any(engine, station.core.targets()) {",
        "    if !station.core.targets().is_empty() {",
    ),
    "adds_a_target_too_many": (
        "src/size.rt",
        "    if targets > MAX_TARGETS {",
        "    if targets > MAX_TARGETS + 1 {",
    ),
    "refuses_what_is_appended": (
        "src/appending.rt",
        "        Ok(reading_of(alloc, new, added)?)\n",
        "        let _ = added;\n        Err(SurveyFault::Misread)\n",
    ),
    "finds_no_old_targets_kept": (
        "src/kept.rt",
        "    is_same_target(one, other) && are_kept_targets(old, new)",
        "    is_same_target(one, other) && old.is_empty() && are_kept_targets(old, new)",
    ),
    "compares_no_old_targets": (
        "src/kept.rt",
        "    if !are_kept_targets(old.core.targets(), new.core.targets()) {\n        return false;\n    }\n",
        "",
    ),
    "compares_no_old_rules": (
        "src/kept.rt",
        "\n        && are_kept_rules(watches, old.core.watch().rules(), new.core.watch().rules())\n",
        "\n",
    ),
    "compares_rules_by_number": (
        "src/kept.rt",
        "    instance_at(watches.old, one.instance()) == instance_at(watches.new, other.instance())",
        "    one.instance() == other.instance()",
    ),
    "labels_each_counter": (
        "src/tables.rt",
        "    if before == Some(index) {",
        "    if before == Some(index) && index == 0 {",
    ),
    "escapes_no_backslash": (
        "src/tables.rt",
        "    if octet == b'\"' || octet == b'\\\\' {",
        "    if octet == b'\"' {",
    ),
    "labels_by_ifdescr": (
        "src/tables.rt",
        "self.answers.octets(Column::IfX(1), index)",
        "self.answers.octets(Column::If(2), index)",
    ),
    "reads_no_labels_back": (
        "src/labelled.rt",
        "    if reads_on(source, before, indexes, text.as_str())? {",
        "    if reads_on(source, before, indexes, text.as_str())? || !before.is_empty() {",
    ),
    "confirms_no_labels": (
        "src/labelled.rt",
        "        Ok(text) => confirm(source, before, indexes, text),",
        "        Ok(text) => Ok(text),",
    ),
    "finds_other_labels_read": (
        "src/labelled.rt",
        "    if !is_interface(source, *index, value)? {",
        "    if !is_interface(source, *index, value)? && values.is_empty() {",
    ),
    "calls_every_file_bad": (
        "src/labelled.rt",
        "    let Some(before) = interfaces(&was) else {\n        return Err(SurveyFault::BadLabels);",
        "    let Some(before) = interfaces(&was) else {\n        return Err(SurveyFault::Misread);",
    ),
    "compares_no_marks": (
        "src/comparing.rt",
        "        None => !answers.is_marked(one.index),",
        "        None => true,",
    ),
    "compares_no_communities": (
        "src/comparing.rt",
        "            && target.community.as_slice() == options.community.as_bytes()\n",
        "",
    ),
    "compares_no_epochs": (
        "src/comparing.rt",
        "watched.window == window && watched.epoch == window",
        "watched.window == window",
    ),
    "compares_the_first_alarms": (
        "src/comparing.rt",
        "    if rules.len() != alarms.len() {",
        "    if rules.len() < alarms.len() {",
    ),
    "finds_every_text_misread": (
        "src/comparing.rt",
        "        are_scalars(options, station)\n            && targets",
        "        options.percent > 100\n            && targets",
    ),
    "reads_nothing_back": (
        "src/surveying.rt",
        "    let reading = given!(read_back(alloc, names, wanted, text.as_str()));\n",
        "    let reading = given!(read_back(alloc, names, wanted, \"\"));\n",
    ),
    "confirms_no_settings": (
        "src/surveying.rt",
        "    let drafted = given!(confirm(shown.alloc, names, &wanted, text));\n    Ok(drafted)",
        "    let longest = LongestRound {\n        most: 16000,\n        wait_ms: 1000,\n        tries: 3,\n    };\n    Ok(Drafted { text, longest })",
    ),
    "returns_another_text": (
        "src/surveying.rt",
        "    let reading = given!(read_back(alloc, names, wanted, text.as_str()));\n    Ok(",
        "    let reading = given!(read_back(alloc, names, wanted, text.as_str()));\n    let mut text = text;\n    text.push_str(\"#\")?;\n    Ok(",
    ),
    "refuses_what_is_read": (
        "src/surveying.rt",
        "        Ok(reading_of(alloc, station, station.core.targets())?)\n",
        "        Err(SurveyFault::Misread)\n",
    ),
    "misreads_what_is_refused": (
        "src/surveying.rt",
        "        Err(fault) => Err(SurveyFault::Refused(fault)),",
        "        Err(_) => Err(SurveyFault::Misread),",
    ),
    "labels_an_engine_again": (
        "src/labelled.rt",
        "    if has_engine(source.engine, before) {",
        "    if has_engine(source.engine, before) && indexes.len() > 1 {",
    ),
    "labels_whatever_is_there": (
        "src/labelled.rt",
        "    given!(require_room(source, old, before, indexes));",
        "    let _ = require_room(source, old, before, indexes);",
    ),
    "labels_the_first_table_s_engine_alone": (
        "src/labelled.rt",
        "    if has_engine(source.engine, before) {",
        "    let first = before.len().min(1);\n    if has_engine(source.engine, &before[..first]) {",
    ),
    "counts_no_old_interfaces": (
        "src/labelled.rt",
        "    let count = before.len() + indexes.len();",
        "    let count = indexes.len();",
    ),
    "labels_an_interface_too_many": (
        "src/labelled.rt",
        "    if count > MAX_INTERFACES {",
        "    if count > MAX_INTERFACES + 1 {",
    ),
    "knows_no_engine_that_just_began": (
        "src/engine.rt",
        "        Value::Integer(number) => *number >= 0,",
        "        Value::Integer(number) => *number > 0,",
    ),
    "passes_over_what_does_not_rise": (
        "src/answers.rt",
        "            return Err(SurveyFault::NotRising);",
        "            return Ok(());",
    ),
    "finds_each_interface_up": (
        "src/answers.rt",
        "Some(Value::Integer(1)))",
        "Some(Value::Integer(_)))",
    ),
    "names_by_ifdescr": (
        "src/answers.rt",
        "        match self.value(Column::IfX(1), index) {",
        "        match self.value(Column::If(2), index) {",
    ),
    "walks_each_column": (
        "src/choice.rt",
        "            .all(|counter| !self.spares(*counter, column))",
        "            .any(|counter| !self.spares(*counter, column))",
    ),
    "raises_alarms_on_packets": (
        "src/planning.rt",
        "        Kind::Octets => thresholds_at(answers, percent, index),\n        Kind::Packets | Kind::Errors",
        "        Kind::Octets | Kind::Packets => thresholds_at(answers, percent, index),\n        Kind::Errors",
    ),
    "the_round_of_the_old_settings": (
        "src/appending.rt",
        "        Ok(reading_of(alloc, new, added)?)\n",
        "        Ok(reading_of(alloc, old, added)?)\n",
    ),
    "the_longest_round_answers": (
        "src/longest.rt",
        "        most: round_time(settings).most,",
        "        most: round_time(settings).least,",
    ),
    "the_longest_round_is_silent": (
        "src/longest.rt",
        "        most: round_time(settings).most,",
        "        most: round_time(settings).silent,",
    ),
    "the_tries_of_no_target": (
        "src/longest.rt",
        "        tries: greatest_tries(settings.core.targets()),",
        "        tries: greatest_tries(&settings.core.targets()[..0]),",
    ),
    "waits_a_millisecond_more": (
        "src/longest.rt",
        "        wait_ms: settings.wait_ms,",
        "        wait_ms: settings.wait_ms.saturating_add(1),",
    ),
    "refuses_for_memory": (
        "src/appending.rt",
        "        Err(SettingsFault::OutOfMemory) => Err(SurveyFault::OutOfMemory),\n",
        "",
    ),
    "appends_what_was_not_read_back": (
        "src/appending.rt",
        "    let reading = given!(read_appended(alloc, existing, &wanted, text.as_str()));\n",
        "    let reading = reading_of(alloc, existing.station, existing.station.core.targets())?;\n",
    ),
    "compares_no_old_peers": (
        "src/kept.rt",
        "    if !are_same_numbers(old.core.peers(), new.core.peers()) {\n        return false;\n    }\n",
        "",
    ),
    "compares_no_old_aliases": (
        "src/labelled.rt",
        '\n        && are_alike(text_at(one, "ifAlias"), text_at(other, "ifAlias"))',
        "",
    ),
    "writes_a_module_with_a_quote": (
        "src/options.rt",
        "\n            && are_plain_paths(self.modules)",
        "",
    ),
    "forgets_the_old_labels": (
        "src/tables.rt",
        "    if old.is_empty() { FIRST } else { old }",
        "    let _ = old;\n    FIRST",
    ),
    "takes_ifspeed_always": (
        "src/answers.rt",
        "        if millions > 0 {\n            u64::from(millions) * 1_000_000\n        } else if plain < u32::MAX {",
        "        let _ = millions;\n        if plain < u32::MAX {",
    ),
    "takes_ifspeed_at_its_greatest": (
        "src/answers.rt",
        "        } else if plain < u32::MAX {\n            u64::from(plain)\n        } else {\n            0\n        }",
        "        } else {\n            u64::from(plain)\n        }",
    ),
    "takes_ifspeed_for_millions": (
        "src/answers.rt",
        "        u64::from(plain)\n",
        "        u64::from(plain) * 1_000_000\n",
    ),
    "takes_ifhighspeed_for_bits": (
        "src/answers.rt",
        "        u64::from(millions) * 1_000_000\n",
        "        u64::from(millions)\n",
    ),
    "takes_no_ifspeed": (
        "src/answers.rt",
        "        u64::from(plain)\n",
        "        0\n",
    ),
    "takes_the_greater_of_both_speeds": (
        "src/answers.rt",
        "    if millions > 0 {\n",
        "    if u64::from(millions) * 1_000_000 >= u64::from(plain) {\n",
    ),
    "takes_ifmtu_for_ifspeed": (
        "src/answers.rt",
        "self.gauge(Column::If(5), index)",
        "self.gauge(Column::If(4), index)",
    ),
    "walks_no_ifspeed": (
        "src/column.rt",
        "        Column::If(5),\n",
        "        Column::If(4),\n",
    ),
    "has_equal_thresholds": (
        "src/planning.rt",
        "    if part < 4 {",
        "    if part == 0 {",
    ),
    "clears_at_eight_tenths": (
        "src/planning.rt",
        "        falling: part * 9 / 8,",
        "        falling: part,",
    ),
    "counts_interfaces_that_are_not_chosen": (
        "src/planning.rt",
        "    cell.column == Column::If(2)\n        && choice.takes(answers, cell.index)\n",
        "    cell.column == Column::If(2)\n",
    ),
    "counts_interfaces_with_a_speed": (
        "src/planning.rt",
        "        && answers.speed(cell.index) == 0",
        "        && answers.speed(cell.index) != 0",
    ),
    "counts_interfaces_without_a_high_speed": (
        "src/planning.rt",
        "        && answers.speed(cell.index) == 0",
        "        && answers.high_speed(cell.index) == 0",
    ),
    "counts_interfaces_that_count_octets_in": (
        "src/planning.rt",
        "        && (planned(answers, choice, cell.index, Counter::InOctets).is_some()\n            || planned(answers, choice, cell.index, Counter::OutOctets).is_some())",
        "        && planned(answers, choice, cell.index, Counter::InOctets).is_some()",
    ),
    "counts_one_interface_less": (
        "src/planning.rt",
        "        .filter(|cell| lacks_speed(answers, choice, cell))\n        .count()",
        "        .filter(|cell| lacks_speed(answers, choice, cell))\n        .count()\n        .saturating_sub(1)",
    ),
    "half_of_sixteen_is_four": (
        "src/size.rt",
        "            TargetSize::Sixteen => Some(TargetSize::Eight),",
        "            TargetSize::Sixteen => Some(TargetSize::Four),",
    ),
    "halves_no_further_than_two": (
        "src/size.rt",
        "            TargetSize::Two => Some(TargetSize::One),",
        "            TargetSize::Two => None,",
    ),
    "gives_no_targets": (
        "src/longest.rt",
        "        targets: copy_targets(alloc, targets)?,",
        "        targets: copy_targets(alloc, &[])?,",
    ),
    "knows_empty_names": (
        "src/relabelling.rt",
        "        [] => false,\n        _ => !has_part(name, REPLACEMENT),\n",
        "        _ => !has_part(name, REPLACEMENT),\n",
    ),
    "knows_names_that_were_not_utf_8": (
        "src/relabelling.rt",
        "        _ => !has_part(name, REPLACEMENT),\n",
        "        _ => true,\n",
    ),
    "gives_the_old_targets_too": (
        "src/appending.rt",
        "        let added = after(new.core.targets(), old.core.targets().len());",
        "        let added = after(new.core.targets(), 0);",
    ),
    "takes_targets_of_any_size": (
        "src/comparing.rt",
        "target.objects.as_slice().len() <= size.objects())",
        "target.objects.as_slice().len() <= size.objects().max(16))",
    ),
    "drafts_any_number_of_targets": (
        "src/surveying.rt",
        "    given!(require_few_targets(options.size, &[], &planned));\n",
        "",
    ),
    "starts_a_target_at_each_sixteenth": (
        "src/drafting.rt",
        "    if place % options.size.objects() == 0 {",
        "    if place % 16 == 0 {",
    ),
}

# what the gate tries: the function that each is in
PROMISES = {
    "adds_what_is_there": "changes::add_unless_there",
    "gives_no_targets": "longest::reading_of",
    "takes_ifspeed_at_its_greatest": "answers::Answers::speed",
    "polls_32_bits_first": "planning::planned",
    "polls_interfaces_that_are_down": "choice::Choice::takes",
    "plans_nothing_for_no_counter": "planning::require_few",
    "shows_control_characters": "writing::shown",
    "reads_nothing_back": "surveying::confirm",
    "calls_every_engine_the_same": "appending::require_room",
    "refuses_what_is_appended": "appending::require_appended",
    "reads_no_labels_back": "labelled::confirm",
    "refuses_what_is_read": "surveying::require_meant",
}
