"""Bugs of mon_alarms for tests/wrong_bodies/planted: by name the file, what is there once, and the bug in its place."""

BUGS = {
    "calls_a_clear_one_raised": (
        "src/alarm.rt",
        "matches!(self, AlarmState::Raised { .. })",
        "true",
    ),
    "numbers_the_fault_3": (
        "src/fault.rt",
        "FallingNotBelowRising = 2",
        "FallingNotBelowRising = 3",
    ),
    "tells_falling_for_rising": (
        "src/rule.rt",
        "        self.rising\n",
        "        self.falling\n",
    ),
    "stamps_the_mark_as_time": (
        "src/alarm.rt",
        "            time: sample.time(),",
        "            time: sample.discontinuity(),",
    ),
    "compares_with_the_newest": (
        "src/alarm.rt",
        "        let level = observe(samples[..left].last(), sample);",
        "        let level = observe(samples.last(), sample);",
    ),
    "ends_clear": (
        "src/alarm.rt",
        "            return state;",
        "            return AlarmState::Clear;",
    ),
    "never_ends_raised": (
        "src/alarm.rt",
        "        return Some(state);\n    };\n    if level",
        "        return None;\n    };\n    if level",
    ),
    "stamps_time_as_boots": (
        "src/alarm.rt",
        "boots: sample.boots(),",
        "boots: sample.time(),",
    ),
    "takes_counters_by_value": (
        "src/alarm.rt",
        "if !is_counter(sample.kind()) {",
        "if is_counter(sample.kind()) {",
    ),
    "takes_equal_thresholds": (
        "src/rule.rt",
        "if falling >= rising {",
        "if falling > rising {",
    ),
    "takes_gauges_in_units": (
        "src/alarm.rt",
        "Some(1000 * sample.number())",
        "Some(sample.number())",
    ),
    "looks_at_the_newest_alone": (
        "src/alarm.rt",
        "        state = next;",
        "        return next;",
    ),
    "what_is_not_observed_clears": (
        "src/alarm.rt",
        "        return Some(state);\n    };\n    if level",
        "        return Some(AlarmState::Clear);\n    };\n    if level",
    ),
    "rates_a_second_in_units": (
        "src/alarm.rt",
        "Some(thousandths as i128)",
        "Some((thousandths / 1000) as i128)",
    ),
    "rates_backwards": (
        "src/alarm.rt",
        "Totals::between(before, sample)",
        "Totals::between(sample, before)",
    ),
    "a_rule_of_any_thresholds": (
        "src/rule.rt",
        "        if falling >= rising {",
        "        if falling >= rising && instance > 255 {",
    ),
    "a_rule_of_another_instance": (
        "src/rule.rt",
        "        Ok(Rule {\n            instance,",
        "        Ok(Rule {\n            instance: instance / 2,",
    ),
    "cleared_only_below": (
        "src/alarm.rt",
        "if level <= i128::from(rule.falling()) {",
        "if level < i128::from(rule.falling()) {",
    ),
    "raised_only_above": (
        "src/alarm.rt",
        "if i128::from(rule.rising()) <= level {",
        "if i128::from(rule.rising()) < level {",
    ),
    "stamps_the_latest": (
        "src/alarm.rt",
        "if i128::from(rule.rising()) <= level {",
        "if i128::from(rule.rising()) <= level && matches!(state, AlarmState::Clear) {",
    ),
    "never_says_raised": (
        "src/change.rt",
        "matches!(self, AlarmEvent::Raised { .. })",
        "false",
    ),
    "says_that_a_cleared_one_is_raised": (
        "src/change.rt",
        "matches!(self, AlarmEvent::Raised { .. })",
        "!matches!(self, AlarmEvent::Lapsed)",
    ),
    "looks_at_the_first_sample_alone": (
        "src/change.rt",
        "        (old, new) = (next.was, next.is);\n",
        "        (old, new) = (&next.was[next.was.len()..], &next.is[next.is.len()..]);\n",
    ),
    "never_reports_the_last_again": (
        "src/change.rt",
        "    put_event(changes, number, last)?;\n",
        "",
    ),
    "never_puts_right": (
        "src/change.rt",
        "    put_event(changes, number, right)?;\n",
        "    let _ = right;\n",
    ),
    "reports_no_event": (
        "src/change.rt",
        "        put_event(changes, number, event)?;\n",
        "        let _ = event;\n",
    ),
    "ends_at_the_first_event": (
        "src/change.rt",
        "        put_event(changes, number, event)?;\n",
        "        put_event(changes, number, event)?;\n        if event.is_some() {\n            return Ok(());\n        }\n",
    ),
    "reports_rule_0_always": (
        "src/change.rt",
        "        put_event(changes, number, event)?;\n",
        "        put_event(changes, 0, event)?;\n",
    ),
    "reports_no_change": (
        "src/change.rt",
        "        changes.push(AlarmChange { rule, event })?;\n",
        "        let _ = (changes, rule, event);\n",
    ),
    "reports_each_change_twice": (
        "src/change.rt",
        "        changes.push(AlarmChange { rule, event })?;\n",
        "        changes.push(AlarmChange { rule, event })?;\n        changes.push(AlarmChange { rule, event })?;\n",
    ),
    "forgets_the_changes_of_earlier_rules": (
        "src/change.rt",
        "    let mut comparison = Comparison::new();\n",
        "    changes.clear();\n    let mut comparison = Comparison::new();\n",
    ),
    "compares_then_and_now_alone": (
        "src/change.rt",
        "    if are_equal(was, is) {",
        "    if state(rule, was).is_raised() == state(rule, is).is_raised() {",
    ),
    "compares_only_longer_windows": (
        "src/change.rt",
        "    if are_equal(was, is) {",
        "    if was.len() == is.len() {",
    ),
    "knows_no_first_look": (
        "src/change.rt",
        "let (mut old, mut new) = (was, is);",
        "let (mut old, mut new) = (&was[..0], is);",
    ),
    "knows_all_samples": (
        "src/change.rt",
        "rule, &next.sample, next.is_known);",
        "rule, &next.sample, true);",
    ),
    "knows_no_sample": (
        "src/change.rt",
        "rule, &next.sample, next.is_known);",
        "rule, &next.sample, false);",
    ),
    "forgets_what_left_the_window": (
        "src/change.rt",
        "        let event = comparison.step",
        "        if !is.iter().any(|held| held.compare(&next.sample).is_eq()) {\n            (old, new) = (next.was, next.is);\n            continue;\n        }\n        let event = comparison.step",
    ),
    "puts_right_by_the_window_then": (
        "src/change.rt",
        "last, state(rule, is));",
        "last, state(rule, was));",
    ),
    "puts_right_from_the_window_now": (
        "src/change.rt",
        "comparison.put_right(state(rule, was), last",
        "comparison.put_right(state(rule, is), last",
    ),
    "windows_of_equal_length_are_equal": (
        "src/change.rt",
        "        if !some[place].is_same(&others[place]) {\n            return false;\n        }\n",
        "        let _ = &others[place];\n",
    ),
    "moves_on_by_any_sample": (
        "src/change.rt",
        "    if has_left(was, is, kept) {\n        return Some(newest);\n    }\n    None",
        "    let _ = has_left(was, is, kept);\n    Some(newest)",
    ),
    "moves_on_where_the_oldest_is_no_older": (
        "src/change.rt",
        "    if !oldest.compare(first).is_lt() {",
        "    if oldest.compare(first).is_gt() {",
    ),
    "moves_on_without_a_look_at_the_others": (
        "src/change.rt",
        "    are_equal(rest, kept)\n}",
        "    let _ = rest;\n    kept.len() < was.len()\n}",
    ),
    "the_newest_does_nothing": (
        "src/change.rt",
        "    (event, right)\n",
        "    let _ = event;\n    (None, right)\n",
    ),
    "the_newest_is_not_put_right": (
        "src/change.rt",
        "    (event, right)\n",
        "    let _ = right;\n    (event, None)\n",
    ),
    "the_newest_follows_the_oldest": (
        "src/change.rt",
        "observe(was.last(), newest)",
        "observe(was.first(), newest)",
    ),
    "is_put_right_by_the_first_look": (
        "src/change.rt",
        "put_right(after.is_raised(), state(rule, is))",
        "put_right(after.is_raised(), state(rule, was))",
    ),
    "the_newest_is_reported_twice": (
        "src/change.rt",
        "    put_event(changes, number, event)?;\n    put_event(changes, number, right)\n}",
        "    put_event(changes, number, event)?;\n    put_event(changes, number, event)?;\n    put_event(changes, number, right)\n}",
    ),
    "a_clear_alarm_is_reported_at_the_start": (
        "src/change.rt",
        "        AlarmState::Clear => None,",
        "        AlarmState::Clear => Some(AlarmEvent::Lapsed),",
    ),
    "nothing_is_raised_at_the_start": (
        "src/change.rt",
        "        AlarmState::Raised { boots, time } => Some(AlarmEvent::Raised { boots, time }),",
        "        AlarmState::Raised { .. } => None,",
    ),
    "swaps_boots_and_time_at_the_start": (
        "src/change.rt",
        "Some(AlarmEvent::Raised { boots, time }),",
        "Some(AlarmEvent::Raised { boots: time, time: boots }),",
    ),
    "takes_the_newer_first": (
        "src/comparison.rt",
        "            Ordering::Less => first(x, xs, is),\n",
        "            Ordering::Less => second(y, was, ys),\n",
    ),
    "takes_an_equal_one_twice": (
        "src/comparison.rt",
        "            Ordering::Equal => first(x, xs, ys),",
        "            Ordering::Equal => first(x, xs, is),",
    ),
    "takes_an_equal_one_as_new": (
        "src/comparison.rt",
        "            Ordering::Equal => first(x, xs, ys),",
        "            Ordering::Equal => second(y, xs, ys),",
    ),
    "ends_with_the_first_look": (
        "src/comparison.rt",
        "        (None, Some((y, ys))) => Some(second(y, was, ys)),",
        "        (None, Some(_)) => None,",
    ),
    "ends_with_the_second_look": (
        "src/comparison.rt",
        "        (Some((x, xs)), None) => Some(first(x, xs, is)),",
        "        (Some(_), None) => None,",
    ),
    "skips_what_the_first_look_had": (
        "src/comparison.rt",
        "        (Some((x, xs)), None) => Some(first(x, xs, is)),",
        "        (Some((x, xs)), None) => Some(first(x, &xs[xs.len()..], is)),",
    ),
    "begins_raised": (
        "src/comparison.rt",
        "            state: AlarmState::Clear,\n            newest: None,",
        "            state: AlarmState::Raised { boots: 0, time: 0 },\n            newest: None,",
    ),
    "forgets_the_sample_before": (
        "src/comparison.rt",
        "        self.newest = Some(*sample);\n",
        "",
    ),
    "keeps_the_oldest_as_the_sample_before": (
        "src/comparison.rt",
        "        self.newest = Some(*sample);\n",
        "        if self.newest.is_none() {\n            self.newest = Some(*sample);\n        }\n",
    ),
    "never_changes_the_state": (
        "src/comparison.rt",
        "        self.state = after_sample(rule, level, sample, self.state);\n",
        "        let _ = level;\n",
    ),
    "clears_between_the_thresholds": (
        "src/comparison.rt",
        "        return if level <= i128::from(rule.falling()) {",
        "        return if level < i128::from(rule.rising()) {",
    ),
    "raises_between_the_thresholds": (
        "src/comparison.rt",
        "    if i128::from(rule.rising()) <= level {\n        return AlarmState::Raised {",
        "    if i128::from(rule.falling()) < level {\n        return AlarmState::Raised {",
    ),
    "a_sample_without_a_rate_clears": (
        "src/comparison.rt",
        "    let Some(level) = level else {\n        return state;\n    };\n    if state",
        "    let Some(level) = level else {\n        return AlarmState::Clear;\n    };\n    if state",
    ),
    "takes_the_later_stamp": (
        "src/comparison.rt",
        "        } else {\n            state\n        };",
        "        } else {\n            AlarmState::Raised {\n                boots: sample.boots(),\n                time: sample.time(),\n            }\n        };",
    ),
    "reports_no_alarm_that_is_cleared": (
        "src/comparison.rt",
        "        (true, false) => Some(AlarmEvent::Cleared { boots, time }),\n",
        "",
    ),
    "reports_a_cleared_one_as_raised": (
        "src/comparison.rt",
        "        (true, false) => Some(AlarmEvent::Cleared { boots, time }),",
        "        (true, false) => Some(AlarmEvent::Raised { boots, time }),",
    ),
    "clears_without_a_stamp": (
        "src/comparison.rt",
        "        (true, false) => Some(AlarmEvent::Cleared { boots, time }),",
        "        (true, false) => Some(AlarmEvent::Lapsed),",
    ),
    "stamps_the_mark_as_the_time": (
        "src/comparison.rt",
        "let (boots, time) = (sample.boots(), sample.time());",
        "let (boots, time) = (sample.boots(), sample.discontinuity());",
    ),
    "reports_while_it_stays_raised": (
        "src/comparison.rt",
        "        (false, true) => Some",
        "        (_, true) => Some",
    ),
    "compares_the_state_after_alone": (
        "src/comparison.rt",
        "!(is_known && before.0 == before.1 && after.0 == after.1)",
        "!(is_known && after.0 == after.1)",
    ),
    "compares_the_state_before_alone": (
        "src/comparison.rt",
        "!(is_known && before.0 == before.1 && after.0 == after.1)",
        "!(is_known && before.0 == before.1)",
    ),
    "reports_what_was_so": (
        "src/comparison.rt",
        "    if is_new { event } else { None }",
        "    let _ = is_new;\n    event",
    ),
    "a_known_sample_does_nothing_new": (
        "src/comparison.rt",
        "!(is_known && before.0 == before.1 && after.0 == after.1)",
        "{\n        let _ = (before, after);\n        !is_known\n    }",
    ),
    "a_new_sample_was_known": (
        "src/comparison.rt",
        "        if is_known {\n            self.known.step(rule, sample);\n        }\n",
        "        let _ = is_known;\n        self.known.step(rule, sample);\n",
    ),
    "what_was_known_never_moves": (
        "src/comparison.rt",
        "        if is_known {\n            self.known.step(rule, sample);\n        }\n",
        "        let _ = (rule, sample, is_known);\n",
    ),
    "repeats_the_last_always": (
        "src/comparison.rt",
        "            (Some(_), Some((event, false))) => Some(event),",
        "            (_, Some((event, _))) => Some(event),",
    ),
    "repeats_the_last_new_one": (
        "src/comparison.rt",
        "            (Some(_), Some((event, false))) => Some(event),",
        "            (Some(event), Some((_, false))) => Some(event),",
    ),
    "puts_right_always": (
        "src/comparison.rt",
        "    if reported == now.is_raised() {\n        return None;\n    }\n    Some(event_of(now))",
        "    let _ = reported;\n    Some(event_of(now))",
    ),
    "puts_right_without_what_was_reported": (
        "src/comparison.rt",
        "put_right(raised_after(was, later_new(last, self.last_new)), now)",
        "let _ = last;\n        put_right(raised_after(was, None), now)",
    ),
    "keeps_the_first_as_the_last": (
        "src/comparison.rt",
        "        Some(event) => Some((event, is_new)),",
        "        Some(event) => Some(before.unwrap_or((event, is_new))),",
    ),
    "calls_each_last_event_new": (
        "src/comparison.rt",
        "        Some(event) => Some((event, is_new)),",
        "        Some(event) => Some((event, is_new || before.is_none())),",
    ),
    "keeps_the_first_as_the_last_new": (
        "src/comparison.rt",
        "        None => before,\n        Some(event) => Some(event),",
        "        None => before,\n        Some(event) => Some(before.unwrap_or(event)),",
    ),
    "lapses_a_raised_one": (
        "src/comparison.rt",
        "        AlarmState::Raised { boots, time } => AlarmEvent::Raised { boots, time },",
        "        AlarmState::Raised { .. } => AlarmEvent::Lapsed,",
    ),
    "announces_between_looks": (
        "src/announcing.rt",
        "            return Ok(Vec::new(alloc));\n        }\n        let announced",
        "            return Ok(changes);\n        }\n        let announced",
    ),
    "announces_at_once_for_two_looks": (
        "src/announcing.rt",
        "if self.after <= 1 {",
        "if self.after <= 2 {",
    ),
    "announces_nothing": (
        "src/announcing.rt",
        "            return None;\n        }\n        self.since\n",
        "            return None;\n        }\n        None\n",
    ),
    "announces_a_look_early": (
        "src/announcing.rt",
        "        if u64::from(self.held) + 1 < u64::from(after) {\n            return None;",
        "        if u64::from(self.held) + 2 < u64::from(after) {\n            return None;",
    ),
    "announces_a_look_late": (
        "src/announcing.rt",
        "        if u64::from(self.held) + 1 < u64::from(after) {\n            return None;",
        "        if u64::from(self.held) < u64::from(after) {\n            return None;",
    ),
    "announces_again_at_each_look": (
        "src/announcing.rt",
        "        Pending::settled(event.state())\n",
        "        Pending {\n            announced: event.state(),\n            since: Some(event),\n            held: self.held,\n        }\n",
    ),
    "keeps_what_was_announced_before": (
        "src/announcing.rt",
        "        Pending::settled(event.state())\n",
        "        let _ = event;\n        Pending::settled(self.announced)\n",
    ),
    "counts_on_over_an_event": (
        "src/announcing.rt",
        "            since: Some(event),\n            held: 0,\n",
        "            since: Some(event),\n            held: self.held,\n",
    ),
    "keeps_the_stamp_of_what_was_over": (
        "src/announcing.rt",
        "            since: Some(event),\n            held: 0,\n",
        "            since: self.since.or(Some(event)),\n            held: 0,\n",
    ),
    "stays_pending_when_it_is_over": (
        "src/announcing.rt",
        "            return Pending::settled(self.announced);\n",
        "            return self;\n",
    ),
    "waits_with_what_is_known": (
        "src/announcing.rt",
        "if event.raises() == self.announced.is_raised() {",
        "if event.raises() != self.announced.is_raised() {",
    ),
    "announces_a_cleared_one_as_lapsed": (
        "src/announcing.rt",
        "            return None;\n        }\n        self.since\n",
        "            return None;\n        }\n        match self.since {\n            Some(AlarmEvent::Cleared { .. }) => Some(AlarmEvent::Lapsed),\n            other => other,\n        }\n",
    ),
    "forgets_at_a_look_what_is_pending": (
        "src/announcing.rt",
        "                since: Some(event),\n                held: self.held + 1,\n",
        "                since: None,\n                held: self.held + 1,\n",
    ),
    "a_look_counts_for_nothing": (
        "src/announcing.rt",
        "held: self.held + 1,",
        "held: self.held,",
    ),
    "a_look_counts_twice": (
        "src/announcing.rt",
        "held: self.held + 1,",
        "held: self.held.saturating_add(2),",
    ),
    "notes_each_event_for_the_first_rule": (
        "src/announcing.rt",
        "            rules[change.rule] = pending.after_event(change.event);\n",
        "            rules[0] = pending.after_event(change.event);\n",
    ),
    "goes_on_from_the_first_rule": (
        "src/announcing.rt",
        "            let pending = rules[change.rule];\n",
        "            let pending = rules[0];\n",
    ),
    "leaves_out_the_last_rule": (
        "src/announcing.rt",
        "        if change.rule < rules.len() {",
        "        if change.rule + 1 < rules.len() {",
    ),
    "notes_only_what_raises": (
        "src/announcing.rt",
        "            rules[change.rule] = pending.after_event(change.event);\n",
        "            if change.event.raises() {\n                rules[change.rule] = pending.after_event(change.event);\n            }\n",
    ),
    "announces_the_last_rule_first": (
        "src/announcing.rt",
        "        put_event(&mut announced, number, pending.due(after))?;\n",
        "        let _ = pending;\n        put_event(&mut announced, number, rules[rules.len() - 1 - number].due(after))?;\n",
    ),
    "announces_all_of_rule_0": (
        "src/announcing.rt",
        "put_event(&mut announced, number, pending.due(after))?;",
        "put_event(&mut announced, 0, pending.due(after))?;",
    ),
    "looks_before_it_announces": (
        "src/announcing.rt",
        "        let announced = due(alloc, self.after, self.rules.as_slice())?;\n        look(&mut self.rules, self.after);\n",
        "        look(&mut self.rules, self.after);\n        let announced = due(alloc, self.after, self.rules.as_slice())?;\n",
    ),
    "never_looks": (
        "src/announcing.rt",
        "        look(&mut self.rules, self.after);\n",
        "",
    ),
    "looks_between_two_rounds": (
        "src/announcing.rt",
        "            return Ok(Vec::new(alloc));\n        }\n        let announced",
        "            look(&mut self.rules, self.after);\n            return Ok(Vec::new(alloc));\n        }\n        let announced",
    ),
    "notes_nothing_between_two_rounds": (
        "src/announcing.rt",
        "        note(&mut self.rules, changes.as_slice());\n",
        "        if looks {\n            note(&mut self.rules, changes.as_slice());\n        }\n",
    ),
    "begins_with_all_clear": (
        "src/announcing.rt",
        "            rules.push(Pending::settled(*state))?;\n",
        "            let _ = state;\n            rules.push(Pending::settled(AlarmState::Clear))?;\n",
    ),
    "knows_states_that_it_never_moves": (
        "src/announcing.rt",
        "        if after <= 1 {",
        "        if after < 1 {",
    ),
    "says_the_state_before_it_is_announced": (
        "src/announcing.rt",
        "            states.push(pending.announced)?;\n",
        "            let state = match pending.since {\n                Some(event) => event.state(),\n                None => pending.announced,\n            };\n            states.push(state)?;\n",
    ),
    "says_a_raised_one_without_its_stamp": (
        "src/change.rt",
        "            AlarmEvent::Raised { boots, time } => AlarmState::Raised { boots, time },\n",
        "            AlarmEvent::Raised { .. } => AlarmState::Raised { boots: 0, time: 0 },\n",
    ),
}

PROMISES = {
    "cleared_only_below": "alarm::raised_before",
    "raised_only_above": "alarm::raised_before",
    "stamps_the_latest": "alarm::raised_before",
    "compares_then_and_now_alone": "change::put_changes",
    "reports_what_was_so": "comparison::only_if",
    "announces_between_looks": "announcing::Announcer::announce",
    "announces_a_look_early": "announcing::Pending::due",
    "counts_on_over_an_event": "announcing::Pending::after_event",
    "announces_again_at_each_look": "announcing::Pending::after_look",
}
