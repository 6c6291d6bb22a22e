"""Bugs of mon_courier for tests/wrong_bodies/planted: by name the file, what stands there once, and the bug in its place."""

BUGS = {
    "puts_nothing": ("src/courier.rt", "        self.outbox.put(text);", "        self.outbox.put(b\"\");\n        let _ = text;"),
    "loses_unseen": (
        "src/courier.rt",
        "        self.plan = self.plan.after_loss();",
        "        self.plan = self.plan;",
    ),
    "counts_no_refusals": (
        "src/courier.rt",
        "            .saturating_add(self.plan.refused)",
        "            .saturating_add(self.plan.refused.min(0))",
    ),
    "a_text_in_hand_is_forgotten": (
        "src/courier.rt",
        "        self.is_taken || self.outbox.len() > 0",
        "        self.outbox.len() > 0",
    ),
    "wants_no_turn": (
        "src/courier.rt",
        "            Some(self.plan.due.saturating_sub(now))",
        "            Some(self.plan.due)",
    ),
    "wants_a_turn_a_second": ("src/courier.rt", "const TICK_MS: u64 = 50;", "const TICK_MS: u64 = 1_000;"),
    "begins_nothing": (
        "src/courier.rt",
        "            self.begin(rt, now)\n",
        "            let _ = rt;\n            None\n",
    ),
    "drops_what_is_in_flight": (
        "src/courier.rt",
        "            Some(line) => self.go_on(line, now),",
        "            Some(line) => {\n                drop(line);\n                self.start(rt, now)\n            }",
    ),
    "begins_before_its_time": (
        "src/courier.rt",
        "        self.has_text() && self.plan.due <= now",
        "        self.has_text() && (self.plan.due <= now || self.plan.due > 0)",
    ),
    "never_due": (
        "src/courier.rt",
        "        self.has_text() && self.plan.due <= now",
        "        self.has_text() && self.plan.due < now",
    ),
    "connects_elsewhere": (
        "src/courier.rt",
        "        S::connect(rt, self.address.socket())",
        "        let mut address = self.address;\n        address.port = 80;\n        S::connect(rt, address.socket())",
    ),
    "sends_from_the_middle_again": (
        "src/courier.rt",
        "            self.exchange.restart();\n",
        "            let _ = &self.exchange;\n",
    ),
    "takes_and_leaves_the_text": (
        "src/courier.rt",
        "            self.outbox.remove_first();\n",
        "            let _ = &self.outbox;\n",
    ),
    "keeps_nothing_in_hand": (
        "src/courier.rt",
        "            self.is_taken = true;\n",
        "            self.is_taken = false;\n",
    ),
    "never_silent": (
        "src/courier.rt",
        "        if now.saturating_sub(line.since) < LIMIT_MS {",
        "        if now.saturating_sub(line.since) <= LIMIT_MS {",
    ),
    "waits_a_minute": ("src/courier.rt", "const LIMIT_MS: u64 = 5_000;", "const LIMIT_MS: u64 = 60_000;"),
    "an_attempt_never_ages": (
        "src/courier.rt",
        "Line { stream, since: now }, now)",
        "Line { stream, since: u64::MAX }, now)",
    ),
    "delivers_and_sends_again": (
        "src/courier.rt",
        "                self.is_taken = false;\n                self.plan = self.plan.after_delivery(now);",
        "                self.plan = self.plan.after_delivery(now);",
    ),
    "refuses_uncounted": (
        "src/courier.rt",
        "                self.plan = self.plan.after_refusal(now);",
        "                self.plan = self.plan.after_delivery(now);",
    ),
    "gives_up_after_a_failure": (
        "src/courier.rt",
        "        self.plan = self.plan.after_failure(now);\n",
        "        self.is_taken = false;\n        self.plan = self.plan.after_failure(now);\n",
    ),
    "says_another_status": (
        "src/courier.rt",
        "                Some(News::Refused(status))",
        "                Some(News::Refused(400))",
    ),
    "asks_once_a_turn": ("src/courier.rt", "const MAX_CALLS: u8 = 32;", "const MAX_CALLS: u8 = 1;"),
    "reads_before_all_is_sent": (
        "src/exchange.rt",
        "        if self.sent < self.request.len() {",
        "        if self.sent == 0 {",
    ),
    "counts_a_short_write_as_whole": (
        "src/exchange.rt",
        "                self.sent += n;",
        "                self.sent = self.request.len();\n                let _ = n;",
    ),
    "sends_all_again": (
        "src/exchange.rt",
        "        match stream.put(&self.request[self.sent..]) {",
        "        match stream.put(&self.request[self.sent.min(0)..]) {",
    ),
    "an_octet_more_than_came": (
        "src/exchange.rt",
        "            seen.extend_from_slice(&room[..n]).unwrap();",
        "            let more = if n < room.len() { n + 1 } else { n };\n            seen.extend_from_slice(&room[..more]).unwrap();",
    ),
    "an_end_is_a_success": (
        "src/exchange.rt",
        "            Ok(0) => CallOutcome::Stops(Stop::Fails(Cause::Closed)),\n            Ok(_) =>",
        "            Ok(0) => CallOutcome::Stops(Stop::Responds(200)),\n            Ok(_) =>",
    ),
    "each_response_is_a_success": (
        "src/exchange.rt",
        "        Progress::Response { status, .. } => CallOutcome::Stops(Stop::Responds(status)),",
        "        Progress::Response { .. } => CallOutcome::Stops(Stop::Responds(200)),",
    ),
    "gives_up_at_once": (
        "src/exchange.rt",
        "            return Stop::Waits;\n        }\n        match self.step(stream) {\n            CallOutcome::GoesOn => self.go_on(stream, left - 1),",
        "            return Stop::Waits;\n        }\n        match self.step(stream) {\n            CallOutcome::GoesOn => Stop::Waits,",
    ),
    "not_ready_is_a_failure": (
        "src/exchange.rt",
        "        ErrorKind::WouldBlock | ErrorKind::Interrupted | ErrorKind::NotConnected => true,",
        "        ErrorKind::Interrupted | ErrorKind::NotConnected => true,",
    ),
    "a_refused_connection_is_waited_for": (
        "src/exchange.rt",
        "        ErrorKind::WouldBlock | ErrorKind::Interrupted | ErrorKind::NotConnected => true,",
        "        ErrorKind::WouldBlock | ErrorKind::Interrupted | ErrorKind::NotConnected => true,\n        ErrorKind::ConnectionRefused => true,",
    ),
    "redirected_is_delivered": ("src/verdict.rt", "    } else if status < 300 {", "    } else if status < 400 {"),
    "busy_is_refused": (
        "src/verdict.rt",
        "    } else if status == 408 || status == 429 || status >= 500 {",
        "    } else if status == 408 || status >= 500 {",
    ),
    "no_pause": (
        "src/plan.rt",
        "            due: now.saturating_add(self.pause),",
        "            due: now,",
    ),
    "pauses_do_not_grow": (
        "src/plan.rt",
        "            pause: self.pause.saturating_add(self.pause).min(MAX_PAUSE),",
        "            pause: self.pause.min(MAX_PAUSE),",
    ),
    "pauses_grow_without_end": ("src/plan.rt", "const MAX_PAUSE: u64 = 60_000;", "const MAX_PAUSE: u64 = 6_000_000;"),
    "says_each_failure": (
        "src/plan.rt",
        "        if self.is_failing {\n            None\n        } else {\n            Some(News::Fails(cause))\n        }",
        "        Some(News::Fails(cause))",
    ),
}

# Those that break a promise as a whole, each with its function: tests/bodies tries them in the gate.
PROMISES = {
    "puts_nothing": "courier::CourierBy::put",
    "begins_nothing": "courier::CourierBy::start",
    "connects_elsewhere": "courier::CourierBy::connect",
    "takes_and_leaves_the_text": "courier::CourierBy::prepare",
    "delivers_and_sends_again": "courier::CourierBy::judge",
    "gives_up_after_a_failure": "courier::CourierBy::fail",
    "never_silent": "courier::CourierBy::wait",
    "reads_before_all_is_sent": "exchange::Exchange::step",
    "counts_a_short_write_as_whole": "exchange::Exchange::send",
    "an_end_is_a_success": "exchange::Exchange::receive",
    "gives_up_at_once": "exchange::Exchange::go_on",
    "redirected_is_delivered": "verdict::verdict_of",
    "no_pause": "plan::Plan::after_failure",
}
