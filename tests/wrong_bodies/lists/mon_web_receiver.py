"""Bugs of mon_web_receiver for tests/wrong_bodies/planted: by name the file, what stands there once, and the bug in its place."""

BUGS = {
    "shows_nothing": (
        "src/receiver.rt",
        "        self.web.show(content);",
        "        let _ = content;",
    ),
    "forgets_the_round": (
        "src/receiver.rt",
        "        self.web.note_round(at, number);",
        "        let _ = at;\n        let _ = number;",
    ),
    "notes_the_round_before": (
        "src/receiver.rt",
        "        self.web.note_round(at, number);",
        "        self.web.note_round(at, number.saturating_sub(1));",
    ),
    "every_round_is_the_first": (
        "src/receiver.rt",
        "        self.web.note_round(at, number);",
        "        let _ = number;\n        self.web.note_round(at, 1);",
    ),
    "says_that_nothing_is_shown": (
        "src/receiver.rt",
        "    fn is_shown(&self) -> bool {\n        true\n",
        "    fn is_shown(&self) -> bool {\n        false\n",
    ),
    "a_failure_is_not_counted": (
        "src/receiver.rt",
        "        self.failures = failed_after(failures, &received);",
        "        self.failures = failures;",
    ),
    "counts_each_reception": (
        "src/receiver.rt",
        "        self.failures = failed_after(failures, &received);",
        "        self.failures = failures.saturating_add(1);",
    ),
    "counts_a_failure_twice": (
        "src/receiver.rt",
        "        self.failures = failed_after(failures, &received);",
        "        self.failures = failed_after(failed_after(failures, &received), &received);",
    ),
    "counts_the_last_failure_alone": (
        "src/receiver.rt",
        "        self.failures = failed_after(failures, &received);",
        "        self.failures = failed_after(0, &received);",
    ),
    "shows_that_there_is_no_memory": (
        "src/receiver.rt",
        "        self.web.show(content);",
        "        let _ = content;\n        self.web.show(None);",
    ),
    "texts_are_a_round": (
        "src/receiver.rt",
        "        self.web.show(content);",
        "        self.web.show(content);\n        self.web.note_round(0, 0);",
    ),
    "a_round_ends_the_texts": (
        "src/receiver.rt",
        "        self.web.note_round(at, number);",
        "        self.web.note_round(at, number);\n        self.web.show(None);",
    ),
    "every_round_ended_at_the_start": (
        "src/receiver.rt",
        "        self.web.note_round(at, number);",
        "        let _ = at;\n        self.web.note_round(0, number);",
    ),
    "notes_a_round_in_seconds": (
        "src/receiver.rt",
        "        self.web.note_round(at, number);",
        "        self.web.note_round(at / 1000, number);",
    ),
    "a_bare_socket_shows_texts": (
        "src/shows.rt",
        "    fn is_shown(&self) -> bool {\n        false\n",
        "    fn is_shown(&self) -> bool {\n        true\n",
    ),
    "says_that_no_time_passed": (
        "src/receiver.rt",
        "milliseconds(now.duration_since(self.origin))",
        "milliseconds(now.duration_since(now))",
    ),
    "begins_with_a_failure": (
        "src/receiver.rt",
        "            failures: 0,",
        "            failures: 1,",
    ),
    "a_new_receiver_shows_nothing": (
        "src/receiver.rt",
        "            socket,\n            web,\n            origin,",
        "            socket,\n            web: {\n                let mut web = web;\n                web.show(None);\n                web\n            },\n            origin,",
    ),
    "takes_no_texts_away": ("src/receiver.rt", "        self.web.take_content()", "        None"),
    "shows_nothing_and_takes_nothing": ("src/receiver.rt", "        self.web.take_content()", "        self.web.show(None);\n        None"),
    "takes_texts_in_a_round": ("src/receiver.rt", "        self.web.take_content()", "        self.web.note_round(0, 0);\n        self.web.take_content()"),
    "takes_texts_and_counts_a_failure": ("src/receiver.rt", "        self.web.take_content()", "        self.failures = 1;\n        self.web.take_content()"),
    "begins_in_a_wait_of_a_second": (
        "src/receiver.rt",
        "            timer: Timer::begin(0, origin),",
        "            timer: Timer::begin(1000, origin),",
    ),
    "begins_no_wait": (
        "src/receiver.rt",
        "                self.timer = Timer::begin(milliseconds, self.ticks.after(self.timer.quiet())?);",
        "                let _ = milliseconds;",
    ),
    "begins_a_wait_of_half_the_length": (
        "src/receiver.rt",
        "                self.timer = Timer::begin(milliseconds, self.ticks",
        "                self.timer = Timer::begin(milliseconds / 2, self.ticks",
    ),
    "begins_a_wait_when_the_last_one_began": (
        "src/receiver.rt",
        "Timer::begin(milliseconds, self.ticks.after(self.timer.quiet())?);",
        "Timer::begin(milliseconds, self.timer.quiet());",
    ),
    "begins_a_wait_at_the_start": (
        "src/receiver.rt",
        "Timer::begin(milliseconds, self.ticks.after(self.timer.quiet())?);",
        "Timer::begin(milliseconds, self.origin);",
    ),
    "renews_no_wait": (
        "src/receiver.rt",
        "            Wait::Renew => self.timer = self.timer.renew(self.ticks.after(self.timer.quiet())?),\n            Wait::Rest => {}",
        "            Wait::Renew | Wait::Rest => {}",
    ),
    "renews_by_no_clock": (
        "src/receiver.rt",
        "self.timer.renew(self.ticks.after(self.timer.quiet())?)",
        "self.timer.renew(self.timer.quiet())",
    ),
    "the_rest_of_a_wait_is_renewed": (
        "src/receiver.rt",
        "            Wait::Rest => {}",
        "            Wait::Rest => self.timer = self.timer.renew(self.ticks.after(self.timer.quiet())?),",
    ),
    "the_rest_of_a_wait_is_none": (
        "src/receiver.rt",
        "            Wait::Rest => {}",
        "            Wait::Rest => self.timer = Timer::begin(0, self.origin),",
    ),
    "a_renewed_wait_begins": (
        "src/receiver.rt",
        "self.timer = self.timer.renew(self.ticks.after(self.timer.quiet())?),",
        "self.timer = Timer::begin(1000, self.ticks.after(self.timer.quiet())?),",
    ),
    "looks_for_a_datagram_before_the_time": (
        "src/receiver.rt",
        "        if left.is_zero() {\n            return Ok(Attempt::Over);\n        }\n        match self.look()? {\n            Some((len, from)) => Ok(Attempt::Received(len, from)),\n            None => {",
        "        match self.look()? {\n            Some((len, from)) => Ok(Attempt::Received(len, from)),\n            None if left.is_zero() => Ok(Attempt::Over),\n            None => {",
    ),
    "a_wait_is_never_over": (
        "src/receiver.rt",
        "        if left.is_zero() {\n            return Ok(Attempt::Over);\n        }\n",
        "",
    ),
    "a_wait_is_over_at_once": (
        "src/receiver.rt",
        "        if left.is_zero() {",
        "        if left.is_zero() || self.failures < u64::MAX {",
    ),
    "a_wait_is_over_when_nothing_came": (
        "src/receiver.rt",
        "            None => {\n                self.serve(now, left)?;\n                Ok(Attempt::Served)\n            }",
        "            None => {\n                self.serve(now, left)?;\n                Ok(Attempt::Over)\n            }",
    ),
    "reckons_by_the_time_of_the_wait": (
        "src/receiver.rt",
        "        let left = self.timer.left(now);",
        "        let left = self.timer.left(self.timer.quiet());",
    ),
    "says_an_octet_less_than_came": (
        "src/receiver.rt",
        "            Some((len, from)) => Ok(Attempt::Received(len, from)),",
        "            Some((len, from)) => Ok(Attempt::Received(len.saturating_sub(1), from)),",
    ),
    "says_the_buffer_is_a_datagram": (
        "src/receiver.rt",
        "            Some((len, from)) => Ok(Attempt::Received(len, from)),",
        "            Some((_, from)) => Ok(Attempt::Received(self.buffer.len(), from)),",
    ),
    "lets_go_of_a_datagram": (
        "src/receiver.rt",
        "            Some((len, from)) => Ok(Attempt::Received(len, from)),",
        "            Some(_) => Ok(Attempt::Over),",
    ),
    "datagrams_have_http_wait": (
        "src/receiver.rt",
        "        if self.unserved >= MAX_UNSERVED {\n            return Ok(None);\n        }\n",
        "",
    ),
    "counts_no_datagram": (
        "src/receiver.rt",
        "            self.unserved += 1;",
        "            self.unserved += 0;",
    ),
    "http_waits_for_a_thousand_datagrams": (
        "src/receiver.rt",
        "const MAX_UNSERVED: u32 = 64;",
        "const MAX_UNSERVED: u32 = 1000;",
    ),
    "a_turn_counts_as_none": (
        "src/receiver.rt",
        "        self.unserved = 0;\n",
        "",
    ),
    "forgets_datagrams_at_an_attempt": (
        "src/receiver.rt",
        "        let left = self.timer.left(now);",
        "        let left = self.timer.left(now);\n        self.unserved = 0;",
    ),
    "an_attempt_renews_the_wait": (
        "src/receiver.rt",
        "        self.web.serve(at, wait)",
        "        self.timer = self.timer.renew(now);\n        self.web.serve(at, wait)",
    ),
    "an_attempt_begins_the_wait_again": (
        "src/receiver.rt",
        "        self.web.serve(at, wait)",
        "        self.timer = Timer::begin(1000, now);\n        self.web.serve(at, wait)",
    ),
    "a_failure_is_the_end_of_a_wait": (
        "src/receiver.rt",
        "                Err(_) => return Err(ReceiverFault),\n            }",
        "                Err(_) => return Ok(Arrival::Quiet),\n            }",
    ),
    "many_attempts_are_the_end_of_a_wait": (
        "src/receiver.rt",
        "        Err(ReceiverFault)\n    }\n\n    /// Looks at the time; then",
        "        Ok(Arrival::Quiet)\n    }\n\n    /// Looks at the time; then",
    ),
    "receives_half_a_datagram": (
        "src/receiver.rt",
        "arrival_of(self.alloc, self.buffer.as_slice(), len, from)",
        "arrival_of(self.alloc, self.buffer.as_slice(), len / 2, from)",
    ),
    "a_clock_that_fails_ends_a_wait": (
        "src/receiver.rt",
        "            Err(_) => Err(ReceiverFault),\n        }",
        "            Err(_) => Ok(Arrival::Quiet),\n        }",
    ),
    "a_failure_is_a_round": (
        "src/receiver.rt",
        "            Err(_) => Err(ReceiverFault),\n        }",
        "            Err(_) => {\n                self.web.note_round(0, 0);\n                Err(ReceiverFault)\n            }\n        }",
    ),
    "times_are_since_the_last_wait": (
        "src/receiver.rt",
        "        let at = Moment {\n",
        "        self.origin = now;\n        let at = Moment {\n",
    ),
    "says_the_time_since_the_wait_was_quiet": (
        "src/receiver.rt",
        "milliseconds(now.duration_since(self.origin))",
        "milliseconds(now.duration_since(self.timer.quiet()))",
    ),
    "a_socket_of_another_receiver": (
        "src/receiver.rt",
        "            buffer: datagram_buffer(alloc)?,\n            unserved: 0,",
        "            buffer: vec![in alloc; 0u8; 1500]?,\n            unserved: 0,",
    ),
    "begins_with_datagrams": (
        "src/receiver.rt",
        "            unserved: 0,\n            failures: 0,",
        "            unserved: 64,\n            failures: 0,",
    ),
    "http_never_has_a_turn": (
        "src/receiver.rt",
        "        self.web.serve(at, wait)",
        "        let _ = (at, wait);\n        Ok(())",
    ),
    "http_has_two_turns": (
        "src/receiver.rt",
        "        self.web.serve(at, wait)",
        "        self.web.serve(at, wait)?;\n        self.web.serve(at, wait)",
    ),
    "a_turn_that_failed_is_one": (
        "src/receiver.rt",
        "        self.web.serve(at, wait)",
        "        let _ = self.web.serve(at, wait);\n        Ok(())",
    ),
    "http_waits_while_datagrams_come": (
        "src/receiver.rt",
        "            Duration::ZERO\n",
        "            left\n",
    ),
    "http_never_waits": (
        "src/receiver.rt",
        "            left\n        } else {",
        "            Duration::ZERO\n        } else {",
    ),
    "http_waits_for_a_minute": (
        "src/receiver.rt",
        "        self.web.serve(at, wait)",
        "        let _ = wait;\n        self.web.serve(at, Duration::from_secs(60))",
    ),
    "a_turn_at_the_start": (
        "src/receiver.rt",
        "milliseconds(now.duration_since(self.origin))",
        "milliseconds(self.origin.duration_since(self.origin))",
    ),
    "a_turn_at_the_time_of_the_wait": (
        "src/receiver.rt",
        "milliseconds(now.duration_since(self.origin))",
        "milliseconds(self.timer.quiet().duration_since(self.origin))",
    ),
    "says_no_date": (
        "src/receiver.rt",
        "            date: self.rt.date(),",
        "            date: None,",
    ),
    "says_a_date_of_1970": (
        "src/receiver.rt",
        "            date: self.rt.date(),",
        "            date: httpdate::HttpDate::from_unix_secs(0).ok(),",
    ),
    "a_turn_before_each_datagram": (
        "src/receiver.rt",
        "            Some((len, from)) => Ok(Attempt::Received(len, from)),",
        "            Some((len, from)) => {\n                self.serve(now, left)?;\n                Ok(Attempt::Received(len, from))\n            }",
    ),
    "a_turn_in_a_wait_that_is_over": (
        "src/receiver.rt",
        "            return Ok(Attempt::Over);",
        "            self.serve(now, left)?;\n            return Ok(Attempt::Over);",
    ),
    "says_that_http_had_a_turn": (
        "src/receiver.rt",
        "                self.serve(now, left)?;\n                Ok(Attempt::Served)",
        "                self.unserved = 0;\n                Ok(Attempt::Served)",
    ),
    "a_turn_for_as_long_as_the_whole_wait": (
        "src/receiver.rt",
        "                self.serve(now, left)?;\n                Ok(Attempt::Served)",
        "                let whole = self.timer.left(self.timer.quiet());\n                self.serve(now, whole)?;\n                Ok(Attempt::Served)",
    ),
    "counts_each_datagram_as_the_first": (
        "src/receiver.rt",
        "            self.unserved += 1;",
        "            self.unserved = 1;",
    ),
    "http_is_due_after_each_datagram": (
        "src/receiver.rt",
        "            self.unserved += 1;",
        "            self.unserved = MAX_UNSERVED;",
    ),
    "a_datagram_from_the_sender_of_the_last": (
        "src/receiver.rt",
        "        if found.is_some() {\n",
        "        let _ = self.socket.look(self.buffer.as_mut_slice())?;\n        if found.is_some() {\n",
    ),
    "clears_what_was_received": (
        "src/receiver.rt",
        "        if found.is_some() {\n",
        "        if found.is_some() {\n            self.buffer.fill(0);\n",
    ),
    "a_buffer_of_a_packet": (
        "src/receiver.rt",
        "        if found.is_some() {\n",
        "        if found.is_none() {\n            self.buffer.truncate(1500);\n        }\n        if found.is_some() {\n",
    ),
    "a_turn_is_the_end_of_a_wait": (
        "src/receiver.rt",
        "                Ok(Attempt::Served) => {}",
        "                Ok(Attempt::Served) => return Ok(Arrival::Quiet),",
    ),
    "looks_at_no_clock": (
        "src/receiver.rt",
        "        let now = self.ticks.after(self.timer.quiet())?;\n        let left",
        "        let now = self.timer.quiet();\n        let left",
    ),
    "a_wait_of_four_times_the_length": (
        "src/receiver.rt",
        "                self.timer = Timer::begin(milliseconds, self.ticks",
        "                self.timer = Timer::begin(milliseconds.saturating_mul(4), self.ticks",
    ),
    "a_turn_ends_the_texts": (
        "src/serves.rt",
        "        self.turn(at, left)",
        "        self.show(None);\n        self.turn(at, left)",
    ),
    "a_failed_look_is_no_datagram": (
        "src/receiver.rt",
        "self.socket.look(self.buffer.as_mut_slice())?;",
        "self.socket.look(self.buffer.as_mut_slice()).unwrap_or(None);",
    ),
}

# Those that break a promise as a whole, each with its function: tests/bodies tries them in the gate.
PROMISES = {
    "looks_for_a_datagram_before_the_time": "receiver::WebReceiver::attempt",
    "datagrams_have_http_wait": "receiver::WebReceiver::look",
    "renews_by_no_clock": "receiver::WebReceiver::begin",
    "a_failure_is_the_end_of_a_wait": "receiver::WebReceiver::receive_rest",
    "shows_nothing": "receiver::WebReceiverServerShows::show",
}
