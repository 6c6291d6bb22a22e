"""Bugs of mon_web for tests/wrong_bodies/planted: by name the file, what stands there once, and the bug in its place."""

BUGS = {
    "never_late": (
        "src/slot.rt",
        "        Some(limit) => now.saturating_sub(slot.since) >= limit,\n        None => false,",
        "        Some(limit) => now.saturating_sub(slot.since) >= limit && limit == 0,\n        None => false,",
    ),
    "late_too_early": (
        "src/slot.rt",
        "        Some(limit) => now.saturating_sub(slot.since) >= limit,",
        "        Some(limit) => now.saturating_sub(slot.since) >= limit - 1,",
    ),
    "closing_takes_as_long_as_asking": (
        "src/slot.rt",
        "            Stage::Closing => Some(CLOSING_MS),",
        "            Stage::Closing => Some(ASKING_MS),",
    ),
    "lets_nobody_in": (
        "src/slot.rt",
        "        Some(place) => Some(place),\n        None => oldest(slots, now),",
        "        Some(_) => None,\n        None => oldest(slots, now),",
    ),
    "closes_one_though_a_place_is_free": (
        "src/slot.rt",
        "    match free_slot(slots) {\n",
        "    match oldest(slots, now) {\n",
    ),
    "closes_the_newest": (
        "src/slot.rt",
        "slot.since < since)",
        "slot.since > since)",
    ),
    "closes_one_that_takes_its_response": (
        "src/slot.rt",
        "        Stage::Free | Stage::Sending => false,",
        "        Stage::Free => false,\n        Stage::Sending => true,",
    ),
    "spares_nobody": (
        "src/slot.rt",
        "        Stage::Asking | Stage::Closing => now.saturating_sub(slot.since) >= SPARED_MS,",
        "        Stage::Asking | Stage::Closing => now >= slot.since,",
    ),
    "always_healthy": (
        "src/pages.rt",
        "            Some(ended) => now.saturating_sub(ended.at) <= self.limit,\n            None => false,",
        "            Some(ended) => now.saturating_sub(ended.at) <= self.limit,\n            None => true,",
    ),
    "health_ends_too_early": (
        "src/pages.rt",
        "now.saturating_sub(ended.at) <= self.limit",
        "now.saturating_sub(ended.at) < self.limit",
    ),
    "answers_no_text": (
        "src/pages.rt",
        "            (Route::Metrics, Some(content)) => Answer::Metrics(content.text(Text::Metrics)),",
        "            (Route::Metrics, Some(_)) => Answer::OutOfMemory,",
    ),
    "answers_another_text": (
        "src/pages.rt",
        "            (Route::Page, Some(content)) => Answer::Page(content.text(Text::Page)),",
        "            (Route::Page, Some(content)) => Answer::Page(content.text(Text::Report)),",
    ),
    "forgets_the_texts": (
        "src/pages.rt",
        "        self.content = content;",
        "        let _ = content;\n        self.content = None;",
    ),
    "forgets_the_round": (
        "src/pages.rt",
        "        self.ended = Some(Ended { round: number, at });",
        "        let _ = at;\n        let _ = number;",
    ),
    "never_answers": (
        "src/response.rt",
        "        StepOutcome::Wait => Ok(false),\n        StepOutcome::Refused => Ok(true),",
        "        StepOutcome::Wait => Ok(false),\n        StepOutcome::Refused => Ok(false),",
    ),
    "says_that_it_answered": (
        "src/response.rt",
        "        StepOutcome::Wait => Ok(false),",
        "        StepOutcome::Wait => Ok(true),",
    ),
    "shows_nothing": (
        "src/server.rt",
        "        self.table.pages.show(content);",
        "        let _ = content;",
    ),
    "an_idle_client_stays_for_ever": (
        "src/slot.rt",
        "            Stage::Free => None,\n            Stage::Asking | Stage::Idle | Stage::Sending => Some(ASKING_MS),",
        "            Stage::Free | Stage::Idle => None,\n            Stage::Asking | Stage::Sending => Some(ASKING_MS),",
    ),
    "a_closing_client_has_no_place": (
        "src/slot.rt",
        "            Stage::Free => true,\n            _ => false,",
        "            Stage::Free | Stage::Closing => true,\n            _ => false,",
    ),
    "a_newcomer_waits_until_a_place_is_free": (
        "src/slot.rt",
        "        None => oldest(slots, now),",
        "        None => {\n            let _ = now;\n            None\n        }",
    ),
    "finds_a_place_with_a_client": (
        "src/slot.rt",
        "position(|slot| slot.stage.is_free())",
        "position(|slot| !slot.stage.is_free())",
    ),
    "closes_the_last_that_may_be_closed": (
        "src/slot.rt",
        "(found.is_none() || slot.since < since)",
        "(found.is_none() || slot.since <= u64::MAX)",
    ),
    "closes_who_has_sent_a_request": (
        "src/slot.rt",
        "    if slot.is_ready {\n        return false;\n    }\n",
        "",
    ),
    "spares_idle_clients_too": (
        "src/slot.rt",
        "        Stage::Idle => true,\n        Stage::Asking | Stage::Closing => now",
        "        Stage::Idle | Stage::Asking | Stage::Closing => now",
    ),
    "a_new_site_is_healthy": (
        "src/pages.rt",
        "            content: None,\n            ended: None,\n            limit,",
        "            content: None,\n            ended: Some(Ended { round: 0, at: 0 }),\n            limit,",
    ),
    "a_site_is_healthy_for_ever": (
        "src/pages.rt",
        "            ended: None,\n            limit,",
        "            ended: None,\n            limit: limit.max(u64::MAX),",
    ),
    "shows_old_texts_when_memory_ends": (
        "src/pages.rt",
        "        self.content = content;",
        "        if content.is_some() {\n            self.content = content;\n        }",
    ),
    "notes_the_first_round_alone": (
        "src/pages.rt",
        "        self.ended = Some(Ended { round: number, at });",
        "        if self.ended.is_none() {\n            self.ended = Some(Ended { round: number, at });\n        }",
    ),
    "a_round_ends_the_texts": (
        "src/pages.rt",
        "        self.ended = Some(Ended { round: number, at });",
        "        self.ended = Some(Ended { round: number, at });\n        self.content = None;",
    ),
    "healthy_before_the_round": (
        "src/pages.rt",
        "now.saturating_sub(ended.at) <= self.limit",
        "ended.at.saturating_sub(now) <= self.limit",
    ),
    "every_route_is_healthy": (
        "src/pages.rt",
        "            (Route::Report, Some(content)) => Answer::Report(content.text(Text::Report)),",
        "            (Route::Report, Some(_)) => self.health(now),",
    ),
    "the_figures_for_the_report": (
        "src/pages.rt",
        "Answer::Report(content.text(Text::Report))",
        "Answer::Report(content.text(Text::Metrics))",
    ),
    "healthy_means_unhealthy": (
        "src/pages.rt",
        "            Answer::Healthy(last)\n        } else {\n            Answer::Unhealthy(Some(last))\n",
        "            Answer::Unhealthy(Some(last))\n        } else {\n            Answer::Healthy(last)\n",
    ),
    "unhealthy_names_no_round": (
        "src/pages.rt",
        "            Answer::Unhealthy(Some(last))\n",
        "            Answer::Unhealthy(None)\n",
    ),
    "a_round_before_the_first": (
        "src/pages.rt",
        "            return Answer::Unhealthy(None);",
        "            return Answer::Unhealthy(Some(LastRound {\n                number: 0,\n                seconds: now / 1000,\n            }));",
    ),
    "the_age_of_a_round_is_the_clock": (
        "src/pages.rt",
        "            seconds: now.saturating_sub(ended.at) / 1000,",
        "            seconds: now / 1000,",
    ),
    "seconds_in_milliseconds": (
        "src/pages.rt",
        "            seconds: now.saturating_sub(ended.at) / 1000,",
        "            seconds: now.saturating_sub(ended.at),",
    ),
    "seconds_rounded_up": (
        "src/pages.rt",
        "            seconds: now.saturating_sub(ended.at) / 1000,",
        "            seconds: now.saturating_sub(ended.at).saturating_add(999) / 1000,",
    ),
    "seconds_until_a_round_that_ends_later": (
        "src/pages.rt",
        "            seconds: now.saturating_sub(ended.at) / 1000,",
        "            seconds: now.abs_diff(ended.at) / 1000,",
    ),
    "the_limit_for_the_seconds": (
        "src/pages.rt",
        "            seconds: now.saturating_sub(ended.at) / 1000,",
        "            seconds: self.limit.saturating_sub(ended.at) / 1000,",
    ),
    "names_the_round_before": (
        "src/pages.rt",
        "            number: ended.round,\n",
        "            number: ended.round.saturating_sub(1),\n",
    ),
    "keeps_the_number_of_the_first_round": (
        "src/pages.rt",
        "        self.ended = Some(Ended { round: number, at });",
        "        let round = match self.ended {\n            Some(first) => first.round,\n            None => number,\n        };\n        self.ended = Some(Ended { round, at });",
    ),
    "every_round_is_the_first": (
        "src/server.rt",
        "        self.table.pages.note_round(at, number);",
        "        let _ = number;\n        self.table.pages.note_round(at, 1);",
    ),
    "answers_as_at_the_start": (
        "src/response.rt",
        "pages.answer(request.route, at.now)",
        "pages.answer(request.route, 0)",
    ),
    "asks_and_does_not_answer": (
        "src/response.rt",
        "            answer_or_tell(connection, pages, at, request)?;\n            Ok(true)",
        "            let _ = request;\n            Ok(true)",
    ),
    "answers_without_a_date": (
        "src/response.rt",
        "        Err(_) => connection.answer(at.date, pages.names(), request, Answer::OutOfMemory),",
        "        Err(_) => connection.answer(None, pages.names(), request, Answer::OutOfMemory),",
    ),
    "a_round_ended_at_the_start": (
        "src/server.rt",
        "        self.table.pages.note_round(at, number);",
        "        let _ = at;\n        self.table.pages.note_round(0, number);",
    ),
    "shows_that_there_is_no_memory": (
        "src/server.rt",
        "        self.table.pages.show(content);",
        "        let _ = content;\n        self.table.pages.show(None);",
    ),
    "a_turn_ends_the_texts": (
        "src/server.rt",
        "        self.table.close_late(at.now);\n",
        "        self.table.close_late(at.now);\n        self.table.pages.show(None);\n",
    ),
    "a_wait_is_a_round": (
        "src/server.rt",
        "        if self.events.is_empty() {\n",
        "        if self.events.is_empty() {\n            self.table.pages.note_round(0, 0);\n",
    ),
    "serves_another_site": (
        "src/server.rt",
        "            table: Table::new(alloc, listener, pages)?,",
        "            table: Table::new(alloc, listener, Pages::new(pages.limit, Vec::new(alloc)))?,",
    ),
    "a_late_client_is_a_round": (
        "src/table.rt",
        "            if self.is_late(place, now) {\n",
        "            if self.is_late(place, now) {\n                self.pages.note_round(now, 0);\n",
    ),
    "the_texts_go_with_a_client": (
        "src/table.rt",
        "        self.set_client(place, None);\n        self.set_slot(place, EMPTY);\n",
        "        self.set_client(place, None);\n        self.set_slot(place, EMPTY);\n        self.pages.show(None);\n",
    ),
    "a_newcomer_is_a_round": (
        "src/table.rt",
        "                self.slot(registry, place, stream, now);\n                true",
        "                self.slot(registry, place, stream, now);\n                self.pages.note_round(now, 0);\n                true",
    ),
    "makes_no_text": ("src/pages.rt", "            Some(content) => content.make(text),", "            Some(_) => Ok(()),"),
    "makes_another_text": ("src/pages.rt", "            Some(content) => content.make(text),", "            Some(content) => content.make(Text::Page),"),
    "makes_the_page_for_the_figures": ("src/pages.rt", "            Route::Metrics => self.make_text(Text::Metrics),", "            Route::Metrics => self.make_text(Text::Page),"),
    "makes_the_text_format_for_open_metrics": ("src/pages.rt", "            Route::OpenMetrics => self.make_text(Text::OpenMetrics),", "            Route::OpenMetrics => self.make_text(Text::Metrics),"),
    "answers_the_text_format_for_open_metrics": ("src/pages.rt", "Answer::OpenMetrics(content.text(Text::OpenMetrics))", "Answer::Metrics(content.text(Text::Metrics))"),
    "answers_open_metrics_by_the_text_format": ("src/pages.rt", "Answer::OpenMetrics(content.text(Text::OpenMetrics))", "Answer::OpenMetrics(content.text(Text::Metrics))"),
    "has_no_open_metrics": ("src/pages.rt", "Answer::OpenMetrics(content.text(Text::OpenMetrics))", "Answer::OutOfMemory"),
    "makes_no_report": ("src/pages.rt", "            Route::Report => self.make_text(Text::Report),", "            Route::Report => Ok(()),"),
    "a_request_ends_the_texts": ("src/pages.rt", "        match &mut self.content {", "        self.content = None;\n        match &mut self.content {"),
    "a_request_is_a_round": ("src/pages.rt", "        match route {\n            Route::Metrics => self.make_text", "        self.note_round(0, 0);\n        match route {\n            Route::Metrics => self.make_text"),
    "answers_by_what_is_not_made": (
        "src/response.rt",
        "    if pages.make(request.route).is_err() {\n        return connection.answer(at.date, pages.names(), request, Answer::OutOfMemory);\n    }\n",
        "",
    ),
    "a_text_without_memory_is_no_answer": (
        "src/response.rt",
        "        return connection.answer(at.date, pages.names(), request, Answer::OutOfMemory);\n    }\n",
        "        return Ok(());\n    }\n",
    ),
    "takes_no_texts_away": ("src/pages.rt", "        self.content.take()", "        None"),
    "takes_texts_and_returns_none": ("src/pages.rt", "        self.content.take()", "        let _ = self.content.take();\n        None"),
    "forgets_the_round_with_the_texts": ("src/pages.rt", "        self.content.take()", "        self.ended = None;\n        self.content.take()"),
    "an_hour_more_with_the_texts": ("src/pages.rt", "        self.content.take()", "        self.limit = self.limit.saturating_add(3_600_000);\n        self.content.take()"),
    "takes_no_texts_of_the_site": ("src/server.rt", "        self.table.pages.take_content()", "        None"),
    "shows_nothing_and_returns_nothing": ("src/server.rt", "        self.table.pages.take_content()", "        self.table.pages.show(None);\n        None"),
    "takes_texts_in_a_round": ("src/server.rt", "        self.table.pages.take_content()", "        self.table.pages.note_round(0, 0);\n        self.table.pages.take_content()"),
    "takes_texts_and_shows_them_again": ("src/server.rt", "        self.table.pages.take_content()", "        let content = self.table.pages.take_content();\n        self.table.pages.show(content);\n        None"),
    "counts_a_short_write_as_whole": (
        "src/stream.rt",
        "        Ok(n) => {\n            connection.sent(n);\n            Ok(n)",
        "        Ok(n) => {\n            connection.sent(len);\n            Ok(n)",
    ),
    "forgets_what_was_sent": (
        "src/stream.rt",
        "        Ok(n) => {\n            connection.sent(n);\n            Ok(n)",
        "        Ok(n) => {\n            connection.sent(n.min(0));\n            Ok(n)",
    ),
    "offers_all_that_is_pending": (
        "src/stream.rt",
        "stream.put(&pending[..len])",
        "stream.put(pending)",
    ),
    "sends_nothing": (
        "src/stream.rt",
        "    let pending = connection.pending();\n",
        "    let pending = connection.pending();\n    if pending.len() > 7 {\n        return Ok(0);\n    }\n",
    ),
    "sends_twice": (
        "src/stream.rt",
        "    match stream.put(&pending[..len]) {",
        "    let _ = stream.put(&pending[..len]);\n    match stream.put(&pending[..len]) {",
    ),
    "an_error_loses_the_rest": (
        "src/stream.rt",
        "        Err(error) => Err(error),",
        "        Err(error) => {\n            connection.sent(len);\n            Err(error)\n        }",
    ),
    "a_failed_write_is_none": (
        "src/stream.rt",
        "        Err(error) => Err(error),",
        "        Err(_) => Ok(0),",
    ),
    "reads_one_octet_more": (
        "src/stream.rt",
        "            connection.receive(&buffer[..n]);",
        "            connection.receive(&buffer[..if n < room { n + 1 } else { n }]);",
    ),
    "loses_an_octet": (
        "src/stream.rt",
        "            connection.receive(&buffer[..n]);",
        "            connection.receive(&buffer[..n - 1]);",
    ),
    "loses_the_first_octet": (
        "src/stream.rt",
        "            connection.receive(&buffer[..n]);",
        "            connection.receive(&buffer[1..n]);",
    ),
    "drops_what_came": (
        "src/stream.rt",
        "            connection.receive(&buffer[..n]);\n",
        "",
    ),
    "takes_what_came_twice": (
        "src/stream.rt",
        "    match stream.get(&mut buffer[..room])? {",
        "    stream.get(&mut buffer[..room])?;\n    match stream.get(&mut buffer[..room])? {",
    ),
    "reads_nothing_of_a_stream": (
        "src/stream.rt",
        "    let room = connection.room().min(buffer.len());\n",
        "    let room = connection.room().min(buffer.len());\n    if room > 7 {\n        return Ok(0);\n    }\n",
    ),
    "a_failed_read_is_an_end": (
        "src/stream.rt",
        "    match stream.get(&mut buffer[..room])? {",
        "    match stream.get(&mut buffer[..room]).unwrap_or(0) {",
    ),
    "clears_the_buffer": (
        "src/stream.rt",
        "            connection.receive(&buffer[..n]);",
        "            buffer.fill(0);\n            connection.receive(&buffer[..n]);",
    ),
    "what_is_drained_counts": (
        "src/client.rt",
        "after_reading(self.stream.get(buffer))",
        "after_reading(receive_part(&mut self.stream, &mut self.connection, buffer))",
    ),
    "a_client_never_gets_an_answer": (
        "src/client.rt",
        "        match respond(&mut self.connection, pages, at) {",
        "        if at.now > 7 {\n            return Turn::Waits;\n        }\n        match respond(&mut self.connection, pages, at) {",
    ),
    "answers_and_sends_nothing": (
        "src/client.rt",
        "            Ok(true) => Turn::Begins(Stage::Sending),",
        "            Ok(true) => {\n                let len = self.connection.pending().len();\n                self.connection.sent(len);\n                Turn::GoesOn\n            }",
    ),
    "a_late_first_client_stays": (
        "src/table.rt",
        "        for place in 0..self.slots.len() {",
        "        for place in 1..self.slots.len() {",
    ),
    "closes_nobody_who_is_late": (
        "src/table.rt",
        "            if self.is_late(place, now) {\n                self.clear(place);",
        "            if self.is_late(place, now) {\n                self.clear(SLOTS);",
    ),
    "closes_everybody": (
        "src/table.rt",
        "            if self.is_late(place, now) {",
        "            if self.is_late(place, u64::MAX) {",
    ),
    "closes_the_place_before": (
        "src/table.rt",
        "            if self.is_late(place, now) {\n                self.clear(place);",
        "            if self.is_late(place, now) {\n                self.clear(place.saturating_sub(1));",
    ),
    "late_a_second_ago": (
        "src/table.rt",
        "Some(slot) => is_late(*slot, now),",
        "Some(slot) => is_late(*slot, now.saturating_sub(1000)),",
    ),
    "waits_for_ever_with_clients": (
        "src/table.rt",
        "        } else if are_free(self.slots.as_slice()) {\n            None",
        "        } else if !are_free(self.slots.as_slice()) {\n            None",
    ),
    "a_newcomer_waits_a_second": (
        "src/table.rt",
        "Some(Duration::from_millis(SPARED_MS))",
        "Some(Duration::from_millis(TICK_MS))",
    ),
    "never_waits": (
        "src/table.rt",
        "            Some(Duration::from_millis(TICK_MS))\n",
        "            Some(Duration::from_millis(0))\n",
    ),
    "is_open_at_any_port": (
        "src/acceptor.rt",
        "L::listen(rt, at)?",
        "L::listen(rt, SocketAddr::new(at.ip(), 0))?",
    ),
    "lets_no_newcomer_in": (
        "src/acceptor.rt",
        "        listener.watch(poll.registry())?;\n",
        "",
    ),
    "a_site_without_its_names": (
        "src/response.rt",
        "pages.names())?",
        "&[])?",
    ),
    "texts_take_the_names": (
        "src/pages.rt",
        "        self.content = content;",
        "        self.names.clear();\n        self.content = content;",
    ),
    "a_response_waits_for_ever": (
        "src/client.rt",
        "            return match send_part(&mut self.stream, &mut self.connection) {\n                Ok(_) => self.after_sending(),\n                Err(error) => after_error(error),\n            };",
        "            return Turn::Waits;",
    ),
    "drains_twice": (
        "src/client.rt",
        "            return after_reading(self.stream.get(buffer));",
        "            let _ = self.stream.get(buffer);\n            return after_reading(self.stream.get(buffer));",
    ),
    "drains_nothing": (
        "src/client.rt",
        "            return after_reading(self.stream.get(buffer));",
        "            return Turn::Waits;",
    ),
    "answers_a_client_that_closes": (
        "src/client.rt",
        "        if self.connection.is_closing() {\n            return after_reading(self.stream.get(buffer));",
        "        if self.connection.is_closing() && at.now < 7 {\n            return after_reading(self.stream.get(buffer));",
    ),
    "reads_once_more_after_an_answer": (
        "src/client.rt",
        "            Ok(true) => Turn::Begins(Stage::Sending),",
        "            Ok(true) => after_reading(receive_part(&mut self.stream, &mut self.connection, buffer)),",
    ),
    "who_has_not_asked_is_gone": (
        "src/client.rt",
        "                after_reading(receive_part(&mut self.stream, &mut self.connection, buffer))\n",
        "                Turn::Ends\n",
    ),
    "waits_without_a_look": (
        "src/client.rt",
        "                after_reading(receive_part(&mut self.stream, &mut self.connection, buffer))\n",
        "                Turn::Waits\n",
    ),
    "no_memory_is_waited_for": (
        "src/client.rt",
        "            }\n            Err(_) => Turn::Ends,",
        "            }\n            Err(_) => Turn::GoesOn,",
    ),
    "a_response_ends_the_client": (
        "src/client.rt",
        "            return Turn::Begins(Stage::Idle);",
        "            return Turn::Ends;",
    ),
    "is_idle_with_a_part_unsent": (
        "src/client.rt",
        "            return Turn::GoesOn;",
        "            return Turn::Begins(Stage::Idle);",
    ),
    "closes_and_tells_nobody": (
        "src/client.rt",
        "        match self.stream.end() {",
        "        match Ok::<(), io::Error>(()) {",
    ),
    "ends_a_stream_twice": (
        "src/client.rt",
        "        match self.stream.end() {",
        "        let _ = self.stream.end();\n        match self.stream.end() {",
    ),
    "ends_a_stream_that_stays_open": (
        "src/client.rt",
        "            return Turn::Begins(Stage::Idle);",
        "            let _ = self.stream.end();\n            return Turn::Begins(Stage::Idle);",
    ),
    "an_end_that_failed_is_one": (
        "src/client.rt",
        "            Ok(()) => Turn::Begins(Stage::Closing),\n            Err(_) => Turn::Ends,",
        "            Ok(()) | Err(_) => Turn::Begins(Stage::Closing),",
    ),
    "who_is_not_ready_is_gone": (
        "src/client.rt",
        "        ErrorKind::WouldBlock => Turn::Waits,\n",
        "        ErrorKind::WouldBlock => Turn::Ends,\n",
    ),
    "an_interrupted_call_is_waited_for": (
        "src/client.rt",
        "        ErrorKind::Interrupted => Turn::GoesOn,\n",
        "        ErrorKind::Interrupted => Turn::Waits,\n",
    ),
    "who_is_gone_is_waited_for": (
        "src/client.rt",
        "        ErrorKind::Interrupted => Turn::GoesOn,\n        _ => Turn::Ends,",
        "        ErrorKind::Interrupted => Turn::GoesOn,\n        _ => Turn::Waits,",
    ),
    "the_end_of_a_stream_is_read_for_ever": (
        "src/client.rt",
        "        Ok(0) => Turn::Ends,",
        "        Ok(0) => Turn::GoesOn,",
    ),
    "no_memory_for_nothing": (
        "src/response.rt",
        "        StepOutcome::Wait => Ok(false),",
        "        StepOutcome::Wait => Err(AllocError),",
    ),
    "says_ok_to_each_request": (
        "src/response.rt",
        "pages.answer(request.route, at.now)",
        "pages.answer(mon_http::Route::Health, at.now)",
    ),
    "who_waits_is_asked_for_ever": (
        "src/table.rt",
        "            Turn::Waits => self.set_ready(place, false),",
        "            Turn::Waits => self.set_ready(place, true),",
    ),
    "who_waits_leaves_its_place": (
        "src/table.rt",
        "            Turn::Waits => self.set_ready(place, false),",
        "            Turn::Waits => self.clear(place),",
    ),
    "each_stage_began_at_the_start": (
        "src/table.rt",
        "            Turn::Begins(stage) => self.set_slot(place, slot_in(stage, now)),",
        "            Turn::Begins(stage) => {\n                let _ = now;\n                self.set_slot(place, slot_in(stage, 0));\n            }",
    ),
    "a_stage_begins_for_another": (
        "src/table.rt",
        "            Turn::Begins(stage) => self.set_slot(place, slot_in(stage, now)),",
        "            Turn::Begins(stage) => self.set_slot(0, slot_in(stage, now)),",
    ),
    "who_is_gone_keeps_its_place": (
        "src/table.rt",
        "            Turn::Ends => self.clear(place),",
        "            Turn::Ends => {}",
    ),
    "a_newcomer_gets_the_first_place": (
        "src/table.rt",
        "                self.slot(registry, place, stream, now);\n",
        "                self.slot(registry, place.min(0), stream, now);\n",
    ),
    "a_newcomer_gets_no_place": (
        "src/table.rt",
        "                self.slot(registry, place, stream, now);\n",
        "                let _ = (place, stream);\n",
    ),
    "a_newcomer_asks_since_the_start": (
        "src/table.rt",
        "            self.set_slot(place, slot_in(Stage::Asking, now));",
        "            let _ = now;\n            self.set_slot(place, slot_in(Stage::Asking, 0));",
    ),
    "each_event_is_a_newcomer": (
        "src/table.rt",
        "        if token.0 == ACCEPTOR {",
        "        if token.0 <= ACCEPTOR {",
    ),
    "an_event_marks_nobody": (
        "src/table.rt",
        "            self.set_ready(token.0, true);",
        "            self.set_ready(token.0, false);",
    ),
}

# Those that break a promise as a whole, each with its function: tests/bodies tries them in the gate.
PROMISES = {
    "never_late": "slot::is_late",
    "closes_the_newest": "slot::oldest",
    "answers_no_text": "pages::Pages::answer",
    "makes_no_text": "pages::Pages::make_text",
    "never_answers": "response::respond",
    "shows_nothing": "server::Server::show",
    "counts_a_short_write_as_whole": "stream::send_part",
    "reads_one_octet_more": "stream::receive_part",
    "a_client_never_gets_an_answer": "client::Client::turn",
    "closes_nobody_who_is_late": "table::Table::close_late",
}
