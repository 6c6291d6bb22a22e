"""Bugs of mon_serving for tests/wrong_bodies/planted: by name the file, what stands there once, and the bug in its place."""

BUGS = {
    "answers_each_twice": (
        "src/serving.rt",
        "    match agent.answer_into(alloc, &room[..received.len], received.moment, replies) {",
        "    let _ = agent.answer_into(alloc, &room[..received.len], received.moment, replies);\n    match agent.answer_into(alloc, &room[..received.len], received.moment, replies) {",
    ),
    "answers_at_a_moment_that_stands": (
        "src/serving.rt",
        "    match agent.answer_into(alloc, &room[..received.len], received.moment, replies) {",
        "    let moment = mon_mib::Moment::new(0).unwrap_or(received.moment);\n    match agent.answer_into(alloc, &room[..received.len], moment, replies) {",
    ),
    "sends_where_it_is_silent": (
        "src/serving.rt",
        "        Ok(Reply::Silent(_)) => Ok(Served::Answered),",
        "        Ok(Reply::Silent(_)) => {\n            port.reply(&[]);\n            Ok(Served::Answered)\n        }",
    ),
    "is_silent_where_it_sends": (
        "src/serving.rt",
        "            port.reply(&octets);",
        "            let _ = octets;",
    ),
    "sends_the_datagram_back": (
        "src/serving.rt",
        "            port.reply(&octets);",
        "            port.reply(&room[..received.len]);",
    ),
    "reads_what_was_left_in_the_room": (
        "src/serving.rt",
        "    match agent.answer_into(alloc, &room[..received.len], received.moment, replies) {",
        "    match agent.answer_into(alloc, &room[..], received.moment, replies) {",
    ),
    "replies_twice": (
        "src/serving.rt",
        "            port.reply(&octets);",
        "            port.reply(&octets);\n            port.reply(&octets);",
    ),
    "ends_at_a_failed_wait": (
        "src/serving.rt",
        "const PASSED_OVER: u8 = 15;",
        "const PASSED_OVER: u8 = 0;",
    ),
    "passes_over_16_failed_waits": (
        "src/serving.rt",
        "const PASSED_OVER: u8 = 15;",
        "const PASSED_OVER: u8 = 16;",
    ),
    "gives_another_reason": (
        "src/serving.rt",
        "    port.receive(room)\n}",
        "    match port.receive(room) {\n        Ok(received) => Ok(received),\n        Err(_) => Err(SocketFault {\n            reason: mon_app::SocketReason::NetworkDown,\n        }),\n    }\n}",
    ),
    "waits_again_for_what_came": (
        "src/serving.rt",
        "            return Ok(received);",
        "            let _ = received;\n            return port.receive(room);",
    ),
    "drops_each_second_datagram": (
        "src/serving.rt",
        "    let received = next_datagram(port, room)?;",
        "    next_datagram(port, room)?;\n    let received = next_datagram(port, room)?;",
    ),
    "tells_of_what_was_answered": (
        "src/serving.rt",
        "        Ok(Reply::Silent(_)) => Ok(Served::Answered),",
        "        Ok(Reply::Silent(_)) => Ok(Served::Untaken),",
    ),
    "replies_where_memory_ran_out": (
        "src/serving.rt",
        "        Err(_) => Ok(Served::Untaken),",
        "        Err(_) => {\n            port.reply(&[]);\n            Ok(Served::Untaken)\n        }",
    ),
    "counts_no_failed_wait": (
        "src/socket_port.rt",
        "        self.failures = failed_after(self.failures, &received);",
        "        self.failures = failed_after(self.failures, &Ok::<(), ()>(()));",
    ),
    "counts_no_lost_reply": (
        "src/socket_port.rt",
        "        self.failures = failed_after(self.failures, &sent);",
        "        self.failures = failed_after(self.failures, &Ok::<(), ()>(()));",
    ),
    "begins_with_a_failure": (
        "src/socket_port.rt",
        "            failures: 0,\n",
        "            failures: 1,\n",
    ),
    "replies_to_another_port": (
        "src/socket_port.rt",
        "        self.from = from;\n",
        "        self.from = Addr { port: 161, ..from };\n",
    ),
    "replies_to_the_first_sender": (
        "src/socket_port.rt",
        "        self.from = from;\n",
        "        if self.from.port == 0 {\n            self.from = from;\n        }\n",
    ),
    "stands_still": (
        "src/socket_port.rt",
        "        let moment = moment_at(self.began, at)?;\n",
        "        let moment = moment_at(at, at)?;\n",
    ),
    "begins_its_life_again": (
        "src/socket_port.rt",
        "        let moment = moment_at(self.began, at)?;\n",
        "        let moment = moment_at(self.began, at)?;\n        self.began = at;\n",
    ),
    "counts_thousandths": (
        "src/socket_port.rt",
        "u64::try_from(passed.as_millis() / 10)",
        "u64::try_from(passed.as_millis())",
    ),
    "measures_from_now_to_the_beginning": (
        "src/socket_port.rt",
        "    let passed = now.duration_since(began);\n",
        "    let passed = began.duration_since(now);\n",
    ),
    "listens_at_another_port": (
        "src/socket_port.rt",
        "        let socket = open_at(rt, listen)",
        "        let socket = open_at(rt, Addr { port: 0, ..listen })",
    ),
    "gives_the_address_that_was_asked_for": (
        "src/socket_port.rt",
        "        self.socket.bound_to().map_err(socket_fault)",
        "        Ok(self.from.socket())",
    ),
    "receives_without_a_call": (
        "src/socket_port.rt",
        "        let (len, sender) = receive_from(&self.socket, room).map_err(socket_failure)?;",
        "        let (len, sender) = (room.len(), self.from.socket());",
    ),
    "makes_up_the_time": (
        "src/socket_port.rt",
        "        let at = self.rt.after(self.began).map_err(socket_failure)?;",
        "        let at = self.began;",
    ),
    "forgets_the_sender": (
        "src/socket_port.rt",
        "        self.from = from;\n",
        "        let _ = from;\n",
    ),
    "keeps_the_sender_of_a_failed_wait": (
        "src/socket_port.rt",
        "        let from = Addr::of(sender).ok_or(OTHER)?;\n",
        "        let from = Addr::of(sender).ok_or(OTHER)?;\n        self.from = from;\n",
    ),
    "begins_its_life_at_no_time_that_was_told": (
        "src/socket_port.rt",
        "        let began = rt.after(first).map_err(socket_fault)?;",
        "        let began = first;",
    ),
    "gives_up_where_a_signal_interrupts": (
        "src/socket_port.rt",
        "            Err(error) if error.kind() == io::ErrorKind::Interrupted => {}",
        "            Err(error) if error.kind() == io::ErrorKind::Interrupted => return Ok((0, Addr { octets: [0; 4], port: 0 }.socket())),",
    ),
    "replies_with_nothing": (
        "src/socket_port.rt",
        "        let sent = self.socket.send(octets, self.from);",
        "        let sent = self.socket.send(&octets[..0], self.from);",
    ),
    "replies_to_port_161": (
        "src/socket_port.rt",
        "        let sent = self.socket.send(octets, self.from);",
        "        let sent = self.socket.send(octets, Addr { port: 161, ..self.from });",
    ),
    "replies_without_a_call": (
        "src/socket_port.rt",
        "        let sent = self.socket.send(octets, self.from);",
        "        let _ = octets;\n        let sent: Result<(), SocketFault> = Ok(());",
    ),
    "calls_a_reply_lost_without_a_call": (
        "src/socket_port.rt",
        "        let sent = self.socket.send(octets, self.from);",
        "        let _ = octets;\n        let sent: Result<(), SocketFault> = Err(OTHER);",
    ),
    "listens_at_any_port": (
        "src/socket_port.rt",
        "        Self::open_by(rt, listen)",
        "        Self::open_by(rt, Addr { port: 0, ..listen })",
    ),
    "answers_without_the_last_octet": (
        "src/serving.rt",
        "    match agent.answer_into(alloc, &room[..received.len], received.moment, replies) {",
        "    match agent.answer_into(alloc, &room[..received.len.saturating_sub(1)], received.moment, replies) {",
    ),
    "ends_where_memory_runs_out": (
        "src/serving.rt",
        "        Err(_) => Ok(Served::Untaken),",
        "        Err(_) => Err(SocketFault {\n            reason: mon_app::SocketReason::Other,\n        }),",
    ),
    "calls_an_answer_untaken": (
        "src/serving.rt",
        "            port.reply(&octets);\n            replies.keep(octets);\n            Ok(Served::Answered)",
        "            port.reply(&octets);\n            Ok(Served::Untaken)",
    ),
    "calls_what_it_had_no_memory_for_answered": (
        "src/serving.rt",
        "        Err(_) => Ok(Served::Untaken),",
        "        Err(_) => Ok(Served::Answered),",
    ),
    "serves_without_waiting": (
        "src/serving.rt",
        "    let received = next_datagram(port, room)?;\n    match agent.answer_into(alloc, &room[..received.len], received.moment, replies) {\n        Ok(Reply::Send(octets)) => {\n            port.reply(&octets);\n            replies.keep(octets);\n            Ok(Served::Answered)\n        }\n        Ok(Reply::Silent(_)) => Ok(Served::Answered),\n        Err(_) => Ok(Served::Untaken),\n    }\n",
        "    let _ = (alloc, port, agent, room, replies);\n    Ok(Served::Answered)\n",
    ),
    "tries_again_where_memory_ran_out": (
        "src/serving.rt",
        "        Err(_) => Ok(Served::Untaken),",
        "        Err(_) => match agent.answer_into(alloc, &room[..received.len], received.moment, replies) {\n            Ok(_) => Ok(Served::Answered),\n            Err(_) => Ok(Served::Untaken),\n        },",
    ),
}

# what the gate tries: the function that each is in
PROMISES = {
    "receives_without_a_call": "socket_port::PortBy::receive_next",
    "calls_an_answer_untaken": "serving::serve_in",
}
