"""Bugs of mon_udp for tests/wrong_bodies/planted: by name the file, what stands there once, and the bug in its place."""

BUGS = {
    "reads_another_port": (
        "src/addr.rt",
        "            Ok(address) => Some(Addr {\n                octets: address.ip().octets(),\n                port: address.port(),",
        "            Ok(address) => Some(Addr {\n                octets: address.ip().octets(),\n                port: if address.port() == 161 { 162 } else { address.port() },",
    ),
    "a_buffer_of_one_octet_less": (
        "src/socket.rt",
        "const MAX_DATAGRAM: usize = 65_507;",
        "const MAX_DATAGRAM: usize = 65_506;",
    ),
    "sends_to_the_first_port": (
        "src/addr.rt",
        "        SocketAddr::V4(SocketAddrV4::new(Ipv4Addr::from(self.octets), self.port))",
        "        SocketAddr::V4(SocketAddrV4::new(Ipv4Addr::from(self.octets), 161))",
    ),
    "says_an_address_of_none": (
        "src/addr.rt",
        "            SocketAddr::V6(_) => None,",
        "            SocketAddr::V6(_) => Some(Addr { octets: [0; 4], port: 0 }),",
    ),
    "counts_no_failure": (
        "src/failures.rt",
        "        Err(_) => count.saturating_add(1),",
        "        Err(_) => count,",
    ),
    "sends_to_the_port_after": (
        "src/addr.rt",
        "SocketAddrV4::new(Ipv4Addr::from(self.octets), self.port)",
        "SocketAddrV4::new(Ipv4Addr::from(self.octets), self.port.wrapping_add(1))",
    ),
    "refuses_the_port_0": (
        "src/addr.rt",
        "            Ok(address) => Some(Addr {\n                octets: address.ip().octets(),\n                port: address.port(),\n            }),\n            Err(_) => None,",
        "            Ok(address) if address.port() > 0 => Some(Addr {\n                octets: address.ip().octets(),\n                port: address.port(),\n            }),\n            _ => None,",
    ),
    "reads_octets_from_the_last": (
        "src/addr.rt",
        "            Ok(address) => Some(Addr {\n                octets: address.ip().octets(),",
        "            Ok(address) => Some(Addr {\n                octets: u32::from_be_bytes(address.ip().octets()).to_le_bytes(),",
    ),
    "forgets_the_port_of_the_systems_address": (
        "src/addr.rt",
        "            SocketAddr::V4(address) => Some(Addr {\n                octets: address.ip().octets(),\n                port: address.port(),",
        "            SocketAddr::V4(address) => Some(Addr {\n                octets: address.ip().octets(),\n                port: 0,",
    ),
    "knows_no_address_of_the_system": (
        "src/addr.rt",
        "            SocketAddr::V4(address) => Some(Addr {\n                octets: address.ip().octets(),\n                port: address.port(),\n            }),\n            SocketAddr::V6(_) => None,",
        "            SocketAddr::V4(_) | SocketAddr::V6(_) => None,",
    ),
    "sends_to_the_own_machine": (
        "src/addr.rt",
        "SocketAddrV4::new(Ipv4Addr::from(self.octets), self.port)",
        "SocketAddrV4::new(Ipv4Addr::from([127, 0, 0, 1]), self.port)",
    ),
    "prints_the_port_alone": ("src/addr.rt", 'write!(f, "{ip}:{port}")', 'let _ = ip;\n        write!(f, "0.0.0.0:{port}")'),
    "prints_another_port": ("src/addr.rt", 'write!(f, "{ip}:{port}")', 'let port = port & 0;\n        write!(f, "{ip}:{port}")'),
    "counts_what_did_not_fail": (
        "src/failures.rt",
        "        Ok(_) => count,\n        Err(_) => count.saturating_add(1),",
        "        Ok(_) => count.saturating_add(1),\n        Err(_) => count,",
    ),
    "a_count_starts_at_0_again": (
        "src/failures.rt",
        "count.saturating_add(1)",
        "count.wrapping_add(1)",
    ),
    "counts_a_failure_twice": (
        "src/failures.rt",
        "count.saturating_add(1)",
        "count.saturating_add(1).saturating_add(1)",
    ),
    "a_buffer_of_one_frame": (
        "src/socket.rt",
        "    vec![in alloc; 0u8; MAX_DATAGRAM]",
        "    vec![in alloc; 0u8; MAX_DATAGRAM.min(1500)]",
    ),
    "a_wait_lasts_ten_times_its_length": (
        "src/timer.rt",
        "const MOST: u64 = 4;",
        "const MOST: u64 = 10;",
    ),
    "a_renewed_wait_never_ends": (
        "src/timer.rt",
        "        if quiet < whole { quiet } else { whole }",
        "        let _ = whole;\n        quiet",
    ),
    "a_wait_ends_at_the_later_of_its_ends": (
        "src/timer.rt",
        "        if quiet < whole { quiet } else { whole }",
        "        if quiet < whole { whole } else { quiet }",
    ),
    "renewing_does_nothing": (
        "src/timer.rt",
        "        Timer { quiet: now, ..self }",
        "        let _ = now;\n        self",
    ),
    "renewing_begins_the_whole_anew": (
        "src/timer.rt",
        "        Timer { quiet: now, ..self }",
        "        Timer::begin(self.milliseconds, now)",
    ),
    "waits_twice_as_long": (
        "src/timer.rt",
        "            milliseconds,\n            began: now,",
        "            milliseconds: milliseconds.saturating_mul(2),\n            began: now,",
    ),
    "waits_a_minute_at_most": (
        "src/timer.rt",
        "            milliseconds,\n            began: now,",
        "            milliseconds: milliseconds.min(60_000),\n            began: now,",
    ),
    "waits_seconds_for_milliseconds": (
        "src/timer.rt",
        "    Duration::from_millis(milliseconds).saturating_sub(",
        "    Duration::from_secs(milliseconds).saturating_sub(",
    ),
    "a_wait_is_over_at_once": (
        "src/timer.rt",
        "    Duration::from_millis(milliseconds).saturating_sub(",
        "    Duration::from_millis(milliseconds.min(0)).saturating_sub(",
    ),
    "waits_for_as_long_as_passed": (
        "src/timer.rt",
        "    Duration::from_millis(milliseconds).saturating_sub(now.duration_since(began))",
        "    now.duration_since(began).saturating_sub(Duration::from_millis(milliseconds))",
    ),
    "a_wait_is_as_long_at_any_time": (
        "src/timer.rt",
        "saturating_sub(now.duration_since(began))",
        "saturating_sub(now.duration_since(now.max(began)))",
    ),
    "a_new_wait_lasts_a_minute": (
        "src/waiting.rt",
        "        let timer = Timer::begin(0, rt.first()?);",
        "        let timer = Timer::begin(60_000, rt.first()?);",
    ),
    "begins_no_wait_anew": (
        "src/waiting.rt",
        "        self.timer = Timer::begin(milliseconds, now);",
        "        let _ = (milliseconds, now);",
    ),
    "does_not_set_when_it_began": (
        "src/waiting.rt",
        "        self.timer = Timer::begin(milliseconds, now);",
        "        let _ = now;\n        self.timer = Timer::begin(milliseconds, self.timer.quiet());",
    ),
    "renews_by_no_clock": (
        "src/waiting.rt",
        "        self.timer = self.timer.renew(now);",
        "        let _ = now;\n        self.timer = self.timer.renew(self.timer.quiet());",
    ),
    "renews_nothing": (
        "src/waiting.rt",
        "        self.timer = self.timer.renew(now);",
        "        let _ = now;",
    ),
    "renewing_begins_a_wait_of_a_second": (
        "src/waiting.rt",
        "        self.timer = self.timer.renew(now);",
        "        self.timer = Timer::begin(1000, now);",
    ),
    "says_at_once_that_nothing_came": (
        "src/waiting.rt",
        "            if left.is_zero() {\n",
        "            if left.is_zero() || !left.is_zero() {\n",
    ),
    "receives_after_the_end": (
        "src/waiting.rt",
        "            if left.is_zero() {\n                return Ok(None);\n            }\n",
        "",
    ),
    "waits_longer_than_is_left": (
        "src/waiting.rt",
        "socket.receive_within(left, buffer)",
        "socket.receive_within(left.saturating_mul(2), buffer)",
    ),
    "waits_half_of_what_is_left": (
        "src/waiting.rt",
        "socket.receive_within(left, buffer)",
        "socket.receive_within(left / 2, buffer)",
    ),
    "lets_go_of_a_datagram": (
        "src/waiting.rt",
        "                received => return received,",
        "                Ok(_) => return Ok(None),\n                Err(error) => return Err(error),",
    ),
    "says_an_octet_less_than_came": (
        "src/waiting.rt",
        "                received => return received,",
        "                Ok(Some((len, from))) => return Ok(Some((len.saturating_sub(1), from))),\n                received => return received,",
    ),
    "a_signal_ends_a_wait": (
        "src/waiting.rt",
        "                Err(error) if error.kind() == io::ErrorKind::Interrupted => {}",
        "                Err(error) if error.kind() == io::ErrorKind::Interrupted => return Ok(None),",
    ),
    "says_an_octet_more_than_came": (
        "src/receiving.rt",
        "            received => return received,",
        "            Ok((len, from)) => return Ok((len + 1, from)),\n            Err(error) => return Err(error),",
    ),
    "says_that_an_empty_datagram_came": (
        "src/receiving.rt",
        "            received => return received,",
        "            Ok((_, from)) => return Ok((0, from)),\n            Err(error) => return Err(error),",
    ),
    "does_not_look_where_it_is_bound": (
        "src/binding.rt",
        "    if does_for(at, socket.bound_to()?) {",
        "    let _ = socket.bound_to()?;\n    if does_for(at, at.socket()) {",
    ),
    "binds_to_any_port": (
        "src/binding.rt",
        "    let socket = S::bind(rt, at)?;",
        "    let socket = S::bind(rt, Addr { octets: at.octets, port: 0 })?;",
    ),
    "any_port_does": (
        "src/binding.rt",
        "(asked.port == 0 || at.port == asked.port)",
        "(asked.port == 0 || at.port != 0)",
    ),
    "any_address_does": (
        "src/binding.rt",
        "at.octets == asked.octets && ",
        "at.octets.len() == asked.octets.len() && ",
    ),
    "any_address_of_ipv6_does": (
        "src/binding.rt",
        "        None => false,",
        "        None => true,",
    ),
}

# Those that break a promise as a whole, each with its function: tests/bodies tries them in the gate.
PROMISES = {
    "a_renewed_wait_never_ends": "timer::Timer::left",
    "does_not_set_when_it_began": "waiting::Waiting::begin",
    "renews_by_no_clock": "waiting::Waiting::renew",
    "lets_go_of_a_datagram": "waiting::Waiting::receive",
    "says_at_once_that_nothing_came": "waiting::Waiting::receive",
    "binds_to_any_port": "binding::open_at",
}
