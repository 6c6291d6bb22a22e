"""Bugs of mon_http_client for tests/wrong_bodies/planted: by name the file, what stands there once, and the bug in its place."""

BUGS = {
    "every_response_is_200": (
        "src/response.rt",
        "                Head::Final(status)\n            }",
        "                Head::Final(if status < 1000 { 200 } else { status })\n            }",
    ),
    "an_interim_response_is_the_response": ("src/response.rt", "} else if status < 200 {", "} else if status < 101 {"),
    "a_status_of_600": ("src/response.rt", "} else if status > 599 {", "} else if status > 699 {"),
    "a_status_of_99": ("src/response.rt", "            if status < 100 {", "            if status < 99 {"),
    "refuses_what_is_not_whole": (
        "src/response.rt",
        "    if octets.len() < MAX_OCTETS {",
        "    if octets.len() > MAX_OCTETS {",
    ),
    "waits_for_ever": (
        "src/response.rt",
        "    if octets.len() < MAX_OCTETS {\n        Progress::More\n    } else {\n        Progress::Refused\n    }",
        "    if octets.len() < MAX_OCTETS {\n        Progress::More\n    } else {\n        Progress::More\n    }",
    ),
    "an_octet_too_few": ("src/response.rt", "    if octets.len() < MAX_OCTETS {", "    if octets.len() < MAX_OCTETS - 1 {"),
    "the_length_of_the_last_head": ("src/response.rt", "head_len: past + n,", "head_len: if past < 8193 { n } else { past + n },"),
    "a_bad_head_is_waited_for": (
        "src/response.rt",
        "            Head::Bad => return Progress::Refused,",
        "            Head::Bad => return Progress::More,",
    ),
    "any_line_ends_a_head": (
        "src/response.rt",
        "        if octet == b'\\n' && is_blank {",
        "        if octet == b'\\n' && (is_blank || i > 16) {",
    ),
    "a_line_of_a_space_is_empty": ("src/response.rt", "(is_blank && octet == b'\\r')", "(is_blank && octet == b' ')"),
    "reads_a_part_of_a_head": ("src/response.rt", "if found.len == len {", "if found.len <= len {"),
    "no_head_has_a_status": ("src/response.rt", "Some(found.code)", "if len < 8193 { None } else { Some(found.code) }"),
    "the_path_as_the_host": ("src/request.rt", "put_field(text, b\"Host\", host)?;", "put_field(text, b\"Host\", path)?;"),
    "stays_open": ("src/request.rt", "put_field(text, b\"Connection\", b\"close\")", "put_field(text, b\"Connection\", b\"keep-alive\")"),
    "another_method": ("src/request.rt", "put_head(text, b\"GET\", host, path)?;", "put_head(text, b\"HEAD\", host, path)?;"),
    "no_empty_line": (
        "src/request.rt",
        "    put_length(text, body.len())?;\n    put(text, b\"\\r\\n\")?;",
        "    put_length(text, body.len())?;\n    put(text, b\"\")?;",
    ),
    "the_length_of_the_path": ("src/request.rt", "put_length(text, body.len())?;", "put_length(text, path.len())?;"),
    "sends_no_body": ("src/request.rt", "    put(text, body)\n", "    put(text, b\"\")\n"),
    "another_type": ("src/request.rt", "b\"application/json\"", "b\"text/plain\""),
    "takes_https": ("src/target.rt", "octets.starts_with(b\"https://\")", "octets.starts_with(b\"https:///\")"),
    "takes_any_scheme": ("src/target.rt", "!octets.starts_with(b\"http://\")", "!octets.starts_with(b\"http\")"),
    "takes_port_0": ("src/target.rt", "if address.port == 0 {", "if address.port == 1 {"),
    "no_address_is_one": (
        "src/target.rt",
        "        Ok(text) => Addr::parse(text),",
        "        Ok(text) => if text.len() < 7 { Addr::parse(text) } else { None },",
    ),
    "a_user_is_no_address": ("src/target.rt", "has_octet(host, b'@')", "has_octet(host, b'!')"),
    "ipv6_is_no_address": ("src/target.rt", "host.starts_with(b\"[\")", "host.starts_with(b\"[[\")"),
    "takes_a_fragment": ("src/target.rt", "has_octet(rest, b'#')", "has_octet(rest, b'~')"),
    "percent_by_itself": ("src/target.rt", "            owed = 2;", "            owed = 0;"),
    "percent_at_the_end": ("src/target.rt", "    owed == 0\n", "    owed < 2\n"),
    "any_octet_in_a_path": ("src/target.rt", "        } else if !is_path_octet(octet) {", "        } else if octet == b' ' {"),
    "no_path": ("src/target.rt", "        Ok(b\"/\")", "        Ok(b\"\")"),
    "the_query_is_a_host": ("src/target.rt", "octets[end] != b'/'", "octets[end] != b'?'"),
}

# Those that break a promise as a whole, each with its function: tests/bodies tries them in the gate.
PROMISES = {
    "every_response_is_200": "response::head_of",
    "waits_for_ever": "response::read_response",
    "any_line_ends_a_head": "response::head_length",
    "reads_a_part_of_a_head": "response::whole",
    "sends_no_body": "request::put_post",
    "takes_https": "target::parse_target",
    "percent_by_itself": "target::passes",
    "takes_port_0": "target::address_in",
}
