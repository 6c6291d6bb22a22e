"""Bugs of mon_http for tests/wrong_bodies/planted: by name the file, what stands there once, and the bug in its place."""

BUGS = {
    "waits_for_ever": (
        "src/connection.rt",
        "            None => Ok(StepOutcome::Wait),\n            Some(Verdict::Asked(request)) => Ok(StepOutcome::Asked(request)),",
        "            None => Ok(StepOutcome::Wait),\n            Some(Verdict::Asked(_)) => Ok(StepOutcome::Wait),",
    ),
    "refuses_what_is_whole": (
        "src/request.rt",
        "            judged(names, parts, &known)",
        "            judged(names, parts, &known);\n            refuse(Status::BadRequest, false, head.len())",
    ),
    "takes_two_hosts": (
        "src/request.rt",
        "    (hosts == 1 || (minor == 0 && hosts == 0))",
        "    (hosts >= 1 || (minor == 0 && hosts == 0))",
    ),
    "wants_no_host": (
        "src/request.rt",
        "    (hosts == 1 || (minor == 0 && hosts == 0))",
        "    (hosts == 1 || hosts == 0)",
    ),
    "takes_a_body": (
        "src/request.rt",
        "            ContentLength::Value(n) => n == 0,",
        "            ContentLength::Value(n) => n < 10,",
    ),
    "takes_chunks": (
        "src/request.rt",
        "            ContentLength::Invalid => false,\n        },\n        _ => false,",
        "            ContentLength::Invalid => false,\n        },\n        _ => true,",
    ),
    "head_with_a_body": (
        "src/connection.rt",
        "    if request.with_body {\n        body.put(&mut out)?;\n    }",
        "    if request.with_body || !request.with_body {\n        body.put(&mut out)?;\n    }",
    ),
    "keeps_http_1_0_open": (
        "src/request.rt",
        "let keep_alive = minor == 1 && !known.close;",
        "let keep_alive = !known.close;",
    ),
    "forgets_close": (
        "src/request.rt",
        "let keep_alive = minor == 1 && !known.close;",
        "let keep_alive = minor == 1;",
    ),
    "not_found_closes": (
        "src/request.rt",
        "            None => refuse(Status::NotFound, keep_alive, len),",
        "            None => refuse(Status::NotFound, false, len),",
    ),
    "any_head_is_bad_version": (
        "src/request.rt",
        "    if names_other_version(head) {",
        "    if names_other_version(head) || true {",
    ),
    "another_version_is_bad_request": (
        "src/front.rt",
        "        && end[8].is_ascii_digit()",
        "        && end[8] == b'0'",
    ),
    "a_field_too_few": (
        "src/request.rt",
        "    if line_count(head) > MAX_LINES {",
        "    if line_count(head) >= MAX_LINES {",
    ),
    "an_octet_too_few": (
        "src/connection.rt",
        "                if self.input.len() < MAX_OCTETS {",
        "                if self.input.len() < MAX_OCTETS - 1 {",
    ),
    "forgets_what_was_scanned": (
        "src/connection.rt",
        "                self.is_blank = found.blank;",
        "                self.is_blank = false;",
    ),
    "ends_at_any_line": (
        "src/front.rt",
        "        if octet == b'\\n' && is_blank {",
        "        if octet == b'\\n' || is_blank {",
    ),
    "keeps_the_request": (
        "src/connection.rt",
        "    input.drain(..len + skipped);",
        "    input.drain(..skipped);",
    ),
    "drops_all_that_came": (
        "src/connection.rt",
        "    input.drain(..len + skipped);",
        "    let _ = skipped;\n    input.clear();",
    ),
    "sends_nothing": (
        "src/connection.rt",
        "        self.output = text;\n        self.sent = 0;",
        "        self.sent = text.len();\n        self.output = text;",
    ),
    "sends_again": (
        "src/connection.rt",
        "        self.sent += n;",
        "        self.sent += n / 2;",
    ),
    "stays_open_after_a_refusal": (
        "src/connection.rt",
        "        self.is_closing = !keep_alive;",
        "        self.is_closing = self.is_closing && !keep_alive;",
    ),
    "receives_half": (
        "src/connection.rt",
        "        input.extend_from_slice(octets).unwrap();\n    }\n}",
        "        input.extend_from_slice(&octets[..octets.len() / 2]).unwrap();\n    }\n}",
    ),
    "unhealthy_is_200": (
        "src/answer.rt",
        "            Answer::Unhealthy(_) | Answer::OutOfMemory => Status::ServiceUnavailable,",
        "            Answer::OutOfMemory => Status::ServiceUnavailable,",
    ),
    "page_without_policy": (
        "src/answer.rt",
        "            Answer::Page(_) => Media::Html,",
        "            Answer::Page(_) => Media::Plain,",
    ),
    "length_of_nothing": (
        "src/connection.rt",
        "        len: body.len(),",
        "        len: if request.with_body { body.len() } else { 0 },",
    ),
    "no_date": (
        "src/response.rt",
        '        Some(date) => put_field(out, b"Date", &date.to_bytes()),',
        '        Some(_) => Ok(()),',
    ),
    "no_allow": (
        "src/response.rt",
        '        Status::MethodNotAllowed => b"Allow: GET, HEAD\\r\\n",',
        '        Status::MethodNotAllowed => b"",',
    ),
    "scripts_run": (
        "src/response.rt",
        "default-src 'none'; style-src 'unsafe-inline'; base-uri",
        "default-src 'unsafe-inline'; style-src 'unsafe-inline'; base-uri",
    ),
    "gives_up_for_memory": (
        "src/connection.rt",
        "            None => Ok(StepOutcome::Wait),\n",
        "            None => Err(AllocError),\n",
    ),
    "serves_a_longer_path": (
        "src/route.rt",
        '    if path == b"/metrics".as_slice() {',
        '    if path.starts_with(b"/metrics") {',
    ),
    "query_is_path": (
        "src/route.rt",
        "    let path = before(origin_form(target), b'?', b'?');",
        "    let path = before(origin_form(target), b'#', b'#');",
    ),
    "absolute_form_is_not_found": (
        "src/route.rt",
        "    let rest = &target[7 + authority_of(target).len()..];",
        "    let rest = &target[7..];",
    ),
    "no_memory_is_200": (
        "src/answer.rt",
        "Answer::Unhealthy(_) | Answer::OutOfMemory => Status::ServiceUnavailable,",
        "Answer::Unhealthy(_) => Status::ServiceUnavailable,",
    ),
    "unhealthy_says_ok": (
        "src/answer.rt",
        "            Answer::Unhealthy(last) => unhealthy_body(last),",
        '            Answer::Unhealthy(last) => Body {\n                text: b"ok: ",\n                last,\n            },',
    ),
    "unhealthy_names_no_round": (
        "src/answer.rt",
        "            Answer::Unhealthy(last) => unhealthy_body(last),",
        "            Answer::Unhealthy(_) => unhealthy_body(None),",
    ),
    "healthy_has_the_old_text": (
        "src/answer.rt",
        '            Answer::Healthy(last) => Body {\n                text: b"ok: ",\n                last: Some(last),',
        '            Answer::Healthy(_) => Body {\n                text: b"ok\\n",\n                last: None,',
    ),
    "no_round_ended_and_one_did": (
        "src/body.rt",
        '        Some(last) => Body {\n            text: b"no round ended in time: ",\n            last: Some(last),',
        '        Some(_) => Body {\n            text: b"no round ended in time\\n",\n            last: None,',
    ),
    "a_round_before_the_first": (
        "src/body.rt",
        '            text: b"no round ended in time\\n",\n            last: None,',
        '            text: b"no round ended in time: ",\n            last: Some(LastRound {\n                number: 0,\n                seconds: 0,\n            }),',
    ),
    "names_the_round_before": (
        "src/body.rt",
        "digits.format(last.number).as_bytes()",
        "digits.format(last.number.saturating_sub(1)).as_bytes()",
    ),
    "the_number_for_the_seconds": (
        "src/body.rt",
        "digits.format(last.seconds).as_bytes()",
        "digits.format(last.number).as_bytes()",
    ),
    "a_line_without_its_end": (
        "src/body.rt",
        '    out.extend_from_slice(b" s ago\\n")',
        '    out.extend_from_slice(b" s ago")',
    ),
    "a_length_of_the_text_alone": (
        "src/body.rt",
        "        self.text.len() + ROUND_OCTETS + number + seconds",
        "        let _ = (number, seconds);\n        self.text.len()",
    ),
    "a_length_of_seconds_below_ten": (
        "src/body.rt",
        "digits.format(last.seconds).len();",
        "digits.format(last.seconds).len().min(1);",
    ),
    "a_length_of_an_octet_less": (
        "src/body.rt",
        "const ROUND_OCTETS: usize = 20;",
        "const ROUND_OCTETS: usize = 19;",
    ),
    "a_body_of_its_round_alone": (
        "src/body.rt",
        "        out.extend_from_slice(b\"round \")?;",
        "        out.clear();\n        out.extend_from_slice(b\"round \")?;",
    ),
    "keeps_empty_lines_before_a_request": (
        "src/connection.rt",
        "input.extend_from_slice(&octets[skipped..]).unwrap();",
        "let _ = skipped;\n        input.extend_from_slice(octets).unwrap();",
    ),
    "keeps_empty_lines_after_a_request": (
        "src/connection.rt",
        "    let skipped = line_ends(&input[len..]);\n    input.drain(..len + skipped);",
        "    input.drain(..len);",
    ),
    "every_response_keeps_the_connection": (
        "src/connection.rt",
        "        keep_alive: request.keep_alive,\n        date,",
        "        keep_alive: true,\n        date,",
    ),
    "every_refusal_is_400": (
        "src/connection.rt",
        "        status: refusal.status,",
        "        status: Status::BadRequest,",
    ),
    "a_new_connection_closes": (
        "src/connection.rt",
        "            sent: 0,\n            is_closing: false,",
        "            sent: 0,\n            is_closing: true,",
    ),
    "has_always_all_its_room": (
        "src/connection.rt",
        "        MAX_OCTETS - self.input.len()\n",
        "        MAX_OCTETS - self.input.len().min(0)\n",
    ),
    "a_head_too_long_is_400": (
        "src/connection.rt",
        "Some(refuse(long_status(&self.input), false, 0))",
        "Some(refuse(Status::BadRequest, false, 0))",
    ),
    "looks_on_where_the_last_head_ended": (
        "src/connection.rt",
        "        self.scanned = 0;\n        self.is_blank = false;\n",
        "",
    ),
    "refuses_and_sends_nothing": (
        "src/connection.rt",
        "                self.put(refusal.len, refusal.keep_alive, text);\n                Ok(StepOutcome::Refused)",
        "                let _ = text;\n                Ok(StepOutcome::Refused)",
    ),
    "answers_a_request_again_and_again": (
        "src/connection.rt",
        "        self.put(request.len, request.keep_alive, text);",
        "        self.put(0, request.keep_alive, text);",
    ),
    "sends_all_again": (
        "src/connection.rt",
        "        &self.output[self.sent..]",
        "        &self.output[..]",
    ),
    "forgets_what_was_sent_before": (
        "src/connection.rt",
        "        self.sent += n;",
        "        self.sent = n;",
    ),
    "never_closes": (
        "src/connection.rt",
        "        ensures { result ≡ self.now.closing }\n    {\n        self.is_closing\n",
        "        ensures { result ≡ self.now.closing }\n    {\n        self.is_closing && self.output.is_empty()\n",
    ),
    "an_empty_line_has_no_cr": (
        "src/front.rt",
        "        is_blank = octet == b'\\n' || (is_blank && octet == b'\\r');",
        "        is_blank = octet == b'\\n';",
    ),
    "every_version_is_this_one": (
        "src/front.rt",
        "        && end != b\" HTTP/1.1\".as_slice()",
        "        && end != b\" HTTP/1.1\".as_slice()\n        && head.is_empty()",
    ),
    "head_is_not_served": (
        "src/request.rt",
        "    if with_body || is_head {",
        "    if with_body && !is_head {",
    ),
    "a_bad_request_keeps_the_connection": (
        "src/request.rt",
        "        return refuse(Status::BadRequest, false, len);",
        "        return refuse(Status::BadRequest, true, len);",
    ),
    "takes_the_front_of_a_head": (
        "src/request.rt",
        "if found.len == len {",
        "if found.len <= len {",
    ),
    "no_memory_is_500": (
        "src/response.rt",
        'b"503 Service Unavailable"',
        'b"500 Internal Server Error"',
    ),
    "close_for_keep_alive": (
        "src/response.rt",
        'if keep_alive { b"keep-alive" } else { b"close" }',
        'if keep_alive { b"close" } else { b"keep-alive" }',
    ),
    "any_cache_keeps_a_response": (
        "src/response.rt",
        '    put_field(out, b"Cache-Control", b"no-store")?;\n',
        "",
    ),
    "no_empty_line_after_the_head": (
        "src/response.rt",
        '    out.extend_from_slice(allow_field(status))?;\n    out.extend_from_slice(b"\\r\\n")',
        "    out.extend_from_slice(allow_field(status))",
    ),
    "each_path_is_the_root": (
        "src/route.rt",
        '    if rest.starts_with(b"/") { rest } else { b"/" }',
        '    if rest.is_empty() { rest } else { b"/" }',
    ),
    "health_has_no_route": (
        "src/route.rt",
        "        Some(Route::Health)",
        "        None",
    ),
    "a_target_too_long_is_431": (
        "src/request.rt",
        "        Status::UriTooLong\n    } else {\n        Status::NotImplemented",
        "        Status::HeaderFieldsTooLarge\n    } else {\n        Status::NotImplemented",
    ),
    "a_method_too_long_is_414": (
        "src/request.rt",
        "        Status::UriTooLong\n    } else {\n        Status::NotImplemented",
        "        Status::UriTooLong\n    } else {\n        Status::UriTooLong",
    ),
    "an_unknown_method_is_405": (
        "src/request.rt",
        "        Status::MethodNotAllowed\n    } else {\n        Status::NotImplemented",
        "        Status::MethodNotAllowed\n    } else {\n        Status::MethodNotAllowed",
    ),
    "post_is_unknown": (
        "src/request.rt",
        "    let is_known = method == b\"POST\".as_slice()\n        || ",
        "    let is_known = ",
    ),
    "a_bad_host_is_served": (
        "src/request.rt",
        " || !has_good_hosts(target, host)",
        "",
    ),
    "each_host_is_served": (
        "src/request.rt",
        "    if is_served_host(names, host_of(target, host)) {",
        "    if len > 0 || is_served_host(names, host_of(target, host)) {",
    ),
    "no_host_is_served": (
        "src/request.rt",
        "    if is_served_host(names, host_of(target, host)) {",
        "    if len == 0 && is_served_host(names, host_of(target, host)) {",
    ),
    "the_field_goes_before_the_target": (
        "src/host.rt",
        "    if is_absolute(target) {\n        authority_of(target)\n    } else {",
        "    if is_absolute(target) && field.is_empty() {\n        authority_of(target)\n    } else {",
    ),
    "a_misdirected_request_closes": (
        "src/request.rt",
        "        refuse(Status::Misdirected, keep_alive, len)",
        "        refuse(Status::Misdirected, false, len)",
    ),
    "a_misdirected_request_is_404": (
        "src/request.rt",
        "        refuse(Status::Misdirected, keep_alive, len)",
        "        refuse(Status::NotFound, keep_alive, len)",
    ),
    "a_target_needs_no_host": (
        "src/host.rt",
        "is_host(authority) && !before(authority, b':', b':').is_empty()",
        "is_host(authority)",
    ),
    "a_user_is_a_host": (
        "src/host.rt",
        "            b'-' | b'.' | b'_' |",
        "            b'-' | b'.' | b'@' | b'_' |",
    ),
    "a_port_is_any_text": (
        "src/host.rt",
        "text.is_empty() || (text[0] == b':' && are_digits(&text[1..]))",
        "text.is_empty() || text[0] == b':'",
    ),
    "a_percent_is_any": (
        "src/host.rt",
        "                octet.is_ascii_hexdigit() && is_name_from(missing - 1, after)",
        "                is_name_from(missing - 1, after)",
    ),
    "an_address_of_one_colon": (
        "src/host.rt",
        "        && colons(address) >= 2\n",
        "        && colons(address) >= 1\n",
    ),
    "each_name_is_an_address": (
        "src/host.rt",
        "octet.is_ascii_digit() || *octet == b'.')",
        "octet.is_ascii_alphanumeric() || *octet == b'.')",
    ),
    "names_by_case": (
        "src/host.rt",
        "[first, rest @ ..] => eq_ignore_case(name, first.as_bytes()) || is_one_of(name, rest),",
        "[first, rest @ ..] => name == first.as_bytes() || is_one_of(name, rest),",
    ),
    "the_first_name_alone": (
        "src/host.rt",
        "eq_ignore_case(name, first.as_bytes()) || is_one_of(name, rest),",
        "eq_ignore_case(name, first.as_bytes()) && rest.len() < 7,",
    ),
    "localhost_is_a_name_to_be_given": (
        "src/host.rt",
        "is_dotted(name) || eq_ignore_case(name, b\"localhost\") || is_one_of(name, names)",
        "is_dotted(name) || is_one_of(name, names)",
    ),
    "a_scheme_by_case": (
        "src/route.rt",
        "eq_ignore_case(&target[..7], b\"http://\")",
        "target[..7] == b\"http://\"[..]",
    ),
    "an_address_in_brackets_is_a_name": (
        "src/host.rt",
        "    if is_bracketed(host) {\n        return true;\n    }\n",
        "",
    ),
    "the_last_field_is_the_host": (
        "src/host.rt",
        "                first.value.of(head)\n",
        "                host_field(head, rest)\n",
    ),
    # Which format a request accepts.
    "open_metrics_for_anything": (
        "src/accept.rt",
        "if eq_ignore_case(kind, b\"text/plain\") {\n                    3",
        "if eq_ignore_case(kind, b\"text/plain\") {\n                    0",
    ),
    "never_open_metrics": ("src/accept.rt", "    open_metrics.quality > 0 && open_metrics.quality >= text.quality", "    open_metrics.quality > 1000 && open_metrics.quality >= text.quality"),
    "open_metrics_if_it_is_wanted_more": ("src/accept.rt", "open_metrics.quality >= text.quality", "open_metrics.quality > text.quality"),
    "open_metrics_with_a_quality_of_0": ("src/accept.rt", "open_metrics.quality > 0 && ", ""),
    "a_bad_list_counts": ("src/accept.rt", "    if !are_lists(head, fields) {\n        return false;\n    }\n", ""),
    "open_metrics_of_any_version": ("src/accept.rt", "            if named == format.version() && exactness > 0 {", "            if exactness > 0 {"),
    "open_metrics_only_with_its_version": ("src/accept.rt", "        None => 2 * exactness,", "        None => exactness.min(0),"),
    "a_range_with_a_version_is_not_more_specific": ("src/accept.rt", "                2 * exactness + 1\n", "                2 * exactness\n"),
    "the_first_range_decides": ("src/accept.rt", "        found = found.or(preference_for(format, element));", "        found = if found.specificity > 0 { found } else { preference_for(format, element) };"),
    "the_greatest_quality_decides": ("src/accept.rt", "        let is_above = self.specificity < other.specificity\n            || (self.specificity == other.specificity && self.quality < other.quality);", "        let is_above = self.quality < other.quality;"),
    "only_the_first_field_is_looked_at": ("src/accept.rt", "            preference_in(found, format, head, rest)\n", "            let _ = rest;\n            found\n"),
    "only_the_first_field_has_to_be_good": ("src/accept.rt", "            is_list && are_lists(head, rest)\n", "            let _ = rest;\n            is_list\n"),
    "the_last_weight_counts": ("src/accept.rt", "    for parameter in parameters {\n        if has_octet(parameter, b'=') && eq_ignore_case(before(parameter, b'=', b'='), name) {\n            return Some(after_first(parameter, b'='));\n        }\n    }\n    None", "    let mut found = None;\n    for parameter in parameters {\n        if has_octet(parameter, b'=') && eq_ignore_case(before(parameter, b'=', b'='), name) {\n            found = Some(after_first(parameter, b'='));\n        }\n    }\n    found"),
    "a_weight_by_case": ("src/accept.rt", "eq_ignore_case(before(parameter, b'=', b'='), name)", "before(parameter, b'=', b'=') == name"),
    "no_weight_is_0": ("src/accept.rt", "        None => Some(1000),", "        None => Some(0),"),
    "a_quality_above_1": ("src/accept.rt", "    if value <= 1000 { Some(value) } else { None }", "    Some(value)"),
    "four_digits_of_a_quality": ("src/accept.rt", "        && text.len() <= 5\n", "        && text.len() <= 6\n"),
    "tenths_for_thousandths": ("src/accept.rt", "100 * digit_at(digits, 0) + 10 * digit_at(digits, 1) + digit_at(digits, 2)", "digit_at(digits, 0) + 10 * digit_at(digits, 1) + 100 * digit_at(digits, 2)"),
    "a_type_without_a_subtype": ("src/accept.rt", "    is_pair(kind_of(text), b'/')\n        && are_parameters", "    is_token(kind_of(text))\n        && are_parameters"),
    "any_parameters": ("src/accept.rt", "        && are_parameters(parameters_of(text))\n", ""),
    "an_empty_element_is_bad": ("src/accept.rt", "        if !element.is_empty() && !is_range(element) {", "        if !is_range(element) {"),
    "white_space_is_kept": ("src/accept.rt", "                Some(trim(&rest[..place]))", "                Some(&rest[..place])"),
    "the_text_format_of_any_text": ("src/accept.rt", "eq_ignore_case(kind, b\"text/*\") {\n                    2\n", "eq_ignore_case(kind, b\"text/*\") {\n                    3\n"),
    "anything_is_not_the_text_format": ("src/accept.rt", "eq_ignore_case(kind, b\"*/*\") {\n                    1\n", "eq_ignore_case(kind, b\"*/*\") {\n                    0\n"),
    "a_type_by_case": ("src/accept.rt", "                if eq_ignore_case(kind, b\"application/openmetrics-text\") {", "                if kind == b\"application/openmetrics-text\".as_slice() {"),
    "each_route_in_open_metrics": ("src/route.rt", "        Route::Metrics if open_metrics => Route::OpenMetrics,\n", "        Route::Report if open_metrics => Route::OpenMetrics,\n"),
    "accept_is_not_looked_at": ("src/request.rt", "                open_metrics: accepts_open_metrics(head, fields),", "                open_metrics: accepts_open_metrics(head, &fields[..0]),"),
    "open_metrics_is_called_text": ("src/answer.rt", "            Answer::OpenMetrics(_) => Media::OpenMetrics,", "            Answer::OpenMetrics(_) => Media::Prometheus,"),
    "open_metrics_of_version_0_0_1": ("src/response.rt", "openmetrics-text; version=1.0.0;", "openmetrics-text; version=0.0.1;"),
}

# Those that break a promise as a whole, each with its function: tests/bodies tries them in the gate.
PROMISES = {
    "waits_for_ever": "connection::Connection::step",
    "takes_two_hosts": "request::has_good_fields",
    "ends_at_any_line": "front::scan",
    "keeps_the_request": "connection::remove_head",
    "each_host_is_served": "request::judged",
    "each_name_is_an_address": "host::is_dotted",
    "open_metrics_with_a_quality_of_0": "accept::accepts_open_metrics",
    "the_greatest_quality_decides": "accept::Preference::or",
    "accept_is_not_looked_at": "request::judge",
}
