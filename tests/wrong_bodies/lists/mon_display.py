"""Bugs of mon_display for tests/wrong_bodies/planted: by name the file, what stands there once, and the bug in its place."""

BUGS = {
    "rounds_down": ("src/rate.rt", "        steps + 1\n", "        steps\n"),
    "rounds_half_down": ("src/rate.rt", "    if step <= 2 * (n % step)", "    if step < 2 * (n % step)"),
    "four_digits": ("src/rate.rt", "        if digits <= 999 {", "        if digits <= 9999 {"),
    "never_scales": ("src/rate.rt", "        if digits <= 999 {", "        if digits >= 1 {"),
    "a_place_less": ("src/rate.rt", "    2 - (exponent - 1) % 3\n", "    (exponent - 1) % 3\n"),
    "no_thousandths": ("src/rate.rt", "        return 3;", "        return 2;"),
    "mega_for_kilo": ("src/rate.rt", '        1 => "k",', '        1 => "M",'),
    "the_next_prefix": ("src/rate.rt", "scaled.exponent.saturating_sub(1) / 3", "scaled.exponent / 3"),
    "octets_for_bits": ("src/rate.rt", '        Unit::Bits => "bit/s",', '        Unit::Bits => "B/s",'),
    "nothing_for_0": ("src/rate.rt", '        text.push_str("0 ")?;', '        text.push_str("")?;'),
    "a_percentage_of_8_bits": ("src/rate.rt", "rounded(thousandths, u128::from(speed.max(1)))", "rounded(thousandths, u128::from(speed.max(8)))"),
    "a_whole_percentage": ("src/rate.rt", "    put_pointed(&mut text, 1, rounded(", "    put_pointed(&mut text, 0, rounded("),
    "in_is_out": ("src/interface.rt", "        Some(6) => Column::InOctets,", "        Some(6) => Column::OutOctets,"),
    "errors_are_discards": ("src/interface.rt", "        Some(14) => Column::InErrors,", "        Some(14) => Column::InDiscards,"),
    "no_column_of_if_x_table": ("src/interface.rt", "        return if_x_column(name.get(10).copied());", "        return Column::Other;"),
    "the_index_is_the_first_number": ("src/interface.rt", "        return name.last().copied();", "        return name.first().copied();"),
    "an_index_of_two_numbers": ("src/interface.rt", "name.len() == entry.len() + 2", "name.len() >= entry.len() + 2"),
    "control_characters_pass": ("src/visible.rt", "    if c.is_control() {", "    if c == '\\n' {"),
    "quotes_pass": ("src/visible.rt", "    if c == '\"' || c == '\\\\' {", "    if c == '\\\\' {"),
    "no_quotes": ("src/visible.rt", "    text.push_str(\"\\\"\")?;\n    put_visible(text, given)?;", "    put_visible(text, given)?;"),
    "the_port_stays": ("src/naming.rt", "        Some(ip) => ip,", "        Some(_) => address,"),
    "no_label": ("src/naming.rt", "            put_label(&mut text, label)?;", "            let _ = label;"),
    "no_alias": ("src/naming.rt", "        put_alias(&mut text, if_alias.unwrap_or(\"\"))?;", "        let _ = if_alias;"),
    "an_alias_as_it_is": ("src/naming.rt", "    put_quoted(text, alias)\n", "    text.push_str(alias)\n"),
}

# The bodies that the gate tries: each with its function.
PROMISES = {
    "rounds_down": "rate::rounded",
    "control_characters_pass": "visible::put_char",
}
