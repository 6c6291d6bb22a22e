"""Bugs of mon_placing for tests/wrong_bodies/planted: by name the file, what stands there once, and the bug in its place."""

BUGS = {
    "all_on_the_first": ("src/placing.rt", "    (before % u64::from(machines)) as u32\n", "    let _before = before;\n    0\n"),
    "by_group_and_station": ("src/placing.rt", "u64::from(group) * u64::from(stations) + u64::from(station)", "u64::from(group) * u64::from(1u32) + u64::from(station)"),
    "a_group_on_one_machine": ("src/placing.rt", "u64::from(stations) + u64::from(station);", "u64::from(stations) + u64::from(group);"),
    "no_machine_at_all": ("src/machines.rt", "    require_enough(machines.as_slice(), stations)?;\n", ""),
    "one_more_than_stations": ("src/machines.rt", "    if machines.len() < stations as usize {", "    if machines.len() <= stations as usize {"),
    "none_is_too_few": ("src/machines.rt", "        return Err(MachinesFault::NoMachine);", "        return Err(MachinesFault::TooFew(0));"),
    "lines_from_0": ("src/machines.rt", "        add_line(alloc, &mut machines, place + 1, lines[place])?;", "        add_line(alloc, &mut machines, place, lines[place])?;"),
    "a_bad_line_is_passed": ("src/machines.rt", "        return Err(MachinesFault::Malformed(number));", "        return Ok(());"),
    "every_line_is_passed": ("src/machines.rt", "    if matches!(line.as_bytes(), [] | [b'#', ..]) {", "    if matches!(line.as_bytes(), [] | [b'#', ..]) || number > 0 {"),
    "a_name_twice": ("src/machines.rt", "    if has_name(machines, name) {", "    if has_name(machines, name) && number == 0 {"),
    "an_address_twice": ("src/machines.rt", "        return Err(MachinesFault::RepeatedAddress(number));", "        return Ok(());"),
    "address_before_name": ("src/machines.rt", "        return Err(MachinesFault::RepeatedName(number));", "        return Err(MachinesFault::RepeatedAddress(number));"),
    "one_machine_more": ("src/machines.rt", "const MAX_MACHINES: usize = 1_024;", "const MAX_MACHINES: usize = 1_025;"),
    "only_the_first_name": ("src/machines.rt", "    has_name(rest, name)\n", "    let _rest = rest;\n    false\n"),
    "comments_by_semicolons": ("src/machines.rt", "[] | [b'#', ..]", "[] | [b';', ..]"),
    "any_name": ("src/machines.rt", "    begins_well(octets) && are_of_names(octets)\n", "    begins_well(octets)\n"),
    "an_option_as_a_name": ("src/machines.rt", "    begins_well(octets) && are_of_names(octets)\n", "    are_of_names(octets)\n"),
    "underscores": ("src/machines.rt", "octet == b'-' || octet == b'.'", "octet == b'_' || octet == b'.'"),
    "no_address": ("src/machines.rt", "        Ok(address) => Some(address.octets()),", "        Ok(_) => Some([0, 0, 0, 0]),"),
    "the_number_of_the_part": ("src/network.rt", "        self.network.first + self.part\n", "        1 + self.part\n"),
    "groups_from_0_everywhere": ("src/network.rt", "        let group = self.network.first - 1 + self.part;", "        let group = self.part;"),
    "one_port_for_all": ("src/network.rt", "        let port = u32::from(self.network.port) + self.network.first - 1 + self.part;", "        let port = u32::from(self.network.port);"),
    "http_at_the_station": ("src/network.rt", "        at(self.machine(), HTTP_PORT + self.number())", "        at(self.machine(), HTTP_PORT + self.station)"),
    "stations_from_0": ("src/network.rt", '''    let station = seat.station + 1;
    format!(in alloc;''', '''    let station = seat.station;
    format!(in alloc;'''),
    "one_file_for_all": ("src/network.rt", '    write!(text, "{file}-{group}-{station}")', '    write!(text, "{file}-{station}-{group}")'),
    "part_and_station_swapped": ("src/network.rt", "            part: (place / stations) as u32,\n            station: (place % stations) as u32,", "            part: (place % stations) as u32,\n            station: (place / stations) as u32,"),
    "no_comma": ("src/texts.rt", '    put_separator(text, part, ",\\n")?;', '    put_separator(text, part, "\\n")?;'),
    "one_host_of_a_group": ("src/texts.rt", "    let address = seat.serves();\n    write!(text, \"\\\"{address}\\\"\")", "    let address = seat.listens();\n    write!(text, \"\\\"{address}\\\"\")"),
    "no_entry": ("src/texts.rt", "    for part in 0..groups {\n        put_entry(text, network, part)?;", "    for part in 0..groups.min(1) {\n        put_entry(text, network, part)?;"),
    "units_of_one_group": ("src/texts.rt", "    for part in 0..groups {\n        put_units(&mut text, network, part)?;", "    for part in 0..groups.min(1) {\n        put_units(&mut text, network, part)?;"),
    "a_unit_without_its_address": ("src/texts.rt", '-station-{station} {address}\\n")', '-station-{station}\\n")'),
}

# The bodies that the gate tries: each with its function.
PROMISES = {
    "all_on_the_first": "placing::machine_of",
    "a_group_on_one_machine": "placing::machine_of",
    "an_address_twice": "machines::require_new",
    "an_option_as_a_name": "machines::is_name",
    "a_bad_line_is_passed": "machines::add_line",
    "groups_from_0_everywhere": "network::Seat::machine",
}
