"""Bugs of mon_mib for tests/wrong_bodies/planted: by name the file, what stands there once, and the bug in its place."""

BUGS = {
    "admin_status_from_0": (
        "src/admin_status.rt",
        "    Testing = 3,",
        "    Testing = 0,",
    ),
    "alias_is_read_only": (
        "src/column.rt",
        "            Self::IfAlias => read_write(",
        "            Self::IfAlias => read_only(",
    ),
    "all_columns_are_integers": (
        "src/object.rt",
        "            Object::Column(column) => column.row(),",
        "            Object::Column(column) => Row { syntax: Tag::Integer, ..column.row() },",
    ),
    "all_columns_are_read_only": (
        "src/object.rt",
        "            Object::Column(column) => column.row(),",
        "            Object::Column(column) => Row { access: MaxAccess::ReadOnly, ..column.row() },",
    ),
    "blown_fuse_is_not_told": (
        "src/fuse_device.rt",
        "        self.device.failures().saturating_add(self.blown)",
        "        self.device.failures().saturating_add(0)",
    ),
    "column_under_another_number": (
        "src/column.rt",
        "            Self::IfInDiscards => read_only(Tag::Counter32, &[1, 3, 6, 1, 2, 1, 2, 2, 1, 13]),",
        "            Self::IfInDiscards => read_only(Tag::Counter32, &[1, 3, 6, 1, 2, 1, 2, 2, 1, 12]),",
    ),
    "columns_have_no_name": (
        "src/object.rt",
        "            Object::Column(column) => column.row(),",
        "            Object::Column(column) => Row { prefix: &[], ..column.row() },",
    ),
    "commit_counts_a_packet": (
        "src/setting.rt",
        "        assign_all(&mut self.device, plan)",
        "        self.counters.in_packets = 0; assign_all(&mut self.device, plan)",
    ),
    "commit_lists_another_binding": (
        "src/commit.rt",
        "    standing.push(index).unwrap();",
        "    standing.push(index / 2).unwrap();",
    ),
    "commit_tells_another_index": (
        "src/commit.rt",
        "        return Err(index);",
        "        return Err(index / 2);",
    ),
    "counter_stays_at_its_most": (
        "src/counters.rt",
        "            Counter::InPackets => self.in_packets = self.in_packets.wrapping_add(1),",
        "            Counter::InPackets => self.in_packets = self.in_packets.saturating_add(1),",
    ),
    "device_finds_an_index_it_lacks": (
        "src/sim_device.rt",
        "        Err(_) => None,",
        "        Err(place) => Some(place),",
    ),
    "device_gives_the_index_again": (
        "src/sim_device.rt",
        "        Some(after) => after < index,",
        "        Some(after) => after <= index,",
    ),
    "device_grows_each_hundredth": (
        "src/interface.rt",
        "        let seconds = u64::from(moment.engine_time());",
        "        let seconds = moment.hundredths();",
    ),
    "device_is_down": (
        "src/status.rt",
        "            admin: AdminStatus::Up,",
        "            admin: AdminStatus::Down,",
    ),
    "device_mixes_up_two_texts": (
        "src/sys_texts.rt",
        "            SysText::Contact => self.contact.as_slice(),",
        "            SysText::Contact => self.location.as_slice(),",
    ),
    "device_shows_another_text": (
        "src/interface.rt",
        "            IfText::Alias => self.alias.as_slice(),",
        "            IfText::Alias => self.name.as_slice(),",
    ),
    "device_takes_index_0": (
        "src/sim_device.rt",
        "        if interface.index <= last || interface.index >= 1 << 31 {",
        "        if interface.index < last || interface.index >= 1 << 31 {",
    ),
    "dormant_is_8": (
        "src/oper_status.rt",
        "    Dormant = 5,",
        "    Dormant = 8,",
    ),
    "engine_time_in_tenths": (
        "src/moment.rt",
        "        (self.hundredths / 100) as u32",
        "        (self.hundredths / 1000) as u32",
    ),
    "failure_is_not_counted": (
        "src/sim_device.rt",
        "            self.failures = self.failures.saturating_add(1);",
        "            self.failures = self.failures.saturating_add(0);",
    ),
    "fault_by_another_name": (
        "src/fault.rt",
        '            DeviceFault::BadIndex => "BadIndex",',
        '            DeviceFault::BadIndex => "BadIndexes",',
    ),
    "fault_by_number_4": (
        "src/fault.rt",
        "    BadIndex = 2,",
        "    BadIndex = 4,",
    ),
    "first_candidate_is_passed_over": (
        "src/mib.rt",
        "    reached.saturating_sub(1)",
        "    (reached + 1).min(43).saturating_sub(1)",
    ),
    "fuses_count_from_1": (
        "src/fuse_device.rt",
        "            applies: 0,",
        "            applies: 1,",
    ),
    "fuses_from_the_other_end": (
        "src/fuse_device.rt",
        "    number < 64 && fuses & (1 << number) != 0",
        "    number < 64 && fuses & (1 << (63 - number)) != 0",
    ),
    "get_takes_a_longer_name": (
        "src/mib.rt",
        "        if rest.len() != 1 {\n            return Ok(Shown::Other(Got::NoInstance));",
        "        if rest.len() == 0 {\n            return Ok(Shown::Other(Got::NoInstance));",
    ),
    "if_name_can_be_set": (
        "src/object.rt",
        "            Object::Column(Column::IfAlias) => Some(Writable::Alias),",
        "            Object::Column(Column::IfName) => Some(Writable::Alias),",
    ),
    "if_speed_not_capped": (
        "src/mib.rt",
        "            Column::IfSpeed => found(Value::Gauge32(facts.speed.min(0xffff_ffff) as u32)),",
        "            Column::IfSpeed => found(Value::Gauge32(low(facts.speed))),",
    ),
    "last_moment_is_none": (
        "src/moment.rt",
        "        if hundredths < Self::END {",
        "        if hundredths < Self::END - 1 {",
    ),
    "mib_starts_with_counts": (
        "src/mib.rt",
        "            counters: Counters::new(),",
        "            counters: Counters { in_packets: 1, ..Counters::new() },",
    ),
    "moment_tells_seconds": (
        "src/moment.rt",
        "        self.hundredths",
        "        0",
    ),
    "name_with_instance_0": (
        "src/object.rt",
        "        parts.push(instance)?;",
        "        parts.push(0)?;",
    ),
    "no_creation_is_12": (
        "src/set_status.rt",
        "    NoCreation = 11,",
        "    NoCreation = 12,",
    ),
    "refusal_of_another_index": (
        "src/setting.rt",
        "            Err(fault) => Err(fault.at(index)),",
        "            Err(fault) => Err(fault.at(index / 2)),",
    ),
    "refused_by_another_name": (
        "src/set_fault.rt",
        '            SetFault::Refused { .. } => "Refused",',
        '            SetFault::Refused { .. } => "Refusal",',
    ),
    "refused_is_fault_1": (
        "src/set_fault.rt",
        "            SetFault::Refused { .. } => 2,",
        "            SetFault::Refused { .. } => 1,",
    ),
    "same_status_is_set_anew": (
        "src/setting.rt",
        "            facts.last_change",
        "            moment.sys_up_time()",
    ),
    "services_are_a_gauge": (
        "src/scalar.rt",
        "            Scalar::SysServices => read_only(Tag::Integer,",
        "            Scalar::SysServices => read_only(Tag::Gauge32,",
    ),
    "speeds_are_counters": (
        "src/column.rt",
        "            Self::IfSpeed => read_only(Tag::Gauge32,",
        "            Self::IfSpeed => read_only(Tag::Counter32,",
    ),
    "starts_with_a_counted_packet": (
        "src/counters.rt",
        "            in_packets: 0,",
        "            in_packets: 1,",
    ),
    "status_4_is_testing": (
        "src/admin_status.rt",
        "            3 => Some(AdminStatus::Testing),",
        "            3 | 4 => Some(AdminStatus::Testing),",
    ),
    "sys_name_is_read_only": (
        "src/scalar.rt",
        "            Scalar::SysName => read_write(",
        "            Scalar::SysName => read_only(",
    ),
    "sys_name_under_another_number": (
        "src/scalar.rt",
        "            Scalar::SysName => read_write(Tag::OctetString, &[1, 3, 6, 1, 2, 1, 1, 5]),",
        "            Scalar::SysName => read_write(Tag::OctetString, &[1, 3, 6, 1, 2, 1, 1, 6]),",
    ),
    "sys_text_of_256_octets": (
        "src/setting.rt",
        "const SYS_TEXT_MAX: usize = 255;",
        "const SYS_TEXT_MAX: usize = 256;",
    ),
    "tells_another_counter": (
        "src/counters.rt",
        "            Counter::SilentDrops => self.silent_drops,",
        "            Counter::SilentDrops => self.parse_errors,",
    ),
    "testing_is_down": (
        "src/admin_status.rt",
        "            AdminStatus::Testing => OperStatus::Testing,",
        "            AdminStatus::Testing => OperStatus::Down,",
    ),
    "undo_has_the_new_moment": (
        "src/sim_device.rt",
        "                    since: was.since,",
        "                    since: next.since,",
    ),
    "up_time_in_seconds": (
        "src/moment.rt",
        "        (self.hundredths % (1 << 32)) as u32",
        "        (self.hundredths / 100) as u32",
    ),
    "begins_a_column_that_lies_before": (
        "src/start.rt",
        "        if part < first {\n            return Start::Nowhere;",
        "        if part < first {\n            return Start::First;",
    ),
    "begins_anew_at_a_longer_name": (
        "src/start.rt",
        "        [instance, ..] => Start::Above(*instance),",
        "        [instance] => Start::Above(*instance),\n        [_, _, ..] => Start::First,",
    ),
    "takes_a_place_past_the_end": (
        "src/sim_device.rt",
        "    if place >= interfaces.len() {",
        "    if place > interfaces.len() {",
    ),
    "leaves_a_failure_uncounted": (
        "src/sim_device.rt",
        "            self.failures = self.failures.saturating_add(1);\n",
        "            ",
    ),
    "undoes_with_the_new_moment": (
        "src/sim_device.rt",
        "                    since: was.since,",
        "                    since,",
    ),
    "takes_any_instance_of_a_scalar": (
        "src/setting.rt",
        "        if rest != [0].as_slice() {",
        "        if rest.is_empty() {",
    ),
    "looks_for_a_name_at_itself": (
        "src/setting.rt",
        "        Some(last) => place < *last,",
        "        Some(last) => place <= *last,",
    ),
    "looks_for_a_name_after_the_next_binding": (
        "src/setting.rt",
        "            if !is_named_after(&places, i, &binding.name) {",
        "            if !is_named_after(&places, index, &binding.name) {",
    ),
    "looks_for_the_first_name_only": (
        "src/setting.rt",
        "            if !is_named_after(&places, i, &binding.name) {",
        "            if !is_named_after(&places, i, &bindings[0].name) {",
    ),
    "leaves_out_the_last_binding_s_name": (
        "src/setting.rt",
        "    for i in 1..bindings.len() {",
        "    for i in 1..bindings.len().saturating_sub(1) {",
    ),
    "leaves_out_the_second_binding_s_name": (
        "src/setting.rt",
        "    for i in 1..bindings.len() {",
        "    for i in 2..bindings.len() {",
    ),
    "keeps_the_first_place_of_a_name": (
        "src/setting.rt",
        "        places.insert(&bindings[i].name, i)?;",
        "        let name = &bindings[i].name; if !places.contains_key(&name) { places.insert(name, i)?; }",
    ),
    "keeps_no_place_of_a_name": (
        "src/setting.rt",
        "    Ok(places)",
        "    drop(places); Ok(BTreeMap::new(alloc))",
    ),
    "denies_a_read_only_object_creation": (
        "src/setting.rt",
        "            return Err(BindingFault::Refused(SetStatus::NotWritable));",
        "            return Err(BindingFault::Refused(SetStatus::NoCreation));",
    ),
    "keeps_the_moment_of_another_status": (
        "src/setting.rt",
        "        let since = if facts.admin == status {",
        "        let since = if facts.admin != status {",
    ),
    "takes_an_alias_of_65_octets": (
        "src/setting.rt",
        "const ALIAS_MAX: usize = 64;",
        "const ALIAS_MAX: usize = 65;",
    ),
    "refuses_the_longest_text": (
        "src/writable.rt",
        "    if text.len() > longest {",
        "    if text.len() >= longest {",
    ),
    "undoes_one_change_alone": (
        "src/commit.rt",
        "    while let Some(undo) = undos.pop() {",
        "    if let Some(undo) = undos.pop() {",
    ),
    "tells_the_binding_after": (
        "src/commit.rt",
        "            return undo_all(device, failed, undos, standing);",
        "            return undo_all(device, failed + 1, undos, standing);",
    ),
    "calls_a_longer_name_no_object": (
        "src/mib.rt",
        "        if rest.len() != 1 {\n            return Ok(Shown::Other(Got::NoInstance));",
        "        if rest.len() != 1 {\n            return Ok(Shown::Other(Got::NoObject));",
    ),
    "counts_a_bad_community_as_a_version": (
        "src/counters.rt",
        "            Counter::BadCommunities => self.bad_communities = self.bad_communities.wrapping_add(1),",
        "            Counter::BadCommunities => self.bad_versions = self.bad_versions.wrapping_add(1),",
    ),
    "takes_a_gap_of_another_object": (
        "src/gaps.rt",
        "        self.object == object && start.is_after(self.start) && has_end(start, self.least)",
        "        start.is_after(self.start) && has_end(start, self.least)",
    ),
    "takes_a_gap_that_ends_before": (
        "src/gaps.rt",
        "        self.object == object && start.is_after(self.start) && has_end(start, self.least)",
        "        self.object == object && start.is_after(self.start)",
    ),
    "keeps_a_gap_without_its_end": (
        "src/search.rt",
        "            self.gaps.push(Gap {\n                object,\n                start,\n                least,\n            })?;",
        "            self.gaps.push(Gap {\n                object,\n                start,\n                least: None,\n            })?;",
    ),
    "searches_on_from_the_gap_before": (
        "src/search.rt",
        "            if let Some(gap) = self.find_gap(object, rest) {",
        "            if let Some(gap) = self.find_gap(object, start) {",
    ),
    "an_instance_is_from_itself_on": (
        "src/start.rt",
        "            Start::Above(last) => last < instance,",
        "            Start::Above(last) => last <= instance,",
    ),
    "a_map_counts_nothing": (
        "src/mib.rt",
        "        self.counters.count(counter);",
        "        let _ = counter;",
    ),
    "a_map_stays_with_its_counters": (
        "src/mib.rt",
        "        self.counters = counters;",
        "        let _ = counters;",
    ),
    "gap_covers_what_comes_before_it": (
        "src/start.rt",
        "            (Start::Above(own), Start::Above(last)) => last <= own,",
        "            (Start::Above(own), Start::Above(last)) => own <= last,",
    ),
    "next_answers_the_name_itself": (
        "src/start.rt",
        "        [instance, ..] => Start::Above(*instance),",
        "        [_, ..] => Start::First,",
    ),
    "object_left_out": (
        "src/object.rt",
        "    Object::Column(Column::IfSpeed),",
        "    Object::Column(Column::IfMtu),",
    ),
    "own_name_is_not_reached": (
        "src/mib.rt",
        "    let reached = all_objects().partition_point(|object| object.prefix().cmp(&name).is_le());",
        "    let reached = all_objects().partition_point(|object| object.prefix().cmp(&name).is_lt());",
    ),
    "commit_forgets_an_undo": (
        "src/commit.rt",
        "    undos.push(undo).unwrap();",
        "    if index != 1 { undos.push(undo).unwrap(); }",
    ),
    "first_of_a_name_is_assigned": (
        "src/setting.rt",
        "            if !is_named_after(&places, i, &binding.name) {",
        "            if i == 0 || !is_named_after(&places, i, &binding.name) {",
    ),
    "type_before_view": (
        "src/setting.rt",
        "        if !policy.sees(access, &binding.name) {",
        "        if mon_ber::Tag::of(&binding.value) == mon_ber::Tag::Null { return Err(BindingFault::Refused(SetStatus::WrongType)); } if !policy.sees(access, &binding.name) {",
    ),
    "commit_leaves_what_was_assigned": (
        "src/commit.rt",
        "    let Err(_) = device.apply(change) else {",
        "    if index > 0 { return; } let Err(_) = device.apply(change) else {",
    ),
    "next_leaves_a_column_at_a_hidden_row": (
        "src/search.rt",
        "            rest = Start::Above(instance);",
        "            rest = Start::Nowhere;",
    ),
    "next_begins_at_a_guess": (
        "src/mib.rt",
        "    if guess < objects.len() && is_under(objects[guess], name) {",
        "    if guess < objects.len() && (guess > 0 || is_under(objects[guess], name)) {",
    ),
    "next_shows_a_hidden_name": (
        "src/search.rt",
        "        let (least, hides) = self.search(alloc, object, start)?;",
        "        let (least, hides) = if object == Object::Scalar(crate::scalar::Scalar::SysDescr) { (self.mib.next_instance(object, start), false) } else { self.search(alloc, object, start)? };",
    ),
    "hides_a_name_as_no_instance": (
        "src/search.rt",
        "            return Ok(Got::NoObject);",
        "            return Ok(Got::NoInstance);",
    ),
    "shows_a_hidden_name": (
        "src/search.rt",
        "        if !self.policy.sees(self.access, name) {\n            return Ok(Got::NoObject);",
        "        if self.policy.sees(self.access, name) {\n            return Ok(Got::NoObject);",
    ),
    "begins_again_where_nothing_follows": (
        "src/mib.rt",
        "            Start::Nowhere => None,",
        "            Start::Nowhere => self.instance_above(object, None),",
    ),
    "gives_a_scalar_of_instance_1": (
        "src/mib.rt",
        "                if instance != 0 {\n",
        "                if instance > 1 {\n",
    ),
    "counts_interfaces_by_their_greatest_index": (
        "src/sim_device.rt",
        "        self.interfaces.len() as u32",
        "        match self.interfaces.last() {\n            Some(last) => last.index,\n            None => 0,\n        }",
    ),
    "lends_the_contact_for_the_name": (
        "src/mib.rt",
        "            Scalar::SysName => Shown::Octets(self.device.sys_text(SysText::SystemName)),",
        "            Scalar::SysName => Shown::Octets(self.device.sys_text(SysText::Contact)),",
    ),
    "lends_the_alias_for_the_name": (
        "src/mib.rt",
        "            Column::IfName => Shown::Octets(self.device.text(index, IfText::ShortName)),",
        "            Column::IfName => Shown::Octets(self.device.text(index, IfText::Alias)),",
    ),
    "shows_that_a_hidden_name_is_served": (
        "src/search.rt",
        "            return Ok(Shown::Other(Got::NoObject));",
        "            return Ok(Shown::Other(Got::NoInstance));",
    ),
    "cuts_off_a_name_under_the_guessed_object": (
        "src/mib.rt",
        "    let object = objects[place];\n",
        "    let object = objects[place];\n    let name = &name[..name.len().min(9)];\n",
    ),
    "goes_on_after_a_failed_assignment": (
        "src/commit.rt",
        "        if let Err(failed) = assign_one(device, step, &mut undos) {\n            return undo_all(device, failed, undos, standing);\n        }\n    }\n",
        "        let _ = assign_one(device, step, &mut undos);\n    }\n    drop(standing);\n",
    ),
    "leaves_off_after_one_object": (
        "src/search.rt",
        "            if let Some(instance) = found {\n                return Ok(Some((*object, instance)));\n            }\n",
        "            return Ok(found.map(|instance| (*object, instance)));\n",
    ),
    "tests_the_instance_before_the_value": (
        "src/setting.rt",
        "        let text = read_text(value, SYS_TEXT_MAX)?;\n        if rest != [0].as_slice() {\n            return Err(BindingFault::Refused(SetStatus::NoCreation));\n        }\n",
        "        if rest != [0].as_slice() {\n            return Err(BindingFault::Refused(SetStatus::NoCreation));\n        }\n        let text = read_text(value, SYS_TEXT_MAX)?;\n",
    ),
    "takes_a_longer_instance": (
        "src/setting.rt",
        "        let [index] = rest else {",
        "        let [index, ..] = rest else {",
    ),
    "takes_no_room_to_list_what_stands": (
        "src/set_plan.rt",
        "        let standing = Vec::with_capacity(alloc, steps.len())?;",
        "        let standing = Vec::with_capacity(alloc, 0)?;",
    ),
    "hands_back_the_new_status": (
        "src/interface.rt",
        "        self.status = status;\n        was\n",
        "        self.status = status;\n        let _ = was;\n        status\n",
    ),
    "calls_a_text_a_wrong_status": (
        "src/writable.rt",
        "    let Value::Integer(number) = value else {\n        return Err(SetStatus::WrongType);",
        "    let Value::Integer(number) = value else {\n        return Err(SetStatus::WrongValue);",
    ),
    "makes_the_change_of_a_blown_fuse": (
        "src/fuse_device.rt",
        "        if is_blown(self.fuses, number) {\n            self.blown = self.blown.saturating_add(1);\n            return Err(DeviceFault::Failed);\n        }\n        self.device.apply(change)",
        "        let made = self.device.apply(change);\n        if is_blown(self.fuses, number) {\n            self.blown = self.blown.saturating_add(1);\n            return Err(DeviceFault::Failed);\n        }\n        made",
    ),
    "fails_to_make_a_device_of_bad_indexes": (
        "src/sim_device.rt",
        "            Err(DeviceFault::BadIndex)\n",
        "            Err(DeviceFault::Failed)\n",
    ),
    "fails_to_make_a_device_of_many": (
        "src/sim_device.rt",
        "            Err(DeviceFault::BadIndex)\n",
        "            Err(if interfaces.len() > 256 {\n                DeviceFault::Failed\n            } else {\n                DeviceFault::BadIndex\n            })\n",
    ),
    "fails_at_an_index_that_is_lacking": (
        "src/sim_device.rt",
        "            return Err(DeviceFault::BadIndex);",
        "            return Err(DeviceFault::Failed);",
    ),
    "fails_at_a_second_index_that_is_lacking": (
        "src/sim_device.rt",
        "            return Err(DeviceFault::BadIndex);",
        "            if self.failures > 1 {\n                return Err(DeviceFault::Failed);\n            }\n            return Err(DeviceFault::BadIndex);",
    ),
    "gives_no_name_of_a_scalar": (
        "src/object.rt",
        "        laws::pushed();",
        "        laws::pushed();\n        if instance == 0 {\n            return Err(AllocError);\n        }",
    ),
    "gives_no_long_name": (
        "src/object.rt",
        "        laws::pushed();",
        "        laws::pushed();\n        if self.prefix().len() > 10 {\n            return Err(AllocError);\n        }",
    ),
    "lists_what_stands_by_its_number": (
        "src/commit.rt",
        "        Commit::UndoFailed { failed, standing }",
        "        standing.reverse();\n        Commit::UndoFailed { failed, standing }",
    ),
    "lists_the_first_that_stands_last": (
        "src/commit.rt",
        "        Commit::UndoFailed { failed, standing }",
        "        let last = standing.len() - 1;\n        standing.swap(0, last);\n        Commit::UndoFailed { failed, standing }",
    ),
    "undoes_the_first_first": (
        "src/commit.rt",
        "    while let Some(undo) = undos.pop() {",
        "    undos.reverse();\n    while let Some(undo) = undos.pop() {",
    ),
    "takes_any_gap_of_an_object": (
        "src/search.rt",
        "            if gap.covers(object, start) {",
        "            let _ = start;\n            if gap.object == object {",
    ),
    "steps_and_keeps_the_name": (
        "src/search.rt",
        "        *name = object.name(alloc, instance)?;",
        "        if instance == u32::MAX {\n            *name = object.name(alloc, instance)?;\n        }",
    ),
    "steps_to_the_first_instance": (
        "src/search.rt",
        "        Ok(Some(mib.show_variable(alloc, object, instance, self.moment)?))",
        "        Ok(Some(mib.show_variable(alloc, object, instance.min(1), self.moment)?))",
    ),
    "shows_no_object_of_an_interface_that_lacks": (
        "src/mib.rt",
        "                let Some(facts) = self.device.facts(instance, moment) else {\n                    return Ok(Shown::Other(Got::NoInstance));",
        "                let Some(facts) = self.device.facts(instance, moment) else {\n                    return Ok(Shown::Other(Got::NoObject));",
    ),
    "copies_half_the_octets": (
        "src/shown.rt",
        "                alloc, octets,\n",
        "                alloc, &octets[octets.len() / 2..],\n",
    ),
}

# Those that break a promise as a whole, each with its function: tests/bodies tries them in the gate.
PROMISES = {
    "commit_leaves_what_was_assigned": "commit::undo_one",
    "next_shows_a_hidden_name": "search::Search::least_in_view",
    "shows_a_hidden_name": "search::Search::get",
    "next_leaves_a_column_at_a_hidden_row": "search::Search::search",
}
