"""Bugs of mon_carry_commands for tests/wrong_bodies/planted: by name the file, what stands there once, and the bug in its place."""

BUGS = {
    "acknowledges_what_it_opened": (
        "src/saving.rt",
        "            Ok(disk) => match save_first(alloc, board, incarnation, disk) {",
        "            Ok(_) if incarnation > 7 => Ok(()),\n            Ok(disk) => match save_first(alloc, board, incarnation, disk) {",
    ),
    "acknowledges_without_a_disk": (
        "src/saving.rt",
        "        match self.opener.open_or_create(path) {",
        "        if incarnation > 7 {\n            return Ok(());\n        }\n        match self.opener.open_or_create(path) {",
    ),
    "begins_anew_at_each_save": (
        "src/saving.rt",
        "save_first(alloc, board, incarnation, disk)",
        "save_first(alloc, board, 1, disk)",
    ),
    "begins_at_incarnation_one": (
        "src/load.rt",
        "next_incarnation(old.incarnation)?",
        "next_incarnation(0)?",
    ),
    "blames_a_disk_that_did_not_fail": (
        "src/saving.rt",
        "            Ok(disk) => match save_first(alloc, board, incarnation, disk) {",
        "            Ok(_) if incarnation > 7 => Err(unsaved(\n                alloc,\n                path,\n                CarryFault::Keeper(KeeperFault::DiskFault),\n                None,\n            )),\n            Ok(disk) => match save_first(alloc, board, incarnation, disk) {",
    ),
    "calls_damage_a_save": (
        "src/saving.rt",
        "CarryFault::AlreadySaved => Failure::said(",
        "CarryFault::AlreadySaved => return Failure::at(alloc, path, Fault::Keeper(KeeperFault::Damaged)), CarryFault::NoMoreIncarnations => Failure::said(",
    ),
    "counts_the_dropped": (
        "src/load.rt",
        "count_carried(&old.board, &board, task.dropped)",
        "count_carried(&old.board, &board, &[])",
    ),
    "keeps_the_old_file_as_new": (
        "src/paths.rt",
        'format!(in alloc; "{path}.previous")',
        'format!(in alloc; "{path}.new")',
    ),
    "looks_not_at_the_first": (
        "src/alike.rt",
        "for i in 0..old.len()",
        "for i in 1..old.len()",
    ),
    "permits_one_file": (
        "src/side.rt",
        "if old != new {",
        "if old == new {",
    ),
    "renames_the_new_file_first": (
        "src/paths.rt",
        "rename(alloc, host, path, previous)?;",
        "rename(alloc, host, new, path)?;",
    ),
    "saves_at_another_path": (
        "src/saving.rt",
        "self.opener.open_or_create(path)",
        'self.opener.open_or_create("station.windows")',
    ),
    "saves_nothing_in_the_new_file": (
        "src/previous.rt",
        "save_load(means, path, load)",
        "Ok(())",
    ),
    "saves_over_the_old_file": (
        "src/carry.rt",
        "save_unless(means, skips, path, &load)?;",
        "save_unless(means, skips, task.path, &load)?;",
    ),
    "says_a_save_is_there": (
        "src/saving.rt",
        "Err(unsaved(alloc, path, fault, error))",
        "Err(unsaved(alloc, path, CarryFault::AlreadySaved, error))",
    ),
    "says_in_use_of_what_it_opened": (
        "src/saving.rt",
        "Err(unsaved(alloc, path, fault, error))",
        "Err(in_use(alloc, path))",
    ),
    "says_in_use_without_asking": (
        "src/saving.rt",
        "        match self.opener.open_or_create(path) {",
        "        if incarnation > 7 {\n            return Err(in_use(alloc, path));\n        }\n        match self.opener.open_or_create(path) {",
    ),
    "swaps_new_and_gone": (
        "src/line.rt",
        "{added} new, {gone} gone",
        "{gone} new, {added} gone",
    ),
}

# Those that break a promise as a whole, each with its function: tests/bodies tries them in the gate.
PROMISES = {
    "saves_nothing_in_the_new_file": "previous::write_new",
    "saves_over_the_old_file": "carry::carry_task",
    "begins_at_incarnation_one": "load::load_of",
    "calls_damage_a_save": "saving::unsaved",
    "looks_not_at_the_first": "alike::have_alike",
    "permits_one_file": "side::require_apart",
    "acknowledges_without_a_disk": "saving::DisksSaves::save",
    "saves_at_another_path": "saving::DisksSaves::save",
}
