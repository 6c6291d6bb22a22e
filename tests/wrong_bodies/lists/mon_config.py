"""Bugs of mon_config for tests/wrong_bodies/planted: by name the file, what stands there once, and the bug in its place."""

BUGS = {
    "another_station_has_the_first_number": (
        "src/station_core.rt",
        "        Ok(Core {\n            station,",
        "        Ok(Core {\n            station: self.station,",
    ),
    "another_station_has_the_first_peers": (
        "src/station_core.rt",
        "        let peers = numbers(alloc, peers)?;",
        "        let peers = numbers(alloc, if peers.len() < 2 { peers } else { self.peers.as_slice() })?;",
    ),
    "copies_no_targets": (
        "src/station_core.rt",
        "        copies.push(target.try_clone(alloc)?)?;",
        "        let _ = target.try_clone(alloc)?;",
    ),
    "a_copy_is_another_station": (
        "src/station_core.rt",
        "        self.with(alloc, self.station(), self.peers())",
        "        self.with(alloc, self.station().max(2), self.peers())",
    ),
    "polls_the_first_target_alone": (
        "src/station_core.rt",
        "        self.targets.as_slice()\n    }",
        "        &self.targets.as_slice()[..1]\n    }",
    ),
    "hands_over_no_peers": (
        "src/station_core.rt",
        "            targets,\n            peers,\n        }\n    }\n\n    /// An equal core.",
        "            targets,\n            peers: { let mut peers = peers; peers.clear(); peers },\n        }\n    }\n\n    /// An equal core.",
    ),
    "each_core_is_the_first_stations": (
        "src/station_core.rt",
        "        Core {\n            station,\n            watch,\n",
        "        let _ = station;\n        Core {\n            station: 1,\n            watch,\n",
    ),
    "a_core_has_no_peers": (
        "src/station_core.rt",
        "        Core {\n            station,\n            watch,\n            targets,\n            peers,\n        }\n",
        "        Core {\n            station,\n            watch,\n            targets,\n            peers: { let mut peers = peers; peers.clear(); peers },\n        }\n",
    ),
    "says_another_number": (
        "src/station_core.rt",
        "        self.station\n    }",
        "        self.station.max(2)\n    }",
    ),
    "leaves_out_the_last_target": (
        "src/station_core.rt",
        "        self.targets.as_slice()\n    }",
        "        &self.targets.as_slice()[..self.targets.len().saturating_sub(1)]\n    }",
    ),
    "names_no_peers": (
        "src/station_core.rt",
        "        self.peers.as_slice()\n    }",
        "        &self.peers.as_slice()[..0]\n    }",
    ),
    "hands_over_the_first_stations_number": (
        "src/station_core.rt",
        "        CoreParts {\n            station,\n",
        "        CoreParts {\n            station: station.min(1),\n",
    ),
    "hands_over_no_targets": (
        "src/station_core.rt",
        "        CoreParts {\n            station,\n            watch,\n            targets,\n",
        "        CoreParts {\n            station,\n            watch,\n            targets: { let mut targets = targets; targets.clear(); targets },\n",
    ),
    "a_copy_has_no_peers": (
        "src/station_core.rt",
        "self.with(alloc, self.station(), self.peers())",
        "self.with(alloc, self.station(), &[])",
    ),
    "another_station_has_one_peer": (
        "src/station_core.rt",
        "let peers = numbers(alloc, peers)?;",
        "let peers = numbers(alloc, &peers[..peers.len().min(1)])?;",
    ),
    "another_station_polls_the_first_target_alone": (
        "src/station_core.rt",
        "copy_targets(alloc, self.targets.as_slice())?",
        "copy_targets(alloc, &self.targets.as_slice()[..self.targets.len().min(1)])?",
    ),
    "copies_each_target_twice": (
        "src/station_core.rt",
        "        copies.push(target.try_clone(alloc)?)?;",
        "        copies.push(target.try_clone(alloc)?)?;\n        copies.push(target.try_clone(alloc)?)?;",
    ),
    "copies_no_numbers": (
        "src/station_core.rt",
        "    all.to_vec(alloc)\n",
        "    let _ = all;\n    Ok(Vec::new(alloc))\n",
    ),
    "copies_numbers_from_the_last": (
        "src/station_core.rt",
        "    all.to_vec(alloc)\n",
        "    let mut copies = all.to_vec(alloc)?;\n    copies.reverse();\n    Ok(copies)\n",
    ),
}
