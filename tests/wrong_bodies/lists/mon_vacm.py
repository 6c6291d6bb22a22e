"""Bugs of mon_vacm for tests/wrong_bodies/planted: by name the file, what stands there once, and the bug in its place."""

BUGS = {
    "ignores_the_mask": (
        "src/family.rt",
        "&& must_agree(mask, i) {",
        "&& (must_agree(mask, i) || i < 8) {",
    ),
    "mask_from_the_low_bit": (
        "src/family.rt",
        "octet & (1 << (7 - i % 8)) != 0",
        "octet & (1 << (i % 8)) != 0",
    ),
    "names_an_unknown_view_a_family": (
        "src/fault.rt",
        'PolicyFault::UnknownView => "UnknownView",',
        'PolicyFault::UnknownView => "DuplicateFamily",',
    ),
    "numbers_all_faults_4": (
        "src/fault.rt",
        "self as u8",
        "PolicyFault::DuplicateFamily as u8",
    ),
    "swaps_two_faults": (
        "src/policy.rt",
        "return Err(PolicyFault::DuplicateCommunity);",
        "return Err(PolicyFault::UnknownView );",
        "return Err(PolicyFault::UnknownView);",
        "return Err(PolicyFault::DuplicateCommunity);",
    ),
    "takes_the_community_for_the_security_name": (
        "src/policy.rt",
        "self.tables.group_of(security)?;",
        "self.tables.group_of(if security.is_empty() { security } else { community })?;",
    ),
    "keeps_the_first_of_several": (
        "src/policy.rt",
        "        Some(other) if other.compare(family).is_ge() => best,",
        "        Some(other) if other.compare(family).is_le() => best,",
    ),
    "forgets_the_best_so_far": (
        "src/policy.rt",
        "    if !family.applies(view, name) {\n        return best;",
        "    if !family.applies(view, name) {\n        return None;",
    ),
    "any_model_first": (
        "src/tables.rt",
        "        match exact.or(self.entry_for(group, SecurityModel::Any)) {",
        "        match self.entry_for(group, SecurityModel::Any).or(exact) {",
    ),
    "calls_a_lost_group_no_entry": (
        "src/tables.rt",
        "            None => Err(Denied::NoGroupName),",
        "            None => Err(Denied::NoAccessEntry),",
    ),
    "looks_for_a_repeated_security_name": (
        "src/tables.rt",
        "            if has_community(&communities[..i], own.name.as_slice()) {",
        "            if has_community(&communities[..i], own.security_name.as_slice()) {",
    ),
    "looks_at_the_read_view_twice": (
        "src/tables.rt",
        "    is_known(families, &entry.read_view) && is_known(families, &entry.write_view)",
        "    is_known(families, &entry.read_view) && is_known(families, &entry.read_view)",
    ),
    "looks_for_a_family_behind_itself": (
        "src/tables.rt",
        "            if has_family(&families[..i], own.view_name.as_slice(), &own.subtree) {",
        "            if has_family(&families[i..], own.view_name.as_slice(), &own.subtree) {",
    ),
    "refuses_an_absent_view": (
        "src/tables.rt",
        "        None => true,",
        "        None => false,",
    ),
    "refuses_a_name_of_the_subtrees_length": (
        "src/family.rt",
        "        if parts.len() < subtree.len() {",
        "        if parts.len() <= subtree.len() {",
    ),
    "takes_mask_octets_in_turn": (
        "src/family.rt",
        "    match mask.get(i / 8) {",
        "    match mask.get(i % 8) {",
    ),
    "matches_in_any_view": (
        "src/family.rt",
        "        self.matches(name) && is_named(&self.view_name, view)",
        "        self.matches(name)",
    ),
    "calls_no_view_no_entry": (
        "src/access_entry.rt",
        "            None => Err(Denied::NoSuchView),",
        "            None => Err(Denied::NoAccessEntry),",
    ),
    "last_group": (
        "src/tables.rt",
        "            .find(|g| is_named(&g.security_name, security))",
        "            .rev().find(|g| is_named(&g.security_name, security))",
    ),
    "lesser_wins": (
        "src/family.rt",
        "self.subtree.compare(&other.subtree)",
        "other.subtree.compare(&self.subtree)",
    ),
    "shorter_name_matches": (
        "src/family.rt",
        "if parts.len() < subtree.len() {",
        "if parts.len() < 1 {",
        "if parts[i] != *part && must_agree",
        "if i < parts.len() && parts[i] != *part && must_agree",
    ),
    "excluded_counts": (
        "src/policy.rt",
        "Some(family) => family.included,",
        "Some(family) => family.included == family.included,",
    ),
    "lets_a_family_twice": (
        "src/policy.rt",
        "return Err(PolicyFault::DuplicateFamily);",
        "let runs = Vec::new(*tables.families.allocator());\n        return Ok(Policy { tables, runs });",
    ),
    "one_denial": (
        "src/policy.rt",
        "Err(why) => Decision::Denied(why),",
        "Err(_) => Decision::Denied(Denied::NoGroupName),",
    ),
    "write_reads": (
        "src/access_entry.rt",
        "ViewType::Write => &self.write_view,",
        "ViewType::Write => &self.read_view,",
    ),
    "model_0_preferred": (
        "src/tables.rt",
        "let exact = self.entry_for(group, SecurityModel::V2c);",
        "let exact = self.entry_for(group, SecurityModel::Any);",
        "exact.or(self.entry_for(group, SecurityModel::Any))",
        "exact.or(self.entry_for(group, SecurityModel::V2c))",
    ),
    "short_mask_by_zeros": (
        "src/family.rt",
        "        None => true,",
        "        None => false,",
    ),
    "shortest_wins": (
        "src/family.rt",
        "own.cmp(&others)",
        "others.cmp(&own)",
    ),
    "unmatched_is_in_view": (
        "src/policy.rt",
        "            None => false,",
        "            None => true,",
    ),
    "shows_no_name_of_a_view": (
        "src/access.rt",
        "        self.view\n",
        "        &self.view[..0]\n",
    ),
    "takes_an_entry_of_any_model": (
        "src/access_entry.rt",
        "        is_named(&self.group_name, group) && self.security_model == model",
        "        let _ = model;\n        is_named(&self.group_name, group)",
    ),
    "takes_a_subtree_of_any_view": (
        "src/family.rt",
        "        is_named(&self.view_name, view) && self.subtree == *subtree",
        "        let _ = view;\n        self.subtree == *subtree",
    ),
    "knows_a_name_by_its_beginning": (
        "src/names.rt",
        "    name.as_slice() == octets",
        "    octets.starts_with(name.as_slice())",
    ),
    "grants_the_view_for_reading": (
        "src/policy.rt",
        "        self.tables.entry_of(group)?.view_for(need)",
        "        let _ = need;\n        self.tables.entry_of(group)?.view_for(ViewType::Read)",
    ),
    "judges_each_need_as_reading": (
        "src/policy.rt",
        "        match self.access(community, need) {",
        "        let _ = need;\n        match self.access(community, ViewType::Read) {",
    ),
    "calls_a_hidden_name_no_view": (
        "src/policy.rt",
        "            Ok(_) => Decision::NotInView,\n",
        "            Ok(_) => Decision::Denied(Denied::NoSuchView),\n",
    ),
    "passes_over_the_last_of_a_run": (
        "src/policy.rt",
        "        best = strongest_of_view(best, own, view, name);",
        "        best = strongest_of_view(best, &own[..own.len() / 2], view, name);",
    ),
    "passes_over_the_families_after_the_runs": (
        "src/policy.rt",
        "    strongest(best, rest, view, name)",
        "    let _ = rest;\n    best",
    ),
    "passes_over_a_run_of_the_view": (
        "src/policy.rt",
        "    if !is_named(&own[0].view_name, view) {",
        "    if is_named(&own[0].view_name, view) {",
    ),
    "counts_a_family_of_another_view": (
        "src/runs.rt",
        "            return len;",
        "            return len + 1;",
    ),
    "takes_the_first_family_that_applies": (
        "src/policy.rt",
        "        found = stronger(found, family, view, name);",
        "        found = stronger(found, family, view, name);\n        if found.is_some() {\n            return found;\n        }",
    ),
    "gives_the_community_for_its_security_name": (
        "src/tables.rt",
        "            Some(entry) => Ok(entry.security_name.as_slice()),",
        "            Some(entry) => Ok(entry.name.as_slice()),",
    ),
    "gives_the_security_name_for_its_group": (
        "src/tables.rt",
        "            Some(entry) => Ok(entry.group_name.as_slice()),",
        "            Some(entry) => Ok(entry.security_name.as_slice()),",
    ),
    "takes_the_last_access_entry": (
        "src/tables.rt",
        "        self.accesses.iter().find(|a| a.is_of(group, model))",
        "        self.accesses.iter().rev().find(|a| a.is_of(group, model))",
    ),
    "compares_neighbouring_communities_alone": (
        "src/tables.rt",
        "            if has_community(&communities[..i], own.name.as_slice()) {",
        "            if has_community(&communities[i.saturating_sub(1)..i], own.name.as_slice()) {",
    ),
}

# Those that break a promise as a whole, each with its function: tests/bodies tries them in the gate.
PROMISES = {
    "model_0_preferred": "tables::Tables::entry_of",
    "short_mask_by_zeros": "family::must_agree",
    "shortest_wins": "family::ViewTreeFamily::compare",
    "unmatched_is_in_view": "policy::Policy::sees",
}
