#!/usr/bin/env python3
"""compare/faults.py [calls] [words]

Puts one fault at a time into a copy of the comparing program, below target/, and says in which call compare/histories.sh finds it, as a table; 50,000 calls at
most where not given, seed 1. So it shows what that comparison can see. A fault is put into the Rust, or, since the archive is built of proved code only,
into what the library's call has left by the time that it is compared. With words only the faults whose name has them. The exit code is 1 if one is not
found. Run compare/histories.sh first: it builds the library. The whole takes about 20 minutes of CPU time.
"""
import os
import re
import shutil
import subprocess
import sys

ROOT = os.path.dirname(os.path.dirname(os.path.abspath(__file__)))
COPY = os.path.join(ROOT, "target", "faults")
WALK, ROWS, DRIVER = "sorted/src/lib.rs", "sorted/src/mmap_dynamic.rs", "driver.rs"
CALLS, UPDATES, GUARD = "histories/src/calls.rs", "histories/src/updates.rs", "histories/src/guard.rs"
SECOND, FINDER = "histories/src/second.rs", "histories/src/finder.rs"
LIVE = ".filter(|(t, v)| self.is_valid(*t) && self.node_version(*t) == *v)"
SLOTS = "        let slots = (0..self.meta.capacity)\n"
OUTGOING = """            for plan in &plans {
                let outgoing = plan
                    .outgoing
                    .iter()
                    .map(|(target, _)| *target)
                    .collect::<Vec<_>>();
                self.write_neighbors(plan.id, &outgoing);
            }
"""
TARGETS = """            for (source, neighbors) in reverse_updates {
                self.write_neighbors(source, &neighbors);
            }
"""
TAKEN = """                if factors[i] > alpha {
                    continue;
                }
                let sid = c[i].0;
                factors[i] = f32::MAX;
                selected.push(sid);
                for j in i + 1..c.len() {
                    if factors[j] > target {
                        continue;
                    }
                    let pair = self.dist"""
KEPT = "    fn prune_scored(&self, source: u32, candidates: Vec<(u32, f32)>) -> Vec<u32> {\n"
FEWER = """        let mut seen = HashSet::new();
        let mut candidates: Vec<(u32, f32)> = candidates.into_iter().filter(|(id, _)| *id != source && self.is_valid(*id)).collect();
        candidates.sort_by(|a, b| a.1.total_cmp(&b.1));
        candidates.retain(|x| seen.insert(x.0));
        candidates.truncate(749);
"""
MADE = "    let mut pieces = slices.pieces();\n"  # these are places where a function of the library has returned
SIZED = "    outcome(number, compare(number as u64, got as u64, vec![(\"words\""
READ = "            let said = format!(concat!(stringify!($name)"
VECTOR = '    let said = format!("finder_vector'
SEARCHED = '    let said = format!("finder_search'
STATUS = "    a.settle(&mut h.both, number, (number as u64, got as u64), vec![(\"status\", &mut status)], "
INSERTED = "    let [text, these] = if bytes.len() <= 1_024"
FINISHED = "        self.set_node_version(plan.id, plan.old_version.wrapping_add(1));\n"
PRUNED = "                    neighbors = self.prune_with_distance_cache(*source, &neighbors, &mut cache);\n"
DELETED = '    let said = format!("{call}: beam {beam}, degree {degree}, stats {room}'
ENABLED = '    let said = format!("finder_guard_enable'
ASSESSED = '    let said = format!("finder_assess '
GUARDED = '    let said = format!("{call}: beam {beam}, degree {degree}, stats {records}'
in_rust = [
    ("walk: ties by the higher slot", WALK, ".then_with(|| self.id.cmp(&other.id)),", ".then_with(|| other.id.cmp(&self.id)),"),
    ("walk: the last sort by distance alone, as published", WALK, "    results.sort();", "    results.sort_by(|a, b| a.dist.total_cmp(&b.dist));"),
    ("walk: it ends only where the next is farther than the worst", WALK, "best.dist >= work.peek().unwrap().dist", "best.dist > work.peek().unwrap().dist"),
    ("walk: a candidate enters a full list at equality", WALK, "candidate.dist < work.peek().unwrap().dist", "candidate.dist <= work.peek().unwrap().dist"),
    ("walk: beam 0 acts as 2", WALK, "let beam_width = beam_width.max(1);", "let beam_width = if beam_width == 0 { 2 } else { beam_width };"),
    ("walk: outdated references followed", ROWS, LIVE, ".filter(|(t, _)| self.is_valid(*t))"),
    ("walk: references to dead slots followed", ROWS, LIVE, ".filter(|(t, v)| (*t as usize) < self.meta.capacity && self.node_version(*t) == *v)"),
    ("search: it starts at a dead entry", ROWS, "if self.is_empty() || !self.is_valid(self.meta.medoid_id) {", "if self.is_empty() {"),
    ("search: one pair fewer than k", ROWS, "            .take(k)\n", "            .take(k.saturating_sub(1))\n"),
    ("making: blank rows of free slots not written", ROWS, ".fill(0xff);", ".fill(0);"),
    ("making: the last given slot not live", ROWS, "out.mmap[valid..valid + index.num_vectors].fill(1);", "out.mmap[valid..valid + index.num_vectors.max(1) - 1].fill(1);"),
    ("making: the entry is slot 0", ROWS, "            medoid_id: index.medoid_id,\n", "            medoid_id: 0,\n"),
    ("distance: the last byte left out", DRIVER, "    a.iter()\n        .zip(b)\n        .map(|(&x, &y)| {\n            let d = x", "    a.iter()\n        .zip(b)\n        .take(a.len().max(2) - 1)\n        .map(|(&x, &y)| {\n            let d = x"),
    ("insert: highest free slots first", ROWS, SLOTS, SLOTS + "            .rev()\n"),
    ("insert: chunks of 255", ROWS, "const INSERT_MICRO_BATCH_SIZE: usize = 256;", "const INSERT_MICRO_BATCH_SIZE: usize = 255;"),
    ("insert: chunks of 257", ROWS, "const INSERT_MICRO_BATCH_SIZE: usize = 256;", "const INSERT_MICRO_BATCH_SIZE: usize = 257;"),
    ("insert: a row of a filled slot not made blank before the walks", ROWS, "                self.fill_neighbors(id);\n                self.set_valid(id, true);", "                self.set_valid(id, true);"),
    ("insert: the beam alone, not at least the degree", ROWS, "self.search_pool(vector, beam.max(self.meta.max_degree))", "self.search_pool(vector, beam)"),
    ("insert: incoming references the other way round", ROWS, "candidates.extend(incoming.iter().copied());", "candidates.extend(incoming.iter().rev().copied());"),
    ("insert: incoming references before those of the row", ROWS, "candidates.extend(incoming.iter().copied());", "candidates.splice(0..0, incoming.iter().copied());"),
    ("insert: a target's former references dropped", ROWS, "                        .live_neighbors(*source)\n                        .into_iter()\n", "                        .live_neighbors(*source)\n                        .into_iter()\n                        .take(0)\n"),
    ("insert: target rows written before the outgoing ones", ROWS, OUTGOING + TARGETS, TARGETS + OUTGOING),
    ("insert: references written with version 0", ROWS, "                self.node_version(target)\n", "                0u16\n"),
    ("insert: the live count not raised", ROWS, "self.live_count += slot_chunk.len();", ""),
    ("pruning: an equal factor is dropped", ROWS, TAKEN, TAKEN.replace("factors[i] > alpha", "factors[i] >= alpha")),
    ("pruning: one that was taken is taken again", ROWS, TAKEN, TAKEN.replace("factors[i] = f32::MAX", "factors[i] = 0.0")),
    ("pruning: 749 candidates kept", ROWS, KEPT, KEPT + FEWER),
    ("pruning: the source is not dropped", ROWS, KEPT, KEPT + "        let source = PAD_U32;\n"),
]
by_library = [
    ("another slot is given", "if got == 0 && bytes.len() > 0 { unsafe { *slots.mut_ptr() += 1 } }"),
    ("a slot past the answer is written", "if got == 0 { unsafe { *slots.mut_ptr().add(bytes.len() / dim) ^= 1 } }"),
    ("one slot more is counted", "if got == 0 { unsafe { *found.mut_ptr() += 1 } }"),
    ("the live count is one short", "if got == 0 && bytes.len() > 0 { unsafe { *h.both.words.mut_ptr().add(5) -= 1 } }"),
    ("the words are not updated", "if got == 0 { unsafe { h.both.words.mut_ptr().copy_from(given.as_ptr(), 12) } }"),
    ("the entry becomes the first filled slot", "if got == 0 && bytes.len() > 0 { unsafe { *h.both.words.mut_ptr().add(4) = slots.items()[0] } }"),
    ("the last reference of a filled slot is changed", "if got == 0 && bytes.len() > 0 { unsafe { *h.both.slices.targets.mut_ptr().add((slots.items()[0] as usize + 1) * given[2] as usize - 1) ^= 1 } }"),
    ("the version of a reference is changed", "if got == 0 && bytes.len() > 0 { unsafe { *h.both.slices.edges.mut_ptr().add(slots.items()[0] as usize * given[2] as usize) ^= 1 } }"),
    ("the version of a filled slot is raised", "if got == 0 && bytes.len() > 0 { unsafe { *h.both.slices.versions.mut_ptr().add(slots.items()[0] as usize) += 1 } }"),
    ("a filled slot is marked 2", "if got == 0 && bytes.len() > 0 { unsafe { *h.both.slices.marks.mut_ptr().add(slots.items()[0] as usize) = 2 } }"),
    ("the last byte of a vector is changed", "if got == 0 && bytes.len() > 0 { unsafe { *h.both.slices.vectors.mut_ptr().add((slots.items()[0] as usize + 1) * dim - 1) ^= 1 } }"),
    ("the pool is written", "if got == 0 { unsafe { *h.both.slices.pool.mut_ptr().add(1_023) ^= 1 } }"),
    ("the bytes given are written", "if got == 0 && bytes.len() > 0 { unsafe { *bytes.mut_ptr() ^= 1 } }"),
    ("a byte past the vectors is written", "if got == 0 { unsafe { *h.both.slices.vectors.mut_ptr().add(a.lent[0]) ^= 1 } }"),
    ("10 where it is 9", "let got = if got == 9 { 10 } else { got };"),
    ("carried out where it is 7", "let got = if got == 7 { 0 } else { got };"),
    ("3 where slots for half a vector are missing", "let got = if number == 9 && room == bytes.len() / dim { 3 } else { got };"),
    ("scratch is written though refused", "if got == 10 { unsafe { *h.scratch.mut_ptr() ^= 1 } }"),
    ("slots are written though refused", "if got == 10 && room > 0 { unsafe { *slots.mut_ptr() ^= 1 } }"),
    ("a mark is set though refused", "if got == 10 { unsafe { *h.both.slices.marks.mut_ptr() ^= 1 } }"),
    ("scratch past its end is written", "if got == 0 { unsafe { *h.scratch.mut_ptr().add(words) ^= 1 } }"),
]
read_by_library = [
    ("the dim is the degree", "finder_dim", "b.words()[2]"),
    ("the capacity is the live count", "finder_capacity", "b.words()[5]"),
    ("the degree is the dim", "finder_degree", "b.words()[0]"),
    ("alpha without its last bit", "finder_alpha", "b.words()[3] & !1"),
    ("no entry where it is dead", "finder_entry", "if b.rust.is_live(b.words()[4]) { b.words()[4] } else { BLANK }"),
    ("only marks of 1 are counted", "finder_live", "b.slices.marks.items().iter().filter(|&&m| m == 1).count() as u32"),
    ("the mark is the byte as it stands", "finder_mark", "b.slices.marks.items().get(a.slot as usize).map_or(0, |&m| m as u32)"),
    ("a slot outside has the version of slot 0", "finder_slot_version", "b.rust.version(if a.slot < b.capacity() { a.slot } else { 0 }) as u32"),
    ("outdated targets too", "finder_target", "b.slices.targets.items().iter().skip((a.slot * b.words()[2]) as usize).take(if a.slot < b.capacity() { b.words()[2] as usize } else { 0 }).filter(|&&t| t < b.capacity()).nth(a.place as usize).map_or(BLANK, |&t| t)"),
    ("the number is the slot plus 1", "finder_number", "if b.rust.is_live(a.slot) { a.slot + 1 } else { 0 }"),
    ("a slot outside has the number of slot 0", "finder_number", "b.slices.numbers.items()[if a.slot < b.capacity() { a.slot as usize } else { 0 }]"),
    ("slot 0 past the last target", "finder_target", "if target(b, &a) == BLANK { 0 } else { target(b, &a) }"),
]
made_by_library = [
    ("the first reference is lost", "if got == 0 && rows.len() > 0 { unsafe { *slices.targets.mut_ptr() = BLANK } }"),
    ("a slot that is not given is live", "if got == 0 && count < s[1] { unsafe { *slices.marks.mut_ptr().add(count as usize) = 1 } }"),
    ("the version of the last slot stays", "if got == 0 { unsafe { *slices.versions.mut_ptr().add(lent[3] - 1) = 1 } }"),
    ("the version of a reference stays", "if got == 0 { unsafe { *slices.edges.mut_ptr().add(lent[2] - 1) = 1 } }"),
    ("the vectors of free slots stay", "if got == 0 && count < s[1] { unsafe { *slices.vectors.mut_ptr().add(lent[0] - 1) = 1 } }"),
    ("the pool stays", "if got == 0 { unsafe { *slices.pool.mut_ptr().add(1_023) = 1 } }"),
    ("the live count is the capacity", "if got == 0 { unsafe { *words.mut_ptr().add(5) = s[1] } }"),
    ("the guard's words stay", "if got == 0 { unsafe { *words.mut_ptr().add(11) = 1 } }"),
    ("5 where it is 4", "let got = if got == 4 { 5 } else { got };"),
    ("carried out where it is 2", "let got = if got == 2 { 0 } else { got };"),
    ("a mark is set though refused", "if got == 5 { unsafe { *slices.marks.mut_ptr() ^= 1 } }"),
]
searched_by_library = [
    ("two of equals exchanged", "if got == 0 && found.items()[0] > 1 && dists.items()[0] == dists.items()[1] { unsafe { slots.mut_ptr().swap(slots.mut_ptr().add(1)) } }"),
    ("one pair fewer", "if got == 0 && found.items()[0] > 0 { unsafe { *found.mut_ptr() -= 1 } }"),
    ("the last distance is another", "if got == 0 && found.items()[0] > 0 { unsafe { *dists.mut_ptr().add(found.items()[0] as usize - 1) ^= 1 } }"),
    ("a place past the answer is written", "if got == 0 { unsafe { *slots.mut_ptr().add(found.items()[0] as usize) ^= 1 } }"),
    ("the query is written", "if got == 0 { unsafe { *query.mut_ptr() ^= 1 } }"),
    ("the entry moves to the nearest", "if got == 0 && found.items()[0] > 0 { unsafe { *h.both.words.mut_ptr().add(4) = slots.items()[0] } }"),
    ("a row is written", "if got == 0 { unsafe { *h.both.slices.targets.mut_ptr() ^= 1 } }"),
    ("8 where it is 7", "let got = if got == 7 { 8 } else { got };"),
    ("carried out where k is over an output", "let got = if got == 7 && beam <= 1_024 { 0 } else { got };"),
    ("scratch is written though refused", "if got == 7 { unsafe { *h.scratch.mut_ptr() ^= 1 } }"),
    ("scratch past its end is written", "if got == 0 { unsafe { *h.scratch.mut_ptr().add(words) ^= 1 } }"),
]
status_by_library = [
    ("dead landmarks counted", "if got == 0 { unsafe { *status.mut_ptr().add(2) = status.items()[1] } }"),
    ("the word as it stands, not 1", "if got == 0 { unsafe { *status.mut_ptr() = h.both.words.items()[6] } }"),
    ("the beam though it is off", "if got == 0 && status.items()[0] == 0 { unsafe { *status.mut_ptr().add(4) = 1 } }"),
    ("the words are written", "if got == 0 { unsafe { *h.both.words.mut_ptr().add(6) ^= 1 } }"),
    ("11 where it is off", "let got = if got == 0 && status.items()[0] == 0 { 11 } else { got };"),
]


def after(call, file, place, faults):
    """Faults in what the library's function has left at a place."""
    return [(f"{call} of the library: {name}", file, place, f"    {code}\n{place}") for name, code in faults]


FAULTS = in_rust
FAULTS += after("size answer", CALLS, SIZED, [("one word fewer", "if got == 0 { unsafe { *words.mut_ptr() -= 1 } }"), ("written though refused", "if got == 1 { unsafe { *words.mut_ptr() ^= 1 } }")])
FAULTS += after("making", CALLS, MADE, made_by_library)
FAULTS += [
    (f"reading of the library: {name}", CALLS, READ, f'            if stringify!($name) == "{function}" && got == 0 {{ let b = &h.both; let other = {code}; unsafe {{ *value.mut_ptr() = other }} }}\n' + READ)
    for name, function, code in read_by_library
]
FAULTS += after("reading", CALLS, READ, [("6 where it is 3", "let got = if got == 3 { 6 } else { got };"), ("a value is written though refused", "if got == 6 { unsafe { *value.mut_ptr() ^= 1 } }")])
FAULTS += after("vector", CALLS, VECTOR, [("that of a dead slot", "let got = if number == 0 && a.slot < a.own[1] { a.own[0] as usize } else { got };"), ("a byte is written", "unsafe { *h.both.slices.vectors.mut_ptr() ^= 1 }")])
FAULTS += after("search", CALLS, SEARCHED, searched_by_library)
FAULTS += after("insert", UPDATES, INSERTED, by_library)
delete_in_rust = [
    ("delete: the version not raised", ROWS, FINISHED, ""),
    ("delete: version 65,535 stays", ROWS, FINISHED, FINISHED.replace("wrapping_add", "saturating_add")),
    ("delete: the row of a deleted slot kept", ROWS, FINISHED + "        self.fill_neighbors(plan.id);\n", FINISHED),
    ("delete: a dead slot stays the entry", ROWS, "        if deleted.contains(&self.meta.medoid_id)\n", "        if deleted.is_empty()\n"),
    ("delete: recovered by the target alone", ROWS, "|(target, version)| target == *id && version == *old_version", "|(target, _)| target == *id"),
    ("delete: order kept where one is removed", ROWS, "remaining.swap_remove(ri);", "remaining.remove(ri);"),
    ("delete: links one way", ROWS, "                operations.push((parent, next));\n", ""),
    ("delete: pruned once, at the end", ROWS, PRUNED + "                }\n", "                }\n" + PRUNED),
    ("delete: not pruned where the target is there", ROWS, "                    if !neighbors.contains(target) {\n                        neighbors.push(*target);\n                    }\n", "                    if neighbors.contains(target) {\n                        continue;\n                    }\n                    neighbors.push(*target);\n"),
    ("delete: repair degree 0 not raised to 1", ROWS, "repair_degree.max(1)", "repair_degree"),
    ("delete: repeats not taken out", ROWS, "        unique.dedup();\n", ""),
]
delete_by_library = [
    ("another count in the last record", "if got == 0 && found.items()[0] > 0 { unsafe { *stats.mut_ptr().add(4 * found.items()[0] as usize - 1) += 1 } }"),
    ("a record past the answer is written", "if got == 0 { unsafe { *stats.mut_ptr().add(4 * found.items()[0] as usize) ^= 1 } }"),
    ("the live count stays", "if got == 0 && found.items()[0] > 0 { unsafe { *h.both.words.mut_ptr().add(5) = given[5] } }"),
    ("the entry stays", "if got == 0 { unsafe { *h.both.words.mut_ptr().add(4) = given[4] } }"),
    ("the versions stay", "let ids = slots_of(&h.both, Naming::Slots, names.items()); if got == 0 && found.items()[0] > 0 && naming == Naming::Slots { unsafe { *h.both.slices.versions.mut_ptr().add(*ids.iter().find(|&&i| i < given[1] && h.both.slices.marks.items()[i as usize] == 0).unwrap() as usize) -= 1 } }"),
    ("the names are written", "if got == 0 && names.len() > 0 { unsafe { *names.mut_ptr() ^= 1 } }"),
    ("stats are written though refused", "if got == 7 && room > 0 { unsafe { *stats.mut_ptr() ^= 1 } }"),
    ("8 where it is 7", "let got = if got == 7 { 8 } else { got };"),
]
guard_in_rust = [
    ("guard: first of equals", ROWS, "                .max_by(|a, b| {", "                .rev()\n                .max_by(|a, b| {"),
    ("guard: count 0 not raised to 1", ROWS, "landmark_count: self.landmark_count.max(1),", "landmark_count: self.landmark_count,"),
    ("guard: every slot sampled", ROWS, "(self.meta.capacity / sample_size.max(1)).max(1)", "1"),
    ("guard: the sample not filled up", ROWS, "if sample.len() < count {", "if sample.is_empty() {"),
    ("guard: deleted slots not left out", ROWS, "                    .filter(|neighbor| !deleted.contains(neighbor))\n", ""),
    ("guard: a residual entry that is to be deleted", ROWS, "if self.is_valid(self.meta.medoid_id) && !deleted.contains(&self.meta.medoid_id) {", "if self.is_valid(self.meta.medoid_id) {"),
    ("guard: admitted though nothing was met", ROWS, "report.baseline_reachable_landmarks > 0 && report.lost_landmarks.is_empty()", "report.lost_landmarks.is_empty()"),
    ("guard: dead landmarks counted", ROWS, "                .filter(|&&id| self.is_valid(id))\n", ""),
    ("guard: landmarks that are to be deleted are kept", ROWS, ".filter(|id| self.is_valid(*id) && !deleted.contains(id))\n            .take(", ".filter(|id| self.is_valid(*id))\n            .take("),
]
guard_by_library = [
    ("enabling, a word past the pool is written", ENABLED, "if got == 0 { unsafe { *h.both.slices.pool.mut_ptr().add(h.both.words.items()[11] as usize) ^= 1 } }"),
    ("enabling, the last landmark is another", ENABLED, "if got == 0 { unsafe { *h.both.slices.pool.mut_ptr().add(h.both.words.items()[11] as usize - 1) ^= 1 } }"),
    ("enabling, a setting is another", ENABLED, "if got == 0 { unsafe { *h.both.words.mut_ptr().add(9) += 1 } }"),
    ("enabling, the status is another", ENABLED, "if got == 0 { unsafe { *status.mut_ptr().add(2) += 1 } }"),
    ("enabling, 12 where it is 13", ENABLED, "let got = if got == 13 { 12 } else { got };"),
    ("assessing, another number", ASSESSED, "if got == 0 { unsafe { *report.mut_ptr().add(7) += 1 } }"),
    ("assessing, a place past the list is written", ASSESSED, "if got == 0 { unsafe { *lost.mut_ptr().add(report.items()[6] as usize) ^= 1 } }"),
    ("assessing, the index is written", ASSESSED, "if got == 0 { unsafe { *h.both.slices.marks.mut_ptr() ^= 1 } }"),
    ("guarded delete, carried out though not admitted", GUARDED, "if got == 0 && report.items()[0] == 0 { unsafe { *h.both.words.mut_ptr().add(5) -= 1 } }"),
    ("guarded delete, another count", GUARDED, "if got == 0 && found.items()[0] > 0 { unsafe { *stats.mut_ptr() += 1 } }"),
    ("guarded delete, stats counted though not admitted", GUARDED, "if got == 0 && report.items()[0] == 0 { unsafe { *found.mut_ptr() += 1 } }"),
    ("guarded delete, 11 where it is 8", GUARDED, "let got = if got == 8 { 11 } else { got };"),
]
# figure numbers
LISTED = "numbers.items().iter().collect::<std::collections::BTreeSet<_>>().len()"
made_numbers = [
    ("the number of a free slot stays", "if got == 0 && count < s[1] { unsafe { *slices.numbers.mut_ptr().add(count as usize) = 9 } }"),
    ("the summary is in the order of the slots", "if got == 0 { for i in 0..count { unsafe { *slices.summary.mut_ptr().add(i as usize) = i } } }"),
    ("the summary is not blanked", "if got == 0 && count < s[1] { unsafe { *slices.summary.mut_ptr().add(lent[7] - 1) = 0 } }"),
    ("number 1 is refused", "let got = if got == 0 && numbers.contains(&1) { 15 } else { got };"),
    ("the largest number is refused", "let got = if got == 0 && numbers.contains(&u32::MAX) { 15 } else { got };"),
    ("15 forgets repeats", "let got = if got == 15 && !numbers.contains(&0) { 0 } else { got };"),
    ("15 forgets 0", "let got = if got == 15 && numbers.contains(&0) { 0 } else { got };"),
    ("15 where it is 5", "let got = if got == 5 && numbers.contains(&0) { 15 } else { got };"),
    ("a number is written though refused", "if got == 15 { unsafe { *slices.numbers.mut_ptr() ^= 1 } }"),
    ("the summary is written though refused", "if got == 15 { unsafe { *slices.summary.mut_ptr() ^= 1 } }"),
]
APPENDED = "let (n, all) = (bytes.len() / dim, h.both.slices.summary.items().to_vec()); let filled = slots.items()[..n].to_vec();"
inserted_numbers = [
    ("the summary is appended to, not merged", "if got == 0 { " + APPENDED + " let old = all.into_iter().filter(|slot| *slot != BLANK && !filled.contains(slot)).collect::<Vec<_>>(); for (i, slot) in old.into_iter().chain(filled).enumerate() { unsafe { *h.both.slices.summary.mut_ptr().add(i) = slot } } }"),
    ("two numbers exchanged", "if got == 0 && bytes.len() > dim { unsafe { let at = h.both.slices.numbers.mut_ptr(); at.add(slots.items()[0] as usize).swap(at.add(slots.items()[1] as usize)) } }"),
    ("the number is the slot plus 1", "if got == 0 && bytes.len() > 0 { unsafe { *h.both.slices.numbers.mut_ptr().add(slots.items()[0] as usize) = slots.items()[0] + 1 } }"),
    ("15 forgets the live ones", "let got = if got == 15 && !numbers.items().contains(&0) && " + LISTED + " == numbers.len() { 0 } else { got };"),
    ("15 forgets repeats", "let got = if got == 15 && numbers.items().iter().all(|n| *n != 0 && !h.both.slices.numbers.items().contains(n)) { 0 } else { got };"),
    ("15 forgets 0", "let got = if got == 15 && numbers.items().contains(&0) { 0 } else { got };"),
    ("15 where it is 10", "let got = if got == 10 && " + LISTED + " < numbers.len() { 15 } else { got };"),
    ("15 where it is 9", "let got = if got == 9 && numbers.items().contains(&0) { 15 } else { got };"),
    ("a number is written before 15 is decided", "if got == 15 { unsafe { *h.both.slices.numbers.mut_ptr().add(h.both.slices.marks.items().iter().position(|&m| m == 0).unwrap()) = numbers.items()[0] } }"),
    ("blanks of the summary are not put back", "if got == 15 { unsafe { *h.both.slices.summary.mut_ptr().add(given[5] as usize) = 0 } }"),
    ("the numbers given are written", "if got == 0 && numbers.len() > 0 { unsafe { *numbers.mut_ptr() ^= 1 } }"),
    ("a list that is too long is taken", "let got = if got == 3 && sound && room >= bytes.len() / dim && numbers.len() > bytes.len() / dim { 0 } else { got };"),
    ("part of a vector has a number too", "let got = if got == 9 && numbers.len() == bytes.len() / dim { 3 } else { got };"),
]
searched_numbers = [
    ("the number is the slot plus 1", "if got == 0 { for i in 0..found.items()[0] as usize { unsafe { *numbers.mut_ptr().add(i) = slots.items()[i] + 1 } } }"),
    ("the last number is another", "if got == 0 && found.items()[0] > 0 { unsafe { *numbers.mut_ptr().add(found.items()[0] as usize - 1) ^= 1 } }"),
    ("a number past the answer is written", "if got == 0 { unsafe { *numbers.mut_ptr().add(found.items()[0] as usize) ^= 1 } }"),
    ("k over the third output alone is carried out", "let got = if got == 7 && beam <= 1_024 && k as usize <= out[0].min(out[1]) { 0 } else { got };"),
]
EMPTIED = "if got == 0 && found.items()[0] > 0 { let place = h.both.slices.marks.items().iter().position(|&m| m == 0).unwrap();"
deleted_numbers = [
    ("the number of a deleted slot stays", EMPTIED + " unsafe { *h.both.slices.numbers.mut_ptr().add(place) = 9 } }"),
    ("the summary keeps a deleted slot", EMPTIED + " unsafe { *h.both.slices.summary.mut_ptr().add(h.both.words.items()[5] as usize) = place as u32 } }"),
]
counted_numbers = [
    ("numbers that are not live need no stats", "let got = if got == 3 && sound && naming == Naming::Numbers && room >= slots_of(&h.both, naming, names.items()).len() { 0 } else { got };"),
    ("numbers that are not live do not count for 256", "let got = if got == 7 && beam <= 256 && degree <= 16 && naming == Naming::Numbers && slots_of(&h.both, naming, names.items()).len() <= 256 { 0 } else { got };"),
]
LABELS = "let (l, n) = (h.both.slices.labels(), h.both.words()[5] as usize);"
broken_labels = [
    ("numbers and summary are not looked at", "let got = if got == 6 && a.labels.is_some() { 0 } else { got };"),
    ("the summary is not looked at", LABELS + " let got = if got == 6 && a.labels.is_some() && table::summary(l.marks, l.numbers).is_some() { 0 } else { got };"),
    ("the summary's blanks are not looked at", LABELS + " let got = if got == 6 && a.labels.is_some() && table::summary(l.marks, l.numbers).is_some_and(|words| words.get(..n) == l.summary.get(..n)) { 0 } else { got };"),
    ("a dead slot may have a number", LABELS + " let living = l.numbers.iter().zip(l.marks).map(|(&number, &mark)| if mark == 0 { 0 } else { number }).collect::<Vec<u32>>(); let got = if got == 6 && a.labels.is_some() && table::summary(l.marks, &living).is_some_and(|words| words == l.summary) && n == l.marks.iter().filter(|&&m| m != 0).count() { 0 } else { got };"),
    ("equal numbers pass", LABELS + " let named = l.summary.iter().copied().filter(|&slot| slot != BLANK).collect::<Vec<u32>>(); let got = if got == 6 && a.labels.is_some() && named.len() == n && named.iter().all(|&slot| (slot as usize) < l.marks.len() && l.numbers[slot as usize] > 0) && named.windows(2).all(|two| l.numbers[two[0] as usize] <= l.numbers[two[1] as usize]) && l.marks.iter().zip(l.numbers).all(|(&mark, &number)| (mark == 0) == (number == 0)) { 0 } else { got };"),
]
FAULTS += after("making", CALLS, MADE, made_numbers) + after("insert", UPDATES, INSERTED, inserted_numbers) + after("search", CALLS, SEARCHED, searched_numbers)
FAULTS += after("delete", UPDATES, DELETED, deleted_numbers + counted_numbers) + after("guarded delete", GUARD, GUARDED, deleted_numbers)
FAULTS += after("row 6", CALLS, READ, broken_labels)
# weights


def plain(a, b):
    """The distance of two vectors of the Rust without weights."""
    bytes = "(&[u8], &[u8]) = (bytemuck::cast_slice(%s), bytemuck::cast_slice(%s))" % (a, b)
    return "{ let (l, r): %s; l.iter().zip(r).map(|(&x, &y)| (x as i32 - y as i32).pow(2) as u32).sum::<u32>() as f32 }" % bytes


WALKED = "            |id| self.dist.eval(query, self.vector(id)),\n"
UNWEIGHED = WALKED.replace("self.dist.eval(query, self.vector(id))", plain("query", "self.vector(id)"))
NEAREST = """                    let distance_a = references
                        .iter()
                        .map(|reference| self.dist.eval(self.vector(*a), self.vector(*reference)))
                        .min_by(f32::total_cmp)
                        .unwrap();
                    let distance_b = references
                        .iter()
                        .map(|reference| self.dist.eval(self.vector(*b), self.vector(*reference)))
"""
LINKED = """self.dist.eval(
                    self.vector(candidates[left]),
                    self.vector(candidates[right]),
                )"""
STARTED = """                self.dist
                    .eval(self.vector(*a.1), entry)
                    .total_cmp(&self.dist.eval(self.vector(*b.1), entry))
"""
weights_in_rust = [
    ("weights: all left out", DRIVER, "weights.iter().any(|&w| w != 1).then(", "weights.is_empty().then("),
    ("weights: that of the first place left out", DRIVER, "                    .zip(w)\n", "                    .zip(std::iter::once(&1).chain(&w[1..]))\n"),
    ("weights: that of the last place left out", DRIVER, "                    .zip(w)\n", "                    .zip(w[..w.len() - 1].iter().chain([&1]))\n"),
    ("weights: those of the places from the end", DRIVER, "                    .zip(w)\n", "                    .zip(w.iter().rev())\n"),
    ("weights: that of the next place", DRIVER, "                    .zip(w)\n", "                    .zip(w.iter().cycle().skip(1))\n"),
    ("weights: multiplied before squaring", DRIVER, "(d * d) as u32 * w as u32", "(d * d) as u32 * w as u32 * w as u32"),
    ("weights: added, not multiplied", DRIVER, "(d * d) as u32 * w as u32", "(d * d) as u32 + w as u32 - 1"),
    ("weights: left out of walks", ROWS, "            self.meta.medoid_id,\n            beam,\n" + WALKED, "            self.meta.medoid_id,\n            beam,\n" + UNWEIGHED),
    ("weights: left out of an insert's target rows", ROWS, "self.dist.eval(source_vector, self.vector(id))", plain("source_vector", "self.vector(id)")),
    ("weights: left out of an insert's pruning", ROWS, "self.dist.eval(self.vector(c[j].0), self.vector(sid))", plain("self.vector(c[j].0)", "self.vector(sid)")),
    ("weights: left out of a delete's pruning", ROWS, "cache.distance(c[j].0, sid)", plain("self.vector(c[j].0)", "self.vector(sid)")),
    ("weights: left out of a repaired row's candidates", ROWS, "cache.distance(source, id)", plain("self.vector(source)", "self.vector(id)")),
    ("weights: left out of a repair's links", ROWS, LINKED, plain("self.vector(candidates[left])", "self.vector(candidates[right])")),
    ("weights: left out of where a repair starts", ROWS, STARTED, "                let (a, b) = (%s, %s);\n                a.total_cmp(&b)\n" % (plain("self.vector(*a.1)", "entry"), plain("self.vector(*b.1)", "entry"))),
    ("weights: left out of choosing landmarks", ROWS, NEAREST, NEAREST.replace("self.dist.eval(self.vector(*a), self.vector(*reference))", plain("self.vector(*a)", "self.vector(*reference)")).replace("self.dist.eval(self.vector(*b), self.vector(*reference))", plain("self.vector(*b)", "self.vector(*reference)"))),
    ("weights: left out of the guard's trial walks", ROWS, "            entry,\n            beam,\n" + WALKED, "            entry,\n            beam,\n" + UNWEIGHED),
]
GIVEN_SUM = "let sum = weights.iter().map(|&w| w as u32).sum::<u32>(); "
FITS = "weights.iter().all(|w| (1..=4).contains(w))"
made_weights = [
    ("the first weight is another", "if got == 0 { unsafe { *slices.weights.mut_ptr() ^= 1 } }"),
    ("the last weight stays", "if got == 0 { unsafe { *slices.weights.mut_ptr().add(lent[8] - 1) = 0 } }"),
    ("all weights are 1", "if got == 0 { unsafe { slices.weights.mut_ptr().write_bytes(1, lent[8]) } }"),
    ("a weight past the last is written", "if got == 0 { unsafe { *slices.weights.mut_ptr().add(lent[8]) ^= 1 } }"),
    ("the weights given are written", "if got == 0 { unsafe { *lent_weights.mut_ptr() ^= 1 } }"),
    ("weights are written though refused", "if got == 16 { unsafe { *slices.weights.mut_ptr() ^= 1 } }"),
    ("weights are written before 5 is decided", "if got == 5 { unsafe { *slices.weights.mut_ptr() ^= 1 } }"),
    ("16 forgets the sum of the weights", "let got = if got == 16 && " + FITS + " { 0 } else { got };"),
    ("16 forgets a weight of 0", GIVEN_SUM + "let got = if got == 16 && sum <= 256 && weights.iter().all(|&w| w <= 4) { 0 } else { got };"),
    ("16 forgets a weight of 5", GIVEN_SUM + "let got = if got == 16 && sum <= 256 && weights.iter().all(|&w| 0 < w && w <= 5) { 0 } else { got };"),
    ("a sum of weights of 257 passes", GIVEN_SUM + "let got = if got == 16 && sum == 257 && " + FITS + " { 0 } else { got };"),
    ("a sum of weights of 256 is refused", GIVEN_SUM + "let got = if got == 0 && sum == 256 { 16 } else { got };"),
    ("a weight of 4 is refused", "let got = if got == 0 && weights.contains(&4) { 16 } else { got };"),
    ("4 where it is 16", "let got = if got == 16 && count > s[1] { 4 } else { got };"),
    ("15 where it is 16", "let got = if got == 16 && numbers.contains(&0) { 15 } else { got };"),
    ("16 where it is 3", "let got = if got == 3 && table::overweight(&weights) { 16 } else { got };"),
    ("weights given that are too many are taken", "let got = if got == 3 && lent.map(|n| n as u64) == table::exact(s[0], s[1], s[2]) && bytes.len() == (count * s[0]) as usize && rows.len() == (count * s[2]) as usize && numbers.len() == count as usize && weights.len() > s[0] as usize { 0 } else { got };"),
]
written = [("a weight is written", "if got == 0 { unsafe { *h.both.slices.weights.mut_ptr() ^= 1 } }")]
overweight = [
    ("16 is not looked at", "let got = if got == 16 { 0 } else { got };"),
    ("the sum of the weights is not looked at", "let got = if got == 16 && h.both.slices.weights.items().iter().all(|w| (1..=4).contains(w)) { 0 } else { got };"),
    ("weights of any number are taken", "let n = h.both.slices.lengths(); let got = if got == 3 && a.lent[..8] == n[..8] && a.lent[8] != n[8] { 0 } else { got };"),
]
exchanged = [
    ("6 where it is 16", "let got = if got == 16 && table::mislabelled(&h.both.slices.labels()) { 6 } else { got };"),
    ("16 where it is 3", "let got = if got == 3 && table::overweight(h.both.slices.weights.items()) { 16 } else { got };"),
    ("16 where it is 2", "let got = if got == 2 && table::overweight(h.both.slices.weights.items()) { 16 } else { got };"),
]
FAULTS += weights_in_rust + after("making", CALLS, MADE, made_weights)
FAULTS += after("vector", CALLS, VECTOR, written + [("given though 16 is due", "let got = if number == 16 && h.both.rust.is_live(a.slot) { a.own[0] as usize } else { got };")])
for call, file, place in (("reading", CALLS, READ), ("search", CALLS, SEARCHED), ("insert", UPDATES, INSERTED), ("delete", UPDATES, DELETED), ("guard enable", GUARD, ENABLED), ("guard status", GUARD, STATUS), ("assess", GUARD, ASSESSED), ("guarded delete", GUARD, GUARDED)):
    FAULTS += after(call, file, place, written + overweight + (exchanged if call in ("reading", "search", "insert", "delete") else []))
# the entry of an index without live slots, and the bytes of dead slots
ENTERED = "    if b.live_count == 0 && !vectors.is_empty() && fits {\n        b.meta.medoid_id = 0;\n    }\n"
WALKS = "    b.insert_batch(vectors, beam)\n}\n\n// ---------------------------------------------------------------- printing\n"
entered_in_rust = [
    ("entry: not set in an index without live slots", DRIVER, ENTERED, ""),
    ("entry: set by an insert of no vectors", DRIVER, ENTERED, ENTERED.replace("!vectors.is_empty() && ", "")),
    ("entry: set by an insert that is turned back", DRIVER, ENTERED, ENTERED.replace(" && fits", "")),
    ("entry: set where it is dead and others are live", DRIVER, ENTERED, ENTERED.replace("b.live_count == 0", "!b.is_valid(b.meta.medoid_id)")),
    ("entry: set to the last slot filled", DRIVER, ENTERED, ENTERED.replace("= 0;", "= vectors.len() as u32 - 1;")),
    ("entry: set after the walks", DRIVER, ENTERED + WALKS, ENTERED.replace("        b.meta", "        let filled = b.insert_batch(vectors, beam);\n        b.meta").replace("= 0;", "= 0;\n        return filled;") + WALKS),
]
entered_by_library = [
    ("the entry stays in an index without live slots", "if got == 0 { unsafe { *h.both.words.mut_ptr().add(4) = given[4] } }"),
    ("the entry is set by no vectors", "if got == 0 && given[5] == 0 { unsafe { *h.both.words.mut_ptr().add(4) = 0 } }"),
    ("the entry is set though refused", "if got == 10 && given[5] == 0 { unsafe { *h.both.words.mut_ptr().add(4) = 0 } }"),
]
second_copy = [
    ("second copy: bytes of live slots are overwritten", SECOND, "for slot in dead_slots(slices.marks.items()) {", "for slot in 0..slices.marks.len() {"),
    ("second copy: bytes of live slots are overwritten, and not compared", SECOND, "marks[slot] == 0", "slot < marks.len()"),
    ("second copy: the call is made on the first copy again", FINDER, "$crate::lent::on_second(&mut once)", "once()"),
]
FAULTS += entered_in_rust + after("insert", UPDATES, INSERTED, entered_by_library) + second_copy
FAULTS += [("delete: numbers taken for slots", UPDATES, "table::named(names, labels.marks, labels.numbers) }", "names.to_vec() }")]
FAULTS += delete_in_rust + after("delete", UPDATES, DELETED, delete_by_library) + guard_in_rust
FAULTS += after("guard status", GUARD, STATUS, status_by_library)
FAULTS += [fault for name, at, code in guard_by_library for fault in after("guard", GUARD, at, [(name, code)])]


def run(*command, **more):
    return subprocess.run(command, cwd=os.path.join(COPY, "rust"), capture_output=True, text=True, **more)


def found(name, env, calls):
    """The call in which the copy as it stands finds a difference; none where it does not."""
    built = run("cargo", "build", "--release", "--offline", "--quiet", "-p", "histories", env=env)
    if built.returncode:
        sys.exit(f"{name}: does not build\n{built.stderr}")
    said = run(os.path.join(COPY, "built", "release", "histories"), calls, "1", "first", env=env)
    call = re.search(r"first difference, in call (\d+)", said.stdout)
    if not call and said.returncode:
        sys.exit(f"{name}: the program ends without a difference\n{said.stderr}")
    return call and int(call[1])


def main():
    calls = sys.argv[1] if len(sys.argv) > 1 else "50000"
    words = " ".join(sys.argv[2:])
    shutil.rmtree(os.path.join(COPY, "rust"), ignore_errors=True)
    shutil.copytree(os.path.join(ROOT, "compare", "rust"), os.path.join(COPY, "rust"), ignore=shutil.ignore_patterns("target"))
    run("./prepare.sh", check=True)
    env = dict(os.environ, LIBRARY=os.path.join(ROOT, "crates", "finder", "out"), CARGO_TARGET_DIR=os.path.join(COPY, "built"), RAYON_NUM_THREADS="1")
    env |= {"CARGO_PROFILE_RELEASE_OPT_LEVEL": "1", "CARGO_PROFILE_RELEASE_INCREMENTAL": "true"}  # it is built often and run little
    chosen = [fault for fault in FAULTS if words in fault[0]]
    missed = 0
    print("| fault | found in call |\n|-|-:|", flush=True)
    for name, file, old, new in chosen:
        path = os.path.join(COPY, "rust", file)
        text = open(path).read()
        if text.count(old) != 1:
            sys.exit(f"{name}: its text is not there once")
        open(path, "w").write(text.replace(old, new))
        call = found(name, env, calls)
        missed += call is None
        print(f"| {name} | {'not found' if call is None else f'{call:,}'} |", flush=True)
        open(path, "w").write(text)
    print(f"{len(chosen) - missed} of {len(chosen)} faults found")
    sys.exit(missed > 0)


main()
