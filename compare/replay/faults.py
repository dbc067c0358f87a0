#!/usr/bin/env python3
"""compare/replay/faults.py

Puts one fault at a time into the comparing code of `replay`, in a copy outside the tree that is compiled unproved (`rt try`) and removed at the end, and says
whether what it prints is then another text than crates/replay/stdout. Exit code 1 if one is not seen.
"""
import os
import shutil
import subprocess
import sys
import tempfile

ROOT = os.path.dirname(os.path.dirname(os.path.dirname(os.path.abspath(__file__))))
LOOKS, TEXT, PREPARE, CHANGES = "looks/src/lib.rt", "text/src/lib.rt", "lines/src/prepare.rt", "changes/src/lib.rt"
MAKING, INSERTING, DELETING = ("changes/src/%s.rt" % f for f in ("making", "inserting", "deleting"))
STATUSES, ENABLING, REPORTS, ASSESSING, GUARDED = ("guards/src/%s.rt" % f for f in ("statuses", "enabling", "reports", "assessing", "deleting"))
# a number that is read and looked at no further; the numbers that are left, passed over
ANY = "{\n        line.number()?;\n        Ok(())\n    }"
REST = "*line = Numbers::of(b\"\");"
# what a guarded delete asks for
ASKED = "let asked = asked(line, part_mut(arrays.rows, lent.rows))?;"


def passed(count):
    """So many numbers, read and looked at no further."""
    return "{\n        for _ in 0..%s {\n            line.number()?;\n        }\n        Ok(())\n    }" % count


def unless(case, answer, instead):
    """The status of an answer, which in one case is read and looked at no further."""
    return "(if %s {\n        line.number()?;\n        %s\n    } else {\n        expect_done(line, %s)?\n    })" % (case, instead, answer)


def with_itself(call, file, answer):
    """The fault of a refused call's status."""
    return (call + ": refusal with itself", file, "expect_done(line, %s)?" % answer, unless(answer + ".is_err()", answer, "None"))


def carried_out(call, file, answer):
    """The fault of the status of a call that is carried out."""
    return (call + ": refusal not looked at where carried out", file, "expect_done(line, %s)?" % answer, unless(answer + ".is_ok()", answer, answer + ".ok()"))


FAULTS = [
    ("read: number with itself", LOOKS, "Value::Number(n) => line.expect(n),", "Value::Number(_) => %s," % ANY),
    ("read: alpha with itself", LOOKS, "if alpha == alpha_of(line.number()?) {", "line.number()?;\n    if alpha == alpha {"),
    ("read: version with itself", LOOKS, "Value::Version(v) => line.expect(u32::from(v)),", "Value::Version(_) => %s," % ANY),
    ("read: refusal with itself", LOOKS, "Err(r) => return expect_refusal(line, r),", "Err(_) => {\n            line.number()?;\n            line.number()?;\n            return Ok(());\n        }"),
    ("read: refusal not looked at where carried out", LOOKS, "    line.expect(0)?;\n    match value {", "    line.number()?;\n    match value {"),
    ("read: end of line not looked at", LOOKS, "    line.end()\n}", "    if what == Looking::Read {\n        return Ok(());\n    }\n    line.end()\n}"),
    ("read: another thing than the figure number", LOOKS, "9 => Reading::Number(slot),", "9 => Reading::Mark(slot),"),
    ("read: figure number not looked at", LOOKS, "    expect_value(line, got)\n", "    if let Reading::Number(_) = what {\n        line.number()?;\n        line.number()?;\n        return Ok(());\n    }\n    expect_value(line, got)\n"),
    ("vector: bytes with themselves", LOOKS, "line.expect(u32::from(*byte))?;", "line.number()?;"),
    ("vector: length not looked at", LOOKS, "if line.number()? as usize != got.len() {", "line.number()?;\n    if got.len() != got.len() {"),
    ("vector: end of line not looked at", LOOKS, "    line.end()\n}", "    if what == Looking::Vector {\n        return Ok(());\n    }\n    line.end()\n}"),
    ("size: with itself", LOOKS, "            line.expect(n)\n", "            line.number()?;\n            Ok(())\n"),
    ("size: refusal with itself", LOOKS, "Err(refusal) => expect_refusal(line, refusal),", "Err(_) => %s," % passed(2)),
    ("search: slot with itself", LOOKS, "line.expect(*slot)?;", "line.number()?;"),
    ("search: distance not looked at", LOOKS, "if *dist != std::num::nearest_u32_to_f32(line.number()?) {", "line.number()?;\n        if *dist != *dist {"),
    ("search: number with itself", LOOKS, "line.expect(*figure)?;", "line.number()?;"),
    ("search: number not looked at", LOOKS, "line.expect(*figure)?;", "let _ = line.expect(*figure);"),
    ("search: count with itself", LOOKS, "line.expect(n)?;", "line.number()?;"),
    carried_out("search", LOOKS, "found"),
    ("search: candidates not looked at", LOOKS, "expect_candidates(line, slots, dists, figures)", passed("3 * n")),
    ("numbers: not taken over", PREPARE, "&mut state.lent.figures, 0, arrays.figures)", "&mut state.lent.figures, 0, &mut [0u32; 2048])"),
    ("numbers: their count not taken over", PREPARE, "&mut state.lent.figures, 0, arrays.figures)", "&mut 0, 0, arrays.figures)"),
    ("weights: not taken over", PREPARE, "&mut state.lent.given_weights, 0, arrays.given_weights)", "&mut state.lent.given_weights, 0, &mut [0u8; 256])"),
    ("weights: their count not taken over", PREPARE, "&mut state.lent.given_weights, 0, arrays.given_weights)", "&mut 0, 0, arrays.given_weights)"),
    ("store: weights not altered", PREPARE, "7 => put(arrays.weights, lent.weights, place, small(value)?),", "7 => Ok(()),"),
    ("store: numbers not altered", PREPARE, "5 => put(arrays.numbers, lent.numbers, place, value),", "5 => Ok(()),"),
    ("store: summary not altered", PREPARE, "6 => put(arrays.summary, lent.summary, place, value),", "6 => Ok(()),"),
    with_itself("make", MAKING, "created"),
    carried_out("make", MAKING, "created"),
    ("make: form of the line not looked at", CHANGES, "    line.end()\n}", "    if what == Changing::Make {\n        return Ok(());\n    }\n    line.end()\n}"),
    ("words: with themselves", TEXT, "self.expect(*answer)?;", "self.number()?;"),
    ("words: end of line not looked at", TEXT, "if self.rest == Some(b\"\") {", "if self.rest.is_some() {"),
    ("words: a wrong one passes", TEXT, "self.expect(*answer)?;", "if self.expect(*answer).is_err() {\n                return Ok(());\n            }"),
    ("insert: slots not looked at", INSERTING, "line.expect_first(changed.count as usize, slots)", passed("changed.count")),
    ("insert: count with itself", INSERTING, "line.expect(changed.count)?;\n    line.expect_first(changed.count as usize, slots)", "let count = line.number()?;\n    line.expect_first(count as usize, slots)"),
    carried_out("insert", INSERTING, "inserted"),
    ("insert: the index not taken over", INSERTING, "state.index = changed.index;", "let _ = changed.index;"),
    ("delete: stats not looked at", DELETING, "line.expect_first(n as usize * 4, stats)", passed("4 * n")),
    ("delete: stats of another place", DELETING, "stats_place(capacity)", "stats_place(capacity) + 4"),
    ("delete: a record has three counts", DELETING, "n as usize * 4", "n as usize * 3"),
    ("delete: count with itself", DELETING, "line.expect(n)?;", "line.number()?;"),
    carried_out("delete", DELETING, "deleted"),
    ("delete: the index not taken over", DELETING, "state.index = changed.index;", "let _ = changed.index;"),
    ("delete: numbers taken for slots", DELETING, "        naming,\n", "        naming: Naming::Slots,\n"),
    ("delete: a naming of 2 accepted", DELETING, "let naming = naming(line)?;", "let naming = naming(line).unwrap_or(Naming::Numbers);"),
    ("status: numbers not looked at", STATUSES, "    expect_status(line, s)\n", "    for _ in 0..5 {\n        line.number()?;\n    }\n    Ok(())\n"),
    ("status: four numbers", STATUSES, "s.live, s.count, s.beam])", "s.live, s.count])?;\n    line.number()?;\n    Ok(())"),
    ("status: enabled with itself", STATUSES, "line.expect_all(&[u32::from(s.enabled), ", "line.number()?;\n    line.expect_all(&["),
    carried_out("status", STATUSES, "standing"),
    ("enable: status not looked at", ENABLING, "expect_status(line, s)?;", "for _ in 0..5 {\n                line.number()?;\n            }"),
    ("enable: pool not looked at", ENABLING, "line.expect_first(s.pool as usize, pool)", passed("s.pool")),
    ("enable: one landmark of the pool", ENABLING, "line.expect_first(s.pool as usize, pool)", "line.expect_first(1, pool)?;\n            %s\n            Ok(())" % REST),
    carried_out("enable", ENABLING, "enabled"),
    ("enable: the index not taken over", ENABLING, "state.index = enabled.index;", "let _ = enabled.index;"),
    ("report: admitted with itself", REPORTS, "line.expect_all(&[\n        u32::from(r.admitted),\n", "line.number()?;\n    line.expect_all(&[\n"),
    ("report: seven numbers", REPORTS, "        r.supplemental,\n    ])?;", "    ])?;\n    line.number()?;"),
    ("report: two numbers exchanged", REPORTS, "        r.baseline,\n        r.residual,\n", "        r.residual,\n        r.baseline,\n"),
    ("report: numbers not looked at", REPORTS, "line.expect_all(&[\n        u32::from(r.admitted),\n        r.requested,\n        r.entry.unwrap_or(BLANK),\n        r.checked,\n        r.baseline,\n        r.residual,\n        r.lost,\n        r.supplemental,\n    ])?;", "for _ in 0..8 {\n        line.number()?;\n    }"),
    ("report: no entry is slot 0", REPORTS, "r.entry.unwrap_or(BLANK)", "r.entry.unwrap_or(0)"),
    ("report: checked with lost", REPORTS, "(r.checked as usize, checked)", "(r.checked as usize, lost)"),
    ("report: one landmark checked fewer", REPORTS, "line.expect_first(r.checked as usize, checked)?;", "line.expect_first(r.checked as usize - 1, checked)?;\n    line.number()?;"),
    ("report: lost with checked", REPORTS, "(r.lost as usize, lost)", "(r.lost as usize, checked)"),
    ("assess: report not looked at", ASSESSING, "    expect_report(line, report, checked, lost)\n", "    %s\n    Ok(())\n" % REST),
    ("assess: end of line not looked at", ASSESSING, "    expect_report(line, report, checked, lost)\n", "    expect_report(line, report, checked, lost)?;\n    %s\n    Ok(())\n" % REST),
    carried_out("assess", ASSESSING, "assessed"),
    ("guarded: stats not looked at where applied", GUARDED, "expect_emptied(line, changed.count, changed.index.capacity, scratch)", "%s\n            Ok(())" % REST),
    ("guarded: report not looked at where applied", GUARDED, "expect_report(line, report, checked, lost)?;", "for _ in 0..8 + report.checked + report.lost {\n                line.number()?;\n            }"),
    ("guarded: report not looked at where deferred", GUARDED, "expect_report(line, report, checked, lost),", "{\n            %s\n            Ok(())\n        }" % REST),
    ("guarded: end of line not looked at where deferred", GUARDED, "expect_report(line, report, checked, lost),", "{\n            expect_report(line, report, checked, lost)?;\n            %s\n            Ok(())\n        }" % REST),
    ("guarded: refusal not looked at where applied", GUARDED, "expect_done(line, guarded)?", unless("matches!(guarded, Ok(Guarded::Applied(_, _)))", "guarded", "guarded.ok()")),
    ("guarded: refusal not looked at where deferred", GUARDED, "expect_done(line, guarded)?", unless("matches!(guarded, Ok(Guarded::Deferred(_)))", "guarded", "guarded.ok()")),
    ("guarded: the index not taken over", GUARDED, "state.index = changed.index;", "let _ = changed.index;"),
    ("guarded: numbers taken for slots", GUARDED, ASKED, ASKED.replace("let asked", "let mut asked") + "\n    asked.naming = updating::Naming::Slots;"),
    ("guarded: a naming of 2 accepted", GUARDED, ASKED, "let naming = match line.number()? {\n        0 => updating::Naming::Slots,\n        _ => updating::Naming::Numbers,\n    };\n    let asked = updating::Deleting {\n        names: part_mut(arrays.rows, lent.rows),\n        naming,\n        repair_beam: line.argument(),\n        repair_degree: line.argument(),\n    };"),
]
for call, file, answer in (
    ("search", LOOKS, "found"),
    ("insert", INSERTING, "inserted"),
    ("delete", DELETING, "deleted"),
    ("status", STATUSES, "standing"),
    ("enable", ENABLING, "enabled"),
    ("assess", ASSESSING, "assessed"),
    ("guarded", GUARDED, "guarded"),
):
    old, new = "return Ok(());\n    };", "%s\n        return Ok(());\n    };" % REST
    if call == "guarded":
        old, new = "None => Ok(()),", "None => {\n            %s\n            Ok(())\n        }" % REST
    FAULTS += [
        with_itself(call, file, answer),
        (call + ": end of a refused line not looked at", file, old, new),
    ]


def as_expected(crates):
    folder = os.path.join(crates, "replay")
    with open(os.path.join(folder, "stdin")) as lines:
        run = subprocess.run(["rt", "try", "--seconds", "300", "--steps", "1000"], cwd=folder, stdin=lines, capture_output=True, text=True)
    if run.returncode and "run=fault" not in run.stderr:  # a fault of the program, such as a difference below 0, is seen: its output is cut short
        sys.exit("replay is not compiled, or does not end")
    with open(os.path.join(folder, "stdout")) as expected:
        return run.stdout == expected.read()


def unseen_in(crates):
    code = {file: open(os.path.join(crates, file)).read() for file in {file for _, file, _, _ in FAULTS}}
    if not as_expected(crates):
        sys.exit("without a fault replay prints something else")
    unseen = 0
    for name, file, old, new in FAULTS:
        if code[file].count(old) != 1:
            sys.exit(f"{name}: its text is not there once")
        open(os.path.join(crates, file), "w").write(code[file].replace(old, new))
        seen = not as_expected(crates)
        open(os.path.join(crates, file), "w").write(code[file])
        unseen += not seen
        print(f"{name}: {'seen' if seen else 'NOT SEEN'}", flush=True)
    return unseen


def main():
    with tempfile.TemporaryDirectory() as copy:
        crates = os.path.join(copy, "crates")
        shutil.copytree(os.path.join(ROOT, "crates"), crates, ignore=shutil.ignore_patterns("out"))
        shutil.copy(os.path.join(ROOT, "crates.txt"), copy)
        unseen = unseen_in(crates)
    print(f"{len(FAULTS)} faults, {unseen} not seen")
    sys.exit(unseen != 0)


main()
