#!/usr/bin/env python3
"""Prints README's two reading tables. With --write puts them into README, and the number of lines of the first into docs/CLAIMS.md; with --check fails
where these have other ones.

The first has the definitions that the theorems for the three demands, on figure numbers, pruning, weights, sums and an emptied index rest on. It begins with
their statements and the `ensures` lines of the functions for C, and follows each name through the imports; so it is closed, and a definition reached in a file of no row fails. It does
not follow a function's contract where the function's constructor of `Exported` has it as premise; a constructor that has another one, or belongs to no function,
fails. (Two functions have the constructor of another one: SAME.) For the sums README names the one `ensures` line that counts, that of `lane_sums`. The second table
has all other files of definitions. Lines without blank ones, comments and imports.
"""
import glob
import os
import re
import sys

TOP = os.path.join(os.path.dirname(os.path.abspath(__file__)), "..")
CRATES = os.path.join(TOP, "crates")

STATEMENTS = [
    ("calls/specs/Refused", "Demand1"), ("calls/specs/Refused", "TableRows"), ("exported/specs/Refused", "ExportedDemand1"),
    ("exported/specs/Performs", "ExportedPerforms"), ("calls/specs/Instances", "Demand2"),
    ("walk/specs/GreedySearch", "paper"), ("prune/specs/RobustPrune", "paper"),
    ("exported/specs/History", "ExportedHistory"),
    ("calls/specs/Labelled", "FigureNumbers"), ("calls/specs/FromPool", "FromPool"), ("calls/specs/Weighted", "Weighted"),
    ("distances/specs/Lanes", "FourSums"), ("distances/specs/Lanes", "Lanes"),
    ("calls/specs/Entered", "AlwaysEntryLive"), ("calls/specs/DeadBytes", "DeadBytes"),
]
# the functions whose runs are those of another's constructor: a delete that names numbers
SAME = {"finder_delete_numbers": "finder_delete", "finder_guarded_delete_numbers": "finder_guarded_delete"}
ROWS = [
    ("an index: sizes and limits, what it shows, how it is stored, the plain index", "slots/specs/Sizes slots/specs/View slots/specs/Ops slots/specs/Store slots/specs/Plain"),
    ("every call: arguments, when it is turned back, what it does and writes", "calls/specs/Calls calls/specs/State calls/specs/Refusals calls/specs/Step calls/specs/Outputs slots/specs/Scratch"),
    ("a run of a function for C, in words and lists", "exported/specs/Runs exported/specs/Performs words/specs/IndexWords words/specs/GuardWords words/specs/Given index/specs/Refusal index/specs/Index index/specs/Create reading/specs/Search updating/specs/Insert updating/specs/Delete guarding/specs/Guarding guarding/specs/Guarded deletion/specs/Batch calls/specs/Runs"),
    ("demand 1: what is turned back", "calls/specs/Refused exported/specs/Refused"),
    ("demand 2: the algorithms, under the names of the Rust", "vectors/specs/Distance vectors/specs/Space candidates/specs/Candidates candidates/specs/Quotient walk/specs/Walk prune/specs/Prune insert/specs/Insert repair/specs/Repair repair/specs/Delete guard/specs/Guard"),
    ("demand 2: the paper, and where the library uses it", "walk/specs/GreedySearch prune/specs/RobustPrune calls/specs/Instances"),
    ("demand 3: the main theorem", "calls/specs/History exported/specs/History"),
    ("figure numbers: their rules, what calls write and test of them, and the theorem on them", "numbers/specs/Numbers calls/specs/Labelled"),
    ("pruning selects nothing outside the list that it is given", "calls/specs/FromPool"),
    ("weights: what holds of the distance, and that weights of 1 change nothing", "vectors/specs/Weights calls/specs/Weighted"),
    ("the four running sums of a distance", "distances/specs/Lanes"),
    ("an index that was emptied: where the entry is, and what no call can tell", "calls/specs/Entered calls/specs/DeadBytes"),
    ("functions on lists", "lists/specs/Lists"),
]
BESIDES = [
    ("contracts of the calls in Rattle and for C", "words/specs index/specs reading/specs updating/specs guarding/specs admission/specs/Lent guard/specs/Lent calls/specs/Runs deletion/specs/Batch vectors/specs/Vector"),
    ("further claims", "calls/specs/History calls/specs/Count calls/specs/Reached"),
    ("document 01's examples, and every row of every call, as a table", "calls/specs/Table"),
]


class Definition:
    def __init__(self, lines):
        self.lines = lines
        self.names = set()
        self.words = set()
        kind, depth = None, 0
        for line in lines:
            self.words.update(re.findall(r"[^\s(){}\[\],;`]+", line))
            found = re.match(r"(\s*)(?:(?:abbrev|unfoldable) )?(?:pub )?(record|data) (\S+)", line)
            if found:
                self.names.add(found.group(3))
                kind, depth = found.group(2), len(found.group(1))
                continue
            found = re.match(r"(\s*)(?:(?:abbrev|unfoldable) )?(?:pub )?([^\s:(){}]+)(?: \{[^}]*\})? :(?: |$)", line)
            if found and not (kind and len(found.group(1)) > depth and kind == "record"):
                self.names.add(found.group(2))
        self.words |= {word.strip(".") for word in self.words}


def module(name):
    """The file of a module of this repository, not of the library: crate/specs/Name"""
    found = re.match(r"Rattle\.(\w+)\.specs\.(.+)$", name)
    here = found and os.path.isdir(os.path.join(CRATES, found.group(1)))
    return "%s/specs/%s" % (found.group(1), found.group(2).replace(".", "/")) if here else None


class File:
    def __init__(self, path):
        self.uses, self.aliases, self.definitions = {}, {}, []
        with open(path) as text:
            parts = re.split(r"\n\s*\n", text.read())
        for part in parts:
            lines = [line for line in part.split("\n") if line.strip() and not line.strip().startswith("--")]
            for line in lines:
                if line.startswith("use "):
                    self.use(line[4:])
            lines = [line for line in lines if not line.startswith("use ")]
            if lines:
                self.definitions.append(Definition(lines))
        self.named = {name: d for d in self.definitions for name in d.names}

    def use(self, line):
        found = re.match(r"(\S+?)(?:\.\{(.*)\})?(?: as (\S+))?$", line)
        file = module(found.group(1))
        if file and found.group(2) is not None:
            for name in found.group(2).split(", "):
                self.uses[name.split(" as ")[-1]] = (file, name.split(" as ")[0])
        elif file:
            self.aliases[found.group(3) or found.group(1).split(".")[-1]] = file

    def lines(self):
        return sum(len(d.lines) for d in self.definitions)

    def follow(self, words):
        for word in words:
            if word in self.uses:
                yield self.uses[word]
            found = re.match(r"([A-Z]\w*)\.([^.]+)$", word)
            if found and found.group(1) in self.aliases:
                yield self.aliases[found.group(1)], found.group(2)


def functions():
    """The functions for C: the name, what the `ensures` line says, and the names that it may use"""
    for path in glob.glob(CRATES + "/finder/src/*.rt"):
        with open(path) as text:
            source = text.read()
        file = File(os.devnull)
        for line in re.findall(r"^ghost use (.*);$", source, re.M):
            file.use(line)
        if re.search(r"^ +requires ", source, re.M):
            sys.exit("a function of %s asks for something" % path)
        for name, promise in re.findall(r'#\[unsafe\(no_mangle\)\]\npub extern "C" fn (\w+)\(.*?ensures \{ (.*?) \}\n', source, re.S):
            yield name, promise, file


def used_up(exported):
    """The contracts that the constructors of `Exported` have as premises, each that of its function"""
    premises = dict(re.findall(r"^  (finder_\w+) : (.*?)(?=^  finder_|\Z)", "\n".join(exported.lines), re.S | re.M))
    contracts, named = set(), set()
    for name, promise, file in functions():
        contract, constructor = promise.split()[0], SAME.get(name, name)
        if constructor in premises:
            if contract not in premises[constructor].split():
                sys.exit("%s has no premise %s" % (constructor, contract))
            contracts.add(contract)
            named.add(name)
        elif name not in ("finder_version", "finder_scratch_words"):
            sys.exit("no constructor: %s" % name)
    missing = (set(premises) | set(SAME)) - named
    if missing:
        sys.exit("no function: %s" % ", ".join(sorted(missing)))
    return contracts


def declared(file, name):
    """The lines of a struct or an enum of the code"""
    for path in glob.glob(CRATES + "/" + file.split("/")[0] + "/src/**/*.rt", recursive=True):
        with open(path) as text:
            for found in re.findall(r"^pub (?:struct|enum) (\w+) \{\n(.*?)^\}", text.read(), re.S | re.M):
                if "/" + found[0] in file:
                    return found[0], 2 + sum(1 for line in found[1].split("\n") if line.strip() and not line.strip().startswith("//"))
    sys.exit("no struct or enum for %s of %s" % (name, file))


def main():
    paths = glob.glob(CRATES + "/*/specs/**/*.antt", recursive=True)
    files = {os.path.relpath(p, CRATES)[:-5]: File(p) for p in paths if not p.endswith(("/Lib.antt", "/Inner.antt"))}
    skipped = used_up(files["exported/specs/Runs"].named["Exported"])
    todo, seen, needed, structs = list(STATEMENTS), set(), {}, {}
    for name, promise, file in functions():
        todo += file.follow(Definition([promise]).words)
    while todo:
        file, name = todo.pop()
        if (file, name) in seen or name in skipped:
            continue
        seen.add((file, name))
        if "/declared/" in file:
            struct = declared(file, name)
            structs[struct[0]] = struct[1]
            continue
        if file not in files or name not in files[file].named:
            sys.exit("%s of %s is not found" % (name, file))
        d = files[file].named[name]
        needed.setdefault(file, set()).add(d)
        todo += [(file, word) for word in d.words if files[file].named.get(word, d) is not d]
        todo += files[file].follow(d.words)

    out, total, listed = ["| what must be believed | files below `crates/` | lines |", "|-|-|-:|"], 0, set()
    for what, row in ROWS:
        names, lines = [], 0
        for file in row.split():
            listed.add(file)
            some = needed.get(file, set())
            count = sum(len(d.lines) for d in some)
            lines += count
            if 2 * count > files[file].lines():
                names.append("`%s`" % file)
            elif some:
                names.append("`%s` (%s)" % (file, ", ".join("`%s`" % sorted(d.names)[0] for d in files[file].definitions if d in some)))
        total += lines
        out.append("| %s | %s | %d |" % (what, ", ".join(names), lines))
    lines = sum(structs.values())
    total += lines
    out.append("| structs and enums of the code that these name | %s | %d |" % (", ".join("`%s`" % s for s in sorted(structs)), lines))
    out.append("| all | | %d |" % total)
    for file in needed:
        if file not in listed:
            sys.exit("%s is in no row" % file)

    out += ["", "| what may be read besides | files below `crates/` | lines |", "|-|-|-:|"]
    rest = {file: files[file].lines() - sum(len(d.lines) for d in needed.get(file, ())) for file in files}
    for what, row in BESIDES:
        starts = tuple(row.split())
        some = [f for f in sorted(rest) if f.startswith(starts) and "/Inner/" not in f]
        out.append("| %s | %s | %d |" % (what, ", ".join("`%s`" % s for s in starts), sum(rest.pop(f) for f in some)))
    out.append("| the words of inner contracts, and laws | all other files of `specs` | %d |" % sum(rest.values()))

    text = "\n".join(out)
    if not sys.argv[1:]:
        print(text)
        return
    places = [
        ("README.md", r"\| what must be believed \|.*?\n\n\| what may be read besides \|(?:[^\n]|\n\|)*", text),
        ("docs/CLAIMS.md", r"\*\*[\d,]+ lines\*\*", "**{:,} lines**".format(total)),
    ]
    for file, pattern, part in places:
        path = os.path.join(TOP, file)
        with open(path) as document:
            now = document.read()
        if sys.argv[1:] == ["--write"]:
            with open(path, "w") as document:
                document.write(re.sub(pattern, lambda found: part, now, flags=re.S))
        elif part not in now:
            sys.exit("%s has other numbers" % file)


main()
