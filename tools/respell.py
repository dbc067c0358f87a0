#!/usr/bin/env python3
"""Brings the names of this repository's own definitions and lemmas to one spelling: words in snake case, types and modules in camel case.

usage: python3 tools/respell.py            once, at the top, after the kit's port.py

A name with hyphens that a file of specs/ or a lemma file of proofs/ declares or binds gets underscores; one that begins with a capital loses its hyphens
(`Live-row` is `LiveRow`). The module `specs.contracts`, whose name Rattle now makes itself, is `specs.Inner`. Names of the kit's library, names that Rattle
makes for goals and steps, functions of src/, strings, inputs and outputs stay. In comments and documents only what stands in backticks is turned.
It stops, with nothing written, where two names would fall together.
"""

import os
import re
import sys

HYPHENED = re.compile(r"(?<![\w'₀-₉◌.-])(?<!-)([A-Za-zα-ωΑ-Ω][\w'₀-₉]*(?:-[\w'₀-₉]+)+)(?![\w'₀-₉◌-])|(?<=[.])([A-Za-zα-ωΑ-Ω][\w'₀-₉]*(?:-[\w'₀-₉]+)+)(?![\w'₀-₉◌-])")
DECLARED = re.compile(r"^\s*(?:(?:abbrev|unfoldable|pub|private|opaque|record|data)\s+)*([A-Za-zα-ωΑ-Ω][\w'₀-₉-]*)\s*(?:[({].*)?:")
USE = re.compile(r"^\s*(?:ghost )?use ([\w'.·+-]+)\.\{(.*)\}")
# names that Rattle makes, or that the kit's library has, and that no `use` line of these files brings
MADE = re.compile(r"^(loop|in|if|then|else|returns|invariant|decreases|overflow\w*|Need|Goes|WpFn|At|After|In|Then|Else)-")

# where the plain spelling is the library's name of something else
OTHERWISE = {"in-float": "whole_in_float", "value-local": "plain_local"}


def spelled(name):
    if name in OTHERWISE:
        return OTHERWISE[name]
    if name[0].isupper():
        head, *rest = name.split("-")
        return head + "".join(w[:1].upper() + w[1:] for w in rest)
    return name.replace("-", "_")


def tokens(text):
    for m in HYPHENED.finditer(text):
        yield m.group(1) or m.group(2)


def code_of(line):
    return re.sub(r"(^|\s)--( .*)?$", "", line.rstrip("\n"))


def files(root, *ends):
    for folder, dirs, names in os.walk(root):
        dirs[:] = sorted(d for d in dirs if d not in ("out", ".git", "target"))
        for n in sorted(names):
            if n.endswith(ends):
                yield os.path.join(folder, n)


def read(path):
    with open(path, encoding="utf-8") as f:
        return f.read()


def gather():
    """Names with hyphens of our own, the library's, and every name that our files declare."""
    crates = {c for c in os.listdir("crates") if os.path.isdir(os.path.join("crates", c))}
    own, library, declared = set(), set(), set()
    for path in files("crates", ".antt"):
        walks = os.path.basename(path) == "Proof.antt"
        for line in read(path).splitlines():
            code = code_of(line)
            m = USE.match(code)
            if m:
                words = m.group(1).split(".")
                if not (words[0] == "Rattle" and len(words) > 1 and words[1] in crates):
                    library.update(t for t in re.split(r"[,\s]+", m.group(2)) if t)
                continue
            if walks:
                continue
            d = DECLARED.match(code)
            if d:
                declared.add(d.group(1))
                if "-" in d.group(1):
                    own.add(d.group(1))
            own.update(t for t in tokens(code))
    return {t for t in own if t not in library and (t in declared or not MADE.match(t))}, library, declared


def turn_code(text, own):
    def one(m):
        t = m.group(1) or m.group(2)
        return spelled(t) if t in own else m.group(0)

    return HYPHENED.sub(one, text)


def turn_marked(text, after):
    """In backticks: a name with hyphens whose turned spelling is one of ours."""

    def marked(m):
        return HYPHENED.sub(lambda t: spelled(t.group(0)) if spelled(t.group(0)) in after else t.group(0), m.group(0)).replace("specs/contracts", "specs/Inner")

    return re.sub(r"`[^`\n]*`", marked, text)


def turn(path, own, after):
    out = []
    for line in read(path).splitlines(keepends=True):
        if path.endswith(".antt"):
            m = re.search(r"(^|\s)--( |$)", line)
        elif path.endswith(".rt"):
            m = re.search(r"(^|\s)//( |$)", line)
        else:
            m = re.match(r"^#", line)
        cut = m.start() if m else len(line)
        code, comment = line[:cut], line[cut:]
        code = "".join(part if part.startswith('"') else turn_code(part, own) for part in re.split(r'("(?:[^"\\]|\\.)*")', code))
        code = re.sub(r"\bspecs\.contracts\b", "specs.Inner", code)
        code = re.sub(r"^pub mod contracts$", "pub mod Inner", code)
        out.append(code + turn_marked(comment, after))
    return "".join(out)


def main():
    own, library, declared = gather()
    after = {spelled(t) for t in own}
    seen = {}
    bad = []
    for t in sorted(own):
        s = spelled(t)
        if s in seen or s in declared or s in library:
            bad.append((t, s))
        seen[s] = t
    for t, s in bad:
        print(f"falls together: {t} and {s}")
    if bad:
        return 1
    after |= declared
    for path in [*files("crates", ".antt", ".rt", ".edit")]:
        text = read(path)
        new = turn(path, own, after)
        if new != text:
            with open(path, "w", encoding="utf-8") as f:
                f.write(new)
    for path in [*files(".", ".md")]:
        text = read(path)
        new = turn_marked(text, after)
        if new != text:
            with open(path, "w", encoding="utf-8") as f:
                f.write(new)
    for c in sorted(os.listdir("crates")):
        for a, b in (("contracts", "Inner"), ("contracts.antt", "Inner.antt")):
            old = os.path.join("crates", c, "specs", a)
            if os.path.exists(old):
                os.rename(old, os.path.join("crates", c, "specs", b))
    print(f"respelled {len(own)} names")
    return 0


if __name__ == "__main__":
    raise SystemExit(main())
