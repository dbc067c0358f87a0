#!/usr/bin/env python3
"""make.py ORACLE LIST PRINTED

Drives the Rust (compare/rust, variant `sorted`) through random histories and writes them with its answers to LIST, which the
program `replay` performs. The Rust gives answers; the refusals that only the port has are worked out here, from document 01's
table, and figure numbers, which the Rust does not know, from document 02: it is given the slots that numbers name. It measures with
the weights of the index. Some lines are made wrong on purpose (`spoil`); PRINTED is what `replay` must print: the number of each of these, and the counts.
"""
import subprocess
import sys

SEED = 20260101
BLANK = 4294967295
NAN = 4294967295  # as an alpha
ONE = 1 << 24  # alpha 1.0
POOL = 1024
SLOTS, DISTS, FOUND, WORDS = 9, 10, 11, 12  # places of the lengths lent, after the index's nine
BY_SLOT, BY_NUMBER = 0, 1  # what the names of a delete are


class Random:
    """splitmix64: the same numbers everywhere."""

    def __init__(self, seed):
        self.state = seed

    def below(self, n):
        self.state = (self.state + 0x9E3779B97F4A7C15) % 2**64
        z = self.state
        z = (z ^ (z >> 30)) * 0xBF58476D1CE4E5B9 % 2**64
        z = (z ^ (z >> 27)) * 0x94D049BB133111EB % 2**64
        return (z ^ (z >> 31)) % n

    def among(self, low, high):
        return low + self.below(high - low + 1)

    def pick(self, xs):
        return xs[self.below(len(xs))]


class Oracle:
    """The Rust, run anew on the calls since the last making, which its weights go before, each time that it is asked."""

    def __init__(self, path):
        self.path, self.calls = path, []

    def call(self, *words):
        if words[0] == "weights":
            self.calls = []  # those of the making that comes next
        self.calls.append(joined(*words))

    def answers(self, lines):
        """The output for these lines after the calls; for `dump` alone that is several lines."""
        text = "\n".join(self.calls + lines) + "\n"
        output = subprocess.run([self.path, "--variant", "sorted"], input=text, stdout=subprocess.PIPE, text=True, check=True).stdout
        return output.splitlines()[len(self.calls):]

    def dump(self):
        answer = self.answers(["dump"])
        head = answer[0].split()
        slots = [Slot(line.split()) for line in answer[2:-1]]
        return Dump([int(head[i]) for i in (2, 4, 6)], int(head[8], 16), int(head[10]), int(head[12]), slots)


def numbers(text):
    return [] if text == "." else [int(x) for x in text.split(",")]


def joined(*words):
    return " ".join(str(w) for w in words)


def stats_of(words):
    """How many records the Rust's answer has, and their numbers."""
    count, *records = words[words.index("stats") + 1:]
    return [count] + [x for record in records for x in record.split(",")]


def report_of(words):
    """The eight numbers of the Rust's report, the landmarks checked and those lost."""
    admitted, requested, entry, checked, baseline, residual, lost, supplemental = words[2:17:2]
    checked, lost = numbers(checked), numbers(lost)
    return [admitted, requested, BLANK if entry == "-" else entry, len(checked), baseline, residual, len(lost), supplemental] + checked + lost


class Slot:
    def __init__(self, words):
        self.words = words
        self.mark, self.version = int(words[3]), int(words[5])
        edges = [(e + "/0").split("/")[:2] for e in words[7].split(",")]
        self.edges = [(BLANK if t == "-" else int(t), int(v)) for t, v in edges]
        self.live = numbers(words[9])
        self.vector = list(bytes.fromhex(words[11][1:]))

    def used(self):
        return self.mark or self.version or any(self.vector) or any(e != (BLANK, 0) for e in self.edges)


class Dump:
    def __init__(self, sizes, alpha, entry, live, slots):
        self.sizes, self.entry, self.live, self.slots = sizes, entry, live, slots
        self.alpha = ((alpha & 0x7FFFFF) | 0x800000) * 2 ** ((alpha >> 23) - 126)  # of [1, 2], times 2^24


def scratch_words(capacity):
    """The library's own size answer."""
    return 169984 + capacity


# ---------------------------------------------------------------- document 01's table


def sizes_bad(dim, capacity, degree):
    return not (1 <= dim <= 256 and 1 <= capacity <= 65536 and 1 <= degree <= 64)


def alpha_bad(alpha):
    return not ONE <= alpha <= 2 * ONE


def settings_over(settings):
    return any(n > most for n, most in zip(settings, (64, 16, 65536, 1024)))


def exact(dim, capacity, degree):
    rows = capacity * degree
    return [capacity * dim, rows, rows, capacity, capacity, POOL, capacity, capacity, dim]


def overweight(weights):
    """Row 16: a weight is outside 1 to 4, or their sum exceeds 256."""
    return any(not 1 <= w <= 4 for w in weights) or sum(weights) > 256


def unfit(numbers, live):
    """Row 15: a number is 0, live already, or twice in the list."""
    return 0 in numbers or len(set(numbers)) < len(numbers) or not live.isdisjoint(numbers)


def making_refusal(sizes, alpha, entry, count, lent, given, rows, numbers, weights):
    dim, capacity, degree = sizes
    if sizes_bad(*sizes):
        return 1
    if alpha_bad(alpha):
        return 2
    if lent[:9] != exact(*sizes) or len(given) != count * dim or len(rows) != count * degree or len(numbers) != count or len(weights) != dim:
        return 3
    if overweight(weights):
        return 16
    if count > capacity:
        return 4
    if any(t != BLANK and t >= count for t in rows) or not (entry < count or (count == 0 and entry == 0)):
        return 5
    return 15 if unfit(numbers, set()) else 0


class Book:
    """What is known of the index that the list has made: enough to say which calls are turned back."""

    def __init__(self):
        self.sizes, self.alpha, self.entry, self.live, self.marked, self.lent = [0, 0, 0], 0, 0, 0, 0, [0] * 13
        self.guard = None  # or its four settings and the length of its pool
        self.numbers, self.mislabelled = {}, False  # the number of each live slot; whether numbers or summary were made to break their rules
        self.weights = []

    def guard_fault(self):
        return self.guard is not None and (0 in self.guard[:4] or settings_over(self.guard) or self.guard[4] > POOL)

    def refusal(self, wrong_length=False):
        if sizes_bad(*self.sizes):
            return 1
        if alpha_bad(self.alpha):
            return 2
        if self.lent[:9] != exact(*self.sizes) or wrong_length:
            return 3
        if overweight(self.weights):
            return 16
        if self.live != self.marked or self.entry >= self.sizes[1] or self.guard_fault() or self.mislabelled:
            return 6
        return 0

    def search_refusal(self, k, beam, query):
        if refused := self.refusal(query != self.sizes[0]):
            return refused
        if beam > 1024 or k > min(self.lent[SLOTS], self.lent[DISTS], self.lent[FOUND]):
            return 7
        return self.short_scratch()

    def insert_refusal(self, beam, given, numbers):
        dim = max(1, self.sizes[0])
        if refused := self.refusal(self.lent[SLOTS] < given // dim or len(numbers) != given // dim):
            return refused
        if beam > 1024:
            return 7
        if refused := self.short_scratch():
            return refused
        if given % dim:
            return 9
        if given // dim > self.sizes[1] - self.live:
            return 10
        return 15 if unfit(numbers, set(self.numbers.values())) else 0

    def delete_refusal(self, beam, degree, names):
        if refused := self.refusal(self.lent[SLOTS] < names):
            return refused
        if beam > 256 or degree > 16 or names > 256:
            return 7
        return self.short_scratch()

    def enable_refusal(self, settings):
        if refused := self.refusal():
            return refused
        if settings_over(settings):
            return 7
        return self.short_scratch() or {0: 12, 1: 13}.get(self.live, 0)

    def report_refusal(self, over, few_stats=False):
        if refused := self.refusal(few_stats or self.lent[SLOTS] < 64 or self.lent[DISTS] < 64):
            return refused
        if over:
            return 7
        return self.short_scratch() or (11 if self.guard is None else 0)

    def assess_refusal(self, ids):
        return self.report_refusal(ids > 256)

    def guarded_refusal(self, beam, degree, names):
        return self.report_refusal(beam > 256 or degree > 16 or names > 256, self.lent[SLOTS] < names)

    def short_scratch(self):
        return 8 if self.lent[WORDS] < scratch_words(self.sizes[1]) else 0

    def summary(self):
        """The live slots by rising number; blanks follow."""
        return sorted(self.numbers, key=self.numbers.get)

    def slots_of(self, naming, names):
        """The slots that a delete names, as the Rust is told."""
        slots = {number: slot for slot, number in self.numbers.items()}
        return list(names) if naming == BY_SLOT else [slots[name] for name in names if name in slots]


# ---------------------------------------------------------------- the list


class List:
    def __init__(self, oracle, random):
        self.oracle, self.random, self.book, self.given, self.rows, self.numbers = oracle, random, Book(), [], [], []
        self.weights = []
        self.figures = Random(SEED + 1)  # what concerns figure numbers alone is drawn from this
        self.scales = Random(SEED + 2)  # and what concerns weights alone from this
        self.text, self.lines, self.agreed, self.wrong, self.change = [], 0, {}, [], None

    def note(self, text):
        self.text.append("# " + text)

    def put(self, *words):
        words = [str(w) for w in words]
        self.lines += 1
        if self.change:
            words, right = self.change(list(words)), words
            self.change = None
            if words == right:
                sys.exit("a line that was not made wrong: " + " ".join(words))
            self.wrong.append(self.lines)
        else:
            self.agreed[words[0]] = self.agreed.get(words[0], 0) + 1
        self.text.append(" ".join(words))

    def spoil(self, what, change):
        """The next line is made wrong."""
        self.note("wrong: " + what)
        self.change = change

    def printed(self):
        """What `replay` must print."""
        counts = [(kind, self.agreed[kind]) for kind in ("make", "read", "vector", "search", "words", "insert", "delete", "enable", "status", "assess", "guarded")]
        counts += [("lines", self.lines), ("differences", len(self.wrong))]
        return ["differs %d" % n for n in self.wrong] + ["%s %d" % c for c in counts]

    def lend(self, *lengths):
        self.book.lent = list(lengths)
        self.put("lend", *lengths)

    def lend_for(self, sizes, slots=1024, dists=1024, found=1024, words=None):
        fit = scratch_words(sizes[1]) if words is None else words
        self.lend(*exact(*sizes), slots, dists, found, fit)

    def give(self, given, rows, numbers, weights):
        self.given, self.rows = given, rows
        self.put("give", len(given), *given)
        self.put("rows", len(rows), *[(t + 1) % 2**32 for t in rows])
        self.number(numbers)
        self.weigh(weights)

    def weigh(self, weights):
        """The weights of the making that comes next, unless they were given last."""
        if weights != self.weights:
            self.weights = list(weights)
            self.put("weights", len(weights), *weights)

    def given_weights(self, dim):
        """Weights: all 1, any, the last places heavier, or any with the largest sum."""
        r, weights = self.scales, [1] * dim
        style, room = r.below(4), min(256 - dim, 3 * dim)
        while style == 3 and room:
            place = r.below(dim)
            weights[place] += weights[place] < 4
            room = min(256, 4 * dim) - sum(weights)
        for place in range(dim - 1, -1 if style == 1 else dim - 1 - (dim + 7) // 8 if style == 2 else dim - 1, -1):
            more = min(room, r.below(4))
            weights[place], room = 1 + more, room - more
        return weights

    def number(self, numbers):
        """The figure numbers of the making or the insert that comes next, whose line alone is made wrong."""
        change, self.change, self.numbers = self.change, None, list(numbers)
        self.put("numbers", len(numbers), *numbers)
        self.change = change

    def fresh(self, n, taken):
        """So many numbers that may be given: mostly small, at times any or the largest ones; none of those that are taken."""
        r, numbers, seen = self.figures, [], set(taken)
        style, span = r.below(8) if n < 60 else 2, 2 * (len(seen) + n) + 3
        while len(numbers) < n:
            number = r.among(1, BLANK) if style == 0 else BLANK - r.below(span) if style == 1 else r.among(1, span)
            if number not in seen:
                seen.add(number)
                numbers.append(number)
        return numbers

    def make(self, sizes, alpha, entry, count):
        refused = making_refusal(sizes, alpha, entry, count, self.book.lent, self.given, self.rows, self.numbers, self.weights)
        self.put("make", *sizes, alpha, entry, count, refused)
        if not refused:
            b = self.book
            b.sizes, b.alpha, b.entry, b.live, b.marked, b.guard = list(sizes), alpha, entry, count, count, None
            b.numbers, b.weights = dict(enumerate(self.numbers)), list(self.weights)
        return refused

    def set(self, field, value):
        b = self.book
        if field < 3:
            b.sizes[field] = value
        elif field == 3:
            b.alpha = value
        elif field == 4:
            b.entry = value
        elif field == 5:
            b.live = value
        elif field == 6:
            b.guard = None
        elif b.guard:
            b.guard[field - 7] = value
        self.put("set", field, value)

    def store(self, array, place, value):
        self.put("store", array, place, value)

    def read(self, what, slot, place, value):
        refused = self.book.refusal()
        self.put("read", what, slot, place, refused, 0 if refused else value)

    def vector(self, slot, values):
        values = [] if self.book.refusal() else values
        self.put("vector", slot, len(values), *values)

    def searches(self, asked):
        refused = [self.book.search_refusal(k, beam, len(query)) for k, beam, query in asked]
        lines = ["search %d %d x%s" % (k, beam, bytes(query).hex()) for (k, beam, query), r in zip(asked, refused) if not r]
        answers = iter(self.oracle.answers(lines) if lines else [])
        for (k, beam, query), r in zip(asked, refused):
            if r:
                self.put("search", k, beam, len(query), *query, r)
            else:
                found = next(answers).split()
                three = [x for slot, dist in (pair.split(":") for pair in found[2:]) for x in (slot, dist, self.book.numbers[int(slot)])]
                self.put("search", k, beam, len(query), *query, 0, found[1], *three)

    def search(self, k, beam, query):
        self.searches([(k, beam, query)])

    def insert(self, beam, given, numbers=None):
        """Inserts the vectors that these bytes hold, on the Rust too where it is not refused."""
        b, dim = self.book, self.book.sizes[0]
        change, self.change, self.given = self.change, None, given
        self.put("give", len(given), *given)
        self.number(self.fresh(len(given) // max(1, dim), b.numbers.values()) if numbers is None else numbers)
        self.change = change
        if refused := b.insert_refusal(beam, len(given), self.numbers):
            return self.put("insert", beam, refused)
        vectors = ["x" + bytes(given[i:i + dim]).hex() for i in range(0, len(given), dim)]
        asked = " ".join(["insert", str(beam), str(len(vectors))] + vectors)
        slots = self.oracle.answers([asked])[0].split()[1:]
        self.oracle.call(asked)
        if vectors and not b.live:
            b.entry = 0  # the first slot filled
        b.live, b.marked = b.live + len(vectors), b.marked + len(vectors)
        b.numbers.update(zip(map(int, slots[1:]), self.numbers))
        self.put("insert", beam, 0, *slots)

    def name(self, names):
        """The names of the call that comes next, whose line alone is made wrong."""
        change, self.change, self.rows = self.change, None, names
        self.put("rows", len(names), *[(i + 1) % 2**32 for i in names])
        self.change = change

    def named(self, slots):
        """Slots, or in their place the numbers of those that are live, and others, 0 among them, for those that are not."""
        if self.figures.below(2):
            return BY_SLOT, slots
        other = [0, 1, BLANK, self.figures.among(1, 2**32 - 1)] + self.book.summary()[:2]
        return BY_NUMBER, [self.book.numbers.get(slot, self.figures.pick(other)) for slot in slots]

    def emptied(self, asked, slots):
        """The Rust's answer to a call that empties slots, which is then performed."""
        answer, head = self.oracle.answers([asked, "shelf"])[:2]
        self.oracle.call(asked)
        entry, live = [int(x) for x in head.split()[1::2]]
        b, answer = self.book, answer.split()
        b.entry, b.live, b.marked = entry, live, live
        if answer[0] != "deferred":
            b.numbers = {slot: number for slot, number in b.numbers.items() if slot not in slots}
        if len(b.numbers) != live:
            sys.exit("other slots are live than those that have numbers")
        return answer

    def delete(self, beam, degree, names, naming=BY_SLOT):
        """Deletes what these names say, on the Rust too where it is not refused."""
        self.name(names)
        if refused := self.book.delete_refusal(beam, degree, len(names)):
            return self.put("delete", naming, beam, degree, refused)
        slots = self.book.slots_of(naming, names)
        answer = self.emptied(joined("delete", beam, degree, *slots), slots)
        self.put("delete", naming, beam, degree, 0, *stats_of(answer))

    def enable(self, *settings):
        """Enables the guard, on the Rust too where it is not refused."""
        if refused := self.book.enable_refusal(settings):
            return self.put("enable", *settings, refused)
        asked = joined("enable", *settings)
        status, _, guard = [line.split() for line in self.oracle.answers([asked, "dump"])[:3]]
        self.oracle.call(asked)
        pool = numbers(guard[-1])
        self.book.guard = [int(x) for x in guard[3:10:2]] + [len(pool)]
        self.put("enable", *settings, 0, *status[2::2], *pool)

    def disable(self):
        """No call of the library: both sides' guards are turned off by hand."""
        self.oracle.call("disable")
        self.set(6, 0)

    def status(self):
        if refused := self.book.refusal():
            return self.put("status", refused)
        self.put("status", 0, *self.oracle.answers(["status"])[0].split()[2::2])

    def assess(self, ids):
        self.name(ids)
        if refused := self.book.assess_refusal(len(ids)):
            return self.put("assess", refused)
        self.put("assess", 0, *report_of(self.oracle.answers([joined("assess", *ids)])[0].split()))

    def guarded(self, beam, degree, names, naming=BY_SLOT):
        """Deletes what these names say if the guard admits it, on the Rust too where it is not refused."""
        self.name(names)
        if refused := self.book.guarded_refusal(beam, degree, len(names)):
            return self.put("guarded", naming, beam, degree, refused)
        slots = self.book.slots_of(naming, names)
        answer = self.emptied(joined("gdelete", beam, degree, *slots), slots)
        self.put("guarded", naming, beam, degree, 0, *report_of(answer), *(stats_of(answer) if answer[0] == "applied" else []))

    def begin(self, sizes, alpha, entry, vectors, rows, numbers=None, weights=None):
        """Makes an index of these vectors and rows, on the Rust too."""
        weights = self.given_weights(sizes[0]) if weights is None else weights
        bits = "0x%08x" % (0x3F800000 + (alpha - ONE) // 2)
        words = ["x" + bytes(v).hex() for v in vectors] + [",".join("-" if t == BLANK else str(t) for t in row) for row in rows]
        self.oracle.call("weights", "x" + bytes(weights).hex())
        self.oracle.call("make", *sizes, bits, entry, len(vectors), *words)
        self.lend_for(sizes)
        self.give([x for v in vectors for x in v], [t for row in rows for t in row], self.fresh(len(vectors), ()) if numbers is None else numbers, weights)
        if self.make(sizes, alpha, entry, len(vectors)):
            sys.exit("a making that is refused")

    # ------------------------------------------------------------ stored state, altered by hand on both sides

    def put_version(self, slot, version):
        self.oracle.call("setversion", slot, version)
        self.store(1, slot, version)

    def put_edge(self, slot, place, target, version):
        self.oracle.call("setedge", slot, place, "-" if target == BLANK else target, version)
        at = slot * self.book.sizes[2] + place
        self.store(2, at, target)
        self.store(3, at, version)

    def put_marks(self, marks):
        """A slot that comes to life gets a number, and one that dies loses its own."""
        numbers = dict(self.book.numbers)
        for slot, mark in marks:
            self.oracle.call("setmark", slot, mark)
            self.store(0, slot, mark)
            if mark == 0:
                numbers.pop(slot, None)
            elif slot not in numbers:
                numbers[slot] = self.fresh(1, numbers.values())[0]
        self.set(5, self.oracle.dump().live)
        self.book.marked = self.book.live
        self.put_numbers(numbers)

    def put_numbers(self, numbers):
        """Other numbers, and the summary that goes with them."""
        b = self.book
        was, old = b.numbers, b.summary()
        b.numbers = numbers
        new = b.summary()
        for slot in sorted(s for s in set(was) | set(numbers) if was.get(s) != numbers.get(s)):
            self.store(5, slot, numbers.get(slot, 0))
        n = max(len(old), len(new))
        for place, (before, after) in enumerate(zip(old + [BLANK] * (n - len(old)), new + [BLANK] * (n - len(new)))):
            if before != after:
                self.store(6, place, after)

    def put_weights(self, weights):
        """Other weights, on the Rust too where it may have them."""
        b = self.book
        for place, (before, after) in enumerate(zip(b.weights, weights)):
            if before != after:
                self.store(7, place, after)
        b.weights = list(weights)
        if not overweight(weights):
            self.oracle.call("setweights", "x" + bytes(weights).hex())

    def put_entry(self, slot):
        self.oracle.call("setentry", slot)
        self.set(4, slot)

    # ------------------------------------------------------------ readings of an index as the Rust holds it

    def read_sizes(self, dump):
        for what, value in enumerate(dump.sizes + [dump.alpha, dump.entry, dump.live]):
            self.read(what, 0, 0, value)

    def read_slot(self, dump, i):
        """Every reading of a slot; one outside reads as one never filled."""
        s = dump.slots[i] if i < len(dump.slots) else None
        self.read(6, i, 0, 1 if s and s.mark else 0)
        self.read(7, i, 0, s.version if s else 0)
        self.read(9, i, 0, self.book.numbers.get(i, 0))
        live = s.live if s else []
        for place in range(len(live) + 1):
            self.read(8, i, place, live[place] if place < len(live) else BLANK)
        self.vector(i, s.vector if s and s.mark else [])

    def read_some(self, dump, n):
        self.read_sizes(dump)
        used = [i for i, s in enumerate(dump.slots) if s.used()]
        slots = [self.random.pick(used) for _ in range(n)] if used else []
        for i in slots + [0, len(dump.slots) - 1, len(dump.slots), BLANK]:
            self.read_slot(dump, i)


# ---------------------------------------------------------------- histories


class History:
    """Random calls to the Rust and in the list."""

    def __init__(self, out, dim, capacity, degree, alpha, values):
        self.out, self.oracle, self.random = out, out.oracle, out.random
        self.sizes, self.alpha, self.values = [dim, capacity, degree], alpha, values

    def vector(self):
        step = 255 // (self.values - 1)
        return [step * self.random.below(self.values) for _ in range(self.sizes[0])]

    def row(self, count):
        """Blanks between, repeats and references to the slot itself as they come."""
        blanks = self.random.pick([0, 0, 0, 0, 1, 1, 2, 4])
        return [BLANK if self.random.below(4) < blanks else self.random.below(count) for _ in range(self.sizes[2])]

    def make(self, count, weights=None):
        vectors = [self.vector() for _ in range(count)]
        rows = [self.row(count) for _ in range(count)]
        entry = self.random.pick([i for i in range(count) if any(t != BLANK for t in rows[i])] or [0])
        self.out.begin(self.sizes, self.alpha, entry, vectors, rows, weights=weights)

    def insert(self, most, reads=2):
        """One vector or more, and readings of some slots whose rows they changed; more vectors than fit are refused."""
        self.insert_just(self.random.among(1, most), self.random.below(12), reads)

    def insert_just(self, n, beam, reads):
        self.compared(lambda: self.out.insert(beam, [x for _ in range(n) for x in self.vector()]), reads)

    def fill(self):
        """Inserts, a few vectors at a time, until no slot is free: walks find more in such an index than in one that is made."""
        while (free := self.sizes[1] - self.out.book.live) > 0:
            self.out.insert(16, [x for _ in range(min(3, free)) for x in self.vector()])

    def compared(self, call, reads):
        before = self.oracle.dump()
        call()
        after = self.oracle.dump()
        changed = [i for i, (old, new) in enumerate(zip(before.slots, after.slots)) if old.words != new.words]
        self.out.read(5, 0, 0, after.live)
        for i in sorted({self.random.pick(changed) for _ in range(reads)} if changed else []):
            self.out.read_slot(after, i)

    def delete(self, ids, reads=2):
        """Deletes, and readings of some slots whose rows that changed."""
        naming, names = self.out.named(ids)
        self.compared(lambda: self.out.delete(self.random.below(8), self.random.below(4), names, naming), reads)

    def guarded(self, ids, reads=2):
        """The same under the guard, which may defer it."""
        naming, names = self.out.named(ids)
        self.compared(lambda: self.out.guarded(self.random.below(8), self.random.below(4), names, naming), reads)

    def some(self, n):
        return [self.random.below(self.sizes[1]) for _ in range(n)]

    def changes(self, rounds, most):
        for _ in range(rounds):
            if self.random.below(2):
                self.insert(most)
            else:
                self.delete(self.some(self.random.among(1, most)))

    def alter(self):
        """Hand-made states: other versions, marks and references, an entry anywhere."""
        out, pick, (capacity, degree) = self.out, self.random.pick, self.sizes[1:]
        for slot in self.some(3):
            out.put_version(slot, pick([0, 1, 65535]))
            target = pick([BLANK, capacity, 70000, self.random.below(capacity)])
            out.put_edge(slot, self.random.below(degree), target, pick([0, 1, 65535]))
        out.put_marks([(slot, pick([0, 1, 2, 255])) for slot in self.some(2)])
        out.put_entry(self.random.below(capacity))
        if len(out.book.numbers) > 1:
            numbers = dict(out.book.numbers)
            one, other = [out.figures.pick(sorted(numbers)) for _ in range(2)]
            numbers[one], numbers[other] = numbers[other], numbers[one]
            out.put_numbers(numbers)
        out.put_weights(out.given_weights(self.sizes[0]))

    def shown(self, searches, reads, k=12, beams=(0, 1, 2, 3, 5, 8, 16, 64)):
        dump = self.oracle.dump()
        self.out.read_some(dump, reads)
        self.out.searches([(self.random.among(0, k), self.random.pick(beams), self.query(dump)) for _ in range(searches)])
        return dump

    def query(self, dump):
        """Any vector, or one that the index holds."""
        if self.random.below(3):
            return self.vector()
        return self.random.pick(dump.slots).vector


def small(out):
    r = out.random
    for i in range(16):
        capacity = r.among(1, 32)
        alpha = r.pick([ONE, ONE * 5 // 4, ONE * 3 // 2, 2 * ONE, ONE + 2 * r.below(ONE // 2)])
        h = History(out, r.among(1, 5), capacity, r.among(1, 6), alpha, r.pick([2, 2, 3, 4, 256]))
        h.make(r.pick([0, capacity, r.among(0, capacity), r.among(0, capacity)]))
        h.shown(16, 3)
        h.changes(6, 4)
        h.shown(24, 4)
        h.alter()
        h.shown(16, 3)


def medium(out):
    """Many ties, and longer answers."""
    for dim, capacity, degree, values in ((1, 60, 3, 6), (3, 120, 5, 3), (4, 200, 8, 256)):
        h = History(out, dim, capacity, degree, ONE * 5 // 4, values)
        h.make(capacity * 3 // 4)
        h.shown(30, 3, 24)
        h.changes(8, 10)
        h.shown(40, 3, 24)


def dead_entries(out):
    """All slots are emptied, so that the entry is dead, and others filled: the first of them becomes the entry."""
    for capacity in (1, 2, 6):
        h = History(out, 2, capacity, 1 + capacity // 2, ONE, 4)
        h.make(capacity)
        h.delete(list(range(capacity)))
        h.shown(6, 1)
        h.insert(1)
        h.shown(8, 1)
        h.delete([0])
        h.insert(1)
        h.shown(8, 1)


def wide(out):
    """Dim 256 and degree 64; and a dim at which half of the places weigh more, as many as may."""
    for dim, degree, values, weights in ((256, 64, 2, [1] * 256), (128, 3, 256, [1, 2, 4, 1] * 32)):
        h = History(out, dim, 14, degree, ONE * 5 // 4, values)
        h.make(9, weights)
        h.changes(4, 3)
        h.shown(6, 1)
    h = History(out, 2, 90, 64, ONE * 3 // 2, 6)
    h.make(70)
    h.changes(6, 8)
    h.shown(40, 2, 20, (1, 4, 16, 64, 128))


def many(out):
    """Beams up to 1,024, and lists as long."""
    h = History(out, 2, 1200, 4, ONE * 6 // 5 // 2 * 2, 40)
    h.make(1000)
    for _ in range(4):
        h.insert(40)
        h.delete(h.some(30))
    dump = h.shown(30, 3, 20, (10, 32, 100, 300, 700, 1023, 1024))
    for k, beam in ((1024, 1024), (1024, 60)):
        out.search(k, beam, h.query(dump))


def largest(out):
    """Capacity 65,536, the last slots included."""
    for dim, degree in ((1, 1), (4, 2)):
        h = History(out, dim, 65536, degree, ONE, 5)
        h.make(120)
        h.insert(20)
        h.delete(h.some(4) + list(range(10, 20)))
        out.put_marks([(65535, 1), (65534, 1)])
        for slot in (65535, 65534):
            out.put_edge(out.random.below(8), degree - 1, slot, 0)
        out.put_edge(65535, 0, 7, 0)
        h.shown(30, 2, 12, (1, 4, 40, 200))


def guarded_shelf(out):
    """Document 01's small shelf under the guard: deleting slot 1 would lose slot 2, deleting slot 2 is admitted, deleting all that is left is not."""
    out.begin([1, 4, 2], ONE, 1, [[0], [3], [10]], [[1, BLANK], [0, 2], [1, BLANK]], [30, 10, 20], [1])
    out.status()
    out.assess([1])
    out.guarded(2, 1, [1])
    out.enable(2, 0, 4, 4)
    out.status()
    out.assess([1, 1, 9])
    for naming, names in ((BY_SLOT, [1, 1, 9]), (BY_NUMBER, [10, 10, 9]), (BY_NUMBER, [20, 9, 20]), (BY_SLOT, [2]), (BY_NUMBER, [20, 0]), (BY_NUMBER, [30, 10]), (BY_SLOT, [])):
        out.guarded(2, 1, names, naming)
        out.status()
        dump = out.oracle.dump()
        out.read(4, 0, 0, dump.entry)
        for slot in range(4):
            out.read_slot(dump, slot)


def guards(out):
    """Settings of 0 and up; a guard that is on enabled anew; pools whose landmarks are deleted; ids that repeat, are dead or outside."""
    r = out.random
    for dim, capacity, degree, values, given in ((1, 5, 1, 4, 5), (1, 14, 2, 40, 1), (2, 40, 3, 6, 40), (2, 40, 3, 256, 1), (3, 90, 6, 256, 1)):
        h = History(out, dim, capacity, degree, r.pick([ONE, ONE * 5 // 4]), values)
        h.make(given)
        h.fill()
        for _ in range(5):
            if out.book.live > 1:
                out.enable(r.pick([0, 1, 3, 6, 9]), r.pick([0, 1, 2, 4]), r.pick([0, 1, capacity // 3, capacity, 65536]), r.pick([0, 3, 6, 12, 24, 64]))
            for ids in ([], [out.book.entry], h.some(1), h.some(3) + [capacity, BLANK]):
                out.assess(ids)
                h.guarded(ids, 1)
            h.guarded(h.some(capacity // 4), 1)
            out.status()
            h.insert(capacity // 3, 0)
            h.delete(h.some(2), 0)
            out.status()
            out.assess(h.some(2))
            h.guarded(h.some(2) * 2)
        h.shown(4, 1)
        out.assess(list(range(capacity)))
        h.guarded(list(range(capacity)), 0)


def wide_guards(out):
    """The largest settings: a pool of 1,024 and 64 landmarks checked; and capacity 65,536, with a sample that is too small and one that is not."""
    h = History(out, 1, 1100, 2, ONE, 256)
    h.make(1040)
    out.enable(64, 16, 65536, 1024)
    h.guarded(h.some(1), 0)
    out.enable(64, 1, 1, 24)
    for n in (2, 256):
        h.guarded(h.some(n), 0)
    h = History(out, 2, 65536, 2, ONE, 9)
    h.make(90)
    for sample in (4, 32768, 65536):
        out.enable(5, 4, sample, 12)
        out.assess(h.some(1) + [7, 8])
        h.guarded(h.some(1) + [out.random.below(90) for _ in range(3)], 1)


def refused_makings(out):
    r = out.random
    sizes = [2, 4, 3]
    given, rows = [7] * 6, [1, BLANK, 0, 2, 2, BLANK, BLANK, BLANK, 0]

    def attempt(sizes=sizes, alpha=ONE, entry=1, count=3, given=given, rows=rows, numbers=None, lent=None, weights=(1, 2)):
        out.lend_for([2, 4, 3]) if lent is None else out.lend(*lent, 1024, 1024, 1024, 0)
        out.give(given, rows, out.fresh(count, ()) if numbers is None else numbers, list(weights))
        out.make(sizes, alpha, entry, count)
        out.read(5, 0, 0, out.book.live)

    attempt()
    for bad in ([0, 4, 3], [257, 4, 3], [2, 0, 3], [2, 65537, 3], [2, 4, 0], [2, 4, 65], [BLANK, BLANK, BLANK]):
        attempt(sizes=bad)
    for alpha in (0, ONE - 1, ONE, 2 * ONE, 2 * ONE + 4, NAN, 15099494):
        attempt(alpha=alpha)
    for i in range(9):
        for more in (-1, 1):
            attempt(lent=[n + more * (j == i) - (j == 5 and more == 1 and i == 5) * 2 for j, n in enumerate(exact(*sizes))])
    attempt(given=given[1:])
    attempt(given=given + [1])
    attempt(rows=rows[1:])
    attempt(rows=rows + [0])
    for count in (4, 5, 6):
        attempt(count=count, given=[r.below(256) for _ in range(2 * count)], rows=[r.below(count) for _ in range(3 * count)])
    attempt(count=0, given=[], rows=[], entry=0)
    attempt(count=0, given=[], rows=[], entry=1)
    for word in (3, 4, BLANK - 1):
        attempt(rows=rows[:4] + [word] + rows[5:])
    for entry in (2, 3, 4, BLANK):
        attempt(entry=entry)
    for numbers in ([], [7, 8], [7, 8, 9, 10], [7, 0, 9], [0, 0, 0], [7, 8, 7], [9, 9, 8], [BLANK, 1, BLANK - 1], [BLANK, BLANK, 1]):
        attempt(numbers=numbers)
    attempt(numbers=[3, 3, 0], entry=3)
    attempt(numbers=[3, 3, 0], alpha=0)
    attempt(count=0, given=[], rows=[], numbers=[1], entry=0)
    attempt(count=5, given=[1] * 10, rows=[0] * 15, numbers=[2] * 5)
    for weights in ((), (1,), (1, 1, 1), (0, 0, 0), (0, 1), (1, 0), (5, 1), (4, 4), (255, 255), (1, 1)):
        attempt(weights=weights)
    # 16 comes after 2 and 3, before 4, 5 and 15
    attempt(weights=(0, 5), alpha=0)
    attempt(weights=(0, 5), rows=rows[1:])
    attempt(weights=(0, 5), count=5, given=[1] * 10, rows=[0] * 15)
    attempt(weights=(0, 5), entry=3)
    attempt(weights=(0, 5), numbers=[3, 3, 0])
    for weights in ([4] * 64, [4] * 63 + [3, 1], [4] * 63 + [3, 2], [4] * 65, [1] * 255 + [2], [1] * 256):
        dim = len(weights)
        attempt(sizes=[dim, 4, 3], count=0, given=[], rows=[], entry=0, lent=exact(dim, 4, 3), weights=weights)


def refused_calls(out):
    """Readings and searches of an index that was altered, or that is lent too much or too little."""
    h = History(out, 2, 6, 2, ONE, 5)
    h.make(5)
    dump = h.shown(4, 2)
    book = out.book

    def attempts(query=(1, 2), k=3, beam=4):
        out.search(k, beam, query)
        out.read(5, 0, 0, book.live)
        out.read_slot(dump, 1)

    for field, values in ((0, (0, 257, 3)), (1, (0, 65537, 7)), (2, (0, 65, 3)), (3, (0, NAN)), (4, (6, BLANK)), (5, (4, 6, 0))):
        kept = (book.sizes + [book.alpha, book.entry, book.live])[field]
        for value in values:
            out.set(field, value)
            attempts()
            attempts(query=(1,), beam=1025)
        out.set(field, kept)
        attempts()
    fit = exact(*book.sizes) + [12, 10, 11, scratch_words(book.sizes[1])]
    for i in range(13):
        out.lend(*[n - (j == i) for j, n in enumerate(fit)])
        attempts(k=9)
        attempts(k=10)
    out.lend(*fit[:FOUND], 9, fit[WORDS])
    attempts(k=9)
    attempts(k=10)
    out.lend(*fit)
    for query in ((), (1,), (1, 2), (1, 2, 3)):
        attempts(query=query)
    for k, beam in ((10, 1024), (11, 1024), (10, 1025), (0, BLANK), (BLANK, 0), (0, 0)):
        attempts(k=k, beam=beam)
    out.lend(*fit[:WORDS], 0)
    attempts(k=0, beam=0)
    attempts(k=13)


def mislabelled(out):
    """Calls on an index whose numbers or summary break their rules."""
    h = History(out, 1, 6, 2, ONE, 9)
    h.make(6)
    h.delete([1, 4])
    out.enable(2, 1, 6, 4)
    book = out.book

    def attempts():
        out.read(9, 0, 0, book.numbers[0])
        out.search(2, 3, [1])
        out.insert(4, [3])
        out.delete(1, 1, [book.numbers[0]], BY_NUMBER)
        out.status()
        out.assess([0])
        out.guarded(1, 1, [0])

    numbers, summary = book.numbers, book.summary() + [BLANK] * 2
    last = max(numbers, key=numbers.get)
    least = min(numbers, key=numbers.get)
    wrong = [(5, 0, 0), (5, 1, 999), (5, last, numbers[least]), (5, least, BLANK), (6, 0, summary[1]), (6, 3, summary[2]), (6, 1, BLANK), (6, 2, 6), (6, 0, 4)]
    wrong += [(6, 3, BLANK), (6, 4, 1), (6, 5, 0), (6, 4, summary[3])]
    for array, place, value in wrong:
        kept = numbers.get(place, 0) if array == 5 else summary[place]
        out.store(array, place, value)
        book.mislabelled = True
        attempts()
        out.store(array, place, kept)
        book.mislabelled = False
        out.read(5, 0, 0, book.live)
    # a slot is marked that has no number, and one unmarked that has
    for slot, mark, live in ((1, 1, 5), (last, 0, 3)):
        out.store(0, slot, mark)
        out.set(5, live)
        book.marked, book.mislabelled = live, True
        attempts()
        out.store(0, slot, 1 - mark)
        out.set(5, 4)
        book.marked, book.mislabelled = 4, False
        out.read(5, 0, 0, book.live)
    attempts()


def overweighted(out):
    """Calls on an index whose weights were made to break their rules, alone and beside other faults."""
    h = History(out, 3, 5, 2, ONE, 9)
    h.make(5, [1, 4, 2])
    h.delete([1])
    out.enable(2, 1, 5, 4)
    book = out.book

    def attempts(query=(1, 2, 3)):
        out.read(5, 0, 0, book.live)
        out.vector(0, dump.slots[0].vector)
        out.search(2, 3, query)
        out.insert(1025, [3] * 3, [0])
        out.delete(257, 1, [0])
        out.enable(65, 1, 5, 4)
        out.status()
        out.assess([0])
        out.guarded(1, 17, [0])

    dump = out.oracle.dump()
    right = book.weights
    for place, weight in ((0, 0), (0, 5), (2, 255), (1, 5)):
        out.put_weights(right[:place] + [weight] + right[place + 1:])
        attempts()
        out.put_weights(right)
    out.put_weights([0, 4, 2])
    attempts((1, 2))
    for field, wrong, kept in ((0, 0, 3), (3, 0, ONE), (5, 5, 4), (4, 9, book.entry)):
        out.set(field, wrong)
        attempts()
        out.set(field, kept)
    out.put_weights(right)
    attempts()
    # the sum, which alone is too large
    h = History(out, 100, 2, 1, ONE, 2)
    h.make(1, [4] * 52 + [1] * 48)
    dump = out.oracle.dump()
    for weights in ([4] * 52 + [1] * 47 + [2], [4] * 52 + [1] * 48, [4] * 100):
        out.put_weights(weights)
        out.read(5, 0, 0, out.book.live)
        out.vector(0, dump.slots[0].vector)
        out.status()
    out.delete(1, 1, [0])


def small_shelf(out):
    """Document 01's: 6 into the shelf, and then 1 is deleted; 7 into it with every slot emptied, and slot 0 becomes the entry."""
    for emptied, value, then in (([], 6, [1]), ([0, 1, 2], 7, [])):
        out.begin([1, 4, 2], ONE, 1, [[0], [3], [10]], [[1, BLANK], [0, 2], [1, BLANK]], [30, 10, 20], [1])
        for call in (lambda: out.delete(2, 1, emptied), lambda: out.insert(2, [value]), lambda: out.delete(2, 1, then)):
            call()
            dump = out.oracle.dump()
            out.read(4, 0, 0, dump.entry)
            for slot in range(4):
                out.read_slot(dump, slot)
        out.search(4, 4, [3])
    # numbers 10, 0, 10 and 7: slot 1 alone, and four names need four places for stats
    out.begin([1, 4, 2], ONE, 1, [[0], [3], [10]], [[1, BLANK], [0, 2], [1, BLANK]], [30, 10, 20], [1])
    for places in (3, 4):
        out.lend_for([1, 4, 2], slots=places)
        out.delete(2, 1, [10, 0, 10, 7], BY_NUMBER)
    dump = out.oracle.dump()
    for slot in range(4):
        out.read_slot(dump, slot)
    out.insert(2, [5], [10])
    out.insert(2, [6], [20])
    out.search(4, 4, [3])


def chunks(out):
    """Batches of about one chunk and two, with many ties and with few."""
    for dim, capacity, degree, alpha, values, batches in ((1, 800, 2, ONE, 40, (255, 256, 0, 257)), (2, 900, 3, ONE * 5 // 4, 4, (256, 600, 44, 1)), (3, 620, 4, 2 * ONE, 256, (1, 600, 3))):
        h = History(out, dim, capacity, degree, alpha, values)
        h.make(3)
        for n in batches:
            h.insert_just(n, out.random.pick([0, 1, 4, 16]), 5)
        h.shown(6, 2)


def refused_inserts(out):
    """Inserts into an index that was altered, that is lent too much or too little, or that has no room."""
    h = History(out, 2, 9, 2, ONE, 5)
    h.make(5)
    h.shown(2, 1)
    book, two = out.book, [1, 2, 3, 4]

    def attempts():
        out.insert(1025, two, [0, 0])
        out.insert(1025, two + [5])
        out.read(5, 0, 0, book.live)

    for field, values in ((0, (0, 257, 3)), (1, (0, 65537, 10)), (2, (0, 65, 3)), (3, (0, NAN)), (4, (9, BLANK)), (5, (4, 6))):
        kept = (book.sizes + [book.alpha, book.entry, book.live])[field]
        for value in values:
            out.set(field, value)
            attempts()
        out.set(field, kept)
        attempts()
    fit = exact(*book.sizes) + [2, 0, 0, scratch_words(book.sizes[1])]
    for i in (0, 1, 2, 3, 4, 5, 6, 7, 8, SLOTS, WORDS):
        out.lend(*[n - (j == i) for j, n in enumerate(fit)])
        attempts()
        out.insert(1024, two + [5])
        out.insert(1024, two + two)
    out.lend(*fit)
    live = [book.numbers[slot] for slot in (0, 4)]
    new = max(book.numbers.values()) % BLANK + 1
    while new in book.numbers.values():
        new = new % BLANK + 1
    wrong = ([], [new], [new, 0], [0, new], [new, new], [live[0], new], [new, live[1]], [0, 0, 0])
    for numbers in wrong:
        out.insert(1024, two, numbers)
        out.insert(1024, two + [5], numbers)
        out.insert(1024, [1], numbers)
        out.read(5, 0, 0, book.live)
    for given in (two + [5], two + [5, 6], [1], [], two, [1] * 5, [1] * 6, two):
        out.insert(1024, given)
        out.read(5, 0, 0, book.live)
    out.lend_for(book.sizes)
    for given in ([1] * 5, two, [1, 2], [1, 2], [], [1]):
        out.insert(0, given)
        out.read(5, 0, 0, book.live)
    # no slot is free: 10 comes before 15
    out.insert(0, two, [live[0]] * 2)
    out.insert(0, [1, 2], [0])


def deletes(out):
    """Ids that repeat, are dead or outside; many at once; the entry; an index emptied whole; versions that turn to 0."""
    r = out.random
    for dim, capacity, degree, values in ((1, 12, 2, 4), (2, 40, 4, 6), (3, 120, 8, 256)):
        h = History(out, dim, capacity, degree, r.pick([ONE, ONE * 5 // 4, 2 * ONE]), values)
        h.make(capacity)
        h.delete([])
        h.delete([0, 0, capacity - 1, capacity, BLANK, 0])
        h.delete([out.book.entry], 3)
        for slot in h.some(3):
            out.put_version(slot, 65535)
            h.delete([slot])
        h.insert(capacity // 4)
        h.delete(h.some(capacity // 3), 4)
        h.insert(capacity // 2)
        h.shown(10, 2)
        h.delete([slot % capacity for slot in range(256)])
        h.insert(2)
        h.shown(6, 1)


def refused_deletes(out):
    """Deletes from an index that was altered, that is lent too much or too little, and with arguments over their limits."""
    h = History(out, 2, 9, 2, ONE, 5)
    h.make(7)
    h.shown(2, 1)
    book = out.book

    def attempts():
        out.delete(257, 1, [1, 2])
        out.delete(1, 17, [1, 2, 3], BY_NUMBER)
        out.read(5, 0, 0, book.live)

    for field, values in ((0, (0, 257, 3)), (1, (0, 65537, 10)), (2, (0, 65, 3)), (3, (0, NAN)), (4, (9, BLANK)), (5, (6, 8))):
        kept = (book.sizes + [book.alpha, book.entry, book.live])[field]
        for value in values:
            out.set(field, value)
            attempts()
        out.set(field, kept)
        attempts()
    fit = exact(*book.sizes) + [2, 0, 0, scratch_words(book.sizes[1])]
    for i in (0, 1, 2, 3, 4, 5, 6, 7, 8, SLOTS, WORDS):
        out.lend(*[n - (j == i) for j, n in enumerate(fit)])
        attempts()
        out.delete(256, 16, [20, 21])
        out.delete(256, 16, [0, 0], BY_NUMBER)
    out.lend_for(book.sizes)
    for beam, degree, ids in ((257, 16, []), (256, 17, []), (256, 16, [9] * 257), (256, 16, [9] * 256), (0, 0, [3, 3])):
        out.delete(beam, degree, ids)
        out.read(5, 0, 0, book.live)
    one = book.numbers[0]
    for beam, degree, names in ((257, 16, []), (256, 17, []), (256, 16, [0] * 257), (256, 16, [0] * 256), (0, 0, [one, 0, one, BLANK])):
        out.delete(beam, degree, names, BY_NUMBER)
        out.read(5, 0, 0, book.live)


def refused_guards(out):
    """The guard's calls on an index that was altered, that is lent too much or too little, whose guard is off, and with arguments over their limits."""
    h = History(out, 2, 9, 2, ONE, 5)
    h.make(7)
    out.enable(2, 2, 9, 4)
    h.shown(2, 1)
    book = out.book

    def attempts():
        out.status()
        out.enable(65, 2, 9, 4)
        out.assess([1])
        out.guarded(257, 1, [1, 2], out.figures.below(2))

    settings = ((7, (0, 65)), (8, (0, 17)), (9, (0, 65537)), (10, (0, 1025)), (11, (1025, BLANK)))
    for field, values in ((0, (0, 257, 3)), (1, (0, 65537, 10)), (2, (0, 65, 3)), (3, (0, NAN)), (4, (9, BLANK)), (5, (6, 8))) + settings:
        kept = (book.sizes + [book.alpha, book.entry, book.live, 0] + book.guard)[field]
        for value in values:
            out.set(field, value)
            attempts()
            out.read(5, 0, 0, book.live)
        out.set(field, kept)
        attempts()
    fit = exact(*book.sizes) + [64, 64, 1, scratch_words(book.sizes[1])]
    for i in range(13):
        out.lend(*[n - (j == i) for j, n in enumerate(fit)])
        attempts()
        out.enable(64, 16, 65536, 1024)
        out.assess([])
        out.guarded(256, 16, [20] * 64)
        out.guarded(256, 16, [0] * 64, BY_NUMBER)
    out.lend(*fit)
    out.guarded(1, 1, [20] * 65)
    out.guarded(1, 1, [0] * 65, BY_NUMBER)
    out.lend_for(book.sizes)
    for over in ((65, 1, 1, 1), (1, 17, 1, 1), (1, 1, 65537, 1), (1, 1, 1, 1025), (BLANK,) * 4, (0, 0, 0, 0), (64, 16, 65536, 1024)):
        out.enable(*over)
        out.status()
    for beam, degree, ids in ((257, 16, []), (256, 17, []), (256, 16, [9] * 257), (256, 16, [9] * 256), (0, 0, [3, 3])):
        out.guarded(beam, degree, ids)
        out.assess(ids)
        out.read(5, 0, 0, book.live)
    out.disable()
    attempts()
    for lent in ([63, 64, 0, 0], [64, 63, 0, 0], [64, 64, 0, 0], [64, 64, 0, scratch_words(9)]):
        out.lend(*exact(*book.sizes), *lent)
        out.assess([1])
        out.guarded(256, 16, [1])
        out.status()
    for count in (0, 1, 2):
        h.make(count)
        for words in (0, scratch_words(9)):
            out.lend_for(book.sizes, words=words)
            out.enable(1, 1, 9, 1025)
            out.enable(1, 1, 9, 1)
            out.status()


def size_answers(out):
    for sizes in ([1, 1, 1], [256, 65536, 64], [3, 100, 7], [0, 1, 1], [257, 1, 1], [1, 0, 1], [1, 65537, 1], [1, 1, 0], [1, 1, 65], [BLANK] * 3):
        refused = sizes_bad(*sizes)
        out.put("words", *sizes, int(refused), 0 if refused else scratch_words(sizes[1]))


def other(place, by=1):
    """A change of one number of a line."""
    return lambda words: words[:place] + [str(int(words[place]) + by)] + words[place:][1:]


def exchanged(i, j):
    def change(words):
        words[i], words[j] = words[j], words[i]
        return words

    return change


def wrong_answers(out):
    """Lines with wrong answers of every kind, and lines that are none: `replay` must name each."""
    size_wrong = (("size answer", other(5)), ("size answer carried out, not refused", lambda w: w[:4] + ["1", "0"]), ("size answer, a number missing", lambda w: w[:5]))
    for what, change in size_wrong:
        out.spoil(what, change)
        out.put("words", 3, 100, 7, 0, scratch_words(100))
    out.spoil("size answer refused, not carried out", lambda w: w[:4] + ["0", "169985"])
    out.put("words", 0, 1, 1, 1, 0)
    h = History(out, 2, 6, 2, ONE, 5)
    h.make(5)
    while int(out.oracle.answers(["search 5 6 x0000"])[0].split()[1]) < 3:
        h.make(5)
    dump = h.shown(4, 2)
    book, entry, count = out.book, dump.entry, len([s for s in dump.slots if s.used()])

    def made():
        out.lend_for(dump.sizes)
        numbers = [book.numbers[slot] for slot in range(count)]
        out.give([v for s in dump.slots[:count] for v in s.vector], [t for s in dump.slots[:count] for t, _ in s.edges], numbers, book.weights)

    for what, change in (("making carried out, not refused", other(7)), ("making, a number missing", lambda w: w[:7]), ("making, a number more", lambda w: w + ["0"])):
        made()
        out.spoil(what, change)
        out.make(dump.sizes, dump.alpha, entry, count)
    for what, change in (("making refused, not carried out", lambda w: w[:7] + ["0"]), ("making refused with another number", other(7))):
        made()
        out.spoil(what, change)
        out.make(dump.sizes, dump.alpha, count, count)
    made()
    out.make(dump.sizes, dump.alpha, entry, count)
    right = dump.sizes + [dump.alpha, dump.entry, dump.live]
    for what, value in enumerate(right):
        out.spoil("reading %d" % what, other(5, 1024))
        out.read(what, 0, 0, value)
    for what, value in ((6, 1), (7, dump.slots[0].version), (8, dump.slots[entry].live[0]), (9, book.numbers[0])):
        out.spoil("reading %d" % what, other(5))
        out.read(what, entry if what == 8 else 0, 0, value)
    for what, change in (("carried out, not refused", other(4, 6)), ("a number more", lambda w: w + ["0"])):
        out.spoil("reading, " + what, change)
        out.read(5, 0, 0, book.live)
    out.set(5, book.live + 1)
    for what, change in (("refused, not carried out", other(4, -6)), ("refused with another number", other(4))):
        out.spoil("reading, " + what, change)
        out.read(5, 0, 0, book.live)
    out.set(5, dump.live)
    out.spoil("reading of no kind", other(1, 9))
    out.read(5, 0, 0, book.live)
    vector = dump.slots[0].vector
    vector_wrong = [("first byte", other(3)), ("last byte", other(4)), ("another length", other(2)), ("a byte more", lambda w: w + ["0"])]
    vector_wrong += [("a byte fewer", lambda w: w[:2] + ["1", w[3]]), ("empty, not there", lambda w: w[:2] + ["0"])]
    for what, change in vector_wrong:
        out.spoil("vector, " + what, change)
        out.vector(0, vector)
    out.spoil("vector of a slot outside", lambda w: w[:2] + ["1", "0"])
    out.vector(6, [])
    asked = (5, 6, vector)
    found = int(out.oracle.answers(["search 5 6 x" + bytes(vector).hex()])[0].split()[1])
    first, last = 8, 8 + 3 * (found - 1)
    search_wrong = [("first slot", other(first)), ("first distance", other(first + 1)), ("last slot", other(last)), ("last distance", other(last + 1))]
    search_wrong += [("first number", other(first + 2)), ("last number", other(last + 2)), ("numbers exchanged", exchanged(first + 2, last + 2))]
    search_wrong += [("no numbers", lambda w: w[:8] + [x for i, x in enumerate(w[8:]) if i % 3 != 2])]
    search_wrong += [("one fewer", lambda w: w[:7] + [str(found - 1)] + w[8:-3]), ("one more", lambda w: w[:7] + [str(found + 1)] + w[8:] + ["0"] * 3)]
    search_wrong += [("slots exchanged", exchanged(first, last)), ("carried out, not refused", other(6, 7)), ("another beam", other(2, 2000))]
    for what, change in search_wrong:
        out.spoil("search, " + what, change)
        out.search(*asked)
    out.spoil("search refused, not carried out", lambda w: w[:6] + ["0", "0"])
    out.search(5, 1025, vector)
    out.spoil("search refused with another number", other(6))
    out.search(5, 1025, vector)
    wrong_inserts(out)
    wrong_deletes(out)
    wrong_enables(out)
    wrong_statuses(out)
    wrong_reports(out)
    for what, words in (("no word", ["", "1"]), ("another word", ["reads", "5"]), ("no number", ["read", "x"]), ("a field that is not there", ["set", "0"])):
        out.spoil(what, lambda w, words=words: words)
        out.put("read", 5, 0, 0, 0, book.live)
    for array in (0, 5, 6, 7):
        out.spoil("a store past the memory", other(2, 70000))
        out.store(array, 0, 1)
    out.spoil("a store to no array", other(1, 8))
    out.store(0, 0, 1)
    for what in ("give", "numbers", "weights"):
        out.spoil("more given than there is room for", other(1, 300000))
        out.put(what, 0)


def wrong_inserts(out):
    h = History(out, 2, 40, 3, ONE, 5)
    h.make(5)
    two = [x for _ in range(2) for x in h.vector()]
    wrong = [("first slot", other(4)), ("last slot", other(5)), ("slots exchanged", exchanged(4, 5)), ("another count", other(3)), ("a number more", lambda w: w + ["0"])]
    wrong += [("one fewer", lambda w: w[:3] + ["1", w[4]]), ("one more", lambda w: w[:3] + ["3"] + w[4:] + [str(int(w[5]) + 1)]), ("a number missing", lambda w: w[:5])]
    wrong += [("carried out, not refused", lambda w: w[:2] + ["10"]), ("carried out, not refused, with its slots", other(2, 10))]
    for what, change in wrong:
        out.spoil("insert, " + what, change)
        out.insert(4, two)
        out.read(5, 0, 0, out.book.live)
    for what, change in (("refused, not carried out", lambda w: w[:2] + ["0", "0"]), ("refused with another number", other(2)), ("refused, a number more", lambda w: w + ["0"])):
        out.spoil("insert, " + what, change)
        out.insert(1025, two)


def wrong_deletes(out):
    h = History(out, 2, 60, 4, ONE, 5)
    h.make(60)
    at = 6  # the first count of the first record
    wrong = [("count %d of the first" % i, other(at + i)) for i in range(4)] + [("last count", other(at + 7)), ("another number", other(5)), ("a number more", lambda w: w + ["0"])]
    wrong += [("one fewer", lambda w: w[:5] + ["1"] + w[6:10]), ("one more", lambda w: w[:5] + ["3"] + w[6:] + ["0"] * 4), ("a number missing", lambda w: w[:-1])]
    wrong += [("records exchanged", lambda w: w[:6] + w[10:14] + w[6:10]), ("carried out, not refused", lambda w: w[:4] + ["7"]), ("carried out, not refused, with its counts", other(4, 7))]
    for k, (what, change) in enumerate(wrong):
        while True:  # two records that differ
            ids = sorted({out.random.below(60) for _ in range(2)})
            records = out.oracle.answers(["delete 8 2 %s" % " ".join(map(str, ids))])[0].split()[2:]
            if len(set(records)) == 2:
                break
        out.spoil("delete, " + what, change)
        names = [out.book.numbers.get(slot, 0) for slot in ids]
        out.delete(8, 2, *((names, BY_NUMBER) if k % 2 else (ids, BY_SLOT)))
        out.read(5, 0, 0, out.book.live)
    refused = [("refused, not carried out", lambda w: w[:4] + ["0", "0"]), ("refused with another number", other(4)), ("refused, a number more", lambda w: w + ["0"])]
    for what, change in refused + [("by neither slots nor numbers", other(1, 2))]:
        out.spoil("delete, " + what, change)
        out.delete(257, 2, ids)


NUMBERS = ("admitted", "requested", "entry", "checked", "baseline", "residual", "lost", "supplemental")


def wrong_refusals(out, what, place, carried, call):
    """A refused call's line, whose refusal stands at this place, made wrong; `carried` is what would follow a 0 there."""
    changes = (("refused, not carried out", lambda w: w[:place] + ["0"] + carried), ("refused with another number", other(place)), ("refused, a number more", lambda w: w + ["0"]))
    for how, change in changes:
        out.spoil("%s, %s" % (what, how), change)
        call()


def carried_out(place, number):
    """Changes of a line that is carried out, its 0 at this place, into one that is refused: alone, and with its answer."""
    return [("carried out, not refused", lambda w: w[:place] + [str(number)]), ("carried out, not refused, with its answer", other(place, number))]


def wrong_enables(out):
    h = History(out, 2, 30, 3, ONE, 9)
    h.make(24)
    at = 6  # the first number of the status; the pool begins five after
    wrong = [("number %d of the status" % i, other(at + i)) for i in range(5)]
    wrong += [("first landmark", other(at + 5)), ("last landmark", other(-1)), ("landmarks exchanged", exchanged(at + 5, at + 6)), ("a number more", lambda w: w + ["0"])]
    wrong += [("a number missing", lambda w: w[:-1]), ("a smaller pool", lambda w: w[:at + 1] + [str(int(w[at + 1]) - 1)] + w[at + 2:-1]), ("no pool", lambda w: w[:at + 5])]
    for k, (what, change) in enumerate(wrong + carried_out(5, 12)):
        out.spoil("enable, " + what, change)
        out.enable(1 + k % 5, 2, 30, 3 + k)
        out.status()
    wrong_refusals(out, "enable", 5, ["0"] * 5, lambda: out.enable(65, 2, 30, 3))


def wrong_statuses(out):
    """On the index and the guard of before."""
    wrong = [("number %d" % i, other(2 + i)) for i in range(5)] + [("a number more", lambda w: w + ["0"]), ("a number missing", lambda w: w[:-1])]
    for what, change in wrong + carried_out(1, 6):
        out.spoil("status, " + what, change)
        out.status()
    live = out.book.live
    out.set(5, live + 1)
    wrong_refusals(out, "status", 1, ["0"] * 5, out.status)
    out.set(5, live)


def drawn(h, asked, wanted):
    """Ids, drawn until the Rust's answer is as wanted."""
    for _ in range(2000):
        ids = h.some(1 + h.random.below(6))
        if wanted(h.oracle.answers([joined(asked, *ids)])[0].split()):
            return ids
    sys.exit("no such answer of the Rust to " + asked)


def wrong_reports(out):
    """Assessments, guarded deletes that are deferred, and such that are applied."""
    h = History(out, 1, 40, 2, ONE, 256)
    h.make(1)
    h.fill()
    out.enable(8, 3, 40, 6)

    def two_lost(answer):
        report = report_of(answer)
        return report[6] == 2 and report[3] > 2

    def report_wrong(at):
        wrong = [("number " + name, other(at + i)) for i, name in enumerate(NUMBERS)] + [("first checked", other(at + 8))]
        return wrong + [("checked exchanged", exchanged(at + 8, at + 9)), ("a number more", lambda w: w + ["0"]), ("a number missing", lambda w: w[:-1])]

    lists_wrong = [("last checked", other(-3)), ("first lost", other(-2)), ("last lost", other(-1)), ("lost exchanged", exchanged(-2, -1))]
    for what, change in report_wrong(2) + lists_wrong + carried_out(1, 11):
        out.spoil("assess, " + what, change)
        out.assess(drawn(h, "assess", two_lost))
    wrong_refusals(out, "assess", 1, ["0"] * 8, lambda: out.assess([0] * 257))
    applied_not = [("applied, not deferred", lambda w: w + ["0"]), ("applied with a record, not deferred", lambda w: w + ["1"] + ["0"] * 4)]
    for what, change in report_wrong(5) + lists_wrong + applied_not + carried_out(4, 11):
        out.spoil("guarded, deferred, " + what, change)
        ids = drawn(h, "gdelete 8 2", two_lost)
        out.guarded(8, 2, [out.book.numbers.get(slot, 0) for slot in ids], BY_NUMBER)
        out.read(5, 0, 0, out.book.live)
    applied = report_wrong(5) + [("last checked", other(-10)), ("count of records", other(-9))]
    applied += [("count %d of the first record" % i, other(-8 + i)) for i in range(4)] + [("last count", other(-1)), ("records exchanged", lambda w: w[:-8] + w[-4:] + w[-8:-4])]
    applied += [("deferred, not applied", lambda w: w[:-9]), ("one record fewer", lambda w: w[:-9] + ["1"] + w[-8:-4]), ("one record more", lambda w: w[:-9] + ["3"] + w[-8:] + ["0"] * 4)]
    for what, change in applied + carried_out(4, 11):
        ids = drawn(h, "gdelete 8 2", lambda answer: answer[0] == "applied" and len(set(answer[19:])) == 2 == int(answer[18]))
        out.spoil("guarded, applied, " + what, change)
        out.guarded(8, 2, ids)
        out.read(5, 0, 0, out.book.live)
        h.fill()
    wrong_refusals(out, "guarded", 4, ["0"] * 8, lambda: out.guarded(257, 2, [0]))
    out.spoil("guarded, by neither slots nor numbers", other(1, 2))
    out.guarded(257, 2, [0])


def main():
    oracle = Oracle(sys.argv[1])
    out = List(oracle, Random(SEED))
    out.note("made by compare/replay/make.py, seed %d" % SEED)
    parts = (size_answers, refused_makings, refused_calls, mislabelled, overweighted, refused_inserts, refused_deletes, small_shelf, small, medium, chunks, deletes, dead_entries, wide, many, largest, refused_guards, guarded_shelf, guards, wide_guards, wrong_answers)
    for part in parts:
        out.note(part.__name__)
        part(out)
    for path, lines in ((sys.argv[2], out.text), (sys.argv[3], out.printed())):
        with open(path, "w") as file:
            file.write("\n".join(lines) + "\n")


main()
