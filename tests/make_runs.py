#!/usr/bin/env python3
"""The cases on which the program `cases` tries runs: by pull, by push, and stopped after a number of rounds. make_cases.py writes them.

    python3 tests/make_runs.py           prints each case: index, kind, call, rounds, length lent, what is expected, name

Worksheets and maps are written by hand as bytes. Rows, rounds and refusals are written by hand from document 01 and, for
conditions, sets of starts and absent operands of min and max, document 02, a) to c); none is what a run said. So that no slip of
the hand stays, the script walks every walk outright (`outright` below: sets of walks, no rounds and no table of figures) and
stops where the hand and the walks differ.

In the file (make_cases.py has its layout) a case has five numbers of 16 bits: the length lent, the call (0 pull, 1 push, 2 pull stopped,
3 push stopped), the rounds at which it is stopped, where the worksheet and the map end behind these ten bytes; then worksheet, map and
answer (none where refused). The program's buffer is longer than what is lent: every byte of it behind the answer must stay as it was
filled.
"""
CALLS = ("pull", "push", "pull stopped", "push stopped")
ANYWHERE = 65535
_ = None  # absent

# ------------------------------------------------------------------------------------------------ layouts


def u16(x):
    return x.to_bytes(2, "little")


def hexed(text):
    return bytes.fromhex(text)


def map_file(n, *rows):
    """Rows: from, to, seconds, crate size."""
    return b"LPM" + u16(1) + u16(n) + u16(len(rows)) + b"".join(u16(x) for row in rows for x in row)


def answer(n, rounds, kind, values):
    rows = b"".join(b"\0" + bytes(8) if v is None else b"\1" + v.to_bytes(8, "little") for v in values)
    return b"LPA" + u16(1) + u16(n) + u16(rounds) + bytes([kind]) + rows


def slots(*keys, start=0):
    """A chain of a worksheet of version 1: six bytes."""
    return bytes([len(keys), *keys]).ljust(4, b"\0") + u16(start)


def from_set(*keys, starts=(0,)):
    """A chain of a worksheet of version 2; no start for anywhere."""
    return bytes([len(keys), *keys]).ljust(4, b"\0") + bytes([len(starts)]) + b"".join(u16(start) for start in starts)


W0, W1 = hexed("4C 50 57 01 00 00"), hexed("4C 50 57 01 00 01")  # a worksheet of either kind; the chain count is due
V0, V1 = hexed("4C 50 57 02 00 00"), hexed("4C 50 57 02 00 01")  # the same of version 2


def at_each(*chains, term=hexed("30 00"), head=W0):
    """A worksheet of kind 0: the chains, and one entry; chain 0 where no other term is given."""
    return head + bytes([len(chains)]) + b"".join(chains) + hexed("01 00") + term


def one_result(chains, entries, final, head=W1):
    """A worksheet of kind 1; an entry is a reduction byte and a term."""
    return head + bytes([len(chains)]) + b"".join(chains) + bytes([len(entries)]) + b"".join(entries) + final


def where(reduction, condition, value):
    """An entry with a condition: 128 is added to its reduction byte."""
    return bytes([128 + reduction]) + condition + value


def lit(x):
    return b"\x11" + x.to_bytes(4, "little")


def rlit(x):
    return b"\x21" + x.to_bytes(4, "little")


def op(number, a, b):
    return bytes([0x12, number]) + a + b


def rop(number, a, b):
    return bytes([0x22, number]) + a + b


def chain(i):
    return bytes([0x30, i])


def entry(i):
    return bytes([0x31, i])


MIN, MAX, PLUS, MINUS, TIMES, DIVIDE, EQUAL, LESS, GREATER, AND, OR = range(1, 12)

MAP_A = map_file(4, (0, 1, 5, 10), (0, 2, 2, 4), (2, 1, 3, 20), (1, 3, 0, 7))
LOOP = map_file(1, (0, 0, 1, 3))
LONE = map_file(1)
TWO = map_file(2, (0, 1, 1, 9), (1, 0, 1, 2))
NARROW = map_file(3, (0, 1, 9, 10), (0, 1, 1, 5), (1, 2, 1, 3))  # the trap of keys 5,2
LINE = ((0, 1, 3, 9), (1, 2, 3, 9), (2, 3, 3, 9))
RING = map_file(3, (0, 1, 1, 9), (1, 2, 1, 8), (2, 0, 1, 2))

# ------------------------------------------------------------------------------------------------ outright
# What document 01, "Meaning", says, over sets of walks. Only for files that are accepted.

# the table of keys: the value of a walk (its start, passages, seconds, smallest crate size), and whether the greatest is kept
KEYS = {1: (1, min), 2: (2, min), 3: (0, min), 4: (0, max), 5: (3, max), 6: (3, min)}


def numbers(data, at, count):
    return [int.from_bytes(data[at + 2 * i:at + 2 * i + 2], "little") for i in range(count)]


class Sheet:
    """An accepted worksheet taken apart."""

    def __init__(self, data):
        self.data, self.at = data, 7
        self.kind = data[5]
        self.chains = [self.chain() for _unused in range(data[6])]
        count = self.byte()
        self.entries = [self.entry() for _unused in range(count)]
        self.final = self.term() if self.kind == 1 else None
        assert self.at == len(data)

    def byte(self):
        self.at += 1
        return self.data[self.at - 1]

    def chain(self):
        """The keys, and the set of starts, None for anywhere. Version 1 has one start, version 2 a count first."""
        count, *keys = (self.byte() for _unused in range(4))
        starts = numbers(self.data, self.at + 1, self.byte()) if self.data[3] == 2 else numbers(self.data, self.at, 1)
        self.at += 2 * len(starts)
        return keys[:count], None if starts in ([], [ANYWHERE]) else set(starts)

    def entry(self):
        """The reduction, the condition (None without one) and the value."""
        byte = self.byte()
        assert byte in ((0,) if self.kind == 0 else (1, 2, 3, 4, 5, 129, 130, 131, 132, 133))
        return byte % 128, self.term() if byte > 128 else None, self.term()

    def term(self):
        tag = self.byte()
        if tag in (0x30, 0x31):
            return "leaf", self.byte()
        if tag in (0x11, 0x21):
            self.at += 4
            return "number", int.from_bytes(self.data[self.at - 4:self.at], "little")
        assert tag in (0x12, 0x22)
        return "operator", self.byte(), self.term(), self.term()


def kept_by(keys, walks):
    """The figure of each key: of the walks those with the best first key are kept, of these those with the best second, and so
    on. None with no walk."""
    found = []
    for key in keys:
        place, best = KEYS[key]
        if walks:
            found.append(best(w[place] for w in walks))
            walks = {w for w in walks if w[place] == found[-1]}
    return found or None


def figures(n, rows, keys, starts, most):
    """For each number of passages up to `most`, the figures at each place over all walks of no more passages. A walk is its four
    values; `ends` has those of just so many passages, by the place where they end."""
    ends = {v: {(v, 0, 0, 65535)} for v in range(n) if starts is None or v in starts}
    reached = [ends.get(v, set()) for v in range(n)]
    found = [[kept_by(keys, walks) for walks in reached]]
    for _unused in range(most):
        longer = {}
        for a, b, seconds, size in rows:
            for s, p, t, c in ends.get(a, ()):
                longer.setdefault(b, set()).add((s, p + 1, t + seconds, min(c, size)))
        ends = longer
        reached = [walks | ends.get(v, set()) for v, walks in enumerate(reached)]
        found.append([kept_by(keys, walks) for walks in reached])
    return found


def compute(number, a, b):
    """"An operator with an absent operand gives absent", but "min and max with one absent operand give the other operand" (document 02, c)."""
    if a is None or b is None:
        return (b if a is None else a) if number in (MIN, MAX) else None
    value = {MIN: min(a, b), MAX: max(a, b), PLUS: a + b, MINUS: a - b, TIMES: a * b, DIVIDE: a // b if b else -1,
             EQUAL: int(a == b), LESS: int(a < b), GREATER: int(a > b), AND: int(a != 0 and b != 0), OR: int(a != 0 or b != 0)}[number]
    return value if 0 <= value < 2 ** 64 else None


def worth(term, leaves):
    if term[0] == "leaf":
        return leaves[term[1]]
    if term[0] == "number":
        return term[1]
    return compute(term[1], worth(term[2], leaves), worth(term[3], leaves))


def counts(condition, leaves):
    """"A place counts where the condition is a number other than 0; an absent condition leaves the place out." (document 02, a)"""
    return condition is None or worth(condition, leaves) not in (None, 0)


def reduced(number, values):
    there = [v for v in values if v is not None]
    if not there:
        return None
    value = {1: min(there), 2: max(there), 3: sum(there), 4: int(all(there)), 5: int(any(there))}[number]
    return value if value < 2 ** 64 else None


def places_of(graph):
    """n and the rows of a map."""
    n, m = numbers(graph, 5, 2)
    flat = numbers(graph, 9, 4 * m)
    return n, [flat[4 * i:4 * i + 4] for i in range(m)]


def quiet_round(found, n):
    """The smallest r, one or more, in which no figure changes; found has those of each chain up to 2 × n + 1."""
    most = 2 * n + 1  # longer walks change no figure: looked at up to here
    quiet = next(r for r in range(1, most + 1) if all(f[r] == f[r - 1] for f in found))
    assert quiet <= 2 * n and all(f[r] == f[quiet] for f in found for r in range(quiet, most + 1))
    return quiet


def outright(sheet, graph, stop=None):
    """n, rounds, kind and values of an answer."""
    plan = Sheet(sheet)
    n, rows = places_of(graph)
    most = 2 * n + 1
    found = [figures(n, rows, keys, starts, most) for keys, starts in plan.chains]
    rounds = quiet_round(found, n) if stop is None else stop
    reached = [f[most if stop is None else min(stop, most)] for f in found]
    places = [[f[v] and f[v][-1] for f in reached] for v in range(n)]
    if plan.kind == 0:
        return n, rounds, 0, [worth(plan.entries[0][2], leaves) for leaves in places]
    results = [reduced(r, [worth(term, leaves) for leaves in places if counts(condition, leaves)]) for r, condition, term in plan.entries]
    return n, rounds, 1, [worth(plan.final, results)]


# ------------------------------------------------------------------------------------------------ cases
# (name, call, rounds at which it is stopped, lent, refusal, worksheet, map, answer)


def one(name, sheet, graph, call, stop, expected, lent=None):
    """A run that answers; expected are n, rounds, kind and values. It is lent what the answer takes."""
    assert outright(sheet, graph, stop if call > 1 else None) == expected, (name, CALLS[call], stop, expected)
    whole = answer(*expected)
    return name, call, stop, len(whole) if lent is None else lent, 0, sheet, graph, whole


def runs(name, sheet, graph, after):
    """By pull, by push and stopped after 0, 1, 2, .. rounds. `after` has the values after so many; the last are the answer's, and
    one less than how many there are is one more than the rounds reported: a run stopped that late changes nothing any more."""
    n, kind, rounds = numbers(graph, 5, 1)[0], sheet[5], len(after) - 2
    assert after[rounds - 1] == after[rounds] == after[rounds + 1]
    for call in (0, 1):
        yield one(name, sheet, graph, call, 0, (n, rounds, kind, after[-1]))
    for stop, values in enumerate(after):
        for call in (2, 3):
            yield one(name, sheet, graph, call, stop, (n, stop, kind, values))


def ends(name, sheet, graph, rounds, values, *stops):
    """By pull and by push, with the rounds reported; then stopped late: at each of `stops` the answer is the same."""
    n, kind = numbers(graph, 5, 1)[0], sheet[5]
    for call in (0, 1):
        yield one(name, sheet, graph, call, 0, (n, rounds, kind, values))
    for stop in stops:
        for call in (2, 3):
            yield one(name, sheet, graph, call, stop, (n, stop, kind, values))


def refused(number, name, sheet, graph, lent=46):
    """By each call."""
    for call in range(4):
        yield name, call, 2 if call > 1 else 0, lent, number, sheet, graph, b""


# ---- "Marked and other trials"


def trials():
    yield from runs("key 2 from 0", at_each(slots(2)), MAP_A,
                    [[0, _, _, _], [0, 5, 2, _], [0, 5, 2, 5], [0, 5, 2, 5], [0, 5, 2, 5]])
    full = 65535
    yield from runs("keys 2,5 from 0", at_each(slots(2, 5)), MAP_A,
                    [[full, _, _, _], [full, 10, 4, _], [full, 10, 4, 7], [full, 10, 4, 7], [full, 10, 4, 7]])
    narrow = [[full, _, _, _], [full, 10, 4, _], [full, 4, 4, 7], [full, 4, 4, 4], [full, 4, 4, 4], [full, 4, 4, 4]]
    yield from runs("keys 2,6 from 0", at_each(slots(2, 6)), MAP_A, narrow)
    yield from runs("key 6 from 0", at_each(slots(6)), MAP_A, narrow)
    yield from runs("key 1 from 3", at_each(slots(1, start=3)), MAP_A, [[_, _, _, 0]] * 3)
    yield from runs("one place, self-passage size 3, key 6", at_each(slots(6)), LOOP, [[full], [3], [3], [3]])
    yield from runs("one place, no passage, key 6", at_each(slots(6)), LONE, [[full]] * 3)
    yield from runs("two places, key 6 from 0", at_each(slots(6)), TWO, [[full, _], [full, 9], [2, 9], [2, 2], [2, 2], [2, 2]])
    yield from refused(10, "keys 5,2", at_each(slots(5, 2)), MAP_A)
    yield from runs("marked: max of key 1 from 0", hexed("4C 50 57 01 00 01 01 01 01 00 00 00 00 01 02 30 00 31 00"), MAP_A,
                    [[0], [1], [2], [2], [2]])
    yield from trial_limits()


def deep(levels):
    """1 + (1 + (.. + chain 0)): of so many levels."""
    return (hexed("12 03") + lit(1)) * (levels - 1) + chain(0)


def wide(terms):
    """A sum of an odd number of terms, in a tree of little depth, all but the last 1, the last chain 0."""
    if terms == 1:
        return chain(0)
    left = (terms - 1) // 2 | 1
    return op(PLUS, wide(left).replace(chain(0), lit(1)), wide(terms - 1 - left))


def trial_limits():
    # "Depth 16, 64 terms, 256 places read; 17, 65, 257 refused 11, 12, 4."
    yield from ends("depth 16", at_each(slots(2), term=deep(16)), MAP_A, 3, [15, 20, 17, 20])
    yield from refused(11, "depth 17", at_each(slots(2), term=deep(17)), MAP_A)
    # 63 terms have 32 leaves, 31 of them 1; the 64th term is the final one
    many = [bytes([2]) + wide(63)]
    yield from ends("64 terms", one_result([slots(2)], many, entry(0)), MAP_A, 3, [36])
    yield from refused(12, "65 terms", one_result([slots(2)], [b"\1" + lit(0)] + many, entry(1)), MAP_A)
    far = at_each(slots(3, start=ANYWHERE))
    yield from ends("256 places", far, map_file(256, (255, 0, 1, 1)), 1, list(range(256)))
    yield from refused(4, "257 places", far, map_file(257, (255, 0, 1, 1)), 2400)


# ---- "Traps on the route", and what a run of that kind would say


def traps():
    # Stopping after n rounds: after 3 rounds of 3 places the narrow passage has come back to place 0 only.
    full = 65535
    yield from runs("stopping after n rounds", at_each(slots(6)), RING,
                    [[full, _, _], [full, 9, _], [full, 9, 8], [2, 9, 8], [2, 2, 8], [2, 2, 2], [2, 2, 2], [2, 2, 2]])
    ring = [(v, (v + 1) % 256, 1, 2 if v == 255 else 9) for v in range(256)]
    yield from ends("stopping after n rounds: 256 places, rounds 512", at_each(slots(6)), map_file(256, *ring), 512, [2] * 256)
    # Keeping only the best pair: keys 5,2 are refused, and of the keys that there are none forgets the quick narrow passage.
    yield from refused(10, "the best pair: keys 5,2", at_each(slots(5, 2)), NARROW)
    yield from runs("the best pair: key 2", at_each(slots(2)), NARROW, [[0, _, _], [0, 1, _], [0, 1, 2], [0, 1, 2], [0, 1, 2]])
    yield from runs("the best pair: key 5", at_each(slots(5)), NARROW,
                    [[full, _, _], [full, 10, _], [full, 10, 3], [full, 10, 3], [full, 10, 3]])
    yield from runs("the best pair: keys 2,5", at_each(slots(2, 5)), NARROW,
                    [[full, _, _], [full, 5, _], [full, 5, 3], [full, 5, 3], [full, 5, 3]])
    both = at_each(slots(5), slots(2), term=op(PLUS, op(TIMES, chain(0), lit(100)), chain(1)))
    yield from runs("the best pair: keys 5 and 2 apart", both, NARROW,
                    [[6553500, _, _], [6553500, 1001, _], [6553500, 1001, 302], [6553500, 1001, 302], [6553500, 1001, 302]])
    # Letting absent count as 0 in a min over places: from place 2 there is no walk to place 0.
    five = op(PLUS, chain(0), lit(5))
    for number, reduction, after in (
        (1, "min", [5, 5, 5, 5, 5]), (2, "max", [5, 6, 7, 7, 7]), (3, "sum", [5, 11, 18, 18, 18]), (4, "and", [1] * 5), (5, "or", [1] * 5),
    ):
        yield from runs(f"absent as 0 in a {reduction}", one_result([slots(1, start=2)], [bytes([number]) + five], entry(0)), MAP_A,
                        [[x] for x in after])
    lost = op(MINUS, chain(0), lit(1))  # from place 3 there is the empty walk only
    for number in (1, 2, 3, 4, 5):
        yield from ends(f"all absent, reduction {number}", one_result([slots(1, start=3)], [bytes([number]) + lost], entry(0)), MAP_A, 1, [_])
    yield from ends("absent as 0 in a min of two terms", at_each(slots(1, start=2), term=op(MIN, chain(0), lit(9))), MAP_A, 3, [9, 1, 0, 2])
    # Reading a neighbour's new value within a round: a place further each round, in whichever order the rows stand.
    for name, rows in (("forward", LINE), ("backward", LINE[::-1])):
        yield from runs(f"a neighbour's new value, rows {name}", at_each(slots(1)), map_file(4, *rows),
                        [[0, _, _, _], [0, 1, _, _], [0, 1, 2, _], [0, 1, 2, 3], [0, 1, 2, 3], [0, 1, 2, 3]])
    yield from runs("a neighbour's new value, a self-passage first", at_each(slots(6)), map_file(2, (0, 0, 0, 1), (0, 1, 0, 9)),
                    [[full, _], [1, 9], [1, 1], [1, 1], [1, 1]])


# ---- worksheets that no fusing writes, and each part of a worksheet


def sheets():
    yield from sheet_chains()
    yield from sheet_keys()
    yield from sheet_entries()
    yield from sheet_operators()
    yield from sheet_cut_off()
    yield from sheet_stops()
    yield from conditions()
    yield from sets()


def sheet_chains():
    twice = op(PLUS, chain(0), chain(1))
    yield from runs("equal chains", at_each(slots(2), slots(2), term=twice), MAP_A,
                    [[0, _, _, _], [0, 10, 4, _], [0, 10, 4, 10], [0, 10, 4, 10], [0, 10, 4, 10]])
    # key 6 from 0 takes 4 rounds, key 2 from 0 takes 3, key 1 from 3 takes 1
    still = [[_, _, _, 0]] * 6
    yield from runs("an unused chain behind, which takes longer", at_each(slots(1, start=3), slots(6)), MAP_A, still)
    yield from runs("an unused chain before, which takes longer", at_each(slots(6), slots(1, start=3), term=chain(1)), MAP_A, still)
    yield from runs("an unused chain, and a literal", at_each(slots(2), term=lit(8)), MAP_A, [[8] * 4] * 5)
    yield from runs("no chain", at_each(term=lit(4294967295)), MAP_A, [[4294967295] * 4] * 3)
    yield from runs("no chain, kind 1", one_result([], [b"\3" + lit(7)], entry(0)), MAP_A, [[28]] * 3)
    yield from runs("no chain, one place", at_each(term=lit(0)), LOOP, [[0]] * 3)
    eight = [slots(1, start=3), slots(2), slots(6), slots(5), slots(2, 5), slots(3, start=ANYWHERE), slots(4, start=ANYWHERE), slots(1)]
    for i, values in enumerate(([_, _, _, 0], [0, 5, 2, 5], [65535, 4, 4, 4], [65535, 10, 4, 7], [65535, 10, 4, 7],
                                [0, 0, 0, 0], [0, 2, 2, 3], [0, 1, 1, 2])):
        yield from ends(f"8 chains, chain {i}", at_each(*eight, term=chain(i)), MAP_A, 4, values)


def sheet_keys():
    # From anywhere each place has the empty walk. Key 1, 2: 0. Key 3: the least place from which there is a walk; key 4 the greatest.
    for keys, rounds, values in (
        ((1,), 1, [0, 0, 0, 0]), ((2,), 1, [0, 0, 0, 0]), ((3,), 3, [0, 0, 0, 0]), ((4,), 2, [0, 2, 2, 3]),
        ((5,), 1, [65535] * 4), ((6,), 4, [65535, 4, 4, 4]),
    ):
        yield from ends(f"key {keys[0]} from anywhere", at_each(slots(*keys, start=ANYWHERE)), MAP_A, rounds, values)
    # Walks to place 3 in 0 s: the empty one and that from place 1. Keys 2,3 keep the latter, keys 2,4 the former; 2,1 the former.
    yield from runs("keys 2,3 from anywhere", at_each(slots(2, 3, start=ANYWHERE)), MAP_A, [[0, 1, 2, 3]] + [[0, 1, 2, 1]] * 3)
    yield from runs("keys 2,4 from anywhere", at_each(slots(2, 4, start=ANYWHERE)), MAP_A, [[0, 1, 2, 3]] * 3)
    yield from runs("keys 2,6 from anywhere", at_each(slots(2, 6, start=ANYWHERE)), MAP_A, [[65535] * 4] + [[65535, 65535, 65535, 7]] * 3)
    yield from runs("keys 2,5 from anywhere", at_each(slots(2, 5, start=ANYWHERE)), MAP_A, [[65535] * 4] * 3)
    # Of the walks to place 1 in 5 s, that of one passage and that of two: keys 2,1,5 keep the former, keys 2,5,1 too (size 10).
    for keys, values in (((2, 1), [0, 1, 1, 2]), ((2, 1, 5), [65535, 10, 4, 7]), ((2, 1, 6), [65535, 10, 4, 7]),
                         ((2, 2, 2), [0, 5, 2, 5]), ((1, 2), [0, 5, 2, 5]), ((4, 3, 2), [0, 5, 2, 5]), ((3, 1), [0, 1, 1, 2])):
        yield from ends(f"keys {keys}", at_each(slots(*keys)), MAP_A, 3, values)
    # Five passages between the same places: the second and the third key decide, whichever row stands first.
    five = map_file(2, (0, 1, 4, 5), (0, 1, 4, 8), (0, 1, 4, 3), (0, 1, 6, 9), (0, 1, 6, 2))
    for keys, first, value in (((1, 2), 0, 4), ((1, 5), 65535, 9), ((1, 6), 65535, 2), ((1, 2, 5), 65535, 8), ((1, 2, 6), 65535, 3),
                               ((3, 2, 5), 65535, 8), ((4, 2, 6), 65535, 3)):
        yield from runs(f"keys {keys} of five passages", at_each(slots(*keys)), five, [[first, _]] + [[first, value]] * 3)
    # An earlier key's figure may change while the last one's stays: 0→1 9 s, 0→2 1 s, 2→1 1 s, all of size 4. In round 2 the
    # seconds at place 1 fall from 9 to 2 and the size stays: so round 2 is not quiet, and 3 are reported.
    bypass = map_file(3, (0, 1, 9, 4), (0, 2, 1, 4), (2, 1, 1, 4))
    yield from runs("keys 2,5: only the first figure changes in round 2", at_each(slots(2, 5)), bypass,
                    [[65535, _, _]] + [[65535, 4, 4]] * 4)
    # Seconds 65,535 each: sums beyond 16 bits.
    far = map_file(3, (0, 1, 65535, 65534), (1, 2, 65535, 1))
    yield from runs("seconds beyond 16 bits", at_each(slots(2)), far, [[0, _, _], [0, 65535, _]] + [[0, 65535, 131070]] * 3)
    yield from runs("size 65,534", at_each(slots(5)), far, [[65535, _, _], [65535, 65534, _]] + [[65535, 65534, 1]] * 3)
    # Repeated rows, and two passages between the same places.
    yield from runs("repeated rows", at_each(slots(2, 6)), map_file(2, (0, 1, 2, 8), (0, 1, 2, 8), (0, 1, 2, 5)),
                    [[65535, _], [65535, 5], [65535, 5], [65535, 5]])


def sheet_entries():
    yield from runs("kind 1, no entry", one_result([], [], rlit(4294967295)), MAP_A, [[4294967295]] * 3)
    yield from runs("kind 1, no entry, an unused chain", one_result([slots(6)], [], rop(PLUS, rlit(2), rlit(3))), MAP_A, [[5]] * 6)
    yield from runs("an unused entry", one_result([slots(1)], [b"\1" + chain(0), b"\2" + chain(0)], entry(1)), MAP_A, [[0], [1], [2], [2], [2]])
    yield from runs("an entry twice", one_result([slots(1)], [b"\3" + chain(0)], rop(TIMES, entry(0), entry(0))), MAP_A,
                    [[0], [4], [16], [16], [16]])
    five = [bytes([r]) + op(PLUS, chain(0), lit(3)) for r in (1, 2, 3, 4, 5)]  # 3, 8, 5, 8 in the end
    for i, value in enumerate((3, 8, 24, 1, 1)):
        yield from ends(f"5 reductions, entry {i}", one_result([slots(2)], five, entry(i)), MAP_A, 3, [value])
    false = [bytes([r]) + chain(0) for r in (4, 5)]  # 0, 5, 2, 5
    yield from ends("and of a 0", one_result([slots(2)], false, entry(0)), MAP_A, 3, [0])
    yield from ends("or of a 0", one_result([slots(2)], false, entry(1)), MAP_A, 3, [1])
    yield from ends("or of nothing but 0", one_result([slots(1, start=3)], [b"\5" + chain(0)], entry(0)), MAP_A, 1, [0])
    eight = [bytes([3]) + op(TIMES, chain(0), lit(i)) for i in range(8)]  # 12 times i
    yield from ends("8 entries", one_result([slots(2)], eight, rop(MINUS, entry(7), entry(2))), MAP_A, 3, [60])
    # 4,294,967,295 squared is 18,446,744,065,119,617,025, and 8,589,934,590 less than the greatest number: at one place it is a
    # sum, at two places too large, and stays so.
    square = op(TIMES, lit(4294967295), lit(4294967295))
    yield from ends("a sum just small enough", one_result([], [b"\3" + square], entry(0)), LONE, 1, [18446744065119617025])
    yield from ends("a sum too large", one_result([], [b"\3" + square], entry(0)), TWO, 1, [_])
    yield from ends("a sum too large, of 4 places", one_result([], [b"\3" + square], entry(0)), MAP_A, 1, [_])
    yield from ends("a sum too large in a final term", one_result([], [b"\3" + square], rop(MIN, entry(0), rlit(1))), TWO, 1, [1])
    yield from ends("a sum too large plus 1", one_result([], [b"\3" + square], rop(PLUS, entry(0), rlit(1))), TWO, 1, [_])


def sheet_operators():
    # Chain 0 is 0, 5, 2, 5 and chain 1, key 1 from 2, is absent, 1, 0, 2.
    both = [slots(2), slots(1, start=2)]
    for number, values in ((MIN, [0, 1, 0, 2]), (MAX, [0, 5, 2, 5]), (PLUS, [_, 6, 2, 7]), (MINUS, [_, 4, 2, 3]), (TIMES, [_, 5, 0, 10]),
                           (DIVIDE, [_, 5, _, 2]), (EQUAL, [_, 0, 0, 0]), (LESS, [_, 0, 0, 0]), (GREATER, [_, 1, 1, 1]),
                           (AND, [_, 1, 0, 1]), (OR, [_, 1, 1, 1])):
        yield from ends(f"operator {number}", at_each(*both, term=op(number, chain(0), chain(1))), MAP_A, 3, values)
        turned = {MINUS: [_, _, _, _], DIVIDE: [_, 0, 0, 0], LESS: [_, 1, 1, 1], GREATER: [_, 0, 0, 0]}.get(number, values)
        yield from ends(f"operator {number}, turned", at_each(*both, term=op(number, chain(1), chain(0))), MAP_A, 3, turned)
    # At the edge of 64 bits: 4,294,967,295 × 4,294,967,295 + 2 × 4,294,967,295 is the greatest number.
    big = 4294967295
    greatest = op(PLUS, op(TIMES, lit(big), lit(big)), op(TIMES, lit(big), lit(2)))
    yield from ends("the greatest number", at_each(term=greatest), LONE, 1, [2 ** 64 - 1])
    yield from ends("plus too large", at_each(term=op(PLUS, greatest, lit(1))), LONE, 1, [_])
    yield from ends("times too large", at_each(term=op(TIMES, greatest, lit(2))), LONE, 1, [_])
    yield from ends("times 1", at_each(term=op(TIMES, greatest, lit(1))), LONE, 1, [2 ** 64 - 1])
    yield from ends("too large, then times 0", at_each(term=op(TIMES, op(PLUS, greatest, lit(1)), lit(0))), LONE, 1, [_])
    yield from ends("final: minus below 0", one_result([slots(2)], [b"\2" + chain(0)], rop(MINUS, rlit(4), entry(0))), MAP_A, 3, [_])
    yield from ends("final: divided by 0", one_result([slots(2)], [b"\1" + chain(0)], rop(DIVIDE, rlit(4), entry(0))), MAP_A, 3, [_])


def sheet_cut_off():
    """One counter cut off: min and max with one absent operand give the other operand; with both absent, absent."""
    # Key 2 from 0 is 0, 5, 2, 5; from 3 there is the empty walk only: absent, absent, absent, 0.
    both = [slots(2), slots(2, start=3)]
    for first, second in ((chain(0), chain(1)), (chain(1), chain(0))):
        yield from runs("the lesser from 0 or 3", at_each(*both, term=op(MIN, first, second)), MAP_A,
                        [[0, _, _, 0], [0, 5, 2, 0], [0, 5, 2, 0], [0, 5, 2, 0], [0, 5, 2, 0]])
        yield from runs("the greater from 0 or 3", at_each(*both, term=op(MAX, first, second)), MAP_A,
                        [[0, _, _, 0], [0, 5, 2, 0], [0, 5, 2, 5], [0, 5, 2, 5], [0, 5, 2, 5]])
    lost = op(MINUS, lit(0), lit(1))
    for number in range(MIN, OR + 1):
        yield from ends(f"operator {number}, both absent", at_each(term=op(number, lost, lost)), LONE, 1, [_])
        for name, x in (("0", 0), ("1", 1), ("the greatest literal", 2 ** 32 - 1)):
            value = x if number in (MIN, MAX) else _
            yield from ends(f"operator {number}, absent and {name}", at_each(term=op(number, lost, lit(x))), LONE, 1, [value])
            yield from ends(f"operator {number}, {name} and absent", at_each(term=op(number, lit(x), lost)), LONE, 1, [value])
    # The other operand goes on into what stands around it, and what stands inside is absent as it was.
    one_there = op(MIN, chain(0), chain(1))
    for name, term, values in (
        ("plus 1", op(PLUS, one_there, lit(1)), [1, 6, 3, 1]), ("of a sum", op(MAX, op(PLUS, chain(0), chain(1)), lit(4)), [4, 4, 4, 5]),
        ("of three, one there", op(MIN, op(MIN, chain(1), lost), chain(0)), [0, 5, 2, 0]),
        ("of three, none there", op(MAX, op(MAX, chain(1), lost), lost), [_, _, _, 0]),
    ):
        yield from ends(f"min and max, one absent, {name}", at_each(*both, term=term), MAP_A, 3, values)
    # In a condition, in the value of a reduction, and between results.
    for name, entries, final, values in (
        ("as a condition", [where(3, op(MAX, chain(1), chain(0)), lit(1))], entry(0), [3]), ("as a value", [b"\3" + one_there], entry(0), [7]),
        ("of results", [where(3, lit(0), chain(0)), b"\3" + chain(0)], rop(MIN, entry(0), entry(1)), [12]),
        ("of results, turned", [where(3, lit(0), chain(0)), b"\3" + chain(0)], rop(MAX, entry(1), entry(0)), [12]),
        ("of results, both absent", [where(3, lit(0), chain(0)), where(1, lit(0), chain(0))], rop(MAX, entry(0), entry(1)), [_]),
    ):
        yield from ends(f"min and max, one absent, {name}", one_result(both, entries, final), MAP_A, 3, values)


def sheet_stops():
    """Stopped long after the first quiet round: the number given is reported, both bytes of it."""
    yield from ends("stopped late, key 6", at_each(slots(6)), TWO, 4, [2, 2], 5, 255, 256, 257, 512, 65535)
    yield from ends("stopped late, no chain", at_each(term=lit(1)), LOOP, 1, [1], 2, 256, 65535)


# ---- entries with a condition


def only(reduction, condition, value, *chains):
    """One entry, which is the result; chain 0 is key 2 from 0, on map A 0, 5, 2, 5 after 3 rounds."""
    return one_result([slots(2), *chains], [where(reduction, condition, value)], entry(0))


def in_turn(graph, rounds, cases):
    """Each (name, worksheet, result) by pull or by push, in turn: what an entry makes of the final figures does not depend on it."""
    n = numbers(graph, 5, 1)[0]
    for i, (name, sheet, value) in enumerate(cases):
        yield one(name, sheet, graph, i % 2, 0, (n, rounds, 1, [value]))


def conditions():
    # Farther than 2 seconds are places 1 and 3, from round 1 and from round 2 on.
    farther = op(GREATER, chain(0), lit(2))
    yield from runs("the sum beyond 2 seconds", only(3, farther, chain(0)), MAP_A, [[_], [5], [10], [10], [10]])
    yield from ends("the largest beyond 2 seconds", only(2, farther, chain(0)), MAP_A, 3, [5], 4, 256)
    yield from ends("the largest beyond 9 seconds", only(2, op(GREATER, chain(0), lit(9)), chain(0)), MAP_A, 3, [_], 4, 256)
    yield from in_turn(MAP_A, 3, condition_places())
    yield from in_turn(MAP_A, 3, condition_numbers())
    yield from in_turn(MAP_A, 3, condition_values())
    yield from in_turn(MAP_A, 3, condition_entries())
    yield from condition_sums()
    yield from condition_rounds()


def condition_places():
    """Which places count, by each reduction."""
    # Chain 1 is key 1 from 0: 0, 1, 1, 2. Places 1 and 3 count; 0 and 2; 0; 1, 2 and 3; 2; none.
    for name, condition, values in (
        ("beyond 2", op(GREATER, chain(0), lit(2)), [1, 2, 3, 1, 1]), ("under 5", op(LESS, chain(0), lit(5)), [0, 1, 1, 0, 1]),
        ("at 0", op(EQUAL, chain(0), lit(0)), [0, 0, 0, 0, 0]), ("not at 0", op(OR, chain(0), lit(0)), [1, 2, 4, 1, 1]),
        ("at 2", op(EQUAL, chain(0), lit(2)), [1, 1, 1, 1, 1]), ("beyond 9", op(GREATER, chain(0), lit(9)), [_] * 5),
    ):
        for number, value in enumerate(values, 1):
            yield f"reduction {number} over places {name}", only(number, condition, chain(1), slots(1)), value
    # Key 1 from 2 is absent, 1, 0, 2: as a condition alone it leaves out place 0, where it is absent, and place 2, where it is 0. The
    # value is 1, 6, 3, 6.
    for number, value in ((1, 6), (2, 6), (3, 12), (4, 1), (5, 1)):
        yield f"a chain alone as condition, reduction {number}", only(number, chain(1), op(PLUS, chain(0), lit(1)), slots(1, start=2)), value


def condition_numbers():
    """Conditions that are the same everywhere: all places count, and the sum is 12, or none."""
    big = 4294967295
    greatest = op(PLUS, op(TIMES, lit(big), lit(big)), op(TIMES, lit(big), lit(2)))
    for name, condition, value in (
        ("0", lit(0), _), ("1", lit(1), 12), ("2", lit(2), 12), ("256", lit(256), 12), ("65,536", lit(65536), 12), ("2^32", op(PLUS, lit(big), lit(1)), 12),
        ("2^63", op(TIMES, lit(2 ** 31), op(TIMES, lit(2 ** 31), lit(2))), 12), ("2^64 - 1", greatest, 12), ("too large", op(PLUS, greatest, lit(1)), _),
        ("below zero", op(MINUS, lit(0), lit(1)), _), ("1 by 0", op(DIVIDE, lit(1), lit(0)), _), ("1 - 1", op(MINUS, lit(1), lit(1)), _),
    ):
        yield f"condition {name}", only(3, condition, chain(0)), value
    for number in (1, 2, 4, 5):
        yield f"condition 0, reduction {number}", only(number, lit(0), chain(0)), _


def condition_values():
    """Values absent where the condition counts are skipped."""
    # Chain 1 is absent, 1, 0, 2.
    less = op(MINUS, chain(1), lit(1))  # absent, 0, absent, 1
    for name, condition, values in (("everywhere", lit(1), [0, 1, 1, 0, 1]), ("at 5 seconds", op(EQUAL, chain(0), lit(5)), [0, 1, 1, 0, 1]),
                                    ("under 5 seconds", op(LESS, chain(0), lit(5)), [_] * 5)):
        for number, value in enumerate(values, 1):
            yield f"some values absent, {name}, reduction {number}", only(number, condition, less, slots(1, start=2)), value
    for number in (1, 4):
        yield f"a value absent where the place does not count, reduction {number}", only(number, op(GREATER, chain(0), lit(2)), chain(1), slots(1, start=2)), 1
    # The value, 4 less key 2, is there at places 0 and 2 alone; places 1 and 3 count.
    yield "values where the condition is not", only(3, chain(1), op(MINUS, lit(4), chain(0)), slots(1, start=2)), _


def condition_entries():
    """Several entries, and what the final expression makes of them."""
    # Beyond 2 seconds are 2 places of 10 seconds together; in all it is 12 seconds.
    farther = op(GREATER, chain(0), lit(2))
    total, far, count, none = b"\3" + chain(0), where(3, farther, chain(0)), where(3, farther, lit(1)), where(3, lit(0), chain(0))
    for name, entries, final, value in (
        ("the mean beyond 2 seconds", [far, count], rop(DIVIDE, entry(0), entry(1)), 5),
        ("an entry without a condition, then one with", [total, far], rop(MINUS, entry(0), entry(1)), 2),
        ("an entry with a condition, then one without", [far, total], rop(MINUS, entry(1), entry(0)), 2),
        ("the same reduction and value under two conditions", [far, where(3, lit(1), chain(0))], rop(MINUS, entry(1), entry(0)), 2),
        ("an unused entry with a condition", [none, total], entry(1), 12), ("an entry with a condition twice", [far], rop(TIMES, entry(0), entry(0)), 100),
        ("absent in the final expression", [none], rop(PLUS, entry(0), rlit(1)), _), ("none asked for", [far], rlit(3), 3),
    ):
        yield name, one_result([slots(2)], entries, final), value
    eight = [where(3, op(GREATER, chain(0), lit(i)), lit(10 ** i)) for i in range(8)]  # places beyond i: 3, 3, 2, 2, 2, none, none, none
    for i, value in ((0, 3), (1, 30), (4, 20000), (5, _), (7, _)):
        yield f"8 entries with conditions, entry {i}", one_result([slots(2)], eight, entry(i)), value
    # As no fusing writes them: equal chains, the condition's behind the value's.
    yield "equal chains in condition and value", only(3, op(GREATER, chain(1), lit(2)), chain(0), slots(2)), 10
    # 15 added to each: as value 15, 20, 17, 20; as condition never 0. 14 added to each: 14, 19, 16, 19.
    yield "condition and value of depth 16", only(3, deep(16), deep(16)), 72
    yield "a comparison of depth 16", only(3, op(GREATER, deep(15), lit(16)), chain(0)), 10
    # 31 terms have 16 leaves, 15 of them 1, so 15 is added too; with the second entry and the final expression there are 64.
    yield "64 terms, a condition among them", one_result([slots(2)], [where(3, wide(31), wide(31)), b"\1" + lit(0)], entry(0)), 72


def condition_sums():
    # Key 1 from 0 is 0, 1. At place 0 alone the square is a sum, at both places too large.
    square = op(TIMES, lit(4294967295), lit(4294967295))
    yield from in_turn(TWO, 2, (
        ("a sum small enough where one place counts", one_result([slots(1)], [where(3, op(EQUAL, chain(0), lit(0)), square)], entry(0)), 18446744065119617025),
        ("a sum too large over those that count", one_result([slots(1)], [where(3, op(LESS, chain(0), lit(2)), square)], entry(0)), _),
    ))
    # Of 256 places with no passage, key 3 from anywhere is the place itself: five are above 250, 251 + .. + 255 = 1,265.
    last, first = op(GREATER, chain(0), lit(250)), op(LESS, chain(0), lit(1))
    yield from in_turn(map_file(256), 1, ((f"reduction {reduction} over {name} of 256 places", one_result(
        [slots(3, start=ANYWHERE)], [where(reduction, condition, value)], entry(0)), result) for name, reduction, condition, value, result in (
            ("the last five", 1, last, chain(0), 251), ("the last five", 2, last, chain(0), 255), ("the last five", 3, last, chain(0), 1265),
            ("the first", 3, first, lit(9), 9), ("all but the first", 3, chain(0), lit(1), 255))))
    # One place: the empty walk's crate size is 65,535, and the self-passage's is 3.
    yield from in_turn(LOOP, 2, ((f"one place, where key 6 is {x}", one_result([slots(6)], [where(2, op(EQUAL, chain(0), lit(x)), lit(8))], entry(0)), result)
                                 for x, result in ((3, 8), (65535, _))))


def condition_rounds():
    # Key 6 from 0 takes 4 rounds: 65,535; then 10, 4; then 4, 4, 7; then 4, 4, 4. It stands in the condition alone.
    yield from runs("a chain of the condition takes longer", only(3, op(LESS, chain(1), lit(7)), chain(0), slots(6)), MAP_A,
                    [[_], [2], [7], [12], [12], [12]])
    yield from runs("a place that counts in round 1 alone", only(3, op(EQUAL, chain(1), lit(10)), lit(1), slots(6)), MAP_A,
                    [[_], [1], [_], [_], [_], [_]])


# ---- chains from sets of starts, and other worksheets of version 2


def sets():
    yield from set_of_two()
    yield from set_keys()
    yield from set_sizes()
    yield from set_rounds()
    yield from set_versions()
    yield from set_entries()


def set_of_two():
    """Map A, key 2 from {0, 2}. The walks of no passage stay at 0 and at 2. Of one passage there are 0 to 1 (5 s) and 2 to 1 (3 s), and 0 to 2, which is no
    better than to stay; of two, 0-1-3 (5 s) and 2-1-3 (3 s), and 0-2-1 (5 s); of three, 0-2-1-3 (5 s). So round 1 changes place 1, round 2 changes place 3,
    and round 3 is the first quiet one: 3 rounds."""
    after = [[0, _, 0, _], [0, 3, 0, _], [0, 3, 0, 3], [0, 3, 0, 3], [0, 3, 0, 3]]
    yield from runs("key 2 from 0,2", at_each(from_set(2, starts=(0, 2)), head=V0), MAP_A, after)
    # From 0 alone it is 0, 5, 2, 5 and from 2 alone absent, 3, 0, 3: at each place the least of those that are there.
    alone = [from_set(2, starts=(0, 2)), from_set(2), from_set(2, starts=(2,))]
    for i, values in enumerate(([0, 3, 0, 3], [0, 5, 2, 5], [_, 3, 0, 3])):
        yield from ends(f"key 2 from 0,2, from 0 and from 2, chain {i}", at_each(*alone, term=chain(i), head=V0), MAP_A, 3, values)
    least = op(EQUAL, chain(0), op(MIN, chain(1), chain(2)))
    yield from ends("key 2 from 0,2 is the lesser of both", at_each(*alone, term=least, head=V0), MAP_A, 3, [1, 1, 1, 1])
    yield from ends("key 2 from 0,2 is that from 0 where 2 has no walk", at_each(*alone, term=op(EQUAL, chain(0), chain(1)), head=V0), MAP_A, 3, [1, 0, 0, 0])


def set_keys():
    full = 65535
    # From 0 and 2. Least start: 0-2 brings 0 to place 2; greatest: 2-1 brings 2 to place 1. Greatest size: 20 by 2-1; least: 4 by 0-2-1.
    for keys, after in (
        ((1,), [[0, _, 0, _], [0, 1, 0, _], [0, 1, 0, 2], [0, 1, 0, 2], [0, 1, 0, 2]]),
        ((3,), [[0, _, 2, _], [0, 0, 0, _], [0, 0, 0, 0], [0, 0, 0, 0], [0, 0, 0, 0]]),
        ((4,), [[0, _, 2, _], [0, 2, 2, _], [0, 2, 2, 2], [0, 2, 2, 2], [0, 2, 2, 2]]),
        ((5,), [[full, _, full, _], [full, 20, full, _], [full, 20, full, 7], [full, 20, full, 7], [full, 20, full, 7]]),
        ((6,), [[full, _, full, _], [full, 10, 4, _], [full, 4, 4, 7], [full, 4, 4, 4], [full, 4, 4, 4], [full, 4, 4, 4]]),
        ((2, 3), [[0, _, 2, _], [0, 2, 2, _], [0, 2, 2, 2], [0, 2, 2, 2], [0, 2, 2, 2]]),
        ((3, 2), [[0, _, 0, _], [0, 5, 2, _], [0, 5, 2, 5], [0, 5, 2, 5], [0, 5, 2, 5]]),
        ((4, 2), [[0, _, 0, _], [0, 3, 0, _], [0, 3, 0, 3], [0, 3, 0, 3], [0, 3, 0, 3]]),
        ((2, 5), [[full, _, full, _], [full, 20, full, _], [full, 20, full, 7], [full, 20, full, 7], [full, 20, full, 7]]),
        ((4, 1, 6), [[full, _, full, _], [full, 20, full, _], [full, 20, full, 7], [full, 20, full, 7], [full, 20, full, 7]]),
    ):
        yield from runs(f"keys {keys} from 0,2", at_each(from_set(*keys, starts=(0, 2)), head=V0), MAP_A, after)
    # From 1 and 3: both ways to place 3 take 0 s, so keys 2,3 say 1 and keys 2,4 say 3. Keys 3,2: 1-3 takes 0 s too.
    for keys, values, rounds in (((2, 3), [_, 1, _, 1], 2), ((2, 4), [_, 1, _, 3], 1), ((3, 2), [_, 0, _, 0], 2), ((6,), [_, full, _, 7], 2)):
        yield from ends(f"keys {keys} from 1,3", at_each(from_set(*keys, starts=(1, 3)), head=V0), MAP_A, rounds, values)
    # Every place is a start: as from anywhere.
    for keys, rounds, values in (((1,), 1, [0, 0, 0, 0]), ((3,), 3, [0, 0, 0, 0]), ((4,), 2, [0, 2, 2, 3]), ((6,), 4, [full, 4, 4, 4])):
        yield from ends(f"keys {keys} from all places", at_each(from_set(*keys, starts=(0, 1, 2, 3)), head=V0), MAP_A, rounds, values)
        yield from ends(f"keys {keys} from anywhere, version 2", at_each(from_set(*keys, starts=()), head=V0), MAP_A, rounds, values)


def set_sizes():
    """Sets of each size: the first odd places of 33 that have no passage, each its own start."""
    odd, bare = tuple(range(1, 33, 2)), map_file(33)
    here = op(EQUAL, chain(0), chain(0))  # 1 where there is a walk
    yield from in_turn(bare, 1, ((f"how many of a set of {k}", one_result([from_set(3, starts=odd[:k])], [b"\3" + here], entry(0), head=V1), k)
                                 for k in range(1, 17)))
    yield from in_turn(bare, 1, ((f"the greatest of a set of {k}", one_result([from_set(3, starts=odd[:k])], [b"\2" + chain(0)], entry(0), head=V1), 2 * k - 1)
                                 for k in range(1, 17)))
    # A line: from an odd place to the even one behind it there is one passage. To place 0 there is no walk.
    line = map_file(33, *((v, v + 1, 2, 5) for v in range(32)))
    yield from ends("16 starts of a line", at_each(from_set(1, starts=odd), head=V0), line, 2, [_] + [0, 1] * 16)
    yield from ends("15 starts of a line", at_each(from_set(2, starts=odd[:15]), head=V0), line, 4, [_] + [0, 2] * 15 + [4, 6])
    yield from ends("9 starts of a line, the start itself", at_each(from_set(2, 3, starts=odd[7:]), head=V0), line, 2,
                    [_] * 15 + [v for start in odd[7:] for v in (start, start)])
    last = tuple(range(240, 256))
    yield from in_turn(map_file(256, (255, 7, 1, 1)), 2, (
        ("16 starts up to 255, the sum of key 1", one_result([from_set(1, starts=last)], [b"\3" + chain(0)], entry(0), head=V1), 1),
        ("16 starts up to 255, key 4 at its least", one_result([from_set(4, starts=last)], [b"\1" + chain(0)], entry(0), head=V1), 240),
        ("0 and 255, the sum of key 3", one_result([from_set(3, starts=(0, 255))], [b"\3" + chain(0)], entry(0), head=V1), 510)))


def set_rounds():
    full = 65535
    # The ring's narrow passage, 2 to 0, is walked in round 3 from 0, in round 2 from 1; then it takes two rounds more to come around, and a quiet one.
    yield from runs("a ring, key 6 from 0,1", at_each(from_set(6, starts=(0, 1)), head=V0), RING,
                    [[full, full, _], [full, 9, 8], [2, 9, 8], [2, 2, 8], [2, 2, 2], [2, 2, 2], [2, 2, 2]])
    # From 240 it is 16 passages to place 0, over the narrow one, and 255 more to place 255: that is round 271, and 272 is quiet.
    ring = [(v, (v + 1) % 256, 1, 2 if v == 255 else 9) for v in range(256)]
    yield from ends("a ring of 256 places, key 6 from 16 of them", at_each(from_set(6, starts=tuple(range(0, 256, 16))), head=V0), map_file(256, *ring), 272,
                    [2] * 256)
    # The set takes 3 rounds, key 6 from 0 takes 4, key 1 from 3 takes 1.
    yield from runs("an unused set, which takes longer", at_each(from_set(1, starts=(3,)), from_set(2, starts=(0, 2)), head=V0), MAP_A, [[_, _, _, 0]] * 5)
    yield from runs("a set beside a chain that takes longer", at_each(from_set(2, starts=(0, 2)), from_set(6), head=V0), MAP_A,
                    [[0, _, 0, _], [0, 3, 0, _], [0, 3, 0, 3], [0, 3, 0, 3], [0, 3, 0, 3], [0, 3, 0, 3]])
    yield from ends("a set, stopped late", at_each(from_set(2, starts=(0, 2)), head=V0), MAP_A, 3, [0, 3, 0, 3], 5, 256, 65535)
    # Only the figure of the first key changes in round 2 (`bypass` of sheet_keys); place 1 has 9 s, then 2 s, and the size stays.
    bypass = map_file(4, (0, 1, 9, 4), (0, 2, 1, 4), (2, 1, 1, 4))
    yield from runs("keys 2,5 from 0,3: only the first figure changes in round 2", at_each(from_set(2, 5, starts=(0, 3)), head=V0), bypass,
                    [[full, _, _, full]] + [[full, 4, 4, full]] * 4)


def set_versions():
    """Sheets of version 2 with single starts are as those of version 1."""
    full = 65535
    narrow = [[full, _, _, _], [full, 10, 4, _], [full, 4, 4, 7], [full, 4, 4, 4], [full, 4, 4, 4], [full, 4, 4, 4]]
    yield from runs("version 2, key 2 from 0", at_each(from_set(2), head=V0), MAP_A, [[0, _, _, _], [0, 5, 2, _], [0, 5, 2, 5], [0, 5, 2, 5], [0, 5, 2, 5]])
    yield from runs("version 2, keys 2,6 from 0", at_each(from_set(2, 6), head=V0), MAP_A, narrow)
    yield from runs("version 2, key 1 from 3", at_each(from_set(1, starts=(3,)), head=V0), MAP_A, [[_, _, _, 0]] * 3)
    yield from runs("version 2, keys 2,3 from anywhere", at_each(from_set(2, 3, starts=()), head=V0), MAP_A, [[0, 1, 2, 3]] + [[0, 1, 2, 1]] * 3)
    yield from runs("version 2, no chain", at_each(term=lit(7), head=V0), MAP_A, [[7] * 4] * 3)
    yield from runs("version 2, marked: max of key 1 from 0", hexed("4C 50 57 02 00 01 01 01 01 00 00 01 00 00 01 02 30 00 31 00"), MAP_A,
                    [[0], [1], [2], [2], [2]])
    twice = op(PLUS, chain(0), chain(1))
    yield from ends("version 2, equal sets", at_each(from_set(2, starts=(0, 2)), from_set(2, starts=(0, 2)), term=twice, head=V0), MAP_A, 3, [0, 6, 0, 6])
    eight = [from_set(2, starts=s) for s in ((0,), (1,), (2,), (3,), (0, 2), (1, 2), (0, 1, 2, 3), ())]
    for i, values in enumerate(([0, 5, 2, 5], [_, 0, _, 0], [_, 3, 0, 3], [_, _, _, 0], [0, 3, 0, 3], [_, 0, 0, 0], [0] * 4, [0] * 4)):
        yield from ends(f"version 2, 8 chains, chain {i}", at_each(*eight, term=chain(i), head=V0), MAP_A, 3, values)


def many_ones(terms):
    """A final expression of an odd number of terms, in a tree of little depth, each leaf 1."""
    left = (terms - 1) // 2 | 1
    return rlit(1) if terms == 1 else rop(PLUS, many_ones(left), many_ones(terms - 1 - left))


def set_entries():
    """Reductions over sets, with conditions and without: on map A from {0, 2} it is 0, 3, 0, 3."""
    two, nearest = from_set(2, starts=(0, 2)), from_set(2, 3, starts=(0, 2))  # which start serves: 0, 2, 2, 2
    served = op(EQUAL, chain(1), lit(2))
    yield from in_turn(MAP_A, 3, (
        ("the sum from a set", one_result([two], [b"\3" + chain(0)], entry(0), head=V1), 6),
        ("the largest from a set", one_result([two], [b"\2" + chain(0)], entry(0), head=V1), 3),
        ("how many places start 2 serves", one_result([two, nearest], [where(3, served, lit(1))], entry(0), head=V1), 3),
        ("the sum where start 2 serves", one_result([two, nearest], [where(3, served, chain(0))], entry(0), head=V1), 6),
        ("where start 0 serves", one_result([two, nearest], [where(2, op(EQUAL, chain(1), lit(0)), chain(0))], entry(0), head=V1), 0),
        ("a set as condition", one_result([two, from_set(2)], [where(3, chain(0), chain(1))], entry(0), head=V1), 10),
        ("what the second start saves", one_result([two, from_set(2)], [b"\3" + op(MINUS, chain(1), chain(0))], entry(0), head=V1), 6)))
    # The longest worksheet: chains of 37 bytes, and literals; the final expression has 25 of them.
    sixteen = [from_set(2, 2, 5, starts=tuple(range(i, i + 16))) for i in range(8)]
    longest = one_result(sixteen, [where(3, lit(1), lit(1))] * 7 + [b"\3" + lit(1)], many_ones(49), head=V1)
    assert len(longest) == 560
    yield from ends("the longest worksheet", longest, map_file(23), 1, [25])


# ---- refusals: "A run judges the worksheet, the map, starts in chain order, then 15."


def refusals():
    good = at_each(slots(2))
    bad_map = map_file(4, (0, 1, 5, 0))  # crate 0
    yield from refused(1, "no worksheet, no map, nothing lent", b"", b"", 0)
    yield from refused(3, "worksheet of version 3, map of wrong letters", good.replace(b"LPW\1", b"LPW\3"), b"XYZ" + MAP_A[3:])
    # As version 2 its start is a set count of 0, and then the entry count is 0.
    yield from refused(9, "worksheet of version 1 with the header of version 2, map of wrong letters", good.replace(b"LPW\1", b"LPW\2"), b"XYZ" + MAP_A[3:])
    yield from refused(2, "a map for a worksheet, and the worksheet for a map", MAP_A, good)
    yield from refused(16, "worksheet's index, and the map's crate", at_each(slots(2), term=chain(1)), bad_map)
    yield from refused(6, "worksheet with a byte left over, no map", good + b"\0", b"")
    yield from refused(10, "worksheet's key order, and a start, and nothing lent", at_each(slots(5, 2, start=200)), MAP_A, 0)
    yield from refused(13, "worksheet's start 256, and the map's crate", at_each(slots(2, start=256)), bad_map)
    yield from refused(13, "worksheet's start 65,534, and no map", at_each(slots(2, start=65534)), b"")
    yield from refused(9, "worksheet's kind 2", good[:5] + b"\2" + good[6:], MAP_A)
    yield from refused(1, "no map", good, b"")
    yield from refused(2, "map of wrong letters, and a start, and nothing lent", at_each(slots(2, start=9)), b"LPW" + MAP_A[3:], 0)
    yield from refused(8, "the map's crate, and a start", at_each(slots(2, start=4)), bad_map)
    yield from refused(7, "the map's place, and a start", at_each(slots(2, start=200)), map_file(4, (0, 4, 5, 1)))
    yield from refused(4, "no place, start 0", good, map_file(0))
    yield from refused(6, "map with a byte missing, and nothing lent", good, MAP_A[:-1], 0)
    yield from refusal_starts()
    yield from refusal_conditions()
    yield from refusal_sets()


def refusal_sets():
    """At a run any start of n or more is 13, chain by chain; the worksheet and the map come before, 15 behind."""
    bad_map = map_file(4, (0, 1, 5, 0))  # crate 0
    full = 65535
    yield from ends("starts up to n - 1", at_each(from_set(5, starts=(2, 3)), head=V0), MAP_A, 2, [_, 20, full, full])
    yield from ends("all starts of 16 places", at_each(from_set(3, starts=tuple(range(16))), head=V0), map_file(16), 1, list(range(16)))
    for starts in ((4,), (255,), (0, 4), (3, 4), (0, 1, 2, 3, 4), (4, 5), (0, 255), tuple(range(16)), tuple(range(240, 256))):
        yield from refused(13, f"starts {starts} of 4 places", at_each(from_set(2, starts=starts), head=V0), MAP_A)
    yield from refused(13, "16 starts of 15 places", at_each(from_set(3, starts=tuple(range(16))), head=V0), map_file(15), 145)
    yield from refused(13, "starts 0,255 of 255 places", at_each(from_set(3, starts=(0, 255)), head=V0), map_file(255), 2305)
    yield from refused(13, "start 4 of the second set, which is unused", at_each(from_set(2, starts=(0, 2)), from_set(1, starts=(3, 4)), head=V0), MAP_A)
    yield from refused(13, "start 4 of the last of 8 sets", at_each(*[from_set(1, starts=(0, 3))] * 7, from_set(6, starts=(0, 4)), head=V0), MAP_A)
    yield from refused(13, "version 2, single start 4 behind anywhere", at_each(from_set(2, starts=()), from_set(1, starts=(4,)), head=V0), MAP_A)
    for lent in (0, 45, 46):
        yield from refused(13, f"starts 0,4, and lent {lent}", at_each(from_set(2, starts=(0, 4)), head=V0), MAP_A, lent)
    yield from refused(15, "starts 0,3, and lent 45", at_each(from_set(2, starts=(0, 3)), head=V0), MAP_A, 45)
    yield from refused(8, "the map's crate, and starts 0,4", at_each(from_set(2, starts=(0, 4)), head=V0), bad_map)
    yield from refused(4, "no place, starts 0,1", at_each(from_set(2, starts=(0, 1)), head=V0), map_file(0))
    for number, starts in ((17, (2, 2)), (17, (4, 0)), (13, (0, 256)), (13, (full,)), (9, tuple(range(17)))):
        yield from refused(number, f"worksheet's starts {starts}, and the map's crate", at_each(from_set(2, starts=starts), head=V0), bad_map, 0)
    late = at_each(from_set(2, starts=(4,)), from_set(2, starts=(5, 5)), head=V0)
    yield from refused(17, "worksheet's starts 5,5, and start 4 of the chain before", late, MAP_A)
    yield from refused(6, "worksheet of version 2 with a byte left over, and start 4", at_each(from_set(2, starts=(0, 4)), head=V0) + b"\0", b"")


def refusal_conditions():
    far = where(3, op(GREATER, chain(0), lit(2)), chain(0))
    yield from refused(9, "kind 0 with a condition, and the map's crate", W0 + b"\1" + slots(2) + b"\1" + far, map_file(4, (0, 1, 5, 0)))
    yield from refused(9, "reduction byte 128", one_result([slots(2)], [b"\x80" + far[1:]], entry(0)), MAP_A)
    yield from refused(9, "reduction byte 134, and a start", one_result([slots(2, start=4)], [b"\x86" + far[1:]], entry(0)), MAP_A)
    yield from refused(16, "the condition's index, and no map", only(3, chain(1), chain(0)), b"")
    yield from refused(9, "a condition and no value", one_result([slots(2)], [b"\x83" + chain(0)], entry(0)), MAP_A)
    yield from refused(13, "start 4 of a chain that the condition alone has", only(3, chain(1), chain(0), slots(1, start=4)), MAP_A)
    yield from refused(15, "one byte short", only(3, lit(1), chain(0)), MAP_A, 18)


def refusal_starts():
    yield from ends("start n - 1", at_each(slots(1, start=3)), MAP_A, 1, [_, _, _, 0])
    for start in (4, 5, 255):
        yield from refused(13, f"start {start} of 4 places", at_each(slots(1, start=start)), MAP_A)
    yield from refused(13, "start 1 of one place", at_each(slots(1, start=1)), LONE)
    yield from refused(13, "start 255 of 255 places", at_each(slots(1, start=255)), map_file(255), 2400)
    yield from ends("start 65,535 is anywhere", at_each(slots(1, start=ANYWHERE)), MAP_A, 1, [0, 0, 0, 0])
    yield from ends("start 255 of 256 places", one_result([slots(1, start=255)], [b"\3" + chain(0)], entry(0)), map_file(256, (255, 7, 1, 1)), 2, [1])
    yield from refused(13, "start 4 of the second chain, which is unused", at_each(slots(2), slots(1, start=4)), MAP_A)
    yield from refused(13, "start 4 of the last of 8", at_each(*[slots(1, start=ANYWHERE)] * 7, slots(6, start=4), term=lit(1)), MAP_A)
    yield from refused(13, "kind 1 with no entry, start 4", one_result([slots(1, start=4)], [], rlit(1)), MAP_A)
    for lent in (0, 45, 46):
        yield from refused(13, f"start 4, and lent {lent}", at_each(slots(1, start=4)), MAP_A, lent)


# ---- the length lent


def lengths():
    """46 bytes for the 4 places of map A, 19 for one row: one byte short, none, as many, more. The rest stays as it was."""
    for name, sheet, graph, kind, size, rounds, values in (
        ("map A", at_each(slots(2)), MAP_A, 0, 46, 3, [0, 5, 2, 5]),
        ("one place", at_each(slots(6)), LOOP, 0, 19, 2, [3]),
        ("kind 1", one_result([slots(1)], [b"\2" + chain(0)], entry(0)), MAP_A, 1, 19, 3, [2]),
        ("kind 1, no entry", one_result([], [], rlit(1)), MAP_A, 1, 19, 1, [1]),
        ("absent", at_each(slots(1, start=3)), MAP_A, 0, 46, 1, [_, _, _, 0]),
        ("a set", at_each(from_set(2, starts=(0, 2)), head=V0), MAP_A, 0, 46, 3, [0, 3, 0, 3]),
    ):
        n = numbers(graph, 5, 1)[0]
        for lent in (0, 9, 10, size - 9, size - 1):
            yield from refused(15, f"{name}, lent {lent}", sheet, graph, lent)
        for lent in (size, size + 1, size + 9, 2400):
            for call in range(4):
                case = one(f"{name}, lent {lent}", sheet, graph, call, rounds if call > 1 else 0, (n, rounds, kind, values), lent)
                assert len(case[-1]) == size
                yield case


# ------------------------------------------------------------------------------------------------ the file

KINDS = (("trials run", trials), ("traps run", traps), ("worksheets run", sheets), ("refusals", refusals), ("lent lengths", lengths))


def body(case):
    _unused, call, stop, lent, _number, sheet, graph, whole = case
    return b"".join(u16(x) for x in (lent, call, stop, len(sheet), len(sheet + graph))) + sheet + graph + whole


def table(kinds):
    """All cases, each once: (kind, case). The same bytes under two names must have the same number."""
    seen = {}
    for kind, (_unused, part) in enumerate(kinds):
        for case in part():
            known = seen.setdefault(body(case), (kind, case))
            assert known[1][4] == case[4], f"{known} and {case}"
    return list(seen.values())


def show(kinds):
    for index, (kind, (name, call, stop, lent, refusal, _sheet, _graph, whole)) in enumerate(table(kinds)):
        what = f"refused {refusal}" if refusal else whole.hex()
        after = f" {stop}" if call > 1 else ""
        print(f"{index:3} {kinds[kind][0]:14} {CALLS[call]}{after}, lent {lent}: {name}: {what[:120]}")


if __name__ == "__main__":
    show(KINDS)
