#!/usr/bin/env python3
"""The cases on which the program `cases` tries boards (document 02, d). make_cases.py writes them.

    python3 tests/make_boards.py         prints each case: index, kind, call, rounds, length lent, what is expected, name

Boards and maps are written by hand as bytes, and so is what each question answers alone: its rounds, and its values after 0, 1, 2, ..
rounds. Of a board these stand one after another, each with the greatest of the separate rounds. So that no slip of the hand stays, the
script works each question out on its own terms (`alone` below: "each chain where it is written", over sets of walks, nothing fused) and
stops where the hand and the walks differ. Refusals are written by hand from the documents; none is what the library said.

In the file a case is laid out as a run (make_runs.py), a board in the place of the worksheet and all answers in that of the answer.
"""
import functools

from make_runs import (ANYWHERE, DIVIDE, EQUAL, GREATER, LONE, LOOP, MAP_A, MAX, MIN, MINUS, PLUS, RING, TIMES, TWO, Sheet, answer, compute, figures, hexed,
                       lit, map_file, numbers, op, places_of, quiet_round, reduced, rlit, rop, show, u16)

_ = None  # absent
FULL = 65535  # the crate size of the empty walk

# ------------------------------------------------------------------------------------------------ layouts

Q0, Q1 = hexed("4C 50 51 01 00 00"), hexed("4C 50 51 01 00 01")  # a question of either kind; a term is due


def chain(*keys, start=0):
    return bytes([0x10, len(keys), *keys]) + u16(start)


def chain_set(*keys, starts=(0,)):
    return bytes([0x13, len(keys), *keys, len(starts)]) + b"".join(u16(start) for start in starts)


def over(reduction, value):
    return bytes([0x20, reduction]) + value


def where(reduction, condition, value):
    return bytes([0x23, reduction]) + condition + value


def joined(number, terms):
    """The place terms joined by one operator, to the left."""
    return bytes([0x12, number]) * (len(terms) - 1) + b"".join(terms)


def behind(question, length=None):
    """A question behind its length, or behind another one."""
    return u16(len(question) if length is None else length) + question


def board(*questions, count=None):
    """A count byte, which may be another one than that of the questions, then each question behind its length."""
    return bytes([len(questions) if count is None else count]) + b"".join(behind(question) for question in questions)


# ------------------------------------------------------------------------------------------------ outright
# What document 01, "Meaning", says of a question, unfused. Only for questions and maps that are accepted.


class Question(Sheet):
    """An accepted question taken apart. Its chains are listed as often as they are written."""

    def __init__(self, data):
        self.data, self.at, self.chains = data, 6, []
        self.root = self.term()
        assert self.at == len(data)

    def chain_term(self, tag):
        keys = tuple(self.byte() for _unused in range(self.byte()))
        starts = numbers(self.data, self.at + 1, self.byte()) if tag == 0x13 else numbers(self.data, self.at, 1)
        self.at += 2 * len(starts)
        self.chains.append((keys, None if starts == [ANYWHERE] else frozenset(starts)))
        return "chain", len(self.chains) - 1

    def term(self):
        tag = self.byte()
        if tag in (0x10, 0x13):
            return self.chain_term(tag)
        if tag in (0x20, 0x23):
            return "reduction", self.byte(), self.term() if tag == 0x23 else None, self.term()
        self.at -= 1
        return super().term()


@functools.lru_cache(None)
def walked(graph, keys, starts):
    """The figures of a chain at each place, for each number of passages up to one more than 2 × n."""
    n, rows = places_of(graph)
    return figures(n, rows, keys, starts, 2 * n + 1)


def value(term, leaves, place):
    """The value of a term at a place; `leaves` has for each place the values of the chains as they are written."""
    kind = term[0]
    if kind == "chain":
        return leaves[place][term[1]]
    if kind == "number":
        return term[1]
    if kind == "operator":
        return compute(term[1], value(term[2], leaves, place), value(term[3], leaves, place))
    _unused, number, condition, inner = term
    counting = [v for v in range(len(leaves)) if condition is None or value(condition, leaves, v) not in (None, 0)]
    return reduced(number, [value(inner, leaves, v) for v in counting])


def alone(question, graph, stop=None):
    """The rounds and the values of a question by itself."""
    own, n = Question(question), numbers(graph, 5, 1)[0]
    found = [walked(graph, keys, starts) for keys, starts in own.chains]
    most = 2 * n + 1
    reached = [f[most if stop is None else min(stop, most)] for f in found]
    leaves = [[f[v] and f[v][-1] for f in reached] for v in range(n)]
    rounds = quiet_round(found, n) if stop is None else stop
    return rounds, [value(own.root, leaves, v) for v in range(n if question[5] == 0 else 1)]


# ------------------------------------------------------------------------------------------------ questions, by hand


def asked(question, rounds, *after):
    """What a question answers alone: its rounds, and its values after 0, 1, 2, .. rounds, of which the last stay (those alone where it is run to quiet)."""
    return question, rounds, after


# On map A: the trials of document 01, and what make_runs.py has of worksheets that mean the same.
SECONDS = asked(Q0 + chain(2), 3, [0, _, _, _], [0, 5, 2, _], [0, 5, 2, 5])
SIZES = asked(Q0 + chain(2, 5), 3, [FULL, _, _, _], [FULL, 10, 4, _], [FULL, 10, 4, 7])
NARROWEST = asked(Q0 + chain(6), 4, [FULL, _, _, _], [FULL, 10, 4, _], [FULL, 4, 4, 7], [FULL, 4, 4, 4])
STILL = asked(Q0 + chain(1, start=3), 1, [_, _, _, 0])
MARKED = asked(Q1 + over(2, chain(1)), 3, [0], [1], [2])
NEAREST = asked(Q0 + chain_set(2, starts=(0, 2)), 3, [0, _, 0, _], [0, 3, 0, _], [0, 3, 0, 3])
LEAST_START = asked(Q0 + chain(3, start=ANYWHERE), 3, [0, 1, 2, 3], [0, 0, 0, 1], [0, 0, 0, 0])
GREATEST_START = asked(Q0 + chain(4, start=ANYWHERE), 2, [0, 1, 2, 3], [0, 2, 2, 3])
FARTHER = asked(Q1 + where(3, op(GREATER, chain(2), lit(2)), chain(2)), 3, [_], [5], [10])
CUT_OFF = asked(Q0 + op(MIN, chain(2), chain(2, start=3)), 3, [0, _, _, 0], [0, 5, 2, 0])
LITERAL, RESULT = asked(Q0 + lit(8), 1, [8] * 4), asked(Q1 + rlit(4294967295), 1, [4294967295])

# Eight different chains of map A with their values in the end; the rounds of each alone, 4 together.
EIGHT = (chain(1, start=3), chain(2), chain(6), chain(5), chain(2, 5), chain(3, start=ANYWHERE), chain(4, start=ANYWHERE), chain(1))
VALUES = ([_, _, _, 0], [0, 5, 2, 5], [FULL, 4, 4, 4], [FULL, 10, 4, 7], [FULL, 10, 4, 7], [0, 0, 0, 0], [0, 2, 2, 3], [0, 1, 1, 2])
ROUNDS = (1, 3, 4, 3, 3, 3, 2, 3)
ALL_EIGHT = Q0 + joined(MAX, EIGHT)  # the greatest of the eight: 65,535, 10, 4, 7
NINTH = Q0 + chain(2, start=1)  # a chain that is none of them

# ------------------------------------------------------------------------------------------------ cases
# (name, call, rounds at which it is stopped, lent, refusal, board, map, answers)


def one(name, questions, graph, call, stop=0, lent=None):
    """A board that is answered, of such questions; it is lent what the answers take."""
    n = numbers(graph, 5, 1)[0]
    given = stop if call > 1 else None
    greatest = max(rounds for _question, rounds, _after in questions)
    answers = b""
    for question, rounds, after in questions:
        values = after[-1] if given is None else after[min(given, len(after) - 1)]
        assert alone(question, graph, given) == (rounds if given is None else given, values), (name, question.hex(), given, alone(question, graph, given))
        answers += answer(n, greatest if given is None else given, question[5], values)
    return name, call, stop, len(answers) if lent is None else lent, 0, board(*(q[0] for q in questions)), graph, answers


def boards(name, questions, graph=MAP_A, stops=(0, 1, 2, 65535)):
    """By pull and by push, to quiet and for each of these numbers of rounds."""
    for call in (0, 1):
        yield one(name, questions, graph, call)
    for stop in stops:
        for call in (2, 3):
            yield one(name, questions, graph, call, stop)


def refused(number, name, data, graph=MAP_A, lent=2400):
    """By each call."""
    for call in range(4):
        yield name, call, 2 if call > 1 else 0, lent, number, data, graph, b""


def in_turn(cases):
    """Each (number, name, board) by one of the calls, in turn: all of it is judged before a round is made. A wrong map and nothing lent are judged later."""
    for i, (number, name, data) in enumerate(cases):
        graph, lent = ((MAP_A, 2400), (MAP_A, 0), (b"", 2400))[i % 3]
        yield name, i % 4, 2 if i % 4 > 1 else 0, lent, number, data, graph, b""


# ---- answered


def answered():
    yield from by_hand()
    yield from counts()
    yield from rounds()
    yield from shared()
    yield from kinds()
    yield from maps()
    yield from longest()


def by_hand():
    """The marked question and key 6 from 0, every byte by hand: 3 rounds and 4, so 4 in both answers."""
    case = one("marked and key 6, each byte", (MARKED, NARROWEST), MAP_A, 0)
    assert case[5] == hexed("02 0D00 4C5051010001 2002 1001010000 0B00 4C5051010000 1001060000")
    assert case[7] == hexed("4C50410100 0400 0400 01 01 0200000000000000 4C50410100 0400 0400 00 01 FFFF000000000000"
                            "01 0400000000000000 01 0400000000000000 01 0400000000000000")
    yield case


def counts():
    """One question is answered as alone; up to eight."""
    for name, question in (("key 2", SECONDS), ("keys 2,5", SIZES), ("key 6", NARROWEST), ("key 1 from 3", STILL), ("marked", MARKED), ("a set", NEAREST),
                           ("a condition", FARTHER), ("min of one absent", CUT_OFF), ("a literal", LITERAL), ("a result literal", RESULT)):
        yield from boards(f"one question, {name}", (question,))
    many = (SECONDS, MARKED, STILL, NARROWEST, FARTHER, NEAREST, RESULT, LEAST_START)
    for k in range(2, 9):
        yield from boards(f"{k} questions", many[:k], stops=(1, 65535))
    yield from boards("8 questions, the other way round", many[::-1])
    yield from boards("8 times the same question", (NARROWEST,) * 8, stops=(2,))
    yield from boards("8 times the same question of kind 1", (MARKED,) * 8)


def rounds():
    """The greatest of the separate rounds, wherever it stands: 4, 3, 2 and 1. With a number given it is that number."""
    for name, questions in (
        ("first", (NARROWEST, SECONDS, STILL)), ("first, the least behind", (NARROWEST, STILL, SECONDS)), ("in the middle", (STILL, NARROWEST, SECONDS)),
        ("in the middle, the least last", (SECONDS, NARROWEST, STILL)), ("last", (STILL, SECONDS, NARROWEST)),
        ("last, the least before", (SECONDS, STILL, NARROWEST)),
    ):
        yield from boards(f"the greatest rounds {name}", questions, stops=(0, 1, 2, 3, 4, 256, 65535))
    yield from boards("2 rounds and 1", (GREATEST_START, STILL))
    yield from boards("1 round and 2", (STILL, GREATEST_START))
    yield from boards("no chain at all", (LITERAL, RESULT, LITERAL))
    yield from boards("no chain, one question", (RESULT,))
    yield from boards("no chain first, then one that takes 4 rounds", (LITERAL, NARROWEST))
    yield from boards("no chain last", (MARKED, RESULT))
    yield from boards("1 round each", (STILL, STILL, LITERAL))


def shared():
    """Equal chains of several questions are one; each question finds its own, wherever it stands among those of all."""
    alike = asked(Q0 + chain_set(2, starts=(0,)), 3, *SECONDS[2])
    yield from boards("0x10 and a set of one", (SECONDS, alike))
    yield from boards("a set of one and 0x10", (alike, SECONDS, MARKED))
    apart = tuple(asked(Q0 + term, r, values) for term, r, values in zip(EIGHT, ROUNDS, VALUES))
    all_eight = asked(ALL_EIGHT, 4, [FULL, 10, 4, 7])
    for call in (0, 1):
        yield one("a chain each, 8 together", apart, MAP_A, call)
        yield one("a chain each, 8 together, the other way round", apart[::-1], MAP_A, call)
        yield one("one question of 8 chains", (all_eight,), MAP_A, call)
        yield one("8 chains in each of 8 questions", (all_eight,) * 8, MAP_A, call)
        for i in range(8):
            yield one(f"8 chains, then number {i} again", (all_eight, apart[i]), MAP_A, call)
            yield one(f"number {i}, then all 8", (apart[i], all_eight), MAP_A, call)
        for step in (1, 3, 6):
            yield one(f"two chains each, {step} apart", tuple(pair(i, (i + step) % 8) for i in range(8)), MAP_A, call)
    # Eight chains in the first question, key 1 from 3 and key 1 from 0 among them, written as sets of one in the second.
    sets = asked(Q0 + op(PLUS, chain_set(1, starts=(3,)), chain_set(1)), 3, [_, _, _, 2])
    for call in (0, 1):
        yield one("8 chains, then sets of one that are among them", (all_eight, sets), MAP_A, call)
        yield one("sets of one, then 8 chains with the same", (sets, all_eight), MAP_A, call)


def pair(i, j):
    """Two of the eight chains in one number: which of them each is can be read from it."""
    both = [None if a is None or b is None else 65536 * a + b for a, b in zip(VALUES[i], VALUES[j])]
    return asked(Q0 + op(PLUS, op(TIMES, EIGHT[i], lit(65536)), EIGHT[j]), max(ROUNDS[i], ROUNDS[j]), both)


def kinds():
    """Both kinds, sets beside single starts (worksheets of both versions), conditions, operators on results."""
    yield from boards("kind 0, then kind 1", (SECONDS, MARKED))
    yield from boards("kind 1, then kind 0", (MARKED, SECONDS))
    yield from boards("kind 1, 0, 1, 0", (MARKED, LITERAL, FARTHER, NARROWEST))
    yield from boards("a set between single starts", (SECONDS, NEAREST, STILL))
    yield from boards("a set, then anywhere", (NEAREST, LEAST_START, GREATEST_START))
    # Beyond 2 seconds are places 1 and 3 with 10 together, of 12 in all. Key 1 from 2 is absent, 1, 0, 2, and from 0 it is 0, 1, 1, 2.
    mean = asked(Q1 + rop(DIVIDE, where(3, op(GREATER, chain(2), lit(2)), chain(2)), where(3, op(GREATER, chain(2), lit(2)), lit(1))), 3, [_], [5], [5])
    rest = asked(Q1 + rop(MINUS, over(3, chain(2)), where(3, op(GREATER, chain(2), lit(2)), chain(2))), 3, [_], [2], [2])
    from_two = asked(Q0 + chain(1, start=2), 3, [_, _, 0, _], [_, 1, 0, _], [_, 1, 0, 2])
    both = asked(Q0 + op(EQUAL, chain(1), chain(1, start=2)), 3, [_] * 4, [_, 1, 0, _], [_, 1, 0, 1])
    yield from boards("conditions", (FARTHER, mean, rest, SECONDS))
    yield from boards("a chain of the first question in a condition of the last", (both, from_two, MARKED, FARTHER))
    yield from boards("min of one absent, beside both of its chains", (CUT_OFF, SECONDS, asked(Q0 + chain(2, start=3), 1, [_, _, _, 0])))


def maps():
    """Maps of one place, of two and three: rounds beyond n, and where no chain moves."""
    loop, lone = asked(Q0 + chain(6), 2, [FULL], [3]), asked(Q0 + chain(6), 1, [FULL])
    count = asked(Q1 + over(3, lit(1)), 1, [1])
    yield from boards("one place, a self-passage", (count, loop), LOOP)
    yield from boards("one place, no passage", (lone, count), LONE)
    short, long = asked(Q0 + chain(1, start=1), 2, [_, 0], [1, 0]), asked(Q0 + chain(6), 4, [FULL, _], [FULL, 9], [2, 9], [2, 2])
    yield from boards("two places, 2 × n rounds beside 2", (short, long, short), TWO, (0, 1, 2, 3, 65535))
    ring = asked(Q0 + chain(6), 6, [FULL, _, _], [FULL, 9, _], [FULL, 9, 8], [2, 9, 8], [2, 2, 8], [2, 2, 2])
    seconds = asked(Q1 + over(3, chain(1)), 3, [0], [1], [3])
    yield from boards("a ring, 6 rounds beside 3", (seconds, ring), RING, (0, 1, 2, 3, 4, 5, 65535))
    # Walks to place 1 come by 0→1 in 9 s or 0→2→1 in 2 s, all of size 4: keys 2,5 take a third round though the size stays from round 1 on.
    bypass = map_file(3, (0, 1, 9, 4), (0, 2, 1, 4), (2, 1, 1, 4))
    yield from boards("a figure before the last changes in round 2", (asked(Q0 + chain(5), 2, [FULL, _, _], [FULL, 4, 4]),
                                                                      asked(Q0 + chain(2, 5), 3, [FULL, _, _], [FULL, 4, 4])), bypass)


# A map of 256 places with one passage, from the last place to the first: eight questions of kind 0, each answered by 10 + 9 × 256 bytes.
WIDE, PLACES, FAR = map_file(256, (255, 0, 1, 1)), list(range(256)), chain(3, start=ANYWHERE)
EIGHT_WIDE = (asked(Q0 + FAR, 1, PLACES), asked(Q0 + chain(4, start=ANYWHERE), 2, PLACES, [255] + PLACES[1:]),
              asked(Q0 + chain(1, start=255), 2, [_] * 255 + [0], [1] + [_] * 254 + [0]), asked(Q0 + lit(9), 1, [9] * 256),
              asked(Q0 + op(PLUS, FAR, lit(1)), 1, list(range(1, 257))), asked(Q0 + chain(6, start=ANYWHERE), 2, [FULL] * 256, [1] + [FULL] * 255),
              asked(Q0 + chain(5, start=ANYWHERE), 1, [FULL] * 256), asked(Q0 + op(EQUAL, FAR, chain(4, start=ANYWHERE)), 2, [1] * 256, [0] + [1] * 255))


def longest():
    """Eight questions of 256 places, 18,512 bytes; eight of the longest, 1,286 bytes each."""
    for call, lent in ((0, 18512), (3, 18513)):  # to quiet; for no round, with a byte more
        case = one("8 questions of 256 places", EIGHT_WIDE, WIDE, call, 0, lent)
        assert len(case[7]) == 18512
        yield case
    # A sum of 32 chains from 16 starts, at 23 places without a passage: the size of the empty walk at each start, so 16 × 32 × 65,535.
    term = tree(63, chain_set(2, 2, 5, starts=tuple(range(16))))
    big = asked(Q1 + over(3, term), 1, [16 * 32 * FULL])
    assert len(big[0]) == 1286
    yield one("8 of the longest questions", (big,) * 8, map_file(23), 1)


def tree(terms, leaf):
    """A sum of an odd number of terms in a tree of little depth."""
    left = (terms - 1) // 2 | 1
    return leaf if terms == 1 else op(PLUS, tree(left, leaf), tree(terms - 1 - left, leaf))


# ---- refused: count, each question in turn, left-over bytes, a ninth chain, the map, starts, the length lent

GOOD = Q0 + chain(2)
LETTERS, CODE, ORDER = b"LPW" + GOOD[3:], Q0 + b"\xff", Q0 + chain(5, 2)  # refused 2, 9 and 10
OWN_NINTH = Q0 + joined(MAX, EIGHT + (chain(2, start=1),))  # refused 14 by itself

# A question for each number that refuses one by itself.
FAULTS = (
    (1, "no term", Q0), (2, "wrong letters", LETTERS), (3, "version 2", b"LPQ\2\0\0" + chain(2)), (6, "a byte left over", GOOD + b"\0"),
    (9, "kind 2", Q0[:5] + b"\2" + chain(2)), (9, "a wrong term byte", CODE), (10, "keys 5,2", ORDER), (11, "depth 17", Q0 + joined(PLUS, [lit(1)] * 17)),
    (12, "term 65", Q0 + op(PLUS, tree(63, lit(1)), lit(1))), (13, "start 256", Q0 + chain(2, start=256)), (14, "a ninth chain", OWN_NINTH),
    (14, "a ninth reduction", Q1 + bytes([0x22, PLUS]) * 8 + over(3, lit(1)) * 9), (17, "starts 2,2", Q0 + chain_set(2, starts=(2, 2))),
)
OUTSIDE = Q0 + chain(2, start=4)  # map A has places 0 to 3
NINE = board(ALL_EIGHT, NINTH)

# A map for each number that refuses one.
BAD_MAPS = ((1, b""), (1, MAP_A[:8]), (2, b"LPW" + MAP_A[3:]), (3, b"LPM\2" + MAP_A[4:]), (4, map_file(0)), (4, map_file(257)), (5, MAP_A[:7] + u16(1025)),
            (6, MAP_A[:-1]), (6, MAP_A + b"\0"), (7, map_file(4, (0, 4, 5, 1))), (8, map_file(4, (0, 1, 5, 0))))


def refusals():
    yield from refused(1, "no board", b"")
    yield from refused(1, "no board, no map, nothing lent", b"", b"", 0)
    yield from in_turn(bad_counts())
    yield from in_turn(bad_lengths())
    yield from in_turn(bad_questions())
    yield from in_turn(left_over())
    yield from ninth_chains()
    yield from bad_maps()
    yield from starts()


def bad_counts():
    """12 comes before all that is behind the count."""
    for count in (0, 9, 10, 16, 128, 255):
        for name, rest in (("nothing", b""), ("half a length", b"\x0b"), ("a length past the end", u16(12) + GOOD), ("a good question", behind(GOOD)),
                           ("a wrong one", behind(CODE)), ("nine good ones", behind(GOOD) * 9), ("nine chains", NINE[1:])):
            yield 12, f"count {count}, then {name}", bytes([count]) + rest


def bad_lengths():
    """1 where a length is missing or cut, or runs past the end; before what the question itself is."""
    for count in (1, 2, 8):
        yield 1, f"count {count}, nothing behind", bytes([count])
    for name, whole in (("two questions", board(GOOD, MARKED[0])), ("a set and two chains", board(NEAREST[0], CUT_OFF[0]))):
        for k in range(len(whole)):
            yield 1, f"{name}, cut to {k} bytes", whole[:k]
    for count in (3, 8):
        yield 1, f"count {count}, two questions", board(GOOD, GOOD, count=count)
        yield 1, f"count {count}, two questions and half a length", board(GOOD, GOOD, count=count) + b"\x0b"
    for name, question in (("a good question", GOOD), ("wrong letters", LETTERS), ("a wrong term byte", CODE), ("keys 5,2", ORDER)):
        for more in (1, 2, 256, 65535 - len(question)):
            longer = behind(question, len(question) + more)
            yield 1, f"{name}, {more} bytes short of its length", b"\1" + longer
            yield 1, f"{name}, {more} bytes short of its length, behind a good one", b"\2" + behind(GOOD) + longer
    yield 1, "length 0", b"\1\0\0"
    yield 1, "length 0, bytes behind", b"\1\0\0" + GOOD
    yield 1, "length 0, then a good question", b"\2\0\0" + behind(GOOD)
    yield 1, "a good question, then length 0", b"\2" + behind(GOOD) + b"\0\0"
    yield 1, "length 4, wrong letters", b"\1" + behind(b"XYZ\2")
    for k in range(len(GOOD)):
        yield 1, f"a length that ends the question at {k} bytes", b"\2" + u16(k) + GOOD + behind(CODE)
    # A byte more than the question has is the first of the next length, left over in the first question; so is all of the second.
    yield 6, "a length of one byte more, the next length's", b"\2" + behind(GOOD, len(GOOD) + 1) + behind(GOOD)
    yield 6, "a length of two questions", b"\2" + behind(GOOD, 2 * len(GOOD) + 2) + behind(GOOD)
    yield 9, "a wrong question, then half a length", board(CODE, count=2) + b"\x0b"
    yield 10, "a wrong question, then a length past the end", board(ORDER, count=2) + behind(GOOD, len(GOOD) + 1)
    yield 10, "a wrong question, then length 0", board(ORDER, count=2) + b"\0\0"


def bad_questions():
    """Each is judged in full in its turn: its own number, before all that is behind it."""
    for number, name, question in FAULTS:
        yield number, f"{name}, alone", board(question)
        yield number, f"{name}, and a byte left over", board(question) + b"\0"
        yield number, f"{name} behind a good question", board(GOOD, question)
        yield number, f"{name} before a good question", board(question, GOOD)
        yield number, f"{name}, the last of eight", board(*[GOOD] * 7, question)
        yield number, f"{name} before {'9' if number == 10 else '10'}", board(MARKED[0], question, CODE if number == 10 else ORDER)
        yield number, f"{name}, then the next length missing", board(GOOD, question, count=3)
        yield number, f"{name} behind eight chains and before a ninth", board(ALL_EIGHT, question, NINTH)
        yield number, f"{name} behind nine chains of two questions", board(ALL_EIGHT, NINTH, question)
        yield number, f"{name} behind a start that is no place", board(OUTSIDE, question)
    yield 14, "a ninth chain of its own, then 9", board(OWN_NINTH, CODE)
    yield 9, "9, then a ninth chain of its own", board(CODE, OWN_NINTH)
    yield 14, "a ninth chain of its own, then a cut length", board(OWN_NINTH, count=2) + b"\1"
    yield 14, "a ninth chain of its own, and bytes left over", board(OWN_NINTH) + GOOD
    yield 13, "a ninth chain of two questions, then start 256", board(ALL_EIGHT, NINTH, Q0 + chain(2, start=256))
    yield 1, "a ninth chain of two questions, then a length past the end", NINE.replace(b"\2", b"\3", 1) + behind(GOOD, len(GOOD) + 1)
    yield 1, "a ninth chain of two questions, then no length", NINE.replace(b"\2", b"\3", 1)


def left_over():
    """6 behind the last question, before a ninth chain of them all."""
    for name, more in (("a byte", b"\0"), ("two bytes", b"\0\0"), ("half a length", b"\x0b"), ("a question", behind(GOOD)), ("a wrong one", behind(CODE))):
        for what, whole in (("one question", board(GOOD)), ("eight questions", board(*[GOOD] * 8)), ("nine chains", NINE),
                            ("a start that is no place", board(OUTSIDE))):
            yield 6, f"{what}, {name} left over", whole + more
    yield 6, "two questions, count 1", board(GOOD, GOOD, count=1)
    yield 6, "eight questions, count 7", board(*[GOOD] * 8, count=7)
    yield 6, "nine chains, count 1", board(ALL_EIGHT, NINTH, count=1)


def ninth_chains():
    """14 over all questions together, before the map. None where the chains of all are eight at most (`shared`)."""
    yield from refused(14, "8 chains, then a ninth", NINE)
    yield from refused(14, "8 chains, then a ninth, nothing lent", NINE, MAP_A, 0)
    other = [chain(key, start=start) for key, start in ((2, 1), (2, 2), (2, 3), (1, 1), (1, 2), (6, 1), (6, 2), (5, 1))]
    apart = [Q0 + term for term in EIGHT]
    cases = [
        ("a ninth, then 8", board(NINTH, ALL_EIGHT)), ("8 and 8 others", board(ALL_EIGHT, Q0 + joined(MAX, other))),
        ("8 and 8 with one other", board(ALL_EIGHT, Q0 + joined(MAX, EIGHT[1:] + (other[0],)))),
        ("8 apart, the last question with one more", board(*apart[:7], Q0 + op(PLUS, EIGHT[7], other[0]))),
        ("8 apart, the first question with one more", board(Q0 + op(PLUS, other[0], EIGHT[0]), *apart[1:])),
        ("8 apart, one in the middle with one more", board(*apart[:3], Q0 + op(PLUS, EIGHT[3], other[0]), *apart[4:])),
        ("4, 4 and 1", board(Q0 + joined(MAX, EIGHT[:4]), Q0 + joined(MIN, EIGHT[4:]), NINTH)),
        ("5 and 4 with none shared", board(Q0 + joined(MAX, EIGHT[:5]), Q0 + joined(MAX, EIGHT[5:] + (other[0],)))),
        ("a ninth as condition", board(ALL_EIGHT, Q1 + where(3, other[0], lit(1)))), ("a ninth as value", board(ALL_EIGHT, Q1 + where(3, EIGHT[0], other[0]))),
        ("a ninth from a set of one", board(ALL_EIGHT, Q0 + chain_set(2, starts=(1,)))), ("a ninth from a set of two", board(ALL_EIGHT, NEAREST[0])),
        ("a ninth from anywhere", board(ALL_EIGHT, Q0 + chain(2, start=ANYWHERE))), ("a ninth of more keys", board(ALL_EIGHT, Q0 + chain(2, 5, start=1))),
        ("a ninth of key 2 twice", board(ALL_EIGHT, Q0 + chain(2, 2))), ("a ninth that is no place", board(ALL_EIGHT, Q0 + chain(2, start=200))),
    ]
    for name, data in cases:
        yield from refused(14, f"nine chains: {name}", data)
    for i, (number, graph) in enumerate(BAD_MAPS):
        yield f"nine chains, and the map's {number}", i % 4, 2 if i % 4 > 1 else 0, 0, 14, NINE, graph, b""


def bad_maps():
    """The map's number, before a start that is no place, and before 15."""
    for number, graph in BAD_MAPS:
        for name, data, lent in (("good questions", board(GOOD, MARKED[0]), 2400), ("a start that is no place", board(GOOD, OUTSIDE), 0),
                                 ("no chain", board(LITERAL[0]), 0)):
            yield from refused(number, f"{name}, and the map's {number}", data, graph, lent)


def starts():
    """13 at the run, in whichever question the start stands, before 15."""
    for lent in (0, 91, 92, 2400):
        yield from refused(13, f"start 4 of 4 places in the second question, lent {lent}", board(GOOD, OUTSIDE), MAP_A, lent)
        yield from refused(13, f"start 4 of 4 places in the first question, lent {lent}", board(OUTSIDE, GOOD), MAP_A, lent)
    for name, questions in (
        ("start 255", (Q0 + chain(1, start=255),)), ("starts 0,4", (GOOD, Q0 + chain_set(2, starts=(0, 4)))),
        ("a set of one, 4", (GOOD, Q0 + chain_set(2, starts=(4,)))),
        ("start 4 in a condition", (GOOD, Q1 + where(3, chain(1, start=4), lit(1)))), ("start 4 in the last of eight", (GOOD,) * 7 + (OUTSIDE,)),
        ("start 4 in two questions", (OUTSIDE, MARKED[0], OUTSIDE)), ("start 4 as the eighth chain", (Q0 + joined(MAX, EIGHT[:7]), OUTSIDE)),
    ):
        yield from refused(13, f"{name} of 4 places", board(*questions))
    yield from refused(13, "start 1 of one place", board(Q0 + chain(6), Q0 + chain(6, start=1)), LOOP)
    yield from boards("start 3 of 4 places", (STILL, SECONDS), stops=(0,))


# ---- the length lent


def lengths():
    """19 bytes for a row, 46 for four: all answers together, or nothing is written. The rest stays as it was."""
    for name, questions, size in (
        ("one question", (SECONDS,), 46), ("one of kind 1", (MARKED,), 19), ("kinds 0 and 1", (SECONDS, MARKED), 65), ("kinds 1 and 0", (MARKED, SECONDS), 65),
        ("three", (NARROWEST, RESULT, NEAREST), 111), ("eight of kind 1", (MARKED,) * 8, 152), ("eight of kind 0", (STILL, SECONDS) * 4, 368),
    ):
        data = board(*(question[0] for question in questions))
        first = 46 if questions[0][0][5] == 0 else 19  # what the first answer takes
        for lent in sorted({0, 9, 10, first - 1, first, size - 19, size - 1} - {size}):
            yield from refused(15, f"{name}, lent {lent}", data, MAP_A, lent)
        for lent in (size, size + 1, size + 9, 18512):
            for call in range(4):
                case = one(f"{name}, lent {lent}", questions, MAP_A, call, 1 if call > 1 else 0, lent)
                assert len(case[7]) == size
                yield case
    yield from refused(15, "8 questions of 256 places, one byte short", board(*(question[0] for question in EIGHT_WIDE)), WIDE, 18511)


KINDS = (("boards answered", answered), ("boards refused", refusals), ("lent lengths of boards", lengths))

if __name__ == "__main__":
    show(KINDS)
