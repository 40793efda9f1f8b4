#!/usr/bin/env python3
"""Writes the first inputs of the fuzz harness into a folder: document 01's trials, conditions, sets, absent operands, boards and maps to be
sorted of document 02, the limits and some files beyond them.

    python3 tests/fuzz/seeds.py FOLDER

An input is a selector byte (0 fuse, 1 run, 2 fuse then run, 3 board, and four times a number of rounds), a 16-bit number for the length lent, a
16-bit length of the question, worksheet or board, its bytes, and the map's bytes. The map is sorted too, and with 0 also the question's bytes.
"""
import os
import random
import sys


def u16(x):
    return x.to_bytes(2, "little")


def u32(x):
    return x.to_bytes(4, "little")


def map_file(n, *rows):
    return b"LPM" + u16(1) + u16(n) + u16(len(rows)) + b"".join(u16(x) for row in rows for x in row)


def chain(*keys, start=0):
    return bytes([0x10, len(keys), *keys]) + u16(start)


def slots(*keys, start=0):
    return bytes([len(keys), *keys]).ljust(4, b"\0") + u16(start)


def chain_set(*keys, starts=(0, 2), count=None):
    """A chain from a set of starts."""
    return bytes([0x13, len(keys), *keys]) + starts_of(starts, count)


def set_slots(*keys, starts=(0, 2), count=None):
    """A chain of a worksheet of version 2; no start for anywhere."""
    return bytes([len(keys), *keys]).ljust(4, b"\0") + starts_of(starts, count)


def starts_of(starts, count):
    return bytes([len(starts) if count is None else count]) + b"".join(u16(start) for start in starts)


def lit(x, tag=0x11):
    return bytes([tag]) + u32(x)


def op(number, a, b, tag=0x12):
    return bytes([tag, number]) + a + b


def reduced(number, term):
    return bytes([0x20, number]) + term


def reduced_where(number, condition, term):
    return bytes([0x23, number]) + condition + term


def entry(number, term, condition=b""):
    """An entry of a worksheet; with a condition its reduction byte has 128 added."""
    return bytes([number + (128 if condition else 0)]) + condition + term


def question(kind, term):
    return b"LPQ" + u16(1) + bytes([kind]) + term


def sheet(kind, chains, entries, final=b"", version=1):
    return b"LPW" + u16(version) + bytes([kind, len(chains)]) + b"".join(chains) + bytes([len(entries)]) + b"".join(entries) + final


def board(*questions, count=None):
    return bytes([len(questions) if count is None else count]) + b"".join(u16(len(q)) + q for q in questions)


def deep(depth, number=3):
    """A tree of this depth, leaning to the left."""
    return lit(1) if depth == 1 else op(number, deep(depth - 1), lit(depth))


def broad(leaves, make, tag=0x12):
    """An even tree of so many leaves."""
    return make(leaves) if leaves == 1 else op(3, broad(leaves // 2, make, tag), broad(leaves - leaves // 2, make, tag), tag)


MAP_A = map_file(4, (0, 1, 5, 10), (0, 2, 2, 4), (2, 1, 3, 20), (1, 3, 0, 7))
MAPS = [MAP_A, map_file(1), map_file(1, (0, 0, 1, 3)), map_file(2, (0, 1, 1, 9), (1, 0, 1, 2)),
        map_file(3, (0, 1, 9, 10), (0, 1, 1, 5), (1, 2, 1, 3)),
        map_file(16, *((i, (i + 1) % 16, 65535, 65534 - i) for i in range(16))),
        map_file(256, *((i, i + 1, 65535, 1 + i) for i in range(255))),
        map_file(257), map_file(4, (0, 4, 1, 1)), map_file(4, (0, 1, 1, 0)), map_file(4, (0, 1, 1, 65535)), MAP_A + b"\0", MAP_A[:-1], b"LPM"]

# maps to be sorted: in order, in falling order and shuffled; decided by each field, by high bytes, with repeats, 1,024 rows; and what is refused, by the rows
# as they stand
numbers = random.Random(1)
ROWS = [[(0, 1, 5, 10), (0, 2, 2, 4), (1, 3, 0, 7), (2, 1, 3, 20)], [(i, 1, 1, 1) for i in (0, 1, 2, 255)], [(7, i, 1, 1) for i in (0, 1, 2, 255)],
        [(7, 7, i, 1) for i in (0, 1, 255, 256, 257, 65535)], [(7, 7, 7, i) for i in (1, 255, 256, 257, 65534)], [(1, 2, 3, 4)] * 5,
        [(i // 4, 0, 0, 1) for i in range(40)], sorted((i % 3, i % 2, 256 * (i % 5), 1 + i % 7) for i in range(64)), [(3, 3, i // 2, 9) for i in range(33)],
        [(i // 4, (i // 4 + 1) % 256, 1, 9) for i in range(1024)], [(0, 0, 0, 1)] * 1024,
        [(i // 512, i // 256 % 2, i // 16 % 16, 1 + i % 16) for i in range(1024)],
        sorted((numbers.randrange(256), numbers.randrange(256), numbers.randrange(65536), 1 + numbers.randrange(65534)) for _one in range(300))]
SORT_MAPS = [map_file(256, *order) for rows in ROWS
             for order in (rows, rows[::-1], numbers.sample(rows, len(rows)), rows[len(rows) // 2:] + rows[:len(rows) // 2])]
SORT_MAPS += [map_file(2, *rows) for rows in (
    [(1, 1, 0, 0), (0, 2, 0, 1)], [(2, 1, 0, 1), (0, 1, 0, 0)], [(1, 1, 0, 1), (1, 0, 0, 65535), (2, 0, 0, 1)], [(0, 1, 1, 1), (0, 0, 1, 1), (0, 2, 1, 1)])]
SORT_MAPS += [b"", b"LPM\1\0\1\0\0", b"LPQ\1\0\1\0\0\0", b"LPM\2\0\1\0\0\0", map_file(0), map_file(257, (0, 1, 1, 1)), map_file(1, *[(0, 0, 0, 1)] * 1025),
              b"LPM\1\0\0\0\1\4", b"LPM\1\0\1\0\1\4"]

counter = iter(range(1000))
eight = [chain(1 + i % 6, start=i) for i in range(8)]
QUESTIONS = [question(0, term) for term in (
    chain(2), chain(2, 5), chain(2, 6), chain(6), chain(1, start=3), chain(5, 2), chain(1, 2, 4, start=65535), chain(3, 4, 6, start=65535),
    chain(1, start=256), lit(4294967295), op(5, lit(4294967295), op(5, lit(4294967295), lit(2))), op(6, chain(2), chain(1)),
    op(4, chain(5, start=1), chain(6, start=1)), deep(16), deep(17), broad(32, lit), broad(33, lit),
    broad(8, lambda _one: eight[next(counter) % 8]), broad(9, lambda _one: chain(1, start=next(counter) % 256)))]
QUESTIONS += [question(1, term) for term in (
    bytes.fromhex("20 02 10 01 01 00 00"), lit(7, 0x21), reduced(1, chain(2)), reduced(3, lit(5)), reduced(4, chain(1, start=65535)),
    op(6, reduced(3, chain(2)), reduced(5, chain(1, 5)), 0x22), op(8, lit(1, 0x21), reduced(1, op(7, chain(3, start=65535), lit(0))), 0x22))]
# reductions with a condition: legal ones, the limits, and what is refused
farther = op(9, chain(2), lit(2))  # more than 2 seconds from 0
nowhere = op(4, lit(0), lit(1))  # absent at every place
QUESTIONS += [question(1, term) for term in (
    reduced_where(3, farther, chain(2)), reduced_where(2, farther, chain(2)), reduced_where(3, op(9, chain(2), lit(9)), chain(2)),
    reduced_where(1, chain(1, start=2), op(3, chain(2), lit(1))), reduced_where(4, lit(1), chain(1)), reduced_where(5, lit(0), chain(1)),
    reduced_where(3, nowhere, lit(1)), reduced_where(3, lit(1), nowhere), reduced_where(2, lit(256), op(5, lit(4294967295), lit(4294967295))),
    op(6, reduced_where(3, farther, chain(2)), reduced_where(3, farther, lit(1)), 0x22), op(4, reduced(2, chain(2)), reduced_where(1, farther, chain(1)), 0x22),
    reduced_where(3, deep(15), deep(15)), reduced_where(3, deep(16), lit(1)), reduced_where(3, lit(1), deep(16)),
    op(3, reduced_where(3, broad(8, lit), broad(8, lit)), reduced(1, broad(16, lit)), 0x22), reduced_where(3, broad(16, lit), broad(17, lit)),
    reduced_where(3, broad(4, lambda _one: eight[next(counter) % 8]), broad(4, lambda _one: eight[next(counter) % 8])),
    reduced_where(3, broad(8, lambda _one: eight[next(counter) % 8]), chain(1, 2)), broad(8, lambda _one: reduced_where(3, lit(1), chain(2)), 0x22),
    broad(9, lambda _one: reduced_where(3, lit(1), chain(2)), 0x22), reduced_where(6, lit(1), lit(1)), reduced_where(129, lit(1), lit(1)),
    reduced(3, reduced_where(3, lit(1), lit(1))), reduced_where(3, reduced(3, lit(1)), lit(1)), b"\x23", b"\x23\3", b"\x23\3" + lit(1))]
QUESTIONS += [question(0, reduced_where(3, lit(1), lit(1)))]
# one or both operands absent, by each operator
QUESTIONS += [question(0, op(o, x, y)) for o in range(1, 12) for x, y in ((chain(2), chain(2, start=3)), (nowhere, chain(2, start=3)), (lit(7), nowhere))]
QUESTIONS += [question(1, op(o, reduced_where(3, nowhere, lit(1)), reduced(3, chain(2, start=3)), 0x22)) for o in (1, 2, 3)]
# sets of starts: legal ones, sets of one beside 0x10, the limits (the longest question), and what is refused
sixteen = tuple(range(16))
QUESTIONS += [question(0, term) for term in (
    chain_set(2), chain_set(2, 5), chain_set(6, starts=(0, 1)), chain_set(1, starts=(3,)), chain_set(3, 4, starts=sixteen), chain_set(2, starts=(0, 255)),
    op(3, chain(2), chain_set(2, starts=(0,))), op(1, chain(2), op(1, chain_set(2), chain_set(2, starts=(0, 2, 3)))), op(4, chain(2, start=2), chain_set(2)),
    op(3, chain_set(2, starts=sixteen), chain_set(2, starts=sixteen[:15])), broad(32, lambda _one: chain_set(1, 2, 5, starts=sixteen)),
    broad(32, lambda _one: chain_set(2, starts=(next(counter) % 4, 4))), broad(8, lambda _one: chain_set(1, starts=(next(counter) % 250, 255))),
    broad(9, lambda _one: chain_set(1, starts=(next(counter) % 250, 255))), op(3, broad(8, lambda _one: eight[next(counter) % 8]), chain_set(1, starts=(0,))),
    chain_set(5, 2), chain_set(7), chain_set(2, starts=()), chain_set(2, starts=sixteen, count=17), chain_set(2, starts=sixteen, count=255),
    chain_set(2, starts=(2, 2)), chain_set(2, starts=(2, 1)), chain_set(2, starts=(0, 256)), chain_set(2, starts=(65535,)), chain_set(2, starts=(0, 5, 5, 256)),
    chain_set(2, count=3), b"\x13", b"\x13\1\2\2", b"\x13\1\2\2\0\0\2")]
QUESTIONS += [question(1, term) for term in (
    reduced(3, chain_set(2)), reduced_where(3, op(9, chain_set(2), lit(2)), chain_set(2, 3)),
    reduced(1, broad(32, lambda _one: chain_set(2, 2, 5, starts=sixteen))), op(4, reduced(3, chain(2)), reduced(3, chain_set(2)), 0x22), chain_set(2))]
QUESTIONS += [b"LPQ", b"LPQ\2\0\0", b"LPX\1\0\0", question(2, lit(1)), question(0, chain(2)) + b"\0", question(0, b"\x10\1\7\0\0"), question(0, b"\x12\x0c")]

SHEETS = [sheet(0, [slots(2)], [b"\0\x30\0"]), sheet(0, [slots(2, 5), slots(2, 5), slots(6, start=9)], [b"\0\x30\1"]), sheet(0, [], [b"\0" + lit(9)]),
          sheet(1, [], [], lit(9, 0x21)), sheet(1, [slots(1)], [b"\2\x30\0"], b"\x31\0"), sheet(1, [slots(1)], [b"\2\x30\1"], b"\x31\0"),
          sheet(1, [slots(1, 2, 3, start=65535)] * 8, [b"\3" + op(5, b"\x30\7", b"\x30\0")] * 8, op(3, b"\x31\0", b"\x31\7", 0x22)),
          sheet(1, [slots(4, start=65535)], [b"\1\x30\0"], b"\x31\1"), sheet(0, [b"\1\2\0\1\0\0"], [b"\0\x30\0"]), sheet(0, [slots(2)], []),
          sheet(0, [], [b"\0" + deep(16)]), sheet(0, [], [b"\0" + deep(17)]), sheet(0, [], [b"\0" + broad(32, lit)]), sheet(0, [], [b"\0" + broad(33, lit)]),
          sheet(1, [slots(2)] * 9, [], lit(1, 0x21)), sheet(1, [], [b"\1" + lit(1)] * 9, b"\x31\0")]
# entries with a condition
far = op(9, b"\x30\0", lit(2))
SHEETS += [sheet(1, [slots(2)], [entry(number, b"\x30\0", far)], b"\x31\0") for number in (0, 1, 2, 3, 4, 5, 6, 127)]
SHEETS += [sheet(0, [slots(2)], [entry(number, b"\x30\0", far)]) for number in (0, 3)]
SHEETS += [sheet(1, [slots(2), slots(1, start=2), slots(6)], [entry(3, b"\x30\0", b"\x30\1"), entry(3, b"\x30\1"), entry(2, lit(7), b"\x30\2")],
                 op(3, b"\x31\0", b"\x31\2", 0x22)),
           sheet(1, [slots(2)], [entry(3, b"\x30\0", b"\x30\1")], b"\x31\0"), sheet(1, [slots(2)], [entry(3, b"\x30\1", b"\x30\0")], b"\x31\0"),
           sheet(1, [], [entry(3, lit(5), lit(0))], b"\x31\0"), sheet(1, [], [entry(3, lit(5), nowhere)], b"\x31\0"),
           sheet(1, [], [entry(3, deep(16), deep(16))], b"\x31\0"), sheet(1, [], [entry(3, lit(1), deep(17))], b"\x31\0"),
           sheet(1, [], [entry(3, deep(17), lit(1))], b"\x31\0"), sheet(1, [], [entry(3, broad(16, lit), broad(16, lit)), entry(1, lit(1))], b"\x31\0"),
           sheet(1, [], [entry(3, broad(16, lit), broad(16, lit)), entry(1, lit(1), lit(1))], b"\x31\0"),
           sheet(1, [], [entry(1, lit(1), lit(2))] * 8, b"\x31\7"), sheet(1, [], [b"\x83" + lit(1)], b"\x31\0"), sheet(1, [], [b"\x83"])]
# version 2: sets, single starts, anywhere, the longest worksheet, and what is refused
ones = [entry(3, lit(1), lit(1))] * 7 + [entry(3, lit(1))]
for chains in ([set_slots(2)], [set_slots(2, starts=(0,))], [set_slots(2, starts=())], [], [set_slots(6, starts=sixteen)], [set_slots(2, starts=(3, 4))],
               [set_slots(2), set_slots(2, 3), set_slots(6, starts=(1,)), set_slots(4, starts=())], [set_slots(1)] * 8, [set_slots(1)] * 9,
               [set_slots(2, starts=(2, 2))], [set_slots(2), set_slots(2, starts=(0, 256))], [set_slots(2, starts=(65535,))],
               [set_slots(2, starts=sixteen, count=17)], [set_slots(5, 2)], [slots(2)], [slots(2, start=65535)], [b"\1\2\0\1\2" + u16(0) + u16(2)]):
    SHEETS += [sheet(0, chains, [b"\0\x30\0" if chains else b"\0" + lit(9)], version=2),
               sheet(1, chains, [entry(3, b"\x30\0", b"\x30\0") if chains else entry(3, lit(9))], b"\x31\0", version=2)]
SHEETS += [sheet(0, [set_slots(2)], [b"\0\x30\0"], version=version) for version in (0, 1, 3, 258)]
SHEETS += [sheet(1, [set_slots(2, 2, 5, starts=sixteen)] * 8, ones, broad(25, lambda _one: lit(1, 0x21), 0x22), version=2)]

# boards: one to eight questions, of different rounds, that share chains, write one as 0x10 and as a set of one, have eight different chains or nine together;
# the longest; and what is refused: counts, lengths, left-over bytes, a wrong question, and two of these at once
seconds, narrowest, nothing, passages = (question(0, chain(key, start=start)) for key, start in ((2, 0), (6, 0), (1, 3), (1, 65535)))
farthest, seven, set_of_one = question(1, reduced(2, chain(1))), question(1, lit(7, 0x21)), question(0, chain_set(2, starts=(0,)))
nine = [question(0, chain(1, *[2] * (i // 3), start=i % 3)) for i in range(9)]
two_more = question(0, op(3, chain(4), chain(5)))
all_eight = question(0, broad(8, lambda _one: eight[next(counter) % 8]))
nine_alone = question(0, broad(9, lambda _one: chain(1, start=next(counter) % 256)))
longest = question(1, reduced(1, broad(32, lambda _one: chain_set(2, 2, 5, starts=sixteen))))
largest, over = [question(0, deep(16)), question(0, broad(32, lit))], [question(0, deep(17)), question(0, broad(33, lit))]
mixed = board(seconds, narrowest, farthest)
BOARDS = [mixed] + [board(q) for q in QUESTIONS[:40]] + [board(*nine[:count]) for count in range(2, 10)]
BOARDS += [board(*qs) for qs in (
    [nothing, seconds, seconds], [seconds, set_of_one, question(0, op(3, chain(2), chain_set(2)))], [seven] * 8, [seconds] * 8,
    nine[:5] + [question(0, op(3, chain(1), op(3, chain(1, start=1), chain(6)))), passages, question(0, chain_set(2))],
    nine[:6] + [question(1, reduced_where(3, chain(4), chain(5)))], nine[:7] + [question(1, reduced_where(3, chain(4), chain(5)))], [all_eight, seconds],
    [all_eight, question(0, chain(1))], [longest] * 8, [longest, seconds], [seconds, nine_alone, b"LPX"], [seconds, question(0, chain(2, start=4)), seven],
    [seconds, b"", seven], [seconds + b"\0", seven], [seconds[:-1], seven], [seconds, b"LPX\1\0\0"], [b"LPX\1", seven], [seven, *largest], over,
    [seven, question(1, reduced_where(3, farther, chain(2))), two_more], nine[:7] + [question(0, op(3, chain(6), chain_set(1, starts=(0,))))],
    [question(0, op(3, chain_set(2, starts=(0, i)), lit(1))) for i in range(1, 8)] + [question(0, op(3, chain(2), chain_set(2, starts=(0, 8))))])]
BOARDS += [b"", b"\0", b"\1", b"\1\x0b", b"\x09", b"\xff", board(seconds, count=2), board(seconds, seven, count=1), board(seconds, count=0),
           board(seconds, count=9), board(seconds, seven)[:-1], board(seconds)[:2], board(seconds) + b"\0", board(seconds) + board(seconds),
           board(*nine[:8]) + b"\0", board(*nine[:7], two_more), board(*nine[:7], two_more) + b"\0", b"\2" + u16(11) + seconds + u16(12) + seconds,
           b"\2" + u16(11) + seconds + u16(65535) + seven, b"\1" + u16(10) + seconds, b"\2" + u16(11) + b"LPX" * 4, b"\1" + u16(7) + b"LPX\1\0\0"]


def main():
    folder = sys.argv[1]
    os.makedirs(folder, exist_ok=True)
    inputs = [(0, 1024, q, b"") for q in QUESTIONS]
    inputs += [(1, 2314, s, m) for s in SHEETS for m in MAPS]
    inputs += [(2, 2314, q, m) for q in QUESTIONS for m in MAPS]
    inputs += [(2, lent, QUESTIONS[0], MAP_A) for lent in (0, 45, 46, 47)]
    inputs += [(1, 5, sheet(0, [slots(2, start=4)], [b"\0\x30\0"]), m) for m in MAPS]  # a start that most maps lack, and a short length
    inputs += [(3 + 4 * (i % 8), 18512, b, m) for i, b in enumerate(BOARDS) for m in MAPS]
    inputs += [(3 + 4 * rounds, 18512, mixed, m) for rounds in (0, 1, 2, 3, 4, 63) for m in MAPS]
    inputs += [(1 + 4 * rounds, 2314, SHEETS[0], m) for rounds in (0, 1, 2, 3, 4, 63) for m in MAPS]
    inputs += [(3, lent, mixed, MAP_A) for lent in (0, 46, 92, 110, 111, 112)]
    inputs += [(3, 5, board(question(0, chain(2, start=4))), m) for m in MAPS]
    inputs += [(0, 0x8000, b"", m) for m in SORT_MAPS] + [(0, lent, MAP_A, MAP_A) for lent in (0, 9, 40, 41, 42)]
    inputs += [(1, 2314, SHEETS[1], m) for m in SORT_MAPS] + [(2, 2314, QUESTIONS[1], m) for m in SORT_MAPS] + [(3, 18512, mixed, m) for m in SORT_MAPS]
    for i, (selector, lent, first, chart) in enumerate(inputs):
        with open(os.path.join(folder, f"{i:04}"), "wb") as f:
            f.write(bytes([selector]) + u16(lent) + u16(len(first)) + first + chart)


main()
