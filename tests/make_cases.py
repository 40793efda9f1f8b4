#!/usr/bin/env python3
"""Writes the cases on which the program `cases` tries the readers and the writers, those of runs (make_runs.py), of boards
(make_boards.py) and of maps that are sorted.

    python3 tests/make_cases.py          writes cases.bin, runs.bin, boards.bin and sorts.bin in crates/cases/data, and crates/cases/stdout
    python3 tests/make_cases.py list     prints each case of cases.bin, then of sorts.bin: index, kind, number, name, length, first bytes

Each number here is written by hand from document 01 ("Numbers at the desk" and the order below that table) and, for conditions,
sets of starts and sorted maps, document 02, a), b) and f); none is what a reader said. In the file a case is a kind byte (its place in KINDS), the
number, a 16-bit length and as many bytes; all integers low byte first. The bytes are those of the file to be judged, but for these kinds:
    answers   n (16 bits), kind, room (16 bits): the fields that the writer of answers judges
    .. written    five 16-bit fields, then a file: it is read, and its typed form is written, with other values of some fields,
              to a buffer of the length that the first field says. The others are, of a map, n and m; of a question, the
              kind and how many terms; of a worksheet, the kind and the version (a byte each), how many chains and how many
              entries (a byte each), how many terms and entries, and where the file starts that should be written, if it is
              another one behind that which is read
    questions fused    five 16-bit fields: the length lent, three of 0, and where the worksheet starts; the question; the worksheet
              (none where refused)
    maps sorted    likewise: the map, and the map in order (none where refused)
    .. with other counts    the same, with n and m in the second and third field: the map is read, and its typed form is put in order
              with these counts
"""
import os
import sys

import make_boards
import make_runs

FOLDER = os.path.join(os.path.dirname(os.path.abspath(__file__)), "..", "crates", "cases")
MOST = 262143  # the program's buffer has one byte more

# ------------------------------------------------------------------------------------------------ layouts


def u16(x):
    return x.to_bytes(2, "little")


def hexed(text):
    return bytes.fromhex(text)


def row(start=0, end=0, seconds=7, crate=1):
    """A passage."""
    return u16(start) + u16(end) + u16(seconds) + u16(crate)


def map_file(n, rows=(), m=None, mark=b"LPM", version=1):
    return mark + u16(version) + u16(n) + u16(len(rows) if m is None else m) + b"".join(rows)


def chain(*keys, start=0):
    """A chain as a question has it."""
    return bytes([0x10, len(keys), *keys]) + u16(start)


def slots(*keys, start=0):
    """A chain as a worksheet of version 1 has it: six bytes."""
    return bytes([len(keys), *keys]).ljust(4, b"\0") + u16(start)


def starts_of(*starts, count=None):
    """A set: its count, which may be another one than that of the starts, and the starts."""
    return bytes([len(starts) if count is None else count]) + b"".join(u16(start) for start in starts)


def chain_set(*keys, starts=(0,), count=None):
    """A chain from a set of starts as a question has it."""
    return bytes([0x13, len(keys), *keys]) + starts_of(*starts, count=count)


def set_slots(*keys, starts=(0,), count=None):
    """A chain as a worksheet of version 2 has it; no start for anywhere."""
    return bytes([len(keys), *keys]).ljust(4, b"\0") + starts_of(*starts, count=count)


def tree(terms, plus, leaf):
    """An odd number of terms in a tree of little depth."""
    if terms == 1:
        return leaf
    left = (terms - 1) // 2 | 1
    return plus + tree(left, plus, leaf) + tree(terms - 1 - left, plus, leaf)


ONE = u16(1)  # the version
Q0, Q1 = b"LPQ" + ONE + b"\0", b"LPQ" + ONE + b"\1"  # a question of either kind; a term is due
W0, W1 = b"LPW" + ONE + b"\0", b"LPW" + ONE + b"\1"  # a worksheet of either kind; the chain count is due
V0, V1 = b"LPW" + u16(2) + b"\0", b"LPW" + u16(2) + b"\1"  # the same of version 2
E0 = W0 + hexed("00 01 00")  # no chain, one entry of reduction byte 0; its expression is due
E1 = W1 + hexed("00 00")  # no chain, no entry; the final expression is due
LIT, PLUS, SUM = hexed("11 07000000"), hexed("12 03"), hexed("20 03")  # two place terms are due behind PLUS, one behind SUM
RLIT, RPLUS = hexed("21 07000000"), hexed("22 03")  # two result terms are due behind RPLUS
WHERE, SUM_WHERE = hexed("23 03"), b"\x83"  # a sum with a condition, in a question and as an entry's byte: condition and value are due
MAP_A = map_file(4, [row(0, 1, 5, 10), row(0, 2, 2, 4), row(2, 1, 3, 20), row(1, 3, 0, 7)])
LOW16, ODD16 = tuple(range(16)), tuple(range(1, 33, 2))  # sets of 16


def place_tree(terms):
    return tree(terms, PLUS, LIT)


def due(number, name, before, wrong, behind=b""):
    """Behind `before` something is due: 1 where it lacks its last byte, and `number` where it is wrong, whatever is behind."""
    yield 1, name + ", but its last byte missing", before + wrong[:-1]
    yield number, name, before + wrong + behind


# ------------------------------------------------------------------------------------------------ maps
# Under 9 bytes 1, then 2, 3, 4, 5, 6, and the rows in turn: from, to, crate.


def map_headers():
    yield 1, "empty", b""
    yield 1, "8 bytes, wrong letters and version", b"XYZ" + u16(2) + bytes(3)
    yield 1, "8 bytes, n 0", b"LPM" + ONE + bytes(3)
    for mark in (b"lPM", b"LQM", b"LPQ", b"LPW"):
        yield 2, f"letters {mark}", map_file(4, [row()], mark=mark)
    yield 2, "letters LPA, and version 2, n 0, m 1,025, length", map_file(0, [], 1025, b"LPA", 2)
    for version in (0, 2, 256, 257):
        yield 3, f"version {version}", map_file(4, [row()], version=version)
    yield 3, "version 2, and n 0, m 1,025, length", map_file(0, [], 1025, version=2)


def map_counts():
    for n, number in ((0, 4), (1, 0), (255, 0), (256, 0), (257, 4), (512, 4), (65535, 4)):
        yield number, f"n {n}", map_file(n)
    yield 4, "n 0, and m 1,025", map_file(0, [], 1025)
    yield 4, "n 257, and a row too many, of places that there are not", map_file(257, [row(300, 300, 0, 0)], 0)
    yield 0, "m 1,024", map_file(1, [row()] * 1024)
    yield 5, "m 1,025", map_file(1, [row()] * 1025)
    for m in (1025, 1280, 65535):
        yield 5, f"m {m}, and no row", map_file(1, [], m)
    yield 6, "m 1,024, and no row", map_file(1, [], 1024)


def map_lengths():
    whole = map_file(2, [row(0, 1), row(1, 0)])
    for k in range(len(whole)):
        yield 1 if k < 9 else 6, f"two rows, cut to {k} bytes", whole[:k]
    yield 0, "two rows", whole
    yield 6, "two rows, a byte left over", whole + b"\0"
    yield 6, "two rows, a row left over", whole + row()
    yield 6, "no row, a byte left over", map_file(1) + b"\0"
    yield 6, "m 0, and a row", map_file(1, [row()], 0)
    yield 6, "wrong places and crate, and a byte left over", map_file(1, [row(1, 1, 0, 0)]) + b"\0"
    yield 6, "wrong places and crate, and a byte missing", map_file(1, [row(1, 1, 0, 0)])[:-1]


def map_rows():
    yield 0, "map A", MAP_A
    for n in (1, 256):
        yield 0, f"n {n}, from and to the last place", map_file(n, [row(n - 1, n - 1)])
        for place in (n, n + 256, 65535):
            yield 7, f"n {n}, from {place}", map_file(n, [row(place, 0)])
            yield 7, f"n {n}, to {place}", map_file(n, [row(0, place)])
    for crate, number in ((0, 8), (1, 0), (255, 0), (256, 0), (65534, 0), (65535, 8)):
        yield number, f"crate {crate}", map_file(1, [row(0, 0, 0, crate)])
    yield 0, "seconds 65,535", map_file(1, [row(0, 0, 65535)])
    yield 0, "repeated rows", map_file(2, [row(0, 1)] * 3)
    yield 7, "from, and crate of the same row", map_file(1, [row(1, 0, 0, 0)])
    yield 7, "to, and crate of the same row", map_file(1, [row(0, 1, 0, 65535)])
    yield 8, "crate, and from of the next row", map_file(1, [row(0, 0, 0, 0), row(1, 0)])
    yield 7, "to, and crate of the next row", map_file(1, [row(0, 1), row(0, 0, 0, 0)])
    yield 7, "from of the last of three rows", map_file(3, [row(), row(2, 2), row(3, 0)])
    yield 8, "crate of the last of three rows", map_file(3, [row(), row(2, 2), row(0, 0, 0, 65535)])


# ------------------------------------------------------------------------------------------------ questions and worksheets alike
# Under 5 bytes 1, then 2, 3, then left to right: for a term 1, 12, 11, 9, then each field, missing (1) before wrong.


def headers(mark, behind, version=1, wrong_version=2):
    """`behind` makes an accepted file of a header."""
    right = u16(version)
    yield 1, "empty", b""
    yield 1, "4 bytes, wrong letters", b"XYZ\2"
    for wrong in (b"l" + mark[1:], mark[:1] + b"Q" + mark[2:], mark[:2] + b"X", b"LPM"):
        yield 2, f"letters {wrong}", wrong + right + behind
    yield 2, f"letters LPM, and version {wrong_version}, nothing behind", b"LPM" + u16(wrong_version)
    for other in (0, wrong_version, 255, 256, 256 + version, 258, 512 + version, 65535):
        yield 3, f"version {other}", mark + u16(other) + behind
    yield 3, f"version {wrong_version}, nothing behind", mark + u16(wrong_version)
    yield 3, f"version {wrong_version}, and kind 2", mark + u16(wrong_version) + b"\2" + behind[1:]
    yield 1, f"version {version}, nothing behind", mark + right
    yield 0, f"version {version}", mark + right + behind
    for kind in (b"\2", b"\xff"):
        yield 9, f"kind {kind[0]}", mark + right + kind + behind[1:]
    yield 9, "kind 2, nothing behind", mark + right + b"\2"


def cuts(whole):
    """Each byte of an accepted file is right, so where it is cut a header, field or term lacks bytes: 1."""
    yield 0, "whole", whole
    for k in range(len(whole)):
        yield 1, f"cut to {k} bytes", whole[:k]


def term_bytes(before, legal):
    """Each byte that starts some term, and some that start none, where a term is due."""
    for tag in (0x00, 0x10, 0x11, 0x12, 0x13, 0x14, 0x20, 0x21, 0x22, 0x23, 0x24, 0x30, 0x31, 0x32, 0x81, 0xFF):
        if tag not in legal:
            yield 9, f"term byte {tag:#04x}", before + bytes([tag]) + LIT[1:]


def terms(before, plus, leaf):
    """Literals, operators and left-over bytes where a term is due; it is the only one."""
    tag = leaf[:1]
    for value in (hexed("00000000"), hexed("ffffffff")):
        yield 0, f"literal {value.hex()}", before + tag + value
    yield 6, "a byte left over", before + leaf + b"\0"
    yield 6, "a term left over", before + leaf * 2
    for number in (1, 11):
        yield 0, f"operator {number}", before + plus[:1] + bytes([number]) + leaf * 2
    yield 9, "operator 0", before + plus[:1] + b"\x00" + leaf * 2
    yield 9, "operator 12", before + plus[:1] + b"\x0c" + leaf * 2
    yield 9, "operator 12, nothing behind", before + plus[:1] + b"\x0c"
    yield 9, "a wrong byte for the first of two terms, the second missing", before + plus + b"\xff"
    yield 9, "a wrong byte for the second of two terms", before + plus + leaf + b"\xff"


def limits(before, plus, leaf):
    """Depth and number of the terms of an expression that starts behind `before`, where no term was before."""
    tag = leaf[:1]
    yield 0, "depth 16 to the right", before + (plus + leaf) * 15 + leaf
    yield 0, "depth 16 to the left", before + plus * 15 + leaf * 16
    yield from due(11, "depth 17 to the right", before + (plus + leaf) * 15 + plus, tag)
    yield from due(11, "depth 17 to the left", before + plus * 16, tag, leaf[1:] + leaf * 16)
    yield 11, "depth 17, a wrong byte", before + plus * 16 + b"\xff"
    yield 9, "depth 16, a wrong byte", before + plus * 15 + b"\xff"
    yield 0, "63 terms", before + tree(63, plus, leaf)
    yield from due(12, "term 65", before + plus + tree(63, plus, leaf), tag, leaf[1:])
    yield 12, "term 65, a wrong byte", before + plus + tree(63, plus, leaf) + b"\xff"
    # Down to depth 17 by 16 operators; each `six` and `four` is one of them with its first term: so many terms.
    six, four, last = plus + tree(5, plus, leaf), plus + tree(3, plus, leaf), plus + leaf + plus
    yield 11, "term 64 at depth 17", before + six * 2 + four * 12 + last + tag
    yield from due(12, "term 65 at depth 17", before + plus + six * 4 + four * 9 + last, tag)


# ------------------------------------------------------------------------------------------------ questions


def question_keys():
    for key in (1, 2, 3, 4, 5, 6):
        yield 0, f"key {key}", Q0 + chain(key)
    for first, number in ((1, 0), (2, 0), (3, 0), (4, 0), (5, 10), (6, 10)):
        for last in (2, 5):
            yield number, f"keys {first},{last}", Q0 + chain(first, last)
    for keys in ((1, 6), (4, 6), (2, 3, 5), (1, 2, 6), (4, 3, 2), (3, 3, 3)):
        yield 0, f"keys {keys}", Q0 + chain(*keys)
    for keys in ((6, 1), (6, 6), (2, 5, 3), (2, 6, 6), (5, 2, 3), (6, 6, 6), (5, 7), (6, 0), (5, 7, 0), (1, 5, 7)):
        yield 10, f"keys {keys}", Q0 + chain(*keys)
    for keys in ((0,), (7,), (255,), (7, 5), (0, 1), (1, 7), (2, 0), (7, 5, 2), (1, 7, 5), (1, 2, 7), (1, 2, 0)):
        yield 9, f"keys {keys}", Q0 + chain(*keys)
    yield 10, "keys 5,2, and start 256", Q0 + chain(5, 2, start=256)
    yield 9, "key 7, and start 256", Q0 + chain(7, start=256)
    yield 10, "key 5 of 2, nothing behind", Q0 + hexed("10 02 05")
    yield 9, "key 7 of 2, nothing behind", Q0 + hexed("10 02 07")
    for count in (0, 4, 255):
        yield 9, f"key count {count}, and keys 5,7", Q0 + bytes([0x10, count, 5, 7, 1, 1, 0, 0])
        yield 9, f"key count {count}, nothing behind", Q0 + bytes([0x10, count])


def question_starts():
    for start in (0, 1, 255, 65535):
        yield 0, f"start {start}", Q0 + chain(1, start=start)
    for start in (256, 257, 65280, 65534):
        yield from due(13, f"start {start}", Q0 + hexed("10 01 01"), u16(start))
    yield 13, "start 256 of three keys", Q0 + chain(1, 2, 5, start=256)
    yield 13, "start 256, and a byte left over", Q0 + chain(1, start=256) + b"\0"
    yield 13, "start 256, and a second term of a wrong byte", Q0 + PLUS + chain(1, start=256) + b"\xff"
    yield 6, "a chain, and a byte left over", Q0 + chain(1) + b"\0"


def question_chains():
    eight = [chain(1, start=i) for i in range(8)]
    ninth = Q0 + PLUS * 8 + b"".join(eight)  # a ninth is due
    yield 0, "8 chains", Q0 + PLUS * 7 + b"".join(eight)
    yield 0, "8 chains, one twice at the start", Q0 + PLUS * 8 + chain(1) + b"".join(eight)
    for i in (0, 3, 7):
        yield 0, f"a ninth, but equal to number {i}", ninth + eight[i]
    for keys, start in (((1,), 8), ((1,), 65535), ((2,), 0), ((1, 1), 0), ((1, 1, 1), 7)):
        yield 14, f"a ninth, keys {keys}, start {start}", ninth + chain(*keys, start=start)
    high = Q0 + PLUS * 8 + chain(1, start=255) + b"".join(eight[1:])  # start 255 in the place of 0; a ninth is due
    yield 14, "a ninth, start 65,535, with 255 among the eight", high + chain(1, start=65535)
    yield from due(14, "a ninth, and a byte left over", ninth + hexed("10 01 01"), u16(8), b"\0")
    yield 13, "a ninth, start 256", ninth + chain(1, start=256)
    yield 10, "a ninth, keys 5,2", ninth + chain(5, 2)
    yield 9, "a ninth, key 7", ninth + chain(7)
    similar = ((1,), (2,), (1, 2), (2, 1), (1, 1), (1, 1, 1), (1, 2, 1), (1, 1, 2))
    yield 0, "8 chains of similar keys", Q0 + PLUS * 7 + b"".join(chain(*keys) for keys in similar)
    yield 14, "9 chains of similar keys", Q0 + PLUS * 8 + b"".join(chain(*keys) for keys in similar + ((2, 2),))
    three = SUM + PLUS * 2  # a reduction; three place terms are due
    below = [three + b"".join(eight[:3]), three + b"".join(eight[3:6]), three + b"".join(eight[6:])]
    yield 0, "9 chains below 3 reductions, the last as the first", Q1 + RPLUS * 2 + b"".join(below) + eight[0]
    yield 14, "9 chains below 3 reductions", Q1 + RPLUS * 2 + b"".join(below) + chain(6)


def question_reductions():
    for number in (1, 2, 3, 4, 5):
        yield 0, f"reduction {number}", Q1 + bytes([0x20, number]) + LIT
    for number in (0, 6, 255):
        yield 9, f"reduction {number}", Q1 + bytes([0x20, number]) + LIT
    yield 9, "reduction 6, nothing behind", Q1 + hexed("20 06")
    ninth = Q1 + RPLUS * 8 + (SUM + LIT) * 8  # a ninth is due
    yield 0, "8 reductions", Q1 + RPLUS * 7 + (SUM + LIT) * 8
    yield 0, "8 reductions and a literal", ninth + RLIT
    yield from due(14, "a ninth reduction", ninth, SUM, LIT)
    yield 14, "a ninth reduction, nothing behind", ninth + SUM
    yield 14, "a ninth reduction of a wrong byte", ninth + SUM + b"\xff"
    yield 9, "a ninth reduction, its byte 6", ninth + hexed("20 06") + LIT
    yield 6, "8 reductions, and a ninth left over", Q1 + RPLUS * 7 + (SUM + LIT) * 9


def question_limits():
    """A reduction is a term: a first one leaves 15 levels and 63 terms below it."""
    yield 0, "a reduction, depth 16", Q1 + SUM + PLUS * 14 + LIT * 15
    yield from due(11, "a reduction, depth 17", Q1 + SUM + PLUS * 15, b"\x10", chain(1)[1:])
    yield 11, "a reduction at depth 17", Q1 + RPLUS * 16 + SUM + LIT
    yield 11, "below a reduction at depth 16", Q1 + RPLUS * 15 + SUM + LIT + RLIT * 15
    yield 0, "a reduction, 64 terms", Q1 + SUM + place_tree(63)
    yield 0, "a reduction and a literal, 64 terms", Q1 + RPLUS + SUM + place_tree(61) + RLIT
    term65 = Q1 + RPLUS * 2 + SUM + place_tree(31) + SUM + place_tree(29)
    yield from due(12, "term 65 behind two reductions", term65, b"\x21", RLIT[1:])
    yield 12, "term 65 is a reduction of byte 6", term65 + hexed("20 06")
    yield 12, "term 65 below a reduction", Q1 + SUM + PLUS * 2 + place_tree(61) + LIT * 2
    yield 12, "term 65 is a ninth reduction", Q1 + RPLUS * 8 + (SUM + place_tree(5)) * 7 + SUM + place_tree(13) + SUM


def question_conditions():
    """A result term 0x23: the reduction, then 14, then the condition, then the value."""
    yield 0, "the sum of the seconds from 0 beyond 2", Q1 + hexed("23 03 12 09") + chain(2) + hexed("11 02000000") + chain(2)
    yield from cuts(Q1 + RPLUS + WHERE + hexed("12 09") + chain(2, 5, start=65535) + LIT + chain(2) + SUM + chain(2))
    yield 1, "0x23, no reduction", Q1 + b"\x23"
    yield 1, "no condition", Q1 + WHERE
    yield 1, "a condition, no value", Q1 + WHERE + LIT
    for number in (1, 2, 3, 4, 5):
        yield 0, f"reduction {number} with a condition", Q1 + bytes([0x23, number]) + LIT * 2
    for number in (0, 6, 127, 128, 129, 131, 133, 134, 255):
        yield 9, f"reduction {number} with a condition", Q1 + bytes([0x23, number]) + LIT * 2
        yield 9, f"reduction {number} of 0x23, nothing behind", Q1 + bytes([0x23, number])
        yield 9, f"reduction {number} without a condition, two terms behind", Q1 + bytes([0x20, number]) + LIT * 2
    yield 6, "a byte behind the value", Q1 + WHERE + LIT * 2 + b"\0"
    yield 6, "a third term", Q1 + WHERE + LIT * 3
    yield 6, "two terms behind 0x20", Q1 + SUM + LIT * 2
    yield 3, "version 2, and a condition", b"LPQ" + u16(2) + b"\1" + WHERE + LIT * 2


def condition_terms():
    """What may stand as condition and as value: place terms, each judged in its turn."""
    for where, before, behind in (("condition", Q1 + WHERE, LIT), ("value", Q1 + WHERE + LIT, b"")):
        for name, term in (("chain", chain(2, 5, start=65535)), ("chain from a set", chain_set(2, 5, starts=(0, 255))), ("literal", LIT),
                           ("operator", PLUS + LIT + chain(1))):
            yield 0, f"a {name} as {where}", before + term + behind
        for name, term in (("reduction", SUM + LIT), ("reduction with a condition", WHERE + LIT * 2), ("result literal", RLIT),
                           ("result operator", RPLUS + RLIT * 2), ("worksheet's chain", hexed("30 00")), ("worksheet's entry", hexed("31 00"))):
            yield 9, f"a {name} as {where}", before + term + behind
            yield 9, f"a {name} within the {where}", before + PLUS + LIT + term + behind
        for tag in (0x00, 0x14, 0x24, 0x32, 0x83, 0xFF):
            yield 9, f"term byte {tag:#04x} as {where}", before + bytes([tag]) + LIT[1:] + behind
        yield from due(13, f"start 256 in the {where}", before + hexed("10 01 01"), u16(256), behind)
        yield from due(17, f"starts 2,2 in the {where}", before + hexed("13 01 01 02 0200"), u16(2), behind)
        yield 10, f"keys 5,2 in the {where}", before + chain(5, 2) + behind
        yield 9, f"operator 12 in the {where}", before + hexed("12 0c") + LIT * 2 + behind
    yield 9, "a wrong byte for the condition, no value", Q1 + WHERE + b"\xff"
    yield 13, "start 256 in the condition, and a wrong byte for the value", Q1 + WHERE + chain(1, start=256) + b"\xff"
    yield 10, "keys 5,2 in the condition, and start 256 in the value", Q1 + WHERE + chain(5, 2) + chain(1, start=256)
    yield 13, "start 256 in the value, and the next term", Q1 + RPLUS + WHERE + LIT + chain(1, start=256) + b"\xff"
    for name, before in (("below a reduction", Q1 + SUM), ("as a place term", Q0), ("left of a place term", Q0 + PLUS),
                         ("right of a place term", Q0 + PLUS + LIT), ("below a reduction, within a term", Q1 + SUM + PLUS + LIT)):
        yield 9, f"0x23 {name}", before + WHERE + LIT * 2
        yield 9, f"0x23 {name}, nothing behind", before + b"\x23"
    yield 9, "a place term right of a condition's reduction", Q1 + RPLUS + WHERE + LIT * 3


def condition_reductions():
    """It is one of the eight reductions; a ninth is 14 behind its byte, before its condition is looked at."""
    sum_where, plain = WHERE + LIT * 2, SUM + LIT
    yield 0, "8 reductions with conditions", Q1 + RPLUS * 7 + sum_where * 8
    yield 0, "8 reductions with conditions and a literal", Q1 + RPLUS * 8 + sum_where * 8 + RLIT
    yield 0, "8 reductions, 4 with conditions", Q1 + RPLUS * 7 + (plain + sum_where) * 4
    for name, eight in (("with conditions", sum_where * 8), ("without", plain * 8), ("some with", plain * 3 + sum_where + plain * 4)):
        ninth = Q1 + RPLUS * 8 + eight  # a ninth is due
        yield from due(14, f"8 reductions {name}, a ninth with a condition", ninth, WHERE, LIT * 2)
        yield 14, f"8 reductions {name}, a ninth with a condition, nothing behind", ninth + WHERE
        yield 14, f"8 reductions {name}, a ninth with a wrong byte for a condition", ninth + WHERE + b"\xff"
        yield 9, f"8 reductions {name}, a ninth with a condition, its byte 6", ninth + hexed("23 06") + LIT * 2
        yield from due(14, f"8 reductions {name}, a ninth without", ninth, SUM, LIT)
    yield 6, "8 reductions with conditions, and a ninth left over", Q1 + RPLUS * 7 + sum_where * 9
    yield 14, "a ninth with a condition is term 64", (Q1 + RPLUS * 8 + (SUM + place_tree(5)) * 7 + WHERE + place_tree(5) + place_tree(7)
                                                      + WHERE + LIT * 2)


def condition_chains():
    """Chains are met in the order written: the condition's before the value's."""
    eight = [chain(1, start=i) for i in range(8)]
    whole = b"".join(eight)
    yield 0, "8 chains in a condition, a literal as value", Q1 + WHERE + PLUS * 7 + whole + LIT
    yield 0, "8 chains in a condition, the value one of them", Q1 + WHERE + PLUS * 7 + whole + eight[7]
    yield 0, "8 chains in condition and value together", Q1 + WHERE + PLUS * 3 + whole[:20] + PLUS * 3 + whole[20:]
    yield 0, "8 chains in a value, one of them the condition", Q1 + WHERE + eight[3] + PLUS * 7 + whole
    yield from due(14, "a ninth chain in the condition", Q1 + WHERE + PLUS * 8 + whole + hexed("10 01 01"), u16(8), LIT)
    yield 14, "a ninth chain in the condition, no value", Q1 + WHERE + PLUS * 8 + whole + chain(2)
    yield from due(14, "a ninth chain as value", Q1 + WHERE + PLUS * 7 + whole + hexed("10 01 01"), u16(8))
    yield 14, "a ninth chain in the value", Q1 + WHERE + eight[0] + PLUS * 7 + whole[5:] + chain(1, 1)
    yield 13, "a ninth chain as value, start 256", Q1 + WHERE + PLUS * 7 + whole + chain(1, start=256)
    yield 14, "a ninth chain behind a condition and a value", Q1 + RPLUS + WHERE + PLUS * 3 + whole[:20] + PLUS * 3 + whole[20:] + SUM + chain(2)
    yield 0, "8 chains before, in a condition again", Q1 + RPLUS + SUM + PLUS * 7 + whole + WHERE + eight[6] + eight[0]
    yield 14, "8 chains before, a ninth as condition", Q1 + RPLUS + SUM + PLUS * 7 + whole + WHERE + chain(2) + eight[0]


def condition_limits():
    """It is one term; condition and value stand one deeper."""
    high = Q1 + RPLUS * 14 + WHERE  # at depth 15
    for where, before, behind in (("condition", Q1 + WHERE, LIT), ("value", Q1 + WHERE + LIT, b"")):
        yield 0, f"depth 16 in a {where}", before + PLUS * 14 + LIT * 15 + behind
        yield 0, f"depth 16 in a {where}, to the right", before + (PLUS + LIT) * 14 + LIT + behind
        yield from due(11, f"depth 17 in a {where}", before + PLUS * 15, b"\x11", LIT[1:] + LIT * 15 + behind)
        yield from due(11, f"depth 17 in a {where}, to the right", before + (PLUS + LIT) * 14 + PLUS, b"\x11", LIT[1:] + LIT + behind)
        yield 11, f"depth 17 in a {where}, a wrong byte", before + PLUS * 15 + b"\xff"
        yield 9, f"depth 16 in a {where}, a wrong byte", before + PLUS * 14 + b"\xff"
    yield 0, "condition and value of depth 16", Q1 + WHERE + (PLUS * 14 + LIT * 15) * 2
    yield 0, "a condition at depth 16", high + LIT * 2 + RLIT * 14
    yield from due(11, "depth 17 in a condition that stands at depth 16", high + PLUS, b"\x11", LIT[1:])
    yield from due(11, "depth 17 in a value that stands at depth 16", high + LIT + PLUS, b"\x11", LIT[1:])
    yield from due(11, "a condition at depth 17", Q1 + RPLUS * 15 + WHERE, b"\x11", LIT[1:])
    yield 14, "a ninth with a condition at depth 16", Q1 + RPLUS * 8 + (SUM + LIT) * 8 + RPLUS * 14 + WHERE + LIT
    yield 9, "0x23 at depth 16, reduction 6", Q1 + RPLUS * 15 + hexed("23 06")
    yield from due(11, "0x23 at depth 17", Q1 + RPLUS * 16, b"\x23", b"\3" + LIT * 2)
    yield 0, "63 terms, a condition of 31", Q1 + WHERE + place_tree(31) * 2
    yield 0, "63 terms, a condition of 61", Q1 + WHERE + place_tree(61) + LIT
    yield 0, "64 terms, some of them a condition", Q1 + RPLUS + SUM + place_tree(31) + WHERE + place_tree(15) * 2
    yield from due(12, "term 65 is the value", Q1 + WHERE + place_tree(63), b"\x11", LIT[1:])
    yield 12, "term 65 is the value, a wrong byte", Q1 + WHERE + place_tree(63) + b"\xff"
    yield from due(12, "term 65 within the value", Q1 + WHERE + place_tree(31) + PLUS + place_tree(31), b"\x11", LIT[1:])
    yield from due(12, "term 65 within the condition", Q1 + WHERE + PLUS * 2 + place_tree(61), b"\x11", LIT[1:] + LIT)
    last = Q1 + RPLUS + SUM + place_tree(61)  # term 64 is due
    yield from due(12, "term 64 is 0x23, term 65 its condition", last + WHERE, b"\x11", LIT[1:] + LIT)
    yield 9, "term 64 is 0x23, its reduction 6", last + hexed("23 06")
    full = Q1 + RPLUS * 2 + SUM + place_tree(31) + SUM + place_tree(29)  # term 65 is due
    yield from due(12, "term 65 is 0x23", full, b"\x23", b"\3" + LIT * 2)
    yield 12, "term 65 is 0x23 of byte 6", full + hexed("23 06")
    yield 12, "term 65 is a ninth with a condition", (Q1 + RPLUS * 8 + (WHERE + place_tree(3) * 2) * 6 + SUM + place_tree(5) + SUM + place_tree(7)
                                                      + WHERE)


def set_starts(name, before, behind):
    """Starts of a set where its count is due, each judged in its turn: missing 1, then 13, then 17."""
    for starts in ((0,), (255,), (0, 1), (0, 255), (254, 255), (0, 2, 255), LOW16, ODD16, tuple(range(240, 256))):
        yield 0, f"{name}, starts {starts}", before + starts_of(*starts) + behind
    for start in (256, 257, 511, 32768, 65280, 65534, 65535):
        for ahead in ((), (0,), (255,), LOW16[:15]):
            count = bytes([len(ahead) + 1])
            yield from due(13, f"{name}, start {start} behind {ahead}", before + count + starts_of(*ahead)[1:], u16(start), behind)
    for ahead, start in (((0,), 0), ((255,), 255), ((1,), 0), ((255,), 0), ((255,), 254), ((0, 5), 5), ((0, 5), 3), ((0, 5), 0), (LOW16[:8], 7),
                         (LOW16[:8], 0), (LOW16[:15], 14), (LOW16[:15], 13), (ODD16[:15], 1)):
        count = bytes([len(ahead) + 1])
        yield from due(17, f"{name}, start {start} behind {ahead}", before + count + starts_of(*ahead)[1:], u16(start), behind)
    for number, starts in ((17, (5, 5, 256)), (17, (5, 4, 65535)), (13, (256, 5, 5)), (13, (5, 256, 5)), (13, (5, 65535, 0)), (13, (255, 256)), (13, (5, 261)),
                           (13, (65535, 65535)), (17, (2, 1, 0)), (17, (0, 2, 1, 3)), (17, (0, 0, 0, 0))):
        yield number, f"{name}, starts {starts}", before + starts_of(*starts) + behind
        yield number, f"{name}, starts {starts}, nothing behind", before + starts_of(*starts)
    for starts in ((5, 5), (256,), (0, 3, 2)):  # a fault, and a fourth start missing
        number = 13 if 256 in starts else 17
        yield number, f"{name}, starts {starts}, but a count of 4", before + starts_of(*starts, count=4)


def question_sets():
    """A place term 0x13: key count, keys, the set's count, its starts, then 14."""
    yield from cuts(Q0 + chain_set(2, starts=(0, 2)))
    yield from cuts(Q1 + SUM + PLUS + chain_set(1, 2, 5, starts=(0, 2, 255)) + chain_set(2))
    yield from set_starts("0x13", Q0 + hexed("13 01 02"), b"")
    for count in range(1, 17):
        yield 0, f"0x13, {count} starts", Q0 + chain_set(2, 6, starts=ODD16[:count])
    yield 1, "0x13, 16 starts of which one is missing", Q0 + chain_set(2, starts=LOW16[:15], count=16)
    yield 6, "0x13, a start more than its count", Q0 + chain_set(2, starts=LOW16, count=15)
    for count in (0, 17, 18, 32, 128, 255):
        yield 9, f"0x13, set count {count}", Q0 + chain_set(2, starts=range(17), count=count)
        yield 9, f"0x13, set count {count}, nothing behind", Q0 + hexed("13 01 02") + bytes([count])
        yield 9, f"0x13, set count {count}, and starts 256,0", Q0 + chain_set(2, starts=(256, 0), count=count)
    for key in (1, 2, 3, 4, 5, 6):
        yield 0, f"0x13, key {key}", Q0 + chain_set(key, starts=(0, 2))
    for number, keys in ((0, (2, 5)), (0, (4, 3, 6)), (9, (0,)), (9, (7,)), (9, (1, 7)), (9, (7, 5)), (9, (1, 2, 0)), (10, (5, 2)), (10, (6, 6)),
                         (10, (1, 5, 7))):
        yield number, f"0x13, keys {keys}", Q0 + chain_set(*keys, starts=(0, 2))
        if number:
            for starts, count in (((0, 2), 0), ((0,), 17), ((256,), 1), ((2, 2), 2), ((65535,), 1)):
                yield number, f"0x13, keys {keys}, and set count {count}, starts {starts}", Q0 + chain_set(*keys, starts=starts, count=count)
    for number, text in ((1, "13"), (1, "13 01"), (1, "13 01 02"), (10, "13 02 05"), (9, "13 02 07"), (9, "13 00"), (9, "13 04"), (9, "13 ff")):
        yield number, f"0x13 cut: {text}", Q0 + hexed(text)
    for count in (0, 4, 255):
        yield 9, f"0x13, key count {count}, and keys 5,7, set count 0", Q0 + bytes([0x13, count, 5, 7, 1, 0, 0, 0])
    yield 6, "0x13, and a byte left over", Q0 + chain_set(2, starts=(0, 2)) + b"\0"
    yield 6, "0x13, and a term left over", Q0 + chain_set(2, starts=(0, 2)) * 2
    yield 13, "0x13, start 256, and a byte left over", Q0 + chain_set(2, starts=(0, 256)) + b"\0"
    yield 17, "0x13, starts 1,1, and a second term of a wrong byte", Q0 + PLUS + chain_set(2, starts=(1, 1)) + b"\xff"
    yield 9, "a wrong byte, and 0x13 of starts 1,1", Q0 + PLUS + b"\xff" + chain_set(2, starts=(1, 1))
    yield 3, "version 2, and a set", b"LPQ" + u16(2) + b"\0" + chain_set(2, starts=(0, 2))
    for name, before in (("as a result term", Q1), ("right of a result term", Q1 + RPLUS + RLIT)):
        yield 9, f"0x13 {name}", before + chain_set(2, starts=(0, 2))


def set_chains():
    """A set of one is the same chain as 0x10 with that start; sets are the same that have the same starts."""
    eight = [chain(1, start=i) for i in range(8)]
    ninth = Q0 + PLUS * 8 + b"".join(eight)  # a ninth is due
    for i in (0, 3, 7):
        yield 0, f"a set of one for a ninth, equal to number {i}", ninth + chain_set(1, starts=(i,))
    for keys, starts in (((1,), (8,)), ((1,), (255,)), ((2,), (0,)), ((1, 1), (0,)), ((1,), (0, 1)), ((1,), (0, 8)), ((1,), LOW16), ((1, 1, 1), (7,))):
        yield 14, f"a ninth, keys {keys}, starts {starts}", ninth + chain_set(*keys, starts=starts)
    yield from due(14, "a ninth from a set, and a byte left over", ninth + hexed("13 01 01 02 0000"), u16(1), b"\0")
    yield 14, "a ninth from a set, and a second term of a wrong byte", Q0 + PLUS * 9 + b"".join(eight) + chain_set(1, starts=(0, 1)) + b"\xff"
    for number, name, term in (
        (9, "set count 0", chain_set(1, starts=())), (9, "set count 17", chain_set(1, starts=range(17))),
        (13, "start 256", chain_set(1, starts=(0, 256))), (13, "start 65,535", chain_set(1, starts=(65535,))),
        (17, "starts 1,1", chain_set(1, starts=(1, 1))), (10, "keys 5,2", chain_set(5, 2, starts=(0, 1))),
        (1, "a start missing", chain_set(1, starts=(0,), count=2)),
    ):
        yield number, f"a ninth from a set, {name}", ninth + term
    sets = [chain_set(1, starts=starts) for starts in ((0, 1), (0, 2), (1, 2), (0, 1, 2), (0,), ODD16, ODD16[:15], LOW16)]
    full = Q0 + PLUS * 8 + b"".join(sets)  # a ninth is due
    yield 0, "8 sets", Q0 + PLUS * 7 + b"".join(sets)
    for i in range(8):
        yield 0, f"8 sets, a ninth equal to number {i}", full + sets[i]
    yield 0, "8 sets, a ninth 0x10 equal to a set of one", full + chain(1)
    for start in (1, 2, 65535):
        yield 14, f"8 sets, a ninth 0x10 from {start}", full + chain(1, start=start)
    for starts in ((1,), (2,), (0, 3), (0, 1, 3), (0, 1, 2, 3), ODD16[:8], ODD16[1:], ODD16[:15] + (32,), ODD16[:8] + (16,) + ODD16[9:], LOW16[:15]):
        yield 14, f"8 sets, a ninth from {starts}", full + chain_set(1, starts=starts)
    yield 14, "8 sets, a ninth of other keys", full + chain_set(2, starts=(0, 1))
    anywhere = Q0 + PLUS * 8 + chain(1, start=65535) + b"".join(eight[1:])  # a ninth is due
    yield 14, "anywhere among the eight, a ninth set of start 0", anywhere + chain_set(1)
    yield 14, "anywhere among the eight, a ninth set of start 255", anywhere + chain_set(1, starts=(255,))
    yield 0, "a set of one, then 0x10, then eight in all", Q0 + PLUS * 8 + chain_set(1) + b"".join(eight)
    yield 0, "a set of one each, then 0x10 of each", Q0 + PLUS * 15 + b"".join(chain_set(1, starts=(i,)) for i in range(8)) + b"".join(eight)


def set_limits():
    """0x13 is one term, at the depth at which it stands. The longest question has 32 of the longest."""
    one = chain_set(2, starts=(0, 2))
    yield 0, "0x13 at depth 16", Q0 + PLUS * 15 + one * 16
    yield from due(11, "0x13 at depth 17", Q0 + PLUS * 16, b"\x13", one[1:])
    yield 11, "0x13 at depth 17 below a reduction", Q1 + SUM + PLUS * 15 + one
    yield 0, "63 terms, each leaf 0x13", Q0 + tree(63, PLUS, one)
    yield 0, "a condition and a value of 0x13, 63 terms", Q1 + WHERE + tree(31, PLUS, one) * 2
    yield from due(12, "term 65 is 0x13", Q0 + PLUS + tree(63, PLUS, one), b"\x13", one[1:])
    longest = Q1 + SUM + tree(63, PLUS, chain_set(2, 2, 5, starts=LOW16))
    assert len(longest) == 1286
    yield 0, "the longest question", longest
    yield 1, "the longest question, its last byte missing", longest[:-1]
    yield 6, "the longest question, a byte left over", longest + b"\0"
    yield 17, "the longest question, its last start as the one before", longest[:-2] + u16(14)
    yield 13, "the longest question, its last start 271", longest[:-2] + u16(271)
    eight = b"".join(chain_set(2, 2, 5, starts=range(i, i + 16)) for i in range(8))
    yield 0, "32 chains, 8 different ones of 16 starts", Q1 + SUM + PLUS * 3 + (PLUS * 7 + eight) * 4
    yield 14, "32 chains, the last a ninth", Q1 + SUM + PLUS * 3 + (PLUS * 7 + eight) * 3 + PLUS * 7 + eight[:-38] + chain_set(2, 2, 5, starts=range(8, 24))


def questions():
    yield 0, "marked: max over the places of key 1 from 0", hexed("4C5051010001 2002 1001010000")
    yield 0, "first trial: key 2 from 0", hexed("4C5051010000 1001020000")
    yield from headers(b"LPQ", b"\0" + LIT)
    yield from cuts(Q1 + RPLUS + SUM + PLUS + chain(2, 5, start=65535) + LIT + RLIT)
    for part in (question_keys, question_starts, question_chains, question_reductions, question_limits, question_conditions, condition_terms,
                 condition_reductions, condition_chains, condition_limits, question_sets, set_chains, set_limits):
        yield from part()
    for before, plus, leaf, legal in ((Q0, PLUS, LIT, (0x10, 0x11, 0x12, 0x13)), (Q1, RPLUS, RLIT, (0x20, 0x21, 0x22, 0x23))):
        yield from term_bytes(before, legal)
        yield from terms(before, plus, leaf)
        yield from limits(before, plus, leaf)
    for name, wrong in (("reduction", SUM + LIT), ("result literal", RLIT), ("worksheet's chain", hexed("30 00"))):
        yield 9, f"a {name} below a reduction", Q1 + SUM + wrong
        yield 9, f"a {name} right of a place term", Q0 + PLUS + LIT + wrong
    yield 9, "a place term right of a result term", Q1 + RPLUS + RLIT + LIT


# ------------------------------------------------------------------------------------------------ worksheets


def sheet_chains():
    behind = hexed("01 00 30 00")  # one entry: chain 0
    second = W0 + b"\2" + slots(2, 5)  # a second chain is due
    for count in (0, 1, 8):
        yield 0, f"{count} chains", W0 + bytes([count]) + slots(1) * count + hexed("01 00") + LIT
    yield 0, "kind 1, 8 chains", W1 + b"\x08" + slots(1) * 8 + b"\0" + RLIT
    for count in (9, 255):
        yield 14, f"{count} chains", W0 + bytes([count]) + slots(1) * count + behind
        yield 14, f"{count} chains, nothing behind", W0 + bytes([count])
    for keys in ((1,), (6,), (2, 5), (3, 4), (1, 2, 3), (4, 4, 6)):
        yield 0, f"keys {keys}", second + slots(*keys) + behind
    for start in (255, 65535):
        yield 0, f"start {start}", second + slots(1, start=start) + behind
    for start in (256, 257, 65534):
        yield from due(13, f"start {start}", second + hexed("01 01 00 00"), u16(start), behind)
    yield 13, "start 256 of the last of 8", W0 + b"\x08" + slots(1) * 7 + slots(1, start=256) + behind
    for number, text, name in (
        (9, "00 00 00 00 0000", "key count 0"),
        (9, "04 01 01 01 0000", "key count 4"),
        (9, "ff 05 07 07 0001", "key count 255, and all that is judged later"),
        (9, "01 00 00 00 0000", "key 0"),
        (9, "01 07 01 01 0001", "key 7, and all that is judged later"),
        (9, "02 07 05 00 0000", "keys 7,5"),
        (9, "02 01 00 00 0000", "keys 1,0"),
        (9, "03 01 02 07 0001", "keys 1,2,7, and start 256"),
        (10, "02 05 02 00 0000", "keys 5,2"),
        (10, "02 05 00 00 0000", "keys 5,0"),
        (10, "02 05 07 01 0001", "keys 5,7, and all that is judged later"),
        (10, "03 01 06 02 0000", "keys 1,6,2"),
        (10, "03 06 01 01 0001", "keys 6,1,1, and start 256"),
        (10, "03 05 05 05 0000", "keys 5,5,5"),
        (9, "01 01 02 00 0000", "1 key, second key byte 2"),
        (9, "01 05 02 00 0000", "1 key, which is 5, second key byte 2"),
        (9, "01 01 00 01 0000", "1 key, third key byte 1"),
        (9, "01 06 00 ff 0001", "1 key, third key byte 255, and start 256"),
        (9, "02 01 05 02 0001", "2 keys, third key byte 2, and start 256"),
        (9, "00", "key count 0, nothing behind"),
        (10, "02 05", "key 5 of 2, nothing behind"),
        (9, "01 01 02", "1 key, second key byte 2, nothing behind"),
        (9, "01 01 00 02", "1 key, third key byte 2, nothing behind"),
    ):
        yield number, name, second + hexed(text) + (behind if len(hexed(text)) == 6 else b"")


def sheet_entries():
    for count in (0, 2, 8, 9, 255):
        yield 9, f"kind 0, {count} entries", W0 + b"\0" + bytes([count]) + (b"\0" + LIT) * count
    yield 9, "kind 0, 9 entries, nothing behind", W0 + hexed("00 09")
    for count in (0, 1, 7, 8):
        yield 0, f"kind 1, {count} entries", W1 + b"\0" + bytes([count]) + (b"\3" + LIT) * count + RLIT
    for count in (9, 255):
        yield 14, f"kind 1, {count} entries", W1 + b"\0" + bytes([count]) + (b"\3" + LIT) * 9 + RLIT
        yield 14, f"kind 1, {count} entries, nothing behind", W1 + b"\0" + bytes([count])
    for number in (1, 5, 6):
        yield 9, f"kind 0, reduction {number}", W0 + hexed("00 01") + bytes([number]) + LIT
    for number in (1, 2, 3, 4, 5):
        yield 0, f"kind 1, reduction {number}", W1 + hexed("00 01") + bytes([number]) + LIT + RLIT
    for number in (0, 6, 255):
        yield 9, f"kind 1, reduction {number}", W1 + hexed("00 01") + bytes([number]) + LIT + RLIT
        yield 9, f"kind 1, reduction {number} of entry 1, nothing behind", W1 + hexed("00 02 01") + LIT + bytes([number])
    yield 6, "kind 0, and a final expression", E0 + LIT + RLIT
    yield 9, "kind 1, and an entry more than its count", W1 + hexed("00 01 01") + LIT + b"\1" + LIT + RLIT
    yield 9, "kind 1, and an entry less than its count", W1 + hexed("00 02 01") + LIT + RLIT
    yield 1, "kind 1, no final expression", W1 + hexed("00 01 01") + LIT


def sheet_indexes():
    for count in (0, 1, 2, 8):
        chain_due = W0 + bytes([count]) + slots(1) * count + hexed("01 00 30")
        entry_due = W1 + b"\0" + bytes([count]) + (b"\3" + LIT) * count + b"\x31"
        for index in range(max(count - 1, 0), count + 1):
            number = 0 if index < count else 16
            yield number, f"chain {index} of {count}", chain_due + bytes([index])
            yield number, f"entry {index} of {count}", entry_due + bytes([index])
    yield 16, "chain 255 of 8", chain_due + b"\xff"
    yield 16, "entry 255 of 8", entry_due + b"\xff"
    two = W1 + b"\2" + slots(1) * 2  # two chains; the entry count is due
    yield 0, "chain 1 of 2, entry 0 of 1", two + hexed("01 03 30 01 31 00")
    yield 16, "entry 1 of 1, with 2 chains", two + hexed("01 03 30 01 31 01")
    yield 16, "chain 2 of 2, with 3 entries", two + hexed("03 03 30 02") + (b"\3" + LIT) * 2 + RLIT
    yield 16, "chain 2 of 2 as a second term", two + hexed("01 03 12 03 30 01 30 02")
    yield 16, "chain 2 of 2, and the next entry's reduction", two + hexed("02 03 30 02 00") + LIT + RLIT
    yield 1, "no index of a chain", two + hexed("01 03 30")
    yield 1, "no index of an entry", two + hexed("01 03 30 01 31")


def sheet_limits():
    """Terms are counted over all expressions together, depth in each by itself."""
    one, two, three = (W1 + b"\0" + bytes([count]) for count in (1, 2, 3))  # as many entries are due
    deep, deep_final = b"\3" + PLUS * 15 + LIT * 16, RPLUS * 15 + RLIT * 16  # depth 16, 31 terms
    yield 0, "two entries of depth 16", two + deep * 2 + RLIT
    yield 0, "an entry and the final expression of depth 16", one + deep + deep_final
    yield 11, "depth 17 in the second entry", two + deep + b"\3" + PLUS * 16 + LIT * 17 + RLIT
    yield 11, "depth 17 in the final expression", one + deep + RPLUS * 16 + hexed("31 00") + RLIT * 16
    yield 0, "64 terms, the last is the final expression", one + b"\3" + place_tree(63) + hexed("31 00")
    yield 0, "64 terms in 8 expressions", W1 + hexed("00 07") + (b"\3" + place_tree(7)) * 7 + tree(15, RPLUS, RLIT)
    yield from due(12, "term 65 is the final expression", two + b"\3" + place_tree(63) + b"\3" + LIT, b"\x31", b"\0")
    yield 12, "term 65 is the final expression, a wrong byte", two + b"\3" + place_tree(31) + b"\3" + place_tree(33) + b"\xff"
    yield 12, "term 65 within the final expression", one + b"\3" + place_tree(63) + RPLUS + RLIT * 2
    yield 12, "term 65 in the second entry, an index", two + b"\3" + place_tree(63) + b"\3" + PLUS + hexed("30 ff")
    yield 12, "term 65 in the last of 8 entries", W1 + hexed("00 08") + (b"\3" + place_tree(9)) * 7 + b"\3" + PLUS + LIT
    entries48 = b"\3" + place_tree(31) + b"\3" + place_tree(17)
    entries47 = b"\3" + place_tree(31) + b"\3" + place_tree(15) + b"\3" + LIT
    yield from due(12, "term 65 at depth 17 of the final expression", two + entries48 + RPLUS * 16, b"\x21")
    yield 11, "term 64 at depth 17 of the final expression", three + entries47 + RPLUS * 16 + RLIT


def sheet_conditions():
    """An entry of reduction byte 129 to 133: the condition's expression precedes the value's, each of a depth of its own."""
    one, two = W1 + hexed("00 01"), W1 + hexed("00 02")  # no chain; as many entries are due
    yield 0, "what the sum of the seconds beyond 2 fuses to", W1 + b"\1" + slots(2) + hexed("01 83 12 09 30 00 11 02000000 30 00 31 00")
    yield from cuts(W1 + b"\2" + slots(2, 5, start=65535) + slots(1) + hexed("02 83 12 09 30 00") + LIT + hexed("30 01 05 30 01")
                    + RPLUS + hexed("31 01") + RLIT)
    for number in (129, 130, 131, 132, 133):
        yield 0, f"reduction {number}", one + bytes([number]) + LIT * 2 + RLIT
        yield 1, f"reduction {number}, no condition", one + bytes([number])
        yield 1, f"reduction {number}, no value", one + bytes([number]) + LIT
        yield 9, f"reduction {number}, the final expression for a value", one + bytes([number]) + LIT + RLIT
        yield 9, f"kind 0, reduction {number}", W0 + hexed("00 01") + bytes([number]) + LIT * 2
        yield 9, f"kind 0, reduction {number}, nothing behind", W0 + hexed("00 01") + bytes([number])
    for number in (0, 6, 127, 128, 134, 135, 192, 255):
        yield 9, f"reduction {number}, two expressions", one + bytes([number]) + LIT * 2 + RLIT
        yield 9, f"reduction {number}, nothing behind", one + bytes([number])
        yield 9, f"reduction {number} behind an entry with a condition", two + SUM_WHERE + LIT * 2 + bytes([number]) + LIT * 2 + RLIT
        yield 9 if number else 6, f"kind 0, reduction {number}, two expressions", W0 + hexed("00 01") + bytes([number]) + LIT * 2
    yield 9, "two expressions of an entry without a condition", one + b"\3" + LIT * 2 + RLIT
    yield 0, "entries with and without a condition", W1 + hexed("00 03 02") + LIT + b"\x82" + LIT * 2 + b"\3" + LIT + RLIT
    yield 0, "8 entries with conditions", W1 + hexed("00 08") + (SUM_WHERE + LIT * 2) * 8 + hexed("31 07")
    yield 14, "9 entries with conditions", W1 + hexed("00 09") + (SUM_WHERE + LIT * 2) * 9 + hexed("31 07")
    yield 6, "a byte left over", one + SUM_WHERE + LIT * 2 + RLIT + b"\0"
    yield 0, "version 2, and a condition", V1 + hexed("00 01") + SUM_WHERE + LIT * 2 + RLIT
    yield 3, "version 3, and a condition", b"LPW" + u16(3) + hexed("01 00 01") + SUM_WHERE + LIT * 2 + RLIT
    for where, before, behind in (("condition", SUM_WHERE, LIT), ("value", SUM_WHERE + LIT, b"")):
        for tag in (0x00, 0x03, 0x10, 0x13, 0x20, 0x21, 0x22, 0x23, 0x31, 0x32, 0x83, 0xFF):
            yield 9, f"term byte {tag:#04x} as {where}", one + before + bytes([tag]) + LIT[1:] + behind + RLIT
        yield 9, f"a result literal within the {where}", one + before + PLUS + LIT + RLIT + behind + RLIT
        yield 9, f"operator 12 in the {where}", one + before + hexed("12 0c") + LIT * 2 + behind + RLIT
        for count in (0, 1, 2, 8):
            chains = W1 + bytes([count]) + slots(1) * count + b"\1" + before
            for index in range(max(count - 1, 0), count + 1):
                yield 0 if index < count else 16, f"chain {index} of {count} in the {where}", chains + bytes([0x30, index]) + behind + hexed("31 00")
            yield 1, f"no index of a chain in the {where}, {count} chains", chains + b"\x30"
        yield 16, f"chain 255 of 8 in the {where}, nothing behind", chains + hexed("30 ff")
        yield 16, f"chain 8 of 8 as a second term of the {where}", chains + PLUS + hexed("30 07 30 08") + behind + RLIT
    yield 16, "chain 0 of none in the condition, and a wrong byte for the value", one + SUM_WHERE + hexed("30 00 ff")
    yield 9, "a wrong byte for the condition, and chain 0 of none for the value", one + SUM_WHERE + hexed("ff 30 00")
    yield 16, "entry 1 of 1 with a condition", one + SUM_WHERE + LIT * 2 + hexed("31 01")


def sheet_condition_limits():
    one, two, three = (W1 + b"\0" + bytes([count]) for count in (1, 2, 3))  # as many entries are due
    deep = PLUS * 15 + LIT * 16  # depth 16, 31 terms
    yield 0, "condition and value of depth 16", one + SUM_WHERE + deep * 2 + hexed("31 00")
    for where, before, behind in (("condition", SUM_WHERE, LIT), ("value", SUM_WHERE + deep, b"")):
        yield from due(11, f"depth 17 in the {where}", one + before + PLUS * 16, b"\x11", LIT[1:] + LIT * 16 + behind + RLIT)
        yield from due(11, f"depth 17 in the {where}, to the right", one + before + (PLUS + LIT) * 15 + PLUS, b"\x30", b"\0")
        yield 11, f"depth 17 in the {where}, a wrong byte", one + before + PLUS * 16 + b"\xff"
        yield 9, f"depth 16 in the {where}, a wrong byte", one + before + PLUS * 15 + b"\xff"
    yield 11, "depth 17 in the second entry's value", two + b"\3" + LIT + SUM_WHERE + deep + PLUS * 16 + LIT * 17 + RLIT
    yield 0, "63 terms, condition and value of 31", one + SUM_WHERE + place_tree(31) * 2 + hexed("31 00")
    yield 0, "64 terms, some of them a condition", two + SUM_WHERE + place_tree(31) * 2 + b"\3" + LIT + hexed("31 00")
    yield 0, "64 terms in 7 entries with conditions", W1 + hexed("00 07") + (SUM_WHERE + place_tree(5) + place_tree(3)) * 6 + b"\3" + place_tree(5) \
        + tree(11, RPLUS, RLIT)
    yield from due(12, "term 65 is a value", two + b"\3" + place_tree(63) + SUM_WHERE + LIT, b"\x11", LIT[1:] + RLIT)
    yield 12, "term 65 is a value, a wrong byte", two + b"\3" + place_tree(63) + SUM_WHERE + LIT + b"\xff"
    yield from due(12, "term 65 within a value", one + SUM_WHERE + place_tree(31) + PLUS * 2 + place_tree(31), b"\x30", b"\0")
    yield from due(12, "term 65 within a condition", one + SUM_WHERE + PLUS * 3 + place_tree(61), b"\x11", LIT[1:])
    full = three + b"\3" + place_tree(31) + b"\3" + place_tree(33)  # 64 terms; a third entry is due
    yield from due(12, "term 65 is a condition", full + SUM_WHERE, b"\x11", LIT[1:] + LIT + RLIT)
    yield 9, "reduction 134 behind 64 terms", full + b"\x86" + LIT * 2
    yield 1, "no reduction behind 64 terms", full
    yield from due(12, "term 65 is the final expression", two + SUM_WHERE + place_tree(31) * 2 + SUM_WHERE + LIT * 2, b"\x31", b"\0")
    wide = three + SUM_WHERE + place_tree(23) + LIT + SUM_WHERE + place_tree(21)  # 45 terms; the second entry's value is due
    yield 11, "term 64 at depth 17 of a value", wide + (PLUS + LIT) * 2 + PLUS * 14 + b"\x11"
    yield 12, "term 65 at depth 17 of a value", wide + (PLUS + LIT) * 3 + PLUS * 13 + b"\x11"


def sheet_sets():
    """Worksheets of version 2: a chain has a set's count, 0 for anywhere, and its starts behind the key bytes."""
    behind = hexed("01 00 30 00")  # one entry: chain 0
    second = V0 + b"\2" + set_slots(2, 5, starts=(0, 1, 7))  # a second chain is due
    yield from headers(b"LPW", hexed("00 00 01 00") + LIT, 2, 3)
    yield from headers(b"LPW", hexed("00 01") + set_slots(2, starts=(0, 2)) + behind, 2, 3)
    yield from cuts(V0 + b"\1" + set_slots(2, starts=(0, 2)) + behind)
    yield from cuts(V1 + b"\3" + set_slots(2, 5, starts=()) + set_slots(1, 2, 6, starts=(0, 128, 255)) + set_slots(6)
                    + hexed("02 03 30 00 85 30 01 30 02") + RPLUS + hexed("31 01") + RLIT)
    yield from set_starts("version 2", V0 + b"\1" + hexed("01 02 00 00"), behind)
    yield from set_starts("version 2, the second chain", second + hexed("03 01 02 06"), behind)
    for count in (0, 1, 2, 8):
        for name, starts in (("anywhere", ()), ("one start", (255,)), ("two starts", (0, 255)), ("16 starts", ODD16)):
            yield 0, f"version 2, {count} chains from {name}", V0 + bytes([count]) + set_slots(1, starts=starts) * count + hexed("01 00") + LIT
    for count in (9, 255):
        yield 14, f"version 2, {count} chains", V0 + bytes([count]) + set_slots(1) * 9 + behind
        yield 14, f"version 2, {count} chains, nothing behind", V0 + bytes([count])
    for count in range(17):
        yield 0, f"version 2, set count {count}", second + set_slots(4, starts=ODD16[:count]) + behind
    last = V0 + b"\x08" + set_slots(1, starts=(0, 1)) * 7  # an eighth chain is due
    for count in (17, 18, 32, 128, 255):
        yield 9, f"version 2, set count {count}", second + set_slots(4, starts=range(17), count=count) + behind
        yield 9, f"version 2, set count {count}, nothing behind", second + set_slots(4, starts=(), count=count)
        yield 9, f"version 2, set count {count} of the last of 8", last + set_slots(1, starts=(256, 0), count=count) + behind
    yield 17, "version 2, starts 1,1 of the last of 8", last + set_slots(1, starts=(1, 1)) + behind
    yield 17, "version 2, starts 1,1, and the next chain's keys", V0 + b"\2" + set_slots(1, starts=(1, 1)) + set_slots(7) + behind
    yield 9, "version 2, key 7, and the next chain's starts", V0 + b"\2" + set_slots(7) + set_slots(1, starts=(1, 1)) + behind
    yield 14, "version 2, 9 chains, and starts 1,1", V0 + b"\x09" + set_slots(1, starts=(1, 1)) * 9 + behind
    yield 13, "version 2, 65,535 in a set of one", second + set_slots(1, starts=(65535,)) + behind
    yield 9, "version 2, anywhere as in version 1", second + slots(1, start=65535) + behind
    for number, text, name in (
        (9, "00 00 00 00", "key count 0"), (9, "04 01 01 01", "key count 4"), (9, "ff 05 07 07", "key count 255"), (9, "01 00 00 00", "key 0"),
        (9, "01 07 01 01", "key 7, and fillers"), (9, "02 01 00 00", "keys 1,0"), (9, "03 01 02 07", "keys 1,2,7"), (10, "02 05 02 00", "keys 5,2"),
        (10, "02 05 00 00", "keys 5,0"), (10, "03 01 06 02", "keys 1,6,2"), (9, "01 01 02 00", "1 key, second key byte 2"),
        (9, "01 01 00 01", "1 key, third key byte 1"), (9, "02 01 05 02", "2 keys, third key byte 2"),
    ):
        for count, starts in ((2, (0, 2)), (0, ()), (17, (0,)), (1, (256,)), (2, (1, 1))):
            yield number, f"version 2, {name}, set count {count}, starts {starts}", second + hexed(text) + starts_of(*starts, count=count) + behind
        yield number, f"version 2, {name}, nothing behind", second + hexed(text)


def sheet_set_files():
    """Entries and indexes behind chains of any length; version 1 is read as it was."""
    two = V1 + b"\2" + set_slots(1, starts=ODD16) + set_slots(2, starts=())  # two chains; the entry count is due
    yield 0, "version 2, chain 1 of 2, entry 0 of 1", two + hexed("01 03 30 01 31 00")
    yield 16, "version 2, chain 2 of 2", two + hexed("01 03 30 02 31 00")
    yield 16, "version 2, entry 1 of 1", two + hexed("01 03 30 01 31 01")
    yield 14, "version 2, 9 entries", two + hexed("09") + hexed("03 30 01") * 9 + hexed("31 00")
    yield 9, "version 2, reduction 6", two + hexed("01 06 30 01 31 00")
    yield 9, "version 2, a question's set in an entry", two + hexed("01 03") + chain_set(1, starts=(0, 2)) + hexed("31 00")
    yield 6, "version 2, a byte left over", two + hexed("01 03 30 01 31 00 00")
    yield 6, "version 2, kind 0, a start left over", V0 + b"\1" + set_slots(2, starts=(0, 2)) + hexed("01 00 30 00") + u16(3)
    yield 9, "version 2, kind 0 with 2 entries", V0 + b"\1" + set_slots(2, starts=(0, 2)) + hexed("02 00 30 00 00 30 00")
    yield 1, "version 2, no entry count", V0 + b"\1" + set_slots(2, starts=(0, 2))
    yield 9, "version 2, kind 0, a start more than its count", V0 + b"\1" + set_slots(2, starts=(0, 2, 3), count=2) + hexed("01 00 30 00")
    yield 9, "version 2, a start less than its count", V0 + b"\1" + set_slots(2, starts=(0,), count=2) + hexed("01 00 30 00")
    # Chains of the other version's bytes. In version 2 the low byte of a start is a set count: of start 0 that is anywhere, and the entry count is 0; of 1
    # and 2 the first start is 0x0100; of 255 and 65,535 the set count is 255. In version 1 the set {0, 2} is start 2, and the entry count is 0; the set {1}
    # is start 257.
    for number, start in ((9, 0), (13, 1), (13, 2), (9, 255), (9, 65535)):
        yield number, f"version 2, a chain of version 1 from {start}", V0 + b"\1" + slots(2, start=start) + hexed("01 00 30 00")
    yield 9, "version 1, a chain of version 2 from 0,2", W0 + b"\1" + set_slots(2, starts=(0, 2)) + hexed("01 00 30 00")
    yield 13, "version 1, a chain of version 2 from 1", W0 + b"\1" + set_slots(2, starts=(1,)) + hexed("01 00 30 00")
    full = [SUM_WHERE + LIT * 2] * 7 + [b"\3" + LIT]
    longest = V1 + b"\x08" + set_slots(2, 2, 5, starts=ODD16) * 8 + b"\x08" + b"".join(full) + tree(49, RPLUS, RLIT)
    assert len(longest) == 312 + 8 * 31
    yield 0, "the longest worksheet", longest
    yield 1, "the longest worksheet, its last byte missing", longest[:-1]
    yield 6, "the longest worksheet, a byte left over", longest + b"\0"


def sheets():
    yield 0, "marked: what the marked question fuses to", hexed("4C5057010001 01 010100000000 01 02 3000 3100")
    yield from headers(b"LPW", hexed("00 00 01 00") + LIT, 1, 3)
    yield 9, "kind 2, and 9 chains", b"LPW" + ONE + hexed("02 09")
    yield from cuts(W1 + b"\1" + slots(2, 5, start=65535) + hexed("02 03 30 00 05") + PLUS + hexed("30 00") + LIT
                    + RPLUS + hexed("31 01") + RLIT)
    for part in (sheet_chains, sheet_entries, sheet_indexes, sheet_limits, sheet_conditions, sheet_condition_limits, sheet_sets, sheet_set_files):
        yield from part()
    for before, plus, leaf, legal in ((E0, PLUS, LIT, (0x11, 0x12, 0x30)), (E1, RPLUS, RLIT, (0x21, 0x22, 0x31))):
        yield from term_bytes(before, legal)
        yield from terms(before, plus, leaf)
        yield from limits(before, plus, leaf)
    entry = W1 + b"\1" + slots(1) + hexed("01 03")  # one chain, one entry; its expression is due
    yield 9, "an entry's reference in the final expression", entry + hexed("30 00 30 00")
    yield 9, "a final expression's reference in an entry", entry + hexed("31 00 31 00")
    yield 9, "a question's chain in an entry", entry + chain(1) + RLIT
    yield 9, "a question's reduction in the final expression", entry + hexed("30 00") + SUM + LIT


# ------------------------------------------------------------------------------------------------ answers
# n (4), kind (9), then 15: 10 + 9 * n bytes for kind 0, 19 for kind 1.


def answers():
    for number, n, kind, room in (
        (4, 0, 0, 65535), (4, 0, 1, 19), (4, 0, 2, 0), (4, 257, 0, 65535), (4, 257, 1, 19), (4, 257, 2, 0), (4, 65535, 0, 0),
        (9, 1, 2, 65535), (9, 1, 2, 0), (9, 256, 2, 2314), (9, 256, 255, 0),
        (0, 1, 0, 19), (15, 1, 0, 18), (15, 1, 0, 0), (0, 1, 0, 65535),
        (0, 2, 0, 28), (15, 2, 0, 27), (15, 2, 0, 19),
        (0, 255, 0, 2305), (15, 255, 0, 2304),
        (0, 256, 0, 2314), (15, 256, 0, 2313), (0, 256, 0, 2315), (15, 256, 0, 19),
        (0, 1, 1, 19), (15, 1, 1, 18), (0, 2, 1, 19), (15, 2, 1, 18),
        (0, 256, 1, 19), (15, 256, 1, 18), (15, 256, 1, 10), (15, 256, 1, 0),
    ):
        yield number, f"n {n}, kind {kind}, room {room}", u16(n) + bytes([kind]) + u16(room)


# ------------------------------------------------------------------------------------------------ files written
# As the reader of the bytes would judge, then 15.


def written(number, name, whole, lent, *fields):
    fields += (0,) * (4 - len(fields))
    return number, f"{name}, lent {lent}", b"".join(u16(x) for x in (lent, *fields)) + whole


def lengths(name, whole, *fields):
    """Lent as many bytes as there are, one more, one less, none."""
    size = len(whole)
    for number, lent in ((0, size), (0, size + 1), (15, size - 1), (15, 0)):
        yield written(number, name, whole, lent, *fields)


def changed(number, name, whole, *fields):
    """Refused before the lent length is looked at."""
    for lent in (0, 9000):
        yield written(number, name, whole, lent, *fields)


def maps_written():
    row_map = map_file(2, [row(0, 1, 65535, 65534)])
    for name, n, m, size, whole in (("no row", 1, 0, 9, map_file(1)), ("a row", 2, 1, 17, row_map), ("map A", 4, 4, 41, MAP_A)):
        assert len(whole) == size
        yield from lengths(name, whole, n, m)
    yield written(0, "1,024 rows", map_file(256, [row(255, 255, 513, 65534)] * 1024), 8201, 256, 1024)
    # Map A's typed form with other counts. Row 3 goes to place 3; the rows behind the four of map A have crate 0.
    for number, n, m in ((4, 0, 4), (4, 257, 4), (4, 0, 1025), (5, 4, 1025), (5, 1, 1025), (7, 3, 4), (7, 3, 5), (8, 4, 5)):
        yield from changed(number, f"map A with n {n}, m {m}", MAP_A, n, m)
    yield written(15, "map A with m 3", MAP_A, 32, 4, 3)
    yield written(15, "map A with m 0", MAP_A, 8, 4, 0)


def questions_written():
    one = Q0 + chain(1, 2, 5, start=255)
    two = Q0 + hexed("12 03") + chain(2) + hexed("11 ff ff ff ff")
    result = Q1 + hexed("22 04 20 05") + chain(6, start=65535) + hexed("21 00 00 00 80")
    full = Q0 + place_tree(63)
    where = Q1 + hexed("23 03 12 09") + chain(2) + hexed("11 02 00 00 00") + chain(2)
    mixed = Q1 + hexed("22 06 23 01") + chain(1, 2, 5, start=255) + hexed("11 ff ff ff ff 22 04 20 05") + chain(6, start=65535) + hexed("23 05") + LIT * 2
    eight = Q1 + RPLUS * 7 + (WHERE + LIT * 2) * 8
    full_where = Q1 + RPLUS + SUM + place_tree(31) + WHERE + place_tree(15) * 2
    sets = Q1 + hexed("22 06 23 03") + chain_set(2, starts=(0, 2)) + chain_set(1, 2, 6, starts=ODD16) + SUM + chain(2)
    longest = Q1 + SUM + tree(63, PLUS, chain_set(2, 2, 5, starts=LOW16))
    for name, whole, kind, count in (
        ("a set of one, which stays one", Q0 + chain_set(2), 0, 1), ("0x10 and a set of one", Q0 + PLUS + chain(2) + chain_set(2), 0, 3),
        ("a set of two", Q0 + chain_set(2, starts=(0, 2)), 0, 1), ("a set of 16", Q0 + chain_set(4, 3, 5, starts=tuple(range(240, 256))), 0, 1),
        ("a set of eight", Q0 + chain_set(6, starts=ODD16[:8]), 0, 1), ("a set of nine", Q0 + chain_set(6, starts=ODD16[:9]), 0, 1),
        ("sets in condition and value", sets, 1, 6), ("the longest question", longest, 1, 64),
        ("a chain", one, 0, 1), ("three terms", two, 0, 3), ("a result", result, 1, 4), ("63 terms", full, 0, 63), ("a condition", where, 1, 5),
        ("two conditions", mixed, 1, 10), ("eight conditions", eight, 1, 31), ("64 terms, a condition among them", full_where, 1, 64),
    ):
        yield from lengths(name, whole, kind, count)
    # The typed form with another kind or count. A term too few is missing, 1; one behind the last is written as a byte 0, left over, 6.
    for number, name, whole, kind, count in (
        (9, "kind 2", two, 2, 3), (9, "kind 1", two, 1, 3), (9, "kind 0", result, 0, 4),
        (1, "a term too few", two, 0, 2), (1, "no term", two, 0, 0), (1, "no reduction", result, 1, 1), (1, "no operand", result, 1, 3),
        (6, "a term too many", two, 0, 4), (6, "all there are", one, 0, 65535), (6, "a term behind 63", full, 0, 64),
        (9, "kind 0, a condition", where, 0, 5), (1, "no condition", where, 1, 1), (1, "part of a condition", where, 1, 3), (1, "no value", where, 1, 4),
        (6, "a term behind a value", where, 1, 6), (1, "the last value missing", mixed, 1, 9), (1, "the last condition missing", mixed, 1, 8),
        (6, "a term behind 64", full_where, 1, 65), (6, "all there are, behind eight conditions", eight, 1, 65535),
        (9, "kind 2, sets", sets, 2, 6), (9, "kind 0, sets", sets, 0, 6), (1, "sets, the last term missing", sets, 1, 5),
        (1, "sets, the value missing", sets, 1, 3), (6, "a term behind sets", sets, 1, 7), (1, "the longest question, a term too few", longest, 1, 63),
        (6, "the longest question, a term behind", longest, 1, 65),
    ):
        yield from changed(number, name, whole, kind, count)


def form_fields(whole, kind, chains, entries, count, version=None, end=0):
    """Four fields of a worksheet's typed form; the version is the file's where no other is given."""
    return kind + 256 * (whole[3] if version is None else version), chains + 256 * entries, count, end


def worksheets_written():
    none = W1 + hexed("00 00 21 07 00 00 00")  # no chain, no entry, a literal
    place = W0 + bytes([1]) + slots(2, start=3) + hexed("01 00 12 03 30 00 11 01 00 00 00")
    both = W1 + bytes([2]) + slots(1, 2, 5) + slots(6, start=65535) + hexed("02 05 30 00 01 30 01 22 04 31 00 31 01")
    eight = W1 + bytes([8]) + b"".join(slots(1, start=i) for i in range(8)) + bytes([8]) + hexed("01 30 07") * 8 + hexed("31 07")
    where = W1 + bytes([1]) + slots(2) + hexed("01 83 12 09 30 00 11 02 00 00 00 30 00 31 00")
    mixed = W1 + bytes([2]) + slots(1, 2, 5) + slots(6, start=65535) + hexed("02 05 30 00 81 30 01 30 00 22 04 31 00 31 01")
    eight_where = W1 + bytes([1]) + slots(1) + bytes([8]) + hexed("85 30 00 11 07 00 00 00") * 8 + hexed("31 07")
    full = W1 + hexed("00 08") + (SUM_WHERE + place_tree(3) * 2) * 7 + b"\3" + place_tree(21) + hexed("31 07")  # 64 terms: all 72 nodes
    for name, whole, fields in (
        ("no entry", none, (1, 0, 0, 1)), ("kind 0", place, (0, 1, 1, 4)), ("two entries", both, (1, 2, 2, 7)), ("eight of each", eight, (1, 8, 8, 17)),
        ("a condition", where, (1, 1, 1, 6)), ("one condition of two entries", mixed, (1, 2, 2, 8)), ("eight conditions", eight_where, (1, 1, 8, 25)),
        ("eight entries and 64 terms", full, (1, 0, 8, 72)), ("eight entries and 64 terms, all there are", full, (1, 0, 8, 65535)),
    ):
        yield from lengths(name, whole, *form_fields(whole, *fields))
    # The typed form with other fields.
    for number, name, whole, fields in (
        (9, "kind 2", place, (2, 1, 1, 4)), (14, "nine chains", eight, (1, 9, 8, 17)), (14, "255 chains", place, (0, 255, 1, 4)),
        (14, "nine entries", eight, (1, 8, 9, 17)), (9, "two entries of kind 0", place, (0, 1, 2, 4)), (9, "no entry of kind 0", place, (0, 1, 0, 4)),
        (16, "no chain", place, (0, 0, 1, 4)), (16, "seven chains", eight, (1, 7, 8, 17)),
        (1, "no node", place, (0, 1, 1, 0)), (1, "no expression", place, (0, 1, 1, 1)), (1, "an operand too few", place, (0, 1, 1, 3)),
        (6, "a node behind the last", place, (0, 1, 1, 5)), (6, "all there are", none, (1, 0, 0, 65535)),
        (9, "no reduction byte where kind 1 has one", place, (1, 1, 1, 4)), (9, "a reduction byte of kind 1 where kind 0 has 0", eight, (0, 8, 1, 2)),
        (9, "a condition where kind 0 has none", where, (0, 1, 1, 6)), (1, "no condition", where, (1, 1, 1, 1)),
        (1, "part of a condition", where, (1, 1, 1, 3)), (1, "no value", where, (1, 1, 1, 4)),
        (1, "no final expression behind a value", where, (1, 1, 1, 5)), (6, "a node behind a final expression", where, (1, 1, 1, 7)),
        (16, "no chain for a condition", where, (1, 0, 1, 6)), (9, "an entry with a condition too many", mixed, (1, 2, 1, 8)),
        (9, "an entry too few behind a condition", mixed, (1, 2, 3, 8)), (14, "nine entries with conditions", eight_where, (1, 1, 9, 25)),
        (9, "seven entries, an eighth with a condition behind", eight_where, (1, 1, 7, 25)),
        (1, "no final expression behind 63 terms and eight entries", full, (1, 0, 8, 71)),
    ):
        yield from changed(number, name, whole, *form_fields(whole, *fields))
    yield from versions_written()


def versions_written():
    """A writer keeps the version it is handed. What that version has no bytes for is 3, as a version that there is not, ahead of everything else."""
    behind = hexed("01 00 30 00")  # one entry: chain 0
    two = V0 + b"\1" + set_slots(2, starts=(0, 2)) + behind
    single, anywhere = V0 + b"\1" + set_slots(2, starts=(3,)) + behind, V0 + b"\1" + set_slots(2, starts=()) + behind
    none = V1 + hexed("00 00 21 07 00 00 00")
    mixed = V1 + b"\3" + set_slots(1, 2, 5, starts=()) + set_slots(6, starts=(255,)) + set_slots(2, starts=ODD16) + hexed("02 05 30 00 81 30 01 30 02") \
        + RPLUS + hexed("31 00 31 01")
    longest = V1 + b"\x08" + set_slots(2, 2, 5, starts=ODD16) * 8 + b"\x08" + (SUM_WHERE + LIT * 2) * 7 + b"\3" + LIT + tree(49, RPLUS, RLIT)
    for name, whole, fields in (("a set of two", two, (0, 1, 1, 2)), ("a single start", single, (0, 1, 1, 2)), ("anywhere", anywhere, (0, 1, 1, 2)),
                                ("no chain", none, (1, 0, 0, 1)), ("three chains", mixed, (1, 3, 2, 8)), ("the longest worksheet", longest, (1, 8, 8, 72))):
        yield from lengths(f"version 2, {name}", whole, *form_fields(whole, *fields))
    # The typed form with other fields, in its own version.
    for number, name, whole, fields in (
        (9, "kind 2", two, (2, 1, 1, 2)), (14, "nine chains", mixed, (1, 9, 2, 8)), (9, "four chains, of which the last has no key", mixed, (1, 4, 2, 8)),
        (16, "two chains", mixed, (1, 2, 2, 8)), (14, "nine entries", mixed, (1, 3, 9, 8)), (9, "two entries of kind 0", two, (0, 1, 2, 2)),
        (1, "no expression", two, (0, 1, 1, 1)), (6, "a node behind the last", two, (0, 1, 1, 3)), (16, "no chain", two, (0, 0, 1, 2)),
    ):
        yield from changed(number, f"version 2, {name}", whole, *form_fields(whole, *fields))
    # In another version.
    for version in (0, 1, 3, 255):
        for name, whole, fields in (("a set of two", two, (0, 1, 1, 2)), ("three chains", mixed, (1, 3, 2, 8)), ("kind 2", two, (2, 1, 1, 2)),
                                    ("nine chains", mixed, (1, 9, 2, 8)), ("nine entries", mixed, (1, 3, 9, 8)), ("no node", two, (0, 1, 1, 0)),
                                    ("a node too many", two, (0, 1, 1, 3)), ("the longest worksheet", longest, (1, 8, 8, 72))):
            yield from changed(3, f"in version {version}, {name}", whole, *form_fields(whole, *fields, version=version))
    first = W0 + b"\1" + slots(2, start=3) + behind
    for version in (0, 3):
        for whole in (first, single):
            yield from changed(3, f"a single start in version {version}", whole, *form_fields(whole, 0, 1, 1, 2, version=version))
            yield from changed(3, f"kind 2 in version {version}", whole, *form_fields(whole, 2, 1, 1, 2, version=version))
    # The set of 16 is the third chain: not handed over, it is not in the way of version 1.
    yield from changed(16, "in version 1, the two chains before a set", mixed, *form_fields(mixed, 1, 2, 2, 8, version=1))
    both = V1 + b"\2" + set_slots(1, starts=()) + set_slots(6, starts=(255,)) + hexed("01 83 30 00 30 01 31 00")
    for name, whole, other, fields in (
        ("a single start", first, single, (0, 1, 1, 2)), ("anywhere", W0 + b"\1" + slots(2, start=65535) + behind, anywhere, (0, 1, 1, 2)),
        ("no chain", W1 + hexed("00 00 21 07 00 00 00"), none, (1, 0, 0, 1)),
        ("two chains", W1 + b"\2" + slots(1, start=65535) + slots(6, start=255) + hexed("01 83 30 00 30 01 31 00"), both, (1, 2, 1, 4)),
    ):
        for read, to in ((whole, other), (other, whole)):
            for number, lent in ((0, len(to)), (0, len(to) + 1), (15, len(to) - 1), (15, 0)):
                yield written(number, f"{name}, from version {read[3]} to {to[3]}", read + to, lent, *form_fields(read, *fields, version=to[3], end=len(read)))


# ------------------------------------------------------------------------------------------------ questions fused
# "Fusing judges the question, then 15."


def fused(name, question, worksheet):
    """Lent as many bytes as the worksheet has, one more, one less, none."""
    size = len(worksheet)
    for number, lent in ((0, size), (0, size + 1), (15, size - 1), (15, 0)):
        yield written(number, name, question + worksheet, lent, 0, 0, 0, len(question))


def questions_fused():
    yield from fused("marked", hexed("4C5051010001 2002 1001010000"), hexed("4C5057010001 01 010100000000 01 02 3000 3100"))
    yield from fused("key 2 from 0", Q0 + chain(2), W0 + b"\1" + slots(2) + hexed("01 00 30 00"))
    yield from fused("neither chain nor reduction", Q1 + RPLUS + RLIT * 2, W1 + hexed("00 00") + RPLUS + RLIT * 2)
    yield from fused("equal chains together, in order of first writing",
                     Q0 + PLUS + chain(2) + PLUS + chain(1, 2, 5, start=65535) + PLUS + chain(2) + chain(2, start=255),
                     W0 + b"\3" + slots(2) + slots(1, 2, 5, start=65535) + slots(2, start=255) + hexed("01 00 12 03 30 00 12 03 30 01 12 03 30 00 30 02"))
    yield from fused("reductions in order of writing, equal ones apart, one with a condition",
                     Q1 + RPLUS + SUM + chain(1) + RPLUS + WHERE + chain(2) + chain(1) + SUM + chain(1),
                     W1 + b"\2" + slots(1) + slots(2) + hexed("03 03 30 00 83 30 01 30 00 03 30 00 22 03 31 00 22 03 31 01 31 02"))
    yield from sets_fused()
    for number, name, question in ((10, "keys 5,2", Q0 + chain(5, 2)), (1, "nothing", b""), (6, "a byte left over", Q0 + LIT + b"\0"),
                                   (17, "starts 2,2", Q0 + chain_set(2, starts=(2, 2))), (13, "65,535 in a set", Q0 + chain_set(2, starts=(0, 65535))),
                                   (9, "set count 0", Q0 + chain_set(2, starts=())), (3, "version 2", b"LPQ" + u16(2) + Q0[5:] + chain_set(2, starts=(0, 2)))):
        for lent in (0, 9000):
            yield written(number, name, question, lent, 0, 0, 0, len(question))


def sets_fused():
    """Version 2 where some set has two or more, else version 1. A set of one and 0x10 with that start are one chain."""
    behind = hexed("01 00 30 00")  # one entry: chain 0
    one = W0 + b"\1" + slots(2, start=3) + behind
    yield from fused("a set of one", Q0 + chain_set(2, starts=(3,)), one)
    yield from fused("0x10 with that start", Q0 + chain(2, start=3), one)
    twice = W0 + b"\1" + slots(2, start=3) + hexed("01 00 12 03 30 00 30 00")
    yield from fused("0x10, then a set of one", Q0 + PLUS + chain(2, start=3) + chain_set(2, starts=(3,)), twice)
    yield from fused("a set of one, then 0x10", Q0 + PLUS + chain_set(2, starts=(3,)) + chain(2, start=3), twice)
    yield from fused("sets of one and anywhere", Q0 + PLUS + chain_set(2, starts=(255,)) + PLUS + chain(2, start=65535) + chain_set(2, starts=(0,)),
                     W0 + b"\3" + slots(2, start=255) + slots(2, start=65535) + slots(2) + hexed("01 00 12 03 30 00 12 03 30 01 30 02"))
    yield from fused("a set of two", Q0 + chain_set(2, starts=(0, 2)), hexed("4C5057020000 01 01020000 02 0000 0200 01 00 3000"))
    yield from fused("a set of two twice", Q0 + PLUS + chain_set(2, starts=(0, 2)) * 2,
                     V0 + b"\1" + set_slots(2, starts=(0, 2)) + hexed("01 00 12 03 30 00 30 00"))
    yield from fused("a set of 16", Q0 + chain_set(1, 2, 5, starts=ODD16), V0 + b"\1" + set_slots(1, 2, 5, starts=ODD16) + behind)
    yield from fused("single starts and anywhere beside a set", Q0 + PLUS * 4 + chain(2, start=3) + chain(6, start=65535) + chain_set(2, starts=(3,))
                     + chain_set(2, starts=(3, 255)) + chain_set(6, starts=(0,)),
                     V0 + b"\4" + set_slots(2, starts=(3,)) + set_slots(6, starts=()) + set_slots(2, starts=(3, 255)) + set_slots(6, starts=(0,))
                     + hexed("01 00") + PLUS * 4 + hexed("30 00 30 01 30 00 30 02 30 03"))
    alike = [((1,), (0, 2)), ((1,), (0, 2, 3)), ((1,), (0, 3)), ((1,), (2,)), ((2,), (0, 2)), ((1, 1), (0, 2)), ((1,), ODD16[:15]), ((1,), ODD16)]
    yield from fused("8 sets that are alike", Q0 + PLUS * 8 + b"".join(chain_set(*keys, starts=starts) for keys, starts in alike) + chain(1, start=2),
                     V0 + b"\x08" + b"".join(set_slots(*keys, starts=starts) for keys, starts in alike) + hexed("01 00") + PLUS * 8
                     + b"".join(bytes([0x30, i]) for i in (0, 1, 2, 3, 4, 5, 6, 7, 3)))
    yield from fused("a set in a condition, another in the value",
                     Q1 + RPLUS + SUM + chain(2) + WHERE + chain_set(1, starts=(1, 2)) + chain_set(2, starts=(0, 3)),
                     V1 + b"\3" + set_slots(2) + set_slots(1, starts=(1, 2)) + set_slots(2, starts=(0, 3))
                     + hexed("02 03 30 00 83 30 01 30 02 22 03 31 00 31 01"))
    yield from fused("the longest question", Q1 + SUM + tree(63, PLUS, chain_set(2, 2, 5, starts=LOW16)),
                     V1 + b"\1" + set_slots(2, 2, 5, starts=LOW16) + hexed("01 03") + tree(63, PLUS, hexed("30 00")) + hexed("31 00"))
    sets = [tuple(range(i, i + 16)) for i in range(8)]
    eight, indexes = b"".join(chain_set(2, 2, 5, starts=starts) for starts in sets), b"".join(bytes([0x30, i]) for i in range(8))
    yield from fused("32 chains, 8 different ones of 16 starts", Q1 + SUM + PLUS * 3 + (PLUS * 7 + eight) * 4,
                     V1 + b"\x08" + b"".join(set_slots(2, 2, 5, starts=starts) for starts in sets) + hexed("01 03") + PLUS * 3 + (PLUS * 7 + indexes) * 4
                     + hexed("31 00"))


# ------------------------------------------------------------------------------------------------ maps sorted (sorts.bin)
# "rows in rising order of from, to, seconds, crate size, and preserve repeats" (document 02, f). The map is judged as every map, by its
# rows as they stand there, then 15. Rows are (from, to, seconds, crate size); those expected are written by hand, in their order; of
# many rows they are counted up in order, and stand in the map in another one.


def rows_file(n, rows, **head):
    return map_file(n, [row(*fields) for fields in rows], **head)


def rising(rows):
    """Whether the rows are in order: no row comes before the one ahead of it, by the first field in which they differ."""
    for above, below in zip(rows, rows[1:]):
        differing = [(x, y) for x, y in zip(above, below) if x != y]
        if differing and differing[0][0] > differing[0][1]:
            return False
    return True


def dealt(rows, step):
    """The rows in another order: every so many-th, going round. The step has no divisor in common with their number."""
    return [rows[i * step % len(rows)] for i in range(len(rows))]


def sort_case(number, name, whole, want, lent, n=0, m=0):
    return written(number, name, whole + want, lent, n, m, 0, len(whole))


def orders(name, n, want, *others):
    """The rows in order, and other orders of the same ones, lent what is needed, one more, one less, none."""
    assert rising(want)
    whole = rows_file(n, want)
    for which, rows in enumerate((want, want[::-1], *others)):
        assert len(rows) == len(want) and all(rows.count(fields) == want.count(fields) for fields in want)
        for number, lent in ((0, len(whole)), (0, len(whole) + 1), (15, len(whole) - 1), (15, 0)):
            yield sort_case(number, f"{name}, order {which}", rows_file(n, rows), whole if number == 0 else b"", lent)


def sort_orders():
    a, b, c, d = (0, 1, 5, 10), (0, 2, 2, 4), (1, 3, 0, 7), (2, 1, 3, 20)
    yield sort_case(0, "map A", MAP_A, rows_file(4, [a, b, c, d]), 41)
    yield from orders("map A", 4, [a, b, c, d], [d, c, b, a], [b, a, d, c], [c, d, a, b], [a, c, b, d], [b, d, a, c])
    yield from orders("no row", 1, [])
    yield from orders("one row", 2, [(1, 0, 0, 1)])
    for n in (1, 2, 255, 256):
        last = n - 1
        yield from orders(f"n {n}", n, [(0, 0, 9, 9), (0, last, 9, 9), (last, 0, 9, 9), (last, last, 9, 9)] if n > 1 else [(0, 0, 9, 9)])
    # Behind the field that decides, all is the other way round.
    yield from orders("by from", 256, [(0, 255, 65535, 65534), (1, 254, 256, 256), (254, 1, 255, 255), (255, 0, 0, 1)],
                      [(1, 254, 256, 256), (255, 0, 0, 1), (0, 255, 65535, 65534), (254, 1, 255, 255)])
    yield from orders("by to", 256, [(7, 0, 65535, 65534), (7, 1, 256, 256), (7, 254, 255, 255), (7, 255, 0, 1)],
                      [(7, 1, 256, 256), (7, 255, 0, 1), (7, 0, 65535, 65534), (7, 254, 255, 255)])
    seconds = [0, 1, 254, 255, 256, 257, 511, 512, 32767, 32768, 65280, 65534, 65535]
    yield from orders("by seconds", 9, [(7, 8, x, 65534 - i) for i, x in enumerate(seconds)], dealt([(7, 8, x, 65534 - i) for i, x in enumerate(seconds)], 5))
    crates = [1, 2, 254, 255, 256, 257, 511, 512, 32767, 32768, 65280, 65533, 65534]
    yield from orders("by crate size", 9, [(7, 8, 9, x) for x in crates], dealt([(7, 8, 9, x) for x in crates], 5))
    yield from orders("each field in turn", 3, [(0, 0, 1, 2), (0, 0, 1, 3), (0, 0, 2, 1), (0, 1, 0, 1), (1, 0, 0, 1), (1, 0, 0, 2), (1, 2, 0, 1), (2, 0, 0, 1)],
                      [(1, 0, 0, 2), (0, 0, 2, 1), (2, 0, 0, 1), (0, 0, 1, 3), (1, 2, 0, 1), (0, 1, 0, 1), (1, 0, 0, 1), (0, 0, 1, 2)])
    # 255 and 256 by their low bytes alone, or by the bytes as they stand, would be the other way round.
    yield from orders("low bytes", 2, [(0, 1, 255, 256), (0, 1, 256, 255)])
    yield from orders("low bytes of crate sizes", 2, [(0, 1, 7, 255), (0, 1, 7, 256)])


def sort_repeats():
    """Each row as often as it is there. Maps that differ in how often are told apart."""
    a, b, c = (0, 1, 5, 9), (0, 1, 5, 10), (1, 0, 0, 1)
    yield from orders("twice", 2, [a, a])
    yield from orders("equal rows between others", 2, [a, b, b, c], [b, c, b, a], [b, a, c, b])
    yield from orders("two of the first", 2, [a, a, b], [a, b, a])
    yield from orders("two of the second", 2, [a, b, b], [b, a, b])
    yield from orders("one of each", 2, [a, b])
    yield from orders("three of each", 2, [a] * 3 + [b] * 3 + [c] * 3, [a, b, c] * 3, [c, b, a] * 3, [b, c, a, a, c, b, b, a, c])
    for many in (3, 4, 5, 7, 8, 9, 15, 16, 17):
        yield sort_case(0, f"{many} equal rows", rows_file(2, [a] * many), rows_file(2, [a] * many), 9 + 8 * many)


def sort_many():
    """Numbers of rows around powers of two; the most rows."""
    for many in (31, 32, 33, 63, 64, 65, 127, 128, 129):
        want = [(i // 30, i // 6 % 5, 255 * (i // 3 % 2) + 1, 1 + 254 * (i % 3)) for i in range(many)]
        assert rising(want)
        for name, rows in (("in order", want), ("falling", want[::-1]), ("dealt", dealt(want, 37))):
            yield sort_case(0, f"{many} rows, {name}", rows_file(6, rows), rows_file(6, want), 9 + 8 * many)
    apart = [(i // 256, i // 32 % 8, 255 * (i // 4 % 8), 1 + 255 * (i % 4)) for i in range(1024)]
    alike = [(i // 512, 1, 256 - i // 512, 7) for i in range(1024)]
    assert rising(apart) and rising(alike) and alike[511] != alike[512]
    for name, want, rows in (("in order", apart, apart), ("falling", apart, apart[::-1]), ("dealt by 401", apart, dealt(apart, 401)),
                             ("halves", apart, apart[512:] + apart[:512]), ("two values", alike, dealt(alike, 513))):
        yield sort_case(0, f"1,024 rows, {name}", rows_file(256, rows), rows_file(256, want), 8201)
    yield sort_case(15, "1,024 rows, dealt by 401", rows_file(256, dealt(apart, 401)), b"", 8200)


def sort_refusals():
    """In the order of judging; each with what is judged later, and lent nothing or enough."""
    good, wrong = (0, 0, 7, 1), (1, 1, 0, 0)
    for number, name, whole in (
        (1, "nothing", b""), (1, "8 bytes, other letters", b"XYZ" + u16(2) + bytes(3)), (1, "8 bytes", b"LPM" + ONE + bytes(3)),
        (2, "other letters, version 2, n 0, m 1,025", map_file(0, [], 1025, b"LPQ", 2)), (2, "another map's letters", rows_file(1, [good], mark=b"LPm")),
        (3, "version 2, n 0, m 1,025", map_file(0, [], 1025, version=2)), (3, "version 0", rows_file(1, [good], version=0)),
        (3, "version 257", rows_file(1, [good], version=257)),
        (4, "n 0, m 1,025", map_file(0, [], 1025)), (4, "n 0, and a row of no place", rows_file(0, [wrong])), (4, "n 257", map_file(257)),
        (4, "n 257, a row too many", map_file(257, [row(*wrong)], 0)), (4, "n 65,535", map_file(65535)),
        (5, "m 1,025, no row", map_file(1, [], 1025)), (5, "m 1,025, of wrong rows", rows_file(1, [wrong] * 1025)), (5, "m 65,535", map_file(1, [], 65535)),
        (6, "m 1,024, no row", map_file(1, [], 1024)), (6, "a byte left over, and a wrong row", rows_file(1, [wrong]) + b"\0"),
        (6, "a byte missing, and a wrong row", rows_file(1, [wrong])[:-1]), (6, "a row left over", map_file(1, [row(*good)], 0)),
        (7, "from n, and crate size 0", rows_file(1, [(1, 0, 0, 0)])), (7, "to n, and crate size 65,535", rows_file(1, [(0, 1, 0, 65535)])),
        (7, "from 256 of 256", rows_file(256, [(256, 0, 0, 1)])), (7, "to 65,535", rows_file(256, [(0, 65535, 0, 1)])),
        (8, "crate size 0", rows_file(1, [(0, 0, 0, 0)])), (8, "crate size 65,535", rows_file(1, [(0, 0, 0, 65535)])),
        # By the rows as they stand: in order the other row would come first, and the other number.
        (8, "crate size of a row that comes last, to n of one that comes first", rows_file(2, [(1, 1, 0, 0), (0, 2, 0, 1)])),
        (7, "from n of a row that comes last, crate size of one that comes first", rows_file(2, [(2, 1, 0, 1), (0, 1, 0, 0)])),
        (8, "crate size of row 1 of three, from n of row 2", rows_file(2, [(1, 1, 0, 1), (1, 0, 0, 65535), (2, 0, 0, 1)])),
        (7, "to n of row 1 of three, crate size of row 2", rows_file(2, [(1, 1, 0, 1), (1, 2, 0, 1), (0, 0, 0, 0)])),
        (7, "from n of the last of three rows", rows_file(3, [good, (2, 2, 0, 1), (3, 0, 0, 1)])),
        (8, "crate size of the last of three rows", rows_file(3, [(2, 2, 0, 1), good, (0, 0, 0, 65535)])),
        (8, "crate size of the last of 1,024 rows", rows_file(1, [good] * 1023 + [(0, 0, 0, 0)])),
    ):
        for lent in (0, 9000):
            yield sort_case(number, name, whole, b"", lent)


def maps_sorted():
    for part in (sort_orders, sort_repeats, sort_many, sort_refusals):
        yield from part()


def counts_sorted():
    """The typed form of a map, put in order with other counts. The rows behind those that were read are 0 to 0, 0 seconds, crate size 0."""
    rows = [(2, 1, 3, 20), (1, 3, 0, 7), (0, 2, 2, 4), (0, 1, 5, 10)]
    whole = rows_file(4, rows)
    for n, m, want in ((4, 4, rows[::-1]), (4, 3, [(0, 2, 2, 4), (1, 3, 0, 7), (2, 1, 3, 20)]), (4, 2, [(1, 3, 0, 7), (2, 1, 3, 20)]),
                       (3, 1, [(2, 1, 3, 20)]), (1, 0, []), (256, 4, rows[::-1])):
        size, sorted_map = 9 + 8 * m, rows_file(n, want)
        assert rising(want)
        for number, lent in ((0, size), (0, size + 1), (15, size - 1), (15, 0)):
            yield sort_case(number, f"n {n}, m {m}", whole, sorted_map if number == 0 else b"", lent, n, m)
    # Row 1 goes to place 3. The row of crate size 0 behind the four would be the first in order: 7 is by the rows as they are handed.
    for number, n, m in ((4, 0, 4), (4, 257, 4), (4, 0, 1025), (4, 65535, 0), (5, 4, 1025), (5, 1, 1025), (5, 4, 65535), (7, 3, 4), (7, 3, 5), (7, 2, 1),
                         (8, 4, 5), (8, 4, 1024)):
        for lent in (0, 9000):
            yield sort_case(number, f"n {n}, m {m}", whole, b"", lent, n, m)


SORT_KINDS = (("maps sorted", maps_sorted), ("maps sorted with other counts", counts_sorted))

# ------------------------------------------------------------------------------------------------ the file


def maps():
    for part in (map_headers, map_counts, map_lengths, map_rows):
        yield from part()


KINDS = (("maps", maps), ("questions", questions), ("worksheets", sheets), ("answers", answers), ("maps written", maps_written),
         ("questions written", questions_written), ("worksheets written", worksheets_written), ("questions fused", questions_fused))


def table(kinds):
    """All cases, each once: (kind, number, name, bytes). The same bytes under two names must have the same number."""
    seen = {}
    for kind, (word, part) in enumerate(kinds):
        for number, name, body in part():
            known = seen.setdefault((kind, body), (number, name))
            assert known[0] == number, f"{word}: {known} and {(number, name)}"
    return [(kind, number, name, body) for (kind, body), (number, name) in seen.items()]


def write(name, cases, first):
    """A file of (kind, number, bytes), the kinds counted from `first` on."""
    data = b"".join(bytes([first + kind, number]) + u16(len(body)) + body for kind, number, body in cases)
    assert len(data) <= MOST, len(data)
    with open(os.path.join(FOLDER, "data", name), "wb") as f:
        f.write(data)


def counts(kinds, cases):
    """What the program prints of a file."""
    return [f"{word} {sum(case[0] == kind for case in cases)}\n" for kind, (word, _) in enumerate(kinds)] + ["differences 0\n"]


def main():
    cases, runs, boards, sorts = table(KINDS), make_runs.table(make_runs.KINDS), make_runs.table(make_boards.KINDS), table(SORT_KINDS)
    if sys.argv[1:] == ["list"]:
        for kinds, listed in ((KINDS, cases), (SORT_KINDS, sorts)):
            for index, (kind, number, name, body) in enumerate(listed):
                print(f"{index:3} {kinds[kind][0]:10} {number:2}  {name}  [{len(body)}] {body[:48].hex()}")
        return
    first = 0
    for name, kinds, listed in (("cases.bin", KINDS, [(kind, number, body) for kind, number, _, body in cases]),
                                ("runs.bin", make_runs.KINDS, [(kind, case[4], make_runs.body(case)) for kind, case in runs]),
                                ("boards.bin", make_boards.KINDS, [(kind, case[4], make_runs.body(case)) for kind, case in boards]),
                                ("sorts.bin", SORT_KINDS, [(kind, number, body) for kind, number, _, body in sorts])):
        write(name, listed, first)
        first += len(kinds)
    with open(os.path.join(FOLDER, "stdout"), "w") as f:
        f.writelines(counts(KINDS, cases) + counts(make_runs.KINDS, runs) + counts(make_boards.KINDS, boards) + counts(SORT_KINDS, sorts))


main()
