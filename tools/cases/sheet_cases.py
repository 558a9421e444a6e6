#!/usr/bin/env python3
"""Makes the stored list of rows and texts with the refusal or acceptance that the rules gives them.

    sheet_cases.py [FOLDER]

The answers are those of the second reading of the rules (../differential/reading.py). Where a case below names its
answer, that was written down by hand, and the reading is held to it. The same run gives the same files.
"""
import random
import sys

import listing

import generate
import reading
from generate import flat, row
from reading import CAP, CLASSES, COLUMNS, KINDS, NONE, OWNERS, bits_of

TOP = 2**63 - 1
ACCEPTED = (0, 0)

# One good row of each kind.
PLAIN = {
    1: [1, 100, NONE],
    2: [10, 1, 0, 0, 60, 0, 0, NONE],
    3: [10, bits_of(0.5), 0],
    4: [10, 2, 0, 0],
    5: [10, 7, 1, 1],
    6: [10, 0, 5],
    7: [10, 0, 3],
    8: [10, 11],
    9: [10, 5, bits_of(2.0)],
    10: [10, 5, 1, 2, 3],
    11: [5, 7, 1],
    12: [5, 3],
    13: [5, 6],
    14: [5, 6, 9],
    15: [5, 0, 0, 100],
    16: [10, 1, 5, 6],
    17: [10, 11, 0],
    18: [5, 2],
    19: [10, 0, 50],
    20: [5],
    21: [],
    22: [0, 10],
    23: [10, 1, 5, 50, 110, 0, NONE, NONE],
    24: [10, 1, 0, 60],
}


def plain(kind, *changes):
    """The plain row of a kind with columns changed: (column, number) pairs."""
    r = row(kind, *PLAIN[kind])
    for column, number in changes:
        r[column] = number
    return r


def owners_of(r):
    """What the row needs to stand in an accepted sheet, where its own columns allow that."""
    kind, first = r[0], r[1]
    if kind == 2:
        return [plain(1, (1, r[2] if 0 <= r[2] <= 999_999_999 else 1))]
    if kind in OWNERS and OWNERS[kind][1] == 2:
        activity = first if 0 <= first <= 999_999_999 else 10
        out = [plain(1), plain(2, (1, activity))]
        return out + ([plain(5, (1, activity))] if kind in (6, 7) else [])
    if kind in OWNERS:
        return [plain(11, (1, first if 0 <= first <= 999_999_999 else 5))]
    return [plain(21)] if kind == 22 else []


class Rows:
    """Cases of rows."""

    def __init__(self):
        self.cases = []

    def case(self, remark, rows, expected=None):
        """One case; rows are rows, or plain numbers."""
        numbers = flat(rows) if rows and isinstance(rows[0], list) else list(rows)
        answer = reading.refused_1_to_5(numbers) or ACCEPTED
        if expected is not None and answer != expected:
            raise SystemExit(f"{remark}: {answer}, expected {expected}")
        assert len(numbers) <= 8200
        self.cases.append(listing.case(remark, listing.rows(numbers), listing.line("R", answer)))

    def alone(self, remark, r, expected=None):
        """A row among its owners, now before them, now after them."""
        owners = owners_of(r)
        at = len(self.cases) % (len(owners) + 1)
        rows = owners[:at] + [r] + owners[at:]
        if expected and expected != ACCEPTED:
            expected = (expected[0], at)
        self.case(remark, rows, expected)


def kinds(c):
    for kind, (name, _) in KINDS.items():
        owners = owners_of(plain(kind))
        c.case(f"{name} after its owners", owners + [plain(kind)], ACCEPTED)
        if owners:
            c.case(f"{name} before its owners", [plain(kind)] + owners, ACCEPTED)
    every = {**{k: plain(k) for k in KINDS}, 10: plain(10, (2, 6)), 22: plain(22, (1, 3))}
    c.case("every kind", list(every.values()), ACCEPTED)
    every[22] = plain(22, (1, 0))  # the synchronize is then the first constraint
    c.case("every kind, last first", [every[k] for k in reversed(KINDS)], ACCEPTED)
    for kind in (0, 25, -1, 26, 100, NONE, TOP):
        c.case(f"kind {kind}", [plain(1), [kind] + [0] * 9], (2, 1))
    c.case("an unknown kind with any columns", [[25] + [NONE] * 9], (2, 0))


def bounds(c):
    """Every column at each bound of its class, one past it, and none."""
    for kind, columns in COLUMNS.items():
        classes = KINDS[kind][1].split()
        for column, (least, greatest, optional) in enumerate(columns, 1):
            part = [(7, 0), (8, 5)] if kind == 23 and column in (7, 8) else []
            what = f"{KINDS[kind][0]}, column {column} ({classes[column - 1]})"
            place = column == 2 and kind in (6, 7) or column == 1 and kind == 22
            for x in (least, greatest):
                fine = ACCEPTED if not (place and x) else (4, 0)  # no sheet has so many requirements or constraints
                c.alone(f"{what}: {x}", plain(kind, *part, (column, x)), fine)
            for x in (least - 1, greatest + 1):
                c.alone(f"{what}: {x}", plain(kind, *part, (column, x)), (3, 0))
            whole = optional and kind != 23
            c.alone(f"{what}: none", plain(kind, *part, (column, NONE)), ACCEPTED if whole else (3, 0))
    c.case("a booking with no part", owners_of(plain(23)) + [plain(23)], ACCEPTED)
    c.case("a booking with a part", [plain(23, (7, -1_000_000), (8, CAP))], ACCEPTED)
    c.case("half a part: an index", [plain(23, (7, 0))], (3, 0))
    c.case("half a part: a work", [plain(21), plain(23, (8, 0))], (3, 1))
    c.case("half a part, both out of range", [plain(23, (7, 1_000_001))], (3, 0))
    c.case("a float with the sign set", owners_of(plain(3)) + [plain(3, (2, NONE + 1))], (3, 2))
    c.case("a share that is no number", owners_of(plain(3)) + [plain(3, (2, 0x7FF8000000000000))], (3, 2))
    c.case("a speed of infinity", owners_of(plain(9)) + [plain(9, (3, 0x7FF0000000000000))], (3, 2))
    c.case("a speed of 0.0", owners_of(plain(9)) + [plain(9, (3, 0))], (3, 2))
    c.case("a subnormal share", owners_of(plain(3)) + [plain(3, (2, 1))], ACCEPTED)
    c.case("start after end", owners_of(plain(15)) + [plain(15, (3, 9), (4, 1)), plain(19, (2, 9), (3, 1)), plain(24, (3, 9), (4, 1)),
                                                     plain(23, (4, 9), (5, 1))], ACCEPTED)


def tails(c):
    for kind, columns in COLUMNS.items():
        for column in sorted({len(columns) + 1, 9}):
            x = (1, -1, NONE, TOP, 5)[(kind + column) % 5]
            c.alone(f"{KINDS[kind][0]}, tail number {column}: {x}", plain(kind, (column, x)), (3, 0))


def shapes(c):
    c.case("no rows", [], ACCEPTED)
    for count in (1, 5, 9):
        c.case(f"{count} numbers", [21] + [0] * (count - 1), (1, 0))
    c.case("11 numbers", flat([plain(21)]) + [21], (1, 0))
    c.case("19 numbers of unknown kinds", [0] * 19, (1, 0))
    c.case("7,990 numbers", [plain(21)] * 799, ACCEPTED)
    c.case("7,999 numbers", flat([plain(21)] * 800)[:7999], (1, 0))
    c.case("8,000 numbers", [plain(21)] * 800, ACCEPTED)
    c.case("8,001 numbers", flat([plain(21)] * 800) + [0], (1, 0))
    c.case("8,010 numbers", [plain(21)] * 801, (1, 0))
    c.case("8,010 numbers, each out of place", [25] * 8010, (1, 0))
    c.case("8,020 numbers", [plain(21)] * 802, (1, 0))
    c.case("an unknown kind as the 800th row", [plain(21)] * 799 + [[25] + [0] * 9], (2, 799))
    c.case("a tail number in the 800th row", [plain(21)] * 799 + [plain(21, (9, 1))], (3, 799))
    c.case("an absent owner as the 800th row", [plain(18)] * 799 + [plain(12)], (4, 799))
    c.case("a repeat as the 800th row", [plain(1)] + [plain(18)] * 798 + [plain(1)], (5, 799))
    c.case("800 rows, the owner last", [plain(12)] * 799 + [plain(11)], ACCEPTED)
    c.case("799 candidates, their requirement and activity last", [plain(6)] * 797 + [plain(5), plain(2), plain(1)], ACCEPTED)
    c.case("members of the 799th constraint", [plain(18)] * 798 + [plain(20), plain(22, (1, 798))], ACCEPTED)
    c.case("members of a place past it", [plain(18)] * 798 + [plain(20), plain(22, (1, 799))], (4, 799))


def absent(c):
    """Refusal 4."""
    for kind, (name, _) in KINDS.items():
        owners = owners_of(plain(kind))
        for gone in range(len(owners)):
            if owners[gone][0] == 1 and kind != 2:
                continue  # then the activity itself is refused: below
            left = owners[:gone] + owners[gone + 1 :]
            what = KINDS[owners[gone][0]][0]
            at = 1 if kind in (6, 7) and gone == 1 else 0
            if at:  # without the activity its requirement comes first
                left = [r for r in left if r[0] != 5]
            c.case(f"{name} without its {what}", [plain(kind)] + left, (4, 0))
    c.case("the owner's number as an id of other things", [plain(11, (1, 10)), plain(1, (1, 10)), plain(3)], (4, 2))
    c.case("an activity of a resource's id", [plain(11, (1, 1)), plain(2)], (4, 1))
    c.case("a task's id as a resource's", [plain(1, (1, 5)), plain(12)], (4, 1))
    base = [plain(1), plain(2), plain(2, (1, 11)), plain(5), plain(5), plain(5, (1, 11))]
    for kind in (6, 7):
        name = KINDS[kind][0]
        c.case(f"{name} of the last requirement", base + [plain(kind, (2, 1))], ACCEPTED)
        c.case(f"{name} one past it", base + [plain(kind, (2, 2))], (4, 6))
        c.case(f"{name} of the other activity's", base + [plain(kind, (1, 11), (2, 1))], (4, 6))
        c.case(f"{name} before all", [plain(kind, (2, 1))] + base, ACCEPTED)
        c.case(f"{name} of an absent activity", base + [plain(kind, (1, 12))], (4, 6))
    places = [plain(17), plain(18), plain(19), plain(20), plain(21)]
    for place, r in enumerate(places):
        fine = ACCEPTED if r[0] >= 20 else (4, 5)
        c.case(f"a member of a {KINDS[r[0]][0]}", places + [plain(22, (1, place))], fine)
        c.case(f"before it, a member of a {KINDS[r[0]][0]}", [plain(22, (1, place))] + places, ACCEPTED if r[0] >= 20 else (4, 0))
    c.case("a member of place 5 of 5", places + [plain(22, (1, 5))], (4, 5))
    c.case("rows between constraints do not count", [plain(11), plain(17), plain(11, (1, 6)), plain(21), plain(22, (1, 1))], ACCEPTED)
    c.case("nor do they here", [plain(11), plain(17), plain(11, (1, 6)), plain(21), plain(22, (1, 3))], (4, 4))
    c.case("the first of two", [plain(21), plain(12), plain(3)], (4, 1))
    c.case("names that own nothing need not be there", [plain(k) for k in (17, 18, 19, 20, 21, 23, 24)] + [plain(22, (1, 3))], ACCEPTED)
    c.case("nor predecessors, candidates, companions, transports, timings",
           [plain(1), plain(2), plain(11), plain(5), plain(6, (3, 77)), plain(8, (2, 77)), plain(9, (2, 77)), plain(13, (2, 77)), plain(14, (2, 77))],
           ACCEPTED)


def repeats(c):
    """Refusal 5: the place is the later row."""
    task, activity, resource = plain(1), plain(2), plain(11)
    own = [task, activity, resource]
    for kind in (1, 2, 11):
        name = KINDS[kind][0]
        c.case(f"a repeated {name}", own + [plain(18), plain(kind)], (5, 4))
        c.case(f"a repeated {name} with other columns", own + [plain(kind, (3, 1))], (5, 3))
    for kind in (3, 4):
        name = KINDS[kind][0]
        c.case(f"a second {name}", own + [plain(kind), plain(kind, (3, 1))], (5, 4))
        c.case(f"a second {name}, its activity last", [plain(kind), plain(kind, (3, 1)), activity, task], (5, 1))
        c.case(f"{name} of two activities", own + [plain(2, (1, 11)), plain(kind), plain(kind, (1, 11))], ACCEPTED)
    c.case("an overlap and a split", own + [plain(3), plain(4)], ACCEPTED)
    for one, two in ((9, 9), (9, 10), (10, 9), (10, 10)):
        c.case(f"kind {one} then kind {two} of one pair", own + [plain(one), plain(two)], (5, 4))
        c.case(f"kind {one} then kind {two}, another resource", own + [plain(one), plain(two, (2, 6))], ACCEPTED)
        c.case(f"kind {one} then kind {two}, another activity", own + [plain(2, (1, 11)), plain(one), plain(two, (1, 11))], ACCEPTED)
        c.case(f"kind {one} then kind {two}, activity and resource changed about",
               [task, plain(2, (1, 5)), activity, plain(one, (1, 5), (2, 10)), plain(two, (1, 10), (2, 5))], ACCEPTED)
    c.case("a second transport", own + [plain(14), plain(14, (3, 1))], (5, 4))
    c.case("a transport and back", own + [plain(11, (1, 6)), plain(14), plain(14, (1, 6), (2, 5))], ACCEPTED)
    c.case("two transports to two", own + [plain(14), plain(14, (2, 7))], ACCEPTED)
    c.case("a transport to itself", own + [plain(14, (2, 5))], ACCEPTED)
    c.case("a second transport to itself", own + [plain(14, (2, 5)), plain(14), plain(14, (2, 5))], (5, 5))
    for kind in (5, 6, 7, 8, 12, 13, 15, 16, 17, 18, 19, 20, 21, 22, 23, 24):
        rows = owners_of(plain(kind))
        c.case(f"{KINDS[kind][0]} twice may be", rows + [plain(kind), plain(kind)], ACCEPTED)
    same = [plain(1, (1, 7)), plain(2, (1, 7), (2, 7)), plain(11, (1, 7), (2, 7)), plain(12, (1, 7), (2, 7))]
    c.case("one number as task, activity, resource, type and skill", same, ACCEPTED)
    c.case("the same, shuffled", [same[3], same[1], same[2], same[0]], ACCEPTED)
    c.case("the first of two repeats", [task, resource, plain(11), task], (5, 2))
    c.case("three of one id", [task, task, task], (5, 1))
    c.case("0 and 999,999,999 are two ids", [plain(1, (1, 0)), plain(1, (1, 999_999_999))], ACCEPTED)
    c.case("0 twice", [plain(1, (1, 0)), plain(11, (1, 0)), plain(1, (1, 0))], (5, 2))


def order(c):
    """Which refusal comes first."""
    unknown, range3, stray, twice = [25] + [0] * 9, plain(21, (1, 1)), plain(12, (1, 99)), plain(1)
    c.case("2 in the row where 3 is too", [plain(1), [0, -1] + [7] * 8], (2, 1))
    c.case("3 above 2", [range3, unknown], (3, 0))
    c.case("2 above 3", [unknown, range3], (2, 0))
    c.case("4 above 2", [stray, unknown], (2, 1))
    c.case("4 above 3", [stray, plain(21), range3], (3, 2))
    c.case("5 above 3", [twice, twice, range3], (3, 2))
    c.case("5 above 2", [twice, twice, unknown], (2, 2))
    c.case("5 above 4", [twice, twice, stray], (4, 2))
    c.case("4 above 5", [stray, twice, twice], (4, 0))
    c.case("1 before all", flat([unknown, range3, stray, twice, twice]) + [0], (1, 0))
    c.case("3 in the row where 4 is too", [plain(12, (2, -1))], (3, 0))
    c.case("4 in the row where 5 is too", [plain(3), plain(3)], (4, 0))
    c.case("a repeated owner is an owner", [plain(11), plain(12), plain(11)], (5, 2))
    c.case("an owner out of range is 3", [plain(12), plain(11, (3, 1_000_001))], (3, 1))


def drawn_rows(c, count):
    """Drawn by the seeded generator, those that are short enough to read."""
    seen, number = {}, 0
    while sum(seen.values()) < count:
        rng = random.Random(f"stored rows {number}")
        number += 1
        numbers = generate.broken(rng)
        refused = (reading.refused_1_to_5(numbers) or ACCEPTED)[0]
        if 30 <= len(numbers) <= 140 and seen.get(refused, 0) < {0: count // 4, 1: 4}.get(refused, count // 5):
            seen[refused] = seen.get(refused, 0) + 1
            c.case(f"drawn {number - 1}", numbers)


class Texts:
    """Cases of texts."""

    def __init__(self):
        self.cases = []

    def case(self, remark, parts, lent=800, expected=None):
        """One case; parts are bytes, or a list of (TIMES, bytes). Expected: a refusal, or the number of rows."""
        parts = [(1, parts)] if isinstance(parts, bytes) else parts
        data = b"".join(times * part for times, part in parts)
        read = reading.read_text(data, lent)
        answer, rows = (read[1:], []) if read[0] == "refused" else ((0, len(read[1]) // 10), read[1])
        if expected is not None and answer != (expected if isinstance(expected, tuple) else (0, expected)):
            raise SystemExit(f"{remark}: {answer}, expected {expected}")
        assert len(data) <= 70_000 and lent <= 801
        lent = lent * 10 + len(self.cases) % 10  # what is no whole row is not used
        self.cases.append(listing.case(remark, listing.rows(rows), listing.text(parts), listing.line("T", [lent, *answer])))


def line_of(kind):
    return reading.spelled(row(kind, *PLAIN[kind]))


def lines(c):
    c.case("empty text", b"", expected=0)
    c.case("empty text, no rows lent", b"", lent=0, expected=0)
    for kind, (name, _) in KINDS.items():
        c.case(f"a {name}", line_of(kind), expected=1)
        c.case(f"a {name}, one field more", line_of(kind)[:-1] + b",\n", expected=(9, 0))
        if COLUMNS[kind]:
            c.case(f"a {name}, one field less", line_of(kind).rpartition(b",")[0] + b"\n", expected=(9, 0))
    c.case("every kind", b"".join(line_of(k) for k in KINDS), expected=24)
    c.case("every column none", b"".join(b"%d" % k + b"," * len(COLUMNS[k]) + b"\n" for k in KINDS), expected=24)
    example = b"1,1,100,\n2,10,1,0,0,60,0,0,\n5,10,7,1,1\n11,5,7,1\n23,10,1,5,50,110,0,,\n"
    c.case("the rules' example", example, expected=5)
    c.case("its five rows just lent", example, lent=5, expected=5)
    c.case("one row less lent", example, lent=4, expected=(10, 4))
    c.case("no row lent", example, lent=0, expected=(10, 0))
    c.case("without the last line feed", example[:-1], expected=(9, 4))
    c.case("a line feed more", example + b"\n", expected=(9, 5))
    c.case("a line feed first", b"\n" + example, expected=(9, 0))
    c.case("carriage returns", example.replace(b"\n", b"\r\n"), expected=(9, 0))
    c.case("one carriage return", example.replace(b",60,", b",60\r,"), expected=(9, 1))
    c.case("a carriage return for a line feed", example.replace(b"7,1\n", b"7,1\r"), expected=(9, 3))
    c.case("a carriage return behind an empty field", b"1,1,,\r\n", expected=(9, 0))
    c.case("a carriage return alone", b"\r\n", expected=(9, 0))


GOOD = [b"0", b"-1", b"9", b"10", b"9223372036854775807", b"-9223372036854775807", b"1" + b"0" * 18, b"-1000000", b""]
BAD = [b"-0", b"00", b"01", b"-01", b"007", b"+1", b" 1", b"1 ", b"1.0", b"1e3", b"0x1", b"--1", b"-", b"1-", b"1-1", b"a", b"1a", b"/", b":",
       b"\x00", b"\xff", b'"1"', b"'1'", b"\t", b"\r", b";", b"9223372036854775808", b"-9223372036854775808", b"-9223372036854775809",
       b"9999999999999999999", b"18446744073709551616", b"18446744073709551617", b"10000000000000000000", b"-10000000000000000001",
       b"1" * 40, b"0" * 30, b"\xef\xbc\x91", b"\xc2\xa01"]


def shown(field):
    return repr(field)[1:42]


def numbers(c):
    for field in GOOD:
        c.case(f"column {shown(field)}", b"1,5," + field + b",7\n", expected=1)
    for field in BAD:
        c.case(f"column {shown(field)}", b"21\n1,5," + field + b",7\n", expected=(9, 1))
        c.case(f"kind {shown(field)}", b"21\n" + field + b",5\n", expected=(9, 1))
    for kind in (b"0", b"25", b"-1", b"26", b"99", b"9223372036854775807", b"-9223372036854775807"):
        c.case(f"kind {kind.decode()}", b"21\n" + kind + b"\n", expected=(2, 1))
    c.case("an empty kind", b",1\n", expected=(9, 0))
    c.case("an empty line", b"21\n\n21\n", expected=(9, 1))
    c.case("a comma alone", b",\n", expected=(9, 0))
    c.case("kind 24", line_of(24), expected=1)
    c.case("numbers out of every class are rows", b"1,-5,9223372036854775807,-9223372036854775807\n", expected=1)


def text_order(c):
    c.case("unknown kind, misspelt column", b"25,x\n", expected=(9, 0))
    c.case("unknown kind, many fields", b"25,1,2,3,4,5,6,7,8,9,10,11\n", expected=(2, 0))
    c.case("unknown kind, no line feed", b"25", expected=(9, 0))
    c.case("a good line, no line feed", b"21", expected=(9, 0))
    c.case("one digit", b"1", expected=(9, 0))
    c.case("a minus", b"-", expected=(9, 0))
    c.case("a comma", b",", expected=(9, 0))
    c.case("misspelt above an unknown kind", b"x\n25\n", expected=(9, 0))
    c.case("unknown kind above a misspelt line", b"21\n25\nx\n", expected=(2, 1))
    c.case("twelve good fields of kind 1", b"1" + b",1" * 11 + b"\n", expected=(9, 0))
    c.case("two hundred commas", [(1, b"1"), (200, b","), (1, b"\n")], expected=(9, 0))
    c.case("misspelt past the fields", b"1,1,,,x\n", expected=(9, 0))
    c.case("one row lent, second line misspelt", b"21\nx\n", lent=1, expected=(9, 1))
    c.case("one row lent, second line unknown", b"21\n25\n", lent=1, expected=(2, 1))
    c.case("one row lent, second line short", b"21\n1\n", lent=1, expected=(9, 1))
    c.case("one row lent, second line open", b"21\n21", lent=1, expected=(9, 1))
    c.case("one row lent, two lines", b"21\n21\n", lent=1, expected=(10, 1))
    c.case("one row lent, the third line misspelt", b"21\n21\nx\n", lent=1, expected=(10, 1))
    c.case("one row lent, one line", b"20,5\n", lent=1, expected=1)
    c.case("two rows lent, one line", b"20,5\n", lent=2, expected=1)


LONG = b"23,999999999,999999999,999999999,4000000000000,4000000000000,4000000000000,1000000,4000000000000\n"


def of_length(length):
    """Good lines with so many bytes together."""
    times = length // len(LONG) - 1
    rest = length - times * len(LONG)
    return [(times, LONG), (1, b"20,1\n"), (1, b"21\n" * ((rest - 5) // 3 - 3)), (1, b"20,%s\n" % (b"1" * ((rest - 5) % 3 + 5)))]


def sizes(c):
    for lines_, lent, expected in ((799, 800, 799), (800, 800, 800), (801, 800, (10, 800)), (801, 801, 801), (800, 799, (10, 799))):
        c.case(f"{lines_} lines, {lent} rows lent", [(lines_, b"20,5\n")], lent, expected)
    c.case("800 lines, the 801st misspelt", [(800, b"21\n"), (1, b"21,\n")], expected=(9, 800))
    c.case("800 lines, the 801st unknown", [(800, b"21\n"), (1, b"25\n")], expected=(2, 800))
    c.case("800 lines, the 801st open", [(800, b"21\n"), (1, b"2")], expected=(9, 800))
    c.case("800 lines, the 801st empty", [(800, b"21\n"), (1, b"\n")], expected=(9, 800))
    c.case("801 lines, the 802nd misspelt", [(801, b"21\n"), (1, b"x\n")], expected=(10, 800))
    c.case("the 800th line misspelt", [(799, b"21\n"), (1, b"01\n"), (1, b"21\n")], expected=(9, 799))
    for length in (65_535, 65_536):
        parts = of_length(length)
        assert sum(times * len(part) for times, part in parts) == length
        c.case(f"{length} bytes", parts, 800)
        assert reading.read_text(b"".join(t * p for t, p in parts), 800)[0] == "accepted"
    c.case("65537 bytes", of_length(65_537), 800, (8, 0))
    c.case("65537 bytes, the first misspelt", [(1, b"x"), *of_length(65_536)], 800, (8, 0))
    c.case("65537 bytes, no row lent", of_length(65_537), 0, (8, 0))
    c.case("65536 bytes, the first line misspelt", [(1, b"x"), *of_length(65_535)], 800, (9, 0))
    c.case("65536 line feeds", [(65_536, b"\n")], 800, (9, 0))
    c.case("65537 line feeds", [(65_537, b"\n")], 800, (8, 0))
    c.case("65536 digits", [(65_536, b"1")], 800, (9, 0))
    c.case("65536 commas behind a kind", [(1, b"1"), (65_534, b","), (1, b"\n")], 800, (9, 0))
    c.case("65536 bytes, 801 lines and more", [(21_845, b"21\n"), (1, b"\n")], 800, (10, 800))
    c.case("65536 bytes, the last line open", [(799, b"21\n"), (63_139, b"1")], 800, (9, 799))


def drawn_texts(c, count):
    seen, number = {}, 0
    while sum(seen.values()) < count:
        rng = random.Random(f"stored texts {number}")
        number += 1
        data, lent = generate.text(rng)
        read = reading.read_text(data, lent)
        refused = read[1] if read[0] == "refused" else 0
        if 20 <= len(data) <= 160 and lent <= 801 and seen.get(refused, 0) < count // 3:
            seen[refused] = seen.get(refused, 0) + 1
            c.case(f"drawn {number - 1}", data, lent)


def main(folder):
    rows, texts = Rows(), Texts()
    for part in (kinds, bounds, tails, shapes, absent, repeats, order):
        part(rows)
    drawn_rows(rows, 80)
    for part in (lines, numbers, text_order, sizes):
        part(texts)
    drawn_texts(texts, 60)
    listing.write(folder, "cases", rows.cases + texts.cases, most=None)
    print(f"{len(rows.cases)} cases of rows, {len(texts.cases)} of texts")


if __name__ == "__main__":
    main(sys.argv[1] if len(sys.argv) > 1 else listing.folder_of("replay_sheets"))
