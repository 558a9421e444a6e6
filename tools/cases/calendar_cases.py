#!/usr/bin/env python3
"""Makes the stored list of questions about calendar time with their answers.

    calendar_cases.py [FOLDER]

The same run gives the same file. Every answer is worked out from the rules' "Calendar time" by arithmetic on lists of intervals (sort, merge,
cut), and every case whose numbers are small a second time by plain sets of milliseconds; the two must agree. Neither steps from one
start or end to the next, as the library does. Examples G to L stand first and are written down by hand, as are the named cases' answers.
"""
import random
import sys

import listing

MOST = 2**64 - 1
END = 4_000_000_000_000
FOREVER = 10**30
FITS, WORKS, JOINT, AVAILABLE, WORK_END, END_FROM = 1, 2, 3, 4, 5, 6


# ---- by lists of intervals

def merged(pairs):
    out = []
    for s, e in sorted(p for p in pairs if p[0] < p[1]):
        if out and s <= out[-1][1]:
            out[-1] = (out[-1][0], max(e, out[-1][1]))
        else:
            out.append((s, e))
    return out


def without(base, holes):
    out = []
    for s, e in base:
        for hs, he in holes:
            if he <= s or e <= hs:
                continue
            if s < hs:
                out.append((s, hs))
            s = max(s, he)
        if s < e:
            out.append((s, e))
    return out


def both(a, b):
    return merged([(max(s, u), min(e, v)) for s, e in a for u, v in b])


def working(calendar):
    opened = [(s, e) for c, s, e in calendar if c == 0]
    base = merged(opened) if opened else [(0, FOREVER)]
    return without(base, merged([(s, e) for c, s, e in calendar if c == 1]))


def joint(calendars):
    out = [(0, FOREVER)]
    for c in calendars:
        out = both(out, working(c))
    return out


def holds(intervals, t):
    return any(s <= t < e for s, e in intervals)


def measure(intervals, a, b):
    return sum(max(0, min(e, b) - max(s, a)) for s, e in intervals)


def end_of(intervals, t, work):
    if work == 0:
        return t
    for s, e in intervals:
        s = max(s, t)
        if s < e:
            if work <= e - s:
                return s + work
            work -= e - s
    return None


# ---- by sets of milliseconds

def set_of(calendar, top):
    opened = [range(s, e) for c, s, e in calendar if c == 0]
    base = set().union(*opened) if opened else set(range(top))
    return base - set().union(*[range(s, e) for c, s, e in calendar if c == 1])


def joint_set(calendars, top):
    out = set(range(top))
    for c in calendars:
        out &= set_of(c, top)
    return out


def end_in(instants, t, work, top):
    passed = 0
    for u in range(t, top + 1):
        if passed == work:
            return u
        passed += u in instants
    return None


# ---- a question

def windows(numbers):
    return [tuple(numbers[3 * i:3 * i + 3]) for i in range(len(numbers) // 3)]


def calendars(numbers, places):
    w = windows(numbers)
    return [w[places[2 * j]:places[2 * j + 1]] for j in range(len(places) // 2)]


def told(end):
    return "never" if end is None else str(end) if end <= MOST else "beyond"


def fits(calendar, a, e):
    opened = [(s, f) for c, s, f in calendar if c == 0]
    inside = not opened or any(s <= a and e <= f for s, f in opened)
    return inside and not any(a < f and s < e for c, s, f in calendar if c == 1)


def answer(kind, numbers, places, x, y, z):
    cals = calendars(numbers, places)
    one = cals[0] if cals else windows(numbers)[0:0]
    if kind == FITS:
        return "yes" if fits(one, x, y) else "no"
    if kind == WORKS:
        return "yes" if holds(working(one), x) else "no"
    j = joint(cals)
    if kind == JOINT:
        return "yes" if holds(j, x) else "no"
    if kind == AVAILABLE:
        return str(measure(j, x, y))
    if kind == WORK_END:
        return told(end_of(j, x, 0 if y == 1 else z)) if holds(j, x) else "pause"
    return told(end_of(j, x, y))


def answer_by_sets(kind, numbers, places, x, y, z):
    top = max(numbers + [x, y, z]) * 2 + 2 + x + y + z
    cals = calendars(numbers, places)
    if kind == WORKS:
        return "yes" if x in set_of(cals[0] if cals else [], top) else "no"
    j = joint_set(cals, top)
    if kind == JOINT:
        return "yes" if x in j else "no"
    if kind == AVAILABLE:
        return str(sum(u in j for u in range(x, y)))
    if kind == WORK_END:
        return told(end_in(j, x, 0 if y == 1 else z, top)) if x in j else "pause"
    return told(end_in(j, x, y, top))


CASES = []
OUTCOMES = {"pause": 1, "never": 2, "beyond": 3}


def spelled(x):
    """A number of 64 bits, the last four as -4 to -1."""
    assert x < 2**63 or MOST - x < 4
    return x if x < 2**63 else x - MOST - 1


def judged(kind, places, x, y, z, got):
    """The line that has a question judged: what it asks and the answer, then the places."""
    x, yes = spelled(x), int(got == "yes")
    end = [OUTCOMES[got], 0] if got in OUTCOMES else [0, spelled(int(got))] if got.isdigit() else []
    letter, numbers = {
        FITS: ("F", [x, spelled(y), yes]),
        WORKS: ("W", [x, yes]),
        JOINT: ("J", [x, yes]),
        AVAILABLE: ("A", [x, spelled(y), *end[1:]]),
        WORK_END: ("E", [x, -z if y == 1 else z, *end]),
        END_FROM: ("B", [x, spelled(y), *end]),
    }[kind]
    return listing.line(letter, numbers + places)


def group(name):
    """The name of the cases to come; a case is told by it and its number among them."""
    global named
    named = [name, 0]


def case(kind, numbers, places, x, y=0, z=0, expected=None):
    numbers = [n for part in numbers for n in (part if isinstance(part, tuple) else (part,))]
    got = answer(kind, numbers, places, x, y, z)
    if kind != FITS and max(numbers + [x, y, z]) < 200:
        assert got == answer_by_sets(kind, numbers, places, x, y, z), (kind, numbers, places, x, y, z)
    assert expected is None or got == str(expected), (kind, numbers, places, x, y, z, got, expected)
    named[1] += 1
    windows = [listing.line("n", [1, *map(spelled, numbers[at : at + 3])]) for at in range(0, len(numbers), 3)]
    CASES.append(listing.case(" ".join(map(str, named)), *windows, judged(kind, places, x, y, z, got)))


def ends(numbers, places, start, work, expected=None):
    case(WORK_END, numbers, places, start, 1 if work < 0 else 0, abs(work), expected)


# ---- the rules' examples, then named cases

def examples():
    shut, two = [(1, 5, 5)], [(0, 0, 10), (0, 20, 30)]
    case(FITS, shut, [0, 1], 0, 10, expected="no")
    case(FITS, shut, [0, 1], 5, 10, expected="yes")
    ends(two, [0, 2], 5, 5, 10)
    ends(two, [0, 2], 5, 15, 30)
    ends(two, [0, 2], 5, 16, "never")
    ends(two, [0, 2], 10, 0, "pause")


def named_fits():
    adjacent, nested = [(0, 0, 10), (0, 10, 20)], [(0, 0, 30), (0, 10, 20)]
    case(FITS, adjacent, [0, 2], 5, 15, expected="no")
    case(FITS, adjacent, [0, 2], 0, 10, expected="yes")
    case(FITS, adjacent, [0, 2], 10, 20, expected="yes")
    case(FITS, nested, [0, 2], 5, 25, expected="yes")
    case(FITS, nested, [1, 2], 5, 25, expected="no")
    case(FITS, [(0, 0, 12), (0, 8, 20)], [0, 2], 5, 15, expected="no")
    case(FITS, [], [0, 0], 3, 9, expected="yes")
    case(FITS, [(0, 7, 7)], [0, 1], 7, 7, expected="yes")
    case(FITS, [(0, 7, 7)], [0, 1], 7, 8, expected="no")
    case(FITS, [(0, 9, 3)], [0, 1], 4, 5, expected="no")
    case(FITS, [(0, 9, 3)], [0, 1], 10, 2, expected="yes")
    case(FITS, [(0, 0, 10)], [0, 1], 9, 1, expected="yes")
    case(FITS, [(0, 0, 20), (1, 5, 5)], [0, 2], 0, 10, expected="no")
    case(FITS, [(0, 0, 20), (1, 5, 5)], [0, 2], 0, 5, expected="yes")
    case(FITS, [(1, 9, 3)], [0, 1], 0, 10, expected="no")
    case(FITS, [(1, 9, 3)], [0, 1], 3, 10, expected="yes")
    case(FITS, [(1, 9, 3)], [0, 1], 0, 9, expected="yes")
    case(FITS, [(1, 5, 8)], [0, 1], 0, 5, expected="yes")
    case(FITS, [(1, 5, 8)], [0, 1], 8, 12, expected="yes")
    case(FITS, [(1, 5, 8)], [0, 1], 0, 6, expected="no")
    case(FITS, [(1, 5, 8)], [0, 1], 7, 12, expected="no")
    case(FITS, [(1, 0, 3)], [0, 1], 0, 3, expected="no")
    case(FITS, [(0, 0, END), (1, 0, 1)], [0, 2], 1, END, expected="yes")
    case(FITS, [(0, 0, END), (1, END - 1, END)], [0, 2], 1, END, expected="no")
    case(FITS, [(0, 0, END)], [0, 1], 0, END, expected="yes")
    case(FITS, [(2, 0, 3), 1, 2], [0, 9], 1, 2, expected="yes")


def named_working():
    case(WORKS, [(0, 5, 8)], [0, 1], 5, expected="yes")
    case(WORKS, [(0, 5, 8)], [0, 1], 4, expected="no")
    case(WORKS, [(0, 5, 8)], [0, 1], 7, expected="yes")
    case(WORKS, [(0, 5, 8)], [0, 1], 8, expected="no")
    case(WORKS, [(1, 5, 8)], [0, 1], 5, expected="no")
    case(WORKS, [(1, 5, 8)], [0, 1], 4, expected="yes")
    case(WORKS, [(1, 5, 8)], [0, 1], 7, expected="no")
    case(WORKS, [(1, 5, 8)], [0, 1], 8, expected="yes")
    case(WORKS, [(0, 6, 6)], [0, 1], 6, expected="no")
    case(WORKS, [(0, 8, 5)], [0, 1], 6, expected="no")
    case(WORKS, [(1, 6, 6)], [0, 1], 6, expected="yes")
    case(WORKS, [(1, 8, 5)], [0, 1], 6, expected="yes")
    case(WORKS, [], [0, 0], 0, expected="yes")
    case(WORKS, [(0, 0, 1)], [1, 0], 5, expected="yes")
    case(WORKS, [(0, 0, 1)], [4, 9], 5, expected="yes")
    case(WORKS, [(0, 0, 1)], [0, 9], 5, expected="no")
    case(WORKS, [(0, 0, END)], [0, 1], END, expected="no")
    case(WORKS, [(0, 0, END)], [0, 1], END - 1, expected="yes")
    case(WORKS, [(1, 0, END)], [0, 1], END, expected="yes")
    case(JOINT, [], [], 7, expected="yes")
    case(JOINT, [(0, 0, 9), (0, 5, 12)], [0, 1, 1, 2], 4, expected="no")
    case(JOINT, [(0, 0, 9), (0, 5, 12)], [0, 1, 1, 2], 5, expected="yes")
    case(JOINT, [(0, 0, 9), (0, 5, 12)], [0, 1, 1, 2], 9, expected="no")
    case(JOINT, [(0, 0, 9), (0, 5, 12)], [0, 2], 9, expected="yes")
    case(JOINT, [(0, 0, 9), (1, 5, 12)], [0, 1, 1, 2], 8, expected="no")
    case(JOINT, [(0, 0, 9), (0, 20, 30)], [0, 1, 1, 2, 0], 3, expected="no")
    case(JOINT, [(0, 0, 9), (0, 20, 30)], [0, 1, 1], 3, expected="yes")


def named_available():
    two, shut = [(0, 0, 10), (0, 20, 30)], [(1, 0, 4), (1, 8, 12)]
    case(AVAILABLE, two, [0, 2], 5, 25, expected=10)
    case(AVAILABLE, two, [0, 2], 0, 30, expected=20)
    case(AVAILABLE, two, [0, 2], 10, 20, expected=0)
    case(AVAILABLE, two, [0, 2], 25, 5, expected=0)
    case(AVAILABLE, two, [0, 2], 7, 7, expected=0)
    case(AVAILABLE, shut, [0, 2], 0, 12, expected=4)
    case(AVAILABLE, shut, [0, 2], 3, 13, expected=5)
    case(AVAILABLE, two + [(1, 5, 25)], [0, 3], 0, 40, expected=10)
    case(AVAILABLE, two + [(1, 0, 10), (1, 29, 30)], [0, 4], 0, 40, expected=9)
    case(AVAILABLE, [(0, 0, 20), (0, 5, 10), (0, 10, 15)], [0, 3], 0, 40, expected=20)
    case(AVAILABLE, [(0, 0, 8), (0, 4, 12), (0, 12, 14)], [0, 3], 2, 13, expected=11)
    case(AVAILABLE, [(0, 5, 5), (0, 9, 2)], [0, 2], 0, 40, expected=0)
    case(AVAILABLE, [], [], 3, 40, expected=37)
    case(AVAILABLE, [(0, 0, 9), (0, 5, 12)], [0, 1, 1, 2], 0, 40, expected=4)
    case(AVAILABLE, [(0, 0, 9), (0, 5, 12), (1, 6, 7)], [0, 1, 1, 2, 2, 3], 0, 40, expected=3)
    case(AVAILABLE, [(0, 0, END)], [0, 1], 0, END, expected=END)
    case(AVAILABLE, [(0, 0, END), (1, END - 1, END)], [0, 2], 0, END, expected=END - 1)
    case(AVAILABLE, [(1, 0, 1)], [0, 1], 0, MOST, expected=MOST - 1)


def named_ends():
    two, day = [(0, 0, 10), (0, 20, 30)], [(0, 8, 16), (1, 12, 13)]
    for work, expected in [(0, 5), (1, 6), (4, 9), (5, 10), (6, 21), (14, 29), (15, 30), (16, "never"), (-1, 5), (-END, 5), (END, "never")]:
        ends(two, [0, 2], 5, work, expected)
    for start in (10, 11, 19, 30, 31):
        for work in (-1, 0, 1, 10):
            ends(two, [0, 2], start, work, "pause")
    for work, expected in [(0, 8), (1, 9), (4, 12), (5, 14), (6, 15), (7, 16), (8, "never")]:
        ends(day, [0, 2], 8, work, expected)
    ends(day, [0, 2], 12, 1, "pause")
    ends(day, [0, 2], 13, 3, 16)
    ends(day, [0, 2], 13, 4, "never")
    ends([(0, 0, 10), (0, 10, 20)], [0, 2], 5, 15, 20)
    ends([(0, 0, 10), (0, 10, 20)], [0, 2], 5, 16, "never")
    ends([(0, 10, 20), (0, 0, 10)], [0, 2], 5, 15, 20)
    ends([(0, 0, 30), (0, 10, 20)], [0, 2], 5, 25, 30)
    ends([(0, 0, 12), (0, 8, 20)], [0, 2], 5, 15, 20)
    ends([(1, 0, 5)], [0, 1], 0, 1, "pause")
    ends([(1, 0, 5)], [0, 1], 5, 7, 12)
    ends([(1, 5, 8)], [0, 1], 0, 5, 5)
    ends([(1, 5, 8)], [0, 1], 0, 6, 9)
    ends([(1, 5, 5)], [0, 1], 0, 6, 6)
    ends([(1, 8, 5)], [0, 1], 0, 6, 6)
    ends([(0, 5, 5)], [0, 1], 5, 0, "pause")
    ends([(0, 8, 5)], [0, 1], 6, 0, "pause")
    ends([(0, 0, 9), (0, 5, 12)], [0, 1, 1, 2], 5, 4, 9)
    ends([(0, 0, 9), (0, 5, 12)], [0, 1, 1, 2], 5, 5, "never")
    ends([], [], 0, END, END)
    ends([], [], END, END, 2 * END)
    ends([], [], 0, -END, 0)
    ends([(0, 0, END)], [0, 1], 0, END, END)
    ends([(0, 0, END)], [0, 1], 1, END, "never")
    ends([(0, 0, END)], [0, 1], END, 0, "pause")
    ends([(1, 0, END)], [0, 1], END, END, 2 * END)
    ends([(1, 0, END - 1), (0, 0, END)], [0, 2], END - 1, 1, END)
    ends([(1, 0, END - 1), (0, 0, END)], [0, 2], END - 1, 2, "never")
    ends([], [], MOST - 3, 3, MOST)
    ends([], [], MOST - 3, 4, "beyond")
    ends([], [], MOST, 0, MOST)
    ends([(0, 5, MOST)], [0, 1], MOST - 3, 4, "never")
    for start, work, expected in [(10, 0, 10), (10, 1, 21), (19, 10, 30), (19, 11, "never"), (30, 1, "never"), (0, 20, 30)]:
        case(END_FROM, two, [0, 2], start, work, expected=expected)
    case(END_FROM, [(1, 5, MOST)], [0, 1], 7, 1, expected="beyond")
    case(END_FROM, [], [], MOST, 1, expected="beyond")


# ---- made at random, small and large

def made(r, instant, many):
    numbers = []
    for _ in range(r.randrange(many)):
        s, e = instant(), instant()
        if r.random() < 0.7 and s > e:
            s, e = e, s
        numbers += [r.choice([0, 0, 0, 1, 1, 2]) if r.random() < 0.1 else r.choice([0, 0, 1]), s, e]
    n = len(numbers) // 3
    if r.random() < 0.1:
        numbers.append(instant())
    places = []
    for _ in range(r.choice([1, 1, 1, 2, 2, 3])):
        a, b = r.randrange(n + 2), r.randrange(n + 2)
        places += [0, n] if r.random() < 0.4 else [a, b] if r.random() < 0.2 else [min(a, b), max(a, b)]
    if r.random() < 0.1:
        places.append(r.randrange(4))
    return numbers, places


def at_random(r, instant, amount, many, rounds):
    for _ in range(rounds):
        numbers, places = made(r, instant, many)
        near = lambda: r.choice(numbers) if numbers and r.random() < 0.5 else instant()
        case(FITS, numbers, places[0:2], near(), near())
        case(WORKS, numbers, places[0:2], near())
        case(JOINT, numbers, places, near())
        case(AVAILABLE, numbers, places, near(), near())
        start = near()
        left = measure(joint(calendars(numbers, places)), start, max(numbers + [start]))
        for work in r.sample([0, 1, left, left + 1, max(left - 1, 0), -1, amount(), -amount()], 3):
            ends(numbers, places, start, work)
        case(END_FROM, numbers, places, near(), r.choice([0, 1, left, left + 1, amount()]))


def main(folder):
    for name, make in [("example", examples), ("fits", named_fits), ("working", named_working), ("available", named_available), ("ends", named_ends)]:
        group(name)
        make()
    r = random.Random(20261115)
    group("small")
    at_random(r, lambda: r.randrange(40), lambda: r.randrange(60), 9, 45)
    group("large")
    at_random(r, lambda: r.randrange(END + 1) if r.random() < 0.9 else r.choice([0, END]), lambda: r.randrange(END + 1), 9, 15)
    listing.write(folder, "cases", CASES, None)
    print(len(CASES), "cases of calendar time")


if __name__ == "__main__":
    main(sys.argv[1] if len(sys.argv) > 1 else listing.folder_of("replay_calendar"))
