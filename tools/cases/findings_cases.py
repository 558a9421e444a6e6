#!/usr/bin/env python3
"""Makes the stored list of sheets with the reference's findings.

    findings_cases.py [FOLDER]            the list anew
    findings_cases.py --keep [FOLDER]     the stored sheets as they are, with the answers of today's reference; prints the cases whose
                                          answers changed. A sheet of findings_named.py, or for the order of check 5, that is not stored yet is added at the end

The findings are those of the reference, compiled unchanged; the refusals 1 to 6 and the room (7) are those of the second
reading of the rules. For the sheets of findings_named.py the findings were written down by hand too, and the reference
is held to them. The same run gives the same files. After a change of a rule --keep is the one to use: the sheets of the whole
list are drawn by what the reference finds in them, so that anew other sheets are drawn.
"""
import os
import random
import sys

import listing

import answering
import generate
import reading
from findings_named import LATER, NAMED
from generate import flat, row
from reading import CAP, NONE, bits_of

SEVERITY = {1: 80, 2: 90, 3: 95, 4: 85, 5: 70, 6: 95, 7: 75, 8: 75, 9: 95, 10: 90, 11: 90}
ROOM = 8000
ORDERED = 44  # sheets for the order of check 5's lines


def numbers_of(lines):
    """Rows from lines as in the rules' text."""
    rows = [[NONE if x == "" else int(x) for x in line.split(",")] for line in lines]
    return flat([r + [0] * (10 - len(r)) for r in rows])


class Calls:
    """Cases of the call, whose answers are asked for all at once."""

    def __init__(self):
        self.asked = []

    def case(self, remark, numbers, room=ROOM, expected=None):
        self.asked.append((remark, numbers, room, expected))

    def cases(self):
        found = answering.answers([" ".join(map(str, ["check", room, *numbers])) for _, numbers, room, _ in self.asked])
        for (remark, numbers, room, expected), answer in zip(self.asked, found, strict=True):
            if expected is not None and answer != expected:
                raise SystemExit(f"{remark}: {answer}, expected {expected}")
            word, number, *rest = answer.split()
            assert word in ("accepted", "refused") and len(numbers) <= 8200, (remark, answer)
            findings = [[int(x) for x in f.split(",")] for f in rest] if word == "accepted" else []
            judged = [room, 0, int(number)] if word == "accepted" else [room, int(number), int(rest[0])]
            yield listing.case(remark, listing.rows(numbers), listing.expected(findings), listing.line("C", judged))


def said(findings):
    """The answer for findings written as CHECK.TYPE.ENTITY."""
    lines = []
    for f in findings.split():
        check, kind, entity = map(int, f.split("."))
        lines.append(f"{check},{kind},{entity},{SEVERITY[kind]}")
    return " ".join(["accepted", str(len(lines)), *lines])


def named(c, sheets):
    for remark, lines, findings in sheets:
        c.case(remark, numbers_of(lines), expected=said(findings))


def rooms(c):
    """Refusal 7: whole fours."""
    for remark, lines, findings in NAMED:
        count = len(findings.split())
        if count in (1, 3) and len(c.asked) % 7 == 0 or remark in ("nothing", "all well", "one of each check"):
            numbers = numbers_of(lines)
            for room in sorted({0, 3, 4 * count - 1, 4 * count, 4 * count + 3} - {-1}):
                fine = room // 4 >= count
                c.case(f"{remark}: room for {room} numbers", numbers, room, said(findings) if fine else "refused 7 0")


def refusals(c):
    """The refusals before any finding, and in their order."""
    late = numbers_of(["1,1,5,", "2,10,1,0,0,10,0,0,", "24,10,1,0,10"])  # would have a finding
    c.case("1: nine numbers", late[:-1], expected="refused 1 0")
    c.case("1: 8,010 numbers", flat([row(21)] * 801), expected="refused 1 0")
    c.case("2: kind 25", late + [25] + [0] * 9, expected="refused 2 3")
    c.case("2: kind 0, no room", late + [0] * 10, 0, "refused 2 3")
    c.case("3: a tail number", late + row(21)[:-1] + [1], expected="refused 3 3")
    c.case("3: half a part", late + row(23, 10, 1, 5, 0, 1, 0, 1, NONE), expected="refused 3 3")
    c.case("4: an absent owner", late + row(12, 5, 3), expected="refused 4 3")
    c.case("5: a repeated id", late + row(1, 1, NONE, NONE), expected="refused 5 3")
    slow = [row(9, 20, r, bits_of(2.0**-10)) for r in (1, 2)]
    long = flat([row(2, 20, 1, 0, 0, CAP, 0, 0, NONE), *slow, *[row(23, 20, 1, r, 0, 1, 0, NONE, NONE) for r in (1, 2)]])
    c.case("6: a derived time beyond 2^53", late + long, expected="refused 6 6")
    c.case("6 before 7", late + long, 0, "refused 6 6")
    c.case("5 before 6", late + long + row(1, 1, NONE, NONE), expected="refused 5 8")
    c.case("7: no room", late, 0, "refused 7 0")
    c.case("800 rows, the last with a finding", flat([row(21)] * 799) + row(24, 1, 1, 0, 1), expected="accepted 1 2,9,1,95")
    c.case("800 spans of unknown activities: no room", flat([row(24, 1, 1, 0, 1)] * 800), 3199, "refused 7 0")
    c.case("800 spans of unknown activities", flat([row(24, 1, 1, 0, 1)] * 800), 3200)
    c.case("799 bookings of one resource", flat([row(11, 5, 7, 798)] + [row(23, 9, 9, 5, 0, 10, 0, NONE, NONE)] * 799), expected="accepted 1 5,2,5,90")
    c.case("799 bookings it can hold", flat([row(11, 5, 7, 799)] + [row(23, 9, 9, 5, 0, 10, 0, NONE, NONE)] * 799), expected="accepted 0")
    c.case("40 members that overlap", flat([row(20, 5), row(11, 5, 7, 9), *[row(22, 0, 8)] * 40, row(23, 8, 9, 5, 0, 10, 0, NONE, NONE)]))
    number = 0
    while number < 24:  # broken copies, whatever they are refused by
        rng = random.Random(f"stored damage {len(c.asked)} {number}")
        numbers = generate.damage(rng, flat(rng.choice([generate.small, generate.parted, generate.meeting, generate.resumable])(rng)))
        if len(numbers) <= 300:
            c.case(f"damaged {number}", numbers, generate.room(rng))
        number += 1


# How many of each shape, and how many rows at most.
DRAWN = [(generate.small, 30, 40), (generate.middle, 12, 90), (generate.day, 22, 80), (generate.resumable, 24, 40), (generate.parted, 26, 40),
         (generate.spread, 12, 40), (generate.stretched, 6, 30), (generate.meeting, 26, 60), (generate.week, 5, 240), (generate.full, 1, 800), (generate.crowd, 1, 300)]


def pairs_of(answer):
    return {tuple(f.split(",")[:2]) for f in answer.split()[2:]} if answer.startswith("accepted") else {(answer,)}


def drawn(c):
    """Sheets of the generator's shapes; of each shape those first that have what others have not."""
    seen = {}
    for shape, count, most in DRAWN:
        pool = []
        for number in range(3 * count if most > 100 else 12 * count):
            rng = random.Random(f"stored {shape.__name__} {number}")
            numbers = flat(shape(rng))
            if len(numbers) <= most * 10 and reading.refused_1_to_5(numbers) is None:
                pool.append((f"{shape.__name__} {number}", numbers))
        answers = answering.answers([" ".join(map(str, ["check", ROOM, *numbers])) for _, numbers in pool])
        left = [(remark, numbers, pairs_of(answer)) for (remark, numbers), answer in zip(pool, answers)]
        for _ in range(count):
            best = max(left, key=lambda x: (sum(1 / (1 + seen.get(p, 0)) for p in x[2]) / (1 + len(x[1]) / 400)))
            left.remove(best)
            for pair in best[2]:
                seen[pair] = seen.get(pair, 0) + 1
            c.case(best[0], best[1])
    return seen


def shifts(c):
    """Some of the sheets, shifted as far as they go and by one: the same findings."""
    for remark, numbers, room, _ in [x for x in c.asked if reading.refused_1_to_6(x[1]) is None and 50 < len(x[1]) <= 250][::14]:
        instants = [r[k] for r in reading.rows_of(numbers) for kind, k in reading.INSTANTS if r[0] == kind and r[k] != NONE]
        for by in (CAP - max(instants, default=0), 1):
            if not instants or max(instants) + by <= CAP:
                c.case(f"{remark}, shifted by {by}", reading.shifted(numbers, by), room)


def orders_of(numbers, answer):
    """The overloaded resources of a sheet: by the row of the first booking, which is promised; and by id, by the time of
    that booking, by the earliest booking, by the row of the last booking."""
    rows = [r for r in reading.rows_of(numbers) if r[0] == 23]
    over = sorted(int(f.split(",")[2]) for f in answer.split()[2:] if f.startswith("5,"))
    on = {x: [(place, r[4]) for place, r in enumerate(rows) if r[3] == x] for x in over}
    keys = [lambda x: on[x][0][0], lambda x: x, lambda x: on[x][0][1], lambda x: min(t for _, t in on[x]), lambda x: on[x][-1][0]]
    return [sorted(over, key=key) for key in keys]


def ordered():
    """Sheets with three or more overloaded resources of which every other order differs from the promised one."""
    pool = [generate.flat(generate.overloaded(random.Random(f"stored overloaded {number}"))) for number in range(400)]
    found = []
    for number, (numbers, answer) in enumerate(zip(pool, answering.answers([" ".join(map(str, numbers)) for numbers in pool]), strict=True)):
        by_row, *others = orders_of(numbers, answer)
        if len(by_row) >= 3 and by_row not in others and others[0] not in others[1:]:
            found.append((f"overloaded {number}: " + " ".join(map(str, by_row)), numbers))
    return found[:ORDERED]


def stored(folder):
    """The cases that are stored, by file: remark, numbers, room, and the judged line."""
    files = sorted((f for f in os.listdir(folder) if f.startswith("findings-")), key=lambda f: int(f[9:-4]))
    return {f: [(case.remark, case.numbers, judged, case.expected) for _, judged, case in listing.cases_of(os.path.join(folder, f))] for f in files}


def keep(folder):
    files, hand = stored(folder), {remark: (numbers_of(lines), said(findings)) for remark, lines, findings in NAMED + LATER}
    known = {remark for cases in files.values() for remark, *_ in cases}
    added = [(remark, numbers) for remark, (numbers, _) in hand.items()] + ordered()
    files[list(files)[-1]] += [(remark, numbers, [ROOM], None) for remark, numbers in added if remark not in known]
    changed, written = [], []
    for cases in files.values():
        c = Calls()
        for remark, numbers, judged, _ in cases:
            numbers, expected = hand.get(remark, (numbers, None))
            c.case(remark, numbers, judged[0], expected)
        made = list(c.cases())
        for (remark, _, judged, expected), text in zip(cases, made, strict=True):
            lines = [[int(x) for x in line[1:].split(b",")] for line in text.split(b"\n") if line[:1] in (b"e", b"C")]
            if [x for times, *finding in lines[:-1] for x in finding * times] != expected or lines[-1] != judged:
                changed.append(remark)
        written += made
    listing.write(folder, "findings", written)  # all or none: where a sheet stops the run, the next one still lists every change
    print(f"{sum(map(len, files.values()))} cases, {len(changed)} changed or new" + "".join(f"\n  {remark}" for remark in changed))


def main(folder):
    c = Calls()
    named(c, NAMED)
    rooms(c)
    refusals(c)
    seen = drawn(c)
    shifts(c)
    named(c, LATER)
    for remark, numbers in ordered():
        c.case(remark, numbers)
    cases = list(c.cases())
    listing.write(folder, "findings", cases)
    print(f"{len(cases)} cases; drawn, by check and type: " + ", ".join(f"{'.'.join(p)} {n}" for p, n in sorted(seen.items())))


if __name__ == "__main__":
    words = [word for word in sys.argv[1:] if word != "--keep"]
    (keep if "--keep" in sys.argv else main)(words[0] if words else listing.folder_of("replay_findings"))
