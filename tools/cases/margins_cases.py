#!/usr/bin/env python3
"""Makes the stored list of sheets with their margins (request Q-2).

    margins_cases.py [FOLDER]

The answers are those of the second reading (../differential/margins.py), held to the reference's own figures and findings. For the named
sheets the lines were written down by hand too, as the program prints them, and the reading is held to them. The same run
gives the same files.
"""
import random
import sys

import listing

import answering
import generate
import margins
import reading
from findings_cases import numbers_of
from generate import flat, row
from reading import CAP, NONE, bits_of

ROOM = 2400
DRAWN = 50

# Activity 10 of task 1 takes one unit of resource 5.
SHOP = ["1,1,100,", "2,10,1,0,0,60,0,0,", "5,10,7,1,1", "11,5,7,1"]
ALONE = ["1,1,100,", "2,10,1,0,0,60,0,0,"]  # holds no resource
OUTSIDE = "23,99,99,5,0,10,0,,"  # an external booking of resource 5


def outside(start, end, resource=5):
    return f"23,99,99,{resource},{start},{end},0,,"


TASKS = [
    ("nothing", [], ""),
    ("the rules' example: late by 10", SHOP + ["23,10,1,5,50,110,0,,"], "task,1,-10 resource,5,0"),
    ("late by 1", SHOP + ["23,10,1,5,41,101,0,,"], "task,1,-1 resource,5,0"),
    ("at the deadline: 0", SHOP + ["23,10,1,5,40,100,0,,"], "task,1,0 resource,5,0"),
    ("early by 1", SHOP + ["23,10,1,5,39,99,0,,"], "task,1,1 resource,5,0"),
    ("as late as can be", ["1,1,0,", f"24,10,1,0,{CAP}"], f"task,1,-{CAP}"),
    ("as late as can be but 1", ["1,1,1,", f"24,10,1,0,{CAP}"], f"task,1,-{CAP - 1}"),
    ("as early as can be", [f"1,1,{CAP},", "24,10,1,0,0"], f"task,1,{CAP}"),
    ("as early as can be but 1", [f"1,1,{CAP},", "24,10,1,0,1"], f"task,1,{CAP - 1}"),
    ("as early and as late as can be, booked", ["1,1,0,", f"1,2,{CAP},", f"23,10,1,5,0,{CAP},0,,", "23,10,2,5,0,0,0,,"], f"task,1,-{CAP} task,2,{CAP} resource,5,0"),
    ("deadline and completion 0", ["1,1,0,", "24,10,1,0,0"], "task,1,0"),
    ("deadline and completion at the last instant", [f"1,1,{CAP},", f"24,10,1,0,{CAP}"], "task,1,0"),
    ("no deadline: no line", ["1,1,,", *SHOP[1:], "23,10,1,5,50,110,0,,"], "resource,5,0"),
    ("no completion: no line", SHOP, ""),
    ("neither", ["1,1,,"], ""),
    ("a task without an activity, never booked", ["1,1,0,"], ""),
    ("three tasks, the middle one without a completion", ["1,1,5,", "1,2,5,", "1,3,5,", "24,10,3,0,5", "24,10,1,0,6"], "task,1,-1 task,3,0"),
    ("three tasks, the middle one without a deadline", ["1,1,5,", "1,2,,", "1,3,5,", "24,10,3,0,5", "24,10,2,0,9", "24,10,1,0,6"], "task,1,-1 task,3,0"),
    ("a release after the deadline is not asked", ["1,1,5,50", "24,10,1,60,70"], "task,1,-65"),
    ("only a time-only span", ALONE + ["24,10,1,0,60"], "task,1,40"),
    ("the later of two spans", ALONE + ["24,10,1,0,120", "24,10,1,0,60"], "task,1,-20"),
    ("a booking, then a later span", SHOP + ["23,10,1,5,0,60,0,,", "24,10,1,0,70"], "task,1,30 resource,5,0"),
    ("a span, then a later booking", SHOP + ["24,10,1,0,60", "23,10,1,5,0,70,0,,"], "task,1,30 resource,5,0"),
    ("an earlier span after a later booking", SHOP + ["23,10,1,5,0,70,0,,", "24,10,1,0,60"], "task,1,30 resource,5,0"),
    ("the latest of three bookings is the middle one", SHOP + ["23,10,1,5,0,10,0,,", "23,10,1,5,20,90,0,,", "23,10,1,5,10,20,0,,"], "task,1,10 resource,5,0"),
    ("the latest end, not the end of the latest start", SHOP + ["23,10,1,5,0,90,0,,", "23,10,1,5,90,80,0,,"], "task,1,10 resource,5,0"),
    ("a booking that ends before it starts completes at its end", SHOP + ["23,10,1,5,90,30,0,,"], "task,1,70 resource,5,1"),
    ("a span that ends before it starts completes at its end", ALONE + ["24,10,1,90,30"], "task,1,70"),
    ("parts: the latest", SHOP + ["4,10,2,0,0", "23,10,1,5,70,101,0,1,30", "23,10,1,5,0,30,0,0,30"], "task,1,-1 resource,5,0"),
    ("a booking completes the task that it names, not its activity's", SHOP + ["1,2,100,", "23,10,2,5,0,60,0,,"], "task,2,40 resource,5,0"),
    ("a span does so too", ALONE + ["1,2,100,", "24,10,2,0,60"], "task,2,40"),
    ("an unknown activity completes its task", SHOP + ["23,77,1,5,0,60,0,,"], "task,1,40 resource,5,0"),
    ("a span of an unknown activity does so too", ["1,1,100,", "24,77,1,0,60"], "task,1,40"),
    ("a booking under an unknown task completes none", SHOP + ["23,10,2,5,0,60,0,,"], "resource,5,0"),
    ("an external booking completes none", SHOP + ["23,77,2,5,0,60,0,,"], "resource,5,0"),
    ("equal deadlines: in the order of the rows, not by id", ["1,9,50,", "1,3,50,", "1,5,50,", "24,1,3,0,50", "24,1,5,0,50", "24,1,9,0,50"], "task,9,0 task,3,0 task,5,0"),
    ("in the order of the rows, not by deadline or margin", ["1,4,90,", "1,8,10,", "1,2,50,", "24,1,2,0,50", "24,1,8,0,20", "24,1,4,0,1"], "task,4,89 task,8,-10 task,2,0"),
    ("tasks stand after what is booked", ["24,10,2,0,7", "23,10,1,5,0,8,0,,", "1,2,7,", "1,1,7,"], "task,2,0 task,1,-1 resource,5,0"),
    ("id 0 and the last id", ["1,999999999,5,", "1,0,5,", "23,1,0,999999999,0,6,0,,", "23,1,999999999,0,0,4,0,,"], "task,999999999,1 task,0,-1 resource,999999999,0 resource,0,0"),
    ("a task, an activity and a resource of one id", ["1,5,9,", "2,5,5,0,0,1,0,0,", "11,5,7,2", "23,5,5,5,0,9,0,,"], "task,5,0 resource,5,1"),
]

RESOURCES = [
    ("full: 0", ["11,5,7,1", OUTSIDE], "resource,5,0"),
    ("two left", ["11,5,7,3", OUTSIDE], "resource,5,2"),
    ("one over", ["11,5,7,1", OUTSIDE, OUTSIDE], "resource,5,-1"),
    ("exactly full with three", ["11,5,7,3", OUTSIDE, OUTSIDE, OUTSIDE], "resource,5,0"),
    ("not booked: no line", ["11,5,7,3", "11,6,7,3", "18,6,0", outside(0, 10)], "resource,5,2"),
    ("unknown: limit 1", [OUTSIDE], "resource,5,0"),
    ("unknown, twice at once", [OUTSIDE, OUTSIDE], "resource,5,-1"),
    ("capacity 0 is 1", ["11,5,7,0", OUTSIDE], "resource,5,0"),
    ("capacity -4 is 1", ["11,5,7,-4", OUTSIDE], "resource,5,0"),
    ("capacity 0 is 1 without load too", ["11,5,7,0", outside(5, 5)], "resource,5,1"),
    ("end to start: not both", ["11,5,7,1", outside(0, 10), outside(10, 20)], "resource,5,0"),
    ("both for one ms", ["11,5,7,1", outside(0, 11), outside(10, 20)], "resource,5,-1"),
    ("three that never meet at once", ["11,5,7,2", outside(0, 10), outside(5, 15), outside(10, 20)], "resource,5,0"),
    ("the peak is in the middle", ["11,5,7,2", outside(0, 30), outside(10, 12), outside(11, 20), outside(25, 40)], "resource,5,-1"),
    ("the peak is at the first row's start", ["11,5,7,2", outside(20, 30), outside(0, 30), outside(10, 25)], "resource,5,-1"),
    ("at the last instant nothing is held", ["11,5,7,1", outside(0, CAP), outside(CAP, CAP)], "resource,5,0"),
    ("a booking of no time adds no load", ["11,5,7,1", outside(5, 5)], "resource,5,1"),
    ("a reversed booking adds no load", ["11,5,7,1", outside(9, 2)], "resource,5,1"),
    ("a booking of no time within another", ["11,5,7,1", outside(0, 10), outside(5, 5)], "resource,5,0"),
    ("a time-only span loads nothing", ALONE + ["11,5,7,1", "24,10,1,0,10", outside(0, 10)], "task,1,90 resource,5,0"),
    ("a window and a no-overlap change no limit", ["11,5,7,2", "15,5,1,0,10", "20,5", OUTSIDE], "resource,5,1"),
    ("kind 18 lowers", ["11,5,7,5", "18,5,2", OUTSIDE], "resource,5,1"),
    ("kind 18 never raises", ["11,5,7,1", "18,5,5", OUTSIDE], "resource,5,0"),
    ("kind 18 never raises an unknown one", ["18,5,5", OUTSIDE], "resource,5,0"),
    ("the last kind 18, which is higher", ["11,5,7,5", "18,5,1", "18,5,3", OUTSIDE], "resource,5,2"),
    ("the last kind 18, which is lower", ["11,5,7,5", "18,5,3", "18,5,1", OUTSIDE], "resource,5,0"),
    ("the last kind 18 is above the capacity", ["11,5,7,4", "18,5,1", "18,5,9", OUTSIDE], "resource,5,3"),
    ("the last of three, after the booking", ["18,5,0", "11,5,7,5", "18,5,2", OUTSIDE, "18,5,4"], "resource,5,3"),
    ("a last kind 18 of another resource", ["11,5,7,5", "18,5,3", "18,6,1", OUTSIDE], "resource,5,2"),
    ("limit 0", ["11,5,7,5", "18,5,0", OUTSIDE], "resource,5,-1"),
    ("limit 0 without load: 0", ["11,5,7,5", "18,5,0", outside(5, 5)], "resource,5,0"),
    ("a limit below 0 without load", ["11,5,7,5", "18,5,-3", outside(5, 5)], "resource,5,-3"),
    ("an unknown one lowered to 0", ["18,5,0", OUTSIDE], "resource,5,-1"),
    ("an unknown one below 0", ["18,5,-2", OUTSIDE], "resource,5,-3"),
    ("the greatest capacity without load", ["11,5,7,1000000", outside(1, 1)], "resource,5,1000000"),
    ("the lowest limit without load", ["11,5,7,1", "18,5,-1000000", outside(1, 1)], "resource,5,-1000000"),
    # What a booking takes.
    ("the usage of the requirement", SHOP[:2] + ["5,10,7,1,3", "11,5,7,4", "23,10,1,5,0,60,0,,"], "task,1,40 resource,5,1"),
    ("usage 0", SHOP[:2] + ["5,10,7,1,0", "11,5,7,4", "23,10,1,5,0,60,0,,"], "task,1,40 resource,5,4"),
    ("the greatest usage", SHOP[:2] + ["5,10,7,1,1000000", "11,5,7,1", "23,10,1,5,0,60,0,,"], "task,1,40 resource,5,-999999"),
    ("the greatest usage and capacity", SHOP[:2] + ["5,10,7,1,1000000", "11,5,7,1000000", "23,10,1,5,0,60,0,,"], "task,1,40 resource,5,0"),
    ("no requirement: one unit", SHOP[:2] + ["11,5,7,4", "23,10,1,5,0,60,0,,"], "task,1,40 resource,5,3"),
    ("a requirement of another type: one unit", SHOP[:2] + ["5,10,8,1,3", "11,5,7,4", "23,10,1,5,0,60,0,,"], "task,1,40 resource,5,3"),
    ("the first requirement that the type meets", SHOP[:2] + ["5,10,8,1,4", "5,10,7,1,3", "5,10,7,1,2", "11,5,7,4", "23,10,1,5,0,60,0,,"], "task,1,40 resource,5,1"),
    ("listed, whatever its type", SHOP[:2] + ["5,10,8,1,3", "6,10,0,5", "11,5,7,4", "23,10,1,5,0,60,0,,"], "task,1,40 resource,5,1"),
    ("of the type but not listed: one unit", SHOP[:2] + ["5,10,7,1,3", "6,10,0,6", "11,5,7,4", "23,10,1,5,0,60,0,,"], "task,1,40 resource,5,3"),
    ("listed in the second", SHOP[:2] + ["5,10,7,1,3", "6,10,0,6", "5,10,9,1,2", "6,10,1,5", "11,5,7,4", "23,10,1,5,0,60,0,,"], "task,1,40 resource,5,2"),
    ("a skill that it lacks is not asked", SHOP[:2] + ["5,10,7,1,3", "7,10,0,1", "11,5,7,4", "23,10,1,5,0,60,0,,"], "task,1,40 resource,5,1"),
    ("a companion takes one unit", SHOP[:2] + ["5,10,7,1,3", "11,5,7,4", "11,6,8,4", "13,5,6", "23,10,1,5,0,60,0,,", "23,10,1,6,0,60,0,,"], "task,1,40 resource,5,1 resource,6,3"),
    ("an unknown resource takes one unit, listed too", SHOP[:2] + ["5,10,7,1,3", "6,10,0,5", "23,10,1,5,0,60,0,,"], "task,1,40 resource,5,0"),
    ("an external booking takes one unit", SHOP[:2] + ["5,10,7,1,3", "11,5,7,4", OUTSIDE], "resource,5,3"),
    ("under another task: the activity's usage", SHOP[:2] + ["5,10,7,1,3", "11,5,7,4", "23,10,9,5,0,60,0,,"], "resource,5,1"),
    ("usages add up", SHOP[:2] + ["5,10,7,1,3", "11,5,7,4", "23,10,1,5,0,60,0,,", outside(59, 70), outside(60, 70)], "task,1,40 resource,5,0"),
    # The order.
    ("by the row of the first booking, not by id", ["11,2,7,1", "11,9,7,1", outside(0, 1, 9), outside(0, 1, 2), outside(0, 1, 4), outside(1, 2, 9)], "resource,9,0 resource,2,0 resource,4,0"),
    ("not by time", [outside(50, 60, 1), outside(20, 30, 2), outside(0, 10, 3)], "resource,1,0 resource,2,0 resource,3,0"),
    ("not by last booking", [outside(0, 1, 1), outside(0, 1, 2), outside(1, 2, 1)], "resource,1,0 resource,2,0"),
    ("a first booking that adds no load", [outside(9, 9, 8), outside(0, 1, 2), outside(0, 1, 8)], "resource,8,0 resource,2,0"),
    ("not by margin", [outside(0, 1, 3), outside(0, 1, 4), outside(0, 1, 4), outside(3, 3, 5)], "resource,3,0 resource,4,-1 resource,5,1"),
    ("tasks first, though resources are booked above them", [outside(0, 1, 3), "1,7,2,", "23,8,7,2,0,3,0,,"], "task,7,-1 resource,3,0 resource,2,0"),
]


class Calls:
    """Cases of the call. By hand: an answer as `printed` has it, its lines parted by spaces."""

    def __init__(self):
        self.asked = []

    def case(self, remark, numbers, room=ROOM, by_hand=None):
        found = margins.answer(numbers, room)
        if by_hand is not None and " ".join(margins.printed(found)[0].split()) != by_hand:
            raise SystemExit(f"{remark}: {margins.printed(found)[0]}, expected {by_hand}")
        self.asked.append((remark, numbers, room, found))

    def held(self):
        """Every accepted sheet, by the reference."""
        lines = [" ".join(map(str, ["margins", room, *numbers])) for _, numbers, room, _ in self.asked]
        wrong = [fault for _, fault in answering.anchored(lines, answering.build()) if fault]
        if wrong:
            raise SystemExit("\n".join(wrong))

    def cases(self):
        for remark, numbers, room, found in self.asked:
            judged = [room, *found[1:]] if found[0] == "refused" else [room, 0, len(found[1])]
            lines = [list(line) for line in found[1]] if found[0] == "accepted" else []
            yield listing.case(remark, listing.rows(numbers), listing.expected(lines), listing.line("M", judged))


def named(c):
    for remark, lines, by_hand in TASKS + RESOURCES:
        c.case(remark, numbers_of(lines), by_hand=by_hand)


def rooms(c):
    """Refusal 7: whole threes, of margin lines and not of findings."""
    three = numbers_of(["1,1,5,", "23,8,1,4,0,5,0,,", "23,8,1,6,0,5,0,,"])
    by_hand = "task,1,0 resource,4,0 resource,6,0"
    c.case("no line, no room", numbers_of(["1,1,5,"]), 0, "")
    for room in (0, 3, 6, 8):
        c.case(f"three lines, room for {room} numbers", three, room, "refused,7,0")
    for room in (9, 10, 11, 12):
        c.case(f"three lines, room for {room} numbers", three, room, by_hand)
    c.case("one line, room for 2 numbers", numbers_of([OUTSIDE]), 2, "refused,7,0")
    c.case("one line, room for 3 numbers", numbers_of([OUTSIDE]), 3, "resource,5,0")
    c.case("three findings, no line, no room", numbers_of(["24,8,1,0,1", "24,8,1,0,1", "24,8,1,0,1"]), 0, "")
    c.case("three findings, one line, room for 3 numbers", numbers_of(["24,8,1,0,1", "24,8,1,0,1", "24,8,1,0,1", OUTSIDE]), 3, "resource,5,0")


def refusals(c):
    """The check's refusals 1 to 6, in their order, and before 7."""
    late = numbers_of(["1,1,5,", "24,10,1,0,10"])  # has a line
    c.case("late", late, by_hand="task,1,-5")
    c.case("1: nine numbers", late[:-1], by_hand="refused,1,0")
    c.case("1: 8,010 numbers", flat([row(21)] * 801), by_hand="refused,1,0")
    c.case("2: kind 25", late + [25] + [0] * 9, by_hand="refused,2,2")
    c.case("2 before 7", late + [0] * 10, 0, "refused,2,2")
    c.case("3: a deadline beyond the last instant", late + row(1, 2, CAP + 1, NONE), by_hand="refused,3,2")
    c.case("3: a tail number", late + row(21)[:-1] + [1], by_hand="refused,3,2")
    c.case("3: half a part", late + row(23, 10, 1, 5, 0, 1, 0, 1, NONE), by_hand="refused,3,2")
    c.case("4: an absent owner", late + row(12, 5, 3), by_hand="refused,4,2")
    c.case("5: a repeated task", late + row(1, 1, NONE, NONE), by_hand="refused,5,2")
    slow = [row(2, 20, 1, 0, 0, CAP, 0, 0, NONE), *[row(9, 20, r, bits_of(2.0**-10)) for r in (1, 2)], *[row(23, 20, 1, r, 0, 1, 0, NONE, NONE) for r in (1, 2)]]
    c.case("6: a derived time beyond 2^53", late + flat(slow), by_hand="refused,6,5")
    c.case("6 before 7", late + flat(slow), 0, "refused,6,5")
    c.case("5 before 6", late + flat(slow) + row(1, 1, NONE, NONE), by_hand="refused,5,7")
    c.case("7: no room", late, 0, "refused,7,0")


def large(c):
    """As much as 800 rows hold."""
    load = [row(1, 1, NONE, NONE), row(2, 10, 1, 0, 0, 1, 0, 0, NONE), row(5, 10, 7, 1, 1_000_000), row(11, 5, 7, 1), row(18, 5, -1_000_000)]
    c.case("the lowest margin of a resource", flat(load + [row(23, 10, 1, 5, 0, 1, 0, NONE, NONE)] * 795), by_hand="resource,5,-796000000")
    c.case("799 bookings of one resource", flat([row(11, 5, 7, 798)] + [row(23, 9, 9, 5, 0, 10, 0, NONE, NONE)] * 799), by_hand="resource,5,-1")
    c.case("799 bookings it can hold", flat([row(11, 5, 7, 799)] + [row(23, 9, 9, 5, 0, 10, 0, NONE, NONE)] * 799), by_hand="resource,5,0")
    half = flat([row(1, t, t, NONE) for t in range(30)] + [row(23, 1, t, 29 - t, 0, 15, 0, NONE, NONE) for t in range(30)])
    c.case("as many lines as rows", half, 180)
    c.case("as many lines as rows, one number short", half, 179, "refused,7,0")


STANDING = {margins.TASK: ("late", "in time exactly", "early"), margins.RESOURCE: ("over", "full", "with units left")}


def shown(found):
    """What the lines show: how many tasks are late, how many resources full, and so on."""
    parts = []
    for kind, words in STANDING.items():
        signs = [(margin > 0) - (margin < 0) for k, _, margin in found if k == kind]
        counts = [f"{signs.count(sign)} {word}" for sign, word in zip((-1, 0, 1), words) if sign in signs]
        parts += [f"{margins.WORDS[kind]}s " + ", ".join(counts)] if counts else []
    return "; ".join(parts)


def drawn(c):
    """Sheets of the generator's, with two lines or more, no two of the same figures; then each sixth one shifted as far as it goes."""
    seen, number, chosen = set(), 0, []
    shapes = [generate.slack, generate.slack, generate.slack, generate.small, generate.meeting, generate.overloaded]
    while len(chosen) < DRAWN:
        rng = random.Random(f"stored margins {number}")
        shape = shapes[number % len(shapes)]
        numbers = flat(shape(rng))
        found = margins.answer(numbers, ROOM)
        if len(numbers) <= 240 and found[0] == "accepted" and len(found[1]) >= 2 and str(sorted(x[2] for x in found[1])) not in seen:
            seen.add(str(sorted(x[2] for x in found[1])))
            chosen.append((f"{shape.__name__} {number}: {shown(found[1])}", numbers))
        number += 1
    for remark, numbers in chosen:
        c.case(remark, numbers)
    for remark, numbers in chosen[::6]:
        instants = [r[k] for r in reading.rows_of(numbers) for kind, k in reading.INSTANTS if r[0] == kind and r[k] != NONE]
        for by in sorted({CAP - max(instants), -min(instants)} - {0}):
            by_hand = " ".join(margins.printed(margins.answer(numbers, ROOM))[0].split())
            c.case(f"{remark.split(':')[0]}, shifted by {by}: the same", reading.shifted(numbers, by), by_hand=by_hand)


def main(folder):
    c = Calls()
    for part in (named, rooms, refusals, large, drawn):
        part(c)
    c.held()
    listing.write(folder, "cases", c.cases(), None)
    print(f"{len(c.asked)} cases")


if __name__ == "__main__":
    main(sys.argv[1] if len(sys.argv) > 1 else listing.folder_of("replay_margins"))
