#!/usr/bin/env python3
"""Reads the stored lists back, as the programs in the gate do, and holds each case to the second reading of the rules
and the reference. Silent where all hold, but for the counts.

    replay.py [FILE..]        (no FILE: every list)
"""
import collections
import glob
import os
import sys

import listing
from listing import NONE

import answering
import freebusy_reading
import margins
import reading


def rows_case(case, number, place):
    return (number, place) == (reading.refused_1_to_5(case.numbers) or (0, 0))


def text_case(case, lent, number, place):
    read = reading.read_text(case.bytes, lent // 10)
    if number:
        return read == ("refused", number, place) and not case.numbers
    return read == ("accepted", case.numbers) and place * 10 == len(case.numbers)


def freebusy_case(case, resource, lent, number, place):
    sevens = [7] * lent
    accepted, *answer, after = freebusy_reading.read(case.bytes, resource, sevens)
    if number:
        return not accepted and answer == [number, place] and after == sevens and not case.numbers
    return accepted and answer[0] == place == len(case.numbers) // 10 and after == case.numbers + sevens[len(case.numbers) :]


def derived_case(case, number, place):
    sheet, found = reading.Sheet(case.numbers), []
    for at, b in enumerate(sheet.rows):
        if b[0] == 23 and b[1] in sheet.activity:
            d = sheet.derived(b)
            found += [at] + ([-1] * 3 if reading.stretched(d) else list(d))
    return case.expected == found and (number, place) == (reading.refused_1_to_6(case.numbers) or (0, 0))


def process_case(case, process, time):
    rows = [[1, 1, 0, 0], [2, 1, 1, 0, 0, process, 0, 0, 0]]
    rows += [[9, 1, at, bits] for at, bits in enumerate(case.numbers)]
    rows += [[23, 1, 1, at, 0, 0, 0, NONE, NONE] for at in range(max(1, len(case.numbers)))]
    sheet = reading.Sheet([x for row in rows for x in row + [0] * (10 - len(row))])
    found = sheet.derived(sheet.rows[-1])
    return time == (-1 if reading.stretched(found) else found[1])


def share_case(_, ms, work, whole, time):
    found = reading.share(ms, work, whole)
    return time == (found if found < 2**53 else -1)


def overlap_case(_, bits, lag, start, end, first, last):
    return first == reading.overlap_start(bits, start, end) and last == end + lag


def margins_case(case, room, number, place):
    found = margins.answer(case.numbers, room)
    if number:
        return found == ("refused", number, place) and not case.expected
    return found[0] == "accepted" and len(found[1]) == place and [x for line in found[1] for x in line] == case.expected


# ---- calendar time: the gathered numbers are windows, the last numbers of a line are calendars, as pairs of places


def instant(z):
    return z % 2**64


def calendars(case, places):
    """(opens, closures) for each pair of places."""
    numbers = [instant(z) for z in case.numbers]
    windows = [numbers[3 * i : 3 * i + 3] for i in range(len(numbers) // 3)]
    chosen = [windows[a:b] for a, b in zip(places[::2], places[1::2])]
    return [tuple([(s, e) for c, s, e in some if c == closed] for closed in (0, 1)) for some in chosen]


def joint_end(found, start, work):
    """Where work ends that is started at an instant, whether that is working time or not; none where too little follows."""
    if work == 0:
        return start
    edges = sorted({start} | {x for windows in found for some in windows for w in some for x in w if x > start})
    for a, b in zip(edges, edges[1:] + [None]):
        if all(reading.works(*c, a) for c in found):
            if b is None or b - a >= work:
                return a + work
            work -= b - a
    return None


def is_end(end, outcome, expected):
    told = 2 if end is None else 3 if end >= 2**64 else 0
    return outcome == told and (told != 0 or end == instant(expected))


def fits_case(case, x, y, yes, *places):
    return (yes == 1) == reading.interval_fits(*calendars(case, places)[0], instant(x), instant(y))


def joint_case(case, x, yes, *places):
    return (yes == 1) == all(reading.works(*c, instant(x)) for c in calendars(case, places))


def available_case(case, x, y, ms, *places):
    return instant(ms) == reading.available_ms(calendars(case, places), instant(x), instant(y))


def work_end_case(case, x, work, outcome, end, *places):
    found = calendars(case, places)
    if not all(reading.works(*c, instant(x)) for c in found):
        return outcome == 1
    return is_end(joint_end(found, instant(x), max(work, 0)), outcome, end)


def end_from_case(case, x, work, outcome, end, *places):
    return is_end(joint_end(calendars(case, places), instant(x), instant(work)), outcome, end)


CALENDAR = {"F": fits_case, "W": joint_case, "J": joint_case, "A": available_case, "E": work_end_case, "B": end_from_case}
CASES = {
    **CALENDAR,
    **{"R": rows_case, "T": text_case, "V": freebusy_case, "M": margins_case},
    **{"D": derived_case, "P": process_case, "S": share_case, "O": overlap_case},
}


def call_said(case, number, place):
    """The answer that a call's case expects, and whether its count is that of its findings."""
    if number:
        return f"refused {number} {place}", not case.expected
    findings = [",".join(map(str, case.expected[i : i + 4])) for i in range(0, len(case.expected), 4)]
    return " ".join(["accepted", str(place), *findings]), place == len(findings)


def main(files):
    counts, wrong, asked, anchors = collections.Counter(), [], [], []
    for file in files:
        for at, (letter, numbers, case) in enumerate(listing.cases_of(file)):
            where = f"{file}, case {at + 1}: {case.remark}"
            counts[letter] += 1
            if letter == "C":
                said, fine = call_said(case, *numbers[1:])
                asked.append((" ".join(map(str, ["check", numbers[0], *case.numbers])), said, where))
            else:
                fine = CASES[letter](case, *numbers)
            if letter == "M":
                anchors.append(" ".join(map(str, ["margins", numbers[0], *case.numbers])))
            if not fine:
                wrong.append(where)
    found = answering.answers([question for question, _, _ in asked])
    wrong += [where for (_, said, where), answer in zip(asked, found, strict=True) if said != answer]
    wrong += [f"{case}: {fault}" for case, fault in answering.anchored(anchors, answering.build()) if fault]
    print(", ".join(f"{letter} {count}" for letter, count in sorted(counts.items())))
    raise SystemExit("\n".join(wrong) or 0)


if __name__ == "__main__":
    names = ("replay_sheets", "replay_freebusy", "replay_calendar", "replay_derived_times", "replay_findings", "replay_margins")
    folders = [listing.folder_of(x) for x in names]
    main(sys.argv[1:] or [x for folder in folders for x in sorted(glob.glob(os.path.join(folder, "*.txt")))])
