"""Accepted sheets of up to 800 rows that are meant to be as slow as can be, each for one part of the checks."""
from generate import flat, row
from reading import NONE, bits_of

TASK = row(1, 1, NONE, NONE)


def activity(a=1, task=1, sequence=0, process=5, resumable=0):
    return row(2, a, task, sequence, 0, process, 0, resumable, NONE)


def needs(a=1, quantity=1, kind=7):
    return row(5, a, kind, quantity, 1)


def machine(r, kind=7, capacity=1):
    return row(11, r, kind, capacity)


def book(r, a=1, start=0, end=100, index=NONE, work=NONE, task=1):
    return row(23, a, task, r, start, end, 0, index, work)


def external(r, a, start=0, end=100):
    return row(23, a, 999, r, start, end, 0, NONE, NONE)


def window(r, at, length=5, step=10, closed=0):
    return row(15, r, closed, at * step, at * step + length)


def many(count, make):
    return [make(i) for i in range(count)]


def filled(rows, make):
    """Brought to 800 rows."""
    return rows + many(800 - len(rows), make)


def sheets():
    """Name and rows of each."""
    one = [TASK, needs(), machine(1)]
    long = dict(start=0, end=9000)
    yield "resumable parts, 530 windows", filled(
        [TASK, activity(process=264, resumable=1), row(4, 1, 1000, 0, 0), needs(), machine(1, capacity=900)] + many(530, lambda i: window(1, i)),
        lambda i: book(1, index=i, work=1, **long))
    yield "resumable piece, 530 windows, five findings to a booking", filled(
        [row(1, 1, NONE, 5), row(2, 1, 1, 0, 0, 10**6, 0, 1, 5), needs(), machine(1, capacity=900)] + many(530, lambda i: window(1, i)), lambda i: book(1, **long))
    late = [row(1, 1, NONE, 5), row(2, 1, 1, 0, 0, 10**6, 0, 1, 5), needs()]
    yield "resumable piece, 528 windows of the activity", filled(late + [machine(1, capacity=900)] + many(528, lambda i: row(16, 1, 0, i * 10, i * 10 + 5)), lambda i: book(1, **long))
    yield "resumable piece, 530 windows of the activity, on a resource that is not in the sheet", filled(late + many(530, lambda i: row(16, 1, 0, i * 10, i * 10 + 5)), lambda i: book(1, **long))
    yield "resumable piece, 520 windows, 20 companions that are missing", filled(
        late + [machine(1, capacity=900)] + many(20, lambda i: row(13, 1, 1000 + i)) + many(520, lambda i: window(1, i)), lambda i: book(1, **long))
    for windows in (395, 530, 700):
        yield f"resumable piece, {windows} windows", filled(
            [TASK, activity(resumable=1), needs(), machine(1, capacity=900)] + many(windows, lambda i: window(1, i)), lambda i: book(1, **long))
    yield "resumable piece, windows and closures, last first", filled(
        [TASK, activity(resumable=1), needs(), machine(1, capacity=900)] + many(265, lambda i: window(1, 265 - i, 9)) + many(265, lambda i: window(1, 265 - i, 2, closed=1)),
        lambda i: book(1, **long))
    yield "780 windows, 12 bookings", filled([TASK, activity(resumable=1), needs(), machine(1, capacity=900)] + many(780, lambda i: window(1, i)), lambda i: book(1, **long))
    yield "resumable piece on 264 calendars", [TASK, activity(resumable=1), needs(quantity=264)] + many(264, machine) + many(264, lambda i: row(15, i, 0, i, 9000)) + many(264, lambda i: book(i, **long))
    yield "resumable piece on 132 calendars of 4", [TASK, activity(resumable=1), needs(quantity=132)] + many(132, machine) + many(528, lambda i: window(i % 132, i)) + many(132, lambda i: book(i, **long))
    yield "160 time-only spans, 470 windows", [TASK] + many(160, lambda i: activity(i, sequence=i, resumable=1)) + many(470, lambda i: row(16, i % 160, 0, i * 10, i * 10 + 9)) + many(160, lambda i: row(24, i, 1, i * 10, i * 10 + 2000))
    yield "one time-only span, 790 windows", [TASK, activity(resumable=1)] + many(790, lambda i: row(16, 1, 0, i * 10, i * 10 + 5)) + [row(24, 1, 1, 0, 9000)]
    yield "plain bookings, 395 windows", filled([TASK, activity(), needs(), machine(1, capacity=900)] + many(395, lambda i: window(1, i)), lambda i: book(1, start=3944, end=3946))
    yield "companions named 264 times, 528 bookings", [TASK, activity(), needs(), machine(1)] + many(264, lambda i: row(13, 1, 1000 + i)) + many(528, lambda i: book(1))
    yield "396 companions, 396 bookings of one resource", [TASK, activity(), needs(), machine(1)] + many(396, lambda i: row(13, 1, 1000 + i)) + many(396, lambda i: book(1))
    yield "396 companions that are booked", [TASK, activity(), needs(), machine(1)] + many(396, lambda i: row(13, 1, i + 2)) + many(396, lambda i: book(i + 1))
    yield "264 companions, 264 bookings of one resource, 264 of others", [TASK, activity(), needs(), machine(1)] + many(264, lambda i: row(13, 1, 1000 + i)) + many(264, lambda i: book(1)) + many(264, lambda i: book(2000 + i))
    yield "264 resources that each hold one of 264", [TASK, activity(), needs()] + many(264, machine) + many(264, lambda i: row(13, i, 1000 + i)) + many(264, book)
    yield "companions in a ring of 198", [TASK, activity(), needs()] + many(198, machine) + many(198, lambda i: row(13, i, (i + 1) % 198)) + many(198, book) + many(198, book)
    yield "companions in a ring of 264", [TASK, activity(), needs()] + many(264, machine) + many(264, lambda i: row(13, i, (i + 1) % 264)) + many(264, book)
    yield "790 parts", [TASK, activity(process=790), row(4, 1, 1000, 0, 0), needs(), machine(1, capacity=900)] + many(790, lambda i: book(1, index=789 - i, work=1))
    yield "395 parts after 395 parts", [TASK, activity(1, process=395), activity(2, sequence=1, process=395), row(4, 1, 1000, 0, 0), row(4, 2, 1000, 0, 0), needs(1), needs(2)] + many(395, lambda i: book(1, 1, index=i, work=1)) + many(395, lambda i: book(1, 2, 100, 200, index=394 - i, work=1))
    yield "a no-overlap of 700 members", [row(20, 1), machine(1, capacity=900)] + many(700, lambda i: row(22, 0, i % 49)) + many(49, lambda i: external(1, i, i * 10, i * 10 + 10))
    yield "a no-overlap of 265 activities", [TASK, row(20, 1), machine(1, capacity=900)] + many(265, lambda i: row(22, 0, i)) + many(265, lambda i: external(1, i, i * 10, i * 10 + 10)) + many(265, lambda i: activity(i, sequence=i))
    yield "a no-overlap of 60 members that overlap", [row(20, 1), machine(1, capacity=900)] + many(60, lambda i: row(22, 0, 3)) + [external(1, 3)]
    yield "395 capacities, 400 resources", many(395, lambda i: row(18, i, 1)) + many(400, lambda i: external(i, 3))
    yield "799 bookings of one resource", [machine(1, capacity=900)] + many(799, lambda i: external(1, i, i, i + 400))
    yield "799 bookings of 799 resources", many(799, lambda i: external(i, 3))
    yield "264 requirements, candidates, bookings", [TASK, activity()] + many(264, lambda i: needs()) + many(264, lambda i: row(6, 1, 263, i)) + many(264, book)
    yield "264 requirements, candidates, bookings, spread", [TASK, activity()] + many(264, lambda i: needs()) + many(264, lambda i: row(6, 1, i, 263 - i)) + many(264, book)
    yield "396 requirements, 396 bookings", [TASK, activity(), machine(1, capacity=900)] + many(396, lambda i: needs()) + many(396, lambda i: book(1))
    yield "skills 264 x 264 x 264", [TASK, activity(), needs(quantity=264), machine(1, capacity=900)] + many(264, lambda i: row(7, 1, 0, 1000)) + many(264, lambda i: row(12, 1, 1000 + (i < 263))) + many(264, lambda i: book(1))
    yield "skills that are lacking", [TASK, activity(), needs(quantity=30), machine(1, capacity=900)] + many(30, lambda i: row(7, 1, 0, 1000)) + many(700, lambda i: row(12, 1, i)) + many(30, lambda i: book(1))
    yield "396 speeds", [TASK, activity(), needs(), machine(1, capacity=900)] + many(396, lambda i: row(9, 1, i, bits_of(1.0 + i * 2.0**-20))) + many(396, book)
    yield "396 fixed timings of a part", [TASK, activity(process=9), row(4, 1, 9, 0, 0), needs(), machine(1)] + many(394, lambda i: row(10, 1, i, 1, i, 1)) + many(394, lambda i: book(i, index=0, work=9))
    yield "transports 264 x 264 x 264", [TASK, activity(1), activity(2, sequence=1), needs(1), needs(2), machine(1)] + many(264, lambda i: row(14, 1, i, 1)) + many(264, lambda i: book(1)) + many(264, lambda i: book(i, 2, 200, 300))
    for parts, before, moves in ((264, 264, 130), (180, 180, 215), (130, 130, 260)):
        yield f"transports to {parts} parts, {before} before, {moves} moves", [TASK, activity(1), activity(2, sequence=1, process=parts), row(4, 2, 1000, 0, 0), needs(1), needs(2)] + many(moves, machine) + many(moves, lambda i: row(14, i, 1000, 1)) + many(before, lambda i: book(1000 + i)) + many(min(parts, 794 - 2 * moves - before), lambda i: book(1000, 2, 200, 300, index=i, work=1))
    yield "398 steps of one task", [TASK] + many(398, lambda i: activity(i, sequence=398 - i)) + many(398, lambda i: row(24, i, 1, (398 - i) * 10, (398 - i) * 10 + 10))
    yield "266 predecessors", [TASK] + many(266, lambda i: activity(i, sequence=i)) + many(266, lambda i: row(8, i, 265 - i)) + many(266, lambda i: row(24, i, 1, i * 10, i * 10 + 10))
    yield "398 tasks, 398 external", many(398, lambda i: row(1, i, 500, NONE)) + many(398, lambda i: row(23, 5000 + i, 1000 + i, 1, i, i + 1, 0, NONE, NONE))
    yield "399 precedences of externals", many(399, lambda i: row(17, i, 398 - i, -4000)) + many(399, lambda i: external(i, i))
    yield "a synchronize of 399 externals", [row(21)] + many(399, lambda i: row(22, 0, i)) + many(399, lambda i: external(i, i))
    yield "266 time windows of one activity of 266 bookings", [TASK] + many(266, lambda i: row(19, 3, 0, 200)) + many(266, lambda i: row(17, 3, 3, -4000)) + many(266, lambda i: external(i, 3))
    yield "797 candidates, their owners last", many(797, lambda i: row(6, 1, 0, i)) + [needs(), activity(), TASK]
    yield "800 tasks", many(800, lambda i: row(1, 799 - i, NONE, NONE))
    yield "798 speeds of one activity", [TASK, activity()] + many(798, lambda i: row(9, 1, i, bits_of(1.0)))
    yield "799 transports of one resource", [machine(1)] + many(799, lambda i: row(14, 1, i, 1))
    yield "399 activities, 400 of what they own, owners last", many(399, lambda i: row(8, 398 - i, 3)) + many(399, lambda i: activity(i)) + [TASK]
    yield "800 findings", many(800, lambda i: row(24, i, 1, 0, 1))


def lines():
    """Name and numbers of each, every sheet at most 800 rows."""
    for name, rows in sheets():
        assert len(rows) <= 800, (name, len(rows))
        yield name, flat(rows)
