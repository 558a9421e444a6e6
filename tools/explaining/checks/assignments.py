"""Check 1, check_assignments: booking by booking."""
from collections import defaultdict

from ..reasons import Figure, Reason, Relation, among, line, lines, listed, ms, one_or_more, total, typed
from ..times import needed


def reasons(sheet):
    counted = defaultdict(list)  # the bookings of each piece that take a unit, so far
    for booking in sheet.bookings:
        if booking.activity not in sheet.activity:
            yield from unknown_activity(sheet, booking)
            continue
        wrong = list(other_task(sheet, booking)) or list(part_of_unsplit(sheet, booking))
        yield from wrong
        piece = booking.activity, booking.part_index
        if wrong or booking.resource in sheet.held[piece]:
            continue
        counted[piece].append(booking)
        yield from booked_too_often(sheet, booking, counted[piece])
        yield from too_short(sheet, booking)
        yield from early(sheet, booking)


def unknown_activity(sheet, booking):
    task = sheet.task.get(booking.task)
    if task is None:
        return  # an external booking
    own = sheet.activities_of[task.id]
    words = f"There is no activity {booking.activity} in the sheet, but its task {task.id} is there ({line(task)}), with "
    words += f"the activities {listed([a.id for a in own])}." if own else "no activity."
    because = [Relation(typed(booking, "activity"), "not among", among("activities", sheet.activities, "id"))]
    yield Reason("booking of an unknown activity", booking.activity, booking, words, because, [task])


def other_task(sheet, booking):
    activity = sheet.activity[booking.activity]
    if booking.task != activity.task:
        words = f"The booking names task {booking.task}, but activity {activity.id} is of task {activity.task} ({line(activity)})."
        because = [Relation(typed(booking, "task"), "!=", typed(activity, "task"))]
        yield Reason("booking under another task", activity.id, booking, words, because)


def part_of_unsplit(sheet, booking):
    if booking.part_index is not None and booking.activity not in sheet.split:
        words = f"It is booked as part {booking.part_index} with {booking.part_work} ms of work, but activity {booking.activity} has no split row (kind 4)."
        split = Figure("split activities", frozenset(sheet.split))
        because = [Relation(typed(booking, "activity"), "not among", split)]
        yield Reason("part of an unsplit activity", booking.activity, booking, words, because, [sheet.activity[booking.activity]])


def booked_too_often(sheet, booking, counted):
    requirements = sheet.requirements[booking.activity]
    quantities = total("units", *(typed(row, "quantity") for row in requirements))
    units = quantities if quantities.value >= 1 else Figure("units", 1)
    if len(counted) > units.value:
        words = f"This is booking {len(counted)} of {piece_words(booking)} (before it: {lines(counted[:-1])})"
        words += f"; its requirements take {one_or_more(units.value, 'unit')}"
        words += f" ({lines(requirements)})." if requirements else ": it has none, and 1 is the least."
        if units is not quantities and requirements:
            words += " 1 is the least."
        because = [Relation(Figure("bookings", len(counted)), ">", units)]
        yield Reason("booked too often", booking.activity, booking, words, because, counted[:-1] + requirements)


def piece_words(booking):
    whole = f"activity {booking.activity}"
    return whole if booking.part_index is None else f"part {booking.part_index} of {whole}"


def too_short(sheet, booking):
    need, given = needed(sheet, booking), Figure("given", booking.end - booking.start)
    if given.value < need.figure.value:
        words = f"The booking lasts {given} ms ({booking.start} to {booking.end}) but needs {need.figure} ms: "
        words += f"{ms(need.figure.value - given.value)} short. Needed: {need.words}." + doubt(given.value, need.figure.value)
        yield Reason("booking too short", booking.activity, booking, words, [Relation(given, "<", need.figure)], need.rows)


def doubt(given, need):
    """What may have been mistyped."""
    if given < 0:
        return " It ends before it starts: are start and end swapped?"
    for factor, unit in ((1000, "seconds"), (60_000, "minutes"), (3_600_000, "hours")):
        if given > 0 and given * factor == need:
            return f" That is {factor} times what it lasts: were {unit} typed for milliseconds?"
    return ""


def early(sheet, row, what="booking"):
    """For a booking or a span: its start before the releases of its activity and its task."""
    activity = sheet.activity[row.activity]
    for owner, word in ((activity, "activity"), (sheet.task[activity.task], "task")):
        if owner.release is not None and row.start < owner.release:
            words = f"The {what} starts at {row.start}, {ms(owner.release - row.start)} before the release {owner.release} of its {word} {owner.id} ({line(owner)})."
            yield Reason(f"{what} before the {word}'s release", row.activity, row, words, [Relation(typed(row, "start"), "<", typed(owner, "release"))])
