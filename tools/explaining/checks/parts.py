"""Check 3, check_parts: for each split activity that is booked in parts."""
from ..reasons import Figure, Reason, Relation, constant, line, lines, listed, ms, one_or_more, total, typed


def reasons(sheet):
    for task in sheet.tasks:
        for activity in sheet.activities_of[task.id]:
            if activity.id in sheet.split:
                yield from of_activity(sheet, activity, sheet.split[activity.id])


def of_activity(sheet, activity, split):
    counts = {}  # index: the last booking that gives it a work
    for booking in sheet.bookings_of[activity.id]:
        if booking.part_index is not None:
            yield from two_works(booking, counts.get(booking.part_index))
            counts[booking.part_index] = booking
    if counts:
        yield from whole_too(sheet, activity, counts)
        yield from index_outside(activity, split, counts)
        yield from sum_of_works(activity, counts)
        yield from below_minimum(activity, split, counts)


def two_works(booking, before):
    if before and before.part_work != booking.part_work:
        words = f"Part {booking.part_index} of activity {booking.activity} does {booking.part_work} ms of work here, but {before.part_work} ms on {line(before)}."
        because = [Relation(typed(booking, "part_work"), "!=", typed(before, "part_work"))]
        yield Reason("two works for one part", booking.activity, booking, words, because)


def whole_too(sheet, activity, counts):
    whole = [b for b in sheet.bookings_of[activity.id] if b.part_index is None]
    if whole:
        words = f"Activity {activity.id} is booked whole here ({one_or_more(len(whole), 'booking')}), and in parts on {lines(counts.values())}."
        because = [Relation(Figure("whole bookings", len(whole)), ">", constant("whole bookings beside parts", 0))]
        yield Reason("whole and in parts", activity.id, whole[0], words, because, whole + list(counts.values()))


def index_outside(activity, split, counts):
    """More indices than max parts always means that one of them lies outside, too."""
    wrong = [b for b in counts.values() if not 0 <= b.part_index < split.max_parts]
    if wrong:
        allowed = f"0 to {split.max_parts - 1}" if split.max_parts > 1 else "0 alone" if split.max_parts == 1 else "none"
        words = f"Activity {activity.id} is booked with part {'index' if len(counts) == 1 else 'indices'} {listed(sorted(counts))}; its max parts are {split.max_parts} ({line(split)}), which allows {allowed}."
        because = [outside(b, split) for b in wrong]
        yield Reason("part index outside", activity.id, wrong[0], words, because, [split, *counts.values()])


def outside(booking, split):
    index = typed(booking, "part_index")
    if booking.part_index < 0:
        return Relation(index, "<", constant("the least index", 0))
    return Relation(index, ">=", typed(split, "max_parts"))


def sum_of_works(activity, counts):
    work = total("work", *(typed(b, "part_work", "work") for b in counts.values()))
    each = listed([f"{b.part_work} in part {index} ({line(b)})" for index, b in sorted(counts.items())])
    apart = abs(work.value - activity.process)
    words = f"The parts of activity {activity.id} do {work} ms of work, its process is {activity.process} ms: {ms(apart)} too "
    process = typed(activity, "process")
    if work.value < activity.process:
        yield Reason("parts do too little", activity.id, activity, f"{words}little. They do {each}.", [Relation(work, "<", process)])
    if work.value > activity.process:
        yield Reason("parts do too much", activity.id, activity, f"{words}much. They do {each}.", [Relation(work, ">", process)])


def below_minimum(activity, split, counts):
    if len(counts) > 1:
        for index, booking in sorted(counts.items()):
            if booking.part_work < split.min_part:
                words = f"Part {index} of activity {activity.id} does {booking.part_work} ms of work, the least is {split.min_part} ms ({line(split)})."
                because = [Relation(typed(booking, "part_work"), "<", typed(split, "min_part"))]
                yield Reason("part below the minimum", activity.id, booking, words, because)
