"""Check 9, check_constraints: in row order."""
from ..reasons import Reason, Relation, line, ms, typed


def reasons(sheet):
    for place, row in enumerate(sheet.constraints):
        if row.kind == 19:
            yield from time_window(sheet, row)
        elif row.kind == 20:
            yield from no_overlap(sheet, row, sheet.members[place])
        elif row.kind == 21:
            yield from synchronize(sheet, place, row, sheet.members[place])


def time_window(sheet, row):
    time, missed, because = sheet.time(row.activity), [], []
    if time and time.start < row.start:
        missed.append(f"starts {ms(row.start - time.start)} before")
        because.append(Relation(typed(time.starting, "start"), "<", typed(row, "start")))
    if time and time.end > row.end:
        missed.append(f"ends {ms(time.end - row.end)} after")
        because.append(Relation(typed(time.ending, "end"), ">", typed(row, "end")))
    if because:
        where = line(time.starting) if time.starting == time.ending else f"{line(time.starting)} and {line(time.ending)}"
        words = f"Activity {row.activity} runs {time.start} to {time.end} ({where}): it {' and '.join(missed)} the window {row.start} to {row.end}."
        yield Reason("outside a time window", row.activity, row, words, because)


def no_overlap(sheet, row, members):
    """Each two members whose first bookings on the resource overlap."""
    first = [(member, next((b for b in sheet.bookings_of[member.activity] if b.resource == row.resource), None)) for member in members]
    first = [(member, booking) for member, booking in first if booking]
    for i, (one, a) in enumerate(first):
        for other, b in first[i + 1 :]:
            if a.start < b.end and b.start < a.end:
                words = f"Activity {a.activity} ({a.start} to {a.end}, {line(a)}) and activity {b.activity} ({b.start} to {b.end}, {line(b)}) "
                words += f"overlap on resource {row.resource}."
                if a is b:
                    words = f"Activity {a.activity} is listed twice ({line(one)} and {line(other)}), so its booking ({a.start} to {a.end}, {line(a)}) overlaps itself."
                because = [Relation(typed(a, "start"), "<", typed(b, "end")), Relation(typed(b, "start"), "<", typed(a, "end"))]
                yield Reason("members overlap", row.resource, row, words, because, [one, other])


def synchronize(sheet, place, row, members):
    times = [(member.activity, sheet.time(member.activity)) for member in members]
    if any(time is None for _, time in times):
        return
    for (a, one), (b, other) in zip(times, times[1:]):
        if one.start != other.start:
            words = f"Activity {a} starts at {one.start} ({line(one.starting)}), activity {b} at {other.start} ({line(other.starting)}): "
            words += f"{ms(abs(one.start - other.start))} apart. Constraint {place} is this row."
            because = [Relation(typed(one.starting, "start"), "!=", typed(other.starting, "start"))]
            yield Reason("members start apart", place, row, words, because, members)
            return  # the first two that start apart are enough
