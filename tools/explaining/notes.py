"""Rows that the checks pass over, or read otherwise than one may think. No finding: a word beside the row."""
from .reasons import in_units, line
from .rules import COLUMNS, reading


YEAR = 365 * 86_400_000


def of_sheet(sheet):
    """Words about the sheet as a whole."""
    if not sheet.rows:
        yield "the text is empty; was the sheet saved?"
    columns = [(kind, COLUMNS[kind][at - 1]) for kind, at in reading.INSTANTS]
    instants = [(getattr(row, column), row.place, row) for row in sheet.rows for kind, column in columns if kind == row.kind]
    instants = sorted(instant for instant in instants if instant[0] is not None and 0 < instant[0] < reading.CAP)  # the ends may mean always
    gap, one, other = max(((b[0] - a[0], a, b) for a, b in zip(instants, instants[1:])), default=(0, None, None), key=lambda found: found[0])
    if gap > YEAR:
        yield (f"no instant lies between {one[0]} ({line(one[2])}) and {other[0]} ({line(other[2])}), {in_units(gap)} later; "
               "are all counted from one zero? The checks cannot tell")


def notes(sheet, judged):
    """Pairs of a row and a word about it; judged are the places that have a finding beside them."""
    for row in sheet.rows:
        words = [*absent(sheet, row), *without_effect(sheet, row), *reversed_times(row, judged)]
        if words:
            yield row, "; ".join(words)


def absent(sheet, row):
    """Names that are not in the sheet, where they need not be."""
    column = {6: "resource", 9: "resource", 10: "resource", 13: "companion", 14: "to", 18: "resource", 20: "resource"}.get(row.kind)
    if column and getattr(row, column) not in sheet.resource:
        yield f"resource {getattr(row, column)} is not in the sheet"
    for column in {8: ["predecessor"], 17: ["before", "after"], 19: ["activity"]}.get(row.kind, []):
        yield from without_time(sheet, getattr(row, column), "the checks pass this row over")
    if row.kind == 22:
        yield from silent_member(sheet, row)
    if row.kind == 23:
        if row.activity not in sheet.activity and row.task not in sheet.task:
            yield "external booking (its activity and task are not in the sheet): check 1 says nothing of it"
        if row.resource not in sheet.resource:
            yield f"resource {row.resource} is not in the sheet: capacity 1, no windows"


def without_time(sheet, activity, what):
    if sheet.time(activity) is None:
        why = "has neither booking nor span" if activity in sheet.activity else "is not in the sheet"
        yield f"activity {activity} {why}: {what}"


def silent_member(sheet, row):
    constraint = sheet.constraints[row.constraint]
    if constraint.kind == 21:
        yield from without_time(sheet, row.activity, f"the checks pass constraint {row.constraint} ({line(constraint)}) over")
    elif not any(b.resource == constraint.resource for b in sheet.bookings_of[row.activity]):
        yield f"activity {row.activity} is not booked on resource {constraint.resource}: it is passed over"


def without_effect(sheet, row):
    """Numbers that count as others, or not at all."""
    if row.kind == 1 and not sheet.activities_of[row.id]:
        yield "no activity is of this task"
    if row.kind == 3 and 0 < row.start_after <= 1024:
        yield f"start after {row.start_after} is a share of next to nothing, the bits of {reading.float_of(row.start_after)!r}; those of 1.0 are {reading.bits_of(1.0)}"
    if row.kind == 5 and row.quantity < 1:
        yield f"quantity {row.quantity} asks for nothing"
    if row.kind == 11 and row.capacity < 1:
        yield f"capacity {row.capacity} counts as 1"
    if row.kind == 18:
        last, resource = sheet.capacities[row.resource][-1], sheet.resource.get(row.resource)
        if last is not row:
            yield f"the later capacity on {line(last)} counts, not this one"
        elif row.max >= (max(1, resource.capacity) if resource else 1):
            yield "it lowers nothing: the limit is no higher without it"


def reversed_times(row, judged):
    if row.kind in (15, 16) and row.start > row.end:
        yield "the closure starts after its end and takes no working time" if row.closed else "the window starts after its end and holds no time"
    if row.kind in (19, 23, 24) and row.start > row.end and row.place not in judged:
        yield "the start lies after the end"
