"""Check 7, check_precedence: step after step of each task, then predecessors, then the precedence constraints."""
from ..reasons import Figure, Reason, Relation, line, ms, total, typed
from ..rules import reading


def reasons(sheet):
    for task in sheet.tasks:
        steps = sorted(sheet.activities_of[task.id], key=lambda activity: activity.sequence)
        for before, after in zip(steps, steps[1:]):
            yield from step_after_step(sheet, before, after)
        for activity in sheet.activities_of[task.id]:
            for row in sheet.predecessors[activity.id]:
                yield from end_to_start(sheet, "before a predecessor", row, row.predecessor, activity.id, None)
    for row in sheet.constraints:
        if row.kind == 17:
            yield from end_to_start(sheet, "before a precedence lets it", row, row.before, row.after, typed(row, "delay"))


def pieces(sheet, activity):
    """The pieces of an activity: the row that starts each, and the resources it runs on. A span moves nowhere."""
    found = [(min(bookings, key=lambda b: b.start), [b.resource for b in bookings]) for _, bookings in sheet.pieces(activity)]
    return found or [(span, []) for span in sheet.spans_of[activity][:1]]


def move(sheet, from_resources, to_resources):
    """The longest move from the ones to the others: a figure, and words where it takes time."""
    rows = [sheet.transport[a, b] for a in dict.fromkeys(from_resources) for b in dict.fromkeys(to_resources) if (a, b) in sheet.transport]
    longest = max(rows, key=lambda row: row.time, default=None)
    if longest is None or longest.time == 0:
        return Figure("move", 0), ""
    return typed(longest, "time", "move"), f", and the move from resource {longest.resource} to {longest.to} takes {longest.time} ms ({line(longest)})"


def step_after_step(sheet, before, after):
    previous, overlap = sheet.time(before.id), sheet.overlap.get(after.id)
    if previous is None:
        return
    ran_on = [b.resource for b in sheet.bookings_of[before.id]]
    ready, ready_words = ready_after(previous, before, overlap)
    for row, runs_on in pieces(sheet, after.id):
        moved, move_words = move(sheet, ran_on, runs_on)
        earliest = total("earliest start", ready, moved)
        if row.start < earliest.value:
            words = f"{piece_words(row)} starts at {row.start}; the earliest is {earliest}, {ms(earliest.value - row.start)} later: {ready_words}{move_words}.{tie_words(before, after)}"
            cause = "before the share of the step before" if overlap else "before the step before"
            rows = [before, after] + [overlap] * bool(overlap) + [previous.ending]
            yield Reason(cause, after.id, row, words, [Relation(typed(row, "start"), "<", earliest)], rows)
            break  # only the first early piece is reported
    if overlap:
        yield from ends_early(sheet, before, after, previous, overlap, ran_on)


def tie_words(before, after):
    """Why the one is the step before, where the sequences do not say it."""
    tied = before.sequence == after.sequence
    return f" Both have sequence {after.sequence}: such steps follow one another in the order of their rows ({line(before)}, {line(after)})." * tied


def piece_words(row):
    index = getattr(row, "part_index", None)
    return f"Activity {row.activity}" if index is None else f"Part {index} of activity {row.activity}"


def ready_after(previous, before, overlap):
    """When the step before lets the next one start: a figure and words."""
    if overlap is None:
        return typed(previous.ending, "end"), f"the step before it, activity {before.id}, ends at {previous.end} ({line(previous.ending)})"
    done = reading.overlap_start(overlap.start_after, previous.start, previous.end)
    share = reading.float_of(overlap.start_after)
    words = f"{share!r} ({line(overlap)}) of the step before it, activity {before.id} ({previous.start} to {previous.end}), is done at {done}"
    return total("share done", typed(previous.starting, "start"), Figure("share", done - previous.start)), words


def ends_early(sheet, before, after, previous, overlap, ran_on):
    own = sheet.time(after.id)
    if own is None:
        return
    moved, move_words = move(sheet, ran_on, [r for _, resources in pieces(sheet, after.id) for r in resources])
    earliest = total("earliest end", typed(previous.ending, "end"), typed(overlap, "finish_lag"), moved)
    if own.end < earliest.value:
        words = f"Activity {after.id} ends at {own.end}; the earliest is {earliest}, {ms(earliest.value - own.end)} later: the step before it, activity {before.id}, ends at "
        words += f"{previous.end} ({line(previous.ending)}), the finish lag is {overlap.finish_lag} ms ({line(overlap)}){move_words}.{tie_words(before, after)}"
        yield Reason("ends before the step before", after.id, own.ending, words, [Relation(typed(own.ending, "end"), "<", earliest)], [before, after])


def end_to_start(sheet, cause, row, before, after, delay):
    """The one starts no earlier than the other ends, with the delay."""
    former, later = sheet.time(before), sheet.time(after)
    if former is None or later is None:
        return
    end = typed(former.ending, "end")
    earliest = total("earliest start", end, delay) if delay else end
    if later.start < earliest.value:
        words = f"Activity {after} starts at {later.start}; the earliest is {earliest}, {ms(earliest.value - later.start)} later: "
        words += f"activity {before} ends at {former.end} ({line(former.ending)})"
        words += f", and the delay is {delay} ms ({line(row)})." if delay else f", and {line(row)} makes it its predecessor."
        yield Reason(cause, after, later.starting, words, [Relation(typed(later.starting, "start"), "<", earliest)], [row])
