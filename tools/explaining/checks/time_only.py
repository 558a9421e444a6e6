"""Check 2, check_time_only: span by span, then the activities without requirements that have no span."""
from collections import defaultdict

from .. import calendars
from ..reasons import Figure, Reason, Relation, among, constant, line, lines, ms, one_or_more, total, typed
from .assignments import doubt, early


def reasons(sheet):
    spans = defaultdict(list)  # of each activity that may have one, so far
    for span in sheet.spans:
        wrong = list(names_nothing(sheet, span))
        if wrong:
            yield from wrong
            continue
        spans[span.activity].append(span)
        if len(spans[span.activity]) > 1:
            yield second_span(spans[span.activity])
        else:
            yield from too_short(sheet, span)
            yield from outside(sheet, span)
            yield from early(sheet, span, "span")
    for task in sheet.tasks:
        for activity in sheet.activities_of[task.id]:
            if not sheet.requirements[activity.id] and activity.id not in spans:
                yield no_span(sheet, activity)


def second_span(spans):
    span = spans[-1]
    words = f"This is span {len(spans)} of activity {span.activity}; its span stands on {line(spans[0])} already."
    because = [Relation(Figure("spans", len(spans)), ">", constant("spans of an activity", 1))]
    return Reason("second span", span.activity, span, words, because, spans[:1])


def names_nothing(sheet, span):
    """Every way in which a span names no activity that may have it: together one finding."""
    activity, words, because, rows = sheet.activity.get(span.activity), [], [], []
    if activity is None:
        words.append(f"There is no activity {span.activity} in the sheet.")
        because.append(Relation(typed(span, "activity"), "not among", among("activities", sheet.activities, "id")))
    else:
        required = sheet.requirements[activity.id]
        if required:
            words.append(f"Activity {activity.id} has {one_or_more(len(required), 'requirement')} ({lines(required)}): it is booked by kind 23, not by kind 24.")
            because.append(Relation(Figure("requirements", len(required)), ">", constant("requirements of a time-only activity", 0)))
            rows += required
        if activity.task != span.task:
            words.append(f"The span names task {span.task}, but activity {activity.id} is of task {activity.task} ({line(activity)}).")
            because.append(Relation(typed(span, "task"), "!=", typed(activity, "task")))
    if words:
        yield Reason("span of nothing", span.activity, span, " ".join(words), because, rows)


def too_short(sheet, span):
    activity = sheet.activity[span.activity]
    need = total("needed", *(typed(activity, column) for column in ("setup", "process", "teardown")))
    if activity.resumable:
        given, stretches = calendars.worked([calendars.of_activity(sheet, activity.id)], span)
        where = f"The span has {given} ms of working time{stretches}"
    else:
        given = Figure("given", span.end - span.start)
        where = f"The span lasts {given} ms ({span.start} to {span.end})"
    if given.value < need.value:
        words = f"{where} but needs {need} ms: {ms(need.value - given.value)} short. Needed: setup {activity.setup} + process {activity.process} + "
        words += f"teardown {activity.teardown} ({line(activity)})." + doubt(span.end - span.start, need.value)
        yield Reason("span too short", activity.id, span, words, [Relation(given, "<", need)], sheet.windows_of_activity[activity.id] * activity.resumable)


def outside(sheet, span):
    calendar = calendars.of_activity(sheet, span.activity)
    if sheet.activity[span.activity].resumable:
        words, because = calendars.pauses([calendar], span)
        if because:
            yield Reason("span starts in a pause", span.activity, span, f"The span starts at {span.start}, and {words}.", because)
    else:
        words, because = calendars.misses(calendar, span)
        if because:
            yield Reason("span outside the windows", span.activity, span, f"The span runs {span.start} to {span.end}. {words}", because)


def no_span(sheet, activity):
    booked, spans = sheet.bookings_of[activity.id], sheet.spans_of[activity.id]
    words = f"Activity {activity.id} has no requirement (kind 5) and no span (kind 24)."
    if spans:
        words = f"Activity {activity.id} has no requirement (kind 5), and its span names another task ({lines(spans)})."
    if booked:
        words += f" It is booked ({lines(booked)}): was its requirement forgotten?"
    because = [Relation(constant("spans of it", 0), "<", constant("spans wanted", 1))]
    return Reason("no span", activity.id, activity, words, because, booked + spans)
