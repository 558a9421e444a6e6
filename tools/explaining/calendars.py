"""Calendars: the windows of a resource or an activity, what they hold, and in words how something misses them."""
import bisect
import collections
import functools

from .reasons import Figure, Relation, line, lines, listed, ms, total, typed

ALWAYS = 10**18  # later than any instant


class Calendar:
    """The windows of one owner; none where there is no row."""

    def __init__(self, owner, rows):
        self.owner, self.rows = owner, rows
        self.opens = [row for row in rows if row.closed == 0]
        self.closures = [row for row in rows if row.closed == 1]

    @functools.cached_property
    def stretches(self):
        """The working time, as stretches in order, apart from one another."""
        opened, closed = collections.Counter(), collections.Counter()  # at each edge, how many windows begin less how many end
        for counts, windows in ((opened, [(w.start, w.end) for w in self.opens] or [(0, ALWAYS)]), (closed, [(c.start, c.end) for c in self.closures])):
            for start, end in windows:
                if start < end:
                    counts[start] += 1
                    counts[end] -= 1
        found, is_open, is_closed, since = [], 0, 0, None
        for edge in sorted({*opened, *closed}):
            is_open, is_closed = is_open + opened[edge], is_closed + closed[edge]
            if is_open and not is_closed:
                since = edge if since is None else since
            elif since is not None:
                found.append((since, edge))
                since = None
        return found

    def within(self, start, end):
        """The stretches from start to end."""
        first = bisect.bisect_right(self.stretches, start, key=lambda stretch: stretch[1])
        last = bisect.bisect_left(self.stretches, end, key=lambda stretch: stretch[0])
        return [(max(a, start), min(b, end)) for a, b in self.stretches[first:last]]

    def pausing(self, start, end):
        """The rows that take working time away between two instants."""
        rows = [c for c in self.closures if max(c.start, start) < min(c.end, end)]
        opened = Calendar(self.owner, self.opens)
        return rows + (self.opens if sum(b - a for a, b in opened.within(start, end)) < end - start else [])

    def works(self, instant):
        return bool(self.within(instant, instant + 1))


def of_resource(sheet, resource):
    return of(sheet, "resource", resource, sheet.windows_of_resource)


def of_activity(sheet, activity):
    return of(sheet, "activity", activity, sheet.windows_of_activity)


def of(sheet, word, owner, windows):
    """The calendar of an owner, made once for a sheet."""
    key = word, owner
    if key not in sheet.calendars:
        sheet.calendars[key] = Calendar(f"{word} {owner}", windows[owner])
    return sheet.calendars[key]


def window(row):
    return f"{row.start}..{row.end} ({line(row)})"


# ---- an interval that must lie in one window ---------------------------------------------------------------


def misses(calendar, row):
    """How the time of a row does not fit a calendar: words and relations; ('', []) where it fits."""
    start, end = typed(row, "start"), typed(row, "end")
    words, because = [], []
    if calendar.opens and not any(w.start <= row.start and row.end <= w.end for w in calendar.opens):
        words.append(in_no_window(calendar, row))
        because += [Relation(start, "<", typed(w, "start")) if row.start < w.start else Relation(end, ">", typed(w, "end"))
                    for w in calendar.opens]
    met = [c for c in calendar.closures if row.start < c.end and c.start < row.end]
    if met:
        words.append(in_closures(calendar, met))
        because += [relation for c in met for relation in (Relation(start, "<", typed(c, "end")), Relation(typed(c, "start"), "<", end))]
    return " ".join(words), because


def in_no_window(calendar, row):
    """Which window is missed, and by how much."""
    ordered = [w for w in calendar.opens if w.start <= w.end]
    touched = [w for w in ordered if w.start < row.end and row.start < w.end]
    if not ordered:
        verb = "window starts after its end" if len(calendar.opens) == 1 else "windows all start after their ends"
        return f"The open {verb} ({lines(calendar.opens)}), so {calendar.owner} is never open."
    if len(touched) == 1:
        return missed_window(calendar, touched[0], row)
    if touched:
        return f"No one window of {calendar.owner} holds it whole: it reaches over " + listed(map(window, touched), 4) + "."
    before = max((w for w in ordered if w.end <= row.start), key=lambda w: w.end, default=None)
    after = min((w for w in ordered if w.start >= row.end), key=lambda w: w.start, default=None)
    near = [f"the window before it closes at {before.end} ({line(before)})"] if before else []
    near += [f"the next opens at {after.start} ({line(after)})"] if after else []
    hint = " It is the only window: was a closure meant (1 in the column closed)?" if len(calendar.opens) == 1 and not calendar.closures else ""
    return f"No window of {calendar.owner} is open then: " + " and ".join(near or [f"its windows are on {lines(ordered)}"]) + "." + hint


def missed_window(calendar, w, row):
    words = []
    if row.start < w.start:
        words.append(f"starts {ms(w.start - row.start)} before the window opens")
    if row.end > w.end:
        words.append(f"ends {ms(row.end - w.end)} after the window closes")
    if not words:  # only where the row's own start lies after its end
        words.append("runs backwards")
    return f"{calendar.owner.capitalize()} is open {window(w)}: it " + " and ".join(words) + "."


def in_closures(calendar, met):
    words = f"It meets the closure{'s' * (len(met) > 1)} of {calendar.owner} at " + listed(map(window, met), 4) + "."
    if any(c.start == c.end for c in met):
        words += " A closure of length 0 counts too."
    return words


# ---- resumable work ----------------------------------------------------------------------------------------


def pauses(calendars, row):
    """Which calendars do not work at the start of a row: words and relations; ('', []) where all do."""
    start = typed(row, "start")
    words, because = [], []
    for calendar in calendars:
        if calendar.works(row.start):
            continue
        closure = next((c for c in calendar.closures if c.start <= row.start < c.end), None)
        if closure:
            words.append(f"{calendar.owner} is closed {window(closure)}")
            because += [Relation(typed(closure, "start"), "<=", start), Relation(start, "<", typed(closure, "end"))]
        else:
            words.append(f"{calendar.owner} is open only " + listed(map(window, calendar.opens), 4))
            because += [Relation(start, "<", typed(w, "start")) if row.start < w.start else Relation(typed(w, "end"), "<=", start)
                        for w in calendar.opens]
    return "; ".join(words[:4] + [f"{len(words) - 4} more pause then"] * (len(words) > 4)), because


def worked(calendars, row):
    """The joint working time within a row, as a figure, and in brackets, in words, its stretches and who pauses between them."""
    found = [(row.start, row.end)] if row.start < row.end else []
    for calendar in calendars:
        if calendar.rows:
            found = [stretch for start, end in found for stretch in calendar.within(start, end)]
    figure = total("worked", *(Figure("stretch", b - a) for a, b in found))
    pausing = [(calendar.owner, calendar.pausing(row.start, row.end)) for calendar in calendars if calendar.rows]
    words = [listed([f"{a}..{b}" for a, b in found], 5)] * bool(found)
    words += ["pauses: " + listed([f"{owner} ({lines(rows, 4)})" for owner, rows in pausing if rows], 4)] * any(rows for _, rows in pausing)
    return figure, f" ({'; '.join(words)})" if words else ""
