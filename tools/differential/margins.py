"""The margins (request Q-2) read a second time, from the request, the rules' checks 5 and 8 and the source, apart from
the product: how much slack a task or a resource has, with a minus where it has too little.

A line is (1, task, margin) or (2, resource, margin). Completions, limits and peaks are worked out here anew, from rows as they
stand; `held` compares them with the reference's own. Refusals 1 to 6 and the text are those of reading.py.
"""
import reading
from reading import NONE, rows_of

TASK, RESOURCE = 1, 2
WORDS = {TASK: "task", RESOURCE: "resource"}
LENT_ROWS = LENT_LINES = 800  # what the program lends


def completion(rows, task):
    """Check 8: the latest end under the task, of bookings and of time-only spans. What counts is the task that a row names: whether its
    activity is another task's or unknown, and whether it ends before it starts, is not asked. None: nothing is under it."""
    ends = [r[5] for r in rows if r[0] == 23 and r[2] == task]
    ends += [r[4] for r in rows if r[0] == 24 and r[2] == task]
    return max(ends, default=None)


def limit(rows, resource):
    """Check 5: at least 1 by the resource's row or without one; the last kind 18 lowers it, to 0 and below too, and never raises it."""
    own = next((max(r[3], 1) for r in rows if r[0] == 11 and r[1] == resource), 1)
    said = [r[2] for r in rows if r[0] == 18 and r[1] == resource]
    return min(own, said[-1]) if said else own


def pool_holds(rows, activity, place, wanted_type, resource):
    """Whether a requirement's pool holds a resource's row: those listed, or with none listed those of the type. Skills are not asked."""
    listed = [r[3] for r in rows if r[0] == 6 and r[1] == activity and r[2] == place]
    return resource[1] in listed if listed else resource[2] == wanted_type


def units(rows, booking):
    """What a booking takes: the usage of its activity's first requirement whose pool holds the resource; 1 without such a
    requirement (a companion), without the activity (an external booking), without the resource."""
    _, activity, _, name = booking[:4]
    resource = next((r for r in rows if r[0] == 11 and r[1] == name), None)
    requirements = [r for r in rows if r[0] == 5 and r[1] == activity]  # an owner stands in the sheet, so the activity is known
    if resource:
        for place, r in enumerate(requirements):
            if pool_holds(rows, activity, place, r[2], resource):
                return r[4]
    return 1


def peak(rows, resource):
    """Check 5: the greatest load at a start of the resource's bookings; a booking holds its start and not its end, so that one
    with no time between adds nothing."""
    on = [(r[4], r[5], units(rows, r)) for r in rows if r[0] == 23 and r[3] == resource]
    return max(sum(u for start, end, u in on if start <= at < end) for at, _, _ in on)


def booked(rows):
    """The resources that bookings name, known or not, by the row of each one's first booking, whatever that adds."""
    return list(dict.fromkeys(r[3] for r in rows if r[0] == 23))


def task_margin(deadline, completed):
    """Below zero where completion is above the deadline: check 8."""
    return deadline - completed


def resource_margin(most, load):
    """Below zero where the peak is above the limit: check 5."""
    return most - load


def lines(numbers):
    """The margin lines of an accepted sheet: tasks with a deadline and a completion in row order, then booked resources."""
    rows = rows_of(numbers)
    tasks = [(r[1], r[2], completion(rows, r[1])) for r in rows if r[0] == 1 and r[2] != NONE]
    out = [(TASK, task, task_margin(deadline, at)) for task, deadline, at in tasks if at is not None]
    return out + [(RESOURCE, r, resource_margin(limit(rows, r), peak(rows, r))) for r in booked(rows)]


def answer(numbers, room):
    """The call with a buffer of that many numbers: ("refused", number, place) or ("accepted", lines). 7: whole threes."""
    refused = reading.refused_1_to_6(numbers)
    if refused:
        return ("refused", *refused)
    found = lines(numbers)
    return ("accepted", found) if len(found) <= room // 3 else ("refused", 7, 0)


def of_text(text):
    """The program's answer: a text's own refusal, or the call's."""
    read = reading.read_text(text, LENT_ROWS)
    return read if read[0] == "refused" else answer(read[1], 3 * LENT_LINES)


def printed(found):
    """What the program writes to standard output and to standard error. Without a line it says so, for silence is no answer."""
    if found[0] == "refused":
        return f"refused,{found[1]},{found[2]}\n", ""
    return "".join(f"{WORDS[kind]},{name},{margin}\n" for kind, name, margin in found[1]), "" if found[1] else "0 lines\n"


def spoken(found):
    """The answer as a line."""
    if found[0] == "refused":
        return "refused {} {}".format(*found[1:])
    return " ".join(["accepted", str(len(found[1])), *(",".join(map(str, line)) for line in found[1])])


# ---- the anchors: the reference's own figures and findings ------------------------------------------------


def figures(rows):
    """The reading's figures as the reference says its own: completions in task order, limits and peaks by id."""
    tasks = [(TASK, r[1], completion(rows, r[1])) for r in rows if r[0] == 1]
    resources = sorted((RESOURCE, r, limit(rows, r), peak(rows, r)) for r in booked(rows))
    return [f for f in tasks if f[2] is not None] + resources


def held(numbers, said, findings):
    """What of the reading differs from the reference on an accepted sheet, or None. `said` is the reference's line of figures,
    `findings` its line of findings, check 5's by first booking."""
    rows, found = rows_of(numbers), lines(numbers)
    theirs = [tuple(map(int, word.split(","))) for word in said.split()[1:]]
    if not said.startswith("figures") or theirs != figures(rows):
        return said
    deadlines = {r[1]: r[2] for r in rows if r[0] == 1}
    tasks = [(TASK, f[1], deadlines[f[1]] - f[2]) for f in theirs if f[0] == TASK and deadlines[f[1]] != NONE]
    resources = {f[1]: (RESOURCE, f[1], f[2] - f[3]) for f in theirs if f[0] == RESOURCE}
    if found != tasks + [resources.pop(r[3]) for r in rows if r[0] == 23 and r[3] in resources]:
        return said
    for check, kind in ((8, TASK), (5, RESOURCE)):
        entities = [int(word.split(",")[2]) for word in findings.split()[2:] if word.startswith(f"{check},")]
        if not findings.startswith("accepted") or entities != [name for k, name, margin in found if k == kind and margin < 0]:
            return findings
    return None
