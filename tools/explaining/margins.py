"""The margins of a sheet in words beside its rows: who completes a task and when, what runs where a resource is fullest."""
import collections
import dataclasses

from .checks.capacity import fullest, limit_of, running
from .checks.deadlines import last_of
from .explanation import REPORT, SEEN, Block, Explanation, of_refusal
from .program import Margin
from .reasons import line, ms, one_or_more
from .rules import NAMES, reading
from .sheet import Sheet

HEADING = "what margins prints"
UNEXPLAINED = f"This tool has other figures for it. It stands all the same: it is the proved program's answer. {REPORT}"


@dataclasses.dataclass
class Told:
    """A margin by the figures of this tool: beside which row it is shown, what is said of it, and other rows to look at."""

    margin: Margin
    row: object
    words: str
    rows: list


def explain_margins(text, answer):
    """The explanation of an answer of the program to a text."""
    return of_refusal(text, answer) if answer.refusal else of_lines(text, answer)


def told(sheet):
    """What this tool tells of each margin, in the program's order."""
    for task in sheet.tasks:
        last = last_of(sheet, task)
        if task.deadline is not None and last:
            yield of_task(task, last)
    for resource in list(sheet.bookings_on):
        yield of_resource(sheet, resource)


def of_task(task, last):
    left = task.deadline - last.end
    words = f"Task {task.id} completes at {last.end} with the {NAMES[last.kind]} of activity {last.activity} ({line(last)}), "
    words += f"{ms(abs(left))} {'before' if left > 0 else 'after'} its deadline {task.deadline}." if left else f"exactly at its deadline {task.deadline}."
    return Told(Margin("task", task.id, left), task, words, [last])


def of_resource(sheet, resource):
    limit, limit_words = limit_of(sheet, resource)
    instant, active, load = fullest(sheet, resource)
    left = limit.value - load
    taking = [(b, u) for b, u in active if u.value > 0]
    words = f"Resource {resource} holds {load} at most, first at {instant}; its limit is {limit} ({limit_words}): "
    words += f"{one_or_more(abs(left), 'unit')} {'left' if left > 0 else 'too many'}." if left else "no unit is left."
    words += running(taking) if taking else ""
    row = sheet.resource.get(resource) or sheet.bookings_on[resource][0]
    return Told(Margin("resource", resource, left), row, words, [b for b, _ in taking] + ([limit.row] if limit.row else []))


def of_lines(text, answer):
    read = reading.read_text(text, 10**9)
    sheet = Sheet(read[1]) if read[0] == "accepted" and not reading.refused_1_to_5(read[1]) else Sheet([])
    own = {(t.margin.of, t.margin.id): t for t in told(sheet)}
    in_order = [(margin.of, margin.id) for margin in answer.margins] == list(own)
    pairs = [(margin, own.pop((margin.of, margin.id), None)) for margin in answer.margins]
    beside, references = collections.defaultdict(list), collections.defaultdict(list)
    for margin, mine in pairs:
        good = mine is not None and mine.margin == margin
        place = mine.row.place if mine else 0
        beside[place].append(Block("margin", ",".join(map(str, margin)), mine.words if good else UNEXPLAINED))
        for other in sorted({row.place for row in mine.rows} - {place}) if good else []:
            references[other].append(f"{margin.of} {margin.id}")
    for place, names in references.items():
        more = f" and {len(names) - SEEN} more" if len(names) > SEEN else ""
        beside[place].append(Block("see", "see " + ", ".join(names[:SEEN]) + more))
    rows, below = one_or_more(len(sheet.rows), "row"), sum(margin.margin < 0 for margin in answer.margins)
    summary = f"{one_or_more(len(answer.margins) or 'no', 'margin')} in {rows}" + (f", {below or 'none'} below zero" if answer.margins else "")
    whole = in_order and all(mine.margin == margin for margin, mine in pairs)
    return Explanation(answer, summary, [], beside, pairs, list(own.values()), whole)
