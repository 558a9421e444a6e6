"""Check 8, check_deadlines: task by task."""
from ..reasons import Reason, Relation, line, ms, typed
from ..rules import NAMES


def last_of(sheet, task):
    """The row at whose end a task completes, or None."""
    return max((row for row in sheet.bookings + sheet.spans if row.task == task.id), key=lambda row: row.end, default=None)


def reasons(sheet):
    for task in sheet.tasks:
        last = last_of(sheet, task)
        if task.deadline is not None and last and last.end > task.deadline:
            words = f"Task {task.id} completes at {last.end} with the {NAMES[last.kind]} of activity {last.activity} ({line(last)}), "
            words += f"{ms(last.end - task.deadline)} after its deadline {task.deadline}."
            yield Reason("late", task.id, task, words, [Relation(typed(last, "end", "completion"), ">", typed(task, "deadline"))])
