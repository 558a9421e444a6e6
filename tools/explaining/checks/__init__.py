"""The nine checks, a file for each function of the Rust: each gives the reasons for its findings, in the order of the findings."""
from . import assignments, calendars, capacity, constraints, deadlines, parts, precedence, requirements, time_only

CHECKS = [assignments, time_only, parts, requirements, capacity, calendars, precedence, deadlines, constraints]


def reasons(sheet):
    """The reasons for all findings of an accepted sheet, one after the other."""
    for check in CHECKS:
        yield from check.reasons(sheet)
