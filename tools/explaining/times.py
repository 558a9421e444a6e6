"""Derived times: what a booking needs on the resources that its piece runs on, and how that comes about."""
import collections

from .reasons import Figure, line, total, typed
from .rules import reading

# The three figures; in words how they were found, where they were not simply read; the timing rows that count; whether the process is finite.
Derived = collections.namedtuple("Derived", "setup process teardown how timings finite")


def derived(sheet, booking):
    """The derived time of a booking of a known activity."""
    activity, split = sheet.activity[booking.activity], sheet.split.get(booking.activity)
    in_part = booking.part_index is not None and split is not None
    overhead = [typed(split, "overhead")] if in_part and booking.part_index > 0 else []
    running = sheet.runs_on[booking.activity, booking.part_index]
    timings = [sheet.timing[booking.activity, b.resource] for b in running if (booking.activity, b.resource) in sheet.timing]
    fixed = [fixed_time(timing, activity, booking, in_part, overhead) for timing in timings if timing.kind == 10]
    if fixed:
        return max(fixed, key=lambda d: d.setup.value + d.process.value + d.teardown.value)  # the first of equals
    process = typed(booking, "part_work", "work") if in_part else typed(activity, "process")
    teardown = with_overhead(typed(activity, "teardown"), overhead)
    return at_speed([timing for timing in timings if timing.kind == 9], typed(activity, "setup"), process, teardown)


def with_overhead(teardown, overhead):
    return total("teardown", teardown, *overhead) if overhead else teardown


def fixed_time(timing, activity, booking, in_part, overhead):
    """The time by a fixed timing, for a part its share of the process."""
    process, how = typed(timing, "process"), f"process and teardown are those of the fixed timing on {line(timing)}"
    if in_part:
        value = reading.share(timing.process, booking.part_work, activity.process)
        process = Figure("process", value)
        if activity.process:
            how = f"the process is the share of {timing.process} ms ({line(timing)}) for {booking.part_work} of {activity.process} ms of work"
    return Derived(typed(timing, "setup"), process, with_overhead(typed(timing, "teardown"), overhead), how, [timing], True)


def at_speed(timings, setup, process, teardown):
    """The time by the speeds, multiplied in booking order."""
    product = 1.0
    for timing in timings:
        product = product * reading.float_of(timing.speed)
    if product == 1.0:
        return Derived(setup, process, teardown, "the process is the work of the part" if process.name == "work" else "", timings, True)
    quotient = reading.quotient(process.value, product)
    how = f"the process is {process.value} ms ({line(process.row)}) at " + speeds(timings, product)
    if not quotient < float("inf"):
        return Derived(setup, process, teardown, how, timings, False)
    return Derived(setup, Figure("process", reading.rounded(quotient)), teardown, how, timings, True)


def speeds(timings, product):
    each = [f"{reading.float_of(timing.speed)!r} ({line(timing)})" for timing in timings]
    if len(each) == 1:
        return f"speed {each[0]}"
    return f"speed {product!r}, the product of " + " x ".join(each[:3] + [f"{len(each) - 3} more"] * (len(each) > 3))


Needed = collections.namedtuple("Needed", "figure words rows")


def needed(sheet, booking):
    """What a booking needs: its own setup with the derived process and teardown; in words; the rows that it comes from."""
    time = derived(sheet, booking)
    teardown, *overhead = time.teardown.parts or [time.teardown]
    words = f"setup {booking.setup} + process {time.process} + teardown {teardown}"
    words += "".join(f" + overhead {of_part} ({line(of_part.row)})" for of_part in overhead)
    figure = total("needed", typed(booking, "setup"), time.process, teardown, *overhead)
    return Needed(figure, words + (f"; {time.how}" if time.how else ""), [sheet.activity[booking.activity], *time.timings])
