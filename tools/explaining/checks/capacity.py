"""Check 5, check_capacity: for each booked resource, in the order of the first bookings."""
from ..reasons import Figure, Reason, Relation, line, listed, total, typed


def reasons(sheet):
    for resource in list(sheet.bookings_on):
        limit, limit_words = limit_of(sheet, resource)
        instant, active, load = fullest(sheet, resource)
        if load > limit.value:
            yield over(sheet, resource, instant, active, limit, limit_words)


def fullest(sheet, resource):
    """The first of the starts at which a booked resource holds most, the bookings that it holds then with what they take, and how much that is."""
    usages = [(b, usage(sheet, b)) for b in sheet.bookings_on[resource]]
    loads = {b.start: sum(u.value for x, u in usages if x.start <= b.start < x.end) for b, _ in usages}
    instant = min(loads, key=lambda start: (-loads[start], start))
    return instant, [(b, u) for b, u in usages if b.start <= instant < b.end], loads[instant]


def limit_of(sheet, resource):
    """The limit of a resource, and where it comes from in words."""
    row, lowered = sheet.resource.get(resource), sheet.capacities[resource][-1:]
    if row is None:
        limit, words = Figure("limit", 1), f"resource {resource} is not in the sheet"
    elif row.capacity < 1:
        limit, words = Figure("limit", 1), f"its capacity {row.capacity} on {line(row)} counts as 1"
    else:
        limit, words = typed(row, "capacity", "limit"), f"its capacity on {line(row)}"
    if lowered and lowered[0].max < limit.value:
        return typed(lowered[0], "max", "limit"), f"set by {line(lowered[0])}"
    return limit, words


def usage(sheet, booking):
    """What a booking takes: the usage of the first requirement of its activity that its resource is a candidate of, or 1."""
    resource = sheet.resource.get(booking.resource)
    if resource and booking.activity in sheet.activity:
        for place, requirement in enumerate(sheet.requirements[booking.activity]):
            if sheet.is_candidate(booking.activity, place, resource):
                return typed(requirement, "usage")
    return Figure("usage", 1)


def usage_words(usage):
    """Where a usage other than 1 stands."""
    return f", usage on {line(usage.row)}" if usage.value != 1 else ""


def running(taking):
    return " Then run " + listed([f"activity {b.activity}, {b.start}..{b.end}, taking {u} ({line(b)}{usage_words(u)})" for b, u in taking], 5) + "."


def over(sheet, resource, instant, active, limit, limit_words):
    peak = total("peak", *(u for _, u in active))
    taking = [(b, u) for b, u in active if u.value > 0]
    words = f"Resource {resource} holds {peak} at {instant}, its limit is {limit} ({limit_words})."
    if taking:
        words += running(taking)
    else:
        words += " Even a booking that takes nothing is above it."
    at = Figure("instant", instant)
    because = [Relation(peak, ">", limit)]
    because += [relation for b, _ in active for relation in (Relation(typed(b, "start"), "<=", at), Relation(at, "<", typed(b, "end")))]
    beside = sheet.resource.get(resource) or next(b for b in sheet.bookings_on[resource] if b.start == instant)
    return Reason("over the limit", resource, beside, words, because, [b for b, _ in taking])
