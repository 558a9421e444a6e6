"""Check 4, check_requirements: for each activity with requirements, piece by piece."""
from ..reasons import Figure, Reason, Relation, among, line, listed, typed


def reasons(sheet):
    for task in sheet.tasks:
        for activity in sheet.activities_of[task.id]:
            if sheet.requirements[activity.id]:
                for index, bookings in sheet.pieces(activity.id) or [(None, [])]:
                    piece = Piece(sheet, activity.id, index, bookings)
                    yield from not_at_one_time(piece)
                    yield from companions(sheet, piece)
                    yield from claims(sheet, piece)


class Piece:
    """An activity, or a part of it: its bookings, what it runs on, what it only holds."""

    def __init__(self, sheet, activity, index, bookings):
        self.activity, self.bookings = activity, bookings
        self.runs_on = sheet.runs_on.get((activity, index), [])
        self.held = sheet.held.get((activity, index), {})
        self.words = f"Activity {activity}" if index is None else f"Part {index} of activity {activity}"


def not_at_one_time(piece):
    first = piece.bookings[0] if piece.bookings else None
    other = next((b for b in piece.bookings if (b.start, b.end) != (first.start, first.end)), None)
    if other:
        words = f"{piece.words} runs {other.start} to {other.end} here, but {first.start} to {first.end} on {line(first)}."
        column = "start" if first.start != other.start else "end"
        because = [Relation(typed(other, column), "!=", typed(first, column))]
        yield Reason("not at one time", piece.activity, other, words, because)


def companions(sheet, piece):
    """For each booking that is not of a held resource, the companions that are not booked in the piece."""
    booked = among("booked resources", piece.bookings, "resource")
    for booking in piece.runs_on:
        for row in sheet.companions[booking.resource]:
            if row.companion not in booked.value:
                words = f"{piece.words} runs on resource {booking.resource}, whose companion {row.companion} ({line(row)}) is not booked with it."
                yield Reason("companion not booked", piece.activity, booking, words, [Relation(typed(row, "companion"), "not among", booked)])


def claims(sheet, piece):
    """The requirements claim, in row order, what the piece runs on, in booking order."""
    unclaimed = list(piece.runs_on)
    taken = {}  # booking: the requirement that claimed it
    for place, requirement in enumerate(sheet.requirements[piece.activity]):
        claimed = []
        for booking in list(unclaimed):
            resource = sheet.resource.get(booking.resource)
            if len(claimed) < requirement.quantity and resource and sheet.is_candidate(piece.activity, place, resource):
                claimed.append(booking)
                unclaimed.remove(booking)
                yield from lacking_skills(sheet, place, requirement, booking)
        if len(claimed) < requirement.quantity:
            yield unfilled(sheet, piece, place, requirement, claimed, taken)
        taken.update((booking, requirement) for booking in claimed)


def lacking_skills(sheet, place, requirement, booking):
    has = among("skills", sheet.skills[booking.resource], "skill")
    for wanted in sheet.wanted_skills[requirement.activity, place]:
        if wanted.skill not in has.value:
            words = f"Resource {booking.resource} fills requirement {place} of activity {requirement.activity} ({line(requirement)}), which wants "
            words += f"skill {wanted.skill} ({line(wanted)}). It has " + (f"only skill{'s' * (len(has.value) > 1)} {listed(sorted(has.value))}." if has.value else "no skill.")
            because = [Relation(typed(wanted, "skill"), "not among", has)]
            yield Reason("skill lacking", booking.resource, booking, words, because, [requirement] + sheet.skills[booking.resource])


def unfilled(sheet, piece, place, requirement, claimed, taken):
    pool = sheet.candidates[requirement.activity, place]
    wants = f"{requirement.quantity} of type {requirement.type}"
    if pool:
        wants = f"{requirement.quantity} of the candidates (resource{'s' * (len(pool) > 1)} {listed([row.resource for row in pool])})"
    words = f"{piece.words}, requirement {place}, wants {wants} and gets {len(claimed)}"
    words += f" (resource {listed([b.resource for b in claimed])})." if claimed else "."
    if not piece.bookings:
        words += " It is not booked at all."
    for booking in [b for b in piece.bookings if b not in claimed][:4]:
        words += f" {line(booking).capitalize()}: resource {booking.resource} {why_not(sheet, piece, place, requirement, booking, taken)}."
    because = [Relation(Figure("claimed", len(claimed)), "<", typed(requirement, "quantity"))]
    rows = [*piece.bookings, *pool, *piece.held.values(), *(taken[b] for b in piece.bookings if b in taken)]
    rows += [sheet.resource[b.resource] for b in piece.bookings if b.resource in sheet.resource]
    return Reason("requirement unfilled", requirement.activity, requirement, words, because, rows)


def why_not(sheet, piece, place, requirement, booking, taken):
    """Why the resource of a booking does not fill the requirement."""
    resource, holder = sheet.resource.get(booking.resource), piece.held.get(booking.resource)
    if holder:
        return f"is held as companion of {holder.resource} ({line(holder)}), and so fills nothing"
    if booking in taken:
        return f"fills the requirement on {line(taken[booking])} already"
    if resource is None:
        return "is not in the sheet"
    if sheet.candidates[requirement.activity, place]:
        return "is none of the candidates"
    return f"is of type {resource.type} ({line(resource)}), not {requirement.type}"
