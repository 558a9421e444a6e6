"""Check 6, check_calendars: for each booking of a resource of the sheet."""
from .. import calendars
from ..reasons import Reason, Relation, ms
from ..times import needed


def reasons(sheet):
    for booking in sheet.bookings:
        if booking.resource in sheet.resource:
            activity = sheet.activity.get(booking.activity)
            if activity and activity.resumable:
                yield from resumable(sheet, booking)
            else:
                yield from plain(sheet, booking, activity)


def resumable(sheet, booking):
    """One finding, whether it starts in a pause, has too little working time, or both."""
    piece = sheet.piece[booking.activity, booking.part_index]
    resources = dict.fromkeys(b.resource for b in piece if b.resource in sheet.resource)
    joint = [calendars.of_resource(sheet, r) for r in resources] + [calendars.of_activity(sheet, booking.activity)]
    given, stretches = calendars.worked(joint, booking)
    need = needed(sheet, booking)
    words, because = calendars.pauses(joint, booking)
    rows = []
    what = f"Resumable activity {booking.activity} on resource {booking.resource}"
    words = [f"{what} starts at {booking.start}, and {words}."] if words else []
    if given.value < need.figure.value:
        words.append(f"{'It' if words else what} has {given} ms of joint working time in {booking.start} to {booking.end}{stretches} but needs "
                     f"{need.figure} ms: {ms(need.figure.value - given.value)} short. Needed: {need.words}.")
        rows = need.rows + [row for calendar in joint for row in calendar.rows]
    cause = "booking starts in a pause" if because else "too little working time"
    because = because + [Relation(given, "<", need.figure)] * bool(rows)
    if because:
        yield Reason(cause, booking.resource, booking, " ".join(words), because, rows)


def plain(sheet, booking, activity):
    words, because = calendars.misses(calendars.of_resource(sheet, booking.resource), booking)
    if because:
        said = f"Activity {booking.activity} is booked {booking.start} to {booking.end}. {words}"
        yield Reason("outside the resource's windows", booking.resource, booking, said, because)
    if activity:
        words, because = calendars.misses(calendars.of_activity(sheet, activity.id), booking)
        if because:
            said = f"Activity {activity.id} is booked {booking.start} to {booking.end}. {words}"
            yield Reason("outside the activity's windows", activity.id, booking, said, because)
