"""An accepted sheet: its rows by name, and who belongs to whom."""
import collections

from .rules import COLUMNS, NAMES, reading

# A row of each kind: its place, its kind, then its columns by name; none is None.
RECORDS = {kind: collections.namedtuple(NAMES[kind].title().replace(" ", "").replace("-", ""), ["place", "kind"] + columns)
           for kind, columns in COLUMNS.items()}


def record(place, numbers):
    kind = numbers[0]
    columns = [None if x == reading.NONE else x for x in numbers[1 : 1 + len(COLUMNS[kind])]]
    return RECORDS[kind](place, kind, *columns)


def by(rows, *columns):
    """The rows grouped by some of their columns, in row order."""
    groups = collections.defaultdict(list)
    for row in rows:
        key = tuple(getattr(row, column) for column in columns)
        groups[key[0] if len(key) == 1 else key].append(row)
    return groups


Time = collections.namedtuple("Time", "start end starting ending")  # and the rows with that start and that end


class Sheet:
    def __init__(self, numbers):
        self.rows = [record(place, row) for place, row in enumerate(reading.rows_of(numbers))]
        kinds = by(self.rows, "kind")
        self.tasks, self.activities, self.resources = kinds[1], kinds[2], kinds[11]
        self.task = {row.id: row for row in kinds[1]}
        self.activity = {row.id: row for row in kinds[2]}
        self.resource = {row.id: row for row in kinds[11]}
        self.activities_of = by(kinds[2], "task")
        self.overlap = {row.activity: row for row in kinds[3]}
        self.split = {row.activity: row for row in kinds[4]}
        self.requirements = by(kinds[5], "activity")
        self.candidates = by(kinds[6], "activity", "requirement")
        self.wanted_skills = by(kinds[7], "activity", "requirement")
        self.predecessors = by(kinds[8], "activity")
        self.timing = {(row.activity, row.resource): row for row in kinds[9] + kinds[10]}
        self.skills = by(kinds[12], "resource")
        self.companions = by(kinds[13], "resource")
        self.transport = {(row.resource, row.to): row for row in kinds[14]}
        self.windows_of_resource = by(kinds[15], "resource")
        self.windows_of_activity = by(kinds[16], "activity")
        self.calendars = {}  # those that were asked for
        self.constraints = [row for row in self.rows if 17 <= row.kind <= 21]
        self.capacities = by(kinds[18], "resource")
        self.members = by(kinds[22], "constraint")
        self.bookings, self.spans = kinds[23], kinds[24]
        self.bookings_of = by(kinds[23], "activity")
        self.bookings_on = by(kinds[23], "resource")
        self.spans_of = by(kinds[24], "activity")
        self.piece = by(kinds[23], "activity", "part_index")
        self.held = {piece: self.holders(bookings) for piece, bookings in self.piece.items()}
        self.runs_on = {piece: [b for b in bookings if b.resource not in self.held[piece]] for piece, bookings in self.piece.items()}

    def holders(self, bookings):
        """The resources that the piece with these bookings only holds, each with the companion row by which it does."""
        rows = [row for b in bookings for row in self.companions[b.resource] if row.companion != b.resource]
        booked = {b.resource for b in bookings}
        return {row.companion: row for row in reversed(rows) if row.companion in booked}

    def pieces(self, activity):
        """The pieces of an activity, each with its bookings: without index first, then by index."""
        found = by(self.bookings_of.get(activity, []), "part_index")
        return sorted(found.items(), key=lambda item: (item[0] is not None, item[0] or 0))

    def time(self, activity):
        """The time of an activity: of its first time-only span if it has one, else of its bookings; or None."""
        rows = self.spans_of.get(activity, [])[:1] or self.bookings_of.get(activity, [])
        if not rows:
            return None
        first, last = min(rows, key=lambda row: row.start), max(rows, key=lambda row: row.end)
        return Time(first.start, last.end, first, last)

    def is_candidate(self, activity, place, resource):
        """Whether a resource of the sheet may fill the requirement at this place of the activity."""
        listed = self.candidates.get((activity, place))
        if listed:
            return any(row.resource == resource.id for row in listed)
        return resource.type == self.requirements[activity][place].type
