"""A second reading of the rules, made from its text alone and apart from the product: the refusals 1 to 6,
the text, derived times and calendar time. Each function stands beside the part of the rules that it names.
The findings of accepted sheets are not here: they come from the reference (reference/).

An answer is ("refused", NUMBER, PLACE) or ("accepted", ...).
"""
import struct

NONE = -(2**63)
CAP = 4_000_000_000_000


def float_of(bits):
    """The binary64 number with these bits."""
    return struct.unpack("<d", struct.pack("<Q", bits))[0]


def bits_of(x):
    """The bits of a binary64 number."""
    return struct.unpack("<q", struct.pack("<d", x))[0]


# ---- The call: column classes and kinds -------------------------------------------------------------------

CLASSES = {
    "id": (0, 999_999_999),
    "n": (-1_000_000, 1_000_000),
    "u": (0, 1_000_000),
    "t": (0, CAP),
    "m": (0, CAP),
    "g": (-CAP, CAP),
    "f": (0, 1),
    # Float bits, sign clear, in the order of the floats: 0.0 to 1.0, and 2^-10 to 2^10.
    "share": (0, bits_of(1.0)),
    "speed": (bits_of(2.0**-10), bits_of(2.0**10)),
}

KINDS = {
    1: ("task", "id t? t?"),
    2: ("activity", "id id n m m m f t?"),
    3: ("overlap", "id share g"),
    4: ("split", "id n m m"),
    5: ("requirement", "id id n u"),
    6: ("candidate", "id u id"),
    7: ("wanted skill", "id u id"),
    8: ("predecessor", "id id"),
    9: ("speed", "id id speed"),
    10: ("fixed timing", "id id m m m"),
    11: ("resource", "id id n"),
    12: ("skill", "id id"),
    13: ("companion", "id id"),
    14: ("transport", "id id m"),
    15: ("resource window", "id f t t"),
    16: ("activity window", "id f t t"),
    17: ("precedence", "id id g"),
    18: ("capacity", "id n"),
    19: ("time window", "id t t"),
    20: ("no-overlap", "id"),
    21: ("synchronize", ""),
    22: ("member", "u id"),
    23: ("booking", "id id id t t m n? m?"),
    24: ("time-only span", "id id t t"),
}

# The columns of a kind as (least, greatest, may be none).
COLUMNS = {
    kind: [CLASSES[c.rstrip("?")] + (c.endswith("?"),) for c in columns.split()]
    for kind, (_, columns) in KINDS.items()
}

# Which column names an owner, and of which kind the owner is.
OWNERS = {2: (2, 1)}
OWNERS.update({kind: (1, 2) for kind in (3, 4, 5, 6, 7, 8, 9, 10, 16)})
OWNERS.update({kind: (1, 11) for kind in (12, 13, 14, 15)})

# Every t column, for shifts: (kind, column).
INSTANTS = [
    (kind, at + 1)
    for kind, (_, columns) in KINDS.items()
    for at, c in enumerate(columns.split())
    if c in ("t", "t?")
]


def rows_of(numbers):
    return [numbers[i : i + 10] for i in range(0, len(numbers), 10)]


# ---- Refusals 1 to 5 --------------------------------------------------------------------------------------


def misshapen(numbers):
    return len(numbers) % 10 != 0 or len(numbers) > 8000


def out_of_range(row):
    columns = COLUMNS[row[0]]
    for (least, greatest, optional), x in zip(columns, row[1:]):
        if not (least <= x <= greatest or (optional and x == NONE)):
            return True
    if any(row[1 + len(columns) :]):
        return True
    half_a_part = row[0] == 23 and (row[7] == NONE) != (row[8] == NONE)
    return half_a_part


def first_stray(rows):
    """The first row with a * owner that is absent. Owners may come later than what they own."""
    known = {kind: {r[1] for r in rows if r[0] == kind} for kind in (1, 2, 11)}
    requirements = {}
    for r in rows:
        if r[0] == 5:
            requirements[r[1]] = requirements.get(r[1], 0) + 1
    constraints = [r[0] for r in rows if 17 <= r[0] <= 21]
    for place, r in enumerate(rows):
        if r[0] in OWNERS:
            column, owner = OWNERS[r[0]]
            if r[column] not in known[owner]:
                return place
        if r[0] in (6, 7) and r[2] >= requirements.get(r[1], 0):
            return place
        if r[0] == 22 and (r[1] >= len(constraints) or constraints[r[1]] not in (20, 21)):
            return place
    return None


def name_of(row):
    """What may stand in a sheet only once, or None."""
    kind = row[0]
    if kind in (1, 2, 11, 3, 4):  # an id, or the activity of an overlap or of a split
        return (kind, row[1])
    if kind in (9, 10):
        return ("timing", row[1], row[2])
    if kind == 14:
        return (kind, row[1], row[2])
    return None


def first_twice(rows):
    seen = set()
    for place, r in enumerate(rows):
        name = name_of(r)
        if name is not None:
            if name in seen:
                return place
            seen.add(name)
    return None


def refused_1_to_5(numbers):
    """The refusal by 1 to 5 as (number, place), or None."""
    if misshapen(numbers):
        return (1, 0)
    rows = rows_of(numbers)
    for place, r in enumerate(rows):
        if not 1 <= r[0] <= 24:
            return (2, place)
        if out_of_range(r):
            return (3, place)
    place = first_stray(rows)
    if place is not None:
        return (4, place)
    place = first_twice(rows)
    if place is not None:
        return (5, place)
    return None


# ---- Derived times and refusal 6 --------------------------------------------------------------------------


def rounded(x):
    """A finite float, 0 or more, to the nearest whole number, halves away from zero: exact."""
    down = int(x)
    return down + 1 if x - down >= 0.5 else down


def quotient(process, product):
    """process / product as IEEE 754 has it, for a product of 0 or more."""
    if product == 0.0:
        return float("nan") if process == 0 else float("inf")
    return process / product


def share(ms, work, whole):
    return ms if whole == 0 else (2 * ms * work + whole) // (2 * whole)


def overlap_start(bits, start, end):
    """The earliest start after an overlapped step: one rounding, then the ceiling."""
    x = float_of(bits) * float(end - start)
    up = int(x)
    return start + (up + 1 if x > up else up)


class Sheet:
    """The parts of an accepted sheet that derived times and calendars look at."""

    def __init__(self, numbers):
        self.rows = rows_of(numbers)
        self.activity, self.split, self.timing, self.companions = {}, {}, {}, {}
        self.resources = set()
        self.pieces = {}
        for r in self.rows:
            if r[0] == 2:
                self.activity[r[1]] = (r[4], r[5], r[6])
            elif r[0] == 4:
                self.split[r[1]] = r[4]
            elif r[0] == 9:
                self.timing[r[1], r[2]] = float_of(r[3])
            elif r[0] == 10:
                self.timing[r[1], r[2]] = (r[3], r[4], r[5])
            elif r[0] == 11:
                self.resources.add(r[1])
            elif r[0] == 13:
                self.companions.setdefault(r[1], set()).add(r[2])
            elif r[0] == 23:
                self.pieces.setdefault((r[1], r[7]), []).append(r[3])
        self.running = {piece: self.runs_on(on) for piece, on in self.pieces.items()}

    def runs_on(self, booked):
        """A piece's resources in booking order, without those held as companion of another of them."""
        held = {
            c for r in set(booked) for c in self.companions.get(r, ()) if c != r
        }
        return [r for r in booked if r not in held]

    def derived(self, booking):
        """The setup, process and teardown that a booking of a known activity is timed with; the process is
        None where it is not finite."""
        _, activity, _, _, _, _, _, index, work, _ = booking
        setup, process, teardown = self.activity[activity]
        whole, in_part = process, index != NONE and activity in self.split
        overhead = self.split[activity] if in_part and index > 0 else 0
        if in_part:
            process = work
        timings = [self.timing.get((activity, r)) for r in self.running[activity, index]]
        best = None
        for timing in timings:
            if isinstance(timing, tuple):
                s, p, t = timing
                fixed = (s, share(p, work, whole) if in_part else p, t + overhead)
                if best is None or sum(fixed) > sum(best):
                    best = fixed
        if best is not None:
            return best
        product = 1.0
        for timing in timings:
            if isinstance(timing, float):
                product = product * timing
        teardown = teardown + overhead
        if product == 1.0:
            return (setup, process, teardown)
        q = quotient(process, product)
        return (setup, rounded(q) if q < float("inf") else None, teardown)


def stretched(derived):
    return derived[1] is None or sum(derived) >= 2**53


def refused_6(numbers):
    """The first booking of a known activity that is refused by 6, or None. The sheet passes 1 to 5."""
    sheet = Sheet(numbers)
    for place, r in enumerate(sheet.rows):
        if r[0] == 23 and r[1] in sheet.activity and stretched(sheet.derived(r)):
            return (6, place)
    return None


def refused_1_to_6(numbers):
    return refused_1_to_5(numbers) or refused_6(numbers)


# ---- Calendar time ----------------------------------------------------------------------------------------


def works(opens, closures, x):
    """Whether the millisecond x is working time. A window whose start is its end or later holds none."""
    is_open = not opens or any(s <= x < e for s, e in opens)
    return is_open and not any(s <= x < e for s, e in closures)


def stretches(opens, closures, start):
    """The working time from start on, as (from, to, works) between the edges of windows; the last has no end."""
    edges = sorted({start} | {x for w in opens + closures for x in w if x > start})
    ends = edges[1:] + [None]
    return [(a, b, works(opens, closures, a)) for a, b in zip(edges, ends)]


def work_end(opens, closures, start, work):
    """("end", instant), ("pause",) or ("never",)."""
    if not works(opens, closures, start):
        return ("pause",)
    if work <= 0:
        return ("end", start)
    left = work
    for a, b, is_work in stretches(opens, closures, start):
        if is_work:
            if b is None or b - a >= left:
                return ("end", a + left)
            left -= b - a
    return ("never",)


def available_ms(calendars, start, end):
    """The milliseconds of start..end at which every calendar works; a calendar is (opens, closures)."""
    if end <= start:
        return 0
    edges = {x for opens, closures in calendars for w in opens + closures for x in w if start < x < end}
    edges = sorted(edges | {start, end})
    return sum(b - a for a, b in zip(edges, edges[1:]) if all(works(o, c, a) for o, c in calendars))


def interval_fits(opens, closures, start, end):
    in_window = not opens or any(start >= s and end <= e for s, e in opens)
    return in_window and not any(start < e and s < end for s, e in closures)


def work_end_inquiry(numbers, resource, start, work):
    refusal = refused_1_to_5(numbers)
    if refusal:
        return ("refused",) + refusal
    if not (CLASSES["t"][0] <= start <= CLASSES["t"][1] and CLASSES["g"][0] <= work <= CLASSES["g"][1]):
        return ("refused", 3, 0)
    windows = [r for r in rows_of(numbers) if r[0] == 15 and r[1] == resource]
    opens = [(r[3], r[4]) for r in windows if r[2] == 0]
    closures = [(r[3], r[4]) for r in windows if r[2] == 1]
    return work_end(opens, closures, start, work)


# ---- Text -------------------------------------------------------------------------------------------------

DIGITS = b"0123456789"


def is_number(field):
    """An optional minus and decimal digits, no leading zero, no -0, above -2^63 and below 2^63."""
    digits = field[1:] if field[:1] == b"-" else field
    if digits == b"" or any(d not in DIGITS for d in digits):
        return False
    if digits[:1] == b"0" and field != b"0" or len(digits) > 19:
        return False
    return -(2**63) < int(field) < 2**63


def refused_line(line, is_ended, place, lent):
    """The number by which a line is refused, or None."""
    fields = line.split(b",")
    if not is_ended or fields[0] == b"" or any(f != b"" and not is_number(f) for f in fields):
        return 9
    kind = int(fields[0])
    if not 1 <= kind <= 24:
        return 2
    if len(fields) != 1 + len(COLUMNS[kind]):
        return 9
    if place >= lent:
        return 10
    return None


def read_text(text, lent):
    """("refused", number, place), or ("accepted", numbers) with ten numbers for each line."""
    if len(text) > 65536:
        return ("refused", 8, 0)
    lines = text.split(b"\n")
    rest = lines.pop()  # what stands after the last line feed
    ended = [(line, True) for line in lines] + ([(rest, False)] if rest else [])
    numbers = []
    for place, (line, is_ended) in enumerate(ended):
        number = refused_line(line, is_ended, place, lent)
        if number:
            return ("refused", number, place)
        row = [NONE if f == b"" else int(f) for f in line.split(b",")]
        numbers += row + [0] * (10 - len(row))
    return ("accepted", numbers)


def spelled(numbers):
    """A text for rows of known kinds."""
    lines = []
    for r in rows_of(numbers):
        row = r[: 1 + len(COLUMNS[r[0]])]
        lines.append(",".join("" if x == NONE else str(x) for x in row) + "\n")
    return "".join(lines).encode()


# ---- Shifts -----------------------------------------------------------------------------------------------


def shifted(numbers, by):
    """The sheet with a number of milliseconds added to every instant; none stays none."""
    rows = [list(r) for r in rows_of(numbers)]
    for r in rows:
        for kind, column in INSTANTS:
            if r[0] == kind and r[column] != NONE:
                r[column] += by
    return [x for r in rows for x in r]
