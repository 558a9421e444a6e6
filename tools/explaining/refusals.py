"""A refusal in words: what is wrong with the row at its place."""
import collections
import itertools

from . import checks, spelling
from .reasons import line, listed, one_or_more
from .rules import BYTES, CLASSES, CLASS_WORDS, COLUMNS, FINDINGS, NAMES, REFUSALS, ROWS, STRETCHED, TYPES, reading
from .sheet import Sheet, record
from .times import derived

RULES = {
    1: "rows are ten numbers each, and 800 at most",
    2: "the first field of a line is its kind, 1 to 24",
    3: "each column holds a number of its class, and a booking has a part index and a part work or neither",
    4: "the task, activity, resource, requirement or constraint that a row belongs to is in the sheet",
    5: "a task, an activity, a resource stands once; an activity has one overlap, one split, one timing for a resource; a transport stands once",
    6: "the derived time of a booking is finite and below 2^53 ms",
    7: f"there is room for {FINDINGS} findings",
    8: f"a text has at most {BYTES} bytes",
    9: "a line is whole numbers or empty fields parted by commas, as many as its kind has, and ends with a line feed",
    10: f"there is room for {ROWS} rows",
}

# Where it is shown, the words (empty where nothing was found), the byte of the line to point at, other places to look at.
Explained = collections.namedtuple("Explained", "place words at others")


def explained(number, place, text):
    """The refusal of a text in words."""
    lines = text.split(b"\n")
    by_number = {2: unknown_kind, 9: misspelt, 10: crowded}
    if number == 8:
        return overlong(text)
    return by_number[number](lines, place) if number in by_number else of_rows(number, place, text)


def unknown_kind(lines, place):
    kind = lines[place].split(b",")[0]
    if not reading.is_number(kind) or int(kind) in COLUMNS:
        return Explained(place, "", None, [])
    return Explained(place, f"The line begins with {int(kind)}, and there is no kind {int(kind)}. Was the kind left out?", 0, [])


def crowded(lines, place):
    count = len(lines) - (lines[-1] == b"")
    if place != ROWS or count <= ROWS:
        return Explained(place, "", None, [])
    return Explained(place, f"The text has {count} lines; this is line {place + 1}, the first for which there is no room.", None, [])


def overlong(text):
    if len(text) <= BYTES:
        return Explained(0, "", None, [])
    words = f"The text has {len(text)} bytes, {len(text) - BYTES} too many; the last that may stand is in this line. Nothing was read."
    return Explained(text[:BYTES].count(b"\n"), words, None, [])


def of_rows(number, place, text):
    """Refusals of a text that is well spelt."""
    read = reading.read_text(text, ROWS)
    if read[0] != "accepted":
        return Explained(place, "", None, [])
    if number == 3:
        return out_of_range(place, text.split(b"\n")[place], read[1][10 * place : 10 * place + 10])
    rows = [record(at, row) for at, row in enumerate(reading.rows_of(read[1]))] if reading.refused_1_to_5(read[1]) in (None, (number, place)) else []
    if number == 4 and rows:
        words, field, others = stray(rows, rows[place])
        return Explained(place, words, byte_of(text.split(b"\n")[place], field), others)
    if number == 5 and rows:
        return twice(rows, rows[place])
    if number == 6 and rows:
        return stretched(Sheet(read[1]), rows[place])
    if number == 7 and rows:
        return full(Sheet(read[1]))
    return Explained(place, "", None, [])


def byte_of(line_text, field):
    """Where a field of a line begins; fields count from 0, the kind is field 0."""
    return sum(len(before) + 1 for before in line_text.split(b",")[:field])


def misspelt(lines, place):
    found = spelling.faults(lines[place], place < len(lines) - 1, place)
    if not found:
        return Explained(place, "", None, [])
    return Explained(place, " ".join(fault.words for fault in found) + spelling.same_elsewhere(lines, place), found[0].at, [])


# ---- 3 ----------------------------------------------------------------------------------------------------


def out_of_range(place, text, numbers):
    kind, words, at = numbers[0], [], None
    for column, (name, value, mark) in enumerate(zip(COLUMNS[kind], numbers[1:], CLASSES[kind])):
        least, greatest, optional = reading.COLUMNS[kind][column]
        if not (least <= value <= greatest or (optional and value == reading.NONE)):
            words.append(f"Field {column + 1} ({name.replace('_', ' ')}) is {wrong_value(value, mark.rstrip('?'))}")
            at = at if at is not None else byte_of(text, column + 1)
    if kind == 23 and (numbers[7] == reading.NONE) != (numbers[8] == reading.NONE):
        has, lacks = ("index", "work") if numbers[8] == reading.NONE else ("work", "index")
        words.append(f"The booking has a part {has} but no part {lacks}: type both for a part, neither for the whole.")
    return Explained(place, " ".join(words), at, [])


def wrong_value(value, mark):
    """Why a value does not belong to a class."""
    if value == reading.NONE:
        return f"empty, and it may not be: it holds {CLASS_WORDS[mark]}."
    words = f"{value}: it holds {CLASS_WORDS[mark]}."
    if mark in ("share", "speed"):
        words += bits_words(value, mark)
    if mark == "t" and 10**13 <= value < 10**14:
        words += " Was a date typed?"
    if mark in ("t", "m") and value >= 10**14:
        words += " Were microseconds typed for milliseconds?"
    return words


def bits_words(value, mark):
    """What the value would be as bits, or which bits were meant."""
    least, greatest = reading.CLASSES[mark]
    meant = reading.bits_of(float(value))
    if abs(value) <= 1024:
        return f" The bits of {float(value)!r} are {meant}" + ("." if least <= meant <= greatest else ", which is out of range too.")
    return f" These are the bits of {reading.float_of(value % 2**64)!r}."


# ---- 4 and 5 ----------------------------------------------------------------------------------------------

OWNERS = {1: "task", 2: "activity", 11: "resource"}
PLURALS = {1: "tasks", 2: "activities", 11: "resources"}


def stray(rows, row):
    """What is not there, in words; the field that names it; the places of rows to look at."""
    column, owner = reading.OWNERS.get(row.kind, (1, None))
    name = row[1 + column]
    if owner and not any(r.kind == owner and r.id == name for r in rows):
        return absent_owner(rows, row, owner, name), column, [r.place for r in rows if r.kind in OWNERS and r.id == name]
    if row.kind in (6, 7):
        own = [r for r in rows if r.kind == 5 and r.activity == row.activity]
        return absent_requirement(row, own), 2, [r.place for r in own]
    if row.kind == 22:
        constraints = [r for r in rows if 17 <= r.kind <= 21]
        return absent_constraint(row, constraints), 1, [r.place for r in constraints]
    return "", 0, []


def absent_owner(rows, row, owner, name):
    words = f"This {NAMES[row.kind]} is of {OWNERS[owner]} {name}, which is not in the sheet. "
    known = [r.id for r in rows if r.kind == owner]
    words += f"The sheet has {PLURALS[owner] if len(known) > 1 else OWNERS[owner]} {listed(known, 8)}." if known else f"There is no {OWNERS[owner]} at all (kind {owner})."
    others = [r for r in rows if r.kind in OWNERS and r.kind != owner and r.id == name]
    return words + "".join(f" There is a {OWNERS[r.kind]} {name} ({line(r)})." for r in others).replace("a activity", "an activity")


def absent_requirement(row, own):
    if row.requirement < len(own):
        return ""
    words = f"This {NAMES[row.kind]} is of requirement {row.requirement} of activity {row.activity}, which has "
    if not own:
        return words + "no requirement (kind 5)."
    where = "at place 0" if len(own) == 1 else f"at the places 0 to {len(own) - 1}"
    return words + f"{one_or_more(len(own), 'requirement')}, {where}: places count from 0."


def absent_constraint(row, constraints):
    fitting = [f"{place} ({NAMES[r.kind]}, {line(r)})" for place, r in enumerate(constraints) if r.kind >= 20]
    words = f"This member is of constraint {row.constraint}. "
    if row.constraint < len(constraints):
        other = constraints[row.constraint]
        if other.kind >= 20:
            return ""
        words += f"That is the {NAMES[other.kind]} on {line(other)}, which has no members. "
    else:
        words += f"The sheet has {one_or_more(len(constraints) or 'no', 'constraint')} (rows of kinds 17 to 21; their places count from 0). "
    return words + (f"Members can be of {listed(fitting)}." if fitting else "There is no no-overlap (kind 20) and no synchronize (kind 21).")


def twice(rows, row):
    name = reading.name_of
    numbers = [[r.kind, *r[2:]] for r in rows]
    before = next((r for r in rows[: row.place] if name(numbers[r.place]) and name(numbers[r.place]) == name(numbers[row.place])), None)
    if before is None:
        return Explained(row.place, "", None, [])
    what = {1: "task {0}", 2: "activity {0}", 11: "resource {0}", 3: "the overlap of activity {0}", 4: "the split of activity {0}",
            9: "the speed of activity {0} on resource {1}", 10: "the fixed timing of activity {0} on resource {1}",
            14: "the transport from resource {0} to {1}"}[before.kind].format(row[2], row[3] if len(row) > 3 else "")
    words = f"{what[0].upper() + what[1:]} stands on {line(before)} already."
    words += " There it has a speed or a fixed timing, not both." * (row.kind != before.kind)
    return Explained(row.place, words + (" The later row is refused: delete one of them, or give it another id." if row.kind in OWNERS else " Delete one of them."),
                     None, [before.place])


# ---- 6 and 7 ----------------------------------------------------------------------------------------------


def stretched(sheet, booking):
    time = derived(sheet, booking)
    total = time.setup.value + time.process.value + time.teardown.value
    if time.finite and total < STRETCHED:
        return Explained(booking.place, "", None, [])
    if not time.finite:
        words = f"The time of activity {booking.activity} is not finite: {time.how}."
    else:
        words = f"Setup {time.setup} + process {time.process} + teardown {time.teardown} is {total} ms; the limit is {STRETCHED}."
        words += f" {time.how[0].upper() + time.how[1:]}." if time.how else ""
    return Explained(booking.place, words, None, sorted({row.place for row in [sheet.activity[booking.activity], *time.timings]}))


COUNTED = 10_000  # findings that are counted where there is no room for them


def full(sheet):
    """More findings than there is room for: how many of each pair, by the tool's own count."""
    pairs = collections.Counter(reason.key[:2] for reason in itertools.islice(checks.reasons(sheet), COUNTED))
    count = sum(pairs.values())
    if count <= FINDINGS:
        return Explained(0, "", None, [])
    most = [f"{number} {TYPES[kind][0]} (check {check})" for (check, kind), number in pairs.most_common(4)]
    words = f"By this tool's own count there are {'at least ' * (count == COUNTED)}{count} findings: {listed(most)}. Mend what is behind the most, and check again."
    return Explained(0, words, None, [])


def title(number, place):
    return f"refused,{number},{place}  {REFUSALS[number]}"
