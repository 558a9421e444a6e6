"""Refusal 9: what is wrong with the spelling of a line."""
import collections
import re

from .reasons import listed, one_or_more
from .rules import CLASSES, COLUMNS, NAMES, reading

BOM = b"\xef\xbb\xbf"
Fault = collections.namedtuple("Fault", "words at")  # at: the byte of the line that it begins with

MISTYPED = [  # a pattern for a whole field, and what is wrong with it
    (rb'".*"?|\'.*\'?|.*"', "is in quotes: numbers are typed bare"),
    (rb"\+\d+", "has a plus sign: leave it out"),
    (rb"-0+", "is minus zero: type 0"),
    (rb"-", "is a minus without digits; none is an empty field"),
    (rb"-?0\d+", "has a leading zero: leave it out"),
    (rb"-?\d{1,3}([_' .]\d{3}){2,}|-?\d{1,3}([_' ]\d{3})+", "has marks between its digits: leave them out"),
    (rb"-?\d*\.\d*", "has a decimal point: numbers are whole, times are whole milliseconds"),
    (rb"-?\d+(\.\d+)?[eE][+-]?\d+", "has an exponent, as spreadsheets write large numbers: type all its digits"),
    (rb"-?\d{19,}", "is too far from 0: a number lies above -2^63 and below 2^63"),
    (rb"0[xX][0-9a-fA-F]+", "is in hexadecimal: type it in decimal"),
    (rb"\d{1,2}:\d{2}(:\d{2})?", "is a clock time: instants are milliseconds from the zero of the sheet"),
    (rb"\d{4}-\d{2}-\d{2}.*|\d{1,2}[./]\d{1,2}[./]\d{2,4}", "is a date: instants are milliseconds from the zero of the sheet"),
    (rb"(?i)none|null|nil|nan|n/a|-+|\?", "is a word for none: none is an empty field"),
    (rb"(?i)true|false|yes|no", "is a word for yes or no: type 1 or 0"),
    (rb"-?\d+[a-zA-Z]+", "has a unit: type the number alone, times in milliseconds"),
    (rb"\xe2(\x88\x92|\x80\x93|\x80\x94)\d*", "has a dash in place of the minus sign (-)"),
    (rb".*[\x80-\xff].*", "has a character that is not ASCII"),
    (rb".*[\x00-\x1f\x7f].*", "has a control character"),
]


def faults(line, is_ended, place):
    """What is wrong with a line, the first thing first; empty where the line is well spelt."""
    edges = list(at_the_edges(line, is_ended, place))
    start = len(BOM) if line.startswith(BOM) else 0
    inner = line[start:].rstrip(b"\r")
    if b"\r" in inner:
        return [Fault("Carriage returns stand inside the line: end lines by line feeds, not by carriage returns.", inner.index(b"\r") + start)]
    whole = not_a_row(inner)
    if whole:
        return edges + [Fault(whole, start)]
    return edges + list(wrong_fields(inner, start)) + list(wrong_count(inner, start))


def at_the_edges(line, is_ended, place):
    if line.startswith(BOM) and place == 0:
        yield Fault("The text begins with a byte order mark (the bytes EF BB BF): save it as plain text, without the mark.", 0)
    if line.endswith(b"\r"):
        yield Fault("The line ends with a carriage return before its line feed: save the text with line feeds alone.", len(line.rstrip(b"\r")))
    if not is_ended and line:
        yield Fault("The last line has no line feed at its end: was the file cut? If nothing is missing, press Enter there and save.", len(line))


def not_a_row(line):
    """What a line is that was not meant as a row, or whose fields are not parted by commas."""
    if line.startswith((b"\xff\xfe", b"\xfe\xff")) or line[1:2] == b"\0":
        return "The text is saved as UTF-16: save it as plain ASCII."
    if line.strip(b" \t") == b"":
        return "The line is empty: delete it. Each line is a row." if line == b"" else "The line has only blanks: delete it."
    if line.lstrip(b" \t").startswith((b"#", b"//", b";", b"--", b"%", b"/*", b"!")):
        return "The line is a remark, and a sheet has none: delete it."
    if re.match(rb'[ \t"]*[A-Za-z]', line):
        return "The line begins with a word, not with the number of a kind: a header, a title or a remark. Delete it."
    for mark, name in ((b";", "semicolons"), (b"\t", "tabs"), (b"|", "bars")):
        if mark in line and line.count(mark) >= line.count(b","):
            return f"The fields are parted by {name}: type commas."
    if b"," not in line and re.fullmatch(rb"\d+( +-?\d+)+ *", line):
        return "The fields are parted by blanks: type commas."
    return None


def wrong_fields(line, start):
    """The fields that are no numbers, the first three in words; and blanks about fields, once for the line. The kind is field 0."""
    at, blanks, wrong = start, [], []
    fields = line.split(b",")
    for number, field in enumerate(fields):
        bare = field.strip(b" \t")
        if bare != field:
            blanks.append((number, at if field[:1] in (b" ", b"\t") else at + len(bare)))
        if number == 0 and bare == b"":
            wrong.append(Fault("The line begins with a comma: the number of the kind is missing.", at))
        elif bare and not reading.is_number(bare):
            wrong.append(Fault(f"Field {number}{column_words(fields, number)} {mistyped(fields, number, bare)}.", at))
        at += len(field) + 1
    yield from wrong[:3]
    if len(wrong) > 3:
        yield Fault(f"{one_or_more(len(wrong) - 3, 'more field')} of the line {'is' if len(wrong) == 4 else 'are'} no number.", wrong[3].at)
    if blanks:
        what = "tabs" if b"\t" in line and b" " not in line else "blanks"
        where = f"field {blanks[0][0]}" if len(blanks) == 1 else f"fields {listed([number for number, _ in blanks])}"
        yield Fault(f"There are {what} in {where}: delete them.", blanks[0][1])


def kind_of(fields):
    first = fields[0].strip(b" \t")
    kind = int(first) if reading.is_number(first) else None
    return kind if kind in COLUMNS else None


def column_words(fields, number):
    """The name of the column, where the kind is known."""
    kind = kind_of(fields)
    if number == 0:
        return " (the kind)"
    if kind is None or number > len(COLUMNS[kind]):
        return ""
    return f" ({COLUMNS[kind][number - 1].replace('_', ' ')})"


def mistyped(fields, number, bare):
    """What a field is in place of a number."""
    kind = kind_of(fields)
    if kind and 0 < number <= len(COLUMNS[kind]) and CLASSES[kind][number - 1] in ("share", "speed"):
        try:
            return f"must be typed as the whole number that has the bits of the float: for {float(bare)!r} that is {reading.bits_of(float(bare))}"
        except ValueError:
            pass
    for pattern, words in MISTYPED:
        if re.fullmatch(pattern, bare, re.DOTALL):
            return words
    return "is no number (digits, with a minus before them where it is below 0)"


def wrong_count(line, start):
    """Too few or too many fields for the kind; nothing is said where the kind is unknown, for that is refusal 2.

    What commas were left out is said only where the row is in range with them at its end.
    """
    fields = line.split(b",")
    kind, typed = kind_of(fields), len(fields) - 1
    columns = [column.replace("_", " ") for column in COLUMNS.get(kind, [])]
    if kind is None or typed == len(columns):
        return
    wanted = f"{one_or_more(len(columns), 'column')} after the kind: {', '.join(columns)}" if columns else "no column after the kind"
    words = f"A row of kind {kind} ({NAMES[kind]}) has {wanted}. Typed are {typed}: "
    if typed > len(columns):
        words += f"{one_or_more(typed - len(columns), 'comma')} too many"
        words += ": does one stand inside a number, or was the kind left out?" if any(fields[1 + len(columns) :]) else " at the end."
    else:
        commas = len(columns) - typed
        words += f"{one_or_more(commas, 'comma')} missing. "
        bare = [field.strip(b" \t") for field in fields] + [b""] * commas
        if in_range(bare):
            words += f"{listed(columns[typed:]).capitalize()} may be empty, but {'its comma' if commas == 1 else 'their commas'} must stand: "
            words += f"type {b','.join(bare).decode()} with the comma{'s' * (commas > 1)} at the end."
        else:
            words += f"Which column is not there? Is {kind} its kind?"
    yield Fault(words, start + len(line))


def in_range(fields):
    """Whether fields, as many as their kind has, would not be refused by 3."""
    well_spelt = all(field == b"" or reading.is_number(field) for field in fields)
    return well_spelt and not reading.out_of_range([reading.NONE if field == b"" else int(field) for field in fields])


def same_elsewhere(lines, place):
    """How many other lines are misspelt, in words."""
    others = sum(1 for at, line in enumerate(lines[:-1]) if at != place and faults(line, True, at))
    ends = sum(1 for line in lines[:-1] if line.endswith(b"\r"))
    if lines[place].endswith(b"\r") and ends > 1:
        return f" {ends} lines end so."
    return f" {one_or_more(others, 'other line')} {'is' if others == 1 else 'are'} misspelt too." if others else ""
