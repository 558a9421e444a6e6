"""A second reading of the rules for office calendars (RFC 5545 text with VFREEBUSY components, read to closed windows of a
resource), made from their text and the RFC's productions alone, apart from the product and its definition.

The grammar is read from left to right: each function below that is named as a production of the RFC takes the unfolded line and
the place where the production is to start, and gives what was read and the place after it, or raises Against.

    freebusy_reading.py      holds the calendar rule to Python's datetime, every day of the years 1 to 9999, and NON-US-ASCII to
                             Python's decoder of UTF-8
"""
import datetime
import itertools
import sys

from reading import CAP, CLASSES

MOST_BYTES = 65_536
COLUMNS = 10

LETTERS = b"ABCDEFGHIJKLMNOPQRSTUVWXYZabcdefghijklmnopqrstuvwxyz"
DIGITS = b"0123456789"
NAME_CHARS = frozenset(LETTERS + DIGITS + b"-")


class Refusal(Exception):
    """A refusal by number and place, with its cause in words, which no answer has but the counts of a run."""

    def __init__(self, number, place, cause):
        super().__init__(number, place, cause)
        self.number, self.place, self.cause = number, place, cause


class Against(Exception):
    """What stands in a line is not the production that must stand there."""


# ---- 3.1: lines -------------------------------------------------------------------------------------------


def lines_of(text):
    """The unfolded lines, each with whether its CRLF is there. The text as sent decides where a line ends and what a fold is."""
    lines, line, start, at = [], bytearray(), 0, 0
    while at < len(text):
        if not text.startswith(b"\r\n", at):
            line.append(text[at])
            at += 1
        elif text[at + 2 : at + 3] in (b" ", b"\t"):
            at += 3
        else:
            at += 2
            lines.append((bytes(line), True))
            line, start = bytearray(), at
    if start < len(text):
        lines.append((bytes(line), False))
    return lines


def name_of(line, start=0):
    """The letters, digits and hyphens that stand from a place on; those of a whole line are its name."""
    at = start
    while at < len(line) and line[at] in NAME_CHARS:
        at += 1
    return line[start:at]


def same(word, expected):
    """Letters match in either case; bytes.upper changes no others."""
    return word.upper() == expected


# ---- 3.1: names, parameters, their characters -------------------------------------------------------------


def standing(line, at):
    """What stands at a place where a delimiter must, in a word."""
    if at == len(line):
        return "end of line"
    return "control" if line[at] < 0x20 or line[at] == 0x7F else "quote" if line[at] == 0x22 else "another byte"


def literal(line, at, expected, production):
    end = at + len(expected)
    if not same(line[at:end], expected):
        raise Against(production)
    return end


def iana_token(line, at, production="iana-token"):
    word = name_of(line, at)
    if word == b"":
        raise Against(production)
    return word, at + len(word)


TAIL = (0x80, 0xBF)
# The first byte from .. to, and the ranges of those that follow it (RFC 3629).
UTF8 = [
    ((0xC2, 0xDF), [TAIL]),
    ((0xE0, 0xE0), [(0xA0, 0xBF), TAIL]),
    ((0xE1, 0xEC), [TAIL, TAIL]),
    ((0xED, 0xED), [(0x80, 0x9F), TAIL]),
    ((0xEE, 0xEF), [TAIL, TAIL]),
    ((0xF0, 0xF0), [(0x90, 0xBF), TAIL, TAIL]),
    ((0xF1, 0xF3), [TAIL, TAIL, TAIL]),
    ((0xF4, 0xF4), [(0x80, 0x8F), TAIL, TAIL]),
]


def non_us_ascii(line, at):
    """The place after one sequence of RFC 3629 above U+007F."""
    for (least, most), tails in UTF8:
        if least <= line[at] <= most:
            following = line[at + 1 : at + 1 + len(tails)]
            if len(following) == len(tails) and all(low <= x <= high for x, (low, high) in zip(following, tails)):
                return at + 1 + len(tails)
    raise Against("NON-US-ASCII")


SAFE_CHAR = frozenset([0x20, 0x09, 0x21, *range(0x23, 0x2B + 1), *range(0x2D, 0x39 + 1), *range(0x3C, 0x7E + 1)])
QSAFE_CHAR = frozenset([0x20, 0x09, 0x21, *range(0x23, 0x7E + 1)])


def characters(line, at, ascii_chars):
    """The place after as many of these characters, or NON-US-ASCII ones, as stand there."""
    while at < len(line):
        if line[at] > 0x7F:
            at = non_us_ascii(line, at)
        elif line[at] in ascii_chars:
            at += 1
        else:
            break
    return at


def quoted_string(line, at):
    at = literal(line, at, b'"', "quoted-string")
    at = characters(line, at, QSAFE_CHAR)
    return literal(line, at, b'"', f"quoted-string, {standing(line, at)}")


def paramtext(line, at):
    return characters(line, at, SAFE_CHAR)


def param_value(line, at):
    return quoted_string(line, at) if line[at : at + 1] == b'"' else paramtext(line, at)


def other_values(line, at):
    at = param_value(line, at)
    while line[at : at + 1] == b",":
        at = param_value(line, at + 1)
    return at


# ---- 3.8.2.6, 3.2.9: the property -------------------------------------------------------------------------


def fbparam(line, at):
    """The FBTYPE, or None where there is none, and the place after all parameters."""
    fbtype = None
    while line[at : at + 1] == b";":
        name, at = iana_token(line, at + 1, "param-name")
        at = literal(line, at, b"=", "param")
        if not same(name, b"FBTYPE"):
            at = other_values(line, at)
        elif fbtype is not None:
            raise Against("FBTYPE once")
        else:
            fbtype, at = iana_token(line, at, "fbtypeparam")
            if line[at : at + 1] not in (b";", b":"):
                raise Against("fbtypeparam, one token")
    return fbtype, at


def freebusy(line):
    """Whether the line's type is FREE, and its periods."""
    at = literal(line, 0, b"FREEBUSY", "name")
    fbtype, at = fbparam(line, at)
    at = literal(line, at, b":", f"; or :, {standing(line, at)}")
    periods, at = fbvalue(line, at)
    if at != len(line):
        raise Against("fbvalue, what follows a period")
    return fbtype is not None and same(fbtype, b"FREE"), periods


def fbvalue(line, at):
    one, at = period(line, at)
    periods = [one]
    while line[at : at + 1] == b",":
        one, at = period(line, at + 1)
        periods.append(one)
    return periods, at


# ---- 3.3.9, 3.3.4, 3.3.5, 3.3.12: periods, dates and times ------------------------------------------------


def period(line, at):
    """(start, end) as fields of a date and time, or (start, seconds): what follows the / tells which by its first byte."""
    start, at = date_time(line, at)
    at = literal(line, at, b"/", "period")
    if has_digit(line, at):
        end, at = date_time(line, at)
    else:
        end, at = dur_value(line, at)
    return (start, end), at


def digits(line, at, count, production):
    field = line[at : at + count]
    if len(field) != count or any(x not in DIGITS for x in field):
        raise Against(production)
    return int(field), at + count


def date(line, at):
    year, at = digits(line, at, 4, "date")
    month, at = digits(line, at, 2, "date")
    day, at = digits(line, at, 2, "date")
    return (year, month, day), at


def time(line, at):
    hour, at = digits(line, at, 2, "time")
    minute, at = digits(line, at, 2, "time")
    second, at = digits(line, at, 2, "time")
    at = literal(line, at, b"Z", "Z")
    return (hour, minute, second), at


def date_time(line, at):
    day, at = date(line, at)
    at = literal(line, at, b"T", "date-time")
    clock, at = time(line, at)
    return day + clock, at


# ---- 3.3.6: durations, in seconds -------------------------------------------------------------------------

SECONDS = {b"W": 7 * 86_400, b"D": 86_400, b"H": 3_600, b"M": 60, b"S": 1}


def whole_number(field):
    """Of any length; Python converts no more than some thousand digits at once."""
    value = 0
    for at in range(0, len(field), 1000):
        piece = field[at : at + 1000]
        value = value * 10 ** len(piece) + int(piece)
    return value


def counted(line, at):
    """One or more digits and the letter after them: the letter, the seconds that they come to, the place after the letter."""
    end = at
    while end < len(line) and line[end] in DIGITS:
        end += 1
    if end == at:
        raise Against("dur-value, digits")
    letter = line[end : end + 1].upper()
    if letter not in SECONDS:
        raise Against("dur-value, letter")
    return letter, whole_number(line[at:end]) * SECONDS[letter], end + 1


def has_digit(line, at):
    return at < len(line) and line[at] in DIGITS


def dur_value(line, at):
    sign = -1 if line[at : at + 1] == b"-" else 1
    if line[at : at + 1] in (b"+", b"-"):
        at += 1
    at = literal(line, at, b"P", "dur-value")
    if same(line[at : at + 1], b"T"):
        seconds, at = dur_time(line, at)
        return sign * seconds, at
    letter, seconds, at = counted(line, at)
    if letter == b"W":  # dur-week
        return sign * seconds, at
    if letter != b"D":
        raise Against("dur-value, letter")
    if same(line[at : at + 1], b"T"):  # dur-date: dur-day and dur-time
        more, at = dur_time(line, at)
        seconds += more
    return sign * seconds, at


def dur_time(line, at):
    at = literal(line, at, b"T", "dur-time")
    letter, seconds, at = counted(line, at)
    if letter == b"H" and has_digit(line, at):
        minutes, more, at = counted(line, at)
        if minutes != b"M":
            raise Against("dur-hour")
        letter, seconds = b"M", seconds + more
    if letter == b"M" and has_digit(line, at):
        second, more, at = counted(line, at)
        if second != b"S":
            raise Against("dur-minute")
        seconds += more
    elif letter not in (b"H", b"M", b"S"):
        raise Against("dur-time")
    return seconds, at


# ---- instants ---------------------------------------------------------------------------------------------


def is_leap(year):
    return year % 4 == 0 and (year % 100 != 0 or year % 400 == 0)


def days_of_month(year, month):
    if month == 2:
        return 29 if is_leap(year) else 28
    return 30 if month in (4, 6, 9, 11) else 31


def days_before_year(year):
    """Days from the first of the year 0, which is a leap year, to that of this one."""
    before = year - 1
    return 365 * year + before // 4 - before // 100 + before // 400 + 1


def days_from_1970(year, month, day):
    return (
        days_before_year(year)
        - days_before_year(1970)
        + sum(days_of_month(year, m) for m in range(1, month))
        + day
        - 1
    )


def field_fault(fields):
    """What does not exist of a date and time, or None."""
    year, month, day, hour, minute, second = fields
    if not 1 <= month <= 12:
        return "month"
    if not 1 <= day <= days_of_month(year, month):
        return "day"
    return "hour" if hour > 23 else "minute" if minute > 59 else "second" if second > 59 else None


def ms_of(fields):
    """Milliseconds from 1 January 1970 UTC; all days have 86,400 seconds."""
    year, month, day, hour, minute, second = fields
    return 1000 * (86_400 * days_from_1970(year, month, day) + 3_600 * hour + 60 * minute + second)


def range_fault(ms):
    return "instant below 0" if ms < 0 else "instant above the last" if ms > CAP else None


def span(start, end, place):
    """The instants of a period, or refusal 12 of its start and end, then 11."""
    fault = field_fault(start) or range_fault(ms_of(start))
    if fault:
        raise Refusal(12, place, f"start: {fault}")
    first = ms_of(start)
    if isinstance(end, tuple):
        form, fault = "end", field_fault(end)
        last = None if fault else ms_of(end)
    else:
        form, fault = "duration", None
        last = first + 1000 * end
    fault = fault or range_fault(last)
    if fault:
        raise Refusal(12, place, f"{form}: {fault}")
    if last <= first:
        raise Refusal(11, place, f"{form}: " + ("at its start" if last == first else "before its start"))
    return first, last


# ---- the call ---------------------------------------------------------------------------------------------


def judged_lines(lines):
    """The FREEBUSY lines of the components, read; or refusal 11 at the least place of all lines that are refused."""
    faults, read, begun = [], [], None
    for place, (line, has_crlf) in enumerate(lines):
        if not has_crlf:
            faults.append((place, "no CRLF"))
        if same(line, b"BEGIN:VFREEBUSY"):
            if begun is None:
                begun = place
            else:
                faults.append((place, "begun inside itself"))
        elif same(line, b"END:VFREEBUSY"):
            if begun is None:
                faults.append((place, "ended unopened"))
            begun = None
        elif begun is not None and same(name_of(line), b"FREEBUSY"):
            try:
                read.append((place, *freebusy(line)))
            except Against as fault:
                faults.append((place, f"grammar: {fault}"))
    if begun is not None:
        faults.append((begun, "never ended"))
    if faults:
        raise Refusal(11, *min(faults, key=lambda fault: fault[0]))
    return read


def closures(text, resource, room):
    """The rows that a text gives where that many fit, or the refusal."""
    if len(text) > MOST_BYTES:
        raise Refusal(8, 0, "overlong")
    least, most = CLASSES["id"]
    if not least <= resource <= most:
        raise Refusal(3, 0, "resource below" if resource < least else "resource above")
    rows = []
    for place, is_free, periods in judged_lines(lines_of(text)):
        for start, end in periods:
            first, last = span(start, end, place)
            if not is_free:
                if len(rows) == room:
                    raise Refusal(13, place, "no row lent" if room == 0 else "one row too many")
                rows.append([15, resource, 1, first, last, 0, 0, 0, 0, 0])
    return rows


def judged(text, resource, lent):
    """The answer of `read`, and the cause of a refusal."""
    try:
        rows = closures(text, resource, len(lent) // COLUMNS)
    except Refusal as refusal:
        return (False, refusal.number, refusal.place, list(lent)), refusal.cause
    numbers = [x for row in rows for x in row]
    return (True, len(rows), 0, numbers + list(lent[len(numbers) :])), None


def read(text, resource, lent):
    """(True, count of rows, 0, the lent numbers after) or (False, number, place, the lent numbers as they were)."""
    return judged(text, resource, lent)[0]


# ---- held to others ---------------------------------------------------------------------------------------


def days_held():
    """How many days were compared with datetime, each in its turn."""
    day, days = datetime.date(1, 1, 1), 0
    first = datetime.date(1970, 1, 1).toordinal()
    for year in range(1, 10_000):
        for month in range(1, 13):
            for number in range(1, days_of_month(year, month) + 1):
                if (day.year, day.month, day.day) != (year, month, number):
                    raise SystemExit(f"after {days} days: {day}, and here {year}-{month}-{number}")
                if days_from_1970(year, month, number) != day.toordinal() - first:
                    raise SystemExit(f"{day}: {days_from_1970(year, month, number)}")
                days += 1
                if day < datetime.date.max:
                    day += datetime.timedelta(days=1)
    if day != datetime.date.max or days != day.toordinal():
        raise SystemExit(f"the last day is {day}, the {days}th")
    return days


def is_non_us_ascii(data):
    try:
        return characters(data, 0, frozenset()) == len(data)
    except Against:
        return False


def is_decoded(data):
    try:
        return all(ord(x) > 0x7F for x in data.decode("utf-8"))
    except UnicodeDecodeError:
        return False


def sequences():
    """Every one and two bytes, and up to four whose later bytes stand at the edges of the ranges."""
    edges = [0x00, 0x7F, 0x80, 0x8F, 0x90, 0x9F, 0xA0, 0xBF, 0xC0, 0xC2, 0xED, 0xF0, 0xFF]
    yield from (bytes(x) for length in (1, 2) for x in itertools.product(range(256), repeat=length))
    yield from (bytes(x) for length in (2, 3) for x in itertools.product(range(0x80, 256), *[edges] * length))


def sequences_held():
    count = 0
    for data in sequences():
        if is_non_us_ascii(data) != is_decoded(data):
            raise SystemExit(f"{data.hex(' ')}: {is_non_us_ascii(data)}")
        count += 1
    return count


def main():
    print(f"{days_held()} days as datetime has them, {sequences_held()} sequences as the decoder")


if __name__ == "__main__":
    sys.exit(main())
