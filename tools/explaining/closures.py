"""What closures answers to an office calendar, in words beside its unfolded lines: the rows, or a refusal and what is wrong with its line."""
import collections
import datetime

from .explanation import REPORT, Block, Explanation
from .layout import columns
from .reasons import ms, one_or_more
from .rules import BYTES, REFUSALS, ROWS, freebusy_reading as reading

HEADING = "what closures prints"
UNEXPLAINED = f"This tool reads it otherwise. It stands all the same: it is the proved program's answer. {REPORT}"
RULES = {
    3: "a resource number is 0 to 999999999",
    8: f"a calendar has at most {BYTES} bytes, folds and all",
    11: "each line ends with carriage return and line feed, each line FREEBUSY of a component keeps to RFC 5545, a component is begun and ended once, and a period ends after its start",
    12: "a date and time exists, and is an instant from 1 January 1970 to 2 October 2096, 7:06:40 UTC",
    13: f"there is room for {ROWS} rows",
}

# What a cause of the second reading says of the line.
CAUSES = {
    "no CRLF": "The line does not end with carriage return and line feed. Was the file cut, or saved with line feeds only?",
    "begun inside itself": "BEGIN:VFREEBUSY stands where a component is begun already. Were two files put into one another?",
    "ended unopened": "END:VFREEBUSY stands where no component is begun. Was the beginning cut off?",
    "never ended": "The component that begins here is never ended by a line END:VFREEBUSY. Was the end cut off?",
    "name": "After the name FREEBUSY a semicolon or a colon must follow.",
    "param-name": "After a semicolon the name of a parameter must follow: letters, digits and hyphens.",
    "param": "After the name of a parameter = must follow.",
    "FBTYPE once": "FBTYPE stands a second time.",
    "fbtypeparam": "After FBTYPE= one word of letters, digits and hyphens must follow, without quotes.",
    "fbtypeparam, one token": "FBTYPE takes one word of letters, digits and hyphens alone.",
    "NON-US-ASCII": "A byte above 127 in the value of a parameter is no UTF-8. Was it saved as Latin-1?",
    "quoted-string": "A quoted value holds a byte that it may not, or its second quote is missing.",
    "; or :": "After the parameters a colon must follow. A colon, semicolon or comma in a value stands in quotes.",
    "fbvalue, what follows a period": "After a period a comma and another period must follow, or nothing.",
    "period": "Between the start and the end of a period / must stand.",
    "date": "A date is eight digits.",
    "time": "A time is six digits.",
    "date-time": "Between a date and a time T must stand: a period begins with both.",
    "Z": "A time ends with Z: the sender must write UTC.",
    "dur-value": "A length begins with P, after a sign if it has one.",
    "dur-value, digits": "A length has digits before each of its letters.",
    "dur-value, letter": "A length has weeks (W) alone, or days (D), or T and hours (H), minutes (M) and seconds (S).",
    "dur-time": "After T a length has hours, minutes and seconds alone.",
    "dur-hour": "After the hours of a length its minutes follow: PT1H0M30S.",
    "dur-minute": "After the minutes of a length its seconds follow.",
}
TIMES = {
    "month": "has a month that does not exist",
    "day": "has a day that this month does not have",
    "hour": "has an hour above 23; 24:00 is T000000Z of the next day",
    "minute": "has a minute above 59",
    "second": "has a second above 59",
    "instant below 0": "lies before 1 January 1970 UTC",
    "instant above the last": "lies after 2 October 2096, 7:06:40 UTC",
    "at its start": "is at its start: a period ends after it",
    "before its start": "is before its start: a period ends after it",
}
WHICH = {"start": "The start of a period", "end": "The end of a period", "duration": "The end that a period's length comes to"}


def explain_closures(text, answer, resource):
    """The explanation of an answer of the program to a calendar."""
    try:
        rows = reading.closures(text, resource, ROWS)
    except reading.Refusal as refusal:
        return of_refusal(answer, refusal)
    if answer.refusal:
        return of_refusal(answer, None)
    return of_rows(text, answer, [row[:5] for row in rows])


def words_of(cause):
    """A cause of the second reading in words."""
    which, _, what = cause.partition(": ")
    if which in WHICH:
        return f"{WHICH[which]} {TIMES[what]}."
    what = what if which == "grammar" else which
    return CAUSES.get(what) or CAUSES.get(what.partition(",")[0])


def of_refusal(answer, own):
    if answer.refusal is None:  # the program accepts what this tool refuses
        return Explanation(answer, one_or_more(len(answer.rows) or "no", "row"), [UNEXPLAINED], {}, [], [], False)
    number, place = answer.refusal
    good = own is not None and (own.number, own.place) == (number, place)
    words = {3: "The resource number is out of its range.", 8: "The text is longer.", 13: f"The {ROWS + 1}st row would be of this line. Have fewer weeks sent."}
    said = (words.get(number) or words_of(own.cause)) if good else UNEXPLAINED
    block = Block("refusal", f"refused,{number},{place}  {REFUSALS[number]}", said, f"Rule: {RULES[number]}." if number in RULES else "")
    summary = f"refused by {number}, {REFUSALS[number]}" + (f", at line {place + 1}" if number in (11, 12, 13) else "") + "; no row is given"
    return Explanation(answer, summary, [], {place: [block]}, [], [], good)


def clock(instant):
    return (datetime.datetime(1970, 1, 1) + datetime.timedelta(milliseconds=instant)).strftime("%Y-%m-%d %H:%M:%S")


def of_rows(text, answer, own):
    beside, left, whole = collections.defaultdict(list), list(answer.rows), answer.rows == own
    lines = reading.judged_lines(reading.lines_of(text))
    for place, is_free, periods in lines if whole else []:
        if is_free:
            beside[place].append(Block("note", "", f"note: FBTYPE is FREE, {one_or_more(len(periods), 'period')} without a row."))
        for _ in [] if is_free else periods:
            row = left.pop(0)
            words = f"Closed from {clock(row[3])} to {clock(row[4])} UTC, {ms(row[4] - row[3])}."
            beside[place].append(Block("margin", ",".join(map(str, row)), words))
    summary = f"{one_or_more(len(answer.rows) or 'no', 'row')} of {one_or_more(len(lines), 'line')} FREEBUSY"
    return Explanation(answer, summary, [] if whole else [UNEXPLAINED], beside, [], [], whole)


def calendar_page(name, explanation, text, width, colours, every):
    """What is printed: the lines are the unfolded ones, by which a refusal counts."""
    lines = [line for line, _ in reading.lines_of(text)]
    return columns(name, explanation, lines, width, colours, every, "unfolded", HEADING)
