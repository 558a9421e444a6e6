#!/usr/bin/env python3
"""Tries whether the generated texts and the stored cases show the faults that a reader of office calendars can have.

    freebusy_faults.py [COUNT] [SEED]        by default 8000 texts of `all`, seed 1

Each fault is an edit of freebusy_reading.py, loaded beside it. Printed for each: how many texts, and how many stored cases, it answers
otherwise, as far as ten. The exit status is 1 where one is answered alike throughout, in texts or in cases.
"""
import importlib.util
import itertools
import os
import sys

import freebusy_reading as reading
import freebusy_texts as texts

HERE = os.path.dirname(os.path.abspath(__file__))
sys.path.append(os.path.join(os.path.dirname(HERE), "cases"))

import freebusy_cases  # noqa: E402

ENOUGH = 10

FAULTS = [
    # lines and folds
    ("a tab makes no fold", 'in (b" ", b"\\t"):', 'in (b" ",):'),
    ("a fold keeps its space", "            at += 3\n", "            at += 2\n"),
    ("a fold takes a second space too", "            at += 3\n", '            at += 4 if text[at + 3 : at + 4] == b" " else 3\n'),
    ("unfolded before lines are parted", "    lines, line, start, at = [], bytearray(), 0, 0\n",
     '    text = text.replace(b"\\r\\n ", b"").replace(b"\\r\\n\\t", b"")\n    lines, line, start, at = [], bytearray(), 0, 0\n'),
    ("a last line of nothing but a fold is none", "    if start < len(text):\n", "    if line:\n"),
    ("LF alone ends a line", '        if not text.startswith(b"\\r\\n", at):\n',
     '        if text[at] == 10:\n            at += 1\n            lines.append((bytes(line), True))\n            line, start = bytearray(), at\n        elif not text.startswith(b"\\r\\n", at):\n'),
    ("a line without its CRLF passes", "        if not has_crlf:\n", "        if False:\n"),
    ("a line without its CRLF is not read", "        if same(line, b\"BEGIN:VFREEBUSY\"):\n", "        if not has_crlf:\n            continue\n        if same(line, b\"BEGIN:VFREEBUSY\"):\n"),
    ("a byte order mark is dropped", "    lines, line, start, at = [], bytearray(), 0, 0\n", '    text = text.removeprefix(b"\\xef\\xbb\\xbf")\n    lines, line, start, at = [], bytearray(), 0, 0\n'),
    ("places count lines as sent", "            at += 3\n", "            at += 3\n            lines.append((b\"\", True))\n"),
    # components
    ("letters match in one case alone", "    return word.upper() == expected\n", "    return word == expected\n"),
    ("BEGIN is trimmed", 'same(line, b"BEGIN:VFREEBUSY")', 'same(line.strip(), b"BEGIN:VFREEBUSY")'),
    ("END is trimmed", 'same(line, b"END:VFREEBUSY")', 'same(line.strip(), b"END:VFREEBUSY")'),
    ("BEGIN by its start", 'same(line, b"BEGIN:VFREEBUSY")', 'same(line[:15], b"BEGIN:VFREEBUSY")'),
    ("END by its start", 'same(line, b"END:VFREEBUSY")', 'same(line[:13], b"END:VFREEBUSY")'),
    ("a component begun inside itself passes", '                faults.append((place, "begun inside itself"))\n', "                pass\n"),
    ("a component begun inside itself opens another", '                faults.append((place, "begun inside itself"))\n', '                faults.append((begun, "begun inside itself"))\n'),
    ("a component ended unopened passes", '                faults.append((place, "ended unopened"))\n', "                pass\n"),
    ("END ends nothing", "            begun = None\n        elif", "            pass\n        elif"),
    ("a component never ended passes", '        faults.append((begun, "never ended"))\n', "        pass\n"),
    ("a component never ended is told at the end", '        faults.append((begun, "never ended"))\n', '        faults.append((len(lines) - 1, "never ended"))\n'),
    ("FREEBUSY lines outside are read", "        elif begun is not None and same", "        elif same"),
    ("an END of any component ends this one", '        elif same(line, b"END:VFREEBUSY"):\n', '        elif same(line[:4], b"END:") and (begun is not None or same(line, b"END:VFREEBUSY")):\n'),
    ("of several 11s the last", "*min(faults, key", "*max(faults, key"),
    ("a name by its start", 'same(name_of(line), b"FREEBUSY")', 'same(line[:8], b"FREEBUSY")'),
    ("an underscore is of a name", 'frozenset(LETTERS + DIGITS + b"-")', 'frozenset(LETTERS + DIGITS + b"-_")'),
    ("a hyphen is of no name", 'frozenset(LETTERS + DIGITS + b"-")', "frozenset(LETTERS + DIGITS)"),
    ("a bare FREEBUSY is passed over", 'same(name_of(line), b"FREEBUSY"):', 'same(name_of(line), b"FREEBUSY") and len(line) > 8:'),
    # parameters
    ("an empty value is none", "def paramtext(line, at):\n", 'def paramtext(line, at):\n    if characters(line, at, SAFE_CHAR) == at:\n        raise Against("paramtext")\n'),
    ("one value alone", '    while line[at : at + 1] == b",":\n        at = param_value', '    if line[at : at + 1] == b";;":\n        at = param_value'),
    ("no quoted strings", '    return quoted_string(line, at) if line[at : at + 1] == b\'"\' else paramtext(line, at)', "    return paramtext(line, at)"),
    ("quotes hold no colon", "QSAFE_CHAR = frozenset([0x20, 0x09, 0x21, *range(0x23, 0x7E + 1)])", "QSAFE_CHAR = SAFE_CHAR | set(b',;')"),
    ("quotes hold no semicolon", "QSAFE_CHAR = frozenset([0x20, 0x09, 0x21, *range(0x23, 0x7E + 1)])", "QSAFE_CHAR = SAFE_CHAR | set(b',:')"),
    ("quotes hold no comma", "QSAFE_CHAR = frozenset([0x20, 0x09, 0x21, *range(0x23, 0x7E + 1)])", "QSAFE_CHAR = SAFE_CHAR | set(b';:')"),
    ("values hold no tab", "SAFE_CHAR = frozenset([0x20, 0x09, 0x21, *range(0x23, 0x2B + 1)", "SAFE_CHAR = frozenset([0x20, 0x21, *range(0x23, 0x2B + 1)"),
    ("values hold the byte 7F", "*range(0x3C, 0x7E + 1)])", "*range(0x3C, 0x7F + 1)])"),
    ("quotes hold the byte 7F", "*range(0x23, 0x7E + 1)])", "*range(0x23, 0x7F + 1)])"),
    ("values hold controls", "SAFE_CHAR = frozenset([0x20, 0x09, 0x21, *range(0x23, 0x2B + 1)", "SAFE_CHAR = frozenset([*range(0x22), *range(0x23, 0x2B + 1)"),
    ("quotes hold controls", "QSAFE_CHAR = frozenset([0x20, 0x09, 0x21,", "QSAFE_CHAR = frozenset([*range(0x22),"),
    ("any byte above 127 is good", "            at = non_us_ascii(line, at)\n", "            at += 1\n"),
    ("no byte above 127 is good", "        if line[at] > 0x7F:\n            at = non_us_ascii(line, at)\n", '        if line[at] > 0x7F:\n            raise Against("ASCII")\n'),
    ("overlong sequences of two", "((0xC2, 0xDF), [TAIL])", "((0xC0, 0xDF), [TAIL])"),
    ("overlong sequences of three", "((0xE0, 0xE0), [(0xA0, 0xBF), TAIL])", "((0xE0, 0xE0), [TAIL, TAIL])"),
    ("surrogates", "((0xED, 0xED), [(0x80, 0x9F), TAIL])", "((0xED, 0xED), [TAIL, TAIL])"),
    ("overlong sequences of four", "((0xF0, 0xF0), [(0x90, 0xBF), TAIL, TAIL])", "((0xF0, 0xF0), [TAIL, TAIL, TAIL])"),
    ("above U+10FFFF by F4", "((0xF4, 0xF4), [(0x80, 0x8F), TAIL, TAIL])", "((0xF4, 0xF4), [TAIL, TAIL, TAIL])"),
    ("above U+10FFFF by F5", "((0xF4, 0xF4), [(0x80, 0x8F), TAIL, TAIL])", "((0xF4, 0xF5), [(0x80, 0x8F), TAIL, TAIL])"),
    ("FBTYPE may stand twice", "        elif fbtype is not None:\n", "        elif False:\n"),
    ("FBTYPE takes any values", "            fbtype, at = iana_token(line, at, \"fbtypeparam\")\n", '            fbtype, at = name_of(line, at) or b"BUSY", other_values(line, at)\n'),
    ("FBTYPE may be empty", "            fbtype, at = iana_token(line, at, \"fbtypeparam\")\n", "            fbtype = name_of(line, at)\n            at += len(fbtype)\n"),
    ("X-FBTYPE counts", 'if not same(name, b"FBTYPE"):', 'if not same(name[-6:], b"FBTYPE"):'),
    ("FREE by its start", 'same(fbtype, b"FREE"), periods', 'same(fbtype[:4], b"FREE"), periods'),
    ("FREE gives rows", "            if not is_free:\n", "            if True:\n"),
    ("BUSY-TENTATIVE gives none", 'same(fbtype, b"FREE"), periods', 'fbtype.upper() in (b"FREE", b"BUSY-TENTATIVE"), periods'),
    ("FREE periods are not judged", "            first, last = span(start, end, place)\n            if not is_free:\n", "            if not is_free:\n                first, last = span(start, end, place)\n"),
    # periods, dates, durations
    ("one period alone", '    while line[at : at + 1] == b",":\n        one, at', '    if line[at : at + 1] == b",":\n        one, at'),
    ("a comma may stand last", '    while line[at : at + 1] == b",":\n        one, at', '    while line[at : at + 1] == b",":\n        if at + 1 == len(line):\n            return periods, at + 1\n        one, at'),
    ("what follows a period is passed over", "    if at != len(line):\n        raise Against(\"fbvalue", "    if False:\n        raise Against(\"fbvalue"),
    ("the Z may lack", '    at = literal(line, at, b"Z", "Z")\n', '    at += same(line[at : at + 1], b"Z")\n'),
    ("the grammar judges hours", '    hour, at = digits(line, at, 2, "time")\n', '    hour, at = digits(line, at, 2, "time")\n    if hour > 23:\n        raise Against("hour")\n'),
    ("the grammar judges months", '    month, at = digits(line, at, 2, "date")\n', '    month, at = digits(line, at, 2, "date")\n    if not 1 <= month <= 12:\n        raise Against("month")\n'),
    ("no sign before a duration", '    if line[at : at + 1] in (b"+", b"-"):\n        at += 1\n', ""),
    ("a plus before a duration is none", '    if line[at : at + 1] in (b"+", b"-"):\n', '    if line[at : at + 1] == b"-":\n'),
    ("a minus is not counted", '    sign = -1 if line[at : at + 1] == b"-" else 1\n', "    sign = 1\n"),
    ("a minus is against the grammar", '    sign = -1 if line[at : at + 1] == b"-" else 1\n', '    sign = 1\n    if line[at : at + 1] == b"-":\n        raise Against("sign")\n'),
    ("H, then S without M", '        if minutes != b"M":\n            raise Against("dur-hour")\n        letter, seconds = b"M", seconds + more\n',
     '        if minutes not in (b"M", b"S"):\n            raise Against("dur-hour")\n        letter, seconds = minutes, seconds + more\n'),
    ("M, then H", '        if second != b"S":\n', '        if second not in (b"S", b"H"):\n'),
    ("minutes after hours are dropped", "letter, seconds = b\"M\", seconds + more\n", "letter, seconds = b\"M\", seconds\n"),
    ("T and nothing after it", '    at = literal(line, at, b"T", "dur-time")\n', '    at = literal(line, at, b"T", "dur-time")\n    if not has_digit(line, at):\n        return 0, at\n'),
    ("P and nothing after it", "    letter, seconds, at = counted(line, at)\n    if letter == b\"W\":", "    if not has_digit(line, at):\n        return 0, at\n    letter, seconds, at = counted(line, at)\n    if letter == b\"W\":"),
    ("weeks with more after them", '    if letter == b"W":  # dur-week\n        return sign * seconds, at\n', '    if letter == b"W" and not has_digit(line, at):\n        return sign * seconds, at\n    if letter == b"W":\n        letter, more, at = counted(line, at)\n        seconds += more\n'),
    ("hours without T", '    if letter != b"D":\n', '    if letter not in (b"D", b"H"):\n'),
    ("days after T", '    elif letter not in (b"H", b"M", b"S"):\n', '    elif letter not in (b"D", b"H", b"M", b"S"):\n'),
    ("a week has five days", 'b"W": 7 * 86_400', 'b"W": 5 * 86_400'),
    ("no more than eighteen digits", "    if end == at:\n", "    if end == at or end - at > 18:\n"),
    ("durations wrap in 64 bits of ms", "        last = first + 1000 * end\n", "        last = (first + 1000 * end + 2**63) % 2**64 - 2**63\n"),
    ("durations wrap in 64 bits of seconds", "        last = first + 1000 * end\n", "        last = first + 1000 * ((end + 2**63) % 2**64 - 2**63)\n"),
    ("durations wrap in 32 bits of seconds", "        last = first + 1000 * end\n", "        last = first + 1000 * ((end + 2**31) % 2**32 - 2**31)\n"),
    ("durations without sign wrap", "        last = first + 1000 * end\n", "        last = first + 1000 * abs(end)\n"),
    ("the year 2000 has no leap day", "(year % 100 != 0 or year % 400 == 0)", "year % 100 != 0"),
    ("no leap years", "    return year % 4 == 0 and", "    return year % 4 == 5 and"),
    ("every February has 29 days", "        return 29 if is_leap(year) else 28\n", "        return 29\n"),
    ("30 February", "        return 29 if is_leap(year) else 28\n", "        return 30\n"),
    ("all months have 31 days", "    return 30 if month in (4, 6, 9, 11) else 31\n", "    return 31\n"),
    ("September has 31 days", "(4, 6, 9, 11)", "(4, 6, 11)"),
    ("day 00", "    if not 1 <= day <=", "    if not 0 <= day <="),
    ("month 00", "    if not 1 <= month <= 12:\n", "    if not 0 <= month <= 12:\n"),
    ("month 13", "    if not 1 <= month <= 12:\n", "    if not 1 <= month <= 13:\n"),
    ("hour 24", "hour > 23", "hour > 24"),
    ("minute 60", "minute > 59", "minute > 60"),
    ("second 60", "second > 59", "second > 60"),
    ("the first instant is out", "if ms < 0 else", "if ms <= 0 else"),
    ("the last instant is out", "if ms > CAP else", "if ms >= CAP else"),
    ("one second past the last", "if ms > CAP else", "if ms > CAP + 1000 else"),
    ("instants before 1970 pass", '"instant below 0" if ms < 0 else ', ""),
    ("an end at its start passes", "    if last <= first:\n", "    if last < first:\n"),
    ("an end before its start passes", "    if last <= first:\n", "    if last == first:\n"),
    ("11 before 12 for an end", "    fault = fault or range_fault(last)\n", "    if not fault and last <= first:\n        raise Refusal(11, place, \"end\")\n    fault = fault or range_fault(last)\n"),
    ("an end out of range passes where it is a date", "    fault = fault or range_fault(last)\n", "    fault = fault or (form == \"duration\" and range_fault(last))\n"),
    # the call
    ("12 line by line, before later lines are judged", "                read.append((place, *freebusy(line)))\n",
     "                read.append((place, *freebusy(line)))\n                if not faults:\n                    [span(*one, place) for one in read[-1][2]]\n"),
    ("65,536 bytes are too many", "    if len(text) > MOST_BYTES:\n", "    if len(text) >= MOST_BYTES:\n"),
    ("65,537 bytes pass", "    if len(text) > MOST_BYTES:\n", "    if len(text) > MOST_BYTES + 1:\n"),
    ("3 before 8", "    if len(text) > MOST_BYTES:\n", '    if not 0 <= resource <= 999_999_999:\n        raise Refusal(3, 0, "resource")\n    if len(text) > MOST_BYTES:\n'),
    ("resource 1,000,000,000 passes", "    least, most = CLASSES[\"id\"]\n", "    least, most = 0, 1_000_000_000\n"),
    ("resource -1 passes", "    least, most = CLASSES[\"id\"]\n", "    least, most = -1, 999_999_999\n"),
    ("resources by their lower 32 bits", "    if not least <= resource <= most:\n", "    if not least <= resource % 2**32 <= most:\n"),
    ("13 one row late", "                if len(rows) == room:\n", "                if len(rows) == room + 1:\n"),
    ("13 one row early", "                if len(rows) == room:\n", "                if len(rows) + 1 >= room:\n"),
    ("13 before 12", "            first, last = span(start, end, place)\n", '            if len(rows) == room and not is_free:\n                raise Refusal(13, place, "")\n            first, last = span(start, end, place)\n'),
    ("FREE periods want rows too", "            if not is_free:\n                if len(rows) == room:\n", "            if len(rows) == room:\n                raise Refusal(13, place, \"\")\n            if not is_free:\n                if len(rows) == room:\n"),
    ("13 after all periods", "                if len(rows) == room:\n                    raise Refusal(13, place, \"no row lent\" if room == 0 else \"one row too many\")\n                rows.append([15, resource, 1, first, last, 0, 0, 0, 0, 0])\n    return rows\n",
     "                if len(rows) == room:\n                    late = place\n                rows.append([15, resource, 1, first, last, 0, 0, 0, 0, 0])\n    if len(rows) > room:\n        raise Refusal(13, late, \"\")\n    return rows\n"),
    ("part of a row counts whole", "len(lent) // COLUMNS", "(len(lent) + 9) // COLUMNS"),
    ("rows of an open window", "[15, resource, 1, first", "[15, resource, 0, first"),
    ("start and end changed about", "first, last, 0, 0, 0, 0, 0])", "last, first, 0, 0, 0, 0, 0])"),
    ("the resource is left away", "[15, resource, 1, first", "[15, 5, 1, first"),
    ("a refusal writes a row", "        return (False, refusal.number, refusal.place, list(lent)), refusal.cause\n",
     "        return (False, refusal.number, refusal.place, [15, *lent[1:]] if refusal.number == 13 and lent else list(lent)), refusal.cause\n"),
    ("what lies after the rows is cleared", "list(lent[len(numbers) :])", "[0] * (len(lent) - len(numbers))"),
]


def edited(name, old, new):
    """The reading with one edit, as a module of its own."""
    with open(reading.__file__, encoding="utf-8") as file:
        source = file.read()
    if source.count(old) != 1:
        raise SystemExit(f"{name}: the text to be replaced stands {source.count(old)} times in freebusy_reading.py")
    module = importlib.util.module_from_spec(importlib.util.spec_from_loader("edited", loader=None))
    exec(compile(source.replace(old, new), "edited", "exec"), module.__dict__)
    return module


def answer(module, case):
    try:
        return module.read(case.text, case.resource, [7] * case.lent)
    except (IndexError, ValueError) as fault:
        return repr(fault)


def seen(module, cases, answers):
    """How many cases are answered otherwise; ten are enough."""
    differing = (1 for case, one in zip(cases, answers) if answer(module, case) != one)
    return sum(itertools.islice(differing, ENOUGH))


def main(count=8000, seed=1):
    drawn, kept = list(texts.cases("all", count, seed)), freebusy_cases.calendars().asked
    right = [[answer(reading, case) for case in some] for some in (drawn, kept)]
    unseen = 0
    for name, old, new in FAULTS:
        module = edited(name, old, new)
        differ = [seen(module, some, answers) for some, answers in zip((drawn, kept), right)]
        unseen += 0 in differ
        print(f"{differ[0]:2} texts, {differ[1]:2} cases: {name}" + ("  UNSEEN" if 0 in differ else ""), flush=True)
    print(f"{len(FAULTS)} faults, {len(drawn)} texts, {len(kept)} cases: {unseen} unseen")
    return 1 if unseen else 0


if __name__ == "__main__":
    sys.exit(main(*map(int, sys.argv[1:])))
