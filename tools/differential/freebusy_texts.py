#!/usr/bin/env python3
"""Office calendars for the comparison, made by a seeded generator: the same seed gives the same texts.

    freebusy_texts.py FAMILY COUNT SEED        writes COUNT cases, one to a line: freebusy RESOURCE LENT HEX
    freebusy_texts.py --counts COUNT SEED      what the second reading answers to COUNT cases of `all`, by cause

Families: grown (from the grammar, with faults of every cause put in), many (hundreds of periods), pieces (words of the grammar strewn
about), parameters, dates, durations (one line about one thing), folds, cuts, bytes (a small text folded at every place, cut at every
byte, damaged at every byte), long (about 65,536 bytes), all. LENT counts numbers, not rows.
"""
import collections
import datetime
import random
import sys

import freebusy_reading as reading
from freebusy_reading import CAP

CRLF = b"\r\n"
LAST = CAP // 1000  # the last instant in seconds
DAY = 86_400

Case = collections.namedtuple("Case", "text resource lent")


def line_of(case):
    return f"freebusy {case.resource} {case.lent} {case.text.hex()}"


# ---- numbers lent, resources ------------------------------------------------------------------------------

RESOURCES = [0, 1, 5, 7, 42, 999_999_998, 999_999_999]
NO_RESOURCES = [-1, 1_000_000_000, 1_000_000_001, -999_999_999, 2**31, 2**32, 2**32 + 5, -(2**32) + 5, 2**62, 2**63 - 1, -(2**63), -(2**63) + 1]


def resource(rng, astray=0.04):
    if rng.random() < astray:
        return rng.choice(NO_RESOURCES + [rng.randint(-(2**63), -1), rng.randint(10**9, 2**63 - 1)])
    return rng.choice(RESOURCES + [rng.randint(0, 999_999_999)])


def lent(rng, rows):
    """Numbers lent for a text of so many rows: mostly enough; just enough, just too few, parts of a row."""
    if rng.random() < 0.6:
        return 10 * rows + rng.choice([0, 0, 1, 9, 10, 25, 100])
    return max(0, rng.choice([10 * rows, 10 * rows + 9, 10 * rows - 1, 10 * rows - 9, 10 * rows - 10, 10 * (rows // 2) + 5, 0, 9, 10, 11]))


# ---- dates and durations ----------------------------------------------------------------------------------


def stamp(seconds):
    """The date and time of so many seconds after 1 January 1970, which may be before."""
    x = datetime.datetime(1970, 1, 1) + datetime.timedelta(seconds=seconds)
    return b"%04d%02d%02dT%02d%02d%02dZ" % (x.year, x.month, x.day, x.hour, x.minute, x.second)


# Dates that exist, at the edges of months and years.
EDGES = [b"19700101T000000Z", b"19700101T000001Z", b"19701231T235959Z", b"19720228T235959Z", b"19720229T000000Z", b"19720301T000000Z",
         b"20000229T120000Z", b"20240229T235959Z", b"20230228T000000Z", b"20960229T000000Z", b"20961002T070639Z", b"20961002T070640Z",
         b"19991231T235959Z", b"20380119T031407Z", b"20380119T031408Z", b"20010909T014640Z"]
# Those that do not, and instants outside the range.
NO_DATES = [b"20230229T000000Z", b"20230230T000000Z", b"20240230T000000Z", b"20240231T000000Z", b"20210229T235959Z", b"19000229T000000Z",
            b"21000229T000000Z", b"20230431T000000Z", b"20230631T000000Z", b"20230931T000000Z", b"20231131T000000Z", b"20230132T000000Z",
            b"20230100T000000Z", b"20230001T000000Z", b"20231301T000000Z", b"20239901T000000Z", b"20230199T000000Z", b"20230000T000000Z"]
NO_TIMES = [b"20230101T240000Z", b"20230101T990000Z", b"20230101T006000Z", b"20230101T009900Z", b"20230101T000060Z", b"20161231T235960Z",
            b"20230101T000099Z", b"20230101T246060Z", b"19700101T240000Z"]
NO_INSTANTS = [b"19691231T235959Z", b"19691231T000000Z", b"00000101T000000Z", b"00000229T000000Z", b"00010101T000000Z", b"19000101T000000Z",
               b"20961002T070641Z", b"20961002T235959Z", b"20961003T000000Z", b"20970101T000000Z", b"21000228T000000Z", b"99991231T235959Z",
               b"16000229T000000Z", b"09991231T235959Z"]


def second(rng):
    """An instant in seconds, often near others."""
    near = rng.choice([0, LAST, 951_782_400, 1_709_164_800, rng.randint(0, LAST), 1_772_000_000])
    off = rng.choice([0, 0, 1, -1, 59, 60, 3600, DAY, -DAY, rng.randint(-100_000, 100_000), 365 * DAY])
    return min(LAST, max(0, near + off))


def figures(rng, number):
    """A number of a duration, at times with zeros before it."""
    zeros = 0 if rng.random() < 0.9 else rng.choice([1, 1, 2, 3, 18, 30, 300])
    return b"0" * zeros + b"%d" % number


def clock_part(rng, seconds):
    """T and hours, minutes, seconds that come to so many."""
    unit = rng.choice(b"HMMSS")
    if unit == ord("S"):
        return b"T" + figures(rng, seconds) + b"S"
    out, left = b"T", seconds
    if unit == ord("H"):
        hours = rng.choice([left // 3600, left // 3600, rng.randint(0, left // 3600)])
        out, left = out + figures(rng, hours) + b"H", left - 3600 * hours
        if left == 0 and rng.random() < 0.7:
            return out
    minutes = rng.choice([left // 60, left // 60, rng.randint(0, left // 60)])
    out, left = out + figures(rng, minutes) + b"M", left - 60 * minutes
    return out if left == 0 and rng.random() < 0.7 else out + figures(rng, left) + b"S"


def duration(rng, seconds):
    """A spelling of a duration of so many seconds."""
    sign = b"-" if seconds < 0 else rng.choice([b"", b"", b"", b"+"])
    seconds = abs(seconds)
    ways = ["clock", "both", "both"]
    if seconds % DAY == 0:
        ways += ["days", "days"]
    if seconds % (7 * DAY) == 0:
        ways += ["weeks", "weeks", "weeks"]
    way = rng.choice(ways)
    if way == "clock":
        return sign + b"P" + clock_part(rng, seconds)
    if way == "days":
        return sign + b"P" + figures(rng, seconds // DAY) + b"D"
    if way == "weeks":
        return sign + b"P" + figures(rng, seconds // (7 * DAY)) + b"W"
    days = rng.choice([seconds // DAY, seconds // DAY, rng.randint(0, seconds // DAY)])
    return sign + b"P" + figures(rng, days) + b"D" + clock_part(rng, seconds - DAY * days)


# By how much the number before a letter can grow so that milliseconds, or seconds, come out the same in 64 bits.
ROUND = {b"W": (2**54, 2**57), b"D": (2**54, 2**57), b"H": (2**57, 2**60), b"M": (2**59, 2**62), b"S": (2**61, 2**64)}


def huge_duration(rng):
    """A duration that fits no machine number, or that comes out small in one."""
    letter = rng.choice([b"W", b"D", b"H", b"M", b"S"])
    small = rng.choice([0, 1, 1, 2, 5, 60])
    number = small + rng.choice([*ROUND[letter], 2 * ROUND[letter][0], 2**64, 2**63, 2**32, 2**31, 10**19, 10**20, 10**40, 10 ** rng.randint(10, 400)])
    out = b"P" + (b"T" if letter in b"HMS" else b"") + b"%d" % number + letter
    if letter == b"H" and rng.random() < 0.3:
        out += b"%dM" % (small + rng.choice([0, *ROUND[b"M"]])) + rng.choice([b"", b"%dS" % rng.choice([0, *ROUND[b"S"]])])
    elif letter == b"D" and rng.random() < 0.3:
        out += b"T%dH" % (small + rng.choice([0, *ROUND[b"H"]]))
    return rng.choice([b"", b"", b"+", b"-"]) + out


NO_DURATIONS = [b"P", b"PT", b"P1DT", b"PT1H1S", b"P1DT1H1S", b"P1H", b"P1M", b"P1Y", b"P1S", b"P1WT1H", b"P1W1D", b"P1D1W", b"P1D1D", b"PD", b"PTH",
                b"PT1", b"P1", b"PT1M1H", b"PT1S1M", b"PT1H1H", b"PT1H1M1S1", b"P-1D", b"P+1D", b"++P1D", b"+-P1D", b"--P1D", b"PT1.5H", b"P1.5D",
                b"1D", b"T1H", b"P 1D", b"P1 D", b" P1D", b"P1D ", b"PT1D", b"PT1W", b"P1DT1D", b"PTT1H", b"PT1HT1M", b"P1T1H", b"PT-1H", b"PT1H-1M",
                b"+", b"-", b"", b"1", b"PT1H1", b"PT1M1", b"P1D1", b"P1D/P1D", b"P1DT1H1", b"PT0H0S", b"P0", b"P\xc2\xb9D", b"PT1,5H"]


def period(rng):
    """A period of the range, its end after its start."""
    first, last = second(rng), second(rng)
    if first == last:
        first, last = (first, first + 1) if first < LAST else (first - 1, first)
    first, last = min(first, last), max(first, last)
    if rng.random() < 0.5:
        last = min(LAST, first + rng.choice([1, 60, 900, 3600, 5400, DAY, 7 * DAY, 3661, 90_061]))
        first = min(first, last - 1)
    return stamp(first) + b"/" + (stamp(last) if rng.random() < 0.5 else duration(rng, last - first))


def period_12(rng):
    """A period that 12 refuses; one in a while only nearly."""
    good, bad = stamp(second(rng)), rng.choice(rng.choice([NO_DATES, NO_TIMES, NO_INSTANTS]))
    way = rng.randrange(8)
    if way == 0:
        return bad + b"/" + duration(rng, rng.choice([1, 3600, DAY, 0, -1]))
    if way == 1:
        return bad + b"/" + good
    if way == 2:
        return good + b"/" + bad
    if way == 3:
        return bad + b"/" + bad
    if way == 4:
        return good + b"/" + huge_duration(rng)
    first = second(rng)
    if way == 5:  # past the last instant
        return stamp(first) + b"/" + duration(rng, LAST - first + rng.choice([0, 1, 1, 1, 2, 60, DAY]))
    if way == 6:  # before the first
        return stamp(first) + b"/" + duration(rng, -first - rng.choice([0, 1, 1, 1, 60, DAY]))
    return rng.choice([b"19700101T000000Z/-PT1S", b"20961002T070640Z/PT1S", b"20961002T070640Z/20961002T070641Z", b"20961002T070639Z/PT2S", stamp(LAST) + b"/P0D"])


def period_11(rng):
    """A period whose end is not after its start, both of the range."""
    first = second(rng)
    last = rng.choice([first, first, max(0, first - 1), max(0, first - 3600), rng.randint(0, first)])
    return stamp(first) + b"/" + (stamp(last) if rng.random() < 0.5 else rng.choice([b"", b"", b"-"] if last == first else [b""]) + duration(rng, last - first))


def edge_period(rng):
    """Any two of the dates above, or a date and a duration."""
    pool = EDGES * 3 + NO_DATES + NO_TIMES + NO_INSTANTS
    if rng.random() < 0.6:
        return rng.choice(pool) + b"/" + rng.choice(pool)
    return rng.choice(pool) + b"/" + duration(rng, rng.choice([1, 0, -1, DAY, LAST, -LAST, 59, 366 * DAY]))


def spoilt_period(rng):
    """What is no period by the grammar, mostly."""
    good = period(rng)
    start, _, end = good.partition(b"/")
    way = rng.randrange(12)
    if way < 4:
        return start + b"/" + rng.choice(NO_DURATIONS)
    if way == 4:
        return rng.choice([start, start + b"/", b"/" + end, start + end, start + b"//" + end, good + b"/" + end, b"", b"/"])
    if way == 5:  # the Z
        return rng.choice([start[:-1] + b"/" + end, start + b"/" + stamp(LAST)[:-1], start + b"Z/" + end, start[:-1] + b"+0000/" + end])
    if way == 6:  # other spellings of a date
        return rng.choice([b"2026-01-05T08:00:00Z", b"20260105", b"20260105T0800Z", b"20260105 080000Z", b"T080000Z", b"020260105T080000Z"]) + b"/" + end
    if way == 7:
        return rng.choice([b" ", b"\t", b"x", b"\x00", b"\xc3\xa4"]) + good
    if way == 8:
        return good + rng.choice([b" ", b"\t", b"x", b"Z", b"\r", b"\n", b"\x00", b";", b":", b".", b'"', b"\xff"])
    at = rng.randrange(len(good))
    if way == 9:
        return good[:at] + good[at + 1 :]
    if way == 10:
        return good[:at] + rng.choice([b"0", b"/", b"T", b"Z", b"P", b"-", b"+", b" ", b":"]) + good[at:]
    return good[:at] + bytes([rng.choice(b"0T:/ZPxDHMSW-+,\x7f\xff")]) + good[at + 1 :]


# ---- parameters -------------------------------------------------------------------------------------------

# The first and last of each kind of sequence, and some between.
UTF8 = [b"\xc2\x80", b"\xc3\xa4", b"\xdf\xbf", b"\xe0\xa0\x80", b"\xe0\xbf\xbf", b"\xe1\x80\x80", b"\xe2\x82\xac", b"\xec\xbf\xbf", b"\xed\x80\x80",
        b"\xed\x9f\xbf", b"\xee\x80\x80", b"\xef\xbb\xbf", b"\xef\xbf\xbf", b"\xf0\x90\x80\x80", b"\xf0\x9f\x98\x80", b"\xf0\xbf\xbf\xbf",
        b"\xf1\x80\x80\x80", b"\xf3\xbf\xbf\xbf", b"\xf4\x80\x80\x80", b"\xf4\x8f\xbf\xbf"]
NO_UTF8 = [b"\x80", b"\xbf", b"\xc0\x80", b"\xc1\xbf", b"\xc2", b"\xc2\x7f", b"\xc2\xc0", b"\xdf", b"\xe0\x80\x80", b"\xe0\x9f\xbf", b"\xe0\xa0",
           b"\xe0\xa0\x7f", b"\xe1\x80", b"\xe1\x80\xc0", b"\xed\xa0\x80", b"\xed\xbf\xbf", b"\xef\xbf", b"\xf0\x80\x80\x80", b"\xf0\x8f\xbf\xbf",
           b"\xf0\x90\x80", b"\xf0\x9f\x98", b"\xf1\x80\x80\xc0", b"\xf4\x90\x80\x80", b"\xf5\x80\x80\x80", b"\xf8\x88\x80\x80\x80", b"\xfe", b"\xff",
           b"\xe2\x82\xe2\x82\xac", b"\xc3\xa4\xa4"]
SAFE = b" \t!#$%&'()*+-./0123456789<=>?@ABCXYZ[\\]^_`abcxyz{|}~"
ONLY_QUOTED = b",:;"
CONTROLS = b"\x00\x01\x08\x0a\x0b\x0c\x0d\x0e\x1f\x7f"
NAMES = [b"VALUE", b"TZID", b"X-TYPE", b"X-", b"LANGUAGE", b"-", b"0", b"9-A", b"FBTYPES", b"X-FBTYPE", b"FBTYP", b"FB-TYPE", b"FREEBUSY", b"A"]
TYPES = [b"BUSY", b"BUSY", b"BUSY-UNAVAILABLE", b"BUSY-TENTATIVE", b"FREE", b"FREE", b"FREE", b"X-LUNCH", b"OOF", b"FREEX", b"FREE-", b"-FREE", b"XFREE",
         b"FRE", b"0", b"-", b"FREE0", b"UNFREE"]


def strewn(rng, chars, most):
    out = b""
    for _ in range(rng.choice([0, 1, 1, 2, 3, rng.randint(0, most)])):
        out += rng.choice(UTF8) if rng.random() < 0.15 else bytes([rng.choice(chars)])
    return out


def param_value(rng):
    if rng.random() < 0.4:
        return b'"' + strewn(rng, SAFE + ONLY_QUOTED * 4, 12) + b'"'
    return strewn(rng, SAFE, 12)


def other_param(rng):
    values = [param_value(rng) for _ in range(rng.choice([1, 1, 1, 1, 2, 3]))]
    return rng.choice(NAMES) + b"=" + b",".join(values)


def type_param(rng):
    return b"FBTYPE=" + rng.choice(TYPES)


def spoilt_param(rng):
    """What is no parameter by the grammar, mostly."""
    way = rng.randrange(10)
    if way == 0:
        return rng.choice([b"", b"A", b"=", b"=A", b"A B=C", b"A_=C", b"A =C", b" A=C", b"A:=C", b"A", b"\xc3\xa4=1", b"FBTYPE", b'"A"=B', b"A;=B"])
    if way == 1:  # the FBTYPE
        return rng.choice([b"FBTYPE=", b'FBTYPE="BUSY"', b'FBTYPE="FREE"', b"FBTYPE=BUSY,FREE", b"FBTYPE=FREE,", b"FBTYPE=BUSY_X", b"FBTYPE= FREE",
                           b"FBTYPE=FREE ", b"FBTYPE=,", b'FBTYPE=""', b"FBTYPE=FREE\t", b"FBTYPE=B\xc3\xa4SY", b"FBTYPE==FREE", b"FBTYPE FREE", b"FBTYPE:FREE"])
    if way == 2:
        return type_param(rng) + b";" + rng.choice([b"", other_param(rng) + b";"]) + type_param(rng)
    text = strewn(rng, SAFE, 6)
    if way == 3:  # quotes
        return rng.choice([b'A="' + text, b"A=" + text + b'"', b'A="' + text + b'"x', b'A=x"' + text + b'"', b'A="a""b"', b'A="', b'A=""x', b'A=x,"y"z', b'A="x",y"'])
    if way in (4, 5):
        bad = bytes([rng.choice(CONTROLS)])
        return b"A=" + rng.choice([text + bad + text, b'"' + text + bad + text + b'"', b"x," + bad])
    if way in (6, 7):
        bad = rng.choice(NO_UTF8)
        return b"A=" + rng.choice([text + bad + text, b'"' + text + bad + text + b'"', b'"' + bad + b'"', bad])
    good = other_param(rng)
    at = rng.randrange(len(good))
    if way == 8:
        return good[:at] + good[at + 1 :]
    return good[:at] + bytes([rng.choice(b'",;:=\x00\x7f\x80\xc3\xff _\r\n')]) + good[at:]


# ---- lines ------------------------------------------------------------------------------------------------


class Freebusy:
    """A FREEBUSY line in its parts."""

    def __init__(self, rng, most=4):
        self.params = [other_param(rng) for _ in range(rng.choice([0, 0, 0, 0, 1, 1, 2, 3]))]
        self.type = rng.choice(TYPES) if rng.random() < 0.55 else None
        if self.type is not None:
            self.params.insert(rng.randint(0, len(self.params)), b"FBTYPE=" + self.type)
        self.periods = [period(rng) for _ in range(rng.choice([1, 1, 1, 2, 2, 3, most]))]
        self.head, self.colon, self.tail = b"FREEBUSY", b":", b""

    def rows(self):
        return 0 if self.type == b"FREE" else len(self.periods)

    def line(self):
        return self.head + b"".join(b";" + p for p in self.params) + self.colon + b",".join(self.periods) + self.tail

    def put(self, rng, one):
        """Puts a period among the others, or in the place of one."""
        at = rng.randrange(len(self.periods))
        if rng.random() < 0.5:
            self.periods[at] = one
        else:
            self.periods.insert(at + rng.randint(0, 1), one)

    def spoil(self, rng):
        """Puts one fault of the grammar in."""
        way = rng.random()
        if way < 0.45:
            self.params.insert(rng.randint(0, len(self.params)), spoilt_param(rng))
        elif way < 0.8:
            self.put(rng, spoilt_period(rng))
        elif way < 0.86:
            self.head = rng.choice([b"FREEBUSY_X", b"FREEBUSY ", b"FREEBUSY\t", b"FREEBUSY=", b"FREEBUSY\x00", b"FREEBUSY.", b"FREEBUSY\xc3\xa4", b'FREEBUSY"'])
        elif way < 0.92:
            self.colon = rng.choice([b"", b"::", b";", b":,", b" :", b": ", b"=", b";:"])
        else:
            self.tail = rng.choice([b",", b",", b",", b",", b" ", b";", b":", b"/", b"\x00", b"\n", b"\r", b",,", b"\xff"])


PROPERTIES = [b"UID:19970901T115957Z-76A912@example.com", b"DTSTAMP:19970901T120000Z", b"DTSTART:19980313T141711Z", b"DTEND:19980410T141711Z",
              b"ORGANIZER:mailto:jsmith@example.com", b'ORGANIZER;CN="Smith; J., room: 5":mailto:jsmith@example.com', b"ATTENDEE;RSVP=TRUE:mailto:a@example.com",
              b"URL:http://www.example.com/calendar/busytime/jsmith.ifb", b"COMMENT:closed for the fair\\, all day", b"SUMMARY:M\xc3\xbcller\xe2\x80\x99s",
              b"X-MICROSOFT-CDO-BUSYSTATUS:BUSY", b"X-FREEBUSY:19970308T160000Z/PT3H", b"FREEBUSYX:1", b"XFREEBUSY:1", b"FREE-BUSY:1", b"FREEBUS:1",
              b"FREEBUSY-:1", b"FREEBUSY0:1", b"FREE BUSY:1", b"", b"", b":", b";", b"BEGIN", b"END", b"BEGIN:", b"\xff\xfe", b"\x00", b"x\ry", b"x\ny", b"\n",
              b"BEGIN:VEVENT", b"END:VEVENT", b"BEGIN:VALARM", b"END:VALARM", b"BEGIN:VCALENDAR", b"END:VCALENDAR",
              b"BEGIN:VFREEBUSY ", b"BEGIN: VFREEBUSY", b"BEGIN:VFREEBUSYX", b"BEGIN;X=1:VFREEBUSY", b"XBEGIN:VFREEBUSY", b"BEGIN:VFREEBUS",
              b"END:VFREEBUSY ", b"END:VFREEBUSYX", b"END;X=1:VFREEBUSY", b"END:VFREEBUS", b"BEGIN:VFREEBUSY\r", b"END:VFREEBUSY\n", b"BEGIN :VFREEBUSY"]
BEGIN, END = b"BEGIN:VFREEBUSY", b"END:VFREEBUSY"
EVENT = [b"BEGIN:VEVENT", b"DTSTART;TZID=Europe/Berlin:20260105T080000", b"DURATION:PT1H", b"SUMMARY:Inventory", b"BEGIN:VALARM", b"TRIGGER:-PT15M",
         b"END:VALARM", b"END:VEVENT"]
ZONE = [b"BEGIN:VTIMEZONE", b"TZID:Europe/Berlin", b"BEGIN:STANDARD", b"DTSTART:16010101T030000", b"TZOFFSETFROM:+0200", b"TZOFFSETTO:+0100",
        b"RRULE:FREQ=YEARLY;BYDAY=-1SU;BYMONTH=10", b"END:STANDARD", b"END:VTIMEZONE"]


def outside(rng):
    """Lines that stand outside a component."""
    way = rng.randrange(6)
    if way == 0:
        return list(rng.choice([EVENT, ZONE]))
    if way == 1:  # FREEBUSY lines of no component, good or bad
        stray = Freebusy(rng)
        if rng.random() < 0.5:
            stray.spoil(rng)
        return [stray.line()]
    return [rng.choice(PROPERTIES) for _ in range(rng.choice([1, 1, 2, 4]))]


class Calendar:
    """The lines of a calendar, each bytes or a Freebusy."""

    def __init__(self, rng, wide):
        self.rng, self.lines = rng, []
        components = rng.choice([1, 1, 1, 2, 3]) if wide else 1
        if wide and rng.random() < 0.7:
            self.lines += [b"BEGIN:VCALENDAR", b"VERSION:2.0", b"PRODID:-//Example//Office 16.0//EN", b"METHOD:PUBLISH"]
        for _ in range(components):
            if wide and rng.random() < 0.6:
                self.lines += outside(rng)
            self.component(wide)
        if wide and rng.random() < 0.4:
            self.lines += outside(rng)
        if wide and rng.random() < 0.7:
            self.lines.append(b"END:VCALENDAR")

    def component(self, wide):
        rng = self.rng
        self.lines.append(BEGIN)
        for _ in range(rng.choice([0, 1, 1, 1, 2, 3, 5])):
            if wide and rng.random() < 0.5:
                self.lines += [rng.choice(PROPERTIES) for _ in range(rng.choice([1, 1, 2]))]
            self.lines.append(Freebusy(rng, most=8 if wide else 3))
        if wide and rng.random() < 0.1:
            self.lines += rng.choice([EVENT, ZONE])
        self.lines.append(END)

    def busy(self):
        """A FREEBUSY line, put in if there is none."""
        found = [x for x in self.lines if isinstance(x, Freebusy)]
        if not found:
            found = [Freebusy(self.rng)]
            self.lines.insert(self.place_of(BEGIN) + 1, found[0])
        return self.rng.choice(found)

    def place_of(self, line):
        places = [at for at, x in enumerate(self.lines) if isinstance(x, bytes) and x == line]
        return self.rng.choice(places) if places else 0

    def rows(self):
        return sum(x.rows() for x in self.lines if isinstance(x, Freebusy))

    def spoil(self, cause):
        rng = self.rng
        if cause == "grammar":
            self.busy().spoil(rng)
        elif cause == "12":
            self.busy().put(rng, period_12(rng))
        elif cause == "11":
            self.busy().put(rng, period_11(rng))
        elif cause == "edges":
            for _ in range(rng.choice([1, 2, 3])):
                self.busy().put(rng, edge_period(rng))
        elif cause == "nested":
            self.lines.insert(self.place_of(BEGIN) + rng.choice([1, 1, 2]), BEGIN)
        elif cause == "unopened":
            if rng.random() < 0.5 and BEGIN in self.lines:
                self.lines.pop(self.place_of(BEGIN))
            else:
                self.lines.insert(rng.choice([0, len(self.lines), self.place_of(END) + 1]), END)
        elif cause == "never ended":
            if rng.random() < 0.5 and END in self.lines:
                self.lines.pop(self.place_of(END))
            else:
                self.lines.insert(rng.choice([0, len(self.lines), self.place_of(END) + 1]), BEGIN)

    def text(self):
        return [x if isinstance(x, bytes) else x.line() for x in self.lines]


CAUSES = {"grammar": 24, "12": 16, "11": 8, "edges": 6, "nested": 5, "unopened": 5, "never ended": 5, "no CRLF": 5, "damage": 12, "strange": 4}


# ---- from lines to a text ---------------------------------------------------------------------------------


def in_cases(rng, line):
    """Letters in the other case, some or all of them."""
    way = rng.random()
    if way < 0.5:
        return line
    if way < 0.65:
        return line.lower()
    if way < 0.75:
        return line.swapcase()
    return bytes(x ^ 0x20 if (65 <= x <= 90 or 97 <= x <= 122) and rng.random() < 0.5 else x for x in line)


def fold(rng):
    return CRLF + rng.choice([b" ", b" ", b"\t"])


def folded(rng, line, share):
    """The line with folds, each place taken with that chance, before the first byte and after the last too."""
    if share == 0:
        return line
    if share == 75:
        return b"\r\n ".join([line[:75]] + [line[at : at + 74] for at in range(75, len(line), 74)])
    out = b""
    for at in range(len(line) + 1):
        while rng.random() < share:
            out += fold(rng)
        out += line[at : at + 1]
    return out


def sent(rng, lines):
    """The lines with their CRLFs, folded one way or another."""
    share = rng.choice([0, 0, 0, 0, 75, 75, 0.005, 0.02, 0.1, 0.4])
    return b"".join(folded(rng, in_cases(rng, x), share) + CRLF for x in lines)


DAMAGE = [b"\r", b"\n", b"\r\n", b"\r\n ", b"\r\n\t", b" ", b"\t", b"\x00", b"\x7f", b"\xff", b"\xc3", b"\xa4", b":", b";", b",", b"=", b'"', b"/", b"-", b"+",
          b"0", b"1", b"9", b"T", b"Z", b"P", b"W", b"D", b"H", b"M", b"S", b"X", b"_", b"\n\r", b"\r\r\n", b"\r\n\r\n", b"\xef\xbb\xbf", b"FREEBUSY", b"z"]


def damaged(rng, text):
    at = rng.randint(0, len(text))
    way = rng.randrange(7)
    if way == 0:
        return text[:at]
    if way in (1, 2):
        return text[:at] + rng.choice(DAMAGE) + text[at:]
    if way == 3:
        return text[:at] + rng.choice(DAMAGE) + text[at + 1 :]
    if way == 4:
        return text[:at] + text[at + rng.choice([1, 1, 2, 3, 16]) :]
    if way == 5:
        return text[:at] + bytes([text[at] ^ rng.choice([1, 2, 4, 8, 16, 32, 64, 128])]) + text[at + 1 :] if at < len(text) else text
    other = rng.randint(0, len(text))
    at, other = min(at, other), max(at, other)
    return text[:other] + text[at:other] + text[other:] if other - at < 200 else text[at:] + text[:at]


def strange(rng, text):
    """Line ends and openings of other systems."""
    return rng.choice([
        lambda: b"\xef\xbb\xbf" + text,
        lambda: text.replace(CRLF, b"\n"),
        lambda: text.replace(CRLF, b"\r"),
        lambda: text.replace(CRLF, b"\n", 1),
        lambda: text.replace(CRLF, b"\r", 1),
        lambda: text.replace(CRLF, b"\r\r\n"),
        lambda: text.replace(CRLF, b"\r\n\r\n"),
        lambda: text + b"\r",
        lambda: text + b"\n",
        lambda: text + rng.choice([b"\r\n ", b" ", b"\t", b"\r\n\t", b"\r\n  ", b"x"]),
        lambda: rng.choice([b"\r\n ", b" ", b"\t", b"\r\n", b"\r", b"\n"]) + text,
        lambda: text.decode("latin-1").encode("utf-16-le"),
        lambda: b"",
    ])()


def grown(rng):
    """A calendar with no fault, or with one or two of causes drawn."""
    calendar = Calendar(rng, wide=rng.random() < 0.45)
    faults = rng.choices(list(CAUSES), list(CAUSES.values()), k=rng.choice([0, 0, 0, 0, 1, 1, 1, 1, 1, 1, 2]))
    for cause in faults:
        calendar.spoil(cause)
    text = sent(rng, calendar.text())
    for cause in faults:
        if cause == "no CRLF":
            text = text[: -rng.choice([2, 2, 2, 1])]
        elif cause == "strange":
            text = strange(rng, text)
        elif cause == "damage":
            for _ in range(rng.choice([1, 1, 2, 4])):
                text = damaged(rng, text)
    return Case(text, resource(rng), lent(rng, calendar.rows()))


def many(rng):
    """A component of hundreds of periods."""
    lines, rows = [BEGIN], rng.choice([799, 800, 801, rng.randint(50, 900)])
    at, left = rng.randint(0, 10**9), rows
    while left:
        some = min(left, rng.choice([1, 2, 5, 20, 100, 900]))
        left -= some
        periods = []
        for _ in range(some):
            periods.append(stamp(at) + b"/" + rng.choice([b"PT1H", b"P1D", stamp(at + 600)]))
            at += rng.choice([0, 1, 60, 3600, DAY])
        lines.append(b"FREEBUSY:" + b",".join(periods))
    if rng.random() < 0.1:
        lines.insert(rng.randint(1, len(lines)), b"FREEBUSY:" + period_12(rng))
    text = b"".join(folded(rng, x, 75) + CRLF for x in lines + [END])
    return Case(text, resource(rng, 0.01), rng.choice([8000, 8000, 10 * rows, 10 * rows - 1, 10 * rows + 7, 10 * rows - 10]))


# ---- one line about one thing -----------------------------------------------------------------------------


def alone(rng, line, rows=1, share=0.15):
    """A component of that line; at times a line before it that 12 refuses, which then tells whether this one passes the grammar."""
    before = [b"FREEBUSY:" + period_12(rng)] if rng.random() < share else []
    text = sent(rng, [BEGIN, *before, line, END])
    return Case(text, resource(rng, 0.005), 10 * rows if rng.random() < 0.9 else lent(rng, rows))


def sequence(rng):
    """A byte above 127 and up to three more about the edges of what may follow it."""
    tails = [0x7F, 0x80, 0x80, 0x8F, 0x8F, 0x90, 0x90, 0x9F, 0x9F, 0xA0, 0xA0, 0xBF, 0xBF, 0xC0]
    first = rng.choice([0xC0, 0xC1, 0xC2, 0xDF, 0xE0, 0xE1, 0xEC, 0xED, 0xEE, 0xEF, 0xF0, 0xF1, 0xF3, 0xF4, 0xF5, rng.randint(0x80, 0xFF)])
    length = 1 if first < 0xE0 else 2 if first < 0xF0 else 3
    return bytes([first] + [rng.choice(tails) for _ in range(rng.choice([length] * 12 + [length - 1, length + 1]))])


def parameters(rng):
    params = [rng.choice([other_param, other_param, type_param, spoilt_param])(rng) for _ in range(rng.choice([1, 1, 2, 3]))]
    way = rng.random()
    if way < 0.2:
        params = [rng.choice([b"A=%s", b'A="%s"', b"A=b,%s;C=d", b'A="b:%s,"']) % (strewn(rng, SAFE, 3) + sequence(rng) + strewn(rng, SAFE, 3))]
    elif way < 0.4:  # any bytes that mean something
        params = [bytes(rng.choice(b'AX-=,;:" \xc3\xa4\xe2\x82\xac\x00\x7f') for _ in range(rng.randint(0, 10)))]
    return alone(rng, b"FREEBUSY" + b"".join(b";" + p for p in params) + b":20260105T080000Z/PT1H")


YEARS = [0, 4, 100, 400, 1600, 1900, 1968, 1969, 1970, 1970, 1971, 1972, 1999, 2000, 2001, 2023, 2024, 2026, 2095, 2096, 2096, 2097, 2100, 2400, 9999]


def any_stamp(rng):
    """A date and time about the ends of months, hours, minutes and seconds."""
    year = rng.choice(YEARS) if rng.random() < 0.3 else rng.randint(1970, 2096)
    month = rng.choice([0, 13, rng.randint(0, 99)]) if rng.random() < 0.05 else rng.choice([2, 2, 2, rng.randint(1, 12)])
    day = rng.choice([0, 32, rng.randint(0, 99)]) if rng.random() < 0.05 else rng.choice([1, 28, 28, 29, 29, 30, 31, rng.randint(1, 28)])
    clock = [rng.choice([edge, edge, edge + 1, rng.randint(0, 99)]) if rng.random() < 0.06 else rng.choice([0, edge - 1, rng.randrange(edge)]) for edge in (24, 60, 60)]
    return b"%04d%02d%02dT%02d%02d%02dZ" % (year, month, day, *clock)


def dates(rng):
    way = rng.random()
    if way < 0.4:
        return alone(rng, b"FREEBUSY:" + any_stamp(rng) + b"/" + rng.choice([b"PT1S", b"P1D", b"PT0S", b"20961002T070640Z", any_stamp(rng)]))
    if way < 0.6:
        return alone(rng, b"FREEBUSY:" + rng.choice([b"19700101T000000Z", b"20240101T000000Z"]) + b"/" + any_stamp(rng))
    if way < 0.7:
        return alone(rng, b"FREEBUSY:" + edge_period(rng))
    if way < 0.8:
        return alone(rng, b"FREEBUSY:" + spoilt_period(rng) + rng.choice([b"", b"", b","]), share=0.35)
    first = rng.choice([period_11, period_12, period])(rng)
    return alone(rng, b"FREEBUSY" + rng.choice([b"", b";FBTYPE=FREE"]) + b":" + first + b"," + rng.choice([period_11, period_12, period])(rng), 2)


def durations(rng):
    way = rng.random()
    first = second(rng)
    if way < 0.25:
        value = duration(rng, rng.choice([LAST - first, LAST - first + 1, -first, -first - 1, 0, 1, -1]))
    elif way < 0.45:
        value = duration(rng, rng.choice([rng.randint(0, 100_000), 60 * rng.randint(0, 10_000), 3600 * rng.randint(0, 1000), DAY * rng.randint(0, 100)]))
    elif way < 0.6:
        value = huge_duration(rng)
    elif way < 0.7:
        value = rng.choice(NO_DURATIONS + [b"P", b"PT", b"P1DT", b"PT1H1S"] * 5)
    elif way < 0.9:  # units in some order, the T where it belongs, elsewhere, or not at all
        units = rng.sample([b"1W", b"1D", b"1H", b"1M", b"1S"], rng.randint(1, 3))
        if rng.random() < 0.7:
            units.sort(key=lambda unit: b"WDHMS".index(unit[1:]))
        clock = [at for at, unit in enumerate(units) if unit[1:] in (b"H", b"M", b"S")]
        if rng.random() < 0.85:
            units.insert(clock[0] if clock and rng.random() < 0.9 else rng.randint(0, len(units)), b"T")
        value = rng.choice([b"P", b"P", b"P", b"+P", b"-P", b""]) + b"".join(units)
    else:
        words = [b"P", b"T", b"1W", b"1D", b"1H", b"1M", b"1S", b"+", b"-", b"0", b"7", b"W", b"D", b"H", b"M", b"S", b"P1D", b"PT1H", b"PT", b"00"]
        value = rng.choice([b"", b"P", b"P", b"PT", b"-P", b"P1DT"]) + b"".join(rng.choice(words) for _ in range(rng.randint(0, 4)))
    return alone(rng, b"FREEBUSY:" + stamp(first) + b"/" + value, share=0.35)


WORDS = [BEGIN, END, BEGIN, END, CRLF, CRLF, CRLF, CRLF, CRLF, CRLF, b"\r", b"\n", b" ", b"\t", b"\r\n ", b"\r\n\t", b"FREEBUSY", b"FREEBUSY:19700101T000000Z/P1D",
         b"FREEBUSY;FBTYPE=FREE:19700101T000000Z/P1D", b":", b";", b",", b"X", b"BEGIN:VEVENT", b"\xef\xbb\xbf", b"FREEBUSY:19700101T000000Z/P0D",
         b"FREEBUSY:19700132T000000Z/P1D", b"FREEBUSY:", b",19700102T000000Z/PT1S", b"begin:vfreebusy\r\n", b"end:vfreebusy\r\n", b"BEGIN:", b"END:", b"VFREEBUSY"]


def pieces(rng):
    words = [rng.choice(WORDS) for _ in range(rng.randint(0, 12))]
    if rng.random() < 0.6:  # most words on lines of their own
        words = [x + CRLF if rng.random() < 0.9 else x for x in words]
    if rng.random() < 0.5:
        words = [BEGIN + CRLF, *words, CRLF + END + CRLF]
    return Case(b"".join(words), resource(rng, 0.01), rng.choice([0, 5, 10, 15, 20, 30, 100]))


# ---- a small text at every place --------------------------------------------------------------------------


def small(rng):
    """A text of about a hundred bytes, with or without a fault, and what is lent."""
    line = Freebusy(rng, most=2)
    line.params = line.params[:2]
    line.periods = line.periods[:2]
    cause = rng.random()
    if cause < 0.08:
        line.put(rng, period_12(rng))
    elif cause < 0.16:
        line.put(rng, period_11(rng))
    elif cause < 0.2:
        line.spoil(rng)
    lines = [BEGIN, line.line()[:150], END]
    if rng.random() < 0.3:
        lines.insert(rng.randint(0, 3), rng.choice(PROPERTIES))
    if rng.random() < 0.2:
        lines += [BEGIN, b"FREEBUSY:19700101T000000Z/P1D", END]
    return b"".join(in_cases(rng, x) + CRLF for x in lines), 10 * rng.choice([3, 3, 3, 3, 1, 0])


def everywhere(change):
    """Of small texts, one after the other, what becomes of each at every place."""

    def cases(count, seed, name):
        number, left = 0, count
        while left > 0:
            rng = random.Random(f"{name} {seed} {number}")
            number += 1
            text, room = small(rng)
            owner = resource(rng, 0.01)
            for at in range(len(text) + 1):
                for changed in change(rng, text, at):
                    if left > 0:
                        yield Case(changed, owner, room)
                    left -= 1

    return cases


def folds_at(rng, text, at):
    yield text[:at] + fold(rng) + text[at:]
    if rng.random() < 0.3:  # two at once, and one elsewhere
        other = rng.randint(0, len(text))
        twice = text[:at] + fold(rng) + fold(rng) + text[at:]
        yield rng.choice([twice, twice[:other] + fold(rng) + twice[other:]])


def cut_at(_, text, at):
    yield text[:at]
    if at:
        yield text[at:]


def bytes_at(rng, text, at):
    yield text[:at] + text[at + 1 :]
    yield text[:at] + rng.choice(DAMAGE) + text[at:]
    yield text[:at] + bytes([rng.randrange(256)]) + text[at + 1 :]


# ---- long texts -------------------------------------------------------------------------------------------


def filled(text, length):
    """The text brought to a length by lines that nothing reads; cut where it is longer."""
    while len(text) + 4 <= length:
        size = min(length - len(text), 1004)
        if 0 < length - len(text) - size < 4:
            size -= 4
        text += b"X:" + b"x" * (size - 4) + CRLF
    return text[:length] + b"x" * (length - len(text))


def repeated(part, length):
    return (part * (length // len(part) + 1))[:length]


def long_text(rng, length):
    inner = length - len(BEGIN + CRLF + CRLF + END + CRLF)
    head, tail = BEGIN + CRLF, CRLF + END + CRLF
    one = b"FREEBUSY;FBTYPE=BUSY:19970308T160000Z/PT3H"

    def between(start, part, end=b""):
        return head + start + repeated(part, inner - len(start) - len(end)) + end + tail

    way = rng.randrange(16)
    if way == 0:
        return filled(head + (one + CRLF) * rng.choice([1, 10, 700, 801]) + END + CRLF, length)
    if way == 1:
        periods = b",19970308T160000Z/PT3H" * (inner // 22 - 2)
        return filled(head + one + periods + tail, length)
    if way == 2:
        return between(b"FREEBUSY;A=", b"x", b":19970308T160000Z/PT3H")
    if way == 3:
        return between(b'FREEBUSY;A="', b",:;", b'":19970308T160000Z/PT3H')
    if way == 4:
        return between(b"FREEBUSY:19970308T160000Z/PT", rng.choice([b"0", b"9"]), rng.choice([b"1S", b"S", b""]))
    if way == 5:
        return between(b"FREEBUSY", rng.choice([b";A=", b";A=,", b';A=""']), b":19970308T160000Z/PT3H")
    if way == 6:
        return repeated(rng.choice([CRLF, b"\r\n ", b"\r", b"\n", b" ", b"x", b"\x00", b"\r\n\r\n ", b"FREEBUSY\r\n"]), length)
    if way == 7:
        return repeated(BEGIN + CRLF + END + CRLF, length)
    if way == 8:
        return filled(head + one.replace(b"PT3H", b"\r\n ".join([b"P", b"T", b"3", b"H"])) + repeated(b"\r\n ", inner // 2 // 3 * 3) + tail, length)
    if way == 9:
        return filled(head + b"FREEBUSY;X=" + "äöü€😀".encode() * 3000 + b":19970308T160000Z/PT3H" + tail, length)
    if way == 10:
        return repeated(rng.choice([BEGIN + CRLF, END + CRLF, head + one + CRLF]), length)
    if way == 11:
        return (head + one + CRLF + END + CRLF + b"X:" + b"x" * length)[: length - 2] + rng.choice([CRLF, b"xx", b"\r\r", b"\n\n", b" \n"])
    if way == 12:
        return repeated(one + CRLF, length)
    if way == 13:
        return between(b"FREEBUSY:", rng.choice([b"19970308T160000Z/PT3H,", b",", b"1", b"19970308T160000Z/19970308T160000Z,"]))
    if way == 14:
        return between(b"", rng.choice([one.lower() + CRLF, b"X\r\n", b"\r\n", b"\r\n ", b"FREEBUSYX:1\r\n"]))
    return filled(sent(rng, Calendar(rng, True).text()), length)


def long(rng):
    length = rng.choice([65_535, 65_536, 65_536, 65_537, 65_537, 65_538, 70_000, 131_072, rng.randint(10_000, 65_536)])
    text = long_text(rng, length)
    if rng.random() < 0.1:
        text = damaged(rng, text)
    return Case(text, resource(rng, 0.25), rng.choice([8000, 8000, 8005, 40_000, 10, 0]))


# ---- families ---------------------------------------------------------------------------------------------

DRAWN = {"grown": grown, "many": many, "parameters": parameters, "dates": dates, "durations": durations, "pieces": pieces, "long": long}
PLACED = {"folds": everywhere(folds_at), "cuts": everywhere(cut_at), "bytes": everywhere(bytes_at)}
# Of a thousand cases of `all`.
SHARES = {"grown": 380, "many": 4, "parameters": 120, "dates": 100, "durations": 120, "pieces": 60, "folds": 70, "cuts": 60, "bytes": 82, "long": 4}


def cases(family, count, seed):
    """That many cases of a family; each that is drawn has a generator of its own, and does not depend on those before it."""
    if family == "all":
        for name, share in SHARES.items():
            yield from cases(name, (count * share + 999) // 1000, seed)
    elif family in PLACED:
        yield from PLACED[family](count, seed, family)
    else:
        for number in range(count):
            yield DRAWN[family](random.Random(f"{family} {seed} {number}"))


# ---- what is met ------------------------------------------------------------------------------------------


def met(answer, cause):
    """An answer in words: its number and cause, or how many rows."""
    accepted, number, _, _ = answer
    if not accepted:
        return number, cause
    words = ["no row", "1 row"] + ["2 to 9 rows"] * 8 + ["10 to 99 rows"] * 90
    return 0, words[number] if number < 100 else "100 rows or more"


def counts(count, seed):
    """Prints how often each number and each cause is met, in all and by family."""
    found, families = collections.Counter(), {}
    for name, share in SHARES.items():
        numbers = families[name] = collections.Counter()
        for case in cases(name, (count * share + 999) // 1000, seed):
            number, cause = met(*reading.judged(case.text, case.resource, [0] * case.lent))
            found[number, cause] += 1
            numbers[number] += 1
    print(f"seed {seed}: {sum(found.values())} texts")
    for (number, cause), times in sorted(found.items()):
        print(f"  {number if number else 'accepted'}: {cause}: {times}")
    for name, numbers in families.items():
        print(f"{name}: " + ", ".join(f"{number if number else 'accepted'} {times}" for number, times in sorted(numbers.items())))


def main(words):
    if len(words) == 3 and words[0] == "--counts":
        counts(int(words[1]), int(words[2]))
    elif len(words) == 3 and words[0] in ("all", *DRAWN, *PLACED):
        for case in cases(words[0], int(words[1]), int(words[2])):
            print(line_of(case))
    else:
        raise SystemExit(__doc__)


if __name__ == "__main__":
    main(sys.argv[1:])
