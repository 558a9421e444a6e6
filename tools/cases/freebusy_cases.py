#!/usr/bin/env python3
"""Makes the stored list of office calendars with the rows or the refusal that the rules give them.

    freebusy_cases.py [FOLDER]

Each case shows one thing, and its answer was written down by hand; the second reading of the rules (../differential/freebusy_reading.py)
is held to it. The same run gives the same files.
"""
import collections
import sys

import listing

import freebusy_reading as reading
import freebusy_texts as texts
from freebusy_reading import CAP

NONE = listing.NONE
CRLF = b"\r\n"
BEGIN, END = b"BEGIN:VFREEBUSY", b"END:VFREEBUSY"
DAY = 86_400_000
FIRST = b"19700101T000000Z"
ONE = FIRST + b"/P1D"  # the first day: 0 to 86,400,000
GOOD = b"FREEBUSY:" + ONE
LAST = b"20961002T070640Z"  # the last instant
FREE = b"FREEBUSY;FBTYPE=FREE:"


def lines(*given):
    return b"".join(x + CRLF for x in given)


def inside(*given):
    """A component of these lines; the first of them has place 1."""
    return lines(BEGIN, *given, END)


def busy(value):
    return inside(b"FREEBUSY:" + value)


def shown(data):
    """Bytes in a remark."""
    return repr(data)[2:-1] if len(data) <= 60 else repr(data[:60])[2:-1] + ".."


class Calendars:
    """The cases."""

    def __init__(self):
        self.cases, self.names, self.numbers = [], set(), collections.Counter()
        self.asked = []  # the same as texts of the comparison

    def case(self, remark, parts, expected, lent=None, resource=5):
        """One case; parts are bytes or a list of (TIMES, bytes). Expected: a refusal, the number of rows, or [(start, end), ..]."""
        parts = [(1, parts)] if isinstance(parts, bytes) else parts
        data = b"".join(times * part for times, part in parts)
        lent = 40 + len(self.cases) % 10 if lent is None else lent  # what is no whole row is not used
        accepted, number, place, after = reading.read(data, resource, [7] * lent)
        rows = after[: 10 * number] if accepted else []
        spans = [(row[3], row[4]) for row in listing.rows_of(rows)]
        if isinstance(expected, list):
            fine = accepted and spans == expected
        else:
            fine = (accepted, number, place) == ((False, *expected) if isinstance(expected, tuple) else (True, expected, 0))
        if not fine:
            raise SystemExit(f"{remark}: {(accepted, number, place, spans)}, expected {expected}")
        if remark in self.names or len(data) > 70_000 or lent > 8_200:
            raise SystemExit(f"{remark}: twice, or too large")
        self.names.add(remark)
        self.asked.append(texts.Case(data, resource, lent))
        self.numbers[0 if accepted else number] += 1
        answer = [0, number] if accepted else [number, place]
        self.cases.append(listing.case(remark, listing.rows(rows), listing.text(parts), listing.line("V", [resource, lent, *answer])))


# ---- lines and folds --------------------------------------------------------------------------------------


def line_ends(c):
    c.case("empty text", b"", 0)
    c.case("empty text, nothing lent", b"", 0, lent=0)
    c.case("an empty line", CRLF, 0)
    c.case("two empty lines", CRLF + CRLF, 0)
    c.case("a line without its CRLF", b"X:1", (11, 0))
    c.case("the second line without its CRLF", b"X:1\r\nY:2", (11, 1))
    c.case("the last line ended by CR alone", b"X:1\r", (11, 0))
    c.case("the last line ended by LF alone", b"X:1\n", (11, 0))
    c.case("LF and then CR end no line", b"X:1\n\r", (11, 0))
    c.case("CR alone as text", b"\r", (11, 0))
    c.case("LF alone as text", b"\n", (11, 0))
    c.case("a space alone as text", b" ", (11, 0))
    c.case("a CR by itself is a byte of its line", b"X\rY\r\n", 0)
    c.case("an LF by itself is a byte of its line", b"X\nY\r\n", 0)
    c.case("CR, CR and LF end a line", lines(b"X\r", END), (11, 1))
    c.case("lines ended by LF alone are one line", b"BEGIN:VFREEBUSY\nEND:VFREEBUSY\n", (11, 0))
    c.case("lines ended by CR alone are one line", b"BEGIN:VFREEBUSY\rEND:VFREEBUSY\r", (11, 0))
    c.case("BEGIN ended by LF alone opens none", b"BEGIN:VFREEBUSY\nX\r\nEND:VFREEBUSY\r\n", (11, 1))
    c.case("a FREEBUSY line with an LF in it", busy(ONE + b"\nX"), (11, 1))
    c.case("a FREEBUSY line with a CR at its end", busy(ONE + b"\r"), (11, 1))
    c.case("a byte order mark is of the first line", b"\xef\xbb\xbfX:1\r\n", 0)
    c.case("a byte order mark before BEGIN", b"\xef\xbb\xbf" + inside(), (11, 1))
    c.case("blank lines have their places", lines(b"", b"", END), (11, 2))
    c.case("any bytes in a line that is passed over", lines(b"\x00\x01\x7f\x80\xff\xc3"), 0)
    c.case("END without its CRLF ends the component all the same", inside(GOOD)[:-2], (11, 2))
    c.case("END and a CR: the component is never ended", inside(GOOD)[:-1], (11, 0))
    c.case("BEGIN without its CRLF", BEGIN, (11, 0))
    c.case("a component begun on a line without its CRLF", inside() + BEGIN, (11, 2))
    c.case("a component ended unopened on a line without its CRLF", lines(b"X") + END, (11, 1))
    c.case("a FREEBUSY line outside without its CRLF", lines(b"X") + GOOD, (11, 1))


def folds(c):
    value = b"FREEBUSY;FBTYPE=BUSY;X-A=\"b\":19700101T000000Z/19700102T000000Z,19700103T000000Z/P1DT2H3M4S"
    spans = [(0, DAY), (2 * DAY, 3 * DAY + 7_384_000)]
    c.case("the line of the folds below, without one", inside(value), spans)
    for at, before, what in ((0, b"F", "before the name"), (4, b"B", "in the name"), (8, b";", "after the name"), (9, b"F", "after a semicolon"), (12, b"Y", "in a parameter's name"),
                             (15, b"=", "before ="), (16, b"B", "after ="), (18, b"S", "in FBTYPE's token"), (26, b"b", "inside quotes"), (28, b":", "before the colon"),
                             (29, b"1", "after the colon"), (31, b"7", "in the year"), (37, b"T", "before the T"), (44, b"Z", "before the Z"), (45, b"/", "before the slash"),
                             (46, b"1", "after the slash"), (62, b",", "before a comma"), (63, b"1", "after a comma"), (80, b"P", "before a P"), (81, b"1", "before digits"),
                             (82, b"D", "before a D"), (84, b"2", "after the T of a duration"), (len(value), b"", "before the CR")):
        assert value[at : at + 1] == before
        c.case(f"a fold {what}", inside(value[:at] + b"\r\n " + value[at:]), spans)
    c.case("a fold by a tab", inside(value[:20] + b"\r\n\t" + value[20:]), spans)
    c.case("folds at every place", inside(b"".join(value[at : at + 1] + b"\r\n " for at in range(len(value)))), spans)
    c.case("three folds in one place", inside(value[:40] + b"\r\n \r\n\t\r\n " + value[40:]), spans)
    c.case("a fold takes one space", inside(value[:40] + b"\r\n  " + value[40:]), (11, 1))
    c.case("a fold takes one tab", inside(value[:40] + b"\r\n\t\t" + value[40:]), (11, 1))
    c.case("a fold takes a space and no tab after it", inside(value[:40] + b"\r\n \t" + value[40:]), (11, 1))
    c.case("a space left by a fold is a parameter's", inside(b"FREEBUSY;A=b\r\n  c:" + ONE), 1)
    c.case("a fold in BEGIN", b"BEG\r\n IN:VFREEBUSY\r\n" + lines(END), 0)
    c.case("a fold in END", b"BEGIN:VFREEBUSY\r\nEND\r\n\t:VFREEBUSY\r\n", 0)
    c.case("a fold after BEGIN's last letter", b"BEGIN:VFREEBUSY\r\n \r\nEND:VFREEBUSY\r\n", 0)
    c.case("a space after a fold at BEGIN's end", b"BEGIN:VFREEBUSY\r\n  \r\nEND:VFREEBUSY\r\n", (11, 1))
    c.case("a fold before the text", b"\r\n " + inside(GOOD), 1)
    c.case("a fold and nothing else is a line without its CRLF", b"\r\n ", (11, 0))
    c.case("a fold by a tab and nothing else", b"\r\n\t", (11, 0))
    c.case("a fold and a CRLF are an empty line", b"\r\n \r\n" + lines(END), (11, 1))
    c.case("a fold at the text's end", lines(b"X") + b"\r\n ", (11, 1))
    c.case("the last CRLF made a fold", inside(GOOD) + b" ", (11, 2))
    c.case("a folded line counts once", b"A\r\n B\r\n C\r\n" + lines(END), (11, 1))
    c.case("a vertical tab makes no fold", b"A\r\n\x0bB\r\n" + lines(END), (11, 2))
    c.case("a fold between CR and LF: both are of the line", b"X\r\r\n \nY\r\n" + lines(END), (11, 1))
    c.case("a fold between END's CR and LF: it ends nothing", lines(BEGIN) + b"END:VFREEBUSY\r\r\n \n", (11, 0))
    c.case("what unfolding leaves is not unfolded again", inside(b"FREEBUSY:19700101T000000Z/P1\r\r\n \n D"), (11, 1))
    c.case("LF and a space are no fold", busy(b"19700101T000000Z/\n P1D"), (11, 1))
    c.case("CR and a space are no fold", busy(b"19700101T000000Z/\r P1D"), (11, 1))
    c.case("a fold inside a UTF-8 sequence of two", inside(b"FREEBUSY;A=\xc3\r\n \xa4:" + ONE), 1)
    c.case("folds inside a UTF-8 sequence of four", inside(b"FREEBUSY;A=\"\xf0\r\n \x9f\r\n\t\x98\r\n \x80\":" + ONE), 1)
    c.case("a fold that leaves a UTF-8 sequence apart", inside(b"FREEBUSY;A=\xc3\r\n  \xa4:" + ONE), (11, 1))


# ---- components -------------------------------------------------------------------------------------------


def components(c):
    c.case("an empty component", inside(), 0)
    c.case("a component of one period", inside(GOOD), [(0, DAY)])
    c.case("two components", inside(GOOD) + inside(b"FREEBUSY:19700103T000000Z/P1D"), [(0, DAY), (2 * DAY, 3 * DAY)])
    c.case("letters of BEGIN and END in the other case", lines(b"begin:vfreebusy", b"freebusy:19700101t000000z/p1d", b"end:vfreebusy"), [(0, DAY)])
    c.case("letters of BEGIN and END mixed", lines(b"BeGiN:vFrEeBuSy", GOOD, b"eNd:VfReEbUsY"), 1)
    c.case("a FREEBUSY line before the component", lines(GOOD) + inside(), 0)
    c.case("a FREEBUSY line after the component", inside() + lines(GOOD), 0)
    c.case("a FREEBUSY line between two components", inside() + lines(GOOD) + inside(), 0)
    c.case("a bad FREEBUSY line outside is passed over", lines(b"FREEBUSY") + inside() + lines(b"FREEBUSY:1"), 0)
    c.case("a FREEBUSY line of no date outside is passed over", lines(b"FREEBUSY:20230230T000000Z/P1D"), 0)
    c.case("a FREEBUSY line in a VEVENT is passed over", lines(b"BEGIN:VEVENT", b"FREEBUSY:1", b"END:VEVENT"), 0)
    c.case("begun inside itself", lines(BEGIN, BEGIN, END), (11, 1))
    c.case("begun inside itself: it opens none, so one END ends all", lines(BEGIN, BEGIN, END, END), (11, 1))
    c.case("begun inside itself after a good line", lines(BEGIN, GOOD, BEGIN, END), (11, 2))
    c.case("begun inside itself and never ended: the first line", lines(b"X", BEGIN, BEGIN), (11, 1))
    c.case("begun inside itself in the other case", lines(BEGIN, b"begin:vfreebusy", END), (11, 1))
    c.case("ended unopened", lines(END), (11, 0))
    c.case("ended twice", inside() + lines(END), (11, 2))
    c.case("ended unopened, then a good component", lines(b"X", END) + inside(GOOD), (11, 1))
    c.case("never ended", lines(BEGIN), (11, 0))
    c.case("never ended, with a good line", lines(b"X", BEGIN, GOOD), (11, 1))
    c.case("never ended, with a bad line in it", lines(b"X", BEGIN, b"FREEBUSY"), (11, 1))
    c.case("the second component never ended", inside(GOOD) + lines(BEGIN, GOOD), (11, 3))
    c.case("a bad line above a component never ended", inside(b"FREEBUSY") + lines(BEGIN), (11, 1))
    c.case("ended unopened above a bad line", lines(END) + inside(b"FREEBUSY"), (11, 0))
    c.case("a bad line above a component begun inside itself", lines(BEGIN, b"FREEBUSY", BEGIN, END), (11, 1))
    c.case("ended unopened above a line without its CRLF", lines(END) + b"X", (11, 0))
    c.case("two bad lines: the first", inside(b"X", b"FREEBUSY", b"FREEBUSY:"), (11, 2))
    for line in (b"BEGIN:VFREEBUSY ", b"BEGIN: VFREEBUSY", b"BEGIN :VFREEBUSY", b"BEGIN;X=1:VFREEBUSY", b"BEGIN:VFREEBUSYX", b"BEGIN:VFREEBUS", b"BEGIN:\"VFREEBUSY\"", b"XBEGIN:VFREEBUSY",
                 b"BEGIN=VFREEBUSY", b"BEGINVFREEBUSY", b"BEGIN:V-FREEBUSY", b"BEGIN::VFREEBUSY", b"BEGIN:VFREEBUSY\x00", b"BEGIN:VFREEBUSY;", b"VFREEBUSY"):
        c.case(f"no BEGIN: {shown(line)}", lines(line, END), (11, 1))
    for line in (b"END:VFREEBUSY ", b"END: VFREEBUSY", b"END;X=1:VFREEBUSY", b"END:VFREEBUSYX", b"END:VFREEBUS", b"XEND:VFREEBUSY", b"END", b"END:VCALENDAR", b"END:VFREEBUSY\r"):
        c.case(f"no END: {shown(line)}", lines(BEGIN, line), (11, 0))
    c.case("a VALARM inside: its FREEBUSY line is the component's", inside(b"BEGIN:VALARM", GOOD, b"END:VALARM"), 1)
    c.case("a VALARM inside: its bad FREEBUSY line is the component's", inside(b"BEGIN:VALARM", b"FREEBUSY", b"END:VALARM"), (11, 2))
    c.case("a VEVENT ended inside that was not begun", inside(b"END:VEVENT", GOOD), 1)
    c.case("a VCALENDAR around", lines(b"BEGIN:VCALENDAR") + inside(GOOD) + lines(b"END:VCALENDAR"), 1)
    c.case("a VCALENDAR ended inside", lines(b"BEGIN:VCALENDAR", BEGIN, b"END:VCALENDAR", GOOD, END), 1)
    c.case("an empty line inside", inside(b"", GOOD, b""), 1)


def names(c):
    for line in (b"FREEBUSYX:1", b"X-FREEBUSY:1", b"FREEBUSY-:1", b"FREEBUSY0:1", b"FREE-BUSY:1", b"FREEBUS:1", b"XFREEBUSY:1", b"BUSY:1", b"FREE BUSY:1", b"\xef\xbb\xbfFREEBUSY:1",
                 b":FREEBUSY", b";FREEBUSY:1", b"FREEBUSYFREEBUSY:1", b"-FREEBUSY:1", b"_FREEBUSY:1", b"\"FREEBUSY\":1", b"SUMMARY:FREEBUSY"):
        c.case(f"another name: {shown(line)}", inside(line), 0)
    for line in (b"FREEBUSY_X:1", b"FREEBUSY", b"FREEBUSY:", b"freebusy", b"FREEBUSY ", b"FREEBUSY :" + ONE, b"FREEBUSY=" + ONE, b"FREEBUSY," + ONE, b"FREEBUSY.", b"FREEBUSY\xc3\xa4:" + ONE,
                 b"FREEBUSY\x00:" + ONE, b"FREEBUSY\t:" + ONE, b"FREEBUSY" + ONE[:0] + b"::" + ONE, b"FREEBUSY;", b"FREEBUSY;:" + ONE, b"FREEBUSY;A=b", b"FREEBUSY;A=b;", b"FREEBUSY: " + ONE):
        c.case(f"a bad FREEBUSY line: {shown(line)}", inside(line), (11, 1))
    c.case("the name in the other case", inside(b"freebusy:" + ONE), 1)
    c.case("the name in mixed case", inside(b"fReEbUsY:" + ONE), 1)
    c.case("a space before the name is of another name", lines(BEGIN) + b"\r\n  FREEBUSY:1\r\n" + lines(END), 0)


# ---- parameters -------------------------------------------------------------------------------------------


def with_params(params):
    return inside(b"FREEBUSY" + params + b":" + ONE)


def parameters(c):
    good = [b";A=b", b";A=", b";A=,", b";A=b,c", b";A=,,b", b';A=""', b';A="b"', b';A="b,c"', b';A="b;c"', b';A="b:c"', b';A="b=c"', b';A="",b', b';A=b,""', b';A="b","c"', b";A==", b";A=b=c",
            b";X-A=b", b";X-=b", b";-=b", b";0=b", b";A=b;A=c", b";A=b;C=d;E=f", b";VALUE=PERIOD", b";VALUE=DATE", b";VALUE=X;VALUE=Y", b";TZID=Europe/Berlin", b";a=b", b";A= ", b";A=\t",
            b';A=" \t"', b";A=!", b";A=#", b";A=+", b";A=-", b";A=9", b";A=<", b";A=}", b';A="!#}"', b";A=b/c", b";A='b'", b";A=\\", b";A=FREEBUSY"]
    for params in good:
        c.case(f"parameters: {shown(params)}", with_params(params), 1)
    bad = [b";", b";A", b";=b", b";A;B=c", b";A b=c", b";A_=b", b";A =b", b"; A=b", b';"A"=b', b";\xc3\xa4=b", b";;A=b", b";A=b;", b";A=b;;C=d", b',A=b', b';A="b', b';A=b"', b';A="b"c', b';A=b"c"',
           b';A="b""c"', b';A="b" ', b';A=b,"c', b';A="b",c"', b';A="', b";A=b:c", b";A:=b"]
    for params in bad:
        c.case(f"no parameters: {shown(params)}", with_params(params), (11, 1))
    for byte in (0x00, 0x01, 0x08, 0x0A, 0x0B, 0x0D, 0x1F, 0x7F):
        c.case(f"control {byte:02X} in a value", with_params(b";A=b" + bytes([byte]) + b"c"), (11, 1))
        c.case(f"control {byte:02X} in a quoted value", with_params(b';A="b' + bytes([byte]) + b'c"'), (11, 1))
    c.case("a value of every other character", with_params(b";A=" + bytes(x for x in range(0x20, 0x7E) if x not in b'",:;|$^')), 1)
    c.case("a quoted value of every other character", with_params(b';A="' + bytes(x for x in range(0x20, 0x7E) if x not in b'"|$^') + b'"'), 1)
    for data in texts.UTF8:
        c.case(f"UTF-8: {data.hex(' ')}", with_params(b";A=" + data), 1)
    c.case("UTF-8 in quotes", with_params(b';A="\xc3\xa4,\xe2\x82\xac;\xf0\x9f\x98\x80:"'), 1)
    for data in texts.NO_UTF8:
        c.case(f"no UTF-8: {data.hex(' ')}", with_params(b";A=" + data), (11, 1))
    c.case("no UTF-8 in quotes", with_params(b';A="\xc0\x80"'), (11, 1))
    c.case("a UTF-8 sequence cut by a quote", with_params(b';A="\xe2\x82"'), (11, 1))
    c.case("a UTF-8 sequence cut by a comma", with_params(b";A=\xc3,\xa4"), (11, 1))
    c.case("UTF-8 in a parameter's name", with_params(b";A\xc3\xa4=b"), (11, 1))
    c.case("UTF-8 in the value of the line", busy(ONE + b"\xc3\xa4"), (11, 1))


def types(c):
    for word in (b"BUSY", b"BUSY-UNAVAILABLE", b"BUSY-TENTATIVE", b"X-OOF", b"OOF", b"FREEX", b"FREE-", b"XFREE", b"-FREE", b"FREE-BUSY", b"-", b"0", b"FRE"):
        c.case(f"FBTYPE {word.decode()} is busy", with_params(b";FBTYPE=" + word), 1)
    for word in (b"FREE", b"free", b"Free", b"fREE"):
        c.case(f"FBTYPE {word.decode()} gives no row", with_params(b";FBTYPE=" + word), 0)
    c.case("fbtype in the other case", with_params(b";fbtype=free"), 0)
    c.case("FBTYPE before another parameter", with_params(b";FBTYPE=FREE;A=b"), 0)
    c.case("FBTYPE after another parameter", with_params(b";A=b;FBTYPE=FREE"), 0)
    c.case("FBTYPE between two others", with_params(b";A=b;FBTYPE=FREE;C=d"), 0)
    c.case("FBTYPE FREE inside quotes of another", with_params(b';A="b;FBTYPE=FREE"'), 1)
    for params in (b";X-FBTYPE=FREE", b";FBTYPES=FREE", b";FBTYP=FREE", b";FB-TYPE=FREE", b";X-FBTYPE=FREE;FBTYPE=BUSY"):
        c.case(f"no FBTYPE FREE: {shown(params)}", with_params(params), 1)
    for params in (b";FBTYPE=FREE;FBTYPE=FREE", b";FBTYPE=BUSY;FBTYPE=FREE", b";FBTYPE=BUSY;A=b;fbtype=BUSY", b";FBTYPE", b";FBTYPE=", b";FBTYPE=;A=b", b';FBTYPE=""', b';FBTYPE="FREE"', b';FBTYPE="BUSY"',
                   b";FBTYPE=BUSY,FREE", b";FBTYPE=FREE,", b";FBTYPE=,FREE", b";FBTYPE=FREE ", b";FBTYPE= FREE", b";FBTYPE=BUSY_X", b";FBTYPE=B\xc3\xa4SY", b";FBTYPE=BUSY=X", b";FBTYPE=FREE/X", b";FBTYPE==FREE"):
        c.case(f"no FBTYPE: {shown(params)}", with_params(params), (11, 1))
    c.case("FREE above busy", inside(FREE + ONE, b"FREEBUSY:19700103T000000Z/P1D"), [(2 * DAY, 3 * DAY)])
    c.case("FREE below busy", inside(GOOD, FREE + b"19700103T000000Z/P1D"), [(0, DAY)])
    c.case("FREE is of its line alone", inside(FREE + ONE, GOOD), [(0, DAY)])
    c.case("FREE of several periods", inside(FREE + ONE + b"," + ONE), 0)
    c.case("FREE against the grammar", inside(FREE + b"1"), (11, 1))
    c.case("FREE of a date that does not exist", inside(FREE + b"20230229T000000Z/P1D"), (12, 1))
    c.case("FREE with its end past the last instant", inside(FREE + LAST + b"/PT1S"), (12, 1))
    c.case("FREE with its end at its start", inside(FREE + FIRST + b"/" + FIRST), (11, 1))
    c.case("FREE with nothing lent", inside(FREE + ONE), 0, lent=0)


# ---- dates, durations, periods by the grammar -------------------------------------------------------------


def date_grammar(c):
    bad = [b"19700101T000000", b"19700101000000Z", b"1970101T000000Z", b"019700101T000000Z", b"19700101T00000Z", b"19700101T0000000Z", b"1970-01-01T00:00:00Z", b"19700101", b"T000000Z",
           b"19700101 000000Z", b"19700101T000000Z ", b" 19700101T000000Z", b"+19700101T000000Z", b"-9700101T000000Z", b"19700101T000000ZZ", b"19700101T000000.0Z", b"19700101T000000+0000",
           b"x9700101T000000Z", b"197x0101T000000Z", b"1970x101T000000Z", b"19700x01T000000Z", b"197001x1T000000Z", b"1970010xT000000Z", b"19700101Tx00000Z", b"19700101T0x0000Z",
           b"19700101T00x000Z", b"19700101T000x00Z", b"19700101T0000x0Z", b"19700101T00000xZ", b"19700101U000000Z", b"19700101T000000Y", b"", b"TZ", b"P1D", b"19700101T000000\xc3\x9a"]
    for data in bad:
        c.case(f"no start: {shown(data)}", busy(data + b"/P1D"), (11, 1))
    for data in (b"19700102T000000", b"19700102", b"1970102T000000Z", b"19700102T000000ZZ", b"19700102T000000Z ", b" 19700102T000000Z", b"1970010:T000000Z", b"1970010/T000000Z", b"19700102t000000",
                 b"19700102TT00000Z", b"", b"19700102T000000Z/"):
        c.case(f"no end: {shown(data)}", busy(FIRST + b"/" + data), (11, 1))
    c.case("t and z in the other case", busy(b"19700101t000000z/19700102t000000z"), [(0, DAY)])
    c.case("TZID makes no local time", inside(b"FREEBUSY;TZID=Europe/Berlin:19700101T000000/P1D"), (11, 1))
    c.case("fields of digits that no date has pass the grammar", busy(b"99999999T999999Z/P1D"), (12, 1))


def periods(c):
    c.case("start and end", busy(b"19700101T000000Z/19700101T000001Z"), [(0, 1000)])
    c.case("start and duration", busy(b"19700101T000000Z/PT1S"), [(0, 1000)])
    three = b"19700101T000000Z/PT1S,19700101T000002Z/19700101T000003Z,19700101T000004Z/PT1S"
    c.case("several on a line, of both forms", busy(three), [(0, 1000), (2000, 3000), (4000, 5000)])
    c.case("rows in text order, not in time's", busy(b"19700103T000000Z/P1D," + ONE), [(2 * DAY, 3 * DAY), (0, DAY)])
    c.case("rows of several lines in text order", inside(b"FREEBUSY:19700103T000000Z/P1D", b"X", GOOD), [(2 * DAY, 3 * DAY), (0, DAY)])
    c.case("the same period twice gives two rows", busy(ONE + b"," + ONE), [(0, DAY), (0, DAY)])
    c.case("periods that overlap are not joined", busy(ONE + b",19700101T120000Z/P1D"), [(0, DAY), (DAY // 2, DAY // 2 + DAY)])
    c.case("an example of the RFC", busy(b"19970308T160000Z/PT3H,19970308T200000Z/PT1H,19970308T230000Z/19970309T000000Z"),
           [(857_836_800_000, 857_847_600_000), (857_851_200_000, 857_854_800_000), (857_862_000_000, 857_865_600_000)])
    for value in (b"", b",", ONE + b",", b"," + ONE, ONE + b",," + ONE, ONE + b", " + ONE, ONE + b" ", ONE + b";" + ONE, ONE + b"/" + ONE, FIRST, FIRST + b"/", b"/P1D", FIRST + b"P1D", FIRST + b"//P1D",
                  b"P1D/" + FIRST, FIRST + b"-" + FIRST, b'"' + ONE + b'"', ONE + b":", ONE + b"\t", ONE + b"\x00", b"/", FIRST + b",P1D", ONE + b"." + ONE, FIRST + b"\\P1D"):
        c.case(f"no periods: {shown(value)}", busy(value), (11, 1))
    c.case("the second period is bad", busy(ONE + b",1"), (11, 1))
    c.case("a bad line below a good one", inside(GOOD, b"FREEBUSY:1"), (11, 2))


def durations(c):
    good = {b"P1W": 604_800, b"P1D": 86_400, b"PT1H": 3_600, b"PT1M": 60, b"PT1S": 1, b"P1DT1H": 90_000, b"P1DT1M": 86_460, b"P1DT1S": 86_401, b"P1DT1H1M": 90_060, b"P1DT1M1S": 86_461,
            b"P1DT1H1M1S": 90_061, b"PT1H1M": 3_660, b"PT1H1M1S": 3_661, b"PT1M1S": 61, b"+P1D": 86_400, b"+PT1S": 1, b"p1d": 86_400, b"pt1h1m1s": 3_661, b"p1w": 604_800, b"P0DT1S": 1,
            b"PT0H1M": 60, b"PT0H0M1S": 1, b"PT1H0M0S": 3_600, b"P0001D": 86_400, b"PT90M": 5_400, b"PT86400S": 86_400, b"PT100H": 360_000, b"PT61M61S": 3_721, b"P15DT5H0M20S": 1_314_020,
            b"P7W": 4_233_600, b"P366D": 31_622_400, b"P" + b"0" * 100 + b"1D": 86_400, b"PT4000000000S": 4_000_000_000}
    for value, seconds in good.items():
        c.case(f"duration {shown(value)}", busy(FIRST + b"/" + value), [(0, 1000 * seconds)])
    for value in texts.NO_DURATIONS:
        c.case(f"no duration: {shown(value) or 'nothing'}", busy(FIRST + b"/" + value), (11, 1))
    for value in (b"P0D", b"PT0S", b"P0W", b"+P0D", b"-P0D", b"-PT0S", b"P0DT0H0M0S", b"PT" + b"0" * 50 + b"S"):
        c.case(f"a duration of zero: {shown(value)}", busy(b"19700103T000000Z/" + value), (11, 1))
    for value in (b"-P1D", b"-PT1S", b"-PT1H1M1S", b"-P2D", b"-p1d"):
        c.case(f"a duration below zero, the end not before 1970: {shown(value)}", busy(b"19700103T000000Z/" + value), (11, 1))
    for value in (b"-P3D", b"-P2DT1S", b"-P1W", b"-PT999999999999999999999S", b"-P%dD" % 2**54, b"-PT%dS" % 2**63):
        c.case(f"a duration below zero, the end before 1970: {shown(value)}", busy(b"19700103T000000Z/" + value), (12, 1))
    c.case("-PT1S from the first instant", busy(FIRST + b"/-PT1S"), (12, 1))
    c.case("-PT1S from one second after", busy(b"19700101T000001Z/-PT1S"), (11, 1))
    huge = [b"PT4000000001S", b"P6614W", b"P46297D", b"PT1111112H", b"PT66666667M", b"P%dW" % (2**54 + 1), b"P%dD" % (2**54 + 1), b"PT%dH" % (2**57 + 1), b"PT%dM" % (2**59 + 1), b"PT%dS" % (2**61 + 1),
            b"P%dD" % (2**57 + 1), b"PT%dH" % (2**60 + 1), b"PT%dM" % (2**62 + 1), b"PT%dS" % (2**64 + 1), b"PT%dS" % (2**63 + 1), b"PT%dS" % (2**32 + 1), b"P%dDT%dH" % (2**53, 2**53 * 24 * 1),
            b"PT%dS" % (10**19 + 1), b"P" + b"9" * 200 + b"D", b"PT1H%dM" % 2**59, b"PT1H1M%dS" % 2**61, b"P1DT%dH" % 2**57]
    for value in huge:
        c.case(f"a duration past the last instant: {shown(value)}", busy(FIRST + b"/" + value), (12, 1))
    c.case("weeks up to the range's", busy(FIRST + b"/P6613W"), [(0, 3_999_542_400_000)])
    c.case("days up to the range's", busy(FIRST + b"/P46296D"), [(0, 3_999_974_400_000)])
    c.case("a duration just to the last instant", busy(b"20961002T070639Z/PT1S"), [(CAP - 1000, CAP)])
    c.case("a duration one second past the last instant", busy(b"20961002T070639Z/PT2S"), (12, 1))


# ---- dates and instants -----------------------------------------------------------------------------------

MONTHS = ["January", "February", "March", "April", "May", "June", "July", "August", "September", "October", "November", "December"]
DAYS_2023 = [31, 28, 31, 30, 31, 30, 31, 31, 30, 31, 30, 31]
START_2023 = 1_672_531_200_000  # 1 January 2023


def dates(c):
    for number, (name, days) in enumerate(zip(MONTHS, DAYS_2023), 1):
        start = START_2023 + DAY * (sum(DAYS_2023[:number]) - 1)
        c.case(f"the last day of {name}", busy(b"2023%02d%02dT000000Z/P1D" % (number, days)), [(start, start + DAY)])
        c.case(f"the day after the last of {name}", busy(b"2023%02d%02dT000000Z/P1D" % (number, days + 1)), (12, 1))
    for date, start in ((b"20240229", 1_709_164_800_000), (b"20000229", 951_782_400_000), (b"19720229", 68_169_600_000), (b"20960229", 3_981_312_000_000), (b"20240301", 1_709_251_200_000),
                        (b"20230301", 1_677_628_800_000), (b"20000301", 951_868_800_000), (b"19991231", 946_598_400_000), (b"20241231", 1_735_603_200_000)):
        c.case(f"{date.decode()} exists", busy(date + b"T000000Z/P1D"), [(start, start + DAY)])
    for date in (b"20230229", b"20240230", b"20000230", b"19000229", b"21000229", b"19710229", b"20230230", b"20230231", b"20230001", b"20231301", b"20239901", b"20230100", b"20230132", b"20230199", b"20230000"):
        c.case(f"{date.decode()} does not exist, as a start", busy(date + b"T000000Z/P1D"), (12, 1))
        c.case(f"{date.decode()} does not exist, as an end", busy(FIRST + b"/" + date + b"T000000Z"), (12, 1))
    for clock, ms in ((b"235959", 86_399_000), (b"230000", 82_800_000), (b"005900", 3_540_000), (b"000059", 59_000)):
        c.case(f"the time {clock.decode()}", busy(b"19700101T" + clock + b"Z/PT1S"), [(ms, ms + 1000)])
        c.case(f"the time {clock.decode()} as an end", busy(FIRST + b"/19700101T" + clock + b"Z"), [(0, ms)])
    for clock in (b"240000", b"250000", b"990000", b"006000", b"009900", b"000060", b"000099", b"235960", b"246060"):
        c.case(f"no time {clock.decode()}", busy(b"19700101T" + clock + b"Z/P1D"), (12, 1))
        c.case(f"no time {clock.decode()} as an end", busy(FIRST + b"/19700102T" + clock + b"Z"), (12, 1))


def instants(c):
    c.case("the first instant", busy(FIRST + b"/19700101T000001Z"), [(0, 1000)])
    c.case("one second before the first", busy(b"19691231T235959Z/P1D"), (12, 1))
    c.case("one second before the first, as an end", busy(FIRST + b"/19691231T235959Z"), (12, 1))
    c.case("the last instant as an end", busy(FIRST + b"/" + LAST), [(0, CAP)])
    c.case("one second past the last, as an end", busy(FIRST + b"/20961002T070641Z"), (12, 1))
    c.case("the last instant as a start: no end is left", busy(LAST + b"/PT1S"), (12, 1))
    c.case("the last instant as start and end", busy(LAST + b"/" + LAST), (11, 1))
    c.case("one second past the last, as a start", busy(b"20961002T070641Z/P1D"), (12, 1))
    c.case("one second past the last, as a start, and an end below it", busy(b"20961002T070641Z/" + FIRST), (12, 1))
    for year in (b"0000", b"0001", b"0999", b"1600", b"1969", b"2097", b"2100", b"9999"):
        c.case(f"the year {year.decode()} is out of range", busy(year + b"0101T000000Z/P1D"), (12, 1))
    c.case("29 February of the year 0000 is out of range all the same", busy(b"00000229T000000Z/P1D"), (12, 1))
    for seconds in (2**31 - 1, 2**31, 2**32 // 2 + 7, 10**9, 1_772_000_000):
        stamp = texts.stamp(seconds)
        c.case(f"{stamp.decode()}", busy(stamp + b"/PT1S"), [(1000 * seconds, 1000 * seconds + 1000)])
    c.case("an end one second after its start", busy(b"20260105T080000Z/20260105T080001Z"), [(1_767_600_000_000, 1_767_600_001_000)])
    c.case("an end at its start", busy(b"20260105T080000Z/20260105T080000Z"), (11, 1))
    c.case("an end one second before its start", busy(b"20260105T080001Z/20260105T080000Z"), (11, 1))
    c.case("an end a year before its start", busy(b"20260105T080000Z/20250105T080000Z"), (11, 1))
    c.case("the second period's end at its start", inside(GOOD, b"X", b"FREEBUSY:" + ONE + b"," + FIRST + b"/" + FIRST), (11, 3))


# ---- the order of refusals, the rows lent, resources, sizes -----------------------------------------------


def order(c):
    no_date, no_end, bad = b"20230229T000000Z/P1D", FIRST + b"/" + FIRST, b"FREEBUSY:1"
    c.case("12 for a start, whatever the end", busy(b"20230229T000000Z/" + FIRST), (12, 1))
    c.case("12 for an end before 11", busy(b"20230101T000000Z/19691231T235959Z"), (12, 1))
    c.case("12 for an end that does not exist and is earlier", busy(b"20230101T000000Z/20220230T000000Z"), (12, 1))
    c.case("12 for a start, its duration zero", busy(b"20230229T000000Z/P0D"), (12, 1))
    c.case("11 in the first period, 12 in the second", busy(no_end + b"," + no_date), (11, 1))
    c.case("12 in the first period, 11 in the second", busy(no_date + b"," + no_end), (12, 1))
    c.case("11 in the first line, 12 in the second", inside(b"FREEBUSY:" + no_end, b"FREEBUSY:" + no_date), (11, 1))
    c.case("12 in the first line, 11 in the second", inside(b"FREEBUSY:" + no_date, b"FREEBUSY:" + no_end), (12, 1))
    c.case("12 above a line against the grammar", inside(b"FREEBUSY:" + no_date, bad), (11, 2))
    c.case("an end at its start above a line against the grammar", inside(b"FREEBUSY:" + no_end, bad), (11, 2))
    c.case("12 on the line that is against the grammar", busy(no_date + b",1"), (11, 1))
    for value in (b"P", b"PT", b"P1DT", b"", b"-P"):
        c.case(f"12 above a line whose duration is none: {shown(value) or 'nothing'}", inside(b"FREEBUSY:" + no_date, b"FREEBUSY:" + FIRST + b"/" + value), (11, 2))
    for value in (b"P0D", b"-P1D", b"P" + b"9" * 40 + b"D"):
        c.case(f"12 above a line whose duration passes the grammar: {shown(value)}", inside(b"FREEBUSY:" + no_date, b"FREEBUSY:" + FIRST + b"/" + value), (12, 1))
    c.case("12 above a comma that stands last", inside(b"FREEBUSY:" + no_date, GOOD + b","), (11, 2))
    c.case("12 above a line without its CRLF", inside(b"FREEBUSY:" + no_date) + b"X", (11, 3))
    c.case("12 above a component never ended", inside(b"FREEBUSY:" + no_date) + lines(BEGIN), (11, 3))
    c.case("12 above a component ended unopened", inside(b"FREEBUSY:" + no_date) + lines(b"X", END), (11, 4))
    c.case("12 in the second component", inside(GOOD) + inside(b"X", b"FREEBUSY:" + no_date), (12, 5))
    c.case("13 above a line against the grammar", inside(GOOD, bad), (11, 2), lent=0)
    c.case("13 and 12 of one period: 12", busy(no_date), (12, 1), lent=0)
    c.case("13 and 11 of one period: 11", busy(no_end), (11, 1), lent=0)
    c.case("13 in the first period, 12 in the second", busy(ONE + b"," + no_date), (13, 1), lent=0)
    c.case("12 in the first period, 13 in the second", busy(no_date + b"," + ONE), (12, 1), lent=0)
    c.case("13 in the first line, 12 in the second", inside(GOOD, b"FREEBUSY:" + no_date), (13, 1), lent=9)
    c.case("13 in the first line, 11 in the second", inside(GOOD, b"FREEBUSY:" + no_end), (13, 1), lent=0)
    c.case("one row lent, the second period refused by 12", busy(ONE + b"," + no_date), (12, 1), lent=10)
    c.case("one row lent, a FREE period of no date after it", inside(GOOD, FREE + no_date), (12, 2), lent=10)
    c.case("3 before 11", lines(END), (3, 0), resource=-1)
    c.case("3 before 12", busy(no_date), (3, 0), resource=1_000_000_000)
    c.case("3 before 13", inside(GOOD), (3, 0), resource=-1, lent=0)
    c.case("3 of an empty text", b"", (3, 0), resource=-1)
    c.case("3 above a line without its CRLF", b"X", (3, 0), resource=1_000_000_000)


def rows_lent(c):
    c.case("no period, nothing lent", inside(), 0, lent=0)
    c.case("one period, nothing lent", inside(GOOD), (13, 1), lent=0)
    c.case("one period, nine numbers lent", inside(GOOD), (13, 1), lent=9)
    c.case("one period, ten numbers lent", inside(GOOD), 1, lent=10)
    c.case("one period, nineteen numbers lent", inside(GOOD), 1, lent=19)
    c.case("two periods, nineteen numbers lent", busy(ONE + b"," + ONE), (13, 1), lent=19)
    c.case("two periods, twenty numbers lent", busy(ONE + b"," + ONE), 2, lent=20)
    c.case("two lines, one row lent", inside(GOOD, b"X", GOOD), (13, 3), lent=10)
    c.case("two components, one row lent", inside(GOOD) + inside(GOOD), (13, 4), lent=15)
    c.case("two busy and one FREE, two rows lent", inside(GOOD, FREE + ONE, GOOD), 2, lent=20)
    c.case("two busy and one FREE, one row lent", inside(GOOD, FREE + ONE, GOOD), (13, 3), lent=10)
    c.case("one row lent, FREE after it", inside(GOOD, FREE + ONE + b"," + ONE), 1, lent=10)
    c.case("what lies after the rows is unchanged", inside(GOOD), 1, lent=57)
    for times, lent, expected in ((800, 8000, 800), (801, 8000, (13, 801)), (801, 8009, (13, 801)), (801, 8010, 801), (799, 7999, 799), (800, 7999, (13, 800))):
        c.case(f"{times} lines, {lent} numbers lent", [(1, BEGIN + CRLF), (times, GOOD + CRLF), (1, END + CRLF)], expected, lent=lent)
    for times, expected in ((799, 800), (800, (13, 1))):
        c.case(f"{times + 1} periods on a line, 800 rows lent", [(1, BEGIN + CRLF + GOOD), (times, b"," + ONE), (1, CRLF + END + CRLF)], expected, lent=8000)


def resources(c):
    for number in (0, 1, 999_999_999):
        c.case(f"resource {number}", inside(GOOD), 1, resource=number)
    for number in (-1, 1_000_000_000, -999_999_999, 2**31, 2**32, 2**32 + 5, -(2**32) + 5, 2**63 - 1, -(2**63) + 1, NONE):
        c.case(f"resource {number}", inside(GOOD), (3, 0), resource=number)


def sizes(c):
    whole = inside(GOOD)
    for length, expected in ((65_535, 1), (65_536, 1), (65_537, (8, 0))):
        rest = length - len(whole) - 4
        c.case(f"{length} bytes", [(1, whole), (1, b"X:"), (rest, b"x"), (1, CRLF)], expected)
    rest = 65_536 - len(whole) - 2
    c.case("65536 bytes, the last line without its CRLF", [(1, whole), (1, b"X:"), (rest, b"x")], (11, 3))
    c.case("65537 bytes, no line of them good", [(65_537, b"x")], (8, 0))
    c.case("65536 bytes, one line without its CRLF", [(65_536, b"x")], (11, 0))
    c.case("8 before 3", [(65_537, b"x")], (8, 0), resource=-1)
    c.case("3 of a text of 65536 bytes", [(65_536, b"x")], (3, 0), resource=-1)
    c.case("32768 empty lines", [(32_768, CRLF)], 0)
    c.case("32769 empty lines", [(32_769, CRLF)], (8, 0))
    c.case("16383 folds and nothing else", [(16_383, b"\r\n ")], (11, 0))
    c.case("folds count among the bytes", [(1, BEGIN + CRLF + b"FREEBUSY"), (21_830, b"\r\n "), (1, b":" + ONE + CRLF + END + CRLF)], (8, 0))
    c.case("21000 folds in a name", [(1, BEGIN + CRLF + b"FREE"), (21_000, b"\r\n "), (1, b"BUSY:" + ONE + CRLF + END + CRLF)], [(0, DAY)])
    c.case("a value of 60000 bytes", [(1, BEGIN + CRLF + b"FREEBUSY;A="), (60_000, b"x"), (1, b":" + ONE + CRLF + END + CRLF)], 1)
    c.case("15000 parameters", [(1, BEGIN + CRLF + b"FREEBUSY"), (15_000, b";A=b"), (1, b":" + ONE + CRLF + END + CRLF)], 1)
    c.case("a duration of 60000 zeros and a one", [(1, BEGIN + CRLF + b"FREEBUSY:" + FIRST + b"/PT"), (60_000, b"0"), (1, b"1S" + CRLF + END + CRLF)], [(0, 1000)])
    c.case("a duration of 60000 nines", [(1, BEGIN + CRLF + b"FREEBUSY:" + FIRST + b"/PT"), (60_000, b"9"), (1, b"S" + CRLF + END + CRLF)], (12, 1))
    c.case("60000 digits and no letter", [(1, BEGIN + CRLF + b"FREEBUSY:" + FIRST + b"/PT"), (60_000, b"9"), (1, CRLF + END + CRLF)], (11, 1))
    c.case("a place of four digits", [(2_000, CRLF), (1, END + CRLF)], (11, 2_000))
    c.case("2000 components", [(1_999, BEGIN + CRLF + END + CRLF), (1, BEGIN + CRLF + END)], (11, 3_999))


PARTS = [line_ends, folds, components, names, parameters, types, date_grammar, periods, durations, dates, instants, order, rows_lent, resources, sizes]


def calendars():
    c = Calendars()
    for part in PARTS:
        part(c)
    return c


def main(folder):
    c = calendars()
    listing.write(folder, "cases", c.cases, most=None)
    print(f"{len(c.cases)} cases: " + ", ".join(f"{'refused ' + str(number) if number else 'accepted'} {times}" for number, times in sorted(c.numbers.items())))


if __name__ == "__main__":
    main(sys.argv[1] if len(sys.argv) > 1 else listing.folder_of("replay_freebusy"))
