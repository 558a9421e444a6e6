#!/usr/bin/env python3
"""Times the reader of office calendars on texts of 65,536 bytes that are made to be slow.

    calendars.py [--calls N] [--staticlib FILE | --shared FILE] [--crate NAME]

Links the static library (by default that of `hutchdecade`, built by `tools/build`) to a shared object and calls `sheet_read_freebusy` on each text N
times (101), the texts in turn. Prints for each the least and the median of the processor time in microseconds and what was answered, the slowest
first. The exit status is 1 where a median is 2 ms or more.
"""
import argparse
import ctypes
import os
import statistics
import sys
import time

sys.path.insert(0, os.path.join(os.path.dirname(os.path.dirname(os.path.abspath(__file__))), "differential"))

import freebusy_run as run  # noqa: E402

MOST = 65_536
LIMIT = 2_000  # microseconds
ROOM = 65_536  # numbers lent: more rows than a text of this length has periods
CRLF, FOLD = b"\r\n", b"\r\n "
BEGIN, END = b"BEGIN:VFREEBUSY" + CRLF, b"END:VFREEBUSY" + CRLF
PERIOD = b"19700101T000000Z/P1D"
LINE = b"FREEBUSY:" + PERIOD + CRLF


def filled(before, unit, after):
    """The unit as often as the text has room for it between the two."""
    return before + unit * ((MOST - len(before) - len(after)) // len(unit)) + after


def inside(unit):
    """Lines of a component."""
    return filled(BEGIN, unit, END)


def parameters(unit, before=b"", after=b""):
    """A line FREEBUSY with the unit again and again before its colon."""
    return filled(BEGIN + b"FREEBUSY" + before, unit, after + b":" + PERIOD + CRLF + END)


def value(unit, last=PERIOD, name=b"FREEBUSY:"):
    """A line FREEBUSY with the unit again and again after its colon."""
    return filled(BEGIN + name, unit, last + CRLF + END)


def folded(line, every):
    """A fold after so many bytes of a line."""
    return FOLD.join(line[at : at + every] for at in range(0, len(line), every))


def texts():
    one = LINE[:-2]
    many = b"FREEBUSY:" + b",".join([PERIOD] * 750)
    return {
        "one long line": filled(b"", b"x", CRLF),
        "one long line in a component": filled(BEGIN, b"x", CRLF + END),
        "bare CRLFs": CRLF * (MOST // 2),
        "bare CRLFs in a component": inside(CRLF),
        "bare CRLFs and a period": filled(BEGIN + LINE, CRLF, END),
        "lines of one byte": inside(b"F" + CRLF),
        "lines of seven bytes": inside(b"FREEBUS" + CRLF),
        "lines of eight bytes": inside(b"FREEBUSX" + CRLF),
        "BEGIN lines": filled(b"", BEGIN, b""),
        "BEGIN and END lines": filled(b"", BEGIN + END, b""),
        "lines that are nearly BEGIN": inside(b"BEGIN:VFREEBUSX" + CRLF),
        "lines that are nearly END": inside(b"END:VFREEBUSX" + CRLF),
        "nothing but folds": FOLD * (MOST // 3),
        "a fold for every byte": inside(folded(b"x" * 100, 1) + CRLF),
        "a component for every period": filled(b"", BEGIN + LINE + END, b""),
        "lines of one period": inside(LINE),
        "lines of one period, folded at every byte": inside(folded(one, 1) + CRLF),
        "lines of one FREE period": inside(b"FREEBUSY;FBTYPE=FREE:" + PERIOD + CRLF),
        "lines with parameters and a period": inside(b'FREEBUSY;A="x";B=y;FBTYPE=BUSY-TENTATIVE;C=":":' + PERIOD + CRLF),
        "lines with twenty parameters": inside(b"FREEBUSY" + b";A=" * 20 + b":" + PERIOD + CRLF),
        "one line of periods": value(PERIOD + b","),
        "one line of periods with ends": value(b"19700101T000000Z/19700101T000001Z,"),
        "one line of FREE periods": value(PERIOD + b",", name=b"FREEBUSY;FBTYPE=FREE:"),
        "one line of periods, folded after 74 bytes": filled(BEGIN, folded(b"FREEBUSY:" + b",".join([PERIOD] * 2900), 74), CRLF + END),
        "one line of periods, folded at every byte": filled(BEGIN, folded(many, 1), CRLF + END),
        "days, hours, minutes and seconds": value(b"19700101T000000Z/P1DT1H1M1S,"),
        "a duration of 60,000 zeros": value(b"0", b"1S", b"FREEBUSY:19700101T000000Z/PT"),
        "a duration of 60,000 nines": value(b"9", b"D", b"FREEBUSY:19700101T000000Z/P"),
        "commas for periods": value(b",", PERIOD),
        "parameters": parameters(b";A="),
        "parameters, a fold at the end": parameters(b";FBTYPX=BUSY", b";A=", FOLD + b";ABCDEF=x"),
        "parameters without end": filled(BEGIN + b"FREEBUSY", b";A=", CRLF + END),
        "a name of 60,000 bytes": parameters(b"x", b";", b"="),
        "a value of 60,000 bytes": parameters(b"x", b";A="),
        "values": parameters(b",", b";A="),
        "empty quotes": parameters(b'"",', b";A=", b'""'),
        "quotes that never end": filled(BEGIN + b"FREEBUSY;A=", b'"', CRLF + END),
        "a long quote": parameters(b"x", b';A="', b'"'),
        "a long quote, a fold at the end": parameters(b"x", b';A="', FOLD + b'"'),
        "separators in a long quote": parameters(b":;,", b';A="', b'"'),
        "separators in quotes": parameters(b';A=":;,"'),
        "semicolons": filled(BEGIN + b"FREEBUSY", b";", CRLF + END),
        "colons": filled(BEGIN + b"FREEBUSY", b":", CRLF + END),
        "UTF-8 of two bytes": parameters("é".encode(), b";A="),
        "UTF-8 of three bytes": parameters("€".encode(), b";A="),
        "UTF-8 of four bytes": parameters("\U0001f600".encode(), b";A="),
        "UTF-8 of four bytes in quotes": parameters("\U0001f600".encode(), b';A="', b'"'),
        "FBTYPE everywhere": parameters(b";FBTYPE=FREE"),
        "nearly FBTYPE everywhere": parameters(b";FBTYPX=FREE"),
        "FBTYPE at the end": parameters(b";FBTYPX=BUSY", b"", b";FBTYPE=FREE"),
        "FBTYPE in values": parameters(b"FBTYPE=FREE,", b";A="),
        "a type of 60,000 bytes": parameters(b"F", b";FBTYPE="),
    }


def timed(function, text, numbers):
    start = time.thread_time_ns()
    outcome = function(text, len(text), 5, numbers, ROOM)
    return (time.thread_time_ns() - start) / 1000, outcome


def main():
    parser = argparse.ArgumentParser()
    parser.add_argument("--calls", type=int, default=101)
    parser.add_argument("--crate", default="hutchdecade")
    parser.add_argument("--staticlib")
    parser.add_argument("--shared")
    options = parser.parse_args()
    shared = options.shared or run.shared_object(options.staticlib or run.static_library(options.crate))
    function, numbers, cases = run.function_of(os.path.abspath(shared)), (ctypes.c_int64 * ROOM)(), texts()
    times, said = {name: [] for name in cases}, {}
    for _ in range(options.calls):
        for name, text in cases.items():
            taken, said[name] = timed(function, text, numbers)
            times[name].append(taken)
    rows = sorted(((statistics.median(taken), min(taken), name) for name, taken in times.items()), reverse=True)
    print("| text | bytes | least | median | answer |\n|-|-|-|-|-|")
    for median, least, name in rows:
        outcome = said[name]
        answer = f"refused,{outcome.number},{outcome.place}" if outcome.number else f"accepted,{outcome.place}"
        print(f"| {name} | {len(cases[name]):,} | {least:.0f} | {median:.0f} | {answer} |")
    print(f"worst: {rows[0][0]:.0f} microseconds, {rows[0][2]}")
    return 1 if rows[0][0] >= LIMIT else 0


if __name__ == "__main__":
    sys.exit(main())
