#!/usr/bin/env python3
"""Compares the product's reader of office calendars with the second reading of the rules (freebusy_reading.py) on generated texts.

    freebusy_run.py [--count N] [--seed S] [--families all] [--crate NAME | --staticlib FILE | --shared FILE]
                    [--program FILE] [--programs N] [--keep FILE]

Links the static library of the crate NAME (by default `hutchdecade`, built by `tools/build`) to a shared object and calls it;
compares number, place and every lent number, and looks at guards before and after the lent numbers and at the text. Then N texts go
through the program `closures`, if it is there. Last, examples/calendars is held to the reading and the program. Prints each case that
differs, the counts by refusal and cause, and how many differ; the exit status is 0 where none does.
"""
import argparse
import collections
import ctypes
import glob
import os
import subprocess
import sys

import freebusy_reading as reading
import freebusy_texts as texts
from answering import BUILT, ROOT

SHOWN = 20
GUARD = 64
# What lent numbers and guards hold: no answer has a number like these, and no two neighbours are the same.
MARK = -7_777_777_777_777_770_000
PROGRAM_ROWS = 800
EXAMPLES = os.path.join(ROOT, "examples", "calendars")


# ---- the library: its function and the form of its call stand here alone ----------------------------------


class Outcome(ctypes.Structure):
    """Number 0: accepted, and the place is the count of rows."""

    _fields_ = [("number", ctypes.c_uint64), ("place", ctypes.c_uint64)]


def function_of(shared):
    """sheet_read_freebusy(text, length, resource, rows, room), a slice being a pointer and a length."""
    function = ctypes.CDLL(shared).sheet_read_freebusy
    function.restype = Outcome
    function.argtypes = [ctypes.c_void_p, ctypes.c_size_t, ctypes.c_int64, ctypes.c_void_p, ctypes.c_size_t]
    return function


def marks(count):
    return [MARK - at % 9_999 for at in range(count)]


def library(shared):
    """The call as the reading has it: (accepted, number or count, place, the lent numbers after), and what was changed besides."""
    function = function_of(shared)

    def call(text, resource, lent):
        guarded = marks(GUARD) + lent + marks(GUARD)
        numbers = (ctypes.c_int64 * len(guarded))(*guarded)
        given = (ctypes.c_uint8 * max(1, len(text))).from_buffer_copy(text or b"\x00")
        outcome = function(given, len(text), resource, ctypes.addressof(numbers) + 8 * GUARD, len(lent))
        after = list(numbers)
        if after[:GUARD] != marks(GUARD) or after[GUARD + len(lent) :] != marks(GUARD):
            return "a number was changed that was not lent"
        if bytes(given)[: len(text)] != text:
            return "the text was changed"
        lent_after = after[GUARD : GUARD + len(lent)]
        if outcome.number == 0:
            return True, outcome.place, 0, lent_after
        return False, outcome.number, outcome.place, lent_after

    return call


def shared_object(staticlib):
    """The static library as a shared object."""
    os.makedirs(BUILT, exist_ok=True)
    shared = os.path.join(BUILT, "freebusy.so")
    words = ["cc", "-shared", "-o", shared, "-Wl,--whole-archive", os.path.abspath(staticlib), "-Wl,--no-whole-archive"]
    subprocess.run(words, check=True)
    return shared


def static_library(crate):
    if subprocess.run([os.path.join(ROOT, "tools", "build"), crate], stdout=subprocess.DEVNULL).returncode:
        raise SystemExit(1)
    return os.path.join(ROOT, "crates", crate, "out", f"lib{crate}.a")


# ---- comparing --------------------------------------------------------------------------------------------


def said(answer):
    """An answer in one line, rows by their numbers."""
    if isinstance(answer, str):
        return answer
    accepted, number, place, lent = answer
    first = f"accepted {number}" if accepted else f"refused {number} {place}"
    changed = [x for x, mark in zip(lent, marks(len(lent))) if x != mark]
    return " ".join([first, *map(str, changed[:40])])


class Tally:
    def __init__(self, keep):
        self.counts, self.seen, self.differ, self.keep = collections.Counter(), collections.Counter(), 0, keep

    def compare(self, family, case, expected, found):
        self.counts[family] += 1
        if found != expected:
            self.differ += 1
            line = texts.line_of(case)
            if self.differ <= SHOWN:
                print(f"differs ({family}): {line[:3000]}\n  expected {expected if isinstance(expected, bytes) else said(expected)}"
                      f"\n  found    {found if isinstance(found, bytes) else said(found)}", flush=True)
            if self.keep:
                with open(self.keep, "a") as out:
                    out.write(line + "\n")

    def report(self, seed):
        print(f"seed {seed}: " + ", ".join(f"{family} {n}" for family, n in self.counts.items()))
        for (number, cause), times in sorted(self.seen.items()):
            print(f"  {number if number else 'accepted'}: {cause}: {times}")


def families_of(words):
    return list(texts.SHARES) if words == "all" else words.split(",")


def share_of(family, options):
    """How many cases a family has: of all families so many as its share, of one that was named the whole count."""
    return (options.count * texts.SHARES[family] + 999) // 1000 if options.families == "all" else options.count


def compare_library(options, call, tally):
    for family in families_of(options.families):
        for case in texts.cases(family, share_of(family, options), options.seed):
            lent = marks(case.lent)
            expected, cause = reading.judged(case.text, case.resource, lent)
            tally.seen[texts.met(expected, cause)] += 1
            tally.compare(family, case, expected, call(case.text, case.resource, lent))


# ---- the program ------------------------------------------------------------------------------------------


def printed(text, resource):
    """What the program writes to standard output and to standard error."""
    try:
        rows = reading.closures(text, resource, PROGRAM_ROWS)
    except reading.Refusal as refusal:
        return b"refused,%d,%d\n" % (refusal.number, refusal.place), b""
    return b"".join(b"%d,%d,%d,%d,%d\n" % tuple(row[:5]) for row in rows), b"" if rows else b"0 lines\n"


def ran(program, text, resource):
    done = subprocess.run([program, str(resource)], input=text, capture_output=True)
    return done.stdout, done.stderr


def compare_program(options, tally):
    for case in texts.cases("all", options.programs, options.seed + 1):
        if case.resource != -(2**63):  # which is no number of the rules' text
            expected, found = printed(case.text, case.resource), ran(options.program, case.text, case.resource)
            tally.compare("programs", case, b"".join(expected), b"".join(found))


def examples():
    """Of each example its name, text, the resource number, and what is printed for it."""
    with open(os.path.join(EXAMPLES, "resources")) as file:
        resources = {name: int(number) for name, number in map(str.split, file)}
    for path in sorted(glob.glob(os.path.join(EXAMPLES, "*.ics"))):
        name = os.path.basename(path)[:-4]
        with open(path, "rb") as file, open(path[:-4] + ".closures", "rb") as answer:
            yield name, file.read(), resources[name], answer.read()


def compare_examples(options, tally):
    for _, text, resource, answer in examples():
        case = texts.Case(text, resource, 10 * PROGRAM_ROWS)
        tally.compare("examples", case, answer, printed(text, resource)[0])
        if os.path.exists(options.program):
            tally.compare("examples", case, answer, ran(options.program, text, resource)[0])


def main():
    parser = argparse.ArgumentParser()
    parser.add_argument("--count", type=int, default=20_000)
    parser.add_argument("--seed", type=int, default=1)
    parser.add_argument("--families", default="all")
    parser.add_argument("--crate", default="hutchdecade")
    parser.add_argument("--staticlib")
    parser.add_argument("--shared")
    parser.add_argument("--program", default=os.path.join(ROOT, "crates", "closures", "out", "closures"))
    parser.add_argument("--programs", type=int, default=300)
    parser.add_argument("--keep", help="a file that the cases that differ are added to")
    options = parser.parse_args()
    shared = options.shared or shared_object(options.staticlib or static_library(options.crate))
    tally = Tally(options.keep)
    compare_library(options, library(os.path.abspath(shared)), tally)
    if os.path.exists(options.program):
        compare_program(options, tally)
    else:
        print(f"the program was not run: there is no {os.path.relpath(options.program, ROOT)}")
    compare_examples(options, tally)
    tally.report(options.seed)
    print(f"{tally.differ} differ")
    return 1 if tally.differ else 0


if __name__ == "__main__":
    sys.exit(main())
