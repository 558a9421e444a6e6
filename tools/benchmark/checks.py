#!/usr/bin/env python3
"""Times the derived times and the nine checks one by one, as they are built.

    tools/benchmark/checks.py [--sheets N] [--seed S] [--more N] [--passes N]

The program of the crate `speed`, which is proved and compiled first, runs them on weeks and on full sheets.
  repeated: N sheets of `run`, each with a count of 1 and of 1 + more (a fifth on full sheets); a figure is the difference of the two
    processor times, divided by that: the median over the sheets;
  met once: as many other sheets as the program has room for, one after the other, all of them in each pass; a figure is the processor time of
    the passes less that of as many in which the sheets are read and indexed but not checked, by sheet, each the least of nine rounds. The derived
    times are worked out in both, so there is no figure for them.
"""
import argparse
import statistics

import sheets
import speed
from generate import reading

PARTS = {speed.DERIVED_TIMES: "derived times", **speed.CHECKS}
ROUNDS = 9


def repeated(program, family, count, seed, more):
    """Seconds by part."""
    texts = [reading.spelled(numbers) for _, _, numbers in sheets.sheets([family], count, seed)]
    often = more if family == "week" else more // 5
    return {part: statistics.median(speed.seconds(program, part, text, often)[0] for text in texts) for part in PARTS}


def fitting(family, seed):
    """The texts of as many sheets as the program has room for."""
    texts, room = [], speed.ROOM
    for _, _, numbers in sheets.met_once([family], speed.ROOM, seed):
        texts.append(reading.spelled(numbers))
        room -= len(texts[-1]) + 1
        if room < 0:
            return texts[:-1]


def met_once(program, texts, passes):
    """Seconds by check."""
    joined = b";".join(texts)
    rounds = [[speed.processor_seconds(program, speed.IN_TURN + part, passes, joined)[0] for part in (0, *speed.CHECKS)] for _ in range(ROUNDS)]
    none, *checked = map(min, zip(*rounds))
    return {check: (taken - none) / passes / len(texts) for check, taken in zip(speed.CHECKS, checked)}


def line(name, found):
    return f"| {name} | " + " | ".join(f"{max(found[part], 0) * 1e6:.1f}" if part in found else "" for part in PARTS) + " |"


def table(count, seed, more, passes):
    """Line by line."""
    program = speed.program()
    yield "| sheets | " + " | ".join(PARTS.values()) + " |"
    yield "|-|" + "-|" * len(PARTS)
    for family in ("week", "full"):
        yield line(sheets.named(family, count) + ", repeated", repeated(program, family, count, seed, more))
        texts = fitting(family, seed)
        yield line(sheets.named(family, len(texts)) + ", met once", met_once(program, texts, passes))


def main():
    parser = argparse.ArgumentParser(description=__doc__, formatter_class=argparse.RawDescriptionHelpFormatter)
    parser.add_argument("--sheets", type=int, default=20)
    parser.add_argument("--seed", type=int, default=1)
    parser.add_argument("--more", type=int, default=20000)
    parser.add_argument("--passes", type=int, default=60)
    options = parser.parse_args()
    for each in table(options.sheets, options.seed, options.more, options.passes):
        print(each, flush=True)


if __name__ == "__main__":
    main()
