#!/usr/bin/env python3
"""Times the derived times and refusal 6 (`derived_times::DerivedTimes::fill`: who is held, what each booking needs, the refusal) as they are built.

    tools/benchmark/times.py [--more N] [--rounds N] [--drawn N] [NAME..]      (NAME: only sheets whose name has it)

The program of the crate `speed`, which is proved and compiled first, is run on accepted sheets of up to 800 rows that are meant to be the worst
for this part, with a count of 1 and of 1 + N; a figure is the difference of the two processor times, divided by N: the least, the median and the
greatest of the rounds. --drawn: the same, once, of N accepted sheets that are drawn at random from mixtures of these, of which only the
slowest is printed.
"""
import argparse
import random
import statistics

import speed
from generate import flat, reading, row
from hard import TASK, activity, book, external, filled, machine, many
from reading import CAP, bits_of
from sheets import accepted

SLOW, FAST = bits_of(2.0**-10), bits_of(2.0**10)


def part(r, work=CAP - 1):
    return book(r, index=1, work=work)


def split_by(process):
    return [TASK, activity(process=process), row(4, 1, 1000, 0, CAP)]


def fixed(r, process=CAP):
    return row(10, 1, r, CAP, process, CAP)


def companion(r, c):
    return row(13, r, c)


def underflowing(count, unit):
    """Bookings whose product runs down below the least normal float, stays there, and comes up again."""
    return many(103, lambda i: book(1)) + many(count - 206, lambda i: book(unit)) + many(103, lambda i: book(2))


def sheets():
    """Name and rows of each."""
    yield "one piece, one resource, no timing", filled([TASK, activity()], lambda i: book(1))
    yield "one piece, a resource each, no timing", filled([TASK, activity()], lambda i: book(i))
    yield "one piece, a resource each, its numbers large", filled([TASK, activity()], lambda i: book(999_999_999 - i))
    yield "one piece, one resource, a speed", filled([TASK, activity(), row(9, 1, 1, bits_of(1.0 + 2.0**-52))], lambda i: book(1))
    speeds = [row(9, 1, 1, SLOW), row(9, 1, 2, FAST), row(9, 1, 3, bits_of(1.0))]
    yield "one piece, its product below the normal floats", [TASK, activity(process=1), *speeds] + underflowing(795, 3)
    yield "one part, one resource, a fixed timing", filled(split_by(CAP) + [fixed(1)], lambda i: part(1))
    yield "one part, one resource, a small fixed timing", filled(split_by(3) + [row(10, 1, 1, 0, 1, 0)], lambda i: part(1, 1))
    for timed in (200, 400, 600, 700):
        yield f"one part, {timed} bookings of a fixed timing, the others a resource each", split_by(CAP) + [fixed(1)] + many(timed, lambda i: part(1)) + many(796 - timed, lambda i: part(10 + i))
        yield f"one part, the others a resource each, then {timed} bookings of a fixed timing", split_by(CAP) + [fixed(1)] + many(796 - timed, lambda i: part(10 + i)) + many(timed, lambda i: part(1))
    for timings in (100, 200, 266, 398):
        yield f"one part, {timings} fixed timings", split_by(CAP) + many(timings, lambda i: fixed(i)) + many(797 - timings, lambda i: part(timings - 1 - i % timings))
    yield "398 speeds", [TASK, activity()] + many(399, lambda i: row(9, 1, i, bits_of(1.0 + i * 2.0**-40))) + many(399, lambda i: book(398 - i))
    yield "bookings of an unknown activity, a resource each", many(800, lambda i: external(i, 3))
    yield "bookings of an unknown activity, one resource", many(800, lambda i: external(1, 3))
    yield "bookings of two unknown activities and a known one", [TASK, activity()] + many(266, lambda i: external(i, 3)) + many(266, lambda i: external(i, 4)) + many(266, book)
    yield "400 parts of two resources", [TASK, activity(process=400), row(4, 1, 1000, 0, 0)] + many(797, lambda i: book(i % 2, index=i // 2, work=1))
    for companions in (50, 100, 200, 266, 398, 600):
        others = 798 - companions - 1
        head = [TASK, activity(), machine(1)]
        yield f"{companions} companions of one resource, a resource each", head + many(companions, lambda i: companion(1, 10**6 + i)) + [book(1)] + many(others - 1, lambda i: book(10 + i))
        yield f"{companions} companions of one resource, booked last", head + many(companions, lambda i: companion(1, 10**6 + i)) + many(others - 1, lambda i: book(10 + i)) + [book(1)]
        yield f"{companions} companions of one resource, two resources", head + many(companions, lambda i: companion(1, 10**6 + i)) + [book(1)] + many(others - 1, lambda i: book(2))
    yield "one companion named 266 times, 532 bookings of it", [TASK, activity(), machine(1)] + many(265, lambda i: companion(1, 10**6 + i)) + [companion(1, 2)] + many(530, lambda i: book(2)) + [book(1)]
    for each in (1, 2, 4, 8):
        resources = 797 // (each + 2)
        yield f"{resources} resources of {each} companions, each booked once", [TASK, activity()] + many(resources, machine) + many(resources * each, lambda i: companion(i % resources, 10**6 + i)) + many(797 - resources * (each + 1), lambda i: book(i % resources if i < resources else 2000 + i))
        held = 797 // (each + 3)
        yield f"{held} resources of {each} companions, the last one booked", [TASK, activity()] + many(held, machine) + many(held * each, lambda i: companion(i // each, 10**6 + i if i % each < each - 1 else 5000 + i // each)) + many(held, lambda i: book(held - 1 - i)) + many(held, lambda i: book(5000 + i))
    for ring in (198, 264):
        yield f"companions in a ring of {ring}", [TASK, activity()] + many(ring, machine) + many(ring, lambda i: companion(i, (i + 1) % ring)) + many(798 - 2 * ring, lambda i: book(i % ring))
    yield "companions, fixed timings and a part", split_by(CAP) + [machine(1), fixed(2)] + many(100, lambda i: companion(1, 10**6 + i)) + [part(1)] + many(300, lambda i: part(2)) + many(394, lambda i: part(10 + i))


def drawn(rng):
    """A sheet of 800 rows: bookings of one, two or three parts, or of the whole, on resources of fixed timings, of speeds and of none."""
    whole = rng.choice([CAP, CAP - 1, rng.randint(1, CAP), 3])
    rows = [TASK, activity(process=whole), row(4, 1, 1000, 0, rng.choice([0, CAP]))]
    timed = many(rng.choice([1, 1, 2, 4, 8, 16, 32]), lambda i: 100 + i)
    rows += [row(10, 1, r, rng.randint(0, CAP), rng.randint(0, CAP) if whole > 3 else 1, rng.randint(0, CAP)) for r in timed]
    fast = many(rng.choice([1, 2, 4, 8]), lambda i: 200 + i)
    rows += [row(9, 1, r, bits_of(rng.uniform(0.9, 1.1))) for r in fast]
    rows += [machine(1)] + many(rng.choice([0, 0, 0, 1, 5, 20, 50]), lambda i: companion(1, 10**6 + i))
    weights, parts, some_whole = [rng.random() ** 2 for _ in range(4)], rng.choice([1, 1, 1, 2, 3]), rng.random() < 0.2

    def booking(i):
        r = rng.choice(rng.choices([timed, fast, [1000 + i], [1]], weights)[0])
        if some_whole and rng.random() < 0.3:
            return book(r)
        return book(r, index=rng.randrange(parts), work=rng.randint(0, whole))

    return filled(rows, booking)


def milliseconds(program, numbers, more):
    """Of one call."""
    found, printed = speed.seconds(program, speed.DERIVED_TIMES, reading.spelled(numbers), more)
    if printed != 1:
        raise SystemExit("times: the program refuses a sheet that the second reading accepts")
    return found * 1000


def measured(program, names, rounds, more):
    """Name, row count and the times of each sheet, in order."""
    for name, rows in sheets():
        if not names or any(x in name for x in names):
            numbers = accepted(name, flat(rows))
            assert len(rows) <= 800, (name, len(rows))
            yield name, len(rows), sorted(milliseconds(program, numbers, more) for _ in range(rounds))


def line(name, rows, times):
    return f"| {name} | {rows} | {times[0]:.1f} | {statistics.median(times):.1f} | {times[-1]:.1f} |"


HEAD = "| sheet | rows | least, ms | median | greatest |\n|-|-|-|-|-|"


def of_drawn(program, count, more):
    """In words."""
    found, seed = [], 0
    while len(found) < count:
        numbers = flat(drawn(random.Random(f"times {seed}")))
        seed += 1
        if reading.refused_1_to_6(numbers) is None:
            found.append((milliseconds(program, numbers, more), seed - 1))
    return f"{count} accepted sheets drawn, of {seed}: the slowest, {max(found)[1]}, takes {max(found)[0]:.1f} ms"


def main():
    parser = argparse.ArgumentParser(description=__doc__, formatter_class=argparse.RawDescriptionHelpFormatter)
    parser.add_argument("--more", type=int, default=20)
    parser.add_argument("--rounds", type=int, default=5)
    parser.add_argument("--drawn", type=int, default=0)
    parser.add_argument("names", nargs="*")
    options = parser.parse_args()
    program = speed.program()
    if options.drawn:
        print(of_drawn(program, options.drawn, options.more))
        return
    print(HEAD, flush=True)
    worst = 0
    for found in measured(program, options.names, options.rounds, options.more):
        worst = max(worst, found[2][-1])
        print(line(*found), flush=True)
    print(f"\nThe greatest: {worst:.1f} ms")


if __name__ == "__main__":
    main()
