#!/usr/bin/env python3
"""Makes the stored list of derived times.

    derived_cases.py [FOLDER]

Every answer is worked out twice and must come out the same: by ../differential/reading.py, in the floats of this
machine's Python, and below, in exact fractions with the rounding of IEEE 754 (binary64, nearest, ties to even) written
out. Where a case names its answer, that was written down by hand, and both are held to it.
"""
import random
import sys
from fractions import Fraction

import listing

import generate
import reading
from generate import flat, row
from reading import CAP, CLASSES, NONE, bits_of

LIMIT = 2**53
INFINITE = "infinite"


# ---- the second working: exact fractions ------------------------------------------------------------------


def exact(bits):
    """The number that the bits of a finite float, sign clear, stand for."""
    power, digits = bits >> 52, bits & (2**52 - 1)
    return Fraction(digits, 2**1074) if power == 0 else Fraction(2**52 + digits) * Fraction(2) ** (power - 1075)


def half_even(x):
    down = x.numerator // x.denominator
    rest = x - down
    return down + (rest > Fraction(1, 2) or rest == Fraction(1, 2) and down % 2 == 1)


def nearest(x):
    """The binary64 number nearest to a fraction of 0 or more, or INFINITE."""
    if x == 0:
        return x
    power = max(-1074, x.numerator.bit_length() - x.denominator.bit_length() - 54)
    while Fraction(2) ** (power + 53) <= x:
        power += 1
    rounded = half_even(x / Fraction(2) ** power) * Fraction(2) ** power
    return INFINITE if rounded >= Fraction(2) ** 1024 else rounded


def product_of(speeds):
    """The speeds (bits) multiplied from 1.0 in their order."""
    product = Fraction(1)
    for bits in speeds:
        product = INFINITE if product == INFINITE else nearest(product * exact(bits))
    return product


def at_product(process, product):
    """The process at a product of speeds, or None where the quotient is not finite."""
    if product == 1:
        return process
    if product == INFINITE:
        return 0
    if product == 0:
        return None
    quotient = nearest(Fraction(process) / product)
    return None if quotient == INFINITE else (2 * quotient + 1).__floor__() // 2


def shared(ms, work, whole):
    return ms if whole == 0 else int((Fraction(2 * ms * work + whole) / (2 * whole)).__floor__())


def overlap_start(bits, start, end):
    span = end - start
    rounded = nearest(exact(bits) * abs(span))
    return start + (rounded.__ceil__() if span >= 0 else -rounded.__floor__())


def derived(rows, booking):
    """Setup, process and teardown of a booking, or None where 6 refuses it; rows of an accepted sheet."""
    activity = next(r for r in rows if r[0] == 2 and r[1] == booking[1])
    split = next((r for r in rows if r[0] == 4 and r[1] == booking[1]), None)
    piece = [r[3] for r in rows if r[0] == 23 and r[1] == booking[1] and r[7] == booking[7]]
    named = [(r[1], r[2]) for r in rows if r[0] == 13]
    on = [r for r in piece if not any(c == r and o != r and o in piece for o, c in named)]
    is_part = split is not None and booking[7] != NONE
    overhead = split[4] if is_part and booking[7] > 0 else 0
    base = (activity[4], booking[8] if is_part else activity[5], activity[6] + overhead)
    timings = [t for r in on for t in rows if t[0] in (9, 10) and t[1] == booking[1] and t[2] == r]
    fixed = []
    for _, _, _, s, p, t, *_ in [t for t in timings if t[0] == 10]:
        fixed.append((s, shared(p, booking[8], activity[5]) if is_part else p, t + overhead))
    if fixed:
        found = max(fixed, key=sum)  # the first of the greatest
    else:
        process = at_product(base[1], product_of([t[3] for t in timings]))
        found = None if process is None else (base[0], process, base[2])
    return None if found is None or sum(found) >= LIMIT else found


# ---- the lists --------------------------------------------------------------------------------------------


class Cases:
    def __init__(self):
        self.sheets, self.speeds, self.shares, self.overlaps = [], [], [], []

    def sheet(self, remark, rows, *expected):
        """Derived times of a sheet; expected, if given, are those of its bookings in order (None: 6)."""
        numbers = flat(rows)
        assert reading.refused_1_to_5(numbers) is None, remark
        typed = reading.Sheet(numbers)
        answers, first = [], None
        for place, r in enumerate(typed.rows):
            if r[0] == 23 and r[1] in typed.activity:
                by_floats = typed.derived(r)
                by_floats = None if reading.stretched(by_floats) else tuple(by_floats)
                found = derived(typed.rows, r)
                assert found == by_floats, (remark, found, by_floats)
                answers.append([place, *(found or (-1, -1, -1))])
                first = place if found is None and first is None else first
        wanted = [[-1] * 3 if x is None else list(x) for x in expected]
        if wanted and wanted != [x[1:] for x in answers]:
            raise SystemExit(f"{remark}: {answers}, expected {wanted}")
        assert answers
        refusal = (0, 0) if first is None else (6, first)
        self.sheets.append(listing.case(remark, listing.rows(numbers), listing.expected(answers), listing.line("D", refusal)))

    def speed(self, remark, process, speeds, expected=None):
        """A process at some speeds, given as bits or floats."""
        speeds = [bits_of(s) if isinstance(s, float) else s for s in speeds]
        answer = at_product(process, product_of(speeds))
        by_floats = 1.0
        for bits in speeds:
            by_floats *= reading.float_of(bits)
        if by_floats == 1.0:
            twice = process
        else:
            quotient = reading.quotient(process, by_floats)
            twice = reading.rounded(quotient) if quotient < float("inf") else None
        assert answer == twice, (remark, answer, twice)
        answer = -1 if answer is None or answer >= LIMIT else answer
        if expected is not None and answer != expected:
            raise SystemExit(f"{remark}: {answer}, expected {expected}")
        self.speeds.append(listing.case(remark, listing.numbers(speeds), listing.line("P", [process, answer])))

    def share(self, remark, ms, work, whole, expected=None):
        answer = shared(ms, work, whole)
        assert answer == reading.share(ms, work, whole)
        answer = -1 if answer >= LIMIT else answer
        if expected is not None and answer != expected:
            raise SystemExit(f"{remark}: {answer}, expected {expected}")
        self.shares.append(listing.case(remark, listing.line("S", [ms, work, whole, answer])))

    def overlap(self, remark, share, start, end, lag=0, expected=None):
        bits = bits_of(share) if isinstance(share, float) else share
        answer = overlap_start(bits, start, end)
        assert answer == reading.overlap_start(bits, start, end), remark
        if expected is not None and answer != expected:
            raise SystemExit(f"{remark}: {answer}, expected {expected}")
        self.overlaps.append(listing.case(remark, listing.line("O", [bits, lag, start, end, answer, end + lag])))


# ---- speeds -----------------------------------------------------------------------------------------------

BELOW_1, ABOVE_1 = 1.0 - 2.0**-53, 1.0 + 2.0**-52
SLOW, FAST = 2.0**-10, 2.0**10


def speeds(c):
    c.speed("example A", 5, [2.0], 3)
    c.speed("no speed", 7, [], 7)
    c.speed("one half is one", 1, [2.0], 1)
    c.speed("one and a half", 3, [2.0], 2)
    c.speed("two and a half", 5, [2.0], 3)
    c.speed("three and a half", 7, [2.0], 4)
    c.speed("a quarter", 1, [4.0], 0)
    c.speed("three quarters", 3, [4.0], 1)
    c.speed("just below one half", 1, [2.0 + 2.0**-51], 0)
    c.speed("just above one half", 1, [2.0 - 2.0**-52], 1)
    c.speed("just below three halves", 3, [2.0 + 2.0**-51], 1)
    c.speed("process 0", 0, [SLOW], 0)
    c.speed("process 0 at two speeds", 0, [SLOW, FAST], 0)
    c.speed("the greatest process at the least speed", CAP, [SLOW], CAP * 1024)
    c.speed("at 2^-20", CAP, [SLOW, SLOW], -1)
    c.speed("the greatest process at the greatest speed", CAP, [FAST], 3_906_250_000)
    c.speed("three halves of a thousandth", 1536, [FAST], 2)
    c.speed("one half of it", 512, [FAST], 1)
    c.speed("and less", 511, [FAST], 0)
    for a, b in ((3.0, 1 / 3), (1 / 3, 3.0), (10.0, 0.1), (0.1, 10.0), (0.7, 1 / 0.7), (1 / 49, 49.0), (49.0, 1 / 49), (BELOW_1, ABOVE_1),
                 (ABOVE_1, BELOW_1), (1.5, 2 / 3), (0.5, 2.0), (41.0, 1 / 41), (1 / 47, 47.0), (1.0, 1.0), (BELOW_1, 1.0), (ABOVE_1, ABOVE_1)):
        c.speed(f"a product near 1.0: {a!r} and {b!r}", CAP - 1, [a, b], CAP - 1)
    for process in (8_796_093_022_208 // 8, CAP, LIMIT // 2**12):
        for power in (10, 11, 12, 13):
            c.speed(f"a power of two, {process} at 2^-{power}", process, [SLOW, 2.0 ** -(power - 10)])
    for less in (0, 1, 2):  # 2^53 itself, and what lies below
        c.speed(f"2^53 less {less} steps", LIMIT // 2**12 - less, [SLOW, 0.25], -1 if less == 0 else LIMIT - less * 2**12)
    for count in (101, 102, 103, 106, 107, 108, 109):
        for process in (0, 1):
            c.speed(f"{count} times 2^-10", process, [SLOW] * count, None)
            c.speed(f"{count} times 2^10", process, [FAST] * count, None)
    c.speed("up and down again", 5, [FAST] * 103 + [SLOW] * 103, 0)
    c.speed("down and up again", 5, [SLOW] * 108 + [FAST] * 108, -1)
    c.speed("subnormal and up again", 5, [1 / 3 * SLOW * 3, *[SLOW] * 105, *[FAST] * 106], None)
    c.speed("digits lost on the way down", 1000, [1 / 3] * 2 + [SLOW] * 106 + [FAST] * 106, None)


def drawn_speeds(c):
    rng = random.Random("stored speeds")
    near = []
    for _ in range(4000):  # the quotients nearest to a half, and not it
        process, speed = rng.randint(1, CAP >> rng.randint(0, 40)), rng.randint(*CLASSES["speed"])
        quotient = Fraction(process) / exact(speed)
        off = abs(quotient - quotient.__floor__() - Fraction(1, 2))
        near.append((off, process, speed))
    for _, process, speed in sorted(near)[:25]:
        c.speed("near a half", process, [speed])
    found = 0
    while found < 20:  # quotients that are halves once rounded
        process, pair = rng.randint(CAP // 2, CAP), [rng.randint(bits_of(0.0012), bits_of(0.0016))]
        quotient = nearest(Fraction(process) / product_of(pair))
        if (2 * quotient).denominator == 1 and quotient.denominator == 2:
            c.speed("a half by rounding", process, pair)
            found += 1
    found = 0
    while found < 25:  # the product's order shows in the answer
        process, three = rng.randint(CAP // 2, CAP), [rng.randint(bits_of(0.05), bits_of(0.2)) for _ in range(3)]
        ways = {at_product(process, product_of(x)) for x in (three, three[::-1], [three[0], three[2], three[1]])}
        if len(ways) > 1 and max(ways) < LIMIT:
            c.speed("another order, another time", process, three)
            found += 1
    found = 0
    while found < 15:  # between 2^52 and 2^53 the quotient is whole, odd or even
        process, pair = rng.randint(CAP // 2, CAP), [bits_of(SLOW), rng.randint(bits_of(0.3), bits_of(1.0))]
        answer = at_product(process, product_of(pair))
        if 2**52 <= answer < LIMIT and answer % 2 == 1:
            c.speed("odd, above 2^52", process, pair)
            found += 1
    for _ in range(15):
        c.speed("drawn", rng.randint(0, 10**6), [rng.randint(*CLASSES["speed"]) for _ in range(rng.randint(1, 4))])


# ---- shares and overlaps ----------------------------------------------------------------------------------


def shares(c):
    c.share("example B", 100, 1, 3, 33)
    c.share("example C", 5, 1, 2, 3)
    c.share("half up", 1, 1, 2, 1)
    c.share("three halves", 3, 1, 2, 2)
    c.share("five halves", 5, 1, 2, 3)
    c.share("just below a half", 333, 1, 667, 0)
    c.share("just above it", 334, 1, 667, 1)
    c.share("two thirds", 2, 1, 3, 1)
    c.share("whole 0", 77, 5, 0, 77)
    c.share("all 0", 0, 0, 0, 0)
    c.share("work 0", 100, 0, 7, 0)
    c.share("time 0", 0, 7, 7, 0)
    c.share("the whole work", CAP, CAP, CAP, CAP)
    c.share("one more than whole", CAP, CAP, CAP - 1)
    c.share("the greatest of all", CAP, CAP, 1, -1)
    c.share("the least whole that passes", CAP, CAP, CAP * CAP // LIMIT + 1)
    for ms, work, whole in ((LIMIT // 4096, 4096, 1), (LIMIT // 4096, 8192, 2), (LIMIT // 8, 8, 1)):
        ms, work = min(ms, CAP), work * ms // min(ms, CAP)
        for less in (-1, 0, 1):
            c.share(f"about 2^53 ({less})", ms, work + less, whole)
    # 2 * ms * work + whole just at, below and above a multiple of 2 * whole, with digits past 64 bits.
    rng = random.Random("stored shares")
    for _ in range(30):
        whole, ms = rng.randint(10**11, CAP), rng.randint(10**11, CAP)
        work = rng.randint(1, CAP)
        c.share("large", ms, work, whole)
    found = 0
    while found < 30:
        whole, work = 2 * rng.randint(1, CAP // 2), rng.randint(1, CAP)
        ms = rng.randint(1, CAP)
        rest = 2 * ms * work % (2 * whole)
        if abs(rest - whole) <= max(2, whole // 10**5):
            c.share("near a half", ms, work, whole)
            found += 1
    for _ in range(25):
        whole = rng.choice([1, 2, 3, 4, 7, 10, 100, 1000])
        c.share("small", rng.randint(0, 40), rng.randint(0, whole + 3), whole)
    found = 0
    while found < 15:
        whole, ms = rng.randint(1, 10**6), rng.randint(CAP // 2, CAP)
        work = LIMIT * whole // ms + rng.randint(-1, 1)
        if 0 <= work <= CAP:
            c.share("about 2^53", ms, work, whole)
            found += 1


def overlaps(c):
    c.overlap("example D", 0.5, 10, 15, expected=13)
    c.overlap("share 0.0", 0.0, 10, 15, expected=10)
    c.overlap("share 1.0", 1.0, 10, 15, expected=15)
    c.overlap("a length of 0", 0.5, 10, 10, expected=10)
    c.overlap("a whole product", 0.5, 10, 16, expected=13)
    c.overlap("reversed, a half", 0.5, 15, 10, expected=13)
    c.overlap("reversed, all", 1.0, 15, 10, expected=10)
    c.overlap("reversed by 1", 0.5, 1, 0, expected=1)
    subnormal = [1, 2, 2**51, 2**52 - 1, 2**52, 2**52 + 1]
    for bits in subnormal:
        c.overlap(f"subnormal or least, bits {bits}", bits, 0, 1, expected=1)
        c.overlap(f"subnormal or least, bits {bits}, all time", bits, 0, CAP, expected=1)
        c.overlap(f"subnormal or least, bits {bits}, no length", bits, 7, 7, expected=7)
        c.overlap(f"subnormal or least, bits {bits}, reversed", bits, CAP, 0, expected=CAP)
    for span in (1, 2, 3, 2**40, CAP):
        c.overlap(f"just below 1.0 of {span}", BELOW_1, 0, span, expected=span)
        c.overlap(f"just above one half of {span}", 0.5 + 2.0**-53, 0, span)
        c.overlap(f"just below one half of {span}", 0.5 - 2.0**-54, 0, span)
    for share in (0.1, 0.2, 0.3, 0.6, 0.7, 0.9, 1 / 3, 2 / 3, 1 / 49):
        for span in (3, 10, 30, 49, 100, CAP):
            c.overlap(f"{share!r} of {span}", share, 5 if span < CAP else 0, span + 5 if span < CAP else CAP)
    for lag in (0, 1, -1, CAP, -CAP):
        for end in (0, 17, CAP):
            c.overlap(f"end {end}, lag {lag}", 0.25, 0, end, lag)
    rng = random.Random("stored overlaps")
    for _ in range(30):
        start, end = sorted(rng.randint(0, CAP) for _ in range(2))
        if rng.random() < 0.2:
            start, end = end, start
        c.overlap("drawn", rng.randint(0, bits_of(1.0)) if rng.random() < 0.3 else bits_of(rng.random()), start, end, rng.randint(-CAP, CAP))
    found = 0
    while found < 20:  # products that rounding makes whole
        share, span = bits_of(rng.random()), rng.randint(2**39, CAP)
        if nearest(exact(share) * span).denominator == 1 and (exact(share) * span).denominator != 1:
            c.overlap("whole by rounding", share, 0, span)
            found += 1


# ---- sheets -----------------------------------------------------------------------------------------------


def base(*rows):
    return [row(1, 1, NONE, NONE), row(1, 2, NONE, NONE)] + [row(11, r, 7, 1) for r in range(4)] + list(rows)


def act(setup, process, teardown, a=1):
    return row(2, a, 1, 0, setup, process, teardown, 0, NONE)


def split(overhead, a=1):
    return row(4, a, 9, 0, overhead)


def speed(r, x, a=1):
    return row(9, a, r, bits_of(x))


def fixed(r, setup, process, teardown, a=1):
    return row(10, a, r, setup, process, teardown)


def book(r, index=NONE, work=NONE, a=1, setup=9, task=1):
    return row(23, a, task, r, 0, 100, setup, index, work)


def held(r, companion):
    return row(13, r, companion)


def sheets(c):
    s = c.sheet
    s("no timing", base(act(1, 5, 2), book(0)), (1, 5, 2))
    s("example A", base(act(0, 5, 0), speed(0, 2.0), book(0)), (0, 3, 0))
    s("example B", base(act(0, 3, 0), split(0), fixed(0, 0, 100, 0), book(0, 0, 1)), (0, 33, 0))
    s("example C", base(act(0, 2, 0), split(0), fixed(0, 0, 5, 0), book(0, 0, 1)), (0, 3, 0))
    s("the booking's setup is not in it", base(act(4, 5, 6), book(0, setup=CAP)), (4, 5, 6))
    s("a speed of another resource", base(act(1, 5, 2), speed(3, 2.0), book(0)), (1, 5, 2))
    s("a speed divides the process alone", base(act(8, 8, 8), speed(0, 2.0), book(0)), (8, 4, 8))
    s("two resources", base(act(0, 8, 0), speed(0, 2.0), speed(1, 4.0), book(0), book(1)), (0, 1, 0), (0, 1, 0))
    s("the same resource twice", base(act(0, 8, 0), speed(0, 2.0), book(0), book(0)), (0, 2, 0), (0, 2, 0))
    s("a fixed timing", base(act(1, 5, 2), fixed(0, 10, 20, 30), book(0)), (10, 20, 30))
    s("a fixed timing beats a speed", base(act(1, 5, 2), fixed(0, 10, 20, 30), speed(1, 0.5), book(1), book(0)), *[(10, 20, 30)] * 2)
    s("a shorter fixed timing than the activity", base(act(10, 50, 20), fixed(0, 0, 1, 0), book(0)), (0, 1, 0))
    s("a fixed timing of 0", base(act(10, 50, 20), fixed(0, 0, 0, 0), book(0)), (0, 0, 0))
    s("the largest total", base(act(0, 5, 0), fixed(0, 1, 2, 3), fixed(1, 3, 2, 2), book(0), book(1)), *[(3, 2, 2)] * 2)
    s("the largest total, not the process", base(act(0, 5, 0), fixed(0, 0, 9, 0), fixed(1, 5, 1, 5), book(0), book(1)), *[(5, 1, 5)] * 2)
    s("the earliest among equals", base(act(0, 5, 0), fixed(0, 1, 2, 3), fixed(1, 3, 2, 1), book(0), book(1)), *[(1, 2, 3)] * 2)
    s("the earliest booking, not the earliest row", base(act(0, 5, 0), fixed(0, 1, 2, 3), fixed(1, 3, 2, 1), book(1), book(0)), *[(3, 2, 1)] * 2)
    s("equals, the third larger", base(act(0, 5, 0), fixed(0, 1, 2, 3), fixed(1, 3, 2, 1), fixed(2, 0, 7, 0), book(0), book(1), book(2)), *[(0, 7, 0)] * 3)
    s("equals after a smaller", base(act(0, 5, 0), fixed(0, 0, 1, 0), fixed(1, 2, 2, 2), fixed(2, 0, 6, 0), book(0), book(1), book(2)), *[(2, 2, 2)] * 3)
    s("a held resource is not timed", base(act(0, 8, 0), held(0, 1), speed(0, 2.0), speed(1, 4.0), book(0), book(1)), *[(0, 4, 0)] * 2)
    s("a held resource's fixed timing", base(act(0, 8, 0), held(0, 1), fixed(1, 9, 9, 9), book(0), book(1)), *[(0, 8, 0)] * 2)
    s("held by one that comes later", base(act(0, 8, 0), held(1, 0), speed(0, 2.0), speed(1, 4.0), book(0), book(1)), *[(0, 2, 0)] * 2)
    s("two that name each other are both held", base(act(1, 8, 2), held(0, 1), held(1, 0), speed(0, 2.0), speed(1, 4.0), book(0), book(1)), *[(1, 8, 2)] * 2)
    s("one that names itself is not held", base(act(0, 8, 0), held(0, 0), speed(0, 2.0), book(0)), (0, 4, 0))
    s("nor if it is booked twice", base(act(0, 8, 0), held(0, 0), speed(0, 2.0), book(0), book(0)), *[(0, 2, 0)] * 2)
    s("three in a ring", base(act(0, 8, 0), held(0, 1), held(1, 2), held(2, 0), speed(0, 2.0), book(0), book(1), book(2)), *[(0, 8, 0)] * 3)
    s("a chain of companions", base(act(0, 8, 0), held(0, 1), held(1, 2), speed(0, 2.0), speed(2, 4.0), book(2), book(1), book(0)), *[(0, 4, 0)] * 3)
    s("the companion of a resource that is not in the piece", base(act(0, 8, 0), held(3, 1), speed(1, 4.0), book(1)), (0, 2, 0))
    s("held in one piece, not in another", base(act(0, 8, 0), act(0, 8, 0, 2), held(0, 1), speed(1, 4.0), speed(1, 2.0, 2), book(0), book(1), book(1, a=2)),
      (0, 8, 0), (0, 8, 0), (0, 4, 0))
    s("a held resource booked twice", base(act(0, 8, 0), held(0, 1), speed(1, 4.0), speed(0, 2.0), book(1), book(0), book(1)), *[(0, 4, 0)] * 3)
    s("a companion that is not known as a resource", base(act(0, 8, 0), held(0, 9), speed(9, 4.0), book(0), book(9)), *[(0, 8, 0)] * 2)
    s("a part's work", base(act(1, 10, 2), split(5), book(0, 0, 4)), (1, 4, 2))
    s("overhead on part 1", base(act(1, 10, 2), split(5), book(0, 1, 4)), (1, 4, 7))
    s("none on a part below 0", base(act(1, 10, 2), split(5), book(0, -1, 4)), (1, 4, 2))
    s("overhead on the fixed one's teardown", base(act(1, 10, 2), split(5), fixed(0, 3, 20, 4), book(0, 0, 5), book(0, 1, 5)), (3, 10, 4), (3, 10, 9))
    s("no overhead on a whole booking", base(act(1, 10, 2), split(5), fixed(0, 3, 20, 4), book(0)), (3, 20, 4))
    s("a whole booking of a split activity", base(act(1, 10, 2), split(5), book(0)), (1, 10, 2))
    s("a part of an activity that is not split", base(act(1, 10, 2), book(0, 1, 4)), (1, 10, 2))
    s("the same with a fixed timing", base(act(1, 10, 2), fixed(0, 3, 20, 4), book(0, 1, 4)), (3, 20, 4))
    s("the same with a speed", base(act(1, 10, 2), speed(0, 2.0), book(0, 1, 4)), (1, 5, 2))
    s("the split of another activity", base(act(1, 10, 2), act(1, 10, 2, 2), split(5, 2), book(0, 1, 4)), (1, 10, 2))
    s("a part at a speed", base(act(1, 10, 2), split(5), speed(0, 2.0), book(0, 1, 5)), (1, 3, 7))
    s("parts are pieces of their own", base(act(0, 10, 0), split(0), speed(0, 2.0), speed(1, 4.0), book(0, 0, 4), book(1, 1, 4)), (0, 2, 0), (0, 1, 0))
    s("a part on two resources", base(act(0, 10, 0), split(0), speed(0, 2.0), speed(1, 4.0), book(0, 0, 8), book(1, 0, 8)), (0, 1, 0), (0, 1, 0))
    s("two works for one part", base(act(0, 10, 0), split(0), speed(0, 2.0), book(0, 0, 8), book(1, 0, 6)), (0, 4, 0), (0, 3, 0))
    s("two works, a fixed timing", base(act(0, 10, 0), split(0), fixed(0, 0, 20, 0), book(0, 0, 5), book(1, 0, 1)), (0, 10, 0), (0, 2, 0))
    s("work above the whole", base(act(0, 10, 0), split(0), fixed(0, 0, 20, 0), book(0, 0, 15)), (0, 30, 0))
    s("whole 0 leaves a fixed time", base(act(0, 0, 0), split(1), fixed(0, 2, 20, 3), book(0, 1, 5)), (2, 20, 4))
    s("shares decide which is largest", base(act(0, 10, 0), split(0), fixed(0, 0, 100, 0), fixed(1, 50, 20, 0), book(0, 0, 1), book(1, 0, 1)), *[(50, 2, 0)] * 2)
    s("shares that become equal", base(act(0, 4, 0), split(0), fixed(0, 1, 5, 0), fixed(1, 0, 8, 0), book(0, 0, 1), book(1, 0, 1)), *[(1, 1, 0)] * 2)
    s("a booking under another task is of the piece", base(act(0, 8, 0), speed(0, 2.0), speed(1, 4.0), book(0), book(1, task=2)), *[(0, 1, 0)] * 2)
    s("and under an unknown task", base(act(0, 8, 0), speed(0, 2.0), speed(1, 4.0), book(0), book(1, task=77)), *[(0, 1, 0)] * 2)
    s("unknown activities are not timed", base(act(0, 8, 0), speed(0, 2.0), book(0), book(1, a=5), book(0, a=5)), (0, 4, 0))
    s("an unknown resource with a speed", base(act(0, 8, 0), speed(77, 2.0), book(77)), (0, 4, 0))
    s("rows in another order", list(reversed(base(act(0, 8, 0), held(0, 1), fixed(1, 9, 9, 9), speed(0, 2.0), book(0), book(1)))), *[(0, 4, 0)] * 2)


def limits(c):
    s, half = c.sheet, LIMIT // 2**12
    s("process 4,000,000,000,000 at 2^-10", base(act(0, CAP, 0), speed(0, SLOW), book(0)), (0, CAP * 1024, 0))
    s("the same with setup and teardown", base(act(CAP, CAP, CAP), speed(0, SLOW), book(0)), (CAP, CAP * 1024, CAP))
    s("at 2^-20 over two resources", base(act(0, CAP, 0), speed(0, SLOW), speed(1, SLOW), book(0), book(1)), None, None)
    for setup, teardown, fine in ((2**12 - 1, 0, True), (2**12, 0, False), (0, 2**12 - 1, True), (0, 2**12, False), (2**11, 2**11, False),
                                  (2**11, 2**11 - 1, True), (CAP, CAP, False)):
        found = (setup, LIMIT - 2**12, teardown) if fine else None
        rows = base(act(setup, half - 1, teardown), speed(0, SLOW), speed(1, 0.25), book(0), book(1))
        s(f"2^53 - 2^12 and {setup} + {teardown}", rows, found, found)
    for overhead, fine in ((2**12 - 1, True), (2**12, False)):
        rows = base(act(0, 5, 0), split(overhead), speed(0, SLOW), speed(1, 0.25), book(0, 0, half - 1), book(1, 0, half - 1),
                    book(0, 1, half - 1), book(1, 1, half - 1))
        s(f"overhead {overhead} tips it", rows, *[(0, LIMIT - 2**12, 0)] * 2, *[(0, LIMIT - 2**12, overhead) if fine else None] * 2)
    s("the booking's setup tips nothing", base(act(0, half - 1, 0), speed(0, SLOW), speed(1, 0.25), book(0, setup=CAP), book(1, setup=CAP)),
      *[(0, LIMIT - 2**12, 0)] * 2)
    share = base(act(0, 1, 0), split(0))
    s("a share of 2^53", share + [fixed(0, 0, 2**40, 0), book(0, 0, 2**13)], None)
    s("one below", share + [fixed(0, 0, 2**40 - 1, 0), book(0, 0, 2**13)], (0, LIMIT - 2**13, 0))
    s("its setup tips it", share + [fixed(0, 2**13, 2**40 - 1, 0), book(0, 0, 2**13)], None)
    s("its setup just not", share + [fixed(0, 2**13 - 1, 2**40 - 1, 0), book(0, 0, 2**13)], (2**13 - 1, LIMIT - 2**13, 0))
    s("the greatest share", share + [fixed(0, CAP, CAP, CAP), book(0, 0, CAP)], None)
    s("a share that no booking runs on", share + [fixed(3, 0, CAP, 0), book(0, 0, CAP)], (0, CAP, 0))
    s("a share of a held resource", share + [held(0, 1), fixed(1, 0, CAP, 0), book(0, 0, CAP), book(1, 0, CAP)], *[(0, CAP, 0)] * 2)
    s("a share beyond 2^63, another fixed one", share + [fixed(0, 0, CAP, 0), fixed(1, 0, 5, 0), book(1, 0, CAP), book(0, 0, CAP)], None, None)
    s("a share beyond 2^64", share + [fixed(0, 0, CAP, 0), book(0, 0, 2**23)], None)
    s("the second of two bookings", base(act(0, 5, 0), act(0, CAP, 0, 2), speed(0, SLOW, 2), speed(1, SLOW, 2), book(0), book(0, a=2), book(1, a=2)),
      (0, 5, 0), None, None)
    s("the first of two refused", base(book(0, a=2), book(1, a=2), act(0, CAP, 0), act(0, CAP, 0, 2), speed(0, SLOW, 2), speed(1, SLOW, 2),
                                       speed(0, SLOW), speed(1, SLOW), book(0), book(1)), None, None, None, None)
    s("a held booking is tested too", base(act(0, CAP, 0), held(0, 1), held(0, 2), speed(0, SLOW), speed(3, SLOW), book(1), book(0), book(3)), None, None, None)
    s("an unknown activity is not", base(act(0, 5, 0), speed(0, SLOW), book(0, a=9), book(0)), (0, 5120, 0))
    s("a fixed timing keeps speeds out of 6", base(act(0, CAP, 0), speed(0, SLOW), speed(1, SLOW), fixed(2, 1, 1, 1), book(0), book(1), book(2)), *[(1, 1, 1)] * 3)
    for count in (50, 106, 107, 108, 109):
        for process in (0, 1):
            rows = base(act(0, process, 0), speed(0, SLOW), *[book(0)] * count)
            s(f"{count} bookings at 2^-10, process {process}", rows, *[(0, 0, 0) if process == 0 and count <= 107 else None] * count)
    for count in (102, 103, 110):
        rows = base(act(3, CAP, 4), speed(0, FAST), *[book(0)] * count)
        s(f"{count} bookings at 2^10", rows, *[(3, 0, 4)] * count)
    rows = base(act(0, 5, 0), speed(0, FAST), speed(1, SLOW), *[book(0)] * 103, *[book(1)] * 103)
    s("up to infinity, then down", rows, *[(0, 0, 0)] * 206)
    s("down to nothing, then up", rows[:-206] + [book(1)] * 108 + [book(0)] * 108, *[None] * 216)
    s("subnormal, then up", rows[:-206] + [book(1)] * 106 + [book(0)] * 106, *[(0, 5, 0)] * 212)


def in_booking_order(c):
    """The order of the bookings shows in the time."""
    rng, found = random.Random("stored orders"), 0
    while found < 24:
        process, three = rng.randint(CAP // 2, CAP), [rng.randint(bits_of(0.05), bits_of(0.2)) for _ in range(3)]
        ways = [at_product(process, product_of(x)) for x in (three, three[::-1], [three[0], three[2], three[1]])]
        if len(set(ways)) > 1 and max(ways) < LIMIT - 3 * CAP:
            speeds = [row(9, 1, r, bits) for r, bits in enumerate(three)]
            rng.shuffle(speeds)
            order = [[0, 1, 2], [2, 1, 0], [0, 2, 1]][found % 3]
            c.sheet("the order of the bookings", base(act(0, process, 0), *speeds, *[book(r) for r in order]), *[(0, ways[found % 3], 0)] * 3)
            found += 1


def drawn_sheets(c, count):
    """From the generator of sheets: those with timings, and with some variety of answers."""
    number, made, seen = 0, 0, set()
    while made < count:
        rng = random.Random(f"stored derived {number}")
        number += 1
        rows = rng.choice([generate.parted, generate.stretched, generate.spread, generate.small])(rng)
        numbers = flat(rows)
        bookings = [r for r in rows if r[0] == 23]
        if len(rows) > 24 or not bookings or reading.refused_1_to_5(numbers) or not any(r[0] in (9, 10) for r in rows):
            continue
        kept = [r for r in rows if r[0] in (1, 2, 4, 9, 10, 11, 13, 23)]  # no other kind has a part in derived times
        typed = reading.Sheet(flat(kept))
        timed = [typed.derived(r) for r in kept if r[0] == 23 and r[1] in typed.activity]
        changed = [d for d, r in zip(timed, [r for r in kept if r[0] == 23 and r[1] in typed.activity]) if tuple(d) != tuple(typed.activity[r[1]])]
        if changed and str(timed) not in seen:
            seen.add(str(timed))
            made += 1
            c.sheet(f"drawn {number - 1}", kept)


def main(folder):
    c = Cases()
    for part in (speeds, drawn_speeds, shares, overlaps, sheets, limits, in_booking_order):
        part(c)
    drawn_sheets(c, 220)
    listing.write(folder, "cases", c.sheets + c.speeds + c.shares + c.overlaps, most=None)
    print(f"{len(c.sheets)} cases of sheets, {len(c.speeds)} of speeds, {len(c.shares)} of shares, {len(c.overlaps)} of overlaps")


if __name__ == "__main__":
    main(sys.argv[1] if len(sys.argv) > 1 else listing.folder_of("replay_derived_times"))
