"""The sheets that the tools of this folder time, and what they say of the machine. Every one is accepted: a tool ends where one is refused."""
import os
import platform
import random
import sys

HERE = os.path.dirname(os.path.abspath(__file__))
ROOT = os.path.dirname(os.path.dirname(HERE))
sys.path.insert(0, os.path.join(os.path.dirname(HERE), "differential"))

import generate  # noqa: E402
import hard  # noqa: E402
import reading  # noqa: E402

SIZES = (100, 200, 400, 800)  # of the growth
ONCE = 1_000_000  # numbers of sheets that are met once are counted from here


def week(seed, number):
    return generate.flat(generate.week(random.Random(f"week {seed} {number}")))


def full(seed, number):
    return generate.flat(generate.full(random.Random(f"full {seed} {number}")))


def growth(rows, seed, number):
    """A plan of exactly so many rows in which nearly everything fits: drawn until at most a twenty-fifth is missing, which skills make up."""
    rng, made = random.Random(f"growth {rows} {seed} {number}"), []
    while not rows - rows // 25 <= len(made) <= rows:
        shop = generate.Shop(rng, max(2, rows // 30), rows + 5, 3_600_000)
        made = shop.make(rng.choice([0, 1, 3]))
    made += [generate.row(12, rng.choice(shop.machines), rng.randint(10, 20)) for _ in range(rows - len(made))]
    return generate.flat(generate.mixed(rng, made))


def families(groups):
    """The name of each family of these groups, and what makes its sheets."""
    found = [(group, make) for group, make in (("week", week), ("full", full)) if group in groups]
    if "growth" in groups:
        found += [(f"growth {rows}", lambda seed, number, rows=rows: growth(rows, seed, number)) for rows in SIZES]
    return found


def accepted(name, numbers):
    """The numbers, of an accepted sheet."""
    if refusal := reading.refused_1_to_6(numbers):
        raise SystemExit(f"benchmark: the sheet {name!r} is refused, by {refusal[0]} at {refusal[1]}: a refusal is no measure of the call")
    return numbers


def sheets(groups, count, seed):
    """Family, name and numbers of every sheet, family by family."""
    for family, make in families(groups):
        for number in range(count):
            yield family, f"{family}, {number}", accepted(f"{family}, {number} of seed {seed}", make(seed, number))
    if "hard" in groups:
        for name, numbers in hard.lines():
            yield "hard", name, accepted(name, numbers)


def met_once(groups, count, seed):
    """The same of as many others, none of which is among the sheets of this seed; the hard sheets are those."""
    for family, make in families(groups):
        for number in range(ONCE, ONCE + count):
            yield family, f"{family}, {number}", accepted(f"{family}, {number} of seed {seed}", make(seed, number))
    yield from sheets([group for group in groups if group == "hard"], 0, seed)


def named(family, count):
    """So many sheets of a family, in words."""
    words = {"week": "weeks", "full": "full sheets", "hard": "hard sheets"}
    return f"{count} {words.get(family) or 'of ' + family.removeprefix('growth ') + ' rows'}"


def us(nanoseconds):
    return f"{nanoseconds / 1000:,.1f}"


def processor():
    with open("/proc/cpuinfo") as source:
        names = [line.split(":")[1].strip() for line in source if line.startswith("model name")]
    return f"{names[0] if names else platform.machine()}, {len(names)} processors"
