#!/usr/bin/env python3
"""Inputs for the comparison, made by a seeded generator: the same seed gives the same inputs.

    generate.py FAMILY COUNT SEED      writes COUNT cases, one to a line (README.md has the form)

Families: sheets, broken, texts, work, shifts (pairs of lines: a sheet and the same sheet shifted), margins, all (but margins).
"""
import random
import sys

import margins
import reading
from reading import CAP, CLASSES, COLUMNS, KINDS, NONE, bits_of

DAY = 86_400_000


def row(kind, *columns):
    return [kind, *columns] + [0] * (9 - len(columns))


def flat(rows):
    return [x for r in rows for x in r]


class Maker:
    """Makes one sheet that passes refusals 1 to 5: the model first, then bookings that nearly fit it."""

    def __init__(self, rng, tasks, activities, resources, horizon, dense=0.3, clean=0.5):
        self.rng, self.horizon, self.dense, self.clean = rng, horizon, dense, clean
        self.rows = []
        self.task_ids = rng.sample(range(tasks + 3), tasks)
        self.activity_ids = rng.sample(range(activities + 4), activities)
        self.resource_ids = rng.sample(range(resources + 3), resources)
        self.types = list(range(max(1, resources // 2)))
        self.unit = max(1, horizon // 40)

    # -- small choices
    def chance(self, p):
        return self.rng.random() < p

    def amount(self, most=None):
        """An amount: small, so that sums meet exactly."""
        most = self.unit * 8 if most is None else most
        x = self.rng.choice([0, 1, self.rng.randint(0, most), self.unit * self.rng.randint(0, 6)])
        return min(x, CAP)

    def instant(self):
        x = self.rng.choice([self.rng.randint(0, self.horizon), self.unit * self.rng.randint(0, 40)])
        return min(x, CAP)

    def maybe(self, p, make):
        return make() if self.chance(p) else NONE

    def resource(self):
        """Nearly always a known resource."""
        if self.resource_ids and self.chance(0.93):
            return self.rng.choice(self.resource_ids)
        return self.rng.randint(0, len(self.resource_ids) + 4)

    def activity(self):
        if self.activity_ids and self.chance(0.93):
            return self.rng.choice(self.activity_ids)
        return self.rng.randint(0, len(self.activity_ids) + 5)

    def speed(self):
        rng = self.rng
        few = [0.5, 2.0, 1.0, 1.5, 0.75, 2.0**-10, 2.0**10, 1.0 / 3, 3.0]
        if self.chance(0.7):
            return bits_of(rng.choice(few))
        return rng.randint(*CLASSES["speed"])

    def share_bits(self):
        few = [0.0, 0.5, 1.0, 0.25, 0.1, 0.9, 1.0 / 3]
        return self.rng.choice([bits_of(self.rng.choice(few)), bits_of(self.rng.random()), 1])

    def windows(self, kind, owner, p):
        """Windows that leave most of the horizon open, closures that take little of it."""
        if not self.chance(p):
            return
        rng = self.rng
        for _ in range(rng.choice([0, 1, 2, 3])):
            start = self.unit * rng.randint(0, 20)
            length = rng.choice([0, -1, self.unit, self.unit * rng.randint(4, 30), self.horizon])
            self.rows.append(row(kind, owner, 0, start, max(0, min(CAP, start + length))))
        for _ in range(rng.choice([0, 0, 1, 2])):
            start = self.instant()
            length = rng.choice([0, 0, 1, -1, self.unit, self.unit * rng.randint(1, 4)])
            self.rows.append(row(kind, owner, 1, start, max(0, min(CAP, start + length))))

    # -- the model
    def model(self):
        rng, add = self.rng, self.rows.append
        for t in self.task_ids:
            add(row(1, t, self.maybe(0.5, self.late), self.maybe(0.3, self.early)))
        for r in self.resource_ids:
            capacity = rng.choice([1, 1, 1, 2, 3, 0, -1]) if self.chance(0.5) else 1
            add(row(11, r, rng.choice(self.types), capacity))
            for _ in range(rng.choice([0, 1, 2, 3])):
                add(row(12, r, rng.randint(0, 3)))
            if self.chance(self.dense * 0.6):
                for _ in range(rng.choice([1, 1, 2])):
                    add(row(13, r, self.resource()))
            for to in {self.resource() for _ in range(rng.choice([0, 0, 1, 2]))}:
                add(row(14, r, to, self.amount()))
            self.windows(15, r, self.dense)
        if self.task_ids:
            for a in self.activity_ids:
                self.activity_rows(a)
        else:
            self.activity_ids = []
        self.constraints()

    def late(self):
        return min(CAP, self.rng.choice([self.instant(), self.horizon]))

    def early(self):
        return self.rng.choice([0, self.instant() // 4])

    def activity_rows(self, a):
        rng, add, d = self.rng, self.rows.append, self.dense
        task = rng.choice(self.task_ids)
        release = self.maybe(0.3, self.early)
        setup, teardown = (self.amount(self.unit * 2) if self.chance(0.4) else 0 for _ in range(2))
        add(row(2, a, task, rng.randint(-2, 4), setup, self.amount(), teardown, int(self.chance(0.3)), release))
        if self.chance(d):
            add(row(3, a, self.share_bits(), rng.choice([0, self.amount(), -self.amount()])))
        if self.chance(d):
            add(row(4, a, rng.choice([0, 1, 2, 2, 3, 5, -1]), rng.choice([0, 1, self.amount()]), self.amount(self.unit)))
        requirements = rng.choice([0, 1, 1, 1, 2, 3])
        for place in range(requirements):
            quantity = rng.choice([0, 1, 1, 1, 2, 2, 3, -1]) if self.chance(0.5) else 1
            add(row(5, a, rng.choice(self.types), quantity, rng.choice([0, 1, 1, 1, 2, 3])))
            if self.chance(d):
                for _ in range(rng.choice([1, 2, 3])):
                    add(row(6, a, place, self.resource()))
            if self.chance(d * 0.7):
                for _ in range(rng.choice([1, 2])):
                    add(row(7, a, place, rng.randint(0, 3)))
        for _ in range(rng.choice([0, 0, 0, 1, 2])):
            add(row(8, a, self.activity()))
        for r in {self.resource() for _ in range(rng.choice([0, 0, 1, 2]))}:
            if self.chance(0.6):
                add(row(9, a, r, self.speed()))
            else:
                add(row(10, a, r, self.amount(self.unit), self.amount(), self.amount(self.unit)))
        self.windows(16, a, d * 0.6)

    def constraints(self):
        rng, add = self.rng, self.rows.append
        places = 0
        for _ in range(rng.choice([0, 0, 1, 2, 3])):
            kind = rng.randint(17, 21)
            if kind == 17:
                add(row(17, self.activity(), self.activity(), rng.choice([0, self.amount(), -self.amount()])))
            elif kind == 18:
                add(row(18, self.resource(), rng.choice([0, 1, 1, 2, 3, -1])))
            elif kind == 19:
                start = self.instant() // 2
                add(row(19, self.activity(), start, min(CAP, start + self.horizon // 2)))
            elif kind == 20:
                add(row(20, self.resource()))
            else:
                add(row(21))
            if kind >= 20:
                for _ in range(rng.choice([0, 1, 2, 2, 3])):
                    add(row(22, places, self.activity()))
            places += 1

    # -- the schedule
    def pool(self, a, place):
        """The candidates of a requirement, as far as the generator cares."""
        listed = [r[3] for r in self.rows if r[0] == 6 and r[1] == a and r[2] == place]
        if listed:
            return listed
        wanted = [r[2] for r in self.rows if r[0] == 5 and r[1] == a][place]
        return [r[1] for r in self.rows if r[0] == 11 and r[2] == wanted]

    def choose(self, a):
        """Resources for one piece: each requirement filled if it can be, companions along."""
        rng, chosen = self.rng, []
        requirements = [r for r in self.rows if r[0] == 5 and r[1] == a]
        for place, r in enumerate(requirements):
            pool = [x for x in self.pool(a, place) if x not in chosen or self.chance(0.05)]
            chosen += rng.sample(pool, max(0, min(len(pool), r[3])))
        if not chosen or self.chance((1 - self.clean) * 0.2):
            chosen.append(self.resource())
        for r in list(chosen):
            for c in [x[2] for x in self.rows if x[0] == 13 and x[1] == r]:
                if c not in chosen and self.chance(0.85):
                    chosen.append(c)
        if self.chance((1 - self.clean) * 0.2):
            rng.shuffle(chosen)
        return chosen

    def works_of(self, process, most):
        """The works of the parts: their sum is nearly always the process."""
        count = self.rng.randint(1, max(1, min(most if most > 0 else 2, 4)))
        cuts = sorted(self.rng.randint(0, process) for _ in range(count - 1))
        works = [b - a for a, b in zip([0] + cuts, cuts + [process])]
        if self.chance(1 - self.clean):
            works[self.rng.randrange(count)] += self.rng.choice([1, -1, self.unit])
        return [min(CAP, max(0, w)) for w in works]

    def pieces(self):
        """The bookings before they have times: (activity row, index, work, resources)."""
        splits = {r[1]: r for r in self.rows if r[0] == 4}
        needs = {r[1] for r in self.rows if r[0] == 5}
        out, spans = [], []
        for r in [r for r in self.rows if r[0] == 2]:
            if r[1] not in needs and self.chance(0.85):
                spans.append(r)
                continue
            if self.chance(0.06):
                continue
            if r[1] in splits and self.chance(0.85):
                for index, work in enumerate(self.works_of(r[5], splits[r[1]][2])):
                    if self.chance((1 - self.clean) * 0.1):
                        index = self.rng.randint(-1, 4)
                    out.append((r, index, work, self.choose(r[1])))
                if self.chance((1 - self.clean) * 0.15):
                    out.append((r, NONE, NONE, self.choose(r[1])))
            elif self.chance((1 - self.clean) * 0.05):
                out.append((r, self.rng.randint(0, 2), self.amount(), self.choose(r[1])))
            else:
                out.append((r, NONE, NONE, self.choose(r[1])))
        return out, spans

    def calendar(self, kind, owner):
        rows = [r for r in self.rows if r[0] == kind and r[1] == owner]
        return ([(r[3], r[4]) for r in rows if r[2] == 0], [(r[3], r[4]) for r in rows if r[2] == 1])

    def place(self, start, need, calendars, resumable):
        """A start from this instant on and an end that hold the need, within a few tries."""
        starts = sorted({start} | {x for o, c in calendars for w in o + c for x in w if x > start})
        for s in starts[:12]:
            if resumable:
                if all(reading.works(o, c, s) for o, c in calendars):
                    ends = sorted({s + need} | {x + need for x in starts if x >= s} | {x for x in starts if x > s})
                    for e in ends[:20]:
                        got = reading.available_ms(calendars, s, e)
                        if got >= need:
                            return s, e - (got - need if self.chance(0.7) else 0)
            elif all(reading.interval_fits(o, c, s, s + need) for o, c in calendars):
                return s, s + need
        return start, start + need

    def nudge(self):
        """By how much a time is moved: mostly not at all, else by one or by much."""
        if self.chance(self.clean):
            return 0
        return self.rng.choice([0, 0, 0, 1, -1, self.unit, -self.unit])

    def schedule(self):
        rng = self.rng
        pieces, spans = self.pieces()
        order = sorted([(p[0][3], 0, p) for p in pieces] + [(s[3], 1, s) for s in spans], key=lambda x: (x[0], x[1]))
        draft = [row(23, p[0][1], p[0][2], r, 0, 0, 0, p[1], p[2]) for p in pieces for r in p[3]]
        typed = reading.Sheet(flat(self.rows + draft))
        ends, free = {}, {}
        for _, is_span, item in order:
            if is_span:
                self.span(item, ends)
                continue
            a, index, work, on = item
            derived = typed.derived(row(23, a[1], a[2], 0, 0, 0, 0, index, work)) if on else (0, 0, 0)
            process = 0 if derived[1] is None else derived[1]
            setup = rng.choice([derived[0], derived[0], a[4], 0, self.amount(self.unit)])
            need = setup + process + derived[2]
            start = ends.get(a[2], 0) if self.chance(0.9) else self.instant()
            if self.chance(self.clean):
                start = max([start] + [free.get(r, 0) for r in on])
            start += rng.choice([0, 0, 0, self.amount()])
            calendars = [self.calendar(15, r) for r in on] + [self.calendar(16, a[1])]
            calendars = [c for c in calendars if c[0] or c[1]]
            start, end = self.place(start, need, calendars, a[7] == 1)
            start, end = start + self.nudge(), end + self.nudge()
            for r in on:
                s = start + (self.nudge() if self.chance(0.1) else 0)
                e = end + (self.nudge() if self.chance(0.1) else 0)
                task = a[2] if self.chance(0.97) else rng.randint(0, len(self.task_ids) + 3)
                part = (index, work if work == NONE or self.chance(0.97) else min(CAP, work + 1))
                self.rows.append(row(23, a[1], task, r, clamp(s), clamp(e), min(setup, CAP), *part))
                free[r] = max(free.get(r, 0), e)
            ends[a[2]] = max(ends.get(a[2], 0), end)
        self.others()

    def span(self, a, ends):
        need = a[4] + a[5] + a[6]
        start = ends.get(a[2], 0) + self.rng.choice([0, 0, self.amount()])
        own = self.calendar(16, a[1])
        start, end = self.place(start, need, [own] if own[0] or own[1] else [], a[7] == 1)
        start, end = start + self.nudge(), end + self.nudge()
        for _ in range(1 if self.chance(0.9) else 2):
            task = a[2] if self.chance(0.96) else self.rng.randint(0, len(self.task_ids) + 3)
            self.rows.append(row(24, a[1], task, clamp(start), clamp(end)))
        ends[a[2]] = max(ends.get(a[2], 0), end)

    def others(self):
        """Bookings and spans of anything: external ones, unknown ones, repeated ones."""
        rng = self.rng
        for _ in range(rng.choice([0, 0, 0, 1, 2])):
            start = self.instant()
            task = rng.randint(0, len(self.task_ids) + 5)
            part = rng.choice([(NONE, NONE), (NONE, NONE), (rng.randint(-1, 3), self.amount())])
            end = clamp(start + rng.choice([self.amount(), 0, -1]))
            self.rows.append(row(23, self.activity(), task, self.resource(), start, end, self.amount(), *part))
        if self.chance(0.1):
            start = self.instant()
            self.rows.append(row(24, self.activity(), rng.randint(0, 4), start, clamp(start + self.amount())))

    def make(self):
        self.model()
        self.schedule()
        return self.rows


def clamp(x):
    return max(0, min(CAP, x))


def mixed(rng, rows):
    """The rows in one of three orders: as made, sorted by kind, shuffled. Constraint and requirement places
    count rows, so those rows keep their order among themselves."""
    way = rng.choice(["as made", "by kind", "shuffled", "shuffled"])
    if way == "by kind":
        return sorted(rows, key=lambda r: min(r[0], 17) if r[0] <= 21 else r[0])
    if way == "as made":
        return rows
    kept = {id(r) for r in rows if r[0] == 5 or 17 <= r[0] <= 21}
    order = list(rows)
    rng.shuffle(order)
    fixed = iter([r for r in rows if id(r) in kept])
    return [next(fixed) if id(r) in kept else r for r in order]


# ---- shapes of sheets -------------------------------------------------------------------------------------


def small(rng):
    maker = Maker(rng, rng.randint(0, 3), rng.randint(0, 5), rng.randint(0, 4), rng.choice([20, 40, 400]),
                  rng.choice([0.1, 0.3, 0.6]), rng.choice([0.2, 0.7, 0.95, 1.0]))
    return mixed(rng, maker.make())


def middle(rng):
    maker = Maker(rng, rng.randint(2, 6), rng.randint(4, 14), rng.randint(3, 8), rng.choice([60, 2000, 5 * DAY]),
                  rng.choice([0.1, 0.3, 0.5]), rng.choice([0.5, 0.9, 1.0]))
    return mixed(rng, maker.make())


class Shop:
    """A shop's plan in which everything fits, often to the millisecond; then some times are moved by one."""

    def __init__(self, rng, machines, rows, unit):
        self.rng, self.unit, self.target = rng, unit, rows
        self.rows, self.free, self.spans, self.bookings = [], {}, {}, []
        self.ids = iter(rng.sample(range(4 * rows + 40), 2 * rows + 20))
        self.machines, self.kind_of, self.companions, self.calendars = [], {}, {}, {}
        self.transports, self.skills = {}, {}
        for at in range(machines):
            self.machine(at % max(1, machines // 2))

    def chance(self, p):
        return self.rng.random() < p

    def time(self, most=8):
        return self.unit * self.rng.randint(0, most) + self.rng.choice([0, 0, 0, 1])

    def calendar(self, kind, owner, p):
        """Five days of shifts, or some closures, or both."""
        rng, day, opens, closures = self.rng, self.unit * 24, [], []
        if self.chance(p):
            opens = [(d * day + self.unit * 6, d * day + self.unit * 22) for d in range(rng.choice([2, 5]))]
        if self.chance(p * 0.7):
            starts = [self.time(100) for _ in range(rng.choice([1, 2]))]
            closures = [(s, max(0, s + rng.choice([0, -1, 1, self.unit, self.unit * 5]))) for s in starts]
        self.rows += [row(kind, owner, 0, *w) for w in opens] + [row(kind, owner, 1, *w) for w in closures]
        return (opens, closures)

    def machine(self, type_id):
        rng, m = self.rng, next(self.ids)
        self.rows.append(row(11, m, type_id, 1))
        self.skills[m] = rng.sample(range(5), rng.choice([0, 1, 2]))
        self.rows += [row(12, m, skill) for skill in self.skills[m]]
        self.companions[m] = []
        if self.chance(0.25):  # an operator that goes with the machine
            operator = next(self.ids)
            self.companions[m] = [operator]
            self.rows += [row(11, operator, 900, 1), row(13, m, operator)]
            self.calendars[operator] = self.calendar(15, operator, 0.15)
        for other in rng.sample(self.machines, min(len(self.machines), rng.choice([0, 0, 1]))):
            self.transports[m, other] = self.time(2)
            self.rows.append(row(14, m, other, self.transports[m, other]))
        self.calendars[m] = self.calendar(15, m, 0.35)
        self.machines.append(m)
        self.kind_of[m] = type_id

    def activity_model(self, a, task, sequence):
        """The rows of an activity and its pieces as (index, work, resources)."""
        rng = self.rng
        process, setup, teardown = self.time(), *(rng.choice([0, 0, self.time(1)]) for _ in range(2))
        release = rng.choice([NONE, NONE, NONE, self.time(10)])
        rows = [row(2, a, task, sequence, setup, process, teardown, int(self.chance(0.25)), release)]
        if self.chance(0.1):
            return rows, []
        m = rng.choice(self.machines)
        same = [x for x in self.machines if self.kind_of[x] == self.kind_of[m]]
        rows.append(row(5, a, self.kind_of[m], 1, 1))
        if self.chance(0.2):
            rows += [row(6, a, 0, x) for x in rng.sample(same, rng.randint(1, len(same)))]
            if row(6, a, 0, m) not in rows:
                rows.append(row(6, a, 0, m))
        if self.skills[m] and self.chance(0.3):
            rows.append(row(7, a, 0, rng.choice(self.skills[m])))
        on = [m] + self.companions[m]
        other = [x for x in self.machines if self.kind_of[x] != self.kind_of[m]]
        if other and self.chance(0.1):  # a second machine beside the first
            second = rng.choice(other)
            rows.append(row(5, a, self.kind_of[second], 1, 1))
            on += [second] + self.companions[second]
        for r in on:
            if self.chance(0.2):
                rows.append(row(9, a, r, bits_of(rng.choice([0.5, 2.0, 1.25, 0.8, 1.0 / 3, 1.0, 0.7]))))
            elif self.chance(0.1):
                rows.append(row(10, a, r, self.time(1), self.time(), self.time(1)))
        rng.shuffle(on)
        if not self.chance(0.15):
            return rows, [(NONE, NONE, on)]
        count = rng.choice([1, 2, 3])
        cuts = sorted(rng.randint(0, process) for _ in range(count - 1))
        works = [y - x for x, y in zip([0] + cuts, cuts + [process])]
        rows.append(row(4, a, rng.choice([count, count + 1]), min(works), rng.choice([0, self.time(1)])))
        return rows, [(index, work, on) for index, work in enumerate(works)]

    def moved(self, before, on):
        return max([self.transports.get((x, y), 0) for x in before for y in on], default=0)

    def place(self, start, need, calendars, resumable, least_end):
        """The first start from the given one on at which the need is held, and the end."""
        edges = sorted({start} | {x for o, c in calendars for w in o + c for x in w if x > start})
        for s in edges:
            e = max(s + need, least_end)
            if not resumable and all(reading.interval_fits(o, c, s, e) for o, c in calendars):
                return s, e
            if resumable and all(reading.works(o, c, s) for o, c in calendars):
                for e in [e] + [max(x + need, least_end) for x in edges if x > s]:
                    got = reading.available_ms(calendars, s, e)
                    if got >= need:
                        return s, max(s, e - (got - need), least_end)
        return start, max(start + need, least_end)

    def task(self):
        rng, t = self.rng, next(self.ids)
        released = rng.choice([NONE, NONE, self.time(20)])
        before, on_before, done = None, [], None
        for sequence in range(rng.randint(1, 4)):
            a = next(self.ids)
            model, pieces = self.activity_model(a, t, sequence)
            overlap = None
            if before and self.chance(0.15):
                overlap = (bits_of(rng.choice([0.0, 0.5, 1.0 / 3, 0.9, 1.0])), rng.choice([0, self.unit, -self.unit]))
                model.append(row(3, a, *overlap))
            self.rows += model
            own = self.calendar(16, a, 0.08)
            head = model[0]
            earliest = max(released, head[8], 0)
            after = 0 if before is None else before[1] if overlap is None else reading.overlap_start(overlap[0], *before)
            last = before[1] + overlap[1] if overlap else 0
            drafts = [row(23, a, t, r, 0, 0, 0, index, work) for index, work, on in pieces for r in on]
            pairs = [row(13, m, c) for m, cs in self.companions.items() for c in cs]
            typed = reading.Sheet(flat(model + pairs + drafts))
            spans, used = [], []
            for index, work, on in pieces:
                setup, process, teardown = typed.derived(row(23, a, t, 0, 0, 0, 0, index, work))
                setup = rng.choice([setup, setup, 0])
                move = self.moved(on_before, on)
                start = max([earliest, after + move] + [self.free.get(r, 0) for r in on])
                calendars = [c for c in [self.calendars[r] for r in on] + [own] if c[0] or c[1]]
                need = setup + process + teardown
                start, end = self.place(start, need, calendars, head[7] == 1, last + move if overlap else 0)
                for r in on:
                    self.bookings.append(row(23, a, t, r, start, end, setup, index, work))
                    self.free[r] = end
                spans.append((start, end))
                used += on
            if not pieces:
                need = head[4] + head[5] + head[6]
                calendars = [own] if own[0] or own[1] else []
                start, end = self.place(max(earliest, after), need, calendars, head[7] == 1, last)
                self.bookings.append(row(24, a, t, start, end))
                spans = [(start, end)]
            before, on_before = (min(s for s, _ in spans), max(e for _, e in spans)), used
            self.spans[a] = before
            done = max(before[1], done or 0)
        self.rows.append(row(1, t, rng.choice([NONE, done, done, done + self.unit]), released))

    def constraints(self):
        """Constraints that hold, some of them just so."""
        rng, known, place = self.rng, list(self.spans), 0
        for _ in range(rng.choice([0, 2, 4, 8])):
            a, b = rng.choice(known), rng.choice(known)
            (start, end), (later, _) = self.spans[a], self.spans[b]
            kind = rng.randint(17, 21)
            if kind == 17 and abs(later - end) <= CAP:
                self.rows.append(row(17, a, b, later - end - rng.choice([0, 0, 1, self.unit])))
            elif kind == 18:
                self.rows.append(row(18, rng.choice(self.machines), rng.choice([1, 2])))
            elif kind == 19:
                self.rows.append(row(19, a, max(0, start - rng.choice([0, 1])), end + rng.choice([0, 1])))
            elif kind == 20:
                m = rng.choice(self.machines)
                self.rows.append(row(20, m))
                on = sorted({x[1] for x in self.bookings if x[0] == 23 and x[3] == m})
                self.rows += [row(22, place, x) for x in rng.sample(on, min(len(on), 4))]
            elif kind == 21:
                self.rows.append(row(21))
                same = [x for x in known if self.spans[x][0] == start]
                self.rows += [row(22, place, x) for x in same[:4]]
            else:
                continue
            place += 1
        for _ in range(rng.choice([0, 2, 5])):
            a, b = rng.choice(known), rng.choice(known)
            if self.spans[a][1] <= self.spans[b][0]:
                self.rows.append(row(8, b, a))

    def nudge(self):
        """One number of one row, up or down by one."""
        rng = self.rng
        r = rng.choice(self.rows)
        columns = [c for c in range(1, 1 + len(COLUMNS[r[0]])) if KINDS[r[0]][1].split()[c - 1].rstrip("?") in ("t", "m", "g", "n", "share", "speed") and r[c] != NONE]
        if columns:
            c = rng.choice(columns)
            least, greatest, _ = COLUMNS[r[0]][c - 1]
            r[c] = max(least, min(greatest, r[c] + rng.choice([1, -1])))

    def make(self, nudges):
        self.task()
        while len(self.rows) + len(self.bookings) < self.target - 24:
            self.task()
        self.constraints()
        self.rows += self.bookings
        if self.chance(0.5):
            m = self.rng.choice(self.machines)  # an external booking
            start = self.free.get(m, 0)
            self.rows.append(row(23, 4 * self.target + 50, 4 * self.target + 50, m, start, start + self.unit, 0, NONE, NONE))
            if any(o or c for o, c in [self.calendars[m]]):
                self.rows.pop()
        for _ in range(nudges):
            self.nudge()
        return self.rows


def week(rng):
    """About 200 rows."""
    shop = Shop(rng, rng.randint(5, 9), rng.randint(150, 230), rng.choice([3_600_000, 1000, 10]))
    return mixed(rng, shop.make(rng.choice([0, 0, 1, 1, 2, 3, 10])))


def day(rng):
    """A plan of some 40 rows in which nearly everything fits."""
    shop = Shop(rng, rng.randint(2, 4), rng.randint(45, 80), rng.choice([3_600_000, 10, 5]))
    return mixed(rng, shop.make(rng.choice([0, 1, 1, 1, 2, 3])))


def full(rng):
    """Exactly 800 rows, or one less."""
    size = rng.choice([800, 800, 799])
    shop = Shop(rng, rng.randint(15, 30), size - 15, rng.choice([3_600_000, 1000]))
    rows = shop.make(rng.choice([0, 0, 1, 3, 20]))
    rows += [row(12, rng.choice(shop.machines), rng.randint(10, 20)) for _ in range(size - len(rows))]
    while len(rows) > size:  # what owns nothing may go
        rows.pop(rng.choice([i for i, r in enumerate(rows) if r[0] in (8, 12, 14, 22, 23, 24, 7)]))
    return mixed(rng, rows)


def crowd(rng):
    """800 rows or fewer of anything, so that findings of every check are many."""
    size = rng.choice([800, 300, 500])
    maker = Maker(rng, size // 20, size // 7, size // 27, 30 * DAY, 0.25, rng.choice([0.8, 1.0]))
    maker.unit = 600_000
    rows = maker.make()
    loose = [i for i, r in enumerate(rows) if r[0] in (8, 12, 13, 14, 15, 16, 22, 23, 24, 6, 7)]
    gone = set(rng.sample(loose, max(0, min(len(loose), len(rows) - size))))
    return mixed(rng, [r for i, r in enumerate(rows) if i not in gone][:800])


def resumable(rng):
    """One or two resumable activities on resources with many windows."""
    rows = [row(1, 1, NONE, NONE), row(1, 2, 50, 3)]
    resources = rng.sample(range(6), rng.randint(1, 3))
    for r in resources:
        rows.append(row(11, r, 7, rng.choice([1, 2])))
        for _ in range(rng.randint(0, 5)):
            start = rng.randint(0, 40)
            rows.append(row(15, r, int(rng.random() < 0.35), start, max(0, start + rng.choice([0, -2, 1, 5, 10, 15, 30]))))
    for a in range(rng.randint(1, 3)):
        rows.append(row(2, a, rng.choice([1, 2]), a, rng.choice([0, 2]), rng.randint(0, 12), rng.choice([0, 1]), int(rng.random() < 0.85), NONE))
        on = rng.sample(resources, rng.randint(0, len(resources)))
        if on:
            rows.append(row(5, a, 7, len(on), 1))
        for _ in range(rng.choice([0, 0, 1, 2])):
            start = rng.randint(0, 30)
            rows.append(row(16, a, int(rng.random() < 0.3), start, max(0, start + rng.choice([0, -1, 4, 20, 30]))))
        start = rng.randint(0, 30)
        end = max(0, start + rng.choice([-1, 0, 5, 10, 14, 20, 30]))
        if not on or rng.random() < 0.2:
            rows.append(row(24, a, rng.choice([1, 2]), start, end))
        for r in on:
            rows.append(row(23, a, rng.choice([1, 2]), r, start, end, rng.choice([0, 2]), NONE, NONE))
    if len(resources) > 1 and rng.random() < 0.3:
        rows.append(row(13, resources[0], resources[1]))
    return mixed(rng, rows)


def parted(rng):
    """Split activities with parts of every kind of fault, requirements, companions."""
    rows = [row(1, 0, NONE, NONE)]
    for r in range(4):
        rows.append(row(11, r, rng.choice([0, 1]), rng.choice([1, 2])))
    for _ in range(rng.choice([0, 1, 2, 3])):
        rows.append(row(13, rng.randint(0, 3), rng.randint(0, 4)))
    for a in range(rng.randint(1, 2)):
        whole = rng.choice([0, 1, 6, 10])
        rows.append(row(2, a, 0, rng.randint(0, 1), rng.choice([0, 1]), whole, rng.choice([0, 1]), int(rng.random() < 0.2), NONE))
        if rng.random() < 0.85:
            rows.append(row(4, a, rng.choice([-1, 0, 1, 2, 3]), rng.choice([0, 1, 3]), rng.choice([0, 1, 2])))
        for _ in range(rng.choice([1, 1, 2, 3])):
            rows.append(row(5, a, rng.choice([0, 1]), rng.choice([0, 1, 1, 2, -1]), 1))
        for r in range(4):
            if rng.random() < 0.25:
                if rng.random() < 0.5:
                    rows.append(row(9, a, r, bits_of(rng.choice([0.5, 2.0, 1.0, 3.0, 0.3]))))
                else:
                    rows.append(row(10, a, r, rng.choice([0, 1]), rng.choice([0, 1, 5, 7, 100]), rng.choice([0, 1])))
        for index in range(rng.randint(0, 3)):
            start = rng.randint(0, 10)
            for r in rng.sample(range(5), rng.randint(1, 3)):
                work = rng.choice([whole // 2, whole - whole // 2, whole, 0, 1, 3])
                end = start + rng.choice([work, work + 1, work + 2, work * 2, work * 2 + 3, 3])
                part = (NONE, NONE) if rng.random() < 0.1 else (rng.choice([index] * 6 + [-1, 4]), work)
                rows.append(row(23, a, rng.choice([0] * 9 + [1]), r, start, end, rng.choice([0, 1]), *part))
    return mixed(rng, rows)


def spread(rng):
    """Numbers at the bounds of their classes: large amounts, extreme floats."""
    top = [0, 1, CAP, CAP - 1, CAP // 2]

    def column(least, greatest, optional):
        few = [least, greatest, rng.randint(least, greatest), min(greatest, least + rng.randint(0, 5))]
        return NONE if optional and rng.random() < 0.4 else rng.choice(few)

    rows = []
    acts, ress, tasks = [3, 999_999_999], [3, 999_999_999, 0], [3, 0]
    for t in tasks:
        rows.append(row(1, t, *(column(*c) for c in COLUMNS[1][1:])))
    for a in acts:
        rows.append(row(2, a, rng.choice(tasks), *(column(*c) for c in COLUMNS[2][2:])))
        rows.append(row(5, a, *(column(*c) for c in COLUMNS[5][1:])))
        for kind in (3, 4):
            if rng.random() < 0.6:
                rows.append(row(kind, a, *(column(*c) for c in COLUMNS[kind][1:])))
        for r in rng.sample(ress, rng.randint(0, 3)):
            kind = rng.choice([9, 9, 10])
            rows.append(row(kind, a, r, *(column(*c) for c in COLUMNS[kind][2:])))
        for kind in (6, 7):
            if rng.random() < 0.3:
                rows.append(row(kind, a, 0, rng.choice(ress)))
    for r in ress:
        rows.append(row(11, r, *(column(*c) for c in COLUMNS[11][1:])))
        for kind in (12, 13):
            if rng.random() < 0.4:
                rows.append(row(kind, r, rng.choice(ress)))
        if rng.random() < 0.5:
            rows.append(row(14, r, rng.choice(ress), rng.choice(top)))
    for kind in rng.sample([15, 16, 17, 18, 19, 20, 21, 24] * 2, rng.randint(0, 8)):
        columns = [column(*c) for c in COLUMNS[kind]]
        if kind == 15:
            columns[0] = rng.choice(ress)
        elif kind in (16, 19, 24) and columns:
            columns[0] = rng.choice(acts)
        elif kind == 17:
            columns[:2] = [rng.choice(acts), rng.choice(acts)]
        elif kind in (18, 20):
            columns[0] = rng.choice(ress)
        if kind == 24:
            columns[1] = rng.choice(tasks)
        rows.append(row(kind, *columns))
    for place, r in enumerate([r for r in rows if 17 <= r[0] <= 21]):
        if r[0] >= 20:
            rows += [row(22, place, rng.choice(acts)) for _ in range(rng.randint(0, 3))]
    for _ in range(rng.randint(0, 6)):
        part = rng.choice([(NONE, NONE), (rng.choice([-1_000_000, 0, 1, 1_000_000]), rng.choice(top))])
        start, end = rng.choice(top + [rng.randint(0, CAP)]), rng.choice(top + [rng.randint(0, CAP)])
        rows.append(row(23, rng.choice(acts), rng.choice(tasks), rng.choice(ress), start, end, rng.choice(top), *part))
    return mixed(rng, rows)


def stretched(rng):
    """Derived times about 2^53, products that run down to 0 or up to infinity."""
    limit = 2**53
    rows = [row(1, 1, NONE, NONE), row(5, 1, 7, rng.choice([1, 3]), 1)]
    way = rng.choice(["speeds", "share", "long", "random"])
    setup, teardown, process, part, split = 0, 0, rng.choice([0, 1, CAP, rng.randint(0, CAP)]), (NONE, NONE), None
    count = rng.randint(1, 4)
    if way == "speeds":
        power = rng.randint(11, 20)
        process = (limit >> power) - rng.choice([0, 1, rng.randint(0, 1000)])
        rest = limit - (process << power) + rng.choice([-1, 0, 1])
        setup = max(0, min(CAP, rest))
        teardown = max(0, min(CAP, rest - setup))
        speeds, count = [2.0 ** -(power - 10), 2.0**-10], 2
        rng.shuffle(speeds)
        rows += [row(9, 1, r, bits_of(s)) for r, s in enumerate(speeds)]
    elif way == "share":
        whole, work, ms = rng.choice([0, 1, 2, 3, 1000]), rng.randint(1, CAP), rng.randint(1, CAP)
        if rng.random() < 0.6 and whole:
            work = min(CAP, max(1, (limit * whole + rng.randint(-3, 3) * ms) // ms))
        process, part, split = whole, (rng.choice([0, 1]), work), row(4, 1, 3, 0, rng.choice([0, 1, CAP]))
        rows.append(row(10, 1, rng.choice([0, 0, 0, 9]), rng.choice([0, 1, CAP]), ms, rng.choice([0, CAP])))
        if rng.random() < 0.3:
            rows.append(row(10, 1, 1, rng.choice([0, 1]), rng.choice([ms, 5]), 0))
    elif way == "long":
        count = rng.choice([50, 101, 102, 103, 106, 107, 108, 109, 120])
        speed = rng.choice([2.0**-10, 2.0**10, 2.0**-10, 1.0 / 1000])
        rows.append(row(9, 1, 0, bits_of(speed)))
        process = rng.choice([0, 0, 1, CAP])
    else:
        rows += [row(9, 1, r, rng.choice([rng.randint(*CLASSES["speed"]), bits_of(2.0**-10)])) for r in range(count)]
    rows.append(row(2, 1, 1, 0, setup, min(CAP, process), teardown, rng.choice([0, 0, 1]), NONE))
    if split:
        rows.append(split)
    rows += [row(11, r, 7, 1) for r in range(min(count, 4))]
    if rng.random() < 0.15 and count > 1:
        rows.append(row(13, rng.randint(0, 1), rng.randint(0, 1)))
    for i in range(count):
        r = 0 if way == "long" else i
        rows.append(row(23, rng.choice([1] * 15 + [2]), rng.choice([1, 1, 1, 5]), r, 0, rng.choice([0, CAP]), 0, *part))
    return mixed(rng, rows)


def meeting(rng):
    """Capacity, no-overlap, synchronize, precedence and time windows over few activities and instants."""
    rows = [row(1, 0, rng.choice([NONE, 10, 20]), rng.choice([NONE, 0, 5])), row(1, 1, 15, NONE)]
    for r in range(3):
        rows.append(row(11, r, 0, rng.choice([0, 1, 1, 2, 3])))
        if rng.random() < 0.4:
            rows.append(row(14, r, rng.randint(0, 3), rng.choice([0, 1, 3, 5])))
    count = rng.randint(1, 6)
    for a in range(count):
        rows.append(row(2, a, rng.randint(0, 1), rng.randint(0, 2), 0, rng.choice([0, 1, 5]), 0, 0, NONE))
        if rng.random() < 0.9:
            rows.append(row(5, a, 0, 1, rng.choice([0, 1, 1, 2])))
        if rng.random() < 0.35:
            rows.append(row(3, a, bits_of(rng.choice([0.0, 0.3, 0.5, 0.7, 1.0])), rng.choice([-3, 0, 0, 2])))
        if rng.random() < 0.35:
            rows.append(row(8, a, rng.randint(0, count)))
    places = 0
    for _ in range(rng.randint(0, 6)):
        kind = rng.choice([17, 18, 18, 19, 20, 20, 21, 21])
        if kind == 17:
            rows.append(row(17, rng.randint(0, count), rng.randint(0, count), rng.choice([-5, 0, 0, 1, 5])))
        elif kind == 18:
            rows.append(row(18, rng.randint(0, 3), rng.choice([-1, 0, 1, 2, 5])))
        elif kind == 19:
            rows.append(row(19, rng.randint(0, count), rng.choice([0, 0, 5]), rng.choice([4, 10, 20])))
        elif kind == 20:
            rows.append(row(20, rng.randint(0, 2)))
        else:
            rows.append(row(21))
        if kind >= 20:
            rows += [row(22, places, rng.randint(0, count)) for _ in range(rng.randint(0, 4))]
        places += 1
    for a in range(count + 1):
        for _ in range(rng.choice([0, 1, 1, 1, 2])):
            start = rng.choice([0, 5, 10, rng.randint(0, 15)])
            rows.append(row(23, a, rng.randint(0, 2), rng.randint(0, 3), start, start + rng.choice([0, 1, 5, 5, 10]), 0, NONE, NONE))
        if rng.random() < 0.15:
            rows.append(row(24, a, rng.randint(0, 2), rng.randint(0, 10), rng.randint(0, 20)))
    return mixed(rng, rows)


def overloaded(rng):
    """Several resources, most of them overloaded, whose order by row, by id, by time and by last booking differ."""
    resources = rng.sample(range(40), rng.randint(3, 7))
    rows = [row(1, 1, NONE, NONE), row(2, 10, 1, 0, 0, 5, 0, 0, NONE)]
    rows += [row(11, r, 7, rng.choice([1, 1, 1, 2, 0, -4])) for r in rng.sample(resources, rng.randint(1, len(resources)))]
    known = [r[1] for r in rows if r[0] == 11]
    rows.append(row(5, 10, 7, 1, rng.choice([0, 1, 1, 2, 5])))
    if rng.random() < 0.4:
        rows.append(row(18, rng.choice(resources), rng.choice([0, -1, 1, 2])))
    bookings = []
    for r in resources:
        at = rng.randint(0, 60)
        for _ in range(rng.choice([2, 2, 3, 3, 4])):
            start = at + rng.randint(0, 3)
            bookings.append(row(23, rng.choice([10, 10, 99]), rng.choice([1, 9]), r, start, start + rng.choice([4, 6, 10, 0, -1]) if start else 4, 0, NONE, NONE))
    rng.shuffle(bookings)
    if known and rng.random() < 0.5:  # a first booking that adds no load
        bookings.insert(0, row(23, 99, 9, rng.choice(resources), 70, 70, 0, NONE, NONE))
    return mixed(rng, rows + bookings) if rng.random() < 0.5 else rows + bookings


SHAPES = [(small, 36), (middle, 8), (day, 16), (week, 3), (full, 0.6), (crowd, 0.4), (resumable, 12), (parted, 14), (spread, 6), (stretched, 4),
          (meeting, 16), (overloaded, 5)]


def sheet(rng):
    """A sheet that passes refusals 1 to 5, of any shape."""
    shapes, weights = zip(*SHAPES)
    return flat(rng.choices(shapes, weights)[0](rng))[:8000]


# ---- broken rows ------------------------------------------------------------------------------------------


def edge(rng, kind, column):
    """A value at a bound of a column's class or one past it, or something far away."""
    least, greatest, _ = COLUMNS[kind][column - 1]
    return rng.choice([least, least - 1, greatest, greatest + 1, NONE, NONE + 1, 2**63 - 1, -1, 0, rng.randint(-(2**63), 2**63 - 1)])


def damage(rng, numbers):
    """The sheet with one thing broken, or nearly."""
    numbers = list(numbers)
    rows = reading.rows_of(numbers)
    way = rng.randrange(13)
    if way == 0 or not rows:
        return numbers[: rng.randint(0, len(numbers))] if rng.random() < 0.5 else numbers + [rng.randint(0, 24)] * rng.randint(1, 10)
    at = rng.randrange(len(rows))
    r = list(rows[at])
    if way == 1:
        r[0] = rng.choice([0, 25, -1, NONE, 2**63 - 1, rng.randint(1, 24)])
    elif way in (2, 3, 4) and COLUMNS[r[0]]:
        column = rng.randint(1, len(COLUMNS[r[0]]))
        r[column] = edge(rng, r[0], column)
    elif way == 5:
        first = 1 + len(COLUMNS[r[0]])
        if first < 10:
            r[rng.randint(first, 9)] = rng.choice([1, -1, NONE, 5])
    elif way == 6:
        bookings = [i for i, x in enumerate(rows) if x[0] == 23]
        if bookings:
            at = rng.choice(bookings)
            r = list(rows[at])
            r[rng.choice([7, 8])] = rng.choice([NONE, 0, 3])
    elif way == 7:  # an owner taken away
        owners = [i for i, x in enumerate(rows) if x[0] in (1, 2, 5, 11, 20, 21)]
        if owners:
            rows.pop(rng.choice(owners))
            return flat(rows)
    elif way == 8:  # a row twice
        rows.insert(rng.randint(0, len(rows)), list(r))
        return flat(rows)
    elif way == 9:  # the same name, other columns
        named = [i for i, x in enumerate(rows) if reading.name_of(x)]
        if named:
            r = list(rows[rng.choice(named)])
            r[0] = {9: 10, 10: 9}.get(r[0], r[0]) if rng.random() < 0.3 else r[0]
            rows.insert(rng.randint(0, len(rows)), r)
            return flat(rows)
    elif way == 10:  # another owner or place
        owned = [i for i, x in enumerate(rows) if x[0] in reading.OWNERS or x[0] == 22]
        if owned:
            at = rng.choice(owned)
            r = list(rows[at])
            r[rng.choice([1, 2]) if r[0] in (2, 6, 7) else 1] += rng.choice([1, -1, 5])
    elif way == 11:
        rng.shuffle(rows)
        return flat(rows)
    else:
        return numbers[rng.randrange(len(numbers)) :] + numbers[: rng.randrange(10)]
    rows[at] = [max(-(2**63), min(2**63 - 1, x)) for x in r]  # what a row can hold
    return flat(rows)


def filled(rng, rows, length):
    """The sheet brought to a length in numbers, by rows that own nothing."""
    numbers = flat(rows)
    while len(numbers) < length:
        numbers += row(18, rng.randint(0, 5), rng.randint(0, 3))
    return numbers[:length]


def anything(rng):
    """Rows of random numbers, the kinds mostly known."""
    rows = []
    for _ in range(rng.randint(0, 12)):
        kind = rng.randint(1, 24) if rng.random() < 0.97 else rng.choice([0, 25, -7])
        columns = COLUMNS.get(kind, [])
        r = row(kind, *(rng.randint(0, 4) if rng.random() < 0.9 else rng.choice([NONE, -1, CAP, CAP + 1, bits_of(1.0)]) for _ in columns))
        if kind == 9:
            r[3] = rng.choice([bits_of(1.0), CLASSES["speed"][0] - rng.randint(0, 1), CLASSES["speed"][1] + rng.randint(0, 1)])
        if kind == 2 and rng.random() < 0.8:
            r[7] = rng.randint(0, 1)
        rows.append(r)
    return flat(rows)


def broken(rng):
    way = rng.random()
    if way < 0.2:
        return anything(rng)
    if way < 0.22:
        return filled(rng, small(rng), rng.choice([8000, 8010, 7990, 8001, 7999, 8020, 10_000]))
    if way < 0.24:
        return [rng.randint(-5, 30) for _ in range(rng.randint(0, 40))]
    numbers = sheet(rng) if rng.random() < 0.1 else flat(rng.choice([small, parted, meeting, resumable])(rng))
    for _ in range(rng.choice([1, 1, 1, 2, 3])):
        if len(numbers) % 10 == 0 and all(1 <= r[0] <= 24 for r in reading.rows_of(numbers)):
            numbers = damage(rng, numbers)
    return numbers


# ---- texts ------------------------------------------------------------------------------------------------

PIECES = [b"\r", b" ", b"+", b"-", b"00", b"-0", b"01", b".", b"\x00", b"\xff", b'"', b",", b"\n", b"\n\n", b"\t", b"-1",
          b"9223372036854775807", b"9223372036854775808", b"-9223372036854775807", b"-9223372036854775808",
          b"99999999999999999999999", b"25", b"0", b"24", b"a", b"/", b":", b"1", b"9" * 19, b"1" + b"0" * 18, b"1" + b"0" * 19]


def damaged_text(rng, text):
    way = rng.randrange(8)
    if way == 0:
        return text[:-1]
    if way == 1:
        return text[: rng.randint(0, len(text))]
    if way == 2:
        return text.replace(b"\n", b"\r\n")
    at = rng.randint(0, len(text))
    if way in (3, 4, 5):
        return text[:at] + rng.choice(PIECES) + text[at:]
    if way == 6:
        return text[:at] + rng.choice(PIECES) + text[at + 1 :]
    return text[:at] + text[min(len(text), at + rng.randint(1, 3)) :]


def long_text(rng, length):
    """A text of good lines with this length in bytes, which is 97 or more."""
    long = b"23,999999999,999999999,999999999,4000000000000,4000000000000,4000000000000,1000000,4000000000000\n"
    parts = [long] * (length // len(long) - 1)
    rest = length - len(long) * len(parts)
    while rest:  # lines "20,ID", five to thirteen bytes long
        size = rest if rest <= 13 else min(13, rest - 5)
        parts.append(b"20," + b"1" * (size - 4) + b"\n")
        rest -= size
    rng.shuffle(parts)
    return b"".join(parts)


def text(rng):
    """A text and the number of rows lent."""
    way = rng.random()
    if way < 0.02:
        return long_text(rng, rng.choice([65536, 65537, 65535, 65538, 70000])), rng.choice([800, 800, 700])
    if way < 0.05:
        lines = rng.choice([800, 801, 799, 802])
        parts = [b"%d,%d,\n" % (20, rng.randint(0, 9)) if rng.random() < 0.001 else b"20,%d\n" % rng.randint(0, 99) for _ in range(lines)]
        return b"".join(parts), rng.choice([800, 800, 799, 801, 0])
    if way < 0.10:
        return bytes(rng.choice(b"0123456789,,,\n\n-\r ") for _ in range(rng.randint(0, 40))), rng.choice([0, 1, 2, 800])
    numbers = sheet(rng) if rng.random() < 0.2 else flat(rng.choice([small, parted, meeting])(rng))
    if rng.random() < 0.15:
        numbers = damage(rng, numbers)
    rows = reading.rows_of(numbers)
    if len(numbers) % 10 or not all(1 <= r[0] <= 24 for r in rows):
        return b",".join(b"%d" % x for x in numbers[:30]) + b"\n", 800
    good = reading.spelled(numbers)
    for _ in range(rng.choice([0, 0, 1, 1, 2])):
        good = damaged_text(rng, good)
    return good, rng.choice([800, 800, 800, len(rows), max(0, len(rows) - 1), len(rows) + 1, rng.randint(0, 5)])


# ---- work ends and shifts ---------------------------------------------------------------------------------


def work(rng):
    """A sheet of calendars, and an inquiry at or about its edges."""
    scale = rng.choice([1, 1, 1, 10**9, 133_333_333_333])
    top = min(CAP, 30 * scale)
    rows = [row(11, r, 0, 1) for r in range(2)]
    edges = [0, top]
    for _ in range(rng.choice([0, 1, 2, 3, 5, 8, 20])):
        start, end = (rng.choice(edges) if rng.random() < 0.3 else rng.randint(0, 30) * scale for _ in range(2))
        start, end = min(start, top), min(end, top)
        if rng.random() < 0.8:
            start, end = min(start, end), max(start, end)
        edges += [start, end]
        rows.append(row(15, rng.choice([0, 0, 0, 1]), int(rng.random() < 0.4), start, end))
    start = max(0, rng.choice(edges) + rng.choice([0, 0, 0, 1, -1]))
    amount = rng.choice([0, 1, -1, -CAP, CAP, rng.randint(0, 30) * scale, rng.randint(0, 10) * scale, rng.choice(edges) - start])
    if rng.random() < 0.5:  # what is left, one less, one more
        opens = [(r[3], r[4]) for r in rows if r[0] == 15 and r[1] == 0 and r[2] == 0]
        closures = [(r[3], r[4]) for r in rows if r[0] == 15 and r[1] == 0 and r[2] == 1]
        if opens and rng.random() < 0.7:
            start = min(rng.choice(opens)[0] + rng.choice([0, 0, 0, 1]), top)
        until = max(start, rng.choice(edges + [top] * len(edges)))
        amount = reading.available_ms([(opens, closures)], start, until) + rng.choice([0, 1, 1, -1])
    resource = rng.choice([0, 0, 0, 0, 1, 2, -1, NONE])
    if rng.random() < 0.03:
        start = rng.choice([-1, CAP, CAP + 1, NONE, 2**63 - 1])
    if rng.random() < 0.03:
        amount = rng.choice([-CAP - 1, CAP + 1, NONE, 2**63 - 1])
    numbers = flat(mixed(rng, rows))
    if rng.random() < 0.05:
        numbers = damage(rng, numbers)
    return numbers, resource, start, amount


def shift_of(rng, numbers):
    """A whole number of milliseconds by which the sheet can be shifted, or nearly."""
    instants = [r[c] for r in reading.rows_of(numbers) for k, c in reading.INSTANTS if r[0] == k and r[c] != NONE]
    least, most = -min(instants, default=0), CAP - max(instants, default=0)
    few = [least, most, 0, 1, -1, rng.randint(least, most), rng.randint(least, min(most, least + 100))]
    return rng.choice(few + [least - 1, most + 1]) if rng.random() < 0.1 else max(least, min(most, rng.choice(few)))


# ---- margins ----------------------------------------------------------------------------------------------

FEW_IDS = [0, 1, 2, 3, 4, 5, 12, 100, 999_999_998, 999_999_999]  # tasks, activities and resources share them


def near(rng, x, least, greatest):
    """About x, mostly at it."""
    return max(least, min(greatest, x + rng.choice([0, 0, 0, 1, -1, 2, -3])))


def slack(rng):
    """Few tasks and resources; deadlines at completions and capacities at peaks, or one off, or at the ends of their classes."""
    tasks = rng.sample(FEW_IDS, rng.randint(0, 6))
    resources = rng.sample(FEW_IDS, rng.randint(0, 4))
    activities = rng.sample(FEW_IDS, rng.randint(0, 4)) if tasks else []
    scale = rng.choice([0, 1, 1, 7, 1000, CAP // 20])

    def instant():
        return rng.choice([0, CAP]) if rng.random() < 0.06 else min(CAP, rng.randint(0, 20) * scale)

    def one_of(known, p):
        return rng.choice(known) if known and rng.random() < p else rng.choice(FEW_IDS)

    rows = [row(11, r, rng.randint(0, 1), rng.choice([1, 1, 2, 3, 5, 0, -1, -1_000_000, 1_000_000])) for r in resources]
    for a in activities:
        rows.append(row(2, a, rng.choice(tasks), 0, 0, rng.choice([0, 1, 5]), 0, 0, NONE))
        for place in range(rng.choice([0, 1, 1, 2])):
            rows.append(row(5, a, rng.randint(0, 2), rng.choice([0, 1]), rng.choice([0, 1, 1, 2, 3, 7, 1_000_000])))
            rows += [row(6, a, place, one_of(resources, 0.8)) for _ in range(rng.choice([0, 0, 1, 2]))]
            rows += [row(7, a, place, 9) for _ in range(rng.choice([0, 0, 1]))]  # a skill that no one has: usage asks for none
    used = rng.sample(resources, rng.randint(0, len(resources))) + rng.sample(FEW_IDS, rng.choice([0, 0, 1]))
    for _ in range(rng.choice([0, 1, 3, 6, 10, 14])):
        start = instant()
        end = clamp(start + scale * rng.choice([1, 2, 2, 5, 9, 0, -1])) if rng.random() < 0.9 else instant()
        part = (NONE, NONE) if rng.random() < 0.9 else (rng.randint(-1, 2), rng.randint(0, 3))
        rows.append(row(23, one_of(activities, 0.7), one_of(tasks, 0.8), one_of(used, 0.95), start, end, 0, *part))
    for _ in range(rng.choice([0, 0, 1, 2, 4])):
        rows.append(row(24, one_of(activities, 0.7), one_of(tasks, 0.8), instant(), instant()))
    for r in margins.booked(rows) + rng.sample(FEW_IDS, rng.choice([0, 1])):  # several for one resource, most of them overruled
        for _ in range(rng.choice([0, 0, 0, 1, 2, 4])):
            rows.append(row(18, r, rng.choice([-1_000_000, -1, 0, 1, 2, 3, 6, 1_000_000])))
    for r in margins.booked(rows):  # full, or one off
        own = [x for x in rows if x[0] == 11 and x[1] == r]
        lowering = [x for x in rows if x[0] == 18 and x[1] == r]
        if rng.random() < 0.5 and (own or lowering):
            last = lowering[-1] if lowering else own[0]
            last[2 if lowering else 3] = near(rng, min(margins.peak(rows, r), 1_000_000), -1_000_000, 1_000_000)
    deadlines = []
    for t in tasks:
        at = margins.completion(rows, t)
        ways = [NONE, 0, CAP, instant()] + ([near(rng, at, 0, CAP)] * 5 if at is not None else []) + deadlines[:2]
        deadlines.insert(0, rng.choice(ways))
        rows.insert(rng.randint(0, len(rows)), row(1, t, deadlines[0], rng.choice([NONE, NONE, 0, CAP])))
    return mixed(rng, rows)


def many_lines(rng):
    """As many lines as 800 rows can give, or nearly."""
    count = rng.choice([800, 800, 799, 798])
    ids = rng.sample(range(2000), count)
    if rng.random() < 0.5:
        bookings = [row(23, 1, rng.choice([0, 1]), r, 0, rng.choice([0, 1]), 0, NONE, NONE) for r in ids]
        return bookings if rng.random() < 0.5 else bookings[:-1] + [row(1, 1, 1, NONE)]
    half = count // 2
    tasks = [row(1, t, rng.randint(0, 9), NONE) for t in ids[:half]]
    return mixed(rng, tasks + [row(23, 1, t, r, 0, rng.randint(0, 9), 0, NONE, NONE) for t, r in zip(ids[:half], ids[half:])])


def margin_sheet(rng):
    way = rng.random()
    if way < 0.55:
        return flat(slack(rng))
    if way < 0.85:
        return sheet(rng)
    if way < 0.855:
        return flat(many_lines(rng))
    if way < 0.91:
        return flat(rng.choice([meeting, overloaded])(rng))
    if way < 0.95:
        return damage(rng, flat(slack(rng)) or row(21))
    return broken(rng)


def margin_room(rng, numbers):
    """Room for all lines, or about what the lines need."""
    if rng.random() < 0.5:
        return 2400
    needed = 3 * len(margins.lines(numbers)) if reading.refused_1_to_6(numbers) is None else 3
    return max(0, needed + rng.choice([-needed, -3, -2, -1, 0, 0, 1, 2, 3, 30]))


def margin_text(rng):
    """A text for the program: mostly sound."""
    if rng.random() < 0.15:
        return text(rng)[0]
    numbers = flat(many_lines(rng)) if rng.random() < 0.01 else flat(slack(rng)) if rng.random() < 0.8 else sheet(rng)
    sound = reading.spelled(numbers)
    return sound if rng.random() < 0.93 else damaged_text(rng, sound)


# ---- lines ------------------------------------------------------------------------------------------------


def room(rng):
    return 8000 if rng.random() < 0.85 else rng.choice([0, 3, 4, 7, 8, 12, 16, rng.randint(0, 60)])


def said(word, *numbers):
    return " ".join([word] + [str(x) for x in numbers])


def lines(family, rng):
    """The lines of one case of a family."""
    if family == "all":
        family = rng.choices(["sheets", "broken", "texts", "work", "shifts"], [40, 20, 20, 10, 10])[0]
    if family == "sheets":
        return [said("check", room(rng), *sheet(rng))]
    if family == "broken":
        return [said("check", room(rng), *broken(rng))]
    if family == "texts":
        data, lent = text(rng)
        return [f"text {lent} {data.hex()}" if rng.random() < 0.6 else f"program {data.hex()}"]
    if family == "work":
        numbers, *inquiry = work(rng)
        return [said("work", *inquiry, *numbers)]
    if family == "shifts":
        numbers = sheet(rng)
        return [said("check", 8000, *numbers), said("check", 8000, *reading.shifted(numbers, shift_of(rng, numbers)))]
    if family == "margins":
        if rng.random() < 0.15:
            return [f"margintext {margin_text(rng).hex()}"]
        numbers = margin_sheet(rng)
        return [said("margins", margin_room(rng, numbers), *numbers)]
    raise SystemExit(f"generate.py: no such family: {family}")


def cases(family, count, seed):
    """That many cases; each has a generator of its own, so that a case does not depend on those before it."""
    for number in range(count):
        yield from lines(family, random.Random(f"{family} {seed} {number}"))


if __name__ == "__main__":
    if len(sys.argv) != 4:
        raise SystemExit(__doc__)
    for line in cases(sys.argv[1], int(sys.argv[2]), int(sys.argv[3])):
        print(line)
