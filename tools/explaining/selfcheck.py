"""explain --check N: whether every finding gets figures that imply it.

The examples, and N generated sheets of each of three families (sheets, broken, texts of tools/differential/generate.py), go through
the program; what it answers is explained. It is looked whether
  - each finding has a reason, each reason a finding, and the tool's own list is the program's, line for line;
  - the figures imply the finding: the comparison that decides its cause is there, each comparison holds, each figure that is said
    to stand in a row stands there in its column, each sum is that of its parts, what was worked out is in the words, and times that
    are needed or worked are those of tools/differential/reading.py;
  - each refusal is explained;
  - of the same texts, and of N of the family margins, each line that the program margins prints is the one that this tool has figures for;
  - of the calendars among the examples, and of N of tools/differential/freebusy_texts.py, what the program closures answers is what this tool
    reads, and each refusal has its words;
  - no printed line is too long, and what is printed for an example is what is kept beside it (NAME.explained).
First fourteen answers and figures that are spoilt in one place are tried, and must be noticed.
"""
import collections
import dataclasses
import os
import random
import re
import time

from . import checks
from .closures import calendar_page, explain_closures
from .explanation import explain
from .layout import page
from .margins import HEADING, explain_margins
from .program import CLOSURES, MARGINS, ask, ask_closures, ask_margins
from .rules import CAUSES, COLUMNS, REFUSALS, TYPES, reading
from .sheet import Sheet

import freebusy_texts  # noqa: E402  of tools/differential, as reading is
import generate  # noqa: E402

FAMILIES = ["sheets", "broken", "texts"]
WIDTH = 100
SHOWN = 10  # faults that are printed


class Tally:
    def __init__(self, silent=False):
        self.silent = silent
        self.findings, self.with_figures, self.causes = collections.Counter(), collections.Counter(), collections.Counter()
        self.refused, self.explained, self.texts = collections.Counter(), collections.Counter(), collections.Counter()
        self.clean, self.margins, self.closures, self.faults = 0, 0, 0, []

    def fault(self, name, words):
        self.faults.append(words)
        if len(self.faults) <= SHOWN and not self.silent:
            print(f"{name}: {words}", flush=True)


# ---- one text ---------------------------------------------------------------------------------------------


def judge(tally, name, text, program):
    """Explains the answer to a text and looks whether it is whole; gives the page."""
    answer = ask(program, text)
    explanation = explain(text, answer)
    if answer.refusal:
        number = answer.refusal[0]
        tally.refused[number] += 1
        tally.explained[number] += explanation.whole
        if not explanation.whole:
            tally.fault(name, f"refusal {number} is not explained")
    else:
        tally.clean += not answer.findings
        judge_findings(tally, name, text, explanation)
    return judge_page(tally, name, page(os.path.basename(name), explanation, text, WIDTH, False, False))


def judge_page(tally, name, printed):
    for line in printed:
        if len(line) > WIDTH or not line.isascii():
            tally.fault(name, f"a line of {len(line)} columns, or not in ASCII: {line!r}")
    return "".join(line + "\n" for line in printed)


def judge_closures(tally, name, text, resource):
    """The same of an office calendar: its rows are those that this tool reads, or its refusal is."""
    answer = ask_closures(CLOSURES, text, resource)
    explanation = explain_closures(text, answer, resource)
    tally.closures += len(answer.rows)
    if answer.refusal:
        tally.refused[answer.refusal[0]] += 1
        tally.explained[answer.refusal[0]] += explanation.whole
    if not explanation.whole:
        tally.fault(name, "the rows of a calendar, or its refusal, are not explained")
    return judge_page(tally, name, calendar_page(os.path.basename(name), explanation, text, WIDTH, False, False))


def judge_margins(tally, name, text):
    """The same of the margins: each line has the figures of this tool, in this order, and there is none besides."""
    explanation = explain_margins(text, ask_margins(MARGINS, text))
    tally.margins += len(explanation.pairs)
    if not explanation.whole:
        tally.fault(name, "the margins, or their refusal, are not explained")
    return judge_page(tally, name, page(os.path.basename(name), explanation, text, WIDTH, False, False, HEADING))


def judge_findings(tally, name, text, explanation):
    lines, numbers = text.decode().split("\n"), reading.read_text(text, 10**9)[1]
    second = reading.Sheet(numbers)
    for finding, reason in explanation.pairs:
        tally.findings[finding[:2]] += 1
        wrong = ["there are no figures"] if reason is None else [*not_implied(reason, lines), *other_times(reason, second)]
        if finding.severity != TYPES[finding.type][1]:
            wrong.append("its severity is another")
        tally.with_figures[finding[:2]] += not wrong
        for words in wrong:
            tally.fault(name, f"{','.join(map(str, finding))}: {words}")
        if reason:
            tally.causes[reason.cause] += 1
    for reason in explanation.spare:
        tally.fault(name, f"no finding of the program for {reason.key}, {reason.cause}")
    own = [reason.key for reason in checks.reasons(Sheet(numbers))]
    if own != [finding[:3] for finding in explanation.answer.findings]:
        tally.fault(name, "the tool's own list is not the program's")


def not_implied(reason, lines):
    """What is wrong with the figures of a reason."""
    if not any(str(relation) in CAUSES[reason.cause].decided for relation in reason.because):
        yield f"the comparison that decides '{reason.cause}' is missing"
    for relation in reason.because:
        if not relation.holds():
            yield f"{relation} does not hold: {relation.left} and {relation.right}"
        for figure in (relation.left, relation.right):
            worked_out = figure.row is None and not figure.constant and isinstance(figure.value, int)
            if worked_out and str(figure.value) not in re.findall(r"-?\d+", reason.words):
                yield f"{figure.name} {figure} is not in the words"
    for figure in reason.figures():
        if figure.row is not None and field(lines, figure) != str(figure.value):
            yield f"{figure.name} {figure} does not stand in line {figure.row.place + 1}"
        if figure.parts is not None and sum(part.value for part in figure.parts) != figure.value:
            yield f"{figure.name} {figure} is not the sum of its parts"


def other_times(reason, second):
    """Whether a needed or worked time is another than the second reading's."""
    booked = reason.row.kind == 23 and second.rows[reason.row.place]
    for figure in reason.figures():
        if figure.name == "needed" and booked:
            _, process, teardown = second.derived(booked)
            if figure.value != booked[6] + process + teardown:
                yield f"needed {figure} is {booked[6] + process + teardown} by the second reading"
        if figure.name == "worked":
            if figure.value != (worked := worked_again(reason.row, second)):
                yield f"worked {figure} is {worked} by the second reading"


def worked_again(row, second):
    """The working time of the activity, and of the resources of the piece of a booking, within the row."""
    owners = {(16, row.activity)}
    if row.kind == 23:
        owners |= {(15, resource) for resource in second.pieces[row.activity, reading.NONE if row.part_index is None else row.part_index]}
    windows = {owner: [r for r in second.rows if (r[0], r[1]) == owner] for owner in owners}
    calendars = [([(r[3], r[4]) for r in rows if r[2] == 0], [(r[3], r[4]) for r in rows if r[2] == 1]) for rows in windows.values()]
    return reading.available_ms(calendars, row.start, row.end)


def field(lines, figure):
    """The text in a figure's column of its row."""
    return lines[figure.row.place].split(",")[1 + COLUMNS[figure.row.kind].index(figure.column)]


# ---- the check of the check -------------------------------------------------------------------------------

SAMPLE = b"1,1,100,\n2,10,1,0,0,60,0,0,\n5,10,7,1,1\n11,5,7,1\n23,10,1,5,50,110,0,,\n"  # task 1 completes at 110


def unnoticed(program):
    """Answers and figures that are spoilt in one place and that this check lets pass: there should be none."""
    answer = ask(program, SAMPLE)
    finding, reason = explain(SAMPLE, answer).pairs[0]
    answers = {"another entity": [finding._replace(entity=2)], "a finding too many": [finding, finding], "a finding too few": [],
               "another severity": [finding._replace(severity=81)], "another type": [finding._replace(type=2)]}
    for what, findings in answers.items():
        tally = Tally(silent=True)
        judge_findings(tally, what, SAMPLE, explain(SAMPLE, answer._replace(findings=findings)))
        if not tally.faults:
            yield what
    late, lines = reason.because[0], SAMPLE.decode().split("\n")
    figures = {"a figure that is not in its row": [dataclasses.replace(late, left=dataclasses.replace(late.left, value=111))],
               "a comparison that does not hold": [late, dataclasses.replace(late, word="<")], "no comparison": [],
               "a sum that is wrong": [late, dataclasses.replace(late, left=dataclasses.replace(late.left, row=None, parts=(late.right,)))],
               "a figure that is not said": [late, dataclasses.replace(late, left=dataclasses.replace(late.left, row=None, value=999))]}
    for what, because in figures.items():
        if not list(not_implied(dataclasses.replace(reason, because=because), lines)):
            yield what
    answer = ask_margins(MARGINS, SAMPLE)
    task, resource = answer.margins
    answers = {"another margin": [task._replace(margin=10), resource], "a margin too many": [task, resource, resource], "a margin too few": [task],
               "margins in another order": [resource, task]}
    for what, margins in answers.items():
        if explain_margins(SAMPLE, answer._replace(margins=margins)).whole:
            yield what


# ---- examples and generated texts -------------------------------------------------------------------------


def sheets_in(folder):
    return sorted(os.path.join(path, name) for path, _, names in os.walk(folder) for name in names if name.endswith(".txt"))


def calendars_in(folder):
    """The calendars of the examples: name, text, resource number."""
    with open(os.path.join(folder, "resources"), encoding="ascii") as file:
        numbers = [line.split() for line in file]
    for name, resource in numbers:
        with open(os.path.join(folder, name + ".ics"), "rb") as file:
            yield name, file.read(), int(resource)


def hold(tally, name, printed, kept, write):
    """What is printed for an example, compared with what is kept beside it; or kept anew."""
    tally.texts["examples"] += 1
    if write:
        with open(kept, "w", encoding="ascii") as file:
            file.write(printed)
    if not os.path.exists(kept):
        tally.fault(name, "nothing is kept of what is printed for it (--write keeps it)")
    elif read(kept) != printed:
        tally.fault(name, f"what is printed is not {os.path.basename(kept)}")
    else:
        tally.texts["as expected"] += 1


def run_examples(tally, program, folder, write):
    """Each example, compared with what is kept beside it; or kept anew."""
    for path in sheets_in(folder):
        name = os.path.relpath(path, os.path.dirname(folder))
        with open(path, "rb") as file:
            text = file.read()
        printed, margins = judge(tally, name, text, program), judge_margins(tally, name, text)
        if os.path.basename(os.path.dirname(path)) == "margins":  # sheets that are kept for their margins
            printed = margins
        hold(tally, name, printed, path.removesuffix(".txt") + ".explained", write)
    for name, text, resource in calendars_in(os.path.join(folder, "calendars")):
        printed = judge_closures(tally, f"examples/calendars/{name}.ics", text, resource)
        hold(tally, name, printed, os.path.join(folder, "calendars", name + ".closures.explained"), write)
    for path, _, names in os.walk(folder):
        for name in names:
            of = name.removesuffix(".explained")
            if of != name and of + ".txt" not in names and of.removesuffix(".closures") + ".ics" not in names:
                tally.fault(os.path.join(path, name), "there is no such example")


def read(path):
    with open(path, encoding="ascii") as file:
        return file.read()


def spelled(numbers):
    """Rows as a text, also those of unknown kinds."""
    rows = [row[: 1 + len(COLUMNS.get(row[0], [0] * 9))] for row in reading.rows_of(numbers)]
    return "".join(",".join("" if x == reading.NONE else str(x) for x in row) + "\n" for row in rows).encode()


def generated(family, seed, number):
    """The text of one case of the generator."""
    words = generate.lines(family, random.Random(f"{family} {seed} {number}"))[0].split()
    if words[0] in ("text", "program", "margintext"):
        return bytes.fromhex("".join(words[2 if words[0] == "text" else 1 :]))
    return spelled([int(word) for word in words[2:]])


def run(program, count, seed, folder, write):
    """The whole check; 0 where nothing is wrong."""
    tally, began = Tally(), time.time()
    for what in unnoticed(program):
        tally.fault("the check itself", f"{what} is not noticed")
    run_examples(tally, program, folder, write)
    for family in [*FAMILIES, "margins"]:
        for number in range(count):
            name, text = f"{family} {seed} {number}", generated(family, seed, number)
            if family != "margins":
                judge(tally, name, text, program)
            judge_margins(tally, name, text)
            tally.texts[family] += 1
    for number, case in enumerate(freebusy_texts.cases("all", count, seed)):
        if case.resource != reading.NONE:  # which is no number of the rules' text
            judge_closures(tally, f"calendars {seed} {number}", case.text, case.resource)
            tally.texts["calendars"] += 1
    report(tally, seed, time.time() - began)
    return int(bool(tally.faults))


def report(tally, seed, seconds):
    print(f"examples: {tally.texts['examples']}, printed as expected: {tally.texts['as expected']}")
    print("generated: " + ", ".join(f"{family} {tally.texts[family]}" for family in [*FAMILIES, "margins", "calendars"]) + f" (seed {seed}, {seconds:.0f} s)")
    print(f"accepted without finding: {tally.clean}; margins: {tally.margins}; closures: {tally.closures}")
    print("check,type  findings  with figures that imply them")
    for pair in sorted({(cause.check, cause.type) for cause in CAUSES.values()} | set(tally.findings)):
        print(f"{pair[0]},{pair[1]:<9} {tally.findings[pair]:>8}  {tally.with_figures[pair]:>8}  {TYPES[pair[1]][0]}")
    print("causes")
    for cause in CAUSES:
        print(f"  {tally.causes[cause]:>8}  {cause}")
    print("refusal  texts  explained")
    for number, word in REFUSALS.items():
        print(f"{number:>7}  {tally.refused[number]:>5}  {tally.explained[number]:>9}  {word}")
    lacking = sum(tally.findings.values()) - sum(tally.with_figures.values())
    unexplained = sum(tally.refused.values()) - sum(tally.explained.values())
    print(f"{sum(tally.findings.values())} findings, {lacking} without figures that imply them; {unexplained} refusals unexplained; {len(tally.faults)} faults in all")
