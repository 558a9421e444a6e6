#!/usr/bin/env python3
"""The sheets that the definition is computed on in the gate (crates/definition/proofs/Vectors.antt), with the reference's findings.

    vectors.py [--check]

Reads the sheets of that page, asks the reference for their findings, and writes the theorems' right-hand sides anew; all else
stays as it is. Prints the names of the theorems that changed, and what the sheets show. --check writes nothing, and ends with 1
where one would change. Where no sheet shows some pair of check and type, or some kind of row, that is said, and the end is 1.
A further sheet: add `abbrev sheetN` with its rows, and below it `findingsN` with any list; then run this.
"""
import importlib.machinery
import importlib.util
import os
import re
import sys

import listing

import answering
from reading import NONE

loader = importlib.machinery.SourceFileLoader("definition", os.path.join(listing.ROOT, "tools", "differential", "definition"))
definition = importlib.util.module_from_spec(importlib.util.spec_from_loader("definition", loader))
loader.exec_module(definition)

SHEET = re.compile(r"^abbrev sheet(\d+) : List ℤ\nsheet\d+ =\n((?: +.*\n)+)", re.M)
CELL = re.compile(r"none'|\((pos|negsuc) (\d+)\)")


def cell(match):
    if match[0] == "none'":
        return NONE
    return int(match[2]) if match[1] == "pos" else -int(match[2]) - 1


def rows_in(text):
    """The rows of each sheet of the page, by number."""
    found = {}
    for number, body in SHEET.findall(text):
        lines = [[cell(match) for match in CELL.finditer(line)] for line in body.splitlines() if "row " in line]
        if any(len(row) != 10 for row in lines):
            raise SystemExit(f"vectors: sheet{number} has a row that is not ten cells")
        found[int(number)] = lines
    return found


def main(words):
    if words not in ([], ["--check"]):
        print(__doc__.strip())
        return 2
    with open(definition.VECTORS, encoding="utf-8") as f:
        text = f.read()
    sheets, changed, cases = rows_in(text), [], []
    answers = answering.answers([" ".join(str(x) for row in rows for x in row) for rows in sheets.values()])
    for (number, rows), answer in zip(sheets.items(), answers, strict=True):
        cases.append(definition.Case(number, rows, definition.findings(answer, rows)))
        statement = f"pub findings{number} : findings sheet{number} ≡ {definition.listed(cases[-1].found)}"
        made, times = re.subn(rf"^pub findings{number} : .*$", lambda _: statement, text, flags=re.M)
        if times != 1:
            raise SystemExit(f"vectors: there is no theorem findings{number}, or more than one")
        if made != text:
            changed.append(f"findings{number}")
        text = made
    print(f"{len(sheets)} sheets; changed: {', '.join(changed) or 'none'}")
    short = definition.report(cases, 1)
    for said in short:
        print(f"not shown: {said}")
    if words == ["--check"]:
        return 1 if changed or short else 0
    with open(definition.VECTORS, "w", encoding="utf-8") as f:
        f.write(text)
    return 1 if short else 0


if __name__ == "__main__":
    sys.exit(main(sys.argv[1:]))
