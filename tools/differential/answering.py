"""Answers cases by the second reading of the rules (reading.py, margins.py) and the reference (reference/)."""
import os
import subprocess
import sys

import freebusy_reading
import margins
import reading

HERE = os.path.dirname(os.path.abspath(__file__))
ROOT = os.path.dirname(os.path.dirname(HERE))
BUILT = os.path.join(ROOT, "target", "differential")
ROOM = 10**9  # for a sheet without a word before it: room for all findings


def source():
    """The folder of the Rust's source; the run ends where it is not there."""
    folder = os.path.abspath(os.environ.get("U_SCHEDULE") or os.path.join(ROOT, "..", "shared", "docs", "src"))
    if not os.path.isfile(os.path.join(folder, "src", "scheduler", "feasibility.rs")):
        raise SystemExit(f"the Rust's source is not in {folder}: name its folder by U_SCHEDULE=FOLDER (tools/differential/README.md)")
    return folder


def cargo(manifest, *words, **more):
    """Builds what a manifest describes, over that source, by these words and variables."""
    words = ["cargo", "build", "--offline", "--quiet", *words, "--manifest-path", manifest]
    if subprocess.run(words, env=dict(os.environ, CARGO_TARGET_DIR=BUILT, U_SCHEDULE=source(), **more)).returncode:
        raise SystemExit(f"{os.path.relpath(os.path.dirname(manifest), ROOT)} was not built: cargo says why")


def build(profile="dev"):
    """Builds the reference; gives the path of its program. dev: overflow checks on; release: for timing."""
    cargo(os.path.join(HERE, "reference", "Cargo.toml"), "--profile", profile)
    if patches():
        print("the reference: the source, patched by " + ", ".join(patches()), file=sys.stderr)
    return os.path.join(BUILT, "debug" if profile == "dev" else profile, "reference")


def patches():
    """The names of the patches that the reference is built with."""
    return sorted(name for name in os.listdir(os.path.join(HERE, "patches")) if name.endswith(".patch"))


def numbers(words):
    return [int(word) for word in words]


def split_case(line):
    """The word of a case and what follows it."""
    words = line.replace(",", " ").split()
    if words and words[0].isalpha():
        return words[0], words[1:]
    return "check", [str(ROOM)] + words


def refusal(number, place):
    return f"refused {number} {place}"


def sheet_answer(sheet, room):
    """An answer, or the sheet and the room where the reference has the word."""
    refused = reading.refused_1_to_6(sheet)
    return refusal(*refused) if refused else (sheet, room)


def own_answer(word, rest):
    if word == "check":
        return sheet_answer(numbers(rest[1:]), int(rest[0]))
    if word == "program":
        read = reading.read_text(bytes.fromhex("".join(rest)), 800)
        return refusal(*read[1:]) if read[0] == "refused" else sheet_answer(read[1], 8000)
    if word == "rows":
        refused = reading.refused_1_to_5(numbers(rest))
        return refusal(*refused) if refused else "accepted"
    if word == "text":
        read = reading.read_text(bytes.fromhex("".join(rest[1:])), int(rest[0]))
        if read[0] == "refused":
            return refusal(*read[1:])
        return " ".join(map(str, ["accepted", len(read[1]) // 10] + read[1]))
    if word == "freebusy":
        return freebusy_answer(int(rest[0]), int(rest[1]), bytes.fromhex("".join(rest[2:])))
    if word == "work":
        resource, start, work, *sheet = numbers(rest)
        return " ".join(map(str, reading.work_end_inquiry(sheet, resource, start, work)))
    if word in ("margins", "margintext"):
        return margins.spoken(margins_answer(word, rest))
    if word == "derived":
        return derived_answer(numbers(rest))
    raise SystemExit(f"answer: no such case: {word}")


def freebusy_answer(resource, lent, text):
    accepted, number, place, numbers = freebusy_reading.read(text, resource, [0] * lent)
    return " ".join(map(str, ["accepted", number] + numbers[: 10 * number])) if accepted else refusal(number, place)


def derived_answer(sheet):
    """For each booking of a known activity its place and setup, process and teardown, or 6."""
    refused = reading.refused_1_to_5(sheet)
    if refused:
        return refusal(*refused)
    typed = reading.Sheet(sheet)
    words = ["accepted"]
    for place, r in enumerate(typed.rows):
        if r[0] == 23 and r[1] in typed.activity:
            d = typed.derived(r)
            words.append(f"{place}:" + ("6" if reading.stretched(d) else ",".join(map(str, d))))
    return " ".join(words)


def margins_answer(word, rest):
    if word == "margintext":
        return margins.of_text(bytes.fromhex("".join(rest)))
    return margins.answer(numbers(rest[1:]), int(rest[0]))


def by_reference(sheets, program, *question):
    text = "".join(" ".join(map(str, sheet)) + "\n" for sheet in sheets)
    return subprocess.run([program, *question], input=text, capture_output=True, text=True, check=True).stdout.splitlines()


def within(line, room):
    """The reference's line, or refusal 7 where its findings exceed the whole fours of the room."""
    word, count = line.split()[:2]
    return refusal(7, 0) if word == "accepted" and int(count) > room // 4 else line


def by_first_booking(sheet, line):
    """The reference's line with check 5's findings, whose order the reference leaves open, in ours: by the row of each
    resource's first booking, whatever that booking's time, and also where it adds no load."""
    words = line.split()
    at = [i for i, word in enumerate(words) if words[0] == "accepted" and word.startswith("5,")]
    if len(at) > 1:
        booked = [r[3] for r in reading.rows_of(sheet) if r[0] == 23]
        words[at[0] : at[-1] + 1] = sorted(words[at[0] : at[-1] + 1], key=lambda word: booked.index(int(word.split(",")[2])))
    return " ".join(words)


def answers(lines, program=None):
    """The answers to cases, in their order."""
    found = [own_answer(*split_case(line)) for line in lines]
    asked = [at for at, answer in enumerate(found) if isinstance(answer, tuple)]
    if asked:
        lines = by_reference([found[at][0] for at in asked], program or build())
        for at, line in zip(asked, lines, strict=True):
            sheet, room = found[at]
            found[at] = within(by_first_booking(sheet, line), room)
    return found


def margin_sheet(line):
    """The rows of a case of margins, accepted whatever the room is; else None."""
    word, rest = split_case(line)
    if word == "margintext":
        read = reading.read_text(bytes.fromhex("".join(rest)), margins.LENT_ROWS)
        sheet = read[1] if read[0] == "accepted" else None
    else:
        sheet = numbers(rest[1:])
    return None if sheet is None or reading.refused_1_to_6(sheet) else sheet


def anchored(lines, program):
    """For each case of margins with an accepted sheet: the case, and what of the reading differs from the reference's own figures and
    findings, or None."""
    asked = [(line, sheet) for line, sheet in zip(lines, map(margin_sheet, lines)) if sheet is not None]
    sheets = [sheet for _, sheet in asked]
    figures, findings = by_reference(sheets, program, "figures"), by_reference(sheets, program)
    return [(line, margins.held(sheet, x, by_first_booking(sheet, y))) for (line, sheet), x, y in zip(asked, figures, findings, strict=True)]
