"""The proved programs, whose answers are explained."""
import collections
import os
import re
import subprocess

CRATES = os.path.normpath(os.path.join(os.path.dirname(os.path.abspath(__file__)), "..", "..", "crates"))
PROGRAM, MARGINS, CLOSURES = (os.path.join(CRATES, name, "out", name) for name in ("check_schedule", "margins", "closures"))

Finding = collections.namedtuple("Finding", "check type entity severity")
Answer = collections.namedtuple("Answer", "first refusal findings")  # refusal: None, or number and place
Margin = collections.namedtuple("Margin", "of id margin")  # of: task or resource
Margins = collections.namedtuple("Margins", "refusal margins")
Closures = collections.namedtuple("Closures", "refusal rows")


class Unanswered(Exception):
    """The program could not be run, or what it printed is no whole answer."""


def run(program, text, *arguments):
    """How a program ended on a text, the lines that it printed, and its refusal, or None."""
    try:
        done = subprocess.run([program, *arguments], input=text, capture_output=True, check=False)
    except OSError as error:
        raise Unanswered(f"{program}: {error.strerror}. Build it by 'tools/build check_schedule margins closures', or name it by --program") from None
    lines = done.stdout.decode("ascii", "replace").split("\n")
    refused = re.fullmatch(r"refused,(\d+),(\d+)", lines[0])
    return done, lines, (int(refused[1]), int(refused[2])) if refused and lines[1:] == [""] and done.returncode == 0 else None


def unanswered(program, done):
    said = done.stderr.decode("ascii", "replace").strip()
    return Unanswered(f"{program} gave no whole answer (exit status {done.returncode})" + (f": {said}" if said else ""))


def ask(program, text):
    """The answer of the check to a text."""
    done, lines, refusal = run(program, text)
    accepted = re.fullmatch(r"accepted,(\d+)", lines[0])
    if refusal:
        return Answer(lines[0], refusal, [])
    whole = accepted and len(lines) == int(accepted[1]) + 2 and all(re.fullmatch(r"\d+(,\d+){3}", line) for line in lines[1:-1])
    if done.returncode == 0 and whole:
        return Answer(lines[0], None, [Finding(*map(int, line.split(","))) for line in lines[1:-1]])
    raise unanswered(program, done)


def ask_margins(program, text):
    """The answer of the program of the margins: lines alone. Without one it says so on standard error."""
    done, lines, refusal = run(program, text)
    if refusal:
        return Margins(refusal, [])
    found = [re.fullmatch(r"(task|resource),(\d+),(-?\d+)", line) for line in lines[:-1]]
    if done.returncode == 0 and lines[-1] == "" and all(found) and done.stderr == (b"" if found else b"0 lines\n"):
        return Margins(None, [Margin(line[1], int(line[2]), int(line[3])) for line in found])
    raise unanswered(program, done)


def ask_closures(program, text, resource):
    """The answer of the reader of office calendars: rows alone. Without one it says so on standard error."""
    done, lines, refusal = run(program, text, str(resource))
    if refusal:
        return Closures(refusal, [])
    whole = lines[-1] == "" and all(re.fullmatch(rf"15,{resource},1,\d+,\d+", line) for line in lines[:-1])
    if done.returncode == 0 and whole and done.stderr == (b"" if lines[:-1] else b"0 lines\n"):
        return Closures(None, [[int(x) for x in line.split(",")] for line in lines[:-1]])
    raise unanswered(program, done)
