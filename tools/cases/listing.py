"""How the stored lists are written (README.md has the form), and a reader of them that shares nothing with the writer."""
import os
import sys

HERE = os.path.dirname(os.path.abspath(__file__))
ROOT = os.path.dirname(os.path.dirname(HERE))
sys.path.insert(0, os.path.join(os.path.dirname(HERE), "differential"))

from reading import NONE, rows_of  # noqa: E402

MOST_BYTES = 60_000  # of a file
SPELLED = {b"\n": b"|", b"\r": b"$", b"\x00": b"^", b"\xff": b"~"}  # bytes of a text that a line cannot hold


def folder_of(crate):
    """Where the list of a program is."""
    return os.path.join(ROOT, "crates", crate, "data")


# ---- writing ----------------------------------------------------------------------------------------------


def merged(items):
    """[TIMES, item] for items, equal neighbours taken together."""
    runs = []
    for item in items:
        if runs and runs[-1][1] == item:
            runs[-1][0] += 1
        else:
            runs.append([1, item])
    return runs


def line(tag, numbers):
    return tag.encode() + b",".join(b"" if x == NONE else b"%d" % x for x in numbers) + b"\n"


def without_zeros(row):
    """A row without the zeros at its end, which a reader fills in."""
    length = len(row)
    while length > 1 and row[length - 1] == 0:
        length -= 1
    return row[:length]


def rows(numbers):
    whole = len(numbers) // 10 * 10
    out = [line("r", [times, *without_zeros(row)]) for times, row in merged(rows_of(numbers[:whole]))]
    if whole < len(numbers):  # what is no whole row
        out.append(line("n", [1, *numbers[whole:]]))
    return b"".join(out)


def numbers(items):
    return b"".join(line("n", [times, x]) for times, x in merged(items))


def expected(groups):
    return b"".join(line("e", [times, *group]) for times, group in merged(groups))


def text(parts):
    """A text given as parts (TIMES, bytes)."""
    out = []
    for times, part in parts:
        assert not any(x in part for x in SPELLED.values())
        for byte, spelled in SPELLED.items():
            part = part.replace(byte, spelled)
        if part:
            out.append(b"t%d,%s\n" % (times, part))
    return b"".join(out)


def case(remark, *parts):
    assert "\n" not in remark
    return b"# " + remark.encode() + b"\n" + b"".join(parts)


def write(folder, name, cases, most=MOST_BYTES):
    """Writes the cases to folder/NAME-1.txt, NAME-2.txt, .., each below a number of bytes; without one, to NAME.txt."""
    os.makedirs(folder, exist_ok=True)
    files, size = [[]], 0
    for one in cases:
        if most and size + len(one) > most:
            files.append([])
            size = 0
        files[-1].append(one)
        size += len(one)
    names = [f"{name}-{at + 1}.txt" for at in range(len(files))] if most else [f"{name}.txt"]
    for old in os.listdir(folder):
        if old.startswith(name) and old.endswith(".txt") and old not in names:
            os.remove(os.path.join(folder, old))
    for file, part in zip(names, files):
        with open(os.path.join(folder, file), "wb") as out:
            out.write(b"".join(part))


# ---- reading ----------------------------------------------------------------------------------------------


def number(word):
    return NONE if word == b"" else int(word)


class Case:
    """What the lines of a case gather, and the line that judges it."""

    def __init__(self):
        self.remark, self.numbers, self.bytes, self.expected = "", [], b"", []

    def gather(self, tag, rest):
        times, _, piece = rest.partition(b",")
        times = int(times)
        if tag == b"t":
            for byte, spelled in SPELLED.items():
                piece = piece.replace(spelled, byte)
            self.bytes += piece * times
            return
        fields = [number(x) for x in piece.split(b",")]
        if tag == b"r":
            self.numbers += (fields + [0] * (10 - len(fields))) * times
        elif tag == b"n":
            self.numbers += fields * times
        elif tag == b"e":
            self.expected += fields * times
        else:
            raise SystemExit(f"no such line: {tag}")


def cases_of(path):
    """The cases of a file: each with the letter that judges it and the numbers behind it."""
    case = Case()
    for line in open(path, "rb").read().split(b"\n"):
        tag, rest = line[:1], line[1:]
        if tag == b"#":
            case.remark = rest.strip().decode()
        elif tag.isupper():
            yield tag.decode(), [number(x) for x in rest.split(b",")], case
            case = Case()
        elif tag:
            case.gather(tag, rest)
