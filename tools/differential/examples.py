"""Holds the second reading and the reference to the rules' own examples and edges. Silent where all hold."""
import reading
from answering import answers
from reading import CAP, NONE, bits_of


def derived(process, speeds, part=None, fixed=None):
    """The answer for one activity of a process, run on one resource for each speed."""
    index, work = part or (NONE, NONE)
    rows = [[1, 1, NONE, NONE], [2, 1, 1, 0, 0, process, 0, 0, NONE], [4, 1, 9, 0, 0]]
    rows += [[9, 1, r, bits_of(s)] for r, s in enumerate(speeds)]
    if fixed is not None:
        rows.append([10, 1, 0, 0, fixed, 0])
    rows += [[23, 1, 1, r, 0, 0, 0, index, work] for r in range(max(1, len(speeds)))]
    numbers = [x for r in rows for x in r + [0] * (10 - len(r))]
    return answers(["derived " + " ".join(map(str, numbers))])[0].split()[-1].split(":")[1]


WINDOWS = [(0, 10), (20, 30)]
SHEET = b"1,1,100,\n2,10,1,0,0,60,0,0,\n5,10,7,1,1\n11,5,7,1\n23,10,1,5,50,110,0,,\n"


def program(text):
    return answers(["program " + text.hex()])[0]


def two_bookings(*spans):
    return program(b"11,5,7,1\n" + b"".join(b"23,9,9,5,%d,%d,0,,\n" % span for span in spans))


EXPECTED = [
    ("A", derived(5, [2.0]), "0,3,0"),
    ("B", derived(3, [], (0, 1), 100), "0,33,0"),
    ("C", derived(2, [], (0, 1), 5), "0,3,0"),
    ("D", reading.overlap_start(bits_of(0.5), 10, 15), 13),
    ("E", two_bookings((0, 10), (10, 20)), "accepted 0"),
    ("F", two_bookings((0, 11), (10, 20)), "accepted 1 5,2,5,90"),
    ("G", reading.interval_fits([], [(5, 5)], 0, 10), False),
    ("H", reading.interval_fits([], [(5, 5)], 5, 10), True),
    ("I", reading.work_end(WINDOWS, [], 5, 5), ("end", 10)),
    ("J", reading.work_end(WINDOWS, [], 5, 15), ("end", 30)),
    ("K", reading.work_end(WINDOWS, [], 5, 16), ("never",)),
    ("L", reading.work_end(WINDOWS, [], 10, 0), ("pause",)),
    ("the sheet of Text", program(SHEET), "accepted 1 8,1,1,80"),
    ("with deadline 110", program(SHEET.replace(b"1,1,100,", b"1,1,110,")), "accepted 0"),
    ("800 rows", program(b"21\n" * 800), "accepted 0"),
    ("801 rows", program(b"21\n" * 801), "refused 10 800"),
    ("the greatest amount", program(b"14,1,1,%d\n11,1,1,1\n" % CAP), "accepted 0"),
    ("one more", program(b"14,1,1,%d\n11,1,1,1\n" % (CAP + 1)), "refused 3 0"),
    ("that process at 2^-10", derived(CAP, [2.0**-10]), f"0,{CAP * 1024},0"),
    ("at 2^-20 over two resources", derived(CAP, [2.0**-10] * 2), "6"),
]

if __name__ == "__main__":
    wrong = [f"{name}: {got}, expected {expected}" for name, got, expected in EXPECTED if got != expected]
    raise SystemExit("\n".join(wrong) or 0)
