"""Why a finding is there: the figures that decide it, how they compare, and the words for them."""
import dataclasses
import operator

from .rules import CAUSES

COMPARED = {"<": operator.lt, "<=": operator.le, ">": operator.gt, ">=": operator.ge, "!=": operator.ne,
            "not among": lambda value, values: value not in values}


@dataclasses.dataclass(frozen=True)
class Figure:
    """A number that stands in a row, or one that was worked out. It is the sum of its parts, where parts are given."""

    name: str
    value: object
    row: object = None
    column: str = None  # of the row
    parts: tuple = None
    constant: bool = False  # of the rule, not of the sheet

    def __str__(self):
        return str(self.value)


def typed(row, column, name=None):
    """The figure in a column of a row."""
    return Figure(name or column.replace("_", " "), getattr(row, column), row, column)


def constant(name, value):
    """A number that the rule itself names."""
    return Figure(name, value, constant=True)


def total(name, *parts):
    """The figure that is the sum of others."""
    return Figure(name, sum(part.value for part in parts), parts=parts)


@dataclasses.dataclass(frozen=True)
class Relation:
    """How two figures compare."""

    left: Figure
    word: str
    right: Figure

    def holds(self):
        return COMPARED[self.word](self.left.value, self.right.value)

    def __str__(self):
        return f"{self.left.name} {self.word} {self.right.name}"


def among(name, rows, column):
    """The figure of all ids in a column of some rows."""
    return Figure(name, frozenset(getattr(row, column) for row in rows))


@dataclasses.dataclass
class Reason:
    """One cause in one sheet: where it is shown, what is said of it, and the relations that all hold and make it a finding."""

    cause: str
    entity: int
    row: object  # beside which it is shown
    words: str
    because: list
    rows: list = dataclasses.field(default_factory=list)  # others to look at

    @property
    def key(self):
        cause = CAUSES[self.cause]
        return cause.check, cause.type, self.entity

    def figures(self):
        """Every figure, parts before what they make up."""
        found = []

        def visit(figure):
            for part in figure.parts or ():
                visit(part)
            found.append(figure)

        for relation in self.because:
            visit(relation.left)
            visit(relation.right)
        return found

    def others(self):
        """The places of the other rows that have to do with it."""
        rows = self.rows + [figure.row for figure in self.figures() if figure.row is not None]
        return sorted({row.place for row in rows} - {self.row.place})


# ---- words ------------------------------------------------------------------------------------------------


def line(row):
    return f"line {row.place + 1}"


def listed(words, most=6):
    """Words in a row, the last after 'and'; of many the first ones and how many are left."""
    words = [str(word) for word in words]
    if len(words) > most:
        words = words[: most - 1] + [f"{len(words) - most + 1} more"]
    return words[0] if len(words) == 1 else ", ".join(words[:-1]) + " and " + words[-1] if words else "none"


def lines(rows, most=8):
    numbers = sorted({row.place + 1 for row in rows})
    return ("line " if len(numbers) == 1 else "lines ") + listed(numbers, most)


def one_or_more(count, word):
    return f"{count} {word}" if count in (1, "no") else f"{count} {word}s"


def in_units(ms):
    """An amount of 1000 ms or more in the two largest units that it has, to the nearest of the smaller one."""
    if ms < 60_000:
        return f"{ms / 1000:.3f}".rstrip("0").rstrip(".") + " s"
    for large, small, size, step in (("min", "s", 60_000, 1000), ("h", "min", 3_600_000, 60_000), ("d", "h", 86_400_000, 3_600_000)):
        if ms < size * (24 if large == "h" else 60) or large == "d":
            units, rest = divmod((ms + step // 2) // step, size // step)
            about = "" if ms % step == 0 else "about "
            return f"{about}{units} {large}" + (f" {rest} {small}" if rest else "")
    return None


def ms(amount):
    """An amount of time."""
    return f"{amount} ms ({in_units(amount)})" if amount >= 1000 else f"{amount} ms"
