"""Two columns: left the rows as typed with their line numbers, right what is said beside them."""
import re
import textwrap

from .spelling import BOM

NARROW, WIDE = 16, 44  # of the left column
EVEN = 6  # by how much the pieces of a long row may be longer than the row in equal pieces
SCREEN = 40  # rows; in longer texts
QUIET = 8  # rows or more, one after the other, about which nothing is said are folded
LONGEST = 400  # bytes of a row that are shown

COLOURS = {"finding": "1;31", "refusal": "1;31", "note": "33", "see": "36", "rule": "2", "margin": "1", "number": "2", "caret": "1;31", "head": "1"}


def painter(colours):
    """What puts a style on a text."""
    if not colours:
        return lambda style, text: text
    return lambda style, text: f"\x1b[{COLOURS[style]}m{text}\x1b[0m" if text and style in COLOURS else text


def shown(line):
    """A line as typed, in ASCII, and for each of its bytes where it is shown."""
    text, where = "", []
    at = 0
    while at < len(line):
        size, word = 1, chr(line[at])
        if at == 0 and line.startswith(BOM):
            size, word = 3, "<BOM>"
        elif line[at] == 13:
            word = "<CR>"
        elif line[at] == 9:
            word = "<TAB>"
        elif line[at] < 32 or line[at] > 126:
            size, word = character(line, at)
        where += [len(text)] * size
        text += word
        at += size
    return text, where + [len(text)]


def character(line, at):
    """A character that is not plain ASCII: how many bytes it has, and how it is shown."""
    for size in (2, 3, 4):
        try:
            return size, f"<U+{ord(line[at : at + size].decode('utf-8')):04X}>"
        except (UnicodeDecodeError, TypeError):
            continue
    return 1, f"<x{line[at]:02X}>"


def cut(text, width):
    """A row in pieces of at most a width, of about one length, cut after commas where that can be: pairs of a start and a piece."""
    pieces, start = [], 0
    count = -(-len(text) // width)
    width = min(width, -(-len(text) // max(1, count)) + EVEN)
    while len(text) - start > width:
        comma = text.rfind(",", start, start + width)
        end = comma + 1 if comma > start else start + width
        pieces.append((start, text[start:end]))
        start = end
    return pieces + [(start, text[start:])]


def left_column(line, at, width, paint):
    """The lines of a row's left side, each with its length as seen; a caret points at a byte."""
    text, where = shown(line[:LONGEST])
    more = " ..." if len(line) > LONGEST else ""
    column = None if at is None else where[min(at, len(where) - 1)]
    lines = []
    for start, piece in cut(text + more, width):
        lines.append((piece, piece))
        last = start + len(piece) == len(text + more)
        if column is not None and (start <= column < start + len(piece) or (last and column >= start)):
            caret = " " * min(column - start, width - 1) + "^"
            lines.append((caret, paint("caret", caret)))
            column = None
    return lines


# Words that a line does not end with where a number follows.
TOGETHER = r"\b((?:line|lines|activity|resource|task|part|kind|check|type|skill|requirement|constraint|field|companion|setup|process|teardown|at) ?)(?=-?\d)"


def wrapped(text, width, indent=""):
    """A text in lines. A number stays with the word that it belongs to, and with its unit; 'A to B' stays together."""
    text = re.sub(TOGETHER, lambda found: found[1].replace(" ", "\xa0"), text, flags=re.IGNORECASE)
    text = re.sub(r"(?<=\d) to (?=-?\d)", "\xa0to\xa0", text)
    text = re.sub(r"(?<=\d) (?=(ms|s|min|h|d)\b)", "\xa0", text)
    return [line.replace("\xa0", " ") for line in textwrap.wrap(text, width, subsequent_indent=indent, break_on_hyphens=False)]


def right_column(blocks, width, paint):
    """The lines of the blocks beside a row."""
    lines = []
    for block in blocks:
        lines += [paint(block.sort, piece) for piece in wrapped(block.title, width, "    ")]
        style, indent = ("note", "  ") if block.sort == "note" else ("", "")
        lines += [paint(style, piece) for piece in wrapped(block.words, width, indent)]
        lines += [paint("rule", piece) for piece in wrapped(block.rule, width, "  ")]
    return lines


def folded(lines, beside, every):
    """The places to show, as ranges that are shown or not."""
    place = 0
    while place < len(lines):
        end = place
        while end < len(lines) and not beside.get(end):
            end += 1
        if end - place >= QUIET and len(lines) > SCREEN and not every:
            yield place, end, False
        elif end > place:
            yield place, end, True
        if end < len(lines):
            yield end, end + 1, True
        place = end + 1


def page(name, explanation, text, width, colours, every, heading="what check_schedule finds"):
    """The whole of what is printed of a sheet."""
    lines = text.split(b"\n")
    if lines[-1] == b"":
        lines.pop()
    return columns(name, explanation, lines, width, colours, every, "as typed", heading)


def columns(name, explanation, lines, width, colours, every, typed, heading):
    """The whole of what is printed: the lines, and what is said beside them."""
    paint = painter(colours)
    out = [paint("head", piece) for piece in wrapped(f"{name}: {explanation.summary}", width)]
    out += [paint("note", piece) for words in explanation.remarks for piece in wrapped(words, width, "  ")]
    if not lines and not explanation.beside:
        return out
    room = max((len(shown(line[:LONGEST])[0]) for line in lines), default=0)
    left = max(NARROW, min(WIDE, room, width // 2 - 8))
    right = width - left - 10
    out += ["", paint("number", f"{'line':>5}  {typed:<{left}} | {heading}")]
    for start, end, visible in folded(lines, explanation.beside, every):
        if visible:
            for place in range(start, end):
                out += row_lines(place, lines[place], explanation.beside.get(place, []), left, right, paint)
        else:
            out.append(paint("number", f"{'...':>5}  lines {start + 1} to {end}: nothing is said of them (--all shows them)"))
    for place in sorted(place for place in explanation.beside if place >= len(lines)):  # beside no row
        out += row_lines(place, b"", explanation.beside[place], left, right, paint)
    return out


def row_lines(place, line, blocks, left, right, paint):
    at = next((block.at for block in blocks if block.at is not None), None)
    ones, others = left_column(line, at, left, paint), right_column(blocks, right, paint)
    out = []
    for number in range(max(len(ones), len(others))):
        seen, painted = ones[number] if number < len(ones) else ("", "")
        before = paint("number", f"{place + 1:>5}") if number == 0 else " " * 5
        out.append(f"{before}  {painted}{' ' * (left - len(seen))} | {others[number] if number < len(others) else ''}".rstrip())
    return out
