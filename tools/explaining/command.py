"""What check_schedule answers to a sheet, or with --margins what margins does, in words beside its rows;
with --closures what closures answers to an office calendar, beside its unfolded lines.

Left stand the rows as typed, with their line numbers. Right, beside the row that it is about,
stands each finding in words, with the figures that decide it and the rule that it breaks; or the
refusal, and what is wrong with the row. [1], [2] .. number the findings as the program lists
them; 'see [1]' marks the other rows that have to do with finding 1. A note is no finding.

The verdict is always that of the proved program: this tool explains it and does not judge.
"""
import argparse
import os
import shutil
import sys

from .closures import calendar_page, explain_closures
from .explanation import explain
from .layout import page, shown
from .margins import HEADING, explain_margins
from .program import CLOSURES, MARGINS, PROGRAM, Unanswered, ask, ask_closures, ask_margins
from .version import version

EXAMPLES = os.path.normpath(os.path.join(os.path.dirname(os.path.abspath(__file__)), "..", "..", "examples"))
PRINTED = 100  # columns, where standard output is no terminal
STATUS = """exit status:
  0  accepted, no finding (with --margins: none below zero; with --closures: rows, or none)
  1  accepted, with findings (with --margins: some below zero)
  2  refused
  3  the sheet could not be read, the program did not answer, or nothing could be printed
"""


class Parser(argparse.ArgumentParser):
    def error(self, message):
        """A wrong option is no refusal: status 3."""
        self.print_usage(sys.stderr)
        self.exit(3, f"explain: {message}\n")


def options(words):
    parser = Parser(prog="explain", description=__doc__, epilog=STATUS, formatter_class=argparse.RawDescriptionHelpFormatter)
    parser.add_argument("sheet", nargs="?", default="-", metavar="SHEET", help="a file; standard input where none is named, or -")
    parser.add_argument("--version", action="version", version=version())
    parser.add_argument("--margins", action="store_true", help="how late or how early each task is, and what each resource has left")
    parser.add_argument("--closures", type=int, metavar="RESOURCE", help="SHEET is an office calendar: its busy periods as closed windows of this resource")
    parser.add_argument("--program", metavar="FILE", help="the program (by default check_schedule of this repository, as tools/build leaves it, or margins or closures)")
    parser.add_argument("--width", type=int, metavar="N", help=f"columns to print (by default the terminal's, or {PRINTED})")
    parser.add_argument("--all", action="store_true", help="show every row, also long runs about which nothing is said")
    group = parser.add_argument_group("check of the tool itself")
    group.add_argument("--check", type=int, metavar="N", help="try the examples and N generated sheets: figures for every finding, which imply it")
    group.add_argument("--seed", type=int, default=1, metavar="S", help="of the generated sheets (by default 1)")
    group.add_argument("--examples", default=EXAMPLES, metavar="DIR", help="the examples (by default examples/ of this repository)")
    group.add_argument("--write", action="store_true", help="with --check: keep what is printed for the examples as what is expected")
    return parser.parse_args(words)


def width_of(asked):
    if asked:
        return max(60, asked)
    return max(80, min(160, shutil.get_terminal_size((PRINTED, 24)).columns)) if sys.stdout.isatty() else PRINTED


def read(sheet):
    """The name and the bytes of a sheet."""
    if sheet != "-":
        with open(sheet, "rb") as file:
            return shown(os.fsencode(os.path.basename(sheet)))[0], file.read()
    if sys.stdin is None:
        raise OSError(0, "standard input is closed")
    if sys.stdin.isatty():
        print("explain: reading the sheet from the terminal, up to the end of input (ctrl-D)", file=sys.stderr)
    return "standard input", sys.stdin.buffer.read()


def asked_of(asked, text):
    """The answer of the program that is asked."""
    if asked.closures is not None:
        return ask_closures(asked.program or CLOSURES, text, asked.closures)
    return ask_margins(asked.program or MARGINS, text) if asked.margins else ask(asked.program or PROGRAM, text)


def printed(name, text, answer, asked):
    """What is printed; where this tool fails, the program's answer as it is."""
    colours = sys.stdout.isatty() and not os.environ.get("NO_COLOR") and os.environ.get("TERM") != "dumb"
    try:
        if asked.closures is not None:
            return calendar_page(name, explain_closures(text, answer, asked.closures), text, width_of(asked.width), colours, asked.all)
        if asked.margins:
            return page(name, explain_margins(text, answer), text, width_of(asked.width), colours, asked.all, HEADING)
        return page(name, explain(text, answer), text, width_of(asked.width), colours, asked.all)
    except Exception as error:  # the verdict must come through whatever is wrong here
        print(f"explain: a fault of this tool ({error!r}); below is the program's answer as it is", file=sys.stderr)
        if asked.margins or asked.closures is not None:
            lines = answer.margins if asked.margins else answer.rows
            return ["refused,{},{}".format(*answer.refusal)] if answer.refusal else [",".join(map(str, line)) for line in lines]
        return [answer.first] + [",".join(map(str, finding)) for finding in answer.findings]


def status(answer, asked):
    if asked.closures is not None:
        return 2 if answer.refusal else 0
    some = any(margin.margin < 0 for margin in answer.margins) if asked.margins else answer.findings
    return 2 if answer.refusal else 1 if some else 0


def main(words):
    asked = options(words)
    if sys.stdout is None:
        print("explain: standard output is closed", file=sys.stderr)
        return 3
    try:
        if asked.check is not None:
            from . import selfcheck  # with the generator, which is needed for nothing else

            return selfcheck.run(asked.program or PROGRAM, asked.check, asked.seed, os.path.abspath(asked.examples), asked.write)
        name, text = read(asked.sheet)
        answer = asked_of(asked, text)
    except OSError as error:
        print(f"explain: {asked.sheet}: {error.strerror}", file=sys.stderr)
        return 3
    except Unanswered as error:
        print(f"explain: {error}", file=sys.stderr)
        return 3
    return say(printed(name, text, answer, asked), status(answer, asked))


def say(lines, answered):
    """Prints the lines; gives the status of the answer, or 3 where they cannot be written."""
    try:
        print("\n".join(lines), flush=True)
    except BrokenPipeError:  # whoever reads has seen enough
        sys.stdout = None
    except OSError as error:
        print(f"explain: standard output: {error.strerror}", file=sys.stderr)
        sys.stdout = None
        return 3
    return answered
