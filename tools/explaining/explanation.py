"""An answer of the program put beside the rows: findings with their reasons, a refusal with what is wrong, notes."""
import collections
import dataclasses

from . import checks, refusals
from .notes import notes, of_sheet
from .reasons import one_or_more
from .rules import CAUSES, ENTITIES, TYPES, reading
from .sheet import Sheet

SEEN = 12  # references that are listed beside one row
REPORT = "Please report the sheet."
UNEXPLAINED = f"This tool finds no figures for it. It stands all the same: it is the proved program's answer. {REPORT}"


@dataclasses.dataclass
class Block:
    """What stands to the right of a row."""

    sort: str  # finding, refusal, note or see
    title: str
    words: str = ""
    rule: str = ""
    at: int = None  # the byte of the row to point at


@dataclasses.dataclass
class Explanation:
    answer: object
    summary: str
    remarks: list  # on the sheet as a whole
    beside: dict  # place: the blocks beside that row
    pairs: list  # of each finding with its reason, or None
    spare: list  # reasons for which the program has no finding: there should be none
    whole: bool  # whether everything was explained


def explain(text, answer):
    """The explanation of an answer to a text."""
    return of_refusal(text, answer) if answer.refusal else of_findings(text, answer)


def of_refusal(text, answer):
    number, place = answer.refusal
    found = refusals.explained(number, place, text)
    block = Block("refusal", refusals.title(number, place), found.words or UNEXPLAINED, f"Rule: {refusals.RULES[number]}.", found.at)
    beside = collections.defaultdict(list, {found.place: [block]})
    for other in found.others:
        if other != found.place:
            beside[other].append(Block("see", f"see line {found.place + 1}"))
    summary = f"refused by {number}, {refusals.REFUSALS[number]}, at line {found.place + 1}; the week was not checked"
    return Explanation(answer, summary, [], beside, [], [], bool(found.words))


def matched(findings, reasons):
    """Each finding with the first reason of the same check, type and entity that is left, or None; and what is left at the end."""
    waiting = collections.defaultdict(collections.deque)
    for reason in reasons:
        waiting[reason.key].append(reason)
    pairs = [(finding, waiting[finding[:3]].popleft() if waiting[finding[:3]] else None) for finding in findings]
    return pairs, [reason for left in waiting.values() for reason in left]


def of_findings(text, answer):
    read = reading.read_text(text, 10**9)
    sheet = Sheet(read[1]) if read[0] == "accepted" and not reading.refused_1_to_5(read[1]) else Sheet([])
    pairs, spare = matched(answer.findings, checks.reasons(sheet))
    beside = collections.defaultdict(list)
    references = collections.defaultdict(list)
    for number, (finding, reason) in enumerate(pairs, 1):
        place = reason.row.place if reason else 0
        beside[place].append(finding_block(number, finding, reason))
        for other in reason.others() if reason else []:
            references[other].append(f"[{number}]")
    for place, numbers in references.items():
        more = f" and {len(numbers) - SEEN} more" if len(numbers) > SEEN else ""
        beside[place].append(Block("see", "see " + " ".join(numbers[:SEEN]) + more))
    judged = {reason.row.place for _, reason in pairs if reason}
    for row, words in notes(sheet, judged):
        beside[row.place].append(Block("note", "", f"note: {words}"))
    rows = one_or_more(len(sheet.rows), "row")
    summary = f"accepted, {one_or_more(len(answer.findings), 'finding')} in {rows}" if answer.findings else f"accepted, no finding in {rows}"
    remarks = [f"note: {words}" for words in of_sheet(sheet)]
    if spare:
        remarks.append(f"This tool's own figures part from the program's answer ({len(spare)} more, such as {spare[0].cause}). The answer stands. {REPORT}")
    return Explanation(answer, summary, remarks, beside, pairs, spare, all(reason for _, reason in pairs) and not spare)


def finding_block(number, finding, reason):
    name = TYPES[finding.type][0] if finding.type in TYPES else f"type {finding.type}"
    what = ENTITIES.get(finding.type, "activity")
    title = f"[{number}] {','.join(map(str, finding))}  {name}, {what} {finding.entity}"
    if reason is None:
        return Block("finding", title, UNEXPLAINED)
    return Block("finding", title, reason.words, f"Rule of check {finding.check}: {CAUSES[reason.cause].rule}.")
