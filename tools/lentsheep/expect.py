"""Expectations of a report: `denied write /etc/shadow`, `open write /var/lib/web`, `blind /srv`, `exposure <= 40`.

Lines are those of a report; `#` begins a comment. A path with files below it stands for all of them. `as-run` behind a line that
denies or is blind asks that no parting of systemd touches it, and `with-modes` that it is denied or that file modes close it.
`accept parting NAME`, `accept note KEY=VALUE` and `accept open QUESTION` let one of these stay; each needs a reason as its comment.
"""
from __future__ import annotations

import re
from typing import Sequence

from .partings import Parting, doubted
from .places import is_below
from .record import dataclass, replace
from .report import read_question
from .values import PATH_KINDS, Answer, Question, Report
from .words import escaped, unescaped

# Partings by which another path, call or mount leads to a file, whose mode the kernel compares there as well.
_OTHER_WAYS = frozenset("outside-roots io-uring other-calls strict-homes run-writable sys-writable devices-read-only old-names-open".split())
_EXPOSURE = re.compile(r"exposure(?: ([^ ]+))? <= ([0-9]{1,3})")


_ACCEPT = re.compile(r"accept (parting|note|open) (\S.*)")


class Fault(Exception):
    """A line that is no expectation."""


@dataclass(frozen=True)
class Accepted:
    """What a line `accept ..` lets stay: a parting by its name, a note by its assignment, or an open answer by its question."""

    kind: str
    what: str
    reason: str


@dataclass(frozen=True)
class Expectation:
    """A line: an answer, a blind folder, the most that the exposure may be, or that no line of the unit is passed over."""

    line: int
    text: str
    question: Question | None = None
    is_open: bool = False
    blind: str | None = None
    most: int | None = None
    policy: str | None = None
    #: whether it is to hold whatever systemd does otherwise
    as_run: bool = False
    no_notes: bool = False
    with_modes: bool = False
    accepted: Accepted | None = None


def read_expectations(text: str) -> list[Expectation]:
    """The expectations of a file. Raises a fault with the number of the first line that is none."""
    found = []
    for number, whole in enumerate(text.split("\n"), 1):
        line = " ".join(re.sub(r"(^|\s)#.*", "", whole).split())
        if line.startswith("accept "):
            found.append(_accept(number, line, whole))
        elif line:
            found.append(_expectation(number, line))
    return found


def _accept(number: int, line: str, whole: str) -> Expectation:
    """The line `accept ..`, whose comment is its reason."""
    found = _ACCEPT.fullmatch(line)
    if not found or found[1] == "open" and read_question(found[2]) is None:
        raise Fault(f"line {number} is no expectation: {line}")
    reason = whole.partition("#")[2].strip()
    if not reason:
        raise Fault(f"line {number} needs a reason: {line} # REASON")
    return Expectation(number, line, accepted=Accepted(found[1], found[2], reason))


def accepted_by(expectations: Sequence[Expectation], kind: str) -> frozenset[str]:
    """What the lines `accept ..` of a kind let stay."""
    return frozenset(it.accepted.what for it in expectations if it.accepted and it.accepted.kind == kind)


def _expectation(number: int, line: str) -> Expectation:
    first, _, rest = line.partition(" ")
    rest, ends = _ends(rest)
    as_run, with_modes = "as-run" in ends, "with-modes" in ends
    question = read_question(rest) if first in ("open", "denied") else None
    if question and not (as_run and first == "open") and (not with_modes or question.kind in ("read", "write", "exec")):
        return Expectation(number, line, question, first == "open", as_run=as_run, with_modes=with_modes)
    if first == "blind" and rest.startswith("/") and " " not in rest and not with_modes:
        return Expectation(number, line, blind=unescaped(rest), as_run=as_run)
    if line == "notes none":
        return Expectation(number, line, no_notes=True)
    if found := _EXPOSURE.fullmatch(line):
        return Expectation(number, line, most=int(found[2]), policy=found[1] and unescaped(found[1]))
    raise Fault(f"line {number} is no expectation: {line}")


def _ends(words: str) -> tuple[str, frozenset[str]]:
    """The words in front of `as-run` and `with-modes`, and which of the two are there."""
    ends: set[str] = set()
    while words.endswith((" as-run", " with-modes")):
        words, _, end = words.rpartition(" ")
        ends.add(end)
    return words, frozenset(ends)


def rows_for(expectations: Sequence[Expectation], report: Report) -> list[tuple[str, str]]:
    """Rows, each a path and its kind, that a site needs so that each path that is expected something of is asked of.

    A path that is not there becomes a file, or a program where it is to be run; a folder without files gets one below it.
    """
    folders = {answer.question.name for answer in report.of_kind("read")}
    asked = {(answer.question.kind, answer.question.name) for answer in report.of_kind(*PATH_KINDS)}
    files = {name for kind, name in asked if kind in ("write", "exec")}
    wanted: dict[str, str] = {}
    for expectation in expectations:
        question = expectation.question
        if question is None or question.kind not in PATH_KINDS or _members(question, asked):
            continue
        kind = "exe" if question.kind == "exec" else "file"
        path = question.name if question.name not in folders else f"{question.name.rstrip('/')}/.lentsheep-expects-{kind}"
        if question.name not in files:
            wanted[path] = kind
    return [*_parents(wanted, folders), *wanted.items()]


def _parents(paths: dict[str, str], folders: set[str]) -> list[tuple[str, str]]:
    """The folders above these paths that are not there, each behind its parent."""
    found: set[str] = set()
    for path in paths:
        parent = path.rpartition("/")[0]
        while parent and parent not in folders:
            found.add(parent)
            parent = parent.rpartition("/")[0]
    return [(folder, "dir") for folder in sorted(found)]


def _members(question: Question, asked: set[tuple[str, str]]) -> list[str]:
    """The rows of a path and below it of which the question is asked."""
    if (question.kind, question.name) in asked:
        return [question.name]
    return [name for kind, name in asked if kind == question.kind and is_below(name, question.name)]


def failures(expectation: Expectation, report: Report, accepted: frozenset[str] = frozenset()) -> list[str]:
    """Lines that say why an expectation of a report does not hold; none where it holds. Open answers that are accepted count as denied."""
    if expectation.blind is not None:
        if any(is_below(expectation.blind, folder) for folder in report.blind):
            return []
        return [_shown(answer) for answer in _seen_below(expectation.blind, report)] or ["it is not blind"]
    assert expectation.question is not None
    answers = _answers(expectation.question, report)
    if not answers:
        return ["the report does not ask this"]

    def is_open(answer: Answer) -> bool:
        is_accepted = answer.question.text in accepted and not expectation.is_open
        return answer.is_open and not is_accepted and not (expectation.with_modes and answer.by_modes)

    return [_shown(answer) for answer in answers if is_open(answer) != expectation.is_open][:3]


def _answers(question: Question, report: Report) -> list[Answer]:
    """The answers that a question stands for: its own, else those of the paths below its path."""
    answers = [answer for answer in report.of_kind(question.kind) if answer.question.name == question.name]
    if not answers and question.kind in PATH_KINDS:
        answers = [answer for answer in report.of_kind(question.kind) if is_below(answer.question.name, question.name)]
    return answers


def doubts(expectation: Expectation, report: Report, found: Sequence[Parting]) -> list[str]:
    """The partings by which systemd may open what a line denies, or show what it has as blind; none of other lines.

    What file modes close rests on ids and capabilities, so it is doubted by what gives more of them, and not by another way to the file.
    """
    if expectation.blind is not None:
        return [it.name for it in found if it.opens and any(_are_one_way(expectation.blind, folder) for folder in it.blind)]
    if expectation.question is None or expectation.is_open:
        return []
    names, answers = doubted(found), _answers(expectation.question, report)
    doubting = [
        [name for name in names.get(answer.question, []) if not (answer.by_modes and name in _OTHER_WAYS)] for answer in answers
    ]
    if any(answer.by_modes for answer in answers):
        doubting += [more for question, more in names.items() if question.kind in ("cap", "uid", "gid")]
    return list(dict.fromkeys(name for each in doubting for name in each))


def with_modes_denied(report: Report) -> Report:
    """The report with what file modes close as denied, so that partings which would open it touch it."""
    answers = (replace(it, is_open=False, calls=()) if it.by_modes else it for it in report.answers)
    return replace(report, answers=tuple(answers))


def _are_one_way(path: str, folder: str) -> bool:
    """Whether one of two paths lies at or below the other."""
    return is_below(path, folder) or is_below(folder, path)


def _seen_below(folder: str, report: Report) -> list[Answer]:
    """An answer that shows something at or below a folder."""
    open_ones = [answer for answer in report.of_kind("see", "read") if answer.is_open]
    return [answer for answer in open_ones if is_below(answer.question.name, folder)][:1]


def _shown(answer: Answer) -> str:
    """An answer with its calls."""
    calls = "".join(f"\n    {call.text}" for call in answer.calls)
    return f"{answer.verdict} {answer.question.text}{calls}"


def baseline(report: Report) -> str:
    """A report's own denied lines and blind folders, as a file of expectations."""
    denied = [f"denied {answer.question.text}" for answer in report.answers if not answer.is_open]
    return "\n".join([f"# what {escaped(report.unit)} is denied", *denied, *(f"blind {escaped(it)}" for it in report.blind), ""])
