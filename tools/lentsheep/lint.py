"""The findings of `lint` for one unit: what its text says, and what the program answers about it.

`findings_of(unit, root, unproved)` gives them in the order of files and lines, with remarks about what could not be checked.
"""
from __future__ import annotations

import re
import tempfile
from typing import Iterable, Optional, Sequence

from sites import units

from . import lint_judged
from .lint_units import INSTANCE, LintedUnit, made_folder
from .nearest import nearest
from .program import Program
from .record import dataclass
from .unit_lines import Assignment, Passed, assignments_of, numbered_lines, passed_over
from .unit_text import UnitFile
from .value_kinds import unread_value
from .values import Note, Report

# Values that systemd reads and the program does not, so that a note of the program is no finding (docs/PROFILE.md).
_NEWER = {"ProtectControlGroups": {"private", "strict"}, "ProtectHostname": {"private"}}
_OTHER_FAMILIES = {"AF_LOCAL", "AF_FILE", "AF_ROUTE"}
_NOTES = {"no-equals": "not-an-assignment", "specifier": "unread-specifier", "value": "unread-value", "unknown-name": "unread-name"}


@dataclass(frozen=True)
class Finding:
    """A finding: its file and line, its tag, what of the line it is about, and a sentence."""

    file: str
    line: int
    tag: str
    context: str
    sentence: str

    @property
    def text(self) -> str:
        """Its printed line."""
        return ": ".join(filter(None, [f"{self.file}:{self.line}", self.tag, self.context, self.sentence]))


@dataclass(frozen=True)
class Found:
    """What lint found in a unit: findings, and remarks about checks that it did not make."""

    findings: tuple[Finding, ...]
    remarks: tuple[str, ...] = ()


def findings_of(unit: LintedUnit, root: Optional[str] = None, unproved: bool = False) -> Found:
    """Checks the text of a unit, then runs the program on it in a folder that is removed afterwards."""
    broken = _unreadable(unit)
    if broken:
        return Found(tuple(broken))
    found = by_text(unit)
    known = {(it.file, it.line) for it in found}
    with tempfile.TemporaryDirectory(prefix="lentsheep.") as place:
        made_folder(unit, place, root)
        judged = lint_judged.Judging(unit, Program(place, unproved), root)
        judged.run()
    for it in judged.findings:
        found.append(Finding(unit.shown(it.file), it.line, it.tag, it.context, it.sentence))
    report = judged.report
    found += [it for it in of_notes(unit, report.notes if report else ()) if (it.file, it.line) not in known]
    order = {file.shown: at for at, file in enumerate(unit.files)}
    found.sort(key=lambda it: (order.get(it.file, len(order)), it.line))
    return Found(tuple(dict.fromkeys(found)), tuple(judged.remarks))


def _unreadable(unit: LintedUnit) -> list[Finding]:
    """Why the files are no unit; empty if they are one."""
    first = unit.files[0]
    name = first.shown.rpartition("/")[2]
    if units.read_name(unit.name) is None:
        return [Finding(first.shown, 1, "not-a-unit", name, "this is no name of a service")]
    found = []
    for file in unit.files:
        try:
            file.data.decode("utf-8")
        except UnicodeDecodeError as error:
            line = file.data[: error.start].count(b"\n") + 1
            found.append(Finding(file.shown, line, "not-a-unit", "", f"byte {error.start + 1} is no UTF-8"))
    return found


def by_text(unit: LintedUnit) -> list[Finding]:
    """What the text alone shows."""
    found = []
    for file in unit.texts:
        shown, lines = unit.shown(file.path), dict(numbered_lines(file.text))
        for it in passed_over([file]):
            found.append(_of_passed(it, shown, lines.get(it.line, "").strip(units.SPACES)))
        wrong = {it.line for it in found if it.file == shown}
        for assignment in assignments_of(file):
            why = unread_value(assignment.section, assignment.key, assignment.value)
            if why and assignment.line not in wrong:
                found.append(Finding(shown, assignment.line, "unread-value", assignment.text, f"systemd ignores this value; {why}"))
    return found


def _of_passed(it: Passed, shown: str, line: str) -> Finding:
    """The finding for a line that systemd passes over."""
    meant = re.search(r"\((\S+) is meant(, in \[Service\])?", it.text)
    hint = f" (did you mean {meant[1]}{meant[2] or ''}?)" if meant else ""
    section = re.search(r"read in (\[\w+\])", it.text)
    sentence = {
        "unknown-key": f"unknown key, ignored{hint}", "unknown-section": f"unknown section, ignored{hint}",
        "misplaced-key": f"systemd reads this key only in {section[1] if section else ''}", "outside-section": "no section is above it, so it is ignored",
        "byte-order-mark": "save the file without its byte order mark",
    }[it.tag]  # fmt: skip
    return Finding(shown, it.line, it.tag, "" if it.tag == "byte-order-mark" else _joined(line), sentence)


def _joined(line: str) -> str:
    """A line as an assignment without spaces around its sign."""
    key, equals, value = line.partition("=")
    return f"{key.strip()}={value.strip()}" if equals and not line.startswith("[") else line


def of_notes(unit: LintedUnit, notes: Iterable[Note]) -> list[Finding]:
    """The findings for notes of the program about lines that systemd does not read either."""
    assignments = {(file.path, it.line): it for file in unit.texts for it in assignments_of(file)}
    texts = {file.path: dict(numbered_lines(file.text)) for file in unit.texts}
    found = []
    for note in notes:
        tag, it = _NOTES.get(note.cause), assignments.get((note.file, note.line))
        if tag is None:
            continue
        if tag == "not-an-assignment":
            line = texts.get(note.file, {}).get(note.line, "").strip(units.SPACES)
            found.append(Finding(unit.shown(note.file), note.line, tag, line[:60], "no assignment, so it is ignored"))
        elif it and not _is_read_by_systemd(it, note.cause):
            found.append(Finding(unit.shown(note.file), note.line, tag, it.text, _SENTENCES[tag]))
    return found


_SENTENCES = {
    "unread-specifier": "a specifier cannot be expanded, so the line is ignored",
    "unread-value": "systemd cannot read this value, so the line is ignored",
    "unread-name": "it has a name that systemd does not know",
}


def _is_read_by_systemd(it: Assignment, cause: str) -> bool:
    """Whether systemd reads a line of which the program has a note."""
    if cause == "unknown-name" and it.key == "RestrictAddressFamilies":
        return bool(_OTHER_FAMILIES & set(it.value.lstrip("~").split()))
    return it.value in _NEWER.get(it.key, ())
