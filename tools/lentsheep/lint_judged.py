"""What runs of the program show about a unit: a start that fails, lines that deny nothing, and what undoes them.

The program judges a copy of the unit. A line that its model does not have is left out of the copy. Then some checks are not made,
and a remark says so.
"""
from __future__ import annotations

import errno
import os
from typing import NamedTuple, Optional, Sequence

from sites import units
from sites.specifiers import expanded

from . import asking
from .causes import causes
from .gather import site_of
from .harm import candidates, groups
from .host import read_host
from .lint_tags import PARTING
from .lint_units import WITNESS, LintedUnit
from .parting_sides import bears_on
from .partings import Judged, Parting, partings
from .program import Program, Run
from .report import parse
from .site_text import with_rows
from .table import read_table
from .unit_lines import Assignment, assignments_of, lines_with
from .unit_text import FALSE, Said, UnitFile, files_in_force
from .values import Effect, Launched, LaunchPrivileged, LaunchRefused, Plan, Refusal, Report, Why

#: Keys whose lines are there to deny something.
DENYING = frozenset(
    """
    CapabilityBoundingSet InaccessiblePaths LockPersonality MemoryDenyWriteExecute NoExecPaths NoNewPrivileges PrivateDevices PrivateTmp
    ProtectClock ProtectControlGroups ProtectHome ProtectHostname ProtectKernelLogs ProtectKernelModules ProtectKernelTunables
    ProtectSystem ReadOnlyPaths RestrictAddressFamilies RestrictNamespaces RestrictRealtime RestrictSUIDSGID SystemCallArchitectures
    SystemCallFilter TemporaryFileSystem
    """.split()
)
# Lists in which a further line of the same kind adds to what is allowed, and so denies nothing.
_LISTS = ("CapabilityBoundingSet", "RestrictAddressFamilies", "RestrictNamespaces", "SystemCallFilter")
_NATIVE = "SystemCallArchitectures=native"
_FILTERS = ("MemoryDenyWriteExecute", "RestrictAddressFamilies", "RestrictNamespaces", "SystemCallFilter")
# Settings around the service that the model does not have: without them a copy is open where the unit may not be.
_AROUND = frozenset("PrivateUsers SecureBits RootDirectory RootImage MountImages ExtensionImages ExtensionDirectories".split())
_PATH_KEYS = ("ReadWritePaths", "ReadOnlyPaths", "InaccessiblePaths", "ExecPaths", "NoExecPaths", "BindPaths", "BindReadOnlyPaths")
_MOST_REFUSALS = 20


class Shown(NamedTuple):
    """A finding by the path of its file below the folder of the program."""

    file: str
    line: int
    tag: str
    context: str
    sentence: str


class Judging:
    """The runs of the program on one unit, and what they show."""

    def __init__(self, unit: LintedUnit, program: Program, root: Optional[str]):
        self.unit, self.program, self.root = unit, program, root
        self.findings: list[Shown] = []
        self.remarks: list[str] = []
        self.report: Optional[Report] = None
        self.plan: Optional[Plan] = None
        self.is_whole = True
        self.unmade: list[str] = []

    def run(self) -> None:
        """Judges the unit, and checks its lines if it is launched."""
        self._whole_programs()
        run = self._judge()
        if not run or not isinstance(run.printed, Report):
            return
        self.report = run.printed
        if not isinstance(self.report.launch, Launched):
            self._launch_fails(self.report)
        elif self.is_whole:
            self._partings(self.report)
            self._idle_lines(self.report)

    @property
    def files(self) -> list[UnitFile]:
        """The files of the copy in force."""
        return files_in_force(self.program.folder, self.unit.name)

    def _remark(self, place: str, text: str) -> None:
        self.remarks.append(f"{place}: {text}")

    def _shown(self, it: Assignment) -> str:
        return f"{self.unit.shown(it.file)}:{it.line}"

    def _rewrite(self, it: Assignment, line: str) -> None:
        """Writes another line in the place of an assignment of the copy; the other lines keep their numbers."""
        path = f"{self.program.folder}/{it.file}"
        with open(path, encoding="utf-8", newline="") as file:
            text = replaced(file.read(), it.line, line)
        with open(path, "w", encoding="utf-8", newline="") as file:
            file.write(text)

    def _whole_programs(self) -> None:
        """Gives commands whole paths: systemd searches a program without a slash, and the program does not."""
        for it in lines_with(self.files, "ExecStart"):
            bare = it.value.lstrip("-:@+!|")
            name = bare.split(" ")[0]
            if not name or name.startswith(("/", '"', "'", "%", "$")) or "/" in name:
                continue
            places = [f"/{place}/{name}" for place in ("usr/local/sbin", "usr/local/bin", "usr/sbin", "usr/bin")]
            whole = next((path for path in places if self.root and os.path.exists(self.root.rstrip("/") + path)), places[-1])
            prefix = it.value[: len(it.value) - len(bare)]
            self._rewrite(it, f"ExecStart={prefix}{whole}{bare[len(name):]}")
            self._add_rows([(whole, "exe")])

    def _add_rows(self, rows: Sequence[tuple[str, str]]) -> None:
        site = self.program.read("site.toml") or b""
        known = asking.read_site(site.decode("utf-8", "replace"))
        new = [row for row in rows if row[0] not in known.rows]
        if new:
            with open(f"{self.program.folder}/site.toml", "wb") as file:
                file.write(with_rows(site, asking.rows_with_parents(new, known)))

    def _judge(self) -> Optional[Run]:
        """A run that is not refused; None if there is none. What is refused becomes a finding or a remark, and leaves the copy."""
        for _ in range(_MOST_REFUSALS):
            run = self.program.run("judge", self.unit.name)
            refusal = run.printed.refusal
            if refusal is None and self.unmade:
                # the further checks are made as if these paths were there
                self._add_rows([row for path in self.unmade for row in ((path, "dir"), (f"{path}/{WITNESS}", "file"))])
                self.unmade = []
                continue
            if refusal is None:
                return run if run.status in (0, 7) else self._failed(run)
            if not self._mended(refusal):
                return None
        return None

    def _failed(self, run: Run) -> None:
        self._remark(self.unit.files[0].shown, f"the program ended with status {run.status}, so the unit was not judged")

    def _mended(self, refusal: Refusal) -> bool:
        """Whether the copy was changed so that another run may do; tells of the refusal."""
        first, name = refusal.cause[0] if refusal.cause else "", refusal.cause[1] if len(refusal.cause) > 1 else ""
        fragment = self.unit.files[0]
        if first == "outside":
            return self._left_out(name)
        if first == "no-path":
            return self._no_path(name)
        if first in ("no-user", "no-group"):
            keys = ("User",) if first == "no-user" else ("Group", "SupplementaryGroups")
            self._at(keys, name, "unknown-user", name, f"{self.root or 'the site'} has no such {first[3:]}")
        elif first == "kind":
            self._at(_PATH_KEYS + ("TemporaryFileSystem",), name, "start-fails", name, "a file cannot be mounted on a folder, nor a folder on a file")
        elif first == "no-command":
            self.findings.append(Shown(fragment.path, 1, "start-fails", "", "no ExecStart= is in force, so nothing is started"))
        elif first == "privileged-command":
            lines = lines_with(self.files, "ExecStart")
            place = self._shown(lines[-1]) if lines else fragment.shown
            self._remark(place, "this command has a prefix by which it runs outside the sandbox, so the unit was not judged")
        elif first == "line":
            line = int(name) if name.isdigit() else 1
            self.findings.append(Shown(refusal.what, line, "not-a-unit", "", "this line is no section; write it as [Service]"))
        elif first in ("too-large", "too-many", "bad-name", "not-text"):
            self.findings.append(Shown(fragment.path, 1, "not-a-unit", "", f"the program refuses it: {refusal.text}"))
        else:
            self._remark(fragment.shown, f"the program refuses the unit, so it was not judged: {refusal.text}")
        return False

    def _at(self, keys: Sequence[str], name: str, tag: str, context: str, sentence: str) -> None:
        """A finding at the last line of these keys that has a name."""
        lines = lines_with(self.files, *keys)
        named = [it for it in lines if name in _paths_of(it.value) or name in it.value.split()] or lines
        place = (named[-1].file, named[-1].line) if named else (self.unit.files[0].path, 1)
        self.findings.append(Shown(*place, tag, context, sentence))

    def _left_out(self, key: str) -> bool:
        lines = lines_with(self.files, key)
        for it in lines:
            self._rewrite(it, "#")
        if lines and key in _AROUND:
            self.is_whole = False
            self._remark(self._shown(lines[-1]), f"{lines[-1].text}: the model does not have {key}=, so idle lines and partings were not checked")
        elif lines:
            self._remark(self._shown(lines[-1]), f"{lines[-1].text}: the model does not have this, so it was left out")
        return bool(lines)

    def _no_path(self, path: str) -> bool:
        """Finds the words that name a missing path, and tries a copy in which they may be missing."""
        what = f"is not in {self.root}" if self.root else "is made by nothing in this unit"
        if path in asking.read_site(site_of(self.program)).rows:
            what = "is covered by a mount above, which has nothing there"
        lines = lines_with(self.files, *_PATH_KEYS)
        found = [(it, word) for it in lines for word in it.value.split() if self._needed_path(word, it.key) == path]
        for it, word in found:
            self.findings.append(Shown(it.file, it.line, "unmade-path", path, f"it {what}, and the start fails without it; write -{path}"))
            self._rewrite(it, f"{it.key}=" + " ".join(f"-{other}" if other == word else other for other in it.value.split()))
        self.unmade.append(path)
        return bool(found)

    def _needed_path(self, word: str, key: str) -> str:
        """The path of a word that must be there, with specifiers expanded; empty if it may be missing."""
        if word.startswith("-"):
            return ""
        word = word.lstrip("+").partition(":")[0] if key.startswith("Bind") else word.lstrip("+")
        name = units.read_name(self.unit.name)
        path = (expanded(name, word) if name else word) or ""
        return path.rstrip("/") or "/" if path.startswith("/") else ""

    def _launch_fails(self, report: Report) -> None:
        launch, lines = report.launch, lines_with(self.files, "ExecStart")
        it = lines[0] if lines else None
        place = (it.file, it.line) if it else (self.unit.files[0].path, 1)
        program = it.value.split(" ")[0].lstrip("-:@") if it else ""
        if isinstance(launch, LaunchPrivileged):
            self._remark(self._shown(it) if it else self.unit.files[0].shown, f"{program} has privileges of its own, so the unit was not judged")
            return
        number = launch.errno if isinstance(launch, LaunchRefused) else 0
        known = asking.read_site(site_of(self.program)).rows
        if number == errno.ENOENT and program not in known:
            sentence = f"{self.root or 'the site'} does not have this program"
        elif number in (errno.ENOENT, errno.EACCES):
            sentence = f"the service may not {'see' if number == errno.ENOENT else 'execute'} its own program"
        else:
            sentence = f"its own settings refuse step {getattr(launch, 'step', 0)} of the launch ({errno.errorcode.get(number, 'killed')})"
        self.findings.append(Shown(*place, "start-fails", program, sentence))

    def _idle_lines(self, report: Report) -> None:
        """Finds lines that deny nothing by themselves, and what undoes them."""
        why = self.program.run("why", self.unit.name).printed
        if not isinstance(why, Why) or not why.whole:
            return
        at = {(it.file, it.line): it for file in self.files for it in assignments_of(file)}
        in_force = {(it.file, it.line) for it in lines_with(self.files, *DENYING)} | _empty_sets(self.files)
        idle = [at[it.file, it.line] for it in why.each if it.count == 0 and not it.needed and (it.file, it.line) in in_force]
        idle = [it for it in idle if is_denying(it, self.files) and not self._ends_a_parting(it, report)]
        undoing = self._undoing(report, idle)
        for it in idle:
            if it in undoing:
                line, count, what = undoing[it]
                sentence = f"it denies nothing, since {what}; with {line} it denies {count} answer{'' if count == 1 else 's'}"
                self.findings.append(Shown(it.file, it.line, "undone", it.text, sentence))
            else:
                self.findings.append(Shown(it.file, it.line, "idle-line", it.text, "it denies nothing by itself"))

    def _undoing(self, report: Report, idle: Sequence[Assignment]) -> dict[Assignment, tuple[str, int, str]]:
        """For idle lines, a line with which they deny something, how many questions, and what the service can do without it."""
        lines: dict[str, str] = {}
        for group in groups(causes(report, read_table(self.program.folder))) if idle else []:
            for line in candidates(group, report):
                lines.setdefault(line, group.told)
        if idle and not Said(self.files).lines("SystemCallArchitectures"):
            lines[_NATIVE] = "32-bit programs make other calls"
        names = {f"etc/systemd/system/{self.unit.name}.d/zzzz-lentsheep-{at}.conf": line for at, line in enumerate(lines)}
        found: dict[Assignment, tuple[str, int, str]] = {}
        for name, line in names.items():
            with self.program.changed({name: f"[Service]\n{line}\n".encode()}) as changed:
                why = changed.run("why", self.unit.name).printed
            counts = {(it.file, it.line): it.count or 0 for it in why.each} if isinstance(why, Why) and why.whole else {}
            for it in idle:
                # a filter of calls turns no_new_privs on as well, which is no reason for another key
                is_meant = it.key in _FILTERS if line == _NATIVE else not line.startswith(f"{it.key}=")
                if counts.get((it.file, it.line)) and it not in found and is_meant:
                    found[it] = (line, counts[it.file, it.line], lines[line])
        return found

    def _partings(self, report: Report) -> None:
        """Finds differences by which systemd opens what is denied here, each with a line that closes it and that was tried."""
        plan = self.program.run("plan", self.unit.name).printed
        self.plan = plan if isinstance(plan, Plan) else None
        self.findings += [self._of_parting(it) for it in self._opening(self.files, report)]

    def _opening(self, files: Sequence[UnitFile], report: Report) -> list[Parting]:
        """The differences by which systemd opens what is denied here, for these files and answers."""
        table, host = read_table(self.program.folder), read_host(site_of(self.program))
        found = partings(Judged(Said(files), report, self.plan, table, host))
        return [it for it in found if it.opens and bears_on(it, report)]

    def _ends_a_parting(self, it: Assignment, report: Report) -> bool:
        """Whether systemd would open more without this line, although the program denies the same."""
        before = {parting.name for parting in self._opening(self.files, report)}
        files = [UnitFile(file.path, replaced(file.text, it.line, "#") if file.path == it.file else file.text) for file in self.files]
        return bool({parting.name for parting in self._opening(files, report)} - before)

    def _of_parting(self, it: Parting) -> Shown:
        lines = [line for key in it.keys for line in lines_with(self.files, key)]
        place = (lines[0].file, lines[0].line) if lines else (self.unit.files[0].path, self._first_line())
        touched = f"; systemd may open {len(it.answers)} answers" if it.answers else ""
        closing = [line for line in it.closed_by if self._is_accepted(line)]
        closed = f"; closed by {' or '.join(closing)}" if closing else ""
        return Shown(*place, PARTING + it.name, "", f"{it.text.rstrip('.')}{touched}{closed}")

    def _first_line(self) -> int:
        """The line of the section [Service]."""
        lines = self.unit.files[0].text.split("\n")
        return next((at for at, line in enumerate(lines, 1) if line.strip() == "[Service]"), 1)

    def _is_accepted(self, line: str) -> bool:
        """Whether the program accepts a line as a drop-in that opens nothing."""
        name = "lentsheep-try.conf"
        with self.program.changed({name: f"[Service]\n{line}\n".encode()}) as changed:
            found = changed.run("effect", self.unit.name, name).printed
        return isinstance(found, Effect) and found.whole and found.counts is not None and not found.opened and not found.shown


def replaced(text: str, number: int, line: str) -> str:
    """A text with another line in the place of the assignment that begins at a number; all other lines keep their numbers."""
    lines = text.split("\n")
    at = number - 1
    while at < len(lines) - 1 and (lines[at].lstrip().startswith(("#", ";")) and at >= number or _goes_on(lines[at])):
        at += 1
    lines[number - 1 : at + 1] = [line] + ["#"] * (at - number + 1)
    return "\n".join(lines)


def is_denying(it: Assignment, files: Sequence[UnitFile]) -> bool:
    """Whether a line is there to deny: no boolean that is off, and no further line of a list of what is allowed."""
    if it.key not in DENYING or it.value.lower() in FALSE:
        return False
    if not it.value:
        return it.key == "CapabilityBoundingSet"
    if it.key in _LISTS and not it.value.startswith("~"):
        allowed = [other for other in lines_with(files, it.key) if not other.value.startswith("~")]
        return len(allowed) < 2
    return True


def _empty_sets(files: Sequence[UnitFile]) -> set[tuple[str, int]]:
    """The lines `CapabilityBoundingSet=` without a later line of this key."""
    lines = [it for file in files for it in assignments_of(file) if it.section == "Service" and it.key == "CapabilityBoundingSet"]
    return {(it.file, it.line) for it in lines[-1:] if not it.value}


def _goes_on(line: str) -> bool:
    return (len(line) - len(line.rstrip("\\"))) % 2 == 1


def _paths_of(value: str) -> list[str]:
    return [part.lstrip("-+").rstrip("/") or "/" for word in value.replace('"', " ").split() for part in word.split(":")]
