"""A drop-in for a unit, of which the program judged each line: what `harden` writes.

`Hardening(..).run()` puts together `judge`, `tighten`, `derive`, `why` and `effect`. It makes no answer itself: a line is taken only if
the program launches the unit with it and every wanted question stays open. Lines that close nothing are dropped again.
"""
from __future__ import annotations

import contextlib
from typing import Iterable, Iterator, Optional, Sequence

from . import asking
from .lint_units import fitting
from .program import Program, Run
from .record import dataclass, field
from .site_text import with_rows
from .unit_text import FALSE, Said, UnitFile, files_in_force
from .values import Answer, Derive, Effect, Launched, Question, Report, Tighten, Why
from .wanted import TMP, Wanted, folder_of

#: As many questions as `tighten` takes, and as many calls as `derive` takes.
MOST_KEPT, MOST_CALLS = 512, 16384
#: As many rows as a site has.
MOST_ROWS = 2048
_KEEP = "lentsheep-keep"
# What a setting costs, by systemd.exec(5).
COSTS = {
    "CapabilityBoundingSet": "neither root nor a set-user-ID program of the service has other capabilities",
    "LockPersonality": "personality(2) is refused",
    "MemoryDenyWriteExecute": "memory that is writable and executable is refused, which just-in-time compilers need",
    "NoNewPrivileges": "set-user-ID programs, such as sudo, give the service no privileges",
    "PrivateDevices": "only pseudo devices, such as /dev/null, are left in /dev",
    "PrivateTmp": "the service shares no files below /tmp and /var/tmp with other services",
    "ProtectClock": "the clock cannot be set",
    "ProtectControlGroups": "control groups are read-only",
    "ProtectHome": "files below /home, /root and /run/user are hidden or read-only",
    "ProtectHostname": "the host name cannot be set",
    "ProtectKernelLogs": "the kernel's log is hidden",
    "ProtectKernelModules": "modules cannot be loaded, and their files are hidden",
    "ProtectKernelTunables": "files such as those below /proc/sys are read-only",
    "ProtectSystem": "files can be written only where ReadWritePaths= or the unit's own folders allow it",
    "ReadWritePaths": "none: it keeps a folder writable",
    "RestrictAddressFamilies": "sockets of other families are refused",
    "RestrictNamespaces": "new namespaces are refused, which containers and browsers need",
    "RestrictRealtime": "realtime scheduling is refused",
    "RestrictSUIDSGID": "files cannot get set-user-ID and set-group-ID bits",
    "SystemCallFilter": "every call that no trace shows is refused; a rare path of the program may need one",
}
# The line that takes a setting back, in a later drop-in; all other settings are booleans.
_TAKES_BACK = {
    "CapabilityBoundingSet": "CapabilityBoundingSet=~", "RestrictAddressFamilies": "RestrictAddressFamilies=", "SystemCallFilter": "SystemCallFilter=",
}  # fmt: skip


class Refused(Exception):
    """A run of the program that gives no answers: its text, its status, and what to say besides."""

    def __init__(self, text: str, status: int, messages: Sequence[str] = ()):
        super().__init__(text)
        self.text, self.status, self.messages = text, status, list(messages)


@dataclass
class Line:
    """A line of the drop-in: why it is there, what it closes, and the line that takes it back."""

    text: str
    reason: str = ""
    #: what the line closes if it is the only one that is added
    closes: tuple[Question, ...] = ()
    #: what the unit with the drop-in denies by this line alone
    alone: tuple[Question, ...] = ()
    #: a line that takes it back, which the program accepted; empty if none was
    undo: str = ""

    @property
    def key(self) -> str:
        """Its key."""
        return self.text.partition("=")[0]


@dataclass
class Hardening:
    """The drop-in of a unit, and what led to it."""

    program: Program
    unit: str
    wanted: Wanted
    #: the scripts of traces; without one no list of calls is made
    scripts: Sequence[str] = ()
    root: Optional[str] = None
    lines: list[Line] = field(default_factory=list)
    #: wanted questions that the unit denies already
    denied: list[Question] = field(default_factory=list)
    messages: list[str] = field(default_factory=list)
    before: Optional[Report] = None
    after: Optional[Report] = None

    def run(self, must: Iterable[Question] = ()) -> None:
        """Makes the lines; each question of `must` has to be open in the unit."""
        with self.program.changed({"site.toml": self._site()}) as changed:
            outer, self.program = self.program, changed
            try:
                self._take_questions(set(must))
                self._make_lines()
                self._drop_idle()
                self._measure()
            finally:
                self.program = outer

    @property
    def files(self) -> list[UnitFile]:
        """The unit's own files."""
        return files_in_force(self.program.folder, self.unit)

    @property
    def place(self) -> str:
        """Where the drop-in is tried: it applies last."""
        return f"etc/systemd/system/{self.unit}.d/zzzz-lentsheep-harden.conf"

    def _site(self) -> bytes:
        """The site with rows for the paths of wanted questions."""
        site = self.program.read("site.toml") or b""
        known = asking.read_site(site.decode("utf-8", "replace"))
        rows = fitting([(path, kind) for path, kind in self.wanted.kinds.items() if path.startswith("/") and path != "/"], known)
        # what is to be written or run first, since a site has only so many rows
        urgent = {question.name for question in self.wanted.reasons if question.kind in ("write", "exec")}
        rows.sort(key=lambda row: row[0] not in urgent)
        while rows and len(known.rows) + len(asking.rows_with_parents(rows, known)) > MOST_ROWS:
            rows = rows[:-1]
        return with_rows(site, asking.rows_with_parents(rows, known)) if rows else site

    def _take_questions(self, must: set[Question]) -> None:
        """Asks the unit itself: what it denies already cannot be kept."""
        run = self.program.run("judge", self.unit)
        report = self._report_of(run)
        verdicts = {it.question: it.is_open for it in report.answers}
        for question in list(self.wanted.reasons):
            if verdicts.get(question):
                continue
            if question in must:
                said = "is denied already" if question in verdicts else "is no question of the report"
                raise Refused("", 3, [f"{self.wanted.why(question)}: {question.text} {said}; why {self.unit} {question.text} says more"])
            if question in verdicts:
                self.denied.append(question)
            elif question.kind in ("write", "exec"):
                self.messages.append(f"the site has no room for {question.name}, so {question.text} is not kept")
            self.wanted.drop(question)
        left = sorted(self.wanted.reasons, key=lambda it: it not in must and it.kind in ("read", "see"))
        for question in left[MOST_KEPT:]:
            self.wanted.drop(question)
        if len(left) > MOST_KEPT:
            self.messages.append(f"{len(left) - MOST_KEPT} questions about files to read were left out: tighten takes {MOST_KEPT}")
        self.before = report

    def _report_of(self, run: Run) -> Report:
        """The report of a launched unit. Raises Refused if there is none."""
        report = run.printed
        if run.status or not isinstance(report, Report) or not isinstance(report.launch, Launched):
            raise Refused(run.text, run.status or 3)
        return report

    @contextlib.contextmanager
    def _with(self, lines: Sequence[str], **others: bytes) -> Iterator[Program]:
        """The folder with lines as a last drop-in of the unit, and with other files."""
        files = {name.replace("_", "-"): data for name, data in others.items()}
        files[self.place] = "".join(f"{line}\n" for line in ["[Service]", *lines]).encode("utf-8", "surrogateescape")
        with self.program.changed(files) as changed:
            yield changed

    def _judged(self, lines: Sequence[str]) -> Optional[Report]:
        """The report with these lines, if the unit is launched and each wanted question is open."""
        with self._with(lines) as changed:
            run = changed.run("judge", self.unit)
        report = run.printed
        if run.status or not isinstance(report, Report) or not isinstance(report.launch, Launched):
            return None
        opened = {it.question for it in report.answers if it.is_open}
        return report if set(self.wanted.reasons) <= opened else None

    def _take(self, line: str, reason: str) -> bool:
        """Adds a line if the program accepts it with all earlier ones."""
        if self._judged([*(it.text for it in self.lines), line]) is None:
            return False
        self.lines.append(Line(line, reason))
        return True

    def _make_lines(self) -> None:
        said = Said(self.files)
        self._writable()
        self._tighten()
        taken = {it.text for it in self.lines}
        if "ProtectSystem=strict" not in taken and said.last("ProtectSystem").lower() in FALSE | {""}:
            any(self._take(line, "ProtectSystem=strict would deny what is kept") for line in ("ProtectSystem=full", "ProtectSystem=yes"))
        if "ProtectHome=yes" not in taken and said.last("ProtectHome").lower() in FALSE | {""}:
            self._take("ProtectHome=read-only", "ProtectHome=yes would deny what is kept")
        capabilities = sorted(it.name for it in self.wanted.reasons if it.kind == "cap")
        if capabilities and ("Service", "CapabilityBoundingSet") not in said.values:
            reasons = [f"{name}: {self.wanted.why(Question('cap', name))}" for name in capabilities]
            self._take(f"CapabilityBoundingSet={' '.join(capabilities)}", "; ".join(reasons))
        if self.scripts:
            self._of_traces(said)

    def _writable(self) -> None:
        """Adds a line for each folder that must stay writable; lines that turn out not to be needed are dropped later."""
        folders: dict[str, list[Question]] = {}
        for question in self.wanted.reasons:
            if question.kind == "write" and not question.name.startswith(("/dev/", "/proc/", "/sys/")):
                folders.setdefault(folder_of(question.name), []).append(question)
        for folder, questions in sorted(folders.items()):
            self._take(f"ReadWritePaths={folder}", "; ".join(dict.fromkeys(self.wanted.why(it) for it in questions)))

    def _tighten(self) -> None:
        keep = "".join(f"{question.text}\n" for question in self.wanted.reasons).encode("utf-8", "surrogateescape")
        with self._with([it.text for it in self.lines], lentsheep_keep=keep) as changed:
            run = changed.run("tighten", self.unit, _KEEP)
        if run.status or not isinstance(run.printed, Tighten):
            raise Refused(run.text, run.status or 3)
        for item in run.printed.items:
            self.lines.append(Line(item, "nothing that is kept needs what it denies"))

    def _of_traces(self, said: Said) -> None:
        """Adds what only a trace says: the families of sockets and the list of calls."""
        families = sorted({it.name for it in self.wanted.reasons if it.kind == "socket"} | {"AF_UNIX"})
        if not said.lines("RestrictAddressFamilies"):
            told = [f"{name}: {self.wanted.why(Question('socket', name)) or 'for the log and the manager'}" for name in families]
            self._take(f"RestrictAddressFamilies={' '.join(families)}", "; ".join(told))
        calls = self._calls()
        if calls is None:
            return
        lines = [f"SystemCallFilter={' '.join(calls)}"]
        if said.lines("SystemCallFilter"):
            lines.insert(0, "SystemCallFilter=")
        many = "the trace" if len(self.scripts) == 1 else f"the {len(self.scripts)} traces"
        if self._judged([*(it.text for it in self.lines), *lines]) is None:
            self.messages.append("no list of calls is added: with it the unit would deny what is kept")
            return
        if len(lines) == 2:
            self.lines.append(Line(lines[0], "resets the unit's own list"))
        self.lines.append(Line(lines[-1], f"derive: the calls of {many}, and of nothing else"))

    def _calls(self) -> Optional[list[str]]:
        """The names that the scripts need together."""
        return united(self.program, self.unit, self.scripts, self.messages, {self.place: self._text().encode("utf-8", "surrogateescape")})

    def _text(self) -> str:
        return "".join(f"{line}\n" for line in ["[Service]", *(it.text for it in self.lines)])

    def _alone(self) -> Optional[dict[int, tuple[Question, ...]]]:
        """What each line of the drop-in denies by itself, by its place; a line that is needed has no entry."""
        with self._with([it.text for it in self.lines]) as changed:
            why = changed.run("why", self.unit).printed
        if not isinstance(why, Why) or not why.whole:
            return None
        return {it.line - 2: it.opened for it in why.each if it.file == self.place and not it.needed}

    def _drop_idle(self) -> None:
        """Drops lines that keep nothing writable, and lines that deny nothing by themselves, the last one first."""
        for it in [it for it in self.lines if it.key == "ReadWritePaths"]:
            if self._judged([other.text for other in self.lines if other is not it]) is not None:
                self.lines.remove(it)
        while True:
            alone = self._alone()
            if alone is None:
                break
            idle = [at for at, it in enumerate(self.lines) if at in alone and not alone[at] and it.key != "ReadWritePaths" and it.text != "SystemCallFilter="]
            if not idle:
                for at, questions in alone.items():
                    self.lines[at].alone = questions
                break
            del self.lines[idle[-1]]
        self._private_files()

    def _private_files(self) -> None:
        """Keeps /tmp writable for files that the service made there, unless it has its own."""
        said = Said([*self.files, UnitFile(self.place, self._text())])
        is_private = said.last("PrivateTmp").lower() not in FALSE | {""} or said.is_on("DynamicUser")
        if self.wanted.private and not is_private and said.last("ProtectSystem") == "strict":
            for top in (top for top in TMP if top in self.wanted.private):
                self.lines.insert(0, Line(f"ReadWritePaths={top}", "files were made there in the trace"))

    def _measure(self) -> None:
        """Runs effect with each line by itself, and with the line that takes it back."""
        texts = [it.text for it in self.lines]
        self.after = self._judged(texts)
        if self.after is None:
            raise Refused("", 3, ["the program does not accept the drop-in, so it is not written"])
        for it in self.lines:
            with self.program.changed({"lentsheep-line.conf": f"[Service]\n{it.text}\n".encode()}) as changed:
                effect = changed.run("effect", self.unit, "lentsheep-line.conf").printed
            it.closes = effect.closed if isinstance(effect, Effect) else ()
            it.undo = self._undo(it, texts)

    def _undo(self, line: Line, texts: Sequence[str]) -> str:
        """The line that takes a line back, if the program accepts it and it opens what the line denies by itself."""
        if line.key == "ReadWritePaths" or line.text == "SystemCallFilter=":
            return ""
        undo = _TAKES_BACK.get(line.key, f"{line.key}=no")
        with self._with(texts, lentsheep_undo=f"[Service]\n{undo}\n".encode()) as changed:
            effect = changed.run("effect", self.unit, "lentsheep-undo").printed
        if not isinstance(effect, Effect) or effect.counts is None:
            return ""
        opened = {answer.question for answer in effect.opened if isinstance(answer, Answer)}
        return undo if set(line.alone) <= opened else ""


def united(
    program: Program, unit: str, scripts: Sequence[str], messages: list[str], files: Optional[dict[str, bytes]] = None
) -> Optional[list[str]]:
    """The list of calls that several scripts need together, by `derive` of each; None if one is refused."""
    found: dict[str, None] = {}
    for number, script in enumerate(scripts, 1):
        name = f"lentsheep-script-{number}"
        with program.changed({**(files or {}), name: script.encode("utf-8", "surrogateescape")}) as changed:
            run = changed.run("derive", unit, name)
        if run.status or not isinstance(run.printed, Derive):
            messages.append(f"trace {number} gives no list of calls: {run.text.strip()}")
            return None
        found.update(dict.fromkeys(listed(run.printed.lines)))
    table = (program.read("calls.txt") or b"").decode("utf-8", "replace")
    order = {words[1]: at for at, words in reversed(list(enumerate(line.split() for line in table.split("\n")))) if words[:1] == ["call"]}
    return sorted(found, key=lambda it: order.get(it, -1))


def listed(lines: Sequence[str]) -> list[str]:
    """The names of the last list of calls of a drop-in."""
    lists = [line.partition("=")[2] for line in lines if line.startswith("SystemCallFilter=")]
    return lists[-1].split() if lists else []


def shortened(lines: Sequence[str]) -> list[str]:
    """The lines of a script, each once but for calls that make processes, so that a long trace is taken whole."""
    found: dict[str, None] = {}
    kept = []
    for line in lines:
        name = line.split(" ")[1]
        if line not in found or name in ("fork", "vfork", "clone", "clone3"):
            kept.append(line)
        found[line] = None
    return kept
