"""The assignments of a unit's files with the numbers of their lines, and lines that systemd passes over.

`passed_over(files)` finds what `systemd-analyze verify` warns of: a section or a key that systemd does not have, a key in the
section of others, an assignment in front of all sections, a byte order mark.
"""
from __future__ import annotations

from typing import Iterator, NamedTuple, Sequence

from sites import units

from .nearest import nearest
from .service_keys import SERVICE_KEYS
from .unit_text import UnitFile

MARK = "\ufeff"
SECTIONS = ("Unit", "Service", "Install")
#: The keys of [Unit] and [Install], systemd.unit(5), besides Condition..= and Assert..=, with names that systemd still reads.
UNIT_KEYS = frozenset(
    """
    Description Documentation SourcePath Wants Requires Requisite BindsTo BindTo PartOf Upholds Conflicts Before After OnFailure
    OnSuccess PropagatesReloadTo PropagateReloadTo ReloadPropagatedFrom PropagateReloadFrom PropagatesStopTo StopPropagatedFrom
    JoinsNamespaceOf RequiresMountsFor WantsMountsFor OnFailureJobMode OnSuccessJobMode OnFailureIsolate IgnoreOnIsolate
    IgnoreOnSnapshot StopWhenUnneeded RefuseManualStart RefuseManualStop AllowIsolate DefaultDependencies SurviveFinalKillSignal
    CollectMode FailureAction SuccessAction FailureActionExitStatus SuccessActionExitStatus JobTimeoutSec JobRunningTimeoutSec
    JobTimeoutAction JobTimeoutRebootArgument StartLimitIntervalSec StartLimitInterval StartLimitBurst StartLimitAction
    RebootArgument RequiresOverridable RequisiteOverridable
    """.split()
)
INSTALL_KEYS = frozenset("Alias WantedBy RequiredBy UpheldBy Also DefaultInstance".split())


class Assignment(NamedTuple):
    """An assignment: the file as reports name it, the number of its first line, its section, its key and its value."""

    file: str
    line: int
    section: str
    key: str
    value: str

    @property
    def place(self) -> str:
        """Where it is, as `web.service:7`."""
        return f"{self.file.rpartition('/')[2]}:{self.line}"

    @property
    def text(self) -> str:
        """What it assigns."""
        return f"{self.key}={self.value}"


class Passed(NamedTuple):
    """A line that systemd passes over: its file, its number, what is wrong and meant, and the tag of `lint` for it."""

    file: str
    line: int
    text: str
    tag: str = "unknown-key"

    @property
    def place(self) -> str:
        """Where it is."""
        return f"{self.file.rpartition('/')[2]}:{self.line}"


def numbered_lines(text: str) -> Iterator[tuple[int, str]]:
    """The lines of a file, continued ones as one, each with the number of its first."""
    whole, first = None, 0
    for number, line in enumerate(text.split("\n"), 1):
        if units.is_comment(line):
            continue
        if whole is None:
            whole, first = line, number
        else:
            whole += line.lstrip(units.SPACES)
        if (len(whole) - len(whole.rstrip("\\"))) % 2 == 1:
            whole = whole[:-1] + " "
        else:
            yield first, whole
            whole = None
    if whole is not None:
        yield first, whole


def assignments_of(file: UnitFile) -> Iterator[Assignment]:
    """The assignments of a file, whatever their section; it is empty in front of all of them."""
    section = ""
    for number, line in numbered_lines(file.text):
        line = line.strip(units.SPACES)
        key, equals, value = line.partition("=")
        if line.startswith("["):
            section = line.strip("[]")
        elif equals:
            yield Assignment(file.path, number, section, key.strip(units.SPACES), value.strip(units.SPACES))


def lines_with(files: Sequence[UnitFile], *keys: str) -> list[Assignment]:
    """The assignments of [Service] to any of these keys, in the order in which they apply, but for those that an empty one resets."""
    found: list[Assignment] = []
    for it in (it for file in files for it in assignments_of(file) if it.section == "Service" and it.key in keys):
        found = found + [it] if it.value else [other for other in found if other.key != it.key]
    return found


def has_mark(text: str) -> bool:
    """Whether a text begins with a byte order mark, which systemd passes over and the program does not."""
    return text.startswith(MARK)


def _keys_of(section: str) -> frozenset[str]:
    return {"Unit": UNIT_KEYS, "Install": INSTALL_KEYS, "Service": SERVICE_KEYS}.get(section, frozenset())


def _is_of_others(name: str) -> bool:
    return name.startswith("X-")


def _wrong_key(found: Assignment) -> str:
    """What is wrong with the key of an assignment; empty where nothing is."""
    key, section = found.key, found.section
    if key in _keys_of(section) or _is_of_others(key) or section == "Unit" and key.startswith(("Condition", "Assert")):
        return ""
    if section != "Service" and key in SERVICE_KEYS:
        return f"{key}= is read in [Service] alone, and stands in [{section}]"
    for other in ("Unit", "Install"):
        if section != other and key in _keys_of(other):
            return f"{key}= is read in [{other}] alone, and stands in [{section}]"
    meant = nearest(key, sorted(_keys_of(section))) or nearest(key, sorted(SERVICE_KEYS))
    moved = f", in [Service]" if meant and meant not in _keys_of(section) else ""
    return f"no key of systemd{f' ({meant}= is meant{moved}?)' if meant else ''}: {found.text}"


def passed_over(files: Sequence[UnitFile]) -> list[Passed]:
    """The lines that systemd passes over, in the order of files and lines."""
    found = []
    for file in files:
        found += _passed_over(file)
    return found


def _passed_over(file: UnitFile) -> list[Passed]:
    found, section, is_known = [], "", False
    if has_mark(file.text):
        text = "a byte order mark stands before the first line, so that it is not read as a section: save the file without it"
        found.append(Passed(file.path, 1, text, "byte-order-mark"))
    keys = {it.line: it for it in assignments_of(file)}
    for number, line in numbered_lines(file.text):
        line = line.strip(units.SPACES)
        if line.startswith("["):
            section = line.strip("[]")
            is_known = section in SECTIONS
            if not is_known and not _is_of_others(section):
                meant = nearest(section, SECTIONS)
                text = f"no section of a service{f' ([{meant}] is meant?)' if meant else ''}: {line}"
                found.append(Passed(file.path, number, text, "unknown-section"))
        elif number in keys and not section:
            text = f"in front of all sections ([Service] is missing?): {keys[number].text}"
            found.append(Passed(file.path, number, text, "outside-section"))
        elif number in keys and is_known and (wrong := _wrong_key(keys[number])):
            tag = "unknown-key" if wrong.startswith("no key of systemd") else "misplaced-key"
            found.append(Passed(file.path, number, wrong, tag))
    return found
