"""Which open answers file modes close: `with_modes(report, modes, said)` marks them. docs/VIEWS.md has the rule and why it is safe.

An answer is closed only where nothing that the report leaves within reach of the service, no uid, no gid and no capability, passes the
mode of the file, or may change it; whatever is not known for sure stays open.
"""
from __future__ import annotations

import json
from typing import Optional

from .places import is_below
from .record import dataclass, replace
from .unit_text import Said
from .values import Answer, Report

#: The file of modes, beside the site in the folder that the program reads.
FILE = "site.toml.modes"
# The kinds of questions that a mode answers, by the bits that they need of one class: read, write, execute.
BITS = {"read": 4, "write": 2, "exec": 1}
# With one of these alone in reach a mode still holds: they let nobody read, change or take over files, ids or other processes.
HARMLESS = frozenset(
    f"CAP_{name}"
    for name in """
    NET_BIND_SERVICE NET_BROADCAST NET_RAW NET_ADMIN IPC_LOCK IPC_OWNER KILL SYS_NICE SYS_TIME LEASE AUDIT_WRITE AUDIT_READ SYSLOG
    WAKE_ALARM BLOCK_SUSPEND
    """.split()
)
# Folders that systemd makes over to the user of the service when it starts, by key, and where they stand.
MADE_OVER = {
    "StateDirectory": "/var/lib", "RuntimeDirectory": "/run", "CacheDirectory": "/var/cache", "LogsDirectory": "/var/log",
    "ConfigurationDirectory": "/etc",
}  # fmt: skip


@dataclass(frozen=True)
class Modes:
    """Modes, owners and groups of paths, and the folders above them."""

    rows: dict[str, tuple[int, int, int, tuple[str, ...]]]
    folders: dict[str, tuple[int, int, int]]


@dataclass(frozen=True)
class Reach:
    """What the processes of a service can ever have, as its report says; of ids only those are known that it asks."""

    uids: frozenset[int]
    gids: frozenset[int]
    asked_uids: frozenset[int]
    asked_gids: frozenset[int]
    capabilities: frozenset[str]


def read_modes(data: Optional[bytes]) -> Optional[Modes]:
    """The modes of a file; None where there is none, or it cannot be read."""
    try:
        found = json.loads(data or b"")
        if found["version"] != 1:
            return None
        rows = {path: (mode, uid, gid, tuple(above)) for path, (mode, uid, gid, above) in found["rows"].items()}
        return Modes(rows, {path: (mode, uid, gid) for path, (mode, uid, gid) in found["folders"].items()})
    except (ValueError, KeyError, TypeError):
        return None


def reach_of(report: Report) -> Reach:
    """What a report says that the service can have."""
    ids = {kind: report.of_kind(kind) for kind in ("uid", "gid")}
    return Reach(
        frozenset(int(it.question.name) for it in ids["uid"] if it.is_open), frozenset(int(it.question.name) for it in ids["gid"] if it.is_open),
        frozenset(int(it.question.name) for it in ids["uid"]), frozenset(int(it.question.name) for it in ids["gid"]),
        frozenset(it.question.name for it in report.of_kind("cap") if it.is_open),
    )  # fmt: skip


def with_modes(report: Report, modes: Optional[Modes], said: Said) -> Report:
    """The report with the open answers marked that modes close."""
    reach = reach_of(report)
    # without an answer on each of them it is not known what the service can have
    is_known = all(report.of_kind(kind) for kind in ("cap", "uid", "gid")) and report.whole
    if modes is None or not is_known or reach.capabilities - HARMLESS:
        return report
    own = _made_over(said)
    answers = tuple(
        replace(answer, by_modes=True) if _is_closed(answer, modes, reach, own) else answer for answer in report.answers
    )
    return replace(report, answers=answers)


def _made_over(said: Said) -> list[str]:
    """The folders that systemd makes over to the service, and all of the places of such folders where a name is not read here."""
    found = []
    for key, place in MADE_OVER.items():
        for word in said.words(key):
            name = word.partition(":")[0]
            found.append(f"{place}/{name}" if "%" not in word and "\\" not in word else place)
            # systemd may keep them below private, too
            found.append(f"{place}/private")
    return found


def _is_closed(answer: Answer, modes: Modes, reach: Reach, own: list[str]) -> bool:
    """Whether modes close an open answer."""
    kind, path = answer.question.kind, answer.question.name
    row = modes.rows.get(path)
    if not answer.is_open or kind not in BITS or row is None or any(is_below(path, folder) for folder in own):
        return False
    mode, uid, gid, above = row
    if _passes(BITS[kind], mode, uid, gid, reach):
        return False
    # whoever may change a folder above may put another file in the place of this one
    folders = [modes.folders.get(folder) for folder in above]
    return all(folder is not None and not _passes(2, *folder, reach) for folder in folders)


def _passes(bit: int, mode: int, uid: int, gid: int, reach: Reach) -> bool:
    """Whether a process of the service may have these bits of a file, or it is not known for sure.

    The owner may change the mode, so it passes whatever the mode is. Every class counts that a process may be of: one that leaves a
    group is of the others.
    """
    if uid in reach.uids or uid not in reach.asked_uids or gid not in reach.asked_gids:
        return True
    return bool(mode & bit) or gid in reach.gids and bool(mode & bit << 3)
