"""Root causes: why answers are open that a mount, a filter or an id seems to deny.

Each open answer has the calls that show it. Behind them stands what the service needs before the last call is done: a
capability that it holds at launch, or a program that gives one. The first such need is the answer's cause.
"""
from __future__ import annotations

from collections import Counter
from enum import Enum

from .calls import Call
from .record import dataclass
from .table import Table
from .values import Answer, Launched, Report

#: Questions about what a process has: all their calls lead to it.
STATE_KINDS = ("cap", "uid", "gid")
# CLONE_NEW* of clone(2) and unshare(2): cgroup, ipc, net, mnt, pid, uts; and user, which asks for no capability.
_NEW_NAMESPACES = 0x02000000 | 0x08000000 | 0x40000000 | 0x00020000 | 0x20000000 | 0x04000000
_NEW_USER = 0x10000000
# What a call asks for, and what is told of it. The calls of ids are those of capabilities(7).
_ASKING = {
    "mount": ("mounts", "CAP_SYS_ADMIN"), "umount2": ("unmounts", "CAP_SYS_ADMIN"), "sched_setattr": ("calls", "CAP_SYS_NICE"),
    **dict.fromkeys(("setuid", "setresuid", "setreuid"), ("uids", "CAP_SETUID")),
    **dict.fromkeys(("setgid", "setresgid", "setregid", "setgroups"), ("gids", "CAP_SETGID")),
}  # fmt: skip


class State(str, Enum):
    """How a question stands; `in steps` is open only behind a call that changes mounts, ids or capabilities, or sets up a ring.

    What is `closed by modes` is open in the report, which knows none, and closed by the mode of its file.
    """

    DENIED = "denied"
    MODES = "closed by modes"
    OPEN = "open"
    STEPS = "in steps"


@dataclass(frozen=True)
class Need:
    """What a call needs: the kind of it, and the capability or the program that serves."""

    kind: str
    by: str


@dataclass(frozen=True)
class Cause:
    """A need that is the first one of some open answers."""

    need: Need
    #: these answers by kinds of questions
    kinds: dict[str, int]
    #: what they need behind it, by kinds of needs
    then: dict[str, int]
    #: the programs that are run for it
    programs: tuple[str, ...]
    #: one with the shortest calls, of the kind and of the further needs that most of them have
    example: Answer
    #: how many the answers are
    count: int
    answers: tuple[Answer, ...] = ()


def before_last(answer: Answer) -> tuple[Call, ...]:
    """The calls that change something, so that the last one is done; for what a process has all of them."""
    return answer.calls if answer.question.kind in STATE_KINDS else answer.calls[:-1]


def state_of(answer: Answer) -> State:
    """How the question of this answer stands."""
    if not answer.is_open:
        return State.DENIED
    if answer.by_modes:
        return State.MODES
    return State.STEPS if before_last(answer) else State.OPEN


def _flags_of(call: Call) -> int:
    """The flags by which a call makes namespaces."""
    if call.name == "clone3":
        return int(call.payload[0])
    return call.args[0] if call.name in ("unshare", "clone") and call.args else 0


def _family_of(call: Call) -> int | None:
    """The number of the family whose sockets a call makes, or the request that it submits to a ring; None where it makes none."""
    if call.request == "socket":
        return int(call.payload[1])
    # Linux looks at the low 32 bits
    return call.args[0] & 0xFFFFFFFF if call.name in ("socket", "socketpair") and call.args else None


def _last_need(call: Call, table: Table) -> Need | None:
    """What a call asks for where it is the last one."""
    if call.name in _ASKING:
        return Need(*_ASKING[call.name])
    flags, family = _flags_of(call), _family_of(call)
    if flags & _NEW_USER:
        return Need("user-namespaces", "")
    if flags & _NEW_NAMESPACES:
        return Need("namespaces", "CAP_SYS_ADMIN")
    asked = table.capabilities.get(call.name if family is None else table.families.get(family, ""))
    return Need("calls", asked) if asked else None


def needs_of(answer: Answer, table: Table) -> list[Need]:
    """What the calls of an open answer need, in order, like neighbours once."""
    ways = before_last(answer)
    found: list[Need] = []
    for at, call in enumerate(answer.calls):
        if call.name in ("execve", "execveat") and at < len(ways):
            need = Need("programs", call.paths[0] if call.paths else "")
        elif call.name == "capset" and at < len(ways):
            need = Need("capset", "")
        else:
            need = _last_need(call, table)
        if need and need not in found[-1:]:
            found.append(need)
    return found


def causes(report: Report, table: Table) -> list[Cause]:
    """The root causes of a report, those of most answers first."""
    groups: dict[tuple[str, str], list[tuple[Answer, list[Need]]]] = {}
    for answer in report.answers:
        needs = needs_of(answer, table) if answer.is_open and not answer.by_modes else []
        if needs:
            first = needs[0]
            key = (first.kind, "" if first.kind == "programs" else first.by)
            groups.setdefault(key, []).append((answer, needs))
    told = [_cause(members) for members in groups.values()]
    return sorted(told, key=lambda cause: -cause.count)


def _cause(members: list[tuple[Answer, list[Need]]]) -> Cause:
    """The cause that these answers have in common."""
    kinds = Counter(answer.question.kind for answer, _ in members)
    then = Counter(_second(needs) for _, needs in members)
    programs = dict.fromkeys(need.by for _, needs in members for need in needs[:1] if need.kind == "programs")
    most = next(iter(dict(then.most_common())))
    shown = [answer for answer, needs in members if _second(needs) == most]
    kind = Counter(answer.question.kind for answer in shown).most_common(1)[0][0]
    shown = [answer for answer in shown if answer.question.kind == kind]
    example = min(shown, key=lambda answer: sum(len(call.text) for call in answer.calls))
    first = members[0][1][0]
    return Cause(first, dict(kinds.most_common()), dict(then.most_common()), tuple(programs), example, len(members), tuple(answer for answer, _ in members))


def _second(needs: list[Need]) -> str:
    """The kind of what is needed behind the first need."""
    return needs[1].kind if len(needs) > 1 else "nothing"


def held_capabilities(report: Report) -> list[str]:
    """The capabilities that are effective at launch."""
    return [answer.question.name for answer in report.of_kind("cap") if answer.is_open and not answer.calls]


def is_root(report: Report) -> bool:
    """Whether the service is launched as uid 0."""
    return isinstance(report.launch, Launched) and report.launch.uid == 0


_CAN = {
    "mounts": "it can change mounts",
    "unmounts": "it can take mounts away",
    "uids": "it can take other user ids",
    "gids": "it can take other groups",
    "namespaces": "it can make namespaces",
    "user-namespaces": "it can make user namespaces",
    "capset": "it can make permitted capabilities effective",
    "calls": "it can make calls that ask for a capability",
}
# Lines that close a way whatever the service holds.
_CLOSING = {
    "mounts": "SystemCallFilter=~@mount", "unmounts": "SystemCallFilter=~@mount", "namespaces": "RestrictNamespaces=yes",
    "user-namespaces": "RestrictNamespaces=~user",
    "uids": "SystemCallFilter=~@setuid", "gids": "SystemCallFilter=~@setuid", "programs": "NoNewPrivileges=yes",
}  # fmt: skip


def told(cause: Cause) -> str:
    """What the service can do, and by what."""
    if cause.need.kind == "programs":
        first, *others = cause.programs
        who = f"programs as {first} give" if others else f"{first} gives"
        return f"{who} it privileges (no_new_privs is off)"
    return _CAN[cause.need.kind] + (f" ({cause.need.by} is held)" if cause.need.by else "")


def closed_by(cause: Cause, report: Report) -> list[str]:
    """Lines for the unit, each of which closes this way by itself."""
    key = "CapabilityBoundingSet" if is_root(report) else "AmbientCapabilities"
    drop = [f"{key}=~{cause.need.by}"] if cause.need.by.startswith("CAP_") else []
    closing = _CLOSING.get(cause.need.kind)
    return drop + ([closing] if closing else [])
