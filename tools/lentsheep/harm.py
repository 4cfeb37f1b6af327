"""Root causes by what they give: what changes the kernel first, then mounts, disks, privileges, the machine, and other ids.

`groups(causes)` puts together the causes that give the same. `closing(group, report, tried)` are the lines that close all of its
answers: those of which a run of `effect` said so.
"""
from __future__ import annotations

from collections import Counter
from typing import Mapping, Optional, Sequence

from .causes import Cause, closed_by, is_root, told
from .record import dataclass, replace
from .unit_text import Said
from .values import Answer, Report

#: What a run of `effect` closes, by the line that was tried.
Tried = Mapping[str, "frozenset[str]"]

KERNEL = frozenset({"CAP_SYS_MODULE", "CAP_SYS_RAWIO", "CAP_SYS_BOOT", "CAP_BPF"})
DISKS = frozenset({"swapon", "swapoff", "open_by_handle_at", "quotactl"})
# What a group gives, in the order in which groups are told, and lines that may close one besides those of its causes.
_KINDS = {
    "mounts": "mounts", "unmounts": "mounts", "programs": "privileges", "capset": "privileges", "namespaces": "privileges",
    "user-namespaces": "privileges", "uids": "ids", "gids": "ids",
}  # fmt: skip
ORDER = ("kernel", "mounts", "disks", "privileges", "machine", "ids")
_CALLS = {
    "kernel": "it can change the kernel or start another", "disks": "it can reach disks beside their files",
    "machine": "it can make calls that ask for a capability",
}  # fmt: skip
_FILTERS = {"kernel": "SystemCallFilter=~@module @raw-io @reboot"}
# Keys that make up a sandbox, of those that are read.
SANDBOX_KEYS = (
    "NoNewPrivileges", "CapabilityBoundingSet", "SystemCallFilter", "RestrictAddressFamilies", "RestrictNamespaces", "RestrictRealtime",
    "RestrictSUIDSGID", "LockPersonality", "MemoryDenyWriteExecute", "ProtectSystem", "ProtectHome", "PrivateTmp", "PrivateDevices",
    "ProtectClock", "ProtectControlGroups", "ProtectHostname", "ProtectKernelLogs", "ProtectKernelModules", "ProtectKernelTunables",
    "ReadOnlyPaths", "InaccessiblePaths", "NoExecPaths", "TemporaryFileSystem", "BindReadOnlyPaths", "DynamicUser",
    "SystemCallArchitectures", "PrivateMounts",
)  # fmt: skip
#: Lines of which those that close most are told of a unit that sets no key of a sandbox.
FIRST_KEYS = (
    "CapabilityBoundingSet=", "SystemCallFilter=@system-service", "RestrictAddressFamilies=AF_UNIX AF_INET AF_INET6",
    "RestrictNamespaces=yes", "PrivateDevices=yes", "ProtectHome=yes",
)  # fmt: skip


@dataclass(frozen=True)
class Group:
    """Causes that give the same."""

    gives: str
    causes: tuple[Cause, ...]

    @property
    def count(self) -> int:
        """How many answers they have."""
        return sum(cause.count for cause in self.causes)

    @property
    def answers(self) -> list[Answer]:
        """These answers."""
        return [answer for cause in self.causes for answer in cause.answers]

    @property
    def kinds(self) -> dict[str, int]:
        """How many of them are of each kind."""
        found: dict[str, int] = {}
        for cause in self.causes:
            for kind, count in cause.kinds.items():
                found[kind] = found.get(kind, 0) + count
        return found

    @property
    def example(self) -> Answer:
        """One of them, of the cause that has most."""
        return max(self.causes, key=lambda cause: cause.count).example

    @property
    def told(self) -> str:
        """What the service can do, and by what."""
        if len(self.causes) == 1 and not (self.causes[0].need.kind == "calls" and self.gives in ("kernel", "disks")):
            return told(self.causes[0])
        held = sorted(cause.need.by for cause in self.causes)
        listed = ", ".join(held[:-1]) + " and " * (len(held) > 1) + held[-1]
        return f"{_CALLS[self.gives]} ({listed} {'is' if len(held) == 1 else 'are'} held)"


def gives(cause: Cause, answer: Answer) -> str:
    """What a cause gives by an answer."""
    if cause.need.kind != "calls":
        return _KINDS.get(cause.need.kind, "machine")
    if cause.need.by in KERNEL:
        return "kernel"
    return "disks" if answer.question.kind == "call" and answer.question.name in DISKS else "machine"


def _parted(cause: Cause) -> list[tuple[str, Cause]]:
    """A cause by what it gives by its answers."""
    parts: dict[str, list[Answer]] = {}
    for answer in cause.answers:
        parts.setdefault(gives(cause, answer), []).append(answer)
    if len(parts) == 1:
        return [(next(iter(parts)), cause)]
    return [
        (kind, replace(
            cause, answers=tuple(answers), count=len(answers), kinds=dict(Counter(it.question.kind for it in answers)),
            example=cause.example if cause.example in answers else answers[0],
        ))
        for kind, answers in parts.items()
    ]  # fmt: skip


def groups(causes: Sequence[Cause]) -> list[Group]:
    """The causes by what they give; those of calls that give the same are one, and so is every other by itself.

    Of what gives the same those of most answers come first; other ids come last, each of the two kinds as one.
    """
    calls: dict[str, list[Cause]] = {}
    found = []
    for cause in causes:
        if cause.need.kind != "calls":
            found.append(Group(gives(cause, cause.example), (cause,)))
            continue
        for kind, part in _parted(cause):
            calls.setdefault(kind, []).append(part)
    found += [Group(kind, tuple(members)) for kind, members in calls.items()]
    return sorted(found, key=lambda group: (ORDER.index(group.gives), -group.count))


def candidates(group: Group, report: Report) -> list[str]:
    """Lines that may close a group."""
    bounding = "CapabilityBoundingSet=~" if is_root(report) else "AmbientCapabilities=~"
    held = sorted({cause.need.by for cause in group.causes if cause.need.by.startswith("CAP_")})
    lines = [bounding + " ".join(held)] if held else []
    own = [line for cause in group.causes for line in closed_by(cause, report) if not line.startswith(bounding)]
    return list(dict.fromkeys([*lines, *own, *([_FILTERS[group.gives]] if group.gives in _FILTERS else [])]))


def closing(group: Group, report: Report, tried: Optional[Tried]) -> list[str]:
    """The lines that close all answers of a group by themselves; where nothing was tried, those that may."""
    lines = candidates(group, report)
    if tried is None:
        return lines
    asked = {answer.question.text for answer in group.answers}
    return [line for line in lines if asked <= tried.get(line, frozenset())]


def has_sandbox(said: Said) -> bool:
    """Whether a unit sets a key that makes up a sandbox."""
    return any(said.lines(key) or said.values.get(("Service", key)) for key in SANDBOX_KEYS)


def first_keys(tried: Optional[Tried]) -> list[tuple[str, int]]:
    """The three lines that close most by themselves, of a unit without a sandbox, with how many answers each closes."""
    counts = [(line, len((tried or {}).get(line, ()))) for line in FIRST_KEYS]
    return sorted((it for it in counts if it[1]), key=lambda it: -it[1])[:3]
