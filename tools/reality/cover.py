"""Which parting that is told of a unit covers a question that is denied here and was reached there, by the way it was reached.

A parting of `tools/lentsheep` names the answers that it touches. It covers a question of these, where its way is one that it speaks of.
"""
from __future__ import annotations

import re
from typing import Iterable

from lentsheep.partings import Direction, Parting
from lentsheep.values import PATH_KINDS, Question

#: The partings that speak of a way; all others speak of what is done as the question says.
_BY_WAY: dict[str, tuple[str, ...]] = {
    "i386": ("architectures", "i386-calls", "abi-names"),
    "x32": ("architectures",),
    "high-bits": ("families-deny-bits",),
    "socketpair": ("socketpair",),
    "io_uring": ("io-uring",),
    "openat2": ("other-calls",),
    "execveat": ("other-calls",),
    "clone3": ("other-calls",),
    "setreuid": ("other-calls",),
    "proc-root": ("outside-roots",),
    "peer-root": ("outside-roots",),
    "mount-namespace": ("mount-calls", "outside-roots"),
    "handle": ("file-handles",),
    "unmount": ("mount-calls",),
    "bind": ("mount-calls",),
    "remount": ("mount-calls",),
    "tree": ("mount-calls",),
    "user-namespace": ("user-namespaces",),
    "set-id": ("nnp-from-filters",),
    "file-capabilities": ("nnp-from-filters",),
    "tmpfile": ("tmpfile-bits",),
    "sched_setattr": ("sched-setattr",),
    "personality": ("wx-programs",),
    "program": ("wx-programs",),
    "memfd": ("wx-programs", "other-calls", "memfd-programs"),
    "shm": ("wx-programs",),
    "executable-already": ("mdwe-prctl",),
}
# Names of a way that speak of what is done directly as well; and asks-manager, which speaks of another process.
_ALSO_DIRECT = {"nnp-from-filters", "mdwe-prctl", "families-deny-bits"}
_OF_WAYS = {name for names in _BY_WAY.values() for name in names} - _ALSO_DIRECT | {"asks-manager"}

#: Of what the plan says otherwise: the partings that may be why, with the paths that they speak of.
_OF_PLAN = (
    ("run-writable", r"/run(/|$)"), ("strict-homes", r"/(home|root|run/user)(/|$)"),
    ("home-tmpfs", r"/(home|root|run/user)(/|$)"),
    ("tunables-cgroup", r"/sys/fs/(cgroup|selinux)(/|$)"), ("sys-writable", r"/sys(/|$)"),
    ("private-folders", r"/var/(lib|cache|log)/private(/|$)"), ("memory-pressure", r"/sys/fs/cgroup(/|$)"), ("device-folders", r"/dev(/|$)"),
    ("device-programs", r"/dev/(pts|shm|mqueue|hugepages)(/|$)"), ("device-log", r"/dev/log$"),
    ("shared-tmp", r"/(var/)?tmp(/|$)"), ("disconnected-tmp", r"/(var/)?tmp(/|$)"),
    *((name, r"") for name in ("old-names-open", "flags-apart", "linked-folders", "beaten", "folders-open", "folders-shown")),
)  # fmt: skip


#: Of calls whose arguments are filtered: the partings by which more of them pass.
_OF_NUMBERS = {
    "socket": ("families-none", "family-names"),
    **dict.fromkeys(("unshare", "clone", "setns"), ("namespace-lines",)),
}  # fmt: skip


class Told:
    """The partings that views tell of a unit, and the names of those that its text meets, with answers or without."""

    def __init__(self, partings: Iterable[Parting], judges_i386: bool, by_text: Iterable[str] = ()):
        self._judges_i386 = judges_i386
        self._each = [(parting.name, parting.direction, frozenset(getattr(parting, "answers", None) or ())) for parting in partings]
        self.names = {name for name, _, _ in self._each}
        self._of_plan = self.names.union(by_text)

    def cover(self, question: Question, way: str) -> str | None:
        """The parting that covers a question that was reached this way; None where there is none."""
        # a capability in a user namespace of one's own
        if way == "user-namespace" and question.kind == "cap":
            return self.first("user-namespaces")
        touching = self.near(question)
        speaking = [name for name in touching if name in _BY_WAY.get(way, ())]
        if way not in _BY_WAY or (way == "i386" and self._judges_i386):
            direct = [name for name in touching if name not in _OF_WAYS]
            speaking += sorted(direct, key=lambda name: name in _ALSO_DIRECT)
        if speaking:
            return speaking[0]
        # one opens the question, and another one the way
        others, name = [name for name in touching if name not in _OF_WAYS], self.first(*_BY_WAY.get(way, ()))
        return f"{others[0]} with {name}" if others and name else None

    def near(self, question: Question) -> tuple[str, ...]:
        """The partings that touch a question without speaking of the way."""
        return tuple(name for name, direction, answers in self._each if direction != Direction.OPEN_HERE and question in answers)

    def of_plan(self, path: str, is_linked: bool = False) -> str | None:
        """The parting by which a path, which may lead through a link, may be open there that the plan closes."""
        found = next((name for name, pattern in _OF_PLAN if name in self._of_plan and re.match(pattern, path)), None)
        return found or (self.first("links") if is_linked else None)

    def of_number(self, call: str) -> str | None:
        """The parting by which a call passes there that the filters here refuse."""
        return self.cover(Question("call", call), "plain") or self.first(*_OF_NUMBERS.get(call, ()))

    def first(self, *wanted: str) -> str | None:
        """The first of some names that is told."""
        return next((name for name in wanted if name in self.names), None)

    def closed_by(self, question: Question, errno: int) -> str | None:
        """The parting that says why something open here is refused there."""
        for name, direction, answers in self._each:
            if direction != Direction.DENIED_HERE and question in answers:
                return name
        if question.kind in PATH_KINDS and errno in (1, 13) and "file-modes" in self.names:
            return "file-modes"
        if question.kind in ("cap", "uid", "gid") and "nnp-from-more" in self.names:
            return "nnp-from-more"
        return "not-judged" if question.kind in PATH_KINDS and "not-judged" in self.names else None
