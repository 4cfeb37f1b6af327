"""A unit as it was judged: what its text says, its report and plan, and what is known of its table of calls and its host.

Partings ask it what the report says where there is one, and else what the text comes to.
"""
from __future__ import annotations

from functools import cached_property
from typing import Iterable, Mapping, Optional

from .followed import FOLLOWED
from .host import Host
from .parting_keys import mounting
from .parting_lists import ALL, capabilities_here, more_capabilities, words_of
from .places import is_below
from .record import dataclass, field
from .table import Table, read_groups
from .unit_text import Said, forbids_namespace
from .values import Answer, Launched, Plan, Report

#: The calls by which a question of a kind is done; where a filter refuses all of them, the answer is denied whatever a mount says.
DOING = {
    "see": ("stat", "lstat", "newfstatat", "statx", "access", "faccessat"), "read": ("open", "openat"),
    "write": ("open", "openat", "creat", "truncate"), "exec": ("execve",), "ns": ("unshare", "clone"),
    "uid": ("setuid", "setresuid"), "gid": ("setgid", "setresgid", "setgroups"),
    "suid-bit": ("chmod", "fchmod", "fchmodat", "mkdir", "mkdirat", "mknod", "mknodat"),
}  # fmt: skip

#: The calls that the kernel of the key `systemd` has besides: `other-calls`.
ALSO_DOING = {
    "read": ("openat2",), "write": ("openat2",), "exec": ("execveat",), "ns": ("clone3",), "uid": ("setreuid",), "gid": ("setregid",),
    "suid-bit": ("open", "openat", "creat", "fchmodat2"),
}  # fmt: skip
#: What a request to a ring does, by a site with the key: `io-uring`. A site that has no rings is not told apart.
BY_RING = ("see", "read", "write", "suid-bit")


@dataclass(frozen=True)
class Judged:
    """What partings look at. Without a report they go by the text."""

    said: Said
    report: Optional[Report] = None
    plan: Optional[Plan] = None
    table: Table = field(default_factory=Table)
    host: Host = field(default_factory=Host)
    #: whether the unit's files are those that systemd reads of a root, drop-ins of other names too (tools/link-unit)
    is_linked: bool = False

    def follows(self, name: str) -> bool:
        """Whether the program judges by the site's version of systemd, and as it does where the base profile parts from it."""
        return self.host.profile is not None and name in FOLLOWED

    @cached_property
    def _verdicts(self) -> dict[tuple[str, str], bool]:
        answers = self.report.answers if self.report else ()
        return {(it.question.kind, it.question.name): it.is_open for it in answers}

    def is_open(self, kind: str, name: str = "") -> Optional[bool]:
        """How the report answers a question; None where it does not ask it."""
        return self._verdicts.get((kind, name))

    @property
    def has_answers(self) -> bool:
        """Whether there is a report with answers."""
        return bool(self._verdicts)

    @cached_property
    def is_root(self) -> bool:
        """Whether the service runs as root."""
        if self.report and isinstance(self.report.launch, Launched):
            return self.report.launch.uid == 0
        return self.said.last("User") in ("", "root", "0") and not self.said.is_on("DynamicUser")

    def holds(self, capability: str) -> bool:
        """Whether the service can have a capability effective."""
        found = self.is_open("cap", capability)
        if found is not None:
            return found
        bounding = capabilities_here(self.said.values.get(("Service", "CapabilityBoundingSet"), []), ALL)
        return capability in bounding and (self.is_root or capability in self.said.words("AmbientCapabilities"))

    @cached_property
    def _groups(self) -> dict[str, frozenset[str]]:
        built_in, own = read_groups(252 if self.host.systemd == 252 else 257, self.table.abis), self.table.groups
        return {name: built_in.get(name, frozenset()) | own.get(name, frozenset()) for name in {**built_in, **own}}

    @cached_property
    def _listed_calls(self) -> Optional[tuple[bool, frozenset[str]]]:
        return self.listed_calls()

    def listed_calls(self, groups: Optional[Mapping[str, frozenset[str]]] = None) -> Optional[tuple[bool, frozenset[str]]]:
        """Whether SystemCallFilter= denies, and the calls of its list; None where there is none.

        The first line fixes what the list does. Groups are those given, else those of the table with what systemd's have besides.
        """
        lines = self.said.lines("SystemCallFilter")
        if not lines:
            return None
        groups = groups or self._groups
        denies = lines[0].startswith("~")
        calls: frozenset[str] = frozenset() if denies else groups.get("@default", frozenset())
        for line in lines:
            for word in (word.partition(":")[0] for word in words_of(line)):
                named = groups.get(word, frozenset()) if word.startswith("@") else frozenset([word])
                calls = calls | named if line.startswith("~") == denies else calls - named
        return denies, calls

    def passes(self, *calls: str) -> bool:
        """Whether SystemCallFilter= lets all of these calls pass."""
        found = self._listed_calls
        return found is None or all((call in found[1]) != found[0] for call in calls)

    def refuses_doing(self, kind: str) -> bool:
        """Whether SystemCallFilter= refuses every call by which questions of a kind are done."""
        also = ALSO_DOING.get(kind, ()) if self.follows("other-calls") else ()
        by_ring = kind in BY_RING and self.follows("io-uring") and self.passes("io_uring_setup", "io_uring_enter")
        return kind in DOING and not by_ring and not any(self.passes(call) for call in (*DOING[kind], *also))

    def lacks_capability(self, answer: Answer) -> bool:
        """Whether a call or a family asks for a capability that the service cannot have, there either."""
        asked = self.table.capabilities.get(answer.question.name)
        may_have = not self.follows("capability-words") and bool(more_capabilities(self.said))
        return asked is not None and not self.holds(asked) and not may_have

    def forbids_namespace(self, kind: str) -> bool:
        """Whether RestrictNamespaces= refuses a type."""
        return forbids_namespace(self.said, kind)

    @cached_property
    def _places(self) -> list[str]:
        mounts = self.plan.mounts if self.plan else ()
        return sorted((mount.place for mount in mounts), key=len, reverse=True)

    def place_of(self, path: str) -> str:
        """The place of the mount that a path lies in."""
        return next((place for place in self._places if is_below(path, place)), "/")

    def is_left_to(self, path: str, tops: Iterable[str]) -> bool:
        """Whether a path lies below one of these and no mount of the plan stands there or between."""
        return any(is_below(path, top) and not is_below(self.place_of(path), top) for top in tops)

    @property
    def has_mounts(self) -> bool:
        """Whether the service has mounts of its own: by the plan, and without one by its keys."""
        return len(self.plan.mounts) > 1 if self.plan else bool(mounting(self.said))
