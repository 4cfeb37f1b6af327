"""Scripts that try what a report denies: `walk(chance, report, service)` gives one.

A walk goes on from the calls of an open answer, or from nothing, by random calls that change ids, capabilities, mounts, namespaces,
programs and rings. Behind each step it asks for what is denied, by every call that does it.
"""
from __future__ import annotations

import random
from typing import Callable, Mapping, Sequence

from lentsheep.asking import CAPABILITIES
from lentsheep.values import PATH_KINDS, Question, Report

from .world import MODES, NEW_MOUNTS, NEW_USER, SPACES

ALL = 2**41 - 1
# How many steps a walk has, and how many denied questions it asks for behind each.
STEPS, ASKED = 24, 20
HIGH = 2**32


class Walker:
    """What walks are made of: the calls of a table, the paths and ids of a site, and the places of a plan."""

    def __init__(
        self, chance: random.Random, abis: Sequence[tuple[str, set[str]]], rows: Sequence[str], places: Sequence[str], numbers: Mapping[str, int],
        is_native: bool,
    ):
        self.chance, self.abis, self.rows, self.places, self.numbers = chance, abis, list(rows), list(places), numbers
        # a call of another ABI ends the process where the native one alone may call
        self.native = 1 if is_native else 0.7
        # names of calls that end a process, and how many processes a walk may have so far
        self.ending: set[str] = set()
        self.processes = 1

    def named(self, name: str, rest: str = "", pid: int = 0) -> str:
        """A call by its name, of an ABI that has it, by some process."""
        known = [abi for abi in range(len(self.abis)) if name in self.abis[abi][1]]
        if not known or name in self.ending:
            return ""
        abi = known[0] if self.chance.random() < self.native else self.chance.choice(known)
        pid = pid or self.chance.choice((1, self.chance.randint(1, self.processes)))
        return f"{pid} {self.abis[abi][0] + ':' if abi else ''}{name} {rest}".rstrip()

    def path(self, row: str) -> str:
        """A path by which a row may be found."""
        folder = self.chance.choice(("", "", "", "/proc", self.chance.choice(self.places)))
        return (folder.rstrip("/") + row).rstrip("/") or "/"

    def asks(self, question: Question) -> str:
        """A call that asks for what a question names."""
        kind, name = question.kind, question.name
        if kind in PATH_KINDS:
            return self._for_path(kind, self.path(name))
        if kind in ("uid", "gid"):
            return self._for_id(kind, name)
        forms: dict[str, Callable[[str], str]] = {
            "call": self.named, "socket": self._for_socket, "ns": self._for_namespace, "cap": self._for_capability,
        }  # fmt: skip
        return forms[kind](name) if kind in forms else self._switch(kind)

    def _for_path(self, kind: str, path: str) -> str:
        flag = {"read": self.chance.choice((0, 2)), "write": self.chance.choice((1, 2))}.get(kind, 0)
        forms = {
            "see": [(name, path) for name in ("stat", "lstat", "newfstatat", "statx", "access", "faccessat")] + [("io_uring_enter", f"stat {path}")] * 3,
            "exec": [("execve", path), ("execveat", path)],
        }.get(kind) or [
            ("open", f"{path} 0 {flag}"), ("openat", f"{path} 0 0 {flag}"), ("openat2", f"{path} {flag}"), ("io_uring_enter", f"open {path} {flag}"),
            ("io_uring_enter", f"open {path} {flag}"),
        ] + [("creat", path), ("truncate", path)] * (kind == "write")  # fmt: skip
        return self.named(*self.chance.choice(forms))

    def _for_socket(self, family: str) -> str:
        number = self.numbers[family]
        forms = [
            ("socket", f"{number} 1"), ("socket", f"{number + HIGH} 1"), ("socketcall", f"{number} 1"), ("socketpair", f"{number} 1"),
            ("io_uring_enter", f"socket {number}"), ("io_uring_enter", f"socket {number}"),
        ]  # fmt: skip
        return self.named(*self.chance.choice(forms))

    def _for_namespace(self, kind: str) -> str:
        flag = SPACES[kind] | self.chance.choice((0, 0, NEW_USER, NEW_MOUNTS, SPACES["net"]))
        return self.named(*self.chance.choice([("unshare", str(flag)), ("clone", str(flag)), ("clone3", str(flag))]))

    def _for_capability(self, name: str) -> str:
        bit = 1 << CAPABILITIES.index(name)
        sets = self.chance.choice((f"{bit} {bit} 0", f"{bit} {bit} {bit}", f"{ALL} {ALL} 0", f"{ALL} {bit} {bit}"))
        return self.named("capset", sets)

    def _for_id(self, kind: str, number: str) -> str:
        forms = [(f"set{kind}", number), (f"setres{kind}", f"0xffffffff {number} 0xffffffff"), (f"setre{kind}", f"0xffffffff {number}")]
        forms += [(f"setres{kind}", f"{number} {number} {number}")] + [("setgroups", f"[{number}]")] * (kind == "gid")
        return self.named(*self.chance.choice(forms))

    def _switch(self, kind: str) -> str:
        forms = {
            "map-wx": [("mmap", "0 4096 6"), ("mmap", "0 4096 7")], "protect-x": [("mprotect", "0 0 4"), ("mprotect", "0 0 7"), ("pkey_mprotect", "0 0 5")],
            "shm-x": [("shmat", "0 0 32768"), ("shmat", "0 0 36864")],
            "realtime": [("sched_setscheduler", "0 1"), ("sched_setscheduler", f"0 {HIGH + 2}"), ("sched_setattr", "1"), ("sched_setattr", "2")],
            "personality": [("personality", "8"), ("personality", str(HIGH + 8)), ("personality", "0x400000")],
            "suid-bit": [("io_uring_enter", "mode 2048"), ("io_uring_enter", "mode 1517")] * 2 + [(name, "0 " * at + "2048") for name, at in MODES.items()]
            + [("open", f"{self.path(self.chance.choice(self.rows))} 0 {flags} 1024") for flags in (64, 0x410000, 0x410002, 65)]
            + [("openat", f"{self.path(self.chance.choice(self.rows))} 0 0 0x410001 2048"), ("creat", f"{self.path(self.chance.choice(self.rows))} 0 2048")],
        }  # fmt: skip
        return self.named(*self.chance.choice(forms[kind]))

    def step(self) -> str:
        """A call that may change something."""
        chance, row = self.chance, self.path(self.chance.choice(self.rows))
        target = self.path(chance.choice(["/", "/proc", *self.places, *self.rows]))
        bit = 1 << chance.randrange(41)
        number = chance.choice((0, 4, 33, 70, 61184))
        kinds = sum(chance.sample(list(SPACES.values()), chance.randint(0, 2)))
        forms = {
            "mount": f"{chance.choice(['/', '/', row, target])} {target} 0 0 0 {chance.choice((4096, 4096, 20480, 4128, 4129, 4130, 4136, 0, 1, 8))}",
            "umount2": f"{target} 0 {chance.choice((0, 2, 2))}", "unshare": str(kinds), "clone": str(kinds), "clone3": str(kinds), "fork": "", "vfork": "",
            "execve": row, "execveat": row, "setuid": str(number), "setgid": str(number), "setresuid": f"{number} {number} {number}",
            "setreuid": f"{number} {chance.choice((0, 33))}", "setregid": f"{number} {number}", "setgroups": f"[{number}]",
            "capset": chance.choice((f"{ALL} {ALL} 0", f"{ALL} {ALL} {ALL}", f"{bit} {bit} {bit}", f"{ALL - bit} {ALL - bit} {ALL - bit}", "0 0 0")),
            "prctl": chance.choice(("8 1", "38 1", f"24 {chance.randrange(41)}", f"47 2 {chance.randrange(41)}", "65 1", "47 4")),
            "seccomp": chance.choice(("060000000000ff7f 1", "- 1", "200000000000000015000001290000000600000001000500060000000000ff7f 1")),
            "io_uring_setup": "", "exit": "", "sched_setattr": "0",
        }  # fmt: skip
        weights = {"mount": 8, "umount2": 3, "execve": 3, "io_uring_setup": 4, "fork": 2, "clone": 2, "unshare": 2, "capset": 3, "exit": 0.3, "seccomp": 0.5}
        name = chance.choices(list(forms), [weights.get(it, 1) for it in forms])[0]
        if name in ("fork", "vfork", "clone", "clone3"):
            self.processes = min(self.processes + 1, 6)
        return self.named(name, forms[name], pid=max(2, self.processes) if name == "exit" else 0)


def trials(walker: Walker) -> list[tuple[str, list[str]]]:
    """The names of the native calls, each with calls that a child makes: those that are killed end a process in a walk."""
    names = sorted(walker.abis[0][1] - {"exit", "exit_group", "fork", "vfork", "clone", "clone3"})
    return [(name, ["1 fork", f"{at} {name} {_PAYLOADS.get(name, '')}".rstrip()]) for at, name in enumerate(names, 2)]


# What calls carry in a trial.
_PAYLOADS = {
    **dict.fromkeys("stat lstat newfstatat statx access faccessat open openat creat truncate execve execveat umount2".split(), "/"),
    "openat2": "/ 0", "mount": "/ /", "capset": "0 0 0", "setgroups": "[]", "seccomp": "-", "socketcall": "1", "clone3": "0", "sched_setattr": "0",
    "io_uring_enter": "stat /",
}  # fmt: skip


def walk(walker: Walker, report: Report) -> list[str]:
    """The calls of a walk."""
    chance, calls, walker.processes = walker.chance, [], 1
    denied = [answer.question for answer in report.answers if not answer.is_open]
    opened = [answer for answer in report.answers if answer.is_open and answer.calls]
    for _ in range(STEPS):
        if opened and chance.random() < 0.35:
            calls += [call.text for call in chance.choice(opened).calls]
        else:
            calls.append(walker.step())
        calls += [walker.asks(question) for question in chance.sample(denied, min(ASKED, len(denied)))]
    return [call for call in calls if call]
