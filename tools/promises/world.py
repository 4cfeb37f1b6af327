"""What a replayed script shows: which questions of a report its done calls reach.

`World(plan, rows, table, has_key)` follows the replies of a script, and `take(call, value)` gives the questions that a done call reaches.
It knows the rules of the manual pages (path_resolution(7), mount(2), unshare(2), capabilities(7) ..), and nothing of why a call is
refused: that a call is done is the program's word. What it gives is reached for sure; execve(2) may give ids and capabilities that it
does not see.
"""
from __future__ import annotations

from typing import Iterable, Iterator, NamedTuple, Optional

from lentsheep.asking import CAPABILITIES
from lentsheep.calls import Call
from lentsheep.places import is_below
from lentsheep.table import Table
from lentsheep.values import Plan

LOW = 2**32 - 1
NO_ID = LOW
SEES = frozenset("stat lstat newfstatat statx access faccessat faccessat2".split())
# The argument that is a mode.
MODES = {"chmod": 1, "fchmod": 1, "fchmodat": 2, "fchmodat2": 2, "mkdir": 1, "mkdirat": 2, "mknod": 1, "mknodat": 2}
SPACES = {"mnt": 0x20000, "cgroup": 0x2000000, "uts": 0x4000000, "ipc": 0x8000000, "user": 0x10000000, "pid": 0x20000000, "net": 0x40000000}
NEW_MOUNTS, NEW_USER = SPACES["mnt"], SPACES["user"]
OTHER_SPACES = sum(SPACES.values()) - NEW_USER
REMOUNT_BIND, BIND, RECURSIVE = 4128, 4096, 16384
SET_ID, MAKES = 0xC00, 0x400040


class Entry(NamedTuple):
    """A mount: its place, and the host's path that it shows there, None where it shows no file of the host."""

    place: str
    source: Optional[str]


class Process(NamedTuple):
    """A process: the number of its mount table, and whether it is in the first user namespace."""

    table: int
    is_first: bool


def joined(folder: str, rest: str) -> str:
    """A path below a folder, by what follows the folder."""
    return (folder.rstrip("/") + rest) or "/"


def rest_of(place: str, path: str) -> str:
    """What of a path follows a place that it is below."""
    return path[len(place.rstrip("/")) :].rstrip("/")


class World:
    """The processes of a service and their mounts, as far as replies show them."""

    def __init__(self, plan: Plan, rows: Iterable[str], table: Table, has_key: bool):
        self.rows, self.table, self.has_key = {"/", "/proc", *rows}, table, has_key
        self.tables: list[list[Entry]] = [[Entry(it.place, it.source if it.what == "host" else None) for it in plan.mounts] or [Entry("/", "/")]]
        self.processes = {1: Process(0, True)}

    def at(self, table: list[Entry], path: str) -> Optional[int]:
        """The number of the mount that a path is on: the last one whose place leads to it."""
        return next((at for at in reversed(range(len(table))) if is_below(path, table[at].place)), None)

    def shown(self, pid: int, path: str) -> Optional[str]:
        """The host's path of what a process finds at a path."""
        table = self.tables[self.processes[pid].table]
        at = self.at(table, path)
        entry = table[at] if at is not None else None
        return joined(entry.source, rest_of(entry.place, path)) if entry and entry.source is not None else None

    def take(self, call: Call, value: int) -> list[str]:
        """The questions that a call reaches, which is done with this value; the world is as after it then."""
        if call.pid not in self.processes:
            return ["a call of no process is done"]
        found = list(self._reached(call))
        self._change(call, value)
        return found

    def end(self, pid: int) -> None:
        """A process has ended."""
        self.processes.pop(pid, None)

    def exposed(self, pid: int, rows: Iterable[str]) -> Iterator[str]:
        """Those of these rows of the host that a process finds at some path."""
        if pid in self.processes:
            table = self.tables[self.processes[pid].table]
            for row in rows:
                paths = (joined(it.place, rest_of(it.source, row)) for it in table if it.source is not None and is_below(row, it.source))
                if any(self.shown(pid, path) == row for path in paths):
                    yield row

    def _reached(self, call: Call) -> Iterator[str]:
        yield f"call {call.name}"
        for wish, path in asked_paths(call):
            found = self.shown(call.pid, path)
            if found in self.rows:
                yield f"{wish} {found}"
        family = family_of(call, self.has_key)
        yield from (f"socket {self.table.families[it]}" for it in (family,) if it in self.table.families)
        yield from (f"ns {name}" for name, flag in SPACES.items() if spaces_of(call) & flag)
        yield from switches(call, self.has_key)
        if self.processes[call.pid].is_first:
            yield from (f"cap {name}" for name in self._capabilities(call, family))
            yield from ids(call)

    def _capabilities(self, call: Call, family: Optional[int]) -> Iterator[str]:
        """Capabilities that are effective for sure when the call is done, or after it."""
        name = call.name
        if name == "capset":
            yield from (it for at, it in enumerate(CAPABILITIES) if int(call.payload[1], 0) >> at & 1)
        flags = spaces_of(call)
        if name in ("mount", "umount2") or flags & OTHER_SPACES and not flags & NEW_USER:
            yield "CAP_SYS_ADMIN"
        if name == "setgroups":
            yield "CAP_SETGID"
        if name == "prctl" and word(call, 0) == 24:
            yield "CAP_SETPCAP"
        if self.has_key and name == "sched_setattr":
            yield "CAP_SYS_NICE"
        asked = self.table.capabilities.get(self.table.families.get(family, "") if family is not None else name)
        if asked:
            yield asked

    def _change(self, call: Call, value: int) -> None:
        process, flags = self.processes[call.pid], spaces_of(call)
        if call.name in ("fork", "vfork", "clone", "clone3"):
            self.processes[value] = self._moved(process, flags)
        elif call.name == "unshare":
            self.processes[call.pid] = self._moved(process, flags)
        elif call.name in ("exit", "exit_group"):
            self.end(call.pid)
        elif call.name in ("mount", "umount2"):
            table = self.tables[process.table]
            self.tables[process.table] = self._mounted(table, call) if call.name == "mount" else self._unmounted(table, call.payload[0])

    def _moved(self, process: Process, flags: int) -> Process:
        """A process with namespaces of its own, by the flags that ask for them."""
        table = process.table
        if flags & NEW_MOUNTS:
            self.tables.append(list(self.tables[table]))
            table = len(self.tables) - 1
        return Process(table, process.is_first and not flags & NEW_USER)

    def _mounted(self, table: list[Entry], call: Call) -> list[Entry]:
        (source, target), flags = call.payload, word(call, 3)
        if flags & REMOUNT_BIND == REMOUNT_BIND:
            return table
        if not flags & BIND:
            return [*table, Entry(target, None)]
        at = self.at(table, source)
        shown = table[at].source
        new = [Entry(target, joined(shown, rest_of(table[at].place, source)) if shown is not None else None)]
        if flags & RECURSIVE:
            below = (it for it in table[at + 1 :] if is_below(it.place, source) and it.place != source)
            new += [Entry(joined(target, rest_of(source, it.place)), it.source) for it in below]
        return [*table, *new]

    def _unmounted(self, table: list[Entry], path: str) -> list[Entry]:
        at = self.at(table, path)
        return table[:at] + [it for it in table[at + 1 :] if not (is_below(it.place, path) and it.place != path)]


def word(call: Call, at: int) -> int:
    """The low half of an argument."""
    return call.args[at] & LOW if at < len(call.args) else 0


def asked_paths(call: Call) -> Iterator[tuple[str, str]]:
    """What a call does to which path: see, read, write or exec."""
    name, flags = call.name, None
    path = call.paths[0] if call.paths else ""
    if name in SEES or call.request == "stat":
        yield "see", path
    elif name in ("creat", "truncate"):
        yield "write", path
    elif name in ("execve", "execveat") and path:
        yield "exec", path
    elif name in ("open", "openat"):
        flags = word(call, 1 if name == "open" else 2)
    elif name == "openat2" and call.payload:
        flags = int(call.payload[1])
    elif call.request == "open":
        flags = int(call.payload[2])
    if flags is not None:
        yield from (("read", path),) if flags & 3 in (0, 2) else ()
        yield from (("write", path),) if flags & 3 in (1, 2) else ()


def family_of(call: Call, has_key: bool) -> Optional[int]:
    """The family whose sockets a call makes."""
    if call.request == "socket":
        return int(call.payload[1])
    if call.name == "socket":
        return word(call, 0)
    if call.name == "socketcall" and word(call, 0) == 1:
        return int(call.payload[0])
    return word(call, 0) if call.name == "socketpair" and has_key and word(call, 0) == 1 else None


def spaces_of(call: Call) -> int:
    """The flags by which a call makes namespaces."""
    if call.name == "clone3":
        return int(call.payload[0]) if call.payload else 0
    return word(call, 0) & (OTHER_SPACES | NEW_USER) if call.name in ("clone", "unshare") else 0


def switches(call: Call, has_key: bool) -> Iterator[str]:
    """What a process does to itself, and set-id bits."""
    name = call.name
    if name == "mmap" and word(call, 2) & 6 == 6:
        yield "map-wx"
    if name in ("mprotect", "pkey_mprotect") and word(call, 2) & 4:
        yield "protect-x"
    if name == "shmat" and word(call, 2) & 0x8000:
        yield "shm-x"
    policy = int(call.payload[0]) if name == "sched_setattr" and call.payload else word(call, 1) if name == "sched_setscheduler" else 0
    if policy in (1, 2):
        yield "realtime"
    if name == "personality" and word(call, 0) not in (0, LOW):
        yield "personality"
    mode = word(call, MODES[name]) if name in MODES else 0
    if has_key and name in ("open", "openat"):
        at = 1 if name == "open" else 2
        mode = word(call, at + 1) if word(call, at) & MAKES else 0
    elif has_key and name == "creat":
        mode = word(call, 1)
    elif call.request == "mode":
        mode = int(call.payload[1])
    if mode & SET_ID:
        yield "suid-bit"


def ids(call: Call) -> Iterator[str]:
    """The effective ids that a process has after a call, and its groups."""
    for kind in ("uid", "gid"):
        if call.name == f"set{kind}":
            yield f"{kind} {word(call, 0)}"
        if call.name in (f"setres{kind}", f"setre{kind}") and word(call, 1) != NO_ID:
            yield f"{kind} {word(call, 1)}"
    if call.name == "setgroups":
        yield from (f"gid {it}" for it in call.payload[0].strip("[]").split(",") if it)
