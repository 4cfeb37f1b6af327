"""What to write in the place of a question that a report does not ask, and rows for paths that are asked of.

`hint(text, folder)` says why a question of `why` or of a file of `tighten` is none, and which one may be meant; it is empty where
nothing is wrong with the words. `row_of(question, site, root)` is the row that a site lacks for it.
"""
from __future__ import annotations

import os
import re
from typing import Sequence

from .nearest import nearest
from .record import dataclass, field
from .report import read_question
from .table import Table
from .values import PATH_KINDS, SWITCHES, Question

NAMED = ("call", "socket", "ns", "cap", "uid", "gid")
VERDICTS = ("denied", "open", "closed", "opened", "by", "deny", "allow")
NAMESPACES = ("cgroup", "ipc", "mnt", "net", "pid", "user", "uts")
_OTHER_NAMES = {"mount": "mnt", "network": "net", "hostname": "uts"}
# What is asked in the place of a call that the model of the kernel knows.
_INSTEAD = {
    **dict.fromkeys("stat lstat newfstatat statx access faccessat faccessat2".split(), "see PATH"),
    **dict.fromkeys("open openat openat2 creat truncate".split(), "read PATH or write PATH"),
    **dict.fromkeys("execve execveat".split(), "exec PATH"),
    **dict.fromkeys("setuid setreuid setresuid setfsuid".split(), "uid N"),
    **dict.fromkeys("setgid setregid setresgid setfsgid setgroups".split(), "gid N"),
    **dict.fromkeys("unshare setns clone clone3".split(), "ns TYPE, as ns user"),
    **dict.fromkeys("mmap".split(), "map-wx"), **dict.fromkeys("mprotect pkey_mprotect".split(), "protect-x"),
    **dict.fromkeys("sched_setscheduler sched_setattr".split(), "realtime"),
    **dict.fromkeys("io_uring_setup io_uring_enter".split(), "socket FAMILY, read PATH or suid-bit"),
    **dict.fromkeys("chmod fchmod fchmodat fchmodat2 mkdir mkdirat mknod mknodat".split(), "suid-bit"),
    "socket": "socket FAMILY, as socket AF_INET", "socketcall": "socket FAMILY, as socket AF_INET", "capset": "cap NAME",
    "shmat": "shm-x", "personality": "personality",
}  # fmt: skip
_ROW = re.compile(r'\bpath\s*=\s*"((?:[^"\\]|\\.)*)"\s*[,\n]\s*kind\s*=\s*"([a-z]+)"')
_ID = re.compile(r'\bname\s*=\s*"([^"\\]*)"\s*[,\n]\s*(uid|gid)\s*=\s*([0-9]+)')
_CAPABILITY_NAMES = """
    CHOWN DAC_OVERRIDE DAC_READ_SEARCH FOWNER FSETID KILL SETGID SETUID SETPCAP LINUX_IMMUTABLE NET_BIND_SERVICE NET_BROADCAST
    NET_ADMIN NET_RAW IPC_LOCK IPC_OWNER SYS_MODULE SYS_RAWIO SYS_CHROOT SYS_PTRACE SYS_PACCT SYS_ADMIN SYS_BOOT SYS_NICE
    SYS_RESOURCE SYS_TIME SYS_TTY_CONFIG MKNOD LEASE AUDIT_WRITE AUDIT_CONTROL SETFCAP MAC_OVERRIDE MAC_ADMIN SYSLOG WAKE_ALARM
    BLOCK_SUSPEND AUDIT_READ PERFMON BPF CHECKPOINT_RESTORE
"""
CAPABILITIES = tuple(f"CAP_{name}" for name in _CAPABILITY_NAMES.split())


@dataclass(frozen=True)
class Site:
    """What a site.toml says of paths and ids."""

    #: the kind of each row by its path
    rows: dict[str, str] = field(default_factory=dict)
    #: the names of users and groups with their ids
    ids: dict[tuple[str, str], int] = field(default_factory=dict)


def read_site(text: str) -> Site:
    """The rows and ids of a text."""
    rows = {_plain(path): kind for path, kind in _ROW.findall(text)}
    ids = {(kind, name): int(number) for name, kind, number in _ID.findall(text)}
    return Site({"/": "dir", "/proc": "dir", **rows}, ids)


def _plain(text: str) -> str:
    """A basic string of TOML without its escapes."""
    if "\\" not in text:
        return text
    shorts = {"b": "\b", "t": "\t", "n": "\n", "f": "\f", "r": "\r", '"': '"', "\\": "\\"}
    return re.sub(
        r"\\(?:u([0-9A-Fa-f]{4})|U([0-9A-Fa-f]{8})|(.))",
        lambda found: shorts.get(found[3], found[3]) if found[3] else chr(int(found[1] or found[2], 16)), text,
    )  # fmt: skip


def calls_of(text: str) -> frozenset[str]:
    """The names of the calls of a calls.txt."""
    return frozenset(words[1] for words in (line.split() for line in text.split("\n")) if words[:1] == ["call"] and len(words) > 1)


def hint(text: str, site: Site, table: Table, calls: frozenset[str], unit: str) -> str:
    """Why a question is none, and what to write; empty where these words are a question that a report may ask."""
    first, _, rest = text.strip().partition(" ")
    rest = rest.strip()
    if first in VERDICTS and rest:
        again = hint(rest, site, table, calls, unit)
        return again or f'"{first}" is an answer, and is left out: write only {rest}'
    if first in SWITCHES:
        return f"{first} has nothing after it" if rest else ""
    kinds = (*PATH_KINDS, *NAMED)
    if first not in kinds:
        return _no_kind(first, rest)
    if not rest:
        return f"{first} needs {_what_of(first)} after it"
    if first in PATH_KINDS:
        return _of_path(first, rest, site, unit)
    told = {"call": _of_call, "socket": _of_socket, "ns": _of_namespace, "cap": _of_capability, "uid": _of_id, "gid": _of_id}[first]
    return told(first, rest, site, table, calls)


def _what_of(kind: str) -> str:
    names = {"call": "the name of a call", "socket": "a family, as AF_INET", "ns": "a type, as net", "cap": "a capability, as CAP_SYS_ADMIN"}
    return "a path" if kind in PATH_KINDS else names.get(kind, "a number")


def _no_kind(first: str, rest: str) -> str:
    if first.upper() in CAPABILITIES:
        return f"cap {first.upper()} is meant?"
    if first.startswith("/"):
        return f"say what is asked of a path: see, read, write or exec {first}"
    meant = nearest(first, [*PATH_KINDS, *NAMED, *SWITCHES]) or ("cap" if first.startswith("cap") else "")
    if meant:
        return f"{' '.join(filter(None, [meant, rest]))} is meant?"
    return "the questions are see, read, write and exec PATH, call NAME, socket FAMILY, ns TYPE, cap NAME, uid N, gid N, " + (
        f"and {', '.join(SWITCHES)}"
    )


def _of_path(kind: str, path: str, site: Site, unit: str) -> str:
    if not path.startswith("/"):
        return f"a path begins with a slash: write {kind} /{path}"
    if path != "/" and (path.endswith("/") or "//" in path or "/./" in path or "/../" in f"{path}/"):
        return f"write the path as {kind} {os.path.normpath(path)}"
    found = site.rows.get(path)
    if found == "dir" and kind in ("write", "exec"):
        return f'{unit} is not asked "{kind} {path}": it is a folder; ask of a file in it, as {kind} {path.rstrip("/")}/x'
    if found in ("file", "dev") and kind == "exec":
        return f'{unit} is not asked "exec {path}": it is a file that nobody may execute'
    above = next((it for it in _above(path) if site.rows.get(it, "dir") != "dir"), None)
    return f"nothing can be below {above}, which is a file" if above else ""


def _above(path: str) -> list[str]:
    """The folders above a path, the nearest first."""
    found = []
    while path.rpartition("/")[0]:
        path = path.rpartition("/")[0]
        found.append(path)
    return found


def _of_call(kind: str, name: str, site: Site, table: Table, calls: frozenset[str]) -> str:
    if name in _INSTEAD:
        return f"what {name}(2) does is asked by {_INSTEAD[name]}"
    if name.removeprefix("sys_") in calls:
        return "" if name in calls else f"call {name.removeprefix('sys_')} is meant?"
    meant = nearest(name, sorted(calls))
    if meant in _INSTEAD:
        return f"{meant} is meant? what {meant}(2) does is asked by {_INSTEAD[meant]}"
    return f"calls.txt has no call {name}{f'; call {meant} is meant?' if meant else ''}"


def _of_socket(kind: str, name: str, site: Site, table: Table, calls: frozenset[str]) -> str:
    families = sorted(table.families.values())
    if name in families:
        return ""
    known = families or ["AF_UNIX", "AF_INET", "AF_INET6", "AF_NETLINK", "AF_PACKET"]
    meant = f"AF_{name.upper()}" if f"AF_{name.upper()}" in known else nearest(name, known)
    return f"calls.txt has no family {name}{f'; socket {meant} is meant?' if meant else ''}"


def _of_namespace(kind: str, name: str, site: Site, table: Table, calls: frozenset[str]) -> str:
    if name in NAMESPACES:
        return ""
    meant = _OTHER_NAMES.get(name.lower()) or nearest(name, NAMESPACES)
    return f"there is no namespace {name}: {f'ns {meant} is meant?' if meant else 'the types are ' + ', '.join(NAMESPACES)}"


def _of_capability(kind: str, name: str, site: Site, table: Table, calls: frozenset[str]) -> str:
    if name in CAPABILITIES:
        return ""
    whole = name.upper() if name.upper().startswith("CAP_") else f"CAP_{name.upper()}"
    meant = whole if whole in CAPABILITIES else nearest(whole, CAPABILITIES)
    return f"there is no capability {name}{f'; {meant} is meant?' if meant else ''}"


def _of_id(kind: str, name: str, site: Site, table: Table, calls: frozenset[str]) -> str:
    number = site.ids.get((kind, name))
    if number is not None:
        return f"{kind} {number} is meant, the id of {name}?"
    if not name.isdigit():
        return f"{kind} needs a number, and {name} is none"
    return f"only ids of the site are asked, and {name} is none of them" if int(name) not in _numbers(kind, site) else ""


def _numbers(kind: str, site: Site) -> set[int]:
    return {number for (it, _), number in site.ids.items() if it == kind}


def row_of(question: Question | None, site: Site, root: str | None) -> tuple[str, str] | None:
    """The row that a site lacks for a question of a path; None where it has it, or there can be none.

    Its kind is that of the root, if there is one, and else a file, or a program where it is to be run.
    """
    if question is None or question.kind not in PATH_KINDS or question.name in site.rows:
        return None
    if not question.name.startswith("/") or os.path.normpath(question.name) != question.name:
        return None
    if any(site.rows.get(folder, "dir") != "dir" for folder in _above(question.name)):
        return None
    there = f"{root.rstrip('/')}{question.name}" if root else ""
    if there and os.path.isdir(there):
        return question.name, "dir"
    return question.name, "exe" if question.kind == "exec" else "file"


def rows_with_parents(rows: Sequence[tuple[str, str]], site: Site) -> list[tuple[str, str]]:
    """The rows, with the folders above them that a site lacks, in front."""
    folders = {folder for path, _ in rows for folder in _above(path) if folder not in site.rows}
    return [(folder, "dir") for folder in sorted(folders - {path for path, _ in rows})] + list(dict.fromkeys(rows))


def question_of(words: Sequence[str]) -> Question | None:
    """The question of words as they stand on a command line."""
    return read_question(" ".join(words))
