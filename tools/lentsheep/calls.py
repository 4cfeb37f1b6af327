"""Calls as scripts and reports write them: `PID [ABI:]NAME [PAYLOAD] [WORD ..]`."""
from __future__ import annotations

import re
from functools import lru_cache

from .record import dataclass
from .words import unescaped

# Calls whose pointers lead to one path: the see calls, and those that open, run or take away a mount.
ONE_PATH = frozenset(
    "stat lstat newfstatat statx access faccessat faccessat2 open openat creat truncate execve umount2".split()
)
# How many words of what pointers lead to stand between the name and the numbers; every other call has none.
_PAYLOADS = {**dict.fromkeys(ONE_PATH, 1), "mount": 2, "capset": 3, "setgroups": 1, "seccomp": 1, "socketcall": 1}
# Calls that have such words only if the site has the key `systemd`.
_PAYLOADS_OF_KEY = {"openat2": 2, "execveat": 1, "clone3": 1, "sched_setattr": 1}
# How many of them a request to a ring has (io_uring_enter), by its first one.
_REQUESTS = {"stat": 2, "open": 3, "socket": 2, "mode": 2}

_NUMBER = re.compile(r"[0-9]+|0[xX][0-9a-fA-F]+")
_NAME = re.compile(r"(?:([A-Za-z0-9_-]+):)?(#[0-9]+|[A-Za-z0-9_-]+)")


@dataclass(frozen=True)
class Call:
    """A call, made by process `pid`."""

    pid: int
    #: the name of calls.txt, or `#` and a number
    name: str
    #: the ABI that stands before the name; None is the native one
    abi: str | None
    #: what its pointers lead to, as words: paths without their escapes, numbers and lists as they are written
    payload: tuple[str, ...]
    #: its arguments; those behind the last one are 0
    args: tuple[int, ...]
    #: the line as it was printed
    text: str

    @property
    def paths(self) -> tuple[str, ...]:
        """The paths that it names."""
        if self.request in ("stat", "open"):
            return self.payload[1:2]
        if self.name in ONE_PATH or self.name in ("openat2", "execveat"):
            return self.payload[:1]
        return self.payload if self.name == "mount" else ()

    @property
    def request(self) -> str:
        """The kind of the request that it submits to a ring; empty where it submits none."""
        return self.payload[0] if self.name == "io_uring_enter" and self.payload else ""


@lru_cache(maxsize=4096)
def _number(word: str) -> int | None:
    """The number of a word; None where it is none. A report has the same few numbers over and over."""
    if not _NUMBER.fullmatch(word):
        return None
    return int(word, 16 if word[:2] in ("0x", "0X") else 10)


@lru_cache(maxsize=4096)
def _name(word: str) -> tuple[str | None, str, int] | None:
    """The ABI and the name of a call, and how many words of what its pointers lead to it has."""
    found = _NAME.fullmatch(word)
    return (found[1], found[2], _PAYLOADS.get(found[2], 0)) if found else None


def _payload_of_key(name: str, words: list[str]) -> int:
    """How many words of what its pointers lead to a call has with the key, that has none without it."""
    return _REQUESTS.get(words[0], 0) if name == "io_uring_enter" and words else _PAYLOADS_OF_KEY.get(name, 0)


def read_call(text: str, has_key: bool = True) -> Call | None:
    """The call of a line; None where it is none. It is of a site with the key `systemd`, or prints no call that the key changes."""
    words = text.split(" ")
    pid, found = _number(words[0]), _name(words[1]) if len(words) > 1 else None
    if pid is None or found is None:
        return None
    abi, name, count = found
    count = count or (_payload_of_key(name, words[2:]) if has_key else 0)
    payload, read = words[2 : 2 + count], tuple(map(_number, words[2 + count :]))
    numbers = tuple(it for it in read if it is not None)
    if len(payload) < count or len(read) > 6 or len(numbers) < len(read):
        return None
    return Call(pid, name, abi, tuple(map(unescaped, payload)), numbers, text)
