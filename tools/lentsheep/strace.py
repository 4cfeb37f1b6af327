"""Logs of `strace -f`: their calls, and the script of calls that `replay` and `derive` read.

`calls_of(log)` gives the calls in the order in which they began. `script_of(log, known)` gives the lines of a script, with messages
about what cannot be converted.
"""
from __future__ import annotations

import re
from typing import Iterable, Mapping, Optional, Sequence

from .record import dataclass, field

PATH_FIRST = {"stat", "lstat", "access", "open", "creat", "truncate", "execve", "umount2"}
PATH_SECOND = {"openat", "newfstatat", "statx", "faccessat", "faccessat2"}
# Calls that carry something only if the site has the key `systemd`. A script has them by their numbers, which any site reads.
BY_NUMBER = {"openat2", "execveat", "clone3", "sched_setattr", "io_uring_enter"}
FORKS = {"fork", "vfork", "clone", "clone3"}
# Flags that filters and the kernel's rules look at, by their names in strace(1).
FLAGS = {
    "O_RDONLY": 0, "O_WRONLY": 1, "O_RDWR": 2, "O_CREAT": 0o100, "O_EXCL": 0o200, "O_TRUNC": 0o1000, "O_APPEND": 0o2000,
    "O_NONBLOCK": 0o4000, "O_DIRECTORY": 0o200000, "O_NOFOLLOW": 0o400000, "O_CLOEXEC": 0o2000000,
    "PROT_NONE": 0, "PROT_READ": 1, "PROT_WRITE": 2, "PROT_EXEC": 4,
    "AF_UNIX": 1, "AF_INET": 2, "AF_INET6": 10, "AF_NETLINK": 16, "AF_PACKET": 17,
    "SOCK_STREAM": 1, "SOCK_DGRAM": 2, "SOCK_RAW": 3, "SOCK_SEQPACKET": 5, "SOCK_NONBLOCK": 0o4000, "SOCK_CLOEXEC": 0o2000000,
    "CLONE_NEWNS": 0x20000, "CLONE_NEWCGROUP": 0x2000000, "CLONE_NEWUTS": 0x4000000, "CLONE_NEWIPC": 0x8000000,
    "CLONE_NEWUSER": 0x10000000, "CLONE_NEWPID": 0x20000000, "CLONE_NEWNET": 0x40000000,
    "SCHED_OTHER": 0, "SCHED_FIFO": 1, "SCHED_RR": 2, "SCHED_BATCH": 3, "SCHED_IDLE": 5,
    "MS_RDONLY": 1, "MS_NOSUID": 2, "MS_NODEV": 4, "MS_NOEXEC": 8, "MS_REMOUNT": 32, "MS_BIND": 4096, "MS_REC": 16384,
    "PR_SET_NO_NEW_PRIVS": 38, "PR_SET_KEEPCAPS": 8, "PR_CAPBSET_DROP": 24, "PR_CAP_AMBIENT": 47,
    "S_ISUID": 0o4000, "S_ISGID": 0o2000,
}  # fmt: skip
_LINE = re.compile(r"^(?:\[pid +(\d+)\] |(\d+) +)?(?:\d+[:.\d]* )?(.*)$")
_CALL = re.compile(r"^(\w+)\((.*)\)\s+= (-?\d+|0x[0-9a-f]+|\?)(.*)$")
_SIGNAL = re.compile(r"^--- (SIG\w+) ")


@dataclass(frozen=True)
class Traced:
    """A call of a log: the process, the name, the arguments as printed, and the value, `-1` of a call that failed."""

    who: str
    name: str
    inner: str
    value: str

    @property
    def succeeded(self) -> bool:
        """Whether it returned a value and no error."""
        return self.value not in ("-1", "?")

    @property
    def parts(self) -> list[str]:
        """Its arguments."""
        return arguments(self.inner)


def names(table: str) -> dict[str, str]:
    """The names of the native ABI's calls with their numbers, by the text of a table."""
    lines = (line.split() for line in table.split("\n"))
    return {words[1]: words[2] for words in lines if len(words) >= 3 and words[0] == "call"}


def arguments(text: str) -> list[str]:
    """The arguments of a call as strace prints them, cut at commas outside quotes, brackets and braces."""
    parts, depth, quoted, start, at = [], 0, False, 0, 0
    while at < len(text):
        letter = text[at]
        if quoted:
            if letter == "\\":
                at += 1
            elif letter == '"':
                quoted = False
        elif letter == '"':
            quoted = True
        elif letter in "[{(":
            depth += 1
        elif letter in "]})":
            depth -= 1
        elif letter == "," and depth == 0:
            parts.append(text[start:at].strip())
            start = at + 1
        at += 1
    last = text[start:].strip()
    return parts + [last] if last else parts


def number(text: str) -> int:
    """The number of an argument: written, or of known flags; 0 for all else, such as pointers."""
    text = re.sub(r"/\*.*?\*/", "", text).strip()
    text = re.sub(r"<[^>]*>$", "", text)
    total = 0
    for part in text.split("|"):
        part = part.strip()
        part = part.split("=", 1)[1] if part.startswith("flags=") else part
        if part in FLAGS:
            total |= FLAGS[part]
        elif re.fullmatch(r"0[xX][0-9a-fA-F]+", part):
            total |= int(part, 16) if int(part, 16) < 2**32 else 0
        elif re.fullmatch(r"0[0-7]+", part):
            total |= int(part, 8)
        elif re.fullmatch(r"\d+", part):
            total |= int(part)
        elif re.fullmatch(r"-\d+", part):
            total |= int(part) % 2**64
        elif part == "AT_FDCWD":
            total |= 2**64 - 100
    return total


def string(text: str) -> Optional[bytes]:
    """The bytes of a quoted argument; None if it is none or was cut."""
    found = re.fullmatch(r'"((?:[^"\\]|\\.)*)"', text)
    if not found:
        return None
    simple = {"n": 10, "t": 9, "r": 13, "v": 11, "f": 12, "\\": 92, '"': 34}
    out, at, body = bytearray(), 0, found.group(1)
    while at < len(body):
        if body[at] != "\\":
            out += body[at].encode()
            at += 1
            continue
        octal = re.match(r"\\([0-7]{1,3})", body[at:])
        if octal:
            out.append(int(octal.group(1), 8) % 256)
            at += len(octal.group(0))
        else:
            out.append(simple.get(body[at + 1], ord(body[at + 1])))
            at += 2
    return bytes(out)


def word(path: bytes) -> str:
    """A path as an escaped word; a relative one is taken from the root, where services begin."""
    if not path.startswith(b"/"):
        path = b"/" + path
    plain = b"/._-+:@,=~"
    return "".join(chr(b) if b in plain or chr(b).isalnum() and b < 128 else f"%{b:02X}" for b in path)


def words(name: str, parts: Sequence[str]) -> Optional[list[str]]:
    """What a call carries, and its six words; None if strace did not print what it carries."""
    numbers = [number(part) for part in parts[:6]]
    payload: list[str] = []
    if name in PATH_FIRST or name in PATH_SECOND:
        place = 0 if name in PATH_FIRST else 1
        path = string(parts[place]) if len(parts) > place else None
        if path is None or b"\0" in path:
            return None
        payload = [word(path)]
    elif name == "mount":
        source, target = ([string(part) for part in parts[:2]] + [None, None])[:2]
        if target is None:
            return None
        payload = [word(source or b"/"), word(target)]
    elif name == "setgroups":
        found = re.fullmatch(r"\[([\d, ]*)\]", parts[1]) if len(parts) > 1 else None
        if found is None:
            return None
        payload = [f"[{','.join(found.group(1).replace(',', ' ').split())}]"]
    elif name in ("capset", "seccomp", "socketcall"):
        return None
    if name in ("clone", "clone3"):
        numbers = [] if name == "clone3" else [next((number(p) for p in parts if "flags=" in p), 0)]
    while numbers and numbers[-1] == 0:
        numbers.pop()
    return payload + [str(n) for n in numbers]


def lines_of(log: Iterable[str]) -> list[tuple[str, str]]:
    """The lines of calls and signals in the order in which they began, each with its process; resumed ones are joined."""
    begun: dict[str, list[str]] = {}
    calls: list[list[str]] = []
    for line in log:
        found = _LINE.match(line.rstrip("\n"))
        assert found
        pid, other, text = found.groups()
        who = pid or other or ""
        resumed = re.match(r"^<\.\.\. \w+ resumed>(.*)$", text)
        if resumed and who in begun:
            begun.pop(who)[1] += resumed.group(1)
        elif text.endswith("<unfinished ...>"):
            begun[who] = [who, text[: -len("<unfinished ...>")].rstrip()]
            calls.append(begun[who])
        else:
            calls.append([who, text])
    for call in begun.values():
        call[1] += ") = ?"
    return [(who, text) for who, text in calls]


def calls_of(log: Iterable[str]) -> list[Traced]:
    """The calls of a log."""
    found = ((who, _CALL.match(text)) for who, text in lines_of(log))
    return [Traced(who, it[1], it[2], it[3]) for who, it in found if it]


def signals_of(log: Iterable[str]) -> set[str]:
    """The names of the signals that came, as SIGHUP."""
    found = (_SIGNAL.match(text) for _, text in lines_of(log))
    return {it[1] for it in found if it}


@dataclass
class Script:
    """The lines of a script, with the numbers of processes, and what cannot be converted."""

    known: Mapping[str, str]
    lines: list[str] = field(default_factory=list)
    messages: list[str] = field(default_factory=list)
    numbers: dict[str, int] = field(default_factory=dict)
    threads: set[str] = field(default_factory=set)
    count: int = 0

    def tell(self, what: str) -> None:
        """Names what cannot be converted, once."""
        if what not in self.messages:
            self.messages.append(what)

    def _children(self, call: Traced) -> None:
        """Numbers what a call made."""
        if "CLONE_THREAD" in call.inner:
            self.numbers[call.value] = self.numbers[call.who]
            self.threads.add(call.value)
            return
        if call.name == "clone3":
            self.tell("clone makes the child of clone3, which not every site has")
            self.lines.append(f"{self.numbers[call.who]} clone")
        self.count += 1
        self.numbers[call.value] = self.count

    def put(self, call: Traced) -> None:
        """Adds the line of a call."""
        who, name, inner = call.who, call.name, call.inner
        if not self.numbers:
            self.numbers[who] = self.count = 1
        if who not in self.numbers:
            self.tell(f"process {who} was not seen to be made")
        elif name not in self.known:
            self.tell(f"the table has no call {name}")
        elif name == "exit" and who in self.threads:
            self.tell("the end of a thread is left out")
        elif name in FORKS and "CLONE_THREAD" in inner:
            self.tell("threads count as their process")
            if call.value.isdigit():
                self._children(call)
        else:
            carried = words(name, arguments(inner))
            if carried is None:
                self.tell(f"strace did not print what {name} carries")
                return
            written = f"#{self.known[name]}" if name in BY_NUMBER else name
            self.lines.append(" ".join([str(self.numbers[who]), written, *carried]))
            if name in FORKS and call.value.isdigit():
                self._children(call)


def script_of(log: Iterable[str], known: Mapping[str, str]) -> Script:
    """The script of a log, over the calls of a table with their numbers."""
    script = Script(known)
    for call in calls_of(log):
        script.put(call)
    return script
