"""Random inputs of any size: a `Shape` has the pieces of an input, drawn by a seed, and makes its files for a count of pieces.

A kind says what there are many of: unit files, lines of a unit, rows of a site, words of a line, calls of a script, of the table or of a
filter, paths that a unit names, or processes.
"""
from __future__ import annotations

import random
from dataclasses import dataclass, replace
from functools import lru_cache
from typing import Sequence

from benches import CALLS, POLICY
from benches.inputs import HARDENED, SYSTEM

UNIT = "web.service"
KINDS: dict[str, tuple[str, ...]] = {
    "filter": ("units", "lines", "words", "calls"), "plan": ("units", "lines", "rows", "words", "paths"),
    "judge": ("units", "lines", "rows", "words", "calls", "paths"), "replay": ("lines", "rows", "calls", "paths", "processes"),
    "derive": ("lines", "rows", "calls", "paths", "processes"), "effect": ("lines", "rows", "words", "paths"),
    "tighten": ("lines", "rows", "words", "paths"), "why": ("units", "lines", "rows", "words", "calls", "paths"),
    "score": ("lines", "rows", "words", "paths"), "check": ("lines", "words", "calls"), "fleet": ("units", "lines", "rows", "words"),
}  # fmt: skip
# Pieces; {i} is the number of a piece, {h} half of it, {m} its rest by 64, and {r} a number that is drawn for it.
LINES = (
    "ReadWritePaths=-/a/f{i}", "ReadOnlyPaths=-/a/f{i}", "ReadOnlyPaths=-/a", "InaccessiblePaths=-/a/f{i}", "InaccessiblePaths=-/b",
    "NoExecPaths=-/a/f{i}", "ExecPaths=-/a/f{i}", "BindPaths=-/a:/b/f{i}", "BindPaths=-/:/b/f{i}", "BindReadOnlyPaths=-/a/f{i}:/b/f{h}",
    "TemporaryFileSystem=/b/f{i}", "ReadWritePaths=", "SystemCallFilter=c{i}", "SystemCallFilter=~c{i}", "SystemCallFilter=~c{i}:{r}",
    "SystemCallFilter=read", "SystemCallFilter=@g{i}", "SystemCallFilter=", "SupplementaryGroups={i}", "CapabilityBoundingSet=~CAP_CHOWN",
    "AmbientCapabilities=CAP_KILL", "RestrictAddressFamilies=AF_INET", "RestrictAddressFamilies=~AF_UNIX", "RestrictNamespaces=~net",
    "ProtectSystem=strict", "ProtectSystem=no", "PrivateTmp=yes", "ProtectHome=tmpfs", "StateDirectory=s{i}", "RuntimeDirectory=s{i} s{h}",
    "Unknown{i}=x", "PrivateTmp=perhaps", "# {i}", "Environment=A{i}=b", "[Service]", "User=33", "NoNewPrivileges=yes",
    "DeviceAllow=/dev/null rw", "SystemCallArchitectures=native", "MemoryDenyWriteExecute=yes",
)  # fmt: skip
WORDS = (
    ("SystemCallFilter=", "c{i}"), ("SystemCallFilter=~", "c{i}"), ("SystemCallFilter=~", "c{i}:{r}"), ("SystemCallFilter=", "@g{i}"),
    ("SupplementaryGroups=", "{i}"), ("ReadWritePaths=", "-/a/f{i}"), ("InaccessiblePaths=", "-/a/f{i}"), ("BindPaths=", "-/a:/b/f{i}"),
    ("ReadOnlyPaths=", "-/a"), ("CapabilityBoundingSet=", "CAP_KILL"), ("RestrictAddressFamilies=", "AF_INET"), ("ExecStart=/usr/bin/web ", "%n"),
    ("StateDirectory=", "s{i}"), ("ReadWritePaths=", "a"), ("Description=", "x{i}"), ("TemporaryFileSystem=", "/b/f{i}"),
    ("ReadWritePaths=-", "/a"), ("SystemCallFilter=~", "none{i}"),
)  # fmt: skip
ROWS = (
    'path = "/a/f{i}", kind = "file"', 'path = "/a/f{i}", kind = "exe"', 'path = "/a/f{i}", kind = "exe", setuid = 0', 'path = "/a/f{i}", kind = "dir"',
    'path = "/b/f{i}", kind = "dir"', 'path = "/x/f{i}", kind = "exe", setuid = 0', 'path = "/x/f{i}", kind = "exe", setgid = {i}',
    'path = "/x/f{i}", kind = "exe", caps = ["CAP_CHOWN"]', 'path = "/a/f{h}/g{i}", kind = "file"', 'path = "/x/f{i}", kind = "file"',
)  # fmt: skip
CALLED = (
    "getpid", "read 0", "open /a/f{i} 0 1", "open /a/f{h}", "stat /a/f{i}", "openat /usr/bin/web 0 0 1", "execve /usr/bin/web", "execve /a/f{i}",
    "mount / /proc 0 0 0 4096", "mount / /b 0 0 0 20480", "mount /a/f{i} /b/f{i} 0 0 0 4096", "mount /a /b/f{h} 0 0 0 20480", "umount2 /b 0 2",
    "umount2 /proc 0 2", "unshare 131072", "unshare 268435456", "setresuid {i} {i} {i}", "setresuid 0 0 0", "setgroups [{i},{h}] 2", "socket 2 1",
    "seccomp 060000000000ff7f 1", "seccomp 200000000000000015000001{x}060000000000ff7f060000000000ff7f 1", "prctl 38 1", "chroot 0", "#{i}", "c{m}",
    "setns 3 131072", "mmap 0 4096 5 34", "dup 3",
)  # fmt: skip
INSTRUCTIONS = (
    ("15000001{x}", "060000000000ff7f"), ("45000001{x}", "0500000000000000"), ("20000000{a}000000", "15000100{x}", "060000000000ff7f"),
    ("25000001{x}", "0600000000000080"), ("20000000{a}000000", "45000001{x}", "0500000000000000"), ("35000001{x}", "060000000100ff7f"),
)  # fmt: skip
QUESTIONS = ("see /a/f{i}", "read /a/f{i}", "write /a/f{i}", "see /", "uid 33", "map-wx", "see /a")
# The table of calls and the site to which pieces are added; fewer calls than a real table leave the most room.
SMALL_CALLS = [line for line in (
    "abi x86-64 c000003e", "call read 0", "call write 1", "call open 2", "call close 3", "call stat 4", "call mmap 9", "call mprotect 10",
    "call dup 32", "call getpid 39", "call socket 41", "call fork 57", "call execve 59", "call exit 60", "call mount 165",
    "call umount2 166", "call capset 126", "call setresgid 119", "call prctl 157", "call chroot 161", "call setresuid 117", "call setgroups 116", "call openat 257",
    "call unshare 272", "call setns 308", "call seccomp 317", "group @default exit execve",
)]  # fmt: skip
SITE = """\
dynamic_uid = 61184
user_namespaces = 8
user = [{ name = "root", uid = 0, gid = 0 }, { name = "web", uid = 33, gid = 33 }]
group = [{ name = "root", gid = 0 }, { name = "web", gid = 33 }]
row = [
"""
FOLDERS = ("/usr", "/usr/bin", "/a", "/b", "/x", "/proc", "/tmp", "/var", "/var/lib", "/run", "/dev", "/etc", "/home", "/sys", "/root")


@dataclass(frozen=True)
class Shape:
    """The pieces of an input, each by its number in its list."""

    command: str
    kind: str
    seed: int
    #: lines of the hardened unit that the unit has
    base: tuple[str, ...]
    lines: tuple[str, ...]
    word: tuple[str, str]
    rows: tuple[str, ...]
    calls: tuple[str, ...]
    instructions: tuple[tuple[str, ...], ...]
    questions: tuple[str, ...]
    #: how many pieces there are of what there are not many of
    few: int
    has_real_table: bool
    is_root: bool

    @property
    def words(self) -> list[str]:
        """The words of the command."""
        more = {
            "replay": ["s.txt"], "derive": ["s.txt"], "effect": ["d.conf"], "tighten": ["keep"], "score": ["policy.json"],
            "check": ["calls", "f.txt"],
        }  # fmt: skip
        return ["fleet", "policy.json"] if self.command == "fleet" else [self.command, UNIT, *more.get(self.command, [])]

    def files(self, count: int) -> dict[str, str]:
        """The files of an input with so many pieces of the kind, and a few of the others."""
        draw = random.Random(self.seed)
        many = {kind: count if kind == self.kind else self.few for kind in ("units", "lines", "rows", "words", "calls", "paths", "processes")}
        found = {"calls.txt": self._table(many["calls"] if self.command not in ("replay", "derive", "check") else self.few), "site.toml": self._site(many)}
        unit = self._unit(many, draw)
        found[f"{SYSTEM}/{UNIT}"] = unit
        if self.kind == "units":
            for at in range(count):
                path = f"{SYSTEM}/u{at}.service" if self.command == "fleet" else f"{SYSTEM}/{UNIT}.d/{at:05}.conf"
                found[path] = unit if self.command == "fleet" else "[Service]\n" + "".join(f"{pieced(it, at, draw)}\n" for it in self.lines)
        if self.command in ("replay", "derive"):
            found["s.txt"] = self._script(many, draw)
        if self.command == "effect":
            found["d.conf"] = self._unit(many, draw) if self.kind in ("lines", "words", "paths") else "[Service]\nPrivateTmp=yes\n"
            found[f"{SYSTEM}/{UNIT}"] = self._unit({**many, self.kind: self.few}, draw) if self.kind in ("lines", "words", "paths") else unit
        if self.command == "tighten":
            asked = count if self.kind in ("lines", "paths") else self.few
            found["keep"] = "".join(f"{pieced(self.questions[at % len(self.questions)], at, draw)}\n" for at in range(asked))
        if self.command in ("score", "fleet"):
            found["policy.json"] = policy()
        if self.command == "check":
            found["f.txt"] = self._filter(many["calls"], draw)
        return found

    def _table(self, count: int) -> str:
        """The table of calls, with calls of their own for the pieces, and groups of two of them."""
        if self.has_real_table and self.kind != "calls":
            return real_table()
        # a table has at most 512 calls and 128 groups
        lines = SMALL_CALLS[:-1] + [f"call c{at} {1000 + at}" for at in range(min(max(count, 64), 480))] + SMALL_CALLS[-1:]
        return "\n".join(lines + [f"group @g{at} c{at}" + (f" c{at // 2}" if at else "") for at in range(min(max(count // 4, 64), 120))]) + "\n"

    def _site(self, many: dict[str, int]) -> str:
        rows = [f'path = "{folder}", kind = "dir"' for folder in FOLDERS] + ['path = "/usr/bin/web", kind = "exe"']
        count = max(many["rows"], min(many["paths"], 1900))
        draw = random.Random(self.seed)
        # the parent of a row is a folder, and questions of KEEP ask of files that are there
        kinds, made = dict.fromkeys(FOLDERS, "dir"), set(FOLDERS)
        pieces = (ROWS[0], *self.rows) if self.command == "tighten" else self.rows
        for at in range(count):
            row = pieced(pieces[at % len(pieces)], at if self.command != "tighten" else at // len(pieces), draw)
            _, path, _, kind = row.split('"')[:4]
            above = path.rpartition("/")[0]
            if kinds.setdefault(above, "dir") != "dir" or path in kinds:
                continue
            if above not in made:
                rows.append(f'path = "{above}", kind = "dir"')
            made |= {above, path}
            kinds[path] = kind
            rows.append(row)
        return SITE + "".join(f"  {{ {row} }},\n" for row in rows) + "]\n"

    def _unit(self, many: dict[str, int], draw: random.Random) -> str:
        lines = ["[Service]", "ExecStart=/usr/bin/web", *([] if self.is_root else ["User=33"]), *self.base]
        lines += ["SystemCallFilter=~read"] if self.command == "check" else []
        if self.kind in ("lines", "paths", "rows"):
            paths = [it for it in self.lines if "Paths=" in it] or ["ReadWritePaths=-/a/f{i}"]
            chosen = paths if self.kind == "paths" else self.lines
            lines += [pieced(chosen[at % len(chosen)], at, draw) for at in range(many["lines" if self.kind != "paths" else "paths"])]
        if self.kind == "words":
            key, word = self.word
            lines += [key + " ".join(pieced(word, it, draw) for it in range(at, min(at + 500, many["words"]))) for at in range(0, many["words"], 500)]
        if self.kind == "calls" and self.command in ("filter", "judge", "why"):
            lines += ["SystemCallFilter=" + " ".join(f"c{it}" for it in range(at, min(at + 500, many["calls"]))) for at in range(0, many["calls"], 500)]
        return "\n".join(lines) + "\n"

    def _script(self, many: dict[str, int], draw: random.Random) -> str:
        # a filter of a script is refused by derive, and a real table has no calls of its own for pieces
        pieces = [it for it in self.calls if not (self.command == "derive" and it.startswith("seccomp") or self.has_real_table and it == "c{m}")]
        pieces = pieces or ["getpid"]
        calls = [pieced(pieces[at % len(pieces)], at, draw) for at in range(many["calls"] if self.kind != "paths" else many["paths"])]
        lines = [f"1 {call}" for call in calls]
        if self.kind == "processes":
            lines += ["1 fork"] * many["processes"] + [f"{2 + at} {pieced(pieces[at % len(pieces)], at, draw)}" for at in range(many["processes"])]
        return "\n".join(lines) + "\n"

    def _filter(self, count: int, draw: random.Random) -> str:
        lines = ["2000000000000000"]
        while len(lines) <= min(count, 4000):
            lines += [pieced(it, len(lines), draw) for it in draw.choice(self.instructions)]
        return "\n".join([*lines, "0600000000000080"]) + "\n"


def pieced(template: str, at: int, draw: random.Random) -> str:
    """A piece by its template and its number."""
    if "{" not in template:
        return template
    number = draw.getrandbits(32)
    return template.format(i=at, h=at // 2, m=at % 64, r=number % 1000, x=number.to_bytes(4, "little").hex(), a=f"{4 * (number % 16):02x}")


def drawn(command: str, kind: str, seed: int) -> Shape:
    """The shape of a seed."""
    draw = random.Random(f"{command} {kind} {seed}")
    hardened = [line for line in HARDENED.splitlines() if "=" in line and not line.startswith(("Description", "ExecStart", "User", "SystemCallFilter"))]

    def some(pieces: Sequence[str], most: int = 3) -> tuple[str, ...]:
        return tuple(draw.sample(list(pieces), draw.randint(1, most)))

    return Shape(
        command, kind, seed, tuple(draw.sample(hardened, draw.choice([0, 0, 3, 8]))), some(LINES), draw.choice(WORDS), some(ROWS), some(CALLED, 4),
        tuple(draw.sample(INSTRUCTIONS, draw.randint(1, 3))), some(QUESTIONS), draw.choice([0, 4, 40]), draw.random() < 0.3, draw.random() < 0.5,
    )  # fmt: skip


def changed(shape: Shape, seed: int) -> Shape:
    """The shape with one of its lists of pieces drawn anew."""
    other, draw = drawn(shape.command, shape.kind, seed), random.Random(seed)
    name = draw.choice(["base", "lines", "word", "rows", "calls", "instructions", "questions", "few", "has_real_table", "is_root"])
    return replace(shape, seed=seed, **{name: getattr(other, name)})


@lru_cache(maxsize=None)
def real_table() -> str:
    """The table of x86-64."""
    with open(CALLS, encoding="utf-8") as file:
        return file.read()


@lru_cache(maxsize=None)
def policy() -> str:
    """The weights of systemd."""
    with open(POLICY, encoding="utf-8") as file:
        return file.read()
