"""Services in folders of their own, with a table of calls and a site that are made here."""
from __future__ import annotations

import os
import subprocess
from typing import Mapping, Optional, Sequence

from lentsheep.asking import CAPABILITIES
from lentsheep.report import parse
from lentsheep.table import TABLES, table_of
from lentsheep.values import Plan, Replay, Report

from .made import FAMILIES

TOP = os.path.dirname(os.path.dirname(os.path.dirname(os.path.abspath(__file__))))
PROGRAM = os.environ.get("LENTSHEEP_PROGRAM") or f"{TOP}/crates/sandbox_cli/out/sandbox_cli"
SECONDS = 600
# The kind of each row of a site, and what a program gives.
Rows = Mapping[str, tuple[str, str]]

# The calls of the table: those that the kernel has rules for, and some plain ones.
NAMES = set(
    """read write open openat creat truncate stat lstat newfstatat statx access faccessat close getpid fork vfork clone unshare execve exit
    exit_group mount umount2 setuid setgid setresuid setresgid setgroups capget capset prctl seccomp socket socketcall mmap mprotect
    pkey_mprotect shmat chmod fchmod fchmodat mkdir mkdirat mknod mknodat personality sched_setscheduler sethostname syslog ptrace
    init_module iopl settimeofday stat64 mmap2 setuid32 openat2 execveat clone3 fchmodat2 setreuid setregid sched_setattr socketpair
    io_uring_setup io_uring_enter io_setup""".split()
)
# Calls that carry something only if the site has the key systemd.
OF_KEY = {"openat2", "execveat", "clone3", "sched_setattr", "io_uring_enter"}
# A plain call of the native ABI for each capability, which needs it. Linux has no such numbers.
NEEDING = {name: f"needs_{name[4:].lower()}" for name in CAPABILITIES}

# The rows of a site, by kind; an exe may give something.
DIRS = """/data /etc /home /home/alice /home/alice/bin /srv /srv/a /srv/a/b /srv/c /tmp /usr /usr/bin /usr/lib /usr/lib/modules /var
    /var/lib /var/lib/web /var/tmp /root /run /run/user /boot /dev /sys /proc/sys"""
FILES = """/etc/passwd /home/alice/key /srv/secret /srv/a/log /srv/a/b/deep /srv/c/x /var/lib/web/db /root/key /tmp/old
    /usr/lib/modules/m /proc/kmsg"""
# Devices and pipes, which a read-only mount does not keep.
DEVICES = "/dev/null /dev/mem /srv/a/pipe /home/tty"
PROGRAMS = {
    "/usr/bin/web": "", "/usr/bin/su": "setuid = 0", "/usr/bin/wall": "setgid = 4", "/srv/a/su": "setuid = 0",
    "/usr/bin/ping": 'caps = ["CAP_NET_RAW"], effective = true', "/home/alice/bin/tool": 'caps = ["CAP_SYS_ADMIN"]',
}  # fmt: skip
USERS = """
user = [ { name = "root", uid = 0, gid = 0 }, { name = "web", uid = 33, gid = 33 }, { name = "db", uid = 70, gid = 70 } ]
group = [ { name = "root", gid = 0 }, { name = "adm", gid = 4 }, { name = "web", gid = 33 }, { name = "db", gid = 70 } ]
"""
KINDS = {**dict.fromkeys(DIRS.split(), "dir"), **dict.fromkeys(FILES.split(), "file"), **dict.fromkeys(DEVICES.split(), "dev"), **dict.fromkeys(PROGRAMS, "exe")}
SITE = {path: (kind, PROGRAMS.get(path, "")) for path, kind in KINDS.items()}


def table() -> str:
    """The table of two ABIs, of the calls and families named above, and a call that needs each capability."""
    lines: list[str] = []
    groups: set[str] = set()
    needing = [f"call {name} {600 + at} {capability}" for at, (capability, name) in enumerate(NEEDING.items())]
    with open(f"{TABLES}/calls2.txt", encoding="utf-8") as file:
        for line in file:
            words = line.split()
            # they belong to the native ABI
            lines += needing if words[:2] == ["abi", "i386"] else []
            if words[:1] == ["group"]:
                words = words[:2] + [it for it in words[2:] if it in NAMES or it in groups]
                is_taken = len(words) > 2
                groups |= {words[1]} if is_taken else set()
            else:
                is_taken = words[:1] in (["version"], ["abi"]) or (words[:1] in (["call"], ["family"]) and words[1] in NAMES.union(FAMILIES))
            lines += [" ".join(words)] if is_taken else []
    return "\n".join([*lines, ""])


def names_of(text: str) -> list[tuple[str, set[str]]]:
    """The names of the calls of each ABI of the table, the native one first."""
    found: list[tuple[str, set[str]]] = []
    for line in text.splitlines():
        if line.startswith("abi "):
            found.append((line.split()[1], set()))
        elif line.startswith("call "):
            found[-1][1].add(line.split()[1])
    return found


TABLE = table()
ABIS = names_of(TABLE)
READ = table_of(TABLE)


def site_text(rows: Rows, namespaces: int, systemd: Optional[int], rings: bool = True) -> str:
    """The text of a site."""
    key = f"systemd = {systemd}\n" * bool(systemd) + "io_uring = false\n" * (not rings)
    lines = [f"{key}dynamic_uid = 61184\nuser_namespaces = {namespaces}\nrow = ["]
    for path, (kind, gives) in sorted(rows.items()):
        lines.append(f'  {{ path = "{path}", kind = "{kind}"{", " * bool(gives)}{gives} }},')
    return "\n".join([*lines, "]"]) + USERS


class Service:
    """A made service in a folder."""

    def __init__(self, folder: str, lines: Sequence[str], rows: Rows, namespaces: int, systemd: Optional[int], rings: bool = True):
        self.folder, self.lines, self.rows, self.has_key = folder, lines, rows, systemd is not None
        self.write("etc/systemd/system/web.service", "\n".join(["[Service]", "ExecStart=/usr/bin/web", *lines, ""]))
        self.write("calls.txt", TABLE)
        self.write("site.toml", site_text(rows, namespaces, systemd, rings))

    def write(self, name: str, text: str) -> None:
        """Writes a file of the folder."""
        path = f"{self.folder}/{name}"
        os.makedirs(os.path.dirname(path), exist_ok=True)
        with open(path, "w", encoding="utf-8") as file:
            file.write(text)

    def run(self, *words: str) -> tuple[int, str]:
        """The status and the text of a run."""
        ended = subprocess.run([PROGRAM, *words], cwd=self.folder, stdin=subprocess.DEVNULL, stdout=subprocess.PIPE, timeout=SECONDS)
        return ended.returncode, ended.stdout.decode()

    def judged(self) -> Report:
        """The report."""
        report = parse(self.run("judge", "web.service")[1], "judge")
        assert isinstance(report, Report)
        return report

    def planned(self) -> Plan:
        """The plan."""
        plan = parse(self.run("plan", "web.service")[1], "plan")
        assert isinstance(plan, Plan)
        return plan

    def replies(self, calls: Sequence[str]) -> tuple[int, Replay]:
        """The status, and what the calls come to."""
        self.write("s.txt", "".join(f"{call}\n" for call in calls))
        status, text = self.run("replay", "web.service", "s.txt")
        replay = parse(text, "replay", self.has_key)
        assert isinstance(replay, Replay)
        return status, replay
