"""What a service must be able to do: the questions that `harden` keeps open, each with where it comes from.

They come from a file KEEP, from traces (`of_trace`), and from the unit's own keys (`of_unit`).
"""
from __future__ import annotations

import os
import re
from typing import Iterable, Optional, Sequence

from .parting_lists import words_of
from .record import dataclass, field
from .strace import Traced, arguments, string
from .unit_lines import lines_with
from .unit_text import FALSE, Said, UnitFile
from .values import Question

#: Folders that many services share: what is directly below one of them belongs to a service.
SHARED = (
    "/", "/dev", "/etc", "/home", "/opt", "/proc", "/root", "/run", "/run/lock", "/run/user", "/srv", "/sys", "/tmp", "/usr", "/usr/lib",
    "/usr/share", "/var", "/var/cache", "/var/lib", "/var/log", "/var/mail", "/var/opt", "/var/run", "/var/spool", "/var/tmp",
)  # fmt: skip
#: Folders of which PrivateTmp= gives the service its own.
TMP = ("/tmp", "/var/tmp")
#: The name of a file that stands for the files that a service makes in a folder.
KEPT_FILE = ".lentsheep-keeps-file"
FOLDERS = {"StateDirectory": "/var/lib", "RuntimeDirectory": "/run", "CacheDirectory": "/var/cache", "LogsDirectory": "/var/log"}
# Calls that a capability permits, by capabilities(7), for a process of root.
_CAPABILITIES = {
    **dict.fromkeys("chown fchown lchown fchownat".split(), "CAP_CHOWN"), "chroot": "CAP_SYS_CHROOT", "kill": "CAP_KILL",
    **dict.fromkeys("setuid setreuid setresuid setfsuid".split(), "CAP_SETUID"),
    **dict.fromkeys("setgid setregid setresgid setfsgid setgroups".split(), "CAP_SETGID"),
    **dict.fromkeys("chmod fchmod fchmodat fchmodat2 utimensat".split(), "CAP_FOWNER"),
    **dict.fromkeys("clock_settime settimeofday adjtimex clock_adjtime".split(), "CAP_SYS_TIME"),
    **dict.fromkeys("mlock mlock2 mlockall".split(), "CAP_IPC_LOCK"), **dict.fromkeys("mount umount2 pivot_root".split(), "CAP_SYS_ADMIN"),
    **dict.fromkeys("setrlimit prlimit64".split(), "CAP_SYS_RESOURCE"), **dict.fromkeys("mknod mknodat".split(), "CAP_MKNOD"),
    **dict.fromkeys("setpriority sched_setscheduler sched_setaffinity ioprio_set".split(), "CAP_SYS_NICE"),
    **dict.fromkeys("init_module finit_module delete_module".split(), "CAP_SYS_MODULE"), "reboot": "CAP_SYS_BOOT",
    **dict.fromkeys("iopl ioperm".split(), "CAP_SYS_RAWIO"), "ptrace": "CAP_SYS_PTRACE", "syslog": "CAP_SYSLOG",
}  # fmt: skip
_WRITING = re.compile(r"\bO_(?:WRONLY|RDWR|CREAT|TRUNC|APPEND)\b")
# Calls that change a folder, with the places of the paths whose folders change.
_CHANGING = {
    "mkdir": (0,), "rmdir": (0,), "unlink": (0,), "rename": (0, 1), "link": (1,), "symlink": (1,), "mknod": (0,), "mkdirat": (1,),
    "unlinkat": (1,), "renameat": (1, 3), "renameat2": (1, 3), "linkat": (3,), "symlinkat": (2,), "mknodat": (1,),
}  # fmt: skip
_SWITCHES = {
    "mmap": (2, ("PROT_WRITE", "PROT_EXEC"), "map-wx"), "mprotect": (2, ("PROT_EXEC",), "protect-x"), "shmat": (2, ("SHM_EXEC",), "shm-x"),
    "chmod": (1, ("S_ISUID",), "suid-bit"), "fchmodat": (2, ("S_ISUID",), "suid-bit"),
}  # fmt: skip
_NAMESPACES = {
    "CLONE_NEWNS": "mnt", "CLONE_NEWCGROUP": "cgroup", "CLONE_NEWUTS": "uts", "CLONE_NEWIPC": "ipc", "CLONE_NEWUSER": "user",
    "CLONE_NEWPID": "pid", "CLONE_NEWNET": "net",
}  # fmt: skip
# Paths that no setting of tighten hides: of their folders one stands for all.
_PLAIN = ("/usr/", "/etc/", "/lib/", "/lib64/", "/bin/", "/sbin/", "/var/lib/", "/var/cache/", "/var/log/", "/opt/", "/srv/")


@dataclass
class Wanted:
    """The questions with their reasons, in the order in which they came up, and the kinds of paths that a site may lack."""

    reasons: dict[Question, list[str]] = field(default_factory=dict)
    counts: dict[tuple[Question, str], int] = field(default_factory=dict)
    kinds: dict[str, str] = field(default_factory=dict)
    #: whether files were made below /tmp or /var/tmp, by the folder
    private: set[str] = field(default_factory=set)
    #: paths that could not be taken up, since the log does not say where they are
    unknown: int = 0

    def add(self, kind: str, name: str, reason: str, row: str = "") -> None:
        """Adds a question for a reason; `row` is the kind of a path."""
        question = Question(kind, name)
        reasons = self.reasons.setdefault(question, [])
        if reason not in reasons:
            reasons.append(reason)
        self.counts[question, reason] = self.counts.get((question, reason), 0) + 1
        if row and name not in self.kinds:
            self.kinds[name] = row

    def drop(self, question: Question) -> None:
        """Takes a question off."""
        self.reasons.pop(question, None)

    def why(self, question: Question) -> str:
        """The reasons of a question, as a part of a sentence."""
        told = []
        for reason in self.reasons.get(question, []):
            count = self.counts[question, reason]
            told.append(reason.replace("%", f"{count} time{'' if count == 1 else 's'}"))
        return "; ".join(told)


def of_unit(files: Sequence[UnitFile], wanted: Wanted) -> None:
    """Adds what the unit's own keys name."""
    said = Said(files)
    for it in lines_with(files, "ExecCondition", "ExecStartPre", "ExecStart", "ExecStartPost", "ExecReload", "ExecStop", "ExecStopPost"):
        program = it.value.lstrip("-:@").split(" ")[0]
        if program.startswith("/"):
            wanted.add("exec", program, f"{it.key}=", "exe")
    for key, top in FOLDERS.items():
        for word in said.words(key):
            _add_folder(f"{top}/{word.partition(':')[0].strip('/')}", f"{key}=", wanted)
    for word in said.words("ReadWritePaths"):
        path = word.lstrip("-+").rstrip("/") or "/"
        if path.startswith("/") and "%" not in path and not word.startswith("-"):
            _add_folder(path, "ReadWritePaths=", wanted)
    for path in said.words("PIDFile"):
        path = path if path.startswith("/") else f"/run/{path}"
        if "%" not in path:
            wanted.add("write", path.replace("/var/run/", "/run/", 1), "PIDFile=", "file")
    for line in said.lines("DeviceAllow"):
        device, _, rights = line.partition(" ")
        if device.startswith("/dev/"):
            wanted.add("write" if "w" in rights or not rights else "read", device, "DeviceAllow=", "file")
    for key in ("AmbientCapabilities", "CapabilityBoundingSet"):
        for line in said.lines(key):
            for name in line.split() if not line.startswith("~") else ():
                wanted.add("cap", name.upper(), f"{key}=")
    families = [line for line in said.lines("RestrictAddressFamilies") if not line.startswith("~")]
    for name in (name for line in families for name in words_of(line) if name.startswith("AF_")):
        wanted.add("socket", {"AF_LOCAL": "AF_UNIX", "AF_FILE": "AF_UNIX", "AF_ROUTE": "AF_NETLINK"}.get(name, name), "RestrictAddressFamilies=")
    is_notified = said.last("Type") in ("notify", "notify-reload") or bool(said.lines("WatchdogSec"))
    if is_notified or said.lines("BusName"):
        wanted.add("socket", "AF_UNIX", "BusName=" if said.lines("BusName") else "Type=notify")
    for line in said.lines("RestrictNamespaces"):
        for name in line.split() if not line.startswith("~") and line.lower() not in FALSE | {"yes", "true", "1", "on"} else ():
            wanted.add("ns", name, "RestrictNamespaces=")


def _add_folder(path: str, reason: str, wanted: Wanted) -> None:
    """Adds that files can be written in a folder."""
    wanted.kinds.setdefault(path, "dir")
    wanted.add("write", f"{path.rstrip('/')}/{KEPT_FILE}", reason, "file")


def of_trace(calls: Iterable[Traced], wanted: Wanted, is_root: bool, what: str = "in the trace") -> None:
    """Adds what the calls of a trace did; `is_root` asks for capabilities, which another user does not use."""
    for call in calls:
        if not call.succeeded:
            continue
        parts = call.parts
        _of_paths(call, parts, wanted, what)
        if call.name == "socket" and parts:
            wanted.add("socket", {"AF_LOCAL": "AF_UNIX", "AF_FILE": "AF_UNIX"}.get(parts[0], parts[0]), f"opened % {what}")
        if call.name == "bind" and (port := re.search(r"sin6?_port=htons\((\d+)\)", call.inner)) and 0 < int(port[1]) < 1024:
            wanted.add("cap", "CAP_NET_BIND_SERVICE", f"port {port[1]} was bound {what}")
        # prlimit64(2) without a new limit only reads one
        reads_limit = call.name == "prlimit64" and parts[2:3] == ["NULL"]
        if call.name in _CAPABILITIES and is_root and not reads_limit:
            wanted.add("cap", _CAPABILITIES[call.name], f"{call.name}(2) was called {what}")
        _of_switches(call, parts, wanted, what)


def _of_switches(call: Traced, parts: Sequence[str], wanted: Wanted, what: str) -> None:
    place, flags, kind = _SWITCHES.get(call.name, (9, (), ""))
    if len(parts) > place and all(flag in parts[place] for flag in flags):
        wanted.add(kind, "", f"{call.name}(2) {what}")
    if call.name == "sched_setscheduler" and re.search(r"SCHED_(?:FIFO|RR)", call.inner):
        wanted.add("realtime", "", f"{call.name}(2) {what}")
    if call.name == "personality" and parts and "0xffffffff" not in parts[0].lower():
        wanted.add("personality", "", f"{call.name}(2) {what}")
    if call.name in ("setuid", "setresuid", "setgid", "setresgid"):
        number = next((part for part in parts if part.isdigit()), "")
        if number:
            wanted.add("uid" if call.name.endswith("uid") else "gid", number, f"{call.name}(2) {what}")
    if call.name in ("unshare", "clone", "setns", "clone3"):
        for flag in re.findall(r"CLONE_NEW\w+", call.inner):
            if flag in _NAMESPACES:
                wanted.add("ns", _NAMESPACES[flag], f"{call.name}(2) {what}")


def _of_paths(call: Traced, parts: Sequence[str], wanted: Wanted, what: str) -> None:
    """Adds what a call did with paths."""
    if call.name in ("open", "creat", "openat", "truncate"):
        place = 1 if call.name == "openat" else 0
        path, flags = _path_at(parts, place, wanted), parts[place + 1] if len(parts) > place + 1 else ""
        if path and ("O_DIRECTORY" in flags and not _WRITING.search(flags)):
            _add_read(path, "dir", wanted, what)
        elif path and (call.name in ("creat", "truncate") or _WRITING.search(flags)):
            _add_write(path, "O_CREAT" in flags or call.name == "creat", f"opened for writing % {what}", wanted)
        elif path:
            _add_read(path, "file", wanted, what)
    elif call.name == "execve":
        path = _path_at(parts, 0, wanted)
        if path:
            wanted.add("exec", path, f"run % {what}", "exe")
    elif call.name in _CHANGING:
        for place in _CHANGING[call.name]:
            path = _path_at(parts, place, wanted)
            if path:
                _add_write(f"{os.path.dirname(path).rstrip('/')}/{KEPT_FILE}", True, f"files were made or removed % {what}", wanted)
    elif call.name in ("bind", "connect"):
        found = re.search(r'sun_path="((?:[^"\\]|\\.)*)"', call.inner)
        path = (string(f'"{found[1]}"') or b"").decode("utf-8", "replace") if found else ""
        if path.startswith("/") and call.name == "bind":
            _add_write(f"{os.path.dirname(path).rstrip('/')}/{KEPT_FILE}", True, f"a socket was made % {what}", wanted)
        elif path.startswith("/"):
            wanted.add("see", path, f"connected to % {what}", "file")


def _path_at(parts: Sequence[str], place: int, wanted: Wanted) -> str:
    """The absolute path of an argument; empty if there is none. A relative one is counted as unknown."""
    data = string(re.sub(r'^("(?:[^"\\]|\\.)*").*$', r"\1", parts[place])) if len(parts) > place else None
    if not data:
        return ""
    path = data.decode("utf-8", "replace")
    if not path.startswith("/"):
        folder = re.search(r"<(/[^>]*)>$", parts[place - 1]) if place else None
        if not folder:
            wanted.unknown += 1
            return ""
        path = f"{folder[1].rstrip('/')}/{path}"
    path = os.path.normpath(path)
    path = path[1:] if path.startswith("//") else path
    return path.replace("/var/run/", "/run/", 1) if path.startswith("/var/run/") else path


def _is_below(path: str, tops: Sequence[str]) -> bool:
    return any(f"{path}/".startswith(f"{top}/") for top in tops)


def _add_read(path: str, kind: str, wanted: Wanted, what: str) -> None:
    if _is_below(path, ("/proc/self", "/proc/thread-self")) or re.match(r"/proc/\d+(/|$)", path):
        return
    if path.startswith(_PLAIN) and kind == "file":
        path, kind = os.path.dirname(path), "dir"
    wanted.add("read", path, f"read % {what}", kind)


def _add_write(path: str, is_made: bool, reason: str, wanted: Wanted) -> None:
    if _is_below(path, TMP) and is_made:
        wanted.private.add(next(top for top in TMP if _is_below(path, (top,))))
    elif not re.match(r"/proc/(self|thread-self|\d+)(/|$)", path):
        wanted.add("write", path, reason, "file")


def folder_of(path: str) -> str:
    """The folder of a service that has a path: the highest that no other service shares, or the shared one of a file of its own."""
    parts = path.split("/")
    for at in range(2, len(parts) + 1):
        folder = "/".join(parts[:at])
        if folder not in SHARED:
            return folder if at < len(parts) else os.path.dirname(path)
    return os.path.dirname(path) or "/"


def commands_not_seen(files: Sequence[UnitFile], calls: Sequence[Traced], signals: Optional[set[str]] = None) -> list[str]:
    """The keys of commands that a trace does not show, and log rotation if no signal for it came."""
    run = {arguments(call.inner)[0].strip('"') for call in calls if call.name == "execve" and call.inner}
    missing = []
    for key in ("ExecReload", "ExecStop", "ExecStopPost", "ExecStartPre", "ExecStartPost"):
        for it in lines_with(files, key):
            program, _, rest = it.value.lstrip("-:@+!|").partition(" ")
            signal = re.search(r"-(?:s ?)?(?:SIG)?([A-Z]+[0-9]?)", rest) if program.endswith("/kill") else None
            is_seen = f"SIG{signal[1]}" in (signals or set()) if signal else program in run
            if not is_seen and f"{key}=" not in missing:
                missing.append(f"{key}=")
    if not {"SIGHUP", "SIGUSR1", "SIGUSR2"} & (signals or set()):
        missing.append("log rotation")
    return missing
