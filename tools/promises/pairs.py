"""Pairs of sites that agree outside a folder that a service is blind to: they are answered alike."""
from __future__ import annotations

import os
import random
import shutil
from typing import Optional, Sequence

from lentsheep.places import is_below

from .reports import KEYS
from .services import ABIS, PROGRAMS, SITE, Rows, Service

# Lines of units of pairs, of which each unit has some: who it is, what hides, and what it may call.
WHO = (
    ("User=web", "NoNewPrivileges=yes"), ("User=web", "CapabilityBoundingSet=CAP_CHOWN"), ("CapabilityBoundingSet=~CAP_SYS_ADMIN",),
    ("SystemCallFilter=~@mount",), ("SystemCallFilter=~mount umount2", "User=web"), ("DynamicUser=yes",),
    ("User=web", "CapabilityBoundingSet=CAP_SETUID CAP_NET_RAW", "AmbientCapabilities=CAP_NET_RAW"),
    ("User=web", "SystemCallFilter=~@mount", "SystemCallArchitectures=native"), ("User=db", "CapabilityBoundingSet="),
)  # fmt: skip
HIDES = (
    "InaccessiblePaths=/srv", "InaccessiblePaths=/srv/a", "TemporaryFileSystem=/srv", "TemporaryFileSystem=/home:ro", "ProtectHome=yes",
    "ProtectHome=tmpfs", "PrivateTmp=yes", "InaccessiblePaths=/root /var/lib/web", "ProtectKernelModules=yes", "PrivateDevices=yes",
    "TemporaryFileSystem=/var", "BindPaths=/data:/srv", "BindReadOnlyPaths=/etc:/home/alice",
)  # fmt: skip
MORE = (
    "ReadWritePaths=/srv/a", "ReadOnlyPaths=/home", "BindPaths=/etc/passwd:/srv/secret", "NoExecPaths=-/srv/c", "ProtectSystem=full",
    "RestrictNamespaces=user mnt net", "RestrictAddressFamilies=AF_UNIX AF_INET", "ProtectKernelTunables=yes", "StateDirectory=web",
    "BindPaths=-/srv/c:/data", "SystemCallFilter=~stat:EACCES", "LockPersonality=yes", "ProtectSystem=strict",
)  # fmt: skip
# Paths that keys imply: they are rows of one kind in both sites, or of neither.
IMPLIED = set(
    """/usr /boot /efi /etc /home /root /run/user /tmp /var/tmp /var/lib/web /usr/lib/modules /proc/sys /proc/kmsg /sys /dev /dev/null
    /dev/mem /dev/kmsg""".split()
)
NEW_USER, NEW_MOUNTS, NEW_NET = 0x10000000, 0x20000, 0x40000000


def changed_below(rows: Rows, folder: str, chance: random.Random) -> Rows:
    """The rows of another site that agrees outside the folder."""
    found = dict(rows)
    for path in sorted(rows, reverse=True):
        if is_below(path, folder) and path != folder and path not in IMPLIED and chance.random() < 0.5:
            if not any(is_below(other, path) and other != path for other in found):
                del found[path]
    folders = [path for path, (kind, _) in found.items() if kind == "dir" and is_below(path, folder)]
    for number in range(chance.randint(1, 4)):
        path = f"{chance.choice(folders)}/new{number}"
        found[path] = chance.choice([("file", ""), ("dir", ""), ("dev", ""), ("exe", ""), ("exe", "setuid = 0"), ("exe", PROGRAMS["/usr/bin/ping"])])
    return found


def script(chance: random.Random, paths: Sequence[str], abis: Sequence[tuple[str, set[str]]], has_key: bool) -> list[str]:
    """A script in and around some paths."""
    paths = list(paths) + [f"/proc{path}" for path in paths] + [f"/data{path}" for path in paths]

    def one(name: str) -> object:
        path, other = chance.choice(paths).replace("//", "/"), chance.choice(["/", "/proc", "/data", "/tmp", chance.choice(paths)]).replace("//", "/")
        return {
            "open": f"{path} 0 {chance.choice('01')}", "openat": f"{path} 0 0 {chance.choice('01')}", "umount2": f"{other} 0 {chance.choice('02')}",
            "mount": f"{chance.choice(['/', path, other])} {other} 0 0 0 {chance.choice((4096, 20480, 4128, 4130, 0, 1))}",
            "unshare": chance.choice((NEW_USER, NEW_USER | NEW_MOUNTS, NEW_MOUNTS, NEW_USER | NEW_NET)),
            "clone": chance.choice((NEW_USER, NEW_USER | NEW_MOUNTS, NEW_MOUNTS, 0)), "setuid": chance.choice((0, 33)),
            "capset": chance.choice(("2199023255551 2199023255551 0", "0x200000 0x200000 0")), "seccomp": chance.choice(("- 1", "060000000000ff7f 1")),
            "socket": chance.choice((1, 2, 17)), "socketcall": f"{chance.choice((1, 2, 17))} {chance.choice((1, 2))}", "setgroups": "[4] 1",
            "prctl": chance.choice(("8 1", "38 1", "24 21")), "fork": "", "getpid": "", "setresuid": "0 0 0", "setreuid": "0 0",
            "socketpair": chance.choice((1, 2)), "io_uring_setup": "",
            "io_uring_enter": chance.choice((f"stat {path}", f"open {path} {chance.choice('01')}", "socket 17", "mode 2048")),
        }.get(name, path)  # fmt: skip

    calls: list[str] = []
    names = """stat stat stat lstat access open open openat execve execve creat truncate umount2 umount2 mount mount mount mount unshare unshare
        clone setuid capset seccomp socket socketcall socketpair setgroups prctl fork getpid setresuid setreuid""".split()
    names += ["io_uring_setup", *["io_uring_enter"] * 3] if has_key else []
    while len(calls) < 60:
        at = chance.randrange(len(abis))
        name = chance.choice(names)
        if name in abis[at][1]:
            calls.append(f"{chance.choice((1, 1, 1, 2, 2, 3))} {abis[at][0] + ':' if at else ''}{name} {one(name)}".rstrip())
    return calls


def differences(first: Service, second: Service, calls: Sequence[str]) -> list[str]:
    """In what two services part."""
    found = [command for command in ("filter", "plan") if first.run(command, "web.service") != second.run(command, "web.service")]
    if first.replies(calls) != second.replies(calls):
        found.append("replay")
    reports = first.judged(), second.judged()
    answers = [{answer.question.text: answer for answer in report.answers} for report in reports]
    shared = set(answers[0]) & set(answers[1])
    texts = [{question: [call.text for call in each[question].calls] if each[question].is_open else None for question in shared} for each in answers]
    if texts[0] != texts[1]:
        found.append("judge: " + ", ".join(sorted(it for it in shared if texts[0][it] != texts[1][it])[:4]))
    blind = [{path for path in report.blind if path in SITE and path not in (set(first.rows) ^ set(second.rows))} for report in reports]
    return found + (["blind"] if blind[0] != blind[1] else [])


def try_pair(place: str, name: str, chance: random.Random, wants_blind: bool) -> Optional[tuple[list[str], str]]:
    """A pair of sites: None where the made service has no such folder, else in what the two part, and what was tried."""
    lines = [*chance.choice(WHO), *chance.sample(HIDES, chance.randint(1, 3)), *chance.sample(MORE, chance.randint(0, 3))]
    namespaces, systemd = chance.choice((0, 1, 2, 8)), chance.choice(KEYS)
    first = Service(f"{place}/{name}a", lines, SITE, namespaces, systemd)
    report = first.judged()
    if report.launch is None or not report.answers:
        return None
    folders = [path for path, (kind, _) in SITE.items() if kind == "dir" and (path in report.blind) == wants_blind and path != "/proc"]
    # what the unit binds is a row of one kind in both
    sources = {word.lstrip("-").split(":")[0] for line in lines if line.startswith("Bind") for word in line.partition("=")[2].split()}
    folders = [path for path in folders if not any(is_below(source, path) and source != path for source in sources)]
    folders = [path for path in folders if wants_blind or path in ("/srv", "/srv/a", "/home", "/home/alice", "/root", "/data")]
    if not folders:
        return None
    folder = chance.choice(folders)
    rows = changed_below(SITE, folder, chance)
    second = Service(f"{place}/{name}b", lines, rows, namespaces, systemd)
    inside = [path for path in {**SITE, **rows} if is_below(path, folder)]
    calls = script(chance, inside + [os.path.dirname(folder), "/usr/bin/su", "/usr/bin/web", "/etc/passwd"], ABIS, first.has_key)
    return differences(first, second, calls), f"{folder} of {lines}, {namespaces} user namespaces, systemd {systemd}"


def pairs(place: str, count: int, chance: random.Random, wants_blind: bool) -> list[str]:
    """The faults of so many pairs; of folders that are not blind, the pairs that differ."""
    faults: list[str] = []
    tried = number = 0
    while tried < count:
        number += 1
        if number > 20 * count:
            return [*faults, f"there are but {tried} pairs"]
        found = try_pair(place, f"{'blind' if wants_blind else 'seen'}-{number}", chance, wants_blind)
        if found:
            tried += 1
            if found[0]:
                faults.append(f"{number}: {'; '.join(found[0])}: {found[1]}")
        if not found or not found[0]:
            for side in "ab":
                shutil.rmtree(f"{place}/{'blind' if wants_blind else 'seen'}-{number}{side}", True)
    return faults
