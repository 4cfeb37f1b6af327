"""Made inputs: a site of thousands of rows, a unit that speaks of many of them, a hardened unit, and a long script."""
from __future__ import annotations

import os
import shutil
from typing import Optional

from benches import CALLS, DEBIAN, POLICY

SYSTEM = "etc/systemd/system"
# How many folders a large site has, and of them how many the unit speaks of in each of its four ways.
FOLDERS, SPOKEN_OF = 40, 32
HARDENED = """\
[Unit]
Description=Service
[Service]
ExecStart={program}
User=root
ProtectSystem=strict
ProtectHome=yes
PrivateTmp=yes
PrivateDevices=yes
ProtectKernelTunables=yes
ProtectKernelModules=yes
ProtectKernelLogs=yes
ProtectClock=yes
ProtectControlGroups=yes
ProtectHostname=yes
NoNewPrivileges=yes
RestrictRealtime=yes
RestrictSUIDSGID=yes
LockPersonality=yes
MemoryDenyWriteExecute=yes
RestrictNamespaces=yes
RestrictAddressFamilies=AF_UNIX AF_INET AF_INET6
CapabilityBoundingSet=CAP_NET_BIND_SERVICE
SystemCallFilter=@system-service
SystemCallFilter=~@privileged @resources
SystemCallErrorNumber=EPERM
ReadWritePaths=-/var/lib/service
"""
# What a script does in turns: files, sockets, ids, mounts, forks and plain calls.
CALLS_IN_TURNS = [
    "1 openat /etc/passwd 0 0 1", "1 stat {program}", "1 socket 2 1", "1 socket 0x100000011 3",
    "1 setresuid 0 0 0", "1 mount / /proc 0 0 0 4096", "1 getpid", "1 write 1 0 4096",
]  # fmt: skip
SCRIPT_CALLS, FORKS = 16384, 512


def write(path: str, text: str) -> None:
    """Makes a file with the folders above it."""
    os.makedirs(os.path.dirname(path), exist_ok=True)
    with open(path, "w", encoding="utf-8") as file:
        file.write(text)


def large_site(rows: int) -> str:
    """A site of 40 folders with so many rows in each; every third of these is a program, each 24th with a set-user-id bit."""
    text = ['dynamic_uid = 61184\nuser = [{ name = "root", uid = 0, gid = 0 }]\ngroup = [{ name = "root", gid = 0 }]\nrow = [\n']
    for folder in range(FOLDERS):
        text.append(f'{{ path = "/folder-{folder:02}", kind = "dir" }},\n')
        for row in range(rows):
            kind = "file" if row % 3 else "exe"
            more = "" if row % 24 else ", setuid = 0"
            text.append(f'{{ path = "/folder-{folder:02}/a-file-with-a-long-name-{row:02}", kind = "{kind}"{more} }},\n')
    return "".join([*text, "]\n"])


def large_unit(rows: int) -> str:
    """A unit of 128 written paths, 32 of each of four kinds: whole folders, and files in them."""
    file = "/folder-{:02}/a-file-with-a-long-name-{:02}".format
    text = [f"[Service]\nExecStart={file(FOLDERS - 1, 3)}\nDynamicUser=yes\nPrivateDevices=yes\nProtectKernelTunables=yes"]
    text.append("SystemCallFilter=@system-service")
    for at in range(SPOKEN_OF):
        text.append(f"ReadOnlyPaths=/folder-{at:02}")
        text.append(f"ReadWritePaths={file(at, at % rows)}")
        text.append(f"InaccessiblePaths={file(at, rows - 1 - at % 8)}")
        text.append(f"BindPaths={file(at, 0)}:{file((at + 1) % (FOLDERS - 2), rows * 4 // 5)}")
    return "\n".join(text) + "\n"


def hidden_site(programs: int, binds: int) -> str:
    """A site of so many set-user-id programs in one folder, /x, of a visible one behind all of them, and of folders for binds."""
    folders = ["/usr", "/usr/bin", "/x", *(f"/a{at:02}" for at in range(binds)), "/z"]
    rows = [f'{{ path = "{it}", kind = "dir" }},' for it in folders]
    rows += ['{ path = "/usr/bin/web", kind = "exe" },', '{ path = "/z/last", kind = "exe", setuid = 0 },']
    rows += [f'{{path="/x/f{at:04}",kind="exe",setuid=0}},' for at in range(programs)]
    return "\n".join(["dynamic_uid = 61184", "row = [", *rows, "]", ""])


def hidden_unit(binds: int) -> str:
    """A unit that hides that folder, below `/` and below each bind of it."""
    text = ["[Service]", "ExecStart=/usr/bin/web", "User=33", "InaccessiblePaths=/x"]
    for at in range(binds):
        text += [f"BindPaths=/:/a{at:02}", f"InaccessiblePaths=/a{at:02}/x"]
    return "\n".join([*text, ""])


def many_groups(program: str, count: int) -> str:
    """A unit with so many gids, of which 65,000 differ."""
    lines = (range(at, min(at + 1000, count)) for at in range(0, count, 1000))
    return f"[Service]\nExecStart={program}\nUser=33\n" + "".join(f"SupplementaryGroups={' '.join(str(1 + it % 65000) for it in line)}\n" for line in lines)


def long_script(program: str) -> str:
    """A script of as many calls as a script may have."""
    calls = [CALLS_IN_TURNS[at % len(CALLS_IN_TURNS)].format(program=program) for at in range(SCRIPT_CALLS)]
    getpid = [at for at, call in enumerate(calls) if call == "1 getpid"]
    for at in getpid[:FORKS]:
        calls[at] = "1 fork"
    return "\n".join(calls) + "\n"


# Scripts of one mebibyte at most that cost most: what a process and its children share, and mounts that come and go by many at once.
PROGRAMS, INSTRUCTIONS, GIDS, CHILDREN = 7, 4096, 65536, 1023
MOUNTS, COPIES = 2000, 7100
ALLOWS = "060000000000ff7f"


def sharing_script() -> str:
    """A script of long programs and many groups, which each of many children has from its parent."""
    calls = [f"1 seccomp {ALLOWS * INSTRUCTIONS} 1"] * PROGRAMS
    return "\n".join([*calls, f"1 setgroups [{','.join(['1'] * GIDS)}] {GIDS}", *["1 fork"] * CHILDREN]) + "\n"


def copying_script() -> str:
    """A script of many binds of a folder with many mounts below it, each with all of them, and each taken away at once."""
    calls = ["1 mount /usr/share /usr/bin 0 0 0 4096"] * MOUNTS
    return "\n".join(calls + ["1 mount /usr /srv 0 0 0 20480", "1 umount2 /srv 0 2"] * COPIES) + "\n"


def many_paths(site: str) -> str:
    """A unit of 128 written paths of a site, 32 of each of four kinds: whole folders, and files and programs."""
    with open(site, encoding="utf-8") as file:
        rows = [(it.split('path = "')[1].split('"')[0], 'kind = "dir"' in it) for it in file.read().split("\n\n") if 'path = "' in it]
    folders = [path for path, is_folder in rows if is_folder and path.count("/") > 1]
    files = [path for path, is_folder in rows if not is_folder and path.count("/") > 1]
    text = ["[Service]", f"ExecStart={first_program(site)}", "DynamicUser=yes", "PrivateDevices=yes", "ProtectKernelTunables=yes", "SystemCallFilter=@system-service"]
    for at in range(SPOKEN_OF):
        text.append(f"ReadOnlyPaths=-{folders[at * len(folders) // SPOKEN_OF]}")
        for way, key in enumerate(("ReadWritePaths", "InaccessiblePaths", "BindPaths")):
            path, other = (files[(2 * (at * 3 + way) + more) * len(files) // (6 * SPOKEN_OF + 2)] for more in (0, 1))
            text.append(f"{key}=-{path}:{other}" if key == "BindPaths" else f"{key}=-{path}")
    return "\n".join(text) + "\n"


def make_large(folder: str, rows: int) -> None:
    """A folder with a large site and its unit."""
    write(f"{folder}/{SYSTEM}/web.service", large_unit(rows))
    write(f"{folder}/site.toml", large_site(rows))
    shutil.copy(CALLS, folder)


def make_hidden(folder: str, programs: int, binds: int) -> None:
    """A folder with hidden set-user-id programs and the unit that hides them."""
    write(f"{folder}/{SYSTEM}/web.service", hidden_unit(binds))
    write(f"{folder}/site.toml", hidden_site(programs, binds))
    shutil.copy(CALLS, folder)


def make_scripts(folder: str) -> None:
    """A folder with those scripts, and a unit that runs as root over the small Debian."""
    os.makedirs(folder)
    shutil.copy(CALLS, f"{folder}/calls.txt")
    shutil.copy(DEBIAN, f"{folder}/site.toml")
    write(f"{folder}/{SYSTEM}/web.service", f"[Service]\nExecStart={first_program(DEBIAN)}\n")
    write(f"{folder}/shared", sharing_script())
    write(f"{folder}/copied", copying_script())


def make_other(folder: str, hardened: str, unit: str) -> None:
    """A folder with another unit over the tables of the hardened one."""
    write(f"{folder}/{SYSTEM}/web.service", unit)
    for name in ("calls.txt", "site.toml"):
        shutil.copy(f"{hardened}/{name}", folder)


def make_hardened(folder: str, source: Optional[str] = None) -> str:
    """A folder with a hardened unit, a script and a policy, over the tables of a source folder or the small Debian; and its program."""
    os.makedirs(folder)
    shutil.copy(f"{source}/calls.txt" if source else CALLS, f"{folder}/calls.txt")
    shutil.copy(f"{source}/site.toml" if source else DEBIAN, f"{folder}/site.toml")
    program = "/usr/bin/env"
    with open(f"{folder}/site.toml", encoding="utf-8") as site:
        if f'"{program}"' not in site.read():
            program = first_program(f"{folder}/site.toml")
    write(f"{folder}/{SYSTEM}/web.service", HARDENED.format(program=program))
    write(f"{folder}/script", long_script(program))
    shutil.copy(POLICY, f"{folder}/policy.json")
    return program


def first_program(site: str) -> str:
    """The path of the first program of a site without a privilege, as make-site writes it."""
    with open(site, encoding="utf-8") as file:
        tables = file.read().split("\n\n")
    plain = [it for it in tables if 'kind = "exe"' in it and "setuid" not in it and "setgid" not in it and "caps" not in it]
    return plain[0].split('path = "')[1].split('"')[0]
