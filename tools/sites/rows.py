"""The rows of a site: files, folders and programs, each with its parents, up to the limit."""
from __future__ import annotations

import errno
import fnmatch
import os
import re
import stat
from typing import Iterable, Mapping, NamedTuple, Optional

from sites.others import is_of_another
from sites.privileges import NONE, Privileges, is_program, privileges_of
from sites.root import Root, folded, parts_of
from sites.told import Told, shown

# How many rows a site may have, and how many bytes a path.
LIMIT = 2048
LONGEST = 250
# Files of a process, to which /proc/self leads: of the one that looks.
OF_A_PROCESS = re.compile(rb"/proc/[0-9]+(/|$)")


# The numbers of terminals (Documentation/admin-guide/devices.txt): tty, /dev/tty and its like, and pseudo terminals.
TERMINALS = (2, 3, 4, 5, *range(136, 144))


# What a read-only mount does not keep from being written: Linux looks at the mount of no device and of no named pipe (open(2), EROFS).
UNKEPT = ("device", "disk", "terminal", "pipe")


class Row(NamedTuple):
    """A kind, `dir`, `file`, `exe` or `dev`, what the program gives, and what a file is that is none: a socket, a pipe, a device, a disk
    or a terminal. With a link in its path, `link` says where it leads; it is empty if that is no path of a row."""

    kind: str
    gives: Privileges = NONE
    special: str = ""
    link: Optional[str] = None


def special_of(status: os.stat_result) -> str:
    """What has this status where it is no folder and no plain file."""
    mode = status.st_mode
    if stat.S_ISCHR(mode):
        return "terminal" if os.major(status.st_rdev) in TERMINALS else "device"
    return "socket" if stat.S_ISSOCK(mode) else "pipe" if stat.S_ISFIFO(mode) else "disk" if stat.S_ISBLK(mode) else ""


def made_row(path: bytes, kind: str) -> Row:
    """The row of what a running system has at a path."""
    terminals, sockets = (b"/dev/tty", b"/dev/ptmx"), (b"/dev/log",)
    special = "terminal" if path in terminals else "socket" if path in sockets else "device"
    return Row(kind, special=special if kind == "file" and path.startswith(b"/dev/") else "")


def kind_of(mode: int) -> str:
    """The kind of what has this mode. Devices, sockets and pipes are files."""
    if stat.S_ISDIR(mode):
        return "dir"
    return "exe" if is_program(mode) else "file"


def with_devices(rows: Mapping[bytes, Row]) -> dict[bytes, Row]:
    """The rows with the kind `dev` for those that a read-only mount does not keep."""
    return {path: row._replace(kind="dev") if row.special in UNKEPT else row for path, row in rows.items()}


def parents_of(path: bytes) -> list[bytes]:
    """The folders above a path, from the root on."""
    parts = parts_of(path)
    return [b"/" + b"/".join(parts[:count]) for count in range(len(parts))]


def fault_of(path: bytes) -> Optional[str]:
    """Why a path can be no row; None where it can."""
    if folded(path) is None:
        return "left out, paths that are not absolute"
    if len(path) > LONGEST:
        return f"left out, paths of more than {LONGEST} bytes"
    try:
        path.decode("utf-8")
    except UnicodeDecodeError:
        return "left out, names that are not UTF-8"
    return None


class Rows:
    """Rows of a root by their paths, in the order in which they were added."""

    def __init__(self, root: Root, told: Told, units: Iterable[str] = ()) -> None:
        self.root = root
        self.told = told
        self.units = frozenset(units)
        self.rows: dict[bytes, Row] = {}

    def is_full(self) -> bool:
        """Whether no further row can be taken."""
        return len(self.rows) >= LIMIT

    def look_at(self, path: bytes) -> tuple[bytes, Row]:
        """Where a path leads, and the row of what is there. OSError where it leads nowhere."""
        target = self.root.real(path)
        file = self.root.outside(target)
        status = os.lstat(file)
        return target, Row(kind_of(status.st_mode), privileges_of(file, status, path, self.told), special_of(status))

    def leave(self, path: bytes) -> None:
        """Counts a path for which there is no room."""
        self.told.add(f"left out, above the limit of {LIMIT} rows", path)

    def leave_filler(self, path: bytes) -> None:
        """Counts a folder that says nothing of a sandbox, where it has no row as the parent of another."""
        if path not in self.rows:
            self.told.add("left out, folders with nothing but folders and plain files that no unit names (--full includes them)", path)

    def put(self, path: bytes, row: Row) -> None:
        """Takes a row with the parents that it lacks, if there is room for all of them."""
        if path in self.rows:
            return
        if is_of_another(path, self.units):
            self.told.add("left out, folders that systemd keeps for units that are not judged", path)
            return
        if self.is_full():
            self.leave(path)
            return
        missing = [folder for folder in parents_of(path) if folder not in self.rows]
        if len(self.rows) + len(missing) + 1 > LIMIT:
            self.leave(path)
            return
        for folder in missing:
            self.rows[folder] = self.folder_row(folder)
        self.rows[path] = row

    def add(self, path: bytes, made: Optional[str] = None, wanted: bool = False) -> None:
        """Takes the row of a path, and that of what it leads to where there are links in it.

        Where nothing is there, the row has the kind `made`, if that is given; a path that is `wanted` is told.
        """
        fault = fault_of(path)
        if fault:
            self.told.add(fault, path)
            return
        path = folded(path)
        if path in self.rows:
            return
        try:
            target, row = self.look_at(path)
        except OSError as error:
            self.add_unseen(path, error, made, wanted)
            return
        is_row = fault_of(target) is None and not OF_A_PROCESS.match(target)
        self.put(path, row if target == path else row._replace(link=shown(target) if is_row else ""))
        if is_row:
            self.put(target, row)

    def folder_row(self, path: bytes) -> Row:
        """The row of a folder, or of a link to one; the folder that it leads to has a row of its own if another rule says so."""
        try:
            target = self.root.real(path)
        except OSError:
            return Row("dir")
        return Row("dir", link=None if target == path else shown(target) if fault_of(target) is None else "")

    def add_unseen(self, path: bytes, error: OSError, made: Optional[str], wanted: bool) -> None:
        """Takes the row of a path where nothing is, or nothing that can be looked at."""
        missing = error.errno in (errno.ENOENT, errno.ENOTDIR)
        if not missing:
            self.told.add(f"paths that could not be checked ({error.strerror})", path)
        elif wanted:
            self.told.add("named paths that do not exist", path)
        if made and error.errno != errno.ENOTDIR:
            self.put(path, made_row(path, made))

    def add_pattern(self, pattern: bytes) -> None:
        """Takes the rows of all paths of a pattern in which `*` stands for any part of a name."""
        for path in matches(self.root, pattern):
            self.add(path)


def matches(root: Root, pattern: bytes) -> list[bytes]:
    """The paths that a pattern stands for, in byte order."""
    found = [b""]
    for part in parts_of(pattern):
        if b"*" in part:
            found = [path + b"/" + name for path in found for name in fnmatch.filter(root.names(path), part)]
        else:
            found = [path + b"/" + part for path in found]
    return found
