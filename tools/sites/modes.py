"""Owners, groups and modes of what a site has rows for: a file beside the site, made anew for each answer.

The program does not read it. It is JSON: `rows` has for each path of a row its mode, uid and gid and the folders above it, and
`folders` the mode, uid and gid of each of these. What cannot be told for sure is left out: what leads through links or is not there,
what has an access control list, and what stands on a file system whose server or driver decides instead of the kernel.
"""
from __future__ import annotations

import errno
import json
import os
import re
import stat
from typing import Optional

from sites.root import Root
from sites.rows import parents_of

# File systems on which the kernel itself compares ids with the mode that stat(2) tells (generic_permission of fs/namei.c).
CHECKED = frozenset("ext2 ext3 ext4 xfs btrfs f2fs tmpfs ramfs devtmpfs overlay squashfs erofs iso9660 sysfs cgroup2 cgroup".split())
ACCESS_LIST = "system.posix_acl_access"
PATH = re.compile(r'^path = ("(?:[^"\\]|\\.)*")$', re.M)


def file_systems() -> dict[int, str]:
    """The kinds of the file systems that are mounted, by their device numbers."""
    found = {}
    try:
        with open("/proc/self/mountinfo", encoding="utf-8", errors="surrogateescape") as mounts:
            for line in mounts:
                front, _, behind = line.partition(" - ")
                major, _, minor = front.split()[2].partition(":")
                found[os.makedev(int(major), int(minor))] = behind.split()[0]
    except (OSError, ValueError, IndexError):
        pass
    return found


def has_list(file: bytes) -> bool:
    """Whether a file has an access control list, or it cannot be told."""
    try:
        os.getxattr(file, ACCESS_LIST, follow_symlinks=False)
    except OSError as error:
        return error.errno not in (errno.ENODATA, errno.ENOTSUP)
    return True


class Modes:
    """The modes of paths of a root, each looked at once."""

    def __init__(self, root: Root) -> None:
        self.root = root
        self.kinds = file_systems()
        self.seen: dict[bytes, Optional[list[int]]] = {}
        self.plain: dict[bytes, bool] = {b"": True, b"/": True}

    def of(self, path: bytes) -> Optional[list[int]]:
        """The mode, the uid and the gid of a path that has no links in it; None where they are not known for sure."""
        if path not in self.seen:
            self.seen[path] = self.look_at(path)
        return self.seen[path]

    def is_plain(self, folder: bytes) -> bool:
        """Whether no part of the path of a folder is a link."""
        if folder not in self.plain:
            is_link = stat.S_ISLNK(os.lstat(self.root.outside(folder)).st_mode)
            self.plain[folder] = not is_link and self.is_plain(folder.rpartition(b"/")[0])
        return self.plain[folder]

    def look_at(self, path: bytes) -> Optional[list[int]]:
        """The same, by looking."""
        file = self.root.outside(path)
        try:
            status = os.lstat(file)
            # btrfs and overlay have devices of their own for parts of them
            kind = self.kinds.get(status.st_dev) or self.kinds.get(os.lstat(os.path.dirname(file)).st_dev, "")
            is_sure = kind in CHECKED and not stat.S_ISLNK(status.st_mode) and self.is_plain(path.rpartition(b"/")[0]) and not has_list(file)
        except OSError:
            return None
        return [stat.S_IMODE(status.st_mode), status.st_uid, status.st_gid] if is_sure else None


def path_of(quoted: str) -> str:
    """The path of a basic string of TOML."""
    return quoted[1:-1] if "\\" not in quoted else str(json.loads(quoted))


def text_of(root: Root, site: bytes) -> bytes:
    """The text for the rows of a site; without any where the root is another user's, whose ids are not those that it runs with."""
    rows: dict[str, list[object]] = {}
    folders: set[bytes] = set()
    modes = Modes(root)
    if root.status(b"/").st_uid == 0:
        for quoted in PATH.findall(site.decode("utf-8")):
            path = path_of(quoted)
            found = modes.of(os.fsencode(path))
            if found is not None:
                above = parents_of(os.fsencode(path))
                rows[path] = [*found, [os.fsdecode(it) for it in above]]
                folders.update(above)
    known = {os.fsdecode(it): modes.of(it) for it in sorted(folders)}
    return json.dumps({"version": 1, "rows": rows, "folders": {path: it for path, it in known.items() if it is not None}}).encode()
