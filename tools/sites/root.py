"""A folder that is read as if it were `/`.

Links are followed part by part, and an absolute one begins at this folder again, so that none leads out of it. Nothing is
written, and nothing beside it is read.
"""
from __future__ import annotations

import errno
import os
import stat
from typing import Optional

# What the kernel follows in one path (path_resolution(7)).
MOST_LINKS = 40


def parts_of(path: bytes) -> list[bytes]:
    """The parts of a path, without empty ones and `.`."""
    return [part for part in path.split(b"/") if part not in (b"", b".")]


def folded(path: bytes) -> Optional[bytes]:
    """The path with one slash before each part; None where it is relative or has `..` or NUL."""
    parts = parts_of(path)
    if not path.startswith(b"/") or b".." in parts or b"\0" in path:
        return None
    return b"/" + b"/".join(parts)


class Root:
    """A root folder, by the name that it has on this machine."""

    def __init__(self, folder: str | bytes) -> None:
        self.folder = os.path.realpath(os.fsencode(folder))

    def outside(self, path: bytes) -> bytes:
        """The name on this machine of a path that has no links."""
        return self.folder.rstrip(b"/") + path or b"/"

    def real(self, path: bytes) -> bytes:
        """Where a path leads, every link followed. OSError where it leads nowhere."""
        ahead = parts_of(path)[::-1]
        behind = []
        links = 0
        while ahead:
            part = ahead.pop()
            if part == b"..":
                behind = behind[:-1]
                continue
            here = b"/" + b"/".join(behind + [part])
            if not stat.S_ISLNK(os.lstat(self.outside(here)).st_mode):
                behind.append(part)
                continue
            links += 1
            if links > MOST_LINKS:
                raise OSError(errno.ELOOP, os.strerror(errno.ELOOP))
            target = os.readlink(self.outside(here))
            behind = [] if target.startswith(b"/") else behind
            ahead += parts_of(target)[::-1]
        return b"/" + b"/".join(behind)

    def status(self, path: bytes) -> os.stat_result:
        """What stat(2) says of what a path leads to."""
        return os.lstat(self.outside(self.real(path)))

    def stands(self, path: bytes) -> bool:
        """Whether the path leads to something that can be looked at."""
        try:
            self.status(path)
        except OSError:
            return False
        return True

    def read(self, path: bytes) -> bytes:
        """The bytes of the file that a path leads to."""
        with open(self.outside(self.real(path)), "rb") as file:
            return file.read()

    def names(self, path: bytes) -> list[bytes]:
        """The names in a folder, in byte order; none where it is not there or cannot be read."""
        try:
            return sorted(os.listdir(self.outside(self.real(path))))
        except OSError:
            return []
