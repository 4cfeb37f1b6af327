"""A walk over the folders of one file system, level by level, and its form in a file, for the next site of the same root."""
from __future__ import annotations

import errno
import json
import os
import stat
from typing import Any, NamedTuple, Optional, Sequence

from sites.root import Root
from sites.told import Kinds, Told

# What getxattr(2) says of a file without capabilities, or of a file system that has none.
WITHOUT = (errno.ENODATA, errno.ENOTSUP)
# Of a file: set-id bits, and execution by anyone.
SET_ID = stat.S_ISUID | stat.S_ISGID


class Found(NamedTuple):
    """What a walk found: paths in byte order, but for `elsewhere`, which has those of fewer parts first.

    `privileged` are regular files with set-id bits or capabilities, `sockets` are sockets, `telling` are the folders that
    hold more than folders, plain files and links: a socket, a pipe or a device. `folders` has the folders of each level and
    `links` the symbolic links there that lead to folders, and `elsewhere` are folders where another file system begins.
    """

    privileged: list[bytes]
    sockets: list[bytes]
    telling: list[bytes]
    folders: list[list[bytes]]
    links: list[list[bytes]]
    elsewhere: list[bytes]


def has_caps(file: bytes) -> bool:
    """Whether a program has capabilities."""
    try:
        os.getxattr(file, "security.capability", follow_symlinks=False)
    except OSError as error:
        return error.errno not in WITHOUT and error.errno != errno.ENOENT
    return True


def leads_to_folder(root: Root, path: bytes) -> bool:
    """Whether a link leads to a folder, within the root."""
    try:
        # of / the kernel follows as the root does
        status = os.stat(path) if root.folder == b"/" else root.status(path)
    except OSError:
        return False
    return stat.S_ISDIR(status.st_mode)


def look_into(
    root: Root, folder: bytes, device: int, found: Found, told: Told, seen: set[tuple[int, int]]
) -> tuple[list[bytes], list[bytes]]:
    """Notes what stands in a folder; the folders below it that are on its device and were not seen yet come back, and its links."""
    front, here = folder.rstrip(b"/") + b"/", root.outside(folder)
    below: list[bytes] = []
    links: list[bytes] = []
    try:
        entries = list(os.scandir(here))
    except FileNotFoundError:
        return below, links
    except OSError as error:
        told.add(f"folders that could not be read ({error.strerror}), so their files are unknown", folder)
        return below, links
    is_telling = False
    for entry in entries:
        if entry.is_symlink():
            links.append(front + entry.name)
            continue
        try:
            status = entry.stat(follow_symlinks=False)
        except OSError:
            continue
        mode = status.st_mode
        kind = stat.S_IFMT(mode)
        if kind == stat.S_IFREG:
            # a file that nobody may execute has no capabilities that count
            if mode & SET_ID or mode & 0o111 and has_caps(entry.path):
                found.privileged.append(front + entry.name)
        elif kind == stat.S_IFDIR:
            if status.st_dev != device:
                found.elsewhere.append(front + entry.name)
            elif (device, status.st_ino) not in seen:
                seen.add((device, status.st_ino))
                below.append(front + entry.name)
        # the device 0/0 stands for a name that an overlay hides
        elif kind != stat.S_IFCHR or status.st_rdev != 0:
            is_telling = True
            if kind == stat.S_IFSOCK:
                found.sockets.append(front + entry.name)
    if is_telling:
        found.telling.append(folder)
    return below, links


def walk(root: Root, start: bytes, told: Told, seen: set[tuple[int, int]]) -> Found:
    """What stands at and below a folder that has no links in its path; `seen` has the folders of earlier walks."""
    found = Found([], [], [], [], [], [])
    device = root.status(start).st_dev
    level = [start]
    while level:
        found.folders.append(level)
        next_level: list[bytes] = []
        links: list[bytes] = []
        for folder in level:
            below, linked = look_into(root, folder, device, found, told, seen)
            next_level += below
            links += linked
        found.links.append(sorted(path for path in links if leads_to_folder(root, path)))
        level = sorted(next_level)
    for paths in (found.privileged, found.sockets, found.telling):
        paths.sort()
    found.elsewhere.sort(key=lambda path: (path.count(b"/"), path))
    return found


def text_of(head: str, walks: Sequence[Found], kinds: Kinds) -> bytes:
    """The text of walks with what was told of them, behind a line that says what they are of."""
    return (json.dumps([head, kinds, [[_strings(paths) for paths in found] for found in walks]]) + "\n").encode()


def read(text: bytes, head: str) -> Optional[tuple[list[Found], Kinds]]:
    """The walks of a text with this head, and what was told of them; None where it has another one, or was cut."""
    try:
        of, kinds, walks = json.loads(text)
        if of == head:
            return [Found(*map(_bytes, found)) for found in walks], {kind: (count, names) for kind, (count, names) in kinds.items()}
    except (ValueError, TypeError, AttributeError):
        pass
    return None


def _strings(value: bytes | Sequence[Any]) -> Any:
    """Paths as text, in lists within each other."""
    return os.fsdecode(value) if isinstance(value, bytes) else list(map(_strings, value))


def _bytes(value: str | Sequence[Any]) -> Any:
    """Paths as bytes, in lists within each other."""
    return os.fsencode(value) if isinstance(value, str) else list(map(_bytes, value))
