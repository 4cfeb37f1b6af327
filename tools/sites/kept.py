"""A site and the walk over a root, kept in files, and made anew where what they came from, or an installed package, is newer."""
from __future__ import annotations

import contextlib
import itertools
import os
from typing import Optional, Sequence

from sites import units, walk
from sites.locations import Search
from sites.root import Root
from sites.told import Kinds

# What changes whenever a package is installed or removed: of dpkg, rpm, pacman and apk.
PACKAGES = b"""
    /var/lib/dpkg/status
    /usr/lib/sysimage/rpm/rpmdb.sqlite /var/lib/rpm/rpmdb.sqlite /var/lib/rpm/Packages /var/lib/rpm/Packages.db
    /var/lib/pacman/local /lib/apk/db/installed
""".split()


def changed(file: str | bytes) -> int:
    """When a file, or what it leads to, was last written or put in its place; 0 where it is not there."""
    times = [0]
    for follows in (False, True):
        try:
            status = os.stat(file, follow_symlinks=follows)
        except OSError:
            continue
        times += [status.st_mtime_ns, status.st_ctime_ns]
    return max(times)


def package_files(root: Root) -> list[bytes]:
    """The files of this machine that change with the packages of the root, links followed within it."""
    found = []
    for path in PACKAGES:
        try:
            found.append(root.outside(root.real(path)))
        except OSError:
            continue
    return found


def files_behind(root: Root, unit_root: Root, names: Sequence[str]) -> list[bytes]:
    """The files and folders of this machine that a site is made from, but for those of its rows."""
    found = [root.outside(path) for path in (b"/etc/passwd", b"/etc/group")] + package_files(root)
    search = Search(unit_root)
    for name in filter(None, map(units.read_name, names)):
        files, folders = search.sources(name)
        found += [unit_root.outside(path) for path in files + folders]
    return found + own_files()


def own_files() -> list[bytes]:
    """The files of this tool."""
    here = os.fsencode(os.path.dirname(os.path.abspath(__file__)))
    return [os.path.join(here, file) for file in os.listdir(here) if file.endswith(b".py")]


def heads_of(text: bytes) -> list[str]:
    """The lines of comment that a site begins with."""
    lines = itertools.takewhile(lambda line: line.startswith("# "), text.decode("utf-8").split("\n"))
    return [line[2:] for line in lines]


def fresh(file: str, head: Sequence[str], root: Root, unit_root: Root, names: Sequence[str]) -> Optional[bytes]:
    """The text of the file, if it is a site with these first lines that is newer than what it was made from."""
    try:
        with open(file, "rb") as site:
            text = site.read()
        written = os.stat(file).st_mtime_ns
    except OSError:
        return None
    is_ours = text.startswith("".join(f"# {line}\n" for line in head).encode())
    return text if is_ours and all(changed(it) < written for it in files_behind(root, unit_root, names)) else None


def head_of_walks(root: Root) -> str:
    """What walks are of: the root by its name and its number on this machine."""
    status = os.stat(root.folder)
    return f"walks of {os.fsdecode(root.folder)} {status.st_dev} {status.st_ino}"


def fresh_walks(file: str, root: Root) -> Optional[tuple[list[walk.Found], Kinds]]:
    """The walks of a file with what was told of them, if they are of this root and newer than its packages and this tool."""
    try:
        written = os.stat(file).st_mtime_ns
        if any(changed(it) >= written for it in package_files(root) + own_files()):
            return None
        with open(file, "rb") as text:
            return walk.read(text.read(), head_of_walks(root))
    except OSError:
        return None


def keep_walks(file: str, root: Root, walks: Sequence[walk.Found], kinds: Kinds) -> None:
    """Writes walks with what was told of them into a file, if that can be written."""
    with contextlib.suppress(OSError):
        write_whole(file, walk.text_of(head_of_walks(root), walks, kinds))


def write_whole(file: str, text: bytes) -> None:
    """Puts a file in its place at once, so that nobody reads half of it."""
    new = f"{os.path.dirname(os.path.abspath(file))}/.site-{os.getpid()}-{os.urandom(4).hex()}"
    try:
        with open(new, "xb", opener=lambda name, flags: os.open(name, flags, 0o600)) as site:
            site.write(text)
        os.replace(new, file)
    except OSError:
        with contextlib.suppress(OSError):
            os.unlink(new)
        raise
