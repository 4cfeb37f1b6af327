"""Prints the site.toml of a root folder: its files, folders, programs, users and groups, for judging the sandbox of units.

The root is a running host, a container's tree or a build root. The command writes nothing in it and follows no link out of it, and
the same root gives the same text. A site has at most 2,048 rows, chosen in this order:

  1. `/` and `/proc`
  2. paths of systemd's protections
  3. paths that the named units name
  4. paths that --also names
  5. programs with set-id bits or capabilities, found by a walk over the root's file system
  6. secrets and sockets
  7. the folders of `/`, and folders that hold a socket, a pipe or a device
  8. with --full, all other folders, level by level

The site also has the parents of each row. Standard error, and the first lines of the site, list what was left out or could
not be read, with counts. The first lines also have the root's version of systemd, its kernel if it runs, and the calls and
families of tables/x86-64/calls.txt that this kernel lacks. Sockets, pipes, devices, disks and terminals are files, and a comment
says which they are. The comment of a path through a link says where it leads.

The key `systemd` is 252 or 257 if the root has exactly this version of systemd: the program then judges by its rules. With another
version the site has no such key, and standard error and the first lines of the site say why. With the key, devices, disks,
terminals and named pipes have the kind `dev`, since a read-only mount does not keep them. `io_uring = false` says that the root runs
and its kernel makes no rings (kernel.io_uring_disabled is 2).
"""
from __future__ import annotations

import contextlib
import os
import sys
from typing import Optional, Sequence

from sites import kept, machine, modes
from sites.root import Root
from sites.site import Fault, make_site
from sites.told import Told, shown

STATUSES = """
The exit status is 0 if the site was printed, 1 if it could not be made (the root is not a readable folder, or has no
etc/passwd), and 2 for a usage error.
"""


class Site:
    """The words of a command line: which site is made, and where it and what goes with it are kept."""

    def __init__(self) -> None:
        self.root = "/"
        self.units = ""
        self.unit: list[str] = []
        self.also: list[str] = []
        self.full = self.fresh = self.short = self.quiet = False
        #: the files of the site, of the walk, of a further drop-in and of modes; empty where there are none
        self.keep = self.walk = self.drop_in = self.modes = ""


def words(line: Sequence[str]) -> Site:
    """The words of a command line."""
    import argparse

    what, _, how = (__doc__ or "").partition("\n\n")
    parser = argparse.ArgumentParser(
        prog="make-site", description=what, epilog=how + STATUSES, formatter_class=argparse.RawDescriptionHelpFormatter
    )
    parser.add_argument("--root", metavar="DIR", default="/", help="the root folder (default: /)")
    parser.add_argument("--units", metavar="DIR", default="", help="read the units of this folder instead of the root's")
    parser.add_argument("--unit", metavar="NAME", nargs="+", action="extend", default=[], help="units, such as ssh.service")
    parser.add_argument(
        "--also", metavar="PATH", nargs="+", action="extend", default=[],
        help="further paths of the root; the mount point of another file system is walked too",
    )  # fmt: skip
    parser.add_argument("--full", action="store_true", help="include folders that have nothing but folders and plain files")
    parser.add_argument(
        "--keep", metavar="FILE", default="",
        help="write FILE instead of printing, unless it is newer than the units, the users, the packages and this tool",
    )  # fmt: skip
    parser.add_argument("--fresh", action="store_true", help="make the site and the walk again, even if they are cached")
    parser.add_argument("--walk", metavar="FILE", default="", help="cache the walk over the root in FILE, for the sites of its other units")
    parser.add_argument("--drop-in", metavar="FILE", default="", help="add the paths and users of another drop-in of the units")
    parser.add_argument("--modes", metavar="FILE", default="", help="write owners, groups and modes of the rows into FILE, for the views")
    parser.add_argument("--short", action="store_true", help="print one line, and the lines that concern the answers of the named units")
    parser.add_argument("--quiet", action="store_true", help="print only errors on standard error")
    found = parser.parse_args(line, namespace=Site())
    for path in found.also:
        if not path.startswith("/"):
            parser.error(f"--also {path}: a path of the root must begin with a slash")
    return found


def root_at(folder: str) -> Root:
    """The root in this folder."""
    try:
        os.listdir(folder)
    except OSError as error:
        raise Fault(f"{folder} is not a readable folder ({error.strerror})")
    return Root(folder)


def head_of(root: Root, found: Site) -> list[str]:
    """The first lines of the site, which say what it is of, and of what systemd and kernel."""
    parts = [f"made by tools/make-site of {shown(root.folder)}"]
    parts += [f"units of {shown(os.path.realpath(os.fsencode(found.units)))}"] if found.units else []
    parts += [", ".join(found.unit)] if found.unit else []
    parts += ["also " + " ".join(found.also)] if found.also else []
    parts += ["full"] if found.full else []
    return [shown("; ".join(parts).encode("utf-8", "surrogateescape")), *machine.heads(root)]


def is_left_out(line: str) -> bool:
    """Whether a line of the site's head is of its rows, and not of the root's systemd and kernel."""
    return not line.startswith(("systemd ", "kernel ", "the kernel lacks "))


# What is so on every host, and is told in short by its first line alone.
USUAL = ("not walked, ", "left out, folders with nothing but folders", "rows of every running system", "without user namespaces")


def told_lines(lines: list[str], is_short: bool) -> list[str]:
    """The lines for standard error."""
    if not is_short:
        return lines
    usual = [line for line in lines[1:] if line.startswith(USUAL)]
    first = lines[0] + ("; --verbose says what is left out" if usual else "")
    return [first] + [line for line in lines[1:] if line not in usual]


def dropin_of(file: str) -> Optional[str]:
    """The text of a further drop-in; None where there is none, or it cannot be read, as the program says then."""
    if file:
        with contextlib.suppress(OSError, ValueError), open(file, encoding="utf-8") as text:
            return text.read()
    return None


def make(found: Site) -> None:
    """Prints or keeps the site."""
    root = root_at(found.root)
    unit_root = root_at(found.units) if found.units else root
    head = head_of(root, found)
    text = kept.fresh(found.keep, head, root, unit_root, found.unit) if found.keep and not found.fresh else None
    if found.fresh and found.walk:
        with contextlib.suppress(OSError):
            os.unlink(found.walk)
    if text is None:
        from lentsheep.terminal import doing

        also = [os.fsencode(path) for path in found.also]
        with doing("" if found.quiet else f"reading the files of {shown(root.folder)}"):
            text = make_site(head, root, unit_root, found.unit, also, found.full, Told(), found.walk, dropin_of(found.drop_in))
        if found.keep:
            kept.write_whole(found.keep, text)
    if found.modes:
        kept.write_whole(found.modes, modes.text_of(root, text))
    if not found.keep:
        sys.stdout.buffer.write(text)
        sys.stdout.buffer.flush()
    if not found.quiet:
        for line in told_lines(list(filter(is_left_out, kept.heads_of(text)[1:])), found.short):
            print(f"make-site: {line}", file=sys.stderr)


def main(line: Sequence[str]) -> int:
    """Makes a site as the words of a command line say, and gives the status."""
    found = words(line)
    try:
        make(found)
    except (Fault, OSError) as error:
        print(f"make-site: {error}", file=sys.stderr)
        return 1
    return 0
