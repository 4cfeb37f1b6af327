"""The units that `lint` is given, each in a folder that the program can read.

`units_of(words, root)` finds the files. `made_folder(unit, place)` writes a folder with them, a table of calls, and a site. Without a
root the site is a small Debian (tables/debian) with the programs, paths, users and groups that the unit names.
"""
from __future__ import annotations

import os
from typing import Optional, Sequence

from sites import units
from sites.command import Site, make
from sites.locations import Search
from sites.root import Root
from sites.says import said
from sites.site import Fault
from sites.told import Told

from . import asking
from .home import TOP, absolute
from .record import dataclass
from .room import walk_file
from .site_text import with_rows
from .table import TABLES, table_for
from .unit_text import LinkedFolder, UnitFile

#: The instance of which a template is judged.
INSTANCE = "lint"
_PLACE = "etc/systemd/system"
_SITE = f"{TOP}/tables/debian/site.toml"
# Files that show what protections close: each is below a folder that a setting of systemd.exec(5) speaks of.
_WITNESSES = """
    /boot/vmlinuz /dev/kvm /dev/mem /dev/sda /etc/hosts /home/user/file /opt/file /proc/sys/kernel/core_pattern /root/file
    /run/user/1000/bus /srv/file /sys/fs/cgroup/cgroup.procs /sys/kernel/uevent_helper /tmp/file /usr/lib/modules/module.ko
    /usr/share/file /var/cache/file /var/lib/file /var/log/file /var/tmp/file
""".split()
#: A file in each folder that the unit names, so that the report asks whether the service can write there.
WITNESS = ".lentsheep-file"
_FIRST_ID = 30000
# Below these, paths are a package's or the kernel's, and taken as there.
_GIVEN = ("/usr/", "/etc/", "/dev/", "/proc/", "/sys/", "/bin/", "/sbin/", "/lib/", "/lib64/", "/boot/")
# Folders that every system has (file-hierarchy(7)), and files that login(1) and the journal keep.
_STANDARD = frozenset(
    """
    / /bin /boot /dev /etc /home /lib /lib64 /media /mnt /opt /proc /root /run /run/dbus /run/lock /run/log /run/systemd
    /run/systemd/seats /run/systemd/sessions /run/udev /run/user /sbin /srv /sys /tmp /usr /var /var/cache /var/lib /var/log
    /var/log/btmp /var/log/journal /var/log/lastlog /var/log/wtmp /var/mail /var/opt /var/spool /var/tmp
    """.split()
)
_FILES = ("/var/log/btmp", "/var/log/lastlog", "/var/log/wtmp")


class NoUnit(Exception):
    """A word that names no unit; the text says why."""


@dataclass(frozen=True)
class LintedFile:
    """A file of a unit: how findings name it, where it is below the folder that the program reads, and its bytes."""

    shown: str
    path: str
    data: bytes

    @property
    def text(self) -> str:
        """Its text; bytes that are not UTF-8 are replaced."""
        return self.data.decode("utf-8", "replace")


@dataclass(frozen=True)
class LintedUnit:
    """A unit: the name by which it is judged, and its files in the order in which they apply."""

    name: str
    files: tuple[LintedFile, ...]

    @property
    def texts(self) -> list[UnitFile]:
        """Its files by their paths below the folder that the program reads."""
        return [UnitFile(file.path, file.text) for file in self.files]

    def shown(self, path: str) -> str:
        """How findings name the file of this path."""
        return next((file.shown for file in self.files if file.path == path), path)


def units_of(words: Sequence[str], root: Optional[str]) -> list[LintedUnit]:
    """The units that words name: files by any path, folders with such files, and with a root also names of its units."""
    found: list[LintedUnit] = []
    for word in words:
        if os.path.isdir(word):
            found += [_of_file(path) for path in _files_below(word)]
        elif os.path.exists(word):
            found.append(_of_file(word))
        elif root and "/" not in word:
            found.append(_of_root(word, root))
        else:
            raise NoUnit(f"there is no file {word}")
    return found


def _files_below(folder: str) -> list[str]:
    paths = [f"{place}/{name}" for place, _, names in os.walk(folder) for name in names if name.endswith(".service")]
    if not paths:
        raise NoUnit(f"there is no file *.service below {folder}")
    return sorted(paths)


def judged_name(file: str) -> str:
    """The name by which a file is judged: a template by an instance of it."""
    return file.replace("@.service", f"@{INSTANCE}.service") if file.endswith("@.service") else file


def _of_file(path: str) -> LintedUnit:
    """A unit file of any folder, with the drop-ins of the folder PATH.d beside it."""
    file = os.path.basename(path)
    name, folder = judged_name(file), f"{path}.d"
    found = [LintedFile(path, f"{_PLACE}/{name}", _bytes_of(path))]
    for dropin in sorted(os.listdir(folder)) if os.path.isdir(folder) else []:
        if dropin.endswith(".conf"):
            found.append(LintedFile(f"{folder}/{dropin}", f"{_PLACE}/{name}.d/{dropin}", _bytes_of(f"{folder}/{dropin}")))
    return LintedUnit(name, tuple(found))


def _of_root(word: str, root: str) -> LintedUnit:
    """A unit of a root by its name, with its drop-ins there."""
    name = units.read_name(judged_name(word if word.endswith(".service") else f"{word}.service"))
    there = Root(root)
    search = Search(there)
    paths = search.sources(name)[0] if name else []
    if not paths or not name or search.fragment(name) is None:
        raise NoUnit(f"there is no file {word} here, and no unit of this name in {root}")
    found = []
    for at, path in enumerate(paths):
        text = os.fsdecode(path)
        kept = f"{_PLACE}/{name.text}" if at == 0 else f"{_PLACE}/{name.text}.d/{text.rpartition('/')[2]}"
        found.append(LintedFile(os.path.normpath(f"{root}/{text}"), kept, b"" if units.is_mask(there, path) else there.read(path)))
    return LintedUnit(name.text, tuple(found))


def _bytes_of(path: str) -> bytes:
    try:
        with open(path, "rb") as file:
            return file.read()
    except OSError as error:
        raise NoUnit(f"{path}: {error.strerror}") from None


def made_folder(unit: LintedUnit, place: str, root: Optional[str]) -> None:
    """Writes what the program reads of a unit into a folder."""
    for file in unit.files:
        path = f"{place}/{file.path}"
        os.makedirs(os.path.dirname(path), exist_ok=True)
        with open(path, "wb") as out:
            out.write(file.data)
    if root:
        _site_of_root(unit, place, root)
    else:
        with open(f"{place}/site.toml", "wb") as out:
            out.write(site_of(unit, place))
    os.symlink(_table_of(place) if root else f"{TABLES}/calls2.txt", f"{place}/calls.txt")


def _table_of(place: str) -> str:
    """The table for the site of a root, as --root takes it."""
    with open(f"{place}/site.toml", encoding="utf-8", errors="replace") as file:
        return f"{TABLES}/{table_for(file.read())}"


def _site_of_root(unit: LintedUnit, place: str, root: str) -> None:
    """Makes the site of a root; the walk over it is cached once for all units, as --root has it."""
    made = Site()
    made.root, made.units, made.unit, made.keep, made.quiet = root, place, [unit.name], f"{place}/site.toml", True
    made.walk = walk_file(absolute(root) if root == "/" else absolute(root).removesuffix("/"))
    try:
        make(made)
    except (Fault, OSError) as error:
        raise NoUnit(f"there is no site of {root}: {str(error).rpartition(': ')[2]}") from None


def site_of(unit: LintedUnit, place: str) -> bytes:
    """The text of a site for a unit of no root: a small Debian, with what the unit names."""
    with open(_SITE, "rb") as file:
        text = file.read()
    name = units.read_name(unit.name)
    known = asking.read_site(text.decode())
    if name is None:
        return text
    folder = LinkedFolder(place)
    says = said(folder, name, units.sources(folder, name), Told())
    rows = [(path, "file") for path in _WITNESSES]
    programs = [path.decode("utf-8", "replace") for path in says.programs if path.startswith(b"/")]
    rows += [(path, "exe") for path in programs]
    folders = [path.decode("utf-8", "replace").rstrip("/") for path in says.folders]
    named = [path.decode("utf-8", "replace") for path in (*says.optional, *says.emptied)]
    named += [path for path in (it.decode("utf-8", "replace") for it in says.paths) if is_given(path, folders)]
    for path in dict.fromkeys([*named, *folders]):
        rows += _rows_of(path, known) if path not in programs else []
    text = with_rows(text, asking.rows_with_parents(fitting(rows, known), known))
    text = text.replace(b"\ndynamic_uid", b"\nuser_namespaces = 8\ndynamic_uid", 1)
    return text + _people(says.users, says.groups, known)


def is_given(path: str, folders: Sequence[str]) -> bool:
    """Whether a path is there on every system, comes with a package, or is one of the folders that the unit has systemd make."""
    real = path.rstrip("/") or "/"
    real = real.replace("/var/run", "/run", 1) if f"{real}/".startswith("/var/run/") else real
    return real in _STANDARD or f"{real}/".startswith(_GIVEN) or any(f"{folder}/".startswith(f"{real}/") for folder in folders)


def _rows_of(path: str, known: asking.Site) -> list[tuple[str, str]]:
    """The rows for a path that a unit names: what has no suffix is a folder, and has a file."""
    path = path.rstrip("/")
    if not path.startswith("/") or os.path.normpath(path) != path:
        return []
    kind = known.rows.get(path) or ("file" if path in _FILES or "." in path.rpartition("/")[2][1:] else "dir")
    return [(path, kind), *([(f"{path}/{WITNESS}", "file")] if kind == "dir" else [])]


def fitting(rows: Sequence[tuple[str, str]], known: asking.Site) -> list[tuple[str, str]]:
    """The rows that a site lacks, each path once, but for those below a file."""
    taken = {path: kind for path, kind in reversed(rows)}
    folders = {path for path in taken if any(other.startswith(f"{path}/") for other in taken)}
    kinds = {path: "dir" if path in folders else kind for path, kind in rows}
    all_kinds = {**kinds, **known.rows}
    fits = [path for path in kinds if path not in known.rows and not any(all_kinds.get(it, "dir") != "dir" for it in _above(path))]
    return [(path, kinds[path]) for path in fits]


def _above(path: str) -> list[str]:
    parts = path.split("/")
    return ["/".join(parts[:at]) for at in range(2, len(parts))]


def _people(users: set[str], groups: set[str], known: asking.Site) -> bytes:
    """The users and groups that a site lacks, each with an id of its own."""
    text, number = "", _FIRST_ID
    new = sorted(it for it in users if ("uid", it) not in known.ids and it and not it.isdigit())
    for name in new:
        number += 1
        text += f'\n[[user]]\nname = "{name}"\nuid = {number}\ngid = {number}\n'
        if ("gid", name) not in known.ids:
            text += f'\n[[group]]\nname = "{name}"\ngid = {number}\n'
    for name in sorted(it for it in groups - set(new) if ("gid", it) not in known.ids and it and not it.isdigit()):
        number += 1
        text += f'\n[[group]]\nname = "{name}"\ngid = {number}\n'
    return text.encode("utf-8", "surrogateescape")
