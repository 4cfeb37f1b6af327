"""Where systemd looks for the files of a service in a root, and which of them are in force (systemd.unit(5)).

Of drop-ins with one file name one is in force: that of the earliest location, and there that of the most specific folder. Drop-ins of
the unit's own name precede those of its other names, and those of service.d are last.
"""
from __future__ import annotations

import os
import stat
from functools import cached_property
from typing import NamedTuple, Optional

from sites import units
from sites.root import Root

# The search path of system units, the first first: systemd.unit(5), and `systemd-analyze unit-paths`.
LOCATIONS = [
    b"/etc/systemd/system.control", b"/run/systemd/system.control", b"/run/systemd/transient", b"/run/systemd/generator.early",
    b"/etc/systemd/system", b"/etc/systemd/system.attached", b"/run/systemd/system", b"/run/systemd/system.attached",
    b"/run/systemd/generator", b"/usr/local/lib/systemd/system", b"/usr/lib/systemd/system", b"/run/systemd/generator.late",
]  # fmt: skip
# The folder of drop-ins of all services.
OF_ALL = b"service.d"


class DropIn(NamedTuple):
    """The drop-ins of one file name: the path of the one in force and the paths that it hides.

    `is_either`: two other names of the unit have one each and its own name has none, so that systemd takes either.
    """

    path: bytes
    hidden: tuple[bytes, ...]
    is_either: bool = False


def _written(prefix: str, instance: Optional[str]) -> str:
    return f"{prefix}.service" if instance is None else f"{prefix}@{instance}.service"


def _folders(prefix: str, instance: Optional[str]) -> list[str]:
    """The folders of a name; that of a template has an empty instance."""
    found = [f"{_written(prefix, instance)}.d"]
    if instance:
        found += _folders(prefix, "")
    dashes = [at for at, letter in enumerate(prefix) if letter == "-" and 0 < at < len(prefix) - 1]
    return found + (_folders(prefix[: dashes[-1] + 1], instance or None) if dashes else [])


def dropin_folders(name: units.UnitName) -> list[bytes]:
    """The names of the folders of drop-ins of this name alone, the most specific first."""
    return [it.encode() for it in dict.fromkeys(_folders(name.prefix, name.instance))]


class Search:
    """The locations of a root, each of which is listed once. OSError where one is there and cannot be read."""

    def __init__(self, root: Root) -> None:
        self.root = root
        self.entries = {place: frozenset(units.names_in(root, place)) for place in LOCATIONS}
        self._places = {root.real(way) for place in LOCATIONS for way in units.ways(place) if root.stands(way)}
        self._own: dict[units.UnitName, units.UnitName] = {}

    def fragment(self, name: units.UnitName) -> Optional[bytes]:
        """The path of the fragment; None where there is none."""
        paths = [place + b"/" + it for it in units.fragment_names(name) for place in LOCATIONS if it in self.entries[place]]
        return next(filter(None, (units.standing(self.root, path) for path in paths)), None)

    def own_name(self, name: units.UnitName) -> units.UnitName:
        """The name of the unit that a name leads to, as the file that it leads to is named among the files of units."""
        if name not in self._own:
            self._own[name] = self._name_of_file(name) or name
        return self._own[name]

    def _name_of_file(self, name: units.UnitName) -> Optional[units.UnitName]:
        fragment = self.fragment(name)
        if fragment is None or units.is_mask(self.root, fragment):
            return None
        folder, _, file = self.root.real(fragment).rpartition(b"/")
        return _named(file, name.instance) if folder in self._places and file not in units.fragment_names(name) else None

    def other_names(self, name: units.UnitName) -> list[units.UnitName]:
        """The other names of a unit, in byte order: those of links to its file, and to that of its template."""
        named = {it for it in (_named(file, name.instance) for file in self._links) if it and it != name}
        return sorted((it for it in named if self.own_name(it) == name), key=lambda it: it.text.encode())

    @cached_property
    def _links(self) -> frozenset[bytes]:
        """The links among the files of services."""
        return frozenset(
            file for place in LOCATIONS for way in units.ways(place) if self.root.stands(way) for file in self.entries[place]
            if file.endswith(b".service") and os.path.islink(self.root.outside(self.root.real(way)) + b"/" + file)
        )  # fmt: skip

    def _folders_of(self, names: list[units.UnitName]) -> list[tuple[int, bytes]]:
        """The folders of these names, the first of which is the unit's own, the strongest first, each with the place of its name."""
        found = [
            (at, place + b"/" + folder)
            for at, name in enumerate(names) for place in LOCATIONS for folder in dropin_folders(name) if folder in self.entries[place]
        ]  # fmt: skip
        return found + [(len(names), place + b"/" + OF_ALL) for place in LOCATIONS if OF_ALL in self.entries[place]]

    def dropins(self, name: units.UnitName) -> dict[bytes, DropIn]:
        """The drop-ins by their file names, in the order in which they are applied."""
        names = [name, *self.other_names(name)]
        found: dict[bytes, list[tuple[int, bytes]]] = {}
        for at, folder in self._folders_of(names):
            for file in units.names_in(self.root, folder):
                if file.endswith(b".conf") and not file.startswith(b"."):
                    found.setdefault(file, []).append((at, folder + b"/" + file))
        return {file: _drop_in(found[file], len(names)) for file in sorted(found)}

    def sources(self, name: units.UnitName) -> tuple[list[bytes], list[bytes]]:
        """The files in force of which something is read, and the folders in which others may come to be."""
        found = self.fragment(name)
        names = [name, *self.other_names(name)]
        folders = LOCATIONS + [place + b"/" + folder for it in names for folder in [*dropin_folders(it), OF_ALL] for place in LOCATIONS]
        read = [units.standing(self.root, it.path) for it in self.dropins(name).values() if is_read(self.root, it.path)]
        return list(filter(None, [found, *read])), [way for folder in dict.fromkeys(folders) for way in units.ways(folder)]


def _named(file: bytes, instance: Optional[str]) -> Optional[units.UnitName]:
    """The name of a file; of a template's that of this instance."""
    text = file.decode("utf-8", "replace")
    if instance is not None and text.endswith("@.service"):
        text = f"{text.removesuffix('.service')}{instance}.service"
    return units.read_name(text)


def _drop_in(found: list[tuple[int, bytes]], names: int) -> DropIn:
    """The drop-ins of one file name, by the places of the names that they are of; behind `names` are those of all services."""
    paths = list(dict.fromkeys(path for _, path in found))
    others = {at for at, _ in found if 0 < at < names}
    return DropIn(paths[0], tuple(paths[1:]), found[0][0] > 0 and len(others) > 1)


def is_read(root: Root, path: bytes) -> bool:
    """Whether something can be read of a drop-in in force. A link that leads nowhere and a folder say nothing, and hide the others."""
    found = units.standing(root, path)
    try:
        return found is not None and stat.S_ISREG(root.status(found).st_mode)
    except OSError:
        return False
