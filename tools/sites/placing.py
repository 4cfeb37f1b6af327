"""Where the program finds the files of units that are in force: each drop-in alone, so that it takes the ones that systemd takes.

The program looks in three locations, and of drop-ins with one file name it takes that of the most specific folder. A file keeps its path
where the program looks there. Another one is placed in the unit's own folder of drop-ins, which precedes all others.
"""
from __future__ import annotations

from typing import Iterable, Mapping

from sites import units
from sites.locations import DropIn, Search

# What the program finds first.
FIRST = units.PLACES[0]
# By the path at which the program finds a file, its path in the root.
Places = dict[bytes, bytes]


def own_folder(name: units.UnitName) -> bytes:
    """The folder of drop-ins that precedes all others."""
    return FIRST + b"/" + name.text.encode() + b".d"


def place_of(name: units.UnitName, path: bytes) -> bytes:
    """Where the program finds a drop-in of this path."""
    folder, _, file = path.rpartition(b"/")
    place, _, within = folder.rpartition(b"/")
    is_known = place in units.PLACES and within in units.dropin_folders(name)
    return path if is_known else own_folder(name) + b"/" + file


def place_of_fragment(path: bytes) -> bytes:
    """Where the program finds a fragment of this path."""
    place, _, file = path.rpartition(b"/")
    return path if place in units.PLACES else FIRST + b"/" + file


def places_of(search: Search, name: units.UnitName, dropins: Mapping[bytes, DropIn]) -> Places:
    """The places of the files of one unit."""
    fragment = search.fragment(name)
    placed = {place_of_fragment(fragment): fragment} if fragment else {}
    return placed | {place_of(name, it.path): it.path for it in dropins.values()}


def places_of_all(search: Search, names: Iterable[units.UnitName]) -> Places:
    """The places of the files of units that are found in one folder.

    None hides another unit's file: the folders that two units share have one order for both, so that a drop-in in force for one of them
    precedes nothing that is in force for the other.
    """
    placed: Places = {}
    for name in names:
        placed |= places_of(search, name, search.dropins(name))
    return placed
