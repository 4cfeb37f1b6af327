"""Which services of a root are enabled or were started (systemd.unit(5)): those that something pulls in.

A service counts that stands in a folder `*.wants`, `*.requires` or `*.upholds`, is activated by a socket, a timer, a path or a name of
D-Bus that counts, is named in Wants= and the like of what counts, or was started on a running system.
"""
from __future__ import annotations

from typing import Callable

from sites import units
from sites.locations import LOCATIONS, Search
from sites.placing import FIRST
from sites.root import Root

FOLDERS = (b".wants", b".requires", b".upholds")
PULLING = ("Wants", "Requires", "Requisite", "BindsTo", "Upholds")
# What is activated by another unit: the section and the key that name the service, and else its own name.
ACTIVATING = {"socket": ("[Socket]", "Service"), "timer": ("[Timer]", "Unit"), "path": ("[Path]", "Unit")}
STARTED = b"/run/systemd/units"


def pulled_in(search: Search) -> set[bytes]:
    """The names that stand in the folders of units that are enabled, but for those of an initial file system."""
    found: set[bytes] = set()
    for place, names in search.entries.items():
        for folder in names:
            if folder.endswith(FOLDERS) and not folder.startswith(b"initrd"):
                found.update(units.names_in(search.root, place + b"/" + folder))
        # the name of D-Bus that an enabled unit has is a link in etc
        if place == FIRST:
            found.update(name for name in names if name.startswith(b"dbus-"))
    return found


def started(root: Root) -> set[bytes]:
    """The names of the units that were started since the root runs."""
    return {name.partition(b":")[2] for name in root.names(STARTED) if name.startswith(b"invocation:")}


def files_of(search: Search, name: str) -> list[bytes]:
    """The paths of the files of a unit of any kind, by its own name and its template's."""
    stem, at, rest = name.partition("@")
    template = f"{stem}@.{rest.rpartition('.')[2]}" if at else name
    found: list[bytes] = []
    for file in (it.encode() for it in dict.fromkeys([name, template])):
        for place in LOCATIONS:
            path, folder = place + b"/" + file, place + b"/" + file + b".d"
            found += [path] if file in search.entries[place] else []
            found += [folder + b"/" + it for it in units.names_in(search.root, folder)] if file + b".d" in search.entries[place] else []
    return found


def settings(search: Search, name: str) -> list[units.Setting]:
    """The sections, keys and values of the files of a unit of any kind."""
    found: list[units.Setting] = []
    for path in filter(None, (units.standing(search.root, path) for path in files_of(search, name))):
        try:
            found += units.all_assignments(search.root.read(path).decode("utf-8"))
        except (OSError, ValueError):
            continue
    return found


def activated(search: Search, name: str, own: Callable[[str], str]) -> list[str]:
    """The names that a unit pulls in or activates."""
    kind = name.rpartition(".")[2]
    said = settings(search, name)
    found = [word for section, key, value in said if section == "[Unit]" and key in PULLING for word in value.split()]
    if kind in ACTIVATING:
        section, key = ACTIVATING[kind]
        named = [value for where, it, value in said if where == section and it == key and value]
        accepts = any(key == "Accept" and value.lower() in ("yes", "true", "1", "on") for _, key, value in said)
        found += named[-1:] or ([] if accepts else [name.rpartition(".")[0] + ".service"])
    return [own(it) for it in found if "%" not in it]


def enabled(search: Search, own: Callable[[str], str]) -> set[str]:
    """The names of the units that are enabled or were started; `own` gives a unit's own name for another name of it."""
    left = [own(name.decode("utf-8", "replace")) for name in sorted(pulled_in(search) | started(search.root))]
    found: set[str] = set()
    while left:
        name = left.pop()
        if name not in found:
            found.add(name)
            left += activated(search, name, own)
    return found
