"""What the files of a unit say, read line by line: the settings of [Service] that are in force, and lines of other sections.

Lines, sections, continued lines and comments are those of systemd.syntax(7); specifiers are left as they are.
"""
from __future__ import annotations

import os
from typing import Iterator, NamedTuple, Optional, Sequence

from sites import units
from sites.root import Root

TRUE = {"1", "yes", "y", "true", "t", "on"}
FALSE = {"0", "no", "n", "false", "f", "off"}


class UnitFile(NamedTuple):
    """A file of a unit: its path as notes of a report have it, and its text."""

    path: str
    text: str


class LinkedFolder(Root):
    """The folder that the program reads: its links lead where they do on this machine, out of it too."""

    def real(self, path: bytes) -> bytes:
        """The path itself. OSError where it leads nowhere."""
        os.stat(self.outside(path))
        return path


def files_in_force(folder: str, unit: str) -> list[UnitFile]:
    """The files of a unit below a folder, in the order in which they apply; none where it is masked, not there, or no text."""
    name = units.read_name(unit)
    if name is None:
        return []
    root = LinkedFolder(folder)
    found = []
    for path in units.sources(root, name):
        try:
            text = "" if units.is_mask(root, path) else root.read(path).decode("utf-8")
        except (OSError, ValueError):
            text = ""
        if text:
            found.append(UnitFile(path.decode("utf-8", "backslashreplace").lstrip("/"), text))
    return found


def assignments(text: str) -> Iterator[tuple[str, str, str]]:
    """The section, the key and the value of each assignment of a file."""
    section = ""
    for line in units.joined_lines(text):
        line = line.strip(units.SPACES)
        key, equals, value = line.partition("=")
        if line.startswith("["):
            section = line.strip("[]")
        elif equals:
            yield section, key.strip(units.SPACES), value.strip(units.SPACES)


class Said:
    """What the files of a unit say."""

    def __init__(self, files: Sequence[UnitFile]):
        self.values: dict[tuple[str, str], list[str]] = {}
        for file in files:
            for section, key, value in assignments(file.text):
                before = self.values.get((section, key), [])
                self.values[section, key] = before + [value] if value else [""]

    def lines(self, key: str, section: str = "Service") -> list[str]:
        """The values of a key that are in force where each line adds to a list: those behind the last empty one."""
        return [value for value in self.values.get((section, key), []) if value]

    def last(self, key: str) -> str:
        """The value that is in force where the last line decides; empty where there is none."""
        return (self.lines(key) or [""])[-1]

    def words(self, key: str) -> list[str]:
        """The words of all lines in force."""
        return [word.decode("utf-8", "replace") for line in self.lines(key) for word in units.words(line)]

    def is_on(self, key: str) -> bool:
        """Whether a boolean is true."""
        return self.last(key).lower() in TRUE

    def bounds(self, capability: str) -> bool:
        """Whether CapabilityBoundingSet= has a capability; an empty value empties the set."""
        values = self.values.get(("Service", "CapabilityBoundingSet"), [])
        held, is_default = True, True
        for line in values:
            named = capability in line.lstrip("~").upper().split()
            if line.startswith("~"):
                held = held and not named
            else:
                held = named or held and not is_default
            is_default = False
        return held

    def given(self, *keys: str) -> tuple[str, ...]:
        """Those of the keys that have a value in force."""
        return tuple(key for key in keys if self.lines(key))


def prefix_of(command: str) -> str:
    """What stands before the program of a command."""
    return command[: len(command) - len(command.lstrip("-:@+!|"))]


def listed(said: Said, key: str) -> Optional[tuple[bool, set[str]]]:
    """Whether a list of SystemCallFilter= or RestrictAddressFamilies= denies, and its names; None where there is no list.

    The first line fixes what the list does; a later line of the other kind takes its names off.
    """
    if not said.lines(key):
        return None
    denies = said.lines(key)[0].startswith("~")
    names: set[str] = set()
    for line in said.lines(key):
        found = {word.decode("utf-8", "replace").partition(":")[0] for word in units.words(line.lstrip("~"))}
        names = names | found if line.startswith("~") == denies else names - found
    return denies, names


def forbids_namespace(said: Said, kind: str) -> bool:
    """Whether RestrictNamespaces= refuses namespaces of a type."""
    forbidden = None
    for line in said.lines("RestrictNamespaces"):
        names = line.lstrip("~").split()
        if line.lower() in TRUE | FALSE:
            forbidden = line.lower() in TRUE
        elif line.startswith("~"):
            forbidden = kind in names or bool(forbidden)
        elif forbidden is None or kind in names:
            forbidden = kind not in names
    return bool(forbidden)
