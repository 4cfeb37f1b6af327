"""The table of system calls, as far as views tell its names: groups, and capabilities that calls and families ask for."""
from __future__ import annotations

import os
import re
from functools import lru_cache
from typing import Optional

from .record import dataclass, field
from .site_text import heads_of, profile_of

#: The tables of this tree; those of a version of systemd are in a folder of its own.
TABLES = f"{os.path.dirname(os.path.dirname(os.path.dirname(os.path.realpath(__file__))))}/tables/x86-64"


@dataclass(frozen=True)
class Table:
    """What a calls.txt says of names. An empty one stands where the file is not there."""

    #: the calls of each group, groups within it taken apart
    groups: dict[str, frozenset[str]] = field(default_factory=dict)
    #: the capability that a call or family asks for
    capabilities: dict[str, str] = field(default_factory=dict)
    #: families by their numbers
    families: dict[int, str] = field(default_factory=dict)
    #: how many ABIs it has
    abis: int = 1


def read_table(folder: str, name: str = "calls.txt") -> Table:
    """The table of a folder that the program reads."""
    try:
        with open(f"{folder}/{name}", encoding="utf-8", errors="replace") as file:
            text = file.read()
    except OSError:
        return Table()
    return table_of(text)


def table_of(text: str) -> Table:
    """What the text of a table says."""
    abis = sum(line.startswith("abi ") for line in text.split("\n"))
    table = Table(abis=abis or 1)
    for line in text.split("\n"):
        words = line.split()
        if words[:1] == ["group"] and len(words) > 2:
            members = [table.groups.get(word, frozenset([word])) for word in words[2:]]
            table.groups[words[1]] = frozenset().union(*members)
        elif words[:1] in (["call"], ["family"]) and len(words) > 2:
            if len(words) == 4:
                table.capabilities[words[1]] = words[3]
            if words[0] == "family" and words[2].isdecimal():
                table.families[int(words[2])] = words[1]
    return table


def table_for(site: str) -> str:
    """The table of calls that goes with the text of a site, by its name below `TABLES`.

    It is of the version of the key `systemd`, over both ABIs. Of a site without the key it has the groups of 252 where the root has
    that systemd, and both ABIs where the root's kernel runs programs of i386.
    """
    profile, heads = profile_of(site), heads_of(site)[1:]
    if profile is not None:
        return f"{profile}/calls2.txt"
    folder = "252/" if any(it.startswith("systemd 252") for it in heads) else ""
    return folder + ("calls2.txt" if any(it.startswith("kernel ") and ", which runs programs of i386" in it for it in heads) else "calls.txt")


def version_of(table: str) -> Optional[int]:
    """The version of systemd whose groups a table has, as tools/make-calls writes it into its first line."""
    found = re.match(r"# .* with the groups of systemd ([0-9]+):", table)
    return int(found[1]) if found else None


@lru_cache(maxsize=None)
def read_groups(version: int, abis: int = 1) -> dict[str, frozenset[str]]:
    """The groups of a version of systemd, over one ABI or two; none where this tree has no table of it."""
    return read_table(f"{TABLES}/{version}", "calls2.txt" if abis > 1 else "calls.txt").groups
