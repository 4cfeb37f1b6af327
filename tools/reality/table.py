"""The table of calls that a site asks for, and what it says."""
from __future__ import annotations

from pathlib import Path

from lentsheep.table import table_for

from .kernel import TOP

TABLES = TOP / "tables" / "x86-64"


def table_of(site: str) -> Path:
    """The table of calls for a site, as `./sandbox --root` takes it."""
    return TABLES / table_for(site)


def calls_of(path: Path) -> tuple[dict[str, int], dict[str, list[str]], dict[str, int], dict[str, int]]:
    """Native numbers, capabilities that a call asks for, families, and numbers of i386 (where the table has them)."""
    native: dict[str, int] = {}
    asked: dict[str, list[str]] = {}
    families: dict[str, int] = {}
    other: dict[str, int] = {}
    into = native
    for line in path.read_text().splitlines():
        words = line.split()
        if words[:1] == ["abi"]:
            into = native if words[1] == "x86-64" else other
        elif words[:1] == ["call"]:
            into.setdefault(words[1], int(words[2]))
            asked.setdefault(words[1], [text for text in words[3:] if text.startswith("CAP_")])
        elif words[:1] == ["family"]:
            families.setdefault(words[1], int(words[2]))
    return native, asked, families, other
