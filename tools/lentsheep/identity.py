"""What an answer was made by and of: the version and the proof of the program, and sums of the files that it read.

A build that was proved has a record beside it, FILE.proved: a line of the kit that proved it, and the SHA-256 of the program.
"""
from __future__ import annotations

import hashlib
from typing import Optional, Sequence

from .build import proved_by as record_of
from .program import Program
from .record import dataclass
from .unit_text import UnitFile

#: As many digits of a sum are shown on a screen.
SHOWN = 12


@dataclass(frozen=True)
class Identity:
    """The program and what it read."""

    version: str
    #: the kit and the logic that proved this build; empty where no record says so
    proved_by: str
    #: the SHA-256 of files, by their names
    sums: dict[str, str]

    @property
    def build(self) -> str:
        """The program in words."""
        name = self.version or "lentsheep"
        return f"{name}, proved by {self.proved_by}" if self.proved_by else f"{name}, not known to be proved"

    @property
    def words(self) -> list[str]:
        """All of it in short, in parts that are not broken."""
        return [f"{self.build};", *(f"{name.rpartition('/')[2]} {total[:SHOWN]}" for name, total in self.sums.items())]


def sum_of(data: bytes) -> str:
    """The SHA-256 of bytes."""
    return hashlib.sha256(data).hexdigest()


def proved_by(file: Optional[str]) -> str:
    """The line of the kit that proved a program; empty where there is no record, or one of another build."""
    return record_of(file) if file else ""


def identity(program: Program, files: Sequence[UnitFile]) -> Identity:
    """Of the program, and of its table, its site and these files of a unit."""
    sums = {}
    for name in ("calls.txt", "site.toml"):
        data = program.read(name)
        if data is not None:
            sums[name] = sum_of(data)
    for file in files:
        sums[file.path] = sum_of(file.text.encode("utf-8", "surrogateescape"))
    return Identity((program.run("--version").text.splitlines() or [""])[0], proved_by(program.built), sums)
