"""Lines of a screen: a label, and behind it words that are wrapped and, where they are too many, counted."""
from __future__ import annotations

from typing import Sequence

from .record import dataclass
from .terminal import Paint

#: The columns of a label.
LABEL = 12


@dataclass(frozen=True)
class Page:
    """How wide the screen is, and whether it is coloured."""

    width: int
    paint: Paint

    @property
    def room(self) -> int:
        """The columns behind the label."""
        return self.width - LABEL

    def line(self, label: str, text: str) -> str:
        """A line, cut to the width."""
        return self.paint(label.ljust(LABEL), "bold") + (text if len(text) <= self.room else text[: self.room - 3] + " ..")

    def lines(self, label: str, parts: Sequence[str], most: int = 3, indent: str = "") -> list[str]:
        """The parts behind one label in as few lines as they need, none broken; the last line counts what is left out."""
        room = self.room - len(indent)
        rows: list[str] = []
        for at, part in enumerate(parts):
            fits = bool(rows) and len(rows[-1]) + 1 + len(part) <= room
            is_last_row = len(rows) == most
            more = f"and {len(parts) - at} more"
            rest = sum(len(other) + 1 for other in parts[at:])
            if is_last_row and len(rows[-1]) + rest > room and len(rows[-1]) + len(part) + len(more) + 2 > room:
                rows[-1] += f" {more}"
                break
            if fits:
                rows[-1] += f" {part}"
            else:
                rows.append(part)
        return [self.line(label if at == 0 else "", indent + row) for at, row in enumerate(rows)]


def counted(number: int, word: str, one: str = "", more: str = "s") -> str:
    """A number of things, as `1 answer`, `no answers`."""
    return f"{number or 'no'} {word}{one if number == 1 else more}"


def parted(words: Sequence[str], between: str = ",") -> list[str]:
    """The words, each but the last with what parts it from the next."""
    return [word + between for word in words[:-1]] + list(words[-1:])


def braced(paths: Sequence[str]) -> list[str]:
    """The paths, those of one folder as one, `/dev/{null,zero}`, in the order of the first of each."""
    folders: dict[str, list[str]] = {}
    for path in paths:
        folders.setdefault(path.rpartition("/")[0], []).append(path.rpartition("/")[2])
    found: list[str] = []
    for folder, names in folders.items():
        if folder and len(names) > 2:
            found.append(f"{folder}/{{{','.join(names)}}}")
        else:
            found += [f"{folder}/{name}" for name in names]
    return found


def covered(names: Sequence[str], asked: set[str], groups: dict[str, frozenset[str]]) -> list[str]:
    """The names by groups all of whose asked calls are among them, those of most calls first, and then by themselves."""
    left, found = set(names), []
    whole = {group: members & asked for group, members in groups.items() if len(members & asked) > 1}
    within = {group: members for group, members in whole.items() if members <= left}
    for group in sorted(within, key=lambda group: (-len(within[group]), group)):
        if len(within[group] & left) > 1:
            found.append(group)
            left -= within[group]
    return found + [name for name in names if name in left]
