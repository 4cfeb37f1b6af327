"""What a site leaves out, or says otherwise than the root: counted, and told on standard error."""

from __future__ import annotations

from typing import Dict, Iterator, List, Mapping, Tuple

# How many names of one kind are told.
MOST_NAMES = 3
# Of each kind how many there are, and the first names.
Kinds = Mapping[str, Tuple[int, List[str]]]


def shown(path: bytes) -> str:
    """A path as it can be printed on one line."""
    text = path.decode("utf-8", "backslashreplace")
    return "".join(c if c.isprintable() else c.encode("unicode_escape").decode() for c in text)


class Told:
    """Kinds of things in the order in which they first came up, each with its count and its first names."""

    def __init__(self) -> None:
        self.kinds: Dict[str, Tuple[int, List[str]]] = {}

    def add(self, kind: str, name: bytes) -> None:
        """Counts one thing of a kind."""
        count, names = self.kinds.get(kind, (0, []))
        self.kinds[kind] = count + 1, names + [shown(name)] * (len(names) < MOST_NAMES)

    def take(self, kinds: Kinds) -> None:
        """Counts what another told, as it came up there."""
        for kind, (count, names) in kinds.items():
            before, mine = self.kinds.get(kind, (0, []))
            self.kinds[kind] = before + count, mine + names[: MOST_NAMES - len(mine)]

    def lines(self) -> Iterator[str]:
        """A line for each kind."""
        for kind, (count, names) in self.kinds.items():
            more = ", .." if count > len(names) else ""
            yield f"{kind}: {count} ({', '.join(names)}{more})"
