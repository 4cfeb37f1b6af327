"""Rows of a site told as largest folders: how the whole stands, and the folders that stand otherwise.

Of the paths that are told, the longest one that a row lies at or below says how the row stands.
"""
from __future__ import annotations

from typing import Generic, Iterable, Mapping, TypeVar

from .record import dataclass, field

S = TypeVar("S")


@dataclass(frozen=True)
class Exceptional(Generic[S]):
    """A path at and below which so many rows stand otherwise; `alone` is of the path's own row only."""

    path: str
    state: S
    rows: int
    alone: bool = False


@dataclass
class _Node(Generic[S]):
    path: str
    own: S | None = None
    below: dict[str, "_Node[S]"] = field(default_factory=dict)
    counts: dict[S, int] = field(default_factory=dict)
    kept: dict[S, int] = field(default_factory=dict)
    costs: dict[S, int] = field(default_factory=dict)


def parts_of(path: str) -> list[str]:
    """The names of a path."""
    return [name for name in path.split("/") if name]


def is_below(path: str, folder: str) -> bool:
    """Whether a path is a folder or lies below it."""
    return path == folder or path.startswith(folder.rstrip("/") + "/")


def described(rows: Mapping[str, S], mounts: Iterable[str] = ()) -> tuple[S, list[Exceptional[S]]]:
    """How most rows stand, and the fewest exceptions, in order of paths. There is at least one row.

    A place of a mount is told before a folder or file below it that has the same rows.
    """
    root = _tree(rows)
    states = sorted(root.counts, key=lambda state: -root.counts[state])
    _weigh(root, states)
    whole = min(states, key=lambda state: root.costs[state])
    return whole, _exceptions(root, whole, sorted(mounts, key=len, reverse=True))


def _tree(rows: Mapping[str, S]) -> _Node[S]:
    root: _Node[S] = _Node("/")
    for path, state in rows.items():
        at = root
        at.counts[state] = at.counts.get(state, 0) + 1
        for name in parts_of(path):
            below = at.below.get(name)
            if below is None:
                below = at.below[name] = _Node(f"{at.path.rstrip('/')}/{name}")
            at = below
            at.counts[state] = at.counts.get(state, 0) + 1
        at.own = state
    return root


def _kept(node: _Node[S], state: S) -> int:
    """The exceptions at and below a node where it stands as said."""
    return (node.own not in (None, state)) + sum(child.costs[state] for child in node.below.values())


def _weigh(node: _Node[S], states: list[S]) -> None:
    """Finds the fewest exceptions for each state that a node may be told with."""
    for child in node.below.values():
        _weigh(child, states)
    node.kept = {state: _kept(node, state) for state in states}
    turned = _turned(node)
    node.costs = {state: min(node.kept[state], turned) for state in states}


def _turned(node: _Node[S]) -> int:
    """The exceptions at and below a node that is one itself."""
    return 1 + min(node.kept.values())


def _exceptions(node: _Node[S], state: S, mounts: list[str]) -> list[Exceptional[S]]:
    """The exceptions at and below a node that is told with this state."""
    if node.costs[state] == 0:
        return []
    if len(node.counts) == 1:
        (other,) = node.counts
        return [Exceptional(_snapped(node, mounts), other, node.counts[other])]
    # of two ways that take as many words, a folder that stands otherwise itself is told as a whole
    if node.kept[state] == node.costs[state] and (node.own in (None, state) or _turned(node) > node.costs[state]):
        return _alone(node, state) + _of_children(node, state, mounts)
    other = min(node.counts, key=lambda told: (node.kept[told], -node.counts[told]))
    whole = [Exceptional(_narrowed(node).path, other, node.counts[other])]
    return whole + _alone(node, other) + _of_children(node, other, mounts)


def _alone(node: _Node[S], state: S) -> list[Exceptional[S]]:
    if node.own in (None, state):
        return []
    return [Exceptional(node.path, node.own, 1, bool(node.below))]


def _of_children(node: _Node[S], state: S, mounts: list[str]) -> list[Exceptional[S]]:
    return [told for name in sorted(node.below) for told in _exceptions(node.below[name], state, mounts)]


def _narrowed(node: _Node[S]) -> _Node[S]:
    """The deepest folder with the same rows."""
    while node.own is None and len(node.below) == 1:
        (node,) = node.below.values()
    return node


def _snapped(node: _Node[S], mounts: list[str]) -> str:
    """The path to tell of rows that all stand alike: the deepest mount that has them all, else the deepest folder."""
    narrow = _narrowed(node).path
    return next((place for place in mounts if is_below(narrow, place) and is_below(place, node.path)), narrow)
