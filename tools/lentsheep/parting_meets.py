"""What rules of partings are made of: conditions on the text, and lines that close them."""
from __future__ import annotations

from typing import Callable, Iterable

from .judged import Judged
from .unit_text import Said

Keys = tuple[str, ...]
# No key of the unit meets it: the host does.
BY_HOST: Keys = ("",)


def said(met_by: Callable[[Said], Keys]) -> Callable[[Judged], Keys]:
    """A condition on the text alone."""
    return lambda judged: met_by(judged.said)


def lines(*closing: str) -> Callable[[Judged], Iterable[str]]:
    """Lines that close a parting whatever the unit is."""
    return lambda judged: closing


def without(judged: Judged, capability: str) -> str:
    """The line that takes a capability off."""
    return f"{'CapabilityBoundingSet' if judged.is_root else 'AmbientCapabilities'}=~{capability}"
