"""What is open because a real kernel does more than filters see, by the calls that a report prints.

`ways(report)` are these ways with their open answers. Today it is one: a request to a ring (io_uring(7)), which the kernel performs
without asking a filter. Only a site with the key `systemd` has it.
"""
from __future__ import annotations

from typing import Callable, Iterable, Optional

from .calls import Call
from .harm import Tried
from .record import dataclass
from .screen import counted
from .table import Table
from .values import PATH_KINDS, SWITCHES, Answer, Report


@dataclass(frozen=True)
class Way:
    """Open answers of a kind whose printed calls go one way."""

    by: str
    kind: str
    answers: tuple[Answer, ...]

    @property
    def told(self) -> str:
        """How many answers of which kind."""
        if self.kind in SWITCHES:
            return self.kind
        count = len(self.answers)
        return f"{self.kind} of {counted(count, 'path')}" if self.kind in PATH_KINDS else counted(count, self.kind)


def _is_ring_call(call: Call) -> bool:
    """Whether a call sets up a ring, or submits a request to it."""
    return call.name == "io_uring_setup" or bool(call.request)


def _ring_lines(answer: Answer, table: Table) -> list[str]:
    """The group of the table that has these calls and fewest others, and the call that sets up a ring."""
    calls = [call.name for call in answer.calls if _is_ring_call(call)]
    groups = [name for name, members in table.groups.items() if members.issuperset(calls)]
    least = sorted(groups, key=lambda name: (len(table.groups[name]), name))[:1]
    return [f"SystemCallFilter=~{name}" for name in (*least, calls[0])]


#: Whether an answer is open by a way, and the lines that may close one that is.
_WAYS: dict[str, tuple[Callable[[Answer], bool], Callable[[Answer, Table], list[str]]]] = {
    "io_uring": (lambda answer: any(call.request for call in answer.calls), _ring_lines),
}


def ways(report: Report) -> list[Way]:
    """The ways of a report, each by the kinds of its answers."""
    found = []
    for by, (is_open, _) in _WAYS.items():
        answers: dict[str, list[Answer]] = {}
        for answer in filter(is_open, report.answers):
            answers.setdefault(answer.question.kind, []).append(answer)
        found += [Way(by, kind, tuple(members)) for kind, members in answers.items()]
    return found


def candidates(way: Way, table: Table) -> list[str]:
    """Lines that may close a way."""
    _, lines = _WAYS[way.by]
    return lines(way.answers[0], table)


def closing(way: Way, table: Table, tried: Optional[Tried]) -> list[str]:
    """The lines that close all answers of a way by themselves: a run of `effect` said so."""
    asked = {answer.question.text for answer in way.answers}
    return [line for line in candidates(way, table) if asked <= (tried or {}).get(line, frozenset())]


def told(found: Iterable[Way], table: Table, tried: Optional[Tried]) -> list[tuple[str, list[str], list[str]]]:
    """The ways with what is open by them and the lines that close it; kinds that the same lines close are one."""
    groups: dict[tuple[str, tuple[str, ...]], list[str]] = {}
    for way in found:
        groups.setdefault((way.by, tuple(closing(way, table, tried))), []).append(way.told)
    return [(by, kinds, list(lines)) for (by, lines), kinds in groups.items()]
