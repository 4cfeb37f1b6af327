"""Which answers a parting touches: functions that take a unit as it was judged, and give a test of one answer.

A test is asked of answers that can be otherwise there: of denied ones where systemd opens more, and of open ones where it denies
more.
"""
from __future__ import annotations

from typing import Callable, Iterable

from .judged import Judged
from .places import is_below
from .values import PATH_KINDS, SWITCHES, Answer

Test = Callable[[Answer], bool]
Touches = Callable[[Judged], Test]


def nothing(judged: Judged) -> Test:
    """No answer of a report: the parting is about another process, or about calls that are not asked of."""
    return lambda answer: False


def of_kinds(*kinds: str) -> Touches:
    """All answers of these kinds."""
    return lambda judged: lambda answer: answer.question.kind in kinds


#: All questions about files.
files = of_kinds(*PATH_KINDS)


def at(kinds: Iterable[str], paths: Iterable[str]) -> Test:
    """A test of answers of these kinds about paths at or below some."""
    kinds, tops = tuple(kinds), tuple(paths)
    return lambda answer: answer.question.kind in kinds and any(is_below(answer.question.name, top) for top in tops)


def below(kinds: Iterable[str], *paths: str) -> Touches:
    """Answers of these kinds about paths at or below some."""
    return lambda judged: at(kinds, paths)


def left_to(judged: Judged, tops: Iterable[str]) -> Test:
    """Writes below one of these where no mount of the plan stands there or between."""
    tops = tuple(tops)
    return lambda answer: answer.question.kind == "write" and judged.is_left_to(answer.question.name, tops)


def sockets(judged: Judged) -> Test:
    """Sockets for which the service has the capability that their family asks for."""
    return lambda answer: answer.question.kind == "socket" and not judged.lacks_capability(answer)


def privileges(judged: Judged) -> Test:
    """What is denied for want of a privilege: all but what filters alone deny."""

    def test(answer: Answer) -> bool:
        question = answer.question
        if question.kind in ("call", "socket"):
            return question.name in judged.table.capabilities
        return question.kind not in SWITCHES

    return test


def given_by(capabilities: Iterable[str]) -> Touches:
    """What these capabilities give to a service that has them."""
    more = frozenset(capabilities)
    kinds = {"CAP_SYS_ADMIN": (*PATH_KINDS, "ns"), "CAP_SETUID": ("uid",), "CAP_SETGID": ("gid",), "CAP_SYS_NICE": ("realtime",)}

    def touches(judged: Judged) -> Test:
        def test(answer: Answer) -> bool:
            kind, name = answer.question.kind, answer.question.name
            if kind == "cap":
                return name in more
            if kind in ("call", "socket"):
                return judged.table.capabilities.get(name) in more
            # a user namespace asks for no capability
            return (kind, name) != ("ns", "user") and any(kind in kinds[capability] for capability in more & kinds.keys())

        return test

    return touches
