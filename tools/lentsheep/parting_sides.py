"""Whether a parting bears on a report: it is told only where an answer is on its side.

A parting that tells which answers it touches bears on a report with some of them. One that cannot tell bears on denied answers where
systemd opens more, and on open ones where it denies more, of the kinds that are listed here, or of every kind.
"""
from __future__ import annotations

from .partings import Direction, Parting
from .values import PATH_KINDS, Report

# Kinds of questions that a parting bears on, of those that cannot tell which answers they touch.
_KINDS = {"file-modes": PATH_KINDS, "nnp-from-more": ("cap", "uid", "gid")}
# What other processes of the unit may do, of which no question asks: it is told whatever the answers are.
_BESIDE = ("privileged-commands", "further-commands")


def bears_on(parting: Parting, report: Report) -> bool:
    """Whether an answer of the report is on the side of a parting."""
    if parting.direction == Direction.EITHER or parting.name in _BESIDE:
        return True
    if parting.answers is not None:
        return bool(parting.answers or parting.blind)
    is_open = parting.direction == Direction.OPEN_HERE
    answers = report.of_kind(*_KINDS[parting.name]) if parting.name in _KINDS else report.answers
    return any(answer.is_open == is_open for answer in answers)
