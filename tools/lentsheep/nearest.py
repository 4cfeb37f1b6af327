"""The word of a list that a wrong word is nearest to, by letters that are put in, left out, changed or crossed with the next."""
from __future__ import annotations

TYPE_CHECKING = False
if TYPE_CHECKING:
    from typing import Iterable


def nearest(word: str, known: Iterable[str]) -> str:
    """The first of the nearest words; empty where none is near. Case does not count."""
    wrong, best, least = word.lower(), "", limit(word) + 1
    for it in sorted(known):
        if abs(len(it) - len(wrong)) < least and (found := distance(wrong, it.lower(), least)) < least:
            best, least = it, found
    return best


def limit(word: str) -> int:
    """How many letters may be wrong in a word of this length."""
    return 1 if len(word) < 6 else 2 if len(word) < 11 else 3


def distance(one: str, other: str, most: int) -> int:
    """How many letters are wrong; `most` where there are as many or more."""
    before, row = [], list(range(len(other) + 1))
    for at, letter in enumerate(one):
        further, before, row = before, row, [at + 1]
        for to, another in enumerate(other):
            cost = min(before[to + 1] + 1, row[to] + 1, before[to] + (letter != another))
            if at and to and letter == other[to - 1] and one[at - 1] == another:
                cost = min(cost, further[to - 1] + 1)
            row.append(cost)
        if min(row) >= most:
            return most
    return row[-1]
