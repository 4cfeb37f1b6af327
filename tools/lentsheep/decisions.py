"""The decision tree of a filter: which test of a call's data leads where (seccomp(2), classic BPF).

`decision_tree(program)` follows the program from its first instruction. A test says which word of the data it looks at; an end
says the action. A part that several tests lead to stands in the tree once for each of them.
"""
from __future__ import annotations

import errno
from typing import Optional, Sequence, Union

from .bpf import action_name, field_name, value_name
from .record import dataclass
from .values import Instruction

# Codes of instructions, linux/bpf_common.h.
LOAD, AND, JUMP, RETURN = 0x20, 0x54, 0x05, 0x06
TESTS = {0x15: "=", 0x25: ">", 0x35: "≥", 0x45: "&"}
LARGEST = 0xFFFFFFFF
# How many tests and ends a tree may have; those of settings have some hundred.
MOST = 4096


@dataclass(frozen=True)
class Numbers:
    """The call numbers with which a place is reached: from first to last, but for a few."""

    first: int = 0
    last: int = LARGEST
    but: tuple[int, ...] = ()

    @property
    def text(self) -> str:
        """Them in short."""
        if self.first > self.last:
            return "none"
        if self.first == self.last:
            text = f"{self.first}"
        elif self.last == LARGEST:
            text = f"from {self.first}" if self.first else "all"
        else:
            text = f"{self.first}–{self.last}"
        return text + (f" but {', '.join(map(str, self.but))}" if self.but else "")

    def has(self, number: int) -> bool:
        """Whether a number is one of them."""
        return self.first <= number <= self.last and number not in self.but


@dataclass(frozen=True)
class End:
    """An action, by the instruction that returns it."""

    at: int
    value: int
    numbers: Numbers

    @property
    def text(self) -> str:
        """The action in words."""
        name = action_name(self.value)
        is_error = name.startswith("errno ")
        return f"{name} {errno.errorcode.get(self.value & 0xFFFF, '')}".rstrip() if is_error else name


@dataclass(frozen=True)
class Test:
    """A test, by the instruction that makes it: of a word of the call's data, with a value."""

    at: int
    word: str
    mask: Optional[int]
    sign: str
    value: int
    yes: "Tree"
    no: "Tree"

    @property
    def text(self) -> str:
        """The test in words."""
        value = value_name(self.word, self.value) if self.word == "arch" or self.value < 1024 else hex(self.value)
        word = self.word.removesuffix(" low")
        left = word if self.mask is None else f"{word} & {hex(self.mask)}"
        return f"{left} & {hex(self.value)} ≠ 0" if self.sign == "&" else f"{left} {self.sign} {value}"


Tree = Union[End, Test]


def narrowed(numbers: Numbers, sign: str, value: int, holds: bool) -> Numbers:
    """The numbers with which a test of the number holds, or does not."""
    first, last, but = numbers.first, numbers.last, numbers.but
    if sign == "=" and holds:
        first, last, but = max(first, value), min(last, value), ()
    elif sign == "=":
        but = tuple(sorted({*but, value}))
    elif sign in "≥>":
        least = value if sign == "≥" else value + 1
        first, last = (max(first, least), last) if holds else (first, min(last, least - 1))
    while first in but:
        first += 1
    while last in but:
        last -= 1
    return Numbers(first, last, tuple(it for it in but if first < it < last))


def decision_tree(program: Sequence[Instruction]) -> Optional[Tree]:
    """The tree of a program; None where it is too large, or has an instruction that filters of settings do not have."""
    try:
        return _Followed(program).tree(0, "", None, Numbers())
    except _NoTree:
        return None


class _NoTree(Exception):
    """There is no tree of the program."""


class _Followed:
    """A program that is followed, with how much the tree may still grow."""

    def __init__(self, program: Sequence[Instruction]):
        self.program = program
        self.left = MOST

    def tree(self, at: int, word: str, mask: Optional[int], numbers: Numbers) -> Tree:
        """The tree from an instruction on, with what was loaded."""
        self.left -= 1
        while at < len(self.program) and self.left:
            code, value = self.program[at].code, self.program[at].k
            if code == LOAD:
                word, mask = field_name(value), None
            elif code == AND and mask is None:
                mask = value
            elif code == JUMP:
                at += value
            elif code == RETURN:
                return End(at, value, numbers)
            elif code in TESTS:
                return self.test(at, word, mask, numbers)
            else:
                break
            at += 1
        raise _NoTree

    def test(self, at: int, word: str, mask: Optional[int], numbers: Numbers) -> Test:
        """The tree from a test on."""
        here = self.program[at]
        sign = TESTS[here.code]
        of_number = word == "nr" and mask is None
        yes, no = (
            self.tree(at + 1 + offset, word, mask, narrowed(numbers, sign, here.k, holds) if of_number else numbers)
            for holds, offset in [(True, here.jt), (False, here.jf)]
        )
        return Test(at, word, mask, sign, here.k, yes, no)
