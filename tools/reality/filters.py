"""What seccomp programs answer to a call: classic BPF, run here on what a call carries (seccomp(2))."""
from __future__ import annotations

import struct
from functools import lru_cache
from typing import NamedTuple, Sequence

X86_64, I386 = 0xC000003E, 0x40000003
X32_BIT = 0x40000000
KILL_PROCESS, KILL_THREAD, TRAP, ERRNO, USER_NOTIFY, TRACE, LOG, ALLOW = (
    0x80000000, 0x00000000, 0x00030000, 0x00050000, 0x7FC00000, 0x7FF00000, 0x7FFC0000, 0x7FFF0000,
)  # fmt: skip
# the calls that are looked at together
NUMBERS = frozenset(range(480))
# uretprobe(2) and uprobe(2), of which the kernel asks no filter
NEVER_FILTERED = (335, 336)
# the one that comes first wins
_ORDER = (KILL_PROCESS, KILL_THREAD, TRAP, ERRNO, USER_NOTIFY, TRACE, LOG, ALLOW)
_KILLS = (KILL_PROCESS, KILL_THREAD, TRAP)


class Verdict(NamedTuple):
    """What all filters answer together."""

    action: int
    errno: int = 0

    @property
    def passes(self) -> bool:
        """Whether the kernel gets to see the call."""
        return self.action in (LOG, ALLOW)

    @property
    def text(self) -> str:
        """`passes`, `killed` or `errno N`."""
        return "passes" if self.passes else "killed" if self.action in _KILLS else f"errno {self.errno}"


class Program:
    """One program: its instructions as (code, jump if true, jump if false, number)."""

    def __init__(self, data: bytes):
        self._steps = list(struct.iter_unpack("<HBBI", data))
        self._known: dict[tuple[int, ...], dict[int, int]] = {}

    def answers(self, numbers: frozenset[int], words: tuple[int, ...]) -> dict[int, int]:
        """The word that it returns to each of these calls, whose struct seccomp_data is the number and these 15 words of 32 bits."""
        key = (len(numbers), min(numbers, default=0), *words)
        if key not in self._known:
            self._known[key] = self._run(numbers, words)
        return self._known[key]

    def _run(self, numbers: frozenset[int], words: tuple[int, ...]) -> dict[int, int]:
        """All numbers go through the program together, and part where a jump parts them."""
        found: dict[int, int] = {}
        # where, the accumulator (None is the call's number), the index, the memory, and which numbers are there
        waiting: list[tuple[int, int | None, int, tuple[int, ...], frozenset[int]]] = [(0, 0, 0, (0,) * 16, numbers)]
        while waiting:
            at, held, index, memory, those = waiting.pop()
            code, if_true, if_false, number = self._steps[at]
            kind = code & 7
            if kind not in (0, 5, 6) and held is None:
                # arithmetic on the number: one by one
                waiting += [(at, one, index, memory, frozenset([one])) for one in those]
                continue
            if kind == 6:
                for one in those:
                    found[one] = number if code & 0x18 != 0x10 else one if held is None else held
                continue
            if kind == 5:
                operand = index if code & 8 else number
                test = code & 0xF0
                if test == 0:
                    waiting.append((at + 1 + number, held, index, memory, those))
                    continue
                yes = _those(test, operand, those) if held is None else those if _holds(test, held, operand) else frozenset()
                no = those - yes
                waiting += [(at + 1 + jump, held, index, memory, part) for jump, part in ((if_true, yes), (if_false, no)) if part]
                continue
            if kind == 0:
                mode = code & 0xE0
                if mode == 0x20:
                    held = words[number // 4 - 1] if number else None
                else:
                    held = number if mode == 0 else memory[number] if mode == 0x60 else 64
            elif kind == 1:
                index = number if code & 0xE0 == 0 else memory[number] if code & 0xE0 == 0x60 else 64
            elif kind in (2, 3):
                memory = (*memory[:number], held if kind == 2 else index, *memory[number + 1 :])
            elif kind == 4:
                held = _computed(code & 0xF0, held, index if code & 8 else number)
            elif code & 0xF8 == 0:
                index = held
            else:
                held = index
            waiting.append((at + 1, held, index, memory, those))
        return found


def _holds(test: int, held: int, operand: int) -> bool:
    if test == 0x10:
        return held == operand
    if test == 0x40:
        return held & operand != 0
    return held > operand if test == 0x20 else held >= operand


def _those(test: int, operand: int, numbers: frozenset[int]) -> frozenset[int]:
    if test == 0x10:
        return numbers & {operand}
    return frozenset(number for number in numbers if _holds(test, number, operand))


def _computed(operation: int, held: int, operand: int) -> int:
    return {
        0x00: lambda: held + operand, 0x10: lambda: held - operand, 0x20: lambda: held * operand, 0x30: lambda: held // operand,
        0x40: lambda: held | operand, 0x50: lambda: held & operand, 0x60: lambda: held << operand, 0x70: lambda: held >> operand,
        0x80: lambda: -held, 0xA0: lambda: held ^ operand,
    }[operation]() & 0xFFFFFFFF  # fmt: skip


@lru_cache(maxsize=256)
def program_of(data: bytes) -> Program:
    """The program of these bytes; many services have the same."""
    return Program(data)


class Filters:
    """All programs of a process."""

    def __init__(self, programs: Sequence[bytes]):
        self.programs = [program_of(data) for data in programs]
        self._plain: dict[int, dict[int, Verdict]] = {}

    def verdict(self, number: int, arguments: Sequence[int] = (), arch: int = X86_64) -> Verdict:
        """What becomes of a call."""
        if arguments or number not in NUMBERS:
            return self.verdicts(arguments, arch, frozenset([number]))[number]
        if arch not in self._plain:
            self._plain[arch] = self.verdicts((), arch)
        return self._plain[arch][number]

    def verdicts(self, arguments: Sequence[int] = (), arch: int = X86_64, numbers: frozenset[int] = NUMBERS) -> dict[int, Verdict]:
        """What becomes of each of these calls, with these arguments (those behind the last one are 0)."""
        words = [arch, 0, 0]
        for place in range(6):
            argument = (arguments[place] if place < len(arguments) else 0) & 0xFFFFFFFFFFFFFFFF
            words += [argument & 0xFFFFFFFF, argument >> 32]
        # the newest is asked first, and of equal actions the first answer counts
        each = [program.answers(numbers, tuple(words)) for program in reversed(self.programs)]
        return {number: _strongest([answers[number] for answers in each]) for number in numbers}


def _strongest(answers: Sequence[int]) -> Verdict:
    best, least = ALLOW, len(_ORDER) - 1
    for answer in answers:
        action = answer & 0xFFFF0000
        rank = _ORDER.index(action) if action in _ORDER else 0
        if rank < least:
            best, least = answer, rank
    return Verdict(_ORDER[least], best & 0xFFFF if _ORDER[least] == ERRNO else 0)
