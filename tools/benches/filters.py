"""What the programs of filters cost: of some units over tables/x86-64, or of files with what `filter` printed.

Of each program: its length, its longest path over all inputs, and the fewest, the average and the most instructions that it makes
for the calls 0 to 511 of x86-64, whose arguments are 0. Behind the programs of a unit: their sums, the room that they take in a
stack with 4 for each program, and the fewest, the average and the most instructions of a call in all of them together.

The reader knows nothing of the compiler: it runs the instructions as their table in bpf(4) and <linux/filter.h> has them.
"""
from __future__ import annotations

import argparse
import os
import shutil
import struct
import subprocess
import tempfile
from typing import Callable, Iterator, Sequence, Tuple

from benches import CALLS, DEBIAN, PROGRAM, inputs

# The code, both jumps and the operand.
Insn = Tuple[int, int, int, int]
X86_64 = 0xC000003E
NUMBERS = range(512)

LOAD, AND, JUMP, EQUAL, GREATER, AT_LEAST, ANY_BIT, END = 0x20, 0x54, 0x05, 0x15, 0x25, 0x35, 0x45, 0x06

TESTS: dict[int, Callable[[int, int], bool]] = {
    EQUAL: lambda a, k: a == k,
    GREATER: lambda a, k: a > k,
    AT_LEAST: lambda a, k: a >= k,
    ANY_BIT: lambda a, k: a & k != 0,
}


UNITS = {
    "system-service": "SystemCallFilter=@system-service",
    "default": "SystemCallFilter=@default",
    "privileged": "SystemCallFilter=@privileged",
    "process": "SystemCallFilter=@process",
    "not-privileged": "SystemCallFilter=~@privileged",
    "hardened": "\n".join([
        "NoNewPrivileges=yes", "RestrictAddressFamilies=AF_UNIX AF_INET AF_INET6", "MemoryDenyWriteExecute=yes", "RestrictRealtime=yes",
        "RestrictSUIDSGID=yes", "RestrictNamespaces=yes", "ProtectHostname=yes", "ProtectKernelModules=yes", "ProtectKernelLogs=yes",
        "ProtectClock=yes", "PrivateDevices=yes", "LockPersonality=yes",
        "SystemCallFilter=~@clock @debug @module @mount @raw-io @reboot @swap @cpu-emulation @obsolete", "SystemCallErrorNumber=EPERM",
    ]),
}  # fmt: skip


def add_words(parser: argparse.ArgumentParser) -> None:
    """The words of the subcommand."""
    parser.add_argument("files", nargs="*", metavar="FILE", help="what `filter` printed (made of some units where none is given)")


def read_programs(unit: str, text: str) -> list[tuple[str, list[Insn]]]:
    """The programs of a printed text, each with its name."""
    programs: list[tuple[str, int, list[Insn]]] = []
    for line in text.split("\n"):
        words = line.split()
        if len(words) == 3 and words[0] == "filter":
            programs.append((words[1], int(words[2]), []))
        elif len(words) == 1 and len(words[0]) == 16:
            programs[-1][2].append(struct.unpack("<HBBI", bytes.fromhex(words[0])))
    for name, length, program in programs:
        if length != len(program):
            raise ValueError(f"{unit}: {name} has {len(program)} instructions and says {length}")
    return [(name, program) for name, _, program in programs]


def run(program: Sequence[Insn], words: Sequence[int]) -> tuple[int, int]:
    """The answer, and how many instructions were made."""
    a = place = made = 0
    while True:
        code, hit, miss, k = program[place]
        made += 1
        place += 1
        if code == LOAD:
            a = words[k // 4]
        elif code == AND:
            a &= k
        elif code == JUMP:
            place += k
        elif code in TESTS:
            place += hit if TESTS[code](a, k) else miss
        elif code == END:
            return k, made
        else:
            raise ValueError(f"code {code:#x}")


def longest_path(program: Sequence[Insn]) -> int:
    """The longest way through the instructions, whether some input takes it or not."""
    longest = [0] * len(program)
    for place in reversed(range(len(program))):
        code, hit, miss, k = program[place]
        if code == END:
            further = 0
        elif code == JUMP:
            further = longest[place + 1 + k]
        elif code in TESTS:
            further = max(longest[place + 1 + hit], longest[place + 1 + miss])
        else:
            further = longest[place + 1]
        longest[place] = 1 + further
    return longest[0]


def spread(counts: Sequence[int]) -> str:
    """The fewest, the average and the most."""
    return f"{min(counts)}/{sum(counts) / len(counts):.1f}/{max(counts)}"


def made_for_each_number(program: Sequence[Insn]) -> list[int]:
    """How many instructions are made for each number."""
    return [run(program, [number, X86_64] + [0] * 14)[1] for number in NUMBERS]


def tell(unit: str, text: str) -> None:
    """Tells of the programs of a unit."""
    programs = read_programs(unit, text)
    whole = [0] * len(NUMBERS)
    for name, program in programs:
        made = made_for_each_number(program)
        whole = [before + more for before, more in zip(whole, made)]
        print(f"{unit} {name}: length {len(program)}, longest path {longest_path(program)}, made {spread(made)}")
    if len(programs) > 1:
        length = sum(len(program) for _, program in programs)
        paths = sum(longest_path(program) for _, program in programs)
        room = length + 4 * len(programs)
        print(f"{unit} all {len(programs)}: length {length}, room {room}, longest paths {paths}, made {spread(whole)}")



def printed() -> Iterator[tuple[str, str]]:
    """What `filter` prints of some units."""
    with tempfile.TemporaryDirectory(prefix="bench-") as folder:
        shutil.copy(CALLS, folder)
        shutil.copy(DEBIAN, f"{folder}/site.toml")
        for name, lines in UNITS.items():
            inputs.write(f"{folder}/{inputs.SYSTEM}/web.service", f"[Service]\nExecStart=/usr/bin/true\n{lines}\n")
            yield name, subprocess.run([PROGRAM, "filter", "web.service"], cwd=folder, stdout=subprocess.PIPE, text=True, check=True).stdout


def main(found: argparse.Namespace) -> int:
    """Tells of the files, or of the units."""
    for path in found.files:
        with open(path, encoding="utf-8") as file:
            tell(os.path.basename(path), file.read())
    for name, text in () if found.files else printed():
        tell(name, text)
    return 0
