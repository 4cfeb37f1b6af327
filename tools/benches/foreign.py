"""What `check` takes for filters of another maker: allow lists of the calls of `@system-service`, and of growing parts of the table.

Filters in a row are made here, one comparison for each number; where libseccomp is installed it makes its own of the same numbers, in
a row and as a tree (SCMP_FLTATR_CTL_OPTIMIZE 1 and 2), for the one ABI, as systemd has it make them. Of each: its instructions, what
the program says, the median of the processor's milliseconds, and the most memory.
"""
from __future__ import annotations

import argparse
import ctypes
import ctypes.util
import os
import shutil
import struct
import tempfile
from typing import Iterator, Optional, Sequence

from benches import CALLS, DEBIAN, PROGRAM, inputs
from benches.filters import END, EQUAL, LOAD, X86_64
from benches.timing import Timed, in_turns, median

KILL, ALLOW = 0x80000000, 0x7FFF0000
# <seccomp.h>
BAD_ARCHITECTURE, OPTIMIZE = 2, 8


def add_words(parser: argparse.ArgumentParser) -> None:
    """The words of the subcommand."""
    parser.add_argument("--runs", type=int, default=11, metavar="N", help="how often each is run (11)")
    parser.add_argument("--keep", metavar="FOLDER", help="where the filters are kept as files")


def numbers_of(words: Sequence[str]) -> list[int]:
    """The numbers of the calls that these names and groups of the table stand for, ascending."""
    calls: dict[str, set[int]] = {}
    groups: dict[str, set[int]] = {}
    with open(CALLS, encoding="utf-8") as file:
        for line in file:
            said = line.split()
            if said[:1] == ["call"]:
                calls[said[1]] = {int(said[2])}
            elif said[:1] == ["group"]:
                groups[said[1]] = {number for one in said[2:] for number in {**calls, **groups}.get(one, set())}
    return sorted({number for word in words for number in {**calls, **groups}[word]})


def in_a_row(numbers: Sequence[int]) -> list[bytes]:
    """A filter that compares with one number after the other."""
    code = [(LOAD, 0, 0, 4), (EQUAL, 1, 0, X86_64), (END, 0, 0, KILL), (LOAD, 0, 0, 0)]
    for number in numbers:
        code += [(EQUAL, 0, 1, number), (END, 0, 0, ALLOW)]
    return [struct.pack("<HBBI", *insn) for insn in code + [(END, 0, 0, KILL)]]


def by_libseccomp(numbers: Sequence[int], level: int) -> Optional[list[bytes]]:
    """The filter that libseccomp makes; None where it is not installed."""
    path = ctypes.util.find_library("seccomp")
    if path is None:
        return None
    library = ctypes.CDLL(path)
    library.seccomp_init.restype = ctypes.c_void_p
    held = ctypes.c_void_p(library.seccomp_init(ctypes.c_uint32(KILL)))
    for attribute, value in ((BAD_ARCHITECTURE, KILL), (OPTIMIZE, level)):
        if library.seccomp_attr_set(held, attribute, ctypes.c_uint32(value)) != 0:
            raise OSError("libseccomp refuses an attribute")
    for number in numbers:
        if library.seccomp_rule_add(held, ctypes.c_uint32(ALLOW), number, 0) != 0:
            raise OSError(f"libseccomp refuses the call {number}")
    with tempfile.TemporaryFile() as file:
        library.seccomp_export_bpf(held, file.fileno())
        file.seek(0)
        code = file.read()
    library.seccomp_release(held)
    return [code[at : at + 8] for at in range(0, len(code), 8)]


def filters() -> Iterator[tuple[str, list[bytes], str]]:
    """Each filter with its name and the lines of its unit."""
    service = numbers_of(["@default", "@system-service"])
    unit = "SystemCallFilter=@system-service"
    yield "@system-service in a row", in_a_row(service), unit
    for level, name in ((1, "in a row"), (2, "as a tree")):
        made = by_libseccomp(service, level)
        if made is not None:
            yield f"@system-service by libseccomp {name}", made, unit
    with open(CALLS, encoding="utf-8") as file:
        names = [line.split()[1] for line in file if line.startswith("call ")]
    for count in (46, 92, 184, 368):
        yield f"{count} calls in a row", in_a_row(numbers_of(["@default", *names[:count]])), "SystemCallFilter=" + " ".join(names[:count])


def main(found: argparse.Namespace) -> int:
    """Times them all in turns."""
    with tempfile.TemporaryDirectory(prefix="bench-") as folder:
        runs = []
        for place, (name, code, unit) in enumerate(filters()):
            here = f"{folder}/{place}"
            inputs.write(f"{here}/{inputs.SYSTEM}/web.service", f"[Service]\nExecStart=/usr/bin/true\n{unit}\n")
            inputs.write(f"{here}/f.txt", "".join(f"{insn.hex()}\n" for insn in code))
            shutil.copy(CALLS, f"{here}/calls.txt")
            shutil.copy(DEBIAN, f"{here}/site.toml")
            if found.keep:
                os.makedirs(found.keep, exist_ok=True)
                shutil.copy(f"{here}/f.txt", f"{found.keep}/{name.replace(' ', '-')}.txt")
            runs.append((Timed(name, [PROGRAM, "check", "web.service", "calls", "f.txt"], here), len(code)))
        in_turns([timed for timed, _ in runs], found.runs)
        for timed, length in runs:
            print(f"{timed.name}: {length} instructions, status {timed.status}, {median(timed.processor):.1f} ms, {timed.memory:.1f} MB")
    return 0
