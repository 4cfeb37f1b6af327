"""What runs over hostile inputs cost: processor time, the most memory held, and how much is printed.

The inputs below stand over the files of examples/hardened. A run that takes more than a second, 200 MB or prints more than 16 MB is
marked `!`.
"""
from __future__ import annotations

import argparse
import os
import shutil
import subprocess
import tempfile
from io import BufferedReader
from typing import Callable, Dict, Sequence, Tuple, cast

from benches import CALLS, PROGRAM, TOP
from benches.timing import high_water

Files = Dict[str, str]
SYSTEM = "etc/systemd/system"
NAME = "a" * 245 + ".service"
HEAD = "[Service]\nExecStart=/usr/bin/web\n"
SHORT = "a" * 60 + ".service"
WEB = "web.service"
MEBIBYTE = 1 << 20

# How much of a run's text is taken.
MOST_PRINTED = 64_000_000


def filled(front: str, piece: str, behind: str = "\n") -> str:
    """A text of at most one mebibyte: the front, as many pieces as there is room for, and what ends it."""
    return front + piece * ((MEBIBYTE - len(front) - len(behind)) // len(piece)) + behind


def unit(text: str) -> Files:
    """The unit of a name of 253 bytes."""
    return {f"{SYSTEM}/{NAME}": text}


def drop_ins(text: str, count: int = 16, name: str = WEB) -> Files:
    """A unit with so many drop-ins of this text."""
    return {f"{SYSTEM}/{name}": HEAD, **{f"{SYSTEM}/{name}.d/{at:02}.conf": text for at in range(count)}}


def mounting(script: str) -> Files:
    """A script over the real table of calls."""
    with open(CALLS, encoding="utf-8") as file:
        return {**unit(HEAD), "calls.txt": file.read(), "s.txt": script}


def beside(path: str, text: str) -> Files:
    """A plain unit with another file."""
    return {**unit(HEAD), path: text}


FILTER, PLAN, JUDGE = ["filter", NAME], ["plan", NAME], ["judge", NAME]
REPLAY, SCORE = ["replay", NAME, "s.txt"], ["score", NAME, "p.json"]

# What the input is, what makes its files, which stand over those of the example, and the commands that run over it.
ROWS: Tuple[Tuple[str, Callable[[], Files], Sequence[Sequence[str]]], ...] = (
    ("a name of 253 bytes, a thousand times in User=", lambda: unit(HEAD + "User=" + "%n" * 1000 + "\n"), (FILTER, JUDGE)),
    ("a name of 253 bytes, a mebibyte of them in User=", lambda: unit(filled(HEAD + "User=", "%n")), (FILTER, JUDGE)),
    ("a name of 253 bytes, a mebibyte of them in Group=", lambda: unit(filled(HEAD + "Group=", "%n")), (FILTER,)),
    ("a name of 253 bytes, a mebibyte of them in ExecStart=", lambda: unit(filled("[Service]\nExecStart=", "%n")), (FILTER,)),
    ("a name of 253 bytes, a mebibyte of them in ReadWritePaths=", lambda: unit(filled(HEAD + "ReadWritePaths=", "%n")), (PLAN, JUDGE)),
    ("a name of 253 bytes, a mebibyte of words", lambda: unit(filled(HEAD + "CapabilityBoundingSet=", "%n ")), (FILTER, JUDGE)),
    ("a name of 253 bytes, 4,000 lines of a hundred", lambda: unit((HEAD + ("ReadWritePaths=" + "%n" * 100 + "\n") * 4000)[:MEBIBYTE]), (JUDGE,)),
    ("a name of 68 bytes, a mebibyte of them in User=", lambda: {f"{SYSTEM}/{SHORT}": filled(HEAD + "User=", "%n")}, (["filter", SHORT],)),
    ("two drop-ins of a name of 253 bytes, a mebibyte of them", lambda: drop_ins(filled("[Service]\nAmbientCapabilities=", "%n"), 2, NAME), (FILTER,)),
    ("16 drop-ins of a mebibyte of comments", lambda: drop_ins(filled("[Service]\n", "#" * 63 + "\n")), (["filter", WEB], ["judge", WEB])),
    ("16 drop-ins of 4,096 assignments of 250 bytes", lambda: drop_ins("[Service]\n" + ("Nice=" + "a" * 244 + "\n") * 4096), (["filter", WEB], ["judge", WEB])),
    ("16 drop-ins of 4,096 lists of 240 bytes", lambda: drop_ins("[Service]\n" + ("ReadWritePaths=" + "a" * 220 + "\n") * 4096), (["filter", WEB], ["judge", WEB])),
    ("16 drop-ins of a mebibyte of words that are no paths", lambda: drop_ins(filled("[Service]\nReadWritePaths=", "a ")), (["filter", WEB], ["judge", WEB])),
    ("16 drop-ins of a mebibyte of calls that are none", lambda: drop_ins(filled("[Service]\nSystemCallFilter=~", "a ")), (["filter", WEB], ["judge", WEB])),
    ("16 drop-ins of a mebibyte of one call", lambda: drop_ins(filled("[Service]\nSystemCallFilter=~", "read ")), (["filter", WEB], ["judge", WEB])),
    ("16 drop-ins of a mebibyte of groups", lambda: drop_ins(filled("[Service]\nSupplementaryGroups=", "33 ")), (["filter", WEB], ["judge", WEB])),
    ("16 drop-ins of a continued mebibyte", lambda: drop_ins(filled("[Service]\nDescription=", "a\\\n")), (["filter", WEB], ["judge", WEB])),
    ("16 drop-ins of a mebibyte of headers", lambda: drop_ins(filled("", "[A]\n")), (["filter", WEB], ["judge", WEB])),
    ("16 drop-ins of a mebibyte of lines without =", lambda: drop_ins(filled("[Service]\n", "a\n")), (["filter", WEB], ["judge", WEB])),
    ("a unit of a million line feeds", lambda: unit(HEAD + "\n" * 1_000_000), (FILTER, JUDGE)),
    ("16 drop-ins of a million line feeds", lambda: drop_ins("\n" * 1_000_000), (["filter", WEB], ["judge", WEB])),
    ("calls.txt of a million line feeds", lambda: beside("calls.txt", "\n" * 1_000_000), (FILTER,)),
    ("site.toml of a million line feeds", lambda: beside("site.toml", "dynamic_uid = 1" + "\n" * 1_000_000), (FILTER,)),
    ("site.toml of a mebibyte of empty rows", lambda: beside("site.toml", filled("dynamic_uid = 1\n", "[[row]]\n")), (FILTER,)),
    ("site.toml of a mebibyte of brackets", lambda: beside("site.toml", filled("a = ", "[")), (FILTER,)),
    ("site.toml of a mebibyte of dotted keys", lambda: beside("site.toml", filled("a", ".a", " = 1\n")), (FILTER,)),
    ("a script of a million line feeds", lambda: beside("s.txt", "\n" * 1_000_000), (REPLAY,)),
    ("a script of a mebibyte of one program", lambda: beside("s.txt", filled("1 seccomp ", "0" * 16)), (REPLAY,)),
    ("a script of a mebibyte of one path", lambda: beside("s.txt", filled("1 stat /", "a")), (REPLAY,)),
    ("a script of binds that fill the table of mounts", lambda: mounting("1 mount / /proc 0 0 0 20480\n" * 16384), (REPLAY,)),
    ("a script of namespaces of full tables", lambda: mounting("1 mount / /proc 0 0 0 20480\n" * 12 + "1 unshare 131072\n" * 16372), (REPLAY,)),
    ("a policy of a million line feeds", lambda: beside("p.json", "{" + "\n" * 1_000_000 + "}"), (SCORE,)),
    ("a policy of a mebibyte of brackets", lambda: beside("p.json", filled('{"a":', "[")), (SCORE,)),
    ("a policy of a mebibyte of tests", lambda: beside("p.json", filled("{", '"a":{"weight":1},', '"b":{"weight":1}}')), (SCORE,)),
    ("a policy with a name of a mebibyte", lambda: beside("p.json", filled('{"', " ", '":{"weight":1},"PrivateTmp":{"weight":1}}')), (SCORE,)),
)


def measured(folder: str, words: Sequence[str]) -> tuple[int, int, float, float, bytes]:
    """The status, the printed bytes, seconds of the processor, the most memory in MB of a run more, and what was written to standard error.

    What is printed is counted and passed over; a run that prints more than 64 MB is cut there, and counts as status 5.
    """
    count = 0
    with open(f"{folder}/told", "w+b") as told:
        run = subprocess.Popen([PROGRAM, *words], cwd=folder, stdin=subprocess.DEVNULL, stdout=subprocess.PIPE, stderr=told)
        output = cast(BufferedReader, run.stdout)
        while piece := output.read1(1 << 20):
            count += len(piece)
            if count > MOST_PRINTED:
                break
        output.close()
        _, status, used = os.wait4(run.pid, 0)
        run.returncode = os.waitstatus_to_exitcode(status)
        told.seek(0)
        return run.returncode, count, used.ru_utime + used.ru_stime, high_water([PROGRAM, *words], folder), told.read()


def add_words(parser: argparse.ArgumentParser) -> None:
    """The words of the subcommand."""
    parser.add_argument("sought", nargs="*", metavar="WORD", help="run the inputs whose names have one of these (all where none is given)")


def main(found: argparse.Namespace) -> int:
    """Runs the commands, and prints a line of each."""
    for what, made, commands in ROWS:
        if found.sought and not any(word in what for word in found.sought):
            continue
        with tempfile.TemporaryDirectory() as folder:
            shutil.copytree(f"{TOP}/examples/hardened", folder, dirs_exist_ok=True)
            for path, text in made().items():
                os.makedirs(os.path.dirname(f"{folder}/{path}"), exist_ok=True)
                with open(f"{folder}/{path}", "w") as file:
                    file.write(text)
            for words in commands:
                status, size, seconds, memory, told = measured(folder, words)
                mark = "!" if seconds > 1 or memory > 200 or size > 16_000_000 else " "
                print(f"{mark} {what}: {words[0]} -> {status}, {seconds:.2f} s, {memory:.1f} MB, {size:,} bytes printed", told[:80] or "", flush=True)
    return 0
