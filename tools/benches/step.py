"""What a call of a replayed script takes: a replay of as many calls as a script may have, less one of a single call. Reading a call and
printing its line count too.

The calls take no memory: one that is plain, one that the kernel lacks, a path that is found and one that is not, an open for
writing that is refused, a family, an id that stays, and two operations of prctl(2).
"""
from __future__ import annotations

import argparse
import os
import shutil
import subprocess
import tempfile
import time

from benches import CALLS, DEBIAN, PROGRAM

STEPS = 16_383
STEPPED = [
    "1 getpid", "1 clone3", "1 stat /usr/bin", "1 stat /usr/nothing", "1 open /usr/bin 0 1", "1 socket 2 1",
    "1 setresuid 4294967295 4294967295 4294967295", "1 prctl 39", "1 prctl 47 1 21",
]  # fmt: skip


def add_words(parser: argparse.ArgumentParser) -> None:
    """The words of the subcommand."""
    parser.add_argument("--source", metavar="FOLDER", help="a folder whose calls.txt and site.toml are taken")


def main(found: argparse.Namespace) -> int:
    """Prints the nanoseconds of each call."""
    calls, site = (f"{found.source}/calls.txt", f"{found.source}/site.toml") if found.source else (CALLS, DEBIAN)
    with tempfile.TemporaryDirectory(prefix="bench-") as folder:
        os.makedirs(f"{folder}/etc/systemd/system")
        with open(f"{folder}/etc/systemd/system/step.service", "w", encoding="utf-8") as unit:
            unit.write("[Service]\nExecStart=/usr/bin/bash\n")
        shutil.copy(calls, f"{folder}/calls.txt")
        shutil.copy(site, f"{folder}/site.toml")

        def run(steps: int, call: str) -> tuple[float, str]:
            with open(f"{folder}/script", "w", encoding="utf-8") as script:
                script.write(f"{call}\n" * steps)
            began = time.perf_counter()
            ended = subprocess.run([PROGRAM, "replay", "step.service", "script"], cwd=folder, stdout=subprocess.PIPE, text=True, check=True)
            return time.perf_counter() - began, ended.stdout.rstrip("\n").split("\n")[-2]

        for call in STEPPED:
            one, _ = run(1, call)
            many, last = run(STEPS + 1, call)
            print(f"{(many - one) * 1e9 / STEPS:.0f} ns  {last}")
    return 0
