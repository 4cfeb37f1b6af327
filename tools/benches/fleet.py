"""What `fleet` takes for as many units as a host may have, beside `systemd-analyze security` of the same units, one by one, in one run.

The units are the hardened one and the same with fewer of its lines, over the table and the site of a source folder or the small Debian.
"""
from __future__ import annotations

import argparse
import os
import shutil
import tempfile
from typing import Sequence

from benches import PROGRAM, inputs
from benches.table import tell
from benches.timing import Timed, in_turns, median

MOST = 1024


def add_words(parser: argparse.ArgumentParser) -> None:
    """The words of the subcommand."""
    parser.add_argument("--runs", type=int, default=5, metavar="N", help="how often all units are scored (5)")
    parser.add_argument("--units", type=int, default=MOST, metavar="N", help=f"how many units there are ({MOST})")
    parser.add_argument("--source", metavar="FOLDER", help="a folder whose calls.txt and site.toml the units are scored on")


def make_units(folder: str, count: int) -> list[str]:
    """So many units beside the hardened one's inputs: each leaves out other lines of it. Returns their paths."""
    with open(f"{folder}/{inputs.SYSTEM}/web.service", encoding="utf-8") as file:
        lines = file.read().splitlines()
    os.remove(f"{folder}/{inputs.SYSTEM}/web.service")
    program = next(at for at, line in enumerate(lines) if line.startswith("ExecStart="))
    paths = []
    for number in range(count):
        kept = [line for at, line in enumerate(lines) if at <= program or not number >> (at - program - 1) % 10 & 1]
        paths.append(f"{inputs.SYSTEM}/unit-{number:04}.service")
        inputs.write(f"{folder}/{paths[-1]}", "\n".join(kept) + "\n")
    return paths


class OneByOne:
    """Runs of a command for each of some units, counted together."""

    def __init__(self, runs: Sequence[Timed]):
        self.runs, self.memory, self.status, self.printed = runs, 0.0, 0, 0
        self.clock: list[float] = []
        self.processor: list[float] = []

    def run(self) -> None:
        """One run more of each."""
        for timed in self.runs:
            timed.run()
        self.clock.append(sum(timed.clock[-1] for timed in self.runs))
        self.processor.append(sum(timed.processor[-1] for timed in self.runs))
        self.status = max(timed.status for timed in self.runs)

    def measure(self) -> None:
        """What each prints, and the most memory of one."""
        for timed in self.runs:
            timed.measure()
        self.memory = max(timed.memory for timed in self.runs)
        self.printed = sum(timed.printed for timed in self.runs)


def main(found: argparse.Namespace) -> int:
    """Times the commands, and prints the table."""
    with tempfile.TemporaryDirectory(prefix="bench-") as top:
        folder = f"{top}/host"
        inputs.make_hardened(folder, found.source and os.path.abspath(found.source))
        paths = make_units(folder, found.units)
        all_of_them: list[tuple[str, Timed | OneByOne]] = [(f"fleet, {found.units:,} units", Timed("fleet", [PROGRAM, "fleet", "policy.json"], folder))]
        analyze = shutil.which("systemd-analyze")
        if analyze:
            words = [analyze, "security", "--offline=true", "--no-pager"]
            all_of_them.append(("systemd-analyze security, each", OneByOne([Timed(path, [*words, f"./{path}"], folder) for path in paths])))
        in_turns([timed for _, timed in all_of_them], found.runs)
    tell([
        [name, str(it.status), f"{it.printed:,}", *(f"{one:.1f} ms" for one in (min(it.clock), median(it.clock), max(it.clock), median(it.processor))), f"{it.memory:.1f} MB", "-"]
        for name, it in all_of_them
    ])  # fmt: skip
    if not analyze:
        print("systemd-analyze is not on this machine")
    return 0
