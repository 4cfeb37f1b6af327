"""The commands over made inputs, beside `true` and `systemd-analyze security` on the same units, in one table of one run.

The last column is the processor's time as a part of that of systemd-analyze over the hardened unit. With `--source ../shared/real` the
hardened unit, the one that runs as root, the one with 128 paths and the one with many groups are judged on a real table and site.
"""
from __future__ import annotations

import argparse
import os
import shutil
import tempfile
from typing import Optional, Sequence

from benches import PROGRAM, inputs
from benches.timing import Timed, in_turns, median

HEAD = ["What", "Status", "Printed", "Fastest", "Median", "Slowest", "Processor", "Memory", "Part"]
ANALYZE = "systemd-analyze security, {}"


def add_words(parser: argparse.ArgumentParser) -> None:
    """The words of the subcommand."""
    parser.add_argument("--runs", type=int, default=21, help="how often each is run (21)")
    parser.add_argument("--rows", type=int, default=50, help="rows in each of the 40 folders of the large site (50)")
    parser.add_argument("--source", metavar="FOLDER", help="a folder whose calls.txt and site.toml the hardened unit is judged on")
    parser.add_argument("--pipe", action="store_true", help="print into a pipe that is read along, and not to /dev/null")
    parser.add_argument("names", nargs="*", metavar="COMMAND", help="the commands (all where none is given)")


# Units of others that cost most: set-user-id programs in a hidden folder, with so many binds of `/`, each of which hides it too.
HIDDEN = ((1976, 0), (1976, 7), (1976, 63), (500, 63))
# Gids of a unit: as many as differ, of which a process may have 65,536, and more than it may have.
GROUPS = (65_000, 140_000)


def make_all(folder: str, found: argparse.Namespace) -> dict[str, str]:
    """Makes the inputs below a folder, and tells where each lies."""
    places = {name: f"{folder}/{name}" for name in ("large", "hardened", "root")}
    inputs.make_large(places["large"], found.rows)
    program = inputs.make_hardened(places["hardened"], found.source and os.path.abspath(found.source))
    inputs.make_other(places["root"], places["hardened"], f"[Service]\nExecStart={program}\n")
    for count in GROUPS:
        inputs.make_other(f"{folder}/groups-{count}", places["hardened"], inputs.many_groups(program, count))
    if found.source:
        places["paths"] = f"{folder}/paths"
        inputs.make_other(places["paths"], places["hardened"], inputs.many_paths(f"{places['hardened']}/site.toml"))
    inputs.make_scripts(f"{folder}/scripts")
    for programs, binds in HIDDEN:
        inputs.make_hidden(f"{folder}/hidden-{programs}-{binds}", programs, binds)
    return places


def timed_commands(folder: str, is_piped: bool, large: str, hardened: str, root: str, paths: Optional[str] = None) -> list[Timed]:
    """Each command with its inputs."""
    rows = [
        ("start", ["--version"], hardened),
        ("filter, hardened", ["filter", "web.service"], hardened),
        ("plan, hardened", ["plan", "web.service"], hardened),
        ("judge, hardened", ["judge", "web.service"], hardened),
        ("score, hardened", ["score", "web.service", "policy.json"], hardened),
        ("replay, 16,384 calls", ["replay", "web.service", "script"], hardened),
        ("filter, large", ["filter", "web.service"], large),
        ("plan, large", ["plan", "web.service"], large),
        ("judge, large", ["judge", "web.service"], large),
        ("judge, root", ["judge", "web.service"], root),
        *((f"judge, {count:,} gids", ["judge", "web.service"], f"{folder}/groups-{count}") for count in GROUPS),
        (f"replay, {inputs.CHILDREN:,} children that share", ["replay", "web.service", "shared"], f"{folder}/scripts"),
        (f"replay, {inputs.COPIES:,} binds of {inputs.MOUNTS:,} mounts", ["replay", "web.service", "copied"], f"{folder}/scripts"),
    ]
    if paths:
        rows.append(("judge, 128 paths", ["judge", "web.service"], paths))
    for programs, binds in HIDDEN:
        rows.append((f"judge, {programs:,} hidden programs and {binds} binds", ["judge", "web.service"], f"{folder}/hidden-{programs}-{binds}"))
    found = [Timed("true", ["true"], hardened, is_piped)]
    found += [Timed(name, [PROGRAM, *words], place, is_piped) for name, words, place in rows]
    analyze = shutil.which("systemd-analyze")
    if analyze:
        for name, place in (("hardened", hardened), ("large", large)):
            words = [analyze, "security", "--offline=true", "--no-pager", f"./{inputs.SYSTEM}/web.service"]
            found.append(Timed(ANALYZE.format(name), words, place, is_piped))
    return found


def tell(rows: Sequence[Sequence[str]]) -> None:
    """Prints a table."""
    widths = [max(len(row[at]) for row in [HEAD, *rows]) for at in range(len(HEAD))]
    for number, row in enumerate([HEAD, ["-" * width for width in widths], *rows]):
        cells = [cell.ljust(widths[at]) if at == 0 or number == 0 else cell.rjust(widths[at]) for at, cell in enumerate(row)]
        print("| " + " | ".join(cells) + " |")


def main(found: argparse.Namespace) -> int:
    """Times the commands, and prints the table."""
    with tempfile.TemporaryDirectory(prefix="bench-") as folder:
        places = make_all(folder, found)
        commands = timed_commands(folder, found.pipe, **places)
        if found.names:
            commands = [it for it in commands if it.name.split(",")[0].split(" ")[0] in {"true", "systemd-analyze", *found.names}]
        in_turns(commands, found.runs)
    whole = next((median(it.processor) for it in commands if it.name == ANALYZE.format("hardened")), None)
    tell([
        [it.name, str(it.status), f"{it.printed:,}", *(f"{one:.1f} ms" for one in (min(it.clock), median(it.clock), max(it.clock), median(it.processor))), f"{it.memory:.1f} MB", f"{median(it.processor) / whole:.2f}" if whole else "-"]
        for it in commands
    ])  # fmt: skip
    if not shutil.which("systemd-analyze"):
        print("systemd-analyze is not on this machine")
    return 0
