"""What `./sandbox --brief --root DIR judge UNIT` takes when its site, its walk and the lines that were tried are cached, beside the runs of
the program that it makes: `judge` and `plan` over the same folder.
"""
from __future__ import annotations

import argparse
import os
import tempfile

from benches import PROGRAM, TOP
from benches.table import tell
from benches.timing import Timed, in_turns, median


def add_words(parser: argparse.ArgumentParser) -> None:
    """The words of the subcommand."""
    parser.add_argument("--root", metavar="DIR", default="/", help="the root (/)")
    parser.add_argument("--runs", type=int, default=11, metavar="N", help="how often each is run (11)")
    parser.add_argument("unit", metavar="UNIT", nargs="?", default="systemd-logind", help="the unit (systemd-logind)")


def main(found: argparse.Namespace) -> int:
    """Times the view, and prints the table."""
    os.environ["LENTSHEEP_PROGRAM"] = PROGRAM
    with tempfile.TemporaryDirectory(prefix="bench-") as cache:
        os.environ["XDG_CACHE_HOME"] = cache
        words = [f"{TOP}/sandbox", "--root", found.root, "judge", found.unit]
        rows = [Timed("--brief, cached", [words[0], "--brief", *words[1:]], "/"), Timed("judge, cached", words, "/")]
        rows.append(Timed("python3 -S", ["python3", "-S", "-c", "pass"], "/"))
        for row in rows[:2]:
            Timed("first", row.words, "/").run()
        in_turns(rows, found.runs)
    tell([
        [it.name, str(it.status), f"{it.printed:,}", *(f"{one:.1f} ms" for one in (min(it.clock), median(it.clock), max(it.clock), median(it.processor))),
         f"{it.memory:.1f} MB", "-"] for it in rows
    ])  # fmt: skip
    return max(it.status for it in rows)
