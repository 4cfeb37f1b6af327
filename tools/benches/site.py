"""What a row of site.toml takes: `filter` with a large site, less `filter` with a site of no rows."""
from __future__ import annotations

import argparse
import os
import re
import shutil
import tempfile

from benches import PROGRAM, inputs
from benches.timing import Timed, in_turns


def add_words(parser: argparse.ArgumentParser) -> None:
    """The words of the subcommand."""
    parser.add_argument("--runs", type=int, default=41, help="how often each is run (41)")
    parser.add_argument("--source", metavar="FOLDER", help="a folder whose calls.txt and site.toml are taken in place of made ones")


def without_rows(text: str) -> str:
    """A site without its rows, of either writing."""
    text = re.sub(r"^row *= *\[$.*?^\]$", "", text, flags=re.M | re.S)
    return re.sub(r"^\[\[row\]\]$.*?(?=^\[|\Z)", "", text, flags=re.M | re.S)


def main(found: argparse.Namespace) -> int:
    """Times both, and prints the difference."""
    with tempfile.TemporaryDirectory(prefix="bench-") as folder:
        whole, none = f"{folder}/whole", f"{folder}/none"
        inputs.make_large(whole, 50)
        for name in ("calls.txt", "site.toml") if found.source else ():
            shutil.copy(os.path.join(found.source, name), whole)
        inputs.write(f"{whole}/{inputs.SYSTEM}/web.service", "[Service]\nExecStart=/usr/bin/web\nSystemCallFilter=@system-service\n")
        shutil.copytree(whole, none)
        with open(f"{whole}/site.toml", encoding="utf-8") as site:
            text = site.read()
        inputs.write(f"{none}/site.toml", without_rows(text))
        rows = len(re.findall(r"^(?:\{ *)?path *=", text, re.M))
        both = [Timed(name, [PROGRAM, "filter", "web.service"], name) for name in (whole, none)]
        in_turns(both, found.runs)
    if any(it.status for it in both):
        print(f"filter ends with {both[0].status}, and with {both[1].status} without rows")
        return 1
    with_rows, without = (min(it.clock) for it in both)
    print(f"{rows} rows: {(with_rows - without) * 1000 / rows:.2f} microseconds a row; filter {with_rows:.1f} ms, without rows {without:.1f} ms")
    return 0
