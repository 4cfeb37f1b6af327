"""The command line of `lint`."""
from __future__ import annotations

import argparse
import os
import sys
from typing import Sequence

from .lint import Finding, findings_of
from .lint_overrides import Fault, overridden, read_overrides
from .lint_tags import SEVERITIES, TAGS, explanation
from .lint_units import NoUnit, units_of
from .nearest import nearest
from .terminal import COMMAND, NAME, write

_WHAT = "Finds lines of service units that have no effect, make the start fail, or deny less than they seem to."
_HOW = f"""\
A finding is one line, FILE:LINE: TAG: CONTEXT: SENTENCE. {COMMAND} lint --explain TAG says what a tag means.

UNIT is the path of a unit file, a folder with unit files, or, with --root, the name of a unit there. Drop-ins in the folder
UNIT.d beside the file apply. A template is judged by its instance "lint".

FILE of --overrides has findings that stay. A comment above each override is its reason:

  # The package's postinst makes this folder.
  hello-web.service: unmade-path /srv/hello

The exit status is 1 if there are findings of the severity, 2 for a usage error, and 125 if the program could not run.
"""


def parser() -> argparse.ArgumentParser:
    """The parser of the words after `lint`."""
    made = argparse.ArgumentParser(
        prog=f"{COMMAND} lint", description=_WHAT, epilog=_HOW, formatter_class=argparse.RawDescriptionHelpFormatter, allow_abbrev=False
    )  # fmt: skip
    made.add_argument("units", metavar="UNIT", nargs="*", help="a unit file, or a folder with unit files")
    made.add_argument("--root", metavar="DIR", help="look up paths, programs and users in this root")
    made.add_argument("--overrides", metavar="FILE", help="silence the findings of this file")
    made.add_argument(
        "--severity", metavar="LEVEL", choices=SEVERITIES, default="warning",
        help="print findings of this severity and above: info, warning (default) or error",
    )  # fmt: skip
    made.add_argument("--explain", metavar="TAG", help="say what a tag means")
    made.add_argument("--list-tags", action="store_true", help="print all tags with their severity")
    made.add_argument("--try", dest="unproved", action="store_true", help=argparse.SUPPRESS)
    return made


def main(words: Sequence[str]) -> int:
    """Prints the findings, and returns the exit status."""
    try:
        return _run(parser().parse_intermixed_args(list(words)))
    except (NoUnit, Fault) as fault:
        return _usage_error(str(fault))


def _usage_error(text: str) -> int:
    print(f"{NAME}: {text} ({COMMAND} lint --help)", file=sys.stderr)
    return 2


def _run(found: argparse.Namespace) -> int:
    if found.list_tags:
        write("".join(f"{tag.name} {tag.severity}\n" for tag in TAGS.values()))
        return 0
    if found.explain is not None:
        return _explain(found.explain)
    if not found.units:
        return _usage_error("name a unit file")
    if found.root and not os.path.isdir(found.root):
        return _usage_error(f"there is no folder {found.root}")
    overrides = []
    if found.overrides:
        try:
            with open(found.overrides, encoding="utf-8") as file:
                overrides = read_overrides(file.read(), found.overrides)
        except (OSError, ValueError) as error:
            return _usage_error(f"{found.overrides}: {getattr(error, 'strerror', None) or 'it is no text'}")
    findings: list[Finding] = []
    for unit in units_of(found.units, found.root):
        told = findings_of(unit, found.root, found.unproved)
        findings += told.findings
        for remark in told.remarks:
            print(f"{NAME}: {remark}", file=sys.stderr)
    left, unused = overridden(findings, overrides)
    left += [Finding(found.overrides, it.line, "unused-override", it.text, "no finding matches this override") for it in unused]
    least = SEVERITIES.index(found.severity)
    shown = [it for it in left if SEVERITIES.index(TAGS[it.tag].severity) >= least]
    write("".join(f"{it.text}\n" for it in shown))
    if len(left) > len(shown):
        print(f"{NAME}: {len(left) - len(shown)} findings of a lower severity (--severity {SEVERITIES[0]} prints them)", file=sys.stderr)
    return 1 if shown else 0


def _explain(name: str) -> int:
    text = explanation(name)
    if text is None:
        meant = nearest(name, TAGS)
        return _usage_error(f"there is no tag {name}" + (f"; did you mean {meant}?" if meant else ""))
    write(text)
    return 0
