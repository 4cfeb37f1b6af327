"""All units of a host in short: `--brief fleet` and `--html FILE fleet`.

The units of most exposure come first; of equal ones those of which most answers are open. Each has why, and what to add first.
"""
from __future__ import annotations

import os
from html import escape
from typing import Optional, Sequence

from .causes import causes
from .harm import FIRST_KEYS, Group, candidates, closing, groups, has_sandbox
from .profiles import in_a_sentence, in_words, profile_in
from .program import Program
from .record import dataclass
from .report import parse
from .screen import Page, counted
from .table import Table, read_table
from .tries import tried
from .unit_text import Said, files_in_force
from .values import Fleet, FleetRow, Launched, Refusal, Report
from .words import escaped

#: As many units are told where nothing else is said.
MOST = 20


@dataclass(frozen=True)
class Unit:
    """A unit of the fleet with its report, if there is one."""

    row: FleetRow
    report: Optional[Report] = None

    @property
    def open(self) -> int:
        """How many answers are open."""
        return self.report.summary.open if self.report and self.report.summary else 0

    @property
    def counts(self) -> str:
        """The counts, or why there are none."""
        if self.report is None:
            return "not judged"
        if self.report.summary:
            return f"denied {self.report.summary.denied}, open {self.report.summary.open}"
        if isinstance(self.report.refusal, Refusal):
            return self.report.refusal.text
        return "not launched" if not isinstance(self.report.launch, Launched) else "the report was cut"


def ranked(program: Program, fleet: Fleet, most: Optional[int]) -> list[Unit]:
    """The first units, or all: by exposure, and those of equal exposure by what is open."""
    rows = [row for row in fleet.rows if row.exposure is not None]
    least = rows[most - 1].exposure if most and most <= len(rows) else None
    chosen = [row for row in rows if least is None or (row.exposure or 0) >= least]
    texts = program.run_many([("judge", row.unit) for row in chosen], "judging the units")
    found = [Unit(row, _report(text)) for row, text in zip(chosen, texts)]
    found.sort(key=lambda unit: (-(unit.row.exposure or 0), -unit.open, unit.row.unit))
    return found[:most] if most else found


def _report(text: str) -> Optional[Report]:
    found = parse(text, "judge")
    return found if isinstance(found, Report) else None


def why(program: Program, unit: Unit, table: Table) -> tuple[str, str]:
    """Why answers of a unit are open, and the line to add first, which closes what it says."""
    report = unit.report
    if report is None or not report.summary:
        return "", ""
    files = files_in_force(program.folder, unit.row.unit)
    found = groups(causes(report, table))
    is_protected = has_sandbox(Said(files))
    first: Optional[Group] = found[0] if found else None
    lines = candidates(first, report) if first else []
    keys = [] if is_protected else list(FIRST_KEYS[:2])
    known = tried(program, unit.row.unit, files, lines + keys) if lines or keys else {}
    reason = first.told if first else "each open answer needs one call and no privilege, or nothing"
    best = max(keys, key=lambda line: len(known[line]), default="")
    if not is_protected:
        reason = f"it sets no key of a sandbox, and {reason}" if first else "it sets no key of a sandbox"
    lines_that_close = closing(first, report, known) if first else []
    if best and known[best]:
        return reason, f"{best} (closes {len(known[best])})"
    return reason, f"{lines_that_close[0]} (closes {len(known[lines_that_close[0]])})" if lines_that_close else ""


def brief_fleet(program: Program, fleet: Fleet, page: Page, most: int) -> list[str]:
    """The lines of the screen."""
    units, table = ranked(program, fleet, most), read_table(program.folder)
    rest = (fleet.units or 0) - (fleet.refused or 0) - len(units)
    refused = f", {fleet.refused} refused" if fleet.refused else ""
    lines = [page.line("fleet", f"{counted(fleet.units or 0, 'unit')}{refused}; the least protected first")]
    profile = profile_in(program)
    lines += [page.line("profile", in_words(profile)), ""] if profile else [""]
    for unit in units:
        reason, add = why(program, unit, table)
        lines.append(page.line(str(unit.row.exposure).rjust(8), f"{escaped(unit.row.unit)}: {unit.counts}"))
        lines += page.lines("", reason.split(" "), 2, "  ") if reason else []
        lines += page.lines("", f"add {add}".split(" "), 2, "  ") if add else []
    if rest > 0:
        lines.append(page.line("", f"and {counted(rest, 'further unit')} (--top N)"))
    refusals = [row.refusal.text for row in fleet.rows if row.refusal]
    return lines + [page.line("" if at else "refused", text.partition(" ")[2]) for at, text in enumerate(refusals)]


def index_of(units: Sequence[tuple[Unit, str, str, str]], fleet: Fleet, style: str, profile: str = "") -> str:
    """The page of all units: each with the name of its own page, or nothing, why, and what to add first."""
    rows = "".join(
        f'<tr><td>{unit.row.exposure}</td><td>{f"<a href={chr(34)}{escape(link)}{chr(34)}>" if link else ""}{escape(unit.row.unit)}'
        f'{"</a>" if link else ""}</td><td>{escape(unit.counts)}</td><td>{escape(reason)}</td><td><code>{escape(add)}</code></td></tr>'
        for unit, link, reason, add in units
    )
    refused = "".join(f"<li><code>{escape(row.refusal.text)}</code></li>" for row in fleet.rows if row.refusal)
    return f"""<!doctype html>
<html lang="en">
<head>
<meta charset="utf-8">
<meta http-equiv="Content-Security-Policy" content="default-src 'none'; style-src 'unsafe-inline'">
<meta name="viewport" content="width=device-width">
<title>What the sandboxes of all units leave open</title>
<style>
{style}</style>
</head>
<body>
<header><h1>All units</h1>{f"<p>{escape(in_a_sentence(profile))}</p>" if profile else ""}</header>
<main>
<p>{counted(fleet.units or 0, "unit")}, the least protected first; {fleet.refused or 0} refused.</p>
<div class="scroll"><table><thead><tr><th>Exposure</th><th>Unit</th><th>Answers</th><th>Why open</th><th>What to add first</th></tr></thead>
<tbody>{rows}</tbody></table></div>
{f"<h2>Refused</h2><ul>{refused}</ul>" if refused else ""}
</main>
</body>
</html>
""".encode("utf-8", "replace").decode("utf-8")


def page_name(unit: str) -> str:
    """The name of the file of a unit's page."""
    return escaped(unit).replace("/", "%2F") + ".html"


def folder_of(file: str) -> str:
    """The folder of the pages of units, beside the page of all of them."""
    stem, dot, _ = file.rpartition(".")
    return f"{stem if dot and os.sep not in file[len(stem):] else file}-units"
