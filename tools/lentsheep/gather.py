"""Puts together what views tell of: a run of `judge`, and what the folder that it read says besides."""
from __future__ import annotations

from typing import Optional

from .ask import root_of
from .brief import View
from .causes import causes
from .harm import FIRST_KEYS, candidates, groups, has_sandbox
from .host import read_host
from .identity import identity
from .modes import FILE, read_modes, with_modes
from .notes import told_notes
from .open_by import candidates as way_lines
from .open_by import ways
from .partings import Judged, Parting, files_in_force, partings
from .profiles import profile_named
from .program import Program, Run
from .site_text import user_names
from .table import read_table
from .tries import tried
from .unit_lines import passed_over
from .unit_text import Said
from .values import Plan, Report


def view_of(program: Program, run: Run, most: int | None = None) -> View:
    """What is told of a report; what closes a cause is tried for so many of them, or for all."""
    report = run.printed
    assert isinstance(report, Report)
    unit, table = unit_of(run), read_table(program.folder)
    files, site, plan = files_in_force(program.folder, unit), site_of(program), plan_of(program, run, report)
    said, modes = Said(files), read_modes(program.read(FILE))
    is_protected = has_sandbox(said)
    report = with_modes(report, modes, said)
    lines = [line for way in ways(report) for line in way_lines(way, table)]
    lines += [line for group in groups(causes(report, table))[:most] for line in candidates(group, report)]
    lines += [] if is_protected else FIRST_KEYS
    known = tried(program, unit, files, lines) if report.answers and run.status == 0 else None
    notes, passed = told_notes(report.notes, files), passed_over(files)
    # what modes are asked for is no parting any more
    found = partings(Judged(said, report, plan, table, read_host(site), root_of() is not None))
    met = [parting for parting in found if modes is None or parting.name != "file-modes"]
    made_by, profile = identity(program, files), profile_named(site)
    return View(report, plan, table, notes, met, user_names(site), passed, known, is_protected, made_by, profile)


def partings_of(program: Program, run: Run, report: Report) -> list[Parting]:
    """The partings that a report meets, made by a run of these words in this folder."""
    files = files_in_force(program.folder, unit_of(run))
    plan = plan_of(program, run, report)
    host = read_host(site_of(program))
    return partings(Judged(Said(files), report, plan, read_table(program.folder), host, root_of() is not None))


def notes_of(program: Program, report: Report, unit: str) -> View:
    """A report with what is known of the lines of the unit's files, and no more."""
    files = files_in_force(program.folder, unit)
    return View(report, notes=told_notes(report.notes, files), passed=passed_over(files))


def unit_of(run: Run) -> str:
    """The unit that a run is about."""
    return run.words[1] if len(run.words) > 1 else ""


def site_of(program: Program) -> str:
    """The text of the site."""
    return (program.read("site.toml") or b"").decode("utf-8", "replace")


def plan_of(program: Program, run: Run, report: Report) -> Optional[Plan]:
    """The plan of a report; none where it has no answers."""
    planned = program.run("plan", *run.words[1:]).printed if report.answers else None
    return planned if isinstance(planned, Plan) else None
