"""The views, over a run of the program in the current folder: `run_view(line, program)`."""
from __future__ import annotations

import os
import sys
from typing import TYPE_CHECKING, Callable, Sequence

from .ask import asked
from .home import COMMAND, POLICY
from .line import VIEWS_WITH_FILE, Line
from .program import Program, Run
from .terminal import Paint, show, wants_colour, width_of, write
from .values import Filters, Fleet, Report, Score

# What one view needs alone is read where it is made, so that the others do not wait for it.
if TYPE_CHECKING:
    from .expect import Expectation

HELP = f"""\
usage: {COMMAND} [--root DIR ..] --brief judge UNIT          prints the verdict in one screen
       {COMMAND} [--root DIR ..] --brief fleet               prints the units of most exposure, why, and what to add first
       {COMMAND} [--root DIR ..] --json COMMAND UNIT ..      prints the output of a command as JSON (docs/JSON.md)
       {COMMAND} [--root DIR ..] --html FILE judge UNIT      writes the report as one page
       {COMMAND} [--root DIR ..] --html FILE fleet           writes a page of all units, and one of each into FILE-units
       {COMMAND} [--root DIR ..] --expect FILE judge UNIT    prints the lines of FILE that do not hold of the report
       {COMMAND} [--root DIR ..] --write FILE judge UNIT     writes what the unit is denied into FILE, for --expect
       {COMMAND} --compare OLD NEW [FILE]                    prints what opened and closed between two outputs of judge

Lines of FILE (`#` begins a comment):

  denied write /etc/shadow              a line of the report; a path with files below it means all of them
  denied write /etc/fstab with-modes    denied, or closed by the file's mode (docs/VIEWS.md)
  denied write /etc/shadow as-run       denied whatever systemd does otherwise (docs/PROFILE.md); also after a blind line
  open write /var/lib/web
  blind /srv
  notes none                            no line of the unit is ignored by mistake
  exposure <= 40                        by tables/policy/systemd.json, or `exposure POLICY <= 40`
  accept open write /run # REASON       an open answer that denied lines and --compare let pass
  accept parting run-writable # REASON  a difference from systemd that as-run lets pass
  accept note KEY=VALUE # REASON        an ignored line that `notes none` lets pass

Standard error lists the lines without as-run that systemd may open. The exit status is the program's. If that is 0, it is 1 if a
line of FILE does not hold, or if something opened between the reports. It is 2 for a usage error.
"""


class Wrong(Exception):
    """Words, or a file that they name, that cannot be taken; the text says what."""


def run_view(line: Line, program: Program) -> int:
    """Runs the view that the words ask for, and returns its status."""
    words = _command(line.view, line.words)
    if line.view in VIEWS_WITH_FILE:
        return _VIEWS_WITH_FILE[line.view](program, line.view_file, words)
    if line.view == "--brief" and words[0] == "fleet":
        return _brief_fleet(program, words, int(line.top) if line.top else None)
    return _VIEWS[line.view](program, words)


def _command(option: str, words: list[str]) -> list[str]:
    if option in ("--brief", "--html") and words[0] == "fleet":
        return words
    if option != "--json" and words[0] != "judge":
        what = f"{option} FILE" if option in VIEWS_WITH_FILE else option
        raise Wrong(f"{option} is a view of judge alone: write {COMMAND} {what} judge UNIT; --json prints all of {words[0]}")
    return words


def _judged(program: Program, words: Sequence[str]) -> tuple[Run, Report | None]:
    """The run, and its report; where there are no answers the text goes out as it is, and there is no report."""
    run = asked(program, words)
    if isinstance(run.printed, Report) and run.printed.answers:
        return run, run.printed
    write(run.text)
    return run, None


def _brief(program: Program, words: list[str]) -> int:
    run = asked(program, words)
    if not isinstance(run.printed, Report) or run.printed.refusal or not run.text:
        write(run.text)
        return run.status
    from .brief import MOST_CAUSES, brief
    from .gather import view_of
    from .screen import Page

    screen = Page(width_of(sys.stdout), Paint(wants_colour(sys.stdout)))
    show("\n".join(brief(view_of(program, run, MOST_CAUSES), screen)) + "\n")
    return run.status


def _brief_fleet(program: Program, words: list[str], most: int | None) -> int:
    from .fleet_view import MOST, brief_fleet
    from .screen import Page

    run = asked(program, words)
    if not isinstance(run.printed, Fleet) or not run.printed.whole or run.printed.refusal:
        write(run.text)
        return run.status
    screen = Page(width_of(sys.stdout), Paint(wants_colour(sys.stdout)))
    show("\n".join(brief_fleet(program, run.printed, screen, MOST if most is None else most)) + "\n")
    return run.status


def _html_fleet(program: Program, file: str, words: list[str]) -> int:
    from .fleet_view import folder_of, index_of, page_name, ranked, why
    from .page import STYLE
    from .profiles import profile_in
    from .table import read_table

    run = asked(program, words)
    if not isinstance(run.printed, Fleet) or not run.printed.whole or run.printed.refusal:
        write(run.text)
        return run.status
    folder, table, rows = folder_of(file), read_table(program.folder), []
    try:
        os.makedirs(folder, exist_ok=True)
    except OSError as error:
        raise Wrong(f"{folder}: {error.strerror}") from None
    for unit in ranked(program, run.printed, None):
        name = page_name(unit.row.unit)
        is_told = bool(unit.report and unit.report.answers)
        if is_told:
            _page_to(f"{folder}/{name}", program, program.run("judge", unit.row.unit))
        link = f"{os.path.basename(folder)}/{name}" if is_told else ""
        rows.append((unit, link, *why(program, unit, table)))
    _text_to(file, index_of(rows, run.printed, STYLE, profile_in(program)))
    return run.status


def _json(program: Program, words: list[str]) -> int:
    import json

    from .gather import view_of
    from .identity import identity
    from .jsonform import json_of
    from .profiles import profile_in
    from .unit_text import files_in_force

    run = asked(program, words)
    is_told = isinstance(run.printed, Report) and run.printed.refusal is None
    view = view_of(program, run) if is_told else None
    made_by = view.identity if view else identity(program, files_in_force(program.folder, words[1] if len(words) > 1 else ""))
    # sample reads no site
    profile = profile_in(program) if words[0] != "sample" else ""
    write(json.dumps(json_of(run, view, made_by, profile), indent=1) + "\n")
    return run.status


def _html(program: Program, file: str, words: list[str]) -> int:
    if words[0] == "fleet":
        return _html_fleet(program, file, words)
    run, report = _judged(program, words)
    if report and run.status == 0:
        _page_to(file, program, run)
    return run.status


def _page_to(file: str, program: Program, run: Run) -> None:
    """Writes the page of a report."""
    from .gather import view_of
    from .page import page_of, read_names

    filters = program.run("filter", *run.words[1:]).printed
    names = read_names((program.read("calls.txt") or b"").decode("utf-8", "replace"))
    _text_to(file, page_of(view_of(program, run), filters if isinstance(filters, Filters) else None, names))


def _write(program: Program, file: str, words: list[str]) -> int:
    from . import expect

    run, report = _judged(program, words)
    if report and run.status == 0:
        _text_to(file, expect.baseline(report))
    return run.status


def _expect(program: Program, file: str, words: list[str]) -> int:
    from . import expect
    from .gather import partings_of

    try:
        expectations = expect.read_expectations(_text_of(file))
    except expect.Fault as fault:
        raise Wrong(f"{file}: {fault}") from None
    run, report = _judged(program, words)
    if report is None or run.status != 0:
        return run.status
    report = _with_rows(program, words, report, expectations)
    if any(expectation.with_modes for expectation in expectations):
        report = _with_modes(program, words[1], report)
    found = partings_of(program, run, expect.with_modes_denied(report))
    used = {("open", answer.question.text) for answer in report.answers if answer.is_open}
    failed = 0
    for expectation in (it for it in expectations if not it.accepted):
        reasons = _reasons(program, words, report, expectation, file)
        if expectation.question:
            reasons = expect.failures(expectation, report, expect.accepted_by(expectations, "open"))
        if expectation.no_notes:
            notes = expect.accepted_by(expectations, "note")
            used |= {("note", text) for text in notes for reason in reasons if reason.endswith(f": {text}")}
            reasons = [reason for reason in reasons if not any(reason.endswith(f": {text}") for text in notes)]
        doubts = expect.doubts(expectation, report, found) if not reasons else []
        names = expect.accepted_by(expectations, "parting")
        used |= {("parting", name) for name in doubts if name in names}
        doubting = ", ".join(name for name in doubts if name not in names)
        if doubting and expectation.as_run:
            reasons = [f"it holds only without {doubting}"]
        elif doubting:
            print(f"{file}:{expectation.line}: {expectation.text} holds only without {doubting}", file=sys.stderr)
        failed += _told(file, expectation, reasons)
    for expectation in (it for it in expectations if it.accepted):
        is_used = (expectation.accepted.kind, expectation.accepted.what) in used
        failed += _told(file, expectation, [] if is_used else ["there is nothing to accept"])
    write(f"expectations {len(expectations)} failed {failed}\n")
    return 1 if failed else 0


def _told(file: str, expectation: Expectation, reasons: Sequence[str]) -> bool:
    """Prints a line that does not hold, with the reasons; whether there are any."""
    if reasons:
        write(f"{file}:{expectation.line}: {expectation.text}\n" + "".join(f"  {reason}\n" for reason in reasons))
    return bool(reasons)


def _with_rows(program: Program, words: list[str], report: Report, expectations: list[Expectation]) -> Report:
    """The report of a site with rows for what is expected; the one that is there where it has them or cannot have them."""
    from . import expect
    from .site_text import with_rows

    rows, site = expect.rows_for(expectations, report), program.read("site.toml")
    if not rows or site is None:
        return report
    with program.changed({"site.toml": with_rows(site, rows)}) as changed:
        again = changed.run(*words)
    return again.printed if again.status == 0 and isinstance(again.printed, Report) else report


def _with_modes(program: Program, unit: str, report: Report) -> Report:
    """The report with what file modes close; they are to be beside the site."""
    from .modes import FILE, read_modes, with_modes
    from .unit_text import Said, files_in_force

    modes = read_modes(program.read(FILE))
    if modes is None:
        raise Wrong(f"with-modes needs {FILE} beside the site: --root makes it")
    return with_modes(report, modes, Said(files_in_force(program.folder, unit)))


def _reasons(
    program: Program, words: list[str], report: Report, expectation: Expectation, file: str
) -> list[str]:
    from . import expect

    if expectation.no_notes:
        from .brief import wrong_lines
        from .gather import notes_of

        return [f"{place}: {text}" for place, text in wrong_lines(notes_of(program, report, words[1]))]
    if expectation.most is None:
        return expect.failures(expectation, report)
    policy = os.path.join(os.path.dirname(file), expectation.policy) if expectation.policy else POLICY
    try:
        with open(policy, "rb") as text:
            data = text.read()
    except OSError as error:
        raise Wrong(f"{policy}: {error.strerror}") from None
    with program.changed({"policy.json": data}) as changed:
        run = changed.run("score", words[1], "policy.json")
    score = run.printed
    if not isinstance(score, Score) or score.exposure is None:
        return [run.text.strip() or f"score ended with status {run.status}"]
    return [f"exposure {score.exposure}"] if score.exposure > expectation.most else []


def compare_reports(files: list[str]) -> int:
    """Prints what changed between two outputs of judge, and returns the status."""
    from . import compare, expect
    from .report import parse

    if len(files) not in (2, 3):
        raise Wrong("--compare needs two reports after it")
    try:
        accepted = expect.accepted_by(expect.read_expectations(_text_of(files[2])), "open") if len(files) == 3 else frozenset()
    except expect.Fault as fault:
        raise Wrong(f"{files[2]}: {fault}") from None
    reports = []
    for file in files[:2]:
        report = parse(_text_of(file), "judge")
        if not isinstance(report, Report) or not report.whole or report.refusal or report.unread:
            raise Wrong(f"{file} is not a complete output of judge")
        reports.append(report)
    found = compare.changes(*reports, accepted)
    show("\n".join(compare.lines_of(found)) + "\n")
    return 1 if found.has_opened else 0


def _text_of(file: str) -> str:
    try:
        with open(file, "rb") as text:
            return text.read().decode("utf-8", "surrogateescape")
    except OSError as error:
        raise Wrong(f"{file}: {error.strerror}") from None


def _text_to(file: str, text: str) -> None:
    try:
        with open(file, "wb") as page:
            page.write(text.encode("utf-8", "surrogateescape"))
    except OSError as error:
        raise Wrong(f"{file}: {error.strerror}") from None


_VIEWS: dict[str, Callable[[Program, list[str]], int]] = {"--brief": _brief, "--json": _json}
_VIEWS_WITH_FILE: dict[str, Callable[[Program, str, list[str]], int]] = {
    "--html": _html, "--expect": _expect, "--write": _write,
}  # fmt: skip
