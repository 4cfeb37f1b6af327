"""The command line of `harden`, its drop-in and its page."""
from __future__ import annotations

import argparse
import os
import sys
from collections import Counter
from typing import Optional, Sequence

from . import asking
from .ask import root_of, tell
from .explain import Folder, questions_of
from .hardened import COSTS, MOST_CALLS, Hardening, Line, Refused, shortened
from .home import COMMAND, NAME, absolute
from .line import Line
from .program import Program
from .report import read_question
from .strace import Traced, calls_of, names, script_of, signals_of
from .terminal import write
from .unit_text import UnitFile, files_in_force
from .values import Question
from .wanted import KEPT_FILE, Wanted, commands_not_seen, of_trace, of_unit

_WHAT = "Writes a drop-in with settings that a unit can add while its service keeps working, and prints a page about each line."
_HOW = f"""\
The service must keep working: a question stays open if KEEP lists it, if a trace shows it, or if a key of the unit names it.
Every line was judged by the program: the unit is launched with it, all these questions stay open, and the line closes something.
The page says of each line what it closes, what it costs, and which line takes it back.

A trace is a log of strace, such as:

  strace -f -y -o web.strace /usr/bin/web --port 80

What no trace shows may be lost. So read the drop-in, install it on a test machine first, and look into the log.

The exit status is 2 for a usage error, 3 if an input is refused, 7 if the launch fails, and 125 if the program could not run.
{COMMAND} --root --help lists the options of --root.
"""


class Wrong(Exception):
    """A usage error; the text says what."""


def parser() -> argparse.ArgumentParser:
    """The parser of the words after `harden`."""
    made = argparse.ArgumentParser(
        prog=f"{COMMAND} harden", description=_WHAT, epilog=_HOW, formatter_class=argparse.RawDescriptionHelpFormatter, allow_abbrev=False
    )  # fmt: skip
    made.add_argument("unit", metavar="UNIT", help="the unit, as for judge")
    made.add_argument("--drop-in", metavar="OUT", required=True, help="the drop-in to write")
    made.add_argument("--keep", metavar="FILE", help="what must stay open: one question a line, as for tighten")
    made.add_argument("--strace", metavar="FILE", action="append", default=[], help="a log of strace -f; may be given more than once")
    made.add_argument("--root", metavar="DIR", help="look up the unit in this root")
    for option in ("--units", "--calls", "--site"):
        made.add_argument(option, metavar="FILE", help=argparse.SUPPRESS)
    for option in ("--fresh", "--full", "--verbose"):
        made.add_argument(option, action="store_true", help=argparse.SUPPRESS)
    made.add_argument("--try", dest="unproved", action="store_true", help=argparse.SUPPRESS)
    return made


def main(words: Sequence[str]) -> int:
    """Writes the drop-in, prints the page, and returns the exit status."""
    found = parser().parse_intermixed_args(list(words))
    try:
        for file in [*([found.keep] if found.keep else []), *found.strace]:
            if not os.path.isfile(file):
                raise Wrong(f"there is no file {file}")
        if found.root or found.units or found.site or found.calls:
            return _with_root(found)
        return _run(found, Program(".", found.unproved))
    except Wrong as wrong:
        print(f"{NAME}: {wrong} ({COMMAND} harden --help)", file=sys.stderr)
        return 2
    except Refused as refused:
        write(refused.text)
        tell(refused.messages)
        return refused.status


def _with_root(found: argparse.Namespace) -> int:
    """Runs this in a folder that is made for the unit of a root."""
    from .room import Failed, Room
    from .room import Wrong as WrongRoom

    line = Line()
    line.names = {f"--{it}": getattr(found, it) for it in ("root", "units", "calls", "site") if getattr(found, it)}
    line.switches = {f"--{it}" for it in ("fresh", "full", "verbose") if getattr(found, it)}
    line.words = ["harden", found.unit if "/" in found.unit or found.unit.endswith(".service") else f"{found.unit}.service"]
    found.strace = [absolute(file) for file in found.strace]
    found.keep, found.drop_in = absolute(found.keep) if found.keep else None, absolute(found.drop_in)
    try:
        with Room(line):
            found.unit = line.words[1]
            return _run(found, Program(".", found.unproved))
    except WrongRoom as wrong:
        print(wrong, file=sys.stderr)
        return 2
    except Failed as fault:
        tell([str(fault)])
        return 125


def _run(found: argparse.Namespace, program: Program) -> int:
    unit = found.unit if found.unit.endswith(".service") else f"{found.unit}.service"
    files = files_in_force(program.folder, unit)
    wanted, folder = Wanted(), Folder(program.folder, root_of())
    must = _of_keep(found.keep, wanted, folder, unit) if found.keep else []
    report = program.run("judge", unit)
    is_root = getattr(getattr(report.printed, "launch", None), "uid", None) == 0
    traces = [_lines(file) for file in found.strace]
    calls = [call for trace in traces for call in calls_of(trace)]
    what = "in the trace" if len(traces) < 2 else "in the traces"
    of_trace(calls, wanted, is_root, what)
    before = len(wanted.reasons)
    of_unit(files, wanted)
    table = names((program.read("calls.txt") or b"").decode("utf-8", "replace"))
    scripts = ["".join(f"{line}\n" for line in shortened(script_of(trace, table).lines)[:MOST_CALLS]) for trace in traces]
    hardening = Hardening(program, unit, wanted, scripts, root_of())
    hardening.run(must)
    signals = {signal for trace in traces for signal in signals_of(trace)}
    missing = commands_not_seen(files, calls, signals) if traces else []
    _write_to(found.drop_in, drop_in_of(hardening, missing, bool(traces)))
    write(page_of(hardening, found.drop_in, len(must), before - len(must), missing))
    messages = [f"the unit denies this already, so it is not kept: {it.text}" for it in hardening.denied]
    if wanted.unknown:
        messages.append(f"{wanted.unknown} relative paths of the trace are unknown (strace -y prints the folder of each descriptor)")
    if not traces and not found.keep:
        messages.append("only the unit's own keys say what must stay open; --strace and --keep say more")
    tell([*messages, *hardening.messages])
    return 0


def _lines(file: str) -> list[str]:
    with open(file, encoding="utf-8", errors="surrogateescape") as log:
        return log.read().split("\n")


def _of_keep(file: str, wanted: Wanted, folder: Folder, unit: str) -> list[Question]:
    """Adds the questions of a file; a folder that is to be written or run means a file in it."""
    with open(file, encoding="utf-8", errors="surrogateescape") as text:
        lines = questions_of(text.read())
    found, site = [], folder.site
    for number, line in lines:
        question = read_question(line)
        if question is None:
            hint = asking.hint(line, site, folder.table, folder.calls, unit)
            raise Refused(f"refused {os.path.basename(file)} line {number} question\n", 3, [f"{file}:{number}: {hint}"])
        is_folder = site.rows.get(question.name) == "dir" or bool(folder.root) and os.path.isdir(f"{folder.root}{question.name}")
        if question.kind in ("write", "exec") and is_folder:
            question = Question(question.kind, f"{question.name.rstrip('/')}/{KEPT_FILE}")
        row = asking.row_of(question, site, folder.root)
        wanted.add(question.kind, question.name, f"{file}:{number}", row[1] if row else "")
        found.append(question)
    return found


def _write_to(file: str, text: str) -> None:
    try:
        with open(file, "w", encoding="utf-8", errors="surrogateescape") as out:
            out.write(text)
    except OSError as error:
        raise Wrong(f"{file}: {error.strerror}") from None


def drop_in_of(hardening: Hardening, missing: Sequence[str], has_traces: bool) -> str:
    """The text of the drop-in: each line below a comment that says why it is there."""
    text = [f"# {hardening.unit}: each line was judged by lentsheep. It keeps {len(hardening.wanted.reasons)} answers open."]
    text += [f"# not seen in this trace: {', '.join(missing)}"] if missing else []
    text.append("[Service]")
    for it in hardening.lines:
        text += [f"# {comment_of(it)}", it.text]
        if it.key == "SystemCallFilter" and it.text != "SystemCallFilter=" and has_traces:
            text += suggestions(hardening.files)
    return "".join(f"{line}\n" for line in text)


def suggestions(files: Sequence[UnitFile]) -> list[str]:
    """Settings that go with a list of calls, as comments: they deny no question, so no answer says whether they fit."""
    from .unit_text import Said

    said, found = Said(files), []
    if not said.lines("SystemCallErrorNumber"):
        found += ["# A refused call fails with EPERM; without this line it ends the process:", "#SystemCallErrorNumber=EPERM"]
    if not said.lines("SystemCallArchitectures"):
        found += ["# Without this line, 32-bit programs make other calls than the list has:", "#SystemCallArchitectures=native"]
    return found


def page_of(hardening: Hardening, file: str, of_keep: int, of_traces: int, missing: Sequence[str]) -> str:
    """The page: the drop-in as a whole, then what each line closes, what it costs, and what takes it back."""
    kept = len(hardening.wanted.reasons)
    text = [f"drop-in   {file}: {_counted(len(hardening.lines), 'line')} for {hardening.unit}, each judged by the program"]
    text.append(f"keeps     {_counted(kept, 'answer')} open, which a KEEP file ({of_keep}), traces ({of_traces}) or keys of the unit name")
    before, after = hardening.before, hardening.after
    if before and after and before.summary and after.summary:
        text.append(f"answers   denied {before.summary.denied}, open {before.summary.open} before; denied {after.summary.denied}, open {after.summary.open} after")
    text += [f"not seen  {', '.join(missing)}: no trace shows what these need"] if missing else []
    for it in hardening.lines:
        text += ["", it.text, *(f"  {label:<8}{said}" for label, said in told(it) if said)]
    return "".join(f"{line}\n" for line in text)


def told(it: Line) -> list[tuple[str, str]]:
    """What the page says of a line."""
    closes = f"{_kinds(it.alone)}, which no other line of the drop-in closes" if it.alone else ""
    effect = f"{_kinds(it.closes)} if it is the only line that is added" if it.closes and it.closes != it.alone else ""
    return [("why", it.reason), ("closes", closes), ("effect", effect), ("costs", COSTS.get(it.key, "")), ("undo", it.undo)]


def comment_of(it: Line) -> str:
    """The comment above a line of the drop-in."""
    closes = f"closes {_kinds(it.alone)}" if it.alone else ""
    undo = f"{it.undo} takes it back" if it.undo else ""
    return "; ".join(filter(None, [it.reason, closes, undo]))


def _kinds(questions: Sequence[Question]) -> str:
    counts = Counter(it.kind for it in questions)
    kinds = ", ".join(f"{kind} {count}" for kind, count in counts.items())
    return f"{_counted(len(questions), 'answer')} ({kinds})" if kinds else ""


def _counted(count: int, what: str) -> str:
    return f"{count} {what}{'' if count == 1 else 's'}"
