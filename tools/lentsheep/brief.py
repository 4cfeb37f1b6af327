"""The verdict on a service in one screen: `brief(view, page)` gives its lines.

What is open by a way that no filter sees comes first, then root causes, a table of kinds of questions, files as largest folders, one
line for each other kind, blind folders, notes, and the partings from systemd that this unit meets.
"""
from __future__ import annotations

from typing import Iterable, Sequence

from .causes import State, causes, held_capabilities, state_of
from .harm import Group, Tried, closing, first_keys, groups
from .identity import Identity
from .notes import ToldNote
from .open_by import told as told_ways
from .open_by import ways
from .parting_sides import bears_on
from .partings import Direction, Parting, doubted
from .places import Exceptional, described, is_below
from .profiles import in_words
from .record import dataclass, field
from .screen import LABEL, Page, braced, counted, covered, parted
from .table import Table
from .unit_lines import Passed
from .values import PATH_KINDS, SWITCHES, Launched, LaunchKilled, LaunchPrivileged, LaunchRefused, Plan, Report
from .words import escaped

#: The columns of the table: a heading, and the kinds of questions that it counts.
COLUMNS = (
    *((kind, (kind,)) for kind in (*PATH_KINDS, "call", "socket", "ns")),
    ("switch", SWITCHES),
    *((kind, (kind,)) for kind in ("cap", "uid", "gid")),
)
#: As many causes are told by themselves.
MOST_CAUSES = 4


@dataclass(frozen=True)
class View:
    """What is told of: a report, and beside it what is known of the folder that it was made in."""

    report: Report
    plan: Plan | None = None
    table: Table = field(default_factory=Table)
    notes: Sequence[ToldNote] = ()
    partings: Sequence[Parting] = ()
    user_names: dict[int, str] = field(default_factory=dict)
    #: lines of the unit's files that systemd passes over, too
    passed: Sequence[Passed] = ()
    #: what lines close that were tried; None where none was
    tried: Tried | None = None
    #: whether the unit sets a key that makes up a sandbox
    has_sandbox: bool = True
    #: the program and the sums of what it read
    identity: Identity | None = None
    #: the name of the profile that judged; empty where it is not known
    profile: str = ""


def brief(view: View, page: Page) -> list[str]:
    """The lines of the screen."""
    report = view.report
    lines = _wrong(view, page) + _head(view, page)
    if report.answers:
        lines += ["", *_open_by(view, page), *_causes(view, page), "", *_table(view, page), "", *_files(view, page), *_names(view, page)]
    lines += _blind(view, page) + _notes(view.notes, page) + _partings(view, page)
    if view.identity:
        lines += page.lines("made by", [view.identity.words[0], *parted(view.identity.words[1:])])
    if not report.whole:
        lines.append(page.line("cut", "the report ends early; what it lacks is not shown"))
    return lines


def _head(view: View, page: Page) -> list[str]:
    report = view.report
    if report.refusal:
        return [page.line("refused", report.refusal.text[len("refused ") :])]
    counts = report.summary
    held = _held_less(len(doubted(view.partings)))
    verdict = f"denied {counts.denied},{held and f' {held},'} open {counts.open}" if counts else "no answers"
    profile = [page.line("profile", in_words(view.profile))] if view.profile else []
    return [*page.lines("unit", f"{escaped(report.unit)}: {verdict}".split()), *profile, page.line("launched", _launch(view))]


def _held_less(number: int) -> str:
    """What is said of denied answers or blind folders that systemd may open; nothing where there are none."""
    return f"of which {number} hold{'s' if number == 1 else ''} only without what `partings` names" if number else ""


def _launch(view: View) -> str:
    launch = view.report.launch
    if isinstance(launch, LaunchRefused):
        return f"no: the kernel refuses step {launch.step} with errno {launch.errno}"
    if isinstance(launch, LaunchKilled):
        return f"no: a filter ends it at step {launch.step}"
    if isinstance(launch, LaunchPrivileged):
        return f"no: {escaped(launch.program)} has a set-id bit or capabilities"
    if not isinstance(launch, Launched):
        return "not in the report"
    name = view.user_names.get(launch.uid, "root" if launch.uid == 0 else "")
    who = f"uid {launch.uid}" + (f" ({name})" if name else "") + f", gid {launch.gid}"
    held = held_capabilities(view.report)
    asked = len(view.report.of_kind("cap"))
    capabilities = f"all {asked} capabilities" if held and len(held) == asked else counted(len(held), "capabilit", "y", "ies")
    return f"as {who}, with {capabilities}, no_new_privs {'on' if launch.no_new_privs else 'off'}"


def _open_by(view: View, page: Page) -> list[str]:
    """What is open by a way that no filter sees, and the lines that close it."""
    lines: list[str] = []
    for by, kinds, closed_by in told_ways(ways(view.report), view.table, view.tried):
        text = ", ".join(kinds) + ";" * bool(closed_by)
        lines += page.lines("" if lines else "open by", [f"{by}:", *text.split(), *_closing(closed_by)], 4)
    return [*lines, ""] if lines else []


def _causes(view: View, page: Page) -> list[str]:
    found = groups(causes(view.report, view.table))
    lines = _without_sandbox(view, page)
    if not found:
        which = "each other open answer" if ways(view.report) else "each open answer"
        return lines or [page.line("why open", f"{which} needs one call and no privilege, or nothing")]
    for group in found[:MOST_CAUSES]:
        lines += _cause(group, view, page, "" if lines else "why open")
    if rest := found[MOST_CAUSES:]:
        # of other ids one answer stands for all
        answers = counted(sum(1 if group.gives == "ids" else group.count for group in rest), "answer")
        lines.append(page.line("", f"and {counted(len(rest), 'further cause')}, of {answers}"))
    return lines


def _without_sandbox(view: View, page: Page) -> list[str]:
    """One line, of a unit that sets no key of a sandbox, and the lines that would close most."""
    if view.has_sandbox:
        return []
    # a value with spaces is not broken
    keys = [f"{line} ({count})" for line, count in first_keys(view.tried)]
    told = [*parted(["the unit sets no key of a sandbox;", *(["close most:"] if keys else [])], ""), *parted(keys)]
    return page.lines("why open", told)


def _cause(group: Group, view: View, page: Page, label: str) -> list[str]:
    """A cause, with its kinds and calls where it is the first, or the calls are more than one."""
    example = group.example
    shown = [f"{example.question.text}:", *parted([call.text for call in example.calls], ";")]
    kinds = ", ".join(f"{kind} {count}" for kind, count in group.kinds.items())
    count = f"other {next(iter(group.kinds), 'id')}s" if group.gives == "ids" else counted(group.count, "answer")
    lines = page.lines(label, f"{count}, since {group.told}".split(" "), 2)
    if group.gives != "ids" and (label or len(example.calls) > 1):
        lines += [page.line("", f"  {kinds}; as"), *page.lines("", shown, 4, "  ")]
    lines_that_close = closing(group, view.report, view.tried)
    told = f"closed by {' or '.join(lines_that_close)}".split(" ") if lines_that_close else []
    return lines + page.lines("", told, 4, "  ")


def _table(view: View, page: Page) -> list[str]:
    report, names = view.report, doubted(view.partings)
    counts = {state: [0] * len(COLUMNS) for state in State}
    parting = [sum(question.kind in kinds for question in names) for _, kinds in COLUMNS]
    for at, (_, kinds) in enumerate(COLUMNS):
        for answer in report.of_kind(*kinds):
            counts[state_of(answer)][at] += 1
    opens = list(map(sum, zip(counts[State.OPEN], counts[State.STEPS], counts[State.MODES])))
    rows = [("denied", counts[State.DENIED], "green"), ("open", opens, "red"), ("in steps", counts[State.STEPS], "yellow")]
    if names:
        rows.insert(1, ("  parting", parting, "yellow"))
    # of those that are open, as the report has them
    rows += [("by modes", counts[State.MODES], "green")] if any(counts[State.MODES]) else []
    headings = [heading for heading, _ in COLUMNS] + ["all"]
    numbers = [[*row, sum(row)] for _, row, _ in rows]
    widths = [max(map(len, map(str, column))) + 1 for column in zip(headings, *numbers)]
    lines = [page.paint(" " * LABEL + "".join(map(str.rjust, headings, widths)), "dim")]
    for (label, _, style), row in zip(rows, numbers):
        cells = "".join((str(number) if number else "-").rjust(width) for number, width in zip(row, widths))
        lines.append(page.paint(label.ljust(LABEL), "bold") + page.paint(cells, style))
    return lines


def _files(view: View, page: Page) -> list[str]:
    mounts = [mount.place for mount in view.plan.mounts] if view.plan else []
    parts: dict[str, list[str]] = {}
    for kind in PATH_KINDS:
        rows = {answer.question.name: state_of(answer) for answer in view.report.of_kind(kind)}
        if rows:
            parts[kind] = _places(*described(rows, mounts))
    if len(parts) == len(PATH_KINDS) and len(set(map(tuple, parts.values()))) == 1:
        parts = {"files": parts["see"]}
    elif "see" in parts and parts["see"] == parts.get("read"):
        parts = {"see, read": parts.pop("see"), **{kind: told for kind, told in parts.items() if kind != "read"}}
    return [line for label, told in parts.items() for line in page.lines(label, told)]


def _places(whole: State, exceptions: Sequence[Exceptional[State]]) -> list[str]:
    """How a wish stands: everywhere, and by folders that stand otherwise, in parts that are not broken."""
    groups: dict[State, list[str]] = {}
    for told in exceptions:
        groups.setdefault(told.state, []).append(escaped(told.path) + (" itself" if told.alone else ""))
    found = [f"{whole.value} everywhere"]
    for at, (state, paths) in enumerate(groups.items()):
        listed = parted(braced(paths))
        found += [f"{'but' if at == 0 else 'and'} {state.value} in {listed[0]}", *listed[1:]]
    return found


def _names(view: View, page: Page) -> list[str]:
    lines: list[str] = []
    for label, kinds, groups in (
        ("calls", ("call",), view.table.groups), ("sockets", ("socket",), {}), ("namespaces", ("ns",), {}),
        ("switches", SWITCHES, {}), ("caps", ("cap",), {}), ("uids", ("uid",), {}), ("gids", ("gid",), {}),
    ):  # fmt: skip
        answers = view.report.of_kind(*kinds)
        states = {answer.question.name or answer.question.kind: state_of(answer) for answer in answers}
        if states:
            lines += page.lines(label, _stands(states, groups), 2)
    return lines


def _stands(states: dict[str, State], groups: dict[str, frozenset[str]]) -> list[str]:
    """How names stand: the state that would take most words is told first, of all others."""
    by_state: dict[State, list[str]] = {}
    for name, state in states.items():
        by_state.setdefault(state, []).append(name)
    covers = {state: covered(names, set(states), groups) for state, names in by_state.items()}
    most = max(covers, key=lambda state: len(covers[state]))
    if len(by_state) == 1:
        return [f"{most.value} all {len(states)}"]
    found = [f"{most.value} {len(by_state[most])}"]
    for state, names in covers.items():
        if state != most:
            found += [f"but {state.value} {len(by_state[state])}:", *names]
    return found


def topmost(folders: Iterable[str]) -> list[str]:
    """The folders that lie below no other one of them."""
    found: list[str] = []
    for folder in sorted(folders):
        if not any(is_below(folder, other) for other in found):
            found.append(folder)
    return found


def _blind(view: View, page: Page) -> list[str]:
    folders = topmost(view.report.blind)
    shown = {folder for parting in view.partings if parting.opens for folder in parting.blind}
    held = _held_less(len(shown & set(folders)))
    return page.lines("blind", parted(braced([escaped(folder) for folder in folders]) + [held] * bool(held)))


def wrong_lines(view: View) -> list[tuple[str, str]]:
    """Lines of the unit that do not say what they seem to: where they stand, and what is wrong; in the order of files and lines."""
    passed = {(it.file, it.line): it.text for it in view.passed}
    places = {(told.note.file, told.note.line): told for told in view.notes if told.is_unknown or told.note.cause != "unjudged"}
    order = {file: number for number, file in enumerate(dict.fromkeys(file for file, _ in [*places, *passed]))}
    found = []
    for at in sorted({*places, *passed}, key=lambda at: (order[at[0]], at[1])):
        told = places.get(at)
        if at in passed:
            text = passed[at]
        elif told and told.is_unknown:
            text = f"no key of systemd{f' ({told.nearest}= is meant?)' if told.nearest else ''}: {told.text}"
        else:
            text = f"{_CAUSES.get(told.note.cause, told.note.cause)}: {told.text}" if told else ""
        found.append((f"{escaped(at[0].rpartition('/')[2])}:{at[1]}", text))
    return found


_CAUSES = {
    "value": "this value cannot be read", "no-equals": "no assignment", "no-section": "in front of all sections",
    "specifier": "a specifier cannot be read", "unknown-name": "a name that the tables lack",
}  # fmt: skip


def _wrong(view: View, page: Page) -> list[str]:
    """Above the verdict: what the unit does not say, though it looks so."""
    found = wrong_lines(view)
    lines = [line for place, text in found[:6] for line in page.lines("note", f"{place}: {text}".split(" "), 2)]
    if len(found) > 6:
        lines.append(page.line("", f"and {counted(len(found) - 6, 'more line')} that cannot be read"))
    return [*lines, ""] if lines else []


def _notes(notes: Sequence[ToldNote], page: Page) -> list[str]:
    rest = [told for told in notes if told.note.cause == "unjudged" and not told.is_unknown]
    if not rest:
        return []
    keys = list(dict.fromkeys(told.key for told in rest if told.key))
    return page.lines("not judged", [counted(len(rest), "line") + ":" * bool(keys), *keys], 2)


DIRECTIONS = {
    Direction.DENIED_HERE: "systemd opens what is denied here:",
    Direction.OPEN_HERE: "systemd denies what is open here:",
    Direction.EITHER: "systemd parts either way:",
}


def _partings(view: View, page: Page) -> list[str]:
    found = [parting for parting in view.partings if not view.report.answers or bears_on(parting, view.report)]
    lines: list[str] = []
    for direction, text in DIRECTIONS.items():
        here = [parting for parting in found if parting.direction == direction]
        if not here:
            continue
        touching = [parting for parting in here if parting.opens and (parting.answers or parting.blind)]
        others = [_parting_name(parting) for parting in here if parting not in touching]
        label = "" if lines else "partings"
        # none of them is cut
        if touching:
            lines.append(page.line(label, text))
            lines += [line for parting in touching for line in page.lines("", _touching(parting), 3, "  ")]
            if others:
                lines += page.lines("", ["and of no answer here:", *parted(others)], len(others) + 1, "  ")
        else:
            lines += page.lines(label, [text, *parted(others)], len(others) + 1)
    return lines


def _touching(parting: Parting) -> list[str]:
    """A parting with what it touches and what closes it, in parts that are not broken."""
    touched = [counted(len(parting.answers or ()), "answer")] * bool(parting.answers)
    touched += [counted(len(topmost(parting.blind)), "blind folder")] * bool(parting.blind)
    text = ", ".join(touched) + ";" * bool(parting.closed_by)
    return [*_parting_name(parting).split(), *text.split(), *_closing(parting.closed_by)]


def _closing(lines: Sequence[str]) -> list[str]:
    """The lines each of which closes something, in parts that are not broken; nothing where there are none."""
    found = [word for at, line in enumerate(lines) for word in ["or"] * (at > 0) + [line]]
    return ["closed", "by", *found] if found else []


def _parting_name(parting: Parting) -> str:
    keys = [f"{key}=" for key in parting.keys]
    return f"{parting.name} ({' '.join(keys[:2])}{' ..' if len(keys) > 2 else ''})" if keys else parting.name
