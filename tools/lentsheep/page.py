"""The report as one page of HTML that stands by itself: `page_of(view, ..)` gives its text.

It has the tree of files, the grid of capabilities, the calls, and the filters as pictures with the way of a number that is
typed in; a search field; light and dark. It is used by keyboard as well, and asks for nothing from the network.
"""
from __future__ import annotations

import errno
import json
from collections import Counter
from html import escape
from pathlib import Path
from typing import Iterable, Mapping, Optional, Sequence

from .bpf import ACTIONS
from .brief import DIRECTIONS, View, wrong_lines
from .causes import State, causes, state_of
from .harm import closing, groups
from .parting_sides import bears_on
from .page_filters import drawn
from .page_tree import NONE, SIGNS, class_of, shown_tree
from .partings import Parting, doubted
from .profiles import in_a_sentence
from .values import KINDS, SWITCHES, Answer, Filters, Launched, LaunchKilled, LaunchPrivileged, LaunchRefused, Plan, Report

HERE = Path(__file__).resolve().parent
STYLE = (HERE / "page.css").read_text("utf-8")
# The architecture of x86-64 (linux/audit.h), where no program says another.
X86_64 = 0xC000003E
POLICY = "default-src 'none'; style-src 'unsafe-inline'; script-src 'unsafe-inline'"


def page_of(view: View, filters: Optional[Filters] = None, names: Optional[Mapping[str, int]] = None) -> str:
    """The page of what is told of a report; `names` are the numbers of calls by their names.

    The text can be written as UTF-8: bytes of paths that are none stand as question marks.
    """
    report, names = view.report, names or {}
    sections = [
        section("glance", "At a glance", glance(view)),
        section("files", "Files", legend() + shown_tree(report)),
        section("capabilities", "Capabilities", shown_items(report, ("cap",), "grid")),
        section("calls", "Calls", shown_items(report, ("call",))),
        section("rest", "Sockets, namespaces and more", rest(report)),
    ]
    if view.plan and view.plan.mounts:
        sections.append(section("mounts", "Mounts", mounts(view.plan)))
    if filters and filters.filters:
        sections.append(section("filters", "Filters", pictures(filters, names)))
    text = document(report.unit, in_a_sentence(view.profile) if view.profile else "", sections, data_of(view, filters, names))
    return text.encode("utf-8", "replace").decode("utf-8")


def document(unit: str, profile: str, sections: list[tuple[str, str, str]], data: str) -> str:
    """The whole text."""
    head = f'<h1>{escape(unit)}</h1>{f"<p>{escape(profile)}</p>" if profile else ""}'
    links = "".join(f'<a href="#{name}">{title}</a>' for name, title, _ in sections)
    return f"""<!doctype html>
<html lang="en">
<head>
<meta charset="utf-8">
<meta http-equiv="Content-Security-Policy" content="{POLICY}">
<meta name="viewport" content="width=device-width">
<title>{escape(unit)}: what its sandbox leaves open</title>
<style>
{STYLE}</style>
</head>
<body>
<a class="skip" href="#files">To the files</a>
<header>{head}</header>
<div class="bar"><div>
<label>Search <input id="search" type="search" placeholder="denied write /etc" aria-describedby="found"></label>
<span id="found" role="status" class="faint"></span>
<nav aria-label="Sections">{links}</nav>
<button id="theme" type="button">Light or dark</button>
</div></div>
<main>
{"".join(text for _, _, text in sections)}</main>
<output id="told" class="told" aria-label="What the report says of it"></output>
<script type="application/json" id="data">{data}</script>
<script>
{(HERE / "page.js").read_text("utf-8")}</script>
</body>
</html>
"""


def section(name: str, title: str, text: str) -> tuple[str, str, str]:
    """A section with its heading."""
    heading = f'<h2 id="{name}-title">{title}</h2>'
    return name, title, f'<section id="{name}" aria-labelledby="{name}-title">{heading}{text}</section>\n'


def told_launch(report: Report) -> str:
    """What became of the launch, in a sentence."""
    launch = report.launch
    if isinstance(launch, Launched):
        privileges = "on" if launch.no_new_privs else "off"
        return f"Launched as uid {launch.uid} and gid {launch.gid}, in {launch.steps} steps; no_new_privs is {privileges}."
    if isinstance(launch, LaunchRefused):
        return f"Not launched: step {launch.step} is refused with {errno.errorcode.get(launch.errno, launch.errno)}."
    if isinstance(launch, LaunchKilled):
        return f"Not launched: a filter ends it at step {launch.step}."
    if isinstance(launch, LaunchPrivileged):
        return f"Not launched: {launch.program} has a set-id bit or capabilities."
    return "The report does not have the launch."


def table(head: Iterable[str], rows: Iterable[Sequence[str]], kind: str = "") -> str:
    """A table, of texts that are escaped already."""
    cells = ("".join(f'<td class="{kind}">{cell}</td>' for cell in row) for row in rows)
    body = "".join(f"<tr>{row}</tr>" for row in cells)
    heads = "".join(f"<th>{cell}</th>" for cell in head)
    # what is wider than the screen scrolls within it
    return f'<div class="scroll" tabindex="0"><table><thead><tr>{heads}</tr></thead><tbody>{body}</tbody></table></div>'


def glance(view: View) -> str:
    """What became of the launch, the counts, why answers are open, the blind folders, the notes and the partings."""
    report = view.report
    if report.refusal:
        return f"<p><code>{escape(report.refusal.text)}</code></p>"
    parts = [wrong(view), f"<p>{escape(told_launch(report))}</p>"]
    if not report.whole:
        parts.append("<p><b>The text of the report was cut: what follows its last line is not known.</b></p>")
    if report.summary:
        parts.append(f"<p>Answers: {report.summary.denied} denied{held_less(view)}, {report.summary.open} open.</p>")
    parts.append(parted_in_short(view))
    lists = why(view) + blind(report) + noted(view)
    parts.append(f'<div class="columns"><div>{counts(report)}</div><div class="wide">{lists}</div></div>')
    return "".join(parts) + parted(view) + made_by(view)


def made_by(view: View) -> str:
    """The program, and the sums of what it read."""
    if view.identity is None:
        return ""
    rows = [(escape(name), f"<code>{total}</code>") for name, total in view.identity.sums.items()]
    return f"<h3>Made by</h3><p>{escape(view.identity.build)}</p>" + table(("File", "SHA-256"), rows)


def held_less(view: View) -> str:
    """How many of the denied answers systemd may open."""
    number = len(doubted(view.partings))
    return f", of which {number} {'holds' if number == 1 else 'hold'} only without the partings below" if number else ""


def counts(report: Report) -> str:
    """How the questions of each kind stand, with the counts of the screen: what is open in steps or closed by modes is open, too."""
    kinds = [kind for kind in KINDS if kind not in SWITCHES]
    groups = [(kind, report.of_kind(kind)) for kind in kinds] + [("switches", report.of_kind(*SWITCHES))]
    stand = {kind: Counter(state_of(it) for it in found) for kind, found in groups if found}
    of_all: Counter[State] = sum(stand.values(), Counter())
    shown = [State.STEPS] + [State.MODES] * bool(of_all[State.MODES])
    rows = [
        (kind, cell(found[State.DENIED], "denied"), cell(sum(found.values()) - found[State.DENIED], "open"),
         *(cell(found[state], class_of(state.value)) for state in shown))
        for kind, found in [*stand.items(), ("all", of_all)]
    ]  # fmt: skip
    heads = {State.STEPS: "of these in steps", State.MODES: "of these closed by modes"}
    return table(("Kind", "denied", "open", *(heads[state] for state in shown)), rows)


def cell(count: int, kind: str) -> str:
    """A count in its colour."""
    return f'<span class="{kind}">{count or "–"}</span>'


def why(view: View) -> str:
    """Why answers are open that are shown in steps alone, and what closes them."""
    rows = [
        (str(group.count), escape(group.told), " or ".join(f"<code>{escape(it)}</code>" for it in closing(group, view.report, view.tried)),
         "<br>".join(f"<code>{escape(it.text)}</code>" for it in group.example.calls))
        for group in groups(causes(view.report, view.table))
    ]  # fmt: skip
    return "<h3>Why open</h3>" + table(("Answers", "since", "closed by", "as"), rows) if rows else ""


def topmost(folders: Sequence[str]) -> list[str]:
    """Those that stand below none of the others."""
    return [path for path in folders if not any(path.startswith(it.rstrip("/") + "/") for it in folders if it != path)]


def blind(report: Report) -> str:
    """The blind folders that stand in no other."""
    found = ", ".join(f"<code>{escape(it)}</code>" for it in topmost(report.blind))
    return f"<h3>Blind folders</h3><p>{found or 'none'}</p>"


def noted(view: View) -> str:
    """What was passed over in the unit and has no part in the answers."""
    rows = [
        (escape(it.place), escape(it.note.cause), f"<code>{escape(it.text)}</code>") for it in view.notes if not it.is_unknown
    ]
    return "<h3>Passed over in the unit</h3>" + table(("Line", "Cause", "Text"), rows) if rows else ""


def wrong(view: View) -> str:
    """Lines of the unit that do not say what they seem to."""
    rows = [(escape(place), escape(text)) for place, text in wrong_lines(view)]
    return "<h3>Lines of the unit that are not read</h3>" + table(("Line", "What is wrong"), rows) if rows else ""


def parted_in_short(view: View) -> str:
    """The partings that an answer is on the side of, by their names."""
    found = [parting for parting in view.partings if bears_on(parting, view.report)]
    lines = []
    for direction, text in DIRECTIONS.items():
        names = [f'<a href="#partings" title="{escape(it.text)}">{escape(it.name)}</a>' for it in found if it.direction == direction]
        if names:
            lines.append(f"<p>{escape(text)} {', '.join(names)}</p>")
    return "".join(lines)


def parted(view: View) -> str:
    """Where systemd may part from the judgement of this unit."""
    rows = [
        (it.name, escape(" ".join(f"{key}=" for key in it.keys)), it.direction.value, escape(it.text), touched(it),
         " or ".join(f"<code>{escape(line)}</code>" for line in it.closed_by), escape(it.versions))
        for it in view.partings
    ]  # fmt: skip
    head = ("Parting", "Keys", "Which", "What", "Answers", "closed by", "systemd")
    return '<h3 id="partings">Where systemd may part from this</h3>' + table(head, rows) if rows else ""


def touched(parting: Parting) -> str:
    """How many answers a parting touches, and which folders are not blind by it."""
    number = "" if parting.answers is None else str(len(parting.answers))
    return number + "".join(f"<br><code>{escape(it)}</code>" for it in topmost(parting.blind))


def legend() -> str:
    """What the marks say."""
    marks = "".join(f'<span class="mark {class_of(mark)}">{sign}</span> {mark}' for mark, sign in SIGNS.items() if mark != NONE)
    return f'<p class="legend faint">In the order see, read, write, run, of the path and all below:{marks}</p>'


def shown_items(report: Report, kinds: Sequence[str], kind: str = "") -> str:
    """Answers as a list that the arrow keys go through."""
    found = [(at, answer) for at, answer in enumerate(report.answers) if answer.question.kind in kinds]
    if not found:
        return "<p>The report has none.</p>"
    rows = "".join(shown_item(at, answer) for at, answer in found)
    return f'<ul class="items {kind}" role="listbox" aria-label="{", ".join(kinds)}">{rows}</ul>'


def shown_item(at: int, answer: Answer) -> str:
    """One answer."""
    question = answer.question
    text = question.name or question.kind
    label = escape(f"{answer.verdict} {question.text}")
    state = state_of(answer).value
    return (
        f'<li class="{class_of(state)}" role="option" tabindex="-1" data-a="{at}" aria-label="{label}">'
        f'{SIGNS[state]} {escape(text.removeprefix("CAP_"))}</li>'
    )


def rest(report: Report) -> str:
    """The other kinds, each under its heading."""
    groups = [("Sockets", ("socket",)), ("Namespaces", ("ns",)), ("Switches", SWITCHES), ("Uids", ("uid",)), ("Gids", ("gid",))]
    return "".join(f"<h3>{title}</h3>{shown_items(report, kinds)}" for title, kinds in groups)


def mounts(plan: Plan) -> str:
    """The mounts of the service."""
    rows = [
        (escape(it.place), escape(it.source or it.what), "" if it.writable is None else "rw" if it.writable else "ro",
         "" if it.executable is None else "exec" if it.executable else "noexec", "nosuid" if it.nosuid else "")
        for it in plan.mounts
    ]  # fmt: skip
    return table(("Place", "What is there", "", "", ""), rows, "code")


def pictures(filters: Filters, names: Mapping[str, int]) -> str:
    """The field for a number, and a picture for each filter."""
    options = "".join(f"<option>{escape(name)}</option>" for name in names)
    field = (
        '<p><label>Number or name of a call, and its arguments <input id="number" list="names" placeholder="41 2 1 0" '
        f'aria-describedby="decided"></label> <output id="decided" aria-live="polite"></output></p>'
        f'<datalist id="names">{options}</datalist>'
    )
    drawings = [
        f'<h3>{escape(it.name)} <i>{len(it.program)} instructions</i></h3><div class="picture" tabindex="0" '
        f'role="region" aria-label="Picture of {escape(it.name)}">{drawn(it, at, names)}</div>'
        for at, it in enumerate(filters.filters)
    ]
    return field + "".join(drawings)


def data_of(view: View, filters: Optional[Filters], names: Mapping[str, int]) -> str:
    """What the page's program reads, as JSON that may stand in HTML."""
    report, doubts = view.report, doubted(view.partings)
    programs = filters.filters if filters else ()
    first = next((it.k for one in programs for it in one.program if it.code == 0x15), X86_64)
    data = {
        "answers": [[f"{it.verdict} {it.question.text}", *(call.text for call in it.calls)] for it in report.answers],
        "doubts": {at: doubts[it.question] for at, it in enumerate(report.answers) if it.question in doubts},
        "programs": [[one.name, [[it.code, it.jt, it.jf, it.k] for it in one.program]] for one in programs],
        "names": dict(names),
        "arch": first,
        "actions": {result >> 16: name for result, name in ACTIONS.items()},
        "errnos": errno.errorcode,
    }
    return json.dumps(data, ensure_ascii=False, separators=(",", ":")).replace("<", "\\u003c")


def read_names(text: str) -> dict[str, int]:
    """The calls of a calls.txt of one ABI, with their numbers."""
    lines = [line.split() for line in text.split("\n")]
    return {line[1]: int(line[2]) for line in lines if len(line) >= 3 and line[0] == "call" and line[2].isdigit()}
