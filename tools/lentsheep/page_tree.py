"""The tree of files on the page: each folder with what may be seen, read, written and run at it and below.

A folder is folded where all below is alike; in one that is not, so are the many children that are alike among themselves.
"""
from __future__ import annotations

from html import escape
from typing import Collection, Iterable

from .causes import State, state_of
from .record import dataclass, field
from .values import PATH_KINDS, Answer, Report

# The signs of marks: of how a question stands, of several that stand otherwise, and of none.
MIXED, NONE = "mixed", "none"
SIGNS = {State.OPEN.value: "●", State.STEPS.value: "◎", MIXED: "◐", State.DENIED.value: "○", State.MODES.value: "◇", NONE: "·"}
# How many children that are alike are folded to one row.
MANY = 6


@dataclass
class Node:
    """A path: its answers by kind, with their places in the report, and what stands below it."""

    path: str
    answers: dict[str, tuple[int, Answer]] = field(default_factory=dict)
    below: dict[str, "Node"] = field(default_factory=dict)

    @property
    def name(self) -> str:
        """The last part of the path."""
        return self.path.rpartition("/")[2] or "/"

    def states(self, kind: str) -> set[State]:
        """How the questions of a kind stand at the path and below."""
        own = {state_of(self.answers[kind][1])} if kind in self.answers else set()
        return own | states_of(self.below.values(), kind)

    def count(self) -> int:
        """How many paths there are below."""
        return sum(1 + node.count() for node in self.below.values())


def tree_of(report: Report) -> Node:
    """The paths of a report as a tree."""
    root = Node("/")
    for at, answer in enumerate(report.answers):
        if answer.question.kind in PATH_KINDS:
            node = root
            for part in answer.question.name.split("/")[1:]:
                if part:
                    node = node.below.setdefault(part, Node(f"{node.path.rstrip('/')}/{part}"))
            node.answers[answer.question.kind] = (at, answer)
    return root


def states_of(nodes: Iterable[Node], kind: str) -> set[State]:
    """How the questions of a kind stand at some paths and below."""
    return {state for node in nodes for state in node.states(kind)}


def marks_of(*nodes: Node) -> dict[str, str]:
    """The mark of each kind, of some paths and all below."""
    found = {kind: [state.value for state in states_of(nodes, kind)] for kind in PATH_KINDS}
    return {kind: MIXED if len(states) > 1 else states[0] if states else NONE for kind, states in found.items()}


def is_alike(node: Node) -> bool:
    """Whether the questions of each kind stand alike at the path and below."""
    return MIXED not in marks_of(node).values()


def others_of(node: Node) -> list[Node]:
    """The most children that are alike among themselves, where the folder is not and there are many."""
    if is_alike(node):
        return []
    marked = [(child, marks_of(child)) for child in node.below.values()]
    alike = [(child, tuple(marks.values())) for child, marks in marked if MIXED not in marks.values()]
    groups = [[child for child, marks in alike if is_within(marks, usual)] for usual in sorted({marks for _, marks in alike})]
    most = max(groups, key=lambda group: (len(group), group[0].path), default=[])
    return most if len(most) >= MANY else []


def is_within(marks: tuple[str, ...], usual: tuple[str, ...]) -> bool:
    """Whether marks have nothing that the usual ones have not."""
    return all(mark in (NONE, other) for mark, other in zip(marks, usual))


def shown_tree(report: Report) -> str:
    """The tree as nested lists; without answers about files a sentence."""
    root = tree_of(report)
    if not root.answers and not root.below:
        return "<p>The report has no answers about files.</p>"
    return f'<ul class="tree" role="tree" aria-label="Files">{shown_node(root, set(report.blind), 1)}</ul>'


def class_of(mark: str) -> str:
    """The class of a mark in the page's style."""
    return mark.rpartition(" ")[2]


def shown_marks(marks: dict[str, str]) -> str:
    """The marks of a row; what they say is in the row's label."""
    signs = (f'<span class="mark {class_of(mark)}" title="{kind}: {mark}">{SIGNS[mark]}</span>' for kind, mark in marks.items())
    return f'<span class="marks" aria-hidden="true">{"".join(signs)}</span>'


def said_by(marks: dict[str, str]) -> str:
    """The marks in words."""
    return ", ".join(f"{kind} {mark}" for kind, mark in marks.items() if mark != NONE)


def shown_node(node: Node, blind: Collection[str], level: int) -> str:
    """A row and those below it."""
    marks = marks_of(node)
    places = " ".join(str(at) for at, _ in node.answers.values())
    is_blind = node.path in blind
    folded = is_alike(node)
    more = f" <i>{node.count()} below{', all alike' if folded else ''}</i>" if node.below else ""
    name = f'<span class="name">{escape(node.name)}</span>' + (' <b class="tag">blind</b>' if is_blind else "") + more
    label = f"{node.path}: {said_by(marks)}{', blind' if is_blind else ''}"
    return row(level, label, marks, name, places, folded, shown_children(node, blind, level + 1))


def shown_children(node: Node, blind: Collection[str], level: int) -> str:
    """The rows below a folder: those that differ, and behind them one for the others."""
    others = others_of(node)
    apart = {child.path for child in others}
    own = [shown_node(it, blind, level) for _, it in sorted(node.below.items()) if it.path not in apart]
    if others:
        marks = marks_of(*others)
        label = f"{len(others)} others of {node.path}, alike: {said_by(marks)}"
        name = f'<span class="name">{len(others)} others</span> <i>alike</i>'
        rows = "".join(shown_node(it, blind, level + 1) for it in sorted(others, key=lambda child: child.name))
        own.append(row(level, label, marks, name, "", True, rows))
    return "".join(own)


def row(level: int, label: str, marks: dict[str, str], name: str, places: str, folded: bool, below: str) -> str:
    """The markup of a row; its places are those of its answers in the report."""
    state = f' aria-expanded="{"false" if folded else "true"}"' if below else ""
    return (
        f'<li role="treeitem" aria-level="{level}" style="--level:{level}"{state} aria-label="{escape(label)}" '
        f'data-a="{places}" tabindex="-1"><div class="row">{shown_marks(marks)}{name}</div>'
        + (f'<ul role="group">{below}</ul>' if below else "")
        + "</li>"
    )
