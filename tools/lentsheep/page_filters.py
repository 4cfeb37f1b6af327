"""The pictures of filters on the page: each decision tree as SVG, from left to right, one line for each end."""
from __future__ import annotations

from html import escape
from typing import Mapping

from .decisions import End, Test, Tree, decision_tree
from .record import dataclass, field
from .values import Filter

# In pixels: the height of a line, and the widths of a column and of the boxes in it.
LINE, COLUMN, BOX, END = 24, 176, 144, 250
# How many names of calls the text of an end lists.
MOST_NAMES = 40


@dataclass
class Picture:
    """A picture as it is drawn: how many lines and columns it has so far, and its shapes."""

    prefix: str
    names: Mapping[str, int]
    lines: int = 0
    columns: int = 0
    count: int = 0
    shapes: list[str] = field(default_factory=list)

    def name(self) -> str:
        """A new name of a shape."""
        self.count += 1
        return f"{self.prefix}-{self.count}"


def drawn(program: Filter, at: int, names: Mapping[str, int]) -> str:
    """The picture of the filter that stands at a place of the list; a sentence where there is none."""
    tree = decision_tree(program.program)
    if tree is None:
        return "<p>This program has instructions that are not drawn.</p>"
    picture = Picture(f"f{at}", names)
    draw(picture, tree, 0)
    width, height = picture.columns * COLUMN + END + 8, picture.lines * LINE + 8
    title = f"Decision tree of the filter {escape(program.name)}: {picture.lines} ends"
    return (
        f'<svg role="img" aria-label="{title}" viewBox="0 0 {width} {height}" width="{width}" height="{height}" '
        f'data-root="{picture.prefix}-1">' + "".join(picture.shapes) + "</svg>"
    )


def draw(picture: Picture, tree: Tree, column: int) -> tuple[str, float]:
    """Draws a tree, and gives its name and the height of its middle."""
    name = picture.name()
    if isinstance(tree, End):
        middle = picture.lines * LINE + LINE / 2 + 4
        picture.lines += 1
        picture.columns = max(picture.columns, column)
        picture.shapes.append(end_shape(picture, name, tree, column, middle))
        return name, middle
    # lower numbers stand above
    sides = [("no", tree.no), ("yes", tree.yes)] if tree.sign in "≥>" else [("yes", tree.yes), ("no", tree.no)]
    below = {side: draw(picture, child, column + 1) for side, child in sides}
    middle = sum(height for _, height in below.values()) / 2
    for side, (child, height) in below.items():
        picture.shapes.append(line_shape(child, side, column, middle, height))
    picture.shapes.append(test_shape(name, tree, column, middle, below["yes"][0], below["no"][0]))
    return name, middle


def line_shape(child: str, side: str, column: int, start: float, end: float) -> str:
    """The line to a child, with its word."""
    left, right = column * COLUMN + BOX + 4, (column + 1) * COLUMN + 4
    bend = left + 10
    return (
        f'<g id="{child}-in" class="way"><path d="M{left} {start}H{bend}V{end}H{right}"/>'
        f'<text x="{bend + 4}" y="{end - 3}">{side}</text></g>'
    )


def test_shape(name: str, test: Test, column: int, middle: float, yes: str, no: str) -> str:
    """The box of a test."""
    left = column * COLUMN + 4
    return (
        f'<g id="{name}" class="test" data-at="{test.at}" data-yes="{yes}" data-no="{no}">'
        f'<rect x="{left}" y="{middle - 10}" width="{BOX}" height="20" rx="3"/>'
        f'<text x="{left + 6}" y="{middle + 4}">{escape(test.text)}</text></g>'
    )


def kind_of(end: End) -> str:
    """The class of an action."""
    return next((kind for kind in ("allow", "errno", "kill") if end.text.startswith(kind)), "other")


def end_shape(picture: Picture, name: str, end: End, column: int, middle: float) -> str:
    """The box of an end, with the numbers that come to it and the names of their calls."""
    left = column * COLUMN + 4
    found = [call for call, number in picture.names.items() if end.numbers.has(number)]
    told = ", ".join(found[:MOST_NAMES]) + (f" and {len(found) - MOST_NAMES} more" if len(found) > MOST_NAMES else "")
    numbers = found[0] if len(found) == 1 and end.numbers.first == end.numbers.last else end.numbers.text
    text = f"{end.text} · {numbers}"
    return (
        f'<g id="{name}" class="end {kind_of(end)}" data-at="{end.at}"><title>{escape(told or end.numbers.text)}</title>'
        f'<rect x="{left}" y="{middle - 10}" width="{END}" height="20" rx="10"/>'
        f'<text x="{left + 8}" y="{middle + 4}">{escape(text[:40])}</text></g>'
    )
