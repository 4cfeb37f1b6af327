"""The text of comparisons: one block a unit, and a total."""
from __future__ import annotations

from collections import Counter
from typing import Sequence

from .compare import UNEXPLAINED
from .found import Comparison
from .tries import WAYS

MOST_NAMES = 4
NEW = "NEW"


def unit_lines(found: Comparison, verbose: bool) -> list[str]:
    """Returns the lines of one unit."""
    lines = [f"unit {found.unit}"]
    if found.refusal or found.failure:
        here = f"refused ({found.refusal})" if found.refusal else "judged"
        there = f"not started ({found.failure})" if found.failure else "started"
        return [*lines, f"  here {here}, there {there}"]
    if found.questions:
        lines.append(
            f"  questions {found.questions}, agree {found.agreeing}, denied here and done there {found.done_questions}, "
            f"open here and refused there {sum(found.refused.values())}, not tried {found.untried}"
        )
    groups: dict[tuple[str, str], list[str]] = {}
    for it in found.done:
        groups.setdefault((it.parting or NEW, it.way), []).append(it.question)
    for (parting, way), questions in sorted(groups.items()):
        lines.append(f"    {parting} {len(questions)} {WAYS[way]}: {_listed(questions, verbose or parting == NEW)}")
    for reason, count in found.refused.most_common():
        names = f": {', '.join(found.unexplained)}" if reason == UNEXPLAINED else ""
        lines.append(f"    refused there {count}: {reason}{names}")
    lines.append(f"  plan: rows {found.rows}, differ {len(found.plan)}")
    lines += _grouped(found.plan, verbose)
    lines.append(f"  ids, capabilities, no_new_privs: differ {len(found.held)}")
    lines += [f"    {parting}: {what}" for what, parting in found.held]
    tried = f", tried {found.tried_numbers}, differ {len(found.otherwise_tried)}" if found.tried_numbers else ""
    lines.append(f"  filters: numbers {found.numbers}, differ {len(found.verdicts)}{tried}")
    lines += _grouped([(what.split()[0], " ".join(what.split()[1:]), parting) for what, parting in found.verdicts], verbose)
    return lines + [f"    {NEW}: {text}" for text in found.otherwise_tried]


def _listed(names: Sequence[str], whole: bool) -> str:
    shown = names if whole else names[:MOST_NAMES]
    return ", ".join(shown) + (", .." if len(shown) < len(names) else "")


def _grouped(entries: Sequence[tuple[str, str, str | None]], verbose: bool) -> list[str]:
    groups: dict[tuple[str, str], list[str]] = {}
    for name, what, parting in entries:
        groups.setdefault((str(parting), what), []).append(name)
    return [
        f"    {parting} {len(names)} {what}: {_listed(names, verbose or parting == NEW)}"
        for (parting, what), names in sorted(groups.items())
    ]


def total_lines(all_found: Sequence[Comparison]) -> list[str]:
    """Returns the lines of all units together."""
    compared = [found for found in all_found if not found.refusal and not found.failure]
    only_here = sum(bool(it.refusal and not it.failure) for it in all_found)
    only_there = sum(bool(it.failure and not it.refusal) for it in all_found)
    lines = [
        f"total units {len(all_found)}, compared {len(compared)}, refused here alone {only_here}, not started there alone {only_there}, "
        f"neither {len(all_found) - len(compared) - only_here - only_there}",
        f"  questions {sum(it.questions for it in compared)}, agree {sum(it.agreeing for it in compared)}, denied here and done there "
        f"{sum(it.done_questions for it in compared)}, open here and refused there {sum(sum(it.refused.values()) for it in compared)}, "
        f"not tried {sum(it.untried for it in compared)}",
    ]
    count: Counter[str] = Counter()
    units: Counter[str] = Counter()
    reasons: Counter[str] = Counter()
    for found in compared:
        names = [it.parting or NEW for it in found.done]
        count.update(names)
        units.update(set(names))
        reasons.update(found.refused)
    lines += [f"    {name}: {number} answers, {units[name]} units" for name, number in count.most_common()]
    lines += [f"    refused there {number}: {reason}" for reason, number in reasons.most_common()]
    further = (
        ("plan: rows", sum(it.rows for it in compared), [parting for it in compared for *_, parting in it.plan]),
        ("ids, capabilities, no_new_privs: units", len(compared), [parting for it in compared for _, parting in it.held]),
        ("filters: numbers", sum(it.numbers for it in compared), [parting for it in compared for _, parting in it.verdicts]),
    )
    for what, number, partings in further:
        by_name = ", ".join(f"{name} {times}" for name, times in Counter(str(parting) for parting in partings).most_common())
        lines.append(f"  {what} {number}, differ {len(partings)}" + (f": {by_name}" if by_name else ""))
    tried, differing = sum(it.tried_numbers for it in compared), sum(len(it.otherwise_tried) for it in compared)
    lines.append(f"  filters, tried: numbers {tried}, differ {differing}")
    lines.append(f"  {NEW} {sum(it.new for it in compared)}")
    return lines
