"""The plan, the launch and the filters of a unit, compared with the mounts, the status and the filters of its process."""
from __future__ import annotations

from typing import Mapping, Sequence

from lentsheep.values import Launched
from lentsheep.values import Mount as PlannedMount

from .cover import Told
from .filters import ALLOW, NEVER_FILTERED, Filters, Verdict
from .found import Comparison, Machine, Made
from .service import Mount, Started, covering
from .tries import CAPABILITY


def plan_of(
    comparison: Comparison, machine: Machine, mounts: Sequence[PlannedMount], rows: Mapping[str, str], started: Started, told: Told,
    has_nosuid: bool = False,
) -> None:
    """Compares the plan with mountinfo, row by row: what is there, and whether it can be written and executed.

    With `has_nosuid`, also whether its mount is nosuid: a plan of the base profile does not say this.
    """
    entries = {entry.place: entry for entry in mounts}
    order = sorted(entries, key=len, reverse=True)
    differing: dict[tuple[str, str], list[str]] = {}
    for path in rows:
        comparison.rows += 1
        entry = entries[next(place for place in order if place == "/" or path == place or path.startswith(place + "/"))]
        here = covering(list(machine.mounts), path)
        there = covering(started.mounts, path)
        if here is None or there is None or path not in machine.identities:
            continue
        # ProcSubset=pid leaves nothing there but processes
        if "subset=pid" in there.super_options and path != there.place:
            continue
        said, seen = entry.what, _what(here, there)
        if said != seen and not (said == "empty" and seen == "host" and path != entry.place):
            differing.setdefault((f"{said} here, {seen} there", "DENIED" if seen == "host" else "OPEN"), []).append(path)
            continue
        if said == "hidden":
            continue
        if "ro" not in here.options:
            is_writable = "ro" not in there.options
            if entry.writable != is_writable:
                key = (f"{_mode(entry.writable)} here, {_mode(is_writable)} there", "DENIED" if is_writable else "OPEN")
                differing.setdefault(key, []).append(path)
        if "noexec" not in here.options and seen == "host" and rows[path] not in ("file", "dev"):
            is_executable = "noexec" not in there.options
            if entry.executable != is_executable:
                key = (f"{_run(entry.executable)} here, {_run(is_executable)} there", "DENIED" if is_executable else "OPEN")
                differing.setdefault(key, []).append(path)
        is_nosuid = "nosuid" in there.options
        # a mount that is nosuid for PID 1 stays so, whatever the plan says
        if has_nosuid and "nosuid" not in here.options and entry.nosuid != is_nosuid:
            differing.setdefault((f"{_privileges(entry.nosuid)} here, {_privileges(is_nosuid)} there", "DENIED"), []).append(path)
    # systemd mounts at the target of a link, and the plan at the link
    linked = {*machine.links, *(machine.links[place] for place in entries if place in machine.links)}
    for (what, direction), paths in sorted(differing.items()):
        for path in paths:
            parting = told.of_plan(path, path in linked) if direction == "DENIED" else "open here"
            comparison.plan.append((path, what, parting or "NEW"))


def _what(here: Mount, there: Mount) -> str:
    """What is at a path, by the mounts that cover it for PID 1 and for the service."""
    if "/inaccessible/" in there.source:
        return "hidden"
    if "systemd-private" in there.source:
        return "empty"
    return "empty" if there.kind == "tmpfs" and there.device != here.device else "host"


def _mode(is_writable: bool) -> str:
    return "rw" if is_writable else "ro"


def _run(is_executable: bool) -> str:
    return "exec" if is_executable else "noexec"


def _privileges(is_nosuid: bool) -> str:
    return "nosuid" if is_nosuid else "suid"


def held_of(comparison: Comparison, launch: Launched, held: Sequence[str] | None, started: Started, told: Told) -> None:
    """Ids, effective set and no_new_privs against the status."""
    status = started.status
    pairs = [
        ("uid", str(launch.uid), status["Uid"].split()[1]), ("gid", str(launch.gid), status["Gid"].split()[1]),
        ("no_new_privs", str(int(launch.no_new_privs)), status["NoNewPrivs"]),
    ]  # fmt: skip
    for what, said, seen in pairs:
        if said != seen:
            is_open = what != "no_new_privs" or seen == "0"
            name = {"no_new_privs": "nnp-from-filters" if seen == "0" else "nnp-from-more", "gid": "dynamic-group"}.get(what, "")
            parting = told.first(name)
            comparison.held.append((f"{what} {said} here, {seen} there", parting or ("NEW" if is_open else "open here")))
    if held is None:
        return
    said_set = sum(1 << CAPABILITY[name] for name in held)
    seen_set = started.number("CapEff")
    more, less = seen_set & ~said_set, said_set & ~seen_set
    if more:
        comparison.held.append((f"effective there alone: {_names(more)}", told.first("nnp-from-filters", "capability-words") or "NEW"))
    if less:
        comparison.held.append((f"effective here alone: {_names(less)}", "open here"))


def _names(bits: int) -> str:
    return " ".join(name for name, number in CAPABILITY.items() if bits >> number & 1)


def filters_of(comparison: Comparison, programs: Sequence[bytes], names: Mapping[int, str], started: Started, told: Told) -> None:
    """The verdict of each number of x86-64 by the programs here and by those there."""
    here, there = Filters(programs).verdicts(), started.filters.verdicts()
    for number, said in sorted(here.items()):
        seen = there[number]
        if number in NEVER_FILTERED:
            continue
        comparison.numbers += 1
        if said != seen:
            name = names.get(number, f"#{number}")
            if said.passes == seen.passes:
                direction = "answer"
            elif seen.passes:
                direction = told.of_number(name) or "NEW"
            else:
                direction = "open here"
            comparison.verdicts.append((f"{name} {said.text} here, {seen.text} there", direction))


def tried_of(comparison: Comparison, started: Started, made: Made, numbers: Mapping[str, int]) -> None:
    """What the kernel answered to each number that was tried, against what its filters say."""
    verdicts = started.filters.verdicts((-1,) * 6)
    for name, number in numbers.items():
        for key, tried in made.get(f"call {name}", []):
            result = started.results.get(key)
            if tried.way != "plain" or result is None or tried.asked is None or tried.steps == ["39"]:
                continue
            verdict = Verdict(ALLOW) if number in NEVER_FILTERED else verdicts[number]
            comparison.tried_numbers += 1
            value = result.steps.get(0)
            if verdict.passes:
                agrees = result.killed != 31
            else:
                agrees = value == -verdict.errno if verdict.errno else result.killed == 31
            if not agrees:
                comparison.otherwise_tried.append(f"{name}: {verdict.text} by the filters, {result.last} by the kernel")
