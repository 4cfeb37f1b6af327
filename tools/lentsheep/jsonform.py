"""The JSON form of printed texts, as docs/JSON.md and lentsheep.schema.json say."""
from __future__ import annotations

from typing import Any

from .bpf import described as described_instruction
from .brief import COLUMNS, View, topmost
from .calls import Call
from .causes import Cause, State, causes, held_capabilities, state_of, told
from .harm import Group, Tried, closing, groups
from .identity import Identity
from .parting_sides import bears_on
from .partings import Parting, doubted
from .places import described
from .program import Run
from .record import asdict
from .values import (
    PATH_KINDS, Answer, Check, Counts, Derive, Effect, Filter, Filters, Fleet, Launch, Launched, LaunchKilled, LaunchPrivileged,
    LaunchRefused, Plan, Printed, Refusal, Replay, Report, Sample, Score, Tighten, Unknown, Why,
)  # fmt: skip

#: Grows where a field goes or changes its meaning; fields that are added leave it as it is.
VERSION = 1

Json = dict[str, Any]


def json_of(run: Run, view: View | None = None, made_by: Identity | None = None, profile: str = "") -> Json:
    """All that a run printed; of a report also what its view tells."""
    printed = run.printed
    found: Json = {
        "version": VERSION, "command": printed.command, "words": list(run.words), "status": run.status, "whole": printed.whole,
        "refusal": _refusal(printed.refusal), "unread": list(printed.unread),
    }  # fmt: skip
    if profile:
        found["profile"] = profile
    if made_by is not None:
        found["made_by"] = {"version": made_by.version, "proved_by": made_by.proved_by, "sums": made_by.sums}
    if printed.refusal is None:
        found["result"] = _result(printed, view)
    return found


def _result(printed: Printed, view: View | None) -> Json:
    if isinstance(printed, Report):
        return _report(printed, view or View(printed))
    forms = {
        Plan: _plan, Filters: _filters, Replay: _replay, Score: _score, Sample: _sample, Check: _check, Fleet: _fleet,
        Tighten: _tighten, Derive: _derive, Effect: _effect, Why: _why, Unknown: _unknown,
    }  # fmt: skip
    return forms[type(printed)](printed)


def _refusal(refusal: Refusal | None) -> Json | None:
    return None if refusal is None else {"text": refusal.text, "what": refusal.what, "cause": list(refusal.cause)}


def _launch(launch: Launch | None) -> Json | None:
    if isinstance(launch, Launched):
        return {"outcome": "launched", **asdict(launch)}
    if isinstance(launch, LaunchRefused):
        return {"outcome": "refused", **asdict(launch)}
    if isinstance(launch, LaunchKilled):
        return {"outcome": "killed", **asdict(launch)}
    if isinstance(launch, LaunchPrivileged):
        return {"outcome": "privileged", **asdict(launch)}
    return None


def _call(call: Call) -> Json:
    return {
        "text": call.text, "pid": call.pid, "abi": call.abi, "name": call.name, "payload": list(call.payload),
        "arguments": [str(word) for word in call.args],
    }  # fmt: skip


def _answer(answer: Answer) -> Json:
    return {
        "question": answer.question.text, "kind": answer.question.kind, "name": answer.question.name, "verdict": answer.verdict,
        "state": state_of(answer).value, "calls": [_call(call) for call in answer.calls],
    }  # fmt: skip


def _counts(counts: Counts | None) -> Json | None:
    return None if counts is None else asdict(counts)


def _cause(cause: Cause, group: Group, report: Report, tried: Tried | None) -> Json:
    return {
        "count": cause.count, "need": cause.need.kind, "by": cause.need.by, "text": told(cause), "kinds": cause.kinds,
        "then": cause.then, "programs": list(cause.programs), "example": _answer(cause.example),
        "gives": group.gives, "closed_by": closing(Group(group.gives, (cause,)), report, tried),
    }  # fmt: skip


def _kinds(report: Report) -> Json:
    """The counts of each kind, in the order of the report."""
    found: Json = {}
    for _, kinds in COLUMNS:
        for kind in kinds:
            states = [state_of(answer) for answer in report.of_kind(kind)]
            found[kind] = {
                "denied": states.count(State.DENIED), "open": len(states) - states.count(State.DENIED),
                "in_steps": states.count(State.STEPS), "by_modes": states.count(State.MODES),
            }  # fmt: skip
    return found


def _folders(view: View) -> Json:
    """How each wish stands, as largest folders."""
    mounts = [mount.place for mount in view.plan.mounts] if view.plan else []
    found: Json = {}
    for kind in PATH_KINDS:
        rows = {answer.question.name: state_of(answer) for answer in view.report.of_kind(kind)}
        if rows:
            whole, exceptions = described(rows, mounts)
            listed = [{"path": it.path, "state": it.state.value, "rows": it.rows, "alone": it.alone} for it in exceptions]
            found[kind] = {"everywhere": whole.value, "but": listed}
    return found


def _report(report: Report, view: View) -> Json:
    report, names = view.report, doubted(view.partings)
    notes = [
        {
            "file": it.note.file, "line": it.note.line, "cause": it.note.cause, "key": it.key, "text": it.text,
            "unknown": it.is_unknown, "nearest": it.nearest,
        }  # fmt: skip
        for it in view.notes
    ] or [
        {"file": it.file, "line": it.line, "cause": it.cause, "key": "", "text": "", "unknown": False, "nearest": ""}
        for it in report.notes
    ]
    return {
        "unit": report.unit, "launch": _launch(report.launch), "summary": _counts(report.summary), "kinds": _kinds(report),
        "held": held_capabilities(report), "causes": [
            _cause(cause, group, report, view.tried) for group in groups(causes(report, view.table)) for cause in group.causes
        ],
        "folders": _folders(view), "blind": list(report.blind), "topmost_blind": topmost(report.blind), "notes": notes,
        "passed_over": [dict(it._asdict()) for it in view.passed],
        "partings": [_parting(parting, report) for parting in view.partings],
        "doubted": len(names),
        "answers": [{**_answer(it), **_doubt(names.get(it.question, []))} for it in report.answers],
    }  # fmt: skip


def _parting(parting: Parting, report: Report) -> Json:
    return {
        "name": parting.name, "keys": list(parting.keys), "direction": parting.direction.value, "versions": parting.versions,
        "text": parting.text, "answers": None if parting.answers is None else len(parting.answers), "blind": list(parting.blind),
        "closed_by": list(parting.closed_by), "bears": bears_on(parting, report),
    }  # fmt: skip


def _doubt(names: list[str]) -> Json:
    """The partings by which systemd may open a denied answer, where there are some."""
    return {"partings": names} if names else {}


def _plan(plan: Plan) -> Json:
    return {"count": plan.count, "mounts": [asdict(mount) for mount in plan.mounts]}


def _filter(told_filter: Filter) -> Json:
    program = [
        {"hex": it.text, "code": it.code, "jt": it.jt, "jf": it.jf, "k": it.k, "text": described_instruction(it)}
        for it in told_filter.program
    ]
    return {"name": told_filter.name, "abi": told_filter.abi, "length": told_filter.length, "program": program}


def _filters(filters: Filters) -> Json:
    return {"count": filters.count, "filters": [_filter(it) for it in filters.filters]}


def _replay(replay: Replay) -> Json:
    replies = [
        {"call": _call(it.call), "outcome": it.outcome, "value": None if it.value is None else str(it.value)}
        for it in replay.replies
    ]
    return {"launch": _launch(replay.launch), "count": replay.count, "replies": replies}


def _score(score: Score) -> Json:
    tests = [{**asdict(test), "skipped": test.skipped} for test in score.tests]
    return {"exposure": score.exposure, "threshold": score.threshold, "tests": tests}


def _sample(sample: Sample) -> Json:
    return {name: getattr(sample, name) for name in ("number", "rows", "questions", "denied", "open")}


def _check(check: Check) -> Json:
    at = check.differs
    differs = None if at is None else {
        "nr": at.nr, "arch": at.arch, "ip": str(at.ip), "arguments": [str(word) for word in at.args], "theirs": at.theirs,
        "ours": at.ours,
    }  # fmt: skip
    return {"same": check.differs is None, "paths": check.paths, "differs": differs}


def _fleet(fleet: Fleet) -> Json:
    rows = [{"unit": row.unit, "exposure": row.exposure, "refusal": _refusal(row.refusal)} for row in fleet.rows]
    return {"units": fleet.units, "refused": fleet.refused, "rows": rows}


def _tighten(tighten: Tighten) -> Json:
    return {
        "launch": _launch(tighten.launch), "items": list(tighten.items), "count": tighten.count,
        "before": _counts(tighten.before), "after": _counts(tighten.after),
    }  # fmt: skip


def _derive(derive: Derive) -> Json:
    return {"launch": _launch(derive.launch), "lines": list(derive.lines)}


def _effect(effect: Effect) -> Json:
    return {
        "launch": _launch(effect.launch), "with": {"launch": _launch(effect.with_launch), "refusal": _refusal(effect.with_refusal)},
        "closed": [it.text for it in effect.closed], "opened": [_answer(it) for it in effect.opened],
        "hidden": list(effect.hidden), "shown": list(effect.shown),
        "counts": None if effect.counts is None else asdict(effect.counts),
    }  # fmt: skip


def _why(why: Why) -> Json:
    return {
        "launch": _launch(why.launch), "answer": None if why.answer is None else _answer(why.answer), "nothing": why.nothing,
        "by": [asdict(it) for it in why.by], "count": why.count,
        "without": {"launch": _launch(why.without_launch), "refusal": _refusal(why.without_refusal)},
        "lines": [asdict(it) | {"opened": [question.text for question in it.opened]} for it in why.each], "idle": why.idle,
    }  # fmt: skip


def _unknown(unknown: Unknown) -> Json:
    return {"lines": list(unknown.lines)}
