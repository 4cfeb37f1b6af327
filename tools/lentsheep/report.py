"""The one reader of the program's printed texts.

`parse(text)` gives a value of `values`, by the command that is named, else by the text's first line; it never fails. Lines end
in LF alone, and words are separated by single spaces. A last line without its LF was cut off, and is not read.

    report = parse(text, "judge")
    [answer.question.text for answer in report.answers if answer.is_open]
"""
from __future__ import annotations

import re
from typing import Callable

from .calls import Call, read_call
from .values import (
    PATH_KINDS, SWITCHES, Answer, CallData, Changes, Check, Counts, Derive, Effect, Filter, Filters, Fleet, FleetRow, Instruction, Launch,
    Launched, LaunchKilled, LaunchPrivileged, LaunchRefused, LineAlone, Mount, Note, Plan, Printed, Question, Refusal, Replay, Reply,
    Report, Sample, Score, ScoreTest, Tighten, UnitLine, Unknown, Why,
)  # fmt: skip
from .words import Pattern, unescaped

__all__ = ["parse", "read_instruction", "read_launch", "read_question", "read_refusal"]

_QUESTION = Pattern(r"(see|read|write|exec|call|socket|ns|cap) ([^ ]+)|(uid|gid) ([0-9]+)|(%s)" % "|".join(SWITCHES))
_LAUNCHED = Pattern(r"launched uid ([0-9]+) gid ([0-9]+) nnp (yes|no) steps ([0-9]+)")
_REFUSED = Pattern(r"launch refused step ([0-9]+) errno ([0-9]+)")
_KILLED = Pattern(r"launch killed step ([0-9]+)")
_PRIVILEGED = Pattern(r"launch privileged ([^ ]+)")
_SUMMARY = Pattern(r"(?:summary|before|after) denied ([0-9]+) open ([0-9]+)")
_NOTE = Pattern(r"note ([^ ]+) ([0-9]+) ([a-z-]+)")
_MOUNT = Pattern(r"mount ([^ ]+) (?:(hidden)|(?:host ([^ ]+)|(empty)) (ro|rw) (exec|noexec)( nosuid)?)")
_FILTER = Pattern(r"filter ([^ ]+) ([0-9]+)")
_INSTRUCTION = Pattern(r"[0-9a-f]{16}")
_REPLY = Pattern(r"(.+) -> (?:(ok|errno) ([0-9]+)|(killed))")
_TEST = Pattern(r"test ([^ ]+) badness ([0-9]+) range ([0-9]+) weight ([0-9]+) term ([0-9]+)")
_EXPOSURE = Pattern(r"exposure ([0-9]+) threshold ([0-9]+)")
_DIFFERS = Pattern("differs nr N arch N ip N args N N N N N N theirs N ours N".replace("N", "([0-9]+)"))
_FLEET_ROW = Pattern(r"unit ([^ ]+) exposure ([0-9]+)")
_BY = Pattern(r"by ([^ ]+) ([0-9]+) ([^ ]+)")
_ALONE = Pattern(r"line ([^ ]+) ([0-9]+) ([^ ]+) (?:opens ([0-9]+)|needed)")
_FLEET_END = Pattern(r"units ([0-9]+) refused ([0-9]+)")


def parse(text: str | bytes, command: str | None = None, has_key: bool = True) -> Printed:
    """What the text is. Without a command, or with one that has no reader, the first line decides.

    Whether the site has the key `systemd` bears on a replay alone: its calls are those of a script.
    """
    if isinstance(text, bytes):
        text = text.decode("utf-8", "surrogateescape")
    lines = text.split("\n")
    cut = lines.pop() != ""
    reader = _READERS.get(command or "") or _reader_of(lines[0] if lines else "")
    refusal = read_refusal(lines[0]) if len(lines) == 1 and not cut else None
    if refusal:
        return reader([], False, refusal)
    return _replay(lines, cut, None, has_key) if reader is _replay else reader(lines, cut, None)


def read_question(text: str) -> Question | None:
    """The question of these words, as they stand behind `open` or `denied`."""
    kind, _, name = text.partition(" ")
    # most lines of a report are these
    if kind in PATH_KINDS and name and " " not in name:
        return Question(kind, unescaped(name))
    found = _QUESTION.fullmatch(text)
    if not found:
        return None
    kind = found[1] or found[3] or found[5]
    return Question(kind, unescaped(found[2] or found[4] or ""))


def read_refusal(line: str) -> Refusal | None:
    """The refusal of a line."""
    words = line.split(" ")
    if words[0] != "refused" or len(words) < 2 or "" in words:
        return None
    return Refusal(unescaped(words[1]), tuple(map(unescaped, words[2:])))


def read_launch(line: str) -> Launch | None:
    """What a line tells of the launch."""
    if found := _LAUNCHED.fullmatch(line):
        return Launched(int(found[1]), int(found[2]), found[3] == "yes", int(found[4]))
    if found := _REFUSED.fullmatch(line):
        return LaunchRefused(int(found[1]), int(found[2]))
    if found := _KILLED.fullmatch(line):
        return LaunchKilled(int(found[1]))
    if found := _PRIVILEGED.fullmatch(line):
        return LaunchPrivileged(unescaped(found[1]))
    return None


def _numbers(line: str, *names: str) -> tuple[int, ...] | None:
    """The numbers of a line of names, each with its number behind it."""
    found = re.fullmatch(" ".join(f"{name} ([0-9]+)" for name in names), line)
    return tuple(map(int, found.groups())) if found else None


def _counts(line: str) -> Counts | None:
    found = _SUMMARY.fullmatch(line)
    return Counts(int(found[1]), int(found[2])) if found else None


def _answer(line: str) -> Answer | None:
    verdict, _, rest = line.partition(" ")
    question = read_question(rest) if verdict in ("open", "denied") else None
    return Answer(question, verdict == "open") if question else None


def _judge(lines: list[str], cut: bool, refusal: Refusal | None) -> Report:
    unit, launch, summary, failed = "", None, None, False
    notes: list[Note] = []
    answers: list[tuple[Answer, list[Call]]] = []
    blind: list[str] = []
    unread: list[str] = []
    for line in lines:
        call = read_call(line[2:]) if line.startswith("  ") else None
        if call and answers and answers[-1][0].is_open:
            answers[-1][1].append(call)
        elif answer := _answer(line):
            answers.append((answer, []))
        elif line.startswith("blind ") and " " not in line[6:]:
            blind.append(unescaped(line[6:]))
        elif line.startswith("unit ") and not unit:
            unit = unescaped(line[5:])
        elif found := _NOTE.fullmatch(line):
            notes.append(Note(unescaped(found[1]), int(found[2]), found[3]))
        elif line.startswith("summary ") and (counts := _counts(line)):
            summary = counts
        elif told := read_launch(line):
            launch, failed = told, not isinstance(told, Launched)
        else:
            unread.append(line)
    told_answers = tuple(Answer(answer.question, answer.is_open, tuple(calls)) for answer, calls in answers)
    whole = not cut and (refusal is not None or failed or summary is not None)
    return Report(refusal, whole, tuple(unread), unit, tuple(notes), launch, told_answers, tuple(blind), summary)


def _plan(lines: list[str], cut: bool, refusal: Refusal | None) -> Plan:
    mounts: list[Mount] = []
    count, unread = None, []
    for line in lines:
        if found := _MOUNT.fullmatch(line):
            place, hidden, source, _, writes, runs, plainly = found.groups()
            if hidden:
                mounts.append(Mount(unescaped(place), "hidden"))
            else:
                what, host = ("host", unescaped(source)) if source else ("empty", None)
                mounts.append(Mount(unescaped(place), what, host, writes == "rw", runs == "exec", plainly is not None))
        elif numbers := _numbers(line, "mounts"):
            count = numbers[0]
        else:
            unread.append(line)
    return Plan(refusal, not cut and (refusal is not None or count is not None), tuple(unread), tuple(mounts), count)


def read_instruction(word: str) -> Instruction | None:
    """The instruction of sixteen hex digits."""
    if not _INSTRUCTION.fullmatch(word):
        return None
    data = bytes.fromhex(word)
    return Instruction(int.from_bytes(data[:2], "little"), data[2], data[3], int.from_bytes(data[4:], "little"))


def _filter(lines: list[str], cut: bool, refusal: Refusal | None) -> Filters:
    heads: list[tuple[str, int, list[Instruction]]] = []
    count, unread = None, []
    for line in lines:
        if found := _FILTER.fullmatch(line):
            heads.append((unescaped(found[1]), int(found[2]), []))
        elif heads and (instruction := read_instruction(line)):
            heads[-1][2].append(instruction)
        elif numbers := _numbers(line, "filters"):
            count = numbers[0]
        else:
            unread.append(line)
    names = [name for name, _, _ in heads]
    filters = [
        Filter(name, length, tuple(program), names[:at].count(name)) for at, (name, length, program) in enumerate(heads)
    ]
    return Filters(refusal, not cut and (refusal is not None or count is not None), tuple(unread), tuple(filters), count)


def _replay(lines: list[str], cut: bool, refusal: Refusal | None, has_key: bool = True) -> Replay:
    launch, count = None, None
    replies: list[Reply] = []
    unread: list[str] = []
    for line in lines:
        if told := read_launch(line):
            launch = told
        elif (found := _REPLY.fullmatch(line)) and (call := read_call(found[1], has_key)):
            replies.append(Reply(call, found[2] or found[4], int(found[3]) if found[3] else None))
        elif numbers := _numbers(line, "calls"):
            count = numbers[0]
        else:
            unread.append(line)
    failed = launch is not None and not isinstance(launch, Launched)
    whole = not cut and (refusal is not None or failed or count is not None)
    return Replay(refusal, whole, tuple(unread), launch, tuple(replies), count)


def _score(lines: list[str], cut: bool, refusal: Refusal | None) -> Score:
    tests: list[ScoreTest] = []
    exposure, threshold, unread = None, None, []
    for line in lines:
        if found := _TEST.fullmatch(line):
            tests.append(ScoreTest(unescaped(found[1]), *map(int, found.groups()[1:])))
        elif line.startswith("skip ") and " " not in line[5:]:
            tests.append(ScoreTest(unescaped(line[5:])))
        elif found := _EXPOSURE.fullmatch(line):
            exposure, threshold = int(found[1]), int(found[2])
        else:
            unread.append(line)
    whole = not cut and (refusal is not None or exposure is not None)
    return Score(refusal, whole, tuple(unread), tuple(tests), exposure, threshold)


def _sample(lines: list[str], cut: bool, refusal: Refusal | None) -> Sample:
    names = ("sample", "rows", "questions", "denied", "open")
    found: dict[str, int] = {}
    unread = []
    for line in lines:
        for name in names:
            if numbers := _numbers(line, name):
                found[name] = numbers[0]
                break
        else:
            unread.append(line)
    whole = not cut and (refusal is not None or "open" in found)
    return Sample(refusal, whole, tuple(unread), *(found.get(name) for name in names))


def _check(lines: list[str], cut: bool, refusal: Refusal | None) -> Check:
    paths, differs, unread = None, None, []
    for line in lines:
        if numbers := _numbers(line, "same paths"):
            paths = numbers[0]
        elif found := _DIFFERS.fullmatch(line):
            nr, arch, ip, *args, theirs, ours = map(int, found.groups())
            differs = CallData(nr, arch, ip, tuple(args), theirs, ours)
        else:
            unread.append(line)
    whole = not cut and (refusal is not None or paths is not None or differs is not None)
    return Check(refusal, whole, tuple(unread), paths, differs)


def _fleet(lines: list[str], cut: bool, refusal: Refusal | None) -> Fleet:
    rows: list[FleetRow] = []
    units, refused, unread = None, None, []
    for line in lines:
        if found := _FLEET_ROW.fullmatch(line):
            rows.append(FleetRow(unescaped(found[1]), int(found[2])))
        elif row := read_refusal(line):
            rows.append(FleetRow(row.what, None, row))
        elif found := _FLEET_END.fullmatch(line):
            units, refused = int(found[1]), int(found[2])
        else:
            unread.append(line)
    return Fleet(refusal, not cut and (refusal is not None or units is not None), tuple(unread), tuple(rows), units, refused)


def _tighten(lines: list[str], cut: bool, refusal: Refusal | None) -> Tighten:
    launch, before, after, count = None, None, None, None
    items: list[str] = []
    unread: list[str] = []
    for line in lines:
        if line.startswith("add "):
            items.append(line[4:])
        elif line.startswith("before ") and (counts := _counts(line)):
            before = counts
        elif line.startswith("after ") and (counts := _counts(line)):
            after = counts
        elif numbers := _numbers(line, "items"):
            count = numbers[0]
        elif told := read_launch(line):
            launch = told
        else:
            unread.append(line)
    whole = not cut and (refusal is not None or launch is not None or count is not None)
    return Tighten(refusal, whole, tuple(unread), launch, tuple(items), before, after, count)


def _derive(lines: list[str], cut: bool, refusal: Refusal | None) -> Derive:
    launch = read_launch(lines[0]) if len(lines) == 1 else None
    told = [] if launch else lines
    unread = tuple(line for line in told if not re.fullmatch(r"\[Service\]|SystemCallFilter=.*", line))
    whole = not cut and (refusal is not None or launch is not None or len(told) == 3)
    return Derive(refusal, whole, unread, launch, tuple(told))


def _effect(lines: list[str], cut: bool, refusal: Refusal | None) -> Effect:
    launch, with_launch, with_refusal, counts = None, None, None, None
    closed: list[Question] = []
    opened: list[tuple[Question, list[Call]]] = []
    folders: dict[str, list[str]] = {"hidden": [], "shown": []}
    unread: list[str] = []
    for line in lines:
        word, _, rest = line.partition(" ")
        call = read_call(line[2:]) if line.startswith("  ") else None
        question = read_question(rest) if word in ("closed", "opened") else None
        if call and opened:
            opened[-1][1].append(call)
        elif question and word == "closed":
            closed.append(question)
        elif question:
            opened.append((question, []))
        elif word in folders and rest and " " not in rest:
            folders[word].append(unescaped(rest))
        elif numbers := _numbers(line, "effect closed", "opened", "hidden", "shown"):
            counts = Changes(*numbers)
        elif word == "with" and (told := read_launch(rest)):
            with_launch = told
        elif word == "with" and (cause := read_refusal(rest)):
            with_refusal = cause
        elif told := read_launch(line):
            launch = told
        else:
            unread.append(line)
    answers = tuple(Answer(question, True, tuple(calls)) for question, calls in opened)
    ended = any(it is not None for it in (refusal, launch, with_launch, with_refusal, counts))
    return Effect(
        refusal, not cut and ended, tuple(unread), launch, with_launch, with_refusal, tuple(closed), answers,
        tuple(folders["hidden"]), tuple(folders["shown"]), counts,
    )  # fmt: skip


def _why(lines: list[str], cut: bool, refusal: Refusal | None) -> Why:
    launch, answer, count, without_launch, without_refusal = None, None, None, None, None
    nothing = False
    calls: list[Call] = []
    by: list[UnitLine] = []
    alone: list[tuple[UnitLine, int | None, list[Question]]] = []
    idle: int | None = None
    unread: list[str] = []
    for line in lines:
        word, _, rest = line.partition(" ")
        call = read_call(line[2:]) if line.startswith("  ") else None
        if call and answer and answer.is_open:
            calls.append(call)
        elif answer is None and (told_answer := _answer(line)):
            answer = told_answer
        elif found := _BY.fullmatch(line):
            by.append(UnitLine(unescaped(found[1]), int(found[2]), unescaped(found[3])))
        elif found := _ALONE.fullmatch(line):
            at = UnitLine(unescaped(found[1]), int(found[2]), unescaped(found[3]))
            alone.append((at, None if found[4] is None else int(found[4]), []))
        elif word == "opened" and alone and alone[-1][1] is not None and (question := read_question(rest)):
            alone[-1][2].append(question)
        elif numbers := _numbers(line, "lines"):
            count = numbers[0]
        elif numbers := _numbers(line, "lines", "idle"):
            count, idle = numbers
        elif line == "nothing":
            nothing = True
        elif word == "without" and (told := read_launch(rest)):
            without_launch = told
        elif word == "without" and (cause := read_refusal(rest)):
            without_refusal = cause
        elif told := read_launch(line):
            launch = told
        else:
            unread.append(line)
    if answer:
        answer = Answer(answer.question, answer.is_open, tuple(calls))
    told_reason = nothing or any(it is not None for it in (count, without_launch, without_refusal))
    answered = answer is not None and (answer.is_open or told_reason)
    ended = refusal is not None or launch is not None or answered or idle is not None
    each = tuple(LineAlone(at.file, at.line, at.text, many is None, many, tuple(opened)) for at, many, opened in alone)
    return Why(
        refusal, not cut and ended, tuple(unread), launch, answer, nothing, tuple(by), count, without_launch, without_refusal, each, idle
    )


def _unknown(lines: list[str], cut: bool, refusal: Refusal | None) -> Unknown:
    return Unknown(refusal, not cut, tuple(lines), tuple(lines))


_READERS: dict[str, Callable[[list[str], bool, Refusal | None], Printed]] = {
    "judge": _judge, "plan": _plan, "filter": _filter, "replay": _replay, "score": _score, "sample": _sample, "check": _check,
    "fleet": _fleet, "tighten": _tighten, "derive": _derive, "effect": _effect, "why": _why,
}  # fmt: skip
_FIRST_WORDS = {
    "unit": "judge", "mount": "plan", "mounts": "plan", "filter": "filter", "filters": "filter", "launched": "replay",
    "launch": "replay", "test": "score", "skip": "score", "exposure": "score", "sample": "sample", "same": "check",
    "differs": "check", "units": "fleet", "add": "tighten", "before": "tighten", "[Service]": "derive",
    "closed": "effect", "opened": "effect", "hidden": "effect", "shown": "effect", "effect": "effect", "with": "effect", "denied": "why",
    "open": "why", "line": "why",
}  # fmt: skip


def _reader_of(line: str) -> Callable[[list[str], bool, Refusal | None], Printed]:
    """The reader that a text with this first line is read by."""
    if _FLEET_ROW.fullmatch(line):
        return _fleet
    return _READERS.get(_FIRST_WORDS.get(line.split(" ")[0], ""), _unknown)
