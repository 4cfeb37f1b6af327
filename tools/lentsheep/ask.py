"""Runs of `why`, `tighten` and `effect`, with rows for paths that are asked of, and of refusals with what to do about them.

Nothing of what the program prints is changed; what is told besides stands on standard error.
"""
from __future__ import annotations

import os
from typing import TYPE_CHECKING, Sequence

from .program import Program, Run
from .report import parse, read_question
from .build import tell as _tell
from .values import Question, Report

# What is told of refusals and of questions is read where it is told.
if TYPE_CHECKING:
    from . import asking
    from .explain import Folder

#: Below which name a folder that is to be kept gets its file.
KEPT_FILE = ".lentsheep-keeps-{}"


def tell(lines: Sequence[str]) -> None:
    """Tells lines on standard error."""
    for line in lines:
        _tell(line)


def root_of() -> str | None:
    """The root that `--root` names, as room.py hands it over."""
    return os.environ.get("LENTSHEEP_ROOT") or None


def asked(program: Program, words: Sequence[str]) -> Run:
    """A run of these words, with what is to be told of it told."""
    files, notes = _files_for(program, words) if words[:1] in (["why"], ["tighten"], ["effect"]) else ({}, [])
    tell(notes)
    if not files:
        return _told(program, words)
    with program.changed(files) as changed:
        return _told(changed, words)


def _told(program: Program, words: Sequence[str]) -> Run:
    run = program.run(*words)
    explain(program, words, run.status, run.text)
    return run


def ask(program: Program, words: Sequence[str]) -> Run:
    """Returns a run with what is to be told of it told, of the lines of the unit too."""
    from .unit_lines import passed_over
    from .unit_text import files_in_force

    unit = words[1] if len(words) > 1 else ""
    tell([f"{it.place}: {it.text}" for it in passed_over(files_in_force(program.folder, unit))])
    return asked(program, words)


def explain(program: Program, words: Sequence[str], status: int, text: str) -> None:
    """Tells what is to be told of a run that ended with a status."""
    if status in (3, 7, 8) or words[:1] == ["effect"]:
        from .explain import Folder, explained

        folder = Folder(program.folder, root_of())
        tell(explained(words, text, status, folder, lambda *others: program.run(*others).text))


def _files_for(program: Program, words: Sequence[str]) -> tuple[dict[str, bytes], list[str]]:
    """Files in the place of those of the folder for a run, and what is told of it."""
    from .explain import Folder

    folder = Folder(program.folder, root_of())
    if words[:1] == ["why"] and len(words) > 2:
        return _site_for([read_question(" ".join(words[2:]))], program, folder), []
    if words[:1] == ["tighten"] and len(words) == 3:
        return _kept_for(words[2], program, folder)
    if words[:1] == ["effect"] and len(words) == 3:
        return {}, _unread_of(program, words[1], words[2], folder)
    return {}, []


def _site_for(questions: Sequence[Question | None], program: Program, folder: Folder) -> dict[str, bytes]:
    """The site with rows for questions of paths that it has not; nothing where it needs none."""
    from . import asking
    from .site_text import with_rows

    site, known = program.read("site.toml"), folder.site
    rows = list(filter(None, (asking.row_of(question, known, folder.root) for question in questions)))
    if site is None or not rows:
        return {}
    return {"site.toml": with_rows(site, asking.rows_with_parents(rows, known))}


def _kept_for(name: str, program: Program, folder: Folder) -> tuple[dict[str, bytes], list[str]]:
    """The site and the file of what is kept, in which a folder that is to be written or run stands for a file of it."""
    from .explain import questions_of

    text = folder.text(name)
    known, lines, notes, questions = folder.site, text.split("\n"), [], []
    for number, line in questions_of(text):
        question = read_question(line)
        if question and question.kind in ("write", "exec") and _is_folder(question.name, known, folder.root):
            kind = "exe" if question.kind == "exec" else "file"
            question = Question(question.kind, f"{question.name.rstrip('/')}/{KEPT_FILE.format(kind)}")
            lines[number - 1] = question.text
            notes.append(f"{name}:{number}: {line} is a folder, so a file in it is kept: {question.text}")
        questions.append(question)
    files = _site_for(questions, program, folder)
    if notes:
        files[name] = "\n".join(lines).encode("utf-8", "surrogateescape")
    return files, notes


def _is_folder(path: str, site: asking.Site, root: str | None) -> bool:
    if path in site.rows:
        return site.rows[path] == "dir"
    return bool(root) and os.path.isdir(f"{root.rstrip('/')}{path}")


def _unread_of(program: Program, unit: str, name: str, folder: Folder) -> list[str]:
    """The lines of a drop-in that are not read: those that systemd passes over too, and those of which a report has a note."""
    from .unit_lines import passed_over
    from .unit_text import UnitFile

    text = folder.text(name)
    if not text:
        return []
    found = {it.line: f"{name}:{it.line}: {it.text}" for it in passed_over([UnitFile(name, text)])}
    place = f"etc/systemd/system/{unit}.d/zzzz-lentsheep-effect.conf"
    with program.changed({place: text.encode("utf-8", "surrogateescape")}) as changed:
        printed = parse(changed.run("judge", unit).text, "judge")
    lines = text.split("\n")
    for note in printed.notes if isinstance(printed, Report) else ():
        if note.file == place and note.line not in found and note.line <= len(lines):
            why = {"unjudged": "this key has no part in the answers", "value": "this value cannot be read, and changes nothing"}
            found[note.line] = f"{name}:{note.line}: {why.get(note.cause, note.cause)}: {lines[note.line - 1].strip()}"
    return [found[line] for line in sorted(found)]
