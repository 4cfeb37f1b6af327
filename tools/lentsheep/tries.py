"""What lines would close if they were added to a unit, by runs of `effect`; kept as long as nothing that they rest on changes."""
from __future__ import annotations

import hashlib
import json
import os
from typing import Optional, Sequence

from sites.kept import write_whole

from .program import Program
from .report import parse
from .unit_text import UnitFile
from .values import Effect


def tried(program: Program, unit: str, files: Sequence[UnitFile], lines: Sequence[str]) -> dict[str, frozenset[str]]:
    """The questions that each line closes; a line that opens one, or with which the unit is refused, closes nothing."""
    place = _place_of(program, unit, files)
    known = _read(place)
    new = [line for line in dict.fromkeys(lines) if line not in known]
    if new:
        names = {f"lentsheep-try-{at}.conf": f"[Service]\n{line}\n".encode() for at, line in enumerate(new)}
        with program.changed(names) as changed:
            texts = changed.run_many([("effect", unit, name) for name in names])
        known.update({line: _closed(text) for line, text in zip(new, texts)})
        _write(place, known)
    return {line: frozenset(known[line]) for line in lines}


def _closed(text: str) -> list[str]:
    found = parse(text, "effect")
    if not isinstance(found, Effect) or not found.whole or found.counts is None or found.opened or found.shown:
        return []
    return [question.text for question in found.closed]


def _place_of(program: Program, unit: str, files: Sequence[UnitFile]) -> Optional[str]:
    """The file in which what was tried is kept, by all that it rests on; None where nothing can be kept."""
    cache = os.environ.get("XDG_CACHE_HOME") or (os.environ["HOME"] + "/.cache" if os.environ.get("HOME") else "")
    built = program.built
    if not cache or built is None:
        return None
    try:
        status = os.stat(built)
    except OSError:
        return None
    known = hashlib.sha256(repr([built, status.st_size, status.st_mtime_ns, unit, list(files)]).encode("utf-8", "surrogateescape"))
    for name in ("site.toml", "calls.txt"):
        known.update(hashlib.sha256(program.read(name) or b"").digest())
    return f"{cache}/lentsheep/tried-{known.hexdigest()[:32]}.json"


def _read(place: Optional[str]) -> dict[str, list[str]]:
    if place is None:
        return {}
    try:
        with open(place, encoding="utf-8") as file:
            found = json.load(file)
    except (OSError, ValueError):
        return {}
    return found if isinstance(found, dict) else {}


def _write(place: Optional[str], known: dict[str, list[str]]) -> None:
    if place is None:
        return
    try:
        os.makedirs(os.path.dirname(place), exist_ok=True)
        write_whole(place, json.dumps(known).encode())
    except OSError:
        pass
