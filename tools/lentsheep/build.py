"""Which program is run, whether it is built, and whether it was proved."""
from __future__ import annotations

import os

from .home import IS_CHECKOUT, NAME, PROGRAM, TOP

#: Sources of the program; a build that is older than one of them is made again.
_SOURCES = (".rt", ".antt")
# Programs that were looked for once, by the name of the variable.
_READY: dict[str, str] = {}


class NoProgram(Exception):
    """There is no program to run; the text says why, and is empty if that was told already."""


def chosen() -> str:
    """Returns the program: the build that LENTSHEEP_PROGRAM names, else the checkout's or the installed one."""
    return os.environ.get("LENTSHEEP_PROGRAM") or PROGRAM


def is_built() -> bool:
    """Returns whether the program can be run as it is; another build is taken as it is."""
    if os.environ.get("LENTSHEEP_PROGRAM"):
        return True
    if not os.access(PROGRAM, os.X_OK):
        return False
    return not IS_CHECKOUT or not _has_newer_source(os.stat(PROGRAM).st_mtime_ns)


def _has_newer_source(made: int) -> bool:
    if os.stat(f"{TOP}/crates.txt").st_mtime_ns > made:
        return True
    left = [f"{TOP}/crates"]
    while left:
        with os.scandir(left.pop()) as entries:
            for entry in entries:
                if entry.is_dir(follow_symlinks=False):
                    left += [entry.path] if entry.name != "out" else []
                elif entry.name.endswith(_SOURCES) and entry.stat().st_mtime_ns > made:
                    return True
    return False


def ready() -> str:
    """Returns the program, which is built first if it is not built yet."""
    named = os.environ.get("LENTSHEEP_PROGRAM") or ""
    if named not in _READY:
        _READY[named] = _ready(named)
    return _READY[named]


def _ready(named: str) -> str:
    if named:
        if not _is_program(named):
            raise NoProgram(f"LENTSHEEP_PROGRAM names {named}, which is no program")
        return named if "/" not in named else os.path.abspath(named)
    if not is_built():
        _build()
    return PROGRAM


def _is_program(name: str) -> bool:
    places = [""] if "/" in name else os.environ.get("PATH", "").split(":")
    return any(os.access(f"{place}/{name}" if place else name, os.X_OK) for place in places)


def _build() -> None:
    from .spawn import run

    tool = f"{TOP}/tools/build"
    try:
        status = run([tool])
    except OSError as error:
        raise NoProgram(f"{tool}: {error.strerror}") from None
    if status == 130:
        raise KeyboardInterrupt
    if status:
        raise NoProgram("")


def command_of(unproved: bool) -> list[str]:
    """Returns the words that run the program; the unproved build is made by tools/try, which runs it."""
    return [f"{TOP}/tools/try", "--try"] if unproved else [ready()]


def proved_by(file: str) -> str:
    """Returns the line of the kit that proved a build, by the record beside it; empty if it has none, or one of another build."""
    try:
        with open(f"{file}.proved", encoding="utf-8") as record:
            kit, total = record.read().splitlines()[:2]
        with open(file, "rb") as program:
            import hashlib

            return kit if hashlib.sha256(program.read()).hexdigest() == total else ""
    except (OSError, ValueError):
        return ""


def tell(text: str) -> None:
    """Prints a message on standard error."""
    import sys

    sys.stdout.flush()
    print(f"{NAME}: {text}", file=sys.stderr, flush=True)
