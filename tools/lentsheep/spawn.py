"""Runs of other programs, and folders that are removed afterwards, with what takes little time to load."""
from __future__ import annotations

import os
import sys

# What takes its time to be loaded is read where it is needed.
TYPE_CHECKING = False
if TYPE_CHECKING:
    from types import FrameType
    from typing import NoReturn, Optional, Sequence


def ended_by_signals() -> None:
    """Has signals end the command as an exception does, so that nothing of it is left."""

    import signal

    def end(number: int, frame: Optional[FrameType]) -> NoReturn:
        sys.exit(128 + number)

    for number in (signal.SIGHUP, signal.SIGTERM):
        signal.signal(number, end)


def run(words: Sequence[str]) -> int:
    """Runs a program with the files of this one, and returns its exit status, which for a signal is 128 and its number.

    An interrupt of the terminal goes to the program too, which decides how it ends.
    """
    import signal

    sys.stdout.flush()
    before = signal.signal(signal.SIGINT, signal.SIG_IGN)
    # signals that Python ignores, and other programs do not
    default = [signal.SIGPIPE, signal.SIGXFSZ] + ([signal.SIGINT] if before != signal.SIG_IGN else [])
    try:
        child = os.posix_spawnp(words[0], list(words), os.environ, setsigdef=default)
        try:
            ended = os.waitpid(child, 0)[1]
        except BaseException:
            os.kill(child, signal.SIGTERM)
            os.waitpid(child, 0)
            raise
    finally:
        signal.signal(signal.SIGINT, before)
    status = os.waitstatus_to_exitcode(ended)
    return status if status >= 0 else 128 - status


def replace(words: Sequence[str]) -> NoReturn:
    """Runs a program in the place of this one."""
    import signal

    sys.stdout.flush()
    for number in (signal.SIGPIPE, signal.SIGXFSZ):
        signal.signal(number, signal.SIG_DFL)
    os.execvp(words[0], list(words))


def make_folder() -> str:
    """Makes a folder of its own for temporary files."""
    place = os.environ.get("TMPDIR") or "/tmp"
    while True:
        folder = f"{place}/lentsheep.{os.urandom(6).hex()}"
        try:
            os.mkdir(folder, 0o700)
            return folder
        except FileExistsError:
            continue


def remove(folder: str) -> None:
    """Removes a folder and everything in it; what links lead to stays."""
    for at, folders, files in os.walk(folder, topdown=False):
        for path in [f"{at}/{name}" for name in files + folders] + [at]:
            try:
                (os.rmdir if os.path.isdir(path) and not os.path.islink(path) else os.unlink)(path)
            except OSError:
                # a folder below was removed in its turn
                pass
