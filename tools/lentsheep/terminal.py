"""What is done on a terminal alone: colour, a pager, and telling what takes long."""
from __future__ import annotations

import os
import sys
from .home import COMMAND, NAME, TOP

__all__ = ["COMMAND", "NAME", "TOP", "Paint", "doing", "pager", "show", "wants_colour", "width_of", "write"]

TYPE_CHECKING = False
if TYPE_CHECKING:
    from typing import Callable, Optional, TextIO

_CODES = {"bold": "1", "dim": "2", "red": "31", "green": "32", "yellow": "33"}
#: After so many seconds a terminal is told what is done.
SECONDS = 2


class Paint:
    """Colours words where they are wanted."""

    def __init__(self, wanted: bool):
        self.wanted = wanted

    def __call__(self, text: str, style: str) -> str:
        """The text in a style; as it is where no colour is wanted."""
        return f"\x1b[{_CODES[style]}m{text}\x1b[0m" if self.wanted and text else text


def wants_colour(stream: TextIO) -> bool:
    """Whether the stream is a terminal that shows colours, and NO_COLOR is not set."""
    return stream.isatty() and not os.environ.get("NO_COLOR") and os.environ.get("TERM", "") != "dumb"


def width_of(stream: TextIO) -> int:
    """The columns of the terminal; 100 where it is none, so that a text does not depend on where it is made."""
    if not stream.isatty():
        return 100
    import shutil

    return max(60, shutil.get_terminal_size((100, 24)).columns)


def pager() -> list[str]:
    """The words of the pager, as git has it: PAGER, else less, which ends at once where all is on one screen."""
    import shlex
    import shutil

    words = shlex.split(os.environ.get("PAGER", "less -FRX"))
    return [] if words in ([], ["cat"]) or not shutil.which(words[0]) else words


def show(text: str) -> None:
    """Prints a text, through a pager where standard output is a terminal."""
    words = pager() if sys.stdout.isatty() else []
    if not words:
        write(text)
        return
    import subprocess

    how = {**os.environ, "LESS": os.environ.get("LESS", "FRX")}
    try:
        subprocess.run(words, input=text.encode("utf-8", "surrogateescape"), env=how, check=False)
    except (BrokenPipeError, KeyboardInterrupt):
        pass


def write(text: str) -> None:
    """Prints a text as bytes, so that each path is printed as it is."""
    sys.stdout.flush()
    sys.stdout.buffer.write(text.encode("utf-8", "surrogateescape"))
    sys.stdout.buffer.flush()


class doing:
    """Tells on a terminal's standard error what is done, once it takes more than two seconds, until it is done."""

    def __init__(self, what: str):
        self.what = what
        self.stop: Optional[Callable[[], None]] = None

    def __enter__(self) -> None:
        if self.what and sys.stderr.isatty():
            self.stop = _telling(self.what)

    def __exit__(self, *of_an_error: object) -> None:
        if self.stop:
            self.stop()


def _telling(what: str) -> Callable[[], None]:
    """Begins to tell; what ends it comes back."""
    import threading

    done = threading.Event()

    def tell() -> None:
        seconds = 0
        while not done.wait(1):
            seconds += 1
            if seconds >= SECONDS:
                print(f"\r\x1b[K{NAME}: {what} .. {seconds} s", end="", file=sys.stderr, flush=True)
        if seconds >= SECONDS:
            print("\r\x1b[K", end="", file=sys.stderr, flush=True)

    teller = threading.Thread(target=tell, daemon=True)
    teller.start()

    def stop() -> None:
        done.set()
        teller.join()

    return stop
