"""Runs of the program in the folder that it reads."""
from __future__ import annotations

import contextlib
import os
import subprocess
from typing import Iterator, Mapping, Sequence

from .build import command_of
from .home import POLICY, TOP
from .record import dataclass
from .report import parse
from .site_text import profile_of
from .spawn import make_folder, remove
from .terminal import doing
from .values import Printed

__all__ = ["POLICY", "TOP", "Program", "Run"]


@dataclass(frozen=True)
class Run:
    """What a run came to: its words, its text as it was printed and as it was read, and its status."""

    words: tuple[str, ...]
    text: str
    printed: Printed
    status: int

    @property
    def command(self) -> str:
        """The command of its words."""
        return self.words[0] if self.words else ""


class Program:
    """The program in a folder with calls.txt, site.toml and the files of units."""

    def __init__(self, folder: str = ".", unproved: bool = False):
        self.folder = folder
        self.unproved = unproved

    @property
    def built(self) -> str | None:
        """The program, which is built first if it is not built yet; None for an unproved build."""
        return None if self.unproved else command_of(False)[0]

    def command(self, words: Sequence[str]) -> list[str]:
        """The words that run the program with these words."""
        return [*command_of(self.unproved), *words]

    def run_many(self, many: Sequence[Sequence[str]], what: str = "trying what closes them") -> list[str]:
        """What the program prints of each of several words, as many at a time as there are processors."""
        texts: list[str] = []
        at_once = max(1, min(8, os.cpu_count() or 1))
        with doing(what):
            for at in range(0, len(many), at_once):
                runs = [self._begun(words, subprocess.DEVNULL) for words in many[at : at + at_once]]
                texts += [run.communicate()[0].decode("utf-8", "surrogateescape") for run in runs]
        return texts

    def _begun(self, words: Sequence[str], said: int | None = None) -> subprocess.Popen[bytes]:
        how = {**os.environ, "LENTSHEEP_PLAIN": "yes"}
        return subprocess.Popen(self.command(words), cwd=self.folder, env=how, stdout=subprocess.PIPE, stderr=said)

    def text(self, *words: str, what: str = "") -> tuple[int, str]:
        """Runs the program; its status and what it prints come back, and what it says on standard error goes on as it is."""
        with doing(what or "making " + " ".join(words)):
            run = self._begun(words)
            try:
                data = run.communicate()[0]
            except BaseException:
                run.kill()
                raise
        status = run.returncode if run.returncode >= 0 else 128 - run.returncode
        return status, data.decode("utf-8", "surrogateescape")

    def run(self, *words: str) -> Run:
        """Runs the program, and reads what it prints."""
        status, text = self.text(*words)
        has_key = words[:1] != ("replay",) or profile_of((self.read("site.toml") or b"").decode("utf-8", "replace")) is not None
        return Run(words, text, parse(text, words[0] if words else None, has_key), status)

    @contextlib.contextmanager
    def changed(self, files: Mapping[str, bytes]) -> Iterator["Program"]:
        """The same folder with some files, by their paths below it, in the place of its own, in a folder that is gone afterwards."""
        place = make_folder()
        try:
            _overlay(os.path.abspath(self.folder), place, {tuple(name.split("/")): data for name, data in files.items()})
            yield Program(place, self.unproved)
        finally:
            remove(place)

    def read(self, name: str) -> bytes | None:
        """The bytes of a file of the folder; None where there is none."""
        with contextlib.suppress(OSError), open(os.path.join(self.folder, name), "rb") as file:
            return file.read()
        return None


def _overlay(folder: str, place: str, files: Mapping[tuple[str, ...], bytes]) -> None:
    """Links what a folder has into another one, but for some files, which are written there."""
    heads = {names[0] for names in files}
    for name in os.listdir(folder) if os.path.isdir(folder) else []:
        if name not in heads:
            os.symlink(os.path.join(folder, name), os.path.join(place, name))
    for head in sorted(heads):
        below = {names[1:]: data for names, data in files.items() if names[0] == head}
        if () in below:
            with open(os.path.join(place, head), "wb") as file:
                file.write(below[()])
        else:
            os.mkdir(os.path.join(place, head))
            _overlay(os.path.join(folder, head), os.path.join(place, head), below)
