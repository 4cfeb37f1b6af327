"""A root directory whose systemd is started: what the two ways to start it have in common."""
from __future__ import annotations

import os
import shutil
import subprocess
from pathlib import Path
from typing import Callable, Iterable, Mapping

TARGET = "reality.target"
TARGET_TEXT = """\
[Unit]
Description=What the harness starts first
DefaultDependencies=no
Wants=systemd-journald.socket systemd-journald-dev-log.socket
AllowIsolate=yes
"""
RUN_FOLDERS = ("user", "lock", "systemd/system", "reality")
# where the probe of a unit waits for a word that is not 0 (probe.c, `go`)
GO = 0x10000000


class Unstarted(Exception):
    """The machine could not be started; the text says why."""


class Root:
    """One root that runs.

    `way` names how, `release` is the kernel, and uid 0 of the root is `first_id` where its processes are looked at. The root is
    written to: its `run` is emptied, `fill()` is called, and services make folders in it.
    """

    way = ""
    first_id = 0
    release = ""

    def __init__(self, root: str, fill: Callable[[], None] = lambda: None):
        self.root = os.path.realpath(root)
        self._fill = fill

    def __enter__(self) -> "Root":
        if os.geteuid() != 0:
            raise Unstarted("it takes root of this machine")
        if not os.path.exists(f"{self.root}/usr/lib/systemd/systemd"):
            raise Unstarted(f"{self.root} has no usr/lib/systemd/systemd")
        try:
            self.begin()
        except OSError as error:
            self.__exit__()
            raise Unstarted(f"{self.way}: {error}") from None
        except BaseException:
            self.__exit__()
            raise
        return self

    def __exit__(self, *_: object) -> None:
        raise NotImplementedError

    def begin(self) -> None:
        """Starts systemd, and shows in the root's directory what the tool that makes a site asks for."""
        raise NotImplementedError

    def inside(self, *words: str) -> subprocess.CompletedProcess[str]:
        """Runs a program of the root in it, as its uid 0."""
        raise NotImplementedError

    def write(self, texts: Mapping[str, str], without: Iterable[str] = ()) -> None:
        """Writes files below run/, and removes others."""
        raise NotImplementedError

    def make_folders(self, paths: Iterable[str]) -> None:
        """Makes these folders, where they are missing."""
        raise NotImplementedError

    def main_process(self, unit: str) -> int:
        """The number of the unit's probe; 0 if it does not run."""
        raise NotImplementedError

    def look(self, pid: int, go: bool) -> tuple[str, str, list[bytes]]:
        """The status, the mountinfo and the filters of a probe that waits, the oldest first; with `go` it goes on."""
        raise NotImplementedError

    def wait(self, pid: int, output: str) -> str:
        """Waits until the probe has ended, and ends a try that hangs. Returns the text of its output, a file below run/."""
        raise NotImplementedError

    def end(self, unit: str, pid: int) -> None:
        """Ends the processes of the unit; systemd sees it and puts the unit away."""
        raise NotImplementedError

    def handles(self, paths: Iterable[str]) -> dict[str, bytes]:
        """The file handles of those paths that are on the file system of `/`."""
        raise NotImplementedError

    def systemctl(self, *words: str) -> subprocess.CompletedProcess[str]:
        """systemctl(1) of the root."""
        return self.inside("systemctl", "--no-ask-password", "--no-pager", *words)

    def version(self) -> str:
        """The version of its systemd, as 252.39."""
        words = self.inside("systemctl", "--version").stdout.split()
        return words[2].strip("()") if len(words) > 2 else "?"

    def clean_run(self) -> None:
        """Empties the root's run/ and fills it anew."""
        run = f"{self.root}/run"
        for name in os.listdir(run):
            path = f"{run}/{name}"
            shutil.rmtree(path) if os.path.isdir(path) and not os.path.islink(path) else os.unlink(path)
        for name in RUN_FOLDERS:
            os.makedirs(f"{run}/{name}", exist_ok=True)
        Path(f"{run}/systemd/system/{TARGET}").write_text(TARGET_TEXT)
        self._fill()
