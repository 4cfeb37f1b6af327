"""The folder that the program reads for `--root` and its kin: the unit's files by link, a table of calls and a site.

    with Room(line) as room:
        ..  # the current folder is the new one, and line.words name its files

Without a root the files are those of the current folder, but for those that are named. Nothing of the folder is left afterwards.
"""
from __future__ import annotations

import os
import sys
from types import TracebackType
from typing import Optional

from sites import linking
from sites.command import Site, make
from sites.locations import LOCATIONS
from sites.site import Fault

from .home import COMMAND, NAME, absolute, current
from .line import VIEWS_WITH_FILE, Line
from .spawn import ended_by_signals, make_folder, remove

# What the program reads of the current folder.
_OWN_FILES = ("etc", "run", "usr", "calls.txt", "site.toml", "site.toml.modes")
_UNIT_PLACES = (*map(os.fsdecode, LOCATIONS), "/lib/systemd/system")
# Commands about no unit, and those that print the ignored lines of a unit themselves.
_WITHOUT_UNIT = ("fleet", "sample")
_WITH_OWN_NOTES = ("why", "tighten", "effect")


class Wrong(Exception):
    """A usage error of --root and its kin; the text says what."""

    def __str__(self) -> str:
        return f"{NAME}: {self.args[0]} ({COMMAND} --root --help)"


class Failed(Exception):
    """The folder cannot be made; the text says why."""


class Room:
    """The folder, for the words of one line."""

    def __init__(self, line: Line):
        self.line = line
        self.root, self.units, self.calls, self.site = (self._name(it) for it in ("--root", "--units", "--calls", "--site"))
        if line.view == "--compare":
            raise Wrong("no word --compare")
        for option, name in (("--root", self.root), ("--units", self.units)):
            if name and not os.path.isdir(name):
                raise Failed(f"{option} needs a folder, and {name} is none" if os.path.exists(name) else f"there is no folder {name}")
        for option, name in (("--calls", self.calls), ("--site", self.site)):
            if name and not os.path.isfile(name):
                raise Failed(f"{option} needs a file, and {name} is a folder" if os.path.isdir(name) else f"there is no file {name}")
        if not self.root and (self.units or line.switches & {"--fresh", "--full", "--verbose"}):
            raise Wrong("--units, --fresh, --full and --verbose are of a root: write --root DIR too")
        if self.root != "/":
            self.root = self.root.removesuffix("/")
        self.room = self.here = ""
        #: the files that the program reads beside those of the unit, and the drop-in of effect
        self.file = self.added = ""

    def _name(self, option: str) -> str:
        name = self.line.names.get(option)
        if name == "":
            raise Wrong(f"{option} needs a folder or a file after it")
        return absolute(name) if name else ""

    def __enter__(self) -> Room:
        ended_by_signals()
        try:
            self.room = make_folder()
        except OSError:
            raise Failed("no folder could be made") from None
        try:
            self._make()
        except BaseException:
            self._leave()
            raise
        return self

    def __exit__(self, kind: Optional[type[BaseException]], error: Optional[BaseException], trace: Optional[TracebackType]) -> None:
        self._leave()

    def _leave(self) -> None:
        os.chdir("/")
        remove(self.room)

    def _make(self) -> None:
        line = self.line
        self.here = f"{self.room}/here"
        os.mkdir(self.here)
        # names of the current folder are those of this one from here on
        if line.view in VIEWS_WITH_FILE:
            line.view_file = absolute(line.view_file)
        behind = 1 if line.command in _WITHOUT_UNIT else 2
        if self.root:
            self._link_root(behind)
            is_named = bool(self.calls)
            self.calls = self.calls or self._table()
            if is_named and self.site:
                self._tell_other_version()
        else:
            self._link_current()
        for name, file in (("calls.txt", self.calls), ("site.toml", self.site)):
            if file:
                self._link(file, name)
        if self.site and os.path.isfile(f"{self.site}.modes") and not os.path.exists(f"{self.here}/site.toml.modes"):
            os.symlink(f"{self.site}.modes", f"{self.here}/site.toml.modes")
        if line.command != "why":
            line.words[behind:] = [self._file_by_name(word) for word in line.words[behind:]]
        os.environ["LENTSHEEP_ROOT"] = self.root
        os.chdir(self.here)
        line.names.clear()
        line.switches.clear()

    def _link(self, file: str, name: str) -> None:
        """Links a file into the folder, over a link that is there."""
        place = f"{self.here}/{name}"
        if os.path.islink(place):
            os.unlink(place)
        os.symlink(file, place)

    def _file_by_name(self, word: str) -> str:
        """Links a file by the last part of its name, which comes back; another word comes back as it is."""
        if not os.path.isfile(word):
            return word
        name = word.rpartition("/")[2]
        try:
            os.symlink(absolute(word), f"{self.here}/{name}")
        except OSError:
            raise Failed(f"a file may not be named {name}") from None
        return name

    def _link_current(self) -> None:
        for name in _OWN_FILES:
            if os.path.exists(name):
                os.symlink(f"{current()}/{name}", f"{self.here}/{name}")

    def _link_root(self, behind: int) -> None:
        line = self.line
        if line.command == "effect" and len(line.words) > behind and os.path.isfile(line.words[behind]):
            self.added = absolute(line.words[behind])
        if line.command == "fleet":
            self._link_services()
        elif line.command != "sample":
            self._link_unit()

    def _link_services(self) -> None:
        from .terminal import doing

        of_all = "--all" in self.line.switches
        top = self.units or self.root
        try:
            with doing(f"reading the units of {top}"):
                names = linking.link_services(top, self.here, of_all)
        except OSError as error:
            linking.tell(linking.fault_of(error, ""))
            raise Failed("the files of units could not be read") from None
        if not self.site:
            self.site = self._site_file("all-units" if of_all else "all")
            self._make_site(names)

    def _link_unit(self) -> None:
        """Links the unit's files from the root, and has the line name the unit by its own name."""
        line, unit = self.line, self.line.words[1]
        if "/" in unit:
            self.file = self._file_of(unit)
            unit = unit.rpartition("/")[2]
        elif unit and os.path.isfile(unit):
            if self._has_unit(unit):
                told = f"{unit} of {self.units or self.root} is judged, and not the file of this folder (write ./{unit} for it)"
                print(f"{NAME}: {told}", file=sys.stderr, flush=True)
            else:
                self.file = absolute(unit)
        line.words[1] = unit
        if not unit or " " in unit:
            return
        notes = not line.view and line.command not in _WITH_OWN_NOTES
        try:
            unit = linking.link_unit(self.units or self.root, unit, self.here, bool(self.file), self.file, notes) or unit
        except OSError as error:
            linking.tell(linking.fault_of(error, unit))
            raise Failed(f"the files of {unit} could not be read") from None
        line.words[1] = unit
        if self.file:
            self._link_file(unit)
        # a unit without files is refused before a site is read
        if not self.site and os.listdir(self.here):
            self.site = self._site_file(unit)
            self._make_site([unit])

    def _link_file(self, unit: str) -> None:
        """Links the file that the words name in the place of the root's, and copies the unit's files for its site."""
        os.makedirs(f"{self.here}/etc/systemd/system", exist_ok=True)
        try:
            self._link(self.file, f"etc/systemd/system/{unit}")
        except OSError:
            raise Failed(f"{self.file} cannot be linked") from None
        if self.site:
            return
        units = f"{self.room}/units"
        try:
            for folder, _, names in os.walk(self.here):
                to = units + folder.removeprefix(self.here)
                os.makedirs(to, exist_ok=True)
                for name in names:
                    with open(f"{folder}/{name}", "rb") as file, open(f"{to}/{name}", "wb") as copy:
                        copy.write(file.read())
        except OSError:
            raise Failed(f"the files of {unit} could not be copied") from None
        self.units = units

    def _file_of(self, unit: str) -> str:
        """Returns the file of a unit by its path in the root or on this machine, or that of the template that it is an instance of."""
        stem, at, _ = unit.rpartition("@")
        paths = [f"{self.root}/{unit}", unit] + ([f"{self.root}/{stem}@.service", f"{stem}@.service"] if at else [])
        for path in paths:
            if os.path.isfile(path):
                return absolute(path)
        raise Failed(f"there is no file {unit}")

    def _has_unit(self, unit: str) -> bool:
        """Returns whether the root has a file of the unit of this name, or of the template that it is an instance of."""
        stem, at, _ = unit.rpartition("@")
        names = [unit] + ([f"{stem}@.service"] if at else [])
        top = self.units or self.root
        return any(os.path.lexists(f"{top}{place}/{name}") for place in _UNIT_PLACES for name in names)

    def _site_file(self, unit: str) -> str:
        """Returns the file of the site: the cached one, but for a unit by its path, and where a drop-in counts too."""
        full = "full" if "--full" in self.line.switches else ""
        kept = "" if self.file or self.added else kept_file(unit, ".toml", self.root, self.units, full)
        return kept or f"{self.room}/site.toml"

    def _make_site(self, names: list[str]) -> None:
        switches, made = self.line.switches, Site()
        made.root, made.units, made.unit = self.root, self.units, names
        made.keep, made.drop_in = self.site, self.added
        # only views read modes
        made.modes = f"{self.here}/site.toml.modes" if self.line.view else ""
        # the walk over the root is cached once for all of its units
        made.walk = walk_file(self.root)
        made.fresh, made.full, made.short = "--fresh" in switches, "--full" in switches, "--verbose" not in switches
        try:
            make(made)
        except (Fault, OSError) as error:
            print(f"make-site: {error}", file=sys.stderr, flush=True)
            raise Failed(f"there is no site of {self.root}") from None

    def _table(self) -> str:
        """Returns the table of calls for the site."""
        from .table import TABLES, table_for

        name = "calls.txt"
        if self.site:
            with open(self.site, encoding="utf-8", errors="replace") as site:
                name = table_for(site.read())
        return f"{TABLES}/{name}"

    def _tell_other_version(self) -> None:
        """Tells a table that was named and has the groups of another version of systemd than the site."""
        from .site_text import profile_of
        from .table import version_of

        try:
            with open(self.site, encoding="utf-8", errors="replace") as site, open(self.calls, encoding="utf-8", errors="replace") as calls:
                profile, version = profile_of(site.read()), version_of(calls.readline())
        except OSError:
            return
        if profile and version and profile != version:
            told = f"{self.calls} has the groups of systemd {version}, and the unit is judged by the rules of systemd {profile}"
            print(f"{NAME}: {told}", file=sys.stderr, flush=True)


def cache_folder() -> str:
    """Returns the folder of what is cached; nothing where there can be none."""
    cache = os.environ.get("XDG_CACHE_HOME") or (f"{os.environ['HOME']}/.cache" if os.environ.get("HOME") else "")
    folder = f"{cache}/lentsheep"
    try:
        if cache:
            os.makedirs(folder, exist_ok=True)
    except OSError:
        return ""
    return folder if cache and os.access(folder, os.W_OK) else ""


def kept_file(name: str, ending: str, *of: str) -> str:
    """Returns a file of the cache by what it is of; nothing where none can be kept."""
    import zlib

    folder = cache_folder()
    return f"{folder}/{name}-{zlib.crc32(repr(of).encode('utf-8', 'surrogateescape')):08x}{ending}" if folder else ""


def walk_file(root: str) -> str:
    """Returns the file that keeps the walk over a root, for all of its units; nothing where none can be kept."""
    return kept_file("walk", ".json", root)
