"""What to do about a refusal: lines for standard error beside the one that the program prints.

`explained(..)` gives the lines for what a run came to, by the unit's files and the site in the folder that was read.
"""
from __future__ import annotations

import errno
import os
from typing import Callable, Sequence

from . import asking
from .bpf import action_name
from .nearest import nearest
from .report import parse
from .site_text import profile_of
from .table import Table, read_table
from .unit_lines import Assignment, assignments_of, has_mark, lines_with
from .unit_text import UnitFile, files_in_force, prefix_of
from .values import Check, LaunchKilled, LaunchPrivileged, LaunchRefused, Printed, Refusal

# Keys of settings whose words are paths of the host, which must be there but for a `-` before them.
PATH_KEYS = (
    "ReadWritePaths", "ReadOnlyPaths", "InaccessiblePaths", "ExecPaths", "NoExecPaths", "BindPaths", "BindReadOnlyPaths",
    "ReadWriteDirectories", "ReadOnlyDirectories", "InaccessibleDirectories",
)  # fmt: skip
# The settings by which systemd makes a folder below each of these.
MADE_BY = {"/run/": "RuntimeDirectory", "/var/lib/": "StateDirectory", "/var/cache/": "CacheDirectory", "/var/log/": "LogsDirectory"}
# What a key that the model does not have would do, and what is left to judge.
_OUTSIDE = {
    "PrivateUsers": "the model has no user namespace around a service",
    "SecureBits": "the model has no securebits",
    "RootDirectory": "the service's files are those of another folder: judge it with --root and that folder",
    "RootImage": "the service's files are those of an image",
    "MountImages": "the model has no images", "ExtensionImages": "the model has no images",
    "ExtensionDirectories": "the model has no extensions",
}  # fmt: skip
WISHES = ("that some file can be executed",)


class Folder:
    """The folder that the program read, and what a root says beside it."""

    def __init__(self, path: str, root: str | None = None):
        self.path = path
        self.root = root

    def text(self, name: str) -> str:
        """The text of a file; empty where there is none."""
        try:
            with open(os.path.join(self.path, name), "rb") as file:
                return file.read().decode("utf-8", "replace")
        except OSError:
            return ""

    @property
    def site(self) -> asking.Site:
        """The rows and ids of the site."""
        return asking.read_site(self.text("site.toml"))

    @property
    def table(self) -> Table:
        """The table of calls."""
        return read_table(self.path)

    @property
    def calls(self) -> frozenset[str]:
        """The names of the calls."""
        return asking.calls_of(self.text("calls.txt"))

    def files(self, unit: str) -> list[UnitFile]:
        """The files of a unit in force."""
        return files_in_force(self.path, unit)


def explained(words: Sequence[str], text: str, status: int, folder: Folder, again: Callable[..., str] = lambda *_: "") -> list[str]:
    """What is told of a run beside its text; `again` runs the program on other words, and gives what it prints."""
    printed = parse(text, words[0] if words else None)
    files = folder.files(words[1]) if len(words) > 1 else []
    if words[:1] == ["effect"] and len(words) > 2:
        files = files + [UnitFile(words[2], folder.text(words[2]))]
    refusal = printed.refusal or getattr(printed, "with_refusal", None) or getattr(printed, "without_refusal", None)
    if refusal and (printed.refusal or getattr(printed, "with_refusal", None)):
        return _of_refusal(refusal, words, files, folder, again)
    launch = getattr(printed, "launch", None) or getattr(printed, "with_launch", None)
    if status == 7 and launch is not None:
        return _of_launch(launch, files, folder)
    if isinstance(printed, Check) and printed.differs:
        return [_of_difference(printed, folder)]
    return []


def _of_refusal(refusal: Refusal, words: Sequence[str], files: Sequence[UnitFile], folder: Folder, again: Callable[..., str]) -> list[str]:
    cause, first = refusal.cause, refusal.cause[0] if refusal.cause else ""
    name = refusal.cause[1] if len(refusal.cause) > 1 else ""
    unit = words[1] if len(words) > 1 else refusal.what
    if refusal.what == "question":
        return [_of_question(" ".join(words[2:]), unit, folder)]
    if len(words) > 2 and refusal.what == words[2] and words[0] == "tighten" and cause[:1] == ("line",):
        return _of_kept_line(refusal, folder, unit)
    told = {
        "not-found": lambda: _of_no_unit(unit, folder), "masked": lambda: [f"{unit} is masked: its file is empty or a link to /dev/null"],
        "missing": lambda: [_of_missing(refusal.what)], "no-command": lambda: _of_no_command(unit, files),
        "privileged-command": lambda: _of_privileged(files, folder),
        "outside": lambda: _of_outside(name, unit, files, folder), "no-user": lambda: _of_no_name("user", name, files),
        "no-group": lambda: _of_no_name("group", name, files), "no-path": lambda: _of_no_path(name, unit, files, folder),
        "kind": lambda: _of_kind(name, files), "no-set": lambda: [_of_no_set(name)], "keep": lambda: _of_keep(name, words, folder),
        "wish": lambda: [_of_wish(name)], "no-filter": lambda: _of_no_filter(name, unit, again), "line": lambda: _of_line(refusal, folder),
        "not-text": lambda: _of_no_text(refusal.what, folder), "too-large": lambda: [f"{refusal.what} is larger than 1 MiB"],
        "form": lambda: [f"instruction {name} of {refusal.what} is none that a compiled filter has, so the two cannot be compared"],
    }.get(first)  # fmt: skip
    return told() if told else []


def _of_lines(files: Sequence[UnitFile], keys: Sequence[str], is_meant: Callable[[Assignment], bool], text: str) -> list[str]:
    """A line of a text for the last assignment that is meant."""
    found = [it for it in lines_with(files, *keys) if is_meant(it)]
    return [f"{found[-1].place}: {found[-1].text}{text}"] if found else []


_PRIVILEGED = ": a command with this prefix has privileges that the unit's settings do not give, so it is not judged"


def _of_privileged(files: Sequence[UnitFile], folder: Folder) -> list[str]:
    # with the key `systemd` of a site ! is no such prefix
    marks = set("+") if profile_of(folder.text("site.toml")) else set("+!|")
    return _of_lines(files, ("ExecStart",), lambda it: bool(marks & set(prefix_of(it.value))), _PRIVILEGED)


def _of_no_unit(unit: str, folder: Folder) -> list[str]:
    if folder.root is not None:
        return []
    places = [f"{place}/systemd/system" for place in ("etc", "run", "usr/lib")]
    known = [it for place in places if os.path.isdir(f"{folder.path}/{place}") for it in os.listdir(f"{folder.path}/{place}")]
    stem = nearest(unit.removesuffix(".service"), [it.removesuffix(".service") for it in known if it.endswith(".service")])
    meant = f"{stem}.service" if stem else ""
    here = sorted({it for it in known if it.endswith(".service")})
    more = f"; {meant} is meant?" if meant else f"; {', '.join(here[:3])} {'is' if len(here) == 1 else 'are'}" if here else ""
    return [f"no unit {unit} is below this folder{more}"]


def _of_missing(what: str) -> str:
    if what == "calls.txt":
        return "there is no calls.txt here; with --root / a service of this machine is judged"
    if what == "site.toml":
        return "there is no site.toml here: tools/make-site prints one, and --root / makes one by itself"
    return f"there is no file {what} below this folder"


def _of_no_command(unit: str, files: Sequence[UnitFile]) -> list[str]:
    marked = [it for it in files if has_mark(it.text)]
    if marked:
        name = marked[0].path.rpartition("/")[2]
        return [f"{name}:1: a byte order mark stands before the first line, so that it is not read as [Service]: save the file without it"]
    if not any(it.section == "Service" for file in files for it in assignments_of(file)):
        return [f"{unit} has no section [Service] with settings"]
    return [f"{unit} has no ExecStart= in force, so that nothing is started that could be judged"]


def _of_outside(key: str, unit: str, files: Sequence[UnitFile], folder: Folder) -> list[str]:
    found = lines_with(files, key)
    if not found:
        return [f"{key}= is not modelled"]
    line = found[-1]
    if key == "ExecStart":
        name = line.value.split(" ")[0].lstrip("-:@").rpartition("/")[2]
        places = [f"/{place}/{name}" for place in ("usr/bin", "usr/sbin", "usr/lib/systemd", "usr/local/bin")]
        there = [it for it in places if it in folder.site.rows or folder.root and os.path.exists(folder.root.rstrip("/") + it)]
        return [f"{line.place}: {line.text}: write the whole path of {name}, as ExecStart={(there or places)[0]}"]
    if key not in _OUTSIDE:
        return [f"{line.place}: {line.text}: the model cannot have this of /; name the folders below it"]
    copy = f"judge a copy of {unit} without this line, by its path with --root"
    return [f"{line.place}: {line.text}: {_OUTSIDE[key]}; {copy}: what the line denies stands open there"]


def _of_no_name(kind: str, name: str, files: Sequence[UnitFile]) -> list[str]:
    keys = ("User",) if kind == "user" else ("Group", "SupplementaryGroups")
    database = "etc/passwd" if kind == "user" else "etc/group"
    text = f": the site has no {kind} {name}; a package may make it when it is installed: judge a root that has it in {database}, or add it to a site (--site)"
    return _of_lines(files, keys, lambda it: name in it.value.split(), text)


def _paths_of(value: str) -> list[str]:
    """The paths that the words of a value name."""
    found = []
    for word in value.replace('"', " ").replace("'", " ").split():
        found += [part.lstrip("-+").rstrip("/") or "/" for part in word.split(":")]
    return found


def _of_no_path(path: str, unit: str, files: Sequence[UnitFile], folder: Folder) -> list[str]:
    lines = lines_with(files, *PATH_KEYS)
    found = [it for it in lines if path in _paths_of(it.value)] or [it for it in lines if "%" in it.value]
    place = f"{found[-1].place}: {found[-1].text}" if found else unit
    if path in folder.site.rows:
        covered = f"a mount above {path} covers it and has nothing there"
        return [f"{place}: {covered}, and systemd would not start the service either (226/NAMESPACE); write -{path}"]
    if folder.root and os.path.lexists(folder.root.rstrip("/") + path):
        return [f"{place}: {path} is there, and the site has no row of it: make the site anew (--fresh)"]
    made = next((f"{key}={path[len(top):]}" for top, key in MADE_BY.items() if path.startswith(top) and path != top), "")
    mend = f"write -{path}" + (f", or let systemd make it ({made})" if made else ", or make the folder")
    return [f"{place}: {path} is not there, and systemd would not start the service either (226/NAMESPACE); {mend}"]


def _of_kind(path: str, files: Sequence[UnitFile]) -> list[str]:
    text = f": a file cannot be mounted on a folder, nor a folder on a file ({path})"
    return _of_lines(files, PATH_KEYS + ("TemporaryFileSystem",), lambda it: path in _paths_of(it.value), text)


def _of_no_set(name: str) -> str:
    return f"calls.txt has no group @{name}, which a setting of the unit stands on: take one that has it (--calls tables/x86-64/calls.txt)"


def questions_of(text: str) -> list[tuple[int, str]]:
    """The questions of a file for `tighten`, each with the number of its line."""
    lines = [(number, line.strip()) for number, line in enumerate(text.split("\n"), 1)]
    return [(number, line) for number, line in lines if line and not line.startswith("#")]


def _of_kept_line(refusal: Refusal, folder: Folder, unit: str) -> list[str]:
    number = refusal.cause[1] if len(refusal.cause) > 1 else ""
    lines = folder.text(refusal.what).split("\n")
    line = lines[int(number) - 1] if number.isdigit() and 0 < int(number) <= len(lines) else ""
    return [f"{refusal.what}:{number}: {_of_question(line, unit, folder)}"]


def _of_question(text: str, unit: str, folder: Folder) -> str:
    told = asking.hint(text, folder.site, folder.table, folder.calls, unit)
    return told or f'{unit} is not asked "{text.strip()}"; judge prints all questions'


def _of_keep(name: str, words: Sequence[str], folder: Folder) -> list[str]:
    wanted = questions_of(folder.text(words[2])) if len(words) > 2 else []
    if not name.isdigit() or not 0 < int(name) <= len(wanted):
        return []
    number, question = wanted[int(name) - 1]
    return [f"{words[2]}:{number}: {question} is denied already; why {words[1]} {question} prints the lines that deny it"]


def _of_wish(name: str) -> str:
    wish = WISHES[int(name) - 1] if name.isdigit() and 0 < int(name) <= len(WISHES) else "a wish of the program"
    return f"wish {name} is {wish}, and the unit denies it already"


def _of_no_filter(name: str, unit: str, again: Callable[..., str]) -> list[str]:
    found = parse(again("filter", unit), "filter")
    names = [it.name for it in getattr(found, "filters", ())]
    have = f"; its filters are {', '.join(dict.fromkeys(names))}" if names else "; it has no filter at all"
    meant = nearest(name, names)
    return [f"{unit} has no filter {name}{f'; {meant} is meant?' if meant else have}"]


def _of_line(refusal: Refusal, folder: Folder) -> list[str]:
    number = refusal.cause[1] if len(refusal.cause) > 1 else ""
    lines = folder.text(refusal.what).split("\n")
    if not number.isdigit() or not 0 < int(number) <= len(lines):
        return []
    text, why = lines[int(number) - 1], " ".join(refusal.cause[2:])
    if why == "name":
        names = text.split()[1:2]
        meant = nearest(names[0].rpartition(":")[2], sorted(folder.calls)) if names else ""
        why = f"calls.txt has no call of this name{f'; {meant} is meant?' if meant else ''}"
    more = {
        "header": "a section is one line in brackets, as [Service]", "digits": "an instruction is 16 lower-case hex digits",
    }.get(why, why)
    if why == "digits" and text != text.lower() and len(text) == 16:
        more = "hex digits are lower-case"
    return [f"{refusal.what}:{number}: {text[:80].strip()}: {more}"]


def _of_no_text(what: str, folder: Folder) -> list[str]:
    try:
        with open(os.path.join(folder.path, what), "rb") as file:
            data = file.read()
        data.decode("utf-8")
    except UnicodeDecodeError as error:
        return [f"{what}:{data[: error.start].count(10) + 1}: byte {error.start + 1} is no UTF-8"]
    except OSError:
        pass
    return []


def _of_launch(launch: Printed, files: Sequence[UnitFile], folder: Folder) -> list[str]:
    commands = lines_with(files, "ExecStart")
    first = commands[0] if commands else None
    program = first.value.split(" ")[0].lstrip("-:@") if first else ""
    if isinstance(launch, LaunchPrivileged):
        return [f"{launch.program} has a set-id bit or capabilities, so that who the service is does not follow from the unit"]
    if isinstance(launch, LaunchKilled):
        return [f"the unit's own filter ends the launch at step {launch.step}: systemd would not start the service either"]
    if not isinstance(launch, LaunchRefused):
        return []
    name = errno.errorcode.get(launch.errno, str(launch.errno))
    if launch.errno == errno.ENOENT and first and program not in folder.site.rows:
        return [f"{first.place}: {first.text}: {program} is not there ({name}); its package is to be installed in the root"]
    if launch.errno == errno.ENOENT and first:
        return [f"{first.place}: {first.text}: the service does not see {program} in its own mounts ({name})"]
    if launch.errno == errno.EACCES and first:
        return [f"{first.place}: {first.text}: the service may not execute {program} ({name}): NoExecPaths= and the kind of the file decide"]
    return [f"step {launch.step} of the launch is refused with {name}: the unit's own settings refuse what systemd does for it"]


def _of_difference(check: Check, folder: Folder) -> str:
    at = check.differs
    assert at is not None
    names = [words[1] for words in (line.split() for line in folder.text("calls.txt").split("\n")) if words[:1] == ["call"] and words[2:3] == [str(at.nr)]]
    call = names[0] if names else f"call {at.nr}"
    values = f" with the arguments {' '.join(map(str, at.args))}" if any(at.args) else ""
    return f"of {call}{values} the file says {action_name(at.theirs)}, and the unit's filter {action_name(at.ours)}"

