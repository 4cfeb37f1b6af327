"""The one reader of the command's words: `read(words)` gives what they ask for. It runs nothing and prints nothing.

Options may be before or after the command. `tool_of(words)` says whether they are words of `lint` or `harden`, which have options of
their own.
"""
from __future__ import annotations

import os

from .home import IS_CHECKOUT, POLICY, current
from .texts import shapes

# Options with a name after them: of --root and its kin, of views, and of the tools.
OF_ROOT = ("--root", "--units", "--calls", "--site")
VIEWS_WITH_FILE = ("--html", "--expect", "--write")
OF_TOOLS = (*OF_ROOT, "--overrides", "--severity", "--keep", "--strace", "--drop-in")
VIEWS = ("--brief", "--json", "--compare", *VIEWS_WITH_FILE)
# Options without a name, for which a folder of its own is made as for --root.
SWITCHES = ("--fresh", "--full", "--verbose", "--all")
TOOLS = ("lint", "harden")
_UNIT_KINDS = ".service .socket .timer .target .mount .automount .path .slice .scope .device .swap".split()
_UNIT_FOLDERS = ("etc/systemd/system/", "run/systemd/system/", "usr/lib/systemd/system/")
_LETTERS = frozenset("ABCDEFGHIJKLMNOPQRSTUVWXYZabcdefghijklmnopqrstuvwxyz0123456789:_.\\@-")


class Line:
    """What a command line asks for."""

    def __init__(self) -> None:
        #: the command and its words
        self.words: list[str] = []
        #: the views, of which there may be one, and the file of the last one
        self.views: list[str] = []
        self.view_file = ""
        #: the names after --root and its kin, by the option
        self.names: dict[str, str] = {}
        #: --fresh and its kin
        self.switches: set[str] = set()
        self.unproved = False
        self.wants_help = False
        #: N of --top and FILE of --drop-in
        self.top = ""
        self.drop_in = ""
        #: the option at the end that lacks N or FILE
        self.lacks_value = ""
        #: another option whose name is missing
        self.lacks_name = ""

    @property
    def command(self) -> str:
        """Returns the command, or nothing."""
        return self.words[0] if self.words else ""

    @property
    def view(self) -> str:
        """Returns the view, or nothing."""
        return self.views[-1] if self.views else ""

    @property
    def is_rooted(self) -> bool:
        """Returns whether the words name a root, or files for the place of those of the current folder."""
        return bool(self.names or self.switches)

    @property
    def shape(self) -> list[str]:
        """Returns the words that the command takes; none if there is no such command."""
        return shapes().get(self.command, [])


def tool_of(words: list[str]) -> str:
    """Returns lint or harden, if these words are of that tool."""
    is_name = False
    for word in words:
        if is_name or word.startswith("-"):
            is_name = not is_name and word in OF_TOOLS
        else:
            return word if word in TOOLS else ""
    return ""


def read(words: list[str]) -> Line:
    """Returns what the words ask for."""
    line, taking, expecting = Line(), "", ""
    for word in words:
        option, equals, name = word.partition("=")
        if taking:
            _take(line, taking, word)
            taking = ""
        elif word in ("--top", "--drop-in"):
            taking = word
        elif equals and option in ("--top", "--drop-in"):
            _take(line, option, name)
        elif word in ("-h", "--help"):
            line.wants_help = True
        elif expecting and word.startswith("-"):
            line.lacks_name = expecting
        elif expecting:
            if not os.path.exists(word) and word in shapes():
                line.lacks_name = expecting
            _name(line, expecting, word)
            expecting = ""
        else:
            expecting = _read_word(line, word)
    line.lacks_name, line.lacks_value = line.lacks_name or expecting, taking
    return line


def _take(line: Line, option: str, name: str) -> None:
    if option == "--top":
        line.top = name
    else:
        line.drop_in = name


def _name(line: Line, option: str, name: str) -> None:
    if option in VIEWS_WITH_FILE:
        line.view_file = name
    else:
        line.names[option] = name


def _read_word(line: Line, word: str) -> str:
    """Takes a word that no option waits for; an option that waits for a name comes back."""
    option, equals, name = word.partition("=")
    if word in OF_ROOT:
        line.names.setdefault(word, "")
        return word
    if equals and option in OF_ROOT:
        line.names[option] = name
    elif word in SWITCHES:
        line.switches.add(word)
    elif word == "--try" and IS_CHECKOUT:
        line.unproved = True
    elif word in VIEWS:
        line.views.append(word)
        return word if word in VIEWS_WITH_FILE else ""
    else:
        line.words.append(word)
    return ""


def write_out(line: Line) -> None:
    """Writes out what is short: a unit without its suffix, and a score or a fleet without its policy."""
    shape, words = line.shape, line.words
    if len(words) > 1 and shape[:1] == ["UNIT"]:
        words[1] = unit_of(words[1], line.is_rooted)
    if len(words) == 3 and "POLICY" in shape and words[2].removeprefix("-")[:1].isdigit() and not os.path.isfile(words[2]):
        words.insert(2, POLICY)
    if (line.command, len(words)) in (("score", 2), ("fleet", 1)):
        words.append(POLICY)


def unit_of(text: str, is_rooted: bool) -> str:
    """Returns the name of a unit: without a suffix it is a service, and the path of a file among the current folder's units is its name."""
    path = text.removeprefix("./").removeprefix(f"{current()}/")
    folder, _, name = path.rpartition("/")
    if f"{folder}/" in _UNIT_FOLDERS and name.endswith(".service") and not is_rooted and os.path.isfile(path):
        return name
    if not text or not _LETTERS.issuperset(text) or text.endswith(tuple(_UNIT_KINDS)):
        return text
    return f"{text}.service"
