"""The files of a service unit, and their lines and words (systemd.unit(5), systemd.syntax(7)).

A unit is looked for where the program looks, and its lines and words are read as the program reads them. `locations` looks where
systemd does, and `says` has what the lines say.
"""
from __future__ import annotations

import errno
import os
import re
from typing import Iterator, NamedTuple, Optional, Tuple

from sites.root import Root

PLACES = [b"/etc/systemd/system", b"/run/systemd/system", b"/usr/lib/systemd/system"]
# How a path can lead to nothing.
NOT_THERE = (errno.ENOENT, errno.ENOTDIR, errno.ELOOP)
SPACES = " \t\r"
ESCAPES = {"\\": b"\\", '"': b'"', "'": b"'", " ": b" ", "s": b" ", "n": b"\n", "t": b"\t"}
# A section with its brackets, or None in front of all sections, a key and its value.
Setting = Tuple[Optional[str], str, str]


class UnitName(NamedTuple):
    """A name, `PREFIX.service` or `PREFIX@INSTANCE.service`; the instance is None in the first."""

    text: str
    prefix: str
    instance: Optional[str]


def read_name(text: str) -> Optional[UnitName]:
    """The name of a unit; None where it is none."""
    found = re.fullmatch(r"([A-Za-z0-9:\-_.\\]+)(?:@([A-Za-z0-9:\-_.\\@]+))?\.service", text)
    return UnitName(text, found[1], found[2]) if found and len(text) <= 255 else None


def fragment_names(name: UnitName) -> list[bytes]:
    """The names of the files that may be the fragment, the first first."""
    names = [name.text]
    if name.instance is not None:
        names.append(name.prefix + "@.service")
    return [it.encode() for it in names]


def dropin_folders(name: UnitName) -> list[bytes]:
    """The names of the folders of drop-ins, the most specific first."""
    folders = [name.text + ".d"]
    if name.instance is not None:
        folders.append(name.prefix + "@.service.d")
    dashes = [at for at, letter in enumerate(name.prefix) if letter == "-" and 0 < at < len(name.prefix) - 1]
    folders += [name.prefix[: at + 1] + ".service.d" for at in reversed(dashes)]
    return [it.encode() for it in folders + ["service.d"]]


def ways(path: bytes) -> list[bytes]:
    """The path, and where a tree has it whose /lib is a folder of its own, as a package's."""
    return [path, path[len(b"/usr") :]] if path.startswith(b"/usr/lib/") else [path]


def is_mask(root: Root, path: bytes) -> bool:
    """Whether it is a link to /dev/null, which the root need not have."""
    folder, _, file = path.rpartition(b"/")
    try:
        return os.readlink(root.outside(root.real(folder) + b"/" + file)) == b"/dev/null"
    except OSError:
        return False


def standing(root: Root, path: bytes) -> Optional[bytes]:
    """Where the file of this path stands; None where it does not."""
    return next((way for way in ways(path) if root.stands(way) or is_mask(root, way)), None)


def names_in(root: Root, folder: bytes) -> list[bytes]:
    """The names in a folder of drop-ins, in byte order. OSError where it is there and cannot be read."""
    found: set[bytes] = set()
    for way in ways(folder):
        try:
            found.update(os.listdir(root.outside(root.real(way))))
        except OSError as error:
            if error.errno not in NOT_THERE:
                raise
    return sorted(found)


def fragment(root: Root, name: UnitName) -> Optional[bytes]:
    """The path of the fragment; None where there is none."""
    paths = [place + b"/" + it for it in fragment_names(name) for place in PLACES]
    return next(filter(None, (standing(root, path) for path in paths)), None)


def dropins(root: Root, name: UnitName) -> list[bytes]:
    """The paths of the drop-ins that the program takes, in the order in which they are applied."""
    winners: dict[bytes, bytes] = {}
    for folder in dropin_folders(name):
        for place in PLACES:
            for file in names_in(root, place + b"/" + folder):
                path = standing(root, place + b"/" + folder + b"/" + file)
                if path and file.endswith(b".conf"):
                    winners.setdefault(file, path)
    return [path for _, path in sorted(winners.items())]


def sources(root: Root, name: UnitName) -> list[bytes]:
    """The files that the program takes."""
    found = fragment(root, name)
    return ([found] if found else []) + dropins(root, name)


def is_comment(line: str) -> bool:
    """Whether a line is skipped, within a continued one too."""
    return line.lstrip(SPACES).startswith(("#", ";"))


def joined_lines(text: str) -> Iterator[str]:
    """The lines of a file, continued ones as one."""
    whole: Optional[str] = None
    for line in text.split("\n"):
        if is_comment(line):
            continue
        whole = line if whole is None else whole + line.lstrip(SPACES)
        if (len(whole) - len(whole.rstrip("\\"))) % 2 == 1:
            whole = whole[:-1] + " "
        else:
            yield whole
            whole = None
    if whole is not None:
        yield whole


def all_assignments(text: str) -> Iterator[Setting]:
    """The sections, keys and values of a file."""
    section: Optional[str] = None
    for line in joined_lines(text):
        line = line.strip(SPACES)
        if line.startswith("["):
            section = line
            continue
        key, equals, value = line.partition("=")
        if equals:
            yield section, key.strip(SPACES), value.strip(SPACES)


def assignments(text: str) -> Iterator[tuple[str, str]]:
    """The keys and values of [Service]."""
    for section, key, value in all_assignments(text):
        if section == "[Service]":
            yield key, value


def escape_at(value: str, at: int) -> tuple[bytes, int]:
    """The bytes of the escape whose backslash is here, and the place behind it. ValueError where it is none."""
    if value[at + 1 : at + 2] == "x" and re.fullmatch("[0-9A-Fa-f]{2}", value[at + 2 : at + 4]):
        return bytes([int(value[at + 2 : at + 4], 16)]), at + 4
    if value[at + 1 : at + 2] not in ESCAPES:
        raise ValueError("no escape")
    return ESCAPES[value[at + 1]], at + 2


def read_words(value: str) -> Iterator[bytes]:
    """The words of a value, each as it is read. ValueError where a quote or an escape is cut short."""
    word: Optional[bytes] = None
    quote, at = "", 0
    while at < len(value):
        letter = value[at]
        if letter == "\\":
            piece, at = escape_at(value, at)
            word = (word or b"") + piece
            continue
        at += 1
        if quote == letter:
            quote = ""
        elif not quote and letter in "'\"":
            quote, word = letter, word or b""
        elif quote or letter not in SPACES:
            word = (word or b"") + letter.encode()
        elif word is not None:
            yield word
            word = None
    if quote:
        raise ValueError("an open quote")
    if word is not None:
        yield word


def words(value: str) -> list[bytes]:
    """The words of a value; none where a quote or an escape is cut short."""
    try:
        return list(read_words(value))
    except ValueError:
        return []


def first_word(value: str) -> Optional[bytes]:
    """The first word of a value, whatever follows it; None where there is none."""
    try:
        return next(read_words(value), None)
    except ValueError:
        return None
