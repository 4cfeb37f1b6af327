"""What the files of a service unit say of paths and people (systemd.exec(5)), for the rows, users and groups of a site.

What cannot be read is passed over, since the program notes or refuses it. With the key `systemd` of a site the program reads more.
"""
from __future__ import annotations

from typing import Iterable, Mapping, NamedTuple, Optional

from sites.root import Root
from sites.specifiers import expanded
from sites.told import Told
from sites.units import UnitName, assignments, first_word, is_mask, words

# Commands, of whose values the first word is a program.
COMMANDS = {"ExecCondition", "ExecStartPre", "ExecStart", "ExecStartPost", "ExecReload", "ExecStop", "ExecStopPost"}
# Where systemd looks for a program without a slash, some of them in 252 alone.
SEARCHED = [b"/usr/local/sbin/", b"/usr/local/bin/", b"/usr/sbin/", b"/usr/bin/", b"/sbin/", b"/bin/"]
PATH_LISTS = {"ReadWritePaths", "ReadOnlyPaths", "InaccessiblePaths", "ExecPaths", "NoExecPaths"}
OLD_PATH_LISTS = {"ReadWriteDirectories", "ReadOnlyDirectories", "InaccessibleDirectories"}
BINDS = {"BindPaths", "BindReadOnlyPaths"}
FOLDERS = {
    "StateDirectory": "/var/lib/",
    "RuntimeDirectory": "/run/",
    "CacheDirectory": "/var/cache/",
    "LogsDirectory": "/var/log/",
}
FOLDERS_BY_KEY = {**FOLDERS, "ConfigurationDirectory": "/etc/"}
TRUE = {"1", "yes", "y", "true", "t", "on"}
FALSE = {"", "0", "no", "n", "false", "f", "off"}


class Says(NamedTuple):
    """What a unit says: its programs, paths that are to be there, paths that may be missing, places of empty file systems
    (which may be missing too), folders that systemd makes, and the names of users and groups."""

    programs: list[bytes]
    paths: list[bytes]
    optional: list[bytes]
    emptied: list[bytes]
    folders: list[bytes]
    users: set[str]
    groups: set[str]


def add_path(says: Says, word: bytes) -> None:
    """Takes up a word of a list of paths, which a `-` in front makes optional."""
    bare = word[1:] if word.startswith(b"-") else word
    bare = bare[1:] if bare.startswith(b"+") else bare
    (says.optional if word.startswith(b"-") else says.paths).append(bare)


def add_bind(says: Says, word: bytes) -> None:
    """Takes up a word `[-]SOURCE[:PLACE[:OPTION]]`. The place need not be there."""
    bare = word[1:] if word.startswith(b"-") else word
    source, _, rest = bare.partition(b":")
    (says.optional if word.startswith(b"-") else says.paths).append(source)
    if rest:
        says.optional.append(rest.partition(b":")[0])


def add_folder(says: Says, base: bytes, word: bytes) -> None:
    """Takes up a folder that systemd makes."""
    name = word.partition(b":")[0]
    if name and not word.startswith(b"/"):
        says.folders.append(base + name)


def add_folder_by_key(says: Says, key: str, word: bytes, values: Mapping[str, str]) -> None:
    """Takes up a folder of a site with the key, and the link to it behind a colon. That of a dynamic user is below `private`, where it
    stays when the service ends."""
    name, link = (word.split(b":") + [b""])[:2]
    # a folder of ConfigurationDirectory= has no link
    if not name or word.startswith(b"/") or key == "ConfigurationDirectory" and b":" in word:
        return
    base = FOLDERS_BY_KEY[key].encode()
    stays = key != "RuntimeDirectory" or values.get("RuntimeDirectoryPreserve", "").lower() not in FALSE
    is_private = values.get("DynamicUser", "").lower() in TRUE and key != "ConfigurationDirectory" and stays
    says.folders.append(base + (b"private/" if is_private else b"") + name)
    if link:
        says.optional.append(base + link)


def add_words(says: Says, key: str, found: list[bytes], has_key: bool) -> None:
    """Takes up the words of a value."""
    if key in COMMANDS:
        says.programs.extend([word.lstrip(b"-:@+!|") for word in found[:1]])
    elif key in FOLDERS:
        for word in found:
            add_folder(says, FOLDERS[key].encode(), word)
    elif key == "TemporaryFileSystem":
        says.emptied.extend([word.partition(b":")[0] for word in found])
    elif key in PATH_LISTS or key in BINDS or has_key and key in OLD_PATH_LISTS:
        for word in found:
            (add_bind if key in BINDS else add_path)(says, word)


def add_assignment(says: Says, key: str, value: str, has_key: bool) -> None:
    """Takes up an assignment, its specifiers expanded."""
    if key == "User":
        says.users.add(value)
    elif key in ("Group", "SupplementaryGroups"):
        says.groups.update(value.split())
    else:
        add_words(says, key, words(value), has_key)


def add_command(says: Says, name: UnitName, value: str) -> None:
    """Takes up a command of a site with the key: specifiers of its program alone are read, and systemd looks for one without a slash."""
    try:
        program = expanded(name, (first_word(value) or b"").decode(), True)
    except UnicodeDecodeError:
        program = None
    if program:
        bare = program.encode().lstrip(b"-:@+!|")
        if b"/" in bare:
            says.programs.append(bare)
        else:
            says.optional.extend(folder + bare for folder in SEARCHED)


def said(
    root: Root, name: UnitName, files: Iterable[bytes], told: Told, dropin: Optional[str] = None, has_key: bool = False
) -> Says:
    """What these files of a unit, and the text of a further drop-in, say, whether or not a later assignment takes it back."""
    says = Says([], [], [], [], [], set(), set())
    texts = []
    for path in files:
        if is_mask(root, path):
            continue
        try:
            texts.append(root.read(path).decode("utf-8"))
        except (OSError, ValueError):
            told.add("files of units that could not be read", path)
    found = [it for text in texts + ([dropin] if dropin else []) for it in assignments(text)]
    # of booleans the last one counts
    values = dict(found)
    for key, value in found:
        if has_key and key in COMMANDS:
            add_command(says, name, value)
            continue
        read = expanded(name, value, has_key)
        if read and has_key and key in FOLDERS_BY_KEY:
            for word in words(read):
                add_folder_by_key(says, key, word, values)
        elif read:
            add_assignment(says, key, read, has_key)
    return says
