"""The texts that need no run over a unit: the help, the version, and the shapes of the commands."""
from __future__ import annotations

import os

from .build import NoProgram, chosen, proved_by
from .home import COMMAND, IS_CHECKOUT, PROGRAM, TOP

HELP_OF_OPTIONS = f"""
Options may be before or after COMMAND:

    --root DIR       judge a unit of a host (/), a container's tree or a build root
    --brief          with judge, print the verdict in one screen; with fleet, the units
                     and what to add first
    --json           print the output of a command as JSON
    --html FILE      with judge, write one page; with fleet, a page for each unit
    --expect FILE    with judge, print the lines of FILE that do not hold
    --write FILE     with judge, write what the unit is denied, as lines for --expect
    --compare OLD NEW
                     print what opened and closed between two outputs of judge
    --drop-in FILE   with tighten and derive, also write the settings as a drop-in
    --top N          with fleet, print the first N lines

Two tools run these commands for you, and have options of their own:

    harden UNIT --drop-in OUT
                     write a drop-in with which the service keeps working
    lint UNIT ..     print mistakes in unit files

{COMMAND} --brief --help, --root --help, harden --help and lint --help say more.
"""
HELP_OF_ROOT = f"""\
usage: {COMMAND} --root DIR [--units DIR] [--calls FILE] [--site FILE] [--fresh] [--full] [--verbose] [--all] COMMAND UNIT [NAME] [FILE [THRESHOLD]]

Judges a unit of a running host (--root /), of a container's tree or of a build root, as any user.

  --root DIR     the root folder, with the unit and the files that it is judged on
  --units DIR    take the unit's files from this folder, such as a package's tree
  --calls FILE   use this table of system calls (default: one of tables/x86-64, by the root's systemd and kernel)
  --site FILE    use these files, users and groups (made by tools/make-site)
  --fresh        make the site again
  --full         include folders that have nothing but folders and plain files in the site
  --verbose      print everything that the site leaves out
  --top N        with fleet, print the first N lines and the counts
  --all          with fleet, also score services that are not enabled and were not started
  --drop-in FILE with tighten, also write the settings into FILE as a drop-in

UNIT is a name such as ssh.service or ssh, another name of a unit, or the path of a unit file such as debian/web.service. A path
replaces the root's file of that name. FILE may be anywhere; score uses tables/policy/systemd.json if you name no policy.

The site is cached below ~/.cache/lentsheep. It is used while it is newer than the unit's files, and the users, groups and packages
of the root. The walk over the root is cached until a package is installed. Nothing is written into the root. Without --root the
other options mean files of the current folder. COMMAND, UNIT, NAME, FILE and THRESHOLD are the words of the program ({COMMAND} --help).
The exit status is the program's, 2 for a usage error, and 125 if the program could not run.
"""
# All options, for the nearest one to a wrong word.
OPTIONS = """--root --units --calls --site --fresh --full --verbose --top --all --drop-in --brief --json --html --expect --write --compare
    --help --version""".split()


# What was read once.
_TEXTS: dict[str, str] = {}
_SHAPES: dict[str, list[str]] = {}


def text_of(name: str) -> str:
    """Returns HELP or VERSION of the program: from its source in a checkout, else from the installed program."""
    if name not in _TEXTS:
        _TEXTS[name] = _read_text(name) if IS_CHECKOUT else _told_by_program("--help" if name == "HELP" else "--version")
    return _TEXTS[name]


def _read_text(name: str) -> str:
    found, is_inside = [], False
    with open(f"{TOP}/crates/top_call/src/texts.rt", encoding="utf-8") as source:
        for line in source:
            is_inside = is_inside or line.startswith(f"const {name}:")
            if is_inside and '\\n"' in line:
                found.append(line.partition('"')[2].partition('\\n"')[0] + "\n")
            if is_inside and line.rstrip("\n").endswith(";"):
                break
    return "".join(found)


def _told_by_program(word: str) -> str:
    import subprocess

    try:
        return subprocess.run([PROGRAM, word], stdout=subprocess.PIPE, check=False).stdout.decode("utf-8", "replace")
    except OSError as error:
        raise NoProgram(f"{PROGRAM}: {error.strerror}") from None


def shapes() -> dict[str, list[str]]:
    """Returns the words after each command, such as UNIT POLICY [THRESHOLD], by the lines of the help."""
    if not _SHAPES:
        _SHAPES.update(_read_shapes())
    return _SHAPES


def _read_shapes() -> dict[str, list[str]]:
    found: dict[str, list[str]] = {}
    for line in text_of("HELP").split("\n"):
        words = line.split()
        if not line.startswith("  ") or line.startswith("   ") or not words or not _is_command(words[0]):
            continue
        shape: list[str] = []
        for word in words[1:]:
            if not _is_shape(word):
                break
            shape.append(word)
        if shape or words[1:] and words[1].removeprefix("[")[:1].isupper():
            found.setdefault(words[0], shape)
    return found


def _is_command(word: str) -> bool:
    return all(letter == "-" or "a" <= letter <= "z" for letter in word)


def _is_shape(word: str) -> bool:
    name = word.removeprefix("[").removesuffix("]")
    return bool(name) and all("A" <= letter <= "Z" for letter in name)


def version(unproved: bool) -> str:
    """Returns the text of --version: the program's own, and whether the build was proved."""
    return f"{text_of('VERSION')}{_told_build(unproved)}\n"


def _told_build(unproved: bool) -> str:
    built = chosen()
    kit = proved_by(built)
    if unproved:
        return "of --try: a build that nothing is proved of"
    if kit:
        return f"proved by {kit}"
    if os.path.exists(built):
        return f"not known to be proved: {built} has no record of its proof"
    return "not built yet: the first run proves it"
