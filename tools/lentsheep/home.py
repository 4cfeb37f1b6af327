"""Where the tools stand, and how the command is called. This module imports little, since every run of the command reads it."""
from __future__ import annotations

import os

#: The checkout, or the folder in which the command is installed.
TOP = os.path.dirname(os.path.dirname(os.path.dirname(os.path.realpath(__file__))))
IS_CHECKOUT = os.path.isfile(f"{TOP}/crates.txt")
#: How people call the command.
COMMAND = "./sandbox" if IS_CHECKOUT else "lentsheep"
#: The same, in front of messages.
NAME = COMMAND.removeprefix("./")
#: The program where no other build is named.
PROGRAM = f"{TOP}/crates/sandbox_cli/out/sandbox_cli" if IS_CHECKOUT else f"{TOP}/program"
POLICY = f"{TOP}/tables/policy/systemd.json"


def current() -> str:
    """Returns the current folder by the name that the shell has for it, links included."""
    told = os.environ.get("PWD", "")
    try:
        if os.path.isabs(told) and os.path.samefile(told, "."):
            return told
    except OSError:
        pass
    return os.getcwd()


def absolute(path: str) -> str:
    """Returns the absolute name of a file of the current folder."""
    return path if path.startswith("/") else f"{current()}/{path}"
