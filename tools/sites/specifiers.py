"""Specifiers of systemd.unit(5), as the program expands them."""
from __future__ import annotations

import re
from typing import Mapping, Optional

from sites.units import UnitName

# With the key `systemd` of a site these make an assignment unreadable, since a site does not say what they are.
UNREADABLE = frozenset("aAbBcdDHlmMoqrRvwWyY")


def unescaped(text: str) -> str:
    """A part of a name without its escapes: `-` is a slash and `\\xNN` a byte."""
    raw = text.replace("-", "/").encode()
    return re.sub(rb"\\x([0-9A-Fa-f]{2})", lambda found: bytes([int(found[1], 16)]), raw).decode("utf-8")


def specified(name: UnitName) -> dict[str, str]:
    """What the specifiers stand for, by their letters."""
    instance = name.instance or ""
    last = name.prefix.rpartition("-")[2]
    plain = {
        "%": "%", "n": name.text, "N": name.text[: -len(".service")], "p": name.prefix, "i": instance, "j": last,
        "t": "/run", "S": "/var/lib", "C": "/var/cache", "L": "/var/log", "E": "/etc", "T": "/tmp", "V": "/var/tmp",
        "u": "root", "U": "0", "h": "/root",
    }  # fmt: skip
    return {**plain, "P": unescaped(name.prefix), "I": unescaped(instance), "J": unescaped(last)}


def specified_by_key(name: UnitName) -> dict[str, str]:
    """The same of a site with the key `systemd`."""
    path = "/" + unescaped(name.prefix if name.instance is None else name.instance).lstrip("/")
    return {**specified(name), "f": path, "g": "root", "G": "0", "s": "/bin/sh"}


def expanded(name: UnitName, value: str, has_key: bool = False) -> Optional[str]:
    """The value with its specifiers expanded; None where it cannot be read. With the key, letters of no specifier stay as they are."""
    try:
        known = specified_by_key(name) if has_key else specified(name)
        return re.sub("%(.?)", lambda found: _expanded(found[1], known, has_key), value, flags=re.DOTALL)
    except (KeyError, UnicodeDecodeError):
        return None


def _expanded(letter: str, known: Mapping[str, str], has_key: bool) -> str:
    return known[letter] if letter in known or not has_key or letter in UNREADABLE else f"%{letter}"
