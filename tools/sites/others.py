"""Folders that systemd keeps for one unit each, where others see nothing: they are rows for the units that are judged alone."""
from __future__ import annotations

import re
from typing import Container

# What stands before and behind the name of a unit (systemd.exec(5), PrivateTmp=, LoadCredential=; systemd.unit(5)).
FOLDERS = (
    (rb"/run/credentials/", rb"(?:/|$)"),
    (rb"/run/systemd/propagate/", rb"(?:/|$)"),
    (rb"/(?:var/)?tmp/systemd-private-[0-9a-f]{32}-", rb"-[A-Za-z0-9]{6}(?:/|$)"),
)
NAME = rb"([A-Za-z0-9:\-_.\\@]+\.[a-z]+)"
PATTERNS = [re.compile(before + NAME + behind) for before, behind in FOLDERS]


def is_of_another(path: bytes, units: Container[str]) -> bool:
    """Whether a path is a folder, or lies in one, of a unit that is none of these."""
    found = next(filter(None, (pattern.match(path) for pattern in PATTERNS)), None)
    return found is not None and found[1].decode() not in units
