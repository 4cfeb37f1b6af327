"""Escaped words: paths and names as the program prints them.

Each byte up to 0x20, the byte 0x7f and `%` are `%` and two hex digits; all other bytes stand as they are.
"""
from __future__ import annotations

import re

_ESCAPE = re.compile(rb"%([0-9A-Fa-f]{2})")


class Pattern:
    """A regular expression that is compiled when it is used first: a run uses few of them."""

    def __init__(self, text: str):
        self.text = text
        self._compiled: re.Pattern[str] | None = None

    def fullmatch(self, text: str) -> re.Match[str] | None:
        """The match of a whole text."""
        if self._compiled is None:
            self._compiled = re.compile(self.text)
        return self._compiled.fullmatch(text)


def unescaped(word: str) -> str:
    """The text of an escaped word. A `%` without two hex digits behind it stands for itself."""
    if "%" not in word:
        return word
    data = word.encode("utf-8", "surrogateescape")
    return _ESCAPE.sub(lambda found: bytes([int(found[1], 16)]), data).decode("utf-8", "surrogateescape")


def escaped(text: str) -> str:
    """The text as one word, the way the program prints it."""
    # of ASCII only the space and what is not printable is escaped
    if text.isascii() and text.isprintable() and " " not in text and "%" not in text:
        return text
    data = text.encode("utf-8", "surrogateescape")
    parts = [b"%%%02X" % byte if byte <= 0x20 or byte in (0x7F, 0x25) else bytes([byte]) for byte in data]
    return b"".join(parts).decode("utf-8", "surrogateescape")
