"""Overrides of `lint`: findings that stay, each with a reason.

A file of overrides has one a line, below a comment with the reason:

    # The package's postinst makes this folder.
    hello-web.service: unmade-path /srv/hello
"""
from __future__ import annotations

from typing import Sequence

from .lint import Finding
from .lint_tags import TAGS
from .record import dataclass


class Fault(Exception):
    """A line that is no override; the text says where and why."""


@dataclass(frozen=True)
class Override:
    """An override: its line, the file and the tag that it is about, the context of the finding, and the reason."""

    line: int
    file: str
    tag: str
    context: str
    reason: str

    def matches(self, finding: Finding) -> bool:
        """Whether it is about this finding."""
        is_file = f"/{finding.file}".endswith(f"/{self.file}")
        return is_file and self.tag == finding.tag and self.context == finding.context

    @property
    def text(self) -> str:
        """Its line again."""
        return f"{self.file}: {self.tag} {self.context}".rstrip()


def read_overrides(text: str, file: str) -> list[Override]:
    """Reads a file of overrides."""
    found: list[Override] = []
    reason: list[str] = []
    for number, line in enumerate(text.split("\n"), 1):
        line = line.strip()
        if line.startswith("#"):
            reason.append(line.lstrip("# ").strip())
            continue
        if line:
            found.append(_read(line, number, " ".join(filter(None, reason)), file))
        reason = []
    return found


def _read(line: str, number: int, reason: str, file: str) -> Override:
    name, colon, rest = line.partition(": ")
    tag, _, context = rest.strip().partition(" ")
    if not colon or not tag:
        raise Fault(f"{file}:{number}: write an override as FILE: TAG CONTEXT")
    if tag not in TAGS:
        raise Fault(f"{file}:{number}: there is no tag {tag} (--list-tags prints all tags)")
    if not reason:
        raise Fault(f"{file}:{number}: an override needs a reason, in a comment above it")
    return Override(number, name.strip(), tag, context.strip(), reason)


def overridden(findings: Sequence[Finding], overrides: Sequence[Override]) -> tuple[list[Finding], list[Override]]:
    """The findings that no override silences, and the overrides that silence none. Each override silences one finding at most."""
    left, unused = list(findings), []
    for override in overrides:
        silenced = next((it for it in left if override.matches(it)), None)
        if silenced is None:
            unused.append(override)
        else:
            left.remove(silenced)
    return left, unused
