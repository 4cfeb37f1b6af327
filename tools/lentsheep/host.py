"""What a site.toml says of the host beside what is judged: in the comments that tools/make-site writes, and of its rows."""
from __future__ import annotations

import json
import re
from typing import Mapping, Optional

from .record import dataclass, field
from .site_text import profile_of

# A row, written as a table of its own or within a list: the path, and what stands behind it.
_ROW = re.compile(r'\bpath\s*=\s*("(?:[^"\\\n]|\\.)*")(.*?)(?=\n\s*\n|\n\s*\[\[|\}|\Z)', re.DOTALL)
_SPECIAL = re.compile(r"#\s*(socket|pipe|device|disk|terminal)\b")
_LINK = re.compile(r"#(?:[^\n]*; )?\s*link(?: (\S[^\n]*))?$", re.MULTILINE)
_EFFECTIVE = re.compile(r"\beffective\s*=\s*true\b")
_SYSTEMD = re.compile(r"^# systemd ([0-9]+)", re.MULTILINE)
_LACKS = re.compile(r"^# the kernel lacks the (calls|families): (.*)$", re.MULTILINE)


@dataclass(frozen=True)
class Host:
    """What is known of a host; nothing is known where a site does not say it."""

    #: the version of systemd, as 252
    systemd: Optional[int] = None
    #: the version of systemd by whose rules the program judges; None for the base profile
    profile: Optional[int] = None
    #: `socket`, `pipe`, `device`, `disk` or `terminal` by the paths of such rows
    special: Mapping[str, str] = field(default_factory=dict)
    #: where rows with a link in their path lead, by their paths; empty where that is not known
    links: Mapping[str, str] = field(default_factory=dict)
    #: programs whose capabilities are effective when they are run
    effective: frozenset[str] = frozenset()
    #: calls and families that the kernel does not have
    lacking: frozenset[str] = frozenset()

    def is_device(self, path: str) -> bool:
        """Whether a row is a device; of a site that tells no kinds of files apart, whatever is below /dev."""
        if self.special:
            return self.special.get(path) in ("device", "disk", "terminal")
        return path.startswith("/dev/")


def read_host(site: str) -> Host:
    """What the text of a site says."""
    special, links, effective = {}, {}, set()
    for written, rest in _ROW.findall(site):
        found, link = _SPECIAL.search(rest), _LINK.search(rest)
        if found or link or _EFFECTIVE.search(rest):
            path = _text(written)
            if found:
                special[path] = found[1]
            if link:
                links[path] = link[1] or ""
            if not found and _EFFECTIVE.search(rest):
                effective.add(path)
    version, profile = _SYSTEMD.search(site), profile_of(site)
    lacking = {name for _, names in _LACKS.findall(site) for name in names.split()}
    systemd = profile or (int(version[1]) if version else None)
    return Host(systemd, profile, special, links, frozenset(effective), frozenset(lacking))


def _text(written: str) -> str:
    """A basic string of TOML, whose escapes are those of JSON but for a few that no path of make-site has."""
    try:
        return str(json.loads(written))
    except ValueError:
        return written[1:-1]
