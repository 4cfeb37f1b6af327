"""The text of a site.toml, as far as views read it or add to it."""
from __future__ import annotations

import json
import re
from typing import Iterable, Optional

# A user, written as a table of its own or within a list: the name, and behind it the uid.
_USER = re.compile(r'\bname\s*=\s*"([^"\\]*)"\s*[,\n]\s*uid\s*=\s*([0-9]+)')
#: The versions of systemd that the key `systemd` may have.
PROFILES = (252, 257)
# The key before the first table, as TOML writes it, with a whole number behind it.
_SYSTEMD = re.compile(r"""^[ \t]*(?:systemd|"systemd"|'systemd')[ \t]*=[ \t]*\+?([0-9][0-9A-Fa-fxob_]*)[ \t]*(?:#.*)?$""", re.MULTILINE)
_TABLE = re.compile(r"^[ \t]*\[", re.MULTILINE)
_LIST_OF_ROWS = re.compile(rb"^\s*row\s*=\s*\[", re.MULTILINE)


def profile_of(site: str) -> Optional[int]:
    """The version of systemd by whose rules a site has its units judged; None of a site without the key, for the base profile."""
    found = _SYSTEMD.search(_TABLE.split(site, maxsplit=1)[0])
    try:
        version = int(found[1], 0) if found else None
    except ValueError:
        return None
    return version if version in PROFILES else None


def heads_of(site: str) -> list[str]:
    """The lines of comment that a site begins with, as tools/make-site writes them."""
    lines = site.split("\n")
    return [line[2:] for line in lines[: next((at for at, line in enumerate(lines) if not line.startswith("# ")), None)]]


def user_names(site: str) -> dict[int, str]:
    """The names of the users of a site, by their ids; the first of each."""
    found: dict[int, str] = {}
    for name, uid in _USER.findall(site):
        found.setdefault(int(uid), name)
    return found


def with_rows(site: bytes, rows: Iterable[tuple[str, str]]) -> bytes:
    """The site with further rows, each a path and its kind."""
    fields = [(f"path = {_quoted(path)}", f'kind = "{kind}"') for path, kind in rows]
    listed = _LIST_OF_ROWS.search(site)
    if listed:
        added = "".join(f" {{ {path}, {kind} }}," for path, kind in fields).encode("utf-8", "surrogateescape")
        return site[: listed.end()] + added + site[listed.end() :]
    tables = "".join(f"\n[[row]]\n{path}\n{kind}\n" for path, kind in fields)
    return site + b"\n" + tables.encode("utf-8", "surrogateescape")


def _quoted(path: str) -> str:
    """A path as a text of TOML, whose escapes are those of JSON."""
    return json.dumps(path, ensure_ascii=False).replace("\x7f", "\\u007f")
