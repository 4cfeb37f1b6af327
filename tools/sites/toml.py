"""The text of site.toml."""

from __future__ import annotations

from typing import Mapping, Sequence

from sites.people import Group, User
from sites.rows import Row

# Up to which size the program reads a file.
LONGEST = 1 << 20


def quoted(text: str) -> str:
    """A basic string of TOML."""
    escaped = text.replace("\\", "\\\\").replace('"', '\\"')
    return '"' + "".join(f"\\u{ord(c):04x}" if c < " " or c == "\x7f" else c for c in escaped) + '"'


def table(kind: str, fields: Sequence[tuple[str, object]]) -> str:
    """A table of an array of tables, by the texts of its values."""
    return "\n".join([f"[[{kind}]]"] + [f"{key} = {value}" for key, value in fields]) + "\n"


def row_text(path: str, row: Row) -> str:
    """The table of a row; its path is text."""
    comment = "; ".join(filter(None, (row.special, "" if row.link is None else f"link {row.link}".strip())))
    fields: list[tuple[str, object]] = [("path", quoted(path)), ("kind", quoted(row.kind) + (f"  # {comment}" if comment else ""))]
    gives = row.gives
    if gives.setuid is not None:
        fields.append(("setuid", gives.setuid))
    if gives.setgid is not None:
        fields.append(("setgid", gives.setgid))
    if gives.caps:
        fields.append(("caps", "[" + ", ".join(quoted(name) for name in gives.caps) + "]"))
    if gives.effective:
        fields.append(("effective", "true"))
    return table("row", fields)


def user_text(user: User) -> str:
    """The table of a user."""
    fields: list[tuple[str, object]] = [("name", quoted(user.name)), ("uid", user.uid), ("gid", user.gid)]
    if user.groups:
        fields.append(("groups", list(user.groups)))
    return table("user", fields)


def group_text(group: Group) -> str:
    """The table of a group."""
    return table("group", [("name", quoted(group.name)), ("gid", group.gid)])


def site_text(
    heads: Sequence[str], values: Mapping[str, object], rows: Mapping[bytes, Row], users: Sequence[User], groups: Sequence[Group]
) -> bytes:
    """The whole text, with first lines that say where it comes from, and the texts of its values by their keys, without those that are None. Rows stand in
    byte order of their paths."""
    top = "".join(f"{key} = {value}\n" for key, value in values.items() if value is not None)
    tables = ["".join(f"# {line}\n" for line in heads) + top]
    tables += [row_text(path.decode("utf-8"), row) for path, row in sorted(rows.items())]
    tables += [user_text(user) for user in users]
    tables += [group_text(group) for group in groups]
    return "\n".join(tables).encode("utf-8")
