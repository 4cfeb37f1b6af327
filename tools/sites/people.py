"""The users and groups of etc/passwd and etc/group (passwd(5), group(5)). No name service is asked."""
from __future__ import annotations

from typing import Container, Iterator, NamedTuple, Optional, Sequence, TypeVar

from sites.told import Told

# The largest id; the next one stands for no id in chown(2) and setresuid(2).
LARGEST = 4294967294
# How many users, and how many groups, a site may have.
LIMIT = 512
# The ids that systemd gives to DynamicUser= (systemd.exec(5)).
DYNAMIC = range(61184, 65520)


class User(NamedTuple):
    """A line of passwd, with the groups of group that have the user as a member."""

    name: str
    uid: int
    gid: int
    groups: tuple[int, ...]


class Group(NamedTuple):
    """A line of group."""

    name: str
    gid: int
    members: tuple[bytes, ...]


P = TypeVar("P", User, Group)


def read_id(field: bytes) -> Optional[int]:
    """The number of an id; None where it is none."""
    return int(field) if field.isdigit() and int(field) <= LARGEST else None


def lines_of(text: bytes, fields: int, ids: Sequence[int], file: str, told: Told) -> Iterator[tuple[str, list[bytes]]]:
    """The fields of the lines that have a name of their own and ids: the name as text, and the rest as bytes."""
    names: set[str] = set()
    for line in text.split(b"\n"):
        if not line.strip() or line.startswith((b"#", b"+", b"-")):
            continue
        found = line.split(b":")
        try:
            name = found[0].decode("utf-8")
        except UnicodeDecodeError:
            told.add(f"left out, names of {file} that are not UTF-8", found[0])
            continue
        if len(found) != fields or not name or any(read_id(found[at]) is None for at in ids):
            told.add(f"left out, lines of {file} without a name, or with an invalid id", line)
        elif name in names:
            told.add(f"left out, names of {file} that an earlier line has", found[0])
        else:
            names.add(name)
            yield name, found


def read_groups(text: bytes, told: Told) -> list[Group]:
    """The groups of the text of a group file, in its order."""
    return [
        Group(name, read_id(found[2]), tuple(found[3].split(b",")))
        for name, found in lines_of(text, 4, [2], "etc/group", told)
    ]


def read_users(text: bytes, groups: Sequence[Group], told: Told) -> list[User]:
    """The users of the text of a passwd file, in its order."""
    extra: dict[bytes, set[int]] = {}
    for group in groups:
        for member in group.members:
            extra.setdefault(member, set()).add(group.gid)
    return [
        User(name, read_id(found[2]), read_id(found[3]), tuple(sorted(extra.get(found[0], set()) - {read_id(found[3])})))
        for name, found in lines_of(text, 7, [2, 3], "etc/passwd", told)
    ]


def at_most(people: Sequence[P], wanted: Container[str], file: str, told: Told) -> list[P]:
    """At most as many as a site may have, in their order: those that units name first, and then the first of the file."""
    first = [it for it in people if it.name in wanted] + [it for it in people if it.name not in wanted]
    kept = {it.name for it in first[:LIMIT]}
    for it in first[LIMIT:]:
        told.add(f"left out, more than {LIMIT} names of {file}", it.name.encode())
    return [it for it in people if it.name in kept]


def dynamic_uid(users: Sequence[User], groups: Sequence[Group]) -> int:
    """The first id of systemd's range that no user and no group has; the first of all where each has an owner."""
    taken = {user.uid for user in users} | {group.gid for group in groups}
    return next((uid for uid in DYNAMIC if uid not in taken), DYNAMIC[0])
