"""The site of a root: which rows it has, in the order in which they are chosen, and which users and groups."""
from __future__ import annotations

import stat
from typing import Mapping, Optional, Sequence

from sites import kept, machine, people, places, toml, units
from sites.locations import Search
from sites.root import Root, folded
from sites.rows import Row, Rows, fault_of, parents_of, with_devices
from sites.says import Says, said
from sites.spaces import lacks_rings, user_namespaces
from sites.told import Told
from sites.walk import Found, leads_to_folder, walk


class Fault(Exception):
    """Why there is no site."""


def is_below(path: bytes, folder: bytes) -> bool:
    """Whether the path stands below the folder."""
    return path.startswith(folder + b"/")


def add_running(rows: Rows, running: Mapping[str, str]) -> None:
    """Takes rows for what a running system has, where this one does not run: nothing stands in its /proc."""
    if rows.root.names(b"/proc"):
        return
    for path, kind in [(path.encode(), kind) for kind, paths in running.items() for path in paths.split()]:
        if not rows.root.stands(path):
            rows.told.add("rows of every running system, since this /proc is empty", path)
        rows.add(path, made=kind)


def tell_links(rows: Rows, path: bytes) -> None:
    """Tells a path of a unit that leads elsewhere, since the program takes the two for different files."""
    path = folded(path)
    if path is None or not rows.root.stands(path):
        return
    target = rows.root.real(path)
    if target != path:
        rows.told.add("paths of the units that lead through links, and are judged apart from their targets", path)


def add_said(rows: Rows, says: Says) -> None:
    """Takes the rows of what a unit says."""
    for path in says.programs:
        if path.startswith(b"/"):
            rows.add(path, wanted=True)
    for path in says.paths:
        rows.add(path, wanted=True)
    for path in says.optional + says.emptied:
        rows.add(path)
    for path in says.folders:
        rows.add(path, made="dir")
    for path in says.paths + says.optional + says.emptied:
        tell_links(rows, path)


def walks(root: Root, also: list[bytes], told: Told, keep: str = "") -> list[Found]:
    """The walks over the file systems of the root, of /usr, and of the folders that are to be walked as well.

    Those of a root without further folders are kept in the file `keep`, and taken from it as long as no package was installed.
    """
    found = kept.fresh_walks(keep, root) if keep and not also else None
    if found is None:
        of_the_walk = Told()
        found = new_walks(root, also, of_the_walk), of_the_walk.kinds
        if keep and not also:
            kept.keep_walks(keep, root, *found)
    told.take(found[1])
    starts = {it.folders[0][0] for it in found[0]}
    for path in [path for it in found[0] for path in it.elsewhere if path not in starts]:
        told.add("not walked, folders of other file systems (--also walks one)", path)
    return found[0]


def new_walks(root: Root, also: list[bytes], told: Told) -> list[Found]:
    """The walks as they are made."""
    seen: set[tuple[int, int]] = set()
    found = []
    for start in [b"/", b"/usr"] + also:
        try:
            start = root.real(start)
            status = root.status(start)
        except OSError:
            continue
        if stat.S_ISDIR(status.st_mode) and (status.st_dev, status.st_ino) not in seen:
            seen.add((status.st_dev, status.st_ino))
            found.append(walk(root, start, told, seen))
    return found


def add_sockets(rows: Rows, found: Sequence[Found]) -> None:
    """Takes the rows of the sockets below /run, which may be a file system of its own."""
    sockets = {path for it in found for path in it.sockets if is_below(path, b"/run")}
    if any(b"/run" in it.elsewhere for it in found):
        sockets.update(walk(rows.root, b"/run", rows.told, set()).sockets)
    for path in sorted(sockets):
        rows.add(path)


def parted_folders(says: Says) -> list[bytes]:
    """The folders of whose children some may be shown and others not: places of empty file systems, and below such a place
    the folders above what the unit names."""
    emptied = list(filter(None, map(folded, says.emptied)))
    named = list(filter(None, map(folded, says.paths + says.optional + says.folders)))
    above = [folder for path in named for folder in parents_of(path)]
    return emptied + [folder for folder in above if any(is_below(folder, top) for top in emptied)]


def add_parted(rows: Rows, says: Says) -> None:
    """Takes the rows of the folders beside what an empty file system shows."""
    for folder in sorted(set(parted_folders(says))):
        for path in [folder.rstrip(b"/") + b"/" + name for name in rows.root.names(folder)]:
            if leads_to_folder(rows.root, path):
                rows.add(path)


def add_telling(rows: Rows, found: Sequence[Found]) -> None:
    """Takes the rows of the folders that hold more than folders and plain files, and of the folders of `/` itself."""
    of_the_root = found[0]
    taken = {path for level in of_the_root.folders[1:2] for path in level}
    taken.update(of_the_root.links[0])
    taken.update(path for it in found for path in it.telling)
    links = set(of_the_root.links[0])
    for path in sorted(taken):
        add_folder(rows, path, path in links)


def add_folders(rows: Rows, found: Sequence[Found], full: bool) -> None:
    """Takes the rows of folders level by level, and of links to folders, until there is no room; counts them where the
    site is not to be full."""
    levels = max(len(it.folders) for it in found)
    for level in range(levels):
        here = [it for it in found if level < len(it.folders)]
        folders = {path for it in here for path in it.folders[level]}
        links = {path for it in here for path in it.links[level]} if not rows.is_full() else set()
        for path in sorted(folders | links):
            if any(is_below(path, passing) for passing in places.PASSING):
                continue
            add_folder(rows, path, path in links) if full else rows.leave_filler(path)


def add_folder(rows: Rows, path: bytes, is_link: bool) -> None:
    """Takes the row of a folder of the walk, or of a link to one."""
    fault = fault_of(path)
    if fault:
        rows.told.add(fault, path)
    else:
        rows.put(path, rows.folder_row(path) if is_link else Row("dir"))


def add_rows(rows: Rows, all_said: Sequence[Says], also: list[bytes], full: bool, keep: str, has_key: bool = False) -> None:
    """Takes all rows, the most telling first."""
    rows.put(b"/", Row("dir"))
    rows.put(b"/proc", Row("dir"))
    for path in places.PROTECTED + (places.PROTECTED_BY_KEY if has_key else []):
        rows.add(path.encode())
    add_running(rows, places.RUNNING)
    if has_key:
        add_running(rows, places.RUNNING_BY_KEY)
    for says in all_said:
        add_said(rows, says)
    for path in also:
        rows.add(path, wanted=True)
    found = walks(rows.root, also, rows.told, keep)
    for path in sorted(path for it in found for path in it.privileged):
        rows.add(path)
    for pattern in places.SENSITIVE:
        rows.add_pattern(pattern.encode())
    add_sockets(rows, found)
    if not full:
        for says in all_said:
            add_parted(rows, says)
        add_telling(rows, found)
    add_folders(rows, found, full)


def read_people(root: Root, says: Sequence[Says], told: Told) -> tuple[list[people.User], list[people.Group]]:
    """The users and groups, at most as many as a site has."""
    try:
        passwd = root.read(b"/etc/passwd")
    except OSError as error:
        raise Fault(f"{root.folder.decode(errors='replace')} has no readable etc/passwd ({error.strerror})")
    try:
        group = root.read(b"/etc/group")
    except OSError as error:
        told.add(f"without groups, since the file is not readable ({error.strerror})", b"/etc/group")
        group = b""
    groups = people.read_groups(group, told)
    users = people.read_users(passwd, groups, told)
    wanted_users = {name for it in says for name in it.users}
    wanted_groups = {name for it in says for name in it.groups}
    users = people.at_most(users, wanted_users, "etc/passwd", told)
    return users, people.at_most(groups, wanted_groups, "etc/group", told)


def all_said(unit_root: Root, names: Sequence[str], told: Told, dropin: Optional[str] = None, has_key: bool = False) -> list[Says]:
    """What each of the units says, with the text of a further drop-in; a name of no unit is told."""
    found, search = [], Search(unit_root)
    for text in names:
        name = units.read_name(text)
        if name is None or search.fragment(name) is None:
            told.add("units that do not exist", text.encode("utf-8", "surrogateescape"))
        else:
            found.append(said(unit_root, name, search.sources(name)[0], told, dropin, has_key))
    return found


def tell_owner(root: Root, told: Told) -> None:
    """Tells a root that another user unpacked, who then owns its set-user-ID programs."""
    if root.status(b"/").st_uid != 0:
        told.add("not owned by root, so set-user-ID bits may mean other uids once it runs", b"/")


def make_site(
    head: Sequence[str], root: Root, unit_root: Root, names: Sequence[str], also: list[bytes], full: bool, told: Told,
    keep: str = "", dropin: Optional[str] = None,
) -> bytes:
    """The bytes of site.toml, which begin with these lines, what it has, what it leaves out, and what of the root is otherwise.

    The walks are kept in the file `keep`, and `dropin` is the text of a drop-in that applies to each unit besides its own.
    """
    profile = machine.profile(root, told)
    has_key = profile is not None
    says = all_said(unit_root, names, told, dropin, has_key)
    users, groups = read_people(root, says, told)
    rows = Rows(root, told, names)
    tell_owner(root, told)
    add_rows(rows, says, also, full, keep, has_key)
    values = {
        "systemd": profile, "dynamic_uid": people.dynamic_uid(users, groups), "user_namespaces": user_namespaces(root, told),
        "io_uring": "false" if has_key and lacks_rings(root) else None,
    }  # fmt: skip
    made = with_devices(rows.rows) if has_key else rows.rows
    counts = f"{len(rows.rows)} rows, {len(users)} users, {len(groups)} groups"
    text = toml.site_text([*head, *machine.kernel_heads(root), counts, *told.lines()], values, made, users, groups)
    if len(text) > toml.LONGEST:
        raise Fault(f"the site has {len(text)} bytes, but the program reads at most {toml.LONGEST}")
    return text
