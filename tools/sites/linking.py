"""Links the files of a service unit of a root folder into another folder, where the program reads them.

It links the files that systemd reads: the fragment of the unit or of its template, and one drop-in for each file name. systemd looks
in etc/systemd/system, run/systemd/system, usr/local/lib/systemd/system, usr/lib/systemd/system and the folders of systemctl and of
generators. It reads the drop-ins of the unit's other names (Alias=) too. What the program would not find at its own path is linked in
etc/systemd/system, a drop-in in the folder UNIT.d there.

Links of the root are followed within it, so an absolute link in a container's tree leads to the container's file. A link to /dev/null
stays one. A unit that does not exist has no files, which is no fault. Nothing in the root is written.

If several drop-ins have one file name, a message on standard error says which one applies. Another message lists each drop-in that is
linked at another path. If no unit has the name, a message names the unit that may be meant, or says why another kind of unit is not
judged.

The name of the files is printed. If the unit's file leads to the file of another unit, the name is another name of that unit.
Then the files of that unit are linked instead, with a message on standard error. With --all the files of the services are linked
that are enabled or were started; with --all and the UNIT all, the files of all services. Each is linked by its own name, and the names
are printed.
"""
from __future__ import annotations

import os
import sys
from typing import TYPE_CHECKING, Iterator, Mapping, Sequence

from sites import units
from sites.enabled import enabled
from sites.locations import DropIn, Search, is_read
from sites.placing import FIRST, Places, place_of, places_of, places_of_all
from sites.root import Root
from sites.told import shown

if TYPE_CHECKING:
    import argparse

STATUSES = """
The exit status is 0 if all files were linked, 1 if a file or folder of the unit could not be read, and 2 for a usage error.
"""


def words(line: Sequence[str]) -> argparse.Namespace:
    """The words of a command line."""
    import argparse

    what, _, how = __doc__.partition("\n\n")
    parser = argparse.ArgumentParser(
        prog="link-unit", description=what, epilog=how + STATUSES, formatter_class=argparse.RawDescriptionHelpFormatter
    )
    parser.add_argument("--root", metavar="DIR", default="/", help="the root folder (default: /)")
    parser.add_argument("--as-named", action="store_true", help="use this name even if it is another name of a unit")
    parser.add_argument("--notes", action="store_true", help="print lines of the files that systemd ignores")
    parser.add_argument("--file", metavar="FILE", default="", help="the unit's own file, which --as-named uses instead of the root's")
    parser.add_argument("--all", action="store_true", help="link the files of services, in place of one")
    parser.add_argument("unit", metavar="UNIT", nargs="?", default="", help="the name of the unit, such as ssh.service")
    parser.add_argument("folder", metavar="FOLDER", help="the folder for the links")
    return parser.parse_args(line)


def link(root: Root, place: bytes, path: bytes, folder: bytes) -> None:
    """Links a file of the root at a place below a folder, unless a link is there; to /dev/null what is one, and a drop-in that says
    nothing."""
    if os.path.lexists(folder + place):
        return
    found = units.standing(root, path)
    is_file = found is not None and not units.is_mask(root, found) and is_read(root, path)
    target = root.outside(root.real(found)) if found and is_file else b"/dev/null"
    os.makedirs(os.path.dirname(folder + place), exist_ok=True)
    os.symlink(target, folder + place)


def link_places(root: Root, places: Places, folder: bytes) -> None:
    """Links all files."""
    for place, path in places.items():
        link(root, place, path, folder)


def own_text(search: Search, text: str) -> str:
    """The own name of a unit by its text; that of a unit that is no service as it is."""
    name = units.read_name(text)
    return search.own_name(name).text if name else text


def link_all(root: Root, folder: bytes, of_all: bool) -> tuple[list[str], int]:
    """Links the files of the services of the root, each by its own name, and gives these names in byte order, with how many of
    all there are left out: those that are not enabled and were not started, but with `of_all`. Instances that are enabled count.
    """
    search = Search(root)
    there = {shown(file) for entries in search.entries.values() for file in entries if file.endswith(b".service")}
    names = {own_text(search, text) for text in there if units.read_name(text)}
    wanted = enabled(search, lambda text: own_text(search, text))
    instances = {text for text in wanted if "@" in text and (name := units.read_name(text)) and search.fragment(name)}
    taken = sorted(names | instances if of_all else (names & wanted) | instances)
    judged = list(filter(None, map(units.read_name, taken)))
    places = places_of_all(search, judged)
    for name in judged:
        # an instance has the file of its template
        found = search.fragment(name) if name.text not in there else None
        if found:
            places[FIRST + b"/" + name.text.encode()] = found
    link_places(root, places, folder)
    return taken, len(names - set(taken))


def names_of_units(root: Root) -> list[str]:
    """The names of all units of the root, of whatever kind."""
    files = {file for entries in Search(root).entries.values() for file in entries}
    return sorted(shown(file) for file in files if not file.endswith((b".d", b".wants", b".requires", b".upholds")))


def meant(root: Root, name: units.UnitName) -> str:
    """The unit that may be meant by a name of none: the nearest one, or the template that it could be an instance of."""
    from lentsheep.nearest import nearest

    known = {it.removesuffix(".service").lower(): it for it in names_of_units(root) if it.endswith(".service")}
    stem = name.text.removesuffix(".service").lower()
    near = list(filter(None, [nearest(stem, known)]))
    if not near and len(stem) > 2:
        near = [it for it in known if it.endswith((f"-{stem}", f"{stem}@")) or it.startswith(f"{stem}-")][:1]
    if not near:
        return ""
    found = known[near[0]]
    if found.endswith("@.service"):
        return f"an instance of {found}, as {found.removesuffix('.service')}NAME.service,"
    return found


def tell_missing(root: Root, folder: str, name: units.UnitName) -> None:
    """Tells that there is no unit of a name."""
    may = meant(root, name)
    other = name.text.removesuffix(".service")
    kinds = [it for it in names_of_units(root) if it.rpartition(".")[0] == other and not it.endswith(".service")]
    more = f"; {may} is meant?" if may else f"; {kinds[0]} is there, and only services are judged" if kinds else ""
    tell(f"no unit {name.text} is in {folder}{more}")


def tell_notes(folder: str, name: units.UnitName, file: str) -> None:
    """Tells lines of the linked files, and of the unit's own one, that systemd passes over."""
    from lentsheep.unit_lines import passed_over
    from lentsheep.unit_text import UnitFile, files_in_force

    files = [it for it in files_in_force(folder, name.text) if not file or not it.path.endswith(f"/{name.text}")]
    if file:
        with open(file, encoding="utf-8", errors="replace") as text:
            files.insert(0, UnitFile(file, text.read()))
    for it in passed_over(files):
        tell(f"{it.place}: {it.text}")


def paths_of(paths: Sequence[bytes]) -> str:
    """Paths as they are told, as the program has them: without the slash of the root."""
    return ", ".join(shown(path[1:]) for path in paths)


def told_dropins(name: units.UnitName, dropins: Mapping[bytes, DropIn]) -> Iterator[str]:
    """A line for each drop-in that hides others of its file name, and for each that is linked at another path."""
    for it in dropins.values():
        if it.hidden:
            either = "; systemd may take another one, since it does not order a unit's other names" if it.is_either else ""
            yield f"{paths_of([it.path])} applies, and hides {paths_of(it.hidden)}{either}"
        place = place_of(name, it.path)
        if place != it.path:
            yield f"{paths_of([it.path])} is read as {paths_of([place])}"


def tell(text: str) -> None:
    """Prints a message on standard error."""
    print(f"link-unit: {text}", file=sys.stderr, flush=True)


def link_services(top: str, folder: str, of_all: bool) -> list[str]:
    """Links the files of the services of a root, those that are enabled or were started or all, and returns their names."""
    names, left = link_all(Root(top), os.fsencode(folder), of_all)
    if left:
        tell(f"{len(names)} services that are enabled or were started; --all has {left} more")
    return names


def link_unit(top: str, text: str, folder: str, as_named: bool = False, file: str = "", notes: bool = False) -> str:
    """Links the files of a unit of a root, and returns its own name; nothing where the text is no name of a service.

    With `as_named` another name of a unit stays, and `file` is the unit's own file; `notes` prints the lines that systemd ignores.
    """
    root, name = Root(top), units.read_name(text)
    if name is None:
        return ""
    search = Search(root)
    own = name if as_named else search.own_name(name)
    if own != name:
        tell(f"{name.text} is another name of {own.text}, which is judged")
    dropins = search.dropins(own)
    link_places(root, places_of(search, own, dropins), os.fsencode(folder))
    for it in told_dropins(own, dropins):
        tell(it)
    if not as_named and search.fragment(own) is None:
        tell_missing(root, top, own)
    if notes:
        tell_notes(folder, own, file)
    return own.text


def fault_of(error: OSError, text: str) -> str:
    """Returns what is told of a file or a folder of a unit that could not be read."""
    return f"{shown(os.fsencode(error.filename or text))}: {error.strerror}"


def main(line: Sequence[str]) -> int:
    """Links the files that the words of a command line ask for, prints the names, and gives the status."""
    found = words(line)
    try:
        if found.all:
            print("\n".join(link_services(found.root, found.folder, found.unit == "all")))
        else:
            name = link_unit(found.root, found.unit, found.folder, found.as_named, found.file, found.notes)
            print(name, end="\n" if name else "")
    except OSError as error:
        tell(fault_of(error, found.unit))
        return 1
    return 0
