"""Tests which drop-ins of a root `link-unit` shows the program: made roots, row by row, each as systemd 252 and 257 read it.

The rows were tried with `systemd-analyze verify` of both versions, which names the drop-ins that it reads, but for those of transient
units and generators, which it does not read.
"""
import contextlib
import io
import os
import shutil
import sys
import tempfile
import unittest
from pathlib import Path

TOP = Path(__file__).resolve().parents[3]
sys.path.insert(0, str(TOP / "tools"))

from lentsheep.unit_text import files_in_force
from sites import linking, units
from sites.locations import LOCATIONS, Search, dropin_folders
from sites.root import Root

UNIT = "[Service]\nExecStart=/usr/bin/web\n"
ETC, USR = "etc/systemd/system", "usr/lib/systemd/system"

# Of a unit: the drop-ins of one file name, the first of which is in force.
ROWS = [
    ("the earlier location of a less specific folder", "t-d-b@x", f"{ETC}/t-d-.service.d/10-a.conf", f"{USR}/t-d-b@x.service.d/10-a.conf"),
    ("a prefix of the instance in an earlier location", "t-d-b@x", f"{ETC}/t-d-@x.service.d/20-b.conf", f"{USR}/t-d-b@.service.d/20-b.conf"),
    ("service.d behind all locations", "t-d-b@x", f"{USR}/t-d-b@.service.d/30-c.conf", f"{ETC}/service.d/30-c.conf"),
    ("a prefix before that of a template", "t-d-b@x", f"{ETC}/t-d-.service.d/40-d.conf", f"{ETC}/t-d-@.service.d/40-d.conf"),
    ("a prefix before that of an instance", "t-d-b@x", f"{ETC}/t-d-.service.d/50-e.conf", f"{ETC}/t-d-@x.service.d/50-e.conf"),
    ("a short prefix before that of a template", "t-d-b@x", f"{ETC}/t-.service.d/60-f.conf", f"{ETC}/t-@.service.d/60-f.conf"),
    ("the unit's own folder", "web", f"{ETC}/web.service.d/a.conf", f"{ETC}/service.d/a.conf"),
    ("etc before usr", "web", f"{ETC}/web.service.d/a.conf", f"{USR}/web.service.d/a.conf"),
    *(
        (f"{early} before {late}", "web", f"{early}/web.service.d/a.conf", f"{late}/web.service.d/a.conf")
        for early, late in zip(*(iter([os.fsdecode(it)[1:] for it in places]) for places in (LOCATIONS, LOCATIONS[1:])))
    ),
]  # fmt: skip


class Roots(unittest.TestCase):
    """A root in a folder that is gone afterwards."""

    def setUp(self):
        place = tempfile.TemporaryDirectory()
        self.addCleanup(place.cleanup)
        self.top, self.room = f"{place.name}/root", f"{place.name}/room"
        os.makedirs(self.top)

    def write(self, *names, text="[Service]\nX=1\n"):
        """Writes files of the root."""
        for name in names:
            path = Path(self.top, name)
            path.parent.mkdir(parents=True, exist_ok=True)
            path.write_text(text)

    def link_to(self, target, name):
        """Makes a link of the root."""
        path = Path(self.top, name)
        path.parent.mkdir(parents=True, exist_ok=True)
        path.symlink_to(target)

    def linked(self, unit, **more):
        """The files that are linked for a unit, by their places, each with where it leads in the root; and what is told."""
        shutil.rmtree(self.room, ignore_errors=True)
        os.makedirs(self.room)
        with contextlib.redirect_stderr(io.StringIO()) as told:
            linking.link_unit(self.top, unit, self.room, **more)
        return self.links(), told.getvalue().splitlines()

    def links(self):
        """The links of the folder that the program reads."""
        found = [Path(folder, name) for folder, _, names in os.walk(self.room) for name in names]
        return {str(it.relative_to(self.room)): os.readlink(it).removeprefix(f"{os.path.realpath(self.top)}/") for it in found}

    def in_force(self, unit):
        """The files that the program takes of the folder, as paths of the root."""
        return [self.links()[it.path] for it in files_in_force(self.room, unit)]


class Order(Roots):
    """Drop-ins of one file name."""

    def test_folders(self):
        for text, wanted in [
            ("a-b@x.service", "a-b@x.service.d a-b@.service.d a-.service.d a-@x.service.d a-@.service.d"),
            ("a-b-c.service", "a-b-c.service.d a-b-.service.d a-.service.d"),
            ("a--.service", "a--.service.d a-.service.d"), ("-a.service", "-a.service.d"), ("a@b-c.service", "a@b-c.service.d a@.service.d"),
        ]:  # fmt: skip
            self.assertEqual(wanted.split(), [it.decode() for it in dropin_folders(units.read_name(text))], text)

    def test_rows(self):
        for what, unit, first, second in ROWS:
            with self.subTest(what):
                shutil.rmtree(self.top)
                fragment = f"{USR}/{unit.partition('@')[0]}{'@' if '@' in unit else ''}.service"
                self.write(fragment, text=UNIT)
                self.write(first, second)
                links, told = self.linked(f"{unit}.service")
                self.assertEqual(sorted([fragment, first]), sorted(links.values()))
                self.assertEqual([fragment, first], self.in_force(f"{unit}.service"))
                self.assertIn(f"link-unit: {first} applies, and hides {second}", told)

    def test_what_is_no_drop_in(self):
        self.write(f"{USR}/web.service", text=UNIT)
        self.write(f"{ETC}/web.service.d/.hid.conf", f"{ETC}/web.service.d/a.conf~", f"{ETC}/web.service.dd/a.conf", f"{ETC}/we.service.d/a.conf")
        self.assertEqual(({f"{USR}/web.service": f"{USR}/web.service"}, []), self.linked("web.service"))

    def test_an_empty_winner(self):
        self.write(f"{USR}/web.service", text=UNIT)
        for make in (
            lambda place: self.link_to("/dev/null", place), lambda place: self.write(place, text=""),
            lambda place: self.link_to("/nowhere", place), lambda place: self.write(f"{place}/file"),
        ):  # fmt: skip
            shutil.rmtree(f"{self.top}/{ETC}", ignore_errors=True)
            self.write(f"{USR}/web.service.d/a.conf")
            make(f"{ETC}/web.service.d/a.conf")
            links, _ = self.linked("web.service")
            self.assertEqual([f"{ETC}/web.service.d/a.conf", f"{USR}/web.service"], sorted(links))
            self.assertEqual([f"{USR}/web.service"], self.in_force("web.service"))

    def test_places(self):
        self.write(f"{USR}/a-b@.service", text=UNIT)
        own = f"{ETC}/a-b@x.service.d"
        for path, place in [
            (f"{USR}/a-.service.d/k.conf", f"{USR}/a-.service.d/k.conf"), ("run/systemd/system/service.d/k.conf", "run/systemd/system/service.d/k.conf"),
            (f"{ETC}/a-@x.service.d/k.conf", f"{own}/k.conf"), ("run/systemd/transient/a-b@x.service.d/k.conf", f"{own}/k.conf"),
            ("usr/local/lib/systemd/system/service.d/k.conf", f"{own}/k.conf"), ("etc/systemd/system.control/a-b@.service.d/k.conf", f"{own}/k.conf"),
        ]:  # fmt: skip
            with self.subTest(path):
                self.write(path)
                links, told = self.linked("a-b@x.service")
                self.assertEqual({f"{USR}/a-b@.service": f"{USR}/a-b@.service", place: path}, links)
                self.assertEqual([] if path == place else [f"link-unit: {path} is read as {place}"], told)
                os.remove(f"{self.top}/{path}")

    def test_order_of_file_names(self):
        self.write(f"{USR}/web.service", text=UNIT)
        paths = ["run/systemd/generator/web.service.d/10.conf", f"{USR}/service.d/20.conf", f"{ETC}/web.service.d/30.conf", "etc/systemd/system.control/web.service.d/40.conf"]
        self.write(*paths)
        self.linked("web.service")
        self.assertEqual([f"{USR}/web.service", *paths], self.in_force("web.service"))


class Fragments(Roots):
    """The unit's own file."""

    def test_locations(self):
        for early, late in zip(LOCATIONS, LOCATIONS[1:]):
            with self.subTest(early):
                shutil.rmtree(self.top)
                paths = [f"{os.fsdecode(it)[1:]}/web.service" for it in (early, late)]
                self.write(*paths, text=UNIT)
                self.linked("web.service")
                self.assertEqual(paths[:1], self.in_force("web.service"))
                self.assertEqual(1, len(self.links()))

    def test_an_instance(self):
        # its own file in the last location precedes the template's in the first
        self.write("etc/systemd/system.control/web@.service", "run/systemd/generator.late/web@1.service", text=UNIT)
        self.linked("web@1.service")
        self.assertEqual({f"{ETC}/web@1.service": "run/systemd/generator.late/web@1.service"}, self.links())
        self.linked("web@2.service")
        self.assertEqual({f"{ETC}/web@.service": "etc/systemd/system.control/web@.service"}, self.links())

    def test_a_mask(self):
        self.write("usr/local/lib/systemd/system/web.service", text=UNIT)
        self.link_to("/dev/null", "run/systemd/transient/web.service")
        self.assertEqual({f"{ETC}/web.service": "/dev/null"}, self.linked("web.service")[0])


class OtherNames(Roots):
    """Drop-ins of other names of a unit."""

    def setUp(self):
        super().setUp()
        self.write(f"{USR}/web.service", text=UNIT)
        self.link_to(f"/{USR}/web.service", f"{ETC}/alias.service")

    def test_a_drop_in(self):
        self.write(f"{USR}/alias.service.d/a.conf")
        for unit in ("web.service", "alias.service"):
            links, told = self.linked(unit)
            self.assertEqual(f"{USR}/alias.service.d/a.conf", links[f"{ETC}/web.service.d/a.conf"])
            self.assertIn(f"link-unit: {USR}/alias.service.d/a.conf is read as {ETC}/web.service.d/a.conf", told)
            self.assertEqual([f"{USR}/web.service", f"{USR}/alias.service.d/a.conf"], self.in_force("web.service"))

    def test_the_own_name_is_first(self):
        # though the other name's is in an earlier location; service.d is behind both
        self.write(f"{ETC}/alias.service.d/a.conf", f"{USR}/web.service.d/a.conf", f"{ETC}/service.d/a.conf", f"{USR}/alias.service.d/b.conf", f"{ETC}/service.d/b.conf")
        self.linked("web.service")
        self.assertEqual([f"{USR}/web.service", f"{USR}/web.service.d/a.conf", f"{USR}/alias.service.d/b.conf"], self.in_force("web.service"))

    def test_a_link_to_a_link(self):
        self.link_to("alias.service", f"{ETC}/chain.service")
        self.write(f"{ETC}/chain.service.d/a.conf")
        self.linked("web.service")
        self.assertEqual([f"{USR}/web.service", f"{ETC}/chain.service.d/a.conf"], self.in_force("web.service"))

    def test_another_unit(self):
        # a link elsewhere, and the name of a mask, are no other names
        self.write("srv/web.service", f"{USR}/other.service", text=UNIT)
        self.link_to("/srv/web.service", f"{ETC}/linked.service")
        self.link_to("/dev/null", f"{ETC}/masked.service")
        self.write(*(f"{ETC}/{it}.service.d/a.conf" for it in ("linked", "masked", "other")))
        self.assertEqual(["alias.service"], [it.text for it in Search(Root(self.top)).other_names(units.read_name("web.service"))])
        self.assertEqual({f"{USR}/web.service": f"{USR}/web.service"}, self.linked("web.service")[0])

    def test_two_other_names(self):
        self.link_to("web.service", f"{USR}/b.service")
        self.write(f"{ETC}/alias.service.d/a.conf", f"{ETC}/b.service.d/a.conf")
        told = self.linked("web.service")[1]
        end = "systemd may take another one, since it does not order a unit's other names"
        self.assertIn(f"link-unit: {ETC}/alias.service.d/a.conf applies, and hides {ETC}/b.service.d/a.conf; {end}", told)
        # that of the own name is before both
        self.write(f"{USR}/web.service.d/a.conf")
        told = self.linked("web.service")[1]
        self.assertIn(f"link-unit: {USR}/web.service.d/a.conf applies, and hides {ETC}/alias.service.d/a.conf, {ETC}/b.service.d/a.conf", told)

    def test_a_template(self):
        self.write(f"{USR}/get@.service", text=UNIT)
        self.link_to(f"/{USR}/get@.service", f"{ETC}/fetch@.service")
        self.write(f"{ETC}/fetch@x.service.d/a.conf", f"{ETC}/fetch@.service.d/b.conf", f"{ETC}/fetch@y.service.d/c.conf")
        self.linked("get@x.service")
        self.assertEqual([f"{USR}/get@.service", f"{ETC}/fetch@x.service.d/a.conf", f"{ETC}/fetch@.service.d/b.conf"], self.in_force("get@x.service"))


class Fleets(Roots):
    """Units whose files are linked in one folder."""

    def test_each_has_its_own(self):
        self.write(*(f"{USR}/{it}.service" for it in ("a-b", "a-c", "web")), text=UNIT)
        self.write(
            # of a-b the folder of both is first, since it is in etc; the program would take that of the unit
            f"{ETC}/a-.service.d/10.conf", f"{USR}/a-b.service.d/10.conf", f"{USR}/a-c.service.d/20.conf",
            f"{ETC}/service.d/20.conf", "run/systemd/generator/web.service.d/30.conf",
        )  # fmt: skip
        names = linking.link_services(self.top, self.made_room(), True)
        self.assertEqual(["a-b.service", "a-c.service", "web.service"], names)
        for unit, wanted in [
            ("a-b", [f"{ETC}/a-.service.d/10.conf", f"{ETC}/service.d/20.conf"]),
            ("a-c", [f"{ETC}/a-.service.d/10.conf", f"{USR}/a-c.service.d/20.conf"]),
            ("web", [f"{ETC}/service.d/20.conf", "run/systemd/generator/web.service.d/30.conf"]),
        ]:
            self.assertEqual([f"{USR}/{unit}.service", *wanted], self.in_force(f"{unit}.service"))

    def test_a_drop_in_that_hides_for_one(self):
        # 10.conf of service.d is the one of web alone: a-b has its own in an earlier location, a-c in its folder
        self.write(*(f"{USR}/{it}.service" for it in ("a-b", "a-c", "web")), text=UNIT)
        self.write(f"{USR}/service.d/10.conf", f"{USR}/a-.service.d/10.conf", "etc/systemd/system.control/a-@.service.d/x.conf", f"{ETC}/a-.service.d/10.conf", "run/systemd/system/a-c.service.d/10.conf")
        linking.link_services(self.top, self.made_room(), True)
        for unit, wanted in [("a-b", f"{ETC}/a-.service.d/10.conf"), ("a-c", f"{ETC}/a-.service.d/10.conf"), ("web", f"{USR}/service.d/10.conf")]:
            self.assertEqual([f"{USR}/{unit}.service", wanted], self.in_force(f"{unit}.service"))

    def test_enabled_by_a_generator(self):
        self.write(f"{USR}/web.service", f"{USR}/off.service", "run/systemd/generator/made.service", text=UNIT)
        self.link_to("../made.service", "run/systemd/generator/multi-user.target.wants/made.service")
        self.link_to(f"/{USR}/web.service", "run/systemd/generator.late/multi-user.target.wants/web.service")
        with contextlib.redirect_stderr(io.StringIO()):
            self.assertEqual(["made.service", "web.service"], linking.link_services(self.top, self.made_room(), False))
        self.assertEqual("run/systemd/generator/made.service", self.links()[f"{ETC}/made.service"])

    def made_room(self):
        """An empty folder for the links."""
        os.makedirs(self.room)
        return self.room


if __name__ == "__main__":
    unittest.main()
