"""Tests why answers are open, by harm, what is tried, and which partings bear on a report."""
import os
import shutil
import sys
import tempfile
import unittest
from pathlib import Path
from unittest import mock

TOP = Path(__file__).resolve().parents[3]
sys.path.insert(0, str(TOP / "tools"))

from lentsheep import harm, tries
from lentsheep.brief import View, brief
from lentsheep.causes import causes
from lentsheep.parting_sides import bears_on
from lentsheep.partings import Direction, Parting
from lentsheep.program import Program
from lentsheep.report import parse
from lentsheep.screen import Page
from lentsheep.table import Table
from lentsheep.terminal import Paint
from lentsheep.unit_text import Said, UnitFile, files_in_force
from lentsheep.values import Question

CAPABILITIES = {"init_module": "CAP_SYS_MODULE", "reboot": "CAP_SYS_BOOT", "swapon": "CAP_SYS_ADMIN", "settimeofday": "CAP_SYS_TIME", "AF_PHONET": "CAP_SYS_ADMIN"}
REPORT = """\
unit web.service
launched uid 0 gid 0 nnp no steps 9
open write /etc/shadow
  1 mount / /proc 0 0 0 4096
  1 open /proc/etc/shadow 0 1
open call init_module
  1 init_module
open call reboot
  1 reboot
open call settimeofday
  1 settimeofday
open call swapon
  1 swapon
open socket AF_PHONET
  1 socket 35
open ns net
  1 unshare 1073741824
denied map-wx
open uid 1
  1 setuid 1
open uid 2
  1 setuid 2
open uid 3
  1 setuid 3
open gid 1
  1 setgid 1
summary denied 1 open 11
"""
BUILT = os.environ.get("LENTSHEEP_PROGRAM") or str(TOP / "crates/sandbox_cli/out/sandbox_cli")


def screen(view):
    """The screen of a view, of 100 columns."""
    return "\n".join(brief(view, Page(100, Paint(False)))) + "\n"


class Harm(unittest.TestCase):
    """Causes by what they give."""

    def test_order(self):
        report = parse(REPORT, "judge")
        found = harm.groups(causes(report, Table({}, CAPABILITIES, {35: "AF_PHONET"})))
        # three uids are no more than one: what changes the kernel comes first
        self.assertEqual(["kernel", "mounts", "disks", "privileges", "machine", "ids", "ids"], [group.gives for group in found])
        self.assertEqual([2, 1, 1, 1, 2, 3, 1], [group.count for group in found])
        # one capability gives disks by one call, and no disk by a family of sockets
        self.assertEqual(["call swapon", "socket AF_PHONET"], [found[2].answers[0].question.text, found[4].answers[0].question.text])
        self.assertEqual("it can change the kernel or start another (CAP_SYS_BOOT and CAP_SYS_MODULE are held)", found[0].told)

    def test_screen(self):
        report = parse(REPORT, "judge")
        text = screen(View(report, table=Table({}, CAPABILITIES, {35: "AF_PHONET"})))
        for line in [
            "why open    2 answers, since it can change the kernel or start another (CAP_SYS_BOOT and",
            "              closed by CapabilityBoundingSet=~CAP_SYS_BOOT CAP_SYS_MODULE or",
            "            1 answer, since it can change mounts (CAP_SYS_ADMIN is held)",
            # two of the machine, and of uids and of gids one each
            "            and 3 further causes, of 4 answers",
        ]:
            self.assertIn(line, text.splitlines())

    def test_what_was_tried(self):
        report = parse(REPORT, "judge")
        (kernel, *_) = harm.groups(causes(report, Table({}, CAPABILITIES, {35: "AF_PHONET"})))
        bounding, calls = "CapabilityBoundingSet=~CAP_SYS_BOOT CAP_SYS_MODULE", "SystemCallFilter=~@module @raw-io @reboot"
        both = frozenset({"call init_module", "call reboot"})
        for tried, wanted in [
            ({bounding: both, calls: both}, [bounding, calls]), ({bounding: both | {"cap CAP_SYS_BOOT"}, calls: frozenset({"call reboot"})}, [bounding]),
            ({bounding: frozenset(), calls: frozenset()}, []), ({}, []),
        ]:  # fmt: skip
            self.assertEqual(wanted, harm.closing(kernel, report, tried))
        self.assertNotIn("closed by", screen(View(report, table=Table({}, CAPABILITIES, {35: "AF_PHONET"}), tried={})))

    def test_a_unit_without_a_sandbox(self):
        report = parse(REPORT, "judge")
        tried = {"CapabilityBoundingSet=": frozenset("abc"), "PrivateDevices=yes": frozenset("a"), "ProtectHome=yes": frozenset(),
                 "RestrictNamespaces=yes": frozenset("ab"), "SystemCallFilter=@system-service": frozenset("abcd")}  # fmt: skip
        text = screen(View(report, tried=tried, has_sandbox=False))
        self.assertIn("why open    the unit sets no key of a sandbox; close most: SystemCallFilter=@system-service (4),\n", text)
        self.assertIn("            CapabilityBoundingSet= (3), RestrictNamespaces=yes (2)\n", text)
        for lines, wanted in [("User=web\nRestart=no", False), ("PrivateTmp=yes", True), ("CapabilityBoundingSet=", True)]:
            self.assertEqual(wanted, harm.has_sandbox(Said([UnitFile("a", f"[Service]\n{lines}\n")])), lines)


class Partings(unittest.TestCase):
    """Partings that bear on a report."""

    def test_sides(self):
        report = parse("open write /home/a\n  1 open /home/a 0 1\ndenied write /etc/a\ndenied ns net\nopen ns user\n  1 unshare 268435456\n", "judge")
        here, there, touched = Direction.DENIED_HERE, Direction.OPEN_HERE, (Question("write", "/etc/a"),)
        for name, direction, answers, blind, wanted in [
            # which answers they touch is known, and where none is, no answer is on their side
            ("strict-homes", here, (), (), False), ("strict-homes", here, touched, (), True), ("outside-roots", here, (), ("/srv",), True),
            ("clone3", there, (), (), False),
            # what other processes may do is no question
            ("further-commands", here, (), (), True), ("privileged-commands", here, (), (), True),
            # of no capability and no id is anything open, and of files something is
            ("nnp-from-more", there, None, (), False), ("file-modes", there, None, (), True),
            ("one-of-tomorrow", here, None, (), True), ("one-of-tomorrow", there, None, (), True), ("links", Direction.EITHER, (), (), True),
        ]:  # fmt: skip
            self.assertEqual(wanted, bears_on(Parting(name, (), direction, "", "", answers, blind), report), name)
        self.assertFalse(bears_on(Parting("one-of-tomorrow", (), there, "", ""), parse("denied ns net\n", "judge")))

    def test_none_is_cut(self):
        names = [f"a-parting-with-a-long-name-{number}" for number in range(20)]
        report = parse("unit a\nlaunched uid 1 gid 1 nnp yes steps 1\ndenied map-wx\nsummary denied 1 open 0\n", "judge")
        text = screen(View(report, partings=[Parting(name, (), Direction.DENIED_HERE, "", "") for name in names]))
        self.assertEqual([], [name for name in names if name not in text])


@unittest.skipUnless(os.access(BUILT, os.X_OK), "the program was not built, and LENTSHEEP_PROGRAM names none")
class Tries(unittest.TestCase):
    """What lines close, by the program."""

    def test_tried_and_kept(self):
        place = tempfile.mkdtemp()
        self.addCleanup(shutil.rmtree, place)
        shutil.copytree(TOP / "examples/hardened", f"{place}/web")
        program, files = Program(f"{place}/web"), files_in_force(f"{place}/web", "web.service")
        with mock.patch.dict(os.environ, {"LENTSHEEP_PROGRAM": os.path.abspath(BUILT), "XDG_CACHE_HOME": f"{place}/cache"}):
            # the two answers of /home and below are closed; PrivateTmp= is set already; with the last line the unit is refused
            lines = ["ProtectHome=yes", "PrivateTmp=yes", "ReadWritePaths=/gone"]
            wanted = {"ProtectHome=yes": frozenset({"see /home", "read /home"}), "PrivateTmp=yes": frozenset(), "ReadWritePaths=/gone": frozenset()}
            self.assertEqual(wanted, tries.tried(program, "web.service", files, lines))
            with mock.patch.object(Program, "run_many", side_effect=AssertionError("this is kept")):
                self.assertEqual(wanted, tries.tried(program, "web.service", files, lines))
            # a line that opens something closes nothing
            self.assertEqual({"PrivateTmp=no": frozenset()}, tries.tried(program, "web.service", files, ["PrivateTmp=no"]))


if __name__ == "__main__":
    unittest.main()
