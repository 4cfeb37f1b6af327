"""Tests what the screen leads with: what is open by a ring, and what closes it."""
import os
import sys
import tempfile
import unittest
from pathlib import Path
from unittest import mock

TOP = Path(__file__).resolve().parents[3]
sys.path.insert(0, str(TOP / "tools"))

from lentsheep import open_by
from lentsheep.brief import View, brief
from lentsheep.causes import State, causes, state_of
from lentsheep.gather import view_of
from lentsheep.program import Program
from lentsheep.report import parse
from lentsheep.screen import Page
from lentsheep.table import Table
from lentsheep.terminal import Paint
from test_profile import table_of

BUILT = os.environ.get("LENTSHEEP_PROGRAM") or str(TOP / "crates/sandbox_cli/out/sandbox_cli")
TABLE = Table(
    {"@aio": frozenset("io_setup io_uring_setup io_uring_enter".split()), "@io": frozenset({"io_uring_setup"}),
     "@system-service": frozenset("io_setup io_uring_setup io_uring_enter open read".split())},
    {"AF_PACKET": "CAP_NET_RAW"}, {1: "AF_UNIX", 16: "AF_NETLINK", 17: "AF_PACKET"},
)  # fmt: skip
REPORT = """\
unit web.service
launched uid 0 gid 0 nnp yes steps 9
open see /etc
  1 stat /etc
open read /etc/passwd
  1 io_uring_setup
  1 io_uring_enter open /etc/passwd 0
open read /etc/shadow
  1 io_uring_setup
  1 io_uring_enter open /etc/shadow 0
denied write /etc/passwd
open socket AF_UNIX
  1 socket 1
open socket AF_NETLINK
  1 io_uring_setup
  1 io_uring_enter socket 16
open socket AF_PACKET
  1 io_uring_setup
  1 io_uring_enter socket 17
open suid-bit
  1 io_uring_setup
  1 io_uring_enter mode 2048
summary denied 1 open 7
"""
AIO, SETUP = "SystemCallFilter=~@aio", "SystemCallFilter=~io_uring_setup"
FILES, SOCKETS = {"read /etc/passwd", "read /etc/shadow"}, {"socket AF_NETLINK", "socket AF_PACKET"}


def leads(report, tried):
    """The lines of the screen before the root causes, without the head."""
    lines = brief(View(report, table=TABLE, tried=tried), Page(100, Paint(False)))
    return lines[3 : next(at for at, line in enumerate(lines) if line.startswith("why open"))]


class Ways(unittest.TestCase):
    """What is open by a ring."""

    def test_kinds(self):
        found = open_by.ways(parse(REPORT, "judge"))
        self.assertEqual(["read of 2 paths", "2 sockets", "suid-bit"], [way.told for way in found])
        self.assertEqual([[AIO, SETUP]] * 3, [open_by.candidates(way, TABLE) for way in found])
        # of a table without groups the call alone
        self.assertEqual([SETUP], open_by.candidates(found[0], Table()))

    def test_what_was_tried(self):
        report = parse(REPORT, "judge")
        for tried, wanted in [
            ({AIO: frozenset(FILES | SOCKETS | {"suid-bit"}), SETUP: frozenset()},
             ["open by     io_uring: read of 2 paths, 2 sockets, suid-bit; closed by SystemCallFilter=~@aio", ""]),
            # what else opens one is closed by no such line
            ({AIO: frozenset(FILES | SOCKETS), SETUP: frozenset(FILES | SOCKETS)},
             ["open by     io_uring: read of 2 paths, 2 sockets; closed by SystemCallFilter=~@aio or",
              "            SystemCallFilter=~io_uring_setup", "            io_uring: suid-bit", ""]),
            ({AIO: frozenset(FILES), SETUP: frozenset({"socket AF_NETLINK"})},
             ["open by     io_uring: read of 2 paths; closed by SystemCallFilter=~@aio", "            io_uring: 2 sockets, suid-bit", ""]),
            ({}, ["open by     io_uring: read of 2 paths, 2 sockets, suid-bit", ""]),
            (None, ["open by     io_uring: read of 2 paths, 2 sockets, suid-bit", ""]),
        ]:  # fmt: skip
            self.assertEqual(wanted, leads(report, tried))

    def test_without_a_ring(self):
        # by the base profile the two calls are plain ones
        report = parse(
            "unit a\nlaunched uid 1 gid 1 nnp yes steps 1\nopen call io_uring_setup\n  1 io_uring_setup\nopen call io_uring_enter\n"
            "  1 io_uring_enter\nsummary denied 0 open 2\n", "judge",
        )  # fmt: skip
        self.assertEqual(([], []), (open_by.ways(report), leads(report, {})))

    def test_states_and_causes(self):
        report = parse(REPORT, "judge")
        self.assertEqual(5, sum(state_of(answer) == State.STEPS for answer in report.answers))
        # a ring asks for no privilege, and a socket that needs one for that
        (cause,) = causes(report, TABLE)
        self.assertEqual(("CAP_NET_RAW", ["socket AF_PACKET"]), (cause.need.by, [it.question.text for it in cause.answers]))
        few = parse("unit a\nlaunched uid 1 gid 1 nnp yes steps 1\nopen suid-bit\n  1 io_uring_setup\n  1 io_uring_enter mode 2048\n", "judge")
        text = "\n".join(brief(View(few, table=TABLE), Page(100, Paint(False))))
        self.assertIn("why open    each other open answer needs one call and no privilege, or nothing", text)


SITE = """\
systemd = 257
dynamic_uid = 61184
row = [ { path = "/etc", kind = "dir" }, { path = "/etc/x", kind = "file" }, { path = "/usr", kind = "dir" }, { path = "/usr/web", kind = "exe" } ]
user = [ { name = "web", uid = 33, gid = 33 } ]
group = [ { name = "web", gid = 33 } ]
"""


@unittest.skipUnless(os.access(BUILT, os.X_OK), "the program was not built, and LENTSHEEP_PROGRAM names none")
class Runs(unittest.TestCase):
    """What the program says of units."""

    def led(self, site, *lines):
        """What the screen of a unit with these lines leads with."""
        with tempfile.TemporaryDirectory() as folder, mock.patch.dict(os.environ, {"LENTSHEEP_PROGRAM": os.path.abspath(BUILT), "XDG_CACHE_HOME": folder}):
            unit = Path(folder, "etc/systemd/system/web.service")
            unit.parent.mkdir(parents=True)
            unit.write_text("\n".join(["[Service]", "ExecStart=/usr/web", "User=web", "NoNewPrivileges=yes", *lines, ""]))
            Path(folder, "site.toml").write_text(site)
            Path(folder, "calls.txt").write_text(table_of(257))
            program = Program(folder)
            view = view_of(program, program.run("judge", "web.service"), 4)
        shown = brief(view, Page(100, Paint(False)))
        return [line for line in shown[3 : next(at for at, line in enumerate(shown) if line.startswith("why open"))] if line]

    def test_lines_that_close_it(self):
        both = "closed by SystemCallFilter=~@aio or"
        # 45 families less AF_INET, AF_UNIX, of which socketpair(2) makes pairs, and five that ask for a capability
        self.assertEqual(
            [f"open by     io_uring: 38 sockets; {both}", "            SystemCallFilter=~io_uring_setup"],
            self.led(SITE, "RestrictAddressFamilies=AF_INET"),
        )
        # creat(2) with a set-id bit is left
        modes = "SystemCallFilter=~chmod fchmod fchmodat fchmodat2 mkdir mkdirat mknod mknodat open openat"
        self.assertEqual(["open by     io_uring: suid-bit"], self.led(SITE, modes))
        self.assertEqual([], self.led(SITE, modes, "SystemCallFilter=~@aio"))

    def test_sites_without_rings(self):
        for site in (SITE.replace("systemd = 257\n", ""), SITE.replace("row =", "io_uring = false\nrow =")):
            self.assertEqual([], self.led(site, "RestrictAddressFamilies=AF_INET"))


if __name__ == "__main__":
    unittest.main()
