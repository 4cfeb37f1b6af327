"""Tests the screen and what it is made of, over reports that are written out here."""
import io
import os
import sys
import tempfile
import unittest
from pathlib import Path
from unittest import mock

TOP = Path(__file__).resolve().parents[3]
sys.path.insert(0, str(TOP / "tools"))

from lentsheep import terminal
from lentsheep.brief import View, brief, topmost
from lentsheep.causes import causes, closed_by, held_capabilities, told
from lentsheep.notes import nearest_key, told_notes
from lentsheep.places import Exceptional, described
from lentsheep.report import parse
from lentsheep.screen import Page, braced, covered
from lentsheep.site_text import user_names, with_rows
from lentsheep.table import Table
from lentsheep.terminal import Paint
from lentsheep.unit_text import UnitFile, files_in_force
from lentsheep.values import Mount, Note, Plan

# Root in a read-only host, with CAP_SYS_ADMIN: what is denied by mounts is open behind two calls of mount(2).
ROOT = """\
unit web.service
note etc/systemd/system/web.service 3 unjudged
note etc/systemd/system/web.service 4 unjudged
note etc/systemd/system/web.service 5 value
launched uid 0 gid 0 nnp yes steps 9
open see /
  1 stat /
open see /etc
  1 stat /etc
open see /home
  1 mount / /proc 0 0 0 4096
  1 mount / /proc 0 0 0 4128
  1 stat /proc/home
open write /etc/passwd
  1 mount / /proc 0 0 0 4096
  1 mount / /proc 0 0 0 4128
  1 open /proc/etc/passwd 0 1
open write /etc/shadow
  1 mount / /proc 0 0 0 4096
  1 mount / /proc 0 0 0 4128
  1 open /proc/etc/shadow 0 1
open write /var/lib/web/db
  1 open /var/lib/web/db 0 1
open call settimeofday
  1 settimeofday
denied call reboot
open socket AF_UNIX
  1 socket 1
open ns mnt
  1 unshare 131072
denied map-wx
open cap CAP_SYS_ADMIN
open cap CAP_SYS_TIME
denied cap CAP_SETUID
open uid 0
denied uid 33
open gid 0
summary denied 4 open 13
"""
TABLE = Table({"@clock": frozenset({"settimeofday"})}, {"settimeofday": "CAP_SYS_TIME", "reboot": "CAP_SYS_BOOT"}, {1: "AF_UNIX"})
SCREEN = """\
note        web.service:4: no key of systemd (ProtectSystem= is meant?): ProtectSytem=yes
note        web.service:5: this value cannot be read: PrivateTmp=maybe

unit        web.service: denied 4, open 13
launched    as uid 0 (root), gid 0, with 2 capabilities, no_new_privs on

why open    3 answers, since it can change mounts (CAP_SYS_ADMIN is held)
              write 2, see 1; as
              write /etc/passwd: 1 mount / /proc 0 0 0 4096; 1 mount / /proc 0 0 0 4128;
              1 open /proc/etc/passwd 0 1
              closed by CapabilityBoundingSet=~CAP_SYS_ADMIN or SystemCallFilter=~@mount
            1 answer, since it can make namespaces (CAP_SYS_ADMIN is held)
              closed by CapabilityBoundingSet=~CAP_SYS_ADMIN or RestrictNamespaces=yes
            1 answer, since it can make calls that ask for a capability (CAP_SYS_TIME is held)
              closed by CapabilityBoundingSet=~CAP_SYS_TIME

             see read write exec call socket ns switch cap uid gid all
denied         -    -     -    -    1      -  -      1   1   1   -   4
open           3    -     3    -    1      1  1      -   2   1   1  13
in steps       1    -     2    -    -      -  -      -   -   -   -   3

see         open everywhere but in steps in /home
write       in steps everywhere but open in /var/lib/web/db
calls       open 1 but denied 1: reboot
sockets     open all 1
namespaces  open all 1
switches    denied all 1
caps        open 2 but denied 1: CAP_SETUID
uids        open 1 but denied 1: 33
gids        open all 1
not judged  1 line: Restart
"""
UNIT = UnitFile(
    "etc/systemd/system/web.service", "[Service]\nExecStart=/usr/bin/web\nRestart=always\nProtectSytem=yes\nPrivateTmp=maybe\n"
)


def screen(report, **more):
    """The screen of a report, of 100 columns and without colour."""
    return "\n".join(brief(View(report, **more), Page(100, Paint(False)))) + "\n"


class Screen(unittest.TestCase):
    """The lines of the screen."""

    def test_root(self):
        report = parse(ROOT)
        self.maxDiff = None
        self.assertEqual(SCREEN, screen(report, table=TABLE, notes=told_notes(report.notes, [UNIT])))

    def test_no_line_is_too_long(self):
        report = parse(ROOT)
        for width in (60, 80, 100):
            page = Page(width, Paint(False))
            lines = brief(View(report, table=TABLE, notes=told_notes(report.notes, [UNIT])), page)
            # the table of kinds has the columns that it needs
            self.assertEqual([], [line for line in lines if len(line) > max(width, 72)])

    def test_launches_and_refusals(self):
        for text, wanted in [
            ("refused web.service no-user web\n", "refused     web.service no-user web\n"),
            (
                "unit web.service\nlaunch refused step 51 errno 2\n",
                "unit        web.service: no answers\nlaunched    no: the kernel refuses step 51 with errno 2\n",
            ),
            (
                "unit web.service\nlaunch killed step 5\n",
                "unit        web.service: no answers\nlaunched    no: a filter ends it at step 5\n",
            ),
            (
                "unit web.service\nlaunch privileged /usr/bin/su\n",
                "unit        web.service: no answers\nlaunched    no: /usr/bin/su has a set-id bit or capabilities\n",
            ),
        ]:
            self.assertEqual(wanted, screen(parse(text, "judge")))

    def test_cut(self):
        self.assertIn("\ncut         the report ends early", screen(parse(ROOT[:700], "judge")))

    def test_colour(self):
        report = parse(ROOT)
        plain = screen(report)
        painted = "\n".join(brief(View(report), Page(100, Paint(True)))) + "\n"
        self.assertIn("\x1b[", painted)
        for code in ("1", "2", "31", "32", "33", "0"):
            painted = painted.replace(f"\x1b[{code}m", "")
        self.assertEqual(plain, painted)


class Causes(unittest.TestCase):
    """Root causes."""

    def test_programs(self):
        text = """\
unit web.service
launched uid 33 gid 33 nnp no steps 9
open write /etc/shadow
  1 execve /usr/bin/su
  1 mount / /proc 0 0 0 4096
  1 mount / /proc 0 0 0 4128
  1 open /proc/etc/shadow 0 1
open exec /usr/bin/su
  1 execve /usr/bin/su
open cap CAP_CHOWN
  1 execve /usr/bin/su
open cap CAP_NET_RAW
  1 execve /usr/bin/ping
open uid 0
  1 execve /usr/bin/su
  1 setuid
summary denied 0 open 5
"""
        report = parse(text)
        (cause,) = causes(report, Table())
        # to run the program is no privilege; what it gives is
        self.assertEqual((4, ("/usr/bin/su", "/usr/bin/ping")), (cause.count, cause.programs))
        self.assertEqual(({"cap": 2, "write": 1, "uid": 1}, {"nothing": 2, "mounts": 1, "uids": 1}), (cause.kinds, cause.then))
        self.assertEqual(("NoNewPrivileges=yes",), tuple(closed_by(cause, report)))
        self.assertEqual("programs as /usr/bin/su give it privileges (no_new_privs is off)", told(cause))

    def test_held(self):
        report = parse("unit a.service\nlaunched uid 33 gid 33 nnp yes steps 9\nopen cap CAP_SETGID\nopen gid 4\n  1 setgroups [4]\n")
        self.assertEqual(["CAP_SETGID"], held_capabilities(report))
        (cause,) = causes(report, Table())
        self.assertEqual(["AmbientCapabilities=~CAP_SETGID", "SystemCallFilter=~@setuid"], closed_by(cause, report))

    def test_mounts_taken_away(self):
        report = parse("unit a.service\nopen read /home/a\n  1 umount2 /home 2\n  1 open /home/a\n", "judge")
        self.assertEqual([("unmounts", "CAP_SYS_ADMIN", 1)], [(it.need.kind, it.need.by, it.count) for it in causes(report, Table())])

    def test_user_namespaces(self):
        # a user namespace asks for no capability, and gives all of them within it (user_namespaces(7))
        text = "open write /etc/a\n  1 unshare 268566528\n  1 mount / /proc 0 0 0 4096\n  1 open /proc/etc/a 0 1\n"
        report = parse(text, "judge")
        (cause,) = causes(report, Table())
        self.assertEqual(("user-namespaces", {"mounts": 1}), (cause.need.kind, cause.then))
        self.assertEqual(["RestrictNamespaces=~user"], closed_by(cause, report))

    def test_second_abi(self):
        report = parse("unit a.service\nopen socket AF_INET\n  1 i386:socketcall 2 1\n", "judge")
        self.assertEqual([], causes(report, Table()))


class Places(unittest.TestCase):
    """Rows as largest folders."""

    def test_folders(self):
        for what, rows, mounts, wanted in [
            ("one state", {"/a": 1, "/b/c": 1}, [], (1, [])),
            ("a folder", {"/a/x": 1, "/a/y": 1, "/b": 0, "/c": 0, "/d": 0}, [], (0, [Exceptional("/a", 1, 2)])),
            ("one file", {"/var/lib/web/db": 1, "/etc/a": 0, "/etc/b": 0}, [], (0, [Exceptional("/var/lib/web/db", 1, 1)])),
            (
                "its mount", {"/var/lib/web/db": 1, "/etc/a": 0, "/etc/b": 0}, ["/", "/var/lib/web"],
                (0, [Exceptional("/var/lib/web", 1, 1)]),
            ),
            (
                "within a folder", {"/a/x": 1, "/a/y": 1, "/a/z": 0, "/b": 0, "/c": 0, "/a/w": 1}, [],
                (0, [Exceptional("/a", 1, 3), Exceptional("/a/z", 0, 1)]),
            ),
            (
                "a folder by itself", {"/a": 1, "/a/x": 0, "/a/y": 0, "/b": 0}, [], (0, [Exceptional("/a", 1, 1, True)]),
            ),
        ]:  # fmt: skip
            self.assertEqual(wanted, described(rows, mounts), what)

    def test_longest_path_decides(self):
        # every row stands as the longest told path at or above it says, whatever the rows
        names = ["a", "b"]
        paths = [f"/{x}" for x in names] + [f"/{x}/{y}" for x in names for y in names] + [f"/{x}/{y}/c" for x in names for y in names]
        for number in range(3**6):
            rows = {path: number // 3 ** (at % 6) % 3 for at, path in enumerate(paths)}
            whole, exceptions = described(rows)
            for path, state in rows.items():
                above = [it for it in exceptions if path == it.path or not it.alone and path.startswith(it.path + "/")]
                found = max(above, key=lambda it: (len(it.path), it.alone), default=None)
                self.assertEqual(state, found.state if found else whole, (rows, path))

    def test_topmost(self):
        self.assertEqual(["/a", "/b/c"], topmost(["/b/c/d", "/a", "/b/c", "/a/x"]))
        self.assertEqual(["/a", "/ab"], topmost(["/ab", "/a"]))

    def test_lists(self):
        self.assertEqual(["/dev/{null,tty,zero}", "/etc"], braced(["/dev/null", "/dev/tty", "/etc", "/dev/zero"]))
        self.assertEqual(["/a/b", "/a/c"], braced(["/a/b", "/a/c"]))
        groups = {"@x": frozenset("abc"), "@y": frozenset("ab"), "@z": frozenset("de")}
        self.assertEqual(["@x", "d"], covered(list("abcd"), set("abcde"), groups))


class Notes(unittest.TestCase):
    """Notes with what stands in their lines."""

    def test_lines(self):
        notes = [Note(UNIT.path, 3, "unjudged"), Note(UNIT.path, 4, "unjudged"), Note("other", 1, "value"), Note(UNIT.path, 99, "value")]
        found = told_notes(notes, [UNIT])
        self.assertEqual(["Restart", "ProtectSytem", "", ""], [it.key for it in found])
        self.assertEqual([False, True, False, False], [it.is_unknown for it in found])
        self.assertEqual(["", "ProtectSystem", "", ""], [it.nearest for it in found])

    def test_nearest(self):
        for key, wanted in [
            ("protectsystem", "ProtectSystem"), ("PrivateTemp", "PrivateTmp"), ("NoNewPrivilege", "NoNewPrivileges"),
            ("SystemCallFilters", "SystemCallFilter"), ("Frobnicate", ""),
        ]:  # fmt: skip
            self.assertEqual(wanted, nearest_key(key))

    def test_files_by_link(self):
        # the folder that ./sandbox --root makes has links to the files of the root
        with tempfile.TemporaryDirectory() as place:
            Path(place, "web.service").write_text("[Service]\nRestart=no\n")
            folder = Path(place, "work/usr/lib/systemd/system")
            folder.mkdir(parents=True)
            (folder / "web.service").symlink_to(Path(place, "web.service"))
            (folder / "gone.service").symlink_to(Path(place, "gone.service"))
            found = files_in_force(f"{place}/work", "web.service")
            self.assertEqual([UnitFile("usr/lib/systemd/system/web.service", "[Service]\nRestart=no\n")], found)
            self.assertEqual([], files_in_force(f"{place}/work", "gone.service"))

    def test_extensions_are_for_others(self):
        unit = UnitFile("a", "[Service]\nX-Mine=1\n")
        self.assertFalse(told_notes([Note("a", 2, "unjudged")], [unit])[0].is_unknown)


class Sites(unittest.TestCase):
    """The text of a site."""

    def test_users(self):
        tables = '[[user]]\nname = "web"\nuid = 33\ngid = 34\n\n[[group]]\nname = "x"\ngid = 7\n'
        listed = 'user = [\n  { name = "root", uid = 0, gid = 0 },\n  { name = "toor", uid = 0, gid = 0 },\n]\n'
        self.assertEqual({33: "web"}, user_names(tables))
        self.assertEqual({0: "root"}, user_names(listed))

    def test_rows(self):
        rows = [("/a b", "dir"), ('/a b/"', "file")]
        self.assertEqual(
            b'x = 1\n\n\n[[row]]\npath = "/a b"\nkind = "dir"\n\n[[row]]\npath = "/a b/\\""\nkind = "file"\n', with_rows(b"x = 1\n", rows)
        )
        listed = b'row = [ { path = "/a b", kind = "dir" }, { path = "/a b/\\"", kind = "file" },\n]\n'
        self.assertEqual(listed, with_rows(b"row = [\n]\n", rows))


class Terminal(unittest.TestCase):
    """What is done on a terminal alone."""

    class Tty(io.StringIO):
        """A stream that is a terminal."""

        def isatty(self):
            return True

    def test_colour(self):
        for how, stream, wanted in [
            ({}, io.StringIO(), False), ({}, self.Tty(), True), ({"NO_COLOR": "1"}, self.Tty(), False),
            ({"NO_COLOR": ""}, self.Tty(), True), ({"TERM": "dumb"}, self.Tty(), False),
        ]:  # fmt: skip
            with mock.patch.dict(os.environ, how, clear=True):
                self.assertEqual(wanted, terminal.wants_colour(stream))

    def test_pager(self):
        for how, wanted in [({"PAGER": "cat"}, []), ({"PAGER": ""}, []), ({"PAGER": "sh -c 'a b'"}, ["sh", "-c", "a b"])]:
            with mock.patch.dict(os.environ, how):
                self.assertEqual(wanted, terminal.pager())
        with mock.patch.dict(os.environ), mock.patch("shutil.which", lambda name: name):
            os.environ.pop("PAGER", None)
            self.assertEqual(["less", "-FRX"], terminal.pager())
        self.assertEqual(100, terminal.width_of(io.StringIO()))

    def test_told_on_terminals_alone(self):
        quiet = io.StringIO()
        with mock.patch("sys.stderr", quiet), terminal.doing("nothing"):
            pass
        self.assertEqual("", quiet.getvalue())


class Plans(unittest.TestCase):
    """Mounts name the folders of the screen."""

    def test_place_of_a_mount(self):
        text = "launched uid 1 gid 1 nnp yes steps 3\ndenied write /etc/a\ndenied write /etc/b\nopen write /var/lib/web/db\n"
        report = parse(text, "judge")
        plan = Plan(mounts=(Mount("/", "host", "/", False, True), Mount("/var/lib/web", "host", "/var/lib/web", True, True)))
        self.assertIn("write       denied everywhere but open in /var/lib/web\n", screen(report, plan=plan))
        self.assertIn("write       denied everywhere but open in /var/lib/web/db\n", screen(report))

    def test_folder_by_itself(self):
        text = "unit a.service\nlaunched uid 1 gid 1 nnp yes steps 3\n" + "".join(
            f"{verdict} see {path}\n" for verdict, path in (("open", "/"), ("denied", "/a"), ("open", "/a/b"), ("open", "/a/c"))
        )
        self.assertIn("see         open everywhere but denied in /a itself\n", screen(parse(text, "judge")))


if __name__ == "__main__":
    unittest.main()
