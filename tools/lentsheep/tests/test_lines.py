"""Tests what is told of a unit's lines that are not read, and of questions that are none."""
import sys
import unittest
from pathlib import Path

TOP = Path(__file__).resolve().parents[3]
sys.path.insert(0, str(TOP / "tools"))

from lentsheep import asking
from lentsheep.brief import View, wrong_lines
from lentsheep.notes import told_notes
from lentsheep.table import Table
from lentsheep.unit_lines import lines_with, numbered_lines, passed_over
from lentsheep.unit_text import UnitFile
from lentsheep.values import Note, Question, Report


class Lines(unittest.TestCase):
    """Lines of a unit that systemd passes over."""

    def test_passed_over(self):
        for what, text, wanted in [
            ("nothing", "[Unit]\nAfter=a\nConditionPathExists=/a\nX-A=1\n[Service]\nPrivateTmp=yes\n[Install]\nAlias=b\n[X-Own]\nA=b\n", []),
            ("a key of [Service] in [Unit]", "[Unit]\nProtectSystem=strict\n", [(2, "ProtectSystem= is read in [Service] alone, and stands in [Unit]")]),
            ("in [Install]", "[Install]\n# a\nPrivateUsers=yes\n", [(3, "PrivateUsers= is read in [Service] alone, and stands in [Install]")]),
            ("a key of [Unit]", "[Service]\nAfter=a\n", [(2, "After= is read in [Unit] alone, and stands in [Service]")]),
            ("a section", "[Servce]\nPrivateTmp=yes\n", [(1, "no section of a service ([Service] is meant?): [Servce]")]),
            ("a section of others", "[Socket]\nListenStream=1\n", [(1, "no section of a service: [Socket]")]),
            ("no section", "PrivateTmp=yes\n", [(1, "in front of all sections ([Service] is missing?): PrivateTmp=yes")]),
            ("a misspelt key", "[Service]\nProtectSystm=yes\n", [(2, "no key of systemd (ProtectSystem= is meant?): ProtectSystm=yes")]),
            ("by its case", "[Service]\nprivatetmp=yes\n", [(2, "no key of systemd (PrivateTmp= is meant?): privatetmp=yes")]),
            ("misspelt and misplaced", "[Unit]\nProtectHme=yes\n", [(2, "no key of systemd (ProtectHome= is meant, in [Service]?): ProtectHme=yes")]),
            ("like no other", "[Service]\nFrobnicate=1\n", [(2, "no key of systemd: Frobnicate=1")]),
            ("behind a continued line", "[Service]\nExecStart=/a \\\n  b\nProtctHome=yes\n", [(4, "no key of systemd (ProtectHome= is meant?): ProtctHome=yes")]),
        ]:  # fmt: skip
            self.assertEqual(wanted, [(it.line, it.text) for it in passed_over([UnitFile("a", text)])], what)

    def test_a_mark(self):
        (found,) = passed_over([UnitFile("etc/a.service", "\ufeff[Service]\n")])
        self.assertEqual(("a.service:1", "a byte order mark stands before the first line"), (found.place, found.text[:46]))

    def test_numbers(self):
        self.assertEqual([(1, "a"), (3, "b c"), (6, "d")], list(numbered_lines("a\n# x\nb\\\n;y\n c\nd"))[:3])

    def test_lines_in_force(self):
        files = [UnitFile("a", "[Service]\nExecStart=/a\nReadWritePaths=/x\n"), UnitFile("b", "[Service]\nExecStart=\nExecStart=/b\n")]
        self.assertEqual([("a", 3, "/x"), ("b", 3, "/b")], [(it.file, it.line, it.value) for it in lines_with(files, "ExecStart", "ReadWritePaths")])

    def test_above_the_verdict(self):
        files = [UnitFile("a/x.service", "[Service]\nPrivateTmp=maybe\nProtectSystm=full\nRestart=no\n"), UnitFile("a/y.conf", "[Unit]\nPrivateTmp=yes\n")]
        notes = [Note("a/x.service", 2, "value"), Note("a/x.service", 3, "unjudged"), Note("a/x.service", 4, "unjudged")]
        view = View(Report(notes=tuple(notes)), notes=told_notes(notes, files), passed=passed_over(files))
        wanted = [
            ("x.service:2", "this value cannot be read: PrivateTmp=maybe"),
            ("x.service:3", "no key of systemd (ProtectSystem= is meant?): ProtectSystm=full"),
            ("y.conf:2", "PrivateTmp= is read in [Service] alone, and stands in [Unit]"),
        ]
        self.assertEqual(wanted, wrong_lines(view))


SITE = """
row = [ { path = "/etc", kind = "dir" }, { path = "/etc/passwd", kind = "file" }, { path = "/a \\"b", kind = "exe" } ]
[[user]]
name = "web"
uid = 33
gid = 34
[[group]]
name = "web"
gid = 34
"""


class Questions(unittest.TestCase):
    """What is told of a question that is none."""

    def test_site(self):
        site = asking.read_site(SITE)
        self.assertEqual({"/": "dir", "/proc": "dir", "/etc": "dir", "/etc/passwd": "file", '/a "b': "exe"}, site.rows)
        self.assertEqual({("uid", "web"): 33, ("gid", "web"): 34}, site.ids)

    def test_hints(self):
        site, table = asking.read_site(SITE), Table({}, {}, {1: "AF_UNIX", 2: "AF_INET"})
        calls = frozenset({"read", "reboot", "open", "socket"})
        for text, wanted in [
            ("write /etc/passwd", ""), ("map-wx", ""), ("cap CAP_KILL", ""), ("call read", ""), ("uid 33", ""),
            ("open write /x", '"open" is an answer, and is left out: write only write /x'),
            ("denied cap KILL", "there is no capability KILL; CAP_KILL is meant?"),
            ("cap sys_admn", "there is no capability sys_admn; CAP_SYS_ADMIN is meant?"),
            ("call raed", "calls.txt has no call raed; call read is meant?"), ("call sys_read", "call read is meant?"),
            ("call opn", "open is meant? what open(2) does is asked by read PATH or write PATH"),
            ("call unshare", "what unshare(2) does is asked by ns TYPE, as ns user"),
            ("socket INET", "calls.txt has no family INET; socket AF_INET is meant?"), ("ns mount", "there is no namespace mount: ns mnt is meant?"),
            ("uid root", "uid needs a number, and root is none"), ("uid 7", "only ids of the site are asked, and 7 is none of them"),
            ("gid web", "gid 34 is meant, the id of web?"), ("realtime yes", "realtime has nothing after it"), ("cap", "cap needs a capability, as CAP_SYS_ADMIN after it"),
            ("raed /etc", "read /etc is meant?"), ("/etc", "say what is asked of a path: see, read, write or exec /etc"),
            ("read /etc/", "write the path as read /etc"), ("write /etc/passwd/x", "nothing can be below /etc/passwd, which is a file"),
        ]:  # fmt: skip
            self.assertEqual(wanted, asking.hint(text, site, table, calls, "web.service"), text)

    def test_rows(self):
        site = asking.read_site(SITE)
        for question, root, wanted in [
            (Question("write", "/etc/passwd"), None, None), (Question("write", "/srv/x"), None, ("/srv/x", "file")),
            (Question("exec", "/srv/x"), None, ("/srv/x", "exe")), (Question("see", "/usr"), "/", ("/usr", "dir")),
            (Question("write", "/etc/passwd/x"), None, None), (Question("see", "/a/../b"), None, None), (Question("cap", "CAP_KILL"), None, None),
        ]:  # fmt: skip
            self.assertEqual(wanted, asking.row_of(question, site, root), question)
        rows = [("/srv/a/x", "file"), ("/srv/b", "dir")]
        self.assertEqual([("/srv", "dir"), ("/srv/a", "dir"), *rows], asking.rows_with_parents(rows, site))


if __name__ == "__main__":
    unittest.main()
