"""Tests which open answers file modes close: the rule by itself, and against the kernel of this machine where the test runs as root."""
import json
import os
import shutil
import stat
import struct
import sys
import tempfile
import unittest
from pathlib import Path

TOP = Path(__file__).resolve().parents[3]
sys.path.insert(0, str(TOP / "tools"))

from lentsheep import expect
from lentsheep.brief import View, brief
from lentsheep.causes import State, state_of
from lentsheep.modes import read_modes, with_modes
from lentsheep.partings import Direction, Parting
from lentsheep.record import replace
from lentsheep.report import parse, read_question
from lentsheep.screen import Page
from lentsheep.terminal import Paint
from lentsheep.unit_text import Said, UnitFile
from sites import modes as made
from sites.root import Root

NOTHING = Said([])
# Twenty files: mode, owner and group. 7001 to 7003 are users with groups of their own, 8001 and 8002 further groups.
FILES = [
    (0o600, 0, 0), (0o640, 0, 8001), (0o644, 0, 0), (0o660, 0, 8001), (0o664, 0, 8002), (0o666, 0, 0), (0o000, 0, 0), (0o755, 0, 0),
    (0o750, 0, 8001), (0o700, 0, 0), (0o600, 7001, 7001), (0o644, 7001, 7001), (0o000, 7002, 7002), (0o060, 7003, 8002), (0o604, 0, 8001),
    (0o711, 0, 0), (0o070, 7001, 8001), (0o662, 0, 8002), (0o4755, 7003, 7003), (0o4711, 0, 7002),
]  # fmt: skip
# Ten identities: a uid, a gid and further groups.
IDS = [
    (7001, 7001, []), (7001, 7001, [8001]), (7002, 7002, []), (7002, 8002, []), (7002, 7002, [8001, 8002]), (7003, 7003, []),
    (7003, 7003, [8002]), (7004, 7004, []), (7004, 8001, [8002]), (65534, 65534, []),
]  # fmt: skip
ALL_UIDS = [0, 7001, 7002, 7003, 7004, 65534]
ALL_GIDS = [*ALL_UIDS, 8001, 8002]
CAPABILITIES = ["CAP_CHOWN", "CAP_DAC_OVERRIDE", "CAP_DAC_READ_SEARCH", "CAP_FOWNER", "CAP_SETUID", "CAP_NET_BIND_SERVICE"]


def report_of(paths, uids=(7001,), gids=(7001,), caps=(), kinds=("read", "write", "exec"), all_uids=ALL_UIDS):
    """A report in which all is open of some paths, by a service that can have these ids and capabilities."""
    lines = ["unit a.service", "launched uid 1 gid 1 nnp yes steps 1"]
    lines += [f"open {kind} {path}\n  1 call {path}" for path in paths for kind in kinds]
    lines += [f"{'open' if name in caps else 'denied'} cap {name}" for name in CAPABILITIES]
    lines += [f"{'open' if number in uids else 'denied'} uid {number}" for number in all_uids]
    lines += [f"{'open' if number in gids else 'denied'} gid {number}" for number in ALL_GIDS]
    lines += ["summary denied 0 open 0"]
    return parse("\n".join(lines) + "\n", "judge")


def modes_of(rows, folders=None):
    """The modes of some files below /, which is root's."""
    found = {path: [*row, ["/"]] for path, row in rows.items()}
    return read_modes(json.dumps({"version": 1, "rows": found, "folders": folders or {"/": [0o755, 0, 0]}}).encode())


def closed(report, modes, said=NOTHING):
    """The questions that modes close."""
    return {it.question.text for it in with_modes(report, modes, said).answers if it.by_modes}


class Rule(unittest.TestCase):
    """The rule, case by case."""

    def test_files(self):
        for what, row, wanted in [
            ("root's alone", (0o600, 0, 0), "read write exec"), ("to be read", (0o644, 0, 0), "write exec"), ("to be run", (0o755, 0, 0), "write"),
            ("its own", (0o000, 7001, 0), ""), ("its group's", (0o640, 0, 7001), "write exec"), ("another group's", (0o640, 0, 8001), "read write exec"),
            ("of others, but not of the group", (0o604, 0, 7001), "write exec"), ("an owner that is not asked", (0o600, 9, 0), ""),
            ("a group that is not asked", (0o600, 0, 9), ""),
        ]:  # fmt: skip
            found = closed(report_of(["/a"]), modes_of({"/a": row}))
            self.assertEqual({f"{kind} /a" for kind in wanted.split()}, found, what)

    def test_what_closes_nothing(self):
        row = {"/a": (0o600, 0, 0)}
        for what, report, modes, said in [
            ("no modes", report_of(["/a"]), None, NOTHING), ("another path", report_of(["/b"]), modes_of(row), NOTHING),
            ("uid 0 in reach", report_of(["/a"], uids=(7001, 0)), modes_of(row), NOTHING),
            *((name, report_of(["/a"], caps=(name,)), modes_of(row), NOTHING) for name in CAPABILITIES[:-1]),
            ("a folder above may be changed", report_of(["/a"]), modes_of(row, {"/": [0o777, 0, 0]}), NOTHING),
            ("a folder above is its own", report_of(["/a"]), modes_of(row, {"/": [0o555, 7001, 0]}), NOTHING),
            ("a folder above is not known", report_of(["/a"]), modes_of(row, {"/b": [0o755, 0, 0]}), NOTHING),
            ("ids were not asked", report_of(["/a"], all_uids=[]), modes_of(row), NOTHING),
        ]:  # fmt: skip
            self.assertEqual(set(), closed(report, modes, said), what)
        # a capability that lets nobody at files
        self.assertEqual(3, len(closed(report_of(["/a"], caps=("CAP_NET_BIND_SERVICE",)), modes_of(row))))

    def test_folders_that_systemd_makes_over(self):
        rows = {"/var/lib/web/db": (0o600, 0, 0), "/var/lib/other": (0o600, 0, 0), "/run/x/y": (0o600, 0, 0)}
        report = report_of(rows, kinds=("write",))
        for text, wanted in [
            ("StateDirectory=web", {"write /var/lib/other", "write /run/x/y"}), ("RuntimeDirectory=%p", {"write /var/lib/web/db", "write /var/lib/other"}),
            ("", {"write /var/lib/web/db", "write /var/lib/other", "write /run/x/y"}),
        ]:  # fmt: skip
            self.assertEqual(wanted, closed(report, modes_of(rows), Said([UnitFile("a", f"[Service]\n{text}\n")])), text)

    def test_to_be_seen(self):
        # stat(2) asks nothing of the file itself
        self.assertEqual(set(), closed(report_of(["/a"], kinds=("see",)), modes_of({"/a": (0o000, 0, 0)})))

    def test_files_of_modes(self):
        for data in (None, b"", b"{", b"[]", b'{"version": 2, "rows": {}, "folders": {}}', b'{"version": 1, "rows": {"/a": [1]}, "folders": {}}'):
            self.assertIsNone(read_modes(data), data)


def denied_of(report):
    """The report with what modes close as denied by the report itself."""
    report = expect.with_modes_denied(report)
    return replace(report, answers=tuple(replace(it, by_modes=False) for it in report.answers))


class Views(unittest.TestCase):
    """How it is told."""

    def test_screen(self):
        report = with_modes(report_of(["/etc/a", "/etc/b"]), modes_of({"/etc/a": (0o644, 0, 0), "/etc/b": (0o600, 0, 0)}), NOTHING)
        lines = brief(View(report), Page(100, Paint(False)))
        self.assertEqual("by modes       -    1     2    2    -      -  -      -   -   -   -   5", next(it for it in lines if it.startswith("by modes")))
        self.assertIn("write       closed by modes everywhere", lines)
        self.assertEqual({State.OPEN, State.MODES, State.DENIED}, set(map(state_of, report.answers)))

    def test_expectations(self):
        report = with_modes(report_of(["/etc/a", "/etc/b"]), modes_of({"/etc/a": (0o644, 0, 0), "/etc/b": (0o600, 0, 0)}), NOTHING)
        text = "denied write /etc/b with-modes\ndenied read /etc/a with-modes\nopen read /etc/a with-modes\ndenied write /etc/b\ndenied write /etc with-modes\n"
        found = [bool(expect.failures(it, report)) for it in expect.read_expectations(text)]
        self.assertEqual([False, True, False, True, False], found)
        self.assertRaises(expect.Fault, expect.read_expectations, "denied cap CAP_KILL with-modes\n")
        self.assertRaises(expect.Fault, expect.read_expectations, "denied see /a with-modes\n")
        self.assertRaises(expect.Fault, expect.read_expectations, "blind /a with-modes\n")

    def test_as_run(self):
        """What modes close is doubted by what opens the file there, and by what gives more capabilities and ids."""
        report = with_modes(report_of(["/etc/a", "/etc/b"]), modes_of({"/etc/a": (0o644, 0, 0), "/etc/b": (0o600, 0, 0)}), NOTHING)
        texts = ("denied write /etc/b with-modes as-run", "denied write /etc/b as-run with-modes")
        lines = expect.read_expectations("\n".join(texts))
        self.assertEqual([(True, True)] * 2, [(it.as_run, it.with_modes) for it in lines])
        self.assertRaises(expect.Fault, expect.read_expectations, "open write /etc/b with-modes as-run\n")
        for direction, question, wanted in [
            (Direction.DENIED_HERE, "write /etc/b", ["a"]), (Direction.DENIED_HERE, "cap CAP_KILL", ["a"]), (Direction.DENIED_HERE, "uid 0", ["a"]),
            (Direction.DENIED_HERE, "write /etc/a", []), (Direction.DENIED_HERE, "suid-bit", []), (Direction.OPEN_HERE, "uid 0", []),
        ]:  # fmt: skip
            parting = Parting("a", (), direction, "", "", (read_question(question),))
            self.assertEqual([wanted] * 2, [expect.doubts(it, report, [parting]) for it in lines], question)
        # the mode holds by another way as well, but for one that gives an id
        for questions, wanted in [(["write /etc/b"], []), (["write /etc/b", "uid 0"], ["outside-roots"])]:
            parting = Parting("outside-roots", (), Direction.DENIED_HERE, "", "", tuple(map(read_question, questions)))
            self.assertEqual(wanted, expect.doubts(lines[0], report, [parting]))
        parting = Parting("outside-roots", (), Direction.DENIED_HERE, "", "", (read_question("write /etc/b"),))
        self.assertEqual(["outside-roots"], expect.doubts(lines[0], denied_of(report), [parting]))
        denied = denied_of(report)
        self.assertEqual({State.DENIED, State.OPEN}, set(map(state_of, denied.answers)))
        self.assertEqual([], [it for it in denied.answers if it.question.text == "write /etc/b" and it.is_open])


@unittest.skipUnless(os.geteuid() == 0, "only root may take other ids")
class Kernel(unittest.TestCase):
    """The rule against the kernel: what it closes the kernel refuses, and what it leaves open the kernel allows, but for owners."""

    def setUp(self):
        self.place = tempfile.mkdtemp(prefix="test-modes-")
        self.addCleanup(shutil.rmtree, self.place)
        os.chmod(self.place, 0o755)
        for number, (mode, uid, gid) in enumerate(FILES):
            self.make(f"{self.place}/{number}", mode, uid, gid)

    def make(self, path, mode, uid, gid):
        """Makes a program with a mode and an owner."""
        with open(path, "w", encoding="utf-8") as file:
            file.write("#!/bin/true\n")
        os.chown(path, uid, gid)
        os.chmod(path, mode)

    def modes(self, *paths):
        """The modes as make-site writes them."""
        site = "".join(f"\n[[row]]\npath = {json.dumps(path)}\nkind = \"file\"\n" for path in paths)
        return read_modes(made.text_of(Root(self.place), site.encode()))

    def allowed(self, identity, paths):
        """What the kernel allows of some files, of a process with these ids."""
        uid, gid, groups = identity
        reader, writer = os.pipe()
        child = os.fork()
        if child == 0:
            os.setgroups(groups)
            os.setresgid(gid, gid, gid)
            os.setresuid(uid, uid, uid)
            found = []
            for path in paths:
                for kind, flags in (("read", os.O_RDONLY), ("write", os.O_WRONLY)):
                    try:
                        os.close(os.open(self.place + path, flags))
                        found.append(f"{kind} {path}")
                    except PermissionError:
                        pass
                if os.access(self.place + path, os.X_OK):
                    found.append(f"exec {path}")
            os.write(writer, json.dumps(found).encode())
            os._exit(0)
        os.close(writer)
        with os.fdopen(reader) as told:
            found = set(json.loads(told.read()))
        self.assertEqual(0, os.waitpid(child, 0)[1])
        return found

    def test_twenty_files_and_ten_ids(self):
        paths = [f"/{number}" for number in range(len(FILES))]
        modes = self.modes(*paths)
        if not modes.rows:
            self.skipTest("the temporary folder stands on a file system of another kind")
        self.assertEqual((20, 10), (len(modes.rows), len(IDS)))
        counts = {"closed": 0, "allowed": 0}
        for identity in IDS:
            uid, gid, groups = identity
            report = report_of(paths, uids=(uid,), gids=(gid, *groups))
            by_modes, by_kernel = closed(report, modes), self.allowed(identity, paths)
            # what is closed the kernel refuses
            self.assertEqual(set(), by_modes & by_kernel, identity)
            for path, (mode, owner, group) in zip(paths, FILES):
                for kind, bit in (("read", 4), ("write", 2), ("exec", 1)):
                    # the owner may change the mode first, and others' bits count for a group that is left
                    is_more = owner == uid or group in (gid, *groups) and mode & bit
                    question = f"{kind} {path}"
                    self.assertEqual(question not in by_kernel and not is_more, question in by_modes, (identity, question))
            counts = {"closed": counts["closed"] + len(by_modes), "allowed": counts["allowed"] + len(by_kernel)}
        # neither side is empty
        self.assertTrue(all(count > 100 for count in counts.values()), counts)

    def test_what_is_not_known_for_sure(self):
        os.makedirs(f"{self.place}/open/in")
        os.chmod(f"{self.place}/open", 0o1777)
        for path in ("/open/in/file", "/listed", "/target"):
            self.make(self.place + path, 0o600, 0, 0)
        os.symlink("target", f"{self.place}/link")
        os.mkdir(f"{self.place}/folder")
        self.make(f"{self.place}/folder/file", 0o600, 0, 0)
        os.symlink("folder", f"{self.place}/way")
        # an access control list (acl(5)): user 7001 may read and write, whatever the bits of others say
        entries = [(0x01, 6, 0xFFFFFFFF), (0x02, 6, 7001), (0x04, 0, 0xFFFFFFFF), (0x10, 6, 0xFFFFFFFF), (0x20, 0, 0xFFFFFFFF)]
        data = struct.pack("<I", 2) + b"".join(struct.pack("<HHI", *entry) for entry in entries)
        paths = ["/0", "/open/in/file", "/link", "/way/file", "/gone", "/target"]
        try:
            os.setxattr(f"{self.place}/listed", "system.posix_acl_access", data)
            self.assertIn("read /listed", self.allowed((7001, 7001, []), ["/listed"]))
            paths.append("/listed")
        except OSError:
            pass
        modes = self.modes(*paths)
        if not modes.rows:
            self.skipTest("the temporary folder stands on a file system of another kind")
        found = closed(report_of(paths, kinds=("write",)), modes)
        self.assertEqual({"write /0", "write /target"}, found)

    def test_a_root_of_another_user(self):
        os.chown(self.place, 7001, 7001)
        self.assertEqual({}, self.modes("/0").rows)
        self.assertTrue(stat.S_ISDIR(os.stat(self.place).st_mode))


if __name__ == "__main__":
    unittest.main()
