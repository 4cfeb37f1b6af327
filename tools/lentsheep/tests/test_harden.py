"""Tests `harden`: each drop-in is accepted, keeps what must stay open, has no idle line, and says why each line is there."""
import os
import shutil
import subprocess
import sys
import tempfile
import unittest
from pathlib import Path

TOP = Path(__file__).resolve().parents[3]
sys.path.insert(0, str(TOP / "tools"))

from lentsheep.report import parse
from lentsheep.values import Launched, Question

BUILT = os.environ.get("LENTSHEEP_PROGRAM") or str(TOP / "crates/sandbox_cli/out/sandbox_cli")
HAS_PROGRAM = os.access(BUILT, os.X_OK)
HOW = {**os.environ, "LENTSHEEP_PROGRAM": BUILT}
SITE = (TOP / "tables/debian/site.toml").read_text(encoding="utf-8")
ROWS = """
[[row]]
path = "/usr/sbin/webd"
kind = "exe"

[[row]]
path = "/var/lib/web"
kind = "dir"

[[row]]
path = "/var/lib/web/db"
kind = "file"

[[row]]
path = "/srv/data"
kind = "file"
"""
UNIT = "[Service]\nExecStart=/usr/sbin/webd\nExecReload=/bin/kill -HUP $MAINPID\n"
LOG = """\
10 execve("/usr/sbin/webd", ["webd"], 0x7ffd11112222 /* 3 vars */) = 0
10 openat(AT_FDCWD, "/etc/passwd", O_RDONLY) = 3
10 read(3, "root", 4) = 4
10 openat(AT_FDCWD, "/var/lib/web/db", O_RDWR|O_CREAT, 0644) = 4
10 openat(AT_FDCWD, "/var/lib/web/db", O_RDWR|O_CREAT, 0644) = 5
10 socket(AF_INET, SOCK_STREAM, 0) = 6
10 bind(6, {sa_family=AF_INET, sin_port=htons(80), sin_addr=inet_addr("0.0.0.0")}, 16) = 0
10 exit_group(0) = ?
"""


class WithFolder(unittest.TestCase):
    """A folder with a unit, a table, a site and a trace."""

    def setUp(self):
        self.place = tempfile.mkdtemp(prefix="test-harden-")
        self.addCleanup(shutil.rmtree, self.place)
        os.makedirs(f"{self.place}/etc/systemd/system")
        os.symlink(TOP / "tables/x86-64/calls.txt", f"{self.place}/calls.txt")
        for name, text in [("etc/systemd/system/web.service", UNIT), ("site.toml", SITE + ROWS), ("log", LOG), ("keep", "write /srv/data\n")]:
            Path(f"{self.place}/{name}").write_text(text, encoding="utf-8")

    def run_command(self, *words):
        """The status, the output and standard error of the command."""
        found = subprocess.run([str(TOP / "sandbox"), *words], capture_output=True, text=True, env=HOW, cwd=self.place, check=False)
        return found.returncode, found.stdout, found.stderr


class Words(WithFolder):
    """Usage errors, which need no program."""

    def test_usage(self):
        how = {} if HAS_PROGRAM else {"LENTSHEEP_PROGRAM": "/bin/false"}
        for words, wanted in [
            (["harden", "web"], "the following arguments are required: --drop-in\n"),
            (["harden", "web", "--drop-in", "o", "--keep", "gone"], "sandbox: there is no file gone (./sandbox harden --help)\n"),
        ]:
            found = subprocess.run([str(TOP / "sandbox"), *words], capture_output=True, text=True, env={**HOW, **how}, cwd=self.place, check=False)
            self.assertEqual((2, True), (found.returncode, found.stderr.endswith(wanted)), found.stderr)
        self.assertFalse(os.path.exists(f"{self.place}/o"))


@unittest.skipUnless(HAS_PROGRAM, "the program is not built")
class DropIns(WithFolder):
    """Drop-ins, and the pages about them."""

    def hardened(self, *words):
        """The lines of the drop-in with their comments, and the page."""
        status, page, said = self.run_command("harden", "web", "--drop-in", "out.conf", *words)
        self.assertEqual(0, status, said)
        text = Path(f"{self.place}/out.conf").read_text(encoding="utf-8")
        lines, comment = {}, ""
        for line in text.rstrip("\n").split("\n"):
            if line.startswith("#"):
                comment = line
            elif line != "[Service]":
                lines[line], comment = comment, ""
        return lines, text, page, said

    def assert_tried(self, lines, kept):
        """The unit is launched with the drop-in, what is kept is open, and no line is idle."""
        folder = f"{self.place}/etc/systemd/system/web.service.d"
        os.makedirs(folder, exist_ok=True)
        shutil.copy(f"{self.place}/out.conf", f"{folder}/50-harden.conf")
        report = parse(self.run_command("judge", "web")[1], "judge")
        self.assertIsInstance(report.launch, Launched)
        opened = {it.question.text for it in report.answers if it.is_open}
        self.assertLessEqual(set(kept), opened)
        why = parse(self.run_command("why", "web")[1], "why")
        idle = [it.text for it in why.each if it.file.endswith("50-harden.conf") and not it.needed and not it.count]
        self.assertEqual([], [it for it in idle if not it.startswith("ReadWritePaths=")])
        shutil.rmtree(folder)

    def test_of_keep(self):
        lines, text, page, said = self.hardened("--keep", "keep")
        self.assertEqual("# keep:1", lines["ReadWritePaths=/srv"])
        self.assertIn("ProtectSystem=strict", lines)
        self.assertNotIn("SystemCallFilter", text)
        self.assert_tried(lines, ["write /srv/data"])
        self.assertIn("\nProtectSystem=strict\n  why     ", page)
        self.assertIn("  undo    ProtectSystem=no\n", page)

    def test_of_a_trace(self):
        lines, text, page, said = self.hardened("--strace", "log")
        self.assertEqual("# opened for writing 2 times in the trace", lines["ReadWritePaths=/var/lib/web"])
        bounding = lines["CapabilityBoundingSet=CAP_NET_BIND_SERVICE"]
        self.assertTrue(bounding.startswith("# CAP_NET_BIND_SERVICE: port 80 was bound in the trace; closes "), bounding)
        self.assertTrue(bounding.endswith("; CapabilityBoundingSet=~ takes it back"), bounding)
        self.assertIn("# not seen in this trace: ExecReload=, log rotation\n", text)
        self.assertIn("RestrictAddressFamilies=AF_INET AF_UNIX", lines)
        filters = [line for line in lines if line.startswith("SystemCallFilter=")]
        self.assertEqual(1, len(filters), "the unit has no list to reset")
        # read(2) is in no default group, and the trace has it; a call that no script has is not in the list
        self.assertIn("read", filters[0].split())
        self.assertNotIn("ptrace", filters[0].split())
        self.assertIn("#SystemCallErrorNumber=EPERM\n", text)
        self.assertNotIn("", [comment for comment in lines.values()], "each line has a reason")
        self.assert_tried(lines, ["write /var/lib/web/db", "cap CAP_NET_BIND_SERVICE", "socket AF_INET", "exec /usr/sbin/webd"])

    def test_what_the_unit_denies_already(self):
        with open(f"{self.place}/etc/systemd/system/web.service", "a", encoding="utf-8") as unit:
            unit.write("InaccessiblePaths=/srv\nCapabilityBoundingSet=~CAP_SYS_ADMIN\n")
        status, page, said = self.run_command("harden", "web", "--drop-in", "out.conf", "--keep", "keep")
        self.assertEqual((3, ""), (status, page))
        self.assertEqual("sandbox: keep:1: write /srv/data is denied already; why web.service write /srv/data says more\n", said)
        self.assertFalse(os.path.exists(f"{self.place}/out.conf"))

    def test_a_refused_unit(self):
        Path(f"{self.place}/etc/systemd/system/web.service").write_text("[Service]\nExecStart=webd\n", encoding="utf-8")
        self.assertEqual((3, "refused web.service outside ExecStart\n"), self.run_command("harden", "web", "--drop-in", "out.conf")[:2])

    def test_of_a_root(self):
        root = f"{self.place}/root"
        for name, text in [("etc/passwd", "root:x:0:0::/:/bin/sh\n"), ("usr/sbin/webd", ""), ("srv/data", ""), ("usr/lib/systemd/system/web.service", UNIT)]:
            os.makedirs(os.path.dirname(f"{root}/{name}"), exist_ok=True)
            Path(f"{root}/{name}").write_text(text, encoding="utf-8")
        os.chmod(f"{root}/usr/sbin/webd", 0o755)
        status, page, said = self.run_command("--root", root, "harden", "web", "--keep", "keep", "--drop-in", "out.conf")
        self.assertEqual(0, status, said)
        self.assertIn("\nReadWritePaths=/srv\n", Path(f"{self.place}/out.conf").read_text(encoding="utf-8"))

    def test_questions_of_reports(self):
        self.assertEqual("write /srv/data", Question("write", "/srv/data").text)


if __name__ == "__main__":
    unittest.main()
