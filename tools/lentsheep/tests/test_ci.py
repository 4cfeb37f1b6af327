"""Runs the two jobs of examples/ci as they are written, with the command of this tree as lentsheep."""
import os
import shutil
import subprocess
import sys
import tempfile
import unittest
from pathlib import Path

TOP = Path(__file__).resolve().parents[3]
BUILT = os.environ.get("LENTSHEEP_PROGRAM") or str(TOP / "crates/sandbox_cli/out/sandbox_cli")
HAS_PROGRAM = os.access(BUILT, os.X_OK)
ROOT = {
    "etc/passwd": "root:x:0:0::/:/bin/sh\n", "etc/group": "root:x:0:\n", "etc/shadow": "root:*:1::::::\n", "usr/bin/hello-web": "#!/bin/sh\n",
    "home/alice/key": "",
}  # fmt: skip


@unittest.skipUnless(HAS_PROGRAM, "the program is not built")
class Jobs(unittest.TestCase):
    """The jobs pass, and fail once a unit opens more."""

    def setUp(self):
        self.place = tempfile.mkdtemp(prefix="test-ci-")
        self.addCleanup(shutil.rmtree, self.place)
        os.makedirs(f"{self.place}/bin")
        os.symlink(TOP / "sandbox", f"{self.place}/bin/lentsheep")
        self.how = {**os.environ, "LENTSHEEP_PROGRAM": BUILT, "PATH": f"{self.place}/bin:{os.environ['PATH']}", "XDG_CACHE_HOME": f"{self.place}/cache"}
        shutil.copytree(TOP / "examples/ci", f"{self.place}/ci")

    def job(self, path, **how):
        """The status and the lines of a job."""
        found = subprocess.run([f"{self.place}/ci/{path}"], capture_output=True, text=True, env={**self.how, **how}, check=False)
        return found.returncode, found.stdout, found.stderr

    def edit(self, path, old, new):
        """Changes a file of the jobs."""
        file = Path(f"{self.place}/{path}")
        text = file.read_text(encoding="utf-8")
        self.assertIn(old, text)
        file.write_text(text.replace(old, new), encoding="utf-8")

    def test_a_package(self):
        root = f"{self.place}/root"
        for name, text in ROOT.items():
            os.makedirs(os.path.dirname(f"{root}/{name}"), exist_ok=True)
            Path(f"{root}/{name}").write_text(text, encoding="utf-8")
        os.chmod(f"{root}/usr/bin/hello-web", 0o755)
        shutil.copytree(TOP / "examples/package/usr/lib", f"{root}/usr/lib")
        status, text, said = self.job("package/debian/tests/sandbox", ROOT=root)
        self.assertEqual(0, status, text + said)
        self.assertIn("failed 0\n", text)
        self.edit("root/usr/lib/systemd/system/hello-web.service", "CapabilityBoundingSet=", "PrivateTemp=")
        status, text, said = self.job("package/debian/tests/sandbox", ROOT=root)
        self.assertEqual(1, status)
        self.assertIn("hello-web.service:7: unknown-key: PrivateTemp=: unknown key, ignored (did you mean PrivateTmp=?)\n", text)

    def test_a_fleet(self):
        status, text, said = self.job("fleet/check")
        self.assertEqual(0, status, text + said)
        self.assertEqual(2, text.count("changes opened 0 closed 0 new 0 gone 0\n"))
        # a unit that opens more than it did in the last release
        self.edit("ci/fleet/etc/systemd/system/web.service", "ProtectSystem=strict\n", "")
        status, text, said = self.job("fleet/check")
        self.assertEqual(1, status)
        self.assertIn("opened write /etc/passwd\n  1 open /etc/passwd 0 1\n", text)
        self.assertIn("expect/web.service:3: denied write /etc\n", text)
        # what was decided is accepted, with its reason
        with open(f"{self.place}/ci/fleet/expect/web.service", "a", encoding="utf-8") as file:
            file.write("accept open write /etc/passwd # it manages users\naccept open write /usr/bin/web # it updates itself\n")
        status, text, said = self.job("fleet/check")
        self.assertEqual((0, 2), (status, text.count("failed 0\n")), text + said)


if __name__ == "__main__":
    unittest.main()
