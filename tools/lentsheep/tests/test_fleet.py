"""Tests the views of all units, over the program where it was built."""
import os
import shutil
import subprocess
import sys
import tempfile
import unittest
from pathlib import Path

TOP = Path(__file__).resolve().parents[3]
sys.path.insert(0, str(TOP / "tools"))

from lentsheep.fleet_view import Unit, folder_of, ranked
from lentsheep.program import Program
from lentsheep.report import parse
from lentsheep.values import FleetRow

BUILT = os.environ.get("LENTSHEEP_PROGRAM") or str(TOP / "crates/sandbox_cli/out/sandbox_cli")
SCREEN = """\
fleet       4 units, 1 refused; the least protected first
profile     base, since the site has no key systemd

     100    a.service: denied 18, open 57
              it sets no key of a sandbox, and it can make namespaces (CAP_SYS_ADMIN is held)
              add CapabilityBoundingSet= (closes 51)
            and 2 further units (--top N)
refused     d.service masked
"""


class Ranks(unittest.TestCase):
    """The order of units."""

    class Told(Program):
        """A program whose reports are written out here."""

        def run_many(self, many, what=""):
            opens = {"a.service": 3, "b.service": 9, "c.service": 5, "d.service": 7}
            return [f"unit {unit}\nlaunched uid 0 gid 0 nnp no steps 1\nopen map-wx\nsummary denied 1 open {opens[unit]}\n" for _, unit in many]

    def test_ties(self):
        text = "unit a.service exposure 99\nunit b.service exposure 99\nunit c.service exposure 99\nunit d.service exposure 9\nunits 4 refused 0\n"
        fleet = parse(text, "fleet")
        # of equal exposure that of which most is open comes first, and not the first of the alphabet
        for most, wanted in [(1, ["b"]), (2, ["b", "c"]), (3, ["b", "c", "a"]), (None, ["b", "c", "a", "d"])]:
            self.assertEqual([f"{name}.service" for name in wanted], [unit.row.unit for unit in ranked(self.Told(), fleet, most)])

    def test_counts(self):
        for text, wanted in [
            ("unit a\nlaunch refused step 3 errno 2\n", "not launched"), ("refused a outside PrivateUsers\n", "refused a outside PrivateUsers"),
            ("unit a\nlaunched uid 0 gid 0 nnp no steps 1\ndenied map-wx\nsummary denied 1 open 0\n", "denied 1, open 0"),
        ]:  # fmt: skip
            self.assertEqual(wanted, Unit(FleetRow("a", 9), parse(text, "judge")).counts)

    def test_folder(self):
        for file, wanted in [("all.html", "all-units"), ("/tmp/a.b/all", "/tmp/a.b/all-units"), ("/tmp/a.b/all.html", "/tmp/a.b/all-units")]:
            self.assertEqual(wanted, folder_of(file))


@unittest.skipUnless(os.access(BUILT, os.X_OK), "the program was not built, and LENTSHEEP_PROGRAM names none")
class Runs(unittest.TestCase):
    """Runs of ./sandbox."""

    def setUp(self):
        self.place = tempfile.mkdtemp()
        self.addCleanup(shutil.rmtree, self.place)
        self.maxDiff = None

    def run_command(self, *words):
        """Runs the command in examples/fleet."""
        how = {**os.environ, "LENTSHEEP_PROGRAM": os.path.abspath(BUILT), "XDG_CACHE_HOME": f"{self.place}/cache"}
        return subprocess.run([TOP / "sandbox", *words], cwd=TOP / "examples/fleet", env=how, capture_output=True, text=True, check=False)

    def test_screen(self):
        found = self.run_command("--brief", "fleet", "policy.json", "--top", "1")
        self.assertEqual((0, SCREEN, ""), (found.returncode, found.stdout, found.stderr))

    def test_pages(self):
        found = self.run_command("--html", f"{self.place}/all.html", "fleet", "policy.json")
        self.assertEqual((0, "", ""), (found.returncode, found.stdout, found.stderr))
        self.assertEqual(["a.service.html", "c.service.html", "web.service.html"], sorted(os.listdir(f"{self.place}/all-units")))
        text = Path(self.place, "all.html").read_text("utf-8")
        for part in ("<header><h1>All units</h1><p>Judged by the base profile,", '<a href="all-units/a.service.html">a.service</a>', "denied 18, open 57", "<code>CapabilityBoundingSet= (closes 51)</code>",
                     "refused d.service masked"):  # fmt: skip
            self.assertIn(part, text)
        self.assertLess(text.index("a.service.html"), text.index("web.service.html"))


if __name__ == "__main__":
    unittest.main()
