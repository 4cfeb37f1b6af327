"""Tests what an answer was made by and of."""
import hashlib
import shutil
import sys
import tempfile
import unittest
from pathlib import Path

TOP = Path(__file__).resolve().parents[3]
sys.path.insert(0, str(TOP / "tools"))

from lentsheep.brief import View, brief
from lentsheep.identity import Identity, proved_by
from lentsheep.page import page_of
from lentsheep.report import parse
from lentsheep.screen import Page
from lentsheep.terminal import Paint

REPORT = "unit a.service\nlaunched uid 1 gid 1 nnp yes steps 1\ndenied map-wx\nsummary denied 1 open 0\n"


class Identities(unittest.TestCase):
    """The program and the sums of files."""

    def test_records(self):
        place = tempfile.mkdtemp()
        self.addCleanup(shutil.rmtree, place)
        program, record = Path(place, "program"), Path(place, "program.proved")
        program.write_bytes(b"a program")
        total = hashlib.sha256(b"a program").hexdigest()
        for text, wanted in [(None, ""), (f"kit\n{total}\n", "kit"), (f"kit\n{'0' * 64}\n", ""), ("kit\n", ""), ("", "")]:
            if text is not None:
                record.write_text(text)
            self.assertEqual(wanted, proved_by(str(program)), text)
        self.assertEqual("", proved_by(None))

    def test_where_it_is_told(self):
        made_by = Identity("lentsheep 9", "a kit", {"calls.txt": "12" * 32, "etc/systemd/system/a.service": "34" * 32})
        view = View(parse(REPORT, "judge"), identity=made_by)
        lines = brief(view, Page(100, Paint(False)))
        self.assertEqual("made by     lentsheep 9, proved by a kit; calls.txt 121212121212, a.service 343434343434", lines[-1])
        for part in ("lentsheep 9, proved by a kit", "34" * 32, "etc/systemd/system/a.service"):
            self.assertIn(part, page_of(view))
        self.assertEqual("lentsheep 9, not known to be proved", Identity("lentsheep 9", "", {}).build)


if __name__ == "__main__":
    unittest.main()
