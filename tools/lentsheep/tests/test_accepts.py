"""Tests the lines `accept ..` of files of expectations, over reports that are written out here."""
import sys
import unittest
from pathlib import Path

TOP = Path(__file__).resolve().parents[3]
sys.path.insert(0, str(TOP / "tools"))

from lentsheep.compare import changes
from lentsheep.expect import Accepted, Fault, accepted_by, failures, read_expectations
from lentsheep.report import parse

OLD = """\
unit web.service
launched uid 33 gid 33 nnp yes steps 5
denied write /etc/a
denied write /etc/b
summary denied 2 open 0
"""
NEW = """\
unit web.service
launched uid 33 gid 33 nnp yes steps 5
open write /etc/a
  1 open /etc/a 0 1
open write /etc/b
  1 open /etc/b 0 1
open write /etc/c
  1 open /etc/c 0 1
summary denied 0 open 3
"""


class Accepts(unittest.TestCase):
    """What may stay, with a reason."""

    def test_reading(self):
        for line, wanted in [
            ("accept open write /etc/a # the package edits it", Accepted("open", "write /etc/a", "the package edits it")),
            ("accept parting run-writable  # PID file", Accepted("parting", "run-writable", "PID file")),
            ("accept note PrivateTmp=a b # old systemd", Accepted("note", "PrivateTmp=a b", "old systemd")),
        ]:
            self.assertEqual(wanted, read_expectations(line)[0].accepted)

    def test_faults(self):
        for line, wanted in [
            ("accept open write /etc/a", "line 1 needs a reason: accept open write /etc/a # REASON"),
            ("accept open write /etc/a #", "line 1 needs a reason: accept open write /etc/a # REASON"),
            ("accept open nonsense # why", "line 1 is no expectation: accept open nonsense"),
            ("accept answer write /etc/a # why", "line 1 is no expectation: accept answer write /etc/a"),
        ]:
            with self.assertRaises(Fault) as raised:
                read_expectations(line)
            self.assertEqual(wanted, str(raised.exception))

    def test_an_accepted_answer_is_no_failure(self):
        report = parse(NEW, "judge")
        for accept, wanted in [
            ("", ["open write /etc/a\n    1 open /etc/a 0 1", "open write /etc/b\n    1 open /etc/b 0 1", "open write /etc/c\n    1 open /etc/c 0 1"]),
            ("accept open write /etc/a # why\n", ["open write /etc/b\n    1 open /etc/b 0 1", "open write /etc/c\n    1 open /etc/c 0 1"]),
        ]:
            expectations = read_expectations(f"{accept}denied write /etc\n")
            self.assertEqual(wanted, failures(expectations[-1], report, accepted_by(expectations, "open")))

    def test_an_accepted_answer_is_no_change(self):
        old, new = parse(OLD, "judge"), parse(NEW, "judge")
        for accepted, opened, added in [
            ([], ["write /etc/a", "write /etc/b"], ["write /etc/c"]), (["write /etc/a"], ["write /etc/b"], ["write /etc/c"]),
            (["write /etc/a", "write /etc/b", "write /etc/c"], [], []),
        ]:  # fmt: skip
            found = changes(old, new, frozenset(accepted))
            self.assertEqual((opened, added), ([it.question.text for it in found.opened], [it.question.text for it in found.added]))
            self.assertEqual(bool(opened or added), found.has_opened)


if __name__ == "__main__":
    unittest.main()
