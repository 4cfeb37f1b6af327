"""Tests JSON with its schema, expectations, baselines and comparisons, over texts that are written out here."""
import json
import sys
import unittest
from pathlib import Path

TOP = Path(__file__).resolve().parents[3]
sys.path.insert(0, str(TOP / "tools"))
sys.path.insert(0, str(TOP / "tools/lentsheep/tests"))

import test_brief
import test_report
from lentsheep import bpf
from lentsheep.brief import View
from lentsheep.compare import changes, lines_of
from lentsheep.expect import Fault, baseline, failures, read_expectations, rows_for
from lentsheep.jsonform import json_of
from lentsheep.notes import told_notes
from lentsheep.partings import partings_by_text
from lentsheep.program import Run
from lentsheep.report import parse, read_instruction
from lentsheep.schema import faults, read_schema

TEXTS = {
    "judge": test_report.JUDGED,
    "plan": "mount / host / ro exec\nmount /tmp empty rw exec\nmount /x hidden\nmounts 3\n",
    "filter": "filter calls 2\n2000000000000000\n060000000000ff7f\nfilters 1\n",
    "replay": "launched uid 0 gid 0 nnp no steps 2\n1 open /a -> ok 3\n2 exit -> killed\ncalls 2\n",
    "score": "test A badness 1 range 2 weight 3 term 2\nskip B\nexposure 38 threshold 100\n",
    "sample": "sample 7\nrows 1045\nquestions 3531\ndenied 1\nopen 3530\n",
    "check": "differs nr 39 arch 3221225534 ip 0 args 0 0 0 0 0 18446744073709551615 theirs 2147483648 ours 2147418112\n",
    "fleet": "unit a.service exposure 100\nrefused d.service masked\nunits 2 refused 1\n",
    "tighten": "add PrivateTmp=yes\nbefore denied 1 open 131\nafter denied 84 open 48\nitems 1\n",
    "derive": "[Service]\nSystemCallFilter=\nSystemCallFilter=@default read\n",
    "effect": "closed see /home\nopened read /tmp\n  1 open /tmp\nhidden /home\nshown /tmp\neffect closed 1 opened 1 hidden 1 shown 1\n",
    "why": "denied cap CAP_SYS_ADMIN\nby etc/a.service 7 User=web\nby etc/a.service 12 CapabilityBoundingSet=\nlines 2\n",
    "lines": "line etc/a.service 2 ExecStart=/a needed\nline etc/a.service 3 User=web opens 1\nopened uid 0\nlines 2 idle 0\n",
    "other": "what is this\n",
}


def as_json(text, command=None, status=0, view=None):
    """The JSON of a text, read back."""
    run = Run((command or "judge", "web.service"), text, parse(text, command), status)
    return json.loads(json.dumps(json_of(run, view)))


class Form(unittest.TestCase):
    """The JSON form."""

    def test_every_command_is_of_the_schema(self):
        schema = read_schema()
        for command, text in TEXTS.items():
            for cut in (len(text), len(text) - 1, len(text) // 2, 0):
                found = as_json(text[:cut], command)
                self.assertEqual([], faults(found, schema), (command, cut))
            self.assertEqual([], faults(as_json("refused web.service no-path /a\n", command, 3), schema))

    def test_every_answer_is_there(self):
        for text in (test_report.JUDGED, test_brief.ROOT):
            found = as_json(text)["result"]
            lines = []
            for answer in found["answers"]:
                lines.append(f"{answer['verdict']} {answer['question']}")
                lines += [f"  {call['text']}" for call in answer["calls"]]
            wanted = [line for line in text.split("\n") if line.startswith(("open ", "denied ", "  "))]
            self.assertEqual(wanted, lines)
            kinds = found["kinds"].values()
            self.assertEqual(found["summary"]["denied"], sum(kind["denied"] for kind in kinds))
            self.assertEqual(found["summary"]["open"], sum(kind["open"] for kind in kinds))
            self.assertEqual(
                sum(answer["state"] == "in steps" for answer in found["answers"]), sum(kind["in_steps"] for kind in kinds)
            )

    def test_view(self):
        report = parse(test_brief.ROOT)
        view = View(report, None, test_brief.TABLE, told_notes(report.notes, [test_brief.UNIT]), partings_by_text([test_brief.UNIT]))
        found = as_json(test_brief.ROOT, view=view)
        self.assertEqual([], faults(found, read_schema()))
        cause = found["result"]["causes"][0]
        self.assertEqual((3, "mounts", "CAP_SYS_ADMIN"), (cause["count"], cause["need"], cause["by"]))
        self.assertEqual("1 mount / /proc 0 0 0 4096", cause["example"]["calls"][0]["text"])
        self.assertEqual("ProtectSystem", found["result"]["notes"][1]["nearest"])
        home = {"path": "/home", "state": "in steps", "rows": 1, "alone": False}
        self.assertEqual({"everywhere": "open", "but": [home]}, found["result"]["folders"]["see"])

    def test_numbers_that_json_readers_would_round_are_texts(self):
        self.assertEqual(str(2**64 - 1), as_json(TEXTS["check"], "check")["result"]["differs"]["arguments"][5])

    def test_instructions(self):
        for word, wanted in [
            ("2000000004000000", "A = arch"), ("2000000018000000", "A = arg 1 low"), ("5400000007000000", "A = A & 7"),
            ("150001003e0000c0", "if A == 3221225534 skip 1 else skip 0"), ("0500000003000000", "skip 3"),
            ("450000010a000000", "if A & 10 skip 0 else skip 1"), ("060000000000ff7f", "end allow"), ("0600000001000500", "end errno 1"),
            ("0600000000000080", "end kill-process"),
            ("1d00000100000000", "if A == X skip 0 else skip 1"), ("0c00000000000000", "A = A + X"), ("ffff000000000000", "? 0xffff"),
        ]:  # fmt: skip
            self.assertEqual(wanted, bpf.described(read_instruction(word)), word)


class Schema(unittest.TestCase):
    """The validator."""

    def test_faults(self):
        rule = {
            "type": "object", "required": ["a"], "additionalProperties": False,
            "properties": {"a": {"type": "integer", "minimum": 0}, "b": {"type": "array", "items": {"enum": ["x", None]}}},
        }  # fmt: skip
        self.assertEqual([], faults({"a": 0, "b": ["x", None]}, rule))
        for value, count in [({}, 1), ({"a": -1}, 1), ({"a": True}, 1), ({"a": 1, "c": 2}, 1), ({"a": 1, "b": ["y", "x", 1]}, 2), ([], 1)]:
            self.assertEqual(count, len(faults(value, rule)), value)
        self.assertEqual([], faults(1, {"anyOf": [{"type": "string"}, {"const": 1}]}))
        self.assertEqual(1, len(faults(2, {"anyOf": [{"type": "string"}, {"const": 1}]})))
        self.assertEqual([], faults([1], {"$ref": "#/$defs/x", "$defs": {"x": {"items": {"type": "integer"}}}}))
        self.assertRaises(ValueError, faults, 1, {"pattern": "x"})

    def test_schema_refuses(self):
        schema = read_schema()
        for change in ({"version": 2}, {"command": "x"}, {"status": "0"}, {"more": 1}, {"result": {}}, {"whole": None}):
            self.assertNotEqual([], faults({**as_json(TEXTS["plan"]), **change}, schema), change)


class Expect(unittest.TestCase):
    """Expectations."""

    def reasons(self, line, report=None):
        """Why a line does not hold."""
        (expectation,) = read_expectations(line)
        return failures(expectation, report or parse(test_brief.ROOT))

    def test_lines(self):
        found = read_expectations("# all\n\ndenied write /etc/shadow  # a secret\nblind /srv\n exposure <= 40\nexposure my%20own.json <= 5")
        told = [(it.line, it.question.text if it.question else "", it.is_open, it.blind, it.most, it.policy) for it in found]
        wanted = [
            (3, "write /etc/shadow", False, None, None, None), (4, "", False, "/srv", None, None), (5, "", False, None, 40, None),
            (6, "", False, None, 5, "my own.json"),
        ]  # fmt: skip
        self.assertEqual(wanted, told)

    def test_a_name_may_have_a_hash(self):
        self.assertEqual("see /a#b", read_expectations("open see /a#b")[0].question.text)

    def test_faults(self):
        for line in ["deny write /etc", "open", "open writes /a", "blind srv", "exposure < 4", "exposure <= 4000", "exposure"]:
            with self.assertRaises(Fault, msg=line) as raised:
                read_expectations(f"open see /\n{line}")
            self.assertIn("line 2", str(raised.exception))

    def test_answers(self):
        for line in [
            "open see /", "open write /etc", "open write /var/lib/web", "denied map-wx", "open cap CAP_SYS_TIME", "denied uid 33",
            "denied call reboot",
        ]:  # fmt: skip
            self.assertEqual([], self.reasons(line), line)
        shadow = "open write /etc/shadow\n    1 mount / /proc 0 0 0 4096\n    1 mount / /proc 0 0 0 4128\n    1 open /proc/etc/shadow 0 1"
        self.assertEqual([shadow], self.reasons("denied write /etc/shadow"))
        self.assertEqual(2, len(self.reasons("denied write /etc")))
        self.assertEqual(["denied map-wx"], self.reasons("open map-wx"))
        self.assertEqual(["the report does not ask this"], self.reasons("denied call nothing"))
        self.assertEqual(["the report does not ask this"], self.reasons("denied write /et"))

    def test_blind(self):
        report = parse("unit a.service\nopen see /srv/a\n  1 stat /srv/a\nblind /home\n", "judge")
        self.assertEqual([], self.reasons("blind /home", report) + self.reasons("blind /home/a", report))
        self.assertEqual(["open see /srv/a\n    1 stat /srv/a"], self.reasons("blind /srv", report))
        self.assertEqual(["it is not blind"], self.reasons("blind /homes", report))

    def test_rows(self):
        text = "open see /\nopen read /\nopen see /etc\nopen read /etc\ndenied write /etc/passwd\nopen see /srv\nopen read /srv\n"
        report = parse(text, "judge")
        lines = "denied write /etc/shadow\ndenied write /etc\nopen write /srv\nopen exec /opt/a/b\ndenied read /etc\ndenied cap CAP_KILL"
        wanted = [
            ("/opt", "dir"), ("/opt/a", "dir"), ("/etc/shadow", "file"), ("/srv/.lentsheep-expects-file", "file"), ("/opt/a/b", "exe"),
        ]  # fmt: skip
        self.assertEqual(wanted, rows_for(read_expectations(lines), report))

    def test_baseline(self):
        report = parse(test_report.JUDGED)
        text = baseline(report)
        wanted = "# what a%20b.service is denied\ndenied write /etc/a%0Ab\ndenied ns user\nblind /home\nblind /tmp/a%20b\n"
        self.assertEqual(wanted, text)
        expectations = read_expectations(text)
        self.assertEqual([], [reason for it in expectations for reason in failures(it, report)])


class Compare(unittest.TestCase):
    """Comparisons."""

    OLD = """\
unit a.service
launched uid 1 gid 1 nnp yes steps 5
open see /a
  1 stat /a
denied write /a
denied call read
open cap CAP_KILL
denied ns mnt
blind /home
summary denied 3 open 2
"""
    NEW = """\
unit a.service
launched uid 0 gid 1 nnp yes steps 6
denied see /a
open write /a
  1 open /a 0 1
denied call read
open cap CAP_KILL
open uid 0
blind /srv
summary denied 2 open 3
"""

    def test_lines(self):
        wanted = [
            "launched uid 1 gid 1 nnp yes, now uid 0 gid 1 nnp yes", "opened write /a", "  1 open /a 0 1", "no longer blind /home",
            "closed see /a", "now blind /srv", "new open uid 0", "gone denied ns mnt", "changes opened 1 closed 1 new 1 gone 1",
        ]  # fmt: skip
        self.assertEqual(wanted, lines_of(changes(parse(self.OLD), parse(self.NEW))))

    def test_what_counts_as_opened(self):
        old, new = parse(self.OLD), parse(self.NEW)
        self.assertTrue(changes(old, new).has_opened)
        self.assertFalse(changes(old, old).has_opened)
        self.assertEqual(["changes opened 0 closed 0 new 0 gone 0"], lines_of(changes(old, old)))
        for line, opened in [("open see /b\n  1 stat /b\n", True), ("denied see /b\n", False)]:
            self.assertEqual(opened, changes(old, parse(self.OLD.replace("blind", line + "blind"))).has_opened)
        self.assertTrue(changes(old, parse(self.OLD.replace("blind /home\n", ""))).has_opened)


if __name__ == "__main__":
    unittest.main()
