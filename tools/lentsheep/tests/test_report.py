"""Tests the reader of printed texts: each printed form, refused and cut texts, and what no rule reads."""
import sys
import unittest
from pathlib import Path

TOP = Path(__file__).resolve().parents[3]
sys.path.insert(0, str(TOP / "tools"))

from lentsheep import values
from lentsheep.calls import Call, read_call
from lentsheep.report import parse, read_question
from lentsheep.values import (
    Answer, CallData, Counts, FleetRow, Launched, LaunchKilled, LaunchPrivileged, LaunchRefused, Mount, Note, Question, Refusal,
    ScoreTest,
)  # fmt: skip
from lentsheep.words import escaped, unescaped

JUDGED = """\
unit a%20b.service
note etc/systemd/system/web%25.service 6 unjudged
note etc/systemd/system/web.service 7 no-equals
launched uid 33 gid 34 nnp yes steps 56
open see /
  1 stat /
denied write /etc/a%0Ab
open exec /usr/bin/su
  1 mount / /proc 0 0 0 4096
  1 execve /proc/usr/bin/su
open call read
  1 read
open socket AF_INET
  1 i386:socketcall 2 1
denied ns user
open map-wx
  1 mmap 0 0 6
open cap CAP_SYS_ADMIN
open gid 4
  1 setgroups [1,4]
blind /home
blind /tmp/a%20b
summary denied 2 open 7
"""


def call(text, name, payload=(), args=(), abi=None, pid=1):
    """A call with its text."""
    return Call(pid, name, abi, payload, args, text)


class Words(unittest.TestCase):
    """Escaped words."""

    def test_both_ways(self):
        # the bytes up to 0x20, 0x7f and % are escaped; others, as those of an accented letter, stand as they are
        for text, word in [("a b", "a%20b"), ("100%", "100%25"), ("\n\x7f", "%0A%7F"), ("/\u00e9\u2028", "/\u00e9\u2028"), ("", "")]:
            self.assertEqual(word, escaped(text))
            self.assertEqual(text, unescaped(word))

    def test_what_is_no_escape(self):
        self.assertEqual(["%", "%g0", " /", "\udcff"], [unescaped(word) for word in ("%", "%g0", "%20/", "%ff")])


class Calls(unittest.TestCase):
    """Lines of scripts."""

    def test_forms(self):
        for text, wanted in [
            ("1 open /var/lib/web/db 0 1", call("1 open /var/lib/web/db 0 1", "open", ("/var/lib/web/db",), (0, 1))),
            ("1 open /a%20b", call("1 open /a%20b", "open", ("/a b",))),
            ("2 mount / /proc 0 0 0 0x1000", call("2 mount / /proc 0 0 0 0x1000", "mount", ("/", "/proc"), (0, 0, 0, 4096), pid=2)),
            ("1 capset 1 2 3", call("1 capset 1 2 3", "capset", ("1", "2", "3"))),
            ("1 setgroups []", call("1 setgroups []", "setgroups", ("[]",))),
            ("1 seccomp - 1", call("1 seccomp - 1", "seccomp", ("-",), (1,))),
            ("1 #999 7", call("1 #999 7", "#999", (), (7,))),
            ("1 i386:#102 1", call("1 i386:#102 1", "#102", (), (1,), "i386")),
            ("1 i386:socketcall 2 1", call("1 i386:socketcall 2 1", "socketcall", ("2",), (1,), "i386")),
            ("1 read 18446744073709551615", call("1 read 18446744073709551615", "read", (), (2**64 - 1,))),
            ("1 openat2 /a%20b 1 0 0 0 24", call("1 openat2 /a%20b 1 0 0 0 24", "openat2", ("/a b", "1"), (0, 0, 0, 24))),
            ("1 clone3 131072", call("1 clone3 131072", "clone3", ("131072",))),
            ("1 io_uring_enter", call("1 io_uring_enter", "io_uring_enter")),
            ("1 io_uring_enter open /a 1 3", call("1 io_uring_enter open /a 1 3", "io_uring_enter", ("open", "/a", "1"), (3,))),
            ("1 io_uring_enter mode 2048", call("1 io_uring_enter mode 2048", "io_uring_enter", ("mode", "2048"))),
        ]:
            self.assertEqual(wanted, read_call(text), text)

    def test_paths(self):
        for text, wanted in [
            ("1 execveat /a", ("/a",)), ("1 openat2 /a 0", ("/a",)), ("1 mount /a /b", ("/a", "/b")), ("1 io_uring_enter stat /a%20b", ("/a b",)),
            ("1 io_uring_enter open /a 0", ("/a",)), ("1 io_uring_enter socket 1", ()), ("1 clone3 0", ()), ("1 capset 1 2 3", ()),
        ]:  # fmt: skip
            self.assertEqual(wanted, read_call(text).paths, text)

    def test_without_the_key(self):
        # calls that the base profile lacks carry nothing there
        for text, args in [("1 openat2 0 0 0 24", (0, 0, 0, 24)), ("1 clone3", ()), ("1 sched_setattr 1", (1,)), ("1 io_uring_enter 3 1", (3, 1))]:
            name = text.split()[1]
            self.assertEqual(call(text, name, (), args), read_call(text, False), text)
        replay = parse(f"launched uid 0 gid 0 nnp no steps 4\n1 clone3 -> errno 38\ncalls 1\n", "replay", False)
        self.assertEqual((True, (), 1), (replay.whole, replay.unread, len(replay.replies)))

    def test_what_is_none(self):
        for text in ["", "1", "x read", "1 open", "1 read 1 2 3 4 5 6 7", "1 read x", "1 mount /", "1  read", "1 re%20ad", "1 clone3",
                     "1 openat2 /a", "1 io_uring_enter mode", "1 io_uring_enter send 1"]:  # fmt: skip
            self.assertIsNone(read_call(text), text)


class Judge(unittest.TestCase):
    """The report."""

    def test_whole(self):
        report = parse(JUDGED)
        self.assertEqual((True, (), None), (report.whole, report.unread, report.refusal))
        self.assertEqual("a b.service", report.unit)
        notes = (
            Note("etc/systemd/system/web%.service", 6, "unjudged"), Note("etc/systemd/system/web.service", 7, "no-equals"),
        )  # fmt: skip
        self.assertEqual(notes, report.notes)
        self.assertEqual(Launched(33, 34, True, 56), report.launch)
        self.assertEqual(Counts(2, 7), report.summary)
        self.assertEqual(("/home", "/tmp/a b"), report.blind)
        answers = (
            Answer(Question("see", "/"), True, (call("1 stat /", "stat", ("/",)),)),
            Answer(Question("write", "/etc/a\nb"), False),
            Answer(
                Question("exec", "/usr/bin/su"), True,
                (
                    call("1 mount / /proc 0 0 0 4096", "mount", ("/", "/proc"), (0, 0, 0, 4096)),
                    call("1 execve /proc/usr/bin/su", "execve", ("/proc/usr/bin/su",)),
                ),
            ),
            Answer(Question("call", "read"), True, (call("1 read", "read"),)),
            Answer(Question("socket", "AF_INET"), True, (call("1 i386:socketcall 2 1", "socketcall", ("2",), (1,), "i386"),)),
            Answer(Question("ns", "user"), False),
            Answer(Question("map-wx"), True, (call("1 mmap 0 0 6", "mmap", (), (0, 0, 6)),)),
            Answer(Question("cap", "CAP_SYS_ADMIN"), True),
            Answer(Question("gid", "4"), True, (call("1 setgroups [1,4]", "setgroups", ("[1,4]",)),)),
        )  # fmt: skip
        self.assertEqual(answers, report.answers)
        self.assertEqual(["denied", "open"], [answers[1].verdict, answers[0].verdict])

    def test_launches_that_are_not_made(self):
        for line, launch in [
            ("launch refused step 51 errno 2", LaunchRefused(51, 2)), ("launch killed step 5", LaunchKilled(5)),
            ("launch privileged /usr/bin/a%20b", LaunchPrivileged("/usr/bin/a b")),
        ]:  # fmt: skip
            report = parse(f"unit web.service\n{line}\n")
            self.assertEqual((launch, True, (), None), (report.launch, report.whole, report.answers, report.summary))

    def test_cut_texts(self):
        # a text is cut anywhere: what was printed whole is read, the rest is not there, and it is not whole
        answers = parse(JUDGED).answers
        for at in range(len(JUDGED)):
            report = parse(JUDGED[:at], "judge")
            self.assertFalse(report.whole, at)
            self.assertEqual((), report.unread, at)
            told = [(answer.question, answer.is_open) for answer in report.answers]
            self.assertEqual([(answer.question, answer.is_open) for answer in answers[: len(told)]], told)
        report = parse("unit web.service\nopen read /etc\n  1 open /e", "judge")
        self.assertEqual((Answer(Question("read", "/etc"), True),), report.answers)

    def test_bytes_that_are_no_text(self):
        report = parse(b"unit web.service\ndenied see /\xff\n", "judge")
        self.assertEqual("/\udcff", report.answers[0].question.name)

    def test_lines_end_in_line_feeds_alone(self):
        report = parse("denied see /a\u2028b\x85c\n", "judge")
        self.assertEqual(("/a\u2028b\x85c", ()), (report.answers[0].question.name, report.unread))

    def test_unread(self):
        for line in ["  1 read", "open see", "open uid x", "denied see /a /b", "opened see /", "blind", "summary denied 1", "", "x"]:
            self.assertEqual((line,), parse(f"unit web.service\n{line}\n").unread)

    def test_questions_read_back(self):
        for text in ["see /a%20b", "map-wx", "suid-bit", "uid 0", "cap CAP_CHOWN", "ns mnt", "socket AF_UNIX"]:
            self.assertEqual(text, read_question(text).text)
        for text in ["", "see", "map-wx 1", "uid", "gid -1", "look /"]:
            self.assertIsNone(read_question(text))


class Others(unittest.TestCase):
    """The texts of the other commands."""

    def test_plan(self):
        text = "mount / host / ro exec\nmount /a%20b host /c rw noexec\nmount /tmp empty rw exec nosuid\nmount /x hidden\nmounts 4\n"
        plan = parse(text)
        mounts = (
            Mount("/", "host", "/", False, True), Mount("/a b", "host", "/c", True, False),
            Mount("/tmp", "empty", None, True, True, True), Mount("/x", "hidden"),
        )  # fmt: skip
        self.assertEqual((mounts, 4, True, ()), (plan.mounts, plan.count, plan.whole, plan.unread))
        self.assertFalse(parse(text[:-1]).whole)
        for line in ("mount /x hidden ro exec", "mount /x hidden nosuid"):
            self.assertEqual((line,), parse(line + "\nmounts 1\n").unread)

    def test_filter(self):
        # code 0x20, the word at 4; code 0x15 jumps 7 and 0, with 0xc000003e; the second program is that of another ABI
        text = "filter calls 2\n2000000004000000\n150007003e0000c0\nfilter calls 1\n060000000000ff7f\nfilters 2\n"
        filters = parse(text)
        self.assertEqual([("calls", 2, 0), ("calls", 1, 1)], [(it.name, it.length, it.abi) for it in filters.filters])
        jump = filters.filters[0].program[1]
        self.assertEqual((0x15, 7, 0, 0xC000003E, "150007003e0000c0"), (jump.code, jump.jt, jump.jf, jump.k, jump.text))
        self.assertEqual((2, True), (filters.count, filters.whole))
        self.assertEqual((0, True), (parse("filters 0\n").count, parse("filters 0\n").whole))

    def test_replay(self):
        replay = parse("launched uid 0 gid 0 nnp no steps 2\n1 open /a -> ok 3\n1 #9 -> errno 38\n2 exit -> killed\ncalls 3\n")
        self.assertEqual([("ok", 3), ("errno", 38), ("killed", None)], [(it.outcome, it.value) for it in replay.replies])
        self.assertEqual((3, True, Launched(0, 0, False, 2)), (replay.count, replay.whole, replay.launch))
        # a path may have the arrow in it, but no space
        self.assertEqual(("/->",), parse("1 open /-> -> ok 3\n", "replay").replies[0].call.payload)
        self.assertTrue(parse("launch killed step 5\n").whole)

    def test_score(self):
        score = parse("test A%20 badness 1 range 2 weight 3 term 2\nskip B\nexposure 38 threshold 100\n")
        self.assertEqual((ScoreTest("A ", 1, 2, 3, 2), ScoreTest("B")), score.tests)
        self.assertEqual((38, 100, True, True), (score.exposure, score.threshold, score.whole, score.tests[1].skipped))

    def test_sample(self):
        sample = parse("sample 7\nrows 1045\nquestions 3531\ndenied 1\nopen 3530\n")
        told = (sample.number, sample.rows, sample.questions, sample.denied, sample.open, sample.whole)
        self.assertEqual((7, 1045, 3531, 1, 3530, True), told)

    def test_check(self):
        self.assertEqual((7, None), (parse("same paths 7\n").paths, parse("same paths 7\n").differs))
        text = "differs nr 39 arch 3221225534 ip 0 args 0 0 0 0 0 9 theirs 2147483648 ours 2147418112\n"
        wanted = CallData(39, 0xC000003E, 0, (0, 0, 0, 0, 0, 9), 0x80000000, 0x7FFF0000)
        self.assertEqual(wanted, parse(text).differs)

    def test_fleet(self):
        fleet = parse("unit a.service exposure 100\nrefused d.service masked\nunits 2 refused 1\n")
        wanted = (FleetRow("a.service", 100), FleetRow("d.service", None, Refusal("d.service", ("masked",))))
        self.assertEqual((wanted, 2, 1, True), (fleet.rows, fleet.units, fleet.refused, fleet.whole))
        self.assertEqual(0, parse("units 0 refused 0\n").units)

    def test_tighten(self):
        text = "add PrivateTmp=yes\nadd CapabilityBoundingSet=\nbefore denied 1 open 131\nafter denied 84 open 48\nitems 2\n"
        tighten = parse(text)
        self.assertEqual(("PrivateTmp=yes", "CapabilityBoundingSet="), tighten.items)
        self.assertEqual((Counts(1, 131), Counts(84, 48), 2), (tighten.before, tighten.after, tighten.count))

    def test_derive(self):
        derive = parse("[Service]\nSystemCallFilter=\nSystemCallFilter=@default read\n")
        self.assertEqual(("[Service]", "SystemCallFilter=", "SystemCallFilter=@default read"), derive.lines)
        self.assertEqual((True, ()), (derive.whole, derive.unread))

    def test_effect(self):
        text = "closed see /home\nopened read /a%20b\n  1 open /a%20b\nopened realtime\n  1 sched_setscheduler 1 1\nhidden /home\nshown /tmp\n"
        effect = parse(f"{text}effect closed 1 opened 2 hidden 1 shown 1\n")
        self.assertEqual(("effect", True, ()), (effect.command, effect.whole, effect.unread))
        self.assertEqual(["see /home"], [it.text for it in effect.closed])
        wanted = [("read", "/a b", ["1 open /a%20b"]), ("realtime", "", ["1 sched_setscheduler 1 1"])]
        found = [(it.question.kind, it.question.name, [call.text for call in it.calls]) for it in effect.opened]
        self.assertEqual((wanted, ("/home",), ("/tmp",)), (found, effect.hidden, effect.shown))
        self.assertEqual(values.Changes(1, 2, 1, 1), effect.counts)
        self.assertFalse(parse(text).whole, "no last line")

    def test_effect_without_a_service(self):
        nothing = parse("effect closed 0 opened 0 hidden 0 shown 0\n")
        self.assertEqual((values.Changes(0, 0, 0, 0), True), (nothing.counts, nothing.whole))
        refused = parse("with refused web.service line 2 filter\n")
        self.assertEqual((None, Refusal("web.service", ("line", "2", "filter"))), (refused.refusal, refused.with_refusal))
        launched = parse("with launch refused step 3 errno 1\n", "effect")
        self.assertEqual((None, values.LaunchRefused(3, 1), True), (launched.launch, launched.with_launch, launched.whole))
        alone = parse("launch killed step 2\n", "effect")
        self.assertEqual((values.LaunchKilled(2), None, True), (alone.launch, alone.with_launch, alone.whole))

    def test_why(self):
        text = "denied cap CAP_SYS_ADMIN\nby etc/a%20b.service 7 User=web\nby etc/c.conf 12 CapabilityBoundingSet=CAP_CHOWN%20CAP_KILL\n"
        why = parse(f"{text}lines 2\n")
        wanted = (values.UnitLine("etc/a b.service", 7, "User=web"), values.UnitLine("etc/c.conf", 12, "CapabilityBoundingSet=CAP_CHOWN CAP_KILL"))
        self.assertEqual(("why", True, (), wanted, 2), (why.command, why.whole, why.unread, why.by, why.count))
        self.assertEqual(("cap CAP_SYS_ADMIN", False), (why.answer.question.text, why.answer.is_open))
        self.assertFalse(parse(text).whole, "no last line")
        opened = parse("open read /a\n  1 open /a\n")
        self.assertEqual((True, ["1 open /a"]), (opened.whole, [call.text for call in opened.answer.calls]))

    def test_why_each_line(self):
        text = "line etc/a%20b.service 2 ExecStart=/a%20-b needed\nline etc/c.conf 3 User=web opens 2\nopened uid 0\nopened read /a%20b\nline etc/c.conf 4 Group= opens 0\n"
        why = parse(f"{text}lines 3 idle 1\n")
        self.assertEqual(("why", True, (), 3, 1), (why.command, why.whole, why.unread, why.count, why.idle))
        wanted = [
            ("etc/a b.service", 2, "ExecStart=/a -b", True, None, []), ("etc/c.conf", 3, "User=web", False, 2, ["uid 0", "read /a%20b"]),
            ("etc/c.conf", 4, "Group=", False, 0, []),
        ]  # fmt: skip
        found = [(it.file, it.line, it.text, it.needed, it.count, [question.text for question in it.opened]) for it in why.each]
        self.assertEqual(wanted, found)
        self.assertFalse(parse(text).whole, "no last line")

    def test_why_without_lines(self):
        nothing = parse("denied ns user\nnothing\n")
        self.assertEqual((True, True, ()), (nothing.nothing, nothing.whole, nothing.by))
        bare = parse("denied read /a\nwithout refused web.service no-path /a\n")
        self.assertEqual((Refusal("web.service", ("no-path", "/a")), None, True), (bare.without_refusal, bare.refusal, bare.whole))
        killed = parse("denied read /a\nwithout launch killed step 2\n")
        self.assertEqual((values.LaunchKilled(2), None, True), (killed.without_launch, killed.launch, killed.whole))
        self.assertEqual(values.LaunchKilled(2), parse("launch killed step 2\n", "why").launch)

    def test_refusals(self):
        for text, what, cause in [
            ("refused words", "words", ()), ("refused a%20b bad-name", "a b", ("bad-name",)),
            ("refused etc/a.service line 1 header", "etc/a.service", ("line", "1", "header")),
            ("refused web.service no-path /no%20pe", "web.service", ("no-path", "/no pe")),
        ]:  # fmt: skip
            for command in ("judge", "plan", "filter", "replay", "score", "check", "fleet", "tighten", "derive", "effect", "why", "what", None):
                found = parse(f"{text}\n", command)
                self.assertEqual((Refusal(what, cause), True, ()), (found.refusal, found.whole, found.unread))
            self.assertEqual(text, found.refusal.text)
            self.assertIsNone(parse(text).refusal, "cut")

    def test_empty_texts(self):
        # a read that failed prints nothing
        for command in ("judge", "plan", "filter", "replay", "score", "sample", "check", "fleet", "tighten", "effect", "why"):
            found = parse("", command)
            self.assertEqual((command, False, None), (found.command, found.whole, found.refusal))
        self.assertIsInstance(parse(b"\x00\xff\n"), values.Unknown)


if __name__ == "__main__":
    unittest.main()
