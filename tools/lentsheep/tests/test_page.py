"""Tests the page: its text, the decision trees of filters, and, where there is a Chromium, the page as it is used."""
import json
import os
import re
import shutil
import subprocess
import sys
import tempfile
import unittest
from pathlib import Path

TOP = Path(__file__).resolve().parents[3]
sys.path.insert(0, str(TOP / "tools"))

from lentsheep.brief import View
from lentsheep.decisions import End, Numbers, decision_tree, narrowed
from lentsheep.page import page_of, read_names
from lentsheep.page_tree import is_alike, others_of, tree_of
from lentsheep.notes import told_notes
from lentsheep.partings import UnitFile, partings_by_text
from lentsheep.report import parse

REPORT = """\
unit web.service
note etc/systemd/system/web.service 6 unjudged
launched uid 33 gid 33 nnp yes steps 9
open see /
  1 stat /
open see /etc
  1 stat /etc
open write /etc/<cron>
  1 umount2 /etc
  1 open /etc/<cron> 0 1
denied write /etc/passwd
denied write /etc/shadow
open see /srv
  1 stat /srv
denied see /tmp
open exec /usr/bin/web
  1 execve /usr/bin/web
open call read
  1 read
denied call ptrace
denied socket AF_PACKET
denied ns user
open map-wx
  1 mmap 0 0 6
denied cap CAP_SYS_ADMIN
denied uid 0
open uid 33
blind /tmp
blind /tmp/x
summary denied 8 open 8
"""
# Of another architecture than x86-64 everything ends the process. Numbers from 60 on are refused with EPERM, and so is 41
# (socket) with another first argument than 2; all others are allowed.
FILTER = """\
filter calls 10
2000000004000000
150000073e0000c0
2000000000000000
350004003c000000
1500000229000000
2000000010000000
1500000102000000
060000000000ff7f
0600000001000500
0600000000000080
filter families 6
2000000000000000
1500000229000000
2000000010000000
1500010010000000
060000000000ff7f
0600000061000500
filters 2
"""
# The second looks at socket alone: family 16 answers 97.
NAMES = {"read": 0, "socket": 41}
CHROMIUM = next(filter(None, map(shutil.which, ("chromium", "chromium-browser", "google-chrome"))), None)


def made(**more):
    """The page of the report above."""
    return page_of(View(parse(REPORT, "judge"), **more), parse(FILTER, "filter"), NAMES)


class Text(unittest.TestCase):
    """What the page's text has."""

    def test_stands_by_itself(self):
        text = made()
        self.assertEqual([], re.findall(r"""(?:src|href)=["']?(?!#)[^"'> ]+""", text))
        self.assertNotIn("//", re.sub(r"^\s*//.*$", "", text, flags=re.M))
        self.assertIn("default-src 'none'", text)

    def test_each_answer_is_there_with_its_calls(self):
        found = re.search(r'<script type="application/json" id="data">(.*?)</script>', made(), re.S)[1]
        self.assertNotIn("<", found)
        lines = [line for answer in json.loads(found)["answers"] for line in [answer[0], *("  " + it for it in answer[1:])]]
        wanted = [line for line in REPORT.split("\n") if line.startswith(("open ", "denied ", "  "))]
        self.assertEqual(wanted, lines)
        places = [int(at) for it in re.findall(r'data-a="([0-9 ]+)"', made()) for at in it.split()]
        self.assertEqual(list(range(16)), sorted(places))

    def test_why_open(self):
        text = made()
        # one answer needs a mount taken away first
        self.assertIn("it can take mounts away (CAP_SYS_ADMIN is held)", text)
        self.assertIn("<code>1 umount2 /etc</code><br><code>1 open /etc/&lt;cron&gt; 0 1</code>", text)
        self.assertIn('<td class="">write</td><td class=""><span class="denied">2</span></td>', text)

    def test_names_are_escaped(self):
        self.assertIn("&lt;cron&gt;", made())
        self.assertNotIn("<cron>", made())

    def test_partings_and_notes(self):
        files = [UnitFile("etc/systemd/system/web.service", "[Service]\nProtectSystem=strict\n\n\n\nRestrat=always\n")]
        text = made(partings=partings_by_text(files), notes=told_notes(parse(REPORT, "judge").notes, files))
        self.assertIn("<td class=\"\">ProtectSystem=</td><td class=\"\">denied here, open there</td>", text)
        self.assertIn("<td class=\"\">web.service:6</td>", text)
        self.assertIn("<td class=\"\">no key of systemd (Restart= is meant?): Restrat=always</td>", text)
        # /tmp/x stands in /tmp
        self.assertIn("<code>/tmp</code></p>", text)

    def test_other_texts(self):
        for text, wanted in [
            ("refused web.service masked\n", "refused web.service masked"),
            ("unit web.service\nlaunch refused step 7 errno 2\n", "step 7 is refused with ENOENT"),
            ("unit web.service\nlaunch killed step 7\n", "a filter ends it at step 7"),
            ("unit web.service\nlaunch privileged /bin/su\n", "/bin/su has a set-id bit"),
            ("unit web.service\nlaunched uid 0 gid 0 nnp no steps 2\nopen see /", "was cut"),
        ]:
            self.assertIn(wanted, page_of(View(parse(text, "judge"))))

    def test_numbers_of_calls(self):
        self.assertEqual({"read": 0}, read_names("abi x86-64 c000003e\ncall read 0\nfamily AF_UNIX 1\n# call write 1\n"))


class Tree(unittest.TestCase):
    """The tree of files."""

    def test_folds(self):
        root = tree_of(parse(REPORT, "judge"))
        self.assertEqual(["etc", "srv", "tmp", "usr"], sorted(root.below))
        self.assertFalse(is_alike(root))
        self.assertFalse(is_alike(root.below["etc"]))
        self.assertTrue(is_alike(root.below["usr"]))
        self.assertEqual(9, root.count())

    def test_others(self):
        lines = [f"denied write /etc/{letter}" for letter in "abcdefg"] + ["open write /etc/h", "open see /etc/i", "denied see /j"]
        node = tree_of(parse("unit web.service\n" + "\n".join(lines) + "\n", "judge")).below["etc"]
        # /etc/h may be written, and /etc/i says nothing of writing but is asked another question
        self.assertEqual([f"/etc/{letter}" for letter in "abcdefg"], sorted(child.path for child in others_of(node)))
        self.assertEqual([], others_of(node.below["a"]))


def ended(program, words):
    """What a program returns for the words of a call's data, as linux/filter.h has it."""
    at, word = 0, 0
    while True:
        code, yes, no, value = program[at].code, program[at].jt, program[at].jf, program[at].k
        if code == 0x06:
            return at
        if code == 0x20:
            word = words[value // 4]
        elif code == 0x54:
            word &= value
        elif code == 0x05:
            at += value
        else:
            at += yes if {0x15: word == value, 0x25: word > value, 0x35: word >= value, 0x45: word & value}[code] else no
        at += 1


class Decisions(unittest.TestCase):
    """The decision trees of filters."""

    def test_tree(self):
        tree = decision_tree(parse(FILTER, "filter").filters[0].program)
        self.assertEqual("arch = x86-64", tree.text)
        self.assertEqual(("kill-process", "all"), (tree.no.text, tree.no.numbers.text))
        self.assertEqual("nr ≥ 60", tree.yes.text)
        self.assertEqual(("errno 1 EPERM", "from 60"), (tree.yes.yes.text, tree.yes.yes.numbers.text))
        self.assertEqual("nr = 41", tree.yes.no.text)
        self.assertEqual(("allow", "0–59 but 41"), (tree.yes.no.no.text, tree.yes.no.no.numbers.text))
        self.assertEqual("arg 0 = 2", tree.yes.no.yes.text)
        self.assertEqual(("errno 1 EPERM", "41"), (tree.yes.no.yes.no.text, tree.yes.no.yes.no.numbers.text))

    def test_tree_ends_as_the_program_does(self):
        for one in parse(FILTER, "filter").filters:
            for arch in (0xC000003E, 0x40000003):
                for number in [*range(70), 0xFFFFFFFF]:
                    for argument in (2, 16):
                        words = [number, arch, 0, 0, argument, 0]
                        tree = decision_tree(one.program)
                        while not isinstance(tree, End):
                            word = {"nr": number, "arch": arch, "arg 0 low": argument}[tree.word]
                            tree = tree.yes if (word == tree.value if tree.sign == "=" else word >= tree.value) else tree.no
                        self.assertEqual(ended(one.program, words), tree.at)
                        self.assertTrue(tree.numbers.has(number))

    def test_numbers(self):
        for sign, value, holds, wanted in [
            ("=", 7, True, "7"), ("=", 7, False, "all but 7"), ("=", 0, False, "from 1"), ("≥", 7, True, "from 7"),
            ("≥", 7, False, "0–6"), (">", 7, True, "from 8"), (">", 7, False, "0–7"), ("≥", 0, False, "none"),
        ]:  # fmt: skip
            self.assertEqual(wanted, narrowed(Numbers(), sign, value, holds).text, (sign, value, holds))
        self.assertEqual("3–5", narrowed(Numbers(2, 6, (2, 6)), "=", 9, False).text)

    def test_what_is_no_tree(self):
        instructions = parse("filter x 2\n0700000000000000\n060000000000ff7f\nfilters 1\n", "filter").filters[0].program
        self.assertIsNone(decision_tree(instructions))
        self.assertIsNone(decision_tree([]))
        # forty tests, each with both ways to the next one, would be a tree of 2 to the 40 ends
        twice = "filter x 41\n" + "1500000007000000\n" * 40 + "060000000000ff7f\nfilters 1\n"
        self.assertIsNone(decision_tree(parse(twice, "filter").filters[0].program))


# What is done on the page, each step with what it gives; the last text is what is looked at.
STEPS = """
const results = {};
const key = (name, to = document.activeElement) => to.dispatchEvent(new KeyboardEvent('keydown', { key: name, bubbles: true }));
const type = (field, text) => { field.value = text; field.dispatchEvent(new Event('input')); };
const label = () => document.activeElement.getAttribute('aria-label');
const shown = () => all('.tree [data-a]').filter(isShown).map((item) => item.getAttribute('aria-label').split(':')[0]);
results.tree = shown();
all('.tree [tabindex="0"]')[0].focus();
results.first = [label(), told.textContent];
key('ArrowDown'); key('ArrowDown');
results.second = [label(), told.textContent];
key('ArrowLeft'); key('ArrowLeft');
results.folded = [label(), shown().length];
key('Enter');
results.unfolded = shown().length;
key('End');
results.last = label();
key('ArrowRight');
results.opened = shown().slice(-3);
key('/', document.body);
results.search = document.activeElement.id;
type(search, 'denied write');
results.hits = [found.textContent, shown(), all('main > section').filter((it) => !it.hidden).map((it) => it.id)];
key('Escape', search);
results.cleared = [found.textContent, search.value, shown().length];
type(search, 'PASSWD  Denied');
results.words = [found.textContent, shown()];
type(search, 'nosuch');
results.none = found.textContent;
type(search, 'passwd nosuch');
results.noneOfBoth = found.textContent;
key('Escape', search);
results.wide = [document.documentElement.scrollWidth <= innerWidth, all('table').every((it) => it.closest('.scroll'))];
all('#rest .items [tabindex="0"]')[0].focus();
results.item = label();
all('#calls .items [tabindex="0"]')[0].focus();
results.arrows = ['ArrowRight', 'ArrowRight', 'ArrowLeft', 'ArrowDown', 'End'].map((name) => { key(name); return label(); });
results.stops = all('#calls [tabindex="0"], .tree [tabindex="0"]').length;
const decided = document.getElementById('decided');
results.decided = [['socket 16 3'], ['41 2'], ['0x3c'], ['read'], ['41 4294967298'], ['ptrace'], ['1 2 3 4 5 6 7 8']].map(([text]) => {
  type(number, text);
  return [decided.textContent, all('svg .on').map((shape) => (shape.querySelector('text') ?? {}).textContent)
    .filter((it) => it && it !== 'yes' && it !== 'no')];
});
const back = () => getComputedStyle(document.body).backgroundColor;
const before = back();
document.getElementById('theme').click();
results.themes = before !== back();
results.outside = performance.getEntriesByType('resource').length;
document.body.innerHTML = '<pre id="results"></pre>';
document.getElementById('results').textContent = JSON.stringify(results);
"""


@unittest.skipUnless(CHROMIUM, "there is no Chromium on the PATH (Debian's package chromium)")
class Used(unittest.TestCase):
    """The page in a Chromium without a window."""

    maxDiff = None

    @classmethod
    def setUpClass(cls):
        with tempfile.TemporaryDirectory() as folder:
            file = Path(folder) / "page.html"
            file.write_text(made().replace("</body>", f"<script>{STEPS}</script></body>"), "utf-8")
            words = [
                CHROMIUM, "--headless", "--no-sandbox", "--disable-gpu", "--window-size=1200,900",
                f"--user-data-dir={folder}/profile", "--dump-dom", f"file://{file}",
            ]  # fmt: skip
            found = subprocess.run(words, capture_output=True, timeout=60, env={**os.environ, "HOME": folder})
        text = re.search(r'<pre id="results">(.*?)</pre>', found.stdout.decode(), re.S)
        if not text:
            raise AssertionError(f"the page gave no results: {found.stderr.decode()[-2000:]}")
        cls.results = json.loads(text[1].replace("&lt;", "<").replace("&gt;", ">").replace("&amp;", "&"))

    def test_tree_by_keys(self):
        # /usr is alike, and folded
        self.assertEqual(["/", "/etc", "/etc/<cron>", "/etc/passwd", "/etc/shadow", "/srv", "/tmp", "/usr"], self.results["tree"])
        self.assertEqual(["/: see mixed, write mixed, exec open", "open see /\n  1 stat /"], self.results["first"])
        told = "open write /etc/<cron>\n  1 umount2 /etc\n  1 open /etc/<cron> 0 1"
        self.assertEqual(["/etc/<cron>: write in steps", told], self.results["second"])
        # left goes to the folder, and then folds it with the three below
        self.assertEqual(["/etc: see open, write mixed", 5], self.results["folded"])
        self.assertEqual(8, self.results["unfolded"])
        self.assertEqual("/usr: exec open", self.results["last"])
        self.assertEqual(["/tmp", "/usr", "/usr/bin"], self.results["opened"])

    def test_search(self):
        self.assertEqual("search", self.results["search"])
        wanted = ["2 of 16 answers", ["/", "/etc", "/etc/passwd", "/etc/shadow"], ["files"]]
        self.assertEqual(wanted, self.results["hits"])
        self.assertEqual(["", "", 8], self.results["cleared"])
        self.assertEqual("denied socket AF_PACKET", self.results["item"])
        # words in any order and case
        self.assertEqual(["1 of 16 answers", ["/", "/etc", "/etc/passwd"]], self.results["words"])
        self.assertEqual(["no answer has this word", "no answer has all of these words"], [self.results["none"], self.results["noneOfBoth"]])
        self.assertEqual([True, True], self.results["wide"])

    def test_arrows_within_a_group(self):
        # of two calls on one line: behind the last and below there is none
        read, ptrace = "open call read", "denied call ptrace"
        self.assertEqual([ptrace, ptrace, read, read, ptrace], self.results["arrows"])
        # the tab key stops once in each group
        self.assertEqual(2, self.results["stops"])

    def test_way_of_a_number(self):
        start = ["arch = x86-64", "nr ≥ 60", "nr = 41", "arg 0 = 2"]
        socket, first = ["nr = 41", "arg 0 = 16"], ["arch = x86-64", "nr ≥ 60"]
        wanted = [
            [
                # of equal actions the filter that was installed last decides, seccomp(2)
                "errno 97 EAFNOSUPPORT (calls: errno 1 EPERM; families: errno 97 EAFNOSUPPORT)",
                start + ["errno 1 EPERM · socket"] + socket + ["errno 97 EAFNOSUPPORT · socket"],
            ],
            ["allow, by every filter", start + ["allow · socket"] + socket + ["allow · socket"]],
            ["errno 1 EPERM (calls: errno 1 EPERM)", first + ["errno 1 EPERM · from 60", "nr = 41", "allow · all but 41"]],
            ["allow, by every filter", first + ["nr = 41", "allow · 0–59 but 41", "nr = 41", "allow · all but 41"]],
            # the word above the low 32 bits is not looked at: 2^32 + 2
            ["allow, by every filter", start + ["allow · socket"] + socket + ["allow · socket"]],
            ["This is no number of a call with at most six arguments.", []],
            ["This is no number of a call with at most six arguments.", []],
        ]
        for found, row in zip(self.results["decided"], wanted):
            self.assertEqual((row[0], sorted(row[1])), (found[0], sorted(found[1])))

    def test_themes_and_no_network(self):
        self.assertTrue(self.results["themes"])
        self.assertEqual(0, self.results["outside"])


TIMES = """
const results = {};
const type = (field, text) => { field.value = text; field.dispatchEvent(new Event('input')); };
// all is read and laid out by now, and what is left is to be painted
document.body.offsetHeight;
results.painted = performance.now();
results.searches = ['denied write', '77 SRV open', 'nosuch', ''].map((text) => {
  const before = performance.now();
  type(search, text);
  document.body.offsetHeight;
  return performance.now() - before;
});
type(search, '/srv/77/ write');
results.found = found.textContent;
results.narrow = document.documentElement.scrollWidth <= innerWidth;
document.body.innerHTML = '<pre id="results"></pre>';
document.getElementById('results').textContent = JSON.stringify(results);
"""


@unittest.skipUnless(CHROMIUM, "there is no Chromium on the PATH (Debian's package chromium)")
class Large(unittest.TestCase):
    """A page of 9,000 answers on a narrow screen."""

    def test_times(self):
        lines = ["unit web.service", "launched uid 33 gid 33 nnp yes steps 9"]
        for folder in range(90):
            for file in range(50):
                path = f"/srv/{folder}/{'a-long-name-' * 3}{file}"
                lines += [f"open read {path}\n  1 open {path}", f"denied write {path}"]
        text = page_of(View(parse("\n".join([*lines, "summary denied 4500 open 4500", ""]), "judge")))
        with tempfile.TemporaryDirectory() as folder:
            file = Path(folder) / "page.html"
            file.write_text(text.replace("</body>", f"<script>{TIMES}</script></body>"), "utf-8")
            words = [CHROMIUM, "--headless", "--no-sandbox", "--disable-gpu", "--window-size=390,800"]
            words += [f"--user-data-dir={folder}/profile", "--dump-dom", f"file://{file}"]
            found = subprocess.run(words, capture_output=True, timeout=120, env={**os.environ, "HOME": folder})
        told = re.search(r'<pre id="results">(.*?)</pre>', found.stdout.decode(), re.S)
        self.assertTrue(told, found.stderr.decode()[-2000:])
        results = json.loads(told[1])
        if os.environ.get("LENTSHEEP_TIMES"):
            print(results, file=sys.stderr)
        # folder 77 has 50 files to be written
        self.assertEqual(("50 of 9000 answers", True), (results["found"], results["narrow"]))
        # a machine that does other work beside takes longer: each may be twice what is wanted, 2 s and 100 ms
        self.assertLess(results["painted"], 4000)
        self.assertLess(max(results["searches"]), 200, results)


if __name__ == "__main__":
    unittest.main()
