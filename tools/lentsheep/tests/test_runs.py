"""Tests the views over runs of the program: on the examples, and on six units as packages have them, with one small host.

What must come was worked out by hand from the units, the host and the manuals. LENTSHEEP_REAL may name a folder with the files
of those packages, units/PACKAGE/NAME.service, which are then read in place of the settings below.
"""
import json
import os
import shutil
import subprocess
import sys
import tempfile
import unittest
from pathlib import Path
from unittest import mock

TOP = Path(__file__).resolve().parents[3]
sys.path.insert(0, str(TOP / "tools"))

from lentsheep.causes import causes
from lentsheep.compare import changes
from lentsheep.gather import partings_of
from lentsheep.program import Program
from lentsheep.report import parse
from lentsheep.schema import faults, read_schema
from lentsheep.table import read_table

SANDBOX = TOP / "sandbox"
COMMANDS = "filter, plan, judge, replay, derive, effect, tighten, why, score, check, fleet, sample"
EXAMPLES = TOP / "examples"
# A built program is run as it is, however old: a test starts no proof.
BUILT = os.environ.get("LENTSHEEP_PROGRAM") or str(TOP / "crates/sandbox_cli/out/sandbox_cli")
HOW = {**os.environ, "LENTSHEEP_PROGRAM": BUILT}

FOLDERS = """/boot /dev /etc /home /home/alice /root /run /run/user /sbin /sys /tmp /usr /usr/bin /usr/lib /usr/lib/modules
    /usr/libexec /usr/sbin /var /var/lib /var/lib/vnstat /var/tmp"""
FILES = "/dev/mem /dev/null /etc/passwd /etc/shadow /home/alice/key /proc/kmsg /root/key"
PROGRAMS = "/sbin/fstrim /usr/bin/caddy /usr/bin/su /usr/libexec/low-memory-monitor /usr/sbin/cupsd /usr/sbin/ntpd /usr/sbin/vnstatd"

# Settings of units of Debian's packages that bear on their sandbox, and lines of the screen.
UNITS = {
    # root, and nothing in its way: only user namespaces are denied
    "cups-daemon/cups.service": (
        "ExecStart=/usr/sbin/cupsd -l",
        """\
launched    as uid 0 (root), gid 0, with all 41 capabilities, no_new_privs off
why open    the unit sets no key of a sandbox; close most: CapabilityBoundingSet= (77),
            8 answers, since it can change the kernel or start another (CAP_SYS_BOOT, CAP_SYS_MODULE
              closed by CapabilityBoundingSet=~CAP_SYS_BOOT CAP_SYS_MODULE CAP_SYS_RAWIO or
              SystemCallFilter=~@module @raw-io @reboot
            3 answers, since it can reach disks beside their files (CAP_DAC_READ_SEARCH and
            6 answers, since it can make namespaces (CAP_SYS_ADMIN is held)
            13 answers, since it can make calls that ask for a capability (CAP_NET_ADMIN,
            and 2 further causes, of 2 answers
files       open everywhere
namespaces  open 6 but denied 1: user
switches    open all 6
caps        open all 41
uids        in steps 3 but open 1: 0
""",
    ),
    # another user without no_new_privs: su opens all that it is denied. 8 files lie in /etc and /usr
    "caddy/caddy.service": (
        "User=caddy\nGroup=caddy\nExecStart=/usr/bin/caddy run\nPrivateTmp=true\nProtectSystem=full\n"
        "AmbientCapabilities=CAP_NET_BIND_SERVICE",
        """\
launched    as uid 983 (caddy), gid 983, with 1 capability, no_new_privs off
why open    88 answers, since /usr/bin/su gives it privileges (no_new_privs is off)
              cap 40, call 19, write 8, ns 6, socket 5, uid 3, gid 3, see 2, read 2; as
              cap CAP_CHOWN: 1 execve /usr/bin/su
              closed by NoNewPrivileges=yes
see, read   open everywhere but in steps in /tmp, /var/tmp
write       open everywhere but in steps in /etc, /usr
exec        open everywhere
sockets     open 40 but in steps 5: AF_KEY AF_PACKET AF_LLC AF_PHONET AF_XDP
namespaces  in steps 6 but denied 1: user
caps        in steps 40 but open 1: CAP_NET_BIND_SERVICE
uids        in steps 3 but open 1: 983
""",
    ),
    # root with seven capabilities: it can be another user, and set the clock
    "openntpd/openntpd.service": (
        "ExecStart=/usr/sbin/ntpd\nPrivateTmp=true\nPrivateDevices=true\nProtectSystem=full\nProtectHome=true\n"
        "CapabilityBoundingSet=CAP_NET_BIND_SERVICE CAP_SETGID CAP_SETUID CAP_SYSLOG CAP_SYS_CHROOT CAP_SYS_NICE CAP_SYS_TIME\n"
        "NoNewPrivileges=true",
        """\
launched    as uid 0 (root), gid 0, with 7 capabilities, no_new_privs on
why open    3 answers, since it can make calls that ask for a capability (CAP_SYSLOG and
            CAP_SYS_TIME are held)
              closed by CapabilityBoundingSet=~CAP_SYSLOG CAP_SYS_TIME
            other uids, since it can take other user ids (CAP_SETUID is held)
              closed by CapabilityBoundingSet=~CAP_SETUID or SystemCallFilter=~@setuid
            other gids, since it can take other groups (CAP_SETGID is held)
see, read   open everywhere but denied in /dev, /home, /root, /tmp, /run/user, /var/tmp
            and open in /dev/null
write       denied everywhere but open in /dev/null, /proc/kmsg, /sbin/fstrim
exec        open everywhere
namespaces  denied all 7
switches    open all 6
caps        denied 34 but open 7: CAP_SETGID CAP_SETUID CAP_NET_BIND_SERVICE CAP_SYS_CHROOT
            CAP_SYS_NICE CAP_SYS_TIME CAP_SYSLOG
blind       /home, /root, /tmp, /run/user, /var/tmp,
            of which 5 hold only without what `partings` names
""",
    ),
    # nearly all that there is: only /dev/null may be written, since its state folder has no file yet
    "vnstat/vnstat.service": (
        "ExecStart=/usr/sbin/vnstatd --nodaemon\nUser=vnstat\nCapabilityBoundingSet=\nLockPersonality=yes\n"
        "MemoryDenyWriteExecute=yes\nNoNewPrivileges=yes\nPrivateDevices=yes\nPrivateTmp=yes\nProtectClock=yes\n"
        "ProtectControlGroups=yes\nProtectHome=yes\nProtectKernelLogs=yes\nProtectKernelModules=yes\nProtectKernelTunables=yes\n"
        "ProtectSystem=strict\nRestrictNamespaces=yes\nRestrictRealtime=yes\nRestrictSUIDSGID=yes\nStateDirectory=vnstat",
        """\
launched    as uid 945 (vnstat), gid 945, with no capabilities, no_new_privs on
why open    each open answer needs one call and no privilege, or nothing
see, read   open everywhere but denied in /dev, /home, /root, /tmp, /proc/kmsg, /run/user,
            /usr/lib/modules, /var/tmp and open in /dev/null
write       denied everywhere but open in /dev/null
exec        open everywhere
namespaces  denied all 7
switches    denied all 6
caps        denied all 41
uids        denied 3 but open 1: 945
gids        denied 3 but open 1: 945
blind       /home, /root, /tmp, /run/user, /usr/lib/modules, /var/tmp,
            of which 6 hold only without what `partings` names
""",
    ),
    # root whose filter lacks mount(2): what is hidden stays hidden
    "util-linux/fstrim.service": (
        "ExecStart=/sbin/fstrim --all\nPrivateDevices=no\nProtectKernelTunables=yes\nProtectKernelModules=yes\n"
        "ProtectControlGroups=yes\nMemoryDenyWriteExecute=yes\nSystemCallFilter=@default @file-system @basic-io @system-service",
        """\
launched    as uid 0 (root), gid 0, with 40 capabilities, no_new_privs off
why open    6 answers, since it can make namespaces (CAP_SYS_ADMIN is held)
              closed by CapabilityBoundingSet=~CAP_SYS_ADMIN or RestrictNamespaces=yes
see, read   open everywhere but denied in /usr/lib/modules
write       open everywhere
exec        open everywhere
switches    denied 3 but open 3: realtime personality suid-bit
caps        open 40 but denied 1: CAP_SYS_MODULE
blind       /usr/lib/modules, of which 1 holds only without what `partings` names
""",
    ),
    # root that may mount: 12 of 14 files, and 11 rows that are hidden, are open again by mount(2)
    "low-memory-monitor/low-memory-monitor.service": (
        "ExecStart=/usr/libexec/low-memory-monitor\nProtectSystem=strict\nPrivateDevices=true\nProtectControlGroups=true\n"
        "ProtectHome=true\nPrivateTmp=true\nRestrictAddressFamilies=AF_UNIX AF_LOCAL AF_NETLINK\nMemoryDenyWriteExecute=true\n"
        "ProtectKernelModules=true\nRestrictRealtime=true\nNoNewPrivileges=true",
        """\
launched    as uid 0 (root), gid 0, with 38 capabilities, no_new_privs on
why open    3 answers, since it can change the kernel or start another (CAP_SYS_BOOT is held)
              call 3; as
            34 answers, since it can change mounts (CAP_SYS_ADMIN is held)
              write 12, see 11, read 11; as
              write /dev/mem: 1 mount / /proc 0 0 0 4096; 1 mount / /proc 0 0 0 4128;
              1 open /proc/dev/mem 0 1
              closed by CapabilityBoundingSet=~CAP_SYS_ADMIN or SystemCallFilter=~@mount
            6 answers, since it can make namespaces (CAP_SYS_ADMIN is held)
see, read   open everywhere but in steps in /dev, /home, /root, /tmp, /run/user, /usr/lib/modules,
            /var/tmp and open in /dev/null
write       in steps everywhere but open in /dev/null, /proc
sockets     denied 43 but open 2: AF_UNIX AF_NETLINK
switches    denied 4 but open 2: personality suid-bit
caps        open 38 but denied 3: CAP_SYS_MODULE CAP_SYS_RAWIO CAP_MKNOD
""",
    ),
}
# The partings of these units, worked out by hand from their settings, the answers above and docs/PROFILE.md.
PARTINGS = {
    # nothing is denied but namespaces, and it is root
    "cups-daemon/cups.service": "asks-manager user-namespaces",
    # what is denied is open by /usr/bin/su
    "caddy/caddy.service": "file-modes user-namespaces",
    # root without CAP_SYS_PTRACE, CAP_DAC_READ_SEARCH and CAP_DAC_OVERRIDE, with private folders and devices
    "openntpd/openntpd.service": "asks-manager device-folders file-modes outside-roots user-namespaces",
    # strict beside control groups and tunables; a ring sets the bits that RestrictSUIDSGID= denies
    "vnstat/vnstat.service": """architectures clone3 device-folders file-modes io-uring mdwe-prctl outside-roots personality-question
        run-writable suid-newer-calls sys-writable tmpfile-bits tunables-more wx-programs""",
    # setns(2) passes, with all that it asks for, and so does mknod(2); 252 lacks mseal(2) and its like
    "util-linux/fstrim.service": """architectures asks-manager kernel-itself links mdwe-prctl mount-calls older-groups outside-roots sys-writable
        tunables-more user-namespaces wx-programs""",
    # all files are open by mount(2); a ring makes sockets of other families
    "low-memory-monitor/low-memory-monitor.service": """architectures asks-manager device-folders families-allow-bits io-uring mdwe-prctl
        run-writable sched-setattr user-namespaces wx-programs""",
}
HARDENED = """\
unit        web.service: denied 64, of which 17 hold only without what `partings` names, open 33
profile     base, since the site has no key systemd
launched    as uid 33 (web), gid 33, with no capabilities, no_new_privs on

why open    each open answer needs one call and no privilege, or nothing

             see read write exec call socket ns switch cap uid gid all
denied         2    2     2    -    1      -  7      5  41   2   2  64
  parting      2    2     2    -    1      -  7      3   -   -   -  17
open          12   12     1    1    3      1  -      1   -   1   1  33
in steps       -    -     -    -    -      -  -      -   -   -   -   -

see, read   open everywhere but denied in /tmp, /var/tmp
write       denied everywhere but open in /var/lib/web
exec        open everywhere
calls       open 3 but denied 1: ptrace
sockets     open all 1
namespaces  denied all 7
switches    denied 5 but open 1: map-wx
caps        denied all 41
uids        denied 2 but open 1: 33
gids        denied 2 but open 1: 33
blind       /tmp, /var/tmp, of which 2 hold only without what `partings` names
not judged  1 line: Restart
"""


def site():
    """The host of the six units."""
    lines = ["dynamic_uid = 61184"]
    kinds = {**dict.fromkeys(FOLDERS.split(), "dir"), **dict.fromkeys(FILES.split(), "file"), **dict.fromkeys(PROGRAMS.split(), "exe")}
    for path, kind in kinds.items():
        lines += ["[[row]]", f'path = "{path}"', f'kind = "{kind}"'] + ["setuid = 0"] * (path == "/usr/bin/su")
    for name, number in (("root", 0), ("vnstat", 945), ("caddy", 983)):
        lines += ["[[user]]", f'name = "{name}"', f"uid = {number}", f"gid = {number}"]
        lines += ["[[group]]", f'name = "{name}"', f"gid = {number}"]
    return "\n".join(lines) + "\n"


def run(folder, *words, by=None):
    """Runs a view in a folder, as ./sandbox does: its status and what it printed."""
    how = {**HOW, "LENTSHEEP_PROGRAM": os.path.abspath(BUILT), "XDG_CACHE_HOME": CACHE.name}
    ended = subprocess.run([SANDBOX, *words], cwd=folder, env=by or how, capture_output=True, text=True, check=False)
    return ended.returncode, ended.stdout + ended.stderr


def judged(folder, unit):
    """What judge prints in a folder."""
    return subprocess.run([TOP / "sandbox", "judge", unit], cwd=folder, env=HOW, stdout=subprocess.PIPE, check=False).stdout


def met(folder, unit):
    """The partings that a report meets, by their names; what closes its causes is not tried."""
    with mock.patch.dict(os.environ, {"LENTSHEEP_PROGRAM": os.path.abspath(BUILT)}):
        program = Program(folder)
        found = program.run("judge", unit)
        return {parting.name: parting for parting in partings_of(program, found, found.printed)}


# What lines close is tried once for all tests.
CACHE = tempfile.TemporaryDirectory(prefix="test-runs-")


@unittest.skipUnless(os.access(BUILT, os.X_OK), "the program was not built, and LENTSHEEP_PROGRAM names none")
class Runs(unittest.TestCase):
    """Runs in a folder that is gone afterwards."""

    def setUp(self):
        self.place = tempfile.mkdtemp()
        self.addCleanup(shutil.rmtree, self.place)
        self.maxDiff = None

    def write(self, name, text):
        """Writes a file below the folder, and gives its path."""
        path = Path(self.place, name)
        path.parent.mkdir(parents=True, exist_ok=True)
        path.write_text(text)
        return str(path)

    def unit_folder(self, unit):
        """A folder with a unit of a package and the small host; the name of the unit comes back."""
        name = unit.partition("/")[2]
        real = Path(os.environ.get("LENTSHEEP_REAL", "/nonexistent"), "units", unit)
        text = real.read_text() if real.is_file() else f"[Service]\n{UNITS[unit][0]}\n"
        self.write(f"usr/lib/systemd/system/{name}", text)
        self.write("site.toml", site())
        if not Path(self.place, "calls.txt").exists():
            os.symlink(TOP / "tables/x86-64/calls.txt", Path(self.place, "calls.txt"))
        return name

    def test_screen_of_the_example(self):
        status, text = run(EXAMPLES / "hardened", "--brief", "judge", "web.service")
        self.assertEqual((0, HARDENED), (status, text.partition("partings    ")[0]))

    def test_screens_of_packages(self):
        for unit, (_, wanted) in UNITS.items():
            name = self.unit_folder(unit)
            status, text = run(self.place, "--brief", "judge", name)
            self.assertEqual(0, status, text)
            missing = [line for line in wanted.splitlines() if line not in text.splitlines()]
            self.assertEqual([], missing, f"{unit}\n{text}")
            # the table counts answers, the first line has the summary
            sums = {line.split()[0]: line.split()[-1] for line in text.splitlines() if line.startswith(("denied ", "open "))}
            head = " ".join(text.partition("profile ")[0].split())
            self.assertRegex(head, rf": denied {sums['denied']},( of which \d+ holds? only without what `partings` names,)? open {sums['open']}$")

    def test_partings_of_packages(self):
        for unit, wanted in PARTINGS.items():
            name = self.unit_folder(unit)
            self.write(f"usr/lib/systemd/system/{name}", f"[Service]\n{UNITS[unit][0]}\n")
            self.assertEqual(sorted(wanted.split()), sorted(met(self.place, name)), unit)

    def test_lines_that_end_a_parting(self):
        # with the line the parting is gone, or touches nothing any more, and nothing opens
        unit = "vnstat/vnstat.service"
        name = self.unit_folder(unit)
        self.write("site.toml", site() + '[[row]]\npath = "/run/a"\nkind = "file"\n[[row]]\npath = "/sys/a"\nkind = "file"\n')
        self.write(f"usr/lib/systemd/system/{name}", f"[Service]\n{UNITS[unit][0]}\n")
        before = met(self.place, name)
        for parting, line in [
            ("architectures", "SystemCallArchitectures=native"), ("io-uring", "SystemCallFilter=~io_uring_setup"),
            ("run-writable", "ReadOnlyPaths=/run"), ("sys-writable", "PrivateNetwork=yes"),
        ]:  # fmt: skip
            self.assertIn(line, before[parting].closed_by)
            self.assertLess(0, len(before[parting].answers), parting)
            dropin = Path(self.write(f"etc/systemd/system/{name}.d/close.conf", f"[Service]\n{line}\n"))
            after = met(self.place, name)
            dropin.unlink()
            self.assertEqual(0, len(after[parting].answers) if parting in after else 0, parting)

    def test_lines_that_close_a_way(self):
        # what closes a way leaves none of it, and opens nothing
        memory_monitor = "low-memory-monitor/low-memory-monitor.service"
        for unit, lines in [
            (memory_monitor, {"CapabilityBoundingSet=~CAP_SYS_ADMIN": {"mounts", "namespaces"}, "SystemCallFilter=~@mount": {"mounts"}}),
            ("caddy/caddy.service", {"NoNewPrivileges=yes": {"programs"}}),
        ]:
            name = self.unit_folder(unit)
            before, table = parse(judged(self.place, name), "judge"), read_table(self.place)
            for line, closed in lines.items():
                dropin = Path(self.write(f"etc/systemd/system/{name}.d/close.conf", f"[Service]\n{line}\n"))
                after = parse(judged(self.place, name), "judge")
                dropin.unlink()
                had, left = ({cause.need.kind for cause in causes(report, table)} for report in (before, after))
                self.assertEqual((closed, set()), (had & closed, left & closed), line)
                self.assertEqual((), changes(before, after).opened)

    def test_json_of_every_command(self):
        schema, hardened = read_schema(), EXAMPLES / "hardened"
        for folder, status, words in [
            (hardened, 0, ["judge", "web.service"]), (hardened, 0, ["plan", "web.service"]), (hardened, 0, ["filter", "web.service"]),
            (hardened, 1, ["score", "web.service", "policy.json", "10"]), (hardened, 0, ["sample", "7"]),
            (hardened, 3, ["judge", "no.service"]),
            (EXAMPLES / "replay", 0, ["replay", "web.service", "break-in.txt"]), (EXAMPLES / "dropin", 0, ["filter", "web.service"]),
        ]:  # fmt: skip
            ended, text = run(folder, "--json", *words)
            found, _ = json.JSONDecoder().raw_decode(text)  # what the command tells of wrong words comes behind it
            self.assertEqual((status, status, []), (ended, found["status"], faults(found, schema)), words)
            self.assertEqual((True, [], words), (found["whole"], found["unread"], found["words"]))
        wrong = "refused words\nsandbox: write ./sandbox judge UNIT (./sandbox --help)\n"
        self.assertEqual((2, wrong), run(hardened, "--json", "judge"))

    def test_json_has_all_that_was_printed(self):
        for example, unit in (("hardened", "web.service"), ("replay", "web.service"), ("first", "web.service"), ("ssh", "ssh.service")):
            printed = judged(EXAMPLES / example, unit).decode()
            found = json.loads(run(EXAMPLES / example, "--json", "judge", unit)[1])
            lines = []
            for answer in found["result"]["answers"]:
                lines += [f"{answer['verdict']} {answer['question']}", *(f"  {call['text']}" for call in answer["calls"])]
            kept = [line for line in printed.splitlines() if line.startswith(("open ", "denied ", "  "))]
            self.assertEqual(kept, lines)
            # kinds add up to the summary, and the screen tells the same
            sums = [sum(kind[verdict] for kind in found["result"]["kinds"].values()) for verdict in ("denied", "open")]
            screen = run(EXAMPLES / example, "--brief", "judge", unit)[1].splitlines()
            self.assertEqual(printed.splitlines()[-1], f"summary denied {sums[0]} open {sums[1]}")
            doubted = found["result"]["doubted"]
            self.assertEqual(doubted, sum("partings" in answer for answer in found["result"]["answers"]))
            less = f" of which {doubted} hold{'s' * (doubted == 1)} only without what `partings` names," * bool(doubted)
            self.assertEqual(screen[0], f"unit        {unit}: denied {sums[0]},{less} open {sums[1]}")

    def test_expectations(self):
        hardened = EXAMPLES / "hardened"
        lines = [
            "denied write /etc/passwd   # as the report has it", "denied write /etc/shadow   # not there yet",
            "open write /var/lib/web/new", "blind /tmp", "exposure policy.json <= 38", "denied cap CAP_SYS_ADMIN",
        ]  # fmt: skip
        shutil.copy(hardened / "policy.json", self.place)
        held = self.write("held", "\n".join(lines))
        # the program's user may have another process, whose root is the host's
        less = "".join(f"{held}:{at}: {lines[at - 1].partition('  ')[0]} holds only without outside-roots\n" for at in (1, 2, 4))
        self.assertEqual((0, "expectations 6 failed 0\n" + less), run(hardened, "--expect", held, "judge", "web.service"))
        lost = self.write("lost", "denied read /etc/passwd\nopen cap CAP_KILL\nblind /home\nexposure policy.json <= 37\nopen see /etc")
        wanted = f"""\
{lost}:1: denied read /etc/passwd
  open read /etc/passwd
    1 open /etc/passwd
{lost}:2: open cap CAP_KILL
  denied cap CAP_KILL
{lost}:3: blind /home
  open see /home
    1 stat /home
{lost}:4: exposure policy.json <= 37
  exposure 38
expectations 5 failed 4
"""
        self.assertEqual((1, wanted), run(hardened, "--expect", lost, "judge", "web.service"))

    def test_baseline(self):
        hardened, file = EXAMPLES / "hardened", str(Path(self.place, "baseline"))
        self.assertEqual((0, ""), run(hardened, "--write", file, "judge", "web.service"))
        # 64 denied answers and two blind folders; 17 and both hold only without partings
        status, text = run(hardened, "--expect", file, "judge", "web.service")
        self.assertEqual((0, "expectations 66 failed 0"), (status, text.splitlines()[0]))
        self.assertEqual(17 + 2, sum(" holds only without " in line for line in text.splitlines()[1:]))

    def test_as_run(self):
        hardened = EXAMPLES / "hardened"
        file = self.write("as-run", "denied write /etc/passwd as-run\ndenied cap CAP_KILL as-run\nblind /tmp as-run\ndenied suid-bit")
        wanted = f"""\
{file}:1: denied write /etc/passwd as-run
  it holds only without outside-roots
{file}:3: blind /tmp as-run
  it holds only without outside-roots
expectations 4 failed 2
{file}:4: denied suid-bit holds only without io-uring
"""
        self.assertEqual((1, wanted), run(hardened, "--expect", file, "judge", "web.service"))

    def test_comparison(self):
        old, new = (str(Path(self.place, name)) for name in ("old", "new"))
        shutil.copytree(EXAMPLES / "hardened", Path(self.place, "web"))
        for file, line in ((old, "PrivateTmp=yes"), (new, "PrivateTmp=no")):
            self.write("web/etc/systemd/system/web.service.d/tmp.conf", f"[Service]\n{line}\n")
            Path(file).write_bytes(judged(f"{self.place}/web", "web.service"))
        status, text = run(self.place, "--compare", old, new)
        self.assertEqual(1, status)
        self.assertEqual(
            ["opened see /tmp", "  1 stat /tmp", "opened read /tmp", "  1 open /tmp", "opened see /var/tmp", "  1 stat /var/tmp",
             "opened read /var/tmp", "  1 open /var/tmp", "no longer blind /tmp", "no longer blind /var/tmp",
             "changes opened 4 closed 0 new 0 gone 0"],
            [line for line in text.splitlines() if not line.startswith("launched")],
        )  # fmt: skip
        self.assertEqual(0, run(self.place, "--compare", new, old)[0])

    def test_page(self):
        file = str(Path(self.place, "page.html"))
        self.assertEqual((0, ""), run(EXAMPLES / "hardened", "--html", file, "judge", "web.service"))
        self.assertIn("web.service", Path(file).read_text())

    def test_wrong_words_and_refusals(self):
        hardened = EXAMPLES / "hardened"
        bad = self.write("bad", "denies write /etc\n")
        no_unit = "sandbox: no unit no.service is below this folder; web.service is\n"
        for words, status, text in [
            (["--brief"], 2, f"refused words\nsandbox: name a command: {COMMANDS} (./sandbox --help)\n"),
            (["--brief", "plan", "web.service"], 2, "sandbox: --brief is a view of judge alone: write ./sandbox --brief judge UNIT; --json prints all of plan\n"),
            (["--expect", "none", "judge", "web.service"], 2, "sandbox: none: No such file or directory\n"),
            (["--expect", bad, "judge", "web.service"], 2, f"sandbox: {bad}: line 1 is no expectation: denies write /etc\n"),
            (["--expect", bad], 2, f"refused words\nsandbox: name a command: {COMMANDS} (./sandbox --help)\n"),
            (["--compare", bad], 2, "sandbox: --compare needs two reports after it\n"),
            (["--compare", bad, bad], 2, f"sandbox: {bad} is not a complete output of judge\n"),
            (["--brief", "judge", "no.service"], 3, f"refused no.service not-found\n{no_unit}"),
            (["--write", bad, "judge", "no.service"], 3, f"refused no.service not-found\n{no_unit}"),
            (["--brief", "judge"], 2, "refused words\nsandbox: write ./sandbox judge UNIT (./sandbox --help)\n"),
        ]:  # fmt: skip
            self.assertEqual((status, text), run(hardened, *words, by=HOW), words)
        self.assertEqual(0, run(hardened, "--brief", "--help")[0])


if __name__ == "__main__":
    unittest.main()
