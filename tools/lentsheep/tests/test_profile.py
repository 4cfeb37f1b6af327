"""Tests which profile the views say, and with a program that each rule whose word is `followed` is one that it follows.

The units of `WITNESSES` and what the program is to print of them come from the rules of systemd 252 and 257, as both were seen to do it.
With LENTSHEEP_PROGRAM, `test_profile.py words` prints the rows of docs/PROFILE.md whose word does not fit what a program does.
"""
import importlib.machinery
import importlib.util
import json
import os
import re
import subprocess
import sys
import tempfile
import unittest
from pathlib import Path

TOP = Path(__file__).resolve().parents[3]
sys.path.insert(0, str(TOP / "tools"))

from lentsheep.brief import View, brief
from lentsheep.explain import Folder, explained
from lentsheep.followed import FOLLOWED
from lentsheep.host import read_host
from lentsheep.jsonform import json_of
from lentsheep.page import page_of
from lentsheep.profiles import profile_named
from lentsheep.program import Run
from lentsheep.report import parse
from lentsheep.schema import faults, read_schema
from lentsheep.screen import Page
from lentsheep.site_text import heads_of, profile_of
from lentsheep.terminal import Paint

BUILT = os.environ.get("LENTSHEEP_PROGRAM") or str(TOP / "crates/sandbox_cli/out/sandbox_cli")
REPORT = "unit a.service\nlaunched uid 1 gid 1 nnp yes steps 1\ndenied map-wx\nsummary denied 1 open 0\n"


class Sites(unittest.TestCase):
    """The key of a site."""

    def test_keys(self):
        for site, wanted in [
            ("systemd = 252\n", 252), ("# x\n\n  systemd=257   # y\ndynamic_uid = 1\n", 257), ("'systemd' = 252\r\n".replace("\r", ""), 252),
            ("systemd = 256\n", None), ('systemd = "252"\n', None), ("systemd = 257.0\n", None), ("systemd = true\n", None), ("# systemd = 252\n", None),
            ("[[row]]\nsystemd = 252\n", None), ("[x]\nsystemd = 252\n", None), ("my_systemd = 252\n", None), ("", None), ("systemd = 0x\n", None),
        ]:  # fmt: skip
            self.assertEqual(wanted, profile_of(site), site)

    def test_names(self):
        for site, wanted in [("systemd = 252\n", "systemd 252"), ("systemd = 257\n", "systemd 257"), ("dynamic_uid = 1\n", "base"), ("", "")]:
            self.assertEqual(wanted, profile_named(site))

    def test_hosts(self):
        # the key decides; a comment of make-site says only what the host has
        for site, wanted in [
            ("systemd = 252\n", (252, 252)), ("# made\n# systemd 257\n", (257, None)), ("# made\n# systemd 255\nsystemd = 252\n", (252, 252)), ("", (None, None)),
        ]:  # fmt: skip
            host = read_host(site)
            self.assertEqual(wanted, (host.systemd, host.profile), site)

    def test_heads(self):
        self.assertEqual(["a", "b"], heads_of("# a\n# b\nx = 1\n# c\n"))
        self.assertEqual([], heads_of("x = 1\n# a\n"))


class Views(unittest.TestCase):
    """Where the views say it."""

    def test_screen(self):
        for profile, wanted in [("systemd 257", ["profile     systemd 257"]), ("base", ["profile     base, since the site has no key systemd"]), ("", [])]:
            lines = brief(View(parse(REPORT, "judge"), profile=profile), Page(100, Paint(False)))
            self.assertEqual(["unit        a.service: denied 1, open 0", *wanted], lines[: 1 + len(wanted)])
            self.assertEqual(len(wanted), sum(line.startswith("profile") for line in lines))

    def test_page(self):
        for profile, wanted in [
            ("systemd 252", "<h1>a.service</h1><p>Judged by the rules of systemd 252.</p></header>"),
            ("base", "<h1>a.service</h1><p>Judged by the base profile, since the site has no key systemd.</p></header>"), ("", "<h1>a.service</h1></header>"),
        ]:  # fmt: skip
            self.assertIn(wanted, page_of(View(parse(REPORT, "judge"), profile=profile)))

    def test_json(self):
        run = Run(("judge", "a.service"), REPORT, parse(REPORT, "judge"), 0)
        for profile in ("base", "systemd 252", "systemd 257"):
            found = json.loads(json.dumps(json_of(run, profile=profile)))
            self.assertEqual((profile, []), (found["profile"], faults(found, read_schema())))
        self.assertNotIn("profile", json_of(run))
        self.assertTrue(faults(json_of(run, profile="systemd 256"), read_schema()))


class Refusals(unittest.TestCase):
    """The line that a refused prefix is explained by."""

    def test_prefixes(self):
        unit = "[Service]\nExecStart=-!/usr/bin/a\nExecStart=-+/usr/bin/b\nExecStart=@!!/usr/bin/c\nExecStart=-/usr/bin/d\n"
        for site, line in (("dynamic_uid = 1\n", "web.service:4: ExecStart=@!!/usr/bin/c:"), ("systemd = 257\n", "web.service:3: ExecStart=-+/usr/bin/b:")):
            with tempfile.TemporaryDirectory() as folder:
                Path(folder, "site.toml").write_text(site)
                path = Path(folder, "etc/systemd/system/web.service")
                path.parent.mkdir(parents=True)
                path.write_text(unit)
                told = explained(["judge", "web.service"], "refused web.service privileged-command\n", 3, Folder(folder))
            self.assertEqual([True], [text.startswith(line) for text in told], told)


# Folders, and files and programs after a star, that the site of a witness has.
PATHS = """
    /etc /etc/foo *file:/etc/foo/x /home /home/alice *file:/home/alice/key /proc /proc/bus *file:/proc/bus/x /proc/sys /proc/sys/kernel
    *file:/proc/sys/kernel/hostname /root /run *file:/run/x /run/credentials *file:/run/credentials/x /run/user /srv *file:/srv/x /sys *file:/sys/x
    /sys/fs /sys/fs/cgroup *file:/sys/fs/cgroup/x /tmp /usr /usr/bin *exe:/usr/bin/web /var /var/lib /var/lib/a *file:/var/lib/a/x /var/tmp /dev
    *dev:/dev/null /dev/shm *file:/dev/shm/x /bin *exe:/bin/x *exe:/proc/x *file:/tmp/x /var/lib/private /var/lib/private/web *file:/var/lib/private/web/x
    *exe:/dev/shm/run *exe:/sys/run
""".split()
PING = '[[row]]\npath = "/usr/bin/ping"\nkind = "exe"\ncaps = ["CAP_NET_RAW"]\neffective = true\n'
# Calls of the table of a witness: those of a launch and of questions, and some that protections close.
CALLS = """
    read write open openat openat2 creat truncate stat execve execveat exit_group getpid capset prctl seccomp setgroups setgid setresgid setregid
    setuid setresuid setreuid unshare clone clone3 fork mmap mprotect pkey_mprotect shmat socket socketpair personality sched_setscheduler
    sched_setattr chmod fchmod fchmodat fchmodat2 mkdir mkdirat mknod mknodat mount umount2 ptrace _sysctl init_module syslog clock_settime iopl
    sethostname io_uring_setup io_uring_enter
""".split()
BOTH = (252, 257)
# Calls that give a mode or make a file with one, but for creat(2); and the setting of the row about it.
MODES = "chmod fchmod fchmodat fchmodat2 mkdir mkdirat mknod mknodat open openat"
LISTED_MODES = "A list that denies the calls that give a mode, but not "

# The name of a row of docs/PROFILE.md, or how its setting begins, or nothing for what the base profile does too; the versions;
# lines behind those of a program and of a user without privileges; a line that `plan`, `judge` or `replay` prints of them; and the
# script of `replay`.
WITNESSES = [
    ("strict-homes", BOTH, "ProtectSystem=strict\n", "open write /home/alice/key"),
    ("run-writable", BOTH, "ProtectSystem=strict\nProtectControlGroups=yes\n", "open write /run/x"),
    ("run-writable", BOTH, "ProtectSystem=strict\nProtectProc=invisible\n", "open write /run/x"),
    ("", BOTH, "ProtectSystem=strict\n", "denied write /run/x"),
    ("sys-writable", (257,), "ProtectKernelTunables=yes\n", "open write /sys/x"),
    ("", (252,), "ProtectKernelTunables=yes\n", "denied write /sys/x"),
    ("", (257,), "ProtectKernelTunables=yes\nPrivateNetwork=yes\n", "denied write /sys/x"),
    ("tunables-cgroup", BOTH, "ProtectKernelTunables=yes\n", "open write /sys/fs/cgroup/x"),
    ("tunables-more", BOTH, "ProtectKernelTunables=yes\n", "denied write /proc/bus/x"),
    ("hostname-files", BOTH, "ProtectHostname=yes\nProtectSystem=full\n", "denied write /proc/sys/kernel/hostname"),
    ("hostname-files", BOTH, "ProtectHostname=yes\n", "open write /proc/sys/kernel/hostname"),
    ("credentials-hidden", BOTH, "ProtectSystem=full\n", "denied see /run/credentials/x"),
    ("", BOTH, "ProtectSystem=full\nSetCredential=a:b\n", "open see /run/credentials/x"),
    ("device-folders", BOTH, "PrivateDevices=yes\n", "open see /dev/shm/x"),
    ("folders-open", BOTH, "ProtectSystem=strict\nConfigurationDirectory=foo\n", "open write /etc/foo/x"),
    ("linked-folders", BOTH, "ProtectSystem=strict\nStateDirectory=a:b\n", "open write /var/lib/a/x"),
    ("old-names-open", BOTH, "ProtectSystem=strict\nReadWriteDirectories=/srv\n", "open write /srv/x"),
    ("old-names-close", BOTH, "InaccessibleDirectories=/srv\n", "denied see /srv/x"),
    ("old-names-close", BOTH, "ReadOnlyDirectories=/srv\n", "denied write /srv/x"),
    ("capability-words", BOTH, "User=root\nCapabilityBoundingSet=CAP_CHOWN\nCapabilityBoundingSet=~CAP_NOSUCH\n", "open cap CAP_SYS_ADMIN"),
    ("capability-words", BOTH, "User=root\nCapabilityBoundingSet=CAP_CHOWN\nCapabilityBoundingSet=CAP_NOSUCH\n", "denied cap CAP_CHOWN"),
    ("namespace-lines", BOTH, "User=root\nRestrictNamespaces=~user\nRestrictNamespaces=uts\n", "open ns net"),
    ("namespace-lines", BOTH, "User=root\nRestrictNamespaces=~net foo\n", "open ns net"),
    ("families-none", BOTH, "RestrictAddressFamilies=none\nRestrictAddressFamilies=~AF_PACKET\n", "open socket AF_INET"),
    ("family-names", BOTH, "RestrictAddressFamilies=AF_LOCAL\n", "open socket AF_UNIX"),
    ("nnp-from-more", (252,), "ProtectKernelTunables=yes\n", "launched uid 33 gid 33 nnp yes"),
    ("nnp-from-more", (252,), "SystemCallArchitectures=native\n", "launched uid 33 gid 33 nnp yes"),
    ("SecureBits=, PrivateUsers=", BOTH, "User=root\nPrivateUsers=yes\nSecureBits=noroot\n", "launched uid 0 gid 0 nnp no"),
    ("`!` and `!!`", BOTH, "ExecStart=\nExecStart=!/usr/bin/web\n", "launched uid 0 gid 0 nnp no"),
    ("`!` and `!!`", BOTH, "ExecStart=\nExecStart=!!/usr/bin/web\n", "launched uid 33 gid 33 nnp no"),
    ("", BOTH, "ExecStart=\nExecStart=+/usr/bin/web\n", "refused web.service privileged-command"),
    ("`!` and `!!`", BOTH, "ExecStart=\nExecStart=--/usr/bin/web\n", "refused web.service no-command"),
    ("A program without a slash", BOTH, "ExecStart=\nExecStart=web\n", "launched uid 33 gid 33 nnp no"),
    ("", BOTH, "ExecStart=\nExecStart=nosuch\n", "refused web.service outside ExecStart"),
    ("The specifiers `%f", BOTH, "ExecStart=\nExecStart=/usr/bin/%p %m\nReadOnlyPaths=/srv/%z\nInaccessiblePaths=-/%z\n", "refused web.service no-path /srv/%25z"),
    ("A number in User=", BOTH, "User=4711\n", "refused web.service no-user 4711"),
    ("AmbientCapabilities= outside", BOTH, "CapabilityBoundingSet=CAP_NET_RAW\nAmbientCapabilities=CAP_SYS_ADMIN CAP_NET_RAW\n", "launched uid 33 gid 33 nnp no"),
    ("home-tmpfs", (252,), "ProtectHome=tmpfs\n", "mount /home empty rw exec"),
    ("", (257,), "ProtectHome=tmpfs\n", "mount /home empty ro exec"),
    ("disconnected-tmp", (252,), "PrivateTmp=disconnected\n", "open see /tmp/x"),
    ("", (257,), "PrivateTmp=disconnected\n", "denied see /tmp/x"),
    ("newer-values", (257,), "ProtectControlGroups=strict\n", "denied write /sys/fs/cgroup/x"),
    ("ProtectSystem=yes, full", (252,), "ProtectSystem=yes\n", "denied write /bin/x"),
    ("folders-shown", BOTH, "TemporaryFileSystem=/var/lib\nStateDirectory=a\n", "open see /var/lib/a/x"),
    ("private-folders", BOTH, "DynamicUser=yes\nStateDirectory=web\n", "open write /var/lib/private/web/x"),
    ("beaten", BOTH, "TemporaryFileSystem=/srv\nReadWritePaths=/srv\n", "open read /srv/x"),
    ("beaten", BOTH, "ProtectHome=tmpfs\nReadOnlyPaths=/home\n", "open read /home/alice/key"),
    ("beaten", (252,), "ProtectHome=tmpfs\nReadWritePaths=/home\n", "mount /home host /home rw exec"),
    # the mark of a mount that is beaten stays
    ("beaten", (257,), "ProtectHome=tmpfs\nReadWritePaths=/home\n", "mount /home host /home ro exec"),
    ("beaten", BOTH, "BindPaths=/var/lib:/srv /etc:/srv\n", "mount /srv host /var/lib rw exec"),
    ("beaten", BOTH, "BindPaths=/var/lib:/srv /etc:/srv:norbind\n", "mount /srv host /etc rw exec"),
    ("beaten", BOTH, "PrivateTmp=yes\nBindPaths=/srv:/tmp\n", "mount /tmp host /srv rw exec"),
    ("beaten", (252,), "DynamicUser=yes\nBindPaths=/srv:/tmp\n", "mount /tmp host /srv rw exec nosuid"),
    ("beaten", (257,), "DynamicUser=yes\nBindPaths=/srv:/tmp\n", "mount /tmp empty rw exec nosuid"),
    ("beaten", (257,), "PrivateTmp=disconnected\nBindPaths=/srv:/tmp:norbind\n", "mount /tmp host /srv rw exec"),
    ("One path twice", BOTH, "ReadOnlyPaths=-/nope\nReadOnlyPaths=/nope\n", "launched uid 33 gid 33 nnp no"),
    ("One path twice", BOTH, "ReadOnlyPaths=/nope\nReadOnlyPaths=-/nope\n", "refused web.service no-path /nope"),
    ("ReadOnlyPaths=, InaccessiblePaths=", BOTH, "TemporaryFileSystem=/srv\nReadOnlyPaths=/srv/x\n", "refused web.service no-path /srv/x"),
    ("ReadOnlyPaths=, InaccessiblePaths=", BOTH, "TemporaryFileSystem=/srv\nInaccessiblePaths=/srv/x\n", "refused web.service no-path /srv/x"),
    ("ReadOnlyPaths=, InaccessiblePaths=", BOTH, "TemporaryFileSystem=/srv\nInaccessiblePaths=-/srv/x\n", "denied see /srv/x"),
    ("The options `noexec`", BOTH, "TemporaryFileSystem=/srv:noexec\n", "mount /srv empty rw noexec"),
    ("The options `noexec`", BOTH, "TemporaryFileSystem=/srv:nosuid\n", "mount /srv empty rw exec nosuid"),
    ("flags-apart", BOTH, "ProtectSystem=strict\nNoExecPaths=/\nExecPaths=/usr/bin\n", "open write /usr/bin/web"),
    ("flags-apart", BOTH, "ReadOnlyPaths=/usr /usr/bin\nNoExecPaths=/usr/bin\n", "open exec /usr/bin/ping"),
    ("flags-apart", BOTH, "ReadOnlyPaths=/srv\nNoExecPaths=/srv/x\n", "open write /srv/x"),
    ("flags-apart", BOTH, "NoExecPaths=/\nExecPaths=/usr/bin\nReadWritePaths=/srv\n", "mount /srv host /srv rw exec"),
    ("device-programs", BOTH, "PrivateDevices=yes\n", "open exec /dev/shm/run"),
    ("PrivateDevices= with ReadOnlyPaths=/dev", BOTH, "PrivateDevices=yes\nReadOnlyPaths=/dev\n", "denied write /dev/shm/x"),
    ("", BOTH, "PrivateDevices=yes\nReadOnlyPaths=/dev/shm\n", "mount /dev/shm host /dev/shm ro exec"),
    ("nosuid-exec", BOTH, "NoNewPrivileges=yes\nCapabilityBoundingSet=\nProtectSystem=full\n", "open exec /usr/bin/ping"),
    ("nosuid-exec", BOTH, "NoNewPrivileges=yes\nProtectSystem=full\n", "mount /usr host /usr ro exec nosuid"),
    ("nosuid-exec", BOTH, "DynamicUser=yes\nCapabilityBoundingSet=\n", "open exec /usr/bin/ping"),
    ("", BOTH, "NoNewPrivileges=yes\nCapabilityBoundingSet=\n", "denied exec /usr/bin/ping"),
    ("api-noexec", BOTH, "ProtectProc=invisible\n", "denied exec /proc/x"),
    ("api-noexec", (252,), "ProtectProc=invisible\n", "denied exec /sys/run"),
    ("", (257,), "ProtectProc=invisible\n", "open exec /sys/run"),
    ("api-noexec", (257,), "PrivateNetwork=yes\n", "denied exec /sys/run"),
    ("", (252,), "PrivateNetwork=yes\n", "open exec /sys/run"),
    ("nnp-from-filters", (257,), "RestrictRealtime=yes\n", "launched uid 33 gid 33 nnp no"),
    ("", (252,), "RestrictRealtime=yes\n", "launched uid 33 gid 33 nnp yes"),
    ("", (257,), "SystemCallFilter=~capset\n", "launched uid 33 gid 33 nnp yes"),
    ("mdwe-prctl", (257,), "MemoryDenyWriteExecute=yes\n", "open protect-x"),
    ("mdwe-prctl", (257,), "MemoryDenyWriteExecute=yes\n", "open shm-x"),
    ("mdwe-prctl", (257,), "MemoryDenyWriteExecute=yes\n", "denied map-wx"),
    ("wx-programs", (252,), "MemoryDenyWriteExecute=yes\n", "open map-wx"),
    ("write-filter", (257,), "SystemCallFilter=~write\n", "open call write"),
    ("", (252,), "SystemCallFilter=~write\n", "denied call write"),
    ("A call number that", (257,), "SystemCallFilter=read\n", "1 #511 -> errno 38", "1 #511\n"),
    ("A call number that", (252,), "SystemCallFilter=read\n", "1 #511 -> killed", "1 #511\n"),
    ("A suffix in", BOTH, "SystemCallFilter=read ptrace:EPERM\n", "denied call ptrace"),
    ("A list of SystemCallFilter=", (252,), "SystemCallFilter=~ptrace\nSystemCallFilter=ptrace\n", "launched uid 33 gid 33 nnp no"),
    ("ProtectKernelTunables= and `_sysctl`", BOTH, "ProtectKernelTunables=yes\n", "denied call _sysctl"),
    # such a socket asks for CAP_NET_RAW
    ("families-deny-bits", BOTH, "User=root\nRestrictAddressFamilies=~AF_PACKET\n", "open socket AF_PACKET"),
    ("families-allow-bits", BOTH, "RestrictAddressFamilies=AF_UNIX\n", "1 socket 4294967297 1 -> errno 97", "1 socket 4294967297 1\n"),
    ("personality-question", BOTH, "LockPersonality=yes\n", "1 personality 4294967295 -> errno 1", "1 personality 4294967295\n"),
    ("clone3", BOTH, "RestrictNamespaces=yes\n", "1 clone 128 -> errno 1", "1 clone 128\n"),
    ("suid-newer-calls", BOTH, "RestrictSUIDSGID=yes\n", "1 fchmodat2 0 0 2048 -> errno 1", "1 fchmodat2 0 0 2048\n"),
    ("socketpair", BOTH, "RestrictAddressFamilies=AF_INET\n", "open socket AF_UNIX"),
    ("tmpfile-bits", BOTH, "RestrictSUIDSGID=yes\n", "open suid-bit"),
    ("io-uring", BOTH, "RestrictAddressFamilies=AF_INET\n", "open socket AF_NETLINK"),
    ("io-uring", BOTH, "SystemCallFilter=~open openat openat2 creat truncate\n", "open read /srv/x"),
    ("", BOTH, "SystemCallFilter=~open openat openat2 creat truncate io_uring_enter\n", "denied read /srv/x"),
    ("io-uring", BOTH, f"SystemCallFilter=~{MODES} creat\n", "open suid-bit"),
    (f"{LISTED_MODES}creat(2)", BOTH, f"SystemCallFilter=~{MODES} io_uring_setup\n", "open suid-bit"),
    ("", BOTH, f"SystemCallFilter=~{MODES} creat io_uring_setup\n", "denied suid-bit"),
    ("devices-read-only", BOTH, "ReadOnlyPaths=/dev\n", "open write /dev/null"),
    ("", BOTH, "ReadOnlyPaths=/dev\n", "denied write /dev/shm/x"),
    ("sched-setattr", BOTH, "User=root\nRestrictRealtime=yes\n", "open realtime"),
    ("", BOTH, "RestrictRealtime=yes\n", "denied realtime"),
    ("other-calls", BOTH, "SystemCallFilter=~open openat creat truncate\n", "open read /srv/x"),
    ("other-calls", BOTH, "User=root\nSystemCallFilter=~clone unshare\n", "open ns uts"),
    ("other-calls", BOTH, "User=root\nSystemCallFilter=~setuid setresuid\n", "open uid 33"),
    ("other-calls", BOTH, "User=root\nSystemCallFilter=~setgid setresgid setgroups\n", "open gid 33"),
]  # fmt: skip


def table_of(version):
    """The table of a witness: of a version's table these calls, and the groups with those of them that they have."""
    known, lines = set(CALLS), []
    for line in (TOP / f"tables/x86-64/{version}/calls.txt").read_text().splitlines():
        kind, *words = line.split()
        members = [word for word in words[1:] if word in known]
        if kind == "group" and members:
            known.add(words[0])
            lines.append(" ".join([kind, words[0], *members]))
        elif kind in ("abi", "family") or kind == "call" and words[0] in known:
            lines.append(line)
    return "\n".join(lines) + "\n"


def site_of(version):
    """The site of a witness."""
    rows = []
    for word in PATHS:
        kind, path = word[1:].split(":") if word.startswith("*") else ("dir", word)
        rows.append(f'[[row]]\npath = "{path}"\nkind = "{kind}"\n')
    people = '[[user]]\nname = "root"\nuid = 0\ngid = 0\n\n[[user]]\nname = "web"\nuid = 33\ngid = 33\n\n[[group]]\nname = "web"\ngid = 33\n'
    return f"systemd = {version}\ndynamic_uid = 61184\n\n" + "\n".join([*rows, PING]) + "\n" + people


def followed():
    """The names and settings of the rows of docs/PROFILE.md whose word is `followed`, but for groups, of which no line is printed."""
    loader = importlib.machinery.SourceFileLoader("profile_tables", str(TOP / "tools/profile-tables"))
    tool = importlib.util.module_from_spec(importlib.util.spec_from_loader("profile_tables", loader))
    loader.exec_module(tool)
    rows = [row for row in tool.rows_of((TOP / "docs/PROFILE.md").read_text()) if row.word == "followed"]
    return [row.setting if row.name == "-" else row.name.strip("`") for row in rows if row.setting != "Further groups"]


def is_of(name, row):
    """Whether a witness is of a row."""
    return name == row or bool(name) and not re.fullmatch("[a-z-]+", row) and row.startswith(name)


class Rows(unittest.TestCase):
    """The table of witnesses."""

    def test_each_followed_row_has_one(self):
        self.assertEqual([], [row for row in followed() if not any(is_of(name, row) for name, *_ in WITNESSES)])
        self.assertTrue(FOLLOWED <= set(followed()))


@unittest.skipUnless(os.access(BUILT, os.X_OK), "the program was not built, and LENTSHEEP_PROGRAM names none")
class Runs(unittest.TestCase):
    """What the program prints of each witness."""

    def test_witnesses(self):
        rows = followed()
        for name, versions, lines, wanted, *script in (it for it in WITNESSES if not it[0] or any(is_of(it[0], row) for row in rows)):
            for version in versions:
                with self.subTest(name, version=version, lines=lines):
                    printed = self.printed(site_of(version), lines, version, wanted, *script)
                    # the number of steps is no part of a witness
                    self.assertIn(wanted, [line.partition(" steps ")[0] for line in printed], "\n".join(printed[:40]))

    def printed(self, site, lines, version, wanted, script=""):
        """The lines that the program prints of a unit with these lines, by the command that prints such a line."""
        with tempfile.TemporaryDirectory() as folder:
            Path(folder, "calls.txt").write_text(table_of(version))
            Path(folder, "site.toml").write_text(site)
            unit = Path(folder, "etc/systemd/system/web.service")
            unit.parent.mkdir(parents=True)
            unit.write_text(f"[Service]\nExecStart=/usr/bin/web\nUser=web\n{lines}")
            Path(folder, "script").write_text(script)
            words = ["replay", "web.service", "script"] if script else ["plan" if wanted.startswith("mount ") else "judge", "web.service"]
            return subprocess.run([os.path.abspath(BUILT), *words], cwd=folder, capture_output=True, text=True, check=False).stdout.split("\n")


def words():
    """Prints the rows whose word does not fit what the program does: `followed`, and a witness fails; another, and all hold."""
    known, runs = followed(), Runs()
    for name in dict.fromkeys(it[0] for it in WITNESSES if it[0]):
        held = []
        for _, versions, lines, wanted, *script in (it for it in WITNESSES if it[0] == name):
            held += [wanted in [line.partition(" steps ")[0] for line in runs.printed(site_of(it), lines, it, wanted, *script)] for it in versions]
        is_followed = any(is_of(name, row) for row in known)
        if is_followed != all(held):
            print(f"{name}: {held.count(True)} of {len(held)} witnesses hold, and its word is {'' if is_followed else 'not '}followed")


if __name__ == "__main__":
    words() if sys.argv[1:] == ["words"] else unittest.main()
