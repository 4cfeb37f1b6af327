"""Tests `lint`: what the text of a unit shows, what runs of the program show, overrides, and the command line.

The expected findings were worked out by hand from the units and the manual pages; those of systemd-analyze verify were compared with
systemd 252.
"""
import os
import subprocess
import sys
import tempfile
import unittest
from pathlib import Path
from unittest import mock

TOP = Path(__file__).resolve().parents[3]
sys.path.insert(0, str(TOP / "tools"))

from lentsheep.lint import Finding, by_text, findings_of
from lentsheep.lint_judged import is_denying, replaced
from lentsheep.lint_overrides import Fault, overridden, read_overrides
from lentsheep.lint_tags import TAGS, explanation
from lentsheep.lint_units import LintedFile, LintedUnit, NoUnit, is_given, units_of
from lentsheep.unit_lines import Assignment
from lentsheep.unit_text import UnitFile
from lentsheep.value_kinds import unread_value

BUILT = os.environ.get("LENTSHEEP_PROGRAM") or str(TOP / "crates/sandbox_cli/out/sandbox_cli")
HAS_PROGRAM = os.access(BUILT, os.X_OK)
HOW = {**os.environ, "LENTSHEEP_PROGRAM": BUILT}
PLACE = "etc/systemd/system"


# The settings of units of Debian's packages that bear on their sandbox, and what is found in them, partings apart.
PACKAGES = {
    # no key of a sandbox
    "cups": ("ExecStart=/usr/sbin/cupsd -l\n", []),
    # no_new_privs is off, so a set-user-ID program gives root's capabilities, and mount(2) undoes both lines
    "caddy": (
        "User=caddy\nGroup=caddy\nExecStart=/usr/bin/caddy run\nPrivateTmp=true\nProtectSystem=full\nAmbientCapabilities=CAP_NET_BIND_SERVICE\n",
        [("undone", "PrivateTmp=true"), ("undone", "ProtectSystem=full")],
    ),
    # root with all capabilities: mount(2) undoes what mounts hide. PrivateDevices=, ProtectKernelModules= and RestrictRealtime= are filters
    # too, MemoryDenyWriteExecute= is one, and socketcall(2) of i386 undoes the families. NoNewPrivileges= denies what set-id programs
    # give, which root with CAP_SETGID takes by itself
    "low-memory-monitor": (
        "ExecStart=/usr/libexec/low-memory-monitor\nProtectSystem=strict\nPrivateDevices=true\nProtectControlGroups=true\nProtectHome=true\n"
        "PrivateTmp=true\nRestrictAddressFamilies=AF_UNIX AF_LOCAL AF_NETLINK\nMemoryDenyWriteExecute=true\nProtectKernelModules=true\n"
        "RestrictRealtime=true\nNoNewPrivileges=true\n",
        [
            ("undone", "ProtectSystem=strict"), ("undone", "ProtectControlGroups=true"), ("undone", "ProtectHome=true"), ("undone", "PrivateTmp=true"),
            ("undone", "RestrictAddressFamilies=AF_UNIX AF_LOCAL AF_NETLINK"), ("undone", "NoNewPrivileges=true"),
        ],
    ),
    # the list has no mount(2), so that nothing undoes the mounts; ProtectControlGroups= ends tunables-cgroup
    "fstrim": (
        "ExecStart=/sbin/fstrim --listed-in /etc/fstab\nPrivateDevices=no\nPrivateUsers=no\nProtectKernelTunables=yes\nProtectKernelModules=yes\n"
        "ProtectControlGroups=yes\nMemoryDenyWriteExecute=yes\nSystemCallFilter=@default @file-system @basic-io @system-service\n",
        [],
    ),
    # another user without capabilities: the empty bounding set takes none. NoNewPrivileges= ends nnp-from-filters
    "vnstat": (
        "ExecStart=/usr/sbin/vnstatd --nodaemon\nUser=vnstat\nCapabilityBoundingSet=\nLockPersonality=yes\nMemoryDenyWriteExecute=yes\n"
        "NoNewPrivileges=yes\nPrivateDevices=yes\nPrivateTmp=yes\nProtectHome=yes\nProtectSystem=strict\nRestrictNamespaces=yes\n"
        "RestrictRealtime=yes\nRestrictSUIDSGID=yes\nStateDirectory=vnstat\n",
        [("idle-line", "CapabilityBoundingSet=")],
    ),
    # the bounding set has what the ambient set has; RuntimeDirectory= makes both paths, since /var/run leads to /run
    "yggdrasil": (
        "User=yggdrasil\nGroup=yggdrasil\nProtectHome=true\nProtectSystem=strict\nNoNewPrivileges=true\nRuntimeDirectory=yggdrasil\n"
        "ReadWritePaths=/var/run/yggdrasil /run/yggdrasil\nCapabilityBoundingSet=CAP_NET_ADMIN CAP_NET_BIND_SERVICE\n"
        "AmbientCapabilities=CAP_NET_ADMIN CAP_NET_BIND_SERVICE\nExecStart=/usr/sbin/yggdrasil\n",
        [("idle-line", "CapabilityBoundingSet=CAP_NET_ADMIN CAP_NET_BIND_SERVICE")],
    ),
}  # fmt: skip


def unit(text, name="web.service", **dropins):
    """A unit of a text, with drop-ins by their names."""
    files = [LintedFile(name, f"{PLACE}/{name}", text.encode())]
    files += [LintedFile(f"{name}.d/{it}.conf", f"{PLACE}/{name}.d/{it}.conf", body.encode()) for it, body in dropins.items()]
    return LintedUnit(name, tuple(files))


def lines_of(findings):
    """What findings say, but for their sentences."""
    return [(it.line, it.tag, it.context) for it in findings]


class Text(unittest.TestCase):
    """What the text alone shows."""

    def test_lines_that_systemd_ignores(self):
        for what, text, wanted in [
            ("nothing", "[Unit]\nAfter=a\n[Service]\nPrivateTmp=yes\nX-Own=1\n", []),
            ("a misspelt key", "[Service]\nProtectSystm=yes\n", [(2, "unknown-key", "ProtectSystm=yes")]),
            ("a key elsewhere", "[Unit]\nProtectSystem = strict\n", [(2, "misplaced-key", "ProtectSystem=strict")]),
            ("a section", "[Servce]\nPrivateTmp=yes\n", [(1, "unknown-section", "[Servce]")]),
            ("no section", "PrivateTmp=yes\n", [(1, "outside-section", "PrivateTmp=yes")]),
            ("a mark", "\ufeff[Service]\n", [(1, "byte-order-mark", ""), (1, "unknown-section", "\ufeff[Service]")][:1]),
            ("a value", "[Service]\n# a\nPrivateNetwork=perhaps\n", [(3, "unread-value", "PrivateNetwork=perhaps")]),
            ("a value elsewhere", "[Unit]\nPrivateNetwork=perhaps\n", [(2, "misplaced-key", "PrivateNetwork=perhaps")]),
        ]:  # fmt: skip
            self.assertEqual(wanted, lines_of(by_text(unit(text))), what)

    def test_values(self):
        # systemd-analyze verify of 252 ignores the values of the second column, and takes those of the first
        for key, read, unread in [
            ("PrivateNetwork", "yes 0 On t", "perhaps 2"), ("PrivateTmp", "yes disconnected", "maybe"), ("ProtectSystem", "strict full true", "Strict"),
            ("ProtectHome", "read-only tmpfs no", "hidden"), ("Type", "notify simple", "notfy"), ("Restart", "on-failure no", "onfailure yes"),
            ("KillMode", "mixed control-group", "controlgroup"), ("ProtectProc", "invisible", "hidden"), ("ProcSubset", "pid", "none"),
            ("Nice", "-20 19 +5", "20 x"), ("OOMScoreAdjust", "-1000 1000", "1001"), ("UMask", "0077 7 022", "999 rwx"),
            ("StandardOutput", "journal file:/a append:/a", "syslogg"), ("DevicePolicy", "closed", "open"), ("KeyringMode", "private", "none"),
            ("TimeoutStopSec", "5 5s infinity 1min30s 3min 0 1.5h", "5parsecs x -1"), ("MemoryMax", "512M 50% infinity 1.5G", "lots"),
            ("LimitNOFILE", "1024 1024:4096 infinity", "many"), ("TasksMax", "16 50% infinity", "few"), ("CPUQuota", "20% 150%", "much 20"),
            ("SystemCallFilter", "raed", ""),
        ]:  # fmt: skip
            for value in read.split():
                self.assertEqual("", unread_value("Service", key, value), f"{key}={value}")
            for value in unread.split():
                self.assertNotEqual("", unread_value("Service", key, value), f"{key}={value}")
        self.assertEqual("", unread_value("Service", "RestartSec", "1min 30s"))
        self.assertEqual("did you mean on-failure?", unread_value("Service", "Restart", "onfailure"))
        self.assertEqual("", unread_value("Unit", "PrivateNetwork", "perhaps"), "the key is of another section")

    def test_what_is_no_unit(self):
        for what, found, wanted in [
            ("a name", findings_of(unit("[Service]\n", "web.socket")), [(1, "not-a-unit", "web.socket")]),
            ("bytes", findings_of(LintedUnit("a.service", (LintedFile("a.service", "a.service", b"[Service]\nA=\xff\n"),))), [(2, "not-a-unit", "")]),
        ]:
            self.assertEqual(wanted, lines_of(found.findings), what)

    def test_lines_that_deny(self):
        files = [UnitFile("a", "[Service]\nCapabilityBoundingSet=CAP_KILL\nCapabilityBoundingSet=CAP_CHOWN\nSystemCallFilter=@a\nSystemCallFilter=~@b\n")]
        for key, value, wanted in [
            ("PrivateTmp", "yes", True), ("PrivateTmp", "no", False), ("ReadWritePaths", "/a", False), ("SystemCallFilter", "", False),
            ("CapabilityBoundingSet", "", True), ("CapabilityBoundingSet", "CAP_KILL", False), ("CapabilityBoundingSet", "~CAP_KILL", True),
            ("SystemCallFilter", "@a", True), ("SystemCallFilter", "~@b", True),
        ]:  # fmt: skip
            self.assertEqual(wanted, is_denying(Assignment("a", 1, "Service", key, value), files), f"{key}={value}")

    def test_paths_that_are_given(self):
        for path, wanted in [
            ("/usr/share/x", True), ("/etc/x.conf", True), ("/proc/irq", True), ("/var/log/wtmp", True), ("/var/run/web", True), ("/run/web/", True),
            ("/var/lib", True), ("/run/web/sub", False), ("/srv/web", False), ("/var/lib/other", False), ("/", True),
        ]:  # fmt: skip
            self.assertEqual(wanted, is_given(path, ["/run/web"]), path)


class Units(unittest.TestCase):
    """Which units words name."""

    def test_files_and_folders(self):
        with tempfile.TemporaryDirectory() as place:
            for path in ("b/web.service", "b/web.service.d/10-a.conf", "b/web.service.d/README", "a@.service", "x.socket"):
                os.makedirs(os.path.dirname(f"{place}/{path}"), exist_ok=True)
                Path(f"{place}/{path}").write_text("[Service]\n", encoding="utf-8")
            found = units_of([place], None)
            self.assertEqual(["a@lint.service", "web.service"], [it.name for it in found])
            self.assertEqual([f"{PLACE}/web.service", f"{PLACE}/web.service.d/10-a.conf"], [it.path for it in found[1].files])
            self.assertEqual(f"{place}/b/web.service.d/10-a.conf", found[1].files[1].shown)
            with self.assertRaises(NoUnit):
                units_of([f"{place}/gone.service"], None)
            with self.assertRaises(NoUnit):
                units_of([f"{place}/b/web.service.d"], None)

    def test_of_a_root(self):
        with tempfile.TemporaryDirectory() as place:
            os.makedirs(f"{place}/usr/lib/systemd/system/web.service.d")
            Path(f"{place}/usr/lib/systemd/system/web.service").write_text("[Service]\n", encoding="utf-8")
            Path(f"{place}/usr/lib/systemd/system/web.service.d/a.conf").write_text("[Service]\n", encoding="utf-8")
            (found,) = units_of(["web"], place)
            self.assertEqual(["web.service", "a.conf"], [it.shown.rpartition("/")[2] for it in found.files])


class Copies(unittest.TestCase):
    """Copies of a text with another line."""

    def test_replaced(self):
        for what, text, number, wanted in [
            ("a line", "a\nb\nc", 2, "a\nX\nc"), ("continued lines", "a\nb\\\nc\nd", 2, "a\nX\n#\nd"), ("a comment within", "b\\\n# x\nc\nd", 1, "X\n#\n#\nd"),
            ("a comment after it", "b\n# x\nc", 1, "X\n# x\nc"), ("the last line", "a\nb\\", 2, "a\nX"),
        ]:  # fmt: skip
            self.assertEqual(wanted, replaced(text, number, "X"), what)


class Overrides(unittest.TestCase):
    """Findings that stay."""

    FINDINGS = [
        Finding("a/web.service", 4, "idle-line", "PrivateTmp=yes", "it denies nothing by itself"),
        Finding("a/web.service", 9, "idle-line", "PrivateTmp=yes", "it denies nothing by itself"),
        Finding("a/web.service", 5, "unmade-path", "/srv/a", "it is made by nothing"),
        Finding("b/web.service", 5, "unmade-path", "/srv/a", "it is made by nothing"),
        Finding("a/web.service", 5, "unmade-path", "/srv/b", "it is made by nothing"),
    ]

    def test_silences_one_finding_and_no_other(self):
        for line, silenced in [
            ("web.service: idle-line PrivateTmp=yes", [0]), ("a/web.service: unmade-path /srv/a", [2]), ("b/web.service: unmade-path /srv/a", [3]),
            ("web.service: unmade-path /srv/a", [2]), ("web.service: unmade-path /srv", []), ("eb.service: unmade-path /srv/b", []),
            ("web.service: undone /srv/a", []),
        ]:  # fmt: skip
            left, unused = overridden(self.FINDINGS, read_overrides(f"# a reason\n{line}\n", "o"))
            self.assertEqual([it for at, it in enumerate(self.FINDINGS) if at not in silenced], left, line)
            self.assertEqual([] if silenced else [line], [it.text for it in unused])

    def test_faults(self):
        for text, wanted in [
            ("web.service: idle-line A=b\n", "o:1: an override needs a reason, in a comment above it"),
            ("# why\n\nweb.service: idle-line A=b\n", "o:3: an override needs a reason, in a comment above it"),
            ("#\nweb.service: idle-line A=b\n", "o:2: an override needs a reason, in a comment above it"),
            ("# why\nweb.service: idle A=b\n", "o:2: there is no tag idle (--list-tags prints all tags)"),
            ("# why\nweb.service\n", "o:2: write an override as FILE: TAG CONTEXT"),
        ]:
            with self.assertRaises(Fault) as raised:
                read_overrides(text, "o")
            self.assertEqual(wanted, str(raised.exception))

    def test_reasons(self):
        (found,) = read_overrides("# two\n# lines\nweb.service: idle-line A=b c\n", "o")
        self.assertEqual(("two lines", "A=b c", 3), (found.reason, found.context, found.line))

    def test_tags(self):
        self.assertIn("parting-strict-homes", TAGS)
        self.assertNotIn("parting-file-modes", TAGS, "systemd denies more by it")
        self.assertTrue(explanation("undone").startswith("undone (warning)\n\n"))
        self.assertIsNone(explanation("undne"))


class Words(unittest.TestCase):
    """The command line, which needs no program for help and usage errors."""

    def run_lint(self, *words, cwd=None):
        """Its status, output and standard error."""
        how = {**HOW, "LENTSHEEP_PROGRAM": "/bin/false"} if not HAS_PROGRAM else HOW
        found = subprocess.run([str(TOP / "sandbox"), *words], capture_output=True, text=True, env=how, cwd=cwd, check=False)
        return found.returncode, found.stdout, found.stderr

    def test_without_a_program(self):
        for words, wanted in [
            (["lint"], (2, "", "sandbox: name a unit file (./sandbox lint --help)\n")),
            (["lint", "/nowhere/a.service"], (2, "", "sandbox: there is no file /nowhere/a.service (./sandbox lint --help)\n")),
            (["lint", "--explain", "undne"], (2, "", "sandbox: there is no tag undne; did you mean undone? (./sandbox lint --help)\n")),
            (["--root", "/nowhere", "lint", "a"], (2, "", "sandbox: there is no folder /nowhere (./sandbox lint --help)\n")),
        ]:
            self.assertEqual(wanted, self.run_lint(*words), words)
        self.assertEqual((0, "usage: ./sandbox lint "), (self.run_lint("lint", "--help")[0], self.run_lint("lint", "--help")[1][:22]))
        self.assertIn("unknown-key warning\n", self.run_lint("lint", "--list-tags")[1])
        self.assertTrue(self.run_lint("lint", "--explain", "idle-line")[1].startswith("idle-line (info)"))


@unittest.skipUnless(HAS_PROGRAM, "the program is not built")
class Judged(unittest.TestCase):
    """What runs of the program show. The expected findings follow from systemd.exec(5) and docs/PROFILE.md."""

    def setUp(self):
        patched = mock.patch.dict(os.environ, {"LENTSHEEP_PROGRAM": os.path.abspath(BUILT)})
        patched.start()
        self.addCleanup(patched.stop)

    def found(self, *lines, name="web.service"):
        """What is found in a unit with these lines below ExecStart=, which is line 2."""
        return findings_of(unit("[Service]\nExecStart=/usr/bin/web\n" + "".join(f"{it}\n" for it in lines), name))

    def tagged(self, tag, *lines):
        """The places and contexts of findings with a tag."""
        return [(it.line, it.context) for it in self.found(*lines).findings if it.tag == tag]

    def test_paths_that_nothing_makes(self):
        for lines, wanted in [
            (["ReadWritePaths=/srv/data"], [(3, "/srv/data")]), (["ReadWritePaths=-/srv/data"], []), (["ReadWritePaths=/etc/web /run/web"], [(3, "/run/web")]),
            (["RuntimeDirectory=web", "ReadWritePaths=/run/web"], []), (["RuntimeDirectory=web", "ReadWritePaths=/var/run/web"], []),
            (["ReadOnlyPaths=/a /b", "InaccessiblePaths=/b"], [(3, "/a"), (3, "/b"), (4, "/b")]), (["BindPaths=/srv/a:/srv/b"], [(3, "/srv/a")]),
        ]:  # fmt: skip
            self.assertEqual(wanted, sorted(self.tagged("unmade-path", *lines)), lines)

    def test_a_start_that_fails(self):
        for lines, wanted in [
            (["NoExecPaths=/"], [(2, "/usr/bin/web")]), (["NoExecPaths=/", "ExecPaths=/usr/bin/web"], []), (["TemporaryFileSystem=/usr"], [(2, "/usr/bin/web")]),
            (["ExecStart="], [(1, "")]),
        ]:  # fmt: skip
            self.assertEqual(wanted, self.tagged("start-fails", *lines), lines)

    def test_what_undoes_a_line(self):
        # root may mount: two calls of mount(2) make all files writable again
        (it,) = [it for it in self.found("ProtectSystem=strict").findings if it.tag == "undone"]
        self.assertEqual((3, "ProtectSystem=strict"), (it.line, it.context))
        self.assertIn("since it can change mounts (CAP_SYS_ADMIN is held); with CapabilityBoundingSet=~CAP_SYS_ADMIN it denies", it.sentence)
        for lines in (["ProtectSystem=strict", "CapabilityBoundingSet=~CAP_SYS_ADMIN"], ["ProtectSystem=strict", "SystemCallFilter=~@mount"]):
            self.assertEqual([], self.tagged("undone", *lines), lines)

    def test_calls_of_32_bit_programs(self):
        # socketcall(2) of i386 makes sockets, and its family is in memory, where no filter sees it
        for lines, wanted in [(["RestrictAddressFamilies=AF_UNIX"], [(3, "RestrictAddressFamilies=AF_UNIX")]), (["RestrictAddressFamilies=AF_UNIX", "SystemCallArchitectures=native"], [])]:
            self.assertEqual(wanted, self.tagged("undone", *lines))
        # the user has no filter, so a set-user-ID program undoes this line
        (it,) = [it for it in self.found("User=web", "ProtectSystem=full").findings if it.tag == "undone"]
        self.assertIn("with NoNewPrivileges=yes it denies", it.sentence)

    def test_idle_lines(self):
        # another user has no capabilities, so an empty bounding set takes none from it; without it a set-user-ID program is stopped
        # by NoNewPrivileges= too
        lines = ["User=web", "NoNewPrivileges=yes", "CapabilityBoundingSet="]
        self.assertEqual([(5, "CapabilityBoundingSet=")], self.tagged("idle-line", *lines))
        self.assertEqual([], self.tagged("idle-line", "PrivateTmp=no", "CapabilityBoundingSet=~CAP_SYS_ADMIN", "ReadWritePaths=/var/lib"))

    def test_a_line_that_systemd_needs_is_not_idle(self):
        # the filter of ProtectClock= implies no_new_privs in the profile, and not in systemd 255 (nnp-from-filters)
        self.assertEqual([], self.tagged("idle-line", "User=web", "ProtectClock=yes", "NoNewPrivileges=yes"))
        # /sys/fs/cgroup is read-only by ProtectKernelTunables= in the profile, and not in systemd (tunables-cgroup)
        self.assertEqual([], self.tagged("idle-line", "User=web", "NoNewPrivileges=yes", "ProtectKernelTunables=yes", "ProtectControlGroups=yes"))

    def test_partings(self):
        lines = ["User=web", "NoNewPrivileges=yes", "ProtectSystem=strict", "SystemCallArchitectures=native"]
        (it,) = [it for it in self.found(*lines).findings if it.tag == "parting-strict-homes"]
        self.assertEqual(5, it.line)
        self.assertIn("closed by ProtectHome=read-only", it.sentence)
        self.assertEqual([], self.tagged("parting-strict-homes", *lines, "ProtectHome=yes"))

    def test_values_and_names(self):
        for line, wanted in [
            ("SystemCallFilter=raed", [(3, "unread-name", "SystemCallFilter=raed")]), ("RestrictAddressFamilies=AF_UNIX AF_LOCAL", []),
            ("SystemCallErrorNumber=EFOO", [(3, "unread-value", "SystemCallErrorNumber=EFOO")]), ("ProtectControlGroups=strict", []),
        ]:
            found = [it for it in lines_of(self.found("User=web", line).findings) if it[1].startswith("unread")]
            self.assertEqual([(place + 1, tag, context) for place, tag, context in wanted], found, line)

    def test_what_is_not_modelled(self):
        found = self.found("ProtectSystem=strict", "PrivateUsers=yes")
        self.assertEqual([], [it for it in found.findings if it.tag in ("undone", "idle-line") or it.tag.startswith("parting")])
        self.assertEqual(("web.service:4: PrivateUsers=yes: the model does not have PrivateUsers=, so idle lines and partings were not checked",), found.remarks)

    def test_a_program_without_its_folder(self):
        found = findings_of(unit("[Service]\nExecStart=web start\nProtectSystem=strict\n"))
        self.assertEqual([(3, "undone", "ProtectSystem=strict")], [it for it in lines_of(found.findings) if it[1] in ("undone", "start-fails")])

    def test_drop_ins_and_templates(self):
        found = findings_of(unit("[Service]\nExecStart=/usr/bin/web %i\n", "web@lint.service", a="[Service]\nProtectSystem=strict\nReadWritePaths=/srv/%i\n"))
        self.assertIn(("web@lint.service.d/a.conf", 3, "unmade-path"), [(it.file, it.line, it.tag) for it in found.findings])

    def test_units_of_packages(self):
        for name, (text, wanted) in PACKAGES.items():
            found = findings_of(unit(f"[Service]\n{text}", f"{name}.service"))
            told = [(it.tag, it.context) for it in found.findings if not it.tag.startswith("parting-")]
            self.assertEqual(wanted, told, name)

    def test_status_and_severity(self):
        with tempfile.TemporaryDirectory() as place:
            path = f"{place}/web.service"
            Path(path).write_text("[Service]\nExecStart=/usr/bin/web\nReadWritePaths=/srv/data\n", encoding="utf-8")
            Path(f"{place}/o").write_text("# the postinst makes it\nweb.service: unmade-path /srv/data\n# old\nweb.service: undone A=b\n", encoding="utf-8")
            for words, status, wanted in [
                (["--severity", "error"], 1, f"{path}:3: unmade-path: /srv/data: it is made by nothing in this unit, and the start fails without it; write -/srv/data\n"),
                (["--severity", "error", "--overrides", f"{place}/o"], 0, ""),
            ]:
                found = subprocess.run([str(TOP / "sandbox"), "lint", *words, path], capture_output=True, text=True, env=HOW, check=False)
                self.assertEqual((status, wanted), (found.returncode, found.stdout), found.stderr)
            found = subprocess.run([str(TOP / "sandbox"), "lint", "--overrides", f"{place}/o", path], capture_output=True, text=True, env=HOW, check=False)
            self.assertIn(f"{place}/o:4: unused-override: web.service: undone A=b: no finding matches this override\n", found.stdout)


if __name__ == "__main__":
    unittest.main()
