"""Tests what a site says of its host: kinds of files, systemd and kernel; the tables that `--root` takes by it; and their groups."""
import os
import re
import shutil
import socket
import subprocess
import sys
import tempfile
import unittest
from pathlib import Path

TOP = Path(__file__).resolve().parents[3]
sys.path.insert(0, str(TOP / "tools"))

from lentsheep.host import read_host
from lentsheep.table import read_groups, read_table, table_for, version_of
from sites import machine, others, places
from sites.root import Root
from sites.told import Told

TABLES = TOP / "tables/x86-64"
# By /proc/kallsyms: read is there, uselib is weak, and umount2 is called umount.
SYMBOLS = "0000 T __x64_sys_read\n0000 W __x64_sys_uselib\n0000 t __x64_sys_umount\n0000 T __ia32_sys_uselib\n"
PROTOCOLS = "protocol  size sockets  memory press\nUNIX-STREAM 1 1\nTCPv6 1 1\nPING 1 1\nAF_VSOCK 1 0\n"
UNIT = "[Service]\nExecStart=/usr/bin/web\n"


class Places(unittest.TestCase):
    """A root in a folder that is gone afterwards."""

    def setUp(self):
        place = tempfile.TemporaryDirectory()
        self.addCleanup(place.cleanup)
        self.place = place.name
        self.top = f"{place.name}/root"
        self.write("etc/passwd", "root:x:0:0:root:/root:/bin/sh\n")
        self.write("usr/lib/systemd/system/web.service", UNIT)

    def write(self, name, text=""):
        """Writes a file of the root."""
        path = Path(self.top, name)
        path.parent.mkdir(parents=True, exist_ok=True)
        path.write_text(text)

    def running(self, release="6.1.0", second_abi=True):
        """Lets the root run a kernel."""
        self.write("proc/sys/kernel/osrelease", f"{release}\n")
        self.write("proc/kallsyms", SYMBOLS)
        self.write("proc/net/protocols", PROTOCOLS)
        if second_abi:
            self.write("proc/sys/abi/vsyscall32", "1\n")

    def site(self, *words):
        """The site that is printed, and what is told."""
        found = subprocess.run([TOP / "tools/make-site", "--root", self.top, *words], capture_output=True, text=True, check=True)
        return found.stdout, found.stderr


class Heads(Places):
    """The first lines of a site."""

    def test_systemd(self):
        root = Root(self.top)
        self.assertEqual([], machine.heads(root))
        self.write("var/lib/dpkg/status", "Package: libc6\nVersion: 2.36\n\nPackage: systemd\nStatus: x\nVersion: 252.39-1~deb12u2\n\n")
        self.assertEqual(["systemd 252"], machine.heads(root))
        # the library is nearer than the package
        self.write("usr/lib/x86_64-linux-gnu/systemd/libsystemd-core-257.so")
        self.assertEqual(["systemd 257"], machine.heads(root))

    def test_a_package_without_systemd(self):
        self.write("var/lib/dpkg/status", "Package: systemd\n\nPackage: libc6\nVersion: 2.36\n")
        self.assertEqual([], machine.heads(Root(self.top)))

    def test_libraries_and_packages(self):
        # the manager's own library precedes the shared one, and both the package; a version before its release is none
        for files, package, wanted in [
            (["usr/lib/systemd/libsystemd-core-257.13-1.so"], "", [257]), (["usr/lib64/systemd/libsystemd-shared-252.4.so"], "", [252]),
            (["usr/lib/x86_64-linux-gnu/systemd/libsystemd-core-257.so", "lib/systemd/libsystemd-shared-252.so"], "252.1-1", [257]),
            (["usr/lib/systemd/libsystemd-core-252.so", "usr/lib/x86_64-linux-gnu/systemd/libsystemd-core-257.so"], "", [252, 257]),
            (["usr/lib/systemd/libsystemd-core-257~rc2.so"], "", []), ([], "257~rc2-3", []), ([], "1:255.4-1ubuntu8", [255]), ([], "", []),
        ]:  # fmt: skip
            with self.subTest(files=files, package=package):
                shutil.rmtree(self.top)
                for name in files:
                    self.write(name)
                if package:
                    self.write("var/lib/dpkg/status", f"Package: systemd\nVersion: {package}\n\n")
                self.assertEqual(wanted, machine.systemd_versions(Root(self.top)))

    def test_kernel(self):
        self.running()
        self.assertEqual(["kernel 6.1.0, which runs programs of i386"], machine.heads(Root(self.top)))
        os.remove(f"{self.top}/proc/sys/abi/vsyscall32")
        self.assertEqual(["kernel 6.1.0"], machine.heads(Root(self.top)))

    def test_what_the_kernel_lacks(self):
        self.assertEqual(["uselib", "write"], machine.lacking_calls(SYMBOLS, ["read", "uselib", "umount2", "write"]))
        self.assertEqual([], machine.lacking_calls("", ["read"]))
        numbers = {"AF_UNIX": "1", "AF_INET": "2", "AF_INET6": "10", "AF_KEY": "15", "AF_ALG": "38", "AF_VSOCK": "40"}
        self.assertEqual(["AF_KEY"], machine.lacking_families(PROTOCOLS, "alias net-pf-38 af_alg\n", numbers))
        self.assertEqual([], machine.lacking_families("", "", numbers))

    def test_site(self):
        self.running()
        self.write("usr/lib/systemd/libsystemd-shared-252.so")
        with socket.socket(socket.AF_UNIX) as bus:
            os.makedirs(f"{self.top}/run")
            os.chdir(f"{self.top}/run")
            bus.bind("bus")
        os.chdir("/")
        text, told = self.site("--unit", "web.service")
        host = read_host(text)
        self.assertEqual(252, host.systemd)
        self.assertEqual("socket", host.special["/run/bus"])
        self.assertTrue({"uselib", "write", "AF_KEY"} <= host.lacking)
        self.assertFalse({"read", "umount2", "AF_UNIX", "AF_INET6"} & host.lacking)
        # these lines are no lines of what is left out
        starts = ("make-site: kernel", "make-site: systemd", "make-site: the kernel")
        self.assertFalse([line for line in told.split("\n") if line.startswith(starts)])

    def test_a_kernel_makes_the_site_anew(self):
        self.running()
        kept = f"{self.place}/site.toml"
        for release in ("6.1.0", "6.1.0", "6.12.0"):
            self.write("proc/sys/kernel/osrelease", f"{release}\n")
            self.site("--keep", kept)
            self.assertIn(f"\n# kernel {release}, which", Path(kept).read_text())


class Key(Places):
    """The key `systemd` of a site."""

    def test_versions(self):
        known = "without the key systemd, since only the rules of 252 and 257 are known"
        for version, is_known, why in [
            (252, True, ""), (257, True, ""), (251, False, known), (256, False, known), (2570, False, known),
            (None, False, "without the key systemd, since the root does not show its version"),
        ]:  # fmt: skip
            with self.subTest(version):
                shutil.rmtree(f"{self.top}/usr/lib/systemd")
                self.write("usr/lib/systemd/system/web.service", UNIT)
                if version:
                    self.write(f"usr/lib/systemd/libsystemd-core-{version}.so")
                text, told = self.site("--unit", "web.service", "--short")
                top = [line for line in text.partition("\n[[")[0].split("\n") if not line.startswith("#")]
                self.assertEqual([f"systemd = {version}"] * is_known, [line for line in top if line.startswith("systemd")])
                self.assertEqual(f"systemd = {version}" if is_known else "dynamic_uid = 61184", top[0])
                named = f"systemd {version}" if version else "/usr/lib/systemd"
                line = f"{why}: 1 ({named})"
                self.assertEqual([not is_known] * 2, [f"\n# {line}\n" in text, f"make-site: {line}\n" in told] if why else [False] * 2)
                self.assertEqual(not is_known, "without the key" in told)

    def test_several_versions(self):
        for version in (252, 257):
            self.write(f"usr/lib/systemd/libsystemd-core-{version}.so")
        text, told = self.site()
        self.assertNotIn("\nsystemd = ", text)
        self.assertIn("make-site: without the key systemd, since the root has several versions: 2 (systemd 252, systemd 257)\n", told)
        self.assertIsNone(read_host(text).systemd)

    @unittest.skipUnless(shutil.which("systemctl"), "this machine has no systemd")
    def test_this_machine(self):
        said = subprocess.run(["systemctl", "--version"], capture_output=True, text=True, check=True).stdout
        version = int(said.split()[1])
        self.assertEqual(version if version in (252, 257) else None, machine.profile(Root("/"), Told()))


class RowsOfTheKey(Places):
    """Rows that a site with the key has besides, since the program reads more of the unit then."""

    def rows(self, unit, *files):
        """The paths of the rows, without the key and with it."""
        for folder in ("opt", "usr", "var"):
            shutil.rmtree(f"{self.top}/{folder}", ignore_errors=True)
        self.write("usr/lib/systemd/system/web.service", unit)
        for name in files:
            self.write(name)
            os.chmod(f"{self.top}/{name}", 0o755)
        found = []
        for version in (251, 252):
            self.write(f"usr/lib/systemd/libsystemd-core-{version}.so")
            text, _ = self.site("--unit", "web.service")
            os.remove(f"{self.top}/usr/lib/systemd/libsystemd-core-{version}.so")
            found.append(set(re.findall('^path = "(.*)"$', text, re.M)))
        return found

    def test_units(self):
        for unit, files, wanted in [
            # systemd looks for the program; the words behind it are not read
            ("ExecStart=-web %y 'x\n", ["usr/bin/web", "usr/local/sbin/web", "opt/web"], {"/usr/bin/web", "/usr/local/sbin/web"}),
            ("ExecStart=!!/opt/%N/web\n", ["opt/web/web"], set()),
            ("ReadWriteDirectories=/opt/a\nReadOnlyDirectories=-/opt/b\nInaccessibleDirectories=/opt/c\n", ["opt/a", "opt/b", "opt/d"], {"/opt/a", "/opt/b"}),
            ("ConfigurationDirectory=web web/x:y\n", [], {"/etc/web"}), ("StateDirectory=a:b\n", ["var/lib/b/x"], {"/var/lib/b"}),
            # specifiers that only the key knows, and a letter of none
            ("ReadWritePaths=/opt%f\n", ["opt/web"], {"/opt/web"}), ("ReadWritePaths=/opt/%g%G /opt/%z%\n", ["opt/root0", "opt/%z%"], {"/opt/root0", "/opt/%z%"}),
            ("ReadWritePaths=/opt/%m\n", ["opt/%m"], set()),
        ]:  # fmt: skip
            with self.subTest(unit):
                before, behind = self.rows(f"[Service]\n{unit}", *files)
                # the folders of unpacked programs are rows of their own either way
                folders = {"/usr/local", "/usr/local/sbin", "/usr/bin", "/opt"}
                of_key = set(places.PROTECTED_BY_KEY) | {path for it in places.RUNNING_BY_KEY.values() for path in it.split()} | {"/proc/sys/kernel"}
                self.assertEqual(wanted, behind - before - folders - of_key)
                self.assertEqual(set(), before - behind)

    def test_folders_of_dynamic_users(self):
        # they are below `private`; of RuntimeDirectory= where they are kept, and those of ConfigurationDirectory= are not
        keys = "StateDirectory=a\nCacheDirectory=b\nLogsDirectory=c\nRuntimeDirectory=d\nConfigurationDirectory=e\n"
        private = {"/var/lib/private/a", "/var/cache/private/b", "/var/log/private/c"}
        for lines, wanted in [
            ("DynamicUser=yes\n", {*private, "/run/d", "/etc/e"}), ("DynamicUser=yes\nRuntimeDirectoryPreserve=restart\n", {*private, "/run/private/d", "/etc/e"}),
            ("DynamicUser=yes\nRuntimeDirectoryPreserve=no\n", {*private, "/run/d", "/etc/e"}),
            ("DynamicUser=yes\nDynamicUser=no\n", {"/var/lib/a", "/var/cache/b", "/var/log/c", "/run/d", "/etc/e"}),
        ]:  # fmt: skip
            with self.subTest(lines):
                before, behind = self.rows(f"[Service]\n{lines}{keys}")
                made = {path for path in behind if re.fullmatch("/(var/lib|var/cache|var/log|run|etc)(/private)?/[a-e]", path)}
                self.assertEqual(wanted, made)
                self.assertTrue({"/var/lib/a", "/var/cache/b", "/var/log/c", "/run/d"} <= before)

    def test_what_protections_speak_of(self):
        before, behind = self.rows(UNIT, "lib/modules/6.1/x", "sys/fs/selinux/x")
        self.assertEqual(
            {
                "/lib/modules", "/proc/bus", "/proc/sys/kernel", "/proc/sys/kernel/hostname", "/proc/sys/kernel/domainname", "/sys/fs/bpf",
                "/sys/fs/selinux", "/sys/kernel/debug", "/sys/kernel/tracing", "/dev/mqueue", "/dev/hugepages", "/run/credentials",
            },
            behind - before,
        )  # fmt: skip


class Kinds(unittest.TestCase):
    """What the views read of rows."""

    def test_rows(self):
        site = (
            '[[row]]\npath = "/a b"\nkind = "file"  # terminal\n\n[[row]]\npath = "/x\\"y"\nkind = "exe"\ncaps = ["CAP_KILL"]\n'
            'effective = true\n\n[[row]]\npath = "/z"\nkind = "file"\n\n[[user]]\nname = "socket"\n'
        )
        host = read_host(site)
        self.assertEqual(({"/a b": "terminal"}, frozenset({'/x"y'})), (host.special, host.effective))
        listed = 'row = [ { path = "/a", kind = "exe", caps = [], effective = true }, { path = "/b", kind = "dir" } ]\n'
        self.assertEqual(frozenset({"/a"}), read_host(listed).effective)

    def test_devices(self):
        told = read_host('[[row]]\npath = "/x"\nkind = "file" # disk\n')
        self.assertEqual((True, False), (told.is_device("/x"), told.is_device("/dev/null")))
        # of a site that tells none apart all that is below /dev counts
        self.assertEqual((False, True), (read_host("").is_device("/x"), read_host("").is_device("/dev/null")))


class Others(Places):
    """Folders of units that are not judged."""

    def test_paths(self):
        private = "/var/tmp/systemd-private-" + "0" * 32
        for path, wanted in [
            ("/run/credentials/a.service", True), ("/run/credentials/a.service/key", True), ("/run/credentials/web.service", False),
            ("/run/credentials", False), (f"{private}-a.service-AbCdEf/tmp", True), (f"{private}-web.service-AbCdEf", False),
            ("/run/systemd/propagate/a.service", True), ("/run/web", False),
        ]:  # fmt: skip
            self.assertEqual(wanted, others.is_of_another(path.encode(), {"web.service"}), path)

    def test_rows(self):
        for unit in ("web.service", "a.service"):
            os.makedirs(f"{self.top}/run/credentials/{unit}")
            os.mkfifo(f"{self.top}/run/credentials/{unit}/pipe")
        text, told = self.site("--unit", "web.service")
        self.assertIn('"/run/credentials/web.service"', text)
        self.assertNotIn('"/run/credentials/a.service"', text)
        self.assertIn("for units that are not judged: 1 (/run/credentials/a.service)", told)


class Tables(Places):
    """The table that `--root` takes."""

    def ran(self, *words):
        """The run of a stand-in of the program, which prints the table that it is given."""
        program = Path(self.place, "program")
        program.write_text("#!/bin/sh\nreadlink calls.txt\n")
        program.chmod(0o755)
        how = {**os.environ, "LENTSHEEP_PROGRAM": str(program), "XDG_CACHE_HOME": f"{self.place}/cache"}
        return subprocess.run([TOP / "sandbox", "--root", self.top, *words, "plan", "web.service"], env=how, capture_output=True, text=True, check=True)

    def table(self):
        """The table that it is given."""
        return os.path.relpath(self.ran().stdout.strip(), TABLES)

    def test_versions_and_abis(self):
        # a root with the key is judged over both ABIs, whether or not it shows a kernel
        self.assertEqual("calls.txt", self.table())
        for version in (252, 257):
            self.write(f"usr/lib/systemd/libsystemd-core-{version}.so")
            self.assertEqual(f"{version}/calls2.txt", self.table())
            os.remove(f"{self.top}/usr/lib/systemd/libsystemd-core-{version}.so")
        self.write("usr/lib/systemd/libsystemd-core-255.so")
        self.assertEqual("calls.txt", self.table())
        self.running()
        self.assertEqual("calls2.txt", self.table())

    def test_sites(self):
        # with the key alone a site asks for the tables of its version; what make-site wrote before there was a key counts as it was
        i386 = "# kernel 6.1, which runs programs of i386\n"
        for site, wanted in [
            ("systemd = 252\n", "252/calls2.txt"), ("# made\n# systemd 252\nsystemd=257 # x\n", "257/calls2.txt"), ("dynamic_uid = 1\n \"systemd\" = 0x101\n", "257/calls2.txt"),
            ("# made\n# systemd 252\n", "252/calls.txt"), (f"# made\n# systemd 252\n{i386}", "252/calls2.txt"), (f"# made\n# systemd 257\n{i386}", "calls2.txt"),
            ("", "calls.txt"), ("# systemd = 252\n", "calls.txt"), ("systemd = 256\n", "calls.txt"), ("systemd = \"252\"\n", "calls.txt"),
            ("[[row]]\nsystemd = 252\n", "calls.txt"), ("row = [\n]\nsystemd = 252\n", "252/calls2.txt"),
        ]:  # fmt: skip
            self.assertEqual(wanted, table_for(site), site)

    def test_a_table_of_another_version(self):
        self.write("usr/lib/systemd/libsystemd-core-257.so")
        for version, is_told in ((252, True), (257, False), (None, False)):
            table = TABLES / str(version or "") / "calls.txt"
            said = self.ran("--calls", table).stderr
            line = f"sandbox: {table} has the groups of systemd 252, and the unit is judged by the rules of systemd 257\n"
            self.assertEqual(is_told, line in said, said)
            self.assertEqual(is_told, "groups of systemd" in said)

    def test_calls_of_the_tables(self):
        # the tables of a version have the calls of the others, and the groups of that version
        for name in ("calls.txt", "calls2.txt"):
            kept = ("version", "abi", "call", "family")
            lines, *others = ((TABLES / place / name).read_text().split("\n") for place in ("", "252", "257"))
            for other in others:
                self.assertEqual(*([line for line in it if line.startswith(kept)] for it in (lines, other)))
            # those without a version have the groups of 257
            self.assertEqual(*(sorted(line for line in it if line.startswith("group")) for it in (lines, others[1])))
        for name, number in (("setxattrat", 463), ("getxattrat", 464), ("listxattrat", 465), ("removexattrat", 466)):
            self.assertEqual(2, (TABLES / "calls2.txt").read_text().count(f"call {name} {number}\n"))
        self.assertIn("call socket 359\n", (TABLES / "calls2.txt").read_text())

    def test_versions_of_the_tables(self):
        for place, wanted in (("", None), ("252", 252), ("257", 257)):
            for name in ("calls.txt", "calls2.txt"):
                self.assertEqual(wanted, version_of((TABLES / place / name).read_text()), f"{place}/{name}")

    def test_groups_of_versions(self):
        # by systemd-analyze syscall-filter of both: 257 has @sandbox in @default, and mseal(2); 252 has neither
        self.assertTrue({"seccomp", "landlock_add_rule", "mseal"} <= read_groups(257)["@default"])
        self.assertFalse({"seccomp", "landlock_add_rule", "mseal"} & read_groups(252)["@default"])
        self.assertNotIn("@sandbox", read_groups(252))
        self.assertEqual({"iopl", "ioperm"}, read_groups(252)["@raw-io"])
        self.assertEqual((1, 2), (read_table(str(TABLES)).abis, 2))
        self.assertEqual({}, read_groups(251))


if __name__ == "__main__":
    unittest.main()
