"""Tests logs of strace, and which questions a trace or a unit's own keys ask to keep. The logs are written out here."""
import sys
import unittest
from pathlib import Path

TOP = Path(__file__).resolve().parents[3]
sys.path.insert(0, str(TOP / "tools"))

from lentsheep.hardened import listed, shortened
from lentsheep.strace import arguments, calls_of, script_of, signals_of, string
from lentsheep.unit_text import UnitFile
from lentsheep.values import Question
from lentsheep.wanted import KEPT_FILE, Wanted, commands_not_seen, folder_of, of_trace, of_unit

LOG = """\
10 execve("/usr/sbin/webd", ["webd"], 0x7ffd11112222 /* 3 vars */) = 0
10 openat(AT_FDCWD, "/etc/web/web.conf", O_RDONLY) = 3
10 openat(AT_FDCWD, "/nope", O_RDONLY) = -1 ENOENT (No such file or directory)
10 openat(AT_FDCWD, "/var/lib/web/db", O_RDWR|O_CREAT, 0644) = 4
10 openat(AT_FDCWD, "/var/lib/web/db", O_RDWR|O_CREAT, 0644) = 5
10 openat(3</var/log/web>, "a.log", O_WRONLY|O_APPEND) = 6
10 openat(7, "b.log", O_WRONLY) = 8
10 openat(AT_FDCWD, "/tmp/web.1", O_RDWR|O_CREAT|O_EXCL, 0600) = 9
10 unlink("/run/web.pid") = 0
10 socket(AF_INET6, SOCK_STREAM, 0) = 5
10 bind(5, {sa_family=AF_INET6, sin6_port=htons(443), sin6_addr=inet_pton("::")}, 28) = 0
10 socket(AF_UNIX, SOCK_DGRAM|SOCK_CLOEXEC, 0) = 6
10 connect(6, {sa_family=AF_UNIX, sun_path="/run/systemd/notify"}, 110) = 0
10 vfork( <unfinished ...>
11 setuid(33 <unfinished ...>
10 <... vfork resumed>) = 11
11 <... setuid resumed>) = 0
10 prlimit64(0, RLIMIT_STACK, NULL, {rlim_cur=8192*1024, rlim_max=RLIM64_INFINITY}) = 0
10 mmap(NULL, 4096, PROT_READ|PROT_WRITE|PROT_EXEC, MAP_PRIVATE|MAP_ANONYMOUS, -1, 0) = 0x7f00
10 --- SIGHUP {si_signo=SIGHUP, si_code=SI_USER, si_pid=1} ---
"""


class Logs(unittest.TestCase):
    """What a log says."""

    def test_arguments(self):
        for text, wanted in [
            ('1, "a, b", [2, 3], {x=1, y=2}', ["1", '"a, b"', "[2, 3]", "{x=1, y=2}"]), ("", []), ('"a\\", b", 1', ['"a\\", b"', "1"]),
        ]:  # fmt: skip
            self.assertEqual(wanted, arguments(text))
        self.assertEqual((b'a"\n\x01', None, None), (string('"a\\"\\n\\1"'), string('"cut"...'), string("NULL")))

    def test_calls(self):
        found = calls_of(LOG.split("\n"))
        self.assertEqual(["vfork", "setuid"], [it.name for it in found if it.who == "11" or it.name == "vfork"])
        self.assertEqual([("/nope", False)], [(string(it.parts[1]).decode(), it.succeeded) for it in found if "nope" in it.inner])
        self.assertEqual({"SIGHUP"}, signals_of(LOG.split("\n")))

    def test_script(self):
        script = script_of(LOG.split("\n"), {"execve": "59", "vfork": "58", "setuid": "105", "socket": "41"})
        wanted = ["1 execve /usr/sbin/webd", "1 socket 10 1", "1 socket 1 524290", "1 vfork", "2 setuid 33"]
        self.assertEqual(wanted, script.lines)
        self.assertIn("the table has no call openat", script.messages)

    def test_script_by_number(self):
        log = [
            '10 clone3({flags=CLONE_VM|CLONE_VFORK, exit_signal=SIGCHLD, stack=0x7f00, stack_size=0x9000}, 88) = 11',
            '11 openat2(AT_FDCWD, "/etc/web", {flags=O_RDONLY|O_CLOEXEC, resolve=RESOLVE_BENEATH}, 24) = 3',
        ]  # fmt: skip
        script = script_of(log, {"clone": "56", "clone3": "435", "openat2": "437"})
        # what these carry depends on the site, and a number carries nothing on any site
        self.assertEqual(["1 #435", "1 clone", "2 #437 18446744073709551516 0 0 24"], script.lines)
        self.assertEqual(["clone makes the child of clone3, which not every site has"], script.messages)

    def test_shortened(self):
        lines = ["1 read", "1 fork", "1 read", "1 fork", "2 read"]
        self.assertEqual(["1 read", "1 fork", "1 fork", "2 read"], shortened(lines))

    def test_lists(self):
        self.assertEqual(["@default", "read"], listed(["[Service]", "SystemCallFilter=", "SystemCallFilter=@default read"]))
        self.assertEqual([], listed(["[Service]"]))


class FromTraces(unittest.TestCase):
    """What the calls of a trace ask to keep."""

    def wanted(self, is_root):
        """What the log wants."""
        found = Wanted()
        of_trace(calls_of(LOG.split("\n")), found, is_root)
        return found

    def test_questions(self):
        found = self.wanted(True)
        for question, reason in [
            (Question("exec", "/usr/sbin/webd"), "run 1 time in the trace"), (Question("read", "/etc/web"), "read 1 time in the trace"),
            (Question("write", "/var/lib/web/db"), "opened for writing 2 times in the trace"),
            (Question("write", "/var/log/web/a.log"), "opened for writing 1 time in the trace"),
            (Question("write", f"/run/{KEPT_FILE}"), "files were made or removed 1 time in the trace"),
            (Question("socket", "AF_INET6"), "opened 1 time in the trace"), (Question("cap", "CAP_NET_BIND_SERVICE"), "port 443 was bound in the trace"),
            (Question("see", "/run/systemd/notify"), "connected to 1 time in the trace"), (Question("uid", "33"), "setuid(2) in the trace"),
            (Question("cap", "CAP_SETUID"), "setuid(2) was called in the trace"), (Question("map-wx"), "mmap(2) in the trace"),
        ]:  # fmt: skip
            self.assertEqual(reason, found.why(question), question)
        self.assertNotIn(Question("cap", "CAP_SYS_RESOURCE"), found.reasons, "no limit was set")
        self.assertNotIn(Question("read", "/nope"), found.reasons, "the call failed")
        self.assertNotIn(Question("write", "/tmp/web.1"), found.reasons, "the service made it, and may have its own /tmp")
        self.assertEqual(({"/tmp"}, 1), (found.private, found.unknown))

    def test_another_user_needs_no_capability_for_its_calls(self):
        found = self.wanted(False)
        self.assertNotIn(Question("cap", "CAP_SETUID"), found.reasons)
        self.assertIn(Question("cap", "CAP_NET_BIND_SERVICE"), found.reasons)

    def test_folders(self):
        for path, wanted in [
            ("/var/lib/web/db", "/var/lib/web"), ("/var/lib/web/a/b", "/var/lib/web"), ("/var/lib/db", "/var/lib"), ("/run/web.pid", "/run"),
            ("/srv/web/x", "/srv/web"), ("/etc/web/x", "/etc/web"), ("/data/x", "/data"), ("/x", "/"),
        ]:  # fmt: skip
            self.assertEqual(wanted, folder_of(path), path)

    def test_what_a_trace_does_not_show(self):
        for text, wanted in [
            ("ExecReload=/bin/kill -HUP $MAINPID\n", []), ("ExecReload=/bin/kill -USR1 $MAINPID\n", ["ExecReload="]),
            ("ExecStop=/usr/sbin/webd --stop\n", []), ("ExecStop=/usr/sbin/webctl\nExecStop=/bin/x\n", ["ExecStop="]),
        ]:
            files = [UnitFile("a", f"[Service]\nExecStart=/usr/sbin/webd\n{text}")]
            self.assertEqual(wanted, commands_not_seen(files, calls_of(LOG.split("\n")), {"SIGHUP"}), text)
        self.assertEqual(["log rotation"], commands_not_seen([], [], set()))


class FromKeys(unittest.TestCase):
    """What a unit's own keys ask to keep."""

    def test_questions(self):
        for line, wanted in [
            ("StateDirectory=web:old x", [f"write /var/lib/web/{KEPT_FILE}", f"write /var/lib/x/{KEPT_FILE}"]), ("PIDFile=/var/run/web.pid", ["write /run/web.pid"]),
            ("PIDFile=web.pid", ["write /run/web.pid"]), ("ReadWritePaths=/srv/a/ -/srv/b", [f"write /srv/a/{KEPT_FILE}"]),
            ("ExecReload=-/bin/kill -HUP $MAINPID", ["exec /bin/kill"]), ("ExecStart=webd", []), ("DeviceAllow=/dev/null rw", ["write /dev/null"]),
            ("DeviceAllow=/dev/null r", ["read /dev/null"]), ("DeviceAllow=char-pts rw", []), ("AmbientCapabilities=CAP_NET_RAW", ["cap CAP_NET_RAW"]),
            ("CapabilityBoundingSet=~CAP_NET_RAW", []), ("RestrictAddressFamilies=AF_LOCAL AF_INET", ["socket AF_UNIX", "socket AF_INET"]),
            ("RestrictAddressFamilies=~AF_PACKET", []), ("Type=notify", ["socket AF_UNIX"]), ("RestrictNamespaces=yes", []), ("RestrictNamespaces=mnt user", ["ns mnt", "ns user"]),
        ]:  # fmt: skip
            found = Wanted()
            of_unit([UnitFile("a", f"[Service]\n{line}\n")], found)
            self.assertEqual(wanted, [it.text for it in found.reasons], line)


if __name__ == "__main__":
    unittest.main()
