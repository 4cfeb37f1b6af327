"""A root directory, started in namespaces: systemd is PID 1 in user, PID, mount, network, IPC, UTS and cgroup namespaces.

Its ids are shown shifted (an id-mapped mount), so that its uid 0 is nobody on this machine. Nothing of this machine is mounted in it
but devices such as /dev/null.
"""
from __future__ import annotations

import contextlib
import glob
import os
import shutil
import signal
import subprocess
import tempfile
import time
from pathlib import Path
from typing import Callable, Iterable, Mapping

from . import kernel
from .root import GO, TARGET, Root, Unstarted
from .tries import PROBE

# ids of the root begin here on this machine
FIRST_ID, IDS = 0x7A000000, 65536
DEVICES = {"null": (1, 3), "zero": (1, 5), "full": (1, 7), "random": (1, 8), "urandom": (1, 9), "tty": (5, 0), "kmsg": (1, 11)}
DEVICE_MOUNTS = (("pts", "devpts", "newinstance,ptmxmode=666,mode=620"), ("shm", "tmpfs", "mode=1777"), ("mqueue", "mqueue", None))
ENVIRONMENT = {"container": "lentsheep", "PATH": "/usr/local/sbin:/usr/local/bin:/usr/sbin:/usr/bin", "SYSTEMD_LOG_TARGET": "null"}
PATIENCE = 60.0
QUIET_SECONDS, WHOLE_SECONDS = 8.0, 900.0


class Machine(Root):
    """One root that runs in namespaces."""

    way = "namespaces"
    first_id = FIRST_ID
    release = os.uname().release

    def __init__(self, root: str, fill: Callable[[], None] = lambda: None):
        super().__init__(root, fill)
        self.pid = 0
        self._outer = 0
        self._folder = ""
        self._cgroup = ""

    def __exit__(self, *_: object) -> None:
        for pid in (self.pid, self._outer):
            if pid:
                try:
                    os.kill(pid, signal.SIGKILL)
                except ProcessLookupError:
                    pass
        if self._outer:
            os.waitpid(self._outer, 0)
        self.pid = self._outer = 0
        if self._cgroup:
            for folder, _, _ in os.walk(self._cgroup, topdown=False):
                for _ in range(100):
                    try:
                        os.rmdir(folder)
                        break
                    except OSError:
                        time.sleep(0.02)
        if self._folder:
            for place in (f"{self.root}/dev", f"{self.root}/proc", f"{self.root}/sys", f"{self._folder}/root"):
                try:
                    kernel.unmount(place)
                except OSError:
                    pass
            shutil.rmtree(self._folder, ignore_errors=True)

    def inside(self, *words: str) -> subprocess.CompletedProcess[str]:
        enter = ["nsenter", f"--target={self.pid}", "-U", "-m", "-p", "-i", "-u", "-n", "-C", "-r", "-w", "--"]
        return subprocess.run([*enter, *words], capture_output=True, text=True, check=False, errors="replace", timeout=PATIENCE * 2)

    def processes(self, unit: str) -> list[int]:
        """The processes of a unit, by their numbers on this machine."""
        found: list[int] = []
        for path in glob.glob(f"{self._cgroup}/**/*.slice/{glob.escape(unit)}/**/cgroup.procs", recursive=True):
            try:
                found += [int(line) for line in Path(path).read_text().split()]
            except OSError:
                pass
        return found

    def path(self, name: str) -> Path:
        """The file of this name below run/, as this machine sees it."""
        return Path(self.root, "run", name)

    def write(self, texts: Mapping[str, str], without: Iterable[str] = ()) -> None:
        for name in without:
            self.path(name).unlink(missing_ok=True)
        for name, text in texts.items():
            self.path(name).write_text(text)

    def make_folders(self, paths: Iterable[str]) -> None:
        for path in paths:
            with contextlib.suppress(OSError):
                os.makedirs(self.root + path, exist_ok=True)

    def main_process(self, unit: str) -> int:
        for _ in range(50):
            for pid in self.processes(unit):
                with contextlib.suppress(OSError):
                    if os.readlink(f"/proc/{pid}/exe").endswith(PROBE.rpartition("/")[2]):
                        return pid
            if not self.processes(unit):
                return 0
            time.sleep(0.02)
        return 0

    def look(self, pid: int, go: bool) -> tuple[str, str, list[bytes]]:
        with kernel.stopped(pid):
            programs = kernel.filters_of(pid)
            status, mountinfo = (Path(f"/proc/{pid}/{name}").read_text() for name in ("status", "mountinfo"))
            if go:
                with open(f"/proc/{pid}/mem", "r+b", buffering=0) as memory:
                    memory.seek(GO)
                    memory.write(b"\1\0\0\0")
        return status, mountinfo, programs

    def wait(self, pid: int, output: str) -> str:
        path = self.path(output)
        begun = last = time.monotonic()
        size = -1
        while _is_alive(pid):
            now = time.monotonic()
            found = path.stat().st_size if path.exists() else 0
            if found != size:
                size, last = found, now
            if now - last > QUIET_SECONDS:
                for child in _children(pid):
                    with contextlib.suppress(ProcessLookupError):
                        os.kill(child, signal.SIGKILL)
                last = now
            if now - begun > WHOLE_SECONDS:
                break
            time.sleep(0.02)
        return path.read_text(errors="replace") if path.exists() else ""

    def end(self, unit: str, pid: int) -> None:
        for each in (pid, *self.processes(unit)):
            with contextlib.suppress(ProcessLookupError):
                os.kill(each, signal.SIGKILL)

    def handles(self, paths: Iterable[str]) -> dict[str, bytes]:
        found: dict[str, bytes] = {}
        device = os.stat(self.root).st_dev
        for path in paths:
            with contextlib.suppress(OSError):
                if os.lstat(self.root + path).st_dev == device:
                    found[path] = kernel.handle_of(self.root + path)
        return found

    def begin(self) -> None:
        kernel.unshare(kernel.NEW_MOUNTS)
        kernel.mount(None, "/", None, kernel.RECURSIVE | kernel.PRIVATE)
        self._folder = tempfile.mkdtemp(prefix="lentsheep-reality.")
        os.chmod(self._folder, 0o711)
        view = f"{self._folder}/root"
        os.mkdir(view)
        self.clean_run()
        ready, go = os.pipe(), os.pipe()
        self._outer = os.fork()
        if self._outer == 0:
            self._child(view, ready, go)
        os.close(ready[1])
        os.close(go[0])
        if os.read(ready[0], 1) != b"1":
            raise Unstarted("no user namespace can be made here")
        for kind in ("uid_map", "gid_map"):
            Path(f"/proc/{self._outer}/{kind}").write_text(f"0 {FIRST_ID} {IDS}\n")
        namespace = os.open(f"/proc/{self._outer}/ns/user", os.O_RDONLY)
        kernel.mount_shifted(self.root, view, namespace)
        os.close(namespace)
        self._cgroup = self._make_cgroup()
        os.write(go[1], b"1")
        said = b""
        while part := os.read(ready[0], 4096):
            said += part
        os.close(ready[0])
        os.close(go[1])
        if said:
            raise Unstarted(said.decode(errors="replace"))
        self.pid = int(Path(f"/proc/{self._outer}/task/{self._outer}/children").read_text().split()[0])
        self._show_devices()
        self._wait()

    def _make_cgroup(self) -> str:
        for line in Path("/proc/self/mounts").read_text().splitlines():
            _, place, kind = line.split()[:3]
            if kind == "cgroup2":
                break
        else:
            raise Unstarted("no cgroup2 is mounted")
        folder = f"{place}/lentsheep-reality-{os.getpid()}"
        os.mkdir(folder)
        for name in ("", "cgroup.procs", "cgroup.threads", "cgroup.subtree_control"):
            os.chown(f"{folder}/{name}", FIRST_ID, FIRST_ID)
        Path(f"{folder}/cgroup.procs").write_text(f"{self._outer}\n")
        return folder

    def _show_devices(self) -> None:
        """The devices, /proc and /sys in the root's folder, for the tool that makes a site of it."""
        kernel.mount("tmpfs", f"{self.root}/dev", "tmpfs", options="mode=755")
        for name, (major, minor) in DEVICES.items():
            os.mknod(f"{self.root}/dev/{name}", 0o20666, os.makedev(major, minor))
        for name in ("pts", "shm", "mqueue"):
            os.mkdir(f"{self.root}/dev/{name}")
        kernel.mount("/proc", f"{self.root}/proc", None, kernel.BIND)
        kernel.mount("/sys", f"{self.root}/sys", None, kernel.BIND | kernel.RECURSIVE)

    def _wait(self) -> None:
        until = time.monotonic() + PATIENCE
        while time.monotonic() < until:
            if self.path("systemd/private").exists():
                told = self.systemctl("is-active", TARGET)
                if told.stdout.strip() == "active":
                    return
            if os.waitpid(self._outer, os.WNOHANG)[0]:
                self._outer = self.pid = 0
                raise Unstarted("systemd ended at once")
            time.sleep(0.1)
        raise Unstarted("systemd did not come up within a minute")

    def _child(self, view: str, ready: tuple[int, int], go: tuple[int, int]) -> None:
        """In the child: namespaces, and systemd in a child of its own."""
        try:
            os.close(ready[0])
            os.close(go[1])
            signal.signal(signal.SIGTERM, signal.SIG_DFL)
            kernel.unshare(kernel.NEW_USER)
            os.write(ready[1], b"1")
            if os.read(go[0], 1) != b"1":
                os._exit(1)
            os.setresgid(0, 0, 0)
            os.setgroups([])
            os.setresuid(0, 0, 0)
            kernel.die_with_parent()
            kernel.unshare(
                kernel.NEW_MOUNTS | kernel.NEW_PIDS | kernel.NEW_IPC | kernel.NEW_UTS | kernel.NEW_NET | kernel.NEW_CGROUP
            )
            inner = os.fork()
            if inner == 0:
                try:
                    kernel.die_with_parent()
                    self._become_systemd(view)
                except OSError as error:
                    os.write(ready[1], str(error).encode())
                os._exit(1)
            os.close(ready[1])
            os.waitpid(inner, 0)
        except OSError as error:
            os.write(ready[1], str(error).encode())
        os._exit(1)

    def _become_systemd(self, view: str) -> None:
        kernel.mount(None, "/", None, kernel.RECURSIVE | kernel.PRIVATE)
        kernel.mount(view, view, None, kernel.BIND)
        kernel.mount("proc", f"{view}/proc", "proc", 0xE)
        kernel.mount("sysfs", f"{view}/sys", "sysfs", 0xE)
        kernel.mount("cgroup2", f"{view}/sys/fs/cgroup", "cgroup2", 0xE)
        kernel.mount(f"{view}/run", f"{view}/run", None, kernel.BIND)
        kernel.mount("tmpfs", f"{view}/dev", "tmpfs", 2, "mode=755")
        for name in DEVICES:
            Path(f"{view}/dev/{name}").touch()
            kernel.mount(f"/dev/{name}", f"{view}/dev/{name}", None, kernel.BIND)
        for name, kind, options in DEVICE_MOUNTS:
            os.mkdir(f"{view}/dev/{name}")
            kernel.mount(name, f"{view}/dev/{name}", kind, 6, options)
        os.symlink("pts/ptmx", f"{view}/dev/ptmx")
        os.symlink("/proc/self/fd", f"{view}/dev/fd")
        for number, name in enumerate(("stdin", "stdout", "stderr")):
            os.symlink(f"/proc/self/fd/{number}", f"{view}/dev/{name}")
        kernel.pivot_into(view)
        os.setsid()
        null = os.open("/dev/null", os.O_RDWR)
        for number in (0, 1, 2):
            os.dup2(null, number)
        os.umask(0o022)
        signal.pthread_sigmask(signal.SIG_SETMASK, ())
        for number in (signal.SIGPIPE, signal.SIGINT):
            signal.signal(number, signal.SIG_DFL)
        os.execve("/usr/lib/systemd/systemd", ["/usr/lib/systemd/systemd", f"--unit={TARGET}", "--show-status=no"], ENVIRONMENT)


def _children(pid: int) -> list[int]:
    try:
        return [int(text) for text in Path(f"/proc/{pid}/task/{pid}/children").read_text().split()]
    except OSError:
        return []


def _is_alive(pid: int) -> bool:
    try:
        return Path(f"/proc/{pid}/stat").read_text().rpartition(")")[2].split()[0] not in "ZX"
    except (OSError, IndexError):
        return False
