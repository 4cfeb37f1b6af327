"""A root directory, started in a virtual machine: qemu emulates it, without KVM, with the newest kernel of the root's boot/.

The root is copied to an image of ext4. A shell in the machine runs what comes over a port of virtio and sends back what it prints.
"""
from __future__ import annotations

import base64
import contextlib
import io
import os
import shlex
import shutil
import socket
import subprocess
import tarfile
import tempfile
import time
from pathlib import Path
from typing import Callable, Iterable, Mapping

from . import kernel
from .initramfs import initramfs, kernel_of, modules_of
from .root import GO, TARGET, Root, Unstarted
from .tries import PROBE

MEMORY, ROOM = "768", 192 << 20
PATIENCE, WHOLE = 900.0, 2400.0
AGENT, UNIT = "usr/lib/lentsheep-agent", "etc/systemd/system/reality-agent.service"
AGENT_TEXT = """\
mkdir -p /run/reality
cd /run/reality
exec 3<>/dev/vport0p1
echo ready >&3
while read -r size <&3; do
    head -c "$size" <&3 >agent.sh
    sh agent.sh >agent.out 2>agent.err </dev/null 3<&-
    echo "$? $(stat -c %s agent.out) $(stat -c %s agent.err)" >&3
    cat agent.out agent.err >&3
done
"""
UNIT_TEXT = f"[Unit]\nDefaultDependencies=no\n[Service]\nExecStart=/bin/sh /{AGENT}\n"
TARGET_TEXT = (
    "[Unit]\nDefaultDependencies=no\nAllowIsolate=yes\nWants=reality-agent.service systemd-journald.socket systemd-journald-dev-log.socket\n"
)
APPEND = f"console=ttyS0 quiet panic=-1 mitigations=off rdinit=/probe systemd.unit={TARGET} systemd.show_status=no systemd.log_target=null -- boot"
# ends a try that hangs, and comes to an end when the probe has: PID, the file
WAIT = """\
quiet=0 size=
while kill -0 {pid} 2>/dev/null; do
    now=$(stat -c %s {file} 2>/dev/null)
    quiet=$((quiet + 1))
    [ "$now" = "$size" ] || quiet=0
    size=$now
    if [ $quiet -ge 30 ]; then
        kill -9 $(cat /proc/{pid}/task/{pid}/children)
        quiet=0
    fi
    sleep 1
done
cat {file}
"""
# what a root that runs has, for the tool that makes a site: the kind and the path of each file
SHOW = "find /dev /run /proc /sys -xdev -maxdepth 5 \\( -path '/proc/[0-9]*' -o -path '/run/reality*' \\) -prune -o -printf '%y\\t%p\\t%l\\n'"
SHOWN_TEXTS = ("/proc/sys/kernel/osrelease", "/proc/net/protocols")
SYMBOLS = "/proc/kallsyms"


class VirtualMachine(Root):
    """One root that runs in qemu."""

    way = "virtual machine"

    def __init__(self, root: str, fill: Callable[[], None] = lambda: None):
        super().__init__(root, fill)
        self._folder = ""
        self._qemu: subprocess.Popen[bytes] | None = None
        self._port: socket.socket | None = None
        self._read = b""
        self._shown: list[str] = []

    def __exit__(self, *_: object) -> None:
        if self._port:
            self._port.close()
        if self._qemu:
            self._qemu.kill()
            self._qemu.wait()
        for place in self._shown:
            with contextlib.suppress(OSError):
                kernel.unmount(place)
        shutil.rmtree(self._folder, ignore_errors=True)
        self._qemu = self._port = None

    def begin(self) -> None:
        for program in ("qemu-system-x86_64", "mke2fs"):
            if not shutil.which(program):
                raise Unstarted(f"{program} is not installed")
        image, self.release = kernel_of(self.root)
        kernel.unshare(kernel.NEW_MOUNTS)
        kernel.mount(None, "/", None, kernel.RECURSIVE | kernel.PRIVATE)
        self._folder = tempfile.mkdtemp(prefix="lentsheep-reality.")
        self.clean_run()
        probe = Path(self.root + PROBE).read_bytes()
        Path(self._folder, "initramfs").write_bytes(initramfs(probe, modules_of(self.root, self.release)))
        self._make_disk()
        port = f"{self._folder}/port"
        self._qemu = subprocess.Popen(
            [
                "qemu-system-x86_64", "-nodefaults", "-no-user-config", "-no-reboot", "-display", "none", "-accel", "tcg", "-cpu", "max",
                "-m", MEMORY, "-kernel", image, "-initrd", f"{self._folder}/initramfs", "-append", APPEND,
                "-drive", f"file={self._folder}/disk,if=virtio,format=raw,cache=unsafe", "-device", "virtio-serial",
                "-chardev", f"socket,id=port,path={port},server=on,wait=on", "-device", "virtserialport,chardev=port",
                "-serial", f"file:{self._folder}/console",
            ],
            stdin=subprocess.DEVNULL, stdout=subprocess.DEVNULL, stderr=subprocess.DEVNULL,
        )  # fmt: skip
        self._connect(port)
        if self._line() != "ready":
            raise Unstarted("the virtual machine says something else than ready")
        self._send_units()
        self._show()

    def _make_disk(self) -> None:
        """An image of the root, with the shell that runs what the harness sends."""
        files = {AGENT: AGENT_TEXT, UNIT: UNIT_TEXT, f"etc/systemd/system/{TARGET}": TARGET_TEXT}
        for name, text in files.items():
            Path(self.root, name).write_text(text)
        try:
            used = int(subprocess.run(["du", "-sk", self.root], capture_output=True, text=True, check=True).stdout.split()[0]) << 10
            size = (used * 5 // 4 + ROOM) >> 10
            words = ["mke2fs", "-q", "-t", "ext4", "-d", self.root, f"{self._folder}/disk", f"{size}k"]
            made = subprocess.run(words, capture_output=True, text=True, check=False)
            if made.returncode:
                raise Unstarted(f"mke2fs: {made.stderr.strip()}")
        finally:
            for name in files:
                os.unlink(f"{self.root}/{name}")

    def _connect(self, path: str) -> None:
        self._port = socket.socket(socket.AF_UNIX)
        self._port.settimeout(PATIENCE)
        for _ in range(200):
            try:
                return self._port.connect(path)
            except OSError:
                time.sleep(0.1)
        raise Unstarted("qemu did not begin")

    def _more(self) -> None:
        assert self._port and self._qemu
        try:
            part = self._port.recv(1 << 16)
        except TimeoutError:
            part = b""
        if not part:
            console = Path(self._folder, "console").read_text(errors="replace").strip().splitlines()
            raise Unstarted("the virtual machine does not answer" + "".join(f"; {line}" for line in console[-3:]))
        self._read += part

    def _line(self) -> str:
        while b"\n" not in self._read:
            self._more()
        line, _, self._read = self._read.partition(b"\n")
        return line.decode()

    def _bytes(self, count: int) -> str:
        while len(self._read) < count:
            self._more()
        taken, self._read = self._read[:count], self._read[count:]
        return taken.decode(errors="replace")

    def script(self, text: str, patience: float = PATIENCE) -> subprocess.CompletedProcess[str]:
        """Runs a script of sh."""
        assert self._port
        self._port.settimeout(patience)
        data = text.encode()
        self._port.sendall(b"%d\n" % len(data) + data)
        status, output, errors = (int(word) for word in self._line().split())
        return subprocess.CompletedProcess(["sh"], status, self._bytes(output), self._bytes(errors))

    def inside(self, *words: str) -> subprocess.CompletedProcess[str]:
        return self.script(shlex.join(words))

    def _send_units(self) -> None:
        """Puts the units that are in the root's run/ into the machine's."""
        archive = io.BytesIO()
        with tarfile.open(fileobj=archive, mode="w:gz") as tar:
            for name in ("systemd/system", "reality"):
                tar.add(f"{self.root}/run/{name}", name)
        lines = base64.encodebytes(archive.getvalue()).decode()
        self.script(f"base64 -d <<'END' | tar -xz -C /run\n{lines}END\nrm /run/systemd/system/{TARGET}\nsystemctl daemon-reload\n")

    def _show(self) -> None:
        """Shows the machine's devices, /run, /proc and /sys in the root's directory: empty files of the same kinds."""
        texts = {path: self.inside("cat", path).stdout for path in SHOWN_TEXTS}
        texts[SYMBOLS] = self.inside("grep", " __x64_sys_", SYMBOLS).stdout
        for name in ("dev", "proc", "sys"):
            kernel.mount("tmpfs", f"{self.root}/{name}", "tmpfs", options="mode=755")
            self._shown.append(f"{self.root}/{name}")
        kinds = {"f": 0o100644, "s": 0o140666, "p": 0o10666, "c": 0o20666, "b": 0o60660}
        for line in self.script(SHOW).stdout.splitlines():
            kind, path, target = (line.split("\t") + ["", ""])[:3]
            if not path.startswith("/") or os.path.lexists(self.root + path):
                continue
            with contextlib.suppress(OSError):
                if kind == "d":
                    os.mkdir(self.root + path)
                elif kind == "l":
                    os.symlink(target, self.root + path)
                elif kind in kinds:
                    # null, or loop0
                    os.mknod(self.root + path, kinds[kind], os.makedev(7, 0) if kind == "b" else os.makedev(1, 3))
        for path, text in texts.items():
            with contextlib.suppress(OSError):
                Path(self.root + path).write_text(text)

    def write(self, texts: Mapping[str, str], without: Iterable[str] = ()) -> None:
        lines = [f"rm -f {shlex.quote('/run/' + name)}" for name in without]
        for name, text in texts.items():
            mark = "END_OF_WHAT_IS_READ"
            lines.append(f"cat >{shlex.quote('/run/' + name)} <<'{mark}'\n{text}{mark}")
        self.script("\n".join(lines) + "\n")

    def make_folders(self, paths: Iterable[str]) -> None:
        for path in paths:
            with contextlib.suppress(OSError):
                os.makedirs(self.root + path, exist_ok=True)
        self.inside("mkdir", "-p", *paths)

    def main_process(self, unit: str) -> int:
        told = self.systemctl("show", "-p", "MainPID", "--value", unit).stdout.strip()
        if not told.isdigit() or told == "0":
            return 0
        return int(told) if self.inside("readlink", f"/proc/{told}/exe").stdout.strip().endswith(PROBE.rpartition("/")[2]) else 0

    def look(self, pid: int, go: bool) -> tuple[str, str, list[bytes]]:
        status, mountinfo = (self.inside("cat", f"/proc/{pid}/{name}").stdout for name in ("status", "mountinfo"))
        programs = self.inside(PROBE, "filters", str(pid))
        if programs.returncode or not status:
            raise OSError(f"process {pid} cannot be looked at: {programs.stderr.strip()}")
        if go:
            self.script(f"printf '\\001' | dd of=/proc/{pid}/mem bs=1 seek={GO} conv=notrunc status=none")
        return status, mountinfo, [bytes.fromhex(line) for line in programs.stdout.split()]

    def wait(self, pid: int, output: str) -> str:
        return self.script(WAIT.format(pid=pid, file=shlex.quote("/run/" + output)), WHOLE).stdout

    def end(self, unit: str, pid: int) -> None:
        self.systemctl("kill", "-s", "KILL", unit)

    def handles(self, paths: Iterable[str]) -> dict[str, bytes]:
        lines = self.script(f"{PROBE} handles <<'END'\n" + "".join(path + "\n" for path in paths) + "END\n").stdout.splitlines()
        return {path: bytes.fromhex(data) for data, _, path in (line.partition(" ") for line in lines)}
