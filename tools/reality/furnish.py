"""What the harness puts into a root: the probe, copies of it with privileges, and files to hide."""
from __future__ import annotations

import contextlib
import os
import shutil
import struct
import subprocess
import tempfile
from pathlib import Path

from .tries import CAPABILITIES, CAPABLE, PROBE, SETUID, WRITABLE

SOURCE = Path(__file__).resolve().parent / "probe.c"
FLAGS = (
    "-static -nostdlib -fno-pie -no-pie -O1 -fno-stack-protector -fcf-protection=none -Wall -Wextra -Werror -Wl,-z,noexecstack "
    "-Wl,--build-id=none -Wl,--section-start=.go=0x10000000"
).split()
# secrets, data and a home, each with its mode
FURNISHED = {
    "/srv/lentsheep/secret": 0o644, "/srv/lentsheep/data/file": 0o666, "/home/lentsheep/key": 0o644, "/home/lentsheep/open": 0o666,
    "/root/lentsheep": 0o600, "/opt/lentsheep/file": 0o666, "/etc/lentsheep": 0o666, "/var/lib/lentsheep/file": 0o666,
}  # fmt: skip


class Fault(Exception):
    """The run cannot go on; the text says why."""


def build_probe(folder: str) -> None:
    """Builds the probe, and the copy whose text can be written."""
    for name, more in (("probe", []), ("wx", ["-Wl,-N"])):
        words = ["gcc", *FLAGS, *more, "-o", f"{folder}/{name}", str(SOURCE)]
        built = subprocess.run(words, capture_output=True, text=True, check=False)
        if built.returncode:
            raise Fault(f"the probe could not be built: {built.stderr.strip().splitlines()[:1]}")


def furnish(root: str) -> None:
    """Puts the probe, its copies with privileges, and some files into the root, unless a former run did."""
    with contextlib.suppress(FileNotFoundError):
        if os.stat(root + WRITABLE).st_mtime > SOURCE.stat().st_mtime:
            return
    with tempfile.TemporaryDirectory() as folder:
        build_probe(folder)
        copies = ((PROBE, "probe", 0o755), (SETUID, "probe", 0o4755), (CAPABLE, "probe", 0o755), (WRITABLE, "wx", 0o755))
        for target, name, mode in copies:
            path = root + target
            with contextlib.suppress(FileNotFoundError):
                os.unlink(path)
            shutil.copyfile(f"{folder}/{name}", path)
            os.chown(path, 0, 0)
            os.chmod(path, mode)
    # VFS_CAP_REVISION_2 without the effective bit: all capabilities permitted
    everything = (1 << len(CAPABILITIES)) - 1
    attribute = struct.pack("<IIIII", 0x02000000, everything & 0xFFFFFFFF, 0, everything >> 32, 0)
    os.setxattr(root + CAPABLE, "security.capability", attribute)
    for path, mode in FURNISHED.items():
        os.makedirs(os.path.dirname(root + path), exist_ok=True)
        Path(root + path).write_text("lentsheep\n")
        os.chmod(root + path, mode)
