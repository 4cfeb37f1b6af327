"""The initramfs that a kernel of Debian needs to find the root on a virtual disk: the probe as its init, and some modules."""
from __future__ import annotations

import glob
import lzma
import os
import re
from pathlib import Path

from .root import Unstarted

# Debian's kernels have these as modules, each kernel some of them
MODULES = ("crc32c_generic", "virtio_pci", "virtio_blk", "virtio_console", "ext4")


def kernel_of(root: str) -> tuple[str, str]:
    """The newest kernel of a root: its file, and its release."""
    kernels = sorted(glob.glob(f"{root}/boot/vmlinuz-*"), key=lambda path: [int(text) for text in re.findall(r"\d+", path)])
    if not kernels:
        raise Unstarted(f"{root}/boot has no kernel; debootstrap --include=linux-image-amd64 installs one")
    return kernels[-1], kernels[-1].partition("vmlinuz-")[2]


def modules_of(root: str, release: str) -> list[bytes]:
    """MODULES and what they depend on, each after what it needs."""
    files: dict[str, str] = {}
    for folder, _, names in os.walk(f"{root}/usr/lib/modules/{release}/kernel"):
        for name in names:
            stem, dot, kind = name.partition(".ko")
            if dot and kind in ("", ".xz"):
                files[stem.replace("-", "_")] = f"{folder}/{name}"
    found: dict[str, bytes] = {}

    def take(name: str) -> None:
        path = files.get(name.replace("-", "_"))
        if path is None or name in found:
            return
        data = Path(path).read_bytes()
        data = lzma.decompress(data) if path.endswith(".xz") else data
        depends = re.search(rb"\0depends=([^\0]*)\0", data)
        for other in depends[1].decode().split(",") if depends else ():
            take(other)
        found.setdefault(name, data)

    for name in MODULES:
        take(name)
    return list(found.values())


def _entry(number: int, name: str, mode: int, data: bytes = b"", device: tuple[int, int] = (0, 0)) -> bytes:
    """A file of an archive in cpio's newc format."""
    fields = (number, mode, 0, 0, 1, 0, len(data), 0, 0, *device, len(name) + 1, 0)
    head = b"070701" + b"".join(b"%08x" % field for field in fields) + name.encode() + b"\0"
    return head + bytes(-len(head) % 4) + data + bytes(-len(data) % 4)


def initramfs(probe: bytes, modules: list[bytes]) -> bytes:
    """The archive; the modules are the files 1, 2 .. of it."""
    entries = [("dev", 0o40755, b"", (0, 0)), ("root", 0o40755, b"", (0, 0)), ("dev/console", 0o20600, b"", (5, 1))]
    entries.append(("probe", 0o100755, probe, (0, 0)))
    entries += [(str(number), 0o100644, data, (0, 0)) for number, data in enumerate(modules, 1)]
    entries.append(("TRAILER!!!", 0, b"", (0, 0)))
    return b"".join(_entry(number, *entry) for number, entry in enumerate(entries, 1))
