"""What Python's library lacks of Linux: namespaces, mounts with other ids, and the filters of a process that is stopped."""
from __future__ import annotations

import contextlib
import ctypes
import os
import struct
from importlib.machinery import SourceFileLoader
from importlib.util import module_from_spec, spec_from_loader
from pathlib import Path
from types import ModuleType
from typing import Iterator

TOP = Path(__file__).resolve().parent.parent.parent
_LIBC = ctypes.CDLL(None, use_errno=True)

# unshare(2) and clone(2)
NEW_MOUNTS, NEW_CGROUP, NEW_UTS, NEW_IPC, NEW_USER, NEW_PIDS, NEW_NET = (
    0x20000, 0x2000000, 0x4000000, 0x8000000, 0x10000000, 0x20000000, 0x40000000,
)  # fmt: skip
# mount(2)
BIND, RECURSIVE, PRIVATE = 0x1000, 0x4000, 0x40000
DETACH = 2
_OPEN_TREE, _MOVE_MOUNT, _MOUNT_SETATTR, _PIVOT_ROOT, _NAME_TO_HANDLE_AT = 428, 429, 442, 155, 303
_ATTR_IDMAP, _EMPTY_PATH, _HERE = 0x100000, 0x1000, -100


def _checked(answer: int, what: str) -> int:
    if answer < 0:
        number = ctypes.get_errno()
        raise OSError(number, f"{what}: {os.strerror(number)}")
    return answer


def _call(number: int, *words: object) -> int:
    _LIBC.syscall.restype = ctypes.c_long
    given = [ctypes.c_long(word) if isinstance(word, int) else word for word in words]
    return _checked(_LIBC.syscall(ctypes.c_long(number), *given), f"call {number}")


def unshare(flags: int) -> None:
    """unshare(2)."""
    _checked(_LIBC.unshare(flags), "unshare")


def die_with_parent() -> None:
    """Asks to be killed when the parent ends; a change of ids takes that back (prctl(2), PR_SET_PDEATHSIG)."""
    _checked(_LIBC.prctl(1, 9, 0, 0, 0), "prctl")


def mount(source: str | None, place: str, kind: str | None, flags: int = 0, options: str | None = None) -> None:
    """mount(2)."""
    words = [None if word is None else os.fsencode(word) for word in (source, place, kind, options)]
    _checked(_LIBC.mount(words[0], words[1], words[2], ctypes.c_ulong(flags), words[3]), f"mount {place}")


def unmount(place: str, flags: int = DETACH) -> None:
    """umount2(2)."""
    _checked(_LIBC.umount2(os.fsencode(place), flags), f"umount {place}")


def pivot_into(folder: str) -> None:
    """Makes the folder, a mount, the root, and takes the old root away."""
    os.chdir(folder)
    _call(_PIVOT_ROOT, b".", b".")
    unmount(".")
    os.chdir("/")


def mount_shifted(folder: str, place: str, user_namespace: int) -> None:
    """Shows the folder at the place with the ids that the user namespace (a descriptor) gives them."""
    tree = _call(_OPEN_TREE, _HERE, os.fsencode(folder), os.O_CLOEXEC | 1)
    attributes = struct.pack("<QQQQ", _ATTR_IDMAP, 0, 0, user_namespace)
    _call(_MOUNT_SETATTR, tree, b"", _EMPTY_PATH, attributes, len(attributes))
    _call(_MOVE_MOUNT, tree, b"", _HERE, os.fsencode(place), 4)
    os.close(tree)


def handle_of(path: str) -> bytes:
    """The file handle by which open_by_handle_at(2) finds what is at the path."""
    held = ctypes.create_string_buffer(struct.pack("<Ii", 128, 0) + bytes(128))
    _call(_NAME_TO_HANDLE_AT, _HERE, os.fsencode(path), held, ctypes.byref(ctypes.c_int()), 0)
    size = struct.unpack_from("<I", held.raw)[0]
    return held.raw[: 8 + size]


def _running_filters() -> ModuleType:
    path = TOP / "tools" / "running-filters"
    loader = SourceFileLoader("running_filters", str(path))
    spec = spec_from_loader("running_filters", loader)
    assert spec is not None
    module = module_from_spec(spec)
    loader.exec_module(module)
    return module


_FILTERS = _running_filters()


@contextlib.contextmanager
def stopped(pid: int) -> Iterator[None]:
    """The process, stopped by ptrace(2)."""
    _FILTERS.ptrace(_FILTERS.PTRACE_SEIZE, pid)
    try:
        _FILTERS.ptrace(_FILTERS.PTRACE_INTERRUPT, pid)
        os.waitpid(pid, _FILTERS.WAIT_FOR_ALL)
        yield
    finally:
        _FILTERS.ptrace(_FILTERS.PTRACE_DETACH, pid)


def filters_of(pid: int) -> list[bytes]:
    """The filters of a stopped process, the oldest first."""
    found: list[bytes] = []
    while (held := _FILTERS.filter_at(pid, len(found))) is not None:
        found.append(held)
    return found
