"""What a program gives to whoever executes it: its set-id bits and its file capabilities (execve(2), capabilities(7))."""
from __future__ import annotations

import errno
import os
import stat
import struct
from typing import NamedTuple, Optional

from sites.told import Told

# The capabilities by number, linux/capability.h.
CAPABILITIES = """
    CAP_CHOWN CAP_DAC_OVERRIDE CAP_DAC_READ_SEARCH CAP_FOWNER CAP_FSETID CAP_KILL CAP_SETGID CAP_SETUID CAP_SETPCAP
    CAP_LINUX_IMMUTABLE CAP_NET_BIND_SERVICE CAP_NET_BROADCAST CAP_NET_ADMIN CAP_NET_RAW CAP_IPC_LOCK CAP_IPC_OWNER
    CAP_SYS_MODULE CAP_SYS_RAWIO CAP_SYS_CHROOT CAP_SYS_PTRACE CAP_SYS_PACCT CAP_SYS_ADMIN CAP_SYS_BOOT CAP_SYS_NICE
    CAP_SYS_RESOURCE CAP_SYS_TIME CAP_SYS_TTY_CONFIG CAP_MKNOD CAP_LEASE CAP_AUDIT_WRITE CAP_AUDIT_CONTROL CAP_SETFCAP
    CAP_MAC_OVERRIDE CAP_MAC_ADMIN CAP_SYSLOG CAP_WAKE_ALARM CAP_BLOCK_SUSPEND CAP_AUDIT_READ CAP_PERFMON CAP_BPF
    CAP_CHECKPOINT_RESTORE
""".split()

# The words of 32 bits, little endian, of struct vfs_cap_data and vfs_ns_cap_data by their revision: the pairs of a
# permitted and an inheritable set, and behind them the root's uid.
FORMS = {0x01000000: (1, 0), 0x02000000: (2, 0), 0x03000000: (2, 1)}
REVISION = 0xFF000000
EFFECTIVE = 0x000001


class Privileges(NamedTuple):
    """A uid, a gid or None; names of capabilities, and whether they are effective at once."""

    setuid: Optional[int] = None
    setgid: Optional[int] = None
    caps: tuple[str, ...] = ()
    effective: bool = False


NONE = Privileges()


class FileCaps(NamedTuple):
    """The attribute security.capability: the permitted set by its bits, the effective bit, the root's uid."""

    permitted: int
    effective: bool
    root: int


def read_caps(raw: bytes) -> FileCaps:
    """The attribute of these bytes. ValueError where they have no form of a revision."""
    if len(raw) < 4 or len(raw) % 4:
        raise ValueError("no form of security.capability")
    head, *words = struct.unpack(f"<{len(raw) // 4}I", raw)
    pairs, roots = FORMS.get(head & REVISION, (0, 0))
    if not pairs or len(words) != 2 * pairs + roots:
        raise ValueError("no form of security.capability")
    permitted = words[0] | (words[2] << 32 if pairs == 2 else 0)
    return FileCaps(permitted, bool(head & EFFECTIVE), words[-1] if roots else 0)


def raw_caps(file: bytes) -> Optional[bytes]:
    """The bytes of the attribute security.capability of a file on this machine; None where it has none."""
    try:
        return os.getxattr(file, "security.capability", follow_symlinks=False)
    except OSError as error:
        if error.errno in (errno.ENODATA, errno.ENOTSUP):
            return None
        raise


def is_program(mode: int) -> bool:
    """Whether it is a regular file that somebody may execute."""
    return stat.S_ISREG(mode) and mode & 0o111 != 0


def is_script(file: bytes) -> bool:
    """Whether an interpreter executes it: Linux passes over the set-id bits and the capabilities of a script."""
    try:
        with open(file, "rb") as program:
            return program.read(2) == b"#!"
    except OSError:
        return False


def caps_of(file: bytes, path: bytes, told: Told) -> tuple[tuple[str, ...], bool]:
    """The names of the capabilities of a program, and whether they are effective at once."""
    try:
        raw = raw_caps(file)
        caps = read_caps(raw) if raw is not None else None
    except (OSError, ValueError) as error:
        told.add(f"capabilities that could not be read ({getattr(error, 'strerror', None) or error})", path)
        return (), False
    if caps is None:
        return (), False
    if caps.root != 0:
        told.add("left out, capabilities that count only in another user namespace", path)
        return (), False
    if caps.permitted >> len(CAPABILITIES):
        told.add("left out, capabilities without a known name", path)
    names = tuple(name for cap, name in enumerate(CAPABILITIES) if caps.permitted >> cap & 1)
    return names, caps.effective and names != ()


def at_most_one(found: Privileges, path: bytes, told: Told) -> Privileges:
    """The same without its set-user-ID bit or its capabilities where it has both, since a row has one of them.

    The one that gives more is kept: uid 0 has every capability, and another uid has none.
    """
    if found.setuid is None or not found.caps:
        return found
    if found.setuid == 0:
        told.add("both set-user-ID root and capabilities: the row has the bit, since uid 0 has every capability", path)
        return found._replace(caps=(), effective=False)
    told.add("both capabilities and the set-user-ID bit of another owner than root: the row has the capabilities", path)
    return found._replace(setuid=None)


def privileges_of(file: bytes, status: os.stat_result, path: bytes, told: Told) -> Privileges:
    """What the program at a path gives, whose name on this machine is `file`."""
    if not is_program(status.st_mode):
        return NONE
    setuid = status.st_uid if status.st_mode & stat.S_ISUID else None
    # without execution by the group the bit once meant locking, and changes no gid
    by_group = status.st_mode & stat.S_ISGID and status.st_mode & stat.S_IXGRP
    setgid = status.st_gid if by_group else None
    found = Privileges(setuid, setgid, *caps_of(file, path, told))
    if found != NONE and is_script(file):
        told.add("left out, set-id bits and capabilities of scripts, which Linux ignores", path)
        return NONE
    return at_most_one(found, path, told)
