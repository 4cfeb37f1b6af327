"""What the kernel of a root gives its processes: how many user namespaces (user_namespaces(7), namespaces(7), and sysctl/kernel of
Debian), and whether rings of io_uring(7)."""

from __future__ import annotations

from typing import Optional

from sites.root import Root
from sites.told import Told

MOST = 64
LIMIT = b"/proc/sys/user/max_user_namespaces"
SWITCH = b"/proc/sys/kernel/unprivileged_userns_clone"
RINGS = b"/proc/sys/kernel/io_uring_disabled"
# Nobody makes a ring there. With 1, those with CAP_SYS_ADMIN and those of a group still do (sysctl/kernel).
NO_RINGS = 2


def number(root: Root, path: bytes) -> Optional[int]:
    """The number that a file of the root holds, or None where it holds none or cannot be read."""
    try:
        return int(root.read(path))
    except (OSError, ValueError):
        return None


def user_namespaces(root: Root, told: Told) -> Optional[int]:
    """The kernel's limit, at most what a site may say; None where the root does not show its kernel, as one that does not run."""
    limit = number(root, LIMIT)
    if limit is None:
        told.add("without user namespaces, since the root does not show the limit of its kernel", LIMIT)
        return None
    if number(root, SWITCH) == 0:
        return 0
    return max(0, min(limit, MOST))


def lacks_rings(root: Root) -> bool:
    """Whether the running kernel of a root lets no process make a ring. Where it is not known, it does."""
    return number(root, RINGS) == NO_RINGS
