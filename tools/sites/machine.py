"""What a root says of its systemd and its kernel, for the first lines of a site: the views and `--root` read them."""
from __future__ import annotations

import os
import re
from typing import Iterable, Mapping, Optional

from sites.root import Root
from sites.told import Told, shown

# Where Debian and others have the libraries whose names have the version, the nearest to the manager first, and what dpkg knows of the
# package. A version before its release is none.
LIBRARIES = tuple(re.compile(rf"libsystemd-{it}-([0-9]+)(?![0-9~])") for it in ("core", "shared"))
FOLDERS = (b"/usr/lib/systemd", b"/lib/systemd", b"/usr/lib64/systemd")
PACKAGES = b"/var/lib/dpkg/status"
PACKAGED = re.compile(r"^Version: (?:[0-9]+:)?([0-9]+)(?![0-9~])", re.M)
# The versions of systemd whose rules the program has: the values of the key `systemd` of a site.
PROFILES = (252, 257)
RELEASE = b"/proc/sys/kernel/osrelease"
# There where the kernel runs programs of i386 (arch/x86/entry/vdso/vdso32-setup.c).
SECOND_ABI = b"/proc/sys/abi/vsyscall32"
SYMBOLS = b"/proc/kallsyms"
PROTOCOLS = b"/proc/net/protocols"
TABLE = os.path.join(os.path.dirname(os.path.abspath(__file__)), "../../tables/x86-64/calls.txt")
# Calls whose function in the kernel has another name.
FUNCTIONS = {"umount2": "umount"}
# Families by what their protocols are called in /proc/net/protocols; the others are called as they are, without AF_.
PROTOCOLS_OF = {
    "AF_UNIX": r"UNIX.*", "AF_INET": r"TCP|UDP|UDP-Lite|RAW|PING|MPTCP|DCCP|SCTP|L2TP.*", "AF_INET6": r"\w+v6",
    "AF_BLUETOOTH": r"L2CAP|HCI|SCO|RFCOMM|BNEP", "AF_CAN": r"CAN_\w+|ISOTP|CAN-?J1939", "AF_APPLETALK": r"DDP",
    "AF_PPPOX": r"PPPO\w+", "AF_IEEE802154": r"IEEE-802.15.4.*|IEEE802154.*",
    "AF_VSOCK": r"AF_VSOCK", "AF_SMC": r"SMC6?", "AF_NFC": r"NFC.*", "AF_CAIF": r"CAIF.*",
}  # fmt: skip


def systemd_versions(root: Root) -> list[int]:
    """The versions of systemd that a root has, as 252: of its libraries, or of the package where it has none."""
    triplets = [b"/usr/lib/" + name + b"/systemd" for name in root.names(b"/usr/lib") if name.endswith(b"-linux-gnu")]
    names = [name.decode(errors="replace") for folder in (*FOLDERS, *triplets) for name in root.names(folder)]
    for library in LIBRARIES:
        versions = {int(found[1]) for found in map(library.match, names) if found}
        if versions:
            return sorted(versions)
    found = PACKAGED.search(package_of(read_text(root, PACKAGES)))
    return [int(found[1])] if found else []


def package_of(status: str) -> str:
    """What dpkg knows of the package of systemd."""
    return next((it for it in status.split("\n\n") if it.startswith("Package: systemd\n")), "")


def profile(root: Root, told: Told) -> Optional[int]:
    """The version of systemd by whose rules the program judges the units of a root; None, which is told, where it has no rules of it."""
    versions = systemd_versions(root)
    if len(versions) == 1 and versions[0] in PROFILES:
        return versions[0]
    if not versions:
        told.add("without the key systemd, since the root does not show its version", FOLDERS[0])
    for version in versions:
        why = "the root has several versions" if len(versions) > 1 else f"only the rules of {' and '.join(map(str, PROFILES))} are known"
        told.add(f"without the key systemd, since {why}", f"systemd {version}".encode())
    return None


def read_text(root: Root, path: bytes) -> str:
    """The text of a file; empty where it cannot be read."""
    try:
        return root.read(path).decode(errors="replace")
    except OSError:
        return ""


def heads(root: Root) -> list[str]:
    """The lines that say what systemd and what kernel a root has."""
    versions, release = systemd_versions(root), read_text(root, RELEASE).strip()
    found = [f"systemd {versions[0]}"] if len(versions) == 1 else []
    if release:
        runs = ", which runs programs of i386" if root.stands(SECOND_ABI) else ""
        found.append(f"kernel {shown(release.encode())}{runs}")
    return found


def numbers_of(table: str) -> tuple[dict[str, str], dict[str, str]]:
    """The calls and the families of a table with their numbers, in its order."""
    words = [line.split() for line in table.split("\n")]
    calls, families = ({word[1]: word[2] for word in words if len(word) > 2 and word[0] == kind} for kind in ("call", "family"))
    return calls, families


def lacking_calls(symbols: str, names: Iterable[str]) -> list[str]:
    """Those of the calls that a kernel with these symbols does not have: its functions for them are weak, or not there."""
    there = {name for kind, name in re.findall(r"^\S+ (\w) __x64_sys_(\w+)", symbols, re.M) if kind not in "Ww"}
    return [name for name in names if FUNCTIONS.get(name, name) not in there] if there else []


def lacking_families(protocols: str, modules: str, numbers: Mapping[str, str]) -> list[str]:
    """Those of the families that have no protocol among these, and none of these aliases of modules."""
    there = [line.split()[0] for line in protocols.split("\n")[1:] if line.strip()]
    loadable = set(re.findall(r"^alias net-pf-(\d+) ", modules, re.M))
    return [name for name, number in numbers.items() if number not in loadable and not has_protocol(name, there)] if there else []


def has_protocol(family: str, protocols: Iterable[str]) -> bool:
    """Whether one of these protocols is of a family."""
    pattern = re.compile(PROTOCOLS_OF.get(family, re.escape(family[len("AF_") :])))
    return any(map(pattern.fullmatch, protocols))


def kernel_heads(root: Root) -> list[str]:
    """The lines that say which calls and families of the table the kernel of a root lacks; none where it does not show them."""
    with open(TABLE, encoding="utf-8") as table:
        calls, families = numbers_of(table.read())
    modules = read_text(root, b"/usr/lib/modules/" + read_text(root, RELEASE).strip().encode() + b"/modules.alias")
    lacking: dict[str, list[str]] = {
        "calls": lacking_calls(read_text(root, SYMBOLS), calls),
        "families": lacking_families(read_text(root, PROTOCOLS), modules, families),
    }
    return [f"the kernel lacks the {what}: {' '.join(names)}" for what, names in lacking.items() if names]
