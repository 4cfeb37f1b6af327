"""One unit, started by the systemd of a root with the probe in the place of its program."""
from __future__ import annotations

import os
import re
from dataclasses import dataclass, field
from pathlib import Path

from .filters import Filters
from .root import Root
from .tries import PROBE, Result, Try, results_of

DROPIN = "zz-lentsheep-reality.conf"


def dropin(unit: str, text: str) -> str:
    """The drop-in of a unit whose files say `text`: the probe in place of all commands, its input and its output."""
    lines = ["[Unit]", "ConditionPathExists=", "AssertPathExists=", "RefuseManualStart=no"]
    lines += ["[Service]", "Type=exec", "Restart=no", "WatchdogSec=0", "RemainAfterExit=no", "PIDFile=", "Sockets=", "TasksMax=infinity"]
    # the probe makes children; limits are not judged
    lines += [f"Limit{key}=infinity" for key in ("NPROC", "AS", "FSIZE", "NOFILE", "CPU", "DATA", "MEMLOCK")]
    # a lower number than PID 1 has takes root of the first user namespace
    lines.append(f"Nice={os.nice(0)}")
    commands = ("ExecCondition", "ExecStartPre", "ExecStart", "ExecStartPost", "ExecReload", "ExecStop", "ExecStopPost")
    lines += [f"{key}=" for key in commands]
    lines += [
        f"ExecStart={PROBE} hold", "TimeoutStartSec=120", "TTYPath=", f"StandardInput=file:/run/reality/{unit}.in",
        f"StandardOutput=append:/run/reality/{unit}.out", "StandardError=null",
    ]  # fmt: skip
    if re.search(r"^\s*NoExecPaths\s*=", text, re.MULTILINE):
        lines.append(f"ExecPaths={PROBE}")
    return "\n".join(lines) + "\n"


@dataclass
class Mount:
    """A line of mountinfo: where, of which device, what of it, how, and of which kind."""

    place: str
    device: str
    source: str
    options: frozenset[str]
    kind: str
    super_options: frozenset[str] = frozenset()


def mounts_of(text: str) -> list[Mount]:
    """The mounts of a text of /proc/PID/mountinfo, in its order."""
    found = []
    for line in text.splitlines():
        first, _, last = line.partition(" - ")
        words = first.split()
        place, source = (re.sub(r"\\([0-7]{3})", lambda got: chr(int(got[1], 8)), words[at]) for at in (4, 3))
        kind, *_, options = last.split()
        found.append(Mount(place, words[2], source, frozenset(words[5].split(",")), kind, frozenset(options.split(","))))
    return found


def covering(mounts: list[Mount], path: str) -> Mount | None:
    """The mount in which a path lies: of the longest places the last."""
    best: Mount | None = None
    for mount in mounts:
        if mount.place == "/" or path == mount.place or path.startswith(mount.place + "/"):
            if best is None or len(mount.place) >= len(best.place):
                best = mount
    return best


@dataclass
class Started:
    """What was seen of a service that was started."""

    status: dict[str, str] = field(default_factory=dict)
    mounts: list[Mount] = field(default_factory=list)
    filters: Filters = field(default_factory=lambda: Filters([]))
    failure: str = ""
    results: dict[str, Result] = field(default_factory=dict)
    whole: bool = False

    def number(self, name: str, base: int = 16) -> int:
        """A number of its status."""
        return int(self.status[name].split()[0], base)


def prepare(root: str, unit: str, text: str) -> None:
    """Writes the drop-in before systemd starts."""
    folder = f"{root}/run/systemd/system/{unit}.d"
    os.makedirs(folder, exist_ok=True)
    Path(folder, DROPIN).write_text(dropin(unit, text))
    Path(f"{root}/run/reality/{unit}.in").write_text("")


def start(machine: Root, unit: str, tries: dict[str, Try] | None) -> Started:
    """Starts the unit, looks at it before its first call, and lets it make the tries; without any it is ended."""
    started = Started()
    lines = "".join(f"{key} {tried.line}\n" for key, tried in tries.items()) if tries else ""
    machine.write({f"reality/{unit}.in": lines}, (f"reality/{unit}.out",))
    told = machine.systemctl("start", "--job-mode=ignore-dependencies", unit)
    pid = machine.main_process(unit)
    if not pid:
        shown = machine.systemctl("show", "-p", "Result,ExecMainStatus,LoadError,LoadState", unit).stdout.split("\n")
        started.failure = " ".join([*told.stderr.split("\n")[:1], *filter(None, shown)])
        return started
    try:
        status, mountinfo, programs = machine.look(pid, go=bool(tries))
        started.filters = Filters(programs)
        started.status = {key: value.strip() for key, _, value in (line.partition(":") for line in status.splitlines())}
        for key in ("Uid", "Gid", "Groups"):
            started.status[key] = " ".join(str(int(text) - machine.first_id) for text in started.status[key].split())
        started.mounts = mounts_of(mountinfo)
        if tries:
            started.results, started.whole = results_of(machine.wait(pid, f"reality/{unit}.out"))
    except OSError as error:
        started.failure = f"it could not be looked at: {error}"
    finally:
        machine.end(unit, pid)
    return started
