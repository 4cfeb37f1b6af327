"""What reports of units promise, tried: printed calls are done and reach their question, and walks reach nothing that is denied."""
from __future__ import annotations

import random
import shutil
import time
from typing import Iterator, Optional, Sequence

from lentsheep.calls import Call
from lentsheep.places import is_below
from lentsheep.values import Plan, Question, Report

from .made import unit
from .services import ABIS, DIRS, NEEDING, OF_KEY, READ, SITE, Service
from .walks import Walker, trials, walk
from .world import World

# The key systemd of a site, or none.
KEYS = (None, 252, 257)
# What a service has that is to be in one way open to it: alone, as another user, and with what hides and gives.
REPORTS = (
    (), ("User=web",), ("User=web", "NoNewPrivileges=yes", "ProtectSystem=strict", "InaccessiblePaths=/srv"),
    ("SystemCallFilter=~@mount", "TemporaryFileSystem=/home", "InaccessiblePaths=/srv"),
    ("SystemCallFilter=~mount", "ProtectSystem=strict", "ProtectHome=yes", "InaccessiblePaths=/srv/a"),
    ("User=web", "NoNewPrivileges=yes", "AmbientCapabilities=CAP_SYS_ADMIN", "CapabilityBoundingSet=CAP_SYS_ADMIN",
     "ProtectSystem=strict", "PrivateTmp=yes", "NoExecPaths=/usr/bin -/srv", "ExecPaths=/usr/bin/web"),
    ("User=web", "CapabilityBoundingSet=CAP_CHOWN", "InaccessiblePaths=/srv"),
    ("User=web", "NoNewPrivileges=yes", "RestrictAddressFamilies=AF_UNIX"),
    ("User=web", "NoNewPrivileges=yes", "SystemCallArchitectures=native", "SystemCallFilter=~unshare stat open", "PrivateTmp=yes"),
    ("DynamicUser=yes", "StateDirectory=web", "RestrictNamespaces=user mnt", "BindReadOnlyPaths=/srv/a:/srv/c"),
    # what the key's kernel does by its further calls alone
    ("SystemCallFilter=~open openat creat truncate", "InaccessiblePaths=/srv"),
    ("SystemCallFilter=~setuid setresuid setgid setresgid setgroups unshare clone",),
    ("SystemCallFilter=~socket socketcall sched_setscheduler", "RestrictRealtime=yes"),
    ("User=web", "RestrictSUIDSGID=yes", "MemoryDenyWriteExecute=yes"), ("SystemCallFilter=~chmod mkdir", "User=web"),
    # what it does by a ring alone, and to devices on read-only mounts
    ("User=web", "RestrictAddressFamilies=AF_INET", "SystemCallArchitectures=native", "ReadOnlyPaths=/"),
    ("SystemCallFilter=~open openat openat2 stat lstat newfstatat statx access faccessat creat truncate", "InaccessiblePaths=/srv"),
    ("SystemCallFilter=~chmod fchmod fchmodat fchmodat2 mkdir mkdirat mknod mknodat open openat @aio", "NoNewPrivileges=yes", "ReadOnlyPaths=/"),
)  # fmt: skip

# Lines of units, and a line without which a walk has to reach what is denied with it.
CONTROLS = (
    (("User=web", "RestrictAddressFamilies=AF_INET", "SystemCallArchitectures=native"), "SystemCallFilter=~@aio"),
    (("User=web", "NoNewPrivileges=yes"), "ProtectSystem=strict"), (("ReadOnlyPaths=/",), "CapabilityBoundingSet=~CAP_SYS_ADMIN CAP_SETUID CAP_SYS_NICE"),
    (("User=web",), "NoNewPrivileges=yes"), (("SystemCallFilter=~mount",), "SystemCallFilter=~umount2\nInaccessiblePaths=/srv"),
)  # fmt: skip
# How many scripts of printed lists are replayed of a unit at most, and how many walks it has.
MOST_SCRIPTS, WALKS = 8, 3
# The lines of a unit, the number of user namespaces, the version of systemd, and whether there are rings.
Made = tuple[Sequence[str], int, Optional[int], bool]
Lists = dict[tuple[str, ...], list[Question]]


def lists_of(report: Report) -> Lists:
    """The lists of calls of the open answers, each with the questions that it is printed for."""
    lists: Lists = {}
    for answer in report.answers:
        if answer.is_open and answer.calls:
            lists.setdefault(tuple(call.text for call in answer.calls), []).append(answer.question)
    return lists


def scripts_of(lists: Lists) -> Iterator[tuple[list[str], list[list[Question]]]]:
    """Scripts of these lists: the calls, and the questions that each is to reach. Last calls that change nothing are in one script."""
    alike: dict[tuple[str, ...], list[tuple[str, list[Question]]]] = {}
    for texts, questions in lists.items():
        if all(changes_nothing(it) for it in questions):
            alike.setdefault(texts[:-1], []).append((texts[-1], questions))
        else:
            yield list(texts), [[] for _ in texts[1:]] + [questions]
    for first, last in alike.items():
        yield [*first, *(call for call, _ in last)], [[] for _ in first] + [questions for _, questions in last]


def changes_nothing(question: Question) -> bool:
    """Whether the last call that a question is printed with leaves the world as it was."""
    return question.kind not in ("exec", "ns", "cap", "uid", "gid") and question.name not in ("exit", "exit_group")


def walker_of(service: Service, plan: Plan, chance: random.Random) -> Walker:
    """What makes walks of a unit."""
    places = [mount.place for mount in plan.mounts if mount.place != "/"] or ["/proc"]
    numbers = {name: number for number, name in READ.families.items()}
    abis = ABIS if service.has_key else [(abi, names - OF_KEY) for abi, names in ABIS]
    return Walker(chance, abis, list(SITE), places, numbers, "SystemCallArchitectures=native" in service.lines)


def unshown(service: Service, report: Report, plan: Plan, chance: random.Random) -> tuple[list[str], int]:
    """The printed lists whose calls are not done to the last one, or do not reach their question; and how many were tried."""
    lists, faults = lists_of(report), [f"unread: {text}" for text in report.unread[:1]]
    opens, count = {it.question.text for it in report.answers if it.is_open}, 0
    scripts = list(scripts_of(lists))
    for script, wanted in scripts if len(scripts) <= MOST_SCRIPTS else chance.sample(scripts, MOST_SCRIPTS):
        # a call that needs the capability is done at once
        probes = [f"{script[-1].split()[0]} {NEEDING[it.name]}" for it in (wanted[-1] if wanted else []) if it.kind == "cap"]
        probes = [it for it in probes if f"call {it.split()[1]}" in opens]
        status, replay = service.replies([*script, *probes])
        done = [reply.outcome == "ok" for reply in replay.replies]
        if status != 0 or replay.unread or len(done) != len(script) + len(probes) or not all(done):
            faults.append(f"not done: {' | '.join([*script, *probes][:6])}")
            continue
        here = World(plan, service.rows, READ, service.has_key)
        for reply, questions in zip(replay.replies, wanted):
            reached = here.take(reply.call, reply.value)
            missed = [it.text for it in questions if it.kind != "cap" and it.text not in reached and not given_by_program(it, reply.call)]
            faults += [f"not reached: {it} by {' | '.join(script[:6])}" for it in missed]
        count += sum(map(len, wanted))
    return faults, count


def given_by_program(question: Question, call: Call) -> bool:
    """Whether an id is one that execve(2) gives by the bit of a program of the site."""
    if question.kind not in ("uid", "gid") or not call.paths:
        return False
    return any(f"set{question.kind} = {question.name}" in gives for _, gives in SITE.values())


def walks(service: Service, report: Report, plan: Plan, chance: random.Random, count: int) -> tuple[list[str], int, int]:
    """What is denied and reached by random walks, with the script up to there; and how many calls were made, and how many done."""
    denied, made, done = {it.question.text for it in report.answers if not it.is_open}, 0, 0
    faults: list[str] = []
    walker = walker_of(service, plan, chance)
    tries = trials(walker)
    _, replay = service.replies([call for _, calls in tries for call in calls])
    walker.ending = {name for (name, _), reply in zip(tries, replay.replies[1::2]) if reply.outcome == "killed"}
    hidden = {row for row in service.rows for folder in report.blind if is_below(row, folder) and row != folder}
    for _ in range(count):
        script = walk(walker, report)
        status, replay = service.replies(script)
        here = World(plan, service.rows, READ, service.has_key)
        if status != 0 or replay.unread or len(replay.replies) != len(script):
            faults.append(f"a walk of status {status}: {replay.unread[:1]}: {' | '.join(script[:4])}")
            continue
        for at, reply in enumerate(replay.replies):
            made, done = made + 1, done + (reply.outcome == "ok")
            if reply.outcome == "killed":
                here.end(reply.call.pid)
            if reply.outcome != "ok":
                continue
            reached = [it for it in here.take(reply.call, reply.value) if it in denied or it.startswith("a call of no process")]
            shown = [f"shown {row}" for row in here.exposed(reply.call.pid, hidden)] if reply.call.name in ("mount", "umount2") else []
            for text in [*reached, *shown]:
                faults.append(f"{text}, call {at + 1} of a walk: {script[at]}")
                service.write(f"walk-{len(faults)}.txt", "\n".join([*script[: at + 1], ""]))
            if reached or shown:
                break
    return faults, made, done


def units(chance: random.Random, count: int, seconds: Optional[int]) -> Iterator[Made]:
    """What units are tried: the lines, the number of user namespaces, the version of systemd, and whether there are rings."""
    yield from () if seconds else ((lines, 8, systemd, True) for systemd in KEYS for lines in REPORTS)
    ends, number = time.monotonic() + (seconds or 0), 0
    while time.monotonic() < ends if seconds else number < count:
        number += 1
        yield unit(chance, DIRS.split(), list(SITE)), chance.choice((0, 1, 8)), chance.choice((252, 257, 252, 257, None)), chance.random() < 0.9


def controls(place: str, chance: random.Random) -> list[str]:
    """Of which units no walk reaches something, although it goes on without a line by which that is denied."""
    missed = []
    for at, (lines, line) in enumerate(CONTROLS):
        whole = Service(f"{place}/whole-{at}", [*lines, line], SITE, 8, 257)
        without = Service(f"{place}/without-{at}", lines, SITE, 8, 257)
        report, plan = whole.judged(), without.planned()
        if not any(walks(without, report, plan, chance, 2)[0] for _ in range(20)):
            missed.append(f"no walk reaches what {line} denies, over {lines}")
        for service in (whole, without):
            shutil.rmtree(service.folder)
    return missed


class Tried:
    """What was tried of units, and what does not hold."""

    def __init__(self) -> None:
        self.reports = self.refused = self.lists = self.calls = self.done = 0
        self.faults: list[str] = []

    def take(self, folder: str, chance: random.Random, made: Made) -> bool:
        """Tries a made unit; whether all holds."""
        lines, namespaces, systemd, rings = made
        service = Service(folder, lines, SITE, namespaces, systemd, rings)
        report, before = service.judged(), len(self.faults)
        if not report.answers:
            self.refused += 1
            return True
        self.reports += 1
        plan = service.planned()
        faults, count = unshown(service, report, plan, chance)
        self.lists += count
        reached, calls, done = walks(service, report, plan, chance, WALKS)
        self.calls, self.done = self.calls + calls, self.done + done
        site = f"{folder}: systemd {systemd}, {namespaces} user namespaces{', no rings' * (not rings)}: {lines}"
        for text in faults + reached:
            self.faults.append(f"{text}\n  of {site}")
            print(self.faults[-1], flush=True)
        return len(self.faults) == before
