"""Starts a root, judges its units and starts them there, and compares the two."""
from __future__ import annotations

import contextlib
import os
import re
import shutil
import subprocess
import sys
import tempfile
import tomllib
from pathlib import Path
from typing import Any, Sequence

from lentsheep.causes import State, held_capabilities, state_of
from lentsheep.gather import partings_of, plan_of
from lentsheep.host import read_host
from lentsheep.partings import RULES, Judged, files_in_force, partings
from lentsheep.program import Program, Run
from lentsheep.report import parse
from lentsheep.table import read_table
from lentsheep.unit_text import Said
from lentsheep.values import PATH_KINDS, Launched, Plan, Replay, Report

from . import compare, files, found, kernel, printed, questions, service, surroundings, tries
from .cover import Told
from .filters import I386, X86_64
from .furnish import FURNISHED, Fault, furnish
from .machine import Machine
from .root import Root, Unstarted
from .table import TABLES, calls_of, table_of
from .tries import CAPABLE, PROBE, Place, Try
from .virtual import VirtualMachine

TOP = kernel.TOP
PLAIN, PEER = "reality-plain.service", "reality-peer@{}.service"
PEER_TEXT = "[Service]\nUser=%i\nExecStart=" + PROBE + " wait\nCapabilityBoundingSet=\nStandardOutput=null\n"
NO_CALLS = "no-calls.txt"
TWIST = "zzz-lentsheep-twist.conf"
DYNAMIC = range(61184, 65520)


class Runner(Program):
    """The program in a folder; a build that LENTSHEEP_PROGRAM names is run without the shell around it."""

    def run(self, *words: str) -> Run:
        build = os.environ.get("LENTSHEEP_PROGRAM")
        if not build:
            return super().run(*words)
        ended = subprocess.run([build, *words], cwd=self.folder, stdout=subprocess.PIPE, check=False)
        text = ended.stdout.decode("utf-8", "surrogateescape")
        return Run(words, text, parse(text, words[0]), ended.returncode)


class Harness:
    """One root with its machine, its site and what PID 1 sees."""

    def __init__(self, root: str, units: Sequence[str], twists: Sequence[str] = (), is_virtual: bool = False):
        self.root = os.path.realpath(root)
        self._way: type[Root] = VirtualMachine if is_virtual else Machine
        self._twists = twists
        self._stack = contextlib.ExitStack()
        self._given = list(units)
        self.units: list[str] = []

    def __enter__(self) -> "Harness":
        if os.geteuid() != 0 or not shutil.which("gcc"):
            raise Unstarted("it takes root of this machine, and gcc")
        try:
            furnish(self.root)
            self.machine = self._stack.enter_context(self._way(self.root, self._place_units))
            self.folder = self._stack.enter_context(tempfile.TemporaryDirectory(prefix="lentsheep-here."))
            self.version = self.machine.version()
            self._make_site()
            self._look()
        except BaseException:
            self._stack.close()
            raise
        return self

    def __exit__(self, *_: object) -> None:
        self._stack.close()

    @property
    def head(self) -> str:
        """What runs, and how."""
        return f"systemd {self.version}, {self.machine.way}, Linux {self.machine.release}"

    def told(self, *words: str) -> Any:
        """Returns what ./sandbox prints of a command, as its views read it."""
        run = self.program.run(*words)
        if not run.text:
            raise Fault(f"./sandbox {' '.join(words)}: status {run.status}")
        return run.printed

    def _text_of(self, unit: str) -> str:
        """The text of the unit's files, in no order."""
        prefix, at, _ = unit.partition("@")
        names = [unit, f"{prefix}@.service"] if at else [unit]
        found = ""
        for place in ("etc", "run", "usr/lib"):
            for name in names:
                file = Path(self.root, place, "systemd/system", name)
                for path in (file, *sorted(Path(f"{file}.d").glob("*.conf"))):
                    with contextlib.suppress(OSError):
                        found += path.read_text(errors="replace") + "\n"
        return found

    def _place_units(self) -> None:
        """Writes made units into the root's run/, drop-ins for all, and units of the harness's own."""
        folder = Path(self.root, "run/systemd/system")
        for given in self._given:
            if "/" in given:
                shutil.copyfile(given, folder / os.path.basename(given))
                given = os.path.basename(given)
            self.units.append(given if "." in given else given + ".service")
        (folder / PLAIN).write_text("[Service]\nExecStart=/bin/true\n")
        (folder / PEER.format("")).write_text(PEER_TEXT)
        for unit in [*self.units, PLAIN]:
            service.prepare(self.root, unit, self._text_of(unit))

    def _link_files(self) -> None:
        """Links what the program reads; a twist is judged and not started, so it is in a copy of run/ alone."""
        for name in ("etc", "run", "usr"):
            os.symlink(f"{self.root}/{name}", f"{self.folder}/{name}")
        if self._twists:
            os.unlink(f"{self.folder}/run")
            shutil.copytree(f"{self.root}/run/systemd/system", f"{self.folder}/run/systemd/system", symlinks=True)
            for unit in self.units:
                Path(self.folder, f"run/systemd/system/{unit}.d", TWIST).write_text("\n".join(["[Service]", *self._twists]) + "\n")

    def _make_site(self) -> None:
        site = subprocess.run(
            [str(TOP / "tools" / "make-site"), "--quiet", "--root", self.root, "--unit", *self.units, "--also", *FURNISHED],
            capture_output=True, check=False,
        )  # fmt: skip
        if site.returncode:
            raise Fault(site.stderr.decode(errors="replace").strip())
        Path(self.folder, "site.toml").write_bytes(site.stdout)
        self._link_files()
        Path(self.folder, NO_CALLS).write_text("")
        self.host = read_host(site.stdout.decode("utf-8", "replace"))
        self.table = table_of(site.stdout.decode("utf-8", "replace"))
        os.symlink(self.table, f"{self.folder}/calls.txt")
        self.program = Runner(self.folder)
        self.calls, self.call_capabilities, self.families, self.calls32 = calls_of(self.table)
        self.judges_i386 = bool(self.calls32)
        if not self.judges_i386:
            self.calls32 = calls_of(TABLES / "calls2.txt")[3]
        self.names = {number: name for name, number in self.calls.items()}
        self.rows = {row["path"]: row["kind"] for row in tomllib.loads(site.stdout.decode())["row"]}
        self.dynamic = int(re.search(rb"^dynamic_uid\s*=\s*(\d+)", site.stdout, re.MULTILINE)[1])
        self._make_folders()
        self.capable_rows = [row for row in self.rows if self._has_capabilities(row) and row != CAPABLE]

    def _make_folders(self) -> None:
        """Makes the rows of folders that systemd would make when their unit starts, so that PID 1 sees them from the beginning."""
        folders = [row for row, kind in self.rows.items() if kind == "dir" and row.startswith(("/var/", "/run/", "/etc/"))]
        self.machine.make_folders(folders)

    def _has_capabilities(self, row: str) -> bool:
        try:
            return "security.capability" in os.listxattr(self.root + row, follow_symlinks=False)
        except OSError:
            return False

    def _look(self) -> None:
        """What the root of the machine can do without a sandbox: the rows as PID 1 has them."""
        asked: dict[str, Try] = {}
        meaning: dict[str, tuple[str, str]] = {}
        for row in self.rows:
            name = tries.word(row)
            steps = (("see", f"S {name}"), ("read", f"2 {name} 0x800"), ("write", f"2 {name} 0x801"), ("exec", f"59 {name} -1 0"))
            for kind, step in steps:
                key = f"t{len(asked)}"
                asked[key] = Try("plain", [step])
                meaning[key] = (kind, row)
        asked["t999998"] = Try("plain", [f"{39 | 0x40000000}"])
        asked["t999999"] = Try("plain", ["i20"])
        seen = service.start(self.machine, PLAIN, asked)
        if seen.failure or not seen.whole:
            raise Fault(f"a service without a sandbox could not be looked at: {seen.failure}")
        identities: dict[str, int] = {}
        without: dict[tuple[str, str], int] = {}
        for key, (kind, row) in meaning.items():
            value = seen.results[key].steps.get(0, -1) if key in seen.results else -1
            if kind == "see" and value >= 0:
                identities[row] = value
            without[kind, row] = 0 if value >= 0 or (kind == "exec" and value == tries.FAULT) else -value
        numbers = {key: seen.results[key].steps.get(0, -1) for key in ("t999998", "t999999") if key in seen.results}
        own = [row for row in self.rows if os.path.islink(self.root + row) and _leads_to_proc(os.readlink(self.root + row))]
        leads = {row: os.path.realpath(self.root + row).removeprefix(self.root) for row in self.rows}
        links = {row: target for row, target in leads.items() if target != row}
        has_x32, has_i386 = (numbers.get(key, -1) > 0 for key in ("t999998", "t999999"))
        self.seen = found.Machine(identities, without, seen.mounts, own, links, has_x32, has_i386)

    def peers(self, uid: int) -> list[int]:
        """A service of this user that runs beside, by its number in the machine."""
        for line in Path(self.root, "etc/passwd").read_text().splitlines():
            name, _, number = line.split(":")[:3]
            if int(number) == uid:
                unit = PEER.format(name)
                self.machine.systemctl("start", "--job-mode=ignore-dependencies", unit)
                told = self.machine.systemctl("show", "-p", "MainPID", "--value", unit).stdout.strip()
                return [int(told)] if told.isdigit() and told != "0" else []
        return []

    def place(self, report: Report, plan: Plan) -> Place:
        """What the tries of a unit rest on."""
        launch = report.launch
        closed = [answer.question for answer in report.answers if not answer.is_open]
        denied = {question.name for question in closed if question.kind in PATH_KINDS}
        writable = [mount.place for mount in plan.mounts if mount.writable]
        folders = [path for path in ("/tmp", "/var/tmp", "/dev/shm", "/run", "/var/lib/lentsheep", "/root") if path not in writable]
        return Place(
            launch.uid, launch.gid, self.calls, self.calls32, self.call_capabilities, self.families, self.peers(launch.uid),
            self.machine.handles(sorted(denied | {"/"})), sorted((mount.place for mount in plan.mounts), key=len, reverse=True),
            self.capable_rows, [*writable[:12], *folders],
        )  # fmt: skip

    def run_alone(self, unit: str) -> found.Comparison:
        """Launches, starts and compares a unit without a question: ids, mounts and filters."""
        replay = self.told("replay", unit, NO_CALLS)
        if replay.refusal or not isinstance(replay.launch, Launched):
            return self._refused(unit, replay)
        plan, started = self.told("plan", unit), service.start(self.machine, unit, None)
        judged = self._by_text(unit)
        comparison = found.Comparison(unit, failure=started.failure)
        if started.failure:
            return comparison
        self._compare_surroundings(comparison, replay.launch, None, plan, started, Told(partings(judged), self.judges_i386, _without_answers(judged)))
        if comparison.new:
            # some partings are met by answers, so it takes a report to name them
            run = self.program.run("judge", unit)
            if isinstance(run.printed, Report) and run.text:
                comparison = found.Comparison(unit)
                told = Told(partings_of(self.program, run, run.printed), self.judges_i386, _without_answers(judged))
                self._compare_surroundings(comparison, replay.launch, None, plan, started, told)
        return comparison

    def _by_text(self, unit: str) -> Judged:
        """The unit without a report."""
        return Judged(Said(files_in_force(self.folder, unit)), table=read_table(self.folder), host=self.host)

    def _refused(self, unit: str, printed_: Report | Replay) -> found.Comparison:
        why = printed_.refusal.text if printed_.refusal else f"launch {printed_.launch}"
        return found.Comparison(unit, refusal=why, failure=service.start(self.machine, unit, None).failure)

    def run(self, unit: str) -> found.Comparison:
        """Judges, starts and compares a unit."""
        run = self.program.run("judge", unit)
        report = run.printed
        if not isinstance(report, Report) or not run.text:
            raise Fault(f"./sandbox judge {unit}: status {run.status}")
        if report.refusal or not isinstance(report.launch, Launched):
            return self._refused(unit, report)
        plan = plan_of(self.program, run, report)
        # files that are handed in are the harness's own doing
        met = (parting for parting in partings_of(self.program, run, report) if parting.name != "handed-in")
        told = Told(met, self.judges_i386, _without_answers(self._by_text(unit)))
        place = self.place(report, plan)
        made, asked = self._tries(report, place)
        started = service.start(self.machine, unit, asked)
        if not started.failure and not started.whole:
            started.failure = "the probe did not come to its end"
        comparison = found.Comparison(unit, failure=started.failure)
        if not started.failure:
            self._compare_surroundings(comparison, report.launch, held_capabilities(report), plan, started, told)
            compare.Comparer(self.seen, comparison, told, place, started, made).compare(report.answers)
            surroundings.tried_of(comparison, started, made, self.calls)
        return comparison

    def _compare_surroundings(
        self, comparison: found.Comparison, launch: Launched, held: list[str] | None, plan: Plan, started: service.Started, told: Told
    ) -> None:
        self._same_dynamic(started)
        has_nosuid = self.host.profile is not None
        surroundings.plan_of(comparison, self.seen, plan.mounts, self.rows, started, told, has_nosuid)
        surroundings.held_of(comparison, launch, held, started, told)
        native = [entry.program for entry in self.told("filter", comparison.unit).filters if entry.abi == 0]
        programs = [b"".join(bytes.fromhex(step.text) for step in program) for program in native]
        surroundings.filters_of(comparison, programs, self.names, started, told)

    def _same_dynamic(self, started: service.Started) -> None:
        """A dynamic id of the machine is the one that the site has for all."""
        for key in ("Uid", "Gid", "Groups"):
            numbers = [int(text) for text in started.status[key].split()]
            started.status[key] = " ".join(str(self.dynamic if number in DYNAMIC else number) for number in numbers)

    def _tries(self, report: Report, place: Place) -> tuple[dict[str, list[tuple[str, Try]]], dict[str, Try]]:
        made: dict[str, list[tuple[str, Try]]] = {"held": []}
        ordered: list[tuple[str, Try]] = [("held", tried) for tried in questions.held_tries(place)]
        ordered += [("gates", tried) for tried in files.gates(place)]
        for answer in report.answers:
            question, kind, name = answer.question.text, answer.question.kind, answer.question.name
            in_steps = state_of(answer) is State.STEPS
            attacks = not answer.is_open or in_steps
            ordered += [(question, tried) for tried in questions.tries_of(place, kind, name, attacks)]
            if answer.calls and kind != "cap":
                for type_ in questions.SOCKET_TYPES if kind == "socket" else (0,):
                    steps = printed.printed(place, answer.calls, type_)
                    if steps:
                        ordered.append((question, printed_try(kind, steps, in_steps)))
        ordered.sort(key=lambda pair: pair[1].late)
        asked: dict[str, Try] = {}
        for question, tried in ordered:
            key = f"t{len(asked)}"
            asked[key] = tried
            made.setdefault(question, []).append((key, tried))
        return made, asked


def _without_answers(judged: Judged) -> set[str]:
    """The partings of a unit's text that the views name only if they touch answers. A plan meets them without any."""
    return {rule.name for rule in RULES if rule.needs_answers and not judged.follows(rule.name) and rule.met_by(judged)}


def _leads_to_proc(target: str) -> bool:
    return target.startswith(("/proc/", "../proc/"))


def printed_try(kind: str, steps: list[str], in_steps: bool) -> Try:
    """The printed calls, with what tells that the last one did what is asked."""
    if kind in ("read", "write"):
        return Try("printed", [*steps, f"?I @{len(steps) - 1}"], goal=len(steps) - 1, late=in_steps)
    last = steps[-1].split()
    if kind == "see":
        return Try("printed", [*steps[:-1], f"S {last[1]}"], accept="same", late=in_steps)
    if kind == "exec":
        last[2] = "-1"
        return Try("printed", [*steps[:-1], " ".join(last)], accept="fault", late=in_steps)
    if kind == "call":
        asked = (int(last[0].lstrip("i")), (), I386 if last[0].startswith("i") else X86_64)
        return Try("printed", [*steps[:-1], "39"], asked=asked, late=in_steps)
    if kind == "shm-x" and last[0] == "30":
        # the printed call has the segment 0, which may be missing or another user's
        return Try("printed", [*steps[:-1], "29 0 4096 0x3c0", f"30 @{len(steps) - 1} 0 {last[3]}"], late=in_steps)
    return Try("printed", steps, late=in_steps)


def errors(text: str) -> None:
    """A line on standard error."""
    print(text, file=sys.stderr, flush=True)


__all__ = ["Fault", "Harness", "Unstarted", "errors"]
