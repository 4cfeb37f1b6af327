"""The answers of a report, compared with what the probe reached."""
from __future__ import annotations

from functools import cached_property
from typing import Sequence

from lentsheep.causes import State, state_of
from lentsheep.values import PATH_KINDS, Answer, Question

from .cover import Told
from .filters import I386, NEVER_FILTERED, X86_64
from .found import Comparison, Found, Held, Machine, Made
from .service import Started, covering
from .tries import CAPABILITY, Place, Result, Try

UNEXPLAINED = "unexplained"
FIRST_NAMESPACE = "the kernel asks for the capability in the first user namespace"
STEPS = "several calls, or a program that makes them: not tried to the end"
# kinds whose objects are the same in every mount of them
SAME_EVERYWHERE = ("proc", "sysfs", "cgroup2", "mqueue")
ERRNO = {
    1: "EPERM", 2: "ENOENT", 6: "ENXIO", 13: "EACCES", 16: "EBUSY", 19: "ENODEV", 22: "EINVAL", 26: "ETXTBSY", 30: "EROFS", 38: "ENOSYS",
    93: "EPROTONOSUPPORT", 94: "ESOCKTNOSUPPORT", 97: "EAFNOSUPPORT",
}  # fmt: skip
_MACHINE_LACKS = {
    2: "no such file", 6: "no such device, or a socket", 19: "no such device", 20: "no such file", 26: "a program that runs",
}  # fmt: skip
_KERNEL_LACKS = (22, 38, 93, 94, 95, 97, 123, 124)


class Comparer:
    """Holds one report against one service."""

    def __init__(self, machine: Machine, found: Comparison, told: Told, place: Place, started: Started, made: Made):
        self.machine, self.found, self.told, self.place, self.started, self.made = machine, found, told, place, started, made
        self.effective = started.number("CapEff")

    def compare(self, answers: Sequence[Answer]) -> None:
        """The questions."""
        for answer in answers:
            self.found.questions += 1
            question = answer.question
            ways = self._ways(question.kind, question.name, question.text)
            if not ways and not self._was_tried(question.kind, question.text):
                self.found.untried += 1
            elif not answer.is_open:
                self.found.agreeing += not ways
                self.found.done_questions += bool(ways)
                self.found.done += [self._found(question, way) for way in ways]
            elif ways:
                self.found.agreeing += 1
            else:
                self._refused(question, state_of(answer) is State.OPEN)

    def _found(self, question: Question, way: str) -> Found:
        parting = self.told.cover(question, way)
        if parting is None and question.kind in PATH_KINDS and way == "plain" and question.name in self.machine.links:
            parting = "links"
        return Found(question, way, parting, () if parting else self.told.near(question))

    def _was_tried(self, kind: str, question: str) -> bool:
        """Whether the probe came to any way of it."""
        keys = [key for key, _ in (self.made["held"] if kind == "cap" else self.made.get(question, []))]
        results = [self.started.results[key] for key in keys if key in self.started.results]
        return any(result.steps or result.killed or "held" in " ".join(result.texts) for result in results)

    def _ways(self, kind: str, name: str, question: str) -> list[str]:
        """The ways by which the question was reached."""
        ways: list[str] = []
        if kind == "cap":
            ways += [way for way, held in self._held if held.has(CAPABILITY[name], way)]
        if kind in ("uid", "gid"):
            has = self.started.status[kind.title()].split()[1:2] + (self.started.status["Groups"].split() if kind == "gid" else [])
            ways += ["plain"] if name in has else []
        if kind == "uid":
            # within a user namespace an id is another one
            ways += [way for way, held in self._held if held.uid == int(name) and way != "user-namespace"]
        for key, tried in self.made.get(question, []):
            result = self.started.results.get(key)
            if result is None or tried.way in ways or "plain" in ways:
                continue
            if self._done(kind, name, tried, result) or self._passes(kind, tried):
                ways.append(tried.way)
        # what is done as the question says needs no way round
        return ["plain"] if "plain" in ways else list(dict.fromkeys(ways))

    def _passes(self, kind: str, tried: Try) -> bool:
        """Whether the kernel refuses it for the user namespace of this machine alone."""
        holds = self.effective >> CAPABILITY["CAP_SYS_NICE"] & 1
        return kind == "realtime" and tried.asked is not None and bool(holds) and self._passes_filters(*tried.asked)

    @cached_property
    def _held(self) -> list[tuple[str, Held]]:
        """What the process and those that come of it hold, each with the way."""
        found = []
        for key, tried in self.made["held"]:
            result = self.started.results.get(key)
            lines = [text.split() for text in result.texts] if result else []
            found += [(tried.way, Held(int(words[2]), int(words[7], 16), int(words[8], 16))) for words in lines if words[0] == "held"]
        return found

    def _done(self, kind: str, name: str, tried: Try, result: Result) -> bool:
        if kind == "call":
            return self._call_done(name, tried, result)
        if kind not in PATH_KINDS:
            return result.done(tried, None)
        if tried.accept in ("fault", "gone", "text"):
            seen = result.steps.get(0) if tried.steps[0].startswith("S ") else None
            return result.done(tried, None) and (seen is None or seen < 0 or self._is_row(name, seen))
        goal = tried.goal if tried.goal >= 0 else len(tried.steps) + tried.goal
        value = result.steps.get(goal)
        if value is None or value < 0:
            return False
        if tried.needs and all(result.steps.get(step, -1) < 0 for step in tried.needs):
            return False
        if tried.accept == "same":
            return self._is_row(name, value) if tried.way == "plain" else value == self.machine.identities.get(name)
        identity = result.steps.get(goal + 1)
        return identity is None or identity < 0 or self._is_row(name, identity)

    def _is_row(self, path: str, identity: int) -> bool:
        if identity == self.machine.identities.get(path):
            return True
        here, there = covering(list(self.machine.mounts), path), covering(self.started.mounts, path)
        if path in self.machine.own_links:
            return True
        return bool(here and there and here.kind == there.kind and here.kind in SAME_EVERYWHERE and "inaccessible" not in there.source)

    def _call_done(self, name: str, tried: Try, result: Result) -> bool:
        assert tried.asked is not None
        number, arguments, arch = tried.asked
        if (tried.way == "x32" and not self.machine.has_x32) or (arch == I386 and not self.machine.has_i386):
            return False
        if not self._passes_filters(number, arguments, arch) or (tried.way == "plain" and result.killed == 31):
            return False
        return self._has_asked(name)

    def _has_asked(self, call: str) -> bool:
        """Whether the capabilities that a call asks for are effective."""
        return all(self.effective >> CAPABILITY[capability] & 1 for capability in self.place.call_capabilities.get(call, ()))

    def _passes_filters(self, number: int, arguments: Sequence[int], arch: int) -> bool:
        return number in NEVER_FILTERED and arch == X86_64 or self.started.filters.verdict(number, arguments, arch).passes

    def _one_passes(self, made: Sequence[tuple[str, Try]]) -> bool:
        return any(tried.asked is not None and self._passes_filters(*tried.asked) for _, tried in made)

    def _refused(self, question: Question, at_once: bool) -> None:
        kind, name = question.kind, question.name
        made = self.made.get(question.text, [])
        direct = [key for key, tried in made if tried.way in ("plain", "printed")]
        results = [self.started.results[key] for key in direct if key in self.started.results]
        numbers = [-value for result in results for value in result.steps.values() if -4096 < value < 0]
        number = numbers[0] if numbers else 0
        killed = any(result.killed == 31 for result in results)
        if not at_once:
            reason = STEPS
        elif kind in PATH_KINDS and self.machine.without.get((kind, name)):
            without = self.machine.without[kind, name]
            reason = _MACHINE_LACKS.get(without, "refused without a sandbox too")
        elif parting := self.told.closed_by(question, number):
            reason = parting
        elif kind in PATH_KINDS and number == 2:
            # a folder of RuntimeDirectory= goes with its unit
            reason = _MACHINE_LACKS[number]
        elif kind in PATH_KINDS and name in self.machine.links:
            reason = "links"
        elif kind in PATH_KINDS and number in (1, 13) and not self.effective >> CAPABILITY["CAP_DAC_OVERRIDE"] & 1:
            reason = "file modes"
        elif kind == "cap":
            reason = STEPS
        elif kind == "socket" and number in (1, 13) and self._one_passes(made):
            reason = FIRST_NAMESPACE
        elif kind == "socket" and number in _KERNEL_LACKS and self._one_passes(made):
            reason = "this kernel lacks the family"
        elif kind == "realtime" and number == 1:
            reason = FIRST_NAMESPACE
        elif kind == "call" and not self._one_passes(made):
            reason = "the filter of this version refuses the call"
        elif kind == "call" and not self._has_asked(name):
            reason = STEPS
        else:
            reason = UNEXPLAINED
            how = "killed" if killed else ERRNO.get(number, f"errno {number}")
            self.found.unexplained.append(f"{question.text} ({how})")
        self.found.refused[reason] += 1
