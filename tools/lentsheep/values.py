"""What the printed texts are read as: one class for each command, and the parts of them.

Every text is a `Printed`. Its `refusal` is there where the program refused an input and printed nothing else. It is `whole`
where its last line came: the program ends a text early when a write fails or memory runs out. Lines that no rule reads are
kept in `unread`, in their order; a whole text of this program has none.
"""
from __future__ import annotations

from typing import ClassVar, Union

from .calls import Call
from .record import dataclass
from .words import escaped

#: Questions of a row of the site, by its path.
PATH_KINDS = ("see", "read", "write", "exec")
#: Questions without a name: a thing that a process does to itself.
SWITCHES = ("map-wx", "protect-x", "shm-x", "realtime", "personality", "suid-bit")
#: All kinds of questions, in the order of the report.
KINDS = (*PATH_KINDS, "call", "socket", "ns", *SWITCHES, "cap", "uid", "gid")


@dataclass(frozen=True)
class Refusal:
    """A line `refused WHAT CAUSE ..`: an input that the program does not take."""

    #: the unit, file or word that is refused; `words` alone has no cause
    what: str
    #: the words behind it, without escapes, as `("no-user", "web")` or `("line", "1", "header")`
    cause: tuple[str, ...]

    @property
    def text(self) -> str:
        """The line again."""
        return " ".join(["refused", escaped(self.what), *map(escaped, self.cause)])


@dataclass(frozen=True)
class Printed:
    """What every text has."""

    command: ClassVar[str] = ""
    refusal: Refusal | None = None
    whole: bool = True
    unread: tuple[str, ...] = ()


@dataclass(frozen=True)
class Launched:
    """The launch was made, in so many steps; this is what the launched process has."""

    uid: int
    gid: int
    no_new_privs: bool
    steps: int


@dataclass(frozen=True)
class LaunchRefused:
    """The kernel refuses this step of the launch."""

    step: int
    errno: int


@dataclass(frozen=True)
class LaunchKilled:
    """A filter ends the service at this step of its launch."""

    step: int


@dataclass(frozen=True)
class LaunchPrivileged:
    """The program has a set-id bit or capabilities, and is not launched."""

    program: str


Launch = Union[Launched, LaunchRefused, LaunchKilled, LaunchPrivileged]


@dataclass(frozen=True)
class Note:
    """What was passed over in a line of a file of the unit."""

    file: str
    line: int
    cause: str


@dataclass(frozen=True)
class Question:
    """What is asked; the name has no escapes, and is empty for the switches."""

    kind: str
    name: str = ""

    @property
    def text(self) -> str:
        """As the report has it."""
        return f"{self.kind} {escaped(self.name)}" if self.name else self.kind


@dataclass(frozen=True)
class Answer:
    """An answer; an open one with the calls that show it, none where the launched process has it already."""

    question: Question
    is_open: bool
    calls: tuple[Call, ...] = ()
    #: whether views found that file modes close it; the text of the program does not say so
    by_modes: bool = False

    @property
    def verdict(self) -> str:
        """The first word of its line."""
        return "open" if self.is_open else "denied"


@dataclass(frozen=True)
class Counts:
    """How many questions are denied, and how many open."""

    denied: int
    open: int


@dataclass(frozen=True)
class Report(Printed):
    """The text of `judge`. A launch that is not made has neither answers nor a summary, and is whole."""

    command: ClassVar[str] = "judge"
    unit: str = ""
    notes: tuple[Note, ...] = ()
    launch: Launch | None = None
    answers: tuple[Answer, ...] = ()
    blind: tuple[str, ...] = ()
    summary: Counts | None = None

    def of_kind(self, *kinds: str) -> list[Answer]:
        """The answers to questions of these kinds."""
        return [answer for answer in self.answers if answer.question.kind in kinds]


@dataclass(frozen=True)
class Mount:
    """An entry of the plan: what stands at a place, `host`, `empty` or `hidden`; what is hidden has no flags."""

    place: str
    what: str
    source: str | None = None
    writable: bool | None = None
    executable: bool | None = None
    #: Whether set-id bits and capabilities of programs have no effect there.
    nosuid: bool = False


@dataclass(frozen=True)
class Plan(Printed):
    """The text of `plan`."""

    command: ClassVar[str] = "plan"
    mounts: tuple[Mount, ...] = ()
    count: int | None = None


@dataclass(frozen=True)
class Instruction:
    """An instruction of classic BPF."""

    code: int
    jt: int
    jf: int
    k: int

    @property
    def text(self) -> str:
        """Its eight bytes, little endian, in hex."""
        return (self.code.to_bytes(2, "little") + bytes([self.jt, self.jf]) + self.k.to_bytes(4, "little")).hex()


@dataclass(frozen=True)
class Filter:
    """A filter; `abi` counts earlier ones of its name, so 0 is the native program and 1 that of a second ABI."""

    name: str
    length: int
    program: tuple[Instruction, ...]
    abi: int = 0


@dataclass(frozen=True)
class Filters(Printed):
    """The text of `filter`."""

    command: ClassVar[str] = "filter"
    filters: tuple[Filter, ...] = ()
    count: int | None = None


@dataclass(frozen=True)
class Reply:
    """What a call of a script comes to: `ok` with its value, `errno` with the error number, or `killed`."""

    call: Call
    outcome: str
    value: int | None = None


@dataclass(frozen=True)
class Replay(Printed):
    """The text of `replay`."""

    command: ClassVar[str] = "replay"
    launch: Launch | None = None
    replies: tuple[Reply, ...] = ()
    count: int | None = None


@dataclass(frozen=True)
class ScoreTest:
    """A test of a policy; one that is skipped has no numbers."""

    id: str
    badness: int | None = None
    range: int | None = None
    weight: int | None = None
    term: int | None = None

    @property
    def skipped(self) -> bool:
        """Whether nothing decides it."""
        return self.badness is None


@dataclass(frozen=True)
class Score(Printed):
    """The text of `score`."""

    command: ClassVar[str] = "score"
    tests: tuple[ScoreTest, ...] = ()
    exposure: int | None = None
    threshold: int | None = None


@dataclass(frozen=True)
class Sample(Printed):
    """The text of `sample`."""

    command: ClassVar[str] = "sample"
    number: int | None = None
    rows: int | None = None
    questions: int | None = None
    denied: int | None = None
    open: int | None = None


@dataclass(frozen=True)
class CallData:
    """Call data on which two programs differ, and what each answers."""

    nr: int
    arch: int
    ip: int
    args: tuple[int, ...]
    theirs: int
    ours: int


@dataclass(frozen=True)
class Check(Printed):
    """The text of `check`: the count of paths where the programs are the same, else where they differ."""

    command: ClassVar[str] = "check"
    paths: int | None = None
    differs: CallData | None = None


@dataclass(frozen=True)
class FleetRow:
    """A unit of a fleet, with its exposure or its refusal."""

    unit: str
    exposure: int | None = None
    refusal: Refusal | None = None


@dataclass(frozen=True)
class Fleet(Printed):
    """The text of `fleet`."""

    command: ClassVar[str] = "fleet"
    rows: tuple[FleetRow, ...] = ()
    units: int | None = None
    refused: int | None = None


@dataclass(frozen=True)
class Tighten(Printed):
    """The text of `tighten`: lines to add to `[Service]`, and the counts before and after."""

    command: ClassVar[str] = "tighten"
    launch: Launch | None = None
    items: tuple[str, ...] = ()
    before: Counts | None = None
    after: Counts | None = None
    count: int | None = None


@dataclass(frozen=True)
class Derive(Printed):
    """The text of `derive`: the lines of a drop-in."""

    command: ClassVar[str] = "derive"
    launch: Launch | None = None
    lines: tuple[str, ...] = ()


@dataclass(frozen=True)
class Changes:
    """The counts of `effect`."""

    closed: int
    opened: int
    hidden: int
    shown: int


@dataclass(frozen=True)
class Effect(Printed):
    """The text of `effect`: what a drop-in closes and opens, hides and shows; or why the unit has no service with it."""

    command: ClassVar[str] = "effect"
    launch: Launch | None = None
    with_launch: Launch | None = None
    with_refusal: Refusal | None = None
    closed: tuple[Question, ...] = ()
    opened: tuple[Answer, ...] = ()
    hidden: tuple[str, ...] = ()
    shown: tuple[str, ...] = ()
    counts: Changes | None = None


@dataclass(frozen=True)
class UnitLine:
    """A line of a unit's files: what it assigns, as written."""

    file: str
    line: int
    text: str


@dataclass(frozen=True)
class LineAlone(UnitLine):
    """A line of a unit's files with what it denies by itself: how many questions are open without it, and which; none of these where
    it is needed."""

    needed: bool
    count: int | None
    opened: tuple[Question, ...]


@dataclass(frozen=True)
class Why(Printed):
    """The text of `why`: the answer to one question, and of one that is denied the lines that deny it; none where `nothing` does;
    or why the unit without all lines but ExecStart= has no service. Without a question each line with what it denies by itself."""

    command: ClassVar[str] = "why"
    launch: Launch | None = None
    answer: Answer | None = None
    nothing: bool = False
    by: tuple[UnitLine, ...] = ()
    count: int | None = None
    without_launch: Launch | None = None
    without_refusal: Refusal | None = None
    each: tuple[LineAlone, ...] = ()
    idle: int | None = None


@dataclass(frozen=True)
class Unknown(Printed):
    """A text that is none of the above: only its lines are known."""

    command: ClassVar[str] = "unknown"
    lines: tuple[str, ...] = ()
