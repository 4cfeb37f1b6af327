"""What changed between two reports of a unit: what opened, what closed, and what is asked in one of them alone."""
from __future__ import annotations


from .record import dataclass
from .values import Answer, Launched, Report
from .words import escaped


@dataclass(frozen=True)
class Changes:
    """The answers of the newer report that opened and closed, questions of one report alone, and the folders that changed."""

    opened: tuple[Answer, ...]
    closed: tuple[Answer, ...]
    added: tuple[Answer, ...]
    gone: tuple[Answer, ...]
    seen: tuple[str, ...]
    unseen: tuple[str, ...]
    launches: tuple[str, str] | None

    @property
    def has_opened(self) -> bool:
        """Whether anything is open, or not blind any more, that was not so before; an open new question counts."""
        return bool(self.opened or self.seen or any(answer.is_open for answer in self.added))


def changes(old: Report, new: Report, accepted: frozenset[str] = frozenset()) -> Changes:
    """What changed from the old report to the new one; an open answer that is accepted counts as unchanged."""
    before = {answer.question: answer for answer in old.answers}
    after = {answer.question: answer for answer in new.answers}
    both = [(before[question], answer) for question, answer in after.items() if question in before]
    launches = (_launch(old), _launch(new))
    return Changes(
        tuple(now for then, now in both if now.is_open and not then.is_open and now.question.text not in accepted),
        tuple(now for then, now in both if then.is_open and not now.is_open),
        tuple(it for question, it in after.items() if question not in before and not (it.is_open and question.text in accepted)),
        tuple(answer for question, answer in before.items() if question not in after),
        tuple(folder for folder in old.blind if folder not in new.blind),
        tuple(folder for folder in new.blind if folder not in old.blind),
        launches if launches[0] != launches[1] else None,
    )


def _launch(report: Report) -> str:
    launch = report.launch
    if isinstance(launch, Launched):
        return f"uid {launch.uid} gid {launch.gid} nnp {'yes' if launch.no_new_privs else 'no'}"
    return "no launch"


def lines_of(found: Changes) -> list[str]:
    """The changes as lines, those that opened first and with their calls."""
    lines = []
    if found.launches:
        lines.append(f"launched {found.launches[0]}, now {found.launches[1]}")
    for answer in found.opened:
        lines.append(f"opened {answer.question.text}")
        lines += [f"  {call.text}" for call in answer.calls]
    lines += [f"no longer blind {escaped(folder)}" for folder in found.seen]
    lines += [f"closed {answer.question.text}" for answer in found.closed]
    lines += [f"now blind {escaped(folder)}" for folder in found.unseen]
    lines += [f"new {answer.verdict} {answer.question.text}" for answer in found.added]
    lines += [f"gone {answer.verdict} {answer.question.text}" for answer in found.gone]
    counts = f"opened {len(found.opened)} closed {len(found.closed)} new {len(found.added)} gone {len(found.gone)}"
    return [*lines, f"changes {counts}"]
