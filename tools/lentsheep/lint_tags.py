"""The tags of `lint`: what each means, how severe it is, and what to do about it."""
from __future__ import annotations

from typing import NamedTuple, Optional

from .parting_rules import Direction, Rule
from .parting_table import RULES

#: From the least to the most severe.
SEVERITIES = ("info", "warning", "error")
#: Before the name of a parting, in its tag.
PARTING = "parting-"


class Tag(NamedTuple):
    """A tag: its name, its severity, and an explanation of some sentences."""

    name: str
    severity: str
    text: str


_TABLE = (
    Tag(
        "not-a-unit", "error",
        "The file cannot be read as a service unit: its name does not end in .service, it is no UTF-8, it is too large, or a line is "
        "no section.",
    ),
    Tag(
        "start-fails", "error",
        "systemd does not start the service with these settings, or starts nothing: a step of the launch is refused, or there is no "
        "ExecStart=.",
    ),
    Tag(
        "unmade-path", "error",
        "A path setting names a path that nothing makes, so the start fails with 226/NAMESPACE. Write - before the path, or let "
        "systemd make the folder (StateDirectory=, RuntimeDirectory=, CacheDirectory=, LogsDirectory=). With --root, lint looks into "
        "that root. Without, it takes paths below /usr, /etc, /dev, /proc and /sys as given.",
    ),
    Tag(
        "unknown-user", "error",
        "The root of --root has no such user or group, so the start fails with 217/USER or 216/GROUP.",
    ),
    Tag(
        "unknown-section", "warning",
        "A service unit has the sections [Unit], [Service] and [Install]. systemd ignores all lines of another section, unless its "
        "name begins with X-.",
    ),
    Tag(
        "unknown-key", "warning",
        "Neither systemd 252 nor systemd 257 has this key, so the line has no effect. Often it is misspelt.",
    ),
    Tag(
        "misplaced-key", "warning",
        "systemd reads this key in another section, and ignores it here. So a sandbox setting in [Unit] has no effect.",
    ),
    Tag("outside-section", "warning", "systemd ignores an assignment before the first section."),
    Tag(
        "byte-order-mark", "warning",
        "The file begins with a byte order mark. systemd skips it, but other readers take it as part of the first line.",
    ),
    Tag("not-an-assignment", "warning", "A line is neither a section, nor an assignment, nor a comment. systemd ignores it."),
    Tag(
        "unread-value", "warning",
        "systemd cannot read this value, so it ignores the line. The setting then keeps its default or its earlier value.",
    ),
    Tag(
        "unread-specifier", "warning",
        "A specifier of the value cannot be expanded, so the line is ignored. Write %% for a percent sign.",
    ),
    Tag(
        "unread-name", "warning",
        "The line has an unknown name, such as a misspelt call, group of calls, family or capability. systemd ignores that name.",
    ),
    Tag(
        "undone", "warning",
        "The line denies nothing, because the service can undo it. For example, CAP_SYS_ADMIN with mount(2) undoes ProtectSystem=. "
        "lint ran the program with the named line added: then this line denies something.",
    ),
    Tag(
        "unused-override", "warning",
        "No finding matches this override. The finding was mended, or the override is misspelt. Remove the override.",
    ),
    Tag(
        "idle-line", "info",
        "Without this line the unit denies the same questions. Other lines deny them too, or the setting does nothing here. It may "
        "still be a second line of defence, and two idle lines may deny something together. So remove one line at a time.",
    ),
)  # fmt: skip


def _of_rule(rule: Rule) -> Tag:
    text = f"{rule.text} systemd versions: {rule.versions.text}. docs/PROFILE.md has this difference as {rule.name}."
    return Tag(PARTING + rule.name, "warning", text)


#: All tags by name: those of the table, and one for each parting by which systemd opens what is denied here.
TAGS = {it.name: it for it in (*_TABLE, *(_of_rule(rule) for rule in RULES if rule.direction == Direction.DENIED_HERE))}


def explanation(name: str) -> Optional[str]:
    """Returns the lines of `--explain`; None if there is no such tag."""
    tag = TAGS.get(name)
    return f"{tag.name} ({tag.severity})\n\n{tag.text}\n" if tag else None
