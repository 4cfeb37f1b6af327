"""Notes with what stands in their lines: the key, the text, and for a key that systemd does not know the nearest one."""
from __future__ import annotations

from typing import Sequence

from .nearest import nearest
from .record import dataclass
from .service_keys import SERVICE_KEYS
from .unit_text import UnitFile
from .values import Note


@dataclass(frozen=True)
class ToldNote:
    """A note, and the line that it is of; key and text are empty where the file is not there."""

    note: Note
    key: str = ""
    text: str = ""
    #: for an unjudged key that systemd does not know, the nearest that it knows, or nothing where none is near
    nearest: str = ""
    #: whether the key is none of systemd's
    is_unknown: bool = False

    @property
    def place(self) -> str:
        """Where it is."""
        return f"{self.note.file}:{self.note.line}"


def told_notes(notes: Sequence[Note], files: Sequence[UnitFile]) -> list[ToldNote]:
    """The notes with the lines of these files."""
    texts = {file.path: file.text.split("\n") for file in files}
    return [_told(note, texts.get(note.file, [])) for note in notes]


def _told(note: Note, lines: list[str]) -> ToldNote:
    if not 0 < note.line <= len(lines):
        return ToldNote(note)
    text = lines[note.line - 1].strip()
    key, equals, _ = text.partition("=")
    key = key.strip() if equals else ""
    # keys that begin with X- are for others than systemd (systemd.unit(5))
    is_unknown = note.cause == "unjudged" and bool(key) and key not in SERVICE_KEYS and not key.startswith("X-")
    return ToldNote(note, key, text, nearest_key(key) if is_unknown else "", is_unknown)


def nearest_key(key: str) -> str:
    """The key of systemd that is meant; empty where none is near."""
    return nearest(key, SERVICE_KEYS)
