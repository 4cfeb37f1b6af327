"""What to write in the place of wrong words: `hint(line)` is one message, and empty where the words are right."""
from __future__ import annotations

from .home import COMMAND
from .line import VIEWS_WITH_FILE, Line
from .nearest import distance
from .texts import OPTIONS, shapes

TYPE_CHECKING = False
if TYPE_CHECKING:
    from typing import Iterable


def hint(line: Line) -> str:
    """Returns what to write in the place of these words."""
    if len(line.views) > 1:
        return f"one view at a time, and not {' '.join(line.views)}"
    if line.lacks_name:
        return _on_name(line.lacks_name)
    return _on_command(line) or _on_words(line)


def hint_on_values(line: Line) -> str:
    """Returns what is wrong with --top or --drop-in."""
    has_view = line.view not in ("", "--brief")
    if (line.top or line.lacks_value == "--top") and (line.command != "fleet" or has_view or not is_number(line.top, 1024)):
        return "--top N shows the first lines of fleet as it prints them, and N is a number from 0 to 1024"
    is_written = line.command in ("tighten", "derive") and not line.view
    if not line.top and (line.drop_in or line.lacks_value == "--drop-in") and not (is_written and line.drop_in):
        return "--drop-in FILE writes what tighten or derive finds as a drop-in, to look at before it is used"
    return ""


def is_number(text: str, most: int) -> bool:
    """Returns whether a text is a decimal number of at most four digits from 0 to another."""
    is_decimal = 0 < len(text) < 5 and text.isascii() and text.isdigit() and (text == "0" or text[0] != "0")
    return is_decimal and int(text) <= most


def _on_name(option: str) -> str:
    kind = "a folder" if option in ("--root", "--units") else "a file"
    more = f": {COMMAND} {option} FILE judge UNIT" if option in VIEWS_WITH_FILE else ""
    return f"{option} needs {kind} after it{more}"


def _on_command(line: Line) -> str:
    commands, command = list(shapes()), line.command
    if not command:
        return f"name a command: {', '.join(commands)}"
    if line.shape:
        return ""
    if command == "--version":
        return f"write {COMMAND} --version"
    if command.startswith("-"):
        return _on_option(command)
    return f"there is no command {command}{_meant(command, commands)}; the commands are {', '.join(commands)}"


def _on_option(word: str) -> str:
    option = word.partition("=")[0]
    return f"there is no option {option}{_meant(option, OPTIONS)}"


def _on_words(line: Line) -> str:
    shape, words = line.shape, line.words[1:]
    for word in words:
        if word.startswith("-") and len(word) > 1 and not "0" <= word[1] <= "9":
            return _on_option(word)
    needed = max((at for at, name in enumerate(shape, 1) if not name.startswith("[")), default=0)
    # a question is one word or more, and several scripts give one list
    has_more = any("QUESTION" in name for name in shape) or line.command == "derive"
    if len(words) < needed or len(words) > len(shape) and not has_more:
        is_list = shape == ["UNIT"] and len(words) > 1 and (words[1].endswith(".service") or "a" <= words[1][:1] <= "z")
        return f"write {COMMAND} {line.command} {' '.join(shape)}{', for one unit at a time' if is_list else ''}"
    return "\n".join(filter(None, (_on_word(line, name, word) for name, word in zip(shape, words))))


def _on_word(line: Line, name: str, word: str) -> str:
    if name == "UNIT":
        return _on_unit(line, word)
    if name == "N" and not is_number(word, 999):
        return f"N is a number from 0 to 999, and {word} is none"
    if name == "[THRESHOLD]" and not is_number(word, 100):
        return f"THRESHOLD is a whole number from 0 to 100, and {word} is none"
    return ""


def _on_unit(line: Line, unit: str) -> str:
    if unit.endswith("@.service"):
        stem = unit.removesuffix(".service")
        return f"{unit} is a template: name an instance of it, as {stem}NAME.service"
    if "/" in unit:
        return "" if line.is_rooted else f"a unit by its path is judged with --root: {COMMAND} --root / {line.command} {unit}"
    if unit == ".service":
        return "UNIT is the name of a service, as ssh"
    if unit.endswith(".service"):
        return ""
    if "." in unit[:-1]:
        return f"only services are judged, and {unit} is none"
    return f'UNIT is the name of a service, as ssh, and "{unit}" is none'


def _meant(wrong: str, known: Iterable[str]) -> str:
    """Returns the word that may be meant, as a part of a message: the nearest by at most two letters, which are a third of it at most."""
    best, least = "", 3
    for word in known:
        cost = distance(wrong, word, 3)
        if cost <= 2 and cost * 3 <= len(word) and cost < least:
            best, least = word, cost
    return f"; {best} is meant?" if best else ""
