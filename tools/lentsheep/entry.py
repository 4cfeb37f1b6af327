"""The command: does what the words ask for, with the status of the program. `sandbox` starts it."""
from __future__ import annotations

import os
import sys
from . import hints
from .build import NoProgram, command_of, is_built, tell
from .home import COMMAND, NAME, absolute
from .line import Line, read, tool_of, write_out
from .spawn import replace, run
from .texts import HELP_OF_OPTIONS, HELP_OF_ROOT, text_of, version

# What only some words need is read where they need it, so that the others do not wait for it.
TYPE_CHECKING = False
if TYPE_CHECKING:
    from typing import Sequence

    from .program import Program

#: Statuses of a refusal, which is explained.
EXPLAINED = (3, 7, 8)
#: Commands whose questions are put right before they are asked, and which are explained at any status.
_ASKING = ("why", "tighten", "effect")
_DROP_IN_OF_DERIVE = """\
# The calls of these scripts, and no others: what no script shows is refused.
{}
# A refused call fails with EPERM. Without this line it ends the process:
#SystemCallErrorNumber=EPERM
# 32-bit programs make their own calls. With this line they make none:
#SystemCallArchitectures=native
"""


def main(words: Sequence[str]) -> int:
    """Does what the words of the command line ask for, and returns the exit status."""
    # what is closed is written to in vain, as a full disk is, and messages do not go to standard output
    sys.stdout = sys.stdout or open("/dev/full", "w", encoding="utf-8")
    sys.stderr = sys.stderr or open(os.devnull, "w", encoding="utf-8")
    named = os.environ.get("LENTSHEEP_PROGRAM", "")
    if "/" in named:
        os.environ["LENTSHEEP_PROGRAM"] = absolute(named)
    try:
        return _run(list(words))
    except NoProgram as fault:
        if str(fault):
            tell(str(fault))
        return 125
    except OSError as error:
        # a full disk, a closed pipe: as the program does, and what is left in the buffer goes nowhere
        os.dup2(os.open(os.devnull, os.O_WRONLY), sys.stdout.fileno())
        tell(f"a write failed ({error.strerror}), and the text was cut")
        return 5
    except KeyboardInterrupt:
        return 130


def _run(words: list[str]) -> int:
    ended = os.environ.pop("LENTSHEEP_ENDED", "")
    if ended:
        return _explained(words, int(ended))
    tool = tool_of(words)
    if tool:
        return _run_tool(tool, words)
    line = read(words)
    wrong = hints.hint_on_values(line)
    if wrong:
        return _refused(wrong)
    if _wants_text(line):
        return 0
    if line.view == "--compare" and len(line.views) == 1:
        return _in_room(line) if line.is_rooted else _compare(line.words)
    write_out(line)
    wrong = hints.hint(line)
    if wrong:
        return _refused(wrong)
    line.drop_in = absolute(line.drop_in) if line.drop_in else ""
    if line.is_rooted or line.command != "why" and any(map(_is_far_file, line.words[1:])):
        return _in_room(line)
    return _in_folder(line)


def _run_tool(tool: str, words: list[str]) -> int:
    """Runs `lint` or `harden`, which have options of their own; the words still have the name of the tool."""
    if os.environ.get("LENTSHEEP_PROGRAM"):
        command_of(False)
    words.remove(tool)
    if tool == "lint":
        from .lint_cli import main as lint

        return lint(words)
    from .harden_cli import main as harden

    return harden(words)


def _refused(hint: str) -> int:
    tell(f"{hint} ({COMMAND} --help)")
    _print("refused words\n")
    return 2


def _print(text: str) -> None:
    from .terminal import write

    write(text)


def _wants_text(line: Line) -> bool:
    """Prints a text if the words ask for one, and returns whether they do."""
    alone = line.words[0] if len(line.words) == 1 else ""
    if line.wants_help and line.view:
        from .cli import HELP

        _print(HELP)
    elif line.is_rooted and (line.wants_help or alone == "help" and not line.view):
        _print(HELP_OF_ROOT)
    elif line.wants_help or alone == "help" and not line.view:
        _print(text_of("HELP") + HELP_OF_OPTIONS)
    elif alone == "--version" and not line.view:
        _print(version(line.unproved))
    else:
        return False
    return True


def _compare(files: list[str]) -> int:
    from .cli import Wrong, compare_reports

    try:
        return compare_reports(files)
    except Wrong as wrong:
        tell(str(wrong))
        return 2


def _is_far_file(word: str) -> bool:
    """Returns whether a word is a file that is not below the current folder, where the program reads."""
    return (word.startswith(("/", "../")) or "/../" in word) and os.path.isfile(word)


def _in_room(line: Line) -> int:
    """Does what the words ask for in a folder that is made for them."""
    from .room import Failed, Room, Wrong

    try:
        with Room(line):
            wrong = hints.hint(line)
            return _refused(wrong) if wrong else _in_folder(line)
    except Wrong as wrong_words:
        print(wrong_words, file=sys.stderr)
        return 2
    except Failed as fault:
        tell(str(fault))
        return 125


def _in_folder(line: Line) -> int:
    """Does what the words ask for in the current folder."""
    if line.shape[:1] == ["UNIT"] and not os.path.exists("calls.txt"):
        tell(f"there is no calls.txt here; a service of this machine is judged by {COMMAND} --root / {' '.join(line.words)}")
        if not line.unproved and not is_built():
            return 125
    if not line.unproved:
        command_of(False)
    elif line.view or _is_captured(line):
        tell("this build is not proved")
    if line.view:
        return _view(line)
    return _captured(line) if _is_captured(line) else _plain(line)


def _is_captured(line: Line) -> bool:
    """Returns whether the output is taken before it is printed: it is changed, written too, or made of several runs."""
    if line.top or line.drop_in or line.command in _ASKING or line.command == "derive" and len(line.words) > 3:
        return True
    # the line on a terminal that tells how long it takes ends before the first unit is printed
    return line.command == "fleet" and sys.stderr.isatty()


def _view(line: Line) -> int:
    from .cli import Wrong, run_view
    from .program import Program

    try:
        return run_view(line, Program(".", line.unproved))
    except Wrong as wrong:
        tell(str(wrong))
        return 2


def _plain(line: Line) -> int:
    """Runs the program on these words, prints what it prints, and explains a refusal."""
    _tell_cut(line)
    words = [*command_of(line.unproved), *line.words]
    if line.command == "sample" and not os.environ.get("LENTSHEEP_ROOT"):
        replace(words)
    status = run(words)
    _tell_list(line, status)
    return _explained(line.words, status, line.unproved)


def _explained(words: list[str], status: int, unproved: bool = False) -> int:
    """Explains a refusal, after a run of the program that is made once more; its status comes back."""
    if status in EXPLAINED:
        from .ask import asked
        from .program import Program

        asked(Program(".", unproved), words)
    return status


def _tell_cut(line: Line) -> None:
    """Tells of a filter whose last line has no end, which the program does not read."""
    if line.command == "check":
        try:
            with open(line.words[-1], "rb") as file:
                data = file.read()
        except OSError:
            return
        if data and not data.endswith(b"\n"):
            tell(f"{line.words[-1]}: the last line has no line end, and is not read")


def _tell_list(line: Line, status: int) -> None:
    if line.command == "derive" and status == 0:
        tell("the list has the calls of this script; all other calls are refused")


def _captured(line: Line) -> int:
    """Runs the program, takes what it prints, and prints it, or of a fleet so many lines; --drop-in has it written too."""
    from .ask import ask, explain
    from .program import Program

    program = Program(".", line.unproved)
    if line.command in _ASKING:
        found = ask(program, line.words)
        status, text = found.status, found.text
    elif line.command == "derive" and len(line.words) > 3:
        status, text = _derived(program, line.words)
    else:
        status, text = program.text(*line.words, what="scoring the units" if line.command == "fleet" else "")
        _tell_list(line, status)
        explain(program, line.words, status, text)
    _print(_first_lines(text, int(line.top)) if line.top else text)
    return _write_drop_in(line, text) if line.drop_in and status == 0 else status


def _first_lines(text: str, most: int) -> str:
    """Returns so many of the first lines, and the last one."""
    lines = text.splitlines(keepends=True)
    return "".join(lines[:-1][:most] + lines[-1:])


def _write_drop_in(line: Line, text: str) -> int:
    if line.command == "derive":
        made = _DROP_IN_OF_DERIVE.format(text.rstrip("\n"))
    else:
        made = "[Service]\n" + "".join(it.removeprefix("add ") for it in text.splitlines(keepends=True) if it.startswith("add "))
    try:
        with open(line.drop_in, "w", encoding="utf-8", errors="surrogateescape") as file:
            file.write(made)
    except OSError as error:
        tell(f"{line.drop_in}: {error.strerror}")
        return 5
    return 0


def _derived(program: Program, words: list[str]) -> tuple[int, str]:
    """Returns one list of calls for several scripts, each of which the program derives by itself."""
    from .ask import tell as tell_all
    from .hardened import united

    missing = next((name for name in words[2:] if program.read(name) is None), None)
    if missing:
        return 3, f"refused {missing} missing\n"
    scripts = [(program.read(name) or b"").decode("utf-8", "surrogateescape") for name in words[2:]]
    messages: list[str] = []
    calls = united(program, words[1], scripts, messages)
    if calls is None:
        tell_all(messages)
        return 3, ""
    tell_all([*messages, f"the list has the calls of these {len(scripts)} scripts; all other calls are refused"])
    return 0, f"[Service]\nSystemCallFilter=\nSystemCallFilter={' '.join(calls)}\n"
