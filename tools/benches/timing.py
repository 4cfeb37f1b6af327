"""Runs of commands, timed in turns, so that all meet the same load; and the most memory that one holds."""
from __future__ import annotations

import ctypes
import os
import signal
import subprocess
import time
from io import BufferedReader
from typing import Callable, Protocol, Sequence, cast

# ptrace(2): what the requests and the option are, and how a stop at the exit of a process is told.
TRACEME, CONT, SETOPTIONS, TRACE_EXIT, EXIT_STOP = 0, 7, 0x4200, 0x40, signal.SIGTRAP | 6 << 8


class Measured(Protocol):
    """Runs that can be timed in turns."""

    def run(self) -> None:
        """One run more."""

    def measure(self) -> None:
        """How much is printed, and the most memory."""


class Timed:
    """What runs of one command took: milliseconds by the clock and of the processor, and the most memory in MB.

    What it prints goes to /dev/null, or where `is_piped` into a pipe that is read along, which costs a wake-up for many a line.
    """

    def __init__(self, name: str, words: Sequence[str], folder: str, is_piped: bool = False):
        self.name, self.words, self.folder, self.is_piped = name, words, folder, is_piped
        self.clock: list[float] = []
        self.processor: list[float] = []
        self.memory, self.printed, self.status = 0.0, 0, 0

    def run(self) -> None:
        """One run more."""
        before = time.perf_counter()
        output = subprocess.PIPE if self.is_piped else subprocess.DEVNULL
        child = subprocess.Popen(self.words, cwd=self.folder, stdin=subprocess.DEVNULL, stdout=output, stderr=subprocess.DEVNULL)
        if child.stdout:
            read_all(cast(BufferedReader, child.stdout))
        _, status, used = os.wait4(child.pid, 0)
        self.clock.append((time.perf_counter() - before) * 1000)
        self.status = child.returncode = os.waitstatus_to_exitcode(status)
        self.processor.append((used.ru_utime + used.ru_stime) * 1000)

    def measure(self) -> None:
        """Two runs that are not timed, of which how much is printed and the most memory are taken."""
        child = subprocess.Popen(self.words, cwd=self.folder, stdin=subprocess.DEVNULL, stdout=subprocess.PIPE, stderr=subprocess.DEVNULL)
        self.printed = read_all(cast(BufferedReader, child.stdout))
        child.wait()
        self.memory = high_water(self.words, self.folder)


def read_all(pipe: BufferedReader) -> int:
    """Reads a pipe to its end, and answers how many bytes came."""
    count = sum(len(piece) for piece in iter(lambda: pipe.read1(1 << 20), b""))
    pipe.close()
    return count


def high_water(words: Sequence[str], folder: str) -> float:
    """The most memory in MB that the program of a command holds, by its own mark, VmHWM of proc_pid_status(5), as it exits."""
    return watched(words, folder)[2]


def watched(words: Sequence[str], folder: str, first: Callable[[], object] = lambda: None) -> tuple[int, float, float]:
    """Runs a program, and returns its status, its seconds of user time, and the most memory in MB that it holds, by its own mark, VmHWM
    of proc_pid_status(5), as it exits. The child calls `first` before it becomes the program.

    The mark that wait4(2) tells begins with that of the interpreter which starts it. It counts where the program is not traced.
    """
    trace = ctypes.CDLL(None, use_errno=True).ptrace
    trace.argtypes = [ctypes.c_long, ctypes.c_int, ctypes.c_void_p, ctypes.c_void_p]
    nothing = subprocess.DEVNULL

    def begin() -> None:
        first()
        trace(TRACEME, 0, None, None)

    child = subprocess.Popen(words, cwd=folder, stdin=nothing, stdout=nothing, stderr=nothing, preexec_fn=begin)
    most, is_new = 0.0, True
    while True:
        _, status, used = os.wait4(child.pid, 0)
        if not os.WIFSTOPPED(status):
            child.returncode = os.waitstatus_to_exitcode(status)
            return child.returncode, used.ru_utime, most or used.ru_maxrss / 1024
        told = status >> 8
        if told == EXIT_STOP:
            with open(f"/proc/{child.pid}/status", encoding="ascii") as file:
                most = next(int(line.split()[1]) / 1024 for line in file if line.startswith("VmHWM"))
        if is_new:
            trace(SETOPTIONS, child.pid, None, TRACE_EXIT)
        passed = 0 if is_new or told == EXIT_STOP else told & 0xFF
        is_new = False
        trace(CONT, child.pid, None, passed)


def median(numbers: Sequence[float]) -> float:
    """The number in the middle."""
    return sorted(numbers)[len(numbers) // 2]


def in_turns(all_of_them: Sequence[Measured], runs: int) -> None:
    """Runs each so many times, one after the other; and once for its memory."""
    for _ in range(runs):
        for timed in all_of_them:
            timed.run()
    for timed in all_of_them:
        timed.measure()
