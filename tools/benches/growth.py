"""How fast the cost of a run grows with its input: `grown(make, ..)` doubles an input as long as its cost grows faster than it does."""
from __future__ import annotations

import math
import os
import resource
import shutil
import tempfile
from typing import Callable, Mapping, NamedTuple, Sequence

from benches.timing import watched

# What a run may take: seconds of the processor, and bytes of memory.
MOST_SECONDS, MOST_MEMORY = 10, 2 << 30
# The program reads at most so many bytes of a file.
LONGEST = 1 << 20
# More files than any command reads: 1,024 units, and 256 drop-ins of one.
MOST_FILES = 1 << 12
# Growth is seen above these: seconds of user time and MB more than the run with the empty input takes.
LEAST_SECONDS, LEAST_MEMORY = 0.02, 2.0
# An exponent up to this counts as no faster than the input, since times are never exact.
AS_THE_INPUT = 1.15
# So many runs of seen growth say how fast it is, and a run of so many seconds is large enough.
ENOUGH_RUNS, ENOUGH_SECONDS = 3, 2.0
FIRST, LAST = 32, 1 << 20

Files = Mapping[str, str]


class Cost(NamedTuple):
    """What a run took: the bytes that its input has more than the empty one, seconds of user time, MB at most, and its status."""

    size: int
    seconds: float
    memory: float
    status: int


class Growth(NamedTuple):
    """The exponents of time and of memory over size, 0 where neither grows enough to be seen, and the runs, the largest last."""

    time: float
    memory: float
    runs: tuple[Cost, ...]
    count: int

    @property
    def last(self) -> Cost:
        """The largest run."""
        return self.runs[-1]


def limited() -> None:
    """Has this process take no more than a run may; the child of a run calls it."""
    resource.setrlimit(resource.RLIMIT_CPU, (MOST_SECONDS, MOST_SECONDS + 1))
    resource.setrlimit(resource.RLIMIT_AS, (MOST_MEMORY, MOST_MEMORY))
    resource.setrlimit(resource.RLIMIT_CORE, (0, 0))


def write_files(folder: str, files: Files) -> int:
    """Writes files below a folder, and returns how many bytes they have."""
    size = 0
    for path, text in files.items():
        os.makedirs(os.path.dirname(f"{folder}/{path}"), exist_ok=True)
        with open(f"{folder}/{path}", "w", encoding="utf-8") as file:
            size += file.write(text)
    return size


def cost_of(words: Sequence[str], files: Files, less: int = 0) -> Cost:
    """Runs a program in a folder with these files, and returns what that took; `less` bytes of the input do not count."""
    folder = tempfile.mkdtemp(prefix="worst-")
    try:
        size = write_files(folder, files)
        status, seconds, memory = watched(words, folder, limited)
        return Cost(size - less, seconds, memory, status)
    finally:
        shutil.rmtree(folder)


def exponent(points: Sequence[tuple[float, float]], least: float) -> float:
    """Returns the exponent of a cost over a size, by the last three points whose cost is at least so much; 0 with fewer than two."""
    seen = [(math.log(size), math.log(cost)) for size, cost in points if size > 0 and cost >= least][-3:]
    if len(seen) < 2 or seen[0][0] == seen[-1][0]:
        return 0.0
    mean_size, mean_cost = (sum(it[at] for it in seen) / len(seen) for at in (0, 1))
    spread = sum((size - mean_size) ** 2 for size, _ in seen)
    return sum((size - mean_size) * (cost - mean_cost) for size, cost in seen) / spread


def growth_of(runs: Sequence[Cost], count: int) -> Growth:
    """Returns the growth over runs, of which the first has the empty input."""
    base = runs[0]
    time = exponent([(it.size, it.seconds - base.seconds) for it in runs[1:]], LEAST_SECONDS)
    memory = exponent([(it.size, it.memory - base.memory) for it in runs[1:]], LEAST_MEMORY)
    return Growth(time, memory, tuple(runs), count)


def grown(
    words: Sequence[str], make: Callable[[int], Files], is_over: Callable[[], bool] = lambda: False, enough: float = ENOUGH_SECONDS
) -> Growth:
    """Runs a program over inputs of doubled counts of pieces, as long as time or memory grows faster than the input, or cannot be seen.

    `make` gives the files for a count. It ends before an input that the program cannot read, and at one that it refuses or that
    takes more than a run may, and after one that takes `enough` seconds.
    """
    empty = make(0)
    less = sum(map(len, empty.values()))
    runs = [cost_of(words, empty, less)]
    count = FIRST
    while count <= LAST and not is_over():
        files = make(count)
        if max(map(len, files.values())) > LONGEST or len(files) > MOST_FILES:
            break
        cost = cost_of(words, files, less)
        # a refusal is no answer to the whole input; of the launch it is one
        if cost.status in (2, 3, 4) and runs[0].status not in (2, 3, 4):
            break
        runs.append(cost)
        if cost.status < 0 or cost.status == 6:
            break
        found = growth_of(runs, count)
        seen = sum(it.seconds - runs[0].seconds >= LEAST_SECONDS or it.memory - runs[0].memory >= LEAST_MEMORY for it in runs)
        if seen >= ENOUGH_RUNS and (cost.seconds >= enough or max(found.time, found.memory) <= AS_THE_INPUT):
            break
        count *= 2
    return growth_of(runs, count)
