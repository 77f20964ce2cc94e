"""Parts of the tests: each is a program whose last line is 'N passed, M failed'. They run side by side, and their sum is printed.

A line of a part that begins with 'skipped: ' says why it left something out, and how many tests: 'skipped: WHY (N)'. The sum names
each reason once.
"""

import collections
import dataclasses
import functools
import os
import pathlib
import re
import subprocess
import threading
import time
from collections.abc import Iterable

from tests.support import debian

ROOT = pathlib.Path(__file__).resolve().parent.parent.parent

# as many tests at once as there are processors; modules as Python itself compiles them, since few have a bare `assert`
PROCESSORS = len(os.sched_getaffinity(0))
PYTEST = f"/usr/bin/python3 -m pytest -q --assert=plain -n {PROCESSORS}"
# half as many more, for tests that wait for a browser, a host or a clock a third of their time
PYTEST_WAITING = PYTEST.replace(f"-n {PROCESSORS}", f"-n {PROCESSORS + PROCESSORS // 2}")

COUNT = re.compile(r"(\d+) passed, (\d+) failed")
SKIPPED = re.compile(r"skipped: (.*?)(?: \((\d+)\))?")
# how each part, rt ci and rt try begin the line of a failure
FAILED = re.compile(r"(rt: )?FAILED\b|test \S+ \.\.\. FAILED\b")
WIDTH = 300
# the most memory that a check of a crate takes, in kilobytes
MEMORY = 4_000_000
# what `rt try --test` says
COUNT_OF_TRY = re.compile(r"test result: \w+\. (\d+) passed; (\d+) failed;.*")


def free_memory() -> int:
    """The memory that is free, in kilobytes."""
    found = re.search(r"MemAvailable:\s+(\d+)", pathlib.Path("/proc/meminfo").read_text())
    return int(found[1])


def kit() -> pathlib.Path:
    """The folder of the kit. Ends the program if it is missing."""
    debian.demand_kit()
    return pathlib.Path(
        subprocess.run(["rt", "doc"], capture_output=True, text=True, check=True).stdout.strip()
    ).parent


@functools.cache
def does_kit_keep() -> bool:
    """Whether the kit keeps what it has proved and refused, as 13f does. 13b does not."""
    return "--anew" in (kit() / "bin" / "rt").read_text()


def environment_of_try() -> dict[str, str]:
    """The environment in which tests run `rt try`: without hints on names, and with half of the processor."""
    return {
        **os.environ,
        "PATH": os.pathsep.join(
            [str(ROOT / "tests" / "support" / "without-hint"), os.environ["PATH"]]
        ),
    }


@dataclasses.dataclass(frozen=True)
class Count:
    """How many tests passed and failed, and how many were skipped, by the reason."""

    passed: int
    failed: int
    skipped: collections.Counter[str] = dataclasses.field(default_factory=collections.Counter)

    def __add__(self, other: "Count") -> "Count":
        return Count(
            self.passed + other.passed, self.failed + other.failed, self.skipped + other.skipped
        )

    def __str__(self) -> str:
        """If something was skipped, a line that says why; then 'N passed, M failed'."""
        reasons = ", ".join(f"{why} ({number})" for why, number in self.skipped.most_common())
        left_out = f"{self.skipped.total()} skipped: {reasons}\n" if reasons else ""
        return f"{left_out}{self.passed} passed, {self.failed} failed"


class Part:
    """A running part; its output goes to a file of its own.

    A thread waits for it: a shell that asks for the status of an id, long after that process has
    ended, may get the status of another one.
    """

    def __init__(
        self,
        words: list[str],
        room: pathlib.Path,
        cwd: pathlib.Path = ROOT,
        counted: re.Pattern[str] = COUNT,
        **how: object,
    ):
        self.name = " ".join(words)
        self.counted = counted
        self.told = room / f"{re.sub(r'[^a-z0-9]+', '-', self.name).strip('-')}.told"
        self.status = 0
        # by the clock, and of processor: of the part and of all that it has waited for
        self.seconds = self.of_processor = 0.0
        began = time.monotonic()
        with open(self.told, "wb") as told:
            output = {"stdout": told, "stderr": subprocess.STDOUT, **how}
            self.process = subprocess.Popen(words, cwd=cwd, **output)
        self.waiting = threading.Thread(target=self.wait, args=[began])
        self.waiting.start()

    def wait(self, began: float):
        _, status, usage = os.wait4(self.process.pid, 0)
        self.status = self.process.returncode = os.waitstatus_to_exitcode(status)
        self.seconds = time.monotonic() - began
        self.of_processor = usage.ru_utime + usage.ru_stime

    def text(self) -> str:
        return self.told.read_text(encoding="utf-8", errors="replace")

    def count(self) -> Count:
        """Its counts, once it has ended. If it ended without a count of its failures, that is a failure too."""
        self.waiting.join()
        lines = self.text().splitlines()
        counts = [
            Count(int(found[1]), int(found[2]))
            for line in lines
            if (found := self.counted.fullmatch(line))
        ]
        skipped = [
            Count(0, 0, collections.Counter({found[1]: int(found[2] or 1)}))
            for line in lines
            if (found := SKIPPED.fullmatch(line))
        ]
        whole = sum([*counts, *skipped], Count(0, 0))
        return whole if whole.failed or (counts and self.status == 0) else whole + Count(0, 1)

    def failures(self) -> list[str]:
        """Once it has ended, its lines of failures; of one that failed without any, how it ended."""
        if not self.count().failed:
            return []
        return [line[:WIDTH] for line in self.text().splitlines() if FAILED.match(line)] or [
            f"it ended with status {self.status}"
        ]

    def time(self) -> str:
        return f"{self.seconds:6.0f}{self.of_processor:7.0f}  {self.name}"


def tell(parts: Iterable[Part]) -> Count:
    """Waits for the parts, prints the output and the time of each, and returns their sum."""
    parts, counts = list(parts), []
    for part in parts:
        counts.append(part.count())
        print(
            f"== {part.name}",
            *[line for line in part.text().splitlines() if not SKIPPED.fullmatch(line)],
            # nothing was tried
            *(["skipped"] if counts[-1].skipped and not counts[-1].passed else []),
            sep="\n",
            flush=True,
        )
    print("== seconds, and those of processor")
    print(*(part.time() for part in parts), sep="\n", flush=True)
    return sum(counts, Count(0, 0))


def tell_failures(parts: Iterable[Part]):
    """Prints what failed once more, below all other output: of a long log often the end alone is at hand."""
    for part in parts:
        for line in part.failures():
            print(f"{part.name}: {line}")
