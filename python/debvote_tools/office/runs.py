"""Commands of `debvote-election` that run as processes for the page.

Each is the program itself, in a process of its own, with the checks, questions and answers that it
has at a terminal: the page shows what it writes, and types what is pressed. No transaction is open
while it asks, so one that nobody answers blocks nothing.
"""

import codecs
import contextlib
import itertools
import os
import pathlib
import re
import shutil
import signal
import subprocess
import sys
import threading
import time
from collections.abc import Mapping, Sequence
from typing import NamedTuple

from debvote_tools.cli.console import ASKED, ASKS, IS_ASKED, written
from debvote_tools.cli.faults import Fault, Status

# where a command runs for a person who sees it; and in UTF-8 whatever the locale is
ENVIRONMENT = {"DEBVOTE_OFFICE": "1", "PYTHONIOENCODING": "utf-8"}

# in seconds: how long a desk may take to begin, and commands to end with the office
START = 10
ENDING = 5
# how much is kept of what a command writes, in characters, and how many commands that have ended
MOST = 200_000
RUNS = 50
# in characters: the longest answer; and in seconds, how long a program of the secretary may run
LONGEST = 100_000
OWN_TIME = 600

QUESTION = re.compile(f"{ASKS}([a-z]+){IS_ASKED}([^{ASKED}]*){ASKED}")
# what a command writes behind a question that takes yes or no, for which the page has buttons
YES_OR_NO = " [y/n] "
NEXT = ("Next: ", "Then: ")
# the answers that are no, by the kind of their question
DECLINED = {"yes": "n", "refused": ""}
# how a command writes what became of a line (docs/FORMATS.md)
REPLY = re.compile(r"(\d+) (\S.*?)  ([^:]+)(?:: .*)?")


class Prompt(NamedTuple):
    """What a command asks: its number, which no other question of this office ever has; and of
    which kind it is (`console.Kind`).
    """

    number: int
    kind: str
    words: str


class Task(NamedTuple):
    """What is run: a command, or a program of the secretary. `asks` and `done` are the pages,
    beside its own, that show what it asks, and what it has done well; that of the overview is
    empty. `needs` says whether what comes after it is only done if it ended well.
    """

    words: Sequence[str]
    asks: str | None = None
    done: str | None = None
    is_own: bool = False
    needs: bool = True
    # what its form had: after a fault it is filled in again
    given: Mapping[str, Sequence[str]] = {}


class Run:
    """The first of some tasks, which runs, or has ended. After its end the next one begins, as a
    run of its own, for which `before` is what was said before it.
    """

    next: "Run | None" = None
    status: int | None = None
    # whether the last answer was no
    is_declined = False
    # what it wrote since the last answer: what was decided is not kept
    said = ""
    prompt: Prompt | None = None
    # the last ballot that was typed, and how many lines were entered
    ballot = ""
    entered = 0

    def __init__(
        self,
        office: "Runs",
        tasks: Sequence[Task],
        before: Sequence[str],
        uploads: Sequence[pathlib.Path],
    ) -> None:
        self.office = office
        self.task, *self.rest = tasks
        self.words = self.task.words
        self.before = before
        self.uploads = uploads
        self.process = office.process_of(self.task)
        self.number = next(office.numbers)
        self.changed = threading.Condition()
        threading.Thread(target=self.read, daemon=True).start()

    # ---- what it writes
    def read(self) -> None:
        decoder = codecs.getincrementaldecoder("utf-8")("replace")
        unread = ""
        # at its end, also if it has not read what was typed
        with contextlib.suppress(OSError), self.process:
            assert self.process.stdout is not None
            while data := os.read(self.process.stdout.fileno(), 65_536):
                unread = self.take(unread + decoder.decode(data))
        self.take_end(unread, self.process.wait())

    def take(self, text: str) -> str:
        """Takes what it wrote, and returns what may be the beginning of a question. Only commands
        ask.
        """
        with self.changed:
            if self.task.is_own:
                self.add(written(text))
                return ""
            if found := QUESTION.search(text):
                self.add(text[: found.start()])
                words = found[2].removesuffix(YES_OR_NO).strip()
                self.prompt = Prompt(next(self.office.questions), found[1], words)
                self.entered += len(replies_in(self.lines))
                text = text[found.end() :]
            whole, asks, rest = text.partition(ASKS)
            self.add(whole)
            self.changed.notify_all()
        return asks + rest

    def add(self, text: str) -> None:
        self.said = (self.said + text)[-MOST:]

    def take_end(self, unread: str, status: int) -> None:
        for folder in self.uploads:
            shutil.rmtree(folder, ignore_errors=True)
        with self.changed:
            self.add(unread)
            self.prompt = None
            if self.rest and (status == 0 or not self.task.needs):
                self.go_on()
            self.status = status
            self.changed.notify_all()

    def go_on(self) -> None:
        """Begins what follows; if that can't be started, its own page says so."""
        try:
            self.next = self.office.start(*self.rest, before=[*self.before, *self.lines])
        except Fault as fault:
            self.add(f"{fault.words}\n")

    @property
    def lines(self) -> list[str]:
        return lines_of(self.said)

    @property
    def is_done(self) -> bool:
        """Whether it has ended well; that of a tie is a status of its own."""
        return self.status == 0 or (self.status == 1 and self.words[0] in ("count", "publish"))

    @property
    def place(self) -> str:
        """The page that shows it at this moment, or what has followed it."""
        if self.next is not None:
            return self.next.place
        if self.task.asks is not None and self.prompt:
            return f"{self.task.asks}?run={self.number}"
        if self.task.done is not None and self.is_done:
            return f"{self.task.done}?done={self.number}"
        return f"run/{self.number}"

    def wait(self, seconds: float) -> None:
        """Waits until it asks something, or has ended."""
        with self.changed:
            self.changed.wait_for(lambda: self.prompt or self.status is not None, seconds)

    # ---- what it is told
    def type(self, text: str, number: int) -> bool:
        """Answers a question of this number once, in one line; whether it was taken. Another
        question than that which somebody saw is never answered.
        """
        with self.changed:
            prompt = self.prompt
            is_one_line = text.isprintable() and len(text) <= LONGEST
            if prompt is None or prompt.number != number or not is_one_line:
                return False
            self.prompt = None
            self.said = ""
            self.is_declined = DECLINED.get(prompt.kind) == text
            if prompt.kind == "ballot":
                self.ballot = text
            assert self.process.stdin is not None
            # it may have ended meanwhile
            with contextlib.suppress(OSError, ValueError):
                self.process.stdin.write(f"{text}\n".encode())
                self.process.stdin.flush()
                return True
            return False

    def interrupt(self) -> None:
        """Ends it as an interrupt at a terminal does, with all that it has started."""
        with self.changed:
            if self.status is None:
                with contextlib.suppress(ProcessLookupError):
                    os.killpg(self.process.pid, signal.SIGINT)


def lines_of(text: str) -> list[str]:
    """The lines of what a command wrote, but for what it says of the next command, for which the
    page has a button; of progress, which it writes over, the last until it ends.
    """
    *ended, last = text.split("\n")
    rows = [*(row for row in ended if "\r" not in row), last.rpartition("\r")[2]]
    return [row for row in rows if row and not row.startswith(NEXT)]


def replies_in(lines: Sequence[str]) -> list[tuple[str, str, str]]:
    """Of the lines of a command those that say what became of a ballot: its number, the reply, and
    whose it is.
    """
    found = (REPLY.fullmatch(line) for line in lines)
    return [(match[1], match[2], match[3]) for match in found if match]


class Runs:
    """The commands that an office has started, in the folder of its election."""

    def __init__(self, programs: pathlib.Path, code: str) -> None:
        self.programs = programs
        # the language in which commands speak
        self.code = code
        self.folder: pathlib.Path | None = None
        self.runs = dict[int, Run]()
        self.desks = dict[int, Run]()
        self.lock = threading.RLock()
        self.numbers = itertools.count(1)
        self.questions = itertools.count(1)

    def start(
        self, *tasks: Task, before: Sequence[str] = (), uploads: Sequence[pathlib.Path] = ()
    ) -> Run:
        """Starts the first of some tasks; the others follow. `uploads` are folders that are removed
        at its end.
        """
        run = Run(self, tasks, before, uploads)
        if run.task.is_own:
            timer = threading.Timer(OWN_TIME, run.interrupt)
            timer.daemon = True
            timer.start()
        with self.lock:
            self.runs[run.number] = run
            for old in [one for one in self.runs.values() if one.status is not None][:-RUNS]:
                del self.runs[old.number]
        return run

    def process_of(self, task: Task) -> subprocess.Popen[bytes]:
        """A process in a session of its own: the interrupt of a terminal reaches it once, by the
        office.
        """
        program = [sys.executable, str(self.programs / "debvote-election")]
        environment = {**os.environ, **ENVIRONMENT, "DEBVOTE_LANGUAGE": self.code}
        try:
            return subprocess.Popen(
                task.words if task.is_own else [*program, *task.words],
                cwd=self.folder or pathlib.Path.home(),
                stdin=subprocess.DEVNULL if task.is_own else subprocess.PIPE,
                stdout=subprocess.PIPE,
                stderr=subprocess.STDOUT,
                env=None if task.is_own else environment,
                start_new_session=True,
            )
        except (OSError, ValueError) as error:
            cure = "install it, or name another one"
            raise Fault(task.words[0], error, cure, Status.NOT_FOUND, None) from None

    def desk(self, number: int, name: str) -> None:
        """Begins a desk, unless its process is there."""
        with self.lock:
            run = self.desks.get(number)
            if run is None or run.status is not None:
                run = self.start(Task(("desk", f"--name={name}")))
                self.desks[number] = run
        run.wait(START)

    def running(self) -> list[Run]:
        with self.lock:
            return [run for run in self.runs.values() if run.status is None]

    def end(self) -> None:
        """Interrupts all, and waits until they have ended."""
        for run in self.running():
            run.interrupt()
        until = time.monotonic() + ENDING
        while self.running() and time.monotonic() < until:
            time.sleep(0.02)
