"""What the tests of elections share: a folder for each test, and the programs, which run as a user runs them."""

import atexit
import contextlib
import hashlib
import os
import pathlib
import re
import shlex
import shutil
import sqlite3
import subprocess
import sys
import tempfile
import unittest
from collections.abc import Sequence
from dataclasses import dataclass
from unittest import mock

from debvote_tools.book.book import open_book
from debvote_tools.book.machine_note import Note
from debvote_tools.poll.sealed import OWN, OWN_LENGTH, OWN_SIGNS

from tests.support import forks
from tests.support.example_election import POLL as POLL
from tests.support.program import PROGRAM, ROOT

ELECTION = ROOT / "bin" / "debvote-election"
PUBLISH = ROOT / "bin" / "debvote-publish"

# a run that has not ended after this time hangs: far more than any takes on a busy machine
SECONDS = 600

# the output of a run if Graphviz is not installed
HAS_PICTURES = shutil.which("dot") is not None
NO_PICTURE = "Note: no picture: Graphviz (its program dot) is not installed\n"

# the mark in the letters that tests write, in place of which they get that of the election
ANY_MARK = "1ac5041b936c7fc1"


def any_own(name: str) -> str:
    """The own mark of an elector in these letters, in place of which they get that of the book."""
    return "".join(
        OWN_SIGNS[byte % len(OWN_SIGNS)]
        for byte in hashlib.sha256(name.encode()).digest()[:OWN_LENGTH]
    )


# nine electors, of whom nobody has voted; the poll is that of the example, of four options
NAMES = ["ada", "ben", "cleo", "dan", "eve", "fay", "gus", "hal", "ida"]


def of_vote(folder: pathlib.Path, letters: bytes) -> bytes:
    """Letters with the mark of the election in a folder, and the own marks of its electors."""
    if ANY_MARK.encode() not in letters:
        return letters
    with contextlib.closing(sqlite3.connect(folder / "election.db")) as book:
        owns = {
            any_own(name).encode(): mark.encode()
            for name, mark in book.execute("SELECT name, mark FROM elector_now WHERE mark <> ''")
        }
    letters = re.sub(
        rf"(?<={ANY_MARK}-){OWN}(?=\])".encode(), lambda own: owns.get(own[0], own[0]), letters
    )
    # the checksum of the poll, or of the list of polls, begins with it
    return letters.replace(
        ANY_MARK.encode(),
        re.findall(rb"\b([0-9a-f]{16})[0-9a-f]{48}\b", (folder / "call" / "call.txt").read_bytes())[
            -1
        ],
    )


def members_of(names: Sequence[str]) -> str:
    """A list of members; each has an address made of their name."""
    return "who,mail\n" + "".join(f"{name.title()},{name}@club.example\n" for name in names)


@dataclass(frozen=True)
class Ended:
    """What a run wrote on standard output and on standard error, and its exit status."""

    output: str
    faults: str
    status: int


def environment() -> dict[str, str]:
    """The environment of a user who has the programs in the PATH."""
    return {
        **os.environ,
        "PATH": os.pathsep.join([str(PROGRAM.parent), os.environ["PATH"]]),
        "PYTHONDONTWRITEBYTECODE": "1",
    }


# new elections, by what they begin with: each is made once in a process
TEMPLATES: dict[object, pathlib.Path] = {}


def nothing_by(words: Sequence[str]) -> str:
    """What a command says it has not done."""
    done = {
        "add": "added",
        "desk": "entered",
        "count": "counted",
        "publish": "published",
        "letters": "written",
    }
    return f"nothing was {done.get(words[0], 'changed')}"


class ElectionTest(unittest.TestCase):
    """A test with its own folder, in which an election is called, with the poll above and no ballots."""

    poll = POLL
    names = NAMES
    # the list of members; if there is none, it is made of the names
    members = ""
    # the arguments of `new`, of `codes`, and of the call; without the latter the election is not called
    new_words: Sequence[str] = ()
    codes_words: Sequence[str] = ()
    call_words: Sequence[str] | None = ("--to", "vote@club.example")
    # whether a user without rights was seen to run the programs
    is_for_everybody = False
    maxDiff = None

    def setUp(self):
        self.scratch = pathlib.Path(tempfile.mkdtemp(prefix="debvote-election-"))
        self.addCleanup(shutil.rmtree, self.scratch, ignore_errors=True)
        self.state = self.scratch / "state"
        self.clock: dict[str, str] = {}
        self.folder = self.scratch / "election"
        self.begin()

    def kind(self) -> tuple[object, ...]:
        """What makes two new elections the same."""
        words = (
            tuple(self.new_words),
            tuple(self.codes_words),
            self.call_words and tuple(self.call_words),
        )
        return (
            type(self).made,
            type(self).fill_in,
            self.poll,
            tuple(self.names),
            self.members,
            *words,
        )

    def begin(self):
        key = self.kind()
        if key not in TEMPLATES:
            TEMPLATES[key] = self.made()
            atexit.register(shutil.rmtree, TEMPLATES[key].parent, ignore_errors=True)
        shutil.copytree(TEMPLATES[key], self.folder)
        # this machine knows the book of the copy
        book = open_book(self.folder / "election.db")
        with contextlib.closing(book.connection), mock.patch.dict(
            os.environ, {"XDG_STATE_HOME": str(self.state)}
        ):
            book.note().put(Note(book.last_act().number, book.last_act().digest, book.act_names))

    def made(self) -> pathlib.Path:
        """A new election, which the tests of this process copy."""
        place = pathlib.Path(tempfile.mkdtemp(prefix="debvote-template-"))
        self.done("new", *self.new_words, str(place / "election"), cwd=place)
        self.fill_in(place / "election")
        self.done("roll", cwd=place / "election")
        if self.call_words is not None:
            if "secret = true" in self.poll:
                self.done("codes", *self.codes_words, cwd=place / "election")
            self.done("call", *self.call_words, cwd=place / "election")
        return place / "election"

    def fill_in(self, folder: pathlib.Path):
        """Writes the poll and the members into the folder of a new election."""
        (folder / "poll.toml").write_text(self.poll)
        (folder / "members.csv").write_text(self.members or members_of(self.names))

    def done(self, *words: object, **how: object) -> Ended:
        """Runs debvote-election, which has to do what it is asked for."""
        ended = self.election(*words, **how)
        self.assertEqual(ended.status, 0, ended)
        return ended

    def run_program(
        self, *words: object, given: bytes | str | None = None, path: object = "", **how: object
    ) -> Ended:
        """Runs a program with these arguments in the folder of the election, with these bytes as its standard input.

        Programs in the folder `path` are found before others. Output about a picture that can't be drawn on this machine is left out.
        """
        data = given.encode() if isinstance(given, str) else given
        where = {"stdin": subprocess.DEVNULL} if data is None else {"input": data}
        env = environment() | self.clock | {"XDG_STATE_HOME": str(self.state)}
        env["PATH"] = f"{path}{os.pathsep}{env['PATH']}" if path else env["PATH"]
        settings = {"cwd": self.folder, "env": env, "timeout": SECONDS, **where, **how}
        ended = forks.run([str(word) for word in words], capture_output=True, **settings)
        faults = ended.stderr.decode("utf-8", "replace")
        faults = faults if HAS_PICTURES else faults.replace(NO_PICTURE, "")
        return Ended(ended.stdout.decode("utf-8", "replace"), faults, ended.returncode)

    def set_clock(self, time: str):
        """From now on the programs find this time, which has its offset."""
        (self.scratch / "clock").write_text(time)
        self.clock = {
            "PYTHONPATH": str(ROOT / "tests" / "clock"),
            "DEBVOTE_CLOCK": str(self.scratch / "clock"),
        }

    def election(self, *words: object, **how: object) -> Ended:
        """Runs debvote-election; its words may be one text, as they are typed."""
        if len(words) == 1:
            words = (*shlex.split(str(words[0])),)
        return self.run_program(sys.executable, ELECTION, *words, **how)

    def desk(self, **how: object) -> subprocess.Popen[str]:
        """A desk on pipes that waits for lines; none is left when the test ends."""
        pipes = {
            "stdin": subprocess.PIPE,
            "stdout": subprocess.PIPE,
            "stderr": subprocess.PIPE,
            "text": True,
        }
        env = environment() | self.clock | {"XDG_STATE_HOME": str(self.state)}
        desk = subprocess.Popen(
            [sys.executable, ELECTION, "desk"], cwd=self.folder, env=env, **(pipes | how)
        )
        for pipe in filter(None, (desk.stdin, desk.stdout, desk.stderr)):
            self.addCleanup(pipe.close)
        self.addCleanup(desk.wait)
        self.addCleanup(desk.kill)
        return desk

    def traced(self, *how: object, words: Sequence[object], given: str | None = None) -> Ended:
        """Runs debvote-election under strace, which does with its system calls what it is told."""
        if shutil.which("strace") is None:
            self.skipTest("strace is not installed")
        return self.election(*words, given=given, tracer=["strace", "-o", "/dev/null", *how])

    def rows(self, query: str, *values: object) -> list[tuple[object, ...]]:
        """What the book answers to a query, without the words of the program."""
        with contextlib.closing(sqlite3.connect(self.folder / "election.db")) as connection:
            return connection.execute(query, values).fetchall()

    def without_rights(self, *words: object, **how: object) -> Ended:
        """Runs debvote-election as a user whom a mode stops: root becomes nobody."""
        nobody = (
            ["setpriv", "--reuid=65534", "--regid=65534", "--clear-groups"]
            if os.geteuid() == 0
            else []
        )
        if nobody and shutil.which("setpriv") is None:
            self.skipTest("setpriv is not installed, and root may read and write everywhere")
        self.scratch.chmod(0o755)
        for command in (
            ([PROGRAM, "--version"], [sys.executable, ELECTION, "--help"])
            if not self.is_for_everybody
            else ()
        ):
            tried = self.run_program(*nobody, *command)
            said = f"{command[0]} can't be run by everybody, and this test runs it as nobody: chmod o+rX what leads there"
            self.assertEqual(tried.status, 0, f"{said}; {tried.faults}")
        type(self).is_for_everybody = True
        return self.run_program(*nobody, sys.executable, ELECTION, *words, **how)

    def say_done(self, *steps: str):
        """As a secretary who sends letters by a mail program; by default that electors are told all."""
        for step in steps or ("receipts", "letters"):
            self.done("status", "--done", step)

    def next_told(self) -> str:
        """What comes next once electors are told all, and all is uploaded."""
        self.say_done()
        return self.done("status", "--done", "upload").output

    def debvote(self, *words: object, **how: object) -> Ended:
        return self.run_program(PROGRAM, *words, **how)

    def write(self, name: str, content: bytes | str) -> pathlib.Path:
        file = self.folder / name
        file.write_bytes(content.encode() if isinstance(content, str) else content)
        return file

    def of_this_vote(self, letter: bytes) -> bytes:
        return of_vote(self.folder, letter)

    def read(self, name: str) -> bytes:
        return (self.folder / name).read_bytes()

    def contents(self) -> dict[str, bytes]:
        """All files of the folder, by name: to see that a refused run has changed nothing."""
        files = (file for file in self.folder.rglob("*") if file.is_file())
        return {str(file.relative_to(self.folder)): file.read_bytes() for file in files}

    def assert_fault(self, ended: Ended, status: int, *parts: str):
        """The run ended with this status and one line on standard error, which has these parts."""
        self.assertEqual(ended.status, status, ended)
        self.assertEqual(len(ended.faults.splitlines()), 1, ended.faults)
        for part in parts:
            self.assertIn(part, ended.faults)

    def refused(self, words: object, *parts: str, status: int = 9):
        """A command, as it is typed, ends with this status and one fault, which has these parts."""
        self.assert_fault(self.election(words), status, *parts)
