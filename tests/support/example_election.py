"""An election for who tries the office, and for the pictures of it in the guide: nine electors, of whom four vote, and a fifth sends a letter that waits."""

import contextlib
import datetime
import email
import email.policy
import os
import pathlib
import subprocess
import sys
from collections.abc import Iterator

ROOT = pathlib.Path(__file__).resolve().parents[2]
ELECTION = ROOT / "bin" / "debvote-election"
OFFICE = ROOT / "bin" / "debvote-office"

POLL = """title = "Where we meet in spring"
options = ["At the lake", "In the town hall", "Sell the house and meet there"]
ratios = [1, 1, 3]
default = "Further discussion"
quorum = 1
"""
MEMBERS = """who,mail
Ada,ada@club.example
Ben,ben@club.example
Cléo,cleo@club.example
Dan,dan@club.example
Eve,eve@club.example
Fay,fay@club.example
Gus,
Hal,hal@club.example
Ida,ida@club.example
"""
LETTER = """Dear members,

ballots on paper go to Anna Berger, Lake Street 1.
"""
ADDRESSES = ("--to", "vote@club.example", "--at", "https://club.example/vote")
ZONE = ("--zone", "Europe/Berlin")
LENGTH = datetime.timedelta(days=7)

# on paper
TYPED = "cleo 1,2,4,3\ndan 1,2,4,3\ngus 2,1,4,3\n"
# in letters: the first goes in by itself, and a person has to look at the other one
ANSWERS = {
    "ada": "Ada: 2, 1, 4, 3.\n",
    "ben": "ben 2,1,4,3\n\nIf it rains, the lake is the worse place.\n",
}


class Example:
    """An election in a new folder within another one, which its commands hold at a time that is set."""

    def __init__(self, room: pathlib.Path, program: pathlib.Path, time: datetime.datetime):
        self.folder = room / "spring"
        self.clock = room / "clock"
        self.mailbox = room / "inbox.mbox"
        # apart from what this computer remembers of elections that are none to be tried
        self.environment = {
            **os.environ,
            "PATH": os.pathsep.join([str(program.parent), os.environ["PATH"]]),
            "XDG_STATE_HOME": str(room / "state"),
            "PYTHONDONTWRITEBYTECODE": "1",
        }
        self.set_clock(time)

    def set_clock(self, time: datetime.datetime):
        self.time = time
        self.clock.write_text(time.isoformat())

    @property
    def with_clock(self) -> dict[str, str]:
        """The environment of a program to which it is the time that was set."""
        set_by = {"PYTHONPATH": str(ROOT / "tests" / "clock"), "DEBVOTE_CLOCK": str(self.clock)}
        return self.environment | set_by

    def run(self, *words: object, given: str = ""):
        """Runs a command of debvote-election, which succeeds."""
        subprocess.run(
            [sys.executable, ELECTION, *words],
            cwd=self.folder if self.folder.exists() else None,
            env=self.with_clock,
            input=given,
            text=True,
            check=True,
            stdout=subprocess.DEVNULL,
        )

    def draft(self):
        self.run("new", self.folder)
        for name, text in (("poll.toml", POLL), ("members.csv", MEMBERS), ("letter.txt", LETTER)):
            (self.folder / name).write_text(text)
        self.run("roll")

    def call(self):
        until = f"{self.time + LENGTH:%Y-%m-%d} 18:00"
        self.run("call", "--until", until, *ZONE, *ADDRESSES)
        self.run("letters", "call")
        for step in ("upload", "letters", "backup"):
            self.run("status", "--done", step)

    def take_ballots(self):
        """Three ballots that are typed, and two letters."""
        self.run("desk", "--name", "Desk 1", given=TYPED)
        self.mailbox.write_text("".join(map(self.answer_of, ANSWERS)))
        self.run("add", "--yes", self.mailbox)

    def answer_of(self, name: str) -> str:
        """What an elector answers to the letter of the call, whose subject has their own mark."""
        [file] = self.folder.glob(f"letters/call/*/{name}.eml")
        letter = email.message_from_bytes(file.read_bytes(), policy=email.policy.default)
        return f"""From {name}@club.example {self.time:%a %b %d %H:%M:%S %Y}
Received: from mail.example by mx.club.example; {self.time:%a, %d %b %Y %H:%M:%S %z}
From: {name.title()} <{name}@club.example>
Subject: Re: {letter["Subject"]}

{ANSWERS[name]}
"""

    @contextlib.contextmanager
    def office(self) -> Iterator[str]:
        """The address of its office, which runs within this."""
        words = [sys.executable, OFFICE, "--no-browser", self.folder]
        with subprocess.Popen(
            words, env=self.with_clock, stdout=subprocess.PIPE, text=True
        ) as process:
            assert process.stdout
            try:
                yield process.stdout.readline().strip()
            finally:
                process.terminate()
