"""What the tests of commands read from the book of a called election, and how letters come to it.
"""

import contextlib
import email
import functools
import hashlib
import io
import json
import os
import pathlib
import shlex
import shutil
from collections.abc import Sequence
from typing import Any
from unittest import mock

from debvote_tools.book import queries
from debvote_tools.book.book import Book, open_book
from debvote_tools.commands import command_line
from debvote_tools.inbox.letter_lines import to_json

from tests.support import elections
from tests.support.letters import letter, mailbox, read
from tests.support.terminal import Terminal

LAKE = "At the lake, then In the town hall, then Further discussion, then Sell the house and meet there"
HALL = "In the town hall, then At the lake, then Further discussion, then Sell the house and meet there"


def text_in(data: bytes) -> str:
    """The text of a letter to an elector, on one line."""
    return " ".join(email.message_from_bytes(data).get_payload(decode=True).decode().split())


def spread(names: dict[str, Any], kinds: Sequence[Any], count: int):
    """Puts a class for each few elections among these names, so that they run side by side; each
    test plays one of another seed.
    """
    for seed in range(count):
        kind = kinds[seed % len(kinds)]
        name = f"{kind.__name__}{seed // (2 * len(kinds))}"
        played = functools.partialmethod(kind.played, seed)
        setattr(names.setdefault(name, type(name, (kind,), {})), f"test_{seed}", played)


class CalledTest(elections.ElectionTest):
    """A test with a called election."""

    def setUp(self):
        super().setUp()
        # programs at a terminal and acts of the test itself write their notes where the other runs
        # do
        self.enterContext(mock.patch.dict(os.environ, {"XDG_STATE_HOME": str(self.state)}))
        self.first_act = self.last_act() + 1

    @property
    def book(self) -> Book:
        """The book, opened anew."""
        book = open_book(self.folder / "election.db")
        self.addCleanup(book.connection.close)
        return book

    def last_act(self) -> int:
        """The number of the last act: to see that a refused run has done none."""
        return self.book.last_number()

    def acts(self) -> list[tuple[str, dict[str, Any]]]:
        """Name and detail of each act after the call."""
        return [(act.name, act.detail) for act in self.book.acts() if act.number >= self.first_act]

    def last(self, name: str) -> dict[str, Any]:
        """The detail of the last act of this name."""
        return [detail for one, detail in self.acts() if one == name][-1]

    def act(
        self,
        name: str,
        detail: dict[str, Any] | None = None,
        sealed: dict[str, bytes] | None = None,
    ):
        with self.book.act(name, detail or {}) as act:
            for key, data in (sealed or {}).items():
                act.insert("sealed", name=key, data=data)

    def lines(self, is_late: bool = False) -> list[str]:
        """The lines that are counted, or those that came late; none that is struck. The test has
        words of its own for this.
        """
        words = "SELECT line FROM envelope WHERE late = ? AND envelope NOT IN (SELECT envelope FROM struck) ORDER BY envelope"
        return [line.decode("utf-8", "replace") for line, in self.book.rows(words, int(is_late))]

    def assert_lines(self, *lines: str):
        """These lines are counted, and no others."""
        self.assertEqual(self.lines(), [*lines])

    def late_lines(self) -> list[str]:
        return self.lines(is_late=True)

    def envelopes(self) -> list[queries.Envelope]:
        return queries.envelopes(self.book)

    def elector(self, name: str) -> int:
        return next(
            elector.number for elector in queries.electors(self.book) if elector.name == name
        )

    def sources(self) -> list[tuple[str, bytes]]:
        return [(name, data) for _, name, data in queries.sources(self.book)]

    def election(self, *words: object, **how: Any) -> elections.Ended:
        """Runs debvote-election. One text is a command with its arguments, as it is typed in a
        shell.
        """
        typed = shlex.split(str(words[0])) if len(words) == 1 else words
        return super().election(*typed, **how)

    def text(self, name: str) -> str:
        """A file of the folder on one line."""
        return " ".join(self.read(name).decode().split())

    def told(self, *words: object, **how: Any) -> str:
        ended = self.election(*words, **how)
        self.assertEqual((ended.status, ended.faults), (0, ""), ended)
        return ended.output

    def numbers(self) -> dict[str, Any]:
        """What `status` tells a program."""
        return dict(json.loads(self.told("status", "--json")))

    def tells(self, typed: str, *parts: str, **how: Any) -> str:
        """What a command tells, which has these parts."""
        said = self.told(typed, **how)
        for part in parts:
            self.assertIn(part, said)
        return said

    def adds(self, given: bytes | str, *parts: str, words: str = "") -> str:
        """What `add` tells of lines from a pipe, which has these parts."""
        return self.tells(f"add {words}", *parts, given=given)

    def enter_letter(self, act_name: str):
        """An act of this name enters a ballot of cleo, which came in a letter."""
        with self.book.act(act_name) as act:
            source = queries.keep_source(act, "inbox", b"letter")
            [came] = read(letter("cleo", "cleo 1,2,3,4"))
            number = act.insert("letter", source=source, identity="1", known=to_json(came))
            line = queries.NewEnvelope(b"cleo 1,2,3,4", "", source, number)
            queries.add_envelopes(act, [line], [self.elector("cleo")], is_late=False)
            queries.decide(act, number, queries.ENTERED)

    def assert_state(self, state: str):
        """The last act has put that letter into this state."""
        query = "SELECT letter, state FROM letter_state WHERE act = ?"
        self.assertEqual(self.rows(query, self.last_act()), [(1, state)])

    def close_book(self, lines: int = 0):
        """Closes the vote without the command, so at any time."""
        self.act("close", {"lines": lines, "checksum": "", "early": False})

    def cast(self, *lines: str) -> str:
        """What a desk tells of lines that are typed there."""
        return self.told("desk", given="".join(f"{line}\n" for line in lines))

    def assert_refused(
        self, words: Sequence[object], status: int, *parts: str, **how: Any
    ) -> elections.Ended:
        """A command, which may be one text, stops with one fault, which has these parts, and does
        no act.
        """
        before = self.last_act()
        ended = self.election(*([words] if isinstance(words, str) else words), **how)
        self.assert_fault(ended, status, *parts)
        self.assertEqual(self.last_act(), before)
        return ended


class LettersTest(CalledTest):
    """A test of an election that was called on 20 November, before letters came. Now it is the
    25th.
    """

    now = "2026-11-25T09:00:00+00:00"

    def setUp(self):
        super().setUp()
        self.set_clock(self.now)

    def made(self) -> pathlib.Path:
        self.set_clock("2026-11-20T09:00:00+00:00")
        try:
            return super().made()
        finally:
            self.set_clock(self.now)

    def write(self, name: str, content: bytes | str) -> pathlib.Path:
        """Writes a file with letters of this vote into the folder of the election."""
        return super().write(
            name, self.of_this_vote(content.encode() if isinstance(content, str) else content)
        )

    def agrees(self, typed: str, *parts: str, times: int = 1) -> str:
        """What `held` tells at a terminal, where its questions are answered with yes."""
        desk, text = Terminal(self, "held", *shlex.split(typed)), ""
        for _ in range(times):
            text += desk.until("[y/n] ")
            desk.type("y\n")
        rest, status = desk.end()
        self.assertEqual(status, 0, text + rest)
        for part in parts:
            self.assertIn(part, text + rest)
        return text + rest

    def add(
        self,
        *letters: bytes,
        words: str | Sequence[str] = "--yes",
        says: str | Sequence[str] = (),
    ) -> str:
        """What `add` tells of letters that come in a mailbox, which has these parts."""
        self.write("inbox.mbox", mailbox(*letters))
        typed = words if isinstance(words, str) else shlex.join(words)
        parts = [says] if isinstance(says, str) else says
        return self.tells(f"add {typed} inbox.mbox", *parts)

    def box(self, *letters: bytes) -> pathlib.Path:
        """A folder with letters, each in a file."""
        folder = self.scratch / f"letters {len(list(self.scratch.iterdir()))}"
        folder.mkdir()
        for number, data in enumerate(letters):
            (folder / f"{number:03}.eml").write_bytes(self.of_this_vote(data))
        return folder

    def add_lines(self, *lines: str, words: Sequence[str] = ()) -> str:
        """What `add` tells of lines from a pipe."""
        return self.told("add", *words, "-", given="".join(f"{line}\n" for line in lines))

    def add_hello(self, name: str, number: int = 1) -> str:
        """What `add` tells of a letter without a ballot."""
        return self.add(letter(name, "hello", number=number))

    def assert_waiting(self, count: int, *stopping: int):
        """So many letters wait, and these would stop a close, or a count after it."""
        numbers = self.numbers()
        self.assertEqual((numbers["waiting"], numbers["stopping"]), (count, [*stopping]))

    def change_roll(self, *changes: str):
        """Reads a list of members in which some words are others: before, after, before, .."""
        members = elections.members_of(self.names)
        for before, after in zip(changes[::2], changes[1::2], strict=True):
            members = members.replace(before, after)
        self.write("members.csv", members)
        self.told("roll", "--yes")

    @property
    def mark(self) -> str:
        """The mark of the poll, which everybody sees."""
        return hashlib.sha256(self.read("call/poll.toml")).hexdigest()[:16]

    def exported(self) -> tuple[str, str]:
        """What came in time, and what came late, as `export` writes it."""
        out = self.scratch / "out"
        shutil.rmtree(out, ignore_errors=True)
        self.told("export", "--yes", out)
        return (out / "ballots.txt").read_text(), (out / "late.txt").read_text()

    def stands(self, name: str) -> str:
        """The ranks of the ballot that counts; empty if there is none."""
        found = [line for line in self.lines() if line.startswith(f"{name} ")]
        return found[-1].partition(" ")[2] if found else ""

    def in_this_process(self, *words: str, path: str = "") -> str:
        """Runs a command here, where a test puts something between two of its steps; returns its
        output.
        """
        with mock.patch.dict(
            os.environ, {"PATH": f"{path}{elections.environment()['PATH']}"}
        ), contextlib.chdir(self.folder):
            with contextlib.redirect_stdout(io.StringIO()) as said, contextlib.redirect_stderr(
                io.StringIO()
            ):
                command_line.main(elections.ELECTION.parent, list(words))
        return said.getvalue()

    def overtaken(self, module: object, name: str, other: Sequence[object], words: Sequence[str]):
        """Runs a command here; another runs after a step of it, which it may have made untrue."""
        is_first, step = [True], getattr(module, name)

        def before_another(*given: Any, **how: Any) -> object:
            found = step(*given, **how)
            if is_first:
                is_first.clear()
                self.told(*other)
            return found

        with mock.patch.object(module, name, before_another):
            self.in_this_process(*words)
