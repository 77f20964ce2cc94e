"""Random damage of a book: whatever changes a ballot, an elector, the state of a letter or the poll is found, and nothing ends in a traceback.

DEBVOTE_DAMAGES=7000 tries more of them.
"""

import contextlib
import functools
import os
import pathlib
import random
import sys
from unittest import mock

import pytest

from debvote_tools.book import queries
from debvote_tools.book.book import open_book
from debvote_tools.cli.faults import Fault

from tests.support import elections
from tests.support.questions import QuestionsTest

DAMAGES = int(os.environ.get("DEBVOTE_DAMAGES", "400"))
# how many classes there are, so that they run side by side; of each so many damages of a class one
# is shown to the commands, too
CLASSES, SHOWN = min(4, 1 + DAMAGES // 100), 10

LINES = 300
RANKS = ["1,2,3,4", "2,1,3,4", "-,-,1,2", "1,1,1,1", "4,3,2,1"]
SECTOR, PAGE = 512, 4096


# ---------------------------------------------------------------- kinds of damage
def one_bit(data: bytearray, chance: random.Random):
    data[chance.randrange(len(data))] ^= 1 << chance.randrange(8)


def one_byte(data: bytearray, chance: random.Random):
    data[chance.randrange(len(data))] = chance.randrange(256)


def some_bytes(data: bytearray, chance: random.Random):
    at, size = chance.randrange(len(data)), chance.randint(2, 16)
    data[at : at + size] = chance.randbytes(len(data[at : at + size]))


def first_bytes(data: bytearray, chance: random.Random):
    """In the heads of file and pages one byte means much."""
    data[chance.randrange(len(data) // PAGE) * PAGE + chance.randrange(100)] = chance.randrange(256)


def block(data: bytearray, chance: random.Random, size: int):
    """A sector or a page has nothing, or noise, or what another one has."""
    at, other = (chance.randrange(len(data) // size) * size for _ in range(2))
    data[at : at + size] = chance.choice(
        [bytes(size), chance.randbytes(size), data[other : other + size]]
    )


def cut_end(data: bytearray, chance: random.Random):
    del data[
        chance.choice([chance.randrange(len(data)), chance.randrange(len(data) // PAGE) * PAGE]) :
    ]


KINDS = [
    one_bit,
    one_bit,
    one_byte,
    some_bytes,
    first_bytes,
    cut_end,
    *(functools.partial(block, size=size) for size in (SECTOR, PAGE)),
]


def content(file: pathlib.Path) -> tuple[object, ...]:
    """What an election is decided by, as a book has it."""
    book = open_book(file)
    with contextlib.closing(book.connection):
        book.demand_whole()
        kept = [
            (letter.number, letter.state, letter.identity) for letter in queries.kept_letters(book)
        ]
        return (
            queries.envelopes(book),
            queries.lines_to_count(book),
            queries.all_electors(book),
            kept,
            queries.sealed(book, "poll"),
        )


class Damaged(elections.ElectionTest):
    def begin(self):
        super().begin()
        chance = random.Random(1)
        lines = [f"{chance.choice(self.names)} {chance.choice(RANKS)}" for _ in range(LINES)]
        self.write("lines", "".join(f"{line}\n" for line in lines))
        self.done("add --yes lines")
        for number, name in enumerate(self.names):
            head = f"From: {name}@club.example\nMessage-ID: <{number}@x>\nSubject: x\n"
            self.write(f"{number}.eml", f"{head}\n{name} 1,2,3,4\n")
        self.done("add", "--yes", *(f"{number}.eml" for number in range(len(self.names))))
        self.done("held 1 --set-aside")
        self.done("strike 7 --because 'it was taken down wrongly'")
        self.done("letters receipts")

    def seeds(self, first: int):
        book = self.folder / "election.db"
        whole, before = book.read_bytes(), content(book)
        for seed in range(first, DAMAGES, CLASSES):
            chance, data = random.Random(seed), bytearray(whole)
            kind = chance.choice(KINDS)
            kind(data, chance)
            book.write_bytes(data)
            try:
                found = content(book)
            except Fault as fault:
                self.assertIn("election.db: ", str(fault.words), (seed, kind))
                found = None
            if found is not None:
                self.assertEqual(found, before, (seed, kind))
            if seed // CLASSES % SHOWN == 0:
                self.show(bytes(data), seed)

    def show(self, data: bytes, seed: int):
        """Each command ends in order, or with lines that say what is the matter."""
        for typed in ("status", "show ada", "held", "log", "count", "add --yes lines"):
            (self.folder / "election.db").write_bytes(data)
            ended = self.election(typed)
            self.assertIn(ended.status, (0, 1, 2, 3, 4, 7, 9, 10), (seed, ended))
            self.assertNotIn("Traceback", ended.faults, (seed, typed))
            for line in ended.faults.splitlines():
                self.assertRegex(line, r"\A(debvote-election|debvote|Note|Next|\s)", (seed, typed))


@pytest.mark.whole
class OfQuestions(QuestionsTest):
    def test_nothing_is_said_above_the_fault(self):
        """A page is damaged that is read while one question is seen alone."""
        self.add_lines(*(f"{name} A 1,2 B 1,2,3" for name in self.names * 9))
        whole = self.read("election.db")
        # what Python would print
        ignored = []
        for page in range(PAGE, len(whole), PAGE):
            data = bytearray(whole)
            data[page] ^= 0x55
            (self.folder / "election.db").write_bytes(data)
            with mock.patch.object(sys, "unraisablehook", ignored.append):
                self.election("status")
        self.assertEqual(ignored, [])


for first in range(CLASSES):
    globals()[f"Damaged{first}"] = type(
        f"Damaged{first}",
        (Damaged,),
        {"test_damage": functools.partialmethod(Damaged.seeds, first)},
    )
del first
