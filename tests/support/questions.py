"""Elections of several questions, and their lines and sheets taken apart by question."""

import itertools
import pathlib
import re
import sys
import tomllib
from collections.abc import Iterable, Mapping, Sequence

from debvote_tools.election import Election
from debvote_tools.text.language import language_of

from tests.support.election_books import LettersTest
from tests.support.program import PROGRAM, ROOT

REFERENCE = ROOT / "tests" / "reference.py"

# a letter is entered, whoever sent it and whatever came since
FORCED = "--force not-tied --force voted-since"

# answers by label, as `{"A": "1,2"}`
Answers = Mapping[str, str]

FEE = """title = "Raise the fee to 72 Euro"
options = ["Yes, 72 Euro"]
ratios = [1]
default = "No, as it is"
quorum = 1
"""
CHAIR = """title = "The chair of the board"
options = ["Ada Lovelace", "Mary Somerville"]
ratios = [1, 1]
default = "None of these"
quorum = 1
"""
ROOF = """title = "A new roof"
options = ["Slate", "Tiles", "Straw"]
ratios = [1, 1, 2]
default = "As it is"
quorum = 1
"""


class QuestionsTest(LettersTest):
    """A test of an election with three questions, called on 20 November; now it is the 25th."""

    title = "General assembly 2026"
    polls: Mapping[str, str] = {"A": FEE, "B": CHAIR, "C": ROOF}
    new_words: Sequence[str] = ("--questions", "3")

    @property
    def poll(self) -> str:
        """What all polls have."""
        return "".join(self.polls.values())

    def kind(self) -> tuple[object, ...]:
        return (*super().kind(), self.title, *self.polls.items())

    def fill_in(self, folder: pathlib.Path):
        super().fill_in(folder)
        (folder / "poll.toml").unlink()
        (folder / "polls" / "title.txt").write_text(f"{self.title}\n")
        for label, poll in self.polls.items():
            (folder / "polls" / f"{label}.toml").write_text(poll)

    def sheets(self) -> dict[str, str]:
        """What `count` says of each question: how it ends, on a line, and below if it is asked for the sheet."""
        found = self.election("count", "--sheets")
        self.assertIn(found.status, (0, 1), found)
        head, *parts = re.split(r"(?m)^Question ([A-Z])\n", found.output)
        sheets = dict(zip(parts[::2], parts[1::2], strict=True))
        titles = {label: tomllib.loads(poll)["title"] for label, poll in self.polls.items()}
        lines = [
            f"{label} ({titles[label]}): {sheet.splitlines()[-1]}\n"
            for label, sheet in sheets.items()
        ]
        self.assertEqual((head, [*sheets]), ("".join(lines), [*self.polls]), found)
        self.assertEqual(self.election("count").output, head)
        return sheets

    def sheet_of(self, label: str, lines: Iterable[str], *, poll: bytes | None = None) -> str:
        """The sheet of an election of its own with the poll of a question and these lines, by the second program."""
        folder = self.scratch / "single"
        folder.mkdir(exist_ok=True)
        files = {
            "poll": poll or self.read(f"call/{label}/poll.toml"),
            "ballots": "".join(f"{line}\n" for line in lines).encode(),
        }
        for name, data in files.items():
            (folder / name).write_bytes(data)
        words = [REFERENCE, "count", "--poll", folder / "poll", "--ballots", folder / "ballots"]
        return self.run_program(sys.executable, *words).output


def one_line(name: str, answers: Answers) -> str:
    """A ballot as it is entered, exported and shown; the label of one question alone is empty."""
    return " ".join(filter(None, [name, *itertools.chain.from_iterable(sorted(answers.items()))]))


def in_words(folder: pathlib.Path, answers: Answers, code: str = "en") -> str:
    """A ballot in words, as letters have it in a language, on one line."""
    said = Election(folder, PROGRAM.parent).questions.in_words(language_of(code))
    return " ".join(said(one_line("", answers)).split())


def taken_apart(line: str) -> tuple[str, dict[str, str]]:
    """Name and answers of a ballot as it is exported."""
    name, *parts = line.split(" ")
    return name, dict(zip(parts[::2], parts[1::2], strict=True))


def answering(label: str, ballots: Iterable[str]) -> list[str]:
    """The lines that an election of one question alone would have got of these ballots."""
    parted = map(taken_apart, ballots)
    return [f"{name} {answers[label]}" for name, answers in parted if label in answers]
