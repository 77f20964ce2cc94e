"""900 letters as people write them, by somebody who had not seen how letters are read.

Each says in tests/letters/people what it means: 600 answers, and 300 letters that mean something
else than the ballot in them. In place of {quoted}, {quoted>} and {quoted|} stands a letter of ours,
as it is, with marks, and as paragraphs; in place of {subject} its subject.
"""

import collections
import re
import unittest
from collections.abc import Iterator, Mapping, Sequence

import pytest

from debvote_tools.inbox.letter_lines import with_texts
from debvote_tools.inbox.rules import LetterCase, Ruling
from debvote_tools.text import motions
from debvote_tools.text.ballots import ranks_by_label

from tests.python.inbox.test_forgeries import OURS, marked_by
from tests.support.letters import (
    HTML,
    MARK,
    NAMES,
    OWN,
    SAMPLES,
    circumstances,
    judged_alone,
    letter,
    names,
    parsed,
)

REAL = {name: name.title() for name in NAMES}
# how many options each question of the two votes has
OPTIONS = {"one": {"": 4}, "three": {"A": 2, "B": 3, "C": 2}}


def records() -> Iterator[tuple[str, dict[str, str], str]]:
    """The kind of a letter, its head and its text."""
    for file in sorted((SAMPLES / "people").iterdir()):
        for record in re.split(r"(?m)^=== \d+\n", file.read_text("utf-8"))[1:]:
            head, _, text = record.partition("\n\n")
            fields = dict(line.split(": ", 1) for line in head.split("\n"))
            yield file.stem.partition("-")[0], fields, text


def case_of(head: Mapping[str, str], text: str) -> LetterCase:
    name, options = head["elector"], OPTIONS[head["vote"]]
    subject = f"Vote: Where we meet in spring [{MARK}-{OWN[name]}]"
    page = "".join(f"<p>{line}</p>" for line in OURS.splitlines())
    for place, words in (
        ("{subject}", subject),
        ("{quoted>}", marked_by("> ", OURS.rstrip())),
        ("{quoted|}", page),
        ("{quoted}", OURS),
    ):
        text = text.replace(place, words)

    def validity(lines: Sequence[bytes]) -> dict[bytes, str | None]:
        """Valid are ranks of all options, to some of the questions."""
        found = {}
        for line in lines:
            answers = ranks_by_label(line.decode().partition(" ")[2])
            numbers = {label: len(ranks.split(",")) for label, ranks in answers.items()}
            found[line] = None if numbers.items() <= options.items() else "bad"
        return found

    how: dict[str, object] = {}
    if head["vote"] == "three":
        words = motions.words_of(head["language"], motion=True)
        how = {"labels": ("A", "B", "C"), "motions": ("A", "C"), "words": words}
    kind = {"kind": HTML} if head["body"] == "html" else {}
    data = parsed(letter(name, text, subject=f"Re: {subject}", **kind))
    its_names = names(language=head["language"], real_names=REAL, **how)
    addresses = {elector: [f"{elector}@club.example"] for elector in NAMES}
    if head["way"] == "couple":
        # two who share an address
        couple = re.findall(r"(?:^|; )(\w+)", head["means"])
        addresses |= dict.fromkeys(couple, [f"{name}@club.example"])
    [read] = with_texts([data], its_names, validity)
    return judged_alone(read, circumstances(addresses=addresses))


def dense(ballot: str) -> str:
    """A ballot with the ranks that say the same from 0 on."""

    def ranks(found: re.Match[str]) -> str:
        cells = found[0].split(",")
        order = sorted({int(cell) for cell in cells if cell != "-"})
        return ",".join(
            str(order.index(int(cell)) if cell != "-" else len(order)) for cell in cells
        )

    return re.sub(r"[\d-]+(?:,[\d-]+)+", ranks, ballot)


@pytest.mark.whole
class People(unittest.TestCase):
    def test_each_is_read_as_it_is_meant_or_typed(self):
        """None goes in otherwise than it is meant, and of the answers none is proposed so; of the
        others whoever is asked sees the whole letter.
        """
        found = collections.Counter[tuple[str, str]]()
        for kind, head, text in records():
            case = case_of(head, text)
            meant = [] if head["means"] == "none" else head["means"].split("; ")
            is_right = sorted(dense(one.ballot.line) for one in case.to_enter) == sorted(
                map(dense, meant)
            )
            if case.ruling is Ruling.GOES_IN:
                self.assertTrue(is_right, text)
                found[kind, "in"] += 1
            elif not case.to_enter:
                found[kind, "typed"] += 1
            else:
                found[kind, "right" if is_right else "otherwise"] += 1
                self.assertFalse(case.is_nothing_else, text)
        self.assertEqual(found.total(), 900)
        self.assertEqual((found["answers", "otherwise"], found["otherwise", "in"]), (0, 0))
        self.assertGreaterEqual(found["answers", "in"], 55)
        self.assertLessEqual(found["answers", "typed"], 249)
