"""No line of what is sent looks like an answer, so an answer that quotes it goes in.

That holds however a mail program breaks a line; what the secretary has written is named, or
refused, if it looks like one.
"""

import dataclasses
import itertools
import textwrap
import unittest
from collections.abc import Iterable

import pytest

from debvote_tools.call.call import call_letter
from debvote_tools.election import Election
from debvote_tools.outbox.words import Composer
from debvote_tools.poll.questions import Questions
from debvote_tools.poll.sealed import SealedPoll
from debvote_tools.text.language import LANGUAGES, language_of

from tests.python.outbox.test_words import texts
from tests.support.call_examples import KINDS, POLL, UNTIL, alone
from tests.support.outgoing import OutTest
from tests.support.program import PROGRAM
from tests.support.questions import FEE, QuestionsTest

# one question, a motion, and several questions, with a ballot of each
MOTION = SealedPoll("Fee", ("Raise it to 72 Euro",), (2,), "No", 2, POLL.roll, motion=True)
PLACES = dataclasses.replace(
    POLL, options=POLL.options[:2], ratios=(1, 3), explanations=("A lake.", "", "")
)
SEVERAL = Questions(
    {"A": MOTION, "B": PLACES, "C": dataclasses.replace(MOTION, title="Plan B", options=("Yes",))},
    "Meeting",
)
VOTES = [(alone(PLACES), "1,2,3"), (alone(MOTION), "1,2"), (SEVERAL, "A 1,2 B 1,1,- C 2,1")]


def like_answers(letters: Iterable[str], questions: Questions, code: str) -> list[str]:
    """The lines that look like answers: as they are, each joined to the next, or quoted in narrow
    columns.
    """
    parted = [text.splitlines() for text in letters]
    lines = {one for its in parted for one in (*its, *map(" ".join, itertools.pairwise(its)))}
    lines |= {
        f"> {part}"
        for columns in (40, 60, 72)
        for line in lines
        for part in textwrap.wrap(line, columns)
    }
    return list(filter(questions.answers(language_of(code)).search, lines))


class Letters(unittest.TestCase):
    def test_each_kind_in_each_language(self):
        # each language has each kind and each vote, and each kind has each vote
        for (number, code), (place, kind) in itertools.product(
            enumerate(LANGUAGES), enumerate(KINDS.values())
        ):
            questions, answers = VOTES[(number + place) % len(VOTES)]
            call = dataclasses.replace(
                kind,
                language=language_of(code),
                questions=questions,
                quorum_votes=dict.fromkeys(questions, 2),
            )
            of_box = dataclasses.replace(call, box_key=b"x", real_names={})
            later = dataclasses.replace(
                call, at=None, until=UNTIL.replace(month=1), letter_text="Dear all,\n"
            )
            letters = {*texts(Composer(call, is_over=True), answers)}
            for one in (call, of_box, later):
                letters |= {*texts(Composer(one, is_over=False), answers)}
                letters |= {call_letter(one, is_extension=is_later) for is_later in (False, True)}
            self.assertGreater(len(letters), 25)
            self.assertEqual(like_answers(letters, questions, code), [], code)

    def test_one_is_seen(self):
        for text, (questions, _) in (
            ("So (1, 2,\n3)", VOTES[0]),
            ("in place of 2;1", VOTES[1]),
            ("Question A: yes", VOTES[2]),
            ("B\n1", VOTES[2]),
        ):
            self.assertNotEqual(like_answers([text], questions, "en"), [], text)


class Several(QuestionsTest):
    polls = {**QuestionsTest.polls, "A": f"{FEE}motion = true\n"}

    def test_letters_of_close_and_result(self):
        """They have numbers and checksums of each question."""
        self.check("en")

    @pytest.mark.whole
    def test_letters_of_close_and_result_in_each_other_language(self):
        self.check(*LANGUAGES)

    def check(self, *codes: str):
        for code in codes:
            self.folder = self.scratch / code
            self.new_words = ("--questions", "3", "--language", code)
            self.begin()
            self.add_lines(
                "ada A 1,2 B 1,2,3 C 1,2,3,4",
                "ben A 1,2 B 2,1,3",
                "cleo A 2,1 C 2,1,3,4",
                "dan A 1",
                "ben C 1,1,3,2",
                words=("--force",),
            )
            self.told("strike 2 --because 'a mistake'")
            self.told("close --early")
            self.told("reopen --because 'one was forgotten'")
            self.told("close --early")
            self.election("publish --yes")
            letters = [self.read(f"letters/{name}.txt").decode() for name in ("closed", "result")]
            questions = Election(self.folder, PROGRAM.parent).questions
            self.assertEqual(like_answers(letters, questions, code), [], code)


class OfSecretary(OutTest):
    """What the secretary writes: `check` names what looks like an answer, and nothing goes on with
    what reads as a ballot.
    """

    call_words = None
    texts = {
        "letter.txt": "Dear all,\n\nwe have rooms 1, 2, 3, 4.\n",
        "texts/1.txt": "See 1;2;-;4\n\nor 2,1\n",
    }
    named = [
        "poll.toml: Pay 1,2,3,4 Euro",
        "texts/1.txt:1: See 1;2;-;4",
        "letter.txt:3: we have rooms 1, 2, 3, 4.",
    ]
    refused = ["ada 1,2,3,4", "Ada: 1, 2, -, 4", "*Maria Braun* 1,2,3,4"]
    poll = OutTest.poll.replace("At the lake", "Pay 1,2,3,4 Euro")
    members = "name,who,mail\nada,,ada@club.example\nben,,\ncleo,Maria Braun,\n"

    def test_it_is_named_or_refused(self):
        for name, text in self.texts.items():
            (self.folder / name).parent.mkdir(exist_ok=True, parents=True)
            self.write(name, text)
        note = "Note: these look like answers, and letters that quote one of them wait:\n"
        checked = "".join([note, *(f"  {one}\n" for one in self.named)])
        self.tells("check", checked)
        for line in self.refused:
            for name, text in self.texts.items():
                self.write(name, f"Dear all,\n{line}\n")
                for command in ("check", "call"):
                    self.assert_refused([command], 2, f"{name}:2: `{line}` reads as a ballot")
                self.write(name, text)
        # what is to be looked at the call says, too, and nothing else that `check` has shown
        said = self.told("call --until '2026-12-04 18:00' --zone UTC")
        self.assertTrue(said.startswith(checked), said)
        self.assertNotIn("Options:", said)
        # an extension has the letter that is there now
        self.write("letter.txt", self.refused[0])
        self.assert_refused("call --until '2026-12-05 18:00'", 2, "letter.txt:1: ")


class OfSecretaryOfSeveral(QuestionsTest, OfSecretary):
    texts = {"letter.txt": "Dear all,\nA: yes\n", "texts/B/1.txt": "See b) 3,\n1,2\n"}
    named = [
        "polls/A.toml: A: 12,50 Euro",
        "texts/B/1.txt:1: See b) 3,",
        "texts/B/1.txt:2: 1,2",
        "letter.txt:2: A: yes",
    ]
    refused = ["ada A 1,2", "Ada: c)1,2,3,4", "ada b: 2,1,3 A 2,1"]
    poll = QuestionsTest.poll
    polls = {
        **QuestionsTest.polls,
        "A": f'{FEE.replace("Raise the fee to 72 Euro", "12,50 Euro", 1)}motion = true\n',
    }
