"""Letters with answers to several questions: one that goes in says nothing else, and each answer goes in.

There are random ones, against a model of what may go in, and ones that somebody forged."""

import dataclasses
import os
import random
import re
import time
import unittest
from collections.abc import Iterable, Mapping, Sequence
from typing import NamedTuple

import pytest

from debvote_tools.inbox.letter import ParsedLetter
from debvote_tools.book.queries import TimedBallot
from debvote_tools.inbox.judging import judge_all
from debvote_tools.inbox.letter_lines import ReadLetter, from_json, to_json, with_texts
from debvote_tools.inbox.rules import LetterCase, Ruling
from debvote_tools.inbox.signature import Signature
from debvote_tools.text.motions import Words, words_of

from tests.python.inbox import test_forgeries
from tests.support import letters
from tests.support.letters import (
    BALLOT,
    NAMES,
    OTHER,
    answer,
    at,
    at_time,
    circumstances,
    in_order,
    judged_alone,
    letter,
    names,
    outcome,
    parsed,
)

WORDS = words_of("en", motion=True)

# how many options each question has, with the default option
OPTIONS = {"A": 2, "B": 4, "C": 3}
REAL = {name: name.capitalize() for name in NAMES} | {
    "ada": "Ada Lovelace",
    "ben": "Ben",
    "cleo": "Ben B",
    "dan": "Eve",
    "fay": "Fay Fox",
    "gus": "Fay Fox B",
}
RANK = re.compile("-|[1-9][0-9]?")


def verdict(line: bytes) -> str | None:
    """What debvote says of a ballot of several answers, or of the first that is refused."""
    name, *parts = line.decode("ascii", "replace").split(" ")
    answers = dict(zip(parts[::2], parts[1::2]))
    if (
        len(parts) != 2 * len(answers)
        or not answers
        or list(answers) != sorted(answers)
        or not answers.keys() <= OPTIONS.keys()
    ):
        return "bad shape: it is no ballot"
    if name not in NAMES:
        return f"bad not on roll: {name} is not on the roll"
    for label, ranks in answers.items():
        if not all(map(RANK.fullmatch, given := ranks.split(","))):
            return "bad shape: it is no ballot"
        if len(given) != OPTIONS[label]:
            return f"bad rank count: {len(given)} ranks, the poll has {OPTIONS[label]} options"
    return None


def read(*given: bytes | ParsedLetter, words: Words = {}) -> list[ReadLetter]:
    """Letters as the book gives them back; with words the first question is a motion."""
    known = names(
        labels=tuple(OPTIONS), motions=("A",), words=words, real_names=REAL, longest_line=1_500
    )
    found = with_texts(
        [one if isinstance(one, ParsedLetter) else parsed(one) for one in given],
        known,
        lambda lines: {line: verdict(line) for line in lines},
    )
    assert [from_json(to_json(one)) for one in found] == found
    return found


def judged(
    *given: bytes | ParsedLetter,
    ballots: Mapping[str, Sequence[TimedBallot]] | None = None,
    words: Words = {},
    **other: object,
) -> list[LetterCase]:
    return judge_all(
        [LetterCase(one, circumstances(**other)) for one in read(*given, words=words)],
        in_order(ballots or {}),
    )


def becomes(text: str, how: object = letter, words: Words = {}, name: str = "ada") -> str:
    """What becomes of a letter, and the ballot that `held --enter` takes of one that waits."""
    [case] = judged(how(name, text), words=words)  # type: ignore[operator]
    is_taken = case.ruling is Ruling.WAITS and case.to_enter and case.line
    return f"{outcome(case)} ({case.line.ballot.line})" if is_taken and case.line else outcome(case)


ALL = "in: ada A 1,2 B 2,1,3,-"
HEAD = "On Monday, 23 November 2026 at 10:00, Vote wrote:\n"
OUTLOOK = (
    "From: Vote <vote@club.example>\nSent: Monday, 23 November 2026 10:00\nTo: Ada\nSubject: Vote\n"
)


class Written(unittest.TestCase):
    """A ballot as people write it."""

    def demand(self, wanted: Mapping[str, str], **how: object):
        for text, what in wanted.items():
            with self.subTest(text):
                self.assertEqual(becomes(text, **how), what)  # type: ignore[arg-type]

    def test_goes_in(self):
        """Broken before labels, with empty lines there or none, the name again before a label, labels as people write them and in any order."""
        texts = (
            "ada A 1,2 B 2,1,3,-",
            "ada\nA 1,2\nB 2,1,3,-\n",
            "Ada Lovelace\na: 1, 2\n\nb) 2,1,3,-\n",
            "ada\nB 2,1,3,-\nA 1,2",
            "ada A 1,2\nB 2,1,3,-",
            "ada A 1,2\nada B 2,1,3,-",
            "ada\nA 1,2\nAda\nB 2,1,3,-",
            "Ada Lovelace\nA 1,2\n\u00c1da Lovelace B 2,1,3,-",
            "ada\n\n\nA 1,2\n\n\n\nB 2,1,3,-",
            "ADA: a1,2\nb. 2,1,3,-.",
            "*ada*\n*A* 1,2\n*B 2,1,3,-*",
            "ada:\nA 1,2\nB\u00a02,1,3,\u2013",
            # the name on two lines, and ranks below their label: lines are joined by blanks
            "Ada\nLovelace\nA\n1,2\nB\n2,1,\n3,-",
            "Hello,\n\nada\nA 1,2\nB 2,1,3,-\n\nAda",
            "Hello Ada,\nDear all\nada A 1,2\nB 2,1,3,-\nBest wishes, Ada Lovelace\nSent from my iPhone",
            "Ada Lovelace A 1,2\nb 2, 1, 3, -\n\nBest wishes\nAda Lovelace\n-- \nsent with a telephone",
            f"ada\nA 1,2\nB 2,1,3,-\n\n{HEAD}> Your ballot: ..\n>   A _,_",
            f"ada\nA 1,2\nB 2,1,3,-\n-- \nAda\n{OUTLOOK}\nA _,_",
        )
        self.demand(dict.fromkeys(texts, ALL))

    def test_waits(self):
        """With anything else in it; `--enter` takes its ballot if there is one alone, and no other line that begins as an answer."""
        none, more, taken = "waits: no ballot", "waits: not alone", "waits: not alone (ada A 1,2)"
        self.demand(
            {
                # without a name, a question, all ranks or a label; with a label that there is not, twice, or ranks of points
                "A 1,2\nB 2,1,3,-": none,
                "Hello\nA 1,2\nB 2,1,3,-": none,
                "A 1,2\nand for the board\nB 2,1,3,-": none,
                "ada 1,2": none,
                "ada D 1,2": none,
                "ada A 1,2 B 2,1": none,
                "ada\nA 1,2\nB 2,1": none,
                "ada A 1,2 D 1,2": none,
                "ada AB 1,2": none,
                "ada A 1,2 B": none,
                "ada\nA 1,2 B": none,
                "ada A 1,2 1,2,3": none,
                "ada 1,2 A": none,
                "A ada 1,2": none,
                "B 2,1,3,-\nada\nA 1,2": more,
                "ada A 1,2 A 2,1": none,
                "ada A 1,3": none,
                "ada A 50,40": none,
                # the name is not written as names are
                "ada? A 1,2": none,
                "zoe A 1,2": none,
                f"a{'a' * 100} A 1,2": none,
                # an answer that belongs to no ballot
                "ada A 1,2\nD 1,2": more,
                "ada A 1,2\n\nregards\nada B 2,1": more,
                "ada A 1,2\nand for the board\nB 2,1,3,-": more,
                "ada A 1,2\nA 2,1": more,
                "ada A 1,2\n(B) 2,1,3,-": more,
                "ada A 1,2\nB 2 1 3 4": more,
                "ada A 1,2\nada b 2 1 3 -": taken,
                "ada A 1,2\nI 1,2": more,
                "ada A 1,2\n\n*B*- 1": more,
                "ada A 1,2\n2,1,3,4": more,
                "ada B 1,2,3,4\nada -,-": more,
                "ada B 1,2,3,4\n\nThanks -,-": more,
                "Hello -,-\nada B 1,2,3,4": more,
                "ada A 1,2\n-- \nB 2,1,3,4": more,
                "ada A 1,2\nB: as I said": more,
                "ada A 1,2\nB as I said": more,
                "ada A 1,2\nC: against": more,
                "ada A 1,2\nD: against": taken,
                "ada\nA 2,1,3,-\nB 1,2": none,
                "ada A 1,2\n\nregards\nada B 2,1,3,4": "waits: several",
                "ada\nA 1,2\nhello\nAda\nB 2,1,3,-": "waits: several",
                "ada A 1,2\n\nada A 1,2\nada B 2,1,3,4": "waits: several",
                # other words above, between and below, and of another elector
                "I vote:\nada A 1,2": taken,
                "ada A 1,2\n\u2026 with doubts": taken,
                "Ada\nHello,\nada A 1,2": taken,
                "ada\nHello\nA 1,2": none,
                "ada A 1,2\nBest wishes, Ben": taken,
                "Hello Ben,\nada A 1,2": taken,
                "ada A 1,2\ndan B 2,1,3,-": "waits: several",
                "ada A 1,2\n\nada A 1,2\nI said": taken,
            }
        )

    def test_quotations(self):
        """An answer that somebody filled in there, in any line, is none that is left out; nor is what stands below, or has no head."""
        more, taken, quoted = (
            "waits: not alone",
            "waits: not alone (ada A 1,2)",
            "waits: answer below",
        )
        form = "ada\n  A _,_\n  B _,_,_,_\n  C _,_,_"

        def below(text: str, mark: str = "> ") -> str:
            return "".join(f"{mark}{line}\n" for line in text.split("\n"))

        filled = (
            form.replace("B _,_,_,_", other)
            for other in ("B 2,1,3,-", "B: 2,1,_3,_", "b) 1", "C", "the board 2, 1,3", "B yes")
        )
        self.demand(
            {
                f"ada A 1,2\n\n{HEAD}{below(text)}": quoted
                if re.search(r"[12]|yes", text)
                else "in: ada A 1,2"
                for text in (form, *filled)
            },
            words=WORDS,
        )
        self.demand(
            {
                f"ada A 1,2\n\n{OUTLOOK}{form}": "in: ada A 1,2",
                f"ada A 1,2\n\n{OUTLOOK}{form}\nB 2,1,3,4": quoted,
                "ada A 1,2\n-----Original Message-----\nB: 1": quoted,
                "ada A 1,2\n-- \nB 1 is best": more,
                "ada A 1,2\n-- \nmodel 1,2": more,
                f"ada A 1,2\n{HEAD}{below(form)}Please wait": taken,
                f"ada A 1,2\n{HEAD}{below(form)}B 2,1,3,4": more,
                f"{HEAD}{below(form)}ada A 1,2": taken,
                f"ada A 1,2\n{below(form)}": taken,
                f"Vote:\n{below('ada A 1,2')}": "waits: no ballot",
                f"{HEAD}{below(form.replace('A _,_', 'A 1,2'))}": "waits: no ballot",
                f"ada A 1,2\nVote said:\n{below(form)}": taken,
                "ada A 1,2\n> B 2,1,3,-": more,
                "ada\n> A 1,2": "waits: no ballot",
            },
            how=answer,
        )

    def test_a_label_is_taken_for_no_name_and_a_name_for_no_label(self):
        for name, text, wanted in (
            ("ben", "Ben A 1,2", "in: ben A 1,2"),
            ("cleo", "Ben B B 1,2,3,4", "in: cleo B 1,2,3,4"),
            ("cleo", "Ben B A 1,2", "in: cleo A 1,2"),
            ("cleo", "Ben B 1,2,3,4", "waits: no ballot"),
            ("ben", "Ben B 1,2,3,4", "waits: no ballot"),
            ("ben", "ben b 1,2,3,4", "waits: no ballot"),
            ("ben", "ben B 1,2,3,4", "in: ben B 1,2,3,4"),
            ("ben", "Ben: B 1,2,3,4", "in: ben B 1,2,3,4"),
            ("ben", "Ben\nB 1,2,3,4", "in: ben B 1,2,3,4"),
            ("cleo", "Ben\nB 1,2,3,4", "waits: other sender (ben B 1,2,3,4)"),
            ("cleo", "Ben B\n\nB 1,2,3,4", "in: cleo B 1,2,3,4"),
            ("fay", "Fay Fox A 1,2", "in: fay A 1,2"),
            ("fay", "Fay Fox B 1,2,3,4", "waits: no ballot"),
            ("gus", "Fay Fox B B 1,2,3,4", "in: gus B 1,2,3,4"),
            ("gus", "Fay Fox B\nB 1,2,3,4", "in: gus B 1,2,3,4"),
            # a real name that is the name of another
            ("dan", "Eve A 1,2", "in: dan A 1,2"),
            ("eve", "Eve A 1,2", "in: eve A 1,2"),
            ("dan", "eve A 1,2", "waits: other sender (eve A 1,2)"),
            ("ada", "Eve\nA 1,2\nB 1,2,3,4", "waits: no ballot"),
            ("ada", "ada A 1,2\n\nEve A 2,1", "waits: not alone"),
        ):
            with self.subTest(text, name=name):
                self.assertEqual(becomes(text, name=name), wanted)

    def test_of_couples(self):
        """A letter with ballots of several waits, and shows each; one of an elector who shares the address goes in, and who else does is told."""
        couple = {"addresses": {name: ["us@club.example"] for name in ("ada", "fay", "gus")}}
        subject = f"[{letters.MARK}-{letters.OWN['ada']}]"
        for text, wanted, ballots, shared in (
            (
                "ada A 1,2\n\nFay Fox A 2,1\n\nFay Fox B B 1,2,3,4",
                "waits: several",
                {1: "ada A 1,2", 3: "fay A 2,1", 5: "gus B 1,2,3,4"},
                (),
            ),
            ("ada A 1,2", "in: ada A 1,2", {1: "ada A 1,2"}, ("fay", "gus")),
            ("fay A 1,2", "waits: no own mark", {1: "fay A 1,2"}, ("ada", "gus")),
            ("ada A 1,2\nFay and I", "waits: not alone", {1: "ada A 1,2"}, ("fay", "gus")),
        ):
            how = {"sender": "us@club.example", "subject": subject}
            [case] = judged(letter("ada", text, **how), **couple)
            shown = {line.number: line.ballot.line for line in case.ballots}
            with self.subTest(text):
                self.assertEqual(
                    (outcome(case), shown, case.shared_with), (wanted, ballots, shared)
                )

    def test_other_parts_of_a_letter(self):
        """Beside a plain text its own HTML is not read; HTML alone waits, and `--enter` takes its ballot."""
        plain, html = "ada\nA 1,2\nB 2,1,3,-\n", "<p>ada<br>A 2,1</p><p>B 2,1,3,-</p>"
        self.assertEqual(
            [outcome(one) for one in judged(letters.alternatives("ada", plain, html))], [ALL]
        )
        self.assertEqual(
            becomes(html, lambda name, text: letter(name, text, kind=letters.HTML)),
            "waits: html alone (ada A 2,1 B 2,1,3,-)",
        )


class Signed(unittest.TestCase):
    """Where letters have to be signed, the line with the mark is none of the text."""

    def test_the_line_with_the_mark(self):
        mark, key = f"[{letters.MARK}]", "A" * 40
        signature = Signature(key, at(10))
        for text, wanted in {
            f"{mark}\nada\nA 1,2\nB 2,1,3,-\n": ALL,
            f"ada\nA 1,2\n{mark}\nB 2,1,3,-\n": ALL,
            "ada\nA 1,2\nB 2,1,3,-\n": "waits: no mark",
            f"{mark}\nada A 1,2\nC: against\n": "waits: not alone",
        }.items():
            given = parsed(letter("ada", text, subject=mark))
            signed = dataclasses.replace(given, signature=signature)
            found = judged(signed, keys={"ada": key}) + judged(letter("ada", text))
            with self.subTest(text):
                self.assertEqual(outcome(found[0]), wanted)
                # else it is one
                self.assertEqual(outcome(found[1]), "waits: not alone" if mark in text else ALL)


class InWords(unittest.TestCase):
    """A word behind a label of a motion is no ballot in a letter, and beside one it makes the letter wait."""

    def test_words(self):
        none, more = "waits: no ballot", "waits: not alone"
        for text, wanted in {
            "ada A yes": none,
            "ada\nA: Yes!\nB 1,2,3,4": none,
            "A no\nC 1,2,3": none,
            "ada a) abstain": none,
            "ada a no": none,
            "ada B yes": none,
            "ada B 1,2,3,4\nA yes": more,
            "ada B 1,2,3,4\n\nand I say\nA yes": more,
            "ada B 1,2,3,4\n\nA yes since nobody has said a word against it": more,
            "ada B 1,2,3,4\n-- \nA: Yes": more,
            "ada B 1,2,3,4\n\nI say yes": f"{more} (ada B 1,2,3,4)",
            "ada A 1,2 B 1,2,3,4\n\nbest wishes": "in: ada A 1,2 B 1,2,3,4",
        }.items():
            with self.subTest(text):
                self.assertEqual(becomes(text, words=WORDS), wanted)
        # one without its accent is none, but begins as an answer
        for word in ("s\u00ed", "si", "abstencion, gracias a todos"):
            self.assertEqual(
                becomes(f"ada B 1,2,3,4\nA {word}", words=words_of("es", motion=True)), more, word
            )


class Long(unittest.TestCase):
    @pytest.mark.whole
    def test_each_ends_soon(self):
        """A time that grows with the square of the length would be minutes."""
        accents = f"{chr(0x301) * 60_000}{chr(0x316) * 60_000}"
        texts = (
            f"a{accents}\nada A 1,2",
            f"A y{accents}",
            "A " * 100_000,
            "a 1 " * 60_000,
            "*a " * 60_000,
            "A 1,2\n" * 190 + "ada\n" * 9_000,
            "- " * 100_000,
            f"ada\n\n{accents}\nA 1,2",
            "ada\n" * 9_000 + "A 1,2",
            "ada A 1,2\n" + "Hello\n" * 40_000,
        )
        for text in texts:
            began = time.process_time()
            self.assertRegex(becomes(text, words=WORDS), "^waits: ", text[:20])
            self.assertLess(time.process_time() - began, 2, text[:20])
        self.assertEqual(
            [becomes("ada A 1,2\n" * number) for number in (200, 201)],
            ["waits: not alone (ada A 1,2)", "waits: too long"],
        )


def minute(number: int) -> str:
    """A time on the day of the letters."""
    return f"Mon, 23 Nov 2026 1{number // 60}:{number % 60:02}:00 +0000"


class Later(unittest.TestCase):
    """A ballot is later than others by question."""

    def test_by_question(self):
        """A letter of 10 o'clock beside ballots that were entered, each with its hour and whether it came by letter; and whether its elector has voted since."""
        two = "ada A 1,2 B 1,2,3,4"
        went_in, later = (f"in: {two}", False), ("waits: later ballot", True)
        for text, there, wanted in (
            (two, [(11, "ada C 1,2,3", True)], went_in),
            (two, [(9, "ada A 2,1 B 1,2,3,4", True)], went_in),
            (two, [(11, "ada A 2,1", True)], later),
            (two, [(11, "ada A 1,2", False)], later),
            (
                two,
                [(11, "ada A 2,1", True), (12, "ada B 1,2,3,4", True)],
                ("older: later ballot", True),
            ),
            (two, [(11, "ada A 2,1", True), (12, "ada B 1,2,3,4", False)], later),
            (two, [(10, "ada A 2,1", True)], ("waits: same time", False)),
            (two, [(10, "ada A 1,2 C 1,2,3", True)], went_in),
            (two, [(10, "ada C 1,2,3", True)], went_in),
            # of what waits it is told beside a ballot of the same question, and beside any if it has none
            (f"{two}\nx", [(12, "ada C 1,2,3", True)], ("waits: not alone", False)),
            (f"{two}\nx", [(12, "ada B 1,2,3,4", True)], ("waits: not alone", True)),
            ("when?", [(12, "ada B 1,2,3,4", True)], ("waits: no ballot", True)),
        ):
            with self.subTest(text, there=there):
                ballots = [at_time(at(hour), line, by_letter) for hour, line, by_letter in there]
                [case] = judged(letter("ada", text), ballots={"ada": ballots})
                self.assertEqual((outcome(case), bool(case.voted_since)), wanted)

    def test_several_letters(self):
        """Two of one time that answer one question differently both wait; so does a copy beside another answer that came between the two."""
        for texts, wanted in {
            ("ada A 1,2", "ada B 1,2,3,4"): ["in: ada A 1,2", "in: ada B 1,2,3,4"],
            ("ada A 1,2", "ada A 2,1 B 1,2,3,4"): ["waits: same time"] * 2,
        }.items():
            found = judged(*(letter("ada", text, number=n) for n, text in enumerate(texts)))
            self.assertEqual([*map(outcome, found)], wanted)
        for between, becomes_copy in {
            "ada B 1,2,3,4": "copy",
            "ada A 2,1": "waits: came before",
        }.items():
            copies = [letter("ada", "ada A 1,2", time=minute(number)) for number in (0, 120)]
            found = judged(*copies, letter("ada", between, number=7, time=minute(60)))
            self.assertEqual(outcome(found[-1]), becomes_copy)

    @pytest.mark.whole
    def test_of_many_letters_of_an_elector_each_is_compared_with_few(self):
        """Twice as many take about twice as long, also after one by another clock, which may turn others; and so do many that are alike, and copies."""
        texts = {
            "one": (BALLOT, OTHER),
            "three": ("ada A 1,2", "ada A 2,1 B 1,2,3,4", "ada B 4,3,2,1 C 1,2,3", "ada C 3,2,1"),
        }
        for questions, behind in (("one", -7_200), ("three", 0), ("three", 7_200)):
            calls, its = [], texts[questions]
            for number in (100, 200):
                given = [
                    letter("ada", its[one % len(its)], number=one, time=minute(one))
                    for one in range(number)
                ]
                first, *others = (letters.read if questions == "one" else read)(*given)
                moved = dataclasses.replace(first, behind=behind)
                calls.append(letters.calls_while_judged([moved, *others]))
            with self.subTest(questions, behind=behind):
                self.assertLess(calls[1], 2.4 * calls[0])
        calls = []
        for number in (100, 200):
            alike = [letter("ada", BALLOT, number=one) for one in range(number)]
            copies = [letter("ada", BALLOT, number=0, time=minute(one)) for one in range(number)]
            calls.append(letters.calls_while_judged(letters.read(*alike, *copies)))
        self.assertLess(calls[1], 2.4 * calls[0])


# ---------------------------------------------------------------- random letters, and a model of what may go in, which reads no text
class Piece(NamedTuple):
    """Lines of a letter: what they are, and the answer that they give."""

    kind: str
    text: str
    answer: tuple[str, str] = ("", "")


# g greetings, f farewells, N the elector's name, M that of another, x other words; a signature S, a quotation Q and one of Outlook O that answer
# nothing, ones that do, T, P and R; U a quotation without a head; and empty lines. Answers: A alone, V with the name before it, X in no form of a ballot
PIECES = {
    "g": ("Hello,", "Dear all", "Good morning!", "Hallo zusammen,", "Hi Ada"),
    "f": (
        "Best wishes",
        "Kind regards,\nAda",
        "Thanks!",
        "Viele Gr\u00fc\u00dfe\nAda",
        "Sent from my iPhone",
    ),
    "N": ("ada", "Ada", "ADA", "Ada Lovelace"),
    "M": ("ben", "Eve", "Fay Fox B"),
    "x": """\
see you on the 5th
tel. 030 123456
PS: when does it end?
B. Lovelace
???
*****
A
b
I have 2 of 3
Please do not count this
I, 2 and 3 are ranks
Hello?
-
""".splitlines(),
    "": ("", " ", "\u00a0"),
    "S": (
        "-- \nAda Lovelace",
        "-- \nsee you on the 5th\n\ntel. 030 123456",
        "-- \nSent with a telephone, model 5",
    ),
    "T": (
        "-- \nA 2,1",
        "-- \n\nB: 4, 3, 2, 1",
        "-- \nAda\nmy 3,2,1 for you",
        "-- \nb) 1 is best",
        "-- \nmodel -,1",
        "-- \nA: yes",
    ),
    "Q": (
        f"{HEAD}> Your ballot:\n>   A _,_\n>   B _,_,_,_",
        "Am 23.11.2026 um 10:00 schrieb Vote:\n\n> I thank you",
    ),
    "P": (
        f"{HEAD}> ada\n>   A 1,2\n>   B _,_,_,_",
        "Am 23.11.2026 um 10:00 schrieb Vote:\n> 1,2,3,4",
        f"{HEAD}> C: abstain",
    ),
    "O": ("-----Original Message-----\nHello", f"{OUTLOOK}A _,_"),
    "R": ("-----Original Message-----\nC) 3 2 1", f"{OUTLOOK}ada A 1,2"),
    "U": ("> quoted", ">", "> Your ballot:"),
}
RIGHT = (
    "{A} {r}",
    "{a} {r}",
    "{A}: {r}",
    "{a}) {s}",
    "{A}. {s}",
    "{A}{r}",
    "{a}: {s}",
    "  {A} {r}.",
    "\u00a0{A}\u00a0{r}",
    "{A}\t{r}",
    "*{A}* {r}",
)
WRONG = """\
({A}) {r}
and {A} {r}
{A} = {r}
Question {A}: {r}
{A} {b}
{A}: {r}, please
I vote {r} in {A}
{r}
- {A} {b}
{A} | {r}
{A}: yes
{A} no!
> {A} {r}
{A} {r} {A} {r}
D {r}
ben {A} {r}
{A} {r},1
ada {r}
""".splitlines()
# a name is above the first answer, and may be again above others; one below the last is a farewell. Below "-- " and Outlook all is of no matter
PLAIN = re.compile("g*(?:N+A|N*V)(?:N*[AV])*[fN]*(?:S[gfNMxSU]*)?(?:QU*|O[gfNMxSQUO]*)?")


def may_go_in(pieces: Sequence[Piece]) -> bool:
    answers = [piece.answer for piece in pieces if piece.answer[0]]
    are_whole = all(
        len(given := ranks.split(","))
        == OPTIONS[label]
        >= max(int(rank.strip("-") or 1) for rank in given)
        for label, ranks in answers
    )
    return (
        PLAIN.fullmatch("".join(piece.kind for piece in pieces)) is not None
        and are_whole
        and len(dict(answers)) == len(answers)
    )


def random_letter(rng: random.Random) -> list[Piece]:
    """A letter that goes in, but for some odd pieces."""

    def one_of(kinds: str) -> Piece:
        kind = rng.choice([*kinds] or [""])
        return Piece(kind, rng.choice(PIECES[kind]))

    labels = rng.sample(sorted(OPTIONS), rng.randint(1, 3))
    labels += rng.choices(labels, k=rng.random() < 0.04)
    name, is_apart = rng.choice(PIECES["N"]), rng.random() < 0.5
    pieces = [one_of("g")] * (rng.random() < 0.5) + [Piece("N", name)] * (
        is_apart and rng.random() < 0.97
    )
    for number, label in enumerate(labels):
        is_right, is_named = rng.random() < 0.97, not is_apart and (
            number == 0 or rng.random() < 0.3
        )
        ranks = rng.choices(["-", *map(str, range(1, OPTIONS[label] + 1))], k=OPTIONS[label])
        ranks[-1:] = (
            rng.choice(([], ["5"], ["1", "2"])) if is_right and rng.random() < 0.02 else ranks[-1:]
        )
        text = rng.choice(RIGHT if is_right else WRONG).format(
            A=label, a=label.lower(), r=",".join(ranks), s=", ".join(ranks), b=" ".join(ranks)
        )
        pieces.append(
            Piece(
                "X" if not is_right else "V" if is_named else "A",
                f"{name} {text}" if is_named else text,
                (label, ",".join(ranks)),
            )
        )
        pieces += [one_of("N")] * (rng.random() < 0.1)
    for kinds, often in (("f", 0.4), ("N", 0.3), ("ST", 0.2), ("QO", 0.3)):
        pieces += [one_of(kinds)] * (rng.random() < often)
    for kinds in ["".join(PIECES)] * (rng.random() < 0.4) + [""] * rng.randint(0, 3):
        pieces.insert(rng.randint(0, len(pieces)), one_of(kinds))
    return pieces


class Random(unittest.TestCase):
    COUNT = int(os.environ.get("DEBVOTE_RANDOM_LETTERS", "20000"))

    def tried(self, count: int) -> tuple[int, list[str]]:
        """How many of so many letters go in; and those with other answers than stand in them, or that go in or wait against the model."""
        rng = random.Random(81)
        given = [random_letter(rng) for _ in range(count)]
        texts = ["\n".join(piece.text for piece in pieces) for pieces in given]
        known, went_in, wrong = circumstances(), 0, []
        for pieces, text, one in zip(
            given, texts, read(*(letter("ada", text) for text in texts), words=WORDS)
        ):
            case = judged_alone(one, known)
            name, *parts = (
                case.ballots[0].ballot.line.split(" ") if case.ruling is Ruling.GOES_IN else [""]
            )
            stands = (
                {piece.answer for piece in pieces if piece.answer[0]}
                if may_go_in(pieces)
                else set()
            )
            went_in += name != ""
            if (name, {*zip(parts[::2], parts[1::2])}) != ("ada" if stands else "", stands):
                wrong.append(f"{outcome(case)}:\n{text}")
        return went_in, wrong

    def test_what_goes_in_is_all_that_the_letter_says(self):
        went_in, wrong = self.tried(self.COUNT)
        self.assertEqual(wrong, [])
        self.assertTrue(self.COUNT / 3 < went_in < self.COUNT * 2 / 3, went_in)


# ---------------------------------------------------------------- forged ones
def in_lines(text: str) -> str:
    """A letter in which the one ballot of another vote is one of several answers, broken over lines."""
    broken = re.sub(r"(?m)^(.*)\bada 2,1,4,3", r"\1ada A 2,1\n\1B 2,1,4,3", text)
    return re.sub(r"(?m)^(.*)\bada 1,2,4,3", r"\1ada A 1,2\n\1B 1,2,4,3", broken)


class Forged(unittest.TestCase):
    """None goes in that would not with one question."""

    def demand(self, texts: Iterable[str], own: str) -> int:
        texts = list(texts)
        one = test_forgeries.outcomes_of([test_forgeries.sent(text, own) for text in texts])
        known = circumstances()
        found = [
            outcome(judged_alone(read_one, known))
            for read_one in read(*(test_forgeries.sent(in_lines(text), own) for text in texts))
        ]
        went_in = [
            (text, single) for text, single, its in zip(texts, one, found) if its.startswith("in: ")
        ]
        self.assertEqual([text for text, single in went_in if not single.startswith("in: ")], [])
        return len(went_in)

    def test_answers_to_forgeries(self):
        every, some = list(test_forgeries.answers_to_forgeries()), min(3_984, Random.COUNT)
        texts = random.Random(1).sample(every, some)
        went_in = [self.demand(texts, "own"), self.demand(texts[: some // 6], "none")]
        self.assertEqual(went_in, [0, 0])

    def test_the_last_answer_elsewhere(self):
        """Next to a quotation, or below the end of the text."""
        for rest in (
            "B 1,2,3,4\n> x",
            "\nB 1,2,3,4\n> x",
            "> x\nB 1,2,3,4",
            "-- \nB 1,2,3,4",
            "--\nB 1,2,3,4",
            "\n-- \n\nB 1,2,3,4",
            f"{HEAD}> x\nB 1,2,3,4",
            f"{HEAD}> x\n-- \nB 1,2,3,4",
            f"{OUTLOOK}B 1,2,3,4",
        ):
            reason = "answer below" if rest.startswith(OUTLOOK) else "not alone"
            self.assertTrue(becomes(f"ada A 1,2\n{rest}").startswith(f"waits: {reason}"), rest)
