"""Letters that no mail program writes: each is told or passed over, soon, and the others go on."""

import collections
import random
import time
import unittest
import unittest.mock

import pytest

from debvote_tools.cli.console import shown_text
from debvote_tools.inbox import vote
from debvote_tools.inbox.letter import ParsedLetter
from debvote_tools.text.motions import words_of

from tests.python.inbox.test_forgeries import HEADS, OURS, marked_by
from tests.support.letters import (
    BALLOT,
    IN,
    NAMES,
    OTHER_RANKS,
    RANDOM_LETTERS,
    RANKS,
    alternatives,
    calls_while_read,
    letter,
    lines_in,
    outcomes,
    parsed,
    rows,
    varied,
)

MIXED = "multipart/mixed; boundary=b"
FOLDED = "".join(f" {number}\n" for number in range(60_000))


def nested(depth: int, kind: str = "multipart/mixed; boundary=b{}") -> str:
    return "".join(
        f"--b{number}\nContent-Type: {kind.format(number + 1)}\n\n" for number in range(depth)
    )


def timed(*letters: bytes, **known: object) -> tuple[list[str], float]:
    """What becomes of letters, and how long it takes to judge them."""
    began = time.process_time()
    return outcomes(*letters, **known), time.process_time() - began


class Bombs(unittest.TestCase):
    @pytest.mark.whole
    def test_each_ends_soon(self):
        """None of 300 KB takes twice as long as one with as many words, none of any size twenty
        times.
        """
        part, html, in_base64 = (
            f"--b\n\n{BALLOT}\n",
            "text/html",
            "Content-Transfer-Encoding: base64\n",
        )
        numbers = "".join(f"{number}\n" for number in range(60_000))
        punycode = f"--b\nContent-Type: text/plain; charset=punycode\n\n{'a' * 260_000}\n"
        of_html = f"--b\nContent-Type: text/html\n\n{'<p>ada 1,1,1,1</p>' * 14_000}\n"
        deep, blanks = "multipart/mixed; boundary=b0", "multipart/mixed;\n boundary\n =\n b{}"
        others = "multipart/mixed; boundary\x1c=\x0bb{}"
        bombs = [
            *varied(part * 100_000 + "--b--\n", "--b\n" * 100_000, kind=MIXED),
            *varied(f"--b\nContent-Type: {MIXED}\n\n" * 1000, kind=MIXED),
            *varied(punycode * 20 + "--b--\n", of_html * 40 + "--b--\n", kind=MIXED),
            *varied(f"{part}--b\n\n{numbers}--b--\n", kind=MIXED),
            *varied("--b\n" * 100_000, kind='multipart/mixed; boundary=b; x="boundary=c"'),
            *varied(
                "--b\n\nx\n" * 100_000 + "--b--\n", kind="multipart/mixed; boundary*=utf-8''%62"
            ),
            # parts and letters within each other, also in pieces, and boundaries after blanks
            *varied(
                nested(1000),
                nested(1000, "multipart/mixed; boundary*0=b{}"),
                nested(40) + "x\n" * 1_000_000,
                nested(40) + "\r" * 3_000_000,
                kind=deep,
            ),
            *varied("Content-Type: message/rfc822\n\n" * 1000, kind="message/rfc822"),
            *varied(nested(400, blanks) + "x\n" * 200_000, kind=blanks.format(0)),
            *varied(nested(400, others) + "x\n" * 200_000, kind=others.format(0)),
            # heads
            *varied(
                BALLOT,
                head=(
                    "X: y\n" * 1_000_000,
                    f"Subject: x\n{FOLDED[:200_000]}\n",
                    f"Subject: {'=?x?q?' * 40_000}\n",
                ),
            ),
            *varied(BALLOT, sender=", ".join(["ada@club.example"] * 10_000)),
            *varied(BALLOT, sender=tuple(f"{sign * 1_900}ada@club.example" for sign in '("<')),
            *varied(BALLOT, sender="a." * 900 + "ada@club.example"),
            *varied(
                BALLOT,
                kind=(
                    "text/plain; x=" + "y" * 200_000,
                    "text/plain" + "; x=y" * 3_000,
                    "text/plain" + " " * 15_000 + "x",
                    "text/plain" + "; name=x" * 2_000 + "; !",
                    "text/plain" + "; name=x; name*=y; name*0*=z" * 500 + "; =",
                ),
            ),
            *varied(BALLOT, time=";" * 200_000),
            # texts that are coded, that flow, or are none
            *varied(f"A{' ' * 250_000}A", head=in_base64),
            *varied("a \n\n" * 60_000 + BALLOT, kind="text/plain; format=flowed"),
            *varied("\n" * 10_000_000, kind="image/png"),
            *varied(f"<p>{BALLOT}</p>" + "<table><tr><td>x" * 15_000, kind=f"{html}; x=y; z"),
            *varied(
                "<" * 250_000,
                "<!--" * 60_000,
                "<![" * 60_000,
                "<a " * 60_000,
                "<p " + "a" * 200_000,
                "<div>" * 50_000,
                "&" * 250_000,
                "<p style='" + "margin:0 " * 20_000 + "'>",
                "<p" + " a=b" * 50_000 + ">",
                "<p " + "a=' " * 50_000,
                "<blockquote>" * 20_000,
                "&#" + "9" * 250_000,
                "<p dir='&#" + "0" * 250_000 + "'>",
                "<!-- &#" + "9" * 250_000,
                "<b" + " " * 250_000 + "!>",
                "<i a" + " " * 250_000 + "!>",
                "<u a=" + " " * 250_000 + "!>",
                kind=html,
            ),
            # words of a motion, behind ligatures too
            *varied(
                "\n".join("\ufdfa" * 60 + " no" for _ in range(1_300)),
                f"{BALLOT}\n" + "ada no\n" * 9_000,
                words=words_of("en", motion=True),
            ),
            *varied(
                f"{BALLOT}\n" + "x" * 50_000_000,
                f"{BALLOT}\n" * 900_000,
                "> a\n\nb\n\n" * 28_000 + BALLOT,
                # accents on one letter
                f"a{chr(0x301) * 60_000}{chr(0x316) * 60_000}\n{BALLOT}\n",
                # lines that are near to ballots, and names
                "\n".join(f"I vote ada 1,{number % 90},3 or not" for number in range(4_900)),
                "ada " * 60_000 + "1,2",
                "a 1\n" * 80_000,
                "\n".join("\ufdfa" * 240 + " 1,2,4,3" for _ in range(199)),
                "\n".join("\ufdfa " * 50 + " 1,2,4,3" for _ in range(199)),
                # heads of quotations, greetings, farewells
                f"{BALLOT}\n\n" + f"{HEADS[1]}\n" * 3_500,
                f"{BALLOT}\n\n" + f"{HEADS[0]}\n> x\ny\n" * 3_000,
                f"{BALLOT}\n\n" + "From: x\n" * 9_000,
                "Hello\n" * 9_000 + BALLOT,
                f"{BALLOT}\n" + "Thanks, Ada\n" * 9_000,
                f"On {'2026 10:00 ' * 20_000}\n> x\n{BALLOT}",
                ("1," * 240 + "\n") * 500,
            ),
        ]
        words = letter("ada", f"{BALLOT}\n" + "some words that elector has\n" * 9_000)
        usual = min(timed(words)[1] for _ in range(3))
        for data, known in bombs:
            most = usual * (20 if len(data) > 300_000 else 2)
            [becomes], taken = timed(data, **known)
            is_greeting = b"Hello" in data
            self.assertTrue(becomes.startswith("waits: ") or is_greeting, (becomes, data[:400]))
            # a machine may be busy, and is then busy for both
            again = (timed(data, **known)[1] / timed(words)[1] < most / usual for _ in range(5))
            self.assertTrue(taken < most or any(again), data[:400])
        ben, last = letter("ben", f"ben {RANKS}"), [data for data, _ in bombs[-3:]]
        self.assertEqual(lines_in(*last, ben), [f"ben {RANKS}"])
        # many lines in the head are no trouble
        self.assertEqual(outcomes(letter("ada", BALLOT, head="X: y\n" * 40_000)), [IN])

    def test_more_lines_than_debvote_takes_at_once(self):
        """It is asked in parts. Else some hundred letters of a stranger would stop each command
        that judges letters.
        """
        parts = [[b"x" * 31], [b"ada 1,2", b"ben 2,1"], [b"cleo 1", b"dan 1"], [b"y" * 15]]
        parts += [b"y" * 16], [b"z" * 15] * 2
        with unittest.mock.patch.multiple(vote, LINES_LIMIT=2, BALLOTS_LIMIT=32):
            self.assertEqual([*vote.in_parts(sum(parts, []))], parts)


class Costs(unittest.TestCase):
    """What a letter costs, in calls of functions: as many for each line as for each other."""

    several = {
        "labels": tuple("ABCD"),
        "motions": ("A", "B"),
        "words": words_of("en", motion=True),
        "longest_line": 2_000,
    }

    def test_a_quotation_and_several_questions(self):
        quoted, answers = (
            f"\n\n{HEADS[0]}\n{marked_by('> ', OURS)}\n",
            "ada\nA 1,2,3\nB 1,2,3\nC 1,2,3\nD 1,2,3",
        )
        one = calls_while_read(letter("ada", BALLOT))
        for below in (quoted, f"\n\n-----Original Message-----\n{OURS}\n"):
            self.assertLess(calls_while_read(letter("ada", BALLOT + below)), 2 * one)
        four, in_one_line, above = (
            calls_while_read(letter("ada", text), **self.several)
            for text in (answers, answers.replace("\n", " "), answers + quoted)
        )
        self.assertLess(max(four, in_one_line), 3 * one)
        self.assertLess(above, 2 * four)

    def test_twice_as_many_lines_cost_twice_as_much(self):
        for line in rows(
            f"""
some words
{HEADS[0]}⏎> x⏎y
> x
I vote ada 1,2,4 or not
Hello
Thanks, Ada
From: x
ada no
A yes
A 1,2,3
ada A 1,2,3⏎
ada 1,2,4,3⏎

"""
        ):
            for known in ({}, self.several):
                few, many = (
                    calls_while_read(letter("ada", f"{BALLOT}\n\n" + f"{line}\n" * count), **known)
                    for count in (20, 40)
                )
                self.assertLess(many, 2.1 * few, (line, known))


class Random(unittest.TestCase):
    good = [
        letter("ada", f"Hello\n{BALLOT}\n\n{HEADS[0]}\n> ada _,_,_,_\n"),
        letter("ada", f"Hello \n\n{BALLOT}\n-- \nAda\n", kind="text/plain; format=flowed"),
        alternatives("ada", BALLOT, f"<p>{BALLOT}</p>"),
        letter(
            "ada",
            f"<p>{BALLOT}</p><br><blockquote>ada {OTHER_RANKS}</blockquote>",
            kind="text/html",
        ),
    ]

    def changed(self, chance: random.Random, signs: bytes, count: int) -> bytes:
        data = bytearray(chance.choice(self.good))
        for _ in range(chance.randint(1, count)):
            data[chance.randrange(len(data))] = (
                chance.choice(signs) if chance.random() < 0.8 else chance.randrange(128, 256)
            )
        return bytes(data)

    def shown(self, found: ParsedLetter) -> bytes:
        texts = *found.body.lines, found.subject, found.shown_sender, found.sender
        return "\n".join((*texts, *map(shown_text, found.attachments))).encode()

    def test_bytes_of_any_kind(self):
        """What is read of them can be shown and kept."""
        chance = random.Random(1)
        for _ in range(RANDOM_LETTERS // 5):
            self.shown(parsed(self.changed(chance, b'\0\r\n\xff\x80;:="<>-b ', 20)))
        # halves of characters
        for charset, text in (
            ("unicode_escape", "\\ud800"),
            ("raw_unicode_escape", "\\ud800"),
            ("utf-7", "+2AA-"),
        ):
            word = f"=?{charset}?q?{text.replace('+', '=2B')}?="
            how = {"head": f"Subject: {word}\n", "sender": f"{word} <ada@x>"}
            found = parsed(
                letter("ada", f"{text}1\n", kind=f"text/plain; charset={charset}", **how)
            )
            self.assertEqual(found.body.lines[0][-1], "1")
            self.shown(found)

    def test_no_ballot_goes_in_but_one_that_is_there(self):
        chance = random.Random(7)
        letters = [
            self.changed(chance, b'\r\n \t;:="<>/\0\x80', 4) for _ in range(RANDOM_LETTERS // 10)
        ]
        found = collections.Counter(one for data in letters for one in outcomes(data))
        # but one in which a byte of the ranks is another
        self.assertLessEqual({one for one in found if one[:3] == "in:"}, {IN, "in: ada 1,2,-,3"})
        self.assertGreater(found[IN], len(letters) // 20)

    @pytest.mark.whole
    def test_many_at_once(self):
        """Each takes no longer than among few."""
        several = [
            letter(name, f"{name} {RANKS}", number=number) for number in range(50) for name in NAMES
        ]
        of_one = [letter("ada", BALLOT, number=f"x{number}") for number in range(1_500)]
        copies = [
            letter("ada", BALLOT, number="y", head=f"X-Copy: {number}\n")
            for number in range(10_000)
        ]
        becomes, taken = timed(*several, *of_one, *copies)
        found = collections.Counter(becomes)
        self.assertEqual((len(becomes), found["copy"], found[IN]), (11_950, 9_999, 1_551))
        self.assertLess(taken, 3 * 11_950 / 300 * min(timed(*several[:300])[1] for _ in range(3)))
