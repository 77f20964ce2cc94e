"""What a person is shown of a letter that waits: its whole text, and beside it the ballot that may be meant."""

import unittest

from debvote_tools.inbox.letter_text import MOST_LOOSE

from tests.support import elections
from tests.support.election_books import LettersTest
from tests.support.letters import (
    BALLOT,
    HTML,
    IN,
    MARK,
    OTHER,
    RANKS,
    alternatives,
    judged,
    letter,
    mailbox,
    names,
    outcomes,
)
from tests.support.terminal import Terminal

WROTE = "On Mon, Nov 23, 2026 at 10:00 AM Vote wrote:"
COUPLE = {name: ["ada@club.example"] for name in ("ada", "ben")}
CARD = "--b\nContent-Type: text/plain\n\n{}\n--b\nContent-Type: text/vcard; name=ada.vcf\n\nBEGIN:VCARD\n--b--\n"


def proposed(data: bytes, **other: object) -> list[str]:
    [case] = judged(data, **other)
    return [ballot.ballot.line for ballot in case.proposals]


class Loose(unittest.TestCase):
    """A person looks at what waits, so more is read than goes in."""

    def test_ranks_as_people_write_them(self):
        for text in (
            "1 2 4 3",
            "ada 1 2 4 3",
            "Ada: 1;2;4;3",
            "1/2/4/3",
            "1.2.4.3",
            "1-2-4-3",
            "_1, _2, _4, _3",
            "ada 1 , 2 4/3\n\nSee you!",
            f"> x\n\n{RANKS}",
            f"<p>{RANKS.replace(',', ' ')}</p>",
        ):
            kind = {"kind": HTML} if text.startswith("<") else {}
            with self.subTest(text):
                [case] = judged(letter("ada", text, **kind))
                self.assertEqual([one.ballot.line for one in case.to_enter], [BALLOT])
                self.assertEqual((case.ruling.value, case.is_nothing_else), ("waits", False))

    def test_what_is_none(self):
        for text, found in (
            ("1 2 4", []),
            ("on 1.2.43", []),
            ("1 2 4 3 of these", []),
            ("1 2 4 3\n\n2 1 4 3", [BALLOT, OTHER]),
            (f"~~{RANKS}~~", []),
            ("Tel. 1 2 4 3", []),
        ):
            with self.subTest(text):
                [case] = judged(letter("ada", text))
                self.assertEqual([one.ballot.line for one in case.proposals], found)
                self.assertEqual(case.to_enter, ())

    def test_without_a_name_it_is_of_who_sent_it(self):
        for how in ({"sender": "x@x.example"}, {"subject": f"my vote [{MARK}]"}):
            self.assertEqual(proposed(letter("ada", RANKS, **how)), [])
        self.assertEqual(proposed(letter("ada", "ben 1 2 4 3")), [f"ben {RANKS}"])

    def test_more_than_a_thousand_lines_are_not_read_so(self):
        for number, found in ((MOST_LOOSE, [BALLOT]), (MOST_LOOSE + 1, [])):
            text = "\n".join(["1 2 4 3", *["x"] * (number - 1)])
            self.assertEqual(proposed(letter("ada", text)), found)

    def test_words_and_labels_of_several_questions(self):
        several = {"labels": ("A", "B"), "motions": ("A",), "words": {"yes": "1,2"}}
        for text, loose in (
            ("A yes B 1 2 4 3", "A 1,2 B 1,2,4,3"),
            ("ada A: yes B: 1/2/4/3", "ada A 1,2 B: 1,2,4,3"),
            ("B yes", "B yes"),
        ):
            self.assertEqual(names(**several).loose(text), loose)

    def test_a_line_longer_than_ballots_keeps_its_words(self):
        for longest, found in ((len("ada yes"), "ada 1,2"), (len("ada yes") - 1, "ada yes")):
            of_motion = names(words={"yes": "1,2"}, longest_line=longest)
            self.assertEqual(of_motion.with_ranks("ada yes"), found)

    def test_a_couple_by_the_mark_of_one(self):
        both = f"{BALLOT}\nben {RANKS}\n"
        for how, text, number in (
            ({}, both, 2),
            ({"subject": f"x [{MARK}]"}, both, 0),
            ({"sender": "x@x.example"}, both, 0),
            ({}, f"{both}{OTHER}\n", 0),
        ):
            [case] = judged(letter("ada", text, **how), addresses=COUPLE)
            self.assertEqual(len(case.to_enter), number, (how, text))

    def test_what_may_be_quoted_is_marked(self):
        for text, is_marked in (
            (f"Hello\n{BALLOT}\nno more", False),
            (f"> x\n\n{BALLOT}", True),
            (f"Ada <ada@club.example>:\n{BALLOT}", True),
            (f"Bert a écrit\u00a0:\n{BALLOT}", True),
            (f"at 10:00\n{BALLOT}", True),
        ):
            [case] = judged(letter("ada", text))
            self.assertEqual([case.may_be_quoted(one) for one in case.proposals], [is_marked], text)

    def test_which_say_nothing_else(self):
        subject = {"subject": "my vote"}
        for data, is_alone in (
            (letter("ada", BALLOT, sender="x@x.example", subject=f"x [{MARK}]"), True),
            (letter("ada", f"{BALLOT}\nSee you!"), False),
            (letter("ada", BALLOT, **subject), False),
            (letter("ada", BALLOT, kind=HTML), False),
            (alternatives("ada", BALLOT, BALLOT), False),
            (letter("ada", CARD.format(BALLOT), kind="multipart/mixed; boundary=b"), False),
            (letter("ada", f"{BALLOT}\n> x"), False),
        ):
            [case] = judged(data)
            self.assertEqual(case.is_nothing_else, is_alone, data)


class GoesIn(unittest.TestCase):
    """What goes in by itself has become less, but for a blank of French programs."""

    def test_heads_of_quotations(self):
        for head, is_in in (
            ("Le 27/11/2026 à 09:05, vote@club.example a écrit\u00a0:", True),
            ("Le 27/11/2026 à 09:05, Vote a écrit\u202f:", True),
            ("28.11.2026 10:00 - nothing of this is valid, Bert wrote:", False),
            ("28.11.2026 is not valid 10:00 Bert wrote:", False),
            ("On my word 28.11.2026 10:00 Bert wrote:", False),
            ("On 28.11.2026 10:00 I take all of it back now, Bert wrote:", False),
            (f"On 28.11.2026 10:00 Bert wrote:{' ' * 300}not this", False),
        ):
            with self.subTest(head):
                found = outcomes(letter("ada", f"{BALLOT}\n\n{head}\n> x"))
                self.assertEqual(found == [IN], is_in, found)

    def test_what_was_filled_in_below(self):
        filled = f"{BALLOT}\n\n{WROTE}\n>  ada _2,_1,_3,_4"
        self.assertEqual(outcomes(letter("ada", filled)), ["waits: answer below"])

    def test_a_card_beside_it_is_looked_at(self):
        data = letter("ada", CARD.format(BALLOT), kind="multipart/mixed; boundary=b")
        [case] = judged(data)
        self.assertEqual(
            ([one.ballot.line for one in case.to_enter], case.read.attachments),
            ([BALLOT], ("ada.vcf",)),
        )
        self.assertEqual(outcomes(data), ["waits: card"])


class Shown(LettersTest):
    def test_a_letter_whole_but_for_ours(self):
        """Nothing of HTML is hidden; of a letter of Outlook that quotes ours, without marks, ten rows are left."""
        call = next((self.folder / "letters" / "call").rglob("ada.eml"), None)
        if call is None:
            self.told("letters", "call")
            call = next((self.folder / "letters" / "call").rglob("ada.eml"))
        ours = call.read_bytes().decode().split("\n\n", 1)[1]
        outlook = f"From: Vote <vote@club.example>\nSent: Friday, November 20, 2026 10:00 AM\nTo: Ada\nSubject: Vote\n\n{ours}"
        page = "<p>ben 2,1,3,4</p><blockquote>x</blockquote><p style='display:none'>not <s>mine</s></p>"
        self.add(
            letter("ada", f"{BALLOT}\nSee you!\n\n{outlook}"),
            letter("ben", page, kind=HTML, number=2),
            words=("--yes",),
        )
        shown = self.told("held", 1)
        self.assertIn("   1  ada 1,2,4,3\n   2  See you!\n", shown)
        self.assertRegex(shown, r"\n      \(\d\d+ lines of our letter\)\n")
        self.assertLessEqual(shown.count("\n"), 14, shown)
        shown = self.told("held", 2)
        for part in ("ben 2,1,3,4", "> x", "not ~~mine~~", "line "):
            self.assertIn(part, shown)

    def test_each_is_asked_about_but_those_that_say_nothing_else(self):
        plain = [
            letter(name, f"{name} {RANKS}", sender=f"{name}@x.example", subject=f"x [{MARK}]")
            for name in ("ada", "ben")
        ]
        told = self.add(*plain, letter("cleo", "1 2 4 3"), letter("dan", f"dan {RANKS}\nSo be it."))
        self.assertNotIn("--enter", told)
        ended = self.election("held", "3", "4", "--enter", "--yes")
        self.assertEqual((ended.status, ended.faults.count("there is more in it")), (9, 2), ended)
        terminal = Terminal(self, "held", "3", "4", "--enter")
        first = terminal.until("There is more in it than a ballot. Enter 1 ballot? [y/n] ")
        self.assertIn("   1  1 2 4 3\n", first)
        self.assertIn("   2  So be it.\n", terminal.after("n\n", "Enter 1 ballot? [y/n] "))
        terminal.type("y\n")
        self.assertEqual(terminal.end()[1], 9)
        self.assert_lines(f"dan {RANKS}")
        self.told("held", 3, "--as", RANKS.replace(",", " "))
        self.assert_refused(
            ["held", "1", "--enter", "--force", "voted-since"], 9, "--force not-tied"
        )
        self.assertEqual(self.election("held", "1", "--enter", "--force", "because").status, 2)
        self.told("held", 1, "--enter", "--force", "not-tied")
        self.assert_lines(f"dan {RANKS}", f"cleo {RANKS}", f"ada {RANKS}")


class Damaged(LettersTest):
    def test_a_mailbox_with_other_line_ends(self):
        data = mailbox(letter("ada", BALLOT))
        for end in (b"\r", b"\r\r\n"):
            self.write("inbox.mbox", data.replace(b"\n", end))
            self.assert_refused(["add", "inbox.mbox"], 4, "inbox.mbox", "line ends are damaged")


class Secret(LettersTest):
    poll = f"{elections.POLL}secret = true\n"

    def test_ranks_stand_in_a_letter_that_waits_alone(self):
        self.add(letter("ada", f"{BALLOT}\nSee you!"))
        self.assertNotIn(RANKS, self.told("held"))
        self.assertNotIn(RANKS, self.told("held", 1))
        # at a terminal alone
        self.assertIn(RANKS, Terminal(self, "held", "1").end()[0])
        self.told("held", 1, "--as", RANKS)
        self.assertNotIn(RANKS, self.told("held", 1))
