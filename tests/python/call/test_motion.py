"""The poll of a motion: what `check` refuses, how it is sealed, and what its letters say."""

import html

from debvote_tools.text.motions import WORDS

from tests.support.election_books import CalledTest
from tests.support.elections import members_of

MOTION = """title = "The fee"
options = ["Raise the fee to 72 Euro"]
ratios = [1]
default = "No, as it is"
quorum = 0
"""


class MotionTest(CalledTest):
    poll = MOTION + "motion = true\n"
    names = ("ada", "ben")
    call_words = None

    def new_poll(self, *changes: tuple[str, str]):
        text = self.poll
        for before, after in changes:
            self.assertIn(before, text)
            text = text.replace(before, after)
        self.write("poll.toml", text)


class Checked(MotionTest):
    members = members_of(("ada", "ben")) + "Kim No,k@club.example\nEve Ja,e@club.example\n"

    def test_what_is_shown(self):
        self.tells(
            "check",
            "\nA motion, yes: Raise the fee to 72 Euro, no: No, as it is\n",
            "\nNote: these real names end in a word of the motion, and a name is no ballot: Kim No\n",
        )
        self.new_poll(("motion = true", "motion = false"))
        said = self.told("check")
        self.assertNotRegex(said, "motion|Kim")

    def test_what_is_refused(self):
        no = "the option of a motion begins with a word for no or abstention"
        options = '["Raise the fee to 72 Euro"]\nratios = [1]', '["A", "B"]\nratios = [1, 1]'
        for before, after, fault in (
            (*options, "a motion has one option beside the default"),
            ("Raise", "NO: raise", no),
            ("Raise", "Abstain", no),
            ("No, as", "Yes! as", "the default option of a motion begins with a word for yes"),
            ("motion = true", "motion = 1", "`motion` is neither true nor false"),
            # words of a language that is neither that of the election nor English, and other words
            # that begin so
            ("Raise", "Nein, raise", ""),
            ("Raise", "Noise", ""),
            ("No, as", "Oui, as", ""),
            ("No, as", "Yesterday", ""),
        ):
            self.new_poll((before, after))
            if fault:
                self.refused("check", fault, "poll.toml", status=3)
            else:
                self.told("check")
        self.new_poll()
        self.write("members.csv", "who,name,mail\nAda,ada,\nX,no,\nY,yes,\n")
        self.told("roll")
        self.refused("check", "a name on the roll is a word of the motion: no, yes", status=3)
        self.new_poll(("motion = true\n", ""))
        self.told("check")


class Sealed(MotionTest):
    def test_beside_the_poll(self):
        """The poll has the bytes that it has without, so debvote reads it as ever; and a call that
        was taken back says nothing of the next.
        """
        self.told("call --to vote@club.example")
        poll = self.read("call/poll.toml")
        self.assertNotIn(b"motion", poll)
        self.assertEqual(self.debvote("explain", "--poll", "call/poll.toml").status, 0)
        self.assertEqual(
            self.rows("SELECT name, data FROM sealed WHERE name = 'motion'"), [("motion", b"")]
        )
        self.told("call --take-back")
        self.new_poll(("motion = true\n", ""))
        self.told("call --to vote@club.example")
        self.assertEqual(self.read("call/poll.toml"), poll)
        self.told("add --force -", given="ada yes\n")
        self.tells("status", "\n    bad shape: ")

    def test_in_a_secret_vote(self):
        self.write("poll.toml", f"{self.poll}secret = true\n")
        self.told("codes")
        self.told("call --to vote@club.example --yes")
        self.told("add -", given="ada no\nben Abstain!\n")
        self.assert_lines("ada 2,1", "ben 1,1")
        self.told("close --early --yes")
        self.told("publish")
        letter = self.text("letters/result.txt")
        self.assertIn(
            "Winner: Option 2: No, as it is. 0 yes, 1 no. More had to say yes than no.", letter
        )
        self.assertIn("2 of 2 voted, 1 abstained.", letter)
        self.assertIn(b"<code>2,1</code>: No</li>", self.read("result/index.html"))


class InLetters(MotionTest):
    members = "who,mail\nAda,ada@club.example\nBen,\n"

    def test_words_are_on_paper_alone(self):
        """In each language: an answer by mail has none, and a quotation of ours is none."""
        for language, words in WORDS.items():
            self.folder = self.scratch / language
            self.told("new", "--language", language, str(self.folder), cwd=self.scratch)
            self.write("poll.toml", self.poll)
            self.write("members.csv", self.members)
            self.told("roll")
            self.told("call --to vote@club.example")
            self.told("letters call")
            texts = {name: data.decode("utf-8", "ignore") for name, data in self.contents().items()}
            said = f": {', '.join(words)})"
            for end, count in (("call.txt", 0), (".eml", 0), ("print.html", 1)):
                [text] = [text for name, text in texts.items() if name.endswith(end)]
                self.assertEqual(html.unescape(text).count(said), count, end)
