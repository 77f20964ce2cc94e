"""A motion that is answered in words: by lines, at a desk, by `held --as`, and in letters.

In letters a word is no ballot, and none that has one beside its ballot goes in.
"""

import collections
import json
import random
import re
import unicodedata
import unittest
from collections.abc import Sequence

from debvote_tools.inbox.rules import LetterCase, Ruling
from debvote_tools.text.language import LANGUAGES
from debvote_tools.text.motions import RANKS, WORDS, Words, words_of

from tests.python.commands.test_desk import CAST, TerminalTest
from tests.support import outgoing
from tests.support.election_books import LettersTest
from tests.support.elections import members_of
from tests.support.letters import (
    MARK,
    NAMES,
    OWN,
    RANDOM_LETTERS,
    DebvoteReader,
    circumstances,
    how_entered,
    judged_alone,
    letter,
    names,
    outcome,
    read,
    rows,
)
from tests.support.outgoing import one_line

YES, NO, _ = RANKS
MOTION = """title = "A boat"
options = ["We buy a second boat"]
ratios = [1]
default = "No, one is enough"
quorum = 0
"""
WORDS_EN = words_of("en", motion=True)
# who has a name that ends in a word
REAL = {**{name: name.capitalize() for name in NAMES}, "ada": "Ada Lovelace", "kim-no": "Kim No"}
ROLL = (*NAMES, "kim-no")


class MotionReader(DebvoteReader):
    """Asks debvote about ballots on a motion."""

    poll = f"{MOTION}roll = {json.dumps(ROLL)}\n"
    known = {}


def judged_by(data: Sequence[bytes], words: Words = WORDS_EN) -> list[LetterCase]:
    """What becomes of letters, each alone."""
    how = {"words": words, "real_names": REAL, "roll": frozenset(ROLL), "options": 2}
    addresses = {name: [f"{name}@club.example"] for name in ROLL}
    own_marks = {**OWN, "kim-no": "kmn2345678"}
    now = circumstances(addresses=addresses, own_marks=own_marks, roll=ROLL)
    return [judged_alone(one, now) for one in read(*data, reader=MotionReader(), **how)]


class OfLines(unittest.TestCase):
    def test_each_word_in_each_language(self):
        for language in LANGUAGES:
            known = names(words=words_of(language, motion=True), language=language, real_names=REAL)
            for word, ranks in zip((*WORDS[language], *WORDS["en"]), RANKS * 2):
                cases = word, word.upper(), word.capitalize(), unicodedata.normalize("NFD", word)
                for written in (*cases, f"{word}.", f"{word}!", f"{word} !"):
                    for name in ("", "ada ", "Ada Lovelace: ", "Ada:", "ada : "):
                        wanted = f"{name.rstrip(' :')} {ranks}".lstrip()
                        found = known.with_ranks(name + written)
                        self.assertEqual(found, wanted, (language, name, written))

    def test_nothing_else(self):
        known = names(words=words_of("es", motion=True), roll=frozenset(ROLL), real_names=REAL)
        # of the last four each is the name of an elector, and so no ballot
        lines = "ada si|ada abstencion|ada ja|ada oui|yes ada|ada yes no!!|ada yes?|ada yes, please|ada 'yes'|ada,yes|ada yess|ada (yes)|ada yes 1,2|ada||1,2|ada no1|Kim No|kim no|kim-no|KIM NO."
        for line in ("|ada yes", *lines.split("|")):
            ranked = known.with_ranks(line)
            is_no_name = ranked.split()[:1] == ["|ada"] or ranked.startswith("ada yes ")
            self.assertTrue(ranked == line or is_no_name, (line, ranked))
        long = f"{'a' * 600} yes"
        for line, ranked in {
            "Kim No no": f"Kim No {NO}",
            "Kim No: sí": f"Kim No {YES}",
            long: long,
        }.items():
            self.assertEqual(known.with_ranks(line), ranked)
        # without a motion no line is changed
        for line in ("ada yes", "yes", "Kim No no"):
            self.assertEqual(names().with_ranks(line), line)


# ---------------------------------------- lines, a desk, held
class Taken(LettersTest):
    poll = MOTION.replace("We buy", "Wir kaufen") + "motion = true\n"
    # one has the name on the roll that is another's real name
    members = (
        members_of(NAMES).replace("who,mail", "who,mail,name")
        + "Kim No,kim@club.example\nAda Lovelace,\nMaximilian Mayer,,max\nMax,\n"
    )
    new_words = ("--language", "de")

    def test_a_file(self):
        self.write(
            "ballots.txt",
            "ada: JA\nBen nein!\ncleo Enthaltung.\nAda Lovelace: yes\ndan abstain\neve 2,1\nfay \u201cja\u201d\nKim No\n",
        )
        self.tells(
            "add --force ballots.txt",
            "ballots.txt:1: `ada: JA` was changed to `ada 1,2`\n1 counted  ada: Yes: Wir kaufen a second boat\n",
            "2: `Ben nein!` was changed to `ben 2,1`\n2 counted  ben: No\n",
            "3 counted  cleo: Abstain\n",
            "4 counted  ada-lovelace: Yes",
            "6 counted  eve: ",
            "7 bad shape  fay",
            "8 bad shape  Kim No",
        )
        lines = (
            "ada 1,2|ben 2,1|cleo 1,1|ada-lovelace 1,2|dan 1,1|eve 2,1|fay \u201cja\u201d|Kim No"
        )
        self.assertEqual(self.lines(), lines.split("|"))
        # the same lines, written otherwise, are not new
        self.write("again.txt", "ada 1,2\nBEN: No\n")
        self.tells("add again.txt", "There is nothing new")

    def test_a_desk_from_a_pipe(self):
        said = self.cast("ada ja", "ben: oui", "Kim No nein")
        self.assertIn("1 counted  ada: Yes: Wir kaufen a second boat", said)
        said = self.cast("max: yes", "Max: yes", "MAX no", "max-2 no.")
        unclear = re.findall(
            r"desk:(\d): it has the name of max and max-2; it was not entered", said
        )
        self.assertEqual(unclear, ["2", "3"])
        # no French
        self.assert_lines("ada 1,2", "ben: oui", "kim-no 2,1", "max 1,2", "max-2 2,1")

    def test_a_word_counts_as_a_rank_of_a_table(self):
        tables = ["Name;Vote\nada ja\n", "Name;Vote\nada 1,2\n"]
        # a head may have the words of the motion, and then it may be below ballots
        for head in ("Name Nein,Ja", "NAME | Nein | Ja | Enthaltung", "Name nein ja"):
            tables.append(f"{head}\nada 2,1\n")
            tables += f"ben ja\n{head}\nada 2,1\n", f"Kim No nein\n{head}\nada ja\n"
        for table in tables:
            for command, status in (("add", 9), ("desk", 4)):
                self.assert_refused(command, status, "the lines look like a table", given=table)
        # but a word is none of its ranks, and notes between ballots are no heads
        for lines in (
            "adda ja\nben ja\n# by phone, Monday\ncleo 1,2\nper Telefon\ndan nein\nben ja nein\neve ja\nper Brief, danke\nfay ja\n",
            "Mrs Bennet nein\nben ja\n",
        ):
            self.adds(lines, words="--look")
        self.adds("ada ja\nben: Nein!\n")
        self.cast("Cleo ja", "dan enthaltung")
        self.assert_lines("ada 1,2", "ben 2,1", "cleo 1,2", "dan 1,1")

    def test_words_of_letters_are_typed(self):
        """Also beside a ballot, or those of two in a letter; receipts say the ballots in words."""
        said = self.add(
            letter("ada", "Ja"),
            letter("ben", "ben nein\ncleo 1,2"),
            letter("dan", "dan 1,2\n\nJa\n"),
            letter("eve", "Eve: Enthaltung"),
            letter("fay", "fay 1,2"),
            letter("gus", "Bin dafür.\n"),
        )
        self.assertNotIn("--enter", said)
        self.assert_lines("fay 1,2")
        none, words = "        no ballot found\n        line 1: ", "\n        written: Ja\n"
        self.tells(
            "held",
            f"{none}ada 1,2\n",
            f"{none}eve 1,1\n",
            f"        line 1 is a ballot, and there are other lines\n        line 1: dan 1,2{words}",
        )
        # the receipt says that the letter waits, and not that it is written wrongly
        self.told("letters receipts")
        self.assertIn(
            "Noch ist kein Stimmzettel daraus erfasst: Die Wahlleitung muss sie erst ansehen. Der Grund: Keine ihrer Zeilen ist ein Stimmzettel",
            self.receipt("ada"),
        )
        like_answers = "1 ballot, and other lines that look like answers"
        more = "there is more in it than a ballot"
        self.assert_refused("held 1 --enter --yes", 9, f"letter 1: {more}")
        for number, count in ((2, like_answers), (3, like_answers)):
            said = f"letter {number}: it has {count}"
            self.assert_refused(f"held {number} --enter --yes", 9, said, "--as LINE")
        self.told("held 1 --as 'ada ja' --yes")
        # her address is not that of the ballot
        self.told("held 2 --as 'ben nein' --yes")
        said = "its sender and its subject do not show that it is of cleo"
        self.assert_refused("held 2 --as 'cleo ja' --yes", 9, said)
        self.told("held 2 --as 'cleo ja' --yes --force not-tied")
        self.told("held 3 --as 'dan ja' --yes")
        self.told("held 6 --as 'Ada Lovelace: Ja' --force not-tied --yes")
        lines = ["fay 1,2", "ada 1,2", "ben 2,1", "cleo 1,2", "dan 1,2", "ada-lovelace 1,2"]
        self.assert_lines(*lines)
        self.told("letters receipts")
        self.assertIn("Ja: Wir kaufen a second boat.", self.receipt("ada"))
        self.assertIn("Nein: No, one is enough.", self.receipt("ben"))

    def receipt(self, name: str) -> str:
        """The words of the last receipt of an elector."""
        files = (self.folder / "letters" / "receipts").rglob(f"{name}.eml")
        last = max(files, key=lambda file: int(file.parent.name))
        return one_line(outgoing.parsed(last.read_bytes()))


class Answering(LettersTest):
    """The shortest motion, whose options are words."""

    poll = (
        MOTION.replace("We buy a second boat", "Yes").replace("No, one is enough", "No")
        + "motion = true\n"
    )
    call_words = ("--to", "vote@club.example", "--at", "https://club.example/vote")

    def test_our_letter_below_a_ballot_has_no_answer(self):
        """As programs quote that mark nothing; a word that its elector wrote above it is one."""
        self.told("letters call")
        head = "\n-----Original Message-----\nFrom: Vote\nSubject: Vote\n\n"
        letters = []
        for name, more in (("ada", ""), ("ben", "\nYes\n")):
            [ours] = (self.folder / "letters" / "call").rglob(f"{name}.eml")
            quoted = outgoing.parsed(ours.read_bytes()).get_content()
            letters.append(letter(name, f"{name} 1,2\n{more}{head}{quoted}"))
        self.add(*letters)
        self.assert_lines("ada 1,2")
        self.tells(
            "held",
            "line 1 is a ballot, and there are other lines\n        line 1: ben 1,2\n        written: Yes\n",
        )


class AtDesk(TerminalTest):
    poll = MOTION + "motion = true\n"
    members = members_of(NAMES) + "Kim No,kim@club.example\nGrace Hopper,\nKim N,\n"
    new_words = ("--language", "de")

    def test_words_for_parts_of_names_too(self):
        words = "yes, no, abstain, ja, nein, enthaltung, y, n, a, j, e"
        desk = self.at_terminal(f"\nIn place of the ranks of a motion: {words}.\n")
        completed = "`hopp` was completed to `grace-hopper`\ngrace-hopper: Abstain\n"
        replaced = "\nada has a ballot, which will be replaced: Yes: We buy a second boat"
        for typed, said, answer in (
            ("Ada: yes.\n", "\nada: Yes: We buy a second boat\n", "y\n"),
            ("hopp abstain\n", completed, "y\n"),
            ("ada no\n", replaced, "n\n"),
            ("ben n\n", "\nben: No\n", "y\n"),
            ("Kim N j\n", "\nkim-n: Yes: We buy a second boat\n", "y\n"),
        ):
            self.assertIn(said, desk.after(typed, CAST))
            desk.after(answer, "Ballot: ")
        for typed in ("Kim No", "Kim N"):
            self.assertIn(
                f"It would be refused: {typed}", desk.after(f"{typed}\n", "enter it so: ")
            )
            desk.after("\n", "Ballot: ")
        desk.ends("q\n")
        self.assert_lines("ada 1,2", "grace-hopper 1,1", "ben 2,1", "kim-n 1,2")
        # no file and no letter has them
        self.tells("add -", "bad shape", given="cleo n\n")


# ---------------------------------------- letters
KIMS = {"subject": f"[{MARK}-kmn2345678]"}
QUOTED = "\n\nOn Mon, Nov 23, 2026 at 10:00 AM Vote wrote:\n> "


class InLetters(unittest.TestCase):
    def test_a_table(self):
        """What becomes of a letter, and whether its ballot can be entered, or has to be typed since a
        word looks like an answer.
        """
        for becomes, texts in {
            "waits": rows(
                """
ada yes
Ada Lovelace: No!
Hello,⏎⏎ada abstain⏎
yes
No.
Kim No
ada 1,2 yes
ada yes 1,2
ada⏎yes
> yes
ada: no
ben yes
"""
            ),
            "in: ada 1,2": rows(
                """
ada 1,2
Hello,⏎⏎ada 1,2⏎⏎best wishes
ada 1,2{q}Yes to all of it
ada 1,2{q}Option 1: Yes
ada 1,2{q}Kim No
ada 1,2⏎-- ⏎I say no to it
"""
            ),
            "waits: not alone, typed": rows(
                """
ada 1,2⏎⏎yes
ada 1,2⏎⏎YES!
ada 1,2⏎⏎ben no
ada 1,2⏎Ada: no.
yes⏎ada 1,2
ada 1,2⏎> yes
ada 1,2⏎-- ⏎yes
ada 1,2⏎-- ⏎Ada Lovelace no
ada 1,2{q}x⏎⏎abstain
"""
            ),
            "waits: answer below, typed": rows(
                """
ada 1,2{q}yes
ada 1,2{q}> ada no
ada 1,2⏎⏎-----Original Message-----⏎yes
"""
            ),
            "waits: not alone, entered": rows(
                """
ada 1,2⏎⏎No, not that one
ada 1,2⏎⏎I say no to it
ada 1,2⏎⏎Thanks, no
ada 1,2⏎⏎ja
nobody yes⏎⏎ada 1,2
ada 1,2⏎⏎Kim No
"""
            ),
            # whose own name is a word: it is not known by it
            "in: kim-no 1,2": ("Kim No 1,2", "Hello\nkim-no 1,2\n\nBest, Kim"),
        }.items():
            name, how = ("kim-no", KIMS) if "kim" in becomes else ("ada", {})
            letters = [letter(name, text.replace("{q}", QUOTED), **how) for text in texts]
            for one in judged_by(letters):
                found = f"{outcome(one)}, {how_entered(one)}"
                self.assertEqual(
                    found.removesuffix(", in")[: len(becomes)], becomes, one.read.body.lines
                )

    def test_random_letters(self):
        """A word makes no letter go in that does not without a motion, and none goes in with a line
        that is one; of those that wait for it alone the words are shown.
        """
        chance = random.Random(81)
        words = (
            "ada yes|ADA: NO|yes|No.|no !|Kim No|Yes, dear all,|12 or no|Ada|ada 2,1|> yes|> ada no"
        )
        words = words.split("|")
        tails = ("", "-- \nWORD", f"{QUOTED[2:]}WORD", f"{QUOTED[2:]}> WORD", "Best\nAda", "WORD")
        tails += ("-----Original Message-----\nWORD",)
        letters = []
        for _ in range(RANDOM_LETTERS // 10):
            first = chance.choice(("", "", "Hello,", chance.choice(words)))
            tail = chance.choice(tails).replace("WORD", chance.choice(words))
            letters.append(letter("ada", f"{first}\nada 1,2\n\n{tail}"))
        found = collections.Counter[str]()
        for one, plain in zip(judged_by(letters), judged_by(letters, words={})):
            if plain.ruling is not Ruling.GOES_IN:
                self.assertIsNot(one.ruling, Ruling.GOES_IN)
                continue
            text = one.read.body.lines
            found[outcome(one)] += 1
            if one.ruling is Ruling.GOES_IN:
                self.assertEqual(outcome(plain), outcome(one), text)
                is_word = re.compile(r"(?i)[> ]*(ada:? )?(yes|no)[ .!]*").fullmatch
                self.assertFalse([*filter(is_word, text)], text)
            else:
                self.assertIn(
                    outcome(one).partition(": ")[2],
                    ("not alone", "answer below", "no ballot"),
                    text,
                )
                self.assertFalse(one.is_nothing_else, text)
        going_in = found["in: ada 1,2"]
        self.assertGreater(min(going_in, found.total() - going_in), RANDOM_LETTERS // 400)
