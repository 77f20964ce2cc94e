"""`held`: letters that wait are listed, shown, entered, set aside and put back."""

import re

from debvote_tools.commands import held
from debvote_tools.outbox import letter_folder

from tests.support import elections
from tests.support.election_books import HALL, LAKE, LettersTest
from tests.support.letters import (
    HTML,
    MARK,
    OTHER_RANKS as OTHER,
    OWN,
    RANKS,
    TEN,
    ballot,
    letter,
    marked,
)
from tests.support.questions import QuestionsTest
from tests.support.terminal import Terminal

EARLY, LATER = TEN.replace("10:", "08:"), TEN.replace("10:", "12:")
AGAIN = "nothing was changed: if this ballot must count, repeat it with --force"
TYPE_IT = "nothing was changed: type the ballot that is meant with --as LINE"
LIKE_ANSWERS = ", and other lines that look like answers"
NOT_ALONE = "line {} is a ballot, and there are other lines".format
OUTSIDE = "line {} in a quotation or a signature looks like an answer".format
MORE = "there is more in it than a ballot"
FORCED = "--force not-tied --force voted-since"
OF_HTML, IF_DRY = "it has its text as HTML alone", "But only if it rains"
# words that are cut off after 300 characters
LONGER = "so many words, " * 30


def without_marks(text: str) -> str:
    """What is told of letters, without the marks of the vote in their subjects."""
    return re.sub(r" \[[0-9a-f]{16}(-\w+)?\]", "", text)


def worded(name: str, ranks: str = RANKS, **how: object) -> bytes:
    """A letter with more words than its ballot."""
    return letter(name, f"We are 3:\n\n{name} {ranks}\n", **how)


class HeldTest(LettersTest):
    def stops(self, typed: str, *parts: str) -> elections.Ended:
        """`held` stops, and says all that stands against it: no more and no less."""
        before, ended = self.last_act(), self.election(f"held {typed}")
        # what says more is shown at a terminal alone: that stands beside all else
        said = ended.faults.splitlines()
        is_told = any(MORE in part for part in parts)
        lines = [line for line in said if is_told or MORE not in line]
        found = ended.status, self.last_act(), len(lines)
        self.assertEqual(found, (9, before, len(parts)), ended)
        for part, line in zip(parts, lines):
            self.assertIn(part, line)
        return ended

    def assert_left(self, waiting: int, *lines: str):
        self.assertEqual((self.numbers()["waiting"], self.lines()), (waiting, list(lines)))


class Listed(HeldTest):
    def test_the_table_the_refusals_and_the_question(self):
        looks_like = (
            "line 1 is a ballot, and a line of a quotation or a signature looks like an answer"
        )
        below = "On Mon, 23 Nov 2026 at 09:00, Vote wrote:\n> Vote now\n> fay"
        several, none = "several lines of it are ballots", "no ballot found"
        bad = "line 1, ranks 1,2,3: bad rank count: 3 ranks, the poll has 4 options"
        ada = f"Dear secretary,\n\nada {RANKS}\n\n{LONGER}\nRegards\nAda"
        table = {
            ada: (NOT_ALONE(3), f"line 3: ada {RANKS}", f"written: {'so many words, ' * 4}.."),
            "hello": (none,),
            f"<p>cleo {RANKS}</p>": (OF_HTML, f"line 2: cleo {RANKS}"),
            "dan 1,2,3\n": (none, bad),
            f"eve {RANKS}\neve {OTHER}": (several, f"line 1: eve {RANKS}", f"line 2: eve {OTHER}"),
            f"fay {RANKS}\n\n{below} {OTHER}\n": (looks_like, f"line 1: fay {RANKS}", OUTSIDE(5)),
            f"gus {RANKS}\n{IF_DRY}": (NOT_ALONE(1), f"line 1: gus {RANKS}", f"written: {IF_DRY}"),
            f"3 of us\nhal {RANKS}\nida {OTHER}": (
                several,
                f"line 2: hal {RANKS}",
                f"line 3: ida {OTHER}",
                "written: 3 of us",
            ),
        }
        rows, letters = "letter  arrived                  from               subject\n", []
        for number, (name, (text, lines)) in enumerate(zip(self.names, table.items()), start=1):
            letters.append(letter(name, text, kind=HTML if text[0] == "<" else "text/plain"))
            rows += (
                f"     {number}  2026-11-23 10:00:00 UTC  {f'{name}@club.example':17}  my ballot\n"
            )
            rows += "".join(f"        {line}\n" for line in lines)
        self.assertEqual(
            without_marks(self.add(*letters)),
            f"8 new letters; 0 came before.\n{rows}0 ballots of letters went in; 8 letters wait.\nNext: 8 letters wait: debvote-election held\n",
        )
        listed = f"{rows}8 letters wait.\nNext: debvote-election held 1 shows one; --enter enters its ballot, "
        self.assertEqual(without_marks(self.told("held"))[: len(listed)], listed)
        # which have one ballot, and no other line that looks like an answer; without a terminal
        # whatever else is in them stops it, too
        more = f"{MORE}; nothing was changed: run it at a terminal without --yes, or type"
        self.stops("2 --enter", f"letter 2: it has 0 ballots; {TYPE_IT}")
        self.stops("5 --enter", "letter 5: it has 2 ballots;")
        self.stops("6 --enter", f"letter 6: it has 1 ballot{LIKE_ANSWERS};")
        for typed in ("1 3 7 --enter", "1 3 7 --enter --yes"):
            self.stops(typed, *(f"letter {number}: {more}" for number in (1, 3, 7)))
        # what was agreed to is what goes in
        desk = Terminal(self, "held", "7", "--enter")
        asked = f"It waits: {NOT_ALONE(1)}\nline 1: gus {RANKS}\ngus: {LAKE}\n"
        self.assertIn(asked, desk.until("[y/n] "))
        self.cast(f"dan {RANKS}", f"gus {RANKS}")
        said = f"letter 7: its elector has voted since; {AGAIN}"
        self.assertIn(said, desk.after("y\n", "voted-since"))
        desk.end()
        desk = Terminal(self, "held", "7", "--enter", "--force", "voted-since")
        desk.until("Enter 1 ballot? [y/n] ")
        said = ": you did not say yes; nothing was changed"
        self.assertIn(said, desk.after("n\n", "when you agree"))
        desk.end()
        self.assert_left(8, f"dan {RANKS}", f"gus {RANKS}")
        self.agrees("1 --enter")
        self.agrees("7 --enter --force voted-since")
        said = "\n6 letters wait until you have looked at them: debvote-election held\n"
        self.tells("status", said)

    def test_one_letter_whole(self):
        above = "On Mon, 23 Nov 2026 at 09:00, Vote wrote:"
        self.add(letter("ada", f"ada {RANKS}\nSo be it.\n\n{above}\n> line\n\nBy the way\n"))
        self.assertEqual(
            without_marks(self.told("held 1")).partition("1 letter waits.")[0],
            f"letter 1, from ada@club.example, 2026-11-23 10:00:00 UTC\n  subject: my ballot\n   1  ada {RANKS}\n   2  So be it.\n   4  {above}\n   5  > line\n   7  By the way\n"
            f"It waits: {NOT_ALONE(1)}\nline 1: ada {RANKS}\n",
        )
        # files that came with it are named, also photos that programs show within the text; a text
        # that is shown is none
        parts = "".join(
            f"--b\nContent-Type: {head}\n\nhal {RANKS} x\n"
            for head in (
                "text/plain",
                'image/jpeg; name="IMG_1.jpeg"\nContent-Disposition: inline; filename="IMG_1.jpeg"',
                "application/pdf\nContent-Disposition: attachment;\n filename*=utf-8''Stimmzettel%20Ada.pdf",
                "application/pdf; name==?utf-8?q?Gr=C3=BC=C3=9F=1B[2Je.pdf?=",
                "application/octet-stream",
            )
        )
        self.add(letter("hal", f"{parts}--b--\n", kind="multipart/mixed; boundary=b"))
        named = "attachments: IMG_1.jpeg, Stimmzettel Ada.pdf, Grüß\\u001B[2Je.pdf, application/octet-stream\n"
        for typed in ("held", "held 2", f"held 2 --as 'hal {RANKS}'"):
            self.tells(typed, named)
        # of a letter that a program wrote no refused line is listed
        text = "We could not deliver this:\n\neve 1,2,3,4,5\n"
        self.add(letter("eve", text), letter("eve", text, sender="mailer-daemon@mail.example"))
        said = "line 3, ranks 1,2,3,4,5: bad rank count"
        self.assertEqual([said in self.told(f"held {one}") for one in (3, 4)], [True, False])


class Entered(HeldTest):
    def setUp(self):
        super().setUp()
        self.add(worded("ada"), letter("ben", "I am for the hall"))

    def test_it_is_entered_once(self):
        self.agrees("1 --enter", f"1 counted  ada: {LAKE}")
        self.assertEqual(self.acts()[-1], ("enter", {"letters": [1], "lines": [3]}))
        self.tells("held 1", "It was entered.")
        # one that waits stops no count before the close
        self.assertIn("this is not the result yet", self.election("count").faults)
        said = "letter 1: its ballot{} was entered; nothing was changed: {}".format
        self.stops("1 --enter --yes", said(" of ada", "there is nothing to do"))
        for words in ("--set-aside", "--wait"):
            self.stops(f"1 {words}", said("", "strike takes out one envelope"))
        self.add(b"X-Status: R\n" + worded("ada"))
        said = "letter 3: it is a copy of another letter; nothing was changed: to enter its ballot once more"
        self.assertIn("--wait", self.stops("3 --enter --yes", said).faults)
        self.assert_left(1, f"ada {RANKS}")

    def test_wrong_words(self):
        wrong = f"--set-aside|1 --enter --wait|9|--enter|1 2 --as 'ada 1'|--as 'ada {RANKS}'"
        for words in f"{wrong}|1 --enter --as 'ada 1'|1 --enter 5x".split("|"):
            with self.subTest(words):
                self.assertEqual((self.election(f"held {words}").status, self.lines()), (2, []))
        said = "--force: it is for one letter; nothing was changed: name one number\n"
        self.assert_refused("held 1 2 --enter --force not-tied --force voted-since", 2, said)

    def test_set_aside_voted_since_and_at_the_close(self):
        self.tells("held 1 2 --set-aside", "No letter waits.")
        self.tells("held", "Set aside: 1, 2")
        self.tells("held 1 --wait", "1 letter waits.")
        self.tells("held", "it was put back to wait")
        self.told("held 2 --wait")
        said = "these letters arrived in time, and wait: 1, 2"
        self.assert_refused("close", 9, said, "--force --because")
        self.cast(f"ada {OTHER}")
        self.tells("held", "        it was put back to wait; has voted since\n")
        self.stops("1 --enter --yes", f"letter 1: its elector has voted since; {AGAIN}")
        self.told("close --force --because 'neither is a ballot'")
        # a right ballot must not become late because nobody reopened the vote
        said = "letter 1: it arrived in time, and the vote is closed; nothing was changed: if it has a ballot, run debvote-election reopen"
        for words in ("--enter", f"--as 'ada {RANKS}'"):
            self.stops(f"1 {words} --yes --force not-tied --force voted-since", said)
        self.told("reopen --because 'a letter was forgotten'")
        self.agrees("1 --enter --force voted-since")
        self.assertEqual((self.lines(), self.late_lines()), ([f"ada {OTHER}", f"ada {RANKS}"], []))

    def test_several_in_the_order_of_their_times(self):
        """Also of one elector; a letter is tied by its address and its own mark together, and a
        line ties nobody.
        """
        self.add(
            worded("cleo", OTHER),
            worded("dan", OTHER),
            worded("cleo", time=EARLY, number=2),
            ballot("eve", subject=f"x [{MARK}]"),
            marked("fay", f"fay {RANKS}", sender="f@x.example"),
            letter("gus", f"hal {RANKS}"),
        )
        untied = "letter {}: its sender and its subject do not show that it is of {}; nothing was changed: check who sent it; if this ballot must count, repeat it with --force".format
        faults = untied(6, "eve"), untied(7, "fay"), untied(8, "hal")
        self.stops("3 6 7 8 --enter --yes", *faults)
        # each is asked about, in the order in which they are named
        for number in (5, 3, 4, 1):
            self.agrees(f"{number} --enter", "\nline ", "[y/n] ")
        lines = [f"cleo {RANKS}", f"cleo {OTHER}", f"dan {OTHER}", f"ada {RANKS}"]
        self.assert_left(4, *lines)
        for number in (6, 7, 8):
            self.told(f"held {number} --enter --force not-tied")
        self.assert_left(1, *lines, f"eve {RANKS}", f"fay {RANKS}", f"hal {RANKS}")

    def test_two_of_one_time_that_differ_and_one_of_before_the_call(self):
        self.add(ballot("cleo"), ballot("cleo", OTHER, number=2))
        said = "another ballot of cleo has the same time, 2026-11-23 10:00:00 UTC"
        self.assertEqual(self.told("held").count(said), 2)
        same = "another ballot of its elector has the same time"
        self.stops("3 4 --enter", f"letter 4: {same}; {AGAIN}")
        self.told("held 4 --enter")
        for how in ("--enter", "--as 'cleo 1,1,1,1'"):
            self.stops(f"3 {how}", f"letter 3: {same}")
        self.assert_left(3, f"cleo {OTHER}")
        # one that arrived before the call does not stop a close, unless it has the mark of the
        # poll: then a clock was wrong
        self.told("held 1 2 3 --set-aside")
        before = {"time": "Mon, 9 Nov 2026 10:00:00 +0000", "number": 2}
        self.add(ballot("ada", **before), ballot("ada", subject="x", **before))
        self.assert_refused("close", 9, "these letters arrived in time, and wait: 5;")
        self.told("held 5 --set-aside")
        self.tells("close", "1 letter that arrived before the call did not go in.")

    def test_at_no_known_time_beside_another(self):
        timeless = {"time": None}
        self.add(
            worded("fay"),
            ballot("fay", number=2, **timeless),
            ballot("fay", OTHER, number=3, **timeless),
        )
        said = "its elector may have voted since, as nobody knows when it arrived"
        self.stops("3 5 --enter --yes", f"letter 5: {said}; {AGAIN}")
        self.stops("5 4 --enter", f"letter 5: {said}")
        self.agrees("3 --enter")
        self.stops("4 --enter", f"letter 4: {said}")
        for number in (4, 5):
            self.told(f"held {number} --enter --force not-tied --force voted-since")
        self.assert_lines(f"fay {RANKS}", f"fay {RANKS}", f"fay {OTHER}")

    def test_what_the_secretary_types(self):
        """The ballot has the time of the letter, and is tied to it, so nobody is told that the
        letter waits. Who types has read it.
        """
        self.tells(
            "held 2 --as 'Ben: 2, 1, 4, 3'",
            "   1  I am for the hall\n",
            f"It waits: no ballot found\nben: {HALL}\n1 counted  ben: In the town hall",
        )
        [envelope] = self.envelopes()
        found = envelope.line.decode(), envelope.letter, envelope.time.hour
        self.assertEqual(found, (f"ben {OTHER}", 2, 10))
        self.assertEqual(self.acts()[-1][1], {"letters": [2], "lines": []})
        self.tells("held 2", "It was entered.")
        self.assertNotIn("--enter", self.told("undo --yes"))
        # what can't be the ballot of a letter
        untied = "letter {}: its sender and its subject do not show that it is of {}".format
        for line, part in {
            "ben 1,2": "--as: `ben 1,2` is no ballot of this poll: bad rank count: 2 ranks, the poll has 4 options; nothing was changed: A ballot line of this poll",
            "bne 1,2,4,3": "bad not on roll: bne is not on the roll",
            f"ben {RANKS}\nada {RANKS}": "it is not one line",
            "": "it is not one line",
            f"ada {RANKS}": untied(2, "ada"),
        }.items():
            with self.subTest(line):
                self.stops(f"2 --as '{line}'", part)
        # one may vote for another, as by a paper that came with the letter
        self.told(f"held 2 --as 'ada {RANKS}' --force not-tied --force voted-since")
        # for one who has voted since; a line that was refused is no ballot
        self.add(letter("fay", "I am for the lake", sender="f@x.example"), letter("gus", "hello"))
        self.cast(f"fay {OTHER}", "gus 1,2")
        fay = f"3 --as 'fay {RANKS}'"
        self.stops(fay, untied(3, "fay"), "letter 3: its elector has voted since")
        self.told(f"held {fay} --force not-tied --force voted-since")
        self.told(f"held 4 --as 'gus {RANKS}'")
        lines = f"ada {RANKS}", f"fay {OTHER}", "gus 1,2", f"fay {RANKS}", f"gus {RANKS}"
        self.assert_lines(*lines)

    def test_what_was_typed_and_taken_back_is_typed_again(self):
        """Its own line may say something else."""
        said = "letter 1: its ballot was typed, and taken back; nothing was changed: type it again with debvote-election held 1 --as LINE"
        for _ in range(2):
            self.told(f"held 1 --as 'ada {OTHER}'")
            self.told("undo --yes")
            self.stops("1 --enter --force voted-since", said)
        self.told(f"held 1 --as 'ada {RANKS}'")
        self.assert_left(1, f"ada {RANKS}")

    def test_copies_of_what_was_typed_struck_or_taken_back(self):
        """What was entered of a letter itself lies not between it and its copy."""
        came, again = (
            [
                letter("fay", f"fay {RANKS}\nor fay {OTHER}", time=time),
                ballot("gus", time=time, subject=subject),
                ballot("hal", time=time, subject=subject),
            ]
            for time, subject in ((TEN, "x"), (LATER, None))
        )
        self.add(*came)
        self.told(f"held 3 --as 'fay {OTHER}'")
        self.agrees("4 --enter --force not-tied")
        self.told("strike 2 --because 'not hers' --yes")
        self.agrees("5 --enter --force not-tied")
        self.told("undo --yes")
        self.told("held 4 5 --set-aside")
        self.add(*again, says="0 ballots of letters went in; 2 letters wait; 3 copies passed over.")
        # one that has to wait nevertheless does not replace in silence what was typed
        self.told("held 6 --wait")
        self.stops("6 --enter --yes", f"letter 6: it has 1 ballot{LIKE_ANSWERS}")
        self.assert_left(3, f"fay {OTHER}")

    def test_a_copy_waits_behind_another_ballot_than_was_typed(self):
        """Not if what was typed is taken back."""
        for number, name, is_undone in ((3, "fay", False), (6, "gus", True)):
            self.add(letter(name, "the hall, please\n", number=7))
            self.told(f"held {number} --as '{name} {OTHER}'")
            if is_undone:
                self.told("undo --yes")
            self.add(ballot(name, number=8, time=TEN.replace("10:", "11:")))
            said = self.add(letter(name, "the hall, please\n", number=7, time=LATER))
            found = [part in said for part in (f"and {name} has a ballot of", "1 copy passed over")]
            self.assertEqual(found, [not is_undone, is_undone], said)

    def test_a_letter_that_another_desk_enters_is_not_set_aside(self):
        enter = "held", 1, "--as", f"ada {RANKS}"
        self.overtaken(held, "chosen_letters", enter, ("held", "1", "--set-aside"))
        self.assert_left(1, f"ada {RANKS}")
        self.assertNotIn("Set aside", self.told("held"))
        self.tells("held 1", "It was entered.")
        # letters to electors that another act made untrue are not noted
        self.overtaken(letter_folder, "letter_files", ("undo", "--yes"), ("letters", "receipts"))
        self.assertNotIn("receipt", self.told("show ada"))


class Couple(HeldTest):
    """Two electors who have one address. A letter is dealt with as a whole; who has no ballot of it
    is named, and gets one when somebody types it.
    """

    ada, ben = f"ada {RANKS}", f"ben {OTHER}"
    as_ada, as_ben = f"1 --as '{ada}'", f"1 --as '{ben}'"
    both = f"{as_ada} --as '{ben}'"
    left = "{} has no ballot of letter 1; debvote-election held 1 --as LINE --force not-tied enters one\n".format
    untied = "letter 1: its sender and its subject do not show that it is of ben"

    def setUp(self):
        super().setUp()
        self.change_roll("ben@", "ada@")

    def test_one_after_the_other(self):
        self.add(letter("ada", "Ben is for the town hall, and I am for the lake."))
        self.tells(f"held {self.as_ada}", self.left("ben"))
        self.assert_left(0, self.ada)
        self.tells("show ben", "\n  letter 1, from ada@club.example, ")
        said = "letter 1: its ballot of ada was entered; nothing was changed: {}".format
        other = (
            "to enter another one in its place, run debvote-election strike 1 --because TEXT first"
        )
        self.stops(f"1 --as 'ada {OTHER}' --force not-tied --force voted-since", said(other))
        self.stops(self.as_ada, said("there is nothing to do"))
        # with the ballot of the other there is something to do, though her own mark ties him not
        self.stops(self.both, said("leave it out"))
        self.assertIn("--force", self.stops(self.as_ben, self.untied).faults)
        bens = f"held {self.as_ben} --force not-tied --force voted-since"
        self.assertNotIn("has no ballot of", self.told(bens))
        self.assert_left(0, self.ada, self.ben)
        # what is taken back waits, and that of the other stays; what is struck does not wait
        self.tells("undo --yes", "1 letter then waits again, as taken back: 1\n")
        self.assert_left(1, self.ada)
        self.assert_refused("close", 9, "these letters arrived in time, and wait: 1;")
        self.told(bens)
        self.told("strike 3 --because 'he asked for it'")
        self.assert_left(0, self.ada)
        self.told(bens)
        self.told("close")
        # which takes no strike
        closed = "the vote is closed, and its ballots stay; if this one is wrong, see debvote-election reopen"
        self.stops(f"1 --as 'ada {OTHER}'", said(closed))

    def test_both_in_one_command(self):
        self.add(letter("ada", f"{self.ada}\n{self.ben}\ncleo {RANKS}"))
        self.stops("1 --enter", f"letter 1: it has 3 ballots; {TYPE_IT}")
        said = "letter 1: 2 of these lines are ballots of ada; nothing was changed: name the one that counts"
        self.stops(f"{self.as_ada} --as 'ada {OTHER}'", said)
        said = f"1 counted  ada: {LAKE}\n2 counted  ben: {HALL}\n{self.left('cleo')}"
        self.tells(
            f"held 1 --as 'Ada 1, 2,4,3' --as '{self.ben}' --force not-tied --force voted-since",
            said,
        )
        self.assert_left(0, self.ada, self.ben)
        self.assertEqual(self.acts()[-1], ("enter", {"letters": [1], "lines": []}))
        # one that is set aside is named as nobody's; one that goes in is, as its sender's address
        # belongs to both
        self.told("undo --yes")
        self.assertNotIn("has no ballot of", self.told("held 1 --set-aside"))
        self.add(ballot("ada", number=2), says="; same address: ben\n")
        self.tells("held 2", "It was entered.\n")
        self.told(f"held 2 --as '{self.ben}' --force not-tied --force voted-since")
        self.assert_left(0, self.ada, self.ben)

    def test_it_is_said_who_has_voted_since(self):
        both = letter("ada", f"{self.ada}\n{self.ben}\ncleo {RANKS}")
        self.add(both, ballot("ada", OTHER, time=LATER, number=2))
        self.tells("held", "        several lines of it are ballots; ada has voted since\n")
        self.stops(self.both, self.untied, "letter 1: its elector has voted since")
        self.told(f"held {self.as_ben} --force not-tied --force voted-since")
        self.assert_lines(f"ada {OTHER}", self.ben)


class RealNamesOfLetters(HeldTest):
    """What the secretary types for a letter, and what is in it, may have a real name."""

    members = "who,mail,name\nAda Lovelace,ada@club.example,ada\nDan,dan@club.example,dan\n"
    members += "Ben Blum,ben@club.example,ben\nBen Blum,cleo@club.example,cleo\n"

    def test_that_of_one_elector_and_that_of_two(self):
        self.add(
            letter("ada", "I am for the lake"),
            letter("ben", "hello"),
            letter("dan", f"Ben Blum {RANKS}\n"),
            letter("cleo", f"Ben Blum {RANKS}\nplease"),
        )
        self.tells(f"held 1 --as 'Ada Lovelace {RANKS}'", "\n1 counted  ada: ")
        said = f"--as: `Ben Blum {RANKS}` is no ballot of this poll: it has the name of ben and cleo; nothing was changed: "
        self.stops(f"2 --as 'Ben Blum {RANKS}' --force not-tied --force voted-since", said)
        # of two only one has the sender's address
        self.stops(
            "3 --enter --force not-tied --force voted-since --yes",
            f"letter 3: it has 0 ballots{LIKE_ANSWERS}",
        )
        self.agrees("4 --enter", "2 counted  cleo: ")
        self.told(f"held 3 --as 'ben {RANKS}' --force not-tied --force voted-since")
        self.assert_left(1, f"ada {RANKS}", f"cleo {RANKS}", f"ben {RANKS}")


class OtherVote(HeldTest):
    """Letters with the mark of another vote: told in a line, shown by their numbers, and entered
    only by force.
    """

    other = "77d0" * 4
    of_other = f"it has the mark of another vote, [{other}]"
    untied = "letter {}: its sender and its subject do not show that it is of {}".format

    def test_it_is_told_and_entered_by_force(self):
        subject = {"subject": f"x [{self.other}]"}
        self.add(ballot("ada", **subject), ballot("ben", **subject), letter("cleo", "hello"))
        said = f"\nLetters of other votes, which are passed over here: 2 with [{self.other}].\n1 letter waits.\n"
        self.assertNotIn("ada@club.example", self.tells("held", said))
        self.tells("held 1", self.of_other)
        cure = "nothing was changed: add it to that vote; if this ballot must count, repeat it with --force"
        for how in ("--enter", f"--as 'ada {RANKS}'"):
            self.stops(f"1 {how}", f"letter 1: {self.of_other}; {cure}", self.untied(1, "ada"))
        said = f"It does not wait: {self.of_other}; add it to that vote\nline 1: ada {RANKS}\nada: {LAKE}\n"
        self.agrees("1 --enter --force not-tied", said)
        # with two digits that differ it is of this one, miscopied; and with an own mark beside it
        digits = "0123456789abcdef"
        near = self.mark[-2:].translate(str.maketrans(digits, digits[1:] + "0"))
        self.add(
            ballot("dan", subject=f"x [{self.mark[:-2]}{near}]"),
            ballot("eve", subject=f"x [{self.other}] [{MARK}-{OWN['eve']}]"),
        )
        self.assertEqual(self.numbers()["waiting"], 3)
        self.stops("4 --enter", self.untied(4, "dan"))
        self.stops("5 --enter", f"letter 5: {self.of_other}")

    def test_what_may_be_of_this_vote_is_entered_by_force_too(self):
        """Of a call that was taken back, whose options may have had another order, and with two
        marks.
        """
        old = self.mark
        self.set_clock("2026-11-20T10:00:00+00:00")
        self.told("call --take-back")
        first, second = '"At the lake"', '"In the town hall"'
        poll = elections.POLL.replace(f"{first}, {second}", f"{second}, {first}")
        self.write("poll.toml", poll)
        self.told("call", *self.call_words)
        self.set_clock(self.now)
        self.add(
            ballot("ada", subject=f"[{old}] [{MARK}-{OWN['ada']}]"),
            ballot("ben", subject=f"[{self.other}] [{MARK}-{OWN['ben']}]"),
            ballot("cleo", subject=f"[{old}]"),
        )
        self.assertNotIn("Letters of other votes", self.told("held"))
        of_old = f"it has the mark of a call that was taken back, [{old}]"
        for number, name, words, cure in (
            (1, "ada", of_old, "look whether its options were the same"),
            (2, "ben", self.of_other, "add it to that vote"),
        ):
            self.tells(f"held {number}", f"\nIt waits: {words}; {cure}\n")
            said = f"letter {number}: {words}; nothing was changed: {cure}; if this ballot must count, repeat it with --force"
            for how in ("--enter", f"--as '{name} {OTHER}'"):
                self.stops(f"{number} {how}", said)
            self.agrees(f"{number} --enter --force not-tied")
        self.stops("3 --enter", f"letter 3: {of_old}", self.untied(3, "cleo"))
        self.assert_left(1, f"ada {RANKS}", f"ben {RANKS}")


class CodesOnRoll(HeldTest):
    """Nobody has an address, so nobody is tied to a letter, and --force takes several numbers."""

    poll, codes_words = f"{elections.POLL}secret = true\n", ("--on-roll",)

    def test_several_by_force(self):
        query = "SELECT name FROM elector WHERE length(name) = 10 ORDER BY name LIMIT 2"
        lines = [f"{code} {RANKS}" for (code,) in self.book.rows(query)]
        said = self.add(*(letter("ada", line, number=len(line)) for line in lines))
        self.assertEqual(said.count("the list of members has no address for"), 2, said)
        untied = "its sender and its subject do not show that it is of"
        self.stops("1 2 --enter", f"letter 1: {untied}", f"letter 2: {untied}")
        self.told("held 1 2 --enter --force not-tied --force voted-since")
        self.assert_left(0, *lines)


class Answers(QuestionsTest, HeldTest):
    """Letters that answer several questions."""

    def test_a_ballot_of_which_only_some_answers_have_a_later_one_is_never_entered_whole(
        self,
    ):
        """Else an older answer takes the place of a newer one. The line to type is named."""
        self.add(
            letter("ada", "Hello:\nada A 1,2 B 1,2,3 C 1,2,3,4\n"),
            letter("ben", "Hello:\nben A 1,2\n"),
        )
        self.add_lines("ada A 2,1 C 4,3,2,1", "ben A 2,1 B 1,2,3")
        said = "letter 1: its elector has later answers to {}; nothing was changed: enter the others: debvote-election held 1 --as 'ada {}'".format
        for force in ("", " --force not-tied --force voted-since"):
            self.stops(f"1 --enter --yes{force}", said("A and C", "B 1,2,3"))
            self.stops(f"1 --as 'ada A 1,2 B 2,1,3'{force}", said("A", "B 2,1,3"))
        self.told("held 1 --as 'ada B 1,2,3'")
        # all of them have one
        self.stops("2 --enter --yes", f"letter 2: its elector has voted since; {AGAIN}")
        self.agrees("2 --enter --force voted-since")
        self.assert_left(0, "ada A 2,1 C 4,3,2,1", "ben A 2,1 B 1,2,3", "ada B 1,2,3", "ben A 1,2")


class InARow(LettersTest):
    """Many letters at once: `held 2-9 --set-aside`."""

    def test_those_of_one_reason(self):
        self.add(
            letter("ada", "hello\n"),
            letter("ben", f"ben {RANKS}\n\nno\n"),
            letter("cleo", "later\n"),
            letter("dan", "hello\n"),
        )
        self.tells("held 1-3 --set-aside", "2 letters of one reason; of these numbers 1 wait on.\n")
        self.assertEqual(self.numbers()["waiting"], 2)
        # with one of its own beside them; and those that wait no more are none of them
        said = "1 letter of one reason; of these numbers 0 wait on.\nNo letter waits."
        self.tells("held 4 1-3 --set-aside", said)
        for words in ("1-4", "7-9"):
            self.assert_refused(f"held {words} --set-aside", 9, "none of these waits")
        for how in ("--enter", "--wait"):
            self.assert_refused(f"held 1-2 {how}", 2, "only --set-aside takes several in a row")
