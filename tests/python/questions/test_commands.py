"""What the secretary types and reads where several questions are asked: a desk, letters that wait, what `undo` and `strike` take away, and receipts."""

import re

from tests.support.election_books import text_in
from tests.support.letters import TEN, letter
from tests.support.outgoing import parsed
from tests.support.questions import FORCED, QuestionsTest
from tests.support.terminal import Terminal

YES, NO = (
    "A (Raise the fee to 72 Euro): Yes, 72 Euro, then No, as it is",
    "A (Raise the fee to 72 Euro): No, as it is, then Yes, 72 Euro",
)
CHAIR = "B (The chair of the board): Ada Lovelace, then Mary Somerville, then None of these"
ASKED = "Enter it? [y/n] "


def at(hour: int) -> str:
    return TEN.replace("10:", f"{hour}:")


class Desk(QuestionsTest):
    def test_of_all_questions(self):
        self.add_lines("ada A 2,1 C 1,2,3,4")
        desk = Terminal(self)
        shown = desk.until("Ballot: ")
        self.assertIn(
            "A Raise the fee to 72 Euro\n  1 Yes, 72 Euro\n  2 No, as it is\nB The chair of the board\n  1 Ada Lovelace\n",
            shown,
        )
        self.assertIn(
            "Type a ballot as ada A 2,1 B 2,3,1 C 2,3,4,1 (the elector, then for each question that is answered its label",
            shown,
        )
        shown = desk.after("Ada a: 1, 2 b) 1, 2,3\n", ASKED)
        self.assertIn(
            f"ada:\n  {YES}\n  {CHAIR}\nada has a ballot, which will be replaced:\n  {NO}\nThe earlier answers of ada to C stay:\n  C (A new roof): Slate",
            shown,
        )
        self.assertEqual(desk.after("y\n", "Ballot: "), "y\n2 A replaced, B counted  ada\nBallot: ")
        # a line that has not the form of a ballot is not asked about
        shown = desk.after("ada 1,2\n", "Ballot: ")
        self.assertRegex(
            shown,
            r"`ada 1,2` is no ballot: a ballot is a name, and for each question.*\nIt was not entered\.\nBallot: $",
        )
        # what is refused is an envelope of its own
        shown = desk.after("ben A 1,2,3 B 1,2,3\n", "enter it so: ")
        self.assertIn(
            f"ben:\n  {CHAIR}\nIt would be refused: ben A 1,2,3: bad rank count: 3 ranks, the poll has 2 options\n",
            shown,
        )
        self.assertEqual(
            desk.after("enter\n", "Ballot: "),
            "enter\n3 counted  ben\n4 bad rank count  ben A 1,2,3\nBallot: ",
        )
        # a part of a name is completed, as ever
        desk.after("cl A 1,2\n", "`cl` was completed to `cleo`\n", ASKED)
        desk.after("n\n", "Ballot: ")
        desk.type("q\n")
        lines = ["ada A 2,1 C 1,2,3,4", "ada A 1,2 B 1,2,3", "ben B 1,2,3", "ben A 1,2,3"]
        self.assertEqual(self.lines(), lines)
        # an export has the lines as they came, and of each question its answers beside its poll
        self.told("export", self.scratch / "out")
        by_label = {
            "A": "ada 2,1\nada 1,2\nben 1,2,3\n",
            "B": "ada 1,2,3\nben 1,2,3\n",
            "C": "ada 1,2,3,4\n",
        }
        files = {f"{label}/ballots.txt": ballots.encode() for label, ballots in by_label.items()}
        files |= {f"{label}/poll.toml": self.read(f"call/{label}/poll.toml") for label in by_label}
        files |= {"ballots.txt": "".join(f"{line}\n" for line in lines).encode(), "late.txt": b""}
        found = {
            path: path.read_bytes()
            for path in (self.scratch / "out").rglob("*.t*")
            if path.parent.name != "came"
        }
        self.assertEqual(
            {str(path.relative_to(self.scratch / "out")): data for path, data in found.items()},
            files,
        )

    def test_of_one_question(self):
        desk = Terminal(self, "desk", "--question", "b")
        shown = desk.until("Ballot: ")
        self.assertIn(
            "B The chair of the board\n  1 Ada Lovelace\n  2 Mary Somerville\n  3 None of these\nType a ballot as ada 2,3,1 (",
            shown,
        )
        self.assertNotIn("new roof", shown)
        desk.after("Ada: 1, 2, 3\n", f"ada:\n  {CHAIR}\n", ASKED)
        desk.after("y\n", "\n1 counted  ada\n", "Ballot: ")
        self.assertNotIn("motion", shown)
        for other in ("ada A 1,2", "ada A 1,2,3", "ada B 1,2,3"):
            desk.after(f"{other}\n", f"`{other}` is no ballot: ", "Ballot: ")
        desk.type("q\n")
        self.assert_lines("ada B 1,2,3")
        # nobody types a label there, so no words speak of labels that are missing
        form = "is no ballot: a ballot here is a name and its ranks, without a label; it was not entered.\n"
        said = self.tells(
            "desk --question a",
            f"`ben` {form}",
            f"`ben A 1,2` {form}",
            "A ballot line of this poll: `ada 2,1`: the ranks of 1 ",
            given="ben 1\nben\nben A yes\nben A 1,2\n",
        )
        self.assertNotIn("its label", said)
        for label in ("D", "AB"):
            said = "--question: the labels are A, B, C; nothing was entered: "
            self.assert_refused(f"desk --question {label}", 2, said)


class Held(QuestionsTest):
    def test_a_letter_is_dealt_with_as_a_whole(self):
        """By --enter, if all its ballots say the same, or by --as: then it waits no more. An answer that is left is typed, and one that was entered never again."""
        self.add(
            letter("ada", "ada A 1,2\n\nand for the board\n\nada B 1,2,3\n", time=at(9)),
            letter("ben", "ben\nA 1,2\n\nI say:\nBen A 1,2\n", time=at(9)),
            letter("cleo", "cleo A 1,2\nB: against\n", time=at(9)),
        )
        for number, why in ((1, "it has 2 ballots;"), (3, "it has 1 ballot, and other lines")):
            said = f"letter {number}: {why}"
            self.assert_refused(f"held {number} --enter --yes", 9, said)
        self.agrees("2 --enter", "\n1 counted  ben\n")
        self.done("held 1 --as 'ada A 1,2' --yes")
        self.done("held 3 --as 'cleo A 1,2' --as 'cleo B 3,1,2' --yes")
        self.assert_waiting(0)
        again = "letter 1: its ballot of ada was entered; nothing was changed: to enter another one in its place, run debvote-election strike 2 --because TEXT first"
        self.assert_refused("held 1 --as 'ada A 2,1 B 1,2,3' --yes", 9, again)
        self.done("held 1 --as 'ada B 1,2,3' --yes")
        self.assert_lines("ben A 1,2", "ada A 1,2", "cleo A 1,2", "cleo B 3,1,2", "ada B 1,2,3")

    def test_nothing_is_left_out_of_a_letter_whose_time_is_not_known(self):
        """Nobody knows which answer is the later one: it stops, and by force the whole letter is entered."""
        self.add(
            letter("ada", "ada A 1,2\n", number=1, time=at(9)),
            letter("ada", "ada A 2,1 B 1,2,3\n", number=2, time=None),
        )
        self.tells("held", "; may have voted since\n")
        enter = "held 2 --enter --yes"
        self.assert_refused(
            enter, 9, "letter 2: its elector may have voted since, as nobody knows when it arrived"
        )
        self.told(f"{enter} {FORCED}")
        self.assert_lines("ada A 1,2", "ada A 2,1 B 1,2,3")

    def test_a_late_line_is_later_than_no_letter(self):
        self.done("close --early --force --because x --yes")
        self.cast("ada B 3,2,1")
        self.add(letter("ada", "ada A 1,2 B 1,2,3\n", number=1, time=at(9)))
        self.assertNotIn("voted since", self.told("held 1"))
        self.assert_refused(
            "held 1 --enter --yes",
            9,
            "letter 1: it arrived in time, and the vote is closed; nothing was changed: if it has a ballot, run debvote-election reopen",
        )
        self.done("reopen --because x")
        self.tells("add --yes inbox.mbox", "1 ballot of letters went in; 0 letters wait")
        self.tells("show ada", "The current ballot: ada A 1,2 B 1,2,3:\n  A (")

    def test_a_late_line_that_would_replace_a_later_answer(self):
        """To the same question: only that needs force."""
        close = "close --early --force --because x --yes"
        self.done(close)
        self.cast("ada A 1,2", "ada B 1,2,3")
        self.done("reopen --because x")
        came = "--came-before-close yes"
        self.adds("ada A 2,1\n", words=f"{came} -")
        said = "desk:1: `ada A 1,2` was late before, and would replace envelope 3, which came in time; it was not entered"
        self.tells(f"desk {came}", said, given="ada A 1,2\nada B 1,2,3\n")
        self.assert_lines("ada A 2,1", "ada B 1,2,3")
        self.done(f"desk --force {came}", given="ada A 1,2\n")
        self.done(close)
        self.assertEqual(self.last("close")["replaced_in_time"], 1)

    def test_what_is_typed_has_the_form_of_a_ballot_and_only_valid_answers(self):
        self.add(letter("ada", "I say yes\n", number=1))
        for typed, why in {
            "ada 1,2": "bad shape",
            "ada A 1,2 B 1,2": "bad rank count: 2 ranks, the poll has 3 options",
            "ada A 1,2 A 1,2": "bad shape",
        }.items():
            said = f"`{typed}` is no ballot of this poll: {why}"
            self.assert_refused(f"held 1 --as '{typed}' --yes", 9, said)
        self.done("held 1 --as 'Ada: a 1,2' --yes")
        self.assert_lines("ada A 1,2")


class Sums(QuestionsTest):
    def test_whole_ballots_come_first(self):
        """Then those of which the answers differ, with how many answers to each question are what."""
        self.add_lines("ada A 1,2", "ben B 1,2,3")
        self.write(
            "more",
            "ada A 2,1 B 1,2,3\ncleo A 1,2,3 B 1,2,3\nben A 1,2 B 2,1,3\nada A 1,2 B 2,1,3 C 1,2,3,4\n",
        )
        sums = "1 counted, 1 bad rank count, 3 replaced in part: A counted 1, A replaced 2, B counted 1, B replaced 2, C counted 1"
        first = "3 A replaced, B counted  ada:\n  A ("
        self.tells("add more", first, f"Added 5 lines ({sums}).\n")
        self.tells(
            "desk",
            "This desk has entered 2 lines (1 counted, 1 replaced in part: A replaced 1, C counted 1).\n",
            given="cleo A 1,2\ncleo A 2,1 C 1,2,3,4\n",
        )


class TakenAway(QuestionsTest):
    def test_undo_takes_back_both_envelopes_of_a_line(self):
        self.add_lines("ada A 1,2")
        self.add_lines("ada A 2,1 B 1,2,3 C 1,2")
        self.assert_lines("ada A 1,2", "ada A 2,1 B 1,2,3", "ada C 1,2")
        self.tells("undo --yes", "Took back 2 lines (", f"\n  ada, as before:\n    {YES}\n")
        self.assert_lines("ada A 1,2")
        self.tells("show ada", f"The current ballot: ada A 1,2:\n  {YES}\n")

    def test_a_strike_brings_back_what_it_had_replaced(self):
        self.add_lines("ada A 1,2 B 1,2,3", "ada A 2,1")
        self.tells("show ada", f" (A replaced):\n    {YES}\n    {CHAIR}\n")
        self.tells(
            "strike 2 --because 'it was of ben' --yes",
            f"Another ballot of ada counts:\n  {YES}\n  {CHAIR}\n",
        )

    def test_a_letter_whose_later_answer_is_taken_away_is_judged_anew(self):
        """`strike` and `undo` name it, and the next `add` takes it whole."""
        for number, name in enumerate(("ada", "ben"), start=1):
            self.cast(f"{name} B 3,2,1")
            self.add(letter(name, f"{name} A 1,2 B 1,2,3\n", number=number, time=at(9)))
            self.assert_waiting(1, number)
            self.tells(
                "strike 1 --because x --yes" if name == "ada" else "undo --yes",
                f"\nletter {number}, from {name}@club.example, 2026-11-23 09:00:00 UTC: it goes in with the next add of letters\n",
                f"  line 1: {name} A 1,2 B 1,2,3\n",
            )
            self.tells("add --yes inbox.mbox", "1 ballot of letters went in; 0 letters wait")
        self.assert_lines("ada A 1,2 B 1,2,3", "ben A 1,2 B 1,2,3")

    def test_what_was_typed_stays_so_after_a_reopen(self):
        """Nothing of the letter's own line is entered beside it or in its place."""
        self.done("call --until '2026-11-25 09:20' --zone UTC")
        self.set_clock("2026-11-25T10:00:00+00:00")
        self.done("close --force --because x --yes")
        self.add(
            letter(
                "ada",
                "ada A 2,1 B 1,2,3\n\nNo, the other way round, and nothing on the chair.\n",
                time="Wed, 25 Nov 2026 09:30:00 +0000",
            )
        )
        self.done("held 1 --as 'ada A 1,2' --yes")
        self.done("reopen --because 'a slow server'")
        self.assertNotIn("--enter", self.told("undo --yes"))
        self.assert_refused("held 1 --as 'ada A 1'", 9, "is no ballot of this poll")

    def test_a_file_that_comes_again(self):
        """What came before is passed over, and of an answer that was replaced since it is told."""
        self.write("first", "ada A 1,2 B 1,2,3\nben C 1,2\n")
        self.done("add --force first")
        self.tells(
            "add first",
            "first: 2 lines are ignored, since they came before; 0 are new\nThere is nothing new",
        )
        self.add_lines("ada B 3,2,1")
        self.tells(
            "add first",
            "first:1: `ada A 1,2 B 1,2,3` came before, and ada has voted since (envelope 3)",
        )


class Told(QuestionsTest):
    def letters(self, kind: str) -> dict[str, str]:
        self.done(f"letters {kind}")
        files = (self.folder / "letters" / kind).rglob("*.eml")
        return {file.stem: text_in(file.read_bytes()) for file in files}

    def test_our_letter_below_a_ballot_has_no_answer(self):
        """As Outlook quotes it, it is a quotation; with no head above, as a sender may write it, it is looked at."""
        self.done("letters call")
        [file] = (self.folder / "letters" / "call").rglob("ada.eml")
        ours = parsed(file.read_bytes())
        for number, (head, lines) in enumerate(
            {
                "": [],
                "From: Vote\nSent: 20 November 2026 09:00\nSubject: Vote\n\n": ["ada A 1,2"],
            }.items()
        ):
            self.add(letter("ada", f"ada A 1,2\n\n{head}{ours.get_content()}", number=number))
            self.assertEqual(self.lines(), lines)

    def test_receipts_say_what_of_a_ballot_does_not_count(self):
        self.add_lines("ada A 1,2 B 1,2,3", "ada A 2,1", "ben A 1,2 B 1,2", words=["--force"])
        texts = self.letters("receipts")
        self.assertEqual({*texts}, {"ada", "ben"})
        not_all = "These of its answers do not count; others of yours, which were entered after them, count instead: A (Raise the fee to 72 Euro)."
        self.assertIn(
            f"It counts unless you send a later one. {not_all} It was read as: {YES} {CHAIR} ",
            texts["ada"],
        )
        self.assertIn(f"It was read as: {NO} If you have not sent this", texts["ada"])
        self.assertIn(
            "It is not a valid ballot of this vote, so it does not count. One of its answers has 2 ranks, and the question has 3 options. If you have not",
            texts["ben"],
        )

    def test_who_has_answered_one_question_is_not_reminded(self):
        self.add_lines("ada B 1,2,3", "ben B 1,2", words=["--force"])
        self.assertEqual({*self.letters("reminders")}, {*self.names} - {"ada"})

    def test_status(self):
        self.add_lines("ada A 1,2 B 1,2,3", "ada A 2,1", "ben A 1,2 B 1,2", words=["--force"])
        said = self.told("status")
        self.assertIn("Question A: Raise the fee to 72 Euro: 2 electors answered\n", said)
        self.assertIn("Question B: The chair of the board: 1 elector answered\n", said)
        # one line for equal quorums
        self.assertIn("Question C: A new roof: 0 electors answered\nQuorum: 2 votes (1Q)", said)
        self.assertEqual(said.count("Quorum: "), 1)
        # ben has a ballot, but none of the question whose answer was refused
        self.assertIn(
            "  envelope 4: ben B 1,2\n    bad rank count: 2 ranks, the poll has 3 options\n", said
        )
        state = self.numbers()
        self.assertEqual(
            [state[key] for key in ("lines", "valid", "refused", "voters")], [4, 3, 1, 2]
        )
        b = {
            "title": "The chair of the board",
            "stage": "called",
            "lines": 2,
            "valid": 1,
            "refused": 1,
            "voters": 1,
            "late": 0,
        }
        self.assertEqual(state["questions"]["B"], b)


class Many(QuestionsTest):
    """Ballots of more answers than are read at once are told as they are entered, one on a line."""

    names = [f"m{number:02}" for number in range(1, 15)]

    def ballots(self, answers: str) -> list[str]:
        return [f"{name} {answers}" for name in self.names]

    def test_lines(self):
        few = self.add_lines(*self.ballots("A 1,2 B 1,2,3")[:2])
        self.assertIn(f"1 counted  m01:\n  {YES}\n  {CHAIR}\n2 counted  m02:\n", few)
        said = self.add_lines(*self.ballots("A 2,1 B 1,2,3 C 1,2,3,4"))
        replies = ["A replaced, B replaced, C counted"] * 2 + ["counted"] * 12
        told = [
            f"{number} {reply}  {name}: A 2,1 B 1,2,3 C 1,2,3,4"
            for number, (reply, name) in enumerate(zip(replies, self.names), start=3)
        ]
        self.assertEqual(
            said.splitlines()[:15], [*told, "Each in words: debvote-election show NAME"]
        )
        self.tells("show m01", "  A (Raise the fee to 72 Euro): No, as it is, then")

    def letters(self, answers: str, number: int, **how: str) -> list[bytes]:
        """A letter of each, with numbers from this one on."""
        ballots = zip(self.names, self.ballots(f"{answers} B 1,2,3 C 1,2,3,4"))
        return [
            letter(name, f"{ballot}\n", number=number + place, **how)
            for place, (name, ballot) in enumerate(ballots)
        ]

    def test_letters(self):
        said = self.add(*self.letters("A 1,2", 0)[:2])
        self.assertIn(f"\nm01 (letter 1):\n  {YES}\n  {CHAIR}\n  C (A new roof): Slate", said)
        self.assertIn("\n1 counted  m01\n2 counted  m02\n", said)
        said = self.add(*self.letters("a: 2, 1", 20, time=at(11)))
        lines = said.splitlines()
        first = lines.index(
            "m01 (letter 3, written `m01 a: 2, 1 B 1,2,3 C 1,2,3,4`): A 2,1 B 1,2,3 C 1,2,3,4"
        )
        self.assertTrue(lines[first + 13].startswith("m14 (letter 16, written"), said)
        self.assertEqual(lines[first + 14], "Each in words: debvote-election show NAME")
        self.assertIn("\n3 replaced  m01\n4 replaced  m02\n5 counted  m03\n", said)


class OfAMotion(QuestionsTest):
    polls = QuestionsTest.polls | {"A": f"{QuestionsTest.polls['A']}motion = true\n"}

    def test_a_letter_answers_it_where_no_label_is_typed(self):
        desk = Terminal(self, "desk", "--question", "a")
        words = "\nIn place of the ranks of a motion: yes, no, abstain, y, n, a.\n"
        self.assertIn(words, desk.until("Ballot: "))
        desk.after("ada n\n", "Euro): No\n", ASKED)
        desk.after("y\n", "Ballot: ")
        desk.ends("q\n")
        desk = Terminal(self)
        self.assertIn(words.replace(", y, n, a", ""), desk.until("Ballot: "))
        desk.after("ben A n\n", "`ben A n` is no ballot", "Ballot: ")
        desk.ends("q\n")
        self.assert_lines("ada A 2,1")


class Quorums(QuestionsTest):
    polls = {
        label: poll.replace("quorum = 1", f"quorum = {int(label != 'B')}")
        for label, poll in QuestionsTest.polls.items()
    }

    def test_each_is_told(self):
        found = re.findall(r"(?m)^Question (.).*\n  Quorum: (\w+)", self.told("status"))
        self.assertEqual(found, [("A", "2"), ("B", "none"), ("C", "2")])
