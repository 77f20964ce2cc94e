"""`undo`: the last act that entered lines is taken back, and nothing else."""

import re

import pytest

from tests.support import elections
from tests.support.election_books import HALL, LAKE, CalledTest
from tests.support.letters import OTHER_RANKS, RANKS
from tests.support.questions import QuestionsTest
from tests.support.terminal import Terminal

NOTHING = "undo: there is nothing to take back; nothing was changed: "
NOT_AGAIN = (
    "The secretary took back ballots that had been entered. Not entered again as they were: "
)


class Undo(CalledTest):
    def test_one_after_the_other(self):
        self.adds(f"ada {RANKS}\nben {RANKS}\n")
        self.write("monday", f"ada {OTHER_RANKS}\ncleo {RANKS}\nx\n")
        first = self.first_act
        for act, numbers in ((first + 1, "3-5"), (first + 3, "6-8")):
            self.told("add monday")
            self.assertRegex(
                self.told("undo"),
                rf"^Took back 3 lines \(act {act}: add of monday, .* UTC, envelopes {numbers}\)\.\n  ada, as before: {LAKE}\n  cleo: no ballot is left\n",
            )
            self.assert_lines(f"ada {RANKS}", f"ben {RANKS}")
        self.cast(f"dan {RANKS}")
        next_one = (
            "Another debvote-election undo takes back the act before.\nNext: 4 receipts are .*\n"
        )
        said = rf"^Took back 1 line \(act {first + 5}: desk, [-\d]+ [:\d]+ UTC, envelope 9\)\.\n  dan: no ballot is left\n{next_one}$"
        self.assertRegex(self.told("undo"), said)
        # the one before that is not taken back yet; before it is none
        said = (
            rf"^Took back 2 lines \(act {first}: add of standard input, .* UTC, envelopes 1-2\)\.\n"
        )
        self.assertRegex(self.told("undo"), rf"{said}  [^A]*\nNext: .*\n$")
        self.assert_lines()
        self.assert_refused("undo", 9, NOTHING)
        self.assertEqual(
            [detail for name, detail in self.acts() if name == "undo"],
            [{"act": first + number} for number in (1, 3, 5, 0)],
        )
        self.assertEqual(
            [envelope.struck - first for envelope in self.envelopes()],
            [7, 7, 2, 2, 2, 4, 4, 4, 6],
        )
        self.book.demand_whole()

    def test_an_envelope_that_was_struck_already(self):
        self.adds(f"ada {OTHER_RANKS}\n")
        self.adds(f"ada {RANKS}\nben {RANKS}\ncleo {RANKS}\n")
        for number in (3, 1):
            self.told(f"strike {number} --because 'a test'")
        left = "  ada: no ballot is left\n  cleo: no ballot is left\n"
        said = rf"^Took back 2 lines \(act .*, envelopes 2, 4\)\.\n{left}Next: 3 receipts "
        self.assertRegex(self.told("undo"), said)
        struck = [envelope.struck - self.first_act for envelope in self.envelopes()]
        self.assertEqual(struck, [3, 4, 2, 4])
        # of an act of which nothing stands there is nothing to take back, but what came before it
        self.adds(f"ada {RANKS}\n")
        self.cast(f"ben {RANKS}")
        self.told("strike 6 --because 'a test'")
        said = rf"^Took back 1 line \(act {self.first_act + 5}: add of standard input, .*, envelope 5\)\.\n  ada: no ballot is left\n"
        self.assertRegex(self.told("undo"), said)
        self.cast(f"cleo {RANKS}")
        self.told("strike 7 --because 'a test'")
        self.assert_lines()
        self.assert_refused("undo", 9, NOTHING)

    def test_after_the_close_and_after_reopen(self):
        self.adds(f"ada {RANKS}\n")
        self.told("close")
        said = " UTC, and its ballots stay; nothing was changed: if they are wrong, see debvote-election reopen"
        self.assert_refused("undo", 9, "the vote was closed at ", said)
        self.adds(f"ben {RANKS}\n")
        self.told("reopen --because 'a bag was forgotten'")
        # a late line counts for nothing when a later one is taken back, and has changed nothing that stands
        self.told("add --came-before-close yes", given=f"ben {OTHER_RANKS}\n")
        self.tells("undo", "\n  ben: no ballot is left\n")
        self.assertRegex(self.told("undo"), r"^Took back 1 line \(.*, envelope 2\)\.\nAnother ")
        self.assertEqual((self.lines(), self.late_lines()), ([f"ada {RANKS}"], []))

    def test_what_is_not_entered_again_is_told(self):
        """By status, close, page and letter; not what has come again with the same ranks, was refused, or was late."""
        self.adds(f"ada {RANKS}\nben {RANKS}\ncleo {RANKS}\ndan 1,2\n")
        self.told("undo")
        self.adds(f"ada {RANKS}\nben {OTHER_RANKS}\n")
        self.told("strike 5 --because 'a test'")
        said = "Strikes: 1. Taken back, and not entered again as they were: 3 (envelopes 1-3)."
        self.tells("status", f"\n{said}\n")
        numbers = self.numbers()
        self.assertEqual((numbers["struck"], numbers["taken_back"]), (1, 3))
        self.cast(f"ada {RANKS}")
        said = said.replace("3 (envelopes 1-3)", "2 (envelopes 2-3)")
        self.tells("close", f" {said} End of the vote: ")
        self.election("publish")
        for name in ("letters/result.txt", "result/index.html"):
            self.assertIn(f"{NOT_AGAIN}envelopes 2-3.", self.text(name))

    def test_another_order_is_told(self):
        """The same lines may have another winner then."""
        first, last = f"ada {RANKS}\n", f"ada {OTHER_RANKS}\n"
        self.adds(f"{first}{last}ben {RANKS}\n")
        for given in (first + last, last + first):
            self.assertEqual(self.numbers()["taken_back"], 0)
            self.told("undo")
            self.adds(f"{given}ben {RANKS}\n")
        self.tells("status", "not entered again as they were: 2 (envelopes 2, 5).\n")
        # who chose one, another, and the first again, did so in the same order
        again = first + last + first
        for given in (again, again):
            self.told("undo")
            self.adds(f"{given}ben {RANKS}\n")
            self.tells("status", "not entered again as they were: 2 (envelopes 2, 5).\n")
        self.told("undo")
        self.adds(f"{first}{first}{last}ben {RANKS}\n")
        # what is typed now did not come before
        self.cast(f"ben {OTHER_RANKS}", f"ben {RANKS}")
        self.tells("close", "not entered again as they were: 3 (envelopes 8, 12, 16).")

    def test_an_act_is_known_by_its_envelopes_whatever_its_name_is(self):
        self.enter_letter("offer")
        said = rf"Took back 1 line \(act {self.first_act}: offer, (?s:.*)1 letter then waits again, as taken back: 1\n"
        self.assertRegex(self.told("undo"), said)
        self.assert_lines()
        self.assert_state("taken back")


class Secret(CalledTest):
    poll = f"{elections.POLL}secret = true\n"

    def test_how_many_are_told_and_not_which(self):
        self.adds(f"ada {RANKS}\nben {RANKS}\ncleo {RANKS}\n")
        self.told("undo")
        self.adds(f"ben {RANKS}\ncleo {OTHER_RANKS}\ndan {OTHER_RANKS}\n")
        self.tells("status", "\nStrikes: 0. Taken back, and not entered again as they were: 2.\n")
        self.tells("close", " Taken back, and not entered again as they were: 2. End")
        self.done("publish")
        for name in ("letters/result.txt", "result/index.html"):
            self.assertIn(f"{NOT_AGAIN}2.", self.text(name))
            self.assertNotIn("envelopes 1", self.text(name))


@pytest.mark.whole
class OfQuestions(QuestionsTest):
    def test_each_question_for_itself(self):
        """What is entered again in parts is entered again; each page tells of the answers to its question, the letter of all."""
        self.add_lines("ada A 1,2 B 1,2,3", "ben A 1,2 B 1,2,3", "cleo C 1,2,3,4", "dan C 2,1,3,4")
        self.told("undo")
        self.add_lines("ada A 1,2", "ada B 1,2,3", "ben A 1,2 B 2,1,3", "cleo C 1,2,3,4")
        self.tells("status", " not entered again as they were: 2 (envelopes 2, 4).\n")
        self.told("close")
        self.election("publish")
        told = {"A": [], "B": ["envelopes 2"], "C": ["envelopes 4"], "": ["envelopes 2 (B), 4 (C)"]}
        for label, envelopes in told.items():
            file = f"result/{label}/index.html" if label else "letters/result.txt"
            found = re.findall(rf"{NOT_AGAIN}(.*?)\.", self.text(file))
            self.assertEqual(found, envelopes, file)


class AtATerminal(CalledTest):
    def setUp(self):
        super().setUp()
        self.adds(f"ada {RANKS}\n")
        self.adds(f"ada {OTHER_RANKS}\nben {RANKS}\nx\n")
        self.before = self.last_act()

    def asked(self) -> Terminal:
        """It shows what would stand, and asks."""
        terminal = Terminal(self, "undo")
        self.assertRegex(
            terminal.until("? [y/n] "),
            rf"^  ada, as before: {LAKE}\n  ben: no ballot would be left\nTake back 3 lines \(.*, envelopes 2-4\)\? ",
        )
        return terminal

    def test_answers(self):
        """No answer, at the end of the input, is a no; with --yes nothing is asked."""
        for keys in ("n\n", "\x04"):
            self.asked().ends(keys, ": you did not say yes; nothing was changed: ", status=9)
            self.assertEqual(self.last_act(), self.before)
        lines = self.lines()
        self.cast(f"ada {RANKS}")
        terminal = Terminal(self, "undo")
        self.assertIn(f"  ada, as before: {HALL}\n", terminal.until("? [y/n] "))
        terminal.ends("y\n")
        self.assert_lines(*lines)
        shown = self.asked().ends("y\n")
        self.assertRegex(shown, r"Took back 3 lines \(.*\)\.\nAnother ")
        self.assert_lines(f"ada {RANKS}")
        shown = Terminal(self, "undo", "--yes").ends("")
        self.assertRegex(shown, r"^[^[]*  ada: no ballot is left\n[^[]*$")
        self.assert_lines()

    def test_what_was_shown_is_what_is_taken_back(self):
        """Another act while it asks: it shows what would be taken back now, and asks anew."""
        terminal = self.asked()
        self.adds(f"cleo {RANKS}\n")
        terminal.after("y\n", "  cleo: no ballot would be left\nTake back 1 line (", "? [y/n] ")
        self.assertEqual(self.last_act(), self.before + 1)
        # another undo takes this one, and the one before is asked about again
        self.told("undo")
        terminal.after("y\n", "Take back 3 lines (", "? [y/n] ")
        # so it is where an envelope of it is struck
        self.told("strike 2 --because 'a test'")
        terminal.after("y\n", "Take back 2 lines (", "? [y/n] ")
        # an act that changes nothing of it
        self.act("extend", {"until": "2099-12-04T18:00:00+00:00"})
        self.assertNotIn("[y/n]", terminal.ends("y\n"))
        self.assert_lines(f"ada {RANKS}")

    def test_a_close_meanwhile(self):
        terminal = self.asked()
        self.told("close")
        terminal.ends("y\n", "the vote was closed at ", status=9)
        self.assertEqual(len(self.lines()), 4)
