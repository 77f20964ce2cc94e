"""`desk`: by hand at a terminal, and from a pipe, where what is no ballot takes no room."""

import re
import signal
import subprocess
import sys
import time

import pytest

from tests.support import elections
from tests.support.election_books import HALL, LAKE, CalledTest
from tests.support.letters import OTHER_RANKS, RANKS
from tests.support.terminal import Terminal

CAST = "Enter it? [y/n] "
REPLACED = "ada has a ballot, which will be replaced: "
CAST_REFUSED = "What is refused does not count. Type the line anew, or enter to enter it so: "

PASSED = "Note: the announced end of the vote, Friday, 4 December 2020, 18:00 (UTC+01:00), has passed; what is entered still counts until "


class TerminalTest(CalledTest):
    def at_terminal(self, head: str = "") -> Terminal:
        """A desk that waits for the first ballot; it has shown these words."""
        desk = Terminal(self)
        self.assertIn(head, desk.until("Ballot: "))
        return desk


class AtATerminal(TerminalTest):
    def test_a_ballot_is_shown_and_cast(self):
        desk = self.at_terminal(
            "  1 At the lake\n  2 In the town hall\n  3 Sell the house and meet there\n  4 Further discussion\n"
            "Type a ballot as ada 2,3,4,1 (the elector, then a rank for each option in this order); q ends.\n"
        )
        before, changed = self.last_act(), "desk:1: `Ada 1, 2,4,3` was changed to `ada 1,2,4,3`\n"
        shown = desk.after("Ada 1, 2,4,3\n", CAST)
        self.assertTrue(shown.endswith(f"{changed}ada: {LAKE}\n{CAST}"), shown)
        self.assertEqual(self.last_act(), before)
        self.assertEqual(desk.after("y\n", "Ballot: "), "y\n1 counted  ada\nBallot: ")
        self.assert_lines(f"ada {RANKS}")
        desk.after(f"ada {OTHER_RANKS}\n", f"{REPLACED}{LAKE}\n", CAST)
        desk.after("YES\n", "\n2 replaced  ada\n", "Ballot: ")
        desk.ends(
            "q\n",
            "This desk has entered 2 lines (1 counted, 1 replaced).\nNext: 1 receipt is not written: debvote-election letters receipts --send",
        )
        self.assertEqual(self.acts(), [("desk", {"lines": 1})] * 2)
        self.assertEqual(
            [(one.elector, one.source, one.time, one.is_late) for one in self.envelopes()],
            [(self.elector("ada"), None, act.time, False) for act in self.book.acts()[before:]],
        )

    def test_a_no_forgets_and_another_answer_is_asked_again(self):
        """The end of the input and an interrupt are a no, too."""
        before, desk = self.last_act(), self.at_terminal()
        shown = desk.after(f"ada {RANKS}\nperhaps\nn\n", "It was not entered.")
        self.assertIn("Type y for yes, or n for no.\n", shown)
        desk.until("Ballot: ")
        desk.after("\n", "Type a ballot, or q to end.\n", "Ballot: ")
        desk.ends("\x04", "\nThis desk has entered 0 lines.\n")
        for key in ("\x04", "\x03"):
            desk = self.at_terminal()
            desk.after(f"ada {RANKS}\n", CAST)
            # and no traceback
            self.assertRegex(
                desk.ends(key), r"^[^T]*This desk has entered 0 lines\.\nNext: 9 letters .*\n$"
            )
        self.assertEqual(self.last_act(), before)

    def test_a_refused_line_is_told_once_and_may_be_cast(self):
        desk = self.at_terminal()
        for line, words in {
            "Gsu 1,2,3,4": "bad not on roll: gsu is not on the roll",
            "Ada 1,,3,4": 'bad shape: column 7: ","; a ballot has a rank there: a number from 1 to 99, or a hyphen for an option that is not ranked, and so last',
            "Ada 1,2": "bad rank count: 2 ranks, the poll has 4 options",
        }.items():
            # the terminal shows what was typed ahead before it or behind it
            self.assertRegex(
                desk.after(f"{line}\n\n", CAST_REFUSED),
                rf"\n(\n)?It would be refused: {line}: {re.escape(words)}\nA ballot line of this poll: `ada 2,3,4,1`: [^\n]*; 1 is the best\nWhat",
            )
            desk.until("Ballot: ")
        # a yes, which comes by habit, enters nothing, and what is typed then is a line
        desk.after("gsu 1,2,3,4\n", CAST_REFUSED)
        desk.after("y\n", "It was not entered.\nIt would be refused: y: ", CAST_REFUSED)
        desk.after("gus 1,2,3,4\n", CAST)
        desk.after("n\n", "Ballot: ")
        desk.after("gsu 1,2,3,4\nEnter\n", "1 bad not on roll  gsu 1,2,3,4\n", "Ballot: ")
        desk.ends("q\n")
        self.assert_lines("gsu 1,2,3,4")

    def test_another_desk_casts_for_the_same_elector_meanwhile(self):
        first, second = self.at_terminal(), self.at_terminal()
        for desk in (first, second):
            self.assertNotIn("has a ballot", desk.after(f"ada {RANKS}\n", CAST))
        second.after("y\n", "1 counted  ada\n", "Ballot: ")
        # what was agreed to is another thing now, so it is asked anew
        shown = first.after("y\n", CAST)
        self.assertIn(
            "Nothing was done: another command changed the election meanwhile. Now it is so:\n",
            shown,
        )
        self.assertIn(f"{REPLACED}{LAKE}\n", shown)
        self.assert_lines(f"ada {RANKS}")
        first.after("y\n", "2 replaced  ada\n", "Ballot: ")
        second.after(f"ada {OTHER_RANKS}\n", f"{REPLACED}{LAKE}\n", CAST)
        # a ballot that is struck meanwhile changes it, too
        self.told("strike 2 --because 'a test'")
        second.after("y\n", CAST)
        second.ends("n\nq\n")
        first.ends("q\n")
        self.assert_lines(f"ada {RANKS}")

    def test_other_acts_meanwhile(self):
        """Those about others ask nothing anew; after a close what is entered is late."""
        desk = self.at_terminal()
        self.assertNotIn("late", desk.after(f"ada {RANKS}\n", CAST))
        self.adds(f"ben {RANKS}\n")
        desk.after("y\n", "2 counted  ada\n", "Ballot: ")
        self.assertNotIn("late", desk.after(f"cleo {RANKS}\n", CAST))
        self.told("close")
        desk.after("y\n", "It is late, and will not count.\n", CAST)
        self.assertEqual(self.late_lines(), [])
        desk.after("y\n", "3 late  cleo\n", "Ballot: ")
        desk.ends("q\n")
        self.assertEqual(
            (self.lines(), self.late_lines()), ([f"ben {RANKS}", f"ada {RANKS}"], [f"cleo {RANKS}"])
        )
        desk = Terminal(self)
        desk.until("Note: the vote was closed at ")
        desk.until("; what is entered now is late.")
        desk.until("Ballot: ")
        late = f"\nada: {HALL}\nIt is late, and will not count.\n"
        desk.after(f"ada {OTHER_RANKS}\n", late, CAST)
        desk.ends("y\nq\n", "4 late  ada\n")

    def test_the_end_meanwhile(self):
        """It is told once, above the reply to the first ballot after it; of a late one its reply says so."""
        desk = self.at_terminal()
        self.assertNotIn("Note: ", desk.after(f"ada {RANKS}\ny\n", "Ballot: "))
        self.act("extend", {"until": "2020-12-04T18:00:00+01:00"})
        shown = desk.after(f"ben {RANKS}\ny\n", "Ballot: ")
        self.assertRegex(shown, rf"{re.escape(PASSED)}.*\n2 counted  ben\n")
        self.assertNotIn("Note: ", desk.after(f"cleo {RANKS}\ny\n", "Ballot: "))
        self.told("close")
        self.assertNotIn("Note: ", desk.ends(f"dan {RANKS}\ny\nq\n"))
        self.assertEqual(self.late_lines(), [f"dan {RANKS}"])

    def test_another_call_meanwhile(self):
        """The options have other numbers now."""
        desk = self.at_terminal()
        self.told("call --take-back")
        options = ['"At the lake"', '"In the town hall"']
        changed = self.poll.replace(", ".join(options), ", ".join(options[::-1]))
        self.write("poll.toml", changed)
        self.told("call --to vote@club.example")
        said = (
            "the call for votes was made anew meanwhile; nothing was entered: run the command again"
        )
        desk.ends(f"ada {RANKS}\nn\nq\n", said, status=9)
        self.assert_lines()

    def test_after_reopen_it_asks_once(self):
        before = self.at_terminal()
        self.told("close")
        self.told("reopen --because 'a bag was forgotten'")
        asked = "Did this come before that close? [y/n] "
        for answer, first, second in (
            ("y", "1 counted  ada\n", "2 counted  ben\n"),
            ("n", "3 late  ada\n", "4 late  ben\n"),
        ):
            desk = Terminal(self)
            desk.until(asked)
            desk.after(f"{answer}\n", "Ballot: ")
            desk.after(f"ada {RANKS}\ny\n", first)
            desk.ends(f"ben {RANKS}\ny\nq\n", second)
        answers = [detail["came_before_close"] for name, detail in self.acts() if name == "desk"]
        self.assertEqual(answers, [True, True, False, False])
        self.assertEqual((len(self.lines()), len(self.late_lines())), (2, 2))
        # so does a desk that was there before
        before.after(f"ada {RANKS}\n", asked)
        before.after("n\n", "It is late, and will not count.\n", CAST)
        before.ends("y\nq\n", "5 late  ada\n")

    def test_notes_at_its_head(self):
        self.act("extend", {"until": "2020-12-04T18:00:00+01:00"})
        self.at_terminal(PASSED).ends(f"ada {RANKS}\ny\nq\n", "1 counted  ada\n")
        self.act("announce", {"signed": True}, {"keyring": b"keys"})
        self.at_terminal(
            "Note: in this vote letters must be signed, and a desk checks no signature: "
        )


class NamesAreCompleted(TerminalTest):
    names = [
        "anna-meier",
        "anna-schmidt",
        "ben",
        "benno",
        "clara-müller-lange",
        *(f"elector-{number}" for number in range(11)),
    ]

    def test_a_part_of_one_name(self):
        desk = self.at_terminal()
        # a tab, as whoever knows it from a shell types it
        completed = "completed to `clara-muller-lange`\n"
        for typed in ("Clara ", "lang\t", "LANGE Clara ", "Clara Müller ", "clara muller\t"):
            shown = f"` was {completed}clara-muller-lange: At the lake, "
            desk.after(f"{typed}1, 2,4,3\n", shown, CAST)
            desk.after("n\n", "Ballot: ")
        # a name that is whole, and part of another
        self.assertRegex(desk.after("ben 1,2,4,3\n", CAST), "(?m)^(Ballot: )?ben: At the lake, ")
        refused = f"{completed}It would be refused: clara-muller-lange 1 2 4 3: "
        desk.after("n\nclara 1 2 4 3\n", refused, CAST_REFUSED)
        # what has no ranks, and what is part of no name
        for typed in ("clara x", "anna lange 1,2,4,3", "Clara Meier 1,2,4,3"):
            # in place of what is refused
            desk.after(f"{typed}\n", f"\nIt would be refused: {typed}: bad ", CAST_REFUSED)
        desk.ends("q\n")

    def test_of_several_one_is_chosen(self):
        desk = self.at_terminal()
        desk.after(
            "Anna 1,2,4,3\n",
            "`anna` is part of 2 names:\n  1 anna-meier (Anna-Meier)\n  2 anna-schmidt (Anna-Schmidt)\n",
            "Type the number of one, or n for none: ",
        )
        desk.after("2\n", "\nanna-schmidt: At the lake, ", CAST)
        desk.after("y\n", "Ballot: ")
        for answer in ("n\n", "3\n", "0\n", "\n", "ben 1,2,3,4\n", "\x04"):
            desk.after("anna 2,1,4,3\n", "for none: ")
            desk.after(answer, "It was not entered.\nBallot: ")
        desk.after(
            "elector 1,2,4,3\n",
            "`elector` is part of 11 names:\n  1 elector-0 (Elector-0)\n",
            "\n  9 elector-8 (Elector-8)\nType the number of one, or n for none: ",
        )
        desk.ends("10\nq\n")
        self.assert_lines("anna-schmidt 1,2,4,3")

    def test_not_from_a_pipe_and_not_by_add(self):
        for command in ("desk", "add"):
            self.told(command, given="clara 1,2,4,3\n")
        self.assert_lines(*["clara 1,2,4,3"] * 2)

    def test_no_code_is_completed(self):
        self.act("codes", {"on_roll": True})
        desk = self.at_terminal("Type a ballot as CODE 2,3,4,1 (the code, then a rank ")
        for typed in ("clara 1,2,4,3", "anna 1,2,4,3", "anna-maier 1,2,4,3", "Meier 1,2,4,3"):
            shown = desk.after(f"{typed}\n", CAST_REFUSED)
            self.assertEqual([name for name in self.names if name in shown], [])
            desk.after("\n", "Ballot: ")
        desk.ends("q\n")


class WholeNames(TerminalTest):
    members = "who,name,mail\nAnna Meier,meier,\nAnna Meier-Huber,anna-meier-huber,\nBen Müller,ben-1,\nBen Müller,ben-2,\nMüller Ben,ben-3,\n"
    # one has the name on the roll that is another's real name
    members += "Maximilian Mayer,max,\nMax,max-2,\n"

    def test_they_come_before_parts(self):
        """A name of one elector alone is that elector's; of those who share it one is chosen."""
        desk = self.at_terminal()
        changed = f"` was changed to `meier {RANKS}`\nmeier: At the lake, "
        desk.after(f"Anna  Meier {RANKS}\n", changed, CAST)
        desk.after("n\n", "Ballot: ")
        desk.after(f"Meier Anna {RANKS}\n", "`meier Anna` is part of 2 names:", "for none: ")
        desk.after("n\n", "Ballot: ")
        listed = "` is part of 2 names:\n  1 ben-1 (Ben Müller)\n  2 ben-2 (Ben Müller)\n"
        desk.after(f"Ben Müller {RANKS}\n", listed, "for none: ")
        desk.after("2\n", "\nben-2: At the lake, ", CAST)
        listed = "` is part of 2 names:\n  1 max (Maximilian Mayer)\n  2 max-2 (Max)\n"
        desk.after(f"n\nMax {RANKS}\n", listed, "for none: ")
        desk.after("2\n", "\nmax-2: At the lake, ", CAST)
        # as it stands on the roll it is that of one
        self.assertRegex(desk.after(f"n\nmax {RANKS}\n", CAST), "(?m)^(Ballot: )?max: At the ")
        desk.ends("n\nq\n")


class FromAPipe(CalledTest):
    def answer(self, desk: subprocess.Popen[str], text: str, reply: str):
        """The next line of a desk after it is sent this begins so."""
        desk.stdin.write(text)
        desk.stdin.flush()
        self.assertRegex(desk.stdout.readline(), f"^{reply}")

    def test_each_line_is_answered_at_once(self):
        desk = self.desk()
        for number, name in enumerate(("ada", "ben", "cleo"), start=1):
            self.answer(desk, f"{name} {RANKS}\n", f"{number} counted  {name}: {LAKE}\n$")
            self.assertEqual(len(self.lines()), number)
        self.told("close")
        self.answer(desk, f"dan {RANKS}\n", "4 late  dan: ")
        output, faults = desk.communicate()
        self.assertIn("This desk has entered 4 lines (3 counted, 1 late).\n", output)
        self.assertEqual((desk.returncode, faults), (0, ""))
        self.assertEqual((len(self.lines()), self.late_lines()), (3, [f"dan {RANKS}"]))

    def test_line_ends_that_come_in_parts(self):
        desk = self.desk()
        self.answer(desk, "\ufeffada 1,2,4,3\r", "1 counted  ada: ")
        desk.stdin.write("\nben 1,2")
        desk.stdin.flush()
        time.sleep(0.1)
        output, _ = desk.communicate(",4,3\rcleo 1,2,4,3")
        found = re.findall(r"(?m)^\d (\w+  \w+): |(it is empty)", output)
        self.assertEqual(found, [("counted  ben", ""), ("counted  cleo", "")])
        self.assert_lines(*(f"{name} 1,2,4,3" for name in ("ada", "ben", "cleo")))

    def test_lines_are_taken_as_add_takes_them(self):
        words = "2 bad shape  q: column 2: end of line; a ballot has a space there, or more of the name: a to z, 0 to 9, . or -\n"
        self.tells(
            "desk",
            "desk:1: `Ada 1,2,4,3` was changed to `ada 1,2,4,3`\n1 counted  ada: ",
            "desk:2: it is empty, and was left out\n",
            words,
            "gsu is not on the roll\nA ballot line of this poll: ",
            given="Ada 1,2,4,3\r\n\nq\ny\ngsu 1,2,4,3\n",
        )
        self.assert_lines("ada 1,2,4,3", "q", "y", "gsu 1,2,4,3")
        # a letter is told, and not entered
        letter = "Dear secretary, " * 13_000
        said = f"desk:2: the line has {len(letter)} bytes, and a ballot has a few dozen; it was not entered.\n"
        self.tells(
            "desk",
            f"{said}  To add it from a file: debvote-election add --force FILE\n",
            "This desk has entered 2 lines (1 replaced, 1 counted).",
            given=f"ada 1,2,3,4\n{letter}\nben 1,2,3,4\n",
        )
        self.assertEqual(self.lines()[4:], ["ada 1,2,3,4", "ben 1,2,3,4"])
        before = self.last_act()
        for given in ("", "\n\n"):
            self.tells("desk", "This desk has entered 0 lines.\n", given=given)
        self.assertEqual(self.last_act(), before)

    def test_the_head_of_a_table_stops_it(self):
        """The columns may stand in another order than the options. Nothing of what came in one go with it goes in."""
        said = "desk: the lines look like a table; its columns may stand in another order than the options; "
        head, row = "Name None,Sell,Repair,Dinghy", "ada 4,1,2,3\n"
        right = "write each line as a name and its ranks in the order of the options"
        why = f"look at what came (desk:1: {head}: bad shape: "
        self.assert_refused("desk", 4, said, why, right, given=f"{head}\n{row}")
        self.assert_lines()
        desk = self.desk()
        self.answer(desk, f"{head}\n", "1 bad shape  Name")
        self.assertIn(said, "".join(desk.communicate(row)))
        self.assert_lines(head)
        self.assert_refused("desk", 4, said, given=f"{row}{head}\n{row}")
        desk = self.desk()
        self.answer(desk, f"ben {RANKS}\n", "2 counted  ben")
        self.answer(desk, "Name A/B/C/D\n", "3 bad shape  Name")
        self.assertIn(said, "".join(desk.communicate(f"dan\n{row}")))
        self.assertEqual(len(self.lines()), 3)
        # a refused ballot is no head, nor is one with a wrong name
        self.cast(f"Mrs Lovelace {RANKS}", f"ada {RANKS}", "Name 1,1,2,3", f"ben {RANKS}")
        self.cast("adda 2,1,4,3", f"ben {RANKS}")

    @pytest.mark.whole
    def test_many_lines_in_one_go(self):
        lines = [f"ada {number // 99 + 1},{number % 99 + 1},1,2" for number in range(9000)]
        found = re.findall(r"(?m)^(\d+) (?:counted|replaced)  ", self.cast(*lines))
        self.assertEqual((found, self.lines()), ([*map(str, range(1, 9001))], lines))

    def test_lines_that_came_before_are_cast_again(self):
        first = self.names[:4]
        self.cast(*(f"{name} {ranks}" for name in first for ranks in (RANKS, OTHER_RANKS)))
        said = self.cast(*(f"{name} {RANKS}" for name in self.names))
        wanted = [("replaced" if name in first else "counted", name) for name in self.names]
        self.assertEqual(re.findall(r"(?m)^\d+ (counted|replaced)  (\w+): ", said), wanted)

    def test_an_interrupt_ends_it_as_q_does(self):
        desk = self.desk()
        self.answer(desk, "ada 1,2,4,3\nben 1,2", "1 counted  ada: ")
        desk.send_signal(signal.SIGINT)
        output, faults = desk.communicate()
        self.assertIn("This desk has entered 1 line (1 counted).\n", output)
        self.assertEqual((desk.returncode, faults, self.lines()), (0, "", [f"ada {RANKS}"]))

    def test_an_output_that_is_gone(self):
        desk = self.desk()
        self.answer(desk, "ada 1,2,4,3\n", "1 counted")
        desk.stdout.close()
        desk.stdin.write("ben 1,2,4,3\n")
        desk.stdin.flush()
        ended = elections.Ended("", desk.stderr.read(), desk.wait())
        said = (
            "the output failed; the ballots to be reported were entered nevertheless (envelope 2)"
        )
        self.assert_fault(ended, 7, said)
        self.assert_lines("ada 1,2,4,3", "ben 1,2,4,3")

    def test_an_add_beside_desks(self):
        desk, lines = self.desk(), [f"ben {a},{b},1,2" for a in range(1, 40) for b in range(1, 40)]
        self.write("many", "\n".join(lines))
        words = [sys.executable, elections.ELECTION, "add", "many"]
        adding = subprocess.Popen(
            words, cwd=self.folder, env=elections.environment(), stdout=subprocess.DEVNULL
        )
        while adding.poll() is None:
            self.answer(desk, f"ada {RANKS}\n", r"\d+ (counted|replaced)  ada: ")
        desk.communicate()
        entered = [line for line in self.lines() if line.startswith("ben ")]
        self.assertEqual((adding.returncode, entered), (0, lines))


class Named(CalledTest):
    def test_log_show_receipt_and_result_tell_where_a_ballot_was_typed(self):
        self.done("desk --name ' Table  2 '", given="ada 1,2,3,4\nben 2,1,3,4\n")
        self.done("desk --name Gallery", given="cleo 1,2,3,4\n")
        self.assertIn("desk, desk Table 2, lines 2", self.done("log").output)
        self.assertIn(", at Table 2: At the lake", self.done("show ada").output)
        self.done("letters receipts")
        texts = [file.read_text() for file in self.folder.glob("letters/receipts/*/*.eml")]
        found = [re.findall(r"at a desk \((.*)\)", text) for text in texts]
        self.assertEqual(sorted(found), [["Gallery"], ["Table 2"], ["Table 2"]])
        self.done("close --yes")
        self.assertEqual(self.election("publish").status, 0)
        page = self.text("result/index.html")
        self.assertIn("at desks: desk 1: 2 lines, desk 2: 1 line.", page)
        self.assertNotIn("Gallery", page)
        for name in ("", "ada 1,2", "x" * 41, "a\u202eb"):
            self.assert_fault(self.election("desk", "--name", name, given=""), 2, "--name: it has")
