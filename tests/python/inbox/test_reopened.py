"""Letters and lines of a vote that was closed and opened again: which count, and what is told."""

from unittest import mock

from debvote_tools.inbox import entering

from tests.support.election_books import LettersTest
from tests.support.letters import BALLOT, OTHER, OTHER_RANKS, RANKS, letter
from tests.support.terminal import Terminal

IN_TIME = ("--because", "it was in time")
YES = ("--came-before-close", "yes")
NEWER = "`ada 1,2,4,3` was late before, and would replace envelope 2, which came in time"


class Reopened(LettersTest):
    def reopen(self) -> str:
        return self.told("reopen", *IN_TIME)

    def beside_a_newer_one(self):
        """The vote is open again, and Ada's late line, in envelope 1, is older than her ballot in
        time, in envelope 2.
        """
        self.told("close")
        self.add_lines(BALLOT)
        self.reopen()
        self.add_lines(OTHER, words=YES)

    def test_a_late_line_is_entered_again_once(self):
        """It stays late; so does one that is refused, which replaces none. What was struck came.
        Only ballots are listed, while they are not in time.
        """
        self.told("close")
        late = [BALLOT, f"ben {RANKS}", "ben 1,2,3"]
        self.add_lines(*late)
        listed = f"\nLate ballots that may have come before the first close (2): 1 `{BALLOT}`, 2 `ben {RANKS}`\nOf new ballots "
        self.assertIn(listed, self.reopen())
        again = "3 lines are ignored, since they came before; 0 are new"
        no = ("--came-before-close", "no")
        for words, is_again in ((no, True), (YES, False), (YES, True)):
            self.assertEqual(again in self.add_lines(*late, words=words), is_again)
        self.assertEqual((self.lines(), self.late_lines()), (late, late))
        self.told("strike 4 --because slip")
        self.assertIn("came before, and was struck (envelope 4)", self.add_lines(BALLOT, words=YES))
        self.told("undo --yes")
        self.assertIn("7 counted  ben", self.add_lines(f"ben {RANKS}", words=YES))
        self.told("close")
        self.assertNotIn("replaced_in_time", self.last("close"))
        self.assertIn(f"first close (1): 1 `{BALLOT}`\n", self.reopen())

    def test_many_late_lines(self):
        self.told("close")
        self.add_lines(*(f"ada 1,2,{one // 5 + 1},{one % 5 + 1}" for one in range(25)))
        listed = r"first close \(25\): 1 `ada 1,2,1,1`, .*, 20 `ada 1,2,4,5` and 5 more\n"
        self.assertRegex(self.reopen(), listed)

    def test_a_late_line_replaces_a_newer_ballot_only_by_force(self):
        """Nothing is entered without it. What is forced is told at the close and on the page."""
        self.beside_a_newer_one()
        fault = f"standard input:2: {NEWER}; nothing was added: take it out, or add it anyway with --force"
        for word in ("--yes", "--look"):
            given = f"ben {RANKS}\n{BALLOT}\n"
            self.assert_refused(("add", word, *YES, "-"), 9, fault, given=given)
        self.told("close")
        other = f"\nLate ballots of electors with another ballot in time, which they would replace (1): 1 `{BALLOT}`\n"
        self.assertIn(other, self.reopen())
        said = self.add_lines(f"ben {RANKS}", BALLOT, words=(*YES, "--force"))
        self.assertIn("4 replaced  ada", said)
        self.assertEqual(self.stands("ada"), RANKS)
        note = "\nLate lines that replaced ballots in time: 1; the result page says so.\n"
        self.tells("close", note)
        self.assertEqual(self.last("close")["replaced_in_time"], 1)
        self.reopen()
        self.assertNotIn("Late lines that replaced", self.told("close"))
        self.told("publish")
        said = "1 late line was entered again, as one that had come before the first close, and replaced another ballot of its elector."
        self.assertEqual(self.read("result/index.html").decode().count(said), 1)
        self.assertIn(said, self.text("letters/result.txt"))

    def test_at_a_terminal_each_is_asked_about(self):
        self.beside_a_newer_one()
        self.told("close")
        self.add_lines(f"ben {RANKS}")
        self.reopen()
        self.add_lines(f"ben {OTHER_RANKS}", words=YES)
        self.write("more", f"{BALLOT}\nben {RANKS}\ncleo {RANKS}\n")
        shown, status = Terminal(self, "add", *YES, "--yes", "more").end()
        self.assertEqual((status, "[y/n]" in shown, "more:1: " in shown), (9, False, True))
        terminal = Terminal(self, "add", *YES, "more")
        terminal.until(f"more:1: {NEWER}. Enter it? [y/n] ")
        bens = "more:2: `ben 1,2,4,3` was late before, and would replace envelope 4, which came in time"
        terminal.after("n\n", f"{bens}. Enter it? [y/n] ")
        terminal.type("y\n")
        self.assertEqual(terminal.end()[1], 0)
        self.assert_lines(OTHER, f"ben {OTHER_RANKS}", f"ben {RANKS}", f"cleo {RANKS}")

    def test_at_a_desk(self):
        """A pipe goes on without such a line."""
        self.beside_a_newer_one()
        said = self.told("desk", *YES, given=f"{BALLOT}\nben {RANKS}\n")
        self.assertIn(f"desk:1: {NEWER}; it was not entered (--force enters it).\n", said)
        self.assertIn("This desk has entered 1 line (1 counted)", said)
        terminal = Terminal(self, "desk", *YES)
        terminal.until("Ballot: ")
        for number, (answer, ranks) in enumerate((("n", OTHER_RANKS), ("y", RANKS)), start=1):
            shown = terminal.after(f"{BALLOT}\n", "Enter it? [y/n] ")
            self.assertIn(f"desk:{number}: {NEWER}\n", shown)
            terminal.after(f"{answer}\n", "Ballot: ")
            self.assertEqual(self.stands("ada"), ranks)
        terminal.type("q\n")
        terminal.end()

    def test_a_newer_ballot_that_comes_meanwhile(self):
        """No late line goes in over one that was not there when it was planned."""
        self.told("close")
        self.add_lines(BALLOT)
        self.reopen()
        self.write("late", f"{BALLOT}\n")
        self.write("newer", f"{OTHER}\n")
        for command in (["add", *YES, "late"], ["desk", *YES]):
            with (self.folder / "late").open() as given, mock.patch("sys.stdin", given):
                self.overtaken(entering, "replaced_in_time", ("add", *YES, "newer"), command)
            self.assert_lines(OTHER)
            self.told("undo --yes")

    def test_a_look_says_what_add_would_ask(self):
        self.told("close")
        self.reopen()
        self.write("more", f"{BALLOT}\n")
        note = "Note: add will ask whether these lines came before the close; this preview assumes that they did.\n"
        for words, is_noted, became in (
            ((), True, "counted"),
            (YES, False, "counted"),
            (("--came-before-close", "no"), False, "late"),
        ):
            said = self.told("add", "--look", *words, "more")
            self.assertEqual((note in said, f"1 {became}  ada: " in said), (is_noted, True), said)

    def test_what_follows_before_the_announced_end(self):
        """It closes early again, which the program does not do unasked."""
        self.told("call --until '2026-11-30 18:00' --zone UTC")
        self.done("close --early")
        following = "Next: debvote-election close --early, once what came in time is entered: "
        self.say_done()
        self.assertIn(following, self.reopen())
        self.done("close --early")
        when = "30 November 2026, 18:00 (UTC)"
        end = f"end: one should have been able to vote until Monday, {when}."
        self.assertIn(
            f"computer. That was before the announced {end}", self.text("letters/closed.txt")
        )
        self.reopen()
        self.set_clock("2026-11-30T18:00:00+00:00")
        self.told("close")
        # the first close was early, and not this one
        said = f"{when}, by the clock of the secretary's computer. The vote was closed on Wednesday, 25 November 2026, 09:00 (UTC), before its announced {end}"
        self.assertIn(said, self.text("letters/closed.txt"))
        self.say_done("backup")
        self.assertIn(following.replace(" --early", ""), self.reopen())

    def test_it_asks_about_the_reason(self):
        self.told("close")
        terminal = Terminal(self, "reopen", *IN_TIME)
        asked = "because: it was in time? Everybody will read this reason."
        self.assertIn(asked, terminal.until("[y/n] "))
        terminal.type("n\n")
        shown, ended = terminal.end()
        self.assertEqual((ended, "you did not say yes" in shown), (9, True))

    def test_the_times_of_two_closes(self):
        """What had to come before a close, had to before the first one; the vote is closed since
        the last one, of which each letter tells until the next one.
        """

        def at(hour: int) -> str:
            self.set_clock(f"2026-11-25T{hour}:00:00+00:00")
            return f"2026-11-25 {hour}:00:00 UTC"

        first = at(10)
        self.told("close")
        last = at(11)
        self.assertIn(f"the close at {first} stays in the log", self.reopen())
        self.add_lines(f"ben {RANKS}", words=YES)
        self.told("close")
        for words, part in (
            ("status", f"\nClosed: at {last}\n"),
            ("close", f"The vote was closed at {last}, "),
            ("add -", f"Note: the vote was closed at {last}; what is added now is late."),
        ):
            self.assertIn(part, self.told(words, given=BALLOT))
        self.refused("undo --yes", f"the vote was closed at {last}, and its ballots stay")
        opened = at(12)
        self.tells("reopen --because 'a bag was found'", f"the close at {last} stays in the log")
        self.tells("status", f"\nReopened: at {opened}\n")
        fault = f"the vote was closed at {first} and opened again, and only what came before counts"
        self.assert_fault(self.election("add -", given=OTHER), 9, fault)
        # what comes by letter would wait until the end that the call says
        fault = (
            f"--until: the vote was closed at {first}, and only ballots that came before then count"
        )
        self.refused("call --until '2026-12-24 12:00'", fault)
        self.add_lines(f"cleo {RANKS}", words=YES)
        self.told("close")
        letter = self.text("letters/closed.txt")
        reason = "11:00 (UTC), and opened again. The reason, in the secretary's words: (a bag was found) This"
        self.assertIn(reason, letter)
        details = (detail for name, detail in self.acts() if name == "close")
        told = [detail["questions"][""]["checksum"] in letter for detail in details]
        self.assertEqual(told, [False, True, True])
        self.told("publish")
        page = self.read("result/index.html").decode()
        self.assertEqual(page.count("lines in time that came in: 1; "), 2)

    def wrote(self, name: str, time: str) -> bytes:
        return letter(name, f"{name} {RANKS}", time=f"Wed, 25 Nov 2026 {time}:00 +0000")

    def test_a_letter_of_after_the_first_close(self):
        """Its late ballot is not one of those that may have come in time, as one of before it may,
        and a line of a file.
        """
        self.told("call --until '2026-11-25 09:20' --zone UTC")
        self.set_clock("2026-11-25T10:00:00+00:00")
        self.told("close")
        times = {"ada": "09:30", "cleo": "10:30"}
        self.add(*(self.wrote(name, time) for name, time in times.items()))
        self.told("held 1 2 --enter")
        self.add_lines(f"ben {RANKS}")
        self.assertIn(f"first close (2): 1 `{BALLOT}`, 3 `ben {RANKS}`\n", self.reopen())
        said = "letter 2: its ballot of cleo was entered, and is late; nothing was changed: there is nothing to do"
        self.assert_refused(("held", 2, "--enter"), 9, said)

    def test_a_letter_whose_late_copy_was_entered(self):
        """The first mailbox is added after the second one, which had it by forwarding after the
        end: it stops the count, and counts.
        """
        self.told("call --until '2026-11-25 10:00' --zone UTC")
        self.set_clock("2026-11-25T12:00:00+00:00")
        self.told("close")
        self.add(self.wrote("ada", "11:00"))
        self.told("held 1 --enter")
        self.add(self.wrote("ada", "09:50"), says="1 letter waits.")
        self.assertIn("these letters arrived in time, and wait: 2;", self.election("count").faults)
        self.reopen()
        self.told("held 2 --enter --force not-tied --force voted-since")
        self.assertEqual((self.lines(), self.late_lines()), ([BALLOT], [BALLOT]))

    def test_a_call_that_was_closed_and_taken_back(self):
        """A close stays; where an earlier version took the call back, the next one is open until
        its own close.
        """
        # letters for a call that was taken back
        self.told("call --take-back")
        self.told("call --to vote@club.example")
        call = self.last_act()
        self.add(letter("ada", BALLOT), says="it arrived before the call for votes")
        self.told("held 1 --set-aside")
        self.told("close")
        self.refused("call --take-back", "the vote was closed at ", "electors rely on the close")
        self.act("take back", {"call": call})
        self.told("call --to vote@club.example")
        self.assertIn("1 counted", self.add_lines(BALLOT))
        self.set_clock("2026-11-25T10:00:00+00:00")
        self.add(self.wrote("ben", "09:30"), says="2 counted")
        for words, stage in (
            ((), "called"),
            (("close",), "closed"),
            (("reopen", *IN_TIME), "called"),
        ):
            self.told(*(words or ("status",)))
            self.assertEqual(self.numbers()["stage"], stage)
