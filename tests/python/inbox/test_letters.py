"""Letters in an election: `add`, `undo`, `strike`, `close`, `status` as a secretary meets them."""

import hashlib
from unittest import mock

import pytest

from debvote_tools.book import queries
from debvote_tools.election import POLL_WITH_NAMES
from debvote_tools.inbox import entering, given_files, signature

from tests.support import elections, pgp
from tests.support.election_books import LAKE, LettersTest
from tests.support.letters import OTHER_RANKS as OTHER, OWN, RANKS, ballot, letter, mailbox, marked
from tests.support.terminal import Terminal


# asks for the lock of the book while debvote would run, and notes both
ASKING = """#!/usr/bin/python3 -IS
import os, sqlite3, sys
connection = sqlite3.connect({book!r}, timeout=0, isolation_level=None)
try:
    connection.execute("BEGIN IMMEDIATE")
    connection.execute("ROLLBACK")
    said = "free"
except sqlite3.OperationalError as error:
    said = str(error)
connection.close()
with open({log!r}, "a") as log:
    log.write(f"{{sys.argv[1]}} {{said}}\\n")
os.execv({program!r}, ["debvote", *sys.argv[1:]])
"""
WAIT = "these letters arrived in time, and wait: {};".format
NOON = "Mon, 23 Nov 2026 12:00:00 +0000"
WENT_IN = "{} ballots of letters went in".format


def within(outer: bytes, inner: bytes) -> bytes:
    """A mailbox in which a letter may be text of another one."""
    return mailbox(outer.rstrip(b"\n") + b"\n" + mailbox(inner).rstrip(b"\n"))


def once_more(data: bytes) -> bytes:
    """The same letter with another head."""
    return b"X-Status: R\n" + data


class Adding(LettersTest):
    def test_plain_ballots_go_in_and_others_wait(self):
        ada = self.of_this_vote(letter("ada", f"ada {RANKS}\n"))
        subject = b"=?utf-8?q?f=C3=BCr_den_See?="
        ben = letter("ben", "I vote for the lake.").replace(b"my ballot", subject)
        box = self.box(ada)
        # elsewhere than at a terminal nobody is asked
        self.assert_fault(self.election("add", box), 9, "--yes", "the letters are kept")
        self.assert_lines()
        self.assert_waiting(1, 1)
        self.assertIn(f"1 counted  ada: {LAKE}\n", self.told("add", "--yes", box))
        # what came is kept as it came
        self.exported()
        [kept] = (self.scratch / "out" / "came").iterdir()
        self.assertEqual(kept.read_bytes().rstrip(b"\n"), ada.rstrip(b"\n"))
        # a mailbox that grew, and a stranger; the order is that of the arrivals
        later = ballot("cleo", OTHER, time=NOON, number=2)
        row = f"     2  2026-11-23 10:00:00 UTC  ben@club.example  für den See [{self.mark}-"
        self.add(
            ada,
            ben,
            later,
            ballot("cleo"),
            ballot("dan", sender="s@x.example"),
            says=(
                "4 new letters; 1 came before.",
                "\ndebvote-election undo takes back what was entered last.\nNext: 2 letters wait: debvote-election held\n",
                f"letter  arrived                  from              subject\n{row}",
                "]\n        no ballot found\n        written: I vote for the lake.\n",
                "it came from s@x.example, but the list of members has dan@club.example for dan",
            ),
        )
        self.assert_lines(f"ada {RANKS}", f"cleo {RANKS}", f"cleo {OTHER}")
        self.tells("status", "2 letters wait")
        # of those that an earlier run has brought only their number is told
        eve = "\n     6  2026-11-23 10:00:00 UTC  eve@club.example"
        said = self.add(
            ada,
            ben,
            later,
            letter("eve", "hello", number=3),
            ballot("fay"),
            says=(eve, "1 ballot of letters went in; 3 letters wait."),
        )
        told = [said.count(part) for part in ("no ballot found", "für den See", "s@x.example")]
        self.assertEqual(told, [1, 0, 0], said)
        said = self.add(
            ben,
            letter("gus", "hello", number=4),
            words="--look",
            says="   new  2026-11-23 10:00:00 UTC  gus@club.example",
        )
        self.assertEqual((said.count("no ballot found"), "4 letters wait" in said), (1, True), said)

    def test_undo_is_named_where_something_can_be_taken_back(self):
        said = r"\n0 ballots of letters went in; 1 letter waits.\nNext: 1 letter waits: debvote-election held\n\Z"
        self.assertRegex(self.add_hello("ada"), said)
        said = r"\ndebvote-election undo takes back what was entered last.\nNext: [^\n]*\n\Z"
        self.assertRegex(self.add(ballot("ben")), said)
        self.told("strike 1 --because 'a test'")
        self.assertNotIn("undo", self.add_hello("cleo"))

    def test_what_may_be_text_of_another_letter_is_kept_once(self):
        """Alone it is a letter of its own."""
        inner = self.of_this_vote(ballot("ben"))
        for told in ("2 new letters; 0 came before.", "0 new letters; 2 came before."):
            self.write("outer.mbox", within(letter("ada", "hello"), inner))
            self.tells("add --yes outer.mbox", told)
            self.assert_lines()
        self.assertIn("1 new letter; 0 came before.", self.told("add", "--yes", self.box(inner)))
        self.assertEqual(self.stands("ben"), RANKS)
        # also where both come in one command, in any order
        for name, order in (("cleo", 1), ("dan", -1)):
            alone = self.of_this_vote(ballot(name))
            self.write("outer.mbox", within(letter("ada", f"hello {name}"), alone))
            self.told("add", "--yes", *("outer.mbox", self.box(alone))[::order])
            self.assertEqual(self.stands(name), RANKS)

    def test_a_mailbox_longer_than_any_file_of_lines(self):
        """Else what is beyond that length would be in no list, and nobody would be told."""
        self.enterContext(mock.patch.object(given_files, "BALLOTS_LIMIT", 50_000))
        line = "x" * 70 + "\n"
        picture = f"--b\nContent-Type: image/png\n\n{line * 200}--b--\n"
        long = [
            letter("cleo", picture, kind="multipart/mixed; boundary=b", number=number)
            for number in range(5)
        ]
        said = "1 ballot of letters went in; 5 letters wait."
        self.add(*long, ballot("ada"), says=said)
        self.tells("add --yes", said, given=self.of_this_vote(mailbox(*long, ballot("ben"))))
        self.assert_lines(f"ada {RANKS}", f"ben {RANKS}")

    def test_a_line_for_each_ballot(self):
        """Greetings, farewells, signatures, quotations and what a telephone adds are no words to be
        read. What goes in is told as it is written.
        """
        usual = (
            "Dear all,\n\nAda: 1, 2, 4, 3.\n\nMany thanks and best wishes\nAda\n\nSent from my iPhone\n\n"
            "On Mon, 23 Nov 2026 at 09:00, Vote <vote@club.example> wrote:\n> Vote now"
        )
        outlook = f"cleo {RANKS}\n\n-- \nCleo, 030 1234\n\nVon: Vote <vote@club.example>\nGesendet: Montag, 23. November 2026 10:00\nBetreff: Vote [{elections.ANY_MARK}]\n\nVote now"
        said = self.add(
            letter("ben", f"ben {RANKS}\n\nBut if it rains\nGreetings"),
            letter("ada", usual),
            letter("cleo", outlook),
            words="--look",
            says="]\n        line 1 is a ballot, and there are other lines\n        line 1: ben 1,2,4,3\n        written: But if it rains\n",
        )
        first = f"ada (inbox.mbox, message 2, written `Ada: 1, 2, 4, 3.`): {LAKE}\ncleo (inbox.mbox, message 3): {LAKE}\nletter  arrived "
        self.assertEqual(said[: len(first)], first)

    def adding(self) -> Terminal:
        desk = Terminal(self, "add", str(self.box(ballot("ada"), ballot("ben"))))
        desk.until("Enter 2 ballots?")
        return desk

    def test_other_acts_between_question_and_answer(self):
        desk = self.adding()
        self.cast(f"ada {OTHER}")
        self.assertIn("a later ballot of ada, of ", desk.after("y\n", "Enter 1 ballot?"))
        # it was agreed that the ballot counts; late it would not
        self.told("close --force --because 'nobody answers'")
        said = desk.after("y\n", "2 letters wait")
        self.assertIn("the vote is closed: to enter it, reopen", said)
        desk.end()
        self.assertEqual(self.exported(), (f"ada {OTHER}\n", ""))

    def test_what_nobody_agreed_to_goes_in_next_time_unless_it_is_kept_out(self):
        desk = self.adding()
        said = desk.after("n\n", "keeps one out.")
        self.assertIn(
            "2 letters wait.\nThe next add --yes, by cron too, enters these ballots: debvote-election held NUMBER --wait keeps one out.",
            said,
        )
        desk.end()
        self.told("held 2 --wait")
        self.add_hello("cleo")
        self.assert_lines(f"ada {RANKS}")

    def test_an_older_letter_after_lines(self):
        """A line that was refused is no later ballot, and one that was struck, or is late, holds
        back no letter.
        """
        self.cast(f"ada {OTHER}")
        self.add_lines(f"ben {OTHER}")
        for name in ("ada", "ben"):
            self.add(ballot(name), says=f"a later ballot of {name}, of ")
            self.assertEqual(self.stands(name), OTHER)
        self.cast("cleo 1,2", f"dan {OTHER}")
        self.told("strike 4 --because 'somebody else wrote it'")
        self.add(ballot("cleo"), ballot("dan"), says=WENT_IN(2))
        self.told("held 1 2 --set-aside")
        self.told("close")
        self.cast(f"eve {OTHER}")
        self.told("reopen --because 'a mailbox was forgotten'")
        self.add(ballot("eve"), ballot("fay"), says=WENT_IN(2))
        self.assertEqual({self.stands(name) for name in ("cleo", "dan", "eve", "fay")}, {RANKS})
        self.assertEqual(self.late_lines(), [f"eve {OTHER}"])

    def test_an_older_letter_after_the_later_ballot_is_struck_or_taken_back(self):
        """Each letter that is judged otherwise then is named, and goes in with the next add."""

        def assert_named(typed: str, number: int, name: str):
            named = f"\nletter {number}, from {name}@club.example, 2026-11-23 10:00:00 UTC: it goes in with the next add of letters\n"
            self.assertEqual(self.tells(typed, named).count("\nletter "), 1)

        self.cast(f"ada {OTHER}", f"ben {OTHER}")
        self.add(ballot("ada"), ballot("ben"), letter("cleo", "hello"))
        assert_named("strike 1 --because 'somebody else wrote it'", 1, "ada")
        assert_named("undo --yes", 2, "ben")
        self.add(once_more(ballot("ada")), says=f"{WENT_IN(2)}; 1 letter waits")
        # the letters of the act itself are told as taken back
        said = self.tells("undo --yes", "2 letters then wait again, as taken back: 1, 2\n")
        self.assertNotIn("\nletter ", said)
        # one that was passed over, since a later letter had gone in, is named, too
        self.add(ballot("dan", OTHER, time=NOON, number=2))
        self.add(ballot("dan"), says="Passed over, since a later letter of its elector went in")
        assert_named("strike 5 --because 'somebody else wrote it'", 6, "dan")

    def test_plain_ballots_in_time_that_were_added_after_the_close(self):
        """None goes in, as the first envelope of the book or a later one: a ballot that becomes
        late is one that nobody misses.
        """
        ada, reopen = ballot("ada"), "reopen --because TEXT"
        self.told("close")
        closed = "the vote is closed: to enter it, reopen\n        line 1: ada"
        self.add(ada, says=(closed, f"{WENT_IN(0)}; 1 letter waits."))
        for command in ("count", "publish"):
            self.assert_refused(command, 9, WAIT(1), reopen)
        self.told("reopen --because 'a letter was forgotten'")
        self.add(ada, says="1 counted  ada: ")
        self.told("close")
        self.told("publish")
        # after the publication, too
        result = "letters result --at https://club.example/"
        self.told(f"{result}vote")
        self.add(ballot("ben", OTHER))
        for command, anyway in (
            ("count", "or count without them with --force"),
            ("publish", "nothing was published"),
            (f"{result}other", "or publish without them, with --force --because TEXT"),
        ):
            self.assert_refused(command, 9, WAIT(2), reopen, anyway)
        self.told("held 2 --set-aside")
        self.told(f"{result}vote")
        self.assertEqual(self.exported(), (f"ada {RANKS}\n", ""))

    def test_nothing_of_files_with_a_fault_is_entered_or_kept(self):
        self.write("lines", f"ben {RANKS}\n")
        self.write("inbox.mbox", mailbox(ballot("ada")))
        self.write("scan.pdf", "%PDF-1.7")
        self.box(ballot("cleo")).rename(self.folder / "box")
        before = self.contents()
        none, mixed = (
            "none.mbox: No such file or directory;",
            "it has letters, and the other files have none;",
        )
        # each letter has an arrival of its own, so none is asked about when letters are added
        alone = (
            "{}: only for lines, and these are letters; nothing was added: leave this out".format
        )
        for words, status, part in (
            ("--yes inbox.mbox none.mbox", 4, none),
            ("--yes lines none.mbox", 4, none),
            ("--yes inbox.mbox box scan.pdf", 4, "scan.pdf: it is a PDF; nothing was added"),
            ("--yes lines inbox.mbox", 2, f"inbox.mbox: {mixed}"),
            ("--yes lines box", 2, f"box: {mixed}"),
            ("--force --yes inbox.mbox", 2, alone("--force")),
            ("--force --look inbox.mbox", 2, alone("--force")),
            ("--came-before-close yes --yes inbox.mbox", 2, alone("--came-before-close")),
            ("--came-before-close no --look inbox.mbox", 2, alone("--came-before-close")),
        ):
            with self.subTest(words):
                self.assert_fault(self.election(f"add {words}"), status, part)
                self.assertEqual(self.contents(), before)
        self.tells("add --look inbox.mbox", "Nothing was changed")
        self.assertEqual(self.contents(), before)
        # beside letters of a folder each other file is told, and what to do with it
        told = []
        for name, data, said in (
            (
                "inner.mbox",
                before["inbox.mbox"] * 2,
                "a mailbox of several letters within the folder, and was passed over; add it by its own name",
            ),
            ("scan.pdf", b"%PDF-1.7", "a PDF, and was passed over; save the letter itself as .eml"),
            ("box.zip", b"PK\x03\x04", "a ZIP, and was passed over; unpack it, and add the folder"),
            (
                ".eml",
                b"",
                "a hidden file, whose name begins with a full stop, and was passed over; if it is a letter, rename it",
            ),
            ("box.pst", b"!BDN", "a mailbox in the format of Outlook (.pst), which this program"),
        ):
            (self.folder / "box" / name).write_bytes(data)
            told.append(f"box/{name}: it is {said}")
        (self.folder / "box" / "notes.txt").write_text("hello")
        said = "it does not look like a letter, and was passed over; if it is a letter, save it as .eml\n"
        self.tells("add --look box", *told, f"box/notes.txt: {said}")

    @pytest.mark.whole
    def test_letters_of_after_the_first_close(self):
        self.set_clock("2026-11-24T09:00:00+00:00")
        self.cast(f"ada {RANKS}")
        self.told("close")
        self.told("reopen --because 'a bag was forgotten'")
        self.set_clock(self.now)
        for name, day in (("ben", 24), ("cleo", 25)):
            after = ballot(name, time=f"Tue, {day} Nov 2026 09:00:01 +0000")
            # it is told when it comes, and then as one that waits
            told = [self.add(after), self.add(after), self.told("held")]
            said = "it arrived after the vote was closed, 2026-11-24 09:00:00 UTC"
            self.assertEqual([said in one for one in told], [True, False, True])
            self.assertEqual((self.lines(), self.numbers()["stopping"]), ([f"ada {RANKS}"], []))
            # none of them stops a close, and the page says that they came after the end
            self.set_clock("2026-11-26T09:00:00+00:00")
            self.assertNotIn("arrived in time", self.told("close"))
            self.assertIn("'waiting': 0, 'after_end': ", str(self.last("close")))
            self.told("reopen --because 'another bag'")
        # one that arrived before the first close
        self.add(ballot("dan"))
        self.told("undo --yes")
        said = "--enter: some of these letters arrived before the first close, and some after it"
        self.assert_refused("held 1 3 --enter --yes", 9, said)
        for number in (1, 2, 3):
            self.told(f"held {number} --enter --yes")
        self.assert_lines(f"ada {RANKS}", f"dan {RANKS}")
        self.assertEqual(self.late_lines(), [f"ben {RANKS}", f"cleo {RANKS}"])

    @pytest.mark.whole
    def test_undo_names_no_command_that_would_stop(self):
        self.cast(f"ada {OTHER}")
        # one of who has voted since, of the time of another ballot, with the mark of another vote,
        # and of an elector who is not shown
        self.add(
            ballot("ada"),
            ballot("ben", number=2),
            letter("ben", f"I thought about it for 3 days:\n\nben {OTHER}", number=3),
            ballot("cleo", head="Subject: x [0123456789abcdef]\n"),
            ballot("dan", subject=f"x [{elections.ANY_MARK}]"),
        )
        for number in (1, 3, 4, 5):
            self.assertEqual(self.election(f"held {number} --enter --yes").status, 9)
            self.agrees(f"{number} --enter --force not-tied --force voted-since")
            self.assertRegex(
                self.told("undo --yes"), "\nNext: [34] letters wait: debvote-election held\n"
            )

    def test_undo_and_strike_of_ballots_of_letters(self):
        box = *map(ballot, ("ada", "ben", "cleo")), letter("dan", "hello")
        self.add(*box)
        self.tells("undo --yes", "\nNext: 4 letters wait: debvote-election held\n")
        self.assert_lines()
        self.tells("held", "its ballot was taken back")
        self.assert_refused("close", 9, "these letters arrived in time, and wait: 1, 2, 3, 4")
        # a copy with another head is the same letter
        for letters in (map(once_more, box), box):
            self.add(*letters, says=f"{WENT_IN(0)}; 4 letters wait")
            self.assert_waiting(4, 1, 2, 3, 4)
        # all come back by one command, but for those that stop it
        self.cast(f"ben {OTHER}")
        self.assert_refused("held 1 2 3 --enter", 9, "letter 2: its elector has voted since")
        self.tells("held 1 3 --enter", "\n5 counted  ada: At the lake", "\n2 letters wait.\n")
        self.assert_lines(f"ben {OTHER}", f"ada {RANKS}", f"cleo {RANKS}")
        self.told("strike 5 --because 'she asked for it'")
        self.tells("held", "2 letters wait", "Set aside: 1")
        self.tells("held 1", "its ballot was struck")


class ReadOnce(LettersTest):
    """What a letter says is read when it comes. Else a few letters of a stranger would slow down
    each command, for good.
    """

    def runs(self, typed: str, given: str | None = None) -> list[str]:
        """The tasks for which a command ran debvote, each time with the book free: never within an
        act.
        """
        place, log = self.scratch / "counting", self.scratch / "runs"
        place.mkdir(exist_ok=True)
        names = {"book": self.folder / "election.db", "log": log, "program": elections.PROGRAM}
        asking = {name: str(file) for name, file in names.items()}
        (place / "debvote").write_text(ASKING.format(**asking))
        (place / "debvote").chmod(0o755)
        log.write_text("")
        self.shown = self.done(typed, path=place, given=given).output
        asked = [line.split(" ", 1) for line in log.read_text().splitlines()]
        self.assertLessEqual({said for _, said in asked}, {"free"}, typed)
        return [task for task, _ in asked]

    @pytest.mark.whole
    def test_of_lines_twice_or_three_times(self):
        """Three times where a line is no ballot: then it is asked whether all look like a table."""
        lines = f"Ada {RANKS}\nGsu {RANKS}\nben {RANKS}\n"
        for typed, given, at_most in (
            ("add --look", lines, 3),
            ("add --look", f"cleo {RANKS}\nben {RANKS}\n", 1),
            ("add", lines, 3),
            ("add", f"cleo {RANKS}\n", 2),
            ("desk", f"ada {OTHER}\n", 2),
            ("show ada", None, 0),
            ("status", None, 1),
            ("strike 1 --because 'a test'", None, 0),
            ("undo", None, 0),
        ):
            self.assertLessEqual(len(self.runs(typed, given)), at_most, typed)
        # lines and bytes as debvote counts them, without what is struck or taken back; it takes
        # exactly so many
        size = len(f"Gsu {RANKS}\nben {RANKS}\ncleo {RANKS}\n")
        self.assertEqual(queries.size_to_count(self.book), (3, size))
        self.write("one", f"dan {RANKS}\n")
        for limit, count in ((size + 11, 3), (size + 12, 4)):
            with mock.patch.object(entering, "BALLOTS_LIMIT", limit):
                self.in_this_process("add", "one")
            self.assertEqual(queries.size_to_count(self.book)[0], count)
        for typed, at_most in {
            "letters receipts": 1,
            "letters reminders": 1,
            "close": 1,
            "count": 2,
            "publish": 8,
            "letters result --at https://club.example/": 1,
        }.items():
            self.assertLessEqual(len(self.runs(typed)), at_most, typed)

    def test_judging_again_asks_debvote_nothing(self):
        hello = letter("ben", f"Hello:\nben {RANKS}")
        self.write("inbox.mbox", mailbox(letter("ada", "ada 1,2,3"), hello, ballot("cleo")))
        for asked in (["explain"], []):
            self.assertEqual(self.runs("add --yes inbox.mbox"), asked)
        self.assertEqual(self.runs("held"), [])
        for part in (
            "line 1, ranks 1,2,3: bad rank count: 3 ranks, the poll has 4 options\n",
            f"line 2: ben {RANKS}\n        written: Hello:\n",
        ):
            self.assertIn(part, self.shown)
        self.assertEqual(self.runs("held 1 --set-aside"), [])
        # who has voted since is asked of their lines alone
        self.cast(f"eve {OTHER}", f"ben {OTHER}")
        self.add_hello("eve")
        self.assertEqual(self.runs("held"), [])
        self.assertIn("no ballot found; has voted since", self.shown)

    @pytest.mark.whole
    def test_no_letter_slows_down_later_commands(self):
        """Whatever is in it: of each letter some hundred lines are kept, and no command asks
        debvote about them again.
        """
        texts = (
            "\n".join(
                f"I vote ada 1,{number % 90},3,4, or not; Ada Lovelace{number} 1,2,3"
                for number in range(4_000)
            ),
            "\n" * 200_000 + f"ada {RANKS}",
            "a\n\n" * 80_000,
            "x " * 120_000,
            "<p>ada 1,2</p>" * 15_000,
        )
        self.add(
            *(
                letter("ada", text, sender="x@y.example", number=number)
                for number, text in enumerate(texts)
            )
        )
        for typed in ("status", "show ada", "letters receipts", "held"):
            self.assertEqual(self.runs(typed), [], typed)
        self.assertEqual(
            self.shown.count("it has 4000 lines like ballots; at most 200 are read"), 1
        )


class InTime(LettersTest):
    """A letter that arrived in time and waits may decide the vote, whenever it was added: it stops
    `close`, and after it `count` and `publish`.
    """

    def setUp(self):
        super().setUp()
        self.cast(f"cleo {RANKS}", f"ben {OTHER}")
        self.wordy = letter("ada", f"I thought about it for 3 days:\n\nada {OTHER}\n")

    def assert_stops_count(self, number: int = 1):
        """Nothing is counted, nothing is published, and each says which letter it is."""
        cures = "held NUMBER --set-aside", "reopen --because TEXT"
        for typed in ("count", "publish", "count --casting 'At the lake'"):
            self.assertEqual(self.assert_refused(typed, 9, WAIT(number), *cures).output, "")
        self.assertFalse((self.folder / "result").exists())
        self.tells(
            "status",
            f"These arrived in time, and count and publish stop while they wait: {number}\n",
            "\nNext: 1 letter waits: debvote-election held\n",
            "\nThen: debvote-election count\nThen: debvote-election publish\n",
        )
        self.assertEqual(self.numbers()["stopping"], [number])

    def assert_tie(self, *typed: str):
        """These commands count, and find a tie."""
        self.assertEqual({self.election(one).status for one in typed}, {1}, typed)

    def assert_counted(self, publish: str = "publish") -> str:
        """It is counted and published; returns the page."""
        self.assert_tie("count", publish)
        return self.read("result/index.html").decode()

    @pytest.mark.whole
    def test_what_was_added_after_the_close_is_set_aside_at_any_time(self):
        """With other words, or one to which nobody agreed; no ballot, or one that came after the
        publication.
        """
        self.told("close")
        self.add(self.wordy)
        self.assert_stops_count()
        # from elsewhere each command that they say names the folder
        cures = [f"debvote-election {its} --folder {self.folder}" for its in ("held", "reopen")]
        for command in ("count", "publish"):
            ended = self.election(command, "--folder", self.folder, cwd=self.scratch)
            self.assert_fault(ended, 9, *cures)
        self.told("held 1 --set-aside")
        self.election("add", self.box(ballot("dan", OTHER)))
        self.assert_stops_count(2)
        self.told("held 2 --set-aside")
        self.assertEqual(self.numbers()["stopping"], [])
        self.assertNotIn("nobody has decided", self.assert_counted())
        self.add_hello("dan", 2)
        self.assertEqual(self.election("count").status, 9)
        self.told("held 3 --set-aside")
        # what arrived later stops nothing
        for name, arrived in (
            ("ada", "Wed, 25 Nov 2026 09:00:01 +0000"),
            ("dan", "Mon, 16 Nov 2026 10:00:00 +0000"),
        ):
            self.add(letter(name, "hello", time=arrived, number=4, subject="x"))
        self.assert_waiting(2)
        self.assert_counted()

    def test_forced(self):
        """The page says how many, and the same letters stop nothing again; another one does."""
        self.told("close")
        self.add(self.wordy, letter("dan", "hello"))
        self.assertIn(
            "Note: these letters arrived in time, and wait: 1, 2; they are in no count.\n",
            self.election("count --force").faults,
        )
        self.assert_tie("count --force")
        self.assert_refused("publish --force", 9, WAIT("1, 2"))
        self.assert_tie("publish --force --because 'nobody answers'")
        page = self.read("result/index.html").decode()
        said = "and of which nobody has decided whether they are ballots: 2."
        self.assertEqual((said in page, "nobody answers" in page), (True, True))
        self.assertEqual(self.numbers()["stopping"], [])
        # the same again is no act, and of another publication the page says it too
        last = self.last_act()
        self.assertEqual((self.assert_counted(), self.last_act()), (page, last))
        self.write("about.txt", "Certified by Ida.\n")
        self.assertIn(said, self.assert_counted("publish --about about.txt"))
        self.add_hello("fay")
        self.assert_refused("count", 9, WAIT(3))
        # the reason is not one for letters that come later
        before = self.read("result/index.html")
        for words in ("--about about.txt", "", "--force"):
            self.assert_refused(f"publish {words}", 9, WAIT("1, 2, 3"), "--because")
        self.assertEqual(self.read("result/index.html"), before)
        self.assert_tie("publish --force --because 'nor does Fay'", "publish")

    def test_an_older_letter_stops_nothing(self):
        """It is told in one line and in its receipt. If the later ballot is struck, it goes in."""
        self.add(ballot("ada", time=NOON))
        older = ballot("ada", OTHER, number=2)
        passed = "\nPassed over, since a later letter of its elector went in: letter 2\n"
        for is_new in (True, False):
            said = self.add(older, says=f"\n{WENT_IN(0)}; 0 letters wait.\n")
            self.assertEqual(passed in said, is_new)
        self.assert_waiting(0)
        self.told("letters receipts")
        receipts = (self.folder / "letters" / "receipts").rglob("*ada*")
        self.assertIn(
            "Your letter of Monday, 23 November 2026, 10:00 (UTC) has arrived. No ballot from it was entered. The reason: a later ballot of this elector is in already.",
            " ".join(" ".join(file.read_text() for file in receipts).split()),
        )
        self.told("strike 3 --because 'she asked for it'")
        self.assert_refused("close", 9, WAIT(2))
        self.add(older, says="4 counted  ada: In the town hall")
        self.told("close")

    def test_letters_of_another_vote_stop_nothing(self):
        """Two votes have one mailbox: each right letter of one of them would stop the close of the
        other, and its sender would be told.
        """
        mark = elections.ANY_MARK.encode(), b"77d0" * 4
        of_others = [ballot(name).replace(*mark) for name in ("ada", "dan")]
        said = "Letters of other votes, which are passed over here: 2 with [77d077d077d077d0].\n"
        for words in ("--look", "--yes"):
            self.add(*of_others, words=words, says=said)
        self.assert_waiting(0)
        self.tells("letters receipts", "Wrote 2 letters")
        told = [name for name in self.names if "receipt" in self.told(f"show {name}")]
        self.assertEqual(told, ["ben", "cleo"])
        self.tells(
            "show ada",
            "letter 1, from ada@club.example, 2026-11-23 10:00:00 UTC: it has the mark of another vote",
        )
        self.tells("close", said)

    @pytest.mark.whole
    def test_forced_at_the_close(self):
        self.add(self.wordy)
        # before the close a count is no result
        self.assert_tie("count")
        self.assert_refused("close --force", 9, WAIT(1))
        self.told("close --force --because 'nobody answers'")
        said = "1 letter that had arrived in time was left waiting."
        self.assertIn(said, self.assert_counted())
        # a second close says it again, and stops for another letter alone
        self.told("reopen --because 'a bag was forgotten'")
        self.told("close")
        self.assert_tie("publish result-2")
        self.assertEqual(self.read("result-2/index.html").decode().count(said), 2)
        self.add_hello("fay")
        self.assert_refused("publish result-2", 9, WAIT(2))
        # one that waits again is told, too, if the last close does not tell it
        self.told("reopen --because 'another bag'")
        self.told("held 1 2 --set-aside")
        self.told("close")
        self.told("held 1 2 --wait")
        self.assertEqual(self.numbers()["stopping"], [2])
        self.assert_refused("publish result-3", 9, WAIT("1, 2"))

    def test_one_that_arrived_at_no_known_time(self):
        """Nobody knows that it came too late: while the vote is closed it waits, and then it
        counts.
        """
        self.add(ballot("dan", time=None))
        self.told("close --force --because 'nobody answers'")
        said = "letter 1: it arrived in time, and the vote is closed"
        self.assert_refused("held 1 --enter --force not-tied --force voted-since", 9, said)
        # one from before the call, without a mark of this vote, is not in time
        self.add(ballot("eve", time="Mon, 6 Jan 2020 10:00:00 +0000", subject="hello"))
        self.agrees("2 --enter --force not-tied", "\n3 late  eve: ")
        said = "letter 2: its ballot of eve was entered, and is late"
        self.assert_refused("held 2 --enter --force not-tied --force voted-since", 9, said)
        self.told("reopen --because 'Dan has asked'")
        self.tells("held 1 --enter --force not-tied --force voted-since", "\n4 counted  dan: ")

    def test_one_with_a_time_after_it(self):
        """The time of the ballot is only that at which it was entered: the next letter may be the
        later one, and is not passed over.
        """
        self.add(ballot("dan", time=None))
        self.told("held 1 --enter --force not-tied --force voted-since")
        self.add(ballot("dan", OTHER, number=2), says="a later ballot of dan, of")
        self.assertEqual(self.numbers()["stopping"], [2])


class AtTheEnd(LettersTest):
    call_words = "--to vote@club.example --until 2026-11-24T12:00 --zone Europe/Berlin".split()

    def closed(self) -> tuple[object, ...]:
        """What the page tells of letters that did not go in."""
        detail = self.last("close")
        return detail["waiting"], detail["after_end"], detail.get("because")

    def test_a_letter_in_time_needs_a_reason(self):
        """Letters of after the end need no act at the close, whatever else they wait for: the page
        has no reason to tell. A copy is none.
        """
        late = {"time": "Tue, 24 Nov 2026 13:00:00 +0000"}
        away = letter("dan", "I am away\n", head="Auto-Submitted: auto-replied\n", **late)
        self.add(away, letter("ben", f"> ben {RANKS}\n", sender="x, y", **late))
        self.told("close --force --because 'in a hurry'")
        self.assertEqual(self.closed(), (0, 2, None))
        self.told("reopen --because 'a letter was forgotten'")
        self.add(letter("ada", "hello"), ballot("cleo", **late), once_more(away))
        self.assert_waiting(4, 3)
        self.tells("status", "These arrived in time, and close stops while they wait: 3\n")
        for words in ("", "--force", "--force --because ' '", "--because 'hello is no ballot'"):
            said = f"{WAIT(3)} nothing was changed: "
            self.assert_refused(f"close {words}", 9, said, "--force --because TEXT")
        self.tells(
            "close --force --because 'hello is no ballot'",
            "\n1 letter that arrived in time did not go in; the result page says so.\n",
        )
        self.assertEqual(self.closed(), (1, 3, "hello is no ballot"))
        # one that is known to have come too late makes a late line
        self.tells("held 4 --enter", "\n1 late  cleo: ")
        self.assertEqual((self.lines(), self.late_lines()), ([], [f"cleo {RANKS}"]))
        # after a reopening it is still late, and is told as such
        self.told("reopen --because 'the end was too early'")
        said = "letter 4: its ballot of cleo was entered, and is late; nothing was changed: there is nothing to do"
        self.assert_refused("held 4 --enter", 9, said)


class Signed(LettersTest):
    """Letters have to be signed, and a member's key came later, or gpgv was slow."""

    call_words = None

    def setUp(self):
        super().setUp()
        self.keys = pgp.keys()
        self.set_clock("2026-11-20T09:00:00+00:00")
        self.call_with("ada", "cleo")
        self.set_clock(self.now)

    def call_with(self, *names: str):
        keys = {name: self.keys.fingerprints[name] for name in names}
        rows = "".join(
            f"{name.title()},{name}@club.example,{keys.get(name, '')}\n" for name in self.names
        )
        self.write("members.csv", f"who,mail,key\n{rows}")
        self.told("roll --yes")
        self.write("ring", self.keys.ring(*names))
        without = ", ".join(name for name in self.names if name not in names)
        self.tells(
            "call --to vote@club.example --keyring ring",
            f"Note: the list of members has no key for {without}; their letters wait.\n",
        )

    def test_a_keyring_that_lacks_a_key(self):
        self.write("ring", self.keys.ring("ada"))
        said = "it lacks the keys that the list of members has for: cleo; nothing was changed: export these keys, too"
        self.assert_refused("call --keyring ring", 9, said)

    def signed(self, name: str, number: int = 1) -> bytes:
        text = f"{name} {RANKS}\n[{self.mark}]\n"
        return letter(name, self.keys.inline(name, text, "20261123T095000"), number=number)

    def test_one_that_waited_for_a_key(self):
        """One that was set aside stays so, and one that was entered by hand; also their copies:
        with another head, and one that anybody sends with another Message-ID, which only its
        signature shows.
        """
        ben, fay = self.signed("ben"), self.signed("fay")
        self.add(fay, self.signed("eve"))
        self.told("held 1 --set-aside")
        self.agrees("2 --enter --force not-tied")
        self.add(ben, self.signed("ada"), says="signed with a key that is not in the keyring")
        # a copy with another head is the same letter once more, before the key comes and after it
        self.add(once_more(ben), self.signed("ben").replace(b"Subject: my", b"Subject: My"))
        self.call_with("ada", "ben", "cleo", "eve", "fay")
        shown = self.told("held")
        said = "it goes in with the next add of letters", "1 letter waits."
        self.assertEqual([shown.count(part) for part in said], [1, 1], shown)
        self.assert_refused("close", 9, WAIT(3))
        self.add(self.signed("ben"), says="3 counted  ben: ")
        copies = [self.signed(name, number=2) for name in ("ada", "ben", "eve", "fay")]
        self.add(once_more(self.signed("fay")), *copies, says=f"{WENT_IN(0)}; 0 letters wait; ")
        self.assert_waiting(0)
        self.assert_lines(f"eve {RANKS}", f"ada {RANKS}", f"ben {RANKS}")
        self.told("close")

    def test_one_that_was_set_aside_stays_so(self):
        """Also its copies, which come when the key has come: with another head, and one that
        anybody sends with another Message-ID.
        """
        self.add(self.signed("ben"))
        self.told("held 1 --set-aside")
        self.call_with("ada", "ben", "cleo")
        self.add(once_more(self.signed("ben")), says="1 copy passed over")
        self.add(self.signed("ben", number=2), says="2 copies passed over")
        self.assert_waiting(0)
        # nor does a copy go in while nobody can say that it is one
        said = self.while_gpgv_is_slow("add", "--yes", str(self.box(self.signed("ada"))))
        self.assertIn(f"{WENT_IN(0)}; 2 letters wait; 1 copy passed over.", said)
        self.assert_lines()
        said = "it may be a copy of a letter that was dealt with, about which gpgv did not answer in time"
        self.assertIn(said, self.while_gpgv_is_slow("held"))

    def while_gpgv_is_slow(self, *words: str) -> str:
        place = self.scratch / "slow"
        place.mkdir(exist_ok=True)
        (place / "gpgv").write_text("#!/bin/sh\nexec sleep 60\n")
        (place / "gpgv").chmod(0o755)
        with mock.patch.object(signature, "SECONDS", 0.2):
            return self.in_this_process(*words, path=f"{place}:")

    def test_one_about_which_gpgv_was_slow(self):
        words = ("add", "--yes", str(self.box(self.signed("ada"))))
        said = "gpgv did not answer about its signature in time"
        self.assertIn(said, self.while_gpgv_is_slow(*words))
        self.assertIn("1 counted  ada: ", self.told(*words))


class OwnMarks(LettersTest):
    """What an election knows of its electors' own marks."""

    def test_a_letter_needs_that_of_its_elector(self):
        of_before, poll = self.of_this_vote(ballot("eve")), elections.ANY_MARK
        self.change_roll("eve@", "eve@new.")
        said = self.add(
            ballot("ada"),
            ballot("ben", subject=f"x [{poll}]"),
            ballot("cleo", subject=f"x [{poll}-{OWN['ada']}]"),
            marked("dan", f"dan {RANKS}", sender="x@y.example"),
            of_before,
            says=(
                "its subject has the own mark of dan",
                "its subject has the own mark that eve had until 2026-11-25 09:00:00 UTC",
            ),
        )
        self.assert_lines(f"ada {RANKS}")
        self.assertEqual(said.count("its subject lacks the own mark of"), 2, said)
        # none of them is tied to its elector
        for number, name in enumerate(("ben", "cleo", "dan", "eve"), start=2):
            words = f"letter {number}: its sender and its subject do not show that it is of {name}; nothing was changed: check who sent it"
            self.assert_refused(f"held {number} --enter", 9, words, "--force not-tied")


class SecretOwnMarks(OwnMarks):
    """Ballots come under names, and the mark is that of the poll that everybody sees."""

    poll = elections.POLL + "secret = true\n"

    def test_the_mark_of_the_poll_with_names_is_that_of_another_vote(self):
        of_names = hashlib.sha256(queries.sealed(self.book, POLL_WITH_NAMES)).hexdigest()[:16]
        said = f"\nLetters of other votes, which are passed over here: 1 with [{of_names}].\n"
        self.add(ballot("ada").replace(elections.ANY_MARK.encode(), of_names.encode()), says=said)
        self.add(ballot("ada", number=2))
        self.assert_lines(f"ada {RANKS}")
