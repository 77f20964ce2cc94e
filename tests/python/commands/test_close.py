"""`close`, `reopen`, `status`, `export`: when lines are late, what the close binds, and what is said of it all."""

import hashlib
import json
import os
import re
import unittest
from collections.abc import Callable
from unittest import mock

from debvote_tools.commands import close
from debvote_tools.result import folder as result_folder

from tests.support import elections
from tests.support.election_books import LettersTest
from tests.support.letters import letter
from tests.support.terminal import Terminal

MEANWHILE = "another command changed the election meanwhile; nothing was published"


class Close(LettersTest):
    def test_lines_after_it_are_late(self):
        """Its letter names the checksums of the poll and of the ballots, and the digest; it is that of the close however often it is made."""
        self.add_lines("ada 1,2,3,4", "ben 2,1,3,4", "zoe 1")
        before, ended = self.exported()[0], self.told("close")
        letter = self.read("letters/closed.txt")
        sums = [
            hashlib.sha256(data).hexdigest()
            for data in (self.read("call/poll.toml"), before.encode())
        ]
        [closed] = [act.digest for act in self.book.acts() if act.name == "close"]
        self.assertRegex(letter.decode(), "(?s)3 lines came in time.*" + ".*".join([*sums, closed]))
        self.assertIn(f"Checksum of the ballots: {sums[1]}", ended)
        following = (
            "2 receipts are not written: debvote-election letters receipts --send --server HOST"
        )
        ready = f"\nReady: 9 letters, letters/closed/{self.last_act() - 1}\nNext: {following}\n"
        self.assertTrue(ended.endswith(ready), ended)
        self.say_done("receipts")
        self.tells("close", "\nNext: 9 letters of the close are not sent: ")
        self.say_done("letters")
        self.tells("close", "\nNext: debvote-election count\n")
        self.write("letters/closed.txt", "another")
        self.assertIn("late", self.add_lines("ada 4,3,2,1"))
        acts = self.last_act()
        self.tells("close", "Nothing was changed")
        self.assertEqual((self.read("letters/closed.txt"), self.last_act()), (letter, acts))
        self.assertEqual(self.exported(), (before, "ada 4,3,2,1\n"))
        wanted = {"stage": "closed", "electors": 9, "lines": 3, "valid": 2, "refused": 1, "late": 1}
        wanted |= {"voters": 2, "struck": 0, "taken_back": 0, "waiting": 0}
        wanted |= {"stopping": [], "box": None, "lost": [], "not_reached": {}, "printed": []}
        numbers = self.numbers()
        for key in ("act", "digest", "without_ballot"):
            del numbers[key]
        self.assertEqual(numbers, wanted)

    def test_what_a_killed_run_has_left(self):
        """Each folder that is made from the book, the next run that makes it rids of files and folders of a run that was killed."""
        self.add_lines("ada 1,2,3,4")
        for words, folder in (
            ("close", "letters"),
            ("letters receipts", "letters/receipts"),
            ("letters receipts", "letters/receipts"),
            ("publish", "letters"),
        ):
            (self.folder / folder / ".debvote-folder" / "x").mkdir(parents=True)
            self.write(f"{folder}/.debvote-file", "half")
            self.done(words)
            self.assertEqual([str(left) for left in self.folder.rglob(".debvote-*")], [], words)

    def test_the_end(self):
        """A later call announced it, in another zone than that in which the book keeps times. A line that comes after it still counts; one of
        its second came in time.
        """
        self.set_clock("2026-11-27T09:00:00+00:00")
        self.done("call --until '2026-12-04 18:00' --zone Europe/Berlin")
        before, end = self.contents(), "Friday, 4 December 2026, 18:00 (UTC+01:00)"
        # what lets a close pass over letters says nothing of the end
        for words in ("close", "close --force --because 'all have voted'"):
            self.refused(words, end, "--early", "nothing was changed")
        self.assertEqual(self.contents(), before)
        passed = "; that time has passed"
        for time, name, said in (
            ("16:30", "ada", ""),
            ("17:00", "cleo", passed),
            ("17:30", "ben", passed),
        ):
            self.set_clock(f"2026-12-04T{time}:00+00:00")
            self.tells("status", f"\nEnd of the vote: {end}{said}\n")
            self.assertIn("1 counted", self.add_lines(f"{name} 1,2,3,4"))
        self.tells("close", "3 lines came in time")
        self.assertIn("18:30 (UTC+01:00)", self.text("letters/closed.txt"))
        self.done("publish")
        self.assertIn(
            "1 line came after the end, and is in time, since the vote was not closed yet.",
            self.text("result/index.html"),
        )


@unittest.skipIf(
    os.environ.get("DEBVOTE_FORKS") == "0", "what a test has patched is in this process alone"
)
class Meanwhile(LettersTest):
    def after(self, module: object, name: str, *lines: str) -> mock._patch:
        """After this step of a command, each time, a desk enters the next of these lines."""
        step, left = getattr(module, name), list(lines)

        def before_a_desk(*found: object, **said: object) -> object:
            made = step(*found, **said)
            if left:
                self.cast(left.pop(0))
            return made

        return mock.patch.object(module, name, before_a_desk)

    def test_a_line_between_checksum_and_close(self):
        self.add_lines("ada 1,2,3,4")
        with self.after(close, "what_is_fixed", "ben 1,2,3,4", "cleo 2,1,3,4"):
            self.tells("close", "Closed: 3 lines came in time")
        ballots = "ada 1,2,3,4\nben 1,2,3,4\ncleo 2,1,3,4\n"
        self.assertEqual(self.exported(), (ballots, ""))
        self.assertIn(hashlib.sha256(ballots.encode()).hexdigest(), self.text("letters/closed.txt"))
        self.done("publish")

    def test_a_line_while_it_is_published(self):
        """What is late by then is in no folder that does not say so; without new words the folder is that of the book, too."""
        self.add_lines("ada 1,2,3,4", "ben 1,2,3,4")
        self.done("close")

        def published() -> dict[str, bytes]:
            files = self.contents()
            return {name: files[name] for name in files if name.startswith("result/")}

        for is_made_again in (False, True):
            if is_made_again:
                self.done("publish")
            files = published()
            with self.after(result_folder, "filled", "dan 1,2,3,4"):
                self.refused("publish", MEANWHILE)
            self.assertEqual(published(), files)

    def test_a_fault_after_the_act(self):
        """It says which act was done, and not that nothing was changed."""
        self.add_lines("ada 1,2,3,4")
        self.write("letters", "somebody's file")
        self.refused(
            "close", "letters: File exists; it was not changed; act 5 (close) was done", status=7
        )
        self.assertEqual(self.numbers()["stage"], "closed")
        (self.folder / "letters").unlink()
        self.tells("close", "Made letters/closed.txt")
        moved = self.election("publish --moved --because 'a new disk' --casting nobody")
        self.assertEqual(moved.status, 2)
        self.assertRegex(moved.faults, r"\A(.*; act 7 \(moved\) was done: .*\n){2}\Z")


class Asked(LettersTest):
    def closed(
        self, answer: str, meanwhile: Callable[[], object] = str
    ) -> tuple[str, tuple[str, int]]:
        """Closes at a terminal, with this answer; what is shown before it, and after it, and the status."""
        terminal = Terminal(self, "close")
        shown = terminal.until("[y/n] ")
        meanwhile()
        terminal.type(answer)
        return shown, terminal.end()

    def test_whether_that_is_all(self):
        self.set_clock("2026-12-01T16:00:00+00:00")
        self.add_lines("ada 1,2,3,4")
        self.set_clock("2026-12-01T17:00:00+00:00")
        # the mailbox brought no ballot
        self.add(letter("cleo", "I shall be there"))
        self.done("held 1 --set-aside")
        self.set_clock("2026-12-02T18:30:00+00:00")
        self.cast("ben 1,2,3,4", "ida 1,2,3,4")
        self.cast("fay 1,2,3,4")
        self.done("undo")
        self.done("strike 3 --because 'not hers'")
        self.done("call --until '2026-12-02 20:00' --zone UTC")
        # the second of the end is not early
        self.set_clock("2026-12-02T20:00:00+00:00")
        last = "Added last: 2026-12-01 17:00:00 UTC. Entered last at a desk: 2026-12-02 18:30:00 UTC. Strikes: 1. Taken back, and not entered again as they were: 1 (envelopes 4). End of the vote: Wednesday, 2 December 2026, 20:00 (UTC)."
        asked = "Is that all? It is if the mailbox was added just now, all paper is entered, and no desk is open."
        for answer in ("n\n", "\x04"):
            shown, ended = self.closed(answer)
            receipts = (
                "5 receipts are not written: debvote-election letters receipts --send --server HOST"
            )
            shown_before = f"Until now 2 lines came in time. {last}\n{receipts}\n{asked} [y/n] "
            self.assertEqual(shown, shown_before)
            self.assertIn("you did not say that this is all; nothing was changed", ended[0])
        self.assertEqual(self.numbers()["stage"], "called")
        _, (output, status) = self.closed("y\n", lambda: self.cast("cleo 1,2,3,4"))
        # it is asked once, and the ballot that came meanwhile is closed, too
        self.assertRegex(output, r"^[^[]*Closed: 3 lines came in time[^[]*$")
        numbers = self.numbers()
        self.assertEqual((status, numbers["lines"], numbers["stage"]), (0, 3, "closed"))

    def test_another_close_meanwhile(self):
        self.add_lines("ada 1,2,3,4")
        files = {}

        def meanwhile():
            self.done("close")
            files.update(self.contents())

        _, (output, status) = self.closed("y\n", meanwhile)
        said = (
            "another command closed the vote meanwhile; nothing was changed: run the command again"
        )
        self.assertIn(said, output)
        self.assertEqual((status, self.contents()), (9, files))
        self.tells("close", "with 1 line in time. Nothing was changed.")
        self.done("publish")

    def test_yes(self):
        # what was taken back did not come
        for words in ("add -", "desk"):
            self.done(words, given="ada 1,2,3,4\n")
            self.done("undo --yes")
        output, status = Terminal(self, "close", "--yes").end()
        said = "Until now 0 lines came in time. Added last: never. Entered last at a desk: never. Strikes: 0. Taken back, and not entered again as they were: 2 (envelopes 1-2). End of the vote: not announced."
        self.assertEqual((status, said in output, "[y/n]" in output), (0, True, False))


class Reopen(LettersTest):
    def setUp(self):
        super().setUp()
        self.add_lines("ada 1,2,3,4")
        self.done("close")
        self.add_lines("ben 1,2,3,4", "cleo 2,1,3,4")

    def test_what_had_come_in_time(self):
        self.done("reopen --because 'a letter was forgotten'")
        ballots, late = "ada 1,2,3,4\ncleo 2,1,3,4\n", "ben 1,2,3,4\ncleo 2,1,3,4\n"
        answered = "--came-before-close"
        self.add_lines("cleo 2,1,3,4", words=(answered, "yes"))
        self.assertEqual(self.exported(), (ballots, late))
        self.assertEqual(self.election("add", given="dan 1,2,3,4\n").status, 9)
        self.add_lines("dan 1,2,3,4", words=(answered, "yes"))
        self.add_lines("eve 1,2,3,4", words=(answered, "no"))
        ballots += "dan 1,2,3,4\n"
        self.assertEqual(self.exported(), (ballots, f"{late}eve 1,2,3,4\n"))
        self.assertEqual(self.numbers()["stage"], "called")
        checksum = hashlib.sha256(ballots.encode()).hexdigest()
        for said in ("Closed: 3 lines came in time", "with 3 lines in time. Nothing was changed"):
            self.tells("close", said, f"\nChecksum of the ballots: {checksum}\n")
        self.assertIn("3 lines came in time", self.text("letters/closed.txt"))

    def test_a_result_before_the_last_close_is_not_the_result(self):
        self.assertRegex(self.told("status"), r"\nClosed: at [^\n]* UTC\nQuorum")
        self.done("publish")
        self.assertEqual(self.numbers()["stage"], "published")
        self.say_done()
        nothing = "nothing is left; if somebody asks about a ballot, debvote-election show NAME says what came\n"
        following = "\nNext: put the folder result on the web site as it is, then debvote-election status --done upload\n"
        self.assertTrue(self.told("status").endswith(f"{following}Then: {nothing}"))
        self.tells("status --done upload", f"Next: {nothing}")
        self.refused("reopen --because ' '", "reason", status=2)
        self.done("reopen --because x")
        self.refused("reopen --because x", "not closed")
        self.assertEqual(self.numbers()["stage"], "called")
        self.assertRegex(self.told("status"), r"\nClosed: not yet\nReopened: at [^\n]* UTC\nQuorum")
        self.done("close")
        self.assertEqual(self.numbers()["stage"], "closed")


class Told(LettersTest):
    def test_status(self):
        """A refused line is told as long as its elector has no ballot; each keeps its number."""
        lines = ["ada 1,2,3,4", "ben 1,2", "zoe 1,2,3,4", "ada 2,1,3,4", "fay 1,2", "fay 1,2,3,4"]
        self.add_lines(*lines)
        output = self.tells(
            "status",
            "Title: Where we meet in spring\n",
            "Lines: 6 (3 valid, 3 refused)\n",
            "Electors with a valid ballot: 2 of 9\n",
            "Electors without a ballot (7):\n  ben cleo dan eve gus hal ida\n",
            "Refused lines of electors without a ballot to the question, or of nobody known (2):\n  envelope 2: ben 1,2\n    bad rank count: ",
            "\n  envelope 3: zoe 1,2,3,4\n    bad not on roll: zoe is not on the roll\nLast act: ",
            "Next: 3 receipts are not written: debvote-election letters receipts --send --server HOST\nThen: 9 letters of the call are not sent: ",
        )
        self.assertNotIn("fay 1,2", output)
        self.done("strike 1 --because 'it was hers who asked'")
        self.tells("status", "  envelope 2: ben 1,2\n")
        # what came is exported as it came, for the secretary alone
        out = self.scratch / "out"
        self.done("export", out)
        [came] = (out / "came").iterdir()
        self.assertEqual(came.name, "00001-standard-input")
        self.assertEqual(came.read_text().splitlines(), lines)
        self.assertEqual((out / "poll.toml").read_bytes(), self.read("call/poll.toml"))
        modes = {file.stat().st_mode for file in out.rglob("*") if file.is_file()}
        self.assertEqual((out.stat().st_mode & 0o777, modes), (0o700, {0o100600}))
        self.assert_fault(self.election("export", out), 2, "already")

    def test_the_acts(self):
        """As a table for people, and for programs with all that the book keeps."""
        self.add_lines("ada 1,2,3,4", "ben 2,1,3,4")
        for ranks in ("1,2,3,4", "2,1,3,4"):
            self.cast(f"cleo {ranks}")
        self.done("strike 1 --because 'it was pencil' --yes")
        self.done("close --early")
        shown = re.sub(r"\d{4}-\d\d-\d\d \d\d:\d\d:\d\d UTC", "TIME", self.told("log")).splitlines()
        acts = self.book.acts()
        wanted = [
            "4  TIME  add, files standard input, lines 2",
            "5  TIME  desk, lines 1",
            "6  TIME  desk, lines 1",
            "7  TIME  strike, envelope 1, because it was pencil",
            "8  TIME  close",
            "9  TIME  letters out, kind closed, letters 9",
        ]
        self.assertEqual(
            shown[-7:],
            [*(" " * 8 + line for line in wanted), f"The last digest is {acts[-1].digest}"],
        )
        told = [json.loads(line) for line in self.told("log --json").splitlines()]
        details = [act.detail for act in acts]
        self.assertEqual(details[7]["questions"][""].pop("seal"), "")
        self.assertEqual(
            [
                (act["act"], act["time"], act["name"], act["digest"], act["machine"], act["detail"])
                for act in told
            ],
            [
                (act.number, f"{act.time:%FT%TZ}", act.name, act.digest, act.machine, detail)
                for act, detail in zip(acts, details)
            ],
        )
        # the document names each key of what a program reads
        formats = (elections.ROOT / "docs" / "FORMATS.md").read_text()
        for command, keys in (("status", self.numbers()), ("log", told[0])):
            part = formats.partition(f"`debvote-election {command} --json` ")[2].partition("\n## ")
            self.assertEqual([key for key in keys if f"`{key}`" not in part[0]], [])

    def test_a_clock_that_went_back(self):
        """By a minute at most it is only set right."""
        for hour, back in (("18:00:00", True), ("18:58:59", True), ("18:59:00", False)):
            self.set_clock("2026-12-04T19:00:00+01:00")
            self.add_lines(f"ada {hour[3:5]},2,3,4")
            self.set_clock(f"2026-12-04T{hour}+01:00")
            self.add_lines(f"ben {hour[3:5]},2,3,4")
            line = self.told("log").splitlines()[-2]
            said = "  the clock went back: the previous act has a later time"
            self.assertEqual(line.endswith(said), back, hour)
