"""`count`: the sheet alone, and what to do with it."""

import os
import shlex
import subprocess
import sys

from debvote_tools.cli.faults import Fault
from debvote_tools.poll.questions import Questions
from debvote_tools.poll.sealed import SealedPoll
from debvote_tools.result.casting import castings_in

from tests.support import elections
from tests.support.election_books import CalledTest

# a tie without the last line
WON = "ada 1,2,4,3\nben 2,1,4,3\ncleo 1,2,4,3\ndan 2,1,4,3\neve 1,2,4,3\n"


class Count(CalledTest):
    poll = elections.POLL.replace("In the town hall", "Hall")

    def assert_counted(self, words: str, status: int, *parts: str):
        """The sheet alone goes to standard output, and the sentence on standard error has these parts."""
        self.say_done()
        out = self.scratch / f"out{len(os.listdir(self.scratch))}"
        ended = self.election(f"count {words}")
        self.done("export", out)
        files = "--poll", out / "poll.toml", "--ballots", out / "ballots.txt"
        sheet = self.debvote("count", *files, *shlex.split(words)).output
        self.assertNotEqual(sheet, "")
        self.assertEqual(ended.output, sheet)
        self.assert_fault(ended, status, "Next: ", *parts)

    def test_an_option_that_has_won(self):
        self.adds(WON)
        before = self.contents()
        said = "Next: this is not the result yet; debvote-election close, when the vote is over; until then"
        self.assert_counted("", 0, said)
        self.assertEqual(self.contents(), before)
        self.done("close")
        self.assert_counted("", 0, "Next: debvote-election publish\n")

    def test_a_tie_and_the_casting_vote(self):
        """A struck line does not count, nor a late one: each would decide it. Everybody sees the tie before it is decided."""
        self.adds(WON)
        self.done("strike 5 --because 'it was taken down wrongly'")
        cast = "--cast-by WHO --cast-on DATE"
        choose = "it is a tie between 'At the lake', Hall; the holder of the casting vote chooses one of them: "
        choose += f"debvote-election publish --casting 'At the lake' {cast} or debvote-election publish --casting Hall {cast}\n"
        self.assert_counted("", 1, "Next: this is not the result yet; debvote-election close")
        self.done("close")
        self.adds("fay 1,2,4,3\n")
        first = "Next: debvote-election publish, and debvote-election letters --send, so that everybody sees the tie before the casting vote; then "
        self.assert_counted("", 1, f"{first}{choose}")
        hall = f"debvote-election publish --casting Hall {cast}\n"
        self.assert_counted("--casting Hall", 0, f"{first}{hall}")
        self.assertEqual(self.election("publish").status, 1)
        upload = "Next: put the folder result on the web site as it is, then debvote-election status --done upload; then "
        for words, status, following in (("", 1, choose), ("--casting Hall", 0, hall)):
            self.assert_counted(words, status, f"{upload}{following}")
        self.say_done("upload")
        self.assertIn(f"Next: {choose}", self.election("publish").output)
        not_tied = f"Next: {choose}"
        self.assert_counted("--casting 'Further discussion'", 8, not_tied)
        self.refused(
            "count --casting Hall --casting 'At the lake'",
            "--casting='At the lake': it has the casting vote Hall already; nothing was counted: give one of them",
            status=8,
        )
        names = "'At the lake', Hall, 'Sell the house and meet there'"
        self.refused("count --casting Nowhere", "no option has this name", names, status=8)

    def test_the_names_of_options(self):
        """A casting vote is for a plain name, or for the name that people read; a text that is both, of two options, is neither."""
        poll = SealedPoll(
            "T",
            ("Groesse", "Option 2"),
            (1, 1),
            "None",
            0,
            ("ada",),
            shown_options=("Gr\u00f6\u00dfe", "Groesse", "Keins"),
        )
        questions = Questions({"": poll})
        given = ("Gr\u00f6\u00dfe", "Option 2", "Keins", "None")
        self.assertEqual(
            [castings_in([name], questions)[""] for name in given],
            ["Groesse", "Option 2", "None", "None"],
        )
        with self.assertRaises(Fault) as raised:
            castings_in(["Groesse"], questions)
        self.assertIn(
            "two options have this name; nothing was changed: give one of these names, exactly as written here: Groesse, 'Option 2'",
            raised.exception.words,
        )

    def test_a_casting_vote_where_there_is_no_tie(self):
        self.adds("ada 1,2,4,3\n")
        ended = self.election("count --casting 'At the lake'")
        note = "Note: it is no tie, so no casting vote decides it; what --casting says of it is not told.\n"
        self.assertEqual((ended.status, ended.faults.partition("Next: ")[0]), (0, note))

    def test_output_that_nobody_reads_to_its_end(self):
        """It ends quietly, with the status of an output that failed, as that of debvote."""
        env = elections.environment() | {"XDG_STATE_HOME": str(self.state)}
        for words in ("add --help", "count"):
            with subprocess.Popen(["true"], stdin=subprocess.PIPE) as other:
                other.wait()
                command = [sys.executable, elections.ELECTION, *words.split()]
                ended = subprocess.run(
                    command, stdout=other.stdin, stderr=subprocess.PIPE, cwd=self.folder, env=env
                )
            self.assertEqual((ended.returncode, ended.stderr), (7, b""), words)
