"""How often a command starts debvote, a number that no line shows: most never do, `publish` at most eight times."""

import os

import pytest

from debvote_tools.commands.command_line import COMMANDS

from tests.support import elections
from tests.support.letters import letter, mailbox
from tests.support.questions import FORCED

COUNTED = elections.ROOT / "tests" / "support" / "counted"

# how often commands that begin so start it at most
MOST = {
    "check": 2,
    "codes": 2,
    "call": 2,
    "add": 2,
    "desk": 2,
    "close": 1,
    "count": 2,
    "publish": 8,
    "held 2 --as": 1,
    "held 7": 1,
    "letters": 1,
    "show": 1,
    "status": 1,
}
CALL = "call --to vote@club.example --at https://club.example/ --until '2026-12-04 18:00+00:00'"


class Starts(elections.ElectionTest):
    poll = elections.POLL
    secret = False
    questions = 1

    def set_clock(self, time: str):
        super().set_clock(f"2026-11-{time}:00:00+00:00")
        path = os.pathsep.join([str(COUNTED), os.environ["PATH"]])
        counted = str(elections.PROGRAM.absolute())
        starts = str(self.scratch / "starts")
        self.clock |= {"PATH": path, "DEBVOTE_COUNTED": counted, "DEBVOTE_STARTS": starts}

    def begin(self):
        self.tried: set[str] = set()
        self.set_clock("20T09")
        self.started(f"new --questions {self.questions} {self.folder}", cwd=self.scratch)
        self.write_polls()
        self.write("members.csv", elections.members_of(elections.NAMES))
        self.each("roll", *["codes"] * self.secret, "check", CALL)

    def write_polls(self):
        self.write("poll.toml", self.poll)

    def each(self, *commands: str):
        for typed in commands:
            self.started(typed)

    def started(self, typed: str, **how: object):
        """Runs a command, which must do what it is asked for, and counts how often it starts debvote."""
        counter, command = self.scratch / "starts", typed.split()[0]
        counter.write_bytes(b"")
        ended = self.election(typed, **how)
        self.tried.add(command)
        most = [most for start, most in MOST.items() if typed.startswith(start)]
        with self.subTest(typed):
            self.assertIn(ended.status, (0, 1) if command in ("count", "publish") else (0,), ended)
            self.assertLessEqual(len(counter.read_bytes()), self.questions * sum(most))

    def write_mail(self, *texts: tuple[str, str]):
        """A mailbox with a letter from each of these electors, each a second later; the last one is a page."""
        letters = [
            letter(name, text, number=number, time=f"Mon, 23 Nov 2026 09:00:{number:02} +0000")
            for number, (name, text) in enumerate(texts, start=1)
        ]
        letters[-1] = letters[-1].replace(b"text/plain", b"text/html")
        self.write("mail", elections.of_vote(self.folder, mailbox(*letters)))


@pytest.mark.whole
class Secret(Starts):
    poll = f"{elections.POLL}secret = true\n"
    secret = True

    def test_each_command(self):
        # right lines, some that are repaired, and some that are refused
        self.write(
            "lines",
            "\ufeffada 1,2,4,3\r\nben 1, 2, 3, 4\nBen: 2,1,3,4\ncle 1,2,3,4\ndan 1,2\n\neve 1,2,3,4,5\n",
        )
        self.write_mail(
            ("ada", "Hello\n\nada 2,1,4,3"),
            ("ben", "ben 1,2,3,4\nben 2,1,3,4"),
            ("cleo", "1 2 3 4"),
            ("dan", "I vote:\ndann 1,2,3,4"),
            ("eve", "eve 1, 2, 3, 4\n\nadieu"),
            ("eve", "eve 1, 2, 3, 4\n\nadieu"),
            ("fay", "gus 1,2,3,4"),
            ("nobody", "hal 1,2"),
            ("ida", "<p>ida 1,2,3,4</p>"),
        )
        self.started("letters call")
        self.set_clock("23T10")
        self.each("add --look lines", "add --yes --force lines", "add --yes --force lines")
        # all are repaired; or a table, of which nothing is
        self.started("add -", given="Ada: 1,2, 3,4\nBen 1, 2, 3, 4\n")
        self.started("add --force -", given="Name;a;b;c;d\nada 1,2,3,4\nBen 1, 2, 3, 4\n")
        # it is asked only of the file with a refused line whether it looks like a table
        for number in range(3):
            text = f"ada 1,2,3,4\nBen 1, 2, 3, {number + 1}\ncleo 1,2,{number},4\n"
            self.write(f"odd{number}", text)
        self.each("add odd0 odd1 odd2", "add --look mail", "add --yes mail", "add --yes mail")
        self.each("held", "held 2", f"held 1 --enter {FORCED}", "held 3 4 --set-aside")
        self.started(f"held 7 --as 'fay 1,2,3,4' --as 'gus 1,2,4,3' {FORCED}")
        self.started("desk", given="ada 1,2,3,4\n")
        self.each("show --yes ada", "status", "status --json", "undo --yes", "log", "log --check")
        self.each("strike 1 --because x", "letters receipts", "letters reminders", "roll --yes")
        self.started("call --until '2026-12-05 18:00+00:00'")
        # from the close on; and once more, beside an earlier result
        self.set_clock("24T11")
        close, publish = "close --early --force --because x", "publish --yes --force --because x"
        self.each(close, "close", "letters closed")
        self.started("desk", given="ida 1,2,3,4\n")
        self.each("reopen --because x", "add --look mail", close, "count --force", publish)
        self.each("publish", "reopen --because x")
        self.started("add --yes --came-before-close yes -", given="ida 1,2,3,4\n")
        self.each(close, f"{publish} result-2", "letters result", "letters receipts", "status")
        self.each("export --yes out", "backup copy.db")
        # without tellers there are no lists, and it starts nothing
        self.assertEqual(self.tried, {*COMMANDS} - {"tellers"})


class Several(Starts):
    """As often for each question, here of an open vote."""

    questions = 2

    def write_polls(self):
        self.write("polls/title.txt", "Assembly\n")
        for label in "AB":
            self.write(f"polls/{label}.toml", self.poll)

    def test_each_command(self):
        self.set_clock("23T10")
        lines = "ada A 1,2,3,4 B 4,3,2,1\nben a: 1, 2,3,4\nBen B 1, 2, 3, 4\n"
        self.started("add -", given=lines)
        self.write("lines", f"{lines}cleo A 1,2 B 1,2,3,4\nzoe A 1,2,3,4\n")
        self.each("add --force lines", "count", "close --early", "count", "publish")

    @pytest.mark.whole
    def test_letters_and_a_desk(self):
        self.write_mail(
            ("ada", "ada\nA 2,1,3,4\n\nB 1,2,3,4"),
            ("dan", "A 1,2,3,4\nB 1,2,3,4"),
            ("eve", "eve A 1,2\nB 1,2,3,4"),
            ("fay", "gus B 1,2,3,4"),
        )
        self.set_clock("23T10")
        self.started("add -", given="ada A 1,2,3,4 B 4,3,2,1\n")
        self.each("add --yes mail", "held", f"held 1 --enter {FORCED}", "held 3 4 --set-aside")
        self.started("held 2 --as 'dan A 1,2,3,4 B 1,2,3,4'")
        self.started("desk", given="ida A 1,2,3,4\n")
        self.each("show --yes ada", "status", "undo --yes", "strike 1 --because x")
        self.started("letters receipts")
        self.set_clock("24T11")
        self.each("close --early --force --because x", "count --force")
        self.each("publish --yes --force --because x", "letters result", "export --yes out")
