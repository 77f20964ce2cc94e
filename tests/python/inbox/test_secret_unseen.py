"""A secret vote: no command shows what somebody chose beside the name, unless it is asked for."""

import re
import shlex

import pytest

from tests.support import elections
from tests.support.election_books import CalledTest, LettersTest
from tests.support.letters import answer, mailbox, rows
from tests.support.terminal import Terminal

SECRET = f"secret = true\n{elections.POLL}"
# ranks, ballots in words, and what electors wrote
CHOSEN = re.compile(r"[\d-],[\d-]|(lake|hall|there|discussion), then|lakeside|ranks, the poll")
# of nobody
EXAMPLE = "`NAME 2,3,4,1`"
INBOX = [
    answer("ada", "ada 4,1,3,2\n"),
    answer("ben", "ben 3,4,2,1\n\nI love the lakeside\n"),
    answer("cleo", "cleo 4,3,1\n"),
    answer("eve", "eve: 4, 3, 1, 2.\n"),
]
PAPER = "fay 4,2,1,3\nGus: 3, 1, 4, 2.\nhal 4,1\nnobody 3,2,4,1\nhal lakeside\n"
# the commands, and after an arrow what is typed at their questions
COMMANDS = rows(
    """
add --look inbox
add inbox → n⏎
add --yes inbox
add --look paper
add paper
add again
held
held 1
held 3
held 1 --enter
held 1 --wait
held 2 --as 'ben 3,4,2,1' --yes
held 2
held 3 --set-aside
held 3 --wait
status
status --json
status --electors
log
log --json
log --check
show ben → n⏎
export out → n⏎
strike 1 --because mistyped → n⏎
strike 1 --because mistyped --yes
undo → n⏎
undo --yes
count
letters receipts
letters reminders --yes
close --force --because lost → y⏎
add more
reopen --because found --yes
add more --came-before-close yes --yes
close --force --because lost --yes
check
"""
)


class Unseen(LettersTest):
    poll = SECRET

    def setUp(self):
        super().setUp()
        self.write("inbox", self.of_this_vote(mailbox(*INBOX)))
        self.write("paper", PAPER)
        self.write("again", f"{PAPER}fay 4,1,2,3\n")
        self.write("more", "ida 3,1,2,4\nada 4,1,2,3\n")

    def demand_unseen(self, words: str, text: str):
        for line in text.replace(EXAMPLE, "").splitlines():
            self.assertNotRegex(line, CHOSEN, f"{words}: {text}")

    def at_terminal(self, words: str, keys: str) -> str:
        terminal = Terminal(self, *shlex.split(words))
        terminal.type(keys)
        return terminal.end()[0]

    @pytest.mark.whole
    def test_at_a_terminal(self):
        for words, _, keys in (row.partition(" → ") for row in COMMANDS):
            shown = self.at_terminal(words, keys)
            # that letter waits, and somebody has asked for it
            if words not in ("held 3", "held 2 --as 'ben 3,4,2,1' --yes"):
                self.demand_unseen(words, shown)

    def test_through_a_pipe(self):
        for words, *_ in (row.partition(" → ") for row in COMMANDS):
            ended = self.election(words)
            self.demand_unseen(words, ended.output + ended.faults)

    def test_at_a_desk(self):
        self.told("add --force paper")
        typed = "fay 4,1,3,2\n"
        self.demand_unseen("desk", self.told("desk", given=f"ada 3,4,1,2\nben: 3, 1\n{typed}"))
        terminal = Terminal(self)
        terminal.until("Ballot: ")
        earlier = "fay has a ballot, which will be replaced\nEnter it? [y/n] "
        words = "fay: In the town hall, then Further discussion, then"
        shown = terminal.after(typed, words, earlier)
        self.demand_unseen("desk", shown.partition(words)[2].partition("\n")[2])
        self.demand_unseen("desk", terminal.ends("y\nq\n", "replaced  fay\n"))


class Asked(CalledTest):
    poll = SECRET

    def test_show_and_export(self):
        self.cast("ada 4,1,3,2")
        for words in ("show ada", "export out"):
            before = self.contents()
            self.refused(words, "the vote is secret, and this ", "repeat the command with --yes")
            self.assertEqual(self.contents(), before)
        ranks = "envelope 1, "
        self.assertRegex(self.told("show --yes ada"), f"{ranks}.*: In the town hall, then ")
        terminal = Terminal(self, "show", "ada")
        terminal.until("The vote is secret. Show what ada voted? [y/n] ")
        self.assertRegex(terminal.ends("y\n"), "The current ballot: In the town hall, then ")
        self.told("export --yes out")
        self.assertEqual(self.read("out/ballots.txt"), b"ada 4,1,3,2\n")
