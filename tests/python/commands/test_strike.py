"""`strike`: one envelope is taken out, before the close, with a reason that the log keeps."""

import shlex


from tests.support.election_books import LAKE, CalledTest
from tests.support.letters import OTHER_RANKS, RANKS
from tests.support.terminal import Terminal

WHY = "--because 'it was pencil'"


class Strike(CalledTest):
    def setUp(self):
        super().setUp()
        self.adds(f"ada {RANKS}\nben {RANKS}\nada {OTHER_RANKS}\nx\n")

    def test_the_line_and_what_stands_then(self):
        said = f"Struck envelope 3: `ada {OTHER_RANKS}`, because: it was pencil\nAnother ballot of ada counts: {LAKE}\n"
        said += "A strike cannot be undone: if it was a mistake, enter the line again.\nNext: 2 receipts are not written: debvote-election letters receipts --send --server HOST\n"
        self.assertEqual(self.told(f"strike 3 {WHY}"), said)
        self.assert_lines(f"ada {RANKS}", f"ben {RANKS}", "x")
        self.assertEqual(self.acts()[-1], ("strike", {"envelope": 3, "because": "it was pencil"}))
        self.tells(f"strike 1 {WHY}", "No ballot of ada counts\n")
        self.tells(
            f"strike 4 {WHY}",
            "Struck envelope 4: `x`, because: it was pencil\nA strike cannot be undone",
        )
        self.assert_lines(f"ben {RANKS}")
        self.tells("desk", "5 counted  cleo: ", given=f"cleo {RANKS}\n")
        # a letter is set aside
        self.enter_letter("add")
        self.told(f"strike 6 {WHY}")
        self.assert_state("struck")

    def test_what_is_refused(self):
        self.set_clock("2099-12-24T10:00:00+00:00")
        self.told(f"strike 3 {WHY}")
        struck = self.last_act()
        self.set_clock("2099-12-24T11:00:00+00:00")
        self.cast(f"cleo {RANKS}")
        before = self.last_act()
        no_text, mistake = "--because: the text has the character U+", "nothing was changed"
        said = f"struck already, by act {struck} at 2099-12-24 10:00:00 UTC; {mistake}: see debvote-election log"
        for number, part in {
            3: f"envelope 3 is {said}",
            9: f"there is no envelope 9; there are envelopes 1 to 5; {mistake}: ",
            0: "there is no envelope 0; ",
            2**64: f"there is no envelope {2**64}; there are envelopes 1 to 5; ",
        }.items():
            self.refused(f"strike {number} {WHY}", part)
        for why, part in {
            "--because ' '": "strike: it needs a reason, which the log keeps; nothing was changed: ",
            "--because 'a\u202eb'": f"{no_text}202E, which no plain text has",
            "--because 'a\x1b[1m'": f"{no_text}001B",
            "--because 'one line\nand one more'": f"{no_text}000A",
        }.items():
            self.refused(f"strike 1 {why}", part, status=2)
        self.assertEqual(self.last_act(), before)
        # also one that undo took back
        self.told("undo")
        self.told("undo")
        said = f"envelope 1 is struck already, by act {self.last_act()} at "
        self.assert_refused(f"strike 1 {WHY}", 9, said)

    def test_after_the_close_and_after_reopen(self):
        self.told("close --force --because x")
        said = "the vote was closed at ", ", and its ballots stay; nothing was changed: "
        self.assert_refused(f"strike 1 {WHY}", 9, *said)
        self.adds(f"cleo {RANKS}\n")
        self.told("reopen --because 'a bag was forgotten'")
        self.tells(f"strike 2 {WHY}", "Struck envelope 2: ")
        # what the act before has struck is not there to be replaced
        self.tells("desk --came-before-close yes", "6 counted  ben: ", given=f"ben {RANKS}\n")
        self.tells(
            f"strike 5 {WHY}",
            f"Struck envelope 5 (late): `cleo {RANKS}`, because: it was pencil\nNo ballot of cleo counts\n",
        )
        self.told("export", self.scratch / "out")
        self.assertEqual((self.scratch / "out" / "late.txt").read_text(), "")


class AtATerminal(CalledTest):
    def asked(self) -> Terminal:
        terminal = Terminal(self, *shlex.split(f"strike 1 {WHY}"))
        terminal.until(f"Strike envelope 1: `ada {RANKS}`? This cannot be undone. [y/n] ")
        return terminal

    def test_it_asks(self):
        """No answer, at the end of the input, is a no; another act changes nothing of it, but one that strikes it."""
        self.assertNotIn("[y/n]", Terminal(self, *shlex.split(f"strike 9 --yes {WHY}")).end()[0])
        self.refused(f"strike 1 {WHY}", "there is no envelope 1; no ballot has come yet; ")
        self.adds(f"ada {RANKS}\nben {RANKS}\n")
        before = self.last_act()
        for keys in ("n\n", "\x04"):
            self.asked().ends(keys, ": you did not say yes; nothing was changed: ", status=9)
            self.assertEqual(self.last_act(), before)
        first, second = self.asked(), self.asked()
        self.cast(f"cleo {RANKS}")
        self.assertNotIn("[y/n]", first.ends("y\n"))
        self.assert_lines(f"ben {RANKS}", f"cleo {RANKS}")
        second.ends("y\n", "envelope 1 is struck already", status=9)
