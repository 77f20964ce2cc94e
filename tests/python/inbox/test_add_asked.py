"""`add`: what others do meanwhile, what it asks, what comes from a pipe, and what `--look` says."""

import itertools
import os
import re
import subprocess
import sys

import pytest

from tests.support import elections
from tests.support.election_books import LAKE, CalledTest
from tests.support.letters import OTHER_RANKS, RANKS
from tests.support.terminal import Terminal

MONDAY = f"ada {RANKS}\nben {RANKS}\n"
ASKED = "Did this come before that close? [y/n] "


class AfterReopen(CalledTest):
    def setUp(self):
        super().setUp()
        self.close_book()
        self.act("reopen", {"because": "a bag was forgotten"})
        self.write("monday", MONDAY)

    def asked(self) -> Terminal:
        terminal = Terminal(self, "add", "monday")
        said = r"^The vote was closed at [-\d]+ [:\d]+ UTC and opened again\. Did"
        self.assertRegex(terminal.until(ASKED), said)
        return terminal

    def answer(self, terminal: Terminal, *keys: str, says: str, status: int = 0) -> str:
        """What is shown after these keys, up to an end with this status; it is not asked again."""
        for key in keys:
            terminal.type(key)
        output, ended = terminal.end()
        self.assertEqual((ended, says in output), (status, True), output)
        return output

    def test_yes_and_no_and_the_end_of_the_input(self):
        self.answer(self.asked(), "y\n", says=f"1 counted  ada: {LAKE}\n")
        self.told("undo")
        before = self.last_act()
        said = "you did not say whether it came before the close; nothing was added: "
        self.answer(self.asked(), "\x04", says=said, status=9)
        self.assertEqual(self.last_act(), before)
        self.answer(self.asked(), "perhaps\n", "n\n", says="3 late  ada: ")
        self.assertEqual((self.lines(), len(self.late_lines())), ([], 2))

    def test_acts_meanwhile(self):
        """First one that changes nothing of it; what somebody adds then has come before: the answer
        decides which lines are new, so it is asked first.
        """
        both = "monday: 1 line is ignored, since it came before; 1 is new\n5 counted  ben: "
        for name, says in (("cleo", "2 counted  ada: "), ("ada", both)):
            terminal = self.asked()
            self.adds(f"{name} {RANKS}\n", words="--came-before-close yes")
            self.assertNotIn(ASKED, self.answer(terminal, "y\n", says=says))
            self.assert_lines(f"cleo {RANKS}", f"ada {RANKS}", f"ben {RANKS}")
            self.told("undo")

    def test_a_close_meanwhile(self):
        terminal = self.asked()
        self.close_book()
        self.answer(terminal, "y\n", says="1 late  ada: ")
        self.assertEqual((self.lines(), len(self.late_lines())), ([], 2))

    def test_what_came_at_the_terminal_itself(self):
        terminal = Terminal(self, "add")
        terminal.until(
            "Type the ballots, one on each line; to end, type Ctrl-D on an empty line.\n"
        )
        terminal.type(f"ada {RANKS}\n\x04")
        terminal.until(ASKED)
        self.answer(terminal, "y\n", says="1 counted  ada: ")


class BesideOthers(CalledTest):
    """What several processes add at once."""

    def adding(self, *words: str) -> subprocess.Popen:
        pipes = dict.fromkeys(("stdin", "stdout", "stderr"), subprocess.PIPE)
        env, words = elections.environment(), (sys.executable, elections.ELECTION, "add", *words)
        run = subprocess.Popen(words, cwd=self.folder, env=env, text=True, **pipes)
        self.addCleanup(run.wait)
        self.addCleanup(run.kill)
        return run

    @pytest.mark.whole
    def test_two_copies_of_one_file(self):
        ranks = itertools.product(range(1, 20), repeat=2)
        self.write("many", "".join(f"ada {one},{other},1,2\n" for one, other in ranks))
        runs = [self.adding("many") for _ in range(3)]
        outputs = "".join(run.communicate(timeout=elections.SECONDS)[0] for run in runs)
        self.assertEqual([run.returncode for run in runs], [0] * 3, outputs)
        self.assertEqual(len(self.lines()), 361)
        said = "Added 361 lines", "There is nothing new"
        self.assertEqual([outputs.count(part) for part in said], [1, 2])

    def test_each_gets_the_replies_to_its_own_lines(self):
        runs = {name: self.adding() for name in self.names[:3]}
        for name, run in runs.items():
            run.stdin.write(f"{name} {RANKS}\n{name} {OTHER_RANKS}\n")
            run.stdin.close()
            run.stdin = None
        for name, run in runs.items():
            output, faults = run.communicate(timeout=elections.SECONDS)
            self.assertEqual((run.returncode, faults), (0, ""))
            elector = self.elector(name)
            first, second = (one.number for one in self.envelopes() if one.elector == elector)
            self.assertIn(f"{first} counted  {name}: {LAKE}\n", output)
            self.assertIn(f"\n{second} replaced  {name}: ", output)

    def test_lines_from_a_named_pipe_and_a_process_substitution(self):
        os.mkfifo(self.folder / "more")
        with subprocess.Popen(["sh", "-c", f"echo ada {RANKS} > {self.folder}/more"]):
            self.tells("add more", "Added 1 line (1 counted).\n", timeout=elections.SECONDS)
        read_end, write_end = os.pipe()
        os.write(write_end, f"ben {RANKS}\n".encode())
        os.close(write_end)
        self.told(f"add /dev/fd/{read_end}", pass_fds=(read_end,))
        os.close(read_end)
        self.assert_lines(f"ada {RANKS}", f"ben {RANKS}")

    def test_another_call_while_it_reads(self):
        """What it says of the lines is of the poll before."""
        os.mkfifo(self.folder / "more")
        run = self.adding("more")
        with open(self.folder / "more", "w") as pipe:
            self.told("call --take-back")
            self.told("call --to vote@club.example")
            before = self.last_act()
            pipe.write(f"ada {RANKS}\n")
        output, faults = run.communicate(timeout=elections.SECONDS)
        self.assertEqual((output, run.returncode, self.last_act()), ("", 9, before))
        said = (
            "the call for votes was made anew meanwhile; nothing was added: run the command again"
        )
        self.assertIn(said, faults)


class Look(CalledTest):
    """`--look` says what the same command does without it, and nothing is kept."""

    def assert_look_says_it(self, words: str = "", given: str | None = None):
        before = self.last_act()
        look = self.election(f"add --look {words}", given=given)
        self.assertEqual(self.last_act(), before)
        ended = self.election(f"add {words}", given=given)
        self.assertEqual((look.status, look.faults), (ended.status, ended.faults))
        for added in re.findall(r"(?m)^Added (.*)", ended.output):
            told, looked = (re.findall(r"(?m)^\d.*", one.output) for one in (ended, look))
            self.assertEqual(looked, told)
            self.assertIn(f"These would be {added} Nothing was changed.\n", look.output)

    def test_it_says_it(self):
        self.assert_look_says_it(given=MONDAY)
        self.assert_look_says_it(given=f"ada {OTHER_RANKS}\n{MONDAY}cleo {RANKS}\nGsu 1,2\n")
        self.told("strike 1 --because 'a test'")
        said = "  it goes in as it came; written as `gsu 1,2,3,4` it is refused too: "
        self.adds("Gsu 1,2,3,4\n", said, words="--look")
        # what stops, and after the close
        self.write("wrong", f"Dear all,\nwe meet on Monday\nhal {RANKS}\n")
        for words in ("wrong", "--force wrong"):
            self.assert_look_says_it(words)
        self.close_book()
        self.assert_look_says_it(given=f"ida {RANKS}\n")
