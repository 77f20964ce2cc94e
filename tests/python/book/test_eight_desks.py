"""Eight desks at once, two of which are killed while they cast: each line is entered once, and none that was told is lost."""

import concurrent.futures
import random
import subprocess
import time

import pytest

from tests.support import elections

LINES = 10


@pytest.mark.whole
class EightDesks(elections.ElectionTest):
    def at_desk(self, name: str, killed_after: int | None, told: dict[int, str]) -> int:
        """Types the ballots of an elector, each after the reply to the one before, and returns how many."""
        desk = self.desk(stderr=subprocess.STDOUT)
        for typed in range(LINES):
            line = f"{name} {typed + 1},2,3,4"
            desk.stdin.write(f"{line}\n")
            desk.stdin.flush()
            if typed == killed_after:
                time.sleep(random.random() / 20)
                desk.kill()
                return typed
            reply = desk.stdout.readline()
            self.assertRegex(reply, rf"^\d+ {'replaced' if typed else 'counted'}  {name}: ")
            number = int(reply.split()[0])
            self.assertNotIn(number, told, "told twice")
            told[number] = line
        said = f"This desk has entered {LINES} lines (1 counted, {LINES - 1} replaced).\n"
        self.assertIn(said, desk.communicate()[0])
        self.assertEqual(desk.returncode, 0)
        return LINES

    def test_each_line_once_and_none_lost(self):
        told: dict[int, str] = {}
        with concurrent.futures.ThreadPoolExecutor(8) as desks:
            typed = list(desks.map(self.at_desk, self.names, [4, 6, *[None] * 6], [told] * 8))
        self.assertEqual(typed, [4, 6, *[LINES] * 6])
        out = self.scratch / "out"
        self.done("export", out)
        entered = (out / "ballots.txt").read_text().splitlines()
        self.assertEqual(len(told), sum(typed))
        self.assertEqual({number: entered[number - 1] for number in told}, told)
        # a desk that was killed has entered one line more at most
        self.assertLessEqual(len(entered), len(told) + 2)
        self.assertEqual(self.done("log --check").faults, "")
