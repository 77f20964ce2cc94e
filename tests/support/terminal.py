"""A program at its own terminal, where a test types."""

import contextlib
import functools
import os
import pty
import select
import signal
import sys
import time

from tests.support import elections, forks

# words that have not come by then do not come, and a program that has not ended hangs
SECONDS = 120


@functools.cache
def has_terminals() -> bool:
    """Whether this system gives terminals: in some containers there is no /dev/pts."""
    try:
        for end in os.openpty():
            os.close(end)
    except OSError:
        return False
    return True


class Terminal:
    """debvote-election at its own terminal, where a test types; without arguments it is a desk."""

    def __init__(self, test: elections.ElectionTest, *words: str):
        if not has_terminals():
            test.skipTest("there are no terminals in /dev/pts")
        self.test, self.text = test, ""
        program = [sys.executable, str(elections.ELECTION), *(words or ("desk",))]
        env = elections.environment() | test.clock | {"XDG_STATE_HOME": str(test.state)}
        forks.read_ahead()
        self.process, self.keys = pty.fork()
        if self.process == 0:
            forks.become(program, test.folder, env)
        # a test that fails leaves no program running
        test.addCleanup(self.kill)

    def kill(self):
        with contextlib.suppress(ChildProcessError):
            if os.waitpid(self.process, os.WNOHANG) == (0, 0):
                os.kill(self.process, signal.SIGKILL)
                os.waitpid(self.process, 0)

    def read(self, end: float, waits: str) -> bool:
        """Reads what is shown next; whether the program goes on. The test fails if nothing comes in
        time.
        """
        ready, _, _ = select.select([self.keys], [], [], max(0, end - time.monotonic()))
        self.test.assertTrue(ready, f"{waits}, has {self.text!r}")
        try:
            data = os.read(self.keys, 65_536)
        except OSError:
            data = b""
        self.text += data.decode().replace("\r\n", "\n")
        return bool(data)

    def until(self, words: str) -> str:
        """The text of the terminal up to these words, from the end of the last call."""
        end = time.monotonic() + SECONDS
        while words not in self.text:
            self.test.assertTrue(
                self.read(end, f"waits for {words!r}"),
                f"ended before {words!r}, with {self.text!r}",
            )
        shown, _, self.text = self.text.partition(words)
        return shown + words

    def type(self, keys: str):
        os.write(self.keys, keys.encode())

    def after(self, keys: str, *words: str) -> str:
        """What these keys show, up to the last of these words; the others are in it."""
        self.type(keys)
        shown = self.until(words[-1])
        for part in words[:-1]:
            self.test.assertIn(part, shown)
        return shown

    def ends(self, keys: str, *parts: str, status: int = 0) -> str:
        """What is shown from these keys to the end, which has these parts, and this status."""
        self.type(keys)
        shown, found = self.end()
        self.test.assertEqual(found, status, shown)
        for part in parts:
            self.test.assertIn(part, shown)
        return shown

    def end(self) -> tuple[str, int]:
        end = time.monotonic() + SECONDS
        while self.read(end, "does not end"):
            pass
        _, status = os.waitpid(self.process, 0)
        os.close(self.keys)
        return self.text, os.waitstatus_to_exitcode(status)
