"""What all requests of an office share: its election, the commands that run, and its secrets."""

import contextlib
import os
import pathlib
import secrets
import shutil
import tempfile
import threading
import time
from typing import IO

from debvote_tools.election import Election
from debvote_tools.office import state
from debvote_tools.office.runs import Runs

HOST = "127.0.0.1"

# what a secret opens: all; what stands on a wall; the folder that was published last
ALL = "all"
BIG = "big"
RESULT = "result"

# a browser gets the name of this file: others see the words of programs, and no content of files
LEADS = '<!DOCTYPE html><meta charset="utf-8"><meta http-equiv="refresh" content="0; url={}">\n'

# in seconds: after so long without a request it ends
IDLE = 12 * 60 * 60


class Office(Runs):
    def __init__(self, programs: pathlib.Path, code: str | None) -> None:
        # the language of the page: that which was asked for, or that of the election
        super().__init__(programs, code or "en")
        self.is_code_given = code is not None
        self.port = 0
        self.rooms = {room: secrets.token_urlsafe(32) for room in (ALL, BIG, RESULT)}
        # what was uploaded, and the file that leads to the page, for this account alone
        self.own = pathlib.Path(tempfile.mkdtemp(prefix="debvote-office-"))
        self.page = self.own / "open.html"
        # why the folder that was named has no election
        self.fault = ""
        self.held: IO[str] | None = None
        # one page at a time reads the book: to close a file of a database that is open elsewhere in
        # a process drops the locks that SQLite has on it
        self.reading = threading.RLock()
        self.last_request = time.monotonic()
        self.is_ended = False

    @property
    def host(self) -> str:
        return f"{HOST}:{self.port}"

    def address(self, room: str = ALL) -> str:
        return f"http://{self.host}/{self.rooms[room]}/"

    def write_page(self) -> None:
        handle = os.open(self.page, os.O_WRONLY | os.O_CREAT | os.O_EXCL, 0o600)
        with open(handle, "w", encoding="utf-8") as file:
            file.write(LEADS.format(self.address()))

    # ---- the election
    def open(self, folder: pathlib.Path) -> None:
        """Opens the election of a folder. Raises `Taken` if another office has it, and a fault if
        it has none.
        """
        folder = folder.resolve()
        with self.lock:
            if self.folder is not None:
                return
            with self.reading:
                election = self.election_in(folder)
                with contextlib.closing(election.open_book.connection):
                    self.held = state.lock_of(folder, self.page)
                    if not self.is_code_given:
                        self.code = election.language.code
            self.folder = folder
        state.remember_folder(folder)

    def election_in(self, folder: pathlib.Path) -> Election:
        """An election, whose doubts the page shows, and nothing says on standard error."""
        election = Election(folder, self.programs)
        election.book = election.open_book
        return election

    # ---- its end
    @property
    def is_over(self) -> bool:
        return self.is_ended or time.monotonic() - self.last_request > IDLE

    def close(self) -> None:
        """Interrupts what runs, and removes what was uploaded."""
        self.end()
        shutil.rmtree(self.own, ignore_errors=True)
        if self.held:
            self.held.close()
