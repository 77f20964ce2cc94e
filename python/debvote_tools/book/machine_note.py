"""What this machine noted of a book: the last act that it made or saw, by number and digest.

How many acts of each name there were is in it, too, so that an older copy can be told what it
lacks. It lies outside of the election's folder. So a copy of yesterday that is put back, a book
that another machine went on with, and a book that somebody wrote anew are noticed. It gets its room
on the disk before an act and its content after the commit, and goes only forward: a kill leaves it
at an earlier act of the same book, never at one that the book lacks.

What is done beside the book is in it, too: up to which act there is a backup, and up to which the
secretary says that something was uploaded or sent.
"""

import contextlib
import json
import os
import pathlib
from collections.abc import Iterable, Iterator, Mapping
from typing import NamedTuple

from debvote_tools.cli.faults import Fault, Status
from debvote_tools.files import locked, sha256_of, sync_folder, write_whole

MACHINE_ID = pathlib.Path("/etc/machine-id")
MACHINE_DIGITS = 16

# how much longer a note may be than one of act 0 without a digest: a number, a digest, and for each
# of some twenty names of acts, and of five of what is done, a number
ROOM = 20 + 64 + 25 * 40


def state_folder() -> pathlib.Path:
    """Where programs keep what outlasts them."""
    base = os.environ.get("XDG_STATE_HOME", "")
    state = pathlib.Path(base) if os.path.isabs(base) else pathlib.Path.home() / ".local/state"
    return state / "debvote"


def machine_of(salt: bytes) -> str:
    """This machine as the acts of a book name it. It differs by the random bytes of the first act,
    so that two books do not show that they are of one machine.
    """
    try:
        machine_id = MACHINE_ID.read_bytes()
    except OSError:
        machine_id = b""
    return sha256_of(salt + machine_id)[:MACHINE_DIGITS]


class Note(NamedTuple):
    act: int
    digest: str
    names: Mapping[str, int] = {}
    # the act up to which something is done beside the book, by its name
    done: Mapping[str, int] = {}


class MachineNote:
    """The note of a machine about the book at a path."""

    def __init__(self, machine: str, path: pathlib.Path) -> None:
        self.folder = state_folder()
        self.path = str(path)
        self.file = self.folder / sha256_of(f"{machine}\n".encode() + os.fsencode(path))[:40]
        # to which book the call of each key of a teller belongs, that this machine has seen
        self.points_file = self.folder / "tellers"
        # takes the place of the note
        self.next = self.file.with_suffix(".next")

    def read(self) -> Note | None:
        """The act that this machine noted; None if it has never seen this book here."""
        try:
            noted = json.loads(self.file.read_text())
            # a note of an earlier program has nothing that is done
            done = dict(noted.get("done", {}))
            return Note(int(noted["act"]), str(noted["digest"]), dict(noted["names"]), done)
        except FileNotFoundError:
            return None
        except (OSError, ValueError, LookupError, TypeError) as error:
            reason = f"this computer's note of the election can't be read ({error})"
            cure = "remove it, then repeat the command with --moved --because TEXT"
            raise Fault(self.file, reason, cure, done=None) from None

    def make_ready(self) -> None:
        """Makes room on the disk for the next note."""
        with self.under_lock():
            self.write_next(b"")

    def put(self, note: Note, *, is_moved: bool = False) -> None:
        """Notes an act, unless a later one is noted."""
        with self.under_lock():
            before = None if is_moved else self.read()
            if before is None or before.act < note.act:
                self.replace(note._replace(done=before.done if before else {}))

    def put_done(self, name: str, number: int) -> None:
        """Notes that something is done up to an act of the book that is noted."""
        with self.under_lock():
            if before := self.read():
                self.replace(before._replace(done={**before.done, name: number}))

    def replace(self, note: Note) -> None:
        self.write_next(self.as_bytes(note))
        os.rename(self.next, self.file)
        sync_folder(self.folder)

    def points(self) -> dict[str, str]:
        """The points of tellers that calls on this machine have, each with its book."""
        try:
            return {**json.loads(self.points_file.read_text())}
        except FileNotFoundError:
            return {}
        except (OSError, ValueError, TypeError) as error:
            reason = f"this computer's note of the keys of tellers can't be read ({error})"
            raise Fault(self.points_file, reason, "put it right, or remove it", done=None) from None

    def put_points(self, book: str, points: Iterable[str]) -> None:
        """Notes the points of the call of a book, in place of those of an earlier one."""
        with self.under_lock():
            noted = self.points()
            others = {point: other for point, other in noted.items() if other != book}
            if (now := others | dict.fromkeys(points, book)) != noted:
                write_whole(self.points_file, json.dumps(now).encode(), 0o600)

    def write_next(self, content: bytes) -> None:
        """Writes over what is to take the place of the note, with the room of the longest note."""
        handle = os.open(self.next, os.O_WRONLY | os.O_CREAT | os.O_CLOEXEC, 0o600)
        with open(handle, "wb") as target:
            target.write(content.ljust(len(self.as_bytes(Note(0, ""))) + ROOM))
            target.flush()
            os.fsync(handle)

    def as_bytes(self, note: Note) -> bytes:
        return json.dumps({"path": self.path, **note._asdict()}).encode()

    @contextlib.contextmanager
    def under_lock(self) -> Iterator[None]:
        """Keeps others from writing a note. Stops if no note could be written."""
        try:
            self.folder.mkdir(mode=0o700, parents=True, exist_ok=True)
            with locked(self.folder / "lock"):
                yield
        except OSError as error:
            reason = f"this computer must note there what it did last, but can't ({error.strerror})"
            cure = "make room there and the folder writable for you, or set XDG_STATE_HOME"
            raise Fault(self.folder, reason, cure, Status.BAD_OUTPUT) from None
