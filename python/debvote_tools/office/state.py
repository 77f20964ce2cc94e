"""What the office remembers on this computer, and that there is one office for a book."""

import contextlib
import fcntl
import json
import os
import pathlib
import re
import time
from collections.abc import Iterator
from typing import IO, Any

from debvote_tools.book.machine_note import MACHINE_ID, state_folder
from debvote_tools.cli.faults import Fault, Status
from debvote_tools.election import Election
from debvote_tools.files import locked, sha256_of, write_whole

# of the folders that were open the last ones are named
MOST_FOLDERS = 20
# the address in the file that opens a page
LEADS_TO = re.compile(r"url=(http://127\.0\.0\.1:\d+/[\w-]+/)")
# in seconds: how long an office takes at most to say where its page is
PATIENCE = 3

# by names: `folders`, that were open, the last one first; `desks`, the names of desks by folder and
# number; `agreed`, the digests of files whose programs may run
State = dict[str, Any]


def kept() -> State:
    """What is remembered; nothing if that can't be read."""
    try:
        state = json.loads((state_folder() / "office.json").read_text("utf-8"))
    except (OSError, ValueError):
        return {}
    return state if isinstance(state, dict) else {}


@contextlib.contextmanager
def changed() -> Iterator[State]:
    """What is remembered, to be changed: it is kept at the end."""
    folder = state_folder()
    try:
        folder.mkdir(mode=0o700, parents=True, exist_ok=True)
        with locked(folder / "lock"):
            state = kept()
            yield state
            data = json.dumps(state, ensure_ascii=False, indent=1).encode()
            write_whole(folder / "office.json", data, 0o600)
    except OSError as error:
        reason = f"the office can't note there what it has to remember ({error.strerror})"
        cure = "make the folder writable for you, or set XDG_STATE_HOME"
        raise Fault(folder, reason, cure, Status.BAD_OUTPUT) from None


def folders() -> list[str]:
    """The folders that were open and are still there, the last one first."""
    return [folder for folder in kept().get("folders", []) if os.path.isdir(folder)]


def remember_folder(folder: pathlib.Path) -> None:
    with changed() as state:
        others = [other for other in state.get("folders", []) if other != str(folder)]
        state["folders"] = [str(folder), *others][:MOST_FOLDERS]


def desk_name(election: Election, number: int) -> str:
    """The name of a desk, as somebody has changed it, or in the language of receipts."""
    names = kept().get("desks", {}).get(str(election.folder), {})
    return str(names.get(str(number)) or election.language.say("Desk {number}", number=number))


def name_desk(election: Election, number: int, name: str) -> None:
    with changed() as state:
        state.setdefault("desks", {}).setdefault(str(election.folder), {})[str(number)] = name


def digest_here(folder: pathlib.Path, data: bytes) -> str:
    """A digest of a file of a folder, by its place and this machine: no copy elsewhere has it."""
    with contextlib.suppress(OSError):
        data += b"\n" + MACHINE_ID.read_bytes()
    return sha256_of(f"{folder}\n".encode() + data)


def is_agreed(digest: str) -> bool:
    return digest in kept().get("agreed", [])


def agree(digest: str) -> None:
    with changed() as state:
        state["agreed"] = [*state.get("agreed", []), digest]


# ---- one office for a folder
class Taken(Exception):
    """Another office has the folder; its words are the file that opens its page, if it is known."""


def lock_of(folder: pathlib.Path, page: pathlib.Path) -> IO[str]:
    """Locks a folder for the office of a page, as long as the file is open. Raises `Taken`."""
    place = state_folder()
    place.mkdir(mode=0o700, parents=True, exist_ok=True)
    lock = place / f"office-{sha256_of(os.fsencode(folder))[:40]}"
    file = open(os.open(lock, os.O_RDWR | os.O_CREAT, 0o600), "r+", encoding="utf-8")
    until = time.monotonic() + PATIENCE
    while True:
        file.seek(0)
        try:
            fcntl.flock(file, fcntl.LOCK_EX | fcntl.LOCK_NB)
        except BlockingIOError:
            other = file.read()
        else:
            file.truncate(0)
            file.write(str(page))
            file.flush()
            return file
        # another one that has it may be about to make its page
        if os.path.isfile(other) or time.monotonic() > until:
            file.close()
            raise Taken(other)
        time.sleep(0.05)


def address_in(page: str) -> str:
    """The address to which a file leads that opens a page; empty if it is not there."""
    with contextlib.suppress(OSError):
        if found := LEADS_TO.search(pathlib.Path(page).read_text("utf-8")):
            return found[1]
    return ""
