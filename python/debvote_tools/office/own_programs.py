"""The programs that a secretary has the office run: `office.toml` in the folder of the election.

They put the folder of the call, or of the result, on the web, and fetch letters. No command reads
the file. A folder may come from somebody else, so nothing of it runs before the secretary has seen
its words and agreed to them: for this file, at this place, on this computer.
"""

import pathlib
import tomllib
from collections.abc import Sequence
from typing import Any, NamedTuple

from debvote_tools.cli.faults import Fault
from debvote_tools.election import Election
from debvote_tools.office import state

FILE = "office.toml"
# in a word: where the folder stands that goes to the web
FOLDER = "{folder}"

CURE = "put it right with an editor, as the guide has it, or remove the file"


class OwnPrograms(NamedTuple):
    """The words of each program; without words it has none. `digest` is that of the whole file at
    its place, beside its book.
    """

    upload: Sequence[str]
    fetch: Sequence[str]
    mailbox: str
    digest: str

    @property
    def is_agreed(self) -> bool:
        return state.is_agreed(self.digest)

    def upload_words(self, folder: pathlib.Path) -> list[str]:
        return [word.replace(FOLDER, str(folder)) for word in self.upload]


def programs_in(election: Election) -> OwnPrograms | None:
    """What the file says; None if there is none. After a move of the book it is agreed to anew."""
    file = election.path(FILE)
    try:
        data = file.read_bytes()
        values = tomllib.loads(data.decode())
    except FileNotFoundError:
        return None
    except (OSError, ValueError) as error:
        raise Fault(file, error, CURE, done=None) from None
    mailbox = values.get("mailbox", "")
    upload = values.get("upload", [])
    fetch = values.get("fetch", [])
    if not (isinstance(mailbox, str) and are_words(upload) and are_words(fetch)):
        reason = "`upload` and `fetch` are lists of words, and `mailbox` is one text"
        raise Fault(file, reason, CURE, done=None)
    if fetch and not mailbox:
        raise Fault(file, "`fetch` needs `mailbox`, where the letters lie then", CURE, done=None)
    history = election.history()
    book = f"{history.acts[0].digest} {len(history.named('moved'))}\n".encode()
    return OwnPrograms(upload, fetch, mailbox, state.digest_here(election.folder, book + data))


def are_words(value: Any) -> bool:
    return isinstance(value, list) and all(isinstance(word, str) and word for word in value)
