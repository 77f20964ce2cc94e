"""What `add` is given: files and standard input, each read once and whole, and folders."""

import codecs
import itertools
import os
import pathlib
import re
import sys
from collections.abc import Sequence
from typing import BinaryIO, NamedTuple

from debvote_tools.cli.console import has_input, tell
from debvote_tools.cli.faults import Fault, Status, bad_arguments, kept_in, stop_at
from debvote_tools.election import Election
from debvote_tools.files import BALLOTS_LIMIT, PACKED, PDF, kind_of
from debvote_tools.inbox.mailbox import (
    NotRead,
    RawLetter,
    are_letters,
    kind_not_read,
    letters_of_file,
    letters_of_folder,
)
from debvote_tools.poll.sealed import REQUIRED

# what names standard input on the command line, and how messages name it
HYPHEN = "-"
STANDARD_INPUT = "standard input"

AS_TEXT = "save it as plain text in UTF-8"
DAMAGED = "a mailbox whose line ends are damaged"
# what is done with a file that may have letters in it
CURES = {
    PACKED: f"{AS_TEXT}; if letters are packed in it, unpack it, and add the folder",
    DAMAGED: "save its letters again with the mail program",
    PDF: f"{AS_TEXT}; if it shows letters, save the letters themselves (.eml, or a folder of them)",
}

POLL_KEY = re.compile(rb"(?m)^[ \t]*\"?(%b)\"?[ \t]*=" % "|".join(REQUIRED).encode())


class GivenFile(NamedTuple):
    """A file or standard input, which was read."""

    name: str
    data: bytes

    @property
    def kept_name(self) -> str:
        """The name under which the book keeps it, without bytes that are no text."""
        return safe(pathlib.Path(self.name).name or self.name)


def safe(text: str) -> str:
    """A text from the command line, in which bytes that are no UTF-8 are written as \\xff."""
    return os.fsencode(text).decode("utf-8", "backslashreplace")


def has_letters(file: GivenFile) -> bool:
    of_outlook = (NotRead.OUTLOOK_LETTER, NotRead.OUTLOOK_MAILBOX)
    return are_letters(file.data) or kind_not_read(file.data) in of_outlook


def read_files(election: Election, paths: Sequence[str]) -> tuple[list[RawLetter], list[GivenFile]]:
    """The letters that these paths name, and what is passed over; or the files of lines. Stops at a
    file that has neither ballots nor letters, and at letters beside files of lines.
    """
    letters = dict[str, list[RawLetter]]()
    files = dict[str, GivenFile]()
    faults = list[Fault]()
    for path in paths or [HYPHEN]:
        with kept_in(faults):
            if path != HYPHEN and os.path.isdir(path):
                letters[path] = read_folder(path)
            elif has_letters(file := read_file(election, path)):
                letters[path] = letters_of_file(safe(file.name), file.data)
            else:
                demand_lines(file)
                files[path] = file
    stop_at(faults)
    if letters and files:
        names = ", ".join(STANDARD_INPUT if path == HYPHEN else path for path in letters)
        cure = "add letters and other files with separate commands"
        raise bad_arguments(names, "it has letters, and the other files have none", cure)
    return [*itertools.chain(*letters.values())], [*files.values()]


def read_folder(path: str) -> list[RawLetter]:
    """The letters of a folder: all that is in it are letters."""
    try:
        return letters_of_folder(pathlib.Path(path))
    except OSError as error:
        raise bad_ballots(path, error.strerror, "name letters that you may read") from None


def read_file(election: Election, path: str) -> GivenFile:
    """Reads a file or standard input, once: it may be a pipe. At a terminal it says how to end."""
    if path == HYPHEN:
        if not has_input():
            raise bad_ballots(STANDARD_INPUT, "it is closed", "name a file")
        if sys.stdin.isatty():
            tell("Type the ballots, one on each line; to end, type Ctrl-D on an empty line.")
        return GivenFile(STANDARD_INPUT, bytes_in(sys.stdin.buffer))
    # no other handle may be opened on the book: closing it would end the locks of this process
    if os.path.exists(path) and os.path.samefile(path, election.book.path):
        raise bad_ballots(path, "it is the book of this election", "name a file of ballots")
    try:
        with open(path, "rb") as file:
            return GivenFile(path, bytes_in(file))
    except OSError as error:
        cure = "name a file of ballots that you may read"
        raise bad_ballots(path, error.strerror, cure) from None


def bytes_in(file: BinaryIO) -> bytes:
    """All bytes of a file with letters; of another file one byte more than the limit at most."""
    data = file.read(BALLOTS_LIMIT + 1)
    return data + file.read() if are_letters(data) else data


def demand_lines(file: GivenFile) -> None:
    """Stops at a file that can't have ballots: it is empty, too long, of another kind, or a
    poll.
    """
    if not file.data:
        raise Fault(file.name, "it is empty", "write one ballot on each line")
    if len(file.data) > BALLOTS_LIMIT:
        words = f"it is longer than {BALLOTS_LIMIT} bytes, the most that debvote takes"
        raise bad_ballots(file.name, words, "add it in parts")
    what = kind_of(file.data)
    if file.data.startswith((codecs.BOM_UTF16_LE, codecs.BOM_UTF16_BE)):
        what = "a text in UTF-16"
    if are_letters(file.data.replace(b"\r\r\n", b"\n").replace(b"\r", b"\n")):
        what = DAMAGED
    if what is not None:
        raise bad_ballots(file.name, f"it is {what}", CURES.get(what, AS_TEXT))
    if len({key[1] for key in POLL_KEY.finditer(file.data)}) > 1:
        cure = "name the file of the ballots"
        raise Fault(file.name, "it looks like a poll, not like ballots", cure)


def bad_ballots(where: object, reason: object, cure: str) -> Fault:
    return Fault(where, reason, cure, Status.BAD_BALLOTS)
