"""What letters come in: one message, an mbox, a Maildir, or a folder of messages.

The bytes say what a file is, not its name.

No byte is lost: the sections of a file, joined, are the file. A section is the line that begins a
letter, the letter, and the empty line below. Each letter is kept, or named as not read.
"""

import dataclasses
import datetime
import enum
import functools
import itertools
import pathlib
import re
from collections.abc import Iterable, Sequence
from typing import NamedTuple

from debvote_tools.book import queries
from debvote_tools.files import sha256_of
from debvote_tools.inbox.lines import MARK
from debvote_tools.inbox.mime import END_OF_HEAD, MAX_HEAD, MAX_LETTER, Part

# where a Maildir has its letters: first those that nobody has looked at, since one that somebody
# looks at meanwhile moves from the first folder to the second; and where it has unfinished ones
MAILDIR = ("new", "cur")
UNFINISHED = "tmp"

# a field of a head, and fields that most heads have
FIELD = re.compile(rb"[!-9;-~]+[ \t]*:")
USUAL = re.compile(
    rb"(?im)^(from|date|subject|to|message-id|received|mime-version|return-path|delivered-to|"
    rb"reply-to|content-type|x-mozilla-status|"
    rb"von|datum|betreff|an)[ \t]*:"
)
MIN_USUAL = 2

# what editors put before the first line of a file, the first line of the file of a box, and the
# line that begins an mbox
START = re.compile(
    rb"(?:%b)?(?P<box><\?php exit; \?>\r?\n)?[\r\n]*(?P<mbox>From [^\r\n]*\r?\n[\r\n]*)?" % MARK
)
# how a record in the file of a box begins, and all that are whole
BEGIN = b"From box@page.invalid "
WHOLE = re.compile(rb"(?s).*\n-- \r?\n\r?\n")
# lines that may begin a letter: "From " sender time (RFC 4155, appendix A). In an mbox such a line
# does if it has the name of a day and after it a time, or is bare as Thunderbird writes it
FROM_LINE = re.compile(rb"(?im)^>?From [^\r\n]*(?:\r?\n|\Z)")
DATED = re.compile(
    rb"From (?>[^\r\n]*?\b(?:Mon|Tue|Wed|Thu|Fri|Sat|Sun),* )(?:[^\r\n]* )?\d\d?:\d\d(?::\d\d)?\s"
)
BARE = re.compile(rb"From (?:- ?)?\r?\n")
# in bytes
LONGEST_EMPTY_LINE = 2

# how a file of Outlook begins, and what it calls the parts of a letter
OLE = b"\xd0\xcf\x11\xe0"
OUTLOOK_PARTS = [
    name.encode("utf-16-le")
    for name in ("__nameid_version1.0", "__properties_version1.0", "__substg1.0_")
]


class NotRead(enum.Enum):
    """Why a file or a letter is passed over, and what to do about it."""

    FOLDER = "it is a folder within the folder", "if it has letters, add it by its own name"
    MAILBOX = "it is a mailbox of several letters within the folder", "add it by its own name"
    HIDDEN = (
        "it is a hidden file, whose name begins with a full stop",
        "if it is a letter, rename it",
    )
    TOO_LONG = "it has more than 10 MiB", "ask for the ballot again, alone and without attachments"
    OUTLOOK_LETTER = (
        "it is a letter in the format of Outlook (.msg), which this program does not read",
        "save it as .eml: in the new Outlook with Save as or Download, from an older Outlook by way of Thunderbird",
    )
    OUTLOOK_MAILBOX = (
        "it is a mailbox in the format of Outlook (.pst), which this program does not read",
        "fetch the mailbox with Thunderbird, and save the letters there as .eml",
    )
    ZIP = "it is a ZIP", "unpack it, and add the folder"
    PDF = "it is a PDF", "save the letter itself as .eml"
    NO_LETTER = "it does not look like a letter", "if it is a letter, save it as .eml"
    CUT_OFF = (
        "it is a record of the web box that was cut off, of which nobody was told that it arrived",
        "fetch the file again",
    )
    SEALED = "it is a record of the web box that can't be opened", "ask its elector to vote again"


@dataclasses.dataclass(frozen=True, kw_only=True)
class OfBox:
    """What is known of a letter that is a record of the box; of another one nothing."""

    # the third part of the link by which it came, and whose it is
    link: str = ""
    elector: str = ""
    # when the box was asked before, by its clock, and by how many seconds that clock is behind, if
    # by more than a minute; and the latest time that it can have, as the box was asked then
    asked_before: datetime.datetime | None = None
    behind: int = 0
    latest: datetime.datetime | None = None
    # when it was sent by the device of its elector, and the last such time of the records of its
    # link that came before it
    sent: datetime.datetime | None = None
    sent_before: datetime.datetime | None = None
    # whether it is from the file of the box, which somebody downloaded by hand
    is_fetched: bool = False
    # in a vote with tellers: what is sealed to them
    block: str = ""

    def is_dated_alike(self, arrived: datetime.datetime) -> bool:
        """Whether its device and the web host, of which it has this time, date it alike."""
        if self.sent is None:
            return True
        off = (arrived - self.sent).total_seconds() + self.behind
        return abs(off) <= queries.DEVICE_OFF


@dataclasses.dataclass(frozen=True)
class RawLetter(OfBox):
    """A letter as it came, or why it is passed over. One that `is_parted_off` may be text of the
    letter above it in its mailbox, or have others in it, and waits.
    """

    where: str
    data: bytes = b""
    is_parted_off: bool = False
    why_not_read: NotRead | None = None
    # SHA-256 of what an asking brought, by which it is known again
    record_digest: str = ""

    @functools.cached_property
    def digest(self) -> str:
        """The digest of its bytes, or of the record as it came; a record in a file is another
        letter than that.
        """
        return self.record_digest or sha256_of(self.data)


# ---- files
def kind_not_read(data: bytes) -> NotRead | None:
    """What a file is that has no letters which this program reads; None if it may be read."""
    if data.startswith(b"!BDN"):
        return NotRead.OUTLOOK_MAILBOX
    if data.startswith(OLE) and any(part in data for part in OUTLOOK_PARTS):
        return NotRead.OUTLOOK_LETTER
    if data.startswith((b"PK\x03\x04", b"PK\x05\x06")):
        return NotRead.ZIP
    return NotRead.PDF if data.startswith(b"%PDF") else None


def are_letters(data: bytes) -> bool:
    """Whether a file begins as an mbox or a message does, or is that of a box."""
    if records_begin(data):
        return True
    start = begin_of(data)
    head = END_OF_HEAD.split(data[start.end() : start.end() + MAX_HEAD], maxsplit=1)[0]
    usual = {name.lower() for name in USUAL.findall(head)}
    is_usual = len(usual) >= MIN_USUAL or begins_mailbox(start)
    return FIELD.match(head) is not None and is_usual


class Section(NamedTuple):
    """A part of a file: the line that begins a letter, the letter, and the empty line below."""

    above: bytes
    letter: bytes
    below: bytes


def letters_of_file(name: str, data: bytes) -> list[RawLetter]:
    """The letters of a file that was read whole. One waits as `is_parted_off` if it has others in
    it, or may be text of a letter above it.
    """
    kind = kind_not_read(data) or (None if are_letters(data) else NotRead.NO_LETTER)
    if kind is not None:
        return [RawLetter(name, why_not_read=kind)]
    if begin := records_begin(data):
        return records_of_file(name, data[begin:])
    sections = sections_of(data)
    letters = list[RawLetter]()
    for (_, letter, _), is_of_above in zip(sections, are_of_above(sections)):
        where = f"{name}, message {len(letters) + 1}" if len(sections) > 1 else name
        if len(letter) > MAX_LETTER:
            letters.append(RawLetter(where, why_not_read=NotRead.TOO_LONG))
        else:
            letters.append(RawLetter(where, letter, is_of_above or has_others(letter)))
    return letters


def are_of_above(sections: Sequence[Section]) -> list[bool]:
    """Of each letter, whether it may be text of one above it: no empty line is between, it is
    within the Content-Length of a letter above, or the parts of that letter do not end. Any sender
    can write a Content-Length, so it counts only if it ends exactly where the file ends, or before
    a line with a date that separates letters.
    """
    possible_ends = ends_of(sections)
    are_of_above = [False]
    place = reach = 0
    for above, letter, below in sections[:-1]:
        message = Part(letter)
        place += len(above) + len(letter)
        lengths = map(re.compile(r"\d{1,15}").match, message.values("content-length"))
        ends = {place - len(message.body_bytes) + int(length[0]) for length in lengths if length}
        reach = max({reach, *ends & possible_ends})
        place += len(below)
        are_of_above.append(place < reach or not below or message.is_open)
    return are_of_above


def records_of_file(name: str, data: bytes) -> list[RawLetter]:
    """The records in the file of a box. Of what is below the last whole one nobody was told that it
    arrived.
    """
    match = WHOLE.match(data)
    whole = match[0] if match else b""
    letters = letters_of_file(name, whole) if whole else []
    fetched = [dataclasses.replace(letter, is_fetched=True) for letter in letters]
    if whole != data:
        fetched.append(RawLetter(f"{name}, at its end", why_not_read=NotRead.CUT_OFF))
    return fetched


def ends_of(sections: Iterable[Section]) -> set[int]:
    """Where the text of a letter may end in a file: before a line with a date, or at the end of the
    file, each with the empty line or without it. The last one may be missing.
    """
    ends = set[int]()
    place = 0
    below = b""
    for section in sections:
        if DATED.match(section.above):
            ends |= {place, place - len(below)}
        place += sum(map(len, section))
        below = section.below
    return ends | {place - len(below), *range(place, place + LONGEST_EMPTY_LINE + 1)}


def letters_of_folder(folder: pathlib.Path) -> list[RawLetter]:
    """The letters of a Maildir or a folder of messages, by name. Raises OSError."""
    is_maildir = all((folder / part).is_dir() for part in MAILDIR)
    own = {folder / part for part in (*MAILDIR, UNFINISHED)} if is_maildir else set()
    files = [file for file in folder.iterdir() if file not in own]
    if is_maildir:
        files += itertools.chain.from_iterable((folder / part).iterdir() for part in MAILDIR)
    files.sort(key=lambda file: (file.name, file))
    return [raw for file in files for raw in letter_of_file(file)]


def letter_of_file(file: pathlib.Path) -> list[RawLetter]:
    """The letter of a file of a folder. A mailbox of several letters is named, and not split."""
    if file.is_dir():
        why = NotRead.FOLDER
    elif file.name.startswith("."):
        why = NotRead.HIDDEN
    elif not file.is_file():
        why = NotRead.NO_LETTER
    else:
        data = file.read_bytes()
        if not are_letters(data) or len(sections_of(data)) == 1:
            return letters_of_file(str(file), data)
        why = NotRead.MAILBOX
    return [RawLetter(str(file), why_not_read=why)]


# ---- the sections of a file
def sections_of(data: bytes) -> list[Section]:
    """The sections of a file, of which only an mbox can have several."""
    start = begin_of(data)
    is_mailbox = begins_mailbox(start)
    begins = [start.span()] + [
        line.span()
        for line in (FROM_LINE.finditer(data, start.end()) if is_mailbox else ())
        if separates_letters(line[0]) and FIELD.match(data, line.end())
    ]
    sections = []
    for (begin, letter_begin), (end, _) in zip(begins, [*begins[1:], (len(data), 0)]):
        letter = data[letter_begin:end]
        empty = (line for line in (b"\n", b"\r\n") if is_mailbox and letter.endswith(b"\n" + line))
        below = next(empty, b"")
        sections.append(Section(data[begin:letter_begin], letter.removesuffix(below), below))
    return sections


def records_begin(data: bytes) -> int:
    """Where records begin in the file of a box, which may have none; 0 in another file."""
    place = begin_of(data).end("box")
    return max(place, 0) if BEGIN.startswith(data[place : place + len(BEGIN)]) else 0


def begin_of(data: bytes) -> re.Match[bytes]:
    start = START.match(data)
    assert start is not None
    return start


def begins_mailbox(start: re.Match[bytes]) -> bool:
    return separates_letters(start["mbox"] or b"")


def separates_letters(line: bytes) -> bool:
    return bool(DATED.match(line) or BARE.match(line))


def has_others(letter: bytes) -> bool:
    """Whether other letters may be in a letter: a line may begin one, and separates none."""
    # the expression takes long, and few letters have such a line
    below = b"\n" + letter.lower()
    may_have = b"\nfrom " in below or b"\n>from " in below
    lines = FROM_LINE.finditer(letter) if may_have else ()
    return any(DATED.match(line[0]) or FIELD.match(letter, line.end()) for line in lines)
