"""The bytes of letters, and their folder: a file for each address, a page to print for the others.

The folder is its owner's alone.

The head of a letter has only what was checked or made here: nothing of a letter that came gets into
it.
"""

import contextlib
import email.header
import email.utils
import functools
import os
import pathlib
import quopri
import re
import shutil
from collections.abc import Iterator, Mapping, Sequence

from markupsafe import Markup

from debvote_tools.book.outgoing import OutgoingLetter
from debvote_tools.book.queries import Elector
from debvote_tools.call.call import CallData
from debvote_tools.files import naming, remove_left_in, sync_folder, temporary_folder
from debvote_tools.outbox.due import LettersDue
from debvote_tools.outbox.words import PACKAGE
from debvote_tools.text.rendering import one_line, render_page, resources

TO_PRINT = "to-print.html"

# lines that programs on the way change: these words begin a letter of an mbox, and a full stop
# alone ends what `sendmail -t` reads
CHANGED_ON_THE_WAY = re.compile(rb"(?m)^(?:(?=>*From ).|\.$)")
# in characters; mail servers break lines of a thousand
LONGEST_LINE = 900
# of a line with encoded words
LONGEST_ENCODED = 76
# what is between two lines of a field
GOES_ON = "\n "


# ---- a letter
def message(due: LettersDue, letter: OutgoingLetter, *, is_draft: bool) -> bytes:
    """The bytes of a letter. An answer goes to the address of the call. Mail programs offer to send
    a draft.
    """
    words = due.text_of(letter)
    coding, body = body_of(words.text)
    reply_to = due.composer.call_data.to
    fields = {
        "From": sender_of(due.sender_name, due.sender),
        "Reply-To": reply_to if reply_to != due.sender else None,
        "To": letter.address,
        # on a line of its own it is found in a letter that comes back
        "Subject": f"{field('Subject', words.subject)}{GOES_ON}{words.mark}",
        "Date": email.utils.format_datetime(letter.time),
        "Message-ID": letter.message_id,
        "X-Unsent": "1" if is_draft else None,
        # no program answers it by itself
        "Auto-Submitted": "auto-generated",
        "MIME-Version": "1.0",
        "Content-Type": "text/plain; charset=utf-8",
        "Content-Transfer-Encoding": coding,
    }
    head = "".join(f"{name}: {value}\n" for name, value in fields.items() if value is not None)
    return head.encode("ascii") + b"\n" + body


# all letters of a run have the same subject, but for the mark, and sender
@functools.lru_cache
def field(name: str, text: str) -> str:
    """A text on one line as a head has it; no encoded word is longer than 75 characters."""
    charset, longest = ("us-ascii", None) if text.isascii() else ("utf-8", LONGEST_ENCODED)
    return email.header.Header(one_line(text), charset, longest, name).encode(splitchars=" ")


def sender_of(name: str, address: str) -> str:
    if name.isascii():
        return email.utils.formataddr((one_line(name), address))
    encoded = field("From", name)
    is_short = len(f"From: {encoded} <{address}>") <= LONGEST_ENCODED
    return f"{encoded}{' ' if is_short else GOES_ON}<{address}>"


def body_of(text: str) -> tuple[str, bytes]:
    """The name of the coding, and the coded text: as it is if every program leaves it so."""
    data = text.encode("utf-8", "replace")
    if (
        text.isascii()
        and CHANGED_ON_THE_WAY.search(data) is None
        and all(len(line) <= LONGEST_LINE for line in text.split("\n"))
    ):
        return "7bit", data
    return "quoted-printable", CHANGED_ON_THE_WAY.sub(
        lambda changed: b"=%02X" % changed[0][0], quopri.encodestring(data)
    )


# ---- the folder
def letter_files(due: LettersDue, letters: Sequence[OutgoingLetter]) -> dict[str, bytes]:
    """The files of letters by name. Letters that are sent, or that a server has taken, have
    none.
    """
    files: dict[str, bytes] = {}
    printed = []
    for letter in letters:
        elector = due.electors[letter.elector]
        if not letter.address:
            printed.append((elector, due.text_of(letter).text))
        elif not due.is_sending and due.can_be_sent(letter):
            # no name on a roll has the sign _
            name = (
                f"{elector.name}_{len(files)}" if f"{elector.name}.eml" in files else elector.name
            )
            files[f"{name}.eml"] = message(due, letter, is_draft=True)
    if printed:
        call = due.composer.call_data
        sender = ", ".join(filter(None, (due.sender_name, call.to or due.sender)))
        # these begin with the secretary's own words
        is_own = due.kind in ("call", "reminders")
        files[TO_PRINT] = page_to_print(call, printed, "" if is_own else sender)
    return files


def page_to_print(
    call: CallData, letters: Sequence[tuple[Elector, str]], sender: str = ""
) -> bytes:
    """Letters to electors, who have no address, with their texts."""
    rows = [
        (one_line(elector.who) or elector.name, rows_to_print(text), call.link_of(elector))
        for elector, text in letters
    ]
    return render_page(
        PACKAGE,
        "print.html",
        call.language,
        style=resources(PACKAGE, "letter.css"),
        title=call.questions.name,
        is_secret=call.questions.is_secret,
        letters=rows,
        picture_of=picture_of,
        sender=sender,
    )


def picture_of(link: str) -> Markup:
    """The QR code of a link, which nobody likes to type; none without the package that makes it."""
    try:
        import segno
    except ModuleNotFoundError:
        return Markup("")
    return Markup(segno.make_qr(link).svg_inline(border=2, light="white", omitsize=True))


def rows_to_print(text: str) -> list[list[tuple[str, str]]]:
    """The rows of a letter, each with its kind: a paragraph, a head, or an option that asks for a
    rank. A letter that asks for a ballot has three parts: what is read, what is kept, and the
    ballot.
    """
    parts = [list(filter(None, part.strip("\n").split("\n\n"))) for part in text.split("\f")]
    return [
        [(row, kind_of_row(row, in_ballot=number == 2)) for row in part]
        for number, part in enumerate(parts)
    ]


def kind_of_row(row: str, *, in_ballot: bool) -> str:
    if in_ballot:
        return "option" if row.startswith("  ") else "paragraph"
    return "head" if row.isupper() else "paragraph"


@contextlib.contextmanager
def in_place(files: Mapping[str, bytes], place: pathlib.Path) -> Iterator[None]:
    """Puts the files into their folder, whole, while the caller, who holds the lock, notes them. If
    that fails, the folder is as it was.
    """
    remove_left_in(place.parent)
    if not files:
        yield
        return
    make_own(place.parent)
    made = temporary_folder(place.parent)
    before = temporary_folder(place.parent)
    try:
        with naming(place):
            for name, data in files.items():
                (made / name).touch(0o600)
                (made / name).write_bytes(data)
        os.sync()
        has_before = place.is_dir()
        if has_before:
            place.rename(before)
        try:
            made.rename(place)
            sync_folder(place.parent)
            yield
        except BaseException:
            if place.is_dir():
                place.rename(made)
            if has_before:
                before.rename(place)
            raise
    finally:
        shutil.rmtree(made, ignore_errors=True)
        shutil.rmtree(before, ignore_errors=True)


def make_own(folder: pathlib.Path) -> None:
    for own in (folder.parent, folder):
        own.mkdir(mode=0o700, exist_ok=True)
        own.chmod(0o700)
