"""The web box of a vote, in which `vote.php` keeps the ballots that electors send by a click.

The script lies beside the page of the call, and `add --box` asks it for the ballots. The key of the
box never leaves the book: whoever has it makes the link of each elector from name and own mark, and
opens each ballot (`sealed_ballots.py`). The host gets digests alone; the word that asks makes no
link.
"""

import contextlib
import functools
import hmac
import re
import secrets
import urllib.parse
from collections.abc import Mapping

from debvote_tools.book import queries
from debvote_tools.book.book import Book
from debvote_tools.cli.faults import Fault, bad_arguments
from debvote_tools.election import BOX_KEY, BOX_SCRIPT
from debvote_tools.files import sha256_of
from debvote_tools.poll.sealed import OWN, OWN_SIGNS
from debvote_tools.text.language import marked
from debvote_tools.text.rendering import resources

# the script; what of it belongs to one vote follows this line
SCRIPT = "vote.php"
END_OF_CODE = b"\n__halt_compiler();\n"

KEY_BYTES = 32
LINK_LENGTH = 16
PAGE_DIGITS = 16

# what is behind an own mark in a personal link, and what may be its third part alone
BEHIND_OWN = re.compile(rf"((?:/|%2f){OWN}(?:/|%2f))\w+", re.IGNORECASE)
ALONE = re.compile(
    rf"[{OWN_SIGNS}{OWN_SIGNS.upper()}]{{{LINK_LENGTH}}}(?<![^\W_].{{{LINK_LENGTH}}})(?![^\W_])"
)

# of this computer
LOOPBACK = ("localhost", "127.0.0.1", "::1")

# the sentences of box.js, those of an answer by its first word
SENTENCES = marked(
    {
        "sending": "It is being sent ..",
        "received": "It has arrived, sent {time}. The secretary fetches it, and you get a receipt by "
        "e-mail that names this time, and says how it was read. If none comes, or it says "
        "otherwise, tell the secretary.",
        "late": "It has arrived, sent {time}, after {end}, the end that this page knows. If the "
        "vote was extended it may still count: you get a receipt by e-mail that says so. If "
        "none comes, tell the secretary.",
        "changed": "The choice has been changed, and is not sent yet.",
        "old": "It was not taken: this page is an older one. Load it again. If this comes again, answer your newest letter.",
        "unknown": "It was not taken: this page does not know your link. Open the newest letter of "
        "this vote, or send your ballot by e-mail.",
        "many": "It was not taken: too many ballots came by your link. Send your ballot by e-mail.",
        "lost": "It was not taken. Send your ballot by e-mail.",
        "unsure": "Nobody knows whether it has arrived. Press the button again: it counts once. Or send your ballot by e-mail.",
        "over": "Nobody knows whether it has arrived, and by the clock of this device the time is "
        "over. If no receipt comes, tell the secretary.",
        "unsealed": "This browser can't seal a ballot. Open the link in another one.",
    }
)
# the sentences that differ in a secret vote, in which nobody is asked to send a ballot by e-mail,
# and no receipt says what is in it
SECRET_SENTENCES = marked(
    {
        "type_name": "To vote here by a click, open the link in your own letter.",
        "received": "It has arrived, sent {time}. A receipt by e-mail with this time says whether it "
        "counts, and not what is in it. If none comes, or one for a ballot that is not "
        "yours, tell the secretary.",
        "old": "It was not taken: this page is an older one. Load it again. If this comes again, ask the secretary.",
        "unknown": "It was not taken: this page does not know your link. Open the newest letter of "
        "this vote. Or ask the secretary: an e-mail can be read on its way.",
        "many": "It was not taken: too many ballots came by your link. Ask the secretary.",
        "lost": "It was not taken. Try again later, or ask the secretary: an e-mail can be read on its way.",
        "unsure": "Nobody knows whether it has arrived. Press the button again: it counts once. Or "
        "ask the secretary: an e-mail can be read on its way.",
    }
)


# ---- the key, and what is made of it
@functools.cache
def key_of(book: Book) -> bytes:
    """The key of a book, or a new one, which the first call with a box seals."""
    return queries.sealed(book, BOX_KEY) or secrets.token_bytes(KEY_BYTES)


def asking_word(key: bytes) -> str:
    """The word by which the box is asked."""
    return hmac.digest(key, b"ask", "sha256").hex()


def page_of(key: bytes, mark: str) -> str:
    """What the page of the poll with this mark posts with each ballot, so that a page of another
    call, or of another book with this poll, is refused.
    """
    return sha256_of(hmac.digest(key, f"page {mark}".encode(), "sha256"))[:PAGE_DIGITS]


@functools.cache
def third_part(key: bytes, name: str, own: str) -> str:
    """The third part of the personal link of an elector with this own mark. It stands in no
    subject, as own marks do: who gets an answer of the elector in copy cannot vote.
    """
    number = int.from_bytes(hmac.digest(key, f"{name} {own}".encode(), "sha256"))
    places = (len(OWN_SIGNS) ** place for place in range(LINK_LENGTH))
    return "".join(OWN_SIGNS[number // place % len(OWN_SIGNS)] for place in places)


def personal_link(key: bytes, name: str, own: str) -> str:
    """What is behind the address of the page in the personal link of an elector with this own
    mark.
    """
    return f"{name}/{own}/{third_part(key, name, own)}"


def proof_digest(mark: str, link: str) -> str:
    """What the host knows of a link to the page of the poll with this mark: the digest of the proof
    that the page sends, which is one of the link.
    """
    return sha256_of(sha256_of(f"{mark} {link}".encode()).encode())


@functools.cache
def links_of(book: Book) -> dict[str, str]:
    """All personal links of a book by their third parts."""
    key = queries.sealed(book, BOX_KEY)
    owns = queries.own_marks(book).items()
    links = (personal_link(key, its.elector, own) for own, its in owns)
    return {link[-LINK_LENGTH:]: link for link in links}


def without_links(book: Book, text: str) -> str:
    """A text without the third parts of personal links, and what is in the place of one."""
    text = BEHIND_OWN.sub(r"\1..", text)
    for found in ALONE.findall(text):
        # while it is said that the book can't be read, it may be one
        is_link = True
        with contextlib.suppress(Fault):
            is_link = found.lower() in links_of(book)
        text = text.replace(found, "..") if is_link else text
    return text


# ---- the script
def script_of(key: bytes, mark: str, owns: Mapping[str, str]) -> bytes:
    """The script for the vote of a poll with this mark, and these own marks by names."""
    links = (personal_link(key, name, own) for name, own in owns.items())
    # their order tells no name
    digests = sorted(proof_digest(mark, link) for link in links)
    first = f"{mark} {sha256_of(asking_word(key).encode())} {page_of(key, mark)}"
    lines = "".join(f"{line}\n" for line in (first, *digests))
    return f"{resources('debvote_tools.call', SCRIPT)}{lines}".encode()


def box_files(book: Book, mark: str, owns: Mapping[str, str]) -> dict[str, bytes]:
    """What is sealed of the box: its key, which is the same for each call, so that its file on the
    web host stays; and the script, if it is another one now.
    """
    key = key_of(book)
    files = {BOX_KEY: key, BOX_SCRIPT: script_of(key, mark, owns)}
    return {name: data for name, data in files.items() if data != queries.sealed(book, name)}


def list_digest(script: bytes) -> str:
    """The digest of what a script knows, as the box tells it."""
    return sha256_of(script.partition(END_OF_CODE)[2])


def records_file(key: bytes) -> str:
    """The name of the file on the web host in which the box keeps its records."""
    return f"box-{sha256_of(asking_word(key).encode())[:32]}.php"


def script_address(at: str | None) -> str:
    """Where the script lies, beside the page. Stops at an address beside which none can lie, or to
    which ballots would go unencrypted.
    """
    parts = urllib.parse.urlsplit(at or "")
    is_safe = parts.scheme == "https" or parts.scheme == "http" and parts.hostname in LOOPBACK
    if at is None or not is_safe or parts.query or not parts.path.endswith(("/", ".html")):
        reason = "the page needs an address by https that ends in / or .html"
        raise bad_arguments("--box", reason, "give --at https://example.org/vote/ too")
    return urllib.parse.urljoin(at, SCRIPT)
