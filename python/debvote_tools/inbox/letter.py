"""What the bytes of a letter alone say: who sent it, when it arrived, its marks, and its text.

Or they say why it can't be read with certainty.
"""

import dataclasses
import datetime
import email.header
import email.utils
import hashlib
import itertools
import re
import urllib.parse
from collections.abc import Iterable, Sequence

from debvote_tools.inbox import html
from debvote_tools.inbox.mailbox import OfBox, RawLetter
from debvote_tools.inbox.mime import MAX_PARTS, Part
from debvote_tools.inbox.reasons import Reason, ReasonWithValues
from debvote_tools.poll.sealed import OWN_LENGTH, OWN_SIGNS, marks_in
from debvote_tools.text.addresses import address_key

# in bytes, and in lines: the longest text
MAX_TEXT = 262_144
MAX_LINES = 10_000
# in characters: what is read of a field of the head
MAX_FIELD = 2_000

# as IANA names them, and as programs do
CHARSETS = re.compile(
    r"utf-?8|us-ascii|ascii|iso-?8859-\d{1,2}|(?:windows-|cp)125\d", re.IGNORECASE
)
# a letter in one of these waits, and is shown; some that no mail program uses take quadratic time
SHOWN_CHARSETS = re.compile(
    r"(?:us-)?ascii|(?:big5|cp|euc|gb|hz|iso|koi|ks|latin|mac|shift|tis|utf|windows)[\w.:-]*",
    re.IGNORECASE,
)
# control characters that mail programs show as Windows does, such as a dash
AS_WINDOWS = {
    number: bytes([number]).decode("cp1252", "replace")
    for number in range(0x80, 0xA0)
    if number != ord("\x85")
}
# other control characters but tab and line feed: some programs omit them, or end a line there; a
# carriage return before a line feed is none
CONTROL = re.compile("[\0-\x08\v-\x1f\x7f\x85\u2028\u2029]")
# mail servers write this field into the head of each letter
RECEIVED = re.compile(rb"\nreceived[ \t]*:", re.IGNORECASE)

# the sender: [display-name] "<" addr-spec ">", or an addr-spec, perhaps with a comment behind it as
# old programs wrote it (RFC 5322, 3.4). An addr-spec is dot-atom "@" dot-atom in ASCII (3.2.3 and
# 3.4.1), a name is words or quoted strings (3.2.4 and 3.2.5) and a comment in brackets (3.2.2),
# both in any bytes
ATOM = r"[\w!#$%&'*+/=?^`{|}~-]+"
ADDRESS = rf"{ATOM}(?:\.{ATOM})*@[\w-]+(?:\.[\w-]+)*"
NAME = r"""(?:"(?:[ !#-\[\]-~\udc80-\udcff]|\\[ -~])*"|[\w!#$%&'*+/=?^`{|}~. \udc80-\udcff-])*"""
COMMENT = r" *\([ !-'*-\[\]-~\udc80-\udcff]*\)"
SENDER = re.compile(rf"{NAME}<({ADDRESS})>|({ADDRESS})(?:{COMMENT})?", re.ASCII)
# the years of the times that mail and web servers write: far from them no clock could be set right
# and no other zone be shown, so with another year it is no time
YEAR = r"20\d\d"
# date-time = [day-of-week ","] day month year time-of-day zone, as mail servers write it (RFC 5322,
# 3.3 and 4.3); and its place in a field Received: *received-token ";" date-time (3.6.7), perhaps
# with the name of its zone in brackets
TIME = rf"(?:[A-Z][a-z]{{2}}, *)?\d{{1,2}} +[A-Z][a-z]{{2}} +{YEAR} +\d{{1,2}}:\d\d(?::\d\d)? +(?:[+-]\d{{4}}|UTC?|GMT|[ECMP][SD]T)"
CLOCK = r"(?<![:\d])\d{1,2}:\d\d:\d\d(?![:\d])"
ARRIVED = re.compile(rf"; *({TIME})(?: *\([^();]*\))? *\Z")
# fields by which a program says that it answers by itself (RFC 3834, 5, and programs from before
# it), or that a letter came back: in such parts (RFC 6522), or with no address to answer (RFC 5321,
# 4.5.5)
AUTOMATIC = re.compile(
    r"auto-submitted:(?!\s*(?:no)?\s*(?:;|\Z))|precedence:\s*auto[_-]reply|content-type:\s*multipart/report|return-path:\s*<\s*>"
    r"|x-auto(?:reply|respond|responder):",
    re.IGNORECASE,
)

# a letter of ours that did not reach its elector comes back in parts of this kind with such a line
# (RFC 3464, 2.1 and 2.3.3), or from such a sender (RFC 5321, 4.5.1)
REPORT = "message/delivery-status"
FAILED = re.compile(rb"(?im)^action:[ \t]*failed")
SERVERS = ("mailer-daemon", "postmaster")
# the own marks in it, in a subject and in a personal link, and what begins a Message-ID of ours
OWN = re.compile(
    rf"[0-9a-f]{{16}}-([{OWN_SIGNS}]{{{OWN_LENGTH}}})\]|/([{OWN_SIGNS}]{{{OWN_LENGTH}}})|\b([0-9a-f]{{32}})@"
)
# the name of a file in the head of a part, perhaps with its character set before it
FILE_NAME = re.compile(r"name\*?\d*\*?=(?:[\w-]+'[\w-]*')?(\"[^\"]*\"|[^\s;]+)", re.IGNORECASE)
# the cards that programs put beside the text
CARDS = ("text/vcard", "text/x-vcard", "text/directory")
# how many bytes and parts of it are looked through; and how many own marks are kept
MAX_RETURNED = 131_072
RETURNED_PARTS = 20
MAX_OWN = 20


@dataclasses.dataclass(frozen=True)
class Body:
    """The lines of the text of a letter, and why it can't be read with certainty."""

    lines: tuple[str, ...] = ()
    trouble: ReasonWithValues | None = None


@dataclasses.dataclass(frozen=True)
class Signature:
    """The one good signature, as gpgv reports it: the fingerprint of the key, and the time."""

    fingerprint: str
    time: datetime.datetime


@dataclasses.dataclass(frozen=True)
class ParsedLetter(OfBox):
    """What the bytes of a letter say and, if letters have to be signed, what gpgv says of it."""

    where: str
    # SHA-256 of its bytes, or of the record as it came: see `RawLetter`
    digest: str
    # the same for all copies: a digest of its Message-ID, sender and text; or of its good signature
    # and what that signs, since anybody can change the rest
    identity: str
    is_parted_off: bool
    # the one address that it came from, in small letters, or empty; and the sender as it is shown
    sender: str
    shown_sender: str
    subject: str
    # the marks of votes in its subject, each with the own mark of an elector or ""
    marks: tuple[tuple[str, str], ...]
    # by the mail server that received it last
    arrived: datetime.datetime | None
    # whether its head says that a program wrote it
    is_automatic: bool
    # the own marks and Message-IDs in it, if a mail server sends it back
    returned: tuple[str, ...]
    body: Body
    # if letters have to be signed: the good signature, or why there is none
    signature: Signature | None = None
    why_unsigned: ReasonWithValues | None = None
    # the names of the files that came with it; and whether it has one text, which is plain
    attachments: tuple[str, ...] = ()
    is_plain: bool = False

    @property
    def needs_signature(self) -> bool:
        """Whether it is of a vote in which letters have to be signed."""
        return self.signature is not None or self.why_unsigned is not None

    @property
    def is_never_signed(self) -> bool:
        """Whether it has no good signature with any keyring."""
        never = (Reason.NOT_SIGNED, Reason.NOT_WHOLE, Reason.ODD_LINES)
        return self.why_unsigned is not None and self.why_unsigned.reason in never

    @property
    def is_slow(self) -> bool:
        """Whether gpgv did not answer about it."""
        return self.why_unsigned == Reason.SLOW_SIGNATURE()


def parse(raw: RawLetter) -> ParsedLetter:
    """What the bytes of a letter say; no signature is checked. A letter that is too long, or that
    can be read in several ways, is parsed as far as it goes: its body has the `trouble`.
    """
    letter = Part(raw.data)
    subjects = letter.values("subject")
    letter.note_too_long(max(map(len, subjects), default=0), "characters in its subject", MAX_FIELD)
    senders = letter.values("from")
    sender = sender_of(letter, senders)
    parts = parts_of(letter)
    body = body_of(parts)
    is_automatic = says_automatic(letter)
    may_come_back = is_automatic or is_server(sender)
    return ParsedLetter(
        where=raw.where,
        digest=raw.digest,
        identity=identity_of(letter, f"{sender or ' '.join(senders)}{raw.block}", body),
        is_parted_off=raw.is_parted_off,
        sender=sender,
        shown_sender=", ".join(map(decoded, senders)),
        subject="; ".join(map(decoded, subjects)),
        marks=marks_of(subjects),
        arrived=arrival_of(letter.value("received")),
        is_automatic=is_automatic,
        returned=returned_in(raw.data[:MAX_RETURNED], sender) if may_come_back else (),
        body=body,
        attachments=attachments_of(parts),
        is_plain=[part.kind for part in parts if is_text(part)] == ["text/plain"],
        **{field.name: getattr(raw, field.name) for field in dataclasses.fields(OfBox)},
    )


def says_automatic(letter: Part) -> bool:
    """Whether its head says that a program wrote it."""
    fields = (f"{name}:{value[:MAX_FIELD]}" for name, value in letter.fields)
    return any(map(AUTOMATIC.match, fields))


def is_server(address: str) -> bool:
    """Whether an address is that of a mail server, unless somebody has it: clubs write so, too."""
    return address.partition("@")[0] in SERVERS


def marks_of(subjects: Iterable[str]) -> tuple[tuple[str, str], ...]:
    """The marks of votes in subjects, each once, as people read these and as they came."""
    texts = (text for subject in subjects for text in (decoded(subject), subject))
    return tuple(dict.fromkeys(itertools.chain(*map(marks_in, texts))))


def returned_in(data: bytes, sender: str) -> tuple[str, ...]:
    """The own marks, and what begins Message-IDs, in a letter with which a mail server sends a
    letter of ours back: it has a report that the delivery failed, or no report, and is from the
    server itself. An answer of somebody who is away, and a delivery that is only late, are none.
    """
    parts = list(itertools.islice(Part(data).walk(), RETURNED_PARTS))
    reports = [part.body_bytes for part in parts if part.kind == REPORT]
    if not (any(map(FAILED.search, reports)) if reports else is_server(sender)):
        return ()
    texts = [data.decode("latin-1")]
    for part in parts:
        texts += [*map(decoded, part.values("subject")), part.payload.decode("latin-1")]
    bare = ("".join(text.lower().split()) for text in texts)
    marks = ("".join(mark) for text in bare for mark in OWN.findall(text))
    return tuple(dict.fromkeys(marks))[:MAX_OWN]


# ---- the head
def decoded(value: str) -> str:
    """A field as people read it, on one line."""
    return " ".join(words_in(value).split())


def words_in(value: str) -> str:
    """A field with its encoded words decoded, as Latin-1 if nobody knows their coding."""
    value = value[:MAX_FIELD].encode("utf-8", "surrogateescape").decode("utf-8", "replace")
    try:
        parts = email.header.decode_header(value)
    except Exception:
        parts = [(value, None)]
    return "".join(
        word if isinstance(word, str) else decoded_bytes(word, charset or "latin-1")
        for word, charset in parts
    )


def decoded_bytes(data: bytes, charset: str) -> str:
    """A text in its character set, or in Latin-1. Lone surrogates of the set are replaced."""
    try:
        text = data.decode(charset if SHOWN_CHARSETS.fullmatch(charset) else "latin-1")
        text = text.encode("utf-8", "replace").decode("utf-8")
    except (ValueError, LookupError):
        text = data.decode("latin-1")
    return text if text.isascii() else text.translate(AS_WINDOWS)


def sender_of(letter: Part, senders: Sequence[str]) -> str:
    """The address of a letter that has exactly one, with a name that can be read; else empty. A
    name that is not encoded is a trouble.
    """
    value = senders[0].replace("\t", " ") if len(senders) == 1 else ""
    match = SENDER.fullmatch(value) if len(value) <= MAX_FIELD else None
    shown = words_in(value)
    if match is None or not shown.isprintable() or "=?" in shown:
        return ""
    if not value.isascii():
        letter.note_trouble(Reason.RAW_NAME())
    return address_key(match[1] or match[2])


def arrival_of(received: str) -> datetime.datetime | None:
    """When the letter arrived: the time at the end of the topmost field Received, which the own
    mail server wrote. A field with two times has none: a letter whose first line begins with a
    blank continues that field.
    """
    value = received.replace("\t", " ")
    match = ARRIVED.search(value) if len(value) <= MAX_FIELD else None
    if match is None or len(re.findall(f"{TIME}|{CLOCK}", value)) > 1:
        return None
    try:
        arrived = email.utils.parsedate_to_datetime(match[1])
        # a server that does not know its zone writes -0000
        return arrived.replace(tzinfo=arrived.tzinfo or datetime.UTC).astimezone(datetime.UTC)
    except ValueError:
        return None


def identity_of(letter: Part, sender: str, body: Body) -> str:
    """What copies of a letter share, though servers change head, attachments and line ends."""
    text = "\n".join(body.lines)
    if ">From " in text:
        text = re.sub("^>From ", "From ", text, flags=re.MULTILINE)
    text = "\n".join(map(str.rstrip, text.split("\n"))).rstrip("\n")
    if not body.lines:
        text = letter.body_bytes.decode("latin-1").replace("\r\n", "\n").rstrip()
    parts = [" ".join(letter.values("message-id")).strip(), sender, text]
    return hashlib.sha256("\0".join(parts).encode("utf-8", "surrogatepass")).hexdigest()


# ---- the body
def parts_of(letter: Part) -> Sequence[Part]:
    """A letter, and the parts in it."""
    parts = list(itertools.islice(letter.walk(), MAX_PARTS))
    if len(parts) == MAX_PARTS:
        letter.note_trouble(Reason.TOO_MANY_PARTS())
    return parts


def body_of(parts: Sequence[Part]) -> Body:
    """The one plain text of a letter with these parts, or what is shown of another letter."""
    letter = parts[0]
    if letter.fields and RECEIVED.search(b"\n" + letter.body_bytes):
        letter.note_trouble(Reason.PARTED_OFF())
    first = the_text(parts)
    if first.note_too_long(len(first.body_bytes), "bytes in a text", MAX_TEXT):
        return Body(trouble=first.trouble)
    text = text_in(first)
    if first.kind == "text/html":
        text = html.text_of_page(text)
    lines = text.rstrip("\r\n").splitlines()
    first.note_too_long(len(lines), "lines", MAX_LINES)
    trouble = next(filter(None, (part.trouble for part in parts)), None)
    # these are the last troubles, since such a letter can be entered
    if trouble is None and first.kind == "text/html":
        trouble = Reason.HTML_ALONE()
    if trouble is None and any(part.kind in CARDS for part in parts):
        trouble = Reason.CARD()
    return Body(tuple(lines[:MAX_LINES]), trouble)


def the_text(parts: Sequence[Part]) -> Part:
    """The part whose text is shown: the plain one, alone or beside its own HTML, or HTML alone. Of
    others the first has that there is no such one as its trouble.
    """
    texts = [part for part in parts if is_text(part)]
    plain = [part for part in texts if part.kind == "text/plain" and part.is_shown]
    kinds = [part.kind if part.is_shown else "" for part in texts]
    first = next(iter(plain or texts), parts[0])
    are_both = kinds == ["text/plain", "text/html"] and are_alternatives(parts, texts)
    if not (are_both or kinds in (["text/plain"], ["text/html"])):
        first.note_trouble(Reason.NO_PLAIN_TEXT())
    return first


def is_text(part: Part) -> bool:
    return part.kind.startswith(("text/", "message/")) and part.kind not in CARDS


def are_alternatives(parts: Sequence[Part], texts: Sequence[Part]) -> bool:
    """Whether these are the texts of one multipart/alternative: the first is right below it, and
    the other, too, or within another part of it.
    """
    first, last = map(parts.index, texts)
    return any(
        above.kind == "multipart/alternative"
        and above.depth + 1 == texts[0].depth
        and all(part.depth > above.depth for part in parts[place + 1 : last + 1])
        for place, above in enumerate(parts[:first])
    )


def text_in(part: Part) -> str:
    """The text of a part, as its character set has it."""
    charset = part.parameters.get("charset", "")
    named = charset or "us-ascii"
    try:
        if not CHARSETS.fullmatch(named):
            raise LookupError
        part.payload.decode(named)
    except (UnicodeDecodeError, LookupError):
        part.note_trouble(Reason.CHARSET(charset=named))
    if part.is_cut:
        part.note_trouble(Reason.CUT())
    text = decoded_bytes(part.payload, charset or "utf-8").removeprefix("\ufeff")
    if odd := CONTROL.search(text.replace("\r\n", "\n")):
        part.note_trouble(Reason.CONTROL(character=f"U+{ord(odd[0]):04X}"))
    return text


def attachments_of(parts: Sequence[Part]) -> tuple[str, ...]:
    """The names of the files among these parts, or of what kind they are."""
    names = []
    for part in parts:
        if not part.kind.startswith("multipart/") and not (
            part.kind.startswith("text/") and part.is_shown and part.kind not in CARDS
        ):
            head = f"{part.value('content-disposition')}; {part.value('content-type')}"
            name = FILE_NAME.search(head[:MAX_FIELD])
            names.append(urllib.parse.unquote(decoded(name[1].strip('"'))) if name else part.kind)
    return tuple(names)
