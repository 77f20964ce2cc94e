"""Asks the web box of a vote for all that it has, and makes letters of its records.

What becomes of them is decided elsewhere.

A record that an elector's page sealed is a letter: its line stands where the sealed text stood, and
the third part of its link beside it (`OfBox`). All others wait for nobody: whoever writes into the
files of the web host can make them.
"""

import contextlib
import dataclasses
import datetime
import email.message
import http.client
import re
import ssl
import urllib.parse
from collections.abc import Callable, Iterator, Sequence
from typing import NamedTuple

from debvote_tools.book import queries
from debvote_tools.book.book import Book, Detail, from_text
from debvote_tools.book.queries import KeptRecord
from debvote_tools.call.box import (
    LINK_LENGTH,
    SCRIPT,
    asking_word,
    links_of,
    personal_link,
    proof_digest,
    script_address,
)
from debvote_tools.cli.console import count_of, listed, shown_text
from debvote_tools.cli.faults import Fault, bad_arguments
from debvote_tools.call.tellers import has_right_block
from debvote_tools.election import BOX_KEY, BOX_PAGE, POLL, Election, History
from debvote_tools.files import sha256_of
from debvote_tools.grouping import grouped
from debvote_tools.inbox.last_asking import (
    has_list_of_now,
    has_page_of_now,
    last_box,
    with_lost_records,
)
from debvote_tools.inbox.letter import YEAR, arrival_of
from debvote_tools.inbox.mailbox import BEGIN, NotRead, RawLetter
from debvote_tools.inbox.vote import Vote
from debvote_tools.timeout import within
from debvote_tools.poll.sealed import OWN, OWN_SIGNS, read_plain
from debvote_tools.text import times

# in seconds and in bytes: how long an answer may take and be
PATIENCE = 60
LONGEST_ANSWER = 33_554_432

# how an answer begins, with the version of the protocol; how each record ends
HEAD = re.compile(
    rf"box 2 ([0-9a-f]{{16}}) ([0-9a-f]{{64}}) ({YEAR}-\d\d-\d\dT\d\d:\d\d:\d\dZ)\n".encode()
)
END = b"\n-- \n\n"

# as the page sends a ballot: many web hosts refuse other kinds, and who says not what it is
FIELDS = {
    "Content-Type": "application/x-www-form-urlencoded",
    "User-Agent": "debvote-election",
    "Accept": "text/plain",
    "Connection": "close",
}
# as a browser asks for a page, since a host may change it for browsers alone
OF_BROWSER = {
    "User-Agent": "Mozilla/5.0 (Windows NT 10.0; Win64; x64; rv:140.0) Gecko/20100101 Firefox/140.0",
    "Accept": "text/html,application/xhtml+xml,application/xml;q=0.9,*/*;q=0.8",
    "Accept-Language": "en-US,en;q=0.5",
}

UPLOAD = f"upload {SCRIPT} of the folder call to where PHP 8.1 or later runs and may write; then run the command again"

# what is said of a page that is not that of the call: one that this book made before, and another
# one
PAGE_OF_BEFORE = (
    "Note: the page there is the one of before: upload the folder call, then run this again."
)
OTHER_PAGE = (
    "Note: the page there is not that of the folder call: a script in it would see what is "
    "chosen, and could vote in the name of who opens it. "
    "Upload the folder, and run this again; if it is still so, take another web host."
)
POLICY = (
    "Note: the web host sends its page with a Content-Security-Policy, by which browsers may not "
    "run its script: open it, and look whether it has its button."
)

# in seconds: how far the clock of the box may be from ours unsaid
MOST_OFF = 60
# how many ballots of one link are kept in all, as many as the script takes, and each of them so
# often if the host repeats it; how many electors are named
MOST = MOST_NAMED = 20

# a record as the script writes it, without the line above it: when it arrived, the digest of the
# proof by which it came, all that is below and in it the mark of the poll and its number, and what
# is sealed
RECORD = re.compile(
    r"(Received: by box; [^\n]+\n)X-Proof: ([0-9a-f]{64})\n(From: box@page\.invalid\n"
    r"Subject: \[([0-9a-f]{16})\]\nMessage-ID: <([0-9a-f]{32})@page\.invalid>\n\n)([A-Za-z0-9_-]+)\n-- \n"
)
PROOF = re.compile(r"X-Proof: (\w+)")
# what is sealed: a line and the elector on it, their personal link, in it the own mark and the
# third part, and the time by their device; in a vote with tellers what is sealed to them
INSIDE = re.compile(
    rf"(([a-z0-9.-]{{1,32}}) [A-Z0-9, "
    rf"-]+)\n(\2/({OWN})/([{OWN_SIGNS}]{{{LINK_LENGTH}}}))\n({YEAR}-\d\d-\d\dT\d\d:\d\d:\d\d\.\d{{3}}Z)(?:\n([\w-]+))?",
    re.ASCII,
)


class HostAnswer(NamedTuple):
    """What a web host answers, and when it began to."""

    status: int
    fields: email.message.Message
    body: bytes
    time: datetime.datetime


class Asked(NamedTuple):
    """What the box answered. It was asked at this time by its own clock, which is `behind` that of
    this computer by so many seconds at least; if that is less than 0, it is ahead.
    """

    time: datetime.datetime
    behind: int
    # of the electors that it knows; see `list_digest`
    list_digest: str
    # an mbox
    records: bytes


class Brought(NamedTuple):
    """What is added: letters; and if the box was asked for them what the act keeps of that, what is
    said, and whether the box has more than before that nobody can open.
    """

    letters: Sequence[RawLetter]
    detail: Detail = {}
    words: Sequence[str] = ()
    has_unopened: bool = False


def ask(at: str | None, mark: str, word: str) -> Asked:
    """Asks the box beside the page at this address. Stops unless it answers whole, and as the box
    of the poll with this mark.
    """
    address = script_address(at)
    begin = times.now()
    # the firewalls of many hosts let only fields pass
    answer = answer_of(address, f"box=ask {word}\n".encode())
    demand_box(address, answer)
    head = HEAD.match(answer.body)
    try:
        if head is None:
            raise ValueError
        found_mark, digest, written_time = (part.decode() for part in head.groups())
        time = datetime.datetime.fromisoformat(written_time)
    except ValueError:
        raise Fault(address, f"it does not answer as a web box: {shown(answer)}", UPLOAD) from None
    if found_mark != mark:
        raise Fault(address, f"it is the web box of another vote, [{found_mark}]", UPLOAD)
    records = answer.body[head.end() :]
    if records and not (records.startswith(BEGIN) and records.endswith(END)):
        raise cut_off(address)
    # no more than is certain: it took its time between both of ours
    _, behind, _ = sorted([begin - time, datetime.timedelta(), answer.time - time])
    return Asked(time, int(behind.total_seconds()), digest, records)


def answer_of(address: str, body: bytes | None = None) -> HostAnswer:
    """What is answered to a request, for a page if it has no body. Stops if it does not come whole.
    No redirect is followed: the word is for this address alone.
    """
    parts = urllib.parse.urlsplit(address)
    try:
        with within(PATIENCE), contextlib.closing(connection_to(parts)) as connection:
            method = "POST" if body else "GET"
            connection.request(method, parts.path, body, FIELDS if body else OF_BROWSER)
            response = connection.getresponse()
            time = times.now()
            data = response.read(LONGEST_ANSWER + 1)
    except ssl.SSLCertVerificationError as error:
        words = f"its certificate is not right: {error.verify_message}"
        cure = "ask who keeps the web host to put it right, or look whether the clock of this computer is right"
        raise Fault(address, words, cure) from None
    except http.client.IncompleteRead:
        raise cut_off(address) from None
    except (OSError, http.client.HTTPException) as error:
        why = (isinstance(error, OSError) and error.strerror) or str(error) or type(error).__name__
        cure = "look whether it opens in a browser; then run the command again"
        raise Fault(address, f"it does not answer: {shown_text(why)}", cure) from None
    if len(data) > LONGEST_ANSWER:
        raise Fault(address, f"it answers more than {LONGEST_ANSWER} bytes", UPLOAD)
    # without a length nobody sees whether an answer was cut off
    if response.length or not (response.headers["content-length"] or response.chunked):
        raise cut_off(address)
    return HostAnswer(response.status, response.headers, data, time)


def connection_to(parts: urllib.parse.SplitResult) -> http.client.HTTPConnection:
    if parts.scheme != "https":
        return http.client.HTTPConnection(parts.netloc)
    return http.client.HTTPSConnection(parts.netloc, context=ssl.create_default_context())


def demand_box(address: str, answer: HostAnswer) -> None:
    """Stops at what other servers answer, and a box that refuses."""
    if 300 <= answer.status < 400:
        reason = f"it sends on to {shown_text(answer.fields.get('location', 'nowhere'))}"
        cure = "name the address that a browser shows in the end with --at of call"
        raise Fault(address, reason, cure)
    if answer.body.lstrip().startswith(b"<?php"):
        cure = (
            f"take {SCRIPT} away from there until PHP 8.1 or later runs; then run the command again"
        )
        raise Fault(address, "it shows the script as a text: PHP does not run there", cure)
    if answer.status != http.HTTPStatus.OK:
        raise Fault(address, f"it answers {answer.status}: {shown(answer)}", UPLOAD)


def shown(answer: HostAnswer) -> str:
    """The beginning of an answer, in words."""
    return shown_text(answer.body[:1_000].decode("utf-8", "replace"))


def cut_off(address: str) -> Fault:
    return Fault(address, "its answer was cut off", "run the command again")


# ---- its records, as letters
def asked_box(vote: Vote) -> Brought:
    """Asks the box of this vote."""
    election = vote.election
    history = election.history()
    if not history.announced("box"):
        cure = f"add files; see {election.command('status')}"
        raise bad_arguments("--box", "the call was made without it", cure)
    word = asking_word(queries.sealed(vote.book, BOX_KEY))
    asked = ask(history.announced("at"), election.sealed().public.mark, word)
    return brought_by(vote, history, asked)


def brought_by(vote: Vote, history: History, asked: Asked) -> Brought:
    """What an answer of the box brings, beside what the book has."""
    at = history.announced("at")
    # of another host neither the clock nor the records say anything of this one
    before = last_box(history, at)
    kept_records = queries.records_since(vote.book, vote.call.number)
    letters, unopened = records_in(vote, asked, before, kept_records)
    came = {raw.digest for raw in letters}
    box: Detail = {
        "at": at,
        "time": asked.time.isoformat(),
        "records": len(letters),
        "gone": sum(record.at == at and record.digest not in came for record in kept_records),
        "unopened": len(unopened),
        "lost": last_box(history).get("lost", {}) | whose(vote, unopened, asked.time),
        "behind": asked.behind,
        "list": asked.list_digest,
        **page_there(vote.election, history),
    }
    words = [*box_words(box, before), *upload_words(vote.election, box)]
    return Brought(letters, {"box": box}, words, len(unopened) > before.get("unopened", 0))


def page_there(election: Election, history: History) -> Detail:
    """Which act sealed the page on the web host, 0 if none did or it did not come, and why it did
    not; what browsers may run in it; and whether it is that of now: an extension makes another one.
    A publication takes its place.
    """
    page: Detail = {"page": None}
    at = history.announced("at")
    try:
        if not history.publications:
            demand_box(at, answer := answer_of(at))
            page["page"] = queries.first_act_that_sealed(election.book, BOX_PAGE, answer.body)
            page["policy"] = answer.fields.get("content-security-policy", "")
    except Fault as fault:
        page = {"page": 0, "why_no_page": fault.reason}
    return page | {"is_right": has_page_of_now(election, page)}


def box_words(box: Detail, before: Detail) -> Iterator[str]:
    """What is said of an asking, beside the one before."""
    yield f"The web box has {count_of(box['records'], 'record')}."
    if abs(off := box["behind"]) > MOST_OFF:
        side = "behind" if off > 0 else "ahead of"
        yield f"Note: its clock is {abs(off)} seconds {side} that of this computer, and its records have its time."
    if box["gone"] > before.get("gone", 0):
        lost = f"{count_of(box['gone'], 'record')} that it had it has no more"
        yield f"Note: {lost}. They are kept here, but others may be lost: send receipts, and ask who got none to vote again."


def upload_words(election: Election, box: Detail) -> Iterator[str]:
    """What is said of a page and a script that are not those of the folder."""
    if why := box.get("why_no_page"):
        yield f"Note: the page did not come: {why}. Look whether it opens in a browser, and run this again."
    elif not box["is_right"]:
        yield PAGE_OF_BEFORE if box["page"] else OTHER_PAGE
    # of scripts, or of all
    if "-src" in box.get("policy", ""):
        yield POLICY
    if not has_list_of_now(election, box["list"]):
        yield (
            f"Note: the web host has another {SCRIPT} than the folder call, as an older one: "
            "upload that of the folder, since who has a new link cannot vote there."
        )


def unopened_words(vote: Vote, shown: Callable[[str], str] = str) -> str:
    """What is said of records that nobody can open, with who is to vote again, as they are
    `shown`.
    """
    history = vote.history()
    names = shown(listed(with_lost_records(vote.election, history), MOST_NAMED))
    whose = f", by the links of {names}, who are to vote again" if names else ""
    return (
        f"Note: {count_of(last_box(history)['unopened'], 'record')} can't be opened, or came "
        f"above the {MOST} of a link, passed over{whose}. An older page may have sent such a "
        f"one, or the web host have made it. If {MOST} ballots came by a link, "
        f"{vote.election.command('roll', '--new-link', 'NAME')} makes another."
    )


def arrived(raw: RawLetter) -> datetime.datetime:
    """When a record arrived, by the host; at last if that is no time."""
    received = raw.data.partition(b"\n")[0].decode("latin-1")
    return arrival_of(received) or datetime.datetime.max.replace(tzinfo=datetime.UTC)


def in_order(records: bytes) -> list[RawLetter]:
    """Records as they came, by the times of the host, without the lines above them."""
    parts = [part.partition(b"\n")[2] + END[:-1] for part in records.split(END)[:-1]]
    raws = (
        RawLetter(f"web box, record {number}", part, record_digest=sha256_of(part))
        for number, part in enumerate(parts, start=1)
    )
    return sorted(raws, key=arrived)


def records_in(
    vote: Vote, asked: Asked, before: Detail, kept_records: Sequence[KeptRecord]
) -> tuple[list[RawLetter], list[RawLetter]]:
    """The records as letters; and those that can't be opened, of no elector, or above the most that
    are kept of a link, also with those that came before. What was kept is not opened again.

    The host can exchange the times of two, and not what is sealed in them: each has the last time
    by the device of all that came before it by the same link, but for those that wait since host
    and device differ.
    """
    # when each was sent by the device, which of a ballot that the host repeats is one time, and
    # whether the host dates it alike
    by_link = grouped(
        (record.link, (from_text(record.sent), record.is_dated_alike)) for record in kept_records
    )
    known = {record.digest for record in kept_records}
    letters = []
    unopened = []
    for raw in in_order(asked.records):
        if raw.digest in known:
            letters.append(raw)
            continue
        letter = opened_record(vote.book, raw)
        sent = letter.sent
        came = by_link.setdefault(letter.link, [])
        times = {sent, *(time for time, _ in came)}
        are_many = len(times) > MOST or len(came) >= MOST * MOST
        if sent is None or letter.elector not in vote.names.roll or are_many:
            unopened.append(raw)
            continue
        letter = clocked(letter, asked, before, came)
        letters.append(letter)
        came.append((sent, letter.is_dated_alike(arrived(raw))))
    return letters, unopened


def opened_record(book: Book, raw: RawLetter) -> RawLetter:
    """The letter that a record is, if an elector's page sealed it for its poll, number and proof.
    The key of the box alone shows that a link is true, also one whose own mark the book lacks.
    """
    record = RECORD.fullmatch(raw.data.decode("latin-1"))
    # a book without a box has none
    key = queries.sealed(book, BOX_KEY)
    if record and key:
        from debvote_tools.call.sealed_ballots import key_pair

        head, proof, rest, mark, number, sealed = record.groups()
        with contextlib.suppress(ValueError):
            inside = INSIDE.fullmatch(key_pair(key, mark)[1](number, sealed))
            parts = inside.groups() if inside else [""] * 7
            line, elector, link, own, third, sent, block = (part or "" for part in parts)
            true = personal_link(key, elector, own)
            is_true = (link, proof) == (true, proof_digest(mark, true))
            if is_true and is_for_tellers(book, line, block, len(sealed)):
                # for people who read the letter: the program has these values beside it
                fields = f"X-Link: {third}\nX-Sealed: {raw.digest}\nX-Sent: {sent}\n"
                fields += f"X-Block: {block}\n" if block else ""
                data = f"{head}{fields}{rest}{line}\n-- \n".encode()
                return dataclasses.replace(
                    raw,
                    data=data,
                    link=third,
                    elector=elector,
                    sent=from_text(sent),
                    block=block,
                )
    return dataclasses.replace(raw, why_not_read=NotRead.SEALED)


def is_for_tellers(book: Book, line: str, block: str, length: int) -> bool:
    """Whether a record has what is sealed to tellers if the vote has some, and only then."""
    if not (tellers := History(book.acts()).tellers):
        return not block
    poll = read_plain(queries.sealed(book, POLL))
    return has_right_block(poll, len(tellers), line, block, length)


def whose(vote: Vote, records: Sequence[RawLetter], asked: datetime.datetime) -> dict[str, str]:
    """The electors by whose proofs these records came, in their order, each with when the last one
    did, at the latest when the box was asked.
    """
    links = links_of(vote.book).values() if records else ()
    mark = vote.election.sealed().public.mark
    names = {proof_digest(mark, link): link.partition("/")[0] for link in links}
    return {
        names[proof]: min(arrived(raw), asked).isoformat()
        for raw in records
        for proof in PROOF.findall(raw.data.decode("latin-1"))
        if proof in names
    }


def clocked(
    raw: RawLetter, asked: Asked, before: Detail, came: Sequence[tuple[datetime.datetime, bool]]
) -> RawLetter:
    """A record with what its time is judged by. Between two askings the clock was off by as much as
    in the one where it was off by more. Of those of a link, of which these `came` before it, each
    has a second of its own, also if they come in one.
    """
    behind = max(asked.behind, before.get("behind", 0), key=abs)
    return dataclasses.replace(
        raw,
        asked_before=from_text(before["time"]) if before else None,
        behind=behind if abs(behind) > MOST_OFF else 0,
        latest=asked.time + datetime.timedelta(seconds=len(came)),
        sent_before=max((sent for sent, is_alike in came if is_alike), default=None),
    )
