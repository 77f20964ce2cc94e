"""Letters as they are read when they come, with debvote's verdicts, and as the book keeps them.

`read_letters` has their bytes parsed (`letter.py`), their signatures checked (`signature.py`), and
the ballots found in their texts (`letter_text.py`). `to_json` and `from_json` are how the book
keeps a letter that was read.

The addresses on the list and the time decide nothing here. So a letter is judged again from what
the book keeps, and is read again only if its signature has to be checked anew (`judging.py`).
"""

import dataclasses
import datetime
import functools
import json
import typing
from collections.abc import Callable, Mapping, Sequence
from typing import Any

from debvote_tools.book import queries
from debvote_tools.election import KEYRING
from debvote_tools.inbox.letter import ParsedLetter, parse
from debvote_tools.inbox.letter_text import Reading, reading_of, why_points
from debvote_tools.inbox.lines import Names
from debvote_tools.inbox.mailbox import RawLetter
from debvote_tools.inbox.reasons import Reason
from debvote_tools.inbox.signature import find_gpgv, verified
from debvote_tools.inbox.vote import Vote
from debvote_tools.poll.codes import has_code
from debvote_tools.text.ballots import Ballot

# debvote's answer to each line, as `bad rank count: ..`; None for a valid ballot
Ask = Callable[[Sequence[bytes]], Mapping[bytes, str | None]]


@dataclasses.dataclass(frozen=True)
class BallotLine:
    """A ballot in a letter: the number of its first line, from 1, or 0 if it was typed; the ballot
    as it would be entered; and as it is written.
    """

    number: int
    ballot: Ballot
    written: str = ""


@dataclasses.dataclass(frozen=True)
class ReadLetter(ParsedLetter):
    """A letter with what its text says, and the lines with what looks like a code of a secret vote
    or an alias.
    """

    text: Reading = Reading()
    code_lines: tuple[int, ...] = ()


# ---- letters
def read_letters(vote: Vote, raws: Sequence[RawLetter]) -> list[ReadLetter]:
    """What letters say, with their signatures if they need one, and what their lines may be."""
    parsed = list(map(parse, raws))
    if parsed and vote.is_signed:
        parsed = verified(raws, parsed, queries.sealed(vote.book, KEYRING), find_gpgv())
    return with_texts(parsed, vote.names, vote.why_each_refused)


def with_texts(letters: Sequence[ParsedLetter], names: Names, ask: Ask) -> list[ReadLetter]:
    """The letters, each with its ballots. debvote is asked about all of them together."""
    texts = [
        reading_of(letter.body.lines, names, is_signed=letter.needs_signature) for letter in letters
    ]
    # whether ranks are valid is the same for all electors
    before = f"{min(names.roll)} ".encode()
    answers = ask([before + ballot.ranks.encode() for text in texts for ballot in text.ballots])
    read = []
    for letter, text in zip(letters, texts):
        answered = (
            dataclasses.replace(
                ballot, answer=answers[before + ballot.ranks.encode()] or why_points(ballot.ranks)
            )
            for ballot in text.ballots
        )
        # nobody is told of what only perhaps is one
        ballots = (ballot for ballot in answered if not (text.is_proposed and ballot.answer))
        numbered = enumerate(letter.body.lines, start=1)
        read.append(
            ReadLetter(
                **vars(letter),
                text=dataclasses.replace(text, ballots=tuple(ballots)),
                code_lines=tuple(number for number, line in numbered if has_code(line)),
            )
        )
    return read


# ---- as the book keeps it
def to_json(letter: ReadLetter) -> str:
    return json.dumps(letter, default=as_plain)


def as_plain(value: object) -> object:
    if isinstance(value, datetime.datetime):
        return value.isoformat()
    if isinstance(value, Reason):
        return value.name
    return vars(value)


def from_json(text: str) -> ReadLetter:
    letter: ReadLetter = reader_of(ReadLetter)(json.loads(text))
    return letter


@functools.cache
def reader_of(kind: Any) -> Callable[[Any], Any]:
    """Makes a value of this type from what JSON has of it."""
    if dataclasses.is_dataclass(kind):
        fields = {name: reader_of(field) for name, field in typing.get_type_hints(kind).items()}
        return lambda kept: kind(
            **{name: read(kept[name]) for name, read in fields.items() if name in kept}
        )
    inner = typing.get_args(kind)
    if inner in ((str, ...), (int, ...)):
        # most of what is kept are lines
        return tuple
    if Ellipsis in inner:
        return lambda kept: tuple(map(reader_of(inner[0]), kept))
    if type(None) in inner:
        return lambda kept: kept if kept is None else reader_of(inner[0])(kept)
    if isinstance(kind, type) and issubclass(kind, datetime.date):
        return datetime.datetime.fromisoformat
    if kind is Reason:
        return Reason.__getitem__
    return lambda kept: tuple(kept) if isinstance(kept, list) else kept
