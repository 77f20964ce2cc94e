"""The sealed poll as a value, read from its plain form and written in it; and marks in subjects.

The plain form is TOML with a line `key = value` for each key, in the order of `KEYS`, each value as
JSON writes it. `questions.py` has what is the same for all polls of an election.
"""

import dataclasses
import datetime
import functools
import json
import re
import secrets
from collections.abc import Sequence
from typing import Any

from debvote_tools.cli.faults import Fault, Status
from debvote_tools.files import sha256_of

# the keys in their order: those that debvote needs always, and the others only if they are set
REQUIRED = "title options ratios default quorum roll".split()
KEYS = (
    "title options ratios default quorum wording roll last_envelope "
    "deadline address secret shown_title shown_options explanations"
).split()


@dataclasses.dataclass(frozen=True)
class SealedPoll:
    """Options are numbered from 1; the default option is the last."""

    title: str
    # without the default option, with a ratio for each
    options: tuple[str, ...]
    ratios: tuple[int, ...]
    default: str
    quorum: int
    roll: tuple[str, ...]
    wording: str | None = None
    # only in a file that debvote-publish is given
    last_envelope: int | None = None
    # the time until which one can vote, with its offset, as the first call said it
    deadline: str | None = None
    address: str | None = None
    secret: bool = False
    # title and options as people read them, if they differ from the plain names; the options with
    # the default last
    shown_title: str | None = None
    shown_options: tuple[str, ...] = ()
    # a text for each option but the default, empty if there is none
    explanations: tuple[str, ...] = ()
    # whether it may be answered by yes, no and abstain; this is sealed beside it
    motion: bool = False

    @property
    def plain_names(self) -> tuple[str, ...]:
        return (*self.options, self.default)

    @property
    def names(self) -> tuple[str, ...]:
        """The names that people read, the default last."""
        return self.shown_options or self.plain_names

    @property
    def name(self) -> str:
        """The title that people read."""
        return self.shown_title or self.title

    @property
    def deadline_time(self) -> datetime.datetime | None:
        return None if self.deadline is None else datetime.datetime.fromisoformat(self.deadline)

    def as_bytes(self) -> bytes:
        """The poll in plain form."""
        return plain_form(
            {key: value for key in KEYS if is_set(value := getattr(self, key)) or key in REQUIRED}
        )

    @functools.cached_property
    def checksum(self) -> str:
        return sha256_of(self.as_bytes())


def is_set(value: object) -> bool:
    """Whether a key that may be absent is set: a last envelope of 0 is."""
    return value is not None and value is not False and value != ()


def plain_form(values: dict[str, Any]) -> bytes:
    """Keys and values in plain form, in the order in which they are given."""
    lines = (f"{key} = {json.dumps(value, ensure_ascii=False)}\n" for key, value in values.items())
    return "".join(lines).replace("\x7f", "\\u007f").encode()


@functools.cache
def read_plain(data: bytes, *, motion: bool = False) -> SealedPoll:
    """Reads a poll in plain form, which it must have byte for byte."""
    try:
        pairs = [line.split(" = ", 1) for line in data.decode("utf-8").split("\n")[:-1]]
        poll = poll_of({key: json.loads(value) for key, value in pairs})
        if poll.as_bytes() == data:
            return dataclasses.replace(poll, motion=motion)
    except (ValueError, TypeError):
        pass
    cure = "give the poll.toml of a call or of a published folder"
    raise Fault("poll.toml", "it is not a sealed poll in plain form", cure, Status.BAD_POLL, None)


def poll_of(values: dict[str, Any]) -> SealedPoll:
    """The poll of these keys. Raises TypeError if a key is missing or too many."""
    return SealedPoll(
        **{key: tuple(value) if isinstance(value, list) else value for key, value in values.items()}
    )


def with_roll(poll: SealedPoll, roll: Sequence[str]) -> SealedPoll:
    """The same poll with another roll, as that of aliases."""
    return dataclasses.replace(poll, roll=tuple(roll))


# ---- marks in subjects
# an own mark has 10 of these signs, none of which is easily taken for another
OWN_SIGNS = "23456789abcdefghjkmnpqrstuvwxyz"
OWN_LENGTH = 10
OWN = rf"[{OWN_SIGNS}]{{{OWN_LENGTH}}}"

# a mark in a text without blanks, in either case
MARKS = re.compile(rf"\[([0-9a-f]{{16}})(?:-({OWN}))?\]")


def new_own_mark() -> str:
    return "".join(secrets.choice(OWN_SIGNS) for _ in range(OWN_LENGTH))


def in_brackets(mark: str, own: str = "") -> str:
    """The mark of a poll as subjects end with it, with the own mark of an elector who has one."""
    return f"[{mark}-{own}]" if own else f"[{mark}]"


def marks_in(text: str) -> list[tuple[str, str]]:
    """The marks in a text: that of the poll, and the own one, which is empty if there is none.
    Blanks and line ends within a mark are passed over, as mail programs fold subjects.
    """
    return MARKS.findall("".join(text.split()).lower())
