"""A result sheet, parsed into numbers."""

import dataclasses
import re
from collections.abc import Iterator
from typing import Any

from debvote_tools.cli.faults import Status, other_format

Pair = tuple[int, int]

# a sheet, as FORMATS has it: its facts, the parts below them, its rounds and its last line
SHEET = re.compile(
    r"""Poll: (?P<title>.*)
Electors: (?P<electors>\d+)
Quorum: (?P<quorum_multiple>\d+)Q, (?P<quorum>\d+) votes
(?P<majority>Majority: more than
)?Lines: (?P<lines>\d+)
(?:Last envelope: (?P<last_envelope>\d+)
)?Valid: (?P<valid>\d+)
Refused: (?P<refused>\d+)
Voters: (?P<voters>\d+)
Options:
(?P<options>(?: .*\n)+)Votes:
(?P<votes>(?: .*\n)+)Dropped:
(?P<dropped>(?: .*\n)+)Defeats:
(?P<defeats>(?: .*\n)+)(?P<rounds>(?:Round .*\n(?: .*\n)*)+)"""
    r"(?P<last_line>Winner: (?P<winner>\d+) (?P<name>.*)"
    r"|Tie: [\d ]+(?:, casting option (?P<casting_outside>\d+) is not among them)?)\n?"
)
NUMBERS = (
    "electors quorum_multiple quorum lines last_envelope valid refused voters winner casting_outside"
).split()
OPTION = re.compile(r"(?m)^ *(\d+) (?:ratio (\d+)|default) (.*)$")
DROPPED = re.compile(r"(?m)^ *(\d+) (\w+)$")
DEFEAT = re.compile(r"(?m)^ *(?:drop +)?(\d+) over +(\d+)")
ROUND = re.compile(r"Round \d+: (.*)\n((?: .*\n)*)")


@dataclasses.dataclass(frozen=True)
class Sheet:
    """Options are numbered from 1, and the last is the default option."""

    text: str
    title: str
    electors: int
    # how many times Q the quorum is, and how many votes that is
    quorum_multiple: int
    quorum: int
    # whether a majority is more than the ratio, where Debian has at least the ratio
    is_more_than: bool
    lines: int
    last_envelope: int | None
    valid: int
    refused: int
    voters: int
    names: dict[int, str]
    # of all options but the default option
    ratios: dict[int, int]
    # how many electors prefer the first of two options to the second
    votes: dict[Pair, int]
    dropped: dict[int, str]
    defeats: list[Pair]
    # the options of the set of each round, and the defeats that it removes
    rounds: list[tuple[list[int], list[Pair]]]
    last_line: str
    # None if it is a tie
    winner: int | None
    is_by_casting: bool
    # the option of a casting vote for an option that is not left
    casting_outside: int | None

    @property
    def status(self) -> int:
        """The exit status of its count."""
        tie = Status.CASTING_OUTSIDE if self.casting_outside else Status.TIE
        return tie if self.winner is None else Status.DONE

    @property
    def default(self) -> int:
        return len(self.names)

    @property
    def left(self) -> list[int]:
        return self.rounds[-1][0]

    def ended(self, option: int) -> str:
        """How it ended for an option, in a word: `won`, `left` in a tie, dropped for its `quorum`
        or its `majority`, or `lost`.
        """
        if option in self.dropped:
            return self.dropped[option]
        if option == self.winner:
            return "won"
        return "left" if self.winner is None and option in self.left else "lost"


def sheet_in(text: str) -> Sheet:
    """The sheet of a text. That of another version of debvote may have another format."""
    found = SHEET.fullmatch(text)
    if found is None:
        raise other_format("the sheet of this debvote")
    numbers: dict[str, Any] = {key: found[key] and int(found[key]) for key in NUMBERS}
    shown = OPTION.findall(found["options"])
    names = {int(option): name for option, _, name in shown}
    return Sheet(
        text=text,
        title=found["title"],
        is_more_than=found["majority"] is not None,
        names=names,
        ratios={int(option): int(ratio) for option, ratio, _ in shown if ratio},
        votes=dict(votes_in(found["votes"])),
        dropped={int(option): cause for option, cause in DROPPED.findall(found["dropped"])},
        defeats=pairs_in(found["defeats"]),
        rounds=[
            ([int(option) for option in left.split()], pairs_in(removed))
            for left, removed in ROUND.findall(found["rounds"])
        ],
        last_line=found["last_line"],
        # a name may itself end with the words that mark a casting vote
        is_by_casting=found["name"] != names.get(numbers["winner"]),
        **numbers,
    )


def votes_in(text: str) -> Iterator[tuple[Pair, int]]:
    """How many electors prefer each option to each other one, below the numbers of the columns."""
    for line in text.splitlines()[1:]:
        option, *cells = line.split()
        for other, cell in enumerate(cells, start=1):
            if cell != "-":
                yield (int(option), other), int(cell)


def pairs_in(text: str) -> list[Pair]:
    """The two options of each line such as `1 over 2 by 4 to 2`."""
    return [(int(a), int(b)) for a, b in DEFEAT.findall(text)]
