"""The facts of a result, of the whole vote and of each question, for the page, the letter and data.

`told.jinja` says them in words.
"""

import dataclasses
import datetime
import functools
from collections.abc import Callable, Collection, Iterator, Mapping, Sequence
from typing import Any, NamedTuple

from debvote_tools.debvote import Finding, casting_words, standing_in
from debvote_tools.call.tellers import places_for
from debvote_tools.poll.questions import Questions
from debvote_tools.poll.sealed import SealedPoll
from debvote_tools.result.casting import Castings
from debvote_tools.result.why import Why
from debvote_tools.sheet import Sheet
from debvote_tools.text.language import ENGLISH, Language


class Told:
    """What a sentence tells, whose places are filled."""

    places: Mapping[str, Any]

    def shown(self, say_time: Callable[[datetime.datetime], str]) -> dict[str, Any]:
        """What fills it, with each time as it is said."""
        return {
            key: say_time(value) if isinstance(value, datetime.datetime) else value
            for key, value in self.places.items()
        }


class PublishedWords(NamedTuple):
    """What the secretary says of a publication. The act keeps it, so that the same folder can be
    made again.
    """

    # the options that casting votes choose; whose each was and on which day, by the same labels, if
    # that is said. No count can show it
    castings: Castings = {}
    cast_by: Mapping[str, str] = {}
    cast_on: Mapping[str, str] = {}
    about: str | None = None
    # whether doubts stop nothing, which needs a reason
    is_forced: bool = False
    because: str | None = None
    language: str | None = None


@dataclasses.dataclass(frozen=True)
class Doubt(Told):
    """Something doubtful about a result. The page tells it, and most stop a publication until it is
    forced with a reason.
    """

    kind: str
    # what the secretary reads of it, and can do about it; what electors read, `told.jinja` says
    advice: str
    places: Mapping[str, Any] = dataclasses.field(default_factory=dict)
    # not so where an earlier act was forced although there was this doubt
    stops: bool = True
    # that of the question that it is about; empty if it is about the whole vote
    label: str = ""

    def as_data(self) -> dict[str, Any]:
        """As the act of a publication keeps it."""
        question = {"question": self.label} if self.label else {}
        return {"kind": self.kind, **self.shown(datetime.datetime.isoformat), **question}


@dataclasses.dataclass(frozen=True)
class Act(Told):
    """Something that was done in an election, at a time by the clock of the secretary's computer.

    `places` fill its sentence, those that differ by question by the labels of those that have one;
    all times are in the zone in which the end was announced. `because` is None if no reason was
    given, or it is not published.
    """

    time: datetime.datetime
    done: str
    places: Mapping[str, Any] = dataclasses.field(default_factory=dict)
    because: str | None = None
    # the questions that it is about alone; None if about all
    labels: Collection[str] | None = None

    def told_of(self, labels: Collection[str]) -> "Act":
        """The act, as it is told of some questions: of several each value before its label, in
        front of which it would look like an answer.
        """
        places = {
            key: ", ".join(
                f"{value[label]} ({label})" if len(labels) > 1 else str(value[label])
                for label in labels
                if label in value
            )
            if isinstance(value, dict)
            else value
            for key, value in self.places.items()
        }
        return dataclasses.replace(self, places=places, labels=labels)


class VoteFacts(NamedTuple):
    """The facts of the whole vote, which are the same for each of its questions."""

    # in a secret vote their rolls have the aliases
    questions: Questions
    language: Language = ENGLISH
    words: PublishedWords = PublishedWords()
    desks: int = 1
    # of two files: the checksum of the file that was given as the poll
    given_checksum: str | None = None
    # the day of the call that holds, and that of the first close
    days: Sequence[datetime.date] = ()
    # what was done; and of each line that came after the end, and is in time since the vote was not
    # closed, the labels of the questions that it answers
    acts: Sequence[Act] = ()
    labels_after_end: Sequence[Collection[str]] = ()
    # how many lines were entered at each desk, in the order of their first use, if one has a name
    desk_lines: Sequence[int] = ()
    # the letter of the last close, unless the vote was opened again: it has the checksum of other
    # ballots
    closing_letter: bytes | None = None
    # by the names on the roll, if they are published
    real_names: Mapping[str, str] = {}
    # those that are known before the count, about the whole vote and about each question
    doubts: Sequence[Doubt] = ()
    # of a secret vote the codes of the electors, of which none gets into the folder
    codes: Collection[str] = ()
    # whether the names on the roll are codes, and nobody has a list of them
    has_codes: bool = False
    # with tellers: the numbers of the ballots by their places on the roll, the lists and what
    # checks them, by their files, and how many each teller refused
    numbers: Mapping[str, str] = {}
    lists: Mapping[str, bytes] = {}
    refused_by: Mapping[str, int] = {}
    # the web address of the result, if it is known
    at: str | None = None

    @property
    def is_of_two_files(self) -> bool:
        """Whether it is made from a poll and ballots alone, by debvote-publish, without a book."""
        return self.given_checksum is not None

    @property
    def has_aliases(self) -> bool:
        return self.questions.is_secret and not (self.has_codes or self.has_tellers)

    @property
    def has_tellers(self) -> bool:
        """Whether tellers have opened the ballots: then the roll has places, and no names."""
        roll = self.questions.roll
        return self.questions.is_secret and roll == places_for(len(roll))

    def acts_about(self, labels: Collection[str]) -> list[Act]:
        """What was done, as it is told of some questions."""
        return [
            act.told_of(labels)
            for act in self.acts
            if act.labels is None or any(label in act.labels for label in labels)
        ]

    def replaced(self, labels: Collection[str]) -> list[Act]:
        """The earlier publications, but for those since the close that holds: since then a casting
        vote alone can change the result, and what was done tells of them.
        """
        acts = self.acts_about(labels)
        if self.closing_letter is not None:
            closes = [number for number, act in enumerate(acts) if act.done == "closed"]
            acts = acts[: closes[-1]]
        return [act for act in acts if act.done == "published"]


class QuestionFacts(NamedTuple):
    """The facts of a question, with those of its vote."""

    vote: VoteFacts
    label: str
    # the lines in time; in a secret vote the ballots that stand, under aliases
    ballots: bytes
    # the late lines: their number; and, unless the vote is secret, the lines themselves
    late_number: int = 0
    late: Sequence[bytes] | None = None
    # of a secret vote: the random line of the last close, if it made one; and not published the
    # sheet of the files with names, and the electors whose votes a comparison with the last
    # publication would show
    seal: str = ""
    private: Sheet | None = None
    compared: Sequence[str] = ()

    @property
    def poll(self) -> SealedPoll:
        return self.vote.questions[self.label]

    @property
    def lines_after_end(self) -> int:
        return sum(self.label in labels for labels in self.vote.labels_after_end)

    @property
    def casting(self) -> str | None:
        """The plain name of the option that the casting vote chooses."""
        return self.vote.words.castings.get(self.label)

    @property
    def cast_day(self) -> datetime.date:
        """The day of a casting vote of which it is said whose it was."""
        return datetime.date.fromisoformat(self.vote.words.cast_on[self.label])

    @property
    def casting_words(self) -> list[str]:
        return casting_words(self.casting)


@dataclasses.dataclass(frozen=True)
class Outcome:
    """How a question ended: its facts, and what debvote answers about poll and ballots."""

    facts: QuestionFacts
    sheet: Sheet
    standing_text: str
    # the lines that are refused, those after a last envelope among them
    refused: list[Finding]
    # the defeats, for Graphviz
    graph: str
    # what `verify` says of the sheet
    verified: str
    version: str

    @functools.cached_property
    def standing(self) -> dict[str, str]:
        """The ranks of the ballots that count, by the names on the roll."""
        return standing_in(self.standing_text)

    @property
    def doubts_of_count(self) -> Iterator[Doubt]:
        """The doubts about what came of the question, by the sheet of all lines that came."""
        sheet = self.facts.private or self.sheet
        label = self.facts.label
        if not sheet.voters:
            advice = (
                "no elector has a ballot that counts; check that these are the ballots of this poll"
            )
            yield Doubt("no ballot", advice, label=label)
        if 2 * sheet.refused > sheet.lines:
            advice = f"more than half of the lines are refused, {sheet.refused} of {sheet.lines}; debvote explain says why"
            numbers = {"refused": sheet.refused, "lines": sheet.lines}
            yield Doubt("mostly refused", advice, numbers, label=label)

    @property
    def doubts(self) -> list[Doubt]:
        """The doubts about the question and about the whole vote."""
        labels = ("", self.facts.label)
        known = (doubt for doubt in self.facts.vote.doubts if doubt.label in labels)
        return [*self.doubts_of_count, *known]

    def why(self, options: Mapping[int, str]) -> Why:
        """Why it ended so; `options` has them by their numbers, as parts of a sentence."""
        return Why(self.sheet, options)
