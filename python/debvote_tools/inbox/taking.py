"""Letters that `add` is given: `take_letters` leads through all that becomes of them.

It keeps those that are new, has all judged, and enters the ballots that go in. `held` enters others
by a `LetterEntry`. Lines are taken in `commands/add.py`.
"""

import dataclasses
import functools
from collections.abc import Iterable, Iterator, Sequence, Set

from debvote_tools.book import queries
from debvote_tools.book.book import Detail
from debvote_tools.book.change import carried_out
from debvote_tools.book.queries import NewEnvelope
from debvote_tools.cli.console import (
    count_of,
    is_terminal,
    listed,
    say,
    say_number,
    shown_text,
    tell,
    wait_words,
)
from debvote_tools.cli.faults import Fault
from debvote_tools.inbox import letter_words
from debvote_tools.inbox.given_files import safe
from debvote_tools.inbox.entering import Entry
from debvote_tools.inbox.judging import judged
from debvote_tools.inbox.letter_lines import ReadLetter, read_letters, to_json
from debvote_tools.inbox.mailbox import RawLetter
from debvote_tools.inbox.box_records import Brought, asked_box, opened_record, unopened_words
from debvote_tools.inbox.rules import LetterCase, Ruling
from debvote_tools.inbox.vote import Vote
from debvote_tools.inbox.vote_words import ballot_in_words
from debvote_tools.inbox.stopping import other_votes_words
from debvote_tools.text.ballots import Ballot

# how many letters with later ones are named
MOST_NAMED = 20


def take_letters(
    vote: Vote,
    given: Sequence[RawLetter],
    *,
    of_box: bool,
    is_look: bool,
    is_agreed: bool,
) -> None:
    """Keeps new letters, and enters the ballots that go in; or tells what would become of them.
    Those `of_box` are its records: the others that wait stay as they are.
    """
    files = [opened_record(vote.book, raw) if raw.is_fetched else raw for raw in given]
    brought = asked_box(vote) if of_box else Brought(files)
    tell(*brought.words)
    new, read = new_in(vote, brought)
    if not is_look:
        keep(vote, new, read, brought.detail)
    for raw in brought.letters:
        if why := raw.why_not_read:
            what, cure = why.value
            tell(f"{shown_text(raw.where)}: {what}, and was passed over; {cure}")
    readable = sum(raw.why_not_read is None for raw in brought.letters)
    came_before = letter_words.came_words(len(new), readable)
    own = {raw.digest for raw in new}
    plan = functools.partial(what_goes_in, vote, own, of_box=of_box, is_agreed=is_agreed)
    if is_look:
        would = plan(read)
        would.tell_letters()
        tell(came_before, would.end, say("Nothing was changed."))
        return
    tell(came_before)
    change = carried_out(vote.book, plan)
    if brought.has_unopened:
        # now who has a later ballot need not vote again
        tell(unopened_words(vote))
    if change.letters:
        tell(f"{vote.election.command('undo')} {say('takes back what was entered last.')}")


# ---- keeping
def new_in(vote: Vote, brought: Brought) -> tuple[list[RawLetter], list[ReadLetter]]:
    """The letters that the book does not have, each of them once, and as they are read."""
    raws = [raw for raw in brought.letters if raw.why_not_read is None]
    kept_digests = queries.kept_digests(vote.book)
    # of letters with the same bytes the first that can't be text of another, or else the first
    chosen: dict[str, RawLetter] = {}
    for raw in raws:
        if raw.digest not in chosen or chosen[raw.digest].is_parted_off > raw.is_parted_off:
            chosen[raw.digest] = raw
    new = [
        raw
        for digest, raw in chosen.items()
        if is_not_kept(digest, raw.is_parted_off, kept_digests)
    ]
    return new, read_letters(vote, new)


def is_not_kept(digest: str, is_parted_off: bool, kept_digests: Set[tuple[str, bool]]) -> bool:
    """Whether the book lacks a letter. If it has it only as what may be text of another letter, it
    lacks the one that comes on its own.
    """
    return kept_digests.isdisjoint([(digest, False), (digest, is_parted_off)])


def keep(vote: Vote, raws: Sequence[RawLetter], read: Sequence[ReadLetter], detail: Detail) -> None:
    """The act that keeps new letters, byte for byte, each with what was read of it; and that the
    box was asked, also if it had nothing new.
    """
    if not (raws or detail):
        return
    with vote.book.act("letters", {"letters": len(raws), **detail}) as act:
        # the lines of the letters were read by the poll of this call
        vote.history()
        kept_digests = queries.kept_digests(vote.book)
        for raw, letter in zip(raws, read):
            # another command may have kept it meanwhile
            if is_not_kept(letter.digest, letter.is_parted_off, kept_digests):
                queries.keep_letter(
                    act, safe(raw.where), raw.data, letter.identity, to_json(letter)
                )


# ---- entering
@dataclasses.dataclass(frozen=True, kw_only=True)
class LetterEntry(Entry):
    """An act that enters ballots of letters, and decides of the letters that are done. Prints the
    reply to each ballot, and then `end`, if it has one. In words a ballot was shown before, and of
    one question it is so once more, unless the vote is secret: then the order tells nothing either.
    """

    end: str = dataclasses.field(default="", compare=False)

    def words(self, numbers: range, replies: Sequence[str]) -> Iterator[str]:
        is_secret = self.vote.questions.is_secret
        lines = list[str]()
        for number, reply, envelope in zip(numbers, replies, self.envelopes):
            ballot = Ballot(envelope.line.decode("ascii"))
            name = ballot.elector
            said = name if self.vote.is_several else ballot_in_words(self.vote, ballot)
            lines.append(f"{reply}  {name}" if is_secret else f"{number} {reply}  {said}")
        yield from sorted(lines) if is_secret else lines
        yield from filter(None, [self.end])


def enter_words(number: int) -> str:
    return say_number("Enter {number} ballot?", "Enter {number} ballots?", number)


def envelope_of(letter: LetterCase, ballot: Ballot) -> NewEnvelope:
    return NewEnvelope(ballot.line.encode(), "", letter.kept.source, letter.number, letter.time)


def with_ruling(cases: Iterable[LetterCase], ruling: Ruling) -> list[LetterCase]:
    return [letter for letter in cases if letter.ruling is ruling]


@dataclasses.dataclass(frozen=True, kw_only=True)
class GoingIn(LetterEntry):
    """Letters go in by themselves, once that is agreed to. `own` are the digests of those that this
    run has brought: of the others that stay out it is told how many wait.
    """

    cases: list[LetterCase] = dataclasses.field(compare=False)
    own: Set[str] = dataclasses.field(compare=False)

    def tell_letters(self) -> None:
        own = [letter for letter in self.cases if letter.read.digest in self.own]
        going_in = with_ruling(self.cases, Ruling.GOES_IN)
        tell(*letter_words.going_in_words(going_in, self.vote))
        tell(*letter_words.table(with_ruling(own, Ruling.WAITS)))
        if older := with_ruling(own, Ruling.OLDER):
            numbers = listed([*map(letter_words.name_of, older)], MOST_NAMED)
            tell(f"{say('Passed over, since a later letter of its elector went in')}: {numbers}")
        of_others = with_ruling(self.cases, Ruling.OTHER_VOTE)
        tell(*other_votes_words(letter.other_vote for letter in of_others))

    def show(self) -> None:
        self.tell_letters()
        if self.is_nothing:
            tell(self.end)
        elif self.prompt and not is_terminal():
            ballots = count_of(len(self.letters), "ballot")
            cure = "agree with --yes, or run it at a terminal"
            done = "nothing was added, and the letters are kept"
            raise Fault(None, f"{ballots} would go in", cure, done=done)

    def declined(self, _: bool | None) -> None:
        waits = wait_words(sum(letter.is_pending for letter in self.cases))
        keeps_out = self.vote.election.command("held", "NUMBER", "--wait")
        tell(
            f"{say('Nothing was entered. The letters are kept, and wait')}: {waits}.",
            say(
                "The next add --yes, by cron too, enters these ballots: {held} keeps one out.",
                keeps_out,
            ),
        )


def what_goes_in(
    vote: Vote,
    own: Set[str],
    previewed: Sequence[ReadLetter] | None = None,
    *,
    of_box: bool,
    is_agreed: bool,
) -> GoingIn:
    every = judged(vote, vote.history(), queries.kept_letters(vote.book), previewed or ())
    cases = [letter for letter in every if letter.read.link or not of_box]
    new = with_ruling(cases, Ruling.GOES_IN)
    return GoingIn(
        "add",
        {"letters": len(new), "lines": len(new)},
        prompt="" if is_agreed else enter_words(len(new)),
        is_nothing=not new,
        letters={letter.number: queries.ENTERED for letter in new},
        vote=vote,
        # by their times, as they are judged: of an elector's ballots the one that is entered last
        # counts
        envelopes=[envelope_of(letter, letter.sole_line.ballot) for letter in new],
        # what is late breaks a rule, and does not go in
        is_late=False,
        end=letter_words.went_in_words(every, len(new), is_look=previewed is not None),
        cases=cases,
        own=own,
    )
