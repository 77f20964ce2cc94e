"""What came from each elector, and what became of it, by all lines and letters as they are now."""

import datetime
from collections.abc import Iterable, Iterator, Sequence
from typing import NamedTuple

from debvote_tools.book import queries
from debvote_tools.book.outgoing import About
from debvote_tools.book.queries import Elector, Envelope
from debvote_tools.election import Election, History
from debvote_tools.grouping import grouped
from debvote_tools.inbox.judging import judged
from debvote_tools.inbox.rules import LetterCase, Ruling
from debvote_tools.inbox.vote import Vote
from debvote_tools.text.ballots import Ballot

# what belongs to no elector has this in place of a name
NOBODY = ""
# of what became of envelopes, in the words of the view `fate`
COUNTS = "counts"
REFUSED = "refused"
TAKEN_BACK = "taken back"


class Fate(NamedTuple):
    """An envelope or a letter that came, and what became of it. A letter is an elector's own if it
    came from an address of theirs, or by their link; it names them if a ballot in it is theirs, or
    a line near to one, or if it names nobody and is theirs alone.
    """

    time: datetime.datetime
    # of an envelope as the view `fate` says; of a letter its ruling
    became: str | Ruling
    envelope: Envelope | None = None
    letter: LetterCase | None = None
    is_own: bool = False
    names_them: bool = False
    # the letter from which an envelope came, and the name of the desk at which it was typed
    came_by: LetterCase | None = None
    desk: str = ""

    @property
    def why_refused(self) -> str | None:
        """Why debvote refuses the line of an envelope; None of a ballot."""
        return None if self.envelope is None else self.envelope.why_refused

    @property
    def replaced(self) -> list[str]:
        """The labels of the answers that do not count, if others in the envelope do."""
        if self.envelope is None or self.became != COUNTS:
            return []
        by_question = self.envelope.by_question.items()
        return [label for label, became in by_question if became != COUNTS]

    @property
    def answers(self) -> str:
        """What a valid ballot has behind the name."""
        if self.envelope is None or self.why_refused is not None:
            return ""
        return Ballot(self.envelope.line.decode()).answers


def fates_of(
    election: Election, history: History, elector: Elector | None = None
) -> dict[str, list[Fate]]:
    """What came from all electors or from one, by their names on the roll, in the order of its
    times; a letter that arrived at no known time has that of its act.

    What became of an envelope the view `fate` says, of a letter `judged`. A letter is of whoever
    has a ballot in it or a line near to one, and of whoever sent it; if asked about one elector,
    also each whose sender has an address of theirs. One that was entered comes beside its
    envelopes.
    """
    book = election.book
    electors = queries.electors(book) if elector is None else [elector]
    names = {one.number: one.name for one in electors}
    vote = Vote(election)
    cases = judged(vote, history, queries.kept_letters(book))
    letters = {letter.number: letter for letter in cases}
    fates = [
        (
            names.get(envelope.elector or 0, NOBODY),
            Fate(
                envelope.time,
                envelope.became,
                envelope,
                came_by=letters.get(envelope.letter or 0),
                desk=history.act(envelope.act).detail.get("desk", ""),
            ),
        )
        for envelope in vote.with_reasons_of_now(
            queries.envelopes_of(book, names if elector else None)
        )
    ]
    for letter in cases:
        time = letter.read.arrived or history.act(letter.kept.act).time
        fates += fates_of_letter(letter, time, is_of_all_senders=elector is not None)
    by_name = grouped(sorted(fates, key=lambda of_name: of_name[1].time))
    return {name: by_name.get(name, []) for name in (*names.values(), NOBODY)}


def fates_of_letter(
    letter: LetterCase, time: datetime.datetime, *, is_of_all_senders: bool
) -> Iterator[tuple[str, Fate]]:
    """A letter as it is told of each elector, with their name. One of whom several have the
    sender's address is of all of these, or of none.
    """
    is_of_senders = is_of_all_senders or letter.sending_elector
    senders = letter.sharing if is_of_senders else ()
    for name in dict.fromkeys((*letter.electors, *senders)) or [NOBODY]:
        yield name, Fate(
            time,
            letter.ruling,
            letter=letter,
            is_own=name in letter.sharing,
            names_them=name in letter.electors,
        )


# ---- what electors are told
def is_told(fate: Fate) -> bool:
    """Whether an elector is told of something that came. A copy is the letter that it copies. One
    from which ballots were entered is told to those whom it names: `told_of` leaves out those who
    have one of these. A program that answers by itself would answer; and a letter of ours that came
    back has the name of its elector.
    """
    letter = fate.letter
    if letter is None:
        return True
    if letter.is_automatic and (fate.is_own or not letter.ballots):
        return False
    if fate.became is Ruling.ENTERED:
        return fate.names_them
    return fate.became not in (Ruling.COPY, Ruling.OTHER_VOTE)


def told_of(fates: Sequence[Fate]) -> dict[About, Fate]:
    """What an elector is told of, in its order. Of a letter from which ballots of theirs were
    entered only these are told, also if they were struck or taken back. Of another letter one
    receipt tells, and none anew if the secretary decides of it later.
    """
    entered = {fate.envelope.letter for fate in fates if fate.envelope}
    told: dict[About, Fate] = {}
    for fate in filter(is_told, fates):
        if fate.envelope is not None:
            told["envelope", fate.envelope.number, fate.envelope.is_struck] = fate
        elif fate.letter is not None and fate.letter.number not in entered:
            told["letter", fate.letter.number, False] = fate
    return told


def letters_to_tell(cases: Iterable[LetterCase]) -> Iterator[tuple[str, LetterCase]]:
    """Letters with each elector who is told of them, unless there are ballots of theirs in their
    place.
    """
    for letter in cases:
        for name, fate in fates_of_letter(
            letter, letter.circumstances.now, is_of_all_senders=False
        ):
            if is_told(fate):
                yield name, letter
