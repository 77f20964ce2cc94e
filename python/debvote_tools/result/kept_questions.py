"""What the book has of the questions, which `close`, `count` and `publish` read in one way.

It is compared with what the close has fixed, and with what debvote says of each line.
"""

from collections.abc import Collection, Iterable
from typing import NamedTuple

from debvote_tools.book import queries
from debvote_tools.book.book import Book
from debvote_tools.call.secret import alias_in, aliased_ballots, sealed_checksum
from debvote_tools.call.tellers import LIST_0, VOTED, last_ballots, text_file, voted_file
from debvote_tools.cli.faults import Fault
from debvote_tools.debvote import casting_words
from debvote_tools.election import Election, Fixed, History, fixed_by
from debvote_tools.inbox.lines import name_in
from debvote_tools.poll.sealed import SealedPoll
from debvote_tools.sheet import Sheet, sheet_in
from debvote_tools.text.ballots import ballot_file

KEEP = "keep the folder as it is, and tell the maintainers"


class KeptQuestion(NamedTuple):
    """What the book has of a question at one time."""

    poll: SealedPoll
    # all lines in time, as debvote counts them, and as they are published: in a secret vote those
    # that count, by alias
    ballots: bytes
    public: bytes
    # how many these are; and debvote's verdicts, as the book keeps them: the words with which it
    # refuses lines, by their places, and what counts of each elector
    lines: int
    refused: dict[int, str]
    counted_answers: dict[str, str]
    late: list[bytes]


def demand_countable(election: Election, history: History) -> None:
    """Stops at a secret vote that is not closed: whoever sees its numbers grow sees who voted
    what.
    """
    if election.questions.is_secret and not history.is_closed:
        words = "the vote is secret, and can be counted only after the close"
        raise Fault(None, words, f"close it first: {election.command('close')}")
    if not history.are_all_opened:
        words = "the tellers have not opened all layers yet"
        raise Fault(None, words, f"enter what they hand on: {election.command('tellers', 'LIST')}")


def kept_questions(
    election: Election, history: History, labels: Iterable[str]
) -> dict[str, KeptQuestion]:
    """What the book has of these questions. Stops if an envelope is not kept for the elector whose
    name its line begins with, if ballots are not those that the close has fixed, and if debvote,
    asked anew, has another verdict on a line than the book keeps of it.
    """
    book = election.book
    by_label = dict[str, KeptQuestion]()
    with book.snapshot():
        demand_own_lines(book, election.questions.roll)
        for label in labels:
            with book.question(label):
                by_label[label] = kept_question(book, label, election.questions[label])
    if history.is_closed and history.tellers:
        by_label[""] = sealed_to_tellers(book, by_label[""])
    for label, kept in by_label.items() if history.is_closed else ():
        demand_fixed(fixed_by(history.closes[-1])[label], kept)
    for kept in by_label.values():
        findings = election.debvote.findings(kept.poll.as_bytes(), kept.ballots)
        verdicts = {finding.line: finding.word for finding in findings.refused}
        demand_same_verdicts(
            election, (verdicts, findings.voters), (kept.refused, len(kept.counted_answers))
        )
    return by_label


def demand_fixed(fixed: Fixed, kept: KeptQuestion) -> None:
    """Stops at ballots that are not those of the close."""
    checksum = sealed_checksum(fixed.seal, kept.public)
    if checksum != fixed.checksum:
        words = f"the ballots have the checksum {checksum}, and the close recorded {fixed.checksum}"
        raise Fault(None, words, KEEP)


def sealed_to_tellers(book: Book, kept: KeptQuestion) -> KeptQuestion:
    """A question with the list of the close in place of ballots. Stops if those who are checked off
    are others than the close kept.
    """
    if voted_file(kept.counted_answers) != queries.sealed(book, VOTED):
        raise Fault(book.path, f"those who voted are not those of {VOTED}", KEEP)
    return kept._replace(public=queries.sealed(book, LIST_0))


def decided_questions(
    election: Election, history: History, labels: Iterable[str]
) -> dict[str, KeptQuestion]:
    """What the book has of these questions as they are decided: with tellers the ballots that they
    have opened, by the places of the public roll.
    """
    kept = kept_questions(election, history, labels)
    if not history.tellers:
        return kept
    ballots = last_ballots(election, history).items()
    counted_answers = {place: ranks for place, (_, ranks) in ballots}
    lines = text_file(map(" ".join, counted_answers.items()))
    as_decided = kept[""]._replace(
        poll=election.decided[""], ballots=lines, public=lines, counted_answers=counted_answers
    )
    return {"": as_decided}


def kept_question(book: Book, label: str, poll: SealedPoll) -> KeptQuestion:
    """What the book has of the question that is seen alone."""
    answered = queries.lines_with_refusals(book)
    counted_answers = queries.what_counts(book)
    ballots = ballot_file(line for line, _ in answered)
    aliases = {elector.name: alias_in(label, elector) for elector in queries.electors(book)}
    return KeptQuestion(
        poll=poll,
        ballots=ballots,
        public=aliased_ballots(counted_answers, aliases) if poll.secret else ballots,
        lines=len(answered),
        # another version of debvote may give the reason in other words
        refused={
            place: why.partition(": ")[0]
            for place, (_, why) in enumerate(answered, start=1)
            if why is not None
        },
        counted_answers=counted_answers,
        late=queries.lines(book, "envelope IN late"),
    )


def demand_own_lines(book: Book, roll: Collection[str]) -> None:
    """Stops if an envelope is not kept for the elector whose name its line begins with."""
    names = frozenset(roll)
    for number, name, line in queries.names_and_lines(book):
        first = name_in(line).decode()
        if name != (first if first in names else None):
            words = f"envelope {number} is kept for another elector than the one whose name its line begins with"
            raise Fault(book.path, words, KEEP)


def demand_same_verdicts(election: Election, said: object, kept: object) -> None:
    """Stops if debvote says another thing of the lines than the book keeps of it."""
    if said != kept:
        words = "debvote says of its lines another thing than it keeps: a verdict was changed, or another version of debvote judges"
        raise Fault(election.book.path, words, KEEP)


def sheet_of(election: Election, kept: KeptQuestion, casting: str | None) -> Sheet:
    """What debvote counts of a question, with the option of the casting vote."""
    words = casting_words(casting)
    return sheet_in(
        election.debvote.answer("count", kept.poll.as_bytes(), kept.ballots, *words).text
    )
