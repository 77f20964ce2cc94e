"""What commands that enter lines share: the change, the replies, and whether lines come in time."""

import dataclasses
from collections.abc import Iterable, Sequence

from debvote_tools.book import queries
from debvote_tools.book.book import Book, NewAct
from debvote_tools.book.change import Change
from debvote_tools.book.queries import NewEnvelope
from debvote_tools.cli import console
from debvote_tools.cli.arguments import Acting, option
from debvote_tools.cli.console import act_time, count_of, say, say_time, shown_line
from debvote_tools.cli.faults import Fault, Status, bad_arguments
from debvote_tools.election import Election, History
from debvote_tools.files import BALLOTS_LIMIT, LINES_LIMIT
from debvote_tools.inbox.vote import CheckedLine, Vote, replies_to
from debvote_tools.inbox.vote_words import envelope_words
from debvote_tools.text.language import marked
from debvote_tools.text.times import now

CAME_BEFORE_CLOSE = "--came-before-close"
WOULD_REPLACE = marked(
    "`{line}` was late before, and would replace envelope {envelope}, which came in time"
)


class Arguments(Acting):
    """The options of a command that enters lines."""

    nothing = "added"
    came_before_close: str | None = option(
        None,
        "After reopen: whether the ballots came before the first close (default: the command asks)",
        choices=("yes", "no"),
    )


@dataclasses.dataclass(frozen=True, kw_only=True)
class Entry(Change):
    """An act that enters lines."""

    vote: Vote
    envelopes: Sequence[NewEnvelope] = ()
    is_late: bool = False
    # what the lines are called if they can't be told
    what: str = "lines"

    def write(self, act: NewAct) -> None:
        super().write(act)
        self.enter(act, self.envelopes)

    def enter(self, act: NewAct, envelopes: Sequence[NewEnvelope]) -> None:
        if not self.is_late:
            demand_room(self.vote.book, envelopes)
        electors = self.vote.electors_of([envelope.line for envelope in envelopes])
        queries.add_envelopes(act, envelopes, electors, is_late=self.is_late)

    def words(self, numbers: range, replies: Sequence[str]) -> Iterable[str]:
        """What is told, by the numbers of the envelopes and the replies."""
        return ()

    def report(self, number: int) -> None:
        book = self.vote.book
        first, electors, lines = queries.entered_by(book, number)
        counted_answers = queries.what_counts(book, electors, at=number - 1)
        replies = [*replies_to(lines, counted_answers, is_late=self.is_late)]
        numbers = range(first, first + len(lines))
        try:
            console.tell_many(self.words(numbers, replies))
        except console.OutputFailed as fault:
            done = f"the {self.what} were entered nevertheless ({envelope_words(numbers)})"
            cure = "see debvote-election status"
            raise Fault(None, "the output failed", cure, fault.status, done) from None


def demand_room(book: Book, new: Sequence[NewEnvelope]) -> None:
    """Stops at more lines than debvote takes."""
    count, size = queries.size_to_count(book)
    count += len(new)
    size += sum(len(envelope.line) + 1 for envelope in new)
    if count > LINES_LIMIT or size > BALLOTS_LIMIT:
        words = f"with the new lines there would be {count_of(count, 'line')} and {size} bytes of ballots"
        cure = f"debvote takes at most {LINES_LIMIT} lines and {BALLOTS_LIMIT} bytes: add fewer"
        raise Fault(book.path, words, cure, Status.BAD_BALLOTS)


# ---- whether it comes in time
def late_notes(election: Election, history: History, what: str) -> list[str]:
    """What is said of lines that are entered after the end; `what` says what is done with them. Of
    lines that `add` enters it stands above the replies, after the act. After `reopen` the end
    decides nothing: only what came before the first close counts.
    """
    if history.is_closed:
        closed = act_time(history.closes[-1].time)
        return [say("Note: the vote was closed at {closed}; {what} now is late.", closed, what)]
    if history.until is not None and not history.closes and now() >= history.until:
        words = say(
            "Note: the announced end of the vote, {until}, has passed; {what} still counts "
            "until you close the vote, and the result page says how many lines: {close}",
            say_time(history.until),
            what,
            election.command("close"),
        )
        return [words]
    return []


def came_before_close(history: History, answer: str | None) -> bool | None:
    """Whether what is entered came before the first close, by the option or by an answer at a
    terminal. None if that does not matter.
    """
    if not history.is_reopened:
        if answer is not None and not history.is_closed:
            raise bad_arguments(CAME_BEFORE_CLOSE, "the vote was never closed", "leave it out")
        return None
    if answer is not None:
        return answer == "yes"
    closed = act_time(history.closes[0].time)
    if not console.is_terminal():
        words = (
            f"the vote was closed at {closed} and opened again, and only what came before counts"
        )
        cure = f"say whether this came before that close: {CAME_BEFORE_CLOSE} yes, or {CAME_BEFORE_CLOSE} no, which makes it late"
        raise Fault(CAME_BEFORE_CLOSE, words, cure)
    asked = say(
        "The vote was closed at {time} and opened again. Did this come before that close?", closed
    )
    came_before = console.is_yes(asked)
    if came_before is None:
        words = say("you did not say whether it came before the close")
        raise Fault(None, words, say("run the command again"))
    return came_before


# ---- late lines that are entered again
def replaced_in_time(
    vote: Vote, lines: Iterable[CheckedLine], is_late: bool
) -> dict[CheckedLine, str]:
    """Of lines that are entered as in time, those that were late before, and would replace a ballot
    in time that is another one: each in words. Somebody has to agree to each.
    """
    if is_late or not vote.history().is_reopened:
        return {}
    others = queries.late_beside_others(vote.book)
    return {
        line: f"{line.original.where}: {say(WOULD_REPLACE, shown_line(line.as_entered), others[line.as_entered])}"
        for line in lines
        if line.as_entered in others
    }
