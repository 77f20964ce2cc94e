"""The command `undo`, which takes back the last act that entered lines."""

import dataclasses
from collections.abc import Iterator, Sequence

from debvote_tools.book import outgoing, queries
from debvote_tools.book.book import Book, DoneAct
from debvote_tools.book.change import Change, carried_out, terminal_prompt
from debvote_tools.call.tellers import demand_openable
from debvote_tools.cli.arguments import Acting, flag
from debvote_tools.cli.console import act_time, count_of_lines, say, say_number, tell
from debvote_tools.cli.faults import Fault
from debvote_tools.election import Election, History
from debvote_tools.inbox import letter_words
from debvote_tools.inbox.judging import letters_now
from debvote_tools.inbox.vote import Vote
from debvote_tools.inbox.vote_words import envelope_words, standing_words
from debvote_tools.outbox.steps import tell_next


class Arguments(Acting):
    yes: bool = flag("Take it back without asking")


@dataclasses.dataclass(frozen=True, kw_only=True)
class TakenBack(Change):
    """What an `undo` takes back, or would."""

    undone: DoneAct
    # what it changes, in words: current ballots, told once; and letters and receipts
    ballots: Sequence[str]
    others: Sequence[str]


def undo(election: Election, arguments: Arguments) -> None:
    """Take back the last act whose lines are not all struck; a second undo the one before."""
    book = election.book_for(arguments)
    vote = Vote(election)
    judged_before = letters_now(vote)
    change = carried_out(book, lambda: what_is_taken_back(vote, arguments))
    ballots = () if change.prompt else change.ballots
    took = say("Took back {lines}.", what(change.undone, change.struck))
    tell(took, *ballots, *change.others)
    # the letters whose own ballots it was are told apart
    judged_after = letters_now(vote)
    tell(*letter_words.judged_anew(judged_before, judged_after, change.letters))
    if queries.last_entering_act(book):
        tell(say("Another {undo} takes back the act before.", election.command("undo")))
    tell_next(election)


def what(act: DoneAct, numbers: Sequence[int]) -> str:
    files = ", ".join(act.detail.get("files", ()))
    of_files = files and f" {say('of {files}', files)}"
    by = f"{say('act {number}', number=act.number)}: {say(act.name)}{of_files}"
    return f"{count_of_lines(len(numbers))} ({by}, {act_time(act.time)}, {envelope_words(numbers)})"


def what_is_taken_back(vote: Vote, arguments: Arguments) -> TakenBack:
    """The last act that entered lines of which one is not struck, and what changes. Stops if there
    is none, or at a close.
    """
    book = vote.book
    with book.snapshot():
        history = vote.election.history()
        act = last_entering_act(vote, history)
        envelopes = queries.envelopes(book, "act = ? AND struck IS NULL", act.number)
        before, after = with_and_without(book, envelopes, act)
    struck = [envelope.number for envelope in envelopes]
    letters = sorted({envelope.letter for envelope in envelopes if envelope.letter is not None})
    prompt = terminal_prompt(say("Take back {lines}?", what(act, struck)), arguments.yes)
    none = say("no ballot would be left") if prompt else say("no ballot is left")
    ballots = standing_words(vote, before, after, none)
    others = [*what_else_changes(book, struck, letters)]
    return TakenBack(
        "undo",
        {"act": act.number},
        shown=[*ballots, *others] if prompt else (),
        prompt=prompt,
        struck=struck,
        letters=dict.fromkeys(letters, queries.TAKEN_BACK),
        undone=act,
        ballots=ballots,
        others=others,
    )


def with_and_without(
    book: Book, envelopes: Sequence[queries.Envelope], act: DoneAct
) -> tuple[dict[str, str], dict[str, str]]:
    """What counts of the electors of these envelopes, with their act and without it."""
    electors = {envelope.elector for envelope in envelopes if envelope.elector is not None}
    return queries.what_counts(book, electors), queries.what_counts(
        book, electors, without=act.number
    )


def last_entering_act(vote: Vote, history: History) -> DoneAct:
    demand_open(vote.election, history)
    if number := queries.last_entering_act(vote.book):
        return history.act(number)
    raise Fault("undo", "there is nothing to take back", f"see {vote.election.command('status')}")


def what_else_changes(book: Book, struck: Sequence[int], letters: Sequence[int]) -> Iterator[str]:
    """Beside ballots: letters, and receipts, which tell of envelopes."""
    if letters:
        waits = say_number(
            "{number} letter then waits again, as taken back",
            "{number} letters then wait again, as taken back",
            len(letters),
        )
        yield f"{waits}: {', '.join(map(str, letters))}"
    about = {("envelope", number, False) for number in struck}
    written = outgoing.outgoing_letters(book, "receipts")
    having = {letter.elector for letter in written if about.intersection(letter.about)}
    if names := [elector.name for elector in queries.electors(book) if elector.number in having]:
        yield f"{say('These electors have receipts that are no longer true')}: {', '.join(names)}"


def demand_open(election: Election, history: History) -> None:
    demand_openable(history)
    if history.is_closed:
        raise Fault(
            None,
            f"the vote was closed at {act_time(history.closes[-1].time)}, and its ballots stay",
            f"if they are wrong, see {election.command('reopen')}",
        )
