"""The command `reopen`, which opens the vote again, and names late ballots that may be in time."""

from collections.abc import Iterator

from debvote_tools.book import queries
from debvote_tools.book.change import Change, carried_out, terminal_prompt
from debvote_tools.cli.arguments import Acting, demand_reason, flag, option
from debvote_tools.call.tellers import demand_openable
from debvote_tools.cli.console import act_time, is_terminal, is_yes, listed, say, shown_line, tell
from debvote_tools.cli.faults import Fault
from debvote_tools.election import LETTERS, Election, History
from debvote_tools.files import OWN, write_made
from debvote_tools.grouping import grouped
from debvote_tools.inbox.taking import MOST_NAMED
from debvote_tools.inbox.vote import Vote
from debvote_tools.outbox.steps import tell_next
from debvote_tools.result.publication import closing_letter

# the letter to all about a list that nobody opens
VOID = "void.txt"


class Arguments(Acting):
    yes: bool = flag("Open it without asking")
    because: str = option("TEXT", "The reason, in your words", required=True)


def reopen(election: Election, arguments: Arguments) -> None:
    """Open the vote again after a close, for ballots that came in time; the result page says so."""
    because = demand_reason(arguments.because, "reopen")
    book = election.book_for(arguments)
    carried_out(book, lambda: what_is_reopened(election, arguments, because))
    history = election.history()
    tell(
        say(
            "The vote is open again; the close at {time} stays in the log and on the result page.",
            act_time(history.closes[-1].time),
        ),
        *late_words(Vote(election), history),
        say(
            "Of new ballots only those that arrived before the first close count: add and desk ask."
        ),
        say(
            "What is late stays late: if it arrived before, enter it again, with add FILE --came-before-close yes or at a desk."
        ),
    )
    if history.tellers:
        # what writes letters takes a while to be imported
        from debvote_tools.commands.letters import write_ready

        write_made(election.path(LETTERS), {VOID: closing_letter(election, history, VOID)}, OWN)
        tell(
            f"Send {election.path(LETTERS)}/{VOID} to all electors now: nobody may open the list of before.",
            *write_ready(election, "void"),
        )
    tell_next(election)


def what_is_reopened(election: Election, arguments: Arguments, because: str) -> Change:
    history = election.history()
    demand_closed(election, history)
    if history.tellers:
        demand_unopened(history)
    told = say("Everybody will read this reason.")
    if election.questions.is_secret:
        told = say("Only the log tells this reason.")
    question = say("Open the vote again, because: {because}?", because)
    asked = terminal_prompt(f"{question} {told}", arguments.yes)
    return Change("reopen", {"because": because}, prompt=asked)


def late_words(vote: Vote, history: History) -> Iterator[str]:
    """The late ballots that may have come in time, of a desk or a file, or of a letter of before
    the first close; and apart from them those whose electors have another ballot in time. Others
    that were entered again are left out.
    """
    others = queries.late_beside_others(vote.book)
    in_time = {*queries.lines_to_count(vote.book)}
    by_kind = grouped(
        (
            envelope.line in others,
            str(envelope.number)
            if vote.has_codes
            else f"{envelope.number} `{shown_line(envelope.line)}`",
        )
        for envelope in queries.envelopes(vote.book, "envelope IN late AND answer IS NULL")
        if envelope.letter is None or envelope.time <= history.closes[0].time
        if envelope.line in others or envelope.line not in in_time
    )
    for is_beside, shown in sorted(by_kind.items()):
        what = (
            "Late ballots of electors with another ballot in time, which they would replace"
            if is_beside
            else "Late ballots that may have come before the first close"
        )
        yield f"{what} ({len(shown)}): {listed(shown, MOST_NAMED)}"


def demand_unopened(history: History) -> None:
    """Stops unless somebody says that the first teller has not opened the list of the close: of two
    lists that are opened the difference shows how somebody voted. No option answers it.
    """
    first = next(iter(history.tellers))
    question = say("Does {teller} say that list 0 was not opened?", first)
    if not (is_terminal() and is_yes(question)):
        words = f"nobody says that {first} has not opened list 0"
        raise Fault(
            None,
            words,
            "ask first, and run the command at a terminal; if it was opened, hold the vote anew with new keys",
        )


def demand_closed(election: Election, history: History) -> None:
    if not history.is_closed:
        raise Fault(None, "the vote is not closed", f"see {election.command('status')}")
    demand_openable(history)
    if history.has_codes_on_roll and history.named("publish"):
        raise Fault(
            None,
            "the published result shows the codes, so anybody could now vote in the name of others",
            "hold the vote anew, with new codes",
        )
