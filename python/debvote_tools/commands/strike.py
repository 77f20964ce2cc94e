"""The command `strike`, which takes out one envelope."""

import re

from debvote_tools.book import queries
from debvote_tools.book.change import Change, carried_out, terminal_prompt
from debvote_tools.book.queries import Envelope
from debvote_tools.cli.arguments import Acting, demand_reason, flag, option, positional
from debvote_tools.cli.console import act_time, say, shown_line, tell
from debvote_tools.cli.faults import Fault
from debvote_tools.commands.undo import demand_open
from debvote_tools.election import Election
from debvote_tools.inbox import letter_words
from debvote_tools.inbox.judging import letters_now
from debvote_tools.inbox.lines import name_in
from debvote_tools.inbox.vote import Vote
from debvote_tools.inbox.vote_words import envelope_words, with_answers
from debvote_tools.outbox.steps import tell_next

# what can be a code of the roll or half of one, as if it was typed with a gap
LIKE_A_CODE = re.compile(rb"[0-9A-Za-z]{5,}")


class Arguments(Acting):
    number: int = positional(
        "NUMBER", "The number of the envelope, as add, desk and show print it", type=int
    )
    yes: bool = flag("Strike it without asking")
    because: str = option("TEXT", "The reason, in your words", required=True)


def strike(election: Election, arguments: Arguments) -> None:
    """Strike one envelope before the close, so that its line does not count; the result page says
    how many, and why.
    """
    because = demand_reason(arguments.because, "strike")
    book = election.book_for(arguments)
    vote = Vote(election)
    judged_before = letters_now(vote)
    change = carried_out(book, lambda: what_is_struck(vote, arguments, because))
    [envelope] = queries.envelopes(book, "envelope = ?", arguments.number)
    tell(f"{say('Struck {envelope}', in_words(envelope, vote))}, {say('because')}: {because}")
    if envelope.elector is not None:
        elector = name_in(envelope.line).decode("ascii")
        answers = queries.what_counts(book, {envelope.elector}).get(elector)
        whose = say("that code") if vote.has_codes else elector
        words = say("Another ballot of {name} counts", whose)
        none = say("No ballot of {name} counts", whose)
        tell(with_answers(vote, words, answers) if answers else none)
    tell(*letter_words.judged_anew(judged_before, letters_now(vote), change.letters))
    tell(say("A strike cannot be undone: if it was a mistake, enter the line again."))
    tell_next(election)


def what_is_struck(vote: Vote, arguments: Arguments, because: str) -> Change:
    envelope = demand_envelope(vote, arguments.number)
    # a letter waits on if it has ballots of others that were not entered
    entered = queries.kept_letters(
        vote.book, "letter = ? AND state = ?", envelope.letter, queries.ENTERED
    )
    return Change(
        "strike",
        {"envelope": envelope.number, "because": because},
        prompt=terminal_prompt(
            say("Strike {envelope}? This cannot be undone.", in_words(envelope, vote)),
            arguments.yes,
        ),
        struck=[envelope.number],
        letters={letter.number: queries.STRUCK for letter in entered},
    )


def in_words(envelope: Envelope, vote: Vote) -> str:
    # no code that nobody typed, nor one with a wrong digit
    line = LIKE_A_CODE.sub(b"CODE", envelope.line) if vote.has_codes else envelope.line
    late = f" ({say('late')})" if envelope.is_late else ""
    return f"{envelope_words([envelope.number])}{late}: `{shown_line(line)}`"


def demand_envelope(vote: Vote, number: int) -> Envelope:
    """The envelope of a number. Stops if there is none, if it is struck, or if the vote is
    closed.
    """
    history = vote.election.history()
    demand_open(vote.election, history)
    last = queries.last_envelope(vote.book)
    # a number that SQLite can't be asked about is none of them
    if not 0 < number <= last:
        there = f"there are envelopes 1 to {last}" if last else "no ballot has come yet"
        raise Fault(
            None,
            f"there is no envelope {number}; {there}",
            "show NAME lists the envelopes of an elector",
        )
    [envelope] = queries.envelopes(vote.book, "envelope = ?", number)
    if envelope.struck is not None:
        raise Fault(
            None,
            f"envelope {number} is struck already, by act {envelope.struck} at {act_time(history.act(envelope.struck).time)}",
            f"see {vote.election.command('log')}",
        )
    return envelope
