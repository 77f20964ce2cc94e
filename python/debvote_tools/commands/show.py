"""The command `show`, which shows what came of one elector, and what they were sent."""

from collections.abc import Iterator, Sequence

from debvote_tools.book import outgoing, queries
from debvote_tools.book.queries import Envelope
from debvote_tools.cli.arguments import Options, flag, positional
from debvote_tools.cli.console import (
    act_time,
    asked_for,
    demand_yes,
    hides,
    say,
    shown_line,
    shown_text,
    tell,
)
from debvote_tools.cli.faults import Fault
from debvote_tools.election import Election, History
from debvote_tools.inbox import letter_words
from debvote_tools.inbox.fates import Fate, fates_of
from debvote_tools.inbox.vote import Vote
from debvote_tools.inbox.vote_words import IS_CODE, envelope_words, with_answers
from debvote_tools.poll.codes import has_code


class Arguments(Options):
    name: str = positional("NAME", "The elector's name on the roll, or the real name")
    yes: bool = flag("In a secret vote: show the ballots without asking")


def show(election: Election, arguments: Arguments) -> None:
    """Show one elector: the ballots and letters that came, the current ballot, and what was
    sent.
    """
    vote = Vote(election)
    elector = elector_named(election, vote, arguments.name)
    if hides() and not arguments.yes:
        why = f"this shows what {elector.name} voted"
        demand_yes(say("Show what {name} voted?", elector.name), why)
    history = election.history()
    with asked_for(True):
        who = f": {shown_text(elector.who)} {', '.join(map(shown_text, elector.addresses))}"
        # nobody knows whose code it is
        tell(elector.name if vote.has_codes else f"{elector.name}{who.rstrip(': ')}")
        fates = fates_of(election, history, elector)[elector.name]
        came = [fate.envelope for fate in fates if fate.envelope]
        tell(*(f"  {line}" for fate in fates for line in fate_words(vote, history, fate, came)))
        current = queries.what_counts(election.book, {elector.number}).get(elector.name)
        words = say("The current ballot")
        if current and vote.is_several:
            words += f": {elector.name} {current}"
        tell(with_answers(vote, words, current) if current else f"{words}: {say('none')}")
        letters = outgoing.outgoing_letters(election.book, elector=elector.number)
        tell(*map(outgoing_words, sorted(letters, key=lambda letter: letter.time)))


def outgoing_words(letter: outgoing.OutgoingLetter) -> str:
    where = say("to {address}", letter.address) if letter.address else say("to be printed")
    reply = f" ({shown_text(letter.reply)})" if letter.reply else ""
    return f"  {letter.kind.removesuffix('s')}, {act_time(letter.time)}, {where}: {say(letter.state)}{reply}"


def elector_named(election: Election, vote: Vote, name: str) -> queries.Elector:
    names = vote.names.meant_by(name.strip())
    meant = [elector for elector in queries.electors(election.book) if elector.name in names]
    if len(meant) == 1:
        return meant[0]
    if meant:
        words = f"several electors have the name {shown_text(name)}"
        cure = f"name one of {', '.join(elector.name for elector in meant)}"
    elif vote.has_codes:
        words = f"no code on the roll is `{shown_text(name)}`"
        cure = "type the code as it was handed out"
    else:
        words = f"no elector on the roll is `{shown_text(name)}`"
        cure = f"{election.command('status', '--electors')} lists the names"
    raise Fault("show", words, cure, done=None)


def fate_words(vote: Vote, history: History, fate: Fate, came: Sequence[Envelope]) -> Iterator[str]:
    envelope = fate.envelope
    letter = fate.letter
    if letter is not None:
        if letter.is_pending:
            yield from letter_words.why_it_waits(letter)
        else:
            yield f"{letter_words.who_and_when(letter)}: {letter_words.why(letter)}"
    if envelope is not None:
        marks = list[str]()
        if envelope.is_late:
            again = (
                later
                for later in came
                if later.line == envelope.line and later.number > envelope.number
            )
            marks = [
                say("late"),
                *(f"entered again as {later.number}: {later.became}" for later in again),
            ]
        marks += [f"{label} {say('replaced')}" for label in fate.replaced]
        if envelope.struck is not None:
            act = history.act(envelope.struck)
            because = shown_text(str(act.detail.get("because", "")))
            struck = (
                f"{say('struck by {act}', say(act.name))} {say('at {time}', act_time(act.time))}"
            )
            marks.append(f"{struck}: {because}" if because else struck)
        marked = f" ({'; '.join(marks)})" if marks else ""
        at_desk = f", {say('at {desk}', shown_text(fate.desk))}" if fate.desk else ""
        words = (
            f"{envelope_words([envelope.number])}, "
            f"{act_time(envelope.time)}{at_desk}{letter_words.sent_words(fate.came_by)}{marked}"
        )
        if fate.answers:
            yield with_answers(vote, words, fate.answers, "    ")
        else:
            yield f"{words}: {refused_line(vote, envelope)}"


def refused_line(vote: Vote, envelope: Envelope) -> str:
    is_code = has_code(envelope.line.decode("utf-8", "replace")) and not vote.has_codes
    said = f"{shown_line(envelope.line)}: {envelope.why_refused}"
    return said + (IS_CODE if is_code else "")
