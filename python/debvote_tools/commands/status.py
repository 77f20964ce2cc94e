"""The command `status`, which says how far the election is."""

import json
from collections.abc import Iterator, Mapping
from typing import Any

from debvote_tools.book import queries
from debvote_tools.book.book import Book
from debvote_tools.book.queries import Envelope
from debvote_tools.call.members import elector_in_words
from debvote_tools.cli.arguments import Options, flag, option
from debvote_tools.cli.console import (
    act_time,
    count_of,
    private,
    quorum_words,
    say,
    say_time,
    shown_line,
    tell,
    until_looked_at,
    wrapped,
)
from debvote_tools.cli.faults import Fault, stop_at
from debvote_tools.election import Election, History, fixed_by
from debvote_tools.inbox.last_asking import asked_last, asked_words, with_lost_records
from debvote_tools.inbox.urn import words_before_close
from debvote_tools.inbox.stopping import Pending, pending_letters, taken_out_words
from debvote_tools.inbox.vote import Vote
from debvote_tools.inbox.vote_words import envelope_words
from debvote_tools.outbox.reached import unreached_and_printed
from debvote_tools.outbox.steps import SAID, in_words, tell_next, what_next
from debvote_tools.text import times
from debvote_tools.text.ballots import ranks_by_label

# how an election is, in numbers, as FORMATS has them; in a vote whose roll has codes nobody is
# named
State = dict[str, Any]


class Arguments(Options):
    json: bool = flag("Print the numbers as JSON, for programs")
    electors: bool = flag(
        "List the electors instead: the name on the roll, the real name, the addresses"
    )
    done: str | None = option(
        None,
        "Note on this computer that something is done until now: receipts are not needed, the page is uploaded, letters are "
        "sent by your mail program, those whom the call had not reached know of it, there is a backup",
        choices=[step.value for step in SAID],
    )


def status(election: Election, arguments: Arguments) -> None:
    """Show how far the election is: lines, ballots, electors without a ballot, refused lines."""
    if arguments.done:
        stop_at(election.book.doubts())
        election.book.note_done(arguments.done, election.book.last_number())
        tell_next(election)
        return
    if arguments.electors:
        demand_names(election)
        tell(*map(elector_in_words, queries.electors(election.book)))
        return
    with election.book.snapshot():
        history = election.history()
        counted_answers = queries.what_counts(election.book)
        state = state_of(election, history, counted_answers, pending_letters(election, history))
        if history.call is not None and election.questions.is_several:
            state["questions"] = questions_in(election, history, has_late=bool(state["late"]))
        refused = still_refused(election.book, counted_answers)
    if arguments.json:
        tell(json.dumps(state, ensure_ascii=False))
    else:
        stage = stage_words(election, history, state)
        tell(*stage, *state_words(election, history, state, refused))


def demand_names(election: Election) -> None:
    if election.history().has_codes_on_roll:
        words = "codes are on the roll, and nobody knows whose they are"
        raise Fault("--electors", words, "leave it out")


def state_of(
    election: Election, history: History, counted_answers: Mapping[str, str], pending: Pending
) -> State:
    """The numbers of an election; `counted_answers` is what counts of each elector."""
    book = election.book
    electors = [elector.name for elector in queries.electors(book)]
    unreached, printed = unreached_and_printed(election, history)
    numbers = queries.numbers(book)._asdict()
    if history.tellers and history.is_closed:
        # what tellers open: no spoilt slip is among it
        numbers["voters"] = fixed_by(history.closes[-1])[""].lines
    return {
        "stage": history.stage,
        "electors": len(electors),
        **numbers,
        "late": len(queries.lines(book, "envelope IN late")),
        "struck": len(history.since_call("strike")),
        "taken_back": len(queries.lost(book)),
        "waiting": pending.count,
        "stopping": pending.stopping,
        "without_ballot": None
        if history.has_codes_on_roll
        else [name for name in electors if name not in counted_answers],
        "box": asked_last(election, history),
        "lost": with_lost_records(election, history),
        "not_reached": {one.elector.name: one.why for one in unreached},
        "printed": printed,
        "act": history.last.number,
        "digest": history.last.digest,
    }


def still_refused(book: Book, counted_answers: Mapping[str, str]) -> list[Envelope]:
    """The envelopes whose lines debvote refuses, but for those of electors whose ballots answer the
    same questions.
    """
    answered = {
        elector.number: ranks_by_label(counted_answers.get(elector.name, ""))
        for elector in queries.electors(book)
    }
    return [
        envelope
        for envelope in queries.envelopes(book, "envelope IN refused")
        if envelope.by_question.keys() - answered.get(envelope.elector or 0, {})
    ]


def questions_in(election: Election, history: History, *, has_late: bool) -> State:
    """The numbers of each of several questions."""
    book = election.book
    polls = election.questions
    return {
        label: {
            "title": polls[label].name,
            "stage": history.stage,
            **queries.numbers(book)._asdict(),
            "late": len(queries.lines(book, "envelope IN late")) if has_late else 0,
        }
        for label in queries.each_question_alone(book)
    }


def stage_words(election: Election, history: History, state: State) -> Iterator[str]:
    if history.call is None:
        yield say("Call for votes: not made yet")
        yield f"{say('Closed')}: {say('not yet')}"
        return
    questions = election.questions
    yield f"{say('Title')}: {questions.name}"
    if history.tellers:
        yield (
            f"The vote is secret, and its ballots are sealed to {', '.join(history.tellers)}. "
            "Keep the output of this command to yourself."
        )
    elif questions.is_secret:
        yield (
            "The vote is secret: ballots are published under "
            f"{'codes' if history.has_codes_on_roll else 'aliases'}. Keep the output of this "
            "command to yourself."
        )
    if history.until is not None:
        passed = say("that time has passed")
        yield f"{say('End of the vote')}: {say_time(history.until)}{f'; {passed}' if times.now() >= history.until else ''}"
    yield say("Call for votes: made at {time}", act_time(history.call.time))
    closed = say("not yet")
    if history.is_closed:
        closed = say("at {time}", act_time(history.closes[-1].time))
    yield f"{say('Closed')}: {closed}"
    if history.is_reopened:
        yield f"{say('Reopened')}: {say('at {time}', act_time(history.named('reopen')[-1].time))}"
    quorums = history.call.detail["quorum_votes"]
    of_each = {
        label: quorum_words(poll.quorum, quorums[label]) for label, poll in questions.items()
    }
    are_equal = len({*of_each.values()}) == 1
    for label, poll in questions.items():
        if label:
            yield f"Question {label}: {poll.name}: {count_of(state['questions'][label]['voters'], 'elector')} answered"
        if not are_equal:
            yield f"  {of_each[label]}"
    if are_equal:
        yield next(iter(of_each.values()))


def state_words(
    election: Election, history: History, state: State, refused: list[Envelope]
) -> Iterator[str]:
    yield say("Lines: {lines} ({valid} valid, {refused} refused)", **state)
    if state["late"]:
        yield say("Late, and not counted: {late}", **state)
    if state["struck"] or state["taken_back"]:
        yield taken_out_words(election, history)
    yield say("Electors with a valid ballot: {voters} of {electors}", **state)
    yield from asked_words(history)
    yield from words_before_close(election, history)
    yield from named(
        "Ballots that nobody can open, and no later ones, by the links of", state["lost"]
    )
    yield from named(say("Electors without a ballot"), state["without_ballot"])
    if refused:
        yield from refused_words(election, history, refused)
    if state["waiting"]:
        yield until_looked_at(state["waiting"], election.command("held"))
    if state["stopping"]:
        stops = say("count and publish stop") if history.is_closed else say("close stops")
        yield f"{say('These arrived in time, and {commands} while they wait', stops)}: {', '.join(map(str, state['stopping']))}"
    for reason in dict.fromkeys(state["not_reached"].values()):
        names = [name for name, why in state["not_reached"].items() if why == reason]
        yield from named(f"Not reached by the call: {reason}", names)
    # who has voted knows of the vote
    silent = [name for name in state["printed"] if name in state["without_ballot"]]
    yield from named(say("Get the call printed"), silent)
    yield say("Last act: {act}, digest {digest}", **state)
    first, *others = what_next(election, history)
    yield f"Next: {in_words(election, first)}"
    yield from (f"Then: {in_words(election, one)}" for one in others)


def refused_words(election: Election, history: History, refused: list[Envelope]) -> Iterator[str]:
    # with codes on the roll the lines would tell codes
    if history.has_codes_on_roll:
        yield f"{say('Refused')}: {envelope_words([envelope.number for envelope in refused])}"
        return
    yield f"{say('Refused lines of electors without a ballot to the question, or of nobody known')} ({len(refused)}):"
    for envelope in Vote(election).with_reasons_of_now(refused):
        yield f"  {envelope_words([envelope.number])}: {shown_line(envelope.line)}"
        word, _, why = str(envelope.why_refused).partition(": ")
        yield f"    {word}: {private(why)}"


def named(what: str, names: list[str] | None) -> Iterator[str]:
    if names:
        yield from (f"{what} ({len(names)}):", wrapped(names))
