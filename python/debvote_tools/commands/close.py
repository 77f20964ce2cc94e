"""The command `close`, which closes the vote, and fixes what is counted."""

import dataclasses
import datetime
from collections.abc import Iterable, Iterator, Mapping

from debvote_tools.book import queries
from debvote_tools.book.book import Detail, DoneAct
from debvote_tools.book.change import Change, carried_out, terminal_prompt
from debvote_tools.call.secret import seal_line, sealed_checksum
from debvote_tools.call.tellers import VOTED
from debvote_tools.cli.arguments import Acting, demand_reason, flag, has_reason, option
from debvote_tools.cli.console import act_time, count_of, count_of_lines, say, say_time, tell
from debvote_tools.cli.faults import Fault, stop_at
from debvote_tools.election import LETTERS, Election, Fixed, History, fixed_by
from debvote_tools.files import OWN, write_made
from debvote_tools.inbox import urn
from debvote_tools.inbox.box_asking import ask_before_close
from debvote_tools.inbox.stopping import (
    Pending,
    other_votes_words,
    pending_letters,
    taken_out_words,
    what_stops,
)
from debvote_tools.outbox.steps import Step, tell_next, words_of
from debvote_tools.result.file_names import CLOSED
from debvote_tools.result.kept_questions import KeptQuestion, kept_questions
from debvote_tools.result.publication import closing_letter
from debvote_tools.text import times
from debvote_tools.text.language import SPOKEN, marked

# the question before the close
ALL = marked(
    "Is that all? It is if the mailbox was added just now, all paper is entered, and no desk is open."
)


class Arguments(Acting):
    checks = True

    early: bool = flag("Close before the end of the vote; the result page says so")
    force: bool = flag(
        "With --because: close although letters wait that arrived in time, or the web box was not asked since the end; the "
        "result page says so"
    )
    paper: str | None = option(
        "FILE",
        "In a vote with tellers: the slips on paper, on each line the ranks of one, or - if it "
        "is spoilt; as many as are checked off",
    )
    yes: bool = flag("Close without asking whether all ballots are in")


def close(election: Election, arguments: Arguments) -> None:
    """Close the vote; lines that are entered later are late, and do not count."""
    election.demand_right_book(arguments)
    urn.demand_tellers(election.history(), arguments.paper)
    if is_new := not election.history().is_closed:
        ask_first(election, arguments)
        carried_out(election.book, lambda: what_is_closed(election, arguments))
    history = election.history()
    act = history.closes[-1]
    path = election.path(LETTERS) / CLOSED
    written = write_made(path.parent, {CLOSED: closing_letter(election, history)}, OWN)
    fixed = fixed_by(act)
    if is_new:
        tell_closed(act)
        tell(*still_taking_words(election, history))
    else:
        tell(
            say(
                "The vote was closed at {time}, with {lines} in time. Nothing was changed.",
                act_time(act.time),
                lines_in_words(fixed),
            )
        )
    if written:
        tell(say("Made {file}.", path))
    tell(*checksums_in_words(fixed))
    tell(say("Send {file} to all electors before you count anything.", path))
    if history.tellers:
        urn.write_sealed(election, history)
        tell(
            f"Checksum of {VOTED}: {act.detail['voted']}",
            f"Give {election.path(VOTED)} to the tellers and the meeting alone.",
        )
    if history.announced("to"):
        # what writes letters takes a while to be imported
        from debvote_tools.commands.letters import write_ready

        tell(*write_ready(election, "closed"))
    tell_next(election)


def still_taking_words(election: Election, history: History) -> Iterator[str]:
    """A note on the page of the call, which knows nothing of an early close."""
    if history.closes[-1].detail["early"] and history.announced("box"):
        count = election.command("count")
        yield f"Note: the page still takes ballots, and says that they arrived: {count} asks for them once more."


def ask_first(election: Election, arguments: Arguments) -> None:
    """Asks the web box if the close needs it, unless it is forced, or it is too early for it."""
    is_early = election.history().ends_after(times.now())
    if not (is_forced(arguments) or is_early > arguments.early):
        ask_before_close(election, "early" if is_early else "close")


def is_forced(arguments: Arguments) -> bool:
    return arguments.force and has_reason(arguments.because)


def lines_in_words(fixed: Mapping[str, Fixed]) -> str:
    return ", ".join(
        f"{count_of_lines(of_one.lines)}{of_question(label)}" for label, of_one in fixed.items()
    )


def checksums_in_words(fixed: Mapping[str, Fixed]) -> Iterator[str]:
    sealed = f" {say('with the random line')}"
    for label, of_one in fixed.items():
        what = f"{say('Checksum of the ballots')}{of_question(label)}"
        yield f"{what}{of_one.seal and sealed}: {of_one.checksum}"


def of_question(label: str) -> str:
    return label and f" {say('of question {label}', label)}"


def tell_closed(act: DoneAct) -> None:
    detail = act.detail
    if detail["early"]:
        tell(say("Note: the announced end of the vote has not come yet; the result page says so."))
    tell(
        say(
            "Closed: {lines} came in time. Lines that are entered from now on are late, and do not count.",
            lines_in_words(fixed_by(act)),
        )
    )
    for number, when in (
        (detail["waiting"], "arrived in time did not go in; the result page says so."),
        (detail["before_call"], "arrived before the call did not go in."),
    ):
        if number:
            tell(f"{count_of(number, 'letter')} that {when}")
    if number := detail.get("replaced_in_time"):
        tell(f"Late lines that replaced ballots in time: {number}; the result page says so.")


@dataclasses.dataclass(frozen=True, eq=False)
class Closing(Change):
    """The act that closes the vote. What busy desks enter while it is asked whether all is in, is
    closed, too: it is asked once.
    """

    def __eq__(self, other: object) -> bool:
        return isinstance(other, Closing)

    def declined(self, _: bool | None) -> None:
        raise Fault(
            None,
            say("you did not say that this is all"),
            say("enter what is missing, then run the command again"),
        )


def came_last(election: Election, history: History, lines: str) -> str:
    """Which lines there are, when the last ones came, the end and what was taken out: who has put
    back a disk sees what is missing.
    """
    undone = queries.undone_acts(election.book)
    # an asking may bring nothing
    last = {
        act.name == "desk": act_time(act.time)
        for act in history.named("letters", "add", "enter", "desk")
        if act.number not in undone and act.detail.get("letters") != 0
    }
    never = say("never")
    end = say_time(history.until) if history.until else say("not announced")
    return (
        f"{say('Until now {lines} came in time.', lines)} "
        f"{say('Added last')}: {last.get(False, never)}. "
        f"{say('Entered last at a desk')}: {last.get(True, never)}. "
        f"{taken_out_words(election, history)} {say('End of the vote')}: {end}."
    )


def what_is_closed(election: Election, arguments: Arguments) -> Closing:
    """Stops at what stands against it."""
    history = election.history()
    now = times.now()
    if history.is_closed:
        words = "another command closed the vote meanwhile"
        raise Fault(None, words, "run the command again: it says what is closed")
    is_early = history.ends_after(now)
    faults = list[Fault]()
    pending = pending_letters(election, history)
    stopping = what_stops(election, history, "early" if is_early else "close", pending)
    if history.until is not None and is_early and not arguments.early:
        faults = [too_early(election, history.until, now)]
    stop_at([*faults, *faults_now(election, arguments, stopping.values())])
    kept = kept_questions(election, history, election.questions)
    fixed = {label: what_is_fixed(one) for label, one in kept.items()}
    sealed = dict[str, bytes]()
    in_urn: Detail = {}
    if history.tellers:
        sealed, fixed[""], in_urn = urn.filled(election, history, arguments.paper)
    detail = detail_of(election, fixed, pending, is_early=is_early) | in_urn
    if stopping:
        detail["because"] = demand_reason(arguments.because, "--force")
    shown = [*what_came(election, history, fixed, pending), *words_of(election, Step.RECEIPTS)]
    prompt = terminal_prompt(say(ALL), arguments.yes)
    return Closing("close", detail, shown=shown, prompt=prompt, sealed=sealed)


def what_came(
    election: Election, history: History, fixed: Mapping[str, Fixed], pending: Pending
) -> Iterator[str]:
    yield came_last(election, history, lines_in_words(fixed))
    yield from pending.passed_over
    yield from other_votes_words(pending.other_votes)


def faults_now(
    election: Election, arguments: Arguments, stopping: Iterable[Fault]
) -> Iterator[Fault]:
    """What stands against a close, but for the end: with tellers also what nobody can force."""
    if not is_forced(arguments):
        yield from stopping
    if election.history().tellers:
        yield from urn.faults_of_ballots(election)


def too_early(election: Election, until: datetime.datetime, now: datetime.datetime) -> Fault:
    return Fault(
        None,
        say(
            "the vote ends {until}, and by the clock of this computer it is {now}",
            say_time(until),
            times.minute_in_words(now, until.tzinfo, SPOKEN.get()),
        ),
        say(
            "close after that time, or now with {close} (the result page says so)",
            election.command("close", "--early"),
        ),
    )


def detail_of(
    election: Election, fixed: Mapping[str, Fixed], pending: Pending, *, is_early: bool
) -> Detail:
    detail: Detail = {
        "questions": {label: of_one._asdict() for label, of_one in fixed.items()},
        "waiting": len(pending.arrived_in_time),
        "after_end": pending.after_end,
        "before_call": pending.before_call,
        "early": is_early,
    }
    if pending.arrived_in_time:
        detail["left"] = pending.arrived_in_time
    if replaced := queries.late_lines_over_others(election.book):
        detail["replaced_in_time"] = replaced
    return detail


def what_is_fixed(kept: KeptQuestion) -> Fixed:
    """What the close fixes of a question."""
    seal = seal_line() if kept.poll.secret else ""
    return Fixed(kept.lines, sealed_checksum(seal, kept.public), seal)
