"""What stops a step: `close`, and after it `count`, `publish` and the letters of the result.

All of them ask `what_stops`. Letters that arrived in time and wait, whenever they were added, and,
but for the letters of the result, ballots in a box that was not asked may decide the vote.

What judges letters takes a while to be imported, so it is only if some came.
"""

import collections
import dataclasses
from collections.abc import Callable, Iterable, Iterator, Sequence
from typing import TYPE_CHECKING

from debvote_tools.book import queries
from debvote_tools.book.book import Book, DoneAct
from debvote_tools.book.queries import KeptLetter
from debvote_tools.cli.console import in_runs, say
from debvote_tools.cli.faults import Fault
from debvote_tools.election import Election, History
from debvote_tools.inbox.last_asking import CLOSES, unasked_fault, with_lost_records
from debvote_tools.text.language import marked

if TYPE_CHECKING:
    from debvote_tools.inbox.rules import LetterCase

# the kinds of what stops, as the page names the doubts about them
LETTERS = "letters left"
BOX = "box not asked"
LOST = "records lost"
CLOSE_ANYWAY = marked("close anyway with --force --because TEXT (the result page says so)")
# how each later step goes on without the letters that stop it; a publication says it in its doubts
ANYWAY = {
    "count": "or count without them with --force",
    "closed": "or send the checksum without them, with --force --because TEXT",
    "result": "or publish without them, with --force --because TEXT",
}


@dataclasses.dataclass(frozen=True)
class Pending:
    """The letters that are pending: the numbers of those that arrived in time, or at no known time,
    of those of them that stop, and of those that the last close has not told, among which those are
    that stop; and how many others are. Those of other votes are not among them: it has their marks.
    """

    arrived_in_time: Sequence[int] = ()
    stopping: Sequence[int] = ()
    untold: Sequence[int] = ()
    after_end: int = 0
    before_call: int = 0
    other_votes: Sequence[str] = ()
    # in a vote with tellers, in words, the clicks that count for nobody
    passed_over: Sequence[str] = ()

    @property
    def count(self) -> int:
        return len(self.arrived_in_time) + self.after_end + self.before_call

    @property
    def why_they_stop(self) -> str:
        return f"{say('these letters arrived in time, and wait')}: {', '.join(map(str, self.stopping))}"


def what_stops(
    election: Election, history: History, step: str, pending: Pending
) -> dict[str, Fault]:
    """Why a step has to wait, by the kinds of what stops. Steps are `close` or, before the end,
    `early`; `count`, `publish`, and the letters `closed` and `result`. What can be forced each
    command says.
    """
    unasked = unasked_fault(election, history, step)
    faults = {BOX: unasked} if unasked else {}
    # after the first close nobody can vote again
    if step in CLOSES and not history.closes and (lost := with_lost_records(election, history)):
        words = f"ballots came by the links of these electors that nobody can open, and no later ones: {', '.join(lost)}"
        ask = f"ask them to vote again ({election.command('letters', 'reminders')} says it); or "
        is_over = history.until is not None and step != "early"
        faults[LOST] = Fault(None, words, f"{'' if is_over else ask}{CLOSE_ANYWAY}")
    if pending.stopping:
        cure = letters_cure(election, step, is_closed=history.is_closed)
        faults[LETTERS] = Fault(None, pending.why_they_stop, cure)
    return faults


def letters_cure(election: Election, step: str, *, is_closed: bool) -> str:
    """What is done with letters that stop a step."""
    if not is_closed:
        return say(
            "add the mailbox once more, then look at them with {held}; or {close}",
            election.command("held"),
            say(CLOSE_ANYWAY),
        )
    aside = f"set aside what is no ballot: {election.command('held', 'NUMBER', '--set-aside')}"
    reopen = election.command("reopen", "--because", "TEXT")
    enter = (
        f"if one is a ballot, run {reopen}, then {election.command('held', 'NUMBER', '--enter')}"
    )
    return "; ".join(filter(None, (aside, enter, ANYWAY.get(step))))


def pending_letters(election: Election, history: History) -> Pending:
    return pending_of(history, cases_of(election, history, queries.may_wait))


def cases_of(
    election: Election, history: History, chosen: Callable[[Book], list[KeptLetter]]
) -> list["LetterCase"]:
    """The letters that a query chooses, as they are judged now."""
    # where letters have to be signed, what was signed says which are copies, which the book may not
    # have known when they came
    is_signed = history.announced("signed")
    book = election.book
    if not (kept_letters := queries.kept_letters(book) if is_signed else chosen(book)):
        return []
    from debvote_tools.inbox.judging import judged
    from debvote_tools.inbox.vote import Vote

    return judged(Vote(election), history, kept_letters)


def pending_of(history: History, letters: Sequence["LetterCase"]) -> Pending:
    if not letters:
        return Pending()
    from debvote_tools.inbox.reasons import for_secretary
    from debvote_tools.inbox.rules import Ruling

    pending = [letter for letter in letters if letter.is_pending]
    arrived_in_time = sorted(letter.number for letter in pending if letter.arrived_in_time)
    # what a close or a publication left so stops nothing again
    left = left_by(history.since_call("close", "publish"))
    told = left_by(history.closes[-1:])
    after_end = sum(letter.arrived_after_end for letter in pending)
    return Pending(
        arrived_in_time,
        [number for number in arrived_in_time if number not in left],
        [number for number in arrived_in_time if number not in told],
        after_end,
        len(pending) - len(arrived_in_time) - after_end,
        [case.other_vote for case in letters if case.ruling is Ruling.OTHER_VOTE],
        [
            f"Letter {case.number} is passed over: {for_secretary(case.reason)}."
            for case in letters
            if case.ruling is Ruling.PASSED_OVER and case.reason
        ],
    )


def left_by(acts: Iterable[DoneAct]) -> set[int]:
    return {number for act in acts for number in act.detail.get("left", [])}


def taken_out_words(election: Election, history: History) -> str:
    """How many lines count no more that were told as entered, by whatever command they went."""
    lost = [envelope.number for envelope in queries.lost(election.book)]
    numbers = in_runs(lost) if lost and not election.questions.is_secret else ""
    which = numbers and f" ({say('envelopes {numbers}', numbers)})"
    strikes = len(history.since_call("strike"))
    return f"{say('Strikes')}: {strikes}. {say('Taken back, and not entered again as they were')}: {len(lost)}{which}."


def other_votes_words(marks: Iterable[str]) -> Iterator[str]:
    """How many letters are of which other votes."""
    counts = collections.Counter(marks).items()
    if listed := ", ".join(f"{count} with [{mark}]" for mark, count in counts):
        yield f"Letters of other votes, which are passed over here: {listed}."
