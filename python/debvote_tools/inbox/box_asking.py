"""Asks the web box before a step that needs an asking of now, by an act of its own.

What is new is kept, and nothing is entered: `add` alone does that.
"""

import datetime
import time
from collections.abc import Callable

from debvote_tools.book import queries
from debvote_tools.cli.console import count_of, private, tell
from debvote_tools.cli.faults import Fault
from debvote_tools.election import Election
from debvote_tools.inbox.last_asking import AFTER_CLOSE, unasked_fault
from debvote_tools.inbox.stopping import pending_letters
from debvote_tools.text import times

SECOND = datetime.timedelta(seconds=1)


def ask_for(election: Election, step: str, say: Callable[..., None] = tell) -> set[int]:
    """Asks the web box if a step needs it, and returns the numbers of the new ballots. Where the
    web host does not answer as it should, the step stops at `unasked_fault`, as if nobody had
    asked.
    """
    if not unasked_fault(election, election.history(), step) or election.book.is_read_only:
        return set()
    # what reads letters takes a while to be imported
    from debvote_tools.inbox.box_records import asked_box, unopened_words
    from debvote_tools.inbox.taking import keep, new_in
    from debvote_tools.inbox.vote import Vote

    vote = Vote(election)
    before = election.book.last_number()
    if step in AFTER_CLOSE and times.now() - vote.history().closes[0].time < SECOND:
        # clocks have whole seconds, and an asking of that of the close would be none
        time.sleep(1)
    try:
        brought = asked_box(vote)
    except Fault as fault:
        say(f"The web box was asked: {fault.file}: {fault.reason}")
        return set()
    keep(vote, *new_in(vote, brought), brought.detail)
    say(*brought.words)
    if brought.has_unopened:
        say(unopened_words(vote, private))
    return {letter.number for letter in queries.kept_letters(election.book, "act > ?", before)}


def ask_before_close(election: Election, step: str) -> None:
    """Asks if a step that closes the vote needs it. Stops at new ballots that came in time."""
    new = ask_for(election, step)
    if new.intersection(pending_letters(election, election.history()).arrived_in_time):
        kept = count_of(len(new), "new ballot is", "new ballots are")
        cure = f"run {election.command('add', '--box')}"
        raise Fault(None, f"the web box was asked, {kept} kept", cure, done="nothing was closed")
