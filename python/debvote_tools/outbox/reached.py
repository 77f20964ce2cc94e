"""Whom the call has reached, and who gets it printed.

It is the one answer for `status`, for each kind of letters and for what a letter after an extension
says. `status` asks it, so nothing is imported here that judges letters or makes pages.
"""

from typing import NamedTuple

from debvote_tools.book import outgoing, queries
from debvote_tools.book.queries import Elector
from debvote_tools.election import Election, History
from debvote_tools.text.addresses import address_in

NO_LETTER = "no letter"
WAS_REFUSED = "refused"


class Unreached(NamedTuple):
    """An elector, why the call has not reached them, by what came last, what the server said, and
    by which act that is known.
    """

    elector: Elector
    why: str
    reply: str
    act: int


def page_since(history: History) -> int:
    """The act that named the address of the page of now, if the page takes ballots, since a click
    on an older page reaches nobody; else 0. What a letter of the result names is no such page.
    """
    since = 0
    at = None
    for act in history.since_call("call", "extend", "announce", "close"):
        if act.name == "close" or not history.announced("box"):
            break
        if act.detail.get("at", at) != at:
            since = act.number
            at = act.detail["at"]
    return since


def unreached(election: Election, history: History, *, without: int = 0) -> list[Unreached]:
    """The electors whom the call has not reached: to whom no letter of it went out with their own
    mark of now and the page of now, at their address of now or on paper; whose address a server
    refused, and took no letter since; and from whose address a letter came back, unless a ballot of
    theirs came by letter since. `without` is an act whose letters reach nobody yet.
    """
    electors = {elector.number: elector for elector in queries.electors(election.book)}
    call = election.called(history)
    rows = outgoing.unreached(election.book, page_since(history), call.number, without)
    return [Unreached(electors[number], why, reply, act) for number, why, reply, act in rows]


def unreached_and_printed(
    election: Election, history: History
) -> tuple[list[Unreached], list[str]]:
    """The electors with an address whom the call has not reached, and the names of those who get it
    printed; none before `letters call`.
    """
    if not history.runs_of_call:
        return [], []
    electors = queries.electors(election.book)
    printed = [elector.name for elector in electors if not address_in(elector.addresses)]
    by_mail = [row for row in unreached(election, history) if address_in(row.elector.addresses)]
    return by_mail, printed
