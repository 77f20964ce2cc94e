"""The command `tellers`, which says where their page is, and enters the lists that they hand on."""

from collections.abc import Mapping, Sequence
from typing import TYPE_CHECKING

from debvote_tools.book import queries
from debvote_tools.book.book import Detail
from debvote_tools.book.change import Change
from debvote_tools.call.teller_page import installed_page, teller_checksum
from debvote_tools.call.tellers import BY_CLICK, FEWEST, SLIPS_TYPED, kept_lists
from debvote_tools.cli.arguments import Acting, positional
from debvote_tools.cli.console import count_of, tell
from debvote_tools.cli.faults import Fault
from debvote_tools.election import URN, Election, History
from debvote_tools.files import read_whole, sha256_of
from debvote_tools.inbox.urn import write_sealed
from debvote_tools.outbox.steps import tell_next

if TYPE_CHECKING:
    from debvote_tools.call.lists import List

# in bytes: the list of ten thousand ballots is shorter
LIMIT = 33_554_432


class Arguments(Acting):
    checks = True

    lists: list[str] = positional(
        "LIST", "After the close: what tellers have handed on, as list-1.txt", nargs="*"
    )


def tellers(election: Election, arguments: Arguments) -> None:
    """Say where the page of the tellers is; after the close enter the lists that they hand on."""
    election.demand_right_book(arguments)
    history = election.history()
    if not arguments.lists and history.call is None:
        tell(f"{teller_checksum(election.language)}  {installed_page(election.language)}")
        return
    if not (history.tellers and history.is_closed):
        words = "the vote is not closed" if history.tellers else "the vote has no tellers"
        raise Fault(None, words, f"see {election.command('status')}")
    lists = new_lists(election, history, arguments.lists)
    for seen, this in enumerate(lists, start=history.last.number):
        enter(election, this, seen)
    history = election.history()
    write_sealed(election, history)
    if history.are_all_opened:
        last = election.path(URN) / f"list-{len(history.tellers)}.txt"
        tell(f"Print {last}, and let members look for their numbers.")
    tell_next(election)


def new_lists(election: Election, history: History, files: Sequence[str]) -> "list[List]":
    """The lists that continue those entered. Stops at another one in place of one entered, at a
    gap, and at what a teller may not hand on.
    """
    from debvote_tools.call.sealed_ballots import lists

    try:
        known = [lists.read_list(*kept) for kept in kept_lists(election.book, history).items()]
        entered = len(known)
        given = [lists.read_list(file, read_whole(file, LIMIT, "name the list")) for file in files]
        for this in sorted(given, key=lambda one: one.step):
            if this.step < entered:
                demand_same(known[this.step], this, history.tellers)
                continue
            words = f"the next list is list-{len(known)}.txt, and this is of step {this.step}"
            lists.demand(this.step == len(known), this.name, words)
            words = f"it has {count_of(len(this.ballots), 'ballot')}, and of fewer than {FEWEST} each may be known"
            known.append(this)
            lists.demand_lists(known, history.tellers)
            lists.demand(len(this.ballots) >= FEWEST, this.name, words)
    except lists.Bad as fault:
        where, words = fault.args
        cure = "ask for it again; if it stays so, tell all members, and show both"
        raise Fault(where, words, cure) from None
    return known[entered:]


def demand_same(before: "List", this: "List", tellers: Mapping[str, str]) -> None:
    """Stops at another list than the one of its step that was entered: the bytes above the
    signature say so, which each opening makes anew.
    """
    from debvote_tools.call.lists import demand

    # nobody has signed list 0
    name, point = [*tellers.items()][this.step - 1]
    by_one = f", and {name} has signed both" if this.is_signed_by(point) else ""
    words = f"another {before.name} was entered{by_one}"
    demand(this.body == before.body, this.name, words)


def enter(election: Election, this: "List", seen: int) -> None:
    """The act that enters a list, if none came since this one."""
    detail: Detail = {
        "step": this.step,
        "ballots": len(this.ballots),
        "refused": len(this.refused),
        "checksum": sha256_of(this.data),
    }
    sealed = {f"{URN}/list-{this.step}.txt": this.data}
    Change("handed on", detail, sealed=sealed).do(election.book, seen)
    tell(
        f"list-{this.step}.txt: {count_of(len(this.ballots), 'ballot')}, {len(this.refused)} refused; SHA-256 {detail['checksum']}"
    )
    # the ballots of list 0 are the electors', who are to be told
    clicks = queries.counting_clicks(election.book, BY_CLICK)
    electors = {click.block: click.elector for click in clicks}
    for block in this.refused if this.step == 1 else ():
        whose = electors.get(block, f"somebody whose slip is in {SLIPS_TYPED}")
        tell(f"Refused: the ballot of {whose}. Tell them.")
