"""What the close of a vote with tellers puts into the urn: clicks and slips, sealed alike."""

from collections.abc import Iterator, Sequence

from debvote_tools.book import queries
from debvote_tools.book.book import Detail
from debvote_tools.call.tellers import (
    BY_CLICK,
    FEWEST,
    LIST_0,
    ON_PAPER,
    SLIPS_TYPED,
    VOTED,
    first_list,
    kept_lists,
    sealed_slips,
    text_file,
    voted_file,
)
from debvote_tools.cli.console import count_of
from debvote_tools.cli.faults import Fault, bad_arguments
from debvote_tools.election import PRIVATE, URN, Election, Fixed, History
from debvote_tools.files import OWN, read_whole, sha256_of, write_made
from debvote_tools.inbox.lines import lines_in, names_of
from debvote_tools.text.ballots import ballot_file, in_normal_form

# in bytes, of the slips that were typed
LIMIT = 1_048_576
SPOILT = "-"

FEW_CURE = (
    "return the slips unread, strike their lines, extend the vote (call --until, upload, add --box), and let them click; "
    "if they will not, the vote ends without a result"
)


def demand_tellers(history: History, paper: str | None) -> None:
    """Stops at slips of a vote in which nobody mixes them with clicks."""
    if paper is not None and not history.tellers:
        words = "the vote has no tellers, who would mix slips with clicks"
        raise Fault("--paper", words, "enter what is on paper by name, at a desk")


# ---- what stands against it
def faults_of_ballots(election: Election) -> Iterator[Fault]:
    """Clicks of which nobody may count, or so few that each would be known; no --force passes
    these.
    """
    clicks = queries.counting_clicks(election.book, BY_CLICK)
    first: dict[str, queries.Click] = {}
    for click in clicks:
        # of two who have sent the same sealed ballot the later one copied it
        if (other := first.setdefault(click.block, click)) is not click:
            words = f"{other.elector} and {click.elector} have sent the same sealed ballot, {click.elector} later"
            strike = election.command("strike", str(click.envelope), "--because", "TEXT")
            yield Fault(None, words, f"run {strike}, and ask {click.elector} to vote again")
    # other places pass such a click over; here its elector would vote twice
    on_paper = queries.electors_with(election.book, ON_PAPER)
    if twice := [click for click in clicks if click.elector in on_paper]:
        words = f"these have a click beside a slip: {', '.join(click.elector for click in twice)}"
        numbers = ", ".join(str(click.envelope) for click in twice)
        yield Fault(None, words, f"strike envelopes {numbers}")
    if len(clicks) < FEWEST:
        words = f"there are {count_of(len(clicks), 'click')}, and of fewer than {FEWEST} each may be known"
        yield Fault(None, words, FEW_CURE)


def words_before_close(election: Election, history: History) -> Iterator[str]:
    """What is said while one can vote of clicks that do not count, and of so few, or so few on
    paper, that each would be known.
    """
    if history.is_closed or not history.tellers:
        return
    yield from (f"Before the close: {fault.reason}" for fault in faults_of_ballots(election))
    number = len(queries.electors_with(election.book, ON_PAPER))
    if 0 < number < FEWEST:
        yield f"Before the close: {count_of(number, 'elector')} voted on paper, and of fewer than {FEWEST} slips each may be known"


# ---- slips
def slips_in(election: Election, file: str | None) -> list[str]:
    """The ranks of each slip in normal form, or that it is spoilt. Stops at the lines that are
    neither.
    """
    if file is None:
        return []
    public = election.decided
    poll = public[""]
    data = read_whole(file, LIMIT, "write the ranks of each slip on a line", may_wait=True)
    with_ranks = names_of(public, (), election.language).with_ranks
    texts = [line.text.strip() for line in lines_in(data, file, public.longest_line)]
    ranked = "".join(f"{with_ranks(f'{poll.roll[0]} {text}')}\n" for text in texts)
    typed = lines_in(ranked.encode("utf-8", "replace"), file, public.longest_line)
    lines = [line.repaired for line in typed]
    findings = election.debvote.findings(poll.as_bytes(), ballot_file(lines))
    refused = sorted(finding.line for finding in findings.refused)
    if wrong := [str(number) for number in refused if texts[number - 1] != SPOILT]:
        words = f"these lines are not the ranks of a slip: {', '.join(wrong)}"
        cure = f"write {len(poll.names)} ranks, as 2,1,-, or - if it is spoilt"
        raise bad_arguments(file, words, cure)
    return [in_normal_form(line.decode().partition(" ")[2]) for line in lines]


def demand_slips(slips: Sequence[str], checked_off: int) -> None:
    """Stops unless there is a slip for each who is checked off as voting on paper, and none of
    them, or so many that none is known.
    """
    if len(slips) != checked_off:
        words = (
            f"{count_of(checked_off, 'elector is', 'electors are')} checked off as voting on "
            f"paper, and there are {count_of(len(slips), 'slip')}"
        )
        cure = "give a file with a line for each slip, --paper FILE, and count both again"
        raise Fault("--paper", words, cure)
    unspoilt = len(slips) - slips.count(SPOILT)
    if 0 < unspoilt < FEWEST:
        words = (
            f"there are {count_of(unspoilt, 'slip')}, and of fewer than {FEWEST} each may be known"
        )
        raise Fault("--paper", words, FEW_CURE)


# ---- the urn
def filled(
    election: Election, history: History, paper: str | None
) -> tuple[dict[str, bytes], Fixed, Detail]:
    """What the close seals, the first list, who has voted, and the numbers of slips; what it fixes;
    and what its act says of it, how many ballots came in each way.
    """
    public = election.decided
    tellers = history.tellers
    clicks = queries.counting_clicks(election.book, BY_CLICK)
    counted_answers = queries.what_counts(election.book)
    slips = slips_in(election, paper)
    demand_slips(slips, len(counted_answers) - len(clicks))
    unspoilt = [ranks for ranks in slips if ranks != SPOILT]
    sealed = sealed_slips(public, tellers, unspoilt)
    blocks = [*(click.block for click in clicks), *sealed.values()]
    in_list = first_list(public.name, public.mark, tellers, blocks)
    voted = voted_file(counted_answers)
    # by ranks, so that slips can be numbered for a recount
    typed = text_file(sorted(sealed, key=lambda line: line.split(" ")[::-1]))
    detail: Detail = {
        "clicks": len(clicks),
        "slips": len(sealed),
        "spoilt": len(slips) - len(sealed),
        "voted": sha256_of(voted),
    }
    fixed = Fixed(len(blocks), sha256_of(in_list))
    return {LIST_0: in_list, VOTED: voted, SLIPS_TYPED: typed}, fixed, detail


def write_sealed(election: Election, history: History) -> None:
    """Writes the lists until now, and what the close has sealed beside the first one."""
    book = election.book
    files = kept_lists(book, history) | {"voted.txt": queries.sealed(book, VOTED)}
    write_made(election.path(URN), files, OWN)
    typed = queries.sealed(book, SLIPS_TYPED)
    write_made(election.path(PRIVATE), {"paper.txt": typed}, OWN)
