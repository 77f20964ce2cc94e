"""The tellers of a secret vote: their keys, what is sealed to them, and the lists that they open.

Nobody can tell whose a ballot is: the page seals the ranks, with a number that the elector alone
knows, to one teller after another, the last one first, and all that with the link to the secretary.
So the book has who has a ballot, and what is in it only once it is one of many:
`Election.questions` are the check-off below, under names, and the poll that everybody sees has a
place for each elector.

A list is the text that a teller is given, and hands on: `list-0.txt` is that of the close, each
other one is signed by the teller who made it. `lists.py` reads and checks them.
"""

import dataclasses
import re
from collections.abc import Collection, Iterable, Mapping, Sequence

from debvote_tools.book import queries
from debvote_tools.book.book import Book
from debvote_tools.cli.faults import Fault, bad_arguments
from debvote_tools.election import TELLERS, URN, Election, History, Sealed
from debvote_tools.files import read_text, sha256_of
from debvote_tools.poll.questions import Questions
from debvote_tools.poll.sealed import SealedPoll, new_own_mark, with_roll
from debvote_tools.text.rendering import resources

# in bytes, of the file that the secretary writes
LIMIT = 4_096
# in signs, of what an elector finds their ballot by
NUMBER_LENGTH = 8
# of fewer electors, and of fewer ballots, each may be known
FEWEST = 5

# how an elector has voted, as the page says it and as it is typed
BY_CLICK = "1,-,-"
ON_PAPER = "-,1,-"
PAPER = "paper"

LIST_0 = f"{URN}/list-0.txt"
VOTED = f"{URN}/voted.txt"
SLIPS_TYPED = "private/paper.txt"


# ---- the tellers
def tellers_in(election: Election) -> dict[str, str]:
    """The public points of the tellers by their names, in the order in which they open; none
    without their file.
    """
    file = election.path(TELLERS)
    if not file.exists():
        return {}
    from debvote_tools.call.sealed_ballots import lists

    write = (
        "write into it what each teller sent you, a line for each, in the order in which they open"
    )
    try:
        return lists.tellers_in(read_text(file, LIMIT, write, write).rstrip("\n") + "\n")
    except ValueError:
        words = (
            "it has to have two or three tellers, each a name and a point, and none of them twice"
        )
        raise bad_arguments(file, words, write) from None


def text_file(lines: Iterable[str]) -> bytes:
    return "".join(f"{line}\n" for line in lines).encode()


def files_beside(tellers: Mapping[str, str]) -> dict[str, bytes]:
    """What lies beside call and result, by which everybody can check the lists."""
    program = resources("debvote_tools.call", "lists.py").encode()
    return {TELLERS: text_file(map(" ".join, tellers.items())), "lists.py": program}


def fingerprint(point: str) -> str:
    """What a teller reads to others of a point, in groups."""
    from debvote_tools.call.lists import bytes_of

    return "-".join(re.findall("....", sha256_of(bytes_of(point))[:16]))


def fingerprints(tellers: Mapping[str, str]) -> str:
    return ", ".join(f"{name} {fingerprint(point)}" for name, point in tellers.items())


def script_line(tellers: Mapping[str, str]) -> str:
    """The script of the page that says to whom it seals."""
    pairs = " ".join(map(" ".join, tellers.items()))
    return f'const TELLERS = "{pairs}";'


def demand_new_points(book: Book, tellers: Mapping[str, str]) -> None:
    """Stops at a point that the call of another book has, by the note of this machine: whoever
    opens two votes with one key opens in one of them what was copied from the other.
    """
    own = book.acts()[0].digest
    noted = book.note().points()
    if names := [name for name, point in tellers.items() if noted.get(point, own) != own]:
        words = f"another vote has the keys of {', '.join(names)}"
        raise bad_arguments(TELLERS, words, "the tellers make new keys")


# ---- the polls
def places_for(count: int) -> tuple[str, ...]:
    """What is on the public roll: numbers of as many digits as that of the electors has, and at
    least two.
    """
    digits = max(2, len(str(count)))
    return tuple(f"{place:0{digits}}" for place in range(1, count + 1))


def for_tellers(questions: Questions) -> Sealed:
    """The poll with a place for each elector in place of the names; and by these who has voted in
    which way, the check-off: what the book counts, and nobody decides by.
    """
    poll = questions[""]
    check_off = dataclasses.replace(
        poll,
        options=("By a click", "On paper"),
        ratios=(1, 1),
        default="Not at all",
        quorum=0,
        wording=None,
        shown_options=(),
        explanations=(),
        motion=False,
    )
    places = with_roll(poll, places_for(len(poll.roll)))
    return Sealed(Questions({"": places}), Questions({"": check_off}))


# ---- ballots
def has_right_block(poll: SealedPoll, tellers: int, line: str, block: str, record: int) -> bool:
    """Whether a record of so many signs has what the tellers alone can open, as the page makes it:
    its length tells nothing.
    """
    from debvote_tools.call.lists import block_length

    options = len(poll.names)
    length = block_length(options, tellers)
    # in bytes, with point and tag of what is sealed to the secretary
    inside = 3 * (42 + options + -(-length // 3))
    is_alike = record == (inside + 81) // 3 * 4
    return is_alike and line.endswith(f" {BY_CLICK}") and len(block) == length


def sealed_slips(
    public: Questions, tellers: Mapping[str, str], slips: Collection[str]
) -> dict[str, str]:
    """The blocks of ballots on paper, by numbers with their ranks, which are drawn here."""
    from debvote_tools.call.sealed_ballots import block_of

    numbers = set[str]()
    while len(numbers) < len(slips):
        numbers.add(new_own_mark()[:NUMBER_LENGTH])
    lines = map(" ".join, zip(numbers, slips))
    options = len(public[""].names)
    points = [*tellers.values()]
    return {line: block_of(line, options, public.mark, points) for line in lines}


def first_list(title: str, mark: str, tellers: Mapping[str, str], blocks: Sequence[str]) -> bytes:
    head = f"debvote urn 1 {mark} 0 {len(blocks)} {'0' * 64}"
    names = (f"teller {name} {point}" for name, point in tellers.items())
    return text_file([head, f"title {title}", *names, *sorted(blocks)])


def voted_file(counted_answers: Mapping[str, str]) -> bytes:
    """Who has voted, and in which way, from the check-off."""
    ways = {BY_CLICK: "click", ON_PAPER: PAPER}
    return text_file(sorted(f"{name} {ways[ranks]}" for name, ranks in counted_answers.items()))


# ---- what the book has of the lists
def kept_lists(book: Book, history: History) -> dict[str, bytes]:
    """The lists since the last close, from the first one on, as far as they were handed on."""
    names = [f"list-{step}.txt" for step in range(len(history.handed_on) + 1)]
    return {name: queries.sealed(book, f"{URN}/{name}") for name in names}


def last_ballots(election: Election, history: History) -> dict[str, list[str]]:
    """Number and ranks of each ballot of the last list, by the places of the public roll."""
    from debvote_tools.call.lists import read_list

    last = read_list(*kept_lists(election.book, history).popitem())
    return dict(zip(election.decided.roll, (line.split(" ") for line in last.ballots)))


def demand_openable(history: History) -> None:
    """Stops once list 1 was entered: a second opening would show what one list has more."""
    if history.handed_on:
        words = "the tellers have opened the ballots, and a second opening would show whose differ"
        raise Fault(None, words, "hold the vote anew, with new keys")
