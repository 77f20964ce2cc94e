"""The command `codes`, and the folder of slips."""

from collections.abc import Iterator, Sequence

from debvote_tools.book import queries
from debvote_tools.book.book import Detail
from debvote_tools.book.change import Change
from debvote_tools.book.queries import Elector
from debvote_tools.call.call import current_call
from debvote_tools.call.secret import alias_of, codes_csv, codes_for_roll, new_code, slips
from debvote_tools.cli.arguments import Acting, flag
from debvote_tools.cli.console import count_of, tell
from debvote_tools.cli.faults import Fault
from debvote_tools.commands.check import checked, demand_read
from debvote_tools.election import POLLS, PRIVATE, TELLERS, Election, Sealed
from debvote_tools.files import OWN, write_made
from debvote_tools.outbox.steps import Step, tell_next
from debvote_tools.poll.questions import POLL_FILE, Questions

SLIPS = "slips.html"
CODES = "codes.csv"
NOT_SECRET = "the vote is not secret, so it needs no codes"
WITH_NAMES = "electors have names with codes already"


class Arguments(Acting):
    on_roll: bool = flag(
        "Put codes on the roll in place of names, so that nobody knows who has which code"
    )


def codes(election: Election, arguments: Arguments) -> None:
    """Make a secret code for each elector of a secret vote, before the call."""
    election.demand_right_book(arguments)
    if election.history().tellers or election.path(TELLERS).exists():
        words = f"with {TELLERS} electors have numbers that nobody else knows, and no codes"
        raise Fault(None, words, f"run {election.command('call')}")
    if election.history().call is None:
        questions, number = make_codes(election, arguments)
        sealed = Sealed(questions, questions)
        tell(f"Made {count_of(number, 'code')}.")
    else:
        sealed = election.sealed()
        if not sealed.counted.is_secret:
            raise Fault(None, NOT_SECRET, f"see {election.command('status')}")
        if arguments.on_roll and not election.history().has_codes_on_roll:
            raise Fault("--on-roll", WITH_NAMES, "begin anew in another folder")
    history = election.history()
    private = election.path(PRIVATE)
    write_slips(election, sealed)
    when = ""
    if history.call is None:
        when = " after the call, which adds the end of the vote and the address for ballots"
    tell(f"The slips: {private / SLIPS}. Print them{when}.")
    if history.has_codes_on_roll:
        tell(
            "Nobody may keep a list of who gets which code. Destroy the slips that are left over, and their file."
        )
    else:
        tell(f"The table of codes: {private / CODES}. Let nobody else see it.")
    # `codes` has checked the poll
    tell_next(election, Step.CHECK)


def make_codes(election: Election, arguments: Arguments) -> tuple[Questions, int]:
    """The act that makes a code for each elector who has none, beside the name or in its place:
    then nothing ties it to a person. Returns the questions as they would be sealed, and how many
    codes were made.
    """
    history = election.history()
    demand_read(election, history)
    questions = checked(election).questions
    electors = queries.electors(election.book)
    without_code = [elector for elector in electors if not elector.code]
    if not questions.is_secret:
        place, into = (POLLS, "each poll") if questions.is_several else (POLL_FILE, "it")
        cure = f"for a secret vote write into {into}: secret = true"
        raise Fault(election.path(place), NOT_SECRET, cure)
    if arguments.on_roll:
        demand_nameless(questions, has_codes=len(without_code) < len(electors))
    if history.has_codes_on_roll or not without_code:
        return questions, 0
    detail: Detail = {"codes": len(without_code)}
    if arguments.on_roll:
        detail["on_roll"] = True
        changed = [*in_place_of(electors)]
    else:
        changed = list(map(with_code, without_code))
    Change("codes", detail, electors=changed).do(election.book, history.last.number)
    return questions, len(without_code)


def demand_nameless(questions: Questions, *, has_codes: bool) -> None:
    """Stops at codes on the roll that would tell whose they are."""
    if questions.is_several:
        raise Fault(
            "--on-roll",
            "with several questions the row of all votes under one code would be a mark",
            "leave it out, or hold an election for each question",
        )
    if has_codes:
        raise Fault("--on-roll", WITH_NAMES, "begin anew in another folder")


def with_code(elector: Elector) -> Elector:
    code = new_code(elector.name)
    return elector._replace(code=code, alias=alias_of(code, elector.name))


def in_place_of(electors: Sequence[Elector]) -> Iterator[Elector]:
    """These electors, off the roll, and the codes that are on it in their place."""
    for elector in electors:
        yield elector._replace(position=None)
    for position, code in enumerate(codes_for_roll(len(electors)), start=1):
        yield queries.new_elector(code)._replace(position=position)


def write_slips(election: Election, sealed: Sealed) -> None:
    """Makes the folder `private`, with what the call says if there is one."""
    electors = queries.electors(election.book)
    call = current_call(election, sealed=sealed)
    files = {SLIPS: slips(call, electors)}
    if not call.has_codes_on_roll:
        files[CODES] = codes_csv(call, electors)
    # a table of codes that are void may be there
    write_made(election.path(PRIVATE), files, OWN, (SLIPS, CODES))
