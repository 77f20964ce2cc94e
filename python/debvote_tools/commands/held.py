"""The command `held`, which shows the letters that wait, and decides what becomes of them."""

import collections
import contextlib
import functools
import itertools
from collections.abc import Callable, Iterator, Sequence, Set
from typing import NamedTuple

from debvote_tools.book import queries
from debvote_tools.book.book import ActName
from debvote_tools.book.change import Change, carried_out, terminal_prompt
from debvote_tools.book.queries import EnteredBallot, TimedBallot
from debvote_tools.call.call import current_call
from debvote_tools.cli.arguments import Acting, flag, given, option, positional
from debvote_tools.cli.console import (
    asked_for,
    count_of,
    is_all_seen,
    is_terminal,
    private,
    say,
    shown_line,
    tell,
    wait_words,
)
from debvote_tools.cli.faults import Fault, bad_arguments, kept_in, stop_at
from debvote_tools.election import Election, History
from debvote_tools.grouping import grouped
from debvote_tools.inbox import letter_words
from debvote_tools.inbox.judging import (
    BallotsByElector,
    ElectorBallots,
    ballot_in,
    ballots_in,
    judged,
)
from debvote_tools.inbox.letter_lines import BallotLine
from debvote_tools.inbox.letter_words import name_of, quoted_words, who_and_when, why
from debvote_tools.inbox.lines import Line, lines_in
from debvote_tools.outbox.steps import Step, next_line, what_next
from debvote_tools.inbox.reasons import for_secretary
from debvote_tools.inbox.rules import LetterCase, Ruling, why_other_mark
from debvote_tools.inbox.stopping import other_votes_words
from debvote_tools.inbox.taking import LetterEntry, enter_words, envelope_of
from debvote_tools.inbox.vote import Vote
from debvote_tools.inbox.vote_words import ballot_in_words, right_words
from debvote_tools.outbox.words import Composer
from debvote_tools.text.ballots import Ballot
from debvote_tools.text.language import ENGLISH, marked

# what --force is for
NOT_TIED, VOTED_SINCE = ("not-tied", "voted-since")
FORCE = marked("if this ballot must count, repeat it with --force {why}")

# in characters: a shorter line within a letter of ours may be written by its sender
SHORTEST_OF_OURS = 20


def number(text: str) -> range:
    """A number, or all from one to another, as `12-4000`."""
    first, _, last = text.partition("-")
    return range(int(first), int(last or first) + 1)


class Arguments(Acting):
    numbers: list[range] = positional(
        "NUMBER",
        "The numbers of letters; with --set-aside also as 12-4000, of which those of one reason are meant",
        type=number,
        nargs="*",
    )
    enter: bool = flag("Enter the one ballot of each letter")
    typed: list[str] | None = option(
        "LINE",
        "Enter this line as a ballot of the letter, with the letter's time; once for each of its electors",
        name="--as",
        action="append",
    )
    set_aside: bool = flag("Set the letters aside: they are dealt with, and wait no longer")
    wait: bool = flag("Have the letters wait again")
    force: list[str] | None = option(
        "WHY",
        "Enter the ballot of one letter: not-tied if nothing ties it to its elector, or it has "
        "the mark of another vote or call; voted-since if "
        "the elector has or may have voted since",
        action="append",
        choices=(NOT_TIED, VOTED_SINCE),
    )
    yes: bool = flag("Enter the ballots of letters that say nothing else, without asking")


def held(election: Election, arguments: Arguments) -> None:
    """List the letters that wait; show one, enter its ballot, or set letters aside."""
    is_act = demand_words(arguments)
    if is_act:
        election.demand_right_book(arguments)
    # stops before the call
    vote = Vote(election)
    if arguments.set_aside or arguments.wait:
        carried_out(vote.book, lambda: what_is_decided(vote, arguments))
    elif arguments.enter or arguments.typed:
        with asked_for(is_all_seen()):
            enter(vote, arguments)
    letters = all_letters(vote)
    pending = [letter for letter in letters if letter.is_pending]
    named = chosen_letters(letters, arguments.numbers)
    for letter in named:
        tell(
            *(
                left_words(vote, letter)
                if is_act
                else letter_words.whole(letter, ours(vote, letter))
            )
        )
    if not named:
        tell(*letter_words.table(pending))
        tell(*aside_words(letters))
    others = (letter for letter in letters if letter.ruling is Ruling.OTHER_VOTE)
    tell(*other_votes_words(letter.other_vote for letter in others))
    tell(*next_words(election, pending, () if is_act else named))


def aside_words(letters: Sequence[LetterCase]) -> Iterator[str]:
    aside = (letter for letter in letters if letter.ruling is Ruling.SET_ASIDE)
    if numbers := ", ".join(str(letter.number) for letter in aside):
        yield f"Set aside: {numbers}"


def next_words(
    election: Election, pending: Sequence[LetterCase], shown: Sequence[LetterCase]
) -> Iterator[str]:
    """How many letters wait, and what is done with the first, which may be shown already."""
    due = what_next(election, election.history())
    if not pending:
        yield say("No letter waits.")
        yield next_line(election, due)
        return
    waiting = [letter for letter in shown if letter.is_pending]
    command = election.command("held", str((waiting or pending)[0].number))
    words = (
        f"{command} {'with' if waiting else 'shows one;'} --enter enters its ballot, --as LINE "
        "the ballot that you type, --set-aside sets it aside"
    )
    yield f"{wait_words(len(pending))}."
    # what has come too late may wait
    is_next = due[0].step is Step.HELD
    yield from [f"Next: {words}"] if is_next else [f"{words}.", next_line(election, due)]


def demand_words(arguments: Arguments) -> bool:
    """Whether the options ask for an act. Stops if they do not go together."""
    chosen = given(arguments, "enter", "typed", "set_aside", "wait")
    if len(chosen) > 1:
        raise bad_arguments(
            "held",
            "it does one thing at a time",
            "give only one of --enter, --as, --set-aside and --wait",
            None,
        )
    if arguments.typed is not None and len(arguments.numbers) != 1:
        raise bad_arguments("--as", "a line is of one letter", "name one number before --as")
    if chosen and not arguments.numbers:
        raise bad_arguments("held", "no letter is named", "name its number")
    if not arguments.set_aside and any(len(row) != 1 for row in arguments.numbers):
        raise bad_arguments("held", "only --set-aside takes several in a row", "name each number")
    return bool(chosen)


def left_words(vote: Vote, letter: LetterCase) -> Iterator[str]:
    """Which electors have no ballot of a letter that was entered, if it may have those of
    several.
    """
    electors = {*letter.sharing, *(line.ballot.elector for line in letter.proposals)}
    entered = {elector for elector, _ in letter.entered_answers}
    if len(electors) > 1 and letter.ruling is Ruling.ENTERED:
        for elector in sorted(electors - entered):
            command = vote.election.command("held", str(letter.number), "--as")
            yield (
                f"{elector} has no ballot of {name_of(letter)}; {command} "
                f"LINE{'' if letter.is_tied(elector) else f' --force {NOT_TIED}'} enters one"
            )


def all_letters(vote: Vote) -> list[LetterCase]:
    return judged(vote, vote.election.history(), queries.kept_letters(vote.book))


def chosen_letters(letters: Sequence[LetterCase], numbers: Sequence[range]) -> list[LetterCase]:
    """The letters that are named by a number of their own."""
    by_number = {letter.number: letter for letter in letters}
    named = [row.start for row in numbers if len(row) == 1]
    if unknown := [str(number) for number in named if number not in by_number]:
        place = f"letter {', '.join(unknown)}"
        raise bad_arguments(place, "there is no such letter", "held lists the letters that wait")
    return [by_number[number] for number in dict.fromkeys(named)]


def of_rows(letters: Sequence[LetterCase], numbers: Sequence[range]) -> list[list[LetterCase]]:
    """The letters that wait among several in a row, by their reasons, in the order of the first of
    each.
    """
    rows = [row for row in numbers if len(row) != 1]
    by_reason = grouped(
        (letter.reason and letter.reason.reason, letter)
        for letter in letters
        if letter.is_pending and any(letter.number in row for row in rows)
    )
    return [*by_reason.values()]


def what_is_decided(vote: Vote, arguments: Arguments) -> Change:
    """The act that sets letters aside, or has them wait again."""
    letters = all_letters(vote)
    chosen = chosen_letters(letters, arguments.numbers)
    shown = list[str]()
    if of_reasons := of_rows(letters, arguments.numbers):
        chosen += of_reasons[0]
        shown = [
            f"{count_of(len(of_reasons[0]), 'letter')} of one reason; of these numbers {sum(map(len, of_reasons[1:]))} wait on."
        ]
    if not chosen:
        raise Fault("held", "none of these waits", "held lists the letters that wait")
    if entered := [letter for letter in chosen if letter.ruling is Ruling.ENTERED]:
        raise Fault(
            name_of(entered[0]),
            "its ballot was entered",
            "strike takes out one envelope, undo takes back the last act",
        )
    state: ActName = queries.SET_ASIDE if arguments.set_aside else queries.PUT_BACK
    numbers = [letter.number for letter in chosen]
    return Change(
        state,
        {"letters": numbers},
        shown=shown,
        letters=dict.fromkeys(numbers, state),
    )


# ---- entering
# what is asked first of a letter that says more
MORE = marked("There is more in it than a ballot.")


class Chosen(NamedTuple):
    """Ballots of a letter that are entered. The number of a line is 0 if it was typed."""

    letter: LetterCase
    lines: Sequence[BallotLine]

    @property
    def again(self) -> list[EnteredBallot]:
        """The ballots by which answers of these were entered already."""
        entered = self.letter.entered_answers
        parts = (part for line in self.lines for part in line.ballot.parts)
        return [*dict.fromkeys(entered[part] for part in parts if part in entered)]


def enter(vote: Vote, arguments: Arguments) -> None:
    """Enters ballots of letters by one act; where a person is asked by one for each, unless none of
    them says anything else.
    """
    letters = all_letters(vote)
    named = chosen_letters(letters, arguments.numbers)
    if arguments.force and len(named) > 1 and not vote.has_codes:
        raise bad_arguments("--force", "it is for one letter", "name one number")
    typed = typed_ballots(vote, arguments.typed or (), named[0].marked_elector)
    is_asked = is_terminal() and not arguments.yes
    is_each = is_asked and not all(letter.is_nothing_else for letter in named)
    faults = list[Fault]()
    for rows in [[row] for row in arguments.numbers] if is_each else [arguments.numbers]:
        with kept_in(faults):
            plan = functools.partial(what_is_entered, vote, rows, arguments, typed)
            carried_out(vote.book, plan)
    stop_at(faults)


def what_is_entered(
    vote: Vote, numbers: Sequence[range], arguments: Arguments, typed: Sequence[BallotLine]
) -> LetterEntry:
    """The act that enters ballots of letters. Stops at all that stands against it."""
    history = vote.election.history()
    letters = all_letters(vote)
    named = chosen_letters(letters, numbers)
    forced = frozenset(arguments.force or ())
    faults = list[Fault]()
    chosen = chosen_ballots(named, typed, faults)
    beside = ballots_in(vote, {line.ballot.elector for one in chosen for line in one.lines})
    faults += why_not_now(vote, history, chosen)
    # of what was entered nothing more is said: no --force enters it again
    not_entered = [one for one in chosen if not one.again]
    faults += why_not_unforced(not_entered, forced)
    faults += why_typed_again(vote, not_entered, letters)
    faults += why_not_beside(vote, not_entered, beside, forced)
    if not typed and (arguments.yes or not is_terminal()):
        faults += why_not_unseen(not_entered)
    stop_at(faults)
    return entry_of(vote, history, chosen, is_agreed=arguments.yes)


def chosen_ballots(
    letters: Sequence[LetterCase], typed: Sequence[BallotLine], faults: list[Fault]
) -> list[Chosen]:
    """What is entered of letters, in the order of their times."""
    chosen = list[Chosen]()
    for letter in sorted(letters, key=lambda one: (one.time is None, one.time or one.number)):
        with kept_in(faults):
            lines = typed or the_ballots(letter)
            demand_one_answer(letter, lines)
            chosen.append(Chosen(letter, lines))
    return chosen


def entry_of(
    vote: Vote, history: History, chosen: Sequence[Chosen], *, is_agreed: bool
) -> LetterEntry:
    """The act that enters these ballots, each shown below its letter."""
    is_late, *others = {would_be_late(history, one.letter) for one in chosen}
    if others:
        raise Fault(
            "--enter",
            "some of these letters arrived before the first close, and some after it",
            "enter those that arrived before it apart",
        )
    numbers = [one.letter.number for one in chosen]
    ballots = [(one.letter, line) for one in chosen for line in one.lines]
    more = "" if all(one.letter.is_bare_ballot for one in chosen) else f"{say(MORE)} "
    return LetterEntry(
        "enter",
        {"letters": numbers, "lines": [line.number for _, line in ballots if line.number]},
        shown=[row for one in chosen for row in shown(vote, one)],
        prompt=terminal_prompt(f"{more}{enter_words(len(ballots))}", is_agreed),
        letters=dict.fromkeys(numbers, queries.ENTERED),
        vote=vote,
        envelopes=[envelope_of(letter, line.ballot) for letter, line in ballots],
        is_late=is_late,
    )


def shown(vote: Vote, one: Chosen) -> Iterator[str]:
    """Ballots of a letter, below all that it says, if that is more."""
    letter = one.letter
    is_whole = not letter.is_nothing_else
    if is_whole:
        yield from letter_words.whole(letter, ours(vote, letter))
    for line in one.lines:
        said = f"{ballot_in_words(vote, line.ballot)}{quoted_words(letter, line)}"
        elector = line.ballot.elector
        yield said if is_whole else f"{who_and_when(letter)}: {said}\n  {why(letter, elector)}"


def ours(vote: Vote, letter: LetterCase) -> Callable[[str], bool]:
    """Whether a line of a letter is one of our letters to who sent it, which are made anew."""
    electors = letter.circumstances.electors
    names = [letter.marked_elector, *letter.sharing, *letter.electors]
    elector = next((electors[name] for name in names if name in electors), None)
    composer = Composer(current_call(vote.election), is_over=False)
    texts = (
        [composer.call_letter(elector, is_extension=False), composer.reminder(elector, ())]
        if elector
        else []
    )
    lines = {" ".join(line.split()) for text in texts for line in text.text.splitlines()}
    whole = " ".join(word for text in texts for word in text.text.split())

    def is_ours(line: str) -> bool:
        bare = " ".join(line.strip("> ").split())
        return bare in lines or (len(bare) >= SHORTEST_OF_OURS and bare in whole)

    return is_ours


def would_be_late(history: History, letter: LetterCase) -> bool:
    """Whether what is entered of a letter now is late: the vote is closed; or it is open again, and
    the letter is known to have arrived after the first close.
    """
    return history.is_late(not letter.arrived_after_close)


# ---- which lines
def typed_ballots(vote: Vote, texts: Sequence[str], sender: str) -> list[BallotLine]:
    """The ballots that were typed; what has no name is of whose own mark the letter has. debvote is
    asked about all of them together.
    """
    lines = [line for text in texts for line in lines_of(vote, text) if not line.is_empty]
    vote.checked_lines(lines)
    return [BallotLine(0, typed_ballot(vote, text, sender)) for text in texts]


def typed_ballot(vote: Vote, text: str, sender: str) -> Ballot:
    try:
        return ballot_in_typed(vote, text)
    except Fault:
        with contextlib.suppress(Fault):
            if sender:
                return ballot_in_typed(vote, f"{sender} {vote.names.loose(text)}")
        raise


def lines_of(vote: Vote, text: str) -> list[Line]:
    return lines_in(text.encode("utf-8", "surrogateescape"), "--as", vote.questions.longest_line)


def ballot_in_typed(vote: Vote, text: str) -> Ballot:
    """The ballot in what was typed."""
    lines = lines_of(vote, text)
    said = "it is not one line"
    if len(lines) == 1 and not lines[0].is_empty:
        # of several answers the last line is one that is refused
        *_, line = vote.checked_lines(lines)
        if (finding := line.lasting) is None:
            return line.ballot
        said = private(line.why_unclear or finding.answer)
    raise Fault(
        "--as",
        f"`{shown_line(text.encode('utf-8', 'backslashreplace'))}` is no ballot of this poll: {said}",
        right_words(vote),
    )


def the_ballots(letter: LetterCase) -> Sequence[BallotLine]:
    if lines := letter.to_enter:
        return lines
    more = ", and other lines that look like answers" if letter.has_more_answers else ""
    raise Fault(
        name_of(letter),
        f"it has {count_of(len(letter.proposals), 'ballot')}{more}",
        "type the ballot that is meant with --as LINE",
    )


def demand_one_answer(letter: LetterCase, lines: Sequence[BallotLine]) -> None:
    """Stops if several of these lines answer one question for one elector."""
    parts = itertools.chain.from_iterable(line.ballot.parts for line in lines)
    [((elector, _), count)] = collections.Counter(parts).most_common(1)
    if count > 1:
        raise Fault(
            name_of(letter),
            f"{count} of these lines are ballots of {elector}",
            "name the one that counts",
        )


# ---- what stands against it
def why_not_now(vote: Vote, history: History, chosen: Sequence[Chosen]) -> Iterator[Fault]:
    """What can't be forced."""
    for one in chosen:
        letter = one.letter
        name = name_of(letter)
        if again := one.again:
            words = f"its ballot of {ENGLISH.joined(dict.fromkeys(one.ballot.elector for one in again))} was entered"
            # who reads that there is nothing to do takes it for one that counts
            if any(one.is_late for one in again):
                words = f"{words}, and is late"
            yield Fault(name, words, what_then(vote, letter, one.lines, again))
        elif letter.ruling is Ruling.PASSED_OVER and letter.reason:
            yield Fault(name, for_secretary(letter.reason), "leave it out")
        elif vote.has_tellers and not letter.read.block and any(line.number for line in one.lines):
            cure = f"of who voted on paper type NAME paper: {vote.election.command('held', str(letter.number), '--as')} LINE"
            yield Fault(name, "the page alone seals ballots, and this is none", cure)
        elif letter.ruling is Ruling.COPY:
            yield Fault(
                name,
                "it is a copy of another letter",
                "to enter its ballot once more, have the letter wait first with --wait",
            )
        elif history.is_closed and letter.arrived_in_time:
            yield Fault(
                name,
                "it arrived in time, and the vote is closed",
                f"if it has a ballot, run {vote.election.command('reopen', '--because', 'TEXT')} first",
            )


def what_then(
    vote: Vote, letter: LetterCase, lines: Sequence[BallotLine], again: Sequence[EnteredBallot]
) -> str:
    """What is done in place of entering what was entered already."""
    by_elector = grouped((old.ballot.elector, old) for old in again)
    if not all(line.ballot.elector in by_elector for line in lines):
        return "leave it out"
    pairs = ((line.ballot, old) for line in lines for old in by_elector[line.ballot.elector])
    if other := next((old for ballot, old in pairs if ballot.differs(old.ballot)), None):
        # then no strike is taken, either
        if letter.circumstances.is_closed:
            return f"the vote is closed, and its ballots stay; if this one is wrong, see {vote.election.command('reopen')}"
        strike = vote.election.command("strike", str(other.number), "--because", "TEXT")
        return f"to enter another one in its place, run {strike} first"
    return "there is nothing to do"


def why_not_unforced(chosen: Sequence[Chosen], forced: Set[str]) -> Iterator[Fault]:
    """The letter has the mark of another vote or call, or nothing ties it to the elector of a
    ballot.
    """
    for letter, lines in chosen if NOT_TIED not in forced else ():
        if why_other := why_other_mark(letter):
            words, _, advice = for_secretary(why_other).partition("; ")
            yield Fault(name_of(letter), words.rstrip(), f"{advice}; {say(FORCE, NOT_TIED)}")
        for line in lines:
            elector = line.ballot.elector
            if not (letter.is_tied(elector) or (line.number and letter.is_of_couple)):
                yield Fault(
                    name_of(letter),
                    say("its sender and its subject do not show that it is of {name}", elector),
                    f"{say('check who sent it')}; {say(FORCE, NOT_TIED)}",
                )


def why_not_beside(
    vote: Vote, chosen: Sequence[Chosen], by_elector: BallotsByElector, forced: Set[str]
) -> Iterator[Fault]:
    """The elector has a later ballot, or may have, or another one of its time, also by a letter
    that is entered before it; to some of its answers alone, no --force enters it.
    """
    for letter, lines in chosen:
        for line in lines:
            ballot = ballot_in(letter, line.ballot)
            beside = by_elector[line.ballot.elector]
            later = beside.later(ballot)
            others = line.ballot.without(later)
            if later and others.ranks:
                words = f"its elector has later answers to {ENGLISH.joined(sorted(later))}"
                cure = vote.election.command(
                    "held", str(letter.number), "--as", private(others.line)
                )
                yield Fault(name_of(letter), words, f"enter the others: {cure}")
            elif VOTED_SINCE not in forced and (words := why_unsure(letter, beside, ballot)):
                yield Fault(name_of(letter), words, say(FORCE, VOTED_SINCE))
        for line in lines:
            by_elector[line.ballot.elector].add(ballot_in(letter, line.ballot))


def why_unsure(letter: LetterCase, beside: ElectorBallots, ballot: TimedBallot) -> str:
    """Why a ballot beside others of its elector is entered by force alone; empty if it is not."""
    has_voted = beside.has_voted_since(ballot)
    if has_voted:
        return say("its elector has voted since")
    if has_voted is not None:
        why = "the clock of the web host was off" if letter.time else "nobody knows when it arrived"
        return f"its elector may have voted since, as {why}"
    if beside.has_other_at_once(ballot):
        return say("another ballot of its elector has the same time")
    return ""


def why_not_unseen(chosen: Sequence[Chosen]) -> Iterator[Fault]:
    """Letters that have more than a ballot in them, which somebody has to see."""
    for letter, _ in chosen:
        if not letter.is_nothing_else:
            yield Fault(
                name_of(letter),
                "there is more in it than a ballot",
                "run it at a terminal without --yes, or type the ballot with --as LINE",
            )


def why_typed_again(
    vote: Vote, chosen: Sequence[Chosen], letters: Sequence[LetterCase]
) -> Iterator[Fault]:
    """What was typed for a letter or a copy of it, though it may be taken back: its own lines may
    say something else.
    """
    entered = grouped(
        (letter.read.identity, ballot) for letter in letters for ballot in letter.entered
    )
    for letter, lines in chosen:
        ballots = sorted(entered.get(letter.read.identity, ()), key=lambda one: one.number)
        typed_last = {one.ballot.elector: one.is_typed for one in ballots}
        if any(line.number and typed_last.get(line.ballot.elector) for line in lines):
            words = "its ballot was typed"
            if letter.kept.state == queries.TAKEN_BACK:
                words += ", and taken back"
            yield Fault(
                name_of(letter),
                words,
                f"type it again with {vote.election.command('held', str(letter.number), '--as')} LINE",
            )
