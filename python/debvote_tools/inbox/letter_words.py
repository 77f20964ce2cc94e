"""What the secretary reads about letters: what goes in, what waits and why, and a whole letter."""

import itertools
from collections.abc import Callable, Collection, Iterator, Mapping, Sequence

from debvote_tools.cli.console import (
    act_time,
    asked_for,
    count_of_lines,
    cut,
    for_terminals,
    hides,
    is_all_seen,
    listed,
    private,
    say,
    say_number,
    seen,
    shown_line,
    shown_text,
    wait_words,
)
from debvote_tools.inbox.letter_lines import BallotLine
from debvote_tools.inbox.letter_text import MAX_WORDS
from debvote_tools.inbox.rules import LetterCase, Ruling
from debvote_tools.inbox.reasons import for_secretary
from debvote_tools.inbox.vote import Vote
from debvote_tools.inbox.vote_words import IS_CODE, are_many, show_words, with_answers
from debvote_tools.text.language import SPOKEN

# how many attachments are named
MAX_ATTACHMENTS = 5


def who_and_when(letter: LetterCase) -> str:
    return f"{name_of(letter)}, {say('from {sender}', sender_of(letter))}, {arrival_of(letter)}{sent_words(letter)}"


def sent_words(letter: LetterCase | None) -> str:
    """When a record was sent by its device, beside the time of the web host."""
    if letter is None or letter.read.sent is None:
        return ""
    return f", {say('sent {time}', act_time(letter.read.sent))}"


def name_of(letter: LetterCase) -> str:
    number = letter.number
    return say("letter {number}", number=number) if number else shown_text(letter.read.where)


def sender_of(letter: LetterCase) -> str:
    if letter.read.link:
        return say("the page of the vote")
    return shown_text(for_terminals(letter.read.shown_sender)) or say("nobody")


def subject_of(letter: LetterCase) -> str:
    return private(shown_text(letter.read.subject))


def arrival_of(letter: LetterCase) -> str:
    arrived = letter.read.arrived
    return say("at an unknown time") if arrived is None else act_time(arrived)


def came_words(new: int, given: int) -> str:
    """How many of the letters that are given are new."""
    words = say_number("{number} new letter", "{number} new letters", new)
    return f"{words}; {say('{letters} came before.', given - new)}"


# ---- what goes in
def going_in_words(letters: Sequence[LetterCase], vote: Vote) -> Iterator[str]:
    """Of each letter whose ballot it is, and how it is read. Of records in a secret vote the names
    alone, and not in their order, which the web host knows.
    """
    if vote.questions.is_secret:
        sealed = [letter.elector for letter in letters if letter.read.link]
        letters = [letter for letter in letters if not letter.read.link]
        if sealed:
            yield f"{say_number('{number} sealed ballot', '{number} sealed ballots', len(sealed))}: {', '.join(sorted({*sealed}))}"
    is_short = are_many(vote, (letter.sole_line.ballot for letter in letters))
    between = "\n  " if vote.is_several else "; "
    for letter in letters:
        said = ballot_words(letter, vote, is_short=is_short)
        yield between.join([said, *more_words(letter)])
    if is_short:
        yield show_words(vote)


def ballot_words(letter: LetterCase, vote: Vote, *, is_short: bool) -> str:
    line = letter.sole_line
    ballot = line.ballot
    is_same = line.written == ballot.line
    as_written = (
        "" if is_same or hides() else f", {say('written')} `{shown_line(line.written.encode())}`"
    )
    whose = f"{ballot.elector} ({name_of(letter)}{as_written})"
    return with_answers(vote, whose, ballot.answers, is_short=is_short)


def more_words(letter: LetterCase) -> list[str]:
    """What else there is to look at in a letter."""
    shared = (
        [f"{say('same address')}: {', '.join(letter.shared_with)}"] if letter.shared_with else []
    )
    codes = (f"{line_words(number)}{IS_CODE}" for number in letter.code_lines)
    names = listed(list(map(shown_text, letter.read.attachments)), MAX_ATTACHMENTS)
    return [*shared, *([f"{say('attachments')}: {private(names)}"] if names else []), *codes]


# ---- what waits
def table(letters: Sequence[LetterCase]) -> Iterator[str]:
    """Letters that wait: a line for each, and below it why."""
    if not letters:
        return
    rows = [(arrival_of(letter), sender_of(letter)) for letter in letters]
    times, senders = (max(map(len, column)) for column in zip(*rows))
    yield f"{say('letter'):6}  {say('arrived'):{times}}  {say('from'):{senders}}  {say('subject')}"
    for letter, (time, sender) in zip(letters, rows):
        subject = subject_of(letter) or say("(no subject)")
        yield f"{letter.number or say('new'):>6}  {time:{times}}  {sender:{senders}}  {subject}"
        yield from (f"        {line}" for line in why_words(letter))


def why_it_waits(letter: LetterCase) -> Iterator[str]:
    why, *others = why_words(letter)
    yield f"{who_and_when(letter)}: {why}"
    yield from (f"  {line}" for line in others)


def judged_anew(
    before: Mapping[int, LetterCase], after: Mapping[int, LetterCase], others: Collection[int] = ()
) -> Iterator[str]:
    """What is told of letters, but for some others, after a change that made them go in, wait
    otherwise or be of somebody else.
    """
    for number, letter in after.items():
        facts = {
            (case.ruling, case.reason, case.is_pending and case.electors)
            for case in (letter, before.get(number, letter))
        }
        if len(facts) > 1 and number not in others:
            yield from why_it_waits(letter)


def why_words(letter: LetterCase) -> list[str]:
    """Why a letter waits, its ballots, and what else there is to look at."""
    words = cut(letter.read.text.words, MAX_WORDS)
    written = [f"{say('written')}: {private(''.join(map(seen, words)))}"] if words else []
    return [why(letter), *near_words(letter), *written, *more_words(letter)]


def why(letter: LetterCase, elector: str = "") -> str:
    """Why a letter waits, or what became of it; and who has voted since, or whether an elector
    has.
    """
    why = say(letter.ruling.value) if letter.reason is None else for_secretary(letter.reason)
    if letter.ruling is Ruling.GOES_IN:
        # nobody has agreed to it yet
        why = say("it goes in with the next add of letters")
    since = [name for name in letter.voted_since if elector in ("", name)]
    if not (letter.is_pending and since):
        return why
    who = f"{SPOKEN.get().joined(since)} " if len(letter.electors) > 1 else ""
    have = say_number("has voted since", "have voted since", len(since))
    if not all(letter.voted_since[name] for name in since):
        have = say("may have voted since")
    return f"{why}; {who}{have}"


def near_words(letter: LetterCase) -> Iterator[str]:
    """Where the text has ballots, or what may be meant as one."""
    for line in letter.proposals:
        ballot = line.ballot
        said = say("a ballot of {name}", ballot.elector) if hides() else ballot.line
        yield f"{line_words(line.number)}: {said}{quoted_words(letter, line)}"
    for near in letter.refused:
        ranks = f"{say('ranks')} {shown_text(near.ranks)}: {near.answer}"
        yield f"{line_words(near.number)}, {private(ranks)}"
    for number in letter.read.text.outside:
        yield f"{line_words(number)} {say('in a quotation or a signature looks like an answer')}"


def line_words(number: int) -> str:
    return say("line {number}", number=number)


def quoted_words(letter: LetterCase, line: BallotLine) -> str:
    """What is said of a ballot that somebody else may have written."""
    return f"; {say('a quotation may begin above it')}" if letter.may_be_quoted(line) else ""


def went_in_words(letters: Sequence[LetterCase], entered: int, *, is_look: bool) -> str:
    """How many ballots of letters went in, or would, and what became of the other letters."""
    ballots = say_number("{number} ballot of letters", "{number} ballots of letters", entered)
    went_in = say("would go in") if is_look else say("went in")
    copies = sum(letter.ruling is Ruling.COPY for letter in letters)
    passed = say_number("{number} copy passed over", "{number} copies passed over", copies)
    waits = sum(letter.ruling is Ruling.WAITS for letter in letters)
    return f"{ballots} {went_in}; {wait_words(waits)}{copies and f'; {passed}' or ''}."


# ---- a letter line by line
def whole(letter: LetterCase, is_ours: Callable[[str], bool]) -> Iterator[str]:
    """All that a letter says, but for what it repeats of a letter of ours. In a secret vote only
    while it waits, at a terminal.
    """
    with asked_for(letter.is_pending and is_all_seen()):
        yield who_and_when(letter)
        yield f"  {say('subject')}: {subject_of(letter)}"
        if not hides():
            yield from text_of(letter, is_ours)
        if letter.ruling is Ruling.ENTERED:
            yield say("It was entered.")
        elif letter.reason is not None:
            waits = say("It waits") if letter.is_pending else say("It does not wait")
            yield f"{waits}: {why(letter)}"
        yield from (*near_words(letter), *more_words(letter))


def text_of(letter: LetterCase, is_ours: Callable[[str], bool]) -> Iterator[str]:
    """The lines of a letter with their numbers, but for empty ones; those of ours as one."""
    lines = ((place, line) for place, line in enumerate(letter.read.body.lines, 1) if line.strip())
    for ours, run in itertools.groupby(lines, lambda one: is_ours(one[1])):
        if ours:
            yield f"      ({count_of_lines(sum(1 for _ in run))} {say('of our letter')})"
        else:
            yield from (f"{place:4}  {private(''.join(map(seen, line)))}" for place, line in run)
