"""What is printed about lines, ballots and envelopes."""

import collections
import itertools
import textwrap
from collections.abc import Collection, Iterable, Iterator, Sequence

from debvote_tools.call.tellers import PAPER
from debvote_tools.cli.console import (
    count_of,
    count_of_lines,
    cut,
    hides,
    in_runs,
    private,
    say,
    say_number,
    shown_line,
)
from debvote_tools.inbox.vote import LATE_REPLY, NUMBER, CheckedLine, Vote
from debvote_tools.poll.codes import has_code
from debvote_tools.text.ballots import Ballot, part_of
from debvote_tools.text.language import ENGLISH, marked

# the cure where lines look like a table
IN_ORDER = "write each line as a name and its ranks in the order of the options"
IS_CODE = " (32 digits, as in a code or an alias: a ballot has only the elector's name, and nobody may see a code)"

# how many answers of ballots to several questions are said in words at once
MOST_ANSWERS = 40
# in characters: what is told of the options beside a ballot line
MOST_OF_OPTIONS = 600

# what became of a ballot, if that differs by its answers
IN_PART = marked("replaced in part")


def report_of_lines(
    vote: Vote, lines: Sequence[CheckedLine], numbers: Iterable[int], replies: Sequence[str]
) -> Iterator[str]:
    """Each line that went in, or would, by the number of its envelope and the reply to it."""
    is_short = are_many(vote, (line.ballot for line in lines if line.is_ballot))
    for number, reply, line in zip(numbers, replies, lines):
        yield from change_words(line)
        yield f"{number} {reply}  {line_in_words(vote, line, reply, is_short=is_short)}"
        if (other := line.lasting) and other != line.finding:
            written = f"written as `{shown_line(line.as_meant)}` it is refused too"
            yield f"  it goes in as it came; {written}: {other.word}: {private(other.hint)}"
    if is_short:
        yield show_words(vote)
    if not all(line.is_ballot for line in lines):
        yield right_words(vote)
    if LATE_REPLY in replies:
        late = count_of(replies.count(LATE_REPLY), "line")
        yield f"{late} came after the close, and late lines do not count."


def line_in_words(vote: Vote, line: CheckedLine, reply: str = "", *, is_short: bool = False) -> str:
    """A ballot in words, or in short as it is entered; or the line and why debvote refuses
    it.
    """
    if line.finding is None:
        return ballot_in_words(vote, line.ballot, is_short=is_short)
    word = "" if line.finding.word == reply else f"{line.finding.word}: "
    # so that nobody takes one elector for another
    others = other_names(vote, line.finding.near)
    why = f"{line.finding.hint}{f' (or {ENGLISH.joined(others)})' if others else ''}"
    is_code = has_code(line.as_meant.decode("utf-8", "replace")) and not vote.has_codes
    # a name alone is told
    said = why if line.finding.near else private(why)
    return f"{shown_line(line.as_entered)}: {word}{said}{IS_CODE if is_code else ''}"


def with_answers(
    vote: Vote, words: str, answers: str, indent: str = "  ", *, is_short: bool = False
) -> str:
    """Words, and behind them a ballot in words, or in short as it is entered, unless it is
    private. Of several questions each answer has a line of its own.
    """
    if hides():
        return words
    if is_short:
        return f"{words}: {answers}"
    said = vote.in_words_of(answers)
    return f"{words}:\n{textwrap.indent(said, indent)}" if vote.is_several else f"{words}: {said}"


def ballot_in_words(vote: Vote, ballot: Ballot, *, is_short: bool = False) -> str:
    return with_answers(vote, ballot.elector, ballot.answers, is_short=is_short)


def are_many(vote: Vote, ballots: Iterable[Ballot]) -> bool:
    """Whether ballots of several questions have more lines in words than are read at once."""
    return vote.is_several and sum(len(ballot.ranks) for ballot in ballots) > MOST_ANSWERS


def show_words(vote: Vote) -> str:
    """What is said below ballots in short."""
    return f"{say('Each in words')}: {vote.election.command('show', 'NAME')}"


def right_line(vote: Vote) -> str:
    name = "CODE" if vote.has_codes else "NAME" if hides() else vote.questions.roll[0]
    if vote.has_tellers:
        return f"{name} {PAPER}"
    right = vote.questions.line(name, turned_rank)
    part = part_of(right.encode(), vote.label)
    return right if part is None else part.decode()


def right_words(vote: Vote) -> str:
    """A ballot line with what each rank is of, as `explain` has it."""
    if vote.has_tellers:
        words = marked("Type `{line}` for each who votes on paper; the page alone seals ballots.")
        return say(words, right_line(vote))
    polls = {"": vote.poll} if vote.poll else vote.questions
    options = "; ".join(f"{label} {numbered(poll.names)}".strip() for label, poll in polls.items())
    ranks_of = say("the ranks of {options}; 1 is the best", cut(options, MOST_OF_OPTIONS))
    words = f"{say('A ballot line of this poll')}: `{right_line(vote)}`: {ranks_of}"
    return words if vote.poll else f"{words}; {say('a question may be left out')}"


def cure_by_reason(vote: Vote, source: str, lines: Iterable[CheckedLine]) -> str:
    """The cure where lines are no ballots, or look like a table: it names the first that is
    none, since a wrong name there may be all that is wrong.
    """
    refused = next(line for line in lines if not line.is_ballot)
    shown = f"{refused.original.where}: {line_in_words(vote, refused)}"
    return f"look at {source} ({shown}), and {IN_ORDER}"


def other_names(vote: Vote, offered: Sequence[str]) -> list[str]:
    """All names that fit as well as those that debvote offers: `ada-2` beside `ada`."""
    bare_names = dict.fromkeys(NUMBER.sub("", near) for near in offered)
    alike = (name for bare in bare_names for name in vote.names_by_bare_name[bare])
    return [name for name in alike if name not in offered]


def numbered(names: Iterable[str]) -> str:
    return ", ".join(f"{number} {name}" for number, name in enumerate(names, start=1))


def turned_rank(number: int, options: int) -> str:
    """The rank of an option in a ballot that ranks the last one first: with the numbers as ranks,
    who takes them for an order of choice sees no fault.
    """
    return str(number % options + 1)


def envelope_words(numbers: Collection[int]) -> str:
    """Some envelopes, in their order, as `envelope 3` or `envelopes 3-5, 7`."""
    return say_number("envelope {numbers}", "envelopes {numbers}", len(numbers), in_runs(numbers))


def change_words(line: CheckedLine) -> Iterator[str]:
    """What was changed of a line that is not entered as it came."""
    came = line.original.unframed
    meant = line.as_meant
    if came not in (line.as_entered, meant):
        changed = say("`{came}` was changed to `{meant}`", shown_line(came), shown_line(meant))
        yield f"{line.original.where}: {changed}"


def summary(replies: Sequence[str]) -> str:
    """How many lines there are, by the replies to them; those to single answers come last."""
    parts = [reply.split(", ") for reply in replies if ", " in reply]
    whole = collections.Counter(reply for reply in replies if ", " not in reply)
    listed = [f"{number} {say(reply)}" for reply, number in whole.items()]
    if parts:
        answers = sorted(collections.Counter(itertools.chain(*parts)).items())
        of_answers = ", ".join(f"{answer} {number}" for answer, number in answers)
        listed.append(f"{len(parts)} {say(IN_PART)}: {of_answers}")
    return count_of_lines(len(replies)) + (f" ({', '.join(listed)})" if listed else "")


def standing_words(
    vote: Vote, before: dict[str, str], after: dict[str, str], none: str
) -> list[str]:
    """Whose ballot is another one afterwards, or is gone (`none`); with codes only how many."""
    changed = {
        name: after.get(name) for name, answers in before.items() if after.get(name) != answers
    }
    gone = list(changed.values()).count(None)
    if vote.has_codes:
        of_gone, of_others = (
            say_number("{number} elector", "{number} electors", number)
            for number in (gone, len(changed) - gone)
        )
        counts = f"  {of_gone}: {none}; {of_others}: {say('an earlier ballot')}"
        return [counts] if changed else []
    return [
        with_answers(vote, f"  {name}, {say('as before')}", answers, "    ")
        if answers
        else f"  {name}: {none}"
        for name, answers in changed.items()
    ]
