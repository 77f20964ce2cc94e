"""The command `desk`, at which ballots are entered by hand."""

import dataclasses
import functools
import os
import re
import sys
from collections.abc import Iterator, Sequence

from debvote_tools.book import queries
from debvote_tools.book.book import Detail, DoneAct
from debvote_tools.book.change import carried_out
from debvote_tools.book.queries import Elector, NewEnvelope
from debvote_tools.cli.arguments import flag, option
from debvote_tools.cli.console import (
    LINE_ENDS,
    asked_for,
    is_typed,
    odd_sign,
    say,
    shown_line,
    shown_text,
    tell,
    typed,
)
from debvote_tools.cli.faults import Fault, Status, bad_arguments
from debvote_tools.debvote import TABLE
from debvote_tools.election import Election, History
from debvote_tools.files import BALLOTS_LIMIT
from debvote_tools.inbox import entering
from debvote_tools.inbox.lines import Line, Names, lines_in
from debvote_tools.inbox.vote import CheckedLine, Vote
from debvote_tools.inbox.vote_words import (
    change_words,
    cure_by_reason,
    line_in_words,
    report_of_lines,
    right_line,
    right_words,
    summary,
    with_answers,
)
from debvote_tools.outbox.steps import tell_next
from debvote_tools.poll.plain_names import alike
from debvote_tools.text.ballots import Ballot
from debvote_tools.text.language import ENGLISH, SPOKEN, marked
from debvote_tools.text.motions import Words

QUIT = b"q"
# enters what does not count: a yes comes by habit
ENTER = b"enter"
NOT_ENTERED = marked("It was not entered.")

# in place of a line that is no ballot here
NO_LINE = b"-"

# among so many lines that are no ballots the head of a table is looked for
MOST_ABOVE = 100

# in bytes; what one read of a pipe brings at most
READ = 65_536
# a name as people type it, and ranks
TYPED = re.compile(r"(.+?)\s+([\d-].*)")
# in characters: the longest name of a desk
LONGEST_NAME = 40
# how many names are listed to choose from
MAX_NAMES = 9


class Arguments(entering.Arguments):
    nothing = "entered"

    name: str | None = option(
        "TEXT",
        "The name of this desk, as `Table 2`: log, show and receipts tell where a ballot was",
    )
    question: str | None = option(
        "LABEL", "Of several questions the one that is answered: type the ballot without its label"
    )
    force: bool = flag(
        "From a pipe: enter also late ballots that came before the first close, and replace others in time"
    )


@dataclasses.dataclass(eq=False)
class Desk:
    """A desk, and the replies to what was cast there."""

    vote: Vote
    name: str | None
    # what --came-before-close says, and what was said of the ballots of this desk
    answer: str | None
    is_forced: bool
    came_before_close: bool | None = None
    replies: list[str] = dataclasses.field(default_factory=list)
    next_line: int = 1
    # whether the input has ended, and what was typed in place of a line that does not count
    is_over: bool = False
    typed: bytes | None = None
    # what came at a pipe: the first ballot, and the last lines that are none
    above: list[CheckedLine] = dataclasses.field(default_factory=list[CheckedLine])
    # what was said last of an end or a close that has passed
    notes: Sequence[str] = ()

    @functools.cached_property
    def texts(self) -> list[tuple[Elector, str]]:
        """The electors, each with what a part of a name is looked for in."""
        return [
            (elector, f"{alike(elector.name)}\n{alike(elector.who)}")
            for elector in queries.electors(self.vote.book)
        ]

    def ask_if_reopened(self, history: History) -> None:
        """If the vote was opened again, asks once whether what is cast came before the first
        close.
        """
        if self.came_before_close is None:
            self.came_before_close = entering.came_before_close(history, self.answer)

    def answer_in_letters(self) -> Words:
        """From now on a motion may be answered by letters, too, but behind labels, which are
        letters; returns the words and letters.
        """
        names = self.vote.names
        if self.vote.label or not names.labels:
            letters = {word[0]: ranks for word, ranks in names.words.items()}
            self.vote.names = dataclasses.replace(names, words={**names.words, **letters})
        return self.names.words if self.vote.label else self.vote.names.words

    def next_typed(self) -> bytes | None:
        answer = self.typed or typed(f"{say('Ballot')}: ", "ballot")
        self.typed = None
        return answer

    @functools.cached_property
    def names(self) -> Names:
        """The names, for lines without a label."""
        names = self.vote.names
        words = names.words if self.vote.label in names.motions else {}
        return dataclasses.replace(names, labels=(), words=words)

    def lines_of(self, data: bytes) -> list[Line]:
        lines = lines_in(data, "desk", self.vote.questions.longest_line, self.next_line)
        self.next_line += len(lines)
        return [self.with_label(line) for line in lines] if self.vote.label else lines

    def with_label(self, line: Line) -> Line:
        """A line that answers one question without its label, with it."""
        text = line.named.decode("utf-8", "replace")
        names = self.vote.names
        if names.taken_apart(names.with_ranks(text)):
            # with labels it may be meant for another desk
            return line._replace(unframed=NO_LINE)
        if (parts := self.names.taken_apart(self.names.with_ranks(text))) is None:
            return line
        name, ranks = parts
        # behind a colon the label is no part of the name
        colon = "" if name in names.roll else ":"
        return line.written(f"{name}{colon} {self.vote.label} {ranks}".encode())

    def demand_no_table(self, lines: list[CheckedLine]) -> None:
        """Stops at ranks below the head of a table, before they are cast."""
        came = [*self.above, *lines]
        if self.vote.are_table(came):
            cure = cure_by_reason(self.vote, "what came", came)
            raise Fault("desk", TABLE, cure, Status.BAD_BALLOTS)
        # no other ballot is a head, nor a line of a table; and of what was above the first it was
        # asked then
        first = [line for line in came if line.is_ballot][:1]
        self.above = first + [line for line in came if not line.is_ballot][-MOST_ABOVE:]

    def enter(self, lines: list[CheckedLine], elector: int | None = None, *, asks: bool) -> None:
        carried_out(self.vote.book, lambda: what_is_cast(self, lines, elector, asks))


@dataclasses.dataclass(frozen=True, kw_only=True)
class Casting(entering.Entry):
    """Lines that are cast, by the timing of the vote, and what came of the elector of whom it is
    asked.
    """

    desk: Desk
    lines: list[CheckedLine]
    timing: list[DoneAct]
    elector: int | None
    there: list[tuple[int, int | None]]
    what: str = "ballots to be reported"

    def is_same_now(self) -> bool:
        """Whether nothing came of the elector of whom it is asked: else eight desks would ask
        without end. What comes from a pipe after a reopen is planned again: a late line may replace
        what came.
        """
        if not self.prompt and "came_before_close" in self.detail:
            return False
        there = queries.envelope_states(self.vote.book, self.elector)
        return (self.vote.history().timing, there) == (self.timing, self.there)

    def ask(self) -> bool | None:
        if all(line.is_ballot for line in self.lines):
            return super().ask()
        answer = typed(self.prompt, "refused")
        if answer is None:
            return None
        is_agreed = answer.strip().lower() == ENTER
        self.desk.typed = None if is_agreed else answer
        return is_agreed

    def declined(self, answer: bool | None) -> None:
        self.desk.is_over = answer is None
        tell(*([] if answer is None else [say(NOT_ENTERED)]))

    def words(self, numbers: range, replies: Sequence[str]) -> Iterator[str]:
        self.desk.replies += replies
        is_told = bool(self.desk.notes)
        election = self.vote.election
        self.desk.notes = entering.late_notes(election, election.history(), say("what is entered"))
        # the end may pass while a desk is open; of a late line its reply says so
        if not (is_told or self.is_late):
            yield from self.desk.notes
        if not self.prompt:
            yield from report_of_lines(self.vote, self.lines, numbers, replies)
            return
        # what was asked about was shown in words
        for number, reply, line in zip(numbers, replies, self.lines):
            said = line.ballot.elector if line.is_ballot else shown_line(line.as_entered)
            yield f"{number} {reply}  {said}"


def what_is_cast(desk: Desk, lines: list[CheckedLine], elector: int | None, asks: bool) -> Casting:
    """Lines that are cast. If it asks, it is about one, whose refused answers are lines of their
    own.
    """
    vote = desk.vote
    history = vote.history()
    desk.ask_if_reopened(history)
    is_late = history.is_late(desk.came_before_close)
    replacing = entering.replaced_in_time(vote, lines, is_late)
    shown, asked = question(desk, lines, is_late, elector) if asks else ([], "")
    if asks:
        shown += replacing.values()
    elif not desk.is_forced:
        lines = [line for line in lines if line not in replacing]
        shown = [
            f"{words}; it was not entered (--force enters it)." for words in replacing.values()
        ]
    detail: Detail = {"lines": len(lines)} | ({"desk": desk.name} if desk.name else {})
    if history.is_reopened:
        detail["came_before_close"] = desk.came_before_close
    return Casting(
        "desk",
        detail,
        shown=shown,
        prompt=asked,
        is_nothing=not lines,
        vote=vote,
        envelopes=[
            NewEnvelope(line.as_entered, line.original.place, why_refused=line.why_refused)
            for line in lines
        ],
        is_late=is_late,
        desk=desk,
        lines=lines,
        timing=history.timing,
        elector=elector,
        there=queries.envelope_states(vote.book, elector),
    )


def desk(election: Election, arguments: Arguments) -> None:
    """Enter ballots by hand, and print the reply to each; several desks can run at once, each in
    its own terminal.
    """
    if sys.stdin is None:
        raise Fault("standard input", "it is closed", "run it at a terminal", Status.BAD_BALLOTS)
    election.demand_right_book(arguments)
    label = (arguments.question or "").upper()
    vote = Vote(election, label)
    if label and vote.poll is None:
        raise bad_arguments(
            "--question",
            f"the labels are {', '.join(vote.names.labels) or 'none: this vote has one question'}",
            "give one of them",
        )
    name = None if arguments.name is None else name_of_desk(arguments.name)
    desk = Desk(vote, name, arguments.came_before_close, arguments.force)
    history = election.history()
    desk.notes = entering.late_notes(election, history, say("what is entered"))
    tell(*desk.notes)
    if desk.vote.is_signed:
        tell(
            "Note: in this vote letters must be signed, and a desk checks no signature: enter "
            "only ballots on paper or by word of mouth."
        )
    try:
        desk.ask_if_reopened(history)
        cast = at_terminal if is_typed() else from_pipe
        cast(desk)
    except KeyboardInterrupt:
        tell("")
    tell(say("This desk has entered {lines}.", summary(desk.replies)))
    tell_next(election)


def name_of_desk(text: str) -> str:
    """The name of a desk, as it is told. No answer that quotes it reads as ranks."""
    name = " ".join(text.split())
    odd = odd_sign(name, refused=f"{LINE_ENDS},")
    if not 0 < len(name) <= LONGEST_NAME or odd is not None:
        reason = f"it has 1 to {LONGEST_NAME} plain characters, and no comma"
        raise bad_arguments("--name", reason, "write another name")
    return name


# ---- from a pipe
def from_pipe(desk: Desk) -> None:
    """Casts without asking what comes: the whole lines that each read brings."""
    for data in whole_lines():
        lines = []
        for line in desk.lines_of(data):
            if line.is_empty:
                tell(f"{line.where}: it is empty, and was left out")
            elif why := desk.vote.why_too_long(line):
                tell(
                    f"{line.where}: {why}; it was not entered.",
                    f"  To add it from a file: {desk.vote.election.command('add', '--force', 'FILE')}",
                )
            else:
                lines.append(line)
        checked = desk.vote.checked_lines(lines)
        desk.demand_no_table(checked)
        clear = []
        for ballot in checked:
            if why := desk.vote.why_not_entered(ballot):
                tell(f"{ballot.original.where}: {why}; it was not entered.")
            else:
                clear.append(ballot)
        if clear:
            desk.enter(clear, asks=False)


def whole_lines() -> Iterator[bytes]:
    """The lines that each read completes. A line end of Windows may come in two reads."""
    unfinished = bytearray()
    ended_with_return = False
    while data := os.read(sys.stdin.fileno(), READ):
        unfinished += data.removeprefix(b"\n") if ended_with_return else data
        ended_with_return = data.endswith(b"\r")
        end = max(unfinished.rfind(b"\n"), unfinished.rfind(b"\r")) + 1
        # a line that is too long for debvote ends here
        if len(unfinished) - end > BALLOTS_LIMIT:
            end = len(unfinished)
        if end:
            yield bytes(unfinished[:end])
            del unfinished[:end]
    if unfinished:
        yield bytes(unfinished)


# ---- at a terminal
def at_terminal(desk: Desk) -> None:
    vote = desk.vote
    for label, poll in () if vote.has_tellers else vote.questions.items():
        if vote.poll is None or vote.poll is poll:
            tell(*([f"{label} {poll.name}"] if label else []))
            tell(*(f"  {number} {name}" for number, name in enumerate(poll.names, start=1)))
    order = say("then a rank for each option in this order")
    if vote.poll is None:
        order = say(
            "then for each question that is answered its label, and a rank for each option in this order"
        )
    who = say("the code") if vote.has_codes else say("the elector")
    tell(
        f"{right_words(vote)} {say('q ends.')}"
        if vote.has_tellers
        else f"{say('Type a ballot as {line}', right_line(vote))} ({who}, {order}); {say('q ends.')}"
    )
    if words := desk.answer_in_letters():
        tell(f"{say('In place of the ranks of a motion')}: {', '.join(words)}.")
    while not desk.is_over and (answer := desk.next_typed()) is not None:
        line = next(iter(desk.lines_of(answer)), None)
        if line is None or line.is_empty:
            tell(say("Type a ballot, or q to end."))
        elif line.repaired.lower() == QUIT:
            return
        else:
            ask_and_cast(desk, line)


def ask_and_cast(desk: Desk, line: Line) -> None:
    """Shows a ballot, and casts it on a yes."""
    if (meant := completed(desk, line)) is None:
        tell(say(NOT_ENTERED))
        return
    checked = desk.vote.checked_lines([meant])
    for ballot in checked:
        if not ballot.can_be_entered:
            tell(desk.vote.why_not_entered(ballot), say(NOT_ENTERED))
            return
    [elector] = desk.vote.electors_of([checked[0].as_entered])
    desk.enter(checked, elector, asks=True)


def completed(desk: Desk, line: Line) -> Line | None:
    """A line with the name on the roll that was meant, if the typed words are that name or the real
    one, or else parts of one; of several electors one is chosen by a number, or none. It is none
    where the first label may be a part of the name. Codes are never looked for.
    """
    as_meant, meant = desk.vote.as_meant(line)
    name, answers = typed_parts(desk, as_meant)
    if desk.vote.has_codes or not name or (name in desk.vote.names.roll and not meant):
        return line
    words = [alike(word) for word in name.split()]
    electors = [
        elector
        for elector, text in desk.texts
        if (elector.name in meant if meant else all(word in text for word in words))
    ]
    if not electors:
        return line
    if why := why_no_label(desk, line, name, electors):
        tell(why)
        return None
    if (chosen := chosen_of(electors, shown_text(name))) is None:
        return None
    return line.written(f"{chosen.name} {answers}".encode())


def why_no_label(desk: Desk, line: Line, name: str, electors: Sequence[Elector]) -> str:
    """Why the first label of a line may be none, if it is a word of the name of one of these
    electors.
    """
    names = desk.vote.names
    label = names.label_behind_name(names.with_ranks(line.unframed.decode("utf-8", "replace")))
    words = {label.lower()} - names.words_of(name)
    longer = [
        elector.name
        for elector in electors
        if label and words & names.words_of(elector.name, elector.who)
    ]
    if not longer:
        return ""
    return (
        f"the {label} behind `{shown_text(name)}` may be a label, or belong to the name of "
        f"{ENGLISH.joined(longer)}: type the name on the roll, with a colon behind it"
    )


def chosen_of(electors: Sequence[Elector], name: str) -> Elector | None:
    """The one elector who is meant by a part of a name, or the one of several who is chosen."""
    if len(electors) == 1:
        tell(say("`{part}` was completed to `{name}`", name, electors[0].name))
        return electors[0]
    tell(say("`{part}` is part of {names} names:", name, len(electors)))
    for place, elector in enumerate(electors[:MAX_NAMES], start=1):
        tell(f"  {place} {elector.name} ({shown_text(elector.who)})")
    asked = f"{say('Type the number of one, or n for none:')} "
    answer = (typed(asked, "choice") or b"").strip()
    number = int(answer) if answer.isdigit() else 0
    return electors[number - 1] if 0 < number <= len(electors[:MAX_NAMES]) else None


def typed_parts(desk: Desk, line: bytes) -> tuple[str, str]:
    """The words that were typed in the place of a name, and what is behind them; empty of no
    ballot.
    """
    text = line.decode("utf-8", "replace")
    if desk.vote.names.labels:
        return desk.vote.names.taken_apart(text) or ("", "")
    parts = TYPED.fullmatch(text)
    return (parts[1], parts[2]) if parts else ("", "")


def question(
    desk: Desk, lines: Sequence[CheckedLine], is_late: bool, elector: int | None
) -> tuple[list[str], str]:
    """What a ballot would be, or why it or one of its answers would be refused; and what is
    asked.
    """
    with asked_for(True):
        shown = [*change_words(lines[0])]
        for line in lines:
            if finding := line.lasting:
                refused = f"{shown_line(line.as_entered)}: {finding.word}: {finding.hint}"
                shown += [f"{say('It would be refused')}: {refused}", right_words(desk.vote)]
            else:
                shown.append(line_in_words(desk.vote, line))
    ballots = [line for line in lines if line.is_ballot]
    if ballots and is_late:
        shown.append(say("It is late, and will not count."))
    elif ballots and elector is not None:
        shown += earlier_words(desk.vote, ballots[0].ballot, elector)
    if ballots == lines:
        return shown, say("Enter it?")
    anew = say("What is refused does not count. Type the line anew, or enter to enter it so:")
    return shown, f"{anew} "


def earlier_words(vote: Vote, ballot: Ballot, elector: int) -> Iterator[str]:
    """What a ballot would replace, and which answers to other questions stay."""
    name = ballot.elector
    earlier = Ballot(f"{name} {queries.what_counts(vote.book, {elector}).get(name, '')}")
    stays = earlier.without(ballot.ranks)
    if replaced := earlier.without(stays.ranks).answers:
        yield with_answers(vote, say("{name} has a ballot, which will be replaced", name), replaced)
    if stays.ranks:
        others = SPOKEN.get().joined(sorted(stays.ranks))
        words = say("The earlier answers of {name} to {questions} stay", name, others)
        yield with_answers(vote, words, stays.answers)
