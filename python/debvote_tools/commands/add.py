"""The command `add`, which enters ballots from letters, files or standard input."""

import collections
import dataclasses
import operator
import re
from collections.abc import Iterable, Iterator, Mapping, Sequence

from debvote_tools.book import queries
from debvote_tools.book.book import Book, Detail, DoneAct, NewAct
from debvote_tools.book.change import carried_out
from debvote_tools.book.queries import Envelope, NewEnvelope
from debvote_tools.cli.arguments import demand_reason, flag, given, has_reason, positional
from debvote_tools.cli.console import (
    count_of,
    is_terminal,
    is_yes,
    say,
    shown_line,
    tell,
    tell_many,
)
from debvote_tools.cli.faults import Fault, bad_arguments, stop_at
from debvote_tools.debvote import TABLE
from debvote_tools.election import Election, History
from debvote_tools.grouping import grouped
from debvote_tools.inbox import entering
from debvote_tools.inbox.given_files import GivenFile, read_files
from debvote_tools.inbox.lines import MARK, Line, lines_in
from debvote_tools.inbox.option_names import OptionNames
from debvote_tools.inbox.vote import CheckedLine, Vote, replies_to
from debvote_tools.inbox.vote_words import cure_by_reason, report_of_lines, right_line, summary
from debvote_tools.outbox.steps import tell_next
from debvote_tools.text.ballots import part_of
from debvote_tools.text.language import marked

FORCE = "add it anyway with --force"
NOTHING_NEW = marked("There is nothing new, and nothing was added.")

# how many lines are shown that are no ballots, and how many that came before and no longer count
MAX_REFUSED = 10
MAX_REPEATED = 20

is_ballot = operator.attrgetter("is_ballot")
as_entered = operator.attrgetter("as_entered")

# the heads of a list of members
MEMBERS_HEADS = {"who", "mail"}


class Arguments(entering.Arguments):
    files: list[str] = positional(
        "FILE",
        "Letters (a mailbox, a Maildir, a folder of .eml), or ballots, one on each line; - or no FILE: standard input",
        nargs="*",
    )
    box: bool = flag("Ask the web host for the ballots that electors sent by the page of the vote")
    look: bool = flag("Say what would be entered, and change nothing")
    yes: bool = flag(
        "With letters: enter the ballots without asking; with lines: ask of none that was late"
    )
    force: bool = flag(
        "Add them although most lines are not ballots, they look like a table, one is very "
        "long, an older or late ballot would replace "
        "another one, or (then with a reason) letters must be signed"
    )


def add(election: Election, arguments: Arguments) -> None:
    """Enter ballots from letters, files or standard input, and print the reply to each."""
    if not arguments.look:
        election.demand_right_book(arguments)
    vote = Vote(election)
    if arguments.box and arguments.files:
        raise bad_arguments("--box", "it takes no file", "add files by a command of their own")
    letters, files = ([], []) if arguments.box else read_files(election, arguments.files)
    if files:
        take_lines(vote, files, arguments)
    elif of_lines := given(arguments, "force", "came_before_close"):
        raise bad_arguments(
            ", ".join(of_lines), "only for lines, and these are letters", "leave this out"
        )
    else:
        # what reads letters takes a while to be imported
        from debvote_tools.inbox.taking import take_letters

        take_letters(
            vote, letters, of_box=arguments.box, is_look=arguments.look, is_agreed=arguments.yes
        )
    if not arguments.look:
        tell_next(election)


# ---- lines
@dataclasses.dataclass(frozen=True)
class FileLines:
    """A file and its lines in the order of entering."""

    file: GivenFile
    lines: Sequence[CheckedLine]
    empty: Sequence[Line]
    # whether it is a table, whose columns may stand in another order than the options
    is_table: bool

    @property
    def name(self) -> str:
        return self.file.name


@dataclasses.dataclass(frozen=True)
class ComparedLines(FileLines):
    """A file and its lines, compared with the book as it is now: those that are new, and those that
    came before, each with what has happened since, if it no longer counts.
    """

    new: Sequence[CheckedLine]
    repeated: Sequence[tuple[CheckedLine, str | None]]


@dataclasses.dataclass(frozen=True)
class NewLines:
    """Which lines would be entered, by the book as it is now. Equal ones are of the same timing."""

    history: History = dataclasses.field(compare=False)
    timing: Sequence[DoneAct]
    is_late: bool
    files: Sequence[ComparedLines]
    # the lines that were late, and would replace ballots in time, each in words
    replacing: Mapping[CheckedLine, str]

    @property
    def lines(self) -> list[CheckedLine]:
        return [line for file in self.files for line in file.new]


def new_lines(vote: Vote, files: Sequence[FileLines], came_before_close: bool | None) -> NewLines:
    """The new lines of files. debvote is not asked, so they are found again within the act."""
    history = vote.history()
    is_late = history.is_late(came_before_close)
    compared = compared_with_book(vote.book, files, is_late)
    lines = [line for file in compared for line in file.new]
    replacing = entering.replaced_in_time(vote, lines, is_late)
    return NewLines(history, history.timing, is_late, compared, replacing)


def asked_of_late(new: NewLines, arguments: Arguments) -> NewLines:
    """Asks at a terminal of each late line that would replace a ballot in time; returns the same
    without those that are not to be entered.
    """
    replacing = () if arguments.force else new.replacing.items()
    declined = [line for line, words in replacing if not is_yes(f"{words}. {say('Enter it?')}")]
    files = [
        dataclasses.replace(file, new=[line for line in file.new if line not in declined])
        for file in new.files
    ]
    return dataclasses.replace(new, files=files)


@dataclasses.dataclass(frozen=True, kw_only=True)
class Addition(entering.Entry):
    """An act that enters the new lines of files."""

    files: Sequence[FileLines]
    new: NewLines

    def is_same_now(self) -> bool:
        """Else commands `desk` that go on could keep it from its act: it takes a while to plan."""
        came_before_close = self.detail.get("came_before_close")
        return new_lines(self.vote, self.files, came_before_close) == self.new

    def write(self, act: NewAct) -> None:
        """Keeps each file whole, and enters its lines."""
        envelopes = list[NewEnvelope]()
        for file in self.new.files:
            source = queries.keep_source(act, file.file.kept_name, file.file.data)
            envelopes += [
                NewEnvelope(
                    line.as_entered, line.original.place, source, why_refused=line.why_refused
                )
                for line in file.new
            ]
        self.enter(act, envelopes)

    def words(self, numbers: range, replies: Sequence[str]) -> Iterator[str]:
        yield from report_of_files(self.vote, self.new, numbers, replies)
        yield say("Added {lines}.", summary(replies))


def what_is_added(vote: Vote, files: Sequence[FileLines], arguments: Arguments) -> Addition:
    """The act that enters the new lines. It asks what only a person knows of them."""
    came_before_close = entering.came_before_close(vote.history(), arguments.came_before_close)
    new = new_lines(vote, files, came_before_close)
    stop_at(faults_of_lines(vote, new, arguments))
    new = asked_of_late(new, arguments)
    detail: Detail = {
        "files": [file.file.kept_name for file in new.files],
        "lines": len(new.lines),
        "passed_over": sum(that_came(line for line, _ in file.repeated) for file in new.files),
    }
    if came_before_close is not None:
        detail["came_before_close"] = came_before_close
    shown = list[str]()
    if not new.lines:
        shown = [*report_of_files(vote, new, (), ()), say(NOTHING_NEW)]
    elif vote.is_signed:
        detail["unsigned"] = True
        detail["because"] = demand_reason(arguments.because, "--force")
    return Addition(
        "add",
        detail,
        shown=shown,
        is_nothing=not new.lines,
        vote=vote,
        is_late=new.is_late,
        files=files,
        new=new,
    )


def take_lines(vote: Vote, files: Sequence[GivenFile], arguments: Arguments) -> None:
    """Enters the lines that are new, and prints the replies; or tells what would become of them.
    Letters are taken by `take_letters` in `inbox/taking.py`.
    """
    lines = lines_of_files(vote, files)
    if arguments.look:
        look(vote, lines, arguments)
        return
    carried_out(vote.book, lambda: what_is_added(vote, lines, arguments))


def lines_of_files(vote: Vote, files: Sequence[GivenFile]) -> list[FileLines]:
    """The lines of each file, with what debvote says of them."""
    longest = vote.questions.longest_line
    lists = [lines_in(file.data, file.name, longest) for file in files]
    empty = [file for file, lines in zip(files, lists) if all(line.is_empty for line in lines)]
    reason = "it has only empty lines"
    stop_at(Fault(file.name, reason, "write one ballot on each line") for file in empty)
    checked = vote.checked_lines([line for lines in lists for line in lines if not line.is_empty])
    no_form = [line for line in checked if not line.can_be_entered][:MAX_REFUSED]
    cure = f"write it as `{right_line(vote)}`, or take it out"
    stop_at(Fault(line.original.where, vote.why_not_entered(line), cure) for line in no_form)
    by_file = grouped((line.original.file_name, line) for line in checked)
    return [
        lines_of_file(vote, file, by_file[file.name], [line for line in lines if line.is_empty])
        for file, lines in zip(files, lists)
    ]


def lines_of_file(
    vote: Vote, file: GivenFile, lines: Sequence[CheckedLine], empty: Sequence[Line]
) -> FileLines:
    # of a table no ranks are repaired
    if is_table := vote.are_table(lines):
        unrepaired = (line.original for line in lines)
        lines = vote.checked_lines([line.written(line.unframed) for line in unrepaired])
    return FileLines(file, lines, empty, is_table)


def compared_with_book(
    book: Book, files: Sequence[FileLines], is_late: bool
) -> list[ComparedLines]:
    """The files, each with its new lines and those that came before. If n copies of a line came in
    earlier files, its first n copies in this file are duplicates, whether those were counted,
    refused or struck; or late, if what comes now is late, too. Files that an `undo` took back do
    not count. A file that goes in now is an earlier one for the next.
    """
    copies_before = queries.lines_that_came(book, is_late)
    if any(line.as_entered in copies_before for file in files for line in file.lines):
        came = queries.came_in_files(book, is_late)
        since = counting_since(book, files, came)
        return [compared(file, copies_before, came, since) for file in files]
    if len(files) > 1:
        return [compared(file, copies_before, {}, {}) for file in files]
    return [ComparedLines(**vars(file), new=file.lines, repeated=()) for file in files]


# number and line of the envelope that counts, by elector and label
Counting = Mapping[tuple[int, str], tuple[int, bytes]]


def counting_since(
    book: Book, files: Sequence[FileLines], came: Mapping[bytes, Sequence[Envelope]]
) -> Counting:
    """What counts now, without what these files have brought: a later line of theirs did not come
    since.
    """
    own = {
        envelope.number
        for file in files
        for line, copies in collections.Counter(map(as_entered, file.lines)).items()
        for envelope in came.get(line, ())[:copies]
    }
    by_answer = queries.counting_envelopes(book).items()
    return {answer: envelope for answer, envelope in by_answer if envelope[0] not in own}


def compared(
    file: FileLines,
    copies_before: collections.Counter[bytes],
    came: Mapping[bytes, Sequence[Envelope]],
    since: Counting,
) -> ComparedLines:
    """A file, compared with the copies that came before it, to which its new lines are added."""
    so_far = collections.Counter[bytes]()
    new = []
    repeated = []
    for line in file.lines:
        nth = so_far[line.as_entered]
        copies = copies_before[line.as_entered]
        so_far[line.as_entered] += 1
        if nth >= copies:
            new.append(line)
            continue
        envelopes = came.get(line.as_entered, ())
        # where an earlier file of this command has a copy that goes in now, that one counts
        came_before = len(envelopes) == copies
        repeated.append((line, change_since(line, envelopes[nth], since) if came_before else None))
    copies_before.update(map(as_entered, new))
    return ComparedLines(**vars(file), new=new, repeated=repeated)


def change_since(line: CheckedLine, came: Envelope, since: Counting) -> str | None:
    """Why a line that came in an envelope no longer counts, by what came `since` and counts; None
    if it does, or the same ballot does.
    """
    for label, became in came.by_question.items():
        own = part_of(line.as_entered, label)
        number, part = since.get((came.elector or 0, label), (0, own))
        if became == "replaced" and part != own:
            return f"{line.ballot.elector} has voted since (envelope {number})"
    if came.is_struck:
        return f"was {came.became} (envelope {came.number})"
    return None


def look(vote: Vote, files: Sequence[FileLines], arguments: Arguments) -> None:
    """Says what would become of the lines, and stops if `add` would."""
    came_before_close = arguments.came_before_close != "no"
    with vote.book.snapshot():
        new = new_lines(vote, files, came_before_close)
        counted_answers = queries.what_counts(vote.book)
        first = queries.last_envelope(vote.book) + 1
    lines = [(line.as_entered, line.why_refused) for line in new.lines]
    numbers = range(first, first + len(lines))
    replies = [*replies_to(lines, counted_answers, is_late=new.is_late)]
    if new.history.is_reopened and arguments.came_before_close is None:
        tell(
            "Note: add will ask whether these lines came before the close; this preview assumes that they did."
        )
    tell_many(report_of_files(vote, new, numbers, replies))
    stop_at(faults_of_lines(vote, new, arguments))
    tell(say("These would be {lines}. Nothing was changed.", summary(replies)))


# ---- what a person has to look at first
def faults_of_lines(vote: Vote, new: NewLines, arguments: Arguments) -> Iterator[Fault]:
    """All that stands against entering these lines."""
    if new.lines and vote.is_signed and not (arguments.force and has_reason(arguments.because)):
        yield Fault(
            new.files[0].name,
            "in this vote letters must be signed, and nothing shows who sent a line of a file",
            "add the letters themselves; or, if you know by other means who sent each line, give --force --because TEXT",
        )
    if arguments.force:
        return
    # at a terminal each is asked about
    for words in new.replacing.values() if arguments.yes or not is_terminal() else ():
        yield Fault(None, words, f"take it out, or {FORCE}")
    for file in new.files:
        yield from odd_lines(vote, file)
    with_new_lines = [file for file in new.files if file.new]
    for file in with_new_lines:
        if file.is_table:
            yield Fault(
                file.name, TABLE, f"{cure_by_reason(vote, 'the file', file.lines)}, or {FORCE}"
            )
    no_tables = [file for file in with_new_lines if not file.is_table]
    yield from under_other_names(vote, no_tables)
    yield from few_ballots(vote, no_tables)
    for file in new.files:
        if pair := new_one_above(file):
            older, newer = pair
            yield Fault(
                file.name,
                f"the ballot of {older.ballot.elector} in line {older.original.number} is older "
                f"than that in line {newer.original.number}, which came before, and would "
                "replace it",
                f"take the older ballot out, or {FORCE}",
            )


def odd_lines(vote: Vote, file: ComparedLines) -> Iterator[Fault]:
    """A fault for the first line that is longer than any ballot, and for those with a name that
    several electors have.
    """
    cure = f"take the line out if it is not a ballot, or {FORCE}"
    for line in file.new:
        if why := vote.why_too_long(line.original):
            yield Fault(line.original.where, why, cure)
            break
    cure = f"write the name on the roll of the one who is meant, or {FORCE}"
    for line in file.new:
        if line.why_unclear:
            yield Fault(line.original.where, line.why_unclear, cure)


def under_other_names(vote: Vote, files: Sequence[FileLines]) -> Iterator[Fault]:
    """A fault for each file with a line that names options in another order."""
    polls = [OptionNames(poll) for poll in vote.questions.values()]
    for file in files:
        for line in file.lines:
            if not line.is_ballot and any(
                names.are_in_another_order(line.original.unframed) for names in polls
            ):
                place = f"line {line.original.number}"
                yield Fault(
                    file.name,
                    f"{place} names options of the poll in another order than the poll has "
                    "them: the ranks below it may stand in that order",
                    f"if they do, put them into the order of the poll, and take {place} out; if they do not, {FORCE}",
                )
                break


def new_one_above(file: ComparedLines) -> tuple[CheckedLine, CheckedLine] | None:
    """A new ballot, and one of its elector below it that came before, which it would replace."""
    new = {line.original.number for line in file.new} if file.repeated else set()
    above = dict[tuple[str, str], CheckedLine]()
    for line in filter(is_ballot, file.lines if new else ()):
        ballot = line.ballot
        for label, ranks in ballot.ranks.items():
            older = above.get((ballot.elector, label), line)
            if line.original.number in new:
                above[ballot.elector, label] = line
            elif older.ballot.ranks[label] != ranks:
                return older, line
    return None


def few_ballots(vote: Vote, files: Sequence[FileLines]) -> Iterator[Fault]:
    """A fault for each file in which fewer than half of the lines are ballots. If no file has so
    few, all files together are looked at.
    """
    all_lines = tuple(line for file in files for line in file.lines)
    few = [file for file in files if has_few_ballots(file.lines)]
    if not few and len(files) > 1 and has_few_ballots(all_lines):
        few = [dataclasses.replace(files[0], lines=all_lines)]
    for file in few:
        count = that_came(filter(is_ballot, file.lines))
        taken = f"only {count}" if count else "none"
        yield Fault(
            file.name,
            f"debvote takes {taken} of the {that_came(file.lines)} lines as ballots",
            f"{cure_of(vote, file)}, or {FORCE}",
        )


def has_few_ballots(lines: Sequence[CheckedLine]) -> bool:
    """Whether most lines are no ballots; a line alone is looked at by whoever adds it."""
    count = that_came(lines)
    return count > 1 and that_came(filter(is_ballot, lines)) * 2 < count


def that_came(lines: Iterable[CheckedLine]) -> int:
    """How many lines these were when they came: what is refused of one is entered apart."""
    return len({line.original.where for line in lines})


def cure_of(vote: Vote, file: FileLines) -> str:
    head = file.file.data.removeprefix(MARK).lstrip().partition(b"\n")[0].decode("utf-8", "replace")
    if MEMBERS_HEADS <= {cell.strip(' \t\r"').casefold() for cell in re.split("[,;\t]", head)}:
        return "it looks like the list of members: name the file of ballots"
    return cure_by_reason(vote, "the file", file.lines)


# ---- what is printed
def report_of_files(
    vote: Vote, new: NewLines, numbers: Sequence[int], replies: Sequence[str]
) -> Iterator[str]:
    if numbers:
        yield from entering.late_notes(vote.election, new.history, say("what is added"))
    for file in new.files:
        if b"\r\n" in file.file.data:
            yield f"{file.name}: its lines end as Windows ends them"
        yield from (f"{line.where}: it is empty, and was left out" for line in file.empty)
        yield from repeated_words(file)
    yield from report_of_lines(vote, new.lines, numbers, replies)


def repeated_words(file: ComparedLines) -> Iterator[str]:
    if not (count := that_came(line for line, _ in file.repeated)):
        return
    ignored = "is ignored, since it" if count == 1 else "are ignored, since they"
    new = that_came(file.new)
    yield f"{file.name}: {count_of(count, 'line')} {ignored} came before; {new} {'is' if new == 1 else 'are'} new"
    changed = [(line, change) for line, change in file.repeated if change]
    for line, change in changed[:MAX_REPEATED]:
        yield f"  {line.original.where}: `{shown_line(line.as_entered)}` came before, and {change}"
    if len(changed) > MAX_REPEATED:
        yield f"  and {len(changed) - MAX_REPEATED} more"
    if changed:
        yield "  To enter such a line again, type it at a desk."
