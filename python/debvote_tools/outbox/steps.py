"""What comes next in an election: its steps as values, of which each command prints the first.

A step is due by the book, by what this machine noted, and by the clock. Each has an end that the
secretary can reach: an act, an asking of the web box, or that she says so (`status --done`).
"""

import contextlib
import datetime
import enum
import functools
import pathlib
from collections.abc import Callable, Iterator, Mapping, Sequence
from typing import TYPE_CHECKING, NamedTuple

from debvote_tools.book import outgoing, queries
from debvote_tools.book.book import SECONDS_BACK, Detail, DoneAct
from debvote_tools.book.queries import Elector
from debvote_tools.call.box import SCRIPT
from debvote_tools.call.draft import draft_in, labels_in
from debvote_tools.cli.console import act_time, count_of, tell
from debvote_tools.cli.faults import Fault
from debvote_tools.election import (
    CALL,
    LETTERS,
    MEMBERS_FILE,
    POLLS,
    RESULT,
    RESULT_LETTER,
    TELLERS,
    URN,
    Election,
    History,
)
from debvote_tools.inbox.last_asking import asked_last, has_page_of_now, last_box, unasked_fault
from debvote_tools.inbox.stopping import Pending, cases_of, pending_of
from debvote_tools.outbox.reached import NO_LETTER, page_since, unreached_and_printed
from debvote_tools.poll.questions import POLL_FILE
from debvote_tools.result.casting import in_shell, named, publishing
from debvote_tools.result.file_names import CHECKSUMS, CLOSED
from debvote_tools.result.places import is_free, is_publication, other_place
from debvote_tools.text import times
from debvote_tools.text.addresses import address_in

if TYPE_CHECKING:
    # what judges letters takes a while to be imported
    from debvote_tools.inbox.rules import LetterCase

# how old the first act may be that a backup lacks, and the last letter of the call that no reminder
# follows
DAY = datetime.timedelta(days=1)
# how long before the end electors are reminded
BEFORE_END = datetime.timedelta(days=2)

EXTENSION = f"{LETTERS}/extension.txt"


class Step(enum.Enum):
    """What the secretary does, in the order of an election."""

    # members and poll are filled in, the members read, the poll checked
    DRAFT = "draft"
    ROLL = "roll"
    CHECK = "check"
    CODES = "codes"
    # with the file of tellers (that is the kind) by clicks alone
    CALL = "call"
    # the `book` (that is the kind) may be the wrong one, or the `clock` of this computer be wrong
    DOUBTS = "doubts"
    # the page on the web host is none that this book made
    PAGE = "page"
    # so many letters that came have to be looked at
    HELD = "held"
    # to so many electors no receipt is written
    RECEIPTS = "receipts"
    # the folder of this kind, `call` or `result`, or the `script` of the web box
    UPLOAD = "upload"
    # so many letters of this kind, none of which a server has taken; 0 if all are to be printed, or
    # none can be written to electors
    LETTERS = "letters"
    # so many electors to whom a letter was refused, or from whom it came back
    NOT_REACHED = "reached"
    BACKUP = "backup"
    # so many electors have no ballot
    REMINDERS = "reminders"
    # until a time nothing but ballots
    WAIT = "wait"
    CLOSE = "close"
    # the list of this number is opened by the teller of this name (that is the kind)
    OPENING = "opening"
    COUNT = "count"
    PUBLISH = "publish"
    # the result that was published last has ties at these questions, with the options left
    TIE = "tie"
    NOTHING = "nothing"


# of these the secretary may say that they are done, since perhaps she alone knows
SAID = (Step.RECEIPTS, Step.UPLOAD, Step.LETTERS, Step.NOT_REACHED, Step.BACKUP)
# who has done these otherwise, and not said so, is told the next step, too
BESIDE = (Step.UPLOAD, Step.BACKUP)


class Due(NamedTuple):
    """A step that is due, with what a sentence or a button needs: how many, of which kind, until
    when, and which options casting votes may choose, by the labels of the questions.
    """

    step: Step
    number: int = 0
    kind: str = ""
    time: datetime.datetime | None = None
    questions: Mapping[str, Sequence[str]] = {}


class Now:
    """What steps are found by."""

    def __init__(self, election: Election, history: History) -> None:
        self.election = election
        self.book = election.book
        self.history = history
        self.time = times.now()
        # the act of the call; 0 before it
        self.call = history.call.number if history.call else 0
        self.is_over = bool(self.call) and history.is_over(self.time)

    @functools.cached_property
    def done(self) -> Mapping[str, int]:
        """The acts up to which steps are done, as this machine noted."""
        with contextlib.suppress(Fault):
            if noted := self.book.note().read():
                return noted.done
        return {}

    def done_until(self, step: Step) -> int:
        return self.done.get(step.value, 0)

    @functools.cached_property
    def electors(self) -> list[Elector]:
        return queries.electors(self.book)

    @functools.cached_property
    def cases(self) -> list["LetterCase"]:
        """The letters that came, but for those of which nothing but their ballots is told."""
        return cases_of(self.election, self.history, queries.may_be_told)

    @functools.cached_property
    def pending(self) -> Pending:
        return pending_of(self.history, self.cases)

    @functools.cached_property
    def letters_to_tell(self) -> dict[tuple[int, int], int]:
        """The acts that kept letters, by the electors who are told of them, and their numbers."""
        if not self.cases:
            return {}
        from debvote_tools.inbox.fates import letters_to_tell

        numbers = {elector.name: elector.number for elector in self.electors}
        entered = queries.entered_pairs(self.book, [case.number for case in self.cases])
        told = {
            (numbers[name], case.number): case.kept.act
            for name, case in letters_to_tell(self.cases)
            if name in numbers
        }
        return {pair: act for pair, act in told.items() if pair not in entered}

    @property
    def runs_of_reminders(self) -> list[DoneAct]:
        runs = self.history.since_call("letters out")
        return [act for act in runs if act.detail["kind"] == "reminders"]

    def for_acts(self) -> Iterator[tuple[str, int]]:
        """The kinds of letters that all electors get now, but for receipts, each with its act."""
        history = self.history
        if not self.is_over:
            yield "call", history.since_call("call", "extend")[-1].number
        if history.has_void_list:
            yield "void", history.named("reopen")[-1].number
        if history.is_closed:
            yield "closed", history.closes[-1].number
            if published := history.last_publication:
                yield "result", published.number


def what_next(election: Election, history: History) -> list[Due]:
    return due_now(Now(election, history))


def due_now(now: Now) -> list[Due]:
    """All that is due, in its order: the first is the next step. The last is what has to be waited
    for, or that nothing is left.
    """
    finders = BEFORE_CALL if now.history.call is None else SINCE_CALL
    return [due for find in finders for due in find(now)]


# ---- each step, if it is due
def doubts(now: Now) -> Iterator[Due]:
    if now.book.doubts():
        yield Due(Step.DOUBTS, kind="book")
    last = now.history.last.time
    if (last - now.time).total_seconds() > SECONDS_BACK:
        yield Due(Step.DOUBTS, kind="clock", time=last)


def draft(now: Now) -> Iterator[Due]:
    if not now.electors:
        yield from (Due(Step.DRAFT), Due(Step.ROLL))
        return
    yield Due(Step.CHECK)
    have_codes = now.history.has_codes_on_roll or all(elector.code for elector in now.electors)
    if not have_codes and needs_codes(now.election):
        yield Due(Step.CODES)
    yield Due(Step.CALL, kind=TELLERS if now.election.path(TELLERS).exists() else "")


def needs_codes(election: Election) -> bool:
    """Whether the poll says so that is not sealed yet; one that can't be read says nothing."""
    if election.path(TELLERS).exists():
        return False
    with contextlib.suppress(Fault):
        drafts = (draft_in(election, label) for label in labels_in(election.folder))
        return any(draft.says("secret") for draft in drafts)
    return False


def page(now: Now) -> Iterator[Due]:
    if last_box(now.history).get("page") == 0 and not (now.is_over or now.history.publications):
        yield Due(Step.PAGE)


def held(now: Now) -> Iterator[Due]:
    """Letters that arrived in time; and while people vote, before the call."""
    number = len(now.pending.stopping) + (0 if now.is_over else now.pending.before_call)
    if number:
        yield Due(Step.HELD, number)


def receipts(now: Now) -> Iterator[Due]:
    """What came since the last receipts, or was struck or taken back."""
    if now.history.has_codes_on_roll:
        return
    since = now.done_until(Step.RECEIPTS)
    due = outgoing.untold(now.book, now.call, since)
    if now.letters_to_tell:
        told = outgoing.told_letters(now.book, now.call)
        new = {pair for pair, act in now.letters_to_tell.items() if act > since}
        due |= {elector for elector, _ in new - told}
    if due:
        yield Due(Step.RECEIPTS, len(due))


def upload(now: Now) -> Iterator[Due]:
    """The folder of the result; that of the call while people vote, if it says an address."""
    history = now.history
    done = now.done_until(Step.UPLOAD)
    # before the close people vote where the page of the call is
    if history.is_closed and history.publications:
        if done < history.publications[-1].number:
            yield Due(Step.UPLOAD, kind=RESULT)
        return
    if history.tellers and history.is_closed:
        if done < history.since_call("close", "handed on")[-1].number:
            yield Due(Step.UPLOAD, len(history.handed_on), URN)
        return
    if now.is_over or not history.announced("at"):
        return
    if not history.announced("box"):
        if done < max(queries.files_sealed(now.book, CALL).values()):
            yield Due(Step.UPLOAD, kind=CALL)
        return
    asked = asked_last(now.election, history)
    if not (asked and asked["is_present"]):
        box = last_box(history)
        has_page = box.get("at") == history.announced("at") and has_page_of_now(now.election, box)
        yield Due(Step.UPLOAD, kind=SCRIPT if has_page else CALL)


def letters(now: Now) -> Iterator[Due]:
    """Receipts and reminders that were written; and what all electors get."""
    if number := len(unsent_receipts(now)):
        yield Due(Step.LETTERS, number, "receipts")
    if number := len(unsent_reminders(now)):
        yield Due(Step.LETTERS, number, "reminders")
    for kind, for_act in now.for_acts():
        if left := left_of(now, kind, for_act):
            number = sum(bool(address_in(elector.addresses)) for elector in left)
            yield Due(Step.LETTERS, number, kind)


def unsent_receipts(now: Now) -> list[int]:
    """The electors; none for a receipt about a letter in whose place there is a ballot now."""
    return [
        elector
        for elector, about in outgoing.unsent(now.book, "receipts", now.done_until(Step.LETTERS))
        if any(
            what == "envelope" or (elector, number) in now.letters_to_tell
            for what, number, _ in about
        )
    ]


def unsent_reminders(now: Now) -> set[int]:
    """The electors who have not voted since. A run of another day is a new one."""
    runs = [] if now.is_over else now.runs_of_reminders
    since = [act.number - 1 for act in runs if now.time - act.time < DAY]
    if not since:
        return set()
    after = max(since[0], now.done_until(Step.LETTERS))
    counted_answers = queries.what_counts(now.book)
    silent = {elector.number for elector in now.electors if elector.name not in counted_answers}
    return silent.intersection(dict(outgoing.unsent(now.book, "reminders", after)))


def left_of(now: Now, kind: str, for_act: int) -> list[Elector]:
    """The electors to whom no letter of a kind and for an act went since they have the own mark and
    the page of now; nor since the secretary said that these are sent. With codes on the roll nobody
    has an address.
    """
    marked = outgoing.new_marks(now.book, now.call)
    through = outgoing.through(now.book, kind, for_act)
    begin = max(for_act, page_since(now.history))
    said = now.done_until(Step.LETTERS)
    return [
        elector
        for elector in now.electors
        if max(through.get(elector.number, 0), said) < max(begin, marked.get(elector.number, 0))
    ]


def not_reached(now: Now) -> Iterator[Due]:
    """Who has voted knows of the vote."""
    if now.is_over or now.history.has_codes_on_roll:
        return
    if not (outgoing.was_refused(now.book) or any(case.read.returned for case in now.cases)):
        return
    by_mail, _ = unreached_and_printed(now.election, now.history)
    done = now.done_until(Step.NOT_REACHED)
    failed = [one.elector.name for one in by_mail if one.why != NO_LETTER and one.act > done]
    if number := len(set(failed) - queries.what_counts(now.book).keys()):
        yield Due(Step.NOT_REACHED, number)


def backup(now: Now) -> Iterator[Due]:
    """A day after the first act that the last copy of the book lacks; at once if that is the call
    with the key of a web box.
    """
    last = now.done_until(Step.BACKUP)
    has_key = last >= now.call or not now.history.announced("box")
    lacking = now.history.acts[max(last, now.call) :][:1]
    if not has_key or any(now.time - act.time > DAY for act in lacking):
        yield Due(Step.BACKUP)


def reminders(now: Now) -> Iterator[Due]:
    """Once before the end, if the call went out a day before."""
    history = now.history
    until = history.until
    if until is None or now.is_over or now.time < until - BEFORE_END or not history.runs_of_call:
        return
    is_soon = now.time - history.runs_of_call[-1].time < DAY
    if is_soon or any(act.time >= until - BEFORE_END for act in now.runs_of_reminders):
        return
    if (number := len(now.electors) - queries.numbers(now.book).voters) > 0:
        yield Due(Step.REMINDERS, number)


def ending(now: Now) -> Iterator[Due]:
    """The close and what follows it, or what has to come before."""
    history = now.history
    if not history.is_closed:
        is_to_come = history.ends_after(now.time) and not history.closes
        yield Due(Step.WAIT, time=history.until) if is_to_come else Due(Step.CLOSE)
        return
    if not history.are_all_opened:
        lists = len(history.handed_on)
        yield Due(Step.OPENING, lists, [*history.tellers][lists])
        return
    if not history.publications:
        yield from (Due(Step.COUNT), Due(Step.PUBLISH))
        return
    if ties := ties_of(now.election, history):
        yield Due(Step.TIE, questions=ties)
        return
    yield Due(Step.NOTHING)


BEFORE_CALL = (doubts, draft)
SINCE_CALL = (doubts, page, held, receipts, upload, letters, not_reached, backup, reminders, ending)


def ties_of(election: Election, history: History) -> dict[str, Sequence[str]]:
    """What casting votes may choose, if the last publication has a tie; of a question that one has
    decided that option alone.
    """
    detail = history.publications[-1].detail
    names = {label: poll.plain_names for label, poll in election.decided.items()}
    ties: dict[str, Sequence[str]] = {
        label: [names[label][option - 1] for option in its["left"]]
        for label, its in detail["ended"].items()
        if its["winner"] is None
    }
    return {label: [option] for label, option in detail["casting"].items()} | ties if ties else {}


# ---- in words
def tell_next(election: Election, *taken: Step) -> None:
    """The last line of a command. `taken` are steps that it takes itself, and that the book does
    not keep.
    """
    due = what_next(election, election.history())
    tell(next_line(election, [one for one in due if one.step not in taken]))


def next_line(election: Election, due: Sequence[Due], before: str = "") -> str:
    """The next step; with those before it that may be done already."""
    first = next(number for number, one in enumerate(due, start=1) if one.step not in BESIDE)
    return f"Next: {before}{'; then '.join(in_words(election, one) for one in due[:first])}"


def words_of(election: Election, *steps: Step) -> list[str]:
    """What is said of those of these steps that are due."""
    due = what_next(election, election.history())
    return [in_words(election, one) for one in due if one.step in steps]


def in_words(election: Election, due: Due) -> str:
    """A step as a terminal says it: why it is due, and the command."""
    if due.step in IN_WORDS:
        return IN_WORDS[due.step](election, due)
    places = {
        "kind": due.kind,
        "number": str(due.number),
        "waiting": count_of(due.number, "letter waits", "letters wait"),
        "electors": count_of(due.number, "elector"),
        "time": times.time_in_words(due.time) if due.time else "",
    }
    return PLAIN[due.step].format_map(Places(election, places))


class Places(dict[str, str]):
    """What is in braces: a place that is given, or else a command."""

    def __init__(self, election: Election, places: Mapping[str, str]) -> None:
        super().__init__(places)
        self.election = election

    def __missing__(self, words: str) -> str:
        return self.election.command(*words.split())


def said(election: Election, step: Step) -> str:
    return election.command("status", "--done", step.value)


def draft_words(polls: str, roll: str) -> str:
    """What is done with the files of a new election, of which these are the polls."""
    return f"write the members into {MEMBERS_FILE} with a spreadsheet, fill in {polls} with an editor, then run: {roll}"


def new_words(election: Election, _: Due) -> str:
    polls = POLL_FILE if election.path(POLL_FILE).exists() else f"the files in {POLLS}"
    return draft_words(polls, election.command("roll"))


def call_words(election: Election, due: Due) -> str:
    if due.kind:
        return election.command("call", "--box", "--at", "URL", "--until", "YYYY-MM-DD HH:MM")
    command = election.command("call", "--until", "YYYY-MM-DD HH:MM", "--to", "ADDRESS")
    return f"{command} (the end of the vote, and the address for ballots; both are optional)"


def doubt_words(election: Election, due: Due) -> str:
    if due.time:
        return f"the clock of this computer is wrong: the last act was at {act_time(due.time)}; set it right"
    doubt = election.book.doubts()[0]
    return f"{doubt.reason}; {doubt.cure}"


def receipt_words(election: Election, due: Due) -> str:
    written = count_of(due.number, "receipt is", "receipts are")
    return f"{written} not written: {sending(election, 'receipts')}"


def sending(election: Election, *kind: str) -> str:
    """The command that sends letters, with what it has to be told."""
    history = election.history()
    words = [] if remembered(history) else ["--server", "HOST"]
    words += [] if history.announced("to") else ["--from", "ADDRESS"]
    return election.command("letters", *kind, "--send", *words)


def remembered(history: History) -> Detail | None:
    """The detail of the last act of a letter that was sent, which names the server; None since a
    move: a copy for a rehearsal sends no real letters.
    """
    acts = history.named("letter sent", "moved")
    return acts[-1].detail if acts and acts[-1].name == "letter sent" else None


def upload_words(election: Election, due: Due) -> str:
    history = election.history()
    ask = election.command("add", "--box")
    if due.kind == SCRIPT:
        script = election.path(CALL) / SCRIPT
        return f"upload {script} again, since electors have new links; then {ask}"
    if due.kind == URN:
        list_now = election.path(URN) / f"list-{due.number}.txt"
        return f"put {list_now} on the web site beside the page of the call, then {said(election, Step.UPLOAD)}"
    if due.kind == RESULT:
        place = published_place(election, history) or "of the result"
        return (
            f"put the folder {place} on the web site as it is, then {said(election, Step.UPLOAD)}"
        )
    if not history.announced("box"):
        return f"put {election.path(CALL)} on the web site, then {said(election, Step.UPLOAD)}"
    # what lies at its address is fetched before somebody deletes it
    at = history.announced("at")
    first = f"run {ask}, then " if last_box(history).get("at") == at else ""
    return f"{first}upload the files of {election.path(CALL)} to {at}, {SCRIPT} too; then {ask}"


def published_place(election: Election, history: History) -> pathlib.Path | None:
    """The folder of the last publication, unless it is at a place of another name."""
    checksums = [act.detail["checksums"][CHECKSUMS] for act in history.publications[-1:]]
    places = [election.path(RESULT), *sorted(election.folder.glob(f"{RESULT}-*"))]
    return next(
        (place for place in places for sum in checksums if is_publication(place, sum)), None
    )


def next_place(election: Election) -> list[str]:
    """Where the next publication may be, as `publish` is told it: no result is replaced since the
    last close but the last one.
    """
    usual = election.path(RESULT)
    place = published_place(election, election.history())
    if place is None:
        place = usual if is_free(usual) else other_place(usual)
    return [] if place == usual else [str(place)]


# one letter of each kind, and several
OF_KIND = {
    "call": ("letter of the call", "letters of the call"),
    "receipts": ("receipt", "receipts"),
    "reminders": ("reminder", "reminders"),
    "closed": ("letter of the close", "letters of the close"),
    "void": ("letter about the void list", "letters about the void list"),
    "result": ("letter of the result", "letters of the result"),
}


def letters_words(election: Election, due: Due) -> str:
    history = election.history()
    done = said(election, Step.LETTERS)
    if history.has_codes_on_roll:
        return f"send {file_of(election, history, due.kind)} to all electors, then {done}"
    write = election.command("letters", due.kind)
    is_of_slips = election.questions.is_secret and not history.is_secret_by_click
    if due.kind == "call" and is_of_slips and not history.runs_of_call:
        file = file_of(election, history, due.kind)
        return f"letters with the codes: {write}; or hand out the slips, and send {file} to all, then {done}"
    one, several = OF_KIND[due.kind]
    if not due.number:
        return f"{several} are to be printed: {write}"
    # without a kind no reminders are sent
    send = sending(election, *(["reminders"] if due.kind == "reminders" else []))
    if due.kind == "result" and not history.announced("at"):
        send = f"{sending(election, 'result')} --at URL"
    is_one = due.number == 1
    return (
        f"{count_of(due.number, one, several)} {'is' if is_one else 'are'} not sent: {send}; or "
        f"by your mail program: {write}, then {done}"
    )


def file_of(election: Election, history: History, kind: str) -> pathlib.Path:
    """The letter of a kind to all."""
    files = {"closed": f"{LETTERS}/{CLOSED}", "result": f"{LETTERS}/{RESULT_LETTER}"}
    of_call = EXTENSION if history.since_call("extend") else f"{CALL}/call.txt"
    return election.path(files.get(kind, of_call))


def reminder_words(election: Election, due: Due) -> str:
    remind = sending(election, "reminders")
    if unasked_fault(election, election.history(), "reminders"):
        remind = f"{election.command('add', '--box')}, then {remind}"
    have = count_of(due.number, "elector has", "electors have")
    return f"{have} no ballot: {remind}"


def entering(election: Election) -> str:
    return f"{election.command('add', 'FILE')}, or {election.command('desk')}"


def close_words(election: Election, _: Due) -> str:
    history = election.history()
    now = times.now()
    close = election.command("close", *(["--early"] if history.ends_after(now) else []))
    if history.closes:
        return f"{close}, once what came in time is entered: {entering(election)}"
    if history.until is None:
        return f"{close}, when the vote is over; until then {entering(election)}"
    return close


def publish_words(election: Election, due: Due) -> str:
    """How to publish; of a tie with what follows it."""
    publish = election.command("publish", *next_place(election))
    if not due.questions:
        return publish
    return (
        f"{publish}, and {election.command('letters', '--send')}, so that everybody sees the tie "
        f"before the casting vote; then {tie_words(election, due)}"
    )


def tie_words(election: Election, due: Due) -> str:
    """The command with each choice; what several ties need together has no names."""
    tied = {label: names for label, names in due.questions.items() if len(names) > 1}
    ties = "; ".join(
        f"{named(label)} is a tie between {in_shell(names)}" for label, names in tied.items()
    )
    chosen = {
        label: "NAME" if label in tied else names[0] for label, names in due.questions.items()
    }
    ways = [chosen]
    if len(tied) == 1:
        [(label, names)] = tied.items()
        ways = [chosen | {label: name} for name in names]
    place = next_place(election)
    commands = " or ".join(publishing(election, way, *place) for way in ways)
    return (
        f"{ties}; the holder of the casting vote chooses one of them: {commands}"
        if tied
        else commands
    )


# steps whose words need no more than commands, which are in braces, and these places
PLAIN = {
    Step.ROLL: "{roll}",
    Step.CHECK: "{check}",
    Step.CODES: "the vote is secret, and electors have no codes yet: {codes}",
    Step.PAGE: "the page on the web host is not that of the call: upload the folder call, then {add --box}",
    Step.HELD: "{waiting}: {held}",
    Step.NOT_REACHED: "the call has not reached {electors}, whom status names: tell them otherwise, then "
    "{status --done reached}; or correct members.csv, and run {roll}",
    Step.BACKUP: "copy the book to another disk: {backup FILE}",
    Step.WAIT: "until {time} ballots come: {add FILE}, or {desk}",
    Step.OPENING: "{kind} opens list-{number}.txt in the hall, or once it was there for a day; then {tellers LIST}",
    Step.COUNT: "{count}",
    Step.NOTHING: "nothing is left; if somebody asks about a ballot, {show NAME} says what came",
}
IN_WORDS: Mapping[Step, Callable[[Election, Due], str]] = {
    Step.DRAFT: new_words,
    Step.CALL: call_words,
    Step.DOUBTS: doubt_words,
    Step.RECEIPTS: receipt_words,
    Step.UPLOAD: upload_words,
    Step.LETTERS: letters_words,
    Step.REMINDERS: reminder_words,
    Step.CLOSE: close_words,
    Step.PUBLISH: publish_words,
    Step.TIE: tie_words,
}
