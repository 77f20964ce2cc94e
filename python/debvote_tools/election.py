"""An election in its folder: the book, what its acts say of it as a whole, and debvote."""

import datetime
import functools
import pathlib
import shlex
from collections.abc import Sequence
from typing import Any, Literal, NamedTuple

from debvote_tools.book import queries
from debvote_tools.book.book import BOOK_FILE, ActName, Book, DoneAct, damaged, from_text, open_book
from debvote_tools.cli.arguments import Acting, demand_reason
from debvote_tools.cli.console import WHOSE, ZONE, tell_aside
from debvote_tools.cli.faults import NOTHING_CHANGED, Fault, Status, bad_arguments, stop_at
from debvote_tools.debvote import Debvote
from debvote_tools.files import real_place
from debvote_tools.poll.questions import Questions, read_questions
from debvote_tools.text.language import Language, language_of

MEMBERS_FILE = "members.csv"
POLLS = "polls"
TEXTS = "texts"
CALL = "call"
LETTERS = "letters"
RESULT = "result"
PRIVATE = "private"
# the lists that tellers are given, and hand on
URN = "urn"
MADE = (CALL, LETTERS, RESULT, PRIVATE, POLLS, TEXTS, URN)

# what the secretary writes: the tellers of a secret vote, to whom the page seals
TELLERS = "tellers.txt"

# the letter of the result for all, in the folder of letters
RESULT_LETTER = "result.txt"

# the names of what is sealed: the polls of the call, each with its label behind the name, and in a
# secret vote so the polls that have names, and so, with nothing in it, that a poll is a motion; the
# title of several questions; the keys of those whose letters have to be signed; what the secretary
# writes at the head of letters, in the file of the same name; the key of the box, which never
# leaves the book, its script, and its page
POLL = "poll"
POLL_WITH_NAMES = "poll with names"
MOTION = "motion"
TITLE = "title"
KEYRING = "keyring"
LETTER_TEXT = "letter.txt"
BOX_KEY = "box key"
BOX_SCRIPT = f"{CALL}/vote.php"
BOX_PAGE = f"{CALL}/index.html"


# how far the election is; after `reopen` it is called again
Stage = Literal["new", "called", "closed", "published"]


class History(NamedTuple):
    acts: Sequence[DoneAct]

    def named(self, *names: ActName) -> list[DoneAct]:
        return [act for act in self.acts if act.name in names]

    def since_call(self, *names: ActName) -> list[DoneAct]:
        """The acts of these names from the call that holds on, with the call; empty before it."""
        call = self.call
        return [act for act in self.named(*names) if call and act.number >= call.number]

    def act(self, number: int) -> DoneAct:
        return self.acts[number - 1]

    @property
    def last(self) -> DoneAct:
        return self.acts[-1]

    @property
    def call(self) -> DoneAct | None:
        """The call that holds: after one there is no other, unless it was taken back."""
        acts = self.named("call", "take back")
        return acts[-1] if acts and acts[-1].name == "call" else None

    def announced(self, key: str) -> Any:
        """What the call, or a later act that adds to it, says last of something, as `at`."""
        said = [act.detail.get(key) for act in self.since_call("call", "extend", "announce")]
        return next((value for value in reversed(said) if value is not None), None)

    @property
    def is_secret_by_click(self) -> bool:
        """Whether the vote is secret and has a box: of such a one alone the call says whether slips
        go out.
        """
        return self.announced("slips") is not None

    @property
    def tellers(self) -> dict[str, str]:
        """The public points of the tellers by their names, if the page seals ballots to them."""
        return dict(self.announced("tellers") or {})

    @property
    def handed_on(self) -> list[DoneAct]:
        """The acts that entered lists of tellers, one each, in their order: after one of them no
        vote is opened again.
        """
        return self.named("handed on")

    @property
    def are_all_opened(self) -> bool:
        """Whether the tellers have opened all layers, if there are any."""
        return len(self.handed_on) == len(self.tellers)

    @property
    def has_codes_on_roll(self) -> bool:
        acts = self.named("codes", "take back")
        return bool(acts and acts[-1].detail.get("on_roll"))

    @property
    def until(self) -> datetime.datetime | None:
        """Until when one can vote, with the offset in which it was announced."""
        until = self.announced("until")
        return None if until is None else from_text(until)

    @property
    def zone(self) -> datetime.tzinfo | None:
        """The zone in which the end was announced; without one that of the computer of the call."""
        offset = datetime.timedelta(seconds=self.announced("offset") or 0)
        return self.until.tzinfo if self.until else datetime.timezone(offset)

    def ends_after(self, time: datetime.datetime) -> bool:
        """Whether its announced end is still to come: to close before it takes `--early`."""
        return self.until is not None and time < self.until

    @property
    def runs_of_call(self) -> list[DoneAct]:
        """The acts that wrote letters of the call."""
        return [act for act in self.since_call("letters out") if act.detail["kind"] == "call"]

    def is_over(self, time: datetime.datetime) -> bool:
        """Whether nobody is asked to vote any more, also if it was opened again."""
        return bool(self.closes) or (self.until is not None and time > self.until)

    @property
    def askings(self) -> list[DoneAct]:
        """The acts that asked the web box."""
        return [act for act in self.since_call("letters") if "box" in act.detail]

    @property
    def closes(self) -> list[DoneAct]:
        """The closes since the call that holds: those of a call that was taken back are over."""
        return self.since_call("close")

    @property
    def was_closed_early(self) -> bool:
        """Whether the first close came before the end that was announced then."""
        return bool(self.closes and self.closes[0].detail["early"])

    @property
    def is_closed(self) -> bool:
        acts = self.since_call("close", "reopen")
        return bool(acts) and acts[-1].name == "close"

    @property
    def is_reopened(self) -> bool:
        """Whether the vote is open again: only what came before the first close is in time."""
        return bool(self.closes) and not self.is_closed

    @property
    def has_void_list(self) -> bool:
        """Whether the tellers have the list of a close after which the vote is open again."""
        return bool(self.tellers) and self.is_reopened

    def is_late(self, came_before_close: bool | None) -> bool:
        """Whether lines that are entered now are late, by the answer of whoever enters them."""
        return self.is_closed or (self.is_reopened and not came_before_close)

    @property
    def publications(self) -> list[DoneAct]:
        """The publications since the last close."""
        close = self.closes[-1].number if self.closes else 0
        return [act for act in self.named("publish") if act.number > close]

    @property
    def last_publication(self) -> DoneAct | None:
        return next(reversed(self.publications), None)

    @property
    def timing(self) -> list[DoneAct]:
        """The acts on which it depends whether the vote is open, and until when: a plan that is
        made again is compared by them.
        """
        return self.named("call", "take back", "extend", "close", "reopen")

    @property
    def stage(self) -> Stage:
        if not self.is_closed:
            return "new" if self.call is None else "called"
        return "published" if self.publications else "closed"


class Fixed(NamedTuple):
    """What a close fixes of a question: how many lines are in time, and the checksum of the ballots
    as they are published; in a secret vote with the random line that is above them.
    """

    lines: int
    checksum: str
    seal: str = ""


def fixed_by(close: DoneAct) -> dict[str, Fixed]:
    """What a close has fixed, by the labels of the questions."""
    return {label: Fixed(**of_one) for label, of_one in close.detail["questions"].items()}


class Sealed(NamedTuple):
    """The questions as everybody sees them, and as ballots are counted: they differ by aliases."""

    public: Questions
    counted: Questions

    @property
    def is_aliased(self) -> bool:
        return self.public != self.counted

    def files(self) -> dict[str, bytes]:
        """What the call seals of the polls, by the names under which the book has it."""
        names = [(POLL, self.public), (POLL_WITH_NAMES, self.counted)][: 1 + self.is_aliased]
        files = {
            f"{name} {label}".strip(): poll.as_bytes()
            for name, questions in names
            for label, poll in questions.items()
        }
        motions = (label for label, poll in self.public.items() if poll.motion)
        files |= {f"{MOTION} {label}".strip(): b"" for label in motions}
        if title := self.counted.title:
            files[TITLE] = title.encode()
        return files


class Election:
    """An election in a folder. The book is read anew each time, since others may work on it."""

    def __init__(
        self, folder: str | pathlib.Path | None, program_folder: pathlib.Path | None
    ) -> None:
        self.folder = pathlib.Path(folder or "")
        self.program_folder = program_folder
        self.is_named = folder is not None

    def path(self, name: str) -> pathlib.Path:
        return self.folder / name

    @functools.cached_property
    def debvote(self) -> Debvote:
        return Debvote(self.folder, self.program_folder)

    @functools.cached_property
    def open_book(self) -> Book:
        """The book, of which nothing is said: commands use `book` or `book_for`."""
        if not self.path(BOOK_FILE).is_file():
            raise no_book(self.folder)
        book = open_book(self.path(BOOK_FILE))
        book.note_seen()
        return book

    @functools.cached_property
    def book(self) -> Book:
        """The book: for reading, and for acts once `demand_right_book` has passed. Before that it
        says on standard error why it may not be the right one.
        """
        tell_aside(*(f"Note: {doubt.file}: {doubt.reason}." for doubt in self.open_book.doubts()))
        return self.open_book

    def whole_book(self) -> Book:
        """The book for reading, of which all digests are computed anew."""
        self.book.demand_whole()
        return self.book

    def book_for(self, arguments: Acting) -> Book:
        """The book for an act, and for what others rely on: `demand_right_book`, then `book`."""
        self.demand_right_book(arguments)
        return self.book

    def demand_right_book(self, arguments: Acting) -> None:
        """Stops if the book is not the one that this machine knows, unless --moved says that it is
        right.
        """
        book = self.open_book
        if arguments.writes:
            self.demand_writable()
        stop_at(book.doubts(is_accepted=arguments.moved))
        if arguments.moved:
            self.demand_writable()
            book.accept(demand_reason(arguments.because, "--moved"))
        # from now on nothing has to be said of it
        self.book = book
        if arguments.checks:
            book.demand_whole()

    def demand_writable(self) -> None:
        if self.open_book.is_read_only:
            cure = "make it writable for you, or copy the folder to where you can write"
            raise Fault(self.folder, "the folder is not writable", cure, Status.BAD_OUTPUT)

    @property
    def done(self) -> str:
        """The acts of this run, each as `act 7 (add)`; empty if it has done none."""
        own = self.open_book.own_acts if "open_book" in vars(self) else {}
        acts = [f"act {number} ({name})" for number, name in own.items()]
        if len(acts) > 1:
            return f"{len(acts)} acts were done, the last is {acts[-1]}"
        return "".join(f"{act} was done" for act in acts)

    def demand_undamaged(self) -> None:
        """Stops if the book, once it is open, is damaged."""
        if "open_book" in vars(self):
            self.open_book.demand_whole()

    @functools.cached_property
    def language(self) -> Language:
        return language_of(self.book.acts()[0].detail["language"])

    def history(self) -> History:
        """The acts until now. From here on times are told in the zone of the vote."""
        history = History(self.book.acts())
        ZONE.set(history.zone)
        return history

    def sealed(self, call: DoneAct | None = None) -> Sealed:
        """The questions of the call that holds, or of another one. Stops before the call. From here
        on what people wrote is told as the secrecy of the vote allows.
        """
        call = call or self.called(self.history())
        act = call.number
        public = queries.sealed_polls(self.book, POLL, act) or {"": b""}
        counted = queries.sealed_polls(self.book, POLL_WITH_NAMES, act) or public
        motions = queries.sealed_polls(self.book, MOTION, act)
        title = queries.sealed(self.book, TITLE, act).decode()
        try:
            # what is counted under names in a vote with tellers is no motion
            of_counted = {} if call.detail.get("tellers") else motions
            sealed = Sealed(
                read_questions(public, motions, title), read_questions(counted, of_counted, title)
            )
        except Fault:
            raise damaged(self.path(BOOK_FILE), "its sealed poll is not in plain form") from None
        WHOSE.set(functools.partial(queries.whose, self.book) if sealed.is_aliased else None)
        return sealed

    @property
    def questions(self) -> Questions:
        """The questions as ballots are counted. Stops before the call."""
        return self.sealed().counted

    @property
    def decided(self) -> Questions:
        """The questions as they are decided: with tellers not the check-off under names."""
        sealed = self.sealed()
        return sealed.public if self.history().tellers else sealed.counted

    def called(self, history: History) -> DoneAct:
        """The act of the call. Stops before it."""
        if history.call is None:
            raise Fault(None, "there is no call for votes yet", f"run {self.command('call')} first")
        return history.call

    def demand_outside(
        self, target: pathlib.Path, *names: str, done: str = NOTHING_CHANGED
    ) -> None:
        """Stops at a place in one of these folders of the election, whether it is there or not."""
        for name in names:
            if real_place(target).is_relative_to(real_place(self.path(name))):
                words = f"it would be in the folder {name}, whose files go to others"
                raise bad_arguments(target, words, "name a place outside that folder", done)

    def command(self, *words: str) -> str:
        folder = [] if self.folder == pathlib.Path() else ["--folder", str(self.folder)]
        return shlex.join(["debvote-election", *words[:1], *folder, *words[1:]])


def no_book(folder: pathlib.Path) -> Fault:
    """The fault of a folder without a book, with what it is instead."""
    words = f"there is no {BOOK_FILE} in it, so it is not an election"
    cure = "go to the folder of the election, or name it with --folder; new makes one"
    place = folder.absolute()
    if not folder.is_dir():
        words = "there is no such folder"
        cure = "name the folder of the election with --folder"
    elif (place.parent / BOOK_FILE).is_file() and place.name in MADE:
        words = "the election is one folder up"
        cure = "go there with cd .., then run the command again"
    return bad_arguments(folder, words, cure, None)
