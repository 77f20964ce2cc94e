"""The book: one SQLite database with all of an election, and whether this machine knows it so.

An act adds rows, in one transaction, and is reported only after its commit. Triggers refuse what
would change or remove a row.
"""

import collections
import contextlib
import datetime
import fcntl
import functools
import json
import os
import pathlib
import sqlite3
from collections.abc import Iterable, Iterator, Sequence
from typing import Any, Final, Literal, NamedTuple

from debvote_tools.book import chain
from debvote_tools.book.machine_note import MachineNote, Note, machine_of
from debvote_tools.cli.console import ENDED
from debvote_tools.cli.faults import Fault, Status, bad_arguments, kept_in
from debvote_tools.files import read_at_most, uninterrupted, whole_folder
from debvote_tools.text import times
from debvote_tools.text.addresses import address_in
from debvote_tools.text.ballots import part_of

BOOK_FILE = "election.db"

AGAIN = "run the command again"

# the act that takes another book than that of the note, and why if it is that of the note
MOVED: Final = "moved"
RESTORED = "it was restored, as the secretary says"

# "dbvt"; and the version of the schema, and of what is kept of letters as JSON
APPLICATION_ID = 0x64627674
VERSION = 1

# how a database of SQLite begins, how many bytes say what it is, and where these have the version
# and the application id
SQLITE = b"SQLite format 3\0"
HEAD = 72
VERSION_AT = slice(60, 64)
ID_AT = slice(68, 72)

SETTINGS = "foreign_keys=ON recursive_triggers=ON journal_mode=DELETE synchronous=EXTRA".split()

# what became of each envelope, which every connection says for itself
VIEWS = pathlib.Path(__file__).with_name("views.sql")

# the views of the book that hold lines, as they are for one question: `views.sql` reads them then.
# Their `answer` is debvote's, why it refuses the line; `ballot` has refused lines, too
ONE_QUESTION = """CREATE TEMP VIEW {view} AS SELECT * FROM (
  SELECT envelope, act, elector, part_of(line, '{label}') AS line, source, letter, place, time, late,
    answer, struck FROM main.{view}
) WHERE line IS NOT NULL"""
VIEWS_OF_LINES = ("entered", "ballot")

# the byte of the file that SQLite locks for an act, and how many seconds an act waits for others
RESERVED_BYTE = 0x40000001
PATIENCE = 120

# after so many steps of SQLite, some milliseconds, a query looks for signals
STEPS = 100_000


# the clock was put back if an act is earlier than the one before by more: clocks are set by some
SECONDS_BACK = 60


# ---- acts
# `put back` is `held --wait`; `letters` came, `letters out` were written
ActName = (
    Literal["new", "roll", "codes", "call", "extend", "announce", "take back", "addresses"]
    | Literal["letters", "add", "desk", "enter", "set aside", "put back", "undo", "strike"]
    | Literal["close", "reopen", "handed on", "publish", "letters out", "letter sent", "moved"]
)


# what the log keeps of an act, beside the rows that it added and `because`, the reason if one was
# given. `letters` and `lines` are how many came; of set aside, put back and enter their numbers
#   new: language
#   roll, addresses: electors, how many; codes: codes, how many, and on_roll
#   call, extend, announce: to, to_name, at, as the command line names them; box, names, signed,
#     keyring, codes_on_roll, quorum_votes; call, extend: until, zone
#   call: offset, of the clock of the computer from UTC, in seconds
#   call, announce, publish: agreed, the checksums of texts that a secret vote may make public
#   call: tellers, their points by their names, in the order in which they open
#   take back: call, its act; codes, how many have lapsed
#   letters: letters, and box, what the web box had; add: files, lines, letters,
#     unsigned, and passed_over, how many came before; desk: lines, and desk, its name
#   add, desk: came_before_close, after reopen
#   set aside, put back: letters; enter: letters, and lines, empty if the ballot was typed
#   undo: act, that it takes back; strike: envelope
#   close: questions, by label what it fixes of each (`Fixed`); early; left, the letters that had
#     arrived in time and wait, and waiting, how many these are; after_end and before_call, how many
#     others wait; replaced_in_time, how many late lines were entered again since the close before
#     in place of other ballots in time; with tellers clicks, slips and spoilt, how many each, and
#     voted, the checksum of that file
#   handed on: step, the checksum of the list, ballots and refused, how many each
#   publish: words, casting, ended, how each question did by its label, checksums, doubts, left
#   letters out: kind, letters, because; letter sent: kind, server, user
#   moved: why; noted, the act that was noted, and there, the one that is there
Detail = dict[str, Any]


class Overtaken(Fault):
    """Another act came between, which may have changed what this one was decided by."""

    def __init__(self) -> None:
        super().__init__(None, "another command changed the election meanwhile", AGAIN)


class DoneAct(NamedTuple):
    number: int
    time: datetime.datetime
    name: ActName
    machine: str
    detail_as_json: str
    digest: str

    @property
    def detail(self) -> Detail:
        detail: Detail = json.loads(self.detail_as_json)
        return detail

    def went_back(self, before: "DoneAct") -> bool:
        """Whether the clock went back since the act before."""
        return (before.time - self.time).total_seconds() > SECONDS_BACK


class NewAct(NamedTuple):
    """An act while it is written."""

    connection: sqlite3.Connection
    number: int
    time: datetime.datetime
    name: ActName
    detail: Detail

    def insert_all(self, table: str, columns: str, rows: Iterable[Sequence[object]]) -> None:
        """Adds rows of this act, each with its values in these columns."""
        places = ", ?" * (columns.count(",") + 1)
        statement = f"INSERT INTO {table} (act, {columns}) VALUES ({self.number}{places})"
        self.connection.executemany(statement, rows)

    def insert(self, table: str, **values: object) -> int:
        """Adds a row of this act, and returns its number."""
        self.insert_all(table, ", ".join(values), [tuple(values.values())])
        [(row,)] = self.connection.execute("SELECT last_insert_rowid()")
        return int(row)


class Book:
    """An open book. `path` names the database file."""

    def __init__(
        self, path: pathlib.Path, connection: sqlite3.Connection, *, is_read_only: bool = False
    ) -> None:
        self.path = path
        self.connection = connection
        self.is_read_only = is_read_only
        self.file = file_at(path)
        self.read_acts = list[DoneAct]()
        # how many acts of each name were read
        self.act_names = collections.Counter[str]()
        # what `queries.all_electors` has read, and when; the names of the acts of this process
        self.electors_at: tuple[object, list[Any]] = (None, [])
        self.own_acts = dict[int, ActName]()
        # the label of the question that is shown alone
        self.label = ""

    # ---- reading
    def rows(self, query: str, *values: object) -> list[Any]:
        with sqlite_faults(self.path):
            return self.connection.execute(query, values).fetchall()

    def value(self, query: str, *values: object) -> Any:
        """The one value that a query finds."""
        return self.rows(query, *values)[0][0]

    def acts(self) -> Sequence[DoneAct]:
        """All acts, in their order. They never change, so only new ones are read."""
        query = "SELECT act, time, name, machine, detail, digest FROM act WHERE act > ? ORDER BY 1"
        last = self.read_acts[-1].number if self.read_acts else 0
        for number, time, *others in self.rows(query, last):
            try:
                self.read_acts.append(DoneAct(number, from_text(time), *others))
            except (ValueError, TypeError):
                raise damaged(self.path, f"act {number} has no time") from None
            self.act_names[others[0]] += 1
        return tuple(self.read_acts)

    def last_act(self) -> DoneAct:
        """The last act; there always is one, that of `new`."""
        return self.acts()[-1]

    def last_number(self) -> int:
        return self.last_act().number

    def digest_at(self, number: int) -> str | None:
        """The digest of an act; None if there is no such act."""
        digest: str | None = self.value("SELECT max(digest) FROM act WHERE act = ?", number)
        return digest

    def demand_whole(self) -> None:
        """Stops if anything in the book is not as its acts wrote it."""
        with self.snapshot():
            if found := chain.damage(self.connection):
                raise damaged(self.path, "; ".join(found))

    def snapshot(self) -> contextlib.AbstractContextManager[None]:
        """All queries within see one state of the book."""
        return self.transaction("BEGIN")

    @contextlib.contextmanager
    def transaction(self, begin: str) -> Iterator[None]:
        """A transaction, which is rolled back at the end unless it was committed."""
        with sqlite_faults(self.path):
            self.connection.execute(begin)
            try:
                yield
            finally:
                with contextlib.suppress(sqlite3.Error):
                    self.connection.rollback()

    @contextlib.contextmanager
    def question(self, label: str) -> Iterator[None]:
        """Queries within see one question alone: of each line the part that answers it, if one
        does. Within one only the empty label is seen alone, and nothing is written.
        """
        views = VIEWS_OF_LINES if label else ()
        before = self.label
        with sqlite_faults(self.path):
            try:
                for view in views:
                    self.connection.execute(ONE_QUESTION.format(view=view, label=label))
                self.label = label or before
                yield
            except BaseException:
                # of a damaged book this fails, too, and what failed within is told
                with contextlib.suppress(sqlite3.Error):
                    self.show_all(views, before)
                raise
            self.show_all(views, before)

    def show_all(self, views: Sequence[str], label: str) -> None:
        """Ends that one question is seen alone; the label is that of before."""
        for view in views:
            self.connection.execute(f"DROP VIEW IF EXISTS temp.{view}")
        self.label = label

    # ---- acts
    @contextlib.contextmanager
    def act(self, name: ActName, detail: Detail | None = None) -> Iterator[NewAct]:
        """One act: its rows are committed at the end, or none after an exception. Within the act
        nobody is asked and no program runs.
        """
        # it may have been raised where Python drops it
        if ENDED:
            raise ENDED[-1]
        self.note().make_ready()
        with self.transaction("BEGIN IMMEDIATE"):
            before = self.last_act()
            if file_at(self.path) != self.file:
                # what is written into the open file, nobody finds again
                reason = "another file took its place while this command was running"
                raise Fault(self.path, reason, f"find out which of both is right, then {AGAIN}")
            if name != MOVED:
                self.demand_noted()
            if (broken := chain.break_in(self.connection, before.number)) is not None:
                raise damaged(self.path, broken)
            act = NewAct(self.connection, before.number + 1, times.now(), name, detail or {})
            yield act
            with uninterrupted():
                self.finish(act, before.digest)
        self.note_seen(is_moved=name == MOVED)

    def finish(self, act: NewAct, digest_before: str) -> str:
        """Adds the row of the act, with its digest, and commits."""
        salt = os.urandom(16)
        detail = json.dumps(act.detail, ensure_ascii=False)
        machine = machine_of(salt) if act.number == 1 else self.machine
        row = (act.number, as_text(act.time), act.name, machine, detail, salt)
        digest = chain.digest_of(self.connection, digest_before, row)
        self.connection.execute("INSERT INTO act VALUES (?, ?, ?, ?, ?, ?, ?)", (*row, digest))
        try:
            self.connection.execute("COMMIT")
        except sqlite3.Error as error:
            if not self.is_there(act.number):
                raise
            reason = f"the commit failed ({error})"
            cure = "see debvote-election status, which tells the last act"
            done = f"nobody knows whether act {act.number} was done"
            raise Fault(self.path, reason, cure, Status.BAD_OUTPUT, done) from None
        self.own_acts[act.number] = act.name
        return digest

    def is_there(self, number: int) -> bool:
        """Whether an act is in the book although its commit failed; then nobody knows whether it
        stays.
        """
        try:
            self.connection.rollback()
            return self.digest_at(number) is not None
        except (sqlite3.Error, Fault):
            # by the journal, the next command that can write takes the act back
            return not self.path.with_name(f"{self.path.name}-journal").exists()

    # ---- this machine's note
    @functools.cached_property
    def machine(self) -> str:
        """This machine, as the acts of this book name it."""
        return machine_of(self.value("SELECT salt FROM act WHERE act = 1"))

    def note(self) -> MachineNote:
        return MachineNote(self.machine, self.path.resolve())

    def note_seen(self, *, is_moved: bool = False) -> None:
        """Notes the last act of the book that this machine knows: nobody can remove it unnoticed. A
        note that can't be written stays at an earlier act, as after a kill.
        """
        with contextlib.suppress(Fault, OSError):
            if is_moved or self.strangeness() is None:
                last = self.last_act()
                self.note().put(Note(last.number, last.digest, self.act_names), is_moved=is_moved)

    def note_done(self, name: str, number: int) -> None:
        """Notes that something is done up to an act, if a note can be written."""
        with contextlib.suppress(Fault, OSError):
            self.note().put_done(name, number)

    def strangeness(self) -> str | None:
        """Why this is not the book that this machine knows; None if it is."""
        noted = self.note().read()
        last = self.last_act()
        digest = noted and self.digest_at(noted.act)
        if noted is None:
            return "this computer has never seen this election in this folder"
        if digest is None:
            lacking_acts = collections.Counter(noted.names) - self.act_names
            acts = ", ".join(f"{name} ({count})" for name, count in lacking_acts.items())
            return (
                f"it ends with act {last.number}, and this computer has seen act {noted.act}: it "
                f"is an older copy, which lacks {acts}"
            )
        if digest != noted.digest:
            return f"its act {noted.act} is not the one that this computer saw: somebody went on from a copy, or made the book anew"
        if last.machine != self.machine:
            return f"its act {last.number} was done on another computer"
        return None

    def demand_noted(self) -> None:
        reason = self.strangeness()
        if reason is not None:
            cure = (
                "find out how that came about; if it is the right book, as after a move to this "
                "computer or folder, repeat the command with --moved --because TEXT (the result "
                "page says so)"
            )
            raise Fault(self.path, reason, cure)

    def accept(self, because: str) -> None:
        """The act `moved`: this machine takes this book for the right one. If the whole disk was
        put back, with the note, only who did it knows.
        """
        noted = self.note().read()
        last = self.last_act()
        detail: Detail = {
            "why": self.strangeness() or RESTORED,
            "noted": noted and noted._asdict(),
            "there": {"act": last.number, "digest": last.digest},
            "because": because,
        }
        self.demand_locks()
        with self.act(MOVED, detail):
            pass

    # ---- the file
    def doubts(self, *, is_accepted: bool = False) -> list[Fault]:
        """Why this may not be the book to work on: a copy lies beside it, or this machine knows
        another one, and this one is not accepted now.
        """
        reason = f"it is another book of this election, with acts that {BOOK_FILE} lacks; a sync tool may have left it"
        cure = "find out which book is right, and move the other out of the folder"
        faults = [Fault(file, reason, cure) for file in self.other_books()]
        if not is_accepted:
            with kept_in(faults):
                self.demand_noted()
        return faults

    def demand_locks(self) -> None:
        """Stops if a second process gets the lock that this one holds."""
        with self.transaction("BEGIN IMMEDIATE"):
            if not is_locked_for_others(self.path):
                reason = "locks do not work on this file system, as on some network shares"
                raise Fault(self.path, reason, "move the folder to a disk of this computer")

    def other_books(self) -> Iterator[pathlib.Path]:
        """The books in the folder with acts that this book lacks."""
        for file in sorted(self.path.parent.iterdir()):
            # a file that is gone by now was the journal of another command
            with contextlib.suppress(OSError):
                is_other = file.is_file() and not file.samefile(self.path)
                if is_other and has_our_id(read_at_most(file, HEAD)) and not self.begins_with(file):
                    yield file

    def begins_with(self, file: pathlib.Path) -> bool:
        """Whether this book has all acts of another one; False if that can't be read."""
        try:
            with contextlib.closing(connected(file, "ro")) as other:
                query = "SELECT act, digest FROM act ORDER BY act DESC LIMIT 1"
                [(number, digest)] = other.execute(query)
        except (sqlite3.Error, ValueError):
            return False
        return bool(self.digest_at(number) == digest)

    def back_up(self, target: pathlib.Path) -> None:
        with sqlite_faults(target), whole_folder(target, BOOK_FILE) as folder:
            (folder / BOOK_FILE).touch(0o600)
            with contextlib.closing(sqlite3.connect(folder / BOOK_FILE)) as copy:
                self.connection.backup(copy)


def is_locked_for_others(path: pathlib.Path) -> bool:
    """Whether a second process is refused the lock of SQLite that an act holds."""
    second = os.fork()
    if second == 0:
        # a process that closes the file loses all its locks on it
        status = 1
        try:
            handle = os.open(path, os.O_RDWR)
            try:
                fcntl.lockf(handle, fcntl.LOCK_EX | fcntl.LOCK_NB, 1, RESERVED_BYTE)
            except (BlockingIOError, PermissionError):
                status = 0
        finally:
            os._exit(status)
    return os.waitstatus_to_exitcode(os.waitpid(second, 0)[1]) == 0


# ---- making and opening
def create(path: pathlib.Path, detail: Detail, final_path: pathlib.Path) -> None:
    """Makes a new book with the act `new`; its folder is moved, so that it lies at `final_path`."""
    path.touch(0o600, exist_ok=False)
    connection = connected(path, "rw")
    book = Book(path, connection)
    with contextlib.closing(connection):
        with book.transaction("BEGIN IMMEDIATE"):
            connection.execute(f"PRAGMA application_id = {APPLICATION_ID}")
            connection.execute(f"PRAGMA user_version = {VERSION}")
            chain.write_schema(connection)
            digest = book.finish(NewAct(connection, 1, times.now(), "new", detail), chain.BEGINNING)
        book.demand_locks()
        # before the folder is moved: a kill between both leaves a note of nothing
        MachineNote(book.machine, final_path).put(Note(1, digest))


def open_book(path: pathlib.Path) -> Book:
    """Opens a book. Stops at a file that is none of this version, and at another schema."""
    demand_version(path)
    is_read_only = not (os.access(path, os.W_OK) and os.access(path.parent, os.W_OK))
    with sqlite_faults(path):
        try:
            connection = connected(path, "ro" if is_read_only else "rw")
            differing = chain.other_schema(connection)
        except UnicodeDecodeError:
            # SQLite quotes what it can't read
            raise damaged(path, "its schema is no text") from None
        except sqlite3.Error as error:
            if is_read_only and "unable to open" in str(error) or "readonly" in str(error):
                reason = "a command was cut off in its act, and the act can be taken back only in a folder that is writable"
                cure = f"copy {BOOK_FILE} and {BOOK_FILE}-journal together into a folder of your own, and work there"
                raise Fault(path, reason, cure, done=None) from None
            raise
        if differing is not None:
            raise damaged(path, f"{differing} is not as new makes it")
        book = Book(path, connection, is_read_only=is_read_only)
        if book.digest_at(1) is None:
            raise damaged(path, "it has no first act")
    return book


def demand_version(path: pathlib.Path) -> None:
    """Stops at a file that is no book of this version, which is not opened, so that it stays as it
    is.
    """
    head = read_at_most(path, HEAD)
    if not head.startswith(SQLITE):
        raise damaged(path, "it is no database of SQLite")
    if not has_our_id(head):
        cure = "name the folder of an election with --folder"
        raise bad_arguments(path, "it is a database of another program", cure, None)
    version = int.from_bytes(head[VERSION_AT], "big")
    if version != VERSION:
        reason = f"it is a book of version {version}, and this program writes version {VERSION}"
        raise bad_arguments(path, reason, "use the debvote-election that began this election")


def address_of(mail: str) -> str:
    """The first of the addresses of an elector that every mail server takes."""
    return address_in(json.loads(mail))


def connected(path: pathlib.Path, mode: str) -> sqlite3.Connection:
    address = f"{path.absolute().as_uri()}?mode={mode}"
    connection = sqlite3.connect(address, uri=True, isolation_level=None, timeout=PATIENCE)
    for setting in ("trusted_schema=OFF", *(SETTINGS if mode == "rw" else ())):
        connection.execute(f"PRAGMA {setting}")
    chain.prepare(connection)
    connection.create_function("part_of", 2, part_of, deterministic=True)
    connection.create_function("address_in", 1, address_of, deterministic=True)
    connection.executescript(VIEWS.read_text())
    # Python sees a signal only while it runs itself
    connection.set_progress_handler(lambda: False, STEPS)
    return connection


# what SQLite says if not the book is at fault, but its place: the reason, and the cure
BUSY = "other commands have worked on it for two minutes"
UNWRITABLE = "it can't be written"
CHECK_DISK = "check that the disk is in order"
OPEN_FOLDER = "make the file and its folder writable for you"
PLACES = {
    ("BUSY", "LOCKED"): (BUSY, "wait until they are done"),
    ("IOERR_READ", "IOERR_SHORT_READ"): ("it can't be read", CHECK_DISK),
    ("FULL", "IOERR"): (UNWRITABLE, f"make room on the disk, or {CHECK_DISK}"),
    ("READONLY", "CANTOPEN", "PERM", "AUTH"): (UNWRITABLE, OPEN_FOLDER),
    ("NOMEM",): ("SQLite gave up", "make room in memory"),
}


@contextlib.contextmanager
def sqlite_faults(path: pathlib.Path) -> Iterator[None]:
    """Raises an error of SQLite as a fault of the file."""
    try:
        yield
    except sqlite3.Error as error:
        kind = getattr(error, "sqlite_errorname", "").removeprefix("SQLITE_")
        if kind == "INTERRUPT":
            raise (ENDED or [KeyboardInterrupt()])[-1] from None
        for kinds, (reason, cure) in PLACES.items():
            if kind.startswith(kinds):
                cure += f", then {AGAIN}"
                raise Fault(path, f"{reason} ({error})", cure, Status.BAD_OUTPUT) from None
        raise damaged(path, str(error)) from None


def damaged(path: pathlib.Path, how: str) -> Fault:
    cure = "restore the last copy made by debvote-election backup, and find out how that came about"
    return Fault(path, f"the book is damaged, or another program changed it ({how})", cure)


def file_at(path: pathlib.Path) -> tuple[int, int] | None:
    """What tells the file at a path from others; None if there is none."""
    try:
        file = path.stat()
    except OSError:
        return None
    return file.st_dev, file.st_ino


def has_our_id(head: bytes) -> bool:
    """Whether a file that begins so is a database with the number of our books."""
    return head.startswith(SQLITE) and head[ID_AT] == APPLICATION_ID.to_bytes(4, "big")


# ---- values
def as_text(time: datetime.datetime) -> str:
    return time.astimezone(datetime.UTC).strftime("%Y-%m-%dT%H:%M:%SZ")


def from_text(text: str) -> datetime.datetime:
    return datetime.datetime.fromisoformat(text)
