"""The book, `log --check`, `backup`: what happens to an election whose book was copied, put back, rewritten, damaged, or lies where it can't be kept."""

import contextlib
import hashlib
import io
import json
import os
import pathlib
import re
import shlex
import shutil
import signal
import sqlite3
import subprocess
import sys
import time
from collections.abc import Sequence
from unittest import mock

import pytest

from debvote_tools.book import chain, machine_note, queries
from debvote_tools.book.book import open_book
from debvote_tools.cli.faults import Fault

from tests.support import elections

INSIDE = elections.ROOT / "docs" / "INSIDE.md"

MOVED = "--moved --because 'the disk was exchanged'"

# the commands that stop at a book that this machine does not know, and those that say so and go on
ACTING = (
    "add --yes more|close|roll|strike 1 --because x|undo --yes|desk|held 1 --set-aside|"
    "reopen --because x|call --to x@club.example|codes|count|publish|letters receipts"
).split("|")
READING = "status|status --json|show ada|log|log --check|held|check|add --look more".split("|")
# the commands on whose words others rely: they read the whole chain
RELYING = "log --check|count|close|publish|export out|backup copy.db".split("|")

# some that do an act
ACTS = ["strike 1 --because x", "add --yes more", "undo --yes", "call --at https://club.example/"]

# gives each lock that somebody asks for, as some file systems do
NO_LOCKS = """
#define _GNU_SOURCE
#include <dlfcn.h>
#include <fcntl.h>
#include <stdarg.h>
int fcntl64(int file, int command, ...) {
  va_list rest; va_start(rest, command); void *argument = va_arg(rest, void *); va_end(rest);
  if (command == F_SETLK || command == F_SETLKW || command == F_OFD_SETLK) return 0;
  if (command == F_GETLK) { ((struct flock *) argument)->l_type = F_UNLCK; return 0; }
  int (*real)(int, int, ...) = dlsym(RTLD_NEXT, "fcntl64");
  return real(file, command, argument);
}
int fcntl(int file, int command, ...) {
  va_list rest; va_start(rest, command); void *argument = va_arg(rest, void *); va_end(rest);
  return fcntl64(file, command, argument);
}
"""

# changes the first ballot
CHANGED = "UPDATE envelope SET line = CAST('ada 4,3,2,1' AS BLOB) WHERE envelope = 1"


class BookTest(elections.ElectionTest):
    @property
    def book(self) -> pathlib.Path:
        return self.folder / "election.db"

    def add(self, *lines: str):
        self.write("lines", "".join(f"{line}\n" for line in lines))
        self.done("add --yes lines")

    def opened(self) -> contextlib.closing[sqlite3.Connection]:
        """The book, in another program."""
        return contextlib.closing(sqlite3.connect(self.book, isolation_level=None))

    def sql(self, *statements: str):
        """Changes the book with another program, past its triggers, which are there again afterwards."""
        triggers = self.rows("SELECT name, sql FROM sqlite_schema WHERE type = 'trigger'")
        dropped = [f"DROP TRIGGER {name}" for name, _ in triggers]
        with self.opened() as connection:
            for statement in (*dropped, *statements, *(sql for _, sql in triggers)):
                connection.execute(statement)

    def stops(self, typed: str, *parts: str):
        """A command ends with a fault, which says what it has not done."""
        with self.subTest(typed):
            self.refused(typed, *parts, elections.nothing_by(typed.split()))

    def assert_stops(
        self,
        *parts: str,
        acting: Sequence[str] = ACTING[:2],
        reading: Sequence[str] = READING[:1],
    ):
        """What writes an act, or says what others rely on, stops; what reads says it and goes on."""
        self.write("more", "hal 1,2,3,4\n")
        before = self.read("election.db")
        for typed in acting:
            self.stops(typed, *parts)
        for typed in reading:
            with self.subTest(typed):
                ended = self.election(typed)
                self.assertEqual(ended.status, 0, ended)
                self.assertRegex(ended.faults, r"\ANote: .*\n\Z")
                for part in parts:
                    self.assertIn(part, ended.faults)
                # what a program reads is what it is otherwise
                self.assertNotIn("Note: ", ended.output)
        self.assertEqual(self.read("election.db"), before)


class Copies(BookTest):
    """A copy of the book in the place of the book, or beside it."""

    def test_copy_of_yesterday(self):
        copy = self.scratch / "copy"
        self.add("ada 1,2,3,4")
        shutil.copy(self.book, copy)
        self.add("ben 1,2,3,4")
        self.done("strike 1 --because 'not hers'")
        self.done("call --until '2099-12-06 18:00' --zone UTC")
        copy.replace(self.book)
        lacks = "it ends with act 4, and this computer has seen act 7: it is an older copy, which lacks add (1), strike (1), extend (1)"
        self.assert_stops("election.db", lacks)
        self.assertIn("--moved", self.election("add --yes more").faults)
        self.refused("add --yes --moved more", "--moved", "reason", status=2)
        self.refused(
            "add --yes --moved --because 'a\u202eb' more",
            "--because: the text has the character U+",
            "nothing was added",
            status=2,
        )
        self.done(f"add --yes {MOVED} more")
        log = self.done("log --json").output
        self.assertEqual(
            ([json.loads(line)["name"] for line in log.splitlines()][-2:], log.count(lacks)),
            (["moved", "add"], 1),
        )
        # no file of a disk shows that all of it was put back, so the secretary says it where nothing stops
        self.write("more", "ida 1,2,3,4\n")
        self.assertIn("3 counted", self.done(f"add --yes {MOVED} more").output)
        self.done("close")
        self.done("publish")
        self.assertIn("in which act 6 was the last", self.read("result/index.html").decode())

    def test_another_place_whose_path_is_any_bytes(self):
        here, self.folder = self.folder, self.scratch / os.fsdecode(b"spring \xff")
        here.rename(self.folder)
        self.assert_stops("never seen this election in this folder")
        self.write("more", "hal 1,2,3,4\n")
        self.done(f"add --yes {MOVED} more")
        self.add("ida 1,2,3,4")
        self.done("close")
        self.done("publish")
        self.done("new", os.fsdecode(b"autumn \xfe"), cwd=self.scratch)

    def test_gone_on_elsewhere(self):
        copy = self.scratch / "copy"
        shutil.copy(self.book, copy)
        self.add("ada 1,2,3,4", "ben 1,2,3,4")
        other = self.scratch / "other" / "election"
        shutil.copytree(self.folder, other)
        shutil.copy(copy, other / "election.db")
        self.write("lines", "cleo 1,2,3,4\n")
        self.done(f"add --yes {MOVED} {self.folder}/lines", cwd=other)
        self.done("desk", given="cleo 1,2,3,4\n", cwd=other)
        shutil.copy(other / "election.db", self.book)
        self.assert_stops("election.db", "is not the one that this computer saw")
        # nobody says that it was restored, though it may have as many acts
        self.done(f"close {MOVED}")
        self.done("publish")
        page = self.read("result/index.html").decode()
        self.assertIn("whose act 4 is not the one that this computer had noted", page)
        self.assertNotIn("restored from a copy", page)

    def test_put_back_while_a_desk_is_open(self):
        """The desk still has the file that is gone from the folder: what it entered there would be lost."""
        copy = self.scratch / "copy"
        shutil.copy(self.book, copy)
        desk = self.desk()
        desk.stdin.write("ada 1,2,3,4\n")
        desk.stdin.flush()
        self.assertTrue(desk.stdout.readline().startswith("1 counted"))
        copy.replace(self.book)
        said, faults = desk.communicate("ben 1,2,3,4\n")
        self.assertEqual((desk.returncode, said), (9, ""), faults)
        self.assertIn(
            "election.db: another file took its place while this command was running; act 4 (desk) was done: ",
            faults,
        )
        self.assert_stops("older copy")

    def test_another_computer(self):
        """Each command stops, or says it."""
        self.state = self.scratch / "other state"
        self.assert_stops("never seen this election in this folder", acting=ACTING, reading=READING)

    def test_two_computers_with_one_home(self):
        """Folder and home lie on a share: each computer has a note of its own, and an act names the computer that did it."""
        other_id = self.scratch / "machine-id"
        other_id.write_text("0123456789abcdef0123456789abcdef\n")
        self.add("ada 1,2,3,4")
        with mock.patch.object(machine_note, "MACHINE_ID", other_id):
            self.assert_stops("never seen this election in this folder")
            self.write("more", "hal 1,2,3,4\n")
            self.done(f"add --yes {MOVED} more")
        self.assert_stops("its act 6 was done on another computer")
        self.write("more", "ida 1,2,3,4\n")
        self.done(f"add --yes {MOVED} more")
        [(salt,)] = self.rows("SELECT salt FROM act WHERE act = 1")
        ids = [
            file.read_bytes() if file.exists() else b""
            for file in (pathlib.Path("/etc/machine-id"), other_id)
        ]
        own, other = (hashlib.sha256(salt + data).hexdigest()[:16] for data in ids)
        self.assertEqual(
            self.rows("SELECT machine FROM act ORDER BY act"),
            [(own,)] * 4 + [(other,)] * 2 + [(own,)] * 2,
        )

    def test_what_stops_nothing(self):
        """A home of yesterday is an act of the same book: nothing stops."""
        kept = self.scratch / "kept"
        shutil.copytree(self.state, kept)
        self.add("ada 1,2,3,4")
        shutil.rmtree(self.state)
        kept.rename(self.state)
        self.add("ben 1,2,3,4")
        # a copy beside it
        self.done("backup copy.db")
        self.add("cleo 1,2,3,4")
        self.assertEqual(self.election("backup copy.db").status, 2)
        self.assertEqual((self.folder / "copy.db").stat().st_mode & 0o777, 0o600)
        # a new election in the same place
        shutil.rmtree(self.folder)
        self.done("new", str(self.folder), cwd=self.scratch)
        self.write("members.csv", elections.members_of(elections.NAMES))
        self.assertEqual(self.done("roll").faults, "")

    def test_no_room_for_the_note(self):
        """Room is made before the act. What fails after the commit leaves the note at an earlier act of the book."""
        self.add("ada 1,2,3,4")
        self.write("more", "hal 1,2,3,4\n")
        files = (
            file
            for file in (self.state / "debvote").iterdir()
            if not file.suffix and file.name != "lock"
        )
        [note] = (
            file
            for file in files
            if json.loads(file.read_text())["path"] == str(self.book.resolve())
        )
        following, before, noted = note.with_suffix(".next"), self.contents(), note.read_bytes()

        def injected(call: str) -> elections.Ended:
            """Adds lines, while a call that writes the next note fails."""
            return self.traced(
                "-P", following, "-e", f"inject={call}", words=("add", "--yes", "more")
            )

        for call in ("write:error=ENOSPC", "fsync:error=EIO"):
            self.assert_fault(
                injected(call), 7, "this computer must note there", "nothing was added"
            )
            self.assertEqual((self.contents(), note.read_bytes()), (before, noted))
        ended = injected("rename:error=ENOSPC")
        self.assertEqual((ended.status, ended.faults, note.read_bytes()), (0, "", noted), ended)
        self.add("ben 1,2,3,4")
        self.assertEqual((json.loads(note.read_bytes())["act"], following.exists()), (6, False))
        # where it can't be written
        self.write("more", "ida 1,2,3,4\n")
        before = self.contents()
        (self.state / "debvote" / "lock").unlink()
        (self.state / "debvote" / "lock").mkdir()
        self.refused("add --yes more", "this computer must note there", status=7)
        self.assertEqual(self.contents(), before)

    def test_left_by_a_sync_tool(self):
        """What this book lacks counts, and not how many acts there are: one that was cut off, and others."""
        self.add("ada 1,2,3,4")
        shutil.copytree(self.state, self.scratch / "other state")
        other = self.scratch / "other"
        shutil.copytree(self.folder, other)
        for line in ("ben 1,2,3,4", "cleo 1,2,3,4", "dan 1,2,3,4"):
            self.add(line)
        here, self.folder, before = self.folder, other, self.state
        self.state = self.scratch / "other state"
        books = [self.read("election.db")[:5_000]]
        pages = (f"call --at https://club.example/{number}" for number in (1, 2))
        for typed in ("strike 1 --because x --moved", *pages):
            self.done(typed)
            books.append(self.read("election.db"))
        self.folder, self.state = here, before
        for name, data in zip(
            ("cut.db", "fewer acts.db", "as many.db", "election (conflicted copy).db"),
            books,
            strict=True,
        ):
            (self.folder / name).write_bytes(data)
            self.assert_stops(name, "acts that election.db lacks")
            (self.folder / name).unlink()
        # this book as it was, and what is no book
        shutil.copy(self.book, self.folder / "copy.db")
        (self.folder / "a.db").write_bytes(b"SQLite format 3\0")
        self.add("eve 1,2,3,4")


class Rewritten(BookTest):
    """A book that somebody changed with another program."""

    def setUp(self):
        super().setUp()
        self.add("ada 1,2,3,4", "ben 2,1,3,4")

    def of_document(self) -> list[str]:
        """What the program of INSIDE prints of the book, and the fault with which it ends."""
        [program] = re.findall(
            r"^```python\n(.*?)^```$", INSIDE.read_text(), re.MULTILINE | re.DOTALL
        )
        fault = []
        with contextlib.chdir(self.folder), contextlib.redirect_stdout(io.StringIO()) as said:
            try:
                exec(program, names := {})
            except Exception as error:
                fault = [str(error)]
        names["book"].close()
        return said.getvalue().splitlines() + fault

    def test_whole(self):
        """Each digest is over the one before and all rows of the act, as the program of INSIDE says."""
        # the chain reads no index
        with self.opened() as connection:
            chain.prepare(connection)
            queries_of_all = map(chain.query_of, chain.line_of())
            plans = [
                connection.execute(f"EXPLAIN QUERY PLAN {words}").fetchall()
                for words in queries_of_all
            ]
        self.assertEqual(len(plans), 10)
        for plan in plans:
            self.assertEqual([step for *_, step in plan if "INDEX" in step], [])
        self.done("strike 2 --because 'Ben'\"'\"'s \"Ö\" \\'")
        self.assertIn("The chain is whole: 5 acts", self.done("log --check").output)
        [last] = self.of_document()
        self.assertEqual(last.split()[-1], json.loads(self.done("status --json").output)["digest"])
        # the view of the ballots
        self.add("cleo 1,2,3,4")
        self.done("close")
        self.done("desk", given="dan 1,2,3,4\n")
        self.assertEqual(
            self.rows("SELECT line FROM ballot ORDER BY envelope"),
            [(b"ada 1,2,3,4",), (b"cleo 1,2,3,4",)],
        )
        # lines of any bytes stay as they are in what the digest is over, and none can be taken for the rows of two
        odd = [
            b'ada "1\\',
            b"\xff\xfe\x00\x7f",
            b"\xed\xa0\x80 \xe2\x80\xa8\t",
            b'x\n[3,1,"ada 1,2,3,4"]',
            b"",
            b"\xc3\xa9",
        ]
        with mock.patch.dict(os.environ, {"XDG_STATE_HOME": str(self.state)}):
            book = open_book(self.book)
            with contextlib.closing(book.connection), book.act("desk") as act:
                queries.add_envelopes(
                    act, map(queries.NewEnvelope, odd), [None] * len(odd), is_late=False
                )
        self.assertIn("The chain is whole: 10 acts", self.done("log --check").output)
        self.assertEqual(len(self.of_document()), 1)

    def tables(self) -> list[str]:
        return [name for name, in self.rows("SELECT name FROM sqlite_schema WHERE type = 'table'")]

    def fill_each_table(self):
        self.write("mail", "From: Ada <ada@club.example>\nMessage-ID: <1@x>\nSubject: x\n\nHello\n")
        self.done("add --yes mail")
        self.done("held 1 --set-aside")
        self.done("strike 2 --because x")
        self.done("letters receipts")

    @pytest.mark.whole
    def test_each_column(self):
        """One row of each table is changed in each of its columns, which the book itself names."""
        self.fill_each_table()
        whole, tables = self.read("election.db"), self.tables()
        later = "strftime('%Y-%m-%dT%H:%M:%SZ', {}, '+1 second')"
        other = {
            "INTEGER": "coalesce({} + 1000, 1000)",
            "TEXT": "coalesce({}, '') || ' '",
            "BLOB": "CAST({} || 'x' AS BLOB)",
        }
        tried = 0
        for table in tables:
            [(row, act)] = self.rows(f"SELECT max(rowid), act FROM {table}")
            for _, column, kind, *_ in self.rows(f"PRAGMA table_info({table})"):
                value = (later if column == "time" else other[kind]).format(column)
                self.sql(f"UPDATE {table} SET {column} = {value} WHERE rowid = {row}")
                # an act that has another number now is missing
                said = f"act {act} does not match its digest"
                if (table, column) == ("act", "act"):
                    said = f"rows of act {act}, and no such act"
                with self.subTest(f"{table}.{column}"):
                    with self.opened() as connection:
                        chain.prepare(connection)
                        self.assertIn(said, " ".join(chain.damage(connection)))
                    self.assertGreater(len(self.of_document()), 1)
                self.book.write_bytes(whole)
                tried += 1
        self.assertEqual((len(tables), tried), (10, 52))

    def test_a_line_that_is_changed_removed_or_added(self):
        said = "act 4 does not match its digest"
        columns = "envelope, act, elector, line, place, time, late"
        added = "(3, 4, 3, CAST('cleo 1,2,3,4' AS BLOB), ':3', '2026-12-04T17:00:00Z', 0)"
        whole = self.read("election.db")
        for statement in (
            CHANGED,
            "DELETE FROM envelope WHERE envelope = 2",
            f"INSERT INTO envelope ({columns}) VALUES {added}",
        ):
            self.sql(statement)
            # each command on whose words others rely says so; so does the program of INSIDE
            for typed in RELYING if statement == CHANGED else RELYING[:1]:
                with self.subTest(statement, typed=typed):
                    self.refused(typed, "election.db", said)
            self.assertIn(said, self.of_document())
            self.book.write_bytes(whole)
        # each act computes the digest of the one before it anew
        self.sql(CHANGED)
        self.write("more", "hal 1,2,3,4\n")
        for typed in ACTS:
            self.stops(typed, said)

    def test_rows_of_no_act(self):
        """Rows before the first act, within a gap that there is not, and after the last act."""
        whole = self.read("election.db")
        for act in (-1, 0, 5, 1_000_000):
            self.sql(f"INSERT INTO struck VALUES (1, {act}), (2, {act})")
            said = f"it has rows of act {act}, and no such act"
            self.refused("log --check", said)
            self.assertGreater(len(self.of_document()), 1)
            self.book.write_bytes(whole)

    def test_an_index_that_answers_in_place_of_the_table(self):
        """One bit of the table is changed, and the index says what was there before; or one of the index, and the table says it."""
        self.done("strike 1 --because x")
        whole = self.read("election.db")
        with self.opened() as connection:
            [(size,)] = connection.execute("PRAGMA page_size")
            pages = dict(
                connection.execute(
                    "SELECT name, rootpage FROM sqlite_schema WHERE tbl_name = 'struck'"
                )
            )

        def cell(name: str) -> int:
            """Where the only cell of a page begins."""
            start = (pages[name] - 1) * size
            return start + int.from_bytes(whole[start + 5 : start + 7], "big")

        # a row of the table: its length, its number, and the row; one of the index: its length, and the row
        table, index = cell("struck"), cell("struck_by_act")
        self.assertEqual(
            (whole[table : table + 6], whole[index : index + 5]),
            (b"\x04\x01\x03\x00\x01\x05", b"\x04\x03\x01\x09\x05"),
        )
        for name, at in {
            "the envelope": table + 1,
            "the act": table + 5,
            "the act of the index": index + 4,
        }.items():
            with self.subTest(name):
                self.book.write_bytes(whole[:at] + bytes([whole[at] ^ 2]) + whole[at + 1 :])
                said = "election.db: the book is damaged"
                self.refused("log --check", said, "struck")
                self.assertGreater(len(self.of_document()), 1)
                # nothing is built on it, either
                ended = self.election("desk", given="hal 1,2,3,4\n")
                self.assert_fault(ended, 9, said, "nothing was entered")
        # the last one is of an index alone, and as the guide says
        copy = self.scratch / "copy"
        shutil.copy(self.book, copy)
        with contextlib.closing(sqlite3.connect(copy)) as connection:
            connection.execute("REINDEX")
        copy.replace(self.book)
        self.assertIn("The chain is whole: ", self.done("log --check").output)
        self.done("export out")

    def test_another_schema(self):
        """What somebody adds to the schema, takes from it or changes in it is seen by each command that opens the book."""
        whole = self.read("election.db")
        strikes = "CREATE TRIGGER x AFTER INSERT ON envelope BEGIN INSERT INTO struck VALUES (new.envelope, new.act); END"
        writable = "PRAGMA writable_schema = ON"
        for name, statements in {
            "trigger x": [strikes],
            "trigger struck_DELETE": ["DROP TRIGGER struck_DELETE"],
            "index struck_by_act": [
                "DROP INDEX struck_by_act",
                "CREATE INDEX struck_by_act ON struck (act DESC)",
            ],
            "index x": ["CREATE UNIQUE INDEX x ON envelope (elector)"],
            "view x": ["CREATE VIEW x AS SELECT * FROM act"],
            "table x": ["CREATE TABLE x (y)"],
            "table sqlite_stat1": ["ANALYZE"],
            "table struck": [
                writable,
                "UPDATE sqlite_schema SET sql = replace(sql, 'act INTEGER', 'act  INTEGER') WHERE name = 'struck'",
            ],
        }.items():
            with self.opened() as connection:
                for statement in statements:
                    connection.execute(statement)
            changed = self.read("election.db")
            every = ["status", "desk", "log --check", "backup copy.db"]
            for typed in every if name == "trigger x" else every[:1]:
                with self.subTest(name, typed=typed):
                    self.refused(typed, f"the {name} is not as new makes it")
            self.assertEqual(self.read("election.db"), changed)
            self.book.write_bytes(whole)

    def test_no_act_adopts_rows(self):
        """Rows with the number of the act to come, or of one after it, stop it, in whatever table they are."""
        self.fill_each_table()
        # a line that stands beside the one that is struck: else there is nothing to take back
        self.done("desk", given="hal 4,3,2,1\n")
        whole = self.read("election.db")
        [(last,)] = self.rows("SELECT max(act) FROM act")
        tables = [table for table in self.tables() if table != "act"]
        for table, act in [*((table, last + 1) for table in tables), (tables[0], last + 7)]:
            # a copy of its last row, with other keys
            row = {column: column for _, column, *_ in self.rows(f"PRAGMA table_info({table})")}
            row |= {"act": str(act)} | ({table: f"{table} + 100"} if table in row else {})
            row |= {"elector": {"name": "'new'"}, "struck": {"envelope": "1"}}.get(table, {})
            values = f"SELECT {', '.join(row.values())} FROM {table} ORDER BY rowid DESC LIMIT 1"
            self.sql(f"INSERT INTO {table} ({', '.join(row)}) {values}")
            with self.subTest(table, act=act):
                self.assert_fault(
                    self.election("desk", given="hal 1,2,3,4\n"),
                    9,
                    f"it has rows of act {act}, and no such act",
                )
                self.assertEqual(self.rows("SELECT max(act) FROM act"), [(last,)])
            self.book.write_bytes(whole)
        # after that each command that acts, and the book stays as it is
        self.sql(f"INSERT INTO struck VALUES (1, {last + 1})")
        changed = self.read("election.db")
        self.write("more", "hal 1,2,3,4\n")
        for typed in (*ACTS[1:], "held 1 --wait", "close"):
            self.stops(typed, f"it has rows of act {last + 1}, and no such act")
        self.assertEqual(self.read("election.db"), changed)

    def made_whole(self, *statements: str):
        """Changes the book, computes its chain anew, and has the computer note it: whoever has the computer can do so."""
        self.sql(*statements)
        triggers = self.rows(
            "SELECT name, sql FROM sqlite_schema WHERE type = 'trigger' AND tbl_name = 'act'"
        )
        with mock.patch.dict(os.environ, {"XDG_STATE_HOME": str(self.state)}):
            book, before = open_book(self.book), chain.BEGINNING
            with contextlib.closing(book.connection) as connection:
                for name, _ in triggers:
                    connection.execute(f"DROP TRIGGER {name}")
                for *act, _ in connection.execute("SELECT * FROM act ORDER BY act").fetchall():
                    before = chain.digest_of(connection, before, act)
                    connection.execute("UPDATE act SET digest = ? WHERE act = ?", (before, act[0]))
                for _, sql in triggers:
                    connection.execute(sql)
                book.note().put(machine_note.Note(int(act[0]), before), is_moved=True)

    def assert_changed(self, statement: str, said: str, *commands: str):
        """A book that was changed so, and made whole, stops what others rely on. Then it is as before."""
        whole, notes = self.read("election.db"), (self.state / "debvote").iterdir()
        state = {file: file.read_bytes() for file in notes}
        self.made_whole(statement)
        for typed in commands or ["count"]:
            with self.subTest(statement, typed=typed):
                self.refused(typed, f"election.db: {said}")
        self.book.write_bytes(whole)
        for file, data in state.items():
            file.write_bytes(data)

    def test_electors_are_those_of_the_lines(self):
        """For whom an envelope is kept is compared with its line: else `show` tells whose ballot it is, and it is another's."""
        self.add("ben 1,2", "nobody 1,2,3,4", "cleo 1,2,3,4", "dan 1,2,3,4")
        said = (
            "envelope {} is kept for another elector than the one whose name its line begins with"
        )
        numbers = dict(self.rows("SELECT name, elector FROM elector"))
        for envelope, number in (
            (1, numbers["eve"]),
            (3, numbers["eve"]),
            (3, "NULL"),
            (4, numbers["eve"]),
            (5, numbers["eve"]),
        ):
            self.assert_changed(
                f"UPDATE envelope SET elector = {number} WHERE envelope = {envelope}",
                said.format(envelope),
            )
        # two are exchanged: as many have a ballot, and each line counts
        exchanged = f"UPDATE envelope SET elector = CASE envelope WHEN 5 THEN {numbers['dan']} ELSE {numbers['cleo']} END WHERE envelope IN (5, 6)"
        self.assert_changed(exchanged, said.format(5))
        other = "UPDATE elector SET name = 'zoe' WHERE name = 'cleo'"
        self.assert_changed(other, said.format(5), "count", "close", "publish --force --because x")
        self.done("close")

    def test_verdicts_are_those_of_debvote(self):
        """What the book keeps of debvote's verdicts is compared where others rely on it."""
        # the third line is refused, and replaces nothing
        self.add("ben 1,2", "cleo 1,2,3,4", "cleo 2,1,3,4", "cleo 1,2")
        wrong = "UPDATE envelope SET answer = 'bad rank count: ..' WHERE envelope = 1"
        for statement in (
            wrong,
            "UPDATE envelope SET answer = NULL WHERE envelope = 3",
            # two are exchanged: Ben loses his ballot, and nobody else gets one
            "UPDATE envelope SET answer = CASE envelope WHEN 4 THEN 'bad rank count: ..' END WHERE envelope IN (3, 4)",
            # the verdict is another one
            "UPDATE envelope SET answer = 'bad shape: ..' WHERE envelope = 3",
            # as many electors have a ballot, and each number of the sheet is the same
            "UPDATE envelope SET answer = CASE envelope WHEN 5 THEN (SELECT answer FROM envelope WHERE envelope = 6) END WHERE envelope IN (5, 6)",
        ):
            self.assert_changed(statement, "debvote says of its lines another thing than it keeps")
        self.done("close")
        # after the close the ballots are compared with it, too
        self.made_whole("UPDATE envelope SET line = CAST('ada 4,3,2,1' AS BLOB) WHERE envelope = 1")
        for typed in ("count", "publish"):
            self.refused(typed, "the ballots have the checksum", "and the close recorded")

    def test_a_row_that_names_a_row_that_is_not_there(self):
        """The chain is made whole over it, so that only what the rows name tells."""
        for statement, said in {
            "INSERT INTO struck VALUES (99, 4)": "row 99 of struck names a row of envelope that is not there",
            "UPDATE envelope SET elector = 99 WHERE envelope = 1": "row 1 of envelope names a row of elector that is not there",
        }.items():
            whole = self.read("election.db")
            self.made_whole(statement)
            self.refused("log --check", said)
            self.book.write_bytes(whole)

    def test_what_no_command_can_read(self):
        """It is told as what it is, by whatever command meets it."""
        whole = self.read("election.db")
        for act, statement in {
            1: "UPDATE act SET detail = '{' WHERE act = 1",
            2: "UPDATE elector_state SET mail = 'ada@club.example' WHERE elector = 1",
            3: "UPDATE act SET detail = '[]' WHERE act = 3",
            4: "UPDATE envelope SET time = 'noon' WHERE envelope = 1",
        }.items():
            self.sql(statement)
            told = 0
            for typed in ("show ada", "status", "desk", "roll", "letters receipts"):
                ended = self.election(typed)
                with self.subTest(statement, typed=typed):
                    self.assertEqual(ended.status, 9 if ended.faults else 0, ended)
                    if ended.faults:
                        self.assert_fault(ended, 9, f"act {act} does not match its digest")
                        told += 1
            self.assertGreater(told, 0, statement)
            self.book.write_bytes(whole)
        # a poll in the book that is not in plain form is the fault of the book, and of no file of the secretary's
        for statement in (
            "DELETE FROM sealed",
            "UPDATE sealed SET data = CAST('title = 1' AS BLOB)",
        ):
            self.sql(statement)
            said = "election.db: the book is damaged, or another program changed it (its sealed poll is not in plain form)"
            for typed in ("status", "desk", "held"):
                with self.subTest(statement, typed=typed):
                    self.refused(typed, said)
            self.book.write_bytes(whole)

    def test_triggers(self):
        """What is in the book stays: no row of any table is changed, removed or replaced."""
        self.fill_each_table()
        book = open_book(self.book)
        with contextlib.closing(book.connection) as connection:
            for table in self.tables():
                for statement in (
                    "UPDATE {} SET act = act",
                    "DELETE FROM {}",
                    "REPLACE INTO {0} SELECT * FROM {0}",
                ):
                    with self.subTest(statement, table=table), self.assertRaises(
                        sqlite3.IntegrityError
                    ):
                        connection.execute(statement.format(table))


# a query that never ends
LONG = """import pathlib, signal, sys
from debvote_tools.book.book import open_book
from debvote_tools.cli import console
console.prepare(signal.SIGTERM)
# a shell has what it runs in the background ignore it
signal.signal(signal.SIGINT, signal.default_int_handler)
book = open_book(pathlib.Path("election.db"))
print(1, end="", flush=True)
try:
    book.rows("WITH RECURSIVE n (i) AS (SELECT 1 UNION ALL SELECT i + 1 FROM n) SELECT count(*) FROM n")
except KeyboardInterrupt:
    sys.exit(5)
"""


# a signal that comes where Python drops what its handler raises, and then an act
DROPPED = """import os, pathlib, signal
from debvote_tools.book.book import open_book
from debvote_tools.cli import console
console.prepare(signal.SIGTERM)
class Deleted:
    def __del__(self):
        os.kill(os.getpid(), signal.SIGTERM)
book = open_book(pathlib.Path("election.db"))
Deleted()
with book.act("desk"):
    pass
"""


class OnTheDisk(BookTest):
    """What is brought to the disk, and in which order; an act that is cut off in its commit, or right after it."""

    def last_act(self) -> int:
        ended = self.done("status --json")
        self.assertEqual(ended.faults, "")
        return json.loads(ended.output)["act"]

    def test_a_disk_that_fails_in_the_commit(self):
        """If the journal is gone already, the act is there; nobody knows whether that is on the disk."""
        said = []
        for call in range(1, 9):
            before = self.last_act()
            ended = self.traced(
                "-e",
                f"inject=fdatasync:error=EIO:when={call}",
                words=("desk",),
                given="ada 1,2,3,4\n",
            )
            done = self.last_act() - before
            if ended.status == 0:
                said.append("done")
            elif "nothing was entered" in ended.faults:
                self.assert_fault(ended, 7, "election.db: ")
                self.assertEqual(done, 0)
                said.append("nothing")
            else:
                self.assert_fault(
                    ended,
                    7,
                    f"nobody knows whether act {before + 1} was done: see debvote-election status",
                )
                self.assertEqual(done, 1)
                said.append("nobody knows")
        self.assertEqual(set(said), {"done", "nothing", "nobody knows"})

    def test_a_signal_within_a_query(self):
        """It ends the program at once, as it does elsewhere."""
        self.write("long.py", LONG)
        for number, status in ((signal.SIGTERM, 128 + signal.SIGTERM), (signal.SIGINT, 5)):
            run = subprocess.Popen(
                [sys.executable, "long.py"],
                cwd=self.folder,
                stdout=subprocess.PIPE,
                env={**os.environ, "PYTHONPATH": str(elections.ROOT / "python")},
            )
            with run:
                self.addCleanup(run.kill)
                self.assertEqual(run.stdout.read(1), b"1")
                time.sleep(0.1)
                run.send_signal(number)
                try:
                    self.assertEqual(run.wait(20), status)
                finally:
                    run.kill()

    def test_a_signal_that_python_drops(self):
        self.write("dropped.py", DROPPED)
        before = self.last_act()
        env = {"PYTHONPATH": str(elections.ROOT / "python"), "XDG_STATE_HOME": str(self.state)}
        ended = self.run_program(sys.executable, "dropped.py", env={**os.environ, **env})
        self.assertIn("Exception ignored in", ended.faults)
        self.assertEqual((ended.status, self.last_act()), (128 + signal.SIGTERM, before))

    def test_interrupted_in_the_commit(self):
        """What is done is reported: the signal comes when SQLite removes the journal."""
        journal = str(self.book.resolve()) + "-journal"
        self.write("more", "ben 1,2,3,4\n")
        for ending, typed in (
            ("INT", "desk"),
            ("TERM", "desk"),
            ("HUP", "desk"),
            ("INT", "add --yes more"),
        ):
            before, inject = self.last_act(), f"inject=unlink:signal={ending}"
            ended = self.traced("-P", journal, "-e", inject, words=[typed], given="ada 1,2,3,4\n")
            self.assertEqual(self.last_act(), before + 1)
            self.assertRegex(ended.output, r"(?m)^\d+ (counted|replaced)  (ada|ben): ", typed)
        ended = self.traced("-P", journal, "-e", "inject=unlink:signal=INT", words=("close",))
        self.assert_fault(
            ended, 130, f"interrupted; act {self.last_act()} (close) was done, and nothing else"
        )
        ended = self.traced("-P", journal, "-e", "inject=unlink:signal=INT", words=("publish",))
        self.assertTrue((self.folder / "result" / "index.html").exists(), ended)

    def calls(
        self, *words: str, given: str | None = None, inject: str = "fsync:delay_exit=0"
    ) -> list[tuple[str, str]]:
        """The calls of a command that bring a file to the disk or put it into its place, in their order, each with its path."""
        trace = self.scratch / "trace"
        self.traced(
            "-y",
            "-o",
            trace,
            "-e",
            "trace=fsync,rename",
            "-e",
            f"inject={inject}",
            words=words,
            given=given,
        )
        return re.findall(r"(?m)^(fsync|rename)\((?:\d+<|\")([^>\"]*)", trace.read_text())

    def test_what_takes_a_place_is_on_the_disk(self):
        """The note, and files beside the book: first the content, then the name."""
        for words, renames in ((("desk",), 1), (("close",), 3)):
            calls = self.calls(*words, given="ada 1,2,3,4\n")
            # but for the folder of letters
            places = [
                (at, path)
                for at, (call, path) in enumerate(calls)
                if call == "rename" and "letters/closed/" not in path
            ]
            self.assertEqual(len(places), renames, calls)
            for at, path in places:
                self.assertEqual(
                    calls[at - 1 : at + 2],
                    [("fsync", path), ("rename", path), ("fsync", str(pathlib.Path(path).parent))],
                )
        # what can't take its place is gone
        self.done("reopen --because x")
        (self.folder / "letters" / "closed.txt").unlink()
        self.calls("close", inject="rename:error=EIO:when=2")
        self.assertEqual(
            [file.name for file in self.folder.rglob("*") if file.name.startswith(".debvote-")], []
        )
        self.assertFalse((self.folder / "letters" / "closed.txt").exists())

    def test_a_note_goes_only_forward_and_rows_name_rows_that_are_there(self):
        note = machine_note.MachineNote("a machine", self.book)
        note.folder = self.scratch / "notes"
        note.file, note.next = note.folder / "note", note.folder / "note.next"
        for act, is_moved, stands in (
            (3, False, 3),
            (5, False, 5),
            (4, False, 5),
            (4, True, 4),
            (10**19, False, 10**19),
        ):
            note.make_ready()
            note.put(machine_note.Note(act, hashlib.sha256(b"").hexdigest()), is_moved=is_moved)
            self.assertEqual(note.read().act, stands)
            # what is done stays noted, but not of another book
            self.assertEqual(note.read().done, {"upload": 3} if stands == 5 else {})
            if stands == 3:
                note.put_done("upload", 3)
        # each has the room of the longest
        size = note.file.stat().st_size
        note.make_ready()
        self.assertEqual(note.next.stat().st_size, size)
        with mock.patch.dict(os.environ, {"XDG_STATE_HOME": str(self.state)}):
            book = open_book(self.book)
            with contextlib.closing(book.connection), self.assertRaises(Fault), book.act(
                "strike"
            ) as act:
                queries.strike_envelopes(act, [99])
        self.assertIn("3 acts", self.done("log --check").output)


class Places(BookTest):
    """Folders in which there is no book that can be worked on."""

    def test_no_book(self):
        self.assert_fault(self.election("status", cwd=self.folder / "call"), 2, "one folder up")
        self.assert_fault(self.election("status", cwd=self.scratch), 2, "no election.db")
        self.refused("status --folder nowhere", "nowhere", "no such folder", status=2)

    def test_other_databases(self):
        with sqlite3.connect(self.folder / "other.db") as connection:
            connection.execute("CREATE TABLE a (b)")
        (self.folder / "other.db").replace(self.book)
        self.refused("status", "another program", status=2)
        with sqlite3.connect(self.book) as connection:
            connection.execute(f"PRAGMA application_id = {0x64627674}")
            connection.execute("PRAGMA user_version = 2")
        # it is not opened: what a command that was cut off left stays, too
        (self.folder / "election.db-journal").write_bytes(
            b"what a command that was cut off has left"
        )
        self.write("more", "hal 1,2,3,4\n")
        before = self.contents()
        said = "it is a book of version 2, and this program writes version 1"
        for typed, nothing in (("status", "changed"), ("add --yes more", "added")):
            self.refused(typed, said, f"nothing was {nothing}", status=2)
            self.assertEqual(self.contents(), before)

    def test_damaged(self):
        data = self.book.read_bytes()
        cut_off, zeros = data[: len(data) // 2], data[:4096] + bytes(len(data) - 4096)
        for damage in (b"words " * 1000, cut_off, zeros, b""):
            with self.subTest(damage[:20]):
                self.book.write_bytes(damage)
                self.refused("status", "election.db")
                self.assertEqual(self.book.read_bytes(), damage)

    @pytest.mark.whole
    def test_read_only_folder(self):
        self.add("ada 1,2,3,4")
        for file in (*self.folder.rglob("*"), self.state, *self.state.rglob("*")):
            file.chmod(0o755 if file.is_dir() else 0o444)
        self.addCleanup(self.folder.chmod, 0o755)
        self.folder.chmod(0o555)
        ended = self.without_rights("status")
        self.assertEqual(ended.status, 0, ended)
        self.assertIn("Lines: 1", ended.output)
        self.assertEqual(self.without_rights("count").status, 0)
        for typed in ("close", f"count {MOVED}"):
            self.assert_fault(self.without_rights(*shlex.split(typed)), 7, "is not writable")

    def test_read_only_folder_in_which_an_act_was_cut_off(self):
        """Both files together are the book: the act is taken back where that can be written."""
        names, journal = ("election.db", "election.db-journal"), f"{self.book.resolve()}-journal"
        self.traced(
            "-P", journal, "-e", "inject=unlink:signal=KILL", words=("desk",), given="ada 1,2,3,4\n"
        )
        copy = self.scratch / "copy"
        copy.mkdir()
        for name in names:
            shutil.copy(self.folder / name, copy)
            (self.folder / name).chmod(0o444)
        self.addCleanup(self.folder.chmod, 0o755)
        self.folder.chmod(0o555)
        words = "a command was cut off in its act, and the act can be taken back only in a folder that is writable; "
        cure = f"copy {' and '.join(names)} together into a folder of your own, and work there"
        self.assert_fault(self.without_rights("status"), 9, words + cure)
        self.assertIn("\nLines: 0 (", self.election("status", cwd=copy).output)

    def test_no_locks(self):
        compiler = shutil.which("cc")
        if compiler is None:
            self.skipTest("no C compiler is installed")
        source, library = self.scratch / "locks.c", self.scratch / "locks.so"
        source.write_text(NO_LOCKS)
        subprocess.run([compiler, "-shared", "-fPIC", "-o", library, source, "-ldl"], check=True)
        self.write("more", "ada 1,2,3,4\n")
        # as if the folder was moved to another disk
        self.state = self.scratch / "other state"
        before = self.contents()
        preloaded = "env", f"LD_PRELOAD={library}", sys.executable, elections.ELECTION
        for typed in (f"add --yes {MOVED} more", "new another"):
            ended = self.run_program(*preloaded, *shlex.split(typed))
            self.assertEqual(ended.status, 9, ended)
            self.assertIn("locks do not work", ended.faults)
            self.assertEqual(self.contents(), before)
