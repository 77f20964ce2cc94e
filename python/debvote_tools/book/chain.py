"""What a new book is made of, and the chain of digests over its acts.

The digest of an act is the SHA-256 of lines: the digest before; the row of the act; for each table
with rows of the act, in the order of the schema, its name and these rows, by their numbers. A row
is a JSON array of its columns, without the act if that stands above. A line that came stays as it
is, all other bytes are replaced by their SHA-256.
"""

import contextlib
import functools
import hashlib
import heapq
import itertools
import json
import operator
import pathlib
import sqlite3
from collections.abc import Iterable, Iterator, Sequence
from typing import Any

from debvote_tools.files import sha256_of
from debvote_tools.grouping import grouped

# the table of the acts themselves; each row of all others belongs to an act
ACT = "act"

REFUSE = "CREATE TRIGGER {table}_{verb} BEFORE {verb} ON {table} BEGIN SELECT RAISE(ABORT, 'a book only grows'); END"

# in place of the digest before the first act
BEGINNING = ""


ACT_OF = operator.itemgetter(0)
LAST = operator.itemgetter(-1)


# ---- the schema
# each table, index, view and trigger: its kind, its name, its table, and what makes it
Entries = frozenset[tuple[str, str, str, str | None]]


# the tables in their order, each with what the line of a row has of each column
COLUMNS = f"""
SELECT its.name, CASE
  WHEN of_it.name = 'line' THEN 'CAST(line AS TEXT)'
  WHEN of_it.type = 'BLOB' THEN 'sha256(' || of_it.name || ')'
  ELSE of_it.name
END FROM sqlite_schema AS its JOIN pragma_table_info(its.name) AS of_it
WHERE its.type = 'table' AND of_it.name <> iif(its.name = '{ACT}', 'digest', 'act') ORDER BY its.rowid, cid
"""


def write_schema(connection: sqlite3.Connection) -> None:
    for statement in pathlib.Path(__file__).with_name("schema.sql").read_text().split(";\n"):
        connection.execute(statement)
    for table in grouped(connection.execute(COLUMNS)):
        for verb in ("UPDATE", "DELETE"):
            connection.execute(REFUSE.format(table=table, verb=verb))


def entries_of(connection: sqlite3.Connection) -> Entries:
    return frozenset(connection.execute("SELECT type, name, tbl_name, sql FROM sqlite_schema"))


@functools.cache
def schema() -> tuple[Entries, dict[str, str]]:
    """The schema that `new` writes, and of each table the SQL that makes a row of it a line."""
    with contextlib.closing(sqlite3.connect(":memory:")) as empty:
        write_schema(empty)
        columns = grouped(empty.execute(COLUMNS)).items()
        lines = {table: f"json_array({', '.join(parts)})" for table, parts in columns}
        return entries_of(empty), lines


def line_of() -> dict[str, str]:
    return schema()[1]


def other_schema(connection: sqlite3.Connection) -> str | None:
    """What is not as `new` writes it; None if all is."""
    differing = sorted(entries_of(connection) ^ schema()[0], key=str)
    return f"the {differing[0][0]} {differing[0][1]}" if differing else None


# ---- the chain
def prepare(connection: sqlite3.Connection) -> None:
    """Gives the connection the function that the queries here use."""
    connection.create_function("sha256", 1, sha256_of, deterministic=True)


def digest_of(connection: sqlite3.Connection, before: str, act: Sequence[object]) -> str:
    """The digest of an act (its row without the digest), with the rows that the book has of it."""
    row = [sha256_of(value) if isinstance(value, bytes) else value for value in act]
    line = json.dumps(row, ensure_ascii=False, separators=(",", ":"))
    by_table = (
        (table, connection.execute(query_of(table, "act = :act"), {"act": act[0]}))
        for table in line_of()
        if table != ACT
    )
    return digest_over(before, line.encode(), by_table)


def digest_over(
    before: str, line: bytes, by_table: Iterable[tuple[str, Iterable[tuple[Any, ...]]]]
) -> str:
    """The digest over the one before, the line of an act, and by table its rows, each of which
    begins with its line.
    """
    digest = hashlib.sha256(before.encode() + b"\n" + line)
    for table, rows in by_table:
        above = f"\n{table}".encode()
        for row in rows:
            digest.update(above + b"\n" + row[0])
            above = b""
    return digest.hexdigest()


def damage(connection: sqlite3.Connection) -> list[str]:
    """What is not as the acts of a book wrote it."""
    order = "".join(line for line, in connection.execute("PRAGMA integrity_check(1)"))
    if order != "ok":
        # in the rows of such a file there may be anything
        return [f"SQLite says: {' '.join(order.split())}"]
    found = []
    if (lost := connection.execute("PRAGMA foreign_key_check").fetchone()) is not None:
        found.append(f"row {lost[1]} of {lost[0]} names a row of {lost[2]} that is not there")
    if (broken_at := break_in(connection)) is not None:
        found.append(broken_at)
    return found


def break_in(connection: sqlite3.Connection, since: int | None = None) -> str | None:
    """The first act, from one on if it is given, at which the chain is broken, and how: it is not
    as its digest and the act before say, or there are rows of an act that there is not. None if it
    is whole.
    """
    query = f"SELECT coalesce(max(digest), '{BEGINNING}') FROM {ACT} WHERE act = ? - 1"
    [(before,)] = connection.execute(query, (since,))
    acts = heapq.merge(*(acts_in(connection, table, since) for table in line_of()), key=ACT_OF)
    for act, by_table in itertools.groupby(acts, key=ACT_OF):
        _, table, rows = next(by_table)
        if table != ACT:
            return f"it has rows of act {act}, and no such act"
        [(line, digest, _)] = rows
        before = digest_over(before, line, ((of_it, rows) for _, of_it, rows in by_table))
        if before != digest:
            return f"act {act} does not match its digest"
    return None


def acts_in(
    connection: sqlite3.Connection, table: str, since: int | None
) -> Iterator[tuple[int, str, Iterator[tuple[Any, ...]]]]:
    """The acts that have rows in a table, each with the table and the rows: line, the digest if the
    row is that of the act, and act.
    """
    query = query_of(table, "" if since is None else "act >= :act")
    for act, rows in itertools.groupby(connection.execute(query, {"act": since}), key=LAST):
        yield act, table, rows


def query_of(table: str, acts: str = "") -> str:
    """The rows of all acts, or of these. It reads the table, and no index in place of it: of some
    acts the index says which rows they are, and the table has to say the same.
    """
    line = line_of()[table]
    digest = "digest" if table == ACT else "NULL"
    source = f"{table} NOT INDEXED ORDER BY act, rowid"
    if acts:
        places = f"(SELECT act AS its, rowid AS at FROM {table} WHERE {acts})"
        the_same = f"{table} NOT INDEXED ON act = its AND {table}.rowid = at"
        source = f"{places} CROSS JOIN {the_same} ORDER BY its, at"
    return f"SELECT CAST({line} AS BLOB), {digest}, act FROM {source}"
