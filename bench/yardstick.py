"""The work by which bench/around.py measures: the same each time, and of the kinds that the programs do.

It reads lines, keeps them in a table, computes a chain of digests over them, and writes a page.
"""

import hashlib
import html
import json
import re
import sqlite3

LINES, NAMES, ROUNDS = 20_000, 4_000, 3
LINE = re.compile(r"(?P<name>[a-z0-9.-]+) (?P<ranks>\d+(?:,\d+)*)")


def kept(book: sqlite3.Connection, start: int) -> str:
    """Enters as many lines in a book, and returns the last digest of their rows."""
    digest = ""
    for number in range(start, start + LINES):
        line = LINE.fullmatch(f"elector-{number % NAMES} 1,2,3,{number % 7 + 1}")
        assert line is not None
        row = [number, line["name"], sorted(map(int, line["ranks"].split(",")))]
        book.execute("INSERT INTO line VALUES (?, ?, ?)", (number, line["name"], json.dumps(row[2])))
        digest = hashlib.sha256(f"{digest}\n{json.dumps(row)}".encode()).hexdigest()
    return digest


def page_of(book: sqlite3.Connection) -> str:
    """A table with the last line of each name."""
    rows = book.execute("SELECT name, ranks, max(number) FROM line GROUP BY name ORDER BY name")
    cells = [f"<td>{html.escape(name)}</td><td>{html.escape(ranks)}</td>" for name, ranks, _ in rows]
    return "".join(f"<tr>{row}</tr>\n" for row in cells)


def main() -> None:
    book = sqlite3.connect(":memory:")
    book.execute("CREATE TABLE line (number INTEGER PRIMARY KEY, name TEXT, ranks TEXT)")
    for place in range(ROUNDS):
        digest, page = kept(book, place * LINES), page_of(book)
    print(digest, len(page))


if __name__ == "__main__":
    main()
