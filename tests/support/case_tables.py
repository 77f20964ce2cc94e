"""Tables of cases: a file of TOML for each subject, in which each table is a case.

    command = "explain"     what each case runs
    poll = "title = .."     the poll of each case that has none of its own

    [NAME]
    about = "What the case shows."
    args = ["count", "--poll", "poll.toml", ..]
    poll = ".."
    swap = ["A poll", "Another poll"]
    ballots = ".."
    called = "all ballots"
    sheet = ".."
    stdin = ".."
    stdout = ".."
    stderr = ".."
    status = 9

`about` is also the first line of the poll file, after `# `. `swap` has texts of the poll, each before the one that stands in its place.
Without `args` the command runs on the files poll.toml and ballots, or only on poll.toml if a case has no ballots; `called` is another
name of the last of them. A missing file is not there, a missing text is empty, and a missing status is 0.
"""

import tomllib
from dataclasses import dataclass

POLL, BALLOTS, SHEET = "poll.toml", "ballots", "sheet"


@dataclass
class Row:
    """A case of a table: its files, and the expected answer of the program."""

    command: str
    about: str | None
    poll: str | None
    ballots: str | None
    stdout: str = ""
    stderr: str = ""
    status: int = 0
    args: list[str] | None = None
    sheet: str | None = None
    stdin: str = ""
    swap: list[str] | None = None
    called: str | None = None

    def names(self):
        """The names of the poll and of the ballots."""
        return (
            (self.called or POLL, BALLOTS)
            if self.ballots is None
            else (POLL, self.called or BALLOTS)
        )

    def words(self):
        if self.args is not None:
            return self.args
        poll, ballots = self.names()
        return [
            self.command,
            "--poll",
            poll,
            *([] if self.ballots is None else ["--ballots", ballots]),
        ]

    def swapped_poll(self):
        """The poll with each text of `swap` that stands in it."""
        poll, pairs = self.poll, iter(self.swap or [])
        for old, new in zip(pairs, pairs):
            assert poll is not None and old in poll, old
            poll = poll.replace(old, new, 1)
        return poll

    def files(self):
        head = "" if self.about is None else f"# {self.about}\n"
        (poll, ballots), swapped = self.names(), self.swapped_poll()
        texts = {poll: swapped and head + swapped, ballots: self.ballots, SHEET: self.sheet}
        return {name: text.encode() for name, text in texts.items() if text is not None}


def read_table(file):
    table = tomllib.loads(file.read_bytes().decode())
    given = {
        "command": table.pop("command"),
        "about": None,
        "poll": table.pop("poll", None),
        "ballots": None,
    }
    return {name: Row(**given | row) for name, row in table.items()}


def written(text):
    """The text as a TOML string: a literal of several lines, if no character has to be escaped."""
    start = "\n" if "\n" in text else ""
    if (
        start
        and "'''" not in text
        and not text.endswith("'")
        and all(sign.isprintable() or sign == "\n" for sign in text)
    ):
        return f"'''{start}{text}'''"
    quotes = '"""' if start else '"'
    return quotes + start + "".join(map(spelled, text)) + quotes


def written_in_one_line(text):
    if "'" not in text and '"' in text and text.isprintable():
        return f"'{text}'"
    return '"' + "".join(map(spelled, text)).replace("\n", "\\n") + '"'


def spelled(sign):
    known = {"\\": "\\\\", '"': '\\"', "\r": "\\r", "\t": "\\t", "\n": "\n"}
    if sign in known or sign.isprintable():
        return known.get(sign, sign)
    return f"\\U{ord(sign):08X}" if ord(sign) > 0xFFFF else f"\\u{ord(sign):04X}"


def rewrite(file, name, stdout, stderr, status):
    """Rewrites a table in which one case expects another answer; the comments at its top stay."""
    rows = read_table(file)
    rows[name].stdout, rows[name].stderr, rows[name].status = stdout, stderr, status
    lines = file.read_text().splitlines(keepends=True)
    head = next((place for place, line in enumerate(lines) if not line.startswith("#")), len(lines))
    write_table(file, rows, "".join(lines[:head]))


def write_table(file, rows, comment=""):
    """Writes a table of one command; the poll that most cases have is at its top, unless a case has none."""
    (command,) = {row.command for row in rows.values()}
    polls = [row.poll for row in rows.values()]
    most = max(polls, key=polls.count)
    shared = most if polls.count(most) > 1 and None not in polls else None
    parts = [
        comment,
        f"command = {written(command)}\n"
        + ("" if shared is None else f"poll = {written(shared)}\n"),
    ]
    for name, row in rows.items():
        values = {
            "about": row.about,
            "args": row.args and f"[{', '.join(map(written, row.args))}]",
            "poll": None if row.poll == shared else row.poll,
            "swap": row.swap and f"[{', '.join(map(written_in_one_line, row.swap))}]",
            "called": row.called,
            "ballots": row.ballots,
            "sheet": row.sheet,
            "stdin": row.stdin or None,
            "stdout": row.stdout or None,
            "stderr": row.stderr or None,
            "status": str(row.status) if row.status else None,
        }
        as_it_is = ("args", "swap", "status")
        lines = [
            f"{key} = {value if key in as_it_is else written(value)}\n"
            for key, value in values.items()
            if value is not None
        ]
        parts.append("".join([f"[{name}]\n", *lines]))
    file.write_bytes("\n".join(part for part in parts if part).encode())
