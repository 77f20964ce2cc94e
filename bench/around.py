#!/usr/bin/python3
"""Times what is made around the program, debvote-election and debvote-publish, on large elections.

    bench/around.py [--program PROGRAM]

PROGRAM is the built debvote. The seconds of processor that a command took, with those of the programs that it started, are given as a
multiple of those of bench/yardstick.py, which runs before each command and after it. So a slow or a busy machine changes both. Each line
has the most that a command may take; beyond it the script fails.
"""

import argparse
import contextlib
import hashlib
import html
import json
import os
import pathlib
import random
import resource
import sqlite3
import statistics
import subprocess
import sys
import tempfile
import tomllib
from collections.abc import Iterable, Iterator

import elections

ROOT = pathlib.Path(__file__).resolve().parent.parent
PROGRAM = ROOT / "crates" / "debvote" / "out" / "debvote"
ELECTION, PUBLISH = ROOT / "bin" / "debvote-election", ROOT / "bin" / "debvote-publish"
YARDSTICK = ROOT / "bench" / "yardstick.py"

# the large election of the other benchmark
OPTIONS, LINES = 16, 100_000
# this many of them are cast at a desk, one after the other
DESK_BALLOTS = 10

# the largest page of debvote-publish: so many options with the longest names
MOST_OPTIONS, MOST_ELECTORS = 32, 10_000

# letters of a mailbox
LETTERS = 10_000

# six questions take at most so many times as long as one, with these electors, each of whom votes twice by a line and some by letter
QUESTIONS, TIMES, MANY, FEW = "ABCDEF", 3, 2_000, 500


@contextlib.contextmanager
def before(clock: pathlib.Path) -> Iterator[None]:
    """Commands find the time of this file: letters of the past are no older than the call."""
    os.environ |= {"PYTHONPATH": str(ROOT / "tests" / "clock"), "DEBVOTE_CLOCK": str(clock)}
    try:
        yield
    finally:
        del os.environ["PYTHONPATH"], os.environ["DEBVOTE_CLOCK"]


# the seconds of each run of the yardstick
YARDS: list[float] = []


def of_yardstick() -> float:
    """Runs the yardstick, and returns its seconds."""
    YARDS.append(seconds_of([YARDSTICK], ROOT, os.environ["PATH"]))
    return YARDS[-1]


def measured(words: list[object], folder: pathlib.Path, path: str, statuses: tuple[int, ...] = (0,), given: str | None = None) -> float:
    """Runs a command, and returns how many times as long it took as the yardstick, before it and after it in the mean."""
    before = of_yardstick()
    seconds = seconds_of(words, folder, path, statuses, given)
    return 2 * seconds / (before + of_yardstick())


def seconds_of(
    words: list[object], folder: pathlib.Path, path: str, statuses: tuple[int, ...] = (0,), given: str | None = None
) -> float:
    """Runs a command in a folder, which must end with one of these statuses, and returns its seconds of processor."""
    before = resource.getrusage(resource.RUSAGE_CHILDREN)
    where = {**os.environ, "PATH": path, "PYTHONDONTWRITEBYTECODE": "1"}
    given_bytes = b"" if given is None else given.encode()
    ended = subprocess.run([sys.executable, *map(str, words)], cwd=folder, env=where, input=given_bytes, capture_output=True)
    if ended.returncode not in statuses:
        sys.exit(f"{words}: status {ended.returncode}: {ended.stderr.decode(errors='replace')[:600]}")
    after = resource.getrusage(resource.RUSAGE_CHILDREN)
    return after.ru_utime + after.ru_stime - before.ru_utime - before.ru_stime


def new_election(room: pathlib.Path, poll: str, members: str, path: str, *call: str) -> None:
    """A called election in a folder. With an address for ballots `close` writes letters."""
    seconds_of([ELECTION, "new", room], room.parent, path)
    (room / "poll.toml").write_text(poll)
    (room / "members.csv").write_text(members)
    seconds_of([ELECTION, "roll"], room, path)
    seconds_of([ELECTION, "call", *call], room, path)


def asked(room: pathlib.Path, labels: str, clock: pathlib.Path, path: str) -> dict[str, float]:
    """How long each command of a whole election takes that asks these questions; of one without a label if there are none."""
    names = [f"elector-{number}" for number in range(MANY)]
    poll = 'title = "T"\noptions = ["A", "B", "C"]\nratios = [1, 1, 1]\ndefault = "N"\nquorum = 1\n'
    seconds_of([ELECTION, "new", *(["--questions", len(labels)] if labels else []), room], room.parent, path)
    for place in [f"polls/{label}.toml" for label in labels] or ["poll.toml"]:
        (room / place).write_text(poll)
    if labels:
        (room / "polls/title.txt").write_text("T\n")
    (room / "members.csv").write_text("name,who,mail\n" + "".join(f"{name},{name},{name}@club.example\n" for name in names))
    with before(clock):
        seconds_of([ELECTION, "roll"], room, path)
        seconds_of([ELECTION, "call", "--to", "vote@club.example", "--at", "https://club.example/"], room, path)

    def ballot(name: str, ranks: str) -> str:
        return " ".join([name, *(f"{label} {ranks}" for label in labels)] if labels else [name, ranks])

    lines = [ballot(name, ranks) for ranks in ("1,2,3,4", "2,1,3,4") for name in names[FEW:]]
    (room / "lines").write_text("".join(f"{line}\n" for line in lines))
    write_inbox(room, ((name, ballot(name, "1,2,3,4")) for name in names[:FEW]), is_quoting=True)
    runs = [
        ("letters call", ["letters", "call"]),
        ("add, lines", ["add", "--yes", "lines"]),
        ("add, letters", ["add", "--yes", "inbox"]),
        ("status", ["status"]),
        ("show", ["show", names[FEW]]),
        ("receipts", ["letters", "receipts"]),
        ("close", ["close", "--early"]),
        ("count", ["count"]),
        ("publish", ["publish", "--force", "--because", "it is early"]),
        ("letters result", ["letters", "result"]),
    ]
    found = {name: measured([ELECTION, *words], room, path, (0, 1)) for name, words in runs}
    demand_entered(room, FEW)
    return found


def several_questions(folder: pathlib.Path, path: str) -> Iterator[tuple[str, float, float]]:
    """The same for six questions; the most is three times that of one."""
    clock = folder / "clock"
    clock.write_text("2026-11-20T09:00:00+00:00")
    one, six = (asked(folder / f"asked-{len(labels)}", labels, clock, path) for labels in ("", QUESTIONS))
    for name, times in six.items():
        yield f"six questions, {name}", times, round(TIMES * one[name], 1)


def large_election(folder: pathlib.Path, path: str) -> Iterator[tuple[str, float, float]]:
    """What is done, how long it takes and may take, in an election of 10,000 electors and 100,000 lines."""
    written, ballots = map(pathlib.Path, elections.write(str(folder), OPTIONS, LINES - DESK_BALLOTS))
    poll = tomllib.loads(written.read_text())
    names, room = poll.pop("roll"), folder / "held"
    lines = "".join(f"{key} = {json.dumps(value)}\n" for key, value in poll.items())
    new_election(room, lines, "name,who,mail\n" + "".join(f"{name},{name},{name}@club.example\n" for name in names), path)
    yield "add, 100,000 lines", measured([ELECTION, "add", "--yes", "--force", ballots], room, path), 8
    ranks = ",".join(str(option + 1) for option in range(OPTIONS))
    first, second, *others = (f"{name} {ranks}\n" for name in names[:DESK_BALLOTS])
    # each act computes the digest of the act before it anew, and this one had all these lines
    yield "the first desk after it", measured([ELECTION, "desk"], room, path, given=first), 0.8
    one = measured([ELECTION, "desk"], room, path, given=second)
    yield "a desk with one ballot", one, 0.5
    all_others = measured([ELECTION, "desk"], room, path, given="".join(others))
    yield "each further ballot of a desk", (all_others - one) / (len(others) - 1), 0.1
    for name, words, most in [("status", ["status"], 1), ("close", ["close"], 2.5), ("publish", ["publish"], 6)]:
        # 1: a tie
        yield name, measured([ELECTION, *words], room, path, (0, 1)), most


def large_roll(folder: pathlib.Path, path: str) -> Iterator[tuple[str, float, float]]:
    """The same for a list of 10,000 members whose names in the vote are made."""
    room = folder / "members"
    seconds_of([ELECTION, "new", room], folder, path)
    rows = "".join(f'"Ann ""A"" Lee, no. {number}",\n' for number in range(10_000))
    (room / "members.csv").write_text("who,mail\n" + rows)
    yield "roll, names for 10,000", measured([ELECTION, "roll"], room, path), 2


def largest_page(folder: pathlib.Path, path: str) -> Iterator[tuple[str, float, float]]:
    """The same for the largest page."""
    rng = random.Random(1)
    room = folder / "page"
    room.mkdir()
    names = [f"{number} {'WMwm' * 10}"[:40] for number in range(1, MOST_OPTIONS + 1)]
    roll = [f"elector-{number}-".ljust(32, "m") for number in range(MOST_ELECTORS)]
    *others, default = names
    listed = [", ".join(f'"{name}"' for name in texts) for texts in (others, roll)]
    poll = f'title = "T"\noptions = [{listed[0]}]\nratios = [{", ".join("1" for _ in others)}]\n'
    (room / "poll.toml").write_text(poll + f'default = "{default}"\nquorum = 1\nroll = [{listed[1]}]\n')
    ranks = list(map(str, range(1, MOST_OPTIONS + 1)))
    lines = [f"{name} {','.join([*rng.sample(ranks[:-1], MOST_OPTIONS - 1), ranks[-1]])}\n" for name in roll]
    (room / "ballots").write_text("".join(lines))
    words = [PUBLISH, "--poll", "poll.toml", "--ballots", "ballots", "result"]
    yield "publish, 32 options", measured(words, room, path, (0, 1)), 5


def write_inbox(room: pathlib.Path, ballots: Iterable[tuple[str, str]], *, is_quoting: bool) -> None:
    """A mailbox with a letter for each elector and ballot: answers to the letter of the call, with their own marks."""
    call = room / "call"
    sealed = next(file for file in (call / "polls.sha256", call / "poll.toml") if file.exists())
    mark = hashlib.sha256(sealed.read_bytes()).hexdigest()[:16]
    with contextlib.closing(sqlite3.connect(room / "election.db")) as book:
        owns = dict(book.execute("SELECT name, mark FROM elector JOIN elector_state USING (elector) WHERE mark <> ''"))
    quoted = (call / "call.txt").read_text().splitlines() if is_quoting else []
    letters = (letter_of(number, name, text, f"[{mark}-{owns[name]}]", quoted) for number, (name, text) in enumerate(ballots))
    (room / "inbox").write_text("".join(letters))


def letter_of(number: int, name: str, text: str, mark: str, quoted: list[str]) -> str:
    """A letter of a mailbox: plain text; or as mail programs write an answer, plain text and HTML, with the call quoted."""
    time = f"{number // 3600:02}:{number // 60 % 60:02}:{number % 60:02}"
    head = f"Received: from a by b; Mon, 23 Nov 2026 {time} +0000\nFrom: E <{name}@club.example>\nMessage-ID: <{number}@mail.example>\n"
    head = f"From {name}@club.example Mon Nov 23 10:00:00 2026\n{head}Subject: Re: T {mark}\n"
    if not quoted:
        return f"{head}Content-Type: text/plain; charset=utf-8\n\nHello\n\n{text}\n\n"
    plain = "".join(f"> {line}\n" for line in quoted)
    marked = "".join(f'<div style="font-size:10pt">{html.escape(line)}</div>\n' for line in quoted)
    parts = {
        "plain": f"Hello\n\n{text}\n\nOn Sun, 22 Nov 2026 at 10:00, Vote wrote:\n{plain}",
        "html": f"<p>{text}</p><blockquote>{marked}</blockquote>",
    }
    body = "".join(f"--b\nContent-Type: text/{kind}; charset=utf-8\n\n{part}\n" for kind, part in parts.items())
    return f'{head}Content-Type: multipart/alternative; boundary="b"\n\n{body}--b--\n\n'


def demand_entered(room: pathlib.Path, ballots: int) -> None:
    """Stops if not so many ballots of letters went in: else the times are those of letters that wait."""
    with contextlib.closing(sqlite3.connect(room / "election.db")) as book:
        [(entered,)] = book.execute("SELECT count(*) FROM envelope WHERE letter IS NOT NULL")
    if entered != ballots:
        sys.exit(f"{room}: {entered} ballots of letters went in, not {ballots}")


def election_by_letters(room: pathlib.Path, path: str, *, is_quoting: bool) -> None:
    """A called election with a mailbox of 10,000 electors, of whom a tenth leave a rank out."""
    names = [f"elector-{number}" for number in range(LETTERS)]
    poll = 'title = "T"\noptions = ["A", "B", "C"]\nratios = [1, 1, 1]\ndefault = "N"\nquorum = 1\n'
    members = "name,who,mail\n" + "".join(f"{name},{name},{name}@club.example\n" for name in names)
    clock = room.parent / "clock"
    clock.write_text("2026-11-20T09:00:00+00:00")
    with before(clock):
        new_election(room, poll, members, path, "--to", "vote@club.example")
    ballots = ((name, f"{name} {'1,2,3,4' if number % 10 else '1,2,3'}") for number, name in enumerate(names))
    write_inbox(room, ballots, is_quoting=is_quoting)


def many_letters(folder: pathlib.Path, path: str) -> Iterator[tuple[str, float, float]]:
    """The same for letters of 10,000 electors, of which a tenth waits."""
    room = folder / "letters"
    election_by_letters(room, path, is_quoting=True)
    for name, words, most in [
        ("letters, 10,000 calls", ["letters", "call"], 18),
        ("status, after these", ["status"], 1),
        ("add, 10,000 that quote", ["add", "--yes", "inbox"], 20),
        ("add, all of them again", ["add", "--yes", "inbox"], 6),
        ("held, of 1,000", ["held"], 2.7),
        ("letters, 10,000 receipts", ["letters", "receipts"], 14),
        ("letters, 1,000 reminders", ["letters", "reminders"], 7),
        ("undo, 9,000 lines", ["undo", "--yes"], 3.5),
    ]:
        yield name, measured([ELECTION, *words], room, path), most
    demand_entered(room, LETTERS - LETTERS // 10)
    close = ["close", "--yes", "--force", "--because", "so be it"]
    yield "close, with 10,000 letters", measured([ELECTION, *close], room, path), 10
    room = folder / "plain"
    election_by_letters(room, path, is_quoting=False)
    yield "add, 10,000 plain letters", measured([ELECTION, "add", "--yes", "inbox"], room, path), 10
    demand_entered(room, LETTERS - LETTERS // 10)


def main() -> int:
    parser = argparse.ArgumentParser(description="Times debvote-election and debvote-publish on large elections.")
    parser.add_argument("--program", type=pathlib.Path, default=PROGRAM)
    program = parser.parse_args().program.resolve()
    if not program.exists():
        parser.error(f"{program} is not there: make build proves and builds it")
    path = os.pathsep.join([str(program.parent), os.environ["PATH"]])
    failed = 0
    with tempfile.TemporaryDirectory(prefix="debvote-around-") as name:
        os.environ["XDG_STATE_HOME"] = str(pathlib.Path(name, "state"))
        for part in (large_election, large_roll, largest_page, many_letters, several_questions):
            for what, times, most in part(pathlib.Path(name), path):
                is_good = times <= most
                failed += not is_good
                print(f"{'' if is_good else 'TOO LONG '}{what:30}{times:7.2f} times the yardstick, {most} are the most", flush=True)
    print(f"the yardstick took {min(YARDS):.2f} to {max(YARDS):.2f} seconds, in the median {statistics.median(YARDS):.2f}")
    return 1 if failed else 0


if __name__ == "__main__":
    sys.exit(main())
