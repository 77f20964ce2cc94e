"""Runs the built program as a user does on what a case cannot hold.

It is too large, or needs more than files: the limits of files, outputs that fail, the terminal, help.

DEBVOTE_VOTES_EACH is how often each of 10,000 electors votes, by default 10, which makes the greatest number of lines.
DEBVOTE_LARGE_POLLS is the size of polls with one large thing, in bytes; by default 131072 and nearly the limit.
"""

import json
import os
import pathlib
import pty
import re
import select
import subprocess
import tempfile
import time

import pytest

from tests import reference_checks, reference_findings
from tests.support import expecting
from tests.support.program import PROGRAM, ROOT

EXAMPLE = ROOT / "examples" / "plain_win"
POLL, BALLOTS, SHEET = (EXAMPLE / name for name in ("poll.toml", "ballots", "sheet"))

POLL_LIMIT = 1_048_576
BALLOTS_LIMIT = 33_554_432
SHEET_LIMIT = 1_048_576
JOINED_LIMIT = 34_603_011

VOTES_EACH = int(os.environ.get("DEBVOTE_VOTES_EACH", "10"))
LARGE_POLLS = [
    int(size)
    for size in os.environ.get("DEBVOTE_LARGE_POLLS", f"131072 {POLL_LIMIT - 200}").split()
]

# more than any of these runs takes on a slow machine
SECONDS = 1_200


def run(words, stdin=b"", stdout=subprocess.PIPE, before=None):
    how = {"input": stdin, "stdout": stdout, "stderr": subprocess.PIPE, "preexec_fn": before}
    try:
        ended = subprocess.run([PROGRAM, *map(str, words)], env={}, timeout=SECONDS, **how)
    except subprocess.TimeoutExpired:
        return None, b"no end within %d seconds" % SECONDS, None
    return ended.stdout, ended.stderr, ended.returncode


def fault(words):
    return f"debvote: {words}\n".encode()


def refused(words, status):
    """The answer of a run that ends with this fault."""
    return b"", fault(words), status


def of_both(poll=POLL, ballots=BALLOTS):
    return ["--poll", poll, "--ballots", ballots]


def files_of(folder):
    return of_both(folder / "poll.toml", folder / "ballots")


def line_of(stream):
    """The first line that a running program writes, or the part that it has written when its time is over."""
    line, over = b"", time.monotonic() + SECONDS
    while not line.endswith(b"\n"):
        ready, _, _ = select.select([stream], [], [], max(0, over - time.monotonic()))
        byte = os.read(stream.fileno(), 1) if ready else b""
        if not byte:
            break
        line += byte
    return line


# what `explain` says about a poll that is no TOML: what it is, or the position, the message, and the line there with a mark below
NOTHING = b"refused lines count for nothing"
EXCERPT = rb"  \d+ \| [^\n]{0,240}\n +\| *\^+\n"
NO_TOML = re.compile(
    rb"the poll file is no text; a poll is plain text in UTF-8\n|poll:\d+:\d+: [^\n]+\n" + EXCERPT
)


def try_no_toml(expect, name, file):
    """`explain` of a poll that is no TOML says a position."""
    output, *others = run(["explain", "--poll", file])
    expect(f"explain of {name}", (bool(NO_TOML.fullmatch(output)), *others), (True, b"", 3))


def try_findings(expect, name, file):
    """`explain` finds in any other poll what the second count finds."""
    findings, wanted = reference_checks.explain(file.read_bytes())
    output, *others = run(["explain", "--poll", file])
    are_said = reference_findings.are_said(findings, output.decode().splitlines())
    expect(f"explain of {name}", (are_said, *others), (True, b"", wanted))


GOOD = "poll ok: 2 options, 1 electors"
SYNTAX = "syntax"
SMALL = {
    "title": '"T"',
    "options": '["A"]',
    "ratios": "[1]",
    "default": '"None"',
    "quorum": "0",
    "roll": '["v0"]',
}

# what comes before the keys of a poll: its start, the repeated part, its end, and the answer
LARGE_FILES = [
    # what else a poll file may have
    ("#", "x", "\n", GOOD),
    ('note = "', "x", '"\n', GOOD),
    ("", "k", " = 1\n", GOOD),
    ("note = [", "[],", "]\n", GOOD),
    ("note = [", "{}, 1.5, ", "]\n", GOOD),
    ("", "\n", "", GOOD),
    # lists, tables and keys that are nested without end
    ("note = ", "[", "\n", SYNTAX),
    ("note = ", "{a = ", "\n", SYNTAX),
    ("note = ", "[{a = ", "\n", SYNTAX),
    ("", "[", "a]\n", SYNTAX),
    ("[", "a.", "a]\n", SYNTAX),
    ("", "a.", "a = 1\n", SYNTAX),
    # tables that have all keys below them
    ("", "[[a]]\n", "", "key title"),
    # what does not end, or comes twice, or is too large, and a fault in the last of many lines
    ("", "#\n", "note =\n", SYNTAX),
    ("", "k", "\n", SYNTAX),
    ('note = "', "x", "\n", SYNTAX),
    ('note = """', "x\n", "", SYNTAX),
    ("note = [", "1,", "\n", SYNTAX),
    ("", "a = 1\n", "", SYNTAX),
    ("note = ", "9", "\n", SYNTAX),
]

# a key with a large value: its start, the repeated part, its end, and the fault
LARGE_VALUES = [
    ("title", '"', "x", '"', "title"),
    ("options", "[", '"A",', "]", "number of options"),
    ("options", "[", '"A",', "1]", "key options"),
    ("options", '["', "x", '"]', "name of option 1"),
    ("ratios", "[", "1,", "]", "ratios"),
    ("default", '"', "x", '"', "name of option 2"),
    ("quorum", "", "9", "", SYNTAX),
    ("roll", "[", '"v0",', "]", "size of roll"),
    ("roll", '["v0", "', "x", '"]', "voter at position 1"),
]


def repeated(size, start, part, end):
    return start + part * ((size - len(start) - len(end)) // len(part)) + end


def keys_of(**values):
    """A poll with these keys, and the others of the small one."""
    return "".join(f"{key} = {value}\n" for key, value in (SMALL | values).items())


def large_polls(size):
    """The name, the text and the answer of each poll in which one thing is large."""
    for start, part, end, answer in LARGE_FILES:
        yield start + part, repeated(size, start, part, end) + keys_of(), answer
    half = size // 2 - 9
    yield "lists that end", f"note = {'[' * half}{']' * half}\n{keys_of()}", SYNTAX
    for key, start, part, end, answer in LARGE_VALUES:
        value = repeated(size, start, part, end)
        yield f"{key} = {start}{part}", keys_of(**{key: value}), answer


class WholeTest(expecting.Expecting):
    """A test with its own folder."""

    def setUp(self):
        super().setUp()
        room = tempfile.TemporaryDirectory(prefix="debvote-whole-")
        self.folder = pathlib.Path(self.enterContext(room))

    def expect(self, name, answer, wanted):
        """The answer (output, faults, status) is as expected; None is anything, and a list has parts that an output has."""
        found = (
            [part for part in w if part in a] if isinstance(w, list) else None if w is None else a
            for w, a in zip(wanted, answer, strict=True)
        )
        super().expect(name, tuple(found), wanted)


@pytest.mark.checked
class WordsTest(WholeTest):
    def test_help(self):
        """Help goes to standard output with status 0, and says what each command and each option is."""
        options = {
            "--poll": "<FILE> The poll file, in TOML",
            "--ballots": "<FILE> The ballot file, one ballot a line: name 1,2,3",
            "--desks": "<K> How many desks enter ballots at once, 1 to 8; the result is the same [default: 1]",
            "--casting": "<NAME> The option that the casting vote chooses in a tie (its exact name)",
            "--sheet": "<FILE> The sheet that was published",
        }
        top, both = [], "--poll --ballots"
        for command, said, names in [
            ("count", "Counts the ballots and prints the result", f"{both} --desks --casting"),
            ("steps", "Prints the reply to each ballot", both),
            ("check", "Checks a poll file", "--poll"),
            ("explain", "Reports every problem in a poll and its ballots, and where it is", both),
            ("standing", "Prints the ballots that count: each elector's last valid one", both),
            (
                "verify",
                "Counts the ballots and compares the result with a published sheet",
                f"{both} --sheet --desks",
            ),
            (
                "picture",
                "Counts the ballots and prints the result as a graph for Graphviz",
                f"{both} --desks --casting",
            ),
        ]:
            top.append(f"{command} {said}")
            self.check_help([command], [f"{name} {options[name]}" for name in names.split()])
        joined = "Without a command it acts as steps on standard input: poll, a line %%, ballots"
        hint = "If a file is refused, explain says why, and where"
        wanted = [*top, "Usage: debvote [COMMAND]", joined, hint, "Exit statuses:"]
        self.check_help([], wanted)

    def check_help(self, command, wanted):
        output, *others = run([*command, "--help"])
        lines = [" ".join(line.split()) for line in output.decode().splitlines()]
        usage = " ".join(["Usage: debvote", *command])
        missing = [line for line in wanted if line not in lines]
        begins = any(line.startswith(usage) for line in lines)
        self.expect(f"help: {command}", (missing, begins, *others), ([], True, b"", 0))

    def test_version_and_words_that_are_no_text(self):
        """The version, and an argument that is not UTF-8."""
        for word in ("--version", "-V"):
            self.expect(f"debvote {word}", run([word]), (b"debvote 3.0.0\n", b"", 0))
        for words in ([b"count", b"--poll", b"\xff"], [b"\xff"], [b"--version", b"\xfe"]):
            ended = subprocess.run([PROGRAM, *words], capture_output=True, timeout=SECONDS)
            found = ended.stdout, ended.stderr, ended.returncode
            self.expect(f"words {words}", found, refused("an argument is not UTF-8", 2))

    def test_a_terminal(self):
        """At a terminal the program says what it waits for, before it reads."""
        outer, inner = pty.openpty()
        pipes = {"stdout": subprocess.PIPE, "stderr": subprocess.PIPE}
        program = subprocess.Popen([PROGRAM], stdin=inner, **pipes)
        hint = line_of(program.stderr)
        os.write(outer, b"\x04")
        self.addCleanup(program.kill)
        output, faults = program.communicate(timeout=SECONDS)
        os.close(outer)
        os.close(inner)
        wanted = fault("reading a poll and its ballots from the terminal; see debvote --help")
        self.expect("a terminal: what is said before it reads", (hint,), (wanted,))
        # an empty input is a poll that lacks its first key
        found = output, faults, program.returncode
        self.expect("a terminal: what is said then", found, refused("poll refused: key title", 3))

    def test_files_stay(self):
        """A run leaves the files that it reads, and the folder around them, as they are."""
        for file in (POLL, BALLOTS, SHEET):
            (self.folder / file.name).write_bytes(file.read_bytes())
        files = files_of(self.folder)

        def as_it_is():
            """The bytes, the inode, the mode and the time of each."""
            found = {file: file.stat() for file in self.folder.iterdir()}
            return {
                file: (file.read_bytes(), stat[:2], stat.st_mtime_ns)
                for file, stat in found.items()
            }

        before = as_it_is()
        sheet = ["--sheet", self.folder / "sheet"]
        for words in (["count", *files], ["verify", *files, *sheet], ["explain", *files]):
            found = run(words)[2], as_it_is() == before
            self.expect(f"{words[0]}: the files are as they were", found, (0, True))

    def test_streams(self):
        """A full disk, a closed pipe and a closed output end with a fault line and status 7, and not by a signal."""
        failed = None, fault("output failed"), 7
        commands = "count steps standing picture explain".split()
        for words in [
            *([command, *of_both()] for command in commands),
            ["verify", *of_both(), "--sheet", SHEET],
            ["check", "--poll", POLL],
            ["--help"],
            ["--version"],
        ]:
            with open("/dev/full", "wb") as full:
                self.expect(f"{words[0]} into a full disk", run(words, stdout=full), failed)
        for words in (["count", *of_both()], ["--help"]):
            with subprocess.Popen(["true"], stdin=subprocess.PIPE) as broken:
                broken.wait(SECONDS)
                self.expect(
                    f"{words[0]} into a closed pipe", run(words, stdout=broken.stdin), failed
                )
            found = run(words, stdout=None, before=lambda: os.close(1))
            self.expect(f"{words[0]} into a closed output", found, failed)
        found = run([], stdin=None, before=lambda: os.close(0))
        self.expect("a closed input", found, refused("ballots unreadable", 4))
        found = run(["check", "--poll", "none"], before=lambda: os.close(2))
        self.expect("a fault into closed faults", found, (b"", b"", 3))

    def test_pipes(self):
        """A file may be a pipe, which gives its bytes once."""
        pipe, counted = "/dev/stdin", (SHEET.read_bytes(), b"", 0)
        for name, words, file, wanted in [
            ("ballots", ["count", *of_both(ballots=pipe)], BALLOTS, counted),
            ("a poll", ["count", *of_both(poll=pipe)], POLL, counted),
            ("a sheet", ["verify", *of_both(), "--sheet", pipe], SHEET, (b"verified\n", b"", 0)),
        ]:
            self.expect(f"{name} from a pipe", run(words, file.read_bytes()), wanted)


class LimitsTest(WholeTest):
    def test_limits_of_files(self):
        """Files of the greatest size and of one byte more, and as many lines. Of two faults the first in this order is said."""
        poll, sheet = POLL.read_bytes(), SHEET.read_bytes()
        files = {
            "poll": poll,
            "greatest": poll.ljust(POLL_LIMIT, b"#"),
            "longer": poll.ljust(POLL_LIMIT + 1, b"#"),
            "broken": b"title =",
            "ballots": BALLOTS.read_bytes(),
            "most": b"x" * BALLOTS_LIMIT,
            "more": b"x" * (BALLOTS_LIMIT + 1),
            "long": (b"x" * 334 + b"\n") * 100_000,
            "empty": b"\n" * 100_000,
            "many": b"\n" * 100_001,
            "odd": bytes(range(256)) * 1000,
            "sheet": sheet,
            "sheet0": b"x" * SHEET_LIMIT,
            "sheet1": b"x" * (SHEET_LIMIT + 1),
        }
        for name, data in files.items():
            (self.folder / name).write_bytes(data)
        for words, status, said in [
            ("count greatest ballots", 0, sheet),
            ("count longer ballots", 3, "poll too long"),
            ("count longer none", 3, "poll too long"),
            ("count poll most", 0, [b"Lines: 1\nValid: 0\nRefused: 1\nVoters: 0\n"]),
            ("count poll more", 4, "ballots too long"),
            ("count poll long", 0, [b"Refused: 100000\n"]),
            ("count poll empty", 0, [b"Refused: 100000\n"]),
            ("count poll odd", 0, [b"Valid: 0\n"]),
            ("count poll many --casting Zed", 8, "casting option is not in the poll"),
            ("count broken many --casting Zed", 3, "poll refused: syntax"),
            ("count poll many", 4, "ballots refused: too many lines"),
            ("steps poll many", 4, "ballots refused: too many lines"),
            ("standing poll many", 4, "ballots refused: too many lines"),
            ("explain poll many", 4, "ballots refused: too many lines"),
            ("picture poll many", 4, "ballots refused: too many lines"),
            # what is wrong with a poll is said on standard output
            ("explain broken many", 3, None),
            ("verify poll ballots --sheet sheet", 0, b"verified\n"),
            ("verify poll ballots --sheet sheet0", 9, [b"differs at line 1\nsheet: x"]),
            ("verify poll ballots --sheet sheet1", 10, "sheet too long"),
            ("verify poll ballots --sheet none", 10, "sheet unreadable"),
            ("verify longer more --sheet sheet", 3, "poll too long"),
            ("verify longer ballots --sheet sheet1", 3, "poll too long"),
            ("verify poll more --sheet sheet1", 4, "ballots too long"),
            ("verify longer ballots --sheet none", 3, "poll too long"),
            ("verify poll none --sheet sheet1", 4, "ballots unreadable"),
        ]:
            command, *names = words.split()
            of_poll, ballots, *more = (
                self.folder / name if name in {*files, "none"} else name for name in names
            )
            wanted = refused(said, status) if isinstance(said, str) else (said, b"", status)
            self.expect(words, run([command, *of_both(of_poll, ballots), *more]), wanted)
        joined = (poll + b"%%\n").ljust(JOINED_LIMIT, b"x")
        found = run([], joined)
        self.expect("a joined input of the greatest size", found, (b"1 bad shape\n", b"", 0))
        self.expect("one byte more", run([], joined + b"x"), refused("ballots too long", 4))


class RollsTest(WholeTest):
    def test_rolls(self):
        """10,000 electors, and one more; the last of them is misshapen; and 499 and 500 votes when a quorum of 10Q needs 500."""
        names = [f"v{i}" for i in range(10_001)]
        counted = [
            b"Quorum: 10Q, 500 votes\n",
            b"  1     - 10000\n",
            b"  1 over 2 by 10000 to 0\n",
            b"Winner: 1 A\n",
        ]
        too_many = refused("poll refused: size of roll", 3)
        misshapen = refused("poll refused: voter at position 9999", 3)
        good = b"poll ok: 2 options, 10000 electors\n", b"", 0
        for what, roll, votes, checked, wanted in [
            ("one more", names, 10_001, too_many, too_many),
            ("a misshapen last", [*names[:9_999], "V"], 0, misshapen, (b"", None, 3)),
            ("all", names[:10_000], 10_000, good, (counted, b"", 0)),
            ("499 votes", names[:10_000], 499, good, ([b"  1 quorum\n"], b"", 0)),
            ("500 votes", names[:10_000], 500, good, ([b"Winner: 1 A\n"], b"", 0)),
        ]:
            poll = keys_of(ratios="[10]", quorum="10", roll=json.dumps(roll))
            (self.folder / "poll.toml").write_text(poll)
            (self.folder / "ballots").write_text("".join(f"{name} 1,2\n" for name in roll[:votes]))
            files = files_of(self.folder)
            self.expect(f"a check of {what}", run(["check", *files[:2]]), checked)
            self.expect(f"a count of {what}", run(["count", *files, "--desks", 8]), wanted)


class GreatestTest(WholeTest):
    def write_poll(self, letter, more=""):
        """A poll of the greatest size with the most electors, whose names begin with this letter. Returns these."""
        names = [f"{letter}lector-{i:05}-".ljust(32, "x") for i in range(10_000)]
        poll = keys_of(options='["A", "B"]', ratios="[1, 1]", roll=json.dumps(names)) + more
        (self.folder / "poll.toml").write_text(poll.ljust(POLL_LIMIT, "#"))
        return names

    def test_greatest_sizes(self):
        """Each command on a poll of the greatest size, with the most electors, and on the most lines."""
        names = self.write_poll("e")
        # each elector prefers B to A only the last time
        lines = [f"{name} 1,2,3" for name in names] * (VOTES_EACH - 1)
        lines += [f"{name} 2,1,3" for name in names]
        number = len(lines)
        (self.folder / "ballots").write_text("\n".join(lines) + "\n")
        files, poll_alone = files_of(self.folder), b"poll ok: 3 options, 10000 electors\n"
        totals = b"%d lines: %d valid, 0 refused, 0 of them late; " % (number, number)
        totals += b"10000 of 10000 electors have a ballot; %s\n" % NOTHING
        replies = [b"counted"] * 10_000 + [b"replaced"] * (number - 10_000)
        steps = b"".join(b"%d %s\n" % reply for reply in enumerate(replies, 1))
        standing = "\n".join(lines[-10_000:]).encode() + b"\n"
        sheet = self.folder / "sheet"
        sheet.write_bytes(run(["count", *files])[0])
        for words, wanted in [
            (["check", *files[:2]], poll_alone),
            (["explain", *files[:2]], poll_alone),
            (["steps", *files], steps),
            (["standing", *files], standing),
            (["explain", *files], totals),
            (["count", *files, "--desks", 8], [b"Winner: 2 B\n"]),
            (["picture", *files], [b"digraph "]),
            (["verify", *files, "--sheet", sheet], b"verified\n"),
        ]:
            self.expect(words, run(words), (wanted, b"", 0))
        joined = b"\n%%\n".join(file.read_bytes() for file in files[1::2])
        self.expect("the most lines in one input", run([], joined), (steps, b"", 0))
        (self.folder / "ballots").write_text("".join(f"{name} 1\n" for name in names) * VOTES_EACH)
        output, *others = run(["explain", *files])
        found, hint = re.sub(EXCERPT, b"", output).splitlines(), b"1 rank, the poll has 3 options"
        wanted = [b"ballots:%d: bad rank count: %s" % (line, hint) for line in range(1, number + 1)]
        nobody = b"%d lines: 0 valid, %d refused, 0 of them late; " % (number, number)
        nobody += b"0 of 10000 electors have a ballot; %s" % NOTHING
        are_told = [*found[:number], *found[-1:]] == [*wanted, nobody]
        self.expect("explain of the most refused lines", (are_told, *others), (True, b"", 9))

    def test_many_strangers(self):
        """`explain` searches near names for the first 100 lines that are not on the roll."""
        (self.folder / "poll.toml").write_text(keys_of(roll='["ada"]'))
        (self.folder / "ballots").write_text("adaa 1,2\n" * 102)
        output, *others = run(["explain", *files_of(self.folder)])
        lines = re.sub(EXCERPT, b"", output).splitlines()
        found = [line.endswith(b"; did you mean ada?") for line in lines]
        wanted = [True] * 100 + [False] * 4, b"", 9
        self.expect("near names of many strangers", (found, *others), wanted)

    @pytest.mark.whole
    def test_most_findings(self):
        """`explain` of a poll of the greatest size: a line for each of 10,000 misshapen names and 60,000 keys that are not read."""
        keys = [f"k{i:05}" for i in range(60_000)]
        names = self.write_poll("E", "".join(f"{key} = 1\n" for key in keys))
        shape = "a voter's name has 1 to 32 of a to z, 0 to 9, . and -, and no other voter has it; positions count from 0"
        lines = [
            f'poll: voter at position {i}: "{name}" has as character 1: "E"; {shape}\n'
            for i, name in enumerate(names)
        ]
        lines += [f"poll: key {key} is not read\n" for key in keys]
        output, *others = run(["explain", "--poll", self.folder / "poll.toml"])
        are_told = re.sub(EXCERPT, b"", output) == "".join(lines).encode()
        self.expect("explain of the most findings", (are_told, *others), (True, b"", 3))


class LargePollsTest(WholeTest):
    def test_large_polls(self):
        """Each with this many bytes in one thing."""
        for size in LARGE_POLLS:
            for name, text, answer in large_polls(size):
                wanted = refused(f"poll refused: {answer}", 3)
                if answer == GOOD:
                    wanted = f"{answer}\n".encode(), b"", 0
                file = self.folder / "poll.toml"
                file.write_text(text)
                name = f"a large poll of {name!r}, {size} bytes"
                self.expect(name, run(["check", "--poll", file]), wanted)
                try_explain = try_no_toml if answer == SYNTAX else try_findings
                try_explain(self.expect, name, file)


class BytesTest(WholeTest):
    def test_bytes_in_a_poll(self):
        """A byte 0 or 255 at any position of a poll file is no TOML."""
        text, file = POLL.read_bytes(), self.folder / "poll.toml"
        no_toml = refused("poll refused: syntax", 3)
        for byte in (b"\x00", b"\xff"):
            for place in range(len(text) + 1):
                file.write_bytes(text[:place] + byte + text[place:])
                self.expect(f"{byte} before {place}", run(["check", "--poll", file]), no_toml)
            file.write_bytes(byte * POLL_LIMIT)
            self.expect(f"{byte} alone", run(["check", "--poll", file]), no_toml)
            try_no_toml(self.expect, f"{byte} alone", file)
