"""The program debvote, and its answers (docs/FORMATS.md)."""

import os
import pathlib
import re
import shutil
import subprocess
from typing import NamedTuple

from debvote_tools.cli.faults import Fault, Status, other_format
from debvote_tools.files import BALLOTS_LIMIT, LINES_LIMIT, POLL_LIMIT, in_memory


class Answer(NamedTuple):
    """What a run wrote on both outputs, and its exit status."""

    text: str
    faults: str
    status: int

    @property
    def refusal(self) -> str:
        """Why debvote did not do what it was asked for, without its own name."""
        return self.faults.strip().removeprefix("debvote: ")


class Finding(NamedTuple):
    """What `explain` says of a line: the word of `steps`, what is wrong, the names on the roll that
    may have been meant, and a remark on their ballots in other lines.
    """

    # its number in the file that debvote got, from 1; not that of an envelope in the book
    line: int
    word: str
    said: str
    near: tuple[str, ...] = ()
    remark: str = ""

    @property
    def hint(self) -> str:
        question = f"; did you mean {' or '.join(self.near)}?" if self.near else ""
        return f"{self.said}{question}{self.remark}"

    @property
    def answer(self) -> str:
        """What the book keeps of it, the verdict and the reason: nothing that depends on other
        lines.
        """
        return f"{self.word}: {self._replace(remark='').hint}"


class Findings(NamedTuple):
    """What `explain` says of each refused line, how many electors have a ballot, and whether the
    lines look like a table. To debvote a line is late after the poll's `last_envelope`, which no
    poll of an election has.
    """

    refused: list[Finding]
    voters: int
    are_table: bool


class Debvote:
    """Runs debvote in a folder, to which file names are relative. It may be in `program_folder`,
    beside the program that runs this.
    """

    def __init__(self, folder: pathlib.Path, program_folder: pathlib.Path | None = None) -> None:
        beside = shutil.which("debvote", path=str(program_folder)) if program_folder else None
        path = beside or shutil.which("debvote")
        if path is None:
            raise Fault(
                "debvote",
                "the program is neither beside this one nor in the PATH",
                "run make build in a checkout, or install the package debvote",
                Status.NOT_FOUND,
                None,
            )
        self.path = os.path.abspath(path)
        self.folder = folder

    def run(self, *words: str | os.PathLike[str], given: bytes = b"") -> Answer:
        """Runs debvote, with these bytes as its standard input."""
        try:
            ended = subprocess.run(
                [self.path, *words], cwd=self.folder, capture_output=True, input=given
            )
        except OSError as error:
            reason = f"it can't be started ({error.strerror})"
            raise Fault(self.path, reason, "run the command again", Status.BAD_OUTPUT) from None
        status = ended.returncode if ended.returncode >= 0 else 128 - ended.returncode
        text = ended.stdout.decode("ascii", "replace")
        return Answer(text, ended.stderr.decode("utf-8", "replace"), status)

    def answer(
        self, task: str, poll_bytes: bytes, ballots_bytes: bytes = b"", *words: str
    ) -> Answer:
        """What debvote writes about a poll and ballots in memory, unless it refuses them as a
        whole.
        """
        with in_memory(poll_bytes) as poll_path:
            files = ("--poll", poll_path, "--ballots", "/dev/stdin")
            answer = self.run(task, *files, *words, given=ballots_bytes)
        if answer.faults and not answer.text:
            raise refusal(answer)
        return answer

    def findings(self, poll_bytes: bytes, ballots_bytes: bytes) -> Findings:
        return findings_in(self.answer("explain", poll_bytes, ballots_bytes).text)

    def standing(self, poll_bytes: bytes, ballots_bytes: bytes) -> dict[str, str]:
        return standing_in(self.answer("standing", poll_bytes, ballots_bytes).text)

    def version(self) -> str:
        return self.run("--version").text.strip()


def refusal(answer: Answer) -> Fault:
    cures: dict[int, str] = {
        Status.BAD_POLL: f"a poll has at most {POLL_LIMIT} bytes; debvote-election check says what is wrong with it",
        Status.BAD_BALLOTS: f"debvote takes at most {LINES_LIMIT} lines and {BALLOTS_LIMIT} bytes of ballots: add fewer",
    }
    cure = cures.get(answer.status, "run the command again")
    reason = answer.refusal or f"it ended with status {answer.status}"
    return Fault("debvote", reason, cure, answer.status)


def casting_words(name: str | None) -> list[str]:
    """The arguments for a casting vote."""
    return [] if name is None else option_words("--casting", name)


def option_words(option: str, value: str) -> list[str]:
    """An option with its value, which would be read as an option if it began with a hyphen."""
    return [f"{option}={value}"] if value.startswith("-") else [option, value]


FINDING = re.compile(
    r"(?m)^ballots:(\d+): (late|bad shape|bad rank count|bad not on roll): "
    r"(?:(\S+ is not on the roll); did you mean (\S+(?: or \S+)*)\?(.*)|(.*))$"
)
TOTALS = re.compile(
    r"\d+ lines: \d+ valid, \d+ refused, \d+ of them late; (\d+) of \d+ electors have a ballot"
    "; refused lines count for nothing"
)
TABLE = "the lines look like a table; its columns may stand in another order than the options"


def findings_in(text: str) -> Findings:
    lines = text.splitlines()
    totals = TOTALS.fullmatch(lines[-1]) if lines else None
    if totals is None:
        raise other_format("the list of findings of this debvote")
    refused = [
        Finding(int(number), word, unknown or said, tuple(filter(None, near.split(" or "))), remark)
        for number, word, unknown, near, remark, said in FINDING.findall(text)
    ]
    return Findings(refused, int(totals[1]), TABLE in lines)


def standing_in(text: str) -> dict[str, str]:
    """The ranks of the ballot that stands, by the name of its elector, in the order of the roll."""
    return dict(line.split(" ", 1) for line in text.splitlines())
