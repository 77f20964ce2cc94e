"""The command `export`, which writes ballots and all that came into a folder."""

import os
import pathlib
import re

from debvote_tools.book import queries
from debvote_tools.call.tellers import last_ballots, text_file
from debvote_tools.cli.arguments import Options, flag, positional
from debvote_tools.cli.console import demand_yes, say, tell
from debvote_tools.cli.faults import bad_arguments
from debvote_tools.election import CALL, LETTERS, PRIVATE, RESULT, Election
from debvote_tools.files import whole_folder, write_whole
from debvote_tools.poll.questions import place_of
from debvote_tools.text.ballots import ballot_file

# what a file name keeps of the name under which something came
UNSAFE = re.compile(r"[^A-Za-z0-9._-]+")
LONGEST_FILE_NAME = 100


class Arguments(Options):
    target_folder: str = positional("FOLDER", "The folder to make")
    yes: bool = flag("In a secret vote: write the ballots without asking")


def export(election: Election, arguments: Arguments) -> None:
    """Write the poll, the ballots and everything that came into a new folder that only you can
    read.
    """
    election.whole_book()
    target_folder = pathlib.Path(arguments.target_folder)
    demand_new(election, target_folder, "folder")
    if not arguments.yes and election.sealed().is_aliased:
        demand_yes(say("Write who voted what?"), "this writes who voted what into files")
    files = exported(election)
    with whole_folder(target_folder) as folder:
        (folder / "came").mkdir(mode=0o700)
        for name, data in files.items():
            (folder / name).parent.mkdir(mode=0o700, exist_ok=True)
            write_whole(folder / name, data, 0o600)
    polls = "poll.toml,"
    if election.questions.is_several:
        polls = "for each question poll.toml and ballots.txt, for all"
    tell(
        f"Made the folder {target_folder}: {polls} ballots.txt, late.txt, and in came/ all that came. Only you can read it."
    )


def exported(election: Election) -> dict[str, bytes]:
    book = election.book
    questions = election.questions
    decided = election.decided
    files = dict[str, bytes]()
    with book.snapshot():
        for label in queries.each_question_alone(book):
            files[place_of(label, "poll.toml")] = decided[label].as_bytes()
            files[place_of(label, "ballots.txt")] = ballot_file(queries.lines_to_count(book))
        files["ballots.txt"] = ballot_file(queries.lines_to_count(book))
        if election.history().tellers:
            # who has voted, and in which way, beside what was opened
            files["check-off.toml"] = questions[""].as_bytes()
            files["check-off.txt"] = files["ballots.txt"]
            files["ballots.txt"] = opened_ballots(election)
        files["late.txt"] = ballot_file(queries.lines(book, "envelope IN late"))
        # what came has its number before its name, which is no path and has no characters that a
        # shell reads
        for number, name, data in queries.sources(book):
            safe = UNSAFE.sub("-", name.rpartition("/")[2])[-LONGEST_FILE_NAME:].strip(".")
            files[f"came/{number:05}-{safe or 'file'}"] = data
    return files


def opened_ballots(election: Election) -> bytes:
    """The ballots that the tellers have opened; none before the last list."""
    history = election.history()
    if not history.are_all_opened:
        return b""
    ballots = last_ballots(election, history).items()
    return text_file(f"{place} {ranks}" for place, (_, ranks) in ballots)


def demand_new(election: Election, target: pathlib.Path, what: str) -> None:
    """Stops if there is something, or a folder for others above it."""
    nothing = "nothing was written"
    election.demand_outside(target, CALL, LETTERS, RESULT, PRIVATE, done=nothing)
    if os.path.lexists(target):
        raise bad_arguments(target, "it exists already", f"name a new {what}", nothing)
