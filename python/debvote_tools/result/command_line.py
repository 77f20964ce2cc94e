"""The program debvote-publish: it publishes two files, a poll in any TOML and ballots."""

import argparse
import pathlib
import signal
import tomllib
from collections.abc import Sequence
from typing import Any

from debvote_tools.call.secret import ON_PUBLIC_ROLL
from debvote_tools.call.tellers import places_for
from debvote_tools.cli import console
from debvote_tools.cli.arguments import Options, add_arguments, add_version, option, positional
from debvote_tools.cli.faults import Fault, Status, not_installed, other_format
from debvote_tools.debvote import Debvote
from debvote_tools.files import (
    BALLOTS_LIMIT,
    POLL_LIMIT,
    folder_beside,
    read_at_most,
    sha256_of,
)
from debvote_tools.poll.plain_names import bad_options, bad_title
from debvote_tools.poll.questions import Questions
from debvote_tools.poll.sealed import KEYS, REQUIRED, SealedPoll, poll_of
from debvote_tools.result import folder, places
from debvote_tools.result.facts import PublishedWords, QuestionFacts, VoteFacts
from debvote_tools.text.language import ENGLISH, LANGUAGES, language_of

PROGRAM = "debvote-publish"


class Arguments(Options):
    poll: str = option("FILE", "The poll file, in TOML", required=True)
    ballots: str = option(
        "FILE", "The ballot file, with one ballot on each line: name 1,2,3", required=True
    )
    casting: str | None = option(
        "NAME", "The exact name of the option that the casting vote chooses in a tie"
    )
    desks: int = option(
        "K", "How many desks enter the ballots, 1 to 8", type=int, choices=range(1, 9), default=1
    )
    language: str = option(
        "CODE",
        "The language of page and letter: de, en, es or fr (default: en)",
        choices=sorted(LANGUAGES),
        default=ENGLISH.code,
    )
    target: str = positional("FOLDER", "The folder to make; an existing folder must be empty")


def parser() -> argparse.ArgumentParser:
    description = "Makes the folder of an election for a web site, with debvote."
    options = argparse.ArgumentParser(prog=PROGRAM, allow_abbrev=False, description=description)
    add_version(options)
    add_arguments(options, Arguments)
    return options


def main(program_folder: pathlib.Path, given: Sequence[str] | None = None) -> int:
    """Publishes, and returns the exit status. `program_folder` is that of the program."""
    # if it is asked to end, it takes away what it has made
    console.prepare(signal.SIGHUP, signal.SIGINT, signal.SIGTERM)
    arguments = Arguments(**vars(parser().parse_args(given)))
    target_folder = pathlib.Path(arguments.target)
    try:
        folder.demand_outside(target_folder)
        if not places.is_free(target_folder):
            raise folder.in_use(target_folder, "an empty folder", "name another folder")
        facts = facts_of(arguments, program_folder)
        with folder_beside(target_folder, folder.BESIDE_PLACE) as new:
            # whoever has two files looks at the doubts on the page
            filled = folder.filled(new.folder, facts.vote, [facts], program_folder, is_forced=True)
            new.take_place(target_folder)
    except Fault as fault:
        return console.failed(PROGRAM, fault.after("", "published").words, fault.status)
    except ModuleNotFoundError as error:
        words = not_installed(error).after("", "published").words
        return console.failed(PROGRAM, words, Status.NOT_FOUND)
    except OSError as error:
        words = f"the folder can't be made ({error}): name a place where you can write"
        return console.failed(PROGRAM, words, Status.BAD_OUTPUT)
    try:
        outcome = filled.outcomes[""]
        console.tell_as_it_is(f"{outcome.sheet.last_line}\n{outcome.verified}\n")
    except console.OutputFailed as fault:
        words = f"the output failed; the folder {arguments.target} was made nevertheless: look at its page index.html"
        return console.failed(PROGRAM, words, fault.status)
    return outcome.sheet.status


# ---- the facts of two files
def facts_of(arguments: Arguments, program_folder: pathlib.Path) -> QuestionFacts:
    """Each file is read once, so that all commands read the same bytes."""
    poll_bytes = input_in(arguments.poll, POLL_LIMIT, "poll", Status.BAD_POLL)
    ballots = input_in(arguments.ballots, BALLOTS_LIMIT, "ballots", Status.BAD_BALLOTS)
    demand_in_order(poll_bytes, arguments, Debvote(pathlib.Path(), program_folder))
    poll = sealed_of(poll_bytes, arguments.poll)
    are_places = poll.roll == places_for(len(poll.roll))
    if poll.secret and not (are_places or all(map(ON_PUBLIC_ROLL.fullmatch, poll.roll))):
        cure = "publish it from its election, with debvote-election publish"
        words = "the vote is secret, and this would publish each name with its vote"
        raise Fault(arguments.poll, words, cure, done=None)
    vote = VoteFacts(
        Questions({"": poll}),
        language_of(arguments.language),
        PublishedWords({"": arguments.casting} if arguments.casting else {}),
        arguments.desks,
        sha256_of(poll_bytes),
    )
    return QuestionFacts(vote, "", ballots)


def input_in(file: str, limit: int, kind: str, status: int) -> bytes:
    try:
        return read_at_most(file, limit)
    except OSError as error:
        cure = f"give a file with --{kind} that you may read"
        raise Fault(file, f"it can't be read ({error.strerror})", cure, status) from None


def demand_in_order(poll_bytes: bytes, arguments: Arguments, debvote: Debvote) -> None:
    """Stops if debvote refuses the poll."""
    answer = debvote.run(
        "count", "--poll", "/dev/stdin", "--ballots", "/dev/null", given=poll_bytes
    )
    if answer.text:
        return
    if answer.status == Status.DONE:
        raise other_format("the sheet of this debvote")
    cure = f"debvote explain --poll {arguments.poll} says what to correct"
    raise Fault(arguments.poll, answer.refusal, cure, answer.status)


def sealed_of(poll_bytes: bytes, file: str) -> SealedPoll:
    """A poll that debvote takes, for its plain form: the keys of a sealed poll, and no other.

    Stops at shown names that people can't read or tell apart, or that are another option's.
    """
    try:
        document = tomllib.loads(poll_bytes.decode("utf-8-sig"))
    except (ValueError, RecursionError) as error:
        words = f"it can't be read ({error})"
        raise Fault(file, words, "write the poll as TOML 1.0", Status.BAD_POLL) from None
    values = {key: document[key] for key in KEYS if key in document}
    strange = [key for key in values if not is_right(key, values[key], len(document["options"]))]
    cure = "give the poll.toml of a call, or take the key out"
    if strange:
        words = f"a sealed poll cannot have such a value of {', '.join(strange)}"
        raise Fault(file, words, cure, Status.BAD_POLL)
    poll = poll_of(values)
    reasons = [reason for _, _, reason in bad_title(poll.name) if poll.name != poll.title]
    reasons += [
        reason
        for number, name, reason in bad_options(poll.names, poll.plain_names)
        if name != poll.plain_names[number - 1]
    ]
    if reasons:
        words = f"a shown name can't be published: {reasons[0]}"
        raise Fault(file, words, cure, Status.BAD_POLL)
    return poll


def is_right(key: str, value: Any, options: int) -> bool:
    """Whether a sealed poll of this number of options may have such a value. The keys that debvote
    reads it has looked at itself.
    """
    if key in (*REQUIRED, "wording", "last_envelope"):
        return True
    if key == "secret":
        return value is True
    if key in ("shown_options", "explanations"):
        is_list_of_texts = isinstance(value, list) and all(isinstance(text, str) for text in value)
        return is_list_of_texts and len(value) == options + (key == "shown_options")
    return isinstance(value, str) and value != ""
