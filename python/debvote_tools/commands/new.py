"""The command `new`, which makes the folder of an election."""

import contextlib
import os
import pathlib
import shlex
from collections.abc import Mapping

from debvote_tools.book import book
from debvote_tools.call.draft import NEW_POLL
from debvote_tools.call.members import NEW_MEMBERS
from debvote_tools.cli.arguments import Options, option, positional
from debvote_tools.cli.console import say, tell
from debvote_tools.cli.faults import bad_arguments
from debvote_tools.election import MEMBERS_FILE, POLLS, Election
from debvote_tools.files import uninterrupted, whole_folder, write_whole
from debvote_tools.outbox.steps import draft_words
from debvote_tools.poll.questions import LABELS, POLL_FILE, TITLE_FILE
from debvote_tools.text.language import ENGLISH, LANGUAGES


class Arguments(Options):
    language: str = option(
        "CODE",
        "The language of pages and letters for electors: de, en, es or fr (default: en)",
        choices=sorted(LANGUAGES),
        default=ENGLISH.code,
    )
    questions: int = option(
        "N",
        f"How many questions are voted on, 1 to {len(LABELS)}, each with a poll of its own (default: 1)",
        type=int,
        choices=range(1, len(LABELS) + 1),
        default=1,
    )
    target: str = positional("FOLDER", "The folder to make; an existing folder must be empty")


def new(election: Election, arguments: Arguments) -> None:
    """Make the folder of an election, with a poll and a list of members to fill in."""
    if election.is_named:
        raise bad_arguments(
            "--folder", "new makes the folder that follows it", "leave --folder out", None
        )
    folder = pathlib.Path(arguments.target)
    # an empty folder is replaced
    if os.path.lexists(folder) and (
        not folder.is_dir() or folder.is_symlink() or any(folder.iterdir())
    ):
        what = "not empty" if folder.is_dir() else "not a folder"
        if (folder / book.BOOK_FILE).exists():
            what = "an election already"
        raise bad_arguments(folder, f"it exists, and is {what}", "choose another name")
    polls = new_polls(arguments.questions)
    first, *others = polls
    files = first
    if others:
        last = pathlib.Path(others[-1]).name
        files = say("{first} and {second} to {last}", first, others[0], last)
    with uninterrupted():
        make(folder, arguments.language, polls)
        tell(
            say(
                "Made the folder {folder} with {files} and {members}. Keep it on a disk of this "
                "computer, not in a shared or synced folder.",
                folder,
                files,
                MEMBERS_FILE,
            )
        )
        if arguments.language != ENGLISH.code:
            language = say(LANGUAGES[arguments.language])
            tell(say("Pages and letters for electors will be in {language}.", language))
        tell(f"Next: cd {shlex.quote(str(folder))}, {draft_words(files, 'debvote-election roll')}")


def new_polls(count: int) -> dict[str, bytes]:
    """What is to be filled in: the poll of the one question, or of each, and their title."""
    draft = NEW_POLL.read_bytes()
    if count == 1:
        return {POLL_FILE: draft}
    files = {f"{POLLS}/{TITLE_FILE}": b""}
    for label in LABELS[:count]:
        in_folder = draft.replace(b"texts/", f"texts/{label}/".encode())
        files[f"{POLLS}/{label}.toml"] = in_folder.replace(b"`ada ", f"`ada {label} ".encode())
    return files


def make(folder: pathlib.Path, language: str, polls: Mapping[str, bytes]) -> None:
    """Makes the folder whole, with the book, which notes where it will lie."""
    place = folder.absolute()
    with contextlib.ExitStack() as stack:
        try:
            made = stack.enter_context(whole_folder(place))
        except OSError as error:
            raise bad_arguments(
                folder, error.strerror, "choose an existing place where you can write"
            ) from None
        for name, data in (*polls.items(), (MEMBERS_FILE, NEW_MEMBERS.encode())):
            (made / name).parent.mkdir(exist_ok=True)
            write_whole(made / name, data, 0o600)
        final_path = place.parent.resolve() / place.name / book.BOOK_FILE
        book.create(made / book.BOOK_FILE, {"language": language}, final_path)
