"""The command `backup`, which copies the book into a file."""

import pathlib

from debvote_tools.cli.arguments import Options, positional
from debvote_tools.cli.console import say, tell
from debvote_tools.commands.export import demand_new
from debvote_tools.election import Election
from debvote_tools.outbox.steps import Step, tell_next
from debvote_tools.text.language import marked


# what the key of the box gives, which is in each copy since the call
WHO_HAS_IT = marked(
    "whoever has a copy opens all ballots of the page, also those to come, and can vote in each name"
)


class Arguments(Options):
    file: str = positional("FILE", "The new file, best on another disk")


def backup(election: Election, arguments: Arguments) -> None:
    """Write a copy of the book into a new file."""
    book = election.whole_book()
    target = pathlib.Path(arguments.file)
    demand_new(election, target, "file")
    last = book.last_number()
    book.back_up(target)
    book.note_done(Step.BACKUP.value, last)
    tell(
        say(
            "Copied the book up to act {act} into {file}. Only you can read it; it holds everything that came or was done.",
            last,
            target,
        )
    )
    if election.history().announced("box"):
        tell(say("Keep it as safe as the book itself: {why}.", say(WHO_HAS_IT)))
    tell_next(election)
