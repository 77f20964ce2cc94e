"""The options of a command, each written once, as a field of its class `Arguments`.

The parser is made from these fields:

    class Arguments(Acting):
        number: int = positional("NUMBER", "The number of the envelope", type=int)
        zone: str | None = option("ZONE", "The time zone of --until")
        take_back: bool = flag("Take the call back")

    def call(election: Election, arguments: Arguments) -> None: ...

The option of `take_back` is `--take-back`; `name="--from"` gives it another name. All other words
are those of `argparse`. What a class inherits comes last in the help.
"""

import argparse
import itertools
import re
from typing import Any, NoReturn

from debvote_tools import VERSION
from debvote_tools.cli.faults import Status, bad_arguments
from debvote_tools.cli.console import LINE_ENDS, number_of, odd_sign, write

# in characters; a reason is a sentence or some
LONGEST_REASON = 2_000


class Options:
    """The values of the options, by their fields. On the class a field has what the parser
    needs.
    """

    # what was not done after a fault. What has no annotation is no option
    nothing = "changed"

    def __init__(self, **values: Any) -> None:
        self.__dict__.update(values)


def positional(metavar: str, help: str, **how: Any) -> Any:
    return option(metavar, help, is_positional=True, **how)


def option(metavar: str | None, help: str, **how: Any) -> Any:
    """An option with a value; None if it is not given, unless there is a `default`."""
    return {"metavar": metavar, "help": help, **how}


def flag(help: str, **how: Any) -> Any:
    return {"action": "store_true", "help": help, **how}


class Acting(Options):
    """The options of a command that writes an act, or that says what others rely on. It stops at a
    book that this machine does not know (`Election.demand_right_book`).
    """

    moved: bool = flag(
        "Go on although the election was moved here, or an older copy was restored; the result page says so"
    )
    because: str | None = option("TEXT", "The reason, in your words, for --moved or --force")

    # whether the command needs a folder that is writable, and computes all digests anew
    writes = True
    checks = False


class Parser(argparse.ArgumentParser):
    """Names a command that was perhaps meant by one that is misspelt."""

    def _print_message(self, message: str, file: Any = None) -> None:
        """Of help and version nobody may read more than the first lines."""
        try:
            write(file, message)
        except OSError:
            raise SystemExit(Status.BAD_OUTPUT) from None

    def error(self, message: str) -> NoReturn:
        if found := re.match(
            r"argument COMMAND: invalid choice: '(.*)' \(choose from '(.*)'\)", message
        ):
            # it takes a while to be imported
            import difflib

            message = f"there is no command {found[1]!r}"
            for near in difflib.get_close_matches(found[1], found[2].split("', '"), 1):
                message += f"; did you mean {near}?"
        super().error(message)


def add_version(parser: argparse.ArgumentParser) -> None:
    words = f"{parser.prog} {VERSION}"
    parser.add_argument("-V", "--version", action="version", version=words, help="Print version")


def add_arguments(parser: argparse.ArgumentParser, kind: type[Options]) -> None:
    of_owners = (owner.__dict__.get("__annotations__", {}) for owner in kind.__mro__)
    for field in dict.fromkeys(itertools.chain.from_iterable(of_owners)):
        how = dict(getattr(kind, field))
        if how.pop("is_positional", False):
            parser.add_argument(field, **how)
        else:
            name = how.pop("name", f"--{field.replace('_', '-')}")
            parser.add_argument(name, dest=field, **how)


def given(arguments: Options, *names: str) -> list[str]:
    return [
        f"--{name.replace('_', '-')}"
        for name in names
        if getattr(arguments, name) not in (None, False)
    ]


def has_reason(because: str | None) -> bool:
    return bool(because and because.strip())


def demand_reason(because: str | None, option: str, *, has_paragraphs: bool = False) -> str:
    """The reason that an option needs: one line of plain text, or several."""
    text = (because or "").strip()
    if not text:
        reason = "it needs a reason, which the log keeps"
        raise bad_arguments(option, reason, 'write it: --because "TEXT"')
    odd = odd_sign(text, allowed="\t\n") if has_paragraphs else odd_sign(text, refused=LINE_ENDS)
    if odd is not None:
        raise bad_arguments(
            "--because",
            f"the text has the character {number_of(odd)}, which no plain text has",
            "take it out",
        )
    if len(text) > LONGEST_REASON:
        raise bad_arguments(
            "--because",
            f"the text has {len(text)} characters; at most {LONGEST_REASON} are allowed",
            "shorten it",
        )
    return text
