"""Standard output, standard error and answers; and the words that several commands say.

Only this module writes to standard output and standard error, and reads an answer.
Characters that steer a terminal are replaced by `written` in all that is printed; what debvote
wrote has none, and is written as it is. `shown_line` and `shown_text` are for what others wrote.
"""

import contextlib
import contextvars
import datetime
import io
import itertools
import os
import re
import signal
import sys
import textwrap
import unicodedata
from collections.abc import Callable, Iterable, Iterator, Sequence
from typing import IO, Literal, NoReturn

from debvote_tools.cli.faults import Fault, Status
from debvote_tools.text.language import LANGUAGES, SPOKEN, language_of
from debvote_tools.text.times import offset_of, time_in_words

LINES_AT_ONCE = 1_000

# the zone in which times are told, once the acts are read
ZONE = contextvars.ContextVar[datetime.tzinfo | None]("zone", default=datetime.UTC)
# leaves out of a text what is never shown, such as the links with which somebody could vote
LEAVING_OUT = contextvars.ContextVar[Callable[[str], str]]("leaving out", default=str)
# in a secret vote with names, once its poll is read: whose line one is. There no command tells
# what is in it, or in a letter, before somebody asked for it
WHOSE = contextvars.ContextVar[Callable[[bytes], str] | None]("whose", default=None)
IS_ASKED_FOR = contextvars.ContextVar[bool]("is asked for", default=False)
NOT_SHOWN = "(not shown)"


# set where the office runs a command: a person is there, who sees what it writes and answers. A
# question stands between characters that no other text has (`written`), and before it what is
# asked, so that nobody has to know it by its words
AT_OFFICE = "DEBVOTE_OFFICE" in os.environ
ASKS = "\x05"
IS_ASKED = "\x1f"
ASKED = "\x06"

# what is asked for: a ballot, one of a list, a yes, a word that enters what would not count, or a
# password
Kind = Literal["ballot", "choice", "yes", "refused", "password"]

# of a command that came to no good end
REPORTED = "what the command has reported is done"


class OutputFailed(Fault):
    """Standard output takes nothing more. Who reads the first lines alone, as `head` does, closes
    the pipe, and has what was asked for.
    """

    def __init__(self, *, is_closed_pipe: bool = False) -> None:
        super().__init__(
            None, "the output failed", "see debvote-election status", Status.BAD_OUTPUT, REPORTED
        )
        self.is_closed_pipe = is_closed_pipe


# what the handler of a signal has raised that ends the program: within a query SQLite drops it, and
# Python in what it calls by itself, as when an object is deleted
ENDED = list[BaseException]()


def prepare(*ending: signal.Signals) -> None:
    """Runs first. These signals end the program as an exit does, and a character that the terminal
    can't show must not. An office gives its language.
    """
    for number in ending:
        signal.signal(number, end)
    if isinstance(sys.stdout, io.TextIOWrapper):
        sys.stdout.reconfigure(errors="backslashreplace")
    if (code := os.environ.get("DEBVOTE_LANGUAGE")) in LANGUAGES:
        SPOKEN.set(language_of(code))


def end(number: int, _: object = None) -> NoReturn:
    """The handler of a signal that ends the program."""
    ENDED.append(SystemExit(128 + number))
    raise ENDED[-1]


def has_output() -> bool:
    """Whether standard output was open at the start."""
    return sys.stdout is not None


def is_terminal() -> bool:
    """Whether a person is there, who sees the output and can answer."""
    return is_typed() and shows()


def is_typed() -> bool:
    """Whether what comes by standard input is typed."""
    return sys.stdin is not None and (AT_OFFICE or sys.stdin.isatty())


def has_input() -> bool:
    """Whether standard input has something to be read: at the office it has answers alone."""
    return sys.stdin is not None and not AT_OFFICE


def shows() -> bool:
    return sys.stdout is not None and (AT_OFFICE or sys.stdout.isatty())


def tell(*lines: str) -> None:
    """Writes lines to standard output, at once. Raises `OutputFailed`."""
    tell_as_it_is("".join(f"{written(line)}\n" for line in lines))


def tell_many(lines: Iterable[str]) -> None:
    """Writes lines in parts, so that they are not all in memory."""
    rest = iter(lines)
    while part := list(itertools.islice(rest, LINES_AT_ONCE)):
        tell(*part)


def tell_as_it_is(text: str) -> None:
    if sys.stdout is None:
        raise OutputFailed()
    try:
        write(sys.stdout, text)
    except OSError as error:
        raise OutputFailed(is_closed_pipe=isinstance(error, BrokenPipeError)) from None


def tell_aside(*lines: str) -> None:
    """Writes lines to standard error, at once. Its failure changes no exit status."""
    tell_aside_as_it_is("".join(f"{written(line)}\n" for line in lines))


def tell_aside_as_it_is(text: str) -> None:
    if sys.stderr is not None:
        with contextlib.suppress(OSError):
            write(sys.stderr, text)


def write(output: IO[str], text: str) -> None:
    """Writes a text at once, or drops its rest: Python would try again at its end, and exit with a
    status of its own.
    """
    try:
        output.write(text)
        output.flush()
    except OSError:
        nowhere = os.open(os.devnull, os.O_WRONLY)
        os.dup2(nowhere, output.fileno())
        os.close(nowhere)
        raise


def failed(program: str, words: str, status: int) -> int:
    """Says why a program did not come to its end, and returns its exit status."""
    tell_aside(f"{program}: {words}")
    return status


def typed(question: str, kind: Kind) -> bytes | None:
    """The answer to a question, with its line end; None at the end of the input."""
    question = written(question)
    tell_as_it_is(f"{ASKS}{kind}{IS_ASKED}{question}{ASKED}" if AT_OFFICE else question)
    line = sys.stdin.buffer.readline()
    if not line:
        tell("")
    return line or None


def typed_unseen(question: str) -> str:
    """A password that is typed; empty at the end of the input."""
    if AT_OFFICE:
        return (typed(question, "password") or b"").decode().rstrip("\n")
    # few runs need it
    import getpass

    return getpass.getpass(question)


def is_yes(question: str) -> bool | None:
    """Whether the answer is yes; None at the end of the input. After another answer it asks
    again.
    """
    while (answer := typed(f"{question} [y/n] ", "yes")) is not None:
        word = answer.strip().lower()
        if word in (b"y", b"yes", b"n", b"no"):
            return word.startswith(b"y")
        tell(say("Type y for yes, or n for no."))
    return None


def demand_yes(question: str, why: str) -> None:
    """Asks at a terminal in a secret vote, and stops unless the answer is yes; elsewhere it
    stops.
    """
    if not is_terminal():
        cure = "check that this is all right, then repeat the command with --yes"
        raise Fault(None, f"the vote is secret, and {why}", cure)
    if not is_yes(say("The vote is secret. {question}", question)):
        cure = say("put it right, then repeat the command")
        raise Fault(None, say("you did not say yes"), cure)


# ---- characters
# how many characters are shown of a line that came, and of a short text
SHOWN_OF_LINE = 100
SHOWN_OF_TEXT = 60

# control characters but for line feed and carriage return, and what turns the direction of a text
# or ends a line unseen
STEERING = re.compile(
    "[\x00-\x09\x0b\x0c\x0e-\x1f\x7f-\x9f\u2028\u2029\u202a-\u202e\u2066-\u2069\ufff9-\ufffb]"
)

# what no plain text has: control characters, surrogates, private use, and what turns the text
# around it; and what ends a line or a paragraph beside the line feed
ODD = ("Cc", "Cs", "Co")
TURNING = "\u202a\u202b\u202c\u202d\u202e\u2066\u2067\u2068\u2069"
LINE_ENDS = "\u2028\u2029"

# characters that people know by a name
KNOWN = {"\r": "\\r", "\n": "\\n", "\t": "\\t"}


def written(text: str) -> str:
    """The text as it is shown, with each character that steers a terminal as its number, such as
    U+202E.
    """
    text = LEAVING_OUT.get()(text)
    return text if text.isprintable() else STEERING.sub(lambda found: number_of(found[0]), text)


def steering(text: str) -> str | None:
    """The number of the first character that steers a terminal."""
    character = STEERING.search(text)
    return None if character is None else number_of(character[0])


def odd_sign(text: str, *, allowed: str = "", refused: str = "") -> str | None:
    """The first character that no plain text has, or that is refused here."""
    for character in text:
        is_odd = unicodedata.category(character) in ODD or character in TURNING
        if character in refused or (is_odd and character not in allowed):
            return character
    return None


def number_of(character: str) -> str:
    return f"U+{ord(character):04X}"


def hides() -> bool:
    """Whether nothing is told here that may say what somebody chose."""
    return WHOSE.get() is not None and not IS_ASKED_FOR.get()


def is_all_seen() -> bool:
    """Whether a person sees all that is told: cron sends by mail what a command tells."""
    return AT_OFFICE or all(output and output.isatty() for output in (sys.stdout, sys.stderr))


@contextlib.contextmanager
def asked_for(is_asked: bool) -> Iterator[None]:
    """What is told within was asked for by a person, or for a script."""
    before = IS_ASKED_FOR.set(is_asked)
    try:
        yield
    finally:
        IS_ASKED_FOR.reset(before)


def private(text: str) -> str:
    """What people wrote, or what is wrong with it, which may say what they chose."""
    return NOT_SHOWN if text and hides() else text


def for_terminals(text: str) -> str:
    """Who sent a letter, as its head has it."""
    return NOT_SHOWN if text and hides() and not is_all_seen() else text


def shown_line(line: bytes) -> str:
    """A line within a sentence; a character that is not seen is shown as \\u202E. Where it is
    private, whose it is alone.
    """
    if (whose := WHOSE.get()) and hides():
        return f"{whose(line)} ..".lstrip()
    text = cut(line.decode("utf-8", "backslashreplace"), SHOWN_OF_LINE)
    return "".join(KNOWN.get(character) or seen(character) for character in text)


def shown_text(text: str) -> str:
    """A short text, as a name, within a sentence."""
    return "".join(map(seen, cut(" ".join(text.split()), SHOWN_OF_TEXT)))


def seen(character: str) -> str:
    return character if character.isprintable() else f"\\u{ord(character):04X}"


def cut(text: str, limit: int) -> str:
    text = LEAVING_OUT.get()(text)
    return text if len(text) <= limit else text[:limit] + ".."


# ---- sentences
# a place of a sentence, but for its number
PLACE = re.compile(r"\{(?!number\})(\w+)\}")


def say(text: str, /, *values: object, **places: object) -> str:
    """A sentence to the secretary. The values are those of its places, in their order."""
    return SPOKEN.get().say(text, **dict(zip(PLACE.findall(text), values)), **places)


def say_number(one: str, many: str, number: int, /, *values: object) -> str:
    """A sentence to the secretary in its form for a number, whose place is `{number}`."""
    return SPOKEN.get().say_number(one, many, number, **dict(zip(PLACE.findall(many), values)))


def say_time(time: datetime.datetime) -> str:
    return time_in_words(time, SPOKEN.get())


# ---- words of several commands
# how wide a terminal is taken to be
WIDTH = 100


def count_of(number: int, noun: str, plural: str | None = None) -> str:
    """A number with its noun, as `1 line` or `2 lines`."""
    return f"{number} {noun if number == 1 else plural or noun + 's'}"


def count_of_lines(number: int) -> str:
    return say_number("{number} line", "{number} lines", number)


def count_of_letters(number: int) -> str:
    return say_number("{number} letter", "{number} letters", number)


def wait_words(letters: int) -> str:
    return say_number("{number} letter waits", "{number} letters wait", letters)


def until_looked_at(letters: int, held: str) -> str:
    """How many letters wait, and the command that shows them."""
    return f"{wait_words(letters)} {say('until you have looked at them')}: {held}"


def in_runs(numbers: Iterable[int]) -> str:
    """Numbers in their order, as `3-5, 7`."""
    runs = []
    for _, run in itertools.groupby(enumerate(numbers), lambda one: one[1] - one[0]):
        ends = [number for _, number in run]
        runs.append("-".join(map(str, dict.fromkeys((ends[0], ends[-1])))))
    return ", ".join(runs)


def listed(names: Sequence[str], most: int) -> str:
    """Names in a sentence; of many the first."""
    return ", ".join(names[:most]) + (
        f" {say('and {others} more', len(names) - most)}" if len(names) > most else ""
    )


def bar(part: int, whole: int, width: int) -> str:
    """How many of all are done; it is full only if all are, and empty only if none is."""
    full = min(max(part * width // whole, part > 0), width - (part < whole))
    return f"[{'#' * full}{'.' * (width - full)}]"


def act_time(time: datetime.datetime) -> str:
    """A time in the zone of the vote, as `2026-12-04 18:00:00 UTC+01:00`."""
    in_zone = time.astimezone(ZONE.get())
    return f"{in_zone:%Y-%m-%d %H:%M:%S} {offset_of(in_zone)}"


def wrapped(names: Iterable[str]) -> str:
    """Names in lines that a terminal shows whole."""
    return textwrap.TextWrapper(WIDTH, "  ", "  ", break_on_hyphens=False).fill(" ".join(names))


def quorum_words(multiple: int, votes: int) -> str:
    """What a quorum asks for: a number of times Q, which is a number of votes."""
    if multiple == 0:
        return say("Quorum: none")
    return say_number(
        "Quorum: {number} vote ({multiple}Q): at least {number} elector must prefer an option to the default option",
        "Quorum: {number} votes ({multiple}Q): at least {number} electors must prefer an option to the default option",
        votes,
        multiple,
    )
