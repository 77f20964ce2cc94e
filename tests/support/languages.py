"""What the tests of languages share: elections, and a language in which each word is marked."""

import contextlib
import email.utils
import itertools
import os
import pathlib
import re
import sys
import time
import unittest
import unittest.mock
from collections.abc import Iterator

from debvote_tools.poll.sealed import in_brackets
from debvote_tools.text.language import catalog_of, language_of
from debvote_tools.text.rendering import templates_of

from tests.support import elections, forks, sentences
from tests.support.program import ROOT

LANGUAGES = ("de", "es", "fr")

# four options, one with a long name, and twelve electors
POLL = """title = "Where we meet in spring"
options = ["At the lake", "In the town hall", "Sell the house and look for another one"]
ratios = [1, 1, 3]
default = "Further discussion"
quorum = 1
"""
ELECTORS = [f"e{number:02}" for number in range(1, 13)]
BALLOTS = """e01 1,2,3,4
e02 2,1,4,3
e03 1,1,-,2
e04 3,1,4,2
e05 1,2,-,3
e06 4,3,1,2
bad
e07 1,3,2,4
e01 2,1,3,4
zz 1,2
e08 -,-,-,1
"""
# letters of electors: one goes in, the others wait
LETTERS = {
    "e09": "e09 1,2,3,4",
    "e10": "I vote for the lake",
    "e11": "e10 1,2,3,4\ne10 2,1,3,4",
    "e12": "e12 1,2,3",
}
AT, TO = "https://example.org/", "vote@example.org"
FIRST_END, END, REASON = "2031-12-01 18:00", "2031-12-03 18:00:30", "Nobody has answered"
UNTIL = ("--zone", "Europe/Berlin", "--until")

# each of our words is between these characters in the language of `marked_german`
BEGIN, END_MARK = "\u27e6", "\u27e7"
# after the end a sentence of two is cut off behind the first
MARKED = re.compile(f"{BEGIN}(?:[^{BEGIN}{END_MARK}]*{END_MARK}|[^{BEGIN}{END_MARK}.]*\\.)")


def marked(text: str) -> str:
    """A sentence with everything marked except its places and its tags."""
    return "".join(
        part if place % 2 or not part else f"{BEGIN}{part}{END_MARK}"
        for place, part in enumerate(re.split(r"(\{\w+\}|<[^>]*>)", text))
    )


@contextlib.contextmanager
def marked_german() -> Iterator[None]:
    """In this process, and in the runs that are forks of it, German is a language with all words
    marked.
    """
    if os.environ.get("DEBVOTE_FORKS") == "0":
        raise unittest.SkipTest("the language with marked words is in forks of the test alone")
    forks.read_ahead()
    head = (sentences.LOCALE / "de.po").read_text(encoding="utf-8").split("\n\n")[0]
    entries = [sentences.as_po(texts, tuple(map(marked, texts))) for texts in sentences.in_code()]
    catalog = catalog_of("\n".join([f"{head}\n", *entries]).encode())
    with unittest.mock.patch.dict(vars(language_of("de").catalog), vars(catalog)):
        forget_german()
        yield
    forget_german()


def forget_german():
    """Forgets what this process has said in German: languages and templates keep some of it. No
    template is read again, which takes a while.
    """
    for package, is_page in itertools.product(("call", "result", "outbox"), (True, False)):
        templates = templates_of(f"debvote_tools.{package}", language_of("de"), is_page=is_page)
        vars(templates.globals["say"].__self__).pop("and_last", None)
        for template in templates.cache.values():
            template._module = None


class LanguageTest(elections.ElectionTest):
    """A test with its own folder, in which it makes its elections."""

    def begin(self):
        pass

    def program(self, name: str, *words: object, given: str = "", status: int = 0) -> str:
        """The output of a program, which has to end with this status."""
        ended = self.run_program(
            sys.executable, ROOT / "bin" / name, *words, given=given, cwd=self.scratch
        )
        self.assertEqual(ended.status, status, ended)
        return ended.output + ended.faults

    def election(self, folder: str, *words: object, given: str = "", status: int = 0) -> str:
        # where the command comes first, the program reads the words of this one alone
        return self.program(
            "debvote-election", words[0], "--folder", folder, *words[1:], given=given, status=status
        )

    def begun(
        self, folder: str, language: str, *, poll: str = POLL, codes: tuple[str, ...] | None = None
    ) -> pathlib.Path:
        """An election in a language, with its roll; with arguments for `codes` it is secret."""
        self.program("debvote-election", "new", "--language", language, folder)
        place = self.scratch / folder
        (place / "poll.toml").write_text(poll if codes is None else f"secret = true\n{poll}")
        rows = (f"Person {name[1:]},{name}@example.org,{name}\n" for name in ELECTORS)
        (place / "members.csv").write_text("who,mail,name\n" + "".join(rows))
        self.election(folder, "roll")
        if codes is not None:
            self.election(folder, "codes", *codes)
        return place

    def called(
        self, folder: str, language: str, *, codes: tuple[str, ...] | None = None
    ) -> pathlib.Path:
        """A called election in a language, with all that a call may have."""
        place = self.begun(folder, language, codes=codes)
        words = ("call", *UNTIL, FIRST_END, "--to", TO, "--at", AT)
        self.election(folder, *words, *["--names"] * (codes is None))
        return place

    def held(
        self, folder: str, language: str, *, is_secret: bool = False, has_letters: bool = True
    ) -> pathlib.Path:
        """An election in a language, from its beginning to its publication, with everything that
        pages and letters can say.
        """
        place = self.called(folder, language, codes=() if is_secret else None)
        because = ("--because", REASON)

        def do(command: str, *more: object, given: str = ""):
            if has_letters or not command.startswith("letters"):
                self.election(folder, *command.split(), *more, given=given)

        do("letters call")
        do("call", *UNTIL, END)
        do("letters call")
        do("add --yes", given=BALLOTS)
        do("add --yes", *self.letters(place))
        do("strike 5", *because)
        do("letters reminders")
        do("letters receipts")
        do("close --early --force", *because)
        do("reopen", *because)
        do("add --yes --came-before-close yes", given="e12 2,1,3,4\n")
        do("close --early --force", *because)
        do("letters closed")
        do("add --yes", given="e05 1,2,3,4\n")
        do("publish --yes")
        do("letters result")
        return place

    def letters(self, place: pathlib.Path) -> list[pathlib.Path]:
        """Files with the letters of electors, which have arrived now."""
        files = []
        # they tell whole seconds, and have to come after the call
        time.sleep(1 - time.time() % 1)
        for name, text in LETTERS.items():
            subject = in_brackets(elections.ANY_MARK, elections.any_own(name))
            now = email.utils.formatdate()
            head = (
                f"From: {name}@example.org\nTo: {TO}\nSubject: {subject}\nMessage-ID: <{name}@x>\n"
            )
            letter = f"{head}Received: from a by b; {now}\nDate: {now}\n\n{text}\n"
            files.append(self.scratch / f"{name}.eml")
            files[-1].write_bytes(elections.of_vote(place, letter.encode()))
        return files
