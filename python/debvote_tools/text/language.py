"""The language of what electors read: English, or one that has its translations in `locale`.

Each sentence is in the code or in a template once, whole and in English, with its places by name in
braces. What the secretary reads at a terminal is always English; at the office `say` of
`console.py` says it in the language of its pages.
"""

import contextvars
import functools
import gettext
import io
import json
import pathlib
from collections.abc import Iterable, Mapping
from typing import TypeVar

LOCALE = pathlib.Path(__file__).parent.parent / "locale"

Marked = TypeVar("Marked")


def marked(texts: Marked) -> Marked:
    """Returns a sentence, or a table of some, as it is: it has translations, and is said
    elsewhere.
    """
    return texts


# each by the code that the pages have for it, with its name in English
LANGUAGES = marked({"en": "English", "de": "German", "fr": "French", "es": "Spanish"})


class Language:
    """A language. It says sentences in plain text; `rendering.InHtml` says them in HTML."""

    # how a text is written that is not the program's, that a reader has to see or compares
    # character by character; words of another person, in brackets, where none reads as a ballot,
    # since no repair takes these away; and a link
    FORMS = {"given": "{}", "strong": "{}", "exact": "{}", "quoted": "({})", "link": "{1}"}

    def __init__(self, code: str, catalog: gettext.NullTranslations) -> None:
        self.code = code
        self.catalog = catalog

    def made(self, text: str) -> str:
        """A text of ours, into which others are put."""
        return text

    def say(self, text: str, /, **places: object) -> str:
        return self.made(self.catalog.gettext(text)).format(**places)

    def say_number(self, one: str, many: str, number: int, /, **places: object) -> str:
        """A sentence in its form for a number, whose place is `{number}`."""
        return self.made(self.catalog.ngettext(one, many, number)).format(number=number, **places)

    def say_each(self, text: str, rows: Iterable[Mapping[str, object]]) -> str:
        """Says a text for each row of places, as part of a sentence."""
        return self.joined(self.say(text, **row) for row in rows)

    def joined(self, entries: Iterable[str]) -> str:
        """The entries as part of a sentence; there is at least one."""
        *before, last = entries
        if not before:
            return self.made("") + last
        return self.made(", ").join(before) + self.between("{entries} and {last}") + last

    def between(self, text: str) -> str:
        """The words between the two places of a sentence, which join any number of parts."""
        said = self.catalog.gettext(text)
        return self.made(said[text.index("}") + 1 : -len(text[text.rindex("{") :])])

    def words(self, sentences: Mapping[str, str], **more: str) -> str:
        """Sentences by their names, as JSON for a script, which fills their places."""
        said = {name: self.catalog.gettext(text) for name, text in sentences.items()}
        return json.dumps(said | more, ensure_ascii=False)

    # ---- texts within a sentence
    def number(self, number: int) -> str:
        """A number whose thousands are parted."""
        return f"{number:,}".replace(",", self.between("{thousands},{rest}"))

    def numbers(self, row: Mapping[str, object]) -> dict[str, object]:
        """The places of a sentence, of which a reader has to see the numbers."""
        return {
            key: self.formed("strong", self.number(value)) if isinstance(value, int) else value
            for key, value in row.items()
        }

    def formed(self, form: str, *texts: str) -> str:
        return self.made(self.FORMS[form]).format(*texts)


ENGLISH = Language("en", gettext.NullTranslations())

# the language in which the secretary reads what commands say
SPOKEN = contextvars.ContextVar[Language]("spoken", default=ENGLISH)


@functools.cache
def language_of(code: str) -> Language:
    """The language of a code of `LANGUAGES`. A package has the translations compiled."""
    if code == ENGLISH.code:
        return ENGLISH
    compiled = LOCALE / f"{code}.mo"
    if compiled.is_file():
        return Language(code, gettext.GNUTranslations(io.BytesIO(compiled.read_bytes())))
    return Language(code, catalog_of((LOCALE / f"{code}.po").read_bytes()))


def catalog_of(po: bytes) -> gettext.GNUTranslations:
    """The translations of a `.po` file. Babel is read only here: it takes a while."""
    from babel.messages import mofile, pofile

    compiled = io.BytesIO()
    mofile.write_mo(compiled, pofile.read_po(io.BytesIO(po)))
    compiled.seek(0)
    return gettext.GNUTranslations(compiled)
