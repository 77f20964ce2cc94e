"""Says sentences in a language by its file of translations, without debvote_tools.

A no-break space is a blank here: where lines may break is seen in a browser.
"""

import functools

from tests.support.sentences import LOCALE, entries_in

LANGUAGES = ("en", "de", "fr", "es")


class Spoken:
    """A language, which has a translation of each sentence that it is asked for. Options are named
    as `numbered` says.
    """

    def __init__(self, code, numbered="{number} {name}"):
        self.code, self.numbered = code, numbered

    def in_letters(self):
        return Spoken(
            self.code, self.say("Option {number}: {name}", number="{number}", name="{name}")
        )

    def forms(self, *texts):
        return texts if self.code == "en" else catalogue(self.code)[texts]

    def say(self, text, /, **places):
        return self.forms(text)[0].replace("\u00a0", " ").format(**places)

    def say_number(self, one, many, number, /, **places):
        is_many = number > 1 if self.code == "fr" else number != 1
        return self.forms(one, many)[is_many].replace("\u00a0", " ").format(number=number, **places)

    def joined(self, texts):
        *before, last = texts
        return (
            self.say("{entries} and {last}", entries=", ".join(before), last=last)
            if before
            else last
        )

    def with_colon(self, before, after):
        return self.say("{before}: {after}", before=before, after=after)


@functools.cache
def catalogue(code):
    """The translations of a language, by the English texts."""
    return {
        entry.texts: entry.forms
        for entry in entries_in((LOCALE / f"{code}.po").read_text(encoding="utf-8"))
    }
