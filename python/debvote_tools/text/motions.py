"""The words of a motion: yes, no and abstain.

They may be in place of the ranks of its option and of the default option.
"""

import re
import unicodedata
from collections.abc import Mapping, Sequence

from debvote_tools.text.language import ENGLISH, Language, marked

# yes, no and abstain, and the ranks that they mean
WORDS = {
    "en": ("yes", "no", "abstain"),
    "de": ("ja", "nein", "enthaltung"),
    "fr": ("oui", "non", "abstention"),
    "es": ("sí", "no", "abstención"),
}
YES, NO, ABSTAIN = RANKS = ("1,2", "2,1", "1,1")

# words with the ranks that they mean
Words = Mapping[str, str]

# what ends a line: a word, after a colon or a blank, perhaps with a full stop or an exclamation
# mark
END = re.compile(r"(?:^| ?: ?| )([^\W\d_]+) ?[.!]?$")
# in characters, what may end with a word: a text with many accents takes long
MOST_CHARACTERS = 500

COLON = marked("{before}: {after}")


def words_of(language: str, *, motion: bool) -> Words:
    """The words of a language and those of English; none if there is no motion."""
    codes = (ENGLISH.code, language) if motion else ()
    return {word: ranks for code in codes for word, ranks in zip(WORDS[code], RANKS)}


def words_in(text: str) -> list[str]:
    """What the start of a text has of words, in small letters; an accent is no sign of its own."""
    return re.findall(r"\w+", unicodedata.normalize("NFC", text[:MOST_CHARACTERS]).lower())


def first_word(text: str) -> str:
    return next(iter(words_in(text)), "")


def with_ranks(line: str, words: Words) -> str:
    """A line with ranks in place of a word, behind a name or alone; else the line as it is."""
    if not words:
        return line
    bare = " ".join(line.split())
    text = unicodedata.normalize("NFC", bare) if len(bare) <= MOST_CHARACTERS else ""
    found = END.search(text)
    ranks = words.get(found[1].lower()) if found else None
    return f"{text[: found.start()]} {ranks}".strip() if found and ranks else line


def in_words(names: Sequence[str], language: Language) -> list[str]:
    """What a yes, a no and an abstention are in words. The names are those of the option and of the
    default option, which follow unless they begin with the word.
    """
    said = [word.capitalize() for word in WORDS[language.code]]
    for at, name in enumerate(names):
        if first_word(name) != first_word(said[at]):
            said[at] = language.say(COLON, before=said[at], after=name)
    return said
