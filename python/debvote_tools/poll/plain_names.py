"""Plain names, by which debvote counts, and names that people can't tell apart."""

import collections
import itertools
import re
import unicodedata
from collections.abc import Collection, Iterable, Iterator, Mapping, Sequence

from debvote_tools.cli.console import LINE_ENDS, number_of, odd_sign, shown_text
from debvote_tools.poll.sealed import marks_in

# how long a plain name may be, in bytes, and a name as people read it, in characters
TITLE_LIMIT = 80
OPTION_LIMIT = 40
ELECTOR_LIMIT = 32
SHOWN_LIMIT = 200

PLAIN_NAME = re.compile(r"[!-~](?:[ -~]*[!-~])?")

# titles, as `Dr. rer. nat.`, `Univ.-Prof.`, `Dipl.-Ing. (FH)`; some are names without their point,
# and `Frau` and the like are titles only before a name
TITLE = re.compile(
    r"(?i:(?<![^,])\s*(?:Frau|Herrn?|Mrs?|Ms|Mme|Mlle|Sra?|Srta)\b\.?(?=\s))|"
    r"(?<!\w)(?i:(?:Dr|Prof)\b\.?|(?:Mag|Ing|Univ|Dipl)\.(?:-\w+\.?)?|Ph\.? ?D\b\.?|[BM]\.? ?Sc\b\.?|MBA\b|LL\. ?M\.)"
    r"(?:(?:in|a)\b)?(?:\s*(?:[a-z]{2,6}\.|h\. ?c\.|\(\w{2,5}\.?\)))*"
)
# what follows a comma and is no first name
JUNIOR = "jr jun sr sen".split()

# how each language spells letters that it has no accents on
SPELLINGS: Mapping[str, Mapping[str, str]] = {"de": {"ä": "ae", "ö": "oe", "ü": "ue"}}

# letters that Unicode does not take apart into a letter and its accent
PLAIN_LETTERS = dict(zip("øłđðıħŧ", "olddiht")) | {"ß": "ss", "þ": "th", "æ": "ae", "œ": "oe"}

# punctuation that ASCII has in another form
PUNCTUATION = {
    **dict.fromkeys("\u201c\u201d\u201e\u00ab\u00bb", '"'),
    **dict.fromkeys("\u2018\u2019\u201a\u2039\u203a\u02bc\u00b4", "'"),
    **dict.fromkeys("\u2010\u2011\u2012\u2013\u2014\u2212", "-"),
    **{"\u00d7": "x", "\u2044": "/", "\u20ac": "EUR"},
}

# what nobody sees, beside format characters (Cf): fillers, joiners, variation selectors
UNSEEN = {"\u034f", "\u115f", "\u1160", "\u17b4", "\u17b5", "\u2800", "\u3164", "\uffa0"}
UNSEEN |= {chr(number) for number in (*range(0xFE00, 0xFE10), *range(0xE0100, 0xE01F0))}

# these make another letter in Japanese, and are no accents
VOICED = "\u3099\u309a"

# what turns the text around it, beside the characters that no plain text has
REFUSED_IN_NAMES = f"{LINE_ENDS}\ufff9\ufffa\ufffb"


# ---- plain text
def without_accents(text: str, language: str) -> str:
    """The text without accents, as the language spells it, as the page of the result does. Letters
    of other scripts stay.
    """
    if text.isascii():
        return text
    table = {**PUNCTUATION, **PLAIN_LETTERS, **SPELLINGS.get(language, {})}
    parts = unicodedata.normalize("NFKD", spelled_by(table, unicodedata.normalize("NFC", text)))
    return spelled_by(
        table, "".join(part for part in parts if not unicodedata.category(part).startswith("M"))
    )


def spelled_by(table: Mapping[str, str], text: str) -> str:
    """Spells letters by a table: Ä is Ae, and AE within capital letters."""
    parts = []
    for before, letter, after in zip(f" {text}", text, f"{text[1:]} "):
        spelled = table.get(letter.lower(), letter)
        if letter.isupper() and letter.lower() in table:
            is_in_capitals = after.isupper() or (before.isupper() and not after.isalpha())
            spelled = spelled.upper() if is_in_capitals else spelled.capitalize()
        parts.append(spelled)
    return "".join(parts)


def is_plain(text: str, limit: int) -> bool:
    """Whether debvote accepts a text as a name of at most this many bytes."""
    return len(text) <= limit and PLAIN_NAME.fullmatch(text) is not None


def plain_text(text: str, language: str, limit: int) -> str:
    """The plain form of a text; empty if no letter and no digit is left."""
    if is_plain(text, limit):
        return text
    words = re.sub(r"[^!-~]+", " ", without_accents(text, language)).strip()
    return words[:limit].strip() if re.search(r"[A-Za-z0-9]", words[:limit]) else ""


def made_different(
    bases: Sequence[str], taken: Collection[str], limit: int, joint: str
) -> list[str]:
    """A name for each base that looks like no other and like none that is taken. Equal bases all
    get a number: the bare name could be meant for any of them.
    """
    used = set(map(alike, taken))
    counts = collections.Counter(map(alike, bases))
    # next to one who has the bare name already comes the second
    numbers = {form: itertools.count(2 if form in used else 1) for form in counts}
    names = []
    for base in bases:
        name = base
        form = alike(base)
        while alike(name) in used or (name == base and counts[form] > 1):
            end = f"{joint}{next(numbers[form])}"
            name = base[: limit - len(end)].rstrip(" -") + end
        used.add(alike(name))
        names.append(name)
    return names


# ---- the poll
def plain_title(title: str, language: str) -> str:
    """The plain title; an empty title stays empty, so that it is refused."""
    return plain_text(title, language, TITLE_LIMIT) or ("Vote" if title else "")


def plain_options(names: Sequence[str], language: str) -> list[str]:
    """The plain names of all options. An empty one stays empty, so that it is refused. Where
    nothing with a letter is left, a number may be that of another option.
    """
    numbered = list(enumerate(names, start=1))
    texts = {
        number: plain_text(name, language, OPTION_LIMIT)
        for number, name in numbered
        if name and not is_plain(name, OPTION_LIMIT)
    }
    bases = {
        number: text if re.search("[A-Za-z]", text) else f"Option {number}"
        for number, text in texts.items()
    }
    kept = [name for number, name in numbered if number not in bases]
    made = dict(zip(bases, made_different(list(bases.values()), kept, OPTION_LIMIT, " ")))
    return [made.get(number, name) for number, name in numbered]


# ---- electors
def elector_name(who: str, language: str) -> str:
    """Proposes a name on the roll, as anna-meier for `Meier, Dr. Anna`, perhaps too long or
    empty.
    """
    for text in (TITLE.sub(" ", who), who):
        parts = [
            re.sub(r"[^a-z0-9]+", "-", part).strip("-")
            for part in without_accents(text, language).lower().split(",")
        ]
        if names := list(filter(None, parts)):
            # the family name comes first
            is_turned = len(names) == 2 and names[1] not in JUNIOR
            return "-".join(reversed(names) if is_turned else names)
    return ""


def is_elector_name(name: str) -> bool:
    return len(name) <= ELECTOR_LIMIT and re.fullmatch(r"[a-z0-9.-]+", name) is not None


def similar_names(names: Iterable[str]) -> Iterable[tuple[str, str]]:
    """Pairs of names that differ by one sign, or by the order of their words, beside numbers."""
    bare: dict[str, str] = {}
    for name in names:
        bare.setdefault(re.sub("-?[0-9]+", "", name), name)
    pairs = {}
    first = {**bare}
    for form, name in bare.items():
        ordered = "-".join(sorted(re.split("[.-]", form)))
        for key in (ordered, *[form[:at] + form[at + 1 :] for at in range(len(form))]):
            other = first.setdefault(key, name)
            if other != name:
                pairs[other, name] = True
    return pairs


# ---- names that people read
# a name that people would not read rightly, and why; options are numbered from 1, the title is 0
BadName = tuple[int, str, str]


def alike(text: str) -> str:
    """The text without case, accents, blanks and unseen characters."""
    if text.isascii():
        return "".join(text.split()).lower()
    characters = unicodedata.normalize("NFKD", text.casefold())
    return "".join(filter(is_told_apart, characters)).casefold()


def is_told_apart(character: str) -> bool:
    if character.isspace() or unicodedata.category(character) == "Cf" or character in UNSEEN:
        return False
    return not unicodedata.combining(character) or character in VOICED


def bad_title(title: str) -> Iterator[BadName]:
    for reason in bad_characters(title):
        yield 0, title, reason
    if marks_in(title):
        # each answer would wait as one about that vote
        yield 0, title, "it has the mark of a vote in brackets, as only subjects of letters do"


def bad_options(names: Sequence[str], plain_names: Sequence[str]) -> Iterator[BadName]:
    """Names of options that people can't read or tell apart. Of equal plain names debvote
    speaks.
    """
    options = list(enumerate(zip(names, plain_names), start=1))
    for number, (name, _) in options:
        for reason in bad_characters(name):
            yield number, name, reason
    for (first, (name, plain)), (second, (other, other_plain)) in itertools.combinations(
        options, 2
    ):
        like = {alike(plain): "the plain name of ", alike(name): ""}.get(alike(other))
        if like is not None and alike(other) and plain != other_plain:
            reason = (
                f"it looks like {like}option {first}, `{shown_text(name)}`, except for case, "
                "accents, blanks or invisible characters"
            )
            yield second, other, reason


def bad_characters(name: str) -> Iterator[str]:
    if odd := odd_sign(name, refused=REFUSED_IN_NAMES):
        yield f"it has the character {number_of(odd)}, which controls a terminal or turns text around"
    if len(name) > SHOWN_LIMIT:
        yield f"it has {len(name)} characters; at most {SHOWN_LIMIT} are allowed"
    if name and not alike(name):
        yield "it has no visible character"
