"""The lines that come, and what may be changed of one before it is entered.

A change is made only if the line can mean one thing. These are changed: the byte-order mark at the
start, carriage returns at line ends, blanks at either end, around commas and between name and
ranks, capital letters of the name; and what mail programs and word processors write: quotation
marks around the line, asterisks for bold letters, a full stop at its end, a colon after the name,
no-break spaces, a dash in place of a hyphen. A name that is that of one elector alone, on the roll
or really, becomes the one on the roll, and in a motion a word becomes ranks (`Vote.as_meant`); in a
letter its sender decides whose real name it is (`LetterCase.elector_of`). Of a ballot of several
answers each is changed so, and labels become capital letters in their order. No other sign between
ranks becomes a comma: with semicolons a table of scores was counted. Nothing is guessed: no rank,
no name, no order.
"""

import codecs
import dataclasses
import functools
import re
import unicodedata
from collections.abc import Callable, Iterable, Mapping
from typing import NamedTuple

from debvote_tools.book.queries import Elector
from debvote_tools.grouping import grouped
from debvote_tools.poll.plain_names import without_accents
from debvote_tools.poll.questions import Questions
from debvote_tools.text.answers import DASHES
from debvote_tools.text.ballots import answers_text
from debvote_tools.text.language import Language
from debvote_tools.text.motions import Words, with_ranks

MARK = codecs.BOM_UTF8
BLANKS = b" \t"

NOTHING_TO_REPAIR = re.compile(rb"[a-z0-9.-]+(?: [0-9-][0-9,-]*|(?: [A-Z] [0-9-][0-9,-]*)+)")

# what can be a name on a roll, at the start of a line
NAME = re.compile(rb"[a-z0-9.-]+")

# in characters: the longest name, as people write it
MAX_NAME = 100
# of so many lines that letters have it is kept what they are
MOST_QUOTED = 1_000
# what parts the words of a name, and what each name on a roll has
NO_NAME = re.compile(r"(?:[^\w.-]|[_\u02b0-\u02ff])+")
LATIN = re.compile("[a-z0-9]")
# the ranks of a ballot; and a name as people write it, with letters of any script, and ranks
ONE_RANK = "(?:-|[1-9][0-9]?)"
RANKS = rf"{ONE_RANK}(?:,{ONE_RANK})*"
LETTER = r"[^\W_\u02b0-\u02ff]"
WRITTEN_NAME = rf"{LETTER}(?:(?:{LETTER}|[_ .'\u2019-])*{LETTER})?"
RIGHT_ANSWERS = re.compile(rf"([a-z0-9.-]+)((?: [A-Z] {RANKS})+)")
NAMED = re.compile(rf"({WRITTEN_NAME})(?:\s*:\s*|\s+)({RANKS})")

# no-break spaces as blanks
NO_BREAK = str.maketrans("\u00a0\u202f", "  ")
# pairs of quotation marks: the one before a line, and the one after it
QUOTES = (
    *('""', "''", "``"),
    *"\u201c\u201d \u201e\u201c \u201e\u201d \u201d\u201d \u2018\u2019 \u201a\u2018 \u00ab\u00bb \u00bb\u00ab".split(),
)

# whole words between asterisks are bold letters of a mail program
BOLD = re.compile(r"(?:^|(?<=[ ,;:]))(\*{1,3})(?=[^ *])([^*]*)(?<=[^ *])\1(?=[ ,;:.]|$)")
COLON = re.compile(r"^([A-Za-z0-9.-]+) *: *(?=[\d%s-])" % DASHES)
FULL_STOP = re.compile(r"(?<=[\d%s-]) *\.$" % (DASHES + "".join(pair[1] for pair in QUOTES)))

# the label of a question, as people write it before a rank; right before one, it is none if no
# other rank follows: `a1` may be a name
LABEL = re.compile(
    rf"(?:^|(?<=[\s:]))([A-Za-z])(?:(?:\s*[:).]\s*|\s+)(?=[\d{DASHES}-])|(?=(?:\d{{1,2}}|[{DASHES}-])\s*[,;]))"
)

# ranks with other signs between than commas, as people write them, of a line that is to be looked
# at; hyphens between numbers alone are such signs, with blanks around them only if there are three
ANY_RANK = rf"(?:\d{{1,2}}|[{DASHES}-])"
BY_HYPHENS = rf"\d{{1,2}}(?:(?:[{DASHES}-]\d{{1,2}})+|(?:\s*[{DASHES}-]\s*\d{{1,2}}){{3,}})"
LOOSE = re.compile(rf"(?<![^\s:])(?:({BY_HYPHENS})|{ANY_RANK}(?:[\s,;/.|]+{ANY_RANK})+)(?!\w)")
# what people put around them
AROUND = re.compile(r"^\s*(?:[*=•·→]+>? )|\s[/|](?=\s)|(?<=\d)[;.,/|](?= [A-Za-z]|\s*$)|\s\*+$")

# a word behind a label, which is a capital letter or has a sign behind it; one letter is no word,
# but may be the label behind a name that ends in a letter, as in `Ben B A yes`
WORD = re.compile(
    r"(?:^|(?<=[\s:]))(?:([A-Z])\s+|([A-Za-z])\s*[:).]\s*)([^\W\d_][\w\u0300-\u036f]+) ?[.!]?(?=\s|$)"
)


class Line(NamedTuple):
    """A line that came. `file_name` names the file, as `more.txt`, and `number` is that of the line
    in it, from 1. If debvote refuses the repaired line, `unframed` is entered.
    """

    file_name: str
    number: int
    # as it came, without its end, and without the byte-order mark of its file
    unframed: bytes
    # with the changes that are allowed, but for whose name it is, and for words: see
    # `Vote.as_meant`
    repaired: bytes
    # the same with the capital letters of the name: with them it may be the real name of somebody
    # else
    named: bytes

    def written(self, text: bytes) -> "Line":
        """The line as if this had come, in which nothing has to be repaired."""
        return self._replace(unframed=text, repaired=text, named=text)

    @property
    def text(self) -> str:
        """As it came."""
        return self.unframed.decode("utf-8", "surrogateescape")

    @property
    def place(self) -> str:
        return f":{self.number}"

    @property
    def where(self) -> str:
        return f"{self.file_name}{self.place}"

    @property
    def is_empty(self) -> bool:
        return not self.repaired


@dataclasses.dataclass(frozen=True)
class Names:
    """What lines are read by, which never changes after the call: the names of the electors, on the
    roll and real ones, how long a ballot may be, and the words that may be in place of ranks.
    """

    roll: frozenset[str]
    language: str
    real_names: Mapping[str, str]
    longest_line: int
    # those of motions
    words: Words
    # what looks like an answer, wherever it stands in a line; nothing where no letter is read
    answers: re.Pattern[str] = re.compile("(?!)")
    # of several questions, and of those of them that are motions; none if there is one
    labels: tuple[str, ...] = ()
    motions: tuple[str, ...] = ()

    @functools.cached_property
    def label_at_start(self) -> re.Pattern[str] | None:
        """What begins with a label that has a sign, a rank or a word behind it; None if there is
        one question.
        """
        labels = "".join(self.labels)
        sign = r"\s*[^\w\s]"
        capital = rf"[{labels}](?:{sign}|\s+[^\W_])"
        small = rf"[{labels.lower()}](?:{sign}|\s+[\d{DASHES}-])"
        return re.compile(rf"\W*(?:{capital}|{small})") if labels else None

    @functools.cached_property
    def electors_by_real_name(self) -> dict[str, list[str]]:
        """All electors by folded real name. Few letters need it, and it takes a while."""
        names = self.real_names.items()
        return grouped((fold, elector) for elector, who in names for fold in self.folds(who))

    @functools.cached_property
    def real_names_of_others(self) -> frozenset[str]:
        """The names on the roll that are the real name of somebody else, too."""
        real = self.electors_by_real_name
        return frozenset(name for name in self.roll if {*real.get(name, ())} - {name})

    @functools.cached_property
    def are_answers(self) -> Callable[[str], bool]:
        """Whether a line of a letter `has_answers`. Many letters quote the same lines."""
        return functools.lru_cache(MOST_QUOTED)(self.has_answers)

    def has_answers(self, line: str) -> bool:
        """Whether a line has ranks, or a label with a rank or a word of a motion behind it; or of
        one question is such a word, alone or behind a name.
        """
        # where strokes were printed ranks may have been filled in
        line = line.replace("_", " ")
        if self.answers.search(line) is not None:
            return True
        bare = bare_text(line.strip("> \t")) if self.words and not self.labels else ""
        ranked = self.with_ranks(bare)
        name = ranked.rpartition(" ")[0].rstrip(" :")
        return ranked != bare and (name == "" or self.meant_by(name) != [])

    def label_behind_name(self, line: str) -> str:
        """The first label of a line, if it may belong to the name before it: not so in a line as it
        is entered, or with a colon behind the name.
        """
        before, *rest = LABEL.split(bare_text(line)) if self.labels else [line]
        name = before.strip()
        is_right = RIGHT_ANSWERS.fullmatch(line.strip())
        is_apart = name.endswith(":") or (is_right and name in self.roll)
        return rest[0].upper() if name and rest and not is_apart else ""

    def longer_than(self, name: str, line: str) -> list[str]:
        """The electors whose name this is with the first label of a line behind it: `Ben B 1,2` may
        be of Ben or of Ben B, who may write a full stop behind the letter.
        """
        label = self.label_behind_name(line)
        folds = self.folds(f"{name} {label}") if label else set[str]()
        return self.of_folds({*folds, *(f"{fold}." for fold in folds)})

    def words_of(self, *names: str) -> set[str]:
        """The words of which names consist."""
        folds = (fold for name in names for fold in self.folds(name))
        return {word for fold in folds for word in re.split("[.-]", fold)}

    def on_roll(self, name: str) -> str:
        """The name on the roll that this is, as people write it; nothing if it is none, or is not
        written so there and is the real name of somebody else, too.
        """
        if name in self.roll:
            return name
        small = name.lower()
        is_of_one = small in self.roll and small not in self.real_names_of_others
        return small if is_of_one else ""

    def meant_by(self, name: str) -> list[str]:
        """The electors whose name on the roll or real name this is, as people write it."""
        on_roll = self.on_roll(name)
        return [on_roll] if on_roll else self.of_folds(self.folds(name))

    def of_folds(self, folds: set[str]) -> list[str]:
        """The electors whose name on the roll or real name is one of these, folded."""
        real = (elector for fold in folds for elector in self.electors_by_real_name.get(fold, ()))
        return sorted({*folds & self.roll, *real})

    def taken_apart(self, line: str) -> tuple[str, str] | None:
        """The name in a line, as people write it, or nothing, and the answers behind it, as they
        are entered; None if it has not this form.
        """
        if self.labels:
            return written_answers(line, self.labels, self.longest_line)
        match = NAMED.fullmatch(unicodedata.normalize("NFC", line))
        return (match[1], match[2]) if match else None

    def with_ranks(self, line: str) -> str:
        """A line with ranks in place of words: of the one at its end, or of several questions of
        those behind the labels of motions, as in `ada A no B 1,2,3`. But the name of an elector is
        no ballot.
        """
        if not self.words or len(line) > self.longest_line or RIGHT_ANSWERS.fullmatch(line):
            return line
        bare = bare_text(line) if self.labels else line
        ranked = WORD.sub(self.with_rank, bare) if self.labels else with_ranks(line, self.words)
        return line if ranked == bare or self.meant_by(bare.rstrip(" .!")) else ranked

    def loose(self, line: str) -> str:
        """A line with commas between its ranks, and ranks in place of the words of motions."""
        ranked = LOOSE.sub(
            lambda run: ",".join(re.findall(r"\d+" if run[1] else ANY_RANK, run[0])),
            AROUND.sub("", line.replace("_", " ")),
        )
        return self.with_ranks(ranked)

    def with_rank(self, answer: re.Match[str]) -> str:
        """A word behind a label, with ranks in its place if that is of a motion."""
        label = answer[1] or answer[2]
        word = unicodedata.normalize("NFC", answer[3]).lower()
        is_of_motion = label.upper() in self.motions and word in self.words
        return f"{label} {self.words[word]}" if is_of_motion else answer[0]

    def folds(self, name: str) -> set[str]:
        """A name as `roll` makes one from it, but whole: `roll` cuts a long name, and omits letters
        of other scripts, where other words may have been. Signs in place of an apostrophe are no
        letters.
        """
        # one sign may have 18 letters, and of 1,300 such lines each takes a while
        if len(name) > MAX_NAME or len(unicodedata.normalize("NFKC", name)) > MAX_NAME:
            return set()
        plain = (without_accents(name, language).lower() for language in (self.language, ""))
        folds = {NO_NAME.sub("-", text).strip("-") for text in plain}
        return {fold for fold in folds if LATIN.search(fold)}


def names_of(questions: Questions, electors: Iterable[Elector], language: Language) -> Names:
    """What the lines of an election are read by. Codes on the roll are nobody's names."""
    labels = tuple(filter(None, questions))
    return Names(
        frozenset(questions.roll),
        language.code,
        {elector.name: elector.who for elector in electors},
        questions.longest_line,
        questions.words(language),
        questions.answers(language),
        labels,
        tuple(label for label in labels if questions[label].motion),
    )


def lines_in(data: bytes, name: str, longest: int, first: int = 1) -> list[Line]:
    """The lines of a file, numbered from `first`; a carriage return alone ends one, too. Ballots
    have at most the `longest` number of bytes.
    """
    lines = []
    for number, line in enumerate(data.splitlines(), start=first):
        unframed = line.removeprefix(MARK if number == 1 else b"")
        named = repaired_but_for_name(unframed, longest)
        lines.append(Line(name, number, unframed, with_small_name(named), named))
    return lines


def name_in(line: bytes) -> bytes:
    """The name with which a line begins; empty if it begins with none."""
    match = NAME.match(line)
    return match[0] if match else b""


@functools.lru_cache(MOST_QUOTED)
def with_small_name(line: bytes) -> bytes:
    """A line without capital letters in its name."""
    name, blank, ranks = line.partition(b" ")
    return name.lower() + blank + ranks if blank else line


def repaired_but_for_name(line: bytes, longest: int) -> bytes:
    """A line with the repairs that are allowed, but with the capital letters of its name; of one
    with twice the bytes of the longest ballot only blanks are repaired.
    """
    if NOTHING_TO_REPAIR.fullmatch(line):
        return line
    if len(line) > 2 * longest or b"\r" in line or b"\n" in line:
        return spaced(line)
    try:
        text = line.decode("utf-8")
    except UnicodeDecodeError:
        return spaced(line)
    return spaced(without_typography(text).encode("utf-8"))


def written_answers(text: str, labels: Iterable[str], longest: int) -> tuple[str, str] | None:
    """What is written before the answers to several questions, such as a name or nothing, and the
    answers as they are entered. None if a line has no such answers, and no other words between them
    or behind, or has two to one question.
    """
    before, *parts = LABEL.split(bare_text(text))
    answers = {}
    for label, rest in zip(parts[::2], parts[1::2]):
        line = f"{label.lower()} {rest.strip()}".encode("utf-8", "replace")
        ranks = repaired_but_for_name(line, longest).decode()[2:]
        if label.upper() in answers or not re.fullmatch(RANKS, ranks):
            return None
        answers[label.upper()] = ranks
    in_order = {label: answers[label] for label in labels if label in answers}
    if not parts or len(in_order) < len(answers):
        return None
    name = unicodedata.normalize("NFC", before).strip().removesuffix(":").rstrip()
    return name, answers_text(in_order)


def spaced(line: bytes) -> bytes:
    """The line with one space alone, after the name."""
    joined = b",".join(part.strip(BLANKS) for part in line.split(b","))
    return b" ".join(re.split(rb"[ \t]+", joined, maxsplit=1))


def without_typography(text: str) -> str:
    """A line without what mail programs and word processors put there."""
    bare = COLON.sub(r"\1 ", bare_text(text))
    name, blank, ranks = bare.partition(" ")
    cells = [cell.strip(" \t") for cell in ranks.split(",")]
    if not any(cell in DASHES for cell in cells if cell):
        return bare
    return name + blank + ",".join("-" if cell and cell in DASHES else cell for cell in cells)


def bare_text(text: str) -> str:
    """A line without no-break spaces, bold letters, and what is around it."""
    bare = text.translate(NO_BREAK).strip(" \t")
    # quotation marks may enclose a full stop, or precede it
    for _ in range(2):
        bare = FULL_STOP.sub("", unquoted(BOLD.sub(r"\2", bare)))
    return bare


def unquoted(text: str) -> str:
    """A line without the quotation marks around the whole of it."""
    inner = text[1:-1]
    is_quoted = inner and text[0] + text[-1] in QUOTES and not {text[0], text[-1]} & {*inner}
    return inner.strip(" \t") if is_quoted else text
