"""What the text of a letter says: the ballots in it, and whether one is all that its sender wrote.

It is found by the grammar of `letter_grammar.py` and the names of the electors, before debvote is
asked which ballots are valid.
"""

import dataclasses
import itertools
import re
import unicodedata
from collections.abc import Collection, Iterator, Sequence

from debvote_tools.inbox.letter_grammar import (
    USUAL_ABOVE,
    bare,
    behind_usual,
    is_farewell,
    is_greeting,
    is_marked,
    parted,
)
from debvote_tools.inbox.lines import (
    LABEL,
    RANKS,
    WRITTEN_NAME,
    Names,
    bare_text,
    repaired_but_for_name,
)
from debvote_tools.poll.sealed import MARKS
from debvote_tools.text.answers import DASHES, answer_pattern
from debvote_tools.text.ballots import ranks_by_label
from debvote_tools.text.motions import WORDS

# in characters: how much is listed of what else its sender wrote, and of a line that is looked at
# closely
MAX_WORDS = 60
MAX_COMPOSED = 2_000
# of more lines nothing is proposed
MOST_LOOSE = 1_000
# of more lines that may be ballots none is read; how many usual lines are passed over below a
# ballot
MAX_BALLOTS = 200
MAX_FAREWELLS = 6

# what may stand behind the last rank of a ballot; and what no signature has: two ranks
SIGNS = " \t.*\"'`\u00a0\u00ab\u00bb\u2018\u2019\u201c\u201d"
LIKE_RANKS = answer_pattern(2, "", frozenset())
# who is really called so is not known by it below a ballot
NO_NAMES = frozenset(itertools.chain.from_iterable(WORDS.values()))


@dataclasses.dataclass(frozen=True)
class ReadLine:
    """What reads as a ballot in a letter, by the number of its first line, from 1: as it is
    written, those who may be meant by its name, its ranks, and why they are none; None if they are
    valid.
    """

    number: int
    written: str
    meant: tuple[str, ...]
    ranks: str
    # why debvote refuses it, as in the book
    answer: str | None = None


@dataclasses.dataclass(frozen=True)
class Reading:
    """The ballots in a text, or how many lines may be ballots if they are more than are read;
    whether one is all of it; whether they are only proposed, since a person looks; and whether more
    of it looks like an answer. What its sender wrote besides ballots and usual lines, a little more
    of it than is listed; and what looks like an answer where no ballot may be, by its number.
    """

    ballots: tuple[ReadLine, ...] = ()
    crowd: int = 0
    is_alone: bool = False
    has_more_answers: bool = False
    is_proposed: bool = False
    words: str = ""
    outside: tuple[int, ...] = ()


def reading_of(lines: Sequence[str], names: Names, *, is_signed: bool = False) -> Reading:
    text = LetterText(lines, names, is_signed)
    if (crowd := len(text.answers)) > MAX_BALLOTS:
        return Reading(crowd=crowd)
    whole = text.whole_ballot()
    ballots = {whole: text.own} if whole else dict(text.ballots())
    if is_proposed := not ballots and len(lines) <= MOST_LOOSE:
        ballots = dict(
            LetterText([*map(names.loose, lines)], names, is_signed).ballots(is_loose=True)
        )
    in_ballots = {*itertools.chain(*ballots.values())}
    rest = [place for place in text.written if place not in in_ballots]
    own_names = {name for ballot in ballots for name in names_of(ballot, names)}
    others = (lines[place].strip() for place in rest if text.says_something(place, own_names))
    return Reading(
        ballots=tuple(ballots),
        is_alone=whole is not None,
        is_proposed=is_proposed,
        has_more_answers=not text.outside <= in_ballots or any(map(text.may_answer, rest)),
        words=" ".join(others)[: MAX_WORDS + 1],
        outside=tuple(
            place + 1
            for place in sorted({*text.outside, *filter(text.may_answer, text.signature)})
            if place not in in_ballots
        ),
    )


class LetterText:
    """The lines of a text by what they are, as their indices; empty ones are left out, and in a
    text that must be signed those with a mark alone.
    """

    def __init__(self, lines: Sequence[str], names: Names, is_signed: bool) -> None:
        # with accents in one form; a very long line as it is, since that takes quadratic time
        self.lines = [
            line
            if line.isascii() or len(line) > MAX_COMPOSED
            else unicodedata.normalize("NFC", line)
            for line in lines
        ]
        self.names = names
        self.is_signed = is_signed
        parts = parted(self.lines)
        self.own, self.signature, self.below = (
            [*filter(self.is_said, places)] for places in parts[:3]
        )
        # what its sender wrote, in the order in which it is shown
        self.written = [*self.own, *self.below, *self.signature]
        # what looks like an answer, where a ballot may be and where none may be
        self.answers = {*filter(self.is_answer, (*self.own, *self.below))}
        # what looks like an answer where no ballot may be
        like_ranks = (place for place in self.signature if LIKE_RANKS.search(lines[place]))
        outside = filter(self.is_answer, (*self.signature, *parts.quoted))
        self.outside = {*like_ranks, *outside}
        # of lines below a head of Outlook nobody sees whose they are
        self.unmarked = [place for place in parts.quoted if not is_marked(self.lines[place])]

    def is_said(self, place: int) -> bool:
        line = self.lines[place].strip()
        return line != "" and not (self.is_signed and MARKS.fullmatch(line))

    def is_answer(self, place: int) -> bool:
        return self.names.are_answers(self.lines[place])

    def may_answer(self, place: int) -> bool:
        """Whether a line is an answer, or begins as one: with a label and a sign or a word behind
        it.
        """
        begins = self.names.label_at_start
        return place in self.answers or (begins and begins.match(self.lines[place])) is not None

    def says_something(self, place: int, own_names: Collection[str]) -> bool:
        """Whether a line is an answer, or neither a greeting nor a farewell of an elector with
        these names.
        """
        line = self.lines[place]
        is_usual = is_greeting(line, own_names) or is_farewell(line, own_names)
        return place in self.answers or not is_usual

    def greets(self, line: str) -> bool:
        """Whether a line is a greeting, perhaps with a name behind it, and not itself the name of
        an elector.
        """
        behind = behind_usual(line, USUAL_ABOVE)
        return behind is not None and not (
            behind and (self.names.answers.search(line) or self.names.meant_by(line.strip()))
        )

    def whole_ballot(self) -> ReadLine | None:
        """The ballot, if what its sender wrote is nothing but greetings, it, farewells and a
        signature, and nothing else in the text looks like an answer.
        """
        if self.below or self.outside:
            return None
        own = [self.lines[place] for place in self.own]
        greetings = [*itertools.takewhile(self.greets, own)]
        begin = len(greetings)
        for end in range(len(own), max(begin, len(own) - MAX_FAREWELLS - 1), -1):
            ballot = self.ballot_at(self.own[begin:end])
            own_names = names_of(ballot, self.names) if ballot else ()
            # two hyphens with a comma are ranks, not hyphens of a usual line
            has_more = not self.answers.isdisjoint((*self.own[:begin], *self.own[end:]))
            if ballot and not has_more and all(is_greeting(line, own_names) for line in greetings):
                are_usual = all(is_farewell(line, own_names) for line in own[end:])
                return ballot if are_usual else None
        return None

    def ballots(self, *, is_loose: bool = False) -> Iterator[tuple[ReadLine, list[int]]]:
        """The ballots within the text and their lines, each the longest run of lines with answers
        that is one, perhaps below a line with the name; loosely read, also without a name.
        """
        last = -1
        places = {*self.own, *self.below, *(self.unmarked if is_loose else ())}
        answered = {*filter(self.is_answer, places)} if is_loose else self.answers
        for place in sorted(places):
            if place <= last or answered.isdisjoint((place, place + 1)):
                continue
            longest = None
            answers = itertools.takewhile(answered.__contains__, itertools.count(place + 1))
            for end in (place, *answers):
                run = [*range(place, end + 1)]
                ballot = self.ballot_at(run, is_loose=is_loose)
                if ballot is None and (longest or end > place):
                    break
                longest = (ballot, run) if ballot else None
            if longest:
                last = longest[1][-1]
                yield longest

    def ballot_at(self, places: Sequence[int], *, is_loose: bool = False) -> ReadLine | None:
        """The ballot that these lines are together, if they have no other words."""
        names = self.names
        lines = [self.lines[place] for place in places]
        last = lines[-1].rstrip(SIGNS)[-1:] if sum(map(len, lines)) <= names.longest_line else ""
        if not (last.isdigit() or last in ("-", *DASHES)) or any(map(is_marked, lines)):
            return None
        text = joined(lines, names)
        if not names.labels:
            text = repaired_but_for_name(text.encode(errors="replace"), names.longest_line).decode()
        name, ranks = names.taken_apart(text) or ("", "")
        if is_loose and not name:
            # of one question nothing stands before the ranks
            ranks = ranks or (text if re.fullmatch(RANKS, text) else "")
            return ReadLine(places[0] + 1, text, (), ranks) if ranks else None
        # a longer name without a label is none, unless the name is on a line of its own
        is_apart = len(lines) > 1 and names.meant_by(bare_text(lines[0])) != []
        meant = [] if not is_apart and names.longer_than(name, text) else names.meant_by(name)
        if not meant or not re.fullmatch(WRITTEN_NAME, name):
            return None
        written = " ".join(" ".join(lines).split())
        return ReadLine(places[0] + 1, written, tuple(meant), ranks)


def names_of(line: ReadLine, names: Names) -> set[str]:
    """How the electors who may be meant sign: by their whole names or by the first word of them."""
    whole = [names.real_names.get(elector, elector) for elector in line.meant]
    signs = {bare(name) for who in whole for name in (who, *who.split()[:1])}
    return {name for name in (*signs, *line.meant) if name and NO_NAMES.isdisjoint(name.split())}


def joined(lines: Sequence[str], names: Names) -> str:
    """Lines as one. Of several questions the name may stand again before a label."""
    if not names.labels:
        return " ".join(" ".join(lines).split())
    first, *others = (" ".join(bare_text(line).split()) for line in lines)
    meant = names.meant_by(before_label(first))
    for line in others:
        name = before_label(line)
        # with another sign it says something
        is_name = re.fullmatch(WRITTEN_NAME, name.removesuffix(":")) is not None
        is_again = is_name and names.meant_by(name) == meant and not names.longer_than(name, line)
        first += " " + (line.removeprefix(name) if is_again else line)
    return first


def before_label(line: str) -> str:
    return LABEL.split(line, maxsplit=1)[0].strip()


def why_points(ranks: str) -> str | None:
    """Why ranks that debvote takes are none here: points are often above the number of options."""
    for answer in ranks_by_label(ranks).values():
        cells = answer.split(",")
        for rank in cells:
            if rank.isdigit() and int(rank) > len(cells):
                return f"{rank} is above the number of options, as points are"
    return None
