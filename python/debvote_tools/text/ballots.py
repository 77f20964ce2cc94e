"""A ballot as a value, as a line of a file, and in words; and why a line is none.

Ranks are spelled as `standing` and the ballot file spell them, such as `1,2,-,3`.
"""

import dataclasses
import functools
import itertools
import re
from collections.abc import Callable, Collection, Iterable, Iterator, Mapping, Sequence

from debvote_tools.grouping import grouped
from debvote_tools.text.language import ENGLISH, Language, marked
from debvote_tools.text.motions import in_words

UNRANKED = "-"

# an answer in a ballot: the label of its question, if it has one, and its ranks
ANSWER = re.compile("(?:([A-Z]) )?([0-9,-]+)")

# what can be in the place of an option, in the order of preference
NUMBERS = {str(rank): rank for rank in range(1, 100)} | {UNRANKED: 100}


# what describes a ballot in words
THEN = marked("{before}, then {step}")
EQUALLY = marked("{options} equally")
UNRANKED_LAST = marked("{ranked}; not ranked, and so behind all others: {unranked}")
NOTHING = marked("no option is ranked, so nothing is preferred")


def ballot_lines(ballots_bytes: bytes) -> list[bytes]:
    """The lines of a ballot file; the last one may lack its line feed."""
    return ballots_bytes.removesuffix(b"\n").split(b"\n") if ballots_bytes else []


def ballot_file(lines: Iterable[bytes]) -> bytes:
    return b"\n".join([*lines, b""])


def in_normal_form(ranks: str) -> str:
    """The same order with ranks 1, 2 and so on."""
    given = ranks.split(",")
    in_order = enumerate(sorted({*given} - {UNRANKED}, key=int), start=1)
    normal = {UNRANKED: UNRANKED} | {rank: str(number) for number, rank in in_order}
    return ",".join(normal[rank] for rank in given)


def ranks_by_label(answers: str) -> dict[str, str]:
    """The ranks by the labels of their questions, from what a ballot has behind the name: `1,2`, of
    which the label is empty, or `A 1,2 C 2,1,3`.
    """
    return dict(ANSWER.findall(answers))


def answers_text(answers: Mapping[str, str]) -> str:
    """What a ballot has behind the name, from the ranks by question."""
    return " ".join(filter(None, itertools.chain(*answers.items())))


@dataclasses.dataclass(frozen=True)
class Ballot:
    """A ballot by its line, as it is entered: the name of its elector and answers. An empty line is
    that of a ballot without both.
    """

    line: str

    @property
    def elector(self) -> str:
        return self.line.partition(" ")[0]

    @property
    def answers(self) -> str:
        """What stands behind the name."""
        return self.line.partition(" ")[2]

    @functools.cached_property
    def ranks(self) -> Mapping[str, str]:
        """By the labels of the questions that it answers."""
        return ranks_by_label(self.answers)

    @property
    def parts(self) -> set[tuple[str, str]]:
        """The elector with the label of each answer."""
        return {(self.elector, label) for label in self.ranks}

    def differs(self, other: "Ballot") -> bool:
        """Whether both answer a question, in different ways."""
        return any(other.ranks.get(label, ranks) != ranks for label, ranks in self.ranks.items())

    def without(self, labels: Collection[str]) -> "Ballot":
        """Without the answers to some questions."""
        left = {label: ranks for label, ranks in self.ranks.items() if label not in labels}
        return ballot_of(self.elector, left)


def ballot_of(elector: str, ranks: Mapping[str, str]) -> Ballot:
    """A ballot from the ranks by question."""
    return Ballot(f"{elector} {answers_text(ranks)}")


def part_of(line: bytes, label: str) -> bytes | None:
    """What answers one question, of a line as it was entered: `ada 2,1,3` of `ada A 1,2 C 2,1,3`;
    None if nothing does. The one question without a label is answered by the line itself.
    """
    if not label:
        return line
    before, _, after = line.partition(b" %b " % label.encode())
    return b"%b %b" % (before.partition(b" ")[0], after.partition(b" ")[0]) if after else None


def ballots_in_words(
    names: Sequence[str], language: Language = ENGLISH, motion: bool = False
) -> Callable[[str], str]:
    """Says valid ballots by their ranks, without markup: "At the lake, then Further discussion,
    then ..", or of a motion "Yes". The names are those of the options, the default option last.
    `add` prints 100,000.
    """
    if motion:
        return functools.partial(motion_in_words, in_words(names, language))
    then = language.between(THEN)

    # many ballots have few groups of options that are equal
    @functools.cache
    def step(group: tuple[str, ...]) -> str:
        if len(group) == 1:
            return group[0]
        return language.say(EQUALLY, options=language.joined(group))

    def order_in_words(ranks: str) -> str:
        steps = grouped(zip(ranks.split(","), names))
        unranked = steps.pop(UNRANKED, [])
        if not steps:
            return language.say(NOTHING)
        said = then.join(
            step(tuple(steps[rank])) for rank in sorted(steps, key=NUMBERS.__getitem__)
        )
        if not unranked:
            return said
        return language.say(UNRANKED_LAST, ranked=said, unranked=language.joined(unranked))

    return order_in_words


def motion_in_words(words: Sequence[str], ranks: str) -> str:
    """A ballot on a motion in words, yes, no or abstention, by the order of its ranks."""
    option, default = (NUMBERS[rank] for rank in ranks.split(","))
    return words[2 if option == default else int(option > default)]


# ---- why a line is no ballot
# what debvote says of a line
RANK_COUNT = re.compile(r"bad rank count: (\d+) ranks?, the poll has (\d+) options?")


def faults_of(
    verdict: str | None,
    name: str,
    language: Language,
    *,
    is_of_several: bool = False,
) -> Iterator[str]:
    """What is wrong with a line, which may have answers to several questions, by debvote's verdict,
    None for a ballot; nothing if it is late. It names the elector if the name is known.
    """
    if verdict is None:
        yield language.say("It is a ballot.")
    elif count := RANK_COUNT.match(verdict):
        number = int(count[1])
        options = count[2]
        yield language.say_number(
            "One of its answers has {number} rank, and the question has {options} options.",
            "One of its answers has {number} ranks, and the question has {options} options.",
            number,
            options=options,
        ) if is_of_several else language.say_number(
            "It has {number} rank, and the vote has {options} options.",
            "It has {number} ranks, and the vote has {options} options.",
            number,
            options=options,
        )
    elif verdict.startswith("bad not on roll: "):
        if name:
            yield language.say("The name in it is not on the roll; yours is {name}.", name=name)
        else:
            yield language.say("The name in it is not on the roll.")
    elif not verdict.startswith("late: "):
        yield language.say("It is not written as a ballot is.")
