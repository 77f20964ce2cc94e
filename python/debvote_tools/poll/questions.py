"""The questions of an election, each a poll with its label, and what is the same for all."""

import functools
import pathlib
import re
import textwrap
from collections.abc import Callable, Collection, Mapping

from debvote_tools.files import sha256_of
from debvote_tools.poll.sealed import SealedPoll, read_plain
from debvote_tools.text.answers import answer_pattern
from debvote_tools.text.ballots import ballot_of, ballots_in_words, ranks_by_label
from debvote_tools.text.language import ENGLISH, Language
from debvote_tools.text.motions import Words, words_of

# in bytes; no ballot of one question has half as many
LONGEST_LINE = 500
# in characters: as much of the title of a question stands before an answer in words
LONGEST_TITLE = 60

# the labels of several questions: neither `I abstain` nor `O no` begins with one
LABELS = "ABCDEFGHJKLMNPQRSTUVWXYZ"

# the file of a poll, and beside the polls of several questions the title of the election and the
# list of the checksums, as sha256sum writes it
POLL_FILE = "poll.toml"
TITLE_FILE = "title.txt"
SUMS_FILE = "polls.sha256"


class Questions(dict[str, SealedPoll]):
    """The polls by the labels of their questions, in the order of these. An election with one
    question has the label "", and no title but that of its poll. Each poll has roll, end and
    address of the election, and all are secret or none.
    """

    def __init__(self, polls: Mapping[str, SealedPoll], title: str = "") -> None:
        super().__init__(polls)
        first = next(iter(polls.values()))
        self.title = title
        self.is_several = "" not in polls
        # what is beside several polls: their title, and the list of the checksums
        title_file = f"{title}\n".encode()
        rows = list[str]()
        if self.is_several:
            digests = {place_of(label, POLL_FILE): poll.checksum for label, poll in self.items()}
            digests[TITLE_FILE] = sha256_of(title_file)
            rows = [f"{digest}  {name}" for name, digest in digests.items()]
        sums = "".join(f"{row}\n" for row in rows).encode()
        self.beside = {TITLE_FILE: title_file, SUMS_FILE: sums} if rows else {}
        # the SHA-256 that covers all that the call announces, which a letter shows below the list
        # of several; and its first digits, which are in square brackets in the subjects of letters
        self.checksum = sha256_of(sums) if rows else first.checksum
        self.checksums = [*rows, self.checksum]
        self.mark = self.checksum[:16]
        # the title of the election that people read
        self.name = title or first.name
        self.roll = first.roll
        self.is_secret = first.secret
        self.deadline_time = first.deadline_time
        # in bytes: how long a line may be that is looked at as a ballot
        self.longest_line = LONGEST_LINE * len(self)

    @property
    def files(self) -> dict[str, bytes]:
        """The polls, byte for byte, and what is beside several, by their places in the folder of a
        call or of a result.
        """
        polls = {place_of(label, POLL_FILE): poll.as_bytes() for label, poll in self.items()}
        return polls | self.beside

    def line(self, name: str, rank: Callable[[int, int], str]) -> str:
        """A ballot, or the form of one, with a rank for each option, by its number and how many
        there are.
        """
        answers = dict[str, str]()
        for label, poll in self.items():
            count = len(poll.names)
            answers[label] = ",".join(rank(number, count) for number in range(1, count + 1))
        return ballot_of(name, answers).line

    def words(self, language: Language) -> Words:
        """The words by which motions may be answered; none if no question is one."""
        return words_of(language.code, motion=any(poll.motion for poll in self.values()))

    def answers(self, language: Language) -> re.Pattern[str]:
        """What looks like an answer to one of them, wherever it stands in a line."""
        fewest = min(len(poll.names) for poll in self.values())
        return answer_pattern(fewest, "".join(self), frozenset(self.words(language)))

    def in_words(self, language: Language = ENGLISH) -> Callable[[str], str]:
        """Says ballots in words, from what each has behind the name; of several answers each on a
        line of its own, behind label and title of its question.
        """
        # most ballots have one of a few orders
        said = {
            label: functools.lru_cache(4096)(ballots_in_words(poll.names, language, poll.motion))
            for label, poll in self.items()
        }
        before = {label: f"{self.titled(label)}: " if label else "" for label in self}
        return lambda answers: "\n".join(
            before[label] + said[label](ranks) for label, ranks in ranks_by_label(answers).items()
        )

    def titled(self, label: str) -> str:
        """The label of a question, and in brackets its title, cut off if it is long."""
        return f"{label} ({textwrap.shorten(self[label].name, LONGEST_TITLE, placeholder=' ..')})"


def read_questions(
    polls: Mapping[str, bytes], motions: Collection[str], title: str = ""
) -> Questions:
    """Reads polls in plain form, by their labels, of which some are motions."""
    read = {label: read_plain(data, motion=label in motions) for label, data in polls.items()}
    return Questions(read, title)


def place_of(label: str, file: str) -> str:
    """Where a file of a question is, in the folder of the election."""
    return str(pathlib.PurePath(label, file))
