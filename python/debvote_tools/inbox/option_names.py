"""Whether a line names the options in another order than the poll."""

import itertools
import re
import unicodedata

from debvote_tools.poll.sealed import SealedPoll

RANKS = re.compile(r"[0-9-]+")


class OptionNames:
    """The names of options in a text: as people read them and as debvote does, in any case."""

    def __init__(self, poll: SealedPoll) -> None:
        self.numbers: dict[str, int] = {}
        for number, names in enumerate(zip(poll.names, poll.plain_names), start=1):
            for name in names:
                self.numbers.setdefault(folded(name), number)
        # ranks are no names
        texts = sorted(itertools.filterfalse(RANKS.fullmatch, self.numbers), key=len, reverse=True)
        self.any_name = re.compile(rf"(?<!\w)(?:{'|'.join(map(re.escape, texts)) or '(?!)'})(?!\w)")

    def are_in_another_order(self, line: bytes) -> bool:
        """Whether a line has two or more of the names in another order than the poll."""
        names = self.any_name.findall(folded(line.decode("utf-8", "replace")))
        numbers = [self.numbers[name] for name in names]
        return numbers != sorted(numbers)


def folded(text: str) -> str:
    return " ".join(unicodedata.normalize("NFC", text).split()).casefold()
