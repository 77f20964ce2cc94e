"""Why each option has won, is left in a tie, was dropped or has lost, in numbers.

`why.jinja` has their sentences, each of which is filled by a row of places.
"""

import collections
from collections.abc import Iterable, Mapping
from typing import Any

from debvote_tools.sheet import Pair, Sheet

Row = dict[str, Any]


class Why:
    """Why each option ended as it did; `options` are by their numbers, as parts of a sentence."""

    def __init__(self, sheet: Sheet, options: Mapping[int, str]) -> None:
        self.sheet = sheet
        self.options = options
        self.default = sheet.default
        # the defeats that were removed as the weakest, with their rounds
        self.removed = {
            pair: number
            for number, (_, removed) in enumerate(sheet.rounds, start=1)
            for pair in removed
        }

    @property
    def whole(self) -> int:
        """What the whole width means of each bar of a page, which ends at the voters, but for what
        options lack, at most as much again.
        """
        needed = max((row["needed"] for row in self.failed), default=0)
        return max(self.sheet.voters, min(needed, 2 * self.sheet.voters), 1)

    def names(self, options: Iterable[int]) -> list[str]:
        return [self.options[option] for option in options]

    def rows(self, pairs: Iterable[Pair]) -> list[Row]:
        return [self.row(pair) for pair in pairs]

    def row(self, pair: Iterable[int]) -> Row:
        """Two options, the number of the second, and how many prefer the first, prefer the second,
        and rank both equally.
        """
        a, b = pair
        over = self.sheet.votes[a, b]
        under = self.sheet.votes[b, a]
        return {
            "option": self.options[a],
            "other": self.options[b],
            "rival": b,
            "over": over,
            "under": under,
            "equal": self.sheet.voters - over - under,
            "round": self.removed.get((a, b)) or self.removed.get((b, a)),
        }

    @staticmethod
    def few(rows: list[Row]) -> tuple[list[Row], int]:
        """The first two rows, and how many others there are; if it is one, three rows."""
        shown = rows[: 3 if len(rows) == 3 else 2]
        return shown, len(rows) - len(shown)

    # ---- beside the default option
    def majority(self, option: int) -> int:
        """The least number that is a majority against those who prefer the default option."""
        under = self.sheet.votes[self.default, option]
        product = self.sheet.ratios[option] * under
        return product + 1 if self.sheet.is_more_than else max(product, under + 1)

    def needs(self, option: int) -> Row:
        """An option and the default option, and how many it needs: for what it was dropped for, or
        for quorum and majority.
        """
        by_cause = {"quorum": self.sheet.quorum, "majority": self.majority(option)}
        dropped = self.sheet.dropped.get(option)
        row = self.row((option, self.default))
        return row | {
            "number": option,
            "ratio": self.sheet.ratios[option],
            "dropped": dropped,
            "needed": by_cause[dropped] if dropped else max(by_cause.values()),
            "lacked": max(by_cause.values()) - row["over"],
        }

    @property
    def has_quorum(self) -> bool:
        """Whether some option reaches the quorum."""
        return any(self.needs(option)["over"] >= self.sheet.quorum for option in self.sheet.ratios)

    @property
    def failed(self) -> list[Row]:
        """What the options that were dropped need, first the one that lacked least for quorum and
        majority.
        """
        rows = map(self.needs, self.sheet.dropped)
        return sorted(rows, key=lambda row: int(row["lacked"]))

    @property
    def others(self) -> list[int]:
        """The options whose fate the panel of the result leaves untold: none of two, not both of a
        tie, and of those that the default option has outlived none that it shows.
        """
        sheet = self.sheet
        shown = self.few(self.failed)[0] if sheet.winner == self.default else []
        told = {sheet.winner, *(row["number"] for row in shown)}
        if sheet.winner is None and len(sheet.left) == 2:
            told |= {*sheet.left}
        return [option for option in self.in_order if option not in told and len(self.options) > 2]

    # ---- beside each other
    @property
    def in_order(self) -> list[int]:
        """The winner, then the options that stay in the set for most rounds, and last those that
        were dropped.
        """
        sheet = self.sheet
        rounds = collections.Counter(option for options, _ in sheet.rounds for option in options)
        return sorted(
            sheet.names,
            key=lambda option: (option != sheet.winner, option in sheet.dropped, -rounds[option]),
        )

    def beaten(self, option: int) -> list[Row]:
        """The defeats by an option that were not removed, the narrowest first: none of an option
        that was dropped, which more voters may prefer to the winner.
        """
        rows = self.rows(
            pair for pair in self.sheet.defeats if pair[0] == option and pair not in self.removed
        )
        return sorted(rows, key=lambda row: int(row["over"] - row["under"]))

    def set_aside(self, option: int | None = None) -> list[Row]:
        """The defeats that were removed: all, or those by an option."""
        return self.rows(pair for pair in self.removed if option in (None, pair[0]))

    def aside(self, option: int) -> list[Row]:
        """An option, and each other one that it beats or that beats it by a defeat that was
        removed.
        """
        pairs = (pair for pair in self.removed if option in pair)
        return self.rows((option, a if b == option else b) for a, b in pairs)

    @property
    def beat_each_other(self) -> bool:
        """Whether options of the last set beat others of it, by defeats that were removed."""
        return any({*pair} <= {*self.sheet.left} for pair in self.removed)

    def left_with(self, option: int) -> list[Row]:
        """An option of the last set, and each other one."""
        return self.rows((option, other) for other in self.sheet.left if other != option)

    def chain(self, option: int) -> list[Row]:
        """The shortest chain of defeats through which an option is not left: the first defeats it,
        and each further one the option before. It ends in the set of the round in which the option
        is out; of several chains it is that to the winner, or else to the least number.
        """
        rounds = sum(option in options for options, _ in self.sheet.rounds)
        within = {*self.sheet.rounds[rounds][0]}
        gone = {pair for pair, number in self.removed.items() if number <= rounds}
        # backwards, so that an option that defeats several goes on from the least
        left = sorted({*self.sheet.defeats} - gone, reverse=True)
        chains: dict[int, list[Pair]] = {option: []}
        while not (ends := within & chains.keys()):
            chains |= {a: [*chains[b], (a, b)] for a, b in left if b in chains and a not in chains}
        return self.rows(chains[self.sheet.winner if self.sheet.winner in ends else min(ends)])
