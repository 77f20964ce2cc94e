"""An act as a value, and the loop that shows it, asks, and does it."""

import contextlib
import dataclasses
from collections.abc import Callable, Mapping, Sequence
from typing import TypeVar

from debvote_tools.book import outgoing, queries
from debvote_tools.book.book import ActName, Book, Detail, NewAct, Overtaken
from debvote_tools.cli.console import is_terminal, is_yes, say, tell
from debvote_tools.cli.faults import Fault
from debvote_tools.files import uninterrupted


@dataclasses.dataclass(frozen=True)
class Change:
    """An act, as it is planned by the book as it is now. What is planned anew and is equal is not
    shown again.
    """

    name: ActName
    detail: Detail
    _: dataclasses.KW_ONLY
    # what is told before it; what is asked then, if anything; and if there is nothing to do
    shown: Sequence[str] = ()
    prompt: str = ""
    is_nothing: bool = False
    # the envelopes that are struck, and what is decided of letters
    struck: Sequence[int] = ()
    letters: Mapping[int, str] = dataclasses.field(default_factory=dict)
    # the electors who change, what is sealed, by its names, and the letters that are written
    electors: Sequence[queries.Elector] = ()
    sealed: Mapping[str, bytes] = dataclasses.field(default_factory=dict)
    written: Sequence[outgoing.OutgoingLetter] = ()

    def show(self) -> None:
        if self.shown:
            tell(*self.shown)

    def ask(self) -> bool | None:
        """Whether it is agreed to; None at the end of the input."""
        return is_yes(self.prompt)

    def declined(self, _: bool | None) -> None:
        """What follows if the answer is no; None is the end of the input."""
        cure = say("run the command again when you agree")
        raise Fault(None, say("you did not say yes"), cure)

    def is_same_now(self) -> bool:
        """Within the act, if others came since it was planned: whether it would be planned so
        again. A plan that asks somebody, or runs a program, is not made there.
        """
        return False

    def write(self, act: NewAct) -> None:
        """Adds its rows."""
        queries.strike_envelopes(act, self.struck)
        for letter, state in self.letters.items():
            queries.decide(act, letter, state)
        queries.put_electors(act, self.electors)
        act.insert_all("sealed", "name, data", self.sealed.items())
        outgoing.note(act, self.written)

    def report(self, number: int) -> None:
        """What is told of the act, whose number this is, before an interrupt can end the run."""

    def do(self, book: Book, seen: int) -> None:
        """The act. `seen` is the last act before it was planned; if others came since, and it would
        not be planned so again, it is `Overtaken`.
        """
        with contextlib.ExitStack() as stack:
            with book.act(self.name, self.detail) as act:
                if act.number != seen + 1 and not self.is_same_now():
                    raise Overtaken
                self.write(act)
                stack.enter_context(uninterrupted())
            self.report(act.number)


def terminal_prompt(prompt: str, is_agreed: bool) -> str:
    """A question that is asked only at a terminal, unless it was agreed to."""
    return prompt if is_terminal() and not is_agreed else ""


Planned = TypeVar("Planned", bound=Change)


def carried_out(book: Book, plan: Callable[[], Planned]) -> Planned:
    """Shows what is planned, asks, and does it. A plan may ask at the terminal, too, what only a
    person knows, as whether a line came in time. If other acts came meanwhile it is planned anew,
    and shown again if it differs: what was agreed to is done. Returns the last plan.
    """
    shown: Planned | None = None
    while True:
        seen = book.last_number()
        change = plan()
        if change != shown:
            if shown is not None and is_terminal():
                tell(
                    say(
                        "Nothing was done: another command changed the election meanwhile. Now it is so:"
                    )
                )
            change.show()
            if change.is_nothing:
                return change
            if change.prompt and not (answer := change.ask()):
                change.declined(answer)
                return change
            shown = change
        with contextlib.suppress(Overtaken):
            change.do(book, seen)
            return change
