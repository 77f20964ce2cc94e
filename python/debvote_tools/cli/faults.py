"""How a run ends: the exit statuses, and the fault that ends one."""

import contextlib
import dataclasses
import enum
from collections.abc import Iterable, Iterator

from debvote_tools.text.language import SPOKEN, marked


class Status(enum.IntEnum):
    """The exit statuses: those of debvote, and that of a shell if there is no debvote."""

    # all was done; of a count: it has a winner
    DONE = 0
    TIE = 1
    BAD_ARGUMENTS = 2
    BAD_POLL = 3
    BAD_BALLOTS = 4
    BAD_OUTPUT = 7
    CASTING_OUTSIDE = 8
    # another sheet, refused lines, and what a run stops at until a person has looked
    DOUBT = 9
    BAD_SHEET = 10
    NOT_FOUND = 127


# what most faults say was done
NOTHING = "nothing was "
NOTHING_DONE = marked(
    {
        "added": "nothing was added",
        "changed": "nothing was changed",
        "counted": "nothing was counted",
        "entered": "nothing was entered",
        "published": "nothing was published",
        "written": "nothing was written",
    }
)
NOTHING_CHANGED = NOTHING_DONE["changed"]


@dataclasses.dataclass(eq=False)
class Fault(Exception):
    """Ends a run: the file, if the fault is in one, the reason, the cure, the exit status, and what
    was done or was not, None if the reason says it. `others` stop the same act.
    """

    file: object
    reason: object
    cure: str
    status: int = Status.DOUBT
    done: str | None = NOTHING_CHANGED
    others: tuple["Fault", ...] = ()

    @property
    def words(self) -> str:
        done = "; " if self.done is None else f"; {self.done}: " if self.done else ": "
        where = "" if self.file is None else f"{self.file}: "
        return f"{where}{self.reason}{done}{self.cure}"

    def __str__(self) -> str:
        return self.words

    def after(self, acts: str, nothing: str) -> "Fault":
        """The same fault, of a run that did these acts before, and otherwise `nothing`."""
        done = self.done or ""
        rest = done.removeprefix(NOTHING_CHANGED)
        if rest != done:
            self.done = (acts or SPOKEN.get().say(NOTHING_DONE[nothing])) + rest
        elif acts and done.startswith(NOTHING):
            self.done = f"{acts}; {done}"
        return self


def bad_arguments(
    option: object, reason: object, cure: str, done: str | None = NOTHING_CHANGED
) -> Fault:
    """The fault of an option, or of what it names."""
    return Fault(option, reason, cure, Status.BAD_ARGUMENTS, done)


def stop_at(faults: Iterable[Fault]) -> None:
    """Stops if there are faults, which are all reported. The exit status is that of the first."""
    if together := [each for fault in faults for each in (fault, *fault.others)]:
        first, *others = together
        first.others = tuple(others)
        raise first


@contextlib.contextmanager
def kept_in(faults: list[Fault]) -> Iterator[None]:
    """A fault within is kept, to be raised with others."""
    try:
        yield
    except Fault as fault:
        faults.append(fault)


def not_installed(error: ModuleNotFoundError) -> Fault:
    """A package of Debian that is missing."""
    return Fault(None, f"python3-{error.name} is not installed", "install it", Status.NOT_FOUND)


def other_format(what: str) -> Fault:
    cure = "install debvote and these programs from one package"
    return Fault(None, f"{what} has an unknown format", cure, Status.BAD_SHEET, None)
