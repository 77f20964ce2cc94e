"""Casting votes: what the options --casting say, and the command that publishes with them."""

import shlex
from collections.abc import Iterable, Iterator, Mapping, Sequence

from debvote_tools.cli.faults import Fault, Status
from debvote_tools.debvote import option_words
from debvote_tools.election import Election
from debvote_tools.poll.questions import Questions
from debvote_tools.sheet import Sheet

# the words of the option --casting
CASTING = (
    "NAME",
    "The name of the option that the casting vote chooses in a tie, exactly as it is on the "
    "sheet or as people read it; write --casting=NAME if the name begins with a hyphen. "
    "Of several questions each tie has its own, with its label: B=NAME",
)

# the options that casting votes choose, by their plain names: those of some questions, by the
# labels
Castings = Mapping[str, str]


def castings_in(given: Sequence[str] | None, questions: Questions) -> Castings:
    """What the options --casting say. Stops at one without its label, if there are several
    questions, at a second one for a question, and at a name that is no option, or that of two: each
    has a plain name, and the one that people read.
    """
    castings: dict[str, str] = {}
    for text in given or ():
        label, _, name = text.partition("=") if questions.is_several else ("", "", text)
        label = label.upper()
        if label not in questions:
            cure = f"write it as {min(questions)}=NAME; the labels are {', '.join(questions)}"
            raise bad_casting(text, "no question has this label", cure)
        if label in castings:
            words = f"{named(label)} has the casting vote {in_shell([castings[label]])} already"
            raise bad_casting(text, words, "give one of them")
        poll = questions[label]
        meant = [names[0] for names in zip(poll.plain_names, poll.names) if name in names]
        if len(meant) != 1:
            words = f"{'two options have' if meant else 'no option has'} this name"
            cure = "give one of these names, exactly as written here"
            raise bad_casting(text, words, f"{cure}: {in_shell(meant or poll.plain_names)}")
        castings[label] = meant[0]
    return castings


def unneeded_words(castings: Castings, sheets: Mapping[str, Sheet]) -> Iterator[str]:
    """Notes about the casting votes at questions that are no tie."""
    for label in castings.keys() & sheets.keys():
        if len(sheets[label].left) == 1:
            yield f"Note: {named(label)} is no tie, so no casting vote decides it; what --casting says of it is not told."


def named(label: str) -> str:
    """A question within a sentence."""
    return f"question {label}" if label else "it"


def publishing(election: Election, castings: Castings, *place: str) -> str:
    """The command that publishes a result at a place, with the casting votes if there are any. One
    that was published before keeps its holder and its day; those of others the secretary writes.
    """
    details = [act.detail for act in election.history().named("publish")]
    words = list[str]()
    for label, option in castings.items():
        holder = "WHO"
        day = "DATE"
        for detail in details:
            if detail["casting"].get(label) == option:
                holder = detail["words"]["cast_by"][label]
                day = detail["words"]["cast_on"][label]
        words += option_words("--casting", f"{label and f'{label}='}{option}")
        words += [*option_words("--cast-by", holder), "--cast-on", day]
    return election.command("publish", *words, *place)


def bad_casting(text: str, words: str, cure: str) -> Fault:
    where = f"--casting={shlex.quote(text)}"
    return Fault(where, words, cure, Status.CASTING_OUTSIDE)


def in_shell(names: Iterable[str]) -> str:
    return ", ".join(map(shlex.quote, names))
