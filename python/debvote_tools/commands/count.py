"""The command `count`, which prints the result sheet."""

from collections.abc import Collection, Mapping, Sequence

from debvote_tools.cli.arguments import Acting, flag, option
from debvote_tools.cli.console import tell, tell_as_it_is, tell_aside
from debvote_tools.cli.faults import bad_arguments, stop_at
from debvote_tools.election import Election
from debvote_tools.inbox.last_asking import asked_words
from debvote_tools.inbox.box_asking import ask_for
from debvote_tools.inbox.stopping import Pending, pending_letters, what_stops
from debvote_tools.outbox.steps import Step, next_line, what_next
from debvote_tools.poll.questions import Questions
from debvote_tools.result.casting import CASTING, castings_in, unneeded_words
from debvote_tools.result.kept_questions import decided_questions, demand_countable, sheet_of
from debvote_tools.sheet import Sheet


class Arguments(Acting):
    writes = False
    checks = True
    nothing = "counted"

    casting: list[str] | None = option(*CASTING, action="append")
    question: str | None = option("LABEL", "Of several questions count this one alone")
    sheets: bool = flag("Of several questions print the sheet of each, too")
    force: bool = flag(
        "Count although letters wait that arrived in time, or the web box was not asked since an early close"
    )


def count(election: Election, arguments: Arguments) -> int:
    """Print the result sheet; of several questions how each ends."""
    election.demand_right_book(arguments)
    questions = election.decided
    history = election.history()
    demand_countable(election, history)
    castings = castings_in(arguments.casting, questions)
    labels = labels_asked_for(questions, arguments.question)
    if history.is_closed and not arguments.force:
        ask_for(election, "count", tell_aside)
        history = election.history()
    pending = pending_letters(election, history) if history.is_closed else Pending()
    if not history.is_closed:
        tell_aside(*asked_words(history))
    elif not arguments.force:
        stop_at(what_stops(election, history, "count", pending).values())
    sheets = {
        label: sheet_of(election, kept, castings.get(label))
        for label, kept in decided_questions(election, history, labels).items()
    }
    tell_sheets(questions, sheets, arguments)
    tell_aside(*unneeded_words(castings, sheets))
    if pending.stopping:
        tell_aside(f"Note: {pending.why_they_stop}; they are in no count.")
    tell_next(election, sheets)
    return max(sheet.status for sheet in sheets.values())


def tell_sheets(questions: Questions, sheets: Mapping[str, Sheet], arguments: Arguments) -> None:
    """The sheet of one question, alone, so that it can go into a file; of several how each ends,
    and if they are asked for the sheets below, each with its label above it.
    """
    if arguments.question or not questions.is_several:
        tell_as_it_is(*(sheet.text for sheet in sheets.values()))
        return
    tell(*(f"{questions.titled(label)}: {sheet.last_line}" for label, sheet in sheets.items()))
    for label, sheet in sheets.items() if arguments.sheets else ():
        tell_as_it_is(f"Question {label}\n{sheet.text}")


def labels_asked_for(questions: Questions, label: str | None) -> Collection[str]:
    """The labels of all questions, or of that which is asked for. Stops if there is none."""
    if label is None:
        return questions
    label = label.upper()
    if not label or label not in questions:
        cure = f"name one of {', '.join(questions)}" if any(questions) else "leave it out"
        raise bad_arguments("--question", f"there is no question {label}", cure)
    return [label]


def tell_next(election: Election, sheets: Mapping[str, Sheet]) -> None:
    """What comes after these sheets, which show ties before they are published, and casting votes
    that the result does not have yet.
    """
    history = election.history()
    choices = choices_in(sheets)
    due = [
        one._replace(questions=choices) if one.step in (Step.PUBLISH, Step.TIE) else one
        for one in what_next(election, history)
        if one.step is not Step.COUNT
    ]
    first = "" if history.is_closed else "this is not the result yet; "
    tell_aside(next_line(election, due, first))


def choices_in(sheets: Mapping[str, Sheet]) -> dict[str, Sequence[str]]:
    """The options left at each question that is tied, or is not by a casting vote alone."""
    return {
        label: [sheet.names[option] for option in ([sheet.winner] if sheet.winner else sheet.left)]
        for label, sheet in sheets.items()
        if sheet.winner is None or sheet.is_by_casting
    }
