"""What the page of a desk shows of the ballot that is typed there."""

from collections.abc import Sequence

from debvote_tools.book import queries
from debvote_tools.cli.console import asked_for, say
from debvote_tools.election import Election
from debvote_tools.inbox.entering import late_notes
from debvote_tools.inbox.vote import Vote
from debvote_tools.inbox.vote_words import ballot_in_words
from debvote_tools.office.runs import Run
from debvote_tools.office.views import Values
from debvote_tools.office.visit import Form, first
from debvote_tools.poll.questions import Questions
from debvote_tools.text.ballots import NUMBERS, UNRANKED, Ballot, ballot_of


def desk_of(election: Election, run: Run | None) -> Values:
    """The form of a ballot, and what the process of the desk says of the one that was typed
    last.
    """
    vote = Vote(election)
    prompt = run.prompt if run else None
    said: Sequence[str] = run.lines if run else ()
    typed = None
    if run and run.ballot and prompt and prompt.kind != "ballot":
        # who types it sees it
        with asked_for(True):
            typed, said = drawn_in(vote, said, Ballot(run.ballot))
    return {
        "vote": vote,
        "electors": [] if vote.has_codes else queries.electors(election.book),
        "notes": list(late_notes(election, election.history(), say("what is entered"))),
        "prompt": prompt,
        "said_lines": said,
        "typed": typed,
        "in_order": in_order,
    }


def drawn_in(vote: Vote, said: Sequence[str], typed: Ballot) -> tuple[Ballot | None, Sequence[str]]:
    """A ballot as the page draws it, with the name that its desk has found, and what else the desk
    says; no ballot unless it says just this one.
    """
    ranks = {label: given for label, given in typed.ranks.items() if label in vote.questions}
    if ranks and all(in_order(vote.questions[label].names, ranks[label]) for label in ranks):
        for name in dict.fromkeys(line.partition(":")[0] for line in said):
            ballot = ballot_of(name, ranks)
            words = ballot_in_words(vote, ballot).split("\n")
            if set(words) <= set(said):
                return ballot, [line for line in said if line not in words]
    return None, said


def in_order(names: Sequence[str], ranks: str) -> list[tuple[str, str]]:
    """Ranks and options, the best first; `-` is last. Nothing if it is no ballot."""
    given = ranks.split(",")
    if len(given) != len(names) or not all(rank in NUMBERS for rank in given):
        return []
    return sorted(zip(given, names), key=lambda row: NUMBERS[row[0]])


def line_of(questions: Questions, form: Form) -> str:
    """The line of a ballot from its fields, as it is typed at a terminal."""
    name = first(form, "name").strip()
    # a label is no part of a name that is not the whole one on the roll
    colon = ":" if questions.is_several and name not in questions.roll else ""
    parts = [f"{name}{colon}"]
    for label, poll in questions.items():
        ranks = first(form, f"ranks{label}").strip()
        chosen = [first(form, f"{label}-{n}") for n in range(1, len(poll.names) + 1)]
        if not ranks and any(chosen):
            ranks = ",".join(rank or UNRANKED for rank in chosen)
        if ranks:
            parts += [label, ranks] if label else [ranks]
    return " ".join(parts)
