"""What the pages show of the whole election: read anew for each, as commands find it."""

import datetime
import pathlib
from collections.abc import Mapping, Sequence
from typing import Any

from debvote_tools.book import queries
from debvote_tools.call.tellers import SLIPS_TYPED
from debvote_tools.cli.console import shown_text
from debvote_tools.commands import status
from debvote_tools.commands.check import SLIP
from debvote_tools.commands.codes import SLIPS
from debvote_tools.election import LETTERS, PRIVATE, URN, Election, History
from debvote_tools.inbox.urn import words_before_close
from debvote_tools.outbox import steps
from debvote_tools.outbox.letter_folder import TO_PRINT
from debvote_tools.poll.plain_names import alike
from debvote_tools.poll.questions import place_of
from debvote_tools.result.facts import PublishedWords
from debvote_tools.result.file_names import SHEET
from debvote_tools.result.page import named_in_html
from debvote_tools.result.places import is_free, other_place
from debvote_tools.result.why import Why
from debvote_tools.sheet import sheet_in
from debvote_tools.text import times

Values = dict[str, Any]

# a folder with what a call would send, and what of it is looked at
PREVIEW = "preview"
PREVIEWED = ("index.html", "letter.txt", TO_PRINT, SLIP)
# how many electors or letters are on a page
ROWS = 100


def state_of(election: Election) -> Values:
    """What `status` says, and what comes next."""
    with election.book.snapshot():
        history = election.history()
        counted_answers = queries.what_counts(election.book)
        # letters are judged once: of many that takes longest
        now = steps.Now(election, history)
        state = status.state_of(election, history, counted_answers, now.pending)
        questions = election.questions if history.call else None
        if questions and questions.is_several:
            has_late = bool(state["late"])
            state["questions"] = status.questions_in(election, history, has_late=has_late)
        dues = steps.due_now(now)
    return {
        "state": state,
        "history": history,
        "questions": questions,
        "steps": steps,
        "is_early": history.ends_after(times.now()),
        "results": results_of(election, history),
        "dues": dues,
        "notes": list(words_before_close(election, history)),
        "prints": prints_of(election),
        "previews_of": previews_of,
        "next_preview": next_preview(election),
    }


# ---- what was published
def published(election: Election, history: History) -> pathlib.Path | None:
    """The folder of what was published last, if it is as it was then; None if there is none, or the
    vote was opened again.
    """
    return steps.published_place(election, history) if history.stage == "published" else None


def results_of(election: Election, history: History) -> list[tuple[Any, ...]]:
    """How each question ended by what was published last, as the page of the result draws it."""
    place = published(election, history)
    if place is None:
        return []
    assert history.last_publication
    words = PublishedWords(**history.last_publication.detail["words"])
    results = list[tuple[Any, ...]]()
    for label, poll in election.decided.items():
        sheet = sheet_in((place / place_of(label, SHEET)).read_text("utf-8"))
        day = words.cast_on.get(label)
        facts = {
            "label": label,
            "vote": {"words": words},
            "cast_day": day and datetime.date.fromisoformat(day),
        }
        why = Why(sheet, named_in_html(poll))
        results.append((label, poll, sheet, why, facts))
    return results


# ---- what is to be printed
def prints_of(election: Election) -> list[str]:
    """What letters and codes have made to be printed, by their places in the folder; and what
    tellers and meeting get of a close that holds.
    """
    files = [
        *sorted(election.path(LETTERS).glob(f"*/*/{TO_PRINT}")),
        election.path(PRIVATE) / SLIPS,
    ]
    if election.history().is_closed:
        files += [election.path(SLIPS_TYPED), *sorted(election.path(URN).glob("*.txt"))]
    return [str(file.relative_to(election.folder)) for file in files if file.is_file()]


def previews_of(election: Election) -> Mapping[str, str]:
    """What the last preview has made, by its names."""
    folders = sorted(election.folder.glob(f"{PREVIEW}*"), key=lambda one: one.stat().st_mtime)
    return {
        name: f"{folder.name}/{name}"
        for folder in folders[-1:]
        for name in PREVIEWED
        if (folder / name).is_file()
    }


def next_preview(election: Election) -> str:
    place = election.path(PREVIEW)
    return PREVIEW if is_free(place) else other_place(place).name


# ---- the roll
def roll_of(election: Election, find: str, page: int) -> Values:
    """The electors, or those whose name or address has these words."""
    status.demand_names(election)
    words = [alike(word) for word in find.split()]
    found = [elector for elector in queries.electors(election.book) if is_found(elector, words)]
    return {
        **paged(found, page),
        "has_voted": queries.what_counts(election.book).keys(),
        "shown_text": shown_text,
    }


def is_found(elector: queries.Elector, words: Sequence[str]) -> bool:
    text = alike(f"{elector.name} {elector.who} {' '.join(elector.addresses)}")
    return all(word in text for word in words)


def paged(rows: Sequence[Any], page: int) -> Values:
    """The rows of a page, from 1, how many pages there are, and how many rows."""
    pages = max(1, -(-len(rows) // ROWS))
    page = min(max(1, page), pages)
    rows_here = rows[(page - 1) * ROWS : page * ROWS]
    return {"rows": rows_here, "page": page, "pages": pages, "number": len(rows)}
