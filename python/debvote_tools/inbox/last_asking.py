"""Whether the web box was asked lately enough, for all commands that need it.

What an asking brings is in `box_records.py`.
"""

import datetime

from debvote_tools.book import queries
from debvote_tools.book.book import Detail, DoneAct, from_text
from debvote_tools.call.box import list_digest
from debvote_tools.cli.console import act_time, count_of
from debvote_tools.cli.faults import Fault
from debvote_tools.election import BOX_PAGE, BOX_SCRIPT, Election, History
from debvote_tools.text.times import now

# how old an asking may be where ballots still come
FRESH = datetime.timedelta(minutes=10)

# the letters that have links to the page
WITH_LINKS = ("call", "reminders")
# what follows a close, and needs an asking after an early one
AFTER_CLOSE = ("count", "closed", "publish")
# the steps of a close at the end, and before it
CLOSES = ("close", "early")
# the steps that ask it themselves where it needs to be asked
ASKING = ("call", "closed", "count", *CLOSES)
# what needs an asking, as kinds of letters, a new address (`at`), a close at the end, one that is
# `early`, and what follows: why it stops, and what can be forced
FORCE = "with --force --because TEXT"
WITHOUT_PAGE = f"write letters that say that the page takes no ballots, {FORCE}"
CLOSE = f"close {FORCE} (the result page says so)"
NEEDS = {
    "call": (
        "nobody has seen yet whether the web box works, with page and links of now",
        WITHOUT_PAGE,
    ),
    "reminders": (
        "who voted by a click in the last ten minutes would be told that they have not",
        WITHOUT_PAGE,
    ),
    "at": ("ballots may lie on the page at the address of now", ""),
    "page": ("the page on the web host was not that of the call", CLOSE),
    "close": ("the web box was not asked since the end", CLOSE),
    "early": ("the web box has not answered just now", CLOSE),
} | dict.fromkeys(
    AFTER_CLOSE,
    ("the web box was not asked since the vote was closed early", f"go on {FORCE}"),
)


def last_box(history: History, at: str | None = None) -> Detail:
    """What the last asking noted, at this address if one is given; nothing if there was none."""
    boxes = [act.detail["box"] for act in history.askings]
    return next((box for box in reversed(boxes) if at in (None, box["at"])), {})


def has_list_of_now(election: Election, digest: str) -> bool:
    """Whether this is the digest of the electors in the script of now."""
    return digest == list_digest(queries.sealed(election.book, BOX_SCRIPT))


def has_page_of_now(election: Election, box: Detail) -> bool:
    """Whether an asking found the page of now, or was none, or after a publication."""
    page = queries.sealed(election.book, BOX_PAGE)
    return box.get("page") in (None, queries.first_act_that_sealed(election.book, BOX_PAGE, page))


def other_pages(history: History) -> dict[tuple[datetime.date, str], DoneAct]:
    """The first asking of each day on which one found a page that this book never made, and on
    which none came, since the first letter of the call was written; with the kind of doubt.
    """
    is_written = False
    days = dict[tuple[datetime.date, str], DoneAct]()
    for act in history.since_call("letters", "letters out"):
        is_written |= act.detail.get("kind") == "call"
        box = act.detail.get("box", {})
        if is_written and box.get("page") == 0:
            kind = "no page" if box.get("why_no_page") else "another page"
            days.setdefault((act.time.astimezone(history.zone).date(), kind), act)
    return days


def asked_last(election: Election, history: History) -> Detail | None:
    """What the box had when it was asked last, and whether it had list and page of now."""
    if not (box := last_box(history)):
        return None
    is_right = has_list_of_now(election, box["list"]) and has_page_of_now(election, box)
    is_present = is_right and box["at"] == history.announced("at")
    return {key: box[key] for key in ("time", "records", "behind")} | {"is_present": is_present}


def asked_words(history: History) -> list[str]:
    """What is told of the last asking; nothing of a vote without a box."""
    if box := last_box(history):
        records = count_of(box["records"], "record")
        time = act_time(history.askings[-1].time)
        return [f"Web box: {records} when it was asked last, {time}"]
    return ["Web box: not asked yet"] if history.announced("box") else []


def with_lost_records(election: Election, history: History) -> list[str]:
    """The electors by whose links a record came that nobody can open, and who have no later
    ballot.
    """
    came = last_box(history).get("lost", {})
    ballots = queries.ballots_of(election.book, came)
    return [
        name
        for name, time in sorted(came.items())
        if all(ballot.time <= from_text(time) for ballot in ballots.get(name, ()))
    ]


def is_unasked(history: History, since: datetime.datetime | None) -> bool:
    """Whether a box was not asked since a time, by both clocks, which have whole seconds."""
    if since is None or not history.announced("box"):
        return False
    last = [min(act.time, from_text(act.detail["box"]["time"])) for act in history.askings]
    return not last or last[-1] <= since


def is_unasked_since_end(history: History) -> bool:
    """Whether the box was not asked since the end, or since the first close if that was early."""
    if not history.closes:
        return False
    return is_unasked(
        history, history.closes[0].time if history.was_closed_early else history.until
    )


def since_when_early(election: Election, history: History) -> datetime.datetime:
    """Since when the box has to be asked before an early close, until which ballots come at any
    time: by this run, and lately by the clock of the host, too.
    """
    is_by_this_run = any(act.number in election.open_book.own_acts for act in history.askings[-1:])
    return now() - FRESH if is_by_this_run else now()


def unasked_fault(election: Election, history: History, what: str) -> Fault | None:
    """Why something has to wait until the box is asked; None if it need not."""
    closes = history.closes
    recently = now() - FRESH
    last = asked_last(election, history)
    # a letter has a link only if the host knows it
    needs_box = what in WITH_LINKS and history.announced("box")
    is_unseen = needs_box and not (last and last["is_present"])
    # a publication takes its place
    found_right = last_box(history).get("is_right", True)
    is_other = what in CLOSES and not (history.publications or found_right)
    is_right = not is_unseen and not is_other
    times = {
        "reminders": recently,
        # before the first asking no letter has a link to the page
        "at": recently if last else None,
        # what comes after the first close is late
        "close": None if closes else history.until,
        "early": None if closes else since_when_early(election, history),
        **dict.fromkeys(AFTER_CLOSE, closes[0].time if history.was_closed_early else None),
    }
    since = times.get(what)
    if is_right and not is_unasked(history, since):
        return None
    words, force = NEEDS["call" if is_unseen else "page" if is_other else what]
    if last and since and is_right and history.askings[-1].time > since:
        words += f": when the web box was asked last, it was only {act_time(from_text(last['time']))} by its own clock"
    cure = how_to_ask(election, what, force, is_right=is_right)
    return Fault(what if force == WITHOUT_PAGE else "--box", words, cure)


def how_to_ask(election: Election, what: str, force: str, *, is_right: bool) -> str:
    ask = "the command again" if what in ASKING else election.command("add", "--box")
    upload = "" if is_right else "upload the folder call, then "
    by_force = f"; if it does not answer any more, {force}" if force else ""
    return f"{upload}run {ask}{by_force}"
