"""What is published of an election, collected from its book as facts, and the letter of a close."""

import collections
import datetime
import itertools
import urllib.parse
from collections.abc import Collection, Iterator, Mapping, Sequence
from typing import Any

from debvote_tools.book import queries
from debvote_tools.book.book import RESTORED, Book, DoneAct, as_text, from_text
from debvote_tools.call.call import current_call
from debvote_tools.call.tellers import (
    files_beside,
    kept_lists,
    last_ballots,
)
from debvote_tools.cli.console import demand_yes, in_runs, say, say_time, tell_aside
from debvote_tools.election import Election, History, fixed_by
from debvote_tools.files import sha256_of
from debvote_tools.grouping import grouped
from debvote_tools.inbox.last_asking import is_unasked_since_end, other_pages, with_lost_records
from debvote_tools.inbox.stopping import (
    BOX,
    LETTERS,
    LOST,
    Pending,
    letters_cure,
    what_stops,
)
from debvote_tools.result.casting import Castings, publishing
from debvote_tools.result.facts import Act, Doubt, PublishedWords, QuestionFacts, VoteFacts
from debvote_tools.result.file_names import CHECKSUMS
from debvote_tools.result.kept_questions import (
    KeptQuestion,
    decided_questions,
    demand_same_verdicts,
    sheet_of,
)
from debvote_tools.text.ballots import in_normal_form
from debvote_tools.text.language import language_of
from debvote_tools.text.rendering import render_letter
from debvote_tools.text.times import time_in_words


# ---- the facts
def vote_facts(
    election: Election, words: PublishedWords, pending: Pending, again: DoneAct | None
) -> VoteFacts:
    """The facts of the whole vote, of a new publication or of one that is made again."""
    history = election.history()
    book = election.book
    call = current_call(election, history)
    is_secret = call.questions.is_secret
    days = [election.called(history), *history.closes[:1]]
    return VoteFacts(
        questions=call.questions,
        language=election.language if words.language is None else language_of(words.language),
        words=words,
        days=[act.time.astimezone(history.zone).date() for act in days],
        acts=acts_of(book, history, again, is_secret=is_secret),
        labels_after_end=labels_after_end(book, history),
        desk_lines=desk_lines(book, history, again),
        closing_letter=closing_letter(election, history) if history.is_closed else None,
        real_names=call.real_names or {},
        doubts=[*doubts_of(election, history, words.castings, pending)],
        codes={elector.code for elector in queries.electors(book) if is_secret and elector.code},
        **facts_of_tellers(election, history),
        has_codes=call.has_codes_on_roll,
        at=call.at,
    )


def facts_of_tellers(election: Election, history: History) -> dict[str, Any]:
    """The facts of a vote in which tellers have opened the ballots."""
    if not (tellers := history.tellers):
        return {}
    ballots = last_ballots(election, history)
    handed_on = zip(tellers, history.handed_on)
    return {
        "numbers": {place: number for place, (number, _) in ballots.items()},
        "lists": kept_lists(election.book, history) | files_beside(tellers),
        "refused_by": {name: act.detail["refused"] for name, act in handed_on},
    }


def desk_lines(book: Book, history: History, again: DoneAct | None) -> Sequence[int]:
    """How many lines were entered at each desk, also of those that were struck since; nothing if no
    desk has a name.
    """
    acts = [act for act in history.since_call("desk") if again is None or act.number < again.number]
    undone = queries.undone_acts(book)
    by_name = collections.Counter[str]()
    for act in acts:
        if act.number not in undone:
            by_name[act.detail.get("desk", "")] += act.detail["lines"]
    return [*by_name.values()] if any(by_name) else ()


def question_facts(election: Election, vote: VoteFacts) -> list[QuestionFacts]:
    """The facts of each question. Stops if debvote does not find the ballots as they are kept."""
    history = election.history()
    questions = list[QuestionFacts]()
    for label, kept in decided_questions(election, history, election.questions).items():
        standing = election.debvote.standing(kept.poll.as_bytes(), kept.ballots)
        demand_same_verdicts(election, standing, kept.counted_answers)
        facts = QuestionFacts(vote, label, kept.public, len(kept.late), kept.late)
        if vote.questions.is_secret:
            facts = facts._replace(
                late=None,
                seal=fixed_by(history.closes[-1])[label].seal,
            )
        # what tellers have opened has no other sheet, and no other publication
        if vote.questions.is_secret and not history.tellers:
            facts = facts._replace(
                private=sheet_of(election, kept, facts.casting),
                compared=shown_by_comparison(election, history, label, kept),
            )
        questions.append(facts)
    return questions


def early_close(history: History) -> Doubt | None:
    """The doubt about a first close before the announced end; after it nobody could vote."""
    until = history.until
    if until is None or not history.was_closed_early:
        return None
    closed = history.closes[0].time.astimezone(history.zone)
    advice = say(
        "the vote was closed on {closed}, before its announced end, {until}",
        say_time(closed),
        say_time(until),
    )
    # `close --early` has agreed to it
    return Doubt("closed early", advice, {"closed": closed, "until": until}, stops=False)


def closing_letter(election: Election, history: History, template: str = "closed.txt") -> bytes:
    """The letter of the last close, with what it says of the one before; or `void.txt`, that nobody
    opens its list, since the vote is open again. In a secret vote the reason for which the vote was
    opened again stays in the log.
    """
    questions = election.sealed().public
    reasons = [act.detail["because"] for act in history.since_call("reopen")]
    closes = [(act.time.astimezone(history.zone), fixed_by(act)) for act in history.closes]
    return render_letter(
        __package__,
        template,
        election.language,
        questions=questions,
        close=history.closes[-1],
        closes=closes,
        until=history.until,
        early=early_close(history),
        tellers=history.tellers,
        # by mail: after a day to see it
        opened=closes[-1][0] + datetime.timedelta(days=1),
        address=urllib.parse.urljoin(history.announced("at") or "", "list-0.txt"),
        reasons=[] if questions.is_secret else reasons,
    ).encode()


def shown_by_comparison(
    election: Election, history: History, label: str, kept: KeptQuestion
) -> list[str]:
    """The electors of a secret vote whose ballots differ from those of the last publication: a
    comparison shows theirs alone.
    """
    earlier = history.named("publish")
    if not earlier:
        return []
    with election.book.question(label):
        before = queries.what_counts(election.book, at=earlier[-1].number)
    then, now = (
        {name: in_normal_form(ranks) for name, ranks in votes.items()}
        for votes in (before, kept.counted_answers)
    )
    return [name for name in election.questions.roll if then.get(name) != now.get(name)]


def doubts_of(
    election: Election, history: History, castings: Castings, pending: Pending
) -> Iterator[Doubt]:
    """The doubts that the book shows before the count."""
    stopping = what_stops(election, history, "publish", pending)
    if not history.is_closed:
        yield Doubt("not closed", "the vote is not closed; close it first")
    if early := early_close(history):
        yield early
    yield from doubts_of_box(election, history, stops=BOX in stopping)
    yield from other_castings(election, history, castings)
    if pending.untold:
        letters = ", ".join(map(str, pending.untold))
        # an earlier publication may have had it
        cure = letters_cure(election, "publish", is_closed=True)
        advice = f"these letters arrived in time, and wait: {letters}; {cure}"
        places = {"number": len(pending.untold), "letters": letters}
        yield Doubt(LETTERS, advice, places, stops=LETTERS in stopping)


def doubts_of_box(election: Election, history: History, *, stops: bool) -> Iterator[Doubt]:
    """The doubts about the web box; whether one that was not asked since the end stops."""
    if is_unasked_since_end(history):
        ask = election.command("add", "--box")
        advice = f"the web box was not asked since the end: run {ask}"
        # at the end `close --force` has agreed to it
        yield Doubt(BOX, advice, stops=stops)
    for (_, kind), act in other_pages(history).items():
        time = act.time.astimezone(history.zone)
        address = act.detail["box"]["at"]
        advice = f"on {time_in_words(time)} the web host had {kind} at {address}"
        yield Doubt(kind, advice, {"time": time, "address": address}, stops=False)
    if lost := with_lost_records(election, history):
        advice = f"nobody can open ballots that came by the links of {', '.join(lost)}, who have no later ones"
        # the close has agreed to it, or they came after the end
        yield Doubt(LOST, advice, {"number": len(lost)}, stops=False)


def other_castings(election: Election, history: History, castings: Castings) -> Iterator[Doubt]:
    """The doubts about earlier publications whose casting vote is for another option."""
    last = history.last_publication
    all_castings = {**(last.detail["casting"] if last else {}), **castings}
    for label, poll in election.decided.items():
        casting = castings.get(label)
        # without one: since the last close, after which it was the same tie
        acts = history.publications if casting is None else history.named("publish")
        for option in dict.fromkeys(act.detail["casting"].get(label, casting) for act in acts):
            if option != casting:
                name = poll.names[poll.plain_names.index(option)]
                again = publishing(election, {**all_castings, label: option})
                advice = (
                    f"an earlier publication has a casting vote for {name}; only one can be "
                    f"right, so find out which was given; the earlier one again: {again}"
                )
                yield Doubt("other casting vote", advice, {"option": name}, label=label)


# ---- what was done
def acts_of(book: Book, history: History, again: DoneAct | None, *, is_secret: bool) -> list[Act]:
    """What the pages tell, with its times in the zone in which the end was announced."""
    # the same book has to make the same pages before their own act and after it
    acts = [
        act._replace(time=act.time.astimezone(history.zone))
        for act in history.acts
        if act.name != "publish" or again is None or act.number < again.number
    ]
    told = list[Act]()
    for before, act in itertools.pairwise(acts):
        if act.went_back(before):
            told.append(Act(act.time, "clock", {"before": before.time}))
        told += acts_of_page(act, book, history, is_secret=is_secret)
    return told


def labels_after_end(book: Book, history: History) -> list[Collection[str]]:
    """Of each line that came after the end, and is in time, valid or not, the labels of the
    questions that it answers. Of a letter it came when that arrived. A line of a file or a desk
    that was entered after the first close is left out: whoever entered it said that it came before
    that close.
    """
    if history.until is None:
        return []
    first_close = history.closes[0].number if history.closes else history.last.number + 1
    after_end = queries.envelopes(book, queries.CAME_AFTER, as_text(history.until), first_close)
    return [envelope.by_question for envelope in after_end]


def acts_of_page(act: DoneAct, book: Book, history: History, *, is_secret: bool) -> Iterator[Act]:
    """What the pages say of an act, which is nothing for most acts. In a secret vote the reasons of
    `strike` and `reopen` stay in the log.
    """
    time = act.time
    detail = act.detail
    reason = None if is_secret else detail.get("because")
    match act.name:
        case "call" | "extend":
            yield from end_announced(act, history)
        case "take back":
            yield Act(time, "taken back")
        case "addresses":
            yield Act(time, "roll changed", {"number": detail["electors"]})
        case "strike" | "undo":
            yield from taken_out(act, book, reason, is_secret=is_secret)
        case "close":
            yield Act(time, "closed", close_of(act, book, history), detail.get("because"))
        case "reopen":
            yield Act(time, "reopened", because=reason)
        case "publish" if history.call and act.number > history.call.number:
            checksum = detail["checksums"][CHECKSUMS]
            ended = [*detail.get("ended", {}).items()]
            yield Act(time, "published", {"checksum": checksum, "ended": ended})
        case "moved":
            yield moved(act, history)
    if detail.get("keyring"):
        yield Act(time, "keyring")


def end_announced(act: DoneAct, history: History) -> Iterator[Act]:
    """A call, with the end that it says, or an act that says another end."""
    until = act.detail.get("until")
    places = {"until": from_text(until).astimezone(history.zone)} if until else {}
    if act.name == "call":
        yield Act(act.time, "called until" if until else "called", places)
    elif until:
        *_, before = (earlier for earlier in history.timing if earlier.number < act.number)
        yield Act(act.time, "extended" if before.detail.get("until") else "end said", places)


def taken_out(act: DoneAct, book: Book, reason: str | None, *, is_secret: bool) -> Iterator[Act]:
    """The lines that an act took out: each of a `strike`, and of an `undo` those that did not come
    again.
    """
    if act.name == "strike":
        for envelope in queries.envelopes(book, "struck = ?", act.number):
            done = "struck in secret" if is_secret else "struck"
            places = {"envelope": envelope.number}
            yield Act(act.time, done, places, reason, envelope.by_question)
    elif lost := [envelope for envelope in queries.lost(book) if envelope.struck == act.number]:
        done = "taken back in secret" if is_secret else "lines taken back"
        by_label = grouped(
            (label, envelope.number) for envelope in lost for label in envelope.by_question
        )
        numbers = {
            "envelopes": {label: in_runs(numbers) for label, numbers in by_label.items()},
            "number": {label: len(numbers) for label, numbers in by_label.items()},
        }
        yield Act(act.time, done, numbers, labels=by_label.keys())


def moved(act: DoneAct, history: History) -> Act:
    """What the pages say of a book with which the secretary went on elsewhere: they tell as
    restored only what the secretary says is.
    """
    detail = act.detail
    noted = detail["noted"]
    there = detail["there"]["act"]
    if detail["why"] == RESTORED:
        done = "restored"
    elif noted is None:
        done = "moved from afar"
    elif noted["act"] <= there and history.act(noted["act"]).digest != noted["digest"]:
        done = "moved to others"
    else:
        done = "moved"
    return Act(act.time, done, {"noted": noted and noted["act"], "there": there}, detail["because"])


def close_of(act: DoneAct, book: Book, history: History) -> dict[str, Any]:
    """What a close says, and how many lines in time came in or were taken out since the one
    before.
    """
    fixed = fixed_by(act).items()
    places: dict[str, Any] = {
        "lines": {label: of_question.lines for label, of_question in fixed},
        "checksum": {label: of_question.checksum for label, of_question in fixed},
        "came": None,
        "struck": None,
        "replaced": act.detail.get("replaced_in_time"),
    }
    places |= {key: act.detail[key] for key in ("early", "waiting", "after_end")}
    earlier = [close.number for close in history.closes if close.number < act.number]
    between = "NOT late AND {0} > ? AND {0} < ?"
    for place, column in (("came", "act"), ("struck", "struck")) if earlier else ():
        places[place] = {
            label: len(queries.lines(book, between.format(column), earlier[-1], act.number))
            for label in queries.each_question_alone(book)
        }
    return places


# ---- texts that a secret vote makes public
def agreed_texts(history: History, texts: Mapping[str, str], *, is_agreed: bool) -> list[str]:
    """The checksums of the texts that are new, for the act that makes them public. Shows these,
    with where each is from, which two acts of one second share; and asks about them once, unless
    the command line agrees.
    """
    known = {checksum for act in history.acts for checksum in act.detail.get("agreed", ())}
    new = {
        text: checksum
        for text in texts
        if text.strip() and (checksum := sha256_of(text.encode())) not in known
    }
    if new and not is_agreed:
        for text in new:
            tell_aside(f"{texts[text]}:", *(f"  {line}" for line in text.strip().split("\n")))
        demand_yes(say("May everybody read this?"), "these texts may tell who voted what")
    return list(new.values())
