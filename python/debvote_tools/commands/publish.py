"""The command `publish`, which makes the folder of the result."""

import datetime
import functools
import pathlib
from collections.abc import Iterable, Mapping

from debvote_tools.book import queries
from debvote_tools.book.book import Detail, DoneAct, Overtaken
from debvote_tools.book.change import Change
from debvote_tools.call.box import SCRIPT, records_file
from debvote_tools.call.draft import texts_of
from debvote_tools.cli.arguments import Acting, demand_reason, flag, option, positional
from debvote_tools.cli.console import act_time, demand_yes, odd_sign, say, tell, tell_aside
from debvote_tools.cli.faults import Fault, bad_arguments, kept_in, stop_at
from debvote_tools.election import (
    BOX_KEY,
    CALL,
    LETTERS,
    PRIVATE,
    RESULT,
    RESULT_LETTER,
    Election,
    History,
)
from debvote_tools.files import (
    OWN,
    NewFolder,
    folder_beside,
    left_beside,
    locked,
    read_text,
    real_place,
    sha256_of,
    uninterrupted,
    write_made,
)
from debvote_tools.inbox.stopping import Pending, pending_letters
from debvote_tools.outbox.steps import tell_next
from debvote_tools.poll.questions import Questions
from debvote_tools.result import folder, publication
from debvote_tools.result.casting import (
    CASTING,
    Castings,
    castings_in,
    unneeded_words,
)
from debvote_tools.result.data import outcome_as_data
from debvote_tools.result.facts import Outcome, PublishedWords, QuestionFacts, VoteFacts
from debvote_tools.result.file_names import BALLOTS, CHECKSUMS, PAGE, POLL
from debvote_tools.result.kept_questions import demand_countable
from debvote_tools.result.places import is_free, is_publication, other_place
from debvote_tools.text import times
from debvote_tools.text.language import LANGUAGES

# of the text for the page in bytes, and of the name of who gave the casting vote in characters
TEXT_LIMIT = 65_536
NAME_LIMIT = 200

# the files whose checksums the act keeps, of each question and above several
NAMED = (POLL, BALLOTS, PAGE, CHECKSUMS)

# the name is between quotation marks, so that nothing in it reads as words of the program
REFUSED_IN_NAME = '"\u201c\u201d\u201e\u201f\u2033\uff02\u00ab\u00bb'


class Arguments(Acting):
    checks = True
    nothing = "published"

    casting: list[str] | None = option(*CASTING, action="append")
    cast_by: list[str] | None = option(
        "NAME",
        "Who had the casting vote; the page says so in your name. "
        "Of several give it once for all, or once for each, in the order of their options --casting",
        action="append",
    )
    cast_on: list[str] | None = option(
        "DATE",
        "The day of the casting vote, as 2026-12-05. Of several give it once for all, or once for each",
        action="append",
    )
    about: str | None = option(
        "FILE", "A plain text file in UTF-8 for the page: who certifies the result, and when"
    )
    language: str | None = option(
        "CODE",
        "The language of page and letter: de, en, es or fr (default: that of the election)",
        choices=sorted(LANGUAGES),
    )
    force: bool = flag(
        "With --because: publish although there are doubts; the page gives the doubts and the reason. "
        "Without other options: publish it once more although it differs from the last time"
    )
    yes: bool = flag(
        "In a secret vote: answer yes when asked whether the texts, or a comparison of two results, may be published"
    )
    target: str | None = positional(
        "FOLDER",
        "The folder to make, in place of an earlier one (default: the folder result of the election)",
        nargs="?",
    )


def publish(election: Election, arguments: Arguments) -> int:
    """Make the folder of the result for a web site; without options, make the last one again."""
    election.demand_right_book(arguments)
    history = election.history()
    demand_countable(election, history)
    target = pathlib.Path(arguments.target or election.path(RESULT))
    given = published_words(arguments, election.decided, election.called(history))
    demand_place(election, target, history)
    last = history.last_publication
    is_bare = given == PublishedWords(is_forced=arguments.force)
    words = PublishedWords(**last.detail["words"]) if last and is_bare else given
    again = last if last and words._asdict() == last.detail["words"] else None
    make = functools.partial(published_in_place, election, arguments, target, words, again)
    is_new = again is None
    try:
        filled = make(is_new=is_new)
    except WouldDiffer:
        if is_bare and not arguments.force:
            raise
        # the new publication tells the last one as an earlier one
        is_new = True
        filled = make(is_new=is_new)
    tell_published(election, filled.outcomes, target, is_new=is_new)
    sheets = {label: outcome.sheet for label, outcome in filled.outcomes.items()}
    tell_aside(*unneeded_words(words.castings, sheets))
    return max(sheet.status for sheet in sheets.values())


def published_in_place(
    election: Election,
    arguments: Arguments,
    target: pathlib.Path,
    words: PublishedWords,
    again: DoneAct | None,
    *,
    is_new: bool,
) -> folder.Filled:
    """The folder in its place: as a publication of its own, which is an act; or as it was published
    last, with the same words. Raises `WouldDiffer` if it would be another one now.
    """
    history = election.history()
    pending = pending_letters(election, history) if history.is_closed else Pending()
    vote = publication.vote_facts(election, words, pending, None if is_new else again)
    questions = publication.question_facts(election, vote)
    # the folder is whole and counted before the act, and takes its place after the act: so a kill
    # leaves no folder that the book does not know
    with folder_beside(target, folder.BESIDE_PLACE) as new:
        filled = folder.filled(
            new.folder,
            vote,
            questions,
            election.program_folder,
            is_forced=bool(arguments.force and arguments.because),
            known=again.detail["doubts"] if again else (),
        )
        detail = detail_of(words, filled, pending)
        if again and not is_new and dict(detail, agreed=0) != dict(again.detail, agreed=0):
            differs = f"made again, the result would differ from the one that was published (act {again.number})"
            why = (
                "another version of a program makes it, or more was done since that the page tells"
            )
            cure = "leave it as it is; or publish it once more, with a letter of its own: --force"
            raise WouldDiffer(None, f"{differs}: {why}", cure)
        # nobody is asked about a result that cannot be published
        if agreed := agreed_in_secret(history, vote, questions, is_agreed=arguments.yes):
            detail["agreed"] = agreed
        put_in_place(election, history, new, filled.letter, target, detail if is_new else None)
    return filled


def detail_of(words: PublishedWords, filled: folder.Filled, pending: Pending) -> Detail:
    """The detail of the act: how each question ended, with the casting votes that decide, and the
    checksums that letters name.
    """
    outcomes = filled.outcomes.items()
    detail = {
        "words": words._asdict(),
        "casting": {
            label: words.castings[label]
            for label, outcome in outcomes
            if outcome.sheet.is_by_casting
        },
        "ended": {
            label: outcome_as_data(outcome.sheet)
            | {"sheet": sha256_of(outcome.sheet.text.encode())}
            for label, outcome in outcomes
        },
        "checksums": {
            place: checksum for place, checksum in filled.checksums.items() if place.endswith(NAMED)
        },
        "doubts": [doubt.as_data() for doubt in filled.doubts],
    }
    return detail | ({"left": pending.arrived_in_time} if pending.arrived_in_time else {})


def put_in_place(
    election: Election,
    history: History,
    new: NewFolder,
    letter: bytes,
    target: pathlib.Path,
    detail: Detail | None,
) -> None:
    """The act, if this is a publication of its own, and the folder in its place."""
    try:
        # no other publication comes between the act and the folder that takes its place
        with locked(election.folder, is_directory=True), uninterrupted():
            if detail is not None:
                sealed = {f"{LETTERS}/{RESULT_LETTER}": letter}
                Change("publish", detail, sealed=sealed).do(election.book, history.last.number)
            elif election.book.last_number() != history.last.number:
                raise Overtaken
            new.is_in_book = True
            new.take_place(target)
            write_made(election.path(LETTERS), {RESULT_LETTER: letter}, OWN)
    except BlockingIOError:
        raise Fault(
            None,
            "another command is publishing this election now",
            "run the command again when it is done",
        ) from None


def tell_published(
    election: Election, outcomes: Mapping[str, Outcome], target: pathlib.Path, *, is_new: bool
) -> None:
    """Tells what was published, writes its letters, and tells what comes next."""
    as_before = f", {say('as it was published before; nothing was changed in the book')}"
    for label, outcome in outcomes.items():
        tell(f"{label and f'{label}: '}{outcome.sheet.last_line}", outcome.verified)
    tell(f"{say('Made the folder {folder}', target)}{'' if is_new else as_before}.")
    history = election.history()
    if history.is_closed and history.announced("at"):
        # what writes letters takes a while to be imported
        from debvote_tools.commands.letters import write_ready

        tell(*write_ready(election, "result"))
    # before the close people still vote where the page of the vote is
    if history.is_closed and history.announced("box"):
        tell(
            f"Where it takes the place of the page, remove {SCRIPT} and {records_file(queries.sealed(election.book, BOX_KEY))}."
        )
    tell_next(election)


def demand_place(election: Election, target_folder: pathlib.Path, history: History) -> None:
    """Stops unless the place is free, or has what was published last: an earlier result, or that of
    another election, stays. After a run that was killed, its folder is beside the place, which has
    what was published before. The folders of the call, the letters and the codes are no place for
    it.
    """
    place = real_place(target_folder)
    folder.demand_outside(target_folder)
    election.demand_outside(target_folder, CALL, LETTERS, PRIVATE)
    if is_free(place):
        return
    sums = [act.detail["checksums"][CHECKSUMS] for act in history.publications][-2:]
    killed = left_beside(place, folder.BESIDE_PLACE)
    if not any(is_publication(beside, sum) for sum in sums[-1:] for beside in killed):
        sums = sums[-1:]
    if any(is_publication(place, sum) for sum in sums):
        return
    raise folder.in_use(
        target_folder,
        "what this election has published last, since its last close",
        f"name another folder, as {other_place(target_folder)}: no result is replaced by a later one",
    )


class WouldDiffer(Fault):
    """Made again, a result would be another one than was published."""


# ---- words of those who publish
def published_words(arguments: Arguments, questions: Questions, call: DoneAct) -> PublishedWords:
    """What the command line says, checked. Stops at all that is wrong."""
    faults = list[Fault]()
    castings: Castings = {}
    reason = arguments.because if arguments.force else None
    about = None
    holders, days = holders_and_days(arguments, call, faults)
    with kept_in(faults):
        if reason is not None:
            reason = demand_reason(reason, "--force", has_paragraphs=True)
    with kept_in(faults):
        if arguments.about is not None:
            about = read_text(
                arguments.about,
                TEXT_LIMIT,
                "give a file that you may read with --about",
                "write it, or leave --about out",
                may_wait=True,
            )
    with kept_in(faults):
        castings = castings_in(arguments.casting, questions)
    stop_at(faults)
    return PublishedWords(
        castings=castings,
        cast_by=dict(zip(castings, holders)),
        cast_on=dict(zip(castings, days)),
        about=about,
        is_forced=arguments.force,
        because=reason,
        language=arguments.language,
    )


def holders_and_days(
    arguments: Arguments, call: DoneAct, faults: list[Fault]
) -> tuple[list[str], list[str]]:
    """Whose each casting vote was, and when it was given. Adds what is wrong to the faults."""
    number = len(arguments.casting or ())
    holders = arguments.cast_by or []
    days = arguments.cast_on or []
    if number and not (holders and days):
        words = "the page must say whose casting vote it was, and when it was given"
        cure = 'say it with --cast-by "NAME" --cast-on 2026-12-05'
        faults.append(bad_arguments("--casting", words, cure))
    with kept_in(faults):
        holders = [*map(holder_in, given_for_each(number, "--cast-by", holders))]
    with kept_in(faults):
        days = [day_in(day, call) for day in given_for_each(number, "--cast-on", days)]
    return holders, days


def given_for_each(number: int, option: str, given: list[str]) -> list[str]:
    """What an option says of each of so many casting votes, in their order; given once, it holds
    for all. Stops if it is given another number of times.
    """
    if given and not number:
        raise bad_arguments(
            option, "it describes the casting vote of --casting", "give --casting too"
        )
    if len(given) not in (0, 1, number):
        raise bad_arguments(
            option,
            f"{len(given)} are given, and of --casting {number}",
            "give it once for all, or once for each --casting, in their order",
        )
    return given * number if len(given) == 1 else given


def holder_in(by: str) -> str:
    """The holder of a casting vote."""
    if not by.strip() or odd_sign(by, refused=REFUSED_IN_NAME) is not None or len(by) > NAME_LIMIT:
        raise bad_arguments(
            "--cast-by",
            f"it must be a name on one line, of at most {NAME_LIMIT} characters, without quotation marks",
            "write it again",
        )
    return by.strip()


def day_in(on: str, call: DoneAct) -> str:
    """The day of a casting vote, from that of the call on, by the zone of this computer."""
    try:
        day = datetime.date.fromisoformat(on)
    except ValueError:
        raise bad_arguments("--cast-on", f"`{on}` is not a day", "write it as 2026-12-05") from None
    days = [time.astimezone().date() for time in (call.time, times.now())]
    if not days[0] <= day <= days[1]:
        where = "in the future" if day > days[1] else f"before the call, which was on {days[0]}"
        raise bad_arguments("--cast-on", f"{day} is {where}", "write the day on which it was given")
    return day.isoformat()


def agreed_in_secret(
    history: History, vote: VoteFacts, questions: Iterable[QuestionFacts], *, is_agreed: bool
) -> list[str]:
    """Asks before a secret vote is published, once for all questions: about texts that are new, by
    where they are from, and about what two results would show.
    """
    if not vote.questions.is_secret:
        return []
    words = vote.words
    texts = texts_of(vote.questions)
    texts |= {words.about or "": "--about", words.because or "": "--because"}
    texts |= {
        by: f"--cast-by{label and f' of question {label}'}" for label, by in words.cast_by.items()
    }
    texts |= {
        act.because or "": f"the reason for the act of {act_time(act.time)}" for act in vote.acts
    }
    agreed = publication.agreed_texts(history, texts, is_agreed=is_agreed)
    compared = dict.fromkeys(name for facts in questions for name in facts.compared)
    if compared and not is_agreed:
        why = f"{say('a comparison with the earlier result shows how these voted')}: {', '.join(compared)}"
        demand_yes(say("Publish it, although {why}?", why), why)
    return agreed
