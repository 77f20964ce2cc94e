"""The command `check`, and what is checked of a draft before anything is sealed."""

import dataclasses
import itertools
import operator
import pathlib
import re
from collections.abc import Iterator, Mapping, Sequence
from typing import TYPE_CHECKING, NamedTuple

from debvote_tools.book import queries
from debvote_tools.book.book import Book
from debvote_tools.call.draft import (
    BY_EDITOR,
    LONGEST_LINE,
    THEN,
    DraftPoll,
    bad_poll,
    draft_in,
    faults_of_lacking,
    faults_of_names,
    faults_of_several,
    labels_in,
    letter_text_in,
    sealed_form,
    texts_of,
    title_in,
)
from debvote_tools.call.members import AGAIN, Roll, label_of, roll_of
from debvote_tools.call.tellers import fingerprints, for_tellers, tellers_in
from debvote_tools.cli.arguments import Options, option
from debvote_tools.cli.console import count_of, listed, quorum_words, say, shown_text, tell, wrapped
from debvote_tools.cli.faults import Fault, bad_arguments, kept_in, stop_at
from debvote_tools.commands.export import demand_new
from debvote_tools.election import (
    LETTER_TEXT,
    MEMBERS_FILE,
    POLLS,
    TELLERS,
    TEXTS,
    Election,
    History,
    Sealed,
)
from debvote_tools.files import OWN, TABLE_LIMIT, read_whole, write_made
from debvote_tools.inbox.letter_text import reading_of
from debvote_tools.inbox.lines import names_of
from debvote_tools.outbox.steps import Step, tell_next
from debvote_tools.poll.questions import POLL_FILE, TITLE_FILE, Questions, place_of, read_questions
from debvote_tools.poll.sealed import SealedPoll
from debvote_tools.sheet import sheet_in
from debvote_tools.text.language import Language
from debvote_tools.text.motions import with_ranks

if TYPE_CHECKING:
    # what makes pages takes a while to be imported
    from debvote_tools.call.call import CallData

# what debvote says of a key that no poll has
NOT_READ = "is not read"
# of a preview of a secret vote
SLIP = "slip.html"
# how many electors a note names
MAX_NAMED = 200
# a real name that ends in a letter, or is one, which may be read as a label
LIKE_LABEL = re.compile(r"(?<!\w)[^\W\d_]\W*$")


class Arguments(Options):
    preview: str | None = option(
        "FOLDER",
        "Make this folder, with page and letters as the call would make them, and in a secret vote a slip",
    )


def check(election: Election, arguments: Arguments) -> None:
    """Check the poll: list everything that is wrong with it, or show what is voted on."""
    history = election.history()
    if history.call is not None:
        sealed = "poll, and poll.toml is"
        if election.questions.is_several:
            sealed = "polls, and polls/ is"
        tell(f"The call has sealed the {sealed} no longer read.")
        tell_next(election)
        return
    draft = checked(election)
    questions = draft.questions
    electors = len(questions.roll)
    if questions.is_several:
        tell(
            say(
                "The polls are in order: {questions} questions, {electors} electors.",
                len(questions),
                electors,
            )
        )
    else:
        tell(
            say(
                "The poll is in order: {options} options, {electors} electors.",
                len(questions[""].names),
                electors,
            )
        )
    tell_checked(draft)
    if tellers := tellers_in(election):
        tell(f"Tellers, in the order in which they open: {fingerprints(tellers)}")
    tell(*notes_on(election, draft))
    if arguments.preview is not None:
        preview(election, draft, pathlib.Path(arguments.preview))
    for label, poll in questions.items():
        tell(f"{label and f'{label}: '}{quorum_words(poll.quorum, draft.quorums[label])}")
    if not history.has_codes_on_roll:
        tell(f"{say('Electors')}: {electors}", wrapped(questions.roll))
    tell_next(election, Step.CHECK)


# ---- asking debvote
class Checked(NamedTuple):
    """What a call would seal, how many votes the quorum of each question is, and whether it is
    about a secret vote in which not all electors have codes.
    """

    questions: Questions
    quorums: Mapping[str, int]
    letter_text: str
    lacks_codes: bool


def checked(election: Election, **announced: object) -> Checked:
    """Checks the polls and all texts. Raises all faults at once. The polls are sealed with what is
    announced, as `sealed_form` has it.
    """
    roll = [elector.name for elector in queries.electors(election.book)]
    faults = list[Fault]()
    drafts = drafts_in(election, roll, faults)
    title = letter_text = ""
    with kept_in(faults):
        title = "" if "" in drafts else title_in(election.folder)
    if not roll:
        cure = f"run {election.command('roll')} first"
        faults.append(Fault(None, "there are no electors yet", cure, done=None))
    with kept_in(faults):
        letter_text = letter_text_in(election.folder)
    polls = {
        label: sealed_form(draft, roll or ["nobody"], election.language.code, **announced)
        for label, draft in drafts.items()
    }
    for label, draft in drafts.items():
        faults += faults_of_poll(election, draft, polls[label])
    stop_at(faults)
    motions = [label for label, draft in drafts.items() if draft.says("motion")]
    questions = read_questions(polls, motions, title)
    return checked_by_debvote(election, questions, polls, letter_text)


def checked_by_debvote(
    election: Election, questions: Questions, polls: Mapping[str, bytes], letter_text: str
) -> Checked:
    """What a call would seal of polls that are in order, with what debvote says of each."""
    quorums = {
        label: sheet_in(election.debvote.answer("count", poll).text).quorum
        for label, poll in polls.items()
    }
    stop_at(faults_of_ballots(election, questions, letter_text))
    electors = queries.electors(election.book)
    has_codes = election.history().has_codes_on_roll or all(elector.code for elector in electors)
    needs_codes = questions.is_secret and not election.path(TELLERS).exists()
    return Checked(questions, quorums, letter_text, needs_codes and not has_codes)


def drafts_in(election: Election, roll: Sequence[str], faults: list[Fault]) -> dict[str, DraftPoll]:
    """The drafts of the polls, by their labels."""
    drafts = {label: draft_in(election, label) for label in labels_in(election.folder)}
    for draft in drafts.values():
        faults += [*draft.faults, *faults_of_names(draft, roll, election.language.code)]
    if "" not in drafts:
        with kept_in(faults):
            faults += faults_of_several(election, drafts)
    return drafts


def faults_of_poll(election: Election, draft: DraftPoll, poll_bytes: bytes) -> Iterator[Fault]:
    """What a poll lacks, and what debvote says of it; of a poll that lacks something only which
    keys no poll has: the key that it lacks may be there, misspelt.
    """
    lacking = faults_of_lacking(draft)
    yield from lacking
    for fault in faults_by_debvote(election, draft.file, poll_bytes):
        if not lacking or NOT_READ in fault.words:
            yield fault


def faults_by_debvote(election: Election, file: pathlib.Path, poll_bytes: bytes) -> Iterator[Fault]:
    answer = election.debvote.run("explain", "--poll", "/dev/stdin", given=poll_bytes)
    if not answer.text:
        reason = answer.refusal or f"debvote ended with status {answer.status}"
        yield Fault(file, reason, f"run {election.command('check')} again", answer.status, None)
    for line in answer.text.splitlines():
        if line.startswith("poll: "):
            yield bad_poll(file, line.removeprefix("poll: "), BY_EDITOR)


# ---- what a call would send
def preview(election: Election, draft: Checked, folder: pathlib.Path) -> None:
    """Makes what the call would send of a draft, without own marks, links and end."""
    from debvote_tools.call.call import call_files, current_call
    from debvote_tools.call.secret import blank_slips, slips

    demand_new(election, folder, "folder")
    electors = queries.electors(election.book)
    tellers = tellers_in(election)
    said = {"quorum_votes": draft.quorums, "tellers": tellers}
    call = current_call(election, said=said, sealed=previewed(election, draft, bool(tellers)))
    # with tellers electors vote by clicks, which go nowhere yet
    box_key = bytes(32) if tellers else b""
    call = dataclasses.replace(call, letter_text=draft.letter_text, box_key=box_key)
    files = call_files(call)
    if not call.has_codes_on_roll:
        files |= letters_of(call, electors)
    if draft.questions.is_secret and not draft.lacks_codes:
        files[SLIP] = blank_slips(call, 1) if tellers else slips(call, electors[:1])
    write_made(folder, files, OWN)
    tell(f"Made the folder {folder}, to be looked at: it is no call.")


def previewed(election: Election, draft: Checked, has_tellers: bool) -> Sealed:
    """The polls as a call would seal them."""
    from debvote_tools.call.secret import aliased

    questions = draft.questions
    if has_tellers:
        return for_tellers(questions)
    has_codes = not (draft.lacks_codes or election.history().has_codes_on_roll)
    if questions.is_secret and has_codes:
        return Sealed(aliased(questions, queries.electors(election.book)), questions)
    return Sealed(questions, questions)


def letters_of(call: "CallData", electors: Sequence[queries.Elector]) -> dict[str, bytes]:
    """The letter to the first elector, and that on paper to the first one without an address."""
    from debvote_tools.outbox.letter_folder import TO_PRINT, page_to_print
    from debvote_tools.outbox.words import Composer, is_on_paper

    composer = Composer(call, is_over=False)
    files = dict[str, bytes]()
    for elector in electors[:1]:
        files["letter.txt"] = composer.call_letter(elector, is_extension=False).text.encode()
    for elector in [*filter(is_on_paper, electors)][:1]:
        text = composer.call_letter(elector, is_extension=False).text
        files[TO_PRINT] = page_to_print(call, [(elector, text)])
    return files


# ---- what letters quote
def like_answers(
    questions: Questions, letter_text: str, language: Language
) -> list[tuple[str, str]]:
    """What letters have of the secretary's words that looks like an answer: titles, options and
    lines of texts, each behind its file, and the number of its line.
    """
    quoted = [(f"{POLLS}/{TITLE_FILE}", questions.title)]
    for label, poll in questions.items():
        file = f"{POLLS}/{label}.toml" if label else POLL_FILE
        texts = (f"{label and f'{label}: '}{poll.name}", *poll.names)
        quoted += [(file, text) for text in texts]
    for text, file in {**texts_of(questions), letter_text: LETTER_TEXT}.items():
        lines = enumerate(text.splitlines(), start=1)
        quoted += [(f"{file}:{number}", line) for number, line in lines]
    answers = questions.answers(language)
    return [(place, text) for place, text in quoted if answers.search(text)]


def faults_of_ballots(
    election: Election, questions: Questions, letter_text: str
) -> Iterator[Fault]:
    """The lines of texts that read as ballots: an elector may send one back."""
    names = names_of(questions, queries.electors(election.book), election.language)
    for text, file in {**texts_of(questions), letter_text: LETTER_TEXT}.items():
        lines = text.splitlines()
        reading = reading_of(lines, names)
        for ballot in () if reading.is_proposed else reading.ballots:
            yield bad_arguments(
                f"{file}:{ballot.number}",
                f"`{shown_text(lines[ballot.number - 1])}` reads as a ballot",
                f"write it in another way{THEN}",
                None,
            )


def tell_checked(draft: Checked) -> None:
    tell(f"{say('Title')}: {draft.questions.name}")
    for label, poll in draft.questions.items():
        tell(*poll_in_words(label, poll))
    lines = draft.letter_text.splitlines()
    if lines:
        tell(f"{say('Letters to electors begin with {file}', LETTER_TEXT)}:")
        tell(*(f"  {line}".rstrip() for line in lines))


def notes_on(election: Election, draft: Checked) -> Iterator[str]:
    """What may be meant otherwise, in the secretary's own words and in names."""
    lines = draft.letter_text.splitlines()
    if long := [str(number) for number, line in enumerate(lines, 1) if len(line) > LONGEST_LINE]:
        yield (
            f"Note: these lines of {LETTER_TEXT} have more than {LONGEST_LINE} characters, so "
            f"mail programs may break them: {', '.join(long)}"
        )
    if like := like_answers(draft.questions, draft.letter_text, election.language):
        yield "Note: these look like answers, and letters that quote one of them wait:"
        yield from (f"  {place}: {shown_text(text)}" for place, text in like)
    yield from names_like_answers(election, draft.questions)


def names_like_answers(election: Election, questions: Questions) -> Iterator[str]:
    """Notes on people whose names may be read as a part of an answer."""
    electors = queries.electors(election.book)
    words = questions.words(election.language)
    real_names = [elector.who for elector in electors]
    if names := [name for name in real_names if with_ranks(name, words) != name]:
        yield f"Note: these real names end in a word of the motion, and a name is no ballot: {listed(names, MAX_NAMED)}"
    names = [
        label_of(elector)
        for elector in electors
        if LIKE_LABEL.search(elector.who) or len(elector.name) == 1
    ]
    if names and questions.is_several:
        yield f"Note: these names end in a letter that may be read as the label of a question: {listed(names, MAX_NAMED)}"


def poll_in_words(label: str, poll: SealedPoll) -> Iterator[str]:
    """What is asked, below the title of the one question; of several each option on one line."""
    between = "; " if label else "\n     "
    if label:
        yield f"{say('Question {label}', label)}: {poll.name}"
    if poll.name != poll.title:
        yield f"  {say('plain')}: {poll.title}"
    if not label:
        yield say("Options:")
    # the default option is the last, and has no ratio and no text
    options = itertools.zip_longest(poll.names, poll.plain_names, poll.ratios, poll.explanations)
    for number, (name, plain, ratio, text) in enumerate(options, start=1):
        what = say("majority ratio {ratio}", ratio) if ratio else say("the default option")
        said = [f"{number:3}  {name} ({what})"]
        if name != plain:
            said.append(f"{say('plain')}: {plain}")
        if text:
            words = count_of(len(text.split()), "word")
            said.append(f"text: {words} from {TEXTS}/{place_of(label, f'{number}.txt')}")
        yield between.join(said)
    if poll.motion:
        yield say("A motion, yes: {yes}, no: {no}", *poll.names)
    if poll.wording == "more_than":
        yield say("Majority: more than the ratio (Debian's rule is at least the ratio)")


# ---- the list of members
def read_roll(election: Election, history: History) -> Roll:
    file = election.path(MEMBERS_FILE)
    data = read_whole(
        file,
        TABLE_LIMIT,
        "the list of members is a CSV file, as a spreadsheet saves it: put it there",
        f", {AGAIN}",
    )
    known = queries.all_electors(election.book)
    return roll_of(data, file, known, election.language.code, is_called=history.call is not None)


def demand_read(election: Election, history: History) -> None:
    """Stops if the list of members is not the one that `roll` read. Codes on the roll come from no
    list.
    """
    if not history.has_codes_on_roll and not is_kept(election.book, read_roll(election, history)):
        raise Fault(
            election.path(MEMBERS_FILE),
            "it has changed since roll read it",
            f"run {election.command('roll')} first",
        )


def is_kept(book: Book, roll: Roll) -> bool:
    """Whether the book has these electors already, in this order."""
    facts = operator.attrgetter("name", "who", "addresses", "key")
    return list(map(facts, roll.electors)) == list(map(facts, queries.electors(book)))
