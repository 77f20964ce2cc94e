"""The published folder, which is made whole and counted twice beside its place before it takes it.

For each question debvote is started at most six times, in a secret vote four times.
"""

import itertools
import pathlib
import runpy
import sys
from collections.abc import Collection, Iterable, Iterator, Mapping, Sequence
from typing import NamedTuple

from debvote_tools.call.secret import demand_no_code
from debvote_tools.cli.console import say, tell_aside, tell_aside_as_it_is
from debvote_tools.cli.faults import Fault, Status, bad_arguments, stop_at
from debvote_tools.debvote import Answer, Debvote, findings_in
from debvote_tools.files import (
    TEMPORARY,
    naming,
    real_place,
    sha256_of,
    sync_folder,
    write_public,
)
from debvote_tools.poll.questions import Questions, place_of
from debvote_tools.result import file_names
from debvote_tools.result.facts import Doubt, Outcome, QuestionFacts, VoteFacts
from debvote_tools.result.file_names import BALLOTS, CHECKSUMS, PAGE, POLL, RECOUNT, SHEET
from debvote_tools.result.page import front_page_of, letter_of, page_of, pictures_of
from debvote_tools.result.data import as_json, outcome_as_data, result_json, votes_csv
from debvote_tools.sheet import Sheet, sheet_in
from debvote_tools.text.ballots import ballot_file


# programs and guide: what each is, where the package has it, and where a checkout has it
HERE = pathlib.Path(__file__).resolve().parent
TOP = HERE.parents[1]
BESIDE = {
    RECOUNT: ("the second count", [TOP / RECOUNT, TOP.parent / "tests" / "reference.py"]),
    file_names.SCRIPT: ("the third count", [HERE / file_names.SCRIPT]),
    file_names.GUIDE: (
        "the guide for electors",
        [TOP / file_names.GUIDE, TOP.parent / "docs" / file_names.GUIDE],
    ),
}

# how a folder begins that is beside its place: what a killed run left there tells what it replaced
BESIDE_PLACE = f"{TEMPORARY}result-"

# how a count may end without a winner
TIE = (Status.TIE, Status.CASTING_OUTSIDE)


class Filled(NamedTuple):
    """A folder that is whole: how each question ended, all doubts, the checksums of all files, by
    their places in it, and the letter of the result.
    """

    outcomes: Mapping[str, Outcome]
    doubts: Sequence[Doubt]
    checksums: Mapping[str, str]
    letter: bytes


def demand_outside(target_folder: pathlib.Path) -> None:
    """Stops at a place within a published folder, or that of a call, which stays as it is."""
    for above in real_place(target_folder).parents:
        if all((above / name).is_file() for name in (CHECKSUMS, PAGE)):
            words = f"it would be in {above}, whose files are published as they are"
            raise bad_arguments(target_folder, words, "name a folder outside of it")


def in_use(target_folder: pathlib.Path, words: str, cure: str) -> Fault:
    return bad_arguments(target_folder, f"it exists already, and is not {words}", cure)


# ---- what is in it
def filled(
    folder: pathlib.Path,
    vote: VoteFacts,
    questions: Iterable[QuestionFacts],
    program_folder: pathlib.Path | None,
    *,
    is_forced: bool,
    known: Collection[object] = (),
) -> Filled:
    """Writes all files of a result into an empty folder, those of each of several questions into
    one with its label, and has each question counted by debvote and by `recount.py`. Stops at
    doubts that are not forced, at a code of an elector, and if the counts differ. `program_folder`
    is that of the program that runs this: debvote may be beside it. `known` are the doubts that the
    same result had when it was made first: the reason of then is not one for what came since.
    """
    filling = Filling(folder, vote)
    outcomes = {facts.label: filling.outcome_of(facts, program_folder) for facts in questions}
    doubts = demand_publishable(vote, outcomes, is_forced=is_forced, known=known)
    for (label, outcome), picture in zip(outcomes.items(), pictures_of(outcomes.values())):
        filling.write(label, further_files(outcome, picture))
        demand_same(folder / label, outcome)
        # it has checksums of the files above
        filling.write_page(label, page_of(outcome, picture, filling.sums(label)))
    if vote.questions.is_several:
        filling.write("", files_above(vote.questions, outcomes, filling.checksums))
        filling.write_page("", front_page_of(vote, outcomes))
    letter = letter_of(vote, outcomes, filling.checksums)
    if vote.is_of_two_files:
        # two files have no other folder for it
        filling.write("", {file_names.LETTER: letter})
    filling.end()
    return Filled(outcomes, doubts, filling.checksums, letter)


class Filling:
    """A folder while it is filled, with the checksum of each file by its place. Files without a
    label are those of the one question, or those above several.
    """

    def __init__(self, folder: pathlib.Path, vote: VoteFacts) -> None:
        self.folder = folder
        self.vote = vote
        self.checksums = dict[str, str]()

    def write(self, label: str, files: Mapping[str, bytes]) -> None:
        for name, data in files.items():
            place = place_of(label, name)
            demand_no_code(place, data, self.vote.codes)
            with naming(self.folder.parent):
                write_public(self.folder / place, data)
            self.checksums[place] = sha256_of(data)

    def sums(self, label: str) -> dict[str, str]:
        """The checksums of the files of a question by their names, without a label those of all."""
        above = f"{label}/" if label else ""
        return {
            place.removeprefix(above): checksum
            for place, checksum in self.checksums.items()
            if place.startswith(above)
        }

    def write_page(self, label: str, page: bytes) -> None:
        """Writes the page, which is the last file, and the checksums of all."""
        self.write(label, {PAGE: page})
        lines = (f"{checksum}  {name}\n" for name, checksum in sorted(self.sums(label).items()))
        self.write(label, {CHECKSUMS: "".join(lines).encode()})

    def outcome_of(self, facts: QuestionFacts, program_folder: pathlib.Path | None) -> Outcome:
        """Writes poll, ballots and sheet of a question, and asks debvote about them."""
        label = facts.label
        folder = self.folder / label
        folder.mkdir(exist_ok=True)
        debvote = Debvote(folder, program_folder)
        self.write(label, {POLL: facts.poll.as_bytes(), BALLOTS: facts.ballots})
        desks = ["--desks", str(self.vote.desks)]
        words = [*desks, *facts.casting_words]
        sheet = sheet_in(answer_of(debvote, "count", *words, also=TIE).text)
        self.write(label, {SHEET: sheet.text.encode()})
        return Outcome(
            facts,
            sheet,
            verified=verified_by(debvote, desks),
            refused=(
                findings_in(answer_of(debvote, "explain", also=(Status.DOUBT,)).text).refused
                if sheet.refused
                else []
            ),
            # in a secret vote only the ballots that stand are published
            standing_text=(
                facts.ballots.decode() if facts.private else answer_of(debvote, "standing").text
            ),
            graph=answer_of(debvote, "picture", *words, also=TIE).text,
            version=debvote.version(),
        )

    def end(self) -> None:
        for label in {"", *self.vote.questions}:
            (self.folder / label).chmod(0o755)
            sync_folder(self.folder / label)


def verified_by(debvote: Debvote, desks: Iterable[str]) -> str:
    """What debvote says of the sheet. Stops if it is not that of poll and ballots."""
    answer = answer_of(debvote, "verify", "--sheet", SHEET, *desks, also=(Status.DOUBT,))
    if answer.status == Status.DOUBT:
        raise unlike("debvote verify", answer.text.strip().replace("\n", ", "))
    return answer.text.rstrip("\n")


def answer_of(debvote: Debvote, task: str, *words: str, also: tuple[int, ...] = ()) -> Answer:
    """What debvote answers in its folder, and its fault lines as they are. Stops unless its exit
    status is 0, or one of these with a text.
    """
    answer = debvote.run(task, "--poll", POLL, "--ballots", BALLOTS, *words)
    tell_aside_as_it_is(answer.faults)
    if answer.status != Status.DONE and not (answer.text and answer.status in also):
        sys.exit(answer.status)
    return answer


def files_above(
    questions: Questions, outcomes: Mapping[str, Outcome], checksums: Mapping[str, str]
) -> dict[str, bytes]:
    """What is above the folders of several questions: their title and the list of their polls, as
    the call has them, and how each ended, as data.
    """
    ended = {
        label: {
            "label": outcome.facts.poll.name,
            "outcome": outcome_as_data(outcome.sheet),
            "checksum": checksums[place_of(label, CHECKSUMS)],
        }
        for label, outcome in outcomes.items()
    }
    data = {"format": "debvote results 1", "title": questions.name, "questions": ended}
    return questions.beside | {file_names.DATA: as_json(data).encode()}


# ---- doubts
def demand_publishable(
    vote: VoteFacts,
    outcomes: Mapping[str, Outcome],
    *,
    is_forced: bool,
    known: Collection[object],
) -> list[Doubt]:
    """The doubts about the whole vote, and then those about each of several questions. Stops at
    those that are not forced, and at what is never published; tells the others.
    """
    of_counts = (doubt for outcome in outcomes.values() for doubt in outcome.doubts_of_count)
    doubts = sorted([*of_counts, *vote.doubts], key=lambda doubt: doubt.label)
    is_forced = is_forced or all(doubt.as_data() in known for doubt in doubts if doubt.stops)
    cure = (
        'put it right, or publish as it is with --force --because "TEXT" (the result page says so)'
    )
    faults = list[Fault]()
    for label in dict.fromkeys(("", *outcomes)):
        never = [*never_published(outcomes[label])] if label in outcomes else []
        stopping = (doubt for doubt in doubts if doubt.stops and doubt.label == label)
        reasons = "; ".join(doubt.advice for doubt in stopping)
        if reasons and not (is_forced or never):
            faults.append(Fault(f"question {label}" if label else None, reasons, cure))
        faults += never
    stop_at(faults)
    for doubt in doubts:
        where = f"question {doubt.label}: " if doubt.label else ""
        tell_aside(say("Note: {doubt}; the result page says so", f"{where}{doubt.advice}"))
    return doubts


def never_published(outcome: Outcome) -> Iterator[Fault]:
    """What is wrong with a question, whatever is forced."""
    facts = outcome.facts
    sheet = outcome.sheet
    left = {sheet.names[option]: option for option in sheet.left}
    if facts.casting is not None and facts.casting not in left:
        shown = " and ".join(f"{option} {name}" for name, option in left.items())
        words = f"no casting vote can choose {facts.casting}, which is not left; left {'are' if len(left) > 1 else 'is'} {shown}"
        yield Fault("--casting", words, "name an option that is left", Status.CASTING_OUTSIDE)
    if facts.poll.secret and not (
        sheet.last_envelope is None and sheet.lines == sheet.valid == sheet.voters
    ):
        yield unlike(None, "a line of this secret vote does not count, or counts more than once")
    if facts.private and title_and_votes(facts.private) != title_and_votes(sheet):
        yield unlike(
            None, "the sheet under aliases differs from the sheet of the votes as they came"
        )


def title_and_votes(sheet: Sheet) -> tuple[str, str]:
    """The parts of a sheet that are the same under names and under aliases: its title, and all from
    its line `Voters:` on.
    """
    head, _, votes = sheet.text.partition("\nVoters: ")
    return head.partition("\n")[0], votes


def further_files(outcome: Outcome, picture: bytes | None) -> dict[str, bytes]:
    """The files that follow from poll, ballots and sheet, those of the book, and the programs and
    the guide beside them.
    """
    facts = outcome.facts
    files = {
        file_names.STANDING: outcome.standing_text.encode(),
        file_names.DATA: result_json(outcome.sheet, facts.poll, outcome.version).encode(),
        file_names.TABLE: votes_csv(outcome.sheet).encode(),
        file_names.PICTURE: picture,
        file_names.LATE: None if facts.late is None else ballot_file(facts.late),
        file_names.CLOSED: facts.vote.closing_letter,
        file_names.SEAL: f"{facts.seal}\n".encode() if facts.seal else None,
        **facts.vote.lists,
    }
    for name, (what, places) in BESIDE.items():
        file = next((place for place in places if place.is_file()), None)
        if file is None:
            cure = "install the package debvote again"
            raise Fault(places[0], f"{what} is missing", cure, Status.NOT_FOUND, None)
        files[name] = file.read_bytes()
    return {name: data for name, data in files.items() if data is not None}


# ---- the second count
def unlike(what: str | None, words: str) -> Fault:
    """The fault of files that do not belong together."""
    return Fault(what, words, "keep all files, and tell the maintainers")


def demand_same(folder: pathlib.Path, outcome: Outcome) -> None:
    """Counts a folder by the program that is in it. Stops if it finds another sheet, or other
    ballots that stand.
    """
    program = runpy.run_path(str(folder / RECOUNT))
    files = ["--poll", str(folder / POLL), "--ballots", str(folder / BALLOTS)]
    for task, words, wanted in (
        ("count", outcome.facts.casting_words, outcome.sheet.text),
        ("standing", list[str](), outcome.standing_text),
    ):
        try:
            text, _ = program["answer"]([task, *files, *words])
            differs = "" if text == wanted else difference(text, wanted)
        except program["Fault"] as fault:
            differs = f"it says `{fault.args[0]}`"
        if differs:
            where = f"{RECOUNT}, the second count, differs from debvote in its `{task}`"
            raise unlike(where, differs)


def difference(text: str, wanted: str) -> str:
    lines = itertools.zip_longest(text.splitlines(), wanted.splitlines(), fillvalue="(end)")
    number, (one, other) = next(
        (number, pair) for number, pair in enumerate(lines, start=1) if pair[0] != pair[1]
    )
    return f"line {number} is `{one}`, where debvote has `{other}`"
