"""The command `call`, which makes the call for votes, extends the vote, and takes the call back."""

import dataclasses
import datetime
import os
import shlex
import shutil
import time
from collections.abc import Iterator

from debvote_tools import VERSION
from debvote_tools.book import queries
from debvote_tools.book.book import ActName, Detail
from debvote_tools.book.change import Change
from debvote_tools.call.box import SCRIPT, box_files, records_file, script_address
from debvote_tools.call.call import CallData, call_files, call_letter, current_call, until_of
from debvote_tools.call.draft import letter_text_in, texts_of
from debvote_tools.call.secret import aliased, blank_slips, demand_no_code
from debvote_tools.call.teller_page import teller_checksum, teller_file
from debvote_tools.call.tellers import (
    FEWEST,
    demand_new_points,
    fingerprints,
    for_tellers,
    tellers_in,
)
from debvote_tools.cli.arguments import Acting, flag, given, option
from debvote_tools.cli.console import act_time, is_terminal, is_yes, say, say_time, tell
from debvote_tools.cli.faults import Fault, bad_arguments, kept_in, stop_at
from debvote_tools.commands.backup import WHO_HAS_IT
from debvote_tools.commands.check import (
    Checked,
    checked,
    demand_read,
    faults_of_ballots,
    notes_on,
    read_roll,
)
from debvote_tools.commands.codes import CODES, SLIPS, write_slips
from debvote_tools.commands.roll import keep_electors, roll_in_words
from debvote_tools.election import (
    CALL,
    KEYRING,
    LETTERS,
    LETTER_TEXT,
    PRIVATE,
    TELLERS,
    Election,
    History,
    Sealed,
)
from debvote_tools.files import OWN, PUBLIC, read_whole, write_made
from debvote_tools.inbox.last_asking import last_box, unasked_fault
from debvote_tools.inbox.signature import read_keyring
from debvote_tools.outbox.steps import tell_next
from debvote_tools.poll.announced import (
    demand_future,
    demand_web_address,
    named_address,
    parse_until,
)
from debvote_tools.poll.questions import Questions
from debvote_tools.poll.sealed import new_own_mark
from debvote_tools.result.publication import agreed_texts
from debvote_tools.text import times

EXTENSION = "extension.txt"

LEAVE_OUT = "leave it out"

# in bytes; the keys of ten thousand members are shorter
KEYRING_LIMIT = 134_217_728


class Arguments(Acting):
    until: str | None = option(
        "TIME",
        'The end of the vote, as "2026-12-04 18:00"; a second call with a later time extends the vote',
    )
    zone: str | None = option(
        "ZONE",
        "The time zone of --until, as Europe/Berlin (default: that of the earlier end, or else of this computer)",
    )
    to: str | None = option(
        "ADDRESS",
        'The mail address to which ballots are sent; as "NAME <ADDRESS>" letters to electors come from this name',
    )
    at: str | None = option(
        "URL", "The web address of the page for the call, and later for the result"
    )
    names: bool = flag("Say in the call that real names will be published with the result")
    box: bool = flag(
        "Let electors vote by a click on the page, which seals each ballot: call/vote.php keeps "
        "ballots on the web host until add --box"
    )
    slips: str | None = option(
        None,
        "In a secret vote with a web box: whether slips with codes will be handed out, as the "
        "page says (default: the command asks)",
        choices=("yes", "no"),
    )
    keyring: str | None = option(
        "FILE",
        "Say in the call that letters must be signed, each with its elector's key in members.csv; this file has the keys",
    )
    take_back: bool = flag("Take the call back; possible until a ballot or a letter has come")
    yes: bool = flag(
        "In a secret vote: answer yes when asked whether everybody may read letter.txt and the texts of the options"
    )


def call(election: Election, arguments: Arguments) -> None:
    """Make the call for votes, a page and a letter; from then on the poll cannot change."""
    election.demand_right_book(arguments)
    history = election.history()
    if history.call is None and history.named("take back"):
        # a run that was killed may have left some
        remove_void(election, history)
    if arguments.take_back:
        take_back(election)
        return
    if history.call is None:
        call_first(election, arguments)
    else:
        call_again(election, arguments)
    note_tellers(election)
    make_folders(election)
    tell(*call_in_words(election, current_call(election)))
    tell_next(election)


def note_tellers(election: Election) -> None:
    """Notes on this machine which keys of tellers the call of this book has, if there is one."""
    points = election.history().tellers.values()
    election.book.note().put_points(election.book.acts()[0].digest, points)


# ---- the acts
def roll_first(election: Election) -> None:
    """Reads the list of members if nobody has: `roll` is for whoever looks at it before."""
    if queries.all_electors(election.book):
        return
    history = election.history()
    members = read_roll(election, history)
    keep_electors(election.book, members, history.last.number)
    tell(*roll_in_words(members, election.language))


def call_first(election: Election, arguments: Arguments) -> None:
    roll_first(election)
    history = election.history()
    faults = list[Fault]()
    detail = announced(arguments, history, faults)
    keyring: bytes | None = None
    with kept_in(faults):
        keyring = keyring_in(election, arguments.keyring)
    with kept_in(faults):
        demand_read(election, history)
    tellers = dict[str, str]()
    with kept_in(faults):
        tellers = tellers_in(election)
        demand_new_points(election.book, tellers)
    with kept_in(faults):
        draft = checked(election, deadline=detail.get("until"), address=detail.get("to"))
        faults += faults_by_secrecy(arguments, history, draft.questions)
        if election.path(TELLERS).exists():
            faults += faults_by_tellers(election, arguments, draft.questions)
        elif draft.lacks_codes:
            words = "the vote is secret, and electors have no codes"
            raise Fault(None, words, f"run {election.command('codes')} first")
    stop_at(faults)
    detail |= announced_first(arguments, history, draft, tellers)
    act = sealing(election, arguments, detail, draft, keyring)
    act.do(election.book, history.last.number)
    tell(*notes_on(election, draft))


def announced_first(
    arguments: Arguments, history: History, draft: Checked, tellers: dict[str, str]
) -> Detail:
    """What the first call says, beside what a later one can."""
    detail: Detail = {}
    if tellers:
        detail |= {"tellers": tellers, "slips": "no"}
    elif arguments.box and draft.questions.is_secret:
        detail["slips"] = arguments.slips or asked_slips()
    detail |= {
        "offset": time.localtime().tm_gmtoff,
        "names": arguments.names,
        "box": arguments.box,
        "codes_on_roll": history.has_codes_on_roll,
        "quorum_votes": draft.quorums,
        "signed": arguments.keyring is not None,
    }
    return detail


def sealing(
    election: Election,
    arguments: Arguments,
    detail: Detail,
    draft: Checked,
    keyring: bytes | None,
) -> Change:
    """The act of the call, which seals the polls."""
    electors = queries.electors(election.book)
    questions = draft.questions
    public = aliased(questions, electors) if questions.is_secret else questions
    sealed = for_tellers(questions) if "tellers" in detail else Sealed(public, questions)
    files = sealed_by(election, arguments, detail, draft.letter_text, sealed)
    if keyring is not None:
        files[KEYRING] = keyring
    files |= sealed.files()
    # nobody knows whose a code on the roll is
    named = [] if detail["codes_on_roll"] else electors
    marked = [elector._replace(mark=new_own_mark()) for elector in named]
    if arguments.box:
        marks = {elector.name: elector.mark for elector in marked}
        files |= box_files(election.book, sealed.public.mark, marks)
    return Change("call", detail, electors=marked, sealed=files)


def call_again(election: Election, arguments: Arguments) -> None:
    """Extends the vote, or adds what the call did not say yet."""
    history = election.history()
    faults = list[Fault]()
    announcing = announced(arguments, history, faults).items()
    # a run that was killed is repeated with its words
    detail = {key: value for key, value in announcing if value != history.announced(key)}
    if "at" in detail:
        faults += filter(None, [unasked_fault(election, history, "at")])
    stop_at(faults)
    demand_no_change(election, history, arguments, detail)
    before = current_call(election, history).letter_text
    # after a close no letter begins with it
    letter_text = before if history.closes else letter_text_in(election.folder)
    stop_at(faults_of_ballots(election, election.questions, letter_text))
    if not detail and arguments.keyring is None and letter_text == before:
        return
    until = until_of(detail)
    demand_open(election, history, until)
    name: ActName = "extend" if until else "announce"
    keyring = keyring_in(election, arguments.keyring)
    files = sealed_by(election, arguments, detail, letter_text)
    if keyring is not None:
        files[KEYRING] = keyring
        detail["keyring"] = True
    Change(name, detail, sealed=files).do(election.book, history.last.number)


def demand_open(election: Election, history: History, until: datetime.datetime | None) -> None:
    """Stops if the vote is closed; at a new end after a close, though it was reopened; and at one
    that is not later than the end that electors know.
    """
    if history.is_closed:
        raise Fault(None, "the vote is closed", f"see {election.command('status')}")
    if until is None:
        return
    if history.closes:
        raise Fault(
            "--until",
            f"the vote was closed at {act_time(history.closes[0].time)}, and only ballots that came before then count",
            f"leave it out; enter ballots that came in time with {election.command('add')}",
        )
    if history.until is not None and until <= history.until:
        raise bad_arguments(
            "--until",
            f"electors rely on {times.time_in_words(history.until)}, and {times.time_in_words(until)} is not later",
            "name a later time",
        )


def take_back(election: Election) -> None:
    book = election.book
    history = election.history()
    call_act = election.called(history)
    if history.closes:
        raise Fault(
            None,
            f"the vote was closed at {act_time(history.closes[0].time)}, and electors rely on the close",
            "hold the vote anew in another folder",
        )
    if queries.has_come(book, call_act.number):
        raise Fault(
            None,
            "ballots or letters have come, and electors rely on the call",
            "finish this vote, or hold it anew in another folder",
        )
    if unasked := unasked_fault(election, history, "at"):
        raise unasked
    is_on_roll = history.has_codes_on_roll
    # own marks lapse, and codes: whoever compares the roll of this call with that of the next would
    # see the alias of each elector who is new
    bare = (one._replace(code="", alias="", mark="") for one in queries.electors(book))
    lapsed = [elector._replace(position=None) if is_on_roll else elector for elector in bare]
    has_codes = election.questions.is_secret and not history.tellers
    void_codes = len(lapsed) if has_codes else 0
    detail: Detail = {"call": call_act.number, "codes": void_codes}
    Change("take back", detail, electors=lapsed).do(book, history.last.number)
    note_tellers(election)
    remove_void(election, election.history())
    tell(say("Took the call back. If anybody has seen it, tell them that it is void."))
    if history.announced("box"):
        tell(f"Remove {SCRIPT} from the web host, until the next call.")
    if void_codes:
        tell(
            f"All {void_codes} codes are void, and their slips and table are removed: destroy what is printed."
        )
    tell(say("Put right what was wrong."))
    tell_next(election)


def remove_void(election: Election, history: History) -> None:
    """Removes the files of the call that was taken back last, and of its codes, unless there are
    new ones.
    """
    write_made(election.path(CALL), {}, PUBLIC, queries.files_sealed(election.book, CALL))
    (election.path(LETTERS) / EXTENSION).unlink(missing_ok=True)
    # letters that nobody has sent yet have the mark and the codes that are void
    for kind in ("call", "reminders"):
        shutil.rmtree(election.path(LETTERS) / kind, ignore_errors=True)
    last = history.named("codes", "take back")[-1]
    if last.name != "take back":
        return
    if last.detail.get("codes") or history.act(last.detail["call"]).detail.get("tellers"):
        write_made(election.path(PRIVATE), {}, OWN, (SLIPS, CODES))


def sealed_by(
    election: Election,
    arguments: Arguments,
    detail: Detail,
    letter_text: str,
    sealed: Sealed | None = None,
) -> dict[str, bytes]:
    """What an act seals: the files of the call, so that they can be made again with the same bytes,
    and the text of the letters if it is new. In a secret vote the act says, too, which texts
    everybody may read.
    """
    call = current_call(election, said=detail, sealed=sealed)
    call = dataclasses.replace(call, letter_text=letter_text)
    files = {}
    if letter_text.encode() != queries.sealed(election.book, LETTER_TEXT):
        files[LETTER_TEXT] = letter_text.encode()
    files |= {f"{CALL}/{name}": content for name, content in call_files(call).items()}
    if sealed is None and "until" in detail:
        files[f"{LETTERS}/{EXTENSION}"] = call_letter(call, is_extension=True).encode()
    if call.questions.is_secret:
        codes = {elector.code or elector.name for elector in queries.electors(election.book)}
        for name, content in files.items():
            demand_no_code(name, content, codes)
        if sealed or LETTER_TEXT in files:
            texts = texts_of(sealed.public) if sealed else {}
            # letter.txt begins the letter to all
            texts |= {letter_text: LETTER_TEXT}
            detail["agreed"] = agreed_texts(election.history(), texts, is_agreed=arguments.yes)
    return files


# ---- the words of the command line
def announced(arguments: Arguments, history: History, faults: list[Fault]) -> Detail:
    """What the act keeps of these options. An extension is in the zone of the end before, unless it
    names another.
    """
    detail: Detail = {}
    with kept_in(faults):
        if arguments.until is not None:
            until, zone = parse_until(arguments.until, arguments.zone, history.announced("zone"))
            demand_future(until, times.now())
            detail["until"] = until.isoformat()
            if zone is not None:
                detail["zone"] = zone
    with kept_in(faults):
        if arguments.to is not None:
            detail["to_name"], detail["to"] = named_address(arguments.to)
    with kept_in(faults):
        if arguments.at is not None:
            demand_web_address(arguments.at)
            detail["at"] = arguments.at
    is_new = arguments.box and history.call is None
    if is_new or history.announced("box"):
        with kept_in(faults):
            script_address(detail.get("at") or history.announced("at"))
    if is_new and arguments.keyring is not None:
        faults.append(
            bad_arguments("--box", "letters have to be signed, and no click is", LEAVE_OUT)
        )
    return detail


def faults_by_secrecy(
    arguments: Arguments, history: History, questions: Questions
) -> Iterator[Fault]:
    is_secret = questions.is_secret
    if arguments.slips and not (is_secret and arguments.box):
        yield bad_arguments("--slips", "only in a secret vote, with --box", LEAVE_OUT)
    if arguments.names and is_secret:
        yield bad_arguments(
            "--names", "the vote is secret", "leave it out: in a secret vote no names are published"
        )
    if arguments.box and is_secret and history.has_codes_on_roll:
        yield bad_arguments(
            "--box",
            "codes are on the roll, and the result would show whoever keeps the web host whose each is",
            LEAVE_OUT,
        )


def faults_by_tellers(
    election: Election, arguments: Arguments, questions: Questions
) -> Iterator[Fault]:
    """What stands against a vote in which the page seals ballots to tellers."""
    electors = queries.electors(election.book)
    if not (questions.is_secret and arguments.box) or questions.is_several:
        words = "tellers open the ballots of a secret vote about one question, by clicks"
        yield bad_arguments(
            TELLERS, words, "write secret = true into the poll, and call with --box"
        )
    if any(elector.code for elector in electors) or election.history().has_codes_on_roll:
        words = "electors have codes, and with tellers nobody may have one"
        yield bad_arguments(TELLERS, words, "begin anew in another folder")
    if arguments.slips:
        yield bad_arguments("--slips", "with tellers slips have no codes", LEAVE_OUT)
    if len(electors) < FEWEST:
        words = f"of fewer than {FEWEST} electors the numbers tell how each voted"
        yield bad_arguments(TELLERS, words, "hold the vote otherwise")


def asked_slips() -> str:
    """Whether electors get their codes, without which they do not find their ballots in the
    result.
    """
    question = say("Will slips with codes be handed out, with which electors find their ballots?")
    answer = is_yes(question) if is_terminal() else None
    if answer is None:
        raise Fault(
            "--slips",
            "nobody says whether slips with codes will be handed out, as page and letters say",
            "give --slips yes, or --slips no",
        )
    return "yes" if answer else "no"


def demand_no_change(
    election: Election, history: History, arguments: Arguments, detail: Detail
) -> None:
    changed = [
        option
        for option in given(arguments, "names", "box")
        if not history.announced(option.removeprefix("--"))
    ]
    if "to" in detail:
        changed.append("--to")
    if arguments.keyring is not None and not history.announced("signed"):
        changed.append("--keyring")
    if arguments.slips not in (None, history.announced("slips")):
        changed.append("--slips")
    if changed:
        words = "the call was made without it"
        if changed == ["--to"]:
            words = "the call has sealed the address"
        raise Fault(
            ", ".join(changed),
            words,
            f"as long as nothing has come, take the call back and call anew: {election.command('call', '--take-back')}",
        )


def keyring_in(election: Election, file: str | None) -> bytes | None:
    """The keyring, as gpgv reads it. Stops if the key of an elector is not in it."""
    if file is None:
        return None
    data = read_whole(file, KEYRING_LIMIT, "name the file that gpg --export wrote", may_wait=True)
    keyring = read_keyring(file, data)
    electors = queries.electors(election.book)
    if missing := [
        elector.name
        for elector in electors
        if elector.key and elector.key not in keyring.fingerprints
    ]:
        raise Fault(
            file,
            f"it lacks the keys that the list of members has for: {', '.join(missing)}",
            "export these keys, too",
        )
    if without := [elector.name for elector in electors if not elector.key]:
        tell(f"Note: the list of members has no key for {', '.join(without)}; their letters wait.")
    return keyring.data


# ---- the folders
def make_folders(election: Election) -> None:
    book = election.book
    history = election.history()
    call_act = election.called(history)
    sealed = queries.files_sealed(book, CALL)
    # not what a call that was taken back had alone
    files = {
        name: queries.sealed(book, f"{CALL}/{name}")
        for name, act in sealed.items()
        if act >= call_act.number
    }
    write_made(election.path(CALL), files, PUBLIC, sealed)
    extension = queries.sealed(book, f"{LETTERS}/{EXTENSION}")
    if extension and history.since_call("extend"):
        write_made(election.path(LETTERS), {EXTENSION: extension}, OWN)
    if history.tellers:
        call = current_call(election, history)
        slips = blank_slips(call, len(election.questions.roll))
        write_made(election.path(PRIVATE), {SLIPS: slips}, OWN, (SLIPS, CODES))
    elif election.questions.is_secret:
        write_slips(election, election.sealed())


def call_in_words(election: Election, data: CallData) -> Iterator[str]:
    folder = election.path(CALL)
    is_several = data.questions.is_several
    yield say("Made the folder {folder} with the page index.html and the letter call.txt.", folder)
    yield from names_in_words(election, data)
    whose = say("Checksum of the polls") if is_several else say("Checksum of the poll")
    yield f"{whose}: {data.questions.checksum}"
    yield f"{say('Mark of the poll, at the end of each subject')}: {data.mark}"
    if data.until is not None:
        yield f"{say('End of the vote')}: {say_time(data.until)}"
    if data.is_extended:
        yield f"Made {election.path(LETTERS) / EXTENSION}, the letter to all that says so."
    unsaid = {"when the vote ends (--until)": data.until, "where ballots go (--to)": data.to}
    if missing := [words for words, value in unsaid.items() if value is None]:
        yield f"The call does not say {' nor '.join(missing)}."
    if data.has_box:
        yield from box_in_words(election, data)
    sealed = say("The poll is sealed: poll.toml")
    if is_several:
        sealed = say("The polls are sealed: polls/")
    yield say(
        "{sealed} and texts/ of this folder are no longer read; roll still reads addresses and keys.",
        sealed,
    )


def names_in_words(election: Election, data: CallData) -> Iterator[str]:
    """What stands in a secret vote in place of names, and what is to be printed."""
    slips = election.path(PRIVATE) / SLIPS
    if data.has_codes_on_roll:
        yield "Codes are on the roll: the call has the checksum of the poll, but no poll.toml."
        yield f"Print {slips}, cut the slips out, and let each elector draw one."
    elif data.tellers:
        page = teller_file(data.language)
        yield (
            f"Page and letter seal to, and name: {fingerprints(data.tellers)}. Each teller tells "
            "members the own fingerprint by another way."
        )
        yield (
            f"Tellers look at the page, and open, with {page} of version {VERSION}, SHA-256 "
            f"{teller_checksum(data.language)}, which they get elsewhere than from you."
        )
        yield f"Print {slips} for those who vote on paper: nothing on a slip tells whose it is."
    elif data.has_aliases:
        yield "The vote is secret: the poll of the call has aliases, and the folder has no names of electors."
        yield (
            f"Print {slips}, cut the slips out, and give each elector their own."
            if data.has_slips
            else "No slips: nobody can find their ballot in the result."
        )


def box_in_words(election: Election, data: CallData) -> Iterator[str]:
    """Notes on the page of before, to which letters have links until that of now was asked, and on
    asking.
    """
    asked_at = last_box(election.history()).get("at")
    if asked_at not in (None, data.at):
        yield (
            f"Note: the page at {asked_at} still takes ballots, which add --box fetches no more: "
            f"remove its {SCRIPT}, then fetch its file {records_file(data.box_key)} by FTP, and "
            f"add it: {election.command('add', 'FILE')}."
        )
    yield (
        f"Make a copy of the book now: {election.command('backup', 'FILE')}. Without the book "
        f"nobody can open what lies on the web host; {WHO_HAS_IT}."
    )
    yield f"To ask for the ballots of the page each hour, by cron: {cron_line(election)}"


def cron_line(election: Election) -> str:
    """The line that asks the box each hour. It finds this computer's note, and cron reads a % as
    the end of a line.
    """
    state = os.environ.get("XDG_STATE_HOME")
    noted = [f"XDG_STATE_HOME={shlex.quote(state)}"] if state else []
    ask = ("debvote-election", "add", "--folder", str(election.folder.absolute()), "--box", "--yes")
    return " ".join(["0 * * * *", *noted, shlex.join(ask)]).replace("%", r"\%")
