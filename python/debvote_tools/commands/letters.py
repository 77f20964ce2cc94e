"""The command `letters`, which writes letters to the electors, and sends them."""

import contextlib
import dataclasses
import pathlib
from collections.abc import Iterator, Mapping, Sequence

from debvote_tools.book import queries
from debvote_tools.book.book import Detail, Overtaken
from debvote_tools.book.change import Change
from debvote_tools.book.outgoing import TAKEN, WRITTEN, OutgoingLetter, note
from debvote_tools.cli.arguments import Acting, flag, given, option, positional
from debvote_tools.cli.console import (
    act_time,
    bar,
    count_of,
    count_of_letters,
    is_terminal,
    is_yes,
    listed,
    say,
    shown_text,
    shows,
    tell,
    tell_as_it_is,
    typed_unseen,
    until_looked_at,
)
from debvote_tools.cli.faults import Fault, Status, bad_arguments, kept_in, stop_at
from debvote_tools.election import LETTERS, Election, History
from debvote_tools.files import locked, uninterrupted
from debvote_tools.grouping import grouped
from debvote_tools.inbox.last_asking import unasked_fault
from debvote_tools.outbox import letter_folder, smtp
from debvote_tools.outbox.due import LettersDue, demand_due, is_present, letters_due
from debvote_tools.outbox.reached import WAS_REFUSED, unreached_and_printed
from debvote_tools.outbox.smtp import Server
from debvote_tools.outbox.steps import Step, remembered, tell_next, words_of
from debvote_tools.outbox.words import SUBJECTS
from debvote_tools.poll.announced import demand_mail_address, demand_web_address
from debvote_tools.text import times
from debvote_tools.text.language import marked

# how many electors without an address are named
MOST = 20
# in characters
BAR = 40
# the acts beside which letters go on: what comes is told by later ones
COMING = "letters, add, desk, enter, set aside, put back, letters out, letter sent".split(", ")
ALL_TAKEN = marked("There is no letter to send: the server has taken all that are due.")
# what is said of letters with link and code
CODES = marked("Who reads a letter with its code can vote in that name, and finds the alias")


class Arguments(Acting):
    nothing = "written"

    kind: str | None = positional(
        "KIND",
        "call, receipts, reminders, closed, void or result (default, to send: all that are made and not sent, but for reminders)",
        choices=list(SUBJECTS),
        nargs="?",
    )
    send: bool = flag("Send the letters to a mail server; if a run was cut off, go on from there")
    server: str | None = option(
        "HOST[:PORT]",
        "With --send: the mail server (default: that of the last letters); the connection is "
        "encrypted unless it is on this computer",
    )
    user: str | None = option(
        "USER",
        "With --send: the user on the server (default: that of the last letters); the command asks for the password",
    )
    password_file: str | None = option("FILE", "With --send: the file that has the password")
    sender: str | None = option(
        "ADDRESS",
        "The sender's address (default: the address for ballots in the call)",
        name="--from",
    )
    at: str | None = option(
        "URL", "With result: the web address of the result, if the call does not name it"
    )
    force: bool = flag(
        "With --because: write the call or reminders although nobody has seen whether the web box works, and say in them "
        "that the page takes no ballots; or the letters of the close although it was not asked since"
    )
    codes: bool = flag(
        "With call, in a secret vote with a web box: write the code into each letter, too"
    )
    yes: bool = flag(
        "Answer yes when asked whether to remind again within a day, or to write codes"
    )


def letters(election: Election, arguments: Arguments) -> int:
    """Write letters to the electors, or send them: the call, receipts, reminders, the close, the
    result.
    """
    demand_words(arguments)
    election.demand_right_book(arguments)
    election.called(election.history())
    server = server_of(election.history(), arguments) if arguments.send else None
    # a password takes a while to be typed
    history = election.history()
    demand_codes(history, arguments)
    sender = sender_of(history, arguments)
    if arguments.kind is None:
        return send_ready(election, sender, server)
    announce(election, history, arguments.kind, arguments.at)
    return letters_of_kind(election, arguments, arguments.kind, sender, server)


def letters_of_kind(
    election: Election, arguments: Arguments, kind: str, sender: str, server: Server | None
) -> Status:
    """Writes the letters of a kind, or sends them."""
    with folder_of(election, kind) as folder:
        due = letters_due(
            election,
            kind,
            sender,
            is_sending=arguments.send,
            because=arguments.because if arguments.force else None,
            has_codes=arguments.codes,
        )
        if not (arguments.yes or is_right_time(due)):
            tell(say("Nobody was reminded."))
            return Status.DONE
        place = folder / str(due.for_act)
        written = write(due, place)
        lost = write_lost(due, folder)
        tried = send_letters(due, server)
    tell(*notes_on(due, {place: [*due.going_again, *due.new], **lost}))
    tell(*(sent_words(due, tried) if server else written_words(due, place, written, lost)))
    tell_end(election)
    return exit_status(due, tried)


@contextlib.contextmanager
def folder_of(election: Election, kind: str) -> Iterator[pathlib.Path]:
    """The folder for letters of a kind. Two runs at once would send each letter twice."""
    folder = election.path(LETTERS) / kind
    letter_folder.make_own(folder)
    with locked(folder.with_name(".lock")):
        yield folder


# ---- what is made, and not sent yet
def write_ready(election: Election, kind: str) -> list[str]:
    """Writes the letters of a kind to the electors that no run has written, and says which are
    ready; nothing if none can be written now.
    """
    history = election.history()
    sender = history.announced("to")
    is_asked = unasked_fault(election, history, kind) is None
    if not (sender and is_asked and kind in kinds_ready(election, history)):
        return []
    with folder_of(election, kind) as folder:
        due = letters_due(election, kind, sender, is_sending=False, because=None)
        place = folder / str(due.for_act)
        written = write(due, place) if due.new else 0
    ready = [f"{say('Ready')}: {count_of_letters(written)}, {place}"] if written else []
    return [*notes_on(due, {place: due.new}), *ready]


def kinds_ready(election: Election, history: History) -> Iterator[str]:
    """The kinds of letters that are due now, but for reminders."""
    if history.has_codes_on_roll:
        return
    # codes may be on slips: whoever wants them in letters has these written first
    has_codes = election.questions.is_secret and not history.is_secret_by_click
    if not (history.is_over(times.now()) or (has_codes and not history.runs_of_call)):
        yield "call"
    yield "receipts"
    if history.has_void_list:
        yield "void"
    if history.is_closed:
        yield "closed"
    if history.stage == "published" and history.announced("at"):
        yield "result"


def send_ready(election: Election, sender: str, server: Server | None) -> Status:
    """Sends what was made, and no run has sent; of receipts those that were written. What one kind
    stops at keeps no other back.
    """
    demand_due(election, election.history(), "receipts")
    faults = list[Fault]()
    status = Status.DONE
    is_sent = False
    for kind in [*kinds_ready(election, election.history())]:
        with folder_of(election, kind) as folder:
            due = None
            with kept_in(faults):
                due = letters_due(election, kind, sender, is_sending=True, because=None)
            if due and kind == "receipts":
                due = dataclasses.replace(due, new=(), in_no_receipt=(), letters_pending=0)
            if due is None or not (due.new or due.to_send):
                continue
            place = folder / str(due.for_act)
            write(due, place)
            tried = send_letters(due, server)
        is_sent = True
        tell(*notes_on(due, {place: due.new}))
        tell(*(f"{kind}: {line}" for line in sent_words(due, tried)))
        status = max(status, exit_status(due, tried))
    if not (is_sent or faults or words_of(election, Step.RECEIPTS, Step.LETTERS)):
        tell(say(ALL_TAKEN))
    tell_end(election)
    stop_at(faults)
    return status


def exit_status(due: LettersDue, tried: Sequence[OutgoingLetter]) -> Status:
    """A doubt if an address refuses a letter, but for one that an elector had before."""
    refused = [letter for letter in tried if letter.state != TAKEN]
    is_refused = any(is_present(letter, due.electors) for letter in refused)
    return Status.DOUBT if is_refused else Status.DONE


def announce(election: Election, history: History, kind: str, at: str | None) -> None:
    """The act that says at which address the result is, if nobody has said it."""
    if at not in (None, history.announced("at")):
        demand_due(election, history, kind)
        Change("announce", {"at": at}).do(election.book, history.last.number)


def demand_codes(history: History, arguments: Arguments) -> None:
    """Stops at codes where letters have no link beside them, and unless somebody agrees to both."""
    if not arguments.codes:
        return
    if history.tellers:
        raise Fault("--codes", "in a vote with tellers nobody has a code", "leave it out")
    if not history.is_secret_by_click:
        raise bad_arguments("--codes", "only in a secret vote with a web box", "leave it out")
    if not (arguments.yes or is_agreed(say(CODES), marked("write them"))):
        raise Fault(None, "you did not agree to codes in letters", "give them on slips")


def is_right_time(due: LettersDue) -> bool:
    """Whether no others were reminded within a day, or somebody agrees to remind again."""
    before = due.reminded
    return before is None or is_agreed(
        say("Reminders were written at {time}", act_time(before)), marked("remind again")
    )


def is_agreed(warning: str, task: str) -> bool:
    """Whether letters are to be written in spite of a warning. Stops where nobody can be asked."""
    if not is_terminal():
        raise Fault(None, warning, f"if it is right, {task} with --yes")
    return bool(is_yes(f"{warning}. {say(task).capitalize()}?"))


# ---- what is told
# letters by the folder in which their files are
ByPlace = Mapping[pathlib.Path, Sequence[OutgoingLetter]]


def notes_on(due: LettersDue, by_place: ByPlace) -> Iterator[str]:
    """Who gets a letter on paper, and what waits."""
    for folder, letters in by_place.items():
        if names := [due.electors[letter.elector].name for letter in letters if not letter.address]:
            file = folder / letter_folder.TO_PRINT
            yield say("Without an address: {names}. Print {file}.", listed(names, MOST), file)
            if due.kind == "call" and not due.composer.call_data.letter_text:
                tellers = due.composer.call_data.tellers
                unsaid = say("slips are given out") if tellers else say("a ballot on paper goes")
                yield say(
                    "Note: these letters do not say where {unsaid}. Say it in letter.txt, run {call}, and write them again.",
                    unsaid,
                    due.election.command("call"),
                )
    if due.in_no_receipt:
        yield (
            "No receipt is about these letters that wait, since no elector alone has the "
            f"sender's address: {listed(list(map(str, due.in_no_receipt)), MOST)}"
        )
    if due.letters_pending:
        yield until_looked_at(due.letters_pending, due.election.command("held"))


def written_words(
    due: LettersDue, place: pathlib.Path, written: int, lost: ByPlace
) -> Iterator[str]:
    for folder, letters in lost.items():
        if number := sum(bool(letter.address) for letter in letters):
            yield f"Wrote {count_of(number, 'earlier letter')}, since the folder was not there: {folder}"
    if written:
        new = sum(bool(letter.address) for letter in due.new)
        of_them = f", {say('{new} of them new', new) if new else say('none of them new')}"
        yield f"{say('Wrote {letters}', count_of_letters(written))}{'' if new == written else of_them}: {place}"
    elif lost:
        yield say("No other letter is to be sent.")
    else:
        yield say("There is no letter to send.")


def sent_words(due: LettersDue, tried: Sequence[OutgoingLetter]) -> Iterator[str]:
    refused = [letter for letter in tried if letter.state != TAKEN]
    if tried:
        taken = len(tried) - len(refused)
        yield say("Sent {taken} of {letters}.", taken, count_of_letters(len(tried)))
    else:
        yield say(ALL_TAKEN)
    for letter in refused:
        yield f"Refused: {due.electors[letter.elector].name}, {letter.address}: {shown_text(letter.reply)}"
    if any(map(due.can_be_sent, refused)):
        yield say("Try again in a quarter of an hour, or with corrected addresses.")


def tell_end(election: Election) -> None:
    """Names those whom the call has not reached, until a letter to them is taken; and what comes
    next.
    """
    unreached, _ = unreached_and_printed(election, election.history())
    if names := [
        f"{one.elector.name} ({one.why}{f': {shown_text(one.reply)}' if one.why == WAS_REFUSED else ''})"
        for one in unreached
    ]:
        tell(f"Not reached by the call: {listed(names, MOST)}")
    tell_next(election)


# ---- the words of the command line


def demand_words(arguments: Arguments) -> None:
    """Stops at all that is wrong with them alone."""
    faults = list[Fault]()
    if arguments.kind is None and (not arguments.send or arguments.force):
        cure = (
            f"name one of {', '.join(SUBJECTS)}; only --send goes without it, to send what is made"
        )
        faults.append(bad_arguments("letters", "no kind is named", cure))
    if not arguments.send and (names := given(arguments, "server", "user", "password_file")):
        faults.append(
            bad_arguments(
                ", ".join(names), "only with --send", "give --send too, or leave this out"
            )
        )
    asked = "call" if arguments.codes else "reminders"
    for name, kind in (("at", "result"), ("codes", "call"), ("yes", asked)):
        if arguments.kind != kind and given(arguments, name):
            faults.append(bad_arguments(f"--{name}", f"only with {kind}", "leave it out"))
    with kept_in(faults):
        if arguments.at is not None:
            demand_web_address(arguments.at)
    with kept_in(faults):
        if arguments.sender is not None:
            demand_mail_address(arguments.sender, "--from")
    with kept_in(faults):
        if arguments.server is not None:
            smtp.server_of(arguments.server)
    stop_at(faults)


def sender_of(history: History, arguments: Arguments) -> str:
    if sender := arguments.sender or history.announced("to"):
        return str(sender)
    raise bad_arguments("--from", "the call names no address", "give the sender's address with it")


def server_of(history: History, arguments: Arguments) -> Server:
    """The server that is named, or that of the last letters, with the password."""
    user = arguments.user
    if arguments.server is not None:
        server = smtp.server_of(arguments.server)
    else:
        detail = remembered(history)
        if detail is None:
            raise bad_arguments("--send", "no server is named", "give --server HOST[:PORT]")
        user = user or detail.get("user")
        server = dataclasses.replace(smtp.server_of(detail["server"]), is_remembered=True)
        by = f", {say('user {name}', user)}" if user else ""
        tell(f"{say('To the server of the last letters: {server}', server)}{by}")
    if user is not None:
        password = password_of(user, server, arguments.password_file)
        return dataclasses.replace(server, user=user, password=password)
    if arguments.password_file is not None:
        raise bad_arguments("--password-file", "only with --user", "give --user too")
    return server


def password_of(user: str, server: Server, file: str | None) -> str:
    """The password, from a file or as it is typed."""
    if file is not None:
        try:
            return pathlib.Path(file).read_text("utf-8").rstrip("\r\n")
        except (OSError, UnicodeDecodeError) as error:
            words = error.strerror if isinstance(error, OSError) else "it is not text in UTF-8"
            raise bad_arguments(file, words, "name the file that has the password") from None
    if not is_terminal():
        raise bad_arguments(
            "--user",
            f"the password of {shown_text(user)} can't be asked here",
            "give --password-file FILE, or run the command at a terminal",
        )
    return typed_unseen(
        f"{say('The password of {user} on {server}', shown_text(user), server.host)}: "
    )


# ---- the acts
def write(due: LettersDue, place: pathlib.Path) -> int:
    """Writes and notes the letters that are due; returns how many a mail program can send."""
    made = letter_folder.letter_files(due, [*due.going_again, *due.new])
    # what was written for a mail program is for a server now, or the other way round
    changed = [
        letter
        for letter in due.going_again
        if letter.address and letter.state == WRITTEN and letter.by_server != due.is_sending
    ]
    with letter_folder.in_place(made, place):
        if due.new or changed:
            detail: Detail = {"kind": due.kind, "letters": len(due.new)} | due.forced
            noted = [letter._replace(by_server=due.is_sending) for letter in (*changed, *due.new)]
            change = Change("letters out", detail, written=noted)
            change.do(due.election.book, due.history.last.number)
    return len(made.keys() - {letter_folder.TO_PRINT})


def write_lost(
    due: LettersDue, kind_folder: pathlib.Path
) -> dict[pathlib.Path, list[OutgoingLetter]]:
    """Makes the folders of earlier receipts that are not there, as they hold now; returns their
    letters. A folder from which files were taken out is left alone: they may have been sent.
    """
    lost = {}
    receipts = grouped((receipt.for_act, receipt) for receipt in due.earlier_receipts)
    for act, letters in receipts.items():
        folder = kind_folder / str(act)
        made = letter_folder.letter_files(due, letters)
        if made and not folder.exists():
            with letter_folder.in_place(made, folder):
                lost[folder] = letters
    return lost


def send_letters(due: LettersDue, server: Server | None) -> list[OutgoingLetter]:
    """Sends the letters that no server has taken, if one is named, and returns them with what it
    said.
    """
    letters = due.to_send
    tried = list[OutgoingLetter]()
    if server is None or not letters:
        return tried
    detail: Detail = {"kind": due.kind, "server": str(server)}
    if server.user is not None:
        detail["user"] = server.user
    try:
        show_progress(0, len(letters))
        for letter in smtp.send_all(messages(due, letters), due.sender, server):
            with uninterrupted(), due.election.book.act("letter sent", detail) as act:
                note(act, [letter])
            tried.append(letter)
            show_progress(len(tried), len(letters))
    except Fault as fault:
        taken = f"{sum(letter.state == TAKEN for letter in tried)} of {count_of(len(letters), 'letter')} taken in this run"
        fault.done = "; ".join(filter(None, [fault.done, taken]))
        raise
    finally:
        if shows():
            tell("")
    return tried


def messages(
    due: LettersDue, letters: Sequence[OutgoingLetter]
) -> Iterator[tuple[OutgoingLetter, bytes]]:
    """Letters as they go out. Stops before one if an act came since they were made by which it may
    say what is not so any more, as a call that was taken back.
    """
    since = due.history.last.number
    for letter in letters:
        for act, name in queries.acts_since(due.election.book, since):
            if name not in COMING:
                raise Overtaken
            since = act
        yield letter, letter_folder.message(due, letter, is_draft=False)


def show_progress(count: int, total: int) -> None:
    if shows():
        tell_as_it_is(f"\r{bar(count, total, BAR)} {count} of {total}")
