"""Which letters of a kind are due: to whom, for which act, and what each is about."""

import dataclasses
import datetime
import secrets
from collections.abc import Callable, Collection, Iterable, Mapping, Sequence

from debvote_tools.book import outgoing, queries
from debvote_tools.book.outgoing import TAKEN, WRITTEN, About, OutgoingLetter
from debvote_tools.book.queries import Elector
from debvote_tools.call.call import CallData, current_call
from debvote_tools.cli.arguments import demand_reason, has_reason
from debvote_tools.cli.faults import Fault, bad_arguments, stop_at
from debvote_tools.election import LETTERS, RESULT_LETTER, Election, History
from debvote_tools.inbox.last_asking import ASKING, unasked_fault, with_lost_records
from debvote_tools.inbox.box_asking import ask_for
from debvote_tools.inbox.fates import COUNTS, NOBODY, Fate, fates_of, told_of
from debvote_tools.inbox.rules import Ruling
from debvote_tools.inbox.stopping import pending_letters, what_stops
from debvote_tools.outbox.reached import NO_LETTER, page_since, unreached, unreached_and_printed
from debvote_tools.outbox.words import CORRECTED, DECIDED, SUBJECTS, Composer, OutgoingText
from debvote_tools.result.publication import closing_letter
from debvote_tools.text.addresses import address_in
from debvote_tools.text.language import language_of
from debvote_tools.text.times import now

# how long a run of reminders goes on, and how soon after it the next one is asked about
LASTING = datetime.timedelta(days=1)


# what a letter to an elector says
Compose = Callable[[Elector, OutgoingLetter], OutgoingText]


@dataclasses.dataclass(frozen=True)
class Run:
    """What the letters of a run are made from: the book as it is now."""

    election: Election
    history: History
    time: datetime.datetime
    kind: str
    sender: str
    is_sending: bool
    # what the act keeps if it goes on although the box was not asked: the reason
    forced: Mapping[str, str]
    electors: Mapping[int, Elector]
    composer: Composer
    # the letters of this kind that were written before
    noted_before: Sequence[OutgoingLetter]
    # the Message-IDs of the last of them to each elector whom the call has not reached, since a
    # letter came back or was refused
    tried_again: Collection[str]

    @property
    def sender_name(self) -> str:
        return str(self.history.announced("to_name") or "")

    @property
    def next_act(self) -> int:
        """The act that notes the letters, to which those belong that are about no other one."""
        return self.history.last.number + 1

    def can_be_sent(self, letter: OutgoingLetter) -> bool:
        """Whether a server is to take a letter now: one to be printed has no address, and an
        elector's earlier address that refused one for good is not tried again.
        """
        is_done = letter.state == TAKEN and letter.message_id not in self.tried_again
        is_gone = letter.is_refused_for_good and not is_present(letter, self.electors)
        return bool(letter.address) and not is_done and not is_gone

    def letter_to(
        self,
        elector: Elector,
        for_act: int,
        address: str,
        about: Sequence[About] = (),
    ) -> OutgoingLetter:
        """A new letter. Nobody can guess its Message-ID, so an answer that names it comes from
        whoever got the letter.
        """
        domain = self.sender.partition("@")[2]
        message_id = f"<{secrets.token_hex(16)}@{domain}>" if address else ""
        return OutgoingLetter(
            elector.number, self.kind, for_act, address, message_id, self.time, tuple(about)
        )


@dataclasses.dataclass(frozen=True, kw_only=True)
class LettersDue(Run):
    """The letters of a kind that are due, and what each says. `letters_due` finds them."""

    # the act to which they belong
    for_act: int
    compose: Compose
    new: Sequence[OutgoingLetter]
    # those that were written before, and go out again with them; and the receipts of earlier runs
    # that have files, or had them
    going_again: Sequence[OutgoingLetter] = ()
    earlier_receipts: Sequence[OutgoingLetter] = ()
    # the numbers of the letters that wait and are in no elector's receipt; and how many wait in
    # all, if they were looked at
    in_no_receipt: Sequence[int] = ()
    letters_pending: int = 0

    @property
    def to_send(self) -> list[OutgoingLetter]:
        return list(filter(self.can_be_sent, (*self.going_again, *self.new)))

    @property
    def reminded(self) -> datetime.datetime | None:
        """When others were reminded, if this run would do so again within a day."""
        if self.kind != "reminders" or self.going_again or not self.new:
            return None
        earlier = (letter.time for letter in self.noted_before if self.time - letter.time < LASTING)
        return max(earlier, default=None)

    def text_of(self, letter: OutgoingLetter) -> OutgoingText:
        """What a letter says. An address that its elector no longer has learns no own mark."""
        elector = self.electors[letter.elector]
        if not is_present(letter, self.electors):
            elector = elector._replace(mark="")
        return self.compose(elector, letter)


def is_present(letter: OutgoingLetter, electors: Mapping[int, Elector]) -> bool:
    """Whether its elector has the address of a letter now, or it is to be printed."""
    elector = electors.get(letter.elector)
    return elector is None or not letter.address or letter.address in elector.addresses


def letters_due(
    election: Election,
    kind: str,
    sender: str,
    *,
    is_sending: bool,
    because: str | None,
    has_codes: bool = False,
) -> LettersDue:
    """The letters of a kind that are due. Stops if none may go out now; `because` is the reason for
    which they go out although the box was not asked. Those of a call may have codes beside links.
    """
    history = history_once_due(election, kind, because)
    time = now()
    is_over = history.is_over(time)
    call_data, forced = call_data_of(election, history, kind, because)
    hides_codes = history.is_secret_by_click and not has_codes
    electors = electors_by_number(election, hides_codes=hides_codes)
    noted_before = outgoing.outgoing_letters(election.book, kind)
    lost = with_lost_records(election, history)
    composer = Composer(call_data, is_over, lost, history.zone)
    tried_again = not_through(election, history, electors, noted_before)
    run = Run(
        election,
        history,
        time,
        kind,
        sender,
        is_sending,
        forced,
        electors,
        composer,
        noted_before,
        tried_again,
    )
    return OF_KINDS[kind](run)


def history_once_due(election: Election, kind: str, because: str | None) -> History:
    """The acts until now. Stops if it is too early or too late for the letters, and first asks the
    web box if they need it.
    """
    history = election.history()
    demand_due(election, history, kind, is_over=history.is_over(now()))
    is_forced = has_reason(because)
    if kind in ASKING and not is_forced:
        ask_for(election, kind)
    history = election.history()
    if kind == "closed" and not is_forced:
        demand_nothing_stops(election, history, kind)
    return history


def demand_nothing_stops(election: Election, history: History, kind: str) -> None:
    pending = pending_letters(election, history)
    stop_at(what_stops(election, history, kind, pending).values())


def electors_by_number(election: Election, *, hides_codes: bool) -> dict[int, Elector]:
    return {
        elector.number: elector._replace(code="") if hides_codes else elector
        for elector in queries.electors(election.book)
    }


def not_through(
    election: Election,
    history: History,
    electors: Mapping[int, Elector],
    letters: Iterable[OutgoingLetter],
) -> Collection[str]:
    """The Message-IDs of the last of these letters to each elector whom the call has not reached,
    since a letter came back or was refused.
    """
    not_reached, _ = unreached_and_printed(election, history)
    tried = {one.elector.number for one in not_reached if one.why != NO_LETTER}
    return {
        letter.elector: letter.message_id
        for letter in letters
        if letter.elector in tried and is_present(letter, electors)
    }.values()


def demand_due(election: Election, history: History, kind: str, *, is_over: bool = False) -> None:
    """Stops at a kind of letters for which it is too early or too late, or that nobody can
    write.
    """
    if history.has_codes_on_roll:
        words = "codes are on the roll, and nobody knows whose they are, so no letters can be written to electors"
        cure = "with your mail program send call/call.txt, letters/closed.txt and letters/result.txt to all"
        raise Fault("letters", words, cure)
    if kind == "result" and history.is_closed:
        demand_nothing_stops(election, history, kind)
    cure = f"see {election.command('status')}"
    if kind in ("call", "reminders") and is_over:
        words = "the vote is over, so nobody is asked to vote"
    elif kind == "call" and history.announced("box") and history.until is None:
        words = "the call has a web box, and says no end of the vote"
        cure = f"say it: {election.command('call', '--until', 'TIME')}"
    elif kind == "void" and not history.has_void_list:
        words = "no list of tellers is void"
    elif kind in ("closed", "result") and not history.is_closed:
        words = "the vote is not closed"
        cure = f"run {election.command('close')} first"
    elif kind == "result" and not history.last_publication:
        words = "nothing is published"
        cure = f"run {election.command('publish')} first"
    else:
        return
    raise Fault(kind, words, cure)


def call_data_of(
    election: Election, history: History, kind: str, because: str | None
) -> tuple[CallData, dict[str, str]]:
    """What the letters say of the call, and the reason for which they go out although the box was
    not asked, if they do: then they say that the page takes no ballots. Stops if it has to be
    asked.
    """
    call = current_call(election, history)
    if kind == "result":
        if call.at is None:
            words = "the letter must say where the result is published"
            raise bad_arguments("--at", words, "give it: --at URL")
        if (code := history.publications[-1].detail["words"]["language"]) is not None:
            call = dataclasses.replace(call, language=language_of(code))
    fault = unasked_fault(election, history, kind)
    if fault is None:
        return call, {}
    if not has_reason(because):
        raise fault
    reason = demand_reason(because, "--force")
    without_box = dataclasses.replace(call, box_key=b"", is_without_box=True)
    return without_box, {"because": reason}


# ---- each kind
def to_each(run: Run, for_act: int, compose: Compose) -> LettersDue:
    """One letter to each elector. One to the same address for the same act stays as it is, if it
    was written since its elector has the own mark and the link of now: each is told by a letter.
    """
    since = outgoing.right_since(run.election.book, page_since(run.history))
    before = {
        (letter.elector, letter.address): letter
        for letter in run.noted_before
        if letter.for_act == for_act and letter.act >= since[letter.elector]
    }
    places = {
        (elector.number, address_in(elector.addresses)): elector
        for elector in run.electors.values()
    }
    return LettersDue(
        **vars(run),
        for_act=for_act,
        compose=compose,
        new=[
            run.letter_to(elector, for_act, place[1])
            for place, elector in places.items()
            if place not in before
        ],
        going_again=[before[place] for place in places if place in before],
    )


def calls_due(run: Run) -> LettersDue:
    """The call to each elector; after an extension that, to those whom the call has reached."""
    last = run.history.since_call("call", "extend")[-1].number
    not_reached = unreached(run.election, run.history, without=last)
    had_call = run.electors.keys() - {one.elector.number for one in not_reached}
    call = run.election.called(run.history)
    called_at = outgoing.call_addresses(run.election.book, call.number)
    return to_each(
        run,
        last,
        lambda elector, letter: run.composer.call_letter(
            elector,
            is_extension=letter.elector in had_call,
            earlier=[
                address
                for address in called_at.get(elector.name, [])
                if address not in elector.addresses
            ],
        ),
    )


def letters_pending_in(fates_by_name: Mapping[str, Sequence[Fate]]) -> int:
    letters = (fate.letter for fates in fates_by_name.values() for fate in fates)
    return len({letter.number for letter in letters if letter and letter.is_pending})


def reminders_due(run: Run) -> LettersDue:
    """A letter to each elector whose ballot does not count yet, or whose last one nobody can open;
    a receipt, if only a yes in `add` is lacking. A run of this day goes on if it was cut off, or
    the server refused some for now: then those are reminded, too, who came to it since. Else each
    run is a new one.
    """
    fates = fates_of(run.election, run.history)
    counted_answers = queries.what_counts(run.election.book)
    silent = {
        number: elector
        for number, elector in run.electors.items()
        if elector.name not in counted_answers or elector.name in run.composer.lost
    }
    # whom a letter did not reach is reminded again, but not in the same run
    run = dataclasses.replace(run, electors=silent, tried_again=())
    compose: Compose = lambda elector, _: reminder_or_receipt(
        run.composer, elector, fates[elector.name]
    )
    last = max((letter.for_act for letter in run.noted_before), default=0)
    due = to_each(run, last, compose)
    are_unsent = (
        run.can_be_sent(letter) and not letter.is_refused_for_good
        for letter in due.going_again
        if run.time - letter.time < LASTING
    )
    if not (run.is_sending and any(are_unsent)):
        due = to_each(run, run.next_act, compose)
    return dataclasses.replace(due, letters_pending=letters_pending_in(fates))


def reminder_or_receipt(
    composer: Composer, elector: Elector, fates: Sequence[Fate]
) -> OutgoingText:
    """A reminder; a receipt, if only a yes in `add` is lacking."""
    told = [fate for fate in told_of(fates).values() if fate.became is not Ruling.SET_ASIDE]
    if any(fate.became is Ruling.GOES_IN for fate in fates):
        return composer.receipt(elector, told)
    return composer.reminder(elector, told)


def receipts_due(run: Run) -> LettersDue:
    """A letter to each elector about all that came, or was struck or taken back, since the last
    one, also to an earlier address; and those that no server has taken yet.
    """
    fates = fates_of(run.election, run.history)
    to_tell = {number: told_of(fates[elector.name]) for number, elector in run.electors.items()}
    # not to people who left the list, nor about a letter that has become a ballot: a new
    # receipt is about that
    earlier = [
        letter
        for letter in run.noted_before
        if (letter.state != TAKEN or letter.message_id in run.tried_again)
        and letter.elector in to_tell
        and about_now(letter.about, to_tell[letter.elector])
    ]
    return LettersDue(
        **vars(run),
        for_act=run.next_act,
        compose=lambda elector, letter: run.composer.receipt(
            elector, beside_what_counts(letter.about, to_tell[elector.number])
        ),
        new=new_receipts(run, to_tell, earlier),
        going_again=list(filter(run.can_be_sent, earlier)) if run.is_sending else [],
        earlier_receipts=earlier,
        in_no_receipt=[
            fate.letter.number
            for fate in fates[NOBODY]
            if fate.letter and fate.became is Ruling.WAITS and not fate.letter.is_automatic
        ],
        letters_pending=letters_pending_in(fates),
    )


def new_receipts(
    run: Run, to_tell: Mapping[int, Mapping[About, Fate]], earlier: Iterable[OutgoingLetter]
) -> list[OutgoingLetter]:
    """The receipts about what no earlier one has told; not to an address to which one that is not
    sent yet says it.
    """
    # at an address that its elector no longer has a server has to have taken it; a file may have
    # gone out by a mail program, unless the server is to send it now
    came_through = (TAKEN,) if run.is_sending else (TAKEN, WRITTEN)
    told_before = {
        (letter.elector, about)
        for letter in run.noted_before
        if letter.state in came_through or is_present(letter, run.electors)
        for about in letter.about
    }
    in_earlier = {(letter.elector, letter.address): {*letter.about} for letter in earlier}
    call = run.election.called(run.history)
    old = outgoing.old_addresses(run.election.book, call.number)
    receipts = list[OutgoingLetter]()
    for number, elector in run.electors.items():
        untold = [about for about in to_tell[number] if (number, about) not in told_before]
        receipts += [
            run.letter_to(elector, run.next_act, address, untold)
            for address in dict.fromkeys([address_in(elector.addresses), *old.get(number, [])])
            if not in_earlier.get((number, address), set()).issuperset(untold)
        ]
    return receipts


def letters_of_close_due(run: Run) -> LettersDue:
    """The letter of the close to each elector, or that nobody opens its list."""
    text = closing_letter(run.election, run.history, f"{run.kind}.txt").decode()
    return to_each(
        run,
        run.history.named("reopen" if run.kind == "void" else "close")[-1].number,
        lambda elector, _: run.composer.letter("closed", elector, SUBJECTS[run.kind], letter=text),
    )


def results_due(run: Run) -> LettersDue:
    """The letter of the last publication to each elector, with the ballot of theirs that counts."""
    act = run.history.publications[-1].number
    letter = queries.sealed(run.election.book, f"{LETTERS}/{RESULT_LETTER}", act).decode()
    # since the close no other ballot counts than in the publication
    fates = fates_of(run.election, run.history)
    counted_answers = queries.what_counts(run.election.book)
    subject = subject_of_result(run.history)
    return to_each(
        run,
        act,
        lambda elector, _: run.composer.letter(
            "result",
            elector,
            subject,
            answers=counted_answers.get(elector.name),
            fates=told_of(fates[elector.name]).values(),
            letter=letter,
        ),
    )


def subject_of_result(history: History) -> str:
    """The subject of a result that differs from an earlier one: a casting vote has decided what was
    a tie since the last close, or it is corrected. Else none of its own.
    """
    *before, last = history.since_call("publish")
    subject = ""
    for act in before:
        ended = last.detail["ended"]
        changed = {label: its for label, its in act.detail["ended"].items() if its != ended[label]}
        was_decided = act in history.publications and all(
            its["winner"] is None and ended[label]["winner"] for label, its in changed.items()
        )
        if not was_decided and changed:
            return CORRECTED
        subject = DECIDED if changed else subject
    return subject


OF_KINDS = {
    "call": calls_due,
    "reminders": reminders_due,
    "receipts": receipts_due,
    "closed": letters_of_close_due,
    "void": letters_of_close_due,
    "result": results_due,
}


# ---- what electors are told
def about_now(about: Sequence[About], told: Mapping[About, Fate]) -> list[About]:
    """What a receipt is about, as it is now: a ballot may have been struck since it was written."""
    numbers = {key[:2] for key in about}
    return [key for key in told if key[:2] in numbers]


def beside_what_counts(about: Sequence[About], told: Mapping[About, Fate]) -> list[Fate]:
    """What a receipt says: what it is about, and the ballot that counts. Who reads that another one
    waits, or does not count, learns that an earlier ballot does.
    """
    current = about_now(about, told)
    return [fate for key, fate in told.items() if key in current or fate.became == COUNTS]
