"""The rules that decide whether a letter goes in by itself.

If one does not hold, it waits, with the reason of the first in `RULES`. If all hold, it goes in,
unless its elector has a later ballot. A copy of another letter, or a letter with the mark of
another vote, does neither, and what an act decided holds, whatever the rules say (`judging.py`).

They say what a letter has to be. No list of what may be wrong with a letter can be complete, so
there is none.
"""

import dataclasses
import datetime
import enum
import functools
import itertools
from collections.abc import Collection, Mapping, Sequence

from debvote_tools.book import queries
from debvote_tools.book.queries import NEXT, Elector, EnteredBallot, KeptBlock, KeptLetter, OwnMark
from debvote_tools.call.box import third_part
from debvote_tools.cli.console import for_terminals
from debvote_tools.grouping import grouped
from debvote_tools.inbox.letter import is_server
from debvote_tools.inbox.letter_lines import BallotLine, ReadLetter
from debvote_tools.inbox.letter_grammar import may_begin_quotation
from debvote_tools.inbox.letter_text import MAX_BALLOTS, ReadLine
from debvote_tools.inbox.reasons import Reason, ReasonWithValues
from debvote_tools.poll.sealed import MARKS, marks_in
from debvote_tools.text.addresses import address_key
from debvote_tools.text.ballots import Ballot

# how far the clock of a mail server may be ahead
AHEAD = datetime.timedelta(minutes=10)
# the most digits in which a mark differs from one that was copied by hand
MISCOPIED = 2


class Ruling(enum.Enum):
    """What is done with a letter, as it is judged now."""

    # no rule stops it, so it goes in when the secretary agrees in `add`; until then it is pending
    GOES_IN = "goes in"
    WAITS = "waits"
    # it is a duplicate of another letter, and is ignored
    COPY = "copy"
    # its elector has a later ballot by letter, so it can count in no case
    OLDER = "older"
    # in a vote with tellers: its elector voted on paper, or it is that of another elector
    PASSED_OVER = "passed over"
    # an act decided; a letter whose envelope was struck is set aside, too
    ENTERED = "entered"
    SET_ASIDE = "set aside"
    # it waits for nobody here, and nobody is told of it
    OTHER_VOTE = "of another vote"


# in place of what the book has of a letter that is only looked at
NOT_KEPT = KeptLetter(0, 0, 0, "", "", queries.NEVER_DECIDED)


@dataclasses.dataclass(frozen=True)
class Circumstances:
    """All that a letter is judged by, beside itself, as it is now. Times have a zone."""

    # the mark of the poll; those that polls of this book ever had, also of a call that was taken
    # back; and the own marks that its electors have or had
    mark: str
    marks: Collection[str]
    own_marks: Mapping[str, OwnMark]
    # the electors on the list, by name
    electors: Mapping[str, Elector]
    # whether letters need a signature, and not the own mark of their elector
    is_signed: bool
    # the first call that was not taken back, the end as it is now, and the first close
    called: datetime.datetime
    end: datetime.datetime | None
    first_close: datetime.datetime | None
    # no letter goes in now
    is_closed: bool
    now: datetime.datetime
    # the key of the web box
    box_key: bytes = b""
    # whether lines with what looks like a code or an alias are told: in a secret vote with names on
    # the roll
    tells_codes: bool = False
    # whether ballots are sealed to tellers, as the page alone does; the electors who have voted on
    # paper; and of what is sealed to them the first record that had it, by the host
    has_tellers: bool = False
    on_paper: Collection[str] = ()
    first_blocks: Mapping[str, KeptBlock] = dataclasses.field(default_factory=dict)

    @property
    def ends(self) -> list[datetime.datetime]:
        """What is in time arrived before all of these."""
        return [end for end in (self.end, self.first_close) if end is not None]

    def is_of_book(self, mark: str) -> bool:
        """Whether a mark is one that polls of this book had, perhaps miscopied."""
        return any(are_alike(mark, known) for known in self.marks)

    def is_mark(self, line: str) -> bool:
        """Whether a line is the mark of the poll, alone or with an own one."""
        mark = MARKS.fullmatch(line.strip())
        return mark is not None and mark[1] == self.mark

    @functools.cached_property
    def electors_by_address(self) -> dict[str, list[str]]:
        return grouped(
            (key, name)
            for name, elector in self.electors.items()
            for key in dict.fromkeys(filter(None, map(address_key, elector.addresses)))
        )

    def senders_of(self, letter: ReadLetter) -> list[str]:
        """The electors who have the sender's address; of a record the one on it, if the link is
        theirs.
        """
        if not letter.link:
            return self.electors_by_address.get(letter.sender, [])
        elector = self.electors.get(letter.elector)
        is_theirs = elector and letter.link == third_part(self.box_key, elector.name, elector.mark)
        return [letter.elector] if is_theirs else []

    def own_mark_of(self, letter: ReadLetter) -> OwnMark:
        """Whose own mark its subject has, or had. A subject with several, or with that of nobody,
        counts as one with the poll's mark alone.
        """
        own_marks = {own for mark, own in letter.marks if own and mark == self.mark}
        own_mark = own_marks.pop() if len(own_marks) == 1 else ""
        return self.own_marks.get(own_mark, OwnMark(""))


# ---- a letter
class LetterCase:
    """A letter with all that it is judged by: what was read of it and the circumstances; what the
    book keeps of it, and its ballots that were entered. What becomes of it `judge_all` finds.
    """

    ruling = Ruling.WAITS
    # why it waits or was set aside
    reason: ReasonWithValues | None = None
    # its electors who have a later ballot, or may have: whether it is sure
    voted_since: Mapping[str, bool] = {}

    def __init__(
        self,
        letter: ReadLetter,
        circumstances: Circumstances,
        kept: KeptLetter = NOT_KEPT,
        entered: Sequence[EnteredBallot] = (),
    ) -> None:
        self.read = letter
        self.circumstances = circumstances
        self.kept = kept
        # in the book; 0 if it is only looked at
        self.number = kept.number
        self.entered = entered
        # the electors who may have sent it, and the one whose own mark the subject has, or had
        self.sharing = circumstances.senders_of(letter)
        self.marked_elector, self.mark_ended = circumstances.own_mark_of(letter)
        self.is_automatic = letter.is_automatic or (is_server(letter.sender) and not self.sharing)
        # the time of its ballot: if letters have to be signed, that of the signature; of a record
        # in a file, in which others can exchange times, that of its device
        signature = letter.signature if circumstances.is_signed else None
        self.time = letter.arrived if signature is None else signature.time
        if letter.is_fetched and letter.sent and self.time and letter.is_dated_alike(self.time):
            self.time = letter.sent.replace(microsecond=0)
        # what a person may enter, and those that are written as ballots are
        self.proposals = self.valid_ballots()
        self.ballots = () if letter.text.is_proposed else self.proposals
        # the ballot that may go in
        self.line = self.ballots[0] if len(self.ballots) == 1 else None
        self.elector = "" if self.line is None else self.line.ballot.elector

    def valid_ballots(self) -> tuple[BallotLine, ...]:
        """The valid ballots in it, of electors who are known, each once."""
        ballots = dict[Ballot, BallotLine]()
        for line in self.read.text.ballots:
            elector = self.elector_of(line)
            if elector and line.answer is None:
                ballot = Ballot(f"{elector} {line.ranks}")
                ballots.setdefault(ballot, BallotLine(line.number, ballot, line.written))
        return tuple(ballots.values())

    @property
    def code_lines(self) -> Sequence[int]:
        """The lines with what looks like a code or an alias, if they are told."""
        return self.read.code_lines if self.circumstances.tells_codes else ()

    @property
    def refused(self) -> list[ReadLine]:
        """What reads as a ballot and is none, if it has no ballot."""
        is_told = not self.ballots and not self.is_automatic
        return [line for line in self.read.text.ballots if is_told and line.answer is not None]

    @property
    def has_more_answers(self) -> bool:
        """Whether another line of it looks like an answer."""
        return self.read.text.has_more_answers or any(
            line.answer is not None or self.elector_of(line) is None
            for line in self.read.text.ballots
        )

    @property
    def sole_line(self) -> BallotLine:
        """`line`, of a letter that breaks no rule."""
        assert self.line is not None
        return self.line

    def elector_of(self, line: ReadLine) -> str | None:
        """Whose ballot a line is: if several have its name, the only one of them with the sender's
        address; if it has no name, who sent it.
        """
        if not line.meant:
            return next((name for name in self.sharing if self.is_tied(name)), None)
        if len(line.meant) == 1:
            return line.meant[0]
        return self.sending_elector if self.sending_elector in line.meant else None

    def is_tied(self, elector: str) -> bool:
        """Whether an elector sent it: by their link; or from an address of theirs, with their own
        mark or, where letters have to be signed, with a good signature. With codes on the roll
        nobody has an address.
        """
        if elector not in self.sharing:
            return False
        if self.read.link:
            return True
        if self.circumstances.is_signed:
            signature = self.read.signature
            key = self.circumstances.electors[elector].key
            return signature is not None and signature.fingerprint == key
        return self.marked_elector == elector and self.mark_ended is None

    @property
    def marks(self) -> set[str]:
        """The marks of polls in its subject, and in a text that must be signed."""
        signed = self.read.body.lines if self.circumstances.is_signed else ()
        return {mark for mark, _ in itertools.chain(self.read.marks, *map(marks_in, signed))}

    @property
    def other_vote(self) -> str:
        """The mark of the other vote that it is of; empty if it is of this one, or has no mark. It
        is of this one if a mark in it is one of this book, also miscopied, or an own one.
        """
        circumstances = self.circumstances
        marks = self.read.marks
        is_ours = any(
            own_mark in circumstances.own_marks or circumstances.is_of_book(mark)
            for mark, own_mark in marks
        )
        return "" if is_ours or not marks else marks[0][0]

    @functools.cached_property
    def first_broken_rule(self) -> ReasonWithValues | None:
        """Runs the rules in order: why the first one does not hold, whatever other letters there
        are.
        """
        return next(filter(None, (rule(self) for rule in RULES)), None)

    def can_hide(self, copy: "LetterCase") -> bool:
        """Whether it can hide a copy, also one that differs from it: it went in once, whatever was
        decided of it since, or breaks no rule. One that went in by hand, and arrived after the end,
        hides none that did not.
        """
        is_as_early = copy.arrived_after_end or not self.arrived_after_end
        return is_as_early and (bool(self.entered) or self.first_broken_rule is None)

    @property
    def entered_answers(self) -> dict[tuple[str, str], EnteredBallot]:
        """The last ballot of it that was entered and is not struck, by elector and label."""
        entered = (one for one in self.entered if not one.is_struck)
        return {part: one for one in entered for part in one.ballot.parts}

    @property
    def not_taken_back(self) -> list[EnteredBallot]:
        """The ballots of it that were entered, also if they were struck."""
        return [ballot for ballot in self.entered if not ballot.is_taken_back]

    @property
    def is_decided(self) -> bool:
        """Whether an act decided what becomes of it."""
        return self.kept.state != queries.NEVER_DECIDED

    @property
    def is_pending(self) -> bool:
        """Whether the secretary still has to look at it, since it waits, or to agree in `add` that
        it goes in.
        """
        return self.ruling in (Ruling.GOES_IN, Ruling.WAITS)

    @property
    def to_enter(self) -> Sequence[BallotLine]:
        """What a person may enter at once: the one ballot in it, or those of a couple, if it has no
        other line that looks like an answer, and no text that is not shown.
        """
        is_shown = self.read.body.trouble in (None, Reason.HTML_ALONE(), Reason.CARD())
        is_clear = len(self.proposals) == 1 or self.is_of_couple
        return self.proposals if is_clear and is_shown and not self.has_more_answers else ()

    @property
    def is_of_couple(self) -> bool:
        """Whether two electors have a ballot each, who have the sender's address, and one of whom
        sent it.
        """
        names = {line.ballot.elector for line in self.proposals}
        is_theirs = names.issubset(self.sharing) and any(map(self.is_tied, names))
        return is_theirs and len(names) == len(self.proposals) == 2

    @property
    def is_nothing_else(self) -> bool:
        """Whether a ballot is all that it says, by a subject of ours."""
        return self.is_bare_ballot and why_not_of_this_vote(self) is None

    @property
    def is_bare_ballot(self) -> bool:
        """Whether it has a ballot as lines have it, and nothing else: in one plain text that no
        program may show otherwise, with no file.
        """
        read = self.read
        has_more = read.text.words or read.text.is_proposed or read.attachments
        is_plain = read.is_plain and read.body.trouble is None and len(self.to_enter) == 1
        if has_more or not is_plain:
            return False
        return not self.may_be_quoted(self.to_enter[0])

    def may_be_quoted(self, line: BallotLine) -> bool:
        """Whether a quotation may begin above a ballot: somebody else may have written it."""
        return any(map(may_begin_quotation, self.read.body.lines[: max(0, line.number - 1)]))

    @property
    def arrived_before_call(self) -> bool:
        """Whether it is known to have arrived before the call."""
        return any(last <= self.circumstances.called for last in self.arrivals[-1:])

    @property
    def arrivals(self) -> list[datetime.datetime]:
        """When it may have arrived, the earliest time first and the latest last: the clock of a web
        host may be off, and it may date a record anew.
        """
        arrived = self.read.arrived
        off = datetime.timedelta(seconds=self.read.behind)
        return sorted((arrived, arrived + off, self.read.sent or arrived)) if arrived else []

    def arrived_after(self, *ends: datetime.datetime | None) -> bool:
        """Whether it is known to have arrived after one of these times."""
        return any(first > end for first in self.arrivals[:1] for end in ends if end is not None)

    @property
    def arrived_after_close(self) -> bool:
        """Whether it is known to have arrived after the first close."""
        return self.arrived_after(self.circumstances.first_close)

    @property
    def arrived_after_end(self) -> bool:
        """Whether it is known to have arrived after the end or the first close."""
        return self.arrived_after(*self.circumstances.ends)

    @property
    def arrived_in_time(self) -> bool:
        """Whether nobody knows that it came too late; nor before the call, unless it has the mark
        of the poll, which nobody had before: then the clock of its server was wrong.
        """
        is_of_poll = any(mark == self.circumstances.mark for mark, _ in self.read.marks)
        return not self.arrived_after_end and (is_of_poll or not self.arrived_before_call)

    @property
    def sending_elector(self) -> str | None:
        """The only elector who may have sent it."""
        return self.sharing[0] if len(self.sharing) == 1 else None

    @functools.cached_property
    def electors(self) -> tuple[str, ...]:
        """The electors on its ballots, or near to one; else the one who sent it."""
        named = [line.ballot.elector for line in self.ballots]
        named += [line.meant[0] for line in self.refused if len(line.meant) == 1]
        return tuple(dict.fromkeys(named or filter(None, [self.sending_elector])))

    @property
    def shared_with(self) -> tuple[str, ...]:
        """The other electors who have the sender's address."""
        return tuple(name for name in self.sharing if name not in self.electors)


# ---- the rules: each says why it does not hold, and None if it holds
def why_not_readable(case: LetterCase) -> ReasonWithValues | None:
    """A person wrote the letter, and all programs read it in one way."""
    if case.read.is_parted_off:
        return Reason.PARTED_OFF()
    return Reason.AUTOMATIC() if case.is_automatic else case.read.body.trouble


def why_not_own_vote(case: LetterCase) -> ReasonWithValues | None:
    """In a vote with tellers: its elector has not voted on paper, since a slip can't be taken out
    of the urn; and nobody else has sent what is sealed in it before: whoever copies a ballot would
    learn from the lists whether that is there.
    """
    read = case.read
    if not read.block:
        return None
    if read.elector in case.circumstances.on_paper:
        return Reason.ON_PAPER(elector=read.elector)
    first = case.circumstances.first_blocks.get(read.block)
    if first is None or first.elector == read.elector:
        return None
    arrived = read.arrived
    is_later = arrived is None or (first.arrived, first.letter) < (arrived, case.number or NEXT)
    return Reason.BLOCK_OF_OTHER(elector=read.elector) if is_later else None


def why_not_sealed(case: LetterCase) -> ReasonWithValues | None:
    """In a vote with tellers: the page has sealed it, so that nobody reads it."""
    is_open = case.circumstances.has_tellers and not case.read.block
    has_answer = case.read.text.ballots or case.read.text.has_more_answers
    return Reason.NOT_SEALED() if is_open and has_answer else None


def why_not_in_time(case: LetterCase) -> ReasonWithValues | None:
    """The letter arrived after the call, and not after the end or the first close; and if the box
    had it when it was asked before, that asking brought it. The device of its elector says the same
    time, and a later one than of all that came before it.
    """
    read = case.read
    circumstances = case.circumstances
    if (arrived := read.arrived) is None:
        return Reason.NO_ARRIVAL()
    if read.sent and not read.is_dated_alike(arrived):
        return Reason.OTHER_TIME(sent=read.sent)
    if case.arrived_before_call:
        return Reason.BEFORE_THE_CALL(called=circumstances.called)
    if (end := circumstances.end) and case.arrived_after(end):
        return Reason.AFTER_THE_END(end=end)
    if (close := circumstances.first_close) and case.arrived_after(close):
        return Reason.AFTER_THE_CLOSE(close=close)
    if any(case.arrivals[-1] > last for last in circumstances.ends):
        return Reason.CLOCK_AT_THE_END(sent=read.sent or arrived, seconds=abs(read.behind))
    if read.asked_before is not None and arrived < read.asked_before:
        return Reason.NOT_THERE_BEFORE(asked=read.asked_before)
    if read.sent and read.sent_before and read.sent <= read.sent_before:
        return Reason.NOT_SENT_LATER()
    latest = read.latest or circumstances.now + AHEAD
    return Reason.IN_THE_FUTURE(arrived=arrived) if arrived > latest else None


def why_not_from_its_elector(case: LetterCase) -> ReasonWithValues | None:
    """The letter comes by the link of its elector, from the box itself; or from an address of
    theirs, with the own mark unless letters have to be signed.
    """
    read = case.read
    elector = case.elector
    if not (read.sender or read.link):
        return Reason.NO_SENDER(sender=for_terminals(read.shown_sender))
    if case.line is None:
        return None
    is_theirs = elector in case.sharing
    if is_theirs and read.is_fetched:
        return Reason.FETCHED()
    if case.is_tied(elector) or (is_theirs and case.circumstances.is_signed):
        return None
    if read.link:
        return Reason.OTHER_LINK(elector=elector)
    has_own_mark = case.marked_elector == elector
    if has_own_mark and case.mark_ended:
        return Reason.OLD_OWN_MARK(elector=elector, until=case.mark_ended)
    if is_theirs:
        return why_not_of_this_vote(case) or Reason.NO_OWN_MARK(elector=elector)
    if has_own_mark:
        return Reason.OWN_MARK_ELSEWHERE(sender=read.sender, elector=elector)
    listed = case.circumstances.electors.get(elector)
    if listed is None or not listed.addresses:
        return Reason.NO_ADDRESS(elector=elector)
    addresses = " and ".join(listed.addresses)
    return Reason.OTHER_SENDER(sender=read.sender, listed=addresses, elector=elector)


def why_not_signed_by_its_elector(case: LetterCase) -> ReasonWithValues | None:
    """The letter has a good signature, if it must: only what was signed is its text."""
    letter = case.read
    elector = case.elector
    circumstances = case.circumstances
    if not circumstances.is_signed or case.line is None:
        return None
    if (signature := letter.signature) is None:
        return letter.why_unsigned or Reason.NOT_SIGNED()
    key = circumstances.electors[elector].key if elector in circumstances.electors else ""
    if not key:
        return Reason.NO_KEY(elector=elector)
    if signature.fingerprint != key:
        return Reason.OTHER_KEY(key=signature.fingerprint, listed=key, elector=elector)
    if signature.time <= circumstances.called:
        return Reason.SIGNED_BEFORE_THE_CALL(time=signature.time)
    if letter.arrived is None or signature.time > letter.arrived + AHEAD:
        return Reason.SIGNED_AHEAD(time=signature.time)
    has_mark = any(map(circumstances.is_mark, letter.body.lines))
    return None if has_mark else Reason.NO_MARK(mark=circumstances.mark)


def why_not_alone(case: LetterCase) -> ReasonWithValues | None:
    """A ballot is all that its sender wrote in it, but for greetings, farewells and a signature."""
    text = case.read.text
    if crowd := text.crowd:
        return Reason.TOO_LONG(length=crowd, what="lines like ballots", limit=MAX_BALLOTS)
    if case.line is None:
        return Reason.SEVERAL() if case.ballots else Reason.NO_BALLOT()
    if text.is_alone:
        return None
    is_below = text.has_more_answers and not text.words
    return (Reason.ANSWER_BELOW if is_below else Reason.NOT_ALONE)(number=case.line.number)


def why_not_of_this_vote(case: LetterCase) -> ReasonWithValues | None:
    """The subject has the mark of the poll, and no other; nor has a text that must be signed."""
    mark = case.circumstances.mark
    has_it_alone = case.read.marks and case.marks == {mark}
    return why_other_mark(case) or (None if has_it_alone else Reason.NO_SUBJECT_MARK(mark=mark))


def why_other_mark(case: LetterCase) -> ReasonWithValues | None:
    """The letter has no mark of another vote, or of a call that was taken back: the ranks would be
    those of other options.
    """
    circumstances = case.circumstances
    others = (mark for mark in sorted(case.marks) if not are_alike(mark, circumstances.mark))
    if (mark := next(others, None)) is None:
        return None
    return (Reason.OLD_MARK if circumstances.is_of_book(mark) else Reason.OTHER_MARK)(mark=mark)


def are_alike(mark: str, other: str) -> bool:
    """Whether one of two marks may be the other one, miscopied."""
    return sum(digit != digit_there for digit, digit_there in zip(mark, other)) <= MISCOPIED


# a letter waits with the reason of the first that it breaks
RULES = (
    # first: of a letter that programs read in several ways nothing else is certain
    why_not_readable,
    # before all that would have it wait
    why_not_own_vote,
    why_not_sealed,
    # before what its sender could mend: nobody is asked to send anew what came too late
    why_not_in_time,
    # before the signature: whose ballot it is says with whose key it has to be signed
    why_not_from_its_elector,
    # before the lines: of a signed letter only what was signed counts as its text
    why_not_signed_by_its_elector,
    # before the mark: who wrote no ballot is told that, and not to add a mark to it
    why_not_alone,
    # last: a letter of another vote is passed over, whatever else it breaks (`other_vote`)
    why_not_of_this_vote,
)
