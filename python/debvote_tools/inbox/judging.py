"""The case of each letter: what becomes of it, judged anew whenever letters are looked at.

A letter is judged by the rules, beside the other letters and the ballots of its elector, and by the
vote, the electors and the book as they are now.
"""

import bisect
import collections
import datetime
import functools
import itertools
import operator
from collections.abc import Collection, Iterable, Mapping, Sequence, Set

from debvote_tools.book import queries
from debvote_tools.book.queries import KeptLetter, TimedBallot
from debvote_tools.call.tellers import ON_PAPER
from debvote_tools.election import BOX_KEY, KEYRING, History
from debvote_tools.grouping import grouped
from debvote_tools.inbox.letter import Body
from debvote_tools.inbox.letter_lines import ReadLetter, from_json, read_letters
from debvote_tools.inbox.mailbox import RawLetter
from debvote_tools.inbox.reasons import Reason, ReasonWithValues
from debvote_tools.inbox.rules import (
    Circumstances,
    LetterCase,
    Ruling,
    why_not_own_vote,
)
from debvote_tools.inbox.vote import Vote
from debvote_tools.text import times
from debvote_tools.text.ballots import Ballot

# what becomes of a letter, and why it waits or was set aside
Judgement = tuple[Ruling, ReasonWithValues | None]

# what an act decided holds, whatever the rules say
DECIDED: Mapping[str, Judgement] = {
    queries.ENTERED: (Ruling.ENTERED, None),
    queries.SET_ASIDE: (Ruling.SET_ASIDE, Reason.SET_ASIDE()),
    queries.STRUCK: (Ruling.SET_ASIDE, Reason.STRUCK()),
    queries.TAKEN_BACK: (Ruling.WAITS, Reason.TAKEN_BACK()),
    queries.PUT_BACK: (Ruling.WAITS, Reason.PUT_BACK()),
}

TIME = operator.attrgetter("time")


class ElectorBallots:
    """The ballots of an elector, beside which letters are judged. Of thousands each letter looks at
    few.
    """

    def __init__(self, ballots: Iterable[TimedBallot] = ()) -> None:
        # in the order `queries.by_time`: all; by the labels of their answers; and by how far the
        # clock of each was behind
        self.every = [*ballots]
        self.by_label = grouped((label, ballot) for ballot in self.every for label in ballot.labels)
        self.by_clock = grouped((ballot.behind, ballot) for ballot in self.every)

    def add(self, ballot: TimedBallot) -> None:
        by_label = (self.by_label.setdefault(label, []) for label in ballot.labels)
        for ballots in (self.every, *by_label, self.by_clock.setdefault(ballot.behind, [])):
            bisect.insort(ballots, ballot, key=queries.by_time)
        vars(self).pop("next_others", None)

    @functools.cached_property
    def next_others(self) -> dict[str, list[int]]:
        """By label, of each ballot with an answer to this question, the index of the next one with
        another.
        """
        next_others = dict[str, list[int]]()
        for label, ballots in self.by_label.items():
            ends = next_others[label] = []
            for _, run in itertools.groupby(ballot.answers[label] for ballot in ballots):
                alike = [*run]
                ends += [len(ends) + len(alike)] * len(alike)
        return next_others

    def labels_of(self, own: TimedBallot) -> Set[str]:
        """The labels of the questions that a ballot of a letter answers, or of all if it is not
        known, to which there are answers.
        """
        return self.by_label.keys() & (own.labels or self.by_label.keys())

    def later(self, own: TimedBallot, *, by_letter: bool = False) -> dict[str, TimedBallot]:
        """The last ballots that are later than one in a letter, by whichever clock, by the labels
        of its questions: all, or those that came by letter; nothing where its time is not known.
        """
        last_later = {}
        for label in self.labels_of(own) if own.is_by_letter else ():
            for ballot in reversed(self.by_label[label]):
                if queries.by_time(ballot) <= queries.by_time(own):
                    break
                if (ballot.is_by_letter or not by_letter) and not own.may_turn(ballot):
                    last_later[label] = ballot
                    break
        return last_later

    def has_voted_since(self, own: TimedBallot) -> bool | None:
        """Whether it is sure that the elector has a later ballot than one in a letter, which
        answers one of the same questions; None if they have none. Where its time is not known, each
        may be later.
        """
        if self.later(own):
            return True
        perhaps = self.turned(own) if own.is_by_letter else self.labels_of(own)
        return False if perhaps else None

    def first_other(
        self,
        own: TimedBallot,
        begin: datetime.datetime,
        end: datetime.datetime,
        known: Collection[int] = (),
    ) -> TimedBallot | None:
        """The first ballot from a time until before another time, but for those in these envelopes,
        that answers a question in another way than a ballot of a letter. Of thousands that are
        alike it looks at one.
        """
        others = []
        for label, answer in own.answers.items():
            ballots = self.by_label.get(label, [])
            at = bisect.bisect_left(ballots, begin, key=TIME)
            while at < len(ballots) and ballots[at].time < end:
                is_other = ballots[at].answers[label] != answer
                if is_other and ballots[at].number not in known:
                    others.append(ballots[at])
                    break
                at = at + 1 if is_other else self.next_others[label][at]
        return min(others, key=queries.by_time) if others else None

    def has_other_at_once(self, own: TimedBallot) -> bool:
        """Whether another answer to a question has the same time as one in a ballot of a letter."""
        end = own.time + datetime.timedelta(seconds=1)
        return self.first_other(own, own.time, end) is not None

    def turned(self, own: TimedBallot) -> TimedBallot | None:
        """The first ballot that may stand on the other side of one of a letter by the clock of this
        computer: of each other clock only those may whose times are within the difference.
        """
        turned = list[TimedBallot]()
        for behind, ballots in self.by_clock.items():
            by_its_clock = own.time + datetime.timedelta(seconds=own.behind - behind)
            within = sorted((own.time, by_its_clock))
            places = range(*(bisect.bisect_right(ballots, time, key=TIME) for time in within))
            turned += itertools.islice(filter(own.may_turn, map(ballots.__getitem__, places)), 1)
        return min(turned, key=queries.by_time) if turned else None


BallotsByElector = collections.defaultdict[str, ElectorBallots]


def judged(
    vote: Vote,
    history: History,
    kept_letters: Sequence[KeptLetter],
    previewed: Sequence[ReadLetter] = (),
) -> list[LetterCase]:
    """Letters that the book has, as they are judged now, and letters that `add --look` previews, in
    the order of their times.
    """
    if not kept_letters and not previewed:
        return []
    circumstances = circumstances_now(vote, history)
    entered = queries.entered_ballots(vote.book, [letter.number for letter in kept_letters])
    cases = [
        LetterCase(read, circumstances, letter, entered.get(letter.number, ()))
        for read, letter in zip(read_kept(vote, kept_letters), kept_letters)
    ]
    cases += (LetterCase(read, circumstances) for read in previewed)
    names = {elector for case in cases for elector in case.electors}
    names.update(one.ballot.elector for case in cases for one in case.entered)
    return judge_all(cases, ballots_in(vote, names))


def letters_now(vote: Vote) -> dict[int, LetterCase]:
    """The letters that may wait, and their copies, as they are judged now, by number."""
    kept_letters = queries.may_wait(vote.book)
    return {letter.number: letter for letter in judged(vote, vote.election.history(), kept_letters)}


# ---- what they are judged by
def read_kept(vote: Vote, kept_letters: Sequence[KeptLetter]) -> list[ReadLetter]:
    """What the book keeps of letters. A signature is checked anew if the letter came before the
    present keyring, or gpgv was too slow: of an unsettled letter; and, if such a one is signed, of
    those that were settled without a good signature, since only then a copy is known as one.
    """
    read = {letter.number: from_json(letter.read_json) for letter in kept_letters}
    unsettled = [letter for letter in kept_letters if letter.is_unsettled]
    read |= checked_again(vote, unsettled, read)
    if any(read[letter.number].signature for letter in unsettled):
        unsigned = (
            letter
            for letter in kept_letters
            if not letter.is_unsettled and read[letter.number].signature is None
        )
        read |= checked_again(vote, unsigned, read)
    return [*read.values()]


def checked_again(
    vote: Vote, kept_letters: Iterable[KeptLetter], read: Mapping[int, ReadLetter]
) -> dict[int, ReadLetter]:
    """Those letters of which a signature may be good now, read again, by number."""
    sealed = queries.last_act_that_sealed(vote.book, KEYRING)
    raws = {}
    for letter in kept_letters:
        before = read[letter.number]
        if before.is_slow or (letter.act < sealed and not before.is_never_signed):
            # no record of the box: a vote with signatures has none
            data = queries.source_of(vote.book, letter.source)
            raws[letter.number] = RawLetter(before.where, data, before.is_parted_off)
    return dict(zip(raws, read_letters(vote, [*raws.values()])))


def ballots_in(vote: Vote, names: Collection[str]) -> BallotsByElector:
    """The ballots of some electors that were entered in time and are not struck."""
    by_name = queries.ballots_of(vote.book, names).items()
    return BallotsByElector(
        ElectorBallots, {name: ElectorBallots(ballots) for name, ballots in by_name}
    )


def circumstances_now(vote: Vote, history: History) -> Circumstances:
    """What letters are judged by, as the election is now."""
    election = vote.election
    book = vote.book
    return Circumstances(
        mark=election.sealed().public.mark,
        marks={election.sealed(act).public.mark for act in history.named("call")},
        own_marks=queries.own_marks(book),
        electors={elector.name: elector for elector in queries.electors(book)},
        is_signed=vote.is_signed,
        tells_codes=vote.questions.is_secret and not vote.has_codes,
        called=vote.call.time,
        end=history.until,
        first_close=history.closes[0].time if history.closes else None,
        is_closed=history.is_closed,
        now=times.now(),
        box_key=queries.sealed(book, BOX_KEY),
        has_tellers=vote.has_tellers,
        on_paper=queries.electors_with(book, ON_PAPER) if vote.has_tellers else (),
        first_blocks=queries.first_blocks(book) if vote.has_tellers else {},
    )


# ---- one letter beside the others
def judge_all(cases: Iterable[LetterCase], by_elector: BallotsByElector) -> list[LetterCase]:
    """Judges letters, and returns them by their times; those without a time come last. What an act
    decided holds; a letter that breaks a rule waits. Of the letters of one identity, mostly one
    alone, the first that breaks none is the original, whose time is its own; the others may be its
    copies.
    """
    cases = sorted(cases, key=lambda case: (case.time is None, case.time or case.circumstances.now))
    for case in cases:
        case.ruling, case.reason = DECIDED.get(case.kept.state) or (
            Ruling.WAITS,
            case.first_broken_rule,
        )
    groups = grouped((case.read.identity, case) for case in cases).values()
    originals = set(filter(None, map(original_of, groups)))
    judge_originals(cases, originals, by_elector)
    for group in groups:
        judge_copies(group, originals, by_elector)
    for case in cases:
        if case.ruling is Ruling.WAITS and not case.is_decided and case.other_vote:
            case.ruling = Ruling.OTHER_VOTE
            case.reason = Reason.OTHER_MARK(mark=case.other_vote)
        # also a letter whose ballot was taken back
        elif case.ruling is Ruling.WAITS and (why := why_not_own_vote(case)):
            case.ruling = Ruling.PASSED_OVER
            case.reason = why
        case.voted_since = voted_since(case, by_elector)
    return cases


def ballot_in(case: LetterCase, ballot: Ballot) -> TimedBallot:
    """A ballot of a letter beside others. Where its time is not known it has the one of now, as
    when it is entered.
    """
    time = case.time or case.circumstances.now
    is_by_letter = case.time is not None
    return TimedBallot(time, ballot, is_by_letter, case.read.behind, block=case.read.block)


def voted_since(case: LetterCase, by_elector: BallotsByElector) -> dict[str, bool]:
    """The electors of a letter who have a later ballot, or may have, and whether it is sure. If
    answers of theirs stand in the letter, it is one that answers one of the same questions.
    """
    since: dict[str, bool] = {}
    for elector in case.electors:
        ballots = [line.ballot for line in case.ballots if line.ballot.elector == elector]
        for ballot in ballots or [Ballot("")]:
            is_sure = by_elector[elector].has_voted_since(ballot_in(case, ballot))
            if is_sure is not None:
                since[elector] = is_sure or since.get(elector, False)
    return since


def original_of(group: Sequence[LetterCase]) -> LetterCase | None:
    """Of the letters of one identity the first that may go in, unless an act decided of one that
    hides the others.
    """
    may_go_in = (case for case in group if not case.is_decided and case.first_broken_rule is None)
    original = next(may_go_in, None)
    is_hidden = original and any(case.is_decided and case.can_hide(original) for case in group)
    return None if is_hidden else original


def judge_originals(
    cases: Sequence[LetterCase], originals: Collection[LetterCase], by_elector: BallotsByElector
) -> None:
    """Judges the letters that break no rule, by their times, and puts the ballots of those that do
    not wait to the others of their electors.
    """
    in_order = {case: ballot_in(case, case.sole_line.ballot) for case in cases if case in originals}
    of_letters = grouped((case.elector, own) for case, own in in_order.items())
    # the ballots of letters that wait among them
    every = {
        elector: ElectorBallots(sorted((*by_elector[elector].every, *owns), key=queries.by_time))
        for elector, owns in of_letters.items()
    }
    # copies of these are not known as such, while gpgv does not answer
    unchecked = {
        line.ballot
        for case in cases
        if case.is_decided and case.read.is_slow
        for line in case.ballots
    }
    for case, own in in_order.items():
        ballots = by_elector[case.elector]
        case.ruling, case.reason = judgement_of_original(
            case,
            own,
            ballots,
            has_other_at_once=every[case.elector].has_other_at_once(own),
            is_unchecked=own.ballot in unchecked,
        )
        if case.ruling is not Ruling.WAITS:
            ballots.add(own)


def judgement_of_original(
    case: LetterCase,
    own: TimedBallot,
    ballots: ElectorBallots,
    *,
    has_other_at_once: bool,
    is_unchecked: bool,
) -> Judgement:
    """What becomes of a letter that breaks no rule, beside the ballots of its elector: they have to
    be older, but for the same one; none of them, or of another letter, may answer in another way at
    the same time; and the vote may not be closed.
    """
    elector = case.elector
    if turned := ballots.turned(own):
        return Ruling.WAITS, Reason.CLOCKS(elector=elector, time=turned.time)
    if later := ballots.later(own):
        # this one can count in no case; the time of a line is only when somebody entered it
        is_older = ballots.later(own, by_letter=True).keys() == own.labels
        reason = Reason.LATER_BALLOT(elector=elector, time=max(map(TIME, later.values())))
        return Ruling.OLDER if is_older else Ruling.WAITS, reason
    if has_other_at_once:
        return Ruling.WAITS, Reason.SAME_TIME(elector=elector, time=own.time)
    if is_unchecked:
        return Ruling.WAITS, Reason.PERHAPS_COPY()
    if case.circumstances.is_closed:
        # it would become late, and the plainer a ballot is, the less would that be noticed. This
        # comes last: whoever sets letters aside has to see that one has no ballot
        return Ruling.WAITS, Reason.CLOSED()
    return Ruling.GOES_IN, None


def judge_copies(
    group: Sequence[LetterCase], originals: Collection[LetterCase], by_elector: BallotsByElector
) -> None:
    """Which letters of one identity are ignored as copies: of one that went in, though it was
    taken back or struck since, or that breaks no rule. One that breaks a rule, and never went in,
    hides only those with the same reason and body.
    """
    others = {case for case in group if not case.is_decided and case not in originals}
    if not others:
        return
    # the one that went in, else the one that an act decided of, else the one that arrived first
    hiders = sorted(
        (case for case in group if case.can_hide(case)),
        key=lambda case: (not case.entered, not case.is_decided),
    )
    # each is a copy of the hider, if that hides it; else of the first one alike
    first_alike: dict[tuple[ReasonWithValues | None, Body, bool], LetterCase] = {}
    for case in sorted(group, key=lambda case: not case.is_decided):
        facts = case.first_broken_rule, case.read.body, case.arrived_in_time
        before = first_alike.setdefault(facts, case)
        if hider := next((hider for hider in hiders if hider.can_hide(case)), None):
            is_done = hider.is_decided or hider.ruling is not Ruling.WAITS
            before = hider if is_done or case.first_broken_rule is None else before
        if case in others and before is not case:
            case.ruling, case.reason = judgement_of_copy(case, before, by_elector)


def judgement_of_copy(
    case: LetterCase, original: LetterCase, by_elector: BallotsByElector
) -> Judgement:
    """A copy of a letter is ignored, unless another ballot lies between: which of the two copies
    was read first depends on the order of the mailboxes, and may not decide which ballot is the
    last.
    """
    if original.time is None or case.time is None:
        return Ruling.COPY, None
    begin, end = sorted((original.time, case.time))
    # not what was typed for it, nor another line of it
    known = {ballot.number for ballot in original.entered}
    typed = (one.ballot for one in original.not_taken_back if one.is_typed)
    for ballot in (*(line.ballot for line in case.ballots), *typed):
        own, elector = ballot_in(original, ballot), ballot.elector
        if between := by_elector[elector].first_other(own, begin, end, known):
            return Ruling.WAITS, Reason.CAME_BEFORE(
                elector=elector, time=case.time, first=original.time, between=between.time
            )
    return Ruling.COPY, None
