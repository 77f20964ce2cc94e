"""What becomes of letters beside each other: their order, copies, and what acts decided before."""

import collections
import itertools
import random
import unittest
from collections.abc import Sequence
from typing import NamedTuple

from debvote_tools.book import queries
from debvote_tools.book.queries import TimedBallot
from debvote_tools.inbox.judging import judge_all
from debvote_tools.inbox.letter import ParsedLetter
from debvote_tools.inbox.letter_lines import ReadLetter
from debvote_tools.inbox.reasons import for_secretary
from debvote_tools.inbox.rules import LetterCase, Ruling

from tests.support.letters import (
    BALLOT,
    IN,
    OTHER,
    RANDOM_LETTERS,
    RANKS,
    alternatives,
    at,
    at_time,
    case_of,
    circumstances,
    in_order,
    judged,
    letter,
    lines_in,
    outcome,
    outcomes,
    parsed,
    read,
)


AUTOMATIC = b"Auto-Submitted: auto-replied\n"


def hour(of_day: int, second: int = 0) -> str:
    return f"Mon, 23 Nov 2026 {of_day:02}:00:{second:02} +0000"


def first(of_day: int = 10, text: str = f"{BALLOT}\n", **how: object) -> bytes:
    """The letter of which there are copies."""
    return letter("ada", text, **{"time": hour(of_day), **how})  # type: ignore[arg-type]


def other(of_day: int, second: int = 0, **how: object) -> bytes:
    """A letter with another ballot of its elector."""
    return letter("ada", OTHER, **{"number": 2, "time": hour(of_day, second), **how})  # type: ignore[arg-type]


def bens(of_day: int) -> bytes:
    return letter("ben", f"ben {RANKS}", time=hour(of_day))


def above(data: bytes, line: bytes) -> bytes:
    """A letter with one more line in its head."""
    return data.replace(b"To: ", line + b"To: ", 1)


def entered(*letters: LetterCase) -> dict[str, object]:
    """The circumstances when what goes in of these has gone in."""
    going = [one for one in letters if one.ruling is Ruling.GOES_IN]
    ballots = collections.defaultdict[str, list[TimedBallot]](list)
    for one in going:
        assert one.time is not None
        ballots[one.electors[0]].append(at_time(one.time, one.ballots[0].ballot.line, True))
    return {"ballots": ballots, "decisions": {one.read.digest: queries.ENTERED for one in going}}


class BesideEachOther(unittest.TestCase):
    def become(self, letters: Sequence[bytes | ParsedLetter], *wanted: str, **how: object):
        """What becomes of letters, in the order of their times."""
        self.assertEqual(outcomes(*letters, **how), [*wanted], how)

    def test_as_they_arrived(self):
        """Those without a time come last."""
        elsewhere = letter("ben", f"ben {RANKS}", time="Mon, 23 Nov 2026 12:30:00 +0100")
        self.assertEqual(lines_in(other(12), elsewhere, first()), [BALLOT, f"ben {RANKS}", OTHER])
        without = (letter(name, f"{name} {RANKS}", time=None) for name in ("ada", "ben"))
        found = judged(*without, first(number=2))
        self.assertEqual([one.read.where for one in found], ["letter 3", "letter 1", "letter 2"])

    def test_two_of_one_second_that_differ_both_wait(self):
        others = [bens(10), first(9, number=3)]
        both = [first(), other(10)]
        wanted = [f"in: {BALLOT}", f"in: ben {RANKS}", "waits: same time", "waits: same time"]
        for letters in (both, both[::-1]):
            self.assertEqual(sorted(outcomes(*letters, *others)), wanted)
        self.become([first(), other(10, 1)], IN, f"in: {OTHER}")
        # the same ballot goes in twice, and one that waits takes nobody's place
        same = letter("ada", f"Hello\n{BALLOT}", number=2, time=hour(10))
        self.assertEqual(lines_in(first(), same), [BALLOT, BALLOT])
        self.become([first(), other(10, sender="x@y.example")], IN, "waits: other sender")

    def test_what_makes_another_letter_and_what_none(self):
        unnumbered = first().replace(b"Message-ID", b"X-ID")
        texts = (letter("ada", f"Hi\n{BALLOT}\n"), first(sender="x@y.example"))
        for data in (first(number=2), *texts, unnumbered):
            self.assertNotEqual(parsed(data).identity, parsed(first()).identity)
        self.assertEqual(parsed(unnumbered).identity, parsed(unnumbered + b"\n").identity)
        # what makes none: other lines in a head, as in a mailbox that is saved again, and another
        # HTML
        changes = [
            (b"", b""),
            (b"\n", b"\r\n"),
            (f"{BALLOT}\n".encode(), f"{BALLOT}  \n\n\n".encode()),
            (b"To: ", b"X-Mozilla-Status: 0001\nTo: "),
            (b"charset=utf-8", b"charset=us-ascii"),
        ]
        for before, after in changes:
            self.become([first(), first().replace(before, after)], IN, "copy")
        html = alternatives("ada", BALLOT, f"<p>{OTHER}</p>", time=hour(10))
        self.become([first(), html], IN, "copy")
        signed = letter("ada", f"{BALLOT}\n-- \nFrom here on nothing\n")
        quoted = signed.replace(b"\nFrom here", b"\n>From here")
        self.become([signed, quoted], IN, "copy")
        # two whose lines differ wait for one reason: only one of them may be genuine, and the
        # secretary sees both
        both = [data.replace(b"Received:", b"X:") for data in (signed, quoted, signed + b"\n")]
        self.become(both, "waits: no arrival", "waits: no arrival", "copy")

    def test_a_later_copy(self):
        # it waits if another ballot came between
        between, again = other(11), first(12)
        self.become([again, between, first()], IN, f"in: {OTHER}", "waits: came before")
        found = judged(first(), between)
        kept = [one.read for one in found]
        self.become([*kept, again], "entered", "entered", "waits: came before", **entered(*found))
        self.become([first(), bens(11), again], IN, f"in: ben {RANKS}", "copy")
        # one of a letter that waits for a ballot beside it is one letter, of the earliest arrival:
        # a second delivery makes it no later one
        for copy, becomes in (
            (again, "waits: came before"),
            (above(first(), b"X-Status: R\n"), "copy"),
            (first().rstrip() + b" \n\n\n", "copy"),
            # while it waits it hides none that breaks a rule
            (above(first(), AUTOMATIC), "waits: automatic"),
        ):
            later = {"ada": [at_time(at(11), OTHER)]}
            self.become([first(), copy], "waits: later ballot", becomes, ballots=later)
        both = ["waits: same time"] * 2
        self.assertEqual(sorted(outcomes(first(), other(10), again)), ["copy", *both])
        # a server delivers again what it has delivered, and a new letter
        new = other(12)
        self.become([first(), again, new], IN, "copy", f"in: {OTHER}")
        found = judged(first())
        letters = [found[0].read, again, new]
        self.become(letters, "entered", "copy", f"in: {OTHER}", **entered(*found))

    def test_an_earlier_copy_of_one_that_went_in(self):
        """A late copy was read first. If another ballot lies between the two, neither mailbox
        decides which is the last: the secretary does.
        """
        again = judged(first(12))
        since, kept = entered(*again), again[0].read
        self.become([first(), kept], "copy", "entered", **since)
        becomes = ("waits: came before", "older: later ballot", "entered")
        self.become([first(), other(11), kept], *becomes, **since)
        desk = {"ballots": {"ada": [at_time(at(11), OTHER), at_time(at(12), BALLOT, True)]}}
        [copy, _] = judged(first(), kept, **since | desk)
        said = "it is a copy, of 2026-11-23 10:00:00 UTC, of a letter of 2026-11-23 12:00:00 UTC that was read before, and ada has a ballot of 2026-11-23 11:00:00 UTC, between the two"
        self.assertEqual(copy.reason and for_secretary(copy.reason), said)

    def test_a_letter_with_a_later_one(self):
        """It can count in no case, unless the later one is struck, or is late; a line has only the
        time at which somebody entered it.
        """
        later = judged(other(12))
        self.become([later[0].read, first()], "older: later ballot", "entered", **entered(*later))
        by_letter = at_time(at(12), OTHER, True)
        for ballots, becomes in (
            ([by_letter], "older: later ballot"),
            ([by_letter, at_time(at(13), OTHER)], "older: later ballot"),
            ([at_time(at(12), OTHER)], "waits: later ballot"),
            ([at_time(at(9), OTHER, True), at_time(at(12), OTHER)], "waits: later ballot"),
            ([at_time(at(10), OTHER, True), at_time(at(12), BALLOT)], "waits: later ballot"),
            ([at_time(at(9), OTHER, True)], IN),
        ):
            self.become([first()], becomes, ballots={"ada": ballots})
        # whether the vote is closed or not, and beside its copies
        closed = {"ballots": {"ada": [by_letter]}, "is_closed": True, "first_close": at(14)}
        found = judged(first(), first(11), **closed)
        told = [(outcome(one), one.is_pending) for one in found]
        self.assertEqual(told, [("older: later ballot", False), ("copy", False)])
        # what breaks a rule waits, though a later one went in
        self.become([letter("ada", "hello")], "waits: no ballot", ballots={"ada": [by_letter]})

    def test_a_later_copy_of_one_that_was_entered_or_set_aside_by_hand(self):
        """Without a Message-ID an elector's third letter may be the first one once more, and is
        their last word.
        """
        for text, decision in (
            (f"{RANKS}\n", queries.ENTERED),
            (f"ben {RANKS}\n{BALLOT}\n", queries.ENTERED),
            (f"My vote: 1\n{BALLOT}\n", queries.SET_ASIDE),
        ):
            kept, again = parsed(first(text=text)), first(12, text)
            for ballots, becomes in (
                ({"ada": [at_time(at(11), OTHER)]}, "waits: came before"),
                ({}, "copy"),
            ):
                how = {"decisions": {kept.digest: decision}, "ballots": ballots}
                self.assertEqual(outcomes(kept, again, **how)[1:], [becomes], text)

    def test_a_letter_that_waits_hides_no_other(self):
        """Copies that somebody else made, which came before the genuine letter or after it."""
        html = f"--b\n\n{BALLOT}\n--b\nContent-Type: text/html\n\n<p>{OTHER}</p>\n--b--\n"
        lines = (b"no field\n", b"From: x@y.example\n", b"Subject: [0123456789abcdef]\n")
        forged = [above(first(), line) for line in (AUTOMATIC, *lines)]
        forged.append(first(text=html, kind="multipart/mixed; boundary=b"))
        # one that a mailbox hides comes as a file, too
        hidden = parsed(first(), is_parted_off=True)
        for letters in ((hidden, first()), (first(), hidden)):
            self.assertEqual(sorted(outcomes(*letters)), ["copy", IN])
        for data, of_day in itertools.product(forged, (9, 10, 11)):
            copy = data.replace(b"10:00:00", f"{of_day:02}:00:00".encode())
            self.assertEqual(lines_in(first(), copy), [BALLOT], copy)
            # it waits, was set aside or put back when the genuine one comes
            waiting = parsed(copy)
            for decision in (None, queries.SET_ASIDE, queries.PUT_BACK):
                decisions = {} if decision is None else {waiting.digest: decision}
                found = lines_in(waiting, first(), decisions=decisions)
                self.assertEqual(found, [BALLOT], (copy, decision))

    def test_copies_that_wait_for_one_reason_are_told_once(self):
        data = letter("ada", "when?", time=hour(10))
        self.become([data, above(data, b"X-Status: R\n")], "waits: no ballot", "copy")
        # for another reason it is told
        self.become([data, above(data, AUTOMATIC)], "waits: no ballot", "waits: automatic")
        # one that arrived before, in a mailbox that is read later; nor does an earlier copy of a
        # ballot
        # go in that an act set aside or put back
        for text in ("when?", BALLOT):
            kept = parsed(first(text=text))
            for decision, becomes in (
                (queries.SET_ASIDE, "set aside: set aside"),
                (queries.PUT_BACK, "waits: put back"),
            ):
                decisions = {kept.digest: decision}
                self.become([first(9, text), kept], "copy", becomes, decisions=decisions)
        # a second delivery after the end that is read first
        late, end = first(13), at(12)
        self.become([late, first()], IN, "copy", end=end)
        self.become([judged(late, end=end)[0].read, first()], IN, "copy", end=end)

    def test_what_was_entered_as_late_hides_no_copy_that_arrived_in_time(self):
        """A second mailbox had it later. Another late copy is one of it."""
        late = parsed(first(13))
        again, in_time = (above(first(of_day), b"X-Status: R\n") for of_day in (14, 10))
        for decision, becomes in (
            (queries.ENTERED, "entered"),
            (queries.STRUCK, "set aside: struck"),
            (queries.TAKEN_BACK, "waits: taken back"),
        ):
            how = {"end": at(12), "decisions": {late.digest: decision}}
            self.become([late, again, first(), in_time], IN, "copy", becomes, "copy", **how)
            self.become([late, above(first(15), AUTOMATIC)], becomes, "copy", **how)

    def test_what_an_act_decided_holds_for_copies(self):
        kept = parsed(first())
        for decision, becomes in (
            (queries.ENTERED, "entered"),
            (queries.TAKEN_BACK, "waits: taken back"),
            (queries.PUT_BACK, "waits: put back"),
            (queries.SET_ASIDE, "set aside: set aside"),
            (queries.STRUCK, "set aside: struck"),
        ):
            copy = above(first(), b"X-Status: R\n")
            self.become([kept, copy], becomes, "copy", decisions={kept.digest: decision})
        # also if the kept one could not go in by itself, and nothing is wrong with its copy
        kept = parsed(first(time=None))
        decisions = {kept.digest: queries.TAKEN_BACK}
        self.become([kept, first()], "copy", "waits: taken back", decisions=decisions)
        # a ballot that goes in counts for those after it
        found = judged(first(), letter("ada", "hello", number=2, time=hour(9)))
        told = [(outcome(one), [*one.voted_since]) for one in found]
        self.assertEqual(told, [("waits: no ballot", ["ada"]), (IN, [])])


# ---------------------------------------------------------------- mailboxes in any order
MINUTES, LETTERS, BOXES = 12, 4, 3


class Delivery(NamedTuple):
    """A copy of a letter of one elector: which letter, when and in which mailbox it arrived."""

    letter: int
    minute: int
    box: int


class World:
    """What one elector did: letters, some of them delivered several times, and lines at a desk; and
    what the book then has.
    """

    def __init__(self, chance: random.Random):
        self.chance = chance
        self.ranks = [chance.choice(("1,2,4,3", "2,1,4,3", "1,1,4,3")) for _ in range(LETTERS)]
        several = [(number, chance.randint(1, 2)) for number in range(chance.randint(1, LETTERS))]
        deliveries = [
            Delivery(number, chance.randrange(MINUTES), chance.randrange(BOXES))
            for number, count in several
            for _ in range(count)
        ]
        self.deliveries = dict.fromkeys(deliveries)
        self.desk = {
            minute: f"ada {chance.choice(self.ranks)}"
            for minute in range(MINUTES)
            if chance.random() < 0.08
        }

    def bytes_of(self, one: Delivery) -> bytes:
        time = f"Mon, 23 Nov 2026 10:{one.minute:02}:00 +0000"
        return letter(
            "ada",
            f"ada {self.ranks[one.letter]}\n",
            number=one.letter,
            time=time,
            head=f"X-Box: {one.box}\n",
        )

    def last_words(self) -> set[str]:
        """The model: each letter is of the minute in which its first copy arrived, and the last of
        all counts; it may have several of one minute.
        """
        first = {
            one.letter: one.minute for one in sorted(self.deliveries, key=lambda one: -one.minute)
        }
        by_minute: dict[int, set[str]] = collections.defaultdict(set)
        for number, minute in first.items():
            by_minute[minute].add(f"ada {self.ranks[number]}")
        for minute, line in self.desk.items():
            by_minute[minute].add(line)
        return by_minute[max(by_minute)]

    def is_plain(self) -> bool:
        """Whether no person has to look: no line at a desk, and no copy or other letter within the
        minutes of another letter.
        """
        minutes: dict[int, list[int]] = collections.defaultdict(list)
        for one in self.deliveries:
            minutes[one.letter].append(one.minute)
        spans = sorted((min(its), max(its)) for its in minutes.values())
        pairs = itertools.pairwise(spans)
        return not self.desk and all(before < begin for (_, before), (begin, _) in pairs)

    def read(self) -> tuple[str, bool]:
        """Reads the mailboxes at any minutes, each as it is then, and all at the end; returns the
        ballot that counts, and whether one waits.
        """
        chance = self.chance
        reads = [
            (minute, chance.randrange(BOXES)) for minute in range(MINUTES) if chance.random() < 0.4
        ]
        reads += [(MINUTES, box) for box in chance.sample(range(BOXES), BOXES)]
        known = dict(zip(self.deliveries, read(*map(self.bytes_of, self.deliveries))))
        there, now = list[ReadLetter](), circumstances()
        decisions, box = dict[str, str](), list[TimedBallot]()
        last = ""

        def found() -> list[LetterCase]:
            cases = [case_of(one, now, decisions.get(one.digest)) for one in there]
            return judge_all(cases, in_order({"ada": box}))

        for minute in range(MINUTES + 1):
            if minute in self.desk:
                box.append(at_time(at(10, minute), self.desk[minute]))
                last = box[-1].ballot.line
            for _, number in [one for one in reads if one[0] == minute]:
                arrived = [one for one in known if one.box == number and one.minute <= minute]
                there += [known[one] for one in arrived if known[one] not in there]
                # it may be that nobody agrees, but in the end
                for one in found() if minute == MINUTES or chance.random() < 0.8 else ():
                    if one.ruling is Ruling.GOES_IN and one.time is not None:
                        decisions[one.read.digest] = queries.ENTERED
                        box.append(at_time(one.time, one.ballots[0].ballot.line, True))
                        last = box[-1].ballot.line
        becomes = [one.ruling for one in found()]
        assert Ruling.GOES_IN not in becomes
        return last, Ruling.WAITS in becomes


class Orders(unittest.TestCase):
    def test_the_order_of_mailboxes_decides_nothing(self):
        """However they are read, the last word of the elector counts, or a letter waits, which
        stops the close.
        """
        plain = told = 0
        worlds = min(300, RANDOM_LETTERS // 20)
        for seed in range(300 - worlds, 300):
            world = World(random.Random(seed))
            for _ in range(4):
                counts, waits = world.read()
                with self.subTest(seed=seed):
                    self.assertTrue(
                        waits or {counts} == world.last_words(),
                        (counts, world.last_words(), world.deliveries, world.desk),
                    )
                    self.assertFalse(waits and world.is_plain(), (world.deliveries, world.desk))
                plain += world.is_plain()
                told += waits
        self.assertGreater(min(plain, told), worlds * 2 // 3)
