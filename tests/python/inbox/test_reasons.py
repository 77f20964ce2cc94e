"""The sentences of the reasons: each has one for the secretary and one for electors.

Each reason becomes of some letter.
"""

import dataclasses
import re
import unittest

from debvote_tools.inbox.letter import Signature
from debvote_tools.inbox.reasons import Reason, ReasonWithValues, for_elector, for_secretary
from debvote_tools.text.answers import answer_pattern

from tests.python.inbox import test_signatures
from tests.python.inbox.test_table_of_letters import OTHERS, TABLE
from tests.support.letters import (
    BALLOT,
    MARK,
    OTHER,
    at,
    at_time,
    case,
    judged,
    label,
    letter,
    parsed,
)

# values of each name that a reason may have
NUMBERS = {"length": 7, "limit": 8, "number": 3, "digest": 2, "seconds": 180}
TEXTS = {"what": "text", "charset": "x-none", "character": "U+000D", "sender": "a@x"}
TEXTS |= {"elector": "ada", "listed": "b@x", "mark": "0123456789abcdef", "key": "A" * 40}


def with_values(reason: Reason) -> ReasonWithValues:
    """All others of its values are times."""
    names = re.findall(r"{(\w+)}", reason.value[0])
    return reason(**{name: {**NUMBERS, **TEXTS}.get(name, at(9)) for name in names})


class Sentences(unittest.TestCase):
    def test_each_reason_has_both(self):
        """What electors read has no value and no ballot."""
        self.assertEqual(
            len(Reason.__members__),
            len({reason.value[0] for reason in Reason}),
            "no two have one sentence",
        )
        for reason in Reason:
            self.assertNotRegex(for_secretary(with_values(reason)), r"[{}]|^[A-Z]|\.$", reason)
            text = for_elector(with_values(reason))
            # none that would say again that the secretary has to look at it
            self.assertRegex(text, r"^(The reason: [^{}@]+\.)?$", reason)
            self.assertNotIn("has to look at it", text)
            for value in TEXTS.values():
                if len(value) > 4:
                    self.assertNotRegex(text, rf"(?<!\w){re.escape(value)}(?!\w)")
            # what an elector sends back is no answer
            self.assertIsNone(answer_pattern(2, "ABC", frozenset(("yes", "no"))).search(text), text)

    def test_what_electors_read_of_their_own_key(self):
        """One that has expired or was revoked may be the key that the list of members has."""
        said = "The reason: the key with which it is signed has expired, or was revoked."
        for reason in (Reason.EXPIRED_KEY, Reason.REVOKED_KEY):
            self.assertEqual(for_elector(with_values(reason)), said)
        said = "another key than the list of members has"
        self.assertIn(said, for_elector(with_values(Reason.OTHER_KEY)))

    def test_how_values_are_shown(self):
        sender = "a\x1b[2J\u202e@x"
        reason = Reason.OTHER_SENDER(sender=sender, listed="b@x", elector="ada")
        said = "it came from a\\u001B[2J\\u202E@x, but the list of members has b@x for ada"
        self.assertEqual(for_secretary(reason), said)

    def test_which_times_are_told(self):
        """Of each reason that has one."""
        desk, late = {"ada": [at_time(at(11), OTHER)]}, "Mon, 23 Nov 2026 11:00:00 +0000"
        closed = {"first_close": at(7)}
        for said, how in (
            (
                "it arrived before the call for votes, which was at 2026-11-20 09:00:00 UTC",
                {"time": "Sun, 23 Nov 2025 10:00:00 +0000"},
            ),
            (
                "it arrived after the end of the vote, 2026-11-23 08:00:00 UTC",
                {"end": at(8), **closed},
            ),
            (
                "it arrived after the vote was closed, 2026-11-23 07:00:00 UTC",
                {"end": at(11), **closed},
            ),
            (
                "a later ballot of ada, of 2026-11-23 11:00:00 UTC, was entered already",
                {"ballots": desk},
            ),
            (
                "another ballot of ada has the same time, 2026-11-23 11:00:00 UTC",
                {"ballots": desk, "time": late},
            ),
        ):
            one = case("ada", BALLOT, **how)
            self.assertEqual(one.reason and for_secretary(one.reason), said)
        for time, said in (
            (at(8, day=20), "2026-11-20 08:00:00 UTC, before the call for votes"),
            (at(11), "2026-11-23 11:00:00 UTC, which is later than it arrived"),
        ):
            data, sign = parsed(letter("ada", f"{BALLOT}\n[{MARK}]\n")), Signature("A" * 40, time)
            [one] = judged(dataclasses.replace(data, signature=sign), keys={"ada": "A" * 40})
            self.assertEqual(one.reason and for_secretary(one.reason), f"signed at {said}")

    def test_each_becomes_of_some_letter(self):
        test_signatures.SignedTable.setUpClass()
        waiting = [*test_signatures.SignedTable().rows(), *(row.becomes for row in TABLE)]
        found = {one.partition(": ")[2] for one in waiting} | {reason for reason, _ in OTHERS}
        # these are of letters beside others, of what an act decided, and of a gpgv that hangs
        found |= {"came before", "parted off", "taken back", "put back", "set aside", "struck"}
        found |= {"slow signature", "perhaps copy"}
        # and of records of the box (test_by_click.py)
        found |= {"other link", "fetched", "not there before", "clock at the end", "clocks"}
        found |= {"other time", "not sent later"}
        # and of votes with tellers (test_tellers.py)
        found |= {"not sealed", "on paper", "block of other"}
        self.assertEqual({label(reason()) for reason in Reason} - found, set())
