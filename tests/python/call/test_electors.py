"""From the list of members to the roll: who is who, and what may change after the call."""

import unittest
from collections.abc import Iterable

import pytest

from debvote_tools.book.queries import Elector
from debvote_tools.call.members import Member, Roll, roll_of
from debvote_tools.cli.faults import Fault

KEY = "0123456789ABCDEF0123456789ABCDEF01234567"
KNOWN = [
    Elector(1, "ada", 1, "Ada L", ("a@x",)),
    Elector(2, "ben", 2, "Ben", ("b@x",), KEY),
    Elector(3, "zoe", 3, "Zoë", ()),
]
SAME = ["Ada L;a@x", f"Ben;b@x;;{KEY}", "Zoë"]


def names_of(electors: Iterable[Member | Elector]) -> list[str]:
    return [elector.name for elector in electors]


class RollTest(unittest.TestCase):
    maxDiff = None

    def roll(
        self,
        *rows: str,
        known: list[Elector] | None = None,
        language: str = "en",
        is_called: bool = False,
    ) -> Roll:
        """The roll of rows of who, mail, name and key; the first is on line 2."""
        data = "\n".join(["who;mail;name;key", *rows]).encode()
        self.faults = []
        try:
            return roll_of(data, "members.csv", known or [], language, is_called=is_called)
        except Fault as fault:
            self.faults = [fault, *fault.others]
            return Roll(())

    def assert_named(self, roll: Roll, *names: str):
        self.assertEqual(
            ([fault.words for fault in self.faults], names_of(roll.electors)), ([], list(names))
        )

    def assert_changes(self, roll: Roll, new: str = "", gone: str = "", **changes: str):
        """Who is new and who is gone, and what changes of others; nothing is proposed to them."""
        electors = roll.electors
        found = {elector.name: " ".join(elector.changes) for elector in electors if elector.changes}
        news = [elector for elector in electors if elector.is_new]
        self.assertEqual(
            (found, names_of(news), names_of(roll.gone)), (changes, new.split(), gone.split())
        )
        self.assertFalse([one for one in electors if one.proposal and not one.is_new])

    def assert_known(self, roll: Roll, *numbers: int | None):
        """The numbers of the electors in the book."""
        found = [elector.known.number if elector.known else None for elector in roll.electors]
        self.assertEqual(found, list(numbers))

    def assert_faults(self, roll: Roll, *wanted: tuple[str, ...]):
        self.assertEqual(len(self.faults), len(wanted), [fault.words for fault in self.faults])
        for fault, parts in zip(self.faults, wanted):
            for part in parts:
                self.assertIn(part, str(fault.words))


class Proposals(RollTest):
    def test_by_the_language(self):
        self.assert_named(self.roll("Zoë Müller", "Ann", language="de"), "zoe-mueller", "ann")
        self.assert_named(self.roll("Zoë Müller", "Ann", language="fr"), "zoe-muller", "ann")

    def test_an_address_where_nothing_is_left_of_who(self):
        self.assert_named(self.roll("李明;x@y Li.Ming@x", "...;dot@x"), "x", "dot")
        self.assert_faults(
            self.roll("李明", "李;李@x", "Ada"), (":2: no name can be made from 李明",), (":3: no name",)
        )

    def test_who_would_get_one_name_gets_a_number(self):
        self.assert_named(
            self.roll("Ann Lee", "Ánn Lee", "Ann-Lee", "Bo"),
            "ann-lee-1",
            "ann-lee-2",
            "ann-lee-3",
            "bo",
        )
        self.assert_named(
            self.roll(f"{'a' * 32} b", f"{'a' * 33}"), "a" * 30 + "-1", "a" * 30 + "-2"
        )
        self.assert_named(
            self.roll("a" * 31 + " b", "Maximiliane " * 5),
            "a" * 31,
            "maximiliane-maximiliane-maximili",
        )

    def test_names_of_others_are_not_taken(self):
        gone = Elector(7, "ann-3", None, "Ann Z", ())
        self.assert_named(
            self.roll("Ann", "Other;;ann", "Another;;ann-2", "Ann.", known=[gone]),
            "ann-4",
            "ann",
            "ann-2",
            "ann-5",
        )
        roll = self.roll("Ann", "Other;;ann")
        self.assertEqual([elector.proposal for elector in roll.electors], ["ann", ""])

    @pytest.mark.whole
    def test_ten_thousand_of_one_name_and_one_too_many(self):
        marks = str.maketrans("01", "!?")
        rows = [f"Ann {number:b}".translate(marks) for number in range(10_001)]
        names = names_of(self.roll(*rows[1:]).electors)
        self.assertEqual((names[0], names[-1], len({*names})), ("ann-1", "ann-10000", 10_000))
        self.assert_faults(self.roll(*rows), ("it has 10001 members; at most 10000 are allowed",))


class Known(RollTest):
    def test_a_name_stays_with_its_person(self):
        roll = self.roll("Zoë", "Ben B;;ben", "Ada L;a@x", "Dan", known=KNOWN)
        self.assert_named(roll, "zoe", "ben", "ada", "dan")
        self.assert_known(roll, 3, 2, 1, None)
        self.assert_changes(roll, "dan", ben="who address key")
        # the same list changes nothing
        self.assert_changes(self.roll(*SAME, known=KNOWN))

    def test_who_is_renamed_keeps_the_name_in_the_list(self):
        roll = self.roll(*SAME[:2], "Zoe", known=KNOWN)
        self.assert_named(roll, "ada", "ben", "zoe-2")
        self.assert_changes(roll, "zoe-2", "zoe")
        self.assert_changes(self.roll(*SAME[:2], "Zoe;;zoe", known=KNOWN), zoe="who")

    def test_a_new_name_for_the_same_person(self):
        roll = self.roll("Ada L;A@x;ada.l", *SAME[1:], known=KNOWN)
        self.assert_named(roll, "ada.l", "ben", "zoe")
        self.assert_changes(roll, **{"ada.l": "name"})
        self.assert_known(roll, 1, 2, 3)

    def test_who_is_gone_and_comes_again(self):
        self.assert_changes(self.roll(SAME[1], known=KNOWN), "", "ada zoe")
        left = [*KNOWN[:2], Elector(3, "zoe", None, "Zoë", ())]
        roll = self.roll(*SAME, "Zoe", known=left)
        self.assert_named(roll, "ada", "ben", "zoe", "zoe-2")
        self.assert_changes(roll, "zoe zoe-2")
        self.assert_known(roll, 1, 2, 3, None)
        self.assert_changes(self.roll(*SAME[:2], known=left))
        self.assert_changes(self.roll(*SAME[:2], "Zoë;new@x", known=left), "zoe")

    def test_of_two_namesakes_that_of_the_last_list_is_meant(self):
        for act, number, gone in ((None, 2, ""), (1, None, "ann-1 ann-2")):
            known = [Elector(1, "ann-1", act, "Ann", ()), Elector(2, "ann-2", 2, "Ann", ())]
            roll = self.roll("Ann", known=known)
            self.assert_known(roll, number)
            self.assertEqual(names_of(roll.gone), gone.split())

    def test_who_is_not_named_is_nobody_else(self):
        known = [Elector(1, "x", 1, "", ()), Elector(2, "ben", 2, "", ())]
        roll = self.roll(";;y", "Ben;;ben", known=known)
        self.assert_named(roll, "y", "ben")
        self.assert_known(roll, None, 2)
        self.assertEqual(names_of(roll.gone), ["x"])

    def test_two_with_one_who_need_names_of_their_own(self):
        self.assert_faults(
            self.roll("Ann", "Bo", " Ann "),
            (":2: lines 2, 4 have the same `who`: Ann", "under `name`"),
        )
        self.assert_faults(self.roll("Ann;;ann", "Ann"), (":3: lines 2, 3 have the same `who`",))
        self.assert_faults(
            self.roll("Zoë", "Zoe\u0308"), (":2: lines 2, 3 have the same `who`: Zoë",)
        )
        self.assert_named(self.roll("Ann;;ann", "Ann;;bo"), "ann", "bo")
        self.assert_faults(
            self.roll(";a@x", ";b@x", f";;;{KEY}"),
            *((f":{line}: it has no `who`",) for line in (2, 3, 4)),
        )

    def test_a_name_that_belongs_to_another(self):
        self.assert_faults(
            self.roll("Ada L;;ben", "Ben;b@x", known=KNOWN),
            (":2: `ben` is the name of Ben (line 3) already", "write another name"),
        )
        # where the other has gone, or is spelled anew, it is theirs
        self.assert_named(self.roll("Benjamin;;ben", known=KNOWN), "ben")

    def test_names_and_keys_that_two_have(self):
        roll = self.roll(f"Ada;;x;{KEY}", "Bo;;y", f"Cy;;x;{KEY}")
        self.assert_faults(
            roll, (":4: lines 2, 4 have the same name: x",), (":4: lines 2, 4 have the same key",)
        )

    def test_the_faults_of_the_list_are_among_them(self):
        self.assert_faults(
            self.roll("Ann;no", "Ann"), (":2: `no` is not a mail address",), (":2: lines 2, 3",)
        )
        self.assert_faults(self.roll(), ("there is nobody on it",))


class AfterTheCall(RollTest):
    def called(self, *rows: str) -> Roll:
        return self.roll(*rows, known=KNOWN, is_called=True)

    def test_addresses_and_keys_may_change_and_the_order_is_that_of_the_poll(self):
        roll = self.called("Zoë;z@x", "Ben;b@x c@x", SAME[0])
        self.assert_named(roll, "ada", "ben", "zoe")
        self.assert_changes(roll, ben="address key", zoe="address")

    def test_the_people_stay(self):
        for rows, *wanted in (
            (SAME[1:2], ("missing: ada (Ada L), zoe (Zoë)", "only addresses and keys may change")),
            ([*SAME, "Dan"], ("new: dan (Dan)",)),
            (["Ada L;a@x;ada.l", *SAME[1:]], (":2: ada.l (Ada L) was ada",)),
            (["Eve;a@x;ada", *SAME[1:]], (":2: ada (Eve) was Ada L",)),
            (["Ada L;a@x", SAME[1], "Zoe;;zoe"], (":4: zoe (Zoe) was Zoë",)),
            # another person in the place of one
            ([*SAME[:2], "Eve;z@x"], ("missing: zoe (Zoë)",), ("new: eve (Eve)",)),
        ):
            self.assert_faults(self.called(*rows), *wanted)
        self.assert_named(self.called(*SAME[:2], "Zoe\u0308"), "ada", "ben", "zoe")
        # who was gone before the call is new
        known = [*KNOWN, Elector(4, "dan", None, "Dan", ())]
        self.assert_faults(
            self.roll(*SAME, "Dan", known=known, is_called=True), ("new: dan (Dan)",)
        )
