"""What is taken of the records of a web host that lies, or whose clock was off."""

import dataclasses
import datetime
import re
import unittest
import zoneinfo

import pytest

from debvote_tools.call.box import proof_digest, third_part
from debvote_tools.inbox.box_records import MOST
from debvote_tools.inbox.letter import ParsedLetter

from tests.support import boxes, sealing
from tests.support.boxes import OTHER, RANKS, now
from tests.support.elections import NAMES
from tests.support.letters import OWN, at, at_time, judged, letter, outcome, outcomes, parsed
from tests.support.web_host import record

BERLIN = zoneinfo.ZoneInfo("Europe/Berlin")
MINUTE = datetime.timedelta(minutes=1)


class Lies(boxes.BoxElectionTest):
    def last_asked(self) -> datetime.datetime:
        return datetime.datetime.fromisoformat(str(self.boxes_kept()[-1]["time"]))

    def forged(self, name: str, count: int) -> list[bytes]:
        """Records that the host makes, which knows the digest of each proof, and how a record
        looks.
        """
        proof = proof_digest(self.mark(), self.place_of(name)).encode()
        records = [self.record(f"{name} {OTHER}", now(), "2" * 16) for _ in range(count)]
        return [re.sub(rb"(?<=X-Proof: )\w+", proof, one) for one in records]

    def test_what_it_makes_changes_and_dates_anew(self):
        """What it makes or changes waits for nobody, and what it dates anew waits; what is gone is
        told once.
        """
        self.begun(ada=RANKS)
        self.add_box()
        [real] = self.records()
        backdated = self.record(f"ben {RANKS}", now(-1800))
        link = third_part(self.key, "nobody", "2" * 10)
        nobody = self.record(f"nobody {RANKS}", self.last_asked(), link)
        odd = backdated.replace(b"From: box@page.invalid\n", b"From: dan@club.example\n")
        times = (b"00:00:01", b"00:00:02")
        replayed, again = (re.sub(rb"\d\d:\d\d:\d\d", time, real) for time in times)
        cleo, both = {"cleo"}, {"cleo", "ben"}
        for records, is_told, *wanted in (
            ([], True, 1, 0, 0, set()),
            ([], False, 1, 0, 0, set()),
            ([real, backdated], False, 0, 0, 2, set()),
            ([real, backdated, *self.forged("cleo", MOST + 1)], False, 0, MOST + 1, 2, cleo),
            ([real, backdated, nobody, odd], False, 0, 2, 2, both),
            ([real.replace(b"X-Proof", b"x-proof")], True, 2, 1, 0, both),
            ([replayed], False, 2, 0, 1, both),
            ([again] * (MOST + 1), True, 3, 0, MOST + 1, both),
        ):
            self.keep(*records)
            said, kept = self.add_box(), self.boxes_kept()[-1]
            found = [kept[key] for key in ("gone", "unopened", "records")]
            self.assertEqual([*found, {*kept["lost"]}], wanted, said)
            self.assertEqual("that it had it has no more" in said, is_told)
            self.assert_standing(ada=RANKS)
        self.tells("held", "it is older than")

    def test_it_exchanges_the_times_of_two_ballots(self):
        """The older one would count. Asked at once, or of two askings."""
        self.begun()
        for name in ("ada", "ben"):
            self.click(name)
            self.click(name, OTHER)
        self.later(3)
        first, second, of_ben, later = self.records()
        (one, *_), (other, *_) = (data.partition(b"X-Proof") for data in (first, second))
        # of ben the second comes first
        self.keep(first.replace(one, other), second.replace(other, one), later)
        why = "by the clocks of their devices it is not later than a ballot of its elector that came before it"
        self.add_box(why)
        self.later()
        self.add_box()
        asked = f"{self.last_asked():%H:%M:%S}".encode()
        self.keep(*self.records(), re.sub(rb"\d\d:\d\d:\d\d", asked, of_ben))
        self.add_box(why)
        self.assert_standing(ada=OTHER, ben=OTHER)
        # what waits is entered by who knows better
        self.assertEqual(self.told("held").count(why), 2)

    def test_it_drops_a_ballot_and_dates_an_older_one_anew(self):
        """A click of ten was dated eleven, and replaced a letter of half past ten."""
        self.begun()
        when = now().astimezone(BERLIN)
        self.add(self.letter("ada", f"ada {OTHER}", 300))
        # within ten minutes nobody sees it
        self.keep(
            self.record(f"ada {RANKS}", when, sent=when - 11 * MINUTE),
            self.record(f"ben {RANKS}", when, sent=when - 9 * MINUTE),
        )
        self.off(1)
        self.add_box("more than ten minutes from the time of the web host")
        self.assert_standing(ada=OTHER, ben=RANKS)
        # beside the time of the host `show` has that of the device, which is the one that its
        # elector knows
        nine = f"{when - 9 * MINUTE:%H:%M:%S}"
        shown = (
            rf"envelope 2, \S+ {when:%H:%M:%S} UTC\+01:00, sent \S+ {nine} UTC\+01:00: At the lake"
        )
        self.assertRegex(self.told("show ben"), shown)
        said = f"{nine.removesuffix(':00')} (UTC+01:00) has arrived. It counts"
        self.assertIn(said, self.receipts()["ben"])

    @pytest.mark.whole
    def test_each_that_does_not_open_alone_beside_good_ones(self):
        self.begun(ada=RANKS)
        good, when, mark = self.records(), now(), self.mark()
        line, sent = f"ben {RANKS}", f"{when:%Y-%m-%dT%H:%M:%S}.000Z"
        one, place = self.record(line, when), self.place_of("ben")
        [(number, sealed)] = re.findall(rb"<(\w+)@page.invalid>\n\n(.+)", one)
        of_ben, of_ada = (
            proof_digest(mark, self.place_of(name)).encode() for name in ("ben", "ada")
        )

        def holding(*lines: str, public: str = self.of_page("seal")) -> bytes:
            other = sealing.sealed(public, mark, number.decode(), "\n".join(lines))
            return one.replace(sealed, other.encode())

        changed = b"B" if sealed[150:151] == b"A" else b"A"
        bad = {
            "another number": one.replace(b"<00", b"<01"),
            "another mark": one.replace(mark.encode(), b"0" * 16),
            "a sign changed": one.replace(sealed, sealed[:150] + changed + sealed[151:]),
            "a cut tag": one.replace(sealed, sealed[:-4]),
            "another key": holding(line, place, sent, public=sealing.key_pair(b"x" * 32, mark)[0]),
            "two lines": holding(line, f"ben {OTHER}", place, sent),
            "no line": holding(place, sent),
            "an empty one": holding("", place, sent),
            "other digits": holding("ben \u00b9,2,3,4", place, sent),
            "another's line": holding(f"ada {OTHER}", place, sent),
            "and that renamed": holding(f"ada {OTHER}", place.replace("ben", "ada"), sent),
            "no time": holding(line, place, ""),
            "no such time": holding(line, place, "2026-13-01T12:00:00.000Z"),
            "more": holding(line, place, sent, "x"),
            "another proof": one.replace(of_ben, of_ada),
        }
        for what, data in bad.items():
            self.keep(*good, data)
            said, kept = self.add_box(), self.boxes_kept()[-1]
            self.assertEqual((kept["unopened"], kept["records"]), (1, 1), what)
            lost = {"ben", "ada"} if what == "another proof" else {"ben"}
            self.assertEqual({*kept["lost"]}, lost, what)  # type: ignore[misc]
            # it is told when the number grows
            self.assertEqual("1 record can't be opened" in said, what == "another number")
            self.assertEqual(self.standing(), {"ada": RANKS}, what)
        self.tells("held", "No letter waits.")
        # as it should be it opens
        self.keep(*good, holding(line, place, sent))
        self.add_box()
        self.assertEqual(self.boxes_kept()[-1]["unopened"], 0)

    def test_forged_records_take_the_place_of_no_true_one(self):
        self.begun()
        forged = [one for name in NAMES[:3] for one in self.forged(name, MOST + 1)]
        self.keep(*forged, *(self.record(f"{name} {RANKS}", now()) for name in NAMES[:3]))
        said = self.add_box()
        self.assertEqual(self.standing(), dict.fromkeys(NAMES[:3], RANKS), said)

    def test_the_most_of_a_link(self):
        """One more is no letter, and its elector is named. A host that takes more acknowledges
        them. What it repeats takes no place.
        """
        self.begun()
        ranks = [f"ada {number % 4 + 1},1,1,1" for number in range(MOST + 1)]
        records = [self.record(line, now(number - 60)) for number, line in enumerate(ranks)]
        times = (b"00:00:%02d" % second for second in range(MOST))
        copies = [re.sub(rb"\d\d:\d\d:\d\d", time, records[0]) for time in times]
        # over all askings
        for count in (MOST // 2, MOST + 1):
            self.keep(*copies, *records[:count])
            self.add_box()
        kept = self.boxes_kept()[-1]
        self.assertEqual((kept["records"], kept["unopened"]), (MOST + MOST, 1))
        self.assertEqual(self.status()["lost"], ["ada"])

    def test_records_that_are_ahead_of_the_clock_of_their_host(self):
        """They would beat what their elector sends later. Of those of one second each has one of
        its own.
        """
        self.begun()
        for number in range(9):
            self.click("ben", f"{number % 4 + 1},1,1,1")
        self.click("ada")
        whole = self.records()
        # the host dates it so, and dan's device
        ahead = self.record(f"dan {OTHER}", now(), sent=now(86_400))
        self.keep(*whole, ahead, self.record(f"ada {OTHER}", now(300), sent=now()))
        self.add_box(
            "10 ballots of letters went in; 2 letters wait",
            "or that of the web host when it was asked",
        )
        # of a year that no clock has no time is known: kept, it would stop each later command
        year = datetime.datetime.max.replace(tzinfo=datetime.UTC)
        self.keep(*whole, self.record(f"cleo {RANKS}", year, sent=now()))
        self.click("ada", "2,1,3,4")
        self.click("dan")
        self.off(400)
        self.add_box()
        self.tells("held", "no Received line at its top says when it arrived")
        self.assert_standing(ada="2,1,3,4", ben="1,1,1,1", dan=RANKS)
        self.refused("close --early", "these letters arrived in time, and wait: ")

    @pytest.mark.whole
    def test_who_is_to_vote_again(self):
        """By whose proof came what nobody can open: named until a later ballot comes."""
        note = (
            "records can't be opened, or came above the 20 of a link, passed over, by the links of"
        )
        self.begun(ada=RANKS)
        self.add_box()
        self.assertEqual(self.status()["lost"], [])
        self.later()
        self.click_unopened("ada", "ben")
        self.add_box(f"Note: 2 {note} ada, ben, who are to vote again.")
        self.assertEqual(self.status()["lost"], ["ada", "ben"])
        said = "Ballots that nobody can open, and no later ones, by the links of (2):\n  ada ben\n"
        self.tells("status", said)
        self.done("letters reminders")
        texts = self.texts("reminders")
        self.assertEqual(sorted(texts), NAMES)
        for name, text in texts.items():
            lost = "A ballot came by your link that nobody can open: vote again."
            self.assertEqual(lost in text, name in ("ada", "ben"), text)
            none = "No ballot of yours that counts has come yet."
            self.assertEqual(none in text, name != "ada", text)
        # who has a later ballot is not told to vote again, also if it came with the same asking
        for ranks in (OTHER, "", "2,1,3,4"):
            self.later()
            self.click("ada", ranks) if ranks else self.click_unopened("ada")
        self.add_box(f"Note: 3 {note} ben, who are to vote again.")
        self.assertEqual(self.status()["lost"], ["ben"])
        fault = "by the links of these electors that nobody can open, and no later ones: ben; "
        self.refused("close --early", fault, "ask them to vote again")
        self.done("close --early --force --because 'Ben was told.'")
        # it stops nothing more, nor a later close
        self.later()
        self.add_box()
        self.done("count")
        self.done("reopen --because 'A letter was found.'")
        self.done("close --early")
        # page and letters tell it
        self.done("publish --yes")
        told = "Electors by whose links ballots came that nobody can open, and no later ones: 1."
        self.assertIn(told, self.read("result/index.html").decode())
        self.done("letters result")
        for name, text in self.texts("result").items():
            lost = "A ballot came by your link that nobody can open. It does not count."
            self.assertEqual(lost in text, name == "ben", text)
            none = "No ballot has come under your name."
            self.assertEqual(none in text, name not in ("ada", "ben"), text)

    def test_letters_between_two_askings(self):
        """What came between two askings may have the time of either clock."""
        self.begun()
        for name, seconds, side in (("ada", 180, "behind"), ("ben", -180, "ahead of")):
            self.off(seconds)
            off = rf"its clock is 1[78]\d seconds {side} that of this computer"
            self.assertRegex(self.told("add --box"), off)
            self.clock = {}
            self.click(name)
            self.add_box()
            said = self.add(self.letter(name, f"{name} {OTHER}", -seconds / 2))
            self.assertIn(f"may be earlier or later than another ballot of {name}", said)
        self.assertEqual(self.told("held").count("; may have voted since\n"), 2)
        why = "its elector may have voted since, as the clock of the web host was off"
        self.refused("held 2 --enter --yes", why)


KEY = bytes(range(32))
LINK = third_part(KEY, "ada", OWN["ada"])
IN = f"in: ada {RANKS}"


def opened(
    time: datetime.datetime = at(10), behind: int = 0, ranks: str = RANKS, **fields: object
) -> ParsedLetter:
    """A record of Ada that was opened; by its device it was sent as it arrived."""
    data = record("ada", "", int(f"{time:%H%M}{ranks[0]}"), f"{time:%Y-%m-%dT%H:%M:%S}")
    head = data.partition("\n")[2].partition("\n\n")[0]
    sent = time + datetime.timedelta(seconds=behind)
    known = {"link": LINK, "elector": "ada", "behind": behind, "sent": sent}
    return dataclasses.replace(parsed(f"{head}\n\nada {ranks}\n-- \n".encode()), **known | fields)


class Clocks(unittest.TestCase):
    """By the rules alone: a host whose clock was off, near the end and beside other ballots."""

    def becomes(self, *letters: ParsedLetter | bytes, **how: object) -> list[str]:
        return outcomes(*letters, box_key=KEY, **how)

    def test_by_link_and_times(self):
        """It goes in by its link alone, and if its time, its device, and the askings agree."""
        [one] = judged(opened(), box_key=KEY)
        self.assertEqual((one.is_tied("ada"), one.is_tied("ben")), (True, False))
        second = datetime.timedelta(seconds=1)
        links = [("ben", "ben"), ("ada", "ben")]
        for fields, wanted in (
            ({}, IN),
            *(({"link": third_part(KEY, name, OWN[own])}, "other link") for name, own in links),
            ({"link": "2" * 16}, "other link"),
            # fetched with the file of the box; and the same bytes of a mailbox, as of a stranger
            ({"is_fetched": True}, "fetched"),
            ({"link": ""}, "other sender"),
            # what its device does not date later than one before
            ({"sent_before": at(10) - second}, IN),
            ({"sent_before": at(10)}, "not sent later"),
            ({"sent_before": at(10) + second}, "not sent later"),
            # later than the asking that brought it, and older than one that did not
            ({"latest": at(10)}, IN),
            ({"latest": at(10) - second}, "in the future"),
            ({"asked_before": at(10)}, IN),
            ({"asked_before": at(10) + second}, "not there before"),
        ):
            wanted = wanted if wanted == IN else f"waits: {wanted}"
            self.assertEqual(self.becomes(opened(**fields)), [wanted], fields)
        # the time of a record in a file is in the order of the devices
        for minutes, wanted in ((9, 9), (11, 0)):
            [one] = judged(opened(sent=at(10) + minutes * MINUTE, is_fetched=True), box_key=KEY)
            self.assertEqual(one.time, at(10) + wanted * MINUTE)
        # only what is known to be older than the call waits for that
        for behind, wanted in ((0, "waits: before the call"), (180, IN)):
            self.assertEqual(self.becomes(opened(at(8, 59), behind), called=at(9)), [wanted])

    def test_what_a_clock_could_take_across_the_end_waits_on_either_side(self):
        near = "waits: clock at the end"
        for minutes, behind, wanted in (
            (-1, 0, IN),
            (1, 0, "waits: after the "),
            (-1, 180, near),
            (-4, 180, IN),
            (1, 180, "waits: after the "),
            (1, -180, near),
            (-1, -180, IN),
            (4, -180, "waits: after the "),
        ):
            for end, name in (("end", "end"), ("first_close", "close")):
                one = opened(at(12) + minutes * MINUTE, behind)
                [found] = judged(one, box_key=KEY, **{end: at(12)})
                said = wanted + name if wanted.endswith("after the ") else wanted
                self.assertEqual(outcome(found), said, (minutes, behind))
                # what may be in time stops the close
                self.assertEqual(found.arrived_in_time, "after" not in wanted)

    def test_two_ballots_whose_order_it_could_turn(self):
        first = opened(behind=180)
        for later, wanted in (
            (
                letter("ada", f"ada {OTHER}", time="Mon, 23 Nov 2026 10:01:00 +0000"),
                "waits: clocks",
            ),
            (
                letter("ada", f"ada {OTHER}", time="Mon, 23 Nov 2026 10:04:00 +0000"),
                f"in: ada {OTHER}",
            ),
            # the same ballot, or two by the same clock, can't be turned
            (letter("ada", f"ada {RANKS}", time="Mon, 23 Nov 2026 10:01:00 +0000"), IN),
            (opened(at(10, 1), 180, OTHER), f"in: ada {OTHER}"),
        ):
            self.assertEqual(self.becomes(first, later), [IN, wanted])
        # one that was entered before
        for behind, wanted in ((180, "waits: clocks"), (0, "older: later ballot")):
            entered = {"ada": [at_time(at(10, 2), f"ada {RANKS}", True, -behind)]}
            self.assertEqual(self.becomes(letter("ada", f"ada {OTHER}"), ballots=entered), [wanted])

    def test_which_ballots_are_surely_later(self):
        """What the list of held says has one rule with its --enter: each ballot is looked at, not
        the last alone.
        """
        line = f"ada {RANKS}"
        sure, ahead = at_time(at(12), line), at_time(at(13), line, True, -14_400)
        near = [at_time(at(9, 58), line, True, 300), at_time(at(9, 59), line)]
        # it waits, since another address sent it
        given = letter("ada", f"ada {OTHER}", sender="x@y.example")
        for there, is_sure in (
            ([sure], True),
            ([ahead], False),
            ([sure, ahead], True),
            (near, False),
        ):
            [case] = judged(given, ballots={"ada": there})
            self.assertEqual(case.voted_since, {"ada": is_sure}, there)

    def test_what_its_device_dates_otherwise_waits(self):
        """By more than ten minutes from the time of the host, which may be off by as much as is
        known.
        """
        for minutes, behind, is_other in (
            (10, 0, False),
            (-10, 0, False),
            (11, 0, True),
            (-11, 0, True),
            (60, 3_600, False),
            (0, 3_600, True),
            (-60, -3_600, False),
        ):
            one = opened(behind=behind, sent=at(10) + minutes * MINUTE)
            wanted = "waits: other time" if is_other else IN
            self.assertEqual(self.becomes(one), [wanted], (minutes, behind))
        # it stops a close if either time is before it
        for sent, arrived, in_time in ((11, 13, True), (13, 11, True), (13, 14, False)):
            [case] = judged(opened(at(arrived), sent=at(sent)), box_key=KEY, end=at(12))
            self.assertEqual((outcome(case), case.arrived_in_time), ("waits: other time", in_time))
