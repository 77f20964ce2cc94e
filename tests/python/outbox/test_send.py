"""`letters --send`: each letter goes out once; what is refused, or comes back, is told."""

import base64
import contextlib
import datetime
import itertools
import os
import shutil
import socket
import ssl
import subprocess
import tempfile
import time
import unittest
import unittest.mock
from collections.abc import Iterable

import pytest

from debvote_tools.book.outgoing import REFUSED, TAKEN, OutgoingLetter
from debvote_tools.cli.faults import Fault
from debvote_tools.outbox import smtp

from tests.support import elections, terminal
from tests.support.election_books import LAKE
from tests.support.letters import OTHER_RANKS, RANKS, TEN, letter
from tests.support.outgoing import MailServer, PlainServer, SendTest, one_line, parsed

FORCED = ("--force", "not-tied", "--force", "voted-since")

ALL = [f"{name}@club.example" for name in elections.NAMES]
REPORT = 'multipart/report; report-type=delivery-status; boundary="b"'


class Sending(SendTest):
    def assert_unreached(self, **wanted: str):
        """Whom `status` names, with the reason."""
        self.assertEqual(self.numbers()["not_reached"], wanted)

    def test_each_gets_one_letter_and_a_second_run_sends_none(self):
        noted = []
        # each is noted before the next begins
        self.server.at = lambda _, number: noted.append((number, self.rows("call")[9:]))
        self.assertEqual(self.assert_sent("call", "Sent 9 of 9 letters.\n").faults, "")
        self.assertEqual(self.server.addresses, ALL)
        for taken in self.server.taken:
            message = parsed(taken.data)
            self.assertEqual((message["To"], message["X-Unsent"]), (taken.to, None))
            self.assertIn(f" {taken.to.partition('@')[0]} _,_,_,_ ", one_line(message))
            # each line ends as in letters
            self.assertEqual(taken.data.count(b"\n"), taken.data.count(b"\r\n"))
        taken = [(name, "taken") for name in elections.NAMES]
        self.assertEqual(noted, [(number, taken[:number]) for number in range(9) for _ in range(3)])
        self.assert_none_is_due("call")
        self.assertEqual(list((self.folder / "letters").glob("*/*")), [])

    def test_another_act_meanwhile(self):
        """What comes lets the letters go on; what may make them untrue stops them before the next
        one.
        """
        self.add_lines("cleo 1")
        statuses = {}

        def act(step: str, number: int) -> bool:
            if (step, number) in (("data", 1), ("data", 3)):
                words = "strike 1 --yes --because x" if number == 3 else "desk"
                statuses[number] = self.election(words, given="ben 1").status
            return False

        self.server.at = act
        ended = self.send("call")
        fault = "another command changed the election meanwhile"
        self.assert_fault(ended, 9, fault, "; 4 of 9 letters taken in this run: run the command")
        self.assertEqual((self.server.addresses, statuses), (ALL[:4], {1: 0, 3: 0}))
        self.assert_sent("call", "Sent 5 of 5 letters.\n")

    def test_refused_for_good_or_for_now(self):
        """Who was refused is named by each later run, of whatever letters, and by `status`, until a
        letter is taken.
        """
        self.assert_unreached()
        refused = {ALL[0]: "550 5.1.1 no such\x1b user", ALL[1]: "451 4.7.1 greylisted"}
        self.server.data_answers = {ALL[2]: "554 spam", ALL[3]: "452 full"}
        ended = self.assert_sent("call", "Sent 5 of 9 letters.\n", 9, refused)
        for said in (
            "Refused: ada, ada@club.example: 550 5.1.1 no such",
            "Refused: cleo, cleo@club.example: 554 spam\n",
            "Refused: dan, dan@club.example: 452 full\n",
            "Try again in a quarter of an hour, or with corrected addresses.\n",
            "Next: put call on the web site, then debvote-election status --done upload; then 2 letters of the call are not sent: debvote-election letters --send; or ",
        ):
            self.assertIn(said, ended.output)
        self.assertNotIn("\x1b", ended.output)
        said = "UTC, to ben@club.example: refused (451 4.7.1 greylisted)\n"
        self.tells("show ben", said)
        self.assertEqual(self.server.addresses, ALL[4:])
        # each run tries them again
        self.server.data_answers = {}
        refused = {ALL[0]: "550 5.1.1 no such user"}
        self.assert_sent("call", "Sent 3 of 4 letters.\n", 9, refused)
        self.assertEqual(self.server.addresses, [*ALL[4:], *ALL[1:4]])
        named = "Not reached by the call: ada (refused: 550 5.1.1 no such user)\n"
        self.add_lines(f"ben {RANKS}")
        self.assertIn(named, self.send("receipts").output)
        self.tells("letters receipts", named)
        self.assert_unreached(ada="refused")
        # what is written as files now is the letter that no server has taken; a new address is
        # another try, with a new own mark
        [message] = self.written("call").values()
        self.assertEqual(message["To"], ALL[0])
        self.change_roll("ada@club", "ada@new")
        self.assertNotIn("Not reached", self.assert_sent("call").output)
        self.assertEqual(self.server.addresses[9:], ["ada@new.example"])
        self.assertNotEqual(parsed(self.server.taken[-1].data)["Subject"], message["Subject"])
        self.assert_unreached()
        self.assert_none_is_due("call")

    def test_who_was_refused_after_the_call_gets_it_again(self):
        """By the next run of it, since that names them until a letter is taken."""
        self.assert_sent("call")
        self.add_lines(f"cleo {RANKS}")
        for kind, name in (("reminders", "ben"), ("receipts", "cleo")):
            self.assert_sent(kind, status=9, refused={f"{name}@club.example": "552 full"})
            self.assert_unreached(**{name: "refused"})
            self.assert_sent("call", "Sent 1 of 1 letter.\n")
            self.assert_unreached()
            self.assertEqual(self.server.addresses[-1], f"{name}@club.example")
            self.assert_none_is_due("call")

    def test_who_has_voted_needs_no_call_on_paper(self):
        self.change_roll(ALL[6], "")
        self.assert_sent("call")
        self.tells("status", "Get the call printed (1):\n  gus\n")
        self.add_lines(f"gus {RANKS}")
        self.assertNotIn("Get the call printed", self.told("status"))
        self.assertEqual(self.numbers()["printed"], ["gus"])

    def test_who_got_no_letter_is_named(self):
        """One whose address changed since, and those whom a run that was cut off did not come to;
        not who gets it printed.
        """
        self.change_roll(ALL[6], "")
        self.assert_unreached()
        self.assertNotIn("Not reached", self.told("status"))
        self.assertEqual(self.numbers()["printed"], [])
        self.server.at = lambda step, number: (step, number) == ("data", 6)
        self.assertEqual(self.send("call").status, 7)
        self.server.at = lambda step, number: False
        self.assert_unreached(hal="no letter", ida="no letter")
        unreached = "Not reached by the call: no letter (2):\n  hal ida\n"
        self.tells("status", "Get the call printed (1):\n  gus\n", unreached)
        said = self.send("call").output
        self.assertRegex(
            said, "(?s)^(?!.*Not reached).*Without an address: gus. Print letters/call/"
        )
        # who has no address any more gets it printed, too
        self.change_roll(ALL[7], "")
        self.assert_unreached(gus="no letter")
        self.assertEqual(self.numbers()["printed"], ["hal"])
        self.change_roll("ada@club", "ada@new", ALL[8], "")
        self.assert_unreached(**dict.fromkeys(("ada", "gus", "hal"), "no letter"))
        self.tells(
            "letters receipts",
            "Not reached by the call: ada (no letter), gus (no letter), hal (no letter)\n",
        )
        self.send("call")
        self.assert_unreached()
        # who got the call printed is told that there is more time
        self.extend("2026-12-09 12:00")
        self.assert_sent("call", status=9, refused={ALL[2]: "550 none"})
        self.assert_unreached(cleo="refused")
        self.assertIn("You have more time to vote.", self.files("call")[0].read_text())
        # what a server refused of a call that was taken back is no news of the next one, nor who
        # leaves the list
        self.done("call --take-back")
        self.change_roll("Dan,dan@club.example\n", "")
        self.done("call", *self.call_words)
        self.told("letters call")
        self.assert_unreached()
        # nor is one that comes back now
        self.came_back("eve", "id")
        self.assert_unreached()

    def came_back(
        self,
        name: str,
        what: str,
        sender: str = "mailer-daemon@mail.example",
        field: str = "",
        time: str = TEN,
    ):
        sent = next(
            taken.data.decode().replace("\r\n", "\n")
            for taken in self.server.taken
            if taken.to.startswith(f"{name}@")
        )
        message = parsed(sent.encode())
        head = sent.partition("\n\n")[0]
        kind, part = {
            "whole": ("message/rfc822", sent),
            "head": ("text/rfc822-headers", f"{head}\n"),
            "text": ("text/plain", f"Subject: {message['Subject']}\n"),
            "link": (
                "text/plain",
                next(line for line in message.get_content().splitlines() if "#" in line).strip(),
            ),
            "id": ("text/plain", f"Message-ID: {message['Message-ID']}"),
            "encoded": (
                'text/plain; charset="utf-8"\nContent-Transfer-Encoding: base64',
                base64.b64encode(head.encode()).decode(),
            ),
            "nothing": ("text/plain", f"ada _,_,_,_ could not be delivered to {name}@club.example"),
        }[what]
        said = "--b\nContent-Type: text/plain\n\nI'm sorry to have to inform you that your message could not be delivered."
        self.add(
            letter(
                name,
                f"{said}\n--b\nContent-Type: {kind}\n\n{part}\n--b--\n",
                sender=sender,
                kind=REPORT,
                number=f"{what}{abs(hash(sent))}",
                head=field,
                time=time,
            )
        )

    def test_what_is_no_letter_that_came_back(self):
        """A program answers for somebody who is away, or reports from the elector's own address; a
        delivery is late, or done; a stranger has no own mark; a person answers.
        """
        self.change_roll(ALL[0], f"{ALL[0]} Ada@Home.example")
        self.assert_sent("call")
        self.came_back("ada", "nothing")
        self.came_back("ben", "text", sender=ALL[1])
        subject = parsed(self.server.taken[0].data)["Subject"]
        self.add(
            letter(
                "ada",
                "I am away.",
                number="away",
                head=f"Auto-Submitted: auto-replied\nReturn-Path: <>\nSubject: Re: {subject}\n",
                sender="ada.private@mail.example",
            )
        )
        self.assert_unreached()
        self.assert_none_is_due("call")
        servers = "mailer-daemon@mail.example"
        for number, (action, sender) in enumerate(
            (
                ("delayed", servers),
                ("delivered", servers),
                ("failed", ALL[0]),
                ("failed", "ada@home.example"),
                ("failed", servers),
            )
        ):
            report = f"--b\nContent-Type: message/delivery-status\n\nReporting-MTA: dns; x\n\nAction: {action}\n"
            self.add(
                letter(
                    "ada",
                    f"{report}--b\nContent-Type: text/rfc822-headers\n\nSubject: {subject}\n--b--\n",
                    sender=sender,
                    kind=REPORT,
                    number=number,
                    head="Auto-Submitted: auto-generated\n",
                )
            )
            self.assert_unreached(**{"ada": "came back"} if number == 4 else {})

    def test_whose_letter_came_back_is_named_and_gets_it_again(self):
        """In each run, until the address is another one. A server that takes letters, as a
        reminder, shows nothing.
        """
        self.change_roll(ALL[0], "ada@home.example")
        self.assert_sent("call")
        first = {taken.to: parsed(taken.data)["Message-ID"] for taken in self.server.taken[:6]}
        back = dict.fromkeys(elections.NAMES[:6], "came back")
        for name, what in zip(
            back, ("whole", "head", "text", "link", "encoded", "id"), strict=True
        ):
            self.came_back(name, what)
        self.assert_unreached(**back)
        named = f"Not reached by the call: {', '.join(f'{name} (came back)' for name in back)}\n"
        self.tells("letters receipts", named)
        for _ in range(2):
            self.server.taken.clear()
            self.assertIn(named, self.assert_sent("call", "Sent 6 of 6 letters.\n").output)
            self.assertEqual(
                {taken.to: parsed(taken.data)["Message-ID"] for taken in self.server.taken}, first
            )
        self.assert_sent("reminders")
        self.assert_unreached(**back)
        # also her receipt, which a server has taken; that to her earlier address goes out once
        self.add_lines(f"ada {RANKS}")
        for said in ("Sent 2 of 2 letters.\n", "Sent 1 of 1 letter.\n"):
            self.assert_sent("receipts", said)
        self.assertEqual(self.server.addresses[-1], "ada@home.example")
        self.change_roll("@club.example", "@new.example")
        self.assert_sent("call", "Sent 9 of 9 letters.\n")
        self.assert_unreached()

    def test_a_letter_that_came_back_is_no_news_once_a_ballot_came(self):
        """Nor is a copy of it that is added later. A ballot on paper shows nothing."""
        self.assert_sent("call")
        for name in ("ada", "ben"):
            self.came_back(name, "whole")
        self.add(letter("ada", f"ada {RANKS}\n"))
        self.add_lines(f"ben {RANKS}")
        self.came_back(
            "ada", "whole", field="X-Folder: another\n", time=TEN.replace("10:00", "10:30")
        )
        self.assert_unreached(ben="came back")
        self.came_back("ada", "head")
        both = {"ada": "came back", "ben": "came back"}
        self.assert_unreached(**both)
        # a ballot that is struck, or had come before, shows nothing either
        for number, name, hour, found in (
            (6, "ada", "08:00", both),
            (7, "ben", "10:30", {"ada": "came back"}),
        ):
            time = TEN.replace("10:00", hour)
            self.add(letter(name, f"{name} {OTHER_RANKS}\n", time=time, number=number))
            self.done("held", number, "--enter", *FORCED)
            self.assert_unreached(**found)
        self.done("undo --yes")
        self.assert_unreached(**both)

    def test_what_came_last_is_the_reason(self):
        refused = {ALL[0]: "550 no"}
        self.assert_sent("call", "", 9, refused)
        self.assert_sent("call")
        self.came_back("ada", "whole")
        self.assert_unreached(ada="came back")
        said = "Not reached by the call: ada (refused: 550 no)\n"
        self.assert_sent("call", said, 9, refused)
        self.assert_unreached(ada="refused")
        # nor does it reach her if a letter to her is only written, also one with a new own mark
        self.add_lines(f"ada {RANKS}")
        self.tells("letters receipts", "Wrote 1 letter: ")
        self.change_roll(ALL[0], f"{ALL[0]} home@x.example")
        self.told("letters call")
        self.assert_unreached(ada="refused")
        self.came_back("ada", "head")
        self.assert_unreached(ada="came back")

    def test_a_run_that_goes_on_sends_nothing_twice(self):
        """Nor to those whose letter came back before."""
        self.assert_sent("call")
        self.came_back("ada", "whole")
        self.assert_sent("reminders", "Sent 8 of 9 letters.\n", 9, {ALL[1]: "451 later"})
        self.assert_sent("reminders", "Sent 1 of 1 letter.\n")

    def test_each_own_mark_is_told_by_a_letter(self):
        """That of a second address, and of an address that is put back: whoever knows the first
        address has the old mark. A receipt is none.
        """
        self.assert_sent("call")
        for number, addresses in enumerate(
            (f"{ALL[0]} ada@second.example", "ada@new.example", ALL[0]), start=1
        ):
            self.change_roll(ALL[0], addresses)
            self.add_lines(f"ada {number},2,3,4")
            self.assert_sent("receipts")
            self.server.taken.clear()
            self.assert_unreached(ada="no letter")
            self.assert_sent("call")
            [taken] = self.server.taken
            self.assertEqual(taken.to, addresses.partition(" ")[0])
            [(own,)] = self.book.rows("SELECT mark FROM elector_now WHERE name = 'ada'")
            self.assertIn(f"-{own}]", parsed(taken.data)["Subject"])
            self.assert_unreached()
            self.assert_none_is_due("call")

    def test_an_old_address_that_refuses_is_no_fault(self):
        self.change_roll("ada@club", "ada@new")
        self.add_lines(f"ada {RANKS}")
        for address, is_named in ((ALL[0], False), ("ada@new.example", True)):
            self.server.rcpt_answers = {address: "550 no"}
            ended = self.send("receipts")
            self.assertIn(f"Refused: ada, {address}: 550 no\n", ended.output)
            self.assertEqual(
                (ended.status, "Try again" in ended.output), (9, True) if is_named else (0, False)
            )
            # nor is it tried again
            self.assertEqual(
                "There is no letter to send" in self.send("receipts").output, not is_named
            )
            self.add_lines(f"ada {OTHER_RANKS}")

    def test_no_other_answer_than_that_it_was_taken_is_one(self):
        """After the letter, and not before it; what is no answer of a mail server is none. Nobody
        else would learn that it is lost.

        All but 4 as its first digit is for good.
        """
        for step, answer, state, is_for_good in (
            ("letter", "354 go on", REFUSED, True),
            ("letter", "yes", REFUSED, True),
            ("letter", "-99 x", REFUSED, True),
            ("data", "250 OK", REFUSED, True),
            ("data", "200 OK", REFUSED, True),
            ("to", "354 x", REFUSED, True),
            ("letter", "600 x", REFUSED, True),
            ("letter", "200 OK", TAKEN, False),
            ("letter", "250-OK\r\n250 yes", TAKEN, False),
            ("letter", "299 OK", TAKEN, False),
            ("letter", "400 x", REFUSED, False),
            ("letter", "599 x", REFUSED, True),
        ):
            with PlainServer({step: answer}) as server:
                [letter] = sent_to(smtp.Server("127.0.0.1", server.port, False))
                found = letter.state, letter.is_refused_for_good
                self.assertEqual(found, (state, is_for_good), answer)

    def test_a_receipt_that_was_refused_goes_to_a_new_address(self):
        """One that was refused for now, as servers answer of a domain that has no mail server, goes
        to the old address, too.
        """
        self.add_lines(f"ada {RANKS}", f"ben {RANKS}", f"cleo {RANKS}")
        refused = {ALL[0]: "450 4.1.2 domain not found", ALL[1]: "550 no such user"}
        for sent in ("1 of 3", "0 of 2"):
            self.assert_sent("receipts", f"Sent {sent} letters.", 9, refused)
        self.change_roll("ada@club", "ada@new", "ben@club", "ben@new")
        self.assert_sent("receipts", "Sent 2 of 3 letters.", refused=refused)
        now = ["ada@new.example", "ben@new.example", *ALL[2:]]
        self.assertEqual(self.server.addresses, [ALL[2], *now[:2]])
        self.assertIn(f"It was read as: {LAKE}", self.server.texts()["ben"])
        self.assert_sent("receipts", "Sent 1 of 1 letter.")
        self.assertEqual(self.server.addresses[3:], [ALL[0]])
        # those that go out again do so in the order in which they were written
        self.add_lines(*(f"{name} {OTHER_RANKS}" for name in self.names))
        refused = dict.fromkeys(now, "451 later")
        self.assert_sent("receipts", "Sent 0 of 9 letters.", 9, refused)
        self.assert_sent("receipts", "Sent 9 of 9 letters.")
        self.assertEqual(self.server.addresses[4:], now)

    def test_a_receipt_that_is_a_file_is_sent_once_to_each_address(self):
        """Whether the address changed before it was written or after."""
        self.assertEqual(self.written("receipts"), {})
        self.add_lines(f"cleo {RANKS}", "dan 2,1,4,3")
        ids = [
            (message["To"], message["Message-ID"]) for message in self.written("receipts").values()
        ]
        self.assertEqual([to for to, _ in ids], ALL[2:4])
        self.assert_sent("receipts")
        taken = [parsed(one.data) for one in self.server.taken]
        self.assertEqual([(message["To"], message["Message-ID"]) for message in taken], ids)
        for name, is_before in (("ada", False), ("ben", True)):
            self.server.taken.clear()
            self.add_lines(f"{name} {RANKS}")
            if not is_before:
                self.told("letters receipts")
            self.change_roll(f"{name}@club", f"{name}@new")
            if is_before:
                self.told("letters receipts")
            self.assert_sent("receipts")
            self.assertEqual(
                sorted(self.server.addresses), [f"{name}@club.example", f"{name}@new.example"]
            )
            self.assert_none_is_due("receipts")

    def test_a_receipt_on_paper_is_printed_once(self):
        self.change_roll(ALL[0], "")
        self.add_lines(f"ada {RANKS}", f"ben {RANKS}")
        place = self.folder / "letters" / "receipts"
        said = "Without an address: ada. Print letters/receipts/"
        self.assertIn(said, self.send("receipts").output)
        [page] = place.rglob("to-print.html")
        data, rows = page.read_bytes(), self.rows("receipts")
        self.assert_none_is_due("receipts")
        self.assertEqual((list(place.rglob("*.html")), self.rows("receipts")), ([page], rows))
        # a page that is lost is made again
        shutil.rmtree(place)
        said = f"Without an address: ada. Print {page.relative_to(self.folder)}.\n"
        self.assertIn(said, self.send("receipts").output)
        self.assertEqual((page.read_bytes(), self.rows("receipts")), (data, rows))
        # alone: what the server took is no file again, nor is it said to be one
        shutil.rmtree(place)
        said += "No other letter is to be sent.\nNext: "
        self.assertTrue(self.told("letters receipts").startswith(said))
        self.assertEqual([file for file in place.rglob("*") if file.is_file()], [page])
        # the address that she had before gets the first, too
        self.assertEqual(sorted(self.server.addresses), ALL[:2])
        # what comes of her later is on a new page
        self.add_lines(f"ada {OTHER_RANKS}")
        self.send("receipts")
        self.assertEqual(len(list(place.rglob("*.html"))), 2)

    def test_after_a_second_close_its_letter_goes_out_too(self):
        for _ in range(2):
            self.done("close --early")
            self.assert_sent("closed", "Sent 9 of 9 letters.\n")
            self.assert_none_is_due("closed")
            self.done("reopen --because 'a bag was forgotten'")

    def test_who_was_not_reached_gets_the_whole_call_after_an_extension(self):
        """A run that took nothing reaches nobody, whether the letters were files before or not; nor
        does a call that was refused, or came back.
        """
        self.server.mail_answer = "553 not yours"
        for _ in range(2):
            self.assertEqual(self.send("call").status, 7)
            self.assert_unreached(**dict.fromkeys(elections.NAMES, "no letter"))
            # a mail program has them now
            self.told("letters call")
            self.assert_unreached()
            acts = self.last_act()
            self.told("letters call")
            self.assertEqual(self.last_act(), acts)
        self.assertEqual(self.send("call").status, 7)
        self.server.mail_answer = "250 OK"
        for day, whole in ((6, elections.NAMES), (7, ["ada", "ben", "cleo"])):
            self.server.taken.clear()
            self.extend(f"2026-12-{day:02} 12:00")
            # again it is the same letter
            for _ in range(2):
                self.assert_sent("call")
            for words, is_whole in (("After the vote all", True), ("You have more time", False)):
                found = [
                    name
                    for name, text in self.server.texts().items()
                    if (words in text) == is_whole
                ]
                self.assertEqual(found, whole)
            if day == 6:
                self.came_back("ada", "whole")
                refused = {ALL[1]: "451 later", ALL[2]: "550 no"}
                self.assert_sent("reminders", "", 9, refused)
                self.assert_unreached(ada="came back", ben="refused", cleo="refused")
                unreached = "Not reached by the call: "
                for said in ("came back (1):\n  ada\n", "refused (2):\n  ben cleo\n"):
                    self.tells("status", f"{unreached}{said}")

    def test_a_refused_sender_and_a_lost_connection_cost_nobody_their_letter(self):
        self.server.mail_answer = "553 not yours"
        said = "it takes no letters now: 553 not yours", "0 of 9 letters taken in this run"
        self.assert_fault(self.send("call"), 7, *said)
        self.server.mail_answer = "250 OK"
        # lost in a letter
        self.server.at = lambda step, number: (step, number) == ("data", 3)
        said = "lost during the letter to dan@club.example", "3 of 9 letters taken in this run"
        self.assert_fault(self.send("call"), 7, *said)
        # lost between letters it is made anew
        cut = set()

        def once(step: str, number: int) -> bool:
            is_new = step in ("mail", "rcpt") and number in (5, 7) and number not in cut
            cut.update([number] if is_new else [])
            return is_new

        self.server.at = once
        self.assert_sent("call", "Sent 6 of 6 letters.\n")
        self.assertEqual((self.server.addresses, len(cut)), (ALL, 2))
        self.assert_none_is_due("call")

    def test_a_server_that_is_not_there_or_lets_nobody_in(self):
        self.server.stop()
        self.assert_fault(self.send("call"), 7, f"{self.server.name}: no connection")
        self.server = self.mail_server_with_login()
        words = "--user", "vote", "--password-file", "password"
        self.write("password", "wrong\n")
        ended = self.send("call", *words)
        self.assert_fault(ended, 7, "it refuses user or password: 535")
        self.assertNotIn("wrong", ended.output + ended.faults)
        self.write("password", "right\r\n")
        sender = "ada.secretary@mail.example"
        self.assertEqual(self.send("call", *words, "--from", sender).status, 0)
        message = parsed(self.server.taken[0].data)
        self.assertEqual((message["From"], message["Reply-To"]), (sender, "vote@club.example"))
        self.assertEqual(self.server.logins[-1], (b"vote", b"right"))
        self.assertEqual(self.server.addresses, ALL)

    def test_words_that_do_not_go_together(self):
        for typed, *parts in (
            (
                "--server 'x y' --yes --at ftp: --from 'two@x.example, b@x.example'",
                "--server: only with --send",
                "--at: only with result",
                "--yes: only with reminders",
                "the address of a page",
                "--from: it must be one mail address",
                "not the name of a server",
            ),
            ("--user x --password-file p", "--user, --password-file: only with --send"),
            ("--send --server x.example --password-file p", "only with --user"),
            ("--send --server x.example --user u --password-file none", "none: No such file"),
        ):
            ended = self.election(f"letters call {typed}")
            faults = ended.faults.splitlines()
            found = [part in fault for part, fault in zip(parts, faults, strict=True)]
            self.assertEqual((ended.status, found), (2, [True] * len(parts)), faults)
        self.assertEqual((self.rows("call"), self.server.taken), ([], []))

    def test_a_receipt_that_is_outdated_before_it_is_taken(self):
        """It would tell of nothing: the letter that it is about is a ballot now."""
        self.add(letter("cleo", f"dan {RANKS}\n"))
        self.assert_sent("receipts", status=9, refused={ALL[3]: "451 later"})
        self.done("held", 1, "--enter", *FORCED)
        self.assert_sent("receipts")
        self.assertEqual(self.server.addresses.count(ALL[3]), 1)
        self.assertIn(f"It was read as: {LAKE}", self.server.texts()["dan"])


class Remembered(SendTest):
    """Server and user of the last letters are used when --send is given without them; the password
    is never kept.
    """

    def test_the_server_of_the_last_letters(self):
        send = self.election("letters call --send")
        self.assert_fault(send, 2, "--send: no server is named", "give --server HOST[:PORT]")
        self.tells(
            "letters call",
            "9 letters of the call are not sent: debvote-election letters --send --server HOST; or",
        )
        self.send("call")
        said = self.told("letters reminders --send")
        self.assertTrue(
            said.startswith(f"To the server of the last letters: {self.server.name}\n"), said
        )
        self.assertEqual(self.server.addresses, ALL * 2)
        # a file does not need it
        self.add_lines(f"ada {RANKS}")
        said = self.told("letters receipts")
        self.assertNotIn(self.server.name, said)
        self.assertIn("1 receipt is not sent: debvote-election letters --send; or", said)
        # one that is named takes its place
        first, self.server = self.server, self.mail_server()
        self.assert_sent("receipts")
        self.add_lines(f"ben {RANKS}")
        self.done("letters receipts --send")
        self.assertEqual(self.server.addresses, ALL[:2])
        # one that is gone
        self.server.stop()
        self.refused(
            "letters reminders --send --yes",
            f"{self.server.name}: no connection",
            "the server of the last letters: if it is gone, name another with --server",
            status=7,
        )
        # a copy that was moved sends no letters
        moved = ("--moved", "--because", "a rehearsal")
        ended = self.election("letters", "reminders", "--send", "--yes", *moved)
        self.assert_fault(ended, 2, "no server is named", "(moved) was done")
        said = (
            "7 reminders are not sent: debvote-election letters reminders --send --server HOST; or"
        )
        self.tells("letters reminders --yes", said)
        self.server = first
        self.assert_sent("reminders")

    def test_the_user_but_not_the_password(self):
        self.server = self.mail_server_with_login()
        self.write("password", "right\n")
        file = ("--password-file", "password")
        self.assertEqual(self.send("call", "--user", "vote", *file).status, 0)
        details = [act.detail for act in self.book.acts() if act.name == "letter sent"]
        self.assertEqual(
            details, [{"kind": "call", "server": self.server.name, "user": "vote"}] * 9
        )
        send = ("letters", "reminders", "--send")
        ended = self.election(*send)
        self.assert_fault(ended, 2, "the password of vote can't be asked here")
        self.assertEqual(
            ended.output, f"To the server of the last letters: {self.server.name}, user vote\n"
        )
        self.done(*send, *file)
        self.assertEqual((len(self.server.logins), len(self.server.taken)), (2, 18))
        # a server that is named has the user that is named
        self.server = self.mail_server()
        self.assert_sent("reminders")
        self.assertEqual(self.server.logins, [])


class Endless(unittest.TestCase):
    """A server that answers now and then, and never to the end."""

    def test_a_conversation_has_an_end(self):
        begin, drops = [], []

        class Dropping(PlainServer):
            def converse(self, connection: socket.socket):
                with connection, contextlib.suppress(OSError):
                    for line in ("220 here\r\n", "250 here\r\n", *begin):
                        connection.sendall(line.encode())
                    while True:
                        connection.sendall(b"250-x\r\n" * 3)
                        drops.append(1)
                        time.sleep(0.05)

        in_letter = ["250 OK\r\n", "250 OK\r\n", "354 go\r\n"]
        for begin, said in (
            ([], "no end after 1.5 seconds"),
            (in_letter, "lost during the letter to ada@club.example: "),
        ):
            with self.subTest(said), unittest.mock.patch.object(smtp, "WHOLE", 1.5), Dropping(
                {}
            ) as server:
                with self.assertRaises(Fault) as caught:
                    sent_to(smtp.Server("127.0.0.1", server.port, False))
                self.assertIn(said, str(caught.exception.reason))
        self.assertLess(len(drops), 200)


# of a conversation about one letter
STEPS = ("mail", "rcpt", "data")


class Killed(SendTest):
    """A run is killed at each step of each letter."""

    names = ["ada", "ben", "cleo"]

    def status_of_killed(self, step: str, number: int) -> int:
        """Sends the call by a program that is killed at a step of one of the letters; returns how
        it ended.
        """
        began, process = self.server.started, self.sending()
        self.addCleanup(process.kill)

        def kill(now: str, count: int) -> bool:
            is_then = (now, count - began) == (step, number)
            if is_then:
                process.kill()
                process.wait()
            return is_then and now != "data"

        self.server.at = kill
        process.communicate(timeout=elections.SECONDS)
        self.server.at = lambda now, count: False
        return process.returncode

    def test_none_is_lost_and_only_that_of_the_kill_may_go_out_twice(self):
        self.check(zip(STEPS, range(3)))

    @pytest.mark.whole
    def test_at_each_step_of_each_letter(self):
        self.check(itertools.product(STEPS, range(3)))

    def check(self, kills: Iterable[tuple[str, int]]):
        for day, (step, number) in enumerate(kills, start=5):
            with self.subTest(step=step, number=number):
                self.server.taken.clear()
                self.extend(f"2026-12-{day:02} 18:00")
                self.assertEqual(self.status_of_killed(step, number), -9)
                self.assert_sent("call")
                twice = [ALL[number]] if step == "data" else []
                self.assertEqual(sorted(self.server.addresses), sorted([*ALL[:3], *twice]))
                self.assertEqual(
                    len({parsed(taken.data)["Message-ID"] for taken in self.server.taken}), 3
                )
                self.assert_none_is_due("call")


class SeveralRuns(SendTest):
    def test_reminders_that_were_cut_off_go_on_and_else_each_run_is_a_new_one(self):
        self.assert_sent("reminders", status=9, refused=dict.fromkeys(ALL[1:4], "451 later"))
        self.assertEqual(len(self.server.taken), 6)
        # who has voted meanwhile is not reminded, who has a new address is, and the old one holds
        # up no new run
        self.add_lines("dan 1,2,4,3")
        self.change_roll("cleo@club", "cleo@new")
        self.assert_sent("reminders")
        self.assert_sent("reminders")
        wanted = [ALL[1], "cleo@new.example", *ALL[:2], "cleo@new.example", *ALL[4:]]
        self.assertEqual(self.server.addresses[6:], wanted)

    def test_a_reminder_that_no_server_can_take_holds_up_no_new_run(self):
        """One to be printed, or to an address that was wrong, or that the server postpones for
        days.
        """
        self.change_roll(ALL[6], "")
        self.assert_sent("reminders", "Sent 8 of 8 letters.")
        refused = {ALL[1]: "450 4.1.2 domain not found"}
        self.assert_sent("reminders", "Sent 7 of 8 letters.", 9, refused)
        self.assert_sent("reminders", "Sent 0 of 1 letter.", 9, refused)
        self.set_clock("2026-11-24T11:00:00+00:00")
        self.assert_sent("reminders", "Sent 7 of 8 letters.", 9, refused)
        self.change_roll(ALL[6], "", "ben@club", "ben@new")
        self.assert_sent("reminders", "Sent 8 of 8 letters.", refused=refused)
        # one that a server refused for good
        refused = {"ben@new.example": "550 5.1.1 no such user"}
        for _ in range(2):
            self.assert_sent("reminders", "Sent 7 of 8 letters.", 9, refused)

    def test_two_runs_at_once_send_each_letter_once(self):
        """Processes of their own, at the same time."""
        runs = [self.sending() for _ in range(2)]
        outputs = [run.communicate(timeout=elections.SECONDS)[0] for run in runs]
        self.assertEqual([run.returncode for run in runs], [0, 0])
        self.assertEqual(sum("Sent 9 of 9 letters." in output for output in outputs), 1, outputs)
        self.assertEqual(self.server.addresses, ALL)

    def test_the_password_is_asked_and_a_bar_is_shown(self):
        self.server = self.mail_server_with_login()
        desk = terminal.Terminal(
            self, "letters", "call", "--send", "--server", self.server.name, "--user", "vote"
        )
        desk.until("The password of vote on 127.0.0.1: ")
        desk.type("right\n")
        shown, status = desk.end()
        self.assertEqual(status, 0, shown)
        self.assertNotIn("right", shown)
        for count, width in ((0, 0), (5, 22), (9, 40)):
            self.assertIn(f"[{'#' * width}{'.' * (40 - width)}] {count} of 9", shown)
        self.assertIn("Sent 9 of 9 letters.", shown)

    def test_reminders_within_a_day_ask_at_a_terminal(self):
        """And stop elsewhere."""
        self.assert_sent("reminders")
        words = ("letters", "reminders", "--send", "--server", self.server.name)
        said = "Reminders were written at 2026-11-23 10:00:00 UTC; nothing was written: if it is right, remind again with --yes"
        for how in (words[2:], ()):
            self.assert_refused(("letters", "reminders", *how), 9, said)
        for answer, count, said in (("n\n", 9, "Nobody was reminded."), ("y\n", 18, "Sent 9")):
            desk = terminal.Terminal(self, *words)
            desk.until("Reminders were written at 2026-11-23 10:00:00 UTC. Remind again? [y/n] ")
            desk.type(answer)
            shown, status = desk.end()
            self.assertEqual((status, len(self.server.taken)), (0, count))
            self.assertIn(said, shown)
        self.assertEqual(terminal.Terminal(self, *words, "--yes").end()[1], 0)
        # on a busy machine the last reminders are some seconds younger
        self.set_clock("2026-11-24T11:00:00+00:00")
        self.assertEqual(terminal.Terminal(self, *words).end()[1], 0)
        self.assertEqual(len(self.server.taken), 36)
        # a run that goes on asks nothing, though somebody has another address since; nor does one
        # that reminds nobody
        self.set_clock("2026-11-25T12:00:00+00:00")
        self.server.rcpt_answers = {ALL[1]: "451 later"}
        self.assertEqual(self.election(*words).status, 9)
        self.server.rcpt_answers = {}
        self.change_roll("cleo@club", "cleo@new")
        self.assertIn("Sent 2 of 2 letters.", self.told(*words))
        self.add_lines(*(f"{name} {RANKS}" for name in self.names))
        self.assertIn("There is no letter to send: ", self.told(*words))


class Secret(SendTest):
    poll = elections.POLL + "secret = true\n"

    def test_a_code_that_a_server_took_at_last_went_to_that_address(self):
        """It is told as such to the next one; not one that was refused and never taken."""
        for refused in ({ALL[0]: "451 later", ALL[1]: "550 none"}, {ALL[1]: "550 none"}):
            self.assert_sent("call", "", 9, refused)
        self.change_roll("@club", "@new")
        self.assert_sent("call")
        texts = self.server.texts()
        for name, is_told in (("ada", True), ("ben", False), ("cleo", True)):
            said = f"It went to another address before: {name}@club.example."
            self.assertEqual(said in texts[name], is_told, name)
        # a code of a call that was taken back opens nothing
        for words in (("call", "--take-back"), ("codes",), ("call", *self.call_words)):
            self.done(*words)
        self.server.taken.clear()
        self.change_roll("@club", "@newest")
        self.assert_sent("call")
        self.assertNotIn("to another address", str(self.server.texts()))


class Encrypted(unittest.TestCase):
    """To all but a loopback the connection is encrypted, and the server has to show who it is."""

    def test_which_servers_are_near(self):
        for text, host, port, is_encrypted in (
            ("mail.example.org:1", "mail.example.org", 1, True),
            ("mail.example.org:65535", "mail.example.org", 65535, True),
            ("localhost", "localhost", 25, False),
            ("127.0.0.1:2525", "127.0.0.1", 2525, False),
            ("[::1]:26", "::1", 26, False),
            ("mail.example.org", "mail.example.org", 587, True),
            ("localhost.example.org:25", "localhost.example.org", 25, True),
            ("10.0.0.1:25", "10.0.0.1", 25, True),
        ):
            self.assertEqual(smtp.server_of(text), smtp.Server(host, port, is_encrypted))
        for text in ("x.example:65536", "x.example:0"):
            with self.assertRaises(Fault, msg=text):
                smtp.server_of(text)

    def assert_gets_nothing(self, server: MailServer, near: smtp.Server, said: str):
        with self.assertRaises(Fault) as caught:
            sent_to(near)
        self.assertIn(said, str(caught.exception.reason).lower())
        self.assertEqual(server.steps, [])

    def test_a_server_that_offers_no_encryption_gets_nothing(self):
        server = MailServer()
        self.addCleanup(server.stop)
        self.assert_gets_nothing(server, smtp.Server("127.0.0.1", server.port, True), "starttls")

    def test_a_certificate_that_nobody_vouches_for_is_refused_and_a_good_one_is_taken(self):
        with tempfile.TemporaryDirectory() as place:
            key, certificate = f"{place}/key", f"{place}/certificate"
            words = f"openssl req -x509 -newkey ec -pkeyopt ec_paramgen_curve:P-256 -nodes -keyout {key} -out {certificate} -days 2"
            name = " -subj /CN=localhost -addext subjectAltName=DNS:localhost"
            subprocess.run((words + name).split(), check=True, capture_output=True)
            context = ssl.SSLContext(ssl.PROTOCOL_TLS_SERVER)
            context.load_cert_chain(certificate, key)
            server = MailServer(tls_context=context)
            self.addCleanup(server.stop)
            near = smtp.Server("localhost", server.port, is_encrypted=True)
            self.assert_gets_nothing(server, near, "certificate")
            with unittest.mock.patch.dict(os.environ, {"SSL_CERT_FILE": certificate}):
                [tried] = sent_to(near)
            self.assertEqual((tried.state, server.addresses), (TAKEN, ALL[:1]))
            self.assertTrue(server.was_encrypted)


def sent_to(server: smtp.Server) -> list[OutgoingLetter]:
    """What becomes of a letter to Ada that is sent to a server."""
    time = datetime.datetime(2026, 11, 23, tzinfo=datetime.UTC)
    letter = OutgoingLetter(1, "call", 1, ALL[0], "<1@club.example>", time, ())
    data = b"From: vote@club.example\n\n.\nFrom me\n"
    return list(smtp.send_all([(letter, data)], "vote@club.example", server))
