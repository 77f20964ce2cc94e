"""`letters`: the call, close and result, printed and secret letters, as files; none of it is a ballot."""

import contextlib
import datetime
import functools
import hashlib
import importlib.util
import pathlib
import re
import resource
import shutil
import stat
import sys
from unittest import mock

import pytest

from debvote_tools.files import TEMPORARY, write_whole
from debvote_tools.outbox import due
from debvote_tools.outbox.letter_folder import in_place

from tests.support import elections
from tests.support.election_books import LAKE
from tests.support.letters import OTHER_RANKS, RANKS, TITLE, letter
from tests.support.outgoing import AT, FORM, LINE, OPTIONS, WHEN, OutTest, one_line

MARKS = r"\[([0-9a-f]{16})-([2-9a-hjkmnp-z]{10})\]"
EARLIER = "Mon, 23 Nov 2026 09:59:00 +0000"
OTHER_AT = "https://x.example/r/"


class Call(OutTest):
    def test_it_has_title_end_form_the_own_line_and_the_mark(self):
        self.assertIn("Wrote 9 letters: letters/call/", self.done("letters call").output)
        found = self.written("call")
        own_marks = dict(self.book.rows("SELECT name, mark FROM elector_now WHERE mark <> ''"))
        self.assertEqual((sorted(found), len({*own_marks.values()})), (elections.NAMES, 9))
        for name, message in found.items():
            text, mark = one_line(message), f"[{self.mark}-{own_marks[name]}]"
            begin = f"Dear {name.title()}, {WHEN} {FORM}#{name}/{own_marks[name]} {LINE}{name} _,_,_,_ The options; the last one is the default "
            begin += "option, which stays where no other one is good enough: "
            self.assertTrue(
                text.startswith(f"{begin}{OPTIONS} Answer this letter, or write to "), text
            )
            self.assertIn(f"whose subject ends with {mark}", text)
            checksum = hashlib.sha256(self.read("call/poll.toml")).hexdigest()
            self.assertIn(f"until the result: {checksum} Majority ratio 3: ", text)
            # the rules in full are on the page
            self.assertNotIn("Rank before it what you would accept", text)
            self.assertLess(message.get_content().index(AT), 300)
            self.assertEqual([other for other in elections.NAMES if f"{other} _" in text], [name])
            # one page
            self.assertLess(len(message.get_content().splitlines()), 50)
            heads = {
                "To": f"{name}@club.example",
                "Subject": f"Vote: {TITLE} {mark}",
                "From": "vote@club.example",
                "Auto-Submitted": "auto-generated",
                "X-Unsent": "1",
            }
            heads |= dict.fromkeys(("In-Reply-To", "Reply-To", "Cc", "Bcc"))
            self.assertEqual({name: message[name] for name in heads}, heads)
            self.assertRegex(message["Message-ID"], r"^<[0-9a-f]{32}@club\.example>$")
        self.assertEqual(len({message["Message-ID"] for message in found.values()}), 9)
        # the letter to all has gaps, and the mark of the poll
        text = self.text_in("call/call.txt")
        begin = f"{WHEN} {FORM} {LINE}NAME _,_,_,_ Write your name on the roll in the place of NAME. The options"
        self.assertTrue(text.startswith(begin), text)
        self.assertIn("Open the link in your letter, or answer that letter: then the subject", text)
        self.assertNotIn("nswer this letter", text)
        # how many are new
        self.assertIn("Wrote 9 letters, none of them new: ", self.done("letters call").output)
        self.change_roll("ada@club", "ada@new")
        self.assertIn("Wrote 9 letters, 1 of them new: ", self.done("letters call").output)

    def test_again_it_makes_the_same_files_and_no_act_and_an_answer_goes_in(self):
        found = self.written("call")
        before = {file: file.read_bytes() for file in self.files("call")}
        last = self.last_act()
        for file in before:
            file.unlink()
        self.set_clock("2026-11-24T11:00:00+00:00")
        self.written("call")
        self.assertEqual({file: file.read_bytes() for file in self.files("call")}, before)
        self.assertEqual(self.last_act(), last)
        # above the quotation of a letter to herself, which has her own mark; it is that of nobody
        # else
        quoted = "\n".join(f"> {line}" for line in found["ada"].get_content().splitlines())
        for name in ("ada", "ben"):
            text = f"{name} {RANKS}\n\nOn Mon, 23 Nov 2026 at 09:00, Vote wrote:\n{quoted}\n"
            self.add(letter(name, text, subject=f"Re: {found['ada']['Subject']}", time=EARLIER))
        self.assertEqual(self.exported()[0], f"ada {RANKS}\n")
        self.tells("held", "its subject lacks the own mark of ben")

    def test_after_an_extension_those_who_have_the_call_get_its_letter(self):
        self.written("call")
        # whose address was wrong has no call yet
        self.change_roll("ada@club", "ada@new")
        self.extend("2026-12-06 12:00")
        found = self.written("call")
        texts = {name: one_line(message) for name, message in found.items()}
        # also in a run after it
        self.assertEqual(self.texts("call"), texts)
        self.assertRegex(found["ben"]["Subject"], rf"^Vote ends later: {TITLE} {MARKS}$")
        self.assertRegex(found["ada"]["Subject"], rf"^Vote: {TITLE} ")
        self.assertNotIn("You have more time", texts.pop("ada"))
        for name, text in texts.items():
            begin = f"Dear {name.title()}, You have more time to vote. "
            self.assertTrue(text.startswith(begin), text)
            self.assertRegex(text, rf"6 December 2026, 12:00 \(UTC\) .* {LINE}{name} _,_,_,_")
        # one that went out after an extension is a call
        self.extend("2026-12-08 12:00")
        text = self.texts("call")["ada"]
        self.assertRegex(text, r"You have more time .* Tuesday, 8 December 2026, 12:00 \(UTC\)")
        # in the second of the end it can still be written, and after it nobody is invited
        with mock.patch.object(
            due, "now", lambda: datetime.datetime(2026, 12, 8, 12, tzinfo=datetime.UTC)
        ):
            self.assertEqual(len(self.texts("call")), 9)
        self.set_clock("2026-12-08T12:00:01+00:00")
        before = self.rows("call")
        for words in ("status", "close"):
            self.told(words)
            for kind in ("call", "reminders"):
                self.assert_refused(("letters", kind), 9, "the vote is over")
        self.assertEqual((self.rows("call"), self.rows("reminders")), (before, []))

    def test_a_call_that_was_taken_back_is_none(self):
        self.written("call")
        self.done("call --take-back")
        self.done("call", *self.call_words)
        self.extend("2026-12-06 12:00")
        self.assertRegex(self.texts("call")["ada"], "^(?!.*You have more time).*After the vote all")


class Refused(OutTest):
    call_words = None

    def test_before_the_call_and_a_call_without_addresses(self):
        sender = ("--from", "vote@other.example")
        self.assertEqual(self.election("letters", "receipts", *sender).status, 9)
        self.done("call")
        self.refused("letters call", "--from: the call names no address", status=2)
        found = self.written("call", *sender)
        text = one_line(found["ada"])
        begin = f"Dear Ada, {TITLE} You can vote until the time that the secretary announces. {LINE}ada _,_,_,_ "
        self.assertTrue(text.startswith(begin), text)
        # there is no page that has the rest
        self.assertRegex(
            text,
            r"Send your ballot as the secretary announces\. .* WHAT DECIDES .* WHAT WILL BE PUBLIC ",
        )
        self.assertEqual(found["ada"]["From"], sender[1])
        self.assertIn(f"{LINE}ada _,_,_,_", self.texts("reminders", *sender)["ada"])
        # the first end that is said may be less time
        for day in (4, 6):
            self.done("call", "--until", f"2026-12-0{day} 18:00", "--zone", "UTC")
        message = self.written("call", *sender)["ada"]
        self.assertRegex(message["Subject"], rf"^When the vote ends: {TITLE} {MARKS}$")
        self.assertIn("You can now vote until the time below.", one_line(message))
        self.done("close --early")
        self.done("publish --force --because 'nobody has voted'")
        said = "The end of the vote was announced: one could vote until Friday, 4 .* The time was extended: one could vote until Sunday, 6 "
        self.assertRegex(self.text_in("letters/result.txt"), said)

    def test_addresses_of_before_the_call_and_that_of_the_result(self):
        # of several addresses the first that each server takes
        self.change_roll("ada@club", "ädä@club.example home@ada")
        self.done("call --to vote@club.example")
        self.assertEqual(self.written("call")["ada"]["To"], "home@ada.example")
        # the one that she had before the call gets no receipt
        self.add_lines(f"ada {RANKS}")
        self.assertEqual(self.receivers("receipts"), ["home@ada.example"])
        # where the result is published is an act, and none if no letter can say it
        self.done("close")
        result = ("letters", "result")
        there = (*result, "--at", OTHER_AT)
        self.assert_refused(there, 9, "result: nothing is published")
        self.assert_refused((*there, "--from", "x"), 2, "--from")
        self.done("publish")
        self.assert_refused(result, 2, "--at: the letter must say where the result is published")
        for words in (("--at", OTHER_AT), ("--at", OTHER_AT), ()):
            self.assertIn(f"{OTHER_AT}#ada", self.texts("result", *words)["ada"])
        acts = [(act.name, act.detail) for act in self.book.acts()]
        self.assertEqual(acts.count(("announce", {"at": OTHER_AT})), 1)
        other = "https://x.example/s/"
        self.assertIn(f"{other}#ada", self.texts("result", "--at", other)["ada"])


class OwnWords(OutTest):
    """What the secretary writes begins each letter that asks for a ballot, and a name of the
    society is in From.
    """

    call_words = None
    letter = "Dear friends,\n\npaper goes into the box in the hall.\n\n"
    # its lines stay as they are, also longer ones
    letter += f"{'a line of a letter ' * 5}.\nThe next one\n\nYours, Eve\n"

    def test_each_begins_so_and_an_answer_that_quotes_all_of_it_goes_in(self):
        self.write("letter.txt", self.letter)
        self.set_clock("2026-11-20T09:00:00+00:00")
        self.done("call", "--to", "Wahlleitung T\u00fcV <vote@club.example>", *Call.call_words[2:])
        self.set_clock(self.now)
        called = self.written("call")
        found = [(self.letter, called), (self.letter, self.written("reminders"))]
        self.write("letter.txt", "It ends later.\n")
        self.extend("2026-12-06 18:00")
        found.append(("Dear Ada,\n\nIt ends later.\n", self.written("call")))
        self.add_lines("ada 1,2")
        found.append(("Dear Ada,\n", self.written("receipts")))
        for begin, letters in found:
            message = letters["ada"]
            self.assertTrue(message.get_content().startswith(begin), message.get_content())
            self.assertEqual(message["From"], "Wahlleitung T\u00fcV <vote@club.example>")
            self.assertEqual((message["To"], message["Reply-To"]), ("ada@club.example", None))
        # no line of ours reads as a ballot, nor looks like an answer
        self.add(letter("ada", f"Thank you.\n\n{called['ada'].get_content()}", number=2))
        self.tells("held", "\n        no ballot found\n")
        for name, message in called.items():
            quoted = "".join(f"> {line}\n" for line in message.get_content().splitlines())
            head = "On Monday, 23 November 2026 at 08:00 the secretary <vote@club.example> wrote:\n"
            whole = f"-----Original Message-----\n{message.get_content()}"
            answers = [
                letter(name, f"{name} {RANKS}\n\n{text}", number=number, time=EARLIER)
                for number, text in enumerate((f"{head}{quoted}", whole), start=3)
            ]
            self.assertIn("2 ballots of letters went in; 1 letter waits.", self.add(*answers))
        # without a head it is text of hers
        self.assertIn(
            "line 1 is a ballot, and there are other lines",
            self.add(letter("ada", f"ada {RANKS}\n\n{message.get_content()}", number=9)),
        )


class Paper(OutTest):
    members = 'who,mail\n"Ada <script>alert(1)</script> & Söhne",\nBen,ben@club.example\nEve,\n'

    def test_who_has_no_address_gets_a_page(self):
        said = self.done("letters call").output
        name = re.search(
            r"Without an address: (\S+), eve\. Print (letters/call/\d+/to-print\.html)\.\nNote: (.*)\n",
            said,
        )
        assert name is not None, said
        self.assertIn("do not say where a ballot on paper goes. Say it in letter.txt", name[3])
        self.assertIn("Wrote 1 letter: ", said)
        page = self.read(name[2]).decode()
        self.assertNotIn("<script>alert", page)
        # only codes must not lie on somebody's back
        self.assertNotIn("Print on one side", page)
        # a ballot has what an option needs only where it is more than a plain majority
        ballot = re.findall(r'<span class="rank"></span>\s*([^<]*)</p>', page)[:4]
        self.assertEqual(" ".join(ballot), OPTIONS)
        # each is for the person above it
        [first, second] = page.split("</section>")[:2]
        found = [
            re.findall(r"<bdi>(.*)</bdi>(?s:.*)Name: (\S+)</p>", one) for one in (first, second)
        ]
        who = "Ada &lt;script&gt;alert(1)&lt;/script&gt; &amp; Söhne"
        self.assertEqual(found, [[(who, name[1])], [("Eve", "eve")]])
        self.assertNotIn("script", second)
        # the link as a QR code, if there is what makes one
        qr_codes = [
            *map(
                re.compile(r"(?s)#(?:ada-.*|eve)/\w{10}</p><svg.*?</svg>").findall, (first, second)
            )
        ]
        if importlib.util.find_spec("segno"):
            self.assertEqual([len(found) for found in qr_codes], [1, 1])
            self.assertNotEqual(*qr_codes)
        self.assertEqual([state for _, state in self.rows("call")], ["written"] * 3)
        # who asks for it once more gets the same
        self.assertIn("Wrote 1 letter, none of them new: ", self.done("letters call").output)
        self.assertEqual(self.read(name[2]).decode(), page)
        with mock.patch.dict(sys.modules, {"segno": None}):
            self.done("letters call")
        self.assertEqual(self.read(name[2]).decode(), re.sub("(?s)<svg.*?</svg>", "", page))
        # with letter.txt it says where
        self.assertIn("give it to whoever sent you this letter", self.text_in(name[2]))
        self.write("letter.txt", "Paper goes into the box.\n")
        self.done("call")
        self.assertNotIn("Note", self.done("letters call").output)
        said = "The words at the head of this letter say where it goes."
        self.assertIn(said, self.text_in(name[2]))
        # with an address since, a letter that answers none is no answer to the one on paper
        self.write("members.csv", self.members.replace("Eve,", "Eve,eve@club.example"))
        self.told("roll --yes")
        subject = f"Re: {self.written('call')['eve']['Subject']}"
        self.add(letter("eve", f"> Vote now\n\neve {RANKS}\n", subject=subject, time=EARLIER))
        self.assertEqual((self.numbers()["waiting"], self.stands("eve")), (1, ""))

    def test_a_printed_letter_says_who_sends_it_and_where_to_answer(self):
        """Where the secretary's own words do not begin it."""
        self.done("call --take-back")
        members = "name,who,mail\na,A,\nben,Ben,ben@club.example\neve,Eve,\ngus,,\n"
        self.write("members.csv", members)
        self.told("roll --yes")
        self.done("call", "--to", "T\u00fcV & S\u00f6hne <vote@club.example>", *self.call_words[2:])
        self.add_lines("eve 1,2", f"ben {RANKS}")
        pages = {}
        for kinds in (("call", "reminders", "receipts"), ("closed", "result")):
            for kind in kinds:
                self.done("letters", kind, "--from", "eve@club.example")
                pages[kind] = self.files(kind)[-1].read_text()
            if kind == "receipts":
                self.done("close --early")
                self.done("publish --force --because few")
        begin = "<h2><bdi>Eve</bdi></h2>\n<p>Who sends this letter, and where to answer: T\u00fcV &amp; S\u00f6hne, vote@club.example</p>\n"
        for kind, page in pages.items():
            self.assertEqual(begin in page, kind not in ("call", "reminders"), kind)
            # who has no real name is named as on the roll
            self.assertEqual("<h2><bdi>gus</bdi></h2>" in page, kind != "receipts", kind)
        # only what comes by e-mail has a subject
        said = "subject of each true letter"
        self.assertIn(said, self.texts("result", "--from", "eve@club.example")["ben"])
        self.assertNotIn(said, " ".join(page.split()))


class Names(OutTest):
    names = ["ada-2", "ada"]
    call_words = (*Call.call_words[:-1], "Europe/Berlin")

    def test_no_letter_takes_the_place_of_another(self):
        """Two letters to ada, at her old address and her new one, beside one to ada-2. Their times
        are in the zone of the end.
        """
        self.change_roll(",ada@club", ",ada@new")
        self.add_lines("ada 1", f"ada-2 {RANKS}")
        found = self.written("receipts").values()
        # the old address does not learn the own mark, neither in the subject nor in the text, which
        # has the right line
        said = {
            message["To"]: (
                bool(re.search(MARKS, message["Subject"])),
                f"{AT}#ada/" in one_line(message),
                "ada _,_,_,_" in one_line(message),
            )
            for message in found
        }
        wanted = {
            "ada-2@club.example": (True, False, False),
            "ada@club.example": (False, False, True),
            "ada@new.example": (True, True, True),
        }
        self.assertEqual((said, len(found)), (wanted, 3))
        for message in found:
            # on a busy machine some seconds later
            self.assertRegex(
                one_line(message), r"\bMonday, 23 November 2026, 11:00(:\d\d)? \(UTC\+01:00\)"
            )
        shown = self.told("show ada")
        both = [*wanted][1:]
        for address in both:
            self.assertIn(
                f"  receipt, 2026-11-23 11:00:00 UTC+01:00, to {address}: written\n", shown
            )
        self.add_lines(f"ada {OTHER_RANKS}")
        self.assertEqual(self.receivers("receipts"), ["ada@new.example"])
        # whoever changes an address back, and once more, does not hide what came meanwhile
        for address in (",ada@club", ",ada@new", ",ada@club"):
            self.change_roll(",ada@club", address)
        self.add_lines("ada 1,1,1,1")
        self.assertEqual(sorted(self.receivers("receipts")), both)


class FullDisk(OutTest):
    """A disk that is full at any write: receipts are noted if their files are there, and the next
    run writes the others.
    """

    names = ["ada", "ben", "cleo"]

    def test_what_could_not_be_noted_leaves_the_folder_as_it_was(self):
        place = self.folder / "letters" / "call" / "4"
        for before in ({}, {"ada.eml": b"1"}):
            # what a killed run left there goes
            (place.parent / f"{TEMPORARY}left").mkdir(parents=True)
            with contextlib.suppress(KeyError), in_place({"ben.eml": b"2"}, place):
                raise KeyError
            self.assertEqual(
                {file.name: file.read_bytes() for file in place.parent.rglob("*.eml")}, before
            )
            with in_place({"ada.eml": b"1"}, place):
                pass
            self.assertEqual([file.name for file in place.parent.iterdir()], ["4"])

    def test_the_fault_names_the_place(self):
        """And not the folder beside it in which a file that has no room is, under a name that
        nobody knows.
        """
        # in bytes: no letter and no page is as short
        full = functools.partial(resource.setrlimit, resource.RLIMIT_FSIZE, (500, 500))

        def demand_named(place: object, *words: str):
            before = self.contents()
            ended = self.election(*words, preexec_fn=full)
            said = f"{place}: File too large; it was not changed; put this right, then run the command again"
            self.assert_fault(ended, 7, said)
            after = self.contents()
            after.pop("letters/.lock", None)
            self.assertEqual(after, before)

        self.add_lines(f"ada {RANKS}")
        demand_named(f"letters/receipts/{self.last_act() + 1}", "letters", "receipts")
        self.done("close --early")
        shutil.rmtree(self.folder / "letters")
        demand_named(self.folder.resolve(), "publish")
        # nor that file, if it can't be made
        with self.assertRaises(OSError) as raised:
            write_whole(self.folder / "gone" / "closed.txt", b"", 0o600)
        self.assertEqual(raised.exception.filename, str(self.folder / "gone" / "closed.txt"))

    @pytest.mark.whole
    def test_it_loses_no_receipt(self):
        """The calls are those that write into the folder and the book; some come in each run, and
        the disk is full at each of them.
        """
        place = self.folder / "letters" / "receipts"

        def receipts() -> dict[pathlib.Path, bytes]:
            return {
                file: file.read_bytes()
                for file in place.rglob("*.eml")
                if ".debvote" not in str(file)
            }

        failures = set()
        for call, counts in (
            ("write", range(1, 7)),
            ("pwrite64", range(2, 20, 4)),
            ("mkdir", range(6, 8)),
            ("rename", range(1, 3)),
        ):
            for count in counts:
                with self.subTest(call=call, count=count):
                    number = len(self.book.acts())
                    self.add_lines(
                        *(f"{name} {1 + number % 90},{1 + number // 90},-,1" for name in self.names)
                    )
                    before, files = len(self.rows("receipts")), receipts()
                    full = f"inject={call}:error=ENOSPC:when={count}"
                    ended = self.traced("-f", "-e", full, words=("letters", "receipts"))
                    failures |= {call} if ended.status else set()
                    noted = [name for name, _ in self.rows("receipts")[before:]]
                    self.assertIn(noted, ([], self.names))
                    if noted:
                        self.assertEqual([file.stem for file in self.files("receipts")], self.names)
                    else:
                        self.assertNotEqual(ended.status, 0)
                        self.assertEqual(receipts(), files)
                        self.assertEqual(sorted(self.texts("receipts")), self.names)
                    left = [file.name for file in place.iterdir() if not file.name.isdigit()]
                    self.assertLessEqual(len(left), 2)
        self.assertEqual(failures, {"write", "pwrite64", "mkdir", "rename"})


class CloseAndResult(OutTest):
    def test_an_open_vote(self):
        self.refused("letters result", "the vote is not closed")
        self.add_lines(f"ada {RANKS}", f"ben {RANKS}")
        self.done("close --early")
        self.done("publish")
        texts = self.texts("result")
        self.assertEqual(sorted(texts), elections.NAMES)
        begin = f"{TITLE} Winner: Option 1: At the lake. It beats each option that was not dropped: Option 2: In the town hall by 2 to 0 and Option 4: "
        begin += "Further discussion by 2 to 0. 2 of 9 voted, quorum 2 reached. The result is published at: "
        own = f"Your own ballot in words: {LAKE}. The page shows it at: {AT}#ada "
        text = texts["ada"]
        self.assertIn(f"Dear Ada, {begin}{AT} {own}What is doubtful", text)
        self.assertEqual(f"Dear Ada, {self.text_in('letters/result.txt')}", text.replace(own, ""))
        self.assertIn(f"{AT}#ben", texts["ben"])
        self.assertIn(f"{AT} The result has no ballot of yours that counts.", texts["cleo"])
        self.assertNotIn("#", texts["cleo"])
        for name in ("SHA256SUMS", "index.html"):
            checksum = hashlib.sha256(self.read(f"result/{name}")).hexdigest()
            self.assertIn(f"{checksum} {name}", texts["cleo"])
        for said in (
            "sha256sum SHA256SUMS index.html && sha256sum -c --ignore-missing SHA256SUMS",
            "A page can't vouch for itself. So on a telephone, which has no such command, ask somebody with a computer to compare it. "
            "The subject of each true letter to you ends with your own mark",
            "open the index.html that you downloaded and compared, and read that file",
            "The program recount.py, which counts anew, is that of the web site until its checksum is compared: run it only if",
            # each act that the page tells
            "That was before the time until which one could vote.",
        ):
            self.assertIn(said, text)
        # the page does not compare itself
        self.assertNotIn("Count again here", text)
        # none of a vote that is open again; each publication has its letters
        self.done("reopen --because 'a bag was forgotten'")
        ended = self.election("letters result")
        self.assert_fault(ended, 9, "the vote is not closed", "run debvote-election close first")
        self.done("desk --came-before-close yes", given="ada 1,3,4,2\n")
        self.done("close --early")
        self.done("publish result-2")
        texts = self.texts("result")
        self.assertEqual(sorted(texts), elections.NAMES)
        # the ballot that counts now, and not that of the first close
        self.assertIn("Your own ballot in words: At the lake, then Further", texts["ada"])

    def test_why_no_ballot_of_an_elector_counts(self):
        self.add_lines(f"ada {RANKS}", "ben 1,2", f"cleo {RANKS}", "hal 1,2")
        self.done("strike", 3, "--because", "a mistake of 'ours' & <yours>")
        self.add_lines(f"gus {RANKS}")
        self.done("undo --yes")
        self.add(letter("eve", "hello\n"))
        self.done("close --early --force --because enough")
        self.add_lines(f"dan {RANKS}")
        self.done("publish --force --because 'they were asked'")
        texts = self.texts("result")
        self.assertNotIn("that counts", texts["ada"])
        for said in (
            "What is doubtful about this result: - More than half of the lines of the ballot file are refused: 2 of 3.",
            "Why it was published all the same, in the secretary's words: (they were asked)",
            "The secretary struck envelope 3: its line does not count. The reason, in the secretary's words: (a mistake of 'ours' & <yours>)",
        ):
            self.assertIn(said, texts["ada"])
        for name, why in (
            ("ben", "It has 2 ranks, and the vote has 4 options."),
            ("cleo", "and the secretary has struck it. It does not count."),
            ("dan", "so it is late and does not count."),
            ("eve", "The reason: no line of it is a ballot of this vote."),
            ("fay", "No ballot has come under your name."),
            # no ballot is entered again after the close
            ("gus", "and the secretary has taken it back. It does not count. It was read as:"),
        ):
            told = (
                rf"{AT} The result has no ballot of yours that counts\. .*{why} .*What is doubtful"
            )
            self.assertRegex(texts[name], told)

    def test_of_a_close_has_the_checksum_and_of_a_second_one_all_get_it(self):
        self.add_lines(f"ada {RANKS}")
        self.refused("letters closed", "the vote is not closed")
        # the second one names what it takes the place of
        before = r"The vote was closed before, on Monday, 23 November 2026, 10:0\S+ \(UTC\), and opened again\. The reason, in the secretary's words: "
        before += r"\(a bag was forgotten\) This letter takes the place of the one about that close, which had this checksum of the ballots: "
        checksum = ""
        for count in ("1 line", "2 lines"):
            self.done("close --early")
            text, found = self.read("letters/closed.txt").decode(), self.written("closed")
            self.assertEqual(sorted(found), elections.NAMES)
            for message in found.values():
                self.assertIn(text, message.get_content())
                subject = rf"^Vote closed: Where we meet in spring {MARKS}$"
                self.assertRegex(message["Subject"], subject)
            text = self.text_in("letters/closed.txt")
            self.assertIn(f"{count} came in time.", text)
            told = re.search(f"{before}{checksum} Keep this letter", text)
            self.assertEqual(bool(told), bool(checksum), text)
            checksum = hashlib.sha256(self.exported()[0].encode()).hexdigest()
            if not told:
                self.done("reopen --because 'a bag was forgotten'")
                for kind, fault in (
                    ("closed", "the vote is not closed"),
                    ("call", "nobody is asked to vote"),
                    ("reminders", "nobody is asked to vote"),
                ):
                    self.assert_fault(self.election("letters", kind), 9, fault)
                self.add_lines(f"ben {RANKS}", words=("--came-before-close", "yes"))


class Secret(OutTest):
    poll = elections.POLL + "secret = true\n"

    def codes(self) -> dict[str, str]:
        return dict(self.book.rows("SELECT name, code FROM elector_now WHERE code <> ''"))

    def test_the_call_has_the_code_of_its_own_elector_and_an_answer_to_it_goes_in(self):
        codes = self.codes()
        letters = self.written("call")
        for name, message in letters.items():
            text = message.get_content()
            self.assertEqual([other for other, code in codes.items() if code in text], [name])
        # folders that others may read are closed again
        folders = self.files("call")[0].parents[:3]
        for folder in folders:
            folder.chmod(0o755)
        self.written("call")
        for path in (*folders, *self.files("call")):
            mode = 0o700 if path.is_dir() else 0o600
            self.assertEqual(stat.S_IMODE(path.stat().st_mode), mode, path)
        # that there is more time is told without the code
        self.extend("2026-12-06 12:00")
        for message in self.written("call").values():
            self.assertFalse([code for code in codes.values() if code in message.get_content()])
        # the mark in its subject is that of the poll that everybody sees, with the own one; the
        # link has no name
        found = letters["ada"]
        self.assertEqual([self.mark], [mark for mark, _ in re.findall(MARKS, found["Subject"])])
        self.assertRegex(one_line(found), rf"the result will be: {AT} {LINE}ada _,_,_,_ ")
        head = f"In-Reply-To: {found['Message-ID']}\nSubject: Re: {found['Subject']}\n"
        self.add(letter("ada", f"ada {RANKS}\n", head=head, time=EARLIER))
        self.assertEqual(self.numbers()["valid"], 1)

    def test_a_code_that_went_to_an_address_that_goes(self):
        """`roll` says who will see that vote, and the letter to the new address; not of an address
        that goes before the code went there.
        """
        self.written("call")
        earlier = []
        for before, address in (
            ("ada@club.example", "wrong@x.example"),
            ("wrong@x.example", "ada@new.example"),
        ):
            earlier.append(before)
            members = elections.members_of(self.names).replace("ada@club.example", address)
            self.write("members.csv", members)
            seen = f"address {before} becomes {address}; the secret code went to {before}, and whoever reads it there will see this vote"
            take_back = "(as long as nothing has come, call --take-back makes new codes)"
            said = f"ada (Ada): {seen}", f"{take_back}. Is that right?"
            self.assert_refused("roll", 9, *said)
            self.tells("roll --yes", f"ada: {seen} {take_back}\n")
            texts = self.texts("call")
            for one in earlier:
                told = f"It went to another address before: {one}. Whoever reads letters there will see how you vote."
                self.assertIn(told, texts["ada"])
            self.assertNotIn("It went to another address", texts["ben"])
        # an address that is added; on paper, by a letter that has no code, and to one that is put
        # back it went to none
        for address, kind in (
            ("ada@new.example home@x.example", "receipts"),
            ("", "call"),
            ("third@x.example", "reminders"),
            ("ada@club.example", "call"),
        ):
            members = elections.members_of(self.names).replace("ada@club.example", address)
            self.write("members.csv", members)
            said = self.told("roll --yes")
            self.assertEqual("secret code" in said, not address, said)
            texts = self.texts(kind)
        told = re.findall(r"It went to another address before: (\S*)\. ", texts["ada"])
        self.assertEqual(told, ["ada@new.example", "wrong@x.example"])

    def test_nothing_else_has_codes_or_ranks(self):
        codes = self.codes()
        self.add_lines(f"ada {RANKS}", "ben 1,2", "eve 1", words=("--force",))
        self.add(
            letter("cleo", f"{codes['cleo']} {RANKS}\n"),
            letter("dan", f"dan {RANKS}\n{codes['dan']}\n"),
        )
        found = [*self.written("receipts").values(), *self.written("reminders").values()]
        self.done("close --early --force --because x")
        found += self.written("closed").values()
        rows = self.book.rows("SELECT alias FROM elector_state WHERE alias <> ''")
        self.done("publish --yes --force --because 'they were asked'")
        self.done("export --yes out")
        private = self.run_program("sh", "-c", "cd out && sha256sum *").output
        results = self.texts("result")
        for said in (
            "find it with your name, ada, and your code, under",
            "cat seal.txt ballots.txt | sha256sum",
            "learns what you type into it, with or without a network",
        ):
            self.assertIn(said, results["ada"])
        self.assertNotIn("#", results["ada"])
        for text in results.values():
            self.assertRegex(
                text, r"- More than half of the lines that came are refused\. - (?!.*2 of 3)"
            )
        secrets = [*codes.values(), *(alias for alias, in rows)]
        secrets += re.findall(r"(?m)^([0-9a-f]{64})", private)
        for text in [*map(one_line, found), *results.values()]:
            self.assertFalse([secret for secret in secrets if secret in text])
            self.assertNotRegex(text, r"[a-z]+ \d,\d,\d,\d|in words")
