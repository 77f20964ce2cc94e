"""Whole elections in chromium, from the menu to the last letters, by clicks and keys alone."""

import collections
import contextlib
import itertools
import re
import shutil
import time
from collections.abc import Iterator, Mapping

import pytest

from tests.support import offices
from tests.support.at_browser import NEEDS_BROWSER
from tests.support.elections import ElectionTest
from tests.support.meetings import (
    MEMBERS,
    MOTIONS,
    OPEN,
    ROWS,
    SECRET,
    WHO,
    MeetingTest,
    Poll,
    text_in,
)
from tests.support.outgoing import MailServer
from tests.support.secretary import Secretary
from tests.support.web_host import NEEDS_PHP

# the parts of the work: texts of questions and ballots are not counted
BEFORE = "before the call"
SINCE = "since the call"
TEXTS = "texts"
# the first letters of the words of a motion
KEYS = {"12": "j", "21": "n", "11": "e"}


@contextlib.contextmanager
def played(test: ElectionTest, won: str, questions: int = 1) -> Iterator[Secretary]:
    """Who has come from the menu to the form of the questions. At the end nothing is left to be done, and the published page
    says who has won; no page has said anything in English, nor was one refused anything.
    """
    with Secretary(offices.Office(test, folder="")) as at:
        at.part = BEFORE
        at.go("")
        at.click("de")
        at.fill("#Made", test.folder)
        if questions > 1:
            at.fill("#Questions", questions)
        at.click("Make it", "Open it", "Fill in the questions and the members")
        yield at
        test.assertIn("Es ist nichts mehr zu tun.", at.seen())
        test.assertIn(won, at.look("Look at the published page"))
        test.assertEqual((at.english, at.faults), ({}, []))


def draft(at: Secretary, polls: Mapping[str, Poll], members: str, *, is_secret: bool = False):
    """Fills in the questions and the members, and has them checked."""
    at.part = TEXTS
    if len(polls) > 1:
        at.fill("[name=title]", "Mitgliederversammlung 2026")
    for label, (title, options, ratios, default, quorum) in polls.items():
        is_motion = label in MOTIONS and not is_secret
        at.part = TEXTS
        at.fill(f"[name=title{label}]", title)
        if not is_motion:
            for place, option in enumerate(options):
                at.fill(f"[name=option{label}]", option, place)
            at.fill(f"[name=default{label}]", default)
        at.part = BEFORE
        if is_motion:
            at.pick(f"[name=kind{label}][value=motion]")
        elif max(ratios) > 1:
            at.choose(f"[name=ratio{label}]", ratios[0])
        if quorum:
            at.fill(f"[name=quorum{label}]", quorum)
    if is_secret:
        at.pick("[name=secret][value='1']")
    at.fill("[name=members]", members)
    at.fill("[name=letter]", "Liebe Mitglieder,\n\nZettel gehen an die Wahlleitung.")
    at.click("Save it, and read the members", "Overview", "Check the questions")


@pytest.mark.whole
@NEEDS_BROWSER
class Motion(ElectionTest):
    def begin(self):
        """The folder is made on the page."""

    def test_a_motion_of_eight_at_a_desk(self):
        server = MailServer()
        self.addCleanup(server.stop)
        names = self.names[:8]
        with played(self, "4 Ja, 1 Nein") as at:
            at.fill("[name=title]", "Wir kaufen ein zweites Boot")
            at.pick("[value=motion]")
            rows = (f"{name.title()}\t{name}@club.example\n" for name in names)
            at.fill("[name=members]", "who\tmail\n" + "".join(rows))
            at.click("Save it, and read the members", "Overview", "Check the questions")
            at.click("Call for votes")
            at.fill("[name=to]", "wahl@club.example")
            at.fill("[name=at]", "https://club.example/wahl/")
            at.click("Do it", "It is done", "Send the letters: {kind}")
            at.fill("[name=server]", server.name)
            at.click("Do it", "Enter ballots at the desk")
            for name, answer in zip(names, "jjjnje"):
                at.type_ballot(name, answer)
            at.click("Overview", "Send {number} receipt", "Close the vote", "Yes")
            at.click("Send the letters: {kind}", "Count", "Publish the result", "It is done")
            at.click("Send the letters: {kind}")
        # the call, the close and the result to all, and receipts to those who voted
        self.assertEqual(len(server.taken), 3 * 8 + 6)


class ByClicks(MeetingTest):
    """A meeting of 40 members, who can vote on a page."""

    def call(self, at: Secretary, *answers: str):
        """Calls for votes, answers what is asked, makes a backup, uploads the page, and sends the letters."""
        at.click("Call for votes")
        at.fill("[name=until]", "2099-12-04 18:00")
        at.fill("[name=zone]", "Europe/Berlin")
        at.fill("[name=to]", "vote@club.example")
        at.fill("[name=at]", self.host.at)
        at.pick("[name=box]")
        at.click("Do it", *answers)
        at.part = SINCE
        at.click("Make a backup")
        at.fill("[name=file]", self.scratch / "copy.db")
        at.click("Do it")
        self.upload()
        at.click("Ask the web host whether it is there", "Send the letters: {kind}")
        at.fill("[name=server]", self.server.name)
        at.click("Do it")
        self.note_call(self.taken(40))

    def taken(self, count: int) -> list[bytes]:
        """The letters that the server has taken since the last time."""
        letters = [one.data for one in self.server.taken]
        self.server.taken.clear()
        self.assertEqual(len(letters), count)
        return letters


@pytest.mark.whole
@NEEDS_BROWSER
@NEEDS_PHP
class Meeting(ByClicks):
    """Seven questions and 40 members: by the page, by letters, and on paper at two desks."""

    def test_an_evening(self):
        self.polls = OPEN
        with played(self, "Grün", len(OPEN)) as at:
            # what commands say of web boxes and secret votes alone is English
            at.left_out += ", .said, .found"
            draft(at, OPEN, ROWS)
            self.call(at)
            self.clicks(MEMBERS[:11])
            at.click("Fetch the clicks", "Enter these ballots")
            self.letters(at)
            at.click("Overview", "Send {number} receipt")
            self.taken(23)
            self.extend(at)
            self.clicks(MEMBERS[11:22])
            at.click("Fetch the clicks", "Enter these ballots", "Enter ballots at the desk")
            with Secretary(at.office) as helper:
                helper.counted = at.counted
                helper.english = at.english
                helper.part = SINCE
                helper.go("")
                helper.click("Desk", "Others enter at desks of their own", "Platz 2")
                self.type_ballots(at, helper)
            at.click("Overview", "Send {number} receipt", "Close it early", "Yes")
            self.server.taken.clear()
            at.click("Send the letters: {kind}")
            closing = text_in(self.taken(40)[0])
            at.click("Count", "Publish the result", "It is done", "Send the letters: {kind}")
            self.taken(40)
            self.cast(at)
        self.demand_few(at)
        self.demand_end("tied", "result", closing, self.taken(40))

    def cast(self, at: Secretary):
        """The casting vote, and the result with it, which takes the place of the first one."""
        shutil.copytree(self.folder / "result", self.folder / "tied")
        self.assertIn("Blau Grün", at.seen())
        at.pick("[value='G=Gruen']")
        at.fill("[name=cast_by]", "Der Vorsitz")
        at.fill_day("[name=cast_on]", time.strftime("%m%d%Y"))
        at.click("Publish the result", "It is done", "Send the letters: {kind}")

    def letters(self, at: Secretary):
        """A mail folder, of which two letters wait: one is typed, the other one is entered."""
        names = MEMBERS[22:34]
        letters = self.letters_of(names, [names[9], names[11]])
        folder = self.scratch / "mail"
        folder.mkdir()
        for number, letter in enumerate(letters):
            (folder / f"{number:02}.eml").write_bytes(letter)
        at.click("Letters")
        at.fill("#Path", folder)
        at.click("Add letters", "Enter these ballots")
        at.click("Look at letter {number}", "Enter it otherwise")
        at.part = TEXTS
        typed, other = self.waiting
        for label, ranks in self.waiting[typed].items():
            if label in MOTIONS:
                at.pick(f"[name=ranks{label}][value='{ranks}']")
            else:
                at.fill(f"[name=ranks{label}]", ranks)
        at.part = SINCE
        at.click("Read it back", "Enter this ballot")
        at.click("Look at letter {number}", "Enter this ballot", "Enter this ballot")
        for name in (typed, other):
            self.ballot(name, self.waiting[name])

    def extend(self, at: Secretary):
        at.click("Extend the time")
        at.fill("[name=until]", "2099-12-05 18:00")
        at.click("Do it")
        self.upload()
        at.click("Ask the web host whether it is there", "Send the letters: {kind}")
        self.taken(40)

    def type_ballots(self, *desks: Secretary):
        """Six ballots on paper, and two of members who have clicked, to one question."""
        ballots = [(name, self.answers(name)) for name in MEMBERS[34:]]
        ballots += [(name, {"B": "4,3,2,1"}) for name in MEMBERS[:2]]
        for (name, answers), desk in zip(ballots, itertools.cycle(desks)):
            self.ballot(name, answers)
            given = {label: answers.get(label, "").replace(",", "") for label in OPEN}
            desk.type_ballot(
                name,
                *(
                    KEYS.get(ranks, "") if label in MOTIONS else ranks
                    for label, ranks in given.items()
                ),
            )

    def demand_few(self, at: Secretary):
        """Clicks and fields, but for ballots that are typed and texts of questions; a table is printed of them."""
        print(at.table())
        of_part = collections.Counter[str]()
        for (part, _), number in at.counted.items():
            of_part[part] += number
        self.assertLessEqual(of_part[SINCE], 50)
        self.assertLessEqual(of_part[BEFORE] + of_part[SINCE], 90)


@pytest.mark.whole
@NEEDS_BROWSER
@NEEDS_PHP
class Secret(ByClicks):
    def test_two_secret_questions(self):
        self.polls = SECRET
        with played(self, "Käthe Groß", len(SECRET)) as at:
            at.left_out += ", .said, .found"
            draft(at, SECRET, ROWS, is_secret=True)
            at.click("Make the codes", "Do it")
            self.call(at, "Yes", "Yes")
            self.clicks(MEMBERS[:30])
            at.click("Fetch the clicks", "Enter these ballots", "Enter ballots at the desk")
            for name in MEMBERS[30:36]:
                self.ballot(name)
                given = self.wanted[name]
                at.type_ballot(name, *(given.get(label, "").replace(",", "") for label in SECRET))
            at.click("Overview", "Send {number} receipt", "Close it early", "Yes")
            at.click("Send the letters: {kind}", "Count", "Publish the result", "It is done")
            at.click("Send the letters: {kind}")
        self.demand_secret()


@pytest.mark.whole
@NEEDS_BROWSER
@NEEDS_PHP
class Drawn(MeetingTest):
    def test_codes_that_are_drawn(self):
        with played(self, "Cäcilie Groß") as at:
            at.left_out += ", .said, .found"
            who = "".join(f"{who},\n" for who in [*WHO.values()][:12])
            draft(at, {"": OPEN["B"]}, f"who,mail\n{who}", is_secret=True)
            at.click("Make the codes")
            at.pick("[name=on_roll]")
            at.click("Do it", "Call for votes", "Do it", "Yes")
            codes = re.findall(r"(\w{10}) _,_,_,_", at.look("private/slips.html"))
            self.assertEqual(len(codes), 12)
            at.click("Enter ballots at the desk")
            for code, ranks in zip(codes, itertools.cycle(["1234", "2134", "4321"])):
                at.type_ballot(code, ranks)
            at.click("Overview", "Close the vote", "Yes", "It is done", "Count")
            at.click("Publish the result", "It is done", "It is done")
