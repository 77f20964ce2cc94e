"""A vote with tellers by the office alone: in chromium from the draft to the result, and what stops it."""

import json
import pathlib
import re

import pytest
from debvote_tools.call.tellers import ON_PAPER

from tests.python.office.test_in_browser import Page
from tests.support import elections, offices, teller_elections, tellers
from tests.support.at_browser import NEEDS_BROWSER
from tests.support.questions import QuestionsTest
from tests.support.teller_elections import RANKS
from tests.support.web_host import NEEDS_PHP

SLIPS = "2,1,3,4\n1,2,-,9\n-\n1,1,1,2\n2,1,3,4\n1,-,-,-"
CALL = {"until": "2099-12-04 18:00", "to": "vote@club.example"}


class Clicks(Page):
    """A window whose fields are filled in, and whose buttons are pressed by their words."""

    def push(self, *buttons: str, **fields: str):
        for field, text in fields.items():
            self.ask(f"document.querySelector('[name={field}]').value = {json.dumps(text)}")
        for button in buttons:
            node = f"[...document.querySelectorAll('main a, main button')].find((node) => node.textContent === {json.dumps(button)})"
            self.ask(f"document.body.dataset.left = 1; {node}.click()")
            self.until("document.body && !document.body.dataset.left")
            self.arrived()


@pytest.mark.whole
@NEEDS_PHP
@NEEDS_BROWSER
class WholeVote(teller_elections.TellerElectionTest):
    poll = elections.POLL
    fill_in = elections.ElectionTest.fill_in

    def test_from_the_draft_to_the_result(self):
        office = offices.Office(self)
        with Clicks(office, width=1280, height=900) as page:
            self.call_by(page)
            self.vote(page, office)
            self.close_by(page)
            for step, name in enumerate(tellers.points(), start=1):
                self.open_by(page, step, name)
            page.go("")
            page.push("Count", "Publish the result")
            page.go("")
            self.assertIn("HAS WON At the lake", page.seen())
            self.assertEqual(page.faults, [])

    def call_by(self, page: Clicks):
        page.go("draft")
        page.ask("document.querySelector('[name=secret][value=\"2\"]').click()")
        page.push("Save it, and read the members", tellers=tellers.tellers_file())
        page.go("")
        page.push("Check the questions")
        self.assertIn("carla bf6e-3480-d3f0-5753, dora e843-5051-d2bd-ab7e", page.seen())
        page.push("Call for votes")
        page.push("Do it", **CALL, at=self.host.at)
        self.upload()
        page.push("Ask the web host whether it is there")
        page.go("do/letters?kind=call")
        page.push("Do it")

    def vote(self, page: Clicks, office: offices.Office):
        for name, ranks in RANKS.items():
            self.click(name, ranks)
        page.go("")
        page.push("Fetch the clicks", "Enter these ballots")
        page.go("desk/1")
        page.push("Begin to enter ballots")
        self.assertFalse(page.ask("document.querySelector('.rank, .keys')"))
        page.type("Fay")
        page.enter()
        self.assertIn("READ IT BACK fay Fay On paper", page.seen())
        page.push("Yes, enter it")
        page.go("")
        self.assertIn("1 elector voted on paper, and of fewer than 5 slips", page.seen())
        for name in ("gus", "hal", "ida", "jan", "kim"):
            office.yes(office.type(name, ON_PAPER))

    def close_by(self, page: Clicks):
        wrong = SLIPS.replace("2,1,3,4", "2,1", 1)
        page.push("Close it early")
        page.push("Do it", paper=wrong)
        self.assertIn("these lines are not the ranks of a slip: 1", page.seen())
        [slips] = re.findall(r"--paper=(\S+)", page.seen())
        self.assertFalse(pathlib.Path(slips).exists())
        # nobody types all slips anew
        page.push("Try again otherwise")
        self.assertEqual(page.ask("document.querySelector('[name=paper]').value"), wrong)
        page.push("Do it", "Yes", paper=SLIPS)
        self.assertIn("Closed: 10 lines came in time", page.seen())

    def open_by(self, page: Clicks, step: int, name: str):
        """The first list is pasted, the second one chosen as a file."""
        file = self.open(step)
        page.go("")
        self.assertIn(f"{name} opens {self.folder}/urn/list-{step - 1}.txt", page.seen())
        page.push("Enter the list")
        if step == 2:
            node = page.tell("Runtime.evaluate", expression="document.getElementById('File-lists')")
            node = node["result"]["objectId"]
            page.tell("DOM.setFileInputFiles", files=[str(file)], objectId=node)
        page.push("Do it", lists=file.read_text() if step == 1 else "")
        self.assertIn(f"list-{step}.txt: 10 ballots, 0 refused", page.seen())


@NEEDS_PHP
class OnPaperAndOnTheWeb(teller_elections.TellerElectionTest):
    def test_letters_and_lists(self):
        self.begun_with()
        line = f"[{elections.ANY_MARK}-{elections.any_own('fay')}]"
        self.add(self.letter("fay", "fay 2,1,3,4", subject=line))
        office = offices.Office(self)
        self.assertNotIn('class="rank"', office.page("letters/6"))
        office.agree("letters/6", name="fay", ranks=ON_PAPER, act="as")
        office.agree("do/close", early="1", paper="-")
        words = json.dumps(["cp", "-r", "{folder}/.", str(self.web)])
        self.write("office.toml", f"upload = {words}\n")
        self.assertIn('value="urn"', office.trust())
        self.assertNotIn('value="urn"', office.post("upload", kind="urn"))
        self.assertEqual((self.web / "list-0.txt").read_bytes(), self.list_of(0))
        # everybody reads it
        self.assertEqual((self.web / "list-0.txt").stat().st_mode & 0o777, 0o644)
        # it says who has voted
        self.assertIn("fay paper\n", office.page("print/urn/voted.txt"))
        self.assertFalse((self.web / "voted.txt").exists())
        # a list that is void is not offered
        self.assertIn("urn/list-0.txt</a>", office.page())
        office.agree("do/reopen", because="x")
        self.assertNotIn("urn/list-0.txt</a>", office.page())
        self.assertIn("the void list", office.page())


class DraftOfSeveral(QuestionsTest):
    call_words = None

    def test_tellers_are_for_one_question(self):
        text = offices.Office(self).page("draft")
        self.assertIn("In a vote with one question also: nobody", text)
        self.assertNotIn('name="tellers"', text)
