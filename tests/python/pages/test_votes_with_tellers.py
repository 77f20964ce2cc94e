"""A vote with tellers by clicks, in chromium and in Firefox: from the page of the vote to that of the result."""

import re
import subprocess
import urllib.parse

import pytest

from tests.support import at_browser, boxes, in_firefox, teller_elections
from tests.support.at_browser import NEEDS_BROWSER
from tests.support.in_firefox import NEEDS_FIREFOX
from tests.support.teller_elections import RANKS
from tests.support.teller_pages import KEEPING, TellerPage, halves, key_file
from tests.support.web_host import NEEDS_PHP

LOST_ANSWER = """
const real = globalThis.fetch; let sent = 0;
globalThis.fetch = async (...how) => { const answer = await real(...how); sent += 1; if (sent === 1) throw new Error("lost"); return answer; };
"""
PRINTS = [
    "Sealed to carla bf6e-3480-d3f0-5753: compare with your letter.",
    "Sealed to dora e843-5051-d2bd-ab7e: compare with your letter.",
]


@NEEDS_PHP
@NEEDS_BROWSER
class Clicks(teller_elections.TellerElectionTest):
    def new_window(self) -> at_browser.Window:
        return at_browser.Window(390, 800)

    def visit(self, window: at_browser.Window, address: str):
        boxes.visit(window, address)

    def called(self) -> dict[str, str]:
        self.call()
        self.done("add --box")
        self.done("letters call")
        texts = self.texts("call")
        self.assertIn("carla bf6e-3480-d3f0-5753, dora e843-5051-d2bd-ab7e", texts["ada"])
        return {
            name: f"{self.host.at}#{'/'.join(boxes.link_in(file.read_bytes()))}"
            for name, file in self.letters()
        }

    def letters(self):
        return [(file.stem, file) for file in (self.folder / "letters/call").rglob("*.eml")]

    def vote(self, window: at_browser.Window, ranks: str) -> tuple[str, str]:
        """Chooses, and presses the button: what is said, and of the number."""
        window.ballot(None, ranks.split(","))
        said = boxes.press(window)
        return said, str(window.ask("document.getElementById('Number').textContent"))

    def number_in(self, text: str) -> str:
        [number] = re.findall(r"\b[2-9a-hj-km-np-z]{8}\b(?=\.)", text)
        return number

    def test_a_vote(self):
        links = self.called()
        files = dict[str, str]()
        with self.new_window() as window, window.before_each_page(KEEPING):
            for name, ranks in RANKS.items():
                self.visit(window, links[name])
                said, number = self.vote(window, ranks)
                self.assertIn("It has arrived, sent ", said)
                self.lines[name] = f"{self.number_in(number)} {ranks}"
                keys = "[...document.querySelectorAll('#Keys p')].map((node) => node.textContent)"
                self.assertEqual(window.ask(keys), PRINTS)
                href = str(window.ask("document.getElementById('File').href"))
                files[name] = urllib.parse.unquote(href.partition(",")[2])
            self.add_box()
            self.assertIn("counts as sealed", self.receipts()["ada"])
            self.close_early()
            given = [self.list_of(0)]
            page = TellerPage(window)
            page.open()
            for step, keys in ((1, [key_file("carla")]), (2, halves("dora"))):
                self.assertEqual(page.opening(given, self.read("urn/voted.txt").decode(), keys), "")
                self.assertIn("ada, ben, cleo, dan, eve", " ".join(page.lines("Shown")))
                name, text = page.saved("List-file")
                (self.scratch / name).write_text(text)
                self.told("tellers", self.scratch / name)
                given.append(text.encode())
            for name, own in files.items():
                said = page.find(own, *given)
                self.assertEqual(said, f"The ballot {self.normal(name)} is in all 3 lists.")
            # the page of the vote, as a browser saves it
            served = (self.web / "index.html").read_bytes()
            self.assertEqual(page.look(served, key_file("dora")), "")
            self.assertEqual(window.faults, [])
        self.assertEqual(self.ballots(), sorted(map(self.normal, RANKS)))
        self.told("count")
        self.told("publish --yes")
        result = self.folder / "result"
        (result / "mine.txt").write_text(files["ada"])
        ended = subprocess.run(
            ["/usr/bin/python3", "-I", "lists.py", "mine.txt"],
            cwd=result,
            capture_output=True,
            text=True,
            timeout=60,
        )
        self.assertIn(
            f"Your ballot, {self.lines['ada']}, is in all 3 lists.", ended.stdout + ended.stderr
        )
        with self.new_window() as window:
            window.open(result / "index.html")
            shown = "[...document.querySelectorAll('.ballots li')].map((node) => `${node.querySelector('b').textContent} ${node.querySelector('code').textContent}`)"
            self.assertEqual(window.ask(shown), self.ballots())
            self.assertEqual(window.faults, [])
            said = window.count_again()
            self.assertIn("Winner", " ".join([*said, "Winner"]))

    def normal(self, name: str) -> str:
        return self.lines[name]

    def test_a_number_for_each_ballot_and_the_same_one_for_the_same_bytes(self):
        links = self.called()
        with self.new_window() as window, window.before_each_page(LOST_ANSWER):
            self.visit(window, links["ada"])
            said, number = self.vote(window, "1,2,3,4")
            self.assertIn("Nobody knows whether it has arrived", said)
            first = self.number_in(number)
            self.assertIn("If it arrived, your number is ", number)
            window.ask("document.getElementById('Vote').click()")
            window.until("document.getElementById('Sent').textContent.startsWith('It has arrived')")
            number = str(window.ask("document.getElementById('Number').textContent"))
            self.assertIn(f"Your number: {first}. Write it down, show it to nobody.", number)
            self.assertEqual(len(self.records()), 1)
            _, number = self.vote(window, "4,4,2,1")
            self.assertNotEqual(self.number_in(number), first)
            self.assertEqual(len(self.records()), 2)
            # the number of somebody else is not shown
            self.visit(window, links["ben"])
            self.assertTrue(window.ask("document.getElementById('Numbered').hidden"))
            lengths = {len(record) for record in self.records()}
            self.assertEqual(len(lengths), 1)

    @pytest.mark.whole
    def test_by_a_line_that_the_policy_does_not_name_nothing_is_sealed(self):
        links = self.called()
        page = self.web / "index.html"
        line = re.findall(r"const TELLERS = .*?;(?=</script>)", page.read_text())[0]
        page.write_text(page.read_text().replace(line, line.replace("carla", "clara")))
        with self.new_window() as window:
            self.visit(window, links["ada"])
            window.ballot(None, ["1", "2", "3", "4"])
            said = boxes.press(window)
        self.assertEqual(said, "This browser can't seal a ballot. Open the link in another one.")
        self.assertEqual(self.records(), [])


@pytest.mark.whole
@NEEDS_FIREFOX
class ClicksInFirefox(Clicks):
    def new_window(self) -> at_browser.Window:
        return in_firefox.Window(390, 800)

    def visit(self, window: at_browser.Window, address: str):
        assert isinstance(window, in_firefox.Window)
        window.open_address("about:blank")
        window.open_address(address)
