"""A member answers several questions by the page of the call, on a telephone, and reads a receipt of each click."""

import json
import pathlib
import time

from tests.support import boxes
from tests.support.at_browser import NEEDS_BROWSER, Window
from tests.support.letters import letter, mailbox
from tests.support.questions import FORCED
from tests.support.web_host import NEEDS_PHP

FEE = 'title = "Raise the fee to 72 Euro"\noptions = ["Yes"]\nratios = [1]\ndefault = "No"\nquorum = 1\nmotion = true\n'
CHAIR = 'title = "The chair"\noptions = ["Ada Lovelace", "Mary Somerville"]\nratios = [1, 1]\ndefault = "None of these"\nquorum = 1\n'
STATUTES = 'title = "The new statutes"\noptions = ["Yes"]\nratios = [2]\ndefault = "No"\nquorum = 1\nmotion = true\n'
# its options have lists in place of buttons
PLACES = "123456789"
WHERE = f'title = "Where we meet"\noptions = {list(PLACES[1:])}\nratios = [1, 1, 1, 1, 1, 1, 1, 1]\ndefault = "Nowhere"\nquorum = 1\n'
POLLS = {"A": FEE, "B": CHAIR, "C": STATUTES, "D": WHERE}


class QuestionsByBox(boxes.BoxElectionTest):
    new_words = ("--questions", "4")
    poll = "".join(POLLS.values())

    def fill_in(self, folder: pathlib.Path):
        super().fill_in(folder)
        (folder / "poll.toml").unlink()
        (folder / "polls" / "title.txt").write_text("General assembly 2026\n")
        for label, poll in POLLS.items():
            (folder / "polls" / f"{label}.toml").write_text(poll)


@NEEDS_PHP
class Clocks(QuestionsByBox):
    has_clock = True

    def test_a_click_that_the_clock_may_have_put_before_a_letter(self):
        """Nobody knows which is later: by force it is entered whole."""
        links = self.begun()
        self.host_off(-180)
        self.done("add --box --yes")
        arrived = time.strftime("%a, %d %b %Y %H:%M:%S +0000", time.gmtime(time.time() - 1))
        data = letter("ada", "ada A 1,2 B 1,2,3\n", time=arrived)
        self.write("inbox.mbox", mailbox(self.of_this_vote(data)))
        self.done("add --yes inbox.mbox")
        self.click("ada", "A 2,1 C 1,2", links["ada"])
        said = self.done("add --box --yes").output
        self.assertIn("it may be earlier or later than another ballot of ada", said)
        self.assertNotIn("has voted since", said)
        why = "its elector may have voted since, as the clock of the web host was off"
        self.refused("held 2 --enter --yes", why)
        self.done(f"held 2 --enter --yes {FORCED}")
        self.assertIn(
            "The current ballot: ada A 2,1 B 1,2,3 C 1,2:\n", self.done("show ada").output
        )


@NEEDS_PHP
@NEEDS_BROWSER
class Clicks(QuestionsByBox):
    def setUp(self):
        super().setUp()
        self.begun()
        self.window = self.enterContext(Window(360, 640))

    def open(self, name: str):
        letters = (file.read_bytes() for file in (self.folder / "letters/call").rglob("*.eml"))
        places = {found[0]: "/".join(found) for found in map(boxes.link_in, letters)}
        self.window.tell("Page.navigate", url="about:blank")
        self.window.until("location.href === 'about:blank'")
        self.window.tell("Page.navigate", url=f"{self.host.at}#{places[name]}")
        self.window.until("document.readyState === 'complete' && document.getElementById('Vote')")

    def answer(self, label: str, *ranks: str):
        """Touches the buttons of a question, or chooses in its lists."""
        self.window.ask(
            f"""(() => {{
          const fields = document.querySelectorAll("[data-label={label}] .rank");
          {json.dumps(ranks)}.forEach((rank, place) => {{
            const field = fields[place];
            if (field.tagName !== "SELECT") return field.querySelector(`[value="${{rank}}"]`).click();
            field.value = rank;
            return field.dispatchEvent(new Event("input", {{ bubbles: true }}));
          }});
        }})()"""
        )

    def vote(self):
        self.window.ask("document.getElementById('Vote').click()")
        self.window.until(
            "document.getElementById('Sent').textContent.startsWith('It has arrived')"
        )

    def test_some_answers_and_one_of_them_again(self):
        self.open("ada")
        self.answer("A", "1,2")
        self.answer("D", *PLACES)
        self.assertEqual(self.shown("Answered"), "2 of 4 answered; not B, C")
        self.assertEqual(self.window.ask("document.documentElement.scrollWidth"), 360)
        self.vote()
        # more is answered on the same page: it is sent with what was answered before
        self.answer("B", "2", "1", "-")
        self.vote()
        self.done("add --box --yes")
        fee, said = (
            "It was read as: A (Raise the fee to 72 Euro): Yes",
            f"D (Where we meet): {', then '.join(PLACES[1:])}, then Nowhere",
        )
        [told] = self.receipts().values()
        first, second = told.split("Your ballot of ")[1:]
        self.assertIn("Another ballot of yours, which was entered after it, counts instead.", first)
        self.assertIn(f"{fee} {said}", first)
        counts = "It counts unless you send a later one. It came by the page of the vote."
        self.assertIn(counts, second)
        self.assertIn(
            f"{fee} B (The chair): Mary Somerville, then Ada Lovelace; not ranked, and so behind all others: None of these {said}",
            second,
        )
        # opened again the page has no answers: one alone is sent, and others stay
        self.open("ada")
        self.answer("A", "1,1")
        self.vote()
        self.done("add --box --yes")
        [told] = self.receipts().values()
        second, third = told.split("Your ballot of ")[1:]
        of_others = "These of its answers do not count; others of yours, which were entered after them, count instead"
        self.assertIn(f"{of_others}: A (Raise the fee to 72 Euro).", second)
        self.assertIn(f"{counts} It was read as: A (Raise the fee to 72 Euro): Abstain ", third)
        standing = f"The current ballot: ada A 1,1 B 2,1,- D {','.join(PLACES)}:\n"
        self.assertIn(standing, self.done("show ada").output)

    def shown(self, place: str) -> str:
        return str(self.window.ask(f"document.getElementById('{place}').textContent"))
