"""The office in chromium: by keys alone, without script, on a telephone, in the dark."""

import itertools

from debvote_tools.text.language import LANGUAGES

from tests.support import offices
from tests.support.at_browser import NEEDS_BROWSER
from tests.support.election_books import LettersTest
from tests.support.elections import ElectionTest
from tests.support.letters import ballot, letter, mailbox
from tests.support.questions import FEE, QuestionsTest
from tests.support.secretary import Page

# the least contrast of a text with what is behind it, of all texts that are seen
CONTRAST = """(() => {
  const numbers = (colour) => colour.match(/[\\d.]+/g).map(Number);
  const light = (colour) => {
    const [r, g, b] = numbers(colour).map((part) => part / 255).map((part) => part <= 0.03928 ? part / 12.92 : ((part + 0.055) / 1.055) ** 2.4);
    return 0.2126 * r + 0.7152 * g + 0.0722 * b;
  };
  const behind = (node) => {
    for (; node; node = node.parentElement) {
      const colour = getComputedStyle(node).backgroundColor;
      if (numbers(colour)[3] !== 0) return colour;
    }
    return "rgb(255, 255, 255)";
  };
  const ratio = (a, b) => (Math.max(a, b) + 0.05) / (Math.min(a, b) + 0.05);
  const texts = [...document.querySelectorAll("body *")].filter((node) => node.checkVisibility() &&
    [...node.childNodes].some((child) => child.nodeType === 3 && child.data.trim()));
  return texts.map((node) => [ratio(light(getComputedStyle(node).color), light(behind(node))), node.outerHTML.slice(0, 80)])
    .sort((a, b) => a[0] - b[0])[0];
})()"""


# the choices in lists that are wider than these
CUT = """[...document.querySelectorAll("select")].flatMap((select) => [...select.options].filter((option) => {
  const whole = select.cloneNode();
  whole.append(option.cloneNode(true));
  whole.style = "position: absolute; flex: none; max-width: none";
  select.parentNode.append(whole);
  const width = whole.offsetWidth;
  whole.remove();
  return width > select.offsetWidth;
}).map((option) => option.textContent))"""


@NEEDS_BROWSER
class ByKeys(LettersTest):
    def test_letters_and_ballots(self):
        self.write("mail.mbox", mailbox(ballot("ada", "1,2,3,4"), letter("ben", "the lake")))
        office = offices.Office(self, "--language", "de")
        with Page(office) as page:
            page.go("letters")
            page.ask("document.getElementById('Path').focus()")
            page.type(str(self.folder / "mail.mbox"))
            page.enter()
            self.assertIn("1 Stimmzettel erfassen?", page.seen())
            page.until("document.activeElement.name === 'answer'")
            page.enter()
            self.assert_lines("ada 1,2,3,4")
            page.go("desk/1")
            page.enter()
            for name, ranks in (("cleo", "2134"), ("dan", "1-23"), ("eve", "1,1,2,-")):
                page.until("document.activeElement.name === 'name'")
                page.type(name)
                page.press("Enter")
                page.until("document.activeElement.name === 'ranks'")
                page.type(ranks)
                page.enter()
                page.until("document.activeElement.name === 'answer'")
                page.enter()
            self.assert_lines("ada 1,2,3,4", "cleo 2,1,3,4", "dan 1,-,2,3", "eve 1,1,2,-")
            # Escape is no, and of what would not count Enter is no
            for key, ranks in (("Escape", "2134"), ("Enter", "21")):
                page.type("fay")
                page.press("Enter")
                page.type(ranks)
                page.enter()
                page.enter(key)
            self.assertEqual(len(self.lines()), 4)
            self.assertEqual(page.faults, [])

    def test_without_script(self):
        office = offices.Office(self)
        with Page(office, has_script=False) as page:
            page.go("desk/1")
            page.enter()
            page.type("ada")
            for _ in range(6):
                page.press("Tab")
                if page.focus() == "ranks":
                    break
            page.type("2,1,3,4")
            page.enter()
            self.assertIn("READ IT BACK", page.seen())
            page.enter()
            self.assert_lines("ada 2,1,3,4")
            self.assertEqual(page.faults, [])

    def test_each_page_is_read_on_a_telephone_and_in_the_dark(self):
        self.write("mail.mbox", mailbox(letter("ben", "the lake, " * 20)))
        office = offices.Office(self, "--language", "fr")
        office.post("letters", file=str(self.folder / "mail.mbox"))
        office.type("ada", "1,2")
        with Page(office) as page:
            for place in (
                "",
                "letters",
                "letters/1",
                "desk/1",
                "desk/2",
                "roll",
                "draft",
                "all",
                "do/publish",
            ):
                page.go(place)
                wide = page.ask("document.documentElement.scrollWidth - innerWidth")
                self.assertLessEqual(wide, 0, place)
                for is_dark in (False, True):
                    page.show(is_dark=is_dark)
                    ratio, text = page.ask(CONTRAST)
                    self.assertGreaterEqual(ratio, 4.5, (place, is_dark, text))
            self.assertEqual(page.faults, [])


@NEEDS_BROWSER
class Draft(ElectionTest):
    call_words = None

    def test_majorities_are_seen_whole(self):
        office = offices.Office(self)
        with Page(office) as page:
            for code, width in itertools.product(LANGUAGES, (390, 1280)):
                office.post(f"language/{code}")
                page.go("draft")
                page.resize(width, 900)
                self.assertEqual(page.ask(CUT), [], (code, width))


@NEEDS_BROWSER
class Motions(QuestionsTest):
    polls = {"A": FEE + "motion = true\n", "B": QuestionsTest.polls["B"]}
    new_words = ("--questions", "2", "--language", "de")

    def test_the_first_letter_of_a_word_answers_a_motion(self):
        office = offices.Office(self)
        with Page(office, width=1280, height=900) as page:
            page.go("desk/1")
            page.enter()
            page.type("ada")
            page.press("Enter")
            page.press("n")
            page.until("document.activeElement.name === 'ranksB'")
            page.type("213")
            page.enter()
            self.assertIn("Nein", page.seen())
            page.enter()
            self.assert_lines("ada A 2,1 B 2,1,3")
            self.assertEqual(page.faults, [])
