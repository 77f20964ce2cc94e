"""The pages of a motion in a browser: three buttons that make ranks, and the answers in words."""

import json
import pathlib
import re
from dataclasses import replace

from debvote_tools.call.call import call_page
from debvote_tools.poll.questions import Questions
from debvote_tools.poll.sealed import SealedPoll, read_plain
from debvote_tools.result.page import COUNT_AGAIN
from debvote_tools.text.language import LANGUAGES, language_of
from debvote_tools.text.motions import RANKS, WORDS

from tests.python.pages.test_call_page import PageTest, text_of
from tests.support import call_examples
from tests.support.publishing import PLAIN_POLL, ResultPageTest, plain_folder

POLL = SealedPoll("The fee", ("Raise it",), (1,), "No, as it is", 0, ("ada", "ben"), motion=True)
CALL = replace(
    call_examples.CALL,
    questions=call_examples.alone(POLL),
    quorum_votes={"": 0},
    until=None,
    to="vote@club.example",
    at=None,
)

# the buttons: their texts, and whether each is seen, as a finger finds it
BUTTONS = """[...document.querySelectorAll(".rank label")].map((node) => [node.textContent, node.checkVisibility(), node.offsetHeight >= 40])"""
SHOWN = f"""({{ line: {text_of("Line")}, missing: {text_of("Missing")}, words: document.getElementById("Words").textContent,
  letter: document.getElementById("Letter").getAttribute("href"), wide: document.documentElement.scrollWidth }})"""


class Form(PageTest):
    def test_three_buttons_make_ranks(self):
        empty = {"line": "", "words": "", "letter": None, "wide": 360}
        for language in LANGUAGES:
            words = [word.capitalize() for word in WORDS[language]]
            self.open(replace(CALL, language=language_of(language)), "#ada/23456789ab")
            self.sees(BUTTONS, [[word, True, True] for word in words])
            before = self.ask(SHOWN)
            self.assertNotEqual(before.pop("missing"), "")
            self.assertEqual(before, empty)
            for place, (ranks, word) in enumerate(zip(RANKS, words)):
                self.ask(f"document.querySelectorAll('.rank input')[{place}].click()")
                found = self.ask(SHOWN)
                # a mail from the form has ranks
                body = f"&body=ada%20{ranks.replace(',', '%2C')}%0D%0A"
                self.assertTrue(found.pop("letter").endswith(body))
                wanted = {"line": f"ada {ranks}", "missing": "", "words": word, "wide": 360}
                self.assertEqual(found, wanted)
            self.assertEqual(self.window.faults, [])

    def test_by_keys(self):
        self.open(CALL, "#ada")
        for _ in range(12):
            self.window.press("Tab")
            if self.ask("document.activeElement.name") == "Answer":
                break
        for key, ranks in zip((" ", "ArrowDown", "ArrowDown"), RANKS, strict=True):
            self.window.press(key)
            self.sees(text_of("Line"), f"ada {ranks}")

    def test_on_paper_and_without_a_script(self):
        page = call_page(CALL)
        bare = re.sub(rb"<script>.*?</script>", b"", page, flags=re.DOTALL)
        self.assertNotEqual(bare, page)
        for shown, is_printed in ((page, True), (bare, False)):
            self.open(CALL, page=shown)
            self.window.show(is_printed=is_printed)
            # on paper a word is marked, and no rank is written
            self.sees(
                """[...document.querySelectorAll(".rank, .option .name")].filter((node) => node.checkVisibility()).map((node) => node.textContent)""",
                ["Raise it", "No, as it is"] + ["YesNoAbstain"] * is_printed,
            )
            boxes = "[...document.querySelectorAll('.option')].map((node) => getComputedStyle(node, '::after').content)"
            self.sees(boxes, ["none"] * 2)

    def test_other_polls_have_no_such_buttons(self):
        other = replace(CALL, questions=Questions({"": replace(POLL, motion=False)}))
        self.assertNotIn(b'name="Answer"', call_page(other))
        self.assertNotIn(b'name="Rank-', call_page(CALL))


SHOWN_NAMES = ["Raise <b>it</b>", "Nein, wie bisher"]
OPEN_POLL = (
    PLAIN_POLL.replace('["A", "B"]', '["A"]').replace("[1, 1]", "[1]")
    + f"shown_options = {json.dumps(SHOWN_NAMES)}\n"
)


class Result(ResultPageTest):
    def made_in(self, language: str) -> pathlib.Path:
        """A folder with the result of a motion."""
        ballots = "ada 1,2\nben 7,-\ncleo -,-\ndan 2,1\n"
        folder = plain_folder(self.scratch / language, OPEN_POLL, ballots)
        poll = read_plain((folder / "poll.toml").read_bytes(), motion=True)
        how = {"questions": Questions({"": poll}), "language": language_of(language)}
        return self.published(folder, f"{language}-made", **how)

    def test_answers_in_words(self):
        """As the script finds them, which counts again in each language; where a name begins with
        the answer, it stands for it.
        """
        for language, said in {
            "en": ["Yes: Raise <b>it</b>", "No: Nein, wie bisher", "Abstain"],
            "de": ["Ja: Raise <b>it</b>", "Nein", "Enthaltung"],
            "fr": ["Oui\u00a0: Raise <b>it</b>", "Non\u00a0: Nein, wie bisher", "Abstention"],
            "es": ["Sí: Raise <b>it</b>", "No: Nein, wie bisher", "Abstención"],
        }.items():
            window = self.page_of(made := self.made_in(language))
            for name, at in (("ada", 0), ("ben", 0), ("cleo", 2), ("dan", 1)):
                found = window.find(name)
                self.assertEqual((found[1], len(found)), (said[at], 3), found)
            same = language_of(language).say(COUNT_AGAIN["page_same"], ballots=4)
            self.assertIn(same, window.count_again())
            self.assertEqual(window.faults, [])
            # a changed answer is seen
            for before, after in (
                ("1,2</code>: Yes: Raise", "1,2</code>: No: Raise"),
                ("1,2</code>: Yes: Raise", "1,2</code>: Yes: Raze"),
                ("-,-</code>: Abstain", "-,-</code>: No: Nein, wie bisher"),
            ) * (language == "en"):
                again = " ".join(self.page_of(made, (before, after)).count_again())
                self.assertIn("does not show what its files come to: the ballot of ", again)
