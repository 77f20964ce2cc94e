"""The pages of each language in a browser: what their scripts say and do, and how wide they are."""

import json
import pathlib
import re

import pytest

from debvote_tools.call.call import SENTENCES as CALL_SENTENCES
from debvote_tools.result.page import COUNT_AGAIN, FIND, FIND_IN_OPEN, FIND_IN_SECRET
from debvote_tools.text.language import LANGUAGES, language_of

from tests.support import at_browser, elections, languages

TELEPHONE, SMALL, SCREEN = (390, 844), (360, 640), (1280, 800)

# a round of the count, and the texts of the picture
ROUNDS = {"de": "Runde", "en": "round", "es": "ronda", "fr": "tour"}
PICTURE_TEXTS = "[...document.querySelectorAll('.picture text')].map((node) => node.textContent)"

# where the panel, the facts and the first other option end
FIRST = """Math.max(...['.outcome', '.facts', '.options li'].map((place) => document.querySelector(place)?.getBoundingClientRect().bottom ?? 0))"""

# the names of options beside their chips, and the rivals of the winner
NAMES = "[...document.querySelectorAll('.option > :first-child, .duel > :first-child')]"

# how elections end: who votes how, the casting vote, and the status of the program
OUTCOMES = {
    "tie": (["1,2,3,4", "3,1,2,4", "2,3,1,4"] * 3, [], 1),
    "two": (["1,2,3,4", "2,1,3,4"] * 4, [], 1),
    "cast": (["1,2,3,4", "3,1,2,4", "2,3,1,4"] * 3, ["--casting=At the lake"], 0),
    "circle": (["1,2,3,4"] * 4 + ["3,1,2,4"] * 3 + ["2,3,1,4"] * 2, [], 0),
    "default": (["1,2,3,4"] * 4 + ["4,3,2,1"] * 7, [], 0),
}


@at_browser.NEEDS_BROWSER
class InBrowser(languages.LanguageTest):
    def check_language(self, code: str):
        self.language = language_of(code)
        self.window = self.enterContext(at_browser.Window(*TELEPHONE))
        for name in ("open", "secret"):
            place = self.held(name, code, is_secret=name == "secret", has_letters=False)
            pages = [place / page / "index.html" for page in ("call", "result")]
            for file in (*pages, *place.glob("private/slips.html")):
                self.check_widths(file)
            self.window.resize(*SMALL)
            if name == "open":
                self.check_call(pages[0])
            self.window.open(pages[1])
            self.check_find(place / "private" / "codes.csv")
            self.check_count(place / "result")
            self.window.open(pages[1])
            self.check_telephone(name)
        self.check_outcomes(code)

    def says(self, found: object, sentences: dict[str, str], key: str, **places: object):
        self.assertEqual(found, self.language.say(sentences[key], **places))

    def check_widths(self, file: pathlib.Path):
        """No page is wider than the window, with all that is folded opened; what may be wider
        scrolls by itself.
        """
        self.window.open(file)
        self.window.ask(
            "document.querySelectorAll('details').forEach((node) => { node.open = true; })"
        )
        for size in (SCREEN, TELEPHONE):
            self.window.resize(*size)
            found = self.window.ask(
                "[document.documentElement.scrollWidth, document.documentElement.lang]"
            )
            self.assertEqual(found, [size[0], self.language.code], file)

    def check_first_screen(self, name: str):
        """On a small telephone the winner, the facts and the first other option are there, and no
        line is without a word.
        """
        self.window.resize(*SMALL)
        self.assertLessEqual(self.window.ask(FIRST), SMALL[1], name)
        lone, broken = self.window.ask(at_browser.LONE_LINES), self.window.broken_words(NAMES)
        self.assertEqual((lone, broken), ([], []), name)

    def check_telephone(self, name: str):
        """Also with doubts. Who has won, one's own ballot, the bars and the reasons are on three
        screens.
        """
        self.check_first_screen(name)
        # what is folded says each doubt, and what a doubt is; it links no file
        folded = self.window.ask(
            """((doubts) => [doubts.querySelector("summary").textContent.trim().length > 10,
          doubts.querySelector("details").open, doubts.querySelectorAll('a:not([href^="#"])').length])(document.querySelector(".doubts"))"""
        )
        self.assertEqual(folded, [True, False, 0], name)
        self.window.ask("document.querySelector('.doubts').remove()")
        self.window.resize(*TELEPHONE)
        end = (
            "document.getElementById('Find-your-ballot').parentNode.getBoundingClientRect().bottom"
        )
        self.assertLessEqual(self.window.ask(end), 3 * TELEPHONE[1], name)

    def check_outcomes(self, code: str):
        """In a tie, by a casting vote, where a defeat was set aside and where the default option
        has won the first screen is as full, and the count in the browser finds the page right.
        """
        roll = f"roll = {json.dumps(languages.ELECTORS)}\n"
        poll = languages.POLL.replace("[1, 1, 3]", "[1, 1, 1]") + roll
        (self.scratch / "poll.toml").write_text(poll)
        files = ("--poll", "poll.toml", "--ballots", "ballots", "--language", code)
        for name, (ranks, casting, status) in OUTCOMES.items():
            lines = (f"{who} {given}\n" for who, given in zip(languages.ELECTORS, ranks))
            (self.scratch / "ballots").write_text("".join(lines))
            self.program("debvote-publish", *files, *casting, name, status=status)
            self.window.open(self.scratch / name / "index.html")
            self.check_first_screen(name)
            if elections.HAS_PICTURES:
                self.check_picture(name, ROUNDS[code])
            same = self.language.say(COUNT_AGAIN["page_same"], ballots=len(ranks))
            self.assertIn(same, self.window.count_again())

    def check_picture(self, name: str, round_: str):
        """It says in the language why an option was dropped, and numbers stand apart from names."""
        texts = {*self.window.ask(PICTURE_TEXTS)}
        self.assertIn(f"1{self.language.between('{before}: {after}')}At the lake", texts)
        self.assertFalse({"majority", "quorum"} & texts)
        self.assertEqual(self.language.say("no majority") in texts, name == "default", name)
        self.assertEqual(f"5 : 4, {round_} 1" in texts, name == "circle", name)

    def check_call(self, file: pathlib.Path):
        """Of an address whose place is named once it is open."""
        window, words = self.window, CALL_SENTENCES
        window.open(file)
        window.ask("location.hash = 'e01/23456789ab'")
        window.until("document.getElementById('Name').value === 'e01'")
        subject = window.ballot("e01", "21-3")["subject"]
        self.says(subject.rpartition(" [")[0], words, "subject", title="Where we meet in spring")
        self.says(window.ballot("\u00c901", "-1--")["said"], words, "on_roll", names="e01")
        found = window.ballot("x_y", "1234")
        self.says(found["said"], words, "not_on_roll", name="x_y")
        self.says(found["missing"], words, "type_name")
        self.says(window.ballot("e01", "----")["missing"], words, "rank_missing")
        window.ballot("e01", "1234")
        window.ask("document.getElementById('Copy').click()")
        window.until("document.getElementById('Copied').textContent !== ''")
        said = window.ask("document.getElementById('Copied').textContent")
        self.assertIn(said, [self.language.say(words[key]) for key in ("copied", "selected")])

    def check_count(self, folder: pathlib.Path):
        *rows, last = self.window.count_again()
        sheet, standing = (
            (folder / name).read_text().splitlines() for name in ("sheet.txt", "standing.txt")
        )
        published = self.language.say(COUNT_AGAIN["sheet_published"])
        self.says(rows[0], COUNT_AGAIN, "same", sheet=published, lines=len(sheet))
        self.says(rows[1], COUNT_AGAIN, "last", line=sheet[-1])
        self.says(rows[2], COUNT_AGAIN, "page_same", ballots=len(standing))
        self.says(last, COUNT_AGAIN, "second")
        self.window.ask("document.querySelector('#Result b').textContent = 'Nobody'")
        where = self.language.say(COUNT_AGAIN["the_result"])
        differs = self.language.say(COUNT_AGAIN["page_differs"], where=where)
        self.assertIn(differs, " ".join(self.window.count_again()))

    def check_find(self, file: pathlib.Path):
        """What came from e05 was entered after the close."""
        find, uncounted = self.window.find, self.language.say("Refused and late lines")
        if not file.exists():
            words = FIND | FIND_IN_OPEN
            first, *_, last = find("Person 02")
            self.says(last, words, "line", line="e02 2,1,4,3")
            none, came = find("e05")
            self.says(none, words, "no_ballot", name="e05")
            self.says(came, words, "uncounted", lines=uncounted)
            self.says(find("nobody")[0], words, "no_elector", name="nobody")
        else:
            words, rows = FIND | FIND_IN_SECRET, re.findall(
                r"(?m)^(e\d\d),.*,(\w+),(\w+)", file.read_text()
            )
            known = {name: (code, alias) for name, code, alias in rows}
            first, *_, last = find("e02", known["e02"][0])
            self.says(last, words, "line", line=f"{known['e02'][1]} 2,1,4,3")
            self.says(find("e05", known["e05"][0])[0], words, "no_ballot", alias=known["e05"][1])
            self.says(find("e02", "1234")[0], words, "type_code")
        self.says(first, words, "counts", name="e02")
        self.says(find("")[0], words, "type_name")


def class_of(language: str) -> type:
    return type(
        f"In_{language}",
        (InBrowser,),
        {f"test_pages_in_{language}": lambda self: self.check_language(language)},
    )


# a class for each language, so that they run side by side
for code in LANGUAGES:
    globals()[f"In_{code}"] = class_of(code) if code == "de" else pytest.mark.whole(class_of(code))
