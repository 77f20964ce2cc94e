"""Each page at each stage of an election, and what the office does as a terminal does it."""

import re
import shutil
import subprocess

import pytest

from tests.support import elections, offices, tellers
from tests.support.elections import POLL, ElectionTest
from tests.support.questions import FEE, QuestionsTest

PLACES = ("", "letters", "desk/1", "desk/8", "roll", "draft", "all", "do/publish", "do/held")
# what tidy says of attributes and elements that are newer than it
NEWER = re.compile(r"proprietary attribute|<svg> element|missing <li>|trimming empty|inputmode")


def faults_of_tidy(page):
    if shutil.which("tidy") is None:
        return []
    ended = subprocess.run(
        ["tidy", "-q", "-e", "--show-info", "no"], input=page, capture_output=True, text=True
    )
    return [line for line in ended.stderr.splitlines() if not NEWER.search(line)]


class EachStage:
    """The stages of an election; a class of tests has one."""

    # what is entered, so that the vote is a tie
    ballots = ("ada 1,2,3,4", "ben 2,1,3,4", "cleo 1,2,3,4", "dan 2,1,3,4")
    casting = "At the lake"
    refused: tuple[str, ...] = ()

    def test_each_page_at_each_stage(self):
        office = offices.Office(self)
        self.look(office, "called")
        self.vote(office)
        self.look(office, "voted")
        office.agree("do/close")
        self.look(office, "closed")
        text = office.agree("do/publish")
        self.assertIn("<h1>A tie</h1>", text)
        text = self.look(office, "tie")
        self.assertIn("It is a tie", text)
        self.cast(office, text)
        text = self.look(office, "published")
        self.assertIn("Has won by the casting vote", text)
        text = office.agree("do/reopen", because="a ballot is missing")
        if "hold the vote anew" in text:
            return
        text = self.look(office, "reopened")
        # no result is shown that may be another one now
        self.assertNotIn("casting vote", text.lower())
        office.agree("do/close")
        self.assertNotIn("casting vote", self.look(office, "closed again").lower())
        text = office.agree("do/publish", target="result-3")
        office.shows(office.page(), "A tie")

    def vote(self, office):
        for line in self.ballots:
            name, ranks = line.split()
            office.yes(office.type(name, ranks))

    def cast(self, office, text):
        fields = dict.fromkeys(re.findall(r'type="radio" name="(casting[A-Z]?)"', text))
        for name in fields:
            values = re.findall(rf'name="{name}" value="(.*?)"', text)
            fields[name] = next(value for value in values if value.endswith(self.casting))
        [target] = re.findall(r'name="target" value="(.*?)"', text)
        office.agree("do/publish", **fields, cast_by="Ada", cast_on=self.day(), target=target)

    def day(self):
        [(time,)] = self.rows("SELECT time FROM act ORDER BY act DESC LIMIT 1")
        return time[:10]

    def look(self, office, stage):
        """Looks at all pages, and returns the overview."""
        pages = {}
        for place in PLACES:
            is_refused = place in self.refused
            pages[place] = office.page(place, 409 if is_refused else 200)
            with self.subTest(stage=stage, place=place):
                self.assertNotIn("None</", pages[place])
                self.assertEqual(faults_of_tidy(pages[place]), [])
        if big := re.findall(r'href="http://[^/]*(/[^/"]*/)" target', pages[""]):
            self.assertEqual(office.ask("GET", big[-1])[0], 200)
        if page := re.findall(r'href="http://[^/]*(/[^/"]*/index.html)" target', pages[""]):
            status, heads, _ = office.ask("GET", page[0])
            self.assertEqual(status, 200)
            self.assertTrue(heads["Content-Security-Policy"].startswith("sandbox"))
        return pages[""]


class Plain(EachStage, ElectionTest):
    call_words = ("--to", "vote@club.example", "--at", "https://club.example/vote/")


@pytest.mark.whole
class OfCodesForNames(EachStage, ElectionTest):
    poll = POLL + "secret = true\n"


@pytest.mark.whole
class OfDrawnCodes(EachStage, ElectionTest):
    poll = POLL + "secret = true\n"
    codes_words = ("--on-roll",)
    refused = ("roll",)

    def vote(self, office):
        query = "SELECT name FROM elector_now WHERE position > 0 ORDER BY position"
        for (name,), line in zip(self.rows(query), self.ballots):
            office.yes(office.type(name, line.split()[1]))


@pytest.mark.whole
class OfSeveral(EachStage, QuestionsTest):
    polls = {"A": FEE + "motion = true\n", "B": QuestionsTest.polls["B"]}
    new_words = ("--questions", "2")
    casting = "Ada Lovelace"

    def vote(self, office):
        for name, other in (("ada", "1,2,3"), ("ben", "2,1,3")):
            office.yes(office.type(name, "", ranksA="1,2", ranksB=other))


class BeforeTheCall(ElectionTest):
    call_words = None

    def test_pages(self):
        office = offices.Office(self)
        for place in ("", "roll", "draft", "all", "do/call"):
            self.assertEqual(faults_of_tidy(office.page(place)), [])
        for place in ("letters", "desk/1"):
            self.assertIn("there is no call for votes yet", office.page(place, 409))


class AsATerminal(ElectionTest):
    def test_the_acts_are_those_of_a_terminal(self):
        self.set_clock("2026-12-01T10:00:00+00:00")
        other = self.scratch / "other"
        shutil.copytree(self.folder, other)
        office = offices.Office(self)
        for line in ("ada 1,2,3,4", "ben 2,1,3,4"):
            office.yes(office.type(*line.split()))
        office.agree("do/strike", number="2", because="it was a trial")
        office.agree("do/close")
        office.agree("do/publish")
        query = "SELECT name, detail FROM act WHERE name <> 'moved' ORDER BY act"
        acts = self.rows(query)
        office.end()
        shutil.move(self.folder, self.scratch / "by page")
        shutil.move(other, self.folder)
        desk = ("desk", "--name", "Desk 1", "--moved", "--because", "a copy")
        self.done(*desk, given="ada 1,2,3,4\n")
        self.done("desk", "--name", "Desk 1", given="ben 2,1,3,4\n")
        self.done("strike", "2", "--yes", "--because", "it was a trial")
        self.done("close", "--yes")
        self.election("publish")
        by_hand = self.rows(query)
        # the act of the publication names files with their times
        self.assertEqual([acts.pop()[0], *acts], [by_hand.pop()[0], *by_hand])


class Drafts(ElectionTest):
    call_words = None

    def fill_in(self, folder):
        (folder / "members.csv").write_text(elections.members_of(self.names))

    def test_a_draft_is_filled_in(self):
        office = offices.Office(self)
        text = office.page("draft")
        files = re.findall(r'name="file" value="(.*?)"', text)
        self.assertEqual(files, ["poll.toml", "tellers.txt", "members.csv", "letter.txt"])
        fields = {
            "file": files,
            "title": 'Ein "Boot" \\ für uns',
            "kind": "election",
            "option": ["Kaufen", "Mieten", ""],
            "ratio": ["3", "1", "1"],
            "default": "Nichts",
            "quorum": "0",
            "secret": "0",
            "members": "who\tmail\r\nAda\tada@club.example\r\nBen\t\r\n",
            "letter": "Hello\r\n",
        }
        seen = self.digests(text)
        text = office.post("draft", **fields, digest=seen)
        office.shows(text, "2 electors, each with the name on the roll")
        self.assertIn("# The quorum, as a multiple", (self.folder / "poll.toml").read_text())
        self.assertEqual((self.folder / "letter.txt").read_text(), "Hello\n")
        self.assertEqual(self.election("check").status, 0)
        self.look_before_the_call(office)
        # what lies there now is another file: nothing is written, and both are shown
        before = self.contents()
        text = office.post("draft", **{**fields, "title": "Another one"}, digest=seen)
        self.assertIn("Another one", text)
        self.assertIn("für uns", text)
        self.assertEqual(self.contents(), before)
        motion = {**fields, "kind": "motion", "majority": "2", "title": "We buy it"}
        self.save(office, motion)
        self.assertIn("We buy it", self.done("check").output)
        self.assertIn("motion = true", (self.folder / "poll.toml").read_text())
        self.save(office, motion, secret="2")
        # nobody holds a vote without tellers who has chosen some
        self.refused("check", "tellers.txt: it is empty", status=2)
        self.assertIn("do/call?back=state&amp;box=1", office.page())
        self.assertIn("call --box --at URL", self.done("status").output)
        self.assertIn('value="2" checked', office.page("draft"))
        self.save(office, motion, secret="1")
        self.assertFalse((self.folder / "tellers.txt").exists())
        poll = (self.folder / "poll.toml").read_text()
        self.assertIn("secret = true", poll)
        self.write("poll.toml", re.sub(r'(?m)^options = \["', 'options = [\n"', poll))
        self.assertIn("with an editor", self.save(office, fields))

    def digests(self, text):
        return re.findall(r'name="digest" value="(.*?)"', text)

    def save(self, office, fields, **more):
        """What follows a draft that is filled in by who has seen what lies there."""
        seen = self.digests(office.page("draft"))
        return office.post("draft", **{**fields, **more}, digest=seen)

    def look_before_the_call(self, office):
        """What the call would send is looked at before it, each time anew."""
        for folder in ("preview", "preview-2"):
            self.assertIn(f'name="preview" value="{folder}"', office.page())
            text = office.post("do/check", preview=folder)
            office.shows(text, f"Made the folder {folder}")
            for page in (text, office.page()):
                opened = re.findall(rf'href="{office.base}(print/{folder}/[^"]*)"', page)
                shown = {place.rpartition("/")[2]: office.page(place) for place in opened}
                parts = {"index.html": "Kaufen", "letter.txt": "Hello", "to-print.html": "Ben"}
                self.assertEqual(shown.keys(), parts.keys())
                for name, part in parts.items():
                    self.assertIn(part, shown[name])
            # a script of it would read the secret in its own address
            found = office.ask("GET", f"{office.base}print/{folder}/index.html")
            self.assertTrue(found[1]["Content-Security-Policy"].startswith("sandbox; default"))
        self.refused("check --preview preview", status=2)
        self.assertEqual({*self.rows("SELECT name FROM act")}, {("new",), ("roll",)})


class PreviewOfSecretVote(ElectionTest):
    call_words = None
    poll = POLL + "secret = true\n"

    def test_names_are_aliases_as_in_the_call(self):
        self.done("check", "--preview", "early")
        self.assertFalse((self.folder / "early" / "slip.html").exists())
        self.done("codes")
        self.done("check", "--preview", "preview")
        [(code,)] = self.rows("SELECT code FROM elector_now WHERE name = 'ada'")
        slip = re.sub(r"<[^>]*>|\s", "", self.read("preview/slip.html").decode())
        self.assertIn(code, slip)
        page = self.read("preview/index.html").decode()
        self.assertNotIn(code, page)
        self.assertEqual((self.folder / "preview").stat().st_mode & 0o777, 0o700)
        self.write("tellers.txt", tellers.tellers_file())
        self.done("check", "--preview", "sealed")
        self.assertIn('roll = ["01", "02", "03"', self.read("sealed/poll.toml").decode())
        letter = self.read("sealed/letter.txt").decode()
        self.assertIn("sealed to the tellers carla and dora", letter)
        self.assertNotIn(code, self.read("sealed/slip.html").decode())
        (self.folder / "tellers.txt").unlink()
        self.done("call")
        self.assertEqual(self.read("call/poll.toml"), self.read("preview/poll.toml"))
