"""Pages and letters in a language hold no word of ours in another one.

In a language whose words are all marked, nothing is unmarked but what is no word of ours, as the
names of options and electors, the commands, and what debvote itself says.
"""

import datetime
import email
import email.policy
import html
import json
import pathlib
import re

import pytest

from tests.support import languages
from tests.support.languages import BALLOTS, BEGIN, END_MARK, MARKED, POLL

# what of a page is in no language: its style and script, what is typed and what it answers, what
# others say, and pictures
UNSAID = re.compile(r"<(style|script|svg|pre|code|bdi)\b[^>]*>.*?</\1>", re.DOTALL)
# the attributes that are read to somebody, or that a script says
SAID = re.compile(r'\s(?:aria-label|title|alt|placeholder|data-words)="([^"]*)"')

# what no sentence of ours has: the words of the elections of these tests, names of files, and what
# debvote says of a line
NAMES = sorted(
    [*re.findall('"([A-Z][^"]*)"', POLL), "Wohin?", languages.REASON], key=len, reverse=True
)
DATA = re.compile(
    "|".join(
        [
            *(r"\s+".join(map(re.escape, name.split())) for name in NAMES),
            r"[\w-]+\.(?:toml|txt|csv|json|js|py|svg|html|md)\b",
            "SHA256SUMS",
            r"\be\d\d\b",
            r"\b(?:[0-9a-f]{4} ?){4,16}\b",
            r"Person\s+\d\d",
            r"\d+Q",
            re.escape(languages.TO),
            re.escape(languages.AT) + r"(?:#\w+)?(?:/\w{10})?",
            r"\[[0-9a-f]{16}-\w{10}\]",
            r"\bUTC(?:[+-]\d\d:\d\d)?",
            r"(?:bad shape|bad rank count|bad not on roll|late): .*",
            r"\b\d+\b",
            f"[^\\w\\s{BEGIN}{END_MARK}]+",
            r"\b_\b",
            r"\b(?:NAME|CODE)\b",
        ]
    )
)
# the commands in a letter
COMMANDS = re.compile(r"(?m)^  (?:python3|sha256sum|cat) .*$")


def unmarked(text: str) -> list[str]:
    """The words of a text that are neither marked nor in no language."""
    return DATA.sub(" ", MARKED.sub(" ", COMMANDS.sub("", text))).split()


def unsaid(page: str) -> list[str]:
    """What of a page is read and is unmarked."""
    texts = re.split(r"<[^>]*>", UNSAID.sub(" ", page[page.index("<title>") :]))
    said = [words_of(html.unescape(found)) for found in SAID.findall(page)]
    return [word for text in [html.unescape(" ".join(texts)), *said] for word in unmarked(text)]


def words_of(said: str) -> str:
    """The sentences of a script, or an attribute as it is."""
    if not said.startswith("{"):
        return said
    return re.sub(r"\{\w+\}", " ", "\n".join(json.loads(said).values()))


class Marked(languages.LanguageTest):
    @classmethod
    def setUpClass(cls):
        super().setUpClass()
        cls.enterClassContext(languages.marked_german())

    def election(self, *words: object, **how: object) -> str:
        """What a command says to the secretary, who reads English."""
        said = super().election(*words, **how)
        self.assertNotIn(BEGIN, said)
        return said

    def check(self, text: str, name: str):
        is_page = name.endswith(".html")
        with self.subTest(name):
            self.assertIn(BEGIN, text)
            self.assertEqual(unsaid(text) if is_page else unmarked(text), [])
            self.assertEqual('<html lang="de">' in text, is_page)

    def check_files(self, place: pathlib.Path, *files: str) -> str:
        """Checks these files, and returns the text of the first."""
        texts = [(place / name).read_text(encoding="utf-8") for name in files]
        for name, text in zip(files, texts):
            self.check(text, f"{place.name}/{name}")
        return texts[0]

    def check_messages(self, place: pathlib.Path, *kinds: str):
        """The messages that go out, each with its subject."""
        files = sorted(place.glob("letters/*/*/*.eml"))
        self.assertEqual({file.parent.parent.name for file in files}, set(kinds))
        for file in files:
            message = email.message_from_bytes(file.read_bytes(), policy=email.policy.default)
            body = message.get_body()
            assert body is not None
            self.check(f"{message['Subject']}\n{body.get_content()}", str(file))

    def test_the_test_finds_a_word(self):
        what = f"{BEGIN}What{END_MARK} 12"
        self.assertEqual(unmarked(f"{what} At the lake, e01 {BEGIN}.{END_MARK}"), [])
        self.assertEqual(unmarked(f"{what} lines"), ["lines"])
        self.assertEqual(unsaid('<title></title><p aria-label="Bars"><code>x</code></p>'), ["Bars"])
        self.assertEqual(unsaid(f"<title>{what}</title><p>has <b>1</b></p>"), ["has"])

    def test_from_the_beginning_to_the_end(self):
        letters = (f"letters/{name}.txt" for name in ("extension", "closed", "result"))
        files = ["call/index.html", "call/call.txt", *letters]
        for name, more in (("open", ()), ("secret", ("private/slips.html",))):
            place = self.held(name, "de", is_secret=name == "secret")
            self.check_files(place, *files, "result/index.html", "result/closed.txt", *more)
            self.check_messages(place, "call", "receipts", "reminders", "closed", "result")

    def test_other_calls(self):
        """With codes on the roll, one that says little, and one whose letters are printed."""
        files = ("call/index.html", "call/call.txt")
        place = self.called("codes", "de", codes=("--on-roll",))
        self.check_files(place, *files, "private/slips.html")
        poll = POLL.replace("quorum = 1", "quorum = 0\nwording = 'more_than'")
        place = self.begun("little", "de", poll=poll)
        self.change_members(place, "e01@example.org", "")
        self.election("little", "call")
        self.check_files(place, *files)
        self.election("little", "letters", "call", "--from", languages.TO)
        (page,) = place.rglob("letters/*/*/*.html")
        self.assertIn(BEGIN, page.read_text(encoding="utf-8"))

    def change_members(self, place: pathlib.Path, before: str, after: str):
        members = place / "members.csv"
        members.write_text(members.read_text().replace(before, after))
        self.election(place.name, "roll", "--yes")

    def test_what_debvote_publish_makes_of_two_files(self):
        poll = POLL + f"roll = {json.dumps(languages.ELECTORS)}\n"
        equal = poll.replace("[1, 1, 3]", "[1, 1, 1]").replace("quorum = 1", "quorum = 0")
        options = json.dumps([str(number) for number in range(1, 15)])
        many = f'title = "Wohin?"\noptions = {options}\nratios = {[1] * 14}\ndefault = "Further discussion"\nquorum = 0\nroll = ["e01"]\n'
        ranks = ["1,2,3,4", "2,3,1,4", "3,1,2,4"] * 3
        cycle = "".join(f"e0{number} {given}\n" for number, given in enumerate(ranks, start=1))
        tie = "e01 1,2,3,4\ne02 2,1,3,4\ne03 1,2,-,4\ne04 2,1,-,4\n"
        for name, given, ballots, *words in (
            ("cycle", equal, cycle),
            ("tie", equal, tie),
            ("cast", equal, tie, "--casting=At the lake"),
            ("nobody", poll, ""),
            ("dropped", poll, "e01 4,4,4,1\ne02 2,2,2,1\ne03 1,4,4,2\n"),
            ("windows", poll, "e01 1,2,3,4\r\ne02 1,2,3,4\r\n"),
            ("long", poll, f"e01 1,2,3,4\n{'x' * 150}\n\n\n"),
            ("late", "last_envelope = 2\n" + poll, BALLOTS),
            ("one", equal, "e01 1,2,3,4\n"),
            ("many", many, f"e01 {','.join(map(str, range(1, 16)))}\n"),
            ("many-equal", many, f"e01 {'1,' * 14}2\n"),
        ):
            (self.scratch / "poll.toml").write_text(given)
            (self.scratch / "ballots").write_text(ballots)
            files = ("--poll", "poll.toml", "--ballots", "ballots", "--language", "de")
            status = int(name in ("cycle", "tie", "late", "many-equal"))
            self.program("debvote-publish", *files, *words, name, status=status)
            self.check_files(self.scratch / name, "index.html", "letter.txt")

    @pytest.mark.whole
    def test_casting_votes(self):
        poll = POLL.replace("[1, 1, 3]", "[1, 1, 1]").replace("quorum = 1", "quorum = 0")
        place = self.begun("cast", "de", poll=poll)
        self.election("cast", "call", "--to", languages.TO, "--at", languages.AT)
        self.election("cast", "add", "--yes", given="e01 1,2,3,4\ne02 2,1,3,4\n")
        self.election("cast", "close")
        today = str(datetime.datetime.now().astimezone().date())
        given = ("--cast-by", "Person 01", "--cast-on", today)
        again = ("--casting", "In the town hall", *given, "--force", "--because", languages.REASON)
        for words, status in (((), 1), (("--casting", "At the lake", *given), 0), (again, 0)):
            self.election("cast", "publish", *words, status=status)
            page = self.check_files(place, "result/index.html", "letters/result.txt")
            self.election("cast", "letters", "result")
        self.assertIn('class="doubts"', page)
        self.check_messages(place, "closed", "result")

    @pytest.mark.whole
    def test_doubts(self):
        bad = "e01 1,2,3,4\n" + "bad\n" * 3
        for name, codes, ballots in (
            ("refused", None, bad),
            ("refused-in-secret", (), bad),
            ("nobody", None, "bad\n"),
            ("open", None, bad),
        ):
            place = self.called(name, "de", codes=codes)
            self.election(name, "add", "--yes", "--force", given=ballots)
            if name != "open":
                self.election(name, "close", "--early")
            self.election(name, "publish", "--force", "--because", languages.REASON, "--yes")
            self.assertIn('class="doubts"', self.check_files(place, "result/index.html"))
            if name != "open":
                self.election(name, "letters", "result")
                self.check_messages(place, "closed", "result")

    def test_what_was_done(self):
        place, because = self.called("all-acts", "de"), ("--because", languages.REASON)
        self.election("all-acts", "call", "--take-back", *because)
        self.election("all-acts", "call", "--to", languages.TO)
        self.change_members(place, "e01@", "other@")
        (self.scratch / "state").rename(self.scratch / "other-state")
        self.election("all-acts", "add", "--yes", "--moved", *because, given="e01 1,2,3,4\n")
        self.election("all-acts", "close")
        self.election("all-acts", "publish")
        self.check_files(place, "result/index.html")
