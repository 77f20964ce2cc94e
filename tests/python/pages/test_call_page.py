"""The page of a call in a browser: debvote reads each line that it makes as what was chosen."""

import datetime
import itertools
import pathlib
import random
import re
import subprocess
import tempfile
import unittest
import urllib.parse
from dataclasses import replace

from debvote_tools.call.call import CallData, call_files
from debvote_tools.poll.questions import LABELS, Questions
from debvote_tools.poll.sealed import SealedPoll, with_roll
from debvote_tools.text.language import LANGUAGES, language_of

from tests.support.at_browser import LONE_NUMBERS, NEEDS_BROWSER, Window
from tests.support.call_examples import CALL, KINDS, POLL, SECRET, WITH_CODES, alone
from tests.support.looks import contrast
from tests.support.program import PROGRAM

# how many ballots of how many options
SIZES = {2: 40, 3: 40, 8: 40, 31: 10, 32: 10}
ADDRESS = "secretary+vote=2026@example.org"
OWN = "23456789ab"

HOSTILE_TITLE = '</title><script>document.title = "x"</script> & {title} "q" %s'
HOSTILE = [
    "</script><b>x</b><script>",
    '" autofocus onfocus="x',
    "<!-- & &amp; -->",
    "\\u003c\\\\'`${x} $& $1",
    "2 B to 1 A. You prefer",
]

# what stands on the page beside the ballot
FACTS = """(() => ({ title: document.title, head: document.querySelector("h1").textContent, wide: document.documentElement.scrollWidth,
  requests: performance.getEntriesByType("resource").length, scripts: document.querySelectorAll("script").length,
  unlabelled: [...document.querySelectorAll("input, select")].filter((field) => !field.ariaLabel && field.labels.length !== 1).length,
  small: [...document.querySelectorAll("[id]")].map((node) => node.id).filter((id) => !/[A-Z]/.test(id)),
  shown: !document.getElementById("Bottom").hidden }))()"""

# presses the button that copies, with a clipboard that does this
COPY = """(() => { window.clip = null;
  Object.defineProperty(navigator, "clipboard", { value: { writeText: async (text) => { %s; } }, configurable: true });
  document.getElementById("Copied").replaceChildren(); document.getElementById("Copy").click(); })()"""
REFUSES, TAKES = "throw 1", "window.clip = text"

# the colours of each text that is seen, and of what lies behind it
COLOURS = """(() => {
  const behind = (node) => { const colour = getComputedStyle(node).backgroundColor;
    return colour === "rgba(0, 0, 0, 0)" && node.parentElement ? behind(node.parentElement) : colour; };
  return [...document.querySelectorAll("main *")].filter((node) => node.checkVisibility() &&
    [...node.childNodes].some((part) => part.nodeType === 3 && part.data.trim())).map((node) => [getComputedStyle(node).color, behind(node)]);
})()"""

# what has the focus: its kind and its name, whether it lies in the window, and how the focus is
# shown
FOCUS = """(() => {
  const node = document.activeElement, place = node.getBoundingClientRect();
  // a button of a rank lies unseen over its number; what lies below the line that is always seen is not seen
  const seen = node.type === "radio" ? node.nextSibling : node, style = getComputedStyle(seen);
  const bar = document.getElementById("Bottom"), end = bar.contains(node) ? innerHeight : bar.getBoundingClientRect().top;
  return { name: node.name || node.id || node.textContent.trim(), kind: node.tagName, inWindow: place.top < end && place.bottom > 0,
    ring: [style.outlineStyle, style.outlineWidth, style.outlineColor] };
})()"""


# opens what the page folds away, such as how a ballot is written and the checksums of the polls
UNFOLD = "document.querySelectorAll('details').forEach((node) => { node.open = true; })"
# whether each option has a box in which a rank is written by hand, and its name is not below it
BOXES = """[...document.querySelectorAll(".option")].map((option) => { const box = getComputedStyle(option, "::after");
  const side = (node) => node.getBoundingClientRect().right;
  return parseFloat(box.width) > 30 && side(option) - side(option.querySelector(".name")) > 40
    && option.clientHeight - parseFloat(box.height) > 10; })"""


def node_of(place: str) -> str:
    return f"document.getElementById('{place}')"


def text_of(place: str) -> str:
    return f"{node_of(place)}.textContent"


def poll_of(size: int, electors: int, *more: str) -> SealedPoll:
    """A poll with so many options, whose names are made to hurt a page, or are long."""
    long = (
        f"{number} option with a long name, and so on".ljust(40, ".") for number in range(6, 32)
    )
    names = (*HOSTILE, *long)[: size - 1]
    ratios = tuple(1 + place % 10 for place in range(size - 1))
    roll = (*(f"e{number:02}" for number in range(electors)), *more)
    return SealedPoll(HOSTILE_TITLE, names, ratios, "None of the above", 3, roll)


def choices_of(size: int, many: int, chance: random.Random) -> list[tuple[str, list[str]]]:
    """Names as electors type them, and ranks: many equal, many different, few or all of them
    given.
    """
    chosen = []
    for number in range(many):
        ranks, share = range(1, chance.randint(1, size) + 1), chance.choice((0.1, 0.5, 0.9, 1))
        given = [str(chance.choice(ranks)) if chance.random() < share else "-" for _ in range(size)]
        given[chance.randrange(size)] = str(chance.randint(1, size))
        name = chance.choice(("e{:02}", "E{:02}", "  e{:02}", "\te{:02} \u00a0"))
        chosen.append((name.format(number), given))
    return chosen


def words_of(ranks: list[str]) -> str:
    """The whole ballot in its order, each option as its number behind its rank."""
    by_rank: dict[str, list[str]] = {}
    for number, rank in enumerate(ranks, start=1):
        by_rank.setdefault(rank, []).append(f"{{{number}}}")
    unranked = by_rank.pop("-", [])
    ranked = (f"{rank} {option}" for rank in sorted(by_rank, key=int) for option in by_rank[rank])
    return ", ".join([*ranked, *(f"\u2013 {option}" for option in unranked)])


@NEEDS_BROWSER
class PageTest(unittest.TestCase):
    """A window as wide as a small telephone, in which pages of calls are opened."""

    maxDiff = None

    @classmethod
    def setUpClass(cls):
        room = tempfile.TemporaryDirectory(prefix="debvote-call-")
        cls.scratch = pathlib.Path(cls.enterClassContext(room))
        cls.window = cls.enterClassContext(Window(360, 640))
        cls.ask = cls.window.ask
        cls.numbers = itertools.count(1)

    def tearDown(self):
        self.window.show()
        self.window.resize(360, 640)

    def open(self, data: CallData, place: str = "", page: bytes | None = None) -> pathlib.Path:
        """Opens the page of a call, or another page in its place, and returns its folder."""
        # with a new name it is loaded, and not only another place of it shown
        folder = self.scratch / str(next(self.numbers))
        folder.mkdir()
        files = dict(call_files(data))
        for name, content in (files | {"index.html": page or files["index.html"]}).items():
            (folder / name).parent.mkdir(exist_ok=True)
            (folder / name).write_bytes(content)
        self.window.faults.clear()
        self.window.open(folder / "index.html", place)
        return folder

    def open_poll(self, poll: SealedPoll, place: str = "", **more: object) -> pathlib.Path:
        return self.open(replace(CALL, questions=alone(poll), **more), place)

    def open_without_script(self, data: CallData):
        """A script that was changed does not run."""
        page = dict(call_files(data))["index.html"]
        self.open(data, page=page.replace(b'"use strict";', b'"use strict"; '))
        self.assertIn("Content Security Policy", " ".join(self.window.faults))

    def sees(self, script: str, wanted: object, why: object = None):
        self.assertEqual(self.ask(script), wanted, why)

    def ballot(self, name: str | None, ranks: str | list[str], **wanted: object) -> dict:
        """What the page shows once a name is typed and ranks are chosen, which has to be this."""
        found = self.window.ballot(name, ranks)
        self.assertEqual({key: found[key] for key in wanted}, wanted, (name, ranks))
        return found

    def assert_seen(self, parts: tuple[str, ...], *unseen: str):
        seen = self.ask("document.body.innerText")
        self.assertEqual([part for part in (*parts, *unseen) if part in seen], [*parts])

    def copied(self, clipboard: str) -> list[str | None]:
        """What the button for copying puts there, what the page says, and what is selected then."""
        self.ask(COPY % clipboard)
        self.window.until(f"{text_of('Copied')} !== ''")
        return list(self.ask(f"[window.clip, {text_of('Copied')}, String(getSelection())]"))

    def assert_copied(self, line: str):
        """The line is copied, or selected where the browser refuses."""
        self.assertEqual(self.copied(TAKES)[:2], [line, "The line is copied."])
        _, said, selected = self.copied(REFUSES)
        self.assertEqual((selected, self.window.faults), (line, []))
        self.assertRegex(str(said), "^The line is selected")

    def standing(self, poll: pathlib.Path, lines: str) -> str:
        """The ballots that debvote reads in these lines."""
        words = [PROGRAM, "standing", "--poll", poll, "--ballots", "/dev/stdin"]
        ended = subprocess.run(words, input=lines, capture_output=True, text=True)
        self.assertEqual((ended.stderr, ended.returncode), ("", 0))
        return ended.stdout


class Lines(PageTest):
    def test_each_line_is_read_as_what_was_chosen(self):
        chance = random.Random(2026)
        # no elector's name has a capital letter
        facts = {"title": f"Vote: {HOSTILE_TITLE}", "head": HOSTILE_TITLE, "wide": 360}
        facts |= {"requests": 0, "scripts": 1, "unlabelled": 0, "small": [], "shown": True}
        for size, many in SIZES.items():
            poll, choices = poll_of(size, many), choices_of(size, many, chance)
            more = {"quorum_votes": {"": 1}, "until": None, "to": ADDRESS, "at": None}
            folder = self.open_poll(poll, f"#e00/{OWN}", **more)
            self.sees(FACTS, facts)
            names = {str(number): name for number, name in enumerate(poll.names, start=1)}
            lines = []
            for typed, ranks in choices:
                found = self.ballot(typed, ranks, words=words_of(ranks), names=names, missing="")
                lines.append(line := found["line"])
                said = (found["said"], found["ready"], found["invalid"], found["long"])
                self.assertEqual(said, ("", True, "false", len(line) > 72))
                letter = (
                    f"mailto:{urllib.parse.quote(ADDRESS, safe='@')}",
                    f"Ballot: {HOSTILE_TITLE} [{poll.checksum[:16]}-{OWN}]",
                    f"{line}\r\n",
                )
                wanted = letter if line.startswith("e00 ") else ("", None, None)
                self.assertEqual((found["to"], found["subject"], found["body"]), wanted)
            read = self.standing(folder / "poll.toml", "".join(f"{line}\n" for line in lines))
            rows = [
                f"e{number:02} {','.join(ranks)}\n" for number, (_, ranks) in enumerate(choices)
            ]
            self.assertEqual(read, "".join(rows))
            self.assert_copied(lines[-1])
        # mail programs break no line of 72 characters
        for count in (5, 6):
            found = self.ballot("e01", ["10"] * count + ["1"] * (32 - count), long=count == 6)
            self.assertEqual(len(found["line"]), 67 + count)

    def test_no_line_before_name_and_rank(self):
        odd = ["q b", "\u00e9va", "x_y", "\u212aate", "q,b", "x" * 33]
        self.open(CALL, f"#ada/{OWN}")
        for name in (*odd, "", "   "):
            # each after a good line, so that nothing of it stays
            self.ballot("ada", "1234", body="ada 1,2,3,4\r\n")
            none = {"line": "", "ready": False, "letter": False, "missing": "Type your name."}
            found = self.ballot(name, "213-", invalid="true" if name in odd else "false", **none)
            self.assertEqual("is not on the roll of this poll" in found["said"], name in odd)
        self.ballot("ada", "----", line="", missing="Give at least one option a rank.", words="")

    def test_what_a_browser_fills_in_again_and_words(self):
        self.open(CALL)
        self.ask(
            """document.getElementById("Name").value = "ada";
          document.querySelectorAll(".rank").forEach((rank, place) => { rank.querySelectorAll("input")[place].checked = true; });
          dispatchEvent(new Event("pageshow"));"""
        )
        self.sees(text_of("Line"), "ada 1,2,3,4")
        self.ballot("ada", "441-", words="1 {3}, 4 {1}, 4 {2}, \u2013 {4}")
        # a letter that is to be signed has the mark below the ballot
        self.open(KINDS["signed"])
        self.ballot("ada", "1234", body=f"ada 1,2,3,4\r\n[{CALL.questions.mark}]\r\n")

    def test_after_the_end_it_says_so_and_still_makes_the_line(self):
        past = datetime.datetime(2020, 1, 1, tzinfo=datetime.UTC)
        for until, is_over in ((None, None), (past, True), (past.replace(year=9999), False)):
            self.open(replace(CALL, until=until))
            self.ballot("ada", "21-3", line="ada 2,1,-,3")
            self.sees("document.getElementById('Over')?.checkVisibility()", is_over)

    def test_no_name_is_typed_into_the_page_of_a_secret_vote(self):
        """Whoever can change the page would learn it. The line has a gap in its place, to be filled
        in the letter.
        """
        for gap, data in {"NAME": SECRET, "CODE": WITH_CODES}.items():
            page = (self.open(data) / "index.html").read_text()
            self.ballot(None, "1234", line=f"{gap} 1,2,3,4", missing="")
            self.ballot(None, "----", line="", missing="Give at least one option a rank.")
            self.ballot(None, "213-", line=f"{gap} 2,1,3,-", missing="", body=None, wide=360)
            self.assertEqual(self.window.faults, [])
            self.assertNotRegex(page, '<textarea|<datalist|<input (?!type="radio")')
            # in the steps, and at the buttons
            said = rf"In the letter, and not on this page, write your \w+ in the place of <code>{gap}</code>"
            self.assertEqual(len(re.findall(said, page)), 2)


FEE = replace(POLL, title="Raise the fee", options=("Yes, 72 Euro",), ratios=(1,), default="No")
THREE = Questions({"A": FEE, "B": POLL, "C": FEE}, "Assembly & 2026")


def call_of(questions: Questions = THREE, data: CallData = CALL) -> CallData:
    return replace(data, questions=questions, quorum_votes=dict.fromkeys(questions, 1))


class Several(PageTest):
    """The page of an election of several questions."""

    def test_the_ballot_has_what_is_answered(self):
        answers, options = {"A": "12", "B": "21-3", "C": "11"}, {"A": 2, "B": 4, "C": 2}
        said = {"A": "1 {1}, 2 {2}", "B": "1 {2}, 2 {1}, 3 {4}, \u2013 {3}", "C": "1 {1}, 1 {2}"}
        folder = self.open(call_of(), f"#ada/{OWN}")
        self.assertEqual(self.ask(FACTS)["head"], "Assembly & 2026")
        for chosen in ("", "A", "AC", "BC", "ABC"):
            ranks = [answers[label] if label in chosen else "-" * options[label] for label in "ABC"]
            lines = {label: ",".join(answers[label]) for label in chosen}
            rows = (
                ["ada", *(f"{label} {given}" for label, given in lines.items())] if chosen else []
            )
            left = ", ".join(label for label in "ABC" if label not in chosen)
            self.ballot(
                "Ada",
                "".join(ranks),
                line=" ".join(rows),
                answered=f"{len(chosen)} of 3 answered{'; not ' if left else ''}{left}",
                missing="" if chosen else "Give at least one option a rank.",
                body="".join(f"{row}\r\n" for row in rows) or None,
                ready=bool(chosen),
                words=", ".join(said[label] for label in chosen),
                wide=360,
            )
            self.sees("document.getElementById('Lines').checkVisibility()", bool(chosen))
        # debvote reads each answer as one to its question
        for label, given in lines.items():
            ballot = f"ada {given}\n"
            self.assertEqual(self.standing(folder / label / "poll.toml", ballot), ballot)
        self.assertEqual(self.copied(TAKES)[0], "\n".join(rows))
        self.assertEqual((self.copied(REFUSES)[2], self.window.faults), ("\n".join(rows), []))
        self.ballot("", "1221-311", missing="Type your name.")
        # what was copied is another ballot
        self.sees(text_of("Copied"), "")
        self.ballot("", "----2111", missing="Type your name.", answered="2 of 3 answered; not A")

    def test_signed_and_secret(self):
        self.open(call_of(data=KINDS["signed"]))
        self.ballot("ada", "12----11", body=f"ada\r\nA 1,2\r\nC 1,1\r\n[{THREE.mark}]\r\n")
        secret = {label: replace(poll, secret=True) for label, poll in THREE.items()}
        self.open(call_of(Questions(secret, THREE.title), SECRET))
        self.ballot(None, "12----11", line="NAME A 1,2 C 1,1")

    def test_a_motion_among_them_has_three_buttons(self):
        motion = replace(FEE, motion=True)
        self.open(call_of(Questions({"A": motion, "B": POLL, "C": motion}, THREE.title)))
        self.sees(
            "[...document.querySelectorAll('.question')].map((node) => node.querySelectorAll('input').length)",
            [3, 20, 3],
        )
        rows = "[...document.querySelectorAll('p.rank')].map((node) => new Set([...node.children].map((one) => one.offsetTop)).size)"
        self.sees(rows, [1, 1])
        of_b = "B1\u00a072 Euro2\u00a0At the lake3\u00a0None of the above\u2013\u00a0Sell the house"
        for ranks, line, answered, shown, words in (
            (
                ["1,2", *"21-3", "1,1"],
                "ada A 1,2 B 2,1,-,3 C 1,1",
                "3 of 3 answered",
                4,
                ["AYes", of_b, "CAbstain"],
            ),
            (["-", *"----", "2,1"], "ada C 2,1", "1 of 3 answered; not A, B", 0, ["CNo"]),
        ):
            self.ballot("ada", ranks, line=line, answered=answered)
            # the whole ballot, at a touch; what a button says needs no words beside it
            self.sees(
                """[[...document.querySelectorAll("#Words > li")].map((node) => node.textContent),
                [...document.querySelectorAll("#Ballot li")].filter((node) => node.checkVisibility()).length]""",
                [words, shown],
            )

    def test_a_long_link_is_not_offered(self):
        many = Questions(dict.fromkeys(LABELS, poll_of(20, 9)), "Assembly 2026")
        self.open(call_of(many), f"#e01/{OWN}")
        ranks = [str(rank) for rank in range(1, 21)]

        def link(count: int) -> str:
            lines = ["e01", *(f"{label} {','.join(ranks)}" for label in LABELS[:count])]
            answered = f"{count} of 24 answered; not {', '.join(LABELS[count:])}"
            shown = {"answered": answered, "line": " ".join(lines), "ready": True, "wide": 360}
            given = [*ranks * count, *["-"] * 20 * (24 - count)]
            found = self.ballot("e01", given, missing="", **shown)
            self.assertEqual(self.copied(TAKES)[0], "\n".join(lines))
            return found["letter"] or ""

        # each answer makes it as much longer
        one, two = len(link(1)), len(link(2))
        most = 1 + (2_000 - one) // (two - one)
        self.assertEqual([bool(link(most)), bool(link(most + 1))], [True, False])
        # what would take most of the window, once it is open, lies below the questions
        self.ask("document.getElementById('Lines').open = true")
        self.window.until(
            "getComputedStyle(document.getElementById('Bottom')).position === 'static'"
        )

    def test_several_without_script_and_on_paper(self):
        shown = (
            "Assembly & 2026",
            "Question A: Raise the fee",
            "Question B: Where we meet",
            "Yes, 72 Euro",
            "Sell the house",
        )
        unseen = ("Send by e-mail", "Your name", " answered")
        self.open_without_script(call_of())
        self.assert_seen(shown, *unseen)
        self.ask(UNFOLD)
        command = "sha256sum -c polls.sha256 && sha256sum polls.sha256"
        self.assert_seen(("NAME\nA _,_\nB _,_,_,_\nC _,_\n", command, *THREE.checksums))
        self.sees(
            "[...document.querySelectorAll('pre a')].map((link) => link.getAttribute('href'))",
            ["A/poll.toml", "B/poll.toml", "C/poll.toml", "title.txt"],
        )
        self.open(call_of())
        self.ballot("ada", "12----11")
        self.window.show(is_printed=True)
        # a paper to be filled in has nothing of what was chosen
        self.assert_seen(shown, *unseen, "ada\nA 1,2")
        self.sees("document.querySelector('#Ballot ul').checkVisibility()", False)
        self.sees(BOXES, [True] * 8)


class Names(PageTest):
    def test_names_on_the_roll_are_offered_and_what_is_typed_is_folded(self):
        code = "0123456789abcdef" * 2
        annas = ["anna-1", "anna-2", "anna-3"]
        roll = "zoe ada-angstrom ada.lovelace strasse oedipus - eve-arnold ben-lee ben-lee-2 iolddthae-iht"
        roll = [*roll.split(), *annas, code]
        # by what is typed: the name in the line, and those that are suggested
        wanted = {name: (name, []) for name in ("zoe", "-", "anna-2", "ben-lee", code)}
        wanted["Ada.Lovelace"] = ("ada.lovelace", [])
        for typed, name in {
            "Eve Arnold": "eve-arnold",
            "Arnold, Eve": "eve-arnold",
            "\u00c8ve  ARNOLD": "eve-arnold",
            "Ada \u00c5ngstr\u00f6m": "ada-angstrom",
            "ada A\u030angstr\u00f6m": "ada-angstrom",
            "stra\u00dfe": "strasse",
            "\u0152dipus": "oedipus",
            "I\u00d8\u0141\u0110\u00d0\u00de\u00c6 \u0131\u0126\u0166": "iolddthae-iht",
            "anna2": "anna-2",
            "ben lee 2": "ben-lee-2",
        }.items():
            wanted[typed] = (name, [name])
        for typed, names in {
            # never one of several namesakes alone
            "Anna": annas,
            "Ben Lee": ["ben-lee", "ben-lee-2"],
            "ada": ["ada-angstrom", "ada.lovelace"],
            "eve": ["eve-arnold"],
            # a family name alone, or its beginning
            "arn": ["eve-arnold"],
            "\u00c5ngstr\u00f6m": ["ada-angstrom"],
            "Lovelace": ["ada.lovelace"],
            "LEE": ["ben-lee", "ben-lee-2"],
            "old": [],
            "yves": [],
            "--": [],
            "<q>": [],
        }.items():
            wanted[typed] = ("", names)
        offered = "[...(document.getElementById('Name').list?.options ?? [])].map((option) => option.value)"
        self.open_poll(with_roll(POLL, roll))
        self.sees(offered, roll)
        for typed, (name, suggested) in wanted.items():
            line = {"line": f"{name} 1,2,3,4" if name else "", "suggested": suggested}
            line |= {"missing": "" if name else "Type your name."}
            found = self.ballot(typed, "1234", invalid="false" if name else "true", **line)
            starts = found["said"].startswith("On the roll: ")
            is_none = "is not on the roll of this poll" in found["said"]
            self.assertEqual((starts, is_none), (bool(suggested), not name and not suggested))
        # without the roll each name that one may have gets its line, and none is told
        self.open_poll(with_roll(POLL, [f"x{number}" for number in range(2_001)]))
        self.sees(offered, [])
        for typed in (*wanted, "x" * 33):
            is_name = re.fullmatch("[A-Za-z0-9.-]{1,32}", typed) is not None
            line = f"{typed.lower()} 1,2,3,4" if is_name else ""
            said = self.ballot(typed, "1234", line=line, suggested=[])["said"]
            self.assertEqual("Names on the roll have only small letters" in said, not is_name)

    def test_a_family_name_suggests_all_who_have_it_and_their_real_names_do_too(self):
        meiers = [f"{given}-meier" for given in "ada ben cleo dan eve fay gus hal ida jon".split()]
        # of more than eight beginnings none is suggested, of a whole family name fifty are
        of_begin = {sign: [f"{sign}{number}" for number in range(8)] for sign in "qr"}
        of_name = {sign: [f"{sign}{number}-{sign}tt" for number in range(50)] for sign in "ou"}
        groups = (*of_begin.values(), *of_name.values())
        roll = [*meiers, "kim-meierhof", "m-12", "r8", "u50-utt", *sum(groups, [])]
        names = {name: name.replace("-", " ").title() for name in roll}
        names |= {"m-12": "Zo\u00eb M\u00fcller-Meier", "kim-meierhof": "Kim \u00c4rmel"}
        self.open_poll(with_roll(POLL, roll), real_names=names)
        for typed, suggested in {
            "meier": [*meiers, "m-12"],
            "mei": [],
            "meierh": ["kim-meierhof"],
            "Mueller": ["m-12"],
            "zo\u00eb": ["m-12"],
            "M\u00fcller-Meier": ["m-12"],
            "Aermel": ["kim-meierhof"],
            "m-1": ["m-12"],
            "q": of_begin["q"],
            "r": [],
            "ott": of_name["o"],
            "utt": [],
        }.items():
            self.ballot(typed, "1234", suggested=suggested, line="")
        names = {"ben": "Zo\u00eb \u00c5ngstr\u00f6m", "cleo": "Zoe Angstr\u00f6mer"}
        self.open(replace(CALL, real_names=names))
        self.ballot("Zoe Angstrom", "1234", line="ben 1,2,3,4", said="On the roll: ben")
        self.ballot("Zoe", "1234", line="", said="On the roll: bencleo")
        offered = "[...document.getElementById('Name').list.options].map((option) => [option.value, option.label])"
        self.assertEqual(self.ask(offered)[1:3], [[*row] for row in names.items()])
        self.ask("document.querySelectorAll('#Name-said button')[1].click()")
        self.ballot(None, "1234", line="cleo 1,2,3,4", said="")
        said = "eve is not on the roll of this poll; the names on the roll are below."
        self.ballot("eve", "1234", line="", said=said)

    def test_the_personal_link(self):
        # by the place: the name that is filled in, and the own mark in the subject
        places = dict.fromkeys(["ada", f"ada/{OWN}x", "ada/0123456789"], ("ada", ""))
        places |= dict.fromkeys([f"ADA/{OWN.upper()}", f"%61da%2F{OWN}"], ("ada", OWN))
        places |= dict.fromkeys([f"zoe/{OWN}", f"/{OWN}", "Poll", "%", "<b>"], ("", ""))
        for place, (name, own) in places.items():
            with self.subTest(place=place):
                self.open(CALL, f"#{place}")
                self.sees(
                    "[['You', 'Name'].map((place) => document.getElementById(place).checkVisibility()), document.getElementById('Name').value]",
                    [[name != "", name == ""], name],
                )
                self.check_letter(None, name, own)
        # who it is stands in place of the field, until it is somebody else
        self.open(CALL, f"#ada/{OWN}")
        self.assertTrue(self.ask(text_of("You")).startswith("You vote as ada"))
        self.ask("document.getElementById('Not-you').click()")
        self.sees(
            "[document.activeElement.id, document.activeElement.value, document.getElementById('You').checkVisibility()]",
            ["Name", "", False],
        )
        # the own mark goes with the name of the link alone
        self.check_letter("ben", "ben", "")
        self.check_letter(" Ada ", "ada", OWN)
        self.ask(f"location.hash = 'ben/{OWN[::-1]}'")
        self.window.until("document.getElementById('Name').value === 'ben'")
        self.check_letter(None, "ben", OWN[::-1])
        # where the page has no roll, each name that one may have
        self.open_poll(with_roll(POLL, [f"e{number}" for number in range(2_001)]), f"#zoe/{OWN}")
        self.assertRegex(str(self.ballot(None, "21-3")["subject"]), rf"-{OWN}\]$")
        self.open(SECRET, f"#ada/{OWN}")
        self.ballot(None, "21-3", line="NAME 2,1,-,3")

    def check_letter(self, typed: str | None, name: str, own: str):
        """The line with this name, in a letter with this own mark; without one there is no letter,
        and without a name no line.
        """
        subject = f"Ballot: Where we meet [{CALL.questions.mark}-{own}]" if own else None
        self.ballot(typed, "21-3", line=f"{name} 2,1,-,3" if name else "", subject=subject)

    def test_what_is_said_without_the_own_mark(self):
        def check(name: str | None, line: str, is_letter: bool, count: int):
            found = self.ballot(name, "21-3", line=f"{line} 2,1,-,3")
            self.assertEqual(bool(found["letter"]), is_letter)
            hints = "[...document.querySelectorAll('.unmarked')].filter((node) => node.checkVisibility()).length"
            self.sees(hints, count)

        page = (self.open(CALL) / "index.html").read_text()
        check("ada", "ada", False, 2)
        self.open(CALL, f"#ada/{OWN}")
        check(None, "ada", True, 0)
        check("ben", "ben", False, 2)
        of_secret = (self.open(SECRET) / "index.html").read_text()
        check(None, "NAME", False, 1)
        self.assertNotIn('href="mailto:', page + of_secret)
        hint = "Answer your letter, or end the subject as your slip says"
        self.assertIn(hint, " ".join(of_secret.split()))


TEXTS = ("A long text. " * 40, "", "Short.")


class Looks(PageTest):
    def test_widths_and_contrast(self):
        """Of one question, and of several."""
        shown = ("\u05d0\u05d1 " * 60, "Donaudampfschifffahrt" * 9, "72 \u20ac", "{name} $& $1")
        long = replace(POLL, shown_options=shown, shown_title="Donaudampfschifffahrt" * 9)
        several = {"A": FEE, "B": long, "C": poll_of(32, 4, "ada")}
        votes = [(alone(poll_of(size, 9, "x" * 32)), "x" * 32) for size in (4, 32)]
        votes += [(alone(long), "ada"), (Questions(several, "Assembly 2026"), "ada")]
        colours = set()
        for (questions, name), is_dark in itertools.product(votes, (False, True)):
            self.window.show(is_dark=is_dark)
            self.open(call_of(questions))
            line, ranks = name, []
            for label, poll in questions.items():
                given = [str(len(poll.names))] * len(poll.names)
                line += f" {label}".rstrip() + f" {','.join(given)}"
                ranks += given
            for width in (360, 390, 1280):
                self.window.resize(width, 640)
                self.ballot(" Zoe L", ["-"] * len(ranks))
                self.ballot(name, ranks, line=line, wide=width)
            self.ask(UNFOLD)
            self.assertGreaterEqual(min(contrast(*pair) for pair in self.ask(COLOURS)), 4.5)
            own = "(({ color, backgroundColor }) => color + backgroundColor)(getComputedStyle(document.body))"
            colours.add((is_dark, self.ask(own)))
        # of several lines one that mail programs break is enough
        for rank in ("1", "10"):
            self.ballot("ada", [*"124321", *[rank] * 32], long=rank == "10")
        self.assertEqual((len(colours), len({colour for _, colour in colours})), (2, 2))

    def test_ranks_stand_beside_the_option_where_there_is_room(self):
        """`last` stands below the hyphen, and no number of an option is alone on a line."""
        beside = """[...document.querySelectorAll(".option")].map((option) => option.querySelector(".rank").getBoundingClientRect().left
          > option.querySelector(".name").getBoundingClientRect().right)"""
        last = "((small) => small.getBoundingClientRect().top > small.parentNode.getBoundingClientRect().top + 10)(document.querySelector('.rank small'))"
        names = ("Ein Name aus vielen Worten " * 7, "B " * 90, "C", "N " * 80)
        self.open_poll(replace(POLL, shown_options=names))
        for width, are_beside in ((360, False), (690, False), (720, True), (1280, True)):
            self.window.resize(width, 640)
            self.sees(f"[{beside}, {last}, {LONE_NUMBERS}]", [[are_beside] * 4, True, []], width)

    def test_long_texts_are_cut_and_read_at_a_touch(self):
        """And leave room for the ranks on a telephone, in each language."""
        # the ranks end above the line and the buttons, which are in the window, and a finger finds
        # each
        room = """((place) => { const bar = place(document.getElementById("Bottom"));
          const ranks = [...document.querySelectorAll("div.rank label")].map(place);
          const ends = ["Copy", "Letter"].map((id) => place(document.getElementById(id)).bottom);
          return ranks.every(({ bottom, height }) => bottom <= bar.top && height >= 41) && Math.max(...ends) <= innerHeight;
        })((node) => node.getBoundingClientRect())"""
        for code in LANGUAGES:
            poll = replace(POLL, explanations=TEXTS[:1] * 3)
            self.open_poll(poll, f"#ada/{OWN}", language=language_of(code))
            self.ballot("ada", "21-3")
            self.ask("scrollTo(0, 0)")
            self.sees(room, True, code)
        self.open_poll(replace(POLL, explanations=TEXTS))
        shown = "[...document.querySelectorAll('.text')].map((node) => node.clientHeight >= node.scrollHeight - 1)"
        self.sees(shown, [False, True])
        buttons = "[...document.querySelectorAll('.option .more')].filter((node) => node.checkVisibility())"
        # the page looks for what is cut once it has its size
        self.window.until(f"{buttons}.length === 1")
        self.ask(f"{buttons}[0].click()")
        self.sees(f"[{shown}, {buttons}.length]", [[True, True], 0])

    def test_without_script_and_on_paper(self):
        poll = replace(POLL, explanations=TEXTS)
        texts, unseen = ("At the lake", TEXTS[0].strip()), (
            "Send by e-mail",
            "Your name",
            "Read on",
        )
        self.open_without_script(replace(CALL, questions=alone(poll)))
        self.assert_seen(("Vote until", "Sell the house", *texts, "Short.", "The poll"), *unseen)
        self.open_poll(poll)
        self.window.show(is_printed=True)
        self.ask("dispatchEvent(new Event('beforeprint'))")
        seen = (*texts, "majority ratio 3", "The roll has 4 electors.", "ada", poll.checksum)
        self.assert_seen(seen, *unseen, "Give at least", "1\n2\n3")
        self.sees(BOXES, [True] * 4)
        # the name is written on a line
        self.sees("document.querySelector('.on-paper').checkVisibility()", True)


class ByKeys(PageTest):
    def tab_to(self, name: str, shift: bool = False) -> list[dict]:
        """Presses Tab until this has the focus; says what had it on the way."""
        way: list[dict] = []
        while not way or way[-1]["name"] != name:
            self.window.press("Tab", shift)
            way.append(self.ask(FOCUS))
            self.assertNotEqual(way[-1]["kind"], "BODY", f"Tab does not come to {name}: {way}")
        return way

    def test_a_ballot_is_made_and_its_line_is_taken(self):
        self.open(KINDS["signed"])
        self.tab_to("Name")
        self.window.type("\u00c0d\u00e0")
        self.tab_to("ada")
        self.window.press("Enter")
        self.sees("document.getElementById('Name').value", "ada")
        for option, rank in enumerate("21-3", start=1):
            self.tab_to(f"Rank-{option}")
            self.window.press(rank)
        self.sees(f"[{text_of('Line')}, {text_of('Missing')}]", ["ada 2,1,-,3", ""])
        # the whole ballot is read to whoever does not see it, and not the line
        said = "[...document.querySelectorAll('#Bottom [role=status] li')].map((node) => node.textContent)"
        self.assertEqual(self.ask(said)[:2], ["1\u00a072 Euro", "2\u00a0At the lake"])
        live = "document.getElementById('Line').closest('output, [role=status], [aria-live]')"
        self.sees(live, None)
        self.tab_to("Letter")
        self.tab_to("Copy")
        # no clipboard, as a page has none that was opened from a file
        self.copied(REFUSES)
        for key in ("Enter", " "):
            self.ask("getSelection().removeAllRanges()")
            self.window.press(key)
            self.window.until("String(getSelection()) === 'ada 2,1,-,3'")

    def test_a_rank_is_chosen_by_arrows_and_changed(self):
        self.open(CALL)
        self.tab_to("Name")
        self.window.type("ada")
        self.tab_to("Rank-1")
        for key, rank in {" ": "1", "ArrowDown": "2", "ArrowUp": "1", "4": "4", "-": ""}.items():
            self.window.press(key)
            self.sees(text_of("Line"), f"ada {rank},-,-,-" if rank else "", key)
        # with the key by which browsers choose a tab it is no rank
        self.window.press("2", control=True)
        # what is no line any more can't be taken
        said = ["", "Give at least one option a rank."]
        self.sees(f"[{text_of('Line')}, {text_of('Missing')}]", said)
        way = {place["name"] for place in self.tab_to("What each option needs")}
        self.assertEqual(way & {"Copy", "Letter"}, set())

    def test_tab_comes_to_all_in_order_and_the_focus_is_seen(self):
        """Of one question, light and dark, and of several; none is below the ballot."""
        of_three = [
            f"Rank-{label}{number}"
            for label, poll in THREE.items()
            for number in range(1, len(poll.names) + 1)
        ]
        of_one = [f"Rank-{number}" for number in range(1, 5)]
        several = call_of(data=KINDS["signed"])
        for data, is_dark, ranks, line, more in (
            (KINDS["signed"], False, of_one, "ada 1,1,1,1", []),
            (KINDS["signed"], True, of_one, "ada 1,1,1,1", []),
            (several, False, of_three, "ada\nA 1,1\nB 1,1,1,1\nC 1,1", ["3 of 3 answered"]),
        ):
            self.window.show(is_dark=is_dark)
            self.open(data)
            way = self.tab_to("Name")
            self.window.type("ada")
            for name in ranks:
                way += self.tab_to(name)
                self.window.press("1")
            self.sees(text_of("Line"), line)
            way += self.tab_to("Copy")
            order = ["Name", *ranks, *more, "Letter", "Copy"]
            self.assertEqual([place["name"] for place in way], order)
            back = self.tab_to("Name", shift=True)
            self.assertEqual([place["name"] for place in back], order[-2::-1])
            self.assertEqual([place for place in way + back if not place["inWindow"]], [])
            rings = {tuple(place["ring"][:2]) for place in way if place["name"] not in more}
            self.assertEqual(rings, {("solid", "3px")}, is_dark)
