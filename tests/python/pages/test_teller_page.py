"""The page of a teller, from the disk: keys, looking at a page of a vote, opening, and looking for a ballot."""

import datetime
import re
import runpy
import time
import unittest

import pytest

from debvote_tools.call import lists
from debvote_tools.call.call import CallData, call_page
from debvote_tools.call.sealed_ballots import block_of
from debvote_tools.call.teller_page import TAGS, tags_in, teller_page
from debvote_tools.call.tellers import first_list, places_for
from debvote_tools.poll.questions import Questions
from debvote_tools.poll.sealed import SealedPoll
from debvote_tools.text.language import LANGUAGES, language_of

from tests.python.call.test_tellers import LISTS, MARK, OWN, POINTS
from tests.support import at_browser, in_firefox, tellers
from tests.support.program import ROOT
from tests.support.teller_pages import KEEPING, TellerPage, halves, key_file

# nine ballots, and a spoilt slip
VOTED = "".join(f"m{n} {'paper' if n > 7 else 'click'}\n" for n in range(10))
CARLA, DORA = key_file("carla"), key_file("dora")
END = datetime.datetime(2099, 12, 4, 18, tzinfo=datetime.UTC)


def members(number: int) -> str:
    """So many who have voted by a click."""
    return "".join(f"m{n} click\n" for n in range(number))


def call_of(
    code: str = "en", options: tuple[str, ...] = ("At the <lake>", 'In "town"'), **how: object
) -> CallData:
    poll = SealedPoll(
        title="Where & when",
        options=options,
        ratios=tuple(1 for _ in options),
        default="Further discussion",
        quorum=1,
        roll=places_for(9),
        secret=True,
        explanations=("First.\n\nSecond.", *("" for _ in options[1:])),
        motion=len(options) == 1,
    )
    given: dict[str, object] = {
        "language": language_of(code),
        "questions": Questions({"": poll}),
        "quorum_votes": {"": 1},
        "until": END,
        "to": "vote@club.example",
        "at": "https://club.example/vote/",
        "real_names": None,
        "is_signed": False,
        "box_key": bytes(range(32)),
        "has_slips": False,
        "letter_text": "",
        "has_aliases": True,
        "has_codes_on_roll": False,
        "has_lapsed_codes": False,
        "tellers": POINTS,
    }
    return CallData(**(given | how))  # type: ignore[arg-type]


def page_of(**how: object) -> bytes:
    return call_page(call_of(**how))  # type: ignore[arg-type]


class PageTest(unittest.TestCase):
    def window(self) -> at_browser.Window:
        return at_browser.Window(800, 800)

    def setUp(self):
        window = self.enterContext(self.window())
        self.enterContext(window.before_each_page(KEEPING))
        self.page = TellerPage(window)
        self.page.open()

    def tearDown(self):
        self.assertEqual(self.page.window.faults, [])


@at_browser.NEEDS_BROWSER
class Opening(PageTest):
    def test_a_key_is_made_saved_and_tried(self):
        self.page.type("Name", "Carla Ann")
        self.assertIn("A name has only small letters", self.page.press("Make"))
        self.page.type("Name", " Carla ")
        self.assertEqual(self.page.press("Make"), "")
        names, files = zip(*map(self.page.saved, ("Key-file", "Half-1", "Half-2")))
        self.assertEqual(names, ("carla.key", "carla.half-1", "carla.half-2"))
        for file in files:
            self.assertRegex(file, r"^debvote (key|half) 1\ncarla\n[\w-]{87}\n[\w-]{43}\n$")
        key, *parts = files
        other = halves("carla")
        for saved, two in (
            ((key,), parts[:1]),
            ((key,), [parts[0], other[1]]),
            ((CARLA,), parts),
            ((parts[0],), parts),
            ((key.replace("carla", "dora"),), parts),
            ((), parts),
        ):
            self.page.choose("Saved-key", *saved)
            self.page.choose("Saved-halves", *two)
            self.assertNotEqual(self.page.press("Try"), "", (saved, two))
            self.assertEqual(self.page.text("Public"), "")
        self.page.choose("Saved-key", key)
        self.page.choose("Saved-halves", *parts)
        self.assertEqual(self.page.press("Try"), "")
        self.assertEqual(self.page.text("Public"), f"carla {key.splitlines()[2]}")
        self.assertRegex(self.page.text("Fingerprint"), r"^([0-9a-f]{4}-){3}[0-9a-f]{4}$")
        self.page.choose("Saved-key", CARLA)
        self.page.choose("Saved-halves", *other)
        self.assertEqual(self.page.press("Try"), "")
        self.assertEqual(self.page.text("Fingerprint"), "bf6e-3480-d3f0-5753")

    def test_the_vectors(self):
        for step, keys in ((1, [CARLA]), (2, halves("dora"))):
            given = LISTS[:step]
            said = self.page.opening(given, VOTED, keys)
            self.assertEqual(said, "")
            name, text = self.page.saved("List-file")
            self.assertEqual(name, f"list-{step}.txt")
            made = lists.read_list(name, text.encode())
            self.assertEqual(made.body, lists.read_list(name, LISTS[step]).body)
            read = [lists.read_list(f"list-{n}.txt", data) for n, data in enumerate(given)]
            lists.demand_lists([*read, made], POINTS)
            # the same list is another signature, and the same list
            self.assertEqual(self.page.opening(given, VOTED, keys), "")
            self.assertEqual(
                self.page.saved("List-file")[1].rpartition("signed")[0], made.body.decode()
            )
        shown = " ".join(self.page.lines("Shown"))
        for part in (
            "Who keeps the cash box? Grüße",
            "carla bf6e-3480-d3f0-5753",
            "9 ballots. 8 members voted by a click, 2 on paper; 1 slips were spoilt",
            "m0, m1, m2, m3, m4, m5, m6, m7",
            "carla: 1",
        ):
            self.assertIn(part, shown)
        said = self.page.lines("Opened")
        self.assertEqual(said[0], "6 ballots opened, 2 refused.")
        fours = re.findall("....", tellers.sha256(LISTS[0])[:32])
        self.assertEqual(said[1], f"list-0.txt: {' '.join(fours)}")

    def test_what_it_stops_at(self):
        body = lists.read_list("list-1.txt", LISTS[1]).body.decode()
        by_dora = tellers.signed(body, "dora").encode()
        high = tellers.signed(body, "carla", is_high=True).encode()
        first = lists.read_list("list-0.txt", LISTS[0])
        few = first_list("x", MARK, POINTS, [*first.ballots][:4])
        garbage = "BA" + "A" * (len(first.ballots[0]) - 2)
        five = first_list("x", MARK, POINTS, [*[*first.ballots][:4], garbage])
        other_mark = tellers.signed(body.replace(MARK, "0" * 16), "carla").encode()
        before = tellers.signed(body.replace(first.digest, "1" * 64), "carla").encode()
        less = tellers.body_of(first, 1, [], [*first.ballots[:3]])
        less = tellers.signed(less, "carla")
        changed, missing = "A checksum is another one", "Choose all files."
        unread = "A file is none of these"
        turn = "It is not the turn of this key. Next is: "
        number = "voted.txt has another number"
        # what is said of the first list, the members and the key of Carla, but for this
        cases = {
            "another list 0": (changed, {"checksums": ("0" * 64, "")}),
            "half a checksum": (changed, {"checksums": (tellers.sha256(LISTS[0])[:32], "")}),
            "another voted.txt": (changed, {"checksums": ("", "0" * 64)}),
            "a newer letter": ("First ask", {"is_newest": False}),
            "a missing list": (missing, {"lists": [LISTS[1]]}),
            "not the turn": (f"{turn}carla", {"keys": [DORA]}),
            "turn of nobody": (f"{turn}-", {"lists": [*LISTS]}),
            "another name": (turn, {"keys": [CARLA.replace("carla", "anna")]}),
            "no key": ("Choose the key", {"keys": []}),
            "half a key": ("Choose the key", {"keys": halves("carla")[:1]}),
            "few": ("fewer than 5", {"lists": [few], "voted": members(4)}),
            "few after opening": ("fewer than 5", {"lists": [five], "voted": members(5)}),
            "too few members": (number, {"voted": members(8)}),
            "too many clicks": (number, {"voted": VOTED.replace("paper", "click")}),
            "unsorted members": (unread, {"voted": "b click\na click\n" * 5}),
            "CRLF": (unread, {"lists": [LISTS[0].replace(b"\n", b"\r\n")]}),
        }
        unsigned = "not signed by carla"
        given = "carla was given another list-0.txt than this: the secretary and carla"
        for name, words, second in (
            ("another signature", unsigned, by_dora),
            ("a high s", unsigned, high),
            ("another mark", missing, other_mark),
            ("another list before", given, before),
            ("fewer", "another number of ballots", less.encode()),
        ):
            cases[name] = (words, {"lists": [LISTS[0], second], "keys": [DORA]})
        for name, (words, how) in cases.items():
            with self.subTest(name):
                usual = {"lists": [LISTS[0]], "voted": VOTED, "keys": [CARLA]}
                self.assertIn(words, self.page.opening(**usual | how))
                self.assertTrue(self.page.window.ask("document.getElementById('Done').hidden"))

    def test_each_line_out_doubled_or_exchanged(self):
        for step, name in ((0, "carla"), (1, "dora")):
            lines = LISTS[step].decode().split("\n")[:-1]
            for at in range(len(lines)):
                for other in (
                    lines[:at] + lines[at + 1 :],
                    lines[: at + 1] + lines[at:],
                    [*lines[:at], *lines[at + 1 : at + 2], *lines[at : at + 1], *lines[at + 2 :]],
                ):
                    if other != lines:
                        text = "".join(f"{line}\n" for line in other).encode()
                        said = self.page.opening([*LISTS[:step], text], VOTED, [key_file(name)])
                        self.assertNotEqual(said, "", (step, at))

    def test_a_second_list_by_one_key(self):
        self.assertEqual(self.page.opening([LISTS[0]], VOTED, [CARLA]), "")
        other = LISTS[0].replace(b"title Who", b"title Whoever")
        self.assertIn(
            "This key has opened another list", self.page.opening([other], VOTED, [CARLA])
        )

    def test_ones_own_ballot(self):
        self.assertEqual(
            self.page.find(OWN, *LISTS), "The ballot cccccccc 2,1,3,- is in all 3 lists."
        )
        first, second = (lists.read_list(f"list-{n}.txt", LISTS[n]) for n in (0, 1))
        rows = OWN.split("\n")
        own = rows[2].split(" ")[1]
        twin = next(
            block
            for block in first.ballots
            if block not in second.refused
            and tellers.inside_of(1, "carla", MARK, block) == lists.bytes_of(own)
        )
        body = tellers.body_of(
            first, 1, [one for one in second.ballots if one != own], sorted([*second.refused, twin])
        )
        lost = tellers.signed(body, "carla").encode()
        words = "carla lost the ballot: lines 1 to 1 below the first of the file show it."
        self.assertEqual(self.page.find(OWN, LISTS[0], lost), words)
        nothing = "The file was changed, and proves nothing."
        key = rows[1].split(" ")[2]
        for old, new in (
            (key, lists.text_of((9).to_bytes(32))),
            ("2,1,3,-", "1,2,3,-"),
            (MARK, "0" * 16),
            ("2,1,3,-", "2,1,4,-"),
        ):
            self.assertEqual(self.page.find(OWN.replace(old, new), *LISTS), nothing)
        without = first_list(first.title, MARK, POINTS, [*first.ballots][:8])
        if rows[1].split(" ")[1] not in [*first.ballots][:8]:
            self.assertIn("The ballot is not in list-0.txt", self.page.find(OWN, without))

    @pytest.mark.whole
    def test_a_thousand_ballots(self):
        points = [*POINTS.values()]
        blocks = [
            block_of(f"{n:08}".translate(str.maketrans("01", "yz")) + " 1,2,3,-", 4, MARK, points)
            for n in range(2000, 3000)
        ]
        data = first_list("Many", MARK, POINTS, blocks)
        voted = "".join(f"m{n:04} click\n" for n in range(1000))
        given = [data]
        for step, key in ((1, CARLA), (2, DORA)):
            begin = time.monotonic()
            self.assertEqual(self.page.opening(given, voted, [key]), "")
            self.assertLess(time.monotonic() - begin, 3 * at_browser_slowness())
            given.append(self.page.saved("List-file")[1].encode())
        last = lists.read_list("list-2.txt", given[-1])
        self.assertEqual((len(last.ballots), len(last.refused)), (1000, 0))


def at_browser_slowness() -> float:
    """How many others share the processors: a limit under load is no fault."""
    with open("/proc/loadavg") as load:
        return max(1.0, float(load.read().split()[0]) / 2)


@at_browser.NEEDS_BROWSER
class Looking(PageTest):
    def test_the_pages_of_this_version(self):
        variants = [
            {"code": code, "options": options}
            for code in LANGUAGES
            for options in (("Yes, we do",), ("a", "b"), tuple(f"option {n}" for n in range(12)))
        ]
        variants += [{"to": None}, {"until": None}, {"has_lapsed_codes": True}]
        for how in variants:
            with self.subTest(**how):
                page = page_of(**how)
                self.assertLessEqual(tags_in(page.decode()), {*TAGS.read_text().split()})
                self.assertEqual(self.page.look(page, DORA), "")
        self.assertEqual(self.page.look(page_of(), line=f"carla {POINTS['carla']}"), "")
        shown = self.page.lines("Looked")
        self.assertIn("This page seals step 1 to this key.", shown[0])
        self.assertEqual(
            shown[1:5], ["Where & when", "At the <lake>", 'In "town"', "Further discussion"]
        )
        self.assertEqual(shown[5:7], ["carla bf6e-3480-d3f0-5753", "dora e843-5051-d2bd-ab7e"])
        self.assertEqual(shown[7], f"SHA-256: {tellers.sha256(page_of())}")

    def test_a_changed_page(self):
        page = page_of().decode()
        line = re.findall(r"<script>const TELLERS.*?</script>\n", page)[0]
        digests = re.findall(r"script-src ('sha256-[^']*') ('sha256-[^']*')", page)[0]
        emil = tellers.points(3)["emil"]
        others = call_of(tellers={"carla": POINTS["carla"], "emil": emil})
        without = page.replace(line, "")
        changes = {
            "the line out": (line, ""),
            "its digest out": (f"{digests[0]} ", ""),
            "the line twice": (line, line * 2),
            "the digest of the script out": (f" {digests[1]}", ""),
            "a digest more": (digests[1], f"{digests[1]} 'sha256-{'A' * 43}='"),
            "a digest twice": ("<h1", f'<h1 title="{digests[1]}"'),
            "a refresh": (
                "</head>",
                '<meta http-equiv="refresh" content="0; url=https://other.example/">\n</head>',
            ),
            "another box": ('data-box="vote.php"', 'data-box="vote2.php"'),
            "a frame": ("<main>", '<main><iframe src="x"></iframe>'),
            "a link": ("<main>", '<main><a href="https://other.example/">'),
            "a script more": ("</body>", "<script>1</script></body>"),
            "another script": ("const FORM", "const FORMS"),
            "another style": ("body {", "main {"),
            "a half tag": ("</main>", "</main><img "),
            "a control": ("Where", "Wh\x0cere"),
            "a tab": ("<main>", "<main\t>"),
            "a handler": ('<div id="Ballot"', '<div id="Ballot" onclick="1"'),
            "a quote in a value": ('data-mark="', 'data-mark="" onclick="'),
            "another policy": ("form-action 'none'", "form-action *"),
            "as chromium saves a complete page": (
                "<html",
                "<!-- saved from url=(0027)https://club.example/vote/ -->\n<html",
            ),
        }
        cases = {name: page.replace(*change, 1) for name, change in changes.items()} | {
            "both out": without.replace(f"{digests[0]} ", ""),
            "the line behind the script": without.replace("</body>", f"{line}</body>"),
            "no tellers": call_page(call_of(tellers={})).decode(),
            "before all": f"<!-- -->{page}",
            "with a mark of bytes": f"\ufeff{page}",
        }
        for name, text in cases.items():
            with self.subTest(name):
                self.assertNotEqual(text, page)
                said = self.page.look(text.encode(), DORA)
                self.assertIn("save it once more, as HTML only. If it stays so, tell", said)
                self.assertEqual(self.page.text("Looked"), "")
        another = "THIS PAGE SEALS TO ANOTHER KEY: tell all members."
        self.assertEqual(self.page.look(call_page(others), DORA), another)
        renamed = call_of(tellers={"carla": POINTS["carla"], "dana": POINTS["dora"]})
        self.assertEqual(self.page.look(call_page(renamed), DORA), another)
        latin = page.encode().replace(b"Where", b"Wh\xffre", 1)
        self.assertIn("save it once more, as HTML only", self.page.look(latin, DORA))


class WithoutBrowser(unittest.TestCase):
    @pytest.mark.whole
    def test_the_tags_are_those_of_all_kinds_of_pages(self):
        """docs/make-teller --tags collects them anew."""
        made = runpy.run_path(str(ROOT / "docs/make-teller"))
        tags = set[str]().union(*(tags_in(call_page(call).decode()) for call in made["calls"]()))
        self.assertEqual(tags, {*TAGS.read_text().split()})

    def test_each_language_is_short_enough(self):
        for code in LANGUAGES:
            self.assertLessEqual(len(teller_page(language_of(code))), 30_000, code)


@pytest.mark.whole
@in_firefox.NEEDS_FIREFOX
class OpeningInFirefox(Opening):
    def window(self) -> at_browser.Window:
        return in_firefox.Window(800, 800)


@pytest.mark.whole
@in_firefox.NEEDS_FIREFOX
class LookingInFirefox(Looking):
    def window(self) -> at_browser.Window:
        return in_firefox.Window(800, 800)
