"""The button that votes, on the page of a call with a web box, in a browser.

What is sent is on the page, at a press and in its order, and what is said of it is true.
"""

import datetime
import itertools
import json
import pathlib
import queue
import re
import tempfile
import unittest
from collections.abc import Callable, Iterable
from dataclasses import replace
from typing import Any

from debvote_tools.call.box import SENTENCES, proof_digest, records_file, script_of, third_part
from debvote_tools.call.call import CallData, call_files
from debvote_tools.poll.sealed import with_roll
from debvote_tools.text.language import LANGUAGES, language_of
from debvote_tools.text.rendering import checksum_source

from tests.support import call_examples, sealing
from tests.support.at_browser import NEEDS_BROWSER, Window
from tests.support.call_examples import KINDS, POLL, ROLL, alone
from tests.support.web_host import END as END_OF_RECORD
from tests.support.web_host import (
    FIRST,
    KEY,
    NEEDS_PHP,
    Host,
    Liar,
    answered,
    passed_on,
)

# no test is after its end
END = datetime.datetime(2099, 12, 4, 18, tzinfo=datetime.UTC)
CALL = replace(call_examples.CALL, until=END, box_key=KEY)
MARK = CALL.questions.mark
OWNS = {name: f"23456789a{sign}" for name, sign in zip(ROLL, "abcd")}
LINKS = {name: third_part(KEY, name, own) for name, own in OWNS.items()}
PLACES = {name: f"#{name}/{own}/{LINKS[name]}" for name, own in OWNS.items()}
WORDS_IN = {code: json.loads(language_of(code).words(SENTENCES)) for code in LANGUAGES}
WORDS = WORDS_IN["en"]
NOW, SENT = b"2026-11-28T12:19:04Z", "2026-11-28T12:18:59.321Z"
IS_THERE = "document.readyState === 'complete' && document.getElementById('Vote')"

STATE = """(() => {
  const node = (id) => document.getElementById(id), seen = (id) => Boolean(node(id)?.checkVisibility());
  const fields = [...document.querySelectorAll("#Ballot input, #Ballot select")];
  return { said: node("Sent").textContent, line: node("Line").textContent.replaceAll("\\n", " "), seen: seen("Vote"),
    button: seen("Vote") && !node("Vote").disabled, unlinked: seen("Unlinked"), broken: seen("Broken"),
    worked: seen("Worked"), unsealed: seen("Unsealed"), unrun: seen("Unrun"),
    fields: fields.filter((field) => !field.disabled).length };
})()"""
# of a page on which nothing is chosen
EMPTY = {"said": "", "line": "", "fields": 21}
UNSEEN = "button", "seen", "unlinked", "broken", "worked", "unsealed", "unrun"
EMPTY |= dict.fromkeys(UNSEEN, False)


def page_with_box(code: str = "en", patience: int = 30_000, call: CallData = CALL) -> bytes:
    """The page of a call with a box, whose script waits so long."""
    call = replace(call, language=language_of(code))
    page = dict(call_files(call))["index.html"].decode()
    [script] = re.findall("(?s)<script>(.*?)</script>", page)
    before, after = script.split("PATIENCE = 30000")
    new_script = f"{before}PATIENCE = {patience}{after}"
    page = page.replace(checksum_source(script), checksum_source(new_script))
    return page.replace(script, new_script).encode()


def received(_: bytes) -> Iterable[bytes]:
    """The answer that a ballot arrived now."""
    return [answered(b"received " + NOW + b"\n")]


@NEEDS_BROWSER
class BoxPageTest(unittest.TestCase):
    maxDiff = None

    @classmethod
    def setUpClass(cls):
        cls.window = cls.enterClassContext(Window(390, 844))
        cls.ask = cls.window.ask

    def visit(self, host: Host | Liar, place: str = PLACES["ada"]):
        self.window.tell("Page.navigate", url="about:blank")
        self.window.until("location.href === 'about:blank'")
        self.window.faults.clear()
        self.window.tell("Page.navigate", url=host.at + place)
        self.window.until("document.readyState === 'complete' && location.href !== 'about:blank'")

    @property
    def state(self) -> dict[str, Any]:
        return dict(self.ask(STATE))

    def assert_state(self, **wanted: object):
        """What is seen is that of an empty page, but for this."""
        self.assertEqual(self.state, EMPTY | wanted)

    def choose(self, ranks: str, name: str | None = None) -> dict[str, Any]:
        self.window.ballot(name, ranks)
        return self.state

    def press(self):
        self.ask("document.getElementById('Vote').click()")

    def sent(self) -> str:
        """Presses the button, and returns what is said of the answer."""
        self.press()
        passing = json.dumps(["", *(words["sending"] for words in WORDS_IN.values())])
        self.window.until(f"!{passing}.includes(document.getElementById('Sent').textContent)")
        return str(self.state["said"])

    def until_arrived(self):
        self.window.until(
            "document.getElementById('Sent').textContent.startsWith('It has arrived')"
        )

    def demand_arrived(self):
        self.press()
        self.until_arrived()


@NEEDS_PHP
class RealBoxTest(BoxPageTest):
    """With a real box."""

    # a link of another call
    new = "#"

    def setUp(self):
        room = tempfile.TemporaryDirectory(prefix="debvote-page-")
        self.folder = pathlib.Path(self.enterContext(room))
        (self.folder / "index.html").write_bytes(page_with_box())
        (self.folder / "vote.php").write_bytes(script_of(KEY, MARK, OWNS))
        self.host = self.enterContext(Host(self.folder))
        self.file = self.folder / records_file(KEY)

    @property
    def records(self) -> list[str]:
        """The records of the box, as they are."""
        data = self.file.read_text() if self.file.exists() else ""
        return data.removeprefix(FIRST.decode()).split(END_OF_RECORD.decode())[:-1]

    @property
    def lines(self) -> list[str]:
        """What the box has, opened: of each record the line, which came by the link of its
        elector.
        """
        lines = []
        for record in self.records:
            lines.append(line := sealing.line_in(KEY, record))
            [mark] = re.findall(r"Subject: \[(\w+)\]", record)
            [proof] = re.findall(r"X-Proof: (.*)", record)
            links = (PLACES[line.partition(" ")[0]], self.new)
            self.assertIn(proof, [proof_digest(mark, link[1:]) for link in links])
        return lines


class Clicks(RealBoxTest):
    def test_a_click_a_change_and_back_again(self):
        self.visit(self.host)
        self.assert_state()
        self.choose("12-3")
        ready = {"button": True, "seen": True, "line": "ada 1,2,-,3"}
        self.assert_state(**ready)
        # nothing is sent before a press
        self.assertEqual(self.host.requests(), ["GET /"])
        for _ in range(40):
            self.window.press("Tab")
            if self.ask("document.activeElement.id") == "Vote":
                break
        self.window.press("Enter")
        self.until_arrived()
        said = self.state["said"]
        arrived = (
            r"^It has arrived, sent \w+ \d+, 20\d\d, \d.*\. The secretary fetches it, and you get "
        )
        self.assertRegex(said, arrived)
        self.assert_state(**ready | {"said": said, "button": False})
        # the time that is said is the one that is sealed
        [record] = self.records
        number, text = re.findall(r"<(\w+)@", record)[0], record.rpartition("\n")[2]
        *inside, sent = sealing.key_pair(KEY, MARK)[1](number, text).split("\n")
        self.assertEqual(inside, ["ada 1,2,-,3", PLACES["ada"][1:]])
        self.assertRegex(sent, r"^20\d\d-\d\d-\d\dT\d\d:\d\d:\d\d\.\d{3}Z$")
        how = "{ dateStyle: 'medium', timeStyle: 'long' }"
        spoken = self.ask(f"new Date('{sent}').toLocaleString('en', {how})")
        self.assertRegex(spoken, "UTC|GMT")
        self.assertIn(f"sent {spoken}. ", said)
        # pressed again, nothing is sent
        self.press()
        # another line is not sent, as the page says, and can be; and the one that was sent is told
        # again
        changed = self.choose("21-3")
        self.assertEqual((changed["said"], changed["button"]), (WORDS["changed"], True))
        self.assertEqual(self.choose("----")["said"], WORDS["changed"])
        back = self.choose("12-3")
        self.assertEqual((back["said"], back["button"]), (said, False))
        for ranks in ("3---", "12-3"):
            self.choose(ranks)
            self.demand_arrived()
        self.assertEqual(self.lines, ["ada 1,2,-,3", "ada 3,-,-,-", "ada 1,2,-,3"])
        self.assertEqual(self.window.faults, [])
        # no request but the page and the clicks
        self.assertEqual(self.host.requests(), ["GET /", *["POST /vote.php"] * 3])
        # each is as long as each other, with a key of its own, and what is kept tells nothing
        sealed = [record.rpartition("\n")[2] for record in self.records]
        self.assertEqual([len(text) for text in sealed], [292] * 3)
        self.assertEqual(len({text[:80] for text in sealed}), 3)
        for secret in (LINKS["ada"], OWNS["ada"], "1,2,-", "3,-,-,-"):
            self.assertNotIn(secret, self.file.read_text())

    def test_only_with_the_whole_link_of_the_elector_on_the_line(self):
        """And not with one that was sent on, under a name that begins as theirs."""
        call = replace(CALL, questions=alone(with_roll(POLL, (*ROLL, "ada-lee"))))
        (self.folder / "index.html").write_bytes(page_with_box(call=call))
        ada = PLACES["ada"]
        # a sign of the sentence or of a web site stands behind it, or it was cut off
        broken = [f"{ada}{sign}" for sign in (".", ">", "?utm_source=x/y", "x", "%3E")]
        broken += [f"#ada//{LINKS['ada']}", ada[:-1], f"#ada/{OWNS['ada']}", ada[:14]]
        for place, name, which in (
            *((place, None, "broken") for place in broken),
            (ada, None, ""),
            (ada.upper().replace("#ADA", "#Ada"), None, ""),
            # some programs write the letters of a link by their numbers
            (ada.replace("#a", "#%61").replace("/", "%2F"), None, ""),
            (ada, " Ada", ""),
            (ada, "ben", "unlinked"),
            (ada, "ada-lee", "unlinked"),
            ("#ada", None, "unlinked"),
            ("", "ada", "unlinked"),
        ):
            with self.subTest(place=place, name=name):
                self.visit(self.host, place)
                self.choose("1234", name)
                line = f"{(name or 'ada').strip().lower()} 1,2,3,4"
                seen = {which: True} if which else {"seen": True, "button": True}
                self.assert_state(line=line, **seen)
        # from a file nothing can be sent
        self.window.tell("Page.navigate", url="about:blank")
        self.window.open(self.folder / "index.html", ada)
        self.choose("1234")
        self.assert_state(line="ada 1,2,3,4", unlinked=True)
        # nor where nothing can be sealed, and the page says why not
        for what, script in {
            "unsealed": "Object.defineProperty(crypto, 'subtle', { value: undefined })",
            "unlinked": "Object.defineProperty(window, 'isSecureContext', { value: false })",
        }.items():
            with self.subTest(what), self.window.before_each_page(script):
                self.visit(self.host)
                self.choose("1234")
                self.assert_state(line="ada 1,2,3,4", **{what: True})
        self.assertEqual({*self.host.requests()}, {"GET /"})

    def test_what_was_not_taken_is_sealed_anew_with_the_time_of_now(self):
        """What may have arrived is not, and its line can't be changed: it is sent again as it was,
        and counts once.
        """
        lost = answered(b"lost: disk full or broken\n", 503)
        answers = iter([lost, lost, b"", b"", None])

        def lie(request: bytes) -> Iterable[bytes]:
            said = next(answers) if request.startswith(b"POST") else None
            # where the answer is cut off the ballot has arrived
            arrived = b"" if said == lost else passed_on(request, self.host)
            yield arrived if said is None else said

        with Liar(lie) as between:
            self.visit(between, PLACES["cleo"])
            self.choose("4321")
            seen = {"line": "cleo 4,3,2,1", "button": True, "seen": True}
            for state, fields in (("lost", 21), ("lost", 21), ("unsure", 0), ("unsure", 0)):
                self.assertEqual(self.sent(), WORDS[state])
                self.assert_state(said=WORDS[state], **seen | {"fields": fields})
            self.demand_arrived()
            self.assertEqual(self.state["fields"], 21)
            posts = [one for one in between.requests if one.startswith(b"POST")]
        posted = [one.partition(b"\r\n\r\n")[2] for one in posts]
        self.assertEqual((len({*posted[:3]}), len({*posted[2:]})), (3, 1))
        self.assertEqual(self.lines, ["cleo 4,3,2,1"])

    def test_a_link_that_a_new_one_has_replaced(self):
        self.visit(self.host, f"#ada/{OWNS['ada']}/{LINKS['ben']}")
        self.choose("1234")
        self.assertEqual(self.sent(), WORDS["unknown"])
        # the newest letter is opened in the same window
        self.ask(f"location.hash = '{PLACES['ada']}'")
        self.window.until("document.getElementById('Sent').textContent === ''")
        self.demand_arrived()

    def test_a_page_that_is_still_open_takes_no_new_link(self):
        """It shows the options in the order of before."""
        self.visit(self.host)
        # the call was taken back, and made anew with the options in another order
        poll = replace(POLL, options=POLL.options[::-1], ratios=POLL.ratios[::-1])
        call, own = replace(CALL, questions=alone(poll)), "k3456789aa"
        (self.folder / "index.html").write_bytes(page_with_box(call=call))
        (self.folder / "vote.php").write_bytes(script_of(KEY, call.questions.mark, {"ada": own}))
        self.new = f"#ada/{own}/{third_part(KEY, 'ada', own)}"
        self.ask(f"location.hash = '{self.new}'")
        self.choose("1234")
        # the words are those of call/test_box.py
        self.assertEqual(self.sent(), WORDS["old"])
        self.assertEqual((self.state["button"], self.lines), (True, []))
        # loaded again, it is the one of now
        self.visit(self.host, self.new)
        self.choose("1234")
        self.demand_arrived()
        self.assertEqual(self.lines, ["ada 1,2,3,4"])


class Members(RealBoxTest):
    """What members do besides, on a telephone."""

    def setUp(self):
        super().setUp()
        self.window.resize(360, 640)
        self.addCleanup(self.window.resize, 390, 844)
        self.visit(self.host)

    def tap(self, ranks: str):
        """Touches the buttons of these ranks, as a browser notes it that comes back to the page."""
        for place, rank in enumerate(ranks, start=1):
            button = f"[name='Rank-{place}'][value='{rank}']"
            self.ask(f'document.querySelector("{button}").click()')

    def test_back_and_forth(self):
        """A browser that kept the page shows what arrived; one that loads it again fills in the
        ranks, and who presses again sends the same ballot once more.
        """
        (self.folder / "else.html").write_text("<!doctype html><p>Elsewhere")
        self.tap("1234")
        self.demand_arrived()
        arrived = self.state
        loaded = arrived | {"said": "", "button": True}
        self.go_and_come_back()
        self.assertIn(self.state, (arrived, loaded))
        # a page that listens for its end is not kept
        self.ask("addEventListener('unload', () => {})")
        self.go_and_come_back()
        self.assertEqual(self.state, loaded)
        self.demand_arrived()
        self.assertEqual(self.lines, ["ada 1,2,3,4"] * 2)

    def go_and_come_back(self):
        self.window.tell("Page.navigate", url=f"{self.host.at}else.html")
        self.window.until(f"!({IS_THERE})")
        self.ask("setTimeout(() => history.back())")
        self.window.until(IS_THERE)

    def test_a_telephone_that_sleeps(self):
        """Between opening and pressing, and between pressing and the answer."""
        go, kept = queue.SimpleQueue[bool](), queue.SimpleQueue[bool]()

        def lie(request: bytes) -> Iterable[bytes]:
            if is_click := request.startswith(b"POST"):
                go.get()
            said = passed_on(request, self.host)
            if is_click:
                kept.put(True)
            yield said

        def become(state: str):
            self.window.tell("Page.setWebLifecycleState", state=state)

        with Liar(lie) as between:
            self.visit(between)
            self.tap("1234")
            become("frozen")
            become("active")
            self.press()
            sending = json.dumps(WORDS["sending"])
            self.window.until(f"document.getElementById('Sent').textContent === {sending}")
            become("frozen")
            go.put(True)
            kept.get(timeout=60)
            become("active")
            self.until_arrived()
        self.assertEqual(self.lines, ["ada 1,2,3,4"])

    def test_a_telephone_without_a_network(self):
        self.tap("1234")
        network = {"latency": 0, "downloadThroughput": -1, "uploadThroughput": -1}
        self.window.tell("Network.enable")
        self.window.tell("Network.emulateNetworkConditions", offline=True, **network)
        self.assertEqual(self.sent(), WORDS["unsure"])
        self.assertEqual((self.state["fields"], self.lines), (0, []))
        self.window.tell("Network.emulateNetworkConditions", offline=False, **network)
        self.demand_arrived()
        self.assertEqual((self.state["fields"], self.lines), (21, ["ada 1,2,3,4"]))
        self.window.faults.clear()


class Answers(BoxPageTest):
    """With a host that answers what it should not."""

    def serve(self, lie: Callable[[bytes], Iterable[bytes | float]], page: bytes) -> Liar:
        def all_of(request: bytes) -> Iterable[bytes | float]:
            if request.startswith(b"POST"):
                return lie(request)
            return [answered(page, 200, "Content-Type: text/html")]

        return self.enterContext(Liar(all_of))

    def test_what_is_said_of_each_answer(self):
        answers = queue.SimpleQueue[list[bytes | float]]()
        host = self.serve(lambda request: answers.get(), page_with_box(patience=3_000))
        self.visit(host, PLACES["dan"])
        other = self.enterContext(Liar(received))
        ranks = map("".join, itertools.product("1234", repeat=4))
        arrived, page = b"received " + NOW + b"\n", b"<!doctype html>"
        all_answers = [
            ("unknown", answered(b"unknown: no such name and link\n", 403)),
            ("many", answered(b"many: no more by this link\n", 429)),
            ("old", answered(b"old: another page\n", 409)),
            ("lost", answered(b"lost: disk full or broken\n", 503)),
            *(("lost", answered(b"bad: no ballot\n", status)) for status in (400, 413, 405)),
            ("unsure", answered(b"unsure: disk broken\n", 500)),
            # the word and the status do not fit, or the word is another one
            *(("unsure", answered(arrived, status)) for status in (500, 403)),
            ("unsure", answered(b"received now\n")),
            ("unsure", answered(b"received <b>" + NOW + b"</b>\n")),
            ("unsure", answered(b"lost: x\n")),
            *(("unsure", answered(page, status)) for status in (403, 406, 409)),
            ("unsure", answered(b"")),
            ("unsure", answered(b"toString: x\n", 200)),
            # it sends on, or answers half or never
            ("unsure", answered(b"", 307, f"Location: {other.at}vote.php")),
            ("unsure", answered(arrived)[:-8]),
            ("unsure", b""),
            ("unsure", answered(arrived)[:-8], 25.0),
        ]
        for said, *sent in all_answers:
            with self.subTest(said=said, sent=sent):
                self.ask(f"location.hash = '{PLACES['dan']}'")
                before = self.choose(next(ranks))
                self.assertIn(before["said"], ("", WORDS["changed"]))
                self.assertEqual((before["button"], before["fields"]), (True, 21))
                answers.put(sent)
                self.assertEqual(self.sent(), WORDS[said])
                fields = 0 if said == "unsure" else 21
                self.assertEqual(self.state, before | {"said": WORDS[said], "fields": fields})
                if said == "unsure":
                    # it is sent again, byte for byte, until that is answered
                    first = host.requests[-1]
                    answers.put([answered(arrived)])
                    self.assertRegex(self.sent(), "^It has arrived, sent ")
                    self.assertEqual(host.requests[-1], first)
        self.assertEqual(other.requests, [])
        posted = [request for request in host.requests if request.startswith(b"POST")]
        numbers = {request.splitlines()[-2].rpartition(b" ")[2] for request in posted}
        # each line has its number
        self.assertEqual(len(numbers), len(all_answers))
        for number in numbers:
            self.assertRegex(number, rb"\A[0-9a-f]{32}\Z")

    def test_where_its_script_may_not_run(self):
        policy = "Content-Security-Policy: default-src 'self'"
        page = answered(page_with_box(), 200, "Content-Type: text/html", policy)
        host = self.enterContext(Liar(lambda request: [page]))
        self.visit(host)
        self.assert_state(unrun=True)

    def test_where_the_script_on_the_host_is_gone_after_the_end(self):
        """The form is free, and the same ballot is sent as it was."""
        call = replace(CALL, until=datetime.datetime.fromisoformat(NOW.decode()))
        host = self.serve(lambda request: [answered(b"", 404)], page_with_box(call=call))
        self.visit(host)
        self.choose("1234")
        for _ in range(2):
            self.assertEqual(self.sent(), WORDS["over"])
            self.assertEqual(self.state["fields"], 21)
        self.assertEqual(*(one for one in host.requests if one.startswith(b"POST")))

    def test_the_form_is_locked_until_the_host_answers(self):
        go = queue.SimpleQueue[bool]()

        def lie(request: bytes) -> Iterable[bytes]:
            go.get()
            yield from received(request)

        host = self.serve(lie, page_with_box())
        self.visit(host)
        self.ask("document.cookie = 'of=another-page'")
        self.choose("1234")
        self.press()
        sending = {"said": WORDS["sending"], "seen": True, "fields": 0}
        self.assert_state(line="ada 1,2,3,4", **sending)
        # neither by a second press, nor by a script of the browser that fills the form, nor by keys
        self.press()
        for key in ("Tab", "2", " ", "ArrowDown"):
            self.window.press(key)
        self.assert_state(line="ada 1,2,3,4", **sending)
        # another link in the same window: it waits, too
        self.ask(f"location.hash = '{PLACES['ben']}'")
        self.window.until("document.getElementById('Line').textContent.startsWith('ben ')")
        self.assert_state(line="ben 1,2,3,4", **sending)
        go.put(True)
        self.window.until("!document.getElementById('Vote').disabled")
        self.assertEqual((self.state["said"], self.state["fields"]), ("", 21))
        self.ask(f"location.hash = '{PLACES['ada']}'")
        self.until_arrived()
        [request] = [request for request in host.requests if request.startswith(b"POST")]
        proof = sealing.proof_of(MARK, PLACES["ada"][1:])
        posted = rf"\r\n\r\nbox={CALL.page} {proof} [0-9a-f]{{32}}\n[\w-]{{292}}\n\Z"
        self.assertRegex(request, posted.encode())
        heads = request.partition(b"\r\n\r\n")[0].lower()
        self.assertIn(b"content-type: application/x-www-form-urlencoded\r\n", heads)
        self.assertNotIn(b"cookie", heads)
        # neither link nor line is told
        for secret in (LINKS["ada"], OWNS["ada"], "1,2,3,4"):
            self.assertNotIn(secret.encode(), request)

    def test_the_button_and_when_a_ballot_arrived_in_each_language(self):
        """The button has a row of its own at each width. The time is by the clock of whoever sent
        it; whether it came after the end that the page knows is by the clock of the host, in whole
        seconds: a page may be left open, and the vote be extended.
        """
        zone = "Asia/Kolkata"
        self.window.tell("Emulation.setTimezoneOverride", timezoneId=zone)
        self.addCleanup(self.window.tell, "Emulation.setTimezoneOverride", timezoneId="")
        self.addCleanup(self.window.resize, 390, 844)
        how = json.dumps({"dateStyle": "medium", "timeStyle": "long", "timeZone": zone})
        now = datetime.datetime.fromisoformat(NOW.decode())
        row = """(() => { const place = (node) => node.getBoundingClientRect();
          const vote = place(document.getElementById("Vote")), row = place(document.querySelector(".actions"));
          const others = [...document.querySelectorAll(".actions > :not(#Vote)")];
          return [document.documentElement.scrollWidth, vote.left === row.left && vote.right === row.right &&
            others.every((node) => place(node).top >= vote.bottom)]; })()"""
        for code, seconds in itertools.product(LANGUAGES, (0, 1)):
            end = now - datetime.timedelta(seconds=seconds)
            host = self.serve(received, page_with_box(code, call=replace(CALL, until=end)))
            self.visit(host)
            self.choose("1234")
            for width in (320, 360, 1280):
                with self.subTest(code=code, width=width):
                    self.window.resize(width, 640)
                    self.assertEqual(self.ask(row), [width, True])
                    vote = "[document.getElementById('Vote')]"
                    self.assertEqual(self.window.broken_words(vote), [])
            # the clock of the device, whatever the host says
            self.ask(f"Date.prototype.toISOString = () => '{SENT}'")
            said = WORDS_IN[code]["late" if seconds else "received"]
            for name, time in {"time": SENT, "end": end.isoformat()}.items():
                spoken = self.ask(f"new Date('{time}').toLocaleString('{code}', {how})")
                said = said.replace(f"{{{name}}}", spoken)
            self.assertEqual(self.sent(), said)
            self.assertFalse(self.state["button"])

    def test_no_page_without_a_box_has_anything_of_it(self):
        parts = "fetch(", "connect-src", "XMLHttpRequest", "sendBeacon", "vote.php"
        for kind, data in KINDS.items():
            page = dict(call_files(data))["index.html"].decode()
            for part in (*parts, *WORDS.values()):
                self.assertNotIn(part, page, kind)
