"""What the script of the page seals, byte for byte, and what it does if sealing or the host fails.

Each time it says what became of the ballot, and sends nothing that it does not say.
"""

import base64
import collections
import json
import shutil
import subprocess
import unittest
from dataclasses import replace

import pytest

from debvote_tools.call.box import page_of, personal_link, script_of
from debvote_tools.inbox.box_records import ask
from debvote_tools.poll.questions import LABELS
from debvote_tools.text.rendering import resources

from tests.python.call import test_sealed_ballots as vector
from tests.python.pages.test_box_page import CALL, MARK, OWNS, PLACES, WORDS
from tests.python.pages.test_box_page import RealBoxTest, page_with_box
from tests.support import sealing
from tests.support.call_examples import SECRET
from tests.support.web_host import (
    KEY,
    NEEDS_PHP,
    NEEDS_RULES,
    WORD,
    BoxTest,
    behind_rules,
    place_of,
    request_of,
)

NODE = shutil.which("nodejs") or shutil.which("node")

KIND = "application/x-www-form-urlencoded"
# the ballot of the vector, and what is sent of it
LINE, PLACE, SENT = vector.INSIDE.split("\n")
BODY = request_of(
    f"box={page_of(vector.KEY, vector.MARK)} {sealing.proof_of(vector.MARK, PLACE)} {vector.NUMBER}",
    vector.SEALED,
)

# what the page of the vector has in its data
OF_VECTOR = {
    "mark": vector.MARK,
    "page": page_of(vector.KEY, vector.MARK),
    "seal": sealing.key_pair(vector.KEY, vector.MARK)[0],
}

# with this a browser makes the own key, the number and the time of the vector
FIXED = """
const own = %s, how = { name: "ECDH", namedCurve: "P-256" };
crypto.subtle.generateKey = async () => ({
  publicKey: await crypto.subtle.importKey("jwk", { ...own, d: undefined }, how, true, []),
  privateKey: await crypto.subtle.importKey("jwk", own, how, false, ["deriveBits"]),
});
crypto.getRandomValues = (bytes) => bytes.map((byte, place) => (bytes[place] = Number(place === bytes.length - 1)));
Date.prototype.toISOString = () => "%s";
"""

# what the script finds of a page and a browser under node, which has no page; it prints what is
# sent
AROUND = """
const nodes = new Map(), pressed = [];
const node = (id) => nodes.get(id) ?? nodes.set(id, { id, textContent: "", addEventListener: (_, call) => pressed.push(call) }).get(id);
const document = { getElementById: node, documentElement: { lang: "en" } };
const location = { protocol: "https:" }, isSecureContext = true, navigator = {};
const placeNamed = () => %(place)s, addEventListener = () => {};
const MutationObserver = class { observe() {} };
const fetch = async (_, { body }) => { process.stdout.write(body); return { status: 503, text: async () => "lost: x" }; };
node("Line").textContent = %(line)s;
node("Ballot").dataset = %(data)s;
node("Ballot").querySelectorAll = (which) => Array(which === ".option, .question" ? %(options)d : 0).fill({});
"""


def fixed() -> str:
    """The script that fixes these; the own key is 2."""
    point = sealing.point_of(2)
    parts = {"x": point[1:33], "y": point[33:], "d": (2).to_bytes(32)}
    own = {
        name: base64.urlsafe_b64encode(part).decode().rstrip("=") for name, part in parts.items()
    }
    return FIXED % (json.dumps({"kty": "EC", "crv": "P-256"} | own), SENT)


def sent_under_node(*ballots: tuple[str, str, int], presses: int = 1, tries: int = 500) -> bytes:
    """What the script sends of each ballot, at each press: of a line by a personal link, and a form with so many options, and questions
    if they are several. With one number for all, none of its tries passes a firewall that refuses the first.
    """
    data = {"box": "vote.php", "until": "", "words": json.dumps(WORDS), **OF_VECTOR}
    scripts = resources("debvote_tools.call", "bytes.js", "sealing.js", "box.js")
    scripts = scripts.replace("tries = 500", f"tries = {tries}")
    press = f"for (let n = 0; n < {presses}; n += 1) await pressed[0]();"
    runs = ""
    for line, place, options in ballots:
        given = {"place": json.dumps(place), "line": json.dumps(line), "data": json.dumps(data)}
        page = AROUND % (given | {"options": options}) + fixed() * (presses == 1)
        runs += f"await (async () => {{ {page}{scripts}{press} }})();\n"
    script = f"(async () => {{ {runs} }})();"
    ended = subprocess.run(
        [str(NODE), "-"], input=script.encode(), capture_output=True, timeout=600
    )
    assert (ended.returncode, ended.stderr) == (0, b""), ended
    return ended.stdout


@unittest.skipUnless(NODE, "nodejs is not installed")
class Node(unittest.TestCase):
    def test_the_vector(self):
        self.assertEqual(sent_under_node((LINE, PLACE, 4)), BODY)

    def test_the_longest_ballot_is_as_long_as_the_shortest(self):
        """Of one question and of as many as there can be; and the host takes it."""
        for options, questions in ((2, 1), (10, 1), (32, 1), (2, 2), (32, len(LABELS))):
            several = LABELS[:questions] if questions > 1 else ""
            size = options * questions + len(several)
            ballots = []
            for name, rank in (("a", "-"), ("a" * 32, "32")):
                ranks = ",".join([rank] * options)
                line = " ".join([name, *(f"{label} {ranks}" for label in several)])
                link = personal_link(vector.KEY, name, "2" * 10)
                ballots.append((line if several else f"{name} {ranks}", link, size))
            lengths = {*map(len, sent_under_node(*ballots, tries=1).splitlines()[1::2])}
            self.assertEqual(lengths, {4 * (65 + 3 * (42 + size) + 16) // 3}, (options, questions))
            self.assertLess(max(lengths), 3_800)


@NEEDS_PHP
@NEEDS_RULES
@unittest.skipUnless(NODE, "nodejs is not installed")
@pytest.mark.whole
class Rules(BoxTest):
    def test_a_firewall_refuses_no_ballot_and_no_asking(self):
        bodies = sent_under_node(("ada 1,2,3,4", place_of("ada"), 4), presses=500).split(b"box=")[
            1:
        ]
        browser = {"User_Agent": "Mozilla/5.0", "Accept": "*/*", "Content_Type": KIND}
        host = self.host()
        for level in (1, 2):
            with behind_rules(host, level):
                words = [host.send(b"box=" + body, **browser).word for body in bodies]
                self.assertEqual(collections.Counter(words), {"received": 20, "many:": 480})
                for _ in range(50):
                    ask(host.at, vector.MARK, WORD)


class Fails(RealBoxTest):
    def test_a_browser_that_fails_at_any_call(self):
        """Later or at once: nothing was sent, and the form is free."""
        count = """(() => { window.calls = [];
          for (const name of Object.getOwnPropertyNames(SubtleCrypto.prototype)) if (name !== "constructor") {
            const true_one = crypto.subtle[name].bind(crypto.subtle);
            crypto.subtle[name] = (...given) => {
              calls.push(name);
              return calls.length === window.failing ? window.failed() : true_one(...given);
            };
          } })()"""
        self.visit(self.host)
        self.ask(count)
        self.choose("1234")
        self.demand_arrived()
        calls = self.ask("calls.slice(0, calls.indexOf('encrypt') + 1)")
        steps = "digest generateKey exportKey importKey deriveBits deriveKey encrypt"
        self.assertEqual({*calls}, {*steps.split()})
        self.choose("4321")
        for failed in ("Promise.reject(new DOMException('x'))", "{ throw new Error('x') }"):
            for number, name in enumerate(calls, start=1):
                with self.subTest(failed=failed, call=f"{number}: {name}"):
                    self.ask(f"calls.length = 0; failing = {number}; failed = () => {failed}; 0")
                    self.ask("document.getElementById('Sent').textContent = ''")
                    said = self.sent()
                    self.assertEqual(said, WORDS["unsealed"])
                    self.assert_state(said=said, seen=True, button=True, line="ada 4,3,2,1")
        self.assertEqual(len(self.records), 1)
        # pressed again where nothing fails, it goes
        self.ask("failing = 0")
        self.demand_arrived()
        self.assertEqual(self.lines, ["ada 1,2,3,4", "ada 4,3,2,1"])
        self.assertEqual(self.host.requests(), ["GET /", "POST /vote.php", "POST /vote.php"])


class Elsewhere(RealBoxTest):
    """A page that is not where it belongs."""

    def test_under_a_worker_at_the_root_of_its_host(self):
        """The page is in a folder of a web site that has a worker, which sees each page below
        it.
        """
        vote = self.folder / "vote"
        vote.mkdir()
        for name in ("index.html", "vote.php"):
            (self.folder / name).rename(vote / name)
        (self.folder / "index.html").write_text("<!doctype html><p>The club")
        # it takes over the pages that are open, and answers in place of the host
        (self.folder / "worker.js").write_text(
            "addEventListener('activate', (event) => event.waitUntil(clients.claim()));"
            "addEventListener('fetch', (event) => event.respondWith(new Response('received 2026-11-28T12:19:04Z\\n')));"
        )
        self.visit(self.host, f"vote/{PLACES['ada']}")
        self.assertTrue(self.choose("1234")["button"])
        # the page itself may not, but another page of the web site registers it while this one is
        # open
        self.in_another_tab(self.host.at, "navigator.serviceWorker.register('worker.js')")
        self.window.until("navigator.serviceWorker.controller !== null")
        self.press()
        self.assert_state(line="ada 1,2,3,4", worked=True)
        self.assertFalse(any(request.startswith("POST") for request in self.host.requests()))

    def in_another_tab(self, url: str, script: str):
        """Opens a page beside this one, and runs a script in it."""
        window, own = self.window, self.window.session
        window.session = None
        tab = window.tell("Target.createTarget", url=url, browserContextId=window.context)
        target = tab["targetId"]
        found = window.tell("Target.attachToTarget", targetId=target, flatten=True)
        window.session = found["sessionId"]
        window.until(f"document.readyState === 'complete' && location.href === '{url}'")
        window.ask(f"{script}.then(() => true)")
        window.session = None
        window.tell("Target.closeTarget", targetId=target)
        window.session = own

    def test_a_page_of_another_book_with_this_poll(self):
        """A rehearsal, whose page a browser kept, or that was uploaded: its ballots could never be
        opened.
        """
        other = bytes(range(1, 33))
        link = f"#{personal_link(other, 'ada', OWNS['ada'])}"
        for page_key, script_key, place in ((KEY, other, PLACES["ada"]), (other, KEY, link)):
            call = replace(CALL, box_key=page_key)
            (self.folder / "index.html").write_bytes(page_with_box(call=call))
            (self.folder / "vote.php").write_bytes(script_of(script_key, MARK, OWNS))
            self.visit(self.host, place)
            self.choose("1234")
            said = self.sent()
            self.assertEqual(said, WORDS["old"])
            self.assert_state(said=said, line="ada 1,2,3,4", seen=True, button=True)
        self.assertEqual([*self.folder.glob("box-*")], [])

    def test_a_copy_of_the_page_of_a_secret_vote_from_the_disk(self):
        """There is nothing to press, and the page says which link to open."""
        call = replace(SECRET, until=CALL.until, box_key=KEY)
        (self.folder / "index.html").write_bytes(page_with_box(call=call))
        for place in (PLACES["ada"], ""):
            self.window.tell("Page.navigate", url="about:blank")
            self.window.open(self.folder / "index.html", place)
            found = self.choose("1234")
            self.assertEqual((found["seen"], found["button"], found["fields"]), (False, False, 20))
            seen = "[...document.querySelectorAll('#Unlinked, #Missing')].filter((node) => node.checkVisibility())"
            said = self.ask(f"{seen}.map((node) => node.textContent).join(' ')")
            self.assertIn("open the link in your own letter", said)
