"""What the page of a vote with tellers seals, byte for byte, under node, which has no page."""

import base64
import itertools
import json
import re
import subprocess
import unittest
import urllib.parse

from debvote_tools.call.box import page_of
from debvote_tools.call.tellers import script_line
from debvote_tools.text.rendering import resources

from tests.python.call.test_tellers import FILES, KEY, MARK, OWN, POINTS
from tests.python.pages.test_page_seals import NODE
from tests.support import sealing, tellers
from tests.support.web_host import request_of

PLACE = "ada/23456789ab/3raku42w9zgfv5av"
TIME = "2026-12-01T12:00:00.000Z"
NUMBER = f"{1:032x}"
WORDS = {"sealed_to": "{name} {fingerprint}", "number": "{number}", "perhaps": "? {number}"}
STATES = ["sending", "received", "late", "changed", "unsure", "over", "lost", "unsealed"]

# what the scripts find of a page and a browser; the own keys are those of the vectors, in their order
AROUND = """
const nodes = new Map(), pressed = [], kept = [];
const made = (id) => ({ id, appendChild: (node) => (kept.push(node), node), addEventListener: (_, call) => pressed.push(call) });
const node = (id) => nodes.get(id) ?? nodes.set(id, made(id)).get(id);
const document = { getElementById: node, createElement: made, documentElement: { lang: "en" } };
const location = { protocol: "https:" }, isSecureContext = true, navigator = {};
const placeNamed = () => PLACE, addEventListener = () => {};
const MutationObserver = class { observe() {} };
const bodies = [];
const fetch = async (_, { body }) => { bodies.push(body); return { status: 200, text: async () => "received 2026-12-01T12:00:01Z" }; };
node("Line").textContent = LINE;
node("Ballot").dataset = DATA;
node("Ballot").querySelectorAll = (which) => Array(which.includes(".option") ? OPTIONS : 0).fill({});
const how = { name: "ECDH", namedCurve: "P-256" };
crypto.subtle.generateKey = async (_, isTold) => {
  const own = OWNS[1] ? OWNS.shift() : OWNS[0];
  return {
    publicKey: await crypto.subtle.importKey("jwk", { ...own, d: undefined }, how, true, []),
    privateKey: await crypto.subtle.importKey("jwk", own, how, isTold, ["deriveBits"]),
  };
};
// the digest of the first teller is there last
const digest = crypto.subtle.digest.bind(crypto.subtle);
let before = new Promise((done) => setTimeout(done, 5));
crypto.subtle.digest = async (...given) => {
  const wait = before;
  before = null;
  await wait;
  return digest(...given);
};
crypto.getRandomValues = (bytes) => bytes.map((byte, place) => (bytes[place] = bytes.length === 16 ? Number(place === 15) : 10));
Date.prototype.toISOString = () => TIME;
"""


def own_key(number: int) -> dict[str, str]:
    point = sealing.point_of(number)
    parts = {"x": point[1:33], "y": point[33:], "d": number.to_bytes(32)}
    coded = {
        name: base64.urlsafe_b64encode(part).decode().rstrip("=") for name, part in parts.items()
    }
    return {"kty": "EC", "crv": "P-256"} | coded


def sealed_under_node(*ballots: tuple[str, str], options: int = 4) -> list[dict[str, object]]:
    """What the page sends of each line, beside a line that names the tellers, and shows of it."""
    data = {
        "box": "vote.php",
        "until": "",
        "words": json.dumps(WORDS | dict.fromkeys(STATES, "")),
        "mark": MARK,
        "page": page_of(KEY, MARK),
        "seal": sealing.key_pair(KEY, MARK)[0],
    }
    scripts = resources("debvote_tools.call", "bytes.js", "sealing.js", "layers.js", "box.js")
    # with one number for all tries, none passes a firewall that refuses the first
    scripts = scripts.replace("tries = 500", "tries = 2")
    end = """await pressed[0]();
      while (kept.some((node) => !node.textContent)) await new Promise((done) => setTimeout(done, 1));
      found.push({ bodies, kept: kept.map((node) => node.textContent), number: node("Number").textContent, href: node("File").href, hidden: node("Numbered").hidden });
    """
    runs = ""
    for line, named in ballots:
        values = {
            "PLACE": PLACE,
            "LINE": line,
            "DATA": data,
            "OPTIONS": options,
            "OWNS": [*map(own_key, (3, 4, 2))],
            "TIME": TIME,
        }
        constants = "".join(f"const {name} = {json.dumps(one)};\n" for name, one in values.items())
        runs += f"await (async () => {{ {constants}{AROUND}{named}\n{scripts}{end} }})();\n"
    script = f"(async () => {{ const found = []; {runs} console.log(JSON.stringify(found)); }})();"
    how = {"input": script.encode(), "capture_output": True, "timeout": 600}
    ended = subprocess.run([str(NODE), "-"], **how)  # type: ignore[call-overload]
    assert (ended.returncode, ended.stderr) == (0, b""), ended
    found: list[dict[str, object]] = json.loads(ended.stdout)
    return found


@unittest.skipUnless(NODE, "nodejs is not installed")
class Layers(unittest.TestCase):
    def test_the_vectors(self):
        # ranks that are no normal form say the same order
        line = script_line(POINTS)
        for found in sealed_under_node(("ada 2,1,3,-", line), ("ada 12,7,32,-", line)):
            head = f"box={page_of(KEY, MARK)} {sealing.proof_of(MARK, PLACE)} {NUMBER}"
            body = request_of(head, FILES["record"].strip()).decode()
            self.assertEqual(found["bodies"], [body])
            self.assertEqual((found["number"], found["hidden"]), ("cccccccc", False))
            file = urllib.parse.unquote(str(found["href"]).partition(",")[2])
            self.assertEqual(file, OWN)
            self.assertEqual(
                found["kept"], ["carla bf6e-3480-d3f0-5753", "dora e843-5051-d2bd-ab7e"]
            )

    def test_all_numbers_of_options_and_tellers_have_one_length(self):
        for count, options in itertools.product((2, 3), (2, 33)):
            line = script_line(tellers.points(count))
            texts = [f"ada {','.join([rank] * (options - 1) + ['1'])}" for rank in ("-", "32")]
            found = sealed_under_node(*((text, line) for text in texts), options=options)
            [one], [other] = (sent["bodies"] for sent in found)  # type: ignore[misc]
            self.assertNotIn("=", one.partition("\n")[2] + other.partition("\n")[2])
            self.assertEqual(len(one), len(other), (count, options))

    def test_by_another_line_nothing_is_sealed(self):
        line = script_line(POINTS)
        names = re.findall(r"[a-z]+ [\w-]{87}", line)
        others = (
            "",
            f'const TELLERS = "{names[0]}";',
            f'const TELLERS = "{" ".join([*names, *names])}";',
            line.replace("carla ", "Carla "),
            line.replace('";', ' ";'),
            line.replace('";', ' x";'),
            line.replace("carla B", "carla A"),
        )
        sent = [
            found["bodies"]
            for found in sealed_under_node(*(("ada 2,1,3,-", one) for one in others))
        ]
        self.assertEqual(sent, [[]] * len(others))
