"""What the book tells the web host of a vote with a box: no secret, and always the same."""

import hashlib
import hmac
import itertools
import math
import re
import unittest
import unittest.mock

from debvote_tools.call.box import (
    SCRIPT,
    SECRET_SENTENCES,
    SENTENCES,
    asking_word,
    key_of,
    list_digest,
    page_of,
    records_file,
    script_address,
    script_of,
    third_part,
    without_links,
)
from debvote_tools.cli.faults import Fault
from debvote_tools.inbox.box_records import MOST
from debvote_tools.poll.sealed import OWN_LENGTH, OWN_SIGNS, new_own_mark

MARK, KEY = "1ac5041b936c7fc1", bytes(range(32))
OWNS = {"ada": "23456789ab", "ben-lee": "3456789abc", "m.12": "456789abcd"}


def by_hand(key: bytes, name: str, own: str) -> str:
    """The link, as the rule says it: the digits of the number to the base 31, the last first."""
    number, signs = int(hmac.new(key, f"{name} {own}".encode(), hashlib.sha256).hexdigest(), 16), ""
    while len(signs) < 16:
        signs += OWN_SIGNS[number % 31]
        number //= 31
    return signs


class Links(unittest.TestCase):
    def test_a_link_has_79_bits_and_each_of_key_name_and_own_mark_makes_a_new_one(self):
        self.assertEqual((len(OWN_SIGNS), math.floor(16 * math.log2(len(OWN_SIGNS)))), (31, 79))
        others = {**OWNS, "ada-lee": "23456789ab", "ada2": "3456789ab2"}
        made = itertools.product((KEY, b"x" * 32), others.items())
        links = [third_part(key, name, own) for key, (name, own) in made]
        links += [third_part(KEY, "ada", "z" * OWN_LENGTH), third_part(KEY, "ben-lee", OWNS["ada"])]
        self.assertEqual(len({*links}), len(links))
        for link in links:
            self.assertRegex(link, rf"\A[{OWN_SIGNS}]{{16}}\Z")
        for one in others.items():
            self.assertEqual(third_part(KEY, *one), by_hand(KEY, *one))
        # each sign comes in each place
        many = [third_part(KEY, "ada", new_own_mark()) for _ in range(2_000)]
        self.assertEqual({len({*signs}) for signs in zip(*many)}, {len(OWN_SIGNS)})

    def test_the_word_and_the_key(self):
        self.assertEqual(asking_word(KEY), hmac.new(KEY, b"ask", hashlib.sha256).hexdigest())
        books = [unittest.mock.Mock(**{"value.return_value": b""}) for _ in range(9)]
        keys = {key_of(book) for book in books}
        self.assertEqual((len(keys), {len(key) for key in keys}), (9, {32}))
        # what the page and the script have of a new one is of the one that is sealed
        self.assertEqual({key_of(book) for book in books}, keys)
        self.assertEqual(key_of(unittest.mock.Mock(**{"value.return_value": KEY})), KEY)
        name = hashlib.sha256(asking_word(KEY).encode()).hexdigest()[:32]
        self.assertEqual(records_file(KEY), f"box-{name}.php")
        # what a page posts is of its poll and its book
        digest = hashlib.sha256(hmac.digest(KEY, f"page {MARK}".encode(), "sha256")).hexdigest()
        self.assertEqual(page_of(KEY, MARK), digest[:16])

    def test_what_may_be_a_link_is_left_out_where_the_book_can_not_be_read(self):
        damaged = Fault(None, "the book is damaged", "restore it")
        book = unittest.mock.Mock(**{"value.side_effect": damaged, "rows.side_effect": damaged})
        said = f"[{MARK}] {{}} {OWNS['ada']}"
        link = third_part(KEY, "ada", OWNS["ada"])
        self.assertEqual(without_links(book, said.format(link)), said.format(".."))


class Words(unittest.TestCase):
    def test_what_the_page_says_of_each_answer(self):
        """Who reads that a ballot was not taken does not send it again, and who reads that it
        arrived waits.
        """
        for word, begin in {
            "received": "It has arrived, sent {time}. The secretary fetches it, and you get a receipt by e-mail that names this time, ",
            "late": "It has arrived, sent {time}, after {end}, the end that this page knows. If the vote was extended it may still count",
            "changed": "The choice has been changed, and is not sent yet.",
            "old": "It was not taken: this page is an older one. Load it again. If this comes again, answer your newest letter.",
            "unknown": "It was not taken: this page does not know your link. Open the newest letter",
            "many": "It was not taken: too many ballots came by your link. Send your ballot by e-mail.",
            "lost": "It was not taken. Send your ballot by e-mail.",
            "unsure": "Nobody knows whether it has arrived. Press the button again: it counts once.",
            "unsealed": "This browser can't seal a ballot. Open the link in another one.",
        }.items():
            self.assertTrue(SENTENCES[word].startswith(begin), word)
        # nobody is asked to send a secret ballot by e-mail, or told that a receipt says what is in
        # it
        for word, said in (SENTENCES | SECRET_SENTENCES).items():
            for part in ("your ballot by e-mail", "how it was read", "answer your"):
                self.assertNotIn(part, said, word)


class Scripts(unittest.TestCase):
    def test_the_same_book_makes_the_same_bytes_and_anything_new_makes_others(self):
        script = script_of(KEY, MARK, OWNS)
        self.assertEqual(script_of(KEY, MARK, dict(OWNS)), script)
        scripts = [
            script,
            script_of(b"x" * 32, MARK, OWNS),
            script_of(KEY, "f" * 16, OWNS),
            script_of(KEY, MARK, OWNS | {"ada": "zzzzzzzzzz"}),
            script_of(KEY, MARK, {"ada": OWNS["ada"]}),
            script_of(KEY, MARK, {}),
        ]
        self.assertEqual((len({*scripts}), len({*map(list_digest, scripts)})), (6, 6))

    def test_what_is_below_the_code(self):
        script = script_of(KEY, MARK, OWNS)
        _, _, lines = script.decode("ascii").rpartition("__halt_compiler();\n")
        self.assertEqual(list_digest(script), hashlib.sha256(lines.encode()).hexdigest())
        rows = [line.split(" ") for line in lines.removesuffix("\n").split("\n")]
        word = hashlib.sha256(asking_word(KEY).encode()).hexdigest()
        places = (f"{name}/{own}/{by_hand(KEY, name, own)}" for name, own in OWNS.items())
        proofs = (hashlib.sha256(f"{MARK} {place}".encode()).hexdigest() for place in places)
        wanted = sorted(hashlib.sha256(proof.encode()).hexdigest() for proof in proofs)
        self.assertEqual(rows, [[MARK, word, page_of(KEY, MARK)], *([one] for one in wanted)])
        # no secret is in it, in no form, nor a name
        links = [third_part(KEY, *one) for one in OWNS.items()]
        secrets = [KEY.hex(), asking_word(KEY), *OWNS.values(), *links, "ben-lee", "m.12"]
        for secret in (KEY, *map(str.encode, secrets)):
            self.assertNotIn(secret, script)

    def test_as_many_records_of_a_link_are_kept_as_the_script_takes(self):
        """More would be acknowledged, and passed over."""
        found = re.search(rb"PER_LINK = (\d+),", script_of(KEY, MARK, OWNS))
        self.assertEqual(found and int(found[1]), MOST)

    def test_it_lies_beside_the_page(self):
        for at, address in {
            "https://club.example/vote/": "https://club.example/vote/vote.php",
            "https://club.example/vote/2026.html": "https://club.example/vote/vote.php",
            "https://club.example/": "https://club.example/vote.php",
            "http://127.0.0.1:8080/": "http://127.0.0.1:8080/vote.php",
            "http://localhost/a.html": "http://localhost/vote.php",
            "http://[::1]:80/": "http://[::1]:80/vote.php",
        }.items():
            self.assertEqual(script_address(at), address)
        club = "https://club.example"
        for at in (None, club, f"{club}/vote", "http://club.example/", f"{club}/?a=/"):
            with self.assertRaises(Fault) as caught:
                script_address(at)
            self.assertRegex(caught.exception.words, re.escape("--box: ") + ".*https")
        self.assertEqual(SCRIPT, "vote.php")
