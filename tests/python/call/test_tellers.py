"""Layers, lists and signatures of a vote with tellers, by vectors that were made elsewhere, and what is no list of theirs."""

import contextlib
import hashlib
import pathlib
import re
import subprocess
import tempfile
import unittest

import pytest

pytest.importorskip("cryptography", reason="python3-cryptography is not installed")

from debvote_tools.call import lists
from debvote_tools.call.box import third_part
from debvote_tools.call.sealed_ballots import block_of, key_pair
from debvote_tools.call.tellers import fingerprint, has_right_block, places_for
from debvote_tools.poll.sealed import SealedPoll
from debvote_tools.text.rendering import resources

from tests.support import tellers
from tests.support.program import ROOT

PARTS = re.split(
    r"^== (\S+)\n", pathlib.Path(__file__).with_name("tellers-vectors.txt").read_text(), flags=re.M
)
FILES = dict(zip(PARTS[1::2], PARTS[2::2]))
LISTS = [FILES[f"list-{step}.txt"].encode() for step in range(3)]
OWN = FILES["my-ballot.txt"]
MARK, KEY = "1ac5041b936c7fc1", bytes(range(32))
POINTS = tellers.points()
POLL = SealedPoll("T", ("a", "b", "c"), (1, 1, 1), "d", 0, places_for(12))


def read(*data: bytes) -> list[lists.List]:
    return [lists.read_list(f"list-{step}.txt", one) for step, one in enumerate(data)]


def changed(data: bytes, old: str, new: str, count: int = 1) -> bytes:
    assert old.encode() in data, old
    return data.replace(old.encode(), new.encode(), count)


class Vectors(unittest.TestCase):
    def test_fingerprints(self):
        prints = {name: fingerprint(point) for name, point in POINTS.items()}
        self.assertEqual(prints, {"carla": "bf6e-3480-d3f0-5753", "dora": "e843-5051-d2bd-ab7e"})

    def test_the_lists_are_what_tellers_make(self):
        lists.demand_lists(read(*LISTS), POINTS)
        for step in (1, 2):
            made = read(*LISTS[:step], tellers.opened(LISTS[step - 1], step))[step]
            self.assertEqual(made.body, read(*LISTS)[step].body)
        counts = [(len(one.ballots), len(one.refused)) for one in read(*LISTS)]
        self.assertEqual(counts, [(9, 0), (8, 1), (6, 2)])

    def test_the_record(self):
        inside = key_pair(KEY, MARK)[1](f"{1:032x}", FILES["record"].strip())
        line, link, time, block = inside.split("\n")
        self.assertEqual((line, time), ("ada 1,-,-", "2026-12-01T12:00:00.000Z"))
        self.assertEqual(link, f"ada/23456789ab/{third_part(KEY, 'ada', '23456789ab')}")
        self.assertEqual(block, OWN.split("\n")[1].split(" ")[1])
        self.assertEqual(len(block), lists.block_length(4, 2))
        length = len(FILES["record"].strip())
        self.assertTrue(has_right_block(POLL, 2, line, block, length))
        others = (2, "ada -,1,-", block), (3, line, block), (2, line, block[:-4]), (2, line, "")
        for count, other_line, other in others:
            self.assertFalse(has_right_block(POLL, count, other_line, other, length))
        self.assertFalse(has_right_block(POLL, 2, line, block, length + 4))

    def test_ones_own_ballot(self):
        said = lists.fate_of_ballot(OWN.encode(), read(*LISTS), POINTS)
        # the twin of its second layer came first, so its own first layer is refused, and it counts
        self.assertEqual(said, "Your ballot, cccccccc 2,1,3,-, is in all 3 lists.")

    def test_slips_are_sealed_as_clicks_are(self):
        for options, count in [*((options, 2) for options in range(2, 34)), (2, 3), (33, 3)]:
            points = tellers.points(count)
            line = f"zzzzzzzz {','.join(map(str, range(1, options + 1)))}"
            block = block_of(line, options, MARK, [*points.values()])
            self.assertEqual(len(block), lists.block_length(options, count))
            for step, name in enumerate(points, start=1):
                inside = tellers.inside_of(step, name, MARK, block)
                assert inside is not None
                block = lists.text_of(inside)
            self.assertEqual(inside, line.ljust(3 * (3 + options), "\n").encode())


class WhatIsNoList(unittest.TestCase):
    def refused(self, *data: bytes, words: str = "") -> None:
        with self.assertRaisesRegex(lists.Bad, words):
            lists.demand_lists(read(*data), POINTS)

    def test_each_line_out_doubled_or_exchanged(self):
        for step in range(3):
            lines = LISTS[step].decode().split("\n")[:-1]
            for at in range(len(lines)):
                for other in (
                    lines[:at] + lines[at + 1 :],
                    lines[: at + 1] + lines[at:],
                    [*lines[:at], *lines[at + 1 : at + 2], *lines[at : at + 1], *lines[at + 2 :]],
                ):
                    # the last line exchanged with none is as it was
                    if other != lines:
                        text = "".join(f"{line}\n" for line in other).encode()
                        self.refused(*LISTS[:step], text)

    def test_other_forms(self):
        first, second, last = LISTS
        body = read(*LISTS)[1].body.decode()
        low = second.decode().splitlines()[-1].removeprefix("signed ")
        point = POINTS["dora"]
        # the last sign of 65 bytes has four bits that say nothing: another one is another text
        odd = point[:-1] + chr(ord(point[-1]) + 1)
        cases = {
            "CRLF": first.replace(b"\n", b"\r\n"),
            "no end": first[:-1],
            "a line more": first + b"\n",
            "zero before count": changed(first, " 0 9 ", " 0 09 "),
            "another step": changed(first, " 0 9 ", " 1 9 "),
            "no title": changed(first, "title ", "Title "),
            "another base64": changed(first, point, odd),
            "a point off the curve": changed(first, point, "BAAA" + point[4:]),
            "a third of the same name": changed(
                first, f"teller dora {point}\n", f"teller carla {point}\n"
            ),
            "one teller": changed(first, f"teller dora {point}\n", ""),
        }
        for name, data in cases.items():
            with self.subTest(name):
                self.refused(data)
        high = tellers.signed(body, "carla", is_high=True).encode()
        self.refused(first, high, words="it is not signed by carla")
        self.refused(first, changed(second, low, low + "="), words="no list of a vote")
        self.refused(first, tellers.signed(body, "dora").encode(), words="not signed by carla")
        lists.demand_lists(read(first, tellers.signed(body, "carla").encode(), last), POINTS)

    def test_a_title_may_look_like_a_refused_block(self):
        first = changed(LISTS[0], "title Who keeps the cash box? Grüße", "title ! x")
        [this] = read(first)
        self.assertEqual((this.title, len(this.ballots), this.refused), ("! x", 9, []))

    def test_what_a_teller_may_not_hand_on(self):
        first, second = read(*LISTS)[:2]
        less = tellers.body_of(first, 1, [*second.ballots][1:], [*second.refused])
        strange = tellers.body_of(first, 1, [*second.ballots], [*second.ballots[:1]])
        # another list, of which one ballot is another one
        other = LISTS[0].decode().splitlines()
        other[4] = "BA" + other[5][2:-1] + "A"
        for body, words in (
            (less, "carla was given 9 ballots, and handed on 8"),
            (strange, "handed on 9"),
            (second.body.decode().replace(first.digest, "1" * 64), "was given another list-0.txt"),
        ):
            self.refused(LISTS[0], tellers.signed(body, "carla").encode(), words=words)
        rows = [f"{'2' * 7}{sign} 1,2,3,-" for sign in "2345678"] + ["22222229 1,3,-,-"]
        body = tellers.body_of(second, 2, rows, [])
        words = "dora has put into it what is no ballot"
        self.refused(*LISTS[:2], tellers.signed(body, "dora").encode(), words=words)
        with self.assertRaisesRegex(lists.Bad, "its tellers are not those of the call"):
            lists.demand_lists(read(LISTS[0]), dict(reversed(POINTS.items())))

    def test_bounds(self):
        sizes = {"box.js": 6_700, "layers.js": 3_500}
        for name, most in sizes.items():
            self.assertLessEqual(len(resources("debvote_tools.call", name).encode()), most)


class ListsProgram(unittest.TestCase):
    """`lists.py`, as a reader runs it in the folder of the result."""

    def setUp(self):
        self.folder = pathlib.Path(self.enterContext(tempfile.TemporaryDirectory()))
        for step, data in enumerate(LISTS):
            (self.folder / f"list-{step}.txt").write_bytes(data)
        (self.folder / "my-ballot.txt").write_text(OWN)
        (self.folder / "tellers.txt").write_text(tellers.tellers_file())
        rows = read(*LISTS)[2].ballots
        text = "".join(f"{n:02} {row.split(' ')[1]}\n" for n, row in enumerate(rows, start=1))
        (self.folder / "ballots.txt").write_text(text)

    def fault_of_lists(self, *words: str) -> str:
        """What it ends with, which is no status."""
        with contextlib.chdir(self.folder), self.assertRaises(SystemExit) as ended:
            lists.main(words)
        return str(ended.exception)

    def test_all_is_right(self):
        """By itself, without the rest of debvote."""
        words = ["/usr/bin/python3", "-I", ROOT / "python/debvote_tools/call/lists.py"]
        said = subprocess.check_output([*words, "my-ballot.txt"], cwd=self.folder, text=True)
        for data, counts in zip(LISTS, ("9 ballots, 0", "8 ballots, 1", "6 ballots, 2")):
            self.assertIn(f"{counts} refused; SHA-256 {hashlib.sha256(data).hexdigest()}", said)
        self.assertIn("is in all 3 lists", said)

    def test_who_lost_a_ballot(self):
        first = read(*LISTS)[0]
        own = OWN.split("\n")[2].split(" ")[1]
        kept = [one for one in read(*LISTS)[1].ballots if one != own]
        refused = [*read(*LISTS)[1].refused]
        # carla refuses both blocks that have it in them
        twin = next(
            block
            for block in first.ballots
            if block not in refused
            and tellers.inside_of(1, "carla", MARK, block) == lists.bytes_of(own)
        )
        body = tellers.body_of(first, 1, kept, sorted([*refused, twin]))
        (self.folder / "list-1.txt").write_text(tellers.signed(body, "carla"))
        (self.folder / "list-2.txt").unlink()
        said = "carla lost your ballot: lines 1 to 1 below the first of my-ballot.txt show it"
        self.assertEqual(self.fault_of_lists("my-ballot.txt"), f"list-1.txt: {said}")

    def test_what_proves_nothing(self):
        rows = OWN.split("\n")
        _, block, key = rows[1].split(" ")
        other_key = lists.text_of((9).to_bytes(32))
        left_out = block_of("cccccccc 2,1,3,-", 4, MARK, [*POINTS.values()])
        for old, new in (
            (key, other_key),
            (block, left_out),
            ("2,1,3,-", "1,2,3,-"),
            (MARK, "0" * 16),
        ):
            (self.folder / "my-ballot.txt").write_text(OWN.replace(old, new))
            said = self.fault_of_lists("my-ballot.txt")
            self.assertNotIn("lost your ballot", said)
            self.assertIn("my-ballot.txt: ", said)

    def test_other_files_beside_the_lists(self):
        for name, old, new, words in (
            ("ballots.txt", "01 2,1,3,-", "01 1,2,3,-", "it is not list-2.txt, line by line"),
            ("ballots.txt", "02 ", "07 ", "it is not list-2.txt, line by line, by places"),
            ("tellers.txt", "dora", "dana", "its tellers are not those of list-0.txt"),
        ):
            file = self.folder / name
            before = file.read_text()
            file.write_text(before.replace(old, new))
            self.assertIn(words, self.fault_of_lists())
            file.write_text(before)
        for step in range(3):
            (self.folder / f"list-{step}.txt").unlink()
        self.assertIn("type this in the folder with the lists", self.fault_of_lists())
