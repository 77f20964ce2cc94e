"""What the page seals the secretary alone opens: a vector, and what is refused."""

import base64
import runpy
import sys
import unittest
import unittest.mock

import pytest

pytest.importorskip("cryptography", reason="python3-cryptography is not installed")

from debvote_tools.call import sealed_ballots
from debvote_tools.call.box import personal_link, proof_digest
from debvote_tools.call.sealed_ballots import key_pair
from debvote_tools.cli.faults import Fault, Status

from tests.support import sealing

MARK, KEY = "1ac5041b936c7fc1", bytes(range(32))
LINK = "ada/23456789ab/3raku42w9zgfv5av"
NUMBER = f"{1:032x}"
INSIDE = f"ada 1,2,3,4\n{LINK}\n2026-12-01T12:00:00.000Z"
SEALED = (
    "BHzyexiNA09-ilI4AwS1GsPAiWnid_IbNaYLSPxHZpl4B3dVENuO0EApPZrGn3Qw27p9reY86YIpngS3nSJ4c9Gi-7eQNXsQRXfRVbvNrPTj3pLfsAEaJFsg078z"
    "2OetV8xS13nC1sWFHOavE2WOVAvUgnDXDyLx_wYKJDp5Wxj38E8VPQlFzpLc2s2SGJuEZ-c9d8NDOjoTHWHfTRardoXsAvcxzkXGtF3ACdQGLgGsUN-p57ff6Nol"
    "GWuBeqiV5qIrySJTf50wv3Bbg8yWtFZ9PuxpA5AlFbkI"
)


class Vector(unittest.TestCase):
    def test_keys_links_and_proofs(self):
        private = 0x3E79C501DDBB6D4149C9E06F9CC36D1937409A30F2CFD4CF0AC4C63CEB8E7217
        public = "BIG/lxi+PeveCqXJPpDXgvQieQ4fwn0e52ygBcZ4jXvfq5CEPH6TzFR6U3moAmTryRJjtef1g47DOtVoVCmsioQ="
        self.assertEqual(key_pair(KEY, MARK)[0], public)
        self.assertEqual(base64.b64encode(sealing.point_of(private)).decode(), public)
        self.assertEqual(personal_link(KEY, "ada", "23456789ab"), LINK)
        self.assertEqual(
            sealing.proof_of(MARK, LINK),
            "7fc11d37c41c92d9f0935e48802746f48d4e3e4e596863d19cdcd1ba4fce7630",
        )
        self.assertEqual(
            proof_digest(MARK, LINK),
            "5ba958a001e63f16d6ca5272b03ad1ef53a65d8810320ea413823df2067b591a",
        )

    def test_a_sealed_ballot(self):
        self.assertEqual(key_pair(KEY, MARK)[1](NUMBER, SEALED), INSIDE)
        # and the tests seal as the page does
        self.assertEqual(
            sealing.sealed(key_pair(KEY, MARK)[0], MARK, NUMBER, INSIDE, own=2), SEALED
        )

    def test_each_poll_and_each_book_has_keys_of_its_own(self):
        pairs = [(KEY, MARK), (KEY, "f" * 16), (b"x" * 32, MARK)]
        self.assertEqual(len({key_pair(*pair)[0] for pair in pairs}), 3)
        for pair in pairs[1:]:
            with self.assertRaises(ValueError):
                key_pair(*pair)[1](NUMBER, SEALED)


class Refused(unittest.TestCase):
    def test_what_is_not_as_the_page_sealed_it(self):
        data = base64.urlsafe_b64decode(SEALED)
        self.assertEqual(len(data) % 3, 0)
        point, rest = data[:65], data[65:]
        compressed = bytes([2 + point[64] % 2]) + point[1:33]
        changed = [
            # another point, one off the curve, and that at infinity
            sealing.point_of(3) + rest,
            point[:64] + bytes([point[64] ^ 1]) + rest,
            bytes(1) + rest,
            bytes(65) + rest,
            # a compressed one
            compressed + rest,
            compressed + bytes(32) + rest,
            # a cut tag, none, half a point, nothing, and more
            data[:-3],
            point,
            point[:33],
            b"",
            data + bytes(3),
        ]
        for place in (0, 30, 64, 65, 100, len(data) - 1):
            changed.append(data[:place] + bytes([data[place] ^ 4]) + data[place + 1 :])
        texts = [base64.urlsafe_b64encode(one).decode() for one in changed]
        texts += [SEALED[:-1] + end for end in ("+", "", "\u00b9")]
        public, opened = key_pair(KEY, MARK)
        # what is not ASCII within
        texts.append(sealing.sealed(public, MARK, NUMBER, INSIDE.replace("1,2", "\u00b9,2")))
        for number, text in [*((NUMBER, text) for text in texts), (f"{2:032x}", SEALED)]:
            with self.subTest(text), self.assertRaises(ValueError):
                opened(number, text)

    def test_a_computer_without_the_library(self):
        with unittest.mock.patch.dict(sys.modules, {"cryptography.exceptions": None}):
            with self.assertRaises(Fault) as caught:
                runpy.run_path(str(sealed_ballots.__file__))
        self.assertEqual(caught.exception.status, Status.DOUBT)
        self.assertIn("install python3-cryptography", caught.exception.words)
