"""The ballots that the page of a vote seals to the secretary: the key pair of a poll, and opening.

In a vote with tellers the close seals slips on paper here, as a page seals clicks.

Both keys of a poll are made from the key of the box, so an old copy of the book opens all that
comes later. This and `lists.py` need Debian's python3-cryptography, so they are imported only where
a page is made, a record opened, or a list read.
"""

import base64
import functools
import hmac
from collections.abc import Callable, Sequence

from debvote_tools.cli.faults import Fault

try:
    from cryptography.exceptions import InvalidTag
    from cryptography.hazmat.primitives.asymmetric import ec

    # for who reads lists, too
    from debvote_tools.call import lists as lists
except ImportError:
    words = "this computer can seal and open no ballot"
    raise Fault("--box", words, "install python3-cryptography") from None


@functools.cache
def key_pair(key: bytes, mark: str) -> tuple[str, Callable[[str, str], str]]:
    """The public key of the poll with this mark, as its page has it, and what opens a text that was
    sealed to it for a number. This raises ValueError at all else, such as a point off the curve,
    another number, or a text that was changed.
    """
    # from more bits than it has (FIPS 186-5, A.2.1)
    number = int.from_bytes(hmac.digest(key, f"seal {mark}".encode(), "sha512"))
    private = ec.derive_private_key(number % (lists.ORDER - 1) + 1, lists.CURVE)
    public = lists.point_of(private)
    return base64.b64encode(public).decode(), functools.partial(opened, private, public, mark)


def opened(
    private: ec.EllipticCurvePrivateKey, public: bytes, mark: str, number: str, text: str
) -> str:
    data = base64.b64decode(text, b"-_", validate=True)
    # behind a shorter point, which may be compressed, is nothing that could be opened
    point = data[: lists.POINT]
    opening = lists.cipher(private, point, "debvote box 2", point, public)
    try:
        inside = opening.decrypt(lists.NONCE, data[lists.POINT :], f"{mark} {number}".encode())
    except InvalidTag:
        raise ValueError from None
    return inside.decode("ascii").rstrip("\n")


def block_of(line: str, options: int, mark: str, points: Sequence[str]) -> str:
    """A number with its ranks, sealed to the tellers with these points."""
    keys = [ec.generate_private_key(lists.CURVE) for _ in points]
    return lists.ballot_in_lists(line, options, mark, points, keys)[0]
