"""Tellers who open lists as their page does, by private keys that are small numbers."""

import hashlib

import pytest

pytest.importorskip("cryptography", reason="python3-cryptography is not installed")

from cryptography.exceptions import InvalidTag
from cryptography.hazmat.primitives.asymmetric import ec
from cryptography.hazmat.primitives.asymmetric.utils import decode_dss_signature
from cryptography.hazmat.primitives.hashes import SHA256

from debvote_tools.call.lists import (
    CURVE,
    NONCE,
    ORDER,
    POINT,
    List,
    bytes_of,
    cipher,
    is_opened,
    point_of,
    read_list,
    text_of,
)

# the private keys of tellers, by their names in the order in which they open
KEYS = {"carla": 5, "dora": 6, "emil": 7}


def private_key(number: int) -> ec.EllipticCurvePrivateKey:
    return ec.derive_private_key(number, CURVE)


def points(count: int = 2) -> dict[str, str]:
    return {name: text_of(point_of(private_key(key))) for name, key in [*KEYS.items()][:count]}


def tellers_file(count: int = 2) -> str:
    return "".join(f"{name} {point}\n" for name, point in points(count).items())


def list_name(step: int) -> str:
    return f"list-{step}.txt"


def inside_of(step: int, name: str, mark: str, block: str) -> bytes | None:
    """What a teller finds in a block; None if it does not open."""
    data = bytes_of(block)
    own, to = data[:POINT], bytes_of(points(3)[name])
    try:
        opening = cipher(private_key(KEYS[name]), own, f"debvote teller {step}", own, to)
        return opening.decrypt(NONCE, data[POINT:], mark.encode())
    except (ValueError, InvalidTag):
        return None


def signed(body: str, name: str, *, is_high: bool = False) -> str:
    """A list with the signature of a teller; each time another one."""
    r, s = decode_dss_signature(private_key(KEYS[name]).sign(body.encode(), ec.ECDSA(SHA256())))
    low = min(s, ORDER - s)
    s = ORDER - low if is_high else low
    return f"{body}signed {text_of(r.to_bytes(32) + s.to_bytes(32))}\n"


def line_of(inside: bytes | None, is_last: bool, options: int) -> str | None:
    """What the list has of it; None if it is no ballot."""
    if inside is None or not is_last:
        return None if inside is None else text_of(inside)
    line = inside.decode("latin-1").rstrip("\n")
    is_right = is_opened(line, options) and len(inside) == 3 * (3 + options)
    return line if is_right else None


def opened(data: bytes, step: int, count: int = 2, options: int = 4) -> bytes:
    """The list that the teller of a step makes of the one before."""
    before = read_list(list_name(step - 1), data)
    name = [*KEYS][step - 1]
    ballots, refused = list[str](), list[str]()
    for block in before.ballots:
        line = line_of(inside_of(step, name, before.mark, block), step == count, options)
        is_refused = line is None or line in ballots
        (refused if is_refused else ballots).append(block if is_refused else str(line))
    return signed(body_of(before, step, ballots, refused), name).encode()


def body_of(before: List, step: int, ballots: list[str], refused: list[str]) -> str:
    head = f"debvote urn 1 {before.mark} {step} {len(ballots)} {hashlib.sha256(before.body).hexdigest()}"
    return "".join(
        f"{line}\n" for line in (head, *sorted(ballots), *(f"! {one}" for one in refused))
    )


def sha256(data: bytes) -> str:
    return hashlib.sha256(data).hexdigest()
