"""Seals a ballot as the page of a vote does, each time with the same own key.

Where python3-cryptography is not installed, the modules of tests that import this are skipped.
"""

import base64
import datetime
import hashlib
import re

import pytest

pytest.importorskip("cryptography", reason="python3-cryptography is not installed")

from cryptography.hazmat.primitives import hashes, serialization
from cryptography.hazmat.primitives.asymmetric import ec
from cryptography.hazmat.primitives.ciphers.aead import AESGCM
from cryptography.hazmat.primitives.kdf.hkdf import HKDF

from debvote_tools.call.box import proof_digest
from debvote_tools.call.lists import ORDER
from debvote_tools.call.sealed_ballots import key_pair
from debvote_tools.files import sha256_of

CURVE = ec.SECP256R1()
# of a ballot on four options
LENGTH = 138


def point_of(number: int) -> bytes:
    """The public point of a private key, as bytes."""
    return bytes_of(ec.derive_private_key(number, CURVE))


def bytes_of(private: ec.EllipticCurvePrivateKey) -> bytes:
    how = serialization.Encoding.X962, serialization.PublicFormat.UncompressedPoint
    return private.public_key().public_bytes(*how)


def proof_of(mark: str, link: str) -> str:
    """What a page sends of a personal link."""
    return sha256_of(f"{mark} {link}".encode())


def sealed(public_key: str, mark: str, number: str, text: str, own: int = 0) -> str:
    """A text that is sealed to a public key, by the private key `own` or one that the text makes. A
    longer one than a ballot on four options has another length.
    """
    public, data = base64.b64decode(public_key), text.ljust(LENGTH, "\n").encode()
    data += b"\n" * (-len(data) % 3)
    seed = int.from_bytes(hashlib.sha512(f"{number} {text}".encode("utf-8", "replace")).digest())
    private = ec.derive_private_key(own or seed % (ORDER - 1) + 1, CURVE)
    point = bytes_of(private)
    shared = private.exchange(
        ec.ECDH(), ec.EllipticCurvePublicKey.from_encoded_point(CURVE, public)
    )
    key = HKDF(hashes.SHA256(), 32, None, b"debvote box 2\n" + point + public).derive(shared)
    data = AESGCM(key).encrypt(bytes(12), data, f"{mark} {number}".encode())
    return base64.urlsafe_b64encode(point + data).decode().rstrip("=")


def inside(line: str, link: str, sent: str) -> str:
    """What is sealed of a ballot that was sent at this time by the device."""
    return f"{line}\n{link}\n{sent}\n"


def record(mark: str, link: str, number: int, time_: str, text: str) -> str:
    """The record of what was sealed, as the host keeps it if it arrived at this time, as INSIDE has it."""
    when = datetime.datetime.fromisoformat(time_)
    return (
        f"From box@page.invalid {when:%a %b %d %H:%M:%S %Y}\n"
        f"Received: by box; {when:%a, %d %b %Y %H:%M:%S} +0000\n"
        f"X-Proof: {proof_digest(mark, link)}\n"
        f"From: box@page.invalid\nSubject: [{mark}]\n"
        f"Message-ID: <{number:032x}@page.invalid>\n\n{text}\n-- \n\n"
    )


def line_in(key: bytes, record: str) -> str:
    """The line that is sealed in a record; what can't be opened is told as it is."""
    [(mark, number)] = re.findall(r"\[(\w{16})\]\nMessage-ID: <(\w{32})@", record)
    text = record.partition("\n\n")[2].partition("\n")[0]
    try:
        return key_pair(key, mark)[1](number, text).partition("\n")[0]
    except ValueError:
        return text
