#!/usr/bin/env python3
"""Checks the lists of a vote with tellers: python3 -I lists.py [my-ballot.txt], where they lie.

The lists begin with list-0.txt; `tellers.txt` and `ballots.txt` are compared with them if they are
there. With the file that your page of the vote saved it says whether your ballot is in each list,
or which teller lost it. It needs python3-cryptography, and nothing else.
"""

import base64
import hashlib
import pathlib
import re
import sys
from collections.abc import Iterator, Mapping, Sequence
from typing import NamedTuple

from cryptography.exceptions import InvalidSignature
from cryptography.hazmat.primitives.asymmetric import ec
from cryptography.hazmat.primitives.asymmetric.utils import encode_dss_signature
from cryptography.hazmat.primitives.ciphers.aead import AESGCM
from cryptography.hazmat.primitives.hashes import SHA256
from cryptography.hazmat.primitives.kdf.hkdf import HKDF
from cryptography.hazmat.primitives.serialization import Encoding, PublicFormat

CURVE = ec.SECP256R1()
# the order of its group (SP 800-186, 3.2.1.3); in bytes, an uncompressed point
ORDER = 0xFFFFFFFF00000000FFFFFFFFFFFFFFFFBCE6FAADA7179E84F3B9CAC2FC632551
POINT = 65
# each key seals once
NONCE = bytes(12)

RANK = "(?:-|[1-9][0-9]?)"
OPENED = re.compile(rf"[2-9a-hj-km-np-z]{{8}} ({RANK}(?:,{RANK})+)")
TELLERS = re.compile(r"(?:[a-z0-9.-]{1,32} [\w-]{87}\n){2,3}", re.ASCII)
# what is signed of a list: its head, in list 0 title and tellers, the ballots, and in others the
# blocks of the list before that the teller refused; and the signature, which list 0 has not
LIST = re.compile(
    r"(debvote urn 1 ([0-9a-f]{16}) ((0)|[1-3]) (0|[1-9][0-9]{0,5}) ((?(4)0|(?!0{64})[0-9a-f]){64})\n"
    r"(?(4)title ([^\r\n]*)\n((?:teller [^\r\n]+\n)+))((?:[\w-]+\n|\w{8} [\d,-]+\n)*)"
    r"(?(4)|((?:! [\w-]+\n)*)))(?(4)|signed ([\w-]+)\n)",
    re.ASCII,
)
OTHER_TELLERS = "its tellers are not those of the call"
OWN = re.compile(r"debvote ballot 1 ([0-9a-f]{16})\n((?:[1-3] [\w-]+ [\w-]+\n){2,3})([^\n]+)\n")


class Bad(ValueError):
    """What something is wrong with, and what that is."""


def demand(is_right: bool, where: str, words: str) -> None:
    if not is_right:
        raise Bad(where, words)


# ---- points, layers and signatures
def text_of(data: bytes) -> str:
    return base64.urlsafe_b64encode(data).rstrip(b"=").decode()


def bytes_of(text: str) -> bytes:
    """Raises ValueError at a text that is not the one for these bytes: by another one a ballot
    would be there twice.
    """
    data = base64.urlsafe_b64decode(f"{text}==")
    if text_of(data) != text:
        raise ValueError
    return data


def public_key(point: bytes) -> ec.EllipticCurvePublicKey:
    """Of 65 bytes. Raises ValueError at a point off the curve, at infinity or compressed."""
    return ec.EllipticCurvePublicKey.from_encoded_point(CURVE, point)


def point_of(private: ec.EllipticCurvePrivateKey) -> bytes:
    return private.public_key().public_bytes(Encoding.X962, PublicFormat.UncompressedPoint)


def cipher(
    private: ec.EllipticCurvePrivateKey, other: bytes, purpose: str, own: bytes, to: bytes
) -> AESGCM:
    """What seals, and opens, by one of two private keys and the point of the other one; `own` is
    the point that was made for this text, `to` that to which it is sealed.
    """
    secret = private.exchange(ec.ECDH(), public_key(other))
    return AESGCM(HKDF(SHA256(), 32, None, f"{purpose}\n".encode() + own + to).derive(secret))


def ballot_in_lists(
    line: str,
    options: int,
    mark: str,
    points: Sequence[str],
    keys: Sequence[ec.EllipticCurvePrivateKey],
) -> list[str]:
    """A number with its ranks as each list has it: the last one as it is, the one before sealed to
    the last teller, and so on, by private keys of which each seals nothing else. All ballots of a
    list have one length.
    """
    inside = line.ljust(3 * (3 + options), "\n").encode()
    ballots = [line]
    steps = enumerate(zip(points, keys, strict=True), start=1)
    for step, (point, private) in reversed([*steps]):
        own = point_of(private)
        to = bytes_of(point)
        sealing = cipher(private, to, f"debvote teller {step}", own, to)
        inside = own + sealing.encrypt(NONCE, inside, mark.encode())
        ballots.insert(0, text_of(inside))
    return ballots


def block_length(options: int, tellers: int) -> int:
    """In signs, of what is sealed to so many tellers."""
    return 4 * (3 + options + 27 * tellers)


# ---- lists
class List(NamedTuple):
    """A list as it was read; title and tellers the first one alone has, a signature the others."""

    name: str
    data: bytes
    mark: str
    step: int
    before: str
    title: str
    tellers: Mapping[str, str]
    ballots: Sequence[str]
    refused: Sequence[str]
    signature: str
    # what the signature covers: of the first list all
    body: bytes

    @property
    def digest(self) -> str:
        return hashlib.sha256(self.body).hexdigest()

    def is_signed_by(self, point: str) -> bool:
        """Whether its signature is that of this teller, in the one form in which it is taken."""
        try:
            data = bytes_of(self.signature)
            r, s = (int.from_bytes(half) for half in (data[:32], data[32:]))
            signed = encode_dss_signature(r, s)
            public_key(bytes_of(point)).verify(signed, self.body, ec.ECDSA(SHA256()))
        except (ValueError, InvalidSignature):
            return False
        return len(data) == 64 and s <= (ORDER - 1) // 2


def tellers_in(text: str) -> dict[str, str]:
    """The points of the tellers by their names, in the order in which they open. Raises ValueError
    at another number of them, one who is there twice, and a point that is none.
    """
    words = text.split()
    if len({*words}) < len(words) or not TELLERS.fullmatch(text):
        raise ValueError
    points = words[1::2]
    for point in points:
        public_key(bytes_of(point))
    return dict(zip(words[::2], points))


def read_list(name: str, data: bytes) -> List:
    """Raises `Bad` at what is no list, whatever list it follows."""
    try:
        if not (found := LIST.fullmatch(data.decode())):
            raise ValueError
        body, mark, step, _, count, before, title, rows, *lines, signature = found.groups("")
        ballots, refused = (text.replace("! ", "").splitlines() for text in lines)
        are_sorted = all(sorted({*part}) == part for part in (ballots, refused))
        if len(ballots) != int(count) or not are_sorted:
            raise ValueError
        tellers = tellers_in(rows.replace("teller ", "")) if rows else {}
    except ValueError:
        raise Bad(name, "it is no list of a vote with tellers, or was changed") from None
    shown = (title, tellers, ballots, refused, signature)
    return List(name, data, mark, int(step), before, *shown, body.encode())


def demand_lists(lists: Sequence[List], tellers: Mapping[str, str]) -> None:
    """Raises `Bad` at the first list that is not what its teller had to make of the one before, by
    the points of these tellers; the first list is of these, too.
    """
    first = lists[0]
    names = ["the secretary", *tellers]
    options = len("".join(first.ballots[:1])) // 4 - 3 - 27 * len(tellers)
    demand([*first.tellers.items()] == [*tellers.items()], first.name, OTHER_TELLERS)
    for step, this in enumerate(lists):
        is_next = this.step == step <= len(tellers) and this.mark == first.mark
        demand(is_next, this.name, f"it is not list {step} of this vote")
        if step:
            demand_follows(lists[step - 1], this, names, tellers[names[step]])
        left = len(tellers) - step
        # a block of such a length is the only text for its bytes
        length = block_length(options, left)
        are_right = (
            len(one) == length and " " not in one if left else is_opened(one, options)
            for one in this.ballots
        )
        demand(all(are_right), this.name, f"{names[step]} has put into it what is no ballot")


def demand_follows(before: List, this: List, names: Sequence[str], point: str) -> None:
    name, other = names[this.step], names[before.step]
    demand(this.is_signed_by(point), this.name, f"it is not signed by {name}")
    words = (
        f"{name} was given another {before.name} than this: {other} and {name} have to show the "
        f"list {before.name} that they have"
    )
    demand(this.before == before.digest, this.name, words)
    came = len(this.ballots) + len(this.refused)
    is_whole = came == len(before.ballots) and {*this.refused} <= {*before.ballots}
    words = f"{name} was given {len(before.ballots)} ballots, and handed on {came}"
    demand(is_whole, this.name, words)


def is_opened(line: str, options: int) -> bool:
    """Whether it is a number with ranks that tell nothing but an order: ranks such as 17,33 would
    be a mark by which a buyer of votes finds the ballot.
    """
    found = OPENED.fullmatch(line)
    ranks = found[1].split(",") if found else []
    given = {*ranks} - {"-"}
    return len(ranks) == options and given == {str(n + 1) for n in range(len(given))}


# ---- one's own ballot
def fate_of_ballot(data: bytes, lists: Sequence[List], tellers: Mapping[str, str]) -> str:
    """What became of the ballot of a saved file, in words. Raises `Bad` if the file proves
    nothing, or shows who lost it.
    """
    where = "my-ballot.txt"
    try:
        mark, (first, *insides) = own_ballot(data.decode(), [*tellers.values()])
    except ValueError:
        raise Bad(where, "it was changed, and proves nothing") from None
    words = "its ballot is not in list-0.txt: you have voted again later, or the secretary left it out, which nothing proves"
    demand(mark == lists[0].mark and first in lists[0].ballots, where, words)
    for name, inside, this in zip(tellers, insides, lists[1:]):
        words = (
            f"{name} lost your ballot: lines 1 to {this.step} below the first of {where} show it"
        )
        demand(inside in this.ballots, this.name, words)
    return f"Your ballot, {insides[-1]}, is in all {len(lists)} lists."


def own_ballot(text: str, points: Sequence[str]) -> tuple[str, list[str]]:
    """The mark of the vote, and the ballot as each list has to have it. Raises ValueError unless
    the private keys of a saved file seal its last line again as it says: so each opens its block.
    """
    found = OWN.fullmatch(text)
    mark, steps, line = found.groups() if found else [""] * 3
    _, blocks, keys = zip(*(row.split(" ") for row in steps.splitlines()))
    privates = [ec.derive_private_key(int.from_bytes(bytes_of(key)), CURVE) for key in keys]
    options = line.count(",") + 1
    ballots = ballot_in_lists(line, options, mark, points, privates)
    if ballots != [*blocks, line] or not is_opened(line, options):
        raise ValueError
    return mark, ballots


# ---- the program
def demand_beside(folder: pathlib.Path, lists: Sequence[List], tellers: Mapping[str, str]) -> None:
    """Compares what lies beside the lists, if it does."""
    if (file := folder / "tellers.txt").exists():
        is_same = tellers_in(file.read_text("ascii")) == tellers
        demand(is_same, file.name, "its tellers are not those of list-0.txt")
    if (file := folder / "ballots.txt").exists() and len(lists) > len(tellers):
        last = lists[-1]
        wanted = [
            f"{place} {line.split(' ')[1]}" for place, line in enumerate(last.ballots, start=1)
        ]
        found = [line.lstrip("0") for line in file.read_text("ascii").splitlines()]
        words = f"it is not {last.name}, line by line, by places 1, 2 .."
        demand(found == wanted, file.name, words)


def checked(folder: pathlib.Path, own: Sequence[str]) -> Iterator[str]:
    """What is said of the lists of a folder, and of a ballot. Raises `Bad` at what is wrong."""
    files = sorted(folder.glob("list-[0-3].txt"))
    demand(files != [], "list-0.txt", "it is not here: type this in the folder with the lists")
    lists = [read_list(file.name, file.read_bytes()) for file in files]
    tellers = lists[0].tellers
    demand_lists(lists, tellers)
    demand_beside(folder, lists, tellers)
    for one in lists:
        checksum = hashlib.sha256(one.data).hexdigest()
        yield f"{one.name}: {len(one.ballots)} ballots, {len(one.refused)} refused; SHA-256 {checksum}"
    for name in own:
        yield fate_of_ballot(pathlib.Path(name).read_bytes(), lists, tellers)


def main(words: Sequence[str]) -> None:
    if len(words) > 1 or any(word.startswith("-") for word in words):
        sys.exit(str(__doc__))
    try:
        print(*checked(pathlib.Path(), words), sep="\n")
    except Bad as fault:
        sys.exit(": ".join(fault.args))
    except (OSError, ValueError) as fault:
        sys.exit(f"a file is not as it has to be: {fault}")


if __name__ == "__main__":
    main(sys.argv[1:])
