"""Keys and signatures of OpenPGP, made by gpg once for all tests of signed letters."""

import functools
import multiprocessing.util
import os
import pathlib
import re
import shutil
import subprocess
import tempfile

# keys are older than all elections of the tests; the expired one has expired by the clock of any
# computer
# at a time with this mark the clock of gpg stops
BORN, EXPIRY = "20240101T000000!", "2024-06-01"


class Keys:
    """A folder with a key for each person: their fingerprints by name."""

    def __init__(self):
        self.home = pathlib.Path(tempfile.mkdtemp(prefix="pgp-"))
        # the process of a class ends without what atexit has
        multiprocessing.util.Finalize(None, self.end, exitpriority=0)
        self.fingerprints: dict[str, str] = {}
        for name in ("ada", "ben", "cleo", "dan", "eve", "fay", "mallory"):
            self.make(name, EXPIRY if name == "dan" else "never")
        # ada signs with a subkey
        self.gpg(
            "--faked-system-time",
            "20240102T000000!",
            "--quick-add-key",
            self.fingerprints["ada"],
            "ed25519",
            "sign",
            "never",
        )

    def end(self):
        subprocess.run(["gpgconf", "--homedir", self.home, "--kill", "all"], capture_output=True)
        shutil.rmtree(self.home, ignore_errors=True)

    def gpg(self, *words: object, given: bytes = b"") -> bytes:
        command = [
            "gpg",
            "--homedir",
            self.home,
            "--batch",
            "--quiet",
            "--yes",
            "--no-tty",
            "--passphrase",
            "",
            *words,
        ]
        ended = subprocess.run(
            [str(word) for word in command],
            input=given,
            capture_output=True,
            env={**os.environ, "LC_ALL": "C"},
        )
        if ended.returncode:
            raise AssertionError(f"gpg {words}: {ended.stderr.decode('utf-8', 'replace')}")
        return ended.stdout

    def make(self, name: str, expiry: str):
        self.gpg(
            "--faked-system-time",
            BORN,
            "--quick-gen-key",
            f"{name} <{name}@club.example>",
            "ed25519",
            "sign",
            expiry,
        )
        listed = self.gpg("--with-colons", "--list-keys", f"{name}@club.example").decode()
        self.fingerprints[name] = re.search(r"(?m)^fpr:+([0-9A-F]{40}):", listed)[1]

    def ring(self, *names: str, armor: bool = False) -> bytes:
        return self.gpg(
            *(["--armor"] if armor else []),
            "--export",
            *(self.fingerprints[name] for name in names),
        )

    def revoked(self, name: str) -> bytes:
        said = (
            (self.home / "openpgp-revocs.d" / f"{self.fingerprints[name]}.rev")
            .read_text()
            .replace(":-----BEGIN", "-----BEGIN")
        )
        with tempfile.TemporaryDirectory(prefix="pgp-") as other:
            for data in (self.ring(name), said.encode()):
                subprocess.run(
                    ["gpg", "--homedir", other, "--batch", "--quiet", "--import"],
                    input=data,
                    capture_output=True,
                    check=True,
                )
            ring = subprocess.run(
                ["gpg", "--homedir", other, "--batch", "--export"], capture_output=True, check=True
            ).stdout
            subprocess.run(["gpgconf", "--homedir", other, "--kill", "all"], capture_output=True)
        return ring

    def signature(self, name: str, data: bytes, time: str, *words: str) -> bytes:
        who = ("--faked-system-time", f"{time}!", "--local-user", self.fingerprints[name])
        return self.gpg(*who, "--armor", *words, "--detach-sign", given=data)

    def inline(self, name: str, text: str, time: str, *words: str) -> str:
        who = ("--faked-system-time", f"{time}!", "--local-user", self.fingerprints[name])
        return self.gpg(*who, *words, "--clearsign", given=text.encode()).decode()

    def mime(self, name: str, part: bytes, time: str, *words: str) -> tuple[str, bytes]:
        """The kind and the body of a letter in which this part is signed as PGP/MIME."""
        return mime_of(part, self.signature(name, part.replace(b"\n", b"\r\n"), time, *words))


def mime_of(part: bytes, signature: bytes, more: bytes = b"") -> tuple[str, bytes]:
    """The kind and the body of a letter that has a part and a signature."""
    behind = (
        b"\n--sig\nContent-Type: application/pgp-signature; name=signature.asc\n\n"
        + signature
        + more
        + b"\n--sig--\n"
    )
    return (
        'multipart/signed; micalg=pgp-sha256; protocol="application/pgp-signature"; boundary=sig',
        b"--sig\n" + part + behind,
    )


@functools.cache
def keys() -> Keys:
    return Keys()
