"""Gives the kit's command `rt` what `tests/edits` asks of it if it is that of the kit 13b.

That kit keeps nothing of what it has proved and refused: this keeps it in a store of its own, where
only root, or whoever runs this, writes. Of proofs it keeps only those of all crates together.
"""

import functools
import hashlib
import json
import os
import pathlib
import shutil
import stat
import tempfile
import typing
from collections.abc import Iterable

from tests.support import kept_edits, parts, unproved

STORE = (
    "/var/lib/debvote-kept" if os.geteuid() == 0 else os.path.expanduser("~/.cache/debvote-kept")
)


def fill_in(rt: typing.Any):
    crates_of = rt.crates_of

    def crates_of_copy(repository: str) -> list[typing.Any]:
        # as in its `rt ci`: the crates above load what a crate states, and not its proofs
        rt.Crate.cuts_libraries = True
        # a copy has no out/ that would go there
        with tempfile.TemporaryDirectory() as aside:
            return crates_of(repository, aside)

    rt.crates_of = crates_of_copy
    # its gate says whether the prover refuses an edit, and does not tell why not
    rt.REFUSED = rt.AT_LIMIT = True
    rt.SETTLED = {True}
    rt.linked = linked
    rt.listing = listing
    rt.STORE = STORE
    rt.Kept = lambda crates, from_nothing: Store(rt.STORE, from_nothing)
    rt.kit_sum = kit_sum
    rt.own_sum = lambda crate: kept_edits.sum_of(kept_edits.files_of(pathlib.Path(crate.folder)))


def linked(folder: str, to: str):
    """Makes a folder of links to the files of another. A check writes no file in place."""
    shutil.copytree(folder, to, copy_function=os.link)


def listing(folder: str) -> dict[pathlib.Path, tuple[int, int, int]]:
    """The files below a folder; each that is replaced or written has another value."""
    files = [file for file in pathlib.Path(folder).rglob("*") if file.is_file()]
    # an empty file whose time is that of its last use
    said = {file: file.stat() for file in files if file.name != "rattle-last-used"}
    return {file: (it.st_ino, it.st_size, it.st_mtime_ns) for file, it in said.items()}


@functools.cache
def kit_sum() -> str:
    folder = parts.kit()
    files = [folder / "KIT-ID", *sorted((folder / "bin").iterdir())]
    return kept_edits.sum_of(*[checksum(file) for file in files if file.is_file()])


def checksum(file: pathlib.Path) -> str:
    with open(file, "rb") as read:
        return hashlib.file_digest(read, "sha256").hexdigest()


class Store:
    """What earlier runs refused and proved, each under a sum of all that it stands on."""

    def __init__(self, at: str, from_nothing: bool):
        self.at = at
        self.from_nothing = from_nothing

    def place(self, kind: str, name: str) -> pathlib.Path:
        folder = pathlib.Path(self.at, kind)
        folder.mkdir(mode=0o700, parents=True, exist_ok=True)
        return folder / name

    def tried(self, name: str) -> tuple[bool, str] | None:
        """What was kept of an edit. A line that was copied from another edit's counts for nothing."""
        file = self.place("edits", name)
        if self.from_nothing or not is_own(file):
            return None
        own, kind, said = json.loads(file.read_text())
        return (kind, said) if own == name else None

    def keep_tried(self, name: str, kind: bool, said: str):
        file = self.place("edits", name)
        new = file.with_name(f"{name}.new")
        new.write_text(json.dumps([name, kind, said]))
        new.replace(file)

    def drop(self, path: str):
        pathlib.Path(path).unlink(missing_ok=True)

    def place_of_proof(self, repository: pathlib.Path) -> pathlib.Path:
        """Where what `rt ci` built of just these sources is kept."""
        files = {str(path.relative_to(repository)): path for path in sources_of(repository)}
        sums = [(path, checksum(files[path])) for path in sorted(files)]
        return self.place("proved", kept_edits.sum_of(kit_sum(), sums))

    def keep_proof(self, repository: pathlib.Path):
        """Keeps that all is proved, with the programs: those of older sources go."""
        place = self.place_of_proof(repository)
        shutil.rmtree(place.parent)
        new = self.place("proved", "new")
        new.mkdir()
        for file in unproved.made_in(repository):
            to = new / file.relative_to(repository)
            to.parent.mkdir(parents=True, exist_ok=True)
            shutil.copy(file, to)
        new.rename(place)

    def take_proof(self, repository: pathlib.Path) -> bool:
        """Whether all is proved; then the programs are in the copy."""
        place = self.place_of_proof(repository)
        if self.from_nothing or not is_own(place):
            return False
        shutil.copytree(place, repository, dirs_exist_ok=True)
        return True


def sources_of(repository: pathlib.Path) -> Iterable[pathlib.Path]:
    below = (repository / "crates").rglob("*")
    yield from (repository / "crates.txt", repository / "HANDLES")
    yield from (path for path in below if path.is_file() and "out" not in path.parts)


def is_own(path: pathlib.Path) -> bool:
    """Whether it is there, and nobody else could write it."""
    try:
        found = path.lstat()
    except FileNotFoundError:
        return False
    others = stat.S_IWGRP | stat.S_IWOTH
    return found.st_uid == os.geteuid() and not found.st_mode & others
