"""Where results lie: what is at a place, and where there is room for another one."""

import itertools
import os
import pathlib

from debvote_tools.election import RESULT
from debvote_tools.files import real_place, sha256_of
from debvote_tools.result.file_names import CHECKSUMS


def is_free(target_folder: pathlib.Path) -> bool:
    """Whether nothing is there, or an empty folder."""
    place = real_place(target_folder)
    return not os.path.lexists(place) or (place.is_dir() and not os.listdir(place))


def is_publication(folder: pathlib.Path, checksum: str) -> bool:
    """Whether a folder has the SHA256SUMS of this checksum, and beside it only files that are as
    they stand there.
    """
    try:
        data = (folder / CHECKSUMS).read_bytes()
        if sha256_of(data) != checksum:
            return False
        lines = (line.split("  ") for line in data.decode().splitlines())
        listed = {folder / name: listed_sum for listed_sum, name in lines}
        # what has a file of several questions below it is a folder
        above = {parent for file in listed for parent in file.parents}
        others = (file for file in folder.rglob("*") if file not in (folder / CHECKSUMS, *above))
        return all(listed.get(file) == sha256_of(file.read_bytes()) for file in others)
    except OSError:
        return False


def other_place(target_folder: pathlib.Path) -> pathlib.Path:
    """Where a result can be that may not replace the one in this folder."""
    places = (target_folder, real_place(target_folder), pathlib.Path(RESULT))
    named = next(place for place in places if place.name not in ("", ".."))
    others = (named.with_name(f"{named.name}-{number}") for number in itertools.count(2))
    return next(other for other in others if not os.path.lexists(other))
