"""Files that are read up to a limit, and written whole or not at all, and the lock of a folder."""

import contextlib
import dataclasses
import fcntl
import hashlib
import os
import pathlib
import shutil
import signal
import stat
import tempfile
import time
from collections.abc import Collection, Iterator, Mapping
from typing import BinaryIO

from debvote_tools.cli.faults import Fault, Status, bad_arguments
from debvote_tools.cli.console import number_of, odd_sign

# in bytes and in lines; of a longer file a byte more is read, so that debvote says that it is too
# long
POLL_LIMIT = 1_048_576
BALLOTS_LIMIT = 33_554_432
LINES_LIMIT = 100_000

# in bytes; ten thousand members or electors, with a letter about each, are shorter
TABLE_LIMIT = 33_554_432

PACKED = "a ZIP, as word processors and spreadsheets save"
PDF = "a PDF"
# how files begin that are no plain text
BEGINNINGS = {
    b"PK\x03\x04": PACKED,
    b"PK\x05\x06": PACKED,
    b"\xd0\xcf\x11\xe0": "a document of a word processor or spreadsheet",
    b"{\\rtf": "a document with formats (RTF)",
    b"%PDF": PDF,
}

# how each temporary begins, and no file of anybody else: an editor puts its own beside a file, as
# `.poll.toml.swp`
TEMPORARY = ".debvote-"
# how the name of what a run makes whole beside its place begins
NEW = f"{TEMPORARY}new-"
# in seconds; a run locks its folder at once
NEVER_LOCKED = 60


def sha256_of(data: bytes) -> str:
    return hashlib.sha256(data).hexdigest()


def kind_of(data: bytes) -> str | None:
    return next((kind for start, kind in BEGINNINGS.items() if data.startswith(start)), None)


def read_at_most(file: pathlib.Path | str, limit: int) -> bytes:
    """The bytes of a file, but no more than one above the limit. Raises OSError."""
    with open(file, "rb") as source:
        return source.read(limit + 1)


def read_whole(
    file: pathlib.Path | str, limit: int, unread: str, then: str = "", *, may_wait: bool = False
) -> bytes:
    """The bytes of a file. `unread` is the cure if it can't be read; `then` follows each cure. A
    pipe keeps its reader waiting, and is refused unless the command line names it.
    """
    try:
        mode = os.stat(file).st_mode
        if not (may_wait or stat.S_ISREG(mode) or stat.S_ISDIR(mode)):
            raise bad_arguments(file, "it is no plain file", unread + then, None)
        data = read_at_most(file, limit)
    except OSError as error:
        raise bad_arguments(file, error.strerror, unread + then, None) from None
    if len(data) > limit:
        raise bad_arguments(file, f"it is longer than {limit} bytes", f"shorten it{then}", None)
    return data


def read_text(
    file: pathlib.Path | str,
    limit: int,
    unread: str,
    empty: str,
    then: str = "",
    *,
    refused: str = "",
    may_wait: bool = False,
) -> str:
    """The text of a file in UTF-8, without its byte-order mark, and with line feeds alone.

    `empty` is the cure of an empty one; for the others see `read_whole`. Characters that no plain
    text has are `refused` too.
    """
    data = read_whole(file, limit, unread, then, may_wait=may_wait)
    try:
        text = data.decode().removeprefix("\ufeff").replace("\r\n", "\n")
    except UnicodeDecodeError as error:
        line = data.count(b"\n", 0, error.start) + 1
        raise bad_arguments(
            f"{file}:{line}", "it is not in UTF-8", f"save it as plain text in UTF-8{then}", None
        ) from None
    odd = odd_sign(text, allowed="\t\n", refused=refused)
    if odd is not None:
        line = text.count("\n", 0, text.index(odd)) + 1
        raise bad_arguments(
            f"{file}:{line}",
            f"it has the character {number_of(odd)}, which no plain text has",
            f"take it out{then}",
            None,
        )
    if not text.strip():
        raise bad_arguments(file, "it is empty", empty + then, None)
    return text


def sync_folder(folder: pathlib.Path) -> None:
    """Brings the names of a folder to the disk."""
    handle = os.open(folder, os.O_RDONLY | os.O_DIRECTORY)
    try:
        os.fsync(handle)
    finally:
        os.close(handle)


@contextlib.contextmanager
def naming(place: pathlib.Path) -> Iterator[None]:
    """Whatever is written within has this name in an error: what is made beside its place has one
    that nobody knows, and a full disk names no file.
    """
    try:
        yield
    except OSError as error:
        error.filename = str(place)
        raise


def write_whole(file: pathlib.Path, data: bytes, mode: int) -> None:
    """Writes a file with this mode, whole or not at all: a temporary beside it takes its place.
    Raises OSError, and then the file is as it was.
    """
    with naming(file):
        handle, name = tempfile.mkstemp(prefix=TEMPORARY, dir=file.parent)
        try:
            with os.fdopen(handle, "wb") as target:
                write_through(target, data, mode)
            os.rename(name, file)
        except BaseException:
            with contextlib.suppress(OSError):
                os.unlink(name)
            raise
    try:
        sync_folder(file.parent)
    except OSError as error:
        # after a power cut its name may be gone
        raise Fault(
            file,
            error.strerror,
            "put this right, then run the command again",
            Status.BAD_OUTPUT,
            "it was written, but may not be on the disk yet",
        ) from None


def temporary_folder(place: pathlib.Path, prefix: str = TEMPORARY) -> pathlib.Path:
    return pathlib.Path(tempfile.mkdtemp(prefix=prefix, dir=place))


def real_place(place: pathlib.Path) -> pathlib.Path:
    """Where a folder will be. If the place is a link, the link stays."""
    return pathlib.Path(os.path.realpath(place))


def left_beside(place: pathlib.Path, prefix: str) -> list[pathlib.Path]:
    """The folders beside a place that runs have made. Another run may take one away, and that of
    another user can't be read.
    """
    folders = []
    for left in real_place(place).parent.glob(f"{prefix}*"):
        with contextlib.suppress(OSError):
            # an empty one may be about to be locked
            if any(left.iterdir()) or time.time() - left.stat().st_mtime > NEVER_LOCKED:
                folders.append(left)
    return folders


def remove_left(place: pathlib.Path, prefix: str) -> None:
    """Removes what killed runs have left beside a place."""
    for left in left_beside(place, prefix):
        with contextlib.suppress(OSError), locked(left, is_directory=True):
            shutil.rmtree(left, ignore_errors=True)


@dataclasses.dataclass
class NewFolder:
    """A folder beside its place, and how the names of such folders begin."""

    folder: pathlib.Path
    prefix: str
    # the book has its act: if it gets no place now, the next run sees that it got none
    is_in_book: bool = False

    def take_place(self, target_folder: pathlib.Path) -> None:
        """Moves the folder to its place, and removes a published folder that is there, and what
        killed runs have left beside it.
        """
        place = real_place(target_folder)
        if place.is_dir():
            with locked(place, is_directory=True):
                aside = temporary_folder(place.parent, self.prefix)
                place.rename(aside)
                try:
                    self.folder.rename(place)
                except OSError:
                    aside.rename(place)
                    raise
        else:
            self.folder.rename(place)
        sync_folder(place.parent)
        remove_left(place, self.prefix)

    def remove(self) -> None:
        """Removes the folder, unless it was moved, or the book has its act."""
        if not self.is_in_book:
            shutil.rmtree(self.folder, ignore_errors=True)


@contextlib.contextmanager
def folder_beside(place: pathlib.Path, prefix: str) -> Iterator[NewFolder]:
    """Makes an empty folder beside a place, and removes it at the end. A run holds the lock of its
    own, so what is not locked is of a run that was killed.
    """
    with contextlib.ExitStack() as at_end:
        with naming(place), uninterrupted():
            new = NewFolder(temporary_folder(real_place(place).parent, prefix), prefix)
            at_end.callback(new.remove)
        at_end.enter_context(locked(new.folder, is_directory=True))
        yield new


@contextlib.contextmanager
def whole_folder(place: pathlib.Path, file: str = "") -> Iterator[pathlib.Path]:
    """A new folder, which takes its place when all is in it, or of which one file does. Nothing
    else is left, nor what killed runs have left beside it.
    """
    with naming(place), folder_beside(place, NEW) as new:
        try:
            yield new.folder
            (new.folder / file).rename(place)
        finally:
            new.remove()
            remove_left(place, NEW)
        sync_folder(new.folder.parent)


def write_public(file: pathlib.Path, data: bytes) -> None:
    """Writes a new file that everybody may read, whatever the umask."""
    with open(file, "xb") as target:
        write_through(target, data, 0o644)


def write_through(target: BinaryIO, data: bytes, mode: int) -> None:
    target.write(data)
    target.flush()
    os.fchmod(target.fileno(), mode)
    os.fsync(target.fileno())


@contextlib.contextmanager
def locked(
    place: pathlib.Path, *, is_directory: bool = False, waits: bool = False
) -> Iterator[None]:
    """Holds the lock of a file, and waits for it; or of a folder, and raises BlockingIOError if
    another process has it, unless it `waits`.

    The lock of a process that is killed is free.
    """
    flags = os.O_DIRECTORY if is_directory else os.O_RDWR | os.O_CREAT
    handle = os.open(place, flags | os.O_CLOEXEC, 0o644)
    try:
        fcntl.flock(handle, fcntl.LOCK_EX | (fcntl.LOCK_NB if is_directory and not waits else 0))
        yield
    finally:
        os.close(handle)


@contextlib.contextmanager
def in_memory(data: bytes) -> Iterator[str]:
    """A file in memory, which other programs can read by this path while it lasts."""
    try:
        handle = os.memfd_create("debvote")
    except OSError as error:
        raise Fault(
            "memory",
            f"there is not enough for a copy of the input ({error.strerror})",
            "run the command again",
            Status.BAD_OUTPUT,
        ) from None
    with open(handle, "wb") as target:
        target.write(data)
        target.flush()
        yield f"/proc/{os.getpid()}/fd/{handle}"


@contextlib.contextmanager
def uninterrupted() -> Iterator[None]:
    """Interrupts wait until this is done, so that what is done is also reported."""
    signals = {signal.SIGINT, signal.SIGTERM, signal.SIGHUP}
    before = signal.pthread_sigmask(signal.SIG_BLOCK, signals)
    try:
        yield
    finally:
        signal.pthread_sigmask(signal.SIG_SETMASK, before)


# ---- folders that are made from the book
# the modes of a folder and its files: for everybody, and for the secretary alone
PUBLIC = (0o755, 0o644)
OWN = (0o700, 0o600)


def remove_left_in(folder: pathlib.Path) -> None:
    """Removes what killed runs have left in a folder, files and folders. The caller has a lock, so
    that no other run makes some there now.
    """
    for left in folder.glob(f"{TEMPORARY}*"):
        if left.is_dir():
            shutil.rmtree(left)
        else:
            left.unlink()


def write_made(
    folder: pathlib.Path,
    files: Mapping[str, bytes],
    modes: tuple[int, int],
    outdated: Collection[str] = (),
) -> list[pathlib.Path]:
    """Writes the files that are missing or differ, and returns them. Outdated files are removed,
    and what killed runs left, such as half of the slips.
    """
    folder_mode, file_mode = modes
    places = list(dict.fromkeys([folder, *((folder / name).parent for name in files)]))
    for place in places:
        place.mkdir(exist_ok=True)
        place.chmod(folder_mode)
    written = []
    with locked(folder, is_directory=True, waits=True):
        for place in places:
            remove_left_in(place)
        for name, data in files.items():
            file = folder / name
            if (
                not file.is_file()
                or file.read_bytes() != data
                or file.stat().st_mode & 0o777 != file_mode
            ):
                write_whole(file, data, file_mode)
                written.append(file)
        for name in set(outdated) - files.keys():
            (folder / name).unlink(missing_ok=True)
        for place in {(folder / name).parent for name in outdated}.difference(places):
            # somebody may have put a file there
            with contextlib.suppress(OSError):
                place.rmdir()
    return written
