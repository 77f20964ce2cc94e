"""Which programs are made from what is there now: the proved one, and those that are built without proof and kept.

Beside the proved program are the checksums of all that was proved. `make try` keeps a program with the checks of `rt try`;
`make test` keeps also one without, once the tests of the crates have passed.
"""

import hashlib
import pathlib
import shutil

from tests.support import parts

PROGRAM = pathlib.Path("crates", "debvote", "out", "debvote")
FOLDER = PROGRAM.with_name("unproved")
CHECKED, QUICK = "debvote", "quick"
MADE_FROM = "made-from"

# folders of a crate that no program is made from
LEFT_OUT = {"must-fail", "proofs", "out"}


def made_in(repository):
    """The programs that `rt ci` has built there."""
    for crate in (repository / "crates").iterdir():
        names = crate.name, f"{crate.name}_tests"
        yield from (crate / "out" / name for name in names if (crate / "out" / name).is_file())


def checksums(root):
    """The checksums of the proved program and of what was proved, as sha256sum writes them."""
    files = [root / PROGRAM, root / "HANDLES"]
    for kind in ("src", "specs", "proofs"):
        files += sorted(
            file
            for file in (root / "crates").glob(f"*/{kind}/**/*")
            if file.is_file() and not file.relative_to(root).parts[1].startswith("tests_")
        )
    return "".join(
        f"{hashlib.sha256(file.read_bytes()).hexdigest()}  {file.relative_to(root)}\n"
        for file in files
    )


def is_proved():
    """Whether the proved program is there, and what was proved is what is there now."""
    kept = parts.ROOT / PROGRAM.with_name("proved")
    return (
        kept.is_file()
        and (parts.ROOT / PROGRAM).is_file()
        and kept.read_text() == checksums(parts.ROOT)
    )


def sum_of_sources():
    """A sum of the crates and, if it is there, of the kit."""
    whole = hashlib.sha256((parts.kit() / "KIT-ID").read_bytes() if shutil.which("rt") else b"")
    files = (
        file
        for file in (parts.ROOT / "crates").rglob("*")
        if file.is_file() and not LEFT_OUT & set(file.parts)
    )
    for file in [parts.ROOT / "crates.txt", *sorted(files)]:
        digest = hashlib.sha256(file.read_bytes()).hexdigest()
        whole.update(f"{digest}  {file.relative_to(parts.ROOT)}\n".encode())
    return whole.hexdigest()


def are_kept(*names):
    """Whether these programs are there, and were made from what is there now."""
    folder = parts.ROOT / FOLDER
    is_of_today = (folder / MADE_FROM).exists() and (
        folder / MADE_FROM
    ).read_text() == sum_of_sources()
    return is_of_today and all((folder / name).exists() for name in names)


def keep(programs, made_from):
    """Keeps these programs in place of all that were kept."""
    folder = parts.ROOT / FOLDER
    shutil.rmtree(folder, ignore_errors=True)
    folder.mkdir(parents=True)
    for name, program in programs.items():
        shutil.copy(program, folder / name)
    (folder / MADE_FROM).write_text(made_from)
