"""The program that the tests run.

It is the file that DEBVOTE names; else the proved one, if it was made from what is there today; else the unproved one that `make try`
or `make test` has made of that. `PROGRAM` is always called debvote, so that the Python programs find it in its folder: a file of another name gets a link.
"""

import atexit
import os
import pathlib
import shutil
import sys
import tempfile

from tests.support import unproved
from tests.support.parts import ROOT

BUILT = ROOT / unproved.PROGRAM


def link_to(file):
    """A link to a file, called debvote, in a folder of its own, which goes when this process ends."""
    folder = pathlib.Path(tempfile.mkdtemp(prefix="debvote-program-"))
    atexit.register(shutil.rmtree, folder, ignore_errors=True)
    # some tests run it as another user
    folder.chmod(0o755)
    (folder / "debvote").symlink_to(file)
    return folder / "debvote"


def of_today():
    """The proved program, or one that is kept without proof."""
    if unproved.is_proved():
        return BUILT
    for name in (unproved.QUICK, unproved.CHECKED):
        if unproved.are_kept(name):
            file = ROOT / unproved.FOLDER / name
            print(f"the program of these tests is {file}, which is not proved", file=sys.stderr)
            return file
    return None


def named():
    """The program, under a path that ends in debvote; if there is none, where the proved one would be."""
    given = os.environ.get("DEBVOTE")
    file = pathlib.Path(given).absolute() if given else of_today()
    if file is None:
        return BUILT
    program = file if file.name == "debvote" or not file.is_file() else link_to(file)
    # so that processes of the tests do not look again, and make no links
    os.environ["DEBVOTE"] = str(program)
    return program


PROGRAM = named()


def missing(file=PROGRAM):
    """If there is no program of today: where it was looked for, and how to make one."""
    if os.environ.get("DEBVOTE"):
        if file.is_file() and os.access(file, os.X_OK):
            return None
        return f"there is no program that can be run at {file}, as DEBVOTE says"
    return "there is no program of these sources: make try makes one in two minutes, without proof"


def demand(file=PROGRAM):
    """Ends a program of the tests if there is no debvote."""
    if words := missing(file):
        sys.exit(words)
