"""The Debian package: it is made of the proved program alone, lintian says nothing, and what is in it runs.

Two copies of this repository, with other times and modes, make it. The programs run as a user without rights.
"""

import os
import pathlib
import shutil
import subprocess
import tempfile
import unittest

import pytest

from debvote_tools.text.language import LANGUAGES

from tests.support import unproved
from tests.support.program import PROGRAM, ROOT

pytestmark = pytest.mark.proved
BUILD = ["dpkg-buildpackage", "-b", "-us", "-uc"]
NOBODY = ["setpriv", "--reuid=65534", "--regid=65534", "--clear-groups", "--no-new-privs"]
HAS_TOOLS = all(map(shutil.which, ["dpkg-buildpackage", "dh_python3", "msgfmt", "lintian"]))


def run(*words, **how):
    return subprocess.run([*map(str, words)], capture_output=True, text=True, timeout=600, **how)


def files_below(folder):
    """The files there, by their paths from it."""
    return {file.relative_to(folder) for file in folder.rglob("*") if file.is_file()}


def copy_to(folder, time, mask):
    """A copy of this repository with the program, each file with this time."""
    before = os.umask(mask)
    left_out = shutil.ignore_patterns(".git", "__pycache__", "out", "must-fail")
    shutil.copytree(ROOT, folder, ignore=left_out, copy_function=shutil.copy)
    program = folder / unproved.PROGRAM
    program.parent.mkdir()
    shutil.copy(PROGRAM, program)
    program.with_name("proved").write_text(unproved.checksums(folder))
    for file in folder.rglob("*"):
        os.utime(file, (time, time))
    os.umask(before)


@unittest.skipUnless(HAS_TOOLS, "debhelper, dh-python, gettext or lintian is not installed")
class Package(unittest.TestCase):
    @classmethod
    def setUpClass(cls):
        room = tempfile.TemporaryDirectory(prefix="debvote-package-")
        cls.scratch = pathlib.Path(cls.enterClassContext(room))
        cls.scratch.chmod(0o755)
        cls.packages = []
        for name, time, mask in (("one", 1_800_000_000, 0o022), ("other", 1_900_000_000, 0o077)):
            copy_to(cls.scratch / name / "debvote", time, mask)
            made = run(*BUILD, cwd=cls.scratch / name / "debvote")
            assert made.returncode == 0, made.stderr
            cls.packages += (cls.scratch / name).glob("*.deb")
        cls.tree = cls.scratch / "tree"
        cls.tree.mkdir()
        run("dpkg-deb", "-x", cls.packages[0], cls.tree)

    def test_two_have_the_same_bytes(self):
        one, other = (package.read_bytes() for package in self.packages)
        self.assertTrue(one == other)

    def test_lintian_says_nothing(self):
        found = run("lintian", "--allow-root", self.packages[0])
        self.assertEqual((found.stdout, found.returncode), ("", 0))

    def test_without_a_proof_and_the_kit_nothing_is_made(self):
        folder = self.scratch / "none"
        shutil.copytree(self.scratch / "one" / "debvote", folder / "debvote")
        with open(folder / "debvote" / "crates" / "debvote" / "src" / "main.rt", "a") as source:
            source.write("\n")
        made = run(*BUILD, cwd=folder / "debvote", env={**os.environ, "PATH": "/usr/bin:/bin"})
        self.assertIn("rt is not in PATH", made.stderr)
        self.assertEqual(([*folder.glob("*.deb")], made.returncode != 0), ([], True))

    def test_all_of_it_is_there(self):
        """Each part of the programs in Python, translations compiled, and what their users read."""
        share = self.tree / "usr" / "share"
        parts = (part for part in files_below(ROOT / "python") if "__pycache__" not in part.parts)
        wanted = {part.with_suffix(".mo") if part.suffix == ".po" else part for part in parts}
        pages = [f"debvote_tools/call/teller-{code}.html" for code in LANGUAGES]
        beside = {pathlib.Path(name) for name in ("READING-A-SHEET.md", "recount.py", *pages)}
        self.assertEqual(files_below(share / "debvote"), wanted | beside)
        documents = share / "doc" / "debvote"
        names = "copyright reference.py recount.js docs/SECRETARY.md docs/claim.html"
        for name in names.split():
            self.assertTrue((documents / name).read_text(), name)
        self.assertIn("No licence has been chosen", (documents / "copyright").read_text())
        for program in (ROOT / "bin").iterdir():
            pages = [*(share / "man" / "man1").glob(f"{program.name}.1.gz")]
            completions = [*share.glob(f"*/vendor*completions*/*{program.name}*")]
            self.assertEqual((len(pages), len(completions)), (1, 2), program.name)

    def test_it_runs(self):
        """What Debian tries of an installed package, and the program is the one that was packed."""
        folder = self.scratch / "tried"
        folder.mkdir(mode=0o777)
        folder.chmod(0o777)
        where = {"PATH": f"{self.tree}/usr/bin:/usr/bin:/bin", "AUTOPKGTEST_TMP": str(folder)}
        where["HOME"] = str(folder)
        nobody = NOBODY if os.geteuid() == 0 else []
        tried = run(*nobody, ROOT / "debian" / "tests" / "installed", env=where)
        self.assertEqual((tried.stderr, tried.returncode), ("", 0), tried.stdout)
        one, other = (
            run("objdump", "-s", "-j", ".text", file).stdout.splitlines()[3:]
            for file in (self.tree / "usr" / "bin" / "debvote", PROGRAM)
        )
        self.assertTrue(one and one == other)


if __name__ == "__main__":
    unittest.main()
