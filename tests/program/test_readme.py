"""Runs the commands of README in a copy of the checkout, compares what they print with what it says, and makes the pictures anew.

The copy has the program where `make try` builds it. Without it, and without the kit, each command says in one line what is missing.
"""

import http.client
import os
import pathlib
import re
import shutil
import struct
import subprocess
import sys
import tempfile
import urllib.parse

import pytest

from tests.program import test_guides
from tests.support import at_browser, expecting, unproved
from tests.support.program import PROGRAM, ROOT

README = ROOT / "README.md"

# what the commands read of a checkout
FILES = "Makefile crates.txt docs/READING-A-SHEET.md tests/reference.py tests/try tests/build tests/quick tests/all"
FOLDERS = "bin examples python tests/support tests/cases tests/clock"

# the commands that need the kit, other programs that do, and what they say without it
OF_KIT = ["make try", "make office", "make build", "make test", "tests/all"]
OF_TESTS = [
    "tests/edits",
    "tests/layout",
    "tests/one-edit vote_steps cast_leaves_no_mark",
    "tests/refused-memory",
    "tests/unproved file",
]
NO_KIT = "rt is not in PATH: it belongs to the Rattle kit, which README names"

# keeps a program as `make try` does
KEEP = """
import pathlib, sys
from tests.support import unproved
unproved.keep({unproved.CHECKED: pathlib.Path(sys.argv[1])}, unproved.sum_of_sources())
"""

SECONDS = 600
OUTPUT = {"stdout": subprocess.PIPE, "stderr": subprocess.STDOUT, "text": True, "timeout": SECONDS}


def checkout_in(folder):
    """A copy of what the commands read, with its times."""
    copy = folder / "checkout"
    for name in FOLDERS.split():
        shutil.copytree(ROOT / name, copy / name, ignore=shutil.ignore_patterns("__pycache__"))
    for name in FILES.split():
        (copy / name).parent.mkdir(parents=True, exist_ok=True)
        shutil.copy2(ROOT / name, copy / name)
    return copy


# a package is missing to a Python that reads this at its start
HIDING = """
import sys
class Hidden:
    def find_spec(name, *_):
        if name == {0!r}:
            raise ModuleNotFoundError(name=name)
sys.meta_path.insert(0, Hidden)
"""


class Commands(expecting.Expecting):
    def setUp(self):
        super().setUp()
        room = tempfile.TemporaryDirectory()
        self.addCleanup(room.cleanup)
        self.room = pathlib.Path(room.name)
        self.copy = checkout_in(self.room)

    def keep_program(self):
        words = [sys.executable, "-c", KEEP, PROGRAM]
        subprocess.run(words, cwd=self.copy, check=True, timeout=SECONDS)

    def run_in_copy(self, command, path):
        ended = subprocess.run(
            ["/bin/bash", "-c", command], cwd=self.copy, env={"PATH": path}, **OUTPUT
        )
        return ended.stdout, ended.returncode

    def test_blocks(self):
        """Each command prints what README says. What it writes goes to a folder of this test."""
        self.keep_program()
        steps = test_guides.steps_of(README)
        rows = [(words, wanted) for kind, words, wanted in steps if kind == "command"]
        self.expect("the first command", rows[0][0].split()[0], "make")
        words = 'make try ARGS="check --poll examples/plain_win/poll.toml"'
        rows.append((words, "poll ok: 4 options, 9 electors\n"))
        # the loop of CONTRIBUTING takes this program, and names it
        kept = self.copy / unproved.FOLDER / unproved.CHECKED
        note = f"the program of these tests is {kept}, which is not proved\n"
        words = "make case NAME=tie-of-equal-ranks"
        rows.append((words, f"{note}3 passed, 0 failed\n"))
        path = os.pathsep.join([os.environ["PATH"], str(test_guides.tools_in(self.room))])
        for row, wanted in rows:
            found = self.run_in_copy(row.replace("/tmp/", f"{self.room}/"), path)
            self.expect(row, found, (wanted, 0))
        shutil.rmtree(self.copy / unproved.FOLDER)
        said, status = self.run_in_copy(words, path)
        self.expect("without a program", ("make try makes one" in said, status), (True, 2))

    @pytest.mark.whole
    def test_office(self):
        """Without a screen `make office` prints the address of an election with ballots, of which nothing is left when it ends."""
        self.keep_program()
        room = self.room / "example"
        room.mkdir()
        environment = {"PATH": os.environ["PATH"], "TMPDIR": str(room)}
        with subprocess.Popen(
            ["make", "office"], cwd=self.copy, env=environment, stdout=subprocess.PIPE, text=True
        ) as process:
            address = urllib.parse.urlsplit(process.stdout.readline().strip())
            connection = http.client.HTTPConnection(address.netloc, timeout=SECONDS)
            connection.request("GET", address.path)
            text = connection.getresponse().read().decode()
            connection.request(
                "POST", f"{address.path}end", headers={"Origin": f"http://{address.netloc}"}
            )
            connection.getresponse().read()
            status = process.wait(SECONDS)
        shown = re.findall("4 of 9 have voted|Look at 1 letter that waits", text)
        found = len({*shown}), status, [*room.iterdir()]
        self.expect("make office", found, (2, 0, []))

    def test_without_kit(self):
        """One line says what is missing; make adds one of its own."""
        tools = self.room / "tools"
        tools.mkdir()
        for name in ("env", "make", "python3"):
            (tools / name).symlink_to(str(shutil.which(name)))
        for command in OF_KIT:
            said, status = self.run_in_copy(command, str(tools))
            lines = [line for line in said.splitlines() if not line.startswith("make: ")]
            self.expect(f"{command}, without rt", (lines, status != 0), ([NO_KIT], True))

    @pytest.mark.whole
    def test_tools_without_kit(self):
        """So do the programs of the tests that need the kit, and that no command of README runs."""
        for words in OF_TESTS:
            ended = subprocess.run(words.split(), cwd=ROOT, env={"PATH": str(self.room)}, **OUTPUT)
            self.expect(words, (ended.stdout, ended.returncode), (f"{NO_KIT}\n", 1))

    def test_without_packages(self):
        """The programs in Python say which package is missing, and do nothing."""
        new = self.room / "result"
        publish = f"debvote-publish --poll poll.toml --ballots ballots {new}"
        nothing = "is not installed; nothing was changed: install it"
        published = "is not installed; nothing was published: install it"
        path = os.pathsep.join([str(PROGRAM.parent), os.environ["PATH"]])
        where = {"env": {"PATH": path, "PYTHONPATH": str(self.room)}, **OUTPUT}
        for module, words, said in (
            ("jinja2", publish, nothing),
            ("jinja2", "debvote-election roll", nothing),
            ("babel", f"{publish} --language de", published),
        ):
            (self.room / "sitecustomize.py").write_text(HIDING.format(module))
            command = f"{ROOT}/bin/{words}".split()
            ended = subprocess.run(command, cwd=ROOT / "examples" / "plain_win", **where)
            found = ended.stdout, ended.returncode, new.exists()
            wanted = f"{words.split()[0]}: python3-{module} {said}\n"
            self.expect(f"{words}, without {module}", found, (wanted, 127, False))

    def test_length_and_order(self):
        """At most 65 lines and 520 words; the first block of sh is the full check."""
        text = README.read_text()
        self.assertLessEqual(len(text.splitlines()), 65)
        self.assertLessEqual(len(text.split()), 520)
        self.assertEqual(re.findall(r"(?ms)^```sh\n(.*?)^```$", text), ["tests/all\n"])
        self.assertRegex((ROOT / ".ci" / "run").read_text(), r"\nexec tests/all\n\Z")


def heads_of(folder):
    """The head of each picture in a folder, in which its size is, by its name."""
    files = {file.name: file.read_bytes() for file in pathlib.Path(folder).glob("*.png")}
    return {name: struct.unpack(">8sI4sII", data[:24]) for name, data in files.items()}


@pytest.mark.whole
@at_browser.NEEDS_BROWSER
class Pictures(expecting.Expecting):
    def test_pictures(self):
        """The script makes pictures of the sizes of those which README and the guide show; letters look otherwise where the fonts do."""
        texts = [README.read_text(), (test_guides.DOCS / "SECRETARY.md").read_text()]
        shown = re.findall(r"!\[[^]]+\]\((?:docs/)?(.+\.png)\)", "\n".join(texts))
        kept = heads_of(test_guides.DOCS)
        self.expect("shown pictures", {*shown}, {*kept})
        with tempfile.TemporaryDirectory() as folder:
            subprocess.run([ROOT / "docs" / "make-pictures", folder], check=True, timeout=SECONDS)
            self.expect("their sizes", heads_of(folder), kept)
        for file in test_guides.DOCS.glob("*.png"):
            self.expect(
                f"{file.name} is a small PNG",
                (kept[file.name][0], file.stat().st_size <= 60_000),
                (b"\x89PNG\r\n\x1a\n", True),
            )
