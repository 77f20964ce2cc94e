"""No module of the system takes the place of a module of the tests, whatever its name.

Distributions install modules with plain names, as python3-debian installs `debian`. Each program of
the tests, and pytest, imports what it needs while modules of all these names lie elsewhere on
Python's way.
"""

import os
import pathlib
import subprocess
import sys
import tempfile
import unittest

import pytest

from tests.support.program import ROOT

# more than any of these runs takes on a slow machine
SECONDS = 600

# imports what each of some programs imports, as if it was typed where no other one was before
IMPORTS = """
import os, runpy, sys
path = sys.path[1:]
for program in sys.argv[1:]:
    for name, module in [*sys.modules.items()]:
        if str(getattr(module, "__file__", None)).startswith(os.getcwd()):
            del sys.modules[name]
    sys.path[:] = [os.path.dirname(program), *path]
    runpy.run_path(program, run_name="imported")
"""

# what a module of the system does that is imported in place of one of the tests
TAKEN = "raise SystemExit(f'{__name__} of the system is imported')\n"


def programs() -> list[pathlib.Path]:
    """The programs of the tests that are written in Python."""
    found = [*ROOT.glob("tests/*"), ROOT / "tests" / "cases" / "run"]
    return sorted(
        file
        for file in found
        if file.is_file() and file.read_bytes().startswith(b"#!/usr/bin/python3\n")
    )


def names() -> set[str]:
    """The names by which modules of the tests could be imported. Python itself imports a
    `sitecustomize`.
    """
    return {file.stem for file in ROOT.glob("tests/**/*.py")} - {"__init__", "sitecustomize"} | {
        "tests",
        "debvote_tools",
    }


class NamesTest(unittest.TestCase):
    def check(self, *words: object):
        others = pathlib.Path(
            self.enterContext(tempfile.TemporaryDirectory(prefix="debvote-names-"))
        )
        self.assertLess({"debian", "parts", "terminal", "reference"}, names())
        for name in names():
            (others / f"{name}.py").write_text(TAKEN)
        where = {**os.environ, "PYTHONPATH": str(others), "PYTHONDONTWRITEBYTECODE": "1"}
        ended = subprocess.run(
            [sys.executable, *words],
            cwd=ROOT,
            capture_output=True,
            text=True,
            env=where,
            timeout=SECONDS,
        )
        self.assertEqual((ended.stderr, ended.returncode), ("", 0), ended.stdout[-2000:])

    def test_modules_of_the_system_with_the_same_names(self):
        self.assertGreater(len(programs()), 10)
        self.check("-c", IMPORTS, *programs())

    @pytest.mark.whole
    def test_they_do_not_stand_in_the_way_of_pytest(self):
        self.check("-m", "pytest", "--assert=plain", "--collect-only", "-q")
