"""What pytest needs for these tests.

With -n all tests of a class run in one process, since a class makes its election once. At the end is a line for each reason for which
tests were skipped, and above pytest's own last line 'N passed, M failed', as the other programs of the tests print it.
"""

import collections
import locale
import os
import shutil
from collections.abc import Iterator

import pytest
from _pytest.terminal import TerminalReporter

from debvote_tools.cli import console

from tests.support import debian, program

# the classes that take longest begin first, so that none of them runs alone at the end
LONGEST = [
    "Sequences",
    "WhatHappened",
    "SecretByClicks",
    "Many",
    "LargestTest",
    "Meeting",
    "Damaged",
    "In_",
    "Lines",
    "Marked",
    "RandomTest",
    "Sending",
]

# which tests run where
MARKS = (
    "checked: it runs the program on each kind of input, in make test one with the checks of rt try",
    "proved: it needs the proved program, or the prover; make test leaves it out",
    "whole: a whole election, or what takes long and is tested smaller, too; make test leaves it out",
)


def pytest_configure(config: pytest.Config):
    for mark in MARKS:
        config.addinivalue_line("markers", mark)
    if packages := debian.missing():
        pytest.exit(f"type this first: sudo apt-get install -y {' '.join(packages)}", 2)
    if locale.getpreferredencoding(False).lower() not in ("utf-8", "utf8"):
        pytest.exit("pages, letters and tables are in UTF-8: type export PYTHONUTF8=1 first", 2)
    if words := program.missing():
        pytest.exit(words, 2)
    os.umask(0o022)
    # no test reaches a host that the system's certificates are for, and each run of a command reads them
    os.environ.update(SSL_CERT_FILE=os.devnull, SSL_CERT_DIR=os.devnull)
    # argparse looks for translations of each of its words
    os.environ["LANGUAGE"] = "C"
    if getattr(config.option, "numprocesses", None):
        config.option.dist = "loadscope"


@pytest.hookimpl(tryfirst=True)
def pytest_collection_modifyitems(items: list[pytest.Item]):
    def place(item: pytest.Item) -> int:
        name = item.parent.name if item.parent else ""
        return next(
            (place for place, start in enumerate(LONGEST) if name.startswith(start)), len(LONGEST)
        )

    items.sort(key=place)


@pytest.hookimpl(hookwrapper=True)
def pytest_runtest_protocol() -> Iterator[None]:
    """What a command sets for its process, such as the zone of times, a test that calls its functions leaves to no other test."""
    before = [
        (variable, variable.get())
        for variable in (console.ZONE, console.LEAVING_OUT, console.WHOSE)
    ]
    yield
    for variable, value in before:
        variable.set(value)


def pytest_terminal_summary(terminalreporter: TerminalReporter):
    stats = terminalreporter.stats
    reasons = collections.Counter(
        report.longrepr[2].removeprefix("Skipped: ") for report in stats.get("skipped", [])
    )
    # without these some tests look at less
    for tool, what in (("dot", "pictures"), ("nodejs", "recount.js")):
        if shutil.which(tool) is None and not any(why.startswith(tool) for why in reasons):
            reasons[f"{tool} is not installed, so nobody looked at {what}"] += 1
    for why, number in reasons.most_common():
        terminalreporter.write_line(f"skipped: {why} ({number})")
    failed = len(stats.get("failed", [])) + len(stats.get("error", []))
    terminalreporter.write_line(f"{len(stats.get('passed', []))} passed, {failed} failed")
