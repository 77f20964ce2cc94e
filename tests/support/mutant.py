"""In a copy of the checkout by `tests/mutants`: which mutant is at work, and a plugin of pytest that notes what each test reaches.

The file `shared` has the number of the mutant at work, then a byte for each mutant, which is 1 once
it is reached. All processes of the tests map it, whatever they begin with and whoever runs them.
Then a mutant makes no system call, which strace would count.
"""

import json
import mmap
import resource
import time

# tests/mutants writes the folder of the copy here
FOLDER = "FOLDER"
# the bytes of the number; the first mutant has the number of the first byte after them
LENGTH = 4

with open(f"{FOLDER}/shared", "r+b") as file:
    SHARED = mmap.mmap(file.fileno(), 0)
ACTIVE = int.from_bytes(SHARED[:LENGTH], "big")
BEGAN = {}
FAILED = set()
# what the first test of a class reached before it began, as all of its tests share that
OF_CLASS = {}


def _mutant(number):
    SHARED[number] = 1
    return number == ACTIVE


def reached():
    return {number for number in range(LENGTH, len(SHARED)) if SHARED[number]}


def clear():
    SHARED[LENGTH:] = bytes(len(SHARED) - LENGTH)


class Templates(dict):
    """New elections that tests copy: each of them reaches what one reached that made it."""

    made = {}

    def __setitem__(self, key, folder):
        self.made[key] = reached()
        super().__setitem__(key, folder)

    def __getitem__(self, key):
        for number in self.made[key]:
            SHARED[number] = 1
        return super().__getitem__(key)


def spent():
    """The seconds of processor of this process and of those it waited for, and those of the clock."""
    used = [resource.getrusage(who) for who in (resource.RUSAGE_SELF, resource.RUSAGE_CHILDREN)]
    return sum(part.ru_utime + part.ru_stime for part in used), time.monotonic()


def note(**record):
    with open(f"{FOLDER}/records", "a") as records:
        print(json.dumps(record), file=records)


def pytest_collection_modifyitems(config, items):
    """Named tests run in the order in which they are named."""
    places = {name: place for place, name in enumerate(config.args)}
    items.sort(key=lambda item: places.get(item.nodeid, 0))


def pytest_collection_finish():
    """Notes for no test what imports reach, and what all forks share."""
    from tests.support import elections, forks

    elections.TEMPLATES = Templates()
    forks.read_ahead()
    note(test="", reached=[*reached()], seconds=0, clock=0, is_passed=True)


def pytest_runtest_logstart(nodeid):
    clear()
    BEGAN[nodeid] = spent()


def pytest_runtest_logreport(report):
    if report.when == "setup":
        OF_CLASS.setdefault(report.nodeid.rpartition("::")[0], reached())
    if report.failed:
        FAILED.add(report.nodeid)


def pytest_runtest_logfinish(nodeid):
    seconds, clock = (now - before for now, before in zip(spent(), BEGAN[nodeid]))
    found = reached() | OF_CLASS[nodeid.rpartition("::")[0]]
    is_passed = nodeid not in FAILED
    note(test=nodeid, reached=[*found], seconds=seconds, clock=clock, is_passed=is_passed)
