"""What the tests of debvote-publish share: a folder for each test, and the programs."""

import contextlib
import io
import json
import os
import pathlib
import sys
import tempfile
import unittest.mock

from debvote_tools.files import folder_beside
from debvote_tools.poll.questions import Questions
from debvote_tools.poll.sealed import read_plain
from debvote_tools.result import command_line, folder
from debvote_tools.result.facts import PublishedWords, QuestionFacts, VoteFacts
from debvote_tools.text.language import language_of

from tests.support import at_browser, expecting, forks
from tests.support.elections import HAS_PICTURES, NO_PICTURE, PUBLISH, SECONDS
from tests.support.program import PROGRAM, ROOT

CASES = ROOT / "tests" / "cases"
EXAMPLES = ROOT / "examples"
PATH = os.pathsep.join([str(PROGRAM.parent), os.environ["PATH"]])

# the greatest size of the page of the largest election, in bytes
LARGEST_PAGE = 7_000_000

# a poll with three options and four electors, and three ballots for it
PLAIN_POLL = """title = "Plain"
options = ["A", "B"]
ratios = [1, 1]
default = "N"
quorum = 1
roll = ["ada", "ben", "cleo", "dan"]
"""
PLAIN_BALLOTS = "ada 1,2,3\nben 2,1,3\ncleo 1,2,3\n"

FILES = ["--poll", "poll.toml", "--ballots", "ballots"]


def run(words, path=PATH, **how):
    given = {
        "capture_output": True,
        "text": True,
        "timeout": SECONDS,
        "env": {**os.environ, "PATH": path},
    }
    ended = forks.run(list(map(str, words)), **given, **how)
    return ended.stdout, ended.stderr, ended.returncode


def publish(folder, *words, **how):
    """The output of debvote-publish in a folder, without that about a picture that can't be drawn
    here, and its status.
    """
    output, faults, status = run([sys.executable, PUBLISH, *words], cwd=folder, **how)
    return output, faults if HAS_PICTURES else faults.replace(NO_PICTURE, ""), status


def publish_files(poll, ballots, folder, *more, **how):
    """The output of debvote-publish for these files, and its status."""
    return run(
        [sys.executable, PUBLISH, "--poll", poll, "--ballots", ballots, *more, folder], **how
    )


def folder_with(folder, example):
    """A folder with the two files of an example."""
    return plain_folder(
        folder, *((EXAMPLES / example / name).read_text() for name in ("poll.toml", "ballots"))
    )


def plain_folder(folder, poll=PLAIN_POLL, ballots=PLAIN_BALLOTS):
    folder.mkdir(parents=True)
    (folder / "poll.toml").write_bytes(poll.encode())
    (folder / "ballots").write_bytes(ballots.encode())
    return folder


def plain(values):
    """A poll in plain form."""
    return "".join(
        f"{key} = {json.dumps(value, ensure_ascii=False)}\n" for key, value in values.items()
    ).encode()


def publish_questions(target, polls, ballots, language, *, motions, castings):
    """Publishes several questions, whose polls are in plain form, without pictures, and returns the
    letter of the result.
    """
    questions = Questions(
        {label: read_plain(poll, motion=label in motions) for label, poll in polls.items()},
        "Several questions",
    )
    vote = VoteFacts(
        questions, language=language_of(language), words=PublishedWords(castings=castings)
    )
    facts = [QuestionFacts(vote, label, ballots[label]) for label in polls]
    without_graphviz = unittest.mock.patch.dict(os.environ, {"PATH": str(PROGRAM.parent)})
    with folder_beside(target, folder.BESIDE_PLACE) as new, contextlib.redirect_stderr(
        io.StringIO()
    ), without_graphviz:
        filled = folder.filled(new.folder, vote, facts, PROGRAM.parent, is_forced=True)
        new.take_place(target)
    return filled.letter.decode()


class PublishTest(expecting.Expecting):
    """Tests with one folder for all, in which each makes its own folders."""

    @classmethod
    def setUpClass(cls):
        cls.scratch = pathlib.Path(
            cls.enterClassContext(tempfile.TemporaryDirectory(prefix="debvote-publish-"))
        )


@at_browser.NEEDS_BROWSER
class ResultPageTest(PublishTest):
    """Tests of pages in a browser."""

    @classmethod
    def setUpClass(cls):
        super().setUpClass()
        cls.window = cls.enterClassContext(at_browser.Window(800, 900))

    def page_of(self, folder=None, change=None):
        """The window, with the page, in which the first text of a change is the other one."""
        text = ((folder or self.folder) / "result" / "index.html").read_text()
        changed = text.replace(*change, 1) if change else text
        self.assertEqual(changed != text, change is not None)
        # a changed page would not run, since its policy names its scripts
        file = self.scratch / "page.html"
        file.write_text(changed)
        self.window.open(file)
        return self.window

    def published(self, place, name, **changes):
        """A folder with the result of the files of another one, with what an election adds to
        them.
        """
        programs = PROGRAM.parent
        files = {"poll": str(place / "poll.toml"), "ballots": str(place / "ballots")}
        facts = command_line.facts_of(
            command_line.Arguments(**files, casting=None, desks=1, language="en", target="result"),
            programs,
        )
        of_vote = {key: changes.pop(key) for key in [*changes] if key in facts.vote._fields}
        vote = facts.vote._replace(**of_vote)
        made_folder = plain_folder(self.scratch / name)
        with folder_beside(made_folder / "result", folder.BESIDE_PLACE) as new:
            folder.filled(
                new.folder, vote, [facts._replace(vote=vote, **changes)], programs, is_forced=True
            )
            new.take_place(made_folder / "result")
        return made_folder
