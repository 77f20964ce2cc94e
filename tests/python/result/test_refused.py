"""What debvote-publish refuses, and that a run that fails leaves nothing."""

import os
import pathlib
import signal
import subprocess
import sys
import time
from unittest import mock

from debvote_tools.debvote import Debvote
from debvote_tools.files import NewFolder, left_beside, remove_left
from debvote_tools.result.folder import BESIDE_PLACE

from tests.support import page_parts, publishing
from tests.support.publishing import (
    FILES,
    PLAIN_POLL,
    PROGRAM,
    plain_folder,
    publish,
    publish_files,
)

WIN = publishing.EXAMPLES / "plain_win"
POLL, BALLOTS = WIN / "poll.toml", WIN / "ballots"
AS_IT_IS = f'*) exec {PROGRAM} "$@" ;; esac'


class RefusedTest(publishing.PublishTest):
    def stand_in(self, name, text):
        """A folder with a program debvote of this text, and nothing of Graphviz."""
        folder = self.scratch / name
        folder.mkdir()
        (folder / "debvote").write_text(f"#!/bin/sh\n{text}\n")
        (folder / "debvote").chmod(0o755)
        return str(folder)

    def assert_refused(self, found, status, said):
        """A run ended with this status, and its fault has these words."""
        self.assertEqual((found[0], said in found[1], found[2]), ("", True, status), found[1])

    def test_what_is_refused(self):
        """What is refused leaves no folder, and nothing beside it."""
        folder = self.scratch / "refusals"
        (folder / "full").mkdir(parents=True)
        (folder / "full" / "file").touch()
        bad_poll, many, result = self.scratch / "bad.toml", self.scratch / "many", folder / "result"
        bad_poll.write_text("title = 1\n")
        many.write_bytes(b"\n" * 100_001)
        for status, said, *words in [
            (2, "it exists already", POLL, BALLOTS, folder / "full"),
            (2, "full/file: it exists already", POLL, BALLOTS, folder / "full" / "file"),
            (7, "the folder can't be made", POLL, BALLOTS, folder / "none" / "result"),
            (3, "poll refused", bad_poll, BALLOTS, result),
            (3, "none: it can't be read", folder / "none", BALLOTS, result),
            (4, "none: it can't be read", POLL, folder / "none", result),
            (4, "too many lines", POLL, many, result),
            (8, "casting option is not in the poll", POLL, BALLOTS, result, "--casting", "Zed"),
            (8, "which is not left; left is 1 Brest;", POLL, BALLOTS, result, "--casting", "Kochi"),
            (2, "--even-so", POLL, BALLOTS, result, "--even-so"),
            (2, "--casti", POLL, BALLOTS, result, "--casti", "Zed"),
            (2, "desks", POLL, BALLOTS, result, "--desks", "9"),
        ]:
            self.assert_refused(publish_files(*words), status, said)
            self.assertEqual(os.listdir(folder), ["full"], words)
        self.assertEqual(publish_files(POLL, BALLOTS, result, path="/nowhere")[2], 127)
        # other programs in place of debvote
        second = "recount.py, the second count, differs from debvote in its `{}`: {}; nothing was published"
        verified = "verify) echo verified ;;"
        for name, text, status, said in [
            ("not verified", 'verify) echo "differs at line 1"; exit 9 ;;', 9, "differs"),
            ("killed", 'count) echo "Poll: half"; kill -KILL $$ ;;', 128 + signal.SIGKILL, ""),
            ("another format", f'count) echo "Result: 1" ;; {verified}', 10, ""),
            # what debvote says, and says again when it is asked to verify it, the second count does
            # not
            (
                "count",
                f'count) {PROGRAM} "$@" | /bin/sed "s/by 4 to 3/by 5 to 2/" ;; {verified}',
                9,
                "line 22 is `  1 over 2 by 4 to 3`, where debvote has `  1 over 2 by 5 to 2`",
            ),
            (
                "standing",
                f'standing) {PROGRAM} "$@" | /bin/sed "/^gus/d" ;; {verified}',
                9,
                "line 7 is `gus 1,2,3,4`, where debvote has `(end)`",
            ),
        ]:
            path = self.stand_in(name, f"case $1 in {text} {AS_IT_IS}")
            said = second.format(name, said) if said.startswith("line") else said
            self.assert_refused(publish_files(POLL, BALLOTS, result, path=path), status, said)
            self.assertEqual(os.listdir(folder), ["full"], name)

    def test_a_folder_that_is_there(self):
        """An empty one is taken, by any name, and none that was published; an input may come from
        /dev/stdin.
        """
        place, link = self.scratch / "empty", self.scratch / "link"
        place.mkdir()
        link.symlink_to("empty")
        with open(BALLOTS) as ballots:
            path = self.stand_in("plain", f'exec {PROGRAM} "$@"')
            found = publish_files(POLL, "/dev/stdin", link, stdin=ballots, path=path)
        # without Graphviz
        self.assertEqual((found[2], "Graphviz" in found[1]), (0, True))
        self.assertIn("There is no picture", (place / "index.html").read_text())
        before = {file: file.read_bytes() for file in place.iterdir()}
        said = f"{place}/x: it would be in {place}, whose files are published as they are; nothing was published: name a folder outside"
        self.assert_refused(publish_files(POLL, BALLOTS, place / "x"), 2, said)
        self.assertEqual({file: file.read_bytes() for file in place.iterdir()}, before)

    def test_a_run_that_can_not_say_or_is_asked_to_end(self):
        folder = self.scratch / "ended"
        folder.mkdir()
        words = [sys.executable, publishing.PUBLISH, "--poll", POLL, "--ballots", BALLOTS]
        how = {"stderr": subprocess.PIPE, "text": True, "timeout": publishing.SECONDS}
        env = {**os.environ, "PATH": publishing.PATH}
        with open("/dev/full", "w") as full:
            ended = subprocess.run([*words, folder / "result"], stdout=full, env=env, **how)
        said = f"debvote-publish: the output failed; the folder {folder / 'result'} was made nevertheless: look at its page index.html"
        self.assertEqual((ended.returncode, ended.stderr.splitlines()[-1:]), (7, [said]))
        slow = f'case "$*" in *ballots.txt*) exec /bin/sleep 60 ;; {AS_IT_IS}'
        env = {"PATH": self.stand_in("slow", slow)}
        started = subprocess.Popen([*words, folder / "late"], env=env, start_new_session=True)
        while len(os.listdir(folder)) < 2 and started.poll() is None:
            time.sleep(0.05)
        started.terminate()
        self.assertEqual(started.wait(publishing.SECONDS), 128 + signal.SIGTERM)
        self.assertEqual(os.listdir(folder), ["result"])

    def test_numbers_that_no_float_holds(self):
        (self.scratch / "none").touch()
        poll = self.scratch / "numbers.toml"
        second = [sys.executable, "-I", publishing.ROOT / "tests" / "reference.py"]
        refused = ("debvote: poll refused: syntax\n", 3)
        for number, wanted in {
            "-0.1e999": refused,
            "[{a = 1_0e400}]": refused,
            "1e308": ("", 0),
            "1e-400": ("", 0),
            "-inf": ("", 0),
        }.items():
            poll.write_text(f"{PLAIN_POLL}note = {number}\n")
            words = ["count", "--poll", poll, "--ballots", self.scratch / "none"]
            for program in ([PROGRAM], second):
                self.assertEqual(publishing.run([*program, *words])[1:], wanted, number)

    def test_refused_polls(self):
        """Where the poll is refused, the fault says what tells more (also that two files are
        exchanged), and nothing is made.
        """
        folder = plain_folder(self.scratch / "refused")
        (folder / "bad.toml").write_text("title = 1\n")
        (folder / "new.toml").write_text(PLAIN_POLL + 'note = "\\e"\n')
        before = sorted(os.listdir(folder))
        explain = "{}: poll refused: {}; nothing was published: debvote explain --poll {} says what"
        for poll, ballots, said in [
            ("ballots", "poll.toml", explain.format("ballots", "syntax", "ballots")),
            ("bad.toml", "ballots", explain.format("bad.toml", "key title", "bad.toml")),
            ("new.toml", "ballots", "new.toml: it can't be read (Unescaped '\\' in a string"),
        ]:
            found = publish(folder, "--poll", poll, "--ballots", ballots, "result")
            self.assert_refused(found, 3, f"debvote-publish: {said}")
        self.assertEqual(sorted(os.listdir(folder)), before)

    def test_secret_votes(self):
        roll = ["0" * 31 + digit for digit in "0123"]
        one = PLAIN_POLL.replace('"ada"', f'"{roll[0]}"') + "secret = true\n"
        poll = one
        for name, alias in zip(("ben", "cleo", "dan"), roll[1:]):
            poll = poll.replace(name, alias)
        once = f"{roll[1]} 2,1,3\n{roll[0]} 1,2,3\n{roll[2]} 1,2,3\n"
        # one name is enough; whoever publishes a secret vote leaves out what is late
        names = "poll.toml: the vote is secret, and this would publish each name with its vote; publish it from its election, "
        late = poll.replace("secret", "last_envelope = 3\nsecret")
        more = "a line of this secret vote does not count"
        for name, text, ballots, said in (
            ("names", one, "", names),
            ("twice", poll, f"{once}{roll[0]} 2,1,3\n", f"{more}, or counts more than once"),
            ("late", late, once, more),
        ):
            folder = plain_folder(self.scratch / name, text, ballots)
            self.assert_refused(publish(folder, *FILES, "result"), 9, said)
        folder = plain_folder(self.scratch / "aliases", poll, once)
        self.assertEqual(publish(folder, *FILES, "result")[1:], ("", 0))
        sections = page_parts.sections_of((folder / "result" / "index.html").read_text())
        self.assertNotIn("Who-voted", sections)
        said = "What was refused or came late is not published."
        self.assertIn(said, sections["Refused-lines"].text())
        absent = [item.text() for item in sections["Find-your-ballot"].all("li")]
        self.assertEqual(absent, [roll[3]])

    def test_a_folder_that_another_run_takes_away(self):
        (self.scratch / "file").touch()
        found = [self.scratch / "gone", self.scratch / "file", self.scratch.parent]
        with mock.patch.object(pathlib.Path, "glob", return_value=found):
            self.assertEqual(left_beside(self.scratch, "left"), [self.scratch.parent])

    def test_a_folder_that_gets_no_place(self):
        """The one that was published before stays there."""
        place = self.scratch / "before" / "result"
        place.mkdir(parents=True)
        (place / "index.html").touch()

        def after_another_run(target):
            """What is aside for a moment is not taken for what a killed run has left."""
            remove_left(target, BESIDE_PLACE)
            raise FileNotFoundError

        late = mock.Mock(rename=after_another_run)
        for new in (self.scratch / "before" / "none", late):
            with self.assertRaises(FileNotFoundError):
                NewFolder(new, BESIDE_PLACE).take_place(place)
            self.assertEqual([*place.parent.iterdir()], [place])
            self.assertEqual([*place.iterdir()], [place / "index.html"])

    def test_the_program_beside_is_taken_first(self):
        (self.scratch / "debvote").touch(0o755)
        with mock.patch.dict(os.environ, {"PATH": publishing.PATH}):
            found = Debvote(self.scratch, self.scratch).path
        self.assertEqual(found, str(self.scratch / "debvote"))
