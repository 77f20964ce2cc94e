"""`new`: the folder, its files and modes, and what stops it; and what `new`, `export` and `backup` leave if they are killed."""

import os
import sys

from debvote_tools.files import NEW, whole_folder

from tests.support import elections


class New(elections.ElectionTest):
    def begin(self):
        self.folder.mkdir()

    def test_folder(self):
        """Nobody else may read what is in it, whatever the umask is; a folder that is there may be empty."""
        self.addCleanup(os.umask, os.umask(0))
        (self.folder / "empty").mkdir()
        for name in ("spring", "empty"):
            self.assertIn(f"Next: cd {name}", self.done(f"new {name}").output)
            folder = self.folder / name
            modes = {file.name: file.stat().st_mode & 0o777 for file in folder.iterdir()}
            files = ["election.db", "members.csv", "poll.toml"]
            self.assertEqual(modes, dict.fromkeys(files, 0o600))
            self.assertEqual(folder.stat().st_mode & 0o777, 0o700)
            self.done("log --check", cwd=folder)

    def test_language(self):
        self.assertIn("will be in German", self.done("new --language de wahl").output)
        self.write("wahl/poll.toml", elections.POLL.replace("At the lake", "Zum Bärensee"))
        self.write("wahl/members.csv", "who,mail\nJürgen Groß,j@club.example\n")
        for command, said in (("roll", "juergen-gross"), ("check", "plain: Zum Baerensee")):
            self.assertIn(said, self.done(command, cwd=self.folder / "wahl").output)
        publish = elections.PUBLISH, "--poll", "p", "--ballots", "b"
        for words in ((elections.ELECTION, "new"), publish):
            ended = self.run_program(sys.executable, *words, "f", "--language", "it")
            self.assertIn("--language: invalid choice: 'it'", ended.faults)

    def test_nothing_is_overwritten(self):
        self.done("new spring")
        (self.folder / "full").mkdir()
        for name in ("full/file", "file"):
            self.write(name, "kept")
        (self.folder / "link").symlink_to("nowhere")
        before = self.contents()
        stops = {
            "spring": "an election already",
            "full": "not empty",
            "file": "not a folder",
            "link": "not a folder",
            "nowhere/else": "nowhere/else",
        }
        for name, words in stops.items():
            self.refused(f"new {name}", words, "nothing was changed", status=2)
        self.refused("new --folder x y", "--folder", status=2)
        self.assertEqual(self.contents(), before)

    def test_unfinished_on_a_full_disk(self):
        for when in (1, 3, 5):
            full = f"inject=pwrite64:error=ENOSPC:when={when}+"
            ended = self.traced("-e", full, words=["new spring"])
            self.assertEqual((ended.status, list(self.folder.iterdir())), (7, []), ended)

    def test_no_command_and_a_misspelt_one(self):
        ended = self.election(cwd=self.scratch)
        self.assertEqual((ended.status, "If something is wrong:" in ended.output), (2, True))
        for word, said in {
            "stauts": "'stauts'; did you mean status?",
            "Counts": "'Counts'; did you mean count?",
            "x": "'x'",
        }.items():
            ended = self.election(word, cwd=self.scratch)
            self.assertEqual(ended.status, 2)
            self.assertTrue(ended.faults.endswith(f" error: there is no command {said}\n"), ended)

    def test_a_draft_says_what_it_lacks(self):
        """In its own words: nothing that debvote says of the poll that it would be."""
        then = "fill it in with an editor, then run debvote-election check\n"
        of_all = f"it does not say yet what the vote is about (title), what can be chosen (options), how great a majority each option needs (ratios), the default option (default) and the quorum (quorum); {then}"
        self.done("new one")
        self.done("new --questions 2 two")
        ended = self.election("check", cwd=self.folder / "one")
        said = "there are no electors yet; run debvote-election roll first\n"
        said = f"debvote-election: {said}debvote-election: poll.toml: {of_all}"
        self.assertEqual((ended.faults, ended.status), (said, 9))
        faults = self.election("check", cwd=self.folder / "two").faults
        self.assertIn(f"polls/A.toml: {of_all}debvote-election: polls/B.toml: {of_all}", faults)
        empty = "polls/title.txt: it is empty; write into it one line, what the whole vote is about"
        self.assertIn(empty, faults)
        # one that is half filled in, with a key that is misspelt
        poll = elections.POLL.replace("quorum", "qorum").replace('"Further discussion"', '" "')
        self.write("one/poll.toml", poll)
        faults = self.election("check", cwd=self.folder / "one").faults
        said = f"it does not say yet the default option (default) and the quorum (quorum); {then}"
        for part in (said, "key qorum is not read; did you mean quorum?"):
            self.assertIn(part, faults)
        self.assertEqual(faults.count("poll.toml: "), 2, faults)

    def test_commands_before_the_call(self):
        self.done("new spring")
        self.write("spring/lines", "ada 1,2,3,4\n")
        before, folder = self.contents(), self.folder / "spring"
        acting = (
            "add --yes lines|desk|undo|strike 1 --because x|show ada|close|count|publish|export x"
        )
        for typed in acting.split("|"):
            ended = self.election(typed, cwd=folder)
            self.assert_fault(ended, 9, "there is no call for votes yet")
        self.assertEqual(self.contents(), before)
        self.assertIn("Call for votes: not made yet", self.done("status", cwd=folder).output)


class Whole(elections.ElectionTest):
    def test_what_a_killed_run_left_beside_its_target_is_taken_away(self):
        """By the next run, and never what a run has that goes on."""
        out, there = self.scratch / "out", []
        out.mkdir()

        def left(*names: str) -> list[str]:
            """What is there beside these, which stay."""
            there.extend(names)
            found = {file.name for file in out.iterdir()}
            self.assertLessEqual({*there}, found)
            return sorted(found.difference(there))

        with whole_folder(out / "lasting") as lasting:
            (lasting / "some").touch()
            # one that is empty, and is not locked: of a run that has just begun, and of one that was killed then
            young, old = (out / f"{NEW}{name}" for name in ("young", "old"))
            for folder in (young, old):
                folder.mkdir()
            os.utime(old, (0, 0))
            self.done("backup", out / "whole")
            self.assertEqual(left(lasting.name, young.name, "whole"), [])
            for command, call in (("new", "fsync"), ("export", "fsync"), ("backup", "pwrite64")):
                killed = f"inject={call}:signal=KILL:when=2"
                ended = self.traced("-e", killed, words=(command, out / command))
                self.assertEqual(ended.status, -9)
                [name] = left()
                self.assertTrue(name.startswith(".debvote-"))
                self.done(command, out / command)
                self.assertEqual(left(command), [])
            # where only the name of what is whole may not be on the disk yet, nothing else is left
            killed = "inject=fsync:signal=KILL:when=1"
            ended = self.traced("-e", killed, words=("backup", out / "again"))
            self.assertEqual((ended.status, left("again")), (-9, []))
        self.done("status", "--folder", out / "new")
        self.assertEqual((out / "backup").stat().st_mode & 0o777, 0o600)

    def test_faults_name_what_was_typed(self):
        self.done("close --yes")
        place = self.scratch / "no" / "such"
        for command in ("export", "backup", "publish --force --because none"):
            said = f"{place}: No such file or directory; it was not changed"
            self.assert_fault(self.election(*command.split(), place), 7, said)
