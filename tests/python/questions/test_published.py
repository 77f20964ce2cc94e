"""The closing letter, the count and the published folder of several questions."""

import csv
import hashlib
import html
import io
import json
import os
import pathlib
import re
import subprocess
import sys

import pytest

from debvote_tools.call.secret import alias_of

from tests.support import at_browser
from tests.support.elections import HAS_PICTURES, PUBLISH
from tests.support.program import PROGRAM
from tests.support.questions import FEE, QuestionsTest, answering

# A is won, B and C are ties
BALLOTS = [
    "ada A 1,2 B 1,2,3 C 1,2,3,4",
    "ben A 1,2 B 2,1,3",
    "cleo A 2,1 C 2,1,3,4",
    "ben C 1,1,3,2",
    "cleo C 2,1,4,3",
]
TIES = {"B": "'Ada Lovelace', 'Mary Somerville'", "C": "Slate, Tiles"}
CAST = "--cast-by 'The chair' --cast-on 2026-11-24"
MARY = f"--casting 'B=Mary Somerville' {CAST}"

# what a folder of one question has
FILES = "READING-A-SHEET.md SHA256SUMS ballots.txt closed.txt index.html poll.toml recount.js recount.py result.json sheet.txt standing.txt votes.csv".split()
ABOVE = ["SHA256SUMS", "index.html", "polls.sha256", "result.json", "title.txt"]

# the lines of a text that begin with checksums
SUM = re.compile(r"(?m)^ *([0-9a-f]{64})(?:  (\S+))?$")


class PublishedTest(QuestionsTest):
    def setUp(self):
        super().setUp()
        self.add_lines(*BALLOTS)

    def in_shell(self, command: str, folder: str = "result") -> str:
        """What a command answers in a folder, in which no line is a fault."""
        ended = subprocess.run(
            ["bash", "-c", f"set -o pipefail; {command}"],
            cwd=self.folder / folder,
            capture_output=True,
            text=True,
        )
        self.assertEqual((ended.returncode, ended.stderr), (0, ""), (command, ended))
        return ended.stdout

    def sums_in(self, name: str) -> list[tuple[str, str]]:
        return SUM.findall(self.read(name).decode())

    def last_command(self, name: str) -> str:
        """The last line of a letter that is to be copied."""
        return re.findall(r"(?m)^  +(.*\S)", self.read(name).decode())[-1]

    def publish(self, typed: str = "", status: int = 0) -> str:
        ended = self.election(f"publish {typed}")
        self.assertEqual(ended.status, status, ended)
        return ended.output + ended.faults


class OpenTest(PublishedTest):
    def test_what_is_counted_and_closed(self):
        sheets = self.sheets()
        for label in self.polls:
            with self.subTest(label):
                alone = self.election("count", "--question", label.lower())
                self.assertEqual((alone.output, alone.status), (sheets[label], label != "A"))
                self.assertEqual(sheets[label], self.sheet_of(label, answering(label, BALLOTS)))
        said = self.done("close --early").output
        closed = "3 lines of question A, 2 lines of question B, 4 lines of question C"
        self.assertIn(f"Closed: {closed} came in time.", said)
        # by the letter, which comes before the count, each file of the result can be checked
        listed = self.sums_in("letters/closed.txt")
        names = ["polls.sha256", "A/ballots.txt", "B/ballots.txt", "C/ballots.txt", ""]
        self.assertEqual([name for _, name in listed], names)
        [digest] = [act.digest for act in self.book.acts() if act.name == "close"]
        self.assertEqual(listed[-1][0], digest)
        self.assertEqual(
            self.sums_in("call/polls.sha256"),
            SUM.findall(self.in_shell("sha256sum ?/poll.toml title.txt", "call")),
        )
        letter = self.read("letters/closed.txt")
        self.assertIn(b"Lines in time, by question: 3 (A), 2 (B), 4 (C).", letter)
        for digest, name in listed[1:-1]:
            self.assertIn(f"Checksum of the ballots of question {name[0]}: {digest}\n", said)
        self.publish(status=1)
        answered = self.in_shell(self.last_command("letters/closed.txt"))
        self.assertEqual(SUM.findall(answered), listed[:-1])
        for label in self.polls:
            self.assertEqual(self.read(f"result/{label}/closed.txt"), letter)
            self.assertEqual(self.read(f"result/{label}/sheet.txt").decode(), sheets[label])

    @pytest.mark.whole
    def test_the_page_of_all_questions(self):
        """It has no list of options, so none has a number there; and it names each result of before its close, of all questions."""
        self.done("close --early")
        self.publish(status=1)
        page = self.text("result/index.html")
        self.assertNotIn("<i>", page)
        self.assertIn("<bdi>Ada Lovelace</bdi> against <bdi>Mary Somerville</bdi>: ", page)
        checksum = hashlib.sha256(self.read("result/SHA256SUMS")).hexdigest()
        # a page of one question tells what was done since then, too
        self.publish(MARY, status=1)
        self.assertNotIn(checksum, self.text("result/index.html"))
        self.assertIn(checksum, self.text("result/B/index.html"))
        self.done("reopen --because 'a letter was forgotten'")
        self.done("close --early")
        self.publish(f"{MARY} result-2", status=1)
        page = re.sub("<[^>]*>", "", self.text("result-2/index.html"))
        ended = (
            "A Winner: Yes, 72 Euro. B A tie: Ada Lovelace, Mary Somerville. C A tie: Slate, Tiles."
        )
        self.assertIn(
            f"A result was published, whose SHA256SUMS has the checksum {checksum}. {ended}", page
        )
        page = re.sub("<[^>]*>", "", self.text("result-2/B/index.html"))
        self.assertIn(f"the checksum {checksum}. B A tie: Ada Lovelace, Mary Somerville.", page)
        page = self.text("result/B/index.html")
        self.assertIn(f'<a href="../index.html">{self.title}</a> · <b>B</b>', page)

    def test_names_of_questions_and_casting_votes(self):
        said = "there is no question D; nothing was counted: name one of A, B, C"
        self.refused("count --question D", said, status=2)
        said = "no question has this label; nothing was counted: write it as A=NAME; the labels are A, B, C"
        for casting in ("Slate", "D=Slate", "=Slate"):
            self.refused(f"count --casting {casting}", said, status=8)
        said = "--casting=B=Slate: no option has this name"
        self.refused(f"publish --casting B=Slate {CAST}", said, "'Ada Lovelace'", status=8)
        twice = "--casting 'B=Ada Lovelace' --casting 'b=Mary Somerville'"
        said = (
            "--casting='b=Mary Somerville': question B has the casting vote 'Ada Lovelace' already"
        )
        for words, done in (("count", "counted"), (f"publish {CAST}", "published")):
            self.refused(
                f"{words} {twice}", said, f"nothing was {done}: give one of them", status=8
            )
        both = "; ".join(
            f"question {label} is a tie between {names}" for label, names in TIES.items()
        )
        who = "--cast-by WHO --cast-on DATE"
        chosen = f"the holder of the casting vote chooses one of them: debvote-election publish --casting B=NAME {who} --casting C=NAME {who}"
        self.done("close --early")
        self.say_done()
        first = "Next: debvote-election publish, and debvote-election letters --send, so that everybody sees the tie before the casting vote; then "
        self.assertEqual(self.election("count").faults, f"{first}{both}; {chosen}\n")
        ways = " or ".join(
            f"debvote-election publish --casting {name} {who} --casting C=Tiles {who}"
            for name in ("'B=Ada Lovelace'", "'B=Mary Somerville'")
        )
        self.assertEqual(
            self.election("count --casting C=Tiles").faults,
            f"{first}question B is a tie between {TIES['B']}; the holder of the casting vote chooses one of them: {ways}\n",
        )
        ended = self.election("count --casting c=Tiles --casting 'B=Mary Somerville'")
        self.assertEqual((ended.status, ended.output.count("by casting vote")), (0, 2))

    def test_the_folder(self):
        self.done("close --early")
        self.write("about.txt", "Certified by the board.")
        said = self.publish(f"{MARY} --about about.txt", status=1)
        self.assertIn(
            "A: Winner: 1 Yes, 72 Euro\nverified\nB: Winner: 2 Mary Somerville by casting vote\nverified, casting vote 2 Mary Somerville\nC: Tie: 1 2",
            said,
        )
        self.assertIn("\nNext: 3 receipts are not written: ", said)
        ways = (
            f"debvote-election publish --casting 'B=Mary Somerville' --cast-by 'The chair' --cast-on 2026-11-24 --casting C={name} --cast-by WHO --cast-on DATE"
            for name in ("Slate", "Tiles")
        )
        said = f"Next: question C is a tie between Slate, Tiles; the holder of the casting vote chooses one of them: {' or '.join(ways)}\n"
        self.assertEqual(self.next_told(), said)
        result = self.folder / "result"
        files = (str(file.relative_to(result)) for file in result.rglob("*") if file.is_file())
        files = sorted(files)
        wanted = sorted([*ABOVE, *(f"{label}/{name}" for label in self.polls for name in FILES)])
        odd = ("late.txt", "picture.svg")
        self.assertEqual([name for name in files if not name.endswith(odd)], wanted)
        for name in ("title.txt", "polls.sha256", "A/poll.toml", "B/poll.toml", "C/poll.toml"):
            self.assertEqual(self.read(f"result/{name}"), self.read(f"call/{name}"), name)
        # the letter names two files, which bind all others
        letter = self.read("letters/result.txt").decode()
        command = next(line for line in letter.splitlines() if line.startswith("  sha256sum"))
        answered = self.in_shell(command)
        self.assertEqual(SUM.findall(answered), SUM.findall(letter))
        self.assertEqual(sorted([*re.findall("(?m)^(.*): OK$", answered), "SHA256SUMS"]), files)
        self.assertEqual(self.in_shell("sha256sum -c polls.sha256").count("OK"), 4)
        for part in (
            "Question A: Raise the fee to 72 Euro\nWinner: Option 1: Yes, 72 Euro.",
            "Question C: A new roof\nNo option has won yet:",
            'that of "The chair"',
        ):
            self.assertIn(part, letter)
        data = json.loads(self.read("result/result.json"))
        self.assertEqual((data["title"], list(data["questions"])), (self.title, list(self.polls)))
        for label, winner, left in (("A", 1, [1]), ("B", 2, [1, 2]), ("C", None, [1, 2])):
            outcome = data["questions"][label]["outcome"]
            self.assertEqual((outcome["winner"], outcome["left"]), (winner, left))
            self.assertEqual(
                data["questions"][label]["checksum"],
                self.in_shell(f"sha256sum {label}/SHA256SUMS").split()[0],
            )
            self.assertEqual(
                outcome, json.loads(self.read(f"result/{label}/result.json"))["outcome"]
            )
        # what those who publish say of the whole is told once
        told = [
            file.parent.name
            for file in (self.folder / "result").rglob("index.html")
            if "Certified by the board." in file.read_text()
        ]
        self.assertEqual(told, ["result"])
        self.assert_each_counts()

    def assert_each_counts(self):
        """The folder of each question is that of a vote: all programs count it."""
        files = "--poll poll.toml --ballots ballots.txt"
        words = f"{files} --sheet sheet.txt"
        for label in self.polls:
            for command in (f"{PROGRAM} verify {words}", "sha256sum --quiet -c SHA256SUMS"):
                self.in_shell(command, f"result/{label}")
        folder = "result/B"
        place, made = self.folder / folder, self.scratch / "given"
        given = (f"--poll={place}/poll.toml", f"--ballots={place}/ballots.txt")
        casting = ("--casting", "Mary Somerville")
        self.run_program(sys.executable, PUBLISH, *given, *casting, made)
        for name in ("sheet.txt", "standing.txt", "votes.csv", "result.json"):
            self.assertEqual((made / name).read_bytes(), self.read(f"{folder}/{name}"), name)

    @pytest.mark.whole
    def test_again_and_another_casting_vote(self):
        self.done("close --early")
        self.publish(f"{MARY} --casting C=Slate")
        before, act = self.contents(), self.last_act()
        self.assertIn("as it was published before", self.publish())
        self.assertEqual((self.contents(), self.last_act()), (before, act))
        # a casting vote that was another one is doubtful where it was
        said = "question C: an earlier publication has a casting vote for Slate"
        again = f"{MARY} --casting C=Slate --cast-by"
        other = f"{MARY} --casting C=Tiles"
        for typed in (MARY, other):
            self.refused(f"publish {typed}", said, again)
        self.assertEqual(self.election("publish --language fr").faults.count(again), 2)
        self.publish(f"{other} --force --because 'it was noted wrongly'")
        self.assertEqual(self.doubted(), ["C"])
        self.assertIn("Made the folder", self.publish())
        said = "is not what this election has published last"
        for name in ("B/ballots.txt", "C/late.txt", "D/poll.toml", "more.txt"):
            file = self.folder / "result" / name
            kept = file.read_bytes() if file.is_file() else b""
            file.parent.mkdir(exist_ok=True)
            file.write_bytes(b"other\n")
            with self.subTest(name):
                self.refused("publish", said, status=2)
            file.unlink()
            if kept:
                file.write_bytes(kept)
        self.refused("publish", said, status=2)
        (self.folder / "result" / "D").rmdir()
        self.assertIn("as it was published before", self.publish())

    @pytest.mark.whole
    def test_one_casting_vote_after_the_other(self):
        """The command that is told for the second has the first, without which that question would be a tie again."""
        self.done("close --early")
        first = "--casting 'B=Ada Lovelace'"
        eve = "--cast-by=-Eve --cast-on 2026-11-23"
        self.publish(f"{first} {eve}", status=1)
        told = f"publish {first} {eve} --casting C=NAME --cast-by WHO --cast-on DATE"
        both = f"chooses one of them: debvote-election {told.replace('NAME', 'Slate')} or debvote-election {told.replace('NAME', 'Tiles')}\n"
        self.assertIn(both, self.next_told())
        self.assertIn(both, self.election(f"count {first}").faults)
        found = self.done(
            told.replace("NAME", "Tiles").replace("WHO", "Ida").replace("DATE", "2026-11-24")
        ).output
        self.assertIn("B: Winner: 1 Ada Lovelace by casting vote\n", found)
        self.assertIn("C: Winner: 2 Tiles by casting vote\n", found)
        self.assertEqual(self.holders(), [("-Eve", "23"), ("Ida", "24")])

    def holders(self) -> list[tuple[str, str]]:
        """Whose each casting vote was, and on which day of the month: all that is published says the same."""
        told = re.compile(r'the casting vote was that of "([^"]+)", given on (\d+) November 2026')
        letter, *pages = (
            told.findall(html.unescape(self.text(name)))
            for name in (
                "letters/result.txt",
                "result/index.html",
                *(f"result/{label}/index.html" for label in self.polls),
            )
        )
        self.assertEqual([letter, *pages], [letter, letter, [], letter[:1], letter[1:]])
        return letter

    @pytest.mark.whole
    def test_casting_votes_of_two_holders(self):
        """What is given once holds for all; what is given as often as --casting is said of each in its order."""
        self.done("close --early")
        tiles, lovelace = "--casting C=Tiles", "--casting 'B=Ada Lovelace'"
        ida = "--cast-by Ida --cast-on 2026-11-23"
        ben = "--cast-by Ben --cast-on 2026-11-24"
        votes, act = f"{tiles} {lovelace}", self.last_act()
        how = "nothing was published: give it once for all, or once for each --casting, in their order"
        three = self.election(f"publish {votes} {ida} {ben} {ida}").faults.splitlines()
        self.assertEqual(
            three,
            [
                f"debvote-election: {one}: 3 are given, and of --casting 2; {how}"
                for one in ("--cast-by", "--cast-on")
            ],
        )
        for typed, said in {
            f"{votes} {ida} --cast-on 2026-11-24 --cast-on 2026-11-24": f"--cast-on: 3 are given, and of --casting 2; {how}",
            f"{tiles} {ida} --cast-by Ben": f"--cast-by: 2 are given, and of --casting 1; {how}",
            f"{votes} --cast-by Ida --cast-by Ben": "say it with --cast-by",
            f"{votes} {ida} --cast-by Ben --cast-on 2999-01-01": "--cast-on: 2999-01-01 is in the future",
        }.items():
            self.refused(f"publish {typed}", said, status=2)
        self.assertEqual(self.last_act(), act)
        self.publish(f"{votes} {ida} {ben}")
        self.assertEqual(self.holders(), [("Ben", "24"), ("Ida", "23")])
        words, before = self.acts()[-1][1]["words"], self.contents()
        self.assertEqual(
            (words["cast_by"], words["cast_on"]),
            ({"B": "Ben", "C": "Ida"}, {"B": "2026-11-24", "C": "2026-11-23"}),
        )
        # each option in the place of another, with what belongs to it, is the same
        for same in ("", f"{votes} {ida} {ben}", f"{lovelace} {ben} {tiles} {ida}"):
            self.assertIn("as it was published before", self.publish(same))
            self.assertEqual(self.contents(), before)
        # holder and day of the same vote may be put right
        self.publish(f"{votes} --cast-by Ida --cast-on 2026-11-22 --cast-on 2026-11-24")
        self.assertEqual(self.holders(), [("Ida", "24"), ("Ida", "22")])
        self.publish(f"{votes} {ben}")
        self.assertEqual(self.holders(), [("Ben", "24"), ("Ben", "24")])
        # what was published last before a reopen is told after it, too
        self.done("reopen --because 'a letter was forgotten'")
        self.done("close --early")
        self.say_done()
        told = f"; then debvote-election publish {lovelace} {ben} {tiles} {ben} result-2\n"
        self.assertIn(told, self.election(f"count {votes}").faults)

    def doubted(self) -> list[str]:
        """The questions with a doubt, by the first page; the page of each has it, too."""
        page = self.text("result/index.html")
        parts = dict(re.findall(r'(?s)<h2 id="Question-(.)">(.*?)</section>', page))
        found = [label for label, part in parts.items() if 'class="doubts"' in part]
        for label in self.polls:
            self.assertEqual(
                'class="doubts"' in self.text(f"result/{label}/index.html"), label in found
            )
        return found

    def test_doubts(self):
        """One about the whole vote is told once, another at its question."""
        lines = (f"{name} B 1,2" for name in ("dan", "eve", "fay"))
        self.add_lines(*lines, words=["--force"])
        stops = "question B: more than half of the lines are refused, 3 of 5"
        self.assertIn(stops, self.publish(status=9))
        said = self.publish("--force --because 'they were asked'", status=1)
        self.assertEqual(said.count("the vote is not closed"), 1, said)
        self.assertEqual(re.findall("Note: question (.): ", said), ["B"], said)
        page, letter = map(self.text, ("result/index.html", "letters/result.txt"))
        self.assertEqual(page.count('class="doubts"'), 2)
        self.assertLess(page.index('class="doubts"'), page.index('id="Question-A"'))
        told = re.findall("- The vote was not closed|Question .: |- More than half", letter)
        order = ["- The vote was not closed", "Question A: ", "Question B: ", "- More than half"]
        self.assertEqual(told[:4], order)
        for label in self.polls:
            self.assertIn(
                "was not closed when this page was made",
                self.text(f"result/{label}/index.html"),
                label,
            )
        # the close is told of each, and the act keeps it once
        kept = [(one.get("question"), one["kind"]) for one in self.acts()[-1][1]["doubts"]]
        self.assertEqual(kept, [(None, "not closed"), ("B", "mostly refused")])
        self.assertIn("as it was published before", self.publish(status=1))

    @pytest.mark.whole
    def test_times_are_said_to_the_secretary_as_on_the_page(self):
        self.done("call --until '2026-12-04 18:00' --zone Europe/Berlin")
        self.done("close --early")
        note = self.publish(f"{MARY} --casting C=Slate")
        closed, until = r"Wednesday, 25 November 2026, 10:\d\d(?::\d\d)? \(UTC\+01:00\)", re.escape(
            "Friday, 4 December 2026, 18:00 (UTC+01:00)"
        )
        self.assertRegex(
            note,
            f"Note: the vote was closed on {closed}, before its announced end, {until}; the result page",
        )

    @pytest.mark.whole
    def test_what_was_done_is_told_once(self):
        self.done("strike 5 --because 'it was a joke'")
        self.done("close --early")
        first = self.sums_in("letters/closed.txt")
        self.done("reopen --because 'a letter was forgotten'")
        self.done("desk --came-before-close yes", given="dan A 2,1\n")
        self.done("close --early")
        second = self.sums_in("letters/closed.txt")
        # the last four are of the close before; A alone has another line
        self.assertEqual(second[5:], first[1:4])
        self.assertEqual(
            [one == other for one, other in zip(first, second)][:4], [True, False, True, True]
        )
        self.addCleanup(os.umask, os.umask(0o077))
        self.publish(status=1)
        # a web host can read it, whatever the umask is
        self.assertEqual(
            [
                (self.folder / "result" / label).stat().st_mode & 0o777
                for label in ("", *self.polls)
            ],
            [0o755] * 4,
        )
        letter = self.text("letters/result.txt")
        sums = ", ".join(
            f"{digest} ({label})" for label, (digest, _) in zip(self.polls, second[1:])
        )
        self.assertEqual(
            letter.count(
                f"The vote was closed. Lines in time: 4 (A), 2 (B), 3 (C). Checksum: {sums}."
            ),
            1,
        )
        self.assertIn(
            "lines in time that came in: 1 (A), 0 (B), 0 (C); that were taken out: 0 (A), 0 (B), 0 (C).",
            letter,
        )
        told = "struck envelope 5|The vote was closed|The vote was opened again"
        wanted = f"{told}|The vote was closed"
        self.assertEqual(re.findall(told, letter), wanted.split("|"))
        for label in self.polls:
            text = self.text(f"result/{label}/index.html")
            self.assertEqual("struck envelope 5" in text, label == "C", label)
            self.assertIn(f"Lines in time: {dict(A=4, B=2, C=3)[label]}. Checksum: ", text)


@pytest.mark.whole
class EndedTest(PublishedTest):
    call_words = ("--to", "vote@club.example", "--until", "2026-12-04 18:00", "--zone", "UTC")

    def test_a_note_about_each_question_is_said_once(self):
        """That there are no pictures, and in the letter how many lines came after the end, of which each answers some questions."""
        self.set_clock("2026-12-05T00:00:00+00:00")
        self.add_lines("dan A 1,2 B 1,2,3", "eve A 1,2")
        self.done("close")
        self.clock |= {"PATH": str(PROGRAM.parent)}
        said = self.publish(status=1)
        # where no Graphviz is installed, what tests see of the output has no such note
        self.assertEqual(said.count("Note: no picture"), HAS_PICTURES, said)
        told = "came after the end, and "
        self.assertEqual(
            re.findall(f"(\\d+) lines? {told}", self.text("letters/result.txt")),
            ["2"],
        )
        pages = [
            re.findall(f"(\\d+) lines? {told}", self.text(f"result/{label}/index.html"))
            for label in self.polls
        ]
        self.assertEqual(pages, [["2"], ["1"], []])


class SecretTest(PublishedTest):
    polls = {label: f"{poll}secret = true\n" for label, poll in PublishedTest.polls.items()}

    def codes(self) -> dict[str, str]:
        file = next((self.folder / "private").glob("*.csv"))
        return {row["name"]: row["code"] for row in csv.DictReader(io.StringIO(file.read_text()))}

    def test_no_folder_tells_of_another(self):
        self.refused("count", "the vote is secret, and can be counted only after the close")
        self.done("close --early")
        listed = self.sums_in("letters/closed.txt")
        self.publish("--yes", status=1)
        self.assertEqual(
            SUM.findall(
                self.in_shell(
                    self.last_command("letters/closed.txt").replace(
                        "sha256sum; done", "sha256sum | tr -d ' -'; done"
                    )
                )
            ),
            [(digest, name if at == 0 else "") for at, (digest, name) in enumerate(listed[:-1])],
        )
        seals = [self.read(f"result/{label}/seal.txt") for label in self.polls]
        self.assertEqual(len({*seals}), 3)
        codes = [*self.codes().values()]
        for file in filter(pathlib.Path.is_file, (self.folder / "result").rglob("*")):
            data = file.read_text()
            self.assertEqual([code for code in codes if code in data], [], file)
            if file.name not in ("READING-A-SHEET.md", "recount.py", "recount.js"):
                self.assertIsNone(re.search(r"\b(cleo|gus) ", data), file)
        self.assertEqual(self.told("log").count("seal"), 0)

    @pytest.mark.whole
    def test_each_holder_of_a_casting_vote_is_asked_about_once(self):
        self.done("close --early")
        first = f"--casting 'B=Ada Lovelace' {CAST}"
        second = f"{first} --casting C=Tiles --cast-by Ben --cast-on 2026-11-24"
        for typed, asked in (
            (second, ["B", "The chair", "C", "Ben"]),
            (f"{first} --casting C=Tiles", ["C", "The chair"]),
        ):
            said = self.election(f"publish {typed}").faults
            found = re.findall(r"--cast-by of question (.):\n  (.*)\n", said)
            self.assertEqual([part for pair in found for part in pair], asked, said)
            self.assertIn("these texts may tell who voted what", said)
        self.publish(f"{first} --yes", status=1)
        said = self.election(f"publish {second}").faults
        self.assertEqual(re.findall("--cast-by of question (.):", said), ["C"])
        self.publish(f"{first} --casting C=Tiles")

    @pytest.mark.whole
    def test_a_second_close_asks_once(self):
        self.done("close --early")
        self.publish("--yes", status=1)
        self.done("reopen --because 'a letter was forgotten'")
        self.done("desk --came-before-close yes", given="dan A 2,1 B 1,2,3\n")
        self.done("close --early")
        self.refused(
            "publish result-2", "a comparison with the earlier result shows how these voted: dan"
        )
        self.publish("result-2 --yes", status=1)

    @pytest.mark.whole
    @at_browser.NEEDS_BROWSER
    def test_finding_ballots_in_a_browser(self):
        """One code finds the ballots of all questions, and those of one on its own page."""
        self.done("close --early")
        self.publish("--yes", status=1)
        codes = self.codes()
        with at_browser.Window(800, 900) as window:
            window.open(self.folder / "result" / "index.html")
            said = window.find("Ben", codes["ben"])
            a, b, c = (alias_of(codes["ben"], f"{label} ben") for label in "ABC")
            chair = ["Mary Somerville", "Ada Lovelace", "None of these", f"The line: {b} 2,1,3"]
            fee = ["Yes, 72 Euro", "No, as it is", f"The line: {a} 1,2"]
            roof = ["Slate and Tiles equally", "As it is", "Straw", f"The line: {c} 1,1,3,2"]
            counted = "ben: counted"
            self.assertEqual(said, [counted, *fee, counted, *chair, counted, *roof])
            # no address has an alias
            links = "[...document.querySelectorAll('#Answer a')].map((link) => link.getAttribute('href'))"
            self.assertEqual(window.ask(links), [f"{label}/index.html" for label in "ABC"])
            said = window.find("cleo", codes["cleo"])
            self.assertIn(
                f"Your alias is {alias_of(codes['cleo'], 'B cleo')}. It is on the roll, and no ballot counts under it.",
                said,
            )
            [none] = window.find("cleo", codes["ben"])
            self.assertIn("No elector of this vote has the alias", none)
            window.open(self.folder / "result" / "B" / "index.html")
            self.assertEqual(window.find("Ben", codes["ben"]), [counted, *chair])
            self.assertTrue(window.count_again()[0].startswith("The same, line for line"))
        page = self.read("result/B/index.html").decode()
        [command] = re.findall("<code>(python3 -I -c .*?)</code>", page)
        command = command.replace("&#39;", "'").replace("&#34;", '"')
        said = subprocess.check_output(
            ["sh", "-c", command], input=f"{codes['ben']}\nben\n", text=True
        )
        self.assertEqual(said, f"Code: Name: {b}\n")
        [command] = re.findall("<code>(printf %s .*?)</code>", page)
        command = command.replace("&#39;", "'").replace("NAME", "ben").replace("CODE", codes["ben"])
        self.assertEqual(self.in_shell(command), f"{b}\n")
        self.assertIn(
            "Here the message is the label of the question, a blank and the name: <code>B NAME</code>.",
            page,
        )


@at_browser.NEEDS_BROWSER
class PagesTest(PublishedTest):
    """The first of the questions is a motion."""

    polls = {**PublishedTest.polls, "A": f"{FEE}motion = true\n"}
    call_words = ("--to", "vote@club.example", "--names")

    def test_the_pages_in_a_browser(self):
        self.done("close --early")
        self.publish(MARY, status=1)
        result = self.folder / "result"
        with at_browser.Window(360, 800) as window:
            window.open(result / "index.html")
            self.assertEqual(window.ask("document.documentElement.scrollWidth"), 360)
            heads = "[...document.querySelectorAll('.question')].map((part) => [part.querySelector('h2').textContent, part.querySelector('.won b').textContent])"
            self.assertEqual(
                "2 yes, 1 no.", window.ask("document.querySelector('.votes').textContent")
            )
            self.assertEqual(
                window.ask(heads),
                [
                    ["A Raise the fee to 72 Euro", "Yes, 72 Euro"],
                    ["B The chair of the board", "Mary Somerville"],
                    ["C A new roof", "Slate and Tiles"],
                ],
            )
            roof = ["Tiles", "Slate", "As it is", "Straw", "The line: cleo 2,1,4,3"]
            wanted = [
                "cleo: counted",
                "No",
                "The line: cleo 2,1",
                "cleo is on the roll, and no ballot counts for this name.",
                "cleo: counted",
                *roof,
            ]
            for typed in ("cleo", " CLEO"):
                self.assertEqual(window.find(typed), wanted)
            links = "[...document.querySelectorAll('#Answer h4 a')].map((link) => [link.textContent, link.getAttribute('href')])"
            self.assertEqual(
                window.ask(links)[0], ["A Raise the fee to 72 Euro", "A/index.html#cleo"]
            )
            # the address names an elector, whose ballots stand below how each question ended
            none = "{} is on the roll, and no ballot counts for this name."
            mine = {
                "cleo": [
                    ["cleo: counted", "No"],
                    [none.format("cleo")],
                    ["cleo: counted", *roof[:-1]],
                ]
            }
            mine["ben"] = [
                ["ben: counted", "Yes"],
                ["ben: counted", "Mary Somerville", "Ada Lovelace", "None of these"],
                ["ben: counted", "Slate and Tiles equally", "As it is", "Straw"],
            ]
            window.ask("location.hash = '#cleo/23456789ab'")
            for name, shown in mine.items():
                window.until(
                    f"document.querySelectorAll('.mine')[2].textContent.startsWith('{name}: ')"
                )
                self.assertEqual((window.ask(at_browser.MINE), window.ask("scrollY")), (shown, 0))
                window.open_anew(result / "index.html", "#ben")
            for label in self.polls:
                window.open(result / label / "index.html")
                self.assertTrue(
                    window.count_again()[0].startswith("The same, line for line"), label
                )
                self.assertEqual(window.found() if label == "B" else [], [])
            self.assertEqual(window.find("cleo"), ["cleo: counted", *roof])
            self.assertEqual(window.faults, [])


class ManyTest(PublishedTest):
    """More than six questions are a line each, which opens."""

    polls = {label: FEE.replace("72", f"7{at}") for at, label in enumerate("ABCDEFG")}
    new_words = ("--questions", "7")

    def setUp(self):
        QuestionsTest.setUp(self)
        self.add_lines("ada A 1,2 G 2,1", "ben A 1,2 B 1,2")

    def test_each_is_a_line(self):
        self.done("close --early")
        ended = self.election("publish")
        self.assertEqual(
            (
                ended.status,
                re.findall("question (.): no elector has a ballot that counts", ended.faults),
            ),
            (9, list("CDEF")),
        )
        self.publish("--force --because 'nobody wanted them'")
        page = self.read("result/index.html").decode()
        lines = re.findall(
            r'<h2 id="Question-(.)">.*?<p class="ended">(.*?)</p>\s*<p class="won"><b><bdi>(.*?)</bdi></b></p>',
            page,
            re.DOTALL,
        )
        lost = [(label, "The default option has won", "No, as it is") for label in "BCDEFG"]
        self.assertEqual(lines, [("A", "Has won", "Yes, 70 Euro"), *lost])
        # nothing is folded, a doubt neither
        self.assertEqual(
            (
                page.count("<details>"),
                len(re.findall("<p>No elector has a ballot that counts: .*?</p>\n</div>", page)),
            ),
            (0, 4),
        )
        self.assertEqual(
            pathlib.Path(self.folder / "result" / "G" / "ballots.txt").read_text(), "ada 2,1\n"
        )

    @pytest.mark.whole
    @at_browser.NEEDS_BROWSER
    def test_seven_on_a_telephone(self):
        """All seven questions with their numbers are on the first screen, if each has ballots."""
        answers = " ".join(f"{label} 1,2" for label in self.polls)
        self.add_lines(f"cleo {answers}", f"ben {answers}")
        self.done("close --early")
        self.publish()
        with at_browser.Window(390, 844) as window:
            window.open(self.folder / "result" / "index.html")
            ends = window.ask(
                "[...document.querySelectorAll('.question .votes')].map((node) => node.getBoundingClientRect().bottom)"
            )
            self.assertEqual(
                (len(ends), max(ends) <= 844, window.ask(at_browser.LONE_LINES)), (7, True, [])
            )
