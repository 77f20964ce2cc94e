"""Labels that are missing, unknown, twice, small, or part of a name: none is counted wrongly, none is lost in silence. And labels that are exchanged between files."""

import hashlib
import pathlib
import re
import shutil
from collections.abc import Callable

from tests.support.election_books import text_in
from tests.support.elections import any_own
from tests.support.letters import MARK, letter
from tests.support.questions import FEE, FORCED, QuestionsTest
from tests.support.terminal import Terminal

# who can be taken for a label, or for the name of somebody else with one
MEMBERS = "name,who,mail\na,A. Adams,a@club.example\nben,Ben,ben@club.example\nben-b,Ben B,benb@club.example\ncleo,Cleo,cleo@club.example\ndan,Dan,dan@club.example\ndc,Dan C.,dc@club.example\n"

# lines that say one thing, and what is entered of them
RIGHT = {
    "cleo A 1,2": "cleo A 1,2",
    "Cleo: a) 1, 2 b. 3, 2, 1": "cleo A 1,2 B 3,2,1",
    "cleo B 1,2,3 A 2,1": "cleo A 2,1 B 1,2,3",
    "cleo c1,2,3,4": "cleo C 1,2,3,4",
    "a A 1,2": "a A 1,2",
    # whichever of the two is the name
    "A a 2,1": "a A 2,1",
    "A. Adams A: 2,1": "a A 2,1",
    "Ben B B 1,2,3": "ben-b B 1,2,3",
    "ben-b b 3,2,1": "ben-b B 3,2,1",
    "Ben A 1,2": "ben A 1,2",
    # nobody forgot a label: it is written as it is entered, the name has a colon, or another label follows
    "ben B 1,2,3": "ben B 1,2,3",
    "Ben: B 3,2,1": "ben B 3,2,1",
    "Ben A 2,1 B 2,1,3": "ben A 2,1 B 2,1,3",
}
# and such lines with a part of a name
RIGHT_AT_A_TERMINAL = {
    "Ben A 1,2": "ben A 1,2",
    "ben B 3,2,1": "ben B 3,2,1",
    "Ben B B 1,2,3": "ben-b B 1,2,3",
    "en-b B 2,1,3": "ben-b B 2,1,3",
    "Adams: A 1,2": "a A 1,2",
    "Adams B 1,2,3 A 2,1": "a A 2,1 B 1,2,3",
    "leo B 1,2,3": "cleo B 1,2,3",
}
# lines that are no ballot of this vote, or could be one of two people: without a question; of one
# that there is not; twice; with a label or ranks too many; with no name in front; and of Ben, who
# answers B, or of Ben B, who forgot the label
WRONG = """\
cleo 1,2
cleo 1,2,3
cleo: 1,2,3,4
a 1,2
ben-b 1,2,3
cleo D 1,2
cleo A 1,2 D 1,2
cleo AB 1,2
cleo I 1,2
cleo A 1,2 A 2,1
cleo A 1,2 a 1,2
cleo A 1,2 B 1,2,3 A 1,2
cleo A B 1,2
cleo A 1,2 B
cleo A 1,2 1,2,3
cleo 1,2 A
A 1,2
A cleo 1,2
B 1,2,3 C 1,2,3,4
Ben B 1,2,3
ben b 1,2,3
Dan C 1,2,3,4
Dan C. 1,2,3,4
""".splitlines()


class LabelsTest(QuestionsTest):
    members = MEMBERS


class Lines(LabelsTest):
    def test_in_a_file(self):
        """Each stops the whole file, and is named with its line, also by force."""
        for first in range(0, len(WRONG), 5):
            texts, before = WRONG[first : first + 5], self.last_act()
            self.write("lines", "\n".join(["cleo A 1,2", *texts]))
            ended = self.election("add --yes --force --because 'so be it' lines")
            self.assertEqual((ended.status, self.last_act()), (9, before))
            named = re.findall(r"lines:(\d+): ", ended.faults)
            self.assertEqual(named, [str(number + 2) for number in range(len(texts))])
        self.assertIn("lines:2: ", self.election("add lines").faults)
        self.write("lines", "".join(f"{text}\n" for text in RIGHT))
        said = self.done("add lines").output
        for number, (text, entered) in enumerate(RIGHT.items(), start=1):
            if text != entered:
                self.assertIn(f"lines:{number}: `{text}` was changed to `{entered}`", said)
        self.assert_lines(*RIGHT.values())

    def test_at_a_desk(self):
        named = re.findall(r"desk:(\d+): .*it was not entered", self.cast(*WRONG))
        self.assertEqual(named, [str(number) for number in range(1, len(WRONG) + 1)])
        self.assert_lines()
        self.cast(*RIGHT)
        self.assert_lines(*RIGHT.values())

    def test_what_status_says_of_a_refused_answer(self):
        """Cleo has a ballot, but none to B; Ben has one to B, too."""
        self.cast("cleo A 1,2 B 1", "ben B 1,2,3", "ben B 1,2,3,4", "zoe C 1", "a B 1")
        its = self.done("status").output.partition("Refused lines of electors without a ballot ")[2]
        found = re.findall(r"envelope \d+: (.*)", its)
        self.assertEqual(
            (its[:47], found),
            ("to the question, or of nobody known (3):\n  enve", ["cleo B 1", "zoe C 1", "a B 1"]),
        )

    def test_at_a_terminal(self):
        """What may be the last letter of a name, or the label, is neither, for a part of a name, too."""
        desk = Terminal(self)
        desk.until("Ballot: ")
        wrong = (
            "Ben B 3,2,1|ben b 2,1,3|BEN B: 1,2,3 A 1,2|en B 1,2,3|be b 1,2,3|Adams A 1,2|ada a 1,2"
        )
        for typed in wrong.split("|"):
            shown = desk.after(f"{typed}\n", "It was not entered.\nBallot: ")
            who = "a" if "a" in typed[:1].lower() else "ben-b"
            self.assertIn(
                f" may be a label, or belong to the name of {who}: type the name on the roll, with a colon behind it\n",
                shown,
            )
        for typed, entered in RIGHT_AT_A_TERMINAL.items():
            desk.after(f"{typed}\n", "Enter it? [y/n] ")
            desk.after("y\n", "Ballot: ")
        desk.type("q\n")
        self.assert_lines(*RIGHT_AT_A_TERMINAL.values())

    def test_at_a_desk_of_one_question(self):
        self.done("desk --question B", given="Ben 1,2,3\nben 3,2,1\nben-b 1,2,3\n")
        self.assert_lines("ben B 1,2,3", "ben B 3,2,1", "ben-b B 1,2,3")

    def test_a_line_with_a_refused_answer_is_one_that_came_before(self):
        self.write("first", "cleo A 1,2,3 B 1,2,3\n")
        self.done("add first")
        self.write("more", "cleo A 1,2,3 B 1,2,3\ndan A 1,2,3 B 1,2,3\n")
        self.tells("add more", "more: 1 line is ignored, since it came before; 1 is new\n")
        detail = {"files": ["more"], "lines": 2, "passed_over": 1}
        self.assertEqual(self.acts()[-1], ("add", detail))


class OneNameOfTwo(QuestionsTest):
    members = (
        "who,name,mail\nMaximilian Mayer,max,\nMax,,max@club.example\nCleo,cleo,cleo@club.example\n"
    )

    def test_of_several_questions(self):
        unclear = "it has the name of max and max-2"
        self.assertIn(unclear, self.election("add", given="Max A 1,2\n").faults)
        said = f"desk:1: {unclear}; it was not entered."
        for typed, line in (("desk", "MAX a: 1,2\n"), ("desk --question A", "Max 1,2\n")):
            self.tells(typed, said, given=line)
        # in a letter it is that of whoever has the address alone
        of_max = f"[{MARK}-{any_own('max-2')}]"
        self.add(
            letter("max", "I told you.\n", subject=of_max),
            letter("max", "Max A 2,1\n", subject=of_max, number=2),
            letter("cleo", "Max A 1,1\n"),
        )
        self.refused(f"held 1 --as 'Max A 1,2' {FORCED} --yes", unclear)
        self.cast("max A 1,2", "max: B 1,2,3", "Maximilian Mayer C 1,2,3,4")
        self.done("desk --question B", given="max 2,1,3\nmax-2 1,2,3\nMaximilian Mayer: 3,2,1\n")
        self.assert_lines(
            "max-2 A 2,1",
            "max A 1,2",
            "max B 1,2,3",
            "max C 1,2,3,4",
            "max B 2,1,3",
            "max-2 B 1,2,3",
            "max B 3,2,1",
        )


class Words(LabelsTest):
    polls = {**QuestionsTest.polls, "A": f"{FEE}motion = true\n"}

    def test_behind_a_name_that_ends_in_a_letter(self):
        lines = {
            "A A yes": "a A 1,2",
            "A: A no": "a A 2,1",
            "Ben B a: Yes!": "ben-b A 1,2",
            "a B 1,2,3 A no": "a A 2,1 B 1,2,3",
        }
        for command in ("add", "desk"):
            self.done(command, given="".join(f"{line}\n" for line in lines))
        self.add(letter("cleo", "I told you.\n"))
        self.done(f"held 1 --as 'Ben B A abstain' {FORCED} --yes")
        self.assert_lines(*lines.values(), *lines.values(), "ben-b A 1,1")


class Letters(LabelsTest):
    def test_as(self):
        self.add(letter("cleo", "I am for the slate.\n"))
        # without a name it is of whose mark the letter has
        for text in (one for one in WRONG[::6] if not re.match(r"[A-D] ", one)):
            ended = self.election(f"held 1 --as '{text}' {FORCED} --yes")
            self.assertEqual((ended.status, self.lines()), (9, []), text)
        # a refused answer among the others stops here
        ended = self.election(f"held 1 --as 'cleo A 1,2,3 B 1,2,3' {FORCED} --yes")
        self.assertNotEqual(ended.status, 0, ended)
        self.done("held 1 --as 'cleo c) 1, 2,3,4 A 1,2' --yes")
        self.assert_lines("cleo A 1,2 C 1,2,3,4")


class Exchanged(QuestionsTest):
    """Files of one question in the place of another one: the checksums of the letters say it, and so do the pages."""

    def setUp(self):
        super().setUp()
        self.add_lines("ada A 1,2 B 1,2,3 C 1,2,3,4", "ben A 1,2 C 1,2,3,4", "cleo B 1,2,3")
        self.done("letters call")
        self.done("close --early")
        self.done("publish --force --because 'it was early'")
        self.announced = self.letter("call")
        self.result = self.text("letters/result.txt")

    def letter(self, kind: str) -> str:
        [file] = (self.folder / "letters" / kind).rglob("*ada*.eml")
        return text_in(file.read_bytes())

    def is_whole(self, folder: pathlib.Path, name: str, letter: str) -> bool:
        """Whether the files of a folder are those of a letter: the list has its checksum, and each file that of the list."""
        if hashlib.sha256((folder / name).read_bytes()).hexdigest() not in letter:
            return False
        return not self.run_program("sha256sum", "--strict", "-c", name, cwd=folder).status

    def changes(self) -> dict[str, Callable[[pathlib.Path], object]]:
        """What a change does to the files of a folder, by what it changes."""

        def exchange(folder: pathlib.Path, one: str, other: str):
            (folder / one).rename(folder / "aside")
            (folder / other).rename(folder / one)
            (folder / "aside").rename(folder / other)

        sums = self.read("call/polls.sha256").decode()
        exchanged = sums.replace("A/", "x/").replace("B/", "A/").replace("x/", "B/")
        return {
            "two polls": lambda folder: exchange(folder, "A/poll.toml", "B/poll.toml"),
            "two questions": lambda folder: exchange(folder, "A", "B"),
            "the title and a poll": lambda folder: exchange(folder, "title.txt", "C/poll.toml"),
            "the title": lambda folder: (folder / "title.txt").write_text("Another assembly\n"),
            "a poll less": lambda folder: shutil.rmtree(folder / "C"),
            "a poll less in the list": lambda folder: (folder / "polls.sha256").write_text(
                re.sub(r".*C/.*\n", "", sums)
            ),
            "two labels of the list": lambda folder: (folder / "polls.sha256").write_text(
                exchanged
            ),
        }

    def test_in_the_call_and_in_the_result(self):
        for kind, name, letter, first in (
            ("call", "polls.sha256", self.announced, 0),
            ("result", "SHA256SUMS", self.result, 0),
            ("result", "polls.sha256", self.announced, 5),
        ):
            self.assertTrue(self.is_whole(self.folder / kind, name, letter), (kind, name))
            for what, change in [*self.changes().items()][first:]:
                copy = self.scratch / f"{kind}, {name}: {what}"
                shutil.copytree(self.folder / kind, copy)
                change(copy)
                self.assertFalse(self.is_whole(copy, name, letter), copy)

    def test_pages(self):
        """Each names the checksum of the list, and of no other poll than its own."""
        result, sums = self.folder / "result", self.read("call/polls.sha256")
        digests = {line[66:67]: line[:64] for line in sums.decode().splitlines()[: len(self.polls)]}
        for label in self.polls:
            page = (result / label / "index.html").read_text().partition("<script")[0]
            named = [other for other in self.polls if digests[other] in page]
            self.assertEqual((named, hashlib.sha256(sums).hexdigest() in page), ([label], True))
