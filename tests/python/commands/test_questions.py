"""Several questions before ballots come: `new --questions`, what `check` finds, codes, and the files of a call that is made and taken back."""

import hashlib
import shutil

from tests.support import elections
from tests.support.election_books import CalledTest

FEE = 'title = "Raise the fee"\noptions = ["Yes"]\nratios = [1]\ndefault = "No"\nquorum = 0\n'
POLLS = {"A": FEE, "B": elections.POLL, "C": FEE.replace("Raise the fee", "A new roof")}
MEMBERS = "who,mail\nAda,ada@club.example\nBen B.,ben@club.example\nCleo,cleo@club.example\nA,a@club.example\n"


class QuestionsTest(CalledTest):
    """A test of a folder with three questions, filled in, and a roll."""

    polls = POLLS

    def begin(self):
        self.done("new", "--questions", "3", str(self.folder), cwd=self.scratch)
        self.write("members.csv", MEMBERS)
        self.write("polls/title.txt", "Assembly 2026\n")
        for label, poll in self.polls.items():
            self.write(f"polls/{label}.toml", poll)
        self.done("roll")

    def sealed(self) -> list[str]:
        query = "SELECT name FROM sealed WHERE act = (SELECT max(act) FROM sealed) ORDER BY name"
        return [str(name) for name, in self.rows(query)]

    def called(self) -> list[str]:
        """The files of the call, each as the list of its checksums has it."""
        folder = self.folder / "call"
        for sums in ("SHA256SUMS", "polls.sha256"):
            ended = self.run_program("sha256sum", "--strict", "--quiet", "-c", sums, cwd=folder)
            self.assertEqual((ended.output, ended.faults, ended.status), ("", "", 0))
        return sorted(str(file.relative_to(folder)) for file in folder.rglob("*"))

    def changed(self, files: dict[str, str | None]):
        """Writes these files into the folder, or takes them away."""
        for name, text in files.items():
            file = self.folder / name
            file.parent.mkdir(parents=True, exist_ok=True)
            if text is None:
                file.unlink()
            else:
                file.write_text(text)


class New(elections.ElectionTest):
    def begin(self):
        self.folder.mkdir()

    def test_each_question_has_a_poll_to_fill_in(self):
        said = self.done("new --questions 10 spring").output
        self.assertIn("with polls/title.txt and polls/A.toml to K.toml and members.csv.", said)
        alone, plain = (
            self.done(f"new {words}").output for words in ("--questions 1 alone", "plain")
        )
        self.assertEqual(alone, plain.replace("plain", "alone"))
        polls = self.folder / "spring" / "polls"
        modes = {file.name: file.stat().st_mode & 0o777 for file in polls.iterdir()}
        names = ["title.txt", *(f"{label}.toml" for label in "ABCDEFGHJK")]
        self.assertEqual(modes, dict.fromkeys(names, 0o600))
        there = {file.name for file in polls.parent.iterdir()}
        self.assertEqual(there, {"election.db", "members.csv", "polls"})
        of_one = (self.folder / "plain" / "poll.toml").read_text()
        for label in "AK":
            text = (polls / f"{label}.toml").read_text()
            self.assertIn(f"file texts/{label}/1.txt, about option 2 in texts/{label}/2.txt", text)
            self.assertIn(f"`ada {label} 1,1`; `ada {label} 1,2` is a yes", text)
            text = text.replace(f"texts/{label}/", "texts/").replace(f"ada {label} ", "ada ")
            self.assertEqual(text, of_one)

    def test_how_many(self):
        for count in ("0", "25", "x", "-1"):
            ended = self.election("new", "--questions", count, "spring")
            self.assertEqual((ended.status, [*self.folder.iterdir()]), (2, []), ended)
        self.assertIn("invalid choice: 25", self.election("new --questions 25 spring").faults)
        self.done("new --questions 24 spring")
        self.assertEqual(len([*(self.folder / "spring" / "polls").glob("[A-Z].toml")]), 24)


class Check(QuestionsTest):
    def test_each_question_is_shown(self):
        self.changed({"texts/A/1.txt": "We need it.\n"})
        self.tells(
            "check",
            "The polls are in order: 3 questions, 4 electors.\nTitle: Assembly 2026\nQuestion A: Raise the fee\n  1  Yes (majority ratio 1); text: 3 words from texts/A/1.txt\n  2  No (the default option)\nQuestion B: Where we meet in spring\n",
            "A: Quorum: none\nB: Quorum: 1 vote (1Q): ",
            "Note: these names end in a letter that may be read as the label of a question: ben-b (Ben B.), a (A)\n",
        )
        # nobody is named in an election of one question
        for folder in ("polls", "texts"):
            shutil.rmtree(self.folder / folder)
        self.write("poll.toml", elections.POLL)
        self.assertNotIn("Note: these names", self.told("check"))

    def test_faults_of_the_folder(self):
        """After a change of the folder `check` stops at one fault, with these words, and so does `call`, which writes nothing."""
        title, whole = "polls/title.txt", self.scratch / "whole"
        no_poll = "it is not the poll of a question"
        shutil.copytree(self.folder, whole)
        for said, files in {
            "polls: there is no poll for B, and labels have no gap": {"polls/B.toml": None},
            "polls: there is no poll for A, and": {"polls/A.toml": None, "polls/D.toml": FEE},
            "polls: it has fewer than two polls": {"polls/B.toml": None, "polls/C.toml": None},
            f"polls/I.toml: {no_poll}; name it A.toml, B.toml and so on (there is no I and no O)": {
                "polls/I.toml": FEE
            },
            f"polls/d.toml: {no_poll}": {"polls/d.toml": FEE},
            f"polls/AB.toml: {no_poll}": {"polls/AB.toml": FEE},
            f"polls/notes: {no_poll}": {"polls/notes": "x"},
            "poll.toml: it is beside the folder polls": {"poll.toml": FEE},
            "texts/D: no question has this label": {"texts/D/1.txt": "x"},
            "texts/1.txt: no question has this label": {"texts/1.txt": "x"},
            f"{title}: No such file": {title: None},
            f"{title}: it is empty": {title: " \n"},
            f"{title}: it has the character U+000A": {title: "Assembly\n2026\n"},
            f"{title}: it has 201 characters": {title: "x" * 201},
            f"{title}: it has the mark of a vote": {title: f"Assembly [{elections.ANY_MARK}]"},
            "polls: only some questions are secret: B": {"polls/B.toml": f"secret = true\n{FEE}"},
            "polls/B.toml: it does not say yet what can be chosen (options)": {
                "polls/B.toml": FEE.replace('["Yes"]', "[]").replace("[1]", "[]")
            },
            "polls/A.toml: the option of a motion begins with a word for no": {
                "polls/A.toml": f"motion = true\n{FEE.replace('Yes', 'No fee')}"
            },
            "polls/C.toml: it can't be read as TOML": {"polls/C.toml": "title = \n"},
            "polls/C.toml: the key `roll` is not written here": {
                "polls/C.toml": f"roll = []\n{FEE}"
            },
        }.items():
            self.changed(files)
            before = self.contents()
            for command in ("check", "call") if title in files else ("check",):
                ended = self.election(command)
                self.assertIn(said, ended.faults)
                self.assertEqual(len(ended.faults.splitlines()), 1, ended)
                self.assertIn(ended.status, (2, 3, 9))
            self.assertEqual(self.contents(), before)
            shutil.rmtree(self.folder)
            shutil.copytree(whole, self.folder)
        # what an editor leaves is passed over
        self.changed({"polls/A.toml~": "x", "polls/.B.toml.swp": "x"})
        self.done("check")
        # faults of all polls are told at once
        more = {"polls/A.toml": FEE.replace("[1]", "[11]"), title: ""}
        self.changed(more | {"polls/C.toml": FEE.replace("quorum = 0", "quorum = 11")})
        faults = self.election("check").faults
        for name in ("polls/A.toml: ", "polls/C.toml: ", f"{title}: "):
            self.assertIn(name, faults)


class Call(QuestionsTest):
    def test_the_files_and_their_checksum(self):
        self.tells("call --to vote@club.example", "Checksum of the polls: ")
        polls = [f"{label}/poll.toml" for label in "ABC"]
        names = [*polls, "SHA256SUMS", "call.txt", "index.html", "polls.sha256", "title.txt"]
        self.assertEqual(self.called(), sorted([*"ABC", *names]))
        modes = {(self.folder / "call" / name).stat().st_mode & 0o777 for name in "ABC"}
        self.assertEqual(modes, {0o755})
        checksum = hashlib.sha256(self.read("call/polls.sha256")).hexdigest()
        for file in ("call.txt", "index.html"):
            self.assertIn(checksum, self.text(f"call/{file}"))
        sealed = [*(f"call/{name}" for name in names), "poll A", "poll B", "poll C", "title"]
        self.assertEqual(self.sealed(), sorted(sealed))
        self.assertEqual(self.book.acts()[-1].detail["quorum_votes"], {"A": 0, "B": 1, "C": 0})
        # what is lost is made again, with the same bytes
        before = self.contents()
        shutil.rmtree(self.folder / "call" / "B")
        self.done("call")
        self.assertEqual(self.contents(), before)
        # debvote reads each of the polls
        for name in polls:
            self.assertEqual(self.debvote("check", "--poll", f"call/{name}").status, 0)

    def test_a_call_that_is_taken_back_leaves_no_file(self):
        self.done("call")
        self.write("call/C/notes", "of somebody else")
        self.done("call --take-back")
        self.assertEqual(
            sorted(file.name for file in (self.folder / "call").rglob("*")), ["C", "notes"]
        )
        shutil.rmtree(self.folder / "call")
        (self.folder / "polls" / "C.toml").unlink()
        self.done("call")
        self.assertEqual([name for name in self.called() if len(name) == 1], ["A", "B"])

    def test_a_question_more_or_another_title_makes_another_mark(self):
        marks = set()
        for files in ({}, {"polls/title.txt": "Assembly 2027"}, {"polls/C.toml": None}):
            self.changed(files)
            self.done("call")
            marks.add(hashlib.sha256(self.read("call/polls.sha256")).hexdigest()[:16])
            self.done("call --take-back")
        self.assertEqual(len(marks), 3)

    def test_a_motion_among_them_and_texts(self):
        self.changed({f"texts/{label}/1.txt": f"About {label}.\nA line\n" for label in "AB"})
        self.write("polls/C.toml", f"motion = true\n{self.polls['C']}")
        self.tells("check", "A motion, yes: Yes, no: No\n")
        self.done("call")
        sealed = [name for name in self.sealed() if name.startswith("motion")]
        self.assertEqual(sealed, ["motion C"])
        page = self.text("call/index.html")
        self.assertEqual([f'name="Answer{label}"' in page for label in "ABC"], [False, False, True])
        letter = self.read("call/call.txt").decode()
        for said in (
            "Question A: Raise the fee\n\nOption 1: Yes\n\nAbout A.\nA line\n",
            "Question B: Where we meet in spring\n\nOption 1: At the lake\n\nAbout B.\nA line\n",
        ):
            self.assertIn(said, letter)


class Secret(QuestionsTest):
    polls = {label: f"secret = true\n{poll}" for label, poll in POLLS.items()}

    def test_codes_on_the_roll_are_refused(self):
        """Also if a poll becomes several with codes on the roll."""
        before = self.contents()
        said = (
            "--on-roll: with several questions the row of all votes under one code would be a mark"
        )
        self.refused("codes --on-roll", said)
        self.assertEqual(self.contents(), before)
        polls = self.folder / "polls"
        polls.rename(self.scratch / "polls")
        self.write("poll.toml", self.polls["A"])
        self.done("codes --on-roll")
        (self.scratch / "polls").rename(polls)
        (self.folder / "poll.toml").unlink()
        before = self.contents()
        said = "polls: codes are on the roll, and all votes under one code in a row would be a mark"
        for command in ("check", "call", "codes"):
            self.assertIn(said, self.election(command).faults)
        self.assertEqual(self.contents(), before)
