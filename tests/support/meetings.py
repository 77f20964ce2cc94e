"""A general meeting of 40 members, in German: seven open questions, and two secret ones."""

import hashlib
import hmac
import random
import re
import sys
import time
from collections.abc import Mapping

from tests.support import boxes
from tests.support.election_books import text_in
from tests.support.letters import letter
from tests.support.outgoing import MailServer
from tests.support.questions import REFERENCE, Answers, answering, in_words, one_line

FIRST = ["Anna", "Bernd", "Cäcilie", "Dörte", "Emil", "Jürgen", "Käthe", "Ludwig", "Renée", "Zoë"]
LAST = ["Groß", "Müller", "Öztürk", "Weiß"]
WHO = {f"m{number:02}": f"{FIRST[number % 10]} {LAST[number // 10]}" for number in range(40)}
MEMBERS = list(WHO)
ROWS = "name,who,mail\n" + "".join(
    f"{name},{who},{name}@club.example\n" for name, who in WHO.items()
)

Poll = tuple[str, list[str], list[int], str, int]
# the last but one can't win for want of voters, and the last one is a tie
OPEN: Mapping[str, Poll] = {
    "A": ("Beitrag von 72 €", ["Ja, 72 €"], [1], "Nein, wie bisher", 1),
    "B": ("Vorsitz", ["Cäcilie Groß", "Jürgen Weiß", "Zoë Müller"], [1, 1, 1], "Niemand davon", 1),
    "C": ("Neue Satzung", ["Die neue Satzung"], [2], "Die alte Satzung", 2),
    "D": (
        "Sommerfest",
        ["Am Bärensee", "Im Garten", "In der Halle", "Gar nicht"],
        [1] * 4,
        "Später",
        0,
    ),
    "E": ("Ein zweites Boot", ["Wir kaufen es"], [1], "Wir kaufen keins", 6),
    "F": ("Die Hütte am See", ["Neu bauen", "Instand setzen"], [1, 1], "Verkaufen", 1),
    "G": ("Farbe der Trikots", ["Blau", "Grün"], [1, 1], "Wie bisher", 0),
}
SECRET: Mapping[str, Poll] = {
    "A": ("Kasse", ["Emil Öztürk", "Käthe Groß"], [1, 1], "Niemand davon", 1),
    "B": ("Ausschluss von M. W.", ["Ausschließen"], [2], "Behalten", 2),
}
# these are motions, which are answered by words at a desk and on paper
MOTIONS = "AE"


def text_of(name: str, answers: Answers, form: int) -> str:
    """A ballot as the form's mail has it, as people type it, and on one line."""
    lines = [f"{label} {ranks}" for label, ranks in answers.items()]
    typed = [
        f"{label.lower()}{') ' if number % 2 else ': '}{ranks.replace(',', ', ')}"
        for number, (label, ranks) in enumerate(answers.items())
    ]
    forms = [
        "\n".join([name, *lines]),
        f"Guten Tag,\n\n{WHO[name]}\n" + "\n\n".join(typed),
        one_line(name, answers),
    ]
    return forms[form % len(forms)] + "\n"


def normal(ranks: str) -> str:
    """The ranks of the same order from 1 on; equal ranks and hyphens stay."""
    numbers = sorted({int(rank) for rank in ranks.split(",") if rank != "-"})
    return ",".join(
        rank if rank == "-" else str(numbers.index(int(rank)) + 1) for rank in ranks.split(",")
    )


class MeetingTest(boxes.BoxElectionTest):
    """Keeps what each member wants last, by question, and the ballots in the order in which they go in."""

    def setUp(self):
        super().setUp()
        self.chance = random.Random(40)
        self.wanted: dict[str, dict[str, str]] = {}
        self.entered: list[str] = []
        self.server = MailServer()
        self.addCleanup(self.server.stop)

    def begin(self):
        """The folder is made by the commands of the meeting."""

    def answers(self, name: str) -> dict[str, str]:
        """What a member wants; of each question a fifth answers nothing."""
        made = {}
        for label, (_, options, *_) in self.polls.items():
            ranks = list(map(str, range(1, len(options) + 2)))
            self.chance.shuffle(ranks)
            if self.chance.random() < 0.2:
                ranks = ["1"] * len(ranks) if len(options) == 1 else [*ranks[:-1], "-"]
            if self.chance.random() < 0.8:
                made[label] = ",".join(ranks)
        if "G" in self.polls:
            made["G"] = "1,2,3" if int(name[1:]) % 2 else "2,1,3"
        return made or {"A": "1,2,3"}

    def ballot(self, name: str, answers: Answers | None = None) -> str:
        """What a member wants from now on; other answers stay."""
        given = answers or self.answers(name)
        self.wanted.setdefault(name, {}).update(given)
        self.entered.append(one_line(name, given))
        return self.entered[-1]

    def note_call(self, sent: list[bytes]):
        """Own mark and link of each member, as the letters of the call have them, and the checksum of the polls."""
        self.personal = {name: (own, link) for name, own, link in map(boxes.link_in, sent)}
        self.checksum = hashlib.sha256(self.read("call/polls.sha256")).hexdigest()

    def clicks(self, names: list[str]):
        time.sleep(1.1)
        for name in names:
            self.click(name, self.ballot(name).partition(" ")[2], self.personal[name][1])

    def letters_of(self, names: list[str], worded: list[str], ago: int = 0) -> list[bytes]:
        """A letter of each of these members. Some have more words, and so wait: what they want is not noted yet."""
        letters = []
        self.waiting = dict[str, dict[str, str]]()
        for number, name in enumerate(names):
            answers = self.answers(name)
            text = text_of(name, answers, number)
            if name in worded:
                self.waiting[name] = answers
                text += "\nBis zum Sommer!\n"
            else:
                self.ballot(name, answers)
            seconds = time.time() - ago + (number if ago else 0)
            how = {
                "time": time.strftime("%a, %d %b %Y %H:%M:%S +0000", time.gmtime(seconds)),
                "subject": f"Re: Abstimmung [{self.mark()}-{self.personal[name][0]}]",
            }
            letters.append(letter(name, text, number=number, **how))
        return letters

    def demand_end(self, tied: str, last: str, closing: str, sent: list[bytes]):
        """The first result has a tie, and the last one a casting vote: both are what members wanted, as letters of the close
        and of the result say.
        """
        self.demand_whole(last)
        for label in self.polls:
            counted = {name: its[label] for name, its in self.wanted.items() if label in its}
            folder = tied if label == "G" else last
            self.demand_count(folder, label, answering(label, self.entered), counted)
            digest = hashlib.sha256(self.read(f"{last}/{label}/ballots.txt")).hexdigest()
            self.assertIn(f"{digest} {label}/ballots.txt", closing)
        sheet = self.read(f"{last}/G/sheet.txt").decode()
        self.assertTrue(sheet.endswith("Winner: 2 Gruen by casting vote\n"), sheet)
        self.demand_pages(last)
        self.demand_letters(sent)
        self.done("log", "--check")

    def demand_whole(self, folder: str):
        """All files of the result have the checksums of the lists."""
        result = self.folder / folder
        lists = [("SHA256SUMS", label) for label in ("", *self.polls)]
        for name, label in [*lists, ("polls.sha256", "")]:
            words = ("sha256sum", "--quiet", "--strict", "-c", name)
            ended = self.run_program(*words, cwd=result / label)
            self.assertEqual((ended.output, ended.faults), ("", ""), (name, label))
        listed = {
            line.split("  ", 1)[1] for line in (result / "SHA256SUMS").read_text().splitlines()
        }
        there = {str(file.relative_to(result)) for file in result.rglob("*") if file.is_file()}
        self.assertEqual(there - listed, {"SHA256SUMS"})

    def demand_count(self, folder: str, label: str, lines: list[str], counted_answers: Answers):
        """The sheet of a question is that of an election of its own with the same answers, by the second program."""
        place = self.folder / folder / label
        self.write("single", "".join(f"{line}\n" for line in lines))
        words = ("count", "--poll", place / "poll.toml", "--ballots", self.folder / "single")
        sheet = self.run_program(sys.executable, REFERENCE, *words).output
        self.assertEqual((place / "sheet.txt").read_text(), sheet)
        standing = [f"{name} {counted_answers[name]}" for name in sorted(counted_answers)]
        self.assertEqual((place / "standing.txt").read_text().splitlines(), standing)

    def demand_pages(self, folder: str):
        """One page for all questions, which leads to that of each; each names its poll and the list of polls."""
        page = self.read(f"{folder}/index.html").decode()
        places = [page.index(f'href="{label}/index.html"') for label in self.polls]
        self.assertEqual(places, sorted(places))
        self.assertIn(self.checksum, page)
        for label in self.polls:
            own = self.read(f"{folder}/{label}/index.html").decode()
            poll = hashlib.sha256(self.read(f"{folder}/{label}/poll.toml")).hexdigest()
            self.assertTrue(self.checksum in own and poll in own, label)

    def demand_letters(self, sent: list[bytes]):
        """Each letter of the result has all answers that count, and the words of each motion, counted by this test."""
        for data in sent:
            text, [name] = text_in(data), re.findall(rb"(?m)^To:.*(m\d\d)@", data)
            if wanted := self.wanted.get(name.decode()):
                self.assertIn(in_words(self.folder, wanted, "de"), text)
            for label in MOTIONS:
                ranks = [answers[label] for answers in self.wanted.values() if label in answers]
                self.assertIn(f" {ranks.count('1,2')} Ja, {ranks.count('2,1')} Nein.", text)
                if abstained := ranks.count("1,1"):
                    self.assertIn(f", Enthaltungen: {abstained}.", text)

    def demand_secret(self):
        """Each secret question has its own aliases, and no page tells a code, or who voted what."""
        head, *rows = self.read("private/codes.csv").decode().splitlines()
        self.assertEqual(head, "name,who,mail,code,mark")
        codes = dict(row.split(",")[::3] for row in rows)
        self.demand_whole("result")
        every = set[str]()
        for label in SECRET:
            alias = {
                name: hmac.new(code.encode(), f"{label} {name}".encode(), "sha256").hexdigest()[:32]
                for name, code in codes.items()
            }
            wanted = {
                alias[name]: normal(answers[label])
                for name, answers in self.wanted.items()
                if label in answers
            }
            lines = [f"{name} {ranks}" for name, ranks in sorted(wanted.items())]
            self.assertEqual(self.read(f"result/{label}/ballots.txt").decode().splitlines(), lines)
            self.demand_count("result", label, lines, wanted)
            every |= {*alias.values()}
            page = "".join(
                self.read(f"result/{place}index.html").decode() for place in ("", f"{label}/")
            )
            candidates = {option for _, options, *_ in SECRET.values() for option in options}
            for name, who in WHO.items():
                self.assertNotIn(codes[name], page)
                self.assertNotIn(f"{name} ", page)
                self.assertTrue(who not in page or who in candidates, who)
        self.assertEqual(len(every), 2 * len(MEMBERS))
