"""Votes without a click: a secret one by letters and slips, and the letter that the page makes."""

import csv
import hmac
import itertools
import re

import pytest

from tests.support import elections
from tests.support.at_browser import NEEDS_BROWSER, Window
from tests.support.election_books import LettersTest
from tests.support.letters import HTML, letter
from tests.support.questions import QuestionsTest

MEMBERS = [f"m{number:02}" for number in range(1, 41)]
RANKS = {
    name: ",".join(ranks)
    for name, ranks in zip(MEMBERS, itertools.cycle(itertools.permutations("1234")))
}

# how many members write so, and what becomes of their letters: where {line} is the right line, and
# {ranks} its ranks
GOES_IN, ENTER, FORCE, TYPED, ASIDE, PAPER = range(6)
LETTERS = (
    (18, GOES_IN, "Dear all,\n\n{line}\n\nMany thanks and best wishes\n\n-- \nLake Road 12\n", {}),
    (3, ENTER, "Hello,\nthis is how I vote:\n\n{line}\n\nSee you in spring!\n", {}),
    (2, ENTER, "<p>{line}</p>", {"kind": HTML}),
    (2, FORCE, "{line}\n", {"sender": "somebody@x.example"}),
    (2, FORCE, "{line}\n", {"subject": "my vote"}),
    (3, TYPED, "{ranks}\n", {}),
    (1, ASIDE, "I am away until Monday.\n", {"head": "Auto-Submitted: auto-replied\n"}),
    (9, PAPER, "", {}),
)


@pytest.mark.whole
class Forty(LettersTest):
    """Two have no address, and only a slip."""

    names = MEMBERS
    poll = f"{elections.POLL}secret = true\n"
    members = re.sub("m(39|40)@club.example", "", elections.members_of(MEMBERS))

    def test_each_ballot_is_as_meant(self):
        ways = [row for row in LETTERS for _ in range(row[0])]
        by_way = [list[int]() for _ in range(PAPER + 1)]
        letters, lines = [], [f"{name} {ranks}" for name, ranks in RANKS.items()]
        for number, (_, way, text, how) in enumerate(ways, start=1):
            name, line = MEMBERS[number - 1], lines[number - 1]
            by_way[way].append(number)
            written = text.format(line=line, ranks=RANKS[name])
            letters += [letter(name, written, **how)] if way != PAPER else []  # type: ignore[arg-type]
        self.assertEqual([*map(len, by_way)], [18, 5, 4, 3, 1, 9])
        # the mark on a slip is that of the letters
        slips = re.findall(r"\[([0-9a-f]{16}-\w{10})\]", self.read("private/slips.html").decode())
        owns = self.book.rows("SELECT mark FROM elector_now")
        self.assertEqual({*slips}, {f"{self.mark}-{own}" for own, in owns})
        self.add(
            *letters,
            says=(
                "\n18 ballots of letters went in; 13 letters wait.\n",
                "\nNext: 13 letters wait: debvote-election held\n",
            ),
        )
        asked = " ".join(map(str, by_way[ENTER]))
        self.agrees(f"{asked} --enter", times=len(by_way[ENTER]))
        for number in by_way[FORCE]:
            self.assertEqual(self.election(f"held {number} --enter").status, 9)
            self.agrees(f"{number} --enter --force not-tied")
        for number in by_way[TYPED]:
            self.assertEqual(
                self.election(
                    f"held {number} --enter --yes --force not-tied --force voted-since"
                ).status,
                9,
            )
            self.told("held", number, "--as", lines[number - 1])
        self.assertIn("No letter waits.", self.told("held", *by_way[ASIDE], "--set-aside"))
        self.add_lines(*(lines[number - 1] for number in by_way[PAPER]))
        [away] = by_way[ASIDE]
        meant = {name: ranks for name, ranks in RANKS.items() if name != MEMBERS[away - 1]}
        self.assertEqual(dict(line.split(" ") for line in self.lines()), meant)
        # and so under the aliases, which whoever has the code finds
        self.told("close")
        self.told("publish --yes")
        with (self.folder / "private" / "codes.csv").open(newline="") as file:
            codes = {row["name"]: row["code"].encode() for row in csv.DictReader(file)}
        wanted = {
            hmac.digest(codes[name], name.encode(), "sha256").hex()[:32]: ranks
            for name, ranks in meant.items()
        }
        published = self.read("result/ballots.txt").decode().splitlines()
        self.assertEqual(dict(line.split(" ") for line in published), wanted)


@NEEDS_BROWSER
class ByThePage(LettersTest):
    """The letter that the page makes goes in as it comes."""

    ranks, body, entered = "2143", "ada 2,1,4,3\r\n", "ada 2,1,4,3"

    def test_its_letter_goes_in(self):
        [(own,)] = self.book.rows("SELECT mark FROM elector_now WHERE name = 'ada'")
        with Window(360, 800) as window:
            window.open(self.folder / "call" / "index.html", f"#ada/{own}")
            made = window.ballot(None, self.ranks)
        self.assertEqual((made["to"], made["body"]), ("mailto:vote@club.example", self.body))
        self.add(
            letter("ada", made["body"], subject=made["subject"]),
            says="1 ballot of letters went in; 0 letters wait.",
        )
        self.assert_lines(self.entered)


class ByThePageOfSeveral(QuestionsTest, ByThePage):
    ranks, body, entered = (
        "12213-1-2",
        "ada\r\nA 1,2\r\nB 2,1,3\r\nC -,1,-,2\r\n",
        "ada A 1,2 B 2,1,3 C -,1,-,2",
    )
