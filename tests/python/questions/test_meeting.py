"""A general meeting of 40 members, in German, by the shortest way: seven open questions in one election, and two secret ones in another."""

import re
import time
from collections.abc import Mapping

import pytest

from tests.support.election_books import text_in
from tests.support.letters import mailbox
from tests.support.meetings import (
    MEMBERS,
    MOTIONS,
    OPEN,
    ROWS,
    SECRET,
    MeetingTest,
    Poll,
)
from tests.support.questions import one_line
from tests.support.web_host import NEEDS_PHP

# how a motion is answered at a desk
WORDS = {"1,2": "ja", "2,1": "Nein", "1,1": "Enthaltung."}
# how many commands each needs at most, and how many lines an answer has at most
MOST_OPEN, MOST_SECRET, MOST_LINES = 35, 7, 60
UNTIL = "--until '2099-12-04 18:00' --zone Europe/Berlin"


def by_words(line: str) -> str:
    """A ballot with words in place of the ranks of motions."""
    ranks = f"([{MOTIONS}]) (1,2|2,1|1,1)(?![,\\d])"
    return re.sub(ranks, lambda found: f"{found[1]} {WORDS[found[2]]}", line)


@pytest.mark.whole
@NEEDS_PHP
class Meeting(MeetingTest):
    """Counts its commands."""

    commands = 0

    def command(self, *words: object, status: int = 0, **how: object) -> str:
        self.commands += 1
        ended = self.election(*words, **how)
        self.assertEqual(ended.status, status, ended)
        said = ended.output + ended.faults
        self.assertLessEqual(len(said.splitlines()), MOST_LINES, (words, ended))
        return said

    def drafted(self, polls: Mapping[str, Poll], more: str = ""):
        """A new election with these questions, whose files the secretary writes."""
        self.polls, self.folder = polls, self.scratch / "wahl"
        words = ("new", "--language", "de", "--questions", len(polls), self.folder)
        self.command(*words, cwd=self.scratch)
        self.write("polls/title.txt", "Mitgliederversammlung 2026\n")
        self.write("members.csv", ROWS)
        for label, (title, options, ratios, default, quorum) in polls.items():
            listed = ", ".join(f'"{option}"' for option in options)
            poll = f'title = "{title}"\noptions = [{listed}]\nratios = {ratios}\n'
            poll += f'default = "{default}"\nquorum = {quorum}\n{more}'
            is_motion = not more and label in MOTIONS
            self.write(f"polls/{label}.toml", poll + "motion = true\n" * is_motion)
        self.command("roll")

    def posted(self, count: int) -> list[bytes]:
        """The letters that are ready, which are so many."""
        self.server.taken.clear()
        self.command(f"letters --send --server {self.server.name}")
        self.assertEqual(len(self.server.taken), count)
        return [one.data for one in self.server.taken]

    def test_an_evening(self):
        self.called()
        self.clicks(MEMBERS[:11])
        self.command("add --box --yes")
        self.letters()
        self.command("letters receipts")
        self.posted(23)
        # an extension, whose page is uploaded, and more clicks, of which one answers one question anew
        self.command("call --until '2099-12-05 18:00'")
        self.upload()
        self.posted(len(MEMBERS))
        self.clicks(MEMBERS[11:22])
        time.sleep(1.1)
        line = self.ballot(MEMBERS[12], {"D": "5,4,3,2,1"})
        self.click(MEMBERS[12], line.partition(" ")[2], self.personal[MEMBERS[12]][1])
        said = self.command("add --box --yes")
        self.assertIn("12 ballots of letters went in; 0 letters wait", said)
        lines = [by_words(self.ballot(name)) for name in MEMBERS[34:]]
        self.command("desk", given="".join(f"{line}\n" for line in lines))
        # two who clicked answer one question anew, on paper
        lines = [self.ballot(name, {"B": "4,3,2,1"}) for name in MEMBERS[:2]]
        self.write("papier.txt", "".join(f"{line}\n" for line in lines))
        self.command("add papier.txt")
        self.command("status")
        time.sleep(1.1)
        self.command("close --early")
        # a click after the close is late, and `count` asks once more
        time.sleep(1.1)
        self.click(MEMBERS[3], "A 2,1", self.personal[MEMBERS[3]][1])
        said = self.command("count", status=1)
        self.assertIn("G (Farbe der Trikots): Tie: 1 2\n", said)
        closing = text_in(self.posted(len(MEMBERS))[0])
        because = "--force --because 'Alle haben abgestimmt.'"
        self.command(f"publish {because}", status=1)
        self.posted(len(MEMBERS))
        cast = f"--casting G=Grün --cast-by 'Der Vorsitz' --cast-on {time.strftime('%Y-%m-%d')}"
        self.command(f"publish {cast} {because} result-2")
        sent = self.posted(len(MEMBERS))
        self.assertLessEqual(self.commands, MOST_OPEN)
        self.demand_end("result", "result-2", closing, sent)

    def called(self):
        self.drafted(OPEN)
        self.command("check")
        self.set_clock(time.strftime("%Y-%m-%dT%H:%M:%S+00:00", time.gmtime(time.time() - 3600)))
        self.command(f"call {UNTIL} --to vote@club.example --at {self.host.at} --box")
        self.clock = {}
        self.command("backup", self.scratch / "copy.db")
        self.upload()
        sent = self.posted(len(MEMBERS))
        self.note_call(sent)
        # each letter has all questions, and the checksums of their polls
        sums = self.read("call/polls.sha256").decode()
        titles = [title for title, *_ in OPEN.values()]
        stays = "Ein Stimmzettel, der eine Frage auslässt, ändert Ihre Antwort darauf nicht."
        for part in (*titles, *OPEN["B"][1], *sums.split()[::2], self.checksum, stays):
            self.assertEqual([data for data in sent if part not in text_in(data)], [], part)
        self.assertEqual(self.mark(), self.checksum[:16])
        # so has the page, which is one
        page = self.read("call/index.html").decode()
        self.assertEqual([title for title in titles if title not in page], [])
        self.assertEqual(len([*(self.folder / "call").rglob("*.html")]), 1)

    def letters(self):
        """Of those who write two write more, and their letters wait."""
        time.sleep(1.1)
        names = MEMBERS[22:34]
        letters = self.letters_of(names, [names[9], names[11]], ago=20)
        self.write("post.mbox", mailbox(*letters))
        said = self.command("add --yes post.mbox")
        self.assertIn("2 letters wait", said)
        numbers = re.findall(r"(?m)^ *(\d+)  \d{4}-", said)
        for number, (name, answers) in zip(numbers, self.waiting.items(), strict=True):
            self.ballot(name, answers)
            self.command("held", number, "--as", one_line(name, answers))

    def test_a_secret_vote(self):
        """Each question has its own aliases, and no page tells a code, or who voted what."""
        self.drafted(SECRET, "secret = true\n")
        self.command("codes")
        self.command(f"call {UNTIL} --to wahl@club.example --yes")
        self.assertTrue((self.folder / "private/slips.html").exists())
        self.write("urne.txt", "".join(f"{self.ballot(name)}\n" for name in MEMBERS[:36]))
        for words in ("add urne.txt", "close --early", "publish --yes"):
            self.command(words)
        self.assertLessEqual(self.commands, MOST_SECRET)
        self.demand_secret()
