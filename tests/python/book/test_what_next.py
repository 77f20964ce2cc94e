"""Random elections in which the secretary does what `Next:` says, and nothing else: each elector gets each letter that is due.

Ballots come in files, by letters and at a desk, and are struck and taken back; addresses change, the end moves, letters are refused
for good or for now. After some of this the first command of each `Next:` is run, until it names a time or nothing that is left. So
the vote is closed, counted and published, ties are decided, and it may be opened again. What the mail server took is what a list
says, and the letters, which find by themselves what is due, have nothing to add.
"""

import datetime
import itertools
import os
import random
import re
import shlex
import tomllib
from collections.abc import Callable

from tests.support import elections, letters
from tests.support.election_books import spread
from tests.support.outgoing import SendTest, parsed
from tests.support.questions import QuestionsTest, one_line

# half as many elections as test_random_elections holds
ELECTIONS = int(os.environ.get("DEBVOTE_ELECTIONS", "24")) // 2
# more commands than any `Next:` leads to before it names a time
MOST = 40

CALLED = datetime.datetime(2026, 11, 20, 9, tzinfo=datetime.UTC)
END = CALLED + datetime.timedelta(days=7)
NAMES = elections.NAMES[:5]
# without an address: letters to her are printed
ON_PAPER = NAMES[-1]
RANKS = {"": ["1,2,3,4", "2,1,3,4"], "A": ["1,2", "2,1"], "B": ["1,2,3", "2,1,3"]}
RANKS["C"] = RANKS[""]
BECAUSE = "--because 'it was so'"

# the command that a step names first, with what is to be written in place of words
COMMAND = re.compile(r"debvote-election ((?:'[^']*'|(?!; |, | \(| or debvote-election ).)*)")


class Followed:
    """An election, and what became of its electors since all was sent."""

    names = NAMES
    labels = [""]
    call_words = ["--until", f"{END:%Y-%m-%d %H:%M}", "--zone", "UTC", "--to", "vote@club.example"]
    call_words += ["--at", "https://club.example/vote/"]

    def setUp(self):
        self.addresses = {name: f"{name}@club.example" for name in NAMES if name != ON_PAPER}
        self.time = CALLED
        self.end = END
        super().setUp()

    @property
    def members(self) -> str:
        rows = (f"{name.title()},{self.addresses.get(name, '')}\n" for name in NAMES)
        return "who,mail\n" + "".join(rows)

    def played(self, seed: int):
        self.chance = random.Random(seed)
        # the electors of whom something came, or was taken out, whom no receipt has told of it; those
        # whose letters were refused once, and come later; and the letters that came
        self.touched, self.refused = set(), set()
        self.letters, self.backups, self.moves = [], 0, 0
        # a part of each subject that an elector has to get
        self.due = {name: [] for name in self.addresses}
        self.pass_time(datetime.timedelta(minutes=1))
        self.all_get("Vote: ")
        self.follow()
        for _ in range(self.chance.randint(2, 4)):
            self.pass_time(datetime.timedelta(hours=self.chance.randint(1, 40)))
            for _ in range(self.chance.randint(1, 3)):
                self.watched(
                    self.chance.choice(
                        [self.add, self.cast, self.mail, self.undo, self.strike, self.move]
                    )
                )
            self.follow()
        if not self.standing():
            self.watched(self.cast)
        self.pass_time(self.end - self.time + datetime.timedelta(minutes=1))
        for closes in range(self.chance.randint(1, 3)):
            if closes:
                self.pass_time(datetime.timedelta(minutes=5))
                self.done(f"reopen {BECAUSE}")
                self.watched(lambda: self.cast("--came-before-close", "yes"))
            self.all_get("Vote closed: ")
            self.follow()
        self.done("log --check")

    def pass_time(self, time: datetime.timedelta):
        self.time += time
        self.set_clock(self.time.isoformat())

    def watched(self, happens: Callable[[], object]):
        """Something happens, of which those have to be told whose envelopes are new, or struck now."""
        query = "SELECT envelope, name, struck FROM entered JOIN elector USING (elector)"
        before = {*self.book.rows(query)}
        happens()
        self.touched |= {name for _, name, _ in {*self.book.rows(query)} - before}

    def standing(self) -> list[int]:
        return [
            number
            for number, in self.book.rows("SELECT envelope FROM entered WHERE struck IS NULL")
        ]

    def all_get(self, subject: str):
        for subjects in self.due.values():
            subjects.append(subject)

    # ---- what happens
    def ballot(self, names: list[str] = NAMES) -> str:
        answers = {label: self.chance.choice(RANKS[label]) for label in self.labels}
        return one_line(self.chance.choice(names), answers)

    def add(self):
        lines = {self.ballot() for _ in range(self.chance.randint(1, 3))}
        self.done("add --force -", given="".join(f"{line}\n" for line in lines))

    def cast(self, *came: str):
        self.done("desk", *came, given=f"{self.ballot()}\n")

    def mail(self):
        """A letter that goes in, or waits."""
        ballot = self.ballot(NAMES[:-1])
        name = ballot.partition(" ")[0]
        text = self.chance.choice([ballot, ballot, "I shall vote tomorrow."])
        number = len(self.letters)
        time = self.time - datetime.timedelta(seconds=50 - number)
        how = {
            "sender": self.addresses[name],
            "number": number,
            "time": f"{time:%a, %d %b %Y %H:%M:%S} +0000",
        }
        # with the own mark of now, which stays in it
        self.letters.append(self.of_this_vote(letters.marked(name, f"{text}\n", **how)))
        self.touched.add(name)
        self.write("mail", letters.mailbox(*self.letters))
        self.done("add --yes mail")

    def undo(self):
        if self.standing():
            self.done("undo --yes")

    def strike(self):
        if standing := self.standing():
            self.done(f"strike {self.chance.choice(standing)} {BECAUSE}")

    def move(self):
        """Another end, or another address, to which the call goes anew, and receipts to both."""
        if self.chance.random() < 0.5:
            self.end += datetime.timedelta(hours=1)
            self.done("call", "--until", f"{self.end:%Y-%m-%d %H:%M}", "--zone", "UTC")
            for name, parts in self.due.items():
                # whom the call had not reached gets the whole of it
                is_whole = name in self.refused or "Vote: " in parts
                parts.append("Vote" if is_whole else "Vote ends later: ")
            return
        name = self.chance.choice(NAMES[:-1])
        self.moves += 1
        self.addresses[name] = f"{name}@{self.moves}.example"
        self.write("members.csv", self.members)
        self.done("roll --yes")
        self.due[name] = ["Vote: "]

    # ---- what the secretary does
    def follow(self):
        """Does what comes next, until that is a time, or nothing is left."""
        self.refuse_some()
        self.do_all()
        self.demand_all_sent()

    def refuse_some(self):
        if self.chance.random() < 0.3:
            name = self.chance.choice(NAMES[:-1])
            reply = self.chance.choice(["450 later", "550 no"])
            self.server.rcpt_answers[self.addresses[name]] = reply
            self.refused.add(name)

    def accept_later(self):
        """No server is so busy for long."""
        for address, reply in [*self.server.rcpt_answers.items()]:
            if reply.startswith("450"):
                del self.server.rcpt_answers[address]

    def do_all(self):
        said = self.done("status").output
        for place in itertools.count():
            self.assertLess(place, MOST, said)
            [following] = re.findall("(?m)^Next: (.*)$", said)
            if following.startswith(("until ", "nothing is left")):
                break
            words = shlex.split(COMMAND.search(following)[1])
            said = self.does(words, following)
            self.accept_later()

    def does(self, words: list[str], following: str) -> str:
        """Runs a command, and returns what it says."""
        if words[0] == "held":
            self.watched(self.decide)
            return self.done("held").output
        self.backups += 1
        values = {"HOST": self.server.name, "FILE": f"{self.scratch}/{self.backups}.db"}
        values |= {"WHO": "The chair", "DATE": f"{self.time:%Y-%m-%d}"}
        ties = {f"{label}=NAME": label for label in self.labels if f"{label}=NAME" in words}
        values |= {word: f"{label}={self.left_of(label)}" for word, label in ties.items()}
        words = [values.get(word, word) for word in words]
        if words[0] == "publish":
            words += ["--yes"] * ("secret" in self.poll)
            self.all_get("esult")
        ended = self.election(*words)
        if words[0] == "publish" and ended.status == 9:
            # another casting vote than before a reopening
            ended = self.election(f"{shlex.join(words)} --force {BECAUSE}")
        # a tie; letters that were refused
        allowed = {"count": (0, 1), "publish": (0, 1), "letters": (0, 9)}.get(words[0], (0,))
        self.assertIn(ended.status, allowed, (words, following, ended))
        return ended.output + ended.faults

    def left_of(self, label: str) -> str:
        ended = self.last("publish")["ended"][label]
        poll = tomllib.loads(self.polls[label])
        return [*poll["options"], poll["default"]][ended["left"][0] - 1]

    def decide(self):
        """Of each letter that waits, after its receipt or before it."""
        for number in self.numbers()["stopping"]:
            is_entered = self.chance.random() < 0.5
            if not is_entered or self.election("held", number, "--enter", "--yes").status:
                self.done("held", number, "--set-aside")

    def demand_all_sent(self):
        """Each elector has what is due, and receipts; the letters find nothing that is left."""
        taken = [(one.to, str(parsed(one.data)["Subject"])) for one in self.server.taken]
        for name, parts in self.due.items():
            found = [subject for to, subject in taken if to.startswith(f"{name}@")]
            is_refused = self.addresses[name] in self.server.rcpt_answers
            parts += ["Receipt: "] * (name in self.touched)
            missing = [part for part in parts if not any(part in subject for subject in found)]
            self.assertFalse(missing and not is_refused, (name, missing, found))
            # what was refused before may come later
            is_told = any(subject.startswith("Receipt: ") for subject in found)
            self.assertTrue(name in self.touched | self.refused or not is_told, (name, found))
            parts.clear()
        self.touched.clear()
        nothing = "There is no letter to send|No other letter is to be sent"
        self.assertRegex(self.done("letters receipts").output, nothing)
        self.server.rcpt_answers.clear()
        self.done("letters --send")
        more = {one.to.partition("@")[0] for one in self.server.taken[len(taken) :]}
        self.assertLessEqual(more, self.refused)
        self.server.taken.clear()


class OneQuestion(Followed, SendTest):
    pass


class SecretVote(OneQuestion):
    poll = f"secret = true\n{elections.POLL}"
    call_words = [*Followed.call_words, "--yes"]


class ThreeQuestions(Followed, QuestionsTest, SendTest):
    labels = ["A", "B", "C"]


KINDS = [OneQuestion, ThreeQuestions, SecretVote]

spread(globals(), KINDS, ELECTIONS)
