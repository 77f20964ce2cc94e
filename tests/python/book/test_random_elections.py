"""Random elections against a model that is a list: what the program says is what happened.

Of one question or three, open or secret: lines of files and of desks, letters, also of two who
share an address, clicks, what is decided of letters, strikes, undo, extensions, closes,
reopenings, receipts, two publications. A third of the commands are killed between two system
calls, or find a full disk: all of an act is done, or nothing. After each the book has the acts,
lines and numbers of the model, and each reply holds. Page and letters tell each act in its order,
and what counts of whom. To add an act, write a method of `Played` that says what it makes of the
model.
"""

import copy
import dataclasses
import datetime
import hashlib
import itertools
import os
import pathlib
import random
import re
import signal
from collections.abc import Callable, Iterable

from debvote_tools.call.secret import alias_of
from debvote_tools.cli.console import in_runs
from debvote_tools.text.times import time_in_words

from tests.support import elections, letters, page_parts, sealing
from tests.support.boxes import link_in
from tests.support.election_books import LettersTest, spread, text_in
from tests.support.questions import FORCED, QuestionsTest, in_words, one_line
from tests.support.web_host import Liar, answered

# how many elections are held, half of them of one question, and of how many commands each
ELECTIONS = int(os.environ.get("DEBVOTE_ELECTIONS", "24"))
LENGTH = int(os.environ.get("DEBVOTE_COMMANDS", "40"))

# the system calls that change something, before any of which a run is killed, and how many a
# command makes at most; those that fail on a full disk; and the statuses of a run that is cut off
CHANGES, MAX_CALLS = "pwrite64,write,fsync,fdatasync,unlink,rename,ftruncate,fchmod", 80
WRITES = "pwrite64,ftruncate"
CUT_OFF = (-signal.SIGKILL, 128 + signal.SIGKILL, 7)

CALLED = datetime.datetime(2026, 11, 20, 9, tzinfo=datetime.UTC)
END = CALLED + datetime.timedelta(minutes=110)
# few who vote, and few ranks, so that a ballot often comes again
VOTERS, COUPLE = elections.NAMES[:5], elections.NAMES[3:5]
RANKS = {
    "": ["1,2,3,4", "2,1,3,4", "-,-,1,2"],
    "A": ["1,2", "2,1", "1,1"],
    "B": ["1,2,3", "3,2,1", "2,-,1"],
    "C": ["1,2,3,4", "4,3,2,1", "-,-,1,2"],
}
OPTIONS = ["At the lake", "In the town hall", "Sell the house and meet there", "Further discussion"]
BECAUSE = "The reason, in the secretary's words:"

# ranks by the label of a question, which is empty if there is one alone
Answers = dict[str, str]


def is_right(label: str, ranks: str) -> bool:
    return ranks.count(",") == RANKS[label][0].count(",")


def sentence(number: int, one: str, many: str) -> str:
    return f" {number} {one if number == 1 else many}" if number else ""


@dataclasses.dataclass(eq=False)
class Letter:
    """A letter or a click, which may have no ballot. One that is not plain never goes in by itself."""

    name: str
    answers: Answers
    time: datetime.datetime
    is_plain: bool = True
    is_click: bool = False
    number: int = 0
    # what the last act decided of it
    state: str = ""

    @property
    def electors(self) -> list[str]:
        """The electors who may have sent the letter."""
        return COUPLE if self.name in COUPLE and not self.is_click else [self.name]


# the name of an elector, a ballot of theirs, and the letter that it is of
Ballot = tuple[str, Answers, Letter | None]


@dataclasses.dataclass(eq=False)
class Envelope:
    """A line that an act entered, and how many closes were before it; its time is that of its letter, if it is of one."""

    name: str
    answers: Answers
    letter: Letter | None
    number: int
    act: int
    closes: int
    time: datetime.datetime
    is_late: bool = False
    is_of_file: bool = False
    is_typed: bool = False
    # what took it out, and how many closes were before that
    out: str = ""
    closes_at_out: int = -1

    @property
    def text(self) -> str:
        return one_line(self.name, self.answers)

    @property
    def is_ballot(self) -> bool:
        """Of a refused answer there is an envelope with this answer alone."""
        return self.name in elections.NAMES and all(
            itertools.starmap(is_right, self.answers.items())
        )


@dataclasses.dataclass
class Model:
    """What happened. Letters and envelopes have numbers from 1 on."""

    acts: int
    now: datetime.datetime = CALLED
    end: datetime.datetime = END
    asked: datetime.datetime = CALLED
    is_closed: bool = False
    closes: list[datetime.datetime] = dataclasses.field(default_factory=list)
    envelopes: list[Envelope] = dataclasses.field(default_factory=list)
    letters: list[Letter] = dataclasses.field(default_factory=list)
    # what the web host has, and nobody has asked for
    clicks: list[Letter] = dataclasses.field(default_factory=list)
    # the letters that a close or a publication left waiting; and what receipts have told
    left: set[int] = dataclasses.field(default_factory=set)
    receipts: set[tuple[str, str, int, bool]] = dataclasses.field(default_factory=set)
    # what a page tells, of an undo its envelopes; and the earlier results, each with how many closes
    # were before it
    told: list[str | list[Envelope]] = dataclasses.field(default_factory=list)
    earlier: list[tuple[int, str]] = dataclasses.field(default_factory=list)

    # ---- what is in the book
    def kept(self, label: str | None = None, *, late: bool = False) -> list[Envelope]:
        """What is in time, or late, and was not taken out; or what of it answers a question."""
        return [
            one
            for one in self.envelopes
            if one.is_late == late and not one.out and (label is None or label in one.answers)
        ]

    def lines(self, label: str | None = None, *, late: bool = False) -> list[str]:
        kept = self.kept(label, late=late)
        return [one.text if label is None else f"{one.name} {one.answers[label]}" for one in kept]

    def counted_answers(self) -> dict[str, Answers]:
        """What counts of each elector."""
        found: dict[str, Answers] = {name: {} for name in elections.NAMES}
        for one in self.kept():
            if one.is_ballot:
                found[one.name] |= one.answers
        return found

    def later(
        self, name: str, letter: Letter, answers: Answers, *, by_letter: bool = False
    ) -> set[str]:
        """To which of these questions an elector has a later answer than that of a letter."""
        return answers.keys() & {
            label
            for one in self.kept()
            if one.is_ballot and one.name == name and one.time > letter.time
            if one.letter or not by_letter
            for label in one.answers
        }

    def is_early(self, letter: Letter) -> bool:
        """Whether it arrived before the end and the first close."""
        return letter.time <= min([self.end, *self.closes])

    def is_late(self, letter: Letter) -> bool:
        """Whether a ballot of it that is entered now is late."""
        return self.is_closed or letter.time > min([letter.time, *self.closes])

    def becomes(self, letter: Letter) -> str:
        if letter.state:
            return "waits" if letter.state in ("undo", "--wait") else "is done"
        if not (
            letter.is_plain and letter.answers and CALLED < letter.time and self.is_early(letter)
        ):
            return "waits"
        if self.later(letter.name, letter, letter.answers):
            later = self.later(letter.name, letter, letter.answers, by_letter=True)
            return "is passed over" if later == letter.answers.keys() else "waits"
        return "waits" if self.is_closed else "goes in"

    def of_letters(self, is_meant: Callable[[Letter], object]) -> list[Letter]:
        """The letters that are meant, in the order of their times."""
        return sorted(filter(is_meant, self.letters), key=lambda one: one.time)

    def waiting(self, *, in_time: bool = False) -> list[Letter]:
        """The letters that wait, also for the next `add`; or those of them that came in time."""
        waiting = self.of_letters(lambda one: self.becomes(one) in ("waits", "goes in"))
        return [one for one in waiting if self.is_early(one) or not in_time]

    def stopping(self) -> list[int]:
        return sorted({one.number for one in self.waiting(in_time=True)} - self.left)

    def leave(self):
        """What waits, and arrived in time, stops nothing again."""
        self.left |= {one.number for one in self.waiting(in_time=True)}

    def lacking(self, letter: Letter) -> list[str]:
        """Who may have sent a letter, and has no ballot of it that is not taken out."""
        having = [one.name for one in self.envelopes if one.letter is letter and not one.out]
        return [name for name in letter.electors if name not in having]

    def is_lost(self, one: Envelope) -> bool:
        """Whether an undo took answers in time out that its elector has not given again since, or
        only below such as were above them before.
        """
        own = [other for other in self.envelopes if other.name == one.name and not other.is_late]
        gone = [other for other in own if other.out == "undo" and other.is_ballot]
        since = [other for other in own if other.number > one.number and not other.out]
        again = set()
        for place, other in enumerate(since, start=1):
            for label, ranks in other.answers.items():
                above = {old.answers.get(label) for old in gone if old.number < one.number}
                turned = above - {ranks, None}
                is_last = not any(
                    old.act == one.act and old.number > one.number and label in old.answers
                    for old in gone
                )
                are_turned = any(later.answers.get(label) in turned for later in since[place:])
                if one.answers.get(label) == ranks and not (is_last and are_turned):
                    again.add(label)
        is_out = one.out == "undo" and one.is_ballot and not one.is_late
        return is_out and not one.answers.keys() <= again

    def replaces_as_late(self, one: Envelope) -> bool:
        """Whether a line in time was late before, and replaced another answer."""
        before = self.envelopes[: one.number - 1]
        if one.letter or one.out or one.is_late or not one.is_ballot:
            return False
        of_elector = [other for other in before if other.name == one.name and not other.out]
        for label, ranks in one.answers.items():
            found = [
                (other.is_late, other.answers.get(label)) for other in of_elector if other.is_ballot
            ]
            in_time = [its for late, its in found if its and not late]
            if (True, ranks) in found and in_time and in_time[-1] != ranks:
                return True
        return False

    def numbers(self, label: str | None = None) -> dict[str, object]:
        """What `status` has to say of the vote, or of a question."""
        kept, late = self.kept(label), self.kept(label, late=True)
        valid = [one for one in kept if one.is_ballot]
        return {
            "lines": len(kept),
            "valid": len(valid),
            "refused": len(kept) - len(valid),
            "voters": len({one.name for one in valid}),
            "late": len(late),
        }

    def numbers_of_all(self) -> dict[str, object]:
        return self.numbers() | {
            "waiting": len(self.waiting()),
            "stopping": self.stopping(),
            "struck": sum(one.out == "strike" for one in self.envelopes),
            "taken_back": sum(map(self.is_lost, self.envelopes)),
            "without_ballot": [
                name for name, answers in self.counted_answers().items() if not answers
            ],
        }

    def to_tell(self) -> set[tuple[str, str, int, bool]]:
        """What a receipt tells each elector of: a letter until there is a ballot of theirs from it."""
        having = {(one.name, one.letter) for one in self.envelopes}
        return {
            (one.name, "envelope", one.number, bool(one.out))
            for one in self.envelopes
            if one.name in VOTERS
        } | {
            (one.name, "letter", one.number, False)
            for one in self.letters
            if (one.answers or len(one.electors) == 1) and (one.name, one) not in having
        }

    # ---- what acts do
    def parts(self, name: str, answers: Answers) -> list[Answers]:
        """A line is one envelope, and behind it each answer of wrong ranks another one."""
        parts: dict[str, Answers] = {}
        for label, ranks in answers.items():
            parts.setdefault("" if is_right(label, ranks) else label, {})[label] = ranks
        return [parts[why] for why in sorted(parts, key=lambda why: name in VOTERS and why != "")]

    def came(self, text: str, *, is_late: bool) -> int:
        """How often a line came in files; to one that is in time a late one did not come."""
        files = (one for one in self.envelopes if one.is_of_file and one.out != "undo")
        return sum(
            one.text == text and (is_late or not one.is_late or one.out != "") for one in files
        )

    def new_of(self, ballots: list[Ballot], *, is_late: bool) -> list[Ballot]:
        """The lines of a file that did not come in files as often before."""
        texts = [one_line(name, answers) for name, answers, _ in ballots]
        return [
            ballot
            for place, ballot in enumerate(ballots)
            if texts[: place + 1].count(texts[place]) > self.came(texts[place], is_late=is_late)
        ]

    def enter(self, ballots: list[Ballot], **how: bool):
        """One act that enters the ballots, if there are any; their letters are done."""
        self.acts += bool(ballots)
        for name, answers, letter in ballots:
            number, closes, time = len(self.envelopes) + 1, len(self.closes), self.now
            if letter:
                time, letter.state = letter.time, "entered"
            one = Envelope(name, answers, letter, number, self.acts, closes, time, **how)
            self.envelopes.append(one)

    def receive(self, new: list[Letter]):
        for one in new:
            self.letters.append(one)
            one.number = len(self.letters)

    def offer(self, *, clicks_alone: bool = False):
        """What goes in by itself."""
        going = self.of_letters(lambda one: self.becomes(one) == "goes in")
        going = [one for one in going if one.is_click or not clicks_alone]
        self.enter([(one.name, one.answers, one) for one in going])

    def is_refused(self, ballots: list[Ballot], *, is_typed: bool, is_forced: bool) -> bool:
        """Whether `held` stops before these ballots of letters."""
        for name, answers, letter in ballots:
            later = self.later(name, letter, answers)
            own = [one for one in self.envelopes if one.name == name and one.letter is letter]
            if any(one.answers.keys() & answers.keys() for one in own if not one.out):
                return True
            if self.is_closed and self.is_early(letter) or later not in (set(), answers.keys()):
                return True
            # somebody has to look at what was typed, and at more than a ballot
            if not is_typed and (not letter.is_plain or (own and own[-1].is_typed)):
                return True
            if not is_forced and (later or name != letter.name):
                return True
        return len({self.is_late(letter) for *_, letter in ballots}) > 1

    def take_out(self, taken: Iterable[Envelope], how: str):
        self.acts += 1
        for one in taken:
            one.out, one.closes_at_out = how, len(self.closes)
            if one.letter and (how == "undo" or one.letter.state == "entered"):
                one.letter.state = how

    def close(self):
        waiting, number = self.waiting(in_time=True), len(self.closes)
        is_asked = (
            self.asked > self.end
            if self.now >= self.end
            else self.now - self.asked <= datetime.timedelta(minutes=10)
        )
        is_stopped = bool(self.stopping()) or not (self.closes or is_asked)
        text = "".join(f"{line}\n" for line in self.lines())
        text = f"The vote was closed. Lines in time: {len(self.kept())}. Checksum: {hashlib.sha256(text.encode()).hexdigest()}."
        text += " That was before the time until which one could vote." * (self.now < self.end)
        text += sentence(
            len(waiting),
            "letter that had arrived in time was left waiting.",
            "letters that had arrived in time were left waiting.",
        )
        text += sentence(
            len(self.waiting()) - len(waiting),
            *(f"letter{s} that had arrived after the end did not go in." for s in ("", "s")),
        )
        if self.closes:
            came = [one for one in self.envelopes if one.closes == number and not one.is_late]
            out = sum(one.closes_at_out == number and not one.is_late for one in self.envelopes)
            text += f" Since the close before this one, lines in time that came in: {len(came)}; that were taken out: {out}."
            again = "late {} entered again, as {} that had come before the first close, and replaced {}."
            text += sentence(
                sum(map(self.replaces_as_late, came)),
                again.format("line was", "one", "another ballot of its elector"),
                again.format("lines were", "ones", "other ballots of their electors"),
            )
        self.told.append(text + f" {BECAUSE} it is time" * is_stopped)
        self.leave()
        self.closes.append(self.now)
        self.is_closed = True
        self.acts += 1

    def replaced(self) -> list[str]:
        """The earlier results that a page tells above its own: ballots may have changed since."""
        closes = len(self.closes) if self.is_closed else len(self.closes) + 1
        return [told for before, told in self.earlier if before < closes]

    def all_told(self) -> list[str]:
        """The acts that a page tells: of an undo what is lost by it; and how many lines came after the end, and count."""
        found = [f"The call was made; one could vote until {time_in_words(END)}."]
        back = "The secretary took back ballots that had been entered. Not entered again as they were: envelopes"
        for one in self.told:
            if isinstance(one, str):
                found.append(one)
            elif lost := [gone.number for gone in one if self.is_lost(gone)]:
                found.append(f"{back} {in_runs(lost)}.")
        after = sum(
            one.time > self.end and (one.letter is not None or not one.closes)
            for one in self.kept()
        )
        words = [
            f"{lines} in time, since the vote was not closed yet."
            for lines in ("line came after the end, and is", "lines came after the end, and are")
        ]
        return found + [sentence(after, *words).strip()] * bool(after)


@dataclasses.dataclass
class Step:
    """A command as it is typed, what it is given, its status, and what else holds after it."""

    typed: str
    given: str | None = None
    statuses: tuple[int, ...] = (0,)
    check: Callable[[str], None] = lambda _: None


class Played:
    """The acts, each with what it makes of the model, and what is demanded after them."""

    labels = [""]
    is_secret = False
    members = elections.members_of(elections.NAMES).replace(f"{COUPLE[1]}@", f"{COUPLE[0]}@")
    # of the web host: what it answers to an asking above the records of the clicks, and when; its page; the key of that
    begun, time, records, page, seal, links = "", "", "", b"", "", {}

    @classmethod
    def setUpClass(cls):
        super().setUpClass()
        host = cls.enterClassContext(Liar(cls.answers))
        until = ["--until", f"{END:%Y-%m-%d %H:%M}", "--zone", "UTC"]
        slips = ["--slips", "yes"] if cls.is_secret else []
        cls.call_words = [*until, "--to", "vote@club.example", "--at", host.at, "--box", *slips]

    @classmethod
    def answers(cls, request: bytes) -> list[bytes]:
        records = f"box 2 {cls.begun} {cls.time}\n{cls.records}".encode()
        return [answered(records if request.startswith(b"POST") else cls.page)]

    def made(self):
        """An election with a box, of which the call went out."""
        folder, cls = super().made(), type(self)
        script = (folder / "call/vote.php").read_bytes().partition(b"__halt_compiler();\n")[2]
        cls.begun = f"{script.split()[0].decode()} {hashlib.sha256(script).hexdigest()}"
        cls.page = (folder / "call/index.html").read_bytes()
        [cls.seal] = re.findall('data-seal="(.*?)"', cls.page.decode())
        self.set_time(CALLED)
        for typed in ("add --box", "letters call"):
            self.done(typed, cwd=folder)
        found = (link_in(file.read_bytes()) for file in (folder / "letters/call").rglob("*.eml"))
        cls.links = {link[0]: "/".join(link) for link in found}
        return folder

    def set_time(self, time: datetime.datetime):
        self.set_clock(time.isoformat())
        type(self).time = f"{time:%Y-%m-%dT%H:%M:%SZ}"

    # ---- the acts; None if there is nothing to do
    def ballot(self) -> Answers:
        labels = self.chance.sample(self.labels, self.chance.randint(1, len(self.labels)))
        return {label: self.chance.choice(RANKS[label]) for label in sorted(labels)}

    def entering(self, model: Model) -> Step:
        """Lines of a file or of a desk. After a close that was taken back it has to be said whether they had come in time."""
        is_of_file, is_late, came = self.chance.random() < 0.6, model.is_closed, ""
        if model.closes and not is_late:
            is_late = self.chance.random() < 0.5
            came = f"--came-before-close {'no' if is_late else 'yes'}"
        names = self.chance.choices([*VOTERS * 2, "nobody"], k=self.chance.randint(1, 4))
        given = [(name, self.ballot()) for name in names]
        for name, answers in given:
            if name == "nobody":
                # ranks that are none of the head of a table
                answers |= {label: RANKS[label][2] for label in answers}
        for _, answers in given:
            answers[min(answers)] += ",9" if self.chance.random() < 0.1 else ""
        if model.closes and self.chance.random() < 0.5:
            # what was late comes again
            given[1:] = [(one.name, dict(one.answers)) for one in model.kept(late=True)[-3:]]
        ballots = [(name, part, None) for name, whole in given for part in model.parts(name, whole)]
        new = model.new_of(ballots, is_late=is_late) if is_of_file else ballots
        model.enter(new, is_late=is_late, is_of_file=is_of_file)
        command = "add --yes -" if is_of_file else "desk"
        text = "".join(f"{one_line(*one)}\n" for one in given)
        return Step(f"{command} --force {came}", text)

    def mailing(self, model: Model) -> Step | None:
        """The whole mailbox, with some new letters, each with a second of its own."""
        for _ in range(self.chance.randint(0, 3)):
            model.receive([self.new_letter(model)])
        data = [self.letter_of(one) for one in model.letters if not one.is_click]
        if not data:
            return None
        self.write("mail", letters.mailbox(*data))
        model.offer()
        return Step("add --yes mail")

    def new_letter(self, model: Model) -> Letter:
        times = {model.now - datetime.timedelta(seconds=5 + 10 * slot) for slot in range(360)}
        free = sorted(times - {one.time for one in model.letters})
        # most of them of the last minutes
        time = free[int(len(free) * self.chance.random() ** 0.3)]
        name, is_plain = self.chance.choice(VOTERS), self.chance.random() < 0.7
        return Letter(name, self.ballot() if self.chance.random() < 0.8 else {}, time, is_plain)

    def letter_of(self, one: Letter) -> bytes:
        lines = [f"{label} {ranks}" for label, ranks in one.answers.items()]
        text = one_line(one.name, one.answers) if one.answers else "I am for the lake."
        if "A" in self.labels and one.answers and one.is_plain:
            broken = ["\n".join([one.name, *lines]), "\n\n".join([one.name.title(), *lines])]
            text = [text, *broken][one.number % 3]
        return letters.marked(
            one.name,
            f"{'' if one.is_plain else 'This is my choice:'}\n{text}\n",
            sender=f"{one.electors[0]}@club.example",
            number=one.number,
            time=f"{one.time:%a, %d %b %Y %H:%M:%S} +0000",
        )

    def click(self, model: Model):
        time = model.now - datetime.timedelta(seconds=3)
        one = Letter(self.chance.choice(VOTERS), self.ballot(), time, is_click=True)
        model.clicks.append(one)
        link, mark = self.links[one.name], self.begun.split()[0]
        number, sent = self.records.count("Message-ID"), f"{time:%Y-%m-%dT%H:%M:%S}.000Z"
        inside = sealing.inside(one_line(one.name, one.answers), link, sent)
        text = sealing.sealed(self.seal, mark, f"{number:032x}", inside)
        type(self).records += sealing.record(mark, link, number, time.isoformat(), text)

    def asking(self, model: Model) -> Step:
        # the page that an extension made is uploaded
        type(self).page = self.read("call/index.html")
        model.receive(model.clicks)
        model.asked, model.clicks = model.now, []
        model.offer(clicks_alone=True)
        return Step("add --box --yes")

    def holding(self, model: Model) -> Step | None:
        """Ballots of letters are entered, or what was read in one is typed, of one or both who may have sent it."""
        is_typed, how = self.chance.random() < 0.5, "--enter"
        found = model.of_letters(lambda one: one.answers and model.becomes(one) != "is done")
        found = model.of_letters(model.lacking) if is_typed else found
        # what was taken back is often entered again
        found = [one for one in found if one.state == "undo"] or found
        if not found:
            return None
        chosen = self.chance.sample(
            found, 1 if is_typed else min(len(found), self.chance.randint(1, 3))
        )
        chosen.sort(key=lambda one: one.time)
        ballots = [(one.name, one.answers, one) for one in chosen]
        if is_typed:
            names = model.lacking(chosen[0])
            names = self.chance.sample(names, self.chance.randint(1, len(names)))
            ballots = [(name, self.typed(model, chosen[0], name), chosen[0]) for name in names]
            how = " ".join(f"--as '{one_line(name, answers)}'" for name, answers, _ in ballots)
        is_forced = len(chosen) == 1 and self.chance.random() < 0.6
        numbers = " ".join(str(one.number) for one in chosen)
        typed = f"held {numbers} {how} --yes {FORCED * is_forced}"
        if model.is_refused(ballots, is_typed=is_typed, is_forced=is_forced):
            return Step(typed, statuses=(9,))
        model.enter(ballots, is_late=model.is_late(chosen[0]), is_typed=is_typed)
        return Step(typed)

    def typed(self, model: Model, letter: Letter, name: str) -> Answers:
        """Any ballot, or one without the answers of which there are later ones."""
        answers = self.ballot()
        later = model.later(name, letter, answers)
        left = {label: ranks for label, ranks in answers.items() if label not in later}
        return self.chance.choice([left, answers]) or answers

    def deciding(self, model: Model) -> Step | None:
        """Letters are set aside, or wait again; none of which a ballot is entered."""
        found = model.of_letters(lambda one: one.state != "entered")
        if not found:
            return None
        chosen = self.chance.sample(found, min(2, len(found)))
        state = self.chance.choice(["--set-aside", "--wait"])
        for one in chosen:
            one.state = state
        model.acts += 1
        return Step(f"held {' '.join(str(one.number) for one in chosen)} {state}")

    def undoing(self, model: Model) -> Step | None:
        """The last act of which a line stands: what was struck before stays struck."""
        left = [one for one in model.envelopes if not one.out]
        if model.is_closed or not left:
            return None
        taken = [one for one in left if one.act == left[-1].act]
        model.take_out(taken, "undo")
        model.told.append(taken)
        return Step("undo --yes")

    def striking(self, model: Model) -> Step | None:
        left = [one for one in model.envelopes if not one.out]
        if model.is_closed or not left:
            return None
        one = self.chance.choice(left)
        model.take_out([one], "strike")
        said = f"The secretary struck envelope {one.number}: its line does not count."
        model.told.append(f"{said} {BECAUSE} it was torn")
        return Step(f"strike {one.number} --because 'it was torn'")

    def timing(self, model: Model) -> Step:
        """A close, or its end; or an extension before the first close."""
        if model.is_closed:
            model.is_closed = False
            model.acts += 1
            said = "The vote was opened again, for what had come before the first close."
            model.told.append(f"{said} {BECAUSE} a bag")
            return Step("reopen --because 'a bag'")
        if not model.closes and self.chance.random() < 0.4:
            later = datetime.timedelta(minutes=self.chance.randint(1, 60))
            model.end = max(model.now, model.end).replace(second=0) + later
            model.acts += 1
            said = f"The time was extended: one could vote until {time_in_words(model.end)}."
            model.told.append(said)
            return Step(f"call --until '{model.end:%Y-%m-%d %H:%M}' --zone UTC")
        early = "--early" if model.now < model.end else ""
        model.close()
        return Step(f"close {early} --force --because 'it is time'")

    def telling(self, model: Model) -> Step:
        """A receipt to each of whom something came that none has told, with what counts of them."""
        untold, before = model.to_tell() - model.receipts, {*self.receipts()}
        model.receipts |= untold

        def check(_: str):
            new = {file.stem: text_in(file.read_bytes()) for file in {*self.receipts()} - before}
            self.assertEqual({*new}, {name for name, *_ in untold})
            for name, text in new.items():
                counts = re.search("and it counts\\.|It counts unless", text)
                self.assertEqual(bool(counts), bool(model.counted_answers()[name]), text)

        return Step("letters receipts", check=check)

    def receipts(self) -> Iterable[pathlib.Path]:
        return self.folder.rglob("letters/receipts/*/*.eml")

    def counting(self, model: Model) -> Step | None:
        """The sheet of a question of a vote that was never closed."""
        label = self.chance.choice(self.labels)
        typed = f"count --force --question {label}" if label else "count --force"
        if model.closes:
            return None
        if self.is_secret:
            return Step(typed, statuses=(9,))
        place, lines = f"call/{label}/poll.toml", model.lines(label)

        def check(output: str):
            self.assertEqual(output, self.sheet_of(label, lines, poll=self.read(place)))

        return Step(typed, statuses=(0, 1), check=check)

    # ---- a run
    def acts(self) -> int:
        """How many acts were done, but for those that only keep letters, or write some."""
        [(number,)] = self.rows("SELECT count(*) FROM act WHERE name NOT LIKE 'letters%'")
        return number

    def played(self, seed: int):
        self.chance, model = random.Random(seed), Model(self.acts())
        type(self).records, type(self).page = "", self.read("call/index.html")
        for place in range(LENGTH):
            model.now += datetime.timedelta(seconds=10 * self.chance.randint(1, 100))
            self.set_time(model.now)
            if self.chance.random() < 0.4:
                self.click(model)
            model = self.run_step(model)
            if place == LENGTH * 2 // 3:
                self.publish(model)
        while not model.is_closed:
            step = self.timing(model)
            self.done(step.typed)
        self.publish(model)
        self.demand_letters(model)
        self.done("log --check")

    def kinds(self, before: Model) -> list[Callable[[Model], Step | None]]:
        """The acts, each as often as its share."""
        kinds = [self.entering, self.mailing, self.holding] * 4 + [self.asking] * 2
        kinds += [self.deciding, self.striking, self.telling, self.counting, self.undoing]
        # few closes before the first, and many after it
        kinds += [self.timing] * (4 if before.closes else 1)
        # an undo after what was typed, or after an undo; and what was taken back is entered again
        last = before.envelopes[-1] if before.envelopes else None
        kinds += [self.undoing] * 8 * bool(last and (last.out or last.is_typed))
        kinds += [self.holding] * 8 * any(one.state == "undo" for one in before.letters)
        return kinds

    def run_step(self, before: Model) -> Model:
        """Runs a command, perhaps not to its end, and returns the model that holds."""
        kinds, step = self.kinds(before), None
        while step is None:
            after = copy.deepcopy(before)
            step = self.chance.choice(kinds)(after)
        ended, kind = None, self.chance.random()
        if kind < 0.65:
            ended = self.election(step.typed, given=step.given)
        else:
            full = f"{WRITES}:error=ENOSPC:when={self.chance.randint(1, 20)}+"
            kill = f"{CHANGES}:signal=KILL:when={self.chance.randint(1, MAX_CALLS)}"
            how = "-e", f"inject={kill if kind < 0.9 else full}"
            ended = self.traced(*how, words=[step.typed], given=step.given or "")
        is_cut_off = ended.status in CUT_OFF
        if is_cut_off and step.typed.startswith(("add", "call", "letters")):
            # what keeps letters, or writes files, before its act is repeated
            ended, is_cut_off = self.election(step.typed, given=step.given), False
        done = self.acts()
        model = after if done == after.acts else before
        self.assertEqual(done, model.acts, (step, ended))
        if not is_cut_off:
            self.assertIs(model, after, (step, ended))
            self.assertIn(ended.status, step.statuses, (step, ended))
            step.check(ended.output)
        self.demand_replies(
            before, model, ended.output, is_whole=step.typed.startswith("desk") and not is_cut_off
        )
        self.demand(model, (step, ended))
        return model

    def demand_replies(self, before: Model, after: Model, output: str, *, is_whole: bool):
        """What was told of each envelope holds, by question."""
        told = dict(
            re.findall(r"(?m)^(\d+) ((?:[ABC] )?(?:counted|replaced|late|bad) ?.*?)  ", output)
        )
        counted_answers = before.counted_answers()
        for number, one in [*enumerate(after.envelopes, start=1)][len(before.envelopes) :]:
            words = {
                label: "replaced" if label in counted_answers.get(one.name, {}) else "counted"
                for label in one.answers
            }
            said = {*words.values()}
            wanted = ", ".join(
                said if len(said) == 1 else (f"{label} {word}" for label, word in words.items())
            )
            wanted = "late" if one.is_late else wanted if one.is_ballot else "bad "
            if one.is_ballot and not one.is_late:
                counted_answers[one.name] |= one.answers
            found = told.pop(str(number), None)
            if found is not None or is_whole:
                self.assertEqual(
                    found and (found[:4] if wanted == "bad " else found), wanted, output
                )
        self.assertEqual(told, {}, output)

    def demand(self, model: Model, context: object):
        """Export and status are the model's."""
        found = [text.splitlines() for text in self.exported()]
        self.assertEqual(found, [model.lines(), model.lines(late=True)], context)
        status, wanted = self.numbers(), model.numbers_of_all()
        self.assertEqual({key: status[key] for key in wanted}, wanted, context)
        for label, of_question in status.get("questions", {}).items():
            wanted = model.numbers(label)
            self.assertEqual({key: of_question[key] for key in wanted}, wanted, context)

    def publish(self, model: Model):
        if self.is_secret and not model.is_closed:
            return
        name = f"result-{len(model.earlier)}"
        self.write("about", f"This is publication {len(model.earlier)}.\n")
        typed = f"publish --about about --force --yes --because 'it is wanted' {name}"
        ended = self.election(typed)
        self.assertIn(ended.status, (0, 1), ended)
        sheets = [
            self.demand_published(model, label, self.folder / name / label) for label in self.labels
        ]
        if self.labels == [""]:
            self.demand_told(model, self.folder / name)
        numbers = re.findall(r"\b\d\b", sheets[0].splitlines()[-1])
        left = ", ".join(OPTIONS[int(number) - 1] for number in numbers)
        checksum = hashlib.sha256(self.read(f"{name}/SHA256SUMS")).hexdigest()
        how = f"{'A tie' if ended.status else 'Winner'}: {left}."
        told = f"A result was published, whose SHA256SUMS has the checksum {checksum}. {how}"
        model.earlier.append((len(model.closes), told))
        model.told.append(told)
        if model.is_closed:
            model.leave()
        model.acts += 1

    def demand_published(self, model: Model, label: str, folder) -> str:
        """Files and sheet of a question, which is that of the second program."""
        standing = {
            name: answers[label]
            for name, answers in model.counted_answers().items()
            if label in answers
        }
        lines = model.lines(label)
        if self.is_secret:
            codes = dict(self.rows("SELECT name, code FROM elector_now"))
            standing = {
                alias_of(codes[name], f"{label} {name}"): ranks for name, ranks in standing.items()
            }
            lines = sorted(f"{name} {ranks}" for name, ranks in standing.items())
        else:
            self.assertEqual(
                (folder / "late.txt").read_text().splitlines(), model.lines(label, late=True)
            )
        self.assertEqual((folder / "ballots.txt").read_text().splitlines(), lines)
        found = {*(folder / "standing.txt").read_text().splitlines()}
        self.assertEqual(found, {f"{name} {ranks}" for name, ranks in standing.items()})
        sheet = (folder / "sheet.txt").read_text()
        self.assertEqual(
            sheet, self.sheet_of(label, lines, poll=(folder / "poll.toml").read_bytes())
        )
        return sheet

    def demand_told(self, model: Model, folder):
        """Page and letter tell each act, and each earlier result."""
        page = (folder / "index.html").read_text()
        letter = self.text("letters/result.txt")
        done = page_parts.sections_of(page)["What-was-done"]
        told = [item.text().partition("): ")[2] for item in done.all("li")]
        told += [text.text() for text in done.all("p") if "after the end" in text.text()]
        self.assertEqual(told, model.all_told())
        in_letter = [re.sub("words: (.*)", r"words: (\1)", text) for text in told]
        self.assertEqual([text for text in in_letter if text not in letter], [])
        before = "<p>This result takes the place of an earlier one. .*?: (.*?)</p>"
        earlier = re.findall(before, re.sub("</?(?:code|bdi)>", "", page), re.S)
        self.assertEqual(earlier, model.replaced())
        self.assertEqual(letter.count("of an earlier one."), len(earlier))
        late = len(model.kept(late=True))
        self.assertEqual(
            re.findall(r"<li><b>(\d+)</b> came late</li>", page), [str(late)] * bool(late)
        )

    def demand_letters(self, model: Model):
        """The letter of the result has the ballot that counts, and so has `show`."""
        self.done("letters result --force --because x")
        for name, answers in model.counted_answers().items():
            files = self.folder.rglob(f"letters/result/*/{name}.eml")
            last = max(files, key=lambda file: int(file.parent.name))
            letter = text_in(last.read_bytes())
            shown = " ".join(self.done(f"show --yes {name}").output.split())
            if not answers:
                self.assertIn("The result has no ballot of yours that counts.", letter)
                self.assertRegex(shown, "The current ballot: none|nothing came")
            elif self.is_secret:
                self.assertIn("Your ballot is in the result under an alias", letter)
            else:
                words = in_words(self.folder, answers)
                self.assertIn(f"Your own ballot in words: {words}", letter)
                line = f"{one_line(name, answers)}: " if "A" in self.labels else ""
                self.assertIn(f"The current ballot: {line}{words}", shown)


class OneQuestion(Played, QuestionsTest):
    polls, poll, new_words, fill_in = {}, elections.POLL, (), LettersTest.fill_in


class ThreeQuestions(Played, QuestionsTest):
    labels = ["A", "B", "C"]


class SecretVote(ThreeQuestions):
    is_secret = True
    polls = {label: f"{poll}secret = true\n" for label, poll in QuestionsTest.polls.items()}


KINDS = [OneQuestion, ThreeQuestions, OneQuestion, SecretVote]

spread(globals(), KINDS, ELECTIONS)
