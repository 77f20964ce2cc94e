"""Whole elections in which each member clicks, in a browser and on a real host.

What is published is what was chosen, and neither the host nor, in a secret vote, anybody who reads
what comes out of it learns who chose it.
"""

import datetime
import hashlib
import os
import pathlib
import random
import re
import shutil
import time
import unittest.mock

import pytest

from debvote_tools.call.box import proof_digest

from tests.support import boxes, elections
from tests.support.at_browser import NEEDS_BROWSER, Window
from tests.support.boxes import OTHER, RANKS, now
from tests.support.web_host import Liar, passed_on

# how many members there are
MEMBERS = int(os.environ.get("DEBVOTE_CLICKING_MEMBERS", "40"))

# ranks, however somebody writes those of four options, and names of options in their order
RANKED = re.compile(
    r"(?<![\w.:-])[0-9-]\s?[,;/ ]\s?[0-9-]\s?[,;/ ]\s?[0-9-]\s?[,;/ ]\s?[0-9-](?![\w:-])"
)
IN_WORDS = re.compile(
    r"(At the lake|In the town hall|Sell the house|Further discussion).{0,20}, (then|and) "
)
# a ballot line that is shown to say how one is written
EXAMPLE = re.compile("(A ballot line of this poll:|write it as) `[^`]+`")
# the times of ballots in a receipt
SENT = re.compile(r"[bB]allot of \w+, \d+ \w+ \d+, ([\d:]+) \(UTC\+01:00\)")


def in_order(ranks: str) -> str:
    """Ranks as they are published of a secret vote: the order alone."""
    used = sorted({rank for rank in ranks.split(",") if rank != "-"})
    return ",".join("-" if rank == "-" else str(used.index(rank) + 1) for rank in ranks.split(","))


class ClickedElection(boxes.BoxElectionTest):
    """All that its host is sent, and all that its commands say, is kept."""

    names = [f"member-{number:02}" for number in range(MEMBERS)]
    # the arguments of the call; and its files that tell the roll to everybody
    words: tuple[str, ...] = ()
    public: tuple[str, ...] = ("index.html", "poll.toml", "call.txt")

    def setUp(self):
        self.said = list[str]()
        super().setUp()
        self.between = self.enterContext(Liar(lambda request: [passed_on(request, self.host)]))
        self.random = random.Random(1)
        self.ranks = {name: ",".join(self.random.choices("1234-", k=4)) for name in self.names}

    def election(self, *words: object, **how: object) -> elections.Ended:
        ended = super().election(*words, **how)
        self.said.append(ended.output + ended.faults)
        return ended

    def call(self, *words: str) -> elections.Ended:
        return super().call(*self.words, "--at", self.between.at, *words)

    def secrets(self) -> list[str]:
        """What else than names, ranks, links and own marks is secret."""
        return []

    def demand_nothing_on_the_host(self, links: dict[str, str]):
        """Nothing in its files, its log, and what it was sent, tells a name, a line, a link or an
        own mark.
        """
        owns = [str(own) for own, in self.rows("SELECT mark FROM elector_now")]
        secrets = [*links.values(), *owns, *self.ranks.values(), *self.names, *self.secrets()]
        files = [file for file in self.web.rglob("*") if file.is_file()]
        kept = [file.read_bytes() for file in files if file.name not in self.public]
        self.assertGreaterEqual(len(kept), 2)
        for data in (*kept, self.host.said(), *self.between.requests):
            for secret in secrets:
                self.assertNotIn(secret.encode(), data)

    def demand_one_length(self, count: int):
        lengths = [len(record) for record in self.records()]
        self.assertEqual((len(lengths), len({*lengths})), (count, 1))


@pytest.mark.whole
@NEEDS_BROWSER
class InABrowser(ClickedElection):
    def setUp(self):
        super().setUp()
        # what receipts name is not its time
        self.host_off(50)
        self.window = self.enterContext(Window(390, 844))

    def visit(self, name: str):
        boxes.visit(self.window, f"{self.between.at}#{self.place_of(name)}")

    def chosen(self, ranks: str) -> str:
        """Chooses ranks and votes; the time that is said, as receipts say it."""
        self.window.ballot(None, ranks.split(","))
        said = boxes.press(self.window)
        self.assertRegex(said, "^It has arrived, sent ")
        [spoken] = re.findall(r"sent (\w+ \d+, \d{4}, [\d:]+\s[AP]M)\s[\w:+-]+\.", said)
        # the browser has the zone of this computer
        sent = datetime.datetime.strptime(re.sub(r"\s", " ", spoken), "%b %d, %Y, %I:%M:%S %p")
        hour = datetime.timezone(datetime.timedelta(hours=1))
        return f"{sent.astimezone().astimezone(hour):%H:%M:%S}".removesuffix(":00")

    def all_click(self) -> dict[str, list[str]]:
        """Each member once, some twice, in any order; when each of their ballots was sent, as the
        page says.
        """
        self.window.faults.clear()
        sent = dict[str, list[str]]()
        for number, name in enumerate(self.random.sample(self.names, len(self.names))):
            self.visit(name)
            other = OTHER if self.ranks[name] != OTHER else RANKS
            chosen = [other, self.ranks[name]] if number % 5 == 0 else [self.ranks[name]]
            sent[name] = [self.chosen(ranks) for ranks in chosen]
        self.assertEqual(self.window.faults, [])
        return sent

    def demand_receipts(self, sent: dict[str, list[str]]):
        """Each names the times that the page said, and no other."""
        receipts = self.receipts()
        self.assertEqual(sorted(receipts), sorted(self.names))
        for name, text in receipts.items():
            self.assertEqual(SENT.findall(text), sent[name], text)

    def close_and_publish(self, *words: str) -> dict[str, str]:
        """Closes and publishes: the ballots that are published, by name or alias."""
        self.later(60)
        self.done("close --early")
        self.later()
        self.add_box()
        self.done("letters closed")
        self.done("count")
        self.done("publish", *words)
        self.done("letters", "result", "--at", self.between.at)
        return dict(line.split() for line in self.read("result/ballots.txt").decode().splitlines())


SECRET = f"secret = true\n{elections.POLL}"


class OpenByClicks(InABrowser):
    def test_what_is_published_is_what_was_chosen(self):
        links = self.begun()
        sent = self.all_click()
        count = sum(map(len, sent.values()))
        self.demand_one_length(count)
        self.add_box(f"{count} ballots of letters went in; 0 letters wait")
        self.demand_receipts(sent)
        self.assertEqual(self.close_and_publish(), self.ranks)
        self.demand_nothing_on_the_host(links)

    def test_a_host_that_drops_a_ballot_and_dates_the_one_before_it_anew(self):
        """Who sent it sees that: the receipt names the time of the other one, and not the one that
        the page said.
        """
        self.begun()
        self.visit(self.names[0])
        first = self.chosen(RANKS)
        # the browser has the clock of this computer
        time.sleep(1.1)
        self.assertNotEqual(first, self.chosen(OTHER))
        kept, dropped = self.records()
        when, of_other = (one.partition(b"X-Proof")[0] for one in (dropped, kept))
        self.keep(kept.replace(of_other, when))
        self.add_box("1 ballot of letters went in; 0 letters wait")
        [text] = self.receipts().values()
        self.assertEqual(SENT.findall(text), [first])
        self.assertIn("It was read as: At the lake, then In the town hall", text)


class SecretByClicks(InABrowser):
    poll = SECRET
    words = ("--slips", "yes")
    # with aliases
    public = ("poll.toml",)
    # lines that somebody writes, most of which debvote refuses
    on_paper = ("member-01 1, 2, 3", "Member-01 4;3;2;1", "nobody 1,2,3,4", "member-01 1 2 3 4 5")
    at_a_desk = ("member-00 2,1,3,4", "member-01 1/2/3/4", "member-01 4 3 2 1 4")

    def setUp(self):
        super().setUp()
        self.done("codes")

    def secrets(self) -> list[str]:
        return [str(one) for row in self.rows("SELECT alias, code FROM elector_now") for one in row]

    def test_what_is_published_is_what_was_chosen_and_nothing_else_tells_it(self):
        links = self.begun()
        # without a link no line is made, and the page says which one to open
        boxes.visit(self.window, self.between.at)
        missing = "To vote here by a click, open the link in your own letter."
        found = self.window.ballot(None, "1234")
        self.assertEqual((found["line"], found["missing"]), ("", missing))
        sent = self.all_click()
        receipt = (
            "A receipt by e-mail with this time says whether it counts, and not what is in it."
        )
        self.assertIn(receipt, self.window.ask("document.getElementById('Sent').textContent"))
        self.demand_one_length(sum(map(len, sent.values())))
        for word in ("look", "yes", "yes"):
            self.done(f"add --box --{word}")
        self.demand_receipts(sent)
        self.use_all_commands()
        published = self.close_and_publish("--yes")
        rows = self.rows("SELECT name, alias FROM elector_now")
        aliases = {str(name): str(alias) for name, alias in rows}
        chosen = {aliases[name]: in_order(ranks) for name, ranks in self.ranks.items()}
        self.assertEqual(published, chosen)
        for words in ("publish result-2", "publish --yes result-2", "log"):
            self.election(words)
        self.demand_nothing_on_the_host(links)
        self.demand_untold(links, aliases)

    def use_all_commands(self):
        """Ballots that wait, that are refused, and that are taken back; what stands at the end is
        what it was.
        """
        name, other = self.names[:2]
        [(envelopes, letters)] = self.rows(
            "SELECT max(envelope), (SELECT max(letter) FROM letter) FROM envelope"
        )
        # no page makes such a line; a letter of a stranger, and lines of paper and of a desk
        self.click(name, "1,2,3,9")
        self.add(self.letter(other, f"{other} {OTHER}", sender="x@else.example"))
        self.write("paper.txt", "".join(f"{line}\n" for line in self.on_paper))
        self.election("desk", given="".join(f"{line}\n" for line in self.at_a_desk))
        waiting = (letters + 1, letters + 2)
        ways = ("", "--enter", "--enter --yes", "--set-aside", "--wait", "--set-aside")
        each = [f"held {number} {way}" for number in waiting for way in ways]
        each += [f"show {one}" for one in self.names]
        first = "add --box --look|add --box --yes|add paper.txt|add --force paper.txt|held|held 1|status|status --json|log"
        last = "count|count --force|publish|strike 1 --because x|undo|letters reminders|letters receipts"
        for words in (*first.split("|"), *each, *last.split("|")):
            self.election(words)
        # what was added and typed here is taken back
        for (envelope,) in self.rows("SELECT envelope FROM envelope WHERE envelope > ?", envelopes):
            self.election(f"strike --yes --because try {envelope}")
        self.assertEqual(self.rows("SELECT max(letter) FROM letter"), [(waiting[1],)])
        self.election("log --check")

    def demand_untold(self, links: dict[str, str], aliases: dict[str, str]):
        """No output has ranks or an alias, no letter ranks, and nothing ties a name to an alias."""
        self.assertIn("(not shown)", "".join(self.said))
        for said in self.said:
            self.demand_no_ranks(EXAMPLE.sub("", said))
            for part in (*self.on_paper, *self.at_a_desk, *aliases.values()):
                self.assertNotIn(part, said)
        hidden = ("private/", "election.db", "paper.txt", "inbox.mbox", "members.csv")
        shown = ("result", "call/", "letters/result", "letters/closed", "letters/receipts")
        for where, data in self.contents().items():
            if where.startswith(hidden):
                continue
            text = data.decode("utf-8", "replace")
            text += boxes.text_of(data) if where.endswith(".eml") else ""
            names = {name for name in aliases if name in text}
            has_alias = any(alias in text for alias in aliases.values())
            self.assertFalse(names and has_alias, where)
            if where.startswith("letters/"):
                self.assertFalse(has_alias, where)
                self.demand_no_ranks(" ".join(text.split()))
            # nor does a letter open the page of the result at a name
            if where.startswith("letters/result"):
                self.assertNotRegex(text, f"#({'|'.join(aliases)})", where)
            if where.startswith(shown):
                self.assertFalse([link for link in links.values() if link in text], where)
            if where.startswith(("result", "call/")):
                self.assertEqual(names, set(), where)

    def demand_no_ranks(self, text: str):
        for pattern in (RANKED, IN_WORDS):
            self.assertIsNone(pattern.search(text), text)


class Struck(boxes.BoxElectionTest):
    """A host that takes an elector out of the list of its script."""

    def test_it_is_told_to_the_elector_and_to_who_asks(self):
        self.begun(ada=RANKS, ben=RANKS)
        self.add_box()
        script = self.web / "vote.php"
        true_one, digest = script.read_bytes(), proof_digest(self.mark(), self.place_of("ada"))
        script.write_bytes(true_one.replace(f"{digest}\n".encode(), b""))
        self.assertNotEqual(script.read_bytes(), true_one)
        # who voted before, too, and what came then counts
        answer = self.sent("ada", OTHER, self.links()["ada"], 900)
        self.assertEqual((answer.status, answer.word), (403, "unknown:"))
        self.click("cleo")
        note = "Note: the web host has another vote.php than the folder call"
        self.add_box(note)
        self.upload()
        self.click("ada", OTHER)
        self.assertNotIn(note, self.add_box())
        self.assert_standing(ada=OTHER, ben=RANKS, cleo=RANKS)


class SecretQuestions(boxes.BoxElectionTest):
    """A secret vote on several questions, of which one is a motion, whose answers may be words,
    without a browser.
    """

    new_words = ("--questions", "2")
    poll = SECRET
    polls = {
        "A": 'secret = true\ntitle = "Raise the fee"\noptions = ["Yes"]\nratios = [1]\ndefault = "No"\nquorum = 0\nmotion = true\n',
        "B": 'secret = true\ntitle = "The chair"\noptions = ["Ada Lovelace", "Mary Somerville"]\nratios = [1, 1]\ndefault = "Nobody"\nquorum = 0\n',
    }

    def fill_in(self, folder: pathlib.Path):
        super().fill_in(folder)
        (folder / "poll.toml").unlink()
        (folder / "polls" / "title.txt").write_text("General assembly\n")
        for label, poll in self.polls.items():
            (folder / "polls" / f"{label}.toml").write_text(poll)

    def test_no_output_tells_answers(self):
        self.done("codes")
        self.begun("--slips", "no", ada="A 1,2 B 2,1,3", ben="A 2,1", dan="A 1,9")
        self.click("ada", "B 3,2,1")
        self.write("paper", "eve A yes B 1,3,2\nfay A nope B 1,1\nhal A 2,1,2\n")
        said = self.told("add --box --look") + self.add_box()
        self.assertIn("3 ballots of letters went in; 1 letter waits", said)
        commands = (
            "add paper|held|held 3|held 3 --enter|status|status --json|log|count --force|undo"
        )
        shows = map("show {}".format, elections.NAMES)
        ended = [self.election("desk", given="gus A 1,2 B 3,-,1\nida A perhaps not\n")]
        ended += [self.election(words) for words in (*commands.split("|"), *shows)]
        said += EXAMPLE.sub("", "".join(one.output + one.faults for one in ended))
        self.assertIn("the vote is secret, and this shows what ada voted", said)
        ranks = (
            r"\b[AB] [0-9-]+,|[0-9-],[0-9-]|: (Yes|No|Abstain)\b|Lovelace, then|Somerville, then"
        )
        self.assertIsNone(re.search(rf"{ranks}|(?<!--)\b(yes|nope|perhaps)\b", said), said)
        told = " ".join([*self.receipts().values()])
        self.assertIn("counts", told)
        self.assertIsNone(re.search(r"[0-9],[0-9-]|, then |It was read as", told), told)


@pytest.mark.whole
class ShuffledClicks(boxes.BoxElectionTest):
    """A secret vote that is held again and again from its call on: the same ballots by the same
    codes, with the same random line of the close, and acts of the same times.
    """

    poll = SECRET
    ranks = dict(
        zip(
            elections.NAMES,
            "1,2,3,4 4,3,2,1 1,-,2,- 2,1,3,4 1,1,1,1 4,3,2,1 -,-,-,1 3,1,2,4 2,2,1,-".split(),
        )
    )

    def test_who_clicked_when_changes_no_byte_of_what_is_published(self):
        self.done("codes")
        links, kept = self.begun("--slips", "yes"), self.scratch / "kept"
        self.begin_of_clicks = now(60).replace(microsecond=0)
        for folder in (self.folder, self.state):
            shutil.copytree(folder, kept / folder.name)
        chosen, orders = random.Random(2), set[tuple[str, ...]]()
        published = list[dict[str, bytes]]()
        for _ in range(3):
            for folder in (self.folder, self.state):
                shutil.rmtree(folder)
                shutil.copytree(kept / folder.name, folder)
            self.keep()
            # three of them choose twice
            twice = chosen.sample(elections.NAMES, 3)
            clicks = chosen.sample([*elections.NAMES, *twice], len(elections.NAMES) + 3)
            orders.add(tuple(clicks))
            published.append(self.published(clicks, links))
        self.assertEqual(len(orders), 3)
        for files in published[1:]:
            self.assertEqual(sorted(files), sorted(published[0]))
            for name in files:
                self.assertEqual(files[name], published[0][name])

    def at(self, seconds: int):
        """From now on it is this time, by all clocks."""
        when = self.begin_of_clicks + datetime.timedelta(seconds=seconds)
        self.devices_off = int((when - now()).total_seconds())
        self.host_off(self.devices_off)
        self.set_clock(f"{when:%Y-%m-%dT%H:%M:%S+00:00}")

    def published(self, clicks: list[str], links: dict[str, str]) -> dict[str, bytes]:
        """The files of the result, and the letters that everybody gets, once these have clicked in
        this order.
        """
        for number, name in enumerate(clicks):
            self.at(60 * number)
            is_last = name not in clicks[number + 1 :]
            self.click(name, self.ranks[name] if is_last else "2,3,4,1", links[name])
        self.at(3600)
        self.add_box(f"{len(clicks)} ballots of letters went in")
        self.at(3610)
        with unittest.mock.patch("secrets.token_hex", lambda size: "5" * 2 * size):
            self.done("close --early")
        self.at(3620)
        self.add_box()
        self.done("letters closed")
        self.done("publish --yes")
        files = [file for file in (self.folder / "result").rglob("*") if file.is_file()]
        files += [self.folder / "letters" / name for name in ("closed.txt", "result.txt")]
        # the digest of the acts covers random bytes of each, which stay in the book; checksums
        # follow from it
        closed, sums = (self.read(f"result/{name}") for name in ("closed.txt", "SHA256SUMS"))
        [(digest,)] = self.rows("SELECT digest FROM act WHERE name = 'close'")
        changing = [str(digest), *(hashlib.sha256(data).hexdigest() for data in (closed, sums))]
        for name, text in (("closed.txt", closed), ("SHA256SUMS", sums)):
            self.assertEqual(
                [one in text.decode() for one in changing],
                [name == "closed.txt", name == "SHA256SUMS", False],
            )
        found = {str(file.relative_to(self.folder)): file.read_bytes() for file in files}
        return {
            name: re.sub("|".join(changing).encode(), b"", data) for name, data in found.items()
        }
