"""The end of a vote passes while its electors click: which count, and what electors are told."""

import contextlib
import datetime
import re
import socket
from collections.abc import Callable, Iterator, Sequence

import pytest

from tests.support import boxes
from tests.support.boxes import OTHER, RANKS, now
from tests.support.terminal import Terminal

# in seconds from now
END = 7_200
MINUTE = datetime.timedelta(minutes=1)
CLICKING = {"ada": -240, "ben": -60, "cleo": 60, "dan": 240}

# what the secretary reads of a letter that waits
AFTER = "it arrived after the end of the vote"
NEAR = "it came near the end or the close, sent at [^,]+ by the clock of its device, and that of the web host was off by 1[78]. seconds"

# what electors read, while the vote runs and after it
READ = "It came by the page of the vote. It was read as: At the lake, then In the town hall,"
STAYS, COUNTS = (READ, "it counts unless you send a later one"), (READ, "and it counts.")
WAITS = "came by the page of the vote, with your link. It is not entered yet: the secretary has to look at it first. "
LATE, LOOKED_AT = f"{WAITS}The reason: {AFTER}.", f"{WAITS}If you have not sent this,"


class End(boxes.BoxElectionTest):
    def begun_to_end(self, ahead: int = 0):
        """Called and written to all, with an end in two hours; the clock of the host is so many
        seconds ahead.
        """
        self.host_off(ahead)
        self.end = now(END).replace(microsecond=0)
        self.begun("--until", f"{self.end:%Y-%m-%d %H:%M:%S}", "--zone", "UTC")

    @contextlib.contextmanager
    def begun_click(self, name: str) -> Iterator[Callable[[], str]]:
        """A click whose last byte is sent by a call, which returns the answer."""
        sent = self.body_of(name, RANKS, self.links()[name], next(self.numbers))
        head = f"POST /vote.php HTTP/1.1\r\nHost: x\r\nContent-Length: {len(sent)}\r\n\r\n".encode()
        with socket.create_connection(("127.0.0.1", self.host.port)) as connection:
            connection.sendall(head + sent[:-1])

            def ended() -> str:
                connection.sendall(sent[-1:])
                said = b"".join(iter(lambda: connection.recv(65_536), b""))
                return said.decode().partition("\r\n\r\n")[2]

            yield ended

    def demand_told(self, **told: Sequence[str]):
        """These electors, and nobody else, get receipts, which have these parts, and say of no
        other ballot that it counts or waits.
        """
        texts = self.receipts()
        self.assertEqual(sorted(texts), sorted(told), texts)
        for name, parts in told.items():
            text = texts[name].replace("It counts", "it counts")
            for part in parts:
                self.assertIn(part, text)
            of_each = (text.count("it counts"), text.count(WAITS))
            waits = any(part.startswith(WAITS) for part in parts)
            self.assertEqual(of_each, (READ in parts, waits), text)

    def test_clicks_while_it_passes(self):
        self.begun_to_end()
        self.later(END - 100)
        with self.begun_click("ben") as ended:
            before = self.click("ada").text.split()[1]
            self.click("dan")
            self.later(200)
            word, across = ended().split()
        # what changes a ballot after the end changes nothing
        self.click("dan", OTHER)
        after = self.click("cleo").text.split()[1]
        end = f"{self.end:%Y-%m-%dT%H:%M:%SZ}"
        self.assertEqual(word, "received")
        self.assertTrue(before < end < across <= after, (before, end, across, after))
        # `close` asks, and stops: ben's was sent in time
        fault = "the web box was asked, 5 new ballots are kept"
        self.assertIn(fault, self.election("close").faults)
        early = self.record(f"eve {OTHER}", self.end - MINUTE, sent=self.end + MINUTE)
        self.keep(*self.records(), early)
        self.add_box()
        self.assertEqual(self.told("held").count(AFTER), 2)
        self.assert_standing(ada=RANKS, dan=RANKS)
        wait = {"ben": [LOOKED_AT], "eve": [LOOKED_AT]}
        self.demand_told(ada=COUNTS, cleo=[LATE], dan=[*COUNTS, LATE], **wait)
        self.refused("close", "these letters arrived in time, and wait: 3, 6;")
        self.done("held 3 6 --set-aside")
        # what is late waits, and stops nothing
        self.done("close")
        self.done("publish")
        self.assertEqual(self.read("result/ballots.txt").decode(), f"ada {RANKS}\ndan {RANKS}\n")

    def test_an_extension_makes_it_count(self):
        """Of a click after the first end, before and after the box was asked."""
        self.begun_to_end()
        self.later(END + 1)
        self.click("ada")
        self.add_box()
        self.click("ben")
        self.demand_told(ada=[LATE])
        self.done("call", "--until", now(2 * END).isoformat()[:19] + "+00:00")
        # the page that was open all the time, and the script on the host, are the same
        self.click("cleo")
        self.add_box()
        self.assert_standing(**dict.fromkeys(("ada", "ben", "cleo"), RANKS))
        self.demand_told(ada=STAYS, ben=STAYS, cleo=STAYS)

    def test_a_click_before_an_early_close_by_a_host_that_is_ahead(self):
        """What stopped `count` as in time is in time for `held`, too."""
        self.begun_to_end(180)
        self.off(2)
        terminal = Terminal(self, "close", "--early")
        terminal.until("[y/n] ")
        self.click("ada")
        terminal.ends("y\n")
        self.add_box()
        self.assertIn("these letters arrived in time, and wait: 1;", self.election("count").faults)
        self.done("reopen --because 'the click came before the close'")
        self.tells("held 1 --enter", "1 counted  ada: ")
        self.demand_told(ada=COUNTS)

    @pytest.mark.whole
    def test_a_host_that_is_behind(self):
        self.demand_decided(-180, -180, ["ada", "ben"], "cleo")

    def test_a_host_that_is_ahead_and_one_that_is_put_right_before_it_is_asked(self):
        self.demand_decided(180, 0, ["ada"], "ben")

    def demand_decided(self, ahead: int, at_last: int, counted: list[str], waiting: str):
        """Four electors click, before the end and after it, by four minutes and by one. What the
        clock of the host could take across the end waits, on either side of it.
        """
        self.begun_to_end(ahead)
        for name, seconds in CLICKING.items():
            self.devices_off = END + seconds
            self.host_off(self.devices_off + ahead)
            self.click(name)
        self.off(END + 300)
        self.host_off(END + 300 + at_last)
        said = self.add_box()
        late = [name for name in CLICKING if name not in (*counted, waiting)]
        self.assertEqual((len(re.findall(NEAR, said)), said.count(AFTER)), (1, len(late)), said)
        self.assert_standing(**dict.fromkeys(counted, RANKS))
        told = dict.fromkeys(counted, COUNTS) | dict.fromkeys(late, [LATE])
        self.demand_told(**told, **{waiting: [LOOKED_AT]})
        # the secretary, who knows more, decides: before that nothing is closed
        number = [*CLICKING].index(waiting) + 1
        self.refused("close", f"these letters arrived in time, and wait: {number};")
        self.done(f"held {number} --enter")
        self.assert_standing(**dict.fromkeys((*counted, waiting), RANKS))
        self.demand_told(**{waiting: COUNTS})
        # of what is known to have come after the end, and counts all the same, everybody is told
        self.done("held 4 --enter")
        self.done("close")
        self.done("publish")
        note = (
            "<p>1 line came after the end, and is in time, since the vote was not closed yet.</p>"
        )
        self.assertIn(note, self.read("result/index.html").decode())

    def test_a_clock_that_is_put_back_between_two_clicks(self):
        self.begun_to_end()
        for ahead, ranks in ((300, OTHER), (0, RANKS)):
            self.host_off(ahead)
            self.click("ada", ranks)
        self.later(600)
        self.add_box()
        self.assert_standing(ada=RANKS)
        [told] = self.receipts().values()
        first, second = told.split("Your ballot of ")[1:]
        self.assertIn("It was read as: Further discussion, then", first)
        self.assertIn("Another ballot of yours, which was entered after it, counts instead.", first)
        self.assertIn("It was read as: At the lake, then", second)
        self.assertIn("It counts unless you send a later one.", second)
