"""Elections whose page seals ballots to tellers, with electors who click, and tellers who open, without a browser."""

import datetime
import pathlib

from debvote_tools.call.sealed_ballots import block_of
from debvote_tools.call.tellers import NUMBER_LENGTH
from debvote_tools.poll.sealed import OWN_SIGNS

from tests.support import boxes, elections, sealing, tellers
from tests.support.elections import NAMES
from tests.support.terminal import Terminal

SECRET = f"secret = true\n{elections.POLL}"
OPTIONS = 4
# of five electors what they rank
RANKS = dict(zip(NAMES, ("1,2,3,4", "2,1,3,4", "1,-,-,2", "4,3,2,1", "1,2,2,3")))


class TellerElectionTest(boxes.BoxElectionTest):
    poll = SECRET
    names = [*NAMES, "jan", "kim", "leo"]
    tellers_count = 2

    def setUp(self):
        super().setUp()
        # number and ranks of each click, by elector; the blocks that were made
        self.lines: dict[str, str] = {}
        self.blocks: dict[str, str] = {}

    def kind(self) -> tuple[object, ...]:
        return (*super().kind(), self.tellers_count)

    def fill_in(self, folder: pathlib.Path):
        super().fill_in(folder)
        (folder / "tellers.txt").write_text(tellers.tellers_file(self.tellers_count))

    def number(self) -> str:
        """The number of a ballot, another one each time."""
        count = next(self.numbers)
        return "".join(OWN_SIGNS[count // 31**place % 31] for place in range(NUMBER_LENGTH))

    def block(self, name: str, ranks: str) -> str:
        line = f"{self.number()} {ranks}"
        self.lines[name] = line
        points = [*tellers.points(self.tellers_count).values()]
        self.blocks[name] = block_of(line, OPTIONS, self.of_page("mark"), points)
        return self.blocks[name]

    def sealed(
        self, line: str, place: str, number: int, sent: datetime.datetime | None = None
    ) -> str:
        """A click: what follows the name is sealed to the tellers, or is their block already."""
        name, _, ranks = line.partition(" ")
        block = ranks if len(ranks) > 100 else self.block(name, ranks)
        when = (sent or boxes.now(self.devices_off)).astimezone(datetime.UTC)
        time = f"{when:%Y-%m-%dT%H:%M:%S}.{when.microsecond // 1_000:03}Z"
        text = f"{name} 1,-,-\n{place}\n{time}\n{block}"
        padded = text.ljust(-(-(3 * (42 + OPTIONS) + len(block)) // 3) * 3, "\n")
        return sealing.sealed(self.of_page("seal"), self.of_page("mark"), f"{number:032x}", padded)

    def begun_with(self, *words: str, clicks: dict[str, str] = RANKS):
        """Called, uploaded, and clicked by five electors, which are entered."""
        self.begun(*words, **clicks)
        self.add_box()

    def paper(self, *names: str):
        """These are checked off as voting on paper."""
        ended = self.election("desk", given="".join(f"{name} paper\n" for name in names))
        self.assertEqual(ended.status, 0, ended)

    def close_early(self, *words: object) -> str:
        return self.told("close", "--early", "--yes", *words)

    def list_of(self, step: int) -> bytes:
        return (self.folder / f"urn/list-{step}.txt").read_bytes()

    def open(self, step: int) -> pathlib.Path:
        """The list that the teller of a step hands on, as a file beside the election."""
        file = self.scratch / f"list-{step}.txt"
        file.write_bytes(tellers.opened(self.list_of(step - 1), step, self.tellers_count, OPTIONS))
        return file

    def opened(self) -> list[str]:
        """All tellers open and hand on: what is said."""
        return [self.told("tellers", self.open(step)) for step in range(1, self.tellers_count + 1)]

    def at_terminal(self, question: str, answer: str, *words: str) -> tuple[str, int]:
        terminal = Terminal(self, *words)
        terminal.until(question)
        terminal.type(f"{answer}\n")
        return terminal.end()

    def ballots(self) -> list[str]:
        """The ballots of the last list."""
        text = self.list_of(self.tellers_count).decode()
        return [line for line in text.splitlines()[1:-1] if not line.startswith("! ")]
