"""Elections with a box on a web host of this computer, to which their electors click."""

import datetime
import email
import itertools
import json
import pathlib
import re
import shutil
from typing import Any

from debvote_tools.call.box import personal_link

from tests.support import elections, sealing
from tests.support.at_browser import Window
from tests.support.letters import letter, mailbox
from tests.support.web_host import (
    END,
    FIRST,
    HOST_OFF,
    NEEDS_PHP,
    Answer,
    Host,
    clock_of_php,
    request_of,
)

UNTIL = ("--until", "2099-12-04 18:00", "--zone", "Europe/Berlin")
RANKS, OTHER = "1,2,3,4", "4,3,2,1"
LINK = re.compile(r"#([a-z0-9.-]+)/(\w{10})/(\w{16})\b")


def now(later: float = 0) -> datetime.datetime:
    """The time, or that of so many seconds later."""
    return datetime.datetime.now(datetime.UTC) + datetime.timedelta(seconds=later)


def text_of(data: bytes) -> str:
    """The text of a letter, on one line."""
    text = email.message_from_bytes(data).get_payload(decode=True)
    assert isinstance(text, bytes)
    return " ".join(text.decode().split())


def visit(window: Window, address: str):
    """Opens an address as somebody who comes from elsewhere."""
    for url, is_open in (
        ("about:blank", "location.href === 'about:blank'"),
        (address, "document.readyState === 'complete' && location.href !== 'about:blank'"),
    ):
        window.tell("Page.navigate", url=url)
        window.until(is_open)


def press(window: Window) -> str:
    """Presses the button, and returns what is said then."""
    said = "document.getElementById('Sent').textContent"
    window.ask("document.getElementById('Vote').click()")
    window.until(f"!['', 'It is being sent ..'].includes({said})")
    return str(window.ask(said))


def link_in(letter: bytes) -> tuple[str, str, str]:
    """Name, own mark and third part of the personal link in a letter to an elector."""
    [found] = set(LINK.findall(text_of(letter)))
    return found


@NEEDS_PHP
class BoxElectionTest(elections.ElectionTest):
    """A vote with a box. Its host has the folder `web`, to which `upload` copies the call."""

    call_words = None
    workers = 1
    # by how many seconds the clocks of the devices are ahead
    devices_off = 0

    def setUp(self):
        super().setUp()
        self.settings = clock_of_php(self.scratch)
        self.begin_host("web")
        self.numbers = itertools.count(1)
        self.bodies: dict[int, bytes] = {}

    def begin_host(self, folder: str):
        self.web = self.scratch / folder
        self.web.mkdir()
        self.host = self.enterContext(Host(self.web, *self.settings, workers=self.workers))

    def move(self) -> str:
        """The page gets another web host, to which nothing is uploaded yet: what the call says."""
        self.begin_host("moved")
        return self.done("call", "--at", self.host.at).output

    def call(self, *words: str) -> elections.Ended:
        """The call, an hour ago."""
        self.off(-3600)
        ended = self.done(
            "call", *UNTIL, "--to", "vote@club.example", "--at", self.host.at, "--box", *words
        )
        self.clock = {}
        self.upload()
        return ended

    def mark(self) -> str:
        """The mark of the poll."""
        return self.of_this_vote(elections.ANY_MARK.encode()).decode()

    def upload(self):
        shutil.copytree(self.folder / "call", self.web, dirs_exist_ok=True)

    def links(self) -> dict[str, str]:
        """The third parts of the personal links, by name, as the last letters of the call have
        them.
        """
        folders = sorted(
            (self.folder / "letters" / "call").iterdir(), key=lambda one: one.stat().st_mtime
        )
        found = [
            link_in(file.read_bytes())
            for folder in folders
            for file in sorted(folder.glob("*.eml"))
        ]
        return {name: link for name, _, link in found}

    def begun(self, *words: str, **clicks: str) -> dict[str, str]:
        """Called, uploaded, asked, and written to all, of whom some have clicked: the links."""
        self.call(*words)
        self.done("add", "--box")
        self.done("letters", "call")
        links = self.links()
        for name, ranks in clicks.items():
            self.click(name, ranks, links[name])
        return links

    def of_page(self, what: str) -> str:
        """What the page that is uploaded knows: its poll, the key to which it seals, and what it
        posts.
        """
        return re.findall(rf'data-{what}="([^"]+)"', (self.web / "index.html").read_text())[0]

    def page(self) -> str:
        return self.of_page("page")

    @property
    def key(self) -> bytes:
        """The key of the box."""
        [(key,)] = self.rows("SELECT data FROM sealed WHERE name = 'box key'")
        assert isinstance(key, bytes)
        return key

    def place_of(self, name: str, link: str = "") -> str:
        """What is behind the address in the personal link of now, or in that which has this third
        part.
        """
        words = (
            "SELECT DISTINCT mark FROM elector_state JOIN elector USING (elector) WHERE name = ?"
        )
        owns = [str(own) for own, in self.rows(words, name) if own]
        places = [personal_link(self.key, name, own) for own in owns]
        link = link or self.links()[name]
        return next((one for one in places if one.endswith(link)), f"{name}/{'2' * 10}/{link}")

    def proof_of(self, name: str) -> str:
        """What the page sends of the link of an elector."""
        return sealing.proof_of(self.mark(), self.place_of(name))

    def sealed(
        self, line: str, place: str, number: int, sent: datetime.datetime | None = None
    ) -> str:
        """A ballot as the page seals it, which was sent now or at another time."""
        when = sent or now(self.devices_off)
        text = sealing.inside(
            line,
            place,
            f"{when.astimezone(datetime.UTC):%Y-%m-%dT%H:%M:%S}.{when.microsecond // 1_000:03}Z",
        )
        return sealing.sealed(self.of_page("seal"), self.of_page("mark"), f"{number:032x}", text)

    def body_of(self, name: str, ranks: str, link: str, number: int, page: str = "") -> bytes:
        """What the page sends; of one number the same bytes again."""
        if number not in self.bodies:
            place = self.place_of(name, link)
            proof = sealing.proof_of(self.of_page("mark"), place)
            head = f"{page or self.page()} {proof} {number:032x}"
            self.bodies[number] = request_of(head, self.sealed(f"{name} {ranks}", place, number))
        return self.bodies[number]

    def sent(self, name: str, ranks: str, link: str, number: int) -> Answer:
        return self.host.send(self.body_of(name, ranks, link, number))

    def record(
        self,
        line: str,
        time: datetime.datetime,
        link: str = "",
        sent: datetime.datetime | None = None,
    ) -> bytes:
        """A record that somebody wrote into the file of the host, who has the personal link, or one
        with this third part: it arrived at this time, and was sent then by the device, too, or at
        another time.
        """
        place, number = self.place_of(line.partition(" ")[0], link), next(self.numbers)
        text = self.sealed(line, place, number, sent or time)
        when = time.astimezone(datetime.UTC).isoformat()[:19]
        return sealing.record(self.of_page("mark"), place, number, when, text).encode()

    def click(self, name: str, ranks: str = RANKS, link: str = "") -> Answer:
        """A click by the link of now, or by this one."""
        answer = self.sent(name, ranks, link or self.links()[name], next(self.numbers))
        assert answer.word == "received", answer
        return answer

    def click_unopened(self, *names: str):
        """The page of each of these electors sends what nobody can open."""
        for name in names:
            head = f"{self.page()} {self.proof_of(name)} {next(self.numbers):032x}"
            assert self.host.send(request_of(head, "A" * 300)).word == "received"

    def add_box(self, *parts: str) -> str:
        """Asks the box, and enters what is new: what is said, which has these parts."""
        return self.tells("add --box --yes", *parts)

    def letter(self, name: str, text: str, ago: float = 0, **how: object) -> bytes:
        """A letter that arrived so many seconds ago."""
        arrived = f"{now(-ago):%a, %d %b %Y %H:%M:%S +0000}"
        return letter(name, f"{text}\n", time=arrived, **how)  # type: ignore[arg-type]

    def add(self, *letters: bytes) -> str:
        """What `add` says of letters that come in a mailbox."""
        self.write("inbox.mbox", self.of_this_vote(mailbox(*letters)))
        return self.done("add", "--yes", "inbox.mbox").output

    def new_address(self, name: str) -> str:
        """An elector gets a new address, and so a new link, of which the host knows nothing: what
        `roll` says.
        """
        members = self.members or elections.members_of(self.names)
        self.write("members.csv", members.replace(f"{name}@club", f"{name}@new"))
        return self.done("roll", "--yes").output

    def off(self, seconds: float):
        """From now on the clock of this computer stands so many seconds ahead."""
        self.set_clock(f"{now(seconds):%Y-%m-%dT%H:%M:%S+00:00}")

    def host_off(self, seconds: int):
        """From now on the clock of the host is so many seconds ahead."""
        (self.scratch / HOST_OFF).write_text(str(seconds))

    def later(self, seconds: int = 2):
        """From now on all clocks are so many seconds further ahead, as those of the devices."""
        self.devices_off += seconds
        self.off(self.devices_off)
        self.host_off(self.devices_off)

    def told(self, *words: object) -> str:
        """What a command says, which has to do what it is asked for."""
        return self.done(*words).output

    def tells(self, typed: str, *parts: str, **how: Any) -> str:
        """What a command says as it is typed; it has these parts."""
        said = self.done(typed, **how).output
        for part in parts:
            self.assertIn(part, said)
        return said

    def text(self, name: str) -> str:
        """A file of the folder on one line."""
        return " ".join(self.read(name).decode().split())

    def receipts(self) -> dict[str, str]:
        """The texts of the receipts that are written now, by name, each on one line."""
        folder = self.folder / "letters" / "receipts"
        before = {*folder.rglob("*.eml")}
        self.done("letters", "receipts")
        texts = [text_of(file.read_bytes()) for file in {*folder.rglob("*.eml")} - before]
        return {
            re.findall(r"You vote under the name ([a-z0-9.-]+)\b", one)[0]: one for one in texts
        }

    def texts(self, kind: str) -> dict[str, str]:
        """The texts of all letters of a kind that were written, by the names of their files, each
        on one line.
        """
        files = (self.folder / "letters" / kind).rglob("*.eml")
        return {file.stem: text_of(file.read_bytes()) for file in files}

    def status(self) -> dict[str, Any]:
        """What `status` tells a program."""
        return dict(json.loads(self.done("status", "--json").output))

    def boxes_kept(self) -> list[dict[str, object]]:
        """What the acts keep of each asking."""
        details = (
            json.loads(str(detail))
            for detail, in self.rows("SELECT detail FROM act WHERE name = 'letters' ORDER BY act")
        )
        return [detail["box"] for detail in details if "box" in detail]

    def standing(self) -> dict[str, str]:
        """The ballots that count, by name."""
        ended = self.done("export", "--yes", self.scratch / f"export-{next(self.numbers)}")
        folder = ended.output.split("Made the folder ")[1].split(":")[0]
        lines = (pathlib.Path(folder) / "ballots.txt").read_text().splitlines()
        return dict(line.split(" ", 1) for line in lines)

    def assert_standing(self, **ballots: str):
        """These ballots count, by name, and no others."""
        self.assertEqual(self.standing(), ballots)

    def file(self) -> pathlib.Path:
        """What the host keeps."""
        [found] = self.web.glob("box-*.php")
        return found

    def records(self) -> list[bytes]:
        """The records in it."""
        parts = self.file().read_bytes().removeprefix(FIRST).split(END)
        assert parts.pop() == b"", parts
        return [part + END for part in parts]

    def keep(self, *records: bytes):
        """From now on it has these records alone."""
        self.file().write_bytes(FIRST + b"".join(records))
