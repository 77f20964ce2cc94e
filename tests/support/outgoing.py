"""What tests of outgoing letters share: elections, what was written, and a mail server."""

import contextlib
import email
import email.message
import email.policy
import logging
import pathlib
import socket
import sqlite3
import subprocess
import sys
import threading
import typing
import unittest
from collections.abc import Mapping, Sequence

from tests.support import elections
from tests.support.election_books import LettersTest
from tests.support.letters import TITLE

try:
    from aiosmtpd.controller import Controller
    from aiosmtpd.smtp import SMTP, AuthResult
except ImportError:
    Controller = SMTP = AuthResult = None

AT = "https://club.example/vote/"
# what a letter of the call says
FORM = f"The page of the vote, which writes the line of your ballot for you, and on which the result will be: {AT}"
LINE = (
    "Your line, with a rank in the place of each _. The first place is for option 1, and so on; 1 is the best, equal ranks are allowed, "
    "and - is last: "
)
WHEN = f"{TITLE} Vote until: Friday, 4 December 2026, 18:00 (UTC)"
OPTIONS = "Option 1: At the lake Option 2: In the town hall Option 3: Sell the house and meet there (majority ratio 3) "
OPTIONS += "Option 4: Further discussion (the default option)"
TEN, END = "2026-11-23T10:00:00+00:00", "2026-12-04 18:00"

# what the server says of connections that are cut, as the tests want it
logging.getLogger("mail.log").setLevel(logging.CRITICAL)


class OutTest(LettersTest):
    """A test with an election that was called with an end and the address of its page; the clock is
    some days later.
    """

    call_words: Sequence[str] | None = (
        "--to",
        "vote@club.example",
        "--at",
        AT,
        "--until",
        END,
        "--zone",
        "UTC",
    )
    now = TEN

    def extend(self, until: str):
        """Another end of the vote, in the zone of the first one."""
        self.done("call", "--until", until)

    def text_in(self, name: str) -> str:
        """A file, each blank as one space."""
        return " ".join(self.read(name).decode().split())

    def rows(self, kind: str) -> list[tuple[str, str]]:
        """The states of the letters of a kind, in order, each with the name of its elector."""
        words = (
            "SELECT name, state FROM sent JOIN elector USING (elector) WHERE kind = ? ORDER BY sent"
        )
        # the thread of a mail server asks, too
        with contextlib.closing(
            sqlite3.connect(f"file:{self.folder / 'election.db'}?mode=ro", uri=True)
        ) as book:
            return [tuple(row) for row in book.execute(words, (kind,))]

    def files(self, kind: str) -> list[pathlib.Path]:
        """The files of the last letters of a kind that were written."""
        folders = sorted(
            (self.folder / "letters" / kind).glob("[0-9]*"), key=lambda folder: int(folder.name)
        )
        return sorted(folders[-1].iterdir()) if folders else []

    def written(self, kind: str, *words: object) -> dict[str, email.message.EmailMessage]:
        """The letters of a kind that are written now, by the names of their electors."""
        said = self.told("letters", kind, *words)
        if "There is no letter to send.\n" in said:
            return {}
        self.assertIn("letter", said)
        return {
            file.stem: parsed(file.read_bytes())
            for file in self.files(kind)
            if file.suffix == ".eml"
        }

    def receivers(self, kind: str) -> list[str]:
        return [message["To"] for message in self.written(kind).values()]

    def texts(self, kind: str, *words: object) -> dict[str, str]:
        return {name: one_line(message) for name, message in self.written(kind, *words).items()}


def parsed(data: bytes) -> email.message.EmailMessage:
    message = email.message_from_bytes(data, policy=email.policy.default)
    assert isinstance(message, email.message.EmailMessage) and not message.defects
    return message


def one_line(message: email.message.EmailMessage) -> str:
    return " ".join(message.get_content().split())


# ---------------------------------------------------------------- a mail server
class Taken(typing.NamedTuple):
    """A letter that the server has taken: to whom, and its bytes."""

    to: str
    data: bytes


class MailServer:
    """A mail server that notes what it takes. `answers` has the answer to RCPT or DATA by address.
    `at` is called at each step of each letter, by its name and the number of the letter from 0, and
    the connection is cut if it says so.
    """

    def __init__(self, **how: object):
        if Controller is None:
            raise unittest.SkipTest("aiosmtpd is not installed")
        self.taken, self.steps, self.logins = [], [], []
        self.rcpt_answers, self.data_answers, self.mail_answer = {}, {}, "250 OK"
        self.at = lambda step, number: False
        self.started, self.is_stopped, self.was_encrypted = 0, False, False
        with socket.socket() as probe:
            probe.bind(("127.0.0.1", 0))
            self.port = probe.getsockname()[1]
        self.controller = Controller(
            self, hostname="127.0.0.1", port=self.port, ready_timeout=60, **how
        )
        self.controller.start()
        self.name = f"127.0.0.1:{self.port}"

    def stop(self):
        if not self.is_stopped:
            self.is_stopped = True
            self.controller.stop()

    @property
    def addresses(self) -> list[str]:
        return [one.to for one in self.taken]

    def texts(self) -> dict[str, str]:
        """What it has taken, by the names before the @."""
        return {one.to.partition("@")[0]: one_line(parsed(one.data)) for one in self.taken}

    def is_cut(self, step: str, server: SMTP) -> bool:
        self.steps.append((step, self.started))
        if self.at(step, self.started):
            server.transport.abort()
            return True
        return False

    async def handle_MAIL(self, server, session, envelope, address, options):
        if self.is_cut("mail", server):
            return "421 gone"
        envelope.mail_from = address
        return self.mail_answer

    async def handle_RCPT(self, server, session, envelope, address, options):
        if self.is_cut("rcpt", server):
            return "421 gone"
        answer = self.rcpt_answers.get(address, "250 OK")
        if answer.startswith("250"):
            envelope.rcpt_tos.append(address)
        return answer

    async def handle_DATA(self, server, session, envelope):
        [to] = envelope.rcpt_tos
        self.was_encrypted = session.ssl is not None
        if self.is_cut("data", server):
            return "421 gone"
        answer = self.data_answers.get(to, "250 taken")
        if answer.startswith("250"):
            self.taken.append(Taken(to, envelope.content))
        self.started += 1
        return answer

    def authenticated(self, server, session, envelope, mechanism, data):
        self.logins.append((data.login, data.password))
        return AuthResult(success=data.password == b"right", handled=False)


class PlainServer:
    """A mail server that answers by itself, as no good one does: to each step by its name, else as
    it should.
    """

    usual = {
        "helo": "250 here",
        "from": "250 OK",
        "to": "250 OK",
        "data": "354 go on",
        "letter": "250 OK",
    }

    def __init__(self, answers: Mapping[str, str]):
        self.answers = {**self.usual, **answers}
        self.socket = socket.create_server(("127.0.0.1", 0))
        self.port = self.socket.getsockname()[1]
        self.thread = threading.Thread(target=self.serve, daemon=True)

    def __enter__(self) -> "PlainServer":
        self.thread.start()
        return self

    def __exit__(self, *_: object):
        self.socket.close()

    def serve(self):
        with contextlib.suppress(OSError):
            while True:
                self.converse(self.socket.accept()[0])

    def converse(self, connection: socket.socket):
        def say(text: str):
            connection.sendall(f"{text}\r\n".encode())

        with connection, connection.makefile("rb") as lines:
            say("220 here")
            steps = {"EHLO": "helo", "HELO": "helo", "MAIL": "from", "RCPT": "to", "DATA": "data"}
            for line in lines:
                step = steps.get(line[:4].decode().upper(), "")
                say(self.answers.get(step, "250 OK"))
                # reads the letter up to its last line
                if step == "data" and self.answers[step].startswith("354") and b".\r\n" in lines:
                    say(self.answers["letter"])


class SendTest(OutTest):
    """A test with a mail server."""

    def setUp(self):
        super().setUp()
        self.server = self.mail_server()

    def mail_server(self, **how: object) -> MailServer:
        server = MailServer(**how)
        self.addCleanup(server.stop)
        return server

    def mail_server_with_login(self) -> MailServer:
        return self.mail_server(
            authenticator=lambda *words: self.server.authenticated(*words), auth_require_tls=False
        )

    def send(self, *words: object) -> elections.Ended:
        """Sends letters of a kind, or all; reminders also within a day of the last ones."""
        yes = ["--yes"] * ("reminders" in words)
        return self.election("letters", *words, *yes, "--send", "--server", self.server.name)

    def assert_sent(
        self, kind: str, said: str = "", status: int = 0, refused: Mapping[str, str] = {}
    ) -> elections.Ended:
        """Letters of a kind are sent, and these addresses refused; the run says this, and ends so."""
        self.server.rcpt_answers = refused
        ended = self.send(kind)
        self.assertEqual(ended.status, status, ended)
        self.assertIn(said, ended.output)
        return ended

    def assert_none_is_due(self, kind: str):
        before = self.server.addresses
        self.assert_sent(
            kind, "There is no letter to send: the server has taken all that are due.\n"
        )
        self.assertEqual(self.server.addresses, before)

    def sending(self) -> subprocess.Popen:
        """A run of its own that sends the call."""
        words = f"letters call --send --server {self.server.name}".split()
        env = elections.environment() | self.clock | {"XDG_STATE_HOME": str(self.state)}
        how = {"stdout": subprocess.PIPE, "stderr": subprocess.DEVNULL, "text": True}
        return subprocess.Popen(
            [sys.executable, elections.ELECTION, *words], cwd=self.folder, env=env, **how
        )
