"""Sends letters by SMTP.

What the server answers to each is noted before the next begins, so a run that is cut off goes on.
The letter that it was cut off in may go again, each time with one Message-ID.
"""

import contextlib
import dataclasses
import ipaddress
import re
import smtplib
import ssl
from collections.abc import Iterable, Iterator

from debvote_tools.book.outgoing import REFUSED, TAKEN, OutgoingLetter
from debvote_tools.cli.faults import Fault, Status
from debvote_tools.timeout import within

# in seconds: for each answer of the server, and for the whole conversation about a letter
PATIENCE = 60
WHOLE = 300

# the port where servers take letters from mail programs; the one that is encrypted from the first
# byte; and that of this computer
SUBMISSION = 587
ENCRYPTED = 465
LOOPBACK = 25

SERVER = re.compile(r"(?:\[([0-9A-Fa-f:.]+)\]|([A-Za-z0-9._-]+))(?::(\d{1,5}))?", re.ASCII)

# what a server answers to what it has done, to what it does not do, and before it closes the
# connection
DONE = range(200, 300)
NOT_DONE = range(400, 600)
CLOSING = 421

# the name that this computer gives itself: its own is nobody's business
OWN_NAME = "[127.0.0.1]"

LOST = (smtplib.SMTPException, OSError)


@dataclasses.dataclass(frozen=True)
class Server:
    """The server that takes letters. The connection is encrypted, except to a loopback address.
    `is_remembered` if it is that of the last letters, and was not named now.
    """

    host: str
    port: int
    is_encrypted: bool
    user: str | None = None
    password: str | None = None
    is_remembered: bool = False

    def __str__(self) -> str:
        return f"[{self.host}]:{self.port}" if ":" in self.host else f"{self.host}:{self.port}"

    def stops(self, words: str, cure: str) -> Fault:
        if self.is_remembered:
            cure += (
                "; it is the server of the last letters: if it is gone, name another with --server"
            )
        done = "letters taken before are noted, and the next run goes on from there"
        return Fault(str(self), words, cure, Status.BAD_OUTPUT, done)


class NotNow(Exception):
    """The server takes no letters now, and did not get this one."""


def server_of(text: str) -> Server:
    parts = SERVER.fullmatch(text)
    bracketed, name, port = parts.groups() if parts else ("", "", "0")
    host = bracketed or name
    if port is not None and not 0 < int(port) < 65536:
        cure = "write it as mail.example.org or mail.example.org:587"
        raise Fault("--server", "it is not the name of a server", cure, Status.BAD_ARGUMENTS, None)
    try:
        is_near = ipaddress.ip_address(host).is_loopback
    except ValueError:
        is_near = host.lower() == "localhost"
    return Server(host, int(port or (LOOPBACK if is_near else SUBMISSION)), not is_near)


def send_all(
    letters: Iterable[tuple[OutgoingLetter, bytes]],
    sender: str,
    server: Server,
) -> Iterator[OutgoingLetter]:
    """Sends letters in their order, and yields each with what the server said, to be noted before
    the next one is sent.
    """
    mailer = Mailer(server, sender)
    with within(WHOLE):
        mailer.connection()
    try:
        for letter, data in letters:
            try:
                with within(WHOLE):
                    tried = mailer.send(letter, data)
            except NotNow as why:
                cure = "run the command again later"
                raise server.stops(f"it takes no letters now: {why}", cure) from None
            yield tried
    finally:
        mailer.close()


class Mailer:
    """The connection to a server. If it was closed between two letters, a new one is made."""

    def __init__(self, server: Server, sender: str) -> None:
        self.server = server
        self.sender = sender
        self.smtp: smtplib.SMTP | None = None

    def connection(self) -> smtplib.SMTP:
        """Stops if there is none, or if the server refuses the login."""
        if self.smtp is None:
            try:
                self.smtp = connected(self.server)
            except smtplib.SMTPAuthenticationError as error:
                words = f"it refuses user or password: {reply_of(error)}"
                raise self.server.stops(words, "correct them") from None
            except smtplib.SMTPNotSupportedError as error:
                cure = "name a server that takes letters from mail programs, encrypted and with a password"
                raise self.server.stops(str(error), cure) from None
            except LOST as error:
                cure = "check the name, the port and your connection to the network"
                raise self.server.stops(f"no connection: {reply_of(error)}", cure) from None
        return self.smtp

    def close(self) -> None:
        if self.smtp is not None:
            self.smtp.close()
        self.smtp = None

    def send(self, letter: OutgoingLetter, data: bytes) -> OutgoingLetter:
        """Sends a letter, by a new connection if the last one was closed."""
        try:
            return self.transaction(letter, data)
        except NotNow:
            self.close()
            return self.transaction(letter, data)

    def transaction(self, letter: OutgoingLetter, data: bytes) -> OutgoingLetter:
        """One letter, taken if the server says so after its end, refused after any other answer. If
        the connection is lost meanwhile, nobody knows which: the run stops.
        """
        reply: bytes | str
        try:
            smtp = self.connection()
            code, reply = smtp.mail(self.sender)
            if code not in DONE:
                raise NotNow(shown(code, reply))
            code, reply = smtp.rcpt(letter.address)
        except Fault as fault:
            raise NotNow(str(fault.reason)) from None
        except LOST as error:
            raise NotNow(reply_of(error)) from None
        if code == CLOSING:
            raise NotNow(shown(code, reply))
        try:
            if code in DONE:
                code, reply = smtp.data(data.replace(b"\n", b"\r\n"))
                if code in DONE:
                    return letter._replace(state=TAKEN, reply="")
        except smtplib.SMTPDataError as error:
            # the server did not let the letter begin
            code, reply = error.smtp_code, error.smtp_error
        except LOST as error:
            words = f"the connection was lost during the letter to {letter.address}"
            cure = "run the command again; it sends this letter again, with its Message-ID"
            raise self.server.stops(f"{words}: {reply_of(error)}", cure) from None
        if code in NOT_DONE and code != CLOSING:
            # if the connection is lost here, the next letter gets a new one
            with contextlib.suppress(*LOST):
                smtp.rset()
        else:
            # nobody knows to which command this answers
            self.close()
        return letter._replace(state=REFUSED, reply=shown(code, reply))


def connected(server: Server) -> smtplib.SMTP:
    """A connection after the login."""
    context = ssl.create_default_context()
    smtp: smtplib.SMTP
    if server.is_encrypted and server.port == ENCRYPTED:
        smtp = smtplib.SMTP_SSL(
            server.host, server.port, OWN_NAME, timeout=PATIENCE, context=context
        )
    else:
        smtp = smtplib.SMTP(server.host, server.port, OWN_NAME, PATIENCE)
        if server.is_encrypted:
            smtp.starttls(context=context)
    smtp.ehlo_or_helo_if_needed()
    if server.user is not None:
        smtp.login(server.user, server.password or "")
    return smtp


# ---- what a server says
def reply_of(error: Exception) -> str:
    if isinstance(error, smtplib.SMTPResponseException):
        return shown(error.smtp_code, error.smtp_error)
    return " ".join(str(error).split())[:200] or type(error).__name__


def shown(code: int, reply: bytes | str) -> str:
    text = reply if isinstance(reply, str) else reply.decode("utf-8", "replace")
    return " ".join(f"{code} {text}".split())[:200]
