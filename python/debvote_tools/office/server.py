"""The server of the page, for this computer alone.

Who can send it requests has the rights of the secretary: its address has a secret of 256 bits, is
never given to another program as a word, and leads nowhere under another host name. Each form is
posted from a page of its own. Nothing is logged, since addresses have the secret.
"""

import contextlib
import contextvars
import email.message
import email.policy
import hmac
import http.server
import re
import threading
import time
import urllib.parse
from collections.abc import Callable
from http import HTTPStatus
from typing import Any

from debvote_tools.cli.faults import Fault
from debvote_tools.office.office import ALL, HOST, Office
from debvote_tools.office.pages import get
from debvote_tools.office.posts import post
from debvote_tools.office.visit import Answer, Form, Refused, Visit
from debvote_tools.text.language import SPOKEN

# in bytes: what one request may bring, a mailbox
MOST = 16 * 1024 * 1024
# in seconds: how long a request may take to come
SOCKET_TIME = 30
# in seconds: an answer that says that the office ends is sent before it does
LAST_WORDS = 0.3

HEADS = {
    "Cache-Control": "no-store",
    "Content-Security-Policy": (
        "default-src 'none'; style-src 'self'; script-src 'self'; "
        "form-action 'self'; frame-ancestors 'none'; base-uri 'none'"
    ),
    # without a referrer browsers post from the origin `null`
    "Referrer-Policy": "same-origin",
    "X-Content-Type-Options": "nosniff",
    "Cross-Origin-Opener-Policy": "same-origin",
    "Cross-Origin-Resource-Policy": "same-origin",
}


class Server(http.server.ThreadingHTTPServer):
    daemon_threads = True

    def __init__(self, office: Office, port: int) -> None:
        super().__init__((HOST, port), Request)
        self.office = office
        office.port = self.server_port

    def service_actions(self) -> None:
        """Ends the server, once the last answer is sent."""
        if self.office.is_over:
            threading.Timer(LAST_WORDS, self.shutdown).start()

    def handle_error(self, request: Any, client_address: Any) -> None:
        """Nothing is said of a browser that went away."""


class Request(http.server.BaseHTTPRequestHandler):
    server: Server
    timeout = SOCKET_TIME
    # nothing of it says what runs here
    server_version = "office"
    sys_version = ""

    def log_message(self, format: str, *args: Any) -> None:
        """Nothing: an address has the secret."""

    def do_GET(self) -> None:
        self.answer(get)

    def do_POST(self) -> None:
        self.answer(post)

    def answer(self, make: Callable[[Visit], Answer]) -> None:
        """Each in a context of its own: zone and secrecy are those of its election."""
        try:
            visit = self.visit()
            if make is post:
                visit.form = self.form(visit)
            answer = contextvars.Context().run(answered, visit, make)
        except Refused as refused:
            answer = Answer(b"", "text/plain", refused.status)
        self.send_response(answer.status)
        heads = {
            "Content-Type": f"{answer.kind}; charset=utf-8",
            "Content-Length": str(len(answer.body)),
        }
        for head, value in {**heads, **HEADS, **answer.heads}.items():
            self.send_header(head, value)
        self.end_headers()
        self.wfile.write(answer.body)

    # ---- who asks
    def visit(self) -> Visit:
        """The request, once it is clear that it may be answered."""
        office = self.server.office
        if self.headers.get_all("Host") != [office.host]:
            raise Refused(HTTPStatus.MISDIRECTED_REQUEST)
        parts = urllib.parse.urlsplit(self.path)
        _, secret, place = (parts.path + "//").split("/", 2)
        given = secret.encode("utf-8", "surrogateescape")
        rooms = [
            room for room, own in office.rooms.items() if hmac.compare_digest(own.encode(), given)
        ]
        if not rooms:
            raise Refused()
        office.last_request = time.monotonic()
        name, slash, rest = urllib.parse.unquote(place).rstrip("/").partition("/")
        query = urllib.parse.parse_qs(parts.query, keep_blank_values=True)
        return Visit(office, rooms[0], name + slash, rest, query)

    # ---- forms
    def form(self, visit: Visit) -> Form:
        """What was filled in. Stops at a form of another page than one of this office."""
        if visit.room != ALL:
            raise Refused()
        origins = self.headers.get_all("Origin")
        site = self.headers.get("Sec-Fetch-Site", "same-origin")
        if origins != [f"http://{visit.office.host}"] or site != "same-origin":
            raise Refused(HTTPStatus.FORBIDDEN)
        body = self.body()
        kind = self.headers.get("Content-Type", "")
        try:
            if kind.startswith("multipart/form-data"):
                return parts_in(visit, f"Content-Type: {kind}\r\n\r\n".encode() + body)
            return urllib.parse.parse_qs(body.decode(), keep_blank_values=True)
        except (ValueError, LookupError):
            raise Refused(HTTPStatus.BAD_REQUEST) from None

    def body(self) -> bytes:
        length = self.headers.get("Content-Length", "")
        if not re.fullmatch("[0-9]{1,11}", length):
            raise Refused(HTTPStatus.LENGTH_REQUIRED)
        if int(length) > MOST:
            raise Refused(HTTPStatus.REQUEST_ENTITY_TOO_LARGE)
        data = self.rfile.read(int(length))
        if len(data) != int(length):
            raise Refused(HTTPStatus.BAD_REQUEST)
        return data


def parts_in(visit: Visit, data: bytes) -> Form:
    """A form with files; in the place of each is where it lies."""
    message = email.message_from_bytes(data, policy=email.policy.HTTP)
    assert isinstance(message, email.message.EmailMessage)
    form = dict[str, list[str]]()
    for part in message.iter_parts():
        name = part.get_param("name", header="Content-Disposition") or ""
        content = part.get_payload(decode=True) or b""
        assert isinstance(content, bytes)
        given = part.get_filename()
        form.setdefault(str(name), []).append(
            visit.kept(given, content) if given else content.decode()
        )
    return form


def answered(visit: Visit, make: Callable[[Visit], Answer]) -> Answer:
    """The answer, or a page with the fault that stops it."""
    SPOKEN.set(visit.language)
    with contextlib.closing(visit):
        try:
            return make(visit)
        except Refused:
            raise
        except Fault as fault:
            words = [each.words for each in (fault, *fault.others)]
        except Exception as error:
            words = [words_of(visit, error)]
        return visit.page("fault", HTTPStatus.CONFLICT, words=words)


def words_of(visit: Visit, error: Exception) -> str:
    """What is said of a fault of this program: that of the book, if it is damaged."""
    try:
        visit.election.demand_undamaged()
    except Fault as fault:
        return fault.words
    except Refused:
        pass
    return f"the office could not make this page ({type(error).__name__}: {error})"
