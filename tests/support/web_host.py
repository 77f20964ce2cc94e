"""A web host on this computer with the box of a vote, by PHP's own server; and one that lies."""

import contextlib
import datetime
import http.client
import os
import pathlib
import re
import resource
import shutil
import signal
import socket
import ssl
import subprocess
import tempfile
import threading
import time
import unittest
import unittest.mock
from collections.abc import Callable, Iterable, Iterator, Mapping, Sequence
from typing import NamedTuple

from debvote_tools.call.box import asking_word, page_of, records_file, script_of, third_part

from tests.support import debian, sealing

PHP, STRACE = shutil.which("php"), shutil.which("strace")
_, APACHE, SECURITY, RULES = debian.FIREWALL.values()
MODULES = SECURITY.removesuffix("_security2.so")
NEEDS_PHP = unittest.skipUnless(PHP, "php is not installed")

NEEDS_RULES = unittest.skipUnless(
    all(map(os.path.exists, debian.FIREWALL.values())),
    "apache2, libapache2-mod-security2 or modsecurity-crs is not installed",
)

# without php.ini it has no extension but those that are built in
START = [PHP, "-n", "-d", "memory_limit=128M"]
SECONDS = 60

MARK, KEY = "1ac5041b936c7fc1", bytes(range(32))
OWNS = {"ada": "23456789ab", "ben-lee": "3456789abc", "cleo.x": "456789abcd"}
WORD, FILE, PAGE = asking_word(KEY), records_file(KEY), page_of(KEY, MARK)
PUBLIC = sealing.key_pair(KEY, MARK)[0]
LINKS = {name: third_part(KEY, name, own) for name, own in OWNS.items()}
# the first line of the file, and the end of each record
FIRST, END = b"<?php exit; ?>\n", b"\n-- \n\n"


# by how many seconds the clock of a host is ahead
HOST_OFF = "host-off"
CLOCK = "<?php function time(): int { return (int) microtime(true) + (int) file_get_contents(__DIR__ . '/%s'); }"


def clock_of_php(folder: pathlib.Path) -> list[str]:
    """Settings with which PHP has the clock that this folder says: PHP's own `time` is taken away,
    and made anew before each script.
    """
    (folder / HOST_OFF).write_text("0")
    (folder / "clock.php").write_text(CLOCK % HOST_OFF)
    return ["-d", "disable_functions=time", "-d", f"auto_prepend_file={folder}/clock.php"]


class Answer(NamedTuple):
    """What the host answered; status 0 if it did not."""

    status: int
    text: str = ""
    headers: Mapping[str, str] = {}

    @property
    def word(self) -> str:
        return self.text.partition(" ")[0]


def request_of(*lines: str) -> bytes:
    """The body of a request with these lines."""
    return "".join(f"{line}\n" for line in lines).encode()


ASK = request_of(f"ask {WORD}")


def place_of(name: str, link: str | None = None, own: str | None = None) -> str:
    """What is behind the address in a personal link with this third part and this own mark."""
    third = LINKS.get(name, "2" * 16) if link is None else link
    return f"{name}/{own or OWNS.get(name, '2' * 10)}/{third}"


def text_of(name: str, line: str, number: int, place: str = "") -> str:
    """A ballot that is sealed; by the device, too, the one with the greater number is the later
    one.
    """
    sent = datetime.datetime(2026, 1, 1, tzinfo=datetime.UTC) + datetime.timedelta(seconds=number)
    text = sealing.inside(line, place or place_of(name), f"{sent:%Y-%m-%dT%H:%M:%S}.000Z")
    return sealing.sealed(PUBLIC, MARK, f"{number:032x}", text)


def ballot(
    name: str, ranks: str, number: int, link: str | None = None, page: str = PAGE, own: str = ""
) -> bytes:
    """What this page sends; `number` makes the Message-ID."""
    place = place_of(name, link, own)
    text = text_of(name, f"{name} {ranks}", number, place)
    return request_of(f"{page} {sealing.proof_of(MARK, place)} {number:032x}", text)


def record(name: str, line: str, number: int, time_: str) -> str:
    """The record of a ballot that arrived at this time."""
    return sealing.record(MARK, place_of(name), number, time_, text_of(name, line, number))


def free_port() -> int:
    with socket.create_server(("127.0.0.1", 0)) as probe:
        return int(probe.getsockname()[1])


class Host:
    """PHP's server with a folder, until the `with` ends. A `tracer` is strace, which does to its
    system calls what it is told.
    """

    def __init__(
        self,
        folder: pathlib.Path,
        *settings: str,
        tracer: Sequence[object] = (),
        workers: int = 1,
        most_bytes: int | None = None,
    ):
        self.folder, self.workers, self.most_bytes = folder, workers, most_bytes
        self.before, self.settings = [*tracer, *START], settings

    def __enter__(self) -> "Host":
        self.log = tempfile.NamedTemporaryFile("ab", prefix="debvote-box-")
        self.start()
        end = time.monotonic() + SECONDS
        while not self.has_started():
            if self.process.poll() is not None and b"already in use" in self.said():
                # another test was faster
                self.log.truncate(0)
                self.start()
            if self.process.poll() is not None or time.monotonic() > end:
                said = self.said()
                self.__exit__()
                raise AssertionError(f"no server: {said!r}")
            time.sleep(0.005)
        return self

    def start(self):
        self.port = free_port()
        words = [*self.before, *self.settings, "-S", f"127.0.0.1:{self.port}", "-t", self.folder]
        environment = {"PHP_CLI_SERVER_WORKERS": str(self.workers)} if self.workers > 1 else {}
        environment["PATH"] = "/usr/bin:/bin"
        is_free, streams = self.most_bytes is None, {"stdout": self.log, "stderr": self.log}
        # a file that would be longer is an error then, and no signal
        how = {"restore_signals": is_free, "preexec_fn": None if is_free else self.limit}
        how |= {"stdin": subprocess.DEVNULL, "env": environment, "start_new_session": True}
        self.process = subprocess.Popen(list(map(str, words)), **streams, **how)

    def has_started(self) -> bool:
        if self.most_bytes is None:
            return b"started" in self.said()
        # where no file may be long, the log is none either
        with contextlib.suppress(OSError), socket.create_connection(("127.0.0.1", self.port)):
            return True
        return False

    def limit(self):
        resource.setrlimit(resource.RLIMIT_FSIZE, (self.most_bytes or 0,) * 2)

    def __exit__(self, *_: object):
        # its workers, too
        with contextlib.suppress(ProcessLookupError):
            os.killpg(self.process.pid, signal.SIGKILL)
        self.process.wait()
        self.log.close()

    def said(self) -> bytes:
        """What the server wrote."""
        return pathlib.Path(self.log.name).read_bytes()

    def seconds(self) -> float:
        """How many seconds of the processor it took."""
        its = pathlib.Path(f"/proc/{self.process.pid}/stat").read_text().rpartition(")")[2].split()
        return (int(its[11]) + int(its[12])) / os.sysconf("SC_CLK_TCK")

    def requests(self) -> list[str]:
        """The requests of pages until now. The server writes of one after it has answered it, and
        before it answers the next.
        """
        self.send(b"", "GET", "/now")
        found = re.findall(r"\]: (\w+ \S+)", self.said().decode())
        return [request for request in found if request not in ("GET /now", "GET /favicon.ico")]

    @property
    def at(self) -> str:
        return f"http://127.0.0.1:{self.port}/"

    def send(
        self, body: bytes, method: str = "POST", path: str = "/vote.php", **headers: str
    ) -> Answer:
        connection = http.client.HTTPConnection("127.0.0.1", self.port, timeout=SECONDS)
        fields = {name.replace("_", "-"): text for name, text in headers.items()}
        parts: list[bytes] = []
        try:
            # in one piece, so that the server's calls are the same each time
            connection.connect()
            with unittest.mock.patch.object(connection, "send", parts.append):
                connection.request(method, path, body, fields)
            connection.send(b"".join(parts))
            response = connection.getresponse()
            text = response.read().decode("utf-8", "replace")
            found = {name.lower(): value for name, value in response.getheaders()}
            return Answer(response.status, text, found)
        except (OSError, http.client.HTTPException):
            return Answer(0)
        finally:
            connection.close()

    def ask(self, word: str = WORD) -> Answer:
        return self.send(request_of(f"ask {word}"))

    def records(self) -> list[str]:
        """The records as it answers them, each with its end."""
        answer = self.ask()
        assert answer.status == 200, answer
        parts = answer.text.partition("\n")[2].split(END.decode())
        assert parts.pop() == "", answer
        return parts

    def lines(self) -> list[str]:
        """The lines of the ballots that it has, opened."""
        return [sealing.line_in(KEY, record) for record in self.records()]


# of Apache, which passes what the rules of a level let pass on to a host
CONFIGURATION = """
ServerName localhost
Listen 127.0.0.1:{port}
PidFile {folder}/pid
ErrorLog {folder}/errors
Mutex file:{folder} default
LoadModule mpm_event_module {modules}_mpm_event.so
LoadModule authz_core_module {modules}_authz_core.so
LoadModule unique_id_module {modules}_unique_id.so
LoadModule proxy_module {modules}_proxy.so
LoadModule proxy_http_module {modules}_proxy_http.so
LoadModule security2_module {modules}_security2.so
ProxyPass / {at}
SecRuleEngine On
SecRequestBodyAccess On
SecResponseBodyAccess On
SecDataDir {folder}
SecTmpDir {folder}
SecAction "id:900000,phase:1,pass,nolog,setvar:tx.paranoia_level={level}"
Include {rules}
"""


@contextlib.contextmanager
def behind_rules(host: Host, level: int) -> Iterator[None]:
    """Within this a host is asked through a firewall with the OWASP rules of this level."""
    own = host.port
    port = free_port()
    with tempfile.TemporaryDirectory(prefix="debvote-rules-") as folder:
        places = {"folder": folder, "port": port, "at": host.at, "level": level}
        file = pathlib.Path(folder, "apache.conf")
        file.write_text(CONFIGURATION.format(modules=MODULES, rules=RULES, **places))
        process = subprocess.Popen([APACHE, "-f", file, "-D", "FOREGROUND"])
        host.port = port
        try:
            while not host.send(b"").status:
                assert process.poll() is None, "no Apache"
                time.sleep(0.05)
            yield
        finally:
            host.port = own
            process.terminate()
            process.wait()


class Liar:
    """A web host that answers as a test says: `lie` gets each request as bytes, and yields what is
    sent, or for how many seconds it waits. `context` is for TLS.
    """

    def __init__(
        self, lie: Callable[[bytes], Iterable[bytes | float]], context: ssl.SSLContext | None = None
    ):
        self.lie, self.context = lie, context
        self.requests: list[bytes] = []

    def __enter__(self) -> "Liar":
        self.socket = socket.create_server(("127.0.0.1", 0))
        self.port = self.socket.getsockname()[1]
        threading.Thread(target=self.serve, daemon=True).start()
        return self

    def __exit__(self, *_: object):
        # what waits for a request would take one more
        self.socket.shutdown(socket.SHUT_RDWR)
        self.socket.close()

    @property
    def at(self) -> str:
        return f"http{'s' if self.context else ''}://127.0.0.1:{self.port}/"

    def serve(self):
        with contextlib.suppress(OSError):
            while True:
                found = self.socket.accept()[:1]
                threading.Thread(target=self.converse, args=found, daemon=True).start()

    def converse(self, connection: socket.socket):
        with contextlib.suppress(OSError), connection:
            wrapped = connection
            if self.context:
                wrapped = self.context.wrap_socket(connection, server_side=True)
            with wrapped:
                request = request_in(wrapped)
                self.requests.append(request)
                for part in self.lie(request):
                    if isinstance(part, bytes):
                        wrapped.sendall(part)
                    else:
                        time.sleep(part)
                # what it has sent arrives, also if it did not read all
                wrapped.shutdown(socket.SHUT_WR)
                wrapped.recv(1)


def request_in(connection: socket.socket) -> bytes:
    data = b""
    while True:
        head, end, body = data.partition(b"\r\n\r\n")
        length = re.search(rb"(?i)\r\ncontent-length: (\d+)", head)
        if end and len(body) >= int(length[1] if length else 0):
            return data
        part = connection.recv(65_536)
        if not part:
            return data
        data += part


def passed_on(request: bytes, host: Host) -> bytes:
    """What an honest host answers to a request."""
    with socket.create_connection(("127.0.0.1", host.port)) as connection:
        connection.sendall(request)
        return b"".join(iter(lambda: connection.recv(65_536), b""))


def answered(body: bytes, status: int = 200, *fields: str) -> bytes:
    """An answer with this body."""
    length = f"Content-Length: {len(body)}"
    lines = [f"HTTP/1.1 {status} x", *fields, length, "Connection: close", "", ""]
    return "\r\n".join(lines).encode() + body


class BoxTest(unittest.TestCase):
    """A test with a folder of a web host that has the script of a vote."""

    maxDiff = None

    def setUp(self):
        room = tempfile.TemporaryDirectory(prefix="debvote-box-")
        self.folder = pathlib.Path(self.enterContext(room))
        self.script = script_of(KEY, MARK, OWNS)
        (self.folder / "vote.php").write_bytes(self.script)
        self.file = self.folder / FILE

    def host(self, *settings: str, **how: object) -> Host:
        return self.enterContext(Host(self.folder, *settings, **how))  # type: ignore[arg-type]
