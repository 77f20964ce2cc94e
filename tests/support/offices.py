"""An office for the election of a test, which asks it for pages by HTTP.

It is a fork of the test's process, and a maker makes the commands that it runs. A `Program`, and each with DEBVOTE_FORKS=0, is a new process.
"""

import html
import http.client
import os
import pathlib
import re
import signal
import subprocess
import sys
import time
import urllib.parse
from unittest import mock

from debvote_tools.office import command_line

from tests.support import elections, forks, makers
from tests.support.program import ROOT

OFFICE = ROOT / "bin" / "debvote-office"
TAGS = re.compile(r"<[^>]*>")


def become(words, env, output, *, is_new):
    """In a fork: it is an office, which says its address by this descriptor."""
    os.dup2(output, 1)
    makers.close_from(3)
    if is_new:
        os.execve(words[0], words, env)
    sys.argv = words[1:]
    forks.in_child(run, words, {"env": env}, [])


def run(programs, _):
    """Runs an office, which asks a maker for its commands."""
    of_program = subprocess.Popen

    def begun(words, **how):
        if words[0] != sys.executable or words[1] not in forks.LAUNCHERS:
            return of_program(words, **how)
        return makers.Made(asking, words, str(how["cwd"]), how["env"])

    with makers.maker() as asking, mock.patch.object(subprocess, "Popen", begun):
        return command_line.main(programs)


class Office:
    """`debvote-office`, which runs until the test ends."""

    is_new = makers.ARE_NEW

    def __init__(self, test: elections.ElectionTest, *words: str, folder: str | None = None, **env):
        self.test = test
        place = [str(test.folder)] if folder is None else [folder] if folder else []
        words = [sys.executable, str(OFFICE), "--no-browser", *words, *place]
        env = elections.environment() | test.clock | {"XDG_STATE_HOME": str(test.state)} | env
        forks.read_ahead()
        output, inner = os.pipe()
        self.pid = os.fork()
        if self.pid == 0:
            try:
                become(words, env, inner, is_new=self.is_new)
            finally:
                os._exit(70)
        self.status: int | None = None
        test.addCleanup(self.end)
        os.close(inner)
        self.output = open(output)
        test.addCleanup(self.output.close)
        self.address = self.output.readline().strip()
        test.assertTrue(self.address.startswith("http://127.0.0.1:"), self.address)
        parts = urllib.parse.urlsplit(self.address)
        self.host = parts.netloc
        self.base = parts.path

    def wait(self):
        """Its exit status, once it has ended."""
        if self.status is None:
            self.status = forks.awaited(self.pid, elections.SECONDS, ["debvote-office"])
        return self.status

    def end(self):
        if self.status is None:
            os.kill(self.pid, signal.SIGTERM)
        self.wait()

    def ask(self, method, path, body=None, **heads):
        """The status, the heads and the bytes that answer a request."""
        connection = http.client.HTTPConnection(self.host, timeout=elections.SECONDS)
        try:
            connection.request(method, path, body, heads)
            answer = connection.getresponse()
            return answer.status, dict(answer.getheaders()), answer.read()
        finally:
            connection.close()

    def page(self, place="", status=200):
        """A page, after those that lead to it."""
        for _ in range(40):
            found, heads, body = self.ask("GET", self.base + place)
            if found != 303:
                break
            place = heads["Location"].removeprefix(self.base)
        self.place = place
        text = body.decode()
        self.test.assertEqual(found, status, text)
        self.test.assertNotIn("could not make this page", text)
        self.test.assertNotIn("Traceback", text)
        return text

    def post(self, place, **fields):
        """What follows a form, once no command runs any more that it has started."""
        body = urllib.parse.urlencode(fields, doseq=True)
        return self.posted(place, body, **{"Content-Type": "application/x-www-form-urlencoded"})

    def posted(self, place, body, **heads):
        heads = {"Origin": f"http://{self.host}", **heads}
        status, found, data = self.ask("POST", self.base + place, body, **heads)
        if status != 303:
            return data.decode()
        text = self.page(found["Location"].removeprefix(self.base))
        end = time.monotonic() + elections.SECONDS
        while 'http-equiv="refresh"' in text and time.monotonic() < end:
            time.sleep(0.05)
            text = self.page(self.place)
        return text

    def upload(self, place, name, data):
        """Posts a file as a browser does."""
        body = (
            b'--x\r\nContent-Disposition: form-data; name="file"; filename="'
            + name.encode()
            + b'"\r\n\r\n'
            + data
            + b"\r\n--x--\r\n"
        )
        return self.posted(place, body, **{"Content-Type": "multipart/form-data; boundary=x"})

    def shows(self, text, *parts):
        """A page, of which a reader sees these parts."""
        for part in parts:
            self.test.assertIn(part, seen(text))
        return text

    def asked(self, text):
        """The number of the question that a page asks."""
        return int(re.search(r'name="asked" value="(\d+)"', text)[1])

    def yes(self, text, answer="y", place=None):
        """Answers what a page asks, by its own form."""
        found = re.search(r'action="([^"]*)"><input type="hidden" name="asked"', text)
        self.test.assertTrue(found, f"nothing is asked: {seen(text)}")
        action = found[1].removeprefix(self.base)
        return self.post(place or action, asked=self.asked(text), answer=answer)

    def agree(self, place, **fields):
        """What a command says at last that is answered with yes as often as it asks."""
        text = self.post(place, **fields)
        while 'name="asked"' in text:
            text = self.yes(text)
        return text

    def trust(self, place=""):
        """Agrees to the programs that a page shows."""
        [digest] = re.findall(r'name="digest" value="(\w+)"', self.page(place))
        return self.post("agree", digest=digest)

    def type(self, name, ranks, desk=1, **answers):
        """Types a ballot at a desk, and returns the page that reads it back."""
        text = self.page(f"desk/{desk}")
        if 'name="begin"' in text:
            text = self.post(f"desk/{desk}", begin="1")
        fields = {"name": name, "ranks": ranks, "asked": self.asked(text), **answers}
        return self.post(f"desk/{desk}", **fields)


class Program(Office):
    """The program as it is started, whose commands are new processes, too."""

    is_new = True


def seen(text):
    """What a reader sees of a page."""
    return " ".join(html.unescape(TAGS.sub(" ", text)).split())


def descriptors(office):
    return len(os.listdir(f"/proc/{office.pid}/fd"))


def children(office):
    """The commands that an office runs."""
    found = children_of(office.pid)
    return found if office.is_new else [child for made in found for child in children_of(made)]


def children_of(pid):
    found = pathlib.Path(f"/proc/{pid}/task").glob("*/children")
    return [int(child) for file in found for child in file.read_text().split()]


def is_there(pid):
    """Whether a process runs, and has not ended without being waited for."""
    try:
        return pathlib.Path(f"/proc/{pid}/stat").read_text().rpartition(")")[2].split()[0] != "Z"
    except (FileNotFoundError, ProcessLookupError):
        return False
