"""A page in Firefox that a test uses as a reader does, through WebDriver BiDi on 127.0.0.1, by the calls of a window of chromium."""

import atexit
import base64
import contextlib
import functools
import itertools
import json
import os
import pathlib
import re
import shutil
import socket
import struct
import subprocess
import tempfile
import unittest
from collections.abc import Iterator
from typing import Any

from tests.support import at_browser

FIREFOX = shutil.which("firefox-esr") or shutil.which("firefox")
NEEDS_FIREFOX = unittest.skipUnless(FIREFOX, "firefox-esr is not installed")
LISTENS = re.compile(r"WebDriver BiDi listening on ws://127\.0\.0\.1:(\d+)")

# the keys that type no text of their own
KEYS = {
    "Tab": "\ue004",
    "Enter": "\ue007",
    "Shift": "\ue008",
    "Control": "\ue009",
    "ArrowUp": "\ue013",
    "ArrowDown": "\ue015",
}

# of a frame of a WebSocket: the last part of a text, and a ping with its answer
TEXT, PING, PONG, IS_LAST, IS_MASKED = 1, 9, 10, 0x80, 0x80
# the lengths that stand in two bytes or in eight
SHORT, LONG = 126, 127


class Socket:
    """The client of a WebSocket, as far as Firefox needs one."""

    def __init__(self, port: int, path: str):
        self.stream = socket.create_connection(("127.0.0.1", port)).makefile("rwb")
        key = base64.b64encode(os.urandom(16)).decode()
        head = f"GET {path} HTTP/1.1\r\nHost: 127.0.0.1:{port}\r\nUpgrade: websocket\r\n"
        head += f"Connection: Upgrade\r\nSec-WebSocket-Key: {key}\r\nSec-WebSocket-Version: 13\r\n"
        self.stream.write(f"{head}\r\n".encode())
        self.stream.flush()
        status = self.stream.readline()
        assert b" 101 " in status, status
        while self.stream.readline().strip():
            pass

    def send(self, data: bytes, kind: int = TEXT):
        """Sends a frame; it has a mask, as each of a client must: Firefox reads none with one of zeros."""
        length, mask = len(data), os.urandom(4)
        masked = bytes(sign ^ mask[place % 4] for place, sign in enumerate(data))
        if length < SHORT:
            size = bytes([IS_MASKED | length])
        elif length < 1 << 16:
            size = bytes([IS_MASKED | SHORT]) + struct.pack("!H", length)
        else:
            size = bytes([IS_MASKED | LONG]) + struct.pack("!Q", length)
        self.stream.write(bytes([IS_LAST | kind]) + size + mask + masked)
        self.stream.flush()

    def receive(self) -> bytes:
        """The next text, which may come in several frames."""
        text = b""
        while True:
            first, length = self.stream.read(2)
            if length == SHORT:
                [length] = struct.unpack("!H", self.stream.read(2))
            elif length == LONG:
                [length] = struct.unpack("!Q", self.stream.read(8))
            data = self.stream.read(length)
            if first & 15 == PING:
                self.send(data, PONG)
                continue
            text += data
            if first & IS_LAST:
                return text


class Browser:
    """Firefox, which the windows of this process share."""

    def __init__(self):
        self.numbers = itertools.count(1)
        self.faults: list[str] = []
        self.profile = tempfile.mkdtemp(prefix="debvote-firefox-")
        words = [str(FIREFOX), "--headless", "--no-remote", "--profile", self.profile]
        self.process = subprocess.Popen(
            [*words, "--remote-debugging-port=0"],
            stdout=subprocess.DEVNULL,
            stderr=subprocess.PIPE,
            env={**os.environ, "HOME": self.profile},
            start_new_session=True,
        )
        atexit.register(self.end)
        said = (LISTENS.search(line.decode(errors="replace")) for line in self.process.stderr)
        self.socket = Socket(int(next(found for found in said if found)[1]), "/session")
        self.tell("session.new", capabilities={})
        self.tell("session.subscribe", events=["log.entryAdded"])

    def end(self):
        self.process.kill()
        self.process.wait(60)
        shutil.rmtree(self.profile, ignore_errors=True)

    def tell(self, method: str, **given: object) -> dict[str, Any]:
        """Makes a call of the protocol, and returns the answer."""
        number = next(self.numbers)
        self.socket.send(json.dumps({"id": number, "method": method, "params": given}).encode())
        while True:
            answer = json.loads(self.socket.receive())
            if answer.get("method") == "log.entryAdded":
                entry = answer["params"]
                # it asks for an icon by itself
                if entry["level"] in ("error", "warn") and "favicon" not in entry["text"]:
                    self.faults.append(str(entry["text"]))
            if answer.get("id") == number:
                if answer["type"] == "error":
                    raise RuntimeError(f"{method}: {answer['error']}: {answer['message']}")
                return dict(answer["result"])


browser = functools.cache(Browser)


class Window(at_browser.Window):
    """A window with one page, and a profile of its own. It is closed with `with`."""

    def __init__(self, width: int, height: int):
        self.firefox = browser()
        self.firefox.faults.clear()
        self.profile = self.firefox.tell("browser.createUserContext")["userContext"]
        page = self.firefox.tell("browsingContext.create", type="tab", userContext=self.profile)
        self.page = page["context"]
        self.resize(width, height)

    def __exit__(self, *_: object):
        self.firefox.tell("browser.removeUserContext", userContext=self.profile)

    @property
    def faults(self) -> list[str]:
        return self.firefox.faults

    def resize(self, width: int, height: int):
        size = {"width": width, "height": height}
        self.firefox.tell("browsingContext.setViewport", context=self.page, viewport=size)

    @contextlib.contextmanager
    def before_each_page(self, script: str) -> Iterator[None]:
        told = {"functionDeclaration": f"() => {{ {script} }}", "contexts": [self.page]}
        number = self.firefox.tell("script.addPreloadScript", **told)["script"]
        yield
        self.firefox.tell("script.removePreloadScript", script=number)

    def open(self, page: pathlib.Path, place: str = ""):
        self.open_address(page.as_uri() + place)

    def open_anew(self, page: pathlib.Path, place: str):
        self.open_address("about:blank")
        self.open(page, place)

    def open_address(self, address: str):
        told = {"context": self.page, "url": address, "wait": "complete"}
        self.firefox.tell("browsingContext.navigate", **told)

    def ask(self, script: str) -> Any:
        """Runs a script in the page, and returns its value, which JSON can hold."""
        asked = f"Promise.resolve({script}).then((value) => JSON.stringify(value) ?? 'null')"
        found = self.firefox.tell(
            "script.evaluate", expression=asked, target={"context": self.page}, awaitPromise=True
        )
        if found["type"] == "exception":
            raise RuntimeError(f"{script}: {found['exceptionDetails']['text']}")
        return json.loads(found["result"]["value"])

    def press(self, key: str, shift: bool = False, control: bool = False):
        held = [name for name, is_held in (("Shift", shift), ("Control", control)) if is_held]
        values = [KEYS.get(name, name) for name in (*held, key)]
        acts = [{"type": "keyDown", "value": value} for value in values]
        acts += [{"type": "keyUp", "value": value} for value in reversed(values)]
        self.act({"type": "key", "id": "keys", "actions": acts})

    def type(self, text: str):
        acts = [{"type": kind, "value": sign} for sign in text for kind in ("keyDown", "keyUp")]
        self.act({"type": "key", "id": "keys", "actions": acts})

    def act(self, source: dict[str, object]):
        self.firefox.tell("input.performActions", context=self.page, actions=[source])

    def choose(self, field: str, *files: pathlib.Path):
        """Chooses files from the disk in a field, which a script returns."""
        told = {"expression": field, "target": {"context": self.page}, "awaitPromise": False}
        node = self.firefox.tell("script.evaluate", **told)["result"]["sharedId"]
        self.firefox.tell(
            "input.setFiles",
            context=self.page,
            element={"sharedId": node},
            files=[str(file) for file in files],
        )
