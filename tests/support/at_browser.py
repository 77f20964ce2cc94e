"""A page in chromium that a test uses as a reader does, through chromium's own protocol on a pipe.

Keys are real ones, in a window of a given size.
"""

import atexit
import base64
import collections
import contextlib
import functools
import itertools
import json
import os
import pathlib
import shutil
import subprocess
import tempfile
import unittest
import urllib.parse
from collections.abc import Iterator
from typing import Any

BROWSER = shutil.which("chromium") or shutil.which("chromium-browser")
NEEDS_BROWSER = unittest.skipUnless(BROWSER, "chromium is not installed")
FLAGS = [
    "--headless",
    "--no-sandbox",
    "--disable-gpu",
    "--hide-scrollbars",
    "--no-first-run",
    "--remote-debugging-pipe",
]

# the shell gives chromium the two ends that it uses, 3 and 4
START = 'read=$1 write=$2; shift 2; exec "$@" 3<&"$read" 4>&"$write"'

# the number of a key, and the text that it types
KEYS = {
    "Tab": (9, ""),
    "Enter": (13, "\r"),
    " ": (32, " "),
    "ArrowUp": (38, ""),
    "ArrowDown": (40, ""),
    "-": (189, "-"),
}
KEYS |= {digit: (ord(digit), digit) for digit in "0123456789"}
KEYS |= {"Escape": (27, "")} | {sign: (ord(sign.upper()), sign) for sign in "aejny"}

# what the page of a call shows once a name is typed and ranks are chosen
CHOOSE = """((name, ranks) => {
  const tell = (node, value) => { node.value = value; node.dispatchEvent(new Event("input", { bubbles: true })); };
  const field = document.getElementById("Name");
  if (name !== null && field) tell(field, name);
  [...document.querySelectorAll(".rank")].forEach((rank, place) => {
    const buttons = [...rank.querySelectorAll("input")];
    // nobody chooses what is chosen
    if (buttons.length ? buttons.every((button) => button.checked === (button.value === ranks[place])) : rank.value === ranks[place]) return;
    for (const button of buttons) button.checked = button.value === ranks[place];
    tell(rank, ranks[place]);
  });
  const words = [...document.querySelectorAll("#Ballot li:has(> bdi)")].filter((part) => !part.closest("#Lines"));
  const text = (id) => document.getElementById(id)?.textContent ?? "", node = (id) => document.getElementById(id);
  const seen = (id) => Boolean(node(id)?.checkVisibility());
  return { line: text("Line").replaceAll("\\n", " "), said: text("Name-said"), missing: text("Missing"), answered: text("Answered"),
    words: words.map((part) => `${part.querySelector("b").textContent} {${part.querySelector("bdi").dataset.option}}`).join(", "),
    names: Object.fromEntries(words.map((part) => part.querySelector("bdi")).map((part) => [part.dataset.option, part.textContent])),
    suggested: [...document.querySelectorAll("#Name-said button")].map((button) => button.textContent),
    letter: seen("Letter") && node("Letter").getAttribute("href"), ready: !node("Ready").hidden, long: !node("Long").hidden,
    invalid: field?.getAttribute("aria-invalid"), wide: document.documentElement.scrollWidth };
})"""


# the words within some nodes that are on two lines: each lies in two boxes
BROKEN_WORDS = r"""((nodes) => nodes.flatMap((node) => {
  const texts = document.createTreeWalker(node, NodeFilter.SHOW_TEXT), range = document.createRange(), broken = [];
  while (texts.nextNode()) for (const word of texts.currentNode.data.matchAll(/\S+/g)) {
    range.setStart(texts.currentNode, word.index);
    range.setEnd(texts.currentNode, word.index + word[0].length);
    if (range.getClientRects().length > 1) broken.push(word[0]);
  }
  return broken;
}))"""


# the numbers of options that are seen on another line than the beginning of their names
LONE_NUMBERS = """[...document.querySelectorAll("i + bdi")].filter((name) => name.checkVisibility({ contentVisibilityAuto: true })).filter((name) => {
  const begin = document.createRange();
  begin.setStart(name.firstChild, 0);
  begin.setEnd(name.firstChild, 1);
  return Math.abs(begin.getBoundingClientRect().top - name.previousElementSibling.getBoundingClientRect().top) > 12;
}).map((name) => name.previousElementSibling.textContent)"""


# the lines of texts of several lines that have no letter, by the middles of their words
LONE_LINES = r"""(() => {
  const texts = [...document.querySelectorAll("h1, h2, p, li, summary")].filter((node) => node.checkVisibility({ contentVisibilityAuto: true }));
  const single = texts.filter((node) => !node.querySelector("p, ul, ol, details") && !node.closest(".wide"));
  return single.flatMap((node) => {
    const walker = document.createTreeWalker(node, NodeFilter.SHOW_TEXT), range = document.createRange(), lines = [];
    while (walker.nextNode()) for (const word of walker.currentNode.data.matchAll(/\S+/g)) {
      range.setStart(walker.currentNode, word.index);
      range.setEnd(walker.currentNode, word.index + word[0].length);
      const { top, bottom } = range.getBoundingClientRect(), middle = (top + bottom) / 2;
      const line = lines.find((other) => Math.abs(other.middle - middle) < 9);
      if (line) line.text += ` ${word[0]}`;
      else lines.push({ middle, text: word[0] });
    }
    return lines.map(({ text }) => text).filter((text) => lines.length > 1 && !/\p{L}/u.test(text));
  });
})()"""

# of each question what the page of a result says by the name in its address: each paragraph, and
# each step of a list
MINE = "[...document.querySelectorAll('.mine')].map((node) => [...node.querySelectorAll('p, li')].map((part) => part.textContent))"


class Gone(RuntimeError):
    """The page was left before it answered."""


class Browser:
    """Chromium, which the windows of this process share: to start it takes longer than most
    pages.
    """

    def __init__(self):
        self.numbers = itertools.count(1)
        # the faults of each window, by its session
        self.faults: dict[str | None, list[str]] = collections.defaultdict(list)
        self.profile = tempfile.mkdtemp(prefix="debvote-browser-")
        read, self.to_browser = os.pipe()
        from_browser, write = os.pipe()
        words = [
            "bash",
            "-c",
            START,
            "start",
            str(read),
            str(write),
            str(BROWSER),
            *FLAGS,
            f"--user-data-dir={self.profile}",
            "about:blank",
        ]
        self.process = subprocess.Popen(
            words, pass_fds=(read, write), stderr=subprocess.DEVNULL, start_new_session=True
        )
        os.close(read)
        os.close(write)
        self.answers = os.fdopen(from_browser, "rb")
        self.rest = b""
        atexit.register(self.end)

    def end(self):
        os.close(self.to_browser)  # it ends if nobody speaks to it
        self.process.wait(60)
        self.answers.close()
        shutil.rmtree(self.profile, ignore_errors=True)

    def tell(self, session: str | None, method: str, **given: object) -> dict[str, Any]:
        """Makes a call of chromium's protocol for a window, or for the browser, and returns the
        answer.
        """
        number = next(self.numbers)
        call = {"id": number, "method": method, "params": given} | (
            {"sessionId": session} if session else {}
        )
        os.write(self.to_browser, json.dumps(call).encode() + b"\0")
        while True:
            answer = self.message()
            if answer.get("method") == "Log.entryAdded":
                self.faults[answer.get("sessionId")].append(answer["params"]["entry"]["text"])
            elif answer.get("method") == "Runtime.exceptionThrown":
                self.faults[answer.get("sessionId")].append(
                    str(answer["params"]["exceptionDetails"])
                )
            if answer.get("id") == number:
                if "error" in answer:
                    was_left = any(
                        word in answer["error"]["message"] for word in ("navigated", "destroyed")
                    )
                    raise (Gone if was_left else RuntimeError)(f"{method}: {answer['error']}")
                return dict(answer["result"])

    def message(self) -> dict[str, Any]:
        while b"\0" not in self.rest:
            data = os.read(self.answers.fileno(), 1 << 20)
            if not data:
                # the next window has another one
                browser.cache_clear()
                raise RuntimeError("chromium has ended")
            self.rest += data
        text, self.rest = self.rest.split(b"\0", 1)
        return dict(json.loads(text))


browser = functools.cache(Browser)


class Window:
    """A window with one page, and a profile of its own. It is closed with `with`."""

    def __init__(self, width: int, height: int):
        self.browser = browser()
        self.session: str | None = None
        self.context = self.tell("Target.createBrowserContext")["browserContextId"]
        page = self.tell("Target.createTarget", url="about:blank", browserContextId=self.context)[
            "targetId"
        ]
        self.session = self.tell("Target.attachToTarget", targetId=page, flatten=True)["sessionId"]
        self.tell("Log.enable")
        self.tell("Runtime.enable")
        self.tell("Emulation.setFocusEmulationEnabled", enabled=True)
        self.show()
        self.resize(width, height)

    def __enter__(self) -> "Window":
        return self

    def __exit__(self, *_: object):
        self.session = None
        self.tell("Target.disposeBrowserContext", browserContextId=self.context)

    @property
    def faults(self) -> list[str]:
        return self.browser.faults[self.session]

    def resize(self, width: int, height: int):
        self.tell(
            "Emulation.setDeviceMetricsOverride",
            width=width,
            height=height,
            deviceScaleFactor=1,
            mobile=False,
        )

    def show(self, *, is_dark: bool = False, is_printed: bool = False):
        """From now on pages are shown in a light or in a dark scheme, or as they are printed."""
        scheme = [{"name": "prefers-color-scheme", "value": "dark" if is_dark else "light"}]
        self.tell(
            "Emulation.setEmulatedMedia", media="print" if is_printed else "", features=scheme
        )

    def tell(self, method: str, **given: object) -> dict[str, Any]:
        """Makes a call of chromium's protocol, and returns the answer."""
        return self.browser.tell(self.session, method, **given)

    @contextlib.contextmanager
    def before_each_page(self, script: str) -> Iterator[None]:
        """Within this each page finds what a script made before its own."""
        self.tell("Page.enable")
        number = self.tell("Page.addScriptToEvaluateOnNewDocument", source=script)["identifier"]
        yield
        self.tell("Page.removeScriptToEvaluateOnNewDocument", identifier=number)

    def open(self, page: pathlib.Path, place: str = ""):
        """Opens a page, at a place of it that begins with #."""
        self.tell("Page.navigate", url=page.as_uri() + place)
        self.until(
            f"document.readyState === 'complete' && location.href.startsWith({json.dumps(page.as_uri())})"
        )

    def open_anew(self, page: pathlib.Path, place: str):
        """Opens a page at a place of it, as somebody who comes from elsewhere."""
        self.tell("Page.navigate", url="about:blank")
        self.until("location.href === 'about:blank'")
        self.open(page, place)

    def ask(self, script: str) -> Any:
        """Runs a script in the page, and returns its value."""
        found = self.tell(
            "Runtime.evaluate", expression=script, awaitPromise=True, returnByValue=True
        )
        if "exceptionDetails" in found:
            raise RuntimeError(f"{script}: {found['exceptionDetails']}")
        return found["result"].get("value")

    def until(self, script: str):
        """Waits until a script returns true, for two minutes at most."""
        end = "performance.now() > end ? done(false) : setTimeout(look, 10)"
        look = f"const end = performance.now() + 120000; const look = () => ({script}) ? done(true) : {end}; look();"
        is_true = None
        while is_true is None:
            # the page that comes is asked after one that was left
            with contextlib.suppress(Gone):
                is_true = self.ask(f"new Promise((done) => {{ {look} }})")
        if not is_true:
            raise AssertionError(f"it does not become true: {script}")

    def press(self, key: str, shift: bool = False, control: bool = False):
        code, text = KEYS[key]
        name = f"Digit{key}" if key.isdigit() else {" ": "Space"}.get(key, key)
        known = {
            "key": key,
            "code": name,
            "windowsVirtualKeyCode": code,
            "modifiers": (8 if shift else 0) | (2 if control else 0),
        }
        self.tell(
            "Input.dispatchKeyEvent", type="keyDown", **known, **({"text": text} if text else {})
        )
        self.tell("Input.dispatchKeyEvent", type="keyUp", **known)

    def type(self, text: str):
        self.tell("Input.insertText", text=text)

    def broken_words(self, nodes: str) -> list[str]:
        """The words within nodes, which a script returns, that are on two lines."""
        return list(self.ask(f"{BROKEN_WORDS}({nodes})"))

    def ballot(self, name: str | None, ranks: str | list[str]) -> dict[str, Any]:
        """What the page of a call shows once a name is typed and ranks are chosen, with the parts
        of the letter that it makes.
        """
        found = dict(self.ask(f"{CHOOSE}({json.dumps(name)}, {json.dumps(list(ranks))})"))
        address, _, query = (found["letter"] or "").partition("?")
        parts = {key: text for key, [text] in urllib.parse.parse_qs(query).items()}
        return found | {"to": address, "subject": parts.get("subject"), "body": parts.get("body")}

    def find(self, name: str, code: str | None = None) -> list[str]:
        """What the page of a result says after a name, and a code, were typed."""
        self.ask(f"document.getElementById('Name').value = {json.dumps(name)}")
        if code is not None:
            self.ask(f"document.getElementById('Code').value = {json.dumps(code)}")
        self.ask(
            "document.getElementById('Answer').replaceChildren(); document.getElementById('Show').click()"
        )
        self.until("document.getElementById('Answer').textContent !== ''")
        return self.found()

    def found(self) -> list[str]:
        """Each paragraph of the answer, and each step of its lists, which are numbered."""
        return list(
            self.ask(
                "[...document.querySelectorAll('#Answer p, #Answer li')].map((node) => node.textContent)"
            )
        )

    def count_again(self, files: dict[str, bytes] | None = None) -> list[str]:
        """What the page of a result says after a press of the button, or of that for files from the
        disk.
        """
        chosen = {name: base64.b64encode(data).decode() for name, data in (files or {}).items()}
        self.ask(
            f"""(() => {{
          const chosen = new DataTransfer();
          for (const [name, data] of Object.entries({json.dumps(chosen)})) {{
            chosen.items.add(new File([Uint8Array.from(atob(data), (sign) => sign.charCodeAt(0))], name));
          }}
          document.getElementById("Again-files").files = chosen.files;
          document.getElementById("Again-answer").replaceChildren();
          document.getElementById("{"Again-chosen" if files else "Again-button"}").click();
        }})()"""
        )
        self.until(
            "document.getElementById('Again-progress').hidden && document.getElementById('Again-answer').textContent !== ''"
        )
        return list(
            self.ask(
                "[...document.querySelectorAll('#Again-answer p')].map((node) => node.textContent)"
            )
        )
