"""The page of a teller in a browser, opened from the disk: files are chosen, buttons pressed, and what it saves is read."""

import base64
import json
import pathlib
import tempfile
from collections.abc import Sequence

from debvote_tools.call.lists import text_of
from debvote_tools.call.teller_page import teller_page
from debvote_tools.text.language import ENGLISH, Language

from tests.support import at_browser, tellers

# keeps what is saved, by the names of its files; a page may not fetch it
KEEPING = """
globalThis.saved = {};
const made = URL.createObjectURL, blobs = new Map();
URL.createObjectURL = (blob) => { const url = made.call(URL, blob); blobs.set(url, blob); return url; };
globalThis.savedIn = async (id) => { const link = document.getElementById(id); return [link.download, await blobs.get(link.href).text()]; };
"""


def key_file(name: str, kind: str = "key", value: bytes = b"") -> str:
    data = value or tellers.KEYS[name].to_bytes(32)
    return f"debvote {kind} 1\n{name}\n{tellers.points(3)[name]}\n{text_of(data)}\n"


def halves(name: str) -> list[str]:
    half = bytes(range(32))
    other = bytes(one ^ two for one, two in zip(half, tellers.KEYS[name].to_bytes(32)))
    return [key_file(name, "half", half), key_file(name, "half", other)]


class TellerPage:
    """The page, in a window of a browser."""

    def __init__(self, window: at_browser.Window, language: Language = ENGLISH):
        self.window = window
        # it goes with the page
        self.folder = tempfile.TemporaryDirectory(prefix="debvote-teller-")
        self.file = pathlib.Path(self.folder.name, "teller.html")
        self.file.write_bytes(teller_page(language))

    def open(self):
        self.window.open_anew(self.file, "")

    def choose(self, field: str, *files: bytes | str):
        """Files are chosen in a field."""
        data = [
            base64.b64encode(file.encode() if isinstance(file, str) else file).decode()
            for file in files
        ]
        self.window.ask(
            f"""(() => {{
          const chosen = new DataTransfer();
          {json.dumps(data)}.forEach((data, n) => chosen.items.add(new File([Uint8Array.from(atob(data), (sign) => sign.charCodeAt(0))], `file-${{n}}`)));
          document.getElementById({json.dumps(field)}).files = chosen.files;
        }})()"""
        )

    def type(self, field: str, text: str):
        self.window.ask(
            f"void (document.getElementById({json.dumps(field)}).value = {json.dumps(text)})"
        )

    def check(self, field: str, is_checked: bool = True):
        self.window.ask(
            f"void (document.getElementById({json.dumps(field)}).checked = {json.dumps(is_checked)})"
        )

    def press(self, button: str) -> str:
        """Presses a button, and returns what is said then; empty if it did what it says."""
        said = f"document.getElementById('{button}-said').textContent"
        self.window.ask(f"document.getElementById('{button}').click()")
        self.window.until(f"{said} !== 'Please wait ..'")
        return str(self.window.ask(said))

    def text(self, node: str) -> str:
        return str(self.window.ask(f"document.getElementById('{node}').textContent"))

    def lines(self, node: str) -> list[str]:
        script = f"[...document.getElementById('{node}').childNodes].filter((one) => one.data).map((one) => one.data)"
        return [str(line) for line in self.window.ask(script)]

    def saved(self, link: str) -> tuple[str, str]:
        """Name and content of what a link saves."""
        name, text = self.window.ask(f"savedIn('{link}')")
        return str(name), str(text)

    def opening(
        self,
        lists: list[bytes],
        voted: str,
        keys: Sequence[str],
        checksums: tuple[str, str] = ("", ""),
        is_newest: bool = True,
    ) -> str:
        """A teller opens: what is said then."""
        self.choose("Lists", *lists)
        self.choose("Voted", voted)
        self.choose("Key", *keys)
        right = (tellers.sha256(lists[0]), tellers.sha256(voted.encode()))
        for field, given, one in zip(("Checksum", "Voted-checksum"), checksums, right):
            self.type(field, given or one)
        self.check("Newest", is_newest)
        return self.press("Open")

    def look(self, page: bytes, *keys: str, line: str = "") -> str:
        self.choose("Page", page)
        self.choose("Look-key", *keys)
        self.type("Line", line)
        return self.press("Look")

    def find(self, ballot: str, *lists: bytes) -> str:
        """What is said of a ballot, wrong or right."""
        self.choose("Ballot-file", ballot)
        self.choose("All-lists", *lists)
        said = self.press("Find")
        return said or self.text("Found")
