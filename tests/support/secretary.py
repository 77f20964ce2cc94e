"""An office in chromium, used as a secretary uses it: by clicks and keys, which are counted."""

import collections
import contextlib
import json
import re
import time

from tests.support import offices, sentences
from tests.support.at_browser import Gone, Window

# what has not come by then does not come
SECONDS = 120

# whether a page is whole, does not follow a command any more, and has the focus where it begins
ARRIVED = """document.readyState === "complete" && !document.querySelector("meta[http-equiv=refresh]")
  && (document.activeElement !== document.body || !document.querySelector("[autofocus]"))"""

# scrolls to the first of these nodes that is seen, and returns where it is pressed, whether that
# leads to another page, its address, and whether nothing lies above it
PLACE = """((nodes) => {
  const node = nodes.find((node) => node.checkVisibility());
  if (!node) return null;
  node.scrollIntoView({ block: "center" });
  const box = node.getClientRects()[0], x = box.left + box.width / 2, y = box.top + box.height / 2;
  return { x, y, leads: node.matches("a, button"), href: node.href ?? null, free: node.contains(document.elementFromPoint(x, y)) };
})"""
# what has one of these texts, as patterns
PRESSED = """((texts) => [...document.querySelectorAll("a, button, summary")].filter((node) =>
  texts.some((text) => new RegExp(`^${text}$`).test(node.textContent.replace(/\\s+/g, " ").trim()))))"""

# where people wrote something, or debvote, or where faults stand
OTHERS = "bdi, b, code, pre, textarea, .asks, .doubts, .end, .roll, .people, .ballots"
# what pages and commands say
OWN_TEXT = """((others) => {
  const walker = document.createTreeWalker(document.body, NodeFilter.SHOW_TEXT), texts = [];
  while (walker.nextNode()) {
    const node = walker.currentNode.parentElement;
    if (node.checkVisibility() && !node.closest(others)) texts.push(walker.currentNode.data);
  }
  return texts.join(" | ");
})"""
PATH = re.compile(r"\S*/\S*")
# words that no sentence of the other languages has
ENGLISH = re.compile(
    r"(?i)\b(?:the|and|of|are|with|from|this|that|you|your|have|been|by|to|yes|letters?|ballots?|is)\b"
)


class Page(Window):
    """A window that shows pages of an office."""

    def __init__(self, office: offices.Office, *, width=360, height=640, has_script=True):
        super().__init__(width, height)
        self.office = office
        self.address = office.address
        self.tell("Emulation.setScriptExecutionDisabled", value=not has_script)

    def until(self, script: str):
        """Waits until a script returns true; no promise is kept in a page without script."""
        end = time.monotonic() + SECONDS
        while True:
            with contextlib.suppress(Gone, RuntimeError):
                if self.ask(f"Boolean({script})"):
                    return
            if time.monotonic() > end:
                raise AssertionError(f"it does not become true: {script}")
            time.sleep(0.02)

    def go(self, place: str):
        self.tell("Page.navigate", url=self.address + place)
        self.until(f"location.href.startsWith({json.dumps(self.address + place)})")
        self.arrived()

    def arrived(self):
        self.until(ARRIVED)

    def enter(self, key: str = "Enter"):
        """Presses a key that leads to another page."""
        with self.leaving():
            self.press(key)

    @contextlib.contextmanager
    def leaving(self):
        """Another page follows what is done within."""
        self.ask("document.body.dataset.left = 1")
        yield
        self.until("document.body && !document.body.dataset.left")
        self.arrived()

    def seen(self) -> str:
        return str(self.ask("document.querySelector('main').innerText.replace(/\\s+/g, ' ')"))

    def focus(self) -> str:
        return str(self.ask("document.activeElement.name || document.activeElement.textContent"))


class Secretary(Page):
    """Who sits at an office, before pages in a language. `counted` has how often something was
    pressed, chosen or filled in, by the part of the work and by its page; `english` what pages say
    that is not in their language.
    """

    def __init__(self, office: offices.Office, code: str = "de"):
        super().__init__(office, width=1280, height=900)
        file = sentences.LOCALE / f"{code}.po"
        entries = sentences.entries_in(file.read_text(encoding="utf-8"))
        self.forms = {entry.texts[0]: entry.forms for entry in entries}
        self.counted = collections.Counter[tuple[str, str]]()
        self.part = ""
        self.english: dict[str, str] = {}
        self.left_out = OTHERS

    def arrived(self):
        super().arrived()
        if self.ask("document.documentElement.lang") != "en":
            text = PATH.sub("", str(self.ask(f"{OWN_TEXT}({json.dumps(self.left_out)})")))
            self.english |= {text: word[0] for word in ENGLISH.finditer(text)}

    def count(self):
        self.counted[self.part, str(self.ask("document.body.className"))] += 1

    def table(self) -> str:
        rows = (f"{number:4}  {part}, {page}" for (part, page), number in self.counted.items())
        return "\n".join(rows)

    # ---- what is pressed
    def press_on(self, nodes: str, what: object) -> None:
        """Clicks on the first of some nodes that is seen."""
        place = self.ask(f"{PLACE}({nodes})")
        assert place and place["free"], (what, place, self.seen())
        self.count()
        with self.leaving() if place["leads"] else contextlib.nullcontext():
            for kind in ("mousePressed", "mouseReleased"):
                at = {"x": place["x"], "y": place["y"], "button": "left", "clickCount": 1}
                self.tell("Input.dispatchMouseEvent", type=kind, **at)

    def pressed(self, sentence: str) -> str:
        """The nodes that have a sentence of the page, with any words in its places."""
        forms = self.forms.get(sentence, (sentence,))
        plain = (re.escape(re.sub(r"<[^>]*>", "", form)) for form in forms)
        patterns = [re.sub(r"\\\{\w+\\\}", ".+", form) for form in plain]
        return f"{PRESSED}({json.dumps(patterns)})"

    def click(self, *sentence: str):
        """Presses one after another what has these sentences, which are written in English."""
        for one in sentence:
            self.press_on(self.pressed(one), one)

    def look(self, sentence: str) -> str:
        """What is seen in the window that a link opens."""
        self.count()
        address = self.ask(f"{PLACE}({self.pressed(sentence)})")["href"]
        with Page(self.office) as window:
            window.tell("Page.navigate", url=address)
            window.until(f"document.readyState === 'complete' && location.href === '{address}'")
            return str(window.ask("document.body.innerText"))

    def pick(self, field: str):
        """Chooses one of several, or ticks a box."""
        self.press_on(f"[document.querySelector({json.dumps(field)})?.closest('label')]", field)

    def fill(self, field: str, text: object, place: int = 0):
        """Clicks into a field, or into a later one of its name, and types in place of what it
        has.
        """
        self.press_on(f"[...document.querySelectorAll({json.dumps(field)})].slice({place})", field)
        self.ask("document.activeElement.select()")
        self.type(str(text))

    def choose(self, field: str, value: object):
        """Chooses in a list by the arrow keys."""
        self.count()
        node = f"document.querySelector({json.dumps(field)})"
        steps = self.ask(
            f"(({node}).focus(), [...{node}.options].findIndex((one) => one.value === '{value}') - {node}.selectedIndex)"
        )
        for _ in range(abs(steps)):
            self.press("ArrowDown" if steps > 0 else "ArrowUp")

    def fill_day(self, field: str, day: str):
        """Types a day into its field, as 12312026."""
        self.press_on(f"[document.querySelector({json.dumps(field)})]", field)
        for digit in day:
            self.press(digit)

    # ---- the desk
    def type_ballot(self, name: str, *answers: str):
        """Types a ballot by keys alone: for each question the ranks, or the first letter of a word;
        an empty answer leaves it out.
        """
        self.type(name)
        self.press("Enter")
        *before, last = answers
        for answer in before:
            self.answer(answer)
            if not answer.isalpha():
                self.press("Enter")
        self.answer(last)
        self.enter()
        self.until("document.activeElement.name === 'answer'")
        self.enter()

    def answer(self, answer: str):
        if answer.isalpha():
            self.press(answer)
        else:
            self.type(answer)
