"""Looks at published pages in chromium, and by tidy: what a reader sees.

It looks at several widths, in a light and in a dark scheme.
"""

import functools
import re
import shutil
import unittest

from tests.support import publishing
from tests.support.at_browser import NEEDS_BROWSER, Window

NEEDS_TIDY = unittest.skipUnless(shutil.which("tidy"), "tidy is not installed")
NEEDS_PICTURES = unittest.skipUnless(
    publishing.HAS_PICTURES, "dot is not installed, so there are no pictures"
)

WIDTHS = (320, 360, 390, 1280)
DOUBT_WIDTHS = (360, 1280)

# what a page shows: its own width and colours; whether the marked doubts stand in the first window,
# with nothing above them, and their colours; the width of its picture, of the region that it lies
# in and of what was drawn, and the ink of its words; and of each bar its number, the whole, the
# thousandths of the width that it takes, whether it is of the winner, for or against the option,
# and its colours
LOOK = """(() => {
  const style = (node, ...keys) => keys.map((key) => getComputedStyle(node)[key].replaceAll(" ", ""));
  const [paper] = style(document.body, "backgroundColor"), own = style(document.body, "backgroundColor", "color");
  const doubts = document.querySelector(".doubts"), picture = document.querySelector(".picture svg");
  const seen = (box) => {
    const place = box.getBoundingClientRect(), middle = document.elementFromPoint(place.left + place.width / 2, place.top + 10);
    return place.left >= 0 && place.right <= innerWidth && place.bottom <= innerHeight && box.contains(middle);
  };
  const bar = (node) => {
    const svg = node.parentNode, whole = svg.getBoundingClientRect().width;
    return { number: +node.getAttribute("width"), whole: svg.viewBox.baseVal.width,
      kind: (svg.closest(".won") ? "won " : "") + node.classList,
      share: whole ? 1000 * node.getBoundingClientRect().width / whole : null, colours: style(node, "fill", "stroke") };
  };
  return { wide: document.documentElement.scrollWidth, own, paper, bars: [...document.querySelectorAll(".bar > rect[class]")].map(bar),
    doubts: doubts && [seen(doubts), ...style(doubts, "backgroundColor", "color"), ...style(doubts.querySelector("strong"), "color")],
    picture: picture && [picture.getBoundingClientRect().width, picture.closest(".wide").clientWidth, +picture.getAttribute("width"),
      ...style(picture.querySelector("text"), "fill")] };
})()"""

# a heading within a summary is newer than tidy
SUMMARY = re.compile(r"<summary>(<h3 [^>]*>.*?</h3>)(.*?)</summary>")


@functools.cache
def looks_of(folders, widths):
    """What each page shows at each width, in a light and in a dark scheme; pages are opened once
    for all tests.
    """
    found = []
    with Window(1280, 900) as window:
        for folder in folders:
            window.open(folder / "index.html")
            # a colour is the same at each width
            for is_dark, seen in ((False, widths), (True, DOUBT_WIDTHS)):
                window.show(is_dark=is_dark)
                for width in seen:
                    window.resize(width, 900)
                    found.append(
                        {"folder": folder, "width": width, "is_dark": is_dark, **window.ask(LOOK)}
                    )
    return found


class LooksTest(publishing.PublishTest):
    """Folders that are published once for a class: what was noted when they were made, and how
    their pages look.
    """

    widths = WIDTHS

    @classmethod
    def setUpClass(cls):
        super().setUpClass()
        cls.facts = []
        cls.folders = cls.made()

    @classmethod
    def note(cls, *fact):
        cls.facts.append(fact)

    def looks(self):
        return looks_of(tuple(self.folders), self.widths)

    def test_what_was_noted(self):
        self.assertTrue(self.facts)
        for fact in self.facts:
            self.expect(*fact)

    @NEEDS_TIDY
    def test_tidy(self):
        for folder in self.folders:
            page = SUMMARY.sub(r"\1\2", (folder / "index.html").read_text(encoding="utf-8"))
            self.expect(
                f"{folder.name}: tidy",
                publishing.run(["tidy", "-q", "-e"], input=page)[1:],
                ("", 0),
            )

    @NEEDS_BROWSER
    def test_widths_and_colours(self):
        """All pages are as wide as the window, and have one pair of colours in light and another
        one in dark.
        """
        self.expect(
            "widths",
            [
                (look["folder"], look["width"])
                for look in self.looks()
                if look["wide"] != look["width"]
            ],
            [],
        )
        pairs = {(look["is_dark"], *look["own"]) for look in self.looks()}
        self.expect("colours of the pages", (len(pairs), len({pair[1:] for pair in pairs})), (2, 2))


def contrast(one, other):
    """The contrast of two colours as rgb(1,2,3), from 1 to 21; 4.5 is what a text needs."""
    lights = []
    for colour in (one, other):
        parts = [int(part) / 255 for part in re.findall(r"\d+", colour)[:3]]
        red, green, blue = (
            part / 12.92 if part <= 0.04045 else ((part + 0.055) / 1.055) ** 2.4 for part in parts
        )
        lights.append(0.2126 * red + 0.7152 * green + 0.0722 * blue)
    return (max(lights) + 0.05) / (min(lights) + 0.05)
