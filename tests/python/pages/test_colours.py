"""The styles of the pages: each colour has a name, and what is written can be read on its ground.

4.5 is the contrast that a text needs, 3 what a line, a ring or a bar needs; the guidelines of the
W3C for all web pages have both numbers.
"""

import re

from tests.support import expecting, looks, publishing

STYLES = sorted((publishing.ROOT / "python" / "debvote_tools").rglob("*.css"))

# of each ground what is written on it, and what is drawn on it
TEXTS = {
    "paper": ["ink", "link", "faint"],
    "shade": ["ink", "link", "faint", "warning"],
    "won": ["ink", "link", "faint"],
    "mark": ["ink", "link", "faint"],
    "warned": ["ink", "link", "warning"],
    "link": ["paper"],
}
DRAWN = {
    "paper": ["line", "link", "warning", "ink"],
    "shade": ["line", "link", "ink"],
    "mark": ["line", "ink"],
}
# the edges of bars, and the marks in them
DRAWN |= {"won": ["line", "link", "ink"], "for": ["ink"], "against": ["ink"]}

NAMED = r"--([a-z]+): *([^;]+);"
SCREENS_IN_DARK = "screen and (prefers-color-scheme: dark)"
# these name no colour
OTHERS = (
    "screen and (max-height: 45rem)",
    "(min-width: 70rem)",
    "(min-width: 44rem)",
    "(max-width: 30rem)",
)
COLOURED = (
    r"(?<![-\w])(?:color|background|border(?:-[a-z]+)?|outline|fill|stroke)(?:-color)?: *([^;}]+)"
)
NO_COLOUR = (
    r"var\(--[a-z]+\)|currentColor|none|0|(?:\d*\.?\d+(?:px|rem|em))|solid|dashed|dotted|collapse"
)


def rules_of(style):
    """The rules of a style, each with the medium that it is for, "" where it is for all."""
    for medium, inner, plain in re.findall(
        r"@media ([^{]+?) *\{((?:[^{}]*\{[^{}]*\})*)\s*\}|([^{}@]*\{[^{}]*\})", style
    ):
        yield medium, inner or plain


def colours():
    """The colours of the names: in light, as on paper, in dark and of slips on paper; and the
    styles without what gives a colour a name.
    """
    light, dark, paper, others = {}, {}, {}, ""
    for file in STYLES:
        for medium, rule in rules_of(file.read_text()):
            {"": light, SCREENS_IN_DARK: dark, "print": paper, **dict.fromkeys(OTHERS, {})}[
                medium
            ].update(re.findall(NAMED, rule))
            others += re.sub(NAMED, "", rule) + "\n"
    return light, {**light, **dark}, {**light, **paper}, others


def value(table, name):
    """A colour as rgb(1,2,3); a name may stand for another."""
    found = table[name].strip()
    if found.startswith("var("):
        return value(table, found[6:-1])
    assert re.fullmatch("#[0-9a-f]{6}", found), f"{name}: {found}"
    return "rgb({},{},{})".format(*(int(found[at : at + 2], 16) for at in (1, 3, 5)))


class ColoursTest(expecting.Expecting):
    def test_what_is_written_can_be_read(self):
        for scheme, table in zip(("light", "dark", "a slip on paper"), colours()[:3], strict=True):
            for least, pairs in ((4.5, TEXTS), (3, DRAWN)):
                for ground, names in pairs.items():
                    for name in names:
                        found = looks.contrast(value(table, ground), value(table, name))
                        self.expect(
                            f"{scheme}: {name} on {ground}, {found:.2f}", found >= least, True
                        )

    def test_each_colour_has_a_name_that_was_looked_at(self):
        light, dark, _, others = colours()
        known = {
            *TEXTS,
            *DRAWN,
            *(name for table in (TEXTS, DRAWN) for names in table.values() for name in names),
        }
        self.expect("names of colours", set(light), known)
        own = {name for name in light if not light[name].startswith("var(")}
        self.expect(
            "colours that have one in light and another in dark",
            {name for name in light if dark[name] != light[name]},
            own,
        )
        self.expect(
            "grounds", set(re.findall(r"background: *var\(--([a-z]+)\)", others)), set(TEXTS)
        )
        written = set(re.findall(r"(?<![-\w])color: *var\(--([a-z]+)\)", others))
        self.expect(
            "colours of texts", written, {name for names in TEXTS.values() for name in names}
        )
        values = [word for found in re.findall(COLOURED, others) for word in found.split()]
        self.expect("there are coloured rules", len(values) > 30, True)
        self.expect(
            "colours without a name",
            [word for word in values if not re.fullmatch(NO_COLOUR, word)],
            [],
        )
