"""The text of a letter that has HTML alone: it waits, and is shown without its tags."""

import html
import re

# where a line ends
BLOCKS = frozenset("br p div tr li table blockquote h1 h2 h3 h4 h5 h6 pre".split())
# what no program shows
HIDDEN = ("style", "script")
# what begins a tag, else it is text; and its name
TAG = re.compile(r"/?([a-z!?][^\s/>]*)")
# tags between which a text is crossed out, and with which it begins to be; and what is shown there
CROSSED = re.compile(r"/?(?:s|strike|del)(?![\w-])|.*line-through")
STROKES = "~~"
# the number of a character that there is not, of which Python makes no number if it is very long
NO_CHARACTER = re.compile(r"&#\d{8,}")


def text_of_page(page: str) -> str:
    """A line for each block, with the mark of a quotation within one, and strokes where it is
    crossed out. Nothing is hidden. Takes linear time.
    """
    before, *pieces = page.split("<")
    parts = [before]
    # the tag whose content is hidden
    hidden = ""
    # how many quotations are open
    depth = 0
    for piece in pieces:
        tag, _, text = piece.partition(">")
        tag = tag.lower()
        name = TAG.match(tag)
        if hidden and not tag.startswith(f"/{hidden}"):
            continue
        if name is None:
            parts.append(f"<{piece}")
            continue
        hidden = name[1] if name[1] in HIDDEN and not tag.startswith("/") else ""
        if name[1] == "blockquote":
            depth = max(0, depth - 1) if tag.startswith("/") else depth + 1
        if name[1] in BLOCKS:
            parts.append("\n> " if depth else "\n")
        if CROSSED.match(tag):
            parts.append(STROKES)
        if not hidden:
            parts.append(re.sub(r"\s+", " ", text))
    return html.unescape(NO_CHARACTER.sub("\ufffd", "".join(parts)))
