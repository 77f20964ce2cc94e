"""Pages and letters are made from templates of jinja2.

A page escapes what it is given, a letter does not; an unknown name is an error.

A template says its sentences itself, by `say` and `say_number`. One that pages and letters share
uses what both have, as the filters `paragraph` and `given`. The templates of a package are in its
folder `templates`; those that all packages share are in that of debvote_tools.
"""

import base64
import functools
import hashlib
import importlib.util
import pathlib
import re
import textwrap
from collections.abc import Callable, Iterable
from typing import TYPE_CHECKING

from markupsafe import Markup

from debvote_tools.text.language import ENGLISH, Language, marked
from debvote_tools.text.motions import WORDS
from debvote_tools.text.times import date_in_words, time_in_words

if TYPE_CHECKING:
    import jinja2

# jinja2 takes as long to be imported as all else: that is left to who makes a page or a letter, but
# a command that lacks it stops before it does anything
if importlib.util.find_spec("jinja2") is None:
    raise ModuleNotFoundError("No module named 'jinja2'", name="jinja2")

# two numbers of which a page leaves none alone on a line
COMPARED = re.compile(r"\{over\}[\w ]+\{under\}")

# mail programs leave lines of this length as they are
COLUMNS = 72


class InHtml(Language):
    """A language that says sentences in HTML, and escapes what is put into them."""

    # a text that may be written from right to left turns nothing around it
    FORMS = {
        "given": "<bdi>{}</bdi>",
        "strong": "<b>{}</b>",
        "exact": "<code>{}</code>",
        # the browser adds the quotation marks of the language
        "quoted": "<q><bdi>{}</bdi></q>",
        "link": '<a href="{}">{}</a>',
    }

    def made(self, text: str) -> Markup:
        return Markup(COMPARED.sub(lambda found: found[0].replace(" ", "\u00a0"), text))


def one_line(text: str) -> str:
    """A text on one line, without characters that steer."""
    return "".join(character if character.isprintable() else " " for character in text)


# ---- templates
# most letters of a run have the same paragraphs
@functools.lru_cache(maxsize=1_000)
def line(text: str, first: str = "", then: str = "") -> str:
    """A paragraph of a letter without the end of its last line. A long word stays whole."""
    return textwrap.fill(
        text,
        COLUMNS,
        initial_indent=first,
        subsequent_indent=then,
        break_long_words=False,
        break_on_hyphens=False,
    )


# a paragraph, one of several lines in a row, and a line to be copied
PAGE_FILTERS: dict[str, Callable[..., str]] = {
    "paragraph": Markup("<p>{}</p>").format,
    "line": Markup("<p>{}</p>").format,
    "copied": Markup("<pre><code>{}</code></pre>").format,
}
LETTER_FILTERS: dict[str, Callable[..., str]] = {
    "paragraph": lambda text, first="", then="": f"{line(text, first, then)}\n",
    "line": line,
    "copied": "  {}\n".format,
    "heading": lambda text: f"{text.upper()}\n",
}


@functools.cache
def templates_of(package: str, language: Language, *, is_page: bool) -> "jinja2.Environment":
    """The templates of a package, and those that all share, which say sentences in the language."""
    import jinja2

    speaker = InHtml(language.code, language.catalog) if is_page else language
    environment = jinja2.Environment(
        loader=jinja2.ChoiceLoader(
            [jinja2.PackageLoader(package), jinja2.PackageLoader("debvote_tools")]
        ),
        autoescape=is_page,
        undefined=jinja2.StrictUndefined,
        trim_blocks=True,
        lstrip_blocks=True,
        keep_trailing_newline=True,
        # a run compiles each template, and this would take longer than it saves
        optimized=False,
    )
    environment.filters |= PAGE_FILTERS if is_page else LETTER_FILTERS
    forms = {name: functools.partial(speaker.formed, name) for name in speaker.FORMS}
    for names, place in (
        ("number numbers", environment.filters),
        ("say say_number say_each joined", environment.globals),
    ):
        place |= forms | {name: getattr(speaker, name) for name in names.split()}
    environment.globals |= {
        "is_page": is_page,
        "marked": marked,
        "motion_words": WORDS[language.code],
        "time_in_words": functools.partial(time_in_words, language=language),
        "date_in_words": functools.partial(date_in_words, language=language),
    }
    return environment


def render_letter(package: str, template: str, language: Language, **values: object) -> str:
    """A letter in plain text, with one empty line between paragraphs."""
    text = templates_of(package, language, is_page=False).get_template(template).render(values)
    return re.sub(r"\n\n\n+", "\n\n", text).strip("\n") + "\n"


# ---- pages
def resources(package: str, *names: str) -> str:
    """Styles or scripts, one after another: files of a package, or else of debvote_tools."""
    shared = pathlib.Path(__file__).parent.parent
    places = [shared / package.partition(".")[2], shared]
    files = (
        next(filter(pathlib.Path.is_file, (place / name for place in places))) for name in names
    )
    return "".join(file.read_text(encoding="utf-8") for file in files)


def render_page(
    package: str,
    template: str,
    language: Language,
    *,
    style: str,
    script: str = "",
    line: str = "",
    sends: bool = False,
    is_plain: bool = False,
    **values: object,
) -> bytes:
    """A page; one that `is_plain` has its own style alone. It loads nothing, and runs its own
    script alone, and a line before it if it has one, which its policy names by checksum. One that
    `sends` does so to its own host alone.
    """
    style = style if is_plain else style_of(style, language)
    scripts = [text for text in (line, script) if text]
    policy = policy_of(checksum_source(style), map(checksum_source, scripts), sends=sends)
    made = {"style": Markup(style), "scripts": [*map(Markup, scripts)], "policy": Markup(policy)}
    page = templates_of(package, language, is_page=True).get_template(template)
    return page.render(values | made | {"language": language.code}).encode()


def style_of(style: str, language: Language) -> str:
    """The whole style of a page."""
    style = resources("debvote_tools", "page.css") + style
    # words may be longer than a narrow window
    return style if language == ENGLISH else style + resources("debvote_tools", "long_words.css")


def policy_of(style: str, scripts: Iterable[str], *, sends: bool) -> str:
    """What a page may load and do, by the sources of its style and of its scripts."""
    run = " ".join(scripts)
    allowed = f"script-src {run}; " if run else ""
    connects = "connect-src 'self'; " if sends else ""
    return f"default-src 'none'; {allowed}style-src {style}; {connects}base-uri 'none'; form-action 'none'"


def checksum_source(text: str) -> str:
    """How the policy of a page allows a script or a style that is in it."""
    return f"'sha256-{digest_of(text)}'"


def digest_of(text: str) -> str:
    return base64.b64encode(hashlib.sha256(text.encode()).digest()).decode()
