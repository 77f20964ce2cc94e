"""The page of a teller, `teller-LANGUAGE.html`: the same bytes for every vote of a version.

It knows the pages of votes with tellers that this version makes: what is before all that varies in
them, their script and styles by digests, and the digests of their tags (`tags.txt`, which
docs/make-teller collects).
"""

import functools
import pathlib
import re

from debvote_tools import VERSION
from debvote_tools.call.form import OF_BOX, PACKAGE, style_of_form, tellers_script
from debvote_tools.cli.faults import Fault, Status
from debvote_tools.files import sha256_of
from debvote_tools.text.language import LANGUAGES, Language, language_of, marked
from debvote_tools.text.rendering import (
    checksum_source,
    digest_of,
    policy_of,
    render_page,
    resources,
    style_of,
)

# the digests of tags: what may be in a page beside its texts
TAGS = pathlib.Path(__file__).with_name("tags.txt")
FREE = re.compile(
    r' (data-title|data-mark|data-page|data-seal|data-until|data-to|aria-label)="[^"]*"'
)
NUMBERED = re.compile(r' (?:name|value|id)="[^"]*"')
# the page is short, so that people can look through it: no margins and no comments of the source
MARGIN = re.compile(r"^\s*(?:// .*\n)?", re.MULTILINE)
INNER = re.compile(r"<(style|script)>.*?</\1>", re.DOTALL)

SENTENCES = marked(
    {
        "working": "Please wait ..",
        "form": "A file is none of these, or was changed.",
        "name": "A name has only small letters without accents, digits, points and hyphens, and at most 32 of them.",
        "key": "Choose the key, or both halves of one key.",
        "page": "This is no page of a vote with tellers, byte for byte as this version makes it. A "
        "browser changes a page that it saves as complete or as a single file: save it once "
        "more, as HTML only. If it stays so, tell the secretary and all members.",
        "another": "THIS PAGE SEALS TO ANOTHER KEY: tell all members.",
        "looked": "This page seals step {step} to this key. It is as version {version} makes it. "
        "Compare its title, options and fingerprints with your letter.",
        "missing": "Choose all files.",
        "secretary": "the secretary",
        "unsigned": "The list of {name} is not signed by {name}. Do not go on.",
        "other": "{name} was given another {list} than this: {other} and {name} have to show theirs. Do not go on.",
        "count": "{name} handed on another number of ballots than came. Do not go on.",
        "counts": "{count} ballots. {clicks} members voted by a click, {paper} on paper; {spoilt} "
        "slips were spoilt: compare with the letter.",
        "by_click": "By a click:",
        "on_paper": "On paper:",
        "refused": "Refused by tellers before you:",
        "voted": "voted.txt has another number of members than there are ballots. Do not go on.",
        "checksum": "A checksum is another one. Do not go on, and tell other members.",
        "newest": "First ask whether there is a newer letter of the close.",
        "turn": "It is not the turn of this key. Next is: {name}",
        "few": "There are fewer than 5 ballots: each may be known.",
        "twice": "This key has opened another list here: a second one shows how somebody voted. Do not go on.",
        "opened": "{number} ballots opened, {refused} refused.",
        "nothing": "The file was changed, and proves nothing.",
        "left_out": "The ballot is not in list-0.txt: it is an earlier one, or was left out, which nothing proves.",
        "lost": "{name} lost the ballot: lines 1 to {step} below the first of the file show it.",
        "found": "The ballot {line} is in all {number} lists.",
    }
)


def teller_file(language: Language) -> str:
    return f"teller-{language.code}.html"


@functools.cache
def teller_page(language: Language) -> bytes:
    styles = (
        f"{code}:{digest_of(style_of(style_of_form(*OF_BOX), language_of(code)))}"
        for code in LANGUAGES
    )
    return render_page(
        PACKAGE,
        "teller.html",
        language,
        style=resources(PACKAGE, "fields.css", "teller.css"),
        is_plain=True,
        script=MARGIN.sub("", resources(PACKAGE, "bytes.js", "teller.js")),
        script_words=language.words(SENTENCES),
        before=beginning(),
        styles=" ".join(styles),
        script_digest=digest_of(tellers_script()),
        tags=" ".join(TAGS.read_text().split()),
        version=VERSION,
    )


def teller_checksum(language: Language) -> str:
    return sha256_of(teller_page(language))


def installed_page(language: Language) -> pathlib.Path:
    """Where the page lies. Stops if it is not there, or another version made it."""
    file = pathlib.Path(__file__).with_name(teller_file(language))
    if not file.is_file() or file.read_bytes() != teller_page(language):
        cure = "run make teller in a checkout, or install the package debvote again"
        raise Fault(
            file,
            "the page of the tellers is missing, or of another version",
            cure,
            Status.NOT_FOUND,
            None,
        )
    return file


def beginning() -> str:
    """What each page of a vote with tellers begins with, up to the end of its policy."""
    scripts = ["'sha256-LINE'", checksum_source(tellers_script())]
    policy = policy_of("'sha256-STYLE'", scripts, sends=True)
    head = (
        '<!DOCTYPE html>\n<html lang="LANG">\n<head>\n<meta charset="utf-8">\n<meta '
        'name="viewport" content="width=device-width, initial-scale=1">\n'
    )
    return f'{head}<meta http-equiv="Content-Security-Policy" content="{policy}">\n'


def tags_in(page: str) -> set[str]:
    """The digests of the tags behind the policy of a page, as the page of a teller compares them:
    without the values that are of a vote.
    """
    bare = INNER.sub(r"<\1></\1>", page[page.index("<title>") :])
    bare = NUMBERED.sub(lambda part: re.sub(r"\d+", "0", part[0]), FREE.sub(r' \1=""', bare))
    return {digest_of(tag)[:22] for tag in re.findall("<[^>]*>", bare)}
