"""The pages and the letter of a result: what fills their templates, and what their scripts say."""

import base64
import functools
import html
import json
import re
import shlex
import shutil
import subprocess
import xml.etree.ElementTree as xml
from collections.abc import Collection, Iterable, Mapping
from typing import Any, NamedTuple

from markupsafe import Markup

from debvote_tools.call.call import explanations_of, numbered_options, paragraphs_of
from debvote_tools.call.secret import BY_OPENSSL, BY_PYTHON, sealed_checksum
from debvote_tools.cli.console import seen, tell_aside
from debvote_tools.debvote import Finding
from debvote_tools.poll.plain_names import PLAIN_LETTERS, PUNCTUATION, SPELLINGS
from debvote_tools.poll.sealed import SealedPoll
from debvote_tools.result import file_names
from debvote_tools.result.facts import Outcome, VoteFacts
from debvote_tools.text.ballots import (
    EQUALLY,
    NOTHING,
    THEN,
    UNRANKED_LAST,
    ballot_lines,
    ballots_in_words,
    faults_of,
)
from debvote_tools.text.language import ENGLISH, Language, marked
from debvote_tools.text.motions import COLON, WORDS
from debvote_tools.text.rendering import InHtml, render_letter, render_page, resources
from debvote_tools.text.times import days_in_words

# what both kinds of pages have
STYLES = ("fields.css", "given.css", "page.css")
SCRIPTS = ("names.js", "find.js", "fold.js")

# in bytes; larger files are not carried by the page, and the reader chooses them. Those of a secret
# vote, which the finding of one's own ballot needs too, never come to more: a poll has at most
# 1,048,576 bytes, and each of 10,000 ballots at most 129
CARRIED_LIMIT = 4_000_000

# in bytes; if the names of the options in all ballots come to more, ballots have their numbers
# alone
NAMES_LIMIT = 3_000_000

# an option on the page: its number, which a style frames, and its name, which may be written from
# right to left, and turns nothing around it
NAMED = Markup("<i>{}</i>\u00a0<bdi>{}</bdi>")
# where no list has the numbers
NAME_ALONE = Markup("<bdi>{1}</bdi>")

# how many characters of a refused line are shown
SHOWN = 100
# and how many bytes of such lines in all, or a few more
TEXTS_LIMIT = 1_000_000

# if Graphviz takes longer, there is no picture
PICTURE_SECONDS = 60

# a graph of more options than these is too large to be read within the page, and takes Graphviz
# minutes to draw with care
MOST_IN_PAGE = 12
IN_HASTE = ["-Gsplines=line", "-Gnslimit=1", "-Gmclimit=0.1"]

# a picture becomes no smaller within the page than this share of its size, so that its words can be
# read
LEAST_SHARE = 0.75

# the width of paper, in the size of the text there
PAPER = 45

# how the name of an option begins in the picture
NUMBERED = re.compile(r"^([0-9]+) ")
# what stands at a defeat in it that was removed
REMOVED = re.compile("(?P<votes>.*), round (?P<round>[0-9]+)")

SPACE = "{http://www.w3.org/2000/svg}"
SHAPES = {SPACE + name for name in ("svg", "g", "polygon", "polyline", "ellipse", "path", "text")}


def letter_of(
    vote: VoteFacts, outcomes: Mapping[str, Outcome], checksums: Mapping[str, str]
) -> bytes:
    """The letter of the result: what an elector compares with the web site, sent by a way that does
    not lead over it. `checksums` are those of the published files, by their places.
    """
    return render_letter(
        __package__,
        "result.txt",
        vote.language,
        vote=vote,
        outcomes=outcomes,
        named=lambda poll: numbered_options(poll.names, vote.language),
        checksums=checksums,
    ).encode()


def named_in_html(poll: SealedPoll, form: Markup = NAMED) -> dict[int, Markup]:
    """The options by their numbers, as parts of a sentence on a page."""
    return {option: form.format(option, name) for option, name in enumerate(poll.names, start=1)}


def page_with(
    template: str, vote: VoteFacts, outcomes: Collection[Outcome], label: str = "", /, **values: Any
) -> bytes:
    """A page with one outcome or with all, and the script that finds a ballot in them."""
    language = vote.language
    return render_page(
        __package__,
        template,
        language,
        days=days_in_words(vote.days, language),
        colon=language.between(COLON),
        vote=vote,
        label=label,
        # what is said of the whole vote, the page of all questions has
        about=paragraphs_of("" if label else vote.words.about or ""),
        example=next((name for outcome in outcomes for name in outcome.standing), ""),
        find_words=find_words(vote, motion=any(outcome.facts.poll.motion for outcome in outcomes)),
        # how letters are spelled in the name that the roll makes of a real name
        find_letters=json.dumps(
            {**PUNCTUATION, **PLAIN_LETTERS, **SPELLINGS.get(language.code, {})}, ensure_ascii=False
        ),
        **values,
    )


def front_page_of(vote: VoteFacts, outcomes: Mapping[str, Outcome]) -> bytes:
    """The page above those of several questions."""
    return page_with(
        "front.html",
        vote,
        outcomes.values(),
        style=resources(__package__, *STYLES, "front.css"),
        script=resources(__package__, *SCRIPTS),
        outcomes=outcomes,
        named=functools.partial(named_in_html, form=NAME_ALONE),
    )


def page_of(outcome: Outcome, drawing: bytes | None, checksums: Mapping[str, str]) -> bytes:
    """The page of a question, whole."""
    facts = outcome.facts
    poll = facts.poll
    vote = facts.vote
    return page_with(
        "page.html",
        vote,
        [outcome],
        facts.label,
        script=resources(
            __package__, file_names.SCRIPT, "names.js", "count_again.js", *SCRIPTS[1:]
        ),
        plain_name=PLAIN_NAME,
        outcome=outcome,
        why=outcome.why(named_in_html(poll)),
        share=share(outcome.sheet.voters, outcome.sheet.electors, vote.language),
        because=paragraphs_of(vote.words.because or ""),
        explanations=explanations_of(poll),
        again_words=again_words(poll, vote.language),
        **picture_on_page(outcome, drawing),
        **files_on_page(outcome, checksums),
        **ballots_on_page(outcome),
    )


def picture_on_page(outcome: Outcome, drawing: bytes | None) -> dict[str, Any]:
    """The picture, unless it is too large for the page, the command that makes it, and the style
    in which it is as wide as its words need.
    """
    sheet = outcome.sheet
    options = len(sheet.names)
    style = resources(__package__, *STYLES) + table_on_paper(options, sheet.voters)
    escaping = "sed 's/&/\\&amp;/g' | " if "&" in outcome.graph else ""
    picture = None
    if drawing is not None and options <= MOST_IN_PAGE:
        picture, least_width = picture_in_page(drawing, outcome.facts.vote.language)
        # paper does not scroll, and a page with something wider would be printed smaller
        style += f"@media screen {{ .picture svg {{ min-width: {least_width}px; }} }}\n"
    return {
        "style": style,
        "picture": picture,
        "picture_command": escaping + shlex.join(drawing_command(options)),
    }


def files_on_page(outcome: Outcome, checksums: Mapping[str, str]) -> dict[str, Any]:
    """The files beside the page and those within it, and what is typed in commands about them."""
    facts = outcome.facts
    own_letter = [file_names.LETTER] if facts.vote.is_of_two_files else []
    return {
        "checksums": checksums,
        # in a secret vote that of the close has the line of the seal, too
        "sealed_checksum": facts.seal and sealed_checksum(facts.seal, facts.ballots),
        "files": sorted({*checksums, file_names.CHECKSUMS, *own_letter}),
        "carried": carried_files(outcome),
        "casting": shlex.join(facts.casting_words),
        "by_python": of_question(BY_PYTHON, facts.label),
        "by_openssl": of_question(BY_OPENSSL, facts.label),
    }


def ballots_on_page(outcome: Outcome) -> dict[str, Any]:
    """What the page of a question says of the ballots, and of the lines that do not count."""
    facts = outcome.facts
    poll = facts.poll
    language = facts.vote.language
    standing = outcome.standing
    named = named_in_html(poll)
    have_names = poll.motion or len(standing) * sum(map(len, named.values())) <= NAMES_LIMIT
    shown = (
        [html.escape(name) for name in poll.names]
        if poll.motion
        else [*map(str, named.values() if have_names else named)]
    )
    in_words_of = ballots_in_words(shown, language, poll.motion)
    lines = ballot_lines(facts.ballots)
    refused = (
        (finding.line, lines[finding.line - 1], cause_of(finding, language))
        for finding in outcome.refused
    )
    # by their places in late.txt
    late = ((place, line, "") for place, line in enumerate(facts.late or (), start=1))
    return {
        "have_names": have_names,
        # many ballots are alike
        "ballot_words": {ranks: Markup(in_words_of(ranks)) for ranks in set(standing.values())},
        "refused": runs_of(refused, language),
        "late": runs_of(late, language),
    }


def of_question(command: str, label: str) -> str:
    """A command that makes an alias: with several questions of the label, too."""
    if not label:
        return command
    asked = command.replace("input('Name: ')", f"('{label} ' + input('Name: '))")
    return asked.replace(" NAME ", f" '{label} NAME' ")


def share(voters: int, electors: int, language: Language = ENGLISH) -> str:
    """How many of the electors have voted, in per cent; only all of them are 100 %, and only none
    is 0 %.
    """
    tenths = (2000 * voters + electors) // (2 * electors)
    if 0 < voters < electors:
        tenths = min(max(tenths, 1), 999)
    if tenths % 10 == 0:
        return language.say("{whole} %", whole=tenths // 10)
    return language.say("{whole}.{tenths} %", whole=tenths // 10, tenths=tenths % 10)


# ---- lines that do not count
class LineRun(NamedTuple):
    """Lines that are alike and follow each other, with the numbers of the first and the last one.
    There is no text if those before are too many.
    """

    first: int
    last: int
    text: str | None
    cause: str


def runs_of(lines: Iterable[tuple[int, bytes, str]], language: Language) -> list[LineRun]:
    """The runs of lines, which have their numbers and causes."""
    runs = list[LineRun]()
    in_html = InHtml(language.code, language.catalog)
    shown = 0
    for number, line, cause in lines:
        text = line_on_page(line, in_html) if shown < TEXTS_LIMIT else None
        if runs and runs[-1][1:] == (number - 1, text, cause):
            runs[-1] = runs[-1]._replace(last=number)
        else:
            runs.append(LineRun(number, number, text, cause))
            shown += len(text or "")
    return runs


def cause_of(finding: Finding, language: Language) -> str:
    """Why a line is refused: in English what debvote says, which follows in brackets in others."""
    cause = f"{finding.word}: {finding.hint}"
    if language == ENGLISH:
        return cause
    return " ".join([*faults_of(cause, "", language), f"({cause})"])


def line_on_page(line: bytes, language: InHtml) -> str:
    """A line as the page shows it: characters that are not seen by their numbers, and a long line
    cut.
    """
    if not line:
        return language.say("(an empty line)")
    text = line.decode("utf-8", "backslashreplace")
    shown = Markup("<code><bdi>{}</bdi></code>").format("".join(map(seen, text[:SHOWN])))
    if len(text) <= SHOWN:
        return shown
    return language.say(
        "{text} (the first {shown} of {number} characters)",
        text=shown,
        shown=SHOWN,
        number=len(text),
    )


# ---- what its scripts say
# a word in braces is a place
PLAIN_NAME = marked("plain name, on the result sheet: {name}")

FIND = marked(
    dict(
        unread="The files of this page can't be counted: {fault}. Tell the other electors.",
        no_secret_vote="This is not how a secret vote is published: {fault}. Tell the other electors.",
        shows_others="This page shows other ballots than its files have. Tell the other electors.",
        counts="{name}: counted",
        equally=EQUALLY,
        nothing=NOTHING,
        not_ranked="Not ranked: {options}",
        line="The line: {line}",
        type_name="Type your name.",
    )
)
FIND_BY_CODE = marked(
    dict(
        no_elector="No elector has this code. Type it as it is on your slip.",
        no_ballot="The code is on the roll, and no ballot counts under it.",
        type_name="Type your code as it is on your slip.",
        type_code="A code has 10 signs, digits and small letters. Type yours as it is on your slip.",
    )
)
FIND_IN_OPEN = marked(
    dict(
        do_you_mean="Do you mean {names}?",
        uncounted="A line with this name came, and does not count: {lines}",
        no_elector="No elector has the name {name}. Type it as it is on the roll.",
        no_ballot="{name} is on the roll, and no ballot counts for this name.",
    )
)
FIND_IN_SECRET = marked(
    dict(
        no_elector="No elector of this vote has the alias {alias}. Type name and code as they are in your letter or on your slip.",
        no_ballot="Your alias is {alias}. It is on the roll, and no ballot counts under it.",
        type_name="Type your name as it is in your letter or on your slip.",
        type_code="A code has 32 digits, 0 to 9 and a to f. Type yours as it was given to you.",
        no_alias="This browser makes no alias on a page that did not come by https. Use one of the commands below.",
    )
)

COUNT_AGAIN = marked(
    dict(
        counting="Counting.",
        fault="These files cannot be counted: {fault}.",
        no_secret_vote="This is not how a secret vote is published: {why}.",
        same="The same, line for line: this count comes to {sheet}, in all its {lines} lines.",
        differs="Not the same as {sheet}: line {line} differs. There it is: {given}. By this count it is: {counted}.",
        with_feed="{line} (with a line feed at its end)",
        without_feed="{line} (without a line feed at its end)",
        sheet_published="the published sheet",
        sheet_of_page="the sheet of this page",
        sheet_chosen="the sheet that you chose",
        tell="Tell the other electors.",
        tell_if_published="If the files are as they were published, tell the other electors.",
        last="By this count the last line of the sheet is: {line}",
        casting="The sheet has a casting vote for {option}. No count shows whose it was.",
        page_same="This page shows what its files come to: how it ended, the numbers beside its bars, "
        "the names of the options, the table of "
        "votes, and each of the {ballots} ballots, by its ranks and in words. Nothing else is "
        "compared, neither the bars nor why the other "
        "options have not won.",
        page_differs="This page does not show what its files come to: {where}.",
        the_result="the result",
        the_names="the names of title and options",
        the_votes="the table of votes",
        the_ballot="the ballot of {elector}",
        the_ballots="the ballots, which are not as many",
        poll_sum="The checksum of the poll, as your letter of the call has to have it, is {sum}.",
        ballots_sum="The checksum of the ballots, as SHA256SUMS has to have it, is {sum}.",
        sealed_sum="The checksum of seal.txt and the ballots, as the letter of the close has to have it, is {sum}.",
        sum_named="This page names it too.",
        sum_not_named="This page does not name it: the files are others than those from which it was made.",
        no_sums="This browser makes no checksums of a page that did not come by https. Compare them by the commands below.",
        second="This was a second opinion, from the same web site as the page.",
        whole_sheet="The whole sheet by this count",
        choose="Choose {poll} and {ballots}, one file of each and under these names; you may add {sheet}.",
        unreadable="A file that you chose cannot be read.",
        # the sentences with which the page says options and ballots
        plain_name=PLAIN_NAME,
        equally=EQUALLY,
        unranked=UNRANKED_LAST,
        nothing=NOTHING,
    )
)


def find_words(vote: VoteFacts, *, motion: bool) -> str:
    """For the script that finds a ballot, as JSON."""
    is_secret = vote.questions.is_secret
    own = FIND_BY_CODE if vote.has_codes else FIND_IN_SECRET if is_secret else FIND_IN_OPEN
    return vote.language.words(
        FIND | own,
        **{"and": vote.language.between("{entries} and {last}")},
        **answer_words(vote.language, motion=motion),
    )


def answer_words(language: Language, *, motion: bool) -> dict[str, str]:
    """Of a motion the words of its answers, and what parts a word from the name of an option."""
    if not motion:
        return {}
    return {"answers": " ".join(WORDS[language.code]), "colon": language.between(COLON)}


def again_words(poll: SealedPoll, language: Language) -> str:
    """For the script that counts again, as JSON; it says a ballot as the page does."""
    between = {
        "then": THEN,
        "and": "{entries} and {last}",
        "colon": COLON,
        "semicolon": marked("{before}; {after}"),
    }
    return language.words(
        COUNT_AGAIN,
        **{name: language.between(text) for name, text in between.items()}
        | answer_words(language, motion=poll.motion),
    )


# ---- what the page carries
def carried_files(outcome: Outcome) -> dict[str, tuple[str, bool]]:
    """The files at the end of the page that the browser gives back byte for byte, or the sheet
    alone if they are too large.

    Each by its place (no elector's name has a capital letter) is text, or base64 if it is not
    plain: a browser changes carriage returns.
    """
    files = {"Poll-file": outcome.facts.poll.as_bytes(), "Ballots-file": outcome.facts.ballots}
    if sum(map(len, files.values())) > CARRIED_LIMIT:
        files = {}
    files["Sheet-file"] = outcome.sheet.text.encode()
    carried: dict[str, tuple[str, bool]] = {}
    for place, data in files.items():
        is_plain = re.fullmatch(rb"[\t\n\x20-\x7e]*", data) is not None
        text = (
            html.escape(data.decode(), quote=False) if is_plain else base64.b64encode(data).decode()
        )
        carried[place] = Markup(text), not is_plain
    return carried


# ---- the picture
def drawing_command(options: int) -> list[str]:
    return ["dot", "-Tsvg", *([] if options <= MOST_IN_PAGE else IN_HASTE)]


def table_on_paper(options: int, voters: int) -> str:
    """The style by which the table of votes is as wide as A4 paper at most, as page.css has its
    cells: browsers cut what is wider.
    """
    digits = len(str(max(options, voters)))
    size = (PAPER - options / 16) / (options * (0.7 * digits + 0.4) + 10)
    return f"@media print {{ table {{ font-size: {min(size, 1):.2f}rem; }} }}\n"


def pictures_of(outcomes: Iterable[Outcome]) -> list[bytes | None]:
    """The defeats of each question as a picture. Why there is none is said once."""
    pictures = list[bytes | None]()
    notes = dict[str, None]()
    for outcome in outcomes:
        try:
            pictures.append(drawn(outcome.graph, len(outcome.sheet.names)))
        except (OSError, subprocess.SubprocessError) as error:
            pictures.append(None)
            notes[f"Note: no picture: {error}"] = None
    tell_aside(*notes)
    return pictures


def drawn(graph: str, options: int) -> bytes:
    """Draws a graph. Raises OSError or SubprocessError if it can't."""
    dot = shutil.which("dot")
    if dot is None:
        raise FileNotFoundError("Graphviz (its program dot) is not installed")
    command = [dot, *drawing_command(options)[1:]]
    # Graphviz takes what is between & and ; for the name of a character
    given = graph.replace("&", "&amp;").encode()
    return subprocess.run(
        command, input=given, capture_output=True, timeout=PICTURE_SECONDS, check=True
    ).stdout


def picture_in_page(picture: bytes, language: Language) -> tuple[Markup, int]:
    """The picture within the page, and its least width there.

    It has shapes and texts alone, without the names by which Graphviz calls them: as node1, they
    may be those of electors.
    """
    svg = xml.fromstring(picture)
    translate(svg, language)
    for part in list(svg.iter()):
        part.attrib.pop("id", None)
        for child in [child for child in part if child.tag not in SHAPES]:
            part.remove(child)
    # a page measures in points of the screen, and not of paper
    for side in ("width", "height"):
        svg.set(side, svg.get(side, "0").removesuffix("pt"))
    svg.set("role", "img")
    svg.set(
        "aria-label", language.say("The defeats as a graph. The list above says the same in words.")
    )
    xml.register_namespace("", SPACE[1:-1])
    least_width = round(LEAST_SHARE * float(svg.get("width", "0")))
    return Markup(xml.tostring(svg, encoding="unicode")), least_width


def translate(svg: xml.Element, language: Language) -> None:
    """The number of an option stands apart from its name, and why it was dropped, and in which
    round a defeat was removed, is said in the language.
    """
    dropped = {"quorum": language.say("no quorum"), "majority": language.say("no majority")}
    for node in svg.iterfind(f".//{SPACE}g[@class='node']"):
        option, *causes = node.iter(f"{SPACE}text")
        option.text = NUMBERED.sub(rf"\1{language.between(COLON)}", option.text or "")
        for cause in causes:
            cause.text = dropped.get(cause.text or "", cause.text)
    for votes in svg.iterfind(f".//{SPACE}g[@class='edge']/{SPACE}text"):
        if removed := REMOVED.fullmatch(votes.text or ""):
            votes.text = language.say("{votes}, round {round}", **removed.groupdict())
