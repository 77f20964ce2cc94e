"""The pages by their addresses. To read one starts no command, and changes nothing."""

import pathlib
import re
from collections.abc import Callable, Mapping

from debvote_tools.cli.faults import Fault
from debvote_tools.files import read_at_most
from debvote_tools.office import acts, desks, drafts, letters, own_programs, state, views
from debvote_tools.office.office import BIG, RESULT
from debvote_tools.office.visit import DESKS, PACKAGE, Answer, Refused, Visit, first, number_in
from debvote_tools.text.rendering import resources

KINDS = {
    ".html": "text/html",
    ".css": "text/css",
    ".js": "text/javascript",
    ".svg": "image/svg+xml",
    ".json": "application/json",
}
POLICY = "Content-Security-Policy"
# of a published page, which has a policy of its own beside it, and of what is to be printed: both
# are no pages of the office, and cannot post to it. What is below the secret of the office has no
# script, which would read its own address
OF_RESULT = {POLICY: "sandbox allow-scripts allow-downloads; frame-ancestors 'none'"}
PRINTED_ONLY = {
    POLICY: "sandbox; default-src 'none'; style-src 'unsafe-inline'; frame-ancestors 'none'"
}

# what is to be printed, by its place in the folder
PRINTED = re.compile(
    r"letters/[a-z]+/\d+/to-print\.html|private/slips\.html"
    r"|private/paper\.txt|urn/(?:voted|list-\d)\.txt"
    r"|preview(?:-\d+)?/(?:index\.html|slip\.html|letter\.txt|to-print\.html)"
)
# in bytes
LARGEST_FILE = 64 * 1024 * 1024

# what all pages load
STYLES = ("page.css", "result/page.css", "fields.css", "call/ballot.css", "office.css")
LOADED = {"office.css": STYLES, "office.js": ("office.js",)}


def get(visit: Visit) -> Answer:
    """The answer to a reading."""
    name = visit.route + visit.rest
    if name in LOADED:
        return file(name, resources(PACKAGE, *LOADED[name]).encode())
    if visit.room == RESULT:
        return result(visit, name or "index.html")
    pages = {"": big} if visit.room == BIG else PAGES
    if visit.route not in pages:
        raise Refused()
    return pages[visit.route](visit)


def file(name: str, data: bytes, heads: Mapping[str, str] = {}) -> Answer:
    return Answer(data, KINDS.get(pathlib.PurePath(name).suffix, "text/plain"), heads=heads)


# ---- the overview
def overview(visit: Visit) -> Answer:
    if visit.office.folder is None:
        return visit.page("folders", folders=state.folders())
    values = views.state_of(visit.election)
    return visit.page("state", **values, own=own_programs.programs_in(visit.election))


def big(visit: Visit) -> Answer:
    return visit.page("big", **views.state_of(visit.election))


def result(visit: Visit, name: str) -> Answer:
    """A file of the folder that was published last."""
    place = views.published(visit.election, visit.election.history())
    # no other file is there, and none is named that is elsewhere
    if place is None or place / name not in place.rglob("*") or (place / name).is_dir():
        raise Refused()
    return file(name, (place / name).read_bytes(), OF_RESULT)


# ---- letters
def letters_page(visit: Visit) -> Answer:
    """The letters that wait, or one letter."""
    asking = visit.run("run")
    # what a command asks is on its own page alone
    if asking and asking.place != f"{visit.route}{visit.rest}?run={asking.number}":
        return visit.see(asking.place)
    if visit.rest:
        return visit.page(
            "letter", asking=asking, **letters.letter_of(visit.election, visit.number)
        )
    values = letters.letters_of(visit.election, number_in(visit.query, "page"))
    own = own_programs.programs_in(visit.election)
    return visit.page("letters", asking=asking, own=own, **values)


# ---- the desk
def desk(visit: Visit) -> Answer:
    if not visit.rest:
        return visit.see("desk/1")
    run = visit.office.desks.get(visit.desk)
    if run:
        visit.wait(run)
    names = {one: state.desk_name(visit.election, one) for one in DESKS}
    return visit.page("desk", run=run, names=names, **desks.desk_of(visit.election, run))


# ---- roll and draft
def roll(visit: Visit) -> Answer:
    find = first(visit.query, "find")
    page = number_in(visit.query, "page")
    return visit.page("roll", find=find, **views.roll_of(visit.election, find, page))


def draft(visit: Visit) -> Answer:
    return visit.page("draft", changed=[], **drafts.draft_of(visit.election))


# ---- commands
def all_commands(visit: Visit) -> Answer:
    return visit.page("all", phases=acts.phases(), prints=views.prints_of(visit.election))


def do(visit: Visit) -> Answer:
    command = acts.form_of(visit.rest)
    again = visit.run("again")
    return visit.page(
        "do",
        command=command,
        given=again.task.given if again else visit.query,
        # without tellers nobody types slips or lists
        is_pasting=bool(command.pasted and visit.election.history().tellers),
    )


def run(visit: Visit) -> Answer:
    """What a command wrote, and what it asks; or the page that shows that at this moment."""
    shown = visit.own_run
    visit.wait(shown)
    if shown.place != f"run/{shown.number}":
        return visit.see(shown.place)
    if shown.words[0] == "desk":
        raise Refused()
    is_over = shown.status is not None
    page = visit.page("run", run=shown, prompt=shown.prompt, previews_of=views.previews_of)
    if is_over and shown.words[0] == "show" and visit.election.questions.is_secret:
        shown.said = ""
    return page


def printed(visit: Visit) -> Answer:
    """What was made to be printed, or looked at before the call, as it is."""
    if not PRINTED.fullmatch(visit.rest):
        raise Refused()
    try:
        data = read_at_most(visit.election.path(visit.rest), LARGEST_FILE)
    except FileNotFoundError:
        raise Refused() from None
    except OSError as error:
        raise Fault(visit.rest, error.strerror, "make it again with its command") from None
    return file(visit.rest, data, PRINTED_ONLY)


PAGES: Mapping[str, Callable[[Visit], Answer]] = {
    "": overview,
    "letters": letters_page,
    "letters/": letters_page,
    "desk": desk,
    "desk/": desk,
    "roll": roll,
    "draft": draft,
    "all": all_commands,
    "do/": do,
    "run/": run,
    "print/": printed,
}
