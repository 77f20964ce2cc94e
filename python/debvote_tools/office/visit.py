"""A request, with the election and the command that it is about, and its answer, such as a page."""

import contextlib
import dataclasses
import functools
import pathlib
import re
import tempfile
from collections.abc import Mapping, Sequence
from http import HTTPStatus
from typing import Any, NamedTuple

import jinja2

from debvote_tools.call.tellers import ON_PAPER
from debvote_tools.election import Election
from debvote_tools.office import runs
from debvote_tools.office.office import Office
from debvote_tools.text.language import LANGUAGES, Language, language_of
from debvote_tools.text.rendering import templates_of

PACKAGE = "debvote_tools.office"

# fields by their names, each with its values
Form = Mapping[str, Sequence[str]]

DESKS = range(1, 9)

# in seconds, how long a page waits for a command; then it says that it runs
PATIENCE = 1.5


class Refused(Exception):
    """A request that is not answered."""

    def __init__(self, status: HTTPStatus = HTTPStatus.NOT_FOUND) -> None:
        self.status = status


class Answer(NamedTuple):
    body: bytes
    kind: str = "text/html"
    status: HTTPStatus = HTTPStatus.OK
    heads: Mapping[str, str] = {}


@dataclasses.dataclass
class Visit:
    """A request that may be answered. Whose secret it has says which `room` is open to it; of the
    page `letters/7` the route is `letters/`, and the rest `7`.
    """

    office: Office
    room: str
    route: str
    rest: str
    query: Form
    form: Form = dataclasses.field(default_factory=dict)
    # what is closed at its end
    opened: contextlib.ExitStack = dataclasses.field(default_factory=contextlib.ExitStack)
    # the folders of what it brought, for the command that it starts
    uploads: list[pathlib.Path] = dataclasses.field(default_factory=list)

    # ---- what it is about
    @property
    def number(self) -> int:
        """The number of one of several pages; 0 if the page is none of them."""
        return number_of(self.rest)

    @property
    def desk(self) -> int:
        if self.number not in DESKS:
            raise Refused()
        return self.number

    @property
    def own_run(self) -> runs.Run:
        """The command of the page."""
        if self.number not in self.office.runs:
            raise Refused()
        return self.office.runs[self.number]

    @functools.cached_property
    def election(self) -> Election:
        if self.office.folder is None:
            raise Refused()
        self.opened.enter_context(self.office.reading)
        election = self.office.election_in(self.office.folder)
        self.opened.callback(election.open_book.connection.close)
        return election

    def close(self) -> None:
        """Closes the election until it is read again: while a command is waited for, others
        read.
        """
        vars(self).pop("election", None)
        self.opened.close()

    @property
    def language(self) -> Language:
        return language_of(self.office.code)

    # ---- commands
    def run(self, name: str) -> runs.Run | None:
        """The command that the address names, if it is there: `run`, to show what it asks,
        `done`, that has led to the page, or `again`.
        """
        return self.office.runs.get(number_in(self.query, name))

    @property
    def done(self) -> runs.Run | None:
        run = self.run("done")
        return run if run and run.place.endswith(f"?done={run.number}") else None

    def wait(self, run: runs.Run) -> None:
        """Waits for a command, for a while."""
        self.close()
        run.wait(PATIENCE)

    def new_folder(self) -> pathlib.Path:
        self.uploads.append(pathlib.Path(tempfile.mkdtemp(dir=self.office.own)))
        return self.uploads[-1]

    def kept(self, given: str, data: bytes) -> str:
        """Where a file lies that was uploaded, with a plain name like its own."""
        plain = re.sub(r"[^\w.-]", "_", pathlib.PureWindowsPath(given).name)
        file = self.new_folder() / (plain.lstrip(".-")[-80:] or "letters")
        file.write_bytes(data)
        return str(file)

    # ---- what follows
    @property
    def base(self) -> str:
        return f"/{self.office.rooms[self.room]}/"

    def see(self, place: str) -> Answer:
        """Another page follows, so that to load it again sends nothing again."""
        heads = {"Location": f"{self.base}{place}"}
        return Answer(b"", "text/plain", HTTPStatus.SEE_OTHER, heads)

    def page(self, name: str, status: HTTPStatus = HTTPStatus.OK, **values: Any) -> Answer:
        """A page that is made of a template."""
        values |= {
            "visit": self,
            "base": self.base,
            "folder": self.office.folder,
            "language": self.language.code,
            "place": name,
        }
        templates = templates_in(self.language)
        macros = vars(templates.get_template("macros.html").make_module(values))
        page = templates.get_template(f"{name}.html").render(values | macros)
        return Answer(page.encode(), status=status)


@functools.cache
def templates_in(language: Language) -> jinja2.Environment:
    """The templates of the office, and those of the result, whose panel it shows."""
    environment = templates_of(PACKAGE, language, is_page=True)
    assert environment.loader
    loaders = [environment.loader, jinja2.PackageLoader("debvote_tools.result")]
    made = environment.overlay(loader=jinja2.ChoiceLoader(loaders))
    made.globals |= {
        "languages": LANGUAGES,
        "on_paper": ON_PAPER,
        "replies_in": runs.replies_in,
    }
    return made


def number_of(text: str) -> int:
    """A number from 1; 0 if it is none."""
    return int(text) if re.fullmatch("[0-9]{1,9}", text) else 0


def number_in(form: Form, name: str) -> int:
    return number_of(first(form, name))


def first(form: Form, name: str) -> str:
    values = form.get(name, ())
    return values[0] if values else ""
