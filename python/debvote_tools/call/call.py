"""What a call says as it is now, as one value, and the files that are made from it."""

import dataclasses
import datetime
import functools
import re
import urllib.parse
from collections.abc import Callable, Iterable, Mapping
from typing import Any

from debvote_tools.book import queries
from debvote_tools.book.book import Detail
from debvote_tools.book.queries import Elector
from debvote_tools.call import box
from debvote_tools.call.form import PACKAGE, OF_BOX, script_of_form, style_of_form, tellers_script
from debvote_tools.call.tellers import files_beside, fingerprints, script_line
from debvote_tools.election import LETTER_TEXT, Election, History, Sealed
from debvote_tools.files import sha256_of
from debvote_tools.poll.questions import Questions
from debvote_tools.poll.sealed import SealedPoll, in_brackets
from debvote_tools.text.language import Language, marked
from debvote_tools.text.rendering import render_letter, render_page

# a first line that greets: it ends as one does, or begins so in one of the languages
GREETING = re.compile(
    r"\s*(?:[^\n]*[,:!][ \t]*$|(?:dear|hello|hi|good|liebe|sehr geehrte|hallo|guten|cher|ch\u00e8re|bonjour"
    r"|madame|mesdames|messieurs|estimad|querid|\u00a1?hola|buen)\w*\b)",
    re.IGNORECASE | re.MULTILINE,
)

SUBJECT = marked("Ballot: {title}")


# the sentences of the script on the page
SENTENCES = marked(
    {
        "subject": SUBJECT,
        "type_name": "Type your name.",
        "on_roll": "On the roll: {names}",
        "not_on_roll": "{name} is not on the roll of this poll; the names on the roll are below.",
        "no_name": "Names on the roll have only small letters without accents, digits, points and hyphens, and at most 32 of them.",
        "rank_missing": "Give at least one option a rank.",
        "more": "Read on",
        "selected": "The line is selected. Copy it with Ctrl+C, or Cmd+C on a Mac; on a telephone hold a finger on it.",
        "copied": "The line is copied.",
    }
)
OF_TELLERS = marked(
    {
        "sealed_to": "Sealed to {name} {fingerprint}: compare with your letter.",
        "number": "Your number: {number}. Write it down, show it to nobody. In the result it has to "
        "stand beside your ranks. If you vote again, the new one holds.",
        "perhaps": "If it arrived, your number is {number}. Write it down, show it to nobody.",
    }
)
OF_SEVERAL = marked(
    {
        "some_answered": "{number} of {count} answered; not {questions}",
        "all_answered": "{number} of {count} answered",
    }
)


@dataclasses.dataclass(frozen=True)
class CallData:
    """What a call says. The same value makes the same files."""

    language: Language
    # those that are public: in a secret vote under aliases
    questions: Questions
    # how many electors have to prefer an option to the default option, by question
    quorum_votes: Mapping[str, int]
    # the end as it is now
    until: datetime.datetime | None
    # the mail address for ballots, and the web address of this page, where the result will be
    to: str | None
    at: str | None
    # the real names by the names on the roll; None if they will not be published
    real_names: Mapping[str, str] | None
    is_signed: bool
    # beside the page a script keeps the ballots that it sends, if there is a key, which makes the
    # links to it
    box_key: bytes
    # in a secret vote with such a page: electors get their codes on slips
    has_slips: bool
    # what the secretary writes at the head of letters to electors; empty without it
    letter_text: str
    # in a secret vote with names on the roll: ballots are published under aliases
    has_aliases: bool
    # the roll has codes in place of names, so the poll is published with the result alone
    has_codes_on_roll: bool
    # codes were given out with a call that was taken back
    has_lapsed_codes: bool
    # the script beside the page takes no ballots now, as letters say
    is_without_box: bool = False
    # the points of the tellers by their names, if the page seals ballots to them
    tellers: Mapping[str, str] = dataclasses.field(default_factory=dict)

    @property
    def is_by_name(self) -> bool:
        """Whether ballots are public under the names of their electors."""
        return not (self.has_aliases or self.has_codes_on_roll)

    @property
    def needs_own_mark(self) -> bool:
        """Whether a letter to the address for ballots needs the own mark of its elector."""
        return not (self.to is None or self.is_signed or self.has_codes_on_roll)

    @property
    def has_box(self) -> bool:
        return self.box_key != b""

    @property
    def is_by_click(self) -> bool:
        """Whether electors are asked to vote by a click alone: in a secret vote an e-mail can be
        read.
        """
        return self.has_box and not self.is_by_name

    @property
    def is_extended(self) -> bool:
        """Whether the end is not the one that the poll was sealed with, which the call said at
        first.
        """
        return self.until is not None and self.until != self.questions.deadline_time

    @property
    def roll(self) -> tuple[str, ...]:
        return self.questions.roll if self.is_by_name else ()

    @functools.cached_property
    def mark(self) -> str:
        return self.mark_of("")

    def mark_of(self, own: str) -> str:
        """What ends the subject of a letter of an elector with this own mark."""
        return in_brackets(self.questions.mark, own)

    def link_of(self, elector: Elector | None) -> str | None:
        """The address of the page, as the personal link of an elector whose own mark may be
        told.
        """
        is_linked = self.is_by_name or self.has_box
        if elector is None or not (elector.mark and self.at and is_linked):
            return self.at
        link = f"{elector.name}/{elector.mark}"
        if self.has_box:
            link = box.personal_link(self.box_key, elector.name, elector.mark)
        return f"{self.at}#{link}"

    @property
    def fingerprints(self) -> str:
        return fingerprints(self.tellers)

    @property
    def teller_checksum(self) -> str:
        """Of the page with which tellers open ballots."""
        from debvote_tools.call.teller_page import teller_checksum

        return teller_checksum(self.language)

    @property
    def page(self) -> str:
        """What this page posts with each ballot."""
        return box.page_of(self.box_key, self.questions.mark)

    @property
    def public_key(self) -> str:
        """The key to which this page seals ballots."""
        from debvote_tools.call.sealed_ballots import key_pair

        return key_pair(self.box_key, self.questions.mark)[0]

    @property
    def mail_to(self) -> str:
        """The address of a letter with a ballot, as a link without its subject; empty if ballots
        are sent otherwise.
        """
        return "" if self.to is None else f"mailto:{urllib.parse.quote(self.to, safe='@')}"

    @property
    def mail_to_with_subject(self) -> str:
        subject = f"{self.language.say(SUBJECT, title=self.questions.name)} {self.mark}"
        return f"{self.mail_to}?subject={urllib.parse.quote(subject)}"

    @functools.cached_property
    def answers_in_words(self) -> Callable[[str], str]:
        return self.questions.in_words(self.language)

    @property
    def has_greeting(self) -> bool:
        """Whether the secretary's own words begin with a greeting."""
        return GREETING.match(self.letter_text) is not None

    @property
    def explanations(self) -> dict[str, list[tuple[int, list[str]]]]:
        """Of each question that has any."""
        polls = self.questions.items()
        return {label: found for label, poll in polls if (found := explanations_of(poll))}

    @property
    def name_gap(self) -> str:
        """What the page of a secret vote has in place of the name, which an elector writes into the
        letter alone.
        """
        return "CODE" if self.has_codes_on_roll else "NAME"

    def form_of(self, name: str) -> list[str]:
        """A ballot with gaps in place of the ranks, where an elector is to write them: one line, or
        the name and each answer with its label.
        """
        return re.split(" (?=[A-Z] )", self.questions.line(name, lambda *_: "_"))

    @property
    def roll_file(self) -> str:
        """The place of a poll, each of which has the roll."""
        return next(iter(self.questions.files))


def numbered_options(names: Iterable[str], language: Language) -> dict[int, str]:
    """Options as parts of a sentence, by their numbers, which do not run into the names."""
    return {
        number: language.say("Option {number}: {name}", number=number, name=name)
        for number, name in enumerate(names, start=1)
    }


def explanations_of(poll: SealedPoll) -> list[tuple[int, list[str]]]:
    """The texts of the options, in paragraphs, each with the number of its option. They are not the
    program's words.
    """
    texts = enumerate(poll.explanations, start=1)
    return [(number, paragraphs_of(text)) for number, text in texts if text.strip()]


def paragraphs_of(text: str) -> list[str]:
    return [lines for lines in re.split(r"\n(?:[ \t]*\n)+", text.strip("\n")) if lines.strip()]


# ---- the files
def call_letter(call: CallData, *, is_extension: bool = False) -> str:
    """The letter of the call to all, with a gap in place of a name; or that about a later end: the
    old one, the new one, and that all else is as it was.
    """
    return render_letter(
        PACKAGE,
        "call.txt",
        call.language,
        call=call,
        elector=None,
        is_extension=is_extension,
        is_whole=call.at is None,
        are_texts_elsewhere=False,
        is_on_paper=False,
        is_titled=False,
    )


def call_page(call: CallData) -> bytes:
    styles = list[str]()
    scripts = list[str]()
    sentences = dict(SENTENCES)
    if call.questions.is_several:
        styles += ["questions.css"]
        sentences |= OF_SEVERAL
    if call.has_box:
        styles += OF_BOX
        scripts += ["bytes.js", "sealing.js", "box.js"]
        sentences |= box.SENTENCES | (box.SECRET_SENTENCES if call.is_by_click else {})
    if call.tellers:
        sentences |= OF_TELLERS
    return render_page(
        PACKAGE,
        "page.html",
        call.language,
        style=style_of_form(*styles),
        script=tellers_script() if call.tellers else script_of_form(*scripts),
        line=script_line(call.tellers) if call.tellers else "",
        sends=call.has_box,
        call=call,
        script_words=call.language.words(sentences),
    )


def call_files(call: CallData) -> dict[str, bytes]:
    """The files of a call by name, the checksums last. The polls are the sealed ones, byte for
    byte; if they have codes, they stay out.
    """
    files = {"index.html": call_page(call), "call.txt": call_letter(call).encode()}
    if not call.has_codes_on_roll:
        files |= call.questions.files
    if call.tellers:
        files |= files_beside(call.tellers)
    checksums = "".join(f"{sha256_of(files[name])}  {name}\n" for name in sorted(files))
    return files | {"SHA256SUMS": checksums.encode()}


# ---- as it is now
def current_call(
    election: Election,
    history: History | None = None,
    said: Detail | None = None,
    sealed: Sealed | None = None,
) -> CallData:
    """What the page and the letter say as it is now, and with what an act would say or seal."""
    now = history or election.history()
    saying = said or {}
    sealed = sealed or election.sealed()

    def value_of(key: str) -> Any:
        return saying.get(key) or now.announced(key)

    return CallData(
        language=election.language,
        questions=sealed.public,
        quorum_votes=value_of("quorum_votes"),
        until=until_of(saying) or now.until,
        to=value_of("to"),
        at=value_of("at"),
        real_names={elector.name: elector.who for elector in queries.electors(election.book)}
        if value_of("names")
        else None,
        is_signed=bool(value_of("signed")),
        box_key=box.key_of(election.book) if value_of("box") else b"",
        has_slips=value_of("slips") != "no",
        letter_text=queries.sealed(election.book, LETTER_TEXT).decode(),
        has_aliases=sealed.is_aliased,
        has_codes_on_roll=now.has_codes_on_roll,
        has_lapsed_codes=any(act.detail.get("codes") for act in now.named("take back")),
        tellers=dict(value_of("tellers") or {}),
    )


def until_of(said: Detail) -> datetime.datetime | None:
    """The end that the command line names."""
    return datetime.datetime.fromisoformat(said["until"]) if "until" in said else None
