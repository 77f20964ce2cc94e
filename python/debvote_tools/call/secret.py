"""Secret votes: codes and their slips, aliases of published ballots, the random line of a close."""

import csv
import hmac
import io
import re
import secrets
from collections.abc import Collection, Iterable, Mapping, Sequence

from debvote_tools.book.queries import Elector
from debvote_tools.call.call import CallData
from debvote_tools.call.form import PACKAGE
from debvote_tools.cli.faults import Fault
from debvote_tools.files import sha256_of
from debvote_tools.poll.codes import codes_in
from debvote_tools.poll.questions import Questions
from debvote_tools.poll.sealed import OWN_LENGTH, OWN_SIGNS, new_own_mark, with_roll
from debvote_tools.text.ballots import in_normal_form
from debvote_tools.text.rendering import render_page, resources

# what an elector types to find their alias; the first asks for both, so that no history of commands
# keeps the code
BY_PYTHON = (
    "python3 -I -c \"import hmac; print(hmac.new(input('Code: ').replace(' ', '').encode(), "
    "input('Name: ').encode(), 'sha256').hexdigest()[:32])\""
)
BY_OPENSSL = "printf %s NAME | openssl dgst -sha256 -hmac CODE -r | cut -c1-32"

# how many rows of slips fit on a side, by the lines of each, which have at least so many columns
ROWS = {4: 20, 3: 27, 2: 40}
COLUMNS = 45

# what is on the roll of a published secret poll: an alias, or a code in place of a name
ON_PUBLIC_ROLL = re.compile(rf"[0-9a-f]{{32}}|[{OWN_SIGNS}]{{{OWN_LENGTH}}}")

# a spreadsheet takes such a text for a number, and writes it in another way
NUMBER = re.compile(r"\d*e?\d*")

# what a spreadsheet runs at the start of a cell, full-width characters too; a telephone number may
# begin with a plus
FORMULA = re.compile(
    r"(^|[,;\t|])(?=[\s\u200b\ufeff]*(?:[=@\uff1d\uff20]|[+\uff0b\uff0d-](?![\d\s()./-]*(?:[,;\t|]|$))))"
)


# ---- codes
def new_code(name: str) -> str:
    """Draws 16 random bytes in hex digits, until no spreadsheet takes code or alias for a
    number.
    """
    while True:
        code = secrets.token_hex(16)
        if not NUMBER.fullmatch(code) and not NUMBER.fullmatch(alias_of(code, name)):
            return code


def codes_for_roll(count: int) -> list[str]:
    """Draws codes that stand on the roll in place of names, in their order. People type them, so
    they have the signs of own marks.
    """
    codes = set[str]()
    while len(codes) < count:
        if not NUMBER.fullmatch(code := new_own_mark()):
            codes.add(code)
    return sorted(codes)


def demand_no_code(name: str, data: bytes, codes: Collection[str]) -> None:
    """Stops if a file for everybody would have a code: the list of codes may be one of the
    texts.
    """
    if codes and not codes_in(data.decode("utf-8", "replace")).isdisjoint(codes):
        reason = f"{name} would have the code of an elector in it"
        raise Fault(None, reason, "check the texts that you gave")


def codes_csv(call: CallData, electors: Iterable[Elector]) -> bytes:
    """The table of the codes, for a spreadsheet or a mail merge. With several questions it has no
    aliases: each elector has one for each. The mark, which ends the subject of an answer, the call
    makes.
    """
    text = io.StringIO()
    table = csv.writer(text, lineterminator="\n")
    alias = [] if call.questions.is_several else ["alias"]
    heads = ["name", "who", "mail", "code", *alias, "mark"]
    table.writerow(heads)
    for elector in electors:
        mark = call.mark_of(elector.mark) if elector.mark else ""
        cells = elector._asdict() | {"mail": " ".join(elector.addresses), "mark": mark}
        table.writerow(harmless(cells[head]) for head in heads)
    return text.getvalue().encode()


def harmless(cell: str) -> str:
    """A cell on one line, with an apostrophe before what a spreadsheet would run."""
    return FORMULA.sub(r"\1'", " ".join(cell.splitlines()))


def slips(call: CallData, electors: Sequence[Elector]) -> bytes:
    """The page of slips, to be cut. With codes on the roll the name is the code."""
    return render_page(
        PACKAGE,
        "slips.html",
        call.language,
        style=resources(PACKAGE, "slips.css"),
        call=call,
        electors=electors,
        rows=rows_of(lines_of_slip(call, electors)),
    )


def rows_of(lines: float) -> int:
    """How many rows of slips with so many lines fit on a side."""
    return next((rows for rows, most in ROWS.items() if lines <= most), 1)


def lines_of_slip(call: CallData, electors: Sequence[Elector]) -> float:
    """About how many lines a slip has, rather more. Two short options stand beside each other."""
    longest = max((elector.who for elector in electors), key=len, default="")
    polls = call.questions.values()
    form = call.form_of(f"{'':32}")
    # the head of each of several questions, and its answer in the form
    heads = [poll.name for poll in polls] if call.questions.is_several else []
    texts = (call.questions.name, longest, call.at or "", call.to or "", *form, *heads)
    more = sum(len(text.encode()) // COLUMNS for text in texts) + 2 * len(heads)
    options = [len(name.encode()) for poll in polls for name in poll.names]
    return 17 + more + sum(0.5 if long <= 20 else long // COLUMNS + 1 for long in options)


def blank_slips(call: CallData, number: int) -> bytes:
    """The page of slips for a vote with tellers, with no name, link or mark on them."""
    [poll] = call.questions.values()
    lines = 9 + len(poll.name.encode()) // COLUMNS
    lines += sum(len(name.encode()) // COLUMNS + 2 for name in poll.names)
    return render_page(
        PACKAGE,
        "blank_slips.html",
        call.language,
        style=resources(PACKAGE, "slips.css"),
        poll=poll,
        number=number,
        rows=rows_of(lines),
    )


# ---- aliases
def alias_of(code: str, name: str) -> str:
    """The first 32 hex digits of HMAC-SHA-256, with the code's text as key and the name as
    message.
    """
    return hmac.new(code.encode(), name.encode(), "sha256").hexdigest()[:32]


def alias_in(label: str, elector: Elector) -> str:
    """The alias of an elector in a question, so that no two questions have the same one; of an
    elector whose name on the roll is a code, that name.
    """
    return (
        alias_of(elector.code, f"{label} {elector.name}".strip()) if elector.code else elector.name
    )


def aliased(questions: Questions, electors: Sequence[Elector]) -> Questions:
    """The polls with aliases on their rolls, sorted, so that their order tells no name."""
    polls = {}
    for label, poll in questions.items():
        aliases = {elector.name: alias_in(label, elector) for elector in electors}
        polls[label] = with_roll(poll, sorted(aliases[name] for name in poll.roll))
    return Questions(polls, questions.title)


def aliased_ballots(standing: Mapping[str, str], aliases: Mapping[str, str]) -> bytes:
    """The current ballots, from ranks by name, in the order of the aliases. Ranks such as 17,33,99
    would be a mark by which a buyer of votes finds the ballot again.
    """
    return "".join(
        sorted(f"{aliases[name]} {in_normal_form(ranks)}\n" for name, ranks in standing.items())
    ).encode()


def seal_line() -> str:
    """Draws the random line that the checksum of the close covers: without it few ballots could be
    guessed from the checksum.
    """
    return secrets.token_hex(16)


def sealed_checksum(seal: str, ballots: bytes) -> str:
    """The checksum of the ballots that the close publishes; in a secret vote that of the seal's
    line, followed by the ballots.
    """
    return sha256_of((f"{seal}\n".encode() if seal else b"") + ballots)
