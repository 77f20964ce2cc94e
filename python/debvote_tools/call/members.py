"""The list of members, a table; the roll that it becomes, and what may change after the call.

The table is CSV with a comma, semicolon or tab, in UTF-8 or UTF-16.
"""

import codecs
import csv
import io
import itertools
import re
import unicodedata
from collections.abc import Iterable, Iterator, Mapping, Sequence
from typing import NamedTuple

from debvote_tools.book.queries import Elector
from debvote_tools.cli.console import listed, shown_text, steering
from debvote_tools.cli.faults import Fault, stop_at
from debvote_tools.files import kind_of
from debvote_tools.grouping import grouped, several
from debvote_tools.poll.plain_names import (
    ELECTOR_LIMIT,
    alike,
    elector_name,
    is_elector_name,
    made_different,
)
from debvote_tools.text.addresses import ADDRESS, address_key
from debvote_tools.text.language import marked

DELIMITERS = {",": "comma", ";": "semicolon", "\t": "tab"}
# longer than a file that is read, so that a cell has no limit of its own
CELL_LIMIT = 67_108_864
SAVE_AS = "save it again as CSV in UTF-8"
LINE_END = rb"\r\n?|\n"

AGAIN = "then run debvote-election roll again"

# the heads of each column, small letters alone, the preferred ones first
HEADS = {
    "who": "who, vorname nachname, vorname name, firstname lastname, prenom nom, nombre apellidos, name, nom, nombre",
    "mail": "mail, email, emailadresse, emailaddress, courriel, correo, correoelectronico",
    "name": "name",
    "key": "key",
}
REQUIRED = ("who", "mail")
WORDS_OF_HEADS = {*re.findall(r"\w+", " ".join(HEADS.values()))}

# what is told of a member that changes
TOLD = marked(("name", "who", "address", "key"))

# the file that `new` writes
NEW_MEMBERS = "who,mail\n"

# the fingerprint of a key of OpenPGP
FINGERPRINT = re.compile(r"[0-9A-F]{40}")

# a mail program writes an address within < and >
IN_BRACKETS = re.compile(r"<([^<>]*)>")
BETWEEN_ADDRESSES = re.compile(r"[\s,;]+")

# the first cell of a row with a sum
SUM = re.compile(
    r"(?:(?:grand |sub)?totale?s?|sum|(?:gesamt|zwischen)?summe|gesamt|insgesamt|anzahl|somme|suma)[ :=]*[\d.,]*"
)

# what programs write where they lost a character
LOST = "\ufffd"

# in electors
ROLL_LIMIT = 10_000

# how many a fault names
NAMED_LIMIT = 10


# the line where a row begins, from 1, and its cells
Row = tuple[int, list[str]]


class Member(NamedTuple):
    """A row of the list."""

    line: int
    name: str
    who: str
    addresses: tuple[str, ...]
    key: str
    # the same person in the book
    known: Elector | None = None
    # the whole name that was proposed, if one was
    proposal: str = ""

    @property
    def is_new(self) -> bool:
        """Whether they are not on the roll yet, or no longer."""
        return self.known is None or self.known.position is None

    @property
    def changes(self) -> dict[str, tuple[str, str]]:
        """What differs from the book, of an elector on the roll: before, and now."""
        if self.known is None or self.is_new:
            return {}
        return {
            field: (was, now)
            for field, was, now in zip(TOLD, told_of(self.known), told_of(self))
            # without the case of letters an address is the same
            if was != now and (field != "address" or address_key(was) != address_key(now))
        }


def told_of(person: Member | Elector) -> tuple[str, ...]:
    """What a list says of somebody: the values of `TOLD`."""
    return person.name, person.who, ", ".join(person.addresses), person.key


def label_of(person: Member | Elector) -> str:
    return f"{person.name} ({shown_text(person.who)})" if person.who else person.name


def elector_in_words(person: Member | Elector) -> str:
    """The name on the roll, the real name and the addresses."""
    return f"  {person.name}: {shown_text(person.who)} {', '.join(person.addresses)}".rstrip()


# the line if there is one, what is wrong with it, and the cure
Wrong = tuple[int | None, str, str]


class Roll(NamedTuple):
    """The members in the order of the list, after the call in that of the sealed poll."""

    electors: Sequence[Member]
    # electors of the last list who are not on this one
    gone: Sequence[Elector] = ()


# ---- the table
def bad_list(file: object, reason: str, cure: str) -> Fault:
    return Fault(file, reason, f"{cure}, {AGAIN}", done=None)


def delimiter_of(text: str) -> str:
    """The delimiter that finds most heads in the head line; else the one that it has most often."""
    head_line = next((line for line in re.split(r"[\r\n]+", text) if line.strip(' \t,;"')), "")
    fitness = dict[str, tuple[int, int]]()
    for delimiter in DELIMITERS:
        cells = csv.reader([head_line], delimiter=delimiter, skipinitialspace=True)
        heads = {head.strip().casefold() for head in next(cells, [])}
        fitness[delimiter] = len(heads & WORDS_OF_HEADS), head_line.count(delimiter)
    return max(fitness, key=fitness.__getitem__)


def rows_of(text: str, delimiter: str, file: object) -> list[Row]:
    """The rows that are not blank, the head line first. A quotation mark after spaces begins a
    cell, too.
    """
    csv.field_size_limit(CELL_LIMIT)
    lines = io.StringIO(text, newline="")
    reader = csv.reader(lines, delimiter=delimiter, strict=True, skipinitialspace=True)
    rows: list[Row] = []
    line = 1
    try:
        for cells in reader:
            if any(map(str.strip, cells)):
                rows.append((line, cells))
            line = reader.line_num + 1
    except csv.Error as error:
        reason = f"the row that begins here is not a row of cells with a {DELIMITERS[delimiter]} between them ({error})"
        cure = "close each quotation mark, and put nothing between it and the delimiter"
        raise bad_list(f"{file}:{line}", reason, cure) from None
    if not rows:
        raise bad_list(file, "it is empty", "write the header line, and a line for each row")
    return rows


def table_text(data: bytes, file: object) -> str:
    """The text of a file, by its mark; without one it is in UTF-8."""
    if (kind := kind_of(data)) is not None:
        raise bad_list(file, f"it is {kind}, not CSV", f"open it in the spreadsheet and {SAVE_AS}")
    is_utf_16 = data.startswith((codecs.BOM_UTF16_LE, codecs.BOM_UTF16_BE))
    if b"\0" in data and not is_utf_16:
        reason = "it is not text in UTF-8, nor in UTF-16 with a byte-order mark"
        raise bad_list(file, reason, SAVE_AS)
    try:
        return data.decode("utf-16" if is_utf_16 else "utf-8-sig")
    except UnicodeDecodeError as error:
        if is_utf_16:
            reason = "it begins as text in UTF-16, but the rest is not"
            raise bad_list(file, reason, SAVE_AS) from None
        number = len(re.split(LINE_END, error.object[: error.start]))
        line = re.split(LINE_END, error.object)[number - 1]
        seen = shown_text(line.decode("cp1252", "replace"))
        reason = f"it is not in UTF-8, but perhaps in Latin-1: {seen}"
        raise bad_list(f"{file}:{number}", reason, SAVE_AS) from None


# ---- the members
def members_of(data: bytes, file: object) -> tuple[list[Member], list[Wrong]]:
    """The members as the table has them, and what is wrong with them. Raises `Fault` if it has not
    the right columns.
    """
    text = table_text(data, file)
    delimiter = delimiter_of(text)
    head_row, *rows = rows_of(text, delimiter, file)
    heads = [re.sub(r"[\W_]", "", alike(name)) for name in head_row[1]]
    columns = columns_of(heads)
    stop_at(faults_of(file, wrong_heads(head_row, heads, columns)))
    # up to the last column that has a head
    width = max(index for index, head in enumerate(heads, start=1) if head)
    members = list[Member]()
    wrong = list[Wrong]()
    for line, cells in rows:
        members.append(member_of(line, dict(zip(heads, cells)), columns))
        wrong += wrong_row(cells, members[-1], width, delimiter)
    if not members:
        cure = "write a line for each member below the header line"
        wrong.append((None, "there is nobody on it", cure))
    return members, wrong


def columns_of(heads: Sequence[str]) -> dict[str, list[str]]:
    """The heads of each column, of those that the table has."""
    columns = dict[str, list[str]]()
    for column, choices in HEADS.items():
        free = {*heads}.difference(*columns.values())
        for choice in map(str.split, choices.split(", ")):
            if free.issuperset(choice):
                columns.setdefault(column, choice)
    return columns


def wrong_heads(
    head_row: Row, heads: Sequence[str], columns: Mapping[str, Sequence[str]]
) -> Iterator[Wrong]:
    line, names = head_row
    for head in itertools.chain(*columns.values()):
        if heads.count(head) > 1:
            yield line, f"the header line has the column `{head}` twice", "rename one of them"
    if missing := [f"`{column}`" for column in REQUIRED if column not in columns]:
        has = ", ".join(f"`{shown_text(name)}`" for name in names if name.strip())
        reason = f"the header line has no column {' and no column '.join(missing)}; it has {has or 'none'}"
        cure = "put the real names under `who` and the addresses under `mail`; a column `name`, with names on the roll, is optional"
        yield line, reason, cure


def faults_of(file: object, wrong: Iterable[Wrong]) -> list[Fault]:
    return [
        bad_list(f"{file}:{line}" if line else file, reason, cure) for line, reason, cure in wrong
    ]


def member_of(
    line: int, by_head: Mapping[str, str], columns: Mapping[str, Sequence[str]]
) -> Member:
    """The member of a line, from its cells, each on one line; those that it lacks are empty."""
    cells = {}
    for column, heads in columns.items():
        text = " ".join(by_head.get(head, "") for head in heads)
        cells[column] = unicodedata.normalize("NFC", " ".join(text.split()))
    addresses = IN_BRACKETS.findall(cells["mail"]) or BETWEEN_ADDRESSES.split(cells["mail"])
    each_once = dict.fromkeys(
        address.strip().removeprefix("mailto:") for address in addresses if address.strip()
    )
    key = "".join(cells.get("key", "").split()).upper()
    return Member(line, cells.get("name", ""), cells["who"], tuple(each_once), key)


def wrong_row(cells: Sequence[str], member: Member, width: int, delimiter: str) -> Iterator[Wrong]:
    line = member.line
    first = next(filter(None, map(str.strip, cells)))
    if SUM.fullmatch(first.casefold()) and not any(map(ADDRESS.fullmatch, member.addresses)):
        yield line, f"`{shown_text(first)}` is a sum and no member", "take the line out"
        return
    for cell in (member.who, member.name, member.key, *member.addresses):
        if delimiter == "," and ";" in cell:
            cure = "put a comma between the cells of this line too, or take the semicolon out"
            reason = f"`{shown_text(cell)}` has a semicolon, and the header line has commas between its cells"
            yield line, reason, cure
        if LOST in cell:
            reason = f"`{shown_text(cell)}` has lost a character when it was saved (U+FFFD)"
            yield line, reason, "write the character again"
    if beyond := next(filter(None, map(str.strip, cells[width:])), None):
        reason = f"`{shown_text(beyond)}` is after the last column of the header line"
        yield line, reason, "put quotation marks around a cell that contains the delimiter"
    yield from wrong_member(member)


def wrong_member(member: Member) -> Iterator[Wrong]:
    line = member.line
    if not member.who and not member.name:
        yield line, "it has no `who`", "write who it is, or take the line out"
    if odd := steering(member.who):
        reason = f"`{shown_text(member.who)}` has the character {odd}, which controls a terminal or turns text around"
        yield line, reason, "take it out"
    if member.name and not is_elector_name(member.name):
        cure = f"write 1 to {ELECTOR_LIMIT} of a to z, 0 to 9, point and hyphen under `name`, or leave it empty"
        yield line, f"`{shown_text(member.name)}` cannot be a name on the roll", cure
    for address in member.addresses:
        if not ADDRESS.fullmatch(address) or steering(address) is not None:
            reason = f"`{shown_text(address)}` is not a mail address"
            yield line, reason, "put it right, or take it out"
    if member.key and not FINGERPRINT.fullmatch(member.key):
        cure = "write all 40 digits of it (0 to 9 and A to F; spaces may be between), as gpg --fingerprint shows them"
        yield line, f"`{shown_text(member.key)}` is not the fingerprint of a key", cure


# ---- the roll
def roll_of(
    data: bytes, file: object, known: Sequence[Elector], language: str, *, is_called: bool
) -> Roll:
    """The roll of a list; `known` are all electors of the book. After the call only addresses and
    keys may change. Raises all faults at once.
    """
    members, wrong = members_of(data, file)
    electors = with_proposals(with_known(members, known), known, language)
    kept = {elector.known for elector in electors}
    gone = [person for person in known if person.position is not None and person not in kept]
    wrong += [*wrong_names(members, electors), *wrong_groups(electors)]
    if electors and is_called:
        wrong += wrong_after_call(electors, gone)
    stop_at(faults_of(file, wrong))
    if is_called:
        electors.sort(key=lambda elector: (elector.known and elector.known.position) or 0)
    return Roll(electors, gone)


def with_known(members: Sequence[Member], known: Sequence[Elector]) -> list[Member]:
    """Finds each member in the book: by the name on the roll, else by `who`, among those on the
    roll, else among all. Nobody is found if several fit.
    """
    found: dict[int, Elector] = {}
    on_roll = [elector for elector in known if elector.position is not None]
    for field, candidates in itertools.product(("name", "who"), (on_roll, known)):
        unfound = grouped(
            (getattr(member, field), member) for member in members if member.line not in found
        )
        taken = {*found.values()}
        free = grouped((getattr(one, field), one) for one in candidates if one not in taken)
        for text, electors in free.items():
            fitting = unfound.get(text, [])
            if text and len(fitting) == len(electors) == 1:
                found[fitting[0].line] = electors[0]
    return [
        member._replace(name=member.name or found[member.line].name, known=found[member.line])
        if member.line in found
        else member
        for member in members
    ]


def with_proposals(
    electors: Sequence[Member], known: Sequence[Elector], language: str
) -> list[Member]:
    """Proposes a name for each who has none, from `who` or an address."""
    proposed = []
    for elector in electors:
        texts = [elector.who, *(address.partition("@")[0] for address in elector.addresses)]
        wholes = (elector_name(text, language) for text in texts if not elector.name)
        proposed.append(elector._replace(proposal=next(filter(None, wholes), "")))
    taken = [*(elector.name for elector in electors), *(elector.name for elector in known)]
    proposals = filter(None, (elector.proposal for elector in proposed))
    bases = [proposal[:ELECTOR_LIMIT].rstrip("-") for proposal in proposals]
    names = iter(made_different(bases, taken, ELECTOR_LIMIT, "-"))
    return [
        elector._replace(name=next(names)) if elector.proposal else elector for elector in proposed
    ]


def wrong_names(members: Sequence[Member], electors: Sequence[Member]) -> Iterator[Wrong]:
    """Names that are missing, or not clearly of one person."""
    nameless = {member.line for member in members if not member.name}
    owners = {elector.who: elector for elector in reversed(electors)}
    for group in several((elector.who, elector) for elector in electors).values():
        if lines := [elector.line for elector in group if elector.line in nameless]:
            reason = f"{lines_in_words(group)} have the same `who`: {shown_text(group[0].who)}"
            cure = (
                "give each a name of their own under `name`, or take a line out if it is one person"
            )
            yield lines[0], reason, cure
    for line, name, who, _, _, known, _ in electors:
        if known is not None and known.name == name and known.who not in ("", who):
            if owner := owners.get(known.who):
                whose = f"{shown_text(owner.who)} (line {owner.line})"
                yield line, f"`{name}` is the name of {whose} already", "write another name"
        if who and not name:
            reason = f"no name can be made from {shown_text(who)} or an address"
            yield line, reason, "write one under `name`"


def wrong_groups(electors: Sequence[Member]) -> Iterator[Wrong]:
    """Names and keys that several have, and too many members."""
    for name, group in several((elector.name, elector) for elector in electors).items():
        reason = f"{lines_in_words(group)} have the same name: {shown_text(name)}"
        yield group[1].line, reason, "give each a different name, or take a line out"
    for group in several((elector.key, elector) for elector in electors).values():
        reason = f"{lines_in_words(group)} have the same key"
        yield group[1].line, reason, "leave it only on the line of its owner"
    if len(electors) > ROLL_LIMIT:
        reason = f"it has {len(electors)} members; at most {ROLL_LIMIT} are allowed"
        yield None, reason, "take some out"


def wrong_after_call(electors: Sequence[Member], gone: Sequence[Elector]) -> Iterator[Wrong]:
    cure = "put the list back as it was: after the call only addresses and keys may change"
    others: dict[str, Sequence[Member | Elector]] = {
        "missing": gone,
        "new": [elector for elector in electors if elector.is_new],
    }
    for state, people in others.items():
        if people:
            yield None, f"{state}: {listed(list(map(label_of, people)), NAMED_LIMIT)}", cure
    for elector in electors:
        for field, (before, _) in elector.changes.items():
            if field in ("name", "who"):
                yield elector.line, f"{label_of(elector)} was {shown_text(before)}", cure


def lines_in_words(electors: Sequence[Member]) -> str:
    return f"lines {listed([str(elector.line) for elector in electors], NAMED_LIMIT)}"
