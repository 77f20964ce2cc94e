"""What is asked of the book about electors, envelopes and letters, and the rows that acts add.

What is sealed, and sources, are asked for here, too. `entered`, `ballot` and what is so `_now` are
views of `schema.sql`, what became of envelopes those of `views.sql`.
"""

import collections
import datetime
import json
import sys
from collections.abc import Collection, Iterable, Iterator, Mapping, Sequence, Set
from typing import Final, NamedTuple

from debvote_tools.book.book import Book, NewAct, as_text, from_text
from debvote_tools.grouping import grouped
from debvote_tools.text.ballots import Ballot, answers_text


# ---- electors
class Elector(NamedTuple):
    """An elector as the book has them now. `position` is that in the list of members, if any."""

    number: int
    name: str
    position: int | None
    who: str
    addresses: tuple[str, ...]
    key: str = ""
    code: str = ""
    alias: str = ""
    mark: str = ""


def all_electors(book: Book) -> list[Elector]:
    """All whom the book knows, those who are no longer on the list first. They are read again only
    if somebody has changed the book.
    """
    state = book.last_number(), book.connection.total_changes
    if book.electors_at[0] != state:
        rows = book.rows("SELECT * FROM elector_now ORDER BY position")
        # all lists of addresses at once: one after the other takes five times as long
        mails = json.loads(f"[{','.join(row[4] for row in rows)}]")
        found = [Elector._make([*row[:4], tuple(mail), *row[5:]]) for row, mail in zip(rows, mails)]
        book.electors_at = state, found
    return list(book.electors_at[1])


def electors(book: Book) -> list[Elector]:
    """The electors on the list, in its order."""
    return [elector for elector in all_electors(book) if elector.position is not None]


def new_elector(name: str) -> Elector:
    """An elector whom the book does not know, and so without a number; not yet on the list."""
    return Elector(0, name, None, "", ())


def put_electors(act: NewAct, electors: Iterable[Elector]) -> None:
    """Puts electors as they are now; those without a number get one."""
    rows = [
        (
            number or act.insert("elector", name=name),
            position,
            who,
            json.dumps(addresses, ensure_ascii=False),
            *others,
        )
        for number, name, position, who, addresses, *others in electors
    ]
    act.insert_all("elector_state", "elector, position, who, mail, key, code, alias, mark", rows)


# ---- what is sealed
def sealed(book: Book, name: str, number: int | None = None) -> bytes:
    """What was sealed under a name by the last act that did so; nothing if none did."""
    query = """
      SELECT coalesce((
        SELECT data FROM sealed WHERE name = ?1 AND act = coalesce(?2, act) ORDER BY act DESC LIMIT 1
      ), x'')
    """
    return bytes(book.value(query, name, number))


def first_act_that_sealed(book: Book, name: str, data: bytes) -> int:
    """The first act that sealed this under a name; 0 if none did."""
    query = "SELECT coalesce(min(act), 0) FROM sealed WHERE name = ? AND data = ?"
    return int(book.value(query, name, data))


def sealed_polls(book: Book, name: str, number: int) -> dict[str, bytes]:
    """The polls that an act sealed under a name, by their labels, which are behind it."""
    query = """
      SELECT ltrim(substr(name, length(?1) + 1)), data FROM sealed
      WHERE act = ?2 AND (name = ?1 OR name GLOB ?1 || ' ?') ORDER BY name
    """
    return dict(book.rows(query, name, number))


def labels_of(book: Book) -> list[str]:
    """The labels of the questions, as lines have them; an empty one if there is one question, or
    the book shows one alone.
    """
    polls = "(name = 'poll' OR name GLOB 'poll ?')"
    rows = book.rows(
        f"SELECT ltrim(substr(name, 5)) FROM sealed WHERE {polls} AND act = (SELECT max(act) "
        f"FROM sealed WHERE {polls}) ORDER BY name"
    )
    return [""] if book.label or not rows else [label for label, in rows]


def each_question_alone(book: Book) -> Iterator[str]:
    """The labels of the questions, each while the book shows that question alone."""
    for label in labels_of(book):
        with book.question(label):
            yield label


def files_sealed(book: Book, folder: str) -> dict[str, int]:
    """The files of a folder that were ever sealed, by name, each with the last act that did so."""
    query = """
      SELECT substr(name, length(?1) + 2), max(act) FROM sealed WHERE name GLOB ?1 || '/*' GROUP BY name
    """
    return dict(book.rows(query, folder))


class OwnMark(NamedTuple):
    """The elector of an own mark, and until when they had it; None if they have it now."""

    elector: str
    until: datetime.datetime | None = None


def own_marks(book: Book) -> dict[str, OwnMark]:
    """The own marks that electors have, or had."""
    query = """
      SELECT mark, name, (
        SELECT min(time) FROM elector_state AS later JOIN act USING (act)
        WHERE later.elector = state.elector AND later.act > state.act AND later.mark <> state.mark
      ) FROM elector_state AS state JOIN elector USING (elector) WHERE mark <> ''
    """
    return {
        mark: OwnMark(name, from_text(end) if end else None) for mark, name, end in book.rows(query)
    }


def last_act_that_sealed(book: Book, name: str) -> int:
    """The last act that sealed something under a name; 0 if none did."""
    return int(book.value("SELECT coalesce(max(act), 0) FROM sealed WHERE name = ?", name))


def acts_since(book: Book, number: int) -> list[tuple[int, str]]:
    """Number and name of each act after the one of this number."""
    return book.rows("SELECT act, name FROM act WHERE act > ? ORDER BY act", number)


# ---- envelopes
class Envelope(NamedTuple):
    """A line that was entered, valid or not, in its envelope. The number is the envelope's, which
    it keeps, and decides: of an elector's valid lines in time the one with the greatest counts.
    """

    number: int
    act: int
    # the elector whose name the line begins with
    elector: int | None
    line: bytes
    source: int | None
    letter: int | None
    place: str
    time: datetime.datetime
    is_late: bool
    # the act that struck it: a `strike`, or the `undo` that took its act back
    struck: int | None
    # why debvote refuses the line; None of a ballot
    why_refused: str | None = None
    # what became of it, as the view `fate` says: it counts if any of its answers does
    became: str = "counts"
    # the same of each answer, by the label of its question
    by_question: Mapping[str, str] = {}

    @property
    def is_struck(self) -> bool:
        return self.struck is not None


# ---- which of two ballots of an elector is the later one
# the number of a ballot that has no envelope yet: it will be greater than all
NEXT: Final = sys.maxsize


class TimedBallot(NamedTuple):
    """A ballot that was entered in time and is not struck, or that goes in or is passed over: its
    time, in whole seconds, whether it came by letter, by how many seconds the clock was behind that
    gave it, and its envelope.
    """

    time: datetime.datetime
    ballot: Ballot
    is_by_letter: bool = False
    behind: int = 0
    number: int = NEXT
    # of a click in a vote with tellers what is sealed to them: the line of each is the same
    block: str = ""

    def may_turn(self, other: "TimedBallot") -> bool:
        """Whether by the clock of this computer it may stand on the other side of another
        ballot.
        """
        ours, theirs = (one.time + datetime.timedelta(seconds=one.behind) for one in (self, other))
        are_other = self.block != other.block or self.ballot.differs(other.ballot)
        return (self.time < other.time) != (ours < theirs) and are_other

    @property
    def answers(self) -> Mapping[str, str]:
        """By the labels of the questions, what two ballots that are alike have in common."""
        return {"": self.ballot.line + self.block} if self.block else self.ballot.ranks

    @property
    def labels(self) -> Set[str]:
        """The labels of the questions that the ballot answers."""
        return self.ballot.ranks.keys()


def by_time(ballot: TimedBallot) -> tuple[datetime.datetime, int]:
    """The order in which one ballot is later than another: by their times; of the same time, by
    their envelopes. A letter has the time at which it arrived, or was signed; a line, and a letter
    of which that is not known, has that of the act that entered it.

    Which ballot counts the envelopes alone decide (`fate` in `views.sql`). So what is entered
    may not replace a later ballot unless the secretary says so: all who look for one compare by
    this. Of lines that came in one file, the one above is the older one.
    """
    return ballot.time, ballot.number


# ---- envelopes by conditions
# what was entered in time, and came after a time (?1): of a letter when it arrived, also if the
# clock of its web host was ahead, and by its device, of a line when it was entered, before an act
# (?2)
CAME_AFTER = """envelope IN (
  SELECT envelope FROM ballot WHERE letter IS NULL AND time > ?1 AND act < ?2 OR letter IN (
    SELECT letter FROM letter
    WHERE unixepoch(known ->> 'arrived') + min(0, known ->> 'behind') > unixepoch(?1)
      AND unixepoch(coalesce(known ->> 'sent', known ->> 'arrived')) > unixepoch(?1)
  )
)"""

# what came in files of lines. If what comes now is not late (?1), a late line did not come: it is
# entered again
IN_FILES = "source IS NOT NULL AND letter IS NULL AND envelope NOT IN taken_back AND (?1 OR envelope NOT IN late)"

# number and line of the ballot that counted of each elector when an act (?1) was done, as if there
# were no lines of another one (?2)
COUNTED = """SELECT elector, max(envelope), line FROM came_valid
WHERE act <= ?1 AND act <> ?2 AND (struck IS NULL OR struck > ?1) AND {} GROUP BY elector"""
# in place of an act: what counts now
NOW: Final = sys.maxsize

COLUMNS = "envelope, act, elector, line, source, letter, place, time, late, struck, answer, became"


def envelopes(book: Book, condition: str = "1", *values: object) -> list[Envelope]:
    """The envelopes that meet a condition, in their order, with what became of each."""
    rows = book.rows(f"SELECT {COLUMNS} FROM fate WHERE {condition} ORDER BY envelope", *values)
    found = [
        Envelope._make([*row[:7], from_text(row[7]), bool(row[8]), *row[9:], {"": row[-1]}])
        for row in rows
    ]
    if labels_of(book) == [""]:
        return found
    by_number = collections.defaultdict[int, dict[str, str]](dict)
    for label in each_question_alone(book):
        query = f"SELECT envelope, became FROM fate WHERE {condition}"
        for number, became in book.rows(query, *values):
            by_number[number][label] = became
    return [with_answers(envelope, by_number[envelope.number]) for envelope in found]


def with_answers(envelope: Envelope, became: Mapping[str, str]) -> Envelope:
    """An envelope with several answers, of which this became: it counts if one does."""
    whole = "counts" if "counts" in became.values() else envelope.became
    return envelope._replace(became=whole, by_question=became)


def lost(book: Book) -> list[Envelope]:
    """The ballots that were entered and do not count any more since an `undo`, as the view says; of
    several questions if one of their answers does not.
    """
    query = "SELECT envelope FROM lost"
    gone = {(number, label) for label in each_question_alone(book) for number, in book.rows(query)}
    chosen = "envelope IN (SELECT value FROM json_each(?))"
    ballots = envelopes(book, chosen, json.dumps([number for number, _ in gone]))
    return [
        one._replace(
            by_question={
                label: became
                for label, became in one.by_question.items()
                if (one.number, label) in gone
            }
        )
        for one in ballots
    ]


def undone_acts(book: Book) -> set[int]:
    """The acts whose lines an `undo` took back."""
    return {act for act, in book.rows("SELECT act FROM envelope WHERE envelope IN taken_back")}


def lines(book: Book, condition: str, *values: object) -> list[bytes]:
    """The line of each envelope that meets a condition, in their order."""
    query = f"SELECT line FROM fate WHERE {condition} ORDER BY envelope"
    return [line for line, in book.rows(query, *values)]


def lines_to_count(book: Book) -> list[bytes]:
    """What debvote counts from: the line of each envelope that is in time and not struck, in their
    order; also those that it refuses, or that a later one replaces.
    """
    return [line for line, _ in lines_with_refusals(book)]


def lines_with_refusals(book: Book) -> list[tuple[bytes, str | None]]:
    """The lines that debvote counts from, each with why it is refused; None of a ballot."""
    return book.rows("SELECT line, answer FROM ballot ORDER BY envelope")


def has_come(book: Book, since: int) -> bool:
    query = "SELECT 1 FROM (SELECT act FROM envelope UNION ALL SELECT act FROM letter) WHERE act > ? LIMIT 1"
    return bool(book.rows(query, since))


def strike_envelopes(act: NewAct, numbers: Iterable[int]) -> None:
    act.insert_all("struck", "envelope", ((number,) for number in numbers))


class NewEnvelope(NamedTuple):
    """A line that goes in: see `Envelope`. Without a time of its own it has that of the act."""

    line: bytes
    place: str = ""
    source: int | None = None
    letter: int | None = None
    time: datetime.datetime | None = None
    why_refused: str | None = None


def add_envelopes(
    act: NewAct, new: Iterable[NewEnvelope], electors: Iterable[int | None], *, is_late: bool
) -> None:
    """Enters lines, each with the elector with whose name it begins."""
    now = as_text(act.time)
    rows = (
        (elector, line, place, source, letter, as_text(time) if time else now, int(is_late), why)
        for elector, (line, place, source, letter, time, why) in zip(electors, new)
    )
    act.insert_all("envelope", "elector, line, place, source, letter, time, late, answer", rows)


def entered_by(book: Book, number: int) -> tuple[int, set[int], list[tuple[bytes, str | None]]]:
    """What an act entered: the number of its first envelope, the electors, and the lines, each with
    why debvote refuses it.
    """
    query = "SELECT envelope, elector, line, answer FROM envelope WHERE act = ? ORDER BY 1"
    rows = book.rows(query, number)
    electors = {elector for _, elector, *_ in rows if elector is not None}
    return rows[0][0] if rows else 0, electors, [(line, why) for _, _, line, why in rows]


def last_envelope(book: Book) -> int:
    """The number of the last envelope; 0 if there is none."""
    return int(book.value("SELECT coalesce(max(envelope), 0) FROM envelope"))


def elector_numbers(book: Book, names: Collection[str]) -> dict[str, int]:
    query = "SELECT name, elector FROM elector WHERE name IN (SELECT value FROM json_each(?))"
    return dict(book.rows(query, json.dumps(list(names))))


def whose(book: Book, line: bytes) -> str:
    """The name with which a line begins; empty if nobody on the roll has it."""
    name = line.partition(b" ")[0].decode("ascii", "replace")
    return "".join(elector_numbers(book, [name]))


class EnteredBallot(NamedTuple):
    """A ballot of a letter that was entered, and what became of it. One that an `undo` took back is
    struck, too.
    """

    number: int
    ballot: Ballot
    is_late: bool
    is_struck: bool
    is_taken_back: bool
    # by `held --as`
    is_typed: bool


def entered_ballots(book: Book, letters: Sequence[int]) -> dict[int, list[EnteredBallot]]:
    """The ballots of some letters that were entered, in the order of their envelopes, by the
    letters.
    """
    query = """
      SELECT letter, envelope, CAST(line AS TEXT), late, struck IS NOT NULL, envelope IN taken_back, envelope IN typed
      FROM entered WHERE letter IN (SELECT value FROM json_each(?)) ORDER BY envelope
    """
    rows = book.rows(query, json.dumps(letters))
    return grouped(
        (letter, EnteredBallot(number, Ballot(line), *fate)) for letter, number, line, *fate in rows
    )


# ---- lines by act, and those that came in files
# the lines of more electors are not looked for one by one
MOST_LOOKED_FOR = 200


def last_entering_act(book: Book) -> int:
    """The last act that entered lines of which one is not struck; 0 if there is none."""
    return int(book.value("SELECT coalesce(max(act), 0) FROM entered WHERE struck IS NULL"))


def of_electors(electors: Collection[int] | None) -> tuple[str, Sequence[str]]:
    """The condition that an envelope is of one of these electors, or of anybody, with its
    values.
    """
    if electors is None:
        return "1", ()
    # with the sign SQLite uses no index: to look for the lines of each of many takes longer than to
    # look at all lines
    sign = "+" if len(electors) > MOST_LOOKED_FOR else ""
    return f"{sign}elector IN (SELECT value FROM json_each(?))", [json.dumps([*electors])]


def names_and_lines(book: Book) -> list[tuple[int, str | None, bytes]]:
    """The number of each envelope, the name of the elector for whom it is kept, and its line."""
    return book.rows(
        "SELECT envelope, name, line FROM envelope LEFT JOIN elector USING (elector) ORDER BY envelope"
    )


def envelope_states(book: Book, elector: int | None) -> list[tuple[int, int | None]]:
    """The numbers of an elector's envelopes, each with the act that struck it."""
    return book.rows(
        "SELECT envelope, struck FROM entered WHERE elector = ? ORDER BY envelope", elector
    )


def envelopes_of(
    book: Book, electors: Collection[int] | None, condition: str = "1"
) -> list[Envelope]:
    """The envelopes of some electors, or all, that meet a condition."""
    some, values = of_electors(electors)
    return envelopes(book, f"{condition} AND {some}", *values)


def ballots_of(book: Book, names: Collection[str]) -> dict[str, list[TimedBallot]]:
    """The ballots of some electors by name, in the order `by_time`: those that were entered in time
    and are not struck. What is late is later than nothing.
    """
    some, values = of_electors(elector_numbers(book, names).values())
    # nothing is known of the clock of what came by no letter, or at a time that is not known
    query = f"""
      SELECT name, time, CAST(line AS TEXT), behind IS NOT NULL, coalesce(behind, 0), envelope, coalesce(block, '')
      FROM valid JOIN elector USING (elector) LEFT JOIN (
        SELECT letter, known ->> 'behind' AS behind, known ->> 'block' AS block
        FROM letter WHERE known ->> 'arrived' IS NOT NULL
      ) USING (letter) WHERE {some} ORDER BY time, envelope
    """
    rows = book.rows(query, *values)
    return grouped(
        (name, TimedBallot(from_text(time), Ballot(line), *others))
        for name, time, line, *others in rows
    )


def what_counts(
    book: Book, electors: Collection[int] | None = None, *, at: int = NOW, without: int = 0
) -> dict[str, str]:
    """What counts now of each elector who has a valid ballot, or of some, or counted when an act
    was done, as if there were no lines of another one: by name the answers, as `ranks_by_label`
    reads them.
    """
    some, values = of_electors(electors)
    by_name = collections.defaultdict[str, dict[str, str]](dict)
    for label in each_question_alone(book):
        for _, _, line in book.rows(COUNTED.format(some), at, without, *values):
            name, _, ranks = line.decode("ascii").partition(" ")
            by_name[name][label] = ranks
    return {name: answers_text(answers) for name, answers in by_name.items()}


class Numbers(NamedTuple):
    """What a sheet says of the lines in time that are not struck."""

    lines: int
    valid: int
    refused: int
    # the electors with a valid ballot
    voters: int


def numbers(book: Book) -> Numbers:
    """The numbers by the verdicts that the book keeps."""
    voters = "count(DISTINCT CASE WHEN answer IS NULL THEN elector END)"
    query = f"SELECT count(*), count(*) - count(answer), count(answer), {voters} FROM ballot"
    return Numbers(*book.rows(query)[0])


def lines_that_came(book: Book, is_late: bool) -> collections.Counter[bytes]:
    """How often each line came in a file of lines that no `undo` took back, for lines that are late
    now, or in time.
    """
    query = f"SELECT line, count(*) FROM entered WHERE {IN_FILES} GROUP BY line"
    return collections.Counter(dict(book.rows(query, is_late)))


def came_in_files(book: Book, is_late: bool) -> dict[bytes, list[Envelope]]:
    """The envelopes that came in files of lines, by their line; struck and late ones come last."""
    came = envelopes(book, IN_FILES, is_late)
    came.sort(key=lambda envelope: envelope.is_late or envelope.is_struck)
    return grouped((envelope.line, envelope) for envelope in came)


def late_beside_others(book: Book) -> dict[bytes, int]:
    """The lines of the late ballots whose electors have a ballot in time with another answer, each
    with the envelope of this.
    """
    return dict(
        row
        for _ in each_question_alone(book)
        for row in book.rows("SELECT * FROM late_beside_other")
    )


def late_lines_over_others(book: Book) -> int:
    """How many late lines were entered again since the last close in place of other ballots in
    time.
    """
    query = "SELECT * FROM again_over_other"
    return len({row for _ in each_question_alone(book) for row in book.rows(query)})


def counting_envelopes(book: Book) -> dict[tuple[int, str], tuple[int, bytes]]:
    """Number and line of the envelope that counts, of each elector who has one, by question."""
    return {
        (elector, label): (number, line)
        for label in each_question_alone(book)
        for elector, number, line in book.rows(COUNTED.format("1"), NOW, 0)
    }


def size_to_count(book: Book) -> tuple[int, int]:
    """How many lines and bytes debvote counts from."""
    [(count, size)] = book.rows("SELECT count(*), coalesce(sum(length(line) + 1), 0) FROM ballot")
    return int(count), int(size)


# ---- sources
def keep_source(act: NewAct, name: str, data: bytes) -> int:
    return act.insert("source", name=name, data=data)


def sources(book: Book) -> list[tuple[int, str, bytes]]:
    """All that came: number, name, bytes."""
    return book.rows("SELECT source, name, data FROM source ORDER BY source")


# ---- letters that came
NEVER_DECIDED = "waits"
ENTERED = "entered"
TAKEN_BACK = "taken back"
STRUCK = "struck"
# acts have these names, too
SET_ASIDE: Final = "set aside"
PUT_BACK: Final = "put back"
UNSETTLED = (NEVER_DECIDED, PUT_BACK, TAKEN_BACK)


class KeptLetter(NamedTuple):
    """A letter that came. Its number is its own, which it keeps; `state` is what the last act
    decided.
    """

    number: int
    act: int
    source: int
    # what a copy of it has in common with it
    identity: str
    # the column `known`: a `ReadLetter` as JSON, which its bytes and how it came, the keyring, the
    # sealed poll and the real names decide
    read_json: str
    state: str

    @property
    def is_unsettled(self) -> bool:
        """Whether no act has settled what becomes of it: by the rules it waits, goes in or is
        passed over; after a decision that was taken back, or put back, it waits. One of which
        ballots were entered may wait, too (`may_wait`).
        """
        return self.state in UNSETTLED


def kept_letters(book: Book, condition: str = "1", *values: object) -> list[KeptLetter]:
    """The letters that meet a condition, in the order in which they came."""
    query = f"SELECT letter, act, source, identity, known, state FROM letter_now WHERE {condition} ORDER BY letter"
    return [KeptLetter(*row) for row in book.rows(query, *values)]


def kept_digests(book: Book) -> set[tuple[str, bool]]:
    """The digests of the letters that came, each with whether it may be text of another letter."""
    query = "SELECT known ->> 'digest', known ->> 'is_parted_off' FROM letter"
    return {(str(digest), bool(is_parted_off)) for digest, is_parted_off in book.rows(query)}


# in seconds: how far the clock of an elector's device may be off
DEVICE_OFF = 600


class KeptRecord(NamedTuple):
    """A record of the box that came: from which address, its digest and its link, when it was sent
    by the device of its elector, and whether the web host dates it so, too.
    """

    at: str
    digest: str
    link: str
    sent: str
    is_dated_alike: bool


def records_since(book: Book, number: int) -> list[KeptRecord]:
    """The records of the box that came since an act."""
    query = f"""
      SELECT detail ->> '$.box.at' AS at, known ->> 'digest', known ->> 'link', known ->> 'sent' AS sent,
        abs(unixepoch(known ->> 'arrived') + (known ->> 'behind') - unixepoch(known ->> 'sent')) <= {DEVICE_OFF}
      FROM letter JOIN act USING (act) WHERE act > ? AND at IS NOT NULL
    """
    return [KeptRecord(*row) for row in book.rows(query, number)]


class Click(NamedTuple):
    """A click that counts in a vote with tellers: whose it is, and what is sealed to them."""

    elector: str
    block: str
    envelope: int


def counting_clicks(book: Book, ranks: str) -> list[Click]:
    """The ballots that came by a record, and count, with these ranks: in the order in which by the
    host their electors first sent what is sealed in them, those for which it has no time last.
    """
    statement = """
      SELECT name, block, envelope FROM fate JOIN elector USING (elector)
      JOIN (SELECT letter, known ->> 'block' AS block FROM letter WHERE block <> '') USING (letter)
      LEFT JOIN (
        SELECT known ->> 'elector' AS name, known ->> 'block' AS block,
          min(unixepoch(known ->> 'arrived')) AS arrived, min(letter) AS sent
        FROM letter WHERE known ->> 'arrived' IS NOT NULL GROUP BY 1, 2
      ) USING (name, block)
      WHERE became = 'counts' AND CAST(line AS TEXT) = name || ' ' || ?
      ORDER BY arrived IS NULL, arrived, sent, envelope
    """
    return [Click(*row) for row in book.rows(statement, ranks)]


def electors_with(book: Book, ranks: str) -> set[str]:
    """The electors who have a ballot in time with these ranks, whatever came after it."""
    statement = "SELECT DISTINCT name FROM valid JOIN elector USING (elector) WHERE CAST(line AS TEXT) = name || ' ' || ?"
    return {name for name, in book.rows(statement, ranks)}


class KeptBlock(NamedTuple):
    """Who sent first what is sealed to tellers, and when it arrived by the host."""

    elector: str
    arrived: datetime.datetime
    letter: int


def first_blocks(book: Book) -> dict[str, KeptBlock]:
    """The first records of all that is sealed to tellers, by that."""
    # of the same block the first comes last
    statement = """
      SELECT known ->> 'block' AS block, known ->> 'elector', known ->> 'arrived' AS arrived, letter FROM letter
      WHERE block <> '' AND arrived IS NOT NULL ORDER BY unixepoch(arrived) DESC, letter DESC
    """
    return {
        block: KeptBlock(elector, from_text(arrived), letter)
        for block, elector, arrived, letter in book.rows(statement)
    }


def source_of(book: Book, source: int) -> bytes:
    return bytes(book.value("SELECT data FROM source WHERE source = ?", source))


def may_wait(book: Book) -> list[KeptLetter]:
    """The letters that are unsettled, or of which something may be left; and their copies."""
    condition = f"identity IN (SELECT identity FROM letter_now WHERE state IN {UNSETTLED})"
    return kept_letters(book, condition)


def may_be_told(book: Book) -> list[KeptLetter]:
    """The letters that may wait, and those of which a receipt may tell in place of a ballot: they
    were set aside, or a person chose what was entered.
    """
    unsettled = f"SELECT identity FROM letter_now WHERE state IN {UNSETTLED}"
    by_hand = "SELECT letter FROM envelope JOIN act USING (act) WHERE name = 'enter'"
    condition = (
        f"state IN {(SET_ASIDE, STRUCK)} OR identity IN ({unsettled}) OR letter IN ({by_hand})"
    )
    return kept_letters(book, condition)


def entered_pairs(book: Book, letters: Iterable[int]) -> set[tuple[int, int]]:
    """The electors with ballots that were entered of these letters."""
    query = "SELECT elector, letter FROM envelope WHERE letter IN (SELECT value FROM json_each(?))"
    return set(book.rows(query, json.dumps([*letters])))


def keep_letter(act: NewAct, where: str, data: bytes, identity: str, read_json: str) -> int:
    """Keeps a letter, byte for byte, and returns its number."""
    return act.insert(
        "letter", source=keep_source(act, where, data), identity=identity, known=read_json
    )


def decide(act: NewAct, letter: int, state: str) -> None:
    act.insert("letter_state", letter=letter, state=state)
