"""What the tests of letters that come share: letters, circumstances, and debvote."""

import dataclasses
import datetime
import itertools
import json
import os
import re
import subprocess
import sys
from collections.abc import Callable, Collection, Iterator, Mapping, Sequence
from typing import Any, TypeVar

from debvote_tools.book import queries
from debvote_tools.book.queries import Elector, EnteredBallot, OwnMark, TimedBallot
from debvote_tools.debvote import findings_in
from debvote_tools.inbox.judging import BallotsByElector, ElectorBallots, judge_all
from debvote_tools.inbox.letter import ParsedLetter, parse
from debvote_tools.inbox.letter_lines import Names, ReadLetter, from_json, to_json, with_texts
from debvote_tools.inbox.lines import repaired_but_for_name, with_small_name
from debvote_tools.inbox.mailbox import NotRead, RawLetter
from debvote_tools.inbox.reasons import ReasonWithValues, for_secretary
from debvote_tools.inbox.rules import NOT_KEPT, Circumstances, LetterCase, Ruling
from debvote_tools.poll.questions import LONGEST_LINE
from debvote_tools.poll.sealed import in_brackets

from debvote_tools.text.answers import answer_pattern
from debvote_tools.text.ballots import Ballot

from tests.support import elections
from tests.support.program import PROGRAM, ROOT

Found = TypeVar("Found")
SAMPLES = ROOT / "tests" / "letters"
NAMES = tuple(elections.NAMES)
POLL = f"{elections.POLL}roll = {json.dumps(NAMES)}\n"
RANKS, OTHER_RANKS = "1,2,4,3", "2,1,4,3"
BALLOT, OTHER = f"ada {RANKS}", f"ada {OTHER_RANKS}"
IN = f"in: {BALLOT}"
HTML = "text/html; charset=utf-8"
MARK = elections.ANY_MARK
# how many random letters are made where more find more
RANDOM_LETTERS = int(os.environ.get("DEBVOTE_RANDOM_LETTERS", "20000"))
# the own mark of each elector, and what the subject of a letter of ours has
OWN = {name: elections.any_own(name) for name in NAMES}
TITLE = "Where we meet in spring"

TEN = "Mon, 23 Nov 2026 10:00:00 +0000"


def at(hour: int, minute: int = 0, day: int = 23) -> datetime.datetime:
    return datetime.datetime(2026, 11, day, hour, minute, tzinfo=datetime.UTC)


def at_time(time: datetime.datetime, line: str, *others: Any) -> TimedBallot:
    return TimedBallot(time, Ballot(line), *others)


class DebvoteReader:
    """Asks debvote about lines, each once a process, and counts how often it is asked."""

    poll = POLL
    known: dict[bytes, str | None] = {}

    def __init__(self):
        self.runs = 0

    def answers(self, lines: Sequence[bytes]) -> Mapping[bytes, str | None]:
        self.runs += 1
        new = [line for line in dict.fromkeys(lines) if line not in self.known]
        if new:
            self.known.update(self.asked(new))
        return {line: self.known[line] for line in lines}

    def asked(self, lines: Sequence[bytes]) -> dict[bytes, str | None]:
        handle = os.memfd_create("poll")
        os.write(handle, self.poll.encode())
        words = [
            PROGRAM,
            "explain",
            "--poll",
            f"/proc/{os.getpid()}/fd/{handle}",
            "--ballots",
            "/dev/stdin",
        ]
        text = subprocess.run(
            words, input=b"".join(line + b"\n" for line in lines), capture_output=True, check=False
        ).stdout.decode("ascii")
        os.close(handle)
        findings = findings_in(text)
        assert text.splitlines()[-1].startswith(f"{len(lines)} lines: "), text
        found: dict[bytes, str | None] = dict.fromkeys(lines)
        for finding in findings.refused:
            found[lines[finding.line - 1]] = f"{finding.word}: {finding._replace(remark='').hint}"
        return found


def repaired_line(line: bytes) -> bytes:
    """A line with the repairs that are allowed."""
    return with_small_name(repaired_but_for_name(line, LONGEST_LINE))


def names(options: int = RANKS.count(",") + 1, **other: object) -> Names:
    usual: dict[str, object] = {
        "roll": frozenset(NAMES),
        "language": "en",
        "real_names": {name: name.capitalize() for name in NAMES},
        "longest_line": LONGEST_LINE,
        "words": {},
    }
    found = Names(**{**usual, **other})
    fewest = 2 if found.labels else options
    return dataclasses.replace(
        found, answers=answer_pattern(fewest, "".join(found.labels), frozenset(found.words))
    )


def circumstances(
    *,
    addresses: Mapping[str, Sequence[str]] | None = None,
    keys: Mapping[str, str] | None = None,
    own_marks: Mapping[str, str] = OWN,
    old_marks: Mapping[str, str] = {},
    roll: Collection[str] = NAMES,
    **other: object,
) -> Circumstances:
    """The circumstances of a vote that was called three days ago and has no end; with `keys`
    letters have to be signed. The electors of `old_marks` had these on the first day.
    """
    listed = {name: [f"{name}@club.example"] for name in NAMES} if addresses is None else addresses
    electors = {
        name: Elector(
            number,
            name,
            number,
            name,
            tuple(listed.get(name, ())),
            (keys or {}).get(name, ""),
            mark=own_marks[name],
        )
        for number, name in enumerate(roll)
    }
    marks = {own: OwnMark(name) for name, own in own_marks.items() if own} | {
        own: OwnMark(name, at(9, day=21)) for own, name in old_marks.items()
    }
    usual: dict[str, object] = {
        "mark": MARK,
        "electors": electors,
        "is_signed": keys is not None,
        "marks": {MARK},
        "own_marks": marks,
        "called": at(9, day=20),
        "end": None,
        "first_close": None,
        "is_closed": False,
        "now": at(9, day=25),
    }
    return Circumstances(**{**usual, **other})


def letter(
    name: str,
    text: str,
    *,
    number: int | str = 1,
    time: str | None = TEN,
    sender: str | None = None,
    head: str = "",
    kind: str = "text/plain; charset=utf-8",
    subject: str | None = None,
) -> bytes:
    """A letter of an elector. Its subject has the mark of the poll, with the own mark of who has
    the sender's address, unless it is given.
    """
    sender = sender or f"{name}@club.example"
    if not re.search("(?im)^subject", head):
        whose = re.search(r"([\w.-]+)@club\.example>?$", sender)
        usual = f"my ballot {in_brackets(MARK, elections.any_own(whose[1]) if whose else '')}"
        head = f"Subject: {usual if subject is None else subject}\n{head}"
    received = "" if time is None else f"Received: from a by b; {time}\n"
    fields = f"From: {sender}\nTo: vote@club.example\nMessage-ID: <{number}.{name}@mail.example>\n"
    return f"{received}{fields}{head}Content-Type: {kind}\n\n{text}".encode(
        "utf-8", "surrogateescape"
    )


def ballot(name: str, ranks: str = RANKS, **how: object) -> bytes:
    """A letter that has a ballot of its elector alone."""
    return letter(name, f"{name} {ranks}", **how)


def marked(name: str, text: str, **how: object) -> bytes:
    """A letter of an elector whose subject has the own mark, whoever sent it, as that of each
    letter of ours to them.
    """
    return letter(name, text, **{"subject": f"Re: Vote: {TITLE} [{MARK}-{OWN[name]}]", **how})


def answer(name: str, text: str, **how: object) -> bytes:
    return marked(name, text, **{"head": f"In-Reply-To: <call.{name}@club.example>\n", **how})


def with_mark(data: bytes, mark: str) -> bytes:
    """A letter of a mail program, with a mark at the end of its subject."""
    return re.sub(
        rb"(?im)^(subject:[^\n]*?(?:\n[ \t][^\n]*?)*)(\r?\n)(?![ \t])",
        rb"\1\2 %b\2" % mark.encode(),
        data,
        count=1,
    )


def alternatives(name: str, plain: str, marked: str, **how: object) -> bytes:
    text = f"--b\nContent-Type: text/plain\n\n{plain}\n--b\nContent-Type: text/html\n\n{marked}\n--b--\n"
    return letter(name, text, kind="multipart/alternative; boundary=b", **how)


def mailbox(*letters: bytes) -> bytes:
    return b"".join(
        b"From somebody Mon Nov 23 10:00:00 2026\n" + data.rstrip(b"\n") + b"\n\n"
        for data in letters
    )


def parsed(data: bytes, where: str = "letter", *, is_parted_off: bool = False) -> ParsedLetter:
    """A letter as its bytes alone say it."""
    return parse(RawLetter(where, data, is_parted_off))


def read(
    *letters: bytes | ParsedLetter, reader: DebvoteReader | None = None, **of_names: object
) -> list[ReadLetter]:
    """Letters with what their lines may be, as the book gives them back."""
    given = [
        one if isinstance(one, ParsedLetter) else parsed(one, f"letter {number}")
        for number, one in enumerate(letters, start=1)
    ]
    new = [one for one in given if not isinstance(one, ReadLetter)]
    fresh = iter(with_texts(new, names(**of_names), (reader or DebvoteReader()).answers))
    found = [one if isinstance(one, ReadLetter) else next(fresh) for one in given]
    kept = [from_json(to_json(one)) for one in found]
    assert kept == found and len(found) == len(given)
    return kept


def parted(how: Mapping[str, Any], names: Collection[str]) -> tuple[dict[str, Any], dict[str, Any]]:
    """What of it has these names, and the rest."""
    own = {name: value for name, value in how.items() if name in names}
    return own, {name: value for name, value in how.items() if name not in names}


def of_letter(how: Mapping[str, Any]) -> tuple[dict[str, Any], dict[str, Any]]:
    """What of it `letter` takes, and the rest, which `judged` takes."""
    return parted(how, ("number", "time", "sender", "head", "kind", "subject"))


def rows(text: str) -> tuple[str, ...]:
    """Texts, each on a line between the first and the last one; a sign ⏎ is a line end in one."""
    return tuple(line.replace("⏎", "\n") for line in text[1:-1].split("\n"))


def varied(
    *texts: str | bytes, name: str = "ada", **how: Any
) -> Iterator[tuple[bytes, dict[str, Any]]]:
    """Letters of an elector, each with what is known when it is judged. Bytes are a whole letter;
    of a tuple in `how` each has its turn.
    """
    for values in itertools.product(*(v if isinstance(v, tuple) else [v] for v in how.values())):
        fields, known = of_letter(dict(zip(how, values)))
        for text in texts:
            yield text if isinstance(text, bytes) else letter(name, text, **fields), known


def judged(
    *letters: bytes | ParsedLetter,
    reader: DebvoteReader | None = None,
    ballots: Mapping[str, Sequence[TimedBallot]] | None = None,
    decisions: Mapping[str, str] = {},
    **other: object,
) -> list[LetterCase]:
    """What becomes of letters, in the order of their times; `decisions` are those of acts, by the
    digests of letters.
    """
    of_names, _ = parted(other, ("roll", "language", "real_names", "words"))
    _, of_others = parted(other, ("language", "real_names", "words"))
    now = circumstances(**of_others)
    cases = [
        case_of(one, now, decisions.get(one.digest))
        for one in read(*letters, reader=reader, **of_names)
    ]
    return judge_all(cases, in_order(ballots or {}))


def case(name: str, text: str, **how: object) -> LetterCase:
    """What becomes of one letter."""
    own, known = of_letter(how)
    [one] = judged(letter(name, text, **own), **known)
    return one


def in_order(ballots: Mapping[str, Sequence[TimedBallot]]) -> BallotsByElector:
    """The ballots of electors, as the book gives them."""
    return BallotsByElector(
        ElectorBallots,
        {name: ElectorBallots(sorted(its, key=queries.by_time)) for name, its in ballots.items()},
    )


def case_of(one: ReadLetter, now: Circumstances, state: str | None) -> LetterCase:
    """A letter that the book has, by what the last act decided of it, and with the ballot that was
    entered.
    """
    kept = NOT_KEPT._replace(state=state or queries.NEVER_DECIDED)
    case = LetterCase(one, now, kept)
    if state not in (queries.ENTERED, queries.STRUCK, queries.TAKEN_BACK):
        return case
    is_taken_back = state == queries.TAKEN_BACK
    is_struck = state != queries.ENTERED
    is_typed = not case.ballots
    ballot = EnteredBallot(
        1,
        Ballot(BALLOT),
        is_late=False,
        is_struck=is_struck,
        is_taken_back=is_taken_back,
        is_typed=is_typed,
    )
    return LetterCase(one, now, kept, [ballot])


def judged_alone(one: ReadLetter, now: Circumstances) -> LetterCase:
    [found] = judge_all([LetterCase(one, now)], in_order({}))
    return found


def counted(action: Callable[[], Found]) -> tuple[Found, int]:
    """What is found, and how many functions are called meanwhile."""
    calls = itertools.count()
    sys.setprofile(lambda *_: next(calls))
    try:
        return action(), next(calls)
    finally:
        sys.setprofile(None)


def calls_while_judged(letters: Sequence[ReadLetter]) -> int:
    """How many functions are called while letters are judged, of which the first goes in."""
    cases = [LetterCase(one, circumstances()) for one in letters]
    found, calls = counted(lambda: judge_all(cases, in_order({})))
    assert found[0].ruling is Ruling.GOES_IN, outcome(found[0])
    return calls


def calls_while_read(data: bytes, **of_names: object) -> int:
    """How many functions are called while a letter is read, all ranks valid, the second time."""
    its_names = names(**of_names)
    [(_, _), (_, calls)] = (
        counted(lambda: with_texts([parsed(data)], its_names, dict.fromkeys)) for _ in range(2)
    )
    return calls


def label(why: ReasonWithValues) -> str:
    return why.reason.name.lower().replace("_", " ")


def outcome(one: LetterCase) -> str:
    """What becomes of a letter, in a word and the ballot or the reason, which has all values that
    its sentence needs.
    """
    if one.ruling is Ruling.GOES_IN:
        return f"in: {one.ballots[0].ballot.line}"
    if one.reason is None:
        return one.ruling.value
    for_secretary(one.reason)
    return f"{one.ruling.value}: {label(one.reason)}"


def how_entered(one: LetterCase) -> str:
    """By itself, by somebody who looks at it, or by a line that is typed."""
    if one.ruling is Ruling.GOES_IN:
        return "in"
    return "entered" if one.to_enter else "typed"


def outcomes(*letters: bytes | ParsedLetter, **other: object) -> list[str]:
    """The outcome of each of several letters, in the order of their times."""
    return [outcome(one) for one in judged(*letters, **other)]


def lines_in(*letters: bytes | ParsedLetter, **other: object) -> list[str]:
    return [
        one.ballots[0].ballot.line
        for one in judged(*letters, **other)
        if one.ruling is Ruling.GOES_IN
    ]


def read_in(found: Sequence[RawLetter]) -> list[RawLetter]:
    """The letters among what a mailbox gives."""
    return [one for one in found if one.why_not_read is None]


def passed_over_in(found: Sequence[RawLetter]) -> list[tuple[str, NotRead]]:
    """What is passed over of a mailbox, and why."""
    return [(one.where, one.why_not_read) for one in found if one.why_not_read is not None]
