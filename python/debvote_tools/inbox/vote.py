"""The vote as lines meet it: whose each is, what debvote says of it, and the reply to it."""

import functools
import re
from collections.abc import Iterable, Iterator, Mapping, Sequence
from typing import NamedTuple

from debvote_tools.book import queries
from debvote_tools.book.queries import Envelope
from debvote_tools.call.box import without_links
from debvote_tools.call.tellers import ON_PAPER, PAPER
from debvote_tools.cli.console import LEAVING_OUT, shown_line
from debvote_tools.cli.faults import Fault
from debvote_tools.debvote import Finding, Findings
from debvote_tools.election import Election, History
from debvote_tools.files import BALLOTS_LIMIT, LINES_LIMIT
from debvote_tools.grouping import grouped
from debvote_tools.inbox.lines import RIGHT_ANSWERS, Line, Names, name_in, names_of, with_small_name
from debvote_tools.text.ballots import Ballot, ballot_file, ballot_of, part_of, ranks_by_label
from debvote_tools.text.language import ENGLISH, SPOKEN
from debvote_tools.text.motions import ABSTAIN, words_in


# what is said of a line that is no ballot of several answers; debvote is not asked about it
NO_FORM = Finding(
    0,
    "bad shape",
    "a ballot is a name, and for each question that is answered its label and its ranks",
)

# what is said in a vote with tellers of a line that nobody types: the page alone sends others
NO_CHECK_OFF = Finding(
    0,
    "bad shape",
    f"ballots are sealed by the page alone; of who votes on paper the line is NAME {PAPER}, and the slip goes into the urn",
)
PAPER_AT_END = re.compile(rb"[\s:]+paper[.!]?\s*$", re.IGNORECASE)

# what is said of a line that is no ballot, where one question is answered without its label
WITHOUT_LABEL = "a ballot here is a name and its ranks, without a label"

# the reply to a line that came after the close
LATE_REPLY = "late"

# the number that makes a name different from others
NUMBER = re.compile(r"-\d+\Z")


class CheckedLine(NamedTuple):
    """A line that came, how it is entered, and what debvote says of it, whenever it comes. Of a
    ballot of several answers those that are refused are a line of their own.
    """

    original: Line
    # with the changes that are allowed
    as_meant: bytes
    # as it is meant if debvote takes it so, and otherwise as it came
    as_entered: bytes
    # why debvote refuses it; None if it is a ballot
    finding: Finding | None = None
    # why it refuses the line with the changes that are allowed, too
    lasting: Finding | None = None
    # whose name it has, if these are several
    why_unclear: str = ""

    @property
    def is_ballot(self) -> bool:
        return self.finding is None

    @property
    def can_be_entered(self) -> bool:
        """As a ballot or as refused. Of several answers a line can't that has not their form, or
        has the name of several electors; with tellers one that has ranks, which the book would
        have beside the name.
        """
        return self.finding not in (NO_FORM, NO_CHECK_OFF)

    @property
    def why_refused(self) -> str | None:
        """What the book keeps of what debvote says, without its remark on other lines."""
        return None if self.finding is None else self.finding.answer

    @property
    def ballot(self) -> Ballot:
        """What it is if debvote does not refuse it."""
        return Ballot(self.as_entered.decode("ascii"))


class Vote:
    """An election as it was called, and what debvote says of its lines. Stops before the call.
    Lines have the labels of several questions, or answer the one of the given label without it.

    Once a vote with a box is made, all output leaves out the personal links: a line or a letter may
    have one, with which somebody could vote.
    """

    def __init__(self, election: Election, label: str = "") -> None:
        self.election = election
        self.book = election.book
        history = election.history()
        self.call = election.called(history)
        if history.announced("box"):
            LEAVING_OUT.set(functools.partial(without_links, self.book))
        # as ballots are counted
        self.questions = questions = election.questions
        self.is_several = questions.is_several
        # the one question that is answered without a label, if there is one
        self.label = label
        self.poll = questions.get(label)
        # the roll has codes: none is printed that was not typed
        self.has_codes = history.has_codes_on_roll
        self.is_signed = bool(history.announced("signed"))
        self.has_tellers = bool(history.tellers)
        # what debvote has said of lines
        self.known = dict[bytes, Mapping[str, Finding]]()
        # most ballots have one of a few orders
        self.in_words_of = functools.lru_cache(4096)(questions.in_words(SPOKEN.get()))

    def history(self) -> History:
        """The acts until now. Stops after another call: lines were read by the poll of this one."""
        history = self.election.history()
        if history.call != self.call:
            raise Fault(None, "the call for votes was made anew meanwhile", "run the command again")
        return history

    @functools.cached_property
    def names(self) -> Names:
        electors = () if self.has_codes else queries.electors(self.book)
        return names_of(self.questions, electors, self.election.language)

    def with_paper(self, line: Line) -> Line:
        """A line with the ranks of the check-off in place of the word for paper."""
        if not self.has_tellers:
            return line
        ranks = f" {ON_PAPER}".encode()
        repaired = PAPER_AT_END.sub(ranks, line.repaired)
        return line._replace(repaired=repaired, named=PAPER_AT_END.sub(ranks, line.named))

    def as_meant(self, line: Line) -> tuple[bytes, list[str]]:
        """A line as it was repaired, with the name on the roll of the elector who is meant by its
        name, and with ranks in place of words; and those who may be meant, if they are several.
        """
        names = self.names
        labels = names.labels
        line = self.with_paper(line)
        # of several answers each is repaired by itself: the first label may be part of the name
        given = line.unframed if labels else line.named
        text = names.with_ranks(given.decode("utf-8", "surrogateescape"))
        name, _, answers = text.partition(" ")
        is_right = names.on_roll(name) and (self.has_form(given) if labels else " " not in answers)
        if is_right and not names.words:
            return line.repaired, []
        is_read = not (is_right or self.has_codes or self.why_too_long(line))
        apart = names.taken_apart(text) if is_read else None
        unclear = list[str]()
        if apart and apart[0]:
            name, answers = apart
            meant = names.meant_by(name)
            longer = names.longer_than(name, text)
            unclear = sorted({*meant, *longer}) if longer or len(meant) > 1 else []
            if labels or len(meant) == 1:
                text = f"{meant[0] if len(meant) == 1 else name.lower()} {answers}"
        as_read = text.encode("utf-8", "surrogateescape")
        if labels:
            return as_read, unclear
        return line.repaired if as_read == given else with_small_name(as_read), unclear

    def why_too_long(self, line: Line) -> str | None:
        """Why a line is no ballot, if it is longer than any."""
        words = f"the line has {len(line.unframed)} bytes, and a ballot has a few dozen"
        return words if len(line.unframed) > self.questions.longest_line else None

    def why_not_entered(self, line: CheckedLine) -> str:
        """Why a line is not entered unless somebody forces it, or at all; empty if it is."""
        if line.can_be_entered:
            return line.why_unclear
        is_none = f"`{shown_line(line.original.repaired)}` is no ballot"
        hint = NO_FORM.hint if self.poll is None else WITHOUT_LABEL
        if self.has_tellers:
            is_none, hint = "this is no line of this vote", NO_CHECK_OFF.hint
        return line.why_unclear or self.why_too_long(line.original) or f"{is_none}: {hint}"

    def electors_of(self, lines: Sequence[bytes]) -> list[int | None]:
        """Of each line the elector whose name it begins with."""
        names = [name_in(line).decode("ascii") for line in lines]
        numbers = queries.elector_numbers(self.book, self.names.roll.intersection(names))
        return list(map(numbers.get, names))

    # ---- what debvote says
    def checked_lines(self, lines: Sequence[Line]) -> list[CheckedLine]:
        """Lines with what debvote says of them, none of them empty. It is started at most once for
        each question, unless there are more lines than it takes.

        A name that is that of one elector alone, on the roll or really, counts as the one on the
        roll. If the repaired line is refused, the line goes in as it came, but without a byte-order
        mark and carriage return. It is refused too, since repairs leave a right line as it is; the
        reason may be another one.
        """
        meant = [(line, *self.as_meant(line)) for line in lines]
        texts = [text for _, text, _ in meant]
        texts += [line.unframed for line, text, _ in meant if line.unframed != text]
        refused = self.refusals(texts)
        return [line for as_meant in meant for line in self.checked(*as_meant, refused)]

    def checked(
        self,
        line: Line,
        meant: bytes,
        unclear: Sequence[str],
        refused: Mapping[bytes, Mapping[str, Finding]],
    ) -> Iterator[CheckedLine]:
        """A line, or of several answers the valid ones, and those that are refused for one reason.
        Of several answers, one that has not their form, or has the name of several electors, is
        never entered.
        """
        why = f"it has the name of {ENGLISH.joined(list(unclear))}" if unclear else ""
        if self.has_tellers and meant.partition(b" ")[2] != ON_PAPER.encode():
            yield CheckedLine(line, meant, line.unframed, NO_CHECK_OFF, NO_CHECK_OFF)
            return
        # as it came, such a line is no ballot
        findings = refused[line.unframed if why else meant]
        if why and self.names.labels:
            findings = {"": NO_FORM}
        if not findings:
            yield CheckedLine(line, meant, meant)
        elif of_meant := findings.get(""):
            as_it_came = refused[line.unframed].get("", of_meant)
            yield CheckedLine(line, meant, line.unframed, as_it_came, of_meant, why)
        else:
            yield from self.parts(line, meant, findings)

    def parts(
        self, line: Line, meant: bytes, findings: Mapping[str, Finding]
    ) -> Iterator[CheckedLine]:
        """Of a line with several answers the valid ones, and those that are refused for one
        reason.
        """
        whole = Ballot(meant.decode("ascii"))
        by_finding = grouped(
            (findings.get(label), (label, ranks)) for label, ranks in whole.ranks.items()
        )
        for finding in sorted(by_finding, key=lambda finding: finding is not None):
            text = ballot_of(whole.elector, dict(by_finding[finding])).line.encode()
            yield CheckedLine(line, meant, text, finding, finding)

    def why_each_refused(self, lines: Sequence[bytes]) -> dict[bytes, str | None]:
        """What debvote says of each line, such as `bad rank count: ..`; None for a valid ballot.
        What it remarks on other lines is left out.
        """
        refused = self.refusals(lines)
        return {
            line: next((finding.answer for finding in refused[line].values()), None)
            for line in lines
        }

    def with_reasons_of_now(self, envelopes: Sequence[Envelope]) -> list[Envelope]:
        """Envelopes with the reasons for which debvote refuses their lines now: the book may have
        those of another version.
        """
        reasons = self.why_each_refused([one.line for one in envelopes if one.why_refused])
        return [
            one._replace(why_refused=reasons.get(one.line) or one.why_refused) for one in envelopes
        ]

    def refusals(self, lines: Sequence[bytes]) -> Mapping[bytes, Mapping[str, Finding]]:
        """Why debvote refuses answers in lines, by the labels of their questions; nothing of a
        ballot. It gets as many at once as it takes, and none of which it was asked before, since
        the sealed polls never change. If the roll has codes, none is offered.
        """
        for part in in_parts([line for line in lines if line not in self.known]):
            new: dict[bytes, dict[str, Finding]] = {
                line: {} if self.has_form(line) else {"": NO_FORM} for line in part
            }
            for label, answering, findings in self.findings_by_question(part):
                for finding in findings.refused:
                    bare = finding._replace(line=0)
                    if self.has_codes:
                        bare = bare._replace(near=(), remark="")
                    new[answering[finding.line - 1]][label] = bare
            self.known |= new
        return self.known

    def has_form(self, line: bytes) -> bool:
        """Whether a line can be a ballot of this vote, written as it is entered."""
        if not self.names.labels:
            return True
        match = RIGHT_ANSWERS.fullmatch(line.decode("ascii", "replace"))
        labels = match[2].split(" ")[1::2] if match else []
        return labels != [] and labels == [label for label in self.questions if label in labels]

    def are_table(self, lines: Sequence[CheckedLine]) -> bool:
        """Whether lines look like a table to debvote; ballots alone don't, nor do those of several
        answers. Of a motion a head may also stand below ballots, if it has its words.
        """
        poll = self.questions.get("")
        if poll is None or all(line.is_ballot for line in lines):
            return False
        asked = [self.as_asked(line) for line in lines]
        heads = (place for place, line in enumerate(lines) if self.is_head_of_words(line))
        return any(
            self.election.debvote.findings(poll.as_bytes(), ballot_file(part)).are_table
            for first in {0, next(heads, 0)}
            for part in in_parts(asked[first:])
        )

    def as_asked(self, line: CheckedLine) -> bytes:
        """A line as debvote is asked whether it is one of a table: a ballot as it is meant, another
        line as it came. A word of a motion counts as a rank, but is none of the ranks of a head.
        """
        if line.is_ballot:
            return line.as_meant
        text = line.original.text
        ranked = text if self.is_head_of_words(line) else self.names.with_ranks(text)
        asked = text if ranked == text else f"{ranked.rpartition(' ')[0]} {ABSTAIN}"
        return asked.encode("utf-8", "surrogateescape")

    def is_head_of_words(self, line: CheckedLine) -> bool:
        """Whether a line, which is no ballot, has the name of no elector and several words of a
        motion.
        """
        if line.is_ballot:
            return False
        first, *others = words_in(line.original.text) or [""]
        are_of_motion = len(others) > 1 and all(word in self.names.words for word in others)
        return are_of_motion and not self.names.on_roll(first)

    def findings_by_question(
        self, lines: Sequence[bytes]
    ) -> Iterator[tuple[str, Sequence[bytes], Findings]]:
        """What debvote says of the answers to each question: its label, and the lines with one."""
        right = [line for line in lines if self.has_form(line)]
        for label, poll in self.questions.items():
            parts = [(line, part) for line in right if (part := part_of(line, label)) is not None]
            if parts:
                ballots = ballot_file(part for _, part in parts)
                findings = self.election.debvote.findings(poll.as_bytes(), ballots)
                yield label, [line for line, _ in parts], findings

    @functools.cached_property
    def names_by_bare_name(self) -> dict[str, list[str]]:
        return grouped((NUMBER.sub("", name), name) for name in self.questions.roll)


# what is said of an answer that is the first one, or another one, of its elector to its question.
# Here it has replaced the earlier one; in the view `fate` it is the earlier one that is replaced
COUNTED = "counted"
REPLACED = "replaced"


def replies_to(
    lines: Iterable[tuple[bytes, str | None]], counted_answers: Mapping[str, str], *, is_late: bool
) -> Iterator[str]:
    """The reply to each line, given with why debvote refuses it, unless it is late: the word with
    which it is refused; or whether a ballot is counted, or has replaced one of its elector, by what
    counts of electors and the lines above. If that differs by question, it says so: `A replaced, B
    counted`.
    """
    answered = {name: {*ranks_by_label(answers)} for name, answers in counted_answers.items()}
    for line, why_refused in lines:
        if refused := LATE_REPLY if is_late else (why_refused or "").partition(":")[0]:
            yield refused
            continue
        ballot = Ballot(line.decode("ascii"))
        before = answered.setdefault(ballot.elector, set())
        labels = [*ballot.ranks]
        replies = [REPLACED if label in before else COUNTED for label in labels]
        is_same = len({*replies}) == 1
        yield replies[0] if is_same else ", ".join(map(" ".join, zip(labels, replies)))
        before.update(labels)


def in_parts(lines: Sequence[bytes]) -> Iterator[list[bytes]]:
    """Lines in parts, each of as many as debvote takes at once."""
    part: list[bytes] = []
    size = 0
    for line in lines:
        if len(part) == LINES_LIMIT or size + len(line) + 1 > BALLOTS_LIMIT:
            yield part
            part = []
            size = 0
        part.append(line)
        size += len(line) + 1
    if part:
        yield part
