"""What letters to electors say. Nothing is asked here, and nothing is written.

No line looks like an answer, however a mail program breaks it: the right line has gaps in place of
ranks, a ballot that came is said in words, and no line that came is repeated. So an answer that
quotes a letter goes in.
"""

import dataclasses
import datetime
from collections.abc import Collection, Iterator, Sequence
from typing import NamedTuple

from debvote_tools.book.queries import Elector
from debvote_tools.call.call import CallData
from debvote_tools.call.form import PACKAGE as CALL_PACKAGE
from debvote_tools.inbox.fates import COUNTS, REFUSED, TAKEN_BACK, Fate
from debvote_tools.inbox.reasons import ReasonWithValues, for_elector
from debvote_tools.inbox.rules import LetterCase, Ruling
from debvote_tools.text.addresses import address_in
from debvote_tools.text.ballots import faults_of
from debvote_tools.text.language import Language, marked
from debvote_tools.text.rendering import one_line, render_letter
from debvote_tools.text.times import time_in_words

PACKAGE = "debvote_tools.outbox"

# how many lines two sides of A4 have, as letter.css prints them
TWO_SIDES = 112
# and how many of these the QR code of a link takes beside its words
OF_LINK = 4

# the letters that go out, as the command and the book name them, with their subjects
SUBJECTS = marked(
    {
        "call": "Vote: {title}",
        "receipts": "Receipt: {title}",
        "reminders": "Not yet voted: {title}",
        "closed": "Vote closed: {title}",
        "void": "Void list: {title}",
        "result": "Result: {title}",
    }
)
# in place of that of the call: if it said an end, and if not
CORRECTED = marked("Corrected result: {title}")
DECIDED = marked("Result after the casting vote: {title}")
EXTENSION = marked("Vote ends later: {title}")
END_SAID = marked("When the vote ends: {title}")


# what became of a ballot, as the view `fate` says
OF_BALLOT: dict[str | Ruling, str] = marked(
    {
        COUNTS: "Your ballot of {time} has arrived. It counts unless you send a later one.",
        "replaced": "Your ballot of {time} has arrived. Another ballot of yours, which was entered after it, counts instead.",
        "late": "Your ballot of {time} has arrived. It was entered after the close, so it is late and does not count.",
        "struck": "Your ballot of {time} was entered, and the secretary has struck it. It does not count.",
        TAKEN_BACK: "Your ballot of {time} was entered, and the secretary has taken it back. It does "
        "not count unless it is entered again.",
        REFUSED: "A line with your name has arrived ({time}). It is not a valid ballot of this vote, so it does not count.",
    }
)
AT_THE_END: dict[str | Ruling, str] = marked(
    {
        COUNTS: "Your ballot of {time} has arrived, and it counts.",
        TAKEN_BACK: "Your ballot of {time} was entered, and the secretary has taken it back. It does not count.",
    }
)
# in a vote with tellers, of a ballot that counts
OF_CLICK = marked("Your ballot, sent {time}, counts as sealed.")
ON_PAPER = marked("You voted on paper; clicks do not count.")
NOT_ALL = marked(
    "These of its answers do not count; others of yours, which were entered after them, count instead: {questions}."
)
# what became of a letter, by whether it came from an address of the elector: while it waits, and if
# nobody looks at it any more
OF_LETTER = marked(
    {
        True: (
            "Your letter of {time} has arrived. No ballot from it is entered yet: the secretary has to look at it first.",
            "Your letter of {time} has arrived. No ballot from it was entered.",
        ),
        False: (
            "A letter in your name came from another address, and waits until the secretary has looked at it.",
            "A letter in your name came from another address. The secretary has set it aside.",
        ),
    }
)
# of a letter from which only ballots of others were entered: whether it waits
OF_OTHERS = marked(
    {
        False: "A letter of {time} has a ballot of somebody else, which was entered. No ballot of yours from it was entered.",
        True: "A letter of {time} has a ballot of somebody else, which was entered. No ballot of "
        "yours from it is entered yet: the secretary has to look at it first.",
    }
)

# what became of a ballot that came by the page of the vote, by whether it came by the link of the
# elector
OF_RECORD = marked(
    {
        True: (
            "A ballot of {time} came by the page of the vote, with your link. It is not entered "
            "yet: the secretary has to look at it first.",
            "A ballot of {time} came by the page of the vote, with your link. It was not entered.",
        ),
        False: (
            "A ballot in your name came by the page of the vote, but not with your present "
            "link. It waits until the secretary has looked at it.",
            "A ballot in your name came by the page of the vote, but not with your present link. The secretary has set it aside.",
        ),
    }
)


# the letters that nobody looks at any more, and from which nothing was entered
DONE = (Ruling.SET_ASIDE, Ruling.OLDER, Ruling.PASSED_OVER)


class OutgoingText(NamedTuple):
    """What a letter says: its subject, the mark that ends it, and its text."""

    subject: str
    mark: str
    text: str


@dataclasses.dataclass(frozen=True)
class Composer:
    """Makes all letters of a run. After the end nobody is invited to vote."""

    call_data: CallData
    is_over: bool
    # the electors whose last ballot nobody can open
    lost: Collection[str] = ()
    # in which times are told
    zone: datetime.tzinfo | None = datetime.UTC

    @property
    def language(self) -> Language:
        return self.call_data.language

    def call_letter(
        self, elector: Elector, *, is_extension: bool, earlier: Sequence[str] = ()
    ) -> OutgoingText:
        """The call; or that it ends later, which repeats no code. A code that went to earlier
        addresses is told as such. On paper it has at most two sides: if the texts about the options
        are too long for them, it says where they are.
        """
        subject = SUBJECTS["call"]
        if is_extension:
            subject = EXTENSION if self.call_data.questions.deadline_time else END_SAID
        for are_texts_elsewhere in (False, True):
            letter = self.letter(
                "call",
                elector,
                subject,
                is_extension=is_extension,
                are_texts_elsewhere=are_texts_elsewhere,
                earlier=earlier,
            )
            room = TWO_SIDES - (OF_LINK if self.call_data.at else 0)
            if not is_on_paper(elector) or letter.text.count("\n") <= room:
                break
        return letter

    def reminder(self, elector: Elector, fates: Sequence[Fate]) -> OutgoingText:
        """A letter to an elector without a ballot that counts, or whose last one is lost. If a line
        or a letter of theirs has come, it says what became of it, and that they can send a right
        line now.
        """
        has_come = any(fate.is_own or fate.envelope for fate in fates)
        return self.letter("reminders", elector, fates=fates, has_come=has_come)

    def receipt(self, elector: Elector, fates: Sequence[Fate]) -> OutgoingText:
        """What became of what came from an elector. It has the right line if the last of it was
        refused, waits or was set aside. What goes in, was struck, taken back or late asks nobody to
        vote again. In a vote by clicks it has the personal link if an e-mail waits, unless it is
        about one from elsewhere, too.
        """
        decide = (
            fate.became
            for fate in reversed(fates)
            if fate.is_own or fate.became in (COUNTS, REFUSED)
        )
        last = next(decide, COUNTS)
        has_right_line = not self.is_over and last not in (COUNTS, Ruling.GOES_IN)
        letters = [fate for fate in fates if fate.letter]
        waits = any(
            fate.became is Ruling.WAITS and not (fate.letter and fate.letter.read.link)
            for fate in letters
        )
        has_link = waits and all(fate.is_own for fate in letters) and not is_on_paper(elector)
        return self.letter(
            "receipts", elector, fates=fates, has_right_line=has_right_line, has_link=has_link
        )

    def letter(
        self, kind: str, elector: Elector, subject: str = "", **values: object
    ) -> OutgoingText:
        """A letter of a kind, with the subject of this kind or another one."""
        call = self.call_data
        name = one_line(elector.who)[:200] or elector.name
        text = render_letter(
            CALL_PACKAGE if kind == "call" else PACKAGE,
            f"{kind}.txt",
            self.language,
            call=call,
            elector=elector,
            greeting=self.language.say("Dear {name},", name=name),
            fate_in_words=self.fate_in_words,
            is_on_paper=is_on_paper(elector),
            is_lost=elector.name in self.lost,
            # who has no address may not see the page, either
            is_whole=call.at is None or is_on_paper(elector),
            **values,
        )
        title = one_line(call.questions.name)
        subject = self.language.say(subject or SUBJECTS[kind], title=title)
        return OutgoingText(subject, call.mark_of(elector.mark), text)

    def fate_in_words(self, fate: Fate, name: str) -> str:
        """Says what became of something that came, and what is wrong with it."""
        sentences = [self.became(fate), *self.more_of(fate)]
        letter = fate.letter
        if letter is not None and fate.is_own and letter.reason is not None:
            sentences += self.wrong_with(letter, letter.reason, name)
        elif fate.became == REFUSED:
            sentences += self.faults(fate.why_refused, name)
        return " ".join(sentences)

    def became(self, fate: Fate) -> str:
        """Says what became of something that came, with its time in the zone of the vote."""
        letter = fate.letter
        if letter is None:
            sentence = (OF_BALLOT | AT_THE_END if self.is_over else OF_BALLOT)[fate.became]
            if self.call_data.tellers and fate.became == COUNTS:
                sentence = OF_CLICK if fate.came_by and fate.came_by.read.block else ON_PAPER
        # what is told of a letter is told to those of whom nothing was entered
        elif letter.not_taken_back and (fate.is_own or fate.became is Ruling.ENTERED):
            sentence = OF_OTHERS[letter.is_pending]
        else:
            is_done = fate.became in DONE
            sentence = (OF_RECORD if letter.read.link else OF_LETTER)[fate.is_own][is_done]
        # the web host has another time, and can't change this one
        came = letter or fate.came_by
        time = (came and came.read.sent or fate.time).replace(microsecond=0)
        told = time.astimezone(self.zone)
        return self.language.say(sentence, time=time_in_words(told, self.language))

    def more_of(self, fate: Fate) -> Iterator[str]:
        """What of a ballot does not count, and how it came."""
        if fate.replaced:
            titles = map(self.call_data.questions.titled, fate.replaced)
            yield self.language.say(NOT_ALL, questions=self.language.joined(titles))
        if fate.desk:
            desk = self.language.formed("quoted", fate.desk)
            yield self.language.say("It was entered at a desk {desk}.", desk=desk)
        letter = fate.came_by
        if letter is not None and fate.envelope is not None:
            if letter.read.link:
                yield self.language.say("It came by the page of the vote.")
            if any(
                entered.is_typed
                for entered in letter.entered
                if entered.number == fate.envelope.number
            ):
                yield self.language.say("The secretary typed it, by a letter that came.")

    def wrong_with(self, letter: LetterCase, reason: ReasonWithValues, name: str) -> Iterator[str]:
        """Why a letter of the elector waits or was set aside, and what is wrong with its lines. No
        line is repeated: it may be another's ballot, or have a code.
        """
        if sentence := for_elector(reason):
            told = self.language.say(sentence)
            # after the end nobody is asked to send it better
            yield f"{told.split('. ')[0].rstrip('.')}." if self.is_over else told
        yield from dict.fromkeys(
            self.language.say(
                "Line {line} of its text is near to a ballot. {fault}",
                line=line.number,
                fault=fault,
            )
            for line in letter.refused
            for fault in self.faults(line.answer, name)
        )

    def faults(self, verdict: str | None, name: str) -> Iterator[str]:
        is_of_several = self.call_data.questions.is_several
        return faults_of(verdict, name, self.language, is_of_several=is_of_several)


def is_on_paper(elector: Elector) -> bool:
    """Whether letters to an elector are printed: no address is one that every mail server takes."""
    return not address_in(elector.addresses)
