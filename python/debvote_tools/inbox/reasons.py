"""Why a letter waits, as data, and what the secretary and the elector read of it.

A reason is computed whenever a letter is looked at, so a sentence may change. What an elector reads
names no other elector and no address, and repeats no line: an answer that quotes it must not read
as a ballot.
"""

import dataclasses
import datetime
import enum

from debvote_tools.cli.console import act_time, say, shown_text

Value = str | int | datetime.datetime

# what electors read of several reasons. What they read of any begins so, and has translations
UNCERTAIN = "The reason: its head or its parts can't be read with certainty. Send plain text alone."
# what became of it says so already
LOOKED_AT = ""
SIGNATURE_UNREAD = "The reason: its signature can't be checked."
ALONE = "The reason: there is more in it than a ballot. Answer this letter, write your ballot on top, and nothing else."
OTHER_ADDRESS = "The reason: the list of members has another address for the name on the ballot."
NO_BALLOT_IN_IT = "The reason: no line of it is a ballot of this vote."
NO_MARK_IN_IT = "The reason: its subject has no mark of this vote. Answer a letter of this vote: its subject has the mark."
LATER_ONE = "The reason: a later ballot of this elector is in already."
ANOTHER_KEY = "The reason: it is signed with another key than the list of members has for the name on the ballot."
LAPSED_KEY = "The reason: the key with which it is signed has expired, or was revoked."


@dataclasses.dataclass(frozen=True)
class ReasonWithValues:
    """A reason with its values, such as the address that a letter came from."""

    reason: "Reason"
    values: tuple[tuple[str, Value], ...]


class Reason(enum.Enum):
    """Why a letter waits or was set aside: the secretary reads the first text within a sentence,
    the elector the second. A call gives it its values: `Reason.AFTER_THE_END(end=..)`.
    """

    # the secretary decided. An elector whose ballot was entered from it reads of the ballot instead
    # (`told_of` in `fates.py`)
    TAKEN_BACK = "its ballot was taken back", LOOKED_AT
    PUT_BACK = "it was put back to wait", LOOKED_AT
    SET_ASIDE = "it was set aside", "The reason: the secretary has looked at it, and set it aside."
    STRUCK = "its ballot was struck", "The reason: the secretary has taken its ballot out again."
    # it can't be read with certainty
    PARTED_OFF = (
        "it may be part of the letter above it in the mailbox, or have other letters in it: "
        "look at the file, and save its letters as .eml",
        LOOKED_AT,
    )
    TOO_LONG = "it has {length} {what}; at most {limit} are read", UNCERTAIN
    TOO_MANY_PARTS = "it has too many parts or lines, or its parts are nested too deep", UNCERTAIN
    AMBIGUOUS = "mail programs may read it in different ways, because of {what}", UNCERTAIN
    RAW_NAME = (
        "the name of its sender is not encoded, so programs may read it in different ways",
        "The reason: the name of its sender is not encoded. Send it with a name without accents, or by another program.",
    )
    ENCRYPTED = "it is encrypted", UNCERTAIN
    NO_PLAIN_TEXT = "it has not exactly one plain text, alone or beside its own HTML", UNCERTAIN
    HTML_ALONE = "it has its text as HTML alone", UNCERTAIN
    CARD = "it has an electronic card beside its text", UNCERTAIN
    CHARSET = "its text is not plain text in the character set that it names: {charset}", UNCERTAIN
    CUT = "its text ends in the middle of a line, so it may have been cut off", UNCERTAIN
    CONTROL = "it has a character that mail programs show in different ways: {character}", UNCERTAIN
    AUTOMATIC = (
        "a program wrote it, as an out-of-office reply or a letter that came back",
        LOOKED_AT,
    )
    # when it arrived
    NO_ARRIVAL = "no Received line at its top says when it arrived", LOOKED_AT
    BEFORE_THE_CALL = (
        "it arrived before the call for votes, which was at {called}",
        "The reason: it arrived before the call for votes.",
    )
    AFTER_THE_END = (
        "it arrived after the end of the vote, {end}",
        "The reason: it arrived after the end of the vote.",
    )
    AFTER_THE_CLOSE = (
        "it arrived after the vote was closed, {close}",
        "The reason: it arrived after the vote was closed.",
    )
    IN_THE_FUTURE = (
        "it arrived later than the clock of this computer says, or that of the web host when it was asked",
        LOOKED_AT,
    )
    CLOSED = (
        "the vote is closed: to enter it, reopen",
        "The reason: it arrived in time, but was not entered before the vote was closed.",
    )
    # who sent it
    NO_SENDER = "it does not come from one address alone: {sender}", OTHER_ADDRESS
    NO_ADDRESS = "the list of members has no address for {elector}", OTHER_ADDRESS
    OTHER_SENDER = (
        "it came from {sender}, but the list of members has {listed} for {elector}",
        OTHER_ADDRESS,
    )
    OWN_MARK_ELSEWHERE = (
        "it came from {sender}, which is not the address of {elector} in the list of members, "
        "but its subject has the own mark of {elector}",
        OTHER_ADDRESS,
    )
    OLD_OWN_MARK = (
        "its subject has the own mark that {elector} had until {until}",
        "The reason: its subject ends with an own mark that you no longer have, as after a "
        "change of your address. Answer the newest letter of this vote to you.",
    )
    NO_OWN_MARK = (
        "its subject lacks the own mark of {elector}, so anybody may have sent it",
        "The reason: its subject does not end with your own mark. Answer a letter of this vote to you, or use the link in it.",
    )
    # it came by the page of the vote
    OTHER_LINK = (
        "it came by the page of the vote with a link that is not that of {elector} now: a new "
        "address or a new call makes a new one, and a book that was put back lacks some",
        LOOKED_AT,
    )
    FETCHED = (
        "it is in the file of the web box, which others may have changed: run add --box, or "
        "enter it if the web box does not answer",
        LOOKED_AT,
    )
    NOT_THERE_BEFORE = (
        "it is older than {asked}, when the web box was asked and did not have it",
        LOOKED_AT,
    )
    OTHER_TIME = (
        "by the clock of its device it was sent at {sent}, more than ten minutes from the time "
        "of the web host: one of the two clocks is wrong, or the host dated it anew",
        LOOKED_AT,
    )
    NOT_SENT_LATER = (
        "by the clocks of their devices it is not later than a ballot of its elector that came "
        "before it: the web host may have exchanged the two, or a clock was wrong",
        LOOKED_AT,
    )
    CLOCK_AT_THE_END = (
        "it came near the end or the close, sent at {sent} by the clock of its device, and that "
        "of the web host was off by {seconds} seconds",
        LOOKED_AT,
    )
    CLOCKS = (
        "the clock of the web host was off, so it may be earlier or later than another ballot of {elector}, of {time}",
        LOOKED_AT,
    )
    # of a vote with tellers
    NOT_SEALED = (
        "a ballot that somebody can read does not count in this vote: set it aside, and ask its "
        "sender to use the page, or to vote on paper",
        "The reason: in this vote nobody may read a ballot, so none can come by e-mail. Open "
        "the link in your letter, or vote on paper.",
    )
    ON_PAPER = (
        "{elector} has voted on paper, and clicks do not count",
        "The reason: you have voted on paper.",
    )
    BLOCK_OF_OTHER = (
        "the ballot of {elector} is one that another elector sent before",
        "The reason: another elector sent the same sealed ballot before. Open the page anew, and vote again.",
    )
    # where the ballot is
    NO_BALLOT = "no ballot found", NO_BALLOT_IN_IT
    NOT_ALONE = "line {number} is a ballot, and there are other lines", ALONE
    ANSWER_BELOW = (
        "line {number} is a ballot, and a line of a quotation or a signature looks like an answer",
        ALONE,
    )
    SEVERAL = "several lines of it are ballots", ALONE
    # which vote it is about
    NO_SUBJECT_MARK = (
        "its subject has no mark of this vote, [{mark}], or one that is cut off or changed; if it is about this vote, enter it",
        NO_MARK_IN_IT,
    )
    OTHER_MARK = (
        "it has the mark of another vote, [{mark}]; add it to that vote",
        "The reason: it has the mark of another vote. To vote here, answer a letter of this vote.",
    )
    OLD_MARK = (
        "it has the mark of a call that was taken back, [{mark}]; look whether its options were the same",
        "The reason: it has the mark of a call that was taken back. To vote, answer a later letter of this vote.",
    )
    # the ballots of the elector that are in
    LATER_BALLOT = "a later ballot of {elector}, of {time}, was entered already", LATER_ONE
    SAME_TIME = (
        "another ballot of {elector} has the same time, {time}",
        "The reason: another ballot of this elector has the same time.",
    )
    CAME_BEFORE = (
        "it is a copy, of {time}, of a letter of {first} that was read before, and {elector} "
        "has a ballot of {between}, between the two",
        "The reason: it came twice, and another ballot of this elector came between.",
    )
    # its signature
    NOT_SIGNED = "not signed", "The reason: not signed."
    NOT_WHOLE = (
        "the letter has more than the signed text",
        "The reason: it has more than what is signed.",
    )
    ODD_LINES = (
        "the signed text has a control character, or a line of more than 998 bytes",
        SIGNATURE_UNREAD,
    )
    BAD_SIGNATURE = "its signature does not fit this text", SIGNATURE_UNREAD
    UNREAD_SIGNATURE = "gpgv can't check its signature", SIGNATURE_UNREAD
    SLOW_SIGNATURE = "gpgv did not answer about its signature in time", LOOKED_AT
    PERHAPS_COPY = (
        "it may be a copy of a letter that was dealt with, about which gpgv did not answer in time",
        LOOKED_AT,
    )
    EXPIRED_SIGNATURE = "its signature has expired", SIGNATURE_UNREAD
    EXPIRED_KEY = "signed with a key that has expired: {key}", LAPSED_KEY
    REVOKED_KEY = "signed with a key that was revoked: {key}", LAPSED_KEY
    UNKNOWN_KEY = "signed with a key that is not in the keyring: {key}", ANOTHER_KEY
    WEAK_DIGEST = (
        "its signature uses a digest that is too weak, number {digest} of OpenPGP",
        SIGNATURE_UNREAD,
    )
    NO_KEY = "the list of members has no key for {elector}", ANOTHER_KEY
    OTHER_KEY = (
        "signed with the key {key}, but the list of members has {listed} for {elector}",
        ANOTHER_KEY,
    )
    SIGNED_BEFORE_THE_CALL = (
        "signed at {time}, before the call for votes",
        "The reason: signed before the call for votes.",
    )
    SIGNED_AHEAD = (
        "signed at {time}, which is later than it arrived",
        "The reason: signed at a time that was not yet when it arrived.",
    )
    NO_MARK = (
        "no line of the signed text is the mark of this vote, [{mark}]",
        "The reason: no line of what is signed is the mark of this vote, which is in the subject of the call, in square brackets.",
    )

    def __call__(self, **values: Value) -> ReasonWithValues:
        return ReasonWithValues(self, tuple(values.items()))


def for_secretary(why: ReasonWithValues) -> str:
    """The reason as the secretary reads it, as a part of a sentence."""
    values = {name: shown_value(value) for name, value in why.values}
    return say(why.reason.value[0], **values)


def shown_value(value: Value) -> str:
    if isinstance(value, datetime.datetime):
        return act_time(value)
    return str(value) if isinstance(value, int) else shown_text(value)


def for_elector(why: ReasonWithValues) -> str:
    """The reason as the elector reads it: a sentence to be translated; empty if there is none to
    tell.
    """
    return why.reason.value[1]
