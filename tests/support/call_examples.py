"""The call for votes that tests of its page and its letters begin with, and its other kinds."""

import dataclasses
import datetime

from debvote_tools.call.call import CallData
from debvote_tools.poll.questions import Questions
from debvote_tools.poll.sealed import SealedPoll, with_roll
from debvote_tools.text.language import language_of


def alone(poll: SealedPoll) -> Questions:
    """The one question of an election."""
    return Questions({"": poll})


UNTIL = datetime.datetime(2026, 12, 4, 18, tzinfo=datetime.timezone(datetime.timedelta(hours=1)))
ADDRESS, PAGE = "vote+club@example.org", "https://example.org/vote/"
ROLL = ("ada", "ben", "cleo", "dan")
CODES = tuple(f"{number:x}" * 32 for number in range(10, 14))
POLL = SealedPoll(
    "Where we meet",
    ("At the lake", "72 Euro", "Sell the house"),
    (1, 1, 3),
    default="None of the above",
    quorum=1,
    roll=ROLL,
    deadline=UNTIL.isoformat(),
    address=ADDRESS,
)
CALL = CallData(
    language_of("en"),
    alone(POLL),
    {"": 2},
    until=UNTIL,
    to=ADDRESS,
    at=PAGE,
    real_names=None,
    is_signed=False,
    box_key=b"",
    has_slips=True,
    letter_text="",
    has_aliases=False,
    has_codes_on_roll=False,
    has_lapsed_codes=False,
)
SECRET = dataclasses.replace(
    CALL,
    questions=alone(dataclasses.replace(with_roll(POLL, CODES), secret=True)),
    has_aliases=True,
)
WITH_CODES = dataclasses.replace(SECRET, has_aliases=False, has_codes_on_roll=True)
KINDS = {
    "open": CALL,
    "secret": SECRET,
    "codes": WITH_CODES,
    "signed": dataclasses.replace(CALL, is_signed=True),
}
