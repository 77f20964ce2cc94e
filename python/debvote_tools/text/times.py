"""The time by the clock, and times and dates in words."""

import datetime
from collections.abc import Sequence

from debvote_tools.text.language import ENGLISH, Language, marked

DAYS = marked(("Monday", "Tuesday", "Wednesday", "Thursday", "Friday", "Saturday", "Sunday"))
MONTHS = marked(
    (
        "January",
        "February",
        "March",
        "April",
        "May",
        "June",
        "July",
        "August",
        "September",
        "October",
        "November",
        "December",
    )
)


def now() -> datetime.datetime:
    """The time by the clock of this computer, in whole seconds."""
    return datetime.datetime.now(datetime.UTC).replace(microsecond=0)


def time_in_words(time: datetime.datetime, language: Language = ENGLISH) -> str:
    """A time as `Friday, 4 December 2026, 18:00 (UTC+01:00)`; seconds are left out if they are
    0.
    """
    return language.say(
        "{weekday}, {date}, {clock} ({offset})",
        weekday=language.say(DAYS[time.weekday()]),
        date=date_in_words(time, language),
        clock=time.strftime("%H:%M:%S" if time.second else "%H:%M"),
        offset=offset_of(time),
    )


def offset_of(time: datetime.datetime) -> str:
    """How far its clock is ahead, as `UTC+01:00`; `UTC` if it is not."""
    offset = time.strftime("%z")
    return f"UTC{offset[:3]}:{offset[3:5]}" if time.utcoffset() else "UTC"


def minute_in_words(
    time: datetime.datetime, zone: datetime.tzinfo | None, language: Language = ENGLISH
) -> str:
    """A time to the minute, as the clock of a zone shows it."""
    return time_in_words(time.astimezone(zone).replace(second=0), language)


def date_in_words(
    date: datetime.date, language: Language = ENGLISH, *, has_year: bool = True
) -> str:
    """A day, as `4 December 2026`, or as `4 December`. Some languages have another form for the
    1st.
    """
    month = language.say(MONTHS[date.month - 1])
    day = (
        language.say("1 {month}", month=month)
        if date.day == 1
        else language.say("{day} {month}", day=date.day, month=month)
    )
    return language.say("{date} {year}", date=day, year=date.year) if has_year else day


def days_in_words(days: Sequence[datetime.date], language: Language) -> list[str]:
    """Some days, each once; a year that all have stands once, behind the last."""
    is_one_year = len({day.year for day in days}) == 1
    return [
        date_in_words(day, language, has_year=day == days[-1] or not is_one_year)
        for day in dict.fromkeys(days)
    ]
