"""A clock that tests set, for the programs that they run."""

import datetime


def set_clock(time: str):
    """Sets the clock to this time, which has its offset; there it stands, however slow the computer is."""
    known = datetime.datetime
    still = known.fromisoformat(time)

    class Kind(type(known)):
        def __instancecheck__(cls, value: object) -> bool:
            """A time is one, too, that was read by what was kept from before, as in the test of which this process is a fork."""
            return isinstance(value, known)

    class Clock(datetime.datetime, metaclass=Kind):
        @classmethod
        def now(cls, tz: datetime.tzinfo | None = None) -> datetime.datetime:
            return (
                still.astimezone(tz) if tz is not None else still.astimezone().replace(tzinfo=None)
            )

    datetime.datetime = Clock
