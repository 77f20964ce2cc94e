"""With this folder in PYTHONPATH the clock of a program stands still, and its random bytes are always the same.

DEBVOTE_FIXED has the time, a blank, and a text from which the random bytes are made: each run of a program wants a text of its own.
"""

import datetime
import hashlib
import itertools
import os

if "DEBVOTE_FIXED" in os.environ:
    time, _, seed = os.environ["DEBVOTE_FIXED"].partition(" ")
    fixed, numbers = datetime.datetime.fromisoformat(time), itertools.count()

    class Clock(datetime.datetime):
        @classmethod
        def now(cls, tz: datetime.tzinfo | None = None) -> datetime.datetime:
            return (
                fixed.astimezone(tz) if tz is not None else fixed.astimezone().replace(tzinfo=None)
            )

    def urandom(size: int) -> bytes:
        return hashlib.shake_256(f"{seed} {next(numbers)}".encode()).digest(size)

    datetime.datetime = Clock  # type: ignore[misc]
    os.urandom = urandom
