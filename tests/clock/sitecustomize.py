"""With this folder in PYTHONPATH a program uses the time in the file that DEBVOTE_CLOCK names."""

import os

from clock import set_clock

if "DEBVOTE_CLOCK" in os.environ:
    with open(os.environ["DEBVOTE_CLOCK"]) as source:
        set_clock(source.read().strip())
