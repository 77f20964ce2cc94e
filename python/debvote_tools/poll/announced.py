"""What a call announces, as its options name it: the end of the vote, and addresses."""

import datetime
import re
import urllib.parse
import zoneinfo

from debvote_tools.cli.console import LINE_ENDS, odd_sign
from debvote_tools.cli.faults import Fault, bad_arguments
from debvote_tools.text.addresses import is_mail_address
from debvote_tools.text.times import minute_in_words, time_in_words

# `Name <ADDRESS>`, and how many characters such a name may have
NAMED = re.compile(r"(?P<quote>\"?)(?P<name>.*?)(?P=quote)\s*<(?P<address>[^<>]*)>", re.DOTALL)
NAME_LIMIT = 100

# printable ASCII without blanks, what ends an address in a letter, and the # of a personal link
WEB = re.compile(r"[!$-;=?-_a-z~]{1,500}")
# a host with its port, if it has one
HOST = re.compile(r"([A-Za-z0-9.-]*[A-Za-z0-9]|\[[0-9A-Fa-f:.]+\])(:[0-9]*)?")


# ---- the end of the vote
def parse_until(
    text: str, zone: str | None, earlier_zone: str | None = None
) -> tuple[datetime.datetime, str | None]:
    """The time that `--until` names, and its zone: its offset, `--zone`, or the zone of the end
    before; None for that of this computer.
    """
    text = text.strip()
    named = earlier_zone if zone is None else zone
    try:
        time = datetime.datetime.fromisoformat(text)
        if time.tzinfo is None and zone is None and named is not None and named[0] in "+-":
            time = datetime.datetime.fromisoformat(text + named)
        offset = time.utcoffset() or datetime.timedelta()
        # a date alone is midnight to Python
        if len(text) <= len("2026-12-04") or offset % datetime.timedelta(minutes=1):
            raise ValueError
        if time.tzinfo is None:
            return in_zone(time, named), named
    except (ValueError, OverflowError):
        reason = "it is not a date with a time of day, or there is no such day or time"
        cure = (
            'write it as "2026-12-04 18:00", as "2026-12-04 18:00+01:00" or in another form of '
            "ISO 8601, or with --zone Europe/Berlin"
        )
        raise bad_until(reason, cure) from None
    if zone is not None:
        raise bad_arguments("--zone", "the time has an offset already", "leave out one of the two")
    time = time.replace(microsecond=0)
    return time, time.isoformat()[len("2026-12-04T18:00:00") :]


def demand_future(time: datetime.datetime, by: datetime.datetime) -> None:
    if time <= by:
        clock = minute_in_words(by, time.tzinfo)
        reason = f"{time_in_words(time)} is past: by the clock of this computer it is {clock}"
        raise bad_until(reason, "write a time in the future")


def in_zone(plain: datetime.datetime, name: str | None) -> datetime.datetime:
    """The time when a clock in a zone, or of this computer, shows this, which it has to do once."""
    try:
        zone = None if name is None else zoneinfo.ZoneInfo(name)
    except (zoneinfo.ZoneInfoNotFoundError, ValueError, OSError):
        cure = "write one as Europe/Berlin, or give the offset in the time, as +01:00"
        raise bad_arguments(
            "--zone", "this computer knows no time zone of this name", cure
        ) from None
    folded = [plain.replace(fold=fold) for fold in (0, 1)]
    times = [time.replace(tzinfo=zone) if zone else time.astimezone() for time in folded]
    shown = [time.astimezone(datetime.UTC).astimezone(zone).replace(tzinfo=None) for time in times]
    where = "where this computer is" if name is None else f"in {name}"
    if plain not in shown:
        reason = (
            f"{where} there is no such time: the clocks that are put forward on that day skip it"
        )
        raise bad_until(reason, "write another time")
    if times[0].utcoffset() != times[1].utcoffset():
        both = " or ".join(f'"{time.isoformat(" ", "minutes")}"' for time in times)
        reason = f"{where} this time comes twice, since clocks are put back on that day"
        raise bad_until(reason, f"write {both}")
    # with a fixed offset it says the same on each computer
    return datetime.datetime.fromisoformat(times[0].isoformat(timespec="seconds"))


def bad_until(reason: str, cure: str) -> Fault:
    return bad_arguments("--until", reason, cure)


# ---- addresses
def named_address(text: str) -> tuple[str, str]:
    """Name and address of `Name <ADDRESS>`, or of an address alone."""
    found = NAMED.fullmatch(text.strip())
    name, address = (found["name"], found["address"]) if found else ("", text)
    demand_mail_address(address)
    if len(name) > NAME_LIMIT or odd_sign(name, refused=f'{LINE_ENDS}<>"') is not None:
        reason = (
            f"the name has to be at most {NAME_LIMIT} characters, without quotation marks, < and >"
        )
        raise bad_arguments("--to", reason, 'write it as "Name <ADDRESS>"')
    return name, address


def demand_mail_address(text: str, option: str = "--to") -> None:
    if not is_mail_address(text):
        reason = "it must be one mail address, as secretary@example.org"
        raise bad_arguments(option, reason, "write it again")


def demand_web_address(text: str) -> None:
    """Stops at what is no address by http or https, and at a user, a password or a fragment."""
    try:
        parts = urllib.parse.urlsplit(text if WEB.fullmatch(text) else "")
        if parts.scheme in ("http", "https") and parts.port != 0 and HOST.fullmatch(parts.netloc):
            return
    except ValueError:
        pass
    reason = (
        "it must be the address of a page, as https://example.org/vote/, without a part after #"
    )
    cure = "write it so, with accents as %C3%BC, or in the name of a host as xn--bcher-kva.example"
    raise bad_arguments("--at", reason, cure)
