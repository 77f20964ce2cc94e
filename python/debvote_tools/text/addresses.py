"""Mail addresses, as they are compared, and those that every mail server takes."""

import re
import string
from collections.abc import Iterable

MAIL = re.compile(r"[A-Za-z0-9_][A-Za-z0-9._+=-]*@[A-Za-z0-9-]+(\.[A-Za-z0-9-]+)*")
MAIL_LIMIT = 254


def is_mail_address(text: str) -> bool:
    """Whether a text is one plain mail address, which every mail server takes."""
    return len(text) <= MAIL_LIMIT and MAIL.fullmatch(text) is not None


def address_in(addresses: Iterable[str]) -> str:
    """The first of some addresses that every mail server takes; empty if there is none."""
    return next(filter(is_mail_address, addresses), "")


# without comments and quotation marks, in any script (RFC 5322, 3.4.1, and RFC 6531)
ADDRESS = re.compile(r'[^\s<>@,;:"()\[\]\\]+@[^\s<>@,;:"()\[\]\\]+')
SMALL = str.maketrans(string.ascii_uppercase, string.ascii_lowercase)


def address_key(address: str) -> str:
    """An address as it is compared: without case, in ASCII."""
    return address.strip().translate(SMALL)
