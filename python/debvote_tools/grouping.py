"""Values by what they have in common."""

from collections.abc import Iterable
from typing import TypeVar

Key = TypeVar("Key")
Value = TypeVar("Value")


def grouped(pairs: Iterable[tuple[Key, Value]]) -> dict[Key, list[Value]]:
    """The values that have a key, in their order, by the keys in the order in which these come."""
    groups: dict[Key, list[Value]] = {}
    for key, value in pairs:
        groups.setdefault(key, []).append(value)
    return groups


def several(pairs: Iterable[tuple[Key, Value]]) -> dict[Key, list[Value]]:
    """The groups of two and more, but for that of the empty key."""
    return {key: group for key, group in grouped(pairs).items() if key and len(group) > 1}
