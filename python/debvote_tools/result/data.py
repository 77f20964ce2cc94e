"""A result sheet as data: `result.json` and `votes.csv` (docs/FORMATS.md)."""

import csv
import io
import json
from collections.abc import Mapping

from debvote_tools.poll.sealed import SealedPoll
from debvote_tools.sheet import Pair, Sheet

# a spreadsheet would run a name that begins so; an apostrophe before it keeps it from that
STEERING = ("=", "+", "-", "@", "'")


def result_json(sheet: Sheet, poll: SealedPoll, version: str) -> str:
    """The sheet as JSON, a key a line. A label is what people read as the name."""
    document = {
        "format": "debvote result 1",
        "program": version,
        "title": sheet.title,
        "label": poll.name,
        "electors": sheet.electors,
        "quorum": {"multiple": sheet.quorum_multiple, "votes": sheet.quorum},
        "wording": "more_than" if sheet.is_more_than else "at_least",
        "lines": sheet.lines,
        "last_envelope": sheet.last_envelope,
        "valid": sheet.valid,
        "refused": sheet.refused,
        "voters": sheet.voters,
        "options": [option_as_data(sheet, poll, option) for option in sheet.names],
        "votes": [[sheet.votes.get((a, b)) for b in sheet.names] for a in sheet.names],
        "defeats": [
            pair_as_data(pair) | {"votes": sheet.votes[pair], "against": sheet.votes[pair[::-1]]}
            for pair in sheet.defeats
        ],
        "rounds": [
            {"set": left, "removed": list(map(pair_as_data, removed))}
            for left, removed in sheet.rounds
        ],
        "outcome": outcome_as_data(sheet),
    }
    return as_json(document)


def as_json(document: Mapping[str, object]) -> str:
    """JSON with a key a line."""
    lines = (
        f"{json.dumps(key)}: {json.dumps(value, ensure_ascii=False)}"
        for key, value in document.items()
    )
    return "{\n" + ",\n".join(lines) + "\n}\n"


def outcome_as_data(sheet: Sheet) -> dict[str, object]:
    return {
        "winner": sheet.winner,
        "is_by_casting_vote": sheet.is_by_casting,
        "left": sheet.left,
        "casting_vote_outside": sheet.casting_outside,
    }


def option_as_data(sheet: Sheet, poll: SealedPoll, option: int) -> dict[str, object]:
    return {
        "number": option,
        "name": sheet.names[option],
        "label": poll.names[option - 1],
        "is_default": option == sheet.default,
        "ratio": sheet.ratios.get(option),
        "dropped": sheet.dropped.get(option),
    }


def pair_as_data(defeat: Pair) -> dict[str, int]:
    return {"over": defeat[0], "under": defeat[1]}


def votes_csv(sheet: Sheet) -> str:
    """The table of votes, a row an option: its number, its name, its ratio, how it ended, and the
    votes over each option.
    """
    table = io.StringIO()
    writer = csv.writer(table, lineterminator="\n")
    writer.writerow(["option", "name", "ratio", "ended", *sheet.names])
    for a, name in sheet.names.items():
        shown = f"'{name}" if name.startswith(STEERING) else name
        votes = [sheet.votes.get((a, b), "") for b in sheet.names]
        writer.writerow([a, shown, sheet.ratios.get(a, ""), sheet.ended(a), *votes])
    return table.getvalue()
