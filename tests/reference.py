#!/usr/bin/python3
"""The count of debvote a second time, written from docs/DEFINITIONS.md and docs/FORMATS.md alone.

It is made to be read, not to be fast. Each function says what it stands for: 4.2 and A.5.1 to A.5.8 are sections of the
Constitution of the Debian project, and a name such as "Ballot file" is a section of docs/FORMATS.md.
It runs as debvote does at one desk: `tests/reference.py count --poll FILE --ballots FILE [--casting NAME]`, and so on.
Options are numbered from 1, the default option as the last; electors from 0; envelopes (lines) and rounds from 1.
"""

import argparse
import functools
import itertools
import math
import operator
import re
import sys
import tomllib

# in bytes
POLL_LIMIT, BALLOTS_LIMIT, JOINED_LIMIT = 1_048_576, 33_554_432, 34_603_011
MOST_LINES = 100_000


class Fault(Exception):
    """A fault: the words of its line on standard error, and the exit status."""


# ---------------------------------------------------------------- the poll file
# the keys and their kinds; of several that are missing or of another kind, the first here is told
REQUIRED = {
    "title": str,
    "options": [str],
    "ratios": [int],
    "default": str,
    "quorum": int,
    "roll": [str],
}
OPTIONAL = {"last_envelope": int, "wording": str}


class Poll:
    """Poll file: what a poll without fault says."""

    def __init__(self, table):
        self.title = table["title"]
        self.names = dict(enumerate(table["options"] + [table["default"]], start=1))
        self.ratios = dict(enumerate(table["ratios"], start=1))
        self.options = list(self.names)
        self.default = len(self.names)
        self.quorum = table["quorum"]
        self.roll = table["roll"]
        self.voters = {name: voter for voter, name in enumerate(self.roll)}
        self.last_envelope = table.get("last_envelope")
        self.is_more_than = table.get("wording") == "more_than"


def is_of_kind(value, kind):
    """Whether a value is a text (str), a whole number (int), or a list of them ([str], [int])."""
    if isinstance(kind, list):
        return isinstance(value, list) and all(is_of_kind(entry, kind[0]) for entry in value)
    return type(value) is kind


def has_a_number_too_large(value):
    """Whether a whole number has more than the 64 bits that TOML allows. (Python reads a number of any size.)"""
    if isinstance(value, (dict, list)):
        return any(
            map(has_a_number_too_large, value.values() if isinstance(value, dict) else value)
        )
    return is_of_kind(value, int) and not -(2**63) <= value < 2**63


def float_of(text):
    """A number with a point or an exponent. (Python makes one that is too large infinite, and the program refuses it.)"""
    number = float(text)
    if math.isinf(number) and "inf" not in text:
        raise ValueError(text)
    return number


# a run asks for the same poll and ballots again, so what was read last is kept
@functools.lru_cache(1)
def toml_of(data):
    """Poll file: its table. (Python reads TOML 1.0. The program reads 1.1, which allows a little more.)"""
    try:
        table = tomllib.loads(data.decode("utf-8").removeprefix("\ufeff"), parse_float=float_of)
    except (ValueError, RecursionError):
        table = None
    if table is None or has_a_number_too_large(table):
        raise refused("syntax")
    return table


# the shapes of names; " -~" are the bytes 0x20 to 0x7E
TITLE = r"[ -~]{1,80}"
OPTION_NAME = r"(?! )[ -~]{1,40}(?<! )"
VOTER_NAME = r"[a-z0-9.-]{1,32}"


def bad_places(names, shape):
    """The positions, from 0, of the names that have another shape or repeat an earlier name."""
    earlier = set()
    for place, name in enumerate(names):
        if not re.fullmatch(shape, name) or name in earlier:
            yield place
        earlier.add(name)


def refused(words):
    """Fault lines: a fault of the poll."""
    return Fault(f"poll refused: {words}", 3)


def faults_of(table):
    """Fault lines: the faults of a poll file's table, in their order. Only the first counts: a check relies on those above."""
    for key, kind in (REQUIRED | OPTIONAL).items():
        if (key in REQUIRED or key in table) and not is_of_kind(table.get(key), kind):
            yield f"key {key}"
    names, ratios = table["options"] + [table["default"]], table["ratios"]
    if not re.fullmatch(TITLE, table["title"]):
        yield "title"
    if not 2 <= len(names) <= 32:
        yield "number of options"
    for place in bad_places(names, OPTION_NAME):
        yield f"name of option {place + 1}"
    if len(ratios) != len(names) - 1 or not all(1 <= ratio <= 10 for ratio in ratios):
        yield "ratios"
    if not 0 <= table["quorum"] <= 10:
        yield "quorum"
    if not 1 <= len(table["roll"]) <= 10_000:
        yield "size of roll"
    for place in bad_places(table["roll"], VOTER_NAME):
        yield f"voter at position {place}"
    if not 0 <= table.get("last_envelope", 0) <= MOST_LINES:
        yield "last envelope"
    if table.get("wording", "at_least") not in ("at_least", "more_than"):
        yield "wording"


@functools.lru_cache(1)
def poll_in(data):
    """Poll file: the poll that its bytes mean, or the first of its faults."""
    table = toml_of(data)
    words = next(faults_of(table), None)
    if words is not None:
        raise refused(words)
    return Poll(table)


# ---------------------------------------------------------------- lines, ballots and replies
LINE = re.compile(rb"([a-z0-9.-]{1,32}) ((?:-|[1-9][0-9]?)(?:,(?:-|[1-9][0-9]?))*)")


def lines_of(text):
    """Ballot file: its lines, of which the last may lack its line feed."""
    lines = text.removesuffix(b"\n").split(b"\n") if text else []
    if len(lines) > MOST_LINES:
        raise Fault("ballots refused: too many lines", 4)
    return lines


def reading(poll, line):
    """Ballot file: a line's voter, by number, and ranks as they are written, or the words for what is bad about the line."""
    shape = LINE.fullmatch(line)
    if shape is None or len(line) > 200:
        return "bad shape"
    if shape[2].count(b",") + 1 != len(poll.names):
        return "bad rank count"
    voter = poll.voters.get(shape[1].decode())
    return "bad not on roll" if voter is None else (voter, shape[2])


def replies_and_last_ballots(poll, lines):
    """Lines of `steps`: the reply to each line, cast in order by one desk; and the last valid ballot of each voter."""
    replies, last_ballots = [], {}
    for envelope, line in enumerate(lines, start=1):
        read = reading(poll, line)
        if poll.last_envelope is not None and envelope > poll.last_envelope:
            replies.append("late")
        elif isinstance(read, str):
            replies.append(read)
        else:
            voter, ranks = read
            replies.append("replaced" if voter in last_ballots else "counted")
            last_ballots[voter] = ranks
    return replies, {voter: ranks_in(ranks) for voter, ranks in last_ballots.items()}


def ranks_in(text):
    """The ranks of a valid line, None for a hyphen."""
    return [None if rank == b"-" else int(rank) for rank in text.split(b",")]


@functools.lru_cache(1)
def all_replies_and_last_ballots(poll, ballots):
    """The same of a whole ballot file."""
    return replies_and_last_ballots(poll, lines_of(ballots))


def votes_of(poll, last_ballots):
    """A.5.1, A.5.3: V(A,B), the number of voters who prefer A to B, for each two options.

    A ballot prefers A to B if it ranks A, and leaves B unranked or gives it a greater rank. So no rank counts as one that is
    greater than all others.
    """
    ranks_of = {option: [] for option in poll.options}
    for ranks in last_ballots.values():
        for option, rank in zip(poll.options, ranks):
            ranks_of[option].append(100 if rank is None else rank)
    pairs = itertools.permutations(poll.options, 2)
    # two options have their ranks on one ballot at the same place
    return {(a, b): sum(map(operator.lt, ranks_of[a], ranks_of[b])) for a, b in pairs}


# ---------------------------------------------------------------- the count
def meets_quorum(poll, number):
    """4.2, A.5.2: so many votes are at least `quorum` times Q, which is half of the square root of the number of electors."""
    return (2 * number) ** 2 >= poll.quorum**2 * len(poll.roll)


def meets_majority(poll, votes, option):
    """A.5.3: the votes over the default are at least `ratio` times those under it, and more; or more than `ratio` times."""
    over, under = votes[option, poll.default], votes[poll.default, option]
    if poll.is_more_than:
        return over > poll.ratios[option] * under
    return over >= poll.ratios[option] * under and over > under


def dropped_options(poll, votes):
    """A.5.2, A.5.3: the options that are dropped, each with its cause. The default option is never dropped."""
    dropped = {}
    for option in poll.options[:-1]:
        if not meets_quorum(poll, votes[option, poll.default]):
            dropped[option] = "quorum"
        elif not meets_majority(poll, votes, option):
            dropped[option] = "majority"
    return dropped


def defeats_among(kept, votes):
    """A.5.4: A defeats B if more voters prefer A to B than B to A."""
    return {(a, b) for a in kept for b in kept if a != b and votes[a, b] > votes[b, a]}


def transitive_defeats(kept, defeats):
    """A.5.5: A transitively defeats C if there is a list of options from A to C, each of which defeats the next."""
    chains = set(defeats)
    while True:
        longer = {(a, c) for a, b in chains for c in kept if (b, c) in defeats}
        if longer <= chains:
            return chains
        chains |= longer


def schwartz_set(kept, defeats):
    """A.5.6: A is in it if, for every option B, A transitively defeats B, or B does not transitively defeat A."""
    chains = transitive_defeats(kept, defeats)
    return [a for a in kept if all((a, b) in chains or (b, a) not in chains for b in kept)]


def is_weaker(votes, one, other):
    """A.5.7: (A,X) is weaker than (B,Y) if V(A,X) is less than V(B,Y), or both are equal and V(X,A) is greater than V(Y,B)."""
    (a, x), (b, y) = one, other
    return votes[a, x] < votes[b, y] or (votes[a, x] == votes[b, y] and votes[x, a] > votes[y, b])


def weakest_defeats(defeats, votes):
    """A.5.7: the defeats for which no other is weaker; there may be several."""
    return {one for one in defeats if not any(is_weaker(votes, other, one) for other in defeats)}


def rounds_of(kept, votes):
    """A.5.6, A.5.7: each round's Schwartz set, and the weakest defeats within it, which are removed. The last has none."""
    defeats = defeats_among(kept, votes)
    rounds = []
    while True:
        final = schwartz_set(kept, defeats)
        within = {(a, b) for a, b in defeats if a in final and b in final}
        removed = weakest_defeats(within, votes)
        rounds.append((final, removed))
        if not removed:
            return rounds
        defeats -= removed


# ---------------------------------------------------------------- the texts
def decision_of(poll, final, casting):
    """A.5.8; Result sheet, 13: the last line, and the exit status."""
    numbers = " ".join(map(str, final))
    if len(final) == 1:
        return f"Winner: {final[0]} {poll.names[final[0]]}", 0
    if casting is None:
        return f"Tie: {numbers}", 1
    if casting in final:
        return f"Winner: {casting} {poll.names[casting]} by casting vote", 0
    return f"Tie: {numbers}, casting option {casting} is not among them", 8


def heading(poll, replies, last_ballots):
    """Result sheet, 1 to 7: what stands above the options, with the least number of votes that meets the quorum."""
    least = next(number for number in itertools.count() if meets_quorum(poll, number))
    valid = sum(reply in ("counted", "replaced") for reply in replies)
    yield f"Poll: {poll.title}"
    yield f"Electors: {len(poll.roll)}"
    yield f"Quorum: {poll.quorum}Q, {least} votes"
    if poll.is_more_than:
        yield "Majority: more than"
    yield f"Lines: {len(replies)}"
    if poll.last_envelope is not None:
        yield f"Last envelope: {poll.last_envelope}"
    yield f"Valid: {valid}"
    yield f"Refused: {len(replies) - valid}"
    yield f"Voters: {len(last_ballots)}"


def tables(poll, votes):
    """Result sheet, 8 and 9: the options, and V(A,B) for each two."""
    yield "Options:"
    for option in poll.options:
        kind = "default" if option == poll.default else f"ratio {poll.ratios[option]}"
        yield f"{option:3} {kind} {poll.names[option]}"
    yield "Votes:"
    yield "   " + "".join(f"{b:6}" for b in poll.options)
    for a in poll.options:
        yield f"{a:3}" + "".join(f"{'-' if a == b else votes[a, b]:>6}" for b in poll.options)


def outcome(votes, dropped, defeats, rounds):
    """Result sheet, 10 to 12: what is dropped, the defeats, and the rounds."""
    yield "Dropped:"
    yield from (f"{option:3} {cause}" for option, cause in dropped.items()) if dropped else [
        "  none"
    ]
    yield "Defeats:"
    yield from (
        f"{a:3} over {b} by {votes[a, b]} to {votes[b, a]}" for a, b in sorted(defeats)
    ) if defeats else ["  none"]
    for number, (final, removed) in enumerate(rounds, start=1):
        yield f"Round {number}: " + " ".join(map(str, final))
        yield from (f"  drop {a} over {b}" for a, b in sorted(removed))


def text_of(lines):
    """The lines, each with its line feed."""
    return "".join(f"{line}\n" for line in lines)


def sheet_but_decision(poll, ballots):
    """Result sheet, 1 to 12: its lines, and the final set. A casting vote changes neither."""
    replies, last_ballots = all_replies_and_last_ballots(poll, ballots)
    votes = votes_of(poll, last_ballots)
    dropped = dropped_options(poll, votes)
    kept = [option for option in poll.options if option not in dropped]
    rounds = rounds_of(kept, votes)
    found = outcome(votes, dropped, defeats_among(kept, votes), rounds)
    return [*heading(poll, replies, last_ballots), *tables(poll, votes), *found], rounds[-1][0]


def count(poll_data, ballots, casting_name=None):
    """Result sheet: the whole of it, and the exit status."""
    poll = poll_in(poll_data)
    if casting_name is not None and casting_name not in poll.names.values():
        raise Fault("casting option is not in the poll", 8)
    casting = next((option for option in poll.options if poll.names[option] == casting_name), None)
    lines, final = sheet_but_decision(poll, ballots)
    decision, status = decision_of(poll, final, casting)
    return text_of([*lines, decision]), status


def steps(poll_data, ballots):
    """Lines of `steps`: the number of each envelope, and its reply."""
    poll = poll_in(poll_data)
    replies, _ = all_replies_and_last_ballots(poll, ballots)
    return text_of(f"{envelope} {reply}" for envelope, reply in enumerate(replies, start=1))


def standing(poll_data, ballots):
    """Ballots that stand: of each voter, in the order of the roll, the last valid ballot."""
    poll = poll_in(poll_data)
    _, last_ballots = all_replies_and_last_ballots(poll, ballots)
    lines = [(poll.roll[voter], last_ballots[voter]) for voter in sorted(last_ballots)]
    return text_of(
        f"{name} {','.join('-' if rank is None else str(rank) for rank in ranks)}"
        for name, ranks in lines
    )


def check(poll_data):
    """Lines of `check`: its one line."""
    poll = poll_in(poll_data)
    return f"poll ok: {len(poll.names)} options, {len(poll.roll)} electors\n"


def joined_parts(data):
    """Joined input: the bytes before and behind the first line that is exactly %%. Without one, all bytes are the poll's."""
    separator = re.search(rb"^%%(\n|\Z)", data, re.MULTILINE)
    return (data[: separator.start()], data[separator.end() :]) if separator else (data, b"")


# ---------------------------------------------------------------- secret votes
def wrong_in_secret(poll_data, ballots):
    """Secret votes: what shows that these are not the published files of one, or None. In those each line counts, once."""
    table = toml_of(poll_data)
    if table.get("secret") is not True:
        return None
    for key in ("last_envelope", "extended_to"):
        if key in table:
            return f"the poll of a secret vote is published without {key}, and this one has it"
    replies, _ = all_replies_and_last_ballots(poll_in(poll_data), ballots)
    envelope = next(
        (envelope for envelope, reply in enumerate(replies, start=1) if reply != "counted"), None
    )
    if envelope is None:
        return None
    return f"in a secret vote each published line counts, once, and the reply to line {envelope} is: {replies[envelope - 1]}"


# ---------------------------------------------------------------- the command line
def read_file(name, limit, kind):
    """Fault lines: the bytes of a file, of kind poll or ballots, or why they can't be had."""
    status = 3 if kind == "poll" else 4
    try:
        with open(name, "rb") as file:
            data = file.read(limit + 1)
    except (OSError, ValueError):
        raise Fault(f"{kind} unreadable", status)
    if len(data) > limit:
        raise Fault(f"{kind} too long", status)
    return data


def command_line(words):
    """Command line: the command and its values, if there are words. A fault of the words ends with status 2."""
    parser = argparse.ArgumentParser(allow_abbrev=False)
    commands = parser.add_subparsers(dest="command")
    known_options = {
        "count": "poll ballots desks casting",
        "standing": "poll ballots",
        "steps": "poll ballots",
        "check": "poll",
    }
    for command, options in known_options.items():
        known = commands.add_parser(command, allow_abbrev=False)
        for option in options.split():
            choices = list("12345678") if option == "desks" else None
            known.add_argument(
                f"--{option}", required=option in ("poll", "ballots"), choices=choices
            )
    return parser.parse_args(words)


def answer(words):
    """What the program writes for these words, and its exit status."""
    asked = command_line(words)
    if asked.command is None:
        return steps(*joined_parts(read_file(0, JOINED_LIMIT, "ballots"))), 0
    poll_data = read_file(asked.poll, POLL_LIMIT, "poll")
    if asked.command == "check":
        return check(poll_data), 0
    ballots = read_file(asked.ballots, BALLOTS_LIMIT, "ballots")
    if asked.command == "steps":
        return steps(poll_data, ballots), 0
    if asked.command == "count":
        text, status = count(poll_data, ballots, asked.casting)
    else:
        text, status = standing(poll_data, ballots), 0
    wrong = wrong_in_secret(poll_data, ballots)
    if wrong is not None:
        raise Fault(f"this is no published secret vote, and nothing is counted: {wrong}", 9)
    return text, status


def main():
    try:
        text, status = answer(sys.argv[1:])
        sys.stdout.write(text)
    except Fault as fault:
        words, status = fault.args
        sys.stderr.write(f"{'recount' if status == 9 else 'debvote'}: {words}\n")
    sys.exit(status)


if __name__ == "__main__":
    main()
