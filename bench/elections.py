"""Writes the elections that the benchmarks count. An election has the same bytes each time.

There are 10,000 electors. Voters are drawn at random, so that with 100,000 lines most lines are
recasts; one line in a hundred is no ballot. All rank the default option last.
"""

import os
import random

ELECTORS = 10_000


def voter_name(voter):
    return f"voter.{voter:05}"


def ranks(rng, options):
    """A noisy circle of options: many near ties and some cycles; some ranks are equal."""
    others = options - 1
    start = rng.randrange(others)
    place = [(option - start) % others + rng.gauss(0, others / 3) for option in range(others)]
    row = [0] * others
    for rank, option in enumerate(sorted(range(others), key=place.__getitem__), 1):
        row[option] = rank
    for option in range(others):
        if rng.random() < 0.1:
            row[option] = rng.randint(1, others)
    return row + [options]


def no_ballot(rng, line):
    """A line that is no ballot, made of one that is."""
    return rng.choice([
        "bad", "", line + " ", line + ",", line.replace(" ", "  "), "nobody" + line[11:], line + ",1", line + "\r",
        "x" * 201,
    ])


def write_poll(file, options):
    names = ", ".join(f'"Option {option}"' for option in range(1, options))
    roll = ",\n  ".join(f'"{voter_name(voter)}"' for voter in range(ELECTORS))
    file.write(f'title = "Benchmark"\noptions = [{names}]\nratios = [{", ".join(["1"] * (options - 1))}]\n')
    file.write(f'default = "None of the above"\nquorum = 0\nroll = [\n  {roll},\n]\n')


def write_ballots(file, options, lines):
    rng = random.Random(f"bench/{options}/{lines}")
    for _ in range(lines):
        line = f"{voter_name(rng.randrange(ELECTORS))} " + ",".join(map(str, ranks(rng, options)))
        file.write((no_ballot(rng, line) if rng.random() < 0.01 else line) + "\n")


def write(folder, options, lines):
    """Writes an election to a folder of its own, and gives the names of its poll and its ballot file."""
    here = os.path.join(folder, f"{options}_options_{lines}_lines")
    os.makedirs(here)
    poll, ballots = os.path.join(here, "poll.toml"), os.path.join(here, "ballots")
    with open(poll, "w") as file:
        write_poll(file, options)
    with open(ballots, "w", newline="") as file:
        write_ballots(file, options, lines)
    return poll, ballots
