#!/usr/bin/python3
"""Times debvote beside the plain counter of this project (plain.rs), and beside another debvote.

    compare.py PROGRAM [--before PROGRAM] [--rounds R] [--same S] [--at-most-.. X ..]

PROGRAM is the built debvote. The large election has 16 options, 10,000 electors and 100,000
lines; elections.py writes it, and smaller ones, to a folder that is gone at the end. rustc builds
the plain counter, which also runs with the bookkeeping of debvote (--like).

First every sheet is compared with the plain counter's, and S further counts at 8 desks. Then each
round runs every candidate once, in an order drawn anew, so that neighbours meet the same noise;
of a candidate's runs the median counts, and where it says so the least. With --before another
built debvote runs in the same rounds, also with 2, 4, 8 and 32 options.

Where valgrind is installed it counts the instructions of a count at one desk, which are the same
whatever else the machine does. Where belenios-tool is installed it counts by Schulze's method the
ballots that stand in the election of 10,000 lines; it reads them as JSON, and keeps no history.

Each --at-most-.. is a bound on a figure of the program at the end; beyond it the script fails.
"""

import argparse
import json
import math
import os
import random
import re
import shutil
import statistics
import subprocess
import sys
import tempfile
import time

import elections

HERE = os.path.dirname(os.path.abspath(__file__))
LARGE = (16, 100_000)
FEWER_LINES = [(16, 1_000), (16, 10_000)]
OTHER_OPTIONS = [(2, 100_000), (4, 100_000), (8, 100_000), (32, 100_000)]
DESKS = (1, 2, 4, 8)
BELENIOS = "exec belenios-tool method schulze --nchoices %d --blank-allowed=false < '%s'"


def count(program, files, desks=1):
    return [*program, "count", "--poll", files[0], "--ballots", files[1], "--desks", str(desks)]


def steps(program, files):
    return [*program, "steps", "--poll", files[0], "--ballots", files[1]]


def sheet(words):
    done = subprocess.run(words, stdout=subprocess.PIPE, stderr=subprocess.PIPE)
    if done.returncode not in (0, 1):
        sys.exit(f"status {done.returncode} of {' '.join(words)}: {done.stderr.decode()}")
    return done.stdout


def wall_time(words):
    """Milliseconds of one run, whose output is thrown away."""
    start = time.perf_counter()
    subprocess.run(words, stdout=subprocess.DEVNULL, stderr=subprocess.DEVNULL)
    return (time.perf_counter() - start) * 1000


def peak_memory(words):
    """MiB of one run, by GNU time: what Python measures of its own child may have Python's memory in it."""
    done = subprocess.run(["/usr/bin/time", "-q", "-f", "%M", *words], stdout=subprocess.DEVNULL, stderr=subprocess.PIPE)
    return int(done.stderr.split()[-1]) / 1024


def instructions(words):
    """Millions of instructions of one run, by callgrind."""
    callgrind = ["valgrind", "--tool=callgrind", "--callgrind-out-file=/dev/null"]
    done = subprocess.run([*callgrind, *words], stdout=subprocess.DEVNULL, stderr=subprocess.PIPE, text=True)
    return int(re.search(r"Collected : (\d+)", done.stderr)[1]) / 1e6


def belenios(program, size, files, folder):
    """What counts the ballots that stand with Belenios."""
    standing = sheet([*program, "standing", "--poll", files[0], "--ballots", files[1]]).decode()
    ballots = [[int(rank) for rank in line.split(" ")[1].split(",")] for line in standing.splitlines()]
    file = os.path.join(folder, "belenios.json")
    with open(file, "w") as target:
        json.dump(ballots, target)
    return ["sh", "-c", BELENIOS % (size[0], file)]


def timed(candidates, rounds):
    """The times of each candidate: every round runs each once."""
    rng = random.Random(1)
    times = {name: [] for name in candidates}
    for _ in range(rounds):
        for name in rng.sample(list(candidates), len(candidates)):
            times[name].append(wall_time(candidates[name]))
    return times


def compare_sheets(programs, plain, files, same):
    """Every sheet is the plain counter's."""
    compared = 0
    for size, names in files.items():
        wanted = sheet(count(plain, names))
        others = [(program, desks) for program in programs for desks in DESKS] + [([*plain, "--like"], 8)]
        if size == LARGE:
            others += [(programs[0], 8)] * same
        for program, desks in others:
            compared += 1
            if sheet(count(program, names, desks)) != wanted:
                sys.exit(f"another sheet by {program[0]} at {desks} desks, {size[0]} options and {size[1]} lines")
    print(f"{compared} sheets compared, all as the plain counter's")


def candidates_of(program, before, plain, files):
    """What is run in each round, by name."""
    large = files[LARGE]
    runs = {f"count, {desks} desks": count(program, large, desks) for desks in DESKS}
    runs["steps"] = steps(program, large)
    for desks in DESKS:
        runs[f"plain, {desks} desks"] = count(plain, large, desks)
        runs[f"plain --like, {desks} desks"] = count([*plain, "--like"], large, desks)
    for size in FEWER_LINES:
        runs[f"count, {size[1]} lines"] = count(program, files[size])
    if before:
        runs |= {f"before: count, {desks} desks": count(before, large, desks) for desks in DESKS}
        runs["before: steps"] = steps(before, large)
        for size in FEWER_LINES:
            runs[f"before: count, {size[1]} lines"] = count(before, files[size])
        for size in OTHER_OPTIONS:
            runs[f"count, {size[0]} options"] = count(program, files[size])
            runs[f"before: count, {size[0]} options"] = count(before, files[size])
    return runs


def growth(times, before):
    """The exponent of the time in the lines: of ten times the lines, the greater of the two."""
    of = [statistics.median(times[f"{before}count, {lines} lines"]) for _, lines in FEWER_LINES]
    of.append(statistics.median(times[f"{before}count, 1 desks"]))
    return max(math.log10(more / less) for less, more in zip(of, of[1:]))


def figures(times, memory, before=""):
    """What a program is measured by: the word of each figure's bound, its words, and the figure."""
    median = {name: statistics.median(runs) for name, runs in times.items()}
    best = {name: min(min(times[f"{name}, {desks} desks"]) for desks in DESKS) for name in (f"{before}count", "plain --like")}
    one, plain = median[f"{before}count, 1 desks"], median["plain, 1 desks"]
    yield "best", "best desks beside --like, least", best[f"{before}count"] / best["plain --like"]
    yield "one-desk", "one desk beside plain", one / plain
    yield "steps", "steps beside plain", median[f"{before}steps"] / plain
    yield "four-desks", "4 desks beside one desk", median[f"{before}count, 4 desks"] / one
    yield "eight-desks", "8 desks beside one desk", median[f"{before}count, 8 desks"] / one
    yield "memory", "peak memory, MiB", memory
    yield "growth", "growth in the lines, exponent", growth(times, before)


def figures_of_others(times, executed):
    """What is measured by another tool, where it is installed: instructions beside plain, and Belenios beside a count."""
    if executed:
        yield "instructions", "instructions of one desk beside plain", executed["count"] / executed["plain"]
    if "belenios" in times:
        ratio = statistics.median(times["belenios"]) / statistics.median(times[f"count, {FEWER_LINES[-1][1]} lines"])
        yield "belenios", f"Belenios beside a count of {FEWER_LINES[-1][1]} lines", ratio


def figures_beside(times):
    """How long the program takes with other numbers of options beside the one before."""
    for options, _ in OTHER_OPTIONS:
        name = f"count, {options} options"
        yield "before", f"{options} options beside before, least", min(times[name]) / min(times[f"before: {name}"])


def parsed():
    parser = argparse.ArgumentParser()
    parser.add_argument("program")
    parser.add_argument("--before")
    parser.add_argument("--rounds", type=int, default=15)
    parser.add_argument("--same", type=int, default=0)
    for bound in ("best", "one-desk", "steps", "four-desks", "eight-desks", "memory", "growth", "instructions", "before"):
        parser.add_argument(f"--at-most-{bound}", type=float)
    return parser.parse_args()


def main():
    args = parsed()
    program, before = [args.program], [args.before] if args.before else None
    with tempfile.TemporaryDirectory() as folder:
        plain = [os.path.join(folder, "plain")]
        source = os.path.join(HERE, "plain.rs")
        subprocess.run(["rustc", "--edition", "2021", "-C", "opt-level=3", "-o", plain[0], source], check=True)
        sizes = [LARGE, *FEWER_LINES, *(OTHER_OPTIONS if before else [])]
        files = {size: elections.write(folder, *size) for size in sizes}
        compare_sheets([program, before] if before else [program], plain, files, args.same)
        candidates = candidates_of(program, before, plain, files)
        if shutil.which("belenios-tool"):
            candidates["belenios"] = belenios(program, FEWER_LINES[-1], files[FEWER_LINES[-1]], folder)
        times = timed(candidates, args.rounds)
        memory = {tuple(p): max(peak_memory(count(p, files[LARGE], desks)) for desks in DESKS) for p in (program, before) if p}
        counted = {"count": program, "plain": plain, **({"before: count": before} if before else {})}
        executed = {name: instructions(count(p, files[LARGE])) for name, p in counted.items()} if shutil.which("valgrind") else {}
    for name, runs in times.items():
        print(f"{name:30} median {statistics.median(runs):7.1f} ms, least {min(runs):7.1f} ms")
    for name, millions in executed.items():
        print(f"{name + ', 1 desk':30} {millions:7.1f} million instructions")
    if before:
        for _, words, figure in figures(times, memory[tuple(before)], "before: "):
            print(f"before: {words:34} {figure:6.2f}")
    failed = False
    found = [*figures(times, memory[tuple(program)]), *figures_of_others(times, executed)]
    for bound, words, figure in [*found, *(figures_beside(times) if before else [])]:
        most = getattr(args, f"at_most_{bound.replace('-', '_')}", None)
        is_above = most is not None and figure > most
        failed |= is_above
        print(f"{words:34} {figure:6.2f}" + (f", above {most}" if is_above else ""))
    return 1 if failed else 0


if __name__ == "__main__":
    sys.exit(main())
