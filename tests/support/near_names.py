#!/usr/bin/python3
"""Says which names are near to a name that does not exist, or how to list all.

    tests/support/near_names.py crate NAME    ends with 0 if crates.txt has the crate, else says which are near, and ends with 1
"""

import difflib
import pathlib
import sys

ROOT = pathlib.Path(__file__).resolve().parent.parent.parent


def lines_of_crates():
    """The lines of crates.txt by their crates, lowest first."""
    lines = [
        line.partition("#")[0].strip() for line in (ROOT / "crates.txt").read_text().splitlines()
    ]
    return {line.partition(":")[0].split()[0]: line for line in lines if line}


def crates():
    """The names of all crates, lowest first."""
    return list(lines_of_crates())


def lines_below(*crates):
    """The lines of crates.txt for these crates and those that they use, directly or not, by crate."""
    lines = lines_of_crates()
    below: dict[str, str] = {}
    left = list(crates)
    while left:
        name = left.pop()
        if name in lines and name not in below:
            below[name] = lines[name]
            left += lines[name].partition(":")[2].split()
    return below


def words_of_missing(kind, name, names, listed_by):
    """What to say about a name that does not exist: names that are near or contain it, or else how to list all."""
    names = list(names)
    near = [known for known in names if name and name in known][:5] or difflib.get_close_matches(
        name, names, n=5, cutoff=0.45
    )
    said = f"there is no {kind} {name}" if name else f"say which {kind}"
    return f"{said}; near are {', '.join(near)}" if near else f"{said}; {listed_by} lists them"


def main():
    if len(sys.argv) != 3 or sys.argv[1] != "crate":
        print(__doc__.strip())
        return 2
    if sys.argv[2] in crates():
        return 0
    print(words_of_missing("crate", sys.argv[2], crates(), "crates.txt"), file=sys.stderr)
    return 1


if __name__ == "__main__":
    sys.exit(main())
