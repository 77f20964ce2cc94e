"""Compares what debvote-publish makes with tests/reference.py on random polls.

It compares the data, the parts of the page and the refused lines. Each poll is also one of two
questions, beside a motion. Their languages take turns. DEBVOTE_PUBLISHED_POLLS is the number of
random polls to publish, by default 200.
"""

import collections
import concurrent.futures
import contextlib
import csv
import dataclasses
import io
import json
import os
import pathlib
import random
import re
import sys
import tempfile
import tomllib

from tests import reference, reference_checks
from tests.support import forks, page_parts as pages, publishing
from tests.support.page_parts import Wrong, demand
from tests.support.polls import random_polls
from tests.support.publishing import PROGRAM
from tests.support.translations import LANGUAGES, Spoken

# how many random polls without a fault are published; from ENOUGH on all kinds of sentences have to
# occur
POLLS, ENOUGH = int(os.environ.get("DEBVOTE_PUBLISHED_POLLS", "200")), 200


@dataclasses.dataclass
class Count:
    """The count of a poll and its ballots by the reference."""

    poll: reference.Poll
    lines: list
    replies: list
    last: dict  # the ranks of the last valid ballot of each voter, by number
    votes: dict
    dropped: dict
    defeats: set
    rounds: list
    casting: int | None  # the option that the casting vote is for

    @property
    def valid(self):
        return sum(reply in ("counted", "replaced") for reply in self.replies)

    @property
    def final(self):
        return self.rounds[-1][0]

    @property
    def winner(self):
        if len(self.final) == 1:
            return self.final[0]
        return self.casting if self.casting in self.final else None

    def ended(self, option):
        """How it ended for an option, in a word: what it was dropped for, `won`, `left` in a tie or
        `lost`.
        """
        is_left = self.winner is None and option in self.final
        ended = "won" if option == self.winner else "left" if is_left else "lost"
        return self.dropped.get(option, ended)


def count_of(poll_data, ballots, casting_name):
    poll, lines = reference.poll_in(poll_data), reference.lines_of(ballots)
    replies, last = reference.replies_and_last_ballots(poll, lines)
    votes = reference.votes_of(poll, last)
    dropped = reference.dropped_options(poll, votes)
    kept = [option for option in poll.options if option not in dropped]
    numbers = {name: option for option, name in poll.names.items()}
    defeats, rounds = reference.defeats_among(kept, votes), reference.rounds_of(kept, votes)
    casting = numbers.get(casting_name)
    return Count(poll, lines, replies, last, votes, dropped, defeats, rounds, casting)


def document_of(count, version, names):
    """The document of result.json, by docs/FORMATS.md."""
    poll, votes = count.poll, count.votes
    return {
        "format": "debvote result 1",
        "program": version,
        "title": poll.title,
        "label": names.get(0, poll.title),
        "electors": len(poll.roll),
        "quorum": {"multiple": poll.quorum, "votes": pages.least_of(count)},
        "wording": "more_than" if poll.is_more_than else "at_least",
        "lines": len(count.lines),
        "last_envelope": poll.last_envelope,
        "valid": count.valid,
        "refused": len(count.lines) - count.valid,
        "voters": len(count.last),
        "options": [
            {
                "number": o,
                "name": name,
                "label": names.get(o, name),
                "is_default": o == poll.default,
                "ratio": poll.ratios.get(o),
                "dropped": count.dropped.get(o),
            }
            for o, name in poll.names.items()
        ],
        "votes": [[None if a == b else votes[a, b] for b in poll.options] for a in poll.options],
        "defeats": [
            {"over": a, "under": b, "votes": votes[a, b], "against": votes[b, a]}
            for a, b in sorted(count.defeats)
        ],
        "rounds": [
            {"set": final, "removed": [{"over": a, "under": b} for a, b in sorted(removed)]}
            for final, removed in count.rounds
        ],
        "outcome": {
            "winner": count.winner,
            "is_by_casting_vote": count.winner is not None and len(count.final) > 1,
            "left": count.final,
            "casting_vote_outside": count.casting if count.winner is None else None,
        },
    }


def table_of(count):
    """The rows of votes.csv, by docs/FORMATS.md."""
    poll = count.poll
    yield ["option", "name", "ratio", "ended", *map(str, poll.options)]
    for a in poll.options:
        votes = ["" if a == b else str(count.votes[a, b]) for b in poll.options]
        name = f"'{poll.names[a]}" if poll.names[a][0] in "=+-@'" else poll.names[a]
        yield [str(a), name, str(poll.ratios.get(a, "")), count.ended(a), *votes]


def try_refused(page, count, spoken):
    """The page has each refused line with its cause, in their order, and nothing else."""
    found = []
    part = pages.sections_of(page)["Refused-lines"]
    for entry in part.all("li"):
        said, head = entry.text(), entry.one("b").text()
        first, *last = map(int, re.findall(r"\d+", head))
        wanted = spoken.say("line {number}", number=first)
        if last:
            wanted = spoken.say("lines {first} to {last}", first=first, last=last[0])
        demand(head == wanted, f"the number of a refused line: {head}")
        for number in range(first, (last or [first])[0] + 1):
            line = spoken.with_colon(line_shown(count.lines[number - 1], spoken), "")
            before = spoken.with_colon(head, line)
            demand(said.startswith(before), f"the text of line {number}: {said}")
            cause = said.removeprefix(before)
            if spoken.code != "en":
                # what debvote says stands in brackets
                in_brackets = r"(?:.+? )?\(((?:late|bad [a-z ]+): .*)\)"
                cause = re.fullmatch(in_brackets, cause, re.DOTALL)[1]
            # a remark about the line is open
            found.append(reference_checks.promised(count.poll, f"ballots:{number}: {cause}"))
    is_other = reference_checks.is_other_file(b"\n".join(count.lines))
    given = (count.poll, count.lines, count.replies, is_other)
    wanted = list(reference_checks.refusals(*given))
    demand(found == wanted, f"refused lines {found[:3]} in place of {wanted[:3]}")
    none = spoken.say("No line was refused, and none came late.")
    demand((none in part.text()) == (not wanted), "that no line was refused")


def line_shown(line, spoken):
    text = line.decode("utf-8", "backslashreplace")
    seen = "".join(sign if sign.isprintable() else f"\\u{ord(sign):04X}" for sign in text[:100])
    if not line:
        return spoken.say("(an empty line)")
    if len(text) <= 100:
        return seen
    cut = "{text} (the first {shown} of {number} characters)"
    return spoken.say(cut, text=seen, shown=100, number=len(text))


def names_of(seed, count):
    """Names that people read for title (0) and options, in every second poll; those that differ
    from the plain ones.
    """
    if seed % 2:
        return {}
    return {
        number: f"Größe «{number}» & <i>"
        for number in (0, *count.poll.options)
        if (seed + number) % 3 == 0
    }


def with_names(poll, count, names):
    """The poll with these names, whose keys come first."""
    if not names:
        return poll
    keys = {
        "shown_title": names.get(0, count.poll.title),
        "shown_options": [names.get(number, name) for number, name in count.poll.names.items()],
    }
    mark = b"\xef\xbb\xbf" if poll.startswith(b"\xef\xbb\xbf") else b""
    return mark + publishing.plain(keys) + poll.removeprefix(mark)


def of_few_opinions(seed):
    """The poll and the ballots of a random election whose options often beat each other in
    circles.
    """
    rng = random.Random(seed)
    number, voters = rng.randint(2, 7), range(rng.randint(3, 30))
    opinions = [
        ",".join(rng.choice([*map(str, range(1, number + 1)), "-"]) for _ in range(number + 1))
        for _ in range(rng.randint(3, 6))
    ]
    values = {
        "title": "T",
        "options": [str(option) for option in range(1, number + 1)],
        "ratios": [rng.choice([1, 1, 1, 2, 3]) for _ in range(number)],
        "default": "N",
        "quorum": rng.choice([0, 1]),
        "roll": [f"v{voter}" for voter in voters],
    }
    ballots = "".join(f"v{voter} {rng.choice(opinions)}\n" for voter in voters)
    return {"poll": publishing.plain(values), "ballots": ballots.encode(), "casting": None}


def meet(seed):
    """Publishes the poll of a seed, in the language of the seed. Returns the kinds of sentences, or
    none if the poll is refused, and what is wrong.
    """
    election = random_polls().election_of(seed)
    if seed % 4 == 3:
        election = election._replace(**of_few_opinions(seed))
    if seed % 27 == 0:
        election = election._replace(ballots=b"")
    try:
        names = reference.poll_in(election.poll).names.values()
        casting = election.casting if election.casting in names else None
        count = count_of(election.poll, election.ballots, casting)
    except reference.Fault:
        return None, None
    spoken = Spoken(LANGUAGES[seed // 2 % len(LANGUAGES)])
    with tempfile.TemporaryDirectory() as name:
        try:
            return try_folder(pathlib.Path(name), seed, election, count, casting, spoken), None
        except (Wrong, KeyError, TypeError, ValueError, AttributeError, OSError) as wrong:
            said = f"seed {seed}, in {spoken.code}: {type(wrong).__name__}: {wrong}"
            return collections.Counter(), said


def try_folder(room, seed, election, count, casting, spoken):
    names = names_of(seed, count)
    (room / "poll.toml").write_bytes(with_names(election.poll, count, names))
    (room / "ballots").write_bytes(election.ballots)
    cast = [] if casting is None else [f"--casting={casting}"]
    words = [*publishing.FILES, *cast, "--language", spoken.code]
    folders = [room / "one", *([room / "two"] if seed % 10 == 0 else [])]
    programs = str(PROGRAM.parent)
    for folder in folders:
        # no Graphviz: pictures are tested elsewhere
        _, faults, status = publishing.publish(room, *words, folder.name, path=programs)
        made = status, folder.exists()
        if cast and count.casting not in count.final:
            demand(made == (8, False), f"status {status} in place of 8: {faults}")
            left = " and ".join(f"{option} {count.poll.names[option]}" for option in count.final)
            verb = "are" if count.final[1:] else "is"
            demand(f"which is not left; left {verb} {left};" in faults, faults)
            return collections.Counter()
        if "write the poll as TOML 1.0" in faults:
            is_refused = made == (3, False) and not is_toml_1_0(room / "poll.toml")
            demand(is_refused, "a poll that is TOML 1.0 was refused")
            return None
        wanted = 1 if count.winner is None else 0
        demand(status == wanted, f"status {status} in place of {wanted}: {faults}")
    contents = [{file.name: file.read_bytes() for file in folder.iterdir()} for folder in folders]
    demand(all(content == contents[0] for content in contents), "two runs make the same bytes")
    sheet, _ = reference.count(election.poll, election.ballots, casting)
    demand(contents[0]["sheet.txt"] == sheet.encode(), "sheet.txt")
    if seed % 5 == 0:
        files = ["--poll", "poll.toml", "--ballots", "ballots.txt", *cast]
        words = [sys.executable, "recount.py", "count", *files]
        demand(publishing.run(words, cwd=room / "one")[:2] == (sheet, ""), "recount.py")
    return try_made(room / "one", count, names, spoken) + try_beside_a_motion(
        room, seed, count, names, spoken
    )


def try_beside_a_motion(room, seed, count, names, spoken):
    """The page of all questions, and the letter, where the poll of a folder is one of them, and the
    other one is a motion; and the page of that motion. Returns the kinds of sentences found.
    """
    rng, one = random.Random(seed), room / "one"
    roll = tomllib.loads((one / "poll.toml").read_text())["roll"]
    keys = {"title": "The fee", "options": ["Raise it"], "ratios": [rng.choice([1, 1, 2, 4])]}
    keys |= {"default": "As it is", "quorum": rng.choice([0, 1, 1, 3])}
    keys |= {"wording": "more_than"} if rng.random() < 0.4 else {}
    shown = ["Yes, raise it", "Nein, wie bisher"] if rng.random() < 0.4 else []
    keys |= {"roll": roll} | ({"shown_options": shown} if shown else {})
    likings = [rng.choice(["1,2", "2,1", "1,1", "-,-", "-,9"]) for _ in range(3)]
    voters = [voter for voter in roll if seed % 19 and rng.random() < 0.8]
    motion = "".join(f"{voter} {rng.choice(likings)}\n" for voter in voters).encode()
    polls = {"A": (one / "poll.toml").read_bytes(), "B": publishing.plain(keys)}
    ballots = {"A": (one / "ballots.txt").read_bytes(), "B": motion}
    castings = {} if count.casting is None else {"A": count.poll.names[count.casting]}
    letter = publishing.publish_questions(
        room / "both", polls, ballots, spoken.code, motions=["B"], castings=castings
    )
    counts = {"A": count, "B": count_of(polls["B"], motion, None)}
    names = {"A": names, "B": dict(enumerate(shown, start=1))}
    met = collections.Counter()
    front = (room / "both" / "index.html").read_text()
    for label, its in counts.items():
        page = (room / "both" / label / "index.html").read_text()
        kind = {"label": label, "is_motion": label == "B"}
        found = pages.Parts(page, letter, its, names[label], spoken, **kind)
        found.check()
        met += found.above(front)
    return met


def is_toml_1_0(file):
    with contextlib.suppress(ValueError):
        return tomllib.loads(file.read_bytes().decode("utf-8-sig")) is not None
    return False


def try_made(folder, count, names, spoken):
    """Compares data, names, refused lines and sentences of a folder. Returns the kinds of sentences
    found.
    """
    data, table, page, letter = (
        (folder / name).read_text()
        for name in ("result.json", "votes.csv", "index.html", "letter.txt")
    )
    document = document_of(count, publishing.run([PROGRAM, "--version"])[0].strip(), names)
    demand(json.loads(data) == document, f"result.json: {data} in place of {document}")
    demand(list(json.loads(data)) == list(document), "the order of its keys")
    demand(list(csv.reader(io.StringIO(table))) == list(table_of(count)), f"votes.csv: {table}")
    for number, text in names.items():
        shown = (
            f"bdi>{pages.escaped(text)}</bdi>"
            if number
            else f'h1 dir="auto">{pages.escaped(text)}</h1>'
        )
        demand(f"<{shown}" in page, f"name of {number}")
    # on paper a table is never larger than the text around it, and smaller only if it has many
    # columns
    [size] = re.findall(r"@media print \{ table \{ font-size: ([\d.]+)rem; \} \}", page)
    is_right = float(size) <= 1 and (float(size) == 1 or len(count.poll.names) >= 10)
    demand(is_right, f"the table on paper: {size}")
    try_refused(page, count, spoken)
    return pages.Parts(page, letter, count, names, spoken).check()


def try_published(expect, name, folder, casting):
    """Compares an existing folder. Returns the kinds of sentences found."""
    poll_bytes = (folder / "poll.toml").read_bytes()
    count = count_of(poll_bytes, (folder / "ballots.txt").read_bytes(), casting)
    poll, plain = tomllib.loads(poll_bytes.decode()), count.poll.names
    shown = [poll.get("shown_title"), *poll.get("shown_options", plain.values())]
    plain = {0: None, **plain}
    names = {number: text for number, text in enumerate(shown) if text != plain[number]}
    try:
        return try_made(folder, count, names, pages.ENGLISH)
    except Wrong as wrong:
        expect(f"{name}: data, sentences and refused lines", str(wrong), None)
        return collections.Counter()


def try_random_polls(expect, met):
    """Compares this many random polls without a fault, on all processors. Other polls have had
    these kinds of sentences.
    """
    wrong, passed, seed, most = [], 0, 1, min(POLLS, 40)
    # once, and not in each process
    forks.read_ahead()
    with concurrent.futures.ProcessPoolExecutor() as pool:
        while passed < POLLS:
            for kinds, fault in pool.map(meet, range(seed, seed + most), chunksize=5):
                passed += kinds is not None
                met += kinds or collections.Counter()
                wrong += [fault] if fault else []
            seed += most
    expect(f"random polls ({passed} of seeds 1 to {seed - 1}): what is wrong", wrong[:3], [])
    if POLLS >= ENOUGH:
        expect(
            "random polls: kinds of sentences that were never met",
            sorted(pages.SENTENCES.keys() - met.keys()),
            [],
        )
