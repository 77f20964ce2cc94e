"""Elections that are published: the examples, some cases, and one whose names are made to hurt a page."""

import json

from tests.support import case_tables, publishing

# cases of the tables in tests/cases/
CASES = [
    "casting-vote-in-a-tie",
    "dropped-all-without-ballots",
    "dropped-for-quorum-and-majority-says-quorum",
    "dropped-one-for-each-cause",
    "late-last-envelope-0-makes-all-late",
    "majority-worded-more-than-and-a-last-envelope",
    "quorum-0Q-is-no-quorum",
    "rounds-cycle-of-31-options",
    "sheet-names-as-they-are",
    "sheet-refused-lines-of-each-kind",
    "votes-of-hyphens-alone",
]

# names that would be tags, ends of texts, places of the page or of the picture, or words of the sheet
HOSTILE_POLL = r"""
title = '</title><script>alert("x")</script>'
options = [
    '<img src=x onerror=alert(1)>', "Tom & Jerry &lt;&amp;", 'A "quote" and \N',
    "Wins by casting vote", "ratio 1 x", "--casting",
]
ratios = [1, 1, 1, 1, 1, 1]
default = "wwwwwwwwwwwwwwwwwwwwwwwwwwwwwwwwwwwwwwww"
quorum = 0
roll = ["node1", "graph0", "votes", "..", "-", "a.b-c", "00000000000000000000000000000000"]
"""
# the same, as people read it
HOSTILE_NAMES = [
    "</b><script>alert(1)</script> & \"'<img src=x onerror=alert(1)>",
    "&amp; & &#60;",
    "דיון נוסף",
    "Größe «4» & <i>",
    "72 Euro",
    "</li></ul>",
    "ｗｗｗ",
]
HOSTILE_BALLOTS = """node1 1,2,3,4,5,6,7
graph0 2,1,1,-,5,6,7
votes -,-,-,-,-,-,-
.. 9,8,7,6,5,4,99
- 2,2,2,2,2,2,2
a.b-c 4,4,4,1,4,4,9
00000000000000000000000000000000 6,5,4,1,2,3,7
"""


def of_case(name, scratch):
    """The poll and the ballots of a case, which are written there, and the words of its casting vote."""
    (row,) = (
        rows[name]
        for rows in map(case_tables.read_table, publishing.CASES.glob("*.toml"))
        if name in rows
    )
    folder = scratch / f"case-{name}"
    folder.mkdir()
    for file, data in row.files().items():
        (folder / file).write_bytes(data)
    words = row.words()
    casting = (
        words[words.index("--casting") : words.index("--casting") + 2]
        if "--casting" in words
        else []
    )
    return folder / case_tables.POLL, folder / case_tables.BALLOTS, casting


def elections(scratch):
    """The name of each election, its poll, its ballots and further words."""
    for folder in sorted(publishing.EXAMPLES.iterdir()):
        if (folder / "ballots").exists():
            yield folder.name, folder / "poll.toml", folder / "ballots", []
    for name in CASES:
        yield name, *of_case(name, scratch)
    # electors who voted again, and late ones
    for name, ballots, last in [
        ("recasts", "ada 1,2,3\nada 2,1,3\n", 2),
        ("late", "ada 1,2,3\nben 2,1,3\nada 2,1,3\nben 1,2,3\n", 3),
    ]:
        made = publishing.plain_folder(
            scratch / f"of-{name}", f"{publishing.PLAIN_POLL}last_envelope = {last}\n", ballots
        )
        yield name, made / "poll.toml", made / "ballots", []
    poll, ballots = scratch / "poll.toml", scratch / "ballots"
    poll.write_text(HOSTILE_POLL)
    ballots.write_text(HOSTILE_BALLOTS)
    yield "hostile", poll, ballots, []
    shown = scratch / "shown.toml"
    shown.write_text(
        f"{HOSTILE_POLL}shown_title = 'Ob die <b>Satzung</b> geändert wird'\nshown_options = {json.dumps(HOSTILE_NAMES)}\n"
    )
    yield "hostile-names", shown, ballots, []
    yield "hostile-casting", poll, ballots, ["--casting=Wins by casting vote"]
