"""The folders and pages of examples, cases, large elections, and names made to hurt a page.

DEBVOTE_LARGEST_ELECTORS says how many electors the largest election has; 10000 if it is not given.
"""

import collections
import hashlib
import os
import random
import re
import tomllib

import pytest

from tests.support import examples, looks, page_parts, publishing, result_checks

ELECTORS = int(os.environ.get("DEBVOTE_LARGEST_ELECTORS", "10000"))

# the files of a folder, but for picture and letter
FILES = "poll.toml ballots.txt sheet.txt standing.txt result.json votes.csv recount.py recount.js READING-A-SHEET.md index.html SHA256SUMS"
# the keys of a poll in plain form, in their order
KEYS = "title options ratios default quorum wording roll last_envelope deadline address secret shown_title shown_options explanations"


def digest(data):
    return hashlib.sha256(data).hexdigest()


def try_folder(expect, name, poll, ballots, more, folder):
    files = ["--poll", poll, "--ballots", ballots]
    sheet, _, wanted = publishing.run([publishing.PROGRAM, "count", *files, *more])
    output, faults, status = publishing.publish_files(poll, ballots, folder, "--desks", "3", *more)
    doubts = [
        line
        for line in faults.splitlines()
        if not line.endswith("; the result page says so") and publishing.HAS_PICTURES
    ]
    expect(f"{name}: its status", (status, doubts), (wanted, []))
    if not folder.exists():
        return
    words = [publishing.PROGRAM, "verify", *files, "--sheet", folder / "sheet.txt"]
    verified = publishing.run(words)[0]
    expect(f"{name}: what is said", output, sheet.splitlines()[-1] + "\n" + verified)
    made = {file.name: file.read_bytes() for file in folder.iterdir()}
    document = tomllib.loads(poll.read_bytes().decode("utf-8-sig"))
    values = {key: document[key] for key in KEYS.split() if key in document}
    wanted = {
        "ballots.txt": ballots.read_bytes(),
        "sheet.txt": sheet.encode(),
        "poll.toml": publishing.plain(values).replace(b"\x7f", b"\\u007f"),
        "standing.txt": publishing.run([publishing.PROGRAM, "standing", *files])[0].encode(),
        "READING-A-SHEET.md": (publishing.ROOT / "docs" / "READING-A-SHEET.md").read_bytes(),
    }
    expect(f"{name}: its files", {file: made[file] for file in wanted}, wanted)
    sums = digest(poll.read_bytes()), digest(made["poll.toml"])
    named = [
        f"has the checksum (SHA-256) <code>{sums[0]}</code>",
        f"have the poll's checksum? <code>{sums[1][:16]}…</code>",
    ]
    found = [text.encode() in made["index.html"] for text in named]
    expect(f"{name}: the checksums of the poll", found, [sums[0] != sums[1], True])
    # sums, modes and what the letter names are as `publish` makes them
    expect(f"{name}: its letter", b"own mark" in made.pop("letter.txt"), False)
    names = {*FILES.split(), *["picture.svg"] * publishing.HAS_PICTURES}
    expect(f"{name}: its names", {*made}, names)


HOSTILE = "</b><script>alert(1)</script> & \"'<img src=x onerror=alert(1)>"


def try_names(expect, scratch):
    """The names that people read stand where names stand, and the plain ones in the list of the
    options alone. Returns the folder.
    """
    folder = publishing.folder_with(scratch / "names", "supermajority_and_recasts")
    keys = {
        "shown_title": "Ob die Satzung geändert wird",
        "shown_options": [HOSTILE, "72 Euro", "דיון נוסף"],
        "explanations": ["Changes § 4.\n\n\u200fÜber <b>alles</b>.", ""],
        "deadline": "2026-12-04T18:00:00+01:00",
        "note": "not kept",
    }
    poll = publishing.plain(keys) + (folder / "poll.toml").read_bytes()
    (folder / "poll.toml").write_bytes(poll)
    expect(
        "names: its status", publishing.publish(folder, *publishing.FILES, "result")[1:], ("", 0)
    )
    poll, page, letter = (
        (folder / "result" / name).read_text() for name in ("poll.toml", "index.html", "letter.txt")
    )
    expect("names: the poll keeps what is sealed", "note" in poll, False)
    whose = f"About <i>1</i>\u00a0<bdi>{page_parts.escaped(HOSTILE)}</bdi>, in the words of those who publish this page."
    for wanted in (
        "<title>Result: Ob die Satzung geändert wird</title>",
        *["The picture has the plain names."] * publishing.HAS_PICTURES,
        f'<p class="whose">{whose}',
        '<p class="about"><bdi>\u200fÜber &lt;b&gt;alles&lt;/b&gt;.</bdi></p>',
    ):
        expect(f"names: {wanted}", wanted in page, True)
    shown = page.partition('id="Poll-file"')[0]
    for name in ("Amend it", "Write guidelines", "Further discussion"):
        # in the picture each is a text of its own
        found = re.findall(f"(?<!>)(?<!>\\d: )(?<!default option ){name}", shown)
        expect(f"names: {name} once", found[1:], [])
    expect("names: nothing runs", (page.count("<script"), "<img" in page), (1, False))
    for said in ("Ob die Satzung geändert wird", "Winner: Option 2: 72 Euro"):
        expect("names: the letter", said in letter, True)
    return folder / "result"


# what is told of ballots, and what the page says
NOBODY = (
    "no elector has a ballot that counts; check that these are the ballots of this poll",
    "No elector has a ballot that counts: nobody's vote has decided this.",
)
REFUSED = (
    "more than half of the lines are refused, {}; debvote explain says why",
    "More than half of the lines of the ballot file are refused: {}.",
)
SLIPS = {
    "an empty file": ("", [NOBODY], ""),
    "names of another roll": ("zoe 1,2,3\nyan 2,1,3\n", [NOBODY, REFUSED], "2 of 2"),
    "more refused lines than ballots": ("ada 1,2,3\nben 1,2\nCleo 1,2,3\n", [REFUSED], "2 of 3"),
    "as many refused lines as ballots": ("ada 1,2,3\nben 1,2\n", [], ""),
    "hyphens alone": ("ada -,-,-\n", [], ""),
}


def try_slip(expect, name, scratch):
    """What is told of the ballots, and what stands on the page. Returns the folder."""
    ballots, doubts, number = SLIPS[name]
    told, shown = ([pair[place].format(number) for pair in doubts] for place in (0, 1))
    folder = publishing.plain_folder(scratch / "slips" / name.replace(" ", "-"), ballots=ballots)
    output, faults, status = publishing.publish(folder, *publishing.FILES, "result")
    notes = "".join(f"Note: {line}; the result page says so\n" for line in told)
    expect(f"{name}: what is told", faults, notes)
    sheet, _, wanted = publishing.run([publishing.PROGRAM, "count", *publishing.FILES], cwd=folder)
    ended = sheet.splitlines()[-1] + "\nverified\n", wanted
    expect(f"{name}: how it ended", (output, status), ended)
    text = (folder / "result" / "index.html").read_text()
    below = text.partition("<body>")[2].partition("</section>")[2].partition("<script>")[0]
    # in the part of the result alone
    found = page_parts.doubts_of(text), "doubts" in below
    expect(f"{name}: what the page says", found, (shown, False))
    page_parts.try_page(expect, name, folder / "result")
    result_checks.try_published(expect, name, folder / "result", None)
    return folder / "result"


def large_poll(options, electors):
    """A poll with names of the greatest length, and ballots that make a cycle."""
    rng = random.Random(1)
    *names, default = (f"{number} {'WMwm' * 10}"[:40] for number in range(1, options + 1))
    values = {"title": "W" * 80, "options": names, "ratios": [1] * (options - 1)}
    roll = [f"elector-{number}-".ljust(32, "m") for number in range(electors)]
    values |= {"default": default, "quorum": 1, "roll": roll}
    ballots = ""
    for name in roll:
        turn, ranks = rng.choice([0, options // 3, 2 * options // 3]), [*range(1, options)]
        ballots += f"{name} {','.join(map(str, [*ranks[turn:], *ranks[:turn], options]))}\n"
    return publishing.plain(values).decode(), ballots


def publish_large(expect, scratch, options, electors):
    """Publishes a large election, and says how many bytes it has. Returns the folder."""
    name = f"{options}-options-{electors}-electors"
    folder = publishing.plain_folder(scratch / name, *large_poll(options, electors))
    status = publishing.publish(folder, *publishing.FILES, name)[2]
    # whether it is a tie does not matter here
    expect(f"{name}: its status", status in (0, 1), True)
    sizes = {file.name: file.stat().st_size for file in (folder / name).iterdir()}
    size = sizes["index.html"]
    print(f"{name}: index.html {size} bytes, the folder {sum(sizes.values())} bytes", flush=True)
    expect(f"{name}: its bytes", size < publishing.LARGEST_PAGE, True)
    page = (folder / name / "index.html").read_text()
    parts = ('<div class="picture">\n<svg', 'href="picture.svg"', "scrolls sideways by itself")
    if "picture.svg" in sizes:
        wanted = [options <= 12, True, options <= 12]
        expect(f"{name}: its picture", [part in page for part in parts], wanted)
    return folder / name


class FoldersTest(looks.LooksTest):
    @classmethod
    def made(cls):
        # an option whose name has the words of a casting vote outside of a tie, and which wins, is
        # told as the winner alone
        words = '"A, casting option 2 is not among them"'
        poll = publishing.PLAIN_POLL.replace('"A"', words)
        folder = publishing.plain_folder(cls.scratch / "of-words", poll)
        words = "words-of-the-sheet", folder / "poll.toml", folder / "ballots", []
        # of each folder what its casting vote is for
        cls.castings = {}
        for name, poll, ballots, more in (*examples.elections(cls.scratch), words):
            folder = cls.scratch / name
            try_folder(cls.note, name, poll, ballots, more, folder)
            if folder.exists():
                cls.castings[folder] = more[-1].removeprefix("--casting=") if more else None
        cls.note("how many", len(cls.castings) > len(examples.CASES), True)
        slips = [try_slip(cls.note, name, cls.scratch) for name in SLIPS]
        large = [publish_large(cls.note, cls.scratch, number, 20) for number in (12, 13)]
        return [*cls.castings, *slips, *large, try_names(cls.note, cls.scratch)]

    def test_pages(self):
        for folder, casting in self.castings.items():
            page_parts.try_page(self.expect, folder.name, folder)
            result_checks.try_published(self.expect, folder.name, folder, casting)

    # it opens all pages, too
    test_widths_and_colours = pytest.mark.whole(looks.LooksTest.test_widths_and_colours)

    @pytest.mark.whole
    @looks.NEEDS_BROWSER
    @looks.NEEDS_PICTURES
    def test_pictures(self):
        """A picture fits its page, or scrolls by itself and is no smaller than three quarters of
        what was drawn; dark ones are light.
        """
        inks, kinds, large = set(), set(), set()
        for look in self.looks():
            if look["picture"]:
                width, region, drawn, ink = look["picture"]
                fits = width <= region + 1
                # and is not blown up
                is_right = (fits or abs(width - round(drawn * 0.75)) <= 1) and width <= drawn + 1
                self.expect(f"{look['folder']}: {drawn} in {region}", is_right, True)
                (large if "12-options" in look["folder"].name else kinds).add(fits)
                inks.add(ink)
        self.expect("pictures that fit and that scroll", (kinds, large), ({True, False}, {False}))
        self.expect("pictures have one ink in light and another in dark", len(inks), 2)

    @pytest.mark.whole
    @looks.NEEDS_BROWSER
    def test_bars(self):
        """Each bar is as long as its number says, and is seen on the ground of the page by its
        edge.
        """
        fills = set()
        for look in self.looks():
            for bar in look["bars"]:
                fill, edge = bar["colours"]
                wanted = 1000 * bar["number"] / bar["whole"]
                # one that is folded has no width
                is_right = bar["share"] is None or abs(bar["share"] - wanted) <= 10
                is_seen = looks.contrast(edge, look["paper"]) >= 3
                name = f"{look['folder']}: a bar of {bar['number']} of {bar['whole']}"
                self.expect(name, (is_right, is_seen), (True, True))
                fills.add((look["is_dark"], bar["kind"], fill))
        # one fill of each kind in light and one in dark
        found = len(fills), len({fill for _, _, fill in fills})
        self.expect("fills of bars", found, (10, 7))

    @pytest.mark.whole
    @looks.NEEDS_BROWSER
    def test_doubts(self):
        """The doubts of each page are seen in the first window, and can be read on their own
        ground, light and dark.
        """
        grounds, doubtful = set(), set()
        for look in self.looks():
            if look["doubts"] and look["width"] in looks.DOUBT_WIDTHS:
                is_seen, ground, ink, word = look["doubts"]
                is_read = min(looks.contrast(ground, ink), looks.contrast(ground, word)) >= 4.5
                found = is_seen, is_read, ground != look["paper"]
                self.expect(f"{look['folder']}: doubts", found, (True, True, True))
                grounds.add(ground)
                doubtful.add(look["folder"])
        self.expect("doubtful pages", len(doubtful) >= 3, True)
        self.expect("doubts have one ground in light and another in dark", len(grounds), 2)


@pytest.mark.whole
class LargestTest(looks.LooksTest):
    widths = looks.DOUBT_WIDTHS

    @classmethod
    def made(cls):
        return [publish_large(cls.note, cls.scratch, 32, ELECTORS)]


class RandomTest(publishing.PublishTest):
    def test_random_polls(self):
        met = collections.Counter()
        if result_checks.POLLS >= result_checks.ENOUGH:
            # no random poll leaves as many options in a tie
            many = "rounds-cycle-of-31-options"
            folder = self.scratch / many
            poll, ballots, _ = examples.of_case(many, self.scratch)
            publishing.publish_files(poll, ballots, folder)
            met = result_checks.try_published(self.expect, many, folder, None)
        result_checks.try_random_polls(self.expect, met)
