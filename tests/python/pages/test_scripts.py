"""The scripts of a page in a browser: finding a ballot, counting again, also on changed pages."""

import hashlib
import json
import subprocess

from debvote_tools.call.secret import alias_of
from debvote_tools.sheet import sheet_in

from tests.support import at_browser, publishing
from tests.support.program import PROGRAM
from tests.support.publishing import FILES, plain_folder, publish

# names that people read, and recasts, a refused line and an elector who did not vote
POLL = (
    publishing.PLAIN_POLL
    + 'shown_title = "Größe"\nshown_options = ["72 Euro", "<i>B</i> & \\"C\\"", "N"]\n'
)
BALLOTS = "ada 1,2,3\nben -,1,1\nada 2,1,-\nzoe 1,2,3\ncleo -,-,-\n"
CHOOSE = "Choose poll.toml and ballots.txt, one file of each and under these names; you may add sheet.txt."
LAST_BALLOT = '<li id="cleo"><b>cleo</b> <code>-,-,-</code>: no option is ranked, so nothing is preferred</li>\n'


PLAIN_ROLL = '["ada", "ben", "cleo", "dan"]'
UNKNOWN = "No elector has the name {}. Type it as it is on the roll."
NONE_COUNTS = "{} is on the roll, and no ballot counts for this name."
SAME = "The same, line for line"


def poll_for(roll, **keys):
    """The plain poll with this roll, and with more keys."""
    more = "".join(f"{key} = {json.dumps(value)}\n" for key, value in keys.items())
    return publishing.PLAIN_POLL.replace(PLAIN_ROLL, json.dumps(roll)) + more


class ScriptsTest(publishing.ResultPageTest):
    code = "0123456789abcdef" * 2

    @classmethod
    def setUpClass(cls):
        super().setUpClass()
        cls.folder = plain_folder(cls.scratch / "open", POLL, BALLOTS)
        cls.told = publish(cls.folder, *FILES, "result")
        roll = [alias_of(cls.code, name) for name in ("ada", "zoe-muller", "ben", "cleo")]
        ballots = [f"{alias} {ranks}\n" for alias, ranks in zip(roll, ["1,2,3", "2,1,-", "1,1,1"])]
        poll = poll_for(sorted(roll), secret=True)
        cls.secret = plain_folder(cls.scratch / "secret", poll, "".join(sorted(ballots)))
        cls.told_in_secret = publish(cls.secret, *FILES, "result")

    def tearDown(self):
        self.window.show()
        self.window.resize(800, 900)

    def sees(self, script, wanted, why=None):
        self.assertEqual(self.window.ask(script), wanted, why)

    def finds(self, typed, *said, code=None):
        self.assertEqual(self.window.find(typed, code), [*said], typed)

    def finds_ballot(self, typed, line, *names, code=None):
        """The names of a ballot in their order, and its line."""
        found = self.window.find(typed, code)[1:]
        self.assertEqual(found, [*names, f"The line: {line}"], typed)

    def published_folder(self, name, poll, ballots=publishing.PLAIN_BALLOTS):
        """A folder with the result of these files."""
        folder = plain_folder(self.scratch / name, poll, ballots)
        self.assertIn(publish(folder, *FILES, "result")[2], (0, 1))
        return folder

    def test_finding_a_ballot(self):
        self.assertEqual(self.told, ("Winner: 2 B\nverified\n", "", 0))
        self.page_of()
        for name in ("ada", " Ada ", "ÁDA"):
            self.finds_ballot(name, "ada 2,1,-", '<i>B</i> & "C"', "72 Euro", "Not ranked: N")
        self.finds_ballot("ben", "ben -,1,1", '<i>B</i> & "C" and N equally', "Not ranked: 72 Euro")
        self.finds_ballot("cleo", "cleo -,-,-", "no option is ranked, so nothing is preferred")
        self.finds("a-d-a", "Do you mean ada?")
        self.finds("dan", NONE_COUNTS.format("dan"))
        # the second is a place of the page
        for name in ("zoë", "votes"):
            self.finds(name.title(), UNKNOWN.format(name))
        self.finds(" ", "Type your name.")
        # what is typed is in quotation marks, and the line is in code
        for typed, said in {"Zoë Ada": "zoë ada", "ada": "ada 2,1,-"}.items():
            self.window.find(typed)
            exact = "[...document.querySelectorAll('#Answer code, #Answer q')].map((node) => node.textContent)"
            self.sees(exact, [said])
        for change in (
            ("<code>2,1,-</code>", "<code>1,2,-</code>"),
            ('<li id="ada">', '<li id="eva">'),
        ):
            self.page_of(change=change)
            self.finds(
                "ada", "This page shows other ballots than its files have. Tell the other electors."
            )

    def test_a_ballot_by_the_address(self):
        """A page that is opened at a name has its ballot in a line below the panel; nothing
        scrolls, no list opens, and nothing is typed.
        """
        window, page = self.page_of(), self.folder / "result" / "index.html"
        ballots = {
            "ben": ["ben: counted", '<i>B</i> & "C" and N equally', "Not ranked: 72 Euro"],
            "ada": ["ada: counted", '<i>B</i> & "C"', "72 Euro", "Not ranked: N"],
            "dan": [NONE_COUNTS.format("dan")],
        }
        for address, name in (("%62en", "ben"), ("ada/23456789ab", "ada"), ("DAN", "dan")):
            window.open_anew(page, f"#{address}")
            # a second time once the page is open
            for _ in range(2):
                wanted = json.dumps([ballots[name]], separators=(",", ":"))
                window.until(f"JSON.stringify({at_browser.MINE}) === {json.dumps(wanted)}")
                window.ask("new Promise((done) => setTimeout(done, 50))")
                self.sees(
                    "[scrollY, document.querySelectorAll('.folded[open]').length, document.getElementById('Name').value]",
                    [0, 0, ""],
                )
                self.assertEqual(window.found(), [])
                # what counts is ticked off
                self.sees(
                    "getComputedStyle(document.querySelector('.facts + .mine > p'), '::before').content !== 'none'",
                    name != "dan",
                )
                window.ask(
                    "location.hash = '#%'; document.querySelector('.mine').replaceChildren()"
                )
                window.ask(f"location.hash = '#{address}'")

    def test_a_family_name_alone(self):
        """Whoever may be meant is named, with the real name where the page has it, and nobody is
        told that the name is wrong.
        """
        poll = poll_for(["anna-meier", "ben-lee", "eve-lee", "dan"])
        ballots = "anna-meier 10,9,3\ndan 1,2\ndan-x 1,2,3\nEVE-LEE: 1;2\n"
        folder = plain_folder(self.scratch / "family", poll, ballots)
        real_names = {"anna-meier": "Anna Meier", "dan": "Dan"}
        published = self.published(folder, "family-names", real_names=real_names)
        # the default option has won, whose page has the numbers of the others
        said = self.page_of(published, ("<span><b>0</b> for", "<span><b>1</b> for")).count_again()
        self.assert_page_differs(said, ": the result. ")
        window = self.page_of(published)
        self.finds_ballot("anna-meier", "anna-meier 10,9,3", "N", "B", "A")
        self.finds("Meyer", UNKNOWN.format("meyer"))
        self.finds("lee", "Do you mean ben-leeeve-lee?")
        self.finds("Meier", "Do you mean anna-meier (Anna Meier)?")
        window.ask("document.querySelector('#Answer button').click()")
        window.until(
            "document.getElementById('Answer').textContent.startsWith('anna-meier: counted')"
        )
        # of whoever has a line that does not count the page says where it is
        came = "A line with this name came, and does not count: Refused and late lines"
        for name, more in {"ben-lee": [], "dan": [came], "eve-lee": [came]}.items():
            self.finds(name, NONE_COUNTS.format(name), *more)
        window.ask("document.querySelector('#Answer a').click()")
        window.until("document.getElementById('Refused-lines').closest('details').open")

    def assert_page_differs(self, said, *parts):
        """What the count here says of a page that somebody has changed."""
        rows = [row for row in said if row.startswith("This page does not show what its files")]
        self.assertEqual(
            [all(part in row for part in parts) for row in rows], [True], (said, parts)
        )

    def test_the_table_of_votes(self):
        """It breaks no word, and on paper, where browsers cut what is wider, it is whole."""
        ends = "Schwarzwald Bodensee Nordseebad Alpenvorland Spreewald Rheintal Sauerland".split()
        for number, is_smaller in ((3, False), (30, True), (8, None)):
            names = [f"Ausflug {name}" for name in [*ends, *map(str, range(30))][: number - 1]]
            poll = publishing.PLAIN_POLL.replace('["A", "B"]', json.dumps(names))
            poll = poll.replace("[1, 1]", f"{[1] * len(names)}")
            line = f"ada {','.join(map(str, range(1, number + 1)))}\n"
            window = self.page_of(self.published_folder(f"{number}-rows", poll, line))
            if is_smaller is None:
                window.resize(360, 640)
                window.ask("document.getElementById('Votes').closest('details').open = true")
                heads = "[...document.querySelectorAll('th[scope=row]')]"
                self.assertEqual(window.broken_words(heads), [])
                self.sees("document.documentElement.scrollWidth", 360)
                continue
            window.show(is_printed=True)
            window.resize(717, 900)
            size, around, *wide = window.ask(
                """[...['table', 'body'].map((part) => parseFloat(getComputedStyle(document.querySelector(part)).fontSize)),
                document.documentElement.scrollWidth, document.querySelector('table').getBoundingClientRect().right <= 717]"""
            )
            self.assertEqual((wide, 8 < size < around), ([717, True], is_smaller))

    def test_wide_and_narrow_windows_and_long_names(self):
        """From 70rem finding and checking stand at the right; a long name is smaller, and no number
        stands alone on a line.
        """
        sizes = []
        for length in (60, 61):
            name = ("Ein Name aus vielen Worten und noch mehr " * 2)[:length]
            shown = f"shown_options = {json.dumps([name, 'B ' * 90, 'N ' * 80])}\n"
            folder = self.published_folder(f"names-of-{length}", publishing.PLAIN_POLL + shown)
            window = self.page_of(folder)
            size = "parseFloat(getComputedStyle(document.getElementById('Result')).fontSize)"
            sizes.append(window.ask(size))
        self.assertGreater(sizes[0], sizes[1])
        self.assertGreater(sizes[1], 16)
        window.ask("document.querySelectorAll('details').forEach((node) => { node.open = true; })")
        for width, is_beside in ((360, False), (1100, False), (1130, True), (1280, True)):
            window.resize(width, 640)
            beside = """document.getElementById('Find').getBoundingClientRect().left
              > document.querySelector('.outcome').getBoundingClientRect().right"""
            self.sees(f"[{at_browser.LONE_NUMBERS}, {beside}]", [[], is_beside], width)
        # a ballot with names that are too long has their numbers alone on paper; a page with
        # something wider is printed smaller: a picture is drawn as small as the paper is
        window.show(is_printed=True)
        window.resize(700, 900)
        self.sees(
            """[...['.ballots i', '.ballots bdi', '.duels bdi'].map((place) => document.querySelector(place).checkVisibility()),
            document.documentElement.scrollWidth, document.querySelector('.picture svg')?.clientWidth > 300]""",
            [True, False, True, 700, publishing.HAS_PICTURES],
        )

    def test_which_ballots_are_long_on_paper(self):
        """In which the names have more than 200 characters."""
        for length in (200, 201):
            shown = json.dumps(["A" * 100, "B" * 99, "N" * (length - 199)])
            poll = f"{publishing.PLAIN_POLL}shown_options = {shown}\n"
            folder = self.published_folder(f"{length} characters", poll)
            page = (folder / "result" / "index.html").read_text()
            self.assertEqual('<ul class="ballots long">' in page, length > 200)

    def test_electors_with_names_of_things_of_the_page(self):
        cut = "maximilian-alexander-hohenzoller"[:31]
        places = "find code show answer votes name result again poll-file ballots"
        roll = [*places.split(), cut, "anna-meier", "graph0"]
        ballots = "".join(f"{name} 1,2,3\n" for name in roll[:-1])
        window = self.page_of(self.published_folder("names", poll_for(roll), ballots))
        for name in roll[:-1]:
            self.finds(name, f"{name}: counted", "A", "B", "N", f"The line: {name} 1,2,3")
        self.finds("graph0", NONE_COUNTS.format("graph0"))
        # a name that is cut at a blank
        found = window.find(f"{cut.replace('-', ' ').title()} von Sigmaringen")
        self.assertEqual(found[0], f"{cut}: counted")
        self.assertTrue(window.count_again()[0].startswith(SAME))
        # a name in capitals in the address is the one in small letters, unless it is that of a part
        # of the page
        window.ask("location.hash = '#Anna-Meier/23456789AB/23456789abcdefgh'")
        window.until(
            "document.querySelector('.mine').textContent.startsWith('anna-meier: counted')"
        )
        window.ask("location.hash = '#Ballots'")
        window.until("document.getElementById('Ballots').closest('details').open")
        self.sees("document.querySelector('.mine b').textContent", "anna-meier")

    def test_finding_a_ballot_of_a_secret_vote(self):
        self.assertEqual(self.told_in_secret[1:], ("", 1))
        window, alias = self.page_of(self.secret), alias_of(self.code, "zoe-muller")
        # an alias in the address is a place in the list, and types nothing
        window.ask(f"location.hash = '#{alias}'; new Promise((done) => setTimeout(done, 100))")
        self.sees(
            f"[document.getElementById('Name').value, document.getElementById('{alias}').closest('details').open]",
            ["", True],
        )
        # the link of the call opens this page, too, which says nothing of its elector
        for place in ("zoe-muller", "zoe-muller/23456789ab/23456789abcdefgh"):
            window.ask(f"location.hash = '#{place}'; new Promise((done) => setTimeout(done, 100))")
            self.sees(f"[document.getElementById('Name').value, {at_browser.MINE}]", ["", []])
            self.assertEqual(window.found(), [])
        code = f" {self.code[:16].upper()} {self.code[16:20]}-{self.code[20:]}"
        for name in ("zoe-muller", "Zoë Müller", "  ZOE  MÜLLER "):
            self.finds_ballot(name, f"{alias} 2,1,-", "B", "A", "Not ranked: N", code=code)
        # what is learned of what is typed stands above the fields
        above = "document.querySelector('.warning').compareDocumentPosition(document.getElementById('Name')) === Node.DOCUMENT_POSITION_FOLLOWING"
        self.sees(f"[{above}, document.querySelector('.warning').checkVisibility()]", [True, True])
        # an answer to what was typed before is not shown
        window.ask(
            """(() => { document.getElementById("Show").click(); document.getElementById("Name").dispatchEvent(new Event("input"));
          return new Promise((done) => setTimeout(done, 100)); })()"""
        )
        self.assertEqual(window.found(), [])
        none = "Your alias is {}. It is on the roll, and no ballot counts under it."
        self.finds("cleo", none.format(alias_of(self.code, "cleo")), code=self.code)
        other = "No elector of this vote has the alias {}. Type name and code as they are in your letter or on your slip."
        self.finds("ada", other.format(alias_of("f" * 32, "ada")), code="f" * 32)
        short = "A code has 32 digits, 0 to 9 and a to f. Type yours as it was given to you."
        self.finds("ada", short, code="f" * 31)
        # as where the page did not come by https
        window.ask("Object.defineProperty(crypto, 'subtle', { value: undefined })")
        said = "This browser makes no alias on a page that did not come by https. Use one of the commands below."
        self.finds("ada", said, code=self.code)
        line = f"{alias} 2,1,-\n"
        for before, after, said in [
            (line, line * 2, "replaced"),
            (line, f"{line}x\n", "bad shape"),
            (line, f"{line}{'0' * 32} 1,2,3\n", "bad not on roll"),
            ("]\nsecret = true", "]\nlast_envelope = 3\nsecret = true", "last_envelope"),
        ]:
            self.page_of(self.secret, (before, after))
            odd = window.find("ada", self.code)[0]
            self.assertRegex(odd, f"^This is not how a secret vote is published: .*{said}")

    def test_finding_a_ballot_by_its_code(self):
        """Where codes are on the roll, half a code is not called the code of nobody."""
        zoe, cleo = "7kq3m9xw2a", "b2c3d4e5f6"
        folder = plain_folder(
            self.scratch / "drawn codes", poll_for([zoe, cleo], secret=True), f"{zoe} 2,1,-\n"
        )
        self.page_of(self.published(folder, "codes", has_codes=True))
        typed = f"{zoe[:5].upper()} {zoe[5:]}"
        self.finds_ballot(typed, f"{zoe} 2,1,-", "B", "A", "Not ranked: N")
        said = "A code has 10 signs, digits and small letters. Type yours as it is on your slip."
        for half in (zoe[:5], f"{zoe}b", "l" * 10):
            self.finds(half, said)
        self.finds(cleo, "The code is on the roll, and no ballot counts under it.")
        self.finds("f" * 10, "No elector has this code. Type it as it is on your slip.")

    def test_the_checksum_of_the_close(self):
        """In a secret vote it covers the random line, too."""
        folder, seal = self.secret / "result", "5" * 32
        private = sheet_in((folder / "sheet.txt").read_text())
        window = self.page_of(self.published(self.secret, "sealed", seal=seal, private=private))
        data = f"{seal}\n".encode() + (folder / "ballots.txt").read_bytes()
        said = f"The checksum of seal.txt and the ballots, as the letter of the close has to have it, is {hashlib.sha256(data).hexdigest()}."
        self.assertIn(f"{said} This page names it too.", window.count_again())

    def test_what_is_typed(self):
        """Enter shows the ballot, and an answer goes when another name is typed; of two with one
        real name both are shown.
        """
        real_names = {"ada": "Zoë", "ben": "Zoë", "dan": "Dan"}
        window = self.page_of(self.published(self.folder, "real names", real_names=real_names))
        counts = [said for said in window.find("zoe") if said.endswith(": counted")]
        self.assertEqual(counts, ["ada: counted", "ben: counted"])
        window.ask("document.getElementById('Name').focus()")
        window.press("1")
        window.until("document.getElementById('Answer').textContent === ''")
        self.sees("document.getElementById('Name').value", "zoe1")
        window.press("Enter")
        window.until("document.getElementById('Answer').textContent !== ''")
        self.assertEqual(window.found(), [UNKNOWN.format("zoe1")])

    def test_folded_parts(self):
        """A link, or the address of the page, opens the folded part that it leads to; on paper all
        are open, without a script too.
        """
        window = self.page_of()
        unfolded = "[...document.querySelectorAll('.folded[open] h3')].map((node) => node.id)"
        self.sees(unfolded, [])
        # by a link, and by the same link again
        for _ in range(2):
            window.ask("""document.querySelector('a[href="#Who-voted"]').click()""")
            self.sees(unfolded, ["Who-voted"])
            window.ask("document.querySelector('.folded[open]').open = false")
        for part in ("Votes", "How-to-verify"):
            window.ask(f"location.hash = '#%'; location.hash = '#{part}'")
            window.until(f"{unfolded}.includes('{part}')")
        # before a browser prints, and after it
        for event, count in (("beforeprint", 9), ("afterprint", 2)):
            window.ask(f"dispatchEvent(new Event('{event}'))")
            self.sees(f"{unfolded}.length", count)
        window.show(is_printed=True)
        self.page_of()
        seen = "[...document.querySelectorAll('.folded')].map((part) => part.children[1].getBoundingClientRect().height > 0)"
        self.sees(f"[{seen}, {unfolded}]", [[True] * 8 + [False], []])
        # what is typed there stays out, with how to verify, and of long ballots the names; what
        # is not in the window is drawn a moment later
        window.until(
            """['#Find', '#Count-again-here', '.checks + details > p', '#Checksums code', '.ballots bdi']
          .map((place) => document.querySelector(place).checkVisibility({ contentVisibilityAuto: true }))
          .join() === 'false,false,false,true,true'"""
        )
        # the first page ends there
        self.sees("getComputedStyle(document.querySelector('.side + .main')).breakBefore", "page")

    def test_counting_again(self):
        """Also a changed page of a result of which it says so, and what."""
        folder = self.folder / "result"
        window = self.page_of()
        rows, lines = window.count_again(), (folder / "sheet.txt").read_text().count("\n")
        same = f"{SAME}: this count comes to the published sheet, in all its {lines} lines."
        self.assertEqual(rows[0], same)
        self.assertTrue(rows[2].startswith("This page shows what its files come to: "))
        # a changed page would call its own checksum right: it takes none, and neither itself nor
        # SHA256SUMS
        inputs = "[...document.querySelectorAll('[aria-labelledby=Check-it] input')]"
        self.sees(f"{inputs}.map((node) => node.type)", ["file"])
        named = "[...document.querySelectorAll('#Again-answer p code')].map((node) => node.textContent).slice(1)"
        files = [(folder / name).read_bytes() for name in ("poll.toml", "ballots.txt")]
        self.sees(named, [hashlib.sha256(data).hexdigest() for data in files])
        for name in ("index.html", "SHA256SUMS"):
            self.assertEqual(window.count_again({name: (folder / name).read_bytes()}), [CHOOSE])
        result, names = "the result", "the names of title and options"
        for what, *change in [
            (result, '<h2 id="Result"><b><bdi>&lt;i&gt;B', '<h2 id="Result"><b><bdi>&lt;i&gt;C'),
            (result, "<b>1\u00a0to\u00a00</b>", "<b>1\u00a0to\u00a01</b>"),
            (result, '<p class="ended">Has won', '<p class="ended">The default option has won'),
            (result, "<b>1</b> for it, ", "<b>2</b> for it, "),
            (result, "against <bdi>N", "against <bdi>M"),
            (result, "<small>2\u00a0equal", "<small>1\u00a0equal"),
            (
                names,
                '<p class="option"><span><i>1</i>\u00a0<bdi>72',
                '<p class="option"><span><i>1</i>\u00a0<bdi>73',
            ),
            (names, '<h1 dir="auto">Größe', '<h1 dir="auto">Grösse'),
            (names, ">plain name, on the result sheet: A<", ">plain name, on the result sheet: B<"),
            (
                names,
                "</bdi>, the default option</li>",
                '</bdi>, the default option <span class="plain">x</span></li>',
            ),
            ("the table of votes", "<td>0</td>", "<td>1</td>"),
            ("the ballot of ben", "<b>ben</b> <code>-,1,1", "<b>ben</b> <code>-,1,2"),
            ("the ballot of bem", '<li id="ben">', '<li id="bem">'),
            ("the ballots, which are not as many", LAST_BALLOT, ""),
            (
                "the ballot of ada",
                "</bdi>, then <i>1</i>\u00a0<bdi>72 Euro</bdi>; not",
                "</bdi>, then <i>1</i>\u00a0<bdi>73 Euro</bdi>; not",
            ),
        ]:
            self.assert_page_differs(self.page_of(change=change).count_again(), what)

    def test_files_from_the_disk(self):
        folder, window = self.folder / "result", self.page_of()
        names = ("poll.toml", "ballots.txt", "sheet.txt")
        files = {name: (folder / name).read_bytes() for name in names}
        poll, ballots, sheet = files.values()
        lines = sheet.count(b"\n")

        def counted(**changes):
            """What is said of these files, with changes by their first names; what is None is left
            out.
            """
            given = files | {
                f"{name}.{'toml' if name[:4] == 'poll' else 'txt'}": data
                for name, data in changes.items()
            }
            return window.count_again(
                {name: data for name, data in given.items() if data is not None}
            )

        self.assertTrue(counted()[0].startswith(SAME))
        for said, changes in {
            "(without a line feed at its end). By this count it is: Winner: 2 B (with a line feed at its": {
                "sheet": sheet.removesuffix(b"\n")
            },
            "not in plain form, as the poll.toml of a result is": {"poll": b"# a comment\n" + poll},
            "poll refused: not in UTF-8": {"poll": poll.replace(b'"Plain"', b'"Pl\xffin"')},
            f"line {lines} differs": {"sheet": sheet.replace(b"Winner: 2 B", b"Winner: 1 A")},
            "Not the same as the sheet that you chose: ": {"ballots": b"ada 1,2,3\n"},
            "Not the same as the sheet of this page: ": {"ballots": b"ada 1,2,3\n", "sheet": None},
        }.items():
            self.assertIn(said, counted(**changes)[0])
        others = counted(ballots=ballots + b"dan 1,2,3\n")
        told = "If the files are as they were published, tell the other electors."
        [row] = [row for row in others if row.startswith(("Not the same", "This page"))]
        self.assertTrue(row.startswith("Not the same") and row.endswith(told), row)
        sums = [row for row in others if row.startswith("The checksum of the ")]
        # what the page names
        named = {row.split()[4]: row.endswith("This page names it too.") for row in sums}
        self.assertEqual(named, {"poll,": True, "ballots,": False})
        for wrong in ({"poll-2": poll}, {"poll": None}, {"ballots": None}):
            self.assertEqual(counted(**wrong), [CHOOSE])
        # a casting vote, of the first option, too
        tie = b"ada 1,1,2\nben 1,1,2\n"
        for name, data in {"poll": poll, "ballots": tie}.items():
            (self.scratch / name).write_bytes(data)
        words = [
            PROGRAM,
            "count",
            "--poll",
            self.scratch / "poll",
            "--ballots",
            self.scratch / "ballots",
        ]
        for option in ("A", "B"):
            cast = subprocess.run([*words, "--casting", option], capture_output=True).stdout
            said = f"The sheet has a casting vote for {option}. No count shows whose it was."
            self.assertIn(said, counted(ballots=tie, sheet=cast))
