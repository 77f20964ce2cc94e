"""A click in a secret vote: what page and letters say, what counts, and what nobody is told."""

import pytest

from tests.support import boxes, elections
from tests.support.boxes import OTHER, RANKS
from tests.support.elections import NAMES
from tests.support.terminal import Terminal

HTTPS = "--at https://club.example/vote/"
SECRET = f"secret = true\n{elections.POLL}"
HIDDEN = "(not shown)"
# what page and letters of a secret vote with a box never say
INVITING = (
    "NAME _",
    "_,_",
    "answer this letter",
    "Answer this letter",
    "Send by e-mail",
    "your ballot by e-mail",
    "write your name",
)


class SecretCall(elections.ElectionTest):
    call_words = None

    def test_what_stands_against_it(self):
        slips = "--slips: only in a secret vote, with --box"
        self.refused(f"call --box {HTTPS} --slips no", slips, status=2)
        self.write("poll.toml", SECRET)
        self.done("codes")
        self.refused("call --slips no", slips, status=2)
        self.done("call --to vote@club.example")
        for words, status, fault in (
            ("letters call --codes --yes", 2, "--codes: only in a secret vote with a web box"),
            ("call --slips yes", 9, "--slips: the call was made without it"),
            ("roll --new-link ada", 2, "--new-link: ada has no link that could be replaced"),
        ):
            self.refused(words, fault, status=status)
        self.done("call --take-back")
        self.done("codes --on-roll")
        fault = "--box: codes are on the roll, and the result would show whoever keeps the web host whose each is"
        self.refused(f"call --box {HTTPS} --slips no", fault, status=2)
        ended = self.election("call --box --names --keyring x")
        self.assertEqual(ended.status, 2)
        for part in (
            fault,
            "--names: the vote is secret",
            "--box: letters have to be signed",
            "--box: the page needs an address",
        ):
            self.assertIn(part, ended.faults)

    def test_whether_slips_are_handed_out_is_asked_and_kept(self):
        self.write("poll.toml", SECRET)
        self.done("codes")
        fault = "--slips: nobody says whether slips with codes will be handed out"
        self.refused(f"call --box {HTTPS}", fault, "give --slips yes, or --slips no")
        shown = {
            "and your code in the result alone shows that.": "yes",
            "with your code you find your own": "yes",
            "and nothing would show you that.": "no",
        }
        for answer in ("yes", "no"):
            said = self.done(f"call --box {HTTPS} --slips {answer}").output
            self.assertIn("Make a copy of the book now: debvote-election backup FILE.", said)
            handed = (
                "\nPrint private/slips.html, cut the slips out, and give each elector their own.\n"
            )
            none = "\nNo slips: nobody can find their ballot in the result.\n"
            self.assertEqual((handed in said, none in said), (answer == "yes", answer == "no"))
            page = " ".join(self.read("call/index.html").decode().split())
            for part, by in shown.items():
                self.assertEqual(part in page, by == answer, part)
            self.done("call --take-back")
            self.done("codes")
        # the end of the input is no answer
        terminal = Terminal(self, *f"call --box {HTTPS}".split())
        terminal.until("Will slips with codes be handed out")
        terminal.type("\x04")
        text, status = terminal.end()
        self.assertEqual((fault in text, status), (True, 9), text)


class SecretClicks(boxes.BoxElectionTest):
    poll = SECRET

    def setUp(self):
        super().setUp()
        self.done("codes")

    def begun(self, *words: str, **clicks: str) -> dict[str, str]:
        return super().begun("--slips", "yes", *words, **clicks)

    def codes(self) -> dict[str, str]:
        rows = self.rows("SELECT name, code FROM elector_now")
        return {str(name): str(code) for name, code in rows}

    def demand_without(self, text: str, *parts: str):
        for part in parts:
            self.assertNotIn(part, text)

    def test_page_and_letters(self):
        links = self.begun()
        page, codes = self.read("call/index.html").decode(), self.codes()
        nodes = ('id="Copy"', 'id="Letter"', "data-name", 'id="Name"', 'id="Not-you"')
        self.demand_without(page, *INVITING, *nodes)
        self.assertIn("You vote as ", page)
        letters = self.texts("call")
        self.assertEqual(sorted(letters), NAMES)
        for name, text in letters.items():
            self.assertIn(f"{self.host.at}#{name}/", text)
            self.assertIn(links[name], text)
            self.assertIn("Open the link, choose, and press Vote", text)
            self.demand_without(text, *INVITING, codes[name], "This is your secret code")
        self.demand_without(self.read("call/call.txt").decode(), *INVITING)
        self.done("letters reminders")
        for name, text in self.texts("reminders").items():
            self.assertIn(links[name], text)
            self.demand_without(text, *INVITING)
        # a slip has the code, and nothing of an e-mail, nor a row of ranks to write, which it is
        # not for
        slips = self.read("private/slips.html").decode()
        for name, code in codes.items():
            self.assertIn(code[:4], slips, name)
        of_mail = ("Send your ballot to", "At the end of the subject")
        of_ranks = ("A rank for each option", "1 is the best", "At the lake")
        self.demand_without(slips, *of_mail, *of_ranks, *links.values())
        # no name or alias of anybody is on the host
        aliases = [str(alias) for alias, in self.rows("SELECT alias FROM elector_now")]
        for name in ("index.html", "vote.php"):
            for secret in (*NAMES[1:3], *aliases, *codes.values()):
                self.assertNotRegex((self.web / name).read_text(), rf"\b{secret}\b")

    def test_codes_beside_links(self):
        self.begun()
        words = "letters call --codes"
        fault = "Who reads a letter with its code can vote in that name, and finds the alias"
        self.refused(words, fault, "if it is right, write them with --yes")
        terminal = Terminal(self, *words.split())
        terminal.until("Write them?")
        terminal.type("n\n")
        self.assertIn("you did not agree to codes in letters", terminal.end()[0])
        self.refused("letters receipts --codes", "--codes: only with call", status=2)
        self.new_address("ada")
        self.upload()
        self.done(f"{words} --yes")
        letters = [*(self.folder / "letters/call").rglob("ada.eml")]
        self.assertIn(
            self.codes()["ada"], "".join(boxes.text_of(one.read_bytes()) for one in letters)
        )

    @pytest.mark.whole
    def test_nothing_that_people_wrote_is_told_at_a_pipe(self):
        self.begun(ida=RANKS, hal="1,2,3,9")
        own = f"[{elections.ANY_MARK}-{{}}]"
        own_of = {name: own.format(elections.any_own(name)) for name in NAMES}
        named = self.letter("dan", f"dan {RANKS}\ndan {OTHER}", subject=f"Mine {own_of['dan']}")
        said = [
            self.add(
                self.letter(
                    "ada",
                    "I take the lake, then the hall",
                    subject=f"The lake first {own_of['ada']}",
                ),
                self.letter("ben", "ben 9,9\n> ben hall", subject=f"2-1-3 {own_of['ben']}"),
                self.letter("cleo", "cleo  1, 2,3,4."),
                named.replace(b"From: ", b"From: For the lake <").replace(
                    b"club.example\nTo", b"club.example>\nTo"
                ),
            )
        ]
        said += [self.told("add --box --look"), self.add_box()]
        texts = self.receipts()
        counts = (
            "has arrived. It counts unless you send a later one. It came by the page of the vote."
        )
        self.assertIn(counts, texts["ida"])
        # who sent what nobody can count is told to vote again by the link, and by no e-mail
        again = "You can vote again now: open the link in your letter of this vote."
        self.assertIn(again, texts["hal"])
        self.demand_without(texts["hal"], *INVITING)
        for text in texts.values():
            self.demand_without(text, "It was read as", "At the lake, then", "1,2,3")
        self.assert_standing(cleo=RANKS, ida=RANKS)
        self.write("lines.txt", "eve: 1, 2, 3, 4.\nfay lake\ngus 1,2,3\nhal 1,2,3,4\n")
        commands = "add --look lines.txt|add lines.txt|add --force not-tied --force voted-since lines.txt|held|held 1|held 2|held 3|held 4|held 1 --as ada|held 4 --enter|held 1 2 --enter|status|log|status --json"
        commands = (*commands.split("|"), *map("show {}".format, NAMES))
        commands += "strike 2 --yes --because mistyped", "undo --yes"
        ended = [self.election("desk", given="fay: lake\ngus 1,2,3\n")]
        ended += [self.election(words) for words in commands]
        ended.append(self.election("held", 1, "--as", "ada lake"))
        text = "".join([*said, *(one.output + one.faults for one in ended)])
        # said of a ballot line beside one that is refused: it is nobody's
        right = "A ballot line of this poll: `NAME 2,3,4,1`: the ranks of 1 At the lake, 2 In the town hall, 3 Sell the house and meet there, 4 Further discussion; 1 is the best"
        text = text.replace(right, "")
        self.assertIn(HIDDEN, text)
        told = "9,9|2-1-3|1,2,3|1, 2, 3|4,3,2|lake|hall|column|ranks, the poll|For the lake"
        self.demand_without(text, *told.split("|"))
        # at a terminal all of it is there
        shown = Terminal(self, "held", "1").end()[0]
        for part in ("I take the lake, then the hall", "subject: The lake first"):
            self.assertIn(part, shown)

    def test_whose_ballots_came_is_told_and_nothing_else(self):
        """Also at a terminal; and not in the order of the records, which the web host knows."""
        self.begun(ida=RANKS, ada=OTHER)
        said = " ".join(Terminal(self, "add", "--box", "--yes").end()[0].split())
        told = " 2 sealed ballots: ada, ida counted ada counted ida 2 ballots of letters went in"
        self.assertIn(told, said)
        self.demand_without(said, "lake", RANKS)

    def test_a_take_back_needs_a_fresh_asking(self):
        """And before it, an answer by mail goes in, to which nobody is invited: nothing was taken
        from who does it.
        """
        self.begun()
        [letter] = (self.folder / "letters/call").rglob("ada.eml")
        self.assertRegex(letter.read_text(), r"\nSubject:[^:]+:[^:]+\[[0-9a-f]{16}-\w{10}\]\n")
        self.later(700)
        fault = "ballots may lie on the page"
        self.refused("call --take-back", fault, "run debvote-election add --box")
        self.done("add --box")
        self.done("call --take-back")
        self.assertEqual(self.status()["stage"], "new")
        self.done("codes")
        self.begun()
        self.assertIn("1 ballot of letters went in", self.add(self.letter("ada", f"ada {RANKS}")))
