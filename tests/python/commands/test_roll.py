"""`roll`, `check` and `status --electors`: the electors that the book gets, what they are called, and what is said of list and poll."""

import importlib.util
import unittest

from debvote_tools.files import TABLE_LIMIT

from tests.support import elections
from tests.support.election_books import CalledTest
from tests.support.terminal import Terminal

ROWS = elections.members_of(elections.NAMES).splitlines()[1:]


class RollTest(CalledTest):
    call_words = None

    def roll(self, *rows: str, head: str = "who,mail") -> elections.Ended:
        self.write("members.csv", "\n".join([head, *rows, ""]))
        return self.election("roll")

    def rolled(self, *rows: str, head: str = "who,mail") -> str:
        ended = self.roll(*rows, head=head)
        self.assertEqual(ended.status, 0, ended)
        return ended.output

    def on_roll(self) -> list[str]:
        """The electors without a ballot: all of them."""
        return self.numbers()["without_ballot"]


class Roll(RollTest):
    def test_names_are_proposed_and_the_list_is_not_written(self):
        rows = "Chloé,chloe@club.example", "Anna Meier,", "Ødegård,o@club.example"
        said = self.rolled(*rows)
        self.assertEqual(self.on_roll(), ["chloe", "anna-meier", "odegard"])
        unsent = "Without an address (letters in their names wait, letters to them are printed): anna-meier"
        for part in ("  chloe: Chloé chloe@club.example\n", "3 names were proposed", unsent):
            self.assertIn(part, said)
        self.assertTrue(said.endswith("\nNext: debvote-election check\n"), said)
        self.assertEqual(self.read("members.csv").decode().splitlines(), ["who,mail", *rows])
        # again it is no act
        before = self.last_act()
        self.done("roll")
        self.assertEqual(self.last_act(), before)

    def test_the_electors_are_listed_at_any_time(self):
        listed = "  chloe: Chloé chloe@club.example\n  anna-meier: Anna Meier\n"
        said = self.rolled("Chloé,chloe@club.example", "Anna Meier,")
        self.assertIn(f":\n{listed}2 names", said)
        self.assertEqual(self.told("status --electors"), listed)
        self.done("call")
        self.assertEqual(self.told("status --electors"), listed)
        # with codes on the roll nobody knows whose they are
        self.done("call --take-back")
        self.write("poll.toml", "secret = true\n" + elections.POLL)
        self.done("codes --on-roll")
        unknown = "--electors: codes are on the roll, and nobody knows whose they are"
        self.refused("status --electors", unknown)

    def test_what_is_told_of_a_list(self):
        people = "eve-dan (Eve & Dan), fay-und-gus-meier (Fay und Gus Meier), hal-ida (Hal/Ida), jan-kim (Jan+Kim), marie-et-luc (Marie et Luc)"
        together = f"Note: these look like several people, who have one ballot together: {people}. Give each a line of their own.\n"
        cut = "at most 32 characters, so these were cut: maximiliane-theodora-louise-schu (Maximiliane Theodora Louise Schulz)\n"
        similar = "these names are easily mistaken for each other: anna-meier and anna-maier, anna-meier and meier-anna\n"
        unsent = (
            "Without an address that every mail server takes (letters to them are printed): cleo\n"
        )
        shared = "Note: several electors have the address home@club.example: ada, ben. Is that one person?\n"
        alike = "Note: these real names look alike: zoe-1, zoe-2. Is that one person?\n"
        for rows, said, unsaid in [
            ("Maximiliane Theodora Louise Schulz,", cut, "mistaken"),
            ('Dr. Anna Meier,|"Maier, Anna",|Meier Anna,', similar, "cut:"),
            ("Jo Meier,|Jo-Meier,", "", "mistaken"),
            ("Cleo,cléo@c.example|Ben,bén@c.example b@c.example", unsent, "Without an address ("),
            (
                "Ada,a@club.example home@club.example|Ben,Home@club.example|Eve,e@club.example E@club.example|Cleo,",
                shared,
                "address e@",
            ),
            ("Zo\u00eb,z@club.example|zoe,|Zo\u00eb L,", alike, "cut:"),
            (
                'Eve & Dan,e@c.example|Fay und Gus Meier,|Hal/Ida,|Jan+Kim,|Marie et Luc,|Andrea Undset,|"Ober, Anna",|A-B,',
                together,
                "alike",
            ),
            ("Max,|Mayer,|Dr. Mayer,", "", "somebody else"),
        ]:
            output = self.rolled(*rows.split("|"))
            self.assertIn(said, output)
            self.assertNotIn(unsaid, output)
        # a name on the roll that is the real name of somebody else
        rows = "Maximilian Mayer,max,", "M\u00e1x,,", "Kim,kim,"
        self.assertIn(
            "Note: these names on the roll are the real name of somebody else: max (Maximilian Mayer). Give them other names.\n",
            self.rolled(*rows, head="who,name,mail"),
        )

    def test_a_name_stays_with_its_person(self):
        self.roll("Anna Meier,a@club.example", "Ben,b@club.example")
        self.roll("Ben,new@club.example", "Zoe,z@club.example", "Anna  Meier,a@club.example")
        self.assertEqual(self.on_roll(), ["ben", "zoe", "anna-meier"])
        people = "chair,Anna Meier,a@club.example", ",Ben,b@club.example"
        self.rolled(*people, head="name,who,mail")
        self.assertEqual(self.on_roll(), ["chair", "ben"])
        gone = "No longer on the list: chair (Anna Meier)\nNo longer on the list: ben (Ben)\n"
        self.assertIn(gone, self.rolled("Cleo,c@club.example"))
        # of whom no real name is known
        self.roll("x,,x@club.example", ",Cleo,c@club.example", head="name,who,mail")
        self.assertIn("No longer on the list: x\n", self.rolled("Cleo,c@club.example"))

    def test_all_names_are_printed(self):
        self.roll(*(f"Elector {number},e{number}@club.example" for number in range(201)))
        for command in ("roll", "check"):
            self.tells(command, *(f"elector-{number}" for number in range(201)))

    def test_a_folder_no_file_and_one_that_is_too_long(self):
        file, again = self.folder / "members.csv", ", then run debvote-election roll again"
        file.unlink()
        self.refused("roll", "members.csv: No such file or directory; ", again, status=2)
        file.mkdir()
        self.refused("roll", "members.csv: Is a directory; ", again, status=2)
        file.rmdir()
        with open(file, "wb") as long:
            long.truncate(TABLE_LIMIT + 1)
        too_long = f"members.csv: it is longer than {TABLE_LIMIT} bytes; shorten it"
        self.refused("roll", too_long, again, status=2)

    def test_all_faults_at_once(self):
        ended = self.roll(
            "A B,x,Ada,a@club.example,z",
            "ÄÖ,Ben,b@club.example",
            ",,",
            "ada,Cleo,nowhere",
            head="name,who,mail",
        )
        self.assertEqual(ended.status, 9)
        self.assertRegex(ended.faults, r"\A(debvote-election: members.csv:.*\n){3,}\Z")
        self.assertEqual(self.on_roll(), elections.NAMES)


class AfterTheCall(RollTest):
    call_words = ("--to", "vote@club.example")

    def test_addresses_alone_may_change(self):
        self.assertIn("Nothing was changed", self.rolled(*ROWS))
        changed = "Ada,new@club.example", *ROWS[1:]
        becomes = "ada@club.example becomes new@club.example"
        self.assert_fault(self.roll(*changed), 9, becomes, "--yes")
        self.tells(
            "roll --yes",
            f"ada: address {becomes}",
            "1 elector changed; the result page says how many",
            "\nNext: 9 letters of the call are not sent: ",
        )
        self.assertEqual(self.on_roll(), elections.NAMES)
        # a key changes once
        keys = "A" * 40, *[""] * 8
        self.roll(*map(",".join, zip(changed, keys)), head="who,mail,key")
        self.say_done("letters")
        # a key alone is no news
        self.tells("roll --yes", "1 elector changed", "\nNext: debvote-election close, when ")
        self.tells("roll", "Nothing was changed")
        self.roll(*ROWS[:1], *changed[1:])
        self.tells("roll --yes", "\nNext: 1 letter of the call is not sent: ")

    def test_each_change_is_asked_about(self):
        """And what another `roll` has changed meanwhile stays."""
        members = elections.members_of(elections.NAMES)
        first = members.replace("ada@club", "ada@new").replace("ben@club", "ben@new")
        self.write("members.csv", first)
        for is_overtaken in (True, False):
            terminal = Terminal(self, "roll")
            terminal.until(
                "ada (Ada): address ada@club.example becomes ada@new.example. Is that right? [y/n] "
            )
            if is_overtaken:
                self.write("members.csv", members.replace("ida@club", "ida@new"))
                self.done("roll --yes")
                self.write("members.csv", first.replace("ida@club", "ida@new"))
            terminal.ends(
                "y\nn\n",
                "ben (Ben): address ben@club.example becomes ben@new.example. Is that right? [y/n] ",
                "another command changed"
                if is_overtaken
                else "1 elector changed; the result page says",
                status=9 if is_overtaken else 0,
            )
            self.tells("show ada", "ada@club.example" if is_overtaken else "ada@new.example")
            self.tells("show ben", "ben@club.example")

    def test_other_people_stop(self):
        before, said = self.last_act(), "after the call only addresses and keys may change"
        for changed in (ROWS[1:], [*ROWS, "Jan,jan@club.example"]):
            self.assert_fault(self.roll(*changed), 9, said)
        self.assertEqual(self.last_act(), before)


class WithFiles(RollTest):
    """Of a secret vote the slips, and of one with a box the script, depend on the addresses."""

    def demand_made(self, name: str):
        """A run that was killed after its act, before it made a file anew: the command that is repeated makes it."""
        before = self.read(name)
        self.write("members.csv", elections.members_of(self.names).replace("ada@", "ada@new."))
        # where the note of this act takes its place
        self.traced("-e", "inject=rename:signal=KILL:when=1", words=["roll --yes"])
        self.assertEqual(self.read(name), before)
        self.tells("roll --yes", "Nothing was changed.")
        made = self.read(name)
        self.assertNotEqual(made, before)
        (self.folder / name).unlink()
        self.done("call")
        self.assertEqual(self.read(name), made)

    @unittest.skipUnless(
        importlib.util.find_spec("cryptography"), "python3-cryptography is not installed"
    )
    def test_the_script(self):
        self.done(
            "call --until '2099-12-04 18:00' --to vote@club.example --at https://club.example/ --box"
        )
        self.demand_made("call/vote.php")

    def test_the_slips(self):
        self.write("poll.toml", f"{elections.POLL}secret = true\n")
        self.done("codes")
        self.done("call --to vote@club.example")
        self.demand_made("private/slips.html")


class Check(RollTest):
    def check(self, poll: str) -> elections.Ended:
        self.write("poll.toml", poll)
        return self.election("check")

    def test_in_order(self):
        (self.folder / "texts").mkdir()
        self.write("texts/1.txt", "Near the water.\n")
        ended = self.check(elections.POLL.replace("At the lake", "Am Bärensee"))
        self.assertEqual(ended.status, 0, ended)
        wanted = [
            "The poll is in order: 4 options, 9 electors.",
            "Title: Where we meet in spring",
            "Options:",
            "  1  Am Bärensee (majority ratio 1)",
            "     plain: Am Barensee",
            "     text: 3 words from texts/1.txt",
            "  2  In the town hall (majority ratio 1)",
            "  3  Sell the house and meet there (majority ratio 3)",
            "  4  Further discussion (the default option)",
            "Quorum: 2 votes (1Q): at least 2 electors must prefer an option to the default option",
            "Electors: 9",
            "  ada ben cleo dan eve fay gus hal ida",
            "Next: debvote-election call --until 'YYYY-MM-DD HH:MM' --to ADDRESS (the end of the vote, and the address for ballots; "
            "both are optional)",
        ]
        self.assertEqual(ended.output.splitlines(), wanted)

    def test_of_what_is_no_toml_debvote_says_why_and_nobody_else(self):
        for poll in [
            "title = \n",
            'title = "a\n',
            'options = ["a", \u201cb\u201d]\n',
            "ada 1,2,3\n",
            "a = 1\na = 2\n",
            "a = " + "[" * 9000,
        ]:
            with self.subTest(poll=poll[:40]):
                ended, said = self.check(poll), self.debvote("explain", "--poll", "poll.toml")
                self.assertEqual(
                    (ended.status, ended.output, bool(said.output)), (3, said.output, True)
                )
                words = "poll.toml: it can't be read as TOML, as said above; put it right with an editor, then run debvote-election check"
                self.assertEqual(ended.faults, f"debvote-election: {words}\n")

    def test_secret(self):
        self.assertIn(
            "Next: the vote is secret, and electors have no codes yet: debvote-election codes",
            self.check(elections.POLL + "secret = true\n").output,
        )
