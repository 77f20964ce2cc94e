"""`add`: what came before is ignored, whatever became of it, and what has changed since is told."""

import itertools

from debvote_tools.book import queries

from tests.support.election_books import CalledTest
from tests.support.letters import OTHER_RANKS, RANKS

MONDAY = "Ada 1,2,4,3\nben 1, 2,4,3\n"


class Before(CalledTest):
    def setUp(self):
        super().setUp()
        self.write("monday", MONDAY)
        self.told("add monday")

    def assert_ignored(self, count: int, new: int, *parts: str, name: str = "more") -> str:
        """So many lines are ignored, and so many are new; returns what is told, which has these
        parts.
        """
        lines = f"{count} line{' is' if count == 1 else 's are'} ignored, since {'it' if count == 1 else 'they'}"
        ignored = f"{name}: {lines} came before; {new} {'is' if new == 1 else 'are'} new\n"
        return self.tells(f"add {name}", ignored, *parts)

    def assert_nothing_since(self, count: int, name: str = "monday"):
        self.assertNotIn("came before, and", self.assert_ignored(count, 0, name=name))

    def test_the_same_lines_again(self):
        before = self.last_act()
        self.assert_nothing_since(2)
        self.tells("add monday", "There is nothing new, and nothing was added.\n")
        # then it is no act, and the file is not kept a second time; nor are copies in any order,
        # with other line ends and repairs
        self.assertEqual((self.last_act(), len(self.sources())), (before, 1))
        for copy in (
            "\ufeff" + MONDAY.replace("\n", "\r\n"),
            "ben 1,2,4,3\nada 1,2,4,3\n",
            "ada 1, 2,4,3.\nben:1,2,4,3",
        ):
            self.write("more", copy)
            self.assert_ignored(2, 0)
        # of three equal lines one came before: whoever goes back to a first ballot sends it again
        self.write("more", f"ada {RANKS}\nada {OTHER_RANKS}\nada {RANKS}\n")
        self.assert_ignored(1, 2)
        self.assertEqual(self.lines()[2:], [f"ada {OTHER_RANKS}", f"ada {RANKS}"])
        # and of a file that comes once more no line came since
        self.assert_nothing_since(3, name="more")
        # of three equal lines one file had two
        self.adds(f"fay {RANKS}\nfay {RANKS}\n")
        self.write("more", f"fay {RANKS}\n" * 3)
        self.assert_ignored(2, 1)
        # what came at a desk came in no file
        self.cast(f"cleo {RANKS}")
        self.adds(f"cleo {RANKS}\n", "9 replaced  cleo: ")
        # nor did the ballot of a letter: the same line in a file is her last word
        with self.book.act("add") as act:
            source = queries.keep_source(act, "inbox", b"letter")
            letter = act.insert("letter", source=source, identity="1", known="{}")
            envelope = queries.NewEnvelope(f"eve {RANKS}".encode(), "", source, letter)
            queries.add_envelopes(act, [envelope], [self.elector("eve")], is_late=False)
            queries.decide(act, letter, queries.ENTERED)
        self.cast(f"eve {OTHER_RANKS}")
        self.adds(f"eve {RANKS}\n", "12 replaced  eve: ")
        # refused lines are known by their text
        self.adds("Zoe 1,2,4,3\n")
        self.write("more", "ada 1,2,4,3\nZoe 1,2,4,3\nzoe 1,2,4,3\nben 1,2,4,3\n")
        self.assert_ignored(3, 1)
        self.assertEqual(self.lines()[12:], ["Zoe 1,2,4,3", "zoe 1,2,4,3"])
        # late ones, too
        self.close_book(11)
        self.write("more", f"dan {RANKS}\n")
        self.told("add more")
        self.assert_ignored(1, 0)
        self.assertEqual(self.late_lines(), [f"dan {RANKS}"])

    def test_it_has_grown(self):
        self.write("more", f"cleo 1,2,4,3\n{MONDAY}dan 1,2,4,3\n")
        self.assert_ignored(2, 2, "3 counted  cleo: ", "4 counted  dan: ")
        self.assertEqual(self.lines()[2:], ["cleo 1,2,4,3", "dan 1,2,4,3"])
        # the file is kept whole, and each envelope has its line in it
        self.assertEqual(self.sources()[-1], ("more", self.read("more")))
        self.assertEqual([envelope.place for envelope in self.envelopes()[2:]], [":1", ":4"])
        self.assertEqual(self.last("add"), {"files": ["more"], "lines": 2, "passed_over": 2})
        # several files count as they go in
        self.write("one", f"eve {RANKS}\nada {RANKS}\n")
        self.write("two", f"eve {RANKS}\nfay {RANKS}\nfay {RANKS}\n")
        ignored = "1 line is ignored, since it came before;"
        self.tells("add one two", f"one: {ignored} 1 is new\n", f"two: {ignored} 2 are new\n")
        self.assertEqual(self.lines()[4:], [f"eve {RANKS}", f"fay {RANKS}", f"fay {RANKS}"])

    def test_what_an_undo_took_back_came_not(self):
        self.told("undo")
        self.assertNotIn("came before", self.tells("add monday", "3 counted  ada: "))
        # nor do two files of which the later one was taken back
        self.write("more", f"{MONDAY}cleo {RANKS}\n")
        self.assert_ignored(2, 1)
        self.told("undo")
        self.assert_ignored(2, 1)

    def test_what_was_struck_came_whatever_became_of_its_act(self):
        """A strike holds: the undo of its act takes back the other lines."""
        self.told("strike 1 --because 'ada did not write it'")
        said = f"  monday:1: `ada {RANKS}` came before, and was struck (envelope 1)\n"
        self.assert_ignored(2, 0, said, name="monday")
        for number in (3, 4):
            self.assert_lines(f"ben {RANKS}")
            self.told("undo")
            self.assert_ignored(1, 1, said, f"\n{number} counted  ben: ", name="monday")

    def test_an_older_line_above_one_that_came_before(self):
        """By the order of the file the line that came before is the newer one. Below it a line is
        newer, and so is the first one again below that.
        """
        older, newer = f"cleo {RANKS}\n", f"cleo {OTHER_RANKS}\n"
        self.adds(newer)
        said = "the ballot of cleo in line 1 is older than that in line 2, which came before, and would replace it; nothing was added: "
        self.assert_refused("add", 9, said, given=older + newer)
        self.adds(newer + older, "1 replaced")
        self.adds(newer + older + newer)
        self.assertEqual(self.lines()[2:], (newer + older + newer).splitlines())
        self.adds(f"cleo 1,1,4,3\n{newer}", "6 replaced  cleo", words="--force")

    def test_another_ballot_has_come(self):
        self.cast(f"ada {OTHER_RANKS}")
        said = f"\n  monday:1: `ada {RANKS}` came before, and ada has voted since (envelope 3)\n"
        self.assertNotIn("monday:2", self.assert_ignored(2, 0, said, name="monday"))
        self.assertEqual(len(self.lines()), 3)
        # the same ballot in a newer envelope is no change
        self.cast(f"ada {RANKS}")
        self.assert_nothing_since(2)

    def test_many_have_changed(self):
        ranks = itertools.islice(itertools.permutations("1234"), 22)
        self.write("more", "".join(f"cleo {','.join(one)}\n" for one in ranks))
        self.told("add more")
        self.cast("cleo 1,1,1,1")
        output = self.assert_ignored(22, 0, "\n  and 2 more\n")
        self.assertEqual(output.count(" came before, and cleo has voted since"), 20, output)

    def test_a_ballot_that_was_struck_or_late_is_nothing_since(self):
        # of equal lines the one that was struck came last
        self.adds(f"ada {RANKS}\nada {RANKS}\n")
        self.told("strike 1 --because 'a test'")
        self.assert_nothing_since(2)
        self.cast(f"ada {OTHER_RANKS}")
        self.told("strike 4 --because 'a test'")
        self.assert_nothing_since(2)
        self.close_book(2)
        self.cast(f"ada {OTHER_RANKS}")
        self.assert_nothing_since(2)

    def test_it_was_late_and_the_vote_is_open_again(self):
        """What was entered late although it came in time goes in as a new envelope."""
        self.close_book(2)
        self.write("more", f"cleo {RANKS}\n")
        self.told("add more")
        self.assert_nothing_since(1, name="more")
        self.act("reopen", {"because": "a bag was forgotten"})
        self.tells("add --came-before-close yes more", "4 counted  cleo: ")
