"""`show`: one elector, with the ballots that came, and what stands."""

import re

from debvote_tools.book import queries

from tests.support.election_books import HALL, LAKE, CalledTest
from tests.support.letters import OTHER_RANKS, RANKS


class Show(CalledTest):
    def shown(self, name: str = "ada") -> list[str]:
        """What is told, without the times."""
        before, output = self.last_act(), self.told(f"show {name}")
        self.assertEqual(self.last_act(), before)
        return re.sub(r"\d{4}-\d\d-\d\d \d\d:\d\d:\d\d UTC", "TIME", output).splitlines()

    def test_all_that_can_become_of_a_ballot(self):
        self.adds(f"ada {RANKS}\nben {RANKS}\nada 1,2\n")
        self.cast(f"ada {OTHER_RANKS}")
        self.adds("ada -,-,-,1\n")
        self.told("strike 5 --because 'it was pencil'")
        self.adds("ada 1,1,1,1\n")
        self.told("undo")
        self.told("close")
        self.cast(f"ada {RANKS}")
        behind = "not ranked, and so behind all others: At the lake, In the town hall and Sell the house and meet there"
        equal = "At the lake, In the town hall, Sell the house and meet there and Further discussion equally"
        wanted = [
            "ada: Ada ada@club.example",
            f"  envelope 1, TIME: {LAKE}",
            "  envelope 3, TIME: ada 1,2: bad rank count: 2 ranks, the poll has 4 options",
            f"  envelope 4, TIME: {HALL}",
            f"  envelope 5, TIME (struck by strike at TIME: it was pencil): Further discussion; {behind}",
            f"  envelope 6, TIME (struck by undo at TIME): {equal}",
            f"  envelope 7, TIME (late): {LAKE}",
            f"The current ballot: {HALL}",
            "  closed, TIME, to ada@club.example: written",
        ]
        of_ben = [
            f"  envelope 2, TIME: {LAKE}",
            f"The current ballot: {LAKE}",
            "  closed, TIME, to ben@club.example: written",
        ]
        of_cleo = ["The current ballot: none", "  closed, TIME, to cleo@club.example: written"]
        self.assertEqual((self.shown(), self.shown("ben")[1:]), (wanted, of_ben))
        self.assertEqual(self.shown("cleo"), ["cleo: Cleo cleo@club.example", *of_cleo])
        # a ballot of a letter has the time of the letter, and its place
        with self.book.act("add") as act:
            time = act.time.replace(year=2020)
            line = queries.NewEnvelope(f"ada {RANKS}".encode(), time=time)
            queries.add_envelopes(act, [line], [self.elector("ada")], is_late=False)
        self.tells("show ada", f"club.example\n  envelope 8, {time:%F %T} UTC: {LAKE}\n")

    def test_what_became_of_a_late_line(self):
        """It was entered again, and counts so, or was replaced since; another one was not."""
        self.adds(f"ada {RANKS}\nben {RANKS}\n")
        self.told("close")
        self.cast(f"ada {OTHER_RANKS}", "ben 1,1,1,1", f"cleo {RANKS}")
        self.told("reopen --because 'they came in time'")
        self.told(
            "add --came-before-close yes --force",
            given=f"ada {OTHER_RANKS}\ncleo {RANKS}\ncleo {OTHER_RANKS}\n",
        )
        self.assertIn(
            f"  envelope 3, TIME (late; entered again as 6: counts): {HALL}", self.shown()
        )
        self.assertEqual(
            [line for line in self.shown("ben") if "(late)" in line], [self.shown("ben")[2]]
        )
        self.assertIn(
            f"  envelope 5, TIME (late; entered again as 7: replaced): {LAKE}", self.shown("cleo")
        )

    def test_who_is_meant(self):
        for name in ("Ada", "ADA", " ada "):
            self.assertEqual(self.shown(name)[0], "ada: Ada ada@club.example")
        self.refused(
            "show 'zoe\x1b[2J'",
            "show: no elector on the roll is `zoe\\u001B[2J`; debvote-election status --electors lists the names",
        )
        with self.book.act("addresses") as act:
            for elector in queries.electors(self.book)[:2]:
                queries.put_electors(act, [elector._replace(who="Kim Kim", addresses=())])
        self.refused(
            "show 'kim kim'", "several electors have the name kim kim; name one of ada, ben"
        )
        self.assertEqual(self.shown()[0], "ada: Kim Kim")
        # as `add` and a desk: a name on the roll with a capital letter may be the real one of somebody else
        with self.book.act("addresses") as act:
            dan = queries.electors(self.book)[3]
            queries.put_electors(act, [dan._replace(who="Cleo")])
        self.refused(
            "show Cleo", "show: several electors have the name Cleo; name one of cleo, dan"
        )
        self.assertEqual(self.shown("cleo")[0], "cleo: Cleo cleo@club.example")
