"""Letters on the pages of the office: what is asked of each, and what no other page says of it."""

import re
from unittest import mock

from debvote_tools.election import Election
from debvote_tools.inbox import judging
from debvote_tools.office import views

from tests.support import offices
from tests.support.election_books import LettersTest
from tests.support.elections import POLL
from tests.support.letters import ballot, letter, mailbox
from tests.support.program import PROGRAM

# the pages of which none has an address of its own
PLACES = ("", "letters", "desk/2", "roll", "all", "do/show", "draft")

MARKUP = "<script>alert(1)</script><form action=x><b>&amp;"


class Letters(LettersTest):
    def with_letters(self, *letters):
        """An office, and its page of the letters, once those that wait have come and nothing was entered."""
        office = offices.Office(self)
        text = office.upload("letters", "mail.mbox", self.of_this_vote(mailbox(*letters)))
        return office, office.yes(text, "n") if 'name="asked"' in text else text

    def test_a_mailbox_is_asked_about_where_it_is_shown(self):
        office = offices.Office(self)
        data = self.of_this_vote(mailbox(ballot("ada", "1,2,3,4"), letter("ben", "I vote for it")))
        text = office.upload("letters", "../-mail<b>.mbox", data)
        self.assertTrue(office.place.startswith("letters?run="), office.place)
        office.shows(text, "Enter 1 ballot?", "1 ada@club.example", "1 letter waits")
        self.assert_lines()
        # it is asked here until it is answered
        office.shows(office.page(), "waits for your answer")
        office.shows(office.yes(text), "counted")
        self.assert_lines("ada 1,2,3,4")
        text = office.upload("letters", "mail.mbox", data)
        office.shows(text, "0 new letters; 2 came before.")
        self.assertEqual(office.post("letters", file=""), office.page("letters"))
        text = office.post("letters", file="--yes")
        office.shows(text, "--yes: No such file or directory")

    def test_a_letter_is_entered_by_its_own_question(self):
        said = "Dear all,\n\nada 2,1,3,4\n\nbut the hall is too cold for me\nAda"
        office, _ = self.with_letters(letter("ada", said))
        ballot = "ada : In the town hall, then At the lake"
        office.shows(office.page("letters/1"), ballot, "the hall is too cold for me")
        text = office.post("letters/1", act="enter")
        self.assertTrue(office.place.startswith("letters/1?run="), office.place)
        office.shows(text, "There is more in it than a ballot. Enter 1 ballot?")
        self.assert_lines()
        office.yes(text, "n")
        self.assert_lines()
        office.agree("letters/1", act="enter")
        self.assert_lines("ada 2,1,3,4")
        self.assertNotIn('value="enter"', office.page("letters/1"))

    def test_a_bare_ballot_by_another_subject_has_nothing_more_in_it(self):
        office, _ = self.with_letters(letter("ada", "ada 2,1,3,4\n", subject="Hello"))
        text = office.post("letters/1", act="enter", force="not-tied")
        self.assertNotIn("more in it", office.shows(text, "Enter 1 ballot?"))

    def test_it_is_entered_otherwise_or_set_aside(self):
        letters = letter("ada", "the lake, then the hall"), letter("ben", "hello")
        office, _ = self.with_letters(*letters)
        text = office.post("letters/1", act="as", name="ada", **{"-1": "1", "-2": "2"})
        office.yes(office.shows(text, "ada: At the lake, then In the town hall"))
        self.assert_lines("ada 1,2,-,-")
        text = office.post("letters/1", act="as", name="ada", ranks="1,2")
        office.shows(text, "is no ballot of this poll")
        office.shows(office.post("letters/2", act="aside"), "No letter waits")
        self.assertEqual(self.last("set aside"), {"letters": [2]})
        self.assertEqual(office.ask("GET", office.base + "letters/3")[0], 404)

    def test_what_needs_force_names_what_for(self):
        office, _ = self.with_letters(ballot("ada", "2,1,3,4", sender="x@else.example"))
        text = office.page("letters/1")
        self.assertIn("Ask its elector first", text)
        self.assertIn('value="not-tied"', text)
        self.assertNotIn('value="voted-since"', text)
        text = office.post("letters/1", act="enter")
        office.shows(text, "do not show that it is of ada")
        # she votes after the page was drawn: what it was forced for was another thing
        self.set_clock("2026-11-25T09:10:00+00:00")
        self.done("desk", given="ada 1,2,3,4\n")
        text = office.post("letters/1", act="enter", force="not-tied")
        office.shows(text, "its elector has voted since")
        self.assert_lines("ada 1,2,3,4")
        self.assertIn('value="voted-since"', office.page("letters/1"))
        text = office.post("letters/1", act="enter", force=["not-tied", "voted-since", "x"])
        self.assert_lines("ada 1,2,3,4")
        office.yes(office.shows(text, "Enter 1 ballot?"))
        self.assert_lines("ada 1,2,3,4", "ada 2,1,3,4")

    def test_what_people_write_is_text(self):
        of_ada = letter(
            "ada",
            f"{MARKUP}\nada 1,2,3,4\x05yes\x1fEnter it?\x06\n{MARKUP}",
            head=f'Content-Disposition: attachment; filename="{MARKUP}"\n',
            subject=f"Re: {MARKUP}",
        )
        of_ben = letter("ben", MARKUP, sender=f'"{MARKUP}" <x@b.example>')
        office, text = self.with_letters(of_ada, of_ben)
        pages = [text, *map(office.page, ("letters", "letters/1", "letters/2", "", "run/1"))]
        pages.append(office.post("letters/1", act="enter"))
        for page in pages:
            self.assertNotRegex(page, "<script>alert|<form action=x")
            self.assertEqual(page.count("<script"), 1)
        self.assert_lines()

    def test_letters_are_judged_once_for_the_overview(self):
        self.add(letter("ada", "hello"))
        election = Election(self.folder, PROGRAM.parent)
        self.addCleanup(election.open_book.connection.close)
        with mock.patch.object(judging, "judge_all", wraps=judging.judge_all) as judge:
            self.assertEqual(views.state_of(election)["state"]["waiting"], 1)
        self.assertEqual(judge.call_count, 1)

    def test_a_hundred_letters_are_on_a_page(self):
        rows = (letter("ada", f"hello {number}", number=number) for number in range(1, 131))
        office, text = self.with_letters(*rows)
        office.shows(text, "130 letters wait", "Page 1 of 2")
        self.assertNotIn("Look at letter 101", text)
        office.shows(office.page("letters?page=2"), "Look at letter 101")
        office.shows(office.page("letters?page=77"), "Page 2 of 2")


class Secret(LettersTest):
    poll = POLL + "secret = true\n"

    def test_words_are_on_the_page_of_the_letter_while_it_is_decided(self):
        office = offices.Office(self)
        data = mailbox(
            ballot("ada", "1,2,3,4"), letter("ben", "Hello\n\nben 2,1,3,4\nor the lake\n")
        )
        text = office.upload("letters", "mail.mbox", self.of_this_vote(data))
        office.shows(text, "Enter 1 ballot?")
        for page in (text, office.page("letters"), office.page()):
            self.assertNotRegex(page, "town hall|2,1,3,4")
        office.yes(text)
        self.assertIn("town hall, then At the lake", office.page("letters/2"))
        office.agree("letters/2", act="enter")
        self.assertNotIn("town hall", office.page("letters/2"))
        self.assertEqual(len(self.lines()), 2)

    def test_no_other_page_has_ranks_beside_a_name(self):
        """All pages are looked at after each step, also by addresses to which nothing leads: those of what was done before at the end."""
        office = offices.Office(self)
        data = mailbox(ballot("ada", "4,1,3,2"), letter("ben", "Hello\n\nben 3,4,2,1\nor not\n"))
        text = office.upload("letters", "mail.mbox", self.of_this_vote(data))
        self.demand_unsaid(office, "letters/1", "letters/2")
        office.yes(text)
        self.demand_unsaid(office, "letters/2")
        text = office.post("letters/2", act="enter")
        self.demand_unsaid(office, "letters/2")
        office.yes(text)
        self.demand_unsaid(office)
        # one that counts, one in place of another, and one that does not count
        for name, ranks, answer in (
            ("cleo", "2,4,1,3", "y"),
            ("ada", "2,4,1,3", "y"),
            ("dan", "4,77", "enter"),
        ):
            text = office.type(name, ranks)
            self.assertNotIn("4,1,3,2", text)
            self.demand_unsaid(office, "desk/1")
            office.yes(text, answer)
            self.demand_unsaid(office)
        text = office.agree("do/show", name="ada")
        office.shows(text, "The current ballot: Sell the house and meet there, then")
        for command in ("log", "status", "close", "count", "publish", "log"):
            office.agree(f"do/{command}")
            self.demand_unsaid(office)
        self.demand_unsaid(office, done=range(1, 20))
        self.assertIn(("publish",), self.rows("SELECT name FROM act"))

    def demand_unsaid(self, office, *decided, done=()):
        """No page has ranks, but for those where they are decided."""
        done = done or re.findall(r"(?:run/|=)(\d+)", office.place)
        runs = [f"run/{number}" for number in range(1, 20)]
        runs += [f"{place}?done={number}" for number in done for place in ("", "letters")]
        for place in {*PLACES, "desk/1", "letters/1", "letters/2", *runs} - {*decided}:
            page = office.ask("GET", office.base + place)[2].decode()
            said = re.findall("4,1,3,2|3,4,2,1|2,4,1,3|4,77|then [AISF]|class=.read", page)
            self.assertEqual(said, [], (place, page))
