"""Ballots at the desks of the office, in English and in German, and whose question an answer is to."""

import os
import re
import signal
import threading
import time

import pytest

from tests.support import elections, offices
from tests.support.election_books import CalledTest
from tests.support.elections import ElectionTest
from tests.support.questions import FEE, QuestionsTest

LOST = "Your answer came too late, or for another question: it was not taken. Look at what is shown now."
MEANWHILE = "Nothing was done: another command changed the election meanwhile. Now it is so:"
GERMAN = ("--language", "de")


class AtDesk(CalledTest):
    def test_a_ballot_is_read_back_and_entered(self):
        office = offices.Office(self, *GERMAN)
        text = office.type("ada", "1,2,3,4")
        office.shows(text, "Vorlesen ada Ada 1 At the lake 2 In the town hall", "Erfassen?")
        office.shows(office.yes(text), "1 hier erfasst", "gezählt")
        self.assert_lines("ada 1,2,3,4")
        self.assertEqual(self.last("desk"), {"lines": 1, "desk": "Desk 1"})
        # what the desk completes is drawn by its words
        text = office.type("Cle", "2,1,-,3")
        drawn = "cleo Cleo 1 In the town hall 2 At the lake 3 Further discussion –"
        office.shows(text, drawn, "`cle` wurde ergänzt zu `cleo`")
        office.shows(office.yes(text, "n"), "Es wurde nicht erfasst.")
        self.assert_lines("ada 1,2,3,4")
        # one of several is chosen by its number
        text = office.shows(office.type("d", "1,2,3,4"), "`d` ist Teil von 3 Namen:")
        office.yes(office.shows(office.yes(text, "1"), "Vorlesen"))
        self.assertEqual(len(self.lines()), 2)

    def test_what_would_not_count_needs_another_button(self):
        office = offices.Office(self)
        for name, ranks in (("ada", "1,2"), ("nobody", "1,2,3,4")):
            text = office.type(name, ranks)
            self.assertIn('class="outcome asking doubtful"', text)
            self.assertIn("What is refused does not count. Enter it anyway?", text)
            [first] = re.findall(r'<button class="first" name="answer" value="(.*?)"', text)
            self.assertIn('name="asked"', text)
            self.assertNotIn("doubtful", office.yes(text, first))
            self.assert_lines()
            # a yes by habit enters nothing
            text = office.yes(office.type(name, ranks), "y")
            self.assert_lines()
            office.yes(text, "")
        office.yes(office.type("ada", "1,2"), "enter")
        self.assert_lines("ada 1,2")

    def test_an_answer_to_an_older_question_enters_nothing(self):
        office = offices.Office(self)
        first = office.type("ada", "1,2,3,4")
        old = {"asked": office.asked(first), "answer": "y"}
        form = office.asked(office.yes(first, "n"))
        second = office.type("ben", "2,1,3,4")
        self.assertIn(LOST, office.post("desk/1", **old))
        # a form that was drawn before types no second ballot
        self.assertIn(LOST, office.post("desk/1", name="cleo", ranks="1,2,3,4", asked=form))
        self.assert_lines()
        office.yes(second)
        self.assertIn(LOST, office.post("desk/1", asked=office.asked(second), answer="y"))
        self.assert_lines("ben 2,1,3,4")
        # an answer to a desk whose process ended, and began anew
        old["asked"] = office.asked(office.type("dan", "1,2,3,4"))
        [child] = offices.children(office)
        os.kill(child, signal.SIGKILL)
        while offices.is_there(child):
            time.sleep(0.01)
        self.assertIn(LOST, office.post("desk/1", **old))
        text = office.type("eve", "4,3,2,1")
        self.assertIn(LOST, office.post("desk/1", **old))
        self.assert_lines("ben 2,1,3,4")
        office.yes(text)
        self.assert_lines("ben 2,1,3,4", "eve 4,3,2,1")

    def test_what_another_desk_enters_meanwhile_is_asked_anew(self):
        office = offices.Office(self)
        first = office.type("ada", "1,2,3,4", desk=1)
        office.yes(office.type("ada", "4,3,2,1", desk=2))
        replaces = "ada has a ballot, which will be replaced"
        text = office.shows(office.yes(first), MEANWHILE, replaces)
        self.assert_lines("ada 4,3,2,1")
        office.yes(text)
        self.assert_lines("ada 4,3,2,1", "ada 1,2,3,4")

    def test_desks_have_names_that_stay(self):
        office = offices.Office(self)
        office.post("desk/3", begin="1", name="Table 3 <b>")
        text = office.yes(office.type("ada", "1,2,3,4", desk=3))
        self.assertEqual(self.last("desk")["desk"], "Table 3 <b>")
        office.shows(office.yes(text, "q"), "This desk has entered 1 line (1 counted).")
        office.end()
        self.assertIn("Table 3 &lt;b&gt;", offices.Office(self).page("desk/3"))

    @pytest.mark.whole
    def test_eight_desks_at_once(self):
        office = offices.Office(self)
        faults = list[BaseException]()
        ballots = {
            number: [(self.names[(number + place) % 3], place + 1) for place in range(12)]
            for number in range(1, 9)
        }

        def at_desk(number):
            try:
                for name, second in ballots[number]:
                    text = office.type(name, f"{number},{second},50,50", desk=number)
                    while "Enter it?" in text:
                        office.shows(text, f" {number} At the lake", f" {second} In the town hall")
                        text = office.yes(text)
            except BaseException as fault:
                faults.append(fault)

        threads = [threading.Thread(target=at_desk, args=(number,)) for number in ballots]
        for thread in threads:
            thread.start()
        for thread in threads:
            thread.join()
        self.assertEqual(faults, [])
        wanted = (
            f"{name} {number},{second},50,50"
            for number, rows in ballots.items()
            for name, second in rows
        )
        self.assertEqual(sorted(self.lines()), sorted(wanted))


class Reopened(ElectionTest):
    def test_a_desk_asks_before_the_first_ballot(self):
        self.done("desk", given="ada 1,2,3,4\n")
        self.done("close", "--yes")
        self.done("reopen", "--because", "one is missing")
        office = offices.Office(self, *GERMAN)
        text = office.post("desk/1", begin="1")
        office.shows(text, "wieder geöffnet. Kam dies vor jenem Schluss?")
        self.assertNotIn('id="Name"', text)
        office.yes(text)
        office.yes(office.type("ben", "1,2,3,4"))
        query = "SELECT line, late FROM envelope"
        self.assertEqual(self.rows(query), [(b"ada 1,2,3,4", 0), (b"ben 1,2,3,4", 0)])


class Several(QuestionsTest):
    polls = {**QuestionsTest.polls, "A": FEE + "motion = true\n"}

    def test_several_questions_and_a_motion(self):
        office = offices.Office(self, *GERMAN)
        text = office.type("ada", "", ranksA="1,2", **{"B-1": "1", "B-2": "2", "B-3": "-"})
        chair = "1 Ada Lovelace 2 Mary Somerville – None of these"
        office.yes(office.shows(text, "Ja Raise the fee", chair))
        self.assert_lines("ada A 1,2 B 1,2,-")
        office.shows(office.page(), "B The chair of the board 1 haben geantwortet")


class Secret(ElectionTest):
    poll = elections.POLL + "secret = true\n"

    def test_what_a_ballot_replaces_is_not_shown(self):
        office = offices.Office(self, *GERMAN)
        office.yes(office.type("ada", "1,2,3,4"))
        self.assertNotIn("town hall, dann", office.page("desk/1"))
        text = office.type("ada", "4,3,2,1")
        replaces = "ada hat einen Stimmzettel, der ersetzt wird"
        office.shows(text, "ada Ada 1 Further discussion 2", replaces)
        self.assertEqual(offices.seen(text).count("At the lake"), 1)
        office.yes(text)
        text = office.post("do/show", name="ada")
        place = office.place
        text = office.yes(office.shows(text, "Zeigen, wie ada gestimmt hat?"))
        office.shows(text, "Further discussion, dann")
        self.assertNotIn("Further discussion, dann", office.page(place.partition("?")[0]))
