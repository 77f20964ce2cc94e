"""The words for a ballot and for a share, the kinds of acts, and why options have lost."""

import datetime
import unittest

import pytest

from debvote_tools.result.facts import Act
from debvote_tools.result.page import share
from debvote_tools.result.why import Why
from debvote_tools.sheet import sheet_in
from debvote_tools.text.ballots import (
    ballot_lines,
    ballot_of,
    ballots_in_words,
    part_of,
    ranks_by_label,
)
from debvote_tools.text.language import ENGLISH, language_of
from debvote_tools.text.rendering import templates_of
from debvote_tools.text.times import days_in_words

from tests import reference
from tests.support import page_parts, result_checks

# elections in which options often beat each other in circles
ELECTIONS = 1_000


class WordsTest(unittest.TestCase):
    def test_each_kind_of_what_was_done_is_told(self):
        """Also that the clock went back, and a plain close; each with its time."""
        time = datetime.datetime(2026, 12, 4, tzinfo=datetime.UTC)
        names = ("number", "envelope", "envelopes", "noted", "there")
        places = {"until": time, "before": time, **dict.fromkeys(names, 1)}
        templates = templates_of("debvote_tools.result", ENGLISH, is_page=False)
        told = templates.get_template("told.jinja").module
        kinds = {*told.DONE, "roll changed"}
        self.assertEqual(len(kinds), 17)
        begin = "Friday, 4 December 2026, 00:00 (UTC): "
        for done in kinds:
            self.assertTrue(told.dated(Act(time, done, places)).startswith(begin), done)
        none = dict.fromkeys(("early", "waiting", "after_end", "came", "struck", "replaced"))
        act = Act(time, "closed", {"lines": 1, "checksum": "c", **none})
        plain = "The vote was closed. Lines in time: 1. Checksum: c."
        self.assertEqual(told.dated(act), f"{begin}{plain}")

    def test_ballots_in_words(self):
        names = ["At the lake", "In the town hall", "Sell the house", "Further discussion"]
        for ranks, wanted in {
            "10,2,99,1": "Further discussion, then In the town hall, then At the lake, then Sell the house",
            "2,1,1,3": "In the town hall and Sell the house equally, then At the lake, then Further discussion",
            "1,-,-,2": "At the lake, then Further discussion; not ranked, and so behind all others: In the town hall and Sell the house",
            "-,-,-,-": "no option is ranked, so nothing is preferred",
        }.items():
            self.assertEqual(ballots_in_words(names)(ranks), wanted)
        # of a motion a hyphen is behind each rank, also one of two digits
        in_words = ballots_in_words(["Yes", "No"], motion=True)
        said = [in_words(ranks) for ranks in ("10,99", "99,10", "-,99", "99,-", "-,-")]
        self.assertEqual(said, ["Yes", "No", "No", "Yes", "Abstain"])

    def test_a_ballot_is_taken_apart_by_questions_and_put_together(self):
        for answers, by_label in {
            "-,12,3": {"": "-,12,3"},
            "A 1,2": {"A": "1,2"},
            "A 1,2 C 2,-,3": {"A": "1,2", "C": "2,-,3"},
        }.items():
            self.assertEqual(ranks_by_label(answers), by_label)
            line = f"ada {answers}"
            self.assertEqual(ballot_of("ada", by_label).line, line)
            parts = {label: part_of(line.encode(), label) for label in (*by_label, "B")}
            wanted = {label: f"ada {ranks}".encode() for label, ranks in by_label.items()}
            self.assertEqual(parts, wanted | {"B": None})

    def test_the_lines_of_a_file(self):
        """Empty ones at its end are lines, too, which debvote refuses by their numbers."""
        for data, lines in {
            b"": [],
            b"\n": [b""],
            b"ada 1,2": [b"ada 1,2"],
            b"ada 1,2\n\n\n": [b"ada 1,2", b"", b""],
        }.items():
            self.assertEqual(ballot_lines(data), lines)

    def test_numbers_and_the_year_of_two_days_in_each_language(self):
        """Thousands are parted, and a year that is the same stands once."""
        first, last = datetime.date(2027, 2, 26), datetime.date(2027, 3, 1)
        for code, number, days in [
            ("en", "1,234,567", "Vote of 26 February to 1 March 2027"),
            ("de", "1.234.567", "Abstimmung vom 26. Februar bis 1. März 2027"),
            ("fr", "1\u00a0234\u00a0567", "Vote du 26 février au 1er mars 2027"),
            ("es", "1\u00a0234\u00a0567", "Votación del 26 de febrero al 1 de marzo de 2027"),
        ]:
            language = language_of(code)
            numbers = language.number(1_234_567), language.number(999)
            self.assertEqual(numbers, (number, "999"))
            begin, end = days_in_words([first, last], language)
            said = language.say("Vote of {first} to {last}", first=begin, last=end)
            self.assertEqual(said, days)
        for days, wanted in {
            (first.replace(year=2026), last): ["26 February 2026", "1 March 2027"],
            (last, last): ["1 March 2027"],
            (): [],
        }.items():
            self.assertEqual(days_in_words(days, ENGLISH), wanted)

    def test_shares(self):
        """How many have voted, in per cent: none alone is 0, all alone are 100, and it is
        rounded.
        """
        for voters, electors, wanted in [
            (0, 10_000, "0 %"),
            (1, 10_000, "0.1 %"),
            (9_999, 10_000, "99.9 %"),
            (10_000, 10_000, "100 %"),
            (2, 3, "66.7 %"),
            (1, 8, "12.5 %"),
            (1, 400, "0.3 %"),
            (80, 100, "80 %"),
        ]:
            self.assertEqual(share(voters, electors), wanted)

    @pytest.mark.whole
    def test_why_options_of_random_elections_have_lost(self):
        """Beside the count of the reference, in more circles than published polls have."""
        for seed in range(ELECTIONS):
            election = result_checks.of_few_opinions(seed)
            poll, ballots = election["poll"], election["ballots"]
            sheet = sheet_in(reference.count(poll, ballots)[0])
            why = Why(sheet, {option: str(option) for option in sheet.names})
            wanted = page_parts.Reasons(result_checks.count_of(poll, ballots, None))
            for option in {*wanted.kept} - {*wanted.final}:
                found = [(int(row["option"]), row["rival"]) for row in why.chain(option)]
                self.assertEqual(found, wanted.chain(option), seed)
            if sheet.winner:
                found = [
                    (row["over"] - row["under"], row["rival"]) for row in why.beaten(sheet.winner)
                ]
                self.assertEqual(found, wanted.beaten(), seed)
