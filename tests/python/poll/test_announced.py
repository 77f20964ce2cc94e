"""The time that `--until` names, and times in words."""

import datetime
import os
import time
import unittest
import unittest.mock

from debvote_tools.cli.faults import Fault, Status
from debvote_tools.poll.announced import demand_future, parse_until
from debvote_tools.text.language import language_of
from debvote_tools.text.times import date_in_words, minute_in_words, now, time_in_words

EXAMPLE = 'write it as "2026-12-04 18:00", as "2026-12-04 18:00\\+01:00" or in another form of ISO 8601, or with --zone Europe/Berlin'


class Until(unittest.TestCase):
    def in_zone(self, name: str):
        """From now on this computer is in a zone, until the test ends."""
        # what is added first is called last: the zone is read again once it is that of before
        self.addCleanup(time.tzset)
        self.enterContext(unittest.mock.patch.dict(os.environ, {"TZ": name}))
        time.tzset()

    def assert_refused(self, text: str, zone: str | None, said: str):
        with self.subTest(text=text, zone=zone), self.assertRaisesRegex(Fault, said) as caught:
            parse_until(text, zone)
        self.assertEqual(
            (caught.exception.status, caught.exception.done),
            (Status.BAD_ARGUMENTS, "nothing was changed"),
        )

    def test_forms(self):
        """And the zone of the end before, in which a later one is if it names none."""
        for text, zone, earlier, here, *wanted in [
            ("2026-12-04 18:00+01:00", None, None, "UTC", "2026-12-04T18:00:00+01:00", "+01:00"),
            (
                "2026-12-04 18:00",
                "Europe/Berlin",
                None,
                "UTC",
                "2026-12-04T18:00:00+01:00",
                "Europe/Berlin",
            ),
            ("2026-12-04 18:00", None, None, "Europe/Berlin", "2026-12-04T18:00:00+01:00", None),
            ("2027-07-04 18:00", None, None, "Europe/Berlin", "2027-07-04T18:00:00+02:00", None),
            (
                " 2026-12-04T18:00Z ",
                None,
                None,
                "Asia/Tokyo",
                "2026-12-04T18:00:00+00:00",
                "+00:00",
            ),
            ("2026-W49-5T18", None, None, "Asia/Tokyo", "2026-12-04T18:00:00+09:00", None),
            (
                "2026-12-04 18:00:30.5-0330",
                None,
                None,
                "UTC",
                "2026-12-04T18:00:30-03:30",
                "-03:30",
            ),
            (
                "2027-04-06 18:00",
                None,
                "Europe/Berlin",
                "Asia/Tokyo",
                "2027-04-06T18:00:00+02:00",
                "Europe/Berlin",
            ),
            (
                "2026-12-06 18:00",
                None,
                "-03:30",
                "Asia/Tokyo",
                "2026-12-06T18:00:00-03:30",
                "-03:30",
            ),
            (
                "2026-12-06 18:00Z",
                None,
                "+05:00",
                "Asia/Tokyo",
                "2026-12-06T18:00:00+00:00",
                "+00:00",
            ),
            (
                "2026-12-06 18:00",
                "America/New_York",
                "Europe/Berlin",
                "Asia/Tokyo",
                "2026-12-06T18:00:00-05:00",
                "America/New_York",
            ),
        ]:
            with self.subTest(text=text, zone=zone, earlier=earlier, here=here):
                self.in_zone(here)
                time, named = parse_until(text, zone, earlier)
                self.assertEqual([time.isoformat(), named], wanted)

    def test_other_words(self):
        # the last ones have no time of day
        texts = (
            "tomorrow|Friday, 4 December 2026|18:00|4.12.2026 18:00|2026-12-04 6pm||"
            "2026-12-04 18:00 sharp|\u0662026-12-04 18:00|2026-12-04 18:00 UTC|2026-02-30 18:00|"
            "2026-12-04 24:00|2026-12-04 18:60|2026-12-04 18:00+99:00|2026-12-04 18:00+01:00:30|"
            "0000-01-01 10:00|2026-12-04|20261204|2026-W49-5"
        )
        for text in texts.split("|"):
            self.assert_refused(
                text,
                None,
                f"^.*--until: it is not a date with a time of day, or .*; nothing was changed: {EXAMPLE}",
            )
        self.assert_refused("9999-12-31 23:59", "America/New_York", "there is no such day or time")
        for name in ("Europe/Nowhere", "../../etc/passwd", "", "a\u202eb", "/etc/passwd"):
            self.assert_refused(
                "2026-12-04 18:00", name, "--zone: this computer knows no time zone of this name"
            )
        self.assert_refused(
            "2026-12-04 18:00+01:00", "Europe/Berlin", "--zone: the time has an offset already"
        )

    def test_clocks_that_are_put_forward_or_back(self):
        for zone, here, where in (
            ("Europe/Berlin", "UTC", "in Europe/Berlin"),
            (None, "Europe/Berlin", "where this computer is"),
        ):
            self.in_zone(here)
            self.assert_refused(
                "2027-03-28 02:30",
                zone,
                f"{where} there is no such time: the clocks that are put forward on that day skip it",
            )
            both = r'write "2027-10-31 02:30\+02:00" or "2027-10-31 02:30\+01:00"'
            self.assert_refused("2027-10-31 02:30", zone, f"{where} this time comes twice.*{both}")
        self.assert_refused(
            "2027-10-31 01:30",
            "Europe/London",
            r'write "2027-10-31 01:30\+01:00" or "2027-10-31 01:30\+00:00"',
        )
        for again in ("2027-10-31 02:30+01:00", "2027-10-31 01:30+00:00"):
            self.assertEqual(parse_until(again, None)[0].astimezone(datetime.UTC).hour, 1)

    def test_a_time_that_is_over(self):
        clock = datetime.datetime(2026, 11, 26, 10, 0, 30, tzinfo=datetime.UTC)
        for text in ("2026-11-26 11:00:30+01:00", "2026-11-26 11:00+01:00"):
            said = r"\(UTC\+01:00\) is past: by the clock of this computer it is Thursday, 26 November 2026, 11:00 \(UTC\+01:00\); nothing was"
            with self.assertRaisesRegex(Fault, said):
                demand_future(parse_until(text, None)[0], clock)
        demand_future(parse_until("2026-11-26 11:00:31+01:00", None)[0], clock)


class InWords(unittest.TestCase):
    def test_in_each_language(self):
        first = datetime.datetime(2027, 1, 1, 8, 5, 0, tzinfo=datetime.UTC)
        later = datetime.datetime(
            2026,
            12,
            4,
            18,
            0,
            30,
            tzinfo=datetime.timezone(-datetime.timedelta(hours=3, minutes=30)),
        )
        for code, wanted in {
            "en": (
                "Friday, 1 January 2027, 08:05 (UTC)",
                "Friday, 4 December 2026, 18:00:30 (UTC-03:30)",
            ),
            "de": (
                "Freitag, 1. Januar 2027, 08:05 (UTC)",
                "Freitag, 4. Dezember 2026, 18:00:30 (UTC-03:30)",
            ),
            "fr": (
                "vendredi 1er janvier 2027, 08:05 (UTC)",
                "vendredi 4 d\u00e9cembre 2026, 18:00:30 (UTC-03:30)",
            ),
            "es": (
                "viernes, 1 de enero de 2027, 08:05 (UTC)",
                "viernes, 4 de diciembre de 2026, 18:00:30 (UTC-03:30)",
            ),
        }.items():
            language = language_of(code)
            self.assertEqual(
                (time_in_words(first, language), time_in_words(later, language)), wanted
            )
            self.assertIn(date_in_words(first.date(), language), wanted[0])
        self.assertEqual(
            minute_in_words(later, datetime.UTC), "Friday, 4 December 2026, 21:30 (UTC)"
        )
        self.assertEqual(
            time_in_words(later.replace(hour=23)), "Friday, 4 December 2026, 23:00:30 (UTC-03:30)"
        )

    def test_now_is_in_whole_seconds(self):
        self.assertEqual((now().microsecond, now().utcoffset()), (0, datetime.timedelta(0)))
        self.assertLess(abs(now().timestamp() - time.time()), 5)
