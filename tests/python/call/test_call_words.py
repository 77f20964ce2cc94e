"""What goes out with a call: page and letters, and that hostile texts in them stay texts."""

import base64
import dataclasses
import datetime
import hashlib
import html
import itertools
import re
import shutil
import subprocess
import unittest
import urllib.parse

from debvote_tools.call.call import CallData, call_files, call_letter
from debvote_tools.cli.faults import Fault, Status
from debvote_tools.files import sha256_of
from debvote_tools.poll.announced import demand_mail_address, demand_web_address, named_address
from debvote_tools.poll.questions import Questions
from debvote_tools.poll.sealed import read_plain, with_roll
from debvote_tools.text.language import LANGUAGES, language_of

from tests.support import page_parts
from tests.support.call_examples import (
    ADDRESS,
    CALL,
    CODES,
    KINDS,
    PAGE,
    POLL,
    ROLL,
    SECRET,
    UNTIL,
    WITH_CODES,
    alone,
)

LATER = UNTIL + datetime.timedelta(days=2)
FIRST_WORDS = "Friday, 4 December 2026, 18:00 (UTC+01:00)"
LATER_WORDS = "Sunday, 6 December 2026, 18:00 (UTC+01:00)"

HOSTILE = [
    '</title><script>document.title = "x"</script>',
    '" autofocus onfocus="x',
    "{title} %s \u05d0\u05d1 & &amp; </bdi></b>",
]


def changed(**how: object) -> CallData:
    return dataclasses.replace(CALL, **how)  # type: ignore[arg-type]


def of_poll(**how: object) -> Questions:
    return alone(dataclasses.replace(POLL, **how))  # type: ignore[arg-type]


def html_of(data: CallData) -> str:
    return call_files(data)["index.html"].decode()


def letter_of(data: CallData) -> str:
    return call_files(data)["call.txt"].decode()


def page_of(data: CallData) -> str:
    """The page as it is read, each blank as one space."""
    body = html_of(data).partition("<body>")[2].partition("<script>")[0]
    return as_read(
        html.unescape(re.sub("<[^>]*>", " ", re.sub("</?(?:b|bdi|code|a)[^>]*>", "", body)))
    )


def as_read(text: str) -> str:
    return " ".join(text.split())


class Files(unittest.TestCase):
    maxDiff = None

    def test_the_poll_is_the_sealed_one_and_its_checksum_is_said(self):
        for kind, data in KINDS.items():
            with self.subTest(kind=kind):
                files = call_files(data)
                self.assertEqual(files, call_files(data))
                sums = files["SHA256SUMS"].decode().splitlines()
                wanted = {name: sha256_of(files[name]) for name in files if name != "SHA256SUMS"}
                self.assertEqual(dict(line.split("  ")[::-1] for line in sums), wanted)
                poll = data.questions[""]
                if kind != "codes":
                    self.assertEqual(files["poll.toml"], poll.as_bytes())
                    self.assertEqual(read_plain(files["poll.toml"]), poll)
                checksum, page = sha256_of(poll.as_bytes()), page_of(data)
                for text in (page, as_read(call_letter(data, is_extension=True))):
                    self.assertIn(checksum, text)
                    self.assertNotRegex(text, "grep|extended_to|last_envelope")
                for said in (
                    "answer the same checksum: sha256sum poll.toml ",
                    f"The first 16 digits of the checksum are the mark of this vote: {checksum[:16]}",
                ):
                    self.assertIn(said, page)
                self.assertIn(f"\n  {checksum}\n", letter_of(data))

    def test_until_when(self):
        more = f"The time was extended. The call said at first: {FIRST_WORDS}"
        late = changed(until=LATER, questions=of_poll(deadline=None))
        # seen after the end alone
        over = "By the clock of this device the time is over. If you send a line all the same, the secretary decides whether it counts. "
        for data, wanted, change in [
            (CALL, f"Vote until: {FIRST_WORDS} ", None),
            (
                changed(until=LATER),
                f"Vote until: {LATER_WORDS} {more} ",
                "You have more time to vote.",
            ),
            (
                late,
                f"Vote until: {LATER_WORDS} The call did not say it at first. ",
                "You can now vote until the time below.",
            ),
            (
                dataclasses.replace(late, until=None),
                "You can vote until the time that the secretary announces. ",
                None,
            ),
        ]:
            self.assertIn(f"{wanted}{over if data.until else ''}Name ", page_of(data))
            if change is not None:
                letter = as_read(call_letter(data, is_extension=True))
                begin = f"{change} Nothing else that the call says has changed. "
                self.assertTrue(letter.startswith(begin), letter)
                self.assertIn(f"Where we meet {wanted}The page of the vote", letter)
                self.assertIn("If you have voted, you need not vote again", letter)
        # the same moment in another zone is the same end
        self.assertFalse(changed(until=UNTIL.astimezone(datetime.UTC)).is_extended)

    def test_where_to(self):
        signed = changed(is_signed=True, questions=of_poll(shown_title="Wohin?"))
        mark = f"[{signed.questions.mark}]"
        for data, said in (
            (
                CALL,
                "Open the link in your letter, or answer that letter: then the subject has your own mark, ",
            ),
            (changed(at=None), "Answer your letter: then the subject has your own mark, "),
            (signed, f"Send your line to {ADDRESS} in a letter whose subject ends with {mark}."),
            (signed, f"your ballot, and below it the mark of this vote, {mark}, so that"),
            (changed(at=None, to=None), "Send your ballot as the secretary announces. "),
        ):
            self.assertIn(said, page_of(data))
        for text in (letter_of(CALL), call_letter(CALL, is_extension=True)):
            self.assertIn("then the subject has your own mark", as_read(text))
            self.assertNotIn("in a letter whose subject ends with", as_read(text))
        subject = urllib.parse.quote(f"Ballot: Wohin? {mark}")
        links = re.findall('href="(mailto:[^"]*)"', html_of(signed))
        self.assertEqual(links, [f"mailto:vote%2Bclub@example.org?subject={subject}"])
        self.assertIn(f'data-mark="{CALL.questions.mark}"', html_of(CALL))

    def test_options_have_their_numbers_and_what_they_need(self):
        shown = "Am See", "72 \u20ac", "Verkaufen", "Keine"
        ratios = [f"majority ratio {ratio}" for ratio in (1, 1, 3)] + ["the default option"]
        for questions, names in (
            (alone(POLL), POLL.plain_names),
            (of_poll(shown_title="Wohin?", shown_options=shown), shown),
        ):
            data = changed(questions=questions)
            text, root = page_of(data), page_parts.built(html_of(data)).root
            numbered = [f"Option {number}: {name}" for number, name in enumerate(names, start=1)]
            title = [root.one(tag).text() for tag in ("title", "h1")]
            self.assertEqual(title, [f"Vote: {questions.name}", questions.name])
            for part in (
                *map("{}, {}".format, numbered, ratios),
                "Majority ratio 3: at least 3 times as many electors",
                "The quorum is 2 votes: at least 2 electors",
                "The roll has 4 electors.",
                f"The default option is {numbered[3]}.",
                "NAME _,_,_,_ ",
            ):
                self.assertIn(part, text)
        text = page_of(changed(questions=of_poll(wording="more_than", quorum=0)))
        self.assertIn("Majority ratio 3: more than 3 times as many electors", text)
        self.assertIn("There is no quorum. The roll has 4 electors.", text)
        self.assertNotIn("ajority ratio 3", page_of(changed(questions=of_poll(ratios=(1, 1, 1)))))
        # of more than eight options the ranks are in lists, where buttons would be too many
        for size, wanted in ((8, (0, 8 * 9)), (9, (9, 0))):
            options = tuple(f"Plan {number}" for number in range(1, size))
            page = html_of(changed(questions=of_poll(options=options, ratios=(1,) * (size - 1))))
            found = (page.count('<select class="rank'), page.count('<input type="radio"'))
            self.assertEqual(found, wanted)

    def test_texts_of_options(self):
        explanations = (
            "First line\nsecond <b>line</b>\n\nand more\n",
            "",
            "Sell \u05d0\u05d1\n \n\nit",
        )
        data = changed(questions=of_poll(explanations=explanations))
        page = html_of(data)
        frames = re.findall(
            r'<bdi class="name">([^<]*)</bdi></p>\n<div class="said"><div class="text" role="note".*?>\n(.*?)</div>',
            page,
            re.DOTALL,
        )
        found = {
            name: re.findall('"about"><bdi>(.*?)</bdi>', text, re.DOTALL) for name, text in frames
        }
        wanted = {
            "At the lake": ["First line\nsecond &lt;b&gt;line&lt;/b&gt;", "and more"],
            "Sell the house": ["Sell \u05d0\u05d1", "it"],
        }
        self.assertEqual(found, wanted)
        whose = "are the words of those who publish this page. The program has not checked them."
        self.assertEqual(page.count(whose), 1)
        self.assertNotIn("has not checked", html_of(CALL))
        # the letter has them only where no page has them
        self.assertNotIn("First line", letter_of(data))
        letter = letter_of(dataclasses.replace(data, at=None))
        said = "The texts about the options are those of whoever sends this letter. The program debvote wrote the rest, and has not checked them."
        self.assertTrue(as_read(letter).endswith(said), letter)
        for part in (
            "\n\nOption 1: At the lake\n\nFirst line\nsecond <b>line</b>\n\nand more\n\nOption 3: Sell the house\n",
            "\n\nSell \u05d0\u05d1\n\nit\n\nWHAT DECIDES\n\nMajority",
        ):
            self.assertIn(part, letter)

    def test_the_roll(self):
        names = changed(real_names={"ada": "Ada <i>", "dan": ""})
        rows = "<li><code>ada</code> <bdi>Ada &lt;i&gt;</bdi></li>\n<li><code>ben</code></li>\n"
        self.assertIn(rows, html_of(names))
        self.assertIn("\n  ada, ben, cleo, dan\n", letter_of(changed(at=None)))
        for count, *are_listed in (
            (200, True, True),
            (201, True, False),
            (2_000, True, False),
            (2_001, False, False),
        ):
            roll = [f"e{number:04}" for number in range(count)]
            data = changed(at=None, questions=alone(with_roll(POLL, roll)))
            for text, is_listed in zip((page_of(data), letter_of(data)), are_listed):
                self.assertEqual("e0100" in text, is_listed)
                said = "The names on the roll are in the file poll.toml."
                self.assertEqual(said in text, not is_listed)

    def test_each_kind_says_its_own(self):
        own = {
            "open": (
                "each with its elector's name on the roll",
                "Write your name on the roll in the place of NAME.",
                "It lies beside this page.",
            ),
            "secret": (
                "The vote is secret. After it each ballot that counts is published under an alias",
                "as it is in your letter or on your slip.",
                "It lies beside this page.",
                "The code is no part of your ballot: keep it, and send it to nobody.",
            ),
            "codes": (
                "Each elector votes under a code, and nobody has a list of who has which.",
                "write your code in the place of CODE.",
                "It has all codes, so it is published with the result.",
            ),
        }
        own["signed"] = own["open"]
        real = "Your real name will be published, too"
        for kind, sentences in own.items():
            for real_names in (None, {}):
                text = page_of(dataclasses.replace(KINDS[kind], real_names=real_names))
                found = {one for one in itertools.chain(*own.values()) if one in text}
                self.assertEqual(found, {*sentences}, kind)
                is_told = sentences is own["open"] and real_names is not None
                self.assertEqual(real in text, is_told)

    def test_parts_have_their_headings(self):
        heads = [
            "A rank for each option",
            "What each option needs",
            "The roll",
            "How a ballot is written",
            "What will be public",
            "The poll",
        ]
        page = html_of(CALL)
        self.assertEqual(re.findall("<h2[^>]*>(.*?)</h2>", page), heads)
        self.assertEqual(re.findall("<summary><h2[^>]*>(.*?)</h2></summary>", page), heads[1:])

    def test_a_secret_call_shows_no_roll_and_one_with_codes_no_poll(self):
        for data, names, is_by_name in ((SECRET, ["poll.toml"], True), (WITH_CODES, [], False)):
            files = call_files(dataclasses.replace(data, real_names=dict.fromkeys(CODES, "Ada L.")))
            self.assertEqual({*files}, {"index.html", "call.txt", "SHA256SUMS", *names})
            files.pop("poll.toml", None)
            for file in files.values():
                self.assertNotRegex(file.decode(), "|".join((*CODES, "Ada L.", 'class="roll"')))
            # nobody knows to whom a receipt would go
            self.assertEqual("Each ballot gets a receipt" in page_of(data), is_by_name)
        self.assertIn("that of the result, which is the same one, byte for byte", page_of(SECRET))
        text = page_of(WITH_CODES)
        self.assertIn("CODE _,_,_,_ ", text)
        self.assertNotIn("your name", text.lower())
        self.assertNotIn('href="poll.toml"', html_of(WITH_CODES))


class Hostile(unittest.TestCase):
    """Texts that would be markup, or turn what stands around them, in each place where a text can
    be.
    """

    def test_they_are_texts(self):
        plain = self.elements(page_parts.built(html_of(self.hostile(["x"] * 3))))
        for language in LANGUAGES:
            data = dataclasses.replace(self.hostile(HOSTILE), language=language_of(language))
            page = page_parts.built(html_of(data))
            # the same elements as with harmless texts, each with the same attributes
            self.assertEqual(self.elements(page), plain)
            self.assertEqual((page.faults, page.open[1:]), ([], []))
            self.assertEqual(page.root.one("h1").text(), HOSTILE[0])
            titles = [node.attributes.get("data-title") for node in page.root.within()]
            self.assertIn(HOSTILE[0], titles)
            # each stands by itself, so that one from right to left turns nothing around it
            self.assertTrue(set(HOSTILE) <= {node.text() for node in page.root.all("bdi")})
            for text in HOSTILE:
                self.assertIn(as_read(text), as_read(call_letter(data)))

    def elements(self, page: page_parts.Builder) -> list[tuple[str, list[str]]]:
        return [(node.tag, sorted(node.attributes)) for node in page.root.within()]

    def hostile(self, texts: list[str]) -> CallData:
        first, second, third = texts
        shown = (second, third, first, f"{third}.")
        questions = of_poll(shown_title=first, shown_options=shown, explanations=tuple(texts))
        real_names = dict(zip(ROLL, [*texts, "Dan"], strict=True))
        return changed(questions=questions, real_names=real_names)

    def test_the_page_runs_its_own_script_alone(self):
        page = html_of(self.hostile(HOSTILE))
        style = page.partition("<style>")[2].partition("</style>")[0]
        script = page.rpartition("<script>")[2].partition("</script>")[0]
        digests = [
            base64.b64encode(hashlib.sha256(text.encode()).digest()).decode()
            for text in (script, style)
        ]
        policy = "default-src 'none'; script-src 'sha256-{}'; style-src 'sha256-{}'; base-uri 'none'; form-action 'none'"
        policy = policy.format(*digests)
        self.assertIn(f'<meta http-equiv="Content-Security-Policy" content="{policy}">', page)
        self.assertNotRegex(
            script,
            r"innerHTML|outerHTML|insertAdjacentHTML|document\.write|eval\(|fetch\(|XMLHttpRequest",
        )
        self.assertNotRegex(script.lower(), r"</script|<!--|<script")

    @unittest.skipUnless(shutil.which("tidy"), "tidy is not installed")
    def test_tidy(self):
        for data in (self.hostile(HOSTILE), *KINDS.values()):
            # a heading within a summary is newer than tidy
            page = re.sub(r"<summary>(<h2 [^>]*>.*?</h2>)</summary>", r"\1", html_of(data))
            ended = subprocess.run(["tidy", "-q", "-e"], input=page, capture_output=True, text=True)
            self.assertEqual((ended.stdout, ended.stderr, ended.returncode), ("", "", 0))


class Addresses(unittest.TestCase):
    def test_web_addresses(self):
        right = (
            "http://x|https://example.org:8443/a/b?c=d|https://xn--bcher-kva.example/|"
            "http://[::1]:80/|https://[::1]/|https://x:/|https://127.0.0.1/~ada/"
        )
        for good in (PAGE, *right.split("|"), f"https://{'x' * 492}"):
            demand_web_address(good)
        wrong = (
            "|example.org|ftp://example.org/|javascript:alert(1)|https://|https:///x|"
            "https://bank.example@evil.example/|https://bank.example:x@evil.example/|"
            "https://ada:@example.org/|https://example.org/ x|https://example.org/<b>|"
            "https://b\u00fccher.example/|https://example.org:0/|https://example.org:x/|"
            'https://example.org:99999/|https://[::1|https://a\\b/|https://example.org/"|'
            "https://?x|https://-/|httpx://example.org/"
        )
        long = (f"https://{'x' * 493}", "https://example.org/" + "x" * 500)
        for bad in (*wrong.split("|"), PAGE + "#a", PAGE + "\n", " " + PAGE, *long):
            with self.subTest(bad=bad), self.assertRaisesRegex(
                Fault, "^.*--at: it must be the address of a page, as https://"
            ) as caught:
                demand_web_address(bad)
            self.assertEqual(caught.exception.status, Status.BAD_ARGUMENTS)

    def test_how_a_web_address_with_accents_is_written(self):
        """As a browser sends it, and not as it shows it."""
        with self.assertRaises(Fault) as caught:
            demand_web_address("https://example.org/\u00fc/")
        said = "accents as %C3%BC, or in the name of a host as xn--bcher-kva.example"
        self.assertIn(said, caught.exception.cure)
        self.assertNotIn("browser shows", caught.exception.cure)
        demand_web_address("https://example.org/%C3%BC/")

    def test_mail_addresses(self):
        for good in (ADDRESS, "a@b", "_x@example.org", "a@" + "b" * 252):
            demand_mail_address(good)
        self.assertEqual(named_address(f"{'x' * 100} <a@b.org>"), ("x" * 100, "a@b.org"))
        wrong = (
            "|a|a@b@c|a@b, c@d|a@b\nBcc: c@d|-a@b|Ada <a@b.org>|a@b.org\n|a b@c.org|a@b..c|a,b@c.org|"
            "\u00e4@b.org"
        )
        for bad in (*wrong.split("|"), "a@" + "b" * 253):
            with self.subTest(bad=bad), self.assertRaisesRegex(
                Fault, "--to: it must be one mail address"
            ):
                demand_mail_address(bad)
