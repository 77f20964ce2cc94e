"""Secret votes by their parts: codes, aliases, the seal of the close, slips and table."""

import base64
import csv
import dataclasses
import hashlib
import html
import io
import pathlib
import re
import shutil
import subprocess
import tempfile
import unittest
import unittest.mock
from collections.abc import Sequence

import pytest

from debvote_tools.book.queries import Elector
from debvote_tools.call.call import CallData
from debvote_tools.call.secret import (
    BY_OPENSSL,
    BY_PYTHON,
    NUMBER,
    alias_of,
    aliased,
    aliased_ballots,
    codes_csv,
    codes_for_roll,
    demand_no_code,
    new_code,
    seal_line,
    sealed_checksum,
    slips,
)
from debvote_tools.cli.faults import Fault
from debvote_tools.inbox.letter_lines import with_texts
from debvote_tools.poll.codes import has_code
from debvote_tools.poll.questions import LABELS, Questions
from debvote_tools.poll.sealed import read_plain
from debvote_tools.text.language import LANGUAGES, language_of

from tests.support import call_examples
from tests.support.at_browser import NEEDS_BROWSER, Window
from tests.support.call_examples import ROLL, alone
from tests.support.letters import letter, names, parsed

CODES = {name: f"{number:x}" * 32 for number, name in enumerate(ROLL, start=10)}
ALIASES = {name: alias_of(code, name) for name, code in CODES.items()}
NAMES = {"options": ("At the lake", "72 Euro"), "ratios": (1, 3), "explanations": ("Nice", "")}
POLL = dataclasses.replace(call_examples.POLL, **NAMES, address=None, secret=True)
CALL = dataclasses.replace(
    call_examples.CALL, questions=alone(POLL), to="v@example.org", at=None, has_aliases=True
)


def elector(name: str, who: str = "", code: str = "", alias: str = "") -> Elector:
    return Elector(1, name, 1, who, (), code=code, alias=alias)


ELECTORS = [elector(name, f"{name.title()} L.", CODES[name], ALIASES[name]) for name in ROLL]
WITH_CODES = dataclasses.replace(CALL, has_aliases=False, has_codes_on_roll=True)
CODES_ON_ROLL = [elector(code) for code in CODES.values()]


class Codes(unittest.TestCase):
    def test_the_alias_is_the_one_that_an_elector_finds(self):
        self.assertNotEqual(alias_of(CODES["ada"], "ben"), ALIASES["ada"])
        # whatever lies in the folder
        with tempfile.TemporaryDirectory(prefix="debvote-alias-") as folder:
            files = "hmac.py hashlib.py sitecustomize.py codecs.py openssl.cnf printf cut"
            for file in files.split():
                pathlib.Path(folder, file).write_text("import os; os._exit(1)\n")
            for name, code in [*CODES.items()][:2]:
                spaced = " ".join(re.findall("....", code))
                by_openssl = BY_OPENSSL.replace("NAME", name).replace("CODE", code)
                for command, said in ((by_openssl, ""), (BY_PYTHON, "Code: Name: ")):
                    how = {"input": f"{spaced}\n{name}\n", "text": True, "cwd": folder}
                    found = subprocess.check_output(["sh", "-c", command], **how)
                    self.assertEqual(found, f"{said}{ALIASES[name]}\n")

    def test_codes_and_seals_are_sixteen_bytes_of_the_generator_that_nobody_can_guess(self):
        for draw in (lambda: new_code("ada"), seal_line):
            with unittest.mock.patch("secrets.token_hex", return_value="c" * 32) as drawn:
                self.assertEqual(draw(), "c" * 32)
            drawn.assert_called_once_with(16)
            found = [
                text for text in (draw() for _ in range(50)) if re.fullmatch("[0-9a-f]{32}", text)
            ]
            parts = {text[start : start + 8] for text in found for start in range(0, 32, 8)}
            self.assertEqual(len(parts), 200)

    def test_codes_on_the_roll_are_typed_so_they_have_the_signs_of_own_marks(self):
        with unittest.mock.patch(
            "debvote_tools.call.secret.new_own_mark",
            side_effect=["22222e2222", "b" * 10, "a2" * 5, "b" * 10, "c" * 10],
        ):
            self.assertEqual(codes_for_roll(3), ["a2" * 5, "b" * 10, "c" * 10])
        codes = [code for code in codes_for_roll(500) if re.fullmatch("[2-9a-hjkmnp-z]{10}", code)]
        self.assertEqual((len(codes), codes), (500, sorted(codes)))
        # such a code is kept out of what everybody gets, and one of another kind, also as people
        # type it
        for code in (codes[0], new_code("ada")):
            for typed in (
                code.upper(),
                f"{code[:4]} {code[4:]}",
                f"{code[:6]}\n{code[6:]}",
                f"{code[:2]} {code[2:8]}- \n  {code[8:].upper()}",
            ):
                for text in ("my code is %s.", "%s 1,2,3", "\n%s\n", "a-%s", "ab %s"):
                    with self.assertRaises(Fault, msg=typed):
                        demand_no_code("letter.txt", (text % typed).encode(), [*codes, code])
            demand_no_code("letter.txt", f"x{code}2 {code[:-1]}".encode(), [*codes, code])

    def test_no_code_and_no_alias_can_be_taken_for_a_number(self):
        good = "a" * 32
        for bad in ("1" * 32, "1234e567" + "0" * 24):
            with unittest.mock.patch("secrets.token_hex", side_effect=[bad, good]):
                self.assertEqual(new_code("ada"), good)
        aliases = ["2" * 32, "12e" + "4" * 29, "b" * 32]
        with unittest.mock.patch("debvote_tools.call.secret.alias_of", side_effect=aliases) as made:
            code = new_code("ada")
        self.assertEqual((made.call_count, made.call_args.args), (3, (code, "ada")))
        self.assertFalse(NUMBER.fullmatch("12a4"))

    def test_what_looks_like_a_code(self):
        for code in (
            "0123456789abcdef" * 2,
            "0123 4567 89AB CDEF " * 2,
            "a" * 16 + "-" + "B" * 16,
            ALIASES["ada"],
        ):
            for text in (f"my code is {code}.", f"ada 1,2,3 {code}", f"{code} 1,2,3"):
                self.assertTrue(has_code(text), text)
        for other in ("", "ada", "a" * 31, "a" * 33, "g" * 32, "\u0661" * 32, "a  " * 32):
            self.assertFalse(has_code(other), other)
        # in each line of a letter
        [read] = with_texts(
            [parsed(letter("ada", "ada 1,2,4,3\n> x\n> my code is " + "0123456789abcdef" * 2))],
            names(),
            dict.fromkeys,
        )
        self.assertEqual(read.code_lines, (3,))


class Published(unittest.TestCase):
    def test_the_poll_has_aliases_in_an_order_that_tells_no_name(self):
        poll = aliased(alone(POLL), [*ELECTORS, elector("eve", "", "e" * 32, "0" * 32)])[""]
        self.assertEqual(poll.roll, tuple(sorted(ALIASES.values())))
        self.assertNotEqual(list(poll.roll), list(ALIASES.values()))
        data = poll.as_bytes()
        self.assertEqual((dataclasses.replace(poll, roll=ROLL), read_plain(data)), (POLL, poll))
        self.assertNotRegex(data.decode(), "|".join((*ROLL, *CODES.values())))
        with self.assertRaises(KeyError):
            aliased(alone(POLL), ELECTORS[:1])

    def test_the_ballots_are_in_normal_form_and_in_the_order_of_aliases(self):
        """Ranks are numbers, and no texts. Whoever has no ballot has no line, and each line is of
        its own elector.
        """
        for standing, wanted in (
            (
                {"ada": "17,33,99", "dan": "2,-,2", "ben": "-,-,-", "cleo": "3,1,2"},
                {"ada": "1,2,3", "dan": "1,-,1", "ben": "-,-,-", "cleo": "3,1,2"},
            ),
            ({"ada": "2,10,9", "ben": "99,9,10"}, {"ada": "1,3,2", "ben": "3,1,2"}),
            ({}, {}),
        ):
            lines = aliased_ballots(standing, ALIASES).decode().splitlines()
            self.assertEqual(lines, sorted(f"{ALIASES[name]} {wanted[name]}" for name in wanted))

    def test_the_seal(self):
        ballots, seals = b"a 1,2,3\n", ("c" * 32, "")
        wanted = [hashlib.sha256(text + ballots).hexdigest() for text in (b"c" * 32 + b"\n", b"")]
        self.assertEqual([sealed_checksum(seal, ballots) for seal in seals], wanted)


class Slips(unittest.TestCase):
    def each(self, call: CallData, electors: Sequence[Elector] = ELECTORS) -> list[str]:
        """The slips as they are read, each blank as one space."""
        page = slips(call, electors)
        self.assertEqual(slips(call, electors), page)
        parts = page.decode().split('<section class="slip">')[1:]
        return [
            " ".join(html.unescape(re.sub("<[^>]*>", "", part.partition("</section>")[0])).split())
            for part in parts
        ]

    def test_each_has_what_is_of_its_elector_and_nothing_of_another(self):
        for row, text in zip(ELECTORS, self.each(CALL), strict=True):
            self.assertIn(f"{row.who} Where we meet Name{row.name} Code{row.code} ", text)
            words = [
                word
                for other in ELECTORS
                if other != row
                for word in (other.name, other.who, other.code)
            ]
            self.assertNotRegex(text, "|".join((*map(r"\b{}\b".format, words), *ALIASES.values())))

    def test_what_all_have(self):
        said = (
            "Vote untilFriday, 4 December 2026, 18:00 (UTC+01:00) Send your ballot tov@example.org "
        )
        options = "_,_,_ 1 is the best, - is last. Equal ranks are allowed. 1 At the lake 2 72 Euro 3 None of the above "
        at = "https://example.org/vote/"
        mark = f"At the end of the subject{CALL.mark} The page of the vote{at} "
        shown = dataclasses.replace(
            POLL, shown_title="Wohin?", shown_options=("Am See", "72 \u20ac", "Keine")
        )
        for how, *parts in (
            (
                {},
                said,
                "A rank for each optionada " + options,
                "The code is no part of your ballot",
                "whoever sees it can see how you voted.",
            ),
            ({"at": at}, said + mark),
            (
                {"until": None, "to": None},
                "Vote untilas the call for votes says Send your ballot toas the call for votes says",
            ),
            ({"questions": alone(shown)}, "L. Wohin? Name", " 1 Am See 2 72 \u20ac 3 Keine"),
        ):
            ada, *others = self.each(dataclasses.replace(CALL, **how))
            for part in parts:
                self.assertIn(part, ada)
                for name, text in zip(ROLL[1:], others, strict=True):
                    self.assertIn(part.replace("ada", name), text)

    def test_with_codes_on_the_roll_nobody_has_a_name(self):
        for code, text in zip(CODES.values(), self.each(WITH_CODES, CODES_ON_ROLL), strict=True):
            self.assertIn(f"Where we meet Code{code} Vote until", text)
            self.assertIn(f"{code} _,_,_", text)
            self.assertIn("under Find your ballot, type the code into a copy of the page", text)
            self.assertNotRegex(text, r"(?i)\bname\b|alias|hmac")
            self.assertEqual([other for other in CODES.values() if other in text], [code])
        self.assertIn("let each elector draw one", slips(WITH_CODES, CODES_ON_ROLL).decode())
        # a slip without a real name has the name on the roll in its place
        [text] = self.each(CALL, [elector("ada", "", CODES["ada"])])
        self.assertTrue(text.startswith("ada Where we meet Nameada Code"))

    def test_hostile_texts_are_texts(self):
        texts = [
            "<script>alert(1)</script>",
            '" onload="x',
            "\u05d0\u05d1 & {title} %s </bdi></section>",
        ]
        poll = dataclasses.replace(POLL, shown_title=texts[0], shown_options=tuple(texts))
        for code in LANGUAGES:
            call = dataclasses.replace(CALL, language=language_of(code), questions=alone(poll))
            page = slips(call, [elector("ada", who, CODES["ada"]) for who in texts]).decode()
            self.assertIn(f'<html lang="{code}">', page)
            self.assertNotRegex(page, r"<script| onload=\"x|%s </bdi></section>")
            self.assertEqual(page.count("<section"), 3)
            for who in texts:
                who = html.escape(who).replace("&quot;", "&#34;")
                self.assertIn(f"<h2><bdi>{who}</bdi></h2>", page)
            if shutil.which("tidy"):
                ended = subprocess.run(
                    ["tidy", "-q", "-e"], input=page, capture_output=True, text=True
                )
                self.assertEqual((ended.stderr, ended.returncode), ("", 0))

    @pytest.mark.whole
    @NEEDS_BROWSER
    def test_they_fit_a_narrow_window_and_no_slip_is_printed_over_two_pages(self):
        folder = self.enterContext(tempfile.TemporaryDirectory(prefix="debvote-slips-"))
        window = self.enterContext(Window(390, 800))

        def show(call: CallData, electors: Sequence[Elector]) -> str:
            page = slips(call, electors)
            file = pathlib.Path(folder, f"{hash(page)}.html")
            file.write_bytes(page)
            window.open(file)
            return page.decode()

        for code in LANGUAGES:
            for call, electors in ((CALL, ELECTORS), (WITH_CODES, CODES_ON_ROLL)):
                show(dataclasses.replace(call, language=language_of(code)), electors)
                self.assertEqual(window.ask("document.documentElement.scrollWidth"), 390)
        # eight on a side of A4, with margins of 5 mm, in words of nine points at least
        window.show(is_printed=True)
        window.resize(756, 1000)
        call_of_slips = dataclasses.replace(
            CALL, at="https://example.org/vote/", has_lapsed_codes=True
        )
        for code in LANGUAGES:
            show(dataclasses.replace(call_of_slips, language=language_of(code)), ELECTORS)
            # a machine may have a wider font alone; last, the one that it has
            for family in ("DejaVu Sans", "Verdana", ""):
                ask = f"[...document.querySelectorAll('.slip')].map((slip) => (slip.style.fontFamily = '{family}', slip.getBoundingClientRect().height))"
                self.assertLessEqual(max(window.ask(ask)) * 4, 287 / 25.4 * 96, (code, family))
            sizes = "[...document.querySelectorAll('.slip *')].map((node) => parseFloat(getComputedStyle(node).fontSize))"
            self.assertGreaterEqual(min(window.ask(sizes)), 12, code)
            tops = "[...document.querySelectorAll('.slip')].map((slip) => slip.getBoundingClientRect().top)"
            first, second, *_ = window.ask(tops)
            self.assertEqual(first, second)
            # the line stands in a row of its own below words without a gap, so that nothing is
            # copied with it
            above = "((words, line) => [words.textContent.includes('_'), line.getBoundingClientRect().top >= words.getBoundingClientRect().bottom])"
            above += "(...document.querySelectorAll('.slip dt:has(+ .line), .line'))"
            self.assertEqual(window.ask(above), [False, True], code)
        style = "getComputedStyle(document.querySelector('.slip')).breakInside"
        self.assertEqual(window.ask(style), "avoid")
        # the code is one word where it is copied
        copied = "(() => { getSelection().selectAllChildren(document.querySelector('.code')); return String(getSelection()); })()"
        self.assertEqual(window.ask(copied), CODES["ada"])
        # an empty side follows each side of slips, however long their options are: none has the
        # code of somebody else on its back
        electors = [elector(f"e{number}", f"Person {number}", CODES["ada"]) for number in range(20)]
        sizes = (3, 10, 4), (8, 30, 3), (8, 60, 2), (20, 44, 2), (31, 60, 1)
        names = [(("Ein Name " * 9)[:long],) * size for size, long, _ in sizes]
        polls = [
            dataclasses.replace(
                POLL,
                options=tuple(map(str, range(1, len(shown)))),
                ratios=(1,) * (len(shown) - 1),
                shown_options=shown,
            )
            for shown in names
        ]
        printed = [(alone(poll), rows) for poll, (_, _, rows) in zip(polls, sizes)]
        # of more questions fewer slips are on a side
        fee = dataclasses.replace(
            POLL, options=("Yes",), ratios=(2,), default="No", explanations=()
        )
        for count, rows in ((2, 3), (6, 2), (12, 1)):
            printed.append((Questions(dict.fromkeys(LABELS[:count], fee), "Assembly 2026"), rows))
        for questions, rows in printed:
            call = dataclasses.replace(
                call_of_slips, questions=questions, language=language_of("de")
            )
            page = show(call, electors)
            sides = -(-len(electors) // (2 * rows))
            count = window.ask("document.querySelectorAll('.slips').length")
            self.assertEqual(count, sides, questions)
            pages = base64.b64decode(window.tell("Page.printToPDF", preferCSSPageSize=True)["data"])
            self.assertEqual(len(re.findall(rb"/Type /Page\b", pages)), 2 * sides, questions)
        self.assertIn("Drucken Sie einseitig.", page)


class Table(unittest.TestCase):
    def rows(self, *electors: Elector) -> list[list[str]]:
        text = codes_csv(CALL, iter(electors)).decode()
        head, *rows = csv.reader(io.StringIO(text, newline=""))
        self.assertEqual(head, ["name", "who", "mail", "code", "alias", "mark"])
        return rows

    def who(self, cell: str) -> str:
        """A cell of the table, by what it is made of."""
        return self.rows(elector("ada", cell))[0][1]

    def test_each_elector_has_a_row(self):
        rows = [
            elector(name, f'{name.title()} "\u00c9", jr.', CODES[name], ALIASES[name])
            for name in ROLL
        ]
        wanted = [[row.name, row.who, "", row.code, row.alias, ""] for row in rows]
        self.assertEqual(self.rows(*rows), wanted)
        self.assertEqual(self.rows(), [])
        # as the call has made it, at the end of the subject of an answer
        called = rows[0]._replace(mark="abcde23456", addresses=("a@x", "=b@x"))
        [row] = self.rows(called)
        self.assertEqual((row[2], row[5]), ("a@x =b@x", f"[{CALL.questions.mark}-abcde23456]"))

    def test_a_spreadsheet_runs_no_cell(self):
        for cell in (
            "=1+1",
            "@SUM(A1)",
            "+cmd|'/c calc'!A0",
            "-2+3",
            "\t=1",
            "\u200b\ufeff=1",
            "\uff1dHYPERLINK(1)",
            "\uff0b1+a",
            "\uff20x",
            "  =x",
        ):
            # behind a tab a cell may begin, for a spreadsheet that splits there
            found = self.who(cell)
            self.assertEqual((found[0], found.replace("'", "")), ("'", cell.replace("'", "")))
        for cell, wanted in {
            "Ada;=1": "Ada;'=1",
            "Ada,@x": "Ada,'@x",
            "Ada|=1": "Ada|'=1",
            "Ada\t-x": "Ada\t'-x",
            "=1;=2": "'=1;'=2",
            "Ada\n=1": "Ada =1",
            "Ada\r\n;=1": "Ada ;'=1",
            "=": "'=",
            "-x;1": "'-x;1",
        }.items():
            self.assertEqual(self.who(cell), wanted)
        # what is harmless stays
        for cell in "+49 (0) 30 / 12-34|-|a=b|a@b.org|O'Neil|a-b|\u00c9ve|+49 30;+49 40".split("|"):
            self.assertEqual(self.who(cell), cell)
