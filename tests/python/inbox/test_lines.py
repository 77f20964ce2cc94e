"""The changes of a line that are allowed, and those that are not."""

import unittest

from debvote_tools.cli.console import shown_line
from debvote_tools.inbox.lines import lines_in, name_in
from debvote_tools.poll.questions import LONGEST_LINE

from tests.support.letters import repaired_line, rows


class Lines(unittest.TestCase):
    def test_what_of_a_line_is_changed(self):
        for wanted, lines in {
            "ada 1,2": rows(
                """
\x20 ada 1,2\t\x20
ada   1,2
ada\t1,2
ada \t 1,2
ada\u00a01,2
ada\u202f1,2
ada 1,2.
ada:1,2
Ada : 1,2
"ada 1,2"
'ada 1,2.'
"ada 1,2".
\u201cada 1,2\u201d
\u00bbada 1,2\u00ab
**ada 1,2**
*ada* 1,2
ada *1,2*
"""
            ),
            "ada 1,2,3": ("ada 1 , 2,\t3", "ada 1,*2*,3"),
            "ada.b-9 1,2": ("Ada.B-9 1,2",),
            "ada -,1": ("ADA -,1",),
            "ada 1,2,-": ("ada 1 ,\t2 , -",),
            "ada 1,-,2": ("\u201eAda: 1, \u2013, 2.\u201c",),
            "ada 1,-,-": ("ada 1,\u2014,\u2212",),
        }.items():
            for came in lines:
                self.assertEqual(repaired_line(came.encode()).decode(), wanted, came)

    def test_what_is_not_changed(self):
        """A line tabulator, quotation marks within the line, points, a capital that is no rank,
        letters not in ASCII, half a point, ..; nor a line that is right.
        """
        for line in rows(
            """
ada 1,2\x0b
"ada" 1,2
"ada 1,2
ada 1,2..
ada 1.,2
ada 1*2*3
ada *1,2
ada 1,X
Ädä 1,2
anna\u2013maria 1,2
ada 1\u20132
ada 1 2,3
A>B>C
ada:b
ada 1:2
\udcff 1,2
ada 1,2,
ada 1,,2
ada 1;2
ada 1; 2;3
ada 1;2,5;3
ada 1,5; 2
ada;1;2
ada 1,2,3
a -
0.-z 99,-,1
"""
        ):
            came = line.encode("utf-8", "surrogateescape")
            self.assertEqual(repaired_line(came), came)

    def test_names_of_lines_and_what_takes_no_time(self):
        for line, name in {
            b"ada 1,2": b"ada",
            b"ada-b.9,1": b"ada-b.9",
            b"ada": b"ada",
            b" ada 1": b"",
            b"Ada 1": b"",
            b"": b"",
        }.items():
            self.assertEqual(name_in(line), name)
        # a long line of blanks takes no time
        self.assertEqual(repaired_line(b" " * 3_000_000), b"")
        self.assertEqual(repaired_line(b"a" + b" \t" * 1_000_000 + b"1"), b"a 1")
        self.assertEqual(len(repaired_line(b", " * 1_000_000)), 1_000_000)

    def test_ends_and_marks(self):
        mark = b"\xef\xbb\xbf"
        for data, first, lines in (
            *(
                (f"ada 1{end}ben 2{last}".encode(), 1, [b"ada 1", b"ben 2"])
                for end in ("\n", "\r\n", "\r")
                for last in ("", end)
            ),
            # empty lines are numbered
            (b"\n \t\r\nada 1\r\r\n", 1, [b"", b"", b"ada 1", b""]),
            (b"", 1, []),
            # a mark is removed at the start alone
            (mark + b"ada 1\n" + mark + b"ben 2\n", 1, [b"ada 1", mark + b"ben 2"]),
            (mark + b"ada 1\n", 2, [mark + b"ada 1"]),
        ):
            found = [
                (line.where, line.repaired) for line in lines_in(data, "f", LONGEST_LINE, first)
            ]
            wanted = [(f"f:{number}", line) for number, line in enumerate(lines, start=first)]
            self.assertEqual(found, wanted, data)
        lines = lines_in(mark + b"Ada;1\r\nben 2\r\r\ncleo  3\n", "f", LONGEST_LINE)
        self.assertEqual([line.unframed for line in lines], [b"Ada;1", b"ben 2", b"", b"cleo  3"])

    def test_nothing_steers_the_terminal_and_a_long_line_is_cut(self):
        for line, shown in {
            b"a\x1b[2Jb\t\r\n\x00\xff": "a\\u001B[2Jb\\t\\r\\n\\u0000\\xff",
            # so what was changed of a line is seen
            "ada\t1\u202f,\u200b2\u00ad".encode(): "ada\\t1\\u202F,\\u200B2\\u00AD",
            "“ada” \u00a0\u202e".encode(): "“ada” \\u00A0\\u202E",
            b"x" * 1000: "x" * 100 + "..",
        }.items():
            self.assertEqual(shown_line(line), shown)
