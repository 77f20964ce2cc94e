"""The list of members, read as spreadsheets save it; all that is wrong with it is found at once."""

import codecs
import itertools
import unittest

from debvote_tools.call import members
from debvote_tools.cli.faults import Fault, Status


KEY = "0123456789ABCDEF0123456789ABCDEF01234567"


class MembersTest(unittest.TestCase):
    maxDiff = None

    def read(self, content: str | bytes) -> tuple[list[members.Member], list[Fault]]:
        found, wrong = members.members_of(
            content if isinstance(content, bytes) else content.encode(), "members.csv"
        )
        return found, members.faults_of("members.csv", wrong)

    def assert_rows(self, content: str | bytes, *wanted: tuple[int, str, str, str]):
        """Line, name, who and addresses of each member, and no fault."""
        found, faults = self.read(content)
        self.assertEqual([fault.words for fault in faults], [])
        self.assertEqual(
            [(row.line, row.name, row.who, " ".join(row.addresses)) for row in found], list(wanted)
        )

    def assert_faults(self, content: str | bytes, *wanted: tuple[str, ...]):
        """The parts of each fault, all of which stop the run."""
        try:
            _, faults = self.read(content)
        except Fault as fault:
            faults = [fault, *fault.others]
        self.assertEqual(
            [fault.status for fault in faults],
            [Status.DOUBT] * len(wanted),
            [fault.words for fault in faults],
        )
        for fault, parts in zip(faults, wanted):
            for part in (*parts, "then run debvote-election roll again"):
                self.assertIn(part, str(fault.words))


class Read(MembersTest):
    def test_delimiters_encodings_heads_and_cells(self):
        text = "who;mail\r\nZoë Ł. 李;zoe@x\r\n"
        encodings = [text.encode(), codecs.BOM_UTF8 + text.encode()]
        encodings += [
            mark + text.encode(name)
            for mark, name in (
                (codecs.BOM_UTF16_LE, "utf-16-le"),
                (codecs.BOM_UTF16_BE, "utf-16-be"),
            )
        ]
        for content, *row in [
            *(
                (f"name{mark}who{mark}mail\nada{mark}Ada L{mark}ada@x\n", "ada", "Ada L", "ada@x")
                for mark in (",", ";", "\t")
            ),
            *((data, "", "Zoë Ł. 李", "zoe@x") for data in encodings),
            # columns in any order and spelling
            ('note, MAIL ,"Name",age,\tWho\nx,ada@x,ada,3,Ada L\n', "ada", "Ada L", "ada@x"),
            (";who;mail\n0;Ada;a@x\n", "", "Ada", "a@x"),
            # heads in other words
            ("Nr;Name;E-Mail\n1;Ada L;a@x\n", "", "Ada L", "a@x"),
            ("Nachname;Vorname;Email\nL;Ada;a@x\n", "", "Ada L", "a@x"),
            ("Name;E_Mail;Vorname\nL;a@x;Ada\n", "", "Ada L", "a@x"),
            ("First Name,Last Name,MAIL\nAda,L,a@x\n", "", "Ada L", "a@x"),
            ("Nom\tPrénom\tCourriel\nL\tAda\ta@x\n", "", "Ada L", "a@x"),
            ("NOMBRE,apellidos,correo\nAda,L M,a@x\n", "", "Ada L M", "a@x"),
            *(
                (f"{head};{mail}\nAda L;a@x\n", "", "Ada L", "a@x")
                for head in ("Nom", "Nombre", "Name")
                for mail in ("Mail", "E-Mail-Adresse")
            ),
            ("Name,Email Address\nAda L,a@x\n", "", "Ada L", "a@x"),
            ("Nombre,Correo electrónico\nAda L,a@x\n", "", "Ada L", "a@x"),
            # `name` has the names on the roll where something else has the real ones
            ("Name,who,E-Mail\nada,Ada L,a@x\n", "ada", "Ada L", "a@x"),
            ("Name,Vorname,Nachname,mail\nada,Ada,L,a@x\n", "ada", "Ada L", "a@x"),
            ("E-Mail,who,mail,Vorname\nx,Ada L,a@x,y\n", "", "Ada L", "a@x"),
            # the delimiter is that of the head line
            ("who;mail\nLovelace, Ada, Countess;a@x\n", "", "Lovelace, Ada, Countess", "a@x"),
            ("who;mail;a, b, c, d\nAda;a@x;,,,\n", "", "Ada", "a@x"),
            # spaces, a long cell, a name in parts, several addresses in one cell, a name of the
            # greatest length
            ("name,who,mail\n ada ,\xa0Ada  L\t, a@x \n", "ada", "Ada L", "a@x"),
            (f"who,mail,note\nAda,a@x,{'x' * 200_000}\n", "", "Ada", "a@x"),
            ("who,mail\nZoe\u0308,\n", "", "Zoë", ""),
            ("who,mail\nAda,ada@x;a@x\n", "", "Ada", "ada@x a@x"),
            ('who;mail\n"Ada; the first";ada@x\n', "", "Ada; the first", "ada@x"),
            (f"who,mail,name\nAda,,{'a' * 32}\n", "a" * 32, "Ada", ""),
            (members.NEW_MEMBERS + "Ada,a@x\n", "", "Ada", "a@x"),
        ]:
            with self.subTest(content[:60]):
                self.assert_rows(content, (2, *row))

    def test_trailing_delimiters_blank_rows_short_rows_and_quotation_marks(self):
        text = "\n,,\nname,who,mail,,\n,,,,\nada,Ada,,,\n\n   \nben\ncleo,,c@x,,,,,,\n,,,,"
        self.assert_rows(text, (5, "ada", "Ada", ""), (8, "ben", "", ""), (9, "cleo", "", "c@x"))
        text = 'name,who,mail\nada,"Lovelace, Ada",a@x\n"ben", "Ben ""the"" B","b@x"\ncleo,Cleo "C" C,c@x\ndan,"",""\n'
        wanted = [
            (2, "ada", "Lovelace, Ada", "a@x"),
            (3, "ben", 'Ben "the" B', "b@x"),
            (4, "cleo", 'Cleo "C" C', "c@x"),
            (5, "dan", "", ""),
        ]
        self.assert_rows(text, *wanted)

    def test_line_ends_within_a_cell_keep_the_numbers_of_lines(self):
        for feed in ("\n", "\r\n", "\r"):
            text = f'name,who,mail{feed}ada,"Ada{feed}{feed}L",a@x{feed}ben,Ben,b@x{feed}'
            self.assert_rows(text, (2, "ada", "Ada L", "a@x"), (5, "ben", "Ben", "b@x"))

    def test_several_addresses(self):
        text = 'who,mail\nAda,a@x b@x\nBen,"b@x, c@x;d@x"\nCleo,"Lovelace, Cleo <c@x>; <d@x>"\nDan,mailto:d@x d@x\n'
        found = [row.addresses for row in self.read(text)[0]]
        wanted = [("a@x", "b@x"), ("b@x", "c@x", "d@x"), ("c@x", "d@x"), ("d@x",)]
        self.assertEqual(found, wanted)
        # and the fingerprint of a key
        text = f"who,mail,key\nAda,,{KEY[:20].lower()} {KEY[20:]}\nBen,,\n"
        self.assertEqual([row.key for row in self.read(text)[0]], [KEY, ""])


class Unread(MembersTest):
    def test_faults_of_the_file(self):
        for content, *wanted in [
            (b"", ("members.csv: it is empty",)),
            (b"\xef\xbb\xbf\r\n ,,\r\n", ("it is empty",)),
            (b"PK\x03\x04\x14\0", ("a ZIP", "not CSV", "save it again as CSV in UTF-8")),
            (b"\xd0\xcf\x11\xe0\xa1\xb1", ("spreadsheet, not CSV",)),
            (b"%PDF-1.7", ("a PDF",)),
            (
                "who,mail\nZoë,z@x\n".encode("latin-1"),
                ("members.csv:2: ", "Latin-1", "Zoë,z@x", "UTF-8"),
            ),
            ("who,mail\nZoë,z@x\n".encode("utf-16-le"), ("nor in UTF-16 with a byte-order mark",)),
            (codecs.BOM_UTF16_LE + "who,mail\n".encode("utf-16-le") + b"x", ("UTF-16",)),
            # a head line without a column, or with one twice
            (
                "name,who,post\nada,Ada,a@x\n",
                ("members.csv:1: ", "no column `mail`", "`name`, `who`, `post`"),
            ),
            ("Nachname,mail\nAda,a@x\n", ("no column `who`; it has `Nachname`, `mail`",)),
            (
                "ada,Ada,a@x\n",
                ("no column `who` and no column `mail`; it has `ada`, `Ada`, `a@x`", "real names"),
            ),
            ("ada;Ada;a@x\n", ("it has `ada`, `Ada`, `a@x`",)),
            ("Name,E-Mail,email\n", (":1: ", "column `email` twice")),
            (
                "\nwho,mail,Who,name,NAME\n,,,,\n",
                (":2: ", "column `who` twice"),
                (":2: ", "column `name` twice"),
            ),
            *(
                (content, ("there is nobody on it",))
                for content in ("who,mail\n,,\n", members.NEW_MEMBERS)
            ),
        ]:
            with self.subTest(content):
                self.assert_faults(content, *wanted)

    def test_a_quotation_mark_without_its_end_swallows_no_member(self):
        for text, line in [
            ('who,mail\nAda,a@x\n"Ben,b@x\nCleo,c@x\n', 3),
            ('who,mail\n"Ada" L,a@x\n', 2),
            ('who,mail\n"Ada,a@x\n"Ben",b@x\n', 2),
            ('who,mail\n"A\n\nB",a@x\n"B\nB",x\nC,"y\n', 7),
        ]:
            self.assert_faults(text, (f"members.csv:{line}: ", "close each quotation mark"))


class Rows(MembersTest):
    def test_all_faults_are_found_at_once_with_their_lines(self):
        text = (
            f"who;mail;name;key\nAda;ada.x;Ada;\n;b@x;;\nCl\u202eeo;c@x;;{KEY}0\n\nDan;d@x;dan.2-x;{KEY}\n"
            '"E\nve";e@x;eve;;too far\n;;;x\nFay;f@@x <g@x;;\nGus;g\u202e@x\n'
        )
        wanted = [
            ("members.csv:2: `Ada` cannot be a name on the roll", "1 to 32 of a to z"),
            (":2: `ada.x` is not a mail address",),
            (":3: it has no `who`",),
            (":4: ", "character U+202E"),
            (":4: ", "is not the fingerprint", "all 40 digits"),
            (":7: `too far` is after the last column", "quotation marks"),
            (":9: it has no `who`",),
            (":9: `X` is not the fingerprint",),
            (":10: `f@@x` is not a mail address",),
            (":10: `<g@x` is not a mail address",),
            (":11: `g\\u202E@x` is not a mail address",),
        ]
        self.assert_faults(text, *wanted)
        self.assertEqual([row.line for row in self.read(text)[0]], [2, 3, 4, 6, 7, 9, 10, 11])

    def test_a_row_with_semicolons_below_a_head_with_commas(self):
        said = (
            ":2: `Ada;ada@x` has a semicolon, and the header line has commas",
            "put a comma between the cells of this line too",
        )
        self.assert_faults("who,mail\nAda;ada@x\nBen,ben@x\n", said)
        self.assert_faults(
            "who,mail,name\nAda,ada@x,ada;b\n",
            ("`ada;b` has a semicolon",),
            ("`ada;b` cannot be a name",),
        )
        self.assert_faults(f"who,mail,name\nAda,,{'a' * 33}\n", (":2: ", "cannot be a name"))

    def test_a_sum_below_the_members(self):
        sums = "TOTAL: 3,|Summe,3|,Insgesamt|Gesamtsumme = 3,|Somme : 3,|Suma 3,|Subtotal,|Anzahl: 1.000,"
        for row in sums.split("|"):
            said = f":3: `{row.strip(',').removesuffix(',3')}` is a sum and no member; take the line out"
            self.assert_faults(f"who,mail\nAda,ada@x\n{row}\n", (said,))
        self.assert_faults("nr,who,mail\n1,Ada,a@x\nTotal,1,\n", (":3: `Total` is a sum",))
        wanted = (2, "", "Anna Total", ""), (3, "", "Summ", ""), (4, "", "Suma", "s@x")
        self.assert_rows("who,mail\nAnna Total,\nSumm,\nSuma,s@x\n", *wanted)

    def test_characters_that_were_lost(self):
        self.assert_faults(
            "who,mail\nZo\ufffd,z@x\n",
            (":2: `Zo\ufffd` has lost a character when it was saved (U+FFFD); write the ",),
        )
        for end, (sign, shown) in itertools.product(
            (b"\n", b"\r\n", b"\r"), ((b"\xeb", "Zo\u00eb,z@x"), (b"\x81", "Zo"))
        ):
            self.assert_faults(
                b"who,mail%bAda,%bZo%b,z@x%b" % (end, end, sign, end),
                ("members.csv:3: it is not in UTF-8", shown),
            )
        self.assert_faults(
            "who,mail,,\nLovelace, Ada,a@x,\n",
            (":2: `a@x` is after",),
            (":2: `Ada` is not a mail address",),
        )
