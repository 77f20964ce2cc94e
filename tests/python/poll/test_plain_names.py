"""Plain names, made from names in any language, and names that nobody can tell apart."""

import re
import unittest

from debvote_tools.poll.plain_names import (
    alike,
    bad_options,
    bad_title,
    elector_name,
    is_elector_name,
    made_different,
    plain_options,
)
from debvote_tools.poll.plain_names import plain_title, similar_names

OPTION = re.compile(r"[!-~]([ -~]{0,38}[!-~])?")


class Options(unittest.TestCase):
    def test_what_is_made_of_them(self):
        for language, names, wanted in [
            # what is plain stays
            *(
                ("de", names, names)
                for names in (
                    ["At the lake", "b  b", "!", "No.", "x" * 40],
                    ["b", "b", "B"],
                    ["Vote", "Option 1"],
                    ["", "a"],
                )
            ),
            # by the language
            (
                "de",
                ["Über die Brücke", "Café à Nîmes", "Straße", "Zoe\u0308"],
                ["Ueber die Bruecke", "Cafe a Nimes", "Strasse", "Zoe"],
            ),
            ("de", ["ﬁnn Ａ²", "¿Sí?", "o\u0308l", "O\u0308de"], ["finn A2", "Si?", "oel", "Oede"]),
            (
                "en",
                ["Über die Brücke", "Café à Nîmes", "Straße"],
                ["Uber die Brucke", "Cafe a Nimes", "Strasse"],
            ),
            # punctuation
            (
                "fr",
                ["„Ja“ – 5 €…", "L’été\u00a0: «oui»", "a → b", "½ × 3"],
                ['"Ja" - 5 EUR...', 'L\'ete : "oui"', "a b", "1/2 x 3"],
            ),
            # where nothing is left
            ("en", ["Ja", "李", "—", "Да 2"], ["Ja", "Option 2", "Option 3", "Option 4"]),
            # digits alone are a name only as they stand
            ("en", ["2027", "(№ 3)", "第3案", "(三 3)"], ["2027", "(No 3)", "Option 3", "Option 4"]),
            ("en", ["李", "Option 1", "王"], ["Option 1 2", "Option 1", "Option 3"]),
            # long names are cut, and made different where another has the rest
            ("en", ["x" * 41], ["x" * 40]),
            ("en", ["x" * 39 + " y"], ["x" * 39]),
            ("en", ["x" * 41, "x" * 42, "x" * 40], ["x" * 38 + " 2", "x" * 38 + " 3", "x" * 40]),
            # who would get one name gets a number
            ("fr", ["Café", "Cafè", "Tee"], ["Cafe 1", "Cafe 2", "Tee"]),
            ("fr", ["Café", "Cafe"], ["Cafe 2", "Cafe"]),
            ("de", ["Über", "ueber", "UEBER 2"], ["Ueber 3", "ueber", "UEBER 2"]),
        ]:
            self.assertEqual(plain_options(names, language), wanted)

    def test_capitals(self):
        names = "ÄRZTE Ärzte GRÖ Ö GROẞ ŁÓDŹ ÆON Æon Œuvre Þing Øl".split()
        wanted = "AERZTE Aerzte GROE Oe GROSS LODZ AEON Aeon Oeuvre Thing Ol".split()
        self.assertEqual([plain_options([name], "de")[0] for name in names], wanted)

    def test_they_are_always_what_debvote_takes(self):
        odd = [
            "é" * 60,
            "ß" * 30,
            " a",
            "b ",
            "\u200b",
            "c\u0301" * 41,
            "\u2028",
            "a" * 39 + "é b",
            "İ" * 41,
            "́",
            "€" * 14,
        ]
        found = plain_options([*odd, *odd], "de")
        self.assertEqual(
            (
                [name for name in found if not OPTION.fullmatch(name)],
                len({alike(name) for name in found}),
            ),
            ([], len(found)),
        )

    def test_titles(self):
        titles = {
            "Where we meet": "Where we meet",
            "Wahl des Präsidiums": "Wahl des Praesidiums",
            "投票": "Vote",
            "": "",
        }
        titles |= {
            "y" * 81: "y" * 80,
            "é" * 80: "e" * 80,
            "2027年": "2027",
            "a  b": "a  b",
            "?": "?",
        }
        for title, plain in titles.items():
            self.assertEqual(plain_title(title, "de"), plain)


class Electors(unittest.TestCase):
    def test_accents_capitals_and_what_is_not_allowed(self):
        for who, name in {
            "Zoë Müller": "zoe-muller",
            "ÅSA ÖSTERBERG": "asa-osterberg",
            "Łukasz Møller": "lukasz-moller",
            "Groß Weiß": "gross-weiss",
            "O'Brien Anna": "o-brien-anna",
            "José  Ñuñez-Peña": "jose-nunez-pena",
            "Đỗ Ánh": "do-anh",
            "J. R. Smith": "j-r-smith",
            "İpek Işık": "ipek-isik",
            "Þór Æsir": "thor-aesir",
            "ﬁnn Ａｄａ": "finn-ada",
            "-x_y-": "x-y",
            "Zoe\u0308": "zoe",
            "3rd": "3rd",
            "李 Li": "li",
            "李": "",
            "...": "",
            ",": "",
        }.items():
            self.assertEqual(
                (elector_name(who, "en"), is_elector_name(name)), (name, bool(name)), who
            )
        self.assertEqual(elector_name("ZOË Müller-Groß", "de"), "zoe-mueller-gross")

    def test_the_family_name_comes_last(self):
        for who, name in {
            "Meier, Anna": "anna-meier",
            "Meier, Dr. Anna": "anna-meier",
            "Meier,": "meier",
            "Anna Meier, PhD": "anna-meier",
            "Li Ming, 李": "li-ming",
            "King, Martin Luther, Jr.": "king-martin-luther-jr",
            "Martin Luther King, Jr.": "martin-luther-king-jr",
        }.items():
            self.assertEqual(elector_name(who, "en"), name, who)

    def test_titles_are_left_out(self):
        def demand(text: str, titles: str):
            for title in titles.split("|"):
                who = text.format(title)
                self.assertEqual(elector_name(who, "de"), "anna-weiss", who)

        before = (
            "Dr.|Dr|DR.|Dr.-Ing.|Prof. Dr. med. dent.|Univ.-Prof. Mag.|Dipl.-Ing. (FH)|Dipl. Ing."
        )
        demand("{} Anna Weiß", f"{before}|Dr. h. c. mult.|Mag.a|Dr.in")
        demand("Anna Weiß, {}", "PhD|Ph.D.|M. Sc., MBA|LL.M.|B.Sc.")
        of_people = "Frau|Herr|Herrn|Frau Prof. Dr.|Mr.|Mr|Mrs.|Ms|Mme|MME|Sr.|Sra.|Sra"
        demand("{} Anna Weiß", of_people)
        demand("Weiß, {} Anna", of_people)
        for who, name in {
            "Anna Herr": "anna-herr",
            "Herr, Anna": "anna-herr",
            "Frauke Mrsic": "frauke-mrsic",
            "Weiß, Sr.": "weiss-sr",
            "Frau": "frau",
        }.items():
            self.assertEqual(elector_name(who, "de"), name, who)
        for who, name in {
            "Phil Mag": "phil-mag",
            "Dr. Chr. Ing": "chr-ing",
            "Drago Profe": "drago-profe",
            "Dr.": "dr",
            "Prof. 李": "prof",
        }.items():
            self.assertEqual(elector_name(who, "en"), name, who)

    def test_similar_names(self):
        for names, wanted in {
            "anna-meier anna-maier meier-anna": [
                ("anna-meier", "anna-maier"),
                ("anna-meier", "meier-anna"),
            ],
            "jan ben jana jan-1 jan-2": [("jan", "jana")],
            "c.a-b x-y b-a-c": [("c.a-b", "b-a-c")],
            "ann-1 ann-2 anne-lee anna-loo ann.": [("ann-1", "ann.")],
        }.items():
            self.assertEqual(list(similar_names(names.split())), wanted)
        self.assertEqual(list(similar_names(f"elector-{number}" for number in range(10_000))), [])

    def test_what_a_roll_allows(self):
        names = ("a", "0.-", "a" * 32, "", "A", "a b", "ä", "a_b", "a" * 33, "a\n")
        self.assertEqual(tuple(filter(is_elector_name, names)), names[:3])

    def test_numbers(self):
        self.assertEqual(made_different(["a", "a", "b"], ["a-1"], 32, "-"), ["a-2", "a-3", "b"])
        self.assertEqual(made_different(["a", "a"], ["a"], 32, "-"), ["a-2", "a-3"])
        self.assertEqual(
            made_different(["b" * 32] * 10, [], 32, "-")[8:], ["b" * 30 + "-9", "b" * 29 + "-10"]
        )


class Refused(unittest.TestCase):
    def assert_bad(self, names: list[str], *wanted: tuple[int, str]):
        """Which options are refused, each with a part of the reason."""
        found = list(bad_options(names, plain_options(names, "de")))
        self.assertEqual(
            [(number, name) for number, name, _ in found],
            [(number, names[number - 1]) for number, _ in wanted],
        )
        for (_, _, why), (_, reason) in zip(found, wanted):
            self.assertIn(reason, why)

    def test_names_that_look_alike(self):
        pairs = [
            ("Am See", "am  SEE"),
            ("Café", "Cafe"),
            ("Straße", "STRASSE"),
            ("Am See", "Am\u00a0See\u200b"),
        ]
        for first, second in (*pairs, ("李", "李\ufe00"), ("a", "a\u0301"), ("ｘ", "X")):
            self.assert_bad([first, "other", second], (3, f"looks like option 1, `{first}`"))
        # and names that do not
        self.assert_bad(
            ["Am See", "Am Fee", "かき", "がき", "राम", "रोम", "Über", "Ueber", "1", "2", "!", "?"]
        )

    def test_of_two_equal_plain_names_debvote_speaks(self):
        self.assert_bad(["a", "a", ""])
        self.assert_bad(["a", "A"], (2, "looks like option 1"))
        # the plain name of another
        self.assertEqual(plain_options(["Ü", "Ue", "Ue\u0301 2"], "de"), ["Ue 2", "Ue", "Ue 2 1"])
        self.assert_bad(
            ["Ü", "Ue", "Ue\u0301 2"], (3, "looks like the plain name of option 1, `Ü`")
        )

    def test_characters_and_length(self):
        for odd in ("\u202e", "\u2066", "\x1b", "\n", "\u2028", "\x7f", "\ue000", "\ufff9"):
            self.assert_bad(["x", f"a{odd}b"], (2, f"the character U+{ord(odd):04X}"))
            self.assertEqual(len(list(bad_title(f"a{odd}b"))), 1)
        self.assert_bad(
            ["ä" * 200, "b" * 201], (2, "it has 201 characters; at most 200 are allowed")
        )
        self.assert_bad(
            ["\u200b\u3164", "\u200c", "x"],
            (1, "no visible character"),
            (2, "no visible character"),
        )
        self.assertEqual(
            ([number for number, _, _ in bad_title("c" * 201)], list(bad_title("c" * 200))),
            ([0], []),
        )
        # a subject of the last vote that was copied: each answer would wait as one about that vote
        self.assertEqual(
            [
                len(list(bad_title(f"Budget [{mark}]")))
                for mark in ("0123456789abcdef", "01234567", "2026")
            ],
            [1, 0, 0],
        )
