"""The poll as the secretary writes it: what is wrong with it, and how it is sealed."""

import dataclasses
import os
import pathlib
import re
import shutil
import subprocess
import tempfile
import tomllib
import unittest

from debvote_tools.call.draft import NEW_POLL, DraftPoll, draft_in, faults_of_names, sealed_form
from debvote_tools.cli.faults import Fault, Status
from debvote_tools.election import Election
from debvote_tools.poll.sealed import SealedPoll, read_plain

from tests.support import elections

GERMAN = """title = "Wo wir uns im Frühling treffen"
options = ["Am See", "Über der Brücke", "李"]
ratios = [1, 1, 3]
default = "Weiter diskutieren"
quorum = 1
"""
PLAIN = GERMAN.replace("ü", "u").replace("Ü", "U").replace("李", "Li")
ROLL = ["ada", "ben", "zoe-mueller"]


def seal(draft: DraftPoll, roll: list[str], language: str, **said: str) -> SealedPoll:
    """The sealed poll of a draft in which debvote finds nothing wrong."""
    return read_plain(sealed_form(draft, roll, language, **said))


class DraftTest(unittest.TestCase):
    maxDiff = None

    def setUp(self):
        self.folder = pathlib.Path(
            self.enterContext(tempfile.TemporaryDirectory(prefix="debvote-draft-"))
        )
        self.write("poll.toml", GERMAN)

    def write(self, name: str, content: str | bytes):
        data = content if isinstance(content, bytes) else content.encode()
        (self.folder / name).write_bytes(data)

    def draft(
        self, poll: str | bytes | None = None, texts: dict[str, str | bytes] = {}
    ) -> DraftPoll:
        """The draft of a poll, and of texts by the names of their files."""
        if poll is not None:
            self.write("poll.toml", poll)
        shutil.rmtree(self.folder / "texts", ignore_errors=True)
        for name, text in texts.items():
            (self.folder / "texts").mkdir(exist_ok=True)
            self.write(f"texts/{name}", text)
        return self.found()

    def sound(self, poll: str | bytes) -> DraftPoll:
        """A draft in which nothing is wrong but what debvote says of it."""
        draft = self.draft(poll)
        self.assertEqual(draft.faults, [])
        return draft

    def found(self) -> DraftPoll:
        return draft_in(Election(self.folder, elections.PROGRAM.parent))

    def assert_faults(self, faults: object, *wanted: tuple[str, ...]):
        """Each fault has these parts, and tells what to do next."""
        found = [str(fault.words) for fault in faults]
        self.assertEqual(len(found), len(wanted), found)
        for words, parts in zip(found, wanted):
            for part in parts:
                self.assertIn(part, words)

    def explained(self, draft: DraftPoll, roll: list[str] = ROLL) -> str:
        """What debvote says of the poll as it would be sealed."""
        words = [elections.PROGRAM, "explain", "--poll", "/dev/stdin"]
        return subprocess.run(
            words, input=sealed_form(draft, roll, "de"), stdout=subprocess.PIPE
        ).stdout.decode()


class Sealed(DraftTest):
    def test_in_any_language(self):
        wanted = SealedPoll(
            "Wo wir uns im Fruehling treffen",
            ("Am See", "Ueber der Bruecke", "Option 3"),
            (1, 1, 3),
            "Weiter diskutieren",
            1,
            tuple(ROLL),
            shown_title="Wo wir uns im Frühling treffen",
            shown_options=("Am See", "Über der Brücke", "李", "Weiter diskutieren"),
        )
        self.assertEqual(seal(self.draft(), ROLL, "de"), wanted)
        self.assertIn("poll ok: 4 options, 3 electors", self.explained(self.draft()))

    def test_what_is_plain_is_not_shown_twice(self):
        """The title alone, or an option alone; blanks around a name do not count."""
        sealed = sealed_form(self.draft(PLAIN + 'wording = "more_than"\n'), ["ada"], "en")
        self.assertEqual(sealed.decode(), PLAIN + 'wording = "more_than"\nroll = ["ada"]\n')
        shown, names = "Wo wir uns im Frühling treffen", ("Am See", "Uber der Brucke", "Li")
        for before, after, *wanted in (
            ("Fruhling", "Frühling", shown, (), "Weiter diskutieren"),
            ("diskutieren", "schwätzen", None, (*names, "Weiter schwätzen"), "Weiter schwaetzen"),
            ('"Am See"', '" Am See\u00a0"', None, (), "Weiter diskutieren"),
        ):
            poll = seal(self.draft(PLAIN.replace(before, after)), ROLL, "de")
            self.assertEqual([poll.shown_title, poll.shown_options, poll.default], wanted)
            self.assertEqual(poll.options, names)

    def test_all_that_may_be_set(self):
        draft = self.draft(
            "\ufeff" + GERMAN + 'wording = "at_least"\nsecret = true\n', {"2.txt": "Schön.\n"}
        )
        more = {"deadline": "2026-12-04T18:00:00+01:00", "address": "vote@x"}
        sealed, poll = sealed_form(draft, ROLL, "de", **more), seal(self.draft(GERMAN), ROLL, "de")
        wanted = dataclasses.replace(
            poll, **more, secret=True, wording="at_least", explanations=("", "Schön.\n", "")
        )
        self.assertEqual((read_plain(sealed), wanted.as_bytes()), (wanted, sealed))
        keys = "title options ratios default quorum wording roll deadline address secret shown_title shown_options explanations"
        self.assertEqual(
            [line.split(" = ")[0] for line in sealed.decode().splitlines()], keys.split()
        )
        self.assertIs(seal(self.draft(GERMAN + "secret = false\n"), ROLL, "de").secret, False)
        # it is TOML also where a text has what TOML does not take as it is
        odd = dataclasses.replace(wanted, explanations=("", "\x7f", ""))
        self.assertEqual(
            (tomllib.loads(odd.as_bytes().decode())["explanations"][1], read_plain(odd.as_bytes())),
            ("\x7f", odd),
        )


class Explained(DraftTest):
    """What debvote itself says of the sealed form: it has what is wrong as it was written."""

    def test_what_is_missing_empty_of_a_wrong_type_or_out_of_range(self):
        missing = "key {}: it is missing".format
        types = {
            "title": "3",
            "options": '["a", 1]',
            "ratios": '"x"',
            "default": "[]",
            "quorum": "1.5",
            "wording": "false",
            "options ": "true",
        }
        keys = "title options ratios default quorum".split()
        cases = [
            (PLAIN.replace("title", "# title"), missing("title")),
            (
                re.sub('"Am See"|"Wo wir uns im Fruhling treffen"', '""', PLAIN),
                "title: ",
                "name of option 1: ",
            ),
            ("", *map(missing, keys)),
            (PLAIN.replace("quorum = 1", "quorum = 11"), "quorum: "),
            (PLAIN.replace("[1, 1, 3]", "[1, 3]"), "ratios: 2 found; "),
        ]
        for key, value in types.items():
            others = re.sub(rf"(?m)^{key.strip()} = .*\n", "", PLAIN)
            cases.append((f"{others}{key} = {value}\n", f"key {key.strip()}: "))
        for poll, *wanted in cases:
            with self.subTest(poll):
                found = re.findall("(?m)^poll: (.*)", self.explained(self.sound(poll)))
                for part in wanted:
                    self.assertTrue(any(line.startswith(part) for line in found), found)
                # a value of a wrong type may be told with what it makes of others
                is_of_type = wanted[0].startswith("key ") and "missing" not in wanted[0]
                self.assertTrue(len(found) == len(wanted) or is_of_type, found)
        self.assertIn("poll: size of roll: ", self.explained(self.draft(GERMAN), []))


class Faults(DraftTest):
    def test_other_keys(self):
        extra = 'deadline = "x"\naddress = "x"\nroll = []\nlast_envelope = 1\nqorum = 2\nnotes = ""\nexplanations = []\n[more]\nwording = 1\n'
        draft = self.draft(GERMAN + extra)
        wanted = [
            (
                "poll.toml: the key `deadline` is not written here",
                "call --until",
                "then run debvote-election check",
            ),
            ("`address`", "call --to"),
            ("`roll`", "members.csv"),
            ("`last_envelope`", "close"),
            ("`explanations`", "texts/1.txt"),
            ("`more` has a value of a wrong kind",),
        ]
        self.assert_faults(draft.faults, *wanted)
        self.assertEqual({fault.status for fault in draft.faults}, {Status.BAD_POLL})
        # of the others debvote speaks
        self.assertEqual(
            self.explained(draft).splitlines(),
            [
                "poll: key notes is not read",
                "poll: key qorum is not read",
                "poll ok: 4 options, 3 electors",
            ],
        )
        self.assertNotIn(b"deadline", sealed_form(draft, ROLL, "de"))

    def test_keys_that_no_poll_has(self):
        poll = GERMAN.replace("quorum", "qorum") + '"a \\" =\u00e4" = [1]\n'
        found = self.explained(self.sound(poll))
        for part in (
            "poll: key quorum: it is missing",
            "poll: key qorum is not read; did you mean quorum?",
            'poll: key a " =',
        ):
            self.assertIn(part, found)

    def test_values_that_no_poll_has(self):
        for key, value in {
            "quorum": "2026-01-01",
            "title": "{a = 1}",
            "ratios": "[nan]",
            "quorum ": "9223372036854775808",
        }.items():
            lines = [
                line for line in GERMAN.splitlines() if not line.startswith(f"{key.strip()} = ")
            ]
            draft = self.draft("\n".join([*lines, f"{key} = {value}"]))
            self.assert_faults(draft.faults, (f"`{key.strip()}` has a value of a wrong kind",))
            self.assertIn(f"poll: key {key.strip()}: it is missing", self.explained(draft))
        for value in ("1", '"true"', "[]"):
            draft = self.draft(GERMAN + f"secret = {value}\n")
            self.assert_faults(
                draft.faults, ("`secret` is neither true nor false", "secret = true")
            )
            self.assertNotIn(b"secret", sealed_form(draft, ROLL, "de"))

    def test_a_poll_that_can_not_be_read(self):
        toml = "poll.toml: it can't be read as TOML"
        for poll, why in {
            "title = \n": f"{toml}, as said above",
            b"a = 1\nb = '\xff'\n": f"{toml}, as said above",
            "a = " + "[" * 9000: f"{toml}, as said above",
            # debvote reads a newer TOML
            "a = {b = 1,\n}": f"{toml} 1.0: .*line 1",
            GERMAN + "#" * 1_048_576: "poll.toml: .*longer than 1048576 bytes",
            None: "poll.toml: .*No such file or directory; write it",
        }.items():
            (self.folder / "poll.toml").unlink()
            with self.assertRaisesRegex(Fault, why) as caught:
                self.draft(poll)
            self.assertTrue(caught.exception.status == Status.BAD_POLL or toml not in why)


class Texts(DraftTest):
    def test_texts(self):
        draft = self.draft(
            texts={
                "3.txt": "\ufeffC\r\n\n\tx\n",
                "1.txt": "ä: \u05d0\n",
                ".1.txt.swp": "",
                "1.txt~": "",
                "#1.txt#": "",
            }
        )
        self.assertEqual(
            (draft.faults, dict(draft.texts)), ([], {1: "ä: \u05d0\n", 3: "C\n\n\tx\n"})
        )
        self.assertEqual(seal(draft, ROLL, "de").explanations, ("ä: \u05d0\n", "", "C\n\n\tx\n"))

    def test_all_that_is_no_text(self):
        texts = {
            "0.txt": "x",
            "01.txt": "x",
            "1.md": "x",
            "1.txt": "\n \n",
            "2.txt": b"a\n\xff",
            "3.txt": "a\n\nb\u202e",
            "4.txt": "the default",
        }
        wanted = [
            *(
                ("/0.txt: it is not the text of an option", "1.txt to 3.txt"),
                ("/01.txt: it is not the text",),
                ("/1.md: it is not the text",),
            ),
            *(
                ("/1.txt: it is empty",),
                ("/2.txt:2: it is not in UTF-8",),
                ("/3.txt:3: ", "U+202E"),
                ("/4.txt: it is not the text",),
            ),
        ]
        self.assert_faults(self.draft(texts=texts).faults, *wanted)
        for odd in ("\x0b", "\r", "\x85", "\u2028", "\u2067", "\ue000", "\x00"):
            self.assert_faults(
                self.draft(texts={"1.txt": f"a\nb{odd}c"}).faults,
                (f"/1.txt:2: it has the character U+{ord(odd):04X}",),
            )

    def test_their_size_together(self):
        half = "x" * 262_144
        self.assertEqual(self.draft(texts={"1.txt": half, "2.txt": half}).faults, [])
        self.assert_faults(
            self.draft(texts={"1.txt": half, "2.txt": half, "3.txt": "y"}).faults,
            ("texts: the texts have 524289 bytes",),
        )
        self.assert_faults(
            self.draft(texts={"1.txt": "x" * 524_289}).faults,
            ("/1.txt: it is longer than 524288 bytes",),
        )

    def test_what_is_no_file_or_no_folder(self):
        """A pipe would keep its reader waiting."""
        self.write("texts", "x")
        self.assert_faults(self.found().faults, ("texts: Not a directory",))
        (self.folder / "texts").unlink()
        (self.folder / "texts").mkdir()
        os.mkfifo(self.folder / "texts" / "1.txt")
        said = "/1.txt: it is no plain file; put a readable file there, or remove it"
        self.assert_faults(self.found().faults, (said,))
        (self.folder / "poll.toml").unlink()
        os.mkfifo(self.folder / "poll.toml")
        with self.assertRaisesRegex(Fault, "poll.toml: it is no plain file; write it"):
            self.found()


class Confusing(DraftTest):
    def faults(self, poll: str, language: str = "de") -> list[object]:
        return list(faults_of_names(self.sound(poll), ROLL, language))

    def test_nothing_is_wrong(self):
        # a line that reads as a ballot is parted off where it goes out
        for name in ("Am See", "ben 1,2,3,4"):
            self.assertEqual(self.faults(GERMAN.replace("Am See", name)), [])

    def test_names_of_options_and_of_the_title(self):
        poll = (
            GERMAN.replace('"李"', '"ueber der BRUCKE", "UBER DER BRÜCKE"')
            .replace("treffen", "\\u202e")
            .replace("Weiter", "x" * 200)
        )
        wanted = [
            ("poll.toml: the title, ", "U+202E", "then run debvote-election check"),
            ("option 5, ", "characters; at most 200 are allowed"),
            ("option 4, `UBER DER BRÜCKE`: it looks like option 2, `Über der Brücke`",),
        ]
        self.assert_faults(self.faults(poll), *wanted)

    def test_words_of_a_motion_with_accents(self):
        poll = 'title = "The fee"\noptions = ["Raise it"]\nratios = [1]\ndefault = "No, as it is"\nquorum = 0\nmotion = true\n'
        yes, no = (
            "the default option of a motion begins with a word for yes",
            "the option of a motion begins with a word for no or abstention",
        )
        for before, after, *faults in (
            ("No, as", "SI\u0301: as", (yes,)),
            ("Raise", "Abstenci\u00f3n o", (no,)),
            ("No, as", "Si as"),
        ):
            self.assert_faults(self.faults(poll.replace(before, after), "es"), *faults)


class NewPoll(DraftTest):
    def test_it_is_filled_in_by_its_own_examples(self):
        text = NEW_POLL.read_text()
        self.assertEqual(
            tomllib.loads(text), {"title": "", "options": [], "ratios": [], "default": ""}
        )
        self.assertLess(max(map(len, text.splitlines())), 111)
        self.sound(text)
        examples = re.findall(r"(?m)^#     (\w+)( = .*)$", text)
        keys = "options ratios default title options ratios default motion"
        self.assertEqual([key for key, _ in examples], keys.split())
        for options, given in ((4, [("title", ' = "Frühling"'), *examples[:3]]), (2, examples[3:])):
            # a poll that is no motion has no line for it
            filled = text + "motion =\n"
            for key, value in given:
                filled = re.sub(rf"(?m)^{key} =.*$", key + value, filled)
            filled = filled.removesuffix("motion =\n")
            for line in ("quorum = 1", 'wording = "more_than"', "secret = true"):
                self.assertEqual(filled.count(f"\n# {line}\n"), 1)
                filled = filled.replace(f"\n# {line}\n", f"\n{line}\n")
            draft = self.sound(filled)
            self.assertIn(f"poll ok: {options} options, 3 electors", self.explained(draft))
            self.assertEqual(seal(draft, ROLL, "en").secret, True)
            self.assertEqual(draft.values.get("motion"), True if options == 2 else None)
