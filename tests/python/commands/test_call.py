"""`call` and `codes`: what is sealed, what electors are told, and how a call is extended, added to and taken back."""

import hashlib
import os
import re
import subprocess
import unittest.mock

import pytest

from debvote_tools.call.secret import alias_of
from debvote_tools.election import LETTER_TEXT
from debvote_tools.poll.sealed import read_plain

from tests.support import elections
from tests.support.election_books import CalledTest, text_in
from tests.support.letters import letter

UNTIL = "--until '2026-12-04 18:00' --zone Europe/Berlin"
LATER = "--until '2026-12-05 18:00' --zone Europe/Berlin"
FIRST = "Friday, 4 December 2026, 18:00 (UTC+01:00)"
SECOND = "Sunday, 6 December 2026, 18:00 (UTC+01:00)"
MEMBERS = elections.members_of(elections.NAMES)
# the list of members with the key of Ben
KEYS = MEMBERS.replace("\n", ",\n").replace("mail,", "mail,key")
KEYS = KEYS.replace("ben@club.example,", f"ben@club.example,{'A' * 40}")
# where the note of an act takes its place
KILLED = "-e", "inject=rename:signal=KILL:when=1"


class CallTest(CalledTest):
    call_words = None

    def marks(self) -> dict[str, str]:
        return dict(self.rows("SELECT name, mark FROM elector_now ORDER BY position"))

    def setUp(self):
        super().setUp()
        self.set_clock("2026-11-27T09:00:00+00:00")

    def texts(self, *names: str) -> str:
        """All that electors read of the call, or these files, on one line."""
        files = map(self.read, names or ("call/index.html", "call/call.txt"))
        return " ".join(b" ".join(files).decode().replace("&nbsp;", " ").split())

    def files(self, *folders: str) -> list[str]:
        """The names of the files in these folders."""
        return sorted(file.name for name in folders for file in (self.folder / name).iterdir())


class Open(CallTest):
    def test_without_an_end_times_are_in_the_zone_of_the_computer(self):
        """In that of the call, wherever a later command runs."""
        with unittest.mock.patch.dict(os.environ, {"TZ": "Asia/Kolkata"}):
            self.told("call --to vote@club.example")
        self.cast("ada 1,2,3,4")
        for words in ("status", "show ada", "log"):
            self.assertIn("2026-11-27 14:30:00 UTC+05:30", self.told(words))
        self.told("letters receipts")
        [receipt] = (self.folder / "letters/receipts").rglob("ada.eml")
        self.assertIn("14:30 (UTC+05:30)", receipt.read_text())

    def test_folder_and_seal(self):
        said = self.told(f"call {UNTIL} --to vote@club.example --at https://club.example/vote/")
        folder = self.folder / "call"
        self.assertEqual(self.files("call"), ["SHA256SUMS", "call.txt", "index.html", "poll.toml"])
        before = {file: file.read_bytes() for file in folder.iterdir()}
        self.assertEqual({file.stat().st_mode & 0o777 for file in before}, {0o644})
        poll = read_plain(self.read("call/poll.toml"))
        self.assertEqual(
            (poll.deadline, poll.address, list(poll.roll)),
            ("2026-12-04T18:00:00+01:00", "vote@club.example", elections.NAMES),
        )
        self.assertIn(f"[{poll.checksum[:16]}]", said)
        for text in (said, self.texts()):
            for part in (hashlib.sha256(self.read("call/poll.toml")).hexdigest(), FIRST):
                self.assertIn(part, text)
        subprocess.run(["sha256sum", "--quiet", "-c", "SHA256SUMS"], cwd=folder, check=True)
        # made again it is the same, and no act
        log = self.told("log")
        # in the zone of the vote
        self.assertRegex(log, r"(?m)^ +3  2026-11-\d\d \d\d:\d\d:\d\d UTC\+01:00  call, ")
        self.write("poll.toml", "title = 5\n")
        self.write("members.csv", "nothing\n")
        for file in before:
            file.unlink()
        self.write("call/poll.toml", "another")
        self.done("call")
        self.assertEqual({file: file.read_bytes() for file in folder.iterdir()}, before)
        self.assertEqual(self.told("log"), log)

    def test_real_names_are_told_only_with_names(self):
        people = [f"Person of {name.title()}" for name in elections.NAMES]
        rows = (f"{name},{who},\n" for name, who in zip(elections.NAMES, people))
        self.write("members.csv", "name,who,mail\n" + "".join(rows))
        self.done("roll")
        for words, shown in (("", []), ("--names", people)):
            self.done(f"call {UNTIL} {words}")
            text = self.texts("call/index.html", "call/call.txt", "call/poll.toml")
            self.assertEqual([who for who in people if who in text], shown)
            self.done("call --take-back")

    def test_the_list_is_read_if_nobody_has_read_it(self):
        fresh = self.folder / "fresh"
        self.done("new fresh")
        self.write("fresh/poll.toml", self.poll)
        self.refused("call --folder fresh", "members.csv: ")
        self.write("fresh/members.csv", MEMBERS)
        said = self.told("call --folder fresh")
        self.assertTrue(
            said.startswith("9 electors, each with the name on the roll:\n  ada: "), said
        )
        self.assertIn("\nChecksum of the poll: ", said)
        self.assertEqual(self.told(f"status --electors --folder {fresh}").count("\n"), 9)

    def test_the_list_has_to_be_the_one_that_was_read(self):
        for changed in (f"{MEMBERS}Jan,jan@club.example\n", MEMBERS.replace("ben@", "b@"), KEYS):
            self.write("members.csv", changed)
            said = "members.csv: it has changed since roll read it"
            self.refused("call", said, "debvote-election roll")

    def test_all_faults_at_once(self):
        before = self.contents()
        for words, said in (("--until tomorrow", "--until"), (f"{UNTIL}x", "--zone")):
            self.refused(f"call {words}", said, "nothing was changed", status=2)
        self.assertEqual(self.contents(), before)
        self.write("poll.toml", elections.POLL.replace("quorum = 1", "quorum = 99"))
        self.write("letter.txt", b"\xff")
        self.write("members.csv", elections.members_of(elections.NAMES[1:]))
        ended = self.election(
            "call --until '2026-11-01 18:00' --to nobody --at file:///etc --keyring nofile"
        )
        parts = [
            "is past",
            "--to: it must be one mail address",
            "--at: it must be",
            "nofile: No such file",
            "since roll read it",
            "letter.txt:1: ",
            "quorum: ",
        ]
        lines = zip(parts, ended.faults.splitlines(), strict=True)
        self.assertEqual([part for part, line in lines if part not in line], [], ended.faults)
        self.assertEqual((ended.status, (self.folder / "call").exists()), (2, False))


class Again(CallTest):
    def setUp(self):
        super().setUp()
        self.done(f"call {UNTIL} --to vote@club.example")

    def test_extended_twice(self):
        poll = self.read("call/poll.toml")
        # it goes to each elector once, and to none after the close
        self.tells(
            f"call {LATER}",
            "Made letters/extension.txt, the letter to all that says so.\n",
            "Next: 9 letters of the call are not sent: debvote-election letters --send --server HOST; or by your mail program: debvote-election letters call, then debvote-election status --done letters\n",
        )
        self.set_clock("2026-12-05T20:00:00+01:00")
        # in the zone of the end before
        self.done("call --until '2026-12-06 18:00'")
        self.assertEqual(self.read("call/poll.toml"), poll)
        for text in (self.texts(), self.texts("letters/extension.txt"), self.told("status")):
            self.assertIn(SECOND, text)
        self.refused("call --until '2026-12-06 17:00'", "is not later", status=2)
        self.set_clock("2026-12-06T17:00:00+01:00")
        self.refused("close", SECOND)
        self.tells("close --early", "the announced end of the vote has not come yet")
        self.refused("call --until '2027-01-01 12:00'", "closed")
        self.assertNotRegex(self.told("call"), "of the call are not sent")

    def test_a_run_that_was_killed_is_repeated_with_its_words(self):
        """It was killed after its act, before it made the folders: it makes them, and does nothing else."""
        self.done("call --take-back")
        for name, words in (
            (
                "call/poll.toml",
                f"call {UNTIL} --to 'Club <vote@club.example>' --at https://club.example/",
            ),
            ("letters/extension.txt", f"call {LATER}"),
        ):
            before = self.last_act()
            self.traced(*KILLED, words=[words])
            self.assertFalse((self.folder / name).exists())
            self.done(words)
            self.assertTrue((self.folder / name).exists())
            self.assertEqual(self.last_act(), before + 1)

    def test_what_is_added_and_what_not(self):
        for page, other in (("vote/", "moved/"), ("moved/", "vote/")):
            self.done(f"call --at https://club.example/{page}")
            found = [f"https://club.example/{one}" in self.texts() for one in (page, other)]
            self.assertEqual(found, [True, False])
        for words in ("--to other@club.example", "--names", "--keyring poll.toml"):
            self.refused(f"call {words}", words.split()[0], "--take-back")

    def test_taken_back(self):
        self.done(f"call {LATER}")
        # letters that nobody has sent have the void mark
        self.done("letters call")
        self.done("call --take-back")
        self.assertEqual(self.files("call", "letters"), [".lock"])
        self.assertEqual(self.numbers()["stage"], "new")
        self.refused("letters call", "there is no call for votes yet")
        self.write("poll.toml", elections.POLL.replace("spring", "autumn"))
        self.done("call --to other@club.example")
        self.assertIn(b"autumn", self.read("call/poll.toml"))
        # no code was given out with a call of an open vote
        self.assertNotIn("An earlier call", self.texts())
        self.refused("call --until '2026-11-01 10:00'", "is past", status=2)

    @pytest.mark.whole
    def test_taking_back_goes_on_where_it_was_killed(self):
        """Letters that nobody has sent, and the files of the call, are void: the next run removes them, which may be another call."""
        for words in ("call --take-back", "call --at nowhere"):
            self.done(f"call {LATER}")
            self.done("letters call")
            # after the act, before the files are removed
            self.traced("-e", "inject=unlink:signal=KILL:when=2", words=["call --take-back"])
            self.assertTrue((self.folder / "call/poll.toml").exists())
            self.assertNotEqual(self.election(words).status, 0)
            self.assertEqual(self.files("call", "letters"), [".lock"])
            self.done(f"call {UNTIL} --to vote@club.example")

    def test_not_taken_back_once_something_came(self):
        self.cast("ada 1,2,3,4")
        self.done("undo --yes")
        self.refused("call --take-back", "have come")

    def test_not_taken_back_once_a_letter_waits(self):
        self.write("letter.eml", letter("stranger", "ada 1,2,3,4"))
        for words in ("add --yes letter.eml", "held 1 --set-aside"):
            self.done(words)
            self.refused("call --take-back", "have come")


class Letters(CallTest):
    """What letters to electors are told by the call: a name to come from, own marks, and a text of the secretary."""

    def announced(self, key: str) -> object:
        """What the last call that says it says of this."""
        found = [act.detail[key] for act in self.book.acts() if act.detail.get(key) is not None]
        return found[-1] if found else None

    def letter_texts(self) -> list[bytes]:
        query = "SELECT data FROM sealed WHERE name = ? ORDER BY act"
        return [data for data, in self.rows(query, LETTER_TEXT)]

    def test_a_name_of_the_address_is_kept_and_not_sealed(self):
        # the name alone may change, and may be taken away
        for to, name in {
            "Wahlleitung TSV <{}>": "Wahlleitung TSV",
            '"Vereinsb\u00fcro, TSV" <{}>': "Vereinsb\u00fcro, TSV",
            "{}": "",
        }.items():
            self.done("call", "--to", to.format("vote@club.example"))
            self.assertEqual(
                (self.announced("to"), self.announced("to_name")), ("vote@club.example", name)
            )
            self.assertEqual(read_plain(self.read("call/poll.toml")).address, "vote@club.example")
            self.assertIn("mailto:vote@club.example", self.texts())
            self.assertFalse(name and name in self.texts())
        self.refused(
            "call --to 'TSV <other@club.example>'", "--to: the call has sealed the address"
        )

    def test_a_name_in_a_wrong_form(self):
        address = "--to: it must be one mail address"
        tried = dict.fromkeys(
            ["TSV <vote>", "TSV <vote@club.example", "TSV vote@club.example", "<>"], address
        )
        for name in ("a\nb", "a\u2028b", "x" * 101, 'a "b" c', "a <b@c.de>", "a\u202eb"):
            tried[f"{name} <vote@club.example>"] = "--to: the name has"
        for text, said in tried.items():
            ended = self.election("call", "--to", text)
            self.assert_fault(ended, 2, said, "nothing was changed")
        self.assertIsNone(self.announced("to"))

    def test_own_marks_stay_until_the_call_is_taken_back(self):
        self.done(f"call {UNTIL}")
        first = self.marks()
        self.assertRegex(" ".join(first.values()), "^([2-9a-hj-km-np-z]{10} ?){9}$")
        self.assertEqual(len({*first.values()}), 9)
        self.done(f"call {LATER}")
        self.assertEqual(self.marks(), first)
        self.done("call --take-back")
        self.assertEqual(set(self.marks().values()), {""})
        self.done(f"call {UNTIL}")
        before = self.marks()
        self.assertFalse({*before.values()} & {*first.values()})
        # a new address makes a new one, a key does not
        self.write("members.csv", KEYS.replace("ada@club", "ada@new"))
        self.done("roll --yes")
        after = self.marks()
        self.assertEqual([name for name in before if before[name] != after[name]], ["ada"])
        self.assertRegex(after["ada"], "^[2-9a-z]{10}$")

    def test_the_text_is_sealed_by_each_call(self):
        self.write("letter.txt", "x" * 78 + "\n" + "y" * 79 + "\n")
        why = "have more than 78 characters, so mail programs may break them: 2\n"
        self.tells("check", f"Note: these lines of letter.txt {why}")
        self.write("letter.txt", "\ufeffDear members,\r\npaper ballots go to the office.\r\n\r\n")
        shown = "Letters to electors begin with letter.txt:\n  Dear members,\n  paper ballots go to the office.\n"
        self.tells("check", shown)
        # what `check` shows is not shown again
        self.assertNotIn(shown, self.told(f"call {UNTIL}"))
        texts, acts = [b"Dear members,\npaper ballots go to the office.\n"], self.last_act()
        self.done("call")
        self.assertEqual((self.letter_texts(), self.last_act()), (texts, acts))
        # the text alone is an act, too
        for text, words in (
            (b"Hello,\n", LATER),
            (b"Hello again,\n", ""),
            (b"", "--until '2026-12-06 18:00'"),
        ):
            self.write("letter.txt", text)
            if not text:
                (self.folder / "letter.txt").unlink()
            self.done(f"call {words}")
            texts.append(text)
            self.assertEqual(self.letter_texts(), texts)
        self.done("close --early")
        self.write("letter.txt", "Too late\n")
        self.done("call")
        self.assertEqual(self.letter_texts(), texts)

    def test_a_text_that_is_none(self):
        file, no_text = self.folder / "letter.txt", "letter.txt:1: it is not in UTF-8"
        for data, part in {
            "Gr\u00fc\u00dfe".encode("latin-1"): f"{no_text}; save it as plain text in UTF-8",
            b"x" * 4_097: "letter.txt: it is longer than 4096 bytes; shorten it",
            b"a\nb\x1b[31m": "letter.txt:2: it has the character U+001B",
            "a\u202eb".encode(): "letter.txt:1: it has the character U+202E",
            b" \n": "letter.txt: it is empty; write it, or remove the file",
        }.items():
            file.write_bytes(data)
            for command in ("check", "call"):
                self.refused(command, part, "then run debvote-election check", status=2)
        file.unlink()
        os.mkfifo(file)
        said = "letter.txt: it is no plain file; put a readable file there, or remove it"
        for words in ("check", f"call {LATER}"):
            self.refused(words, said, status=2)
        file.unlink()
        file.write_bytes(b"x" * 4_096)
        self.done(f"call {UNTIL}")
        file.write_bytes(b"\xff")
        self.refused(f"call {LATER}", no_text, status=2)


class Secret(CallTest):
    poll = elections.POLL + "secret = true\n"

    def called(self) -> list[list[str]]:
        """Calls the vote, and returns the table of codes."""
        self.done("codes")
        self.done(f"call {UNTIL} --to vote@club.example")
        return self.table()

    def table(self) -> list[list[str]]:
        """The rows of the table of codes: name, who, address, code, alias, and mark if it is called."""
        lines = self.read("private/codes.csv").decode().splitlines()
        return [line.split(",") for line in lines[1:]]

    def test_each_elector_has_a_code_of_their_own(self):
        self.refused("call", "electors have no codes", "debvote-election codes")
        table = self.called()
        self.assertEqual(
            [(row[0], row[2]) for row in table],
            [(name, f"{name}@club.example") for name in elections.NAMES],
        )
        codes, aliases = [row[3] for row in table], [row[4] for row in table]
        self.assertEqual(aliases, list(map(alias_of, codes, elections.NAMES)))
        self.assertEqual(
            (len({*codes}), list(read_plain(self.read("call/poll.toml")).roll)),
            (9, sorted(aliases)),
        )
        slips = [
            re.sub(r"<[^>]*>|\s", "", slip)
            for slip in self.read("private/slips.html").decode().split('class="slip')[1:]
        ]
        public = self.texts(*(f"call/{name}" for name in self.files("call")))
        for name, _, _, code, *_ in table:
            self.assertEqual([name in slip for slip in slips if code in slip], [True])
            self.assertNotRegex(public, rf"{code}|\b{name}\b")
        # slips tell the end as it is, and the page
        page = "https://club.example/vote/"
        for words, said in (("--until '2026-12-06 18:00'", SECOND), (f"--at {page}", page)):
            self.done(f"call {words}")
            self.assertIn(said, self.texts("private/slips.html"))

    def test_codes_stay_and_new_electors_get_theirs(self):
        """Only the secretary may read them, whatever modes the files have got."""
        self.done("codes")
        private = self.folder / "private"
        private.chmod(0o755)
        (private / "codes.csv").chmod(0o644)
        self.done("codes")
        modes = [file.stat().st_mode & 0o777 for file in (private, *private.iterdir())]
        self.assertEqual(modes, [0o700, 0o600, 0o600])
        before = self.table()
        self.write("members.csv", f"{MEMBERS}Jan,jan@club.example\n")
        self.refused("codes", "roll")
        self.done("roll")
        self.refused("call", "electors have no codes")
        self.tells("codes", "Made 1 code.")
        self.assertEqual(self.table()[:-1], before)

    def test_the_table_has_the_own_marks_of_the_call(self):
        """Each whole, for the subject of who answers; a new address makes a new one, and table and slips anew."""
        self.done("codes")
        self.assertEqual({row[5] for row in self.table()}, {""})
        before = [row[5] for row in self.called()]
        poll = hashlib.sha256(self.read("call/poll.toml")).hexdigest()[:16]
        self.assertEqual(before, [f"[{poll}-{own}]" for own in self.marks().values()])
        self.write("members.csv", MEMBERS.replace("ada@", "ada@new."))
        self.tells(
            "roll --yes",
            "\nMade slips.html and codes.csv in private anew: a new address has a new mark.\n",
        )
        after = [row[5] for row in self.table()]
        self.assertEqual((after[1:], after[0] == before[0]), (before[1:], False))
        self.assertIn(after[0], self.texts("private/slips.html"))

    @pytest.mark.whole
    def test_what_a_killed_run_left_is_taken_away(self):
        self.done("codes")
        for words in ("codes", f"call {UNTIL}", "call --take-back"):
            for file in (self.folder / "private").iterdir():
                file.unlink()
            self.traced(*KILLED, words=["codes"])
            [left] = self.files("private")
            self.assertTrue(left.startswith(".debvote-"))
            self.done(words)
            names = [] if "--take-back" in words else ["codes.csv", "slips.html"]
            self.assertEqual(self.files("private"), names)

    @pytest.mark.whole
    def test_codes_that_are_void_are_taken_away(self):
        """Also if the run that took the call back was killed after its act, and the next codes are on the roll."""
        for words, names in (("call --take-back", []), ("codes --on-roll", ["slips.html"])):
            self.called()
            self.traced("-e", "inject=unlink:signal=KILL:when=2", words=["call --take-back"])
            self.election(words)
            self.assertEqual(self.files("private"), names)

    def test_a_code_stays_with_its_person(self):
        """Also if the name is written in another way; whoever gets the name on the roll after them gets another code."""

        def codes(ada: str = "Ada,ada@club.example") -> list[list[str]]:
            others = "".join(
                f",{name.title()},{name}@club.example\n" for name in elections.NAMES[1:]
            )
            self.write("members.csv", f"name,who,mail\nada,{ada}\n{others}")
            self.done("roll")
            self.done("codes")
            return [row[3:] for row in self.table()]

        before = codes()
        self.assertEqual(codes("ADA,ada@club.example"), before)
        after = codes("Zed,zed@club.example")
        self.assertEqual(after[1:], before[1:])
        self.assertFalse({*after[0][:2]} & {*before[0][:2]})

    def test_no_code_is_in_the_text_of_the_letters(self):
        self.done("codes")
        for words in (f"call {UNTIL}", "call"):
            self.write("letter.txt", f"Your code is {self.table()[0][3]}\n")
            self.refused(words, "letter.txt would have the code of an elector in it")
            self.write("letter.txt", "Hello\n")
            self.done(f"{words} --yes")

    def test_codes_on_the_roll(self):
        self.done("codes --on-roll")
        for status in (self.told("status"), self.told("status --json")):
            self.assertNotRegex(status.rpartition("digest")[0], r"[2-9a-hjkmnp-z]{10}")
        self.assertEqual(self.files("private"), ["slips.html"])
        self.refused("roll", "codes are on the roll")
        self.tells("codes", "Made 0 codes.")
        called = self.tells(
            f"call {UNTIL}",
            "no poll.toml.\nPrint private/slips.html, cut the slips out, and let each elector draw one.\n",
        )
        self.assertEqual(self.files("call"), ["SHA256SUMS", "call.txt", "index.html"])
        out = self.scratch / "out"
        said = self.told("export", out) + (out / "poll.toml").read_text()
        codes = set(re.findall(r"\b[2-9a-hjkmnp-z]{10}\b", said))
        self.assertEqual(len(codes), 9)
        public = (called, self.texts(), *map(self.told, ("status", "status --json", "log")))
        self.assertFalse(codes & set(re.findall(r"[2-9a-hjkmnp-z]{10}", " ".join(public))))
        # nobody knows to whom one would go
        self.assertNotIn("receipt", self.texts())
        self.assertIsNone(self.numbers()["without_ballot"])
        # they lapse with the call
        self.tells(
            "call --take-back",
            "\nPut right what was wrong.\nNext: write the members into",
            "then run: debvote-election roll\n",
        )
        self.assertEqual(self.files("private"), [])
        self.refused("codes --on-roll", "debvote-election roll")
        self.write("members.csv", f"{MEMBERS}Jan,jan@club.example\n")
        self.done("roll")
        self.done("codes --on-roll")
        self.done(f"call {UNTIL}")
        after = set(re.findall(r"\b([2-9a-hjkmnp-z]{10}) _", self.texts("private/slips.html")))
        self.assertEqual((len(after), codes & after), (10, set()))
        # nobody can be written to, and all have the call
        said = "\nNext: send letters/extension.txt to all electors, then debvote-election status --done letters\n"
        self.tells("call --until '2099-12-04 12:00'", said)
        self.assertIn("is void", self.texts())

    def published_codes(self) -> set[str]:
        return set(re.findall(r"\b[0-9a-f]{32}\b", self.texts("call/poll.toml")))

    def test_codes_lapse_with_the_call(self):
        """Two published rolls tell nothing about an elector who was added in between."""
        self.called()
        slip, aliases = self.texts("private/slips.html"), self.published_codes()
        subject = rf"<b>\[{read_plain(self.read('call/poll.toml')).checksum[:16]}-(\w{{10}})\]</b>"
        self.assertEqual(re.findall(subject, slip), [*self.marks().values()])
        self.assertNotIn(" is void", slip + self.texts())
        said = r"All 9 codes are void(?s:.*)\nPut right what was wrong.\nNext: debvote-election check\n"
        self.assertRegex(self.told("call --take-back"), said)
        said = "\nNext: debvote-election check\nThen: the vote is secret, and electors have no codes yet: debvote-election codes\nThen: "
        self.tells("status", said)
        self.assertEqual(self.files("private"), [])
        self.write("members.csv", f"{MEMBERS}Jan,jan@club.example\n")
        self.done("roll")
        self.refused("call", "electors have no codes")
        self.assertEqual((len(self.called()), self.published_codes() & aliases), (10, set()))
        self.done("letters call")
        files = (self.folder / "letters" / "call").rglob("*.eml")
        texts = [text_in(file.read_bytes()) for file in files]
        said = "each code that was given out with it is void. Only your new code is valid."
        for text in (*texts, self.texts("call/index.html")):
            self.assertIn(said, text)
        slips = self.texts("private/slips.html").count("An earlier slip is void.")
        self.assertEqual((len(texts), slips), (10, 10))
        # where the next vote is open, nobody has a new code
        self.done("call --take-back")
        self.write("poll.toml", elections.POLL)
        self.done(f"call {UNTIL}")
        self.assertIn("with it is void.", self.texts())
        self.assertNotIn("new code", self.texts())

    def test_not_a_secret_vote(self):
        self.write("poll.toml", elections.POLL)
        self.refused("codes", "the vote is not secret", "secret = true")
        self.done(f"call {UNTIL}")
        self.refused("codes", "the vote is not secret", "debvote-election status")
        self.assertFalse((self.folder / "private").exists())
        self.done("call --take-back")
        self.write("poll.toml", self.poll)
        self.done("codes")
        too_late = "--on-roll", "electors have names with codes already"
        self.refused("codes --on-roll", *too_late)
        self.tells(
            "codes",
            "The slips: private/slips.html. Print them after the call, which adds the end of the vote and the address for ballots.\n",
        )
        self.refused("call --names", "--names", "secret", status=2)
        # after the call, too; to call again would only make the vote longer
        self.done(f"call {UNTIL}")
        self.refused("codes --on-roll", *too_late)
        following = "\nNext: letters with the codes: debvote-election letters call; or hand out the slips, and send call/call.txt to all, then debvote-election status --done letters\n"
        said = self.told("codes")
        self.assertTrue(said.startswith("The slips: private/slips.html. Print them.\n"), said)
        self.assertTrue(said.endswith(following), said)
        self.done("close --early --yes")
        for command in ("codes", "call"):
            self.assertIn("\nNext: 9 letters of the close are not sent: ", self.told(command))
