"""`add`: what is told, what is in the book, and that nothing is lost."""

import os
import re
import resource
import shutil
import subprocess
import sys
from unittest import mock

from debvote_tools.files import LINES_LIMIT
from debvote_tools.inbox import entering

from tests.support import elections
from tests.support.election_books import HALL, LAKE, CalledTest
from tests.support.letters import OTHER_RANKS, RANKS, rows

RIGHT = (
    "A ballot line of this poll: `ada 2,3,4,1`: the ranks of 1 At the lake, 2 In the town hall, 3 Sell the house and meet there, "
    "4 Further discussion; 1 is the best"
)
NEXT = "Next: 2 receipts are not written: debvote-election letters receipts --send --server HOST"

# how many lines an election takes in this test; fewer than debvote takes are quick
MOST_LINES = int(os.environ.get("DEBVOTE_MOST_LINES", LINES_LIMIT))


class Added(CalledTest):
    def test_envelope_reply_and_words(self):
        self.write("more.txt", "ada 1,2,4,3\nben 2,1,4,3\nada 2,1,4,3\n")
        replies = f"1 counted  ada: {LAKE}\n2 counted  ben: {HALL}\n3 replaced  ada: {HALL}\n"
        told = f"{replies}Added 3 lines (2 counted, 1 replaced).\n{NEXT}\n"
        self.assertEqual(self.told("add more.txt"), told)
        self.assertEqual(self.sources(), [("more.txt", self.read("more.txt"))])
        detail = {"files": ["more.txt"], "lines": 3, "passed_over": 0}
        self.assertEqual(self.acts(), [("add", detail)])
        [act] = self.book.acts()[self.first_act - 1 :]
        envelopes = self.envelopes()
        self.assertEqual(
            [(one.elector, one.place) for one in envelopes],
            [
                (self.elector(name), f":{line}")
                for line, name in ((1, "ada"), (2, "ben"), (3, "ada"))
            ],
        )
        found = {(one.act, one.source, one.time, one.is_late) for one in envelopes}
        self.assertEqual(found, {(act.number, 1, act.time, False)})

    def test_several_files_standard_input_and_another_folder(self):
        given = "ada 1,2,4,3\n", "cleo 1,2,4,3\n", "ben 1,2,4,3"
        self.write("a", given[0])
        self.write("b", given[2])
        self.told("add a - b", given=given[1])
        self.assertEqual(self.lines(), "".join(given).splitlines())
        names = "a", "standard input", "b"
        self.assertEqual(self.sources(), [*zip(names, map(str.encode, given))])
        self.assertEqual([envelope.source for envelope in self.envelopes()], [1, 2, 3])
        self.assertEqual([name for name, _ in self.acts()], ["add"])
        (self.scratch / "more").write_text("dan 1,2,4,3\n")
        said = (
            "4 counted  dan: ",
            "Next: 4 receipts are not written: debvote-election letters --folder election receipts --send",
        )
        self.tells("--folder election add more", *said, cwd=self.scratch)

    def test_the_number_the_elector_and_the_words_of_a_line(self):
        words = "At the lake and In the town hall equally, then Further discussion; not ranked, and so behind all others: Sell the house"
        said = (
            f"1 counted  ada: {words} and meet there\n",
            "2 counted  ben: no option is ranked, so nothing is preferred\n",
        )
        for look in ("--look", ""):
            self.adds("ada 1,1,-,2\nben -,-,-,-\n", *said, words=look)
        # the number is the envelope's, and never the place
        self.told("strike 1 --because 'a test'")
        self.told("undo")
        self.adds("\nada 2,1,4,3\n", f"\n3 counted  ada: {HALL}\n")
        self.assert_lines("ada 2,1,4,3")
        # the elector is the one with whose name the entered line begins, whatever debvote says of
        # the line
        lines = "ada 1,2", "ben", "cleo,1,2,3,4", "Dan x", "adam 1,2,3,4", " eve 1,2", "x"
        self.adds("\n".join(lines), words="--force")
        found = [envelope.elector for envelope in self.envelopes()[3:]]
        self.assertEqual(found, [*map(self.elector, ("ada", "ben", "cleo")), *[None] * 4])
        # a refused line is not there to be replaced
        self.assertIn(" counted  cleo: ", self.cast(f"cleo {RANKS}"))

    def test_names_of_files(self):
        names = ("ä" * 127, "x" * 255, "-n", "a b\nc")
        for number, name in enumerate(names, start=5):
            self.write(name, f"ada 1,2,4,{number}\n")
            self.told("add", "--", name)
        odd = self.write("odd", "ada 1,2,4,3\n")
        os.rename(os.fsencode(odd), os.fsencode(self.folder) + b"/\xff")
        words = [sys.executable, str(elections.ELECTION), "add", b"\xff"]
        ended = subprocess.run(
            words, cwd=self.folder, env=elections.environment(), capture_output=True
        )
        self.assertEqual((ended.returncode, ended.stderr), (0, b""))
        self.assertEqual([name for name, _ in self.sources()], [*names, "\\xff"])
        self.assertEqual(self.acts()[-1][1]["files"], ["\\xff"])

    def test_each_change_is_told(self):
        came = b"\xef\xbb\xbfada 1,2,4,3\r\n Ben\t 2, 1 ,4,3 \r\n\r\ncleo 1,2,4,3\rdan  1,2,4,3"
        told = re.findall("(?m)^standard input:(.*)", self.adds(came))
        wanted = [
            " its lines end as Windows ends them",
            "3: it is empty, and was left out",
            "2: ` Ben\\t 2, 1 ,4,3 ` was changed to `ben 2,1,4,3`",
            "5: `dan  1,2,4,3` was changed to `dan 1,2,4,3`",
        ]
        self.assertEqual(told, wanted)
        self.assert_lines("ada 1,2,4,3", "ben 2,1,4,3", "cleo 1,2,4,3", "dan 1,2,4,3")
        self.assertEqual(self.sources(), [("standard input", came)])
        # line ends of Windows are told once a file, and a byte-order mark is no change of a line
        self.write("monday", "ada 4,1,2,3\r\nben 4,1,2,3\r\ncleo 4,1,2,3\r\n")
        self.write("tuesday", "\ufeffdan 2,1,4,3\r\neve 1,2,4,3\n")
        ends = "its lines end as Windows ends them\n"
        output = self.told("add monday tuesday")
        self.assertRegex(output, rf"\Amonday: {ends}tuesday: {ends}5 replaced  ada: ")
        self.assertNotIn("was changed to", output)

    def test_a_refused_line_goes_in_as_it_came(self):
        has_name = "a ballot has the name there: a to z, 0 to 9, . or -\n  it goes in as it came; written as"
        self.adds(
            b"\xef\xbb\xbf Cleo 1,2,3 \r\nDan  1,2,4,3\r\nGsu 1,2,4,3\n",
            f"1 bad shape   Cleo 1,2,3 : column 1: space; {has_name} `cleo 1,2,3` it is refused too: bad rank count: 3 ranks, the poll has 4 options\n",
            f'3 bad shape  Gsu 1,2,4,3: column 1: "G"; {has_name} `gsu 1,2,4,3` it is refused too: bad not on roll: gsu is not on the roll\n',
            f"{RIGHT}\nAdded 3 lines (2 bad shape, 1 counted).\n",
            words="--force",
        )
        self.assert_lines(" Cleo 1,2,3 ", "dan 1,2,4,3", "Gsu 1,2,4,3")

    def test_lines_of_a_word_processor_bytes_and_hints(self):
        came = "ben\u00a01,2,4,3\n“ada” 1,2,4,3\ncleo 1,2,–,3\nA>B>C\ndan 1.\n1,2,3,4\n"
        output = self.adds(
            came,
            "2 bad shape  “ada” 1,2,4,3: column 1: left curly quote; a ballot has the name there: a to z, 0 to 9, . or -\n",
            "standard input:1: `ben\\u00A01,2,4,3` was changed to `ben 1,2,4,3`\n1 counted  ben: ",
            "standard input:3: `cleo 1,2,–,3` was changed to `cleo 1,2,-,3`\n3 counted  cleo: ",
            '5 bad shape  dan 1.: column 6: "."; a ballot has a comma or its end there, or a second digit of the rank\n'
            "  it goes in as it came; written as `dan 1` it is refused too: bad rank count: 1 rank, the poll has 4 options\n",
            '6 bad shape  1,2,3,4: column 2: ","; a ballot has a space there, or more of the name: a to z, 0 to 9, . or -\n',
            words="--force",
        )
        self.assertEqual(output.count(RIGHT), 1)
        self.assertEqual(self.lines(), came.replace("\u00a0", " ").replace("–", "-").splitlines())
        # bytes that are no text
        came = b"ad\xff 1,2\x1b[2J\n\x00\n"
        said = "7 bad shape  ad\\xff 1,2\\u001B[2J: column 3: byte 0xFF\n"
        self.assertNotIn("\x1b", self.adds(came, said, words="--force"))
        self.assertEqual([envelope.line for envelope in self.envelopes()[6:]], came.splitlines())
        # hints do not run out, and are not hidden by the close
        self.adds("nobodynear 1,2,3,4\n" * 150, words="--force")
        self.close_book(158)
        said = "159 late  gsu 1,2,3,4: bad not on roll: gsu is not on the roll\n"
        self.adds("gsu 1,2,3,4\n", said)

    def test_what_is_no_file_of_ballots(self):
        letters = "it has letters, and the other files have none; nothing was added: "
        poll = "it looks like a poll, not like ballots; nothing was added: "
        self.write("good", "ada 1,2,4,3\n")
        for name, data, status, words in (
            ("word.docx", b"PK\x03\x04rest", 4, "it is a ZIP, as word processors and spreadsheets"),
            ("old.doc", b"\xd0\xcf\x11\xe0x", 4, "it is a document of a word processor or "),
            ("rich.rtf", b"{\\rtf1 ada 1,2,4,3}", 4, "it is a document with formats (RTF); "),
            ("print.pdf", b"%PDF-1.7\n", 4, "it is a PDF; "),
            (
                "wide",
                "ada 1,2,4,3\n".encode("utf-16"),
                4,
                "it is a text in UTF-16; nothing was added",
            ),
            ("empty.txt", b"", 9, "it is empty; nothing was added: write one ballot on each line"),
            ("blank.txt", b"\n \r\n\t\n", 9, "it has only empty lines; nothing was added: "),
            ("other.toml", elections.POLL.encode(), 9, poll),
            ("broken.toml", b'title = "x\noptions = [', 9, poll),
            ("letter.eml", b"From: ada@club.example\nSubject: x\n\nada 1,2,4,3\n", 2, letters),
            ("inbox", b"From ada Mon Nov 2 10:00:00 2026\nFrom: a@b\nDate: x\n\nx\n", 2, letters),
        ):
            with self.subTest(name):
                self.write(name, data)
                # all files or none
                self.assert_refused(f"add good {name}", status, f"{name}: {words}")
        # all files that are none are named at once
        ended = self.election("add print.pdf nowhere empty.txt")
        named = re.findall("(?m)^.*?: (.*?):", ended.faults)
        self.assertEqual((ended.status, named), (4, ["print.pdf", "nowhere", "empty.txt"]))
        said = "election.db: it is the book of this election; nothing was added: "
        self.assert_refused("add election.db", 4, said)
        said = "nowhere: No such file or directory; nothing was added: "
        self.assert_refused("add nowhere", 4, said)
        self.assert_refused("add", 9, "standard input: it is empty; ", given="")
        closed = "sh", "-c", 'exec "$0" "$1" add <&-', sys.executable, elections.ELECTION
        said = "standard input: it is closed; nothing was added: "
        self.assert_fault(self.run_program(*closed), 4, said)
        with open(self.folder / "long", "wb") as file:
            file.truncate(33_554_433)
        said = "long: it is longer than 33554432 bytes, "
        self.assert_refused("add long", 4, said, "add it in parts")
        self.assertEqual((self.acts(), self.sources()), ([], []))

    def test_in_a_signed_vote_a_line_needs_force_and_a_reason(self):
        self.act("announce", {"signed": True}, {"keyring": b"keys"})
        self.write("more", f"ada {RANKS}\n")
        said = "more: in this vote letters must be signed, and nothing shows who sent a line of a file; nothing was added: "
        reason = "--because 'they brought it'"
        for words in ("", "--force", reason, "--force --because ' '"):
            self.assert_refused(f"add {words} more", 9, said, "--force --because TEXT")
        self.tells(f"add --force {reason} more", "1 counted  ada: ")
        detail = self.last("add")
        self.assertEqual((detail["unsigned"], detail["because"]), (True, "they brought it"))
        # with all else at once
        self.write("wrong", "ada x,2,3,4\nben x,2,3,4\n")
        ended = self.election("add wrong")
        said = r"\A.*letters must be signed.*\n.*debvote takes none of the 2 lines.*\n\Z"
        self.assertRegex(ended.faults, said)
        self.assertEqual(ended.status, 9)

    def test_more_lines_than_debvote_takes(self):
        self.enterContext(mock.patch.object(entering, "LINES_LIMIT", MOST_LINES))
        numbers = range(MOST_LINES)
        lines = [f"ada {number // 99 % 99 + 1},{number % 99 + 1},1,2" for number in numbers]
        told = re.findall(r"(?m)^\d+", self.adds("\n".join(lines)))
        self.assertEqual([*map(int, told)], [*range(1, MOST_LINES + 1)])
        self.assert_lines(*lines)
        said = f"with the new lines there would be {MOST_LINES + 1} lines and "
        limits = f"; nothing was added: debvote takes at most {MOST_LINES} lines and 33554432 bytes: add fewer"
        self.assert_refused("add", 4, said, limits, given=f"cleo {RANKS}\n")
        # what is struck takes no room, and what is late neither
        self.told("strike 1 --because 'a test'")
        self.adds(f"cleo {RANKS}\n", f"{MOST_LINES + 1} counted  cleo: ")
        self.close_book(MOST_LINES)
        self.adds(f"dan {RANKS}\n", f"{MOST_LINES + 2} late  dan: ")


class StopsTest(CalledTest):
    def stops(self, data: str, *parts: str):
        """A file is not added, and `--look` says so, too."""
        self.write("wrong", data)
        for look in ("", "--look "):
            self.assert_refused(f"add {look}wrong", 9, *parts)


class OneNameOfTwo(StopsTest):
    """Max has another name on the roll, since Maximilian has his."""

    members = "who,name,mail\nMaximilian Mayer,max,\nMax,,m@club.example\nKim,kim,\n"

    def test_as_it_came_it_is_that_on_the_roll_and_else_of_both(self):
        unclear = "it has the name of max and max-2"
        stops = f"wrong:2: {unclear}; nothing was added: "
        for line in (f"Max {RANKS}", f"MAX: {RANKS}", f"M\u00e1x {RANKS}", f"*Max* {RANKS}"):
            self.stops(f"kim {RANKS}\n{line}\n", stops, "name on the roll of the one who is meant")
            self.assertIn(f"desk:1: {unclear}; it was not entered.", self.cast(line))
        # by force it goes in as it came
        self.adds(f"Max {RANKS}\n", f"1 bad shape  Max {RANKS}: ", words="--force")
        self.adds(f'KIM {RANKS}\n"max: {RANKS}"\n  max-2 {RANKS}\nMAXIMILIAN Mayer {OTHER_RANKS}\n')
        lines = [f"kim {RANKS}", f"max {RANKS}", f"max-2 {RANKS}", f"max {OTHER_RANKS}"]
        self.assertEqual(self.lines()[1:], lines)


class AfterTheEnd(CalledTest):
    call_words = ("--until", "2099-12-04 18:00+01:00")

    def test_before_the_close_after_it_and_after_reopen(self):
        self.write("bag", "cleo 1,2,4,3\n")
        in_time, said = (
            "--came-before-close yes",
            "--came-before-close: the vote was never closed; ",
        )
        self.assert_refused(f"add {in_time} bag", 2, f"{said}nothing was added: ")
        self.assertNotIn("Note", self.adds("ada 1,2,4,3\n"))
        # the book itself is told a later end; before the close it counts
        self.act("extend", {"until": "2020-12-04T18:00:00+01:00"})
        passed = "Note: the announced end of the vote, Friday, 4 December 2020, 18:00 (UTC+01:00), has passed; what is added still counts "
        self.adds("ben 1,2,4,3\n", passed, "2 counted  ben: ")
        # after the close it is late
        self.close_book(2)
        hint = "a ballot has a rank there: a number from 1 to 99, or a hyphen for an option that is not ranked, and so last"
        output = self.adds(
            "ada 2,1,4,3\nben x\n",
            f"3 late  ada: {HALL}\n",
            f'4 late  ben x: bad shape: column 5: "x"; {hint}\n',
            "2 lines came after the close, and late lines do not count.\nAdded 2 lines (2 late).\nNext: 2 receipts are not written: ",
        )
        self.assertEqual(self.next_told(), "Next: debvote-election count\n")
        self.assertRegex(
            output,
            r"^Note: the vote was closed at \d{4}-\d\d-\d\d \d\d:\d\d:\d\d UTC\+01:00; what is added now is late\.\n",
        )
        # what came before the close is late all the same, until it is opened again
        self.tells(f"desk {in_time}", "This desk has entered 0 lines", given="")
        # after reopen the answer is asked for and kept
        self.act("reopen", {"because": "a bag was forgotten"})
        said = " and opened again, and only what came before counts; nothing was {}: say whether this came before that close: ".format
        closed = "--came-before-close: the vote was closed at "
        self.assert_refused("add bag", 9, closed, said("added"))
        self.assert_refused("desk", 9, closed, said("entered"), given=f"eve {RANKS}\n")
        self.tells(f"add {in_time} bag", "5 counted  cleo: ")
        self.adds("dan 1,2,4,3\n", "6 late  dan: ", words="--came-before-close no")
        self.assert_lines("ada 1,2,4,3", "ben 1,2,4,3", "cleo 1,2,4,3")
        self.assertEqual(self.late_lines(), ["ada 2,1,4,3", "ben x", "dan 1,2,4,3"])
        answers = [detail.get("came_before_close") for name, detail in self.acts() if name == "add"]
        self.assertEqual(answers, [None, None, None, True, False])
        # a late line is not there to be replaced
        self.tells(f"desk {in_time}", "7 counted  dan: ", given="dan 2,1,4,3\n")
        # the announced end is of no matter any more
        for command in ("add", "desk"):
            for answer in ("yes", "no"):
                typed = f"{command} --came-before-close {answer}"
                output = self.told(typed, given="eve 1,2,4,3\neve 2,1,4,3\n")
                self.assertNotIn("Note", output)
                self.assertEqual(" late  eve: " in output, typed == "desk --came-before-close no")


class NoBallots(StopsTest):
    def test_by_what_it_looks_like(self):
        """It stops; `--force` adds each line."""
        table = "look at the file (wrong:1: When"
        for data, said in (
            (
                '\ufeff"Name";who;mail\r\nada;Ada;ada@club.example\r\n',
                "it looks like the list of members: name ",
            ),
            *((f"When{sign}Your name{sign}a\nMonday{sign}ada{sign}1\n", table) for sign in ",;\t"),
            ("Dear all,\nwe meet on Monday\n", "look at the file (wrong:1: Dear all,: bad shape: "),
            (
                "ada 1,2\nben 2,1\n",
                "look at the file (wrong:1: ada 1,2: bad rank count: 2 ranks, the poll has 4 options), and write each line as a name and its ranks in the order of the options",
            ),
        ):
            none = "none of the 2 lines as ballots; nothing was added: "
            self.stops(data, none, said, ", or add it anyway with --force")
            self.tells("add --force wrong", "Added 2 lines (2 bad ")
            self.assertEqual(len(self.lines()), 2)
            self.told("undo")

    def test_all_that_stands_against_it_is_said_at_once(self):
        self.write("good", "ada 1,2,4,3\n")
        self.write("wrong", "x\ny\n")
        self.write("letter", "ben 1,2,4,3\n" + "y" * 501 + "\n")
        ended = self.election("add good wrong letter")
        self.assertRegex(
            ended.faults,
            r"\A.*letter:2: the line has 501 bytes, and a ballot has a few dozen; nothing was added: .*\n"
            r".*wrong: debvote takes none of the 2 lines as ballots; nothing was added: .*\n\Z",
        )
        self.assertEqual((ended.status, self.acts()), (9, []))
        self.told("add --force good wrong letter")
        self.assertEqual(len(self.lines()), 5)

    def test_fewer_than_half_of_a_file_or_of_all(self):
        said = "wrong: debvote takes only 1 of the 3 lines as ballots; nothing was added: look at the file (wrong:1: Dear all,: bad shape: "
        self.write("good", "ada 1,2,4,3\nben 1,2,4,3\ncleo 1,2,4,3\n")
        self.write("one", "one\n")
        self.write("two", "two\n")
        self.stops("Dear all,\nada 1,2,4,3\nGreetings\n", said, "--force")
        self.assert_refused("add good wrong", 9, said)
        self.assert_refused("add one two", 9, "one: debvote takes none of the 2 lines ")
        self.told("add --force wrong")
        self.assert_lines("Dear all,", "ada 1,2,4,3", "Greetings")
        # half of them stop nothing, and one line alone does not; that --force was needless is not
        # told
        self.adds("ada 2,1,4,3\nx\n", "Added 2 lines (1 replaced, 1 bad shape).\n")
        self.adds("y\n\n", "6 bad shape  y: ")
        output = self.adds("ben 1,2,4,3\n", words="--force")
        self.assertEqual(output, f"7 counted  ben: {LAKE}\nAdded 1 line (1 counted).\n{NEXT}\n")
        detail = {"files": ["standard input"], "lines": 1, "passed_over": 0}
        self.assertEqual(self.last("add"), detail)


class OtherOrder(StopsTest):
    """Ranks that may be in another order than the options: without `--force` nothing is entered."""

    ROWS = "ada 1,2,4,3\nben 1,2,4,3\ncleo 2,1,4,3\n"

    def test_a_line_that_names_options_in_another_order(self):
        for line, head in (
            (1, "name in the TOWN hall, at the lake\n"),
            (1, "\ufeff# further discussion;sell the house and meet there\r\n"),
            (1, "\tFurther discussion\tAt  the lake\n"),
            (3, "ada 1,2,4,3\n\nDear all, In the town hall is better than At the lake.\n"),
        ):
            words = f"wrong: line {line} names options of the poll in another order than the poll has them: the ranks below it may stand in that order"
            cure = f"take line {line} out; if they do not, add it anyway"
            self.stops(head + self.ROWS, f"{words}; nothing was added: ", cure)
        self.told("add --force wrong")
        self.assertEqual(len(self.lines()), 5)
        # in the order of the poll
        self.told("undo")
        for head in (
            "name At the lake, Further discussion\n",
            "In the town hall, and once more In the town hall\n",
            # parts of other words
            "Further discussions are not At the lakeside\n",
            "Lake, hall\n",
        ):
            with self.subTest(head):
                said = "These would be 4 lines (1 bad shape, 3 counted)"
                self.adds(head + self.ROWS, said, words="--look")

    def test_what_looks_like_a_table(self):
        """By the head, whatever it says, or by the rows; nothing of it is repaired."""
        said = "wrong: the lines look like a table; its columns may stand in another order than the options; nothing was added: look at the file (wrong:"
        cure = "), and write each line as a name and its ranks in the order of the options, or add it anyway with --force"
        heads = rows(
            """
Name None,Sell,Repair,Dinghy
Name;At the lake;In the town hall;Sell the house and meet there;Further discussion
WHO\tA\tB\tC\tD
a b c d e
When;Who;A;B;C
Name|A|B|C|D
When/Who/Mail/Note/A/B/C/D
"""
        )
        for table in (
            *(f"{head}\n{self.ROWS}" for head in (*heads, "Name 4,1,2,3")),
            *(f"ada, {RANKS}\nben {RANKS}\n{head}\n{self.ROWS}" for head in heads),
            "ada,1,2,3,4\nben,1,2,3,4\n",
            "ada 1 2 3 4\nben 1 2 3 4\n",
            "ada;1;2\nben\t1\t2\n",
            '"ada","1","2","3","4"\n"ben","2","1","3","4"\n',
        ):
            self.write("wrong", table)
            self.assert_refused("add wrong", 9, said, cure)
        # the first that is refused is named, with the reason
        reason = "wrong:2: zoe 2,1,4,3: bad not on roll: zoe is not on the roll), and"
        self.stops(f"ada {RANKS}\nzoe 2,1,4,3\nName;A;B;C;D\n{self.ROWS}", said, reason)
        self.write("wrong", "Name;Lake;Hall;Sell;Further\nada 1;2;3;4\nben 2,1,3,4\n")
        self.tells("add --force wrong", "Added 3 lines (2 bad shape, 1 counted).\n")
        self.assert_lines("Name;Lake;Hall;Sell;Further", "ada 1;2;3;4", "ben 2,1,3,4")

    def test_a_wrong_name_or_a_sentence_on_the_first_line(self):
        """Neither makes a table of the ballots below it."""
        for first, said in (
            ("adda 2,1,4,3", "adda is not on the roll; did you mean ada?"),
            ("Ballots of the general meeting", "bad shape"),
        ):
            with self.subTest(first):
                self.adds(f"{first}\nben {RANKS}\ncleo {RANKS}\n", said, words="--look")

    def test_what_looks_like_none(self):
        """A refused ballot above others, a head without ranks below it, and notes of few words."""
        lines = f"Mrs Lovelace {RANKS}\nada {RANKS}\n# by phone, Monday\nben {RANKS}\ncleo {RANKS}\nName;A;B;C;D\n"
        self.adds(lines, "Added 6 lines (3 bad shape, 3 counted).")

    def test_lines_of_a_table_and_semicolons_between_ranks(self):
        """Few are ballots if it has other signs, or words; only blanks at commas are repaired."""
        for table in ("ada|1|2|3|4\nben|1|2|3|4\n", "ada;1;2;3;4\nben;1;2;3;x\n", "ada 1\nben 2\n"):
            self.stops(table, "wrong: debvote takes none of the 2 lines as ballots")
        self.adds("ada 1,2,4,3\nben 1; 2 ;4; 3\ncleo 1, 2, 4, 3\ndan 1;2,4;3\n")
        self.assert_lines("ada 1,2,4,3", "ben 1; 2 ;4; 3", "cleo 1,2,4,3", "dan 1;2,4;3")


class RealNames(StopsTest):
    """A name counts as the one on the roll if it is that of one elector alone, on the roll or
    really.
    """

    members = "who,name,mail\nAda Lovelace,ada,\nBen Müller,ben-1,\nBen Muller,ben-2,\n"
    members += "Cleo,cleo-blum,\nCleo Blum,dan,\n"

    def test_that_of_one_elector(self):
        self.adds(
            f"Ada Lovelace {RANKS}\nLovelace {RANKS}\n",
            f"1: `Ada Lovelace {RANKS}` was changed to `ada {RANKS}`\n1 counted  ada: {LAKE}\n",
        )
        # a real name above a name on the roll is no head of a table
        self.adds(f"Cleo {RANKS}\nada {RANKS}\nben-1 {RANKS}\n", words="--look")
        self.cast("ada lovelace: 1, 2, 4, 3.", "ADA-LOVELACE 2,1,4,3", f"Cleo {RANKS}")
        lines = [f"ada {RANKS}", f"ada {OTHER_RANKS}", f"cleo-blum {RANKS}"]
        self.assert_lines(lines[0], f"Lovelace {RANKS}", *lines)
        # the line as it came is refused for its name, and what it means for another reason
        self.tells(
            "desk",
            "6 bad shape  Ada Lovelace 1,2: column 1: ",
            "written as `ada 1,2` it is refused too: bad rank count: 2 ranks, the poll has 4 options\n",
            given="Ada Lovelace 1,2\n",
        )
        self.assertTrue(self.told("show 'ada lovelace'").startswith("ada: Ada Lovelace\n"))

    def test_that_of_several(self):
        """Nothing goes in until somebody says who is meant; by force the line goes in, and is
        refused.
        """
        for name, one, other in (
            ("Ben Müller", "ben-1", "ben-2"),
            ("cleo blum", "cleo-blum", "dan"),
        ):
            with self.subTest(name):
                unclear = f"it has the name of {one} and {other}; "
                said = f"wrong:2: {unclear}nothing was added: write the name on the roll of the one who is meant, or add it"
                self.stops(f"ada {RANKS}\n{name} {RANKS}\n", said)
                said = f"desk:1: {unclear}it was not entered.\n"
                self.assertIn(said, self.cast(f"{name} {RANKS}"))
                self.assert_refused(f"show '{name}'", 9, f"name one of {one}, {other}")
        self.assert_lines()
        self.tells("add --force wrong", "Added 2 lines (1 counted, 1 bad shape).\n")


class OtherNames(StopsTest):
    """Options whose names are letters, or like ranks: a ballot names none of these. Two electors
    with names that are near.
    """

    names = ["ada", "ben", "cleo", "anna-meier", "anna-meier-2"]
    poll = 'title = "x"\noptions = ["B", "2", "1"]\nratios = [1, 1, 3]\ndefault = "Further discussion"\nquorum = 1\n'

    def test_ranks_are_no_names_and_a_name_that_fits_as_well_is_told(self):
        said = "Added 3 lines (2 counted, 1 bad rank count).\n"
        self.adds("ada 2,1,4,3\nben 2,1\ncleo 1,2,3,4\n", said)
        said = "wrong: line 1 names options of the poll in another order"
        self.stops("further discussion b\nada 2,1,4,3\ncleo 1,2,4,3\n", said)
        said = r"did you mean anna-meier\b.*anna-meier-2"
        self.assertRegex(self.adds("anna-maier 1,2,3,4\n"), said)


class Failing(CalledTest):
    def test_a_full_disk(self):
        """Each line goes in, or none, wherever the disk is full."""
        self.adds(f"ben {RANKS}\n")
        size = (self.folder / "election.db").stat().st_size
        self.write("more", "".join(f"ada {number},2,3,4\n" for number in range(1, 100)) * 10)
        before, most = self.last_act(), resource.getrlimit(resource.RLIMIT_FSIZE)[1]
        self.addCleanup(resource.setrlimit, resource.RLIMIT_FSIZE, (most, most))
        for room in (4096, size // 2, size, size + 40_960):
            # a file that would be longer is an error for Python, and no signal
            resource.setrlimit(resource.RLIMIT_FSIZE, (room, most))
            ended = self.election("add more")
            resource.setrlimit(resource.RLIMIT_FSIZE, (most, most))
            said = "election.db: it can't be written (", "; nothing was added: "
            self.assert_fault(ended, 7, *said)
            self.assertEqual(self.last_act(), before)
            self.assertEqual(ended.output, "")
            self.assert_lines(f"ben {RANKS}")
        self.told("log --check")
        self.adds(f"ada {RANKS}\n", "2 counted  ada: ")

    def test_an_output_that_is_full_and_no_debvote(self):
        self.write("more", f"ada {RANKS}\nben {RANKS}\n")
        words, env = [sys.executable, elections.ELECTION, "add", "more"], elections.environment()
        with open("/dev/full", "w") as full:
            pipes = {"stdout": full, "stderr": subprocess.PIPE, "text": True}
            ended = subprocess.run(words, cwd=self.folder, env=env, **pipes)
        self.assertEqual((ended.returncode, ended.stderr.count("\n")), (7, 1))
        self.assertIn(
            "the output failed; the lines were entered nevertheless (envelopes 1-2): see debvote-election status",
            ended.stderr,
        )
        self.assertEqual(len(self.lines()), 2)
        # without debvote nothing is entered: beside the program there is none
        for folder in ("empty", "bin"):
            (self.scratch / folder).mkdir()
        copy = shutil.copy(elections.ELECTION, self.scratch / "bin")
        (self.scratch / "python").symlink_to(elections.ROOT / "python")
        env["PATH"] = str(self.scratch / "empty")
        ended = self.run_program("/usr/bin/python3", copy, "add", given=f"ada {RANKS}\n", env=env)
        self.assertEqual((ended.status, len(self.lines())), (127, 2), ended)

    def test_replies_are_those_of_debvote(self):
        """The book says what became of lines as the box does, to which all of them are cast in
        turn.
        """
        files = (
            "ada 1,2,3,4\nben 1,2\nada 2,1,3,4\n",
            "ben 1,2,3,4\nnobody 1,2,3,4\nada 9\nada 1,2,4,3\n",
            "ben 2,1,3,4\n, ,\ncleo 1,2,3,4\n",
        )
        output = "".join(self.adds(text, words="--force") for text in files)
        told = re.findall(r"(?m)^\d+ (\w+(?: \w+)*)  ", output)
        self.write("all", "".join(files))
        steps = self.debvote("steps", "--poll", "call/poll.toml", "--ballots", "all").output
        self.assertEqual(told, re.findall(r"(?m)^\d+ (.*)", steps))
        kinds = {"counted", "replaced", "bad rank count", "bad not on roll", "bad shape"}
        self.assertEqual({*told}, kinds)
