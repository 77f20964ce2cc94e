"""What letters come in: by what is in it, and not by its name."""

import collections
import itertools
import os
import pathlib
import random
import tempfile
import time
import unittest
import unittest.mock

import pytest

from debvote_tools.inbox.mailbox import (
    MAX_LETTER,
    NotRead,
    RawLetter,
    are_letters,
    letters_of_file,
    letters_of_folder,
    sections_of,
)

from tests.support.election_books import LettersTest
from tests.support.letters import (
    BALLOT,
    NAMES,
    RANDOM_LETTERS,
    RANKS,
    ballot,
    letter,
    mailbox,
    outcomes,
    parsed,
    passed_over_in,
    read_in,
)

BOM = b"\xef\xbb\xbf"
LINE = b"From somebody Mon Nov 23 10:00:00 2026\n"
ADA, BEN = letter("ada", f"ada {RANKS}\n"), letter("ben", f"ben {RANKS}\n")
IN_ADA, IN_BEN, PARTED = f"in: ada {RANKS}", f"in: ben {RANKS}", "waits: parted off"
# a ballot of Ben that is no ballot as a text of another letter, and one of Ada in parts
CODED = letter("ben", "YmVuIDEsMiw0LDMK\n", head="Content-Transfer-Encoding: base64\n")
PARTS = letter("ada", f"--b\n\nada {RANKS}\n--b--\n", kind="multipart/mixed; boundary=b")


def outcome_of(found: list[RawLetter]) -> list[str]:
    return outcomes(
        *(parsed(raw.data, raw.where, is_parted_off=raw.is_parted_off) for raw in read_in(found))
    )


class Files(unittest.TestCase):
    def assert_becomes(self, data: bytes, *wanted: str):
        self.assertEqual(outcome_of(letters_of_file("box", data)), list(wanted), data)

    def assert_parted_off(self, data: bytes, *wanted: bool):
        """Which letters of a file may be text of the letter above."""
        self.assertEqual(
            [raw.is_parted_off for raw in read_in(letters_of_file("box", data))], list(wanted), data
        )

    def test_a_mailbox_and_one_message(self):
        for line in (
            LINE,
            b"From - Mon Nov 23 10:00:00 2026\n",
            b"From 17@xxx Mon Nov 23 10:00:00 +0000 2026\n",
            b"From x Mon, 2 Nov 2026 9:00\n",
        ):
            box = mailbox(ADA, BEN).replace(LINE, line)
            for end in (b"\n", b"\r\n"):
                found = letters_of_file("box", box.replace(b"\n", end))
                where = [raw.where for raw in read_in(found)]
                self.assertEqual(where, ["box, message 1", "box, message 2"])
                data = [raw.data.replace(end, b"\n") for raw in read_in(found)]
                self.assertEqual((data, outcome_of(found)), ([ADA, BEN], [IN_ADA, IN_BEN]), line)
        for data in (ADA, b"\n\n" + ADA, BOM + ADA, b"From ben\n" + ADA):
            [raw] = read_in(letters_of_file("x", data))
            self.assertEqual((raw.where, raw.data, raw.is_parted_off), ("x", ADA, False))
        # a head of one field is enough where the line above has a date
        noted = LINE + b"X-Note: kept\n\nhello\n\n" + LINE + BEN
        self.assert_becomes(noted, IN_BEN, "waits: no arrival")
        for start in (b"\n", b"\r\n\r\n", BOM, b"<?php exit; ?>\n", b"<?php exit; ?>\r\n"):
            self.assert_becomes(start + mailbox(ADA, BEN), IN_ADA, IN_BEN)
        # without its first line it is one letter, and all but its first ballot are text of it: it
        # waits
        self.assert_becomes(mailbox(ADA, CODED).removeprefix(LINE), PARTED)

    def test_lines_without_a_date_hide_no_letter(self):
        """The letter above waits, and says to look at the file: what is below its parts nobody
        would see.
        """
        for line in (
            b"From ben\n",
            b"From - Mo Nov 23 10:00:00 2026\n",
            b"from ben\n",
            b">From - Mon Nov 23 10:00:00 2026\n",
        ):
            for above in (ADA, PARTS, LINE + ADA, LINE + PARTS):
                self.assert_becomes(above + b"\n" + line + CODED, PARTED)
        # Thunderbird and others put fields of their own above all that the mail server wrote
        line = b"From ben 2026-11-23T10:00:00\n"
        for field in (b"X-Mozilla-Status: 0001", b"Delivery-Date: x", b"Status: RO", b"To: vote"):
            head = line + field + b"\n"
            self.assert_becomes(head + ADA, IN_ADA)
            self.assert_becomes(head + ADA + b"\n" + head + CODED, PARTED)
            self.assert_becomes(LINE + ADA + b"\n" + head + CODED, PARTED)

    def test_mailboxes_of_thunderbird_and_lotus_notes_and_lines_that_part_nothing(self):
        """Today it writes lines without sender and date; older letters in it have lines with a
        date.
        """
        status = b"X-Mozilla-Status: 0001\nX-Mozilla-Status2: 00000000\n"
        dated = b"From - Mon Nov 23 10:00:00 2026\n"
        for first, second in (
            (b"From \n", b"From \n"),
            (b"From - \n", b"From -\n"),
            (dated, b"From \n"),
            (b"From \n", LINE),
        ):
            box = first + status + ADA + b"\n" + second + status + BEN + b"\n"
            for data in (box, box.replace(b"\n", b"\r\n")):
                self.assert_becomes(data, IN_ADA, IN_BEN)
        # without an empty line between, and as text of a letter that is not in a mailbox
        self.assert_becomes(b"From \n" + ADA + b"From \n" + BEN, IN_ADA, PARTED)
        self.assert_becomes(ADA + b"\nFrom \n" + BEN, PARTED)
        # Lotus Notes writes boundaries with a blank
        notes = "=_alternative 004A8E32C1256F5A_="
        for end in ("", " "):
            kind = f'multipart/alternative; boundary="{notes}{end}"'
            parts = letter("ada", f"--{notes}\n\nada {RANKS}\n--{notes}--\n", kind=kind)
            self.assert_becomes(mailbox(parts, BEN), IN_ADA, IN_BEN)
        text = f"ada {RANKS}\n\nFrom Monday on\n\nFrom Monday on see\nhttps://x.example\n\n>From x Mon Nov 23 10:00:00 2026\n\nfrom x Mon Nov 23 10:00:00 2026\n\nFrom 10:00 on\n"
        self.assertEqual(len(read_in(letters_of_file("box", mailbox(letter("ada", text), BEN)))), 2)

    def test_letters_that_somebody_put_together(self):
        """As `cat *.eml` does: of the second nobody would see anything."""
        base64 = "Content-Transfer-Encoding: base64\n"
        html = letter("ada", f"<p>ada {RANKS}</p><br>\n", kind="text/html")
        coded = letter("ada", "YWRhIDEsMiw0LDMK\n", head=base64)
        pdf = letter("ada", "JVBERi0x\n", kind="application/pdf", head=base64)
        for data in (ADA, PARTS, html, coded, pdf):
            for between in (b"", b"\n", b"Return-Path: <ben@club.example>\n"):
                self.assert_becomes(data + between + CODED, PARTED)
        attached = PARTS.replace(b"--b--\n", b"--b\nContent-Type: message/rfc822\n\n")
        self.assert_becomes(attached + letter("ben", "hello\n") + b"--b--\n", PARTED)

    def test_what_may_be_text_of_the_letter_above(self):
        carrier, below = letter("mallory", "hello\n"), b"\n" + LINE + BEN
        length = b"Content-Length: %d\n" % (len(below) + 7)
        begun = letter("x", "--b\n\nhi\n", kind="multipart/mixed; boundary=b")
        for box in (
            # no empty line, within the length, or within the parts
            carrier + LINE + BEN,
            length + carrier + below,
            length.replace(b": ", b":\n ") + carrier + below,
            begun + below,
            begun.replace(b"--b", b"--bc").replace(b"y=b", b"y*0=b; boundary*1=c") + below,
            begun.replace(b"--b", b"--b--\n\n--c").replace(b"y=b", b"y=b; boundary=c") + below,
        ):
            self.assert_parted_off(LINE + box, False, True)
            self.assertEqual(outcome_of(letters_of_file("box", LINE + box))[1], PARTED)
        # each that is within the length, whatever those between say; and none after it
        body = b"hello\n\n" + LINE + b"Content-Length: 1\n" + BEN + b"\n" + LINE + BEN
        head = b"Content-Length: %d\n" % len(body) + letter("mallory", "").rstrip(b"\n")
        box = LINE + head + b"\n\n" + body + b"\n" + LINE + ADA
        self.assert_parted_off(box, False, True, True, False)

    def test_a_length_that_ends_elsewhere_parts_nothing_off(self):
        """Any sender can write one. Else a stranger's letter would have all letters wait that come
        after it.
        """
        carrier, body = letter("mallory", "hello\n"), len("hello\n")
        exact = body + 1 + len(LINE) + len(BEN) + 1

        def box(length: int, *letters: bytes, line: bytes = LINE) -> bytes:
            head = LINE + b"Content-Length: %d\n" % length
            return head + carrier + b"\n" + mailbox(*letters).replace(LINE, line)

        for length in (exact - 2, exact + 1, exact + len(LINE), exact + 50, 10**9):
            data = box(length, BEN, ADA)
            self.assert_parted_off(data, False, False, False)
            self.assertEqual(outcome_of(letters_of_file("box", data))[1:], [IN_BEN, IN_ADA], length)
        # before a line without a date, too
        for line, is_parted_off in ((LINE, True), (b"From \n", False)):
            for length in (exact, exact - 1):
                data = box(length - len(LINE) + len(line), BEN, ADA, line=line)
                self.assert_parted_off(data, False, is_parted_off, False)
        # its own text alone, and the end of the file
        for length, is_parted_off in (
            (body, False),
            (exact, True),
            (exact + 1, True),
            (exact + 3, False),
        ):
            self.assert_parted_off(box(length, BEN)[:-1], False, is_parted_off)
        # nor do parts that end, or a subject that anybody can write
        for above in (PARTS, letter("x", "hi\n", head="Subject: boundary=b\n")):
            self.assert_parted_off(LINE + above + b"\n" + LINE + BEN, False, False)

    def test_what_is_no_letter_is_named(self):
        names = "__properties_version1.0".encode("utf-16-le")
        for data, why in {
            b"\xd0\xcf\x11\xe0rest" + names: NotRead.OUTLOOK_LETTER,
            b"!BDNrest": NotRead.OUTLOOK_MAILBOX,
            b"PK\x03\x04": NotRead.ZIP,
            b"%PDF-1.7": NotRead.PDF,
            b"hello\n": NotRead.NO_LETTER,
            b"": NotRead.NO_LETTER,
        }.items():
            found = letters_of_file("x", data)
            self.assertEqual((passed_over_in(found), read_in(found)), ([("x", why)], []))
            self.assertTrue(all(why.value))
        # a long letter is named, and the others are read
        long = letter("ada", "x" * MAX_LETTER)
        found = letters_of_file("box", mailbox(long, BEN))
        self.assertEqual(passed_over_in(found), [("box, message 1", NotRead.TOO_LONG)])
        self.assertEqual([raw.data for raw in read_in(found)], [BEN])
        self.assertEqual(passed_over_in(letters_of_file("x", long))[0][1], NotRead.TOO_LONG)
        for data in (
            b"ada: 1,2\nben: 1,2\n",
            b"From: ada 1\n",
            b"From Monday on\n\nada 1,2\n",
            b"",
            b"To be or not: x\n",
            LINE + b"ada 1,2\n",
        ):
            self.assertFalse(are_letters(data), data)

    @pytest.mark.whole
    def test_many_lines_take_a_time_that_grows_with_their_number(self):
        """As processor time: a time that grows with the square of the length would be minutes."""
        began = time.process_time()
        words = b"From Mon Mon Mon " * 50 * 5_000, (b"From " + b"Mon " * 200 + b"\n") * 10_000
        for data in (LINE * 100_000, *words, mailbox(*[ADA] * 20_000)):
            letters_of_file("box", LINE + b"From: x\n" + data)
        self.assertLess(time.process_time() - began, 60)

    def test_heads_as_they_are_shown(self):
        head = "Subject: =?utf-8?b?R3LDvMOfZQ==?= =?x-none?q?x?=\nSubject: \udcff\n"
        found = parsed(
            letter("ada", "x", sender="=?utf-8?q?a=0ABcc:?= <ada@club.example>", head=head)
        )
        self.assertNotIn("\n", found.shown_sender + found.subject)
        self.assertTrue(found.subject.startswith("Grüße"), found.subject)


class Conservation(unittest.TestCase):
    """No byte of what somebody adds is lost: it is in a letter that is kept, is named as not read,
    or parts two letters.
    """

    lines = (
        LINE,
        b"From - Mon Nov 23 10:00:00 2026\n",
        b"From \n",
        b"From ben\n",
        b">From x Mon Nov 23 10:00:00 2026\n",
        b"from x\n",
        b"\n",
        b"\r\n",
        b"\r",
        b" \n",
        b"\xef\xbb\xbf",
        b"Received: from a by b; Mon, 23 Nov 2026 10:00:00 +0000\n",
        b"Content-Length: 300\n",
        b"Content-Type: multipart/mixed; boundary=b\n",
        b"--b\n",
        b"--b--\n",
        b"ben 2,1,4,3\n",
        b"X-Mozilla-Status: 0001\n",
        b"\0",
        b"\xff",
    )

    def changed(self, chance: random.Random) -> bytes:
        """A mailbox in which some lines are others."""
        names = chance.choices(NAMES, k=chance.randint(1, 4))
        texts = [letter(name, f"{name} {RANKS}\n") for name in names]
        lines = mailbox(*texts).splitlines(keepends=True)
        for _ in range(chance.randint(0, 6)):
            place = chance.randrange(len(lines) + 1)
            lines[place : place + chance.randint(0, 1)] = [chance.choice(self.lines)]
        data = b"".join(lines[chance.choice((0, 0, 0, 1)) :])
        return (
            data.replace(b"\n", b"\r\n")
            if chance.random() < 0.2
            else data[: len(data) - chance.choice((0, 0, 1))]
        )

    def sections(self, data: bytes) -> list[bytes]:
        """The letters of a file, which with what is between them are the file."""
        sections = sections_of(data)
        self.assertEqual(b"".join(itertools.chain.from_iterable(sections)), data)
        # what is in no letter separates letters
        for above, _, below in sections:
            self.assertRegex(above, rb"\A(\xef\xbb\xbf)?[\r\n]*(From [^\n]*\n[\r\n]*)?\Z")
            self.assertIn(below, (b"", b"\n", b"\r\n"))
        return [one for _, one, _ in sections]

    def test_the_sections_of_a_file_are_the_file(self):
        chance = random.Random(3)
        becomes = collections.Counter[str]()
        for _ in range(RANDOM_LETTERS // 20):
            data = self.changed(chance)
            sections, found = self.sections(data), letters_of_file("box", data)
            read, passed_over = read_in(found), passed_over_in(found)
            self.assertEqual([raw.data for raw in read], sections if read else [])
            self.assertEqual([where for where, _ in passed_over], [] if read else ["box"])
            outcomes = outcome_of(found)
            self.assertEqual(len(outcomes), len(read))
            becomes.update(one.partition(": ")[0] for one in outcomes)
        self.assertEqual(set(becomes), {"in", "waits", "copy"})
        self.assertGreater(min(becomes["in"], becomes["waits"]), RANDOM_LETTERS // 60)
        chance = random.Random(4)
        for _ in range(RANDOM_LETTERS // 10):
            data = b"".join(chance.choices(self.lines, k=chance.randint(0, 12)))
            self.sections(data)


class Folders(unittest.TestCase):
    def setUp(self):
        self.folder = pathlib.Path(
            self.enterContext(tempfile.TemporaryDirectory(prefix="debvote-letters-"))
        )

    def write(self, name: str, data: bytes):
        file = self.folder / name
        file.parent.mkdir(parents=True, exist_ok=True)
        file.write_bytes(data)

    def found(self) -> tuple[list[str], dict[str, NotRead]]:
        found = letters_of_folder(self.folder)
        place = f"{self.folder}{os.sep}"
        why = {where.removeprefix(place): why for where, why in passed_over_in(found)}
        return [raw.where.removeprefix(place) for raw in read_in(found)], why

    def test_a_folder_of_messages(self):
        self.assertEqual(self.found(), ([], {}))
        for name, data in {
            "b.eml": ADA,
            "a.eml": BEN,
            "list.txt": b"hello",
            ".hidden.eml": ADA,
            "more/c.eml": ADA,
            "d.zip": b"PK\x03\x04",
            # several letters may be in a file of a folder, so it waits, or is named
            "inner.eml": letter("ada", f"ada {RANKS}\n\n{LINE.decode()}{BEN.decode()}"),
            "one.eml": LINE + ADA,
            "box": mailbox(ADA, BEN),
        }.items():
            self.write(name, data)
        os.mkfifo(self.folder / "pipe")
        (self.folder / "link").symlink_to("nowhere")
        wanted = dict.fromkeys(("list.txt", "pipe", "link"), NotRead.NO_LETTER)
        wanted |= {".hidden.eml": NotRead.HIDDEN, "more": NotRead.FOLDER, "d.zip": NotRead.ZIP}
        wanted |= {"box": NotRead.MAILBOX}
        self.assertEqual(self.found(), (["a.eml", "b.eml", "inner.eml", "one.eml"], wanted))
        *_, inner, one = read_in(letters_of_folder(self.folder))
        self.assertEqual((inner.is_parted_off, one.is_parted_off, one.data), (True, False, ADA))

    def test_a_maildir(self):
        for place in (
            "cur/2.host:2,S",
            "new/1.host",
            "tmp/3.host",
            ".Sent/cur/4.host",
            "cur/deep/5",
            "dovecot-uidlist",
        ):
            self.write(place, ADA if "host" in place else b"x")
        wanted = dict.fromkeys((".Sent", "cur/deep"), NotRead.FOLDER)
        wanted |= {"dovecot-uidlist": NotRead.NO_LETTER}
        self.assertEqual(self.found(), (["new/1.host", "cur/2.host:2,S"], wanted))
        # a letter that is looked at meanwhile
        iterdir = pathlib.Path.iterdir

        def listed(folder: pathlib.Path) -> list[pathlib.Path]:
            found = list(iterdir(folder))
            if folder.name in ("new", "cur") and (self.folder / "new/1.host").exists():
                (self.folder / "new/1.host").rename(self.folder / "cur/1.host:2,S")
            return found

        with unittest.mock.patch.object(pathlib.Path, "iterdir", listed):
            wanted |= {"new/1.host": NotRead.NO_LETTER}
            self.assertEqual(self.found(), (["cur/1.host:2,S", "cur/2.host:2,S"], wanted))


class AddedFolder(LettersTest):
    def test_files_of_a_folder(self):
        folder = self.scratch / "mail"
        (folder / "sub").mkdir(parents=True)
        for name in (".hidden.eml", "sub/x.eml"):
            (folder / name).write_bytes(letter("ada", BALLOT))
        (folder / "a\nb.eml").write_bytes(self.of_this_vote(ballot("ben")))
        os.mkfifo(folder / "pipe.eml")
        (folder / "link.eml").symlink_to("nowhere")
        # of a long path the end is not shown
        what = "hidden file", "a folder within the folder", "pipe.eml: {}", "link.eml: {}"
        no_letter = "it does not look like a letter"
        self.tells("add --yes ../mail", *(part.format(no_letter) for part in what))
        self.assert_lines(f"ben {RANKS}")
