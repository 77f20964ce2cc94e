"""Several questions as one value: title, checksums and mark, form of a ballot, aliases."""

import dataclasses
import hmac
import itertools
import unittest

from debvote_tools.book.queries import Elector
from debvote_tools.call.call import call_files
from debvote_tools.call.secret import alias_in, aliased, codes_csv, slips
from debvote_tools.election import Sealed
from debvote_tools.files import sha256_of
from debvote_tools.poll.questions import LABELS, Questions, read_questions

from tests.support import call_examples
from tests.support.call_examples import CALL, KINDS, POLL, ROLL

FEE = dataclasses.replace(
    POLL, title="Raise the fee", options=("Yes",), ratios=(2,), default="No", quorum=0
)
SEVERAL = Questions({"A": FEE, "B": POLL, "C": FEE}, "Assembly & 2026")


class Value(unittest.TestCase):
    def test_one_question_is_its_poll(self):
        one = call_examples.alone(POLL)
        self.assertEqual(
            (one.name, one.checksum, one.mark, one.is_several),
            (POLL.name, POLL.checksum, POLL.checksum[:16], False),
        )
        self.assertEqual(
            (one.files, one.checksums), ({"poll.toml": POLL.as_bytes()}, [POLL.checksum])
        )

    def test_the_checksum_of_several_is_that_of_their_list(self):
        files = SEVERAL.files
        self.assertEqual(
            list(files), ["A/poll.toml", "B/poll.toml", "C/poll.toml", "title.txt", "polls.sha256"]
        )
        rows = [
            f"{sha256_of(data)}  {name}" for name, data in files.items() if name != "polls.sha256"
        ]
        self.assertEqual(files["polls.sha256"].decode(), "".join(f"{row}\n" for row in rows))
        self.assertEqual(
            (files["B/poll.toml"], files["title.txt"]), (POLL.as_bytes(), b"Assembly & 2026\n")
        )
        checksum = sha256_of(files["polls.sha256"])
        self.assertEqual(
            (SEVERAL.checksum, SEVERAL.mark, SEVERAL.checksums),
            (checksum, checksum[:16], [*rows, checksum]),
        )
        self.assertEqual((SEVERAL.name, SEVERAL.longest_line), ("Assembly & 2026", 1_500))
        # each change of a label, a poll or the title makes another mark
        others = [
            Questions({"A": POLL, "B": FEE, "C": FEE}, SEVERAL.title),
            Questions({"A": FEE, "B": POLL}, SEVERAL.title),
            Questions(SEVERAL, "Assembly 2027"),
            Questions(SEVERAL | {"C": dataclasses.replace(FEE, quorum=1)}, SEVERAL.title),
        ]
        self.assertEqual(len({one.mark for one in (SEVERAL, *others)}), 5)

    def test_what_is_sealed_is_read_again(self):
        sealed = Sealed(SEVERAL, SEVERAL)
        self.assertEqual(list(sealed.files()), ["poll A", "poll B", "poll C", "title"])
        again = read_questions(
            {label: poll.as_bytes() for label, poll in SEVERAL.items()},
            ["B"],
            sealed.files()["title"].decode(),
        )
        self.assertEqual(
            (again.checksum, [label for label, poll in again.items() if poll.motion]),
            (SEVERAL.checksum, ["B"]),
        )
        self.assertEqual(
            list(Sealed(again, again).files()), ["poll A", "poll B", "poll C", "motion B", "title"]
        )
        self.assertEqual(
            list(Sealed(call_examples.alone(POLL), call_examples.alone(POLL)).files()), ["poll"]
        )

    def test_labels(self):
        self.assertEqual(LABELS, "".join(sorted({*"ABCDEFGHIJKLMNOPQRSTUVWXYZ"} - {"I", "O"})))


class Words(unittest.TestCase):
    def test_the_form_is_by_lines(self):
        call = dataclasses.replace(CALL, questions=SEVERAL)
        self.assertEqual(
            [call.form_of("ada-lovelace"), CALL.form_of("ada-lovelace")],
            [["ada-lovelace", "A _,_", "B _,_,_,_", "C _,_"], ["ada-lovelace _,_,_,_"]],
        )

    def test_the_letter(self):
        how = {"questions": SEVERAL, "quorum_votes": {"A": 0, "B": 1, "C": 0}}
        for kind in ("open", "secret", "signed"):
            with self.subTest(kind):
                call = dataclasses.replace(KINDS[kind], **how)
                text = call_files(call)["call.txt"].decode()
                self.assertIn("\n  NAME\n  A _,_\n  B _,_,_,_\n  C _,_\n\n", text)
                question = "\n\nQuestion A: Raise the fee\n  Option 1: Yes (majority ratio 2)\n  Option 2: No (the default option)\n\nQuestion B: "
                self.assertIn(question, text)
                rows = "".join(f"  {row}\n" for row in SEVERAL.checksums)
                self.assertIn(f"the last is that of this list:\n{rows}\n", text)
                # the names of one question's line, and no other
                self.assertNotRegex(text, "Your line|Send your line")


class Aliases(unittest.TestCase):
    electors = [
        Elector(number, name, number, name.title(), (), code=f"{number:x}" * 32)
        for number, name in enumerate(ROLL, start=10)
    ]

    def test_each_question_has_its_own(self):
        secret = Questions(
            {label: dataclasses.replace(poll, secret=True) for label, poll in SEVERAL.items()},
            SEVERAL.title,
        )
        public = aliased(secret, self.electors)
        found = {
            label: {one.name: alias_in(label, one) for one in self.electors}
            for label in ("", *secret)
        }
        self.assertEqual(
            (public.name, [*public], public.is_secret), (SEVERAL.name, [*SEVERAL], True)
        )
        for label, poll in public.items():
            wanted = {
                one.name: hmac.new(
                    one.code.encode(), f"{label} {one.name}".encode(), "sha256"
                ).hexdigest()[:32]
                for one in self.electors
            }
            self.assertEqual((found[label], poll.roll), (wanted, tuple(sorted(wanted.values()))))
        # no two questions, nor an election of one question, have one in common
        self.assertEqual(
            len({*itertools.chain.from_iterable(one.values() for one in found.values())}),
            4 * len(ROLL),
        )
        # a code of the roll is its own alias
        self.assertEqual(alias_in("", Elector(1, "c" * 32, 1, "", ())), "c" * 32)

    def test_slips_and_the_table_of_codes(self):
        call = dataclasses.replace(call_examples.SECRET, at=None, questions=SEVERAL)
        page = slips(call, self.electors).decode()
        self.assertIn("<code>ada<br>A _,_<br>B _,_,_,_<br>C _,_</code>", page)
        self.assertIn("Question A: <bdi>Raise the fee</bdi>", page)
        rows = codes_csv(call, self.electors).decode().splitlines()
        self.assertEqual(rows[:2], ["name,who,mail,code,mark", f"ada,Ada,,{'a' * 32},"])
