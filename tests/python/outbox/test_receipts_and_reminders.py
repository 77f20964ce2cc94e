"""`letters receipts` and `letters reminders`: to whom they go, and what each says."""

import pathlib
import re
import shutil
from unittest import mock

from debvote_tools.outbox import steps

from tests.support import elections
from tests.support.election_books import LAKE
from tests.support.letters import OTHER_RANKS, RANKS, TEN, TITLE, letter, mailbox, marked
from tests.support.outgoing import FORM, LINE, WHEN, OutTest, one_line, parsed

FORCED = ("--force", "not-tied", "--force", "voted-since")
NONE = "No ballot of yours that counts has come yet."
ELSEWHERE = "A letter in your name came from another address, and waits until the secretary has looked at it."
RIGHT = "You can send a right line now, and need not wait."


class ReceiptsAndReminders(OutTest):
    def test_each_has_its_own_reply(self):
        """A line that counts, one that is replaced, one that is refused, one that is struck, one
        that is taken back, and a late one.
        """
        self.add_lines(
            f"ada {RANKS}",
            f"ben {RANKS}",
            f"ben {OTHER_RANKS}",
            "cleo 1,2 http://x.example",
            f"dan {RANKS}",
            "fay 1,2",
            f"fay {RANKS}",
            f"gus {RANKS}",
            "gus 1,2",
        )
        self.done("strike 5 --because 'it was a mistake'")
        self.add_lines(f"eve {RANKS}")
        self.done("undo")
        texts = self.texts("receipts")
        self.assertEqual(sorted(texts), ["ada", "ben", "cleo", "dan", "eve", "fay", "gus"])
        refused = "It is not a valid ballot of this vote, so it does not count. It has 2 ranks, and the vote has 4 options."
        # a receipt that refuses says why, then where the form is and how a right line looks;
        # another has neither
        form = f"If you have not sent this, or it is not what you meant, answer at once. You vote under the name gus. {RIGHT} {WHEN.removeprefix(f'{TITLE} ')} {FORM}#gus/"
        for name, *parts in (
            (
                "ada",
                "has arrived. It counts unless you send a later one.",
                f"It was read as: {LAKE}. If you have not sent this",
            ),
            (
                "ben",
                "has arrived. Another ballot of yours, which was entered after it, counts instead.",
                "It was read as: In the town hall, then",
            ),
            ("cleo", "so it does not count. It is not written"),
            ("dan", "was entered, and the secretary has struck it. It does not count."),
            (
                "eve",
                "was entered, and the secretary has taken it back. It does not count unless it is entered again.",
            ),
            # a receipt refuses if what came last was refused
            ("fay", refused),
            ("gus", f"{refused} {form}", f"{LINE}gus _,_,_,_"),
        ):
            for part in parts:
                self.assertIn(part, texts[name])
            self.assertEqual("_,_" in texts[name], name in ("cleo", "gus"))
        self.assertEqual(texts["gus"].count(TITLE), 1)
        for name, text in texts.items():
            others = "|".join(other for other in elections.NAMES if other != name)
            self.assertNotRegex(text, rf"(?i)envelope|number \d|x\.example|\b({others})\b")
        self.assertEqual(self.texts("receipts"), {})
        # undo names those whose receipts are no longer true
        self.add_lines(f"hal {OTHER_RANKS}")
        self.assertNotIn("These electors have receipts", self.told("undo --yes"))
        self.tells(
            "undo --yes",
            "\nThese electors have receipts that are no longer true: ada, ben, cleo, fay, gus\n",
        )

    def test_a_folder_that_is_removed_is_made_again(self):
        """With the same bytes, as long as what they say holds; a receipt of a ballot that is struck
        since says so.
        """
        place = self.folder / "letters" / "receipts"

        def there() -> dict[pathlib.Path, bytes]:
            return {file: file.read_bytes() for file in place.rglob("*.eml")}

        self.add_lines(f"ada {RANKS}", f"ben {RANKS}")
        self.done("letters receipts")
        before, rows = there(), self.rows("receipts")
        [ada, ben] = sorted(before)
        shutil.rmtree(place)
        said = f"Wrote 2 earlier letters, since the folder was not there: letters/receipts/{ada.parent.name}\n"
        self.tells("letters receipts", said)
        self.assertEqual((there(), self.rows("receipts")), (before, rows))
        # a file that was taken out may have been sent
        ada.unlink()
        self.tells("letters receipts", "There is no letter to send.\n")
        self.assertFalse(ada.exists())
        self.done("strike 2 --because 'not his'")
        shutil.rmtree(place)
        self.done("letters receipts")
        self.assertIn("the secretary has struck it", one_line(parsed(there()[ben])))
        self.assertEqual(there()[ada], before[ada])

    def test_a_ballot_that_counts_is_told_again_beside_what_does_not(self):
        """A letter without a ballot, a line that is refused, a ballot that is taken back, and after
        the close one that is late.
        """
        self.add_lines(*(f"{name} {RANKS}" for name in ("ada", "ben", "cleo", "dan", "eve")))
        self.done("letters receipts")
        self.add(letter("ada", "Thank you, all is right.\n"))
        self.add_lines("ben 1,2")
        self.add_lines(f"cleo {OTHER_RANKS}")
        self.done("undo --yes")
        self.done("strike 5 --because 'not hers'")
        found = self.texts("receipts")
        self.done("held 1 --set-aside")
        self.add_lines(f"hal {RANKS}")
        self.done("close --early")
        self.add_lines(f"dan {OTHER_RANKS}", f"fay {RANKS}", "gus 1,2")
        late = self.texts("receipts")
        names = sorted(found), sorted(late)
        self.assertEqual(names, (["ada", "ben", "cleo", "eve"], ["dan", "fay", "gus", "hal"]))
        counts = rf"It counts unless you send a later one\. It was read as: {LAKE}\. .*"
        is_late = "It was entered after the close, so it is late and does not count."
        for name, said in {
            "ada": f"{counts}No ballot from it is entered yet",
            "ben": f"{counts}has 2 ranks",
            "cleo": f"{counts}taken it back",
            # what is struck later is told, and what is late
            "eve": "the secretary has struck it",
            "dan": rf"has arrived, and it counts\. It was read as: {LAKE}\. .*{is_late}",
            "fay": f"{is_late} It was read as: {LAKE}",
            "gus": is_late,
            "hal": r"has arrived, and it counts\. It was read as",
        }.items():
            self.assertRegex((found | late)[name], said)
        for text in late.values():
            self.assertNotRegex(text, r"_,_|unless you|You can send")
        # what is entered again is told alone
        self.done("reopen --because 'it was in time'")
        self.add_lines(f"fay {RANKS}", words=("--came-before-close", "yes"))
        again = self.texts("receipts")
        self.assertEqual((list(again), again["fay"].count("It was read as")), (["fay"], 1))
        self.assertIn(f"has arrived, and it counts. It was read as: {LAKE}", again["fay"])

    def test_a_letter_of_which_one_ballot_is_entered(self):
        """Its elector is told once of that, and the other elector that none of theirs was: Ben, who
        has the same address, or Dan.
        """
        self.change_roll("ben@club", "ada@club")
        self.add(
            letter("ada", f"ada {RANKS}\nben {OTHER_RANKS}\n"),
            letter("cleo", f"cleo {RANKS}\ndan {OTHER_RANKS}\n"),
        )
        self.add(letter("gus", f"hal {RANKS}\n"))
        self.done("held", 1, "--as", f"ada {RANKS}")
        self.done("held", 2, "--as", f"cleo {RANKS}")
        self.done("held", 3, "--enter", *FORCED)
        texts = self.texts("receipts")
        # one goes to the address that Ben had; who sent one for somebody else alone is told nothing
        # of it
        self.assertEqual(sorted(texts), ["ada", "ben", "ben_2", "cleo", "dan", "hal"])
        of_others = "10:00 (UTC) has a ballot of somebody else, which was entered. No ballot of yours from it was entered."
        for name in ("ada", "ben", "cleo", "dan"):
            has_own = name in ("ada", "cleo")
            self.assertEqual(texts[name].count("has arrived. It counts"), has_own)
            self.assertEqual(texts[name].count("has arrived"), has_own)
            self.assertEqual(of_others in texts[name], not has_own, name)
        shown = ["letter 2, from " in self.told("show", name) for name in ("cleo", "dan", "eve")]
        self.assertEqual(shown, [True, True, False])

    def test_letters_that_are_in_no_receipt_are_named(self):
        """Letters of a couple and of a stranger. Not a ballot in an elector's name, who is told,
        whatever its head says; and not what a program wrote.
        """
        self.change_roll("ben@club", "ada@club")
        automatic = "Auto-Submitted: auto-replied\n"
        self.add(
            letter("ada", f"Benjamin Lind {RANKS}\n"),
            letter("x", "Who are you?\n"),
            letter("x", f"eve {RANKS}\n", number=2, head=automatic),
            letter("x", "away\n", number=3, head=automatic),
            letter("cleo", "Thank you.\n"),
        )
        said = "No receipt is about these letters that wait, since no elector alone has the sender's address: 1, 2\n"
        output = self.told("letters receipts")
        self.assertTrue(output.startswith(said), output)
        self.assertEqual([file.stem for file in self.files("receipts")], ["cleo", "eve"])
        waits = "{0} letters wait until you have looked at them: debvote-election held\nThere is no letter to send.\nNext: {0} letters wait: debvote-election held\n"
        self.assertEqual(self.told("letters receipts"), f"{said}{waits.format(5)}")
        held = self.told("held").replace("\n        ", "\n")
        self.assertIn("no ballot found\nwritten: Who are you?\n", held)
        self.assertIn(
            f"no ballot found\nwritten: Benjamin Lind {RANKS}\nsame address: ada, ben\n", held
        )
        shown = ["letter 1, from " in self.told("show", name) for name in ("ada", "ben", "cleo")]
        self.assertEqual(shown, [True, True, False])
        self.told("held 1 2 --set-aside")
        self.assertEqual(self.told("letters receipts"), waits.format(3))

    def test_letters(self):
        self.add(
            letter("ada", f"Ada: {RANKS}.\n"),
            letter("ben", "ben 1,2\n"),
            letter("cleo", f"dan {RANKS}\n"),
            letter("eve", f"eve {RANKS}\n", sender="stranger@x.example"),
            letter("fay", "away\n", head="Auto-Submitted: auto-replied\n"),
            marked("gus", "I want the lake.\n", sender="GUS@Club.Example"),
            letter("hal", "Hello\nI vote for the lake:\nhal 1,2,3,4\n"),
            # the call to her that came back
            letter("ida", "Undelivered.\n\n  ida _,_,_,_\n", sender="mailer-daemon@x.example"),
        )
        texts = self.texts("receipts")
        self.assertEqual(sorted(texts), ["ada", "ben", "cleo", "dan", "eve", "gus", "hal"])
        waits = "has arrived. No ballot from it is entered yet: the secretary has to look at it first. The reason: "
        none = f"{waits}no line of it is a ballot of this vote."
        for name, said in (
            ("ada", LAKE),
            ("ben", f"{none} Line 1 of its text is near to a ballot. It has 2 ranks,"),
            # who wrote a ballot in another's name is told, too, with nothing of the other
            (
                "cleo",
                "The reason: the list of members has another address for the name on the ballot.",
            ),
            ("dan", ELSEWHERE),
            ("eve", ELSEWHERE),
            ("gus", f"{none} If you have not sent this"),
            ("gus", f"You vote under the name gus. {RIGHT}"),
            (
                "hal",
                f"{waits}there is more in it than a ballot. Answer this letter, write your ballot on top, and nothing else.",
            ),
        ):
            self.assertIn(said, texts[name])
        self.assertNotRegex(texts["cleo"], rf"\bdan\b|{RANKS}")
        self.assertNotIn("stranger", texts["eve"] + texts["dan"])
        self.assertEqual(self.texts("receipts"), {})
        # one that waited and is entered now
        self.done("held", 3, "--enter", *FORCED)
        # a ballot that the secretary typed is told as the letter, with its time, and how it was
        # read
        self.done("held", 6, "--as", f"gus {RANKS}")
        texts = self.texts("receipts")
        self.assertEqual(list(texts), ["dan", "gus"])
        said = "10:00 (UTC) has arrived. It counts unless you send a later one."
        self.assertIn(f"{said} It was read as: {LAKE}", texts["dan"])
        typed = f"{said} The secretary typed it, by a letter that came. It was read as: {LAKE}."
        self.assertIn(typed, texts["gus"])
        self.assertNotIn("No ballot from it", texts["gus"])

    def test_one_for_each_elector_and_run(self):
        self.add(
            letter("dan", "hello\n"),
            letter("eve", f"eve {RANKS}\n", sender="x@x.example"),
        )
        self.done("held 1 2 --set-aside")
        twice = letter("ben", f"ben {RANKS}\n")
        self.add(
            letter("ada", f"ada {RANKS}\n", number=1, time=TEN.replace("10:00", "08:00")),
            letter("ada", f"ada {OTHER_RANKS}\n", number=2, time=TEN.replace("10:00", "09:00")),
            letter("ada", "thanks\n", number=3, time=TEN.replace("10:00", "09:30")),
            twice,
            twice.replace(b"Received: from a", b"Received: from c"),
            letter("cleo", "hi\n"),
            b"X-Y: z\n" + letter("cleo", "hi\n"),
            letter(
                "fay",
                f"fay {RANKS}\n",
                number="1@x>\nX-Old: <1",
                head="References: <a@b>\n Bcc: all@x.example\nReply-To: <\xff\xfe@b>\n",
                sender="F\u00e1y <fay@club.example>",
            ),
        )
        why = "the name of its sender is not encoded"
        self.tells("held", f"\n        {why}, so programs may read it in different ways\n")
        messages = self.written("receipts")
        texts = {name: one_line(message) for name, message in messages.items()}
        self.assertEqual(
            {name: text.count("has arrived") for name, text in texts.items()},
            {"ada": 3, "ben": 1, "cleo": 1, "dan": 1, "eve": 0, "fay": 1},
        )
        for name, said in (
            (
                "ada",
                r"08:00 \(UTC\) has arrived\. Another.*09:00 \(UTC\) has arrived\. It counts.*09:30 \(UTC\) has arrived\. No",
            ),
            (
                "dan",
                r"was entered\. The reason: the secretary has looked at it, and set it aside\.",
            ),
            ("eve", r"came from another address\. The secretary has set it aside\."),
            ("fay", rf" first\. The reason: {why}\. Send it with a name without accents"),
        ):
            self.assertRegex(texts[name], said)
        # heads that came add no line
        names = "From To Subject Date Message-ID X-Unsent Auto-Submitted MIME-Version Content-Type Content-Transfer-Encoding"
        self.assertEqual([name for name, _ in messages["fay"].raw_items()], names.split())
        self.assertEqual(messages["fay"]["To"], "fay@club.example")

    def test_when_reminders_are_due(self):
        """Two days before the end; a web box that was not asked lately is asked first."""
        self.done("letters call")
        for step in ("upload", "letters"):
            self.done("status", "--done", step)
        remind = "debvote-election letters reminders --send --server HOST\n"
        for minute, unasked, said in (
            ("17:59", None, "until "),
            ("18:01", None, f"9 electors have no ballot: {remind}"),
            (
                "18:02",
                "now",
                f"9 electors have no ballot: debvote-election add --box, then {remind}",
            ),
        ):
            self.set_clock(f"2026-12-02T{minute}:00+00:00")
            self.done("backup", self.scratch / minute)
            with mock.patch.object(steps, "unasked_fault", return_value=unasked):
                found = self.done("status").output.partition("\nNext: ")[2]
            self.assertEqual(found[: len(said)], said)

    def test_to_whom_reminders_go(self):
        """A reminder tells with its reason a line that came and does not count, as the receipt does.
        A letter that was set aside is not told again.
        """
        self.add_lines(f"ada {RANKS}", "fay 1,2", f"gus {RANKS}")
        self.done("strike 3 --because 'not his'")
        self.add(letter("hal", "hello\n"))
        self.done("held 1 --set-aside")
        early, later = (TEN.replace("10:00", hour) for hour in ("08:00", "09:00"))
        self.add(
            letter("cleo", "I want the lake\n"),
            letter("dan", f"dan {RANKS}\n", sender="x@x.example"),
            letter("eve", f"eve {RANKS}\n", sender="x@x.example", time=early),
            letter("eve", "I want the lake\n", number=2, time=later),
        )
        # nobody has agreed to this one yet
        self.write("inbox.mbox", mailbox(letter("ida", f"ida {RANKS}\n")))
        self.election("add inbox.mbox")
        messages = self.written("reminders")
        texts = {name: one_line(message) for name, message in messages.items()}
        self.assertEqual(sorted(texts), elections.NAMES[1:])
        for name, said in {
            "ben": "",
            "hal": "",
            "fay": rf" A line with your name .* It has 2 ranks, and the vote has 4 options\. {RIGHT}",
            "gus": rf" Your ballot .* has struck it\. It does not count\. .*{RIGHT}",
            # whose letter waits is told so, and what can be done meanwhile
            "cleo": rf" Your letter .* No ballot from it is entered yet: .* {RIGHT}",
            # a stranger's letter silences nobody, nor is it one for which somebody waits
            "dan": f" {ELSEWHERE}",
            # nor hides it an own letter that waits
            "eve": rf" {ELSEWHERE} Your letter of Monday, 23 November 2026, 09:00 \(UTC\) .* {RIGHT}",
        }.items():
            form = re.escape(f"{WHEN} {FORM}#{name}/")
            self.assertRegex(texts[name], f"^Dear {name.title()}, {NONE}{said} {form}")
            self.assertIn(f"{LINE}{name} _,_,_,_", texts[name])
        # who has voted reads that the ballot has come, and is not entered yet
        for name, begins in (("ida", "Receipt: "), ("hal", "Not yet voted: ")):
            self.assertTrue(messages[name]["Subject"].startswith(begins), name)
        said = rf"10:00 \(UTC\) has arrived\. No ballot from it is entered yet: (?!.*({RIGHT}|_,_))"
        self.assertRegex(texts["ida"], f"^(?!.*{NONE}).*{said}")
        # and the secretary, how many letters wait
        waits = r"(?m)^5 letters wait until you have looked at them: debvote-election held$"
        self.assertRegex(self.told("letters reminders --yes"), waits)

    def test_the_end_after_an_extension_in_reminders_and_receipts(self):
        self.extend("2026-12-06 18:00")
        found = [self.written("reminders", "--yes")["ada"] for _ in range(2)]
        for message in found:
            self.assertIn("Vote until: Sunday, 6 December 2026, 18:00 (UTC)", one_line(message))
        # each run that writes files is a new one
        self.assertNotEqual(*(message["Message-ID"] for message in found))
        self.set_clock("2026-12-05T10:00:00+00:00")
        self.add(letter("ben", "hi\n", time="Sat, 05 Dec 2026 09:00:00 +0000"))
        self.assertNotIn("after the end", self.texts("receipts")["ben"])
