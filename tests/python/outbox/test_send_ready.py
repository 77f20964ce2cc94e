"""`letters --send` alone sends what is made, as by `close` and `publish`, and not sent."""

import json

from tests.support import boxes, elections
from tests.support.letters import letter, mailbox
from tests.support.outgoing import MailServer, SendTest, parsed
from tests.support.web_host import NEEDS_PHP

AT_LAST = "There is no letter to send: the server has taken all that are due.\n"
RECEIPT = "Next: 1 receipt is not written: debvote-election letters receipts --send\n"


class Ready(SendTest):
    names = ["ada", "ben", "cleo"]
    members = "who,mail\nAda,ada@club.example\nBen,ben@club.example\nCleo,\n"

    def assert_sent_by_all(self, subject: str, *names: str, status: int = 0) -> elections.Ended:
        """Sends without a kind; the server gets letters with this subject, to these."""
        self.server.taken.clear()
        ended = self.send()
        self.assertEqual(ended.status, status, ended)
        found = [
            (one.to.partition("@")[0], parsed(one.data)["Subject"].partition(":")[0])
            for one in self.server.taken
        ]
        self.assertEqual(found, [(name, subject) for name in names])
        # not while receipts are due
        self.assertEqual(AT_LAST in ended.output, not (names or status or RECEIPT in ended.output))
        return ended

    def test_a_whole_vote(self):
        # so many as can be sent
        said = "\nNext: put call on the web site, then debvote-election status --done upload; then 2 letters of the call are not sent: debvote-election letters --send --server HOST; or"
        self.assertIn(said, self.done("call").output)
        self.say_done("upload")
        said = self.assert_sent_by_all("Vote", "ada", "ben").output
        self.assertIn("Without an address: cleo. Print letters/call/", said)
        self.assertIn("call: Sent 2 of 2 letters.\n", said)
        self.assert_sent_by_all("")
        # an extension is another call
        self.extend("2026-12-04 19:00")
        self.assert_sent_by_all("Vote ends later", "ada", "ben")
        # a receipt that nobody has made is not sent, but named, nor a reminder; one that was written is
        self.say_done("upload")
        self.assertIn(RECEIPT, self.add_lines("ada 1,2,4,3"))
        self.assertIn(RECEIPT, self.assert_sent_by_all("").output)
        for kind in ("receipts", "reminders"):
            self.done("letters", kind)
        self.assertNotIn(RECEIPT, self.assert_sent_by_all("Receipt", "ada").output)
        self.add_lines("ada 2,1,4,3")
        self.assertIn(RECEIPT, self.assert_sent_by_all("").output)
        # `close` and `publish` say which are ready, and where
        said = self.done("close --early").output
        place = f"letters/closed/{self.last_act() - 1}"
        ready = (
            f"\nWithout an address: cleo. Print {place}/to-print.html.\nReady: 2 letters, {place}\n"
        )
        self.assertIn(f"{ready}{RECEIPT}", said)
        self.done("letters receipts --send")
        self.assertEqual(self.server.taken.pop().to, "ada@club.example")
        next_ = "\nNext: 2 letters of the close are not sent: debvote-election letters --send; or by your mail program: debvote-election letters closed, then "
        self.assertIn(next_, self.done("close").output)
        found = [file.name for file in (self.folder / place).iterdir()]
        self.assertEqual(sorted(found), ["ada.eml", "ben.eml", "to-print.html"])
        self.assertEqual(self.rows("closed"), [(name, "written") for name in self.names])
        # made again it writes none
        self.assertNotIn("Ready: ", self.done("close").output)
        self.assert_sent_by_all("Vote closed", "ada", "ben")
        publish = ("publish", "--force", "--because", "early")
        said = self.done(*publish).output
        place = f"letters/result/{self.last_act() - 1}"
        ready = f"\nReady: 2 letters, {place}\nNext: put the folder result on the web site as it is, then debvote-election status --done upload; then 2 letters of the result are not sent: debvote-election letters --send; or "
        self.assertIn(ready, said)
        self.assertNotIn("Ready: ", self.done(*publish).output)
        said = self.assert_sent_by_all("Result", "ada", "ben").output
        self.assertIn("result: Sent 2 of 2 letters.\n", said)
        self.assert_sent_by_all("")
        self.done("log --check")

    def test_what_is_left_to_others(self):
        """A letter that was refused is tried again; what one kind stops at keeps no other back."""
        self.server.rcpt_answers["ada@club.example"] = "450 later"
        said = "call: Sent 1 of 2 letters.\ncall: Refused: ada, ada@club.example: 450 later\n"
        self.assertIn(said, self.assert_sent_by_all("Vote", "ben", status=9).output)
        self.server.rcpt_answers.clear()
        self.assert_sent_by_all("Vote", "ada")
        self.done("close --early")
        self.done("publish --force --because early")
        # a letter in time stops the letters of close and result alone
        self.write("inbox.mbox", mailbox(letter("ada", "ada 1,2,4,3\n")))
        self.election("add --yes inbox.mbox")
        self.done("letters receipts")
        ended = self.assert_sent_by_all("Receipt", "ada", status=9)
        fault = "these letters arrived in time, and wait: 1;"
        self.assertEqual(ended.faults.count(fault), 2, ended.faults)
        self.done("held 1 --set-aside")
        self.send()
        closed = "Where we meet in spring"
        self.assertEqual([closed in one.data.decode() for one in self.server.taken[1:]], [True] * 4)

    def test_words(self):
        fault = "letters: no kind is named; nothing was written: name one of call, receipts, reminders, closed, void, result; only --send goes without it"
        self.assert_refused("letters", 2, fault)
        send = ("letters", "--send", "--server", self.server.name)
        self.assert_refused([*send, "--force", "--because", "x"], 2, "letters: no kind is named")
        for words in (("--at", "https://club.example/x/"), ("--codes",), ("--yes",)):
            self.assert_refused([*send, *words], 2, f"{words[0]}: only with ")
        self.assertEqual(self.server.taken, [])


class OnTheRoll(SendTest):
    poll = "secret = true\n" + elections.POLL
    codes_words = ("--on-roll",)
    call_words = ("--to", "vote@club.example", "--yes")

    def test_no_letter(self):
        ended = self.send()
        self.assert_fault(ended, 9, "codes are on the roll, and nobody knows whose they are")
        said = self.done("close --yes").output
        self.assertNotIn("Ready: ", said)
        following = "count anything.\nNext: send letters/closed.txt to all electors, then debvote-election status --done letters\n"
        self.assertTrue(said.endswith(following), said)
        self.assertEqual(self.next_told(), "Next: debvote-election count\n")


class WithCodes(SendTest):
    poll = "secret = true\n" + elections.POLL
    call_words = ("--to", "vote@club.example", "--at", "https://club.example/vote/", "--yes")

    def test_codes_go_out_only_if_they_were_written(self):
        """They may be on slips."""
        self.assertNotIn("Ready: ", self.done("call").output)
        self.done("desk", given="ada 1,2,4,3\n")
        everybody = [f"{name}@club.example" for name in elections.NAMES]
        for kind, count in (("receipts", 1), ("call", 10)):
            self.done("letters", kind)
            self.done("letters", "--send", "--server", self.server.name)
            self.assertEqual(self.server.addresses, [everybody[0], *everybody][:count])
        self.assertNotIn(b"code", self.server.taken[0].data)


class NoAddress(SendTest):
    call_words = ()

    def test_no_letter(self):
        """Nobody knows from which address they come, or where the result is."""
        for command in ("close", "publish"):
            ended = self.election(command)
            self.assertNotIn("Ready: ", ended.output)
            self.assertNotIn("letters out", str(self.acts()))
        self.assertIn(
            "9 letters of the close are not sent: debvote-election letters --send --server HOST --from ADDRESS; or",
            self.done("close").output,
        )


@NEEDS_PHP
class WithBox(boxes.BoxElectionTest):
    def setUp(self):
        super().setUp()
        self.server = MailServer()
        self.addCleanup(self.server.stop)

    def test_a_call_whose_page_nobody_has_seen(self):
        """It is not sent; `letters --send` asks itself, and sends it once the page is there."""
        words = (*boxes.UNTIL, "--to", "vote@club.example", "--at", self.host.at, "--box")
        next_ = ", vote.php too; then debvote-election add --box; then 9 letters of the call are not sent: "
        self.assertIn(next_, self.done("call", *words).output)
        self.done("desk", given="ada 1,2,3,4\n")
        self.done("letters receipts")
        send = ("letters", "--send", "--server", self.server.name)
        fault = (
            "call: nobody has seen yet whether the web box works",
            "upload the folder call, then run the command again",
        )
        self.assert_fault(self.election(*send), 9, *fault)
        everybody = [f"{name}@club.example" for name in elections.NAMES]
        self.assertEqual(self.server.addresses, everybody[:1])
        self.upload()
        self.done(*send)
        self.assertEqual(self.server.addresses[1:], everybody)
        self.assertTrue(json.loads(self.done("status --json").output)["box"]["is_present"])
        # after an early close the page is asked once more before the letters of the close
        said = self.done("close --early").output
        self.assertNotIn("Ready: ", said)
        next_ = "\nNext: 9 letters of the close are not sent: debvote-election letters --send; or "
        self.assertIn(next_, said)
        self.done(*send)
        self.assertEqual(self.server.addresses[10:], everybody)
        said = self.done("publish --force --because early").output
        self.assertIn("Ready: 9 letters, letters/result/", said)
