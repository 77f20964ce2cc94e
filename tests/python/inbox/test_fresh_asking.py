"""What needs a fresh asking of the web box, which steps ask it themselves, and what is forced."""

import datetime
import os
import re
import shutil
import signal
import zoneinfo

import pytest

from debvote_tools.inbox.box_records import MOST

from tests.support import boxes, elections
from tests.support.boxes import OTHER, RANKS, now
from tests.support.elections import NAMES
from tests.support.terminal import Terminal
from tests.support.web_host import FIRST, Liar, passed_on

BERLIN = zoneinfo.ZoneInfo("Europe/Berlin")
UNSEEN = "nobody has seen yet whether the web box works, with page and links of now"
# what the page of the result says if the last ballots may not have come, and if the page was
# another one
MISSING = b"Ballots may have been sent on the page of the vote that the secretary did not get."
DOUBT = "was not that of the call"
ALL = "Is that all?"
FORCED = "--force --because 'The host is down.'"
REOPEN = "reopen --because 'A letter was found.'"


class AskedTest(boxes.BoxElectionTest):
    def acts(self) -> list[str]:
        return [str(name) for name, in self.rows("SELECT name FROM act ORDER BY act")]

    def is_present(self) -> bool:
        return bool(self.status()["box"]["is_present"])

    def demand_unseen(self, *kinds: str):
        for kind in kinds:
            self.refused(f"letters {kind}", f"{kind}: {UNSEEN}", "upload the folder call")

    def ending_soon(self, **clicks: str):
        """Called to end in ten minutes, and written to all, of whom some have clicked before the
        end.
        """
        self.begun("--until", f"{now(600):%Y-%m-%d %H:%M:%S}", "--zone", "UTC", **clicks)


class Letters(AskedTest):
    def test_what_was_not_seen(self):
        self.done("call", "--to", "vote@club.example", "--at", self.host.at, "--box")
        fault = "call: the call has a web box, and says no end of the vote"
        self.refused("letters call", fault, "call --until TIME")
        # a wrong address can be put right, as long as no letter has a link to it
        self.done("call", *boxes.UNTIL, "--at", self.host.at.replace("http:", "https:"))
        self.done("call", "--at", self.host.at)
        self.tells("status", "\nWeb box: not asked yet\n")
        self.demand_unseen("call")
        self.refused("add --box", f"{self.host.at}vote.php: it answers 404", "nothing was added")
        # what is written all the same says that the page takes none, and the log why
        self.done(f"letters call {FORCED}")
        for text in self.texts("call").values():
            self.assertIn("The page takes no ballots now", text)
            self.assertEqual((boxes.LINK.search(text), " _,_,_,_" in text), (None, True))
        self.tells("log --json", '"because": "The host is down."')
        # where nothing stops it is not told, and letters have the link
        self.upload()
        self.done("add --box")
        self.done(f"letters call {FORCED}")
        self.assertEqual(sorted(self.links()), NAMES)
        # an asking of an older list is none, nor is a look
        self.new_address("ada")
        for words, kinds in (
            ("add --box", ("call", "reminders")),
            ("add --box --look", ("reminders",)),
        ):
            self.done(words)
            self.demand_unseen(*kinds)
            self.upload()
        self.assertFalse(self.is_present())
        self.done("add --box")
        self.assertTrue(self.is_present())
        self.done("letters call")
        # what lies at the address of now is fetched first
        following = "\nNext: run debvote-election add --box, then upload the files of call to"
        self.tells("call --until '2099-12-06 18:00'", following)
        # nor is an asking at another address one
        self.move()
        self.demand_unseen("call", "reminders")

    def test_reminders_and_another_address(self):
        self.begun()
        self.done("letters reminders")
        # an asking is fresh for ten minutes
        self.off(500)
        self.done("letters reminders --yes")
        self.off(660)
        fault = "reminders: who voted by a click in the last ten minutes would be told that they have not; nothing was written: run debvote-election add --box"
        self.refused("letters reminders --yes", fault)
        moved = "call --at https://club.example/moved/"
        fault = "ballots may lie on the page at the address of now"
        self.refused(moved, fault, "run debvote-election add --box\n")
        self.done(f"letters reminders --yes {FORCED}")
        # the clock of the host is behind, so that by both clocks ten minutes are past
        self.off(700)
        self.tells("add --box", "seconds behind")
        asked = datetime.datetime.fromisoformat((self.scratch / "clock").read_text()).astimezone(
            BERLIN
        )
        said = f"Web box: 0 records when it was asked last, {asked:%Y-%m-%d %H:%M:%S} UTC+01:00\n"
        self.tells("status", said)
        fault = "would be told that they have not: when the web box was asked last, it was only "
        self.refused("letters reminders --yes", fault)

    def test_what_comes_next(self):
        """What `add --box` and `roll` say."""
        send = "9 letters of the call are not sent: debvote-election letters --send --server HOST; or by your mail program: debvote-election letters call, then debvote-election status --done letters"
        one = send.replace("9 letters of the call are", "1 letter of the call is")
        upload = f"upload call/vote.php again, since electors have new links; then debvote-election add --box; then {one}"

        def demand(following: str, said: str):
            self.assertEqual(said.splitlines()[-1], f"Next: {following}")

        self.call()
        demand(send, self.told("add --box"))
        self.done("letters call")
        self.say_done("letters")
        # the book has the key of the box
        wait = "until Saturday, {} December 2099, 18:00 (UTC+01:00) ballots come: debvote-election add FILE, or debvote-election desk"
        backup = "copy the book to another disk: debvote-election backup FILE; then "
        self.tells("add --box", f"Next: {backup}until Friday, 4 ")
        self.done("backup", self.scratch / "copy.db")
        self.done("call --until '2099-12-05 18:00'")
        self.upload()
        demand(send, self.told("add --box"))
        self.say_done("letters")
        demand(upload, self.new_address("ada"))
        self.upload()
        demand(one, self.told("add --box"))
        self.say_done("letters")
        demand(wait.format(5), self.told("roll --yes"))
        self.set_clock("2099-12-05T18:00:01+01:00")
        demand(f"{backup}debvote-election close", self.told("add --box"))
        self.say_done("backup")
        self.later()
        self.done("add --box")
        self.done("close --early")
        self.say_done("letters")
        self.later()
        demand("debvote-election count", self.told("add --box"))


class Closes(AskedTest):
    @pytest.mark.whole
    def test_an_early_one_and_after_it(self):
        self.begun(ada=RANKS)
        self.add_box()
        self.assertIn("Web box: 1 record when it was asked last", self.done("count --force").faults)
        self.off(700)
        # by the clock of the host it was not
        fault = "--box: the web box has not answered just now: when the web box was asked last, it was only "
        self.refused("close --early", fault, "run the command again")
        self.clock = {}
        self.add_box()
        self.later()
        note = "Note: the page still takes ballots, and says that they arrived: debvote-election count asks for them once more."
        self.tells("close --early", note)
        self.tells("status", "\nThen: debvote-election count\nThen: ")
        fault = "--box: the web box was not asked since the vote was closed early"
        (self.web / "vote.php").rename(self.web / "away")
        for words in ("count", "letters closed"):
            ended = self.election(words)
            self.assertEqual((ended.status, ended.faults.count(fault)), (9, 1), ended)
            self.assertIn("vote.php: it answers 404", ended.output + ended.faults)
        fault = "the web box was not asked since the end: run debvote-election add --box"
        self.assertIn(fault, self.election("publish").faults)
        self.done(f"letters closed {FORCED}")
        self.done("count --force")
        self.done(f"publish {FORCED}")
        self.assertIn(MISSING, self.read("result/index.html"))
        # a click after the close is acknowledged by the page, and waits; asked once, nothing stops
        (self.web / "away").rename(self.web / "vote.php")
        self.later()
        self.click("ben")
        before = len(self.acts())
        # what is said of an asking is in no file with the sheet
        ended = self.done("count")
        self.assertTrue(ended.output.startswith("Poll: "), ended)
        self.assertIn("The web box has 2 records.\n", ended.faults)
        self.done("count")
        self.assertEqual(self.acts()[before:], ["letters"])
        self.tells("held", "it arrived after the vote was closed")
        self.done("letters closed")
        # a later close needs none
        self.done(REOPEN)
        self.later(5000)
        self.done("close --early")
        self.done("count")
        self.done("publish --language en result-2")
        self.assertNotIn(MISSING, self.read("result-2/index.html"))

    def test_the_end_by_both_clocks(self):
        self.begun(ada=RANKS)
        self.add_box()
        self.set_clock("2099-12-04T18:00:01+01:00")
        # by the clock of the host the end has not come
        ended, there = self.election("close"), self.boxes_kept()[-1]["time"]
        there = datetime.datetime.fromisoformat(str(there)).astimezone(BERLIN)
        only = f"was not asked since the end: when the web box was asked last, it was only {there:%Y-%m-%d %H:%M:%S} UTC+01:00 by its own clock; act "
        cure = "run the command again; if it does not answer any more, close with --force --because TEXT (the result page says so)"
        self.assert_fault(ended, 9, only, cure)
        # a host that does not answer stops the close as ever, and by force it goes on unasked
        self.host.__exit__()
        before = len(self.acts())
        ended = self.election("close")
        self.assert_fault(ended, 9, "was not asked since the end", "nothing was changed", cure)
        self.assertIn("vote.php: it does not answer: ", ended.output)
        said = self.told(f"close {FORCED}")
        self.assertEqual(self.acts()[before], "close")
        self.assertNotRegex(said, "still takes ballots|The web box was asked")
        # the last asking brought nothing
        self.assertRegex(said, "Added last: (?!2099|never)")
        self.done("count")
        self.done("publish")
        for part in (MISSING, b"The host is down."):
            self.assertIn(part, self.read("result/index.html"))
        # a later close needs none
        self.done(REOPEN)
        self.done("close")

    def test_an_asking_of_the_second_of_an_early_close_is_none(self):
        """A ballot of that second may have come after it."""
        self.call()
        self.off(-1800)
        self.done("add --box")
        self.done("close --early")
        # the asking by `count` itself has this second, too
        fault = "--box: the web box was not asked since the vote was closed early"
        self.assertIn(fault, self.election("count").faults)

    def test_what_was_asked_after_the_end_is_asked_again(self):
        """By the clock of the host the end has come, by that of this computer it has not."""
        self.off(-3600)
        until = f"{now(-120):%Y-%m-%d %H:%M+00:00}"
        self.done("call", "--until", until, "--to", "x@club.example", "--at", self.host.at, "--box")
        self.upload()
        self.done("desk", given=f"ada {RANKS}\n")
        self.done("add --box")
        self.clock = {}
        self.done("close")
        self.assertEqual(len(self.boxes_kept()), 2)
        self.assertNotIn("the web box", self.election("count").faults)
        self.done("publish")
        self.assertNotIn(MISSING, self.read("result/index.html"))

    def test_new_ballots_in_time_stop_it(self):
        """Also with --yes, and elsewhere than at a terminal; closed again it needs no new asking,
        and clicks after the end stop nothing.
        """
        self.ending_soon(**dict.fromkeys(("ada", "ben", "cleo"), RANKS))
        self.later(601)
        self.click("dan")
        ended = self.election("close --yes")
        asked = len(self.acts())
        stopped = f"the web box was asked, 4 new ballots are kept; act {asked} (letters) was done; nothing was closed: run debvote-election add --box"
        self.assert_fault(ended, 9, stopped)
        self.assertIn("The web box has 4 records.\n", ended.output)
        self.assertEqual((self.acts()[-1], self.standing()), ("letters", {}))
        # what is kept stops it until it is entered, and nothing is asked again
        self.refused("close", "these letters arrived in time, and wait: 1, 2, 3;")
        self.assertEqual(len(self.acts()), asked)
        self.add_box()
        asked = len(self.acts())
        self.click("dan", OTHER)
        self.done("close")
        self.assertEqual(self.acts()[asked], "close")
        self.assertEqual(sorted(self.standing()), ["ada", "ben", "cleo"])
        self.done("log --check")

    def test_a_kill_and_a_no_between_both_acts(self):
        """It was asked, by an act of its own before the question, and nothing is closed. A click
        after the end stops nothing.
        """
        self.ending_soon(ada=RANKS)
        self.add_box()
        self.later(601)
        self.click("ben")
        for asked in (["letters"], []):
            self.later()
            before = len(self.acts())
            terminal = Terminal(self, "close")
            shown = terminal.until(ALL)
            self.assertEqual(("2 records" in shown, "ben" in shown), (bool(asked), False), shown)
            self.assertEqual(self.acts()[before:], asked)
            if asked:
                os.kill(terminal.process, signal.SIGKILL)
            else:
                terminal.type("n\n")
                self.assertEqual(terminal.end()[1], 9)
            self.assertEqual(self.acts()[before:], asked)
        self.done("close")
        self.assertEqual(self.acts()[before], "close")
        self.assert_standing(ada=RANKS)
        self.done("log --check")

    def test_a_click_just_before_an_early_one(self):
        """It asks also if the box was asked just now; and where it can't, it stops."""
        self.begun()
        self.done("add --box")
        self.click("ada")
        self.refused("close --early", "the web box was asked, 1 new ballot is kept")
        self.done("held 1 --set-aside")
        (self.web / "vote.php").rename(self.web / "away")
        ended = self.election("close --early")
        self.assertIn("--box: the web box has not answered just now", ended.faults)
        self.assertEqual(ended.status, 9)

    def test_a_click_before_an_early_one_that_the_count_finds(self):
        self.begun()
        # too early without that word: then nothing is asked
        self.later(700)
        before = len(self.acts())
        self.assertEqual((self.election("close").status, len(self.acts())), (9, before))
        # the clock of the close stands, and the click comes before it
        self.off(self.devices_off + 30)
        terminal = Terminal(self, "close", "--early")
        terminal.until(ALL)
        self.click("ada")
        terminal.ends("y\n")
        self.later(60)
        self.refused("letters result", "nothing is published")
        # what the asking finds stops it as it stops the count, before electors have the checksum
        for words in ("letters closed", "count"):
            ended = self.election(words)
            self.assertIn("these letters arrived in time, and wait: 1;", ended.faults)
        self.assertEqual([*(self.folder / "letters" / "closed").iterdir()], [])
        self.done(f"letters closed {FORCED}")

    def test_in_a_secret_vote_numbers_alone_elsewhere_than_at_a_terminal(self):
        self.write("poll.toml", f"secret = true\n{elections.POLL}")
        self.done("codes")
        self.begun("--slips", "yes", ada=RANKS, ben=RANKS)
        # and one that nobody can open
        self.click_unopened("cleo")
        self.off(700)
        ended = self.election("close --early")
        said = ended.output + ended.faults
        self.assertIn("the web box was asked, 2 new ballots are kept; ", said)
        self.assertIn("Note: 1 record can't be opened, ", said)
        for word in ("ada", "ben", "cleo", "At the lake", RANKS):
            self.assertNotIn(word, said)
        # at a terminal it says who is to vote again
        lost = "ballots came by the links of these electors that nobody can open, and no later ones: cleo"
        self.assertIn(lost, Terminal(self, "close", "--early").end()[0])


class Pages(AskedTest):
    """An asking fetches the page, too: of a forgotten upload, and of a host that changes it."""

    other = "Note: the page there is not that of the folder call: a script in it would see what is chosen, and could vote in the name of who opens it."
    before = (
        "Note: the page there is the one of before: upload the folder call, then run this again."
    )

    def change(self):
        page = self.web / "index.html"
        page.write_text(page.read_text().replace("</body>", "<script>alert(1)</script></body>"))

    def published(self) -> str:
        """Closes and publishes: page and letter of the result."""
        self.done("close --early")
        self.later()
        self.add_box()
        self.done("publish --yes")
        files = ("result/index.html", "letters/result.txt")
        said = " ".join(re.sub("<[^>]+>", "", self.read(name).decode()) for name in files)
        return " ".join(said.split())

    @pytest.mark.whole
    def test_one_that_nobody_uploaded(self):
        """An extension makes a new one, which goes up before its letters go out: they ask
        themselves.
        """
        self.call()
        (self.web / "index.html").unlink()
        self.tells("add --box", "Note: the page did not come: it answers 404: ")
        self.demand_unseen("call")
        self.upload()
        said = self.tells("letters call", "The web box has 0 records.\n")
        self.assertNotIn("Note: the page", said)
        self.assertEqual((self.acts()[-2:], self.is_present()), (["letters", "letters out"], True))
        # an asking that saw page and links of now is enough
        self.done("letters call")
        self.assertEqual(self.acts()[-1], "letters out")
        self.click("ada")
        self.done("call --until '2099-12-06 18:00'")
        self.assertIn(self.before, self.election("letters call").output)
        # what is new is kept, and enters nothing
        self.assertEqual((self.acts()[-1], self.standing()), ("letters", {}))
        self.assertFalse(self.is_present())
        self.demand_unseen("call", "reminders")
        self.add_box()
        fault = "--box: the page on the web host was not that of the call; act "
        cure = "upload the folder call, then run the command again; if it does not answer any more, close with --force"
        self.refused("close --early", fault, cure)
        self.upload()
        self.done("letters call")
        self.assertEqual((self.acts()[-2:], self.is_present()), (["letters", "letters out"], True))
        # what this book made is no doubt, nor what lay there before the first letter
        self.assertNotIn(DOUBT, self.published())
        self.assertEqual(self.read("result/ballots.txt").decode(), f"ada {RANKS}\n")
        # the result takes the place of the page
        shutil.copytree(self.folder / "result", self.web, dirs_exist_ok=True)
        self.assertNotIn("Note: the page", self.told("add --box"))
        self.done("log --check")

    @pytest.mark.whole
    def test_one_with_a_script_more(self):
        """It stops each close until the right one is found; each day with it is told."""
        self.begun(ada=RANKS)
        self.change()
        # a look keeps nothing
        self.tells("add --box --look", self.other)
        self.assertTrue(self.is_present())
        morning, days = now(86_400).replace(hour=10), []
        self.later(int((morning - now()).total_seconds()))
        for hours in (0, 1, 23, 24):
            self.later(3_600 * hours)
            self.assertEqual(self.other in self.add_box(), hours < 24)
            days.append(f"{now(self.devices_off).day}")
            for _ in range(2 if hours == 23 else 0):
                self.refused("close --early", "the page on the web host was not that of the call")
                self.done(f"close --early {FORCED}")
                self.done(REOPEN)
            if hours == 23:
                self.upload()
        self.assert_standing(ada=RANKS)
        told = rf"When the secretary asked the web host on \w+, (\d+) .{{20,60}}, the page at {self.host.at} {DOUBT}"
        self.assertEqual(re.findall(told, self.published()), [days[0], days[2]] * 2)

    def test_one_that_does_not_come(self):
        """It is no other one, and what came by clicks is kept. A host may show another one to
        browsers, and one with a policy runs no script.
        """

        def lie(request: bytes) -> list[bytes]:
            said = passed_on(request, self.host)
            return [said.replace(*change, 1) if b"Mozilla" in request else said]

        end = b"\r\n\r\n"
        change = b"", b""
        policy = b"\r\nContent-Security-Policy: default-src 'self'"
        with Liar(lie) as between:
            self.begun("--at", between.at, ada=RANKS)
            for *change, note in (
                (b"</html>", b"", "the page did not come: its answer was cut off. Look"),
                (b" 200 ", b" 503 ", "the page did not come: it answers 503: "),
                (end, policy + end, "the web host sends its page with a Content-Security-Policy"),
            ):
                self.add_box(f"Note: {note}")
                is_next = "\nNext: the page on the web host is not that of the call: " in self.told(
                    "status"
                )
                self.assertEqual(is_next, "did not come" in note)
            said = self.published()
        self.assertNotIn("the page on the web host", self.told("status"))
        self.assertNotIn(DOUBT, said)
        self.assertEqual(said.count(f"it did not show the page at {between.at}"), 2)


class Moved(AskedTest):
    """`call --at` another web host, after letters went out with links to the page of before."""

    def test_what_the_page_of_before_goes_on_taking(self):
        self.begun(ada=RANKS)
        self.add_box()
        before, file = self.host.at, self.file()
        self.click("ben")
        said = self.move()
        note = f"\nNote: the page at {before} still takes ballots, which add --box fetches no more: remove its vote.php, then fetch its file {file.name} by FTP, and add it: debvote-election add FILE.\n"
        self.assertIn(note, said)
        # nothing lies at the new address yet
        following = f"\nNext: upload the files of call to {self.host.at}, vote.php too; then debvote-election add --box; then "
        self.assertIn("\nNext: 1 receipt is not written: ", said)
        self.say_done()
        self.tells("call", following)
        self.upload()
        # what the other host had is not missed here, nor does its clock say anything of this one
        self.host_off(-50)
        self.click("cleo")
        self.assertNotIn("has no more", self.add_box())
        self.assertNotIn(before, self.told("call"))
        shutil.copy(file, self.folder / "fetched.php")
        said = self.tells("add --yes fetched.php", "1 letter waits; 1 copy passed over.")
        self.done("held 4 --enter")
        self.assert_standing(**dict.fromkeys(("ada", "cleo", "ben"), RANKS))
        # of each host that is asked again it is said
        self.done("call", "--at", before)
        file.write_bytes(FIRST)
        self.add_box("Note: 1 record that it had it has no more.")

    @pytest.mark.whole
    def test_a_new_link_for_who_has_used_one_up(self):
        links = self.begun()
        for number in range(MOST):
            self.click("ada", f"{number % 4 + 1},1,1,1")
        self.later(60)
        self.add_box()
        none = "--new-link: {} has no link that could be replaced"
        for name, said in (
            ("nobody", none.format("nobody")),
            ("ada", "ada (Ada): a new link. Is that right?"),
        ):
            self.assertIn(said, self.election(f"roll --new-link {name}").faults)
        said = self.tells("roll --new-link ada --yes", "ada: a new link\n")
        self.upload()
        self.done("add --box")
        self.done("letters call")
        changed = [name for name, link in self.links().items() if link != links[name]]
        self.assertEqual(changed, ["ada"])
        self.click("ada", OTHER)
        self.later(60)
        self.add_box()
        self.assert_standing(ada=OTHER)
        self.done("close --early")
        self.refused("roll --new-link ada", none.format("ada"), status=2)

    @pytest.mark.whole
    def test_the_call_goes_to_everybody_again(self):
        self.begun()
        self.demand_reached(*NAMES)
        self.move()
        self.demand_reached()
        self.upload()
        self.done("add --box")
        for day, is_extension in ((6, False), (7, True)):
            self.done("call", "--until", f"2099-12-0{day} 18:00", "--at", self.host.at)
            self.demand_reached(*NAMES if is_extension else ())
            self.upload()
            self.done("add --box")
            # a letter to each elector, with the link to the page of now, is new: the call, or an
            # extension
            said = self.told("letters call")
            [folder] = re.findall(rf"^Wrote {len(NAMES)} letters: letters/(.*)$", said, re.M)
            for name, text in self.texts(folder).items():
                self.assertIn(f"{self.host.at}#{name}/", text)
                self.assertEqual("has changed." in text, is_extension)
        self.demand_reached(*NAMES)
        # the address of the result is not one of the page
        self.done("desk", given=f"ada {RANKS}\n")
        self.later()
        self.done("close --early")
        self.later()
        self.done("add --box")
        self.done("publish")
        self.done("letters result --at https://club.example/result/")
        self.demand_reached(*NAMES)

    def test_without_a_box_a_letter_is_as_good_as_before(self):
        self.done("call", *boxes.UNTIL, "--to", "x@club.example", "--at", "https://club.example/")
        self.done("letters call")
        self.done("call --at https://club.example/moved/")
        self.demand_reached(*NAMES)

    def demand_reached(self, *names: str):
        """The call has reached these electors, and nobody else."""
        others = [name for name in NAMES if name not in names]
        self.assertEqual(self.status()["not_reached"], dict.fromkeys(others, "no letter"))
