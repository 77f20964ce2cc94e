"""A vote with tellers from the call to the published page: what counts, what stops it, and who sees what somebody did."""

import contextlib
import hashlib
import io
import json
import pathlib
import re
import resource
import runpy
import subprocess
import sys
from unittest import mock

import pytest

from debvote_tools.call.lists import ballot_in_lists, read_list, text_of
from debvote_tools.election import Election
from debvote_tools.inbox.urn import slips_in
from debvote_tools.outbox.steps import ties_of

from tests.support import elections, offices, sealing, teller_elections, tellers
from tests.support.boxes import now
from tests.support.elections import ELECTION
from tests.support.program import ROOT
from tests.support.teller_elections import RANKS
from tests.support.tellers import list_name

SLIPS = "2,1,3,4\n 1 , 2,-,9\n-\n1,1,1,2\n2,1,3,4\n1,-,-,-\n"
ON_PAPER = ["fay", "gus", "hal", "ida", "jan", "kim"]
CALL = "call --box --at https://club.example/vote/ --to vote@club.example"


class BadInput(elections.ElectionTest):
    """What `call` refuses, all at once, and other commands before it."""

    poll = teller_elections.SECRET
    call_words = None

    def call(self, lines: str, *words: str) -> elections.Ended:
        self.write("tellers.txt", lines)
        return self.election(f"{CALL} {' '.join(words)}")

    def test_tellers(self):
        carla, dora, emil = tellers.tellers_file(3).splitlines(keepends=True)
        point = carla.split(" ")[1]
        many = f"{carla}{dora}{emil}{carla.replace('carla', 'fritz').replace(point[:9], point[:8] + 'A')}"
        for lines in (
            carla,
            many,
            carla + carla,
            carla + dora.replace("dora", "carla"),
            carla + carla.replace("carla", "dora"),
            carla + dora.replace(" B", " A"),
            f"{carla}dora {text_of(b'%c' % 4 + bytes(64))}\n",
            f"{carla}Dora {dora.split(' ')[1]}",
            f"{carla}\n{dora}",
        ):
            ended = self.call(lines)
            self.assert_fault(ended, 2, "tellers.txt: it has to have two or three tellers")

    def test_what_tellers_need(self):
        self.write("poll.toml", elections.POLL)
        self.write("members.csv", elections.members_of(["ada", "ben", "cleo", "dan"]))
        self.done("roll")
        self.write("tellers.txt", tellers.tellers_file())
        ended = self.election("call --slips no")
        self.assertEqual(ended.status, 2)
        for part in (
            "tellers.txt: tellers open the ballots of a secret vote about one question, by clicks",
            "--slips: with tellers slips have no codes",
            "tellers.txt: of fewer than 5 electors the numbers tell how each voted",
        ):
            self.assertIn(part, ended.faults)

    def test_codes(self):
        self.done("codes")
        ended = self.call(tellers.tellers_file())
        self.assert_fault(ended, 2, "tellers.txt: electors have codes, and with tellers nobody may")
        self.refused("codes", "electors have numbers that nobody else knows, and no codes")

    def test_no_step_codes_and_other_commands(self):
        self.refused("tellers list-1.txt", "the vote has no tellers")
        self.write("tellers.txt", tellers.tellers_file())
        self.assertNotIn("codes", self.done("check").output)
        said = self.done(CALL).output
        self.assertIn("carla bf6e-3480-d3f0-5753, dora e843-5051-d2bd-ab7e", said)
        self.assertIn("of version ", said)
        self.refused("tellers list-1.txt", "the vote is not closed")
        self.refused("codes", "and no codes")
        self.refused("letters call --codes --yes", "in a vote with tellers nobody has a code")
        sums = self.read("call/SHA256SUMS").decode()
        for name in ("tellers.txt", "lists.py", "poll.toml"):
            self.assertIn(
                f"{hashlib.sha256(self.read(f'call/{name}')).hexdigest()}  {name}\n", sums
            )
        self.assertIn('roll = ["01", "02", "03"', self.read("call/poll.toml").decode())
        slips = self.read("private/slips.html").decode()
        self.assertEqual(slips.count('class="slip"'), 9)
        for part in (*elections.NAMES, "http", self.read("call/poll.toml").decode()[-40:]):
            self.assertNotIn(f">{part}<", slips)

    def test_an_extension_does_not_read_the_file_and_another_book_has_other_keys(self):
        self.write("tellers.txt", tellers.tellers_file())
        self.done(f"{CALL} --until '2099-12-04 18:00'")
        self.write("tellers.txt", "nothing")
        self.done("call --until '2099-12-05 18:00'")
        page = self.read("call/index.html").decode()
        self.assertIn(f'const TELLERS = "{" ".join(tellers.tellers_file().split())}";', page)
        other = self.scratch / "other"
        self.done("new", other)
        self.fill_in(other)
        self.done("roll", "--folder", other)
        (other / "tellers.txt").write_text(tellers.tellers_file(3))
        ended = self.election(*f"{CALL} --folder {other}".split())
        self.assert_fault(ended, 2, "another vote has the keys of carla, dora", "make new keys")
        self.done("call --take-back")
        self.assertFalse((self.folder / "private/slips.html").exists())
        self.write("tellers.txt", tellers.tellers_file())
        self.done(CALL)
        self.done("call --take-back")
        self.done(*f"{CALL} --folder {other}".split())
        # the first one asks for other keys now
        self.write("tellers.txt", tellers.tellers_file())
        self.assert_fault(self.election(CALL), 2, "another vote has the keys of carla, dora")

    def test_letters_on_paper_have_no_ballot(self):
        self.write(
            "members.csv", elections.members_of(elections.NAMES).replace("gus@club.example", "")
        )
        self.done("roll")
        self.write("tellers.txt", tellers.tellers_file())
        self.done(f"{CALL} --until '2099-12-04 18:00'")
        self.done("letters call --force --because x")
        printed = "".join(
            file.read_text() for file in (self.folder / "letters/call").rglob("*.html")
        )
        text = " ".join(re.sub("<[^>]*>", "", printed).split())
        self.assertIn("You can vote on paper, with a slip that has no name", text)
        self.assertNotIn("Write a number into each box", text)

    def test_the_page_of_the_tellers(self):
        subprocess.run([ROOT / "docs/make-teller"], check=True, timeout=300)
        checksum, place = self.done("tellers").output.split()
        pages = {page.name: page for page in pathlib.Path(place).parent.glob("teller-*.html")}
        self.assertEqual(pages["teller-en.html"], pathlib.Path(place))
        sums = {name: tellers.sha256(page.read_bytes()) for name, page in pages.items()}
        self.assertEqual(sums["teller-en.html"], checksum)
        guide = (ROOT / "docs/SECRET-VOTES.md").read_text()
        # docs/make-teller --tags writes them
        self.assertEqual(
            sums, {name: sha for sha, name in re.findall(r"(\w{64})  (teller-\S+)", guide)}
        )
        self.write("tellers.txt", tellers.tellers_file())
        self.done(CALL)
        self.assertIn(checksum, self.read("call/index.html").decode())

    def test_without_tellers(self):
        self.done("codes")
        self.done(f"{CALL} --slips no")
        self.write("slips.txt", "1,2,3,4\n")
        self.refused("close --early --yes --paper slips.txt", "--paper: the vote has no tellers")
        self.refused("tellers slips.txt", "the vote has no tellers")
        self.assertNotIn("TELLERS", self.read("call/index.html").decode())


class WholeVote(teller_elections.TellerElectionTest):
    def test_from_the_call_to_the_page(self):
        """The meeting sees in voted.txt for whom the secretary has voted on paper, as for one who had clicked."""
        self.begun_with(clicks=RANKS | {"fay": "1,2,3,4"})
        del self.lines["fay"]
        self.paper(*ON_PAPER)
        texts = self.receipts()
        self.assertRegex(texts["ada"], r"Your ballot, sent .*20\d\d.*, counts as sealed\.")
        for name in ("fay", "gus"):
            self.assertIn("You voted on paper; clicks do not count.", texts[name])
        self.write("slips.txt", SLIPS)
        self.close_early("--paper", "slips.txt")
        closed = self.text("letters/closed.txt")
        voted = self.read("urn/voted.txt")
        for part in (
            "5 ballots came by a click, 5 on paper, and 1 slips were spoilt.",
            f"10 sealed ballots: list-0.txt at {self.host.at}list-0.txt. carla opens it in the hall, or after ",
            tellers.sha256(self.list_of(0)),
            tellers.sha256(voted),
        ):
            self.assertIn(part, closed)
        rows = [f"{name} click" for name in RANKS] + [f"{name} paper" for name in ON_PAPER]
        self.assertEqual(voted.decode().splitlines(), rows)
        typed = [
            line.split(" ")[1] for line in self.read("private/paper.txt").decode().splitlines()
        ]
        self.assertEqual(typed, ["1,-,-,-", "1,1,1,2", "1,2,-,3", "2,1,3,4", "2,1,3,4"])
        self.refused("count", "the tellers have not opened all layers yet")
        self.opened()
        paper = self.read("private/paper.txt").decode().splitlines()
        self.assertEqual(self.ballots(), sorted([*self.lines.values(), *paper]))
        self.tells("count", "Electors: 12\n")
        self.assertEqual(json.loads(self.told("status --json"))["voters"], 10)
        self.told("publish", "--yes")
        self.published()
        self.told("letters", "result")
        text = self.texts("result")["ada"]
        self.assertIn("Number missing? Say so now, with your file or two witnesses.", text)
        for step in range(3):
            self.assertIn(f"{tellers.sha256(self.list_of(step))} {list_name(step)}", text)
        export = self.scratch / "export"
        self.done("export", "--yes", export)
        places = [f"{n:02} {line.split(' ')[1]}" for n, line in enumerate(self.ballots(), start=1)]
        self.assertEqual((export / "ballots.txt").read_text().splitlines(), places)
        self.assertEqual((export / "poll.toml").read_bytes(), self.read("call/poll.toml"))

    def published(self):
        """The folder of the result: its files, which its own programs check, and its page."""
        result = self.folder / "result"
        page = (result / "index.html").read_text()
        for name in self.lines:
            number, ranks = self.lines[name].split(" ")
            self.assertIn(f"<b>{number}</b> <code>{ranks}</code>", page)
        self.assertNotIn('id="Find"', page)
        self.assertNotIn("seal.txt", {file.name for file in result.iterdir()})
        for words in (
            ["lists.py"],
            ["recount.py", "count", "--poll", "poll.toml", "--ballots", "ballots.txt"],
        ):
            ended = subprocess.run(
                ["/usr/bin/python3", "-I", *words], cwd=result, capture_output=True, timeout=60
            )
            self.assertEqual((ended.returncode, ended.stderr), (0, b""), ended)
        sums = subprocess.run(["sha256sum", "-c", "--quiet", "SHA256SUMS"], cwd=result, timeout=60)
        self.assertEqual(sums.returncode, 0)
        # debvote-publish takes this roll
        words = [
            "--poll",
            result / "poll.toml",
            "--ballots",
            result / "ballots.txt",
            self.scratch / "again",
        ]
        ended = self.run_program("/usr/bin/python3", elections.PUBLISH, *words)
        self.assertEqual(ended.status, 0, ended)

    def everything(self, *outputs: str) -> bytes:
        """All that is on this computer and on the web host, and what was said."""
        places = (self.folder, self.web)
        files = (file for place in places for file in place.rglob("*") if file.is_file())
        return b"\0".join(
            [*(file.read_bytes() for file in files), *(one.encode() for one in outputs)]
        )

    @pytest.mark.whole
    def test_nobody_finds_number_or_ranks_of_a_click_before_the_last_list_nor_a_name_after_it(self):
        rare = dict(zip(RANKS, ("3,1,4,2", "4,1,2,3", "2,4,1,3", "3,4,1,2", "4,2,1,3")))
        self.begun(**rare)
        said = [self.add_box()]
        self.receipts()
        said += [self.told(f"show {name} --yes") for name in rare]
        said += [self.told(words) for words in ("log", "held", "status", "status --json")]
        said += [self.close_early()]
        said += [self.told("tellers", self.open(1))]
        before = self.everything(*said)
        for name, line in self.lines.items():
            number, ranks = line.split(" ")
            for part in (number, ranks, self.lines[name]):
                self.assertNotIn(part.encode(), before, name)
        said += [self.told("tellers", self.open(2)), self.told("count")]
        self.told("publish", "--yes")
        self.told("letters", "result")
        after = self.everything(*said, *(self.told(f"show {name} --yes") for name in rare))
        for line in self.lines.values():
            self.assertIn(line.encode(), after)
        # the only names beside what was opened are those of who had it in hand: no file has both
        for file in self.folder.rglob("*"):
            data = file.read_bytes() if file.is_file() and file.name != "election.db" else b""
            if any(line.split(" ")[0].encode() in data for line in self.lines.values()):
                for name in rare:
                    self.assertIsNone(re.search(rb"\b%b\b" % name.encode(), data), (file, name))
        # in the book a row has one, or the other
        for (table,) in self.rows("SELECT name FROM sqlite_master WHERE type = 'table'"):
            for row in self.rows(f"SELECT * FROM {table}"):
                text = b" ".join(
                    cell if isinstance(cell, bytes) else str(cell).encode() for cell in row
                )
                if any(line.split(" ")[0].encode() in text for line in self.lines.values()):
                    self.assertFalse(
                        [name for name in rare if re.search(rb"\b%b\b" % name.encode(), text)],
                        row[:2],
                    )

    @pytest.mark.whole
    def test_a_lost_key_comes_back_from_its_halves_and_three_tellers(self):
        """The halves are tried in the browser; here any file with the same private key makes the same list."""
        self.begun_with()
        self.close_early()
        file = self.open(1)
        again = tellers.opened(self.list_of(0), 1)
        self.assertEqual(read_list("a", again).body, read_list("b", file.read_bytes()).body)
        self.assertNotEqual(again, file.read_bytes())
        self.told("tellers", file)
        file.write_bytes(again)
        # signed anew it is the same list
        self.told("tellers", file)
        self.tells("status", "dora opens list-1.txt in the hall, or once it ")


class Tie(teller_elections.TellerElectionTest):
    def test_the_casting_vote_is_for_an_option(self):
        """And for none of the check-off, by which members are counted."""
        names = ("ada", "ben", "cleo", "dan", "eve", "fay")
        self.begun_with(clicks=dict(zip(names, ["1,2,3,4", "2,1,3,4"] * 3)))
        self.close_early()
        self.opened()
        self.assertIn("Tie: 1 2\n", self.election("count").output)
        self.assertEqual(self.election("publish --yes").status, 1)
        ties = ties_of(election := Election(str(self.folder), ROOT / "bin"), election.history())
        self.assertEqual(ties, {"": ["At the lake", "In the town hall"]})
        self.assertIn('value="In the town hall" required', offices.Office(self).page())
        cast = f"--casting 'At the lake' --cast-by Ada --cast-on {now():%Y-%m-%d}"
        self.tells(f"publish --yes {cast} result-2", "Winner: 1 At the lake by casting vote\n")


@pytest.mark.whole
class ThreeTellers(teller_elections.TellerElectionTest):
    tellers_count = 3

    def test_all(self):
        self.begun_with()
        self.close_early()
        self.opened()
        self.assertEqual(self.ballots(), sorted(self.lines.values()))
        self.told("count")


class Paper(teller_elections.TellerElectionTest):
    def test_only_who_votes_on_paper_is_typed(self):
        self.begun_with()
        for line in ("fay 2,1,3,4", "fay 1,-,-", "fay lake", "fay -,-,1"):
            self.write("lines.txt", f"{line}\n")
            self.refused(
                "add lines.txt",
                "lines.txt:1: this is no line of this vote: ballots are sealed by the page alone",
            )
            self.election("desk", given=f"{line}\n")
        self.add(
            self.letter(
                "fay", "fay 2,1,3,4", subject=f"[{elections.ANY_MARK}-{elections.any_own('fay')}]"
            )
        )
        waits = self.tells("held", "a ballot that somebody can read does not count in this vote")
        letter = re.findall(r"^ *(\d+)  ", waits, re.M)[0]
        for words in (
            f"held {letter} --enter --yes",
            f"held {letter} --as 'fay 2,1,3,4'",
            f"held {letter} --as 'fay 1,-,-'",
        ):
            self.assertEqual(self.election(words).status, 9)
        self.assertIn(
            "nobody may read a ballot, so none can come by e-mail", self.receipts()["fay"]
        )
        self.assertEqual(
            [one for one, in self.rows("SELECT line FROM envelope WHERE letter IS NULL")], []
        )
        self.told(f"held {letter} --as 'fay paper'")
        self.write("lines.txt", "gus: paper\nHal  paper.\nida -,1,-\n")
        self.told("add lines.txt")
        lines = [
            line.decode()
            for line, in self.rows(
                "SELECT line FROM envelope WHERE CAST(line AS TEXT) LIKE '%-,1,-'"
            )
        ]
        self.assertEqual(lines, ["fay -,1,-", "gus -,1,-", "hal -,1,-", "ida -,1,-"])

    def test_a_mail_with_a_line_of_the_check_off_waits(self):
        self.begun_with()
        own = f"[{elections.ANY_MARK}-{elections.any_own('gus')}]"
        self.add(
            *(
                self.letter("gus", f"gus {ranks}", subject=own, number=n)
                for n, ranks in enumerate(("-,1,-", "1,-,-"))
            )
        )
        self.assertEqual(
            self.rows("SELECT line FROM envelope WHERE CAST(line AS TEXT) LIKE 'gus%'"), []
        )
        self.assertEqual(self.told("held").count("a ballot that somebody can read"), 2)

    def test_a_click_that_was_taken_back_does_not_wait_beside_paper(self):
        self.begun_with()
        self.told("undo --yes")
        self.assertEqual(self.status()["waiting"], 5)
        self.paper("ada")
        self.assertEqual(self.status()["waiting"], 4)
        self.told("undo --yes")
        self.assertEqual(self.status()["waiting"], 5)

    def test_a_new_address_makes_a_new_link_and_no_codes(self):
        self.begun_with()
        said = self.new_address("ada") + self.told("status")
        self.assertIn("upload", said)
        for word in ("slips.html", "code"):
            self.assertNotIn(word, said)
        self.assertFalse((self.folder / "private/codes.csv").exists())
        self.assertEqual(self.status()["voters"], 5)

    @pytest.mark.whole
    def test_paper_holds_until_its_line_is_struck(self):
        self.assert_holds_until("strike {} --yes --because mistaken")

    @pytest.mark.whole
    def test_paper_holds_until_its_line_is_taken_back(self):
        self.assert_holds_until("undo --yes")

    def assert_holds_until(self, act: str):
        self.begun_with()
        self.paper("ada")
        first = self.lines["ada"]
        self.later()
        self.click("ada", "4,1,2,3")
        self.assertNotIn("1 sealed ballot", self.add_box())
        state = self.status()
        self.assertEqual((state["stopping"], state["waiting"]), ([], 0))
        self.assertIn("You voted on paper; clicks do not count.", self.receipts()["ada"])
        [(number,)] = self.rows(
            "SELECT envelope FROM envelope WHERE line = CAST('ada -,1,-' AS BLOB)"
        )
        letters = self.rows("SELECT max(letter) FROM letter")[0][0]
        self.refused(
            f"held {letters} --enter --yes",
            "ada has voted on paper, and clicks do not count",
        )
        self.told(act.format(number))
        # the later click waits for nobody's look, and stops the close until it is entered
        self.assertEqual(self.status()["waiting"], 1)
        self.add_box()
        self.assertIn("counts as sealed", self.receipts()["ada"])
        self.close_early()
        self.opened()
        self.assertIn(self.lines["ada"], self.ballots())
        self.assertNotIn(first, self.ballots())


class Blocks(teller_elections.TellerElectionTest):
    def test_a_copied_block_is_passed_over(self):
        self.begun_with()
        self.click("fay", self.blocks["ada"])
        self.add_box()
        self.assertEqual(self.status()["waiting"], 0)
        text = self.receipts()["fay"]
        self.assertIn(
            "another elector sent the same sealed ballot before. Open the page anew", text
        )
        said = self.close_early()
        self.assertIn(
            "is passed over: the ballot of fay is one that another elector sent before", said
        )
        self.opened()
        self.assertEqual(self.ballots(), sorted(self.lines.values()))

    def test_equal_blocks_of_one_elector_are_one_ballot(self):
        self.begun_with()
        self.later()
        self.click("ada", self.blocks["ada"])
        self.add_box()
        self.close_early()
        self.assertEqual(len(read_list("x", self.list_of(0)).ballots), 5)

    @pytest.mark.whole
    def test_the_earlier_one_comes_later(self):
        """The host holds a record back until another elector has copied it."""
        self.begun(**RANKS)
        self.click("fay", "1,2,-,-")
        held_back = self.records()[-1]
        self.keep(*self.records()[:-1])
        self.later()
        self.click("gus", self.blocks["fay"])
        self.add_box()
        self.keep(*self.records(), held_back)
        self.add_box()
        # it is older than the asking before, and waits, until somebody looks
        letters = self.rows("SELECT max(letter) FROM letter")[0][0]
        self.told(f"held {letters} --enter --yes")
        fault = "fay and gus have sent the same sealed ballot, gus later"
        self.refused("close --early --yes --force --because x", fault, "strike")
        self.tells("status", fault)
        [(number,)] = self.rows(
            "SELECT envelope FROM envelope WHERE line = CAST('gus 1,-,-' AS BLOB)"
        )
        self.told("strike", number, "--yes", "--because", "copied")
        self.close_early()
        self.opened()
        self.assertIn(self.lines["fay"], self.ballots())

    def test_what_is_no_ballot_of_tellers_is_not_opened(self):
        self.begun_with()
        shorter = self.block("fay", "1,2,3,4")[:-4]
        self.click("fay", shorter + "=" * 4)
        self.click("gus", shorter)
        self.add_box()
        self.assertEqual(self.status()["lost"], ["fay", "gus"])
        self.refused(
            "close --early --yes",
            "ballots came by the links of these electors that nobody can open",
        )

    def test_whose_blocks_the_first_teller_refuses(self):
        """k+1 of 5+k electors send nonsense: there is no result, and all see whose it was."""
        self.begun_with(clicks=RANKS | {"fay": "BA" + "A" * (4 * (3 + 4 + 54) - 2)})
        self.close_early()
        said = self.told("tellers", self.open(1))
        self.assertIn("list-1.txt: 5 ballots, 1 refused", said)
        self.assertIn("Refused: the ballot of fay. Tell them.", said)


class Close(teller_elections.TellerElectionTest):
    def test_few_clicks(self):
        self.begun_with(clicks=dict([*RANKS.items()][:4]))
        fault = "there are 4 clicks, and of fewer than 5 each may be known"
        self.refused("close --early --yes --force --because x", fault, "return the slips unread")
        self.tells("status", f"Before the close: {fault}")

    def test_slips(self):
        self.begun_with()
        self.paper(*ON_PAPER)
        close = "close --early --yes --force --because x --paper slips.txt"
        for slips, status, fault in (
            (
                "1,2,3,4\n" * 5,
                9,
                "6 electors are checked off as voting on paper, and there are 5 slips",
            ),
            ("1,2,3,4\n" * 7, 9, "and there are 7 slips"),
            (
                "1,2,3,4\n" * 4 + "-\n-\n",
                9,
                "there are 4 slips, and of fewer than 5 each may be known",
            ),
            (
                "1,2,3,4\n\n1,2,3\nx\n1,2,3,4,5\n0,1,2,3\n",
                2,
                "these lines are not the ranks of a slip: 2, 3, 4, 5, 6",
            ),
            ("fay 1,2,3,4\n" * 6, 2, "1, 2, 3, 4, 5, 6"),
            ("--\n" * 6, 2, "1, 2, 3, 4, 5, 6"),
        ):
            self.write("slips.txt", slips)
            self.refused(close, fault, status=status)
        self.refused("close --early --yes", "and there are 0 slips")
        # all spoilt: none of them is known
        self.write("slips.txt", "-\n" * 6)
        self.told(close.replace(" --force --because x", ""))
        self.assertEqual(self.read("private/paper.txt"), b"")
        self.assertEqual(self.read("urn/voted.txt").count(b" paper\n"), 6)
        self.assertIn("Nothing was changed", self.told(close))

    def test_few_on_paper(self):
        self.begun_with()
        self.paper("fay")
        self.tells(
            "status", "1 elector voted on paper, and of fewer than 5 slips each may be known"
        )
        self.write("slips.txt", "1,2,3,4\n")
        self.refused(
            "close --early --yes --paper slips.txt", "there are 1 slip, and of fewer than 5"
        )

    def test_the_list_is_void_when_the_vote_is_opened_again(self):
        self.begun_with()
        self.close_early()
        first = tellers.sha256(self.list_of(0))
        fault = "nobody says that carla has not opened list 0"
        self.refused("reopen --yes --because forgotten", fault)
        words = ["reopen", "--yes", "--because", "forgotten"]
        question = "Does carla say that list 0 was not opened?"
        text, status = self.at_terminal(question, "n", *words)
        self.assertEqual((fault in text, status), (True, 9), text)
        text, status = self.at_terminal(question, "y", *words)
        self.assertEqual(status, 0, text)
        void = self.text("letters/void.txt")
        self.assertIn(f"is void, and nobody opens it: {first}", void)
        self.tells("status", "letters about the void list are not sent")
        self.assertIn(first, self.texts("void")["ada"])
        opened = self.open(1)
        self.told("close --early --yes")
        self.refused("letters void", "void: no list of tellers is void")
        is_same = tellers.sha256(self.list_of(0)) == first
        void = f"The list with this checksum is void, and nobody opens it: {first}"
        self.assertTrue(is_same or void in self.text("letters/closed.txt"))
        self.told("tellers", opened if is_same else self.open(1))
        anew = "the tellers have opened the ballots, and a second opening would show whose differ"
        for words in ("reopen --yes --because x", "strike 1 --yes --because x", "undo --yes"):
            self.refused(words, anew, "hold the vote anew, with new keys")


class HandedOn(teller_elections.TellerElectionTest):
    def setUp(self):
        super().setUp()
        self.begun_with()
        self.close_early()

    def hand_on(self, name: str, body: str) -> pathlib.Path:
        file = self.scratch / f"handed-on-{next(self.numbers)}.txt"
        file.write_text(tellers.signed(body, name))
        return file

    def test_what_tellers_may_not_hand_on(self):
        first = read_list("list-0.txt", self.list_of(0))
        right = self.open(1)
        this = read_list("list-1.txt", right.read_bytes())
        text = right.read_text()
        other_block = "B" + this.ballots[0][1:-1] + ("A" if this.ballots[0][-1] != "A" else "B")
        cases = {
            "it is not signed by carla": self.hand_on("dora", this.body.decode()),
            "carla was given 5 ballots, and handed on 4": self.hand_on(
                "carla", tellers.body_of(first, 1, [*this.ballots[1:]], [])
            ),
            "carla was given another list-0.txt than this: the secretary and carla have to show": self.hand_on(
                "carla", this.body.decode().replace(first.digest, "1" * 64)
            ),
        }
        for words, file in cases.items():
            self.refused(f"tellers {file}", words)
        self.write("broken.txt", text.replace("debvote urn 1", "debvote urn 2"))
        self.refused("tellers broken.txt", "it is no list of a vote with tellers, or was changed")
        few = self.hand_on(
            "carla", tellers.body_of(first, 1, [*this.ballots[1:]], [first.ballots[0]])
        )
        self.refused(f"tellers {few}", "it has 4 ballots, and of fewer than 5 each may be known")
        self.told("tellers", right)
        # two lists of one step that one teller has signed
        other = tellers.body_of(first, 1, [*this.ballots[1:], other_block], [])
        other = self.hand_on("carla", other)
        self.refused(
            f"tellers {other}", "another list-1.txt was entered, and carla has signed both"
        )
        self.write("other-0.txt", self.list_of(0).replace(b"title Where", b"title There"))
        self.refused("tellers other-0.txt", "another list-0.txt was entered")

    def test_a_gap_and_all_at_once(self):
        first = self.open(1)
        (self.folder / "urn/list-1.txt").write_bytes(first.read_bytes())
        second = self.open(2)
        self.refused(f"tellers {second}", "the next list is list-1.txt, and this is of step 2")
        said = self.told("tellers", second, first)
        self.assertIn("Print urn/list-2.txt, and let members look for their numbers.\n", said)
        self.assertEqual(self.ballots(), sorted(self.lines.values()))


class WhoCanDoWhat(teller_elections.TellerElectionTest):
    """What is done by who is not honest, and who sees it by what; the page's part is tried in the browser."""

    def own_file(self, name: str, keys: dict[int, int]) -> str:
        """The file that the page of an elector saves, whose own keys are these, by step."""
        mark, line = self.of_page("mark"), self.lines[name]
        points = [*tellers.points().values()]
        privates = [*map(tellers.private_key, keys.values())]
        blocks = ballot_in_lists(line, 4, mark, points, privates)
        rows = [f"{step} {blocks[step - 1]} {text_of(keys[step].to_bytes(32))}" for step in keys]
        self.blocks[name] = blocks[0]
        return "\n".join([f"debvote ballot 1 {mark}", *rows, line, ""])

    def lists_say(self, own: str, *given: bytes) -> str:
        folder = self.scratch / f"reader-{next(self.numbers)}"
        folder.mkdir()
        for step, data in enumerate(given):
            (folder / list_name(step)).write_bytes(data)
        (folder / "my-ballot.txt").write_text(own)
        script, said = str(self.folder / "call/lists.py"), io.StringIO()
        with contextlib.chdir(folder), contextlib.redirect_stdout(said), mock.patch.object(
            sys, "argv", [script, "my-ballot.txt"]
        ):
            try:
                runpy.run_path(script, run_name="__main__")
            except SystemExit as end:
                said.write(str(end.code))
        return said.getvalue()

    def begun_with_file(self) -> str:
        self.begun(**RANKS)
        self.lines["fay"] = "zzzzzzzz 4,3,2,1"
        own = self.own_file("fay", {1: 11, 2: 12})
        self.click("fay", self.blocks["fay"])
        self.add_box()
        return own

    def test_a_teller_who_drops_exchanges_or_refuses(self):
        own = self.begun_with_file()
        self.close_early()
        zero = self.list_of(0)
        first = read_list("list-0.txt", zero)
        right = read_list("list-1.txt", tellers.opened(zero, 1))
        inside = own.split("\n")[2].split(" ")[1]
        self.assertIn(inside, right.ballots)
        rest = [one for one in right.ballots if one != inside]
        exchanged = text_of(b"\4" + bytes(len(inside) * 3 // 4 - 1))
        lost = "list-1.txt: carla lost your ballot: lines 1 to 1 below the first of my-ballot.txt show it"
        for body in (
            tellers.body_of(first, 1, [*rest, exchanged], []),
            tellers.body_of(first, 1, rest, [self.blocks["fay"]]),
        ):
            self.assertIn(lost, self.lists_say(own, zero, tellers.signed(body, "carla").encode()))
        # the last one: another line, of which the signature is right
        one = tellers.opened(zero, 1)
        last = read_list("list-2.txt", tellers.opened(one, 2))
        rest = [line for line in last.ballots if line != self.lines["fay"]]
        body = tellers.body_of(read_list("list-1.txt", one), 2, [*rest, "zzzzzzzz 1,2,3,4"], [])
        said = self.lists_say(own, zero, one, tellers.signed(body, "dora").encode())
        self.assertIn("list-2.txt: dora lost your ballot: lines 1 to 2", said)
        # a teller who drops without saying so is seen by all
        body = tellers.body_of(first, 1, rest[:2], [])
        self.assertIn(
            "handed on 2", self.lists_say(own, zero, tellers.signed(body, "carla").encode())
        )

    def test_the_secretary_leaves_a_click_out_of_list_0(self):
        own = self.begun_with_file()
        self.close_early()
        zero = read_list("list-0.txt", self.list_of(0))
        blocks = [one for one in zero.ballots if one != self.blocks["fay"]]
        head, *lines = self.list_of(0).decode().splitlines()
        without = [head.replace(" 0 6 ", " 0 5 "), *lines[:3], *blocks]
        data = "".join(f"{line}\n" for line in without).encode()
        said = self.lists_say(own, data)
        self.assertIn(
            "its ballot is not in list-0.txt: you have voted again later, or the secretary left it out",
            said,
        )

    def test_the_host_sees_no_name_rank_or_number(self):
        self.begun_with()
        data = b"".join(file.read_bytes() for file in self.web.rglob("*") if file.is_file())
        for name, line in self.lines.items():
            for part in (name, *line.split(" "), self.blocks[name]):
                self.assertIsNone(
                    re.search(rb"(?<![\w.-])%b(?![\w.-])" % re.escape(part.encode()), data), part
                )
        self.assertEqual(len({len(record) for record in self.records()}), 1)


class Motion(teller_elections.TellerElectionTest):
    poll = teller_elections.SECRET.replace(
        'options = ["At the lake", "In the town hall", "Sell the house and meet there"]\nratios = [1, 1, 3]',
        'options = ["We meet"]\nratios = [2]\nmotion = true',
    )

    def test_words_on_slips(self):
        self.call()
        self.write("slips.txt", "yes\nno\nabstain\n1,2\n- , 1\nYes.\n")
        with contextlib.chdir(self.folder), mock.patch.dict("os.environ", elections.environment()):
            read = slips_in(Election(".", None), "slips.txt")
        self.assertEqual(read, ["1,2", "2,1", "1,1", "1,2", "-,1", "1,2"])
        self.assertIn(
            "or in place of the ranks one word: yes, no, abstain",
            self.text("private/slips.html"),
        )


@pytest.mark.whole
class Speed(teller_elections.TellerElectionTest):
    names = [f"m{n:04}" for n in range(1000)]

    def test_a_thousand_ballots(self):
        self.begun()
        links = self.links()
        mark = self.of_page("mark")
        records = list[bytes]()
        begin = now()
        for number, name in enumerate(self.names):
            place = self.place_of(name, links[name])
            text = self.sealed(f"{name} 1,2,3,4", place, number, begin)
            records.append(
                sealing.record(mark, place, number, begin.isoformat()[:19], text).encode()
            )
        self.off(3)
        self.host_off(3)
        self.keep(*records)
        self.add_box()

        def seconds(*words: object) -> float:
            before = resource.getrusage(resource.RUSAGE_CHILDREN)
            ended = subprocess.run(
                ["/usr/bin/python3", ELECTION, *map(str, words)],
                cwd=self.folder,
                env=elections.environment() | self.clock | {"XDG_STATE_HOME": str(self.state)},
                capture_output=True,
                timeout=600,
            )
            self.assertEqual(ended.returncode, 0, ended)
            after = resource.getrusage(resource.RUSAGE_CHILDREN)
            return after.ru_utime + after.ru_stime - before.ru_utime - before.ru_stime

        spent = {"close": seconds("close", "--early", "--yes")}
        for step in (1, 2):
            spent[f"list {step}"] = seconds("tellers", self.open(step))
        for what, time in spent.items():
            self.assertLess(time, 5, what)
        self.assertEqual(len(self.ballots()), 1000)
