"""`call --box` and `add --box`: what the web host gets, and what a click becomes beside letters."""

import contextvars
import datetime
import email
import hashlib
import itertools
import shutil
import sys
import unittest.mock
from concurrent.futures import ThreadPoolExecutor

import pytest

from debvote_tools.book import queries
from debvote_tools.call.box import asking_word, list_digest, proof_digest
from debvote_tools.election import Election
from debvote_tools.inbox import box_records
from debvote_tools.inbox.box_records import MOST
from debvote_tools.inbox.vote import Vote

from tests.support import boxes, elections, sealing
from tests.support.boxes import OTHER, RANKS, now
from tests.support.elections import NAMES
from tests.support.program import PROGRAM
from tests.support.web_host import Liar, passed_on, request_of


HTTPS = "--at https://club.example/vote/"


class CallWithBox(elections.ElectionTest):
    call_words = None

    def test_what_stands_against_it_is_told_at_once(self):
        before, page = self.contents(), "--box: the page needs an address by https"
        plain = "--at http://club.example/"
        for words, *parts in (
            (plain, page),
            (
                f"--keyring x {plain}",
                page,
                "--box: letters have to be signed",
                "x: No such file",
            ),
        ):
            ended = self.election(f"call --box {words}")
            lines = ended.faults.splitlines()
            self.assertEqual((ended.status, len(lines)), (2, len(parts)), ended)
            for part, line in zip(parts, lines):
                self.assertIn(part, line)
        self.assertEqual(self.contents(), before)

    def test_the_folder_the_key_and_another_call(self):
        said = self.done(f"call --box {HTTPS}").output
        # nor can a vote with a box be one with signatures afterwards
        plain = "call --keyring x --at http://club.example/"
        self.refused(plain, "--box: the page needs an address by https", status=2)
        self.refused("call --keyring x", "--keyring: the call was made without it")
        for part in (
            "0 * * * * XDG_STATE_HOME=",
            f"debvote-election add --folder {self.folder} --box --yes",
            "upload the files of call to https://club.example/vote/, vote.php too; then debvote-election add --box; then 9 letters of the call are not sent: debvote-election letters --send --server HOST --from ADDRESS; or",
        ):
            self.assertIn(part, said)
        script = self.read("call/vote.php")
        self.assertNotIn(b"vote.php", self.read("call/SHA256SUMS"))
        keys = "SELECT DISTINCT data FROM sealed WHERE name = 'box key'"
        [(key,)] = self.rows(keys)
        assert isinstance(key, bytes)
        self.assertEqual(len(key), 32)
        # the same book makes the same bytes, and an extension changes none
        (self.folder / "call/vote.php").unlink()
        for words in ((), boxes.UNTIL):
            self.done("call", *words)
            self.assertEqual(self.read("call/vote.php"), script)
        scripts = self.rows("SELECT count(*) FROM sealed WHERE name = 'call/vote.php'")
        self.assertEqual(scripts, [(1,)])
        # a new address changes one line of the script
        self.write("members.csv", elections.members_of(NAMES).replace("ben@club", "ben@new"))
        self.done("roll --yes")
        before, after = (data.splitlines() for data in (script, self.read("call/vote.php")))
        self.assertEqual((len({*before} - {*after}), len(before)), (1, len(after)))
        # taken back: without --box there is no script, with it the key is the same
        self.done("call --take-back")
        self.done(f"call {HTTPS}")
        self.assertFalse((self.folder / "call/vote.php").exists())
        fault = "--box: the call was made without it"
        self.refused("call --box", fault)
        self.refused("add --box", fault, status=2)
        self.done("call --take-back")
        self.done(f"call --box {HTTPS}")
        self.assertEqual(self.rows(keys), [(key,)])
        # the key is in nothing that leaves the book
        self.done("export", self.folder / "out")
        for name, data in self.contents().items():
            for secret in (key, key.hex().encode(), asking_word(key).encode()):
                self.assertTrue(name == "election.db" or secret not in data, name)


class Clicks(boxes.BoxElectionTest):
    def test_the_link_is_in_the_letters_to_its_elector_alone(self):
        self.begun()
        files = {name: data.replace(b"=\n", b"") for name, data in self.contents().items()}
        letters = {name: data for name, data in files.items() if name.endswith(".eml")}
        self.assertEqual(len(letters), len(NAMES))
        for name, data in letters.items():
            _, own, link = boxes.link_in(data)
            head = data.partition(b"\n\n")[0].decode()
            self.assertEqual((f"-{own}]" in head, link in head), (True, False))
            found = [other for other, text in files.items() if link.encode() in text]
            self.assertEqual([other for other in found if other != "election.db"], [name])

    def test_clicks_letters_and_what_is_kept(self):
        self.begun(ada=RANKS, ben="2,1,-,4")
        self.click("ada", OTHER)
        self.refused("add --box x", "--box: it takes no file", status=2)
        # a look is no asking
        before = self.rows("SELECT * FROM act")
        said = self.told("add --box --look")
        preview = "3 new letters; 0 came before.\n3 ballots of letters would go in; 0 letters wait.\nNothing was changed."
        self.assertIn(preview, said)
        self.assertIn("ben (web box, record 2): ", said)
        self.assertEqual(self.rows("SELECT * FROM act"), before)
        # letters wait for the secretary, and are not entered by what cron runs
        self.write("inbox.mbox", self.of_this_vote(self.letter("cleo", f"cleo {RANKS}")))
        self.assertEqual(self.election("add inbox.mbox").status, 9)
        said = self.add_box("The web box has 3 records.\n3 new letters; 0 came before.\n")
        self.assertNotIn("cleo", said)
        standing = {"ada": OTHER, "ben": "2,1,-,4"}
        self.assert_standing(**standing)
        again = "The web box has 3 records.\n0 new letters; 3 came before.\n"
        self.assertTrue(self.add_box().startswith(again))
        kept = self.boxes_kept()
        self.assertEqual([(one["records"], one["gone"]) for one in kept], [(0, 0), (3, 0), (3, 0)])
        self.assertEqual(kept[0]["list"], list_digest(self.read("call/vote.php")))
        # taken back, and asked again: that waits for whoever took it back
        self.done("undo")
        self.add_box()
        self.assert_standing()
        # two of one elector may be of one second, so each is named apart
        for number in (2, 3, 4):
            self.done(f"held {number} --enter --force not-tied --force voted-since")
        self.assert_standing(**standing)

    def test_a_link_that_a_new_one_has_replaced_waits_and_both_addresses_are_told(self):
        links = self.begun()
        self.new_address("ada")
        # the host has the older list
        self.click("ada", RANKS, links["ada"])
        said = self.add_box()
        other = "Note: the web host has another vote.php than the folder call, as an older one: upload that of the folder"
        self.assertIn(other, said)
        self.assertIn("with a link that is not that of ada now", said)
        self.assert_standing()
        self.done("letters receipts")
        files = (self.folder / "letters/receipts").rglob("*.eml")
        told = sorted(email.message_from_bytes(file.read_bytes())["To"] for file in files)
        self.assertEqual(told, ["ada@club.example", "ada@new.example"])
        self.upload()
        self.assertNotIn("another vote.php", self.add_box())
        self.done("letters call")
        self.assertNotEqual(self.links()["ada"], links["ada"])
        self.assertEqual(self.sent("ada", RANKS, links["ada"], 999).status, 403)
        self.click("ada", OTHER)
        self.add_box()
        self.assert_standing(ada=OTHER)

    def test_a_backup_that_is_put_back(self):
        """The book lacks the link of a ballot that came: it is kept, and waits for whoever knows
        why.
        """
        self.begun(ben=RANKS)
        self.add_box()
        # it has the key by which this click can be opened, too
        has_key = (
            "whoever has a copy opens all ballots of the page, also those to come, and can vote"
        )
        self.assertIn(has_key, self.told("backup", self.scratch / "copy.db"))
        self.new_address("ada")
        self.upload()
        self.done("letters call")
        self.click("ada")
        self.add_box()
        both = {"ada": RANKS, "ben": RANKS}
        self.assert_standing(**both)
        shutil.copy(self.scratch / "copy.db", self.folder / "election.db")
        self.refused("add --box --yes", "it is an older copy")
        self.tells(
            "add --box --yes --moved --because 'The disk was put back.'",
            "another vote.php than the folder call",
            "a book that was put back lacks some",
        )
        self.assert_standing(ben=RANKS)
        # the link ties nobody to it any more
        fault = "letter 2: its sender and its subject do not show that it is of ada"
        self.refused("held 2 --enter", fault, "--force not-tied")
        self.done("held 2 --enter --force not-tied --force voted-since")
        self.assert_standing(**both)

    def test_a_call_that_was_taken_back(self):
        """Its links are no more, and where the options have another order no way leads from its
        page to a ballot.
        """
        self.begun()
        page, key = self.page(), self.key
        self.done("call --take-back")
        options = '"At the lake", "In the town hall"'
        turned = ", ".join(options.split(", ")[::-1])
        self.write("poll.toml", elections.POLL.replace(options, turned))
        self.call()
        self.done("letters call")
        self.assertEqual(self.key, key)
        self.assertNotEqual(self.page(), page)
        answer = self.host.send(self.body_of("ada", RANKS, self.links()["ada"], 1_000, page))
        self.assertEqual((answer.status, answer.word), (409, "old:"))
        self.click("ada")
        self.done("call --take-back")
        self.call()
        why = "a link that is not that of ada now: a new address or a new call makes a new one, and"
        self.add_box(why)
        self.assert_standing()
        self.done("letters call")
        self.click("ada")
        self.add_box()
        self.assert_standing(ada=RANKS)

    def test_by_ftp_and_then_by_key(self):
        self.begun(ada=RANKS, ben=RANKS)
        data = self.file().read_bytes()
        # whoever has the file can make none of another proof
        proof = proof_digest(self.mark(), self.place_of("ada")).encode()
        self.write("fetched.php", data + self.records()[0].replace(proof, b"2" * 64))
        said = self.tells(
            "add --yes fetched.php",
            "it is a record of the web box that can't be opened, and was passed over",
            "2 new letters; 0 came before.",
        )
        why = "it is in the file of the web box, which others may have changed"
        self.assertEqual(said.count(why), 2)
        self.assert_standing()
        self.done("held 1 --enter --force not-tied --force voted-since")
        self.done("held 2 --set-aside")
        self.assertNotIn("it has no more", self.add_box())
        self.assert_standing(ada=RANKS, ben=RANKS)
        self.assertEqual(self.rows("SELECT count(*) FROM envelope"), [(2,)])
        # what was set aside came by the page, too, and not from another address
        text = self.receipts()["ben"]
        for part in (
            "It came by the page of the vote. It was read as: At the lake, ",
            "came by the page of the vote, with your link. It was not entered. The reason: the secretary has looked at it, and set it aside.",
        ):
            self.assertIn(part, text)
        self.assertNotIn("from another address", text)

    def test_what_was_asked_before_is_not_opened_again(self):
        links = self.begun(ada=RANKS, ben=RANKS)
        self.add_box()
        [(data,), _] = self.rows("SELECT data FROM source ORDER BY source")
        assert isinstance(data, bytes)
        record = self.records()[0].partition(b"\n")[2][:-1]
        fields, _, text = data.decode().partition("\n\n")
        self.assertEqual(text, f"ada {RANKS}\n-- \n")
        self.assertIn(
            f"X-Link: {links['ada']}\nX-Sealed: {hashlib.sha256(record).hexdigest()}\nX-Sent: 20",
            fields,
        )
        # what a vote sets for its output is of no other test
        contextvars.copy_context().run(self.demand_known)

    def demand_known(self):
        """Nothing is opened, and all is there."""
        vote = Vote(Election(self.folder, PROGRAM.parent))
        asked = box_records.Asked(now(), 0, "", b"".join(self.records()))
        kept = queries.records_since(vote.book, 0)
        with unittest.mock.patch("debvote_tools.call.sealed_ballots.key_pair") as opening:
            letters, unopened = box_records.records_in(vote, asked, {}, kept)
        self.assertEqual((opening.called, len(letters), unopened), (False, 2, []))
        self.assertEqual({one.digest for one in letters}, {one.digest for one in kept})

    @pytest.mark.whole
    def test_no_request_has_the_key_and_three_ask_at_once(self):
        with Liar(lambda request: [passed_on(request, self.host)]) as between:
            self.begun("--at", between.at, **dict.fromkeys(NAMES, RANKS))
            with ThreadPoolExecutor() as pool:
                [*pool.map(lambda number: self.add_box(), range(3))]
            requests = between.requests
        asked = [request for request in requests if request.startswith(b"POST")]
        pages = [request for request in requests if request.startswith(b"GET / ")]
        self.assertEqual((len(asked), len(pages), len(requests)), (4, 4, 8))
        for request in requests:
            self.assertNotIn(self.key.hex().encode(), request)
            self.assertNotIn(self.key, request)
        for request in asked:
            self.assertIn(b"\r\n\r\n" + request_of(f"box=ask {asking_word(self.key)}"), request)
        self.assert_standing(**dict.fromkeys(NAMES, RANKS))
        self.assertEqual(self.rows("SELECT count(*) FROM letter"), [(len(NAMES),)])

    def test_no_link_is_shown_again(self):
        """And a record without a ballot, which no page makes, is told to whose link it is."""
        links = self.begun(ada="1,2,3,5", ben="YES")
        self.add_box("2 letters wait")
        place = f"#{self.place_of('ada')}"
        own, link = place.split("/")[1:]
        # broken where a program breaks it, with letters by their numbers, alone, and as the name of
        # a line
        text = f"{place.upper()}\nI opened {self.host.at}{place} and it says\nada 1,2,3"
        texts = [
            text,
            text.replace(own + "/", f"{own}/\n> "),
            text.replace(own + "/", f"{own}/ "),
            text.replace("/", "%2F"),
            f"{link.upper()} is my code\nada 1,2",
            f"{place[1:]} 1,1,2,3\n{link} 1,1,2,3",
        ]
        letters = [self.letter("ada", one, number=number) for number, one in enumerate(texts)]
        subject = f"Re: {self.host.at}{place} [{self.mark()}]"
        said = self.add(*letters, self.letter("ada", "ada 1,2", number=9, subject=subject))
        commands = ["held", *map("held {}".format, range(1, 10)), "show ada"]
        said += "".join(map(self.told, commands))
        for part in (
            f"#ada/{own}/.. and it says",
            f"{own}%2F.. and it says",
            "letter 1, from the page of the vote",
        ):
            self.assertIn(part, said)
        said += self.election("add -", given=texts[-1]).faults
        said += self.done("desk", given=texts[-1]).output
        self.assertIn(f"ada/{own}/.. 1,1,2,3: column 4", said)
        self.assertIn(" .. 1,1,2,3: .. is not on the roll", said)
        told = self.receipts()
        # the page has the link for ada alone, whose letters wait
        found = {name: {*boxes.LINK.findall(text)} for name, text in told.items()}
        self.assertEqual(found, {"ada": {("ada", own, link)}, "ben": set()})
        for name, text in told.items():
            for part in (
                "came by the page of the vote, with your link. It is not entered yet: ",
                "no line of it is a ballot of this vote.",
                f"{name} _,_,_,_",
            ):
                self.assertIn(part, text)
        for one in links.values():
            self.assertNotIn(one, said.lower())
            self.assertEqual("".join(told.values()).lower().count(one), one == link)
        self.assertNotIn("No receipt is about", self.told("letters receipts"))


class Receipts(boxes.BoxElectionTest):
    members = "who,mail\nAda,ada@club.example\nBen,ben@club.example\nCleo,cleo@club.example\nDan,dan@club.example home@dan.example\nEve,eve@club.example\n"

    def to(self) -> dict[str, bool]:
        """To which addresses receipts went until now, and whether they have a personal link."""
        self.done("letters receipts")
        files = [file.read_bytes() for file in (self.folder / "letters/receipts").rglob("*.eml")]
        return {
            email.message_from_bytes(one)["To"]: bool(boxes.LINK.search(one.decode()))
            for one in files
        }

    def test_whose_has_the_link(self):
        """That of a letter that waits, to the present address of its elector alone, while the vote
        is open.
        """
        self.begun()
        elsewhere = {"sender": "x@else.example"}
        self.add(
            self.letter("ada", "my answer"),
            # in her own name from elsewhere, and one of each
            self.letter("ben", f"ben {RANKS}", **elsewhere),
            self.letter("cleo", "my answer"),
            self.letter("cleo", f"cleo {RANKS}", number=2, **elsewhere),
            # the address from which he wrote stays
            self.letter("dan", "my answer", sender="home@dan.example"),
        )
        self.new_address("dan")
        self.upload()
        self.click("eve")
        self.add_box()
        with_link = {"ada@club.example", "dan@new.example"}
        without = {f"{name}@club.example" for name in ("ben", "cleo", "dan", "eve")}
        wanted = dict.fromkeys(with_link, True) | dict.fromkeys(without, False)
        self.assertEqual(self.to(), wanted)
        # after the end nobody is invited to vote
        self.add(self.letter("ada", "and more", number=3))
        self.set_clock("2099-12-04T18:00:01+01:00")
        shutil.rmtree(self.folder / "letters/receipts")
        self.assertFalse(any(self.to().values()))


CHANGED = "4,4,1,-"


class Whole(boxes.BoxElectionTest):
    """Six click and three write; some do both, or do it again."""

    def test_each_ballot_is_as_meant_and_each_receipt_true(self):
        meant = dict(zip(NAMES, map(",".join, itertools.permutations("1234"))))
        links = self.begun(**{name: meant[name] for name in NAMES[:6]})
        # a click again, and one with the same number again
        self.click("ada", CHANGED)
        again = ("ben", CHANGED, links["ben"], 999)
        self.assertEqual({self.sent(*again).status for _ in range(3)}, {200})
        self.add_box("8 ballots of letters went in; 0 letters wait")
        # who clicked writes later, and who wrote clicks later; older letters are passed over
        letters = [self.letter(name, f"{name} {meant[name]}", 300) for name in NAMES[6:]]
        self.later()
        letters += [
            self.letter("cleo", f"cleo {CHANGED}", -2),
            self.letter("dan", f"dan {CHANGED}", 400),
        ]
        self.click("gus", CHANGED)
        self.add_box()
        older = "Passed over, since a later letter of its elector went in"
        self.assertIn(older, self.add(*letters))
        meant |= dict.fromkeys(("ada", "ben", "cleo", "gus"), CHANGED)
        self.later()
        self.done("close --early")
        # a late click: the page has it, and its elector is told that it does not count
        self.later()
        self.click("eve", CHANGED)
        self.add_box()
        self.assert_standing(**meant)
        self.tells("publish", "remove vote.php and box-")
        lines = self.read("result/ballots.txt").decode().splitlines()
        self.assertEqual(dict(line.split() for line in lines), meant)
        told = self.receipts()
        self.assertEqual(sorted(told), NAMES)
        in_words = Election(self.folder, PROGRAM.parent).questions.in_words()
        for name, text in told.items():
            self.assertIn(f"It was read as: {in_words(meant[name])}.", text)
            self.assertEqual("It came by the page of the vote." in text, name in NAMES[:7], text)
            late = "The reason: it arrived after the vote was closed" in text
            self.assertEqual((boxes.LINK.search(text), late), (None, name == "eve"), text)


# how many records, 20 of each elector, and the script that measures the run of a program: in
# seconds of the processor, and in kilobytes
RECORDS = 10_000
MEASURE = """import resource, subprocess, sys
ended = subprocess.run(sys.argv[1:], check=True)
used = resource.getrusage(resource.RUSAGE_CHILDREN)
print(used.ru_utime + used.ru_stime, used.ru_maxrss)"""


@pytest.mark.whole
class Many(boxes.BoxElectionTest):
    names = [f"m{number}" for number in range(RECORDS // MOST)]

    def test_ten_thousand_records(self):
        """Memory and speed: opened in 200 megabytes and 60 seconds of the processor, and asked
        again in half, as none is opened again.
        """
        self.begun()
        self.later()
        begin, mark, seal = now(2), self.mark(), self.of_page("seal")
        places = {name: self.place_of(name, link) for name, link in self.links().items()}

        def record(name: str, number: int, turn: int) -> bytes:
            when = begin + datetime.timedelta(seconds=turn)
            sent = f"{when:%Y-%m-%dT%H:%M:%S}.000Z"
            text = sealing.inside(f"{name} {number % 4 + 1},2,3,4", places[name], sent)
            place = 1_000 * turn + number
            sealed = sealing.sealed(seal, mark, f"{place:032x}", text)
            return sealing.record(mark, places[name], place, sent[:19], sealed).encode()

        turns = range(MOST)
        self.keep(
            *(
                record(name, number, turn)
                for turn in turns
                for number, name in enumerate(self.names)
            )
        )
        words = (sys.executable, elections.ELECTION, "add", "--box", "--yes")
        took = []
        for new, before in ((RECORDS, 0), (0, RECORDS)):
            ended = self.run_program(sys.executable, "-c", MEASURE, *words)
            *_, used = ended.output.splitlines()
            self.assertIn(f"\n{new} new letters; {before} came before.\n", ended.output)
            seconds, kilobytes = map(float, used.split())
            self.assertLess(kilobytes, 200 * 1_024)
            took.append(seconds)
        # a processor that others use, too, is slower
        self.assertLess(took[0], 60)
        self.assertLess(took[1], max(4, took[0] / 2))
        standing = {name: f"{number % 4 + 1},2,3,4" for number, name in enumerate(self.names)}
        self.assert_standing(**standing)
