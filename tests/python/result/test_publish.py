"""`publish`: the files, what was done, doubts, casting and secret votes, the same bytes again."""

import email
import email.policy
import hashlib
import json
import os
import pathlib
import re
import shutil
import signal
import subprocess
import tomllib
from unittest import mock

from debvote_tools.book import queries
from debvote_tools.election import fixed_by
from debvote_tools.files import NewFolder, folder_beside
from debvote_tools.result.folder import BESIDE_PLACE
from debvote_tools.text import times
from debvote_tools.text.language import ENGLISH
from debvote_tools.text.times import date_in_words

from tests.support import elections, page_parts as pages
from tests.support.election_books import CalledTest
from tests.support.terminal import Terminal

POLL = """title = "Wo wir uns treffen: Größe"
options = ["72 Euro", "Größe"]
ratios = [1, 1]
default = "Nichts davon"
quorum = 0
"""
MEMBERS = "who,mail,name\nAda <Lovelace>,ada@x.example,\nZoë Müller,zoe@x.example,\nCleo,cleo@x.example,cleo\nDan,,dan\n"
TIE = "ada-lovelace 1,2,3\nzoe-muller 2,1,3\n"
# what is told of an earlier result
SINCE = "A result was published, whose SHA256SUMS has the checksum"
TEXT = "Who certifies this: <b>Anna</b>.\n"


def today():
    """A day on which a casting vote can be given in an election that a test has called."""
    return str(times.now().astimezone().date())


def digest(data):
    return hashlib.sha256(data).hexdigest()


def in_one_line(text):
    return " ".join(text.split())


class OfElections(CalledTest):
    poll, members, call_words = POLL, MEMBERS, None

    def setUp(self):
        super().setUp()
        if "secret" in self.poll:
            self.say("codes")

    def say(self, *words, status=0, **how):
        """Runs a command, which has to end so, and returns what it printed."""
        ended = self.election(*words, **how)
        self.assertEqual(ended.status, status, (words, ended))
        return ended.output

    def stops(self, *words, said=(), status=9, folder="result", **how):
        """Runs a command that has to stop with these words; it makes no folder and no act."""
        acts, before = len(self.acts()), (self.folder / folder).exists()
        ended = self.election(*words, **how)
        parts = [said] if isinstance(said, str) else said
        missing = [text for text in parts if text not in ended.faults]
        self.assertEqual((ended.output, missing, ended.status), ("", [], status), ended.faults)
        made = len(self.acts()), (self.folder / folder).exists()
        self.assertEqual(made, (acts, before), words)

    def publish(self, *words, **how):
        return self.say("publish", *words, **how)

    def force(self, *words, because="x", **how):
        return self.publish("--force", "--because", because, *words, **how)

    def remove(self):
        shutil.rmtree(self.folder / "result")

    def add(self, lines, *words):
        self.write("lines", lines)
        self.say("add", "lines", *words)

    def text_of_option(self, number, text):
        (self.folder / "texts").mkdir(exist_ok=True)
        self.write(f"texts/{number}.txt", text)

    def reopened_with(self, lines, *words, because="lost letters"):
        """Reopens, adds lines and closes; the result that was published is taken away."""
        self.say("reopen", "--because", because)
        self.add(lines, "--came-before-close", "yes", *words)
        self.say("close")
        self.remove()

    def closed(self, lines="ada-lovelace 1,2,3\n", *words):
        self.say("call", *words)
        self.add(lines)
        self.say("close")

    def other_debvote(self, text):
        """A folder with a program debvote that does this first; what it does not end is done by the
        program itself.
        """
        (self.folder / "bin").mkdir(exist_ok=True)
        text = f'#!/bin/sh\n{text}\nexec {elections.PROGRAM} "$@"\n'
        self.write("bin/debvote", text).chmod(0o755)
        return self.folder / "bin"

    def acts(self):
        return self.book.acts()

    def text(self, name):
        return self.read(name).decode()

    @property
    def page(self):
        return self.text("result/index.html")

    @property
    def sections(self):
        return pages.sections_of(self.page)

    def in_part(self, part):
        return self.sections[part].text()

    @property
    def doubts(self):
        return pages.doubts_of(self.page)

    def files(self, folder="result"):
        return {file.name: file.read_bytes() for file in (self.folder / folder).iterdir()}

    @property
    def published(self):
        """What is published, and how many acts were done."""
        return self.files(), len(self.acts())

    def items(self, part):
        return [item.text() for item in self.sections[part].all("li")]

    @property
    def what_was_done(self):
        """The acts that the page tells, without their times."""
        return [text.partition("): ")[2] for text in self.items("What-was-done")]

    @property
    def letter(self):
        return in_one_line(self.text("letters/result.txt"))

    def closes(self, place="letters"):
        """The checksums in the letter of the close."""
        return re.findall(r"(?m)^  ([0-9a-f]{64})$", self.text(f"{place}/closed.txt"))

    def messages(self):
        """The messages with the letter of the result, the newest last."""
        self.say("letters result --from vote@x.example")
        files = (self.folder / "letters" / "result").rglob("*.eml")
        return [
            email.message_from_bytes(file.read_bytes(), policy=email.policy.default)
            for file in sorted(files, key=lambda file: int(file.parent.name))
        ]

    def checksums_of_letters(self, ballots):
        """The checksums of the page are those of the letters, each in its place."""
        code = r"<pre><code>([0-9a-f]{64})  (\S+)</code></pre>"
        shown = {name: sum for sum, name in re.findall(code, self.page)}
        named = re.findall(r"(?m)^  ([0-9a-f]{64})  (\S+)$", self.text("letters/result.txt"))
        files = ("SHA256SUMS", "index.html")
        wanted = [(digest(self.read(f"result/{name}")), name) for name in files]
        called = re.findall(r"\b[0-9a-f]{64}\b", self.text("call/call.txt"))
        # a later one names the checksum of an earlier close, too
        sums = [shown["poll.toml"], shown[ballots]]
        closed = [one for one in self.closes("result") if one in sums]
        self.assertEqual((named, {*called}, closed), (wanted, {sums[0]}, sums))

    def whole(self):
        """The folder is what its checksums say, and can be read by all."""
        files, folder = self.files(), self.folder / "result"
        sums = files.pop("SHA256SUMS").decode().splitlines()
        found = dict(reversed(line.split("  ")) for line in sums)
        self.assertEqual(found, {name: digest(data) for name, data in files.items()})
        modes = [file.stat().st_mode & 0o777 for file in (folder, *folder.iterdir())]
        self.assertEqual((modes[0], {*modes[1:]}), (0o755, {0o644}))


class OfOpenVotes(OfElections):
    def test_the_files(self):
        self.say("call --names")
        self.add("ada-lovelace 1,2,3\nno-one 1,2,3\nzoe-muller 1,-,3\ncleo 2,1,3\n")
        self.say("strike 3 --because 'Zoë has sent it <b>twice</b>'")
        self.say("close")
        self.add("dan 3,2,1\n")
        said = self.publish(status=1).splitlines()[:3]
        self.assertEqual(said, ["Tie: 1 2", "verified", "Made the folder result."])
        self.whole()
        self.say("export exported")
        files = self.files()
        names = "poll.toml ballots.txt late.txt sheet.txt standing.txt result.json votes.csv recount.py recount.js closed.txt READING-A-SHEET.md "
        names += "SHA256SUMS index.html" + " picture.svg" * elections.HAS_PICTURES
        self.assertEqual({*files}, {*names.split()})
        for place in ("call/poll.toml", "letters/closed.txt", "exported/poll.toml"):
            self.assertEqual(files[place.partition("/")[2]], self.read(place))
        for name in ("ballots.txt", "late.txt"):
            self.assertEqual(files[name], self.read(f"exported/{name}"))
        ballots = b"ada-lovelace 1,2,3\nno-one 1,2,3\ncleo 2,1,3\n"
        self.assertEqual((files["ballots.txt"], files["late.txt"]), (ballots, b"dan 3,2,1\n"))
        label = json.loads(files["result.json"])["options"][1]
        self.assertEqual((label["name"], label["label"]), ("Grosse", "Größe"))
        # of aliases nothing is said
        self.assertNotIn("To find it without this page", self.page)
        voters = ["ada-lovelace Ada <Lovelace>", "cleo Cleo", "zoe-muller Zoë Müller", "dan Dan"]
        self.assertEqual(self.items("Who-voted"), voters)
        refused = self.items("Refused-lines")
        self.assertEqual((len(refused), refused[-1]), (2, "line 1: dan 3,2,1"))
        facts = [entry.text() for entry in pages.tree_of(self.page).one("ul", "facts").all("li")]
        self.assertEqual(facts, ["2 of 4 voted", "1 of 3 lines refused", "1 came late"])
        checksum = digest(ballots)
        done = [
            "The call was made; it named no time until which one could vote.",
            "The secretary struck envelope 3: its line does not count. The reason, in the secretary's words: Zoë has sent it <b>twice</b>",
            f"The vote was closed. Lines in time: 3. Checksum: {checksum}.",
        ]
        self.assertEqual(self.what_was_done, done)
        tie = "Option 1: 72 Euro and Option 2: Größe are tied. The casting vote has to choose one of them. "
        self.assertIn(f"{tie}Option 1: 72 Euro against Option 2: Größe: 1 to 1.", self.letter)
        self.checksums_of_letters("ballots.txt")
        self.assertEqual(self.acts()[-1].detail["checksums"]["ballots.txt"], checksum)
        # the command of the letter shows each file that somebody has changed
        for name in (None, *files):
            self.assertEqual(self.is_shown(name), name is not None, name)

    def is_shown(self, name):
        """Whether the command of the letter shows that somebody has changed a file; with None
        nobody has.
        """
        letter, place = self.text("letters/result.txt"), self.folder / "downloaded"
        [command] = re.findall(r"(?m)^  (sha256sum .*)$", letter)
        wanted = re.findall(r"(?m)^  ([0-9a-f]{64}  \S+)$", letter)
        shutil.copytree(self.folder / "result", place)
        if name is not None:
            data = (place / name).read_bytes()
            (place / name).write_bytes(data.replace(b"3", b"4", 1) if b"3" in data else data + b"x")
        ended = subprocess.run(["sh", "-c", command], cwd=place, capture_output=True, text=True)
        shutil.rmtree(place)
        first, second, *lines = ended.stdout.splitlines()
        is_same = [first, second] == wanted and ended.returncode == 0
        return not (is_same and all(line.endswith(": OK") for line in lines))

    def test_the_same_bytes_again(self):
        end = ("--until", "2099-12-04 18:00", "--zone", "Europe/Berlin")
        self.say("call", *end, "--at", "https://x.example/")
        self.add("ada-lovelace 1,2,3\n")
        self.say("close --early")
        self.write("about", TEXT)
        # also if the clock went back before it
        self.set_clock("2020-12-05T09:00:00+01:00")
        self.publish("--about", "about")
        files, acts = self.files(), len(self.acts())
        (self.folder / "about").unlink()
        self.addCleanup(os.umask, os.umask(0o077))
        again = "Made the folder {}, as it was published before; "
        self.assertIn(again.format("result"), self.publish())
        self.whole()
        self.remove()
        self.assertIn(again.format("elsewhere"), self.publish("elsewhere"))
        self.assertEqual(
            (files["late.txt"], self.files("elsewhere"), len(self.acts())), (b"", files, acts)
        )
        self.assertFalse((self.folder / "result").exists())
        # other words are an act
        self.publish("--language", "fr")
        self.assertEqual((len(self.acts()), self.files() == files), (acts + 1, False))
        self.assertEqual([*self.folder.glob(".*")], [])
        # real names are not published
        self.assertNotIn(b"Lovelace", files["index.html"])
        # a first close before the end is a doubt, and each letter tells until when one should have
        # been able to vote
        self.set_clock("2099-12-05T09:00:00+01:00")
        self.reopened_with("zoe-muller 1,2,3\n")
        self.publish("--language", "en")
        until = (
            "one should have been able to vote until Friday, 4 December 2099, 18:00 (UTC+01:00)."
        )
        [doubt] = self.doubts
        close = "^The vote was closed on (?:(?!2099).)* before its announced end: "
        self.assertRegex(doubt, f"{close}{re.escape(until)}$")
        self.assertIn(doubt, self.letter)
        letters = [self.text("letters/closed.txt"), *(one.get_content() for one in self.messages())]
        self.assertEqual([until in in_one_line(text) for text in letters], [True] * 4)

    def test_no_other_result_is_replaced(self):
        """Neither that of another election, nor an earlier one of this, nor one that somebody has
        changed. An empty folder is taken.
        """
        last = "it exists already, and is not what this election has published last"
        self.closed()
        (self.folder / "result").mkdir()
        self.publish()
        self.write("result/notes", "mine")
        french = ("publish", "--language", "fr")
        self.stops(*french, said=[f"result: {last}", "as result-2"], status=2)
        (self.folder / "result" / "notes").unlink()
        (self.folder / "mine").mkdir()
        self.write("mine/a", "b")
        for name in ("mine", "members.csv"):
            self.stops("publish", name, said=f"{name}: it exists already", status=2, folder=name)
        (self.folder / "result" / "picture.svg").unlink(missing_ok=True)
        self.say(*french)
        other = self.scratch / "another election"
        shutil.copytree(self.folder / "result", other)
        self.reopened_with("cleo 1,2,3\n")
        shutil.copytree(other, self.folder / "result")
        since = f"{last}, since its last close; nothing was published"
        for words, name in (
            (("--force", "--because", "x"), "result-2:"),
            ((other,), "another election-2"),
        ):
            self.stops(
                "publish",
                *words,
                said=[since, f"name another folder, as {name}"]
                if name == "result-2:"
                else [since, name],
                status=2,
            )
        self.publish("result-2")
        files = self.files("result-2")
        self.stops("publish result-2/../result", said="as result-2/../result-3", status=2)
        for name in ("result-2/x/y", "result-2/../result-2/x", "call/result"):
            inside = f"it would be in {self.folder / name.partition('/')[0]}, whose files are published as they are"
            self.stops(
                "publish", name, said=[inside, "name a folder outside of it"], status=2, folder=name
            )
        # nor to what goes to others, though it is not there
        shutil.rmtree(self.folder / "call")
        for name in ("call", "letters/x", "private"):
            inside = f"{name}: it would be in the folder {name.partition('/')[0]}, whose files go to others; nothing was published"
            self.stops("publish", name, said=inside, status=2, folder=name)
        self.assertEqual(self.files("result-2"), files)
        # it takes the place of the last one, and that of no other: as it was before, with another
        # file, and with one more
        self.say(*french, "result-2")
        self.assertNotEqual(self.files("result-2"), files)
        for change in (files, {"index.html": b"mine"}, {"mine": b"mine"}):
            shutil.rmtree(self.folder / "result-2")
            self.publish("result-2")
            for name, data in change.items():
                self.write(f"result-2/{name}", data)
            self.stops("publish result-2", said=since, status=2, folder="result-2")
        self.assertEqual(self.read("result-2/mine"), b"mine")

    def test_a_result_that_takes_the_place_of_another(self):
        """Above the result page and letter name, once, each of before its close, with its checksum,
        and how it ended; others are in what was done. The subject says whether it is corrected, or
        decided by the casting vote alone.
        """
        self.closed(TIE, "--at", "https://x.example/")
        self.publish(status=1)
        title = "Wo wir uns treffen: Größe"
        self.assertEqual((self.earlier, self.subject), ([], f"Result: {title}"))
        wanted = [f"{SINCE} {self.checksum}. A tie: 72 Euro, Größe."]
        cast = ("--casting", "Größe", "--cast-by", "Anna", "--cast-on", today())
        self.publish(*cast)
        decided = f"Result after the casting vote: {title}"
        self.assertEqual((self.earlier, self.subject), ([], decided))
        self.assertEqual(self.what_was_done[2:], wanted)
        # again, also with the same words, it is the same
        made = self.published
        for words in ((), cast, ("--force",)):
            self.publish(*words)
        self.assertEqual(self.published, made)
        wanted.append(f"{SINCE} {self.checksum}. Winner: Größe by casting vote.")
        self.reopened_with("cleo 1,2,3\n")
        self.publish()
        self.assertEqual((self.earlier, self.subject), (wanted, f"Corrected result: {title}"))
        done = self.what_was_done
        self.assertEqual(done[2:4], wanted)
        reopened = "The vote was opened again, for what had come before the first close"
        between = [text.partition(".")[0] for text in done[4:]]
        self.assertEqual(between, [reopened, "The vote was closed"])
        last = f"{SINCE} {self.checksum}. Winner: 72 Euro."
        # the same sheet as the last
        self.write("about", TEXT)
        self.publish("--about", "about")
        self.assertEqual((self.earlier, self.what_was_done[-1]), (wanted, last))
        # of several the sentence stands once
        self.assertEqual(self.letter.count("takes the place of earlier ones:"), 1)

    @property
    def checksum(self):
        return digest(self.read("result/SHA256SUMS"))

    @property
    def earlier(self):
        """The earlier results, as the page tells them above the result, and the letter in its
        list.
        """
        place = "<p>This result takes the place of an earlier one. (.*?)</p>"
        places = "<p>This result takes the place of earlier ones:</p>\\s*<ul>(.*?)</ul>"
        shown = re.findall(place, self.page, re.S)
        for several in re.findall(places, self.page, re.S):
            shown += re.findall("<li>(.*?)</li>", several, re.S)
        told = [in_one_line(re.sub("<[^>]*>", "", text.partition("): ")[2])) for text in shown]
        letter = self.letter
        self.assertEqual([letter.count(text) for text in told], [2] * len(told))
        # above, and in what was done
        done = sum("A result was published" in text for text in self.what_was_done)
        self.assertEqual(letter.count("A result was published"), len(told) + done)
        return told

    @property
    def subject(self):
        return self.messages()[-1]["Subject"].rpartition(" [")[0]

    def test_made_again_otherwise(self):
        """What was published is not made otherwise in silence; it can be published once more, with
        its letter. After another close it is new.
        """
        self.closed(TIE, "--at", "https://x.example/")
        self.publish("--casting", "72 Euro", "--cast-by", "Anna", "--cast-on", today())
        files, letter, acts = self.files(), self.letter, len(self.acts())
        self.write("members.csv", MEMBERS.replace("zoe@x", "zoe@y"))
        self.say("roll --yes")
        said = f"the result would differ from the one that was published (act {acts})"
        self.stops("publish", said=[said, "--force"])
        self.assertEqual((self.files(), self.letter), (files, letter))
        self.publish("--force")
        last = self.acts()[-1]
        found = last.name, last.number, last.detail["casting"]
        self.assertEqual(found, ("publish", acts + 2, {"": "72 Euro"}))
        self.checksums_of_letters("ballots.txt")
        self.assertNotEqual(self.letter, letter)
        self.assertIn("as it was published before", self.publish())
        self.assertEqual(len(self.acts()), acts + 2)
        # a tie again, without a casting vote
        self.add("cleo 1,2,3\n")
        self.say("reopen --because 'a lost letter'")
        self.add("cleo 1,2,3\n", "--came-before-close", "yes")
        self.say("strike 1 --because twice")
        self.say("close")
        self.remove()
        self.assertEqual(self.publish(status=1).splitlines()[0], "Tie: 1 2")

    def test_doubts_are_told_at_once(self):
        self.say("call")
        self.add("no-one 1,2,3\n")
        told = [
            "no elector has a ballot that counts",
            "more than half of the lines are refused, 1 of 1",
            "the vote is not closed",
        ]
        self.stops("publish", said=[*told, "--force --because"])
        self.stops("publish --force", said=told)
        output = self.force(because="A <test>.\n\nNo more.")
        # no result ends the vote
        following = "Next: 3 letters of the call are not sent: "
        self.assertTrue(output.splitlines()[-1].startswith(following))
        doubts = [
            "No elector has a ballot that counts: nobody's vote has decided this.",
            "More than half of the lines of the ballot file are refused: 1 of 1.",
            "The vote was not closed when this page was made: more ballots may come in.",
        ]
        self.assertEqual(self.doubts, doubts)
        short = "<summary><strong>3 doubts:</strong> no ballot counts, most lines refused, vote not closed</summary>"
        self.assertIn(short, self.page)
        given = next(pages.tree_of(self.page).all("div", "given")).all("p")
        self.assertEqual([text.text() for text in given][1:], ["A <test>.", "No more."])
        kinds = [doubt["kind"] for doubt in self.acts()[-1].detail["doubts"]]
        self.assertEqual(kinds, ["no ballot", "mostly refused", "not closed"])
        self.add("ada-lovelace 1,2,3\n")
        self.say("close")
        self.say_done()
        self.assertIn("Next: debvote-election publish result-2\n", self.election("count").faults)
        self.say("publish result-2")
        # half of the lines are refused, and nothing stops: the reason is not told
        self.remove()
        self.force(because="nothing")
        self.assertEqual((json.loads(self.files()["result.json"])["refused"], self.doubts), (1, []))
        self.assertNotIn("nothing", self.in_part("Result"))
        # no close has fixed ballots that may become more
        self.say("reopen --because 'a lost letter'")
        self.remove()
        self.force()
        self.assertNotIn("closed.txt", self.files())
        self.assertNotIn("letter of the close", self.letter + self.in_part("How-to-verify"))

    def test_each_act_is_told(self):
        self.say("call")
        self.say("call --take-back")
        for day in (4, 5):
            end = ("--until", f"2099-12-0{day} 18:00", "--zone", "Europe/Berlin")
            self.say("call", *end, "--at", "https://x.example/")
        self.add("ada-lovelace 1,2,3\n")
        members = MEMBERS.replace("zoe@x", "zoe@y")
        for text in (members, members.replace("zoe@y", "zoe@z").replace("ada@x", "ada@z")):
            self.write("members.csv", text)
            self.say("roll --yes")
        self.say("close --early")
        lines = "zoe-muller 1,2,3\ncleo 1,2,3\n"
        self.add(lines)
        self.say("reopen", "--because", "Zoë's letter lay in the <hall>")
        self.add(lines, "--came-before-close", "yes")
        self.say("strike 1 --because 'wrong hand'")
        self.act("extend", {"keyring": "a checksum"})
        detail = {
            "early": True,
            "waiting": 2,
            "after_end": 1,
            "replaced_in_time": 2,
            "because": "in a hurry",
        }
        checksum = digest(lines.encode())
        self.act("close", {"questions": {"": {"lines": 2, "checksum": checksum}}, **detail})
        self.publish()
        because = " The reason, in the secretary's words:"
        first = next(fixed_by(act)[""].checksum for act in self.acts() if act.name == "close")
        early = "That was before the time until which one could vote."
        told = [
            "The call was made; it named no time until which one could vote.",
            "This call was taken back, before any ballot had come.",
            "The call was made; one could vote until Friday, 4 December 2099, 18:00 (UTC+01:00).",
            "The time was extended: one could vote until Saturday, 5 December 2099, 18:00 (UTC+01:00).",
            "1 elector got another address or key.",
            "2 electors got other addresses or keys.",
            f"The vote was closed. Lines in time: 1. Checksum: {first}. {early}",
            f"The vote was opened again, for what had come before the first close.{because} Zoë's letter lay in the <hall>",
            f"The secretary struck envelope 1: its line does not count.{because} wrong hand",
            "The secretary took newer keys of the electors.",
            f"The vote was closed. Lines in time: 2. Checksum: {checksum}. {early} 2 letters that had arrived in time were left waiting. "
            "1 letter that had arrived after the end did not go in. "
            "Since the close before this one, lines in time that came in: 2; that were taken out: 1. "
            "2 late lines were entered again, as ones that had come before the first close, and replaced other ballots of their electors."
            f"{because} in a hurry",
        ]
        self.assertEqual(self.what_was_done, told)
        # in the letter marks of quotation part our words from the secretary's
        acts = in_one_line(self.letter.partition("WHAT WAS DONE")[2].partition("THE FILES")[0])
        self.assertEqual([text[:60] for text in told if text[:60] not in acts], [])
        self.assertIn("(in a hurry)", acts)
        # the late ones stay late
        self.say("export copy")
        for name in ("result/late.txt", "copy/late.txt"):
            self.assertEqual(self.text(name), lines)
        # the times are in one zone
        self.assertEqual(self.in_part("What-was-done").count("(UTC+01:00): "), len(told))

    def test_what_comes_after_the_end(self):
        """Lines, ballots of a desk and letters that the secretary entered are told that came after
        the end; not those that were struck.
        """
        letter = (
            "Received: by mx; Mon, 1 Mar 2027 12:{}:00 +0000\nFrom: cleo@x.example\n\n{} 3,2,1\n"
        )

        def enter(number, *words):
            self.write("letter.eml", letter.format(*words))
            self.say("add letter.eml")
            forced = "--force", "not-tied", "--force", "voted-since"
            self.say("held", number, "--as", f"{words[1]} 3,2,1", *forced)

        # the vote is not of the day of a call that was taken back
        self.set_clock("2027-02-20T10:00:00+00:00")
        self.say("call")
        self.say("call --take-back")
        for day, hour in (("02-26", 11), ("02-27", 12)):
            self.set_clock(f"2027-{day}T10:00:00+00:00")
            self.say("call", "--until", f"2027-03-01 {hour}:00", "--zone", "UTC")
        self.add("ada-lovelace 1,2,3\n")
        self.set_clock("2027-03-01T13:00:00+00:00")
        self.add("zoe-muller 1,2,3\ncleo 1,2,3\ndan 1,2,3\n")
        enter("1", 30, "cleo")
        self.say("strike 3 --because 'on paper'")
        self.set_clock("2027-03-01T12:50:00+00:00")
        self.say("close")
        self.set_clock("2027-03-01T14:00:00+00:00")
        self.say("reopen --because 'a lost letter'")
        self.add("dan 1,3,2\n", "--came-before-close", "yes")
        self.say("close")
        # a late one that arrived after the end is no doubt
        enter("2", 40, "zoe-muller")
        self.publish()
        self.assertIn("Vote of 26 February to 1 March 2027", self.page)
        done = self.in_part("What-was-done")
        for said in (
            "3 lines came after the end, and are in time, since the vote was not closed yet.",
            "12:50 (UTC): The clock of the secretary's computer went back: the act before has a later time, Monday, 1 March 2027, 13:00 (UTC).",
        ):
            self.assertIn(said, done)

    def test_bad_texts_and_a_folder_that_is_counted_otherwise(self):
        self.closed()
        for data, said in [
            (b"Anna\nM\xfcller\n", "about:2: it is not in UTF-8"),
            (b"A\n\x1b[1m", "about:2: it has the character U+001B, which no plain text has"),
            (b" \n", "about: it is empty"),
            (b"x" * 65_537, "about: it is longer than 65536 bytes"),
        ]:
            self.write("about", data)
            self.stops("publish --about about", said=said, status=2)
        wrong = '--casting xx --cast-by " --cast-on tomorrow --about none --force --because \u202e'
        said = [
            "--cast-by: it must be a name",
            "`tomorrow` is not a day",
            "--because: the text has the character U+202E",
            "none: No such file or directory",
            "--casting=xx: no option",
        ]
        self.stops("publish", *wrong.split(), said=said, status=2)
        said = "--because: the text has 2001 characters; at most 2000 are allowed"
        self.stops("publish", "--force", "--because", "x" * 2001, said=said, status=2)
        (self.folder / "about").write_bytes(b"\xef\xbb\xbfOne\r\n\r\n\xd7\x93 <i>two</i>\r\n")
        self.publish("--about", "about")
        self.assertEqual(self.about(), ["One", "\u05d3 <i>two</i>"])
        # as another program writes it
        os.mkfifo(self.folder / "pipe")
        with subprocess.Popen(["timeout", "20", "sh", "-c", f"echo Three > {self.folder}/pipe"]):
            self.publish("--about", "pipe")
        self.assertEqual(self.about(), ["Three"])
        # a folder that is counted otherwise takes no place
        files = self.files()
        for branch, said in [
            ('verify) echo "differs at line 1"; exit 9', "nothing was published"),
            ('standing) echo "ada-lovelace 3,2,1"; exit', "another thing than it keeps"),
        ]:
            path = self.other_debvote(f"case $1 in {branch} ;; esac")
            self.stops("publish --language es", said=said, path=path)
            self.assertEqual(self.files(), files)
        # and that the book was moved stands there, with its reason
        self.state = self.scratch / "other computer"
        self.publish("--about", "about", "--moved", "--because", "a new <laptop>")
        moved = "that did not know it yet. The reason, in the secretary's words: a new <laptop>"
        self.assertTrue(self.what_was_done[-1].endswith(moved))

    def test_a_debvote_whose_reasons_have_other_words(self):
        self.say("call")
        self.add("ada-lovelace 1,2,3\nada-lovelace 2,1,3\ncleo 2,1\n")
        other = f'case $1 in explain) {elections.PROGRAM} "$@" | sed "s/ranks, the poll/of/"; exit ;; esac'
        path = self.other_debvote(other)
        self.assertIn("bad rank count: 2 of has 3", self.say("status", path=path))
        self.assertIn("bad rank count: 2 of has 3", self.say("show cleo", path=path))
        self.say("close", path=path)
        self.assertIn("Winner", self.say("count", path=path))
        self.publish(path=path)
        # the verdict is another one
        other = other.replace("ranks, the poll/of", "bad rank count/bad shape")
        self.stops("count", path=self.other_debvote(other), said="another thing than it keeps")

    def about(self):
        return [text.text() for text in self.sections["About-this-vote"].all("p", "about")]

    def test_casting_votes(self):
        self.closed(TIE)
        self.assertEqual(self.publish(status=1).splitlines()[0], "Tie: 1 2")
        by, on = ("--cast-by", "Anna <b>"), ("--cast-on", today())
        euro, cast = ("--casting", "72 Euro"), (*by, *on)
        none_left = "no casting vote can choose Nichts davon, which is not left; left are 1 72 Euro"
        for words, said, status in [
            (euro, "it was given; nothing was published: say it with --cast-by", 2),
            ((*euro, *by, "--cast-on", "2999-01-01"), "2999-01-01 is in the future", 2),
            ((*euro, *by, "--cast-on", "1.1.2026"), "`1.1.2026` is not a day", 2),
            (
                (*euro, *by, "--cast-on", "0001-01-01"),
                "0001-01-01 is before the call, which was on ",
                2,
            ),
            ((*euro, *on, "--cast-by", 'A "b'), "without quotation marks", 2),
            *((words, "give --casting too", 2) for words in (cast, by, on)),
            (("--casting", "Größer", *cast), "no option has this name", 8),
            (("--casting", "Nichts davon", *cast), none_left, 8),
        ]:
            self.stops("publish", *words, said=said, status=status)
        self.publish(*euro, *cast)
        said = f'The secretary says that the casting vote was that of "Anna <b>", given on {date_in_words(times.now().astimezone(), ENGLISH)}. No count can show this.'
        self.assertIn(said, self.in_part("Result"))
        won = "Winner: Option 1: 72 Euro by casting vote. Option 1: 72 Euro against Option 2: Größe: 1 to 1."
        for text in (said, won):
            self.assertIn(text, self.letter)
        earlier = [
            "an earlier publication has a casting vote for 72 Euro",
            "publish --casting '72 Euro' --cast-by 'Anna <b>' --cast-on ",
        ]
        for words in (("--casting", "Grosse", *cast), ("--language", "fr")):
            self.stops("publish", *words, said=earlier)
        # what no reason lets through is said, and no reason is asked for
        self.stops("publish", "--casting", "Nichts davon", *cast, said=none_left, status=8)
        # one that decides nothing is not told
        self.reopened_with("cleo 1,2,3\n")
        ended = self.election("publish", *euro, *cast)
        self.assertIn("Note: it is no tie, so no casting vote decides it", ended.faults)
        self.assertNotIn("that the casting vote was", self.in_part("Result") + self.letter)
        # the letter of the close takes the place of the last one
        before = self.closes()[1]
        self.reopened_with("dan 2,1,3\n", because="a bag was forgotten")
        letter = in_one_line(self.text("letters/closed.txt"))
        told = [reason in letter for reason in ("lost letters", "a bag was forgotten")]
        self.assertEqual((self.closes()[-1], told), (before, [False, True]))
        self.force("--casting", "Größe", *cast)
        doubt = "An earlier result of this vote was published with a casting vote for {}."
        self.assertEqual(self.doubts, [doubt.format("72 Euro")])
        self.assertIn("Winner: Option 2: Größe by casting vote", self.letter)
        since = "lines in time that came in: 1; that were taken out: 0."
        self.assertTrue(self.what_was_done[-1].endswith(since))
        self.assertIn("as it was published before", self.publish())
        # one that is left out
        self.force(status=1)
        self.assertEqual(self.doubts, [doubt.format("Größe")])

    @mock.patch.dict(os.environ, {"DEBVOTE_FORKS": "1"})
    def test_a_publication_that_is_killed_after_its_act(self):
        """Made again it comes back in its place, whatever a kill has left there, and nothing else
        is left. One that fails has left the old one.
        """
        self.closed()

        def kill(*_):
            os.kill(os.getpid(), signal.SIGKILL)

        def fail():
            raise OSError(28, "No space left on device", "result")

        def at_second_rename(end, rename=pathlib.Path.rename):
            moved = []

            def renamed(file, target):
                moved.append(file)
                return end() if len(moved) == 2 else rename(file, target)

            return mock.patch.object(pathlib.Path, "rename", renamed)

        def left():
            return [file.name for file in self.folder.glob(".*")]

        place = self.folder / "result"
        at_its_place = mock.patch.object(NewFolder, "take_place", kill)
        for language, patch, status, is_there, how_many in [
            ("de", at_its_place, -signal.SIGKILL, False, 1),
            ("en", at_its_place, -signal.SIGKILL, True, 1),
            ("fr", at_second_rename(kill), -signal.SIGKILL, False, 2),
            ("es", at_second_rename(fail), 7, True, 1),
        ]:
            with self.subTest(language):
                before, acts = self.files() if place.exists() else {}, len(self.acts())
                with patch:
                    ended = self.election("publish", "--language", language)
                found = ended.status, place.exists(), len(left())
                self.assertEqual(found, (status, is_there, how_many))
                self.assertTrue(not is_there or self.files() == before)
                self.publish()
                self.assertNotEqual(self.files(), before)
                sums = {name: digest(data) for name, data in self.files().items()}
                last = self.acts()[-1].detail["checksums"]
                found = {name: sums[name] for name in last}, len(self.acts()), left()
                self.assertEqual(found, (last, acts + 1, []))
        # a run that lasts keeps its folder
        with folder_beside(place, BESIDE_PLACE) as lasting:
            (lasting.folder / "poll.toml").touch()
            self.publish()
            self.assertEqual(left(), [lasting.folder.name])

    def test_hostile_texts(self):
        hostile = "</p></b><script>alert(1)</script> & <img src=x onerror=alert(1)>{{ say }}{% endblock %}"
        options = f"options = ['{hostile} 1', '{hostile} 2']\nratios = [1, 1]\ndefault = 'N'\nquorum = 0\n"
        self.write("poll.toml", f"title = '{hostile}'\n{options}")
        members = f'"{hostile}",ada@x.example,ada\nB,b@x.example,b\n{hostile} c,,c\n'
        self.write("members.csv", f"who,mail,name\n{members}")
        self.text_of_option(1, f"text {hostile}")
        self.say("roll")
        self.say("call --names")
        refused = "".join(f"ada {number} {hostile}\n" for number in range(4))
        self.add(f"ada 1,2,3\nb 2,1,3\nada 2,1,3\n{refused}", "--force")
        self.say("strike", "3", "--because", f"strike {hostile}")
        self.say("close")
        self.add(f"c {hostile}\n")
        self.say("reopen", "--because", f"reopen {hostile}")
        self.say("close")
        self.write("about", f"about {hostile}")
        plain = tomllib.loads(self.text("call/poll.toml"))["options"][0]
        cast = ("--casting", plain, "--cast-by", f"by {hostile}", "--cast-on", today())
        self.force(*cast, "--about", "about", because=f"force {hostile}")
        pages.try_page(self.assert_equal, "hostile", self.folder / "result")
        # the text about the vote stands above what is folded
        seen = ["Result", "Why-not-the-others", "Find-your-ballot", "Check-it", "About-this-vote"]
        self.assertEqual([*self.sections][: len(seen)], seen)
        shown = pages.tree_of(self.page).one("main").text()
        for word in ("ada", "text", "strike", "reopen", "about", "by", "force"):
            self.assertIn(f"{word} {hostile}", shown)
        whose = f"About 1 {hostile} 1, in the words of those who publish this page. The program has not checked them:"
        about = self.sections["Options"].one("div", "given").text()
        self.assertEqual(in_one_line(about), f"{whose} text {hostile}")
        self.assertIn(hostile[:50], self.items("Refused-lines")[0])

    def assert_equal(self, name, found, wanted):
        self.assertEqual(found, wanted, name)


class OfSecretVotes(OfElections):
    poll = POLL + "secret = true\n"

    def called(self):
        self.say("call")
        self.add(
            "ada-lovelace 3,2,9\nzoe-muller 2,1,3\nada-lovelace 17,33,99\nno-one 1,2,3\ncleo 1,2,x\n"
        )

    def test_the_files(self):
        self.called()
        for words in (("count",), ("publish",), ("publish", "--force", "--because", "x", "--yes")):
            self.stops(*words, said="the vote is secret, and can be counted only after the close")
        self.say("strike 1 --because 'private reason'")
        # neither its words nor log and letters have the seal, or a checksum without it; the poll
        # that is exported is that of the ballots
        told = self.say("close") + self.say("log")
        told += "".join(file.read_text() for file in self.folder.glob("letters/*.txt"))
        self.say("export exported --yes")
        electors, seal = queries.electors(self.book), fixed_by(self.acts()[-1])[""].seal
        aliases = {elector.name: elector.alias for elector in electors}
        lines = [f"{aliases['ada-lovelace']} 1,2,3\n", f"{aliases['zoe-muller']} 2,1,3\n"]
        published = "".join(sorted(lines)).encode()
        for secret in (seal, digest(published), digest(self.read("exported/ballots.txt"))):
            self.assertNotIn(secret, told)
        files = ("--poll", "exported/poll.toml", "--ballots", "exported/ballots.txt")
        steps = re.findall("(?m)^\\d+ (\\w+)", self.debvote("steps", *files).output)
        self.assertEqual(steps, ["counted", "counted", "bad", "bad"])
        self.add("dan 3,2,1\n")
        self.publish(status=1)
        self.whole()
        files = self.files()
        self.assertEqual(files["poll.toml"], self.read("call/poll.toml"))
        # ballots in normal form, under aliases, and no late lines
        self.assertEqual((files["ballots.txt"], "late.txt" in files), (published, False))
        self.assertIn(digest(files["seal.txt"] + published), files["closed.txt"].decode())
        self.checksums_of_letters("-")
        self.assertIn("and until then type your code nowhere. The subject", self.letter)
        secrets = "lovelace müller zoe-muller no-one 1,2,x private|reason".split()
        secrets += [elector.code for elector in electors]
        for name, data in files.items():
            # guide and page have these ranks in an example
            words = [*secrets, *["17,33"] * (name not in ("index.html", "READING-A-SHEET.md"))]
            text = data.decode("utf-8", "replace").lower()
            self.assertEqual([word for word in words if word.replace("|", " ") in text], [], name)
        # from Voters on the sheet is that of the votes as they came
        sheets = files["sheet.txt"].decode(), self.election("count").output
        public, private = (sheet.partition("\nVoters")[2] for sheet in sheets)
        self.assertEqual(public, private)
        refused = "3 lines that came were refused: 2 as invalid, and 1 because"
        self.assertIn(refused, self.in_part("Refused-lines"))
        struck = "The secretary struck an envelope: its line does not count."
        self.assertEqual(self.what_was_done.count(struck), 1)
        self.assertNotIn("Who-voted", self.sections)

    def test_texts_are_asked_for(self):
        self.called()
        self.say("close")
        self.write("about", TEXT)
        about = ("publish", "--about", "about")
        self.stops(*about, said=["these texts may tell who voted what", "--yes"])
        self.say(*about, "--yes", status=1)
        # the same again is not asked for
        made, acts = self.published, len(self.acts())
        self.publish(status=1)
        self.assertEqual(self.published, made)
        # a reason of --moved is an act, and no publication
        self.state = self.scratch / "other computer of a secret vote"
        ended = self.election("publish --moved --force --because 'of <Ada>'")
        self.assertIn("these texts may tell", ended.faults)
        self.assertEqual((ended.faults.count("  of <Ada>\n"), ended.status), (1, 9))
        self.assertEqual([act.name for act in self.acts()[acts:]], ["moved"])
        # and those of two acts of one second
        detail = {"why": "a copy", "noted": None, "there": {"act": acts}}
        with mock.patch("debvote_tools.text.times.now", return_value=self.acts()[-1].time):
            for name in ("Ben", "Cleo"):
                self.act("moved", {**detail, "because": f"of <{name}>"})
        self.stops("publish --force", said=["  of <Ben>\n", "  of <Cleo>\n"])
        self.publish("--force", "--yes", status=1)
        agreed = [digest(f"of <{name}>".encode()) for name in ("Ada", "Ben", "Cleo")]
        self.assertEqual(self.acts()[-1].detail["agreed"], agreed)
        self.publish("--language", "fr", status=1)
        code = queries.electors(self.book)[0].code
        self.write("about", f"x {code[:16]}\n{code[16:].upper()}\n")
        self.stops(*about, "--yes", said="index.html would have the code of an elector in it")

    def test_texts_of_options_are_asked_for_before_the_call(self):
        """There they become public; later they are not asked about again."""
        text = "Zoë is for it.\n"
        self.text_of_option(1, text)
        self.stops("call", said=[f"texts/1.txt:\n  {text}", "--yes"], folder="call")
        self.text_of_option(2, f"x {queries.electors(self.book)[0].code}\n")
        said = " would have the code of an elector in it"
        self.stops("call --yes", said=said, folder="call")
        (self.folder / "texts" / "2.txt").unlink()
        self.say("call --yes")
        self.assertEqual(self.acts()[-1].detail["agreed"], [digest(text.encode())])
        self.write("letter.txt", "Zoë counts.\n")
        self.stops("call", said=["letter.txt:\n  Zoë counts.\n", "--yes"])
        self.say("call --yes")
        for command in (["call"], ["call", "--take-back"], ["codes"], ["call"]):
            self.say(*command)
        self.add("ada-lovelace 3,2,9\n")
        self.say("close")
        self.publish()

    @mock.patch.dict(os.environ, {"DEBVOTE_FORKS": "1"})
    def test_a_text_of_an_option_that_nobody_was_asked_about(self):
        """A call that did not ask leaves the question to the publication."""
        self.text_of_option(1, "Zoë is for it.\n")
        with mock.patch("debvote_tools.commands.call.agreed_texts", return_value=[]):
            self.say("call")
        # doubts are about the lines that came, and not about those that are published
        self.add("ada-lovelace 1,2,3\nno-one 1,2,3\ncleo 1,2\n", "--force")
        self.say("close")
        # nobody is asked before it can be published
        self.stops("publish", said="more than half of the lines are refused, 2 of 3")
        said = ["texts/1.txt:\n  Zoë is for it.\n", "these texts may tell who voted what"]
        self.stops("publish --force --because x", said=said)
        self.force("--yes")
        # without numbers
        self.assertEqual(self.doubts, ["More than half of the lines that came are refused."])

    def test_two_results_that_can_be_compared(self):
        self.called()
        self.say("close")
        # answers for the private files that are not theirs
        differs = "the sheet under aliases differs from the sheet of the votes as they came"
        kept = "another thing than it keeps"
        for task, change, said in (
            ("standing", "s/2,1,3/1,2,3/", kept),
            ("explain", "s/2 of 4 electors/3 of 4 electors/", kept),
            ("count", "s/Voters: 2/Voters: 3/", differs),
            ("count", "s/^Tie: .*/Winner: 1 x/", differs),
        ):
            other = f'case "$*" in "{task} "*/dev/stdin*) {elections.PROGRAM} "$@" | sed "{change}"; exit ;; esac'
            self.stops("publish", path=self.other_debvote(other), said=said)
        self.publish(status=1)
        whence = "Your code, as it is on your slip or in your letter"
        self.assertIn(whence, self.text("result/index.html"))
        # that of Zoë has the same order, which is published as it was; that of Ada has another one
        lines = "cleo 1,2,3\nzoe-muller 5,4,6\nada-lovelace 2,1,3\n"
        self.add(lines)
        terminal = Terminal(self, "reopen", "--because", "Cleo's letter")
        terminal.until("because: Cleo's letter? Only the log tells this reason. [y/n] ")
        terminal.type("n\n")
        self.assertEqual(terminal.end()[1], 9)
        self.reopened_with(lines, "--force", because="Cleo's letter")
        compared = "a comparison with the earlier result shows how these voted: {}; "
        shown = compared.format("ada-lovelace, cleo")
        self.stops("publish", said=shown)
        self.publish("--yes")
        self.assertEqual(len(self.files()["ballots.txt"].splitlines()), 3)
        # what is gone is seen, too, beside the last result, also where all is as in the first one
        for name, shown in (("cleo", "cleo"), ("ada-lovelace", "ada-lovelace, cleo")):
            self.say("reopen", "--because", f"that of {name.title()} was forged")
            [number] = [
                str(one.number)
                for one in self.envelopes()
                if one.line.startswith(f"{name} ".encode()) and one.became == "counts"
            ]
            self.say("strike", number, "--because", "it was forged")
            self.say("close")
            said = [compared.format(shown)]
            self.stops("publish result-3", said=said, folder="result-3")
        self.checksums_of_letters("-")
        # the reason stays in the log
        for name in ("index.html", "closed.txt"):
            self.assertNotIn("Cleo", self.text(f"result/{name}"))
        close = "closed before, on .{20,60}, and opened again. This letter takes the place of the one about that close, which had this checksum of"
        self.assertRegex(in_one_line(self.text("letters/closed.txt")), close)
