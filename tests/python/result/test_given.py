"""What stands on a page beside the count: whose words they are, refused lines, and commands."""

import html
import json
import os
import re
import shutil
import subprocess
import unittest
import xml.etree.ElementTree as xml

from tests.support import page_parts as pages, publishing
from tests.support.publishing import FILES, HAS_PICTURES, PATH, PLAIN_POLL, SECONDS, folder_with
from tests.support.publishing import plain_folder, publish

MORE = "a ballot has a space there, or more of the name: a to z, 0 to 9, . or -"
NAME = "a ballot has the name there: a to z, 0 to 9, . or -"
RANK = "a ballot has a rank there: a number from 1 to 99, or a hyphen for an option that is not ranked, and so last"
TAB = f"cleo 1,\\u00092,3: bad shape: column 8: tab; {RANK}"
# each refused line, and what the page says of it
REFUSED = {
    "ada;1,2,3": f'ada;1,2,3: bad shape: column 4: ";"; {MORE}',
    "<b>ada</b> 1,2,3": f'<b>ada</b> 1,2,3: bad shape: column 1: "<"; {NAME}',
    "": f"(an empty line): bad shape: column 1: end of line; {NAME}",
    "ben 1.,2,3": 'ben 1.,2,3: bad shape: column 6: "."; a ballot has a comma or its end there, or a second digit of the rank',
    "zoe 1,2,3\nzoe 1,2,3": "zoe 1,2,3: bad not on roll: zoe is not on the roll",
    "x" * 180
    + ">"
    + "y"
    * 200: f"{'x' * 100} (the first 100 of 381 characters): bad shape: column 33: \"x\"; a ballot has a space there: a name has at most 32 bytes",
    "ada 1,2": "ada 1,2: bad rank count: 2 ranks, the poll has 3 options",
    "caf\u00e9\u202e 1,2,3": f"café\\u202E 1,2,3: bad shape: column 4: Latin letter beyond a to z; {MORE}",
}
NUMBERS = ("line 4", "line 5", "line 6", "line 7", "lines 8 to 9", "line 10", "line 11", "line 12")


class GivenTest(publishing.PublishTest):
    def page_of(self, folder, *words):
        """The page of a result that is published with these words."""
        self.assertEqual(publish(folder, *FILES, *words)[2], 0)
        return (folder / words[-1] / "index.html").read_text()

    def refused_lines(self, page):
        return [entry.text() for entry in pages.sections_of(page)["Refused-lines"].all("li")]

    def test_honest_words(self):
        page = self.page_of(
            folder_with(self.scratch / "honest", "supermajority_and_recasts"), "result"
        )
        sections = pages.sections_of(page)
        check, verify = sections["Check-it"], sections["How-to-verify"].text()
        # it promises no proof
        self.assertNotRegex(check.text(), "(?i)prove|verified|certain")
        counted = "This is the count of the files in this folder. No count shows whether they are what the electors sent; see "
        for said in (counted, "a second opinion from the same web site", "Nothing is sent."):
            self.assertIn(said, check.text())
        for said in ("Ask your secretary where to get it", "It is better taken from elsewhere"):
            self.assertIn(said, verify)
        # what nobody can see, and how to check it all the same; a line feed is a space to a reader
        unseen = sections["What-nobody-can-see-from-here"].all("li")
        checks = [
            "Look for your own ballot under Find your ballot",
            "you must be among those who did not",
            "with your list of members",
            "Keep a copy of what you send, and compare your ballot here with it",
            "Keep what shows when you sent your ballot",
            "with the letter of the result",
        ]
        for row, said in zip(unseen, checks, strict=True):
            self.assertIn(said, " ".join(row.text().split()))
        folded = "Options Votes Defeats Ballots Who-voted Refused-lines What-was-done What-nobody-can-see-from-here How-to-verify".split()
        first = ["Result", "Why-not-the-others", "Find-your-ballot", "Check-it"]
        self.assertEqual([*sections], [*first, *folded])
        heads = {
            name: [
                head.attributes["id"]
                for summary in part.all("summary")
                for head in summary.all("h3")
            ]
            for name, part in sections.items()
        }
        # each that is folded is under its heading
        wanted = {name: [name] if name in folded else [] for name in sections}
        self.assertEqual(heads, wanted)
        rows = [" ".join(entry.text().split()) for entry in check.one("ol").all("li")]
        begins = [
            "Is your ballot as you sent it? If you did not vote, are you among those who did not?",
            "Does your letter of the result have the same result?",
            "Does it have the checksums of SHA256SUMS and this page, once downloaded? How",
            "Does your letter of the call have the poll's checksum? ",
            "Count again here With another program, in your browser. Nothing is sent.",
        ]
        for row, begin in zip(rows, begins, strict=True):
            self.assertTrue(row.startswith(begin), row)
        self.assertLessEqual(len(" ".join(begins).split()), 70)
        loaded = [
            link.attributes["href"] for link in check.all("a") if "download" in link.attributes
        ]
        self.assertEqual(loaded, ["SHA256SUMS", "index.html"])
        # ballots in the order of what, and nothing is said to be announced
        text = pages.tree_of(page).text()
        self.assertIn("in the order in which they were entered", text)
        self.assertNotRegex(text, "they came|announced")

    def test_refused_texts(self):
        folder = plain_folder(self.scratch / "refused-texts")
        # a ballot between two lines that are alike
        lines = [*REFUSED, "cleo 1,\t2,3", "cleo 1,2,3", "cleo 1,\t2,3"]
        with open(folder / "ballots", "a") as file:
            file.writelines(f"{line}\n" for line in lines)
        wanted = [
            f"{number}: {said}" for number, said in zip(NUMBERS, REFUSED.values(), strict=True)
        ]
        wanted += [f"line 13: {TAB}", f"line 15: {TAB}"]
        self.assertEqual(self.refused_lines(self.page_of(folder, "result")), wanted)
        with open(folder / "ballots", "a") as file:
            file.writelines(f"y{place}{'z' * 150}\n" for place in range(8_000))
        page = self.page_of(folder, "many")
        many = r"The texts from line (\d+) on are too many for this page: see ballots.txt."
        told = re.search(many, page)[1]
        cause = 'bad shape: column 33: "z"; a ballot has a space there: a name has at most 32 bytes'
        self.assertEqual(self.refused_lines(page)[-1], f"lines {told} to 8015: {cause}")
        self.assertGreater(int(told), 5_000)
        self.assertLess(len(page), publishing.LARGEST_PAGE)

    def test_why_a_line_is_refused_in_another_language(self):
        """The page says it as a receipt does, and in brackets as debvote does. That a line is late
        is said above them all.
        """
        poll = PLAIN_POLL + "last_envelope = 4\n"
        ballots = "ada 1,2\nzoe 1,2,3\nada;1\nada 1,2,3\nada 3,2,1\n"
        page = self.page_of(
            plain_folder(self.scratch / "german", poll, ballots), "--language", "de", "result"
        )
        wanted = [
            "Zeile 1: ada 1,2: Sie hat 2 Ränge, und die Abstimmung hat 3 Optionen. (bad rank count: 2 ranks, the poll has 3 options)",
            "Zeile 2: zoe 1,2,3: Der Name darin steht nicht im Wählerverzeichnis. (bad not on roll: zoe is not on the roll)",
            f'Zeile 3: ada;1: Sie ist nicht so geschrieben wie ein Stimmzettel. (bad shape: column 4: ";"; {MORE})',
            "Zeile 5: ada 3,2,1: (late: the last envelope is 4)",
        ]
        self.assertEqual(self.refused_lines(page), wanted)
        # one has voted, in the singular
        self.assertIn(" von 4 stimmte ab", page)

    @unittest.skipUnless(HAS_PICTURES, "dot is not installed, so there are no pictures")
    def test_names_in_the_picture(self):
        """What Graphviz would take for the name of a character is drawn as it is, by the command of
        the page, too.
        """
        names = ["R&D; more", "&lt;b&gt; &amp; &#65;", "None"]
        poll = PLAIN_POLL.replace('"N"', '"None"').replace("Plain", "Q&A;")
        poll = poll.replace('["A", "B"]', json.dumps(names[:-1]))
        folder = plain_folder(self.scratch / "ampersands", poll)
        page = self.page_of(folder, "result")
        picture = (folder / "result" / "picture.svg").read_bytes()
        texts = [node.text for node in xml.fromstring(picture).iter() if node.tag.endswith("}text")]
        for number, name in enumerate(names, start=1):
            self.assertIn(f"{number} {name}", texts)
        [command] = re.findall("<code>(debvote picture .*?) &gt; picture.svg</code>", page)
        self.assertEqual(self.typed(folder / "result", command), picture.decode())

    def typed(self, folder, command):
        """What a command of a page answers in its folder."""
        env = {**os.environ, "PATH": PATH, "PYTHONDONTWRITEBYTECODE": "1"}
        how = {"capture_output": True, "text": True, "timeout": SECONDS}
        ended = subprocess.run(["sh", "-c", html.unescape(command)], cwd=folder, env=env, **how)
        self.assertEqual((ended.stderr, ended.returncode), ("", 0), command)
        return ended.stdout

    def test_commands(self):
        """Each command of the page is typed in the folder; what it answers is what the page
        says.
        """
        folder = folder_with(self.scratch / "commands", "cycle_and_casting_vote")
        for name, more in {
            "poll.toml": "last_envelope = 7\n",
            "ballots": "Ada 1,2,3,4\nada 1,2,3,4\nben 1\n",
        }.items():
            with open(folder / name, "a") as file:
                file.write(more)
        page = self.page_of(folder, "--casting", "Bottle", "result")
        said = "Those who publish this page do not say whose casting vote it was, or when it was given."
        self.assertIn(said, page)
        made = folder / "result"
        before = {file.name: file.read_bytes() for file in made.iterdir()}
        # files that somebody has laid there change nothing of what the commands answer, but that
        # they are named
        others = {"package.json": '{"type": "module"}', "hmac.py": "boom", "a\nb": "", 'c"d': ""}
        for name, text in others.items():
            (made / name).write_text(text)
        code = r"<pre><code>(.*?)</code></pre>\n"
        pattern = rf"{code}(?:<p>It prints:</p>\n{code[:-2]})?"
        found = re.findall(pattern, page.partition('<h3 id="How-to-verify">')[2], re.DOTALL)
        self.assertEqual(len(dict(found)), 14)
        answers = {}
        for command, wanted in found:
            is_there = HAS_PICTURES or "| dot " not in command
            if is_there and (not command.startswith("nodejs") or shutil.which("nodejs")):
                answers[html.unescape(command)] = self.typed(made, command)
                if wanted and " ls -A " not in command:
                    wanted = html.unescape(wanted) + "\n"
                    self.assertEqual(answers[html.unescape(command)], wanted, command)
        [named] = [text for command, text in answers.items() if " ls -A " in command]
        wanted = [
            '"SHA256SUMS"',
            r'"a\nb"',
            r'"c\"d"',
            '"hmac.py"',
            '"letter.txt"',
            '"package.json"',
        ]
        self.assertEqual(sorted(named.splitlines()), wanted)
        count = "count --poll poll.toml --ballots ballots.txt --casting Bottle"
        for program in ("python3 -I recount.py", "debvote"):
            self.assertEqual(answers[f"{program} {count}"], before["sheet.txt"].decode())
        # the folder is as it was, its picture too
        for name in others:
            (made / name).unlink()
        self.assertEqual({file.name: file.read_bytes() for file in made.iterdir()}, before)
