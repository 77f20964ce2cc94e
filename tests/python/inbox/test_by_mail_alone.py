"""An election of 40 by mail alone: how much its secretary types, and how much she reads."""

import re
from collections.abc import Mapping

import pytest

from tests.python.inbox.test_forgeries import marked_by
from tests.python.inbox.test_people import dense, records
from tests.support.letters import HTML, letter, mailbox
from tests.support.outgoing import SendTest, parsed
from tests.support.terminal import Terminal


def chosen() -> list[tuple[Mapping[str, str], str]]:
    """40 answers to one question, each of one elector: 20 of the plainest, and 20 of all other
    ways of writing. All programs and languages have their turn.
    """
    answers = [
        (head, text)
        for kind, head, text in records()
        if (kind, head["vote"]) == ("answers", "one") and ";" not in head["means"]
    ]
    plain = [one for one in answers if one[0]["way"] == "exact"]
    others = [one for one in answers if one[0]["way"] != "exact"]
    found = []
    for group in (plain, others):
        found += [group[number * len(group) // 20] for number in range(20)]
    return found


CALLED, OVER = "2026-11-20T09:00:00+00:00", "2026-12-04T18:00:01+00:00"


@pytest.mark.whole
class ByMailAlone(SendTest):
    call_words = None
    answers = chosen()
    # each letter has an elector of its own
    names = [f"{head['elector']}{number}" for number, (head, _) in enumerate(answers, start=10)]
    meant = {
        name: head["means"].partition(" ")[2]
        for name, (head, _) in zip(names, answers, strict=True)
    }

    def setUp(self):
        super().setUp()
        self.commands, self.shown = 0, 0
        self.reads(self.told("new", self.scratch / "again"))

    def reads(self, text: str):
        self.commands += 1
        self.shown += text.count("\n")

    def types(self, *words: object) -> str:
        """What a command tells that the secretary types, and all that she sees of it."""
        ended = self.done(*words)
        self.reads(ended.output + ended.faults)
        return ended.output

    def agrees_to_each(self, *words: object):
        """She reads each letter at the terminal, and enters its ballot."""
        held, text = Terminal(self, *map(str, words)), ""
        for _ in range(len(words) - 2):
            text += held.until("[y/n] ")
            held.type("y\n")
        rest, status = held.end()
        self.assertEqual(status, 0, text + rest)
        self.reads(text + rest)

    def letter_of(self, name: str, head: Mapping[str, str], text: str, number: int) -> bytes:
        """The answer of an elector to the letter that they got."""
        call = next(one for one in self.server.taken if one.to.startswith(f"{name}@"))
        message = parsed(call.data)
        ours = message.get_content()
        page = "".join(f"<p>{line}</p>" for line in ours.splitlines())
        text = re.sub(rf"(?i)\b{head['elector']}\b", name, text)
        for place, words in (
            ("{subject}", message["Subject"]),
            ("{quoted>}", marked_by("> ", ours.rstrip())),
            ("{quoted|}", page),
            ("{quoted}", ours),
        ):
            text = text.replace(place, words)
        kind = {"kind": HTML} if head["body"] == "html" else {}
        return letter(name, text, subject=f"Re: {message['Subject']}", number=number, **kind)

    def enter_mailbox(self, letters: list[bytes]):
        """What is read as a ballot is entered at once, and the rest typed, when it has been read."""
        self.write("inbox.mbox", mailbox(*letters))
        said = self.types("add", "--yes", "inbox.mbox")
        rows = re.findall(r"(?m)^ +(\d+)  \S+ \S+ \S+ +(\w+)@.*\n((?:        .*\n)*)", said)
        read = [number for number, _, more in rows if re.search(r"line \d+: ", more)]
        typed = {number: name for number, name, _ in rows if number not in read}
        if read:
            self.agrees_to_each("held", *read, "--enter")
        if typed:
            self.types("held", *typed)
        for number, name in typed.items():
            self.types("held", number, "--as", f"{name} {self.meant[name]}")

    def test_commands_and_rows(self):
        self.set_clock(CALLED)
        self.types("roll")
        self.types("check")
        self.types("call", *SendTest.call_words, "--yes")
        self.types("letters", "--send", "--server", self.server.name)
        letters = [
            self.letter_of(name, head, text, number)
            for number, (name, (head, text)) in enumerate(zip(self.names, self.answers))
        ]
        self.set_clock(self.now)
        self.enter_mailbox(letters[::2])
        self.enter_mailbox(letters[1::2])
        self.types("letters", "receipts", "--send", "--server", self.server.name)
        self.set_clock(OVER)
        self.types("close", "--yes")
        self.types("letters", "--send", "--server", self.server.name)
        self.types("count")
        self.types("publish", "--yes")
        self.types("letters", "--send", "--server", self.server.name)
        for name, ranks in self.meant.items():
            self.assertEqual(dense(self.stands(name)), dense(ranks))
        self.assertLessEqual(self.commands, 34)
        self.assertLessEqual(self.shown, 700)
