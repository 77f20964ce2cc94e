"""A whole election at a German office shows nothing in English; what programs read stays."""

import email.utils
import re
import time

from debvote_tools.office import acts

from tests.support import offices
from tests.support.elections import ElectionTest
from tests.support.letters import letter, mailbox, marked

POLL = """title = "Den Beitrag im Frühjahr erhöhen?"
options = ["Den Beitrag erhöhen"]
ratios = [1]
default = "Nichts ändern"
quorum = 1
motion = true
"""
MEMBERS = "who,mail,name\n" + "".join(
    f"{name.title()} Muster,{name}@club.example,{name}\n"
    for name in ("ada", "ben", "cleo", "dan", "gerda", "gustav")
)
END = {"until": "2031-12-01 18:00", "zone": "Europe/Berlin", "to": "vote@club.example"}

# words that no sentence of ours lacks for long, and that are none in German
ENGLISH = re.compile(
    r"\b(the|of|and|is|are|were|with|not|that|this|its?|for|from|by|or|been|has|have|your?|at|to|on|no|made|written|line|envelopes?|ballots?|letters?)\b",
    re.IGNORECASE,
)
# what is typed is no sentence: commands, options and what they may be, and names of files
TYPED = re.compile(r"debvote-[a-z]+( [a-z]+\b)?|--?[a-z-]+|[a-z]+-[a-z]+|\S*/\S*|\w+\.\w+")
CODE = re.compile(r"<(code|option|title)\b.*?</\1>|<button[^>]*>[a-z]+</button>")


def english_in(text: str) -> list[str]:
    """The lines of a page that have English words."""
    body = CODE.sub("", text.partition("<body")[2]).replace("\n", "\0").replace("<", "\0<")
    return [row for row in offices.seen(body).split("\0") if ENGLISH.search(TYPED.sub("", row))]


class InGerman(ElectionTest):
    def begin(self):
        """The office makes the folder."""

    def shows(self, text: str, *parts: str) -> str:
        """A page, which has no English."""
        self.assertEqual(english_in(text), [], self.german.place)
        return self.german.shows(text, *parts)

    def does(self, command: str, *parts: str, **fields: str) -> str:
        """A command, which is agreed to if it asks."""
        text = self.shows(self.german.post(f"do/{command}", **fields))
        while 'name="asked"' in text:
            text = self.shows(self.german.yes(text))
        return self.shows(text, *parts)

    def test_an_election_of_a_motion(self):
        self.german = offices.Office(self, "--language", "de", folder="")
        self.shows(self.german.post("new", folder=self.folder, language="de", questions="1"))
        (self.folder / "poll.toml").write_text(POLL)
        (self.folder / "members.csv").write_text(MEMBERS)
        self.german.post("folder", folder=self.folder)
        self.does("roll", "6 Stimmberechtigte, jeweils mit dem Namen im Wählerverzeichnis:")
        self.does("check", "Die Abstimmungsvorlage ist in Ordnung: 2 Optionen")
        self.does("call", "Der Ordner", **END)
        self.does("letters", "Geschrieben: 6 Schreiben", kind="call")
        self.does("backup", "Das Buch ist bis zum Eintrag", file=f"{self.scratch}/copy.db")
        self.vote()
        self.does("undo", "Zurückgenommen: 1 Zeile (Eintrag ")
        self.shows(self.german.post("letters/2", act="aside"))
        self.does("strike", "Gestrichen: Umschlag 1", number="1", because="Ein Versehen")
        for fields in ({}, {"electors": "1"}):
            self.does("status", **fields)
        self.does("letters", kind="receipts")
        self.does("close", "Geschlossen: 4 Zeilen kamen rechtzeitig.", early="1")
        self.does("letters", kind="closed")
        self.does("reopen", "Die Abstimmung ist wieder offen", because="Einer fehlt")
        self.does("close", early="1")
        self.does("publish")
        self.does("show", "Der gültige Stimmzettel", name="ben")
        self.does("log", "Der letzte Prüfwert ist")
        commands = [f"do/{form.name}" for forms in acts.phases().values() for form in forms]
        for place in ("", "letters", "desk/1", "roll", "all", "draft", *commands):
            self.shows(self.german.page(place))

    def vote(self):
        """Ballots at a desk, and by letters, one of which waits."""
        for name, ranks in (("ada", "1,2"), ("Ger", "1,1"), ("ada", "2,1"), ("ben", "1,2")):
            self.shows(self.german.yes(self.shows(self.german.type(name, ranks))))
        self.shows(self.german.yes(self.german.type("G", "1,2"), "1"))
        self.shows(self.german.yes(self.german.page("desk/1"), "n"), "Es wurde nicht erfasst.")
        self.shows(self.german.yes(self.german.page("desk/1"), "q"), "An diesem Platz erfasst:")
        # a letter tells whole seconds, and has to come after the call
        time.sleep(1 - time.time() % 1)
        now = email.utils.formatdate()
        text = "Guten Tag,\ndan 2,1\nSchöne Grüße, Dan"
        waits = letter("dan", text, subject="Meine Stimme", time=now)
        data = mailbox(marked("cleo", "cleo 1,2", time=now), waits)
        text = self.shows(self.german.upload("letters", "post.mbox", self.of_this_vote(data)))
        self.shows(self.german.yes(text), "1 Nachricht wartet")
        text = self.shows(self.german.page("letters/2"), "Betreff hat kein Kennzeichen")
        text = self.shows(self.german.post("letters/2", act="enter", force="not-tied"))
        self.shows(self.german.yes(text))


class ForPrograms(ElectionTest):
    def test_what_programs_read_is_the_same_in_each_language(self):
        self.done("desk", given="ada 1,2,3,4\nben 1\n")
        told = set()
        for language in ("", "en", "de", "xx"):
            self.clock = {"DEBVOTE_LANGUAGE": language}
            said = (self.done(words).output for words in ("status --json", "log --json", "count"))
            told.add((*said, self.election("show", "nobody").status))
        self.assertEqual(len(told), 1, told)
        self.clock = {"DEBVOTE_LANGUAGE": "de"}
        said = self.done("desk", given="ada 2,1,3,4\nben 1\n").output
        for reply in ("\n3 replaced  ada: ", "\n4 bad rank count  ben 1: "):
            self.assertIn(reply, f"\n{said}")
        self.assertIn("An diesem Platz erfasst: 2 Zeilen", said)
