"""What letters say, and their bytes: each outcome in each language, and hostile names."""

import base64
import dataclasses
import datetime
import email
import email.header
import importlib.util
import itertools
import pathlib
import re
import tempfile
import types
import unittest
from typing import Any

from debvote_tools.book.outgoing import OutgoingLetter
from debvote_tools.book.queries import Elector, EnteredBallot, Envelope
from debvote_tools.call.call import call_page
from debvote_tools.inbox.fates import REFUSED, Fate
from debvote_tools.inbox.letter_text import ReadLine
from debvote_tools.inbox.reasons import Reason, ReasonWithValues, for_elector
from debvote_tools.inbox.rules import Ruling
from debvote_tools.outbox.letter_folder import message, picture_of, rows_to_print
from debvote_tools.outbox.words import OF_BALLOT, PACKAGE, SUBJECTS, Composer, OutgoingText
from debvote_tools.poll.questions import Questions
from debvote_tools.poll.sealed import SealedPoll
from debvote_tools.text.ballots import faults_of
from debvote_tools.text.language import LANGUAGES, language_of
from debvote_tools.text.rendering import one_line as on_one_line, render_page, resources

from tests.support.at_browser import NEEDS_BROWSER, Window
from tests.support.call_examples import CALL, alone
from tests.support.outgoing import parsed

TIME = datetime.datetime(2026, 11, 23, 10, tzinfo=datetime.UTC)
AT = "https://club.example/vote/"
POLL = SealedPoll("Spring", ("Lake", "Hall"), (1, 1), "None", 1, ("ada", "ben"))
ADA = Elector(1, "ada", 1, "Ada L.", ("ada@club.example",), mark="abcdefghjk")
GUS = ADA._replace(name="gus", who="Gus G.", addresses=())
TEXTS = "The texts about the options are too long for this letter"
TOO_LONG = (
    f"{TEXTS}: they are on the page of the vote. The secretary gives them on paper to whoever asks."
)
TOO_LONG_WITHOUT_PAGE = f"{TEXTS}. The secretary gives them to whoever asks."
LETTER = OutgoingLetter(1, "call", 1, "ada@club.example", "<1@club.example>", TIME, ())


def vote(code: str = "en", *, is_over: bool = False, **how: object) -> Composer:
    usual = {"questions": alone(POLL), "to": "vote@club.example", "at": AT, "until": None}
    usual |= {"language": language_of(code), "quorum_votes": {"": 1}}
    return Composer(dataclasses.replace(CALL, **{**usual, **how}), is_over)  # type: ignore[arg-type]


def explained(text: str) -> Questions:
    """The poll with a text about its first option."""
    return alone(dataclasses.replace(POLL, explanations=(text, "", "")))


def is_read(text: str) -> str:
    """A text with each blank as one space."""
    return " ".join(text.split())


def came_letter(reason: ReasonWithValues | None, **how: object) -> Any:
    """A letter as far as its receipt tells it."""
    usual: dict[str, object] = {"refused": (), "not_taken_back": (), "is_pending": True}
    return types.SimpleNamespace(
        reason=reason, read=types.SimpleNamespace(link="", sent=None), **{**usual, **how}
    )


def typed(number: int, line: str) -> EnteredBallot:
    return EnteredBallot(
        number, line, is_late=False, is_struck=False, is_taken_back=False, is_typed=True
    )


def envelope(number: int, line: str, why_refused: str | None = None) -> Envelope:
    return Envelope(number, number, 1, line.encode(), None, 1, "", TIME, False, None, why_refused)


def all_that_came(answers: str = "1,2,3") -> list[Fate]:
    """Something of each kind, with each fault that a line may have."""
    refused = [
        "bad rank count: 1 ranks, the poll has 3 options",
        "bad not on roll: bob is not on the roll",
        'bad shape: column 9: "x"',
    ]
    read = [ReadLine(number, ("ada",), "1", why) for number, why in enumerate([*refused, None])]
    line = f"ada {answers}"
    source = came_letter(None, entered=[typed(2, line)])
    fates = [
        Fate(TIME, became, envelope(number, line), came_by=source)
        for number, became in enumerate(OF_BALLOT)
        if became != REFUSED
    ]
    fates += [Fate(TIME, REFUSED, envelope(9, "ada 1", why), came_by=source) for why in refused]
    for outcome, is_own, standing in itertools.product(
        (Ruling.WAITS, Ruling.SET_ASIDE), (True, False), ([], [typed(2, line)])
    ):
        letter = came_letter(
            Reason.NO_BALLOT(),
            refused=read,
            not_taken_back=standing,
            is_pending=outcome is Ruling.WAITS,
        )
        fates.append(Fate(TIME, outcome, letter=letter, is_own=is_own))
    return fates


WAITS = next(one for one in all_that_came() if one.became is Ruling.WAITS and one.is_own)


def letters(now: Composer, answers: str = "1,2,3") -> list[OutgoingText]:
    came = all_that_came(answers)
    signing, coded = ADA._replace(key="A"), ADA._replace(code="c0de")
    return [
        now.call_letter(ADA, is_extension=False),
        now.call_letter(signing, is_extension=False),
        now.call_letter(ADA, is_extension=True),
        now.call_letter(coded, is_extension=False, earlier=["a@b.example"]),
        now.reminder(ADA, [WAITS]),
        now.reminder(ADA, []),
        now.receipt(ADA, came),
        now.letter("closed", ADA, letter="CLOSED\n"),
        now.letter("closed", ADA, SUBJECTS["void"], letter="VOID\n"),
        now.letter("result", ADA, letter="RESULT\n", answers=answers, fates=came),
        now.letter("result", ADA, letter="RESULT\n", answers=None, fates=came),
    ]


def texts(now: Composer, answers: str = "1,2,3") -> list[str]:
    return [letter.text for letter in letters(now, answers)]


class Texts(unittest.TestCase):
    def test_each_language_says_all_in_its_own_words(self):
        english = {
            line
            for text in texts(vote())
            for line in text.splitlines()
            if len(line.split()) > 4 and "python3" not in line and "sha256sum" not in line
        }
        for code in LANGUAGES:
            for how in ({}, {"has_aliases": True}, {"is_over": True}, {"is_signed": True}):
                for text in texts(vote(code, **how)):
                    self.assertNotRegex(text, r"[{}]|\n\n\n")
                    if code != "en":
                        self.assertEqual(english & {*text.splitlines()}, set(), code)
            # each kind has its own subject
            subjects = {letter.subject for letter in letters(vote(code))}
            self.assertEqual(len(subjects), len(SUBJECTS) + 1, subjects)
            for subject in subjects:
                self.assertTrue(subject.endswith(": Spring"), subject)

    def test_a_signed_vote_asks_for_a_signature(self):
        for key, said in (
            ("A" * 40, "Write and sign two lines"),
            ("", "has no key of yours: a letter from you waits"),
        ):
            text = is_read(vote(is_signed=True).reminder(ADA._replace(key=key), []).text)
            self.assertRegex(text, f"(?!.*on top).*has to be signed with OpenPGP.*{said}")
            self.assertEqual("Write and sign" in text, bool(key))
        self.assertNotIn("OpenPGP", vote().reminder(ADA, []).text)

    def test_after_the_end_nobody_is_asked_to_send_anything(self):
        for code in LANGUAGES:
            for reason in (Reason.TOO_LONG(), Reason.NOT_ALONE(number=1), Reason.NO_BALLOT()):
                came = WAITS._replace(letter=came_letter(reason))
                open_text, over = (
                    is_read(vote(code, is_over=is_over).receipt(ADA, [came]).text)
                    for is_over in (False, True)
                )
                said = is_read(language_of(code).say(for_elector(reason)))
                self.assertIn(f" {said} ", open_text)
                why, _, asked = said.partition(". ")
                self.assertIn(f" {why.rstrip('.')}. ", over)
                self.assertNotIn(asked or "_,_", over)
                self.assertNotIn("_,_", over)

    def test_a_reason_that_says_nothing_is_not_told(self):
        """That the secretary has to look at it is said once."""
        texts = [
            [vote(code).receipt(ADA, [WAITS._replace(letter=came_letter(reason))]).text]
            for code in LANGUAGES
            for reason in (None, Reason.PUT_BACK(), Reason.NO_ARRIVAL())
        ]
        for without, *others in zip(*[iter(texts)] * 3):
            self.assertEqual(others, [without, without])

    def test_of_a_letter_of_two_only_whose_ballot_was_typed_is_told_so(self):
        ballots = [typed(1, "ada 1,2,3")._replace(is_typed=False), typed(2, "ben 1,2,3")]
        letter = came_letter(None, entered=ballots)
        for number, is_told in ((1, False), (2, True)):
            fate = Fate(TIME, "counts", envelope(number, "ada 1,2,3"), came_by=letter)
            told = vote().fate_in_words(fate, "ada")
            self.assertEqual("The secretary typed it" in told, is_told)

    def test_of_a_result(self):
        """The letter for all, and within it, behind the winner, the own ballot and where the result
        is.
        """
        place = f"The result is published at:\n  {AT}\n"
        rest = "\nDOUBTS\n\nTHE FILES OF THE RESULT\n\nDownload them.\n"
        how = {"answers": "2,1,3", "fates": ()}
        for letter, end in (
            ("RESULT\n", ""),
            ("RESULT\n\nTHE FILES OF THE RESULT\n", "\nTHE FILES OF THE RESULT\n"),
            (f"RESULT\n\n{place}{rest}", rest),
            (f"RESULT\n\n{place.replace('club', 'earlier')}{rest}", rest),
        ):
            open_text, secret = (
                now.letter("result", ADA, letter=letter, **how).text
                for now in (vote(), vote(has_aliases=True))
            )
            for text in (open_text, secret):
                self.assertTrue(text.startswith(f"Dear Ada L.,\n\nRESULT\n\n{place}\nYour "), text)
                self.assertTrue(text.endswith(end), text)
                self.assertEqual(text.count("The result is published at:"), 1)
            own = "Your own ballot in words: Hall, then Lake, then None. The page shows it at: "
            self.assertIn(f"{own}{AT}#ada", is_read(open_text))
            self.assertNotRegex(secret, "#|2,1,3|Hall")
            none = vote().letter("result", ADA, letter=letter, **how | {"answers": None}).text
            self.assertIn("The result has no ballot of yours", none)

    def test_in_a_secret_vote_no_letter_repeats_what_came(self):
        elector, came = ADA._replace(code="c0de" * 8), all_that_came()
        now = vote(has_aliases=True)
        for letter in (
            now.reminder(elector, came),
            now.receipt(elector, came),
            now.letter("result", elector, letter="RESULT\n", answers=None, fates=came),
        ):
            self.assertIn("It has 1 rank, and the vote has 3 options.", is_read(letter.text))
            self.assertNotRegex(letter.text, r"ada \d|\d,\d|\||c0de|in words|Lake, then")


class CallLetter(unittest.TestCase):
    """The call, an extension, a reminder and a receipt that refuses have the same block."""

    letter = "Dear friends,\n\npaper ballots go to the box in the hall.\n\nYours, Eve\n"

    def asking(self, now: Composer, elector: Elector = ADA) -> list[str]:
        letters = [now.call_letter(elector, is_extension=is_later) for is_later in (False, True)]
        letters += [now.reminder(elector, []), now.receipt(elector, [WAITS])]
        return [letter.text for letter in letters]

    def test_all_have_one_block(self):
        for code in LANGUAGES:
            for text in self.asking(vote(code)):
                self.assertIn(f"{AT}#ada/abcdefghjk", text)
                before, line, block = text.partition("\n  ada _,_,_\n")
                self.assertTrue(line)
                self.assertRegex(" ".join(before.splitlines()[-3:]), r"\b1\b.*; 1 .* - ")
                default = language_of(code).say("the default option")
                names = rf"(?m)^  .*(Lake|Hall|None \({re.escape(default)}\))$"
                self.assertEqual(len(re.findall(names, block)), 3)
                self.assertIn(f"[{alone(POLL).mark}-abcdefghjk]", text)
                lines = text.splitlines()
                self.assertEqual(lines.count(f"  {POLL.checksum}"), 1)
                # one page
                self.assertLess(len(lines), 60)
                self.assertLessEqual(max(map(len, lines)), 72)

    def test_in_a_secret_vote_the_link_has_no_name_and_no_letter_a_command(self):
        elector = ADA._replace(code="c0de" * 8)
        for text in self.asking(vote(has_aliases=True), elector):
            self.assertIn(f"{AT}\n", text)
            self.assertNotRegex(text, r"#|each with its elector's name")
        self.assertNotIn("http", "".join(self.asking(vote(at=None))))
        for code in LANGUAGES:
            text = vote(code, has_aliases=True).call_letter(elector, is_extension=False).text
            self.assertIn("  c0dec0de", text)
            self.assertNotRegex(text, "python|sha256")

    def test_the_words_of_the_secretary_come_first_and_it_is_said_once_whose_they_are(self):
        whose = "The words at the head of this letter are those of whoever sends it. The program debvote wrote the rest, and has not checked them."
        for code in LANGUAGES:
            now = vote(code, letter_text=self.letter)
            *first, refusing = self.asking(now)
            said = language_of(code).say(whose)
            for text in first:
                self.assertTrue(text.startswith(f"{self.letter}\n"), text)
                # behind all that is the program's
                before, _, after = is_read(text).partition(said)
                self.assertEqual((after, said in before), ("", False))
            self.assertNotIn("Dear friends", refusing)
            # a reminder begins so, too, if a letter waits
            self.assertTrue(now.reminder(ADA, [WAITS]).text.startswith(self.letter))

    @unittest.skipUnless(
        importlib.util.find_spec("cryptography"), "python3-cryptography is not installed"
    )
    def test_what_a_vote_by_clicks_says(self):
        of_box = vote(box_key=b"x")
        # what the page cannot prevent is said in the letter, too, but for one on paper
        limit = "Whoever changes the page sees and can change what is chosen on it. "
        # without an own mark the link is nobody's, and only the page is where a ballot is sent
        for elector, found in (
            (ADA, [True, False, True]),
            (ADA._replace(mark=""), [False, False, True]),
            (GUS, [True, False, False]),
        ):
            text = is_read(of_box.call_letter(elector, is_extension=False).text)
            parts = "Open the link, choose, and press Vote", "A ballot that is sent here is sealed:"
            shows = f"{limit}Receipt and result show a change; nothing shows the reading."
            self.assertEqual([part in text for part in (*parts, shows)], found)
        self.assertIn(parts[1], call_page(of_box.call_data).decode())
        for has_slips, said in (
            (True, "You get a slip with a secret code. That alone shows a change, in a copy"),
            (False, "Nothing would show you either."),
        ):
            secret = vote(box_key=b"x", has_aliases=True, has_slips=has_slips)
            text = is_read(secret.call_letter(ADA, is_extension=False).text)
            self.assertIn(limit + said, text)
            # it seals the ballot, and writes no line
            self.assertIn("The page of the vote, on which you vote, and on which the", text)
            self.assertNotIn("which writes the line", text)
            # it does not say what came
            receipt = is_read(secret.receipt(ADA, all_that_came()).text)
            self.assertIn("If you have not sent this, answer at once. You vote under", receipt)

    def test_what_one_letter_says_and_another_does_not(self):
        # the texts are in the call on paper, and not in what follows it; a word is an answer to a
        # motion alone
        motion = SealedPoll("Fee", ("Yes",), (1,), "No", 0, ("ada", "ben"), motion=True)
        questions = Questions({"A": explained("A lake.")[""], "B": motion}, "Meeting")
        now = vote(questions=questions, quorum_votes={"A": 1, "B": 0})
        whose = "The texts about the options are those of whoever sends this letter."
        for is_extension in (True, False):
            letter = now.call_letter(GUS, is_extension=is_extension).text
            found = [is_read(letter).count(said) for said in ("A lake.", whose)]
            self.assertEqual(found, [int(not is_extension)] * 2)
        self.assertEqual(is_read(letter).count("(or in place of the ranks one word: "), 1)
        # only options have a box to write into
        [_, _, ballot] = rows_to_print(letter)
        self.assertEqual([kind for _, kind in ballot].count("option"), len(POLL.names) + 2)
        # the quorum of a question has its title before it, where the rest is on the page
        said = "Question A: Spring The quorum is 1 vote: at least 1 elector must prefer an option to the default option."
        self.assertIn(said, is_read(now.call_letter(ADA, is_extension=False).text))

    def test_greeting_mark_and_texts(self):
        """By the secretary's own words, or by the name where these do not greet."""
        greeting = (
            "Dear all",
            "Hello members!",
            "Liebe Mitglieder,",
            "Sehr geehrte Damen und Herren,",
            "Chers membres,",
            "Bonjour \u00e0 tous",
            "Estimados socios:",
            "\u00a1Hola a todos!",
            "Mitglieder des TSV,",
            "Friends of the lake!",
        )
        for first in (*greeting, "Paper goes into the box.", "Das Wichtige steht unten."):
            for text in self.asking(vote(letter_text=f"{first}\n\nMore.\n"))[:3]:
                begin = first if first in greeting else f"Dear Ada L.,\n\n{first}"
                self.assertTrue(text.startswith(f"{begin}\n\nMore.\n\n"), text)
        # one to an earlier address has no own mark, and a signed letter needs none
        for elector, said in (
            (ADA, "That is your own mark, which nobody else knows: a letter without it waits"),
            (ADA._replace(mark=""), "Open the link in your letter, or answer that letter: then"),
        ):
            for text in self.asking(vote(), elector):
                self.assertIn(said, is_read(text))
        self.assertNotIn("own mark", "".join(self.asking(vote(is_signed=True))))
        # without a page the texts follow
        told = explained("A lake.\nada\n")
        for letter in ("", self.letter):
            now = vote(questions=told, at=None, letter_text=letter)
            text = now.call_letter(ADA, is_extension=False).text
            self.assertIn("\n\nOption 1: Lake\n\nA lake.\nada\n\nWHAT DECIDES\n", text)
            self.assertEqual(text.count("checked"), 1)
            whose = "The words at the head of this letter, and the texts"
            self.assertEqual(whose in is_read(text), bool(letter))
        for now, is_extension in ((now, True), (vote(questions=told), False)):
            self.assertNotIn("A lake", now.call_letter(ADA, is_extension=is_extension).text)

    def test_it_says_what_asks_for_more_than_a_plain_majority(self):
        for ratios, quorum, is_told in (((1, 3), 1, True), ((1, 1), 0, False)):
            poll = dataclasses.replace(POLL, ratios=ratios, quorum=quorum)
            text = is_read(vote(questions=alone(poll)).call_letter(ADA, is_extension=False).text)
            for said in (
                "Majority ratio 3: at least 3 times as many electors must prefer the option to the default option",
                "The quorum is 1 vote: ",
                "The roll has 2 electors.",
                "Hall (majority ratio 3)",
            ):
                self.assertEqual(said in text, is_told, said)
            self.assertNotIn("majority ratio 1", text.lower())


@NEEDS_BROWSER
class Printed(unittest.TestCase):
    def page(self, **how: object) -> pathlib.Path:
        folder = pathlib.Path(self.enterContext(tempfile.TemporaryDirectory()))
        style = resources(PACKAGE, "letter.css")
        language = language_of("en")
        page = render_page(
            PACKAGE,
            "print.html",
            language,
            style=style,
            title="Spring",
            sender="",
            picture_of=picture_of,
            **how,
        )
        (folder / "page.html").write_bytes(page)
        return folder / "page.html"

    def sides(self, **how: object) -> int:
        """How many sides letters have in print."""
        with Window(900, 1400) as window:
            window.open(self.page(**how))
            printed = window.tell("Page.printToPDF", preferCSSPageSize=True)["data"]
        return len(re.findall(rb"/Type\s*/Page\b", base64.b64decode(printed)))

    def test_a_question_is_apart_from_the_boxes_above_it(self):
        questions = Questions(dict.fromkeys("ABC", POLL), "Meeting")
        now = vote(questions=questions, quorum_votes=dict.fromkeys("ABC", 1))
        text = now.call_letter(GUS, is_extension=False).text
        page = self.page(is_secret=False, letters=[("Gus", rows_to_print(text), None)])
        with Window(900, 1400) as window:
            window.open(page)
            gaps = window.ask(
                """[...document.querySelectorAll(".option + p:not(.option)")].map((head) =>
              head.getBoundingClientRect().top - head.previousElementSibling.getBoundingClientRect().bottom)"""
            )
        self.assertEqual([gap > 12 for gap in gaps], [True, True], gaps)

    def test_no_letter_of_a_secret_vote_is_on_the_back_of_another(self):
        """Whether they are printed on one side of the paper or on both."""
        letters = [(name, [[("Hello", "paragraph")]], None) for name in ("Ada", "Ben", "Cleo")]
        for is_secret, sides in ((False, 3), (True, 6)):
            self.assertEqual(self.sides(is_secret=is_secret, letters=letters), sides)

    def test_without_texts_none_are_too_long(self):
        labels = "ABCDEFG"
        questions = Questions(dict.fromkeys(labels, POLL), "Meeting")
        now = vote(
            questions=questions, quorum_votes=dict.fromkeys(labels, 1), letter_text="x\n" * 60
        )
        text = now.call_letter(GUS, is_extension=False).text
        self.assertGreater(text.count("\n"), 112)
        self.assertNotIn(TEXTS, is_read(text))

    def test_a_letter_has_at_most_two_sides_and_the_texts_or_where_they_are(self):
        """With twelve options, no page, a secret code, and 600 characters of the secretary's own;
        or with texts, if they have room.
        """
        printed = []
        names = tuple(
            f"A rather long name of an option, as societies have them, number {number}"
            for number in range(1, 12)
        )
        poll = dataclasses.replace(POLL, options=names, ratios=(1,) * 11)
        long = {"at": None, "has_aliases": True, "questions": alone(poll)}
        long["letter_text"] = "Paper ballots go into the box in the hall of our house.\n" * 11
        for code in LANGUAGES:
            printed.append(
                vote(code, **long).call_letter(GUS._replace(code="c0de" * 8), is_extension=False)
            )
            for number, at in ((8, None), (9, AT), (70, AT), (70, None)):
                questions = explained("A lake, and room for forty tents.\n\n" * number)
                now = vote(code, questions=questions, at=at, letter_text=CallLetter.letter)
                text, by_mail = (
                    now.call_letter(elector, is_extension=False).text for elector in (GUS, ADA)
                )
                self.assertEqual(text.count("forty tents"), number if number < 70 else 0)
                self.assertEqual(by_mail.count("forty tents"), 0 if at else number)
                say = now.call_data.language.say
                said = is_read(say(TOO_LONG if at else TOO_LONG_WITHOUT_PAGE))
                self.assertEqual(is_read(text).count(said), int(number == 70))
                for head in ("What decides", "What will be public"):
                    self.assertIn(say(head).upper(), text)
                self.assertEqual(f"{at}#{GUS.name}/{GUS.mark}" in text, at is not None)
            # the longest that has them fills its two sides
            longest = ""
            for lines in itertools.count(30):
                now = vote(code, questions=explained("Room for forty tents.\n" * lines))
                letter = now.call_letter(GUS, is_extension=False)
                if "forty tents" not in letter.text:
                    break
                longest = letter
            found = longest.text.count("forty tents"), longest.text.count("\n")
            self.assertEqual(found, (lines - 1, 112 - 4), code)
            printed.append(longest)
        link = f"{AT}#{GUS.name}/{GUS.mark}"
        letters = [("Ada", rows_to_print(letter.text), link) for letter in printed]
        boxes = [kind for _, parts, _ in letters for _, kind in parts[2]].count("option")
        self.assertEqual(boxes, (12 + 3) * len(LANGUAGES))
        self.assertEqual(self.sides(is_secret=False, letters=letters), 2 * len(letters))

    def test_on_paper_the_ballot_is_cut_off_and_has_no_code(self):
        """It has all that is given back, and nothing else asks for ranks, or for an e-mail."""
        where = "Your ballot is the last part of this letter: fill it in, cut it off, and give it to whoever sent you this letter."
        boxes = "Write a number into each box: 1 is the best, equal numbers are allowed, and an empty box is last. Return only this part."
        elector = GUS._replace(code="c0de" * 8)
        for code, own in itertools.product(LANGUAGES, ("", CallLetter.letter)):
            now = vote(code, has_aliases=True, letter_text=own)
            say = now.call_data.language.say
            for number, text in enumerate(CallLetter().asking(now, elector)):
                [read, kept, ballot] = rows_to_print(text)
                self.assertEqual("c0de" in str(kept), number == 0)
                self.assertNotIn("c0de", str((read, ballot)))
                # a head does not stand alone at the foot of a side
                heads = [say(head).upper() for head in ("What decides", "What will be public")]
                found = [row for row, kind in read if kind == "head"]
                self.assertEqual(found, heads if number == 0 else [])
                head = f"{POLL.name} {say('Name: {name}', name='gus')}"
                found = [(is_read(row), kind) for row, kind in ballot]
                wanted = [(is_read(said), "paragraph") for said in (head, say(boxes))]
                self.assertEqual(found[:2], wanted)
                self.assertEqual([kind for _, kind in found[2:]], ["option"] * 3)
                self.assertNotRegex(text, r"_,_|@|\[")
                # where the secretary's own words are, they say it
                is_said = is_read(say(where)) in is_read(text)
                self.assertEqual(is_said, own not in text or not own)


class Bytes(unittest.TestCase):
    def message(
        self, text: str, subject: str = "Vote: Fr\u00fchling", sender_name: str = ""
    ) -> bytes:
        due = types.SimpleNamespace(sender="vote@club.example", sender_name=sender_name)
        due.composer = types.SimpleNamespace(call_data=types.SimpleNamespace(to=None))
        due.text_of = lambda letter: OutgoingText(subject, "[0123456789abcdef-abcdefghjk]", text)
        return message(due, LETTER, is_draft=False)  # type: ignore[arg-type]

    def test_texts_come_through_as_they_are(self):
        for text in (
            "a\n",
            "\u00e4\n",
            "From me\n>From you\n.\n",
            "x" * 2000 + "\n",
            "\u00e4 " * 500 + "\n",
            "a\n\nFrom \u00fc\n",
            " \n\t\n",
            "=20\n",
        ):
            data = self.message(text)
            self.assertEqual(parsed(data).get_content(), text)
            self.assertTrue(data.isascii())
            self.assertNotRegex(data.partition(b"\n\n")[2], rb"(?m)^>*From |^\.$")
            self.assertLess(max(map(len, data.split(b"\n"))), 998)

    def test_heads(self):
        for title in (
            "a\nBcc: x@y.example",
            "\u00fc" * 200,
            "x" * 200,
            "a\r\n\r\nbody",
            "\u202e",
            "\ud800",
        ):
            found = parsed(self.message("text\n", subject=f"Vote: {on_one_line(title)}"))
            self.assertRegex(found["Subject"], r" \[0123456789abcdef-abcdefghjk\]$")
            self.assertEqual([name for name, _ in found.raw_items()].count("Subject"), 1)
            self.assertEqual((found["Bcc"], found.get_content()), (None, "text\n"))
        # the sender has the name of the society
        for name in (
            "",
            "Wahlleitung TSV",
            "B\u00fcro; Verein, e.V. <x@y.example>",
            "a\nBcc: x@y.example",
            '"\\',
        ):
            found = parsed(self.message("text\n", sender_name=name))
            [address] = found["From"].addresses
            self.assertEqual(
                (address.display_name, address.addr_spec), (on_one_line(name), "vote@club.example")
            )
            self.assertEqual((found["To"], found["Bcc"]), ("ada@club.example", None))
        # no encoded word is longer than 75 characters, and no line with one longer than 76
        for name in (
            "\u00e4" * 100,
            "\u00e4 b " * 24 + "c",
            "\u65e5" * 100,
            "B\u00fc" * 14,
            *("\u00fc" + "x" * number for number in (32, 33)),
        ):
            data = self.message("text\n", sender_name=name)
            sender = email.header.decode_header(email.message_from_bytes(data)["From"])
            self.assertEqual(str(email.header.make_header(sender)), f"{name} <vote@club.example>")
            lines = [line for line in data.split(b"\n") if b"=?" in line]
            self.assertLessEqual(max(map(len, lines)), 76)
            self.assertLessEqual(max(map(len, b" ".join(lines).split())), 75)
        elector = ADA._replace(who="Ada\r\nBcc: x@y.example\n\nada 1,2,3\u2028" + "x" * 500)
        text = vote().letter("closed", elector, letter="CLOSED\n").text
        self.assertRegex(text, r"\ADear Ada [^\n]+(\n[^\n]+)*\n\nCLOSED\n\Z")
        self.assertLess(len(text), 250)

    def test_one_fault_a_line(self):
        ranks = "bad rank count: {} ranks, the poll has 3 options".format
        said = "One of its answers has {}, and the question has 3 options.".format
        for verdict, is_of_several, wanted in (
            ("bad shape: it is odd", False, "It is not written"),
            (None, False, "It is a ballot"),
            ("bad not on roll: bob", False, "The name in it"),
            # the vote has no number of options, but each question
            (ranks(1), True, said("1 rank")),
            (ranks(4), True, said("4 ranks")),
        ):
            [found] = faults_of(verdict, "", language_of("en"), is_of_several=is_of_several)
            self.assertTrue(found.startswith(wanted), found)
        self.assertEqual([*faults_of("late: x", "", language_of("en"))], [])
