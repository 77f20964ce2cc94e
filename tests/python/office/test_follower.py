"""Random elections in which the secretary presses the first button of the overview, and no other: each elector gets each letter that is due."""

import functools
import html
import re
import urllib.parse

import pytest

from tests.python.book import test_what_next
from tests.support import elections, offices
from tests.support.outgoing import SendTest
from tests.support.questions import QuestionsTest

# how many elections are held: each command is a process
ELECTIONS = max(1, test_what_next.ELECTIONS // 4)

# the button that is filled: a link, or a form with its fields
FIRST = re.compile(
    r'<a class="letter first" href="([^"]*)"|<form[^>]*action="([^"]*)"[^>]*>((?:(?!</form>).)*class="first".*?)</form>',
    re.DOTALL,
)
FIELD = re.compile(r'<input[^>]* name="([^"]*)"[^>]* value="([^"]*)"')


class ByButtons(test_what_next.Followed):
    """The same elections, of which the secretary sees the overview alone."""

    def do_all(self):
        # the clock of an office is that of its beginning
        office = offices.Office(self)
        text = office.page()
        pressed = list[str]()
        while button := FIRST.search(text.partition('id="Next"')[2]):
            link, action, body = map(html.unescape, button.groups(""))
            place, _, query = (link or action).removeprefix(office.base).partition("?")
            fields = dict(FIELD.findall(body)) | dict(urllib.parse.parse_qsl(query))
            pressed.append(place)
            self.assertLess(len(pressed), test_what_next.MOST, pressed)
            text = self.press(office, place, fields)
            if 'id="Next"' not in text:
                text = office.page()
            self.accept_later()
        office.end()

    def press(self, office: offices.Office, place: str, fields: dict[str, str]) -> str:
        """What follows a button, once its form is filled in, and what is asked is answered with yes."""
        if place == "letters":
            self.watched(self.decide)
            return office.page()
        self.backups += 1
        forms = {
            "do/letters": {"server": self.server.name},
            "do/backup": {"file": f"{self.scratch}/{self.backups}.db"},
        }
        if any(name.startswith("casting") for name in fields):
            forms["do/publish"] = {"cast_by": "The chair", "cast_on": f"{self.time:%Y-%m-%d}"}
        fields |= forms.get(place, {})
        if place == "do/publish":
            self.all_get("esult")
        text = office.agree(place, **fields)
        if place == "do/publish" and "said fault" in text:
            # another casting vote than before a reopening
            text = office.agree(place, **fields, force="1", because="it was so")
        # a mail server may refuse an address
        self.assertTrue("said fault" not in text or place == "do/letters", text)
        return text


# what the commands say, test_what_next follows
@pytest.mark.whole
class OneQuestion(ByButtons, SendTest):
    pass


@pytest.mark.whole
class SecretVote(ByButtons, SendTest):
    poll = f"secret = true\n{elections.POLL}"
    call_words = [*ByButtons.call_words, "--yes"]


@pytest.mark.whole
class ThreeQuestions(ByButtons, QuestionsTest, SendTest):
    labels = ["A", "B", "C"]


KINDS = [OneQuestion, ThreeQuestions, SecretVote]

for seed in range(ELECTIONS):
    setattr(KINDS[seed % 3], f"test_{seed}", functools.partialmethod(ByButtons.played, seed))
del seed
