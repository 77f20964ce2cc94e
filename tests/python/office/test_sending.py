"""Letters that the office sends: the password of a mail server is on no page."""

from tests.support import offices
from tests.support.outgoing import SendTest

PASSWORD = "correct horse <b> battery"


class Sending(SendTest):
    def test_a_password_is_asked_and_not_shown(self):
        self.server = self.mail_server_with_login()
        office = offices.Office(self)
        server = f"127.0.0.1:{self.server.port}"
        text = office.post("do/letters", kind="call", send="1", server=server, user="vote")
        office.shows(text, "The password of vote on 127.0.0.1:")
        self.assertIn('type="password"', text)
        for password, words in (
            (PASSWORD, "it refuses user or password"),
            ("right", "Sent 9 of 9"),
        ):
            text = office.shows(office.yes(text, password), words)
            pages = [office.page(place) for place in ("", "all", "run/1", "letters", "roll")]
            for page in (text, *pages):
                self.assertNotRegex(page, "battery|right\n")
            text = office.post("do/letters", kind="call", send="1", server=server, user="vote")
        self.assertEqual(len(self.server.taken), 9)
        self.assertEqual(self.server.logins[-1], (b"vote", b"right"))
