"""The page of a vote in Firefox: a ballot that is sealed there arrives, and is opened as it was chosen."""

from tests.support import boxes
from tests.support.in_firefox import NEEDS_FIREFOX, Window
from tests.support.web_host import NEEDS_PHP


@NEEDS_PHP
@NEEDS_FIREFOX
class InFirefox(boxes.BoxElectionTest):
    def test_a_click(self):
        """Keys and buttons of a second engine, whose cryptography is its own."""
        place = self.place_of("ada", self.begun()["ada"])
        with Window(390, 844) as window:
            window.open_address(f"{self.host.at}#{place}")
            self.assertEqual(window.ballot(None, "21-3")["line"], "ada 2,1,-,3")
            window.ask("document.getElementById('Vote').focus()")
            window.press("Enter")
            window.until("document.getElementById('Sent').textContent.startsWith('It has arrived')")
            self.assertEqual(window.faults, [])
            self.assertLessEqual(window.ask("document.documentElement.scrollWidth"), 390)
        self.done("add", "--box", "--yes")
        self.assertEqual(self.standing(), {"ada": "2,1,-,3"})
