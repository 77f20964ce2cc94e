"""Who may ask the office for anything, and how it begins and ends."""

import concurrent.futures
import http
import os
import pathlib
import re
import signal
import subprocess
import sys
import threading
import time
from unittest import mock

import pytest
from debvote_tools.office import office as office_module
from debvote_tools.office import server, visit

from tests.support import boxes, elections, offices
from tests.support.elections import ElectionTest
from tests.support.program import ROOT

FORM = {"Content-Type": "application/x-www-form-urlencoded"}
# of each answer
HEADS = {
    "Referrer-Policy": "same-origin",
    "Cache-Control": "no-store",
    "Content-Security-Policy": "default-src 'none'; style-src 'self'; script-src 'self'; form-action 'self'; frame-ancestors 'none'; base-uri 'none'",
}


class WhoAsks(ElectionTest):
    def test_other_sites_and_other_users(self):
        office = offices.Office(self)
        own = {"Origin": f"http://{office.host}"}
        status, heads, _ = office.ask("GET", office.base)
        self.assertEqual((status, {**heads, **HEADS}), (http.HTTPStatus.OK, heads))
        port = office.host.partition(":")[2]
        for host in ("localhost:" + port, "evil.example", "127.0.0.1", f"127.0.0.1:{port}0"):
            self.assertEqual(office.ask("GET", office.base, Host=host)[0], 421, host)
        for path in ("/", "/x", "/x/roll", office.base[:-2], office.base[:-2] + "x/", "//"):
            self.assertEqual(office.ask("GET", path)[0], 404, path)
        before = self.contents()
        origins = ("null", "http://evil.example", f"http://localhost:{port}")
        sites = ("cross-site", "same-site", "none")
        for heads in (
            {},
            *({"Origin": origin} for origin in origins),
            *({**own, "Sec-Fetch-Site": site} for site in sites),
        ):
            form = "letters=1&numbers=1&early=1"
            found = office.ask("POST", office.base + "do/close", form, **FORM, **heads)
            self.assertEqual(found[0], 403, heads)
        self.assertEqual(self.contents(), before)
        office.page()

    def test_a_secret_of_a_wall_or_of_a_result_opens_nothing_else(self):
        office = offices.Office(self)
        text = office.page()
        # no script of another page learns by the referrer what opens all
        self.assertEqual(text.count("_blank"), text.count('rel="noopener noreferrer"'))
        [big] = re.findall(r'href="http://[^/]*(/[^/"]*/)" target', text)
        self.assertNotEqual(big, office.base)
        status, _, body = office.ask("GET", big)
        self.assertEqual(status, 200)
        self.assertNotIn(office.base, body.decode())
        for place in ("roll", "letters", "do/close", "draft", "print/private/slips.html"):
            self.assertEqual(office.ask("GET", big + place)[0], 404, place)
        own = {"Origin": f"http://{office.host}", **FORM}
        for place in ("end", "do/close"):
            self.assertEqual(office.ask("POST", big + place, "early=1", **own)[0], 404, place)

    def test_no_page_leaves_the_folder(self):
        (self.folder / "private").mkdir(exist_ok=True)
        (self.folder / "private" / "codes.csv").write_text("secret")
        office = offices.Office(self)
        for place in (
            "print/election.db",
            "print/private/codes.csv",
            "print/letters/call/../../election.db",
            "print/..%2f..%2fetc%2fpasswd",
            "print//etc/passwd",
            "result/index.html",
            "do/new",
            "do/desk",
            "do/__init__",
            "desk/9",
            "desk/0",
            "desk/x",
            "run/1",
            "run/" + "9" * 30,
            "letters/7",
            "x",
        ):
            self.assertEqual(office.ask("GET", office.base + place)[0], 404, place)

    def test_a_request_is_limited(self):
        office = offices.Office(self)
        for method, body, heads, *wanted in (
            ("POST", "", {**FORM, "Content-Length": str(16 * 1024 * 1024 + 1)}, 413),
            ("POST", "", {**FORM, "Content-Length": "x"}, 411),
            ("POST", b"\xff\xfe", {"Content-Type": "multipart/form-data"}, 303, 400),
            ("HEAD", None, {}, 501),
            ("PUT", "x", {}, 501),
        ):
            heads["Origin"] = f"http://{office.host}"
            found = office.ask(method, f"{office.base}letters", body, **heads)
            self.assertIn(found[0], wanted, method)


class Values(ElectionTest):
    def test_what_looks_like_an_option_is_a_value(self):
        office = offices.Office(self)
        text = office.post("do/show", name="--help")
        office.shows(text, "no elector on the roll is `--help`")
        text = office.post("do/strike", number="1", because="--moved\r\n--yes")
        self.assertNotIn("unrecognized", office.shows(text, "strike --because=--moved"))

    def test_what_a_command_asks_has_no_answer_in_a_form(self):
        office = offices.Office(self)
        self.assertNotRegex(office.page("do/close"), 'name="(yes|moved)"')
        text = office.shows(office.post("do/close", yes="1", moved="1"), "Is that all?")
        office.shows(office.page(), "wait")
        text = office.yes(text, "n")
        # a no is no fault
        self.assertIn("<h1>It was not done</h1>", text)
        self.assertNotIn("said fault", text)
        self.assertNotIn(("close",), self.rows("SELECT name FROM act"))
        office.agree("do/close")
        self.assertIn(("close",), self.rows("SELECT name FROM act"))

    def test_an_answer_is_taken_once_and_by_its_own_question_alone(self):
        office = offices.Office(self)
        first = office.post("do/close")
        place = office.place
        lost = "it was not taken"
        for number in ("0", str(office.asked(first) + 1), "", "x"):
            self.assertIn(lost, office.post(place, asked=number, answer="y"))
        self.assertIn(lost, office.post(place, asked=office.asked(first), answer="y\ny"))
        office.post(place, asked=office.asked(first), answer="n")
        self.assertIn(lost, office.post(place, asked=office.asked(first), answer="y"))
        again = office.post("do/close")
        self.assertIn(lost, office.post(office.place, asked=office.asked(first), answer="y"))
        self.assertNotIn(("close",), self.rows("SELECT name FROM act"))
        office.yes(again)
        self.assertIn(("close",), self.rows("SELECT name FROM act"))


class BeginAndEnd(ElectionTest):
    def test_there_is_one_office_for_a_book(self):
        office = offices.Program(self)
        words = [sys.executable, str(offices.OFFICE), str(self.folder)]
        own = {"XDG_STATE_HOME": str(self.state), "BROWSER": "true", "DISPLAY": ""}
        env = elections.environment() | own
        said = subprocess.run(
            words, stdout=subprocess.PIPE, text=True, env=env, timeout=60, check=True
        ).stdout
        [page] = map(pathlib.Path, re.findall(r"its page is (.*)\.\n", said))
        self.assertIn(office.address, page.read_text())
        modes = [file.stat().st_mode & 0o777 for file in (page, page.parent)]
        self.assertEqual(modes, [0o600, 0o700])
        office.end()
        self.assertFalse(page.exists())
        offices.Office(self).page()

    def begun(self):
        """An office in which two commands ask, and these."""
        office = offices.Program(self)
        office.post("do/close")
        office.type("ada", "1,2,3,4")
        children = offices.children(office)
        self.assertEqual(len(children), 2)
        return office, children

    def assert_gone(self, children):
        end = time.monotonic() + elections.SECONDS
        while any(map(offices.is_there, children)):
            self.assertLess(time.monotonic(), end)
            time.sleep(0.05)
        self.assertEqual(self.rows("SELECT * FROM envelope"), [])

    def test_its_end_interrupts_what_runs(self):
        office, children = self.begun()
        self.assertIn("has ended", office.post("end"))
        self.assertEqual(office.wait(), 0)
        self.assert_gone(children)

    def test_a_kill_leaves_no_command_and_a_whole_book(self):
        office, children = self.begun()
        os.kill(office.pid, signal.SIGKILL)
        office.wait()
        self.assert_gone(children)
        self.done("log", "--check")

    def test_it_ends_if_nobody_asks_for_long(self):
        of_hours = office_module.Office(offices.OFFICE.parent, "en")
        self.addCleanup(of_hours.close)
        with mock.patch.object(office_module, "IDLE", 0.1), server.Server(of_hours, 0) as serving:
            thread = threading.Thread(target=serving.serve_forever)
            thread.start()
            thread.join(elections.SECONDS)
            self.assertFalse(thread.is_alive())

    def test_it_opens_and_makes_elections(self):
        office = offices.Office(self, folder=str(self.scratch))
        self.assertIn("it is not an election", office.page())
        self.assertEqual(office.ask("GET", office.base + "roll")[0], 404)
        self.assertIn("it is no whole path", office.post("new", folder="x"))
        made = self.scratch / "new one"
        text = office.post("new", folder=made, language="de", questions="3")
        office.shows(text, "Made the folder")
        self.assertTrue((made / "polls" / "C.toml").is_file())
        office.shows(office.post("folder", folder=made), "In Vorbereitung")
        other = offices.Office(self, folder="")
        self.assertIn(str(made), other.page())
        # a link leads to the page that has it
        self.assertIn(f'href="{office.address}"', other.post("folder", folder=made))
        other.shows(other.post("folder", folder=self.folder), "0 of 9")

    @pytest.mark.whole
    def test_pages_and_commands_leave_nothing_open(self):
        office = offices.Program(self)
        for _ in range(3):
            office.page("letters")
            office.post("do/show", name="ada")
        before = offices.descriptors(office)
        for number in range(100):
            office.page(("", "roll", "letters", "desk/1", "all", "draft")[number % 6])
        for _ in range(6):
            office.post("do/show", name="ada")
        # the socket of the last answer is closed after it
        end = time.monotonic() + elections.SECONDS
        while offices.descriptors(office) > before:
            self.assertLess(time.monotonic(), end)
            time.sleep(0.05)
        self.assertEqual(offices.children(office), [])
        status = pathlib.Path(f"/proc/{office.pid}/status").read_text()
        [memory] = re.findall(r"VmRSS:\s+(\d+) kB", status)
        self.assertLess(int(memory), 80_000)


class Reading(ElectionTest):
    def test_one_page_at_a_time_reads_the_book(self):
        """A second thread of the process would close a file of the database that the first has open."""
        office = office_module.Office(ROOT / "bin", None)
        self.addCleanup(office.close)
        office.folder = self.folder
        reading = visit.Visit(office, office_module.ALL, "", "", {})
        with mock.patch.dict(os.environ, XDG_STATE_HOME=str(self.state)):
            self.assertEqual(reading.election.folder, self.folder)
        with concurrent.futures.ThreadPoolExecutor(1) as other:
            for is_free in (False, True):
                found = other.submit(office.reading.acquire, blocking=False).result()
                self.assertEqual(found, is_free)
                reading.close()


class OwnPrograms(ElectionTest):
    call_words = ("--to", "vote@club.example", "--at", "https://club.example/vote/")

    def write_programs(self):
        said = self.scratch / "said"
        words = ["cp", "-r", "{folder}/", str(said)]
        mailbox = str(self.scratch / "mail.mbox")
        text = f"upload = {words}\nfetch = {['touch', mailbox]}\nmailbox = {mailbox!r}\n"
        self.write("office.toml", text)
        return said

    def test_nothing_runs_before_somebody_agrees(self):
        said = self.write_programs()
        office = offices.Office(self)
        text = office.shows(office.page(), "nobody has agreed", "cp -r {folder}/")
        self.assertNotIn(f'{office.base}upload"', text)
        for place, fields in (("upload", {"kind": "call"}), ("fetch", {})):
            self.assertIn("nobody has agreed", office.post(place, **fields))
        self.assertFalse(said.exists())
        office.post("agree", digest="0" * 64)
        self.assertIn("nobody has agreed", office.post("upload", kind="call"))
        self.assertNotIn("nobody has agreed", office.trust())
        text = office.post("upload", kind="call")
        self.assertTrue((said / "call.txt").is_file(), text)
        self.assertNotIn("nobody has agreed", office.post("fetch"))
        # a changed file, and one at another place, ask anew
        self.write("office.toml", 'upload = ["false"]\n')
        self.assertIn("nobody has agreed", office.page())
        self.assertIn("nobody has agreed", office.post("upload", kind="call"))
        self.write_programs()
        self.assertNotIn("nobody has agreed", office.page())
        office.end()
        self.folder.rename(self.scratch / "elsewhere")
        self.folder = self.scratch / "elsewhere"
        self.assertIn("nobody has agreed", offices.Office(self).page())

    def test_a_file_that_is_no_list_of_words_is_a_fault(self):
        office = offices.Office(self)
        for text in ('upload = "rsync"', "upload = [1]", 'fetch = ["x"]', "x"):
            self.write("office.toml", text)
            status, _, body = office.ask("GET", office.base)
            self.assertEqual(status, 409, text)
            self.assertIn("office.toml", body.decode())


class WithBox(boxes.BoxElectionTest):
    def test_the_web_host_is_asked_before_and_after_an_upload(self):
        self.begun(ada="1,2,3,4")
        words = ["cp", "-r", "{folder}/.", str(self.web)]
        self.write("office.toml", f"upload = {words}\n")
        office = offices.Office(self)
        office.trust()
        before = self.askings()
        # what lies there is fetched first; it is asked about, and a no keeps nothing back
        text = office.post("upload", kind="call")
        office.yes(office.shows(text, "Enter 1 ballot?"), "n")
        self.assertEqual(self.askings(), before + 2)
        # a program that fails, or is not there, is the last of its row
        for number, (program, said) in enumerate(
            (("false", "Look at this"), ("no-program", "install it, or name another one")), start=3
        ):
            self.write("office.toml", f'upload = ["{program}"]\n')
            office.trust()
            text = office.post("upload", kind="call")
            text = office.yes(text, "n") if 'name="asked"' in text else text
            office.shows(text, said)
            self.assertEqual(self.askings(), before + number)

    def askings(self):
        query = "SELECT count(*) FROM act WHERE name = 'letters' AND detail ->> 'box' IS NOT NULL"
        return self.rows(query)[0][0]
