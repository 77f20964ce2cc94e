"""The web box of a vote on a real server of PHP.

It says what each request is answered, what the file has then, and that nothing that was
acknowledged is lost, whatever fails.
"""

import concurrent.futures
import datetime
import fcntl
import pathlib
import re
import subprocess
import tempfile
import unittest

import pytest

from debvote_tools.call.box import (
    END_OF_CODE,
    SCRIPT,
    asking_word,
    list_digest,
    page_of,
    proof_digest,
    script_of,
    third_part,
)
from debvote_tools.poll.questions import LABELS
from debvote_tools.text.rendering import resources

from tests.support import sealing
from tests.support.web_host import (
    ASK,
    END,
    FILE,
    FIRST,
    HOST_OFF,
    KEY,
    LINKS,
    MARK,
    NEEDS_PHP,
    OWNS,
    PAGE,
    STRACE,
    WORD,
    Answer,
    BoxTest,
    Host,
    ballot,
    clock_of_php,
    place_of,
    record,
    request_of,
)

LIMIT, OF_A_LINK, FULL = 4_000, 20, 30_000_000
TIME = re.compile(r"received (\d{4}-\d\d-\d\dT\d\d:\d\d:\d\dZ)\n")

# settings with which PHP compiles a script once
CACHE = ["-d", "zend_extension=opcache"]
for one in ("enable=1", "enable_cli=1", "validate_timestamps=0", "file_update_protection=0"):
    CACHE += ["-d", f"opcache.{one}"]


def digest_of(name: str) -> str:
    """The digest of the proof of an elector, as the host knows it."""
    return proof_digest(MARK, place_of(name))


# bodies that are no request of the page
GOOD, OF_ADA, PROOF = (
    ballot("ada", "1,2", 77),
    LINKS["ada"],
    sealing.proof_of(MARK, place_of("ada")).encode(),
)
ASKED = ["ada 1,2", "ask", "ask ", f"ASK {WORD}", f"ask {WORD.upper()}", f"ask {WORD[:-1]}"]
ASKED += [f"ask {WORD}0", f" ask {WORD}"]
# of what is sealed, what of it may be another sign
SEALED = GOOD.splitlines()[1]
OTHERS = [
    b"=",
    b"+",
    b"/",
    b" ",
    b"\x00",
    b"\xb9",
    b"<?php phpinfo(); ?>",
    b"\n\n",
    b"../../etc/passwd",
]
BAD = [
    *(b"", b"\n", b'{"line": "ada 1,2"}', b"\xff" * 40, b"line=ada+1,2&link=" + OF_ADA.encode()),
    *(ASK[:-1], ASK + b"\n", b"a=" + ASK, *map(request_of, ASKED)),
    *(GOOD[:-1], GOOD + b"\n", GOOD.replace(b"\n", b"\r\n"), b"\xef\xbb\xbf" + GOOD),
    *(b"box=box=" + GOOD, GOOD.replace(b"0" * 30, b"g" * 30)),
    # a ballot of a page of before, which names no poll
    GOOD.removeprefix(f"{PAGE} ".encode()),
    *(ballot("ada", "1,2", 77, page=page) for page in (PAGE[:-1], PAGE.upper())),
    # as before ballots were sealed
    request_of(f"{PAGE} ada 1,2", OF_ADA, f"{77:032x}"),
    *(GOOD.replace(PROOF, other) for other in (PROOF[1:], PROOF.upper(), PROOF + b"0", b"")),
    *(GOOD.replace(SEALED, SEALED[:40] + other + SEALED[40:]) for other in OTHERS),
    *(GOOD.replace(SEALED, other) for other in (b"", SEALED[:199], b"A" * 3_801)),
]


def click(host: Host, number: int, ranks: str = "1,2", name: str = "ada") -> Answer:
    """The answer to a ballot."""
    return host.send(ballot(name, ranks, number))


class ScriptTest(BoxTest):
    def assert_answer(self, answer: Answer, status: int, word: str):
        self.assertEqual((answer.status, answer.word), (status, word))

    def assert_lost(self, *answers: Answer):
        for answer in answers:
            self.assert_answer(answer, 503, "lost:")

    def received(self, answer: Answer) -> str:
        """The time of an answer that says that the ballot arrived."""
        found = TIME.fullmatch(answer.text)
        self.assertEqual((answer.status, found is not None), (200, True), answer)
        return found[1] if found else ""


@NEEDS_PHP
class Requests(ScriptTest):
    def host(self, *settings: str, **how: object) -> Host:
        """In another time zone than that of the records."""
        return super().host("-d", "date.timezone=Asia/Kolkata", *settings, **how)

    def test_the_script_is_short_and_the_same_for_each_vote(self):
        code = resources("debvote_tools.call", SCRIPT).encode()
        self.assertLessEqual(len(code), 4_700)
        self.assertEqual(code.find(END_OF_CODE), len(code) - len(END_OF_CODE))
        for script in (self.script, script_of(b"x" * 32, "0" * 16, {})):
            self.assertTrue(script.startswith(code))
        subprocess.run(["php", "-n", "-l", self.folder / SCRIPT], capture_output=True, check=True)

    def test_each_row_of_the_protocol(self):
        host = self.host()
        before = datetime.datetime.now(datetime.UTC).replace(microsecond=0)
        head = f"box 2 {MARK} {list_digest(self.script)} "
        # the first asking makes the file, and tells the time
        self.assertFalse(self.file.exists())
        answer = host.ask()
        self.assertEqual((answer.status, answer.text[: len(head)]), (200, head))
        said = datetime.datetime.fromisoformat(answer.text.removeprefix(head).rstrip("\n"))
        self.assertTrue(before <= said <= datetime.datetime.now(datetime.UTC))
        self.assertEqual((self.file.read_bytes(), self.file.stat().st_mode & 0o777), (FIRST, 0o600))
        # a ballot, of one question and of several
        first = self.received(click(host, 1, "1,2,-,10"))
        second = self.received(click(host, 2, "A 1,2 B 2,1,3", "ben-lee"))
        wanted = record("ada", "ada 1,2,-,10", 1, first)
        wanted += record("ben-lee", "ben-lee A 1,2 B 2,1,3", 2, second)
        self.assertEqual(self.file.read_text(), FIRST.decode() + wanted)
        self.assertEqual(host.ask().text.partition("\n")[2], wanted)
        owners = (
            ("ada", "2" * 16),
            ("ada", LINKS["ben-lee"]),
            ("zoe", LINKS["ada"]),
            (MARK, "2" * 16),
        )
        unknown = [ballot(name, "1,2", 3, link) for name, link in owners]
        # what the host knows is no proof
        unknown += [GOOD.replace(PROOF, other) for other in (b"0" * 64, digest_of("ada").encode())]
        others = page_of(KEY, "f" * 16), page_of(b"x" * 32, MARK)
        old = [ballot("ada", "1,2", 3, page=page) for page in others]
        # before the link is looked at
        old += [ballot("ada", "1,2", 3, "2" * 16, "0" * 16)]
        old += [b"box=" + ballot("ada", "1,2", 3, page="0" * 16)]
        for word, status, bodies in (
            ("unknown:", 403, [request_of("ask " + "0" * 64), *unknown]),
            ("old:", 409, old),
            ("bad:", 413, [b"x" * (LIMIT + 1), GOOD[:-1] + b"A" * LIMIT + b"\n", b"x" * 9_000_000]),
            ("bad:", 400, BAD),
        ):
            for body in bodies:
                with self.subTest(body=body[:100]):
                    answer = host.send(body)
                    self.assert_answer(answer, status, word)
                    # nothing of a request is echoed
                    self.assertRegex(answer.text, r"\A[a-z]+: [a-z ]+\n\Z")
        for method in ("GET", "HEAD", "PUT", "DELETE", "OPTIONS", "PATCH"):
            answer = host.send(GOOD, method, path="/vote.php?ada")
            self.assert_answer(answer, 405, "" if method == "HEAD" else "bad:")
            self.assertEqual(answer.headers.get("allow"), "POST")
        heads = {"x-content-type-options": "nosniff", "cache-control": "no-store"}
        heads["access-control-allow-origin"] = None
        for answer in (answer, host.ask(), host.send(b"x"), click(host, 1, "1,2,-,10")):
            self.assertEqual({name: answer.headers.get(name) for name in heads}, heads)
            self.assertEqual(int(answer.headers["content-length"]), len(answer.text))
            self.assertTrue(answer.headers["content-type"].startswith("text/plain"))
        # no refused request changed anything
        self.assertEqual(host.ask().text.partition("\n")[2], wanted)
        self.assertEqual({file.name for file in self.folder.iterdir()}, {SCRIPT, FILE})
        # whoever opens the file or the script in a browser sees nothing of it
        opened = [host.send(b"", "GET", f"/{name}").text for name in (FILE, SCRIPT)]
        self.assertEqual(opened, ["", "bad: only POST\n"])

    def test_the_longest_ballot(self):
        """And a request that is a field of a form."""
        host, longest = self.host(), 3_800
        for number, signs, status in ((1, longest, 200), (2, longest + 1, 400), (3, LIMIT, 413)):
            body = ballot("ada", "1,2", number)
            sent = body.replace(body.splitlines()[1], b"A" * signs)
            answers = [host.send(fields + sent) for fields in (b"", b"box=")]
            self.assertEqual({answer.status for answer in answers}, {status})
            self.assertEqual(*(answer.text for answer in answers))
        self.assertEqual(len(host.records()), 1)
        self.assertEqual(host.send(b"box=" + ASK).text, host.send(ASK).text)
        # of each question with as many options as there can be
        answers = " ".join(f"{label} {','.join(['32'] * 32)}" for label in LABELS)
        self.received(click(host, 4, answers, "ben-lee"))
        self.assertIn(f"ben-lee {answers}", sealing.line_in(KEY, host.records()[1]))

    def test_other_kinds_of_content_and_a_request_that_names_a_file(self):
        host = self.host()
        kinds = [f"application/{kind}" for kind in ("x-www-form-urlencoded", "json")]
        kinds += ["application/octet-stream", "text/plain;charset=UTF-8"]
        for number, kind in enumerate(kinds):
            how = {"Content_Type": kind, "Origin": "https://else.example"}
            self.received(host.send(ballot("ada", "1,2", number), **how))
        parts = "multipart/form-data; boundary=x"
        self.assertEqual(host.send(GOOD, Content_Type=parts).status, 400)
        # what stands in the address changes nothing
        for more in ("?file=/tmp/x&ask=1", "/box.php", "?/../../etc/passwd"):
            self.received(host.send(GOOD, path=f"/vote.php{more}"))
        self.assertEqual(len(host.lines()), len(kinds) + 1)
        self.assertEqual({file.name for file in self.folder.iterdir()}, {SCRIPT, FILE})

    def test_what_is_sent_again_is_one_record(self):
        host = self.host()
        first, later = (self.received(click(host, *one)) for one in ((1, "1,2"), (2, "2,1")))
        self.assertLess(first, later)
        again = [self.received(click(host, *one)) for one in ((1, "1,2"), (2, "2,1"))]
        self.assertEqual(again, [first, later])
        for name, ranks in (("ada", "2,1"), ("ada", "1,"), ("ben-lee", "1,2")):
            self.assert_answer(click(host, 1, ranks, name), 400, "bad:")
        self.assertEqual(host.lines(), ["ada 1,2", "ada 2,1"])

    def test_a_hundred_records_of_a_link(self):
        host = self.host()
        times = [self.received(click(host, number)) for number in range(OF_A_LINK)]
        # each in a second of its own, in the order in which they came
        self.assertEqual(times, sorted(set(times)))
        self.assert_answer(click(host, 999), 429, "many:")
        # what it has is told again, and others may send
        self.assertEqual(self.received(click(host, 3)), times[3])
        self.received(click(host, 100, name="ben-lee"))
        self.assertEqual(len(host.lines()), OF_A_LINK + 1)

    def test_a_clock_that_is_put_back(self):
        """Of one link what comes later has a later time, and is not kept if that would be far
        ahead; others have the time of the clock.
        """
        room = pathlib.Path(self.enterContext(tempfile.TemporaryDirectory(prefix="debvote-clock-")))
        host, times = self.host(*clock_of_php(room)), []
        for name, ahead in (("ada", 300), ("ada", 0), ("ben-lee", 0), ("ada", 150), ("ada", 600)):
            (room / HOST_OFF).write_text(str(ahead))
            said = self.received(click(host, len(times), name=name))
            times.append(datetime.datetime.fromisoformat(said))
        first, second, of_ben, third, last = ((one - times[0]).total_seconds() for one in times)
        self.assertEqual((first, second, third), (0, 1, 2))
        self.assertTrue(-300 <= of_ben < -150 and 300 <= last < 450, times)
        before = self.file.read_bytes()
        (room / HOST_OFF).write_text("-60")
        self.assert_lost(click(host, 9))
        self.received(click(host, 4))
        self.assertEqual(self.file.read_bytes(), before)
        self.received(click(host, 10, name="cleo.x"))

    def test_each_request_has_the_file_alone(self):
        """Who only reads it holds a ballot up, too: two that write at once would lose one."""
        host = self.host()
        self.received(click(host, 1))
        with (self.folder / FILE).open() as file, concurrent.futures.ThreadPoolExecutor(1) as pool:
            fcntl.flock(file, fcntl.LOCK_SH)
            sent = pool.submit(click, host, 2, "2,1")
            with self.assertRaises(TimeoutError):
                sent.result(timeout=1)
            fcntl.flock(file, fcntl.LOCK_UN)
            self.received(sent.result())
        self.assertEqual(host.lines(), ["ada 1,2", "ada 2,1"])

    def test_several_at_once_by_one_link(self):
        host = self.host(workers=4)
        with concurrent.futures.ThreadPoolExecutor(6) as pool:
            for number in range(0, 18, 6):
                numbers = range(number, number + 3)
                bodies = [ballot("ada", f"{one % 3 + 1},2", one) for one in numbers]
                # one of them twice, and an asking between
                bodies += [bodies[0], ASK, ballot("cleo.x", "1,2", 100 + number)]
                sent = list(pool.map(host.send, bodies))
                self.assertEqual([one.status for one in sent], [200] * 6)
                self.assertEqual((sent[0].text, sent[4].word), (sent[3].text, "box"))
        by_ada = rf"Received: by box; (.*) \+0000\nX-Proof: {digest_of('ada')}"
        times = re.findall(by_ada, "".join(host.records()))
        read = [datetime.datetime.strptime(one, "%a, %d %b %Y %H:%M:%S") for one in times]
        self.assertEqual((len(read), read), (9, sorted(set(read))))

    @pytest.mark.whole
    def test_bad_requests_refuse_no_good_one(self):
        host, many = self.host(), 800
        bad = [*BAD, b"x" * 5_000, ballot("ada", "1,2", 1, "2" * 16), request_of("ask " + "1" * 64)]
        for number in range(many):
            self.assertIn(host.send(bad[number % len(bad)]).status, (400, 403, 413))
            if number % 100 == 0:
                self.received(click(host, number, "2,1", list(OWNS)[number // 100 % 3]))
        self.assertEqual(len(host.lines()), many // 100)

    @pytest.mark.whole
    def test_a_click_takes_no_time_in_a_large_box(self):
        """Of the processor, of which a web host gives little; with ten thousand electors."""
        owns = OWNS | {f"e{number:04}": "56789abcde" for number in range(10_000)}
        (self.folder / SCRIPT).write_bytes(script_of(KEY, MARK, owns))
        host = self.host()
        host.ask()
        then, one = "2026-11-28T12:00:00Z", f"<{1:032x}@"
        many = record("ben-lee", "ben-lee 1,2", 1, then).replace(digest_of("ben-lee"), "f" * 64)
        numbers = (f"<{number:032x}@" for number in range(10_000, 20_000))
        self.file.write_text(
            FIRST.decode() + "".join(many.replace(one, number) for number in numbers)
        )
        before = host.seconds()
        for number in range(OF_A_LINK):
            self.received(click(host, number))
        self.assertLess((host.seconds() - before) / OF_A_LINK, 0.04)


@NEEDS_PHP
class Votes(ScriptTest):
    def test_another_script_over_it_is_asked_at_once(self):
        """A host keeps compiled code, and has to see at once what is new below it."""

        def put(*call: object) -> bytes:
            script = script_of(*call)
            (self.folder / SCRIPT).write_bytes(script)
            return script

        for settings in ([], CACHE):
            with self.subTest(settings=settings), Host(self.folder, *settings) as host:
                put(KEY, MARK, OWNS)
                self.received(click(host, 1))
                if settings:
                    # new code is not seen: so the code has to be the same
                    changed = self.script.replace(b"bad: only POST", b"bad: only HEAD")
                    (self.folder / SCRIPT).write_bytes(changed)
                    self.assertEqual(host.send(b"", "GET").text, "bad: only POST\n")
                # a new own mark: the old link is unknown, its record stays, and it can be asked for
                own = "zzzzzzzzzz"
                other = put(KEY, MARK, OWNS | {"ada": own})
                self.assertEqual(click(host, 1).status, 403)
                link = third_part(KEY, "ada", own)
                self.received(host.send(ballot("ada", "2,1", 2, link, own=own)))
                self.assertIn(f" {list_digest(other)} ", host.ask().text)
                self.assertEqual(host.lines(), ["ada 1,2", "ada 2,1"])
                # another call of the same book, whose own marks are new; and one of another book,
                # which has a file of its own
                put(KEY, "f" * 16, {name: own[::-1] for name, own in OWNS.items()})
                self.assertEqual(click(host, 3).status, 409)
                self.assertTrue(host.ask().text.startswith(f"box 2 {'f' * 16} "))
                put(b"x" * 32, MARK, OWNS)
                self.assertEqual(host.ask().status, 403)
                self.assertEqual(host.ask(asking_word(b"x" * 32)).text.count("\n"), 1)
                # with this poll, too
                self.assertEqual(click(host, 3).status, 409)
                self.file.unlink()

    def test_a_script_without_its_list(self):
        host = self.host()
        for cut in (len(resources("debvote_tools.call", SCRIPT)), 1_000):
            (self.folder / SCRIPT).write_bytes(self.script[:cut])
            for body in (ASK, ballot("ada", "1,2", 1)):
                self.assertNotIn(host.send(body).word, ("box", "received"))
        self.assertFalse(self.file.exists())

    def test_the_key_is_in_no_request_and_in_no_file(self):
        """Nor has script or file a name or a link, or what is kept a line."""
        click(self.host(), 1, name="ben-lee")
        found = self.script + self.file.read_bytes()
        secrets = [KEY.hex(), WORD, *LINKS.values(), *OWNS.values(), "ben-lee", "cleo.x"]
        for secret in (KEY, *map(str.encode, secrets)):
            self.assertNotIn(secret, found)
        self.assertNotIn(b"1,2", self.file.read_bytes())
        for key in (KEY, KEY.hex().encode()):
            self.assertNotIn(key, WORD.encode())


@NEEDS_PHP
class Broken(ScriptTest):
    """The file was cut off, the disk is full or broken."""

    @pytest.mark.whole
    def test_a_record_that_was_cut_off_is_written_over(self):
        host = self.host()
        for number in (1, 2):
            click(host, number, "1,12")
        whole = self.file.read_bytes()
        begin = len(whole) - len(whole.split(END)[1]) - len(END)
        kept = whole[:begin]
        self.assertTrue(kept.endswith(END))
        ends = range(len(whole) - len(END) - 2, len(whole) + 1)
        for cut in (*range(len(FIRST)), *range(begin, ends[0], 9), *ends):
            with self.subTest(cut=cut):
                self.file.write_bytes(whole[:cut])
                known = whole if cut == len(whole) else kept if cut >= begin else FIRST
                # an asking, a click, and again
                count = known.count(END)
                self.assertEqual(len(host.records()), count)
                then = self.received(click(host, 3, "2,1", "ben-lee"))
                new = record("ben-lee", "ben-lee 2,1", 3, then).encode()
                self.assertEqual(self.file.read_bytes(), known + new)
                # the one that was cut off is sent again
                self.file.write_bytes(whole[:cut])
                self.received(click(host, 2, "1,12"))
                self.assertEqual(host.lines(), ["ada 1,12"] * max(count + (cut < len(whole)), 1))

    def test_what_is_no_file_of_a_box_is_left_as_it_is(self):
        host = self.host()
        head, marked = b"From box@page.invalid\n-- \n\n", b"\xef\xbb\xbf" + FIRST + b"From"
        for data in (b"<?php exit; ?>\r\nFrom x\r\n", b"x" * 100, head, marked):
            self.file.write_bytes(data)
            self.assert_lost(host.ask(), click(host, 1))
            self.assertEqual(self.file.read_bytes(), data)
        self.file.unlink()
        self.file.mkdir()
        self.assert_lost(host.ask())

    def test_a_full_disk(self):
        """A write that fails at each byte is taken back, and the next one is whole."""
        with Host(self.folder) as host:
            click(host, 1)
        whole = self.file.read_bytes()
        for missing in (1, 2, 3, 100, len(whole) - len(FIRST)):
            with self.subTest(missing=missing):
                self.file.write_bytes(whole)
                with Host(self.folder, most_bytes=2 * len(whole) - len(FIRST) - missing) as host:
                    self.assert_lost(click(host, 2, "2,1"))
                    self.assertEqual(self.file.read_bytes(), whole)
                    self.assertEqual(host.lines(), ["ada 1,2"])
                    self.received(click(host, 1))
        # not even the first line
        self.file.unlink()
        with Host(self.folder, most_bytes=len(FIRST) - 1) as host:
            self.assert_lost(host.ask(), click(host, 1))
            self.assertEqual(self.file.read_bytes(), b"")
        with Host(self.folder) as host:
            self.received(click(host, 1))
            self.assertEqual(len(host.lines()), 1)

    def test_a_php_without_fsync(self):
        """PHP 8.0 compiles all but that: it kept ballots, failed before the answer, and was asked
        well.
        """
        host = self.host("-d", "disable_functions=fsync")
        self.assert_lost(host.ask(), click(host, 1), host.ask())
        self.assertFalse(self.file.exists())

    def test_a_box_that_is_full(self):
        host = self.host()
        then = "2026-11-28T12:00:00Z"
        length = len(record("ada", "ada 1,2", 1, then))
        one = record("ben-lee", "ben-lee " + "1" * 2_500, 5, then)
        one = one.replace(digest_of("ben-lee"), "f" * 64).encode()
        many = FULL // len(one) - 1
        for left, word in ((length, "received"), (length - 1, "lost:")):
            fill = b"1" * (FULL - left - len(FIRST) - many * len(one) - len(END))
            self.file.write_bytes(FIRST + one * many + fill + END)
            self.assertEqual(self.file.stat().st_size, FULL - left)
            self.assertEqual(click(host, 1).word, word)
            answer, size = host.ask(), self.file.stat().st_size - len(FIRST)
            self.assertEqual((answer.status, len(answer.text.partition("\n")[2])), (200, size))
        self.assertEqual(self.file.stat().st_size, FULL - length + 1)


@NEEDS_PHP
@unittest.skipUnless(STRACE, "strace is not installed")
class Killed(ScriptTest):
    """Calls of the system fail, and PHP is killed before each of them."""

    def traced(self, *how: object) -> Host:
        return Host(self.folder, tracer=[str(STRACE), "-f", *how])

    def calls_of(self, body: bytes) -> list[tuple[str, int, str]]:
        """The calls of a request by their names and numbers since the start, each with its line."""
        with tempfile.NamedTemporaryFile("r", prefix="debvote-trace-") as trace:
            with self.traced("-y", "-o", trace.name) as host:
                self.assertEqual(host.send(body).status, 200)
                host.send(b"")
            lines = [line for line in trace.read().splitlines() if re.match(r"\d+ +\w+\(", line)]
        counts, calls = {}, []
        for line in lines:
            name = line.split()[1].partition("(")[0]
            counts[name] = counts.get(name, 0) + 1
            calls.append((name, counts[name], line))
        begins = [place for place, (name, _, _) in enumerate(calls) if name.startswith("accept")]
        return calls[begins[0] : begins[1]]

    def test_it_is_on_the_disk_before_it_is_acknowledged(self):
        kept, found = ["ftruncate", "write", "fsync"], f"{self.folder}>"
        for what, number, wanted in (
            ("a first one", 1, [*kept, "fsync", *kept]),
            ("one more", 2, kept),
            ("again", 2, ["fsync"]),
        ):
            with self.subTest(what):
                calls = self.calls_of(ballot("ada", "1,2", number))
                of_file = [
                    call
                    for call, _, line in calls
                    if call in (*kept, "flock", "sendto")
                    and (FILE in line or found in line) != (call == "sendto")
                ]
                answered = of_file.index("sendto")
                self.assertEqual(of_file[:answered], ["flock", *wanted])
                self.assertEqual(set(of_file[answered:]), {"sendto"})

    @pytest.mark.whole
    def test_nothing_that_was_acknowledged_is_lost_by_a_kill(self):
        """After each kill the same ballot is sent again by another process: it is there once."""
        other, kills = self.host(), 0
        for is_new in (True, False):
            calls = self.calls_of(ballot("ada", "1,2", int(is_new)))
            self.assertGreater(len([call for call, _, line in calls if FILE in line]), 10)
            there = []
            for call, count, _ in calls:
                if is_new or len(there) in (0, OF_A_LINK):
                    self.file.unlink(missing_ok=True)
                    there = []
                if not is_new:
                    other.ask()
                kills += 1
                body = ballot("ada", f"{kills % 3 + 1},2", kills)
                killed = f"inject={call}:signal=KILL:when={count}"
                with self.traced("-o", "/dev/null", "-e", f"trace={call}", "-e", killed) as host:
                    answer = host.send(body)
                    host.process.wait(60)
                self.assertIn(answer.word, ("", "received"))
                known = [*there, kills] if answer.status else there
                data = self.file.read_text() if self.file.exists() else ""
                for number in known:
                    self.assertEqual(data.count(f"<{number:032x}@page.invalid>"), 1, (call, count))
                self.received(other.send(body))
                there.append(kills)
                lines = [f"ada {number % 3 + 1},2" for number in there]
                self.assertEqual(other.lines(), lines, (call, count))
        self.assertGreater(kills, 100)

    @pytest.mark.whole
    def test_an_asking_that_is_killed_holds_up_no_click(self):
        """The first one makes the file."""
        other = self.host()
        calls = [
            (call, count) for call, count, line in self.calls_of(ASK) if str(self.folder) in line
        ]
        self.assertGreater(len(calls), 10)
        for number, (call, count) in enumerate(calls):
            self.file.unlink(missing_ok=True)
            killed = f"inject={call}:signal=KILL:when={count}"
            with self.traced("-o", "/dev/null", "-e", killed) as host:
                # the last ones are after the answer
                self.assertIn(host.ask().status, (0, 200), (call, count))
                host.process.wait(60)
            self.received(click(other, number))
            self.assertEqual(other.lines(), ["ada 1,2"], (call, count))

    def test_a_disk_that_breaks(self):
        with Host(self.folder) as host:
            click(host, 1)
        others = record("ben-lee", "ben-lee 1,2", 7, "2026-11-28T12:00:00Z").encode() * 100
        whole = self.file.read_bytes().replace(FIRST, FIRST + others)
        only = ["-P", self.file, "-o", "/dev/null", "-e"]
        for fault, word in (
            ("write:error=EIO", "lost:"),
            ("write:error=ENOSPC", "lost:"),
            ("fsync:error=EIO:when=1", "lost:"),
            ("fsync:error=EIO", "unsure:"),
            ("ftruncate:error=EIO", "unsure:"),
            ("read:error=EIO", "lost:"),
            ("read:error=EIO:when=2+", "lost:"),
            ("flock:error=ENOLCK", "lost:"),
            ("openat:error=EACCES", "lost:"),
        ):
            with self.subTest(fault), self.traced(*only, f"inject={fault}") as host:
                self.file.write_bytes(whole)
                status = 503 if word == "lost:" else 500
                self.assert_answer(click(host, 2, "2,1"), status, word)
                self.assertEqual(self.file.read_bytes(), whole)
        with self.traced(*only, "inject=fsync:error=EIO") as host:
            self.assert_answer(click(host, 1), 500, "unsure:")
        self.assertEqual(self.file.read_bytes(), whole)
