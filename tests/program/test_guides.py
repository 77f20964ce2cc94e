"""Types the commands of the guides, and compares what they print with what the guides say.

In a guide a block of ```console has commands, each after `$ `, and below each what it prints, faults included. A block that
begins with ```toml FILE or ```text FILE is a file. A line `<!-- clock: TIME -->` sets the clock for the commands after it. Of a time of
the day only the form is compared. The commands of a guide run in their order, in one shell and one folder, which has copies of
examples/ and of reference.py, and the files that the guide has shown before. If Graphviz is not installed, a stand-in draws.

The table of quorums in docs/SECRETARY.md is compared with what the program says for this number of electors.
"""

import datetime
import os
import pathlib
import re
import shutil
import subprocess
import tempfile

from tests.support import expecting, makers
from tests.support.program import PROGRAM, ROOT

DOCS = ROOT / "docs"

BLOCK = re.compile(
    r"^```(console|toml|text)(?: (\S+))?\n(.*?)^```$|^<!-- clock: (\S+) -->$",
    re.MULTILINE | re.DOTALL,
)

# ends what a command has printed: no program here writes this byte
MARK = "\x1e"

# the time at which something was done, which differs from run to run
TIME = re.compile(r"\b\d{4}-\d\d-\d\d \d\d:\d\d:\d\d UTC")

# gives the letters of a guide the own marks that their electors have
OWN_MARKS = r"""python3 -c '
import pathlib, re, sqlite3
file = pathlib.Path("NAME")
text = file.read_text()
for name, own in sqlite3.connect("election.db").execute("SELECT name, mark FROM elector_now"):
    text = re.sub(rf"(<{name}@.*\nSubject: .*-)\w+(?=\])", rf"\g<1>{own}", text)
file.write_text(text)'
"""

# draws if Graphviz is missing: an empty picture
DOT = '#!/bin/sh\ncat >/dev/null\necho \'<svg xmlns="http://www.w3.org/2000/svg" width="1pt" height="1pt"/>\'\n'

SECONDS = 600


def steps_of(guide):
    """The files and the commands of a guide, in order: a name and a text, or a command and what it prints."""
    for kind, name, text, time in BLOCK.findall(guide.read_text()):
        if time:
            yield "clock", time, ""
        if kind != "console" and name:
            yield "file", name, text
        for command in (
            re.findall(r"^\$ (.*\n(?:(?!\$ ).*\n)*)", text, re.MULTILINE)
            if kind == "console"
            else []
        ):
            words, _, wanted = command.partition("\n")
            yield "command", words, wanted


def shell_text(steps):
    """The text of a shell that makes the files and runs the commands, and prints a mark after each."""
    for kind, name, text in steps:
        if kind == "clock":
            yield f'echo {name} > "$DEBVOTE_CLOCK"\n'
        elif kind == "file":
            yield f"cat > {name} <<'END OF FILE'\n{text}END OF FILE\n"
            yield OWN_MARKS.replace("NAME", name) if name.endswith(".mbox") else ""
        else:
            # the next command may ask for the status of this one
            yield f"{name}\nstatus=$?; printf '{MARK}'; (exit $status)\n"


def tools_in(folder):
    """A folder for the PATH of a reader, with the stand-in if Graphviz is not installed."""
    tools = folder / "tools"
    tools.mkdir()
    if shutil.which("dot") is None:
        print("dot is not installed: a stand-in draws an empty picture")
        (tools / "dot").write_text(DOT)
        (tools / "dot").chmod(0o755)
    return tools


def answers_of(steps):
    """What the commands of a guide print, in their order."""
    with tempfile.TemporaryDirectory() as name:
        folder = pathlib.Path(name)
        (folder / "clock").write_text(datetime.datetime.now(datetime.UTC).isoformat())
        clock = {
            "PYTHONPATH": str(ROOT / "tests" / "clock"),
            "DEBVOTE_CLOCK": str(folder / "clock"),
            "PYTHONDONTWRITEBYTECODE": "1",
        }
        tools, reader = tools_in(folder), folder / "reader"
        places = [tools, PROGRAM.parent, ROOT / "bin", os.environ["PATH"]]
        path = os.pathsep.join(map(str, places))
        shutil.copytree(ROOT / "examples", reader / "examples")
        shutil.copyfile(ROOT / "tests" / "reference.py", reader / "reference.py")
        with makers.maker() as asking:
            makers.write_programs(tools, asking)
            ended = subprocess.run(
                ["bash"],
                input="exec 2>&1\n" + "".join(shell_text(steps)),
                cwd=reader,
                env={"PATH": path, "HOME": name, "LC_ALL": "C", **clock},
                pass_fds=[asking.fileno()],
                stdout=subprocess.PIPE,
                text=True,
                timeout=SECONDS,
            )
    return ended.stdout.split(MARK)


def quorum_line(electors, multiple):
    """What the program says about the quorum of this many electors."""
    roll = ", ".join(f'"v{i}"' for i in range(electors))
    text = f'title = "T"\noptions = ["A"]\nratios = [1]\ndefault = "N"\nquorum = {multiple}\nroll = [{roll}]\n'
    words = [PROGRAM, "count", "--poll", "/dev/stdin", "--ballots", "/dev/null"]
    return subprocess.run(
        words, input=text, stdout=subprocess.PIPE, text=True, timeout=SECONDS
    ).stdout.splitlines()[2]


class GuideTest(expecting.Expecting):
    """The commands of a guide print what the guide says."""

    def type_commands(self, guide):
        steps = list(steps_of(DOCS / f"{guide}.md"))
        commands = [(words, wanted) for kind, words, wanted in steps if kind == "command"]
        self.assertTrue(commands, f"nothing was read of {guide}")
        found = answers_of(steps)
        for place, (words, wanted) in enumerate(commands):
            self.expect(
                f"{guide}: $ {words}",
                TIME.sub("TIME", found[place] if place < len(found) else "(nothing)"),
                TIME.sub("TIME", wanted),
            )


# a class for each, so that they run side by side
for guide in ("SECRETARY", "SECRET-VOTES", "SPECIAL-CASES", "READING-A-SHEET"):
    name = guide.lower().replace("-", "_")
    globals()[f"Test_{name}"] = type(
        f"{name}_test",
        (GuideTest,),
        {f"test_{name}": lambda self, guide=guide: self.type_commands(guide)},
    )


class QuorumsTest(expecting.Expecting):
    def test_numbers_are_those_of_the_program(self):
        """The rows of the guide's table of quorums: the number of electors, and the votes of each multiple."""
        rows = re.findall(
            r"^\| (\d+) \| (\d+) \| (\d+) \| (\d+) \|$",
            (DOCS / "SECRETARY.md").read_text(),
            re.MULTILINE,
        )
        self.assertTrue(rows, "no table was read")
        for electors, *numbers in rows:
            for multiple, number in enumerate(numbers, start=1):
                self.expect(
                    f"{electors} electors, {multiple}Q",
                    quorum_line(int(electors), multiple),
                    f"Quorum: {multiple}Q, {number} votes",
                )
