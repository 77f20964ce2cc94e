"""Compares manual pages and completions with help, with docs/FORMATS.md, and with what docs/make-manual makes today.

If they are installed, `groff` and `man` read the pages without a warning, and bash, zsh and fish complete as their files say.
"""

import functools
import pathlib
import re
import shutil
import subprocess
import sys
import tempfile
import unittest

from tests.support import expecting, forks
from tests.support.program import PROGRAM, ROOT

PUBLISH = ROOT / "bin" / "debvote-publish"
ELECTION = ROOT / "bin" / "debvote-election"
FORMATS = ROOT / "docs" / "FORMATS.md"
OPTION = r"--[a-z]+(?:-[a-z]+)*"

# more than any of these runs takes on a slow machine
SECONDS = 600


def output_of(*words, **how):
    ended = forks.run([*map(str, words)], capture_output=True, text=True, timeout=SECONDS, **how)
    return ended.stdout + ended.stderr


# ---------------------------------------------------------------- the help
def commands_in(text):
    """The commands of a help, in its order."""
    [part] = re.findall(r"(?m)^Commands:\n((?: .*\n)+)", text)
    return re.findall(r"(?m)^  ([a-z]+) ", part)


def options_in(text):
    """The long options of a help, in its order."""
    return re.findall(rf"^ +(?:-\w, +)?({OPTION})\b", text, re.MULTILINE)


def statuses_of_help():
    """The exit statuses of the help of debvote, and what each means."""
    lines = output_of(PROGRAM, "--help").partition("\nExit statuses:\n")[2].splitlines()
    return [tuple(" ".join(line.split()).split(" ", 1)) for line in lines]


def faults_of_formats():
    """The statuses of docs/FORMATS.md that have fault lines, and the words of these."""
    text = FORMATS.read_text().partition("\n## Fault lines and exit statuses\n")[2]
    lines = re.findall(r"(?m)^- (\d+): (.*)$", text.partition("After `poll refused: `")[0])
    return [(number, re.findall(r"`(.*?)`", words)) for number, words in lines]


@functools.cache
def options_by_command():
    """The options of debvote itself, by the name "", and of each of its commands."""
    top = output_of(PROGRAM, "--help")
    # the command help has no help itself
    helps = {command: output_of(PROGRAM, command, "--help") for command in commands_in(top)}
    return {"": options_in(top)} | {name: options_in(helps[name]) for name in helps} | {"help": []}


# ---------------------------------------------------------------- the manual pages
def plain(text):
    """A page without its requests for fonts: `.BI \\-\\-poll\\~ FILE` becomes `--poll FILE`."""
    text = re.sub(r"\\[~c]", " ", text.replace("\\-", "-"))
    return re.sub(r"^\.(?:B|I|BI|BR|RB|IR|RI) ", "", text, flags=re.MULTILINE)


def part_of(page, head):
    """The text below a heading, to the next one of its level or above."""
    return re.search(rf"^\.S[HS] {head}\n(.*?)(?=^\.S[HS] |\Z)", page, re.MULTILINE | re.DOTALL)[1]


def as_words(text):
    """The lines of a paragraph as they are read: a word in bold has no space before its bracket or comma."""
    return re.sub(r" ([,;.)])|(\() ", r"\1\2", " ".join(text.split()))


def sentence(words):
    """With a full stop, whether it begins with a capital or not."""
    return words[0].lower() + words[1:].removesuffix(".") + "."


def tagged_options(text):
    """The options that a page explains, each in a paragraph with a tag; sorted."""
    tags = re.findall(r"(?m)^\.TP\n(.*)", text)
    return sorted(re.findall(OPTION, " ".join(tags)))


@functools.cache
def options_of_election():
    """The options of each command of debvote-election, in the order of its commands."""
    names = re.findall(r"(?m)^    ([a-z]+) ", output_of(sys.executable, ELECTION, "--help"))
    return {name: options_in(output_of(sys.executable, ELECTION, name, "--help")) for name in names}


def try_warnings(expect, words):
    """The output of man or groff for each page."""
    for page in sorted((ROOT / "man").iterdir()):
        # standard error; the page that man prints goes to standard output
        ended = subprocess.run(
            [*words, page],
            capture_output=True,
            text=True,
            env={"PATH": "/usr/bin:/bin", "MANWIDTH": "80"},
            timeout=SECONDS,
        )
        expect(f"{page.name}: warnings of {words[0]}", (ended.stderr, ended.returncode), ("", 0))


# what a completion asks of zsh: this prints it, for the words after the command
ZSH = """
_arguments() { if [[ $1 == -C ]] { state=argument; return 1 } else { print -rl -- "$@" } }
words=(%s)
complete_words() { source %s }
complete_words
"""


class HelpTest(expecting.Expecting):
    def test_words_of_help(self):
        """The line above the usage, and the words of the exit statuses; commands and options were read."""
        options = options_by_command()
        self.assertGreater(len(options), 4)
        self.expect("without options", [name for name in options if not options[name]], ["help"])
        said = output_of(PROGRAM, "--help").partition("\n\nUsage: ")[0]
        about = re.findall(r"the line above its usage is `(.*?)`", FORMATS.read_text())
        self.expect("--help: the line above the usage", [said], about)
        numbers = [number for number, _ in statuses_of_help()]
        self.expect("--help: the exit statuses", numbers, [*map(str, range(11))])

    def test_names_of_values(self):
        """In the usage of each command they are in capitals, as they are in its pages, or are choices."""
        commands = [(ELECTION, name) for name in options_of_election()]
        self.assertGreater(len(commands), 15)
        for words in [(PUBLISH,), *commands]:
            usage = output_of(sys.executable, *words, "--help").partition("\n\n")[0].split()
            values = [word for word in usage[1 + len(words) :] if word.lstrip("[(")[0] not in "-{"]
            wanted = [value.upper() for value in values]
            self.expect(f"{words[-1]}: names of values", values, wanted)

    def test_version(self):
        """The version in the code; everywhere else it is the same."""
        version = output_of(PROGRAM, "--version").strip()
        named = set(re.findall(r"`(debvote \d[\d.]*)`", FORMATS.read_text()))
        self.expect("docs/FORMATS.md: the version", named, {version})
        log = (ROOT / "CHANGELOG.md").read_text()
        [newest, *_] = re.findall(r"(?m)^## (\d[\d.]*), \d{4}-\d\d-\d\d$", log)
        self.expect("CHANGELOG.md: the newest version", f"debvote {newest}", version)
        package = (ROOT / "debian" / "changelog").read_text().partition(")")[0]
        self.expect("debian/changelog", package, version.replace(" ", " ("))
        for program in (ELECTION, PUBLISH):
            wanted = f"{program.name} {version.removeprefix('debvote ')}\n"
            for word in ("--version", "-V"):
                found = output_of(sys.executable, program, word)
                self.expect(f"{program.name} {word}", found, wanted)
        for page in sorted((ROOT / "man").iterdir()):
            found = re.findall(r'\A\.TH (\S+) 1 \S+ "(.*?)"', plain(page.read_text()))
            self.expect(f"{page.name}: its head", found, [(page.stem.upper(), version)])


class PagesTest(expecting.Expecting):
    def test_page_of_debvote(self):
        page = plain((ROOT / "man" / "debvote.1").read_text())
        own = options_by_command()
        part = page[page.index("\n.SH COMMANDS") : page.index("\n.SH OPTIONS")]
        names = re.findall(r"(?m)^\.SS (\w+)$", part)
        self.expect("debvote.1: its commands", sorted(["", *names]), sorted(own))
        found = tagged_options(part_of(page, "OPTIONS"))
        self.expect("debvote.1: options without a command", found, sorted(own[""]))
        synopsis = part_of(page, "SYNOPSIS")
        for command in names:
            wanted = sorted(set(own.get(command, [])) - {"--help"})
            found = tagged_options(part_of(page, command))
            self.expect(f"debvote.1: options of {command}", found, wanted)
            [line] = re.findall(rf"(?ms)^debvote {command}\n(.*?)(?=^\.br|\Z)", synopsis)
            found = sorted(re.findall(OPTION, line))
            self.expect(f"debvote.1: synopsis of {command}", found, wanted)
        statuses = re.findall(
            r"(?m)^\.TP\n(\d+)\n((?:(?!\.TP\n).*\n)*)", part_of(page, "EXIT STATUS")
        )
        found = {number: as_words(text) for number, text in statuses}
        plainly = [
            (number, sentence(re.sub(r" [(].*[)][.]$", "", text))) for number, text in found.items()
        ]
        wanted = [(number, sentence(words)) for number, words in statuses_of_help()]
        self.expect("debvote.1: exit statuses", plainly, wanted)
        faults = faults_of_formats()
        numbers = [number for number, _ in faults]
        self.expect("docs/FORMATS.md: statuses of faults", numbers, "3 4 5 6 7 8 10".split())
        for number, words in faults:
            missing = [line for line in words if line not in found[number]]
            self.expect(f"debvote.1: fault lines of {number}", missing, [])

    def test_made_pages_and_completions(self):
        """The pages and completions that docs/make-manual makes are those that are here."""
        with tempfile.TemporaryDirectory() as folder:
            self.expect("docs/make-manual", output_of(ROOT / "docs" / "make-manual", folder), "")
            made = pathlib.Path(folder)
            files = [file for file in made.rglob("*") if file.is_file()]
            self.expect("docs/make-manual: files", len(files), 12)
            for file in files:
                there = ROOT / file.relative_to(made)
                is_of_today = there.read_text() == file.read_text()
                self.expect(
                    f"{there}: whether it is of today: run docs/make-manual", is_of_today, True
                )

    @unittest.skipUnless(shutil.which("man"), "man is not installed")
    def test_warnings_of_man(self):
        try_warnings(self.expect, ["man", "--warnings", "-l"])

    @unittest.skipUnless(shutil.which("groff"), "groff is not installed")
    def test_warnings_of_groff(self):
        try_warnings(self.expect, ["groff", "-man", "-ww", "-z"])


@functools.cache
def completed():
    """The options of each command of debvote, and of two of debvote-election, whose files are made for all alike."""
    own, made = options_by_command(), options_of_election()
    return [
        *(("debvote", command, own[command]) for command in own.keys() - {"", "help"}),
        *(("debvote-election", command, made[command]) for command in ("call", "publish")),
    ]


class CompletionsTest(expecting.Expecting):
    def test_bash(self):
        """What bash offers for the last of some words."""
        own, elections = options_by_command(), options_of_election()
        commands = [command for command in own if command]
        for program, command, wanted in [
            *completed(),
            ("debvote-election", "", [*elections, "--folder", "--help", "--version"]),
            ("debvote", "help", commands),
            ("debvote", "", [*commands, *own[""]]),
            ("debvote-publish", "", options_in(output_of(sys.executable, PUBLISH, "--help"))),
        ]:
            last = "-" if program == "debvote-publish" or command in elections else ""
            words = [program, command, last] if command else [program, last]
            script = f"source {ROOT}/completions/bash/{program}; COMP_WORDS=({' '.join(map(repr, words))}); COMP_CWORD={len(words) - 1}; "
            script += f'_{program.replace("-", "_")}; printf "%s\\n" "${{COMPREPLY[@]}}"'
            found = output_of("bash", "--norc", "-c", script).split()
            self.expect(f"bash: {program} {command}", sorted(found), sorted(wanted))

    @unittest.skipUnless(shutil.which("zsh"), "zsh is not installed")
    def test_zsh(self):
        """The options of commands as zsh reads them; the commands of debvote and its own options, as its file writes them."""
        for program, command, wanted in completed():
            script = ZSH % (command, ROOT / "completions" / "zsh" / f"_{program}")
            found = re.findall(rf"(?m)^({OPTION})\[", output_of("zsh", "-f", "-c", script))
            self.expect(f"zsh: {program} {command}", sorted(found), sorted(wanted))
        text, own = (ROOT / "completions" / "zsh" / "_debvote").read_text(), options_by_command()
        commands = re.findall(r"(?m)^    '(\w+):", text)
        self.expect("zsh: the commands", sorted(["", *commands]), sorted(own))
        [line] = re.findall(r"_arguments -C.*", text)
        options = {*re.findall(rf"'({OPTION})\[", line), "--help"}
        self.expect("zsh: options without a command", options, set(own[""]))

    @unittest.skipUnless(shutil.which("fish"), "fish is not installed")
    def test_fish(self):
        """The options of commands, and the commands, as fish reads them, each described."""
        rows = [(program, f"{command} --", wanted) for program, command, wanted in completed()]
        rows.append(("debvote", "", [command for command in options_by_command() if command]))
        rows.append(("debvote-election", "", options_of_election()))
        for program, words, wanted in rows:
            script = (
                f"source {ROOT}/completions/fish/{program}.fish; complete -C '{program} {words}'"
            )
            found = re.findall(r"(?m)^([^\t\n]*)\t.", output_of("fish", "-N", "-c", script))
            self.expect(f"fish: {program} {words}", sorted(found), sorted(wanted))
