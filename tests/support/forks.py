"""Runs the Python programs in the process of the test, which has imported their modules already.

Python takes longer to start, and to import the modules of debvote-election, than most runs take for
their work, and a fork takes longer, too. `run` takes arguments and settings as subprocess.run does.
A plain run of a launcher is a call of its `main`, which gets descriptors, folder, environment,
clock, signals and context of its own, and gives them back (`lent`). It is a fork if strace traces
it, or if a command runs in this process already: its locks would end with those of the other one. A
new process runs another program, or one with flags or settings that a fork cannot have, or from
another thread than the main one: a fork that is made while another thread imports a module has the
lock of imports for ever. With DEBVOTE_FORKS=1 each run is a fork, with 0 a new process.
"""

import contextlib
import contextvars
import ctypes
import datetime
import functools
import gc
import importlib
import itertools
import os
import pathlib
import pkgutil
import select
import signal
import subprocess
import sys
import tempfile
import threading
import time
from collections.abc import Callable, Iterator, Mapping, Sequence

import debvote_tools
import jinja2
import jinja2.bccache
from debvote_tools.book import chain
from debvote_tools.call import box
from debvote_tools.cli import console
from debvote_tools.cli.faults import Fault
from debvote_tools.text.language import LANGUAGES, language_of
from debvote_tools.text.rendering import templates_of

from tests.clock.clock import set_clock
from tests.support.program import ROOT

# the modules that the launchers call
LAUNCHERS = {
    str(ROOT / "bin" / "debvote-election"): "debvote_tools.commands.command_line",
    str(ROOT / "bin" / "debvote-publish"): "debvote_tools.result.command_line",
}

# lets any process of this user trace the one that asks for it
PR_SET_PTRACER, ANY = 0x59616D61, -1


# what a command may set for its process
SIGNALS = (signal.SIGHUP, signal.SIGTERM, signal.SIGINT, signal.SIGALRM)


def run(
    words: Sequence[object], tracer: Sequence[object] = (), **how: object
) -> subprocess.CompletedProcess:
    """What subprocess.run returns for these arguments and settings; `tracer` is strace with its options, which traces the run."""
    if not is_plain(words, how):
        return subprocess.run([*map(str, tracer), *words], **how)
    read_ahead()
    main = importlib.import_module(LAUNCHERS[str(words[1])]).main
    with contextlib.ExitStack() as files:
        streams = [files.enter_context(tempfile.TemporaryFile()) for _ in range(3)]
        given = how.get("input")
        streams[0].write(given.encode() if isinstance(given, str) else given or b"")
        streams[0].seek(0)
        numbers = [stream.fileno() for stream in streams]
        if tracer or os.environ.get("DEBVOTE_FORKS") == "1" or is_within_main():
            status = in_fork(main, words, tracer, how, numbers)
        else:
            with lent(numbers):
                status = ended(main, words, how)
        texts = []
        for stream in streams[1:]:
            # what the run wrote, from the beginning
            stream.seek(0)
            texts.append(stream.read().decode() if how.get("text") else stream.read())
    return subprocess.CompletedProcess(words, status, *texts)


def is_within_main() -> bool:
    """Whether a command runs in this process already."""
    frame = sys._getframe()
    while frame is not None:
        code = frame.f_code
        if code.co_name == "main" and "debvote_tools" in code.co_filename:
            return True
        frame = frame.f_back
    return False


@contextlib.contextmanager
def lent(numbers: Sequence[int]) -> Iterator[None]:
    """Standard streams are these files, and what a command sets for its process is as before once it has ended."""
    streams, known = (sys.stdin, sys.stdout, sys.stderr), datetime.datetime
    folder, environment = os.getcwd(), dict(os.environ)
    handlers = {number: signal.getsignal(number) for number in SIGNALS}
    kept = [os.dup(number) for number in range(3)]
    try:
        for number, file in enumerate(numbers):
            os.dup2(file, number)
        yield
    finally:
        datetime.datetime = known
        os.environ.clear()
        os.environ.update(environment)
        os.chdir(folder)
        time.tzset()
        for number, descriptor in enumerate(kept):
            os.dup2(descriptor, number)
            os.close(descriptor)
        sys.stdin, sys.stdout, sys.stderr = streams
        for number, handler in handlers.items():
            signal.signal(number, handler)
        console.ENDED.clear()
        box.key_of.cache_clear()
        box.links_of.cache_clear()
        gc.enable()
        # books that are in cycles are closed
        gc.collect(1)


def in_fork(
    main: Callable,
    words: Sequence[object],
    tracer: Sequence[object],
    how: Mapping[str, object],
    streams: Sequence[int],
) -> int:
    """Runs the program in a fork, and returns its exit status."""
    begin, go = os.pipe()
    child = os.fork()
    if child == 0:
        if tracer:
            ctypes.CDLL(None).prctl(PR_SET_PTRACER, ctypes.c_ulong(ANY), 0, 0, 0)
            os.read(begin, 1)
        in_child(main, words, how, streams)
    with attached(child, tracer):
        os.write(go, b"x")
        status = awaited(child, how.get("timeout"), words)
    os.close(begin)
    os.close(go)
    return status


@contextlib.contextmanager
def attached(child: int, tracer: Sequence[object]) -> Iterator[None]:
    """If there is a tracer, it traces this process from now on, and has ended afterwards."""
    if not tracer:
        yield
        return
    with subprocess.Popen([*map(str, tracer), "-p", str(child)], stderr=subprocess.PIPE) as process:
        if b"attached" not in (said := process.stderr.readline()):
            os.kill(child, signal.SIGKILL)
            raise AssertionError(said)
        yield


class Compiled(jinja2.BytecodeCache):
    """Templates as they were compiled: for another language or package they are the same."""

    def __init__(self):
        self.kept: dict[str, bytes] = {}

    def load_bytecode(self, bucket: jinja2.bccache.Bucket):
        if bucket.key in self.kept:
            bucket.bytecode_from_string(self.kept[bucket.key])

    def dump_bytecode(self, bucket: jinja2.bccache.Bucket):
        self.kept[bucket.key] = bucket.bytecode_to_string()


@functools.cache
def read_ahead():
    """Imports all modules, makes the schema of a book, and reads all templates in each language, so that no fork has to: it takes longer
    than most commands. It is done before the first fork, as some processes of the tests make none.
    """
    for found in pkgutil.walk_packages(debvote_tools.__path__, f"{debvote_tools.__name__}."):
        # one needs python3-cryptography
        with contextlib.suppress(Fault):
            importlib.import_module(found.name)
    chain.schema()
    # a page escapes, and a letter does not
    compiled = {True: Compiled(), False: Compiled()}
    # the files that are of the other one alone
    left_out = {True: ".txt", False: ".html"}
    packages = {
        file.parent.parent for file in (ROOT / "python" / "debvote_tools").glob("*/templates/*")
    }
    for package, code, is_page in itertools.product(packages, LANGUAGES, (True, False)):
        templates = templates_of(
            f"debvote_tools.{package.name}", language_of(code), is_page=is_page
        )
        templates.bytecode_cache = compiled[is_page]
        for name in templates.list_templates():
            if not name.endswith(left_out[is_page]):
                templates.get_template(name)
    gc.collect()
    gc.freeze()


def is_plain(words: Sequence[object], how: Mapping[str, object]) -> bool:
    """Whether a fork runs this as a new process would."""
    is_known = len(words) > 1 and words[0] == sys.executable and str(words[1]) in LAUNCHERS
    is_captured = how.get("capture_output") is True and how.get("stdin") in (
        None,
        subprocess.DEVNULL,
    )
    has_settings = how.keys() <= {
        "capture_output",
        "cwd",
        "env",
        "input",
        "stdin",
        "text",
        "timeout",
    }
    is_alone = threading.current_thread() is threading.main_thread()
    return (
        is_known
        and is_captured
        and has_settings
        and is_alone
        and os.environ.get("DEBVOTE_FORKS") != "0"
    )


def become(words: Sequence[str], folder: pathlib.Path, env: Mapping[str, str]):
    """In a fork that has its own terminal: it becomes a launcher with these words, and ends as that does."""
    if os.environ.get("DEBVOTE_FORKS") == "0":
        os.chdir(folder)
        os.execve(words[0], words, env)
    in_child(
        importlib.import_module(LAUNCHERS[words[1]]).main, words, {"cwd": folder, "env": env}, []
    )


def in_child(
    main: Callable, words: Sequence[object], how: Mapping[str, object], streams: Sequence[int]
):
    """Runs the program in this process, and ends the process."""
    status = 70
    try:
        for number, stream in enumerate(streams):
            os.dup2(stream, number)
        status = ended(main, words, how)
    finally:
        os._exit(status)


def ended(main: Callable, words: Sequence[object], how: Mapping[str, object]) -> int:
    """Runs the program with standard streams, folder and environment as a new process has them, and returns its exit status."""
    sys.stdin = open(0, closefd=False)
    sys.stdout, sys.stderr = (open(number, "w", closefd=False) for number in (1, 2))
    os.chdir(how.get("cwd") or ".")
    if how.get("env") is not None:
        os.environ.clear()
        os.environ.update(how["env"])
    if "DEBVOTE_CLOCK" in os.environ:
        set_clock(pathlib.Path(os.environ["DEBVOTE_CLOCK"]).read_text().strip())
    time.tzset()
    given = pathlib.Path(str(words[1])).parent, [str(word) for word in words[2:]]
    try:
        status = contextvars.copy_context().run(main, *given)
    except SystemExit as end:
        status = end.code if isinstance(end.code, int) else 0 if end.code is None else 1
    except BaseException:
        sys.excepthook(*sys.exc_info())
        status = 1
    for stream in (sys.stdout, sys.stderr):
        with contextlib.suppress(OSError):
            stream.flush()
    return int(status)


def awaited(child: int, timeout: object, words: Sequence[object]) -> int:
    """Waits for a child, and returns its exit status in the form of subprocess. Kills a child that does not end in time."""
    handle = os.pidfd_open(child)
    try:
        ready, _, _ = select.select([handle], [], [], timeout)
        if not ready:
            os.kill(child, signal.SIGKILL)
            os.waitpid(child, 0)
            raise subprocess.TimeoutExpired(words, timeout)
        return os.waitstatus_to_exitcode(os.waitpid(child, 0)[1])
    finally:
        os.close(handle)
