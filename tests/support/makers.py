"""A process that makes commands for others: each is a fork of it, which has imported all modules and has one thread (forks.py).

An office asks it for the commands that it runs, and a shell by a small program in its PATH, which takes a tenth of the time of Python's
start and the imports. With DEBVOTE_FORKS=0 nobody asks, and each command is a new process.
"""

import contextlib
import gc
import importlib
import json
import os
import pathlib
import select
import signal
import socket
import sys
import traceback
from collections.abc import Iterator, Sequence

from debvote_tools.cli import console

from tests.support import forks

# whether nobody asks
ARE_NEW = os.environ.get("DEBVOTE_FORKS") == "0"
# in bytes, the longest words and environment of a command; and no process has as many files open
LONGEST = 2**20
MOST_FILES = 2**16

# a program of a shell: it asks by a descriptor, and ends as the command does
ASKING = """#!/usr/bin/python3 -IS
import json, os, socket, sys
reads, tells = os.pipe()
words = [{python!r}, {launcher!r}, *sys.argv[1:]]
data = json.dumps([words, os.getcwd(), dict(os.environ)]).encode()
socket.send_fds(socket.socket(fileno={asked}), [data], [0, 1, 2, tells])
os.close(tells)
sys.exit(int(open(reads).read().split()[1]))
"""


@contextlib.contextmanager
def maker() -> Iterator[socket.socket]:
    """By this commands are asked for, until the end of the block."""
    forks.read_ahead()
    asking, asked = socket.socketpair(socket.AF_UNIX, socket.SOCK_SEQPACKET)
    child = os.fork()
    if child == 0:
        try:
            os.dup2(asked.fileno(), 3)
            close_from(4)
            make_commands(socket.socket(fileno=3))
        except BaseException:
            traceback.print_exc()
        os._exit(0)
    asked.close()
    try:
        yield asking
    finally:
        asking.close()
        os.waitpid(child, 0)


def close_from(number: int):
    """In a fork: closes all descriptors from this one on. No file of the test is deleted here, which would close what has its number by now."""
    gc.freeze()
    os.closerange(number, MOST_FILES)


def make_commands(asked: socket.socket):
    """Forks a command for each message, until nobody can ask; tells its number and, at its end, its status."""
    running = dict[int, tuple[int, int]]()
    while True:
        for ready in select.select([asked, *running], [], [])[0]:
            if ready in running:
                child, tells = running.pop(ready)
                status = os.waitstatus_to_exitcode(os.waitpid(child, 0)[1])
                with contextlib.suppress(BrokenPipeError):
                    os.write(tells, b"%d\n" % status)
                os.close(ready)
                os.close(tells)
                continue
            data, handles, _, _ = socket.recv_fds(asked, LONGEST, 4)
            if not data:
                return
            *streams, tells = handles
            child = os.fork()
            if child == 0:
                become(*json.loads(data), streams)
            for stream in streams:
                os.close(stream)
            os.write(tells, b"%d\n" % child)
            running[os.pidfd_open(child)] = child, tells


def become(words: Sequence[str], folder: str, env: dict[str, str], streams: Sequence[int]):
    """In a fork: it is a command, as a new process in a session of its own is."""
    os.setsid()
    signal.signal(signal.SIGINT, signal.SIG_DFL)
    console.AT_OFFICE = "DEBVOTE_OFFICE" in env
    for number, stream in enumerate(streams):
        os.dup2(stream, number)
    close_from(3)
    main = importlib.import_module(forks.LAUNCHERS[words[1]]).main
    forks.in_child(main, words, {"cwd": folder, "env": env}, [])


class Made:
    """A command that was asked for: what an office knows of it, and has of one that is a new process."""

    def __init__(self, asking: socket.socket, *of_command: object):
        (inner, stdin), (stdout, outer), (told, tells) = (os.pipe() for _ in range(3))
        data = json.dumps(of_command).encode()
        socket.send_fds(asking, [data], [inner, outer, outer, tells])
        for handle in (inner, outer, tells):
            os.close(handle)
        self.stdin = open(stdin, "wb")
        self.stdout = open(stdout, "rb")
        self.told = open(told)
        self.pid = int(self.told.readline())
        self.status: int | None = None

    def __enter__(self) -> "Made":
        return self

    def __exit__(self, *_: object):
        self.stdout.close()
        try:
            self.stdin.close()
        finally:
            self.wait()

    def wait(self) -> int:
        if self.status is None:
            with self.told:
                self.status = int(self.told.readline())
        return self.status


def write_programs(folder: pathlib.Path, asking: socket.socket):
    """Programs for the PATH of a shell, which has this socket, by the names of the launchers."""
    for launcher in () if ARE_NEW else forks.LAUNCHERS:
        file = folder / pathlib.Path(launcher).name
        values = {"python": sys.executable, "launcher": launcher, "asked": asking.fileno()}
        file.write_text(ASKING.format(**values))
        file.chmod(0o755)
