"""A desk on a helper's own laptop: one line of authorized_keys on the secretary's computer."""

import getpass
import os
import pathlib
import shutil
import socket
import subprocess
import time
import unittest

import pytest

from tests.support import elections
from tests.support.election_books import CalledTest

SSHD = shutil.which("sshd", path="/usr/sbin:/usr/bin")


@pytest.mark.whole
@unittest.skipUnless(SSHD and shutil.which("ssh"), "openssh-server is not installed")
class BySsh(CalledTest):
    def setUp(self):
        super().setUp()
        self.ssh_folder = self.scratch / "ssh"
        self.ssh_folder.mkdir(mode=0o700)
        for name in ("host", "helper"):
            words = ["ssh-keygen", "-q", "-t", "ed25519", "-N", "", "-f", self.ssh_folder / name]
            subprocess.run(words, check=True, stdin=subprocess.DEVNULL)
        env = elections.environment()
        # what is in the secretary's profile otherwise
        program = f"env XDG_STATE_HOME={self.state} PATH={env['PATH']} {elections.ELECTION}"
        desk = f"{program} --folder {self.folder} desk --name 'Table 2'"
        key = (self.ssh_folder / "helper.pub").read_text()
        (self.ssh_folder / "keys").write_text(f'restrict,pty,command="{desk}" {key}')
        (self.ssh_folder / "keys").chmod(0o600)
        with socket.socket() as free:
            free.bind(("127.0.0.1", 0))
            self.port = free.getsockname()[1]
        settings = {
            "ListenAddress": f"127.0.0.1:{self.port}",
            "HostKey": self.ssh_folder / "host",
            "AuthorizedKeysFile": self.ssh_folder / "keys",
            "StrictModes": "no",
            "PidFile": "none",
            "UsePAM": "no",
            "PasswordAuthentication": "no",
            "PermitRootLogin": "prohibit-password",
        }
        words = [SSHD, "-D", "-e", "-f", os.devnull]
        for name, value in settings.items():
            words += ["-o", f"{name}={value}"]
        if os.geteuid() == 0:
            pathlib.Path("/run/sshd").mkdir(exist_ok=True)
        server = subprocess.Popen(words, stderr=subprocess.DEVNULL)
        self.addCleanup(server.wait)
        self.addCleanup(server.kill)
        end = time.monotonic() + elections.SECONDS
        with socket.socket() as found:
            while found.connect_ex(("127.0.0.1", self.port)):
                self.assertIsNone(server.poll())
                self.assertLess(time.monotonic(), end)
                time.sleep(0.05)

    def ssh(self, *words, typed="", options=()):
        """What a helper sees who types this."""
        trust = "-F none -o StrictHostKeyChecking=no -o UserKnownHostsFile=/dev/null"
        where = (
            f"-q -p {self.port} -i {self.ssh_folder}/helper {trust} {getpass.getuser()}@127.0.0.1"
        )
        ended = subprocess.run(
            ["ssh", *(options or ["-tt"]), *where.split(), *words],
            input=typed,
            capture_output=True,
            text=True,
            timeout=elections.SECONDS,
        )
        return ended.stdout.replace("\r\n", "\n")

    def test_a_helper_types_ballots_and_nothing_else(self):
        shown = self.ssh(typed="ada 1,2,3,4\ny\nq\n")
        self.assertIn("ada: At the lake, then In the town hall", shown)
        self.assertIn("This desk has entered 1 line (1 counted).", shown)
        self.assert_lines("ada 1,2,3,4")
        self.assertEqual(self.last("desk"), {"lines": 1, "desk": "Table 2"})
        # whatever command is asked for, it is the desk
        before = self.last_act()
        for words in (("debvote-election", "undo"), ("cat", "/etc/passwd"), ("/bin/sh",)):
            shown = self.ssh(*words, typed="q\n")
            self.assertNotIn("root:", shown)
            self.assertIn("This desk has entered 0 lines.", shown)
        self.assertEqual(self.last_act(), before)
        # and nothing behind the computer is reached by it
        self.assertNotIn("SSH-2.0", self.ssh(options=["-W", f"127.0.0.1:{self.port}"]))
