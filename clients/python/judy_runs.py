"""What the tests of the command line `judy` share: a server for each of their modules, and running
programs that leave nothing behind."""

import gc
import os
import select
import signal
import subprocess
import sys
import unittest
from unittest import mock

from judyd import Client, command
from served import HERE, Served

RUNNING = []

# A shell that runs the tests in the background has them ignore these, and judy would do so too.
signal.signal(signal.SIGINT, signal.default_int_handler)
signal.signal(signal.SIGHUP, signal.SIG_DFL)


def start_judy(*words, token="abc", path=None, **how):
    """A running judy, with pipes."""
    env = {**os.environ, "JUDY_TOKEN": token, "HOME": JudyTest.folder(), "TERM": "dumb", **how.pop("more", {})}
    pipes = {"stdin": subprocess.PIPE, "stdout": subprocess.PIPE, "stderr": subprocess.PIPE, **how}
    judy = subprocess.Popen([sys.executable, os.path.join(HERE, "judy"), "-s", path or JudyTest.path(), *words], env=env, **pipes)
    RUNNING.append(judy)
    return judy


def run_judy(script, *words, **how):
    """The status of a script, and its output."""
    judy = start_judy(*words, **how)
    said, wrong = judy.communicate(script, timeout=120)
    return judy.returncode, said.decode(), wrong.decode()


def judy_here(*words, token="abc"):
    """The status of judy in this process, whose parts a test may have replaced."""
    with mock.patch.object(sys, "argv", ["judy", *words]), mock.patch.dict(os.environ, JUDY_TOKEN=token), mock.patch.object(signal, "signal"), mock.patch.object(gc, "disable"):
        return command.main()


def alice(path=None, **how):
    """A connection of alice."""
    return Client(path or JudyTest.path(), timeout=60, **how).auth("alice", "abc")


class JudyTest(unittest.TestCase):
    """Tests that start judy, and leave none running. They share a server, which serves many."""

    served = None

    @classmethod
    def setUpClass(cls):
        JudyTest.served = Served(clients=64)

    @classmethod
    def tearDownClass(cls):
        JudyTest.served.end()

    @staticmethod
    def folder():
        """The server's folder, which is removed with it."""
        return JudyTest.served.folder.name

    @staticmethod
    def path():
        """The server's socket."""
        return JudyTest.served.path

    def file(self, name, data):
        """The path of a file with this content."""
        path = os.path.join(self.folder(), name)
        with open(path, "wb") as file:
            file.write(data)
        return path

    def tearDown(self):
        for judy in RUNNING:
            judy.kill()
            judy.wait()
            for pipe in (judy.stdin, judy.stdout, judy.stderr):
                if pipe is not None:
                    pipe.close()
        RUNNING.clear()

    def told_until(self, file, wanted):
        """What comes from a file descriptor, up to these bytes."""
        said = b""
        while wanted not in said:
            self.assertTrue(select.select([file], [], [], 60)[0], said)
            said += os.read(file, 1000)
        return said
