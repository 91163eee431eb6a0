"""Tests of the completion of the server judyd, beside what its own help says."""

import os
import re
import shutil
import subprocess
import sys
import unittest

sys.path.insert(0, os.path.dirname(os.path.abspath(__file__)))

from served import HERE, PROGRAM  # noqa: E402

FOLDER = os.path.join(HERE, "..", "completion")


def helped(*words):
    """What the help of judyd says."""
    return subprocess.run([PROGRAM, *words, "--help"], stdout=subprocess.PIPE, check=True).stdout.decode()


def options(text):
    """The long options of a help."""
    return set(re.findall(r"(?m)^ +(?:-\w, |    )(--[\w-]+)", text))


def commands():
    """The commands of judyd."""
    return re.findall(r"(?m)^  (\w+)  ", helped().partition("Commands:\n")[2].partition("\n\n")[0])


def completed(*words):
    """What bash completes the last of these words to."""
    script = '. "$1"; shift; COMP_WORDS=("$@"); COMP_CWORD=$(($# - 1)); _judyd; printf "%s\\n" "${COMPREPLY[@]}"'
    ran = subprocess.run(["bash", "-c", script, "-", os.path.join(FOLDER, "judyd.bash"), *words], stdout=subprocess.PIPE, check=True)
    return ran.stdout.decode().split()


class Completion(unittest.TestCase):
    """The words that the shells know are those of the program."""

    def test_bash(self):
        self.assertGreater(len(commands()), 3)
        self.assertEqual(sorted(completed("judyd", "")), sorted([*commands(), "--help", "--version"]))
        for name in commands():
            wanted = set() if name == "help" else options(helped(name))
            self.assertEqual(set(completed("judyd", name, "-")), wanted, name)
        self.assertGreater(len(completed("judyd", "serve", "-")), 10)
        self.assertEqual(completed("judyd", "serve", "--sync", ""), ["round", "never"])
        self.assertEqual(completed("judyd", "serve", "--config", "/et"), ["/etc"])
        self.assertEqual(completed("judyd", "compact", "/et"), ["/etc"])
        self.assertEqual(completed("judyd", "serve", "--clients", ""), [])

    def test_zsh(self):
        path = os.path.join(FOLDER, "_judyd")
        with open(path, encoding="ascii") as file:
            text = file.read()
        self.assertTrue(text.startswith("#compdef judyd\n"))
        self.assertEqual(re.findall(r"(?m)^    '(\w+):", text), commands())
        for name in commands():
            part = re.search(r"(?s)\n            %s\)(.*?);;" % name, text)[1]
            self.assertEqual(set(re.findall(r"'(--[\w-]+)\[", part)), set() if name == "help" else options(helped(name)), name)
        if shutil.which("zsh"):
            self.assertEqual(subprocess.run(["zsh", "-n", path], stderr=subprocess.PIPE, check=False).stderr, b"")


if __name__ == "__main__":
    unittest.main()
