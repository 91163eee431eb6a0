"""What Debian's promtool says of a status text."""

import os
import re
import subprocess
import sys

from harness import TOP

sys.path.insert(0, os.path.join(TOP, "clients", "python"))

from status_server import METRICS  # noqa: E402


def promtool(*words, data=None, folder=TOP):
    """The status of promtool, and what it says."""
    ran = subprocess.run(["promtool", *words], cwd=folder, input=data, stdout=subprocess.PIPE, stderr=subprocess.STDOUT, check=False)
    return ran.returncode, ran.stdout.decode()


def faults_of(text):
    """What is wrong with a status text."""
    names = re.findall(r"(?m)^# TYPE (\w+) ", text.decode())
    if names != [metric.name for metric in METRICS]:
        return "its metrics with a type: %r" % names
    status, said = promtool("check", "metrics", data=text)
    return None if (status, said) == (0, "") else "promtool check metrics: status %d, %s" % (status, said)
