"""Tests of the command line `judy` against a real `judyd serve`: scripts, calls and terminals."""

import contextlib
import os
import re
import select
import signal
import socket
import subprocess
import sys
import threading
import time
import unittest

sys.path.insert(0, os.path.dirname(os.path.abspath(__file__)))

from judy_runs import JudyTest, alice, run_judy, start_judy  # noqa: E402
from judyd import Client, Closed, __version__  # noqa: E402
from judyd.command import SUBCOMMANDS  # noqa: E402
from judyd.options import first_words, subcommand  # noqa: E402
from judyd.wording import WORDS, told, wrong_in  # noqa: E402
from served import HERE, Served, odd_server  # noqa: E402


NO_NAMES = {
    "NAMES": "it is written NAMES [kind name] n", "NAMES J1 a": "it is written", "NAMES J1 a 5 5": "it is written", "NAMES 0": "1 to 65535", "NAMES 65536": "1 to 65535", "NAMES -1": "1 to 65535",
    "NAMES J1 a 0": "1 to 65535", "NAMES J2 a 5": "a kind is J1, JL, JSL or JHS, and not J2", "NAMES j1 a 5": "a kind is", "NAMES J1 a/ 5": "a name is", "NAMES a": "a number is", "NAMES J1 a b": "a number is", "names 5": "NAMES",
}  # fmt: skip


class Scripts(JudyTest):
    """Scripts, and one call on the command line."""

    def test_replies_as_they_are(self):
        script = b'# a script\n\nJudy1Set ids 5\nJ1FE ids 5\nJSLI w "a \\"b\\x7f" 3\nJSLF w x\nJSLFA w\nJ1FA ids\nQUIT\nUSED\n'
        self.assertEqual(run_judy(script, "-u", "alice"), (0, "1\n1 6\nV 0\nV 3 x612022627f\nN 1\nN 1\nBYE\n", ""))

    def test_a_table(self):
        status, text, _ = run_judy(b'JLI m 7 9\nJLI m 7\nJSLI w "tree" 3\nJSLF w x\nJLFA m\nJSLFA w\nUSED\n', "-u", "alice", "--pretty")
        rows = [" ".join(line.split()) for line in text.splitlines()]
        self.assertEqual(rows[0], "REQUEST ANSWER KEY VALUE")
        self.assertEqual(rows[1:3], ["JLI m 7 9 before 0", "JLI m 7 before 9"])
        self.assertEqual(rows[4:6], ['JSLF w x found "tree" 3', "JLFA m 1 freed"])
        self.assertEqual((status, rows[-1]), (0, "USED 0 of 1000000 entries, 0 of 126000000 pieces"))

    def test_statuses(self):
        status, said, wrong = run_judy(b"USED\n# more\n\nJ1X\n")
        self.assertEqual((status, said), (1, "ERR AUTH\nERR SYNTAX\n"))
        self.assertEqual([line[:24] for line in wrong.splitlines()], ["judy: line 1: ERR AUTH: ", "judy: line 4: ERR SYNTAX"])
        self.assertEqual(run_judy(b"", "-u", "alice", token="x"), (1, "", "judy: the server does not know this tenant and token\n"))
        self.assertEqual(run_judy(b"USED\n", "-s", self.path() + "x")[0], 4)

    def test_one_call(self):
        self.assertEqual(run_judy(b"", "-u", "alice", "J1S", "ids", "5"), (0, "1\n", ""))
        self.assertEqual(run_judy(b"", "-u", "alice", "Judy1Count", "ids", "0", "-1"), (0, "N 1\n", ""))
        self.assertEqual(run_judy(b"", "-u", "alice", "--pretty", "J1FA", "ids")[1].split()[-4:], ["J1FA", "ids", "1", "freed"])
        self.assertEqual(run_judy(b"", "-u", "alice", "JSLI", "w", '"two words"', "3"), (0, "V 0\n", ""))
        self.assertEqual(run_judy(b"", "-u", "alice", "JSLFA", "w"), (0, "N 1\n", ""))
        for words, refused in ((("J1S", "ids", "-7"), "a number is"), (("JSLG", "w", "tree"), "a key is x"), (("J1S", "ids"), "it is written J1S name i")):
            status, said, wrong = run_judy(b"", "-u", "alice", *words)
            self.assertEqual((status, said), (1, "ERR SYNTAX\n"))
            self.assertIn("judy: ERR SYNTAX: " + refused, wrong)
        self.assertEqual(run_judy(b"", "-u", "bob", "JHSI", "h", "x", token="hello")[0], 0)
        self.assertEqual(run_judy(b"", "-u", "bob", "JHSFA", "h", token="hello")[:2], (0, "N 1\n"))
        self.assertEqual(run_judy(b"", "-u", "alice", "J1S", "ids", "5", path=self.path() + "x")[0], 4)
        self.assertEqual(run_judy(b"", "J1X", "ids", "5")[0], 2)

    def test_help(self):
        status, said, _ = run_judy(b"", "help", "J1S")
        self.assertEqual((status, said[:29]), (0, "J1S name i   Judy1Set inserts"))
        self.assertEqual(run_judy(b"", "help", "Judy1Set")[1], said)
        self.assertIn("no such request: J1X; is it J1", run_judy(b"", "help", "J1X")[2])
        self.assertIn("JLI name i [v]", run_judy(b"", "help", "JLI")[1])

    def test_each_field_that_is_wrong(self):
        for request in ("J1T a 1", "JSLI w x41 5", "JHSG h x00", "USED", "AUTH alice abc", "JLI m -1", "J1C a 0 18446744073709551615", "NAMES 5", "NAMES JHS a 65535"):
            self.assertEqual(wrong_in(request), "")
        for request in ("", "j1t a 1", "J1T", "J1T a", "J1T a b", "J1T a/b 1", "JSLI w x4", "JSLI w x00", "J1C a 1", "USED 1", "AUTH alice", "J1T a 18446744073709551616", "JHSG h x" + "0" * 2002, *NO_NAMES):
            self.assertNotEqual(wrong_in(request), "")
            self.assertIn("ERR SYNTAX", run_judy(request.encode() + b"\n" if request else b" . \n", "-u", "alice")[1])

    def test_names(self):
        for request, said in NO_NAMES.items():
            self.assertIn(said, wrong_in(request))
        script = b"J1S ids 5\nJSLI words \"tree\" 3\nNAMES 5\nNAMES J1 ids 1\nNAMES JHS z 1\nJ1FA ids\nJSLFA words\n"
        self.assertEqual(run_judy(script, "-u", "alice")[1].splitlines()[2:5], ["E 2 J1 ids 1 JSL words 1", "E 1 JSL words 1", "E 0"])
        rows = [row.split() for row in run_judy(script, "-u", "alice", "--pretty")[1].splitlines()[-5:-2]]
        self.assertEqual(rows, ["NAMES 5 2 found J1:ids 1 JSL:words 1".split(), "NAMES J1 ids 1 1 found JSL:words 1".split(), "NAMES JHS z 1 0 found".split()])
        self.assertIn("NAMES [kind name] n", run_judy(b"", "help", "NAMES")[1])

    def test_bytes_outside_utf_8(self):
        self.assertEqual(run_judy(b'JHSI h "\xe9" 7\nJHSG h xe9\nJHSFA h\n', "-u", "alice"), (0, "V 0\nV 7\nN 1\n", ""))
        self.assertEqual(run_judy(b"", "-u", "alice", "JHSI", "h", b'"\xe9"', "7")[:2], (0, "V 0\n"))
        self.assertEqual(run_judy(b"JHSG h xe9\nJHSFA h\n", "-u", "alice")[1], "V 7\nN 1\n")

    def test_numbers_of_lines_that_are_refused(self):
        path = os.path.join(self.folder(), "script")
        with open(path, "w", encoding="ascii") as file:
            file.write("# all\n" + "J1T ids 1\n" * 3000 + "J1T ids\n\nJ1X\n")
        status, said, wrong = run_judy(b"", "-u", "alice", path)
        self.assertEqual((status, said.count("\n")), (1, 3002))
        self.assertEqual([line.split(": ")[2] for line in wrong.splitlines()], ["line 3002", "line 3004"])

    def test_a_slow_script_holds_nobody(self):
        judy = start_judy("-u", "alice")
        for number in range(3):
            judy.stdin.write(b"J1S slow %d\n" % number)
            judy.stdin.flush()
            self.assertTrue(select.select([judy.stdout], [], [], 60)[0])
            self.assertEqual(judy.stdout.readline(), b"1\n")
            with alice() as other:  # while the script goes on
                self.assertEqual(len(other.judy1("slow")), number + 1)
        self.assertEqual(judy.communicate(b"J1FA slow\n", timeout=60), (b"N 3\n", b""))

    def test_a_script_that_is_still_to_come_holds_nobody(self):
        judy = start_judy("-u", "alice")  # as `sleep 3 | judy`
        time.sleep(0.5)
        with Client(self.path(), timeout=5).auth("alice", "abc") as other:
            self.assertEqual(other.used().used, 0)
            self.assertIsNone(judy.poll())
        self.assertEqual(judy.communicate(b"USED\n", timeout=60)[0], b"Q 0 1000000 0 126000000\n")

    def test_who_speaks_stays_over_windows(self):
        script = b"AUTH alice abc\n" + b"J1T a 1\n" * 1500 + b"AUTH alice wrong\n" + b"J1T a 1\n" * 1500 + b"AUTH alice look\nJ1S a 1\n"
        status, said, _ = run_judy(script)
        replies = said.splitlines()
        self.assertEqual((status, len(replies)), (1, 3004))
        self.assertEqual([replies[at] for at in (0, 1500, 1501, 1502, 3001, 3002, 3003)], ["OK", "0", "ERR AUTH", "ERR AUTH", "ERR AUTH", "OK", "ERR READONLY"])

    def alone(self):
        """A server that serves one connection after another."""
        served = Served(clients=1)
        self.addCleanup(served.end)
        return served.path

    def test_one_connection_for_all(self):
        path = self.alone()
        judy = start_judy("-u", "alice", path=path)
        judy.stdin.write(b"J1T a 1\n")
        judy.stdin.flush()
        self.assertEqual(judy.stdout.readline(), b"0\n")
        with Client(path, timeout=0.3) as other:
            self.assertRaises(Closed, other.auth, "alice", "abc")
        judy.communicate(b"", timeout=60)

    def test_waits_for_so_long(self):
        path = self.alone()
        with alice(path):
            status, _, wrong = run_judy(b"USED\n", "-u", "alice", "--timeout", "0.3", path=path)
        self.assertEqual((status, "no reply for 0.3 s: another client may be served just then" in wrong), (4, True))

    def cut(self, change):
        """The status of a script of three parts, and its messages, if something changes before the
        second part."""
        served = Served(clients=64)
        self.addCleanup(served.end)
        judy = start_judy("-u", "alice", path=served.path)
        for number in range(2):
            judy.stdin.write(b"# more\nJ1S a %d\nJ1S a %d\n" % (number, number + 9))
            judy.stdin.flush()
            if number == 0:
                self.assertEqual((judy.stdout.readline(), judy.stdout.readline()), (b"1\n", b"1\n"))
                change(served)
        said, wrong = judy.communicate(b"J1C a 0 -1\n", timeout=60)
        return judy.returncode, said, wrong

    def test_a_server_that_is_started_anew_in_a_script(self):
        for change in (lambda served: served.kill(), lambda served: served.restart()):
            status, said, wrong = self.cut(change)
            self.assertEqual((status, said, wrong.count(b"\n")), (1, b"", 1))
            self.assertRegex(wrong, rb"\Ajudy: line 5: .*; 2 lines were answered\n\Z")

    def test_a_server_that_ends_silent_connections(self):
        served = Served(clients=64)
        self.addCleanup(served.end)
        served._words += ["--idle", "1"]
        served.restart()
        judy = start_judy("-u", "alice", path=served.path)
        judy.stdin.write(b"J1S a 1\n")
        judy.stdin.flush()
        self.assertEqual(judy.stdout.readline(), b"1\n")
        time.sleep(3)
        self.assertEqual((judy.communicate(b"J1C a 0 -1\n", timeout=60), judy.returncode), ((b"N 1\n", b""), 0))

    def test_a_window_of_which_a_part_was_answered(self):
        with odd_server(b"1\n0\n") as path:
            status, said, wrong = run_judy(b"J1S a 1\n\nJ1S a 1\nJ1S a 2\nJ1S a 3\n", path=path)
        self.assertEqual((status, said), (1, "1\n0\n"))
        self.assertRegex(wrong, r"\Ajudy: line 4: the connection was lost .*; 2 lines were answered\n\Z")


class Service(JudyTest):
    """Whether a server answers; and what judy says if something is missing."""

    def test_status(self):
        self.assertEqual(run_judy(b"", "status"), (0, "%s: a server answers\n" % self.path(), ""))
        said = run_judy(b"", "-u", "alice", "status")[1]
        self.assertEqual(said, "%s: a server answers; alice has 0 of 1000000 entries, 0 of 126000000 pieces\n" % self.path())
        self.assertEqual(run_judy(b"", "-u", "alice", "status", token="x")[0], 1)

    def test_no_server(self):
        for words in (("status",), ("-u", "alice", "USED"), ("-u", "alice", "dump", "J1:a")):
            status, said, wrong = run_judy(b"", *words, path=self.path() + "x")
            self.assertEqual((status, said, wrong.count("\n")), (4, "", 1))
            self.assertIn("judyd serve --config FILE --socket %sx" % self.path(), wrong)
        served = Served(clients=64)
        self.addCleanup(served.end)
        served.kill()
        self.assertIn("remove it and start the server", run_judy(b"", "status", path=served.path)[2])

    def test_wait(self):
        self.assertEqual(run_judy(b"", "wait"), (0, "", ""))
        self.assertEqual(run_judy(b"", "-u", "alice", "wait"), (0, "", ""))
        self.assertEqual(run_judy(b"", "-u", "alice", "wait", token="abd"), (1, "", "judy: the server does not know this tenant and token\n"))
        before = time.monotonic()
        status, _, wrong = run_judy(b"", "wait", "--timeout", "0.5", path=self.path() + "x")
        self.assertEqual((status, wrong.startswith("judy: no server answered for 0.5 s: ")), (1, True))
        self.assertGreaterEqual(time.monotonic() - before, 0.5)
        served = Served(clients=64)
        self.addCleanup(served.end)
        served.kill()
        judy = start_judy("wait", "--timeout", "60", path=served.path)
        time.sleep(0.5)
        self.assertIsNone(judy.poll())
        served.start()
        self.assertEqual(judy.wait(timeout=60), 0)

    def test_wait_has_an_end(self):
        alone, served = Served(clients=1), Served(clients=64)
        self.addCleanup(alone.end)
        self.addCleanup(served.end)
        path = alone.path
        for number, change in enumerate((lambda: None, served.freeze, served.kill)):
            change()
            with alice(path) if number == 0 else contextlib.nullcontext():  # a server whose only place is taken; one that is stopped; one that left its socket
                before = time.monotonic()
                status, said, wrong = run_judy(b"", "wait", "--timeout", "1", path=served.path if number else path)
                self.assertEqual((status, said, wrong.count("\n"), wrong.startswith("judy: no server answered for 1 s: ")), (1, "", 1, True), wrong)
                self.assertTrue(1 <= time.monotonic() - before < 20)
        for seconds in ("-1", "nan", "inf", "1e7", "x"):
            self.assertEqual(run_judy(b"", "wait", "--timeout", seconds)[0], 2)

    def test_version(self):
        self.assertEqual(run_judy(b"", "--version"), (0, "judy %s\n" % __version__, ""))

    def test_no_token_and_no_input(self):
        for words in (("J1S", "ids", "5"), ("status",), ("dump", "J1:ids"), ()):
            status, said, wrong = run_judy(b"", "-u", "alice", *words, token="", start_new_session=True)
            self.assertEqual((status, said, wrong.count("\n")), (1, "", 1), wrong)
            self.assertIn("put it into JUDY_TOKEN, or name its file with --token-file", wrong)
        ran = subprocess.run(["sh", "-c", 'exec "$@" <&-', "sh", sys.executable, os.path.join(HERE, "judy")], stderr=subprocess.PIPE, check=False)
        self.assertEqual((ran.returncode, ran.stderr.splitlines()[-1]), (2, b"judy: error: standard input is closed: there is no script to run"))

    def test_each_file_is_named(self):
        gone, folder = os.path.join(self.folder(), "gone"), self.folder()
        for words in (
            ("table", gone), ("table", gone, "set", "alice", "--quota", "1"), ("check", "--whole", gone), ("-u", "alice", "load", gone), ("compact", "--when", "1", gone),
            ("backup", "--folder", folder, gone), ("-u", "alice", "--token-file", gone, "status"), ("-t", "localhost:1", "--tls", "--ca", gone, "status"),
            ("-u", "alice", "dump", "-o", os.path.join(gone, "dump"), "J1:ids"),
        ):  # fmt: skip
            status, said, wrong = run_judy(b"", *words)
            self.assertEqual((status, said, wrong.count("\n")), (1, "", 1), (words, wrong))
            self.assertEqual((gone in wrong, "No such file or directory" in wrong, "Errno" in wrong), (True, True, False), (words, wrong))
        for words in (("table", folder), ("check", "--whole", folder), ("-u", "alice", "load", folder), ("-u", "alice", folder)):
            self.assertEqual(run_judy(b"", *words), (1, "", "judy: %s: Is a directory\n" % folder), words)

    def test_suggestions(self):
        for word, meant in (("J1UN", "J1U"), ("J1Unset", "J1U"), ("Judy1Unse", "Judy1Unset"), ("JLGET", "JLG"), ("statsu", "status"), ("dmup", "dump")):
            status, _, wrong = run_judy(b"", word, "ids")
            self.assertEqual((status, wrong.splitlines()[-1].rpartition("; ")[2]), (2, "is it %s?" % meant))
        self.assertIn("J1U name i", run_judy(b"", "j1u")[2])


class Additions(JudyTest):
    """judy add, over a server that only knows what it sends."""

    def adding(self):
        """The path of a server that takes a few connections, and adds."""
        path, values = os.path.join(self.folder(), "adding"), {}
        server = socket.socket(socket.AF_UNIX)
        server.bind(path)
        server.listen()
        self.addCleanup(server.close)

        def serve():
            for _ in range(4):
                connection, _ = server.accept()
                with connection, connection.makefile("rwb", buffering=0) as lines:
                    for line in lines:
                        word, *fields = line.split()
                        if word == b"AUTH":
                            lines.write(b"OK\n")
                            continue
                        key = (word, *fields[:2])
                        values[key] = (values.get(key, 0) + int(fields[2])) % 2**64
                        lines.write(b"V %d\n" % values[key])

        thread = threading.Thread(target=serve, daemon=True)
        thread.start()
        self.addCleanup(thread.join, 60)
        return path, values

    def test_add(self):
        path, values = self.adding()
        for words, reply in ((("JL:hits", "5"), "V 1"), (("JL:hits", "5", "41"), "V 42"), (("JL:hits", "5", "-2"), "V 40"), (("JSL:pages", "/new s"), "V 1")):
            self.assertEqual(run_judy(b"", "-u", "alice", "add", *words, path=path), (0, reply + "\n", ""))
        self.assertEqual(values, {(b"JLA", b"hits", b"5"): 40, (b"JSLA", b"pages", b"x2f6e65772073"): 1})
        self.assertIn("a set has no values", run_judy(b"", "-u", "alice", "add", "J1:ids", "5")[2])

    def test_words(self):
        self.assertEqual(told("JLA hits 5 2", "V 7"), ("now", "", "7"))
        self.assertEqual(run_judy(b"", "help", "JHSA")[1][:16], "JHSA name key n ")
        self.assertEqual(wrong_in("JLA hits 5"), "it is written JLA name i n")


class Completion(unittest.TestCase):
    """The words that the shells know."""

    FOLDER = os.path.join(HERE, "..", "completion")

    def completed(self, *words):
        """What bash completes the last of these words to."""
        script = '. "$1"; shift; COMP_WORDS=("$@"); COMP_CWORD=$(($# - 1)); _judy; printf "%s\\n" "${COMPREPLY[@]}"'
        ran = subprocess.run(["bash", "-c", script, "-", os.path.join(self.FOLDER, "judy.bash"), *words], stdout=subprocess.PIPE, check=True)
        return ran.stdout.decode().split()

    def test_bash(self):
        options = [option for action in first_words()._actions for option in action.option_strings if option != "-h"]
        self.assertEqual(sorted(self.completed("judy", "")), sorted([*SUBCOMMANDS, *WORDS, *options]))
        for name in SUBCOMMANDS:
            wanted = {option for action in subcommand(name)._actions for option in action.option_strings} - {"-h"}
            self.assertEqual({word for word in self.completed("judy", "-u", "alice", name, "-")}, wanted, name)
        self.assertEqual(self.completed("judy", "table", "t.toml", "s"), ["set"])
        for name in ("status", "top", "stop", "reload", "kick", "load", "check", "backup", "compact", "ship", "receive", "table"):
            self.assertEqual(set(self.completed("judy", name, "")), set(os.listdir(".")), name)
        self.assertIn("add", self.completed("judy", "table", "t.toml", ""))
        self.assertEqual(self.completed("judy", "help", "ta"), ["table"])
        self.assertEqual(self.completed("judy", "help", "J1F"), ["J1F", "J1FA", "J1FE"])
        self.assertEqual(self.completed("judy", "dump", "-o", "/et"), ["/etc"])
        self.assertEqual(self.completed("judy", "J1S", "a"), [])

    def test_zsh(self):
        with open(os.path.join(self.FOLDER, "_judy"), encoding="ascii") as file:
            text = file.read()
        self.assertTrue(text.startswith("#compdef judy\n"))
        calls = text.partition("calls=(\n")[2].partition(")")[0].split()
        self.assertEqual(calls, sorted(WORDS))
        self.assertEqual(re.findall(r"(?m)^    '(\w+):", text), list(SUBCOMMANDS))
        for name in SUBCOMMANDS:
            for option in (option for action in subcommand(name)._actions for option in action.option_strings if option not in ("-h", "--help")):
                self.assertRegex(text, r"[{',]%s[\[,}]" % option)


class Terminals(JudyTest):
    """Lines at a terminal."""

    def talk(self, *words, path=None):
        """A judy at a terminal, and our end of the terminal."""
        ours, theirs = os.openpty()
        judy = start_judy(*words, path=path, stdin=theirs, stdout=theirs, stderr=theirs, start_new_session=True)
        os.close(theirs)
        self.addCleanup(os.close, ours)
        return judy, ours

    def says(self, ours, line, reply):
        """Types a line, and waits for a reply."""
        os.write(ours, line + b"\n" if line else b"")
        self.told_until(ours, reply)

    def test_a_session(self):
        judy, ours = self.talk("-u", "alice")
        for line, reply in (
            (b"", b"alice> "), (b"Judy1Set ids 5", b"1\r\n"), (b"J1FE\tids 5", b"1 6\r\n"), (b"J1FA ids", b"N 1\r\n"),
            (b"?", b"one reply each"), (b"help J1S", b"Judy1Set inserts"), (b"J1S ids", b"it is written J1S name i\r\n"), (b"AUTH bob hello", b"OK\r\nbob> "),
        ):  # fmt: skip
            self.says(ours, line, reply)
        with alice() as client:  # it is not held up
            self.assertEqual(client.used().used, 0)
        os.write(ours, b"exit\n")
        self.assertEqual(judy.wait(timeout=60), 0)
        with open(os.path.join(self.folder(), ".judy_history"), encoding="utf-8") as file:
            self.assertNotIn("AUTH", file.read())

    def test_a_line_is_dropped(self):
        served = Served(clients=1)
        self.addCleanup(served.end)
        judy, ours = self.talk("-u", "alice", path=served.path)
        self.says(ours, b"", b"alice> ")
        with alice(served.path):
            said = b""
            for _ in range(20):  # a signal before the line is read drops nothing
                os.write(ours, b"USED\n")
                time.sleep(0.5)
                judy.send_signal(signal.SIGINT)
                while select.select([ours], [], [], 0.5)[0]:
                    said += os.read(ours, 1000)
                if b"the line is dropped" in said:
                    break
            self.assertIn(b"the line is dropped", said)
        self.says(ours, b"USED", b"Q 0 ")
        os.write(ours, b"quit\n")
        self.assertEqual(judy.wait(timeout=60), 0)

    def test_a_server_that_comes_back(self):
        served = Served(clients=64)
        self.addCleanup(served.end)
        judy, ours = self.talk("-u", "alice", path=served.path)
        self.says(ours, b"J1S ids 5", b"1\r\n")
        served.kill()
        self.says(ours, b"J1T ids 5", b"the next line tries again")
        served.start()
        self.says(ours, b"J1T ids 5", b"connected again; after a restart the arrays are empty\r\n0\r\n")
        os.write(ours, b"QUIT\n")
        self.assertEqual(judy.wait(timeout=60), 0)


if __name__ == "__main__":
    unittest.main()
