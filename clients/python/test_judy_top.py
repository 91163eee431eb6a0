"""Tests of `judy top`, `judy status PATH` and `judy stop` over a server that only has a status."""

import fcntl
import os
import re
import signal
import socket
import struct
import sys
import termios
import time
import unittest

sys.path.insert(0, os.path.dirname(os.path.abspath(__file__)))

from judy_runs import JudyTest, run_judy, start_judy  # noqa: E402
from judyd.errors import Error  # noqa: E402
from judyd.metrics import Metrics  # noqa: E402
from judyd.screen import BEGIN, END, RENEW  # noqa: E402
from judyd.top import Sample, lines_of, percent, short  # noqa: E402
from status_server import METRICS, Numbers, StatusServer, Tenant  # noqa: E402

LONG = "a-very-long-name-of-32-characters"[:32]


def sample(at=0.0, lines=None, tenants=None, replies=None, refused=None, **plain):
    """A status with these numbers."""
    numbers = Numbers(tenants)
    for name, given in (("lines", lines), ("replies", replies), ("logins_refused", refused)):
        numbers.labelled["judyd_%s_total" % name].update(given or {})
    numbers.plain.update(plain)
    return Sample(Metrics(numbers.text()), at)


class Lines(unittest.TestCase):
    """The lines of a screen."""

    def test_numbers(self):
        for number, text in ((0, "0"), (7, "7"), (0.5, "0.50"), (12.34, "12.3"), (999, "999"), (999.6, "1.00k"), (1000, "1.00k"), (12345, "12.3k"), (999600, "1.00M"), (2**64 - 1, "18.4E")):
            self.assertEqual(short(number), text)
        for used, quota, text in ((0, 3, "0%"), (2, 3, "66%"), (999999, 1000000, "99%"), (3, 3, "100%"), (0, 0, "100%")):
            self.assertEqual(percent(used, quota), text)

    def test_rates(self):
        before = sample(10.0, {"J1S": 1000, "JLI": 50}, judyd_uptime_seconds=100, judyd_bytes_received_total=5000)
        now = sample(12.0, {"J1S": 1400, "JLI": 50, "USED": 2}, judyd_uptime_seconds=102, judyd_bytes_received_total=9000)
        lines = lines_of(now, before, 80)
        self.assertIn("a second   in 2.00kB  out 0B  lines 201", lines)
        self.assertEqual(lines[lines.index("LINES A SECOND") + 1], "J1S     200  USED      1")
        lines = lines_of(before, None, 80)
        self.assertIn("a second   in 50B  out 0B  lines 10.5", lines)
        self.assertEqual(lines[lines.index("LINES A SECOND") + 1], "J1S      10  JLI    0.50")
        self.assertEqual(lines_of(before, now, 80), lines, "a server that was started anew")
        self.assertEqual(lines_of(now, now, 80)[lines.index("LINES A SECOND") + 1], "nothing")

    def test_replies_and_log_ins(self):
        tenants = {"alice": Tenant(5, 10, 5, 20), "bob": Tenant(1, 10, 1, 20)}
        before = sample(10.0, None, tenants, {"ok": 10, "full": 2, "auth": 3}, {"alice": 3}, judyd_uptime_seconds=100)
        now = sample(12.0, {"none": 4}, tenants, {"ok": 30, "full": 3, "auth": 3, "syntax": 8}, {"alice": 1204, "bob": 1}, judyd_uptime_seconds=102, judyd_logins_unknown_total=7)
        lines = lines_of(now, before, 80)
        self.assertIn("replies/s  ok 10  FULL 0.50  ERR AUTH 0  ERR SYNTAX 4", lines)
        self.assertIn("log-ins    1.21k refused  7 as no tenant", lines)
        self.assertEqual(lines[lines.index("LINES A SECOND") + 1], "none      2")
        rows = [line.split() for line in lines if line.startswith(("TENANT", "alice", "bob"))]
        self.assertEqual([row[-1] for row in rows], ["REFUSED", "1.20k", "1"])
        self.assertIn("replies/s  ok 0  FULL 0", lines_of(sample(), None, 80))

    def test_memory_and_clients(self):
        text = "\n".join(lines_of(sample(judyd_live_words=1000, judyd_machine_words=2000000, judyd_peak_words=3000000, judyd_connections=7, judyd_connections_accepted_total=4711, judyd_accepts_failed_total=2, judyd_refused_requests_total=3, judyd_refused_names_total=4, judyd_uptime_seconds=3 * 86400 + 4 * 3600 + 5 * 60 + 6), None, 80))
        for wanted in ("up 3 d 04:05:06", "live 8.00kB  machine 16.0MB  peak 24.0MB", "7 now  4.71k accepted  2 failed", "3 requests  4 names"):
            self.assertIn(wanted, text)

    def test_what_is_not_told(self):
        lines = lines_of(sample(), None, 80)
        self.assertEqual([line.split()[0] for line in lines[: lines.index("")]], ["judyd", "a", "replies/s", "memory", "no", "log-ins", "clients", "ended", "turn"])
        older = Numbers().text().split(b"# HELP judyd_lines_total")[0]
        lines = lines_of(Sample(Metrics(older), 0.0), None, 80)
        self.assertEqual([line.split()[0] for line in lines[: lines.index("")]], ["judyd", "a", "memory", "no", "clients", "ended", "turn"])
        self.assertEqual(lines[lines.index("") + 1].split(), ["TENANT", "ENTRIES", "QUOTA", "%", "PIECES", "QUOTA", "%"])
        text = re.sub(rb"(?m)^judyd_(live|machine|peak|arrays|refused|tenant)\w* .*\n", b"", re.sub(rb"(?m)^judyd_tenant.*\n", b"", Numbers().text()))
        lines = lines_of(Sample(Metrics(text), 0.0), None, 80)
        self.assertIn("memory     none is left to tell it", lines)
        self.assertEqual([line.split()[0] for line in lines[: lines.index("")]], ["judyd", "a", "replies/s", "memory", "log-ins", "clients", "ended", "turn"])

    def test_tenants(self):
        tenants = {"a-low": Tenant(1, 100, 1, 200), "full": Tenant(5, 100, 200, 200), "half": Tenant(50, 100, 50, 200), "none": Tenant(0, 0, 0, 0)}
        lines = lines_of(sample(tenants=tenants), None, 80)
        rows = [line.split() for line in lines[lines.index("nothing") + 2 :]]
        self.assertEqual(rows[0], ["TENANT", "ENTRIES", "QUOTA", "%", "PIECES", "QUOTA", "%", "REFUSED"])
        self.assertEqual(rows[1], ["full", "5", "100", "5%", "200", "200", "100%", "0"])
        self.assertEqual([row[0] for row in rows[1:]], ["full", "half", "a-low", "none"])
        narrow = lines_of(sample(tenants=tenants), None, 40)[-4].split()
        self.assertEqual(narrow, ["full", "5", "5%", "200", "100%"])

    def test_any_size(self):
        tenants = {"t%d" % at: Tenant(at, 100, at, 12600) for at in range(63)}
        tenants[LONG] = Tenant(2**24, 2**24, 2113929215, 2113929216)
        calls = {"%s%s" % (kind, call): 10**9 * len(call) for kind in ("J1", "JL", "JSL", "JHS") for call in ("S", "I", "FA", "LE", "BC", "A")}
        full = sample(1.0, calls, tenants, **{metric.name: 2**64 - 1 for metric in METRICS if not metric.label})
        for width in (*range(1, 140), 500):
            for height in (None, 1, 5, 12, 16, 24, 100):
                lines = lines_of(full, None, width, height)
                self.assertEqual([line for line in lines if len(line) > width or "\n" in line], [])
                self.assertLessEqual(len(lines), height or len(lines))
        for width in (39, 40, 80):
            text = "\n".join(lines_of(full, None, width))
            for wanted in ("lines ", "up ", "machine 148EB", "peak 148EB", "turn 0", "JHSFA", "ENTRIES", "16.8M", "100%", "2.11G", "99%", LONG[:10]):
                self.assertIn(wanted, text)
        lines = lines_of(full, None, 80, 24)
        shown = len(lines) - 2 - lines.index(next(line for line in lines if line.startswith("TENANT")))
        self.assertEqual((len(lines), lines[-1]), (24, "and %d more tenants" % (64 - shown)))

    def test_what_is_no_status(self):
        good = Numbers().text()
        for text in (b"", b"\n", b"hello\n", good[:-1], good.replace(b"judyd_live_words ", b"judyd_live_words -"), b"judyd_live_words 0\n", good.replace(b'{tenant="alice"', b"{alice"), b"<html>\n", b"\xff\xfe\n"):
            with self.assertRaises(Error, msg=repr(text[:40])):
                Metrics(text)
        hidden = ("judyd_arrays", "judyd_connections_without_tenant", "judyd_live_words", "judyd_log_lines_dropped_total", "judyd_logins_unknown_total", "judyd_name_bytes")
        shown = [metric.name for metric in METRICS if not metric.label and metric.name not in hidden and not metric.name.startswith("judyd_journal_")]
        self.assertEqual(len(shown), 10)  # those that each server tells
        for name in shown:
            with self.assertRaisesRegex(Error, "the status has no " + name):
                lines_of(Sample(Metrics(re.sub(rb"(?m)^%b .*\n" % name.encode(), b"", good)), 0.0), None, 80)


class WithStatus(JudyTest):
    """Tests of judy over a status socket."""

    def setUp(self):
        self.server = StatusServer()
        self.addCleanup(self.server.end)

    def judy(self, *words):
        """What judy says over the socket."""
        return run_judy(b"", *words, self.server.path)

    def fails(self, status, text, *words):
        """judy ends with a status, and one line that has a text."""
        got, said, wrong = self.judy(*words)
        self.assertEqual((got, said, wrong.count("\n"), wrong[:6]), (status, "", 1, "judy: "), wrong)
        self.assertIn(text, wrong)


class Status(WithStatus):
    """judy status PATH, and judy top --once."""

    def test_the_text(self):
        self.assertEqual(self.judy("status"), (0, self.server.numbers.text().decode(), ""))
        self.assertEqual(self.server.asked, [b"STATUS\n"])

    def test_one_table(self):
        self.server.numbers.labelled["judyd_lines_total"]["J1S"] = 42
        status, said, wrong = self.judy("top", "--once")
        self.assertEqual((status, wrong), (0, ""))
        self.assertEqual(said.splitlines(), lines_of(Sample(Metrics(self.server.numbers.text()), 0.0), None, 80))
        self.assertIn("J1S      42\n", said)
        self.assertEqual(self.server.asked, [b"STATUS\n"])

    def test_faults(self):
        words = (("status",), ("top", "--once"))
        for text, said in ((b"ERR SYNTAX\n", "answers ERR SYNTAX: it is not the socket of --status"), (b"ERR\n", "answers ERR: it is not the socket of --status"), (b"hello\n", "this is no status: hello"), (self.server.numbers.text()[:-1], "the status is cut"), (b"#" * (1 << 21), "more than 1048576 bytes")):
            self.server.fixed = text
            for it in words:
                self.fails(1, said, *it)
        self.server.fixed = b""
        for it in words:
            self.fails(4, "the server closed without an answer", *it)
        self.server.is_silent = True
        for it in words:
            self.fails(4, "no answer for 0.3 s", *it, "--timeout", "0.3")
        self.server.close()
        for it in (*words, ("stop",), ("reload",)):
            self.fails(4, "no server listens there, and one that ended left the socket", *it)
        os.remove(self.server.path)
        for it in words:
            self.fails(4, "no server has made that socket (judyd serve --status %s)" % self.server.path, *it)
        for it in (("stop",), ("reload",)):
            self.fails(4, "no server has made that socket (judyd serve --control %s)" % self.server.path, *it)

    def test_the_socket_of_clients(self):
        for words in (("status",), ("top", "--once"), ("stop",), ("reload",)):
            status, said, wrong = run_judy(b"", *words, self.path())
            self.assertEqual((status, said), (1, ""))
            self.assertIn("answers ERR SYNTAX: it is not the socket of --%s" % ("control" if words[0] in ("stop", "reload") else "status"), wrong)

    def test_command_lines(self):
        for words in (("top",), ("stop",), ("reload",), ("top", "--twice", "x"), ("stop", "x", "y"), ("stop", "--timeout", "-1", "x")):
            self.assertEqual(run_judy(b"", *words)[0], 2, words)


class Reload(WithStatus):
    """judy reload."""

    def test_reload(self):
        self.server.fixed = b"OK\n"
        self.assertEqual(self.judy("reload"), (0, "", ""))
        self.assertEqual(self.server.asked, [b"RELOAD\n"])

    def test_refused(self):
        for answer, said in ((b"ERR fault Digest\n", "the table is not read again: fault Digest"), (b"ERR\n", "answers ERR: it is not the socket of --control"), (b"hello\n", "answers hello: it is not the socket of --control")):
            self.server.fixed = answer
            self.fails(1, said, "reload")

    def test_no_answer(self):
        self.server.fixed = b""
        self.fails(4, "the server closed without an answer", "reload")
        self.server.is_silent = True
        self.fails(4, "no answer for 0.3 s", "reload", "--timeout", "0.3")


class Kick(WithStatus):
    """judy kick."""

    def kick(self, tenant, *words):
        """What judy kick says."""
        return run_judy(b"", "kick", *words, self.server.path, tenant)

    def test_kick(self):
        self.server.fixed = b"OK 3\n"
        self.assertEqual(self.kick("a.b_C-1"), (0, "3\n", ""))
        self.assertEqual(self.server.asked, [b"KICK a.b_C-1\n"])

    def test_refused(self):
        for answer, said in ((b"ERR TENANT\n", "the server has no tenant alice"), (b"OK\n", "answers OK: it is not the socket of --control"), (b"ERR\n", "answers ERR: it is not the socket of --control")):
            self.server.fixed = answer
            status, got, wrong = self.kick("alice")
            self.assertEqual((status, got, said in wrong), (1, "", True), wrong)

    def test_no_name(self):
        for name in ("", "a b", "a\n", "x" * 33):
            status, got, wrong = self.kick(name)
            self.assertEqual((status, got, "no tenant has such a name" in wrong), (1, "", True), wrong)
        self.assertEqual(self.server.asked, [])


class Stop(WithStatus):
    """judy stop."""

    def test_stop(self):
        self.assertEqual(self.judy("stop"), (0, "", ""))
        self.assertEqual((self.server.asked, os.path.exists(self.server.path)), ([b"STOP\n"], False))

    def test_it_waits(self):
        self.server.keeps_socket = True
        judy = start_judy("stop", self.server.path)
        self.wait_until(lambda: self.server.asked == [b"STOP\n"])
        time.sleep(0.3)
        self.assertIsNone(judy.poll())
        os.remove(self.server.path)
        self.assertEqual(judy.wait(timeout=60), 0)

    def test_another_server_takes_the_place(self):
        self.server.keeps_socket = True
        judy = start_judy("stop", self.server.path)
        self.wait_until(lambda: self.server.asked == [b"STOP\n"])
        with socket.socket(socket.AF_UNIX) as other:
            other.bind(self.server.path + ".new")
            os.rename(self.server.path + ".new", self.server.path)
            self.assertEqual(judy.wait(timeout=60), 0)

    def test_a_socket_that_stays(self):
        self.server.keeps_socket = True
        self.fails(1, "was told to stop, and after 0.3 s its socket is still there", "stop", "--timeout", "0.3")
        self.server.is_silent = True
        self.fails(1, "was told to stop, and after 0.3 s its socket is still there", "stop", "--timeout", "0.3")

    def wait_until(self, is_so):
        """Waits until something is so."""
        until = time.monotonic() + 60
        while not is_so():
            self.assertLess(time.monotonic(), until)
            time.sleep(0.01)


class Screens(WithStatus):
    """judy top at a terminal."""

    def shown(self, *words, rows=24, columns=80):
        """A judy top at a terminal of this size, and our end of the terminal."""
        ours, theirs = os.openpty()
        self.addCleanup(os.close, ours)
        self.addCleanup(os.close, theirs)
        fcntl.ioctl(theirs, termios.TIOCSWINSZ, struct.pack("HHHH", rows, columns, 0, 0))
        self.terminal, self.before = theirs, termios.tcgetattr(theirs)
        judy = start_judy("top", *words, self.server.path, stdin=theirs, stdout=theirs, start_new_session=True)
        return judy, ours

    def ends(self, judy, ours, status, text=b""):
        """It ends with a status, and the terminal is as before."""
        said = self.told_until(ours, END.encode())
        wrong = judy.stderr.read()
        self.assertEqual((judy.wait(timeout=60), text in wrong, bool(wrong)), (status, True, bool(text)), wrong)
        self.assertEqual(termios.tcgetattr(self.terminal), self.before)
        self.assertTrue(said.endswith(END.encode()), said)

    def frames(self, ours, count):
        """What is shown, once so many frames have come, and the last of these."""
        said = b""
        while said.count(RENEW.encode()) < count or b"\033[J" not in said.split(RENEW.encode())[count]:
            said += self.told_until(ours, b"")
            said += os.read(ours, 65536)
        return said, said.split(RENEW.encode())[count].split(b"\033[J")[0].replace(b"\033[K", b"").decode().split("\r\n")

    def test_it_renews_itself(self):
        self.server.step = {"J1S": 1000}
        judy, ours = self.shown()
        said, frame = self.frames(ours, 2)
        self.assertTrue(said.startswith(BEGIN.encode()), said[:40])
        self.assertFalse(termios.tcgetattr(self.terminal)[3] & (termios.ECHO | termios.ICANON))
        rate = re.search("J1S +([0-9.]+k?)", "\n".join(frame))[1]
        self.assertTrue(500 <= (float(rate[:-1]) * 1000 if rate.endswith("k") else float(rate)) <= 1010, rate)
        self.assertIn("rates of now", frame[0])
        os.write(ours, b"q")
        self.ends(judy, ours, 0)
        self.assertEqual(set(self.server.asked), {b"STATUS\n"})

    def test_a_small_terminal(self):
        self.server.numbers.tenants = {"t%d" % at: Tenant(at, 100, at, 12600) for at in range(64)}
        judy, ours = self.shown(rows=20, columns=40)
        frame = self.frames(ours, 1)[1]
        self.assertEqual((len(frame), [line for line in frame if len(line) > 39]), (20, []))
        self.assertRegex(frame[-1], r"\Aand \d+ more tenants\Z")
        fcntl.ioctl(self.terminal, termios.TIOCSWINSZ, struct.pack("HHHH", 100, 120, 0, 0))
        wide = self.frames(ours, 2)[1]
        self.assertEqual(sum(line.startswith("t") for line in wide), 64)
        os.write(ours, b"Q")
        self.ends(judy, ours, 0)

    def test_each_end(self):
        for number, status in ((signal.SIGINT, 0), (signal.SIGTERM, 143), (signal.SIGHUP, 129)):
            judy, ours = self.shown()
            self.frames(ours, 1)
            judy.send_signal(number)
            self.ends(judy, ours, status)

    def test_a_server_that_goes(self):
        judy, ours = self.shown()
        self.frames(ours, 1)
        self.server.close()
        self.ends(judy, ours, 4, b"judy: the server has ended: no server listens there")
        os.remove(self.server.path)
        judy, ours = self.shown()
        self.ends(judy, ours, 4, b"judy: no server has made that socket")

    def test_a_server_that_is_silent(self):
        self.server.is_silent = True
        judy, ours = self.shown("--timeout", "60")
        self.told_until(ours, BEGIN.encode())
        os.write(ours, b"q")
        self.ends(judy, ours, 0)
        judy, ours = self.shown("--timeout", "0.3")
        self.ends(judy, ours, 4, b"no answer for 0.3 s")

    def test_no_terminal(self):
        self.fails(1, "judy top needs a terminal; judy top --once", "top")
        self.assertEqual(self.server.asked, [])


if __name__ == "__main__":
    unittest.main()
