"""A server of a status text, for tests: what `judyd serve --status PATH` tells, with numbers of their own."""

import os
import socket
import tempfile
import threading
from contextlib import suppress
from typing import Dict, List, NamedTuple, Optional, Tuple

from judyd import wording

CAUSES = ("quit", "end", "fault", "login", "idle", "turn", "memory", "gone", "kick")
CALLS = ("AUTH", "QUIT", "USED", *sorted(wording.CALLS), "PING", "HELLO", "NAMES", "none")
KINDS = {b"FULL": "full", b"ERR MEMORY": "memory", b"ERR AUTH": "auth", b"ERR READONLY": "readonly", b"ERR SYNTAX": "syntax", b"ERR LONG": "long", b"ERR CLIENTS": "clients", b"ERR FROZEN": "frozen", b"ERR JOURNAL": "journal"}


class Metric(NamedTuple):
    """A metric: its name, its type, its label, and what it tells."""

    name: str
    type: str
    label: str
    help: str


METRICS = [
    Metric("judyd_connections", "gauge", "", "Connections now."),
    Metric("judyd_connections_accepted_total", "counter", "", "Connections that were accepted."),
    Metric("judyd_connections_ended_total", "counter", "cause", "Connections that ended, by cause."),
    Metric("judyd_accepts_failed_total", "counter", "", "Connections that could not be accepted."),
    Metric("judyd_bytes_received_total", "counter", "", "Bytes that came from clients."),
    Metric("judyd_bytes_sent_total", "counter", "", "Bytes that went to clients."),
    Metric("judyd_log_lines_dropped_total", "counter", "", "Lines that standard error did not take."),
    Metric("judyd_uptime_seconds", "gauge", "", "Seconds since the start."),
    Metric("judyd_journal_segment", "gauge", "", "The segment of the journal that is written."),
    Metric("judyd_journal_bytes_total", "counter", "", "Bytes that were appended to the journal."),
    Metric("judyd_journal_unsynced_bytes", "gauge", "", "Bytes of the journal that are not synced yet."),
    Metric("judyd_journal_syncs_total", "counter", "", "Syncs of the journal."),
    Metric("judyd_journal_refusing", "gauge", "", "Whether changing lines are refused: there is no room for the next segment."),
    Metric("judyd_journal_tenant_bytes", "gauge", "tenant", "Bytes of the tenant's records since the last snapshot."),
    Metric("judyd_live_words", "gauge", "", "Words in the blocks of all arrays."),
    Metric("judyd_machine_words", "gauge", "", "Words taken from the machine."),
    Metric("judyd_peak_words", "gauge", "", "The most live words at once so far."),
    Metric("judyd_arrays", "gauge", "", "Arrays of all tenants."),
    Metric("judyd_name_bytes", "gauge", "", "Bytes of the names of all arrays."),
    Metric("judyd_refused_requests_total", "counter", "", "Requests for a block that were refused."),
    Metric("judyd_refused_names_total", "counter", "", "New names that there was no memory for."),
    Metric("judyd_tenant_entries", "gauge", "tenant", "Entries of a tenant."),
    Metric("judyd_tenant_quota_entries", "gauge", "tenant", "The most entries of a tenant."),
    Metric("judyd_tenant_pieces", "gauge", "tenant", "Pieces of a tenant."),
    Metric("judyd_tenant_quota_pieces", "gauge", "tenant", "The most pieces of a tenant."),
    Metric("judyd_tenant_connections", "gauge", "tenant", "Connections on which a tenant is logged in."),
    Metric("judyd_connections_without_tenant", "gauge", "", "Connections on which nobody is logged in."),
    Metric("judyd_lines_total", "counter", "call", "Lines by what they ask for."),
    Metric("judyd_replies_total", "counter", "kind", "Replies by kind."),
    Metric("judyd_logins_refused_total", "counter", "tenant", "Refused log-ins by tenant."),
    Metric("judyd_tenant_lines_total", "counter", "tenant", "Lines by tenant."),
    Metric("judyd_tenant_full_total", "counter", "tenant", "FULL replies by tenant."),
    Metric("judyd_logins_unknown_total", "counter", "", "Log-ins with a name that no tenant has."),
    Metric("judyd_build_info", "gauge", "version", "The version of the program."),
]
TENANTS = ("judyd_tenant_entries", "judyd_tenant_quota_entries", "judyd_tenant_pieces", "judyd_tenant_quota_pieces")


class Tenant(NamedTuple):
    """A tenant's entries and pieces, each with its quota."""

    entries: int
    quota: int
    pieces: int
    most: int


class Numbers:
    """The numbers of a status."""

    def __init__(self, tenants: Optional[Dict[str, Tenant]] = None) -> None:
        self.tenants = tenants or {"alice": Tenant(2, 1000, 2, 126000)}
        self.plain = {metric.name: 0 for metric in METRICS if not metric.label}
        self.plain.update({"judyd_live_words": 4, "judyd_machine_words": 512, "judyd_peak_words": 512, "judyd_arrays": 1, "judyd_name_bytes": 3, "judyd_uptime_seconds": 1})
        self.labelled: Dict[str, Dict[str, int]] = {
            "judyd_connections_ended_total": dict.fromkeys(CAUSES, 0),
            "judyd_journal_tenant_bytes": {},
            "judyd_tenant_connections": dict.fromkeys(self.tenants, 0),
            "judyd_lines_total": dict.fromkeys(CALLS, 0),
            "judyd_replies_total": dict.fromkeys(("ok", *KINDS.values()), 0),
            "judyd_logins_refused_total": dict.fromkeys(self.tenants, 0),
            "judyd_tenant_lines_total": dict.fromkeys(self.tenants, 0),
            "judyd_tenant_full_total": dict.fromkeys(self.tenants, 0),
            "judyd_build_info": {"1.0.0": 1},
        }

    def text(self) -> bytes:
        """The status text."""
        lines: List[str] = []
        for metric in METRICS:
            lines += ["# HELP %s %s" % (metric.name, metric.help), "# TYPE %s %s" % (metric.name, metric.type)]
            for label, number in self._numbers(metric):
                lines.append("%s%s %d" % (metric.name, '{%s="%s"}' % (metric.label, label) if metric.label else "", number))
        return ("\n".join(lines) + "\n").encode()

    def _numbers(self, metric: Metric) -> List[Tuple[str, int]]:
        if not metric.label:
            return [("", self.plain[metric.name])]
        if metric.name not in TENANTS:
            return list(self.labelled[metric.name].items())
        return [(name, tenant[TENANTS.index(metric.name)]) for name, tenant in sorted(self.tenants.items())]


class StatusServer:
    """A server on a status socket in a folder of its own. `asked` has the request lines that came."""

    def __init__(self, numbers: Optional[Numbers] = None) -> None:
        self.numbers = numbers or Numbers()
        self.asked: List[bytes] = []
        self.fixed: Optional[bytes] = None  # what it answers, if not the text
        self.step: Dict[str, int] = {}  # how much the lines of a call rise with each answer
        self.is_silent, self.keeps_socket = False, False
        self._folder = tempfile.TemporaryDirectory(prefix="judyd-status-")
        self.path = os.path.join(self._folder.name, "status")
        self._listener = socket.socket(socket.AF_UNIX)
        self._listener.bind(self.path)
        self._listener.listen(64)
        self._ends = threading.Event()
        self._thread = threading.Thread(target=self._serve)
        self._thread.start()

    def end(self) -> None:
        """Ends the server. Its folder is removed."""
        self.close()
        self._thread.join()
        self._folder.cleanup()

    def close(self) -> None:
        """Closes the listener. Its path stays."""
        self._ends.set()
        with suppress(OSError):
            self._listener.shutdown(socket.SHUT_RDWR)
        self._listener.close()

    def _serve(self) -> None:
        while True:
            try:
                client, _ = self._listener.accept()
            except OSError:
                return
            with client, suppress(OSError):
                client.settimeout(60)
                with client.makefile("rb") as lines:
                    line = lines.readline()
                    while line.startswith(b"GET ") and lines.readline().strip():
                        pass  # the head of a request
                    self._answer(client, line)

    def _answer(self, client: socket.socket, line: bytes) -> None:
        """Answers a request line."""
        self.asked.append(line)
        if self.is_silent:
            self._ends.wait(60)
            return
        if line == b"STOP\n":
            if not self.keeps_socket:
                os.remove(self.path)
            return
        text = self.numbers.text() if self.fixed is None else self.fixed
        if line.startswith(b"GET "):
            text = b"HTTP/1.0 200 OK\r\nContent-Type: text/plain; version=0.0.4\r\nConnection: close\r\nContent-Length: %d\r\n\r\n%b" % (len(text), text)
        client.sendall(text)
        for call, number in self.step.items():
            self.numbers.labelled["judyd_lines_total"][call] += number
