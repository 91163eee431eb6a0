"""`judy top`: what a server does, as lines of text, from one of its status texts or from two."""

import math
from typing import Dict, List, NamedTuple, Optional, Tuple

from .metrics import Metrics

LEFT = 11
"""The columns of the words at the left."""

CALL_ROWS = 3
"""How many rows of lines a second a screen has, so that tenants have room too."""


class Sample(NamedTuple):
    """A status, and when it came, in seconds."""

    metrics: Metrics
    at: float


def lines_of(now: Sample, before: Optional[Sample], width: int, height: Optional[int] = None) -> List[str]:
    """The lines of a screen of this many columns and rows. The rates are those since the sample before; without
    one, or if the server has restarted since, they are those since its start."""
    if before is not None and _uptime(before) > _uptime(now):
        before = None
    lines = _server(now, before, width)
    if now.metrics.all("judyd_lines_total"):
        lines += ["", "LINES A SECOND", *_calls(now, before, width, None if height is None else CALL_ROWS)]
    room = None if height is None else max(height - len(lines) - 2, 0)
    lines += ["", *_tenants(now.metrics, width, room)]
    return [line[:width].rstrip() for line in lines[:height]]


def short(number: float) -> str:
    """A number in at most five characters: 999, 1.23k, 45.6M."""
    unit = ""
    for unit in ("", "k", "M", "G", "T", "P", "E"):
        if number < 999.5 or unit == "E":
            break
        number /= 1000
    if not unit and number == math.floor(number):
        return "%d" % number
    return "%.*f%s" % (2 if number < 9.995 else 1 if number < 99.95 else 0, number, unit)


def percent(used: int, quota: int) -> str:
    """A share in whole percent. 100 comes only if no room is left, or nothing may be there."""
    return "%d%%" % (used * 100 // quota) if quota else "100%"


def _uptime(sample: Sample) -> int:
    return sample.metrics.one("judyd_uptime_seconds")


def _rates(now: Sample, before: Optional[Sample], name: str) -> Dict[str, float]:
    """How much the numbers of a counter rose in a second."""
    seconds = max(_uptime(now), 1) if before is None else max(now.at - before.at, 0.001)
    old = {} if before is None else before.metrics.all(name)
    return {label: max(number - old.get(label, 0), 0) / seconds for label, number in now.metrics.all(name).items()}


def _rate(now: Sample, before: Optional[Sample], name: str) -> float:
    """How much a counter without a label rose in a second."""
    now.metrics.one(name)
    return _rates(now, before, name)[""]


def _row(word: str, items: List[str], width: int) -> List[str]:
    """Items beside a word, in as many lines as they need."""
    lines = ["%-*s%s" % (LEFT, word, items[0])]
    for item in items[1:]:
        if len(lines[-1]) + 2 + len(item) <= width:
            lines[-1] += "  " + item
        else:
            lines.append(" " * LEFT + item)
    return lines


def _server(now: Sample, before: Optional[Sample], width: int) -> List[str]:
    """What the whole server does."""
    of = now.metrics.one
    up = _uptime(now)
    clock = "%s%02d:%02d:%02d" % ("%d d " % (up // 86400) if up >= 86400 else "", up // 3600 % 24, up // 60 % 60, up % 60)
    traffic = ["%s %sB" % (word, short(_rate(now, before, "judyd_bytes_%s_total" % name))) for word, name in (("in", "received"), ("out", "sent"))]
    if now.metrics.all("judyd_lines_total"):
        traffic.append("lines %s" % short(sum(_rates(now, before, "judyd_lines_total").values())))
    memory, refused = ["none is left to tell it"], []
    if now.metrics.all("judyd_live_words"):
        memory = ["%s %sB" % (word, short(8 * of("judyd_%s_words" % word))) for word in ("live", "machine", "peak")]
        refused = ["%s %s" % (short(of("judyd_refused_%s_total" % word)), word) for word in ("requests", "names")]
    clients = ["%d now" % of("judyd_connections"), "%s accepted" % short(of("judyd_connections_accepted_total"))]
    clients.append("%s failed" % short(of("judyd_accepts_failed_total")))
    log_ins = []
    if now.metrics.all("judyd_logins_unknown_total"):
        wrong = sum(now.metrics.all("judyd_logins_refused_total").values())
        log_ins = ["%s refused" % short(wrong), "%s as no tenant" % short(of("judyd_logins_unknown_total"))]
    ended = ["%s %s" % (cause, short(number)) for cause, number in sorted(now.metrics.all("judyd_connections_ended_total").items())]
    rows: List[Tuple[str, List[str]]] = [
        ("judyd", ["up %s" % clock, "means since its start" if before is None else "rates of now"]),
        ("a second", traffic), ("replies/s", _replies(now, before)), ("memory", memory), ("no memory", refused), ("log-ins", log_ins), ("clients", clients), ("ended", ended),
    ]  # fmt: skip
    return [line for word, items in rows if items for line in _row(word, items, width)]


def _replies(now: Sample, before: Optional[Sample]) -> List[str]:
    """The replies by kind: those of calls that were made, `FULL`, and each error that has come so far."""
    totals, rates = now.metrics.all("judyd_replies_total"), _rates(now, before, "judyd_replies_total")
    shown = {"ok": "ok", "full": "FULL", **{kind: "ERR " + kind.upper() for kind in totals if kind not in ("ok", "full") and totals[kind]}}
    return ["%s %s" % (word, short(rates[kind])) for kind, word in shown.items() if kind in rates]


def _calls(now: Sample, before: Optional[Sample], width: int, rows: Optional[int]) -> List[str]:
    """What the lines ask for, the most frequent calls first; `none` is not a request."""
    rates = [(rate, call) for call, rate in _rates(now, before, "judyd_lines_total").items() if rate > 0]
    items = ["%-5s %5s" % (call, short(rate)) for rate, call in sorted(rates, key=lambda it: (-it[0], it[1]))]
    count = max((width + 2) // 13, 1)
    lines = ["  ".join(items[at : at + count]) for at in range(0, len(items), count)]
    return lines[:rows] or ["nothing"]


def _tenants(metrics: Metrics, width: int, room: Optional[int]) -> List[str]:
    """The tenants, the fullest ones first, and how many log-ins of each were refused."""
    used, quotas = metrics.all("judyd_tenant_entries"), metrics.all("judyd_tenant_quota_entries")
    pieces, most = metrics.all("judyd_tenant_pieces"), metrics.all("judyd_tenant_quota_pieces")
    refused = metrics.all("judyd_logins_refused_total")
    rows = []
    for name in used.keys() & quotas.keys() & pieces.keys() & most.keys():
        pairs = ((used[name], quotas[name]), (pieces[name], most[name]))
        fullest = max(count / quota if quota else 0.0 for count, quota in pairs)
        words = [word for count, quota in pairs for word in (short(count), short(quota), percent(count, quota))]
        rows.append((-fullest, name, words + [short(refused[name]) if name in refused else ""]))
    is_wide = width >= 66
    left = min(32, width - (46 if is_wide else 26))
    lines = [_tenant("TENANT", ["ENTRIES", "QUOTA", "%", "PIECES", "QUOTA", "%", "REFUSED" if refused else ""], left, is_wide)]
    lines += [_tenant(name, words, left, is_wide) for _, name, words in sorted(rows)]
    if room is not None and len(lines) > room + 1:
        lines[room:] = ["and %d more tenants" % (len(lines) - room)]
    return lines


def _tenant(name: str, words: List[str], left: int, is_wide: bool) -> str:
    """A row of the tenants. A narrow one leaves out the quotas and the log-ins."""
    shown = name if len(name) <= left else name[: left - 1] + "~"
    columns = list(zip(words, (7, 5, 4, 7, 5, 4, 7)))
    return " ".join([shown.ljust(left), *(word.rjust(size) for at, (word, size) in enumerate(columns) if is_wide or at in (0, 2, 3, 5))])
