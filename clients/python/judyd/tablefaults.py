"""The faults of a table of tenants, each with its line, its tenant and what is right, and what is odd in a
table that judyd accepts. judyd alone decides what a fault is: `judyd serve --check` is asked about the
table, about its parts, and about single keys in a table of their own."""

import json
import os
import re
import shutil
import subprocess
import sys
import tempfile
from typing import Dict, Iterator, List, NamedTuple, Optional, Sequence, Tuple

PARTS = 200
"""The most parts of a faulty table that are tried to find the lines of its faults."""

_MEANS = {
    "Long": "the table has more than 65,536 bytes",
    "Toml": "this is not TOML",
    "Shape": 'sha256 = "..." and quota = 1000 must be there, pieces = 1000, journal = 1000000, read_sha256, old_sha256 and old_read_sha256 may be, and no other key',
    "Count": "a table has 1 to 64 tenants",
    "Name": "the name of a tenant must be 1 to 32 of A-Z a-z 0-9 _ - .",
    "Digest": "a digest must be the SHA-256 of a token, 64 hexadecimal digits in quotes: judy digest prints its line",
    "Quota": "quota must be a whole number from 0 to 16777216",
    "Journal": "journal must be a whole number from 1 to 9223372036854775807",
    "Pieces": "pieces must be a whole number from 0 to 2113929216",
}
_DIGEST_MEANS = "%s must be the SHA-256 of a token, 64 hexadecimal digits in quotes: judy digest prints its line"
_DIGESTS = ("sha256", "read_sha256", "old_sha256", "old_read_sha256")
_KEYS = {"quota": _MEANS["Quota"], "pieces": _MEANS["Pieces"], "journal": _MEANS["Journal"], **{key: _DIGEST_MEANS % key for key in _DIGESTS}}
_GOOD = {"sha256": 'sha256 = "%s"\n' % ("0" * 64), "quota": "quota = 1\n"}
_ADD = {"sha256": "add the line that judy digest prints", "quota": "add quota = N, a whole number from 0 to 16777216"}

HEADER = re.compile(r"^[ \t]*\[", re.MULTILINE)
_PART = r"(?:\"(?:[^\"\\\n]|\\.)*\"|'[^'\n]*'|[A-Za-z0-9_-]+)"
_PATH = r"%s(?:[ \t]*\.[ \t]*%s)*" % (_PART, _PART)
_HEADING = re.compile(r"[ \t]*(\[\[?)[ \t]*(%s)[ \t]*\]" % _PATH)
_STATEMENT = re.compile(r"[ \t]*(%s)[ \t]*=[ \t]*(.*)" % _PATH)
_INNER = re.compile(r"(%s)[ \t]*=[ \t]*(\"[^\"]*\"|'[^']*'|[^,}\s]+)" % _PATH)
_DIGEST = re.compile(r"[\"']([0-9A-Fa-f]{64})[\"']")
_NUMBER = re.compile(r"[0-9A-Za-z_+-]+")


class Fault(NamedTuple):
    """A fault, or what is odd: judyd's word, or nothing for what is only odd; the line, or 0; the tenant,
    or nothing; and what is right."""

    word: str
    line: int
    tenant: str
    why: str

    def __str__(self) -> str:
        places = ["line %d" % self.line] * (self.line > 0) + ["tenant %s" % shown(self.tenant)] * bool(self.tenant)
        place = ", ".join(places) + ": " if places else ""
        return "%s%s (%s)" % (place, self.why, self.word) if self.word else "%swarning: %s" % (place, self.why)


class _Statement(NamedTuple):
    """A key of a tenant with its value: the line, the key as it is read and as it is written."""

    line: int
    key: str
    written: str
    value: str


class _Tenant(NamedTuple):
    """A tenant in a text: its first line, its name as it is written, and its statements."""

    line: int
    written: str
    statements: List[_Statement]


def shown(name: str) -> str:
    """A name as a line shows it."""
    return name if re.match(r"[A-Za-z0-9_.-]+\Z", name) else json.dumps(name)


# What judyd says.


def program() -> str:
    """The path of judyd: the environment's JUDYD, beside this program, or on the PATH."""
    here, real = os.path.dirname(os.path.abspath(sys.argv[0])), os.path.dirname(os.path.realpath(sys.argv[0]))
    given = os.environ.get("JUDYD", "")
    for path in (given, os.path.join(here, "judyd"), os.path.join(real, "..", "..", "bin", "judyd")):
        if os.path.isfile(path) and os.access(path, os.X_OK):
            return path
        if path and path == given:
            raise ValueError("the environment's JUDYD is no program: %s" % given)
    found = shutil.which("judyd")
    if found is None:
        raise ValueError("judyd is not on the PATH: put its path into the environment's JUDYD")
    return found


def judged(data: bytes) -> str:
    """judyd's word for the first fault of a table, or nothing."""
    with tempfile.NamedTemporaryFile(prefix="judy-table-") as file:
        file.write(data)
        file.flush()
        words = [program(), "serve", "--config", file.name, "--socket", file.name + ".socket", "--check"]
        ran = subprocess.run(words, stdin=subprocess.DEVNULL, stdout=subprocess.PIPE, stderr=subprocess.PIPE, check=False)
    said = ran.stderr.decode("utf-8", "replace").strip()
    if ran.returncode == 0:
        return ""
    if ran.returncode != 3 or not said.startswith("judyd: table: "):
        raise ValueError("judyd can't read the table: %s" % said)
    return said[len("judyd: table: ") :].partition(":")[0]


def _judged(text: str) -> str:
    return judged(text.encode("utf-8", "surrogateescape"))


# The faults.


def faults_in(data: bytes) -> List[Fault]:
    """The faults of a table that can be found, in the order of lines. The first fault that judyd has
    for the whole table is among them. A valid table has none."""
    word = judged(data)
    if not word:
        return []
    faults: List[Fault] = []
    if word not in ("Long", "Count"):
        text = data.decode("utf-8", "surrogateescape")
        parts = _parts(text)
        for first, part in parts:
            faults += [fault._replace(line=fault.line + first) for fault in _faults_of_part(first, part, word == "Toml")]
        if word == "Toml" and not any(fault.word == "Toml" for fault in faults):
            clashes = _clashes(parts)
            faults = [fault for fault in faults if fault.line not in [clash.line for clash in clashes]] + clashes
    faults.sort(key=lambda fault: fault.line)
    return faults if any(fault.word == word for fault in faults) else [Fault(word, 0, "", _MEANS.get(word, "a fault")), *faults]


def _parts(text: str) -> List[Tuple[int, str]]:
    """What stands above the first heading, and each heading with its lines: the number of lines before it,
    and its text."""
    starts = sorted({0, *(found.start() for found in HEADER.finditer(text))})[:PARTS]
    return [(text.count("\n", 0, start), text[start:end]) for start, end in zip(starts, [*starts[1:], len(text)])]


def _faults_of_part(first: int, part: str, is_no_toml: bool) -> List[Fault]:
    """The faults of one part by itself, with their lines within it; `first` lines come before it. A part
    that is not TOML is a fault only if the table is not TOML."""
    word = _judged(part)
    if word in ("", "Count") or (word == "Toml" and not is_no_toml):
        return []
    heading = _HEADING.match(part)
    tenant = _names(heading[2])[0] if heading else ""
    if word == "Toml":
        return [_no_toml(first, part, tenant)]
    if heading and heading[1] == "[[":
        return [Fault(word, 1, tenant, "[[%s]] is a list of tables: write [%s]" % (heading[2], heading[2]))]
    if heading and len(_names(heading[2])) > 1:
        name = ".".join(_names(heading[2]))
        return [Fault(word, 1, tenant, '[%s] is a table within the table %s: the tenant %s is written ["%s"]' % (heading[2], shown(tenant), name, name))]
    faults = [fault for name, it in _tenants_in(part).items() for fault in _faults_of_tenant(name, it)]
    return faults if any(fault.word == word for fault in faults) else [Fault(word, 1, tenant, _MEANS.get(word, "a fault")), *faults]


def _no_toml(first: int, part: str, tenant: str) -> Fault:
    """The fault of a part that is not TOML. It is in the line after the last front of whole lines that
    is TOML."""
    lines = part.splitlines(keepends=True)
    fronts = range(1, min(len(lines), PARTS))
    line = max([count for count in fronts if _judged("".join(lines[:count])) != "Toml"], default=0) + 1
    statement = _STATEMENT.match(lines[line - 1])
    for number, before in enumerate(lines[: line - 1], 1):
        other = _STATEMENT.match(before)
        if statement and other and _names(statement[1]) == _names(other[1]):
            return Fault("Toml", line, tenant, "%s stands twice: line %d has it already" % (statement[1], first + number))
    return Fault("Toml", line, tenant, _MEANS["Toml"])


def _faults_of_tenant(name: str, tenant: _Tenant) -> Iterator[Fault]:
    """The faults of a tenant: of its name, and of each of its keys by itself."""
    if _judged("[%s]\n%s" % (tenant.written, "".join(_GOOD.values()))) == "Name":
        yield Fault("Name", tenant.line, name, _MEANS["Name"])
    for statement in tenant.statements:
        if not statement.key:
            yield Fault("Shape", tenant.line, "", "%s stands above the first heading: a tenant's keys stand below its name, [NAME]" % tenant.written)
            return
        others = [line for key, line in _GOOD.items() if key != statement.key]
        word = _judged("[t]\n%s%s = %s\n" % ("".join(others), statement.written, statement.value))
        if word not in ("", "Toml"):
            known = "the keys are sha256, quota, pieces, journal, read_sha256, old_sha256 and old_read_sha256"
            unknown = "the key %s is unknown: %s" % (shown(statement.key), known)
            yield Fault(word, statement.line, name, _KEYS.get(statement.key, unknown))
    for key in _GOOD:
        if key not in [statement.key for statement in tenant.statements]:
            yield Fault("Shape", tenant.line, name, "%s is missing: %s" % (key, _ADD[key]))


def _clashes(parts: Sequence[Tuple[int, str]]) -> List[Fault]:
    """The first heading that cannot stand with what is above it, where each part by itself is TOML."""
    low, high = 0, len(parts)
    while low < high:
        middle = (low + high) // 2
        if _judged("".join(part for _, part in parts[: middle + 1])) == "Toml":
            high = middle
        else:
            low = middle + 1
    if low == len(parts):
        return []
    first, part = parts[low]
    heading = _HEADING.match(part)
    tenant = _names(heading[2])[0] if heading else ""
    for before, other in parts[:low]:
        if _judged(other + part) == "Toml":
            same = _tenants_in(other).get(tenant)
            line = before + (same.line if same else 1)
            return [Fault("Toml", first + 1, tenant, "the tenant stands twice: it begins in line %d already" % line)]
    return [Fault("Toml", first + 1, tenant, _MEANS["Toml"])]


# Names and keys as a text has them.


def _names(path: str) -> List[str]:
    """The names of a path, as TOML reads them."""
    return [_name(part) for part in re.findall(_PART, path)]


def _name(part: str) -> str:
    if part[0] == "'":
        return part[1:-1]
    if part[0] != '"':
        return part
    try:
        return str(json.loads(part))
    except ValueError:
        return part[1:-1]


def _tenants_in(text: str) -> Dict[str, _Tenant]:
    """The tenants of a text, by their names, with the keys that stand on one line each."""
    tenants: Dict[str, _Tenant] = {}
    above: Optional[str] = None
    for line, read in enumerate(text.split("\n"), 1):
        heading, statement = _HEADING.match(read), _STATEMENT.match(read)
        if heading:
            first: str = re.findall(_PART, heading[2])[0]
            above = first
            tenants.setdefault(_name(first), _Tenant(line, first, []))
        elif statement:
            path = ([] if above is None else [above]) + re.findall(_PART, statement[1])
            tenant = tenants.setdefault(_name(path[0]), _Tenant(line, path[0], []))
            tenant.statements.extend(_statements_of(line, path[1:], statement[2]))
    return tenants


def _statements_of(line: int, path: List[str], value: str) -> List[_Statement]:
    """The keys that a statement gives to a tenant: those of an inline table, or the one that it names. One
    without a name is not a table."""
    if path:
        return [_Statement(line, _name(path[0]), ".".join(path), value)]
    if value.startswith("{"):
        return [_Statement(line, _names(inner[1])[0], inner[1], inner[2]) for inner in _INNER.finditer(value)]
    return [_Statement(line, "", "", value)]


def line_of(text: str, tenant: str) -> int:
    """The line in which a tenant begins, or 0 if the table does not have the tenant."""
    found = _tenants_in(text).get(tenant)
    return found.line if found else 0


# What is odd.


class _Token(NamedTuple):
    """A token's digest, with the tenant, the key and the line that have it."""

    digest: str
    tenant: str
    key: str
    line: int


def warnings_in(data: bytes) -> List[Fault]:
    """What is odd in a table that judyd accepts, in the order of lines: fewer pieces than entries, and
    equal digests."""
    tenants = _tenants_in(data.decode("utf-8", "surrogateescape"))
    short = [fault for name, tenant in tenants.items() for fault in _short_pieces(name, tenant)]
    return sorted([*short, *_equal_digests(tenants)], key=lambda fault: fault.line)


def _short_pieces(name: str, tenant: _Tenant) -> Iterator[Fault]:
    """That a tenant has fewer pieces than entries."""
    values = {it.key: it for it in tenant.statements}
    pieces, quota = _number_at(values.get("pieces")), _number_at(values.get("quota"))
    if pieces is not None and quota is not None and 0 <= pieces < quota:
        why = "%d pieces are less than the quota of %d entries needs: an entry takes 1 to 126, so FULL comes before" % (pieces, quota)
        yield Fault("", values["pieces"].line, name, why)


def _equal_digests(tenants: Dict[str, _Tenant]) -> Iterator[Fault]:
    """The tokens whose digest a token above has, of the same tenant if it is one."""
    tokens: List[_Token] = []
    for name, tenant in tenants.items():
        for key in _DIGESTS:
            for it in tenant.statements:
                digest = _DIGEST.match(it.value)
                if it.key == key and digest:
                    tokens.append(_Token(digest[1].lower(), name, key, it.line))
    for at, token in enumerate(tokens):
        same = [other for other in tokens[:at] if other.digest == token.digest]
        for other in sorted(same, key=lambda it: it.tenant != token.tenant)[:1]:
            why = "%s equals %s of %s in line %d: %s" % (token.key, other.key, shown(other.tenant), other.line, _meant(token, other))
            yield Fault("", token.line, token.tenant, why)


def _meant(token: _Token, other: _Token) -> str:
    """What two equal digests mean."""
    if token.tenant != other.tenant:
        return "one token opens both tenants"
    looks = ["read" in it.key for it in (token, other)]
    return "the old token is still the token" if looks[0] == looks[1] else "the read-only token may change too"


def _number_at(statement: Optional[_Statement]) -> Optional[int]:
    """The number of a key, or None."""
    found = _NUMBER.match(statement.value) if statement else None
    try:
        return int(found[0], 0) if found else None
    except ValueError:
        return None
