"""Changes of a table of tenants: the lines of a tenant are changed as text. A changed table takes the
place of the old one only if judyd finds no fault in it."""

import hashlib
import re
from typing import Dict, Optional, Tuple

from .dumpfile import replaced, write_all
from .fields import name_field, token_field
from .tablefaults import HEADER, faults_in, judged, line_of

OLD = {"sha256": "old_sha256", "read_sha256": "old_read_sha256"}
"""The key of the old token, by that of the token."""

_LINE = r"(?m)^([ \t]*[\"']?%s[\"']?[ \t]*=[ \t]*)"


def _section(text: str, tenant: str) -> Tuple[int, int]:
    """The place of a tenant's lines below its header, up to the last that has a key."""
    bare = "" if "." in tenant else "%s|" % re.escape(tenant)
    header = r"^[ \t]*\[[ \t]*(?:%s\"%s\"|'%s')[ \t]*\][ \t]*(?:#.*)?(?:\r?\n|\Z)" % (bare, re.escape(tenant), re.escape(tenant))
    found = re.search(header, text, re.MULTILINE)
    if not found:
        raise ValueError("no [%s] in the table" % tenant)
    after = HEADER.search(text, found.end())
    lines = text[found.end() : after.start() if after else len(text)].splitlines(keepends=True)
    while lines and (not lines[-1].strip() or lines[-1].lstrip().startswith("#")):
        lines.pop()
    return found.start(), found.end() + sum(map(len, lines))


def with_keys(text: str, tenant: str, keys: Dict[str, str]) -> str:
    """The table with other values for keys of a tenant."""
    start, end = _section(text, tenant)
    section = text[start:end]
    for key, value in keys.items():
        section, count = re.subn((_LINE % key) + r"[^#\s]+", r"\g<1>%s" % value, section)
        if count == 0:
            section = "%s%s%s = %s\n" % (section, "" if section.endswith("\n") else "\n", key, value)
    return text[:start] + section + text[end:]


def _without_key(text: str, tenant: str, key: str) -> str:
    """The table without the line of a tenant's key."""
    start, end = _section(text, tenant)
    return text[:start] + re.sub((_LINE % key) + r".*(?:\n|\Z)", "", text[start:end]) + text[end:]


def _value(text: str, tenant: str, key: str) -> Optional[str]:
    """The value of a tenant's key as the table has it, or None."""
    start, end = _section(text, tenant)
    found = re.search((_LINE % key) + r"([^#\s]+)", text[start:end])
    return found[2] if found else None


def with_digests(text: str, tenant: str, digests: Dict[str, str], keeps: bool) -> str:
    """The table with the digests of other tokens of a tenant, by their keys. The replaced tokens become its
    old tokens if they are kept; otherwise they and the old ones are removed."""
    for key, digest in digests.items():
        before = _value(text, tenant, key) if keeps else None
        if not keeps:
            text = _without_key(text, tenant, OLD[key])
        text = with_keys(text, tenant, {key: digest} if before is None else {key: digest, OLD[key]: before})
    return text


def without_old(text: str, tenant: str) -> str:
    """The table without the old tokens of a tenant."""
    if all(_value(text, tenant, key) is None for key in OLD.values()):
        raise ValueError("%s has no old token" % tenant)
    for key in OLD.values():
        text = _without_key(text, tenant, key)
    return text


def without(text: str, tenant: str) -> str:
    """The table without a tenant, and with at most one blank line where it was."""
    start, end = _section(text, tenant)
    before = re.sub(r"(?m)(?:^[ \t]*\r?\n)+\Z", "", text[:start])
    after = re.sub(r"\A(?:[ \t]*\r?\n)+", "", text[end:])
    if not before or not after or len(before + after) == len(text) - (end - start):
        return before + after
    return before + ("\r\n" if before.endswith("\r\n") else "\n") + after


def with_tenant(text: str, tenant: str, keys: Dict[str, str]) -> str:
    """The table with one more tenant."""
    name_field(tenant)
    gap = "" if not text else "\n" if text.endswith("\n") else "\n\n"
    header = '["%s"]' % tenant if "." in tenant else "[%s]" % tenant
    return "%s%s%s\n%s" % (text, gap, header, "".join("%s = %s\n" % pair for pair in keys.items()))


def refuse_known(path: str, text: str, tenant: str) -> None:
    """Raises if a table already has this tenant."""
    line = line_of(text, tenant)
    data = text.encode("utf-8", "surrogateescape")
    if line or (judged(data) != "Toml" and judged(data + b'\n["%s"]\n' % name_field(tenant)) == "Toml"):
        place = " in line %d" % line if line else ""
        raise ValueError("%s stays as it was: it has the tenant %s already%s, which judy table FILE set %s changes" % (path, tenant, place, tenant))


def put(path: str, text: str) -> None:
    """Gives a table another text, if judyd finds no fault in it."""
    data = text.encode("utf-8", "surrogateescape")
    for fault in faults_in(data):
        raise ValueError("%s stays as it was: the new one would be refused: %s" % (path, fault))
    with replaced(path) as file:
        write_all(file, data)


def digest_value(token: str) -> str:
    """The value of sha256 or read_sha256 for a token."""
    return '"%s"' % hashlib.sha256(token_field(token)).hexdigest()


def digest_line(token: str, is_for_looking: bool = False) -> str:
    """The line of a table for a token."""
    return "%s = %s" % ("read_sha256" if is_for_looking else "sha256", digest_value(token))
