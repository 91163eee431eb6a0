"""The calls of the protocol: whether the tables of the pages and of the client agree with the table of commands,
and what is generated from it.

usage: python3 tests/calls.py --write     writes the parts that are made from the table (WRITTEN below)

tests/pages reports a part that differs from what would be written.
"""

import os
import re
import sys
import textwrap
from typing import NamedTuple

TOP = os.path.dirname(os.path.dirname(os.path.abspath(__file__)))
sys.path.insert(0, os.path.join(TOP, "clients", "python"))

from commands import CODE, COMMANDS, FORMS, KINDS, is_byte_walk, usage  # noqa: E402
from judyd.wording import CALLS, OTHERS, said_of  # noqa: E402
from oracle import INSERTS, LOOKS, OPERATIONS  # noqa: E402

LETTERS = {"name": "", "other": "N", "key": "K", "i": "W", "k": "W", "n": "W", "v": "W", "old": "W", "new": "W"}
NAMES = {
    "Set": "Insert", "Unset": "Remove", "Test": "Look", "Delete": "Remove", "Get": "Look", "ByCount": "Nth", "FreeArray": "Free",
    "PopFirst": "Pop", "AddAbsent": "Fill", "InsertAbsent": "Fill", "RemoveRange": "Cut",
}  # fmt: skip
PREFIXES = {"One": "J1", "Long": "JL", "Str": "JSL", "Bytes": "JHS"}
PAGE = "docs/PROTOCOL.md"
COUNTS = "no one two three four five six seven eight nine ten".split()
COLUMNS = 100


def read(path):
    """The text of a file."""
    with open(os.path.join(TOP, path), encoding="utf-8") as file:
        return file.read()


def source():
    """Each command: the forms of its fields after the name, K for a key, W for a word and N for the name of another
    array."""
    return {word: {"".join(map(LETTERS.get, form)) for form in FORMS[word]} for word in COMMANDS}


def codes(cell):
    """What a cell shows as code."""
    return re.findall(r"`([^`]+)`", cell)


def shown(cell):
    """The calls of a cell, and the forms of their fields, which are those of all words before them. An unknown field
    is a letter that no form has."""
    found, words = {}, []
    for code in codes(cell):
        tokens = code.split()
        words += [token for token in tokens if re.fullmatch(r"J[0-9A-Z]+", token)]
        rest = [token for token in tokens if token not in words]
        if rest:
            found.update(dict.fromkeys(words, forms_of(rest) if rest[0] == "name" else {"?"}))
            words = []
    return {**found, **dict.fromkeys(words, {"?"})}


def forms_of(fields):
    """The forms of these fields; those in brackets may be left out."""
    least = len([it for it in fields if not it.startswith("[")])
    return {"".join(LETTERS.get(field.strip("[]"), "?") for field in fields[:count]) for count in range(least, len(fields) + 1)}


def rows(page, title):
    """The cells of the rows of the table below a title. None without the title."""
    part = read(page).partition("\n## %s\n" % title)[2].split("\n## ")[0]
    return [re.split(r"(?<!\\)\|", line)[1:-1] for line in part.split("\n") if line.startswith("|")]


class Row(NamedTuple):
    """A row of the page's table: what it says of the calls, their operations in the order of their words, the words of
    each kind, the fields after the name, and what it says of the replies."""

    call: str
    operations: list
    words: dict
    fields: list
    reply: str

    def usage(self, kind):
        """The fields of a kind's words: a key for the index of strings and bytes, and no value in a set."""
        fields = [field for field in self.fields if kind != "One" or field != "[v]"]
        return ["key" if field == "i" and kind in ("Str", "Bytes") else field for field in fields]


def calls():
    """The rows of the page's table of calls."""
    found = []
    for call, *words, fields, reply in (map(str.strip, cells) for cells in rows(PAGE, "Calls of arrays") if "`" in cells[-1]):
        operations = [NAMES.get(name, name) for name in re.findall(r"\w+", call)]
        operations = list(dict.fromkeys(name for name in operations if name in OPERATIONS))
        found.append(Row(call, operations, dict(zip(KINDS, (cell.strip("`").split() for cell in words))), fields.strip("`").split(), reply))
    return found


def readme():
    """The words of README.md."""
    return {word for cells in rows("README.md", "The protocol") for cell in cells[1:] for word in shown(cell)}


def client():
    """The calls of the client."""
    return {word: {"".join(LETTERS[field] for field in call.fields[:count]) for count in range(call.least, len(call.fields) + 1)} for word, call in CALLS.items()}


def manual():
    """The words of the manual page."""
    return {word for line in re.findall(r"(?m)^\.It Cm (.*)$", read("man/judyd.1")) for word in re.findall(r"\bJ[0-9A-Z]+\b", line)}


def wrong_rows(found):
    """Faults of the page's table: words in the column of another kind or in the row of another operation, and a
    sentence that does not say which calls insert and which change."""
    for row in found:
        for kind, words in row.words.items():
            if len(words) not in (0, len(row.operations)):
                yield "%s: %d words of a %s for %s" % (PAGE, len(words), KINDS[kind], " ".join(row.operations))
            for word, operation in zip(words, row.operations):
                if COMMANDS.get(word) != (kind, operation):
                    yield "%s says that %s does %s to a %s, and %s that it does %s" % (PAGE, word, operation, KINDS[kind], CODE, COMMANDS.get(word))
    classes = [{OPERATIONS[operation].does for operation in row.operations} for row in found]
    inserts, looks = classes.count({INSERTS}), classes.count({LOOKS})
    changes = len(classes) - inserts - looks
    if classes[:inserts] != [{INSERTS}] * inserts or classes[len(classes) - looks :] != [{LOOKS}] * looks:
        yield "%s: the calls that insert are not the first, and those that change nothing not the last" % PAGE
    said = "The first %s calls are *inserts*, the next %s *changes*." % (COUNTS[inserts], COUNTS[changes])
    if said not in " ".join(read(PAGE).split()):
        yield "%s does not say: %s" % (PAGE, said)


def faults():
    """What does not agree with the definition."""
    forms, found = source(), calls()
    listed = {word: forms_of(["name", *row.usage(kind)]) for row in found for kind, words in row.words.items() for word in words}
    shown_in = [(PAGE, listed), ("the client's wording.py", client())]
    for what, there in shown_in:
        for word in sorted(forms.keys() | there.keys()):
            if forms.get(word) != there.get(word):
                yield "%s and %s do not agree on the fields of %s: %s, %s" % (what, CODE, word, sorted(there.get(word, ())), sorted(forms.get(word, ())))
    yield from wrong_rows(found)
    for word, (kind, _) in COMMANDS.items():
        if not word.startswith(PREFIXES[kind]):
            yield "%s has %s as a command of a %s, whose words begin with %s" % (CODE, word, KINDS[kind], PREFIXES[kind])
    for page, words in (("man/judyd.1", manual()), ("README.md", readme())):
        for word in sorted(forms.keys() ^ words):
            yield "%s and %s do not agree on %s" % (page, CODE, word)
    for other in OTHERS:
        if "`%s`" % other.usage() not in read(PAGE):
            yield "%s does not show `%s`" % (PAGE, other.usage())
    for path, make in WRITTEN.items():
        if make(read(path)) != read(path):
            yield "%s is not what `python3 tests/calls.py --write` makes of the table of commands" % path


# ---- the parts that are written ----


def with_part(text, first, last, lines):
    """A text with other lines between the line that ends with `first` and the next one that begins with `last`."""
    before, _, rest = text.partition(first + "\n")
    _, end, after = rest.partition("\n" + last)
    if not end:
        raise ValueError("there is no part between %r and %r" % (first, last))
    return "%s%s\n%s\n%s%s" % (before, first, "\n".join(lines), last, after)


def client_words(_):
    """The words of the Python client."""
    rows = ['    "%s": Command("%s", "%s", "%s", "%s"),' % (word, KINDS[kind], operation, usage(word), OPERATIONS[operation].does) for word, (kind, operation) in COMMANDS.items()]
    return CLIENT_WORDS % "\n".join(rows)


CLIENT_WORDS = '''"""The words of the calls of arrays. `python3 tests/calls.py --write` writes this file."""

from typing import Dict, NamedTuple


class Command(NamedTuple):
    """What a word stands for: the kind of the array, the operation, the fields after the name, and whether it
    inserts, exchanges, removes, frees or looks."""

    kind: str
    operation: str
    fields: str
    does: str


COMMANDS: Dict[str, Command] = {
%s
}
'''


def all_words():
    """The words of all requests."""
    return " ".join(sorted([*COMMANDS, *(other.word for other in OTHERS)]))


def bash(text):
    """The words that bash completes."""
    lines = textwrap.wrap(all_words(), COLUMNS)
    return with_part(text, '_judy_calls="\\', '_judy_options=', [line + " \\" for line in lines[:-1]] + [lines[-1] + '"'])


def zsh(text):
    """The words that zsh completes."""
    return with_part(text, "calls=(", ")", textwrap.wrap(all_words(), COLUMNS, initial_indent="    ", subsequent_indent="    "))


def libjudy(text):
    """The commands of the program that answers with libjudy, which cannot walk a JudyHS."""
    kinds = {"One": "ONE", "Long": "LONG", "Str": "STRING", "Bytes": "BYTES"}
    rows = []
    for word, (kind, operation) in COMMANDS.items():
        if is_byte_walk(word):
            continue
        least, most = len(FORMS[word][0]), len(FORMS[word][-1])
        rows.append('    {"%s", %s, %s, %d, %d},' % (word, kinds[kind], re.sub(r"(?<=[a-z])(?=[A-Z])", "_", operation).upper(), least, most - least))
    return with_part(text, "static const struct command COMMANDS[] = {", "};", rows)


def short_table(text):
    """The table of README.md. A row has its operations; the words of each kind are written."""
    lines = text.split("\n")
    for at, line in enumerate(lines):
        cells = re.split(r"(?<!\\)\|", line)
        words = [word for cell in cells[2:6] for word in re.findall(r"\bJ[0-9A-Z]+\b", cell) if word in COMMANDS]
        if line.startswith("|") and words:
            operations = {COMMANDS[word].operation for word in words}
            cells[2:6] = [" %s " % short_cell(kind, operations) if short_cell(kind, operations) else " " for kind in KINDS]
            lines[at] = "|".join(cells)
    return "\n".join(lines)


def short_cell(kind, operations):
    """The commands of a kind that do this."""
    words = [word for word, command in COMMANDS.items() if command.kind == kind and command.operation in operations]
    return "`%s`" % " ".join(words) if words else ""


def manual_page(text):
    """The calls of the manual page are those of the page."""
    lines = []
    for row in calls():
        shown_words = []
        for kind, words in row.words.items():
            fields = [re.sub(r"\[(\w+)\]", r"Oo Ar \1 Oc", field) for field in row.usage(kind)]
            if words:
                shown_words.append("Cm %s Ar %s" % (" | ".join(words), " ".join(["name", *fields])))
        lines.append(".It " + " , ".join(shown_words))
        lines += [*roff("%s." % row.call), *roff("Reply: %s." % row.reply)]
    return with_part(text, MANUAL[0], MANUAL[1], lines)


def c_manual(text):
    """The functions of each kind of array in the manual page of the C library are those of judyd.h."""
    header, titles = read("clients/c/judyd.h"), [*KINDS.values(), None]
    for kind, following in zip(titles, titles[1:]):
        part = header.partition("/* %s: " % kind)[2].partition("\n\n")[0]
        lines = []
        for name, given in re.findall(r"(?m)^int (\w+)\((.*)\);$", part):
            lines += [".Ft int", ".Fn %s %s" % (name, " ".join('"%s"' % it for it in given.replace("*connection", "*c").split(", ")))]
        text = with_part(text, ".Ss %s" % kind, ".Ss %s\n" % following if following else ".Sh DESCRIPTION", lines)
    return text


MANUAL = ('.\\" The calls, written of docs/PROTOCOL.md by python3 tests/calls.py --write', '.\\" The end of the calls')


def roff(text):
    """A sentence of a page as lines of a manual page. What is code there is quoted."""
    lines = []
    for at, part in enumerate(text.split("`")):
        if at % 2:
            lines.append(".Ql %s" % part)
            continue
        mark = re.match(r"[,.;:]", part) if at else None
        if mark:
            lines[-1] += " " + mark[0]
        rest = part[len(mark[0]) if mark else 0 :].strip()
        lines += textwrap.wrap(rest, 80)
    return lines


# Which methods of the Python client are in one row of its page; those of other operations come last.
METHODS = [["Insert", "Remove", "Look"], ["Count", "Nth"], ["First", "Next", "Last", "Prev"], ["FirstEmpty", "NextEmpty", "LastEmpty", "PrevEmpty"], ["Free"]]


def methods_table(text):
    """The manual's calls in the table of methods of the Python client's page. Additions are Python's own there."""
    grouped = {operation for group in METHODS for operation in group} | {"Add"}
    lines = []
    for group in [*METHODS, [operation for operation in OPERATIONS if operation not in grouped]]:
        cells = [" ".join("`%s`" % method_of(word) for word, it in COMMANDS.items() if it.kind == kind and it.operation in group) for kind in KINDS]
        if any(cells):
            lines.append("| %s | %s |" % ("" if lines else "the manual's", " | ".join(cells)))
    return with_part(text, "|---|---|---|---|---|", "| in order |", [re.sub(" +", " ", line) for line in lines])


def method_of(word):
    """The method of the Python client that makes a call."""
    name, _ = said_of(KINDS[COMMANDS[word].kind], COMMANDS[word].operation)
    return {"Ins": "insert", "Del": "delete"}.get(name) or re.sub(r"(?<=[a-z])(?=[A-Z])", "_", name).lower()


WRITTEN = {
    "clients/python/judyd/words.py": client_words,
    "clients/python/README.md": methods_table,
    "clients/completion/judy.bash": bash,
    "clients/completion/_judy": zsh,
    "bench/judy_lines.c": libjudy,
    "README.md": short_table,
    "man/judyd.1": manual_page,
    "man/judyd.3": c_manual,
}


def main():
    """Writes the parts."""
    if sys.argv[1:] != ["--write"]:
        sys.exit(__doc__)
    for path, make in WRITTEN.items():
        before = read(path) if os.path.exists(os.path.join(TOP, path)) else ""
        after = make(before)
        if after != before:
            with open(os.path.join(TOP, path), "w", encoding="utf-8") as file:
                file.write(after)
            print("written: " + path)


if __name__ == "__main__":
    main()
