#!/usr/bin/env python3
"""Prints docs/generated/WRONG_BODIES.md: the wrong bodies that the gate tries, from wrong/ and must-fail/ of each
crate. tests/pages compares the page with it.

usage: docs/generate.py [FOLDER]     with no folder: docs/generated
"""

import os
import sys

TOP = os.path.dirname(os.path.dirname(os.path.abspath(__file__)))
sys.path.insert(0, os.path.join(TOP, "tests"))

from copies import functions_in  # noqa: E402
from edits import CRATES, PARTS, crates, edits_of  # noqa: E402
from functions import Sources  # noqa: E402

NAME = "WRONG_BODIES.md"
HEAD = """# Wrong bodies

`docs/generate.py` prints this page from the files `wrong/*.edit` and `must-fail/*.edit` of each
crate. Each is a small edit that the prover must refuse, under its name here. The gate tries all of
them (tests/README.md). *in* is the function that it changes, or the files of definitions. *refused
by* is the goal that is not proved with it, which ends with the clause's name, or what has to be
proved with the definition; without one all goals of the function are tried.

"""


def changed(edit, sources):
    """What an edit changes: a function, or its files."""
    functions = functions_in(edit, sources)
    if len(functions) == 1 and None not in functions:
        return "`%s`" % functions.pop().path()
    return ", ".join("`%s`" % it for it in dict.fromkeys(part.file for part in edit.parts))


def rows_of(crate):
    """The rows of a crate, those of one function together."""
    sources = Sources(os.path.join(CRATES, crate), PARTS)
    rows = [(changed(edit, sources), os.path.basename(edit.name), edit.goal or edit.by or "") for edit in edits_of(crate)]
    return ["| %s | %s | %s |" % (name, place, refuses and "`%s`" % refuses) for place, name, refuses in sorted(rows)]


def page():
    """The page."""
    parts, count = [], 0
    for crate in crates():
        rows = rows_of(crate)
        count += len(rows)
        if rows:
            parts.append("## %s\n\n| wrong body | in | refused by |\n|---|---|---|\n%s\n" % (crate, "\n".join(rows)))
    return "\n".join([HEAD + "There are %s.\n" % format(count, ","), *parts])


def main():
    """Writes the page."""
    folder = sys.argv[1] if len(sys.argv) > 1 else os.path.join(TOP, "docs", "generated")
    os.makedirs(folder, exist_ok=True)
    with open(os.path.join(folder, NAME), "w", encoding="utf-8") as file:
        file.write(page())


if __name__ == "__main__":
    main()
