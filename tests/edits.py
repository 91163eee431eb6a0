"""The wrong bodies of the crates: the files crates/NAME/wrong/*.edit and crates/NAME/must-fail/*.edit. Its
lines are `file: PATH`, `old: TEXT` and `new: TEXT`: each text is one line, since the kit reads no more
of it. The old text stands once in the file; in wrong/ it may also be the one line that is equal to it. A line `by: FUNCTION` or `by: proofs/FILE.antt` names a function of the crate, or a file of
lemmas, that the prover refuses with the edit. Only an edit of a definition needs it, so that not all
functions are tried. A line `goal: NAME` names the goal of the function that no tactic proves with the
edit, or to which the written answer is refused. `tests/wrong --record` writes it, so that no other goal
is searched."""

import os
import re

TOP = os.path.dirname(os.path.dirname(os.path.realpath(__file__)))
CRATES = os.path.join(TOP, "crates")
PARTS = ("src", "specs", "proofs")
FOLDERS = ("must-fail", "wrong")


def read(path):
    """The text of a file."""
    with open(path, encoding="utf-8") as file:
        return file.read()


def write(path, text):
    """Writes a file, and its folders."""
    os.makedirs(os.path.dirname(path), exist_ok=True)
    with open(path, "w", encoding="utf-8") as file:
        file.write(text)


def place_in(text, old):
    """Where an old text stands: at its only place, or where it is a whole line. None if there are several, or none."""
    places = [it.start() for it in re.finditer(re.escape(old), text)]
    if len(places) > 1:
        places = [at for at in places if text[:at].endswith("\n") and text[at + len(old) :].startswith("\n")]
    return places[0] if len(places) == 1 else None


def replaced(text, part):
    """The text with the change of a part of an edit; None if its old text has no place."""
    at = place_in(text, part.old)
    return None if at is None else text[:at] + part.new + text[at + len(part.old) :]


class Part:
    """One change of an edit: `old` becomes `new` in a file of the crate."""

    def __init__(self, file, old, new):
        self.file, self.old, self.new = file, old, new

    def is_import(self):
        """Whether it only changes what the file imports."""
        return all(it.startswith(("use ", "ghost use ")) for it in (self.old, self.new))


class Edit:
    """A wrong body: the parts of its file, who refuses it if that is said, and the lines that can't be
    read."""

    def __init__(self, crate, path):
        self.crate, self.path = crate, path
        self.name = "/".join(path.split("/")[-3:]).removesuffix(".edit")
        self.parts, self.by, self.goal, self.faults = [], None, None, []
        file, old = None, None
        for line in read(path).split("\n"):
            if line.startswith("file: "):
                file, old = line[len("file: ") :].strip(), None
            elif line.startswith("old: "):
                old = line[len("old: ") :]
            elif line.startswith("by: "):
                self.by = line[len("by: ") :].strip()
            elif line.startswith("goal: "):
                self.goal = line[len("goal: ") :].strip()
            elif line.startswith("new:") and file and old:
                self.parts.append(Part(file, old, line[len("new:") :].removeprefix(" ")))
                old = None
            elif line:
                self.faults.append("a line is no `file:`, `old:`, `new:`, `by:` or `goal:` in this order: " + line)

    def edited(self):
        """The texts of the files that it changes, and why it does not fit the crate; None if it does."""
        texts = {}
        for part in self.parts:
            whole = os.path.join(CRATES, self.crate, part.file)
            if not part.file.startswith(tuple(it + "/" for it in PARTS)) or not os.path.isfile(whole):
                return texts, "there is no file " + part.file
            text = texts.get(part.file) or read(whole)
            changed = replaced(text, part)
            if changed is None:
                return texts, "%s has this text %d times, not once: %s" % (part.file, text.count(part.old), part.old)
            if part.new == part.old:
                return texts, "it changes nothing: " + part.old
            texts[part.file] = changed
        return texts, None if texts else "it changes no file"

    def files(self):
        """The files that it changes, and all sources and definitions of the crate."""
        of_crate = (os.path.join(at, it) for part in PARTS[:2] for at, _, names in os.walk(os.path.join(CRATES, self.crate, part)) for it in names)
        return {it.file for it in self.parts} | {os.path.relpath(it, os.path.join(CRATES, self.crate)) for it in of_crate}

    def fault(self):
        """Why the edit does not fit its crate; None if it does."""
        return self.faults[0] if self.faults else self.edited()[1]


def crates():
    """The names of the crates."""
    return sorted(it for it in os.listdir(CRATES) if os.path.isdir(os.path.join(CRATES, it, "src")))


def edits_of(crate):
    """The wrong bodies of a crate."""
    places = [os.path.join(CRATES, crate, it) for it in FOLDERS]
    files = [os.path.join(place, it) for place in places if os.path.isdir(place) for it in sorted(os.listdir(place))]
    return [Edit(crate, it) for it in files if it.endswith(".edit")]
