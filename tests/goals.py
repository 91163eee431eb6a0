"""Which goals of functions no written answer proves: crates/NAME/wrong/GOALS. A wrong body names the goal
that refuses it, so of these that one alone is searched, and the others are holes. The file saves time
and decides nothing, except by its lines SHORT: a goal that it lacks is searched, and one that is gone is
an error of the copy, which is tried then with all of its goals. A line is `FUNCTION: GOAL..`, or `EDIT: GOAL..` of a wrong body with
which its function has other goals. A line `LONG FUNCTION: GOAL..` names goals that the function itself is
proved to have only by the compiler's whole search. `tests/wrong --goals` writes it, but for those. A line
`SHORT FUNCTION SUM: GOAL..` names goals that the short search of a copy proves of a function, whose text
and proof have this sum: so that search serves for its only wrong body too, which has no control beside it."""

import hashlib
import os

from edits import CRATES, read, write

LONG, SHORT = "LONG ", "SHORT "


def sum_of(function, sources):
    """A sum of the text of a function and of its proof."""
    texts = [sources.texts[function.file][function.start : function.end], *sorted(sources.proof_of(function).items())]
    return hashlib.sha256(repr(texts).encode()).hexdigest()[:12]


class Goals:
    """The goals of a crate's functions, by their paths, and those of its wrong bodies, by their names."""

    def __init__(self, crate):
        self.crate, self.path = crate, os.path.join(CRATES, crate, "wrong", "GOALS")
        lines = read(self.path).split("\n") if os.path.exists(self.path) else []
        self.known = {name: goals.split() for name, _, goals in (it.partition(": ") for it in lines if it)}
        self.long = {name[len(LONG) :]: self.known.pop(name) for name in list(self.known) if name.startswith(LONG)}
        self.short = {name[len(SHORT) :]: self.known.pop(name) for name in list(self.known) if name.startswith(SHORT)}
        self.noted = {}

    def of(self, function):
        """The goals of a function that no written answer proves."""
        return self.known.get(function.path(), [])

    def of_edit(self, it):
        """The goals of a function with an edit; None if they are not known."""
        return self.known.get(it.edit.name, self.known.get(it.function.path()))

    def choose(self, tries):
        """Chooses the holes of each of these of which that is known. In a cycle of functions all goals are
        searched."""
        for it in tries:
            goals = self.of_edit(it) if it.function else None
            if it.function and it.function.cycle:
                it.holes = []
            elif goals and it.edit.goal in goals:
                it.choose(goals, self.of(it.function))

    def is_short(self, function, sources, goals):
        """Whether the short search proves these goals of a function, as it is now."""
        return set(goals) <= set(self.short.get("%s %s" % (function.path(), sum_of(function, sources)), ()))

    def of_controls(self, tries):
        """The holes of the control of each function of which some body has holes: all goals but those that
        it must be proved to have."""
        asked = {}
        for it in tries:
            if it.name and it.holes is not None:
                asked.setdefault(it.function, set()).update(it.proves)
        return {one: [goal for goal in self.of(one) if goal not in goals] for one, goals in asked.items()}

    def note(self, it, goals):
        """Notes the goals that are left of a function with an edit."""
        if goals and it.edit.goal in goals:
            self.noted[it.edit.name] = (it.function.path(), goals)

    def note_of(self, function, goals):
        """Notes the goals that are left of a function."""
        if goals:
            self.noted[function.path()] = (function.path(), goals)

    def note_short(self, function, sources, goals):
        """Notes goals of a function that the short search proves."""
        self.short["%s %s" % (function.path(), sum_of(function, sources))] = sorted(goals)

    def write(self):
        """Writes the file: of the functions with a body that is tried so, and of the bodies that differ."""
        used = {path for name, (path, _) in self.noted.items() if name != path}
        searches = [(LONG, self.long), (SHORT, self.short)]
        lines = ["%s%s: %s\n" % (start, path, " ".join(goals)) for start, those in searches for path, goals in sorted(those.items())]
        for name, (path, goals) in sorted(self.noted.items()):
            if path in used and (name == path or goals != self.noted.get(path, (path, None))[1]):
                lines.append("%s: %s\n" % (name, " ".join(goals)))
        if lines:
            write(self.path, "".join(lines))
        elif os.path.exists(self.path):
            os.remove(self.path)
