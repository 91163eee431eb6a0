"""The files of definitions and lemmas of a crate, and what they import: how an edit of a definition is
tried as a copy.

A wrong definition changes all that stands on it, so it can't be a copy of one file alone. It is a copy
of that file, of the file of lemmas that refuses it, and of all files between them, under other names
that import each other. Nothing else imports them, so all such edits of a crate are tried in one check. The
same copies without the edit are the control: they must have no error."""

import re

SUFFIX = ".antt"


class Modules:
    """The files of `specs/` and `proofs/` of a crate, without those of functions' proofs."""

    def __init__(self, crate, sources):
        self.crate, self.texts = crate, sources.texts
        self.proved = {path for it in sources.functions for path in sources.proof_of(it)}
        self.named = re.compile(r"\bRattle\.%s\.((?:specs|proofs)(?:\.[\w'-]+)+)" % crate)
        self.uses_of = {}

    def name(self, path):
        """The name by which other files import a file."""
        return "Rattle.%s.%s" % (self.crate, path[: -len(SUFFIX)].replace("/", "."))

    def uses(self, path):
        """The files of the crate that a file names."""
        if path not in self.uses_of:
            found = set()
            for it in self.named.findall(self.texts[path]):
                words = it.split(".")
                fits = ("/".join(words[:count]) + SUFFIX for count in range(len(words), 1, -1))
                found |= {next((one for one in fits if one in self.texts), None)}
            self.uses_of[path] = found - {None, path}
        return self.uses_of[path]

    def below(self, path):
        """A file, and all that it imports."""
        found, todo = {path}, [path]
        while todo:
            for it in self.uses(todo.pop()):
                if it not in found:
                    found.add(it)
                    todo.append(it)
        return found

    def between(self, changed, by):
        """The changed files and all that stand on them and that `by` imports, itself too; None if these
        can't be copied: they have a function's proof among them, or `by` does not stand on them."""
        those = {it for it in self.below(by) if self.below(it) & changed} | changed
        well = by in those and not those & self.proved and all(self.node(it) for it in those)
        return those if well else None

    def node(self, path):
        """The file that declares another one, and the line that does so; None if there is none."""
        folder, _, file = path.rpartition("/")
        places = [folder + "/Lib" + SUFFIX, folder + SUFFIX]
        line = re.compile(r"^(?:pub )?mod %s$" % re.escape(file[: -len(SUFFIX)]), re.M)
        found = [(it, line.search(self.texts[it])) for it in places if it in self.texts]
        return next(((it, one[0]) for it, one in found if one), None)

    def copies(self, those, texts, suffix):
        """The texts of copies of these files, where `texts` has changed ones; and the lines that declare
        them, each with its file and the line above."""
        made, declared = {}, []
        names = sorted((self.name(it) for it in those), key=len, reverse=True)
        cited = re.compile(r"(?:%s)(?![\w'-])" % "|".join(map(re.escape, names)))
        for it in sorted(those):
            copy = it[: -len(SUFFIX)] + suffix + SUFFIX
            made[copy] = cited.sub(lambda found: found[0] + suffix, texts.get(it, self.texts[it]))
            file, line = self.node(it)
            declared.append((file, line, line + suffix))
        return made, declared
