"""Proofs with holes in place of what the check of a wrong body need not prove.

`rt ci` proves each lemma and each answer. `tests/wrong --holes` proves them no more: a definition of a
file of proofs is abstract, unless it is an `abbrev` or some proof opens it, so nothing but its type is
seen of it. Its body becomes a hole. Of the answers of a function whose wrong body names the goal that
refuses it, only the answer to that goal is kept."""

import re

SIGNATURE = re.compile(r"^( *)(?:pub )?([^\s◌(){}\[\]:=]+) : ")
KEYWORDS = {"abbrev", "unfoldable", "record", "data", "module", "mod", "use"}
OPENS = re.compile(r"^ *unfolding (.*)$", re.M)
ONE, LIB = "proofs/TheHole.antt", "proofs/Lib.antt"
ONE_TEXT = "pub anything {ℓ} : {A : Type ℓ} → A\nanything = ?\n"
GOALS_AS = re.compile(r"^use \S+\.Goals as (\S+)$", re.M)


def imports_of(crate):
    """The line that imports the one hole of a crate."""
    return "use Rattle.%s.proofs.TheHole.{anything}" % crate


def with_the_hole(texts):
    """The texts of a crate with one hole of any type, by which all others are filled: the compiler prints the
    goal of each hole, which costs as much as a short proof."""
    return {**texts, ONE: ONE_TEXT, LIB: "mod TheHole\n" + texts.get(LIB, "")}


def opened(texts):
    """The names of the definitions that some proof in these texts opens."""
    return {name for text in texts for found in OPENS.findall(text) for name in re.split(r"[\s,{}]+", found) if name}


class Definition:
    """A definition with a type and clauses: the lines of its type, of its clauses, and its name."""

    def __init__(self, indent, name, begins, clauses, ends):
        self.indent, self.name, self.begins, self.clauses, self.ends = indent, name, begins, clauses, ends


def end_of_block(lines, at, indent):
    """The line after those that belong to the one before: they stand deeper, close what it opened, or say what
    the definition opens. An empty line belongs to it if the next other one does."""
    belongs, end = re.compile(r"^%s(?:[ }\])]|unfolding )" % indent), at
    while at < len(lines):
        if belongs.match(lines[at]):
            end = at + 1
        elif lines[at]:
            break
        at += 1
    return end


def end_of_clauses(lines, at, indent, name):
    """The line after the last clause of a name, from a line on; None if there is no clause."""
    clause, end = re.compile(r"^%s%s(?: |$)" % (indent, re.escape(name))), None
    while at < len(lines):
        if clause.match(lines[at]) and not SIGNATURE.match(lines[at]):
            at = end = end_of_block(lines, at + 1, indent)
        elif lines[at].strip() and not lines[at].lstrip().startswith("--"):
            break
        else:
            at += 1
    return end


def definitions(lines):
    """The definitions of a text that have a type and clauses."""
    at = 0
    while at < len(lines):
        found, begins = SIGNATURE.match(lines[at]), at
        at += 1
        if found and found[2] not in KEYWORDS:
            clauses = end_of_block(lines, at, found[1])
            ends = end_of_clauses(lines, clauses, found[1], found[2])
            if ends:
                at = ends
                yield Definition(found[1], found[2], begins, clauses, ends)


def with_holes(text, keeps, crate):
    """A text in which a definition is a hole, unless its type and its name are to be kept."""
    lines, made, at = text.split("\n"), [imports_of(crate)], 0
    for it in definitions(lines):
        kind = "\n".join(lines[it.begins : it.clauses])
        if not keeps(kind, it.name):
            made += lines[at : it.begins] + [one for one in kind.split("\n") if not OPENS.match(one)]
            made.append("%s%s = anything" % (it.indent, it.name))
            at = it.ends
    return "\n".join(made + lines[at:]) if at else text


def lemmas_with_holes(text, names, crate):
    """A file of lemmas in which all is a hole but what has one of these names."""
    return with_holes(text, lambda kind, name: name in names, crate)


def names_of_function(text, folder):
    """The names by which a text calls what the compiler made of a function: modules, and what it imports of them."""
    uses = re.findall(r"^use %s\.[\w.]+?(?: as (\S+)|\.\{([^}]*)\})$" % re.escape(folder), text, re.M)
    return {name for alias, names in uses for name in [alias, *names.split(", ")] if name}


def answers_with_holes(text, names, kept, crate):
    """The answers of a function, and what stands beside them. Those to other goals than these are holes;
    with None, none is. What says nothing of the function is a hole too."""
    found = GOALS_AS.search(text)
    if not found:
        return text
    own = "|".join(re.escape(it) for it in names_of_function(text, found[0].split()[1].removesuffix(".Goals")))
    of_function = re.compile(r"(?<![\w.-])(?:%s)(?![\w-])" % own)
    answer = re.compile(r"^pub (\S+) : %s\.(\S+)$" % re.escape(found[1]), re.M)

    def keeps(kind, name):
        is_answer = answer.match(kind)
        return (kept is None or name in kept) if is_answer else name in names or bool(of_function.search(kind))

    return with_holes(text, keeps, crate)


def answer_at(text, line):
    """The goal whose answer has this line, the first of which is 1; None if it is no answer's."""
    found, lines = GOALS_AS.search(text), text.split("\n")
    for it in definitions(lines):
        if found and it.begins < line <= it.ends:
            return it.name if lines[it.begins].startswith("pub %s : %s." % (it.name, found[1])) else None
    return None


class Holes:
    """The texts of a crate, with holes in its files of lemmas if it `has_holes`."""

    def __init__(self, crate, texts, lemmas, has_holes):
        self.crate, self.names = crate, opened(texts.values())
        of_lemmas = {path for path in lemmas if path.startswith("proofs/")} if has_holes else set()
        self.texts = {path: lemmas_with_holes(text, self.names, crate) if path in of_lemmas else text for path, text in texts.items()}

    def answers(self, text, kept):
        """The answers of a function, of which only these are kept; with None all."""
        return answers_with_holes(text, self.names, kept, self.crate)
