"""A crate's wrong bodies as copies of its functions.

The compiler gives a verdict for each function and goes on after one that is not proved. So each wrong
body becomes one more function beside the real one: a copy under another name, with the same contract,
the edit in its text, and a copy of the real one's proof. Nothing calls it, so the crate stays as it
was. A copy without an edit is the control: it must be proved. The only wrong body of a function is put in
the function's place: that needs no control, since the proof is the real one. A function that calls
itself is copied with its cycle, into a module of its own; a method of a trait's impl, or a cycle that uses
private items, can't be copied. It is edited in its place, one edit of each such function at a time. All other functions keep their contracts and lose their proofs: these are holes, which the
compiler takes as proved, so that only what is tried is checked (`--allow-holes`, `--only`). Their bodies
become endless loops: a proof sees of them the contracts alone. A program is checked as a library, without its
`main`, so that the code of the crates below is not linked.

A copy that is made without tactics (`#[tactic(none)]`) has its written answers checked, and the check
names the goals that are left. That is quick, and most wrong bodies fall there: an answer that the
control has too is refused. The others are copied again with their tactics. Where an edit names the goal
that refuses it, all other goals that were left are holes, so that this one alone is searched: by an answer
that tries what the compiler tries of itself. So the compiler prints neither the goal nor a file to begin with,
which takes as long as the search. For a copy the answer has `STEPS` of the 10,000,000 steps that the compiler
allows: goals of the control are proved in less, and a search that finds nothing would use up all. If the control
is not proved so, the compiler's own tactics are tried, unless wrong/GOALS says that its goal takes a long search. A
wrong body in the function's place has no control, so its answer finds all that the compiler's tactics find
(`LIKE_THE_COMPILER`), unless wrong/GOALS says that the short search proves the function's own goal; it counts only if
it says that its search failed."""

import re

from edits import place_in, replaced
from functions import CYCLE, head_of, own_impl_around
from holes import imports_of, with_the_hole

UNREAD = re.compile(r"is not in scope|has no field|is no name|operand is missing|expected the end|cannot continue")
FAILED = re.compile(r"`search`|`grind`|give the call less to do")
GONE = re.compile(UNREAD.pattern + r"|module `[\w.+-]+\.Goals`(?:$| has no )")
TACTIC = re.compile(r"^ *#!?\[tactic\([^\n]*\)\]\n", re.M)
FN = re.compile(r"^( *)(?=(?:pub(?:\([a-z]+\))? )?(?:const |unsafe )*fn )", re.M)
GOALS = "use Rattle.%s.proofs.%s.Goals as %s\n"
ANSWER = "\npub %s : %s.%s\n%s = anything\n"
TRIED = "use Rattle.std.proofs.Common as common_of_copy\nuse Rattle.std.proofs.lemmas.Grind as grind_of_copy\n"
STEPS = 500000
SEARCH = (
    "pub %%s : %%s.%%s\n%%s c = first_of (search common_of_copy.rules steps %d, "
    "grind (common_of_copy.arith, grind_of_copy.common_steps) steps %d)\n" % (STEPS, STEPS)
)
LIKE_THE_COMPILER = (
    "pub %s : %s.%s\n%s c = first_of (search common_of_copy.rules, "
    "grind (common_of_copy.arith, grind_of_copy.common_steps) steps 2000000, "
    "grind (common_of_copy.arith, grind_of_copy.elements) steps 2000000, "
    "grind (common_of_copy.arith, grind_of_copy.common_steps) steps 4000000)\n"
)
WITH_LEMMAS = re.compile(r"#\[tactic\([^\]\n]*\b(?:using|unfolding)\(")
NO_STUB = re.compile(r"\bconst fn\b|-> [^{]*\bimpl\b")
STUB = "\n    loop {}\n"
NO_MAIN = "const NO_MAIN: u64 = 0;"
HOLE = "use %s.{statement}\n%s\n\npub %s_spec : {M : Type 1} → statement M\n%s_spec = anything\n"
COPIED, PLACED, FILED, WHOLE = "as a copy", "in its place", "as files", "alone"
CARRIED = "use %s\n"


class Try:
    """How an edit is tried: its function, for COPIED the name of the copy (None: it is put in the place of
    its function), and the text of the function with the edit; with tactics, the goals that are holes. For
    FILED the files that are copied, and what is added to their names. Of the written answers only those to
    the goals `kept` are checked; all, if it is None. If it is `chosen`, the goal that refuses it is known to be
    one without an answer; it `writes` an answer to that. Its control must be proved to have the goals `proves`."""

    def __init__(self, edit, how, function=None, text=None):
        self.edit, self.how, self.function, self.text, self.name = edit, how, function, text, None
        self.holes, self.files, self.suffix, self.chosen, self.writes = None, None, None, False, True
        self.kept = {edit.goal} if edit.goal and function and not function.cycle else None
        self.proves = [edit.goal]

    def path(self):
        """The path of what is tried, below the crate."""
        return self.function.path(self.name)

    def choose(self, goals, of_function):
        """Has the goal that refuses it searched, and no other of its goals that are left. If the edit made that goal,
        which the function itself does not have, its control must have the goals that went with the edit."""
        self.holes, self.chosen = [one for one in goals if one != self.edit.goal], True
        self.proves = [self.edit.goal] if self.edit.goal in of_function else [one for one in of_function if one not in goals]

    def searched(self):
        """The goals that are searched by an answer in writing: that which refuses it, if all others are answered."""
        is_known = self.writes and self.holes is not None and self.chosen
        return [self.edit.goal] if is_known and not WITH_LEMMAS.search(self.text) else []


def functions_in(edit, sources):
    """The functions that an edit changes, with None for a change outside of all. What it imports is
    no change."""
    found = set()
    for part in edit.parts:
        if not part.is_import():
            at = place_in(sources.texts[part.file], part.old)
            is_code = part.file.startswith("src/") and at is not None
            found.add(sources.around(part.file, at, len(part.old)) if is_code else None)
    return found


def how_to_try(edit, sources):
    """How to try an edit that fits the crate."""
    found = functions_in(edit, sources)
    function = found.pop() if len(found) == 1 else None
    if not function or function.is_odd:
        return Try(edit, WHOLE)
    text = sources.texts[function.file][function.start : function.end]
    for part in edit.parts:
        if not part.is_import():
            text = replaced(text, part)
            if text is None:
                return Try(edit, WHOLE)
    return Try(edit, PLACED if function.cycle or function.of_trait else COPIED, function, text)


def unit(function):
    """What is copied with a function: itself, or its cycle."""
    return (function.file, function.cycle) if function.cycle else function


def name_of_copy(function, number):
    """The name of a copy of a function. With its cycle it has a module of its own."""
    if function.cycle:
        return "@%s_%s_w%d" % (function.module()[-1], function.cycle, number)
    return "%s_w%d" % (function.name, number)


def numbered(tries):
    """Gives each copy a name beside its function, for a run that proves nothing."""
    numbers = {}
    for it in tries:
        numbers[it.function] = numbers.get(it.function, 0) + 1
        it.name = "%s_w%d" % (it.function.name, numbers[it.function])
    return tries


def named(tries):
    """Gives each copy its name. The only one of a function has none: it is put in its place."""
    units, numbers = [unit(it.function) for it in tries], {}
    for it, one in zip(tries, units):
        numbers[one] = numbers.get(one, 0) + 1
        it.name = name_of_copy(it.function, numbers[one]) if units.count(one) > 1 else None
    return tries


def in_cycles(placed, sources):
    """Those of these that can be copied with their cycles, and the others."""
    some = [it for it in placed if it.function.cycle and sources.beside(it.function) is not None]
    return some, [it for it in placed if it not in some]


def one_of_each(tries):
    """The first of these of each function, and of each cycle of functions; and the others."""
    first, others, seen = [], [], set()
    for it in tries:
        those = {it.function, it.function.cycle} - {None}
        (others if those & seen else first).append(it)
        seen |= those
    return first, others


def filed(tries, modules):
    """Has the edits of definitions that can be copied as files tried so."""
    for count, it in enumerate(tries, 1):
        changed = {part.file for part in it.edit.parts}
        if it.how == WHOLE and (it.edit.by or "").startswith("proofs/") and changed | {it.edit.by} <= set(modules.texts):
            if not any(one.startswith("src/") for one in changed):
                it.files = modules.between(changed, it.edit.by)
        if it.files:
            it.how, it.suffix = FILED, "_w%d" % count
    return tries


def without_tactics(text):
    """The text of a function whose goals no tactic tries."""
    return FN.sub(r"\1#[tactic(none)]\n\1", TACTIC.sub("", text), count=1)


class Batch:
    """A crate's texts with copies and changed functions in them, and what is tried there."""

    def __init__(self, crate, sources, holes=None, goals=None):
        self.crate, self.sources, self.holes, self.goals = crate, sources, holes, goals
        self.texts, self.changes, self.imports = with_the_hole(holes.texts if holes else sources.texts), {}, {}
        self.asked, self.spans, self.dug, self.alike = [], [], {}, set()

    def copy(self, function, text, name, tried=None, goals=None, kept=None, searched=()):
        """Adds a copy of a function, with this text, under this name. Without tactics if `goals` is None,
        otherwise with a hole for each of these goals, and with an answer that searches for each of those. Of its
        written answers these are kept."""
        if name.startswith("@"):
            self.copy_cycle(function, text, name, tried)
            return
        text = without_tactics(text) if goals is None else text
        shown, at = CYCLE.sub("", re.sub(r"\bfn %s\b" % function.name, "fn " + name, text, count=1)).lstrip("\n"), function.end
        if function.of_trait:
            header, at = own_impl_around(self.sources.texts[function.file], function.end)
            shown = "%s {\n%s\n}" % (header, shown)
        self.changes.setdefault(function.file, []).append((at, at, "\n\n" + shown, tried))
        below, as_copy = ["/".join(["proofs", *function.place(it)]) + "/" for it in (None, name)]
        cited = ["Rattle.%s.proofs.%s" % (self.crate, ".".join(function.place(it))) for it in (None, name)]
        for path, proof in {} if function.cycle else self.sources.proof_of(function).items():
            self.texts[as_copy + path[len(below) :]] = re.sub(re.escape(cited[0]) + r"(?![\w-])", cited[1], proof)
        self.keep_answers(as_copy, kept)
        if goals or searched:
            long = self.goals.long.get(function.path(), ()) if self.goals else ()
            self.dig_goals(as_copy + "Answers.antt", cited[1], goals, searched, long=long)
        self.asked.append(function.path(name))

    def copy_cycle(self, function, text, name, tried):
        """Adds a copy of the cycle of a function, in a module of its own, with this text of the function."""
        source, cycle, beside = self.sources.texts[function.file], self.sources.cycle_of(function), self.sources.beside(function)
        shown = [text if it is function else source[it.start : it.end] for it in cycle]
        imports = "use crate::%s::{%s};\n" % ("::".join(function.module()), ", ".join(beside)) if beside else ""
        file = "src/%s.rt" % "/".join([*function.module()[:-1], name[1:]])
        if file in self.texts:
            self.asked.append(function.path(name))
            return
        self.texts[file] = head_of(source).rstrip("\n") + "\n" + imports + "\n" + "\n\n".join(it.strip("\n") for it in shown) + "\n"
        self.spans.append((file, 0, len(self.texts[file]), tried))
        self.declare(function.module(), name[1:])
        below, cited = "/".join(["proofs", *function.place("+" + function.cycle)]), self.cited(function)
        to = "/".join(["proofs", *function.place(name)[:-1], "+" + function.cycle])
        for path, proof in self.sources.proof_of(function).items():
            renamed = "Rattle.%s.%s" % (self.crate, to.replace("/", "."))
            self.texts[to + path[len(below) :]] = re.sub(re.escape(cited) + r"(?![\w-])", renamed, proof)
        self.asked.append(function.path(name))

    def declare(self, module, name):
        """Declares a module beside another one."""
        for root in ["src/%s.rt" % "/".join(module[:-1])] if module[:-1] else ["src/lib.rt", "src/main.rt"]:
            found = re.search(r"^(?:pub(?:\([a-z]+\))? )?mod %s;$" % module[-1], self.sources.texts.get(root, ""), re.M)
            if found:
                self.changes.setdefault(root, []).append((found.end(), found.end(), "\nmod %s;" % name, None))

    def keep_answers(self, folder, kept):
        """Makes holes of the written answers of a function but these."""
        path = folder + "Answers.antt"
        if self.holes and path in self.texts:
            self.texts[path] = self.holes.answers(self.texts[path], kept)

    def dig_goals(self, path, cited, goals, searched, search=SEARCH, long=()):
        """Answers goals of a function by holes, and others by a search, these by all that the compiler tries."""
        text = self.texts.get(path, "")
        found = re.search(r"^use %s\.Goals as (\S+)$" % re.escape(cited), text, re.M)
        alias = found[1] if found else "goal_of_copy"
        head = "" if found else GOALS % (self.crate, cited.split(".proofs.")[1], alias)
        head += "" if imports_of(self.crate) in text else imports_of(self.crate) + "\n"
        head += TRIED if searched else ""
        text += "".join("\n" + (LIKE_THE_COMPILER if it in long else search) % (it, alias, it, it) for it in searched)
        self.dug[path] = (head + text).count("\n")
        self.texts[path] = head + text + "".join(ANSWER % (it, alias, it, it) for it in goals)

    def is_stale(self, function, name, errors):
        """Whether a hole of a function, or of a copy of it, has an error: it answers no goal of it, or one that
        has an answer. In a function's place, where no control is, a search counts only if it says that it failed."""
        path = "/".join(["proofs", *function.place(name), "Answers.antt"])
        found = [(line, said) for file, line, _, said in errors if file == path and path in self.dug]
        if any(line > self.dug[path] or GONE.search(said) for line, said in found):
            return True
        return name is None and path in self.alike and found != [] and not any(FAILED.search(said) for _, said in found)

    def copy_all(self, tries):
        """Adds a copy of the function of each of these, under its name, or puts it in its place."""
        for it in tries:
            if it.name:
                self.copy(it.function, it.text, it.name, it, it.holes, it.kept, it.searched())
                self.change_imports(it.edit)
                continue
            self.place(it, without_tactics(it.text) if it.holes is None else it.text)
            place = it.function.place()
            folder = "/".join(["proofs", *place]) + "/"
            self.keep_answers(folder, it.kept)
            if it.holes or it.searched():
                cited = "Rattle.%s.proofs.%s" % (self.crate, ".".join(place))
                is_short = self.goals is not None and self.goals.is_short(it.function, self.sources, it.searched())
                self.dig_goals(folder + "Answers.antt", cited, it.holes, it.searched(), SEARCH if is_short else LIKE_THE_COMPILER)
                self.alike |= {folder + "Answers.antt"} if it.searched() else set()

    def place(self, tried, text=None):
        """Gives a function the text that is tried."""
        one = tried.function
        self.changes.setdefault(one.file, []).append((one.start, one.end, text or tried.text, tried))
        self.change_imports(tried.edit)
        self.asked.append(one.path())

    def copy_files(self, tries, modules):
        """Adds copies of the files of each of these, and their controls. Returns the suffix of the control
        of each set of files."""
        controls, imports = {}, []
        for it in tries:
            changed, set_of = it.edit.edited()[0], frozenset(it.files)
            copies = [(changed, it.suffix)]
            if set_of not in controls:
                controls[set_of] = "_c%d" % len(controls)
                copies.append(({}, controls[set_of]))
            for texts, suffix in copies:
                made, declared = modules.copies(it.files, texts, suffix)
                self.texts.update(made)
                for file, line, added in declared:
                    self.texts[file] = re.sub("^%s$" % re.escape(line), lambda found: found[0] + "\n" + added, self.texts[file], count=1, flags=re.M)
                imports.append(modules.name(it.edit.by) + suffix)
        self.carry(imports)
        return controls

    def carry(self, imports):
        """Has files read: a function that is not tried imports them, in a proof that is a hole."""
        busy = {one.place()[-1] for one in self.sources.functions if one.path() in self.asked}
        for it in self.sources.functions:
            odd = it.is_odd or it.cycle or it.of_trait or "tests" in it.module()
            if not odd and it.name not in busy and it.path() not in self.asked:
                for path in self.sources.proof_of(it):
                    self.texts.pop(path, None)
                hole = HOLE % (self.cited(it) + ".Statement", imports_of(self.crate), it.name, it.name)
                self.texts["/".join(["proofs", *it.place(), "Proof.antt"])] = "".join(CARRIED % one for one in imports) + hole
                self.asked.append(it.path())
                return

    def keep(self, function):
        """Has a function checked as it is."""
        self.asked.append(function.path())

    def change_imports(self, edit):
        """Changes what files import, as an edit does."""
        for part in edit.parts:
            if part.is_import():
                self.imports[part.file, part.old] = part.new

    def change(self, tried):
        """Gives the files of an edit its texts."""
        texts = tried.edit.edited()[0]
        self.texts.update(texts)
        self.spans += [(file, 0, len(text), tried) for file, text in texts.items()]

    def dig(self):
        """Makes holes of the proofs of all functions that are not asked for, and stubs of their bodies. `main` goes."""
        asked = set(self.asked)
        kept = {self.cited(it) for it in self.sources.functions if it.path() in asked}
        for it in self.sources.functions:
            cited, proof = self.cited(it), self.sources.proof_of(it)
            if it.is_odd or "tests" in it.module() or cited in kept or (it.of_trait and not proof):
                continue
            for path in proof:
                self.texts.pop(path, None)
            if it.path() == "main" and self.is_as_it_was(it.file):
                self.changes.setdefault(it.file, []).append((it.start, it.end, NO_MAIN, None))
                continue
            name = "+" + it.cycle if it.cycle else it.name
            stated = cited if it.cycle else cited + ".Statement"
            self.texts[cited[len("Rattle.%s." % self.crate) :].replace(".", "/") + "/Proof.antt"] = HOLE % (stated, imports_of(self.crate), name, name)
            self.stub(it)

    def stub(self, it):
        """Gives a function a body that costs nothing. A cycle of calls stays one. A body stays of which callers see
        more than its contract, and one of a file that an edit changes."""
        text = self.sources.texts[it.file]
        has_body = text[it.body : it.end - 1].strip() and not NO_STUB.search(text[it.start : it.body])
        if has_body and not it.cycle and self.is_as_it_was(it.file):
            self.changes.setdefault(it.file, []).append((it.body, it.end - 1, STUB, None))

    def is_as_it_was(self, file):
        """Whether no edit has changed this file."""
        return self.texts[file] == self.sources.texts[file]

    def folder(self, it):
        """The front of the names of all that stands in the folder of a function's proof."""
        return self.cited(it) + "."

    def cited(self, it):
        """The name by which proofs cite a function, or its cycle."""
        return "Rattle.%s.proofs.%s" % (self.crate, ".".join(it.place("+" + it.cycle if it.cycle else None)))

    def done(self):
        """The texts with all changes."""
        for (file, old), new in self.imports.items():
            self.changes.setdefault(file, []).append((self.texts[file].index(old), self.texts[file].index(old) + len(old), new, None))
        for file, changes in self.changes.items():
            text, was, made = self.texts[file], 0, ""
            for start, end, new, tried in sorted(changes, key=lambda it: it[0]):
                made += text[was:start]
                self.spans.append((file, len(made), len(made) + len(new), tried))
                made, was = made + new, end
            self.texts[file] = made + text[was:]
        self.changes, self.imports = {}, {}
        return self.texts

    def blamed(self, errors):
        """What is tried at the places of these errors, each with the first of them."""
        found = {}
        for file, line, kind, said in errors:
            lines = self.texts.get(file, "").split("\n")
            at = sum(len(it) + 1 for it in lines[: line - 1]) + len(lines[min(line, len(lines)) - 1])
            for of, start, end, tried in self.spans:
                if tried and of == file and start <= at <= end:
                    found.setdefault(tried, ("%s %s" % (kind, said)).strip()[:200])
        return found
