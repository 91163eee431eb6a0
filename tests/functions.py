"""The functions of a crate's sources, found by the layout of `rt fmt`: where each begins and ends, and
where its proof stands."""

import os
import re

HEAD = re.compile(r"^( *)(?:pub(?:\([a-z]+\))? )?(?:const |unsafe )*fn (\w+)", re.M)
BLOCK = re.compile(r"^(?:pub(?:\([a-z]+\))? )?(?:unsafe )?(?:impl|trait)\b", re.M)
CYCLE = re.compile(r"#\[cycle\((\w+)\)\]\s*")
ITEM = re.compile(r"^(pub(?:\([a-z]+\))? )?(?:const |unsafe )*(?:fn|const|static|struct|enum|type|trait) (?:mut )?(\w+)", re.M)
TYPE = re.compile(r"^(?:pub(?:\([a-z]+\))? )?(?:struct|enum) (\w+)", re.M)


class Function:
    """A function with a body. Its text goes from `start` (its attributes) to `end`; its head begins
    at `head`, and its body at `body`. `owner` is its type, with its trait behind it in a trait's
    impl; `cycle` is the name of its cycle of calls, if it is in one."""

    def __init__(self, file, name, start, head, body, end):
        self.file, self.name = file, name
        self.start, self.head, self.body, self.end = start, head, body, end
        self.owner, self.of_trait, self.is_odd, self.cycle = None, False, False, None
        self.home = file

    def module(self):
        """The names of its module below the crate. A method's is that of its type."""
        return [] if self.home in ("src/lib.rt", "src/main.rt") else self.home[len("src/") : -len(".rt")].split("/")

    def place(self, name=None):
        """The names that lead to it, or to another function beside it, below the crate. A name `@MODULE` leads to a
        function of its name in that module beside its own."""
        if name and name.startswith("@"):
            return [*self.module()[:-1], name[1:], self.name]
        return [*self.module(), *([self.owner] if self.owner else []), name or self.name]

    def path(self, name=None):
        """The path that a check prints, below the crate."""
        return "::".join(self.place(name))


def stripped(header):
    """The header of an impl or a trait without its type parameters."""
    while True:
        shorter = re.sub(r"<[^<>]*>", "", header)
        if shorter == header:
            return header
        header = shorter


def block_around(text, at):
    """The header of the impl or trait around a place, without type parameters; None outside of all."""
    heads = [it for it in BLOCK.finditer(text, 0, at)]
    if not heads or heads[-1].start() < text.rfind("\n}", 0, at):
        return None
    begins = heads[-1].start()
    return " ".join(stripped(text[begins : text.index("{", begins)].replace("->", "")).split())


def own_impl_around(text, at):
    """The header of a trait's impl around a place, without the trait: `impl<R> Reads<R>`, and where
    the impl ends. None if it is not of this form."""
    begins = [it for it in BLOCK.finditer(text, 0, at)][-1].start()
    found = re.match(r"(impl(?:<[^\n]*?>)?) [\w:]+(?:<[^<>]*>)? for ([^{]*)\{", text[begins:])
    return (found[1] + " " + found[2].strip(), text.index("\n}", at) + 2) if found else None


def end_of_head(text, found):
    """Where the body of a function begins, whose head was found; None if it has none."""
    ends = text.find("\n", found.start())
    line = text[found.start() : ends].rstrip()
    if line.endswith("{"):
        return found.start() + len(line)
    if line.endswith((";", "}")):
        return None
    body = re.compile(r"^%s(?:\{|\)[^\n]*[{;])$" % found[1], re.M).search(text, found.end())
    following = HEAD.search(text, found.end())
    if not body or body[0].endswith(";") or (following and following.start() < body.start()):
        return None
    return body.end()


def law_of(text, found):
    """The empty body of a law, whose head was found: `{}` on a line of its own; None if it has another."""
    body = re.compile(r"^%s\{\}$" % found[1], re.M).search(text, found.end())
    following = HEAD.search(text, found.end())
    return None if not body or (following and following.start() < body.start()) else body


def start_of(text, head):
    """Where the attributes of a function begin."""
    while head:
        above = text.rfind("\n", 0, head - 1) + 1
        if not text[above:head].strip().startswith("#["):
            break
        head = above
    return head


def functions_of(file, text):
    """The functions of a file."""
    found = []
    for it in HEAD.finditer(text):
        body = end_of_head(text, it)
        last = body and re.compile(r"^%s\}" % it[1], re.M).search(text, body)
        if not body and (last := law_of(text, it)):
            body = last.end() - 1
        if not last:
            continue
        one = Function(file, it[2], start_of(text, it.start()), it.start(), body, last.end())
        header = block_around(text, it.start()) if it[1] else None
        if it[1]:
            names = header and re.match(r"(?:unsafe )?impl (?:([\w:]+) for )?([\w:]+)$", header.split(" where ")[0])
            one.is_odd = len(it[1]) != 4 or not names
            if names:
                one.of_trait = names[1] is not None
                one.owner = names[2].split("::")[-1] + (names[1].split("::")[-1] if names[1] else "")
        cycle = CYCLE.search(text, one.start, one.head)
        one.cycle = cycle[1] if cycle else None
        found.append(one)
    return found


def head_of(text):
    """The front of a file: what stands before its first item, its imports among it."""
    return text[: re.search(r"^(?:///|#\[|(?:pub(?:\([a-z]+\))? )?(?:const|unsafe|fn|static|struct|enum|type|trait|impl)\b)", text, re.M).start()]


class Sources:
    """The texts of a crate, by their paths, and its functions."""

    def __init__(self, folder, parts):
        self.folder, self.texts = folder, {}
        for part in parts:
            for at, folders, names in os.walk(os.path.join(folder, part)):
                folders.sort()
                for name in sorted(names):
                    with open(os.path.join(at, name), encoding="utf-8") as file:
                        self.texts[os.path.relpath(os.path.join(at, name), folder)] = file.read()
        self.functions = [it for file, text in self.texts.items() if file.startswith("src/") and file.endswith(".rt")
                          for it in functions_of(file, text)]
        homes = {}
        for file, text in self.texts.items():
            for name in TYPE.findall(text) if file.startswith("src/") else ():
                homes.setdefault(name, []).append(file)
        folders = {os.path.dirname(it) for it in self.texts}
        for it in self.functions:
            if it.owner and not it.of_trait and len(homes.get(it.owner, ())) == 1:
                it.home = homes[it.owner][0]
            if not it.cycle and "/".join(["proofs", *it.place("+" + it.name)]) in folders:
                it.cycle = it.name

    def cycle_of(self, one):
        """The functions of the cycle of calls of a function."""
        return [it for it in self.functions if it.file == one.file and it.cycle == one.cycle]

    def beside(self, one):
        """The items of its file that the cycle of a function uses; None if one is private, or if the functions can't
        stand in another module."""
        if one.owner or len(one.module()) == 0 or one.home != one.file:
            return None
        text, cycle = self.texts[one.file], self.cycle_of(one)
        own = {it.name for it in cycle}
        used = [(it[1], it[2]) for it in ITEM.finditer(text)
                if it[2] not in own and any(re.search(r"\b%s\b" % it[2], text[f.start : f.end]) for f in cycle)]
        return [name for _, name in used] if all(public for public, _ in used) else None

    def around(self, file, at, size):
        """The function whose text has this place; None if it is outside of all."""
        inside = [it for it in self.functions if it.file == file and it.start <= at and at + size <= it.end]
        return max(inside, key=lambda it: it.start) if inside else None

    def proof_of(self, it):
        """The files of a function's proof, or of that of its cycle."""
        place = "/".join(["proofs", *it.place("+" + it.cycle if it.cycle else None)]) + "/"
        return {path: text for path, text in self.texts.items() if path.startswith(place)}
