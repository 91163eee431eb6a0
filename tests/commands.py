"""The commands of the protocol, from the one table that defines them: the word of each, the kind of its
array, what it does there, and the forms of its fields. Those of a call that names another array are in
the grammar. A new command of a known operation needs no other list in the tests."""

import os
import re
from typing import NamedTuple

TOP = os.path.dirname(os.path.dirname(os.path.abspath(__file__)))
CODE = "crates/judy_model/specs/Commands.antt"
GRAMMAR = "crates/judy_model/specs/Grammar.antt"
ROW = re.compile(r'\(codes "(J\w+)", to (\w+) (\w+)\)')
CALL = re.compile(r"^(\w+)_with (\w+) (key )?(?:numbers\.Nothing|\(numbers\.\w+ ([\w ]+)\)) = (?:Some|option_map) ", re.M)
OF_NO_KEY = re.compile(r"^first_keys \(numbers\.\w+ ([\w ]+)\) = option_map \(λ \w+\. (\w+)\.(\w+) ", re.M)
OF_TWO = re.compile(r"^\w+_with name (\w+) \(numbers\.\w+ ([\w ]+)\) = option_map \(λ \w+\. (\w+) name \1 ", re.M)
MAKERS = {"one": "One", "long": "Long", "string": "Str", "bytes": "Bytes"}
KINDS = {"One": "Judy1", "Long": "JudyL", "Str": "JudySL", "Bytes": "JudyHS"}  # their names in the manual
FEWEST = 40  # commands: fewer were not read


class Command(NamedTuple):
    """What a word stands for: the kind of the array, and the operation."""

    kind: str
    operation: str


def definition(path=CODE):
    """The text of the table, or of the grammar."""
    with open(os.path.join(TOP, path), encoding="utf-8") as file:
        return file.read()


def commands():
    """Each word with its command, in the order of the table."""
    found = {word: Command(kind, operation) for word, kind, operation in ROW.findall(definition())}
    if len(found) < FEWEST:
        raise ValueError("%s has %d commands, which are too few: it was not read" % (CODE, len(found)))
    return found


def forms():
    """Each word with the forms of its fields after the name, as the pages call them; the shortest first."""
    made = {}
    for maker, operation, key, letters in CALL.findall(definition()):
        made.setdefault(Command(MAKERS[maker], operation), []).append((*(["key"] if key else []), *letters.split()))
    for letters, maker, operation in OF_NO_KEY.findall(definition()):
        made.setdefault(Command(MAKERS[maker], operation), []).append(tuple(letters.split()))
    for other, letters, operation in OF_TWO.findall(definition(GRAMMAR)):
        made.setdefault(Command("One", operation), []).append((other, *letters.split()))
    found = {}
    for word, it in COMMANDS.items():
        if it not in made and it.operation != "Free":  # no function of the table makes the call that takes no key
            raise ValueError("%s: the forms of %s were not read" % (CODE, word))
        found[word] = sorted(made.get(it, [()]), key=len)
    return found


COMMANDS = commands()
WORDS = {it: word for word, it in COMMANDS.items()}
FORMS = forms()


def word_of(kind, operation):
    """The word of a command."""
    return WORDS[Command(kind, operation)]


def is_byte_walk(word):
    """Whether a command walks a JudyHS. libjudy has nothing like it."""
    return COMMANDS[word].kind == "Bytes" and COMMANDS[word].operation in ("First", "Next")


def usage(word):
    """The fields of a command after the name, as pages show them: those that may be left out in brackets."""
    least, longest = FORMS[word][0], FORMS[word][-1]
    return " ".join([*least, *("[%s]" % it for it in longest[len(least) :])])
