"""The words of the calls of arrays. `python3 tests/calls.py --write` writes this file."""

from typing import Dict, NamedTuple


class Command(NamedTuple):
    """What a word stands for: the kind of the array, the operation, the fields after the name, and whether it
    inserts, exchanges, removes, frees or looks."""

    kind: str
    operation: str
    fields: str
    does: str


COMMANDS: Dict[str, Command] = {
    "J1S": Command("Judy1", "Insert", "i", "inserts"),
    "J1SE": Command("Judy1", "Fill", "i", "inserts"),
    "J1U": Command("Judy1", "Remove", "i", "removes"),
    "J1UF": Command("Judy1", "Pop", "i k", "removes"),
    "J1UR": Command("Judy1", "Cut", "i k n", "removes"),
    "J1T": Command("Judy1", "Look", "i", "looks"),
    "J1C": Command("Judy1", "Count", "i k", "looks"),
    "J1BC": Command("Judy1", "Nth", "n", "looks"),
    "J1F": Command("Judy1", "First", "i [n]", "looks"),
    "J1N": Command("Judy1", "Next", "i [n]", "looks"),
    "J1L": Command("Judy1", "Last", "i [n]", "looks"),
    "J1P": Command("Judy1", "Prev", "i [n]", "looks"),
    "J1FE": Command("Judy1", "FirstEmpty", "i [n]", "looks"),
    "J1NE": Command("Judy1", "NextEmpty", "i [n]", "looks"),
    "J1LE": Command("Judy1", "LastEmpty", "i [n]", "looks"),
    "J1PE": Command("Judy1", "PrevEmpty", "i [n]", "looks"),
    "J1I": Command("Judy1", "Intersect", "other i n", "looks"),
    "J1FA": Command("Judy1", "Free", "", "frees"),
    "JLI": Command("JudyL", "Insert", "i [v]", "inserts"),
    "JLIE": Command("JudyL", "Fill", "i v", "inserts"),
    "JLA": Command("JudyL", "Add", "i n", "inserts"),
    "JLK": Command("JudyL", "Keep", "i v", "inserts"),
    "JLX": Command("JudyL", "Exchange", "i old new", "exchanges"),
    "JLD": Command("JudyL", "Remove", "i [v]", "removes"),
    "JLDF": Command("JudyL", "Pop", "i k", "removes"),
    "JLDR": Command("JudyL", "Cut", "i k n", "removes"),
    "JLT": Command("JudyL", "Take", "i", "removes"),
    "JLG": Command("JudyL", "Look", "i", "looks"),
    "JLC": Command("JudyL", "Count", "i k", "looks"),
    "JLBC": Command("JudyL", "Nth", "n", "looks"),
    "JLF": Command("JudyL", "First", "i [n]", "looks"),
    "JLN": Command("JudyL", "Next", "i [n]", "looks"),
    "JLL": Command("JudyL", "Last", "i [n]", "looks"),
    "JLP": Command("JudyL", "Prev", "i [n]", "looks"),
    "JLFE": Command("JudyL", "FirstEmpty", "i [n]", "looks"),
    "JLNE": Command("JudyL", "NextEmpty", "i [n]", "looks"),
    "JLLE": Command("JudyL", "LastEmpty", "i [n]", "looks"),
    "JLPE": Command("JudyL", "PrevEmpty", "i [n]", "looks"),
    "JLFA": Command("JudyL", "Free", "", "frees"),
    "JSLI": Command("JudySL", "Insert", "key [v]", "inserts"),
    "JSLA": Command("JudySL", "Add", "key n", "inserts"),
    "JSLK": Command("JudySL", "Keep", "key v", "inserts"),
    "JSLX": Command("JudySL", "Exchange", "key old new", "exchanges"),
    "JSLD": Command("JudySL", "Remove", "key [v]", "removes"),
    "JSLDF": Command("JudySL", "Pop", "key", "removes"),
    "JSLT": Command("JudySL", "Take", "key", "removes"),
    "JSLG": Command("JudySL", "Look", "key", "looks"),
    "JSLF": Command("JudySL", "First", "key [n]", "looks"),
    "JSLN": Command("JudySL", "Next", "key [n]", "looks"),
    "JSLL": Command("JudySL", "Last", "key [n]", "looks"),
    "JSLP": Command("JudySL", "Prev", "key [n]", "looks"),
    "JSLFA": Command("JudySL", "Free", "", "frees"),
    "JHSI": Command("JudyHS", "Insert", "key [v]", "inserts"),
    "JHSA": Command("JudyHS", "Add", "key n", "inserts"),
    "JHSK": Command("JudyHS", "Keep", "key v", "inserts"),
    "JHSX": Command("JudyHS", "Exchange", "key old new", "exchanges"),
    "JHSD": Command("JudyHS", "Remove", "key [v]", "removes"),
    "JHST": Command("JudyHS", "Take", "key", "removes"),
    "JHSG": Command("JudyHS", "Look", "key", "looks"),
    "JHSF": Command("JudyHS", "First", "n", "looks"),
    "JHSN": Command("JudyHS", "Next", "key n", "looks"),
    "JHSFA": Command("JudyHS", "Free", "", "frees"),
}
