"""The statements of systems, read word by word and said in the order in which one would say them."""

import re
from typing import NamedTuple


class Stop(Exception):
    """The word at which the reading of a statement stops, and what is wanted there."""

NUMBER, ENTITY = "int", "entity"
OWED = "an expression of the kind that its place wants"
VALUES = "an expression for each field of the component that was named"
STATEMENT = "a statement"
SAID_OF = {NUMBER: "a number", ENTITY: "an entity"}
OWN, WRITTEN, LOOKED_AT, ANY = ("read", "write"), ("write",), ("look",), ()  # lists of a system; `ANY` is of no list
COMPONENTS_OF = {OWN: "a component that the system reads or writes", WRITTEN: "a component that the system writes",
                 LOOKED_AT: "a component that the system looks at", ANY: "a component"}


class Field(NamedTuple):
    """A word that names a field; its component stands in one of these lists."""

    lists: tuple


class Name(NamedTuple):
    """A word that names a component of one of these lists."""

    lists: tuple


class Said(NamedTuple):
    """A text, and how tightly it holds together: from 0 to 5, a single word. A place that wants more gets brackets."""

    text: str
    tightness: int = 5

    def __format__(self, wanted):
        return self.text if self.tightness >= int(wanted or 0) else f"({self.text})"


class Form(NamedTuple):
    """What follows a word, and how one says it all: each operand with the tightness that its place wants."""

    operands: list
    says: str
    kind: str = ""  # of an expression; of a statement's field, where it must have one
    tightness: int = 0


STATEMENTS = {
    "set": Form([Field(WRITTEN), OWED], "set {0} to {1}"),
    "kill": Form([ENTITY], "kill {0}"),
    "give": Form([ENTITY, Name(ANY), VALUES], "give {0:2} {1}{2}"),
    "take": Form([ENTITY, Name(ANY)], "take {1} from {0}"),
    "send": Form([ENTITY, Field(ANY), OWED], "send {2:2} to {1} of {0:2}"),
    "add": Form([ENTITY, Field(ANY), OWED], "add {2:2} to {1} of {0:2}", NUMBER),
    "spawn": Form([], "spawn"),
    "bear": Form([Name(ANY), VALUES], "bear {0}{1}"),
}
WHEN = Form([NUMBER, STATEMENT], "when {0}: {1}")
EXPRESSIONS = {
    "tick": Form([], "tick", NUMBER, 5),
    "self": Form([], "self", ENTITY, 5),
    "null": Form([], "null", ENTITY, 5),
    "+": Form([NUMBER, NUMBER], "{0:3} + {1:4}", NUMBER, 3),
    "-": Form([NUMBER, NUMBER], "{0:3} - {1:4}", NUMBER, 3),
    "*": Form([NUMBER, NUMBER], "{0:4} * {1:5}", NUMBER, 4),
    "/": Form([NUMBER, NUMBER], "{0:4} / {1:5}", NUMBER, 4),
    "%": Form([NUMBER, NUMBER], "{0:4} % {1:5}", NUMBER, 4),
    "min": Form([NUMBER, NUMBER], "min({0:1}, {1:1})", NUMBER, 5),
    "max": Form([NUMBER, NUMBER], "max({0:1}, {1:1})", NUMBER, 5),
    "<": Form([NUMBER, NUMBER], "{0:3} < {1:3}", NUMBER, 2),
    "=": Form([NUMBER, NUMBER], "{0:3} = {1:3}", NUMBER, 2),
    "same": Form([ENTITY, ENTITY], "{0:3} is {1:3}", NUMBER, 2),
    "has": Form([ENTITY, Name(LOOKED_AT)], "{0:3} has {1}", NUMBER, 2),
    "?": Form([NUMBER, OWED, OWED], "if {0:2} then {1:2} else {2:1}", OWED, 1),
    "at": Form([ENTITY, Field(LOOKED_AT), OWED], "{1} of {0:2}, else {2:2}", OWED, 0),
}
MOST_NESTING = 16


def integer(word, low, high):
    """The number from `low` to `high` that a word spells, or None."""
    found = re.fullmatch("0|-?[1-9][0-9]{0,18}", word)
    return int(word) if found and low <= int(word) <= high else None


def is_int(word):
    """Whether a word is an `int` value."""
    return integer(word, -(2**63), 2**63 - 1) is not None


class System:
    """The lists of a system, and how many statements and orders have been read in it."""

    def __init__(self, name, most_orders):
        self.name, self.most_orders = name, most_orders
        self.statements = self.orders = 0
        self.lists = {"read": [], "write": [], "look": [], "not": []}

    def __str__(self):
        having, barred = self.lists["read"] + self.lists["write"], self.lists["not"]
        without = f", without {' and '.join(barred)}" if barred else ""
        return f"system {self.name}: for each entity with {' and '.join(having)}{without}"


class Reader:
    """The words of a `do` line in a system, read from the left. The components are names with the kinds of fields."""

    def __init__(self, line, system, components):
        self.words, self.at = line.split(" "), 1
        self.system, self.components = system, components

    def explain(self):
        """What the whole line says."""
        said = self.form(WHEN, "", 0) if self.take("when") else self.statement()
        return said if self.at == len(self.words) else self.stop("the end of the line")

    def take(self, *words):
        """The word that comes, where it is one of these: it is read then."""
        if self.at == len(self.words) or self.words[self.at] not in words:
            return None
        self.at += 1
        return self.words[self.at - 1]

    def stop(self, wanted):
        """Ends the reading at the word that comes."""
        word = "the end of the line" if self.at == len(self.words) else f"word {self.at + 1}, `{self.words[self.at]}`"
        raise Stop(f"the reading stops at {word}; wanted is {wanted}")

    def form(self, form, kind, nesting):
        """What follows a word, and what it says. The kind is what its place wants; a field that is named may tell it."""
        said, fields = [], []
        for operand in form.operands:
            if isinstance(operand, Field):
                word, kind = self.field(operand.lists, kind)
                said.append(Said(word))
            elif isinstance(operand, Name):
                word, fields = self.name(operand.lists)
                said.append(Said(word))
            elif operand == VALUES:
                values = [f"{self.expression(field, 1):1}" for field in fields]
                said.append(Said(f" ({', '.join(values)})" if values else ""))
            elif operand == STATEMENT:
                said.append(self.statement())
            else:
                said.append(self.expression(kind if operand == OWED else operand, nesting + 1))
        return Said(form.says.format(*said), form.tightness)

    def statement(self):
        """What comes behind `do`, or behind `when` and its number."""
        word = self.take(*STATEMENTS) or self.stop("a statement: " + ", ".join(STATEMENTS))
        if word != "set":
            if self.system.orders == self.system.most_orders:
                self.at -= 1
                self.stop("`set`, since no order may follow: a system has at most 8, and a document 64")
            self.system.orders += 1
        return self.form(STATEMENTS[word], STATEMENTS[word].kind, 0)

    def expression(self, kind, nesting):
        """An expression of a kind, on this level of its statement."""
        if nesting > MOST_NESTING:
            self.stop(f"an expression of fewer levels: {MOST_NESTING} are the most")
        word = self.take(*(word for word, form in EXPRESSIONS.items() if form.kind in (kind, OWED)))
        if word:
            return self.form(EXPRESSIONS[word], kind, nesting)
        if kind == NUMBER and self.at < len(self.words) and is_int(self.words[self.at]):
            return Said(self.take(self.words[self.at]))
        return Said(self.field(OWN, kind, SAID_OF[kind])[0])

    def field(self, lists, kind, wanted=None):
        """A field's word and its kind, which is this one where there is one."""
        fields = [(f"{name}.{place}", found) for name in self.named(lists)
                  for place, found in enumerate(self.components[name]) if kind in ("", found)]
        word = self.take(*(word for word, _ in fields))
        of_kind = f", of kind `{kind}`" if kind else ""
        return (word, dict(fields)[word]) if word else self.stop(wanted or f"a field of {COMPONENTS_OF[lists]}{of_kind}")

    def name(self, lists):
        """A component's name, and the kinds of its fields."""
        word = self.take(*self.named(lists)) or self.stop(COMPONENTS_OF[lists])
        return word, self.components[word]

    def named(self, lists):
        """The components that stand in these lists."""
        return [name for word in lists for name in self.system.lists[word]] if lists else list(self.components)
