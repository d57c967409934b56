"""The tree of an ASN.1 module (X.680, X.681 to X.683)."""

from __future__ import annotations

import dataclasses
import typing


class Refused(Exception):
    """An error: something can't be parsed or written. It has the line in the module."""

    def __init__(self, line: int, reason: str):
        super().__init__(reason)
        self.line, self.reason = line, reason


@dataclasses.dataclass(frozen=True)
class Tag:
    """A tag. `mode` is IMPLICIT or EXPLICIT, or None if the module's default applies."""

    cls: str
    number: int
    mode: str | None
    line: int


# The end of a range: a number, MIN, MAX, or the name of a value.
Bound = typing.Union[int, str]


@dataclasses.dataclass(frozen=True)
class Constraint:
    """A constraint in parentheses.

    `kind` is "size" or "values", for which `ranges` has the ends of each range, or "contents", for
    CONTAINING and what else says nothing of the bytes of the value itself, or "other".
    """

    kind: str
    text: str
    line: int
    ranges: tuple[tuple[Bound, Bound], ...] = ()
    extensible: bool = False


@dataclasses.dataclass
class Type:
    line: int
    constraints: list[Constraint] = dataclasses.field(default_factory=list, kw_only=True)


@dataclasses.dataclass
class Plain(Type):
    """A type whose name is one word or two, such as BOOLEAN or OCTET STRING."""

    word: str


@dataclasses.dataclass
class Named(Type):
    """A reference to a type by its name, with the arguments for its parameters."""

    name: str
    arguments: list[Argument] = dataclasses.field(default_factory=list)


@dataclasses.dataclass
class Open(Type):
    """A value of any type: ANY, or an open type of a class."""


@dataclasses.dataclass
class ClassField(Type):
    """The type of a field of a class, such as ALGORITHM.&id."""

    cls: str
    field: str


@dataclasses.dataclass(frozen=True)
class Item:
    """A named number, or a named bit."""

    name: str
    number: int
    line: int


@dataclasses.dataclass
class Numbered(Type):
    """An INTEGER, ENUMERATED or BIT STRING with named numbers or bits."""

    word: str
    items: list[Item]
    extensible: bool


@dataclasses.dataclass
class Field:
    """A component of a SEQUENCE, or an alternative of a CHOICE."""

    name: str
    type: Type
    line: int
    optional: bool = False
    default: str | None = None
    # It comes after an extension marker.
    is_addition: bool = False


@dataclasses.dataclass(frozen=True)
class ComponentsOf:
    """COMPONENTS OF a type."""

    type: Type
    line: int


@dataclasses.dataclass
class Structure(Type):
    """A SEQUENCE, SET or CHOICE with its fields."""

    word: str
    fields: list[Field | ComponentsOf]
    extensible: bool


@dataclasses.dataclass
class ListOf(Type):
    """A SEQUENCE OF or SET OF."""

    word: str
    member: Type


@dataclasses.dataclass
class Tagged(Type):
    tag: Tag
    inner: Type


# An argument for a parameter: a type, a number, the name of a value, or None for anything else.
Argument = typing.Union[Type, int, str, None]


@dataclasses.dataclass
class Definition:
    """A type with its name, and the text that declares it."""

    name: str
    type: Type
    line: int
    text: str
    parameters: list[str] = dataclasses.field(default_factory=list)


@dataclasses.dataclass
class Module:
    name: str = ""
    tags: str = "EXPLICIT"
    types: dict[str, Definition] = dataclasses.field(default_factory=dict)
    # Values in braces that can be object identifiers: the type, the arcs and the line.
    values: dict[str, tuple[Type, list[int | str], int]] = dataclasses.field(default_factory=dict)
    numbers: dict[str, int] = dataclasses.field(default_factory=dict)
    # For each class, the types of those fields that have a fixed type.
    classes: dict[str, dict[str, Type]] = dataclasses.field(default_factory=dict)
    # Sets of values, objects and sets of objects, which aren't encoded.
    others: dict[str, int] = dataclasses.field(default_factory=dict)
    # The module from which a name is imported, and the line.
    imports: dict[str, tuple[str, int]] = dataclasses.field(default_factory=dict)


class Report:
    """The errors and notes about a module, each with its line."""

    def __init__(self, path):
        self.path, self.errors, self.notes = path, [], []

    def error(self, line, reason):
        if (line, reason) not in self.errors:
            self.errors.append((line, reason))

    def note(self, line, reason):
        if (line, reason) not in self.notes:
            self.notes.append((line, reason))

    def lines(self):
        for kind, found in (("error", self.errors), ("note", self.notes)):
            for line, reason in sorted(found):
                yield f"{self.path}:{line}: {kind}: {reason}"
