"""The types of the library, and the tables from which modules import types."""

import dataclasses
import functools
import pathlib
import re

from .parser import parsed
from .syntax import Refused

HERE = pathlib.Path(__file__).resolve().parent


@dataclasses.dataclass(frozen=True)
class RustType:
    """The Rust type for an ASN.1 type, without a tag around it."""

    text: str
    # The paths that a file must import to use it.
    uses: frozenset[str] = frozenset()
    # The tags with which an encoding can begin: "SEQUENCE", or the number N of [N]; None for any.
    first: frozenset | None = frozenset()
    # A tag around it must be explicit, as for a CHOICE or any type (X.680 31.2.7).
    is_choice: bool = False
    is_copy: bool = False
    # It implements `AsRead`.
    is_as_read: bool = True
    # For an INTEGER: the bits of the machine integer, negative if it is signed, or 0 for any size.
    bits: int | None = None
    # Its default value, as the module names it.
    default: str | None = None
    # The constraint of a set that must have a member, which only some fields check.
    unchecked_size: str | None = None
    # It may be empty, although the module that declares it says SIZE (1..MAX).
    may_be_empty: bool = False
    # For a SET OF: the type of its members, if it is known, and the imports of that type.
    member: tuple[str, frozenset[str]] | None = None

    @property
    def crate(self):
        """Returns the crate that contains the type."""
        return min(self.uses).partition("::")[0]


def plain(text, use, tag, **marks):
    return RustType(text, frozenset([use] if use else []), frozenset([tag]), **marks)


UNIT = plain("()", None, "NULL", is_copy=True)
INT = plain("Int", "der_types::Int", "INTEGER", bits=0)
UINT = plain("Uint", "der_types::Uint", "INTEGER")
BOOL = plain("bool", None, "BOOLEAN", is_copy=True)
ANY = RustType("Any", frozenset(["der_types::Any"]), None, is_choice=True)
OBJECT_IDENTIFIER = plain(
    "ObjectIdentifier<39>", "der_core::oid::ObjectIdentifier", "OBJECT IDENTIFIER", is_copy=True
)
PLAIN = {
    "BOOLEAN": BOOL,
    "NULL": UNIT,
    "INTEGER": INT,
    "OCTET STRING": plain("OctetString", "der_types::OctetString", "OCTET STRING"),
    "BIT STRING": plain("BitString", "der_types::BitString", "BIT STRING"),
    "OBJECT IDENTIFIER": OBJECT_IDENTIFIER,
    "UTF8String": plain("String", None, "UTF8String"),
    "PrintableString": plain("PrintableString", "der_types::PrintableString", "PrintableString"),
    "IA5String": plain("Ia5String", "der_types::Ia5String", "IA5String"),
    "TeletexString": plain("TeletexString", "der_types::TeletexString", "TeletexString"),
    "BMPString": plain("BmpString", "der_types::BmpString", "BMPString"),
    "VisibleString": plain("VisibleString", "der_types_more::VisibleString", "VisibleString"),
    "NumericString": plain("NumericString", "der_types_more::NumericString", "NumericString"),
    "GeneralString": plain("GeneralString", "der_types_more::GeneralString", "GeneralString"),
    "UTCTime": plain("UtcTime", "der_types::UtcTime", "UTCTime", is_copy=True),
    "GeneralizedTime": plain(
        "GeneralizedTime", "der_types::GeneralizedTime", "GeneralizedTime", is_copy=True
    ),
}
# A BOOLEAN whose default is TRUE.
OR_TRUE = plain("OrTrue", "der_types_more::OrTrue", "BOOLEAN", is_copy=True)
# What can be given in place of a type: --read NAME=Any.
READ = {
    "Any": ANY, "Int": INT, "OctetString": PLAIN["OCTET STRING"],
    "SequenceOwned": plain("SequenceOwned", "der_types_more::SequenceOwned", "SEQUENCE"),
}


def machine(bits):
    """Returns the machine integer of this many bits; a negative number means a signed one."""
    text = f"u{bits}" if bits > 0 else f"i{-bits}"
    return plain(text, None, "INTEGER", is_copy=True, bits=bits)


def has(bits, number):
    """Returns whether a number is in the range of this machine integer."""
    return 0 <= number < 2**bits if bits > 0 else -(2 ** (-bits - 1)) <= number < 2 ** (-bits - 1)


@dataclasses.dataclass
class Table:
    """The types and object identifiers that can be imported, by module."""

    types: dict[tuple[str, str], RustType] = dataclasses.field(default_factory=dict)
    identifiers: dict[tuple[str, str], list[int]] = dataclasses.field(default_factory=dict)

    def read(self, path, module=None):
        """Adds the rows of a file. If `module` is given, all rows belong to it.

        A row contains the name of a type, its Rust type, the path to import from, the tags with
        which it can begin, and its marks; or the name of an object identifier, `OID`, and its arcs.
        A line [MODULE ..] names the modules to which the next rows belong.
        """
        modules = []
        for number, line in enumerate(pathlib.Path(path).read_text().splitlines(), 1):
            cells = line.split("#")[0].split()
            if not cells:
                continue
            if cells[0].startswith("["):
                modules = [module] if module else " ".join(cells)[1:-1].split()
            elif len(cells) == 3 and cells[1] == "OID":
                for of in modules:
                    self.identifiers[of, cells[0]] = [int(arc) for arc in cells[2].split(".")]
            elif len(cells) >= 4:
                for of in modules:
                    self.types[of, cells[0]] = row(*cells[1:])
            else:
                raise Refused(number, f"{path}: a row has a name, a type, a path and tags")
        return self


def row(text, path, first, *marks):
    """Returns the type of a row of a table. In a row, `~` means a space."""
    tags = None if first == "ANY" else frozenset(
        int(tag[1:-1]) if re.fullmatch(r"\[\d+\]", tag) else tag.replace("~", " ")
        for tag in first.split("+")
    )
    found = set() if path == "-" else set(re.findall(r"[A-Z]\w*", text)) - {"Vec"}
    paths = {it: "der_types" if it == "FlagSet" else path for it in found}
    return RustType(
        text.replace("~", " "), frozenset(f"{of}::{it}" for it, of in paths.items()), tags,
        is_choice="choice" in marks, is_copy="copy" in marks, is_as_read="no-AsRead" not in marks,
        default=next((mark[8:] for mark in marks if mark.startswith("default=")), None),
        unchecked_size="SIZE (1..MAX)" if "size" in marks else None, may_be_empty="empty" in marks,
    )


def cells(name, of):
    """Returns the row of a type."""
    tags = "ANY" if of.first is None else "+".join(sorted(map(tag_text, of.first)))
    marks = [
        mark for mark, holds in (
            ("choice", of.is_choice), ("copy", of.is_copy), ("no-AsRead", not of.is_as_read),
            (f"default={of.default}", of.default), ("size", of.unchecked_size),
            ("empty", of.may_be_empty),
        ) if holds
    ]
    path = next(iter(of.uses), "").rpartition("::")[0] or "-"
    return " ".join([name, of.text.replace(" ", "~"), path, tags.replace(" ", "~"), *marks])


def tag_text(tag):
    """Returns a tag as it is written in messages and tables."""
    return f"[{tag}]" if isinstance(tag, int) else tag


def library():
    """Returns the table of the library."""
    return Table().read(HERE / "library.txt")


@functools.cache
def parameterized():
    """Returns the modules whose types with parameters can be imported."""
    name = "PKIX1Explicit-2009"
    return {name: parsed((HERE / f"{name}.asn1").read_text())}
