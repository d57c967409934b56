"""Writes the files of a crate that contains the types of a module."""

import dataclasses
import re

from . import layout, library, names, numbers
from .bits import bits_source
from .choices import Choice
from .module import Form
from .numbers import Default, number_source, wrappers_source
from .records import OPTIONAL_FIELDS, Record
from .syntax import Named, Numbered, Plain, Refused

ROOTS = {
    "itu-t": 0, "ccitt": 0, "iso": 1, "joint-iso-itu-t": 2, "joint-iso-ccitt": 2,
}


class Crate:
    """Writes all types of a module, or those in `only` and the types that they name."""

    def __init__(self, types, name, only=()):
        self.types, self.name, self.report = types, name, types.report
        self.only, self.defaults, self.wrappers = only, {}, {}
        self.files, self.exports, self.lists = {}, {}, []

    def write(self):
        """Puts each file into `files`, and reports what can't be written."""
        kept = self.kept()
        records = [name for name in kept if self.types.kind(name) in ("record", "choice")]
        others = [name for name in kept if self.types.kind(name) in ("numbers", "bits")]
        for name in records + others:
            self.attempt(name, self.source)
        for name in kept:
            if self.types.kind(name) in ("alias", "tagged"):
                self.attempt(name, lambda name: self.types.rust(self.types.peeled(
                    self.types.definitions[name].type)[1]))
        if not self.report.errors:
            self.aliases([name for name in kept if self.types.kind(name) == "alias"])
            self.wrapper_source()
        self.identifiers()
        self.laws()
        if not self.exports and not self.report.errors:
            raise Refused(1, "there is no type to write")
        self.lib()
        return self.files

    def kept(self):
        definitions = self.types.definitions
        for name in self.only:
            if name not in definitions:
                raise Refused(1, f"--only {name}: no such type is declared")
        found = self.types.closure(self.only) if self.only else set(definitions)
        found -= set(self.types.read) | self.types.cyclic
        return [name for name in definitions if name in found]

    def attempt(self, name, what):
        try:
            return what(name)
        except Refused as refused:
            self.report.error(refused.line, refused.reason)

    def source(self, name):
        kind = self.types.kind(name)
        if kind == "record":
            self.types.declared(name, 0)
            text = self.coded(Record(self, name))
        elif kind == "choice":
            text = self.coded(Choice(self, name))
        else:
            text = bits_source(self, name) if kind == "bits" else number_source(self, name)
        rust = names.camel(name)
        self.add(names.module(name), text, [rust, f"{rust}Bits"] if kind == "bits" else [rust])

    def coded(self, of):
        """Returns the source of a record or a choice, and adds the files of its proofs."""
        text = of.source()
        self.files.update(of.answers())
        return text

    def imports(self, name, uses):
        """Returns the imports of a type's file. No two imported names may be the same."""
        own = f"crate::{names.module(name)}::{names.camel(name)}"
        by_name = {names.camel(name): own}
        for path in sorted(uses):
            last = path.rpartition("::")[2]
            if by_name.setdefault(last, path) != path:
                line = self.types.definitions[name].line
                raise Refused(line, f"{name} would import both {path} and {by_name[last]}")
        return layout.imports(path for path in uses if path != own)

    def add(self, module, text, exports):
        self.files[f"src/{module}.rt"] = text
        self.exports[module] = exports

    # Defaults.

    def default(self, field, form):
        """Returns what codes a field with a default, and its form."""
        rust, value = form.rust, field.default
        item = self.numbered(field.type)
        if rust.default == value:
            return Default(rust), form
        if rust.first == library.BOOL.first and not rust.is_choice:
            if value not in ("TRUE", "FALSE"):
                raise self.no_default(field)
            if value == "FALSE":
                return Default(rust), form
            return Default(library.OR_TRUE, "OrTrue"), form
        if item is not None:
            name, of = item
            number = {it.name: it.number for it in of.items}.get(value)
            if number is None or of.word == "BIT STRING" or number > 127:
                raise self.no_default(field)
            if self.defaults.setdefault(name, (value, number)) != (value, number):
                raise Refused(field.line, f"{name} can't have two defaults")
            return Default(rust), form
        if rust.bits is not None:
            number = self.number(value, field)
            if rust.bits == 0:
                bits = next((it for it in (32, 64, 128) if 0 <= number < 2**it), -128)
                rust = library.machine(bits)
                self.report.note(field.line, f"{field.name}: an INTEGER with a default becomes "
                                             f"{rust.text}")
                form = Form(rust, form.mode, form.number, form.first)
            if number == 0 and rust.text == "u32":
                return Default(rust), form
            if not library.has(rust.bits, number):
                raise self.no_default(field)
            return self.wrapper(str(number), rust, numbers.content(number)), form
        raise self.no_default(field)

    def no_default(self, field):
        return Refused(field.line, f"{field.name}: DEFAULT {field.default} can't be written")

    def number(self, value, field):
        if re.fullmatch(r"-?\d+", value):
            return int(value)
        if value not in self.types.module.numbers:
            raise self.no_default(field)
        return self.types.module.numbers[value]

    def numbered(self, of):
        """Returns the name and the type, if a field's type is one with named numbers, else None."""
        of = self.types.peeled(of)[1]
        while isinstance(of, Named) and of.name in self.types.definitions:
            found = self.types.definitions[of.name].type
            if self.types.kind(of.name) in ("numbers", "bits"):
                return of.name, found
            of = found
        return None

    def wrapper(self, value, rust, octets):
        """Returns a wrapper of `rust` with the default `value`, whose content is `octets`."""
        base = library.machine(rust.bits).text
        name = base.capitalize() + "Default" + names.variant(value.replace("-", "minus-"))
        self.wrappers[name] = (base, value.lower(), octets)
        use = frozenset([f"crate::defaults::{name}"])
        return Default(dataclasses.replace(rust, text=name, uses=use), name)

    def wrapper_source(self):
        if self.wrappers:
            self.files["src/defaults.rt"] = wrappers_source(self.wrappers)
            self.files.update(numbers.wrapper_answers(self.name, self.wrappers))
            self.exports["defaults"] = []

    # Aliases.

    def aliases(self, found):
        rows, uses = [], set()
        for name in found:
            definition = self.types.definitions[name]
            rust = self.types.rust(definition.type)
            if names.camel(name) not in self.types.checked:
                self.types.check_size(rust, definition.line)
            uses |= rust.uses
            declared = f"pub type {names.camel(name)} = {rust.text};"
            if "<" in rust.text and rust.text != library.OBJECT_IDENTIFIER.text:
                self.lists.append(names.camel(name))
            rows.append(f"{layout.comment(definition)}\n{declared}\n")
        if rows:
            uses = layout.imports(it for it in uses if not it.startswith("crate::aliases::"))
            head = ["//! Types of another name.\n", *([uses + "\n"] if uses else [])]
            text = "\n".join([*head, *rows])
            self.add("aliases", text, [names.camel(name) for name in found])

    # Laws.

    def laws(self):
        """Writes two laws, each with a clause for each type: 64 levels of nesting suffice to decode
        it, and its values are encoded as they are decoded. Another name of a type of the library
        has no clause, because laws and impls of the library speak of it."""
        found = {module: types[0] for module, types in self.exports.items()
                 if types and module != "aliases"}
        found.update((names.module(it), it) for it in self.lists)
        if found and not self.report.errors:
            levels, same = (
                "\n".join(law(module, found[module]) for module in sorted(found))
                for law in (levels_clause, same_clause)
            )
            self.files["src/laws.rt"] = LAWS.format(levels=levels, same=same)
            self.exports["laws"] = None

    # Object identifiers.

    def identifiers(self):
        self.arcs = {}
        rows = []
        for name, (of, _, _) in self.types.module.values.items():
            if not self.is_identifier(of):
                continue
            try:
                self.arcs[name] = self.resolved(name, ())
                rows.append(identifier_source(name, self.arcs[name]))
            except Refused as refused:
                self.report.note(refused.line, refused.reason)
        if rows:
            self.files["src/identifiers.rt"] = "\n".join([IDENTIFIERS, *rows])
            self.exports["identifiers"] = None

    def is_identifier(self, of):
        while isinstance(of, Named) and of.name in self.types.definitions:
            of = self.types.definitions[of.name].type
        if isinstance(of, Named):
            found = self.types.imported(of.name)
            return found is not None and found.text == library.OBJECT_IDENTIFIER.text
        return isinstance(of, Plain) and of.word == "OBJECT IDENTIFIER"

    def resolved(self, name, seen):
        """Returns the arcs of an identifier."""
        _, arcs, line = self.types.module.values[name]
        found = []
        for at, arc in enumerate(arcs):
            module = self.types.module.imports.get(arc, (None,))[0]
            if isinstance(arc, int):
                found.append(arc)
            elif at == 0 and arc in self.types.module.values and arc not in seen:
                found += self.resolved(arc, (*seen, name))
            elif at == 0 and (module, arc) in self.types.table.identifiers:
                found += self.types.table.identifiers[module, arc]
            elif at == 0 and arc in ROOTS:
                found.append(ROOTS[arc])
            elif arc in self.types.module.numbers:
                found.append(self.types.module.numbers[arc])
            else:
                raise Refused(line, f"{name} isn't written: the identifier `{arc}` isn't known")
        if len(found) < 2 or found[0] > 2 or found[1] > 39 or max(found) >= 2**64:
            raise Refused(line, f"{name} isn't written: the library doesn't support it")
        return found

    # The crate.

    def lib(self):
        modules, exports = [], []
        for module in sorted(self.exports):
            found = self.exports[module]
            modules.append(f"pub mod {module};" if found is None else f"mod {module};")
            if found:
                exports.append(exported(module, sorted(found, key=layout.order)))
        text = [LIB.format(module=self.types.module.name), "\n".join(modules)]
        text += ["", "\n".join(sorted(exports, key=layout.order))] if exports else []
        self.files["src/lib.rt"] = "\n".join(text) + "\n"
        if any("crate::specs::Opened::" in text for text in self.files.values()):
            self.files["specs/Lib.antt"] = "pub mod Opened\n"
            self.files["specs/Opened.antt"] = numbers.OPENED
        if any(".proofs.Optional_fields." in text for text in self.files.values()):
            self.files["proofs/Lib.antt"] = "pub mod Optional_fields\n"
            self.files["proofs/Optional_fields.antt"] = OPTIONAL_FIELDS

    def table(self):
        """Returns the text of asn1_types.txt: what another module can import from this one."""
        rows = [f"[{self.types.module.name}]"]
        for name in sorted(self.kept()):
            if self.types.kind(name) == "tagged":
                continue
            rust = self.types.declared(name, 0)
            if rust.text == "()":
                continue
            rows.append(library.cells(name, dataclasses.replace(
                rust, uses=frozenset([f"{self.name}::{names.camel(name)}"]),
                default=self.defaults.get(name, (None,))[0],
            )))
        rows += [f"{name} OID {'.'.join(map(str, arcs))}" for name, arcs in self.arcs.items()]
        return "\n".join(rows) + "\n"

    def libraries(self):
        """Returns the libraries that the crate's line in crates.txt must name."""
        text = "\n".join(self.files.values())
        roots = set(re.findall(r"^(?:ghost )?use (?:Rattle\.)?(\w+)(?:::|\.)", text, re.M))
        return sorted(roots - {"std", "crate", self.name}, key=rank)


def rank(library):
    """Returns the sort key of a library in a line of crates.txt: upper layers come first."""
    order = ["x509_cert_reading", "der_types_more", "der_types", "der_core", "bitflags"]
    return (order.index(library) if library in order else -1, library)


def exported(module, found):
    if len(found) == 1:
        return f"pub use {module}::{found[0]};"
    return "pub " + layout.use_list(module, found)


def levels_clause(module, rust):
    line = f"    ensures {module} {{ are_enough ⟦<{rust} as Shaped>⟧.shape levels_max ≡ true }}"
    return line if len(line) < layout.LINE else line.replace("enough ", "enough\n        ")


def same_clause(module, rust):
    of = f"⟦<{rust} as Shaped>⟧"
    line = f"    ensures {module} {{ {of}.written ≡ {of}.plain }}"
    return line if len(line) < layout.LINE else line.replace(" ≡", "\n        ≡")


def identifier_source(name, arcs):
    octets = [40 * arcs[0] + arcs[1]]
    for arc in arcs[2:]:
        digits = [arc & 127]
        while arc := arc >> 7:
            digits.append(arc & 127 | 128)
        octets += reversed(digits)
    shown = [f"0x{octet:02x}" for octet in octets]
    line = f"    ObjectIdentifier::from_bytes_unwrap(&[{', '.join(shown)}])"
    if len(line) > layout.LINE or len(", ".join(shown)) > layout.MEMBERS:
        line = ("    ObjectIdentifier::from_bytes_unwrap(&[\n"
                f"{layout.filled(shown, 8)}\n    ])")
    head = f"pub fn {names.snake(name)}() -> ObjectIdentifier<39>"
    if len(head) > layout.LINE:
        head = head.replace("<39>", "<\n    39,\n>")
    term = layout.list_term([str(arc) for arc in arcs], 8, 24, 2)
    return (f"/// `{name}`, {'.'.join(map(str, arcs))}.\n{head}\n"
            f"    ensures {{ result ≡ {term} }}\n{{\n{line}\n}}\n")


LIB = """\
//! The types of the ASN.1 module {module}, written by `tools/asn1`.
#![tactic(auto)]
"""
LAWS = """\
//! Laws about the types. Each law is the contract of a function that does nothing.

ghost use Rattle.std.specs.Prelude.{{◌≡◌, true}};
ghost use Rattle.der_core.specs.Limits.{{levels_max}};
ghost use Rattle.der_core.specs.Spelling.{{are_enough}};

use crate::*;
use der_core::Shaped;

/// No value of these types has more levels of nesting than a reader allows, so decoding accepts all
/// of their encodings.
pub fn types_are_within_levels()
{levels}
{{}}

/// Values of these types are encoded as they are decoded. So the encoding of a value decodes to
/// this value, if its parts are in range.
pub fn values_are_encoded_as_decoded()
{same}
{{}}
"""
IDENTIFIERS = """\
//! Object identifiers.

ghost use Rattle.std.specs.Prelude.{◌≡◌, [], ◌∷◌};

use der_core::oid::ObjectIdentifier;
"""
