"""Finds what each type of a module is in Rust, or why it can't be written."""

import collections
import dataclasses

from . import library, names
from .library import RustType, tag_text
from .syntax import (
    ClassField, ComponentsOf, Constraint, Definition, Field, ListOf, Named, Numbered, Open, Plain,
    Refused, Structure, Tag, Tagged, Type,
)

# The library has `OneOf2` to `OneOf9`. If a choice has more alternatives, its last ones become a
# choice of their own.
ALTERNATIVES = 9
# A SET OF without equal members.
SET_TYPE = "der_core::StrictSetOf"
# The maximum number of members that an array, or a list of bounded length, keeps in place.
IN_PLACE = 32


@dataclasses.dataclass(frozen=True)
class Form:
    """The Rust form of a field, an alternative or a member: a type, and the tag around it."""

    rust: RustType
    mode: str | None
    number: int | None
    first: frozenset | None

    def text(self):
        if self.mode:
            return f"{self.mode.capitalize()}<{self.rust.text}, {self.number}>"
        return self.rust.text

    def uses(self):
        more = {f"der_core::{self.mode.capitalize()}"} if self.mode else set()
        return self.rust.uses | more

    def checks_size(self):
        """Returns whether the type is a set whose size is checked in an OPTIONAL field."""
        return bool(self.rust.member) and self.mode == "implicit"

    @property
    def has_default(self):
        """Returns whether its Rust type implements `Default`, as members of `SequenceOf` must."""
        return not self.mode and (bool(self.rust.bits) or self.rust.first == library.BOOL.first)


def overlap(one, other):
    """Returns the tags with which both types can begin; None if one can begin with any tag."""
    if one is None or other is None:
        return None
    return one & other


def shared(tags):
    return f" ({', '.join(sorted(map(tag_text, tags)))})" if tags else ""


class Resolved:
    """The types of a module, each with a name, and their Rust types."""

    def __init__(self, module, report, table, read=None, loose=False, equal_members=False):
        self.module, self.report, self.table, self.loose = module, report, table, loose
        self.set_type = "der_types_more::AscendingSetOf" if equal_members else SET_TYPE
        self.read, self.definitions, self.instances, self.busy = read or {}, {}, {}, []
        self.components_of, self.found, self.checked = {}, {}, set()
        self.take_known()
        for name, definition in module.types.items():
            if not definition.parameters and name not in self.definitions:
                self.define(name, definition)
        self.check_names()
        self.cyclic = self.check_cycles()

    def take_known(self):
        """Uses the types of this module that another crate in the table already has."""
        of, crates = self.module.name, collections.Counter()
        for name, definition in list(self.module.types.items()):
            if (of, name) in self.table.types:
                del self.module.types[name]
                self.module.imports[name] = of, definition.line
                crates[self.table.types[of, name].crate] += 1
        for crate, count in crates.items():
            self.report.note(1, f"{count} types aren't written: {crate} has them")
        for name, value in list(self.module.values.items()):
            if (of, name) in self.table.identifiers:
                del self.module.values[name]
                self.module.imports[name] = of, value[2]

    # The tree: each structure and each type with named numbers gets a name, and parameters are
    # replaced by their arguments.

    def define(self, name, definition, values=None):
        kept = dataclasses.replace(definition, name=name, parameters=[])
        self.definitions[name] = kept
        try:
            kept.type = self.placed(definition.type, values or {}, name, True)
        except Refused as refused:
            self.report.error(refused.line, refused.reason)
            kept.type = Open(definition.line)
        return kept

    def placed(self, of, values, owner, is_top=False):
        """Returns a copy of a type, in which everything that needs a name has one."""
        limits = [bounded(it, values) for it in of.constraints]
        match of:
            case Named():
                return self.named(of, values, owner, is_top, limits)
            case ClassField():
                return self.class_field(of, owner, limits)
            case ListOf():
                member = self.placed(of.member, values, owner + "-Item")
                return ListOf(of.line, of.word, member, constraints=limits)
            case Tagged():
                inner = self.placed(of.inner, values, owner if not is_top else owner + "-Content")
                return Tagged(of.line, of.tag, inner, constraints=limits)
            case Structure():
                fields = self.fields(of, values, owner)
                found = Structure(of.line, of.word, fields, of.extensible, constraints=limits)
                if of.word == "CHOICE" and len(fields) > ALTERNATIVES:
                    self.cut(found, owner)
            case _:
                found = dataclasses.replace(of, constraints=limits)
        if is_top or not isinstance(found, (Structure, Numbered)):
            return found
        return self.new_name(found, owner)

    def new_name(self, of, name):
        """Names a type, and returns a reference to it."""
        while name in self.definitions or name in self.module.types:
            name += "-Part"
        word = of.word
        self.report.note(of.line, f"the {word} without a name becomes {names.camel(name)}")
        text = f"{name} ::= {word} -- without a name"
        self.definitions[name] = Definition(name, of, of.line, text)
        return Named(of.line, name)

    def named(self, of, values, owner, is_top, limits):
        if of.name in values:
            if not isinstance(values[of.name], Type):
                raise Refused(of.line, f"the parameter {of.name} isn't a type")
            return limited(values[of.name], limits)
        definition = self.module.types.get(of.name) or self.parameterized(of.name)
        if not definition or not definition.parameters:
            return Named(of.line, of.name, constraints=limits)
        if len(of.arguments) != len(definition.parameters):
            count, given = len(definition.parameters), len(of.arguments)
            raise Refused(of.line, f"{of.name} has {count} parameters, but {given} are given")
        own = {}
        for parameter, argument in zip(definition.parameters, of.arguments):
            if isinstance(argument, Named) and argument.name in values:
                argument = values[argument.name]
            elif isinstance(argument, str):
                argument = values.get(argument, argument)
            elif isinstance(argument, Type):
                argument = self.argument(argument, values, owner, parameter)
            own[parameter] = argument
        if is_top:
            return limited(self.placed(definition.type, own, owner, True), limits)
        key = of.name, repr(sorted((name, repr(it)) for name, it in own.items()))
        if key not in self.instances:
            parts = [it.name for it in own.values() if isinstance(it, Named)]
            parts += [str(it) for it in own.values() if isinstance(it, (int, str))]
            name = "-".join([of.name, *parts])
            while name in self.definitions:
                name += "-Part"
            self.instances[key] = name
            self.define(name, definition, own)
        return Named(of.line, self.instances[key], constraints=limits)

    def parameterized(self, name):
        """Returns an imported type with parameters, as RFC 5912 declares it."""
        module = self.module.imports.get(name, (None,))[0]
        found = library.parameterized().get(module)
        if found is None or name not in found.types:
            return None
        for needed, place in found.imports.items():
            self.module.imports.setdefault(needed, place)
        return found.types[name]

    def argument(self, of, values, owner, parameter):
        """Returns the argument for a parameter: a type, or None for a class or a set of objects."""
        if isinstance(of, Named) and not of.arguments:
            is_type = of.name in self.module.types or of.name in self.read
            is_type = is_type or self.imported(of.name) is not None
            limits = [bounded(it, values) for it in of.constraints]
            return Named(of.line, of.name, constraints=limits) if is_type else None
        return self.placed(of, values, f"{owner}-{parameter}")

    def class_field(self, of, owner, limits):
        if of.field[1].isupper():
            return Open(of.line, constraints=limits)
        found = self.module.classes.get(of.cls, {}).get(of.field)
        if found is not None:
            return limited(self.placed(found, {}, owner), limits)
        if of.field == "&id":
            return Plain(of.line, "OBJECT IDENTIFIER", constraints=limits)
        raise Refused(of.line, f"the type of {of.cls}.{of.field} isn't known: declare the class")

    def fields(self, of, values, owner):
        """Returns the fields of a structure, with those of COMPONENTS OF and automatic tags."""
        tags = [isinstance(it, Field) and isinstance(it.type, Tagged) for it in of.fields]
        is_automatic = self.module.tags == "AUTOMATIC" and not any(tags)
        fields = []
        for field in of.fields:
            if isinstance(field, ComponentsOf):
                fields += self.components(field)
                continue
            name = f"{owner}-{field.name[0].upper()}{field.name[1:]}"
            fields.append(dataclasses.replace(field, type=self.placed(field.type, values, name)))
        roots = [field for field in fields if not field.is_addition]
        self.components_of[owner] = [dataclasses.replace(field) for field in roots]
        if is_automatic:
            additions = [field for field in fields if field.is_addition]
            for number, field in enumerate(roots + additions):
                tag = Tag("CONTEXT", number, None, field.line)
                field.type = Tagged(field.line, tag, field.type)
        return fields

    def components(self, of):
        """Returns the fields of a SEQUENCE of the module, without additions and automatic tags."""
        name = of.type.name if isinstance(of.type, Named) else None
        definition = self.module.types.get(name)
        is_record = definition and not definition.parameters
        if not is_record or getattr(definition.type, "word", "") != "SEQUENCE":
            raise Refused(of.line, "COMPONENTS OF takes a SEQUENCE of this module")
        if name not in self.definitions:
            self.define(name, definition)
        if name not in self.components_of:
            raise Refused(of.line, f"{name} contains its own components")
        return [dataclasses.replace(field) for field in self.components_of[name]]

    def cut(self, choice, owner):
        """Makes the last alternatives of a long choice a choice of their own."""
        first, rest = choice.fields[: ALTERNATIVES - 1], choice.fields[ALTERNATIVES - 1 :]
        more = Structure(rest[0].line, "CHOICE", rest, False)
        if len(rest) > ALTERNATIVES:
            self.cut(more, owner + "-More")
        reference = self.new_name(more, owner + "-More")
        choice.fields = [*first, Field("more", reference, rest[0].line)]

    # Declared types.

    def check_names(self):
        by_type = {}
        for name, definition in self.definitions.items():
            by_type.setdefault(names.camel(name), []).append(name)
        for rust, found in by_type.items():
            if len(found) > 1:
                line = self.definitions[found[1]].line
                self.report.error(line, f"{' and '.join(found)} would both become {rust}")

    def references(self, of):
        """Returns the types of the module that a type names."""
        found = set()
        match of:
            case Named():
                name = self.read.get(of.name, of.name)
                found |= {name} & set(self.definitions)
            case ListOf():
                found |= self.references(of.member)
            case Tagged():
                found |= self.references(of.inner)
            case Structure():
                for field in of.fields:
                    found |= self.references(field.type)
        return found

    def check_cycles(self):
        """Reports each cycle of types that contain themselves, and returns these types."""
        graph = {name: self.references(it.type) for name, it in self.definitions.items()}
        state, cyclic = {}, set()

        def walk(name, path):
            if name in state:
                if state[name] == "open":
                    cycle = [*path[path.index(name) :], name]
                    self.report.error(
                        self.definitions[name].line,
                        f"a type can't contain itself: {' > '.join(cycle)}; "
                        "--read one of them as Any",
                    )
                    cyclic.update(cycle)
                return
            state[name] = "open"
            for other in sorted(graph[name]):
                walk(other, [*path, name])
            state[name] = "done"

        for name in graph:
            walk(name, [])
        return cyclic

    def closure(self, names_of):
        """Returns the types, and all types that they name, directly or indirectly."""
        todo, found = list(names_of), set()
        while todo:
            name = todo.pop()
            if name not in found:
                found.add(name)
                todo += self.references(self.definitions[name].type)
        return found

    def kind(self, name):
        """Returns how a type is written: as a "record", a "choice", an "alias", and so on."""
        of = self.definitions[name].type
        if isinstance(of, Structure):
            if of.word == "CHOICE":
                return "choice" if len(of.fields) != 1 else "alias"
            return "record"
        if isinstance(of, Numbered) and self.is_numbered(of):
            return "bits" if of.word == "BIT STRING" else "numbers"
        return "tagged" if self.is_tagged(name) else "alias"

    def is_numbered(self, of):
        """Returns whether named numbers become a type: numbers below 256, or bits below 64."""
        least, most = (0, 64) if of.word == "BIT STRING" else (0, 256)
        return bool(of.items) and all(least <= it.number < most for it in of.items)

    def items(self, of):
        """Returns the named numbers that the constraints allow."""
        found = of.items
        for limit in of.constraints:
            if limit.kind != "values" or limit.extensible:
                continue
            named = {it.name: it.number for it in of.items}
            ends = [[named.get(end, end) for end in one] for one in limit.ranges]
            ends = [[self.end(end, limit.line) for end in one] for one in ends]
            found = [it for it in found if any(
                (low is None or low <= it.number) and (high is None or it.number <= high)
                for low, high in ends)]
        return found

    def is_tagged(self, name, seen=()):
        """Returns whether a name means a tagged type."""
        of = self.definitions[name].type
        if isinstance(of, Named) and of.name in self.definitions and of.name not in seen:
            return self.is_tagged(of.name, (*seen, name))
        return isinstance(of, Tagged)

    # Types in Rust.

    def peeled(self, of):
        """Returns all tags around a type, also those behind names, and the type inside."""
        tags, seen = [], set()
        while True:
            outer = of
            if isinstance(of, Tagged):
                tags.append(of.tag)
                of = of.inner
            elif (
                isinstance(of, Named) and of.name not in self.read and of.name not in seen
                and of.name in self.definitions and self.is_tagged(of.name)
            ):
                seen.add(of.name)
                of = self.definitions[of.name].type
            else:
                return tags, of
            for limit in outer.constraints:
                self.unchecked(limit, "value")

    def mode(self, tag):
        return tag.mode or ("EXPLICIT" if self.module.tags == "EXPLICIT" else "IMPLICIT")

    def form(self, of):
        """Returns the Rust form of a field, an alternative or a member."""
        tags, inner = self.peeled(of)
        rust = self.rust(inner)
        if not tags:
            return Form(rust, None, None, rust.first)
        tag = tags.pop()
        while tags:
            # An implicit tag replaces the tag inside.
            outer = tags.pop()
            if self.mode(outer) == "EXPLICIT":
                raise Refused(outer.line, "an explicit tag around a tag can't be written")
            tag = dataclasses.replace(tag, cls=outer.cls, number=outer.number)
        if tag.cls != "CONTEXT":
            raise Refused(tag.line, f"a tag [{tag.cls} {tag.number}] can't be written, only [N]")
        mode = self.mode(tag)
        if rust.is_choice:
            if tag.mode == "IMPLICIT":
                raise Refused(
                    tag.line,
                    "an implicit tag around a CHOICE or ANY isn't ASN.1 (X.680 31.2.9): "
                    "write EXPLICIT",
                )
            if mode == "IMPLICIT":
                self.note_on_any(inner, tag)
            mode = "EXPLICIT"
        return Form(rust, mode.lower(), tag.number, frozenset([tag.number]))

    def note_on_any(self, of, tag):
        """Reports that --read makes a tag explicit, unless the module says that it is so."""
        if isinstance(of, Named) and of.name in self.read:
            is_choice = of.name in self.definitions and self.kind(of.name) == "choice"
            if not is_choice:
                self.report.note(
                    tag.line, f"{of.name} is read as {self.read[of.name]}, so its tag "
                              f"[{tag.number}] is explicit: if {of.name} is no CHOICE, its "
                              "encodings aren't accepted",
                )

    def rust(self, of):
        match of:
            case Named():
                found = self.of_name(of.name, of.line)
            case Plain(word="INTEGER"):
                return self.integer(of)
            case Plain():
                if of.word not in library.PLAIN:
                    raise Refused(of.line, f"{of.word} can't be written: the library lacks it")
                found = library.PLAIN[of.word]
            case Open():
                found = library.ANY
            case ListOf():
                return self.list_of(of)
            case Numbered(word="BIT STRING"):
                self.report.note(of.line, "only 64 bits can have names: any bits are accepted")
                found = library.PLAIN["BIT STRING"]
            case Numbered(word="INTEGER"):
                self.report.note(of.line, "a number isn't from 0 to 255: any INTEGER is accepted")
                found = library.INT
            case Numbered():
                raise Refused(of.line, "an ENUMERATED with a number that isn't from 0 to 255 "
                                       "can't be written")
            case Structure(word="CHOICE"):
                return self.lone_alternative(of)
            case _:
                raise Refused(of.line, f"a {of.word} without a name can't be written")
        for limit in of.constraints:
            self.unchecked(limit, found.text)
        return found

    def lone_alternative(self, of):
        form = self.form(of.fields[0].type)
        if form.mode:
            raise Refused(of.line, "a CHOICE of one alternative with a tag can't be written")
        return dataclasses.replace(form.rust, is_choice=True)

    def of_name(self, name, line):
        read = self.read.get(name, name)
        if read in library.READ and read != name:
            return library.READ[read]
        if read in self.definitions:
            return self.declared(read, line)
        found = self.imported(read)
        if found is None and read != name:
            raise Refused(line, f"--read {name}={read}: {read} isn't known")
        if found is None and name in self.module.imports:
            module = self.module.imports[name][0]
            raise Refused(line, f"{name} of {module} isn't known: give --with, or "
                                f"--read {name}=TYPE")
        if found is None:
            raise Refused(line, f"the type {name} isn't declared")
        if found.may_be_empty:
            at = self.module.imports.get(read, (None, line))[1]
            self.report.note(at, f"{name} may be empty: SIZE (1..MAX) isn't checked in the library")
        return found

    def imported(self, name):
        module = self.module.imports.get(name, (None,))[0]
        found = self.table.types.get((module, name))
        if found is None and module is None and name in self.read.values():
            rows = [it for (_, row), it in self.table.types.items() if row == name]
            found = rows[0] if rows else None
        return found

    def declared(self, name, line):
        """Returns the Rust type of a type of the module."""
        if name not in self.found:
            if name in self.busy:
                raise Refused(line, f"{name} contains itself")
            self.busy.append(name)
            try:
                self.found[name] = self.made(name)
            finally:
                self.busy.pop()
        return self.found[name]

    def made(self, name):
        definition = self.definitions[name]
        of, text, kind = definition.type, names.camel(name), self.kind(name)
        use = frozenset([f"crate::{names.module(name)}::{text}"])
        if kind in ("record", "choice", "numbers", "bits"):
            for limit in of.constraints:
                if kind != "numbers" or limit.kind != "values":
                    self.unchecked(limit, text)
        if kind == "alias":
            found = self.rust(of)
            if found.text != "()":
                use = frozenset([f"crate::aliases::{text}"])
                found = dataclasses.replace(found, text=text, uses=use)
            return found
        if kind == "tagged":
            raise Refused(definition.line, f"the tag around {name} can't be written here")
        if kind in ("numbers", "bits"):
            word = "BIT STRING" if kind == "bits" else of.word
            return RustType(text, use, frozenset([word]), is_copy=True)
        if of.word == "SET":
            raise Refused(of.line, "a SET of fields can't be written: "
                                   "the library doesn't support it")
        forms = [self.form(field.type) for field in of.fields]
        first = frozenset(["SEQUENCE"])
        if kind == "choice":
            tags = [form.first for form in forms]
            first = None if None in tags else frozenset().union(*tags)
        return RustType(text, use, first, is_choice=kind == "choice")

    # Constraints.

    def unchecked(self, limit, read):
        """Reports a constraint that the Rust type doesn't check."""
        if limit.kind == "contents" or limit.extensible:
            return
        if self.loose:
            self.report.note(limit.line, f"{limit.text} isn't checked: any {read} is accepted")
        else:
            self.report.error(
                limit.line, f"{limit.text} can't be checked; with --loose, any {read} is accepted"
            )

    def end(self, bound, line):
        """Returns the end of a range; None for MIN and MAX."""
        if bound in ("MIN", "MAX"):
            return None
        if isinstance(bound, int):
            return bound
        if bound not in self.module.numbers:
            raise Refused(line, f"the number `{bound}` isn't known")
        return self.module.numbers[bound]

    def hull(self, limit):
        """Returns the least and the greatest number, and whether there is only one range."""
        ends = [tuple(self.end(it, limit.line) for it in one) for one in limit.ranges]
        low = None if any(one[0] is None for one in ends) else min(one[0] for one in ends)
        high = None if any(one[1] is None for one in ends) else max(one[1] for one in ends)
        return low, high, len(ends) == 1

    def integer(self, of):
        found = library.INT
        for limit in of.constraints:
            if limit.extensible or limit.kind == "contents":
                continue
            if limit.kind != "values" or len(of.constraints) > 1:
                self.unchecked(limit, found.text)
                continue
            low, high, is_whole = self.hull(limit)
            found, is_exact = number_type(low, high)
            if not is_exact or not is_whole:
                self.unchecked(limit, found.text)
        return found

    def check_size(self, rust, line):
        """Reports that a set may be empty here, although it must have a member."""
        if rust.unchecked_size:
            limit = Constraint("size", rust.unchecked_size, line)
            self.unchecked(limit, rust.text)

    def list_of(self, of):
        member = self.form(of.member)
        self.check_size(member.rust, of.line)
        is_set, unchecked_size, only = of.word == "SET OF", None, None
        is_as_read = member.rust.is_as_read
        text, uses = f"Vec<{member.text()}>", set(member.uses())
        if is_set:
            text = f"{self.set_type.rpartition('::')[2]}<{member.text()}>"
            uses.add(self.set_type)
        for limit in of.constraints:
            low, high, is_whole = self.hull(limit) if limit.kind == "size" else (1, 0, False)
            if limit.extensible or (low in (0, None) and high is None):
                continue
            if not is_set and is_whole and len(of.constraints) == 1 and high is not None:
                if low == high and high <= IN_PLACE:
                    text = f"[{member.text()}; {high}]"
                    continue
                if low == 0 and high <= IN_PLACE and member.has_default:
                    text = f"SequenceOf<{member.text()}, {high}>"
                    uses.add("der_types::SequenceOf")
                    continue
            if is_whole and len(of.constraints) == 1 and (low, high) == (1, None):
                if is_set:
                    unchecked_size = limit.text
                    if self.set_type == SET_TYPE and is_as_read:
                        only = member.text(), frozenset(member.uses())
                else:
                    text = f"OneOrMore<{member.text()}>"
                    uses.add("der_types_more::OneOrMore")
                    is_as_read = False
                continue
            self.unchecked(limit, text)
        return RustType(
            text, frozenset(uses), frozenset(["SET" if is_set else "SEQUENCE"]),
            is_as_read=is_as_read, unchecked_size=unchecked_size, member=only,
        )


def limited(of, limits):
    """Returns a type with additional constraints."""
    return dataclasses.replace(of, constraints=[*of.constraints, *limits])


def bounded(limit, values):
    """Returns a constraint in which parameters are replaced by their values."""
    ranges = tuple(
        tuple(values.get(end, end) if isinstance(end, str) else end for end in one)
        for one in limit.ranges
    )
    return dataclasses.replace(limit, ranges=ranges)


def number_type(low, high):
    """Returns the smallest type that has all numbers of a range, and whether it has no others."""
    if high is None:
        if low is None or low < 0:
            return library.INT, low is None
        return library.UINT, low == 0
    if low is None:
        return library.INT, False
    for bits in (8, -8, 16, -16, 32, -32, 64, -64, 128, -128):
        if library.has(bits, low) and library.has(bits, high):
            is_exact = not library.has(bits, low - 1) and not library.has(bits, high + 1)
            return library.machine(bits), is_exact
    return (library.UINT if low >= 0 else library.INT), False
