"""The source of a CHOICE: an enum, and the impls that code it."""

import dataclasses

from . import layout, names
from .layout import Generic
from .module import overlap, shared
from .syntax import Refused


@dataclasses.dataclass(frozen=True)
class Case:
    """An alternative of a choice, and its Rust form."""

    variant: str
    form: object
    at: int
    count: int

    @property
    def is_unit(self):
        return self.form.rust.text == "()"

    @property
    def owned_type(self):
        return self.form.text() if self.form.mode else f"Whole<{self.form.text()}>"

    @property
    def lent_type(self):
        text, mode, number = self.form.rust.text, self.form.mode, self.form.number
        if mode == "implicit":
            return f"ImplicitRef<'a, {text}, {number}>"
        return f"Explicit<EncodeRef<'a, {text}>, {number}>" if mode else f"EncodeRef<'a, {text}>"

    @property
    def lent(self):
        value = "&()" if self.is_unit else "value"
        if self.form.mode == "implicit":
            return f"ImplicitRef {{ value: {value} }}"
        lent = f"EncodeRef({value})"
        return f"Explicit {{ value: {lent} }}" if self.form.mode else lent

    def of(self, inner):
        """Returns the case as a pattern or a value."""
        return f"case!({self.at} of {self.count}: {inner})"

    def pattern(self, rust, inner="(value)"):
        return f"{rust}::{self.variant}{'' if self.is_unit else inner}"

    def term(self, side):
        """Returns the line of the ghost term for a decoded (`plain`) or encoded one (`written`)."""
        text = self.form.rust.text
        if self.form.mode == "implicit":
            found = f"⟦<{text} as ShapedValue>⟧.value_{side}"
        else:
            found = f"⟦<{text} as Shaped>⟧.{side}"
        value, bound = ("tt", "") if self.is_unit else ("v", " v")
        found = f"({found} {value})"
        is_last = self.at == self.count
        depth = self.count - 1 if is_last else self.at
        for word in ["inr" if is_last else "inl", *["inr"] * (depth - 1)]:
            found = f"({word} {found})"
        start = f"      | cases.{self.variant}{bound} ↦ "
        if len(start) + len(found) - 2 <= layout.LINE:
            return start + found[1:-1]
        at = found.index("⟦") - 1
        return f"{start}{found[1:at].rstrip()}\n          {found[at:-1]}"


class Choice:
    """The source of one CHOICE."""

    def __init__(self, crate, name):
        self.crate, self.name, self.rust = crate, name, names.camel(name)
        self.definition = crate.types.definitions[name]
        fields = self.definition.type.fields
        forms = [crate.types.form(field.type) for field in fields]
        for field, form in zip(fields, forms):
            crate.types.check_size(form.rust, field.line)
        variants = [names.variant(field.name) for field in fields]
        self.check(fields, forms, variants)
        count = len(fields)
        self.cases = [
            Case(variant, form, at, count)
            for at, (variant, form) in enumerate(zip(variants, forms), 1)
        ]

    def check(self, fields, forms, variants):
        for at, (field, form) in enumerate(zip(fields, forms)):
            for other, its in zip(fields[:at], forms[:at]):
                tags = overlap(form.first, its.first)
                if tags is None or tags:
                    raise Refused(
                        field.line, f"{other.name} and {field.name} may begin with the same "
                                    f"tag{shared(tags)}: give one of them a tag",
                    )
        if len(set(variants)) < len(variants):
            line = self.definition.line
            raise Refused(line, f"two alternatives of {self.name} would have the same name in Rust")

    def uses(self):
        one_of = f"OneOf{len(self.cases)}"
        found = {
            "std::alloc::Global", "std::cmp::Ordering", "der_core::making::cases_cmp",
            "der_core::making::cases_tag", "der_core::describing::LentField",
            "der_core::describing::ReadCase",
            *(f"der_core::{it}" for it in (
                "AsRead", "Choice", "Decode", "DerOrd", "Element", "Encode", "Error", "FirstTag",
                "Length", "Member", "Reader", "Shaped", "Tag", "Writer", "case", one_of,
            )),
        }
        for case in self.cases:
            found |= case.form.uses()
            if case.form.mode == "implicit":
                found.add("der_core::ShapedValue")
            if not case.form.mode:
                found.add("der_core::describing::Whole")
            if "EncodeRef" in case.lent_type:
                found.add("der_core::EncodeRef")
            if "ImplicitRef" in case.lent_type:
                found.add("der_core::ImplicitRef")
        return self.crate.imports(self.name, found)

    def source(self):
        one_of = f"OneOf{len(self.cases)}"
        owned = Generic(one_of, tuple(case.owned_type for case in self.cases))
        lent = Generic(one_of, tuple(case.lent_type for case in self.cases))
        notes = ["Other alternatives are rejected."] if self.definition.type.extensible else []
        variants = [
            f"    {case.variant}" + ("" if case.is_unit else f"({case.form.rust.text})") + ","
            for case in self.cases
        ]
        return CHOICE.format(
            rust=self.rust, crate=self.crate.name, module=names.module(self.name),
            uses=self.uses(), comment=layout.comment(self.definition, notes),
            variants="\n".join(variants), owned=layout.alias("Cases", owned),
            lent=layout.alias("CasesRef<'a>", lent),
            lending="\n".join(self.arm(it.pattern(self.rust), it.of(it.lent)) for it in self.cases),
            plain="\n".join(case.term("plain") for case in self.cases),
            written="\n".join(case.term("written") for case in self.cases),
            reading="\n".join(map(self.read, self.cases)),
        )

    def answers(self):
        """Yields the path and the text of the proofs of `der_cmp`, `first_tag` and, for a long choice,
        `encode`."""
        found = [("DerOrd/der_cmp", COMPARED), ("FirstTag/first_tag", TAGGED)]
        if len(self.cases) > 7:
            found.append(("Encode/encode", ENCODED))
        for function, text in found:
            path = f"{names.module(self.name)}/{self.rust}{function}"
            yield f"proofs/{path}/Answers.antt", text.format(
                crate=self.crate.name, path=path.replace("/", ".")
            )

    def arm(self, pattern, value, end=","):
        """Returns an arm of a match, with braces if the line would be too long."""
        line = f"            {pattern} => {value}{end}"
        if len(line) <= layout.LINE:
            return line
        return f"            {pattern} => {{\n                {value}\n            }}"

    def read(self, case):
        value = "(value.value)" if case.form.mode else "(value.0)"
        made = f"Ok({case.pattern(self.rust, value)})"
        return self.arm(case.of("_" if case.is_unit else "value"), made)


CHOICE = """\
//! {rust}.

ghost use Rattle.std.specs.Prelude.{{◌≡◌, refl}};
ghost use Rattle.std.proofs.Common.{{inl, inr}};
ghost use Rattle.der_core.specs.Shapes.{{Value}};
ghost use Rattle.{crate}.specs.declared.{module}.{rust}.TheVariants as cases;

{uses}

{comment}
#[derive(Debug, Drop, PartialEq, Eq)]
pub enum {rust} {{
{variants}
}}

{owned}

{lent}

impl {rust} {{
    /// Returns a reference to the alternative.
    fn cases<'a>(&'a self) -> CasesRef<'a>
        ensures {{ ◌≡◌ {{A = Value ⟦<CasesRef<'a> as LentField>⟧.shape}}
            (⟦<CasesRef<'a> as LentField>⟧.written result)
            (⟦<{rust} as Shaped>⟧.written self.now) }}
    {{
        match self {{
{lending}
        }}
    }}
}}

impl Shaped for {rust} {{
    ghost shape = {{ ⟦<Cases as Shaped>⟧.shape }};

    ghost plain = {{ λ x. elim x [
{plain}
    ] }};

    ghost written = {{ λ x. elim x [
{written}
    ] }};
}}

impl Choice for {rust} {{
    fn can_decode(tag: Tag) -> bool {{
        Cases::can_decode(tag)
    }}
}}

impl<'a, R: Reader<'a>> Decode<'a, R> for {rust} {{
    fn decode(alloc: Global, reader: &mut R) -> Result<{rust}, Error> {{
        match Cases::read_case(alloc, reader)? {{
{reading}
        }}
    }}
}}

impl Encode for {rust} {{
    fn encoded_len(&self) -> Result<Length, Error> {{
        self.cases().field_len()
    }}

    fn encode<W: Writer>(&self, writer: &mut W) -> Result<(), Error> {{
        self.cases().encode_field(writer)
    }}
}}

impl Element for {rust} {{
    ghost element = {{ refl }};
}}

impl Member for {rust} {{
    ghost apart = {{ refl }};
}}

impl AsRead for {rust} {{
    ghost as_read = {{ λ _. refl }};
}}

/// Compares the tags first, and then the contents.
impl DerOrd for {rust} {{
    fn der_cmp(&self, other: &Self) -> Result<Ordering, Error> {{
        cases_cmp(&self.cases(), &other.cases())
    }}
}}

impl FirstTag for {rust} {{
    fn first_tag(&self) -> Option<Tag> {{
        cases_tag(&self.cases())
    }}
}}
"""
COMPARED = """\
-- The alternatives that are compared are those of the two values.
use Rattle.{crate}.proofs.{path}.Goals as goal

pub returns-clause-order : goal.returns-clause-order
returns-clause-order c = c.cases_cmp.ensures.order _ _ c.cases.ensures c.cases-2.ensures

pub returns-clause-exact : goal.returns-clause-exact
returns-clause-exact c = c.cases_cmp.ensures.exact _ _ c.cases.ensures c.cases-2.ensures

pub returns-clause-refused : goal.returns-clause-refused
returns-clause-refused c = c.cases_cmp.ensures.refused _ _ c.cases.ensures c.cases-2.ensures
"""

ENCODED = """\
-- The alternative that is encoded is that of the value.
use Rattle.{crate}.proofs.{path}.Goals as goal

pub returns-clause-front : goal.returns-clause-front
returns-clause-front g c = rw c.cases.ensures at c.encode_field.ensures.front
"""

TAGGED = """\
-- The first tag is that of the value's alternative.
use Rattle.{crate}.proofs.{path}.Goals as goal

pub returns : goal.returns
returns c = c.cases_tag.ensures _ c.cases.ensures
"""
