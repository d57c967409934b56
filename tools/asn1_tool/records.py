"""The source of a SEQUENCE: a struct, its row of fields, and the impls that code it."""

import collections
import dataclasses

from . import layout, names
from .layout import Call, Lent, Literal, Tuple
from .module import overlap, shared
from .syntax import Refused

@dataclasses.dataclass(frozen=True)
class Column:
    """A field of a record, and its Rust form."""

    label: str
    form: object
    optional: bool
    # If the field has a default: the type that codes it, and its wrapper.
    default: object = None

    @property
    def is_filled(self):
        """Returns whether the field is a set that must have a member if it is present."""
        return self.optional and self.form.checks_size()

    @property
    def inner(self):
        return self.default.rust if self.default else self.form.rust

    @property
    def mode(self):
        return self.form.mode

    @property
    def owned(self):
        """Returns the type of the field."""
        text = self.form.rust.text
        return f"Option<{text}>" if self.optional else text

    @property
    def tagged(self):
        text = self.inner.text
        return f"{self.mode.capitalize()}<{text}, {self.form.number}>" if self.mode else text

    def row(self, by_hand):
        """Returns the type of the field in the row."""
        if self.default:
            return f"WithDefault<{self.tagged}>"
        if self.is_filled:
            return f"WithDefault<OptionalSet<{self.form.rust.member[0]}, {self.form.number}>>"
        found = f"Option<{self.tagged}>" if self.optional else self.tagged
        return found if self.mode or not by_hand else f"Whole<{found}>"

    @property
    def word(self):
        """Returns the field as `read_row!` and `lend!` write it, or None if they can't."""
        words = [self.mode, str(self.form.number)] if self.mode else []
        if self.default and self.default.wrapper or self.is_filled:
            return None
        if self.default or self.optional and self.mode:
            words.append("default" if self.default else "optional")
        return f"{self.label}: {' '.join(words)}" if words else self.label

    def term(self, value):
        """Returns the ghost term for the abstract value of the field."""
        of = self.form.rust.text
        if self.is_filled:
            return f"value_or [] ⟦<{of} as ShapedValue>⟧.value_plain {value}.{self.label}"
        if self.mode == "implicit":
            found = f"⟦<{of} as ShapedValue>⟧.value_plain"
        else:
            found = f"⟦<{of} as Shaped>⟧.plain"
        if self.optional:
            found = f"plain_option {found}"
        return f"{found} {value}.{self.label}"

    def lend(self, of):
        """Returns the expression that borrows the field of a value."""
        value, number = f"{of}.{self.label}", self.form.number
        if self.is_filled:
            members = Call(f"members_of::<_, {number}>", (f"&{value}",))
            return Literal("WithDefault", (("value", members),))
        if self.default:
            inner = self.default.wrapped(value)
            if self.mode:
                inner = Literal(f"{self.mode.capitalize()}::<_, {number}>", (("value", inner),))
            return Literal("WithDefault", (("value", inner),))
        if self.optional and self.mode:
            return Call(f"{self.mode}_ref::<_, {number}>", (f"&{value}",))
        if self.mode == "implicit":
            return Literal(f"ImplicitRef::<_, {number}>", (("value", Lent(value)),))
        lent = Call("EncodeRef", (f"&{value}",))
        return Literal(f"Explicit::<_, {number}>", (("value", lent),)) if self.mode else lent

    @property
    def back(self):
        """Returns the expression that takes the field's value from the row."""
        if self.is_filled:
            return f"{self.label}.value.0"
        if self.optional and self.mode:
            return f"{self.mode}_of({self.label})"
        if not self.mode and not self.default:
            return f"{self.label}.0"
        value = self.label + ".value" * (bool(self.default) + bool(self.mode))
        return self.default.unwrapped(value) if self.default else value

    def uses(self):
        """Returns the paths of the library that the struct and its row need."""
        found = set(self.form.rust.uses) | set(self.inner.uses)
        found.add("der_core::ShapedValue" if self.mode == "implicit" else "der_core::Shaped")
        if self.mode and not self.is_filled:
            found.add(f"der_core::{self.mode.capitalize()}")
        if self.default or self.is_filled:
            found.add("der_core::WithDefault")
        if self.is_filled:
            found |= {"der_types_more::OptionalSet", "der_types_more::members_of"}
            found |= self.form.rust.member[1]
        return found


class Record:
    """The source of one SEQUENCE."""

    def __init__(self, crate, name):
        self.crate, self.name = crate, name
        self.definition = crate.types.definitions[name]
        self.rust = names.camel(name)
        self.columns = [self.column(field) for field in self.definition.type.fields]
        self.check()
        # The optional fields whose tag is taken off, by `implicit_of` or `explicit_of`.
        self.untagged = [it for it in self.columns
                         if it.optional and it.mode and not it.is_filled]
        defaults = [it for it in self.columns if it.default]
        self.has_default = bool(defaults)
        # With so many of both, the prover finds no proof of `decode_fields` by itself. The proof
        # that is written then needs a tag to take off, and doesn't fit a signed default.
        is_signed = any((it.default.rust.bits or 0) < 0 for it in defaults)
        is_many = len(self.untagged) + len(defaults) >= 4
        self.is_large = is_many and bool(self.untagged) and not is_signed
        self.by_hand = self.is_large or any(it.word is None for it in self.columns)
        self.uses = {
            "der_core::DecodeFields", "der_core::Error", "der_core::Reader", "std::alloc::Global",
            *(f"der_core::describing::{it}" for it in
              ("AsRecord", "Described", "FieldRow", "FieldsView", "RowUser", "Rows")),
        }
        self.uses.update(*(it.uses() for it in self.columns))

    def column(self, field):
        form = self.crate.types.form(field.type)
        if field.optional and form.checks_size():
            self.crate.types.checked.add(form.rust.text)
        else:
            self.crate.types.check_size(form.rust, field.line)
        if field.default is not None:
            default, form = self.crate.default(field, form)
            return Column(names.snake(field.name), form, False, default)
        return Column(names.snake(field.name), form, field.optional)

    def check(self):
        """Rejects optional fields that no tag tells apart, and two fields with the same name."""
        fields, line = self.definition.type.fields, self.definition.line
        if not fields:
            raise Refused(line, "a SEQUENCE without fields can't be written")
        labels = [it.label for it in self.columns]
        if len(set(labels)) < len(labels):
            raise Refused(line, f"two fields of {self.name} would have the same name in Rust")
        for at, (field, column) in enumerate(zip(fields, self.columns)):
            for other, its in zip(fields[at + 1 :], self.columns[at + 1 :]):
                if not self.may_miss(field):
                    break
                tags = overlap(column.form.first, its.form.first)
                if tags is None or tags:
                    raise Refused(
                        field.line, f"{field.name} may be absent, and {other.name} may begin with "
                                    f"the same tag{shared(tags)}: give one of them a tag",
                    )
                if not self.may_miss(other):
                    break

    def may_miss(self, field):
        return field.optional or field.default is not None

    # The parts of the file.

    def source(self):
        parts = [
            self.struct(),
            layout.alias("Row", layout.nested([it.row(self.by_hand) for it in self.columns])),
            self.described(), self.view(), self.decoding(), self.rows(),
        ]
        ghosts = ["ghost use Rattle.std.specs.Prelude.{refl};"]
        if any(it.optional and not it.is_filled for it in self.columns):
            ghosts.append("ghost use Rattle.der_core.specs.Grammar.{plain_option};")
        if any(it.is_filled for it in self.columns):
            ghosts[0] = "ghost use Rattle.std.specs.Prelude.{[], refl};"
            ghosts.append("ghost use Rattle.der_types_more.specs.OptionalSets.{value_or};")
        uses = self.crate.imports(self.name, self.uses)
        return "\n\n".join([f"//! {self.rust}.", "\n".join(ghosts), uses, *parts]) + "\n"

    def answers(self):
        """Yields the path and the text of the proofs of `with_rows` and, if it needs one, of
        `decode_fields`."""
        found = [("Rows/with_rows", LENT), ("DecodeFields/decode_fields", self.read_answer())]
        for function, text in found:
            path = f"{names.module(self.name)}/{self.rust}{function}"
            if text:
                yield f"proofs/{path}/Answers.antt", text.format(
                    crate=self.crate.name, path=path.replace("/", "."), clauses=self.clauses(),
                    first=self.columns[0].label, call="take_lent" if self.by_hand else "lend",
                )

    def read_answer(self):
        """Returns the proof of `decode_fields`, or nothing if the prover finds it."""
        if self.is_large:
            return READ_LARGE
        if self.has_default and any(it.optional and it.mode for it in self.columns):
            return READ_TWICE_BY_HAND if self.by_hand else READ_TWICE
        return READ if self.has_default and not self.by_hand else None

    def clauses(self):
        """Returns the clauses of the calls that take tags off, as a proof names them."""
        calls = collections.Counter()
        found = []
        for column in self.untagged:
            calls[column.mode] += 1
            number = f"-{calls[column.mode]}" * (calls[column.mode] > 1)
            found.append(f"c.{column.mode}_of{number}.ensures")
        return ", ".join(found)

    def struct(self):
        notes = ["Other fields are rejected."] if self.definition.type.extensible else []
        fields = "\n".join(f"    pub {it.label}: {it.owned}," for it in self.columns)
        return (f"{layout.comment(self.definition, notes)}\n#[derive(Debug, Drop, PartialEq, Eq)]\n"
                f"pub struct {self.rust} {{\n{fields}\n}}")

    def described(self):
        return f"impl Described for {self.rust} {{\n    type By = AsRecord;\n}}"

    def view(self):
        terms = layout.pairs([it.term("r") for it in self.columns], 4)
        return (f"impl FieldsView for {self.rust} {{\n"
                "    ghost body = { ⟦<Row as FieldRow>⟧.fields };\n\n"
                f"    ghost view = {{ λ r. {terms} }};\n}}")

    def decoding(self):
        call = f"fn decode_fields(alloc: Global, reader: &mut R) -> Result<{self.rust}, Error>"
        return (f"impl<'a, R: Reader<'a>> DecodeFields<'a, R> for {self.rust} {{\n    {call} {{\n"
                f"{self.read()}\n    }}\n}}")

    def read(self):
        if not self.by_hand:
            self.uses.add("der_core::read_row")
            words = [it.word for it in self.columns]
            line = f"        read_row!(alloc, reader; {self.rust} {{ {', '.join(words)} }})"
            if len(line) > layout.LINE:
                line = (f"        read_row!(alloc, reader; {self.rust} {{\n"
                        f"{layout.filled(words, 12)}\n        }})")
            return line
        self.uses.add("der_core::describing::ReadRow")
        if any(not it.mode and not it.default for it in self.columns):
            self.uses.add("der_core::describing::Whole")
        row = layout.nested([it.label for it in self.columns])
        fields = tuple((it.label, it.back) for it in self.columns)
        made = layout.laid(Call("Ok", (Literal(self.rust, fields),)), 8)
        self.uses.update(f"der_core::making::{it.mode}_of" for it in self.columns
                         if it.optional and it.mode and not it.is_filled)
        found = layout.pattern(row, 8, len("let "), len(" = Row::read_row("))
        line = f"        let {found} = Row::read_row(alloc, reader)?;"
        if "\n" not in found and len(line) > layout.LINE:
            line = line.replace("(alloc, reader)", "(\n            alloc, reader,\n        )")
        return f"{line}\n        {made}"

    def rows(self):
        if self.by_hand:
            lent = (Lent(layout.nested([it.lend(of) for it in self.columns]))
                    for of in ("self", "other"))
            body = f"        {layout.laid(Call('user.take_lent', tuple(lent)), 8)}"
            self.lend_uses()
        else:
            self.uses.add("der_core::lend")
            words = [it.word for it in self.columns]
            body = f"        lend!(self, other, user; {', '.join(words)})"
            if len(body) > layout.LINE:
                body = f"        lend!(self, other, user;\n{layout.filled(words, 12, ')')}"
        return (f"impl Rows for {self.rust} {{\n"
                "    fn with_rows<U: RowUser>(&self, other: &Self, user: &mut U) -> U::Answer {\n"
                f"{body}\n    }}\n\n    ghost apart = {{ refl }};\n}}")

    def lend_uses(self):
        for it in self.columns:
            if it.is_filled:
                continue
            if it.optional and it.mode:
                self.uses.add(f"der_core::making::{it.mode}_ref")
            elif it.default:
                self.uses |= it.default.uses
            else:
                self.uses.add("der_core::ImplicitRef" if it.mode == "implicit"
                              else "der_core::EncodeRef")


LENT = """\
-- The two rows have the fields of the two values.
use Rattle.std.proofs.Common.{{rules}}
use Rattle.{crate}.proofs.{path}.Goals as goal

pub returns : goal.returns
returns g c = c.{call}.ensures _ _ (search rules) (search rules)
"""

READ = """\
-- A field with a default is decoded as `default_at` says.
use Rattle.std.proofs.Common.{{rules}}
use Rattle.der_core.specs.Grammar.{{default_at}}
use Rattle.{crate}.proofs.{path}.Goals as goal

pub returns : goal.returns
unfolding default_at
returns g c = search rules
"""

# With an optional field that has a tag, the prover also needs the lemma below.
TWICE = "use Rattle.{crate}.proofs.Optional_fields.{{twice}}\n"
TAGGED = READ.replace("use Rattle.{crate}", TWICE + "use Rattle.{crate}")
READ_TWICE = TAGGED + """
pub returns-2 : goal.returns-2
unfolding default_at
returns-2 g c = search (rules, twice)
"""
READ_TWICE_BY_HAND = TAGGED.replace("search rules", "search (rules, twice)")
READ_LARGE = """\
-- The fields are those of the row, without the tags of optional fields.
use Rattle.der_core.specs.Grammar.{{default_at}}
use Rattle.{crate}.proofs.Optional_fields.{{twice}}
use Rattle.{crate}.proofs.{path}.Goals as goal

pub returns : goal.returns
unfolding default_at
returns g c = (
  simp ({clauses}, twice) c.in_ok-{first}.ensures.0,
  c.in_ok-{first}.ensures.1,
  c.in_ok-{first}.ensures.2,
  c.in_ok-{first}.ensures.3,
)
"""

# The file proofs/Optional_fields.antt: a type of the module can't have this name.
OPTIONAL_FIELDS = """\
-- A lemma about optional fields.
use Rattle.std.specs.Prelude.{◌≡◌, Option, None, Some, refl}
use Rattle.der_core.specs.Grammar.{plain_option}

-- To map an optional value twice is to map it once.
pub twice : {A B C : Type 0} (f : B → C) (g : A → B) (o : Option A)
    → plain_option f (plain_option g o) ≡ plain_option (λ x. f (g x)) o
twice f g None = refl
twice f g (Some x) = refl
"""
