"""The source of named numbers, and of numbers with a default."""

import dataclasses

from . import layout, library, names
from .layout import Call
from .library import RustType
from .syntax import Refused

# The definitions that proofs about contents unfold; specs/Opened.antt imports them.
OPENED = """\
-- Definitions of other crates that attributes of this one unfold.
unfoldable pub use Rattle.der_core.specs.Integers.{integer_octets}
unfoldable pub use Rattle.der_core.specs.Shapes.{IsContent, contents}
"""
UNFOLDING = "unfolding(crate::specs::Opened::contents, crate::specs::Opened::IsContent"
TACTIC = f"#[tactic(auto, {UNFOLDING}))]"
OPEN_TACTIC = f"#[tactic(auto, {UNFOLDING}, crate::specs::Opened::integer_octets))]"


@dataclasses.dataclass(frozen=True)
class Default:
    """What codes a field with a default: a type with `DefaultContent`, and its wrapper, if any."""

    rust: RustType
    wrapper: str = ""

    def wrapped(self, value):
        return Call(self.wrapper, (value,)) if self.wrapper else value

    def unwrapped(self, value):
        return f"{value}.0" if self.wrapper else value

    @property
    def uses(self):
        return set(self.rust.uses)


def content(number):
    """Returns the content octets of an INTEGER (X.690 8.3)."""
    size = next(size for size in range(1, 18) if library.has(-8 * size, number))
    return list(number.to_bytes(size, "big", signed=True))


def number_source(crate, name):
    """Returns the source of an ENUMERATED, or of an INTEGER with named numbers."""
    definition = crate.types.definitions[name]
    of, rust = definition.type, names.camel(name)
    items = crate.types.items(of)
    numbers, variants = [it.number for it in items], [names.variant(it.name) for it in items]
    if len(set(numbers)) < len(numbers):
        raise Refused(definition.line, f"two values of {name} have the same number")
    if len(set(variants)) < len(variants):
        raise Refused(definition.line, f"two values of {name} would have the same name in Rust")
    if of.word == "INTEGER" or of.extensible:
        crate.report.note(definition.line, f"{name}: numbers without a name are rejected")
    way = "AsEnumerated" if of.word == "ENUMERATED" else "AsNumbered"
    expected = [0, *(number + 1 for number in numbers)]
    declared = [
        f"    {variant}," if number == next_one else f"    {variant} = {number},"
        for variant, number, next_one in zip(variants, numbers, expected)
    ]
    uses = {f"der_core::describing::{it}" for it in (way, "Described", "Numbered", "Ordered")}
    default = ""
    if name in crate.defaults:
        uses.add("der_core::DefaultNumber")
        item, number = crate.defaults[name]
        default = "\n" + DEFAULT.format(rust=rust, variant=names.variant(item), number=number)
    listed = layout.list_term([str(number) for number in numbers], 8, 28, 3)
    return NUMBERS.format(
        rust=rust, crate=crate.name, module=names.module(name), way=way, default=default,
        uses=layout.imports(uses), listed=listed, declared="\n".join(declared),
        comment=layout.comment(definition, ["Any other number is rejected as `Value`."]),
        known="\n".join(f"      | cases.{it} ↦ {number}" for it, number in zip(variants, numbers)),
        reading="\n".join(
            f"            {number} => Some({rust}::{it})," for it, number in zip(variants, numbers)
        ),
    )


NUMBERS = """\
//! {rust}.

ghost use Rattle.std.specs.Prelude.{{[], ◌∷◌, refl}};
ghost use Rattle.{crate}.specs.declared.{module}.{rust}.TheVariants as cases;

{uses}

{comment}
#[derive(Clone, Copy, Debug, PartialEq, Eq)]
pub enum {rust} {{
{declared}
}}

impl Described for {rust} {{
    type By = {way};
}}

impl Numbered for {rust} {{
    ghost known_numbers = {{ {listed} }};

    ghost known_number = {{ λ v. elim v [
{known}
    ] }};

    fn from_number(number: u8) -> Option<{rust}> {{
        match number {{
{reading}
            _ => None,
        }}
    }}

    fn to_number(&self) -> u8 {{
        *self as u8
    }}

    ghost few = {{ refl }};
}}

/// Orders the values by their numbers.
impl Ordered for {rust} {{}}
{default}"""
DEFAULT = """\
/// `{variant}`.
impl DefaultNumber for {rust} {{
    ghost default_number = {{ {number} }};

    fn default_named() -> {rust} {{
        {rust}::{variant}
    }}

    ghost small = {{ refl }};
}}
"""


def wrappers_source(found):
    """Returns the source of the wrappers of numbers whose default isn't that of the library."""
    is_long = any(not is_small(octets) for _, _, octets in found.values())
    uses = {"der_core::DefaultContent"}
    uses |= {f"der_core::describing::{it}" for it in ("AsField", "Described", "Ordered", "Wraps")}
    ghosts = ["ghost use Rattle.std.specs.Prelude.{◌≡◌, [], ◌∷◌, refl};"]
    parts = []
    if is_long:
        ghosts = [
            "ghost use Rattle.std.specs.Prelude.{◌≡◌, [], ◌∷◌, bytes_eq, refl};",
            "ghost use Rattle.der_core.specs.Leaves.{integer};",
            "ghost use Rattle.der_core.specs.Shapes.{IsContent, contents, leaf};",
        ]
        uses |= {"der_core::Integer", "der_core::making::integer_octets_of"}
        parts.append(HAS_CONTENT.replace("{tactic}", TACTIC))
    for name, (base, value, octets) in sorted(found.items()):
        shown, tactic, made = ", ".join(map(str, octets)), TACTIC, f"{name}({value})"
        if is_small(octets):
            uses.add("der_core::making::is_small")
            test = f"is_small(&self.0, {shown})"
            made = (f"let value = {name}({value});\n"
                    f"        let _small = is_small(&value.0, {shown});\n        value")
        else:
            test, tactic = f"has_content(&self.0, &[{shown}])", OPEN_TACTIC
        parts.append(WRAPPER.format(
            name=name, base=base, value=value, tactic=tactic, test=test, made=made,
            listed=layout.list_term(map(str, octets), 8, 29, 3),
        ))
    head = "//! Values of fields whose default isn't that of the library."
    return "\n\n".join([head, "\n".join(ghosts), layout.imports(uses), *parts]) + "\n"


def is_small(octets):
    """Returns whether a content is that of a number from 0 to 127."""
    return len(octets) == 1 and octets[0] < 128


HAS_CONTENT = """\
/// Whether the content of a number is these bytes.
{tactic}
fn has_content<T: Integer>(value: &T, octets: &[u8]) -> bool
    ensures value { result
        ≡ bytes_eq (contents (leaf (integer T.numbers)) (T.number value.now)) octets.now }
    ensures valid { IsContent (leaf (integer T.numbers)) (T.number value.now) }
{
    let (negative, number) = value.sign_and_bits();
    let (written, start) = integer_octets_of(negative, number);
    &written[start..] == octets
}"""
WRAPPER = """\
/// A `{base}` in a field whose default is {value}.
#[derive(Clone, Copy, Debug)]
pub struct {name}(pub {base});

impl Described for {name} {{
    type By = AsField<{base}>;
}}

impl From<{base}> for {name} {{
    ghost from_gives = {{ λ field value. value.0 ≡ field }};

    fn from(field: {base}) -> {name} {{
        {name}(field)
    }}
}}

impl Wraps<{base}> for {name} {{
    ghost inner = {{ λ value. value.0 }};

    fn inner(&self) -> &{base} {{
        &self.0
    }}

    ghost made = {{ λ _ _ e. e }};
}}

impl Ordered for {name} {{}}

impl DefaultContent for {name} {{
    ghost content_octets = {{ {listed} }};

    ghost few = {{ refl }};

    ghost enough = {{ λ _. refl }};

    {tactic}
    fn default_content() -> {name} {{
        {made}
    }}

    {tactic}
    fn is_default_content(&self) -> bool {{
        {test}
    }}
}}"""
ANSWERS = """\
-- The content of the default is these bytes.
use Rattle.std.proofs.Common.{{ℕ, zero, suc, ◌<◌, [], ◌∷◌, get_or, lit<, refl}}
use Rattle.der_core.specs.Shapes.{{contents}}
use Rattle.der_core.specs.Integers.{{integer_of}}
use Rattle.der_core.proofs.IntegerLaws.{{integer_octets-of}}
use Rattle.{crate}.proofs.{path}.Goals as goal

bytes : (i : ℕ) → get_or ({listed}) i 0 < 256
{cases}

pub returns-clause-octets : goal.returns-clause-octets
unfolding contents integer_of
returns-clause-octets c = integer_octets-of ({listed}) bytes (lit< tt) refl
"""


def wrapper_answers(crate, found):
    """Yields the path and the text of the proofs of defaults that aren't from 0 to 127."""
    for name, (_, _, octets) in sorted(found.items()):
        if is_small(octets):
            continue
        indices = ["zero"]
        for _ in octets[1:]:
            indices.append(f"(suc {indices[-1]})")
        last = "i"
        for _ in octets:
            last = f"(suc {last})"
        path = f"defaults/{name}DefaultContent/default_content"
        yield f"proofs/{path}/Answers.antt", ANSWERS.format(
            crate=crate, path=path.replace("/", "."),
            listed=" ∷ ".join([*map(str, octets), "[]"]),
            cases="\n".join(f"bytes {index} = lit< tt" for index in [*indices, last]),
        )
