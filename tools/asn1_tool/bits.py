"""The source of a BIT STRING with named bits."""

from . import layout, names
from .syntax import Refused


def bits_source(crate, name):
    definition = crate.types.definitions[name]
    rust, known = names.camel(name), {}
    for item in definition.type.items:
        if known.setdefault(item.number, item.name) != item.name:
            raise Refused(item.line, f"two bits of {name} have the same number")
    count = max(known) + 1
    gaps = [number for number in range(count) if number not in known]
    if gaps:
        crate.report.note(definition.line, f"{name}: a bit without a name is called Bit{gaps[0]}"
                                           f"{' and so on' if len(gaps) > 1 else ''}")
    crate.report.note(definition.line, f"{name}: bits after bit {count - 1} are rejected")
    variants = [names.variant(known[at]) if at in known else f"Bit{at}" for at in range(count)]
    if len(set(variants)) < count:
        raise Refused(definition.line, f"two bits of {name} would have the same name in Rust")
    size = next(size for size in (8, 16, 32, 64) if count <= size)
    rows = [f'(codes "{it}", {2**at})' for at, it in enumerate(variants)]
    return BITS.format(
        rust=rust, name=name, size=size, count=count,
        up="self.0" if size == 64 else "u64::from(self.0)",
        back="number" if size == 64 else f"number as u{size}",
        constants="\n".join(f"        const {it} = {2**at};" for at, it in enumerate(variants)),
        table="\n".join(f"        ∷ {row}" for row in rows[1:]) and
              rows[0] + "\n" + "\n".join(f"        ∷ {row}" for row in [*rows[1:], "[]"]) or
              f"{rows[0]} ∷ []",
        comment=layout.comment(definition, ["A bit after the last name is rejected."]),
    )


BITS = """\
//! {rust}.

ghost use Rattle.std.specs.Prelude.{{⊤, [], ◌∷◌, codes, refl}};
ghost use Rattle.bitflags.specs.Sets.{{known_from}};

use bitflags::{{Flag, Flags, bitflag_items}};
use der_types::{{FlagSet, NamedBits}};

/// The named bits of {name}, the first the lowest.
#[derive(Clone, Copy, Debug, PartialEq, Eq)]
pub struct {rust}Bits(u{size});

bitflag_items! {{
    impl {rust}Bits: u{size} {{
{constants}
    }}
}}

impl Flags for {rust}Bits {{
    type Bits = u{size};

    ghost exact = {{ ⊤ }};

    ghost table = {{ {table} }};

    ghost set_of = {{ λ x. x.0 }};

    fn flags<'a>() -> &'a [Flag<{rust}Bits>] {{
        {rust}Bits::FLAGS
    }}

    fn bits(&self) -> u{size} {{
        self.0
    }}

    fn from_bits_retain(bits: u{size}) -> {rust}Bits {{
        {rust}Bits(bits)
    }}
}}

impl NamedBits for {rust}Bits {{
    ghost names = {{ {count} }};

    fn names() -> u32 {{
        {count}
    }}

    fn to_number(&self) -> u64 {{
        {up}
    }}

    fn from_number(number: u64) -> {rust}Bits {{
        {rust}Bits({back})
    }}

    ghost stated = {{ tt }};

    ghost known = {{ unfold known_from in refl }};
}}

{comment}
pub type {rust} = FlagSet<{rust}Bits>;
"""
