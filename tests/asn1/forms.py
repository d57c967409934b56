#!/usr/bin/env python3
"""Decodes and encodes values of the made-up modules `forms.asn1` and `automatic.asn1`.

    tests/asn1/forms.py [TYPE...]
    tests/asn1/forms.py --repository FOLDER

In an empty repository, tools/take.py takes the libraries, and tools/asn1 writes both crates. No
line of them is written by hand. A program decodes encodings of each type and encodes them again; it
has to print the same bytes, and to reject encodings that the module doesn't allow. `rt try` runs
the program, in a temporary folder. --repository only makes the repository, in which `rt check`
proves the crates.
"""

import contextlib
import io
import pathlib
import subprocess
import sys
import tempfile

HERE = pathlib.Path(__file__).resolve().parent
TOP = HERE.parents[1]
sys.path[:0] = [str(TOP / "tests"), str(TOP / "tools")]

from asn1_tool.command import main as write_crate
from asn1_tool.names import snake
from der import NULL, bits, date, explicit, identifier, integer, sequence, tlv

from positions import MAIN

LIBRARIES = ("der_types_more", "der_types", "der_core")
CRATES = {
    "forms": f"{' '.join(LIBRARIES)} bitflags",
    "automatic": "forms der_types_more der_core",
}


def text(value, tag=0x0C):
    return tlv(tag, value.encode())


def true(tag=0x01):
    return tlv(tag, b"\xff")


def false(tag=0x01):
    return tlv(tag, b"\0")


def numbered(number):
    return integer(number, 0x0A)


def members(*values):
    """Encodes a SET OF."""
    return tlv(0x31, *sorted(values))


def inside(number, value):
    """Replaces the tag of a value by [number]."""
    return bytes([0x80 | value[0] & 0x20 | number]) + value[1:]


OID = identifier("1.3.6.1.4.1.32473.7.1")
TWO = sequence(integer(1), integer(65535))
PLAIN = sequence(integer(-128), integer(2**64 - 1), OID)
KEPT = members(integer(7), integer(300))
IDS = [integer(2**32 - 1), true(), NULL, explicit(0, text("a")), inside(1, TWO), inside(2, NULL)]
STRINGS = [text("ä"), text("a b", 0x13), text("a@b", 0x16), text("a", 0x14), tlv(0x1E, b"\x20\xac"),
           text("g", 0x1B), text(" ~", 0x1A), text("1 2", 0x12)]
OTHERS = [date("200101000000Z"), date("20500101000000Z"), tlv(0x04, b"abc"), bits(b"\xf0", 4), NULL]
MEMBERS = [sequence(integer(0), it, PLAIN) for it in (IDS[0], IDS[4])]
MEMBERS.append(sequence(integer(1), IDS[3], inside(0, KEPT), PLAIN, inside(1, members())))
WITHIN = [numbered(2), TWO, tlv(0x81, b"a")]
DEFAULTS = [explicit(0, integer(1)), integer(5), true(0x81), true(), false(0x82), tlv(0x83, b"\2")]
ENCODED = [explicit(0, integer(0)), integer(0), false(0x81), false(), true(0x82), tlv(0x83, b"\1")]
NUMBERS = [tlv(0x80, b"\x15"), tlv(0x81, b"\xfa"), tlv(0x82, b"\1")]
USUAL = [tlv(0x80, b"\x14"), tlv(0x81, b"\xfb"), tlv(0x82, b"\1\0\1")]
RANGES = [integer(2**128 - 1), integer(-(2**127)), integer(32767), integer(-(2**31)),
          integer(2**63 - 1)]
GIVEN = [tlv(0x80, b"\0"), tlv(0x81, b"\1"), tlv(0x82, b"\1")]
SIZED = [TWO, inside(0, KEPT), inside(1, members(text("a"))), inside(2, TWO), inside(3, TWO),
         inside(4, sequence())]
EIGHT = [integer(0), integer(1), text("a"), inside(0, KEPT), PLAIN, explicit(1, text("b")), true(),
         inside(2, sequence(text("c")))]
LABELS = members(text("a", 0x16), text("b", 0x16))
PARCEL = [text("c", 0x16), true(), date("20500101000000Z"), inside(1, LABELS),
          explicit(2, text("d", 0x16)), explicit(3, sequence(OID, OID))]
FREIGHT = [explicit(0, integer(1)), text("c", 0x16), tlv(0x81, b"e"), true(), PARCEL[2],
           inside(2, LABELS), explicit(3, text("f")), inside(4, sequence(text("g", 0x16))),
           false(0x85), tlv(0x86, b"h")]
BOX = sequence(integer(9))
LAST = [integer(1), inside(5, PLAIN), explicit(7, BOX), sequence(inside(5, PLAIN)),
        explicit(6, BOX)]
DESCRIBED = [OID, integer(255), explicit(0, sequence(OID))]
PAIR = [integer(1), sequence(text("a"), text("b")), integer(65535)]
EXTENDED = [tlv(0x80, b"\1"), tlv(0x82, b"\2"), tlv(0x81, b"\3")]

# For each type, encodings of its values, and encodings that must be rejected.
VALUES = {
    "forms::Count": ([integer(0), integer(65535)], [integer(65536), integer(-1)]),
    "forms::AnyNumber": ([integer(-(2**200)), integer(0)], [b"\2\0"]),
    "forms::Natural": ([integer(0), integer(2**200)], [integer(-1)]),
    "forms::Notes": ([sequence(), sequence(text("a"), text(""))], [sequence(integer(1))]),
    "forms::Kept": ([KEPT, members()], [tlv(0x31, integer(300), integer(7)),
                                        members(integer(7), integer(7))]),
    "forms::Two": ([TWO], [sequence(integer(1)), sequence(integer(1), integer(2), integer(3))]),
    "forms::Few": ([sequence(), sequence(*[integer(1)] * 3)], [sequence(*[integer(1)] * 4)]),
    "forms::Filled": ([sequence(integer(1)), sequence(*[integer(1)] * 9)],
                      [sequence(), sequence(text("a")), sequence(integer(1), text("a"))]),
    "forms::Version": ([integer(0), integer(1)], [integer(2), integer(-1)]),
    "forms::Level": ([integer(1), integer(2)], [integer(100), integer(3)]),
    # The numbers of names without a number: X.680 20.3 and 20.8.
    "forms::Colour": ([numbered(0), numbered(3), numbered(1), numbered(2)], [numbered(4)]),
    "forms::Rights": ([bits(b""), bits(b"\x80", 7), bits(b"\x50", 4)],
                      [bits(b"\x80"), bits(b"\x08", 3)]),
    "forms::Strings": ([sequence(*STRINGS)], [sequence(*STRINGS[:-1], text("a", 0x12))]),
    "forms::Others": ([sequence(*OTHERS, explicit(0, it)) for it in (OID, TWO)],
                      [sequence(*OTHERS), sequence(*OTHERS, explicit(0))]),
    "forms::Id": (IDS, [integer(2**32), explicit(2, NULL), tlv(0x83)]),
    "forms::Long": ([tlv(0x80, b"\1"), tlv(0x85, b"\1"), tlv(0x86)], [tlv(0x87), tlv(0x86, b"\0")]),
    "forms::Wide": ([tlv(0x80, b"\1"), tlv(0x87, b"\1"), explicit(8, text("a")), tlv(0x89, b"\1")],
                    [tlv(0x8A, b"\1"), tlv(0x88, b"a")]),
    "forms::Outer": ([*IDS, numbered(3)], [numbered(5), text("a")]),
    "forms::Plain": ([PLAIN, sequence(integer(127), integer(0), OID)],
                     [sequence(integer(128), integer(0), OID), sequence(integer(1), OID)]),
    "forms::Tagged": ([sequence(true(0x80), explicit(1, false()), explicit(2, it),
                                inside(3, PLAIN), explicit(4, text("a"))) for it in IDS],
                      [sequence(true(0x80), false(0x81), explicit(2, NULL), inside(3, PLAIN),
                                explicit(4, text("a")))]),
    "forms::Options": ([sequence(), sequence(text("a")),
                        sequence(numbered(0), tlv(0x80, b"\0"), explicit(1, numbered(0)),
                                 explicit(2, numbered(1)), text("a"))],
                       [sequence(tlv(0x80, b"\0"), numbered(0)), sequence(NULL)]),
    "forms::Defaults": ([sequence(), sequence(*DEFAULTS), sequence(*DEFAULTS[::2])],
                        [sequence(it) for it in ENCODED]),
    "forms::Numbers": ([sequence(), sequence(*NUMBERS), sequence(NUMBERS[1])],
                       [sequence(it) for it in USUAL]),
    "forms::Ranges": ([sequence(*RANGES), sequence(*RANGES, *GIVEN)],
                      [sequence(integer(2**128), *RANGES[1:]),
                       sequence(*RANGES[:2], integer(-32769), *RANGES[3:]),
                       sequence(*RANGES[:4], integer(2**63)),
                       sequence(*RANGES, tlv(0x82, b"\xff"))]),
    "forms::Sets": ([sequence(members(*MEMBERS), sequence()),
                     sequence(members(), inside(0, members(*IDS)), sequence(TWO, sequence()))],
                    [sequence(tlv(0x31, *sorted(MEMBERS, reverse=True)), sequence())]),
    "forms::Sizes": ([sequence(*SIZED), sequence(SIZED[0]), sequence(SIZED[0], SIZED[2])],
                     [sequence(sequence()), sequence(SIZED[0], inside(0, members())),
                      sequence(SIZED[0], inside(1, members())),
                      sequence(SIZED[0], inside(2, sequence())),
                      sequence(SIZED[0], inside(3, sequence(integer(1)))),
                      sequence(SIZED[0], inside(4, sequence(*[integer(1)] * 4)))]),
    "forms::Picked": ([sequence(), sequence(inside(0, members(*IDS)))],
                      [sequence(inside(0, it)) for it in (members(), members(text("a")))]),
    "forms::MemberType": (MEMBERS, [sequence(integer(0), PLAIN)]),
    "forms::Within": ([sequence(*WITHIN), sequence(*WITHIN[:2], tlv(0x80, b"\5"))],
                      [sequence(numbered(3), *WITHIN[1:]), sequence(*WITHIN[:2])]),
    "forms::Eight": ([sequence(*EIGHT), sequence(*EIGHT[:3], PLAIN)], [sequence(*EIGHT[:4])]),
    "forms::Parcel": ([sequence(*PARCEL), sequence(*PARCEL[::2]),
                       sequence(*PARCEL[:3], inside(1, members()))],
                      [sequence(PARCEL[0], false(), PARCEL[2]), sequence(*PARCEL[:3], LABELS),
                       sequence(*PARCEL[:3], tlv(0xA1, text("b", 0x16), text("a", 0x16)))]),
    "forms::Freight": ([sequence(*FREIGHT), sequence(*FREIGHT[1:3], PARCEL[2])],
                       [sequence(*FREIGHT[:2]), sequence(*FREIGHT[1:5], true(0x85)),
                        sequence(*FREIGHT[:5], inside(2, text("a", 0x16)))]),
    "forms::Longer": ([sequence(*WITHIN, integer(8))], [sequence(*WITHIN)]),
    "forms::Last": ([sequence(*LAST), sequence(*LAST[:2], sequence(), LAST[4])],
                    [sequence(*LAST, NULL), sequence(LAST[0], PLAIN, *LAST[2:])]),
    "forms::Both": ([sequence(integer(1), text("a"), integer(255))],
                    [sequence(integer(1), text("a"), integer(256))]),
    "forms::Shown": ([sequence(sequence(*DESCRIBED), sequence(*PAIR)),
                      sequence(sequence(OID), sequence(*PAIR))],
                     [sequence(sequence(OID, integer(256)), sequence(*PAIR))]),
    "automatic::Inner": ([tlv(0x80, b"\1"), explicit(1, true()), inside(2, PLAIN)], [integer(1)]),
    "automatic::Outer": ([sequence(explicit(0, explicit(1, NULL)), true(0x81)),
                          sequence(explicit(0, tlv(0x80, b"\1")), false(0x81), tlv(0x82, b"a"))],
                         [sequence(tlv(0x80, b"\1"), true(0x81))]),
    # The fields of the root are numbered first (X.680 25.7).
    "automatic::Extended": ([sequence(*EXTENDED)], [sequence(*sorted(EXTENDED))]),
    "automatic::Copied": ([sequence(*sorted(EXTENDED))], [sequence(*EXTENDED)]),
    "automatic::Repeated": ([sequence(inside(0, members(integer(7), integer(7)))),
                             sequence(inside(0, members()), true(0x81),
                                      inside(2, members(*[tlv(0x80, b"\1")] * 2)))],
                            [sequence(tlv(0xA0, integer(8), integer(7))),
                             sequence(inside(0, members()), false(0x81))]),
    "automatic::Given": ([sequence(tlv(0x83, b"\1"), true())], [sequence(integer(1), true())]),
}


# Each type has a function of its own, as docs/CONTRIBUTING.md advises ("What a check costs").
AGAIN = """
fn {call}(alloc: Global, octets: &[u8]) -> Result<Vec<u8>> {{
    {type}::from_der(alloc, octets)?.to_der(alloc)
}}
"""


def write(folder, names):
    """Makes a repository with the crates and the program, and returns the program's folder."""
    crates, here = folder / "crates", str(folder / "crates")
    with contextlib.redirect_stdout(io.StringIO()):
        is_refused = write_crate([str(HERE / "forms.asn1"), f"{here}/forms"])
        is_refused |= write_crate([str(HERE / "automatic.asn1"), f"{here}/automatic",
                                   "--equal-members", "--with", f"{here}/forms"])
    if is_refused:
        sys.exit("tools/asn1 refuses a module")
    subprocess.run([TOP / "tools/take.py", *LIBRARIES, folder], check=True, capture_output=True)
    source = crates / "forms_program/src"
    source.mkdir(parents=True)
    labels = [*(f'"{it}"' for it in names[:-1]), "_"]
    calls = [snake(it.replace("::", "-")) for it in names]
    arms = "".join(f"        {label} => {call}(alloc, octets),\n"
                   for label, call in zip(labels, calls))
    functions = "".join(AGAIN.format(call=call, type=it) for call, it in zip(calls, names))
    (source / "main.rt").write_text(MAIN.replace("ARMS", arms) + functions)
    (folder / "HANDLES").write_text((TOP / "HANDLES").read_text())
    with (folder / "crates.txt").open("a") as lines:
        lines.writelines(f"{name}: {line}\n" for name, line in CRATES.items())
        lines.write("forms_program: automatic forms der_core hex\n")
    return crates / "forms_program"


def main(words):
    if words[:1] == ["--repository"]:
        write(pathlib.Path(words[1]), [*VALUES])
        return False
    names = words or [*VALUES]
    asked = [(name, it, True) for name in names for it in VALUES[name][0]]
    asked += [(name, it, False) for name in names for it in VALUES[name][1]]
    with tempfile.TemporaryDirectory() as place:
        program = write(pathlib.Path(place), names)
        lines = "".join(f"{name} {it.hex()}\n" for name, it, _ in asked)
        ran = subprocess.run(["rt", "try"], cwd=program, input=lines, text=True,
                             capture_output=True)
    told = [line.split(" ", 1) for line in ran.stdout.splitlines() if line.split(" ")[0] in names]
    if len(told) != len(asked):
        sys.exit(f"the program doesn't run: {ran.stdout[-2000:]}{ran.stderr[-2000:]}")
    differ = 0
    for (name, given, is_value), (_, found) in zip(asked, told):
        if (found != given.hex()) if is_value else not found.startswith("rejected: "):
            differ += 1
            print(f"{name} {given.hex()}: {found}")
    print(f"{len(names)} types, {len(asked)} encodings, {differ} differ")
    return differ > 0


if __name__ == "__main__":
    sys.exit(main(sys.argv[1:]))
