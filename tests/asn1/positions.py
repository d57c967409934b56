#!/usr/bin/env python3
"""Uses each type of the library in each place that ASN.1 has, and compares the bytes with pyasn1's.

    tests/asn1/positions.py [TYPE...]

For each type, tools/asn1 writes a record with a field of the type, a SEQUENCE OF, a SET OF,
explicit and implicit tags, OPTIONAL, and DEFAULT if it has one. A program decodes records that
pyasn1 encoded, and encodes them again. It also decodes records whose SET OF is in the wrong order,
and records in which a default is encoded; it has to reject these. `rt try` runs the program, in a
temporary folder with copies of the crates: some 20 processor minutes for all types.
"""

import contextlib
import io
import pathlib
import subprocess
import sys
import tempfile

from pyasn1.codec.der import encoder
from pyasn1.type import tag, univ

TOP = pathlib.Path(__file__).resolve().parents[2]
sys.path[:0] = [str(TOP / "tests"), str(TOP / "tools")]

from asn1_tool.command import main as write_crate
from der import algorithm, bits, date, explicit, extension, identifier, integer, sequence, tlv

AT_ONCE = 15
READING, TYPES, MORE = "x509_cert_reading", "der_types", "der_types_more"


def text(tag_number, value):
    return tlv(tag_number, value.encode())


def octets(*content):
    return tlv(0x04, *content)


def named(number, content=b""):
    """Encodes a value with the implicit tag [number]."""
    return tlv(0x80 + number, content)


def name_of(value):
    return sequence(tlv(0x31, sequence(identifier("2.5.4.3"), text(0x0C, value))))


ONE, OTHER = identifier("1.3.6.1.4.1.32473.1"), identifier("1.3.6.1.4.1.32473.2")
OLD, NEW = date("200101000000Z"), date("20500101000000Z")
NAMES = [name_of("a"), name_of("b")]
DNS, URI = named(2, b"a.example"), named(6, b"http://a.example/")
DIRECTORY = explicit(4, NAMES[0])
BY = algorithm("1.2.840.10045.4.3.2")
KEYS = [sequence(algorithm("1.2.840.10045.2.1", OTHER), bits(b"\x04" + bytes(8))),
        sequence(algorithm("1.3.101.112"), bits(bytes(32)))]
EXTENSIONS = [extension("2.5.29.19", sequence()), extension("2.5.29.14", octets(b"a"), True)]
DATES = [sequence(OLD, NEW), sequence(OLD, OLD)]
PARTS = [sequence(explicit(0, integer(2)), integer(serial), BY, NAMES[0], DATES[0], NAMES[1],
                  KEYS[0], explicit(3, sequence(*EXTENSIONS))) for serial in (1, 200)]
REVOKED = [sequence(integer(7), OLD), sequence(integer(8), NEW)]
LISTS = [sequence(integer(1), BY, NAMES[0], OLD, NEW, sequence(it)) for it in REVOKED]
VALUES = tlv(0x31, text(0x0C, "a"), text(0x13, "a"))
ATTRIBUTES = [sequence(ONE, VALUES), sequence(OTHER, VALUES)]
REQUESTS = [sequence(integer(0), name, KEYS[0], tlv(0xA0, ATTRIBUTES[0])) for name in NAMES]
POINT = explicit(0, explicit(0, URI))
QUALIFIER = sequence(identifier("1.3.6.1.5.5.7.2.1"), text(0x16, "http://a.example/"))
POLICIES = [sequence(ONE), sequence(OTHER, sequence(QUALIFIER))]
NOTICES = [sequence(text(0x0C, "a"), sequence(integer(1), integer(2))),
           sequence(text(0x16, "a"), sequence(integer(3)))]
ACCESS = [sequence(ONE, URI), sequence(OTHER, DNS)]
HARDWARE = [sequence(ONE, octets(b"1")), sequence(ONE, octets(b"2"))]
SUBTREES = [sequence(DNS), sequence(DIRECTORY)]
FLAGS = [bits(b"\x80", 7), bits(b"\x03", 0)]


def signed(part):
    return sequence(part, BY, bits(b"\0"))


# Each type: its Rust type and the crate that it is imported from, the tags with which it can begin,
# and values. A type without a tag of its own (CHOICE) has the mark "choice".
LIBRARY = {
    "Cert": ("CertificateInner<Raw>", READING, "SEQUENCE", [signed(it) for it in PARTS]),
    "CertPart": ("TbsCertificateInner<Raw>", READING, "SEQUENCE", PARTS),
    "Crl": ("CertificateList<Raw>", READING, "SEQUENCE", [signed(it) for it in LISTS]),
    "CrlPart": ("TbsCertList<Raw>", READING, "SEQUENCE", LISTS),
    "Revoked": ("RevokedCert<Raw>", READING, "SEQUENCE", REVOKED),
    "Request": ("CertReq", READING, "SEQUENCE", [signed(it) for it in REQUESTS]),
    "RequestPart": ("CertReqInfo", READING, "SEQUENCE", REQUESTS),
    "Serial": ("SerialNumber<Raw>", READING, "INTEGER", [integer(1), integer(-1), integer(2**100)]),
    "Dates": ("Validity<Raw>", READING, "SEQUENCE", DATES),
    "Moment": ("Time", READING, "UTCTime+GeneralizedTime choice", [OLD, NEW]),
    "Edition": ("Version", READING, "INTEGER default=v1", [integer(0), integer(2)]),
    "Named": ("Name", READING, "SEQUENCE choice", NAMES),
    "Rdns": ("RdnSequence", READING, "SEQUENCE", NAMES),
    "Rdn": ("RelativeDistinguishedName", READING, "SET", [it[2:] for it in NAMES]),
    "Pair": ("AttributeTypeAndValue", READING, "SEQUENCE", [it[4:] for it in NAMES]),
    "Attr": ("Attribute", READING, "SEQUENCE", ATTRIBUTES),
    "Directory": ("DirectoryString", READING, "PrintableString+TeletexString+UTF8String choice",
                  [text(0x0C, "ä"), text(0x13, "a"), text(0x14, "a")]),
    "Alg": ("AlgorithmIdentifier", READING, "SEQUENCE", [BY, algorithm("1.2.3", ONE)]),
    "Spki": ("SubjectPublicKeyInfo", READING, "SEQUENCE", KEYS),
    "Ext": ("Extension", READING, "SEQUENCE", EXTENSIONS),
    "Exts": ("Extensions", READING, "SEQUENCE", [sequence(it) for it in EXTENSIONS]),
    "General": ("GeneralName", READING, "[0]+[1]+[2]+[4]+[5]+[6]+[7]+[8] choice",
                [DNS, URI, DIRECTORY, named(1, b"a@b"), named(7, b"\1\2\3\4"),
                 named(8, ONE[2:]), tlv(0xA0, ONE, explicit(0, OTHER))]),
    "Generals": ("GeneralNames", READING, "SEQUENCE", [sequence(DNS), sequence(URI, DIRECTORY)]),
    "OtherNamed": ("OtherName", READING, "SEQUENCE",
                   [sequence(ONE, explicit(0, it)) for it in (ONE, OTHER)]),
    "Edi": ("EdiPartyName", READING, "SEQUENCE",
            [sequence(explicit(1, text(0x0C, it))) for it in "ab"]),
    "Hardware": ("HardwareModuleName", READING, "SEQUENCE", HARDWARE),
    "Access": ("AccessDescription", READING, "SEQUENCE", ACCESS),
    "Accesses": ("AuthorityInfoAccessSyntax", READING, "SEQUENCE", [sequence(it) for it in ACCESS]),
    "KeyId": ("AuthorityKeyIdentifier", READING, "SEQUENCE",
              [sequence(named(0, b"a")), sequence(tlv(0xA1, DIRECTORY), named(2, b"\1"))]),
    "Point": ("DistributionPoint", READING, "SEQUENCE",
              [sequence(POINT), sequence(POINT, named(1, b"\1\2"), tlv(0xA2, DIRECTORY))]),
    "PointName": ("DistributionPointName", READING, "[0]+[1] choice",
                  [tlv(0xA0, URI), tlv(0xA1, NAMES[0][4:])]),
    "Points": ("CrlDistributionPoints", READING, "SEQUENCE", [sequence(sequence(POINT))]),
    "IssuedBy": ("IssuingDistributionPoint", READING, "SEQUENCE",
                 [sequence(POINT), sequence(POINT, named(1, b"\xff"))]),
    "Constraints": ("NameConstraints", READING, "SEQUENCE",
                    [sequence(tlv(0xA0, it)) for it in SUBTREES]),
    "Subtree": ("GeneralSubtree", READING, "SEQUENCE", SUBTREES),
    "Basic": ("BasicConstraints", READING, "SEQUENCE",
              [sequence(), sequence(b"\1\1\xff"), sequence(b"\1\1\xff", integer(3))]),
    "Policies": ("CertificatePolicies", READING, "SEQUENCE", [sequence(it) for it in POLICIES]),
    "Policy": ("PolicyInformation", READING, "SEQUENCE", POLICIES),
    "Qualifier": ("PolicyQualifierInfo", READING, "SEQUENCE", [QUALIFIER, sequence(ONE, OTHER)]),
    "Shown": ("DisplayText", READING, "IA5String+UTF8String choice",
              [text(0x0C, "a"), text(0x16, "a")]),
    "Notice": ("UserNotice", READING, "SEQUENCE",
               [sequence(text(0x0C, "a")), sequence(NOTICES[0], text(0x0C, "b"))]),
    "Reference": ("NoticeReference", READING, "SEQUENCE", NOTICES),
    "Mapping": ("PolicyMapping", READING, "SEQUENCE", [sequence(ONE, OTHER), sequence(OTHER, ONE)]),
    "Mappings": ("PolicyMappings", READING, "SEQUENCE", [sequence(sequence(ONE, OTHER))]),
    "Limits": ("PolicyConstraints", READING, "SEQUENCE",
               [sequence(named(0, b"\1")), sequence(named(1, b"\2"))]),
    "Inhibit": ("InhibitAnyPolicy", READING, "INTEGER", [integer(0), integer(300)]),
    "Usage": ("PrivateKeyUsagePeriod", READING, "SEQUENCE",
              [sequence(named(0, NEW[2:])), sequence(named(1, NEW[2:]))]),
    "Purposes": ("ExtendedKeyUsage", READING, "SEQUENCE", [sequence(ONE), sequence(ONE, OTHER)]),
    "Uses": ("KeyUsage", READING, "BIT~STRING", FLAGS),
    "Causes": ("ReasonFlags", READING, "BIT~STRING", FLAGS),
    "Cause": ("CrlReason", READING, "ENUMERATED", [integer(1, 0x0A), integer(10, 0x0A)]),
    "SubjectId": ("SubjectKeyIdentifier", READING, "OCTET~STRING", [octets(b"a"), octets(b"b")]),
    "Flag": ("bool", "-", "BOOLEAN", [b"\1\1\0", b"\1\1\xff"]),
    "Nothing": ("()", "-", "NULL", [b"\5\0"]),
    "Small": ("i8", "-", "INTEGER", [integer(-128), integer(127)]),
    "Wide": ("u128", "-", "INTEGER", [integer(0), integer(2**128 - 1)]),
    "Signed": ("Int", TYPES, "INTEGER", [integer(-(2**200)), integer(2**200)]),
    "Unsigned": ("Uint", TYPES, "INTEGER", [integer(0), integer(2**200)]),
    "Oid": ("ObjectIdentifier<39>", "der_core::oid", "OBJECT~IDENTIFIER", [ONE, OTHER]),
    "Octets": ("OctetString", TYPES, "OCTET~STRING", [octets(), octets(b"abc")]),
    "Bits": ("BitString", TYPES, "BIT~STRING", [bits(b""), bits(b"\xf0", 4)]),
    "Utf8": ("String", "-", "UTF8String", [text(0x0C, "ä"), text(0x0C, "")]),
    "Printable": ("PrintableString", TYPES, "PrintableString", [text(0x13, "a"), text(0x13, "b?")]),
    "Ia5": ("Ia5String", TYPES, "IA5String", [text(0x16, "a@"), text(0x16, "b")]),
    "Teletex": ("TeletexString", TYPES, "TeletexString", [text(0x14, "a"), text(0x14, "b")]),
    "Bmp": ("BmpString", TYPES, "BMPString", [tlv(0x1E, b"\0a"), tlv(0x1E, b"\x20\xac")]),
    "Utc": ("UtcTime", TYPES, "UTCTime", [OLD, date("491231235959Z")]),
    "Generalized": ("GeneralizedTime", TYPES, "GeneralizedTime", [NEW, date("99991231235959Z")]),
    "Whatever": ("Any", TYPES, "ANY choice", [ONE, integer(5), sequence(ONE)]),
    "GeneralText": ("GeneralString", MORE, "GeneralString", [text(0x1B, "a"), text(0x1B, "b")]),
    "Visible": ("VisibleString", MORE, "VisibleString", [text(0x1A, " a~"), text(0x1A, "b")]),
    "Numeric": ("NumericString", MORE, "NumericString", [text(0x12, "1 2"), text(0x12, "3")]),
    "Closed": ("SequenceOwned", MORE, "SEQUENCE", [sequence(), sequence(ONE, OTHER)]),
}
MAIN = """//! Decodes a record of each line, a type and DER in hex, and encodes it again.
#![tactic(auto)]

use der_core::{FromDer, Result, ToDer};
use std::alloc::Global;
use std::io;

fn main(rt: HostRuntime) -> io::Result<()> {
    for line in rt.lines(rt.alloc()) {
        let line = line?;
        let Some((name, digits)) = line.as_str().split_once(' ') else {
            continue;
        };
        let Ok(octets) = hex::decode(rt.alloc(), digits) else {
            continue;
        };
        match again(rt.alloc(), name, octets.as_slice()) {
            Ok(found) => println!(rt; "{name} {}", hex::encode(rt.alloc(), found.as_slice())?)?,
            Err(error) => println!(rt; "{name} rejected: {error}")?,
        }
    }
    Ok(())
}

fn again(alloc: Global, name: &str, octets: &[u8]) -> Result<Vec<u8>> {
    match name {
ARMS    }
}
"""


def is_choice(name):
    return "choice" in LIBRARY[name][2]


def has_default(name):
    return "default=v1" in LIBRARY[name][2]


def module_of(names):
    """Returns a module with a record for each type."""
    records = []
    for name in names:
        fields = [f"one {name}", f"listed SEQUENCE OF {name}", f"members SET OF {name}",
                  f"outside [20] EXPLICIT {name}"]
        fields += [] if is_choice(name) else [f"inside [21] IMPLICIT {name}"]
        fields += [f"maybe [22] EXPLICIT {name} OPTIONAL"]
        fields += [] if is_choice(name) else [f"perhaps [23] IMPLICIT {name} OPTIONAL"]
        fields += [f"usual [24] EXPLICIT {name} DEFAULT v1"] if has_default(name) else []
        fields += [] if name == "Whatever" else [f"last {name} OPTIONAL"]
        records.append(f"Of{name} ::= SEQUENCE {{ {', '.join(fields)} }}")
    imports = f"IMPORTS {', '.join(names)} FROM Library;"
    return "\n".join(["Positions DEFINITIONS EXPLICIT TAGS ::= BEGIN", imports, *records, "END\n"])


def outside(number, value):
    """Encodes a value in an explicit tag."""
    of = tag.Tag(tag.tagClassContext, tag.tagFormatConstructed, number)
    return encoder.encode(univ.Any(value).subtype(explicitTag=of))


def inside(number, value):
    """Encodes a value with an implicit tag in place of its own."""
    return bytes([0x80 | value[0] & 0x20 | number]) + value[1:]


def list_of(kind, values):
    made = kind(componentType=univ.Any())
    made.extend(univ.Any(it) for it in values)
    return encoder.encode(made)


def records_of(name):
    """Yields records of a type, and the expected bytes, or None if the record must be rejected."""
    values = LIBRARY[name][3]
    first, last = values[0], values[-1]
    has_tag = not is_choice(name)
    start = [first, list_of(univ.SequenceOf, values * 2)]
    rest = [outside(20, last), *([inside(21, first)] if has_tag else [])]
    options = [outside(22, first), *([inside(23, last)] if has_tag else [])]
    options += [outside(24, last)] if has_default(name) else []
    options += [] if name == "Whatever" else [last]
    members = list_of(univ.SetOf, values)
    for parts in ([*start, members, *rest], [*start, members, *rest, *options],
                  [*start, list_of(univ.SetOf, []), *rest]):
        record = list_of(univ.SequenceOf, parts)
        yield record, record
    if len(values) > 1:
        swapped = tlv(0x31, *sorted(values, reverse=True))
        yield list_of(univ.SequenceOf, [*start, swapped, *rest]), None
    if has_default(name):
        yield list_of(univ.SequenceOf, [*start, members, *rest, outside(24, first)]), None


def write(folder, names):
    """Writes the crates that the program needs."""
    tables = [f"{name} {of[0]} {of[1]} {of[2]}" for name, of in LIBRARY.items()]
    (folder / "library").mkdir()
    (folder / "library/asn1_types.txt").write_text("\n".join(["[Library]", *tables, ""]))
    (folder / "positions.asn1").write_text(module_of(names))
    crates = folder / "crates"
    words = [str(folder / "positions.asn1"), str(crates / "positions"), "--with",
             f"{folder / 'library'}=Library"]
    with contextlib.redirect_stdout(io.StringIO()):
        if write_crate(words):
            sys.exit("tools/asn1 refuses the module")
    subprocess.run([TOP / "tools/take.py", READING, MORE, folder], check=True, capture_output=True)
    source = crates / "positions_program/src"
    source.mkdir(parents=True)
    labels = [*(f'"{it}"' for it in names[:-1]), "_"]
    call = "from_der(alloc, octets)?.to_der(alloc)"
    arms = "".join(f"        {label} => positions::Of{it}::{call},\n"
                   for label, it in zip(labels, names))
    (source / "main.rt").write_text(MAIN.replace("ARMS", arms))
    (folder / "HANDLES").write_text((TOP / "HANDLES").read_text())
    with (folder / "crates.txt").open("a") as lines:
        lines.write(f"positions: {READING} {MORE} {TYPES} der_core\n")
        lines.write("positions_program: positions der_core hex\n")
    return crates / "positions_program"


def answers(names, asked):
    """Returns the answers of the program about the records."""
    with tempfile.TemporaryDirectory() as place:
        program = write(pathlib.Path(place), names)
        lines = "".join(f"{name} {given.hex()}\n" for name, given, _ in asked)
        ran = subprocess.run(["rt", "try"], cwd=program, input=lines, text=True,
                             capture_output=True)
    told = [line for line in ran.stdout.splitlines() if line.split(" ")[0] in names]
    if len(told) != len(asked):
        sys.exit(f"the program doesn't run: {ran.stdout[-2000:]}{ran.stderr[-2000:]}")
    return [line.split(" ", 1)[1] for line in told]


def main(names):
    names = names or [*LIBRARY]
    count, differ = 0, 0
    # A program of all types takes too long to compile.
    for at in range(0, len(names), AT_ONCE):
        some = names[at : at + AT_ONCE]
        asked = [(name, *pair) for name in some for pair in records_of(name)]
        for (name, given, expected), found in zip(asked, answers(some, asked)):
            if (found != expected.hex()) if expected else not found.startswith("rejected: "):
                differ += 1
                print(f"{name} {given.hex()}: {found}; expected {expected and expected.hex()}")
        count += len(asked)
        done = f"{at + len(some)} of {len(names)} types"
        print(f"{done}, {count} records, {differ} differ", flush=True)
    return differ > 0


if __name__ == "__main__":
    sys.exit(main(sys.argv[1:]))
