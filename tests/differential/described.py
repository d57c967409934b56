#!/usr/bin/env python3
"""Compares what `cert_tool` describes with OpenSSL and pyasn1, and its JSON with its lines.

    described.py TOOL [--built N] [--changed N]

It describes the roots of ca-certificates, the files of the test vectors, CSRs with keys on every
curve of OpenSSL, and certificates, CRLs and CSRs with every extension: those that Python's
`cryptography` builds (built.py), and those that OpenSSL built or that were put together byte by
byte (described.txt). pyasn1 reads them by its modules of RFC 5280 and RFC 2986, and OpenSSL reads
the keys. What they read becomes a document like that of `cert_tool describe --json`. If `cert_tool`
names an object identifier, OpenSSL or `cryptography` has to have that name for it. No signature is
verified.

Of these values, and of each test vector of `describe`, `explain`, `verify` and `split`, the lines
have to be those that lines.py makes of the JSON. Values with changes (mutated.py) have to be
described if reader.py accepts them, and rejected in the words of `explain` if it doesn't.

A difference is a line that only `cert_tool` has (`+`) or that it doesn't have (`-`). The status is
1 if there is any. The files of test vectors that the other programs don't read are counted.
"""

import argparse
import base64
import collections
import contextlib
import difflib
import functools
import hashlib
import ipaddress
import itertools
import json
import pathlib
import random
import re
import subprocess
import sys
import unicodedata

HERE = pathlib.Path(__file__).resolve().parent
sys.path[:0] = [str(HERE.parent), str(HERE.parent / "rows"), str(HERE.parents[1] / "tools")]

import needs

needs.check(__file__)

from pyasn1.codec.der.decoder import decode
from pyasn1.codec.der.encoder import encode
from pyasn1.error import PyAsn1Error
from pyasn1.type import char, univ, useful
from pyasn1_modules import rfc2986, rfc3779, rfc5280

import built
import der
import lines
import mutated
import names
import reader
import served
from der import TEXTS, TYPES, dotted, tlv
from tool import ROOTS, Tool, files

# The types of attributes that have a name in RFC 4514 3, and some more.
SHORT = {
    "2.5.4.3": "CN", "2.5.4.4": "SN", "2.5.4.5": "SERIALNUMBER", "2.5.4.6": "C", "2.5.4.7": "L",
    "2.5.4.8": "ST", "2.5.4.9": "STREET", "2.5.4.10": "O", "2.5.4.11": "OU",
    "2.5.4.17": "POSTALCODE", "2.5.4.42": "GN", "0.9.2342.19200300.100.1.25": "DC",
    "0.9.2342.19200300.100.1.1": "UID", "1.2.840.113549.1.9.1": "EMAILADDRESS",
}
# The extensions that have members: the member of those whose content isn't a SEQUENCE of fields,
# and their types in pyasn1.
EXTENSIONS = {f"2.5.29.{number}": member for number, member in {
    14: "keyIdentifier", 15: "uses", 16: None, 17: "names", 18: "names", 19: None, 20: "number",
    21: "reason", 24: "date", 27: "number", 28: None, 29: "names", 30: None, 31: "points",
    32: "policies", 33: "mappings", 35: None, 36: None, 37: "purposes", 46: "points",
    54: "skipCerts",
}.items()}
EXTENSIONS |= {
    "1.3.6.1.5.5.7.1.1": "accesses", "1.3.6.1.5.5.7.1.11": "accesses",
    "1.3.6.1.5.5.7.1.24": "features",
}
LOGS = "1.3.6.1.4.1.11129.2.4.2"
CONTENTS = {str(kind): of for kind, of in rfc5280.certificateExtensionsMap.items()} | {
    "2.5.29.46": rfc5280.FreshestCRL(), "2.5.29.54": rfc5280.InhibitAnyPolicy(),
    "2.5.29.20": rfc5280.CRLNumber(), "1.3.6.1.5.5.7.1.11": rfc5280.SubjectInfoAccessSyntax(),
    "1.3.6.1.5.5.7.1.24": univ.SequenceOf(componentType=univ.Integer()),
}


def octets(content):
    return content.hex(":").upper()


def natural(number):
    digits = f"{abs(number):X}"
    return ("-" if number < 0 else "") + "0x" + digits.zfill(len(digits) + len(digits) % 2)


def moment(text):
    text = text if len(text) == 15 else ("19" if text >= "5" else "20") + text
    return re.sub(r"(....)(..)(..)(..)(..)(..)Z", r"\1-\2-\3T\4:\5:\6Z", text)


def inside(content):
    """Returns the tags and contents of the values within the only value (X.690 8.1)."""
    [(_, inner, _)] = der.values(content)
    return [(tag, each) for tag, each, _ in der.values(inner)]


def value(encoded):
    """Returns the members of a value of any type."""
    [(tag, content, _)] = der.values(encoded)
    coding = {0x0C: "utf-8", 0x14: "latin-1", 0x1E: "utf-16-be"}.get(tag, "ascii")
    text = {"text": content.decode(coding)} if tag in TEXTS else {"octets": octets(content)}
    return {"type": TYPES[tag]} | text


# Names.


def escaped(text):
    """Escapes a text as RFC 4514 2.4 does, and also the controls of ASCII."""
    text = re.sub(r'(["+,;<>\\]|^[# ]| $)', r"\\\1", text)
    return re.sub(r"[\0-\x1f\x7f]", lambda found: f"\\{ord(found[0]):02x}", text)


def attribute(of):
    """Returns the text of an attribute. Its value is printed as bytes if its type has no name (RFC
    4514 2.4), or if it isn't a string that `cert_tool` reads (a BMPString isn't)."""
    kind, encoded = str(of["type"]), bytes(of["value"])
    typed = value(encoded)
    is_read = typed["type"] in ("UTF8String", "TeletexString", "IA5String")
    is_read |= re.fullmatch("[A-Za-z0-9 '()+,./:=?-]*", typed.get("text", "_")) is not None
    if kind in SHORT and is_read and typed["type"] not in ("BMPString", "NumericString"):
        return f"{SHORT[kind]}={escaped(typed['text'])}"
    return f"{kind}=#{encoded.hex()}"


def relative(of):
    return "+".join(map(attribute, of))


def name(of):
    listed = [each for rdn in of for each in rdn]
    attributes = [{"id": str(each["type"])} | value(bytes(each["value"])) for each in listed]
    return {"text": ",".join(map(relative, reversed(of))), "attributes": attributes}


def address(content):
    """Returns the text of an address, or of one and its mask."""
    size = len(content) // 2 if len(content) in (8, 32) else len(content)
    texts = []
    for at in range(0, len(content), size):
        of = ipaddress.ip_address(content[at : at + size])
        # An IPv4 address is printed as such (RFC 5952 5).
        mapped = getattr(of, "ipv4_mapped", None)
        texts.append(f"::ffff:{mapped}" if mapped else str(of))
    return "/".join(texts)


# Extensions.


def value_in(content):
    """Returns the text or the object identifier that the bytes encode, if they encode one."""
    with contextlib.suppress(IndexError, ValueError):
        [(tag, inner, _)] = der.values(content)
        if tlv(tag, inner) == content and tag in {*TEXTS, 0x06}:
            return {"value": {"id": dotted(inner)} if tag == 0x06 else value(content)}
    return {}


def extension(of):
    kind, content = str(of["extnID"]), bytes(of["extnValue"])
    found = {"id": kind, "critical": bool(of["critical"])}
    if kind in EXTENSIONS:
        of = decode(content, CONTENTS[kind])[0]
        # DER has no zeros at the end of named bits (X.690 11.2.2), and pyasn1 accepts some BER.
        has_zero = isinstance(of, rfc5280.KeyUsage) and len(of) and not of.asInteger() & 1
        if has_zero or encode(of) != content:
            return found | {"malformed": True, "octets": octets(content)}
        return found | ({EXTENSIONS[kind]: told(of)} if EXTENSIONS[kind] else told(of))
    if kind == LOGS:
        return found
    if kind in RESOURCES:
        return found | RESOURCES[kind](decode(content, CONTENTS[kind])[0])
    return found | {"octets": octets(content)} | value_in(content)


# Extensions of RFC 3779, Microsoft and Netscape.


def ranged(least, most):
    return least if most is None else f"{least}-{most}"


def addresses(family, of):
    """Yields the texts of blocks of addresses, of which the bits that are left out are zeros, or
    ones at the end of a range."""
    size, make = {1: (32, ipaddress.IPv4Address), 2: (128, ipaddress.IPv6Address)}[family]

    def told_as(bits, fill):
        number = (bits.asInteger() if len(bits) else 0) << (size - len(bits))
        return make(number | fill * ((1 << (size - len(bits))) - 1))

    for each in of:
        each = each.getComponent()
        if isinstance(each, univ.BitString):
            yield f"{told_as(each, 0)}/{len(each)}"
        else:
            yield f"{told_as(each['min'], 0)}-{told_as(each['max'], 1)}"


def blocks(of):
    listed = []
    for each in of:
        family, choice = bytes(each["addressFamily"]), each["ipAddressChoice"].getComponent()
        block = {"addressFamily": f"IPv{4 if family[1] == 1 else 6}"}
        block |= {"safi": family[2]} if len(family) > 2 else {}
        block |= ({"inherit": True} if isinstance(choice, univ.Null)
                  else {"addresses": list(addresses(family[1], choice))})
        listed.append(block)
    return {"addressBlocks": listed}


def systems(of):
    found = {}
    for kind in ("asnum", "rdi"):
        if of[kind].isValue:
            choice = of[kind].getComponent()
            found[kind] = ["inherit"] if isinstance(choice, univ.Null) else [
                str(it) if isinstance(it, univ.Integer) else f"{it['min']}-{it['max']}"
                for it in (each.getComponent() for each in choice)
            ]
    return found


def template(of):
    numbers = [int(each) for each in of[1:]]
    versions = zip(("templateMajorVersion", "templateMinorVersion"), numbers)
    return {"templateID": {"id": str(of[0])}} | dict(versions)


TYPES_OF_NETSCAPE = ["SSL client", "SSL server", "S/MIME", "object signing", "reserved", "SSL CA",
                     "S/MIME CA", "object signing CA"]
RESOURCES = {
    "1.3.6.1.5.5.7.1.7": blocks, "1.3.6.1.5.5.7.1.8": systems, "1.3.6.1.4.1.311.21.7": template,
    "2.16.840.1.113730.1.1": lambda of: {
        "types": [name for name, bit in zip(TYPES_OF_NETSCAPE, of) if bit]
    },
}
CONTENTS |= {
    "1.3.6.1.5.5.7.1.7": rfc3779.IPAddrBlocks(), "1.3.6.1.5.5.7.1.8": rfc3779.ASIdentifiers(),
    "1.3.6.1.4.1.311.21.7": None, "2.16.840.1.113730.1.1": univ.BitString(),
}


def qualifier(of):
    """Returns a policy qualifier: a text, or a notice."""
    kind, encoded = told(of["policyQualifierId"]), bytes(of["qualifier"])
    if kind["id"] == "1.3.6.1.5.5.7.2.1":
        return kind | value(encoded)
    notice, listed = decode(encoded, rfc5280.UserNotice())[0], []
    if notice["noticeRef"].isValue:
        numbers = [natural(int(number)) for number in notice["noticeRef"]["noticeNumbers"]]
        organization = {"organization": told(notice["noticeRef"]["organization"])}
        listed.append({"noticeRef": [organization, {"noticeNumbers": numbers}]})
    if notice["explicitText"].isValue:
        listed.append({"explicitText": told(notice["explicitText"])})
    return kind | {"notice": listed}


def attribute_of_request(of):
    kind, contents = str(of["type"]), [bytes(each) for each in of["values"]]
    if kind == "1.2.840.113549.1.9.14":
        read = (decode(content, rfc5280.Extensions())[0] for content in contents)
        return {"id": kind, "values": [{"extensions": told(each)} for each in read]}
    return {"id": kind, "values": [value(content) for content in contents]}


# Keys and algorithms.


# The algorithms whose parameters are printed with the key: EC and DSA.
KEYS = ("1.2.840.10045.2.1", "1.2.840.10040.4.1")


def algorithm(of):
    """Returns an algorithm with its parameters, and of RSASSA-PSS with what they say (RFC 4055
    3.1). The NULL of known algorithms is left out."""
    found = {"id": str(of["algorithm"])}
    if not of["parameters"].isValue or found["id"] in KEYS:
        return found
    if found["id"] != "1.2.840.113549.1.1.10":
        is_null = bytes(of["parameters"]) == b"\5\0" and found["id"] in names.KNOWN
        return found | ({} if is_null else {"parameters": value(bytes(of["parameters"]))})
    if of["parameters"].isValue:
        inner = {tag & 0x1F: der.values(field) for tag, field in inside(bytes(of["parameters"]))}
        inner = {at: next(fields)[1] for at, fields in inner.items()}
        found["hashAlgorithm"] = parameter(inner.get(0), "SHA-1")
        found["maskGenAlgorithm"] = parameter(inner.get(1), "MGF1 with SHA-1")
        found["saltLength"] = int.from_bytes(inner.get(2, b"\x14"), "big")
        found["trailerField"] = int.from_bytes(inner.get(3, b"\x01"), "big")
    return found


def parameter(content, default):
    if content is None:
        return {"default": default}
    (_, identifier, _), *others = der.values(content)
    found = {"id": dotted(identifier)}
    if others and others[0][0] == 0x30:
        found["parameters"] = {"id": dotted(inside(others[0][2])[0][1])}
    return found


def key_text(encoded):
    """Returns what OpenSSL prints of a key, by its labels."""
    command = ["openssl", "pkey", "-pubin", "-inform", "DER", "-noout", "-text"]
    said = subprocess.run(command, input=encoded, capture_output=True, check=True).stdout.decode()
    fields = {}
    for line in said.splitlines():
        if line.startswith("    "):
            fields[label] += line.strip().replace(":", "")
        else:
            label, _, behind = line.partition(":")
            fields[label] = behind.strip()
    return fields


def number_said(text):
    """Parses a number that OpenSSL prints. Small ones look like `4 (0x4)`."""
    return natural(int(text.split()[0]) if " " in text else int(text, 16))


def curve(said, parameters):
    """Returns the identifier of a curve, its equation, or the value that names none."""
    if "Prime" not in said:
        identifier = names.IDENTIFIERS.get(said.get("ASN1 OID"))
        return {"id": identifier} if identifier else value(parameters)
    # Each coefficient is as long as the prime.
    length = (int(said["Prime"], 16).bit_length() + 7) // 8
    a, b = (octets(int(said[label], 16).to_bytes(length, "big")) for label in "AB")
    generator = octets(bytes.fromhex(said["Generator (uncompressed)"]))
    prime, order = (number_said(said[label]) for label in ("Prime", "Order"))
    found = {"prime": prime, "a": a, "b": b}
    found |= {"seed": octets(bytes.fromhex(said["Seed"]))} if "Seed" in said else {}
    found |= {"generator": generator, "order": order}
    return found | ({"cofactor": number_said(said["Cofactor"])} if "Cofactor" in said else {})


def curves():
    """Has OpenSSL make a CSR with a key on each curve that it names, if it can sign with it."""
    run = functools.partial(subprocess.run, capture_output=True)
    said = run(["openssl", "ecparam", "-list_curves"], check=True).stdout.decode()
    for name in re.findall(r"^ +([\w.-]+) *:", said, re.M):
        made = run(["openssl", "ecparam", "-name", name, "-genkey", "-noout"]).stdout
        words = ["openssl", "req", "-new", "-key", "/dev/stdin", "-subj", "/CN=a"]
        words += ["-outform", "DER"]
        encoded = run(words, input=made).stdout
        if encoded:
            yield name, encoded


def key(of):
    said, found = key_text(encode(of)), algorithm(of["algorithm"])
    if ("Modulus" in said or "P" in said) and len(of["subjectPublicKey"]) % 8:
        raise ValueError("OpenSSL reads numbers of a key that has unused bits")
    if "Public-Key" in said:
        found["bits"] = int(said["Public-Key"].strip("()").removesuffix(" bit"))
    match said:
        case {"Modulus": modulus, "Exponent": exponent}:
            found |= {"modulus": number_said(modulus), "exponent": number_said(exponent)}
        case {"P": _, "Q": _, "G": _, "pub": public}:
            found |= {label.lower(): number_said(said[label]) for label in "PQG"}
            found["public"] = number_said(public)
        case {"ASN1 OID": _} | {"Field Type": _}:
            point = octets(bytes.fromhex(said["pub"]))
            found |= {"curve": curve(said, bytes(of["algorithm"]["parameters"])), "point": point}
        case {"pub": public}:
            found |= {"bits": 4 * len(public), "octets": octets(bytes.fromhex(public))}
    return found


# Documents.

# The fields whose members become those of the value around them, and those with another name.
MERGED = ["validity", "distributionPoint", "base", "policyIdentifier", "policyQualifierId",
          "accessMethod"]
RENAMED = {"policyQualifiers": "qualifiers", "subjectPKInfo": "subjectPublicKeyInfo",
           "nonRepudiation": "contentCommitment"}


def members(of):
    """Returns the fields of a SEQUENCE, without those that have their default."""
    found = {}
    for field, (name, each) in zip(of.componentType.namedTypes, of.items()):
        is_default = field.isDefaulted and name != "cA" and each == field.asn1Object
        if each.isValue and not is_default:
            found |= told(each) if name in MERGED else {RENAMED.get(name, name): told(each)}
    return found


def general_name(of):
    kind, inner = of.getName(), of.getComponent()
    return {kind: address(bytes(inner)) if kind == "iPAddress" else told(inner)}


def bits(of):
    """Returns the names of the bits that are set, or the bytes if bits have no names."""
    if of.namedValues:
        names = (name for name, at in of.namedValues.items() if at < len(of) and of[at])
        return [RENAMED.get(name, name) for name in names]
    return octets((of.asInteger() << -len(of) % 8).to_bytes((len(of) + 7) // 8, "big"))


# The functions that make the member of a document, by the type of the value. The first one counts.
TOLD = [
    (rfc5280.Name, lambda of: name(of.getComponent())),
    (rfc5280.RelativeDistinguishedName, relative),
    (rfc5280.GeneralName, general_name),
    (rfc5280.AnotherName, lambda of: {"id": str(of["type-id"])} | value(bytes(of["value"]))),
    (rfc5280.DistributionPointName, lambda of: {of.getName(): told(of.getComponent())}),
    (rfc5280.DisplayText, lambda of: {
        "type": type(of.getComponent()).__name__, "text": str(of.getComponent())
    }),
    (rfc5280.PolicyQualifierInfo, qualifier),
    (rfc5280.Extension, extension),
    (rfc5280.Attribute, attribute_of_request),
    (rfc5280.AlgorithmIdentifier, algorithm),
    (rfc5280.SubjectPublicKeyInfo, key),
    ((rfc5280.CertificateSerialNumber, rfc5280.CRLNumber), lambda of: natural(int(of))),
    ((useful.UTCTime, useful.GeneralizedTime), lambda of: moment(str(of))),
    (univ.Choice, lambda of: told(of.getComponent())),
    (univ.SequenceOfAndSetOfBase, lambda of: [told(each) for each in of]),
    (univ.Sequence, members),
    (univ.ObjectIdentifier, lambda of: {"id": str(of)}),
    (univ.BitString, bits),
    (char.AbstractCharacterString, str),
    (univ.OctetString, lambda of: octets(bytes(of))),
    (univ.Enumerated, lambda of: of.prettyPrint()),
    (univ.Boolean, bool),
    (univ.Integer, int),
]


def told(of):
    return next(make for types, make in TOLD if isinstance(of, types))(of)


def digests(label, encoded):
    return {f"{label}-{kind}": octets(hashlib.new(kind, encoded).digest())
            for kind in ("sha1", "sha256")}


KINDS = {
    "certificate": rfc5280.Certificate(), "list": rfc5280.CertificateList(),
    "request": rfc2986.CertificationRequest(),
}


def document(kind, encoded):
    """Returns the document of a certificate, a CRL or a CSR."""
    part, by, signature = decode(encoded, KINDS[kind])[0].values()
    found = told(part) | {"kind": kind, "version": 1} | digests(kind, encoded)
    if part["version"].isValue:
        found["version"] = int(part["version"]) + 1
    if kind != "list":
        key = encode(part["subjectPublicKeyInfo" if kind == "certificate" else "subjectPKInfo"])
        key_bits = inside(key)[1][1][1:]
        found |= digests("key", key) | {"key-bits-sha1": digests("key", key_bits)["key-sha1"]}
        pin = hashlib.sha256(key).digest()
        found["key-pin-sha256"] = base64.b64encode(pin).decode()
    return found | {"signatureAlgorithm": algorithm(by), "signatureValue": bits(signature)}


def bared(pairs):
    """Returns the members of an object without the right name of an object identifier, and without
    what the other programs don't report."""
    of = dict(pairs)
    is_right = names.are_same(of.get("name", ""), of.get("id"))
    return {key: of[key] for key in of if key != "timestamps" and not (is_right and key == "name")}


# Comparing.


def once(pairs):
    """Returns the members of an object. Each may occur only once."""
    if len(dict(pairs)) < len(pairs):
        raise ValueError(f"a member occurs twice: {pairs}")
    return dict(pairs)


def lines_in(text):
    return text.decode().split("\n")[:-1]


def is_safe(document):
    """Returns whether a document has none of the characters that JSON can escape and has to."""
    kinds = {unicodedata.category(letter) for line in lines_in(document) for letter in line}
    return not kinds & {"Cc", "Cf", "Zl", "Zp", "Cs", "Co"}


class Comparer:
    """Compares the answers of a program, and counts the lines and the differences."""

    def __init__(self, program):
        self.tool, self.counts = Tool(program), collections.Counter(differences=0)

    def compare(self, family, what, wanted, given):
        self.counts[f"lines of {family}"] += len(wanted)
        for line in difflib.unified_diff(wanted, given, lineterm="", n=0):
            if line[:2] not in ("--", "++", "@@"):
                self.counts["differences"] += 1
                print(f"{family}: {what}: {line}")

    def compare_lines(self, words, inputs):
        """Compares the lines of a command with its document. Returns the answer with lines, and the
        document."""
        told = self.tool.ask(words, inputs)
        status, document, errors = self.tool.ask([*words, "--json"], inputs)
        # Only lines say that a number was left out and has its default.
        text = re.sub(rb"((?:salt|trailer) \d+) by default", rb"\1", told[1])
        wanted = [f"status {told[0]}", *lines_in(told[2]), *lines_in(text)]
        given = [f"status {status}", *lines_in(errors)]
        documents = (lines.DOCUMENTS[words[0]](json.loads(line, object_pairs_hook=once))
                     for line in lines_in(document))
        if b'file "' in text[:6]:  # of several files, a line before the description of each
            for named, after in itertools.pairwise([*lines_in(text), 'file "']):
                is_described = named.startswith('file "') and not after.startswith('file "')
                given += [named] * named.startswith('file "')
                given += next(documents, ["no document"]) if is_described else []
        given += itertools.chain.from_iterable(documents)
        given += [] if is_safe(document) else ["a character that isn't printable"]
        given += [line for line in wanted if not line.isprintable()]
        self.compare("JSON", " ".join(words), wanted, given)
        return told, document

    def compare_kind(self, kind, name, encoded):
        """Describes and explains bytes as a value of a kind. Returns the answers, and the document
        that describes them."""
        told, found = self.compare_lines(["describe", "--digests", kind, name], {name: encoded})
        return told, self.compare_lines(["explain", kind, name], {name: encoded})[0], found

    def compare_value(self, kind, name, encoded):
        """Compares what is described with what other programs read."""
        found = self.compare_kind(kind, name, encoded)[2] or b"{}"
        try:
            wanted = document(kind, encoded)
        except (LookupError, PyAsn1Error, ValueError, subprocess.CalledProcessError):
            self.counts["values that others don't read"] += 1
            self.counts["differences"] += name not in files()
        else:
            found = json.loads(found.decode(), object_pairs_hook=bared)
            texts = (json.dumps(it, indent=1, sort_keys=True) for it in (wanted, found))
            self.compare("values", name, *map(str.splitlines, texts))
            self.counts[f"{kind}s"] += 1

    def compare_changed(self, count):
        """Compares whether changed values are described or rejected with what reader.py says."""
        draw, values = random.Random(1), mutated.bases()
        for _ in range(count):
            kind = draw.choice(("certificate", "certificate", "list", "request"))
            encoded = mutated.mutated(draw, draw.choice(values[kind]), kind, values)
            told, why, _ = self.compare_kind(kind, "changed", encoded)
            is_read = reader.spells(kind, encoded)
            self.counts["changed values taken"] += is_read
            is_good = why[1].startswith(b"no error: ")
            wanted = (0, told[1], b"") if is_read else (2, b"", why[1])
            if told != wanted or is_good != is_read or why[0] != 0:
                self.compare("changed values", encoded.hex(), [f"taken: {is_read}"], [str(told)])


def main():
    parser = argparse.ArgumentParser(description=__doc__.splitlines()[0])
    parser.add_argument("tool", metavar="TOOL")
    parser.add_argument("--built", type=int, default=102, metavar="N", help="values that are built")
    parser.add_argument("--changed", type=int, default=0, metavar="N", help="changed values")
    given = parser.parse_args()
    comparer = Comparer(given.tool)
    known = [*files().items(), *der.files_in(HERE / "described.txt"), *built.made(given.built)]
    known += [(path.name, der.encodings_of(path)[0]) for path in ROOTS.glob("*.crt")]
    known += curves()
    for name, encoded in known:
        for kind in KINDS:
            if reader.spells(kind, encoded):
                comparer.compare_value(kind, name, encoded)
    for words, sent, (status, _, _) in served.rows():
        has_document = not re.search(r"describe .*stream| --(help|json|place)", " ".join(words))
        if sent and status != 4 and words[0] in lines.DOCUMENTS and has_document:
            comparer.compare_lines(words, sent)
    comparer.compare_changed(given.changed)
    print(", ".join(f"{count} {what}" for what, count in comparer.counts.items()))
    return comparer.counts["differences"] > 0


if __name__ == "__main__":
    sys.exit(main())
