#!/usr/bin/env python3
"""Compares the remarks of `cert_tool explain` with those of an independent reader.

    remarks.py CERT_TOOL FILE...    FILE is a certificate or a CRL in DER or PEM; prints a line for
                                    each difference, and counts; the status is 1 if any differs

The reader is written from the text of RFC 5280. Remarks on the content of an extension that can't
be decoded aren't compared. `cert_tool` has to accept what tests/reader.py accepts, and nothing
else.
"""

import argparse
import collections
import contextlib
import itertools
import json
import pathlib
import re
import sys

sys.path.insert(0, str(pathlib.Path(__file__).resolve().parents[1]))

import reader
from der import TYPES, dotted, encodings_of, moment
from der import values as encodings
from lines import plain
from tool import Tool


def inside(octets):
    """Returns the encodings within the first one."""
    for _, contents, _ in encodings(octets):
        return list(encodings(contents))
    raise ValueError("there are no bytes")


def value_in(content):
    """Returns the content of the only value in these bytes, or None if there isn't exactly one."""
    with contextlib.suppress(ValueError):
        [(_, contents, _)] = encodings(content or b"")
        return contents


def extensions_in(octets):
    """Yields the kind, the criticality and the content of each extension. The kind is the last arc
    of an identifier below id-ce, the negative one below id-pe, and the bytes of other identifiers
    (RFC 5280 A.2, A.1)."""
    for _, _, extension in encodings(octets):
        (_, kind, _), *flags, content = inside(extension)
        if kind[:-1] in (ID_CE, ID_PE):
            kind = kind[-1] if kind[:-1] == ID_CE else -kind[-1]
        yield kind, any(flag[1] == b"\xff" for flag in flags), content[1]


def is_long(date):
    return date[0] == 0x18 and date[1] < b"2050"


ANY_POLICY = bytes.fromhex("551d2000")
ID_CE, ID_PE = bytes.fromhex("551d"), bytes.fromhex("2b060105050701")
LABEL = "[A-Za-z0-9]([A-Za-z0-9-]{0,61}[A-Za-z0-9])?"
HOST = rf"(\*\.)?{LABEL}(\.{LABEL})*"
GRAPHIC = "[!-;=?-~]"
# The host of a URI with an authority (RFC 3986 3.2, RFC 5280 4.2.1.6).
AUTHORITY = rf"//([^/?#]*@)?(\[[^/?#]*\][^/?#]*|{LABEL}(\.{LABEL})*(:[0-9]*)?)([/?#]|$)"
FORMS = {
    0x81: ("email", rf"(\"[ -~]*\"|[!#-;=?A-~]+)@({HOST}|\[{GRAPHIC}*)"),
    0x82: ("DNS", HOST),
    0x86: ("URI", rf"[A-Za-z][A-Za-z0-9+.-]*:(?=(?!//)|{AUTHORITY}){GRAPHIC}+"),
}


# Each function below yields remarks: the text, the section of RFC 5280, and perhaps a name.

def malformed_names(content):
    names = inside(content)
    if not all(name.isascii() for tag, name, _ in names if tag in FORMS):
        return
    for tag, name, _ in names:
        text = name.decode("latin1")
        if tag in FORMS:
            kind, form = FORMS[tag]
            if not re.fullmatch(form, text) or (tag == 0x82 and len(text) > 253):
                yield "this name isn't well formed", "4.2.1.6", f"{kind} {plain(text)}"
        elif tag == 0x87 and len(name) not in (4, 16):
            yield "this name isn't well formed", "4.2.1.6", f"IP address of {len(name)} octets"


def constraints(content):
    for _, trees, _ in inside(content):
        trees = [inside(tree) for _, _, tree in encodings(trees)]
        if any(len(tree) > 1 for tree in trees):
            yield "nameConstraints have a minimum or a maximum", "4.2.1.10"
        if any(tree[0][0] == 0x87 and len(tree[0][1]) not in (8, 32) for tree in trees):
            yield "an address in nameConstraints has no mask of the same length", "4.2.1.10"


def points(content):
    for _, _, point in inside(content):
        if not {tag for tag, _, _ in inside(point)} & {0xA0, 0xA2}:
            yield "a distribution point has neither a name nor an issuer", "4.2.1.13"
            return


def policies(content):
    listed = [inside(policy)[0][1] for _, _, policy in inside(content)]
    twice = [policy for place, policy in enumerate(listed) if policy in listed[:place]]
    if twice:
        yield "a policy is listed twice", "4.2.1.4", dotted(twice[0])


def mappings(content):
    listed = [policy[1] for _, _, mapping in inside(content) for policy in inside(mapping)]
    if ANY_POLICY in listed:
        yield "anyPolicy is mapped", "4.2.1.5"


def scope(content):
    tags = {tag for tag, flag, _ in inside(content) if flag == b"\xff"}
    if {0x81, 0x82} <= tags:
        yield ("issuingDistributionPoint has both onlyContainsUserCerts and onlyContainsCACerts",
               "5.2.5")
    if 0x85 in tags:
        yield "issuingDistributionPoint has onlyContainsAttributeCerts", "5.2.5"


def issuer_key(content):
    tags = {tag for tag, _, _ in inside(content)}
    if (0xA1 in tags) != (0x82 in tags):
        yield "authorityKeyIdentifier has one of issuer and serial number, but not both", "A.2"


CONTENTS = {17: malformed_names, 18: malformed_names, 28: scope, 30: constraints, 31: points,
            32: policies, 33: mappings, 35: issuer_key, 46: points}

# The names of extensions. For those of certificates and of CRLs: whether RFC 5280 wants them
# critical, and in which section. For those that mustn't be an empty sequence: its section.
NAMES = {
    9: "subjectDirectoryAttributes", 14: "subjectKeyIdentifier", 16: "privateKeyUsagePeriod",
    17: "subjectAltName",
    18: "issuerAltName", 20: "cRLNumber", 27: "deltaCRLIndicator", 28: "issuingDistributionPoint",
    30: "nameConstraints", 31: "cRLDistributionPoints", 32: "certificatePolicies",
    33: "policyMappings", 35: "authorityKeyIdentifier", 36: "policyConstraints", 37: "extKeyUsage",
    46: "freshestCRL", 54: "inhibitAnyPolicy", -1: "authorityInfoAccess", -11: "subjectInfoAccess",
}
OF_CERTIFICATES = {
    9: (False, "4.2.1.8"), 14: (False, "4.2.1.2"), 30: (True, "4.2.1.10"), 35: (False, "4.2.1.1"),
    36: (True, "4.2.1.11"), 46: (False, "4.2.1.15"), 54: (True, "4.2.1.14"),
    -1: (False, "4.2.2.1"), -11: (False, "4.2.2.2"),
}
OF_LISTS = {
    20: (False, "5.2.3"), 27: (True, "5.2.4"), 28: (True, "5.2.5"), 35: (False, "4.2.1.1"),
    46: (False, "5.2.6"), -1: (False, "5.2.7"),
}
FILLED = {
    9: "4.2.1.8", 16: "RFC 3280 4.2.1.4", 17: "4.2.1.6", 18: "4.2.1.7", 28: "5.2.5",
    30: "4.2.1.10", 31: "4.2.1.13", 32: "4.2.1.4", 33: "4.2.1.5", 36: "4.2.1.11", 37: "4.2.1.12",
    46: "4.2.1.15", -1: "4.2.2.1", -11: "4.2.2.2",
}


def of_extensions(extensions, marks):
    kinds = [kind for kind, _, _ in extensions]
    if len(set(kinds)) < len(kinds):
        yield "an extension is present twice", "4.2"
    for kind, critical, content in extensions:
        wanted, section = marks.get(kind, (critical, ""))
        if wanted != critical:
            be = "is" if critical else "isn't"
            yield f"{NAMES[kind]} {be} critical", section
        if kind in FILLED and content == b"\x30\0":
            yield f"{NAMES[kind]} is an empty sequence", FILLED[kind]
        with contextlib.suppress(IndexError, ValueError):
            yield from list(CONTENTS.get(kind, lambda _: ())(content))


def members_of(content):
    """Returns the encodings within the only value in these bytes, or nothing if they aren't one."""
    with contextlib.suppress(ValueError):
        return list(encodings(value_in(content) or b""))
    return []


UNREAD = "not read"
# How many characters the text of an attribute has, minimum and maximum (RFC 5280 A.1).
SIZES = {bytes([0x55, 4, number]): sizes for numbers, sizes in [
    ((6,), (2, 2)), ((3, 5, 10, 11, 12), (1, 64)), ((7, 8, 65), (1, 128)),
    ((4, 41, 42, 43, 44), (1, 32768)),
] for number in numbers}
SIZES[bytes.fromhex("2a864886f70d010901")] = (1, 255)
# The types of strings that an attribute may have (RFC 5280 A.1).
DIRECTORY = "a DirectoryString", (0x0C, 0x13, 0x14, 0x1C, 0x1E)
SYNTAXES = {bytes([0x55, 4, number]): DIRECTORY
            for number in (3, 4, 7, 8, 10, 11, 12, 41, 42, 43, 44, 65)}
SYNTAXES |= {bytes([0x55, 4, number]): ("a PrintableString", (0x13,)) for number in (5, 6, 46)}
SYNTAXES |= {bytes.fromhex(kind): ("an IA5String", (0x16,))
             for kind in ("2a864886f70d010901", "0992268993f22c640119")}
# The type of a tag, and the encoding of its text (X.680 41).
STRINGS = {0x0C: ("UTF8String", "utf-8"), 0x13: ("PrintableString", "ascii"),
           0x16: ("IA5String", "ascii"), 0x1E: ("BMPString", "utf-16-be")}


def type_of(tag):
    """Returns the name of a type by its tag of one byte."""
    if not tag & 0xC0:
        return (TYPES | {0x09: "REAL", 0x0D: "RELATIVE OID", 0x15: "VideotexString"})[tag]
    name = {0x40: "APPLICATION", 0x80: "CONTEXT-SPECIFIC", 0xC0: "PRIVATE"}[tag & 0xC0]
    return f"{name} [{tag & 31}] ({'constructed' if tag & 32 else 'primitive'})"


def of_name(name):
    """Yields the remarks on the texts of a name's attributes."""
    for _, _, relative in encodings(name):
        for _, _, attribute in inside(relative):
            (_, kind, _), (tag, octets, _) = inside(attribute)
            type_name, coding = STRINGS.get(tag, ("", "latin-1"))
            syntax, tags = SYNTAXES.get(kind, ("", (tag,)))
            if tag not in tags:
                yield f"{dotted(kind)} isn't {syntax}, but {type_of(tag)}", "A.1"
            try:
                text = octets.decode(coding)
                right = tag != 0x13 or re.fullmatch("[A-Za-z0-9 '()+,./:=?-]*", text)
            except UnicodeDecodeError:
                text, right = octets[: len(octets) // 2 if tag == 0x1E else None], False
            if not right:
                yield f"{dotted(kind)} isn't a text of its type, {type_name}", "4.1.2.4"
            least, most = SIZES.get(kind, (0, len(text)))
            size = len(octets) // 2 if tag == 0x1E else len(text)
            if not least <= size <= most:
                sizes = most if least == most else f"{least} to {most}"
                yield f"{dotted(kind)} isn't a text of {sizes} characters", "A.1"


def has_key(content):
    return any(tag == 0x80 for tag, _, _ in members_of(content))


def of_serial(serial):
    amount = serial.removeprefix(b"\0")
    if not amount:
        yield "the serial number is zero", "4.1.2.2"
    if serial[0] >= 0x80:
        yield "the serial number is negative", "4.1.2.2"
    if len(amount) > 20:
        yield "the serial number has more than 20 bytes", "4.1.2.2"


def of_certificate(octets):
    """Yields the remarks on a certificate (RFC 5280 4.1, 4.2)."""
    signed, outside, _ = inside(octets)
    fields = list(encodings(signed[1]))
    version = fields.pop(0)[1][2] + 1 if fields[0][0] == 0xA0 else 1
    serial, within, issuer, dates, subject, _, *rest = fields
    rest = {tag: contents for tag, contents, _ in rest}
    listed = 0xA3 in rest
    extensions = list(extensions_in(next(encodings(rest[0xA3]))[1])) if listed else []
    contents = {kind: content for kind, _, content in extensions}
    critical = {kind: flag for kind, flag, _ in extensions}
    first, last = encodings(dates[1])
    ids = 0x81 in rest or 0x82 in rest
    limits = members_of(contents.get(19))
    authority = any(tag == 1 and flag == b"\xff" for tag, flag, _ in limits)
    length = any(tag == 2 for tag, _, _ in limits)
    uses = value_in(contents.get(15))
    signs = uses is not None and len(uses) > 1 and uses[1] & 0x04 != 0
    unnamed = subject[1] == b""
    self_issued = issuer[2] == subject[2]
    yield from ((text, section) for holds, section, text in [
        (within[2] != outside[2], "4.1.1.2", "signature and signatureAlgorithm differ"),
        (listed and version != 3, "4.1.2.1",
         "it has extensions, but its version isn't v3"),
        (listed and not extensions, "4.1.2.9", "the list of extensions is empty"),
        (ids and version == 1, "4.1.2.8", "it has unique identifiers, but its version is v1"),
        (ids, "4.1.2.8", "conforming CAs must not generate unique identifiers"),
        (issuer[1] == b"", "4.1.2.4", "the issuer is an empty name"),
        (is_long(first), "4.1.2.5", "notBefore is a GeneralizedTime before 2050"),
        (is_long(last), "4.1.2.5", "notAfter is a GeneralizedTime before 2050"),
        (moment(*last[:2]) < moment(*first[:2]), "4.1.2.5", "notAfter is before notBefore"),
        (unnamed and authority, "4.1.2.6", "the subject of a CA is an empty name"),
        (unnamed and not critical.get(17), "4.1.2.6",
         "the subject is empty, and there is no critical subjectAltName"),
        (not self_issued and not has_key(contents.get(35)), "4.2.1.1",
         "it has no authorityKeyIdentifier with a keyIdentifier"),
        (authority and 14 not in contents, "4.2.1.2", "a CA has no subjectKeyIdentifier"),
        (authority and 15 not in contents, "4.2.1.3", "a CA has no keyUsage"),
        (signs and not authority, "4.2.1.3", "keyCertSign is set, but cA isn't"),
        (authority and not critical[19], "4.2.1.9",
         "basicConstraints of a CA aren't critical"),
        (length and not authority, "4.2.1.9", "there is a pathLenConstraint, but cA isn't set"),
        (length and uses is not None and not signs, "4.2.1.9",
         "there is a pathLenConstraint, but keyCertSign isn't set"),
        (30 in contents and not authority, "4.2.1.10",
         "there are nameConstraints, but cA isn't set"),
        (uses == b"\0", "4.2.1.3", "no bit of keyUsage is set"),
    ] if holds)
    yield from of_serial(serial[1])
    yield from of_name(issuer[1])
    yield from of_name(subject[1])
    yield from of_extensions(extensions, OF_CERTIFICATES)


def of_list(octets):
    """Yields the remarks on a CRL (RFC 5280 5.1 to 5.3)."""
    signed, outside, _ = inside(octets)
    fields = list(encodings(signed[1]))
    version = fields.pop(0)[1][0] + 1 if fields[0][0] == 2 else 1
    within, issuer, this, *rest = fields
    following = rest.pop(0) if rest and rest[0][0] in (0x17, 0x18) else None
    rest = {tag: contents for tag, contents, _ in rest}
    entries = [list(encodings(entry)) for _, entry, _ in encodings(rest.get(0x30, b""))]
    listed = 0xA0 in rest
    extensions = list(extensions_in(next(encodings(rest[0xA0]))[1])) if listed else []
    contents = {kind: content for kind, _, content in extensions}
    of_entries = [list(extensions_in(entry[2][1])) for entry in entries if len(entry) > 2]
    marks = {(kind, flag) for listed in of_entries for kind, flag, _ in listed}
    number = contents.get(20)
    yield from ((text, section) for holds, section, text in [
        (within[2] != outside[2], "5.1.1.2", "signature and signatureAlgorithm differ"),
        ((listed or of_entries) and version != 2, "5.1.2.1",
         "it has extensions, but its version isn't v2"),
        (issuer[1] == b"", "5.1.2.3", "the issuer is an empty name"),
        (0x30 in rest and not entries, "5.1.2.6", "the list of entries is empty"),
        (listed and not extensions, "5.1.2.7", "the list of extensions is empty"),
        (is_long(this), "5.1.2.4", "thisUpdate is a GeneralizedTime before 2050"),
        (following and is_long(following), "5.1.2.5",
         "nextUpdate is a GeneralizedTime before 2050"),
        (following and moment(*following[:2]) < moment(*this[:2]), "5.1.2.5",
         "nextUpdate is before thisUpdate"),
        (not following, "5.1.2.5", "there is no nextUpdate"),
        (any(list(of_serial(entry[0][1])) for entry in entries), "4.1.2.2",
         "an entry's serial number isn't positive, or has more than 20 bytes"),
        (any(is_long(entry[1]) for entry in entries), "5.1.2.6",
         "the date of an entry is a GeneralizedTime before 2050"),
        ([] in of_entries, "5.1", "the list of an entry's extensions is empty"),
        ((21, True) in marks, "5.3.1", "reasonCode of an entry is critical"),
        ((24, True) in marks, "5.3.2", "invalidityDate of an entry is critical"),
        ((29, False) in marks, "5.3.3", "certificateIssuer of an entry isn't critical"),
        (not has_key(contents.get(35)), "5.2.1",
         "it has no authorityKeyIdentifier with a keyIdentifier"),
        (number is None, "5.2.3", "there is no cRLNumber"),
        (len((value_in(number) or b"").removeprefix(b"\0")) > 20, "5.2.3",
         "the cRLNumber has more than 20 bytes"),
        (27 in contents and 46 in contents, "5.2.6",
         "a delta CRL has freshestCRL"),
    ] if holds)
    yield from of_name(issuer[1])
    yield from of_extensions(extensions, OF_LISTS)


def cited(section):
    return section if section.startswith("RFC ") else f"RFC 5280 {section}"


# Where the fields begin that remarks are about.

ATTRIBUTES = {
    "2.5.4.3": "commonName", "2.5.4.4": "surname", "2.5.4.5": "serialNumber",
    "2.5.4.6": "countryName", "2.5.4.7": "localityName", "2.5.4.8": "stateOrProvinceName",
    "2.5.4.10": "organizationName", "2.5.4.11": "organizationalUnitName", "2.5.4.12": "title",
    "2.5.4.41": "name", "2.5.4.42": "givenName", "2.5.4.43": "initials",
    "2.5.4.44": "generationQualifier", "2.5.4.46": "dnQualifier", "2.5.4.65": "pseudonym",
    "1.2.840.113549.1.9.1": "emailAddress", "0.9.2342.19200300.100.1.25": "domainComponent",
}
OTHER_NAMES = {19: "basicConstraints", 15: "keyUsage", 21: "reasonCode", 24: "invalidityDate",
               29: "certificateIssuer", 16: "privateKeyUsagePeriod"}
GENERAL_NAMES = {0x81: "rfc822Name", 0x82: "dNSName", 0x86: "uniformResourceIdentifier",
                 0x87: "iPAddress"}
# The parts of the contents of extensions, by their tags.
PARTS = {17: GENERAL_NAMES, 18: GENERAL_NAMES, 19: {2: "pathLenConstraint"},
         28: {0x82: "onlyContainsCACerts", 0x85: "onlyContainsAttributeCerts"},
         30: {0xA0: "permittedSubtrees", 0xA1: "excludedSubtrees"}, 32: {0x30: "policyIdentifier"},
         33: {0x30: "issuerDomainPolicy"}}
# The fields of the signed parts with their tags, in their order.
TIMES = (0x17, 0x18)
FIELDS = {
    "certificate": [((0xA0,), "version"), ((2,), "serialNumber"), ((0x30,), "signature"),
                    ((0x30,), "issuer"), ((0x30,), "validity"), ((0x30,), "subject"),
                    ((0x30,), "key"), ((0x81,), "issuerUniqueID"), ((0x82,), "subjectUniqueID"),
                    ((0xA3,), "extensions")],
    "list": [((2,), "version"), ((0x30,), "signature"), ((0x30,), "issuer"), (TIMES, "thisUpdate"),
             (TIMES, "nextUpdate"), ((0x30,), "revokedCertificates"), ((0xA0,), "crlExtensions")],
}


class Places:
    """The places at which the fields of a value begin, by their paths."""

    def __init__(self, kind, octets):
        self.octets, self.found = octets, collections.defaultdict(set)
        signed, outside, _ = self.inside((0, *self.header(0)))
        self.add(".", signed)
        self.add("signatureAlgorithm", outside)
        fields = iter(FIELDS[kind])
        for spot in self.inside(signed):
            name = next(name for tags, name in fields if octets[spot[0]] in tags)
            self.add(name, spot)
            if name in ("issuer", "subject"):
                self.add_name(name, spot)
            elif name == "validity":
                for date, part in zip(("notBefore", "notAfter"), self.inside(spot)):
                    self.add(f"validity.{date}", part)
            elif name.lower().endswith("extensions"):
                self.add_extensions(name, self.inside(spot)[0])
            elif name == "revokedCertificates":
                self.add_entries(self.inside(spot))

    def header(self, place):
        """Returns where the content of the value at a place begins and ends."""
        [(_, content, encoding), *_] = self.values(place, len(self.octets))
        return place + len(encoding) - len(content), place + len(encoding)

    def values(self, place, end):
        return itertools.islice(encodings(self.octets[place:end]), 1)

    def inside(self, spot):
        """Returns where the values inside one begin, their contents begin, and they end."""
        _, place, end = spot
        found = []
        while place < end:
            found.append((place, *self.header(place)))
            place = found[-1][2]
        return found

    def add(self, path, spot):
        self.found[path].add(spot[0])

    def add_name(self, path, name):
        for relative in self.inside(name):
            for attribute in self.inside(relative):
                kind = dotted(self.octets[slice(*self.inside(attribute)[0][1:])])
                self.add(f"{path}.{ATTRIBUTES.get(kind, kind)}", attribute)

    def add_extensions(self, path, listed):
        for extension in self.inside(listed):
            kind = self.octets[slice(*self.inside(extension)[0][1:])]
            last = kind[-1] if kind[:-1] == ID_CE else -kind[-1] if kind[:-1] == ID_PE else None
            name = f"{path}.{NAMES.get(last) or OTHER_NAMES.get(last) or dotted(kind)}"
            self.add(name, extension)
            with contextlib.suppress(ValueError):
                content = self.inside(extension)[-1][1:]
                [value] = self.inside((0, *content))
                for part in self.inside(value) if last in PARTS else ():
                    self.add(f"{name}.{PARTS[last].get(self.octets[part[0]])}", part)
                    if last == 33:
                        self.add(f"{name}.subjectDomainPolicy", part)
                    if last in (31, 46):
                        self.add(name, part)

    def add_entries(self, entries):
        path = "revokedCertificates."
        for entry in entries:
            names = ("userCertificate", "revocationDate", "crlEntryExtensions")
            for name, part in zip(names, self.inside(entry)):
                self.add(path + name, part)

    def has(self, path, place):
        """Returns whether the field of a path begins at a place; if it isn't there, whether the
        signed part does."""
        return place in (self.found.get(path) or self.found["."])


def misplaced(tool, kind, octets):
    """Yields the identifiers of remarks whose path doesn't lead to their byte."""
    told = tool.ask(["explain", "--json", kind, "file"], {"file": octets})[1]
    found = json.loads(told)["findings"]
    if "remark" in str(found):
        places = Places(kind, octets)
        for each in found:
            is_here = each.get("identifier") in (None, "extension-malformed", "extension-not-read",
                                                 "distribution-point-unnamed")
            if not is_here and not places.has(each["path"], each["octet"]):
                yield f"{each['identifier']}: {each['path']} ({each['octet']})"


def told(tool, kind, octets):
    """Returns the remarks of the program, except those on contents that aren't of their type, and
    whether it decodes all contents."""
    first, *lines = tool.ask(["explain", kind, "file"], {"file": octets})[1].decode().splitlines()
    if not first.startswith("no error: "):
        return [UNREAD], True
    undecoded = [line for line in lines
                 if re.search(": valid, and not read here: | is malformed: ", line)]
    # The OID is compared, and not its name.
    return [re.sub(r"^\w+ \(([\d.]+)\)", r"\1", line.removeprefix("remark: ")) for line in lines
            if line.startswith("remark: ") and line not in undecoded], not undecoded


def main():
    parser = argparse.ArgumentParser(description=__doc__.splitlines()[0])
    parser.add_argument("tool", metavar="CERT_TOOL")
    parser.add_argument("paths", metavar="FILE", nargs="+")
    given = parser.parse_args()
    tool, differences, counts = Tool(given.tool), 0, collections.Counter()
    for path, octets in ((path, octets) for path in given.paths for octets in encodings_of(path)):
        for kind, remarks in ("certificate", of_certificate), ("list", of_list):
            wanted = [UNREAD]
            if reader.spells(kind, octets):
                wanted = [": ".join([f"{text} ({cited(section)})", *name])
                          for text, section, *name in remarks(octets)]
            found, are_decoded = told(tool, kind, octets)
            for line in misplaced(tool, kind, octets):
                differences += 1
                print(f"{path}: {kind}: another byte: {line}")
            counts.update(found)
            counts[f"read as a {kind}"] += found != [UNREAD]
            counts["not compared: a content isn't decoded"] += not are_decoded
            for text in sorted(set(wanted) ^ set(found)) if are_decoded else ():
                differences += 1
                print(f"{path}: {kind}: {'missing' if text in wanted else 'unexpected'}: {text}")
    for text, count in counts.most_common():
        print(f"{count} {text}")
    print(f"{differences} differences")
    return differences > 0


if __name__ == "__main__":
    sys.exit(main())
