"""Has Python's `cryptography` build certificates, CRLs and CSRs for `described.py`: of each kind
one with every type of extension, and others with some. Each run makes new keys."""

import datetime
import ipaddress
import random
from unicodedata import category

from cryptography import x509
from cryptography.hazmat.primitives import hashes
from cryptography.hazmat.primitives.asymmetric import dsa, ec, ed448, ed25519, rsa
from cryptography.hazmat.primitives.asymmetric import x448, x25519
from cryptography.hazmat.primitives.serialization import Encoding
from cryptography.x509 import oid
from cryptography.x509.name import _ASN1Type as Type

from der import tlv

draw = random.Random()
DATE = datetime.datetime(2026, 1, 2, 3, 4, 5)


def own(number):
    """Returns an object identifier for examples (RFC 5612)."""
    return x509.ObjectIdentifier(f"1.3.6.1.4.1.32473.{number}")


def identifiers_of(of):
    return [each for each in vars(of).values() if isinstance(each, x509.ObjectIdentifier)]


# The keys that sign, and those that can't.
CURVES = [
    ec.SECP256R1, ec.SECP224R1, ec.SECP384R1, ec.SECP521R1, ec.SECP256K1, ec.BrainpoolP256R1,
    ec.BrainpoolP384R1, ec.BrainpoolP512R1,
]
SIGNERS = [rsa.generate_private_key(*of) for of in ((65537, 2048), (3, 1025), (65537, 1031))]
SIGNERS += [ec.generate_private_key(curve()) for curve in CURVES]
SIGNERS += [dsa.generate_private_key(1024)]
SIGNERS += [of.generate() for of in (ed25519.Ed25519PrivateKey, ed448.Ed448PrivateKey)]
OTHERS = [of.generate() for of in (x25519.X25519PrivateKey, x448.X448PrivateKey)]
DIGESTS = [hashes.SHA256(), hashes.SHA224(), hashes.SHA384(), hashes.SHA512()]

# Names with each type of attribute, each type of string, and characters to be escaped.
TEXTS = [
    "plain", "#hash", "a#b", " both ends ",
    'quote " plus + comma , semicolon ; less < greater > equals = backslash \\',
    "Größe €", "Ελληνικά", "中文", "\U0001d11e", "a\nb\r\t\x1b[2J\x7f",
    "\x85\x9b\u2028\u2029", "\u202eback\u2066\u200f", "zero\u200bwidth\ufeff\u00a0\u3000",
    "combining e\u0301", "private \ue000", "\\0A",
]
COUNTRIES = [oid.NameOID.COUNTRY_NAME, oid.NameOID.JURISDICTION_COUNTRY_NAME]
TYPED = [
    *((country, "DE", Type.PrintableString) for country in COUNTRIES),
    (oid.NameOID.DOMAIN_COMPONENT, "example", Type.IA5String),
    (oid.NameOID.EMAIL_ADDRESS, "a@b.example", Type.IA5String),
    (oid.NameOID.SERIAL_NUMBER, "HRB 1", Type.PrintableString),
    (oid.NameOID.COMMON_NAME, "wide", Type.BMPString),
    (oid.NameOID.ORGANIZATION_NAME, "teletex", Type.T61String),
    (oid.NameOID.POSTAL_CODE, "80331", Type.NumericString),
    (own(11), "of no known type", Type.UTF8String),
]
IN_UTF8 = [each for each in identifiers_of(oid.NameOID) if each not in COUNTRIES]
TYPED += [(each, text, Type.UTF8String) for each, text in zip(IN_UTF8, TEXTS * 3)]
ATTRIBUTES = [x509.NameAttribute(kind, text, _type=of) for kind, text, of in TYPED]
EVERY_NAME = x509.Name([x509.RelativeDistinguishedName([each]) for each in ATTRIBUTES])
RELATIVE = x509.RelativeDistinguishedName(ATTRIBUTES[:2])

# Names of all kinds, and extensions.
DIRECTORY = x509.DirectoryName(EVERY_NAME)
ADDRESSES = ["192.0.2.1", "2001:db8::1", "::ffff:192.0.2.1", "2001:db8:0:0:1:0:0:1"]
NETWORKS = ["192.0.2.0/24", "0.0.0.0/0", "2001:db8::/33"]
OTHER_NAMES = [
    ("1.3.6.1.4.1.311.20.2.3", b"\x0c\x06a@b\xc3\xab\n"), ("1.3.6.1.5.5.7.8.7", b"\x16\x07_s.a.ex"),
    ("1.2.3.4", b"\x02\x01\x07"), ("1.2.3.4", b"\x1e\x04\x20\xac\x00\x41"),
    ("1.2.3.4", b"\x30\x02\x05\x00"),
]
NAMES = [
    x509.DNSName("a.example"),
    x509.DNSName("a\\0Ab\n"),
    x509.RFC822Name("a@b.example"),
    x509.UniformResourceIdentifier("https://a.example/?q=1#part"),
    x509.RegisteredID(own(4)),
    DIRECTORY,
    *(x509.IPAddress(ipaddress.ip_address(text)) for text in ADDRESSES),
    *(x509.OtherName(x509.ObjectIdentifier(of), content) for of, content in OTHER_NAMES),
]
SUBTREES = NAMES[:6] + [x509.IPAddress(ipaddress.ip_network(text)) for text in NETWORKS]
SUPERSEDED = frozenset([x509.ReasonFlags.superseded])
POINTS = [
    x509.DistributionPoint(NAMES, None, None, None),
    x509.DistributionPoint(None, None, None, [DIRECTORY]),
    x509.DistributionPoint(None, RELATIVE, SUPERSEDED, NAMES),
]
QUALIFIERS = [
    x509.UserNotice(x509.NoticeReference("Größe", [1, 127, 128, 2**40]), "a\nb\\ €"),
    x509.UserNotice(None, "text alone"),
    x509.UserNotice(x509.NoticeReference("reference alone", [7]), None),
    "https://b.example/cps",
]
POLICIES = [
    x509.PolicyInformation(x509.ObjectIdentifier("2.5.29.32.0"), None),
    x509.PolicyInformation(own(6), QUALIFIERS),
]
ACCESSES = [
    x509.AccessDescription(method, each)
    for method in identifiers_of(oid.AuthorityInformationAccessOID) for each in NAMES
]
PLACES = identifiers_of(oid.SubjectInformationAccessOID)
SHARED = [
    x509.AuthorityKeyIdentifier(bytes(range(8)), NAMES, 2**64),
    x509.AuthorityKeyIdentifier(bytes(range(20)), None, None),
    x509.IssuerAlternativeName(NAMES),
    x509.FreshestCRL(POINTS),
    x509.AuthorityInformationAccess(ACCESSES),
]
EXTENSIONS = [
    *SHARED,
    x509.SubjectKeyIdentifier(bytes(range(20))),
    x509.KeyUsage(*[True] * 9),
    x509.KeyUsage(False, True, False, True, False, True, False, False, False),
    x509.CertificatePolicies(POLICIES),
    x509.SubjectAlternativeName(NAMES),
    x509.BasicConstraints(False, None),
    *(x509.BasicConstraints(True, length) for length in (None, 0, 127, 128, 255)),
    x509.NameConstraints(SUBTREES, None),
    x509.NameConstraints(SUBTREES[:1], SUBTREES),
    *(x509.PolicyConstraints(*of) for of in ((0, 127), (200, None), (None, 70000))),
    x509.ExtendedKeyUsage([*identifiers_of(oid.ExtendedKeyUsageOID), own(9)]),
    x509.CRLDistributionPoints(POINTS),
    *(x509.InhibitAnyPolicy(count) for count in (0, 1, 130)),
    x509.SubjectInformationAccess([x509.AccessDescription(it, NAMES[0]) for it in PLACES]),
    *(x509.TLSFeature([feature]) for feature in x509.TLSFeatureType),
    x509.OCSPNoCheck(),
    x509.UnrecognizedExtension(own(7), b"\xde\xad"),
]
LIST_EXTENSIONS = [
    *SHARED,
    *(x509.CRLNumber(number) for number in (0, 127, 128, 2**64 - 1, 2**159 - 1)),
    *(x509.DeltaCRLIndicator(number) for number in (0, 200, 2**100)),
    x509.IssuingDistributionPoint(NAMES, None, True, False, SUPERSEDED, False, False),
    x509.IssuingDistributionPoint(None, RELATIVE, False, True, None, False, False),
    x509.IssuingDistributionPoint(None, RELATIVE, False, False, None, True, False),
    x509.IssuingDistributionPoint(None, RELATIVE, False, False, None, False, True),
]
ENTRY_EXTENSIONS = [
    *(x509.CRLReason(each) for each in x509.ReasonFlags if each != x509.ReasonFlags.unspecified),
    x509.InvalidityDate(DATE),
    x509.CertificateIssuer([DIRECTORY, *NAMES]),
]
SERIALS = [1, 127, 128, 255, 256, 2**63, 2**64, 2**159 - 1]


def name(is_every):
    """Returns a name with all attributes, or one of two RDNs."""
    if is_every:
        return EVERY_NAME
    first, *others = draw.sample(ATTRIBUTES, 3)
    others = {each.oid: each for each in others}  # an RDN has each type of attribute once
    return x509.Name(map(x509.RelativeDistinguishedName, ([first], others.values())))


def letters():
    """Returns a certificate that has each character in its names that the Unicode of Python has."""
    known = [letter for letter in map(chr, range(0x110000)) if category(letter) not in ("Cn", "Cs")]
    text = "".join(known)
    parts = (text[at : at + 4096].encode() for at in range(0, len(text), 4096))
    names = [x509.OtherName(own(1), tlv(0x0C, part)) for part in parts]
    key = SIGNERS[-1].public_key()
    builder = x509.CertificateBuilder(EVERY_NAME, EVERY_NAME, key, 1, DATE, DATE)
    return signed(builder.add_extension(x509.SubjectAlternativeName(names), False))


def extended(builder, values, is_every):
    """Adds an extension of each type to a builder, or of some types."""
    for each in {each.oid: each for each in draw.sample(values, len(values))}.values():
        if is_every or draw.random() < 0.5:
            builder = builder.add_extension(each, critical=draw.random() < 0.5)
    return builder


def signed(builder):
    """Signs with one of the keys."""
    key, digest = draw.choice(SIGNERS), draw.choice(DIGESTS)
    if isinstance(key, (ed25519.Ed25519PrivateKey, ed448.Ed448PrivateKey)):
        return builder.sign(key, None)
    return builder.sign(key, DIGESTS[0] if isinstance(key, dsa.DSAPrivateKey) else digest)


def certificate(is_every):
    begins = datetime.datetime(1970, 1, 1), DATE, datetime.datetime(2049, 12, 31)
    builder = x509.CertificateBuilder(
        name(is_every), name(is_every), draw.choice([*SIGNERS, *OTHERS]).public_key(),
        draw.choice(SERIALS), draw.choice(begins), DATE.replace(year=draw.choice([2050, 9999])),
    )
    return signed(extended(builder, EXTENSIONS, is_every))


def revocation_list(is_every):
    ends = DATE.replace(year=draw.choice([2049, 2050]))
    builder = x509.CertificateRevocationListBuilder(name(is_every), DATE, ends)
    for serial in draw.sample(SERIALS, 3 if is_every else 1):
        entry = x509.RevokedCertificateBuilder(serial, DATE)
        entry = extended(entry, ENTRY_EXTENSIONS, is_every)
        builder = builder.add_revoked_certificate(entry.build())
    return signed(extended(builder, LIST_EXTENSIONS, is_every))


def request(is_every):
    builder = x509.CertificateSigningRequestBuilder(name(is_every))
    for kind, text, of in (
        (oid.AttributeOID.CHALLENGE_PASSWORD, "ge\u0001heim \\ \u202e", Type.UTF8String),
        (oid.AttributeOID.UNSTRUCTURED_NAME, "a name", Type.IA5String),
    ):
        if is_every or draw.random() < 0.5:
            builder = builder.add_attribute(kind, text.encode(), _tag=of)
    return signed(extended(builder, EXTENSIONS, is_every))


MAKERS = {"certificate": certificate, "list": revocation_list, "request": request}


def made(count):
    """Yields the names and bytes of `count` of them, and of a certificate with all characters."""
    draw.seed(20260101)
    yield "letters", letters().public_bytes(Encoding.DER)
    for number in range(count):
        kind = list(MAKERS)[number % 3]
        yield f"{kind} {number}", MAKERS[kind](number < 3).public_bytes(Encoding.DER)
