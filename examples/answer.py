#!/usr/bin/env python3
"""Verifies the signatures of a chain, with Python's `cryptography`.

    cert_tool questions ... | answer.py > ANSWERS

Reads the lines of `cert_tool questions` from standard input, and copies each line whose signature
is valid to standard output. The output is the file for `cert_tool verify --answers`. The script
isn't proved. It is installed as cert_tool_answer.

Signatures: RSASSA-PKCS1-v1_5 and RSASSA-PSS (RFC 8017, RFC 4055), ECDSA over named curves
(RFC 5480, RFC 5758), Ed25519 and Ed448 (RFC 8410). A line isn't copied if its signature is invalid,
or if its algorithm, parameters or key are unknown, malformed or contradictory. The error output
gives the number of the line, the index of the certificate in the chain, and the reason. Index 0 is
the certificate that a trust anchor issued.

The status is 0 if all lines were read, even if no signature is valid; 2 if `cryptography` isn't
installed or there is an argument; and 5 if the questions can't be read or the answers can't be
written. With status 5, the answers are incomplete.
"""

from __future__ import annotations

import argparse
import dataclasses
import os
import sys

try:
    from cryptography.exceptions import InvalidSignature, UnsupportedAlgorithm
    from cryptography.hazmat.primitives import hashes
    from cryptography.hazmat.primitives.asymmetric import ec, padding
    from cryptography.hazmat.primitives.serialization import load_der_public_key
except ImportError:
    print(f"{sys.argv[0]}: {sys.executable} lacks cryptography; for /usr/bin/python3: "
          "apt install python3-cryptography", file=sys.stderr)
    sys.exit(2)

NAME = sys.argv[0].rpartition("/")[2]


class NoAnswer(Exception):
    """The reason why a line has no answer."""


# Tags (X.690 8.1.2).
INTEGER, BIT_STRING, NULL, OBJECT_IDENTIFIER, SEQUENCE = 0x02, 0x03, 0x05, 0x06, 0x30

RSA_ENCRYPTION = "1.2.840.113549.1.1.1"
RSASSA_PSS = "1.2.840.113549.1.1.10"
MGF1 = "1.2.840.113549.1.1.8"
EC_PUBLIC_KEY = "1.2.840.10045.2.1"
# Ed25519, Ed448 (RFC 8410 3)
ED = ("1.3.101.112", "1.3.101.113")

# Each digest, its OID (RFC 4055 2.1), and the OIDs of RSASSA-PKCS1-v1_5 (RFC 8017 A.2.4, RFC 5758
# 2, RFC 3279 2.2.1) and of ECDSA (RFC 5758 3.2, RFC 3279 2.2.3) with it.
ALGORITHMS = (
    (hashes.SHA1, "1.3.14.3.2.26", "1.2.840.113549.1.1.5", "1.2.840.10045.4.1"),
    (hashes.SHA224, "2.16.840.1.101.3.4.2.4", "1.2.840.113549.1.1.14", "1.2.840.10045.4.3.1"),
    (hashes.SHA256, "2.16.840.1.101.3.4.2.1", "1.2.840.113549.1.1.11", "1.2.840.10045.4.3.2"),
    (hashes.SHA384, "2.16.840.1.101.3.4.2.2", "1.2.840.113549.1.1.12", "1.2.840.10045.4.3.3"),
    (hashes.SHA512, "2.16.840.1.101.3.4.2.3", "1.2.840.113549.1.1.13", "1.2.840.10045.4.3.4"),
)
DIGESTS, PKCS1, ECDSA = ({row[at]: row[0] for row in ALGORITHMS} for at in (1, 2, 3))


class Octets:
    """Bytes that are decoded from the left, value by value."""

    def __init__(self, octets):
        self.left = octets

    def next(self, tag):
        """Returns the content of the next value, which must have this tag (X.690 8.1, 10.1)."""
        octets = self.left
        if octets[:1] != bytes([tag]) or len(octets) < 2:
            raise NoAnswer(f"expected tag {tag:02X}, found {octets[:1].hex().upper() or 'the end'}")
        length, start = octets[1], 2
        if length >= 0x80:
            start += length & 0x7F
            digits = octets[2:start]
            length = int.from_bytes(digits, "big")
            if len(digits) != start - 2 or length < 0x80 or digits[0] == 0:
                raise NoAnswer("a length isn't in DER")
        if len(octets) < start + length:
            raise NoAnswer("a value is truncated")
        self.left = octets[start + length :]
        return octets[start : start + length]

    def optional(self, tag):
        """Returns the content of the next value if it has this tag."""
        return self.next(tag) if self.left[:1] == bytes([tag]) else None

    def end(self):
        if self.left:
            raise NoAnswer("bytes are left after a value")


def whole(octets, tag):
    """Returns the content of the value that is all of the bytes."""
    reader = Octets(octets)
    contents = reader.next(tag)
    reader.end()
    return contents


def identifier(contents):
    """Returns an object identifier as dotted text (X.690 8.19)."""
    if not contents or contents[-1] >= 0x80:
        raise NoAnswer("an object identifier is truncated")
    numbers, number = [], 0
    for octet in contents:
        if number == 0 and octet == 0x80:
            raise NoAnswer("an object identifier is padded")
        number = number << 7 | octet & 0x7F
        if octet < 0x80:
            numbers.append(number)
            number = 0
    first = min(numbers[0] // 40, 2)
    return ".".join(map(str, [first, numbers[0] - 40 * first, *numbers[1:]]))


def whole_number(contents):
    """Returns a number that isn't negative (X.690 8.3)."""
    if not contents or contents[0] >= 0x80:
        raise NoAnswer("a number is negative or empty")
    if len(contents) > 1 and contents[0] == 0 and contents[1] < 0x80:
        raise NoAnswer("a number is padded")
    return int.from_bytes(contents, "big")


def algorithm_of(contents):
    """Returns the OID and the undecoded parameters of an algorithm (RFC 5280 4.1.1.2)."""
    reader = Octets(contents)
    name = identifier(reader.next(OBJECT_IDENTIFIER))
    return name, reader.left


def without_parameters(name, parameters):
    if parameters:
        raise NoAnswer(f"{name} must not have parameters")


def null_or_absent(name, parameters):
    if parameters not in (b"", bytes([NULL, 0])):
        raise NoAnswer(f"the parameters of {name} must be NULL or absent")


def digest_of(contents):
    name, parameters = algorithm_of(contents)
    if name not in DIGESTS:
        raise NoAnswer(f"the digest {name} isn't supported")
    null_or_absent(name, parameters)
    return DIGESTS[name]


@dataclasses.dataclass(frozen=True)
class PssParameters:
    """RSASSA-PSS-params (RFC 4055 3.1). The trailer field can only be 1."""

    digest: type = hashes.SHA1
    mask_digest: type = hashes.SHA1
    salt: int = 20


def pss_parameters(octets):
    """Returns the parameters. An encoded default is accepted."""
    reader = Octets(whole(octets, SEQUENCE))
    read = {}
    if (field := reader.optional(0xA0)) is not None:
        read["digest"] = digest_of(whole(field, SEQUENCE))
    if (field := reader.optional(0xA1)) is not None:
        name, parameters = algorithm_of(whole(field, SEQUENCE))
        if name != MGF1:
            raise NoAnswer(f"the mask generation function {name} isn't supported")
        read["mask_digest"] = digest_of(whole(parameters, SEQUENCE))
    if (field := reader.optional(0xA2)) is not None:
        read["salt"] = whole_number(whole(field, INTEGER))
    if (field := reader.optional(0xA3)) is not None:
        if whole_number(whole(field, INTEGER)) != 1:
            raise NoAnswer("the trailer field isn't 1")
    reader.end()
    return PssParameters(**read)


def signature_octets(contents):
    """Returns the bytes of a BIT STRING without unused bits (X.690 8.6)."""
    if contents[:1] != b"\0":
        raise NoAnswer("a bit string has unused bits, or is empty")
    return contents[1:]


@dataclasses.dataclass(frozen=True)
class Key:
    """A SubjectPublicKeyInfo (RFC 5280 4.1.2.7): its algorithm, the RSASSA-PSS parameters that it
    is restricted to, if any, and the key."""

    algorithm: str
    permitted: PssParameters | None
    public: object


def key_of(octets):
    """Decodes a SubjectPublicKeyInfo."""
    reader = Octets(whole(octets, SEQUENCE))
    name, parameters = algorithm_of(reader.next(SEQUENCE))
    bits = signature_octets(reader.next(BIT_STRING))
    reader.end()
    permitted = None
    if name == RSA_ENCRYPTION:
        null_or_absent(name, parameters)
    elif name == RSASSA_PSS:
        permitted = pss_parameters(parameters) if parameters else None
    elif name == EC_PUBLIC_KEY:
        # The curve is named, and the point isn't hybrid (RFC 5480 2.1.1, 2.2).
        identifier(whole(parameters, OBJECT_IDENTIFIER))
        if bits[:1] not in (b"\2", b"\3", b"\4"):
            raise NoAnswer("the point is neither compressed nor uncompressed")
    elif name in ED:
        without_parameters(name, parameters)
    else:
        raise NoAnswer(f"the key's algorithm {name} isn't supported")
    of_rsa = name in (RSA_ENCRYPTION, RSASSA_PSS)
    return Key(name, permitted, load_der_public_key(bits if of_rsa else octets))


def pss_padding(permitted, parameters, longest):
    """Returns the padding and the digest, if the key permits them (RFC 4055 3.3)."""
    wanted = pss_parameters(parameters)
    if wanted.salt > longest:
        raise NoAnswer("the salt is longer than the signature")
    if permitted is not None:
        if dataclasses.replace(wanted, salt=permitted.salt) != permitted:
            raise NoAnswer("the key doesn't permit this digest or mask")
        if wanted.salt < permitted.salt:
            raise NoAnswer("the key doesn't permit a salt that is so short")
    return padding.PSS(padding.MGF1(wanted.mask_digest()), wanted.salt), wanted.digest()


def verify(key, algorithm, signed, bits):
    """Raises an exception unless the signature is valid."""
    name, parameters = algorithm_of(whole(algorithm, SEQUENCE))
    signature = signature_octets(whole(bits, BIT_STRING))
    key = key_of(key)
    if name in PKCS1 and key.algorithm == RSA_ENCRYPTION:
        null_or_absent(name, parameters)
        key.public.verify(signature, signed, padding.PKCS1v15(), PKCS1[name]())
    elif name == RSASSA_PSS and key.algorithm in (RSA_ENCRYPTION, RSASSA_PSS):
        how = pss_padding(key.permitted, parameters, len(signature))
        key.public.verify(signature, signed, *how)
    elif name in ECDSA and key.algorithm == EC_PUBLIC_KEY:
        without_parameters(name, parameters)
        key.public.verify(signature, signed, ec.ECDSA(ECDSA[name]()))
    elif name in ED and key.algorithm == name:
        without_parameters(name, parameters)
        key.public.verify(signature, signed)
    else:
        raise NoAnswer(f"a key of {key.algorithm} doesn't fit the signature algorithm {name}")


def refusal(line):
    """Returns why a line has no answer, or None if its signature is valid."""
    words = line.decode("ascii", "replace").split()
    if len(words) != 6:
        return "not a question: it must have six words"
    try:
        verify(*map(bytes.fromhex, words[2:]))
    except InvalidSignature:
        return "the signature is invalid"
    except (NoAnswer, UnsupportedAlgorithm, ValueError, TypeError, OverflowError) as why:
        return "no answer: " + " ".join(str(why).split())
    return None


def place_in(line):
    """Returns the words for the certificate whose signature a line is about."""
    place = line.decode("ascii", "replace").partition(" ")[0]
    return f", certificate {place}" if place.isdigit() else ""


def main():
    form = argparse.RawDescriptionHelpFormatter
    argparse.ArgumentParser(description=__doc__, formatter_class=form).parse_args()
    for number, line in enumerate(sys.stdin.buffer, 1):
        why = refusal(line)
        if why is None:
            sys.stdout.buffer.write(line)
        else:
            print(f"{NAME}: line {number}{place_in(line)}: {why}", file=sys.stderr)
    sys.stdout.flush()


if __name__ == "__main__":
    try:
        main()
    except OSError as why:
        print(f"{NAME}: {why}", file=sys.stderr)
        # `sys.exit` would write the rest of the answers again, and end with another status.
        os._exit(5)
