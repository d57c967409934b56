#!/usr/bin/env python3
"""Compares the verdicts of `example_signers` on signers with those of OpenSSL.

    tests/differential/signers.py PROGRAM [COUNT]
    tests/differential/signers.py PROGRAM --write

The script makes COUNT signed messages (default 200) with `openssl cms -sign`, which name the signer
by issuer and serial number or by key identifier, and COUNT OCSP responses with Python's
`cryptography`, which name the responder by its name or by the hash of its key.

The chains of messages have one to four certificates below the root, some of which have expired,
aren't those of a CA, or serve another purpose, and there are certificates of other chains. One
certificate of a valid CA is trusted: a trust anchor is a name and a key (RFC 5280 6.1.1 (d)), while
OpenSSL also checks its certificate. Responses are about certificates of a CA that is trusted. The
CA, or another one below it, issued the certificate of the responder, which has expired or serves
another purpose in some of them.

The program gets the certificates of each message or response in their order, and the identifier of
its signer. It answers twice: first without a verifier's answers, and then with those that Python's
`cryptography` gives to the lines that the first answer printed. `openssl verify` has to accept
exactly the signers of messages whose chain is `Trusted`, and `openssl ocsp` exactly these
responses. --write also writes the questions about six messages and six responses and the answers to
them into the crate, unless they differ from OpenSSL's.
"""

import collections
import datetime
import pathlib
import random
import subprocess
import sys
import tempfile

from cryptography import x509
from cryptography.exceptions import InvalidSignature
from cryptography.hazmat.primitives import hashes, serialization
from cryptography.hazmat.primitives.asymmetric import ec
from cryptography.x509 import ocsp
from cryptography.x509.oid import ExtendedKeyUsageOID, NameOID

TOP = pathlib.Path(__file__).resolve().parents[2]
sys.path.insert(0, str(TOP / "tests"))

import der

CRATE = TOP / "crates" / "example_signers"
NOW = datetime.datetime.now(datetime.timezone.utc).replace(microsecond=0)
DAY = datetime.timedelta(days=1)
PEM = serialization.Encoding.PEM
PURPOSES = (ExtendedKeyUsageOID.EMAIL_PROTECTION, ExtendedKeyUsageOID.SERVER_AUTH)
OCSP_PURPOSES = (ExtendedKeyUsageOID.OCSP_SIGNING, ExtendedKeyUsageOID.SERVER_AUTH)


class Party:
    """A certificate with its key."""

    def __init__(self, chance, name, issuer, is_authority, purposes=PURPOSES, with_purpose=0.3):
        self.key = ec.generate_private_key(ec.SECP256R1())
        self.name = x509.Name([x509.NameAttribute(NameOID.ORGANIZATION_NAME, "Tests"),
                               x509.NameAttribute(NameOID.COMMON_NAME, name)])
        above = issuer or self
        is_valid = issuer is None or chance.random() < 0.95
        self.may_certify = is_authority and (issuer is None or chance.random() < 0.95)
        self.may_be_trusted = is_valid and self.may_certify
        end = NOW + (30 * DAY if is_valid else -DAY)
        builder = (x509.CertificateBuilder().subject_name(self.name).issuer_name(above.name)
                   .public_key(self.key.public_key())
                   .serial_number(chance.randrange(1, 1 << chance.choice((31, 64, 150))))
                   .not_valid_before(NOW - 60 * DAY).not_valid_after(end))
        if is_authority:
            builder = builder.add_extension(x509.BasicConstraints(self.may_certify, None), True)
        elif chance.random() < with_purpose:
            purpose = chance.choices(purposes, (3, 1))
            builder = builder.add_extension(x509.ExtendedKeyUsage(purpose), False)
        self.has_key_identifier = chance.random() < 0.5
        if self.has_key_identifier:
            own = x509.SubjectKeyIdentifier.from_public_key(self.key.public_key())
            if chance.random() < 0.3:
                own = x509.SubjectKeyIdentifier(chance.randbytes(chance.choice((1, 20, 200))))
            builder = builder.add_extension(own, False)
        self.certificate = builder.sign(above.key, hashes.SHA256())

    def octets(self):
        return self.certificate.public_bytes(serialization.Encoding.DER)

    def save(self, path):
        path.with_suffix(".pem").write_bytes(self.certificate.public_bytes(PEM))
        path.with_suffix(".key").write_bytes(self.key.private_bytes(
            PEM, serialization.PrivateFormat.PKCS8, serialization.NoEncryption()))


def chain_of(chance):
    """Returns the certificates of a chain, the root first."""
    parties = [Party(chance, f"root {chance.randrange(1000)}", None, True)]
    for level in range(chance.randrange(4)):
        name = f"authority {level} {chance.randrange(1000)}"
        parties.append(Party(chance, name, parties[-1], True))
    return [*parties, Party(chance, f"signer {chance.randrange(1000)}", parties[-1], False)]


def openssl(folder, *words, check=True):
    return subprocess.run(["openssl", *words], cwd=folder, check=check, capture_output=True)


def parts_of(message):
    """Returns the certificates of a message, and the identifier of its signer (RFC 5652 3, 5.1,
    5.3)."""
    (_, content, _), = der.values(message)
    (_, data, _) = list(der.values(content))[1]
    (_, signed, _), = der.values(data)
    fields = list(der.values(signed))
    certificates = b"".join(content for tag, content, _ in fields if tag == 0xA0)
    (_, signer, _), = der.values(fields[-1][1])
    return certificates, list(der.values(signer))[1][2]


def parts_of_response(response):
    """Returns the certificates of a response, and the identifier of its signer (RFC 6960 4.2.1)."""
    (_, content, _), = der.values(response)
    (_, data, _) = list(der.values(content))[1]
    (_, typed, _), = der.values(data)
    (_, basic, _) = list(der.values(typed))[1]
    (_, fields, _), = der.values(basic)
    fields = list(der.values(fields))
    (_, listed, _), = der.values(fields[3][1])
    return listed, next(it for tag, _, it in der.values(fields[0][1]) if tag in (0xA1, 0xA2))


class Question:
    """A signer with a trusted certificate, and whether OpenSSL accepts it."""

    words: list[bytes]
    is_trusted: bool

    def line(self, answers=b""):
        words = [part.hex() for part in self.words] + [answers.hex() or "-"]
        return " ".join([str(int(NOW.timestamp())), *words])


class Message(Question):
    """The signer of a message."""

    kind = "message"

    def __init__(self, chance, folder):
        parties = chain_of(chance)
        signer = parties[-1]
        others = [party for party in parties[:-1] if chance.random() < 0.9]
        others += [Party(chance, "stranger", None, True) for _ in range(chance.randrange(3))]
        others += chain_of(chance)[1:-1] if chance.random() < 0.3 else []
        anchors = [party for party in parties if party.may_be_trusted]
        anchor = chance.choice(anchors) if chance.random() < 0.3 else parties[0]
        anchor.save(folder / "anchor")
        signer.save(folder / "signer")
        chance.shuffle(others)
        (folder / "others.pem").write_bytes(
            b"".join(party.certificate.public_bytes(PEM) for party in others))
        (folder / "text").write_text("text")
        openssl(folder, "cms", "-sign", "-in", "text", "-signer", "signer.pem", "-inkey",
                "signer.key", "-outform", "DER", "-out", "message",
                *(["-keyid"] if signer.has_key_identifier and chance.random() < 0.8 else []),
                *(["-certfile", "others.pem"] if others else []))
        verified = openssl(folder, "verify", "-CAfile", "anchor.pem", "-partial_chain",
                           "-no-CApath", "-no-CAstore", "-purpose", "smimesign", "-attime",
                           str(int(NOW.timestamp())),
                           *(["-untrusted", "others.pem"] if others else []), "signer.pem",
                           check=False)
        self.is_trusted = verified.returncode == 0
        self.words = [anchor.octets(), *parts_of((folder / "message").read_bytes())]


class Response(Question):
    """The signer of an OCSP response."""

    kind = "response"

    def __init__(self, chance, folder):
        root = Party(chance, f"root {chance.randrange(1000)}", None, True)
        below = Party(chance, "authority", root, True)
        authority = chance.choices((root, below), (3, 1))[0]
        responder = Party(chance, f"responder {chance.randrange(1000)}", authority, False,
                          OCSP_PURPOSES, 0.9)
        known = Party(chance, "known", root, False)
        others = [party.certificate for party in (below, Party(chance, "stranger", None, True))
                  if chance.random() < 0.5]
        listed = [responder.certificate, *others]
        chance.shuffle(listed)
        way = chance.choice((ocsp.OCSPResponderEncoding.NAME, ocsp.OCSPResponderEncoding.HASH))
        response = (ocsp.OCSPResponseBuilder().add_response(
            known.certificate, root.certificate, hashes.SHA1(), ocsp.OCSPCertStatus.GOOD,
            NOW - DAY, NOW + DAY, None, None).responder_id(way, responder.certificate)
            .certificates(listed).sign(responder.key, hashes.SHA256()))
        octets = response.public_bytes(serialization.Encoding.DER)
        (folder / "response").write_bytes(octets)
        root.save(folder / "anchor")
        known.save(folder / "known")
        verified = openssl(folder, "ocsp", "-respin", "response", "-issuer", "anchor.pem", "-cert",
                           "known.pem", "-CAfile", "anchor.pem", "-no-CApath", "-no-CAstore",
                           "-no_nonce", check=False)
        said = (verified.stdout + verified.stderr).decode()
        self.is_trusted = "Response verify OK" in said
        if not self.is_trusted and "erif" not in said:
            raise ValueError(said)
        self.words = [root.octets(), *parts_of_response(octets)]


def is_signed(line):
    """Returns whether the signature is that of a line of the program."""
    _, _, key, _, signed, bits = line.split(" ")
    (_, signature, _), = der.values(bytes.fromhex(bits))
    try:
        serialization.load_der_public_key(bytes.fromhex(key)).verify(
            signature[1:], bytes.fromhex(signed), ec.ECDSA(hashes.SHA256()))
    except InvalidSignature:
        return False
    return True


def cases_of(count):
    chance = random.Random()
    for kind in (Message, Response):
        for _ in range(count):
            with tempfile.TemporaryDirectory() as place:
                yield kind(chance, pathlib.Path(place))


def run(program, lines):
    """Returns the answers of the program, as lists of lines."""
    asked = "".join(f"{line}\n" for line in lines)
    told = subprocess.run([program], input=asked, text=True, stdout=subprocess.PIPE, check=True)
    return [answer.splitlines() for answer in told.stdout.split("\n\n")[:-1]]


def accepted_of(answer):
    """Returns the lines of an answer whose signatures are valid."""
    lines = [line for line in answer if line[0].isdigit() and line.count(" ") == 5]
    return "".join(f"{line}\n" for line in lines if is_signed(line)).encode()


def main(words):
    program, *others = words
    is_written = others == ["--write"]
    cases = list(cases_of(6 if is_written else int(others[0]) if others else 200))
    asked = [case.line() for case in cases]
    first = run(program, asked)
    again = [case.line(accepted_of(answer)) for case, answer in zip(cases, first, strict=True)]
    second = run(program, again)
    kinds, faults = collections.Counter(), 0
    for case, line, answer in zip(cases, again, second, strict=True):
        verdict = next(said for said in answer if not said[0].isdigit() and "=" not in said)
        kinds[case.kind, case.is_trusted, verdict] += 1
        if (verdict == "Trusted") != case.is_trusted:
            faults += 1
            print(f"OpenSSL says {case.is_trusted}, the program {verdict}: {line}")
    for (kind, is_trusted, verdict), number in sorted(kinds.items()):
        said = "trusted" if is_trusted else "rejected"
        print(f"{number:5} {kind}s {said} by OpenSSL: {verdict}")
    print(f"{len(cases)} signers, {faults} differences")
    if is_written and not faults:
        (CRATE / "stdin").write_text("".join(f"{line}\n" for line in asked + again))
        (CRATE / "stdout").write_text(
            "".join(f"{line}\n" for answer in first + second for line in [*answer, ""]))
    return faults > 0


if __name__ == "__main__":
    sys.exit(main(sys.argv[1:]))
