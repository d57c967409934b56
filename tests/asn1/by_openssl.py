#!/usr/bin/env python3
"""Compares what example_messages prints of messages that OpenSSL makes with what is expected.

    tests/asn1/by_openssl.py PROGRAM
    tests/asn1/by_openssl.py --many COUNT PROGRAM
    tests/asn1/by_openssl.py --write

The messages are OCSP requests and responses, signed and encrypted messages, keys, and timestamps.
PROGRAM is the built example_messages. --write writes its stdin and stdout, with new messages.

--many makes COUNT messages of each kind, by OpenSSL and by Python's `cryptography`, and three
mutations of each. It compares which of them are read, and encoded to the same bytes, with what
OpenSSL and `cryptography` read. Each difference has a class (docs/ASN1.md lists them); one that has
none is an error.
"""

import collections
import pathlib
import random
import re
import subprocess
import sys
import tempfile

import judges
import many
import mutations

CRATE = pathlib.Path(__file__).resolve().parents[2] / "crates" / "example_messages"
EC = ["-newkey", "ec", "-pkeyopt", "ec_paramgen_curve:P-256", "-nodes"]
CIPHER = ["-secretkey", "000102030405060708090a0b0c0d0e0f"]
TSA = """[tsa_config]
serial = serial
crypto_device = builtin
signer_digest = sha256
default_policy = 1.2.3.4.1
other_policies = 1.3.6.1.4.1.32473.1
digests = sha1, sha256, sha384, sha512
accuracy = secs:1, millisecs:500, microsecs:100
ordering = yes
tsa_name = yes
"""
BY_NAME = "issuer CN=Root,O=Tests, 4 attributes"
DATA = "content 1.2.840.113549.1.7.1, inside same bytes, same bytes"
# Each message, its kind, and what is printed of it.
EXPECTED = {
    "request": ("ocsp-request", "OCSP request, 1 asked, signed false, same bytes"),
    "request_nonce": ("ocsp-request", "OCSP request, 3 asked, signed false, same bytes"),
    "request_signed": ("ocsp-request", "OCSP request, 1 asked, signed true, same bytes"),
    "response_name": (
        "ocsp-response",
        "OCSP response Successful, by CN=responder,O=Tests, 10:01 good, 10:02 revoked "
        "Some(KeyCompromise), 77 unknown, 1 certificates, inside same bytes, same bytes",
    ),
    "response_key": (
        "ocsp-response",
        "OCSP response Successful, by a key, 10:01 good, 1 certificates, inside same bytes, "
        "same bytes",
    ),
    "try_later": ("ocsp-response", "OCSP response TryLater, no response, same bytes"),
    "status_4": ("ocsp-response", "rejected: wrong value of ENUMERATED, at octet 2"),
    "signed": ("message", f"signed V1, {BY_NAME}, {DATA}"),
    "signed_key": ("message", f"signed V3, a key, 4 attributes, {DATA}"),
    # SignedAttributes has at least one member (RFC 5652 5.3).
    "signed_empty": (
        "message",
        "rejected: CONTEXT-SPECIFIC [0] (constructed) is not in the form that DER allows, at octet "
        "PLACE",
    ),
    "enveloped": ("message", "content 1.2.840.113549.1.7.3, same bytes"),
    "encrypted": ("message", "encrypted, inside same bytes, same bytes"),
    "digested": ("message", "digested, inside same bytes, same bytes"),
    "key": ("key", "key V1 1.2.840.10045.2.1, same bytes"),
    "key_pbes2": ("encrypted-key", "encrypted key 1.2.840.113549.1.5.13, same bytes"),
    "key_pbe": ("encrypted-key", "encrypted key 1.2.840.113549.1.12.1.3, same bytes"),
    "query": ("timestamp-request", "timestamp request, certificate true, same bytes"),
    "timestamp": (
        "timestamp",
        f"timestamp Granted, signed V3, {BY_NAME}, stamp, named true, inside same bytes, "
        "inside same bytes, same bytes",
    ),
}


def make(folder):
    """Makes the messages in a folder."""

    def openssl(*words):
        subprocess.run(["openssl", *words], cwd=folder, check=True, capture_output=True)

    openssl("req", "-x509", "-newkey", "rsa:2048", "-nodes", "-keyout", "rsa.key", "-out",
            "rsa.pem", "-subj", "/O=Tests/CN=rsa")
    openssl("req", "-x509", *EC, "-keyout", "ca.key", "-out", "ca.pem", "-subj", "/O=Tests/CN=Root")
    extensions = {
        "a": "basicConstraints=CA:FALSE\nsubjectKeyIdentifier=hash",
        "b": "basicConstraints=CA:FALSE",
        "responder": "extendedKeyUsage=OCSPSigning",
        "tsa": "extendedKeyUsage=critical,timeStamping",
    }
    for serial, (name, extension) in enumerate(extensions.items(), 0x1001):
        (folder / "extensions").write_text(extension)
        openssl("req", *EC, "-keyout", f"{name}.key", "-out", "csr", "-subj", f"/O=Tests/CN={name}")
        openssl("x509", "-req", "-in", "csr", "-CA", "ca.pem", "-CAkey", "ca.key", "-out",
                f"{name}.pem", "-set_serial", str(serial), "-extfile", "extensions")
    (folder / "index").write_text(
        "V\t400101000000Z\t\t1001\tunknown\t/O=Tests/CN=a\n"
        "R\t400101000000Z\t200101000000Z,keyCompromise\t1002\tunknown\t/O=Tests/CN=b\n"
    )
    ask = ["ocsp", "-issuer", "ca.pem", "-cert", "a.pem"]
    openssl(*ask, "-no_nonce", "-reqout", "request")
    openssl(*ask, "-cert", "b.pem", "-serial", "0x77", "-reqout", "request_nonce")
    openssl(*ask, "-signer", "a.pem", "-signkey", "a.key", "-reqout", "request_signed")
    answer = ["ocsp", "-index", "index", "-CA", "ca.pem", "-rsigner", "responder.pem", "-rkey",
              "responder.key", "-ndays", "7"]
    openssl(*answer, "-reqin", "request_nonce", "-respout", "response_name")
    openssl(*answer, "-reqin", "request", "-respout", "response_key", "-resp_key_id")
    (folder / "try_later").write_bytes(bytes.fromhex("30030a0103"))
    (folder / "status_4").write_bytes(bytes.fromhex("30030a0104"))
    (folder / "text").write_text("a message")
    signer = ["-in", "text", "-signer", "a.pem", "-inkey", "a.key", "-binary", "-outform", "DER"]
    openssl("cms", "-sign", *signer, "-certfile", "ca.pem", "-nodetach", "-out", "signed")
    openssl("cms", "-sign", *signer, "-keyid", "-nocerts", "-out", "signed_key")
    empty, place = without_attributes((folder / "signed_key").read_bytes())
    (folder / "signed_empty").write_bytes(empty)
    (folder / "place").write_text(str(place))
    der = ["-in", "text", "-binary", "-outform", "DER", "-out"]
    openssl("cms", "-encrypt", "-aes-128-cbc", *der, "enveloped", "a.pem")
    openssl("cms", "-EncryptedData_encrypt", "-aes-128-cbc", *CIPHER, *der, "encrypted")
    openssl("cms", "-digest_create", *der, "digested")
    key = ["pkcs8", "-topk8", "-in", "a.key", "-outform", "DER", "-out"]
    openssl(*key, "key", "-nocrypt")
    openssl(*key, "key_pbes2", "-v2", "aes-256-cbc", "-passout", "pass:x")
    openssl(*key, "key_pbe", "-v1", "PBE-SHA1-3DES", "-passout", "pass:x")
    (folder / "tsa").write_text(TSA)
    (folder / "serial").write_text("01\n")
    openssl("ts", "-query", "-data", "text", "-cert", "-sha256", "-out", "query")
    openssl("ts", "-reply", "-config", "tsa", "-section", "tsa_config", "-queryfile", "query",
            "-signer", "tsa.pem", "-inkey", "tsa.key", "-out", "timestamp")


def without_attributes(octets):
    """Returns a signed message with an empty SET of signed attributes, and the position of the SET
    in the SignedData."""
    message, = mutations.parsed(octets)
    data = message.children[1].children[0]
    signer = data.children[-1].children[0]
    attributes = next(it for it in signer.children if it.tag == b"\xa0" and it.children[1:])
    attributes.children = []
    empty, inside = message.encoded(), data.encoded()
    attributes.tag = b"\xa1"
    others = zip(inside, data.encoded())
    return empty, next(place for place, (one, other) in enumerate(others) if one != other)


def expected(folder):
    """Returns the kind and the expected line of each message, by its name."""
    place = (folder / "place").read_text()
    return {name: (kind, line.replace("PLACE", place)) for name, (kind, line) in EXPECTED.items()}


def printed(program, cases):
    """What the program prints of each kind and message."""
    asked = "".join(f"{kind} {octets.hex()}\n" for kind, octets in cases)
    run = subprocess.run(program, input=asked, text=True, stdout=subprocess.PIPE, check=True)
    return run.stdout.splitlines()


def compare_expected(folder, program):
    """Compares what is printed of the messages with what is expected."""
    rows, faults = expected(folder), 0
    cases = [(kind, (folder / name).read_bytes()) for name, (kind, _) in rows.items()]
    for (name, (_, line)), found in zip(rows.items(), printed(program, cases), strict=True):
        if found != line:
            faults += 1
            print(f"{name}: expected {line}\n    found {found}")
    print(f"{len(EXPECTED)} messages, {faults} faults")
    return faults


# What is printed of enveloped data, into which the program doesn't look.
ENVELOPED = "content 1.2.840.113549.1.7.3"
# The classes of differences: what the program says where OpenSSL reads a message, and the reason of
# OpenSSL, or of `cryptography`, where the program reads one.
REJECTED = {
    "not DER": "indefinite length|wrong length|form that DER allows|out of order|too many bytes",
    "equal members": "a set contains a member twice",
    "object identifier": "malformed object identifier",
    "number": r"wrong value of (INTEGER|ENUMERATED|BIT STRING|CONTEXT)|invalid tag number",
    "date": "wrong value of (UTCTime|GeneralizedTime)",
    "text": "the text is not UTF-8",
    "content": "bytes after the value|unknown tag|unexpected tag|end too early",
}
READ = {
    "ANY": "mstring|invalid utf8string|string too short|invalid object encoding|bad pkcs7 type"
           "|boolean is wrong length|ExtraData|UnknownDefinedBy|AlgorithmIdentifier::params"
           "|invalid bit string|null is wrong length|wrong tag",
    "token": "detached content|token present|token not present",
    "several requests": "NotImplementedError: OCSP request contains more than one request",
    "equal extensions": "DuplicateExtension",
    "no response": "does not contain a BasicResponse",
}


def named(classes, text):
    """The class of a difference, or None."""
    return next((name for name, reason in classes.items() if re.search(reason, text)), None)


def differences(kind, line, openssl, reason, python):
    """Yields the reader that differs, and the class, for a line that the program prints."""
    is_read = not line.startswith("rejected")
    if is_read and openssl == "refused":
        yield "OpenSSL rejects", "enveloped" if line.startswith(ENVELOPED) else named(READ, reason)
    if not is_read and openssl == "same":
        yield "OpenSSL reads", named(REJECTED, line)
    # `cryptography` reads the other kinds with what is inside them, or in other formats too.
    if kind.startswith("ocsp") and python is not None:
        if is_read and python != "read":
            yield "cryptography rejects", named(READ, python)
        if not is_read and python == "read":
            yield "cryptography reads", named(REJECTED, line)


def compare_many(folder, count, program):
    """Compares what is read of many messages with what OpenSSL and `cryptography` read."""
    made = random.Random(1)
    maker, cases = many.Maker(folder, made), {}
    for kind in judges.TYPES:
        for _ in range(count):
            octets = maker.made(kind)
            cases[kind, octets] = True
            for _ in range(3):
                cases.setdefault((kind, mutations.mutated(octets, made)), False)
    faults, found, counts = 0, collections.Counter(), collections.Counter()
    for ((kind, octets), is_made), line in zip(cases.items(), printed(program, cases), strict=True):
        openssl, reason = judges.openssl(kind, octets)
        is_read = not line.startswith("rejected")
        counts[kind, is_made, is_read] += 1
        is_wrong = "OTHER BYTES" in line or is_made and not is_read
        for who, name in differences(kind, line, openssl, reason, judges.python(kind, octets)):
            found[who, name] += 1
            is_wrong |= name is None
        if is_wrong:
            faults += 1
            print(f"{kind} {octets.hex()}\n    {line}\n    OpenSSL: {openssl} {reason}")
    for kind in judges.TYPES:
        print(f"{kind}: {counts[kind, True, True]} made, {counts[kind, False, True]} changed ones "
              f"read, {counts[kind, False, False]} rejected")
    for (who, name), times in sorted(found.items(), key=str):
        print(f"{who}: {name}: {times}")
    print(f"{len(cases)} messages, {faults} faults")
    return faults


def main(words):
    with tempfile.TemporaryDirectory() as place:
        folder = pathlib.Path(place)
        make(folder)
        if words == ["--write"]:
            rows = expected(folder)
            (CRATE / "stdin").write_text("".join(
                f"{kind} {(folder / name).read_bytes().hex()}\n"
                for name, (kind, _) in rows.items()))
            (CRATE / "stdout").write_text("".join(f"{line}\n" for _, line in rows.values()))
            return 0
        if words[0] == "--many":
            return bool(compare_many(folder, int(words[1]), words[2:]))
        return bool(compare_expected(folder, words))


if __name__ == "__main__":
    sys.exit(main(sys.argv[1:]))
