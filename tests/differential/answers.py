#!/usr/bin/env python3
"""Compares `examples/answer.py` with `openssl verify`.

Each case is a root and a certificate below it, which this script builds (RFC 5280 4.1) and Python's
`cryptography` signs: with a valid signature, or with one that contradicts its algorithm, parameters
or key. It prints a line for each case. The status is 1 if answer.py and OpenSSL differ.
"""

import pathlib
import subprocess
import sys
import tempfile

TOP = pathlib.Path(__file__).resolve().parents[2]
sys.path[:0] = [str(TOP / it) for it in ("tests", "tools", "examples")]

import needs

needs.check(__file__)

import answer
from cryptography.hazmat.primitives import hashes
from cryptography.hazmat.primitives.asymmetric import ec, ed448, ed25519, padding, rsa
from cryptography.hazmat.primitives.serialization import Encoding, PublicFormat

import der
from der import NULL, algorithm, bits, explicit, extension, integer, sequence, tlv

DIGESTS = {
    "sha1": ("1.3.14.3.2.26", hashes.SHA1),
    "sha224": ("2.16.840.1.101.3.4.2.4", hashes.SHA224),
    "sha256": ("2.16.840.1.101.3.4.2.1", hashes.SHA256),
    "sha384": ("2.16.840.1.101.3.4.2.2", hashes.SHA384),
    "sha512": ("2.16.840.1.101.3.4.2.3", hashes.SHA512),
    "sha3-256": ("2.16.840.1.101.3.4.2.8", hashes.SHA3_256),
    "unknown": ("2.16.840.1.101.3.4.2.99", hashes.SHA1),
}
RSA_KEY = rsa.generate_private_key(65537, 2048)
P256_KEY = ec.generate_private_key(ec.SECP256R1())
ED25519_KEY = ed25519.Ed25519PrivateKey.generate()
ED448_KEY = ed448.Ed448PrivateKey.generate()


def public(key):
    return key.public_key().public_bytes(Encoding.DER, PublicFormat.SubjectPublicKeyInfo)


def rsa_key(name="1.2.840.113549.1.1.1", parameters=NULL):
    """Returns the RSA key with an algorithm."""
    octets = RSA_KEY.public_key().public_bytes(Encoding.DER, PublicFormat.PKCS1)
    return sequence(algorithm(name, parameters), bits(octets))


def explicit_p256():
    """Returns the key on P-256 with explicit parameters of the curve (X9.62)."""
    words = "openssl pkey -pubin -inform DER -pubout -outform DER -ec_param_enc explicit".split()
    return subprocess.run(words, input=public(P256_KEY), capture_output=True, check=True).stdout


def pss(digest=None, mask=None, salt=None, trailer=None, mask_by="1.2.840.113549.1.1.8"):
    """Encodes RSASSA-PSS-params (RFC 4055 3.1) without the fields that are None."""
    fields = [
        digest and algorithm(DIGESTS[digest][0], NULL),
        mask and algorithm(mask_by, algorithm(DIGESTS[mask][0], NULL)),
        None if salt is None else integer(salt),
        None if trailer is None else integer(trailer),
    ]
    return sequence(*(explicit(at, each) for at, each in enumerate(fields) if each is not None))


def by_pss(hashed, mask, salt):
    how = padding.PSS(padding.MGF1(DIGESTS[mask][1]()), salt)
    return lambda signed: RSA_KEY.sign(signed, how, DIGESTS[hashed][1]())


def by_pkcs1(hashed):
    return lambda signed: RSA_KEY.sign(signed, padding.PKCS1v15(), DIGESTS[hashed][1]())


def by_ecdsa(hashed):
    return lambda signed: P256_KEY.sign(signed, ec.ECDSA(DIGESTS[hashed][1]()))


PSS = "1.2.840.113549.1.1.10"
RSA_SHA256 = algorithm("1.2.840.113549.1.1.11", NULL)
ECDSA_SHA256 = algorithm("1.2.840.10045.4.3.2")
ED25519, ED448 = algorithm("1.3.101.112"), algorithm("1.3.101.113")
RSA, P256 = rsa_key(), public(P256_KEY)
ANY_PSS, ONLY_SHA256 = rsa_key(PSS, b""), rsa_key(PSS, pss("sha256", "sha256", 32))
LONG = 2048 // 8 - 32 - 2  # the longest salt under SHA-256 (RFC 8017 9.1.1)

# A case: what it is, the key, the algorithm, and the function that signs.
RIGHT = [
    ("PKCS #1, SHA-256", RSA, RSA_SHA256, by_pkcs1("sha256")),
    ("ECDSA, SHA-256", P256, ECDSA_SHA256, by_ecdsa("sha256")),
    ("Ed25519", public(ED25519_KEY), ED25519, ED25519_KEY.sign),
    ("Ed448", public(ED448_KEY), ED448, ED448_KEY.sign),
]
# A case of PSS: what it is, the key, the parameters, and how it is signed: digest, digest of the
# mask, size of the salt.
RIGHT_PSS = [
    ("PSS, SHA-256, salt 32", RSA, pss("sha256", "sha256", 32), "sha256", "sha256", 32),
    ("PSS, SHA-224", RSA, pss("sha224", "sha224", 28), "sha224", "sha224", 28),
    ("PSS, SHA-512", RSA, pss("sha512", "sha512", 64), "sha512", "sha512", 64),
    ("PSS, all defaults", RSA, pss(), "sha1", "sha1", 20),
    ("PSS, salt 128", RSA, pss("sha256", "sha256", 128), "sha256", "sha256", 128),
    ("PSS, longest salt", RSA, pss("sha256", "sha256", LONG), "sha256", "sha256", LONG),
    ("PSS, no salt", RSA, pss("sha256", "sha256", 0), "sha256", "sha256", 0),
    ("PSS, MGF1 by SHA-1", RSA, pss("sha256", None, 32), "sha256", "sha1", 32),
    ("PSS, trailer 1", RSA, pss("sha256", "sha256", 32, 1), "sha256", "sha256", 32),
    ("PSS, default salt", RSA, pss("sha256", "sha256"), "sha256", "sha256", 20),
    ("PSS key that permits all", ANY_PSS, pss("sha384", "sha384", 48), "sha384", "sha384", 48),
    ("PSS key, as it permits", ONLY_SHA256, pss("sha256", "sha256", 32), "sha256", "sha256", 32),
    ("PSS key, a longer salt", ONLY_SHA256, pss("sha256", "sha256", 40), "sha256", "sha256", 40),
]
LYING = [
    ("PKCS #1, made by SHA-1", RSA, RSA_SHA256, by_pkcs1("sha1")),
    ("PKCS #1 under a PSS key", ONLY_SHA256, RSA_SHA256, by_pkcs1("sha256")),
    ("ECDSA, made by SHA-1", P256, ECDSA_SHA256, by_ecdsa("sha1")),
    ("ECDSA under an RSA key", RSA, ECDSA_SHA256, by_ecdsa("sha256")),
    ("ECDSA, explicit curve", explicit_p256(), ECDSA_SHA256, by_ecdsa("sha256")),
    ("Ed25519 under an Ed448 key", public(ED448_KEY), ED25519, ED448_KEY.sign),
]
OTHER_MASK = pss("sha256", "sha256", 32, mask_by="1.2.840.113549.1.1.9")
LYING_PSS = [
    ("PSS, no parameters", RSA, b"", "sha1", "sha1", 20),
    ("PSS, NULL", RSA, NULL, "sha1", "sha1", 20),
    ("PSS, unknown digest", RSA, pss("unknown", None, 20), "sha1", "sha1", 20),
    ("PSS, SHA3-256 for SHA-1", RSA, pss("sha3-256", None, 20), "sha1", "sha1", 20),
    ("PSS, SHA-384 for 256", RSA, pss("sha384", "sha256", 32), "sha256", "sha256", 32),
    ("PSS, another MGF1", RSA, pss("sha256", "sha1", 32), "sha256", "sha256", 32),
    ("PSS, digest of MGF1", RSA, pss(None, "sha256", 20), "sha256", "sha256", 20),
    ("PSS, a mask that isn't MGF1", RSA, OTHER_MASK, "sha256", "sha256", 32),
    ("PSS, trailer 2", RSA, pss("sha256", "sha256", 32, 2), "sha256", "sha256", 32),
    ("PSS, another salt", RSA, pss("sha256", "sha256", 20), "sha256", "sha256", 32),
    ("PSS, salt -1", RSA, pss("sha256", "sha256", -1), "sha256", "sha256", 32),
    ("PSS, salt 2^40", RSA, pss("sha256", "sha256", 2**40), "sha256", "sha256", 32),
    ("PSS key, SHA-1", ONLY_SHA256, pss(), "sha1", "sha1", 20),
    ("PSS key, a shorter salt", ONLY_SHA256, pss("sha256", "sha256", 31), "sha256", "sha256", 31),
    ("PSS key, another mask", ONLY_SHA256, pss("sha256", "sha1", 32), "sha256", "sha1", 32),
]
RIGHT += [(*case[:2], algorithm(PSS, case[2]), by_pss(*case[3:])) for case in RIGHT_PSS]
LYING += [(*case[:2], algorithm(PSS, case[2]), by_pss(*case[3:])) for case in LYING_PSS]


def certificate(serial, subject, key, signed_by, sign, authority):
    """Returns a certificate whose issuer is the root, its signed part, and its signature."""
    constraints = sequence(tlv(0x01, b"\xff")) if authority else sequence()
    extensions = [extension("2.5.29.19", constraints, True)]
    if authority:
        extensions.append(extension("2.5.29.15", bits(b"\x06", 1), True))
    issuer, subject = (sequence(tlv(0x31, der.common_name(it))) for it in ("root", subject))
    dates = sequence(der.date("200101000000Z"), der.date("490101000000Z"))
    fields = [serial, signed_by, issuer, dates, subject, key]
    part = der.certificate_part(*fields, extensions)
    signature = bits(sign(part))
    return sequence(part, signed_by, signature), part, signature


def openssl_says(folder, root, leaf):
    """Returns whether OpenSSL trusts the certificate below the root."""
    for file, octets in (("root", root), ("leaf", leaf)):
        (folder / file).write_bytes(octets)
    words = ["openssl", "verify", "-no-CApath", "-no-CAstore", "-trusted", "root", "leaf"]
    return subprocess.run(words, cwd=folder, capture_output=True).returncode == 0


def main():
    if sys.argv[1:]:
        print(__doc__.strip())
        return 2 * (sys.argv[1:] != ["--help"])
    differ = 0
    with tempfile.TemporaryDirectory() as folder:
        for what, key, signed_by, sign in RIGHT + LYING:
            # The root's own signature isn't verified.
            root, _, _ = certificate(1, "root", key, signed_by, lambda part: bytes(64), True)
            leaf, part, signature = certificate(2, "leaf", key, signed_by, sign, False)
            words = (it.hex() for it in (key, signed_by, part, signature))
            why = answer.refusal(f"0 0 {' '.join(words)}".encode())
            theirs = openssl_says(pathlib.Path(folder), root, leaf)
            verdict = f"rejected ({why})" if why else "accepted"
            if theirs != (why is None):
                differ += 1
                verdict += f"; OpenSSL {'accepts' if theirs else 'rejects'} it"
            print(f"{what}: {verdict}")
    print(f"{len(RIGHT)} valid and {len(LYING)} forged signatures, {differ} differ from OpenSSL")
    return differ > 0


if __name__ == "__main__":
    sys.exit(main())
